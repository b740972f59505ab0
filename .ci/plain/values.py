"""Values of rows: cells, objects, contents and schemas, whether a content fits a schema, and what an edit makes of
it."""
from collections import namedtuple

# A row has cells (numbers, truth values, texts as their bytes) and objects; GONE is a row that is deleted. OBJECT is a
# value of an object column as it stands in a script.
Row = namedtuple('Row', 'cells objects')
Object = namedtuple('Object', 'data')
GONE = 'gone'
Column = namedtuple('Column', 'name kind')
Schema = namedtuple('Schema', 'name scheme chunk columns')

TEXT_MOST, SPELLED_MOST, OBJECT_MOST, ROW_MOST, CHUNKS_MOST = 65535, 524288, 4194304, 16777216, 32768


class Refused(Exception):
    """A refusal, with the words that are printed of it."""

    def __init__(self, *words):
        super().__init__(*words)
        self.words = words


def cell_columns(schema):
    return [column for column in schema.columns if column.kind != 'object']


def column_number(schema, name):
    """The number of a column that the schema has."""
    return [column.name for column in schema.columns].index(name)


def cell_kind(cell):
    return 'bool' if type(cell) is bool else 'int' if type(cell) is int else 'text'


def is_of(kind, cell):
    return cell_kind(cell) == kind and (kind != 'text' or len(cell) <= TEXT_MOST)


def spelled_len(cell):
    return {'bool': lambda: 2, 'int': lambda: 9, 'text': lambda: 5 + len(cell)}[cell_kind(cell)]()


def cell_len(cell):
    return {'bool': lambda: 1, 'int': lambda: 8, 'text': lambda: len(cell)}[cell_kind(cell)]()


def cut(size, data):
    return [data[at:at + size] for at in range(0, len(data), size)]


def chunk_count(size, data):
    return -(-len(data) // size)


# ---- whether a content fits


def check_fit(schema, content):
    """Refuses a content that doesn't fit: first for its cells, then for its objects, its size, its chunks."""
    if content == GONE:
        return
    kinds = [column.kind for column in cell_columns(schema)]
    check_cells(kinds, content.cells)
    check_objects(len(kinds), len(schema.columns) - len(kinds), content.objects)
    length = sum(map(cell_len, content.cells)) + sum(map(len, content.objects))
    if length > ROW_MOST:
        raise Refused(12, length)
    chunks = sum(chunk_count(schema.chunk, data) for data in content.objects)
    if chunks > CHUNKS_MOST:
        raise Refused(9, chunks)


def check_cells(kinds, cells):
    """The first cell that is missing, of another kind, or one with which the cells are too long; or one too many."""
    spelled = 0
    for place, kind in enumerate(kinds):
        if place >= len(cells) or not is_of(kind, cells[place]):
            raise Refused(10, place)
        spelled += spelled_len(cells[place])
        if spelled > SPELLED_MOST:
            raise Refused(10, place)
    if len(cells) > len(kinds):
        raise Refused(10, len(kinds))


def check_objects(first, count, objects):
    """The first object that is missing (its length counts as 0) or too long; or one too many."""
    for place in range(max(count, len(objects))):
        length = len(objects[place]) if place < len(objects) else 0
        if place >= min(count, len(objects)) or length > OBJECT_MOST:
            raise Refused(11, first + min(place, count), length)


# ---- edits. A value of the wrong sort leaves a row that doesn't fit just there


def updated(schema, content, changes):
    """A row with other values in some columns; of one column the last change counts."""
    first = len(cell_columns(schema))
    cells, objects = list(content.cells), list(content.objects)
    for place, value in changes:
        is_object = isinstance(value, Object)
        if place < first:
            cells[place] = unfit_cell(schema.columns[place].kind) if is_object else value
        else:
            objects[place - first] = value.data if is_object else None
    lacking = objects.index(None) if None in objects else len(objects)
    return Row(tuple(cells), tuple(objects[:lacking]))


def unfit_cell(kind):
    return False if kind == 'int' else 0


def patched(schema, content, column, at, data):
    """A row with other bytes in an object, from a place on."""
    place = column - len(cell_columns(schema))
    if place < 0:
        raise Refused(11, column, 0)
    old = content.objects[place]
    if len(old) < at:
        raise Refused(11, column, len(old))
    objects = list(content.objects)
    objects[place] = old[:at] + data + old[at + len(data):]
    return Row(content.cells, tuple(objects))
