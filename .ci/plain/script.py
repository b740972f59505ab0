"""Lines of a script: which words are in the grammar, and what they say.

A line in the grammar becomes its first word and its arguments: nodes by their names, tables by their numbers, rows in
lower case, columns by their numbers, and values as they are."""
import re

from .values import GONE, Column, Object, Schema
from .words import bytes_of, row_of, value_of

NODE = re.compile(r'[SGC][1-9][0-9]*', re.ASCII)
TABLE = re.compile(r'T[1-9][0-9]*', re.ASCII)
NAME = re.compile(r'[a-z][a-z0-9_-]{0,63}')
DECIMAL = re.compile(r'0|[1-9][0-9]*', re.ASCII)
ROW = re.compile(r'[0-9a-f]{8}(-[0-9a-f]{4}){3}-[0-9a-f]{12}')
SCHEMES = ('strong', 'causal', 'eventual')
KINDS = ('int', 'bool', 'text', 'object')
CHUNKS = ('64', '1024', '65536')
DECLARATIONS = ('store', 'gate', 'table', 'draft', 'client')

# Why a word is at fault.
UNKNOWN, MISSING, SURPLUS, RANGE, FORM, NO_ROW, NO_VALUE, UNDECLARED, TWICE, NOT_UTF8, BEHIND_EVENT = range(1, 12)
# The most of each letter's numbers, with the limit that is passed above it.
MOST = {'T': (64, 4), 'C': (64, 5), 'G': (16, 6), 'S': (16, 7)}
COLUMNS_MOST, COLUMNS_LIMIT = 32, 8
ROWS_MOST, ROWS_LIMIT = 65536, 9


class BadLine(Exception):
    """A line that isn't in the grammar: the code, and the word at fault."""

    def __init__(self, code, word):
        super().__init__(code, word)
        self.code = code


class LimitPassed(Exception):
    """A limit that ends the run."""

    def __init__(self, limit):
        super().__init__(limit)
        self.limit = limit


class Declared:
    """What was declared, whether an event was read, and the rows that were named, by their tables."""

    def __init__(self):
        self.nodes = set()
        self.schemas = {}
        self.rows = {}
        self.has_event = False


class Line:
    """The words of a line, read one after the other. Limits that are passed are told behind the last."""

    def __init__(self, words, declared):
        self.words = words
        self.declared = declared
        self.at = 1
        self.limits = []

    def fault(self, code, at=None):
        raise BadLine(code, self.at if at is None else at)

    def need(self, holds, code):
        if not holds:
            self.fault(code)

    def peek(self):
        self.need(self.at < len(self.words), MISSING)
        return self.words[self.at]

    def take(self, value):
        """Goes on behind a word that was read."""
        self.at += 1
        return value

    def has_more(self):
        return self.at < len(self.words)

    def some(self, read):
        """One or more words, to the end of the line."""
        found = [read()]
        while self.has_more():
            found.append(read())
        return found

    def end(self):
        if self.has_more():
            self.fault(SURPLUS)
        if self.limits:
            raise LimitPassed(self.limits[0])

    # ---- words

    def matching(self, pattern, code):
        word = self.peek()
        self.need(pattern.fullmatch(word), code)
        return word

    def choice(self, words, code=FORM):
        word = self.peek()
        self.need(word in words, code)
        return self.take(word)

    def number(self, below, least=0):
        word = self.matching(DECIMAL, RANGE)
        self.need(len(word) <= 20 and least <= int(word) < below, RANGE)
        return self.take(int(word))

    def node(self, letters='SGC'):
        word = self.matching(NODE, FORM)
        self.need(word[0] in letters, FORM)
        self.need(word in self.declared.nodes, UNDECLARED)
        return self.take(word)

    def client(self):
        return self.node('C')

    def table(self):
        word = self.matching(TABLE, FORM)
        self.need(is_small(word) and int(word[1:]) in self.declared.schemas, UNDECLARED)
        return self.take(int(word[1:]))

    def row(self, table):
        word = self.peek().lower()
        self.need(ROW.fullmatch(word), NO_ROW)
        rows = self.declared.rows.setdefault(table, set())
        if word not in rows:
            if len(rows) == ROWS_MOST:
                self.limits.append(ROWS_LIMIT)
            else:
                rows.add(word)
        return self.take(word)

    def value(self):
        value = value_of(self.peek())
        self.need(value is not None, NO_VALUE)
        return self.take(value)

    def hex(self):
        data = bytes_of(self.peek())
        self.need(data, NO_VALUE)
        return self.take(data)

    def column_named(self, table, name):
        self.need(NAME.fullmatch(name), FORM)
        names = [column.name for column in self.declared.schemas[table].columns]
        self.need(name in names, UNDECLARED)
        return names.index(name)

    def column(self, table):
        return self.take(self.column_named(table, self.peek()))

    def change(self, table):
        """A column with a value."""
        name, equals, word = self.peek().partition('=')
        self.need(equals, FORM)
        column = self.column_named(table, name)
        value = value_of(word)
        self.need(value is not None, NO_VALUE)
        return self.take((column, value))

    # ---- declarations

    def new_number(self, letter):
        """The number of a node or a table that is declared."""
        word = self.matching(re.compile(letter + '[1-9][0-9]*', re.ASCII), FORM)
        if self.is_in_limit(word):
            is_known = int(word[1:]) in self.declared.schemas if letter == 'T' else word in self.declared.nodes
            self.need(not is_known, TWICE)
        return self.take(word)

    def is_in_limit(self, word):
        most, limit = MOST[word[0]]
        is_in = is_small(word) and int(word[1:]) <= most
        if not is_in:
            self.limits.append(limit)
        return is_in

    def new_name(self):
        word = self.matching(NAME, FORM)
        self.need(all(schema.name != word for schema in self.declared.schemas.values()), TWICE)
        return self.take(word)

    def new_column(self, before):
        """A column behind those before."""
        name, colon, kind = self.peek().partition(':')
        self.need(NAME.fullmatch(name) and colon and kind in KINDS, FORM)
        self.need(all(column.name != name for column in before), TWICE)
        self.need(kind == 'object' or all(column.kind != 'object' for column in before), NO_VALUE)
        if len(before) == COLUMNS_MOST:
            self.limits.append(COLUMNS_LIMIT)
        return self.take(Column(name, kind))

    def new_columns(self):
        columns = []
        self.some(lambda: columns.append(self.new_column(columns)))
        return tuple(columns)

    def gate(self):
        """The gateway of a client, None where it is wired."""
        if self.peek() == '-':
            return self.take(None)
        word = self.matching(re.compile('G[1-9][0-9]*', re.ASCII), FORM)
        if self.is_in_limit(word):
            self.need(word in self.declared.nodes, UNDECLARED)
        return self.take(word)

    def tables(self):
        """Tables joined by commas, or none."""
        if self.peek() == '-':
            return self.take([])
        found = []
        for word in self.peek().split(','):
            self.need(TABLE.fullmatch(word), FORM)
            if self.is_in_limit(word):
                self.need(int(word[1:]) in self.declared.schemas, UNDECLARED)
            self.need(word not in found, TWICE)
            found.append(word)
        return self.take(found)


def is_small(word):
    """Whether a node's or table's number is short enough to be one of those that are declared."""
    return len(word) <= 3


def numbers(tables):
    return [int(word[1:]) for word in tables]


# ---- what stands behind each first word


def store(line):
    return [line.new_number('S')]


def gate(line):
    return [line.new_number('G')]


def table(line):
    word, name = line.new_number('T'), line.new_name()
    scheme, chunk = line.choice(SCHEMES), line.choice(CHUNKS, RANGE)
    return [word, Schema(name, scheme, int(chunk), line.new_columns())]


def client(line):
    return [line.new_number('C'), line.gate(), line.tables()]


def at_client(line):
    return [line.client()]


def at_table(line):
    return [line.client(), line.table()]


def at_row(line):
    args = at_table(line)
    return args + [line.row(args[1])]


def link(line):
    return at_client(line) + [line.choice(('up', 'down')) == 'up']


def write(line):
    return at_row(line) + [row_of(line.some(line.value))]


def update(line):
    args = at_row(line)
    return args + [line.some(lambda: line.change(args[1]))]


def patch(line):
    args = at_row(line)
    return args + [line.column(args[1]), line.number(2 ** 32), line.hex()]


def select(line):
    return at_table(line) + [line.some(lambda: line.take(line.peek()))]


def subscribe(line):
    return at_table(line) + [line.number(2 ** 32, 1), line.number(2 ** 32)]


def write_timer(line):
    return at_table(line) + [line.number(2 ** 32), line.number(2 ** 32)]


def resolve(line):
    args = at_row(line) + [line.number(2 ** 64)]
    choice = line.choice(('mine', 'theirs', 'new'))
    return args + [new_content(line) if choice == 'new' else choice]


def new_content(line):
    if line.peek() == GONE:
        return line.take(GONE)
    return row_of(line.some(line.value))


def resolve_all(line):
    args = at_table(line)
    choice = line.choice(('mine', 'theirs', 'larger'))
    return args + [line.column(args[1]) if choice == 'larger' else choice]


def deliver(line):
    return [line.number(2 ** 64)]


def at_node(line):
    return [line.node()]


def crash(line):
    return at_node(line) + [line.number(5), line.number(2 ** 64)]


def nothing(line):
    return []


def of_row(line):
    number = line.table()
    return [number, line.row(number)]


def of_table(line):
    return [line.table()]


FORMS = {
    'store': store, 'gate': gate, 'table': table, 'draft': table, 'client': client, 'link': link,
    'write': write, 'update': update, 'patch': patch, 'delete': at_row, 'show': at_row, 'sum': at_row, 'select': select,
    'sync': at_table, 'pull': at_table, 'create': at_table, 'drop': at_table,
    'subscribe': subscribe, 'unsubscribe': at_table, 'writesync': write_timer,
    'begin_cr': at_table, 'conflicts': at_table, 'end_cr': at_table, 'resolve': resolve, 'resolve_all': resolve_all,
    'deliver': deliver, 'hold': at_node, 'free': at_node, 'work': at_node, 'do': at_node, 'crash': crash,
    'start': at_node, 'tick': nothing, 'settle': nothing, 'sshow': of_row, 'chunks': of_table, 'history': of_table,
}


def read_words(words, declared):
    """The first word and the arguments of a line; what it declares, and that an event was read, is noted."""
    verb = words[0]
    if verb not in FORMS:
        raise BadLine(UNKNOWN, 0)
    if verb in DECLARATIONS and declared.has_event:
        raise BadLine(BEHIND_EVENT, 0)
    if verb in ('table', 'draft') and not any(name[0] == 'S' for name in declared.nodes):
        raise BadLine(UNDECLARED, 0)
    line = Line(words, declared)
    args = FORMS[verb](line)
    line.end()
    note(verb, args, declared)
    return verb, args


def note(verb, args, declared):
    if verb not in DECLARATIONS:
        declared.has_event = True
    elif verb in ('table', 'draft'):
        declared.schemas[int(args[0][1:])] = args[1]
    else:
        declared.nodes.add(args[0])


def words_of(line):
    """The words of a line as bytes; none where it is passed over."""
    if line[:1] == b'#':
        return []
    try:
        text = line.decode()
    except UnicodeDecodeError:
        raise BadLine(NOT_UTF8, 0) from None
    return [word for word in text.split(' ') if word]
