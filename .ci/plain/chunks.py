"""Chunks with names, and a content by its pieces, as it travels."""
import itertools
from collections import namedtuple

from .values import GONE, Row

# A name is of a version at the Store, and of a plan at a client, with an ordinal
ChunkName = namedtuple('ChunkName', 'version ordinal')
LocalName = namedtuple('LocalName', 'plan ordinal')
Chunk = namedtuple('Chunk', 'name data')

# In a request a piece names a chunk that the Store has, or numbers a fresh one; in an answer each piece names its
# chunk, and which ones are fresh is told by their versions. Where a piece stands is told by its column and its place in
# that object
Keep = namedtuple('Keep', 'name')
Fresh = namedtuple('Fresh', 'ordinal')
Spelled = namedtuple('Spelled', 'length pieces')


def against(before, objects, made):
    """What is made of each chunk of some objects and the one that stood at its place before, None where none did."""
    def made_of(chunks, old):
        return [made(old[place] if place < len(old) else None, chunk) for place, chunk in enumerate(chunks)]
    return [made_of(chunks, before[number] if number < len(before) else []) for number, chunks in enumerate(objects)]


def same_data(old, chunk):
    return old is not None and old.data == chunk.data


def names_in(objects):
    return [chunk.name for chunks in objects for chunk in chunks]


def joined(content, objects):
    """A row with the cells of a content, whose objects have these chunks."""
    if content == GONE:
        return GONE
    return Row(content.cells, tuple(b''.join(chunk.data for chunk in chunks) for chunks in objects))


# ---- spelled contents


def spelled(content, names):
    """A content by its pieces: of each of its chunks the name, None where it is fresh; these are numbered by rising
    object, then place."""
    if content == GONE:
        return GONE
    ordinals = itertools.count()
    pieces = [[Keep(name) if name else Fresh(next(ordinals)) for name in chunks] for chunks in names]
    return Row(content.cells, tuple(Spelled(len(data), own) for data, own in zip(content.objects, pieces)))


def filled(content, made):
    """What is made of each piece of a spelled content and its place, object by object."""
    if content == GONE:
        return []
    return [[made((column, place), piece) for place, piece in enumerate(spelling.pieces)]
            for column, spelling in enumerate(content.objects, len(content.cells))]


def pieces_of(content):
    return filled(content, lambda at, piece: piece)


def placed_pieces(content):
    """The pieces of a spelled content with their places, by rising column, then place."""
    return [pair for pairs in filled(content, lambda at, piece: (at, piece)) for pair in pairs]


def len_at(size, content, at):
    """How long the chunk at a place of a spelled content is."""
    column, place = at
    return min(size, content.objects[column - len(content.cells)].length - place * size)


def is_kept(piece):
    """Whether a piece of a request is kept."""
    return type(piece) is Keep


def is_kept_up_to(position):
    """Whether a piece of an answer is kept: its chunk is of a version up to a position."""
    return lambda piece: piece.name.version <= position
