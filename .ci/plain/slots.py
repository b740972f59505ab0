"""What a client keeps of a row: contents that are held in chunks with local names, and the four slots.

Each content that a client keeps is held in chunks with local names, and the Store's where it knows them. A write in
flight has its content by the pieces that are sent."""
import bisect
import itertools
from collections import namedtuple

from .chunks import ChunkName, LocalName, against, is_kept, names_in, pieces_of, same_data, spelled

HeldChunk = namedtuple('HeldChunk', 'name stored data')
Held = namedtuple('Held', 'content objects')
Main = namedtuple('Main', 'number read held')
Shadow = namedtuple('Shadow', 'version held')
InFlight = namedtuple('InFlight', 'number read base held content is_whole')
Slots = namedtuple('Slots', 'main shadow out conflict')
EMPTY = Slots(None, None, None, None)

# Where a row of the Store takes the chunks that it keeps from. True: from the shown chunk at the same place first, and
# those which only a write holds that waits for its answer are brought anew. False: from all four slots alike, what was
# read going before what was written, under the local names that they have there.
KEEPS_WHAT_IS_SHOWN = True


def version_in(shadow):
    return shadow.version if shadow else 0


def version_seen(slots):
    return version_in(slots.conflict or slots.shadow)


def is_unsent(slots):
    """Whether a row has a write that can be sent, and wasn't."""
    return bool(slots.main and not slots.out and not slots.conflict)


def local_names(slots):
    return {name for slot in slots if slot for name in names_in(slot.held.objects)}


def shown_in(slots):
    """What a row shows: its words, and what holds the content."""
    if slots.main and slots.conflict:
        return 'conflict %d %d' % (slots.main.number, slots.conflict.version), slots.main.held
    if slots.main:
        return 'mine %d' % slots.main.number, slots.main.held
    if slots.shadow:
        return 'clean %d' % slots.shadow.version, slots.shadow.held
    return None


# ---- chunks that are held already


def stored_chunks(slots):
    """The chunks that slots hold, by the Store's names and their lengths. Of several under one name the first
    counts."""
    if KEEPS_WHAT_IS_SHOWN:
        nameless = slots.out and slots.out._replace(held=without_names(slots.out.held))
        found = (slots.main, slots.shadow, slots.conflict, nameless)
    else:
        found = (slots.shadow, slots.conflict, slots.main, slots.out)
    held = {}
    for slot in found:
        for chunk in [chunk for chunks in slot.held.objects for chunk in chunks] if slot else []:
            held.setdefault((chunk.stored, len(chunk.data)), chunk)
    return held


def without_names(held):
    """The same chunks, to be brought anew."""
    return held._replace(objects=[[chunk._replace(name=None) for chunk in chunks] for chunks in held.objects])


def held_against(shown, objects, plan):
    """What holds some chunks: one that equals the chunk at its place of what is shown has that one's local name,
    another one its own, and those without are brought by a plan, by rising ordinal."""
    ordinals = itertools.count()

    def held_by(old, chunk):
        if chunk.name and not KEEPS_WHAT_IS_SHOWN:
            return chunk
        if same_data(old, chunk):
            return chunk._replace(name=old.name, stored=chunk.stored or old.stored)
        if chunk.name:
            return chunk
        return chunk._replace(name=LocalName(plan, next(ordinals)))
    return against(shown, objects, held_by)


# ---- what is sent of a write, and what holds it when it is accepted


def changed_in(content, shadow, objects):
    """A content by its pieces: a chunk that equals the one at its place of what was read last is kept."""
    before = shadow.held.objects if shadow else []
    return spelled(content, against(before, objects, lambda old, chunk: old.stored if same_data(old, chunk) else None))


def all_fresh(content, objects):
    return spelled(content, [[None for chunk in chunks] for chunks in objects])


def accepted_at(version, out):
    """What holds a write that was accepted: a fresh chunk has the Store's name of the version."""
    names = [[piece.name if is_kept(piece) else ChunkName(version, piece.ordinal) for piece in pieces]
             for pieces in pieces_of(out.content)]
    objects = [[chunk._replace(stored=name) for chunk, name in zip(chunks, named)]
               for chunks, named in zip(out.held.objects, names)]
    return Held(out.held.content, objects)


def freed(slots, number):
    """What waited is accepted: Main is dropped where it is the write of this number."""
    return slots._replace(main=None if slots.main and slots.main.number == number else slots.main, out=None)


# ---- tables that are opened


class RowSet:
    """Rows in their order."""

    def __init__(self):
        self.rows = []

    def __iter__(self):
        return iter(self.rows)

    def __len__(self):
        return len(self.rows)

    def first(self):
        return self.rows[0] if self.rows else None

    def put(self, row, is_in):
        """Puts a row in, or takes it out."""
        at = bisect.bisect_left(self.rows, row)
        was_in = at < len(self.rows) and self.rows[at] == row
        if is_in and not was_in:
            self.rows.insert(at, row)
        elif was_in and not is_in:
            del self.rows[at]


class OpenTable:
    def __init__(self, schema):
        self.schema = schema
        self.position = 0
        # each row's slots, and the rows that wait for an answer, that have something to send, and that are in conflict
        self.rows = {}
        self.waiting = RowSet()
        self.unsent = RowSet()
        self.conflicted = RowSet()
        self.forget()

    def forget(self):
        """What is in memory is lost: the answers that wait for fragments, by their rows that to a torn row and by None
        that to a pull; the rows that are torn; whether conflicts are being resolved; and the write timer."""
        self.assemblies = {}
        self.torn = set()
        self.is_resolving = False
        self.timer = None

    def put(self, row, slots):
        self.rows[row] = slots
        self.waiting.put(row, slots.out)
        self.unsent.put(row, is_unsent(slots))
        self.conflicted.put(row, slots.conflict)
