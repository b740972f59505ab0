"""How many bytes messages have as frames: a length of four bytes, a kind of one, and the body."""
from .chunks import is_kept, placed_pieces
from .messages import (Answer, Changed, Create, Drop, Fragment, Notify, Pull, Pulled, Register, Request, Response,
                       Restore, Save, Subscribe, TornPull, TornPulled, Unsubscribe)
from .values import GONE, spelled_len

HEAD = 5
ROW_ID = 16


def frame_len(message):
    return HEAD + BODIES[type(message)](message)


def text_len(text):
    return 4 + len(text)


def schema_len(schema):
    return text_len(schema.name) + 9 + sum(text_len(column.name) + 1 for column in schema.columns)


def content_len(content):
    """A kept piece has a name of 12 bytes, a fresh one an ordinal of 4."""
    if content == GONE:
        return 1
    pieces = sum(13 if is_kept(piece) else 5 for _, piece in placed_pieces(content))
    return 9 + sum(map(spelled_len, content.cells)) + 8 * len(content.objects) + pieces


def option_len(value, length):
    return 1 if value is None else 1 + length(value)


def header_len(header):
    return ROW_ID + 24 + content_len(header.content)


BODIES = {
    Register: lambda m: 4,
    Create: lambda m: 16 + schema_len(m.schema),
    Drop: lambda m: 16,
    Subscribe: lambda m: 24,
    Unsubscribe: lambda m: 16,
    Notify: lambda m: 12,
    Fragment: lambda m: 37 + ROW_ID + len(m.data),
    Pull: lambda m: 24,
    Pulled: lambda m: 32 + option_len(m.header, header_len),
    Request: lambda m: 32 + ROW_ID + content_len(m.content),
    Response: lambda m: 25 + ROW_ID,
    TornPull: lambda m: 16 + ROW_ID,
    TornPulled: lambda m: 8 + ROW_ID + option_len(m.header, header_len),
    Answer: lambda m: 21 + option_len(m.schema, schema_len),
    Save: lambda m: 21,
    Restore: lambda m: 13 + 12 * len(m.subscriptions),
    Changed: lambda m: 16,
}
