"""Words of scripts and transcripts: values as they are spelled there."""
import hashlib
import re

from .values import GONE, Object, Row

NUMBER = re.compile(r'-?(0|[1-9][0-9]*)', re.ASCII)
HEX = re.compile(r'([0-9a-fA-F]{2})*')
HEX_DIGITS = b'0123456789abcdefABCDEF'
PLAIN = frozenset(b'ABCDEFGHIJKLMNOPQRSTUVWXYZabcdefghijklmnopqrstuvwxyz0123456789-._~')
REPEATED_MOST = 33554432


# ---- of a script


def value_of(word):
    """The value that a word spells, None where it spells none."""
    if word in ('true', 'false'):
        return word == 'true'
    if word.startswith('t:'):
        return text_of(word[2:])
    if word.startswith('h:'):
        data = bytes_of(word[2:])
        return None if data is None else Object(data)
    if word.startswith('r:'):
        return repeated_of(word[2:])
    return number_of(word)


def number_of(word):
    """A number of 64 bits with its sign."""
    if not NUMBER.fullmatch(word) or word == '-0' or len(word) > 20:
        return None
    number = int(word)
    return number if -2 ** 63 <= number < 2 ** 63 else None


def text_of(text):
    """A text that is percent-encoded, as its bytes; they are UTF-8."""
    data = decoded(text)
    try:
        data.decode()
    except UnicodeDecodeError:
        return None
    return data


def decoded(text):
    """A `%` without two hex digits behind it stands for itself."""
    data, at, out = text.encode(), 0, bytearray()
    while at < len(data):
        pair = data[at + 1:at + 3]
        if data[at] == ord('%') and len(pair) == 2 and all(digit in HEX_DIGITS for digit in pair):
            out.append(int(pair, 16))
            at += 3
        else:
            out.append(data[at])
            at += 1
    return bytes(out)


def bytes_of(digits):
    """The bytes of an even number of hex digits."""
    return bytes.fromhex(digits) if HEX.fullmatch(digits) else None


def repeated_of(text):
    """An object of a length, made of some bytes that are repeated and cut."""
    length, colon, digits = text.partition(':')
    unit = bytes_of(digits)
    if not colon or length[:1] == '-' or not NUMBER.fullmatch(length) or len(length) > 8 or not unit:
        return None
    if int(length) > REPEATED_MOST:
        return None
    return Object((unit * (int(length) // len(unit) + 1))[:int(length)])


def content_of(words):
    """The row of some words that are values."""
    return row_of([value_of(word) for word in words])


def row_of(values):
    return Row(tuple(value for value in values if not isinstance(value, Object)),
               tuple(value.data for value in values if isinstance(value, Object)))


# ---- of a transcript


def cell_word(cell):
    if type(cell) is bool:
        return 'true' if cell else 'false'
    if type(cell) is int:
        return str(cell)
    return 't:' + ''.join(chr(byte) if byte in PLAIN else '%%%02X' % byte for byte in cell)


def whole_word(data):
    return 'h:' + data.hex()


def sum_word(data):
    return 'o:%d:%s' % (len(data), hashlib.sha256(data).hexdigest())


def content_words(content, object_word=whole_word):
    if content == GONE:
        return GONE
    return ' '.join([cell_word(cell) for cell in content.cells] + [object_word(data) for data in content.objects])
