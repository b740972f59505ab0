"""The ring of Stores: which of them owns a table."""
import hashlib


def position_of(text):
    """The first eight bytes of a text's SHA-256, the highest first."""
    return int.from_bytes(hashlib.sha256(text.encode()).digest()[:8], 'big')


def owner_of(stores, table_name):
    """The first Store at or after the table's position, going up and beginning again behind the highest; of two at one
    position the one of the lower number."""
    start = position_of(table_name)

    def way(store):
        return (position_of(str(store)) - start) % 2 ** 64, store
    return min(stores, key=way, default=None)
