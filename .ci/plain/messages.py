"""Messages between clients, gateways and Stores, and those that wait for fragments."""
from collections import namedtuple

from .chunks import filled, is_kept_up_to, len_at, placed_pieces

# What a client sends names it by its number, and its session by a token, which is 0 where it has none. A header spells
# a row by the names of its chunks. A fragment is a chunk on its way; its key is the number of the write on the way to
# the Store, and the version of the row on the way to a client.
Register = namedtuple('Register', 'client')
Create = namedtuple('Create', 'client token table schema')
Drop = namedtuple('Drop', 'client token table')
Subscribe = namedtuple('Subscribe', 'client token table period tolerance')
Unsubscribe = namedtuple('Unsubscribe', 'client token table')
Notify = namedtuple('Notify', 'client tables')
Fragment = namedtuple('Fragment', 'client token table row key column place data')
Pull = namedtuple('Pull', 'client token table position')
Header = namedtuple('Header', 'row version yours_number yours_version content')
Pulled = namedtuple('Pulled', 'client table origin to latest header')
Request = namedtuple('Request', 'client token table row number base content')
Response = namedtuple('Response', 'client table row number outcome version')
TornPull = namedtuple('TornPull', 'client token table row')
TornPulled = namedtuple('TornPulled', 'client table row header')
Answer = namedtuple('Answer', 'client table answered status token schema')
Save = namedtuple('Save', 'client gate table is_on period tolerance')
Restore = namedtuple('Restore', 'client gate is_reply subscriptions')
Changed = namedtuple('Changed', 'gate table version')
TableSubscription = namedtuple('TableSubscription', 'table period tolerance')

KINDS = {
    Register: 1, Create: 2, Drop: 3, Subscribe: 4, Unsubscribe: 5, Notify: 6, Fragment: 7, Pull: 8, Pulled: 9,
    Request: 10, Response: 11, TornPull: 12, TornPulled: 13, Answer: 14, Save: 15, Restore: 16, Changed: 17,
}
NAMES = {
    Register: 'registerDevice', Create: 'createTable', Drop: 'dropTable', Subscribe: 'subscribeTable',
    Unsubscribe: 'unsubscribeTable', Notify: 'notify', Fragment: 'objectFragment', Pull: 'pullRequest',
    Pulled: 'pullResponse', Request: 'syncRequest', Response: 'syncResponse', TornPull: 'tornRowRequest',
    TornPulled: 'tornRowResponse', Answer: 'operationResponse', Save: 'saveClientSubscription',
    Restore: 'restoreClientSubscriptions', Changed: 'tableVersionUpdateNotification',
}
# Statuses of an answer: done; there is no such table; there is no session of that token.
DONE, NO_TABLE, UNREGISTERED = 0, 18, 19


def answered_kind(message):
    """Which kind of a client's message an answer to this one names: the subscription or its end for one that a gateway
    has passed on."""
    if type(message) is Save:
        return KINDS[Subscribe if message.is_on else Unsubscribe]
    return KINDS[type(message)]


def keeps(answer):
    """Which pieces of an answer with a row are kept: those up to the position that was asked from. An answer to a row
    that was torn keeps none."""
    return is_kept_up_to(answer.origin if type(answer) is Pulled else 0)


def fragments_of(client, token, table, row, key, content, keeps, objects):
    """The fresh chunks of a spelled content, by rising column, then place."""
    return [Fragment(client, token, table, row, key, column, place, objects[column - len(content.cells)][place].data)
            for (column, place), piece in placed_pieces(content) if not keeps(piece)]


# ---- assemblies: a message that waits for fragments, the row and the key that these have, the content that it spells,
# its fresh chunks by their places with their lengths, and the bytes of those that have come

Assembly = namedtuple('Assembly', 'message row key content fresh came')


def assembly_of(size, message, row, key, content, keeps):
    fresh = {at: len_at(size, content, at) for at, piece in placed_pieces(content) if not keeps(piece)}
    return Assembly(message, row, key, content, fresh, {})


def waits_for(assembly, fragment):
    """Whether a fragment is of this content, of a chunk of its length that has not come."""
    at = fragment.column, fragment.place
    is_of_it = (fragment.row, fragment.key) == (assembly.row, assembly.key)
    return is_of_it and at not in assembly.came and assembly.fresh.get(at) == len(fragment.data)


def add_fragment(assembly, fragment):
    assembly.came[fragment.column, fragment.place] = fragment.data


def is_complete(assembly):
    return len(assembly.came) == len(assembly.fresh)


def has_kept(assembly, kept_at):
    """Whether each kept chunk is found."""
    return all(kept_at(at, piece) for at, piece in placed_pieces(assembly.content) if at not in assembly.fresh)


def completed(assembly, kept_at, made):
    """The chunks of a content all of whose fragments have come: a kept one is found by its place and piece, a fresh one
    is made of its piece and its bytes."""
    def chunk_at(at, piece):
        return made(piece, assembly.came[at]) if at in assembly.fresh else kept_at(at, piece)
    return filled(assembly.content, chunk_at)
