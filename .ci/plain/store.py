"""A Store and its tables: rows by their versions, chunks, the status log, the states of tables, and subscriptions."""
import bisect
from collections import namedtuple

from .chunks import Chunk, ChunkName, is_kept, joined, len_at, names_in, spelled
from .messages import (DONE, NO_TABLE, Answer, Changed, Create, Drop, Fragment, Header, Pull, Pulled, Request, Response,
                       Restore, Save, TableSubscription, TornPull, TornPulled, add_fragment, answered_kind, assembly_of,
                       completed, fragments_of, has_kept, is_complete, keeps, waits_for)
from .node import IDLE, Node, Task, Vault, compaction
from .values import Refused

# An update that was accepted; and what the status log has of one that is at work: the chunks that it brings, and those
# that the new row doesn't name.
Item = namedtuple('Item', 'row version client number base content objects')
Entry = namedtuple('Entry', 'item fresh old')
Subscription = namedtuple('Subscription', 'gate period tolerance')
DRAFT, LIVE, DROPPED = 'draft', 'live', 'dropped'


def entry_words(table, item):
    return 'T%d %d %s C%d %d %d' % (table, item.version, item.row, item.client, item.number, item.base)


class StoreTable(Node):
    def __init__(self, table, schema, state, out):
        super().__init__(None, out)
        self.table = table
        self.schema = schema
        self.state = state
        # all updates in the order of their versions, and of them: the last of each row, that of each client to a row,
        # and the versions of rows as they are now
        self.items = []
        self.currents = {}
        self.lasts = {}
        self.versions = []
        self.known = 0
        # the names on the chunk device, the entry that the log has open, and the clients' subscriptions
        self.names = set()
        self.pending = None
        self.subscriptions = {}
        self.subscribed = set()
        # what is in memory: of each client its last request that waits for fragments, and the version at work
        self.assemblies = {}
        self.at_work = 0
        chunks, rows, log = Vault(), Vault(1), Vault()
        self.vaults = {'chunk-put': chunks, 'chunk-drop': chunks, 'row-put': rows, 'table-put': rows, 'sub-put': rows,
                       'log-open': log, 'log-close': log}

    # ---- items and chunks

    def current(self, row):
        return self.currents.get(row)

    def yours(self, client, row):
        """A client's last write to a row: its number and its version."""
        item = self.lasts.get((client, row))
        return (item.number, item.version) if item else (0, 0)

    def chunks_of(self, row):
        current = self.current(row)
        return current.objects if current else []

    def names_on(self):
        return sorted(self.names)

    @property
    def left(self):
        """The names on the device that no row has."""
        return sorted(self.names.difference(*[names_in(item.objects) for item in self.currents.values()]))

    @property
    def history(self):
        """The entries that were told."""
        return self.items[:self.known]

    def add(self, item):
        before = self.current(item.row)
        if before:
            del self.versions[bisect.bisect_left(self.versions, before.version)]
        self.items.append(item)
        self.versions.append(item.version)
        self.currents[item.row] = item
        self.lasts[item.client, item.row] = item

    # ---- device writes

    def change(self, task):
        if task.step == 'log-open':
            self.pending = task.arg
        elif task.step == 'chunk-put':
            self.names.add(task.arg)
        elif task.step == 'row-put':
            self.add(task.arg)
        elif task.step == 'chunk-drop':
            self.names.discard(task.arg)
        elif task.step == 'log-close':
            self.pending = None
        elif task.step == 'table-put':
            self.state = task.arg
        elif task.step == 'sub-put':
            self.keep_subscription(*task.arg)

    def keep_subscription(self, client, subscription):
        self.subscribed.add(client)
        self.subscriptions.pop(client, None)
        if subscription:
            self.subscriptions[client] = subscription

    def told(self, task):
        if task.step == 'row-put':
            self.known = len(self.items)
        super().told(task)

    def compactions(self):
        """The compactions that are due where an update begins: live are the names on the chunk device, and of rows,
        subscriptions and the table the last payload of each; nothing in the log."""
        chunks, rows, log = [self.vaults[step] for step in ('chunk-put', 'row-put', 'log-open')]
        return (compaction(chunks, len(self.names))
                + compaction(rows, len(self.currents) + len(self.subscribed) + 1) + compaction(log, 0))

    def lose(self):
        super().lose()
        self.assemblies = {}

    def start(self):
        """Opens the vaults, and ends the update that the log has open: where its row was put, the chunks that the row
        doesn't name are dropped, else those that it brought."""
        self.at_work = 0
        self.agenda = [Task('open-chunks'), Task('open-rows'), Task('open-log')]
        if self.pending:
            self.agenda += self.recovery(*self.pending)
        self.agenda[-1] = self.agenda[-1]._replace(facts=['recovered %s T%d' % (self.name, self.table)])

    def recovery(self, item, fresh, old):
        self.at_work = item.version
        is_put = len(self.items) >= item.version
        if is_put:
            self.known = len(self.items)
            self.tell(['forward ' + entry_words(self.table, item)], [])
        else:
            self.tell(['back T%d %d' % (self.table, item.version)], [])
        drops = [name for name in (old if is_put else fresh) if name in self.names]
        return [Task('chunk-drop', name) for name in sorted(drops)] + [Task('log-close')]

    # ---- messages. What a table that isn't live takes is its making alone

    def take(self, sender, message):
        if self.agenda:
            raise Refused(17, self.at_work)
        if type(message) is Create and self.state != DROPPED and message.schema == self.schema:
            self.make(sender, message)
        elif self.state != LIVE or type(message) is Create:
            self.answer(sender, message, NO_TABLE)
        else:
            self.TAKES[type(message)](self, sender, message)

    def answered(self, message, status):
        """The answer to a message; where a table is made or subscribed to, it has the schema."""
        is_told = status == DONE and (type(message) is Create or type(message) is Save and message.is_on)
        return Answer(message.client, self.table, answered_kind(message), status, 0, self.schema if is_told else None)

    def answer(self, sender, message, status):
        self.tell([], [(sender, self.answered(message, status))])

    def put(self, sender, message, step, arg, facts=()):
        """One device write, and the answer behind it."""
        self.at_work = 0
        self.agenda = [Task(step, arg, facts, [(sender, self.answered(message, DONE))])]

    def make(self, sender, q):
        """A table that is live already is made without a write."""
        if self.state == LIVE:
            self.answer(sender, q, DONE)
        else:
            self.put(sender, q, 'table-put', LIVE, ['made T%d' % self.table])

    def drop(self, sender, q):
        self.put(sender, q, 'table-put', DROPPED, ['unmade T%d' % self.table])

    def save(self, sender, q):
        """The end of a subscription is a write too, whether or not there is one."""
        subscription = Subscription(q.gate, q.period, q.tolerance) if q.is_on else None
        self.put(sender, q, 'sub-put', (q.client, subscription))

    # ---- requests

    def take_request(self, sender, q):
        """A request takes the place of what its client sent before."""
        assembly = assembly_of(self.schema.chunk, q, q.row, q.number, q.content, is_kept)
        self.assemblies[q.client] = assembly
        self.decide(sender, assembly)

    def take_fragment(self, sender, f):
        assembly = self.assemblies.get(f.client)
        if assembly and waits_for(assembly, f):
            add_fragment(assembly, f)
            if is_complete(assembly):
                self.decide(sender, assembly)

    def decide(self, sender, assembly):
        """When a request comes, and when the last of its fragments has come: it is answered, or goes on to wait, or
        its update begins."""
        q = assembly.message
        refused = self.refused(assembly)
        if refused or is_complete(assembly):
            del self.assemblies[q.client]
        if refused:
            self.tell([], [(sender, Response(q.client, q.table, q.row, q.number, *refused))])
        elif is_complete(assembly):
            item = self.item_for(assembly)
            self.accept(item, (sender, Response(q.client, q.table, q.row, q.number, 'accepted', item.version)))

    def refused(self, assembly):
        """The outcome of a request that isn't accepted."""
        q = assembly.message
        number, version = self.yours(q.client, q.row)
        current = self.current(q.row)
        latest = current.version if current else 0
        if number == q.number:
            return 'again', version
        if q.number < number:
            return 'late', number
        if self.schema.scheme == 'strong' and q.base != latest:
            return 'stale', latest
        if self.schema.scheme == 'causal' and q.base != latest:
            return 'conflict', latest
        return None if has_kept(assembly, self.kept_in(assembly)) else ('need whole', 0)

    def kept_in(self, assembly):
        """The row's chunk that a request keeps, None where the row has it no more, or not with the length of its
        place."""
        held = {(chunk.name, len(chunk.data)): chunk for chunks in self.chunks_of(assembly.row) for chunk in chunks}
        return lambda at, piece: held.get((piece.name, len_at(self.schema.chunk, assembly.content, at)))

    def item_for(self, assembly):
        """The item that a complete request makes: a kept chunk is the row's, a fresh one has the version's name."""
        q = assembly.message
        version = len(self.items) + 1
        objects = completed(assembly, self.kept_in(assembly),
                            lambda piece, data: Chunk(ChunkName(version, piece.ordinal), data))
        return Item(q.row, version, q.client, q.number, q.base, joined(q.content, objects), objects)

    def accept(self, item, answer):
        """An update's device writes. With the last one it is answered, and the gateways of clients that subscribe are
        told."""
        named = set(names_in(item.objects))
        fresh = [name for name in names_in(item.objects) if name.version == item.version]
        old = [name for name in names_in(self.chunks_of(item.row)) if name not in named]
        gates = sorted({subscription.gate for subscription in self.subscriptions.values()})
        changes = [('G%d' % gate, Changed(gate, self.table, item.version)) for gate in gates]
        self.at_work = item.version
        self.agenda = self.compactions()
        self.agenda.append(Task('log-open', Entry(item, fresh, old)))
        self.agenda += [Task('chunk-put', name) for name in fresh]
        self.agenda.append(Task('row-put', item, ['accepted ' + entry_words(self.table, item)]))
        self.agenda += [Task('chunk-drop', name) for name in old]
        self.agenda.append(Task('log-close', sends=[answer] + changes))

    # ---- answers with a row: its header, and the fragments that follow it

    def header_for(self, client, item):
        names = [[chunk.name for chunk in chunks] for chunks in item.objects]
        return Header(item.row, item.version, *self.yours(client, item.row), spelled(item.content, names))

    def with_fragments(self, sender, answer, item):
        fresh = fragments_of(answer.client, 0, answer.table, item.row, item.version, answer.header.content,
                             keeps(answer), item.objects) if item else []
        self.tell([], [(sender, message) for message in [answer] + fresh])

    def take_pull(self, sender, q):
        """The changed row of least version above a position."""
        at = bisect.bisect_right(self.versions, q.position)
        item = self.items[self.versions[at] - 1] if at < len(self.versions) else None
        header = self.header_for(q.client, item) if item else None
        to = item.version if item else q.position
        self.with_fragments(sender, Pulled(q.client, q.table, q.position, to, len(self.items), header), item)

    def take_torn_pull(self, sender, q):
        """The row as it is now, all of it."""
        item = self.current(q.row)
        answer = TornPulled(q.client, q.table, q.row, self.header_for(q.client, item) if item else None)
        self.with_fragments(sender, answer, item)

    TAKES = {Drop: drop, Save: save, Request: take_request, Fragment: take_fragment, Pull: take_pull,
             TornPull: take_torn_pull}


class Store:
    """A Store: its tables, which work and crash as one."""

    def __init__(self, number, out):
        self.name = 'S%d' % number
        self.out = out
        self.tables = {}
        self.is_down = False

    def own(self, table):
        table.name = self.name
        self.tables[table.table] = table

    def busy(self):
        """The table of least number that has writes to do."""
        if self.is_down:
            return None
        return self.tables.get(min((number for number, table in self.tables.items() if table.agenda), default=None))

    @property
    def agenda(self):
        busy = self.busy()
        return busy.agenda if busy else []

    def work(self):
        busy = self.busy()
        return busy.work() if busy else IDLE

    def crash(self, calls, pick):
        """The write at work is that of the table which works next; the writes of the others are undone."""
        busy = self.busy()
        for table in self.tables.values():
            if table is busy:
                table.crash(calls, pick)
            else:
                table.lose()
        self.is_down = True

    def start(self):
        """All tables are started, by rising number; their writes follow."""
        self.is_down = False
        for number in sorted(self.tables):
            self.tables[number].start()

    def part_for(self, message):
        """What takes a message: the table that it names, or the Store as a whole."""
        return self if type(message) is Restore else self.tables[message.table]

    def take(self, sender, message):
        if type(message) is Restore:
            self.restore(sender, message)
        else:
            self.tables[message.table].take(sender, message)

    def restore(self, sender, q):
        """A client's subscriptions of all live tables, in one answer; while one of these is at work there is none."""
        live = [table for _, table in sorted(self.tables.items()) if table.state == LIVE]
        busy = next((table for table in live if table.agenda), None)
        if busy:
            raise Refused(17, busy.at_work)
        kept = tuple(TableSubscription(table.table, *table.subscriptions[q.client][1:]) for table in live
                     if q.client in table.subscriptions)
        self.out.append((self.name, (), [(sender, Restore(q.client, q.gate, True, kept))]))
