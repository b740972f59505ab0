"""The world: all nodes, every packet that was ever sent, and which nodes are on hold."""
from . import settling
from .client import Client
from .frames import frame_len
from .gateway import Gateway
from .messages import NAMES
from .node import IDLE, OWNER
from .ring import owner_of
from .script import DECLARATIONS, Declared, LimitPassed, read_words
from .slots import OpenTable
from .store import DRAFT, LIVE, Store, StoreTable, entry_words
from .values import GONE, Refused, patched, updated
from .words import content_words, sum_word


PACKETS_MOST, PACKETS_LIMIT = 268435456, 10


class Directory:
    """Where tables are. Owners are fixed when the first event comes."""

    def __init__(self):
        self.tables = {}
        self.stores = {}

    def place(self, tables, stores):
        self.tables = tables
        for number, table in tables.items():
            store = owner_of(stores, table.schema.name)
            self.stores[number] = store
            stores[store].own(table)

    def owner_name(self, table):
        return 'S%d' % self.stores[table]

    def owners(self):
        """The Stores that own a table, by rising number."""
        return sorted(set(self.stores.values()))

    def is_strong(self, table):
        return self.tables[table].schema.scheme == 'strong'


class World:
    def __init__(self):
        self.declared = Declared()
        self.directory = Directory()
        self.tables = {}
        self.stores = {}
        self.gates = {}
        self.clients = {}
        self.is_begun = False
        self.packets = []
        self.packet_bytes = 0
        self.holds = set()
        # what the moves of an event told and sent, each with its node
        self.out = []
        self.lines = []

    # ---- nodes

    def node(self, name):
        return {'S': self.stores, 'G': self.gates, 'C': self.clients}[name[0]][int(name[1:])]

    def client(self, name):
        return self.clients[int(name[1:])]

    def gates_and_clients(self):
        """By rising number."""
        return in_order(self.gates) + in_order(self.clients)

    def nodes(self):
        """All nodes: Stores, gateways, clients, each by rising number."""
        return in_order(self.stores) + self.gates_and_clients()

    def up(self, name):
        """A node that isn't down."""
        node = self.node(name)
        if node.is_down:
            raise Refused(30, name)
        return node

    def owner(self, table):
        """The table, whose Store isn't down."""
        self.up(self.directory.owner_name(table))
        return self.tables[table]

    def busy(self, store=1):
        """The table of a Store that works next."""
        return self.stores[store].busy()

    def follow(self, node):
        """The work that follows where a node isn't on hold."""
        if node.name not in self.holds:
            work_all(node)

    def moved(self, node, part, move):
        """A move of a node, and the work that follows where the part of it that moves had no agenda and has one now."""
        was_idle = not part.agenda
        answer = move()
        if was_idle and part.agenda:
            self.follow(node)
        return answer

    def call(self, name, made):
        """A call of a client, and the work that follows."""
        client = self.up(name)
        return self.moved(client, client, lambda: made(client))

    # ---- declarations

    def declare(self, words):
        self.step(*read_words(words, self.declared))

    def on_store(self, name):
        number = int(name[1:])
        self.stores[number] = Store(number, self.out)

    def on_gate(self, name):
        number = int(name[1:])
        self.gates[number] = Gateway(number, self.directory, self.out)

    def on_table(self, name, schema, state=LIVE):
        number = int(name[1:])
        self.tables[number] = StoreTable(number, schema, state, self.out)

    def on_draft(self, name, schema):
        self.on_table(name, schema, DRAFT)

    def on_client(self, name, gate, tables):
        number = int(name[1:])
        opened = {int(table[1:]): OpenTable(self.tables[int(table[1:])].schema) for table in tables}
        self.clients[number] = Client(number, gate and int(gate[1:]), opened, self.out)

    # ---- events

    def run(self, words):
        """An event: its answer, and then what came of it."""
        return self.step(*read_words(words, self.declared))

    def step(self, verb, args):
        if verb in DECLARATIONS:
            getattr(self, 'on_' + verb)(*args)
            return []
        if not self.is_begun:
            self.directory.place(self.tables, self.stores)
            self.is_begun = True
        return self.event(verb, args)

    def event(self, verb, args):
        self.out.clear()
        self.lines = []
        counted = []
        try:
            answer = getattr(self, 'on_' + verb)(*args)
            if isinstance(answer, list):
                counted, answer = answer, 'ok %d' % len(answer)
        except Refused as refusal:
            answer = ' '.join(['no'] + [str(word) for word in refusal.words])
        self.hand_over()
        return [answer] + counted + self.lines

    def hand_over(self):
        """Takes what moves told and sent: of each its facts, and then its packets."""
        for name, facts, sends in self.out:
            self.lines += facts
            for to, message in sends:
                to = self.directory.owner_name(message.table) if to == OWNER else to
                self.lines.append('sent %d %s %s %s' % (len(self.packets), name, to, NAMES[type(message)]))
                self.send(name, to, message)
        self.out.clear()

    def send(self, name, to, message):
        self.packet_bytes += frame_len(message)
        if self.packet_bytes > PACKETS_MOST:
            raise LimitPassed(PACKETS_LIMIT)
        self.packets.append((name, to, message))

    # ---- a client's calls

    def on_write(self, name, table, row, content):
        return self.call(name, lambda c: c.write(table, row, content))

    def on_update(self, name, table, row, changes):
        return self.call(name, lambda c: c.edit(table, row, lambda schema, old: updated(schema, old, changes)))

    def on_patch(self, name, table, row, column, at, data):
        return self.call(name, lambda c: c.edit(table, row, lambda schema, old: patched(schema, old, column, at, data)))

    def on_delete(self, name, table, row):
        return self.call(name, lambda c: c.edit(table, row, lambda schema, old: GONE))

    def on_show(self, name, table, row):
        return self.call(name, lambda c: c.show(table, row))

    def on_sum(self, name, table, row):
        return self.call(name, lambda c: c.show(table, row, sum_word))

    def on_select(self, name, table, words):
        return self.call(name, lambda c: c.select(table, words))

    def on_sync(self, name, table):
        return self.call(name, lambda c: c.sync(table))

    def on_pull(self, name, table):
        return self.call(name, lambda c: c.pull(table))

    def on_create(self, name, table):
        return self.call(name, lambda c: c.create(table, self.tables[table].schema))

    def on_drop(self, name, table):
        return self.call(name, lambda c: c.drop(table))

    def on_subscribe(self, name, table, period, tolerance):
        return self.call(name, lambda c: c.subscribe(table, period, tolerance))

    def on_unsubscribe(self, name, table):
        return self.call(name, lambda c: c.unsubscribe(table))

    def on_writesync(self, name, table, period, tolerance):
        return self.call(name, lambda c: c.set_write_timer(table, period, tolerance))

    def on_begin_cr(self, name, table):
        return self.call(name, lambda c: c.begin_resolving(table))

    def on_conflicts(self, name, table):
        return self.call(name, lambda c: c.conflicts(table))

    def on_end_cr(self, name, table):
        return self.call(name, lambda c: c.end_resolving(table))

    def on_resolve(self, name, table, row, seen, choice):
        return self.call(name, lambda c: c.resolve(table, row, seen, choice))

    def on_resolve_all(self, name, table, by):
        return self.call(name, lambda c: c.resolve_all(table, by))

    def on_link(self, name, is_up):
        self.up(name).set_link(is_up)
        return 'ok'

    # ---- packets

    def on_deliver(self, number):
        if number >= len(self.packets):
            raise Refused(29, len(self.packets))
        sender, to, message = self.packets[number]
        node = self.up(to)
        part = node.part_for(message) if type(node) is Store else node
        self.moved(node, part, lambda: node.take(sender, message))
        return 'ok'

    # ---- what Stores have

    def on_sshow(self, table, row):
        item = self.owner(table).current(row)
        if not item:
            raise Refused(27)
        return 'ok %d %s' % (item.version, content_words(item.content))

    def on_history(self, table):
        return ['entry ' + entry_words(table, entry) for entry in self.tables[table].history]

    def on_chunks(self, table):
        names = self.owner(table).names_on()
        return ' '.join(['ok', str(len(names))] + ['%d.%d' % name for name in names])

    # ---- device writes, crashes and starts

    def on_hold(self, name):
        self.up(name)
        self.holds.add(name)
        return 'ok'

    def on_free(self, name):
        self.up(name)
        self.holds.discard(name)
        return 'ok'

    def on_work(self, name):
        return 'ok ' + self.up(name).work()

    def on_do(self, name):
        return 'ok %d' % work_all(self.up(name))

    def on_crash(self, name, calls, pick):
        self.up(name).crash(calls, pick)
        return 'ok'

    def on_start(self, name):
        node = self.node(name)
        if node.is_down:
            node.start()
            self.follow(node)
        return 'ok'

    # ---- time

    def on_tick(self):
        """Each gateway that is up, then each client that is up; the work of one is done before the next one."""
        for node in self.gates_and_clients():
            if not node.is_down:
                self.moved(node, node, node.tick)
        return 'ok'

    def on_settle(self):
        return 'ok %d' % settling.settle(self)


def in_order(nodes):
    return [node for _, node in sorted(nodes.items())]


def work_all(node):
    """A node's device writes until none is left, and their count."""
    count = 0
    while node.work() != IDLE:
        count += 1
    return count
