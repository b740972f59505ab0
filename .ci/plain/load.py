"""A large script that is made from a number, and what is told of its run."""
import hashlib

from .world import World

ROUNDS, CLIENTS, TABLES, STORES, ROWS = 4000, 64, 3, 2, 32
MULTIPLIER, ADDEND = 6364136223846793005, 1442695040888963407
NAMES = (('a', 'strong'), ('b', 'causal'), ('bar', 'eventual'))


class Draws:
    """Numbers that follow from the first."""

    def __init__(self, first):
        self.state = first

    def pick(self, below):
        self.state = (self.state * MULTIPLIER + ADDEND) % 2 ** 64
        return (self.state >> 33) % below


def declarations():
    """The lines in front."""
    lines = ['store S%d' % number for number in range(1, STORES + 1)]
    lines += ['table T%d %s %s 64 n:int o:object' % (number, *named) for number, named in enumerate(NAMES, 1)]
    tables = ','.join('T%d' % number for number in range(1, TABLES + 1))
    return lines + ['client C%d - %s' % (number, tables) for number in range(1, CLIENTS + 1)]


class Rounds:
    """Rounds of lines; which lines depends on how many packets were sent before."""

    def __init__(self, first, world):
        self.draws = Draws(first)
        self.world = world

    def sent(self):
        return len(self.world.packets)

    def lines(self):
        """The lines of one round, each made when the ones before have run."""
        pick = self.draws.pick
        client, table = 'C%d' % (1 + pick(CLIENTS)), 'T%d' % (1 + pick(TABLES))
        row = '00000000-0000-4000-8000-%012x' % (1 + pick(ROWS))
        action = pick(10)
        if action < 4:
            yield self.write(client, table, row)
        elif action == 4:
            yield 'sync %s %s' % (client, table)
        elif action == 5:
            yield 'pull %s %s' % (client, table)
        elif action == 6:
            yield 'delete %s %s %s' % (client, table, row)
        elif action == 7:
            yield self.deliver() if self.sent() else 'pull %s %s' % (client, table)
        elif action == 8:
            yield from self.crash(client, lambda: self.write(client, table, row))
        else:
            store = 'S%d' % (1 + pick(STORES))
            yield from self.crash(store, self.deliver) if self.sent() else ['sync %s %s' % (client, table)]

    def write(self, client, table, row):
        pick = self.draws.pick
        number, length, filling = pick(1000), pick(513), pick(256)
        return 'write %s %s %s %d r:%d:%02x' % (client, table, row, number, length, filling)

    def deliver(self):
        return 'deliver %d' % self.draws.pick(self.sent())

    def crash(self, node, line):
        """A node does a line on hold, crashes inside its device write, and recovers."""
        yield 'hold %s' % node
        yield line()
        calls, pick = self.draws.pick(5), self.draws.pick(2)
        yield 'crash %s %d %d' % (node, calls, pick)
        for word in ('start', 'do', 'free'):
            yield '%s %s' % (word, node)


def load(first):
    """The summary of the run of the script that is made from a number."""
    world = World()
    for line in declarations():
        world.declare(line.split(' '))
    transcript = Transcript()
    rounds = Rounds(first, world)
    for _ in range(ROUNDS):
        for line in rounds.lines():
            transcript.add(world.run(line.split(' ')))
    transcript.add(world.run(['settle']))
    yield 'load %d' % first
    yield 'lines %d' % transcript.count
    for number, table in sorted(world.tables.items()):
        yield 'table %d versions %d rows %d conflicts %d' % (number, *counts(world, number, table))
    yield 'transcript %s' % transcript.digest.hexdigest()


class Transcript:
    """How many lines a transcript has, and the digest of its bytes."""

    def __init__(self):
        self.count = 0
        self.digest = hashlib.sha256()

    def add(self, lines):
        self.count += len(lines)
        self.digest.update(''.join(line + '\n' for line in lines).encode())


def counts(world, number, table):
    """A table's versions, its rows, and the conflicts over all clients."""
    history = table.history
    opened = [client.tables[number] for client in world.clients.values() if number in client.tables]
    return len(history), len({entry.row for entry in history}), sum(len(table.conflicted) for table in opened)
