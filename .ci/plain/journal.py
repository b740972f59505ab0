"""A client's devices: its journal of plans, what a plan changes, and how a start ends what a crash has left."""
from collections import namedtuple

from .node import Node, Task, Vault, compaction
from .slots import EMPTY, OpenTable, local_names
from .values import Refused

# A plan changes a row's slots, its table's position, or whether the table is opened (OPENED or CLOSED, and its schema).
# An intent is a plan that brings chunks and isn't committed; where its row came from the Store, that is torn without
# it.
Plan = namedtuple('Plan', 'number last table row slots position state schema facts drops')
Intent = namedtuple('Intent', 'number torn names')
OPENED, CLOSED = 'opened', 'dropped'


class Devices(Node):
    """The journal, the tables with their slots, and the chunks. What a plan changes stands from its commit on."""

    def __init__(self, number, tables, out):
        super().__init__('C%d' % number, out)
        self.number = number
        # of the last write that is committed, and the tables that are opened, and those that were closed
        self.last = 0
        self.tables = tables
        self.closed = set()
        self.chunks = set()
        # of the journal: the greatest number, that of the last commit, a commit that isn't done, and an intent
        self.journal = 0
        self.committed = 0
        self.plan = None
        self.intent = None
        # what is in memory: the number of the last plan, and that of the one at work
        self.plans = 0
        self.at_work = 0
        # the vaults, and what the slots' vault has payloads of
        self.records = set(tables)
        journal, slots, chunks = Vault(), Vault(len(tables)), Vault()
        self.vaults = {'intend': journal, 'commit': journal, 'done': journal, 'slot-put': slots, 'table-put': slots,
                       'chunk-put': chunks, 'chunk-drop': chunks}

    # ---- what is read

    def opened(self, table):
        if table not in self.tables:
            raise Refused(18)
        return self.tables[table]

    def rows(self, table):
        """The rows of a table with their slots, in their order."""
        return sorted(self.opened(table).rows.items())

    def slots(self, table, row):
        return self.opened(table).rows.get(row, EMPTY)

    def position(self, table):
        return self.opened(table).position

    # ---- device writes

    def change(self, task):
        if task.step == 'intend':
            self.journal = task.arg.number
            self.intent = task.arg
        elif task.step == 'chunk-put':
            self.chunks.add(task.arg)
        elif task.step == 'commit':
            self.commit(task.arg)
        elif task.step == 'chunk-drop':
            self.chunks.discard(task.arg)
        elif task.step == 'slot-put':
            self.records.add((task.arg.table, task.arg.row))
        elif task.step == 'table-put':
            self.records.add(task.arg.table)
        elif task.step == 'done':
            self.plan = None
        elif task.step == 'compact-turn' and task.arg[0] is self.vaults['commit']:
            self.journal = self.committed
            self.intent = None

    def commit(self, plan):
        self.journal = self.committed = plan.number
        self.intent = None
        self.plan = plan
        self.last = plan.last
        if plan.state == OPENED:
            self.tables[plan.table] = OpenTable(plan.schema)
        elif plan.state == CLOSED:
            del self.tables[plan.table]
            self.closed.add(plan.table)
        elif plan.row:
            self.tables[plan.table].put(plan.row, plan.slots)
        if plan.position is not None:
            self.tables[plan.table].position = plan.position

    # ---- plans

    def put_tasks(self, plan, sends):
        """The writes of a plan behind its commit."""
        tasks = [Task('slot-put', plan)] if plan.row else []
        tasks += [Task('table-put', plan)] if plan.position is not None or plan.state else []
        tasks += [Task('chunk-drop', name) for name in plan.drops if name in self.chunks]
        return tasks + [Task('done', sends=sends)]

    def begin(self, table, facts, sends=(), row=None, slots=None, last=None, position=None, server=False):
        """Begins a plan of a row's slots, of the table's position, or of both. It tells its facts with the commit, and
        sends with its end."""
        before = local_names(self.slots(table, row)) if row else set()
        behind = local_names(slots) if row else set()
        if position is not None:
            facts = facts + ['position %s T%d %d' % (self.name, table, position)]
        plan = Plan(self.plans + 1, self.last if last is None else last, table, row, slots, position, None, None, facts,
                    sorted(before - behind))
        self.begin_plan(plan, sorted(behind - before), (table, row) if server else None, list(sends))

    def begin_of_table(self, table, state, schema=None):
        """Begins the plan that opens a table, or closes it."""
        facts = ['%s %s T%d' % (state, self.name, table)]
        plan = Plan(self.plans + 1, self.last, table, None, None, None, state, schema, facts, [])
        self.begin_plan(plan, [], None, [])

    def begin_plan(self, plan, brought, torn, sends):
        self.plans += 1
        self.at_work = self.plans
        self.agenda = self.compactions()
        if brought:
            self.agenda.append(Task('intend', Intent(plan.number, torn, brought)))
        self.agenda += [Task('chunk-put', name) for name in brought]
        self.agenda.append(Task('commit', plan, plan.facts))
        self.agenda += self.put_tasks(plan, sends)

    def compactions(self):
        """The compactions that are due where a plan begins: live are the last commit with its end, the last payload of
        each row and table, and the chunks on the device."""
        journal, slots, chunks = [self.vaults[step] for step in ('commit', 'slot-put', 'chunk-put')]
        return (compaction(journal, 2 if self.committed else 0) + compaction(slots, len(self.records))
                + compaction(chunks, len(self.chunks)))

    def unless_busy(self):
        if self.agenda:
            raise Refused(17, self.at_work)

    # ---- crash and start

    def lose(self):
        super().lose()
        for table in self.tables.values():
            table.forget()

    def start(self):
        """Opens the vaults, and ends what is committed; the chunks of a plan without a commit are dropped."""
        self.plans = self.journal
        self.at_work = self.plan.number if self.plan else 0
        self.agenda = [Task('open-journal'), Task('open-slots'), Task('open-chunks')]
        if self.plan:
            self.tell(['redone ' + fact for fact in self.plan.facts], [])
            self.agenda += self.put_tasks(self.plan, [])
        elif self.intent:
            self.drop_intent(self.intent)
        self.agenda[-1] = self.agenda[-1]._replace(facts=['recovered ' + self.name])

    def drop_intent(self, intent):
        if intent.torn:
            table, row = intent.torn
            self.tables[table].torn.add(row)
            self.tell([self.torn_words(table, row)], [])
        self.agenda += [Task('chunk-drop', name) for name in intent.names if name in self.chunks]

    def torn_words(self, table, row):
        return 'torn %s T%d %s' % (self.name, table, row)
