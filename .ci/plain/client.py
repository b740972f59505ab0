"""A client: what an app asks of it, and what it makes of messages."""
from .chunks import is_kept, joined, len_at
from .journal import CLOSED, OPENED, Devices
from .messages import (DONE, KINDS, NO_TABLE, UNREGISTERED, Answer, Create, Drop, Fragment, Notify, Pull, Pulled,
                       Register, Request, Response, Subscribe, TornPull, TornPulled, Unsubscribe, add_fragment,
                       assembly_of, completed, fragments_of, has_kept, is_complete, keeps, waits_for)
from .node import OWNER
from .selection import holds, parsed
from .slots import (Held, HeldChunk, InFlight, Main, Shadow, accepted_at, all_fresh, changed_in, freed, held_against,
                    shown_in, stored_chunks, version_in, version_seen)
from .timers import Timer, ticked
from .values import GONE, Refused, check_fit, cut
from .words import content_words, whole_word


class Client(Devices):
    """A client with a gateway, or a wired one, whose gate is None: that is always registered, and its link begins
    up."""

    def __init__(self, number, gate, tables, out):
        super().__init__(number, tables, out)
        self.gate = gate
        self.link_up = gate is None
        self.token = self.first_token()
        self.is_recovering = False

    # ---- links, sessions and what is sent

    def first_token(self):
        """A wired client's token is 0; another one has none until it is registered."""
        return 0 if self.gate is None else None

    @property
    def is_offline(self):
        return not self.link_up or self.token is None

    def unless_offline(self):
        if self.is_offline:
            raise Refused(24)

    def to_send(self, messages):
        to = OWNER if self.gate is None else 'G%d' % self.gate
        return [(to, message) for message in messages]

    def send(self, messages, facts=()):
        self.tell(facts, self.to_send(messages))

    def register(self):
        if self.gate is not None:
            self.send([Register(self.number)])

    def set_link(self, is_up):
        """A client whose link comes up registers; where it goes down, the session stays."""
        if is_up and not self.link_up:
            self.register()
        self.link_up = is_up

    def lose(self):
        super().lose()
        self.token = self.first_token()

    def start(self):
        super().start()
        self.is_recovering = True

    def told(self, task):
        """With the last write of a recovery a client registers, where its link is up."""
        super().told(task)
        if self.is_recovering and not self.agenda:
            self.is_recovering = False
            if self.link_up:
                self.register()

    # ---- what is shown

    def show(self, table, row, object_word=whole_word):
        shown = shown_in(self.slots(table, row))
        if not shown:
            raise Refused(27)
        return 'ok ' + self.shown_words(shown, object_word)

    def shown_words(self, shown, object_word=whole_word):
        return '%s %s' % (shown[0], content_words(shown[1].content, object_word))

    def select(self, table, words):
        """The rows whose shown content meets a predicate."""
        predicate = parsed(self.opened(table).schema, words)
        shown = [(row, shown_in(slots)) for row, slots in self.rows(table)]
        return ['row %s %s' % (row, self.shown_words(found)) for row, found in shown
                if found and holds(predicate, found[1].content)]

    # ---- writes

    def hold(self, table, row, content, objects):
        """A new content with its chunks, held by the next plan."""
        shown = shown_in(self.slots(table, row))
        return Held(content, held_against(shown[1].objects if shown else [], objects, self.plans + 1))

    def hold_new(self, table, row, content):
        """A content that is written here."""
        size = self.opened(table).schema.chunk
        objects = [] if content == GONE else content.objects
        return self.hold(table, row, content, [[HeldChunk(None, None, chunk) for chunk in cut(size, data)]
                                               for data in objects])

    def wrote(self, table, row, main):
        return 'wrote %s %d T%d %s %d %s' % (self.name, main.number, table, row, main.read,
                                             content_words(main.held.content))

    def out_of(self, main, base, shadow):
        """A write that is sent over a base, by its pieces against what was read last."""
        content, objects = main.held
        return InFlight(main.number, main.read, base, main.held, changed_in(content, shadow, objects), False)

    def request(self, table, row, out):
        """A request, and its fragments."""
        token = self.token or 0
        fresh = fragments_of(self.number, token, table, row, out.number, out.content, is_kept, out.held.objects)
        return [Request(self.number, token, table, row, out.number, out.base, out.content)] + fresh

    def write(self, table, row, content):
        opened, slots = self.opened(table), self.slots(table, row)
        check_fit(opened.schema, content)
        self.unless_busy()
        if opened.is_resolving:
            raise Refused(21)
        if slots.conflict:
            raise Refused(26, slots.conflict.version)
        if opened.schema.scheme == 'strong':
            self.check_strong(opened)
        main = Main(self.last + 1, version_in(slots.shadow), self.hold_new(table, row, content))
        if opened.schema.scheme == 'strong':
            out = self.out_of(main, main.read, slots.shadow)
            slots, sends = slots._replace(out=out), self.to_send(self.request(table, row, out))
        else:
            slots, sends = slots._replace(main=main), ()
        self.begin(table, [self.wrote(table, row, main)], sends, row, slots, last=main.number)
        return 'ok %d' % main.number

    def check_strong(self, opened):
        """In a strong table a write goes to the Store at once, and one at a time."""
        self.unless_offline()
        waiting = opened.waiting.first()
        if waiting:
            raise Refused(25, opened.rows[waiting].out.number)

    def edit(self, table, row, edited):
        """A write of what is made of the shown content."""
        opened, shown = self.opened(table), shown_in(self.slots(table, row))
        if not shown or shown[1].content == GONE:
            raise Refused(27)
        return self.write(table, row, edited(opened.schema, shown[1].content))

    # ---- sync and pull

    def sync(self, table):
        """Sends all writes that wait for an answer again, and one more."""
        opened = self.opened(table)
        self.unless_busy()
        self.unless_offline()
        waiting = [(row, opened.rows[row].out) for row in opened.waiting]
        row = opened.unsent.first()
        self.send([message for waiting_row, out in waiting for message in self.request(table, waiting_row, out)])
        if row:
            slots = opened.rows[row]
            out = self.out_of(slots.main, version_in(slots.shadow), slots.shadow)
            self.begin(table, [], self.to_send(self.request(table, row, out)), row, slots._replace(out=out))
        return 'ok %d' % (len(waiting) + bool(row))

    def pull_of(self, table):
        return Pull(self.number, self.token or 0, table, self.position(table))

    def pull(self, table):
        """Asks for the next change; where rows are torn, or wait for fragments, for these."""
        opened = self.opened(table)
        self.unless_busy()
        self.unless_offline()
        unfinished = sorted({assembly.row for assembly in opened.assemblies.values()})
        opened.torn.update(unfinished)
        if opened.torn:
            self.ask_whole(table, unfinished, sorted(opened.torn))
        else:
            self.send([self.pull_of(table)])
        return 'ok'

    def ask_whole(self, table, found, rows):
        """Tells which rows were found torn, and asks for rows whole; the answer to a pull is waited for no longer."""
        self.opened(table).assemblies.pop(None, None)
        self.send([TornPull(self.number, self.token or 0, table, row) for row in rows],
                  [self.torn_words(table, row) for row in found])

    # ---- tables, subscriptions and write timers

    def create(self, table, schema):
        self.unless_busy()
        self.unless_offline()
        self.send([Create(self.number, self.token, table, schema)])
        return 'ok'

    def drop(self, table):
        self.opened(table)
        self.unless_busy()
        self.unless_offline()
        self.send([Drop(self.number, self.token, table)])
        return 'ok'

    def subscribe(self, table, period, tolerance):
        self.check_gate()
        self.send([Subscribe(self.number, self.token, table, period, tolerance)])
        return 'ok'

    def unsubscribe(self, table):
        self.check_gate()
        self.send([Unsubscribe(self.number, self.token, table)])
        return 'ok'

    def check_gate(self):
        if self.gate is None:
            raise Refused(19, self.name)
        self.unless_busy()
        self.unless_offline()

    def set_write_timer(self, table, period, tolerance):
        """A period of 0 stops it."""
        self.opened(table).timer = Timer(period, tolerance) if period else None
        return 'ok'

    def tick(self):
        """A table is marked where it has something to send. Where a timer fires, all marked tables are sent, by rising
        number; where one can't be, its count stays."""
        timers = {number: table.timer for number, table in self.tables.items() if table.timer}
        for number, timer in timers.items():
            table = self.tables[number]
            timer.is_marked = bool(table.waiting or table.unsent)
        for number in ticked(timers):
            try:
                self.sync(number)
            except Refused:
                continue
            timers[number].fire()

    # ---- resolving

    def begin_resolving(self, table):
        self.check_resolving(table, False, 21)
        self.opened(table).is_resolving = True
        return 'ok'

    def end_resolving(self, table):
        self.check_resolving(table, True, 20)
        self.opened(table).is_resolving = False
        return 'ok'

    def check_resolving(self, table, is_resolving, refusal):
        if self.opened(table).is_resolving != is_resolving:
            raise Refused(refusal)

    def conflicts(self, table):
        self.check_resolving(table, True, 20)
        return ['pair %s %d %d' % pair for pair in self.pairs(table)]

    def pairs(self, table):
        """The rows in conflict, with the number of the write and the version that it is in conflict with."""
        opened = self.opened(table)
        found = [(row, opened.rows[row]) for row in opened.conflicted]
        return [(row, slots.main.number, slots.conflict.version) for row, slots in found]

    def resolve(self, table, row, seen, choice):
        schema = self.opened(table).schema
        self.unless_busy()
        self.check_resolving(table, True, 20)
        slots = self.slots(table, row)
        if not slots.conflict:
            raise Refused(22)
        if slots.conflict.version != seen:
            raise Refused(23, seen, slots.conflict.version)
        resolved = 'resolved %s %d T%d %s %d' % (self.name, slots.main.number, table, row, seen)
        read = slots._replace(main=None, shadow=slots.conflict, conflict=None)
        if choice == 'theirs':
            self.begin(table, [resolved], (), row, read)
            return 'ok 0'
        if choice != 'mine':
            check_fit(schema, choice)
        main = Main(self.last + 1, seen, slots.main.held if choice == 'mine' else self.hold_new(table, row, choice))
        self.begin(table, [resolved, self.wrote(table, row, main)], (), row, read._replace(main=main), last=main.number)
        return 'ok %d' % main.number

    def resolve_all(self, table, by):
        """Resolves each conflict and ends its plan: all by one choice, or by the greater cell of a column."""
        schema = self.opened(table).schema
        if type(by) is int and schema.columns[by].kind != 'int':
            raise Refused(10, by)
        self.unless_busy()
        self.check_resolving(table, True, 20)
        pairs = self.pairs(table)
        for row, _, version in pairs:
            self.resolve(table, row, version, by if type(by) is str else self.larger(self.slots(table, row), by))
            while self.agenda:
                self.work()
        return 'ok %d' % len(pairs)

    def larger(self, slots, column):
        mine, theirs = slots.main.held.content, slots.conflict.held.content
        is_mine = mine != GONE and theirs != GONE and mine.cells[column] > theirs.cells[column]
        return 'mine' if is_mine else 'theirs'

    # ---- messages

    def take(self, sender, message):
        if not self.link_up:
            raise Refused(24)
        self.unless_busy()
        if type(message) in self.TAKES:
            self.TAKES[type(message)](self, message)
        elif message.table in self.tables:
            self.ROW_TAKES[type(message)](self, message)

    def take_notify(self, q):
        """A pull of each opened table whose bit stands."""
        tables = [table for table in sorted(self.tables) if q.tables >> (table - 1) & 1]
        self.send([self.pull_of(table) for table in tables], ['notified %s %d' % (self.name, q.tables)])

    def take_answer(self, q):
        """An answer to what was asked of a gateway or of a table: it gives a session or ends it, opens a table that was
        never closed, or closes one."""
        if q.status == UNREGISTERED:
            self.token = None
            self.register()
        elif q.status == DONE and q.answered == KINDS[Register]:
            self.token = q.token
        elif q.status == NO_TABLE or (q.status == DONE and q.answered == KINDS[Drop]):
            if q.table in self.tables:
                self.begin_of_table(q.table, CLOSED)
        elif q.status == DONE and q.answered in (KINDS[Create], KINDS[Subscribe]):
            if q.table not in self.tables and q.table not in self.closed:
                self.begin_of_table(q.table, OPENED, q.schema)

    # ---- the answer to a request

    def take_response(self, r):
        slots = self.slots(r.table, r.row)
        out = slots.out
        if not out or out.number != r.number:
            return
        words = '%s %d T%d %s %d' % (self.name, out.number, r.table, r.row, r.version)
        if r.outcome in ('accepted', 'again'):
            behind = freed(slots, out.number)._replace(shadow=Shadow(r.version, accepted_at(r.version, out)))
            self.begin(r.table, ['acked ' + words], (), r.row, behind)
        elif r.outcome == 'stale':
            self.begin(r.table, ['refused ' + words], self.to_send([self.pull_of(r.table)]), r.row,
                       slots._replace(out=None))
        elif r.outcome == 'conflict':
            self.send([self.pull_of(r.table)])
        elif r.outcome == 'need whole' and not out.is_whole:
            out = out._replace(content=all_fresh(*out.held), is_whole=True)
            self.begin(r.table, [], self.to_send(self.request(r.table, r.row, out)), r.row, slots._replace(out=out))

    # ---- an answer with a row. Behind its header come the fragments

    def take_pulled(self, q):
        """An answer to a pull counts at the position that was asked from, and where it has a row."""
        if q.header and q.origin == self.position(q.table):
            self.take_row(q)

    def place_for(self, q):
        """An answer's place among those that wait: of the pulls of a table there is one, and of each torn row one."""
        return None if type(q) is Pulled else q.row

    def is_read(self, q):
        """Whether an answer has no row that is newer than the one that was seen."""
        return not q.header or q.header.version <= version_seen(self.slots(q.table, q.header.row))

    def take_row(self, q):
        """An answer takes the place of what waited there. Where it keeps a chunk that isn't held, its row is torn."""
        opened = self.opened(q.table)
        place = self.place_for(q)
        opened.assemblies.pop(place, None)
        if self.is_read(q):
            self.end(q, None)
            return
        header = q.header
        assembly = assembly_of(opened.schema.chunk, q, header.row, header.version, header.content, keeps(q))
        if not has_kept(assembly, self.kept_in(assembly)):
            opened.torn.add(header.row)
            self.ask_whole(q.table, [header.row], [header.row])
        elif is_complete(assembly):
            self.end(q, assembly)
        else:
            opened.assemblies[place] = assembly

    def take_fragment(self, f):
        """A fragment goes to an answer that waits for it, first to that to a pull."""
        assemblies = self.opened(f.table).assemblies
        for place in (None, f.row):
            assembly = assemblies.get(place)
            if assembly and waits_for(assembly, f):
                add_fragment(assembly, f)
                if is_complete(assembly):
                    del assemblies[place]
                    self.end(assembly.message, assembly)
                return

    def kept_in(self, assembly):
        """The chunk that an answer keeps, None where it isn't held, or not with the length of its place."""
        table = assembly.message.table
        held, size = stored_chunks(self.slots(table, assembly.row)), self.opened(table).schema.chunk
        return lambda at, piece: held.get((piece.name, len_at(size, assembly.content, at)))

    def end(self, q, assembly):
        """An answer is complete, or has no newer row: that to a pull moves the position; behind that of a torn row the
        row is torn no longer, and the next change is asked for."""
        token = self.token or 0
        if type(q) is Pulled:
            more = [Pull(self.number, token, q.table, q.to)] if q.to < q.latest else []
            self.apply(q, assembly, more, q.to)
        else:
            self.opened(q.table).torn.discard(q.row)
            self.apply(q, assembly, [self.pull_of(q.table)], None)

    def apply(self, q, assembly, more, position):
        """The plan that an answer needs, of a newer row and of a position that moves; without one, what it would send
        is sent at once."""
        if not self.is_read(q):
            slots, facts = self.placed(assembly)
            self.begin(q.table, facts, self.to_send(more), q.header.row, slots, position=position, server=True)
        elif position is not None:
            self.begin(q.table, [], self.to_send(more), position=position)
        else:
            self.send(more)

    def held_row(self, assembly):
        """What holds the row of a complete answer: a kept chunk is held already."""
        objects = completed(assembly, self.kept_in(assembly), lambda piece, data: HeldChunk(None, piece.name, data))
        return self.hold(assembly.message.table, assembly.row, joined(assembly.content, objects), objects)

    def placed(self, assembly):
        """The slots behind a newer row from the Store, and what is told."""
        table, header = assembly.message.table, assembly.message.header
        scheme = self.opened(table).schema.scheme
        slots = self.slots(table, header.row)
        words = 'T%d %s' % (table, header.row)
        read = Shadow(header.version, self.held_row(assembly))
        facts = []
        if slots.out and slots.out.number <= header.yours_number:
            facts.append('acked %s %d %s %d' % (self.name, slots.out.number, words, header.yours_version))
            slots = freed(slots, slots.out.number)
        is_own = not slots.conflict and header.yours_version == header.version
        if not slots.main or scheme == 'eventual' or is_own:
            facts.append('new %s %s %d' % (self.name, words, header.version))
            return slots._replace(shadow=read), facts
        facts.append('conflict %s %d %s %d' % (self.name, slots.main.number, words, header.version))
        return slots._replace(conflict=read, out=None), facts

    TAKES = {Answer: take_answer, Notify: take_notify}
    ROW_TAKES = {Response: take_response, Fragment: take_fragment, Pulled: take_pulled, TornPulled: take_row}

    # ---- all that waits for fragments, and all rows that are torn, over the tables

    @property
    def assemblies(self):
        return {(number, place): assembly for number, table in self.tables.items()
                for place, assembly in table.assemblies.items()}

    @property
    def torn(self):
        return {(number, row) for number, table in self.tables.items() for row in table.torn}
