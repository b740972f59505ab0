"""A gateway: clients register at it, it passes their messages on to the Stores, and tells them of changes. It keeps
sessions and timers in memory alone."""
from .messages import (DONE, KINDS, NO_TABLE, UNREGISTERED, Answer, Changed, Notify, Register, Restore, Save, Subscribe,
                       Unsubscribe, answered_kind)
from .node import IDLE
from .timers import Timer, fired, ticked

STARTS_UNIT = 2 ** 32


class Session:
    """A client's session: its token, and the timer of each table that it subscribes to."""

    def __init__(self, token):
        self.token = token
        self.timers = {}


class Gateway:
    def __init__(self, number, directory, out):
        self.number = number
        self.name = 'G%d' % number
        self.directory = directory
        self.out = out
        self.starts = 0
        self.drawn = 0
        self.sessions = {}

    @property
    def is_down(self):
        return self.sessions is None

    def send(self, sends):
        self.out.append((self.name, (), sends))

    # ---- a gateway has no device writes

    agenda = ()

    def work(self):
        return IDLE

    def crash(self, calls, pick):
        self.sessions = None

    def start(self):
        """No token of an earlier start counts any more."""
        self.starts += 1
        self.drawn = 0
        self.sessions = {}

    # ---- messages

    def take(self, sender, message):
        """A message of a client, or of a Store."""
        if sender[0] == 'C':
            self.take_of_client(message)
        elif type(message) is Changed:
            self.change(message.table)
        elif type(message) is Restore:
            self.restore(message)
        else:
            self.pass_to_client(message)

    # ---- a client's messages

    def take_of_client(self, message):
        session = self.sessions.get(message.client)
        if type(message) is Register:
            self.register(message.client)
        elif not session or session.token != message.token:
            self.answer(message, UNREGISTERED)
        elif message.table not in self.directory.tables:
            self.answer(message, NO_TABLE)
        else:
            owner = self.directory.owner_name(message.table)
            self.send([(owner, self.passed(session, message))])

    def register(self, client):
        """A new session, whatever there was before; each Store that owns a table is asked for the client's
        subscriptions."""
        self.drawn += 1
        token = self.starts * STARTS_UNIT + self.drawn
        self.sessions[client] = Session(token)
        asks = [('S%d' % store, Restore(client, self.number, False, ())) for store in self.directory.owners()]
        self.send([('C%d' % client, Answer(client, 0, KINDS[Register], DONE, token, None))] + asks)

    def answer(self, message, status):
        self.send([('C%d' % message.client,
                    Answer(message.client, message.table, answered_kind(message), status, message.token, None))])

    def passed(self, session, message):
        """What goes to the owner: the client's message as it is, or what its subscription is. The session's timer is
        made or taken away with it."""
        if type(message) is Subscribe:
            session.timers[message.table] = Timer(message.period, message.tolerance)
            return Save(message.client, self.number, message.table, True, message.period, message.tolerance)
        if type(message) is Unsubscribe:
            session.timers.pop(message.table, None)
            return Save(message.client, self.number, message.table, False, 0, 0)
        return message

    # ---- a Store's messages

    def pass_to_client(self, message):
        """To a client that has a session. Where a subscription or its end was refused, there is no timer."""
        session = self.sessions.get(message.client)
        if not session:
            return
        is_of_subscription = type(message) is Answer and message.answered in (KINDS[Subscribe], KINDS[Unsubscribe])
        if is_of_subscription and message.status != DONE:
            session.timers.pop(message.table, None)
        self.send([('C%d' % message.client, message)])

    def restore(self, message):
        """Subscriptions that a Store has kept: their timers begin anew, marked."""
        session = self.sessions.get(message.client)
        if session and message.is_reply:
            for table, period, tolerance in message.subscriptions:
                session.timers[table] = Timer(period, tolerance, is_marked=True)

    # ---- changes of tables, and ticks

    def change(self, table):
        """The timers of a table that has changed are marked; those of a strong table fire at once."""
        is_strong = self.directory.is_strong(table)
        for client, session in sorted(self.sessions.items()):
            if table in session.timers:
                session.timers[table].is_marked = True
                if is_strong:
                    self.notify(client, session, fired(session.timers))

    def tick(self):
        for client, session in sorted(self.sessions.items()):
            self.notify(client, session, ticked(session.timers))

    def notify(self, client, session, tables):
        """The timers of some tables fire, and the client is told: bit T - 1 stands for table T."""
        for table in tables:
            session.timers[table].fire()
        if tables:
            self.send([('C%d' % client, Notify(client, sum(1 << (table - 1) for table in tables)))])
