"""Settling: all nodes are up, and send, pull and take until nothing is left. Nodes on hold work too, and stay on
hold."""
from .values import Refused


def settle(world):
    """How many packets were delivered."""
    settling = Settling(world)
    settling.start_all()
    settling.link_all()
    settling.each_table(settling.send_all)
    settling.each_table(settling.pull)
    return settling.delivered


class Settling:
    def __init__(self, world):
        self.world = world
        # the next packet to be delivered: those from before aren't
        self.begin = self.next = len(world.packets)

    @property
    def delivered(self):
        return self.next - self.begin

    def work(self, node):
        while node.agenda:
            node.work()
        self.world.hand_over()

    def start_all(self):
        """Starts each node that is down, and works it to its end before the next; and then the others."""
        for node in self.world.nodes():
            if node.is_down:
                node.start()
                self.work(node)
        for node in self.world.nodes():
            self.work(node)

    def link_all(self):
        """Brings each link up; a client whose link is up registers again."""
        for node in self.clients():
            if node.link_up:
                node.register()
            else:
                node.set_link(True)
        self.drain()

    def clients(self):
        return [client for _, client in sorted(self.world.clients.items())]

    def drain(self):
        """Delivers each packet that was sent, once, in their order; the work follows. One that is refused counts."""
        self.world.hand_over()
        while self.next < len(self.world.packets):
            sender, to, message = self.world.packets[self.next]
            self.next += 1
            node = self.world.node(to)
            try:
                node.take(sender, message)
            except Refused:
                pass
            self.work(node)

    def each_table(self, done):
        """Does something with each client's tables that are opened when their turn comes."""
        for client in self.clients():
            for table in sorted(self.world.tables):
                if table in client.tables:
                    done(client, table)

    def send_all(self, client, table):
        """Sends until nothing is left to be sent."""
        while table in client.tables and client.sync(table) != 'ok 0':
            self.work(client)
            self.drain()

    def pull(self, client, table):
        client.pull(table)
        self.drain()
