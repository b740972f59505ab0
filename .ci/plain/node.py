"""What a Store's table and a client have in common: device writes, the vaults that they fill, and crashes inside
them."""
from collections import namedtuple

# A device write by its name, with what it writes, what it tells and what it sends. A send is an address and a message;
# facts are lines already. What is sent to OWNER goes to the Store that owns the table which the message names.
Task = namedtuple('Task', 'step arg facts sends', defaults=(None, (), ()))
OWNER = 'owner'
IDLE = 'idle'

# From so many payloads on a vault is compacted, where more than half of them are live no more.
COMPACTED_FROM = 1024


class Vault:
    """How many payloads a vault has."""

    def __init__(self, payloads=0):
        self.payloads = payloads


def compaction(vault, live):
    """The device writes that compact a vault with so many live payloads, none where it isn't due: the idle file is
    cleared, a header and each live payload are copied, and the files turn round."""
    if vault.payloads < COMPACTED_FROM or vault.payloads <= 2 * live:
        return []
    return [Task('compact-clear')] + [Task('compact-copy')] * (1 + live) + [Task('compact-turn', (vault, live))]


def is_landed(step, calls, pick):
    """Whether a device write is done where so many disk calls of it pass and of the next one so many bytes. Of the four
    calls of a payload's write the third lands its mark; the turn of a compaction begins with its mark."""
    mark = 0 if step == 'compact-turn' else 2
    return calls > mark or (calls == mark and pick >= 1)


class Node:
    """A node with an agenda of device writes, None where it is down; and the world's list of what its moves told and
    sent."""

    def __init__(self, name, out):
        self.name = name
        self.agenda = []
        self.out = out
        # the vault that each device write adds a payload to
        self.vaults = {}

    @property
    def is_down(self):
        return self.agenda is None

    def tell(self, facts, sends):
        """What one move tells and sends."""
        self.out.append((self.name, facts, sends))

    def work(self):
        """Does the next device write, and gives its name."""
        if not self.agenda:
            return IDLE
        task = self.agenda.pop(0)
        self.land(task)
        self.told(task)
        return task.step

    def land(self, task):
        """What a device write leaves on the devices, whether or not it is told of."""
        if task.step == 'compact-turn':
            vault, vault.payloads = task.arg
        elif task.step in self.vaults:
            self.vaults[task.step].payloads += 1
        self.change(task)

    def told(self, task):
        """What is told and sent behind a device write."""
        self.tell(task.facts, task.sends)

    def crash(self, calls, pick):
        """The write at work is undone, or done with nothing told and sent."""
        if self.agenda and is_landed(self.agenda[0].step, calls, pick):
            self.land(self.agenda[0])
        self.lose()

    def lose(self):
        """What stands in memory is lost, and the node is down."""
        self.agenda = None
