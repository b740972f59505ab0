"""The plain program: the step tables of crates/step_tables and crates/world_tables, those of messages in parts,
crates/part_tables and crates/wire_tables, and those of gateways, crates/gate_tables, in Python, with several Stores and
all that stands around them: tables that are made and dropped, subscriptions and timers, selections, settling, a report
and a load.

Its disks never fail but in a crash, and are those in memory: of the four calls of a device write the third lands the
mark, so that a crash with K of 3 and more finds the write done, with K of 2 where a byte of the mark landed."""
# What the checks beside it use.
from .chunks import is_kept, names_in, placed_pieces
from .messages import Fragment, Pull, Pulled, Request, Response, TornPull, TornPulled, has_kept, is_complete
from .program import main, transcript
from .slots import EMPTY, local_names, version_seen
from .store import DRAFT, DROPPED, LIVE
from .values import GONE, cut
from .words import content_of
from .world import World
