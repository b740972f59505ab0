#!/usr/bin/env bash
# Lines per second and peak memory of a run in which two clients write, send and pull in turn, over 1,000 rows, at 20,000
# and at 200,000 lines. Ends with 1 where ten times the lines took more than 15 times the time.
set -euo pipefail
top=$(dirname "$(readlink -f "$0")")/..
"$top/simba" run < /dev/null
PYTHONPATH=$top/bench exec python3 -B - "$top/crates/simba_cli/out/simba_cli" <<'P'
import itertools, sys
from runs import compare, measure

ROWS = 1000
PULLS = 4  # one pull behind so many writes

def row_id(row):
    return "00000000-0000-4000-8000-%012x" % row

class Store:
    """The versions of one table, and how many packets were sent."""
    def __init__(self):
        self.rows = [None]
        self.current = {}
        self.sent = 0

    def send(self, packets):
        self.sent += packets
        return self.sent - packets

    def accept(self, row):
        self.rows.append(row)
        self.current[row] = len(self.rows) - 1

    def next_changed(self, position):
        versions = range(position + 1, len(self.rows))
        return next((v for v in versions if self.current[self.rows[v]] == v), position)

def script():
    yield "store S1"
    yield "table T1 notes eventual 64 n:int"
    yield "client C1 - T1"
    yield "client C2 - T1"
    store, positions, x = Store(), {1: 0, 2: 0}, 1
    for i in itertools.count():
        x = (x * 6364136223846793005 + 1442695040888963407) % 2**64
        row, client = (x >> 33) % ROWS, 1 + i % 2
        request = store.send(2)
        store.accept(row)
        yield f"write C{client} T1 {row_id(row)} {i}"
        yield f"sync C{client} T1"
        yield f"deliver {request}"
        yield f"deliver {request + 1}"
        if i % PULLS == 0:
            reader = 3 - client
            pull = store.send(2)
            positions[reader] = store.next_changed(positions[reader])
            if positions[reader] < len(store.rows) - 1:
                store.send(1)
            yield f"pull C{reader} T1"
            yield f"deliver {pull}"
            yield f"deliver {pull + 1}"

def front(lines):
    return itertools.islice(script(), lines)

compare(measure(sys.argv[1], front(20_000)), measure(sys.argv[1], front(200_000)))
P
