#!/usr/bin/env bash
# Times 200 crashes and starts of a Store over a table of 5,000 rows and 20 over one of 50,000, each row of one chunk: the
# run with them less the run without them. Each crash is inside the row's write of an update, so that each start has one
# to undo. Ends with 1 where ten times the rows took more than 12 times the time a start.
set -euo pipefail
top=$(dirname "$(readlink -f "$0")")/..
"$top/simba" run < /dev/null
PYTHONPATH=$top/bench exec python3 -B - "$top/crates/simba_cli/out/simba_cli" <<'P'
import sys
from runs import measure

def row_id(row):
    return "00000000-0000-4000-8000-%012x" % row

def filled(rows):
    """A Store with so many rows of one table. Each is sent as a header and a fragment, and answered by a packet."""
    yield "store S1"
    yield "table T1 notes eventual 64 n:int o:object"
    yield "client C1 - T1"
    for row in range(rows):
        yield f"write C1 T1 {row_id(row)} {row} h:00"
        yield "sync C1 T1"
        yield from (f"deliver {3 * row + packet}" for packet in range(3))

def crashed(rows, crashes):
    """The same, and then crashes inside the write of a row that is put again, each undone by a start."""
    yield from filled(rows)
    yield f"write C1 T1 {row_id(0)} 1 h:01"
    yield "sync C1 T1"
    yield "hold S1"
    for _ in range(crashes):
        yield from (f"deliver {3 * rows + packet}" for packet in range(2))
        yield "work S1"
        yield "work S1"
        yield "crash S1 1 0"
        yield "start S1"
        yield "do S1"

def starts(rows, crashes):
    """The seconds that a crash and its start alone took."""
    plain = measure(sys.argv[1], filled(rows))
    taken = max(measure(sys.argv[1], crashed(rows, crashes)) - plain, 0.001)
    print(f"{crashes} crashes and starts over {rows} rows: {taken:.2f} s")
    return taken / crashes

short, long = starts(5_000, 200), starts(50_000, 20)
print(f"ten times the rows took {long / short:.1f} times the time a start")
sys.exit(long > 12 * short)
P
