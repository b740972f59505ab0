#!/usr/bin/env bash
# Seconds and peak memory of a run in which a client resolves its conflicts, of 500 rows and of 5,000: row by row, and then
# all at once. Ends with 1 where ten times the conflicts took more than 12 times the time, either way.
set -euo pipefail
top=$(dirname "$(readlink -f "$0")")/..
"$top/simba" run < /dev/null
PYTHONPATH=$top/bench exec python3 -B - "$top/crates/simba_cli/out/simba_cli" <<'P'
import sys
from runs import measure, outgrows

CHOICES = "mine", "theirs", "new 9"

def row_id(row):
    return "00000000-0000-4000-8000-%012x" % row

def conflicts(rows):
    yield "store S1"
    yield "table T1 notes causal 64 n:int"
    yield "client C1 - T1"
    yield "client C2 - T1"
    for row in range(rows):
        yield f"write C1 T1 {row_id(row)} {row}"
        yield "sync C1 T1"
        yield f"deliver {2 * row}"
        yield f"deliver {2 * row + 1}"
        yield f"write C2 T1 {row_id(row)} {row + 1 if row % 2 else row - 1}"
    yield "pull C2 T1"
    for row in range(rows):
        yield f"deliver {2 * (rows + row)}"
        yield f"deliver {2 * (rows + row) + 1}"
    yield "begin_cr C2 T1"

def row_by_row(rows):
    yield from conflicts(rows)
    yield "conflicts C2 T1"
    for row in range(rows):
        yield f"resolve C2 T1 {row_id(row)} {row + 1} {CHOICES[row % 3]}"
    yield "end_cr C2 T1"

def at_once(rows):
    yield from conflicts(rows)
    yield "resolve_all C2 T1 larger n"
    yield "end_cr C2 T1"

def is_too_slow(resolved):
    few, many = (measure(sys.argv[1], resolved(rows)) for rows in (500, 5_000))
    return outgrows(few, many, 12)

print("row by row")
slow = is_too_slow(row_by_row)
print("all at once")
sys.exit(is_too_slow(at_once) or slow)
P
