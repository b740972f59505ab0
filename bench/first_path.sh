#!/usr/bin/env bash
# Lines per second and peak memory of a run that writes and shows rows in turn, over 65,536 rows, at 100,000 and at
# 1,000,000 lines. Ends with 1 where ten times the lines took more than 15 times the time.
set -euo pipefail
top=$(dirname "$(readlink -f "$0")")/..
"$top/simba" run < /dev/null
PYTHONPATH=$top/bench exec python3 -B - "$top/crates/simba_cli/out/simba_cli" <<'P'
import sys
from runs import compare, measure

ROWS = 65536

def script(lines):
    yield "store S1"
    yield "table T1 notes eventual 64 n:int"
    yield "client C1 - T1"
    x = 1
    for i in range((lines - 3) // 2):
        x = (x * 6364136223846793005 + 1442695040888963407) % 2**64
        row = "00000000-0000-4000-8000-%012x" % ((x >> 33) % ROWS)
        yield f"write C1 T1 {row} {i}"
        yield f"show C1 T1 {row}"

compare(measure(sys.argv[1], script(100_000)), measure(sys.argv[1], script(1_000_000)))
P
