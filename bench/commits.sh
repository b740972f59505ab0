#!/usr/bin/env bash
# Times a table's updates and a client's plans, each over three devices in memory, at a tenth of the work and at all
# of it: 100,000 updates of one chunk of 64 bytes over 1,000 rows; 2,000 updates of 256 chunks over 10 rows; the
# recovery of an update that a crash cut short in a table of 50,000 rows (a look, a scan, a recovery and its writes);
# 100,000 plans of one chunk of 64 bytes over 1,000 rows, each of which drops the chunk that the row had; and a start
# of a client of 50,000 rows with a commit to redo (a look, a recovery and its writes). A recovery and a start are the
# time of the program with it less that without it. Ends with 1 where ten times the work took more than 12 times the
# time.
set -euo pipefail
cd "$(dirname "$0")/../crates"
(cd commit_bench && { [ -x out/commit_bench ] || rt run -- updates 10 1 5 >/dev/null; })
(cd plan_bench && { [ -x out/plan_bench ] || rt run -- plans 10 5 >/dev/null; })
exec python3 -B - <<'P'
import os, subprocess, sys

def once(program, *words):
    """The processor time of one run in seconds, and the line that it wrote."""
    words = [f"{program}/out/{program}", *map(str, words)]
    child = subprocess.Popen(words, stdout=subprocess.PIPE, text=True)
    line = child.stdout.read().strip()
    _, status, used = os.wait4(child.pid, 0)
    child.returncode = os.waitstatus_to_exitcode(status)
    if child.returncode != 0:
        sys.exit(f"{program} ended with {child.returncode}")
    return used.ru_utime + used.ru_stime, line

def spent(runs, *words):
    """The processor time of so many runs in seconds, the least of five, and the line that each wrote."""
    least = None
    for _ in range(5):
        took = 0
        for _ in range(runs):
            one, line = once(*words)
            took += one
        least = took if least is None else min(least, took)
    return least, line

def updates(runs, count, chunks, rows):
    """The time of so many updates, so often, and their line."""
    return spent(runs, "commit_bench", "updates", count, chunks, rows)

def recovery(runs, rows):
    """The time of a recovery alone, so often, and its line."""
    plain, _ = spent(runs, "commit_bench", "updates", rows, 1, rows)
    whole, line = spent(runs, "commit_bench", "recovery", rows, 1, rows)
    return whole - plain, line

def plans(runs, count, rows):
    """The time of so many plans, so often, and their line."""
    return spent(runs, "plan_bench", "plans", count, rows)

def start(runs, rows):
    """The time of a start alone, so often, and its line."""
    plain, _ = spent(runs, "plan_bench", "plans", rows, rows)
    whole, line = spent(runs, "plan_bench", "recovery", rows, rows)
    return whole - plain, line

grows = False
for name, tenths, whole in (
    ("updates of one chunk", updates(10, 10_000, 1, 1_000), updates(1, 100_000, 1, 1_000)),
    ("updates of 256 chunks", updates(10, 200, 256, 10), updates(1, 2_000, 256, 10)),
    ("a recovery", recovery(10, 5_000), recovery(1, 50_000)),
    ("plans of one chunk", plans(10, 10_000, 1_000), plans(1, 100_000, 1_000)),
    ("a client's start", start(10, 5_000), start(1, 50_000)),
):
    print(f"{name}: ten times a tenth {tenths[0]:.3f} s, all {whole[0]:.3f} s; {tenths[1]}; {whole[1]}")
    grows = grows or 10 * whole[0] > 12 * tenths[0]
if grows:
    sys.exit("grows more than it may")
P
