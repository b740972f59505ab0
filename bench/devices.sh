#!/usr/bin/env bash
# Times a device of rows in memory at a tenth of its work and at all of it: 200,000 puts over 10,000 rows, a look, and a
# read of each row. Ten times the work may take at most 12 times as long, in processor time: ten runs of the tenth are
# held against one of all, the best of five.
set -eu
cd "$(dirname "$0")/../crates/vault_bench"
[ -x out/vault_bench ] || rt run -- rows 100 10 >/dev/null
TIMEFORMAT='%U %S'

# how many milliseconds of processor time so many runs take together, the best of five
best() {
    local least='' spent
    for _ in 1 2 3 4 5; do
        spent=$({ time for _ in $(seq "$1"); do out/vault_bench rows "$2" "$3" >/dev/null; done; } 2>&1 |
            awk '{ print int(1000 * ($1 + $2)) }')
        if [[ -z $least ]] || ((spent < least)); then
            least=$spent
        fi
    done
    echo "$least"
}

tenth=$(best 10 20000 1000)
whole=$(best 1 200000 10000)
echo "ten times a tenth: $tenth ms, all: $whole ms"
if ((10 * whole > 12 * tenth)); then
    echo 'grows more than it may' >&2
    exit 1
fi
