#!/usr/bin/env bash
# Times a vault in memory at a tenth of its records and at all of them.
set -eu
cd "$(dirname "$0")/../crates/vault_bench"
[ -x out/vault_bench ] || rt run -- vault 100 64 >/dev/null
TIMEFORMAT='%R s'
for words in 'vault 100000 64' 'vault 1000000 64' 'vault 200 1048576' 'vault 2000 1048576'; do
    # shellcheck disable=SC2086
    time out/vault_bench $words
done
