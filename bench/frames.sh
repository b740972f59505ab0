#!/usr/bin/env bash
# Times framing and decoding of 256 MB of frames of 64 KB and of 40 bytes, in pieces of 4 KB, and of a tenth of them
# byte by byte, beside a copy by `cat`.
set -eu
cd "$(dirname "$0")/../crates/frame_bench"
[ -x out/frame_bench ] || printf '' | rt run -- 4096 >/dev/null
folder=$(mktemp -d)
trap 'rm -rf "$folder"' EXIT
python3 - "$folder" <<'PYTHON'
import struct, sys
def frame(kind, body):
    return struct.pack(">IB", len(body) + 1, kind) + body
row = bytes(16)
front = struct.pack(">IQI", 1, 0, 2)
long = frame(7, front + row + b"\0" + struct.pack(">QII", 9, 1, 2) + struct.pack(">I", 65459) + bytes(65459))
short = frame(2, front + struct.pack(">I", 1) + b"t\1" + struct.pack(">II", 1024, 1) + struct.pack(">IB", 0, 1))
assert len(short) == 40
for name, one in (("long", long), ("short", short)):
    for part, size in (("whole", 256_000_000), ("tenth", 25_600_000)):
        with open(f"{sys.argv[1]}/{name}_{part}", "wb") as out:
            out.write(one * (size // len(one)))
PYTHON
TIMEFORMAT='%R s'
for name in long short; do
    bytes=$(stat -c %s "$folder/${name}_whole")
    echo "$name frames, $bytes bytes: a copy by cat"
    time cat "$folder/${name}_whole" >"$folder/copy"
    rm "$folder/copy"
    echo "in pieces of 4096 bytes"
    time out/frame_bench 4096 <"$folder/${name}_whole"
    echo "a tenth, byte by byte"
    time out/frame_bench 1 <"$folder/${name}_tenth"
done
