#!/usr/bin/env bash
# Times objects of which the changed chunks travel, each beside a tenth of its chunks or of its patches: an object
# of 4,194,304 bytes in chunks of 65,536, which one client writes and sends and seven others pull; one of 2,097,152
# bytes in chunks of 64, which one other pulls; and 1,000 patches of one byte in an object of 4,194,304 bytes, each
# sent and pulled, against the same patches without that. Counts what travels by the lines `sent`, and the chunks
# that are put behind the patches by the device writes. Ends with 1 where these aren't the changed chunks, and where
# ten times as much took more than 12 times the time. Then eight clients show the first object, whole and by
# digests, against copies by `cat` of the bytes of the transcript and of the object; and an object of `r:` is
# refused at 4,194,305 bytes and at eight times as many.
set -euo pipefail
top=$(dirname "$(readlink -f "$0")")/..
"$top/simba" run < /dev/null
exec python3 -B - "$top/crates/simba_cli/out/simba_cli" <<'P'
import os, subprocess, sys, tempfile, time
from collections import Counter

ROW = "00000000-0000-4000-8000-000000000001"
LENGTH = 4_194_304
SUMS = 32
PATCHES = 1000
program = [sys.argv[1], "run"]

class Script:
    """The lines of a script with one row, how often it sends each message, and how many bytes their frames have."""

    def __init__(self, chunk, clients):
        self.lines = ["store S1", f"table T1 notes eventual {chunk} o:object"]
        self.lines += [f"client C{c} - T1" for c in range(1, clients + 1)]
        self.chunk = chunk
        self.length = 0
        self.counts = Counter()
        self.bytes = 0

    def text(self):
        return "\n".join(self.lines + [""]).encode()

    def chunks(self):
        """The lengths of the object's chunks."""
        return [min(self.chunk, self.length - at) for at in range(0, self.length, self.chunk)]

    def carry(self, name, head, fresh=()):
        """A message that was sent, with a header of so many bytes and fresh chunks of these lengths, is delivered."""
        first = sum(self.counts[sent] for sent in self.counts if sent != "chunk-put")
        self.counts[name] += 1
        self.counts["objectFragment"] += len(fresh)
        self.bytes += head + sum(58 + length for length in fresh)
        self.lines += [f"deliver {first + part}" for part in range(1 + len(fresh))]

    def write(self, length):
        self.length = length
        self.lines += [f"write C1 T1 {ROW} r:{length}:00", "sync C1 T1"]
        self.carry("syncRequest", 70 + 5 * len(self.chunks()), self.chunks())
        self.carry("syncResponse", 46)

    def pull(self, client, fresh):
        self.lines.append(f"pull C{client} T1")
        self.carry("pullRequest", 29)
        self.carry("pullResponse", 95 + 13 * len(self.chunks()), fresh)

    def work(self, node, writes):
        self.lines += [f"work {node}"] * writes

    def patch(self, at):
        self.lines.append(f"patch C1 T1 {ROW} o {at} ff")
        self.counts["chunk-put"] += 1
        self.work("C1", 6)

    def send_patch(self, at):
        """The client sends what it has patched, and the other one pulls it: a chunk comes in place of another."""
        fresh = [self.chunks()[at // self.chunk]]
        self.counts["chunk-put"] += 2
        self.lines.append("sync C1 T1")
        self.work("C1", 3)
        self.carry("syncRequest", 70 + 5 + 13 * (len(self.chunks()) - 1), fresh)
        self.work("S1", 5)
        self.carry("syncResponse", 46)
        self.work("C1", 4)
        self.pull(2, fresh)
        self.work("C2", 7)

def shared(length, chunk, clients, shows=()):
    """One client writes and sends, the others pull, and all of them carry out the commands."""
    script = Script(chunk, clients)
    script.write(length)
    for client in range(2, clients + 1):
        script.pull(client, script.chunks())
    script.lines += [f"{show} C{c} T1 {ROW}" for show in shows for c in range(1, clients + 1)]
    return script

def patched(count, are_sent):
    """Bytes of an object that two clients have are patched, at as many places."""
    script = shared(LENGTH, 65536, 2)
    script.lines += ["hold C1", "hold C2", "hold S1"]
    for number in range(count):
        at = number * 4099 % LENGTH
        script.patch(at)
        if are_sent:
            script.send_patch(at)
    return script

def source_of(text):
    """A file with the text, to be read from its start."""
    source = tempfile.TemporaryFile()
    source.write(text)
    source.seek(0)
    return source

def run(command, text, written=subprocess.DEVNULL):
    """The time of a run in seconds, and its peak memory in MB. What it writes stays in a file: a child's peak counts
    this program's memory too."""
    begun = time.monotonic()
    child = subprocess.Popen(command, stdin=source_of(text), stdout=written)
    _, status, used = os.wait4(child.pid, 0)
    took = time.monotonic() - begun
    child.returncode = os.waitstatus_to_exitcode(status)
    if child.returncode != 0:
        sys.exit(f"{command[0]} ended with {child.returncode}")
    return took, used.ru_maxrss // 1024

def spent(command, text, runs=3):
    """The least time of some runs in seconds, and the peak memory of the last one in MB."""
    taken = [run(command, text) for _ in range(runs)]
    return min(took for took, _ in taken), taken[-1][1]

def counted(text):
    """How often each message is sent, and how often a chunk is put by `work`."""
    counts = Counter()
    with subprocess.Popen(program, stdin=source_of(text), stdout=subprocess.PIPE, bufsize=1 << 20) as child:
        for line in child.stdout:
            if line.startswith(b"sent "):
                counts[line.split()[4].decode()] += 1
            elif line == b"ok chunk-put\n":
                counts["chunk-put"] += 1
    return counts

def travel(name, script):
    """Prints what travels, and ends with 1 where it is more or less than the changed chunks."""
    got = counted(script.text())
    if got != +script.counts:
        sys.exit(f"{name}: not the changed chunks travel: {dict(got)} for {dict(script.counts)}")
    puts = got.pop("chunk-put", 0)
    put = f", {puts} chunks put behind" if puts else ""
    packets, fragments = sum(got.values()), got["objectFragment"]
    print(f"{name}: {packets} packets, {fragments} of them fragments; {script.bytes} bytes{put}")

def compare(tenth, whole, runs=3):
    """The time of the whole, beside a tenth."""
    short, _ = spent(program, tenth.text(), runs)
    long, peak = spent(program, whole.text(), runs)
    print(f"  {long:.3f} s, {peak} MB at most; a tenth {short:.3f} s, {long / short:.1f} times the time")
    if long > 12 * short:
        sys.exit("grows more than it may")
    return long

def declared(*lines):
    return "\n".join(Script(65536, 1).lines + [*lines, ""]).encode()

travel("4 MB in chunks of 64 KB to eight clients", shared(LENGTH, 65536, 8))
alone = compare(shared(LENGTH // 10, 65536, 8), shared(LENGTH, 65536, 8))
travel("2 MB in chunks of 64 bytes to two", shared(LENGTH // 2, 64, 2))
compare(shared(LENGTH // 20, 64, 2), shared(LENGTH // 2, 64, 2))
travel(f"{PATCHES} patches of a byte, sent and pulled", patched(PATCHES, True))
sent = compare(patched(PATCHES // 10, True), patched(PATCHES, True), 1)
kept, _ = spent(program, patched(PATCHES, False).text(), 1)
print(f"  of that {sent - kept:.3f} s to send, accept and pull; to patch and print {kept:.3f} s")

took, peak = spent(program, shared(LENGTH, 65536, 8, ["sum"] * (SUMS // 8)).text())
copy, _ = spent(["cat"], bytes(LENGTH))
each = (took - alone) / SUMS
print(f"eight clients and {SUMS} sums: {took:.3f} s, {peak} MB; each {each:.4f} s; cat of the object: {copy:.4f} s")
with tempfile.TemporaryFile() as written:
    took, peak = run(program, shared(LENGTH, 65536, 8, ["show"]).text(), written)
    size = os.fstat(written.fileno()).st_size
    written.seek(0)
    copy, _ = run(["cat"], written.read())
print(f"and eight shows: {took:.3f} s, {size} bytes written, {peak} MB; cat of the same bytes: {copy:.3f} s")
eighth, _ = spent(program, declared(f"write C1 T1 {ROW} r:{LENGTH + 1}:ffd8"))
whole, _ = spent(program, declared(f"write C1 T1 {ROW} r:{8 * LENGTH}:ffd8"))
print(f"a refused r: of 4,194,305 bytes: {eighth:.3f} s; of 33,554,432: {whole:.3f} s")
if whole > 12 * eighth:
    sys.exit("grows more than it may")
P
