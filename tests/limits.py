#!/usr/bin/env -S python3 -B
"""Large and hostile segments: what they may cost, and that they are answered all the same.

    tests/limits.py PROGRAM

Runs `dump` and `chain` with a bound on the address space or on the time, and compares what they print with the plain
reading of tests/mutants.py; and of evidence that is large looks how much memory `check`, `draw` and a report take. Prints what is wrong, and as its
last line 'N passed, N failed'.
"""
import json
import os
import resource
import shutil
import struct
import subprocess
import sys
import tempfile

import mutants
from chain_of_listing import answer
from mutants import varint

MIB = 2**20
LIMIT = 2**30
# The room of a run that meets a count which its bytes don't bear out: more than the program and its input take.
SMALL = 64 * MIB
# What a run may take that does work in proportion to its input. The slowest takes a tenth of it on a slow machine.
SECONDS = 60

# Runs a program, and says on standard error how many KiB it held at its peak.
PEAK = """import resource, subprocess, sys
done = subprocess.run(sys.argv[1:])
print(resource.getrusage(resource.RUSAGE_CHILDREN).ru_maxrss, file=sys.stderr)
sys.exit(done.returncode)"""

TABLE = []
for i in range(256):
    for _ in range(8):
        i = i >> 1 ^ (0x82F63B78 if i & 1 else 0)
    TABLE.append(i)


def crc32c(data):
    """As that of mutants.py, a byte at a time."""
    register = 0xFFFFFFFF
    for byte in data:
        register = register >> 8 ^ TABLE[(register ^ byte) & 255]
    return register ^ 0xFFFFFFFF


mutants.crc32c = crc32c


def text(data):
    return varint(len(data)) + data


def record(place, key=varint(-1), value=text(b"a"), headers=varint(0)):
    body = b"\0" + varint(0) + varint(place) + key + value + headers
    return varint(len(body)) + body


def batch(records, base=0, count=None, last=None):
    count = len(records) if count is None else count
    last = count - 1 if last is None else last
    head = struct.pack(">qiibIhiqqqhii", base, 0, 0, 2, 0, 0, last, 0, 0, -1, -1, -1, count)
    return mutants.sealed(head + b"".join(records))


def at_offset(bytes_, base):
    """The batch at another base offset, which the checksum doesn't cover."""
    return struct.pack(">q", base) + bytes_[8:]


def hostile():
    """Counts and lengths that no bytes bear out, each behind a checksum that is right."""
    huge = varint(2**31 - 1)
    for count in (2**31 - 1, 10**7):
        yield f"{count} headers", batch([record(0, headers=varint(count))])
        yield f"{count} records", batch([], count=count)
        yield f"{count} records, one there", batch([record(0)], count=count)
    yield "a key of 2^31 - 1 bytes", batch([record(0, key=huge)])
    yield "a value of 2^31 - 1 bytes", batch([record(0, value=huge)])
    yield "a header's key of 2^31 - 1 bytes", batch([record(0, headers=varint(1) + huge)])
    yield "a header's value of 2^31 - 1 bytes", batch([record(0, headers=varint(1) + text(b"k") + huge)])
    yield "a record of 2^31 - 1 bytes", batch([huge])
    yield "a batch of 2^31 - 1 bytes", struct.pack(">qi", 0, 2**31 - 1) + bytes(49)


class Cases:
    def __init__(self, program, folder):
        self.program, self.folder = program, folder
        self.passed = self.failed = 0

    def tell(self, name, wrong):
        if wrong:
            self.failed += 1
            print(f"FAILED: {name}: {wrong}")
        else:
            self.passed += 1

    def run(self, words, room=None):
        def bound():
            if room:
                resource.setrlimit(resource.RLIMIT_AS, (room, room))

        out = os.path.join(self.folder, "out")
        with open(out, "wb") as file:
            try:
                done = subprocess.run(words, stdout=file, stderr=subprocess.PIPE, preexec_fn=bound, timeout=SECONDS)
            except subprocess.TimeoutExpired:
                return None, b"", f"no answer after {SECONDS} seconds"
        with open(out, "rb") as file:
            return done.returncode, file.read(), done.stderr.decode(errors="replace")

    def compare(self, name, command, path, want, room=None):
        status, out, err = self.run([self.program, command, path], room)
        if (status, out, err) == want:
            self.tell(name, None)
        else:
            self.tell(name, f"{command}: {status} {out[-100:]!r} {err!r}, not {want[0]} {want[1][-100:]!r} {want[2]!r}")

    def both(self, name, path, data, room=None):
        lines = mutants.read(data)
        good = answer(lines)
        listed = "".join(line + "\n" for line in lines).encode()
        self.compare(name, "dump", path, (0 if lines[-1].startswith("end") else 1, listed, ""), room)
        self.compare(name, "chain", path, (0 if good.startswith("ok") else 1, f"{good}\n".encode(), ""), room)


def answers_hostile_counts(cases):
    for name, data in hostile():
        path = os.path.join(cases.folder, "hostile")
        with open(path, "wb") as file:
            file.write(data)
        cases.both(f"{name}, in {SMALL // MIB} MiB", path, data, SMALL)


def answers_large_records(cases):
    """Long keys, values and headers, and many of each, with ample memory."""
    many = b"".join(text(b"k" * (i % 7)) + text(b"v") for i in range(20000))
    records = [
        record(0, key=text(b"k" * 300_000)),
        record(1, value=text(b"v" * 700_000)),
        record(2, headers=varint(1) + text(b"h" * 100_000) + text(b"w" * 100_000)),
        record(3, headers=varint(20000) + many),
    ]
    data = batch(records) + batch([record(i) for i in range(20000)], base=4)
    path = os.path.join(cases.folder, "large")
    with open(path, "wb") as file:
        file.write(data)
    cases.both("long keys, values and headers, and many", path, data)


def answers_many_batches(cases):
    """Many small batches: work in proportion to the bytes, however many batches stand before."""
    one = batch([record(0)])
    count = 400_000
    path = os.path.join(cases.folder, "many")
    with open(path, "wb") as file:
        file.write(b"".join(at_offset(one, base) for base in range(count)))
    lines = b"".join(
        b"batch byte=%d base=%d count=1 producer=-1 epoch=-1 sequence=-1 plain\n"
        b"record offset=%d key=null value=61 headers=0\n" % (base * len(one), base, base)
        for base in range(count)
    )
    cases.compare("many batches", "dump", path, (0, lines + b"end bytes=%d\n" % (count * len(one)), ""))
    cases.compare("many batches", "chain", path, (0, b"ok batches=%d producers=0\n" % count, ""))


def answers_the_largest(cases):
    """A segment of exactly 2^30 bytes and one byte more. `chain` holds little of it, and `dump` all of its bytes."""
    one = batch([record(0, value=text(b"x" * (MIB - 100)))])
    path = os.path.join(cases.folder, "largest")
    count, rest = divmod(LIMIT, len(one))
    length = next(n for n in range(rest) if 61 + len(record(0, value=text(bytes(n)))) == rest)
    last = batch([record(0, value=text(bytes(length)))])
    with open(path, "wb") as file:
        for base in range(count):
            file.write(at_offset(one, base))
        file.write(at_offset(last, count))
    assert os.path.getsize(path) == LIMIT
    cases.compare("2^30 bytes", "chain", path, (0, b"ok batches=%d producers=0\n" % (count + 1), ""))
    cases.compare("2^30 bytes in little room", "chain", path, (0, b"ok batches=%d producers=0\n" % (count + 1), ""), SMALL)
    cases.compare("2^30 bytes in little room", "dump", path, (3, b"", "eoscheck: out of memory\n"), 256 * MIB)
    with open(path, "ab") as file:
        file.write(b"\0")
    for command in "dump", "chain":
        said = f"eoscheck: limit\n  {path} has more than 1073741824 bytes, as many as a segment may have\n"
        cases.compare("2^30 + 1 bytes", command, path, (2, b"", said))


def answers_evidence_in_little_memory(cases):
    """Evidence of 256 MiB, in which each record has 100 bytes and each output a claim: at their peak `check` and `draw` hold much less."""
    top = os.path.dirname(os.path.dirname(os.path.abspath(__file__)))
    maker, path = os.path.join(cases.folder, "maker"), os.path.join(cases.folder, "evidence")
    subprocess.run(["cc", "-O2", "-o", maker, os.path.join(top, "bench/folder.c")], check=True)
    made = subprocess.run([maker, path, "256", "7"], stdout=subprocess.PIPE, check=True)
    verdict = made.stdout.split(b"\n")[0] + b"\n"
    # Of a process that was forked off a large one the peak would be that one's, so a small one runs the program.
    done = subprocess.run([sys.executable, "-c", PEAK, cases.program, "check", path], capture_output=True)
    right = (done.returncode, done.stdout) == (0, verdict) and int(done.stderr) * 1024 < 0.7 * 256 * MIB
    cases.tell("256 MiB of evidence", None if right else f"{done.returncode} {done.stdout!r} {done.stderr!r} KiB at the peak")
    words = [cases.program, "draw", path, os.path.join(cases.folder, "picture.svg")]
    done = subprocess.run([sys.executable, "-c", PEAK, *words], capture_output=True)
    right = done.returncode == 0 and done.stdout.startswith(b"drew columns=12 ") and int(done.stderr) * 1024 < 0.7 * 256 * MIB
    cases.tell("a picture of it", None if right else f"{done.returncode} {done.stdout!r} {done.stderr!r} KiB at the peak")
    reports_a_million_faults(cases, path)
    shutil.rmtree(path)


def reports_a_million_faults(cases, path):
    """In the same evidence of a group that never committed each output is a fault: their list and their report take at most 1 GB."""
    manifest, report = os.path.join(path, "evidence.json"), os.path.join(cases.folder, "report.json")
    with open(manifest, encoding="utf-8") as file:
        value = json.load(file)
    for of in [value, *value.get("applications", [])]:
        of.update({"group": "another"} if "group" in of else {})
    with open(manifest, "w", encoding="utf-8") as file:
        json.dump(value, file)
    words = [cases.program, "check", "--all", "--quiet", "--report", report, path]
    with open(os.path.join(cases.folder, "lines"), "w+b") as lines:
        done = subprocess.run([sys.executable, "-c", PEAK, *words], stdout=lines, stderr=subprocess.PIPE)
        lines.seek(-40, os.SEEK_END)
        faults = int(lines.read().rpartition(b"faults=")[2])
    with open(report, encoding="utf-8") as file:
        listed = file.read().count('"code":"5.')
    right = done.returncode == 1 and listed == faults > 1_000_000 and int(done.stderr) * 1024 < 10**9
    cases.tell("a report of a million faults", None if right else f"{done.returncode}, {listed} of {faults} faults, {done.stderr!r} KiB at the peak")
    os.remove(report)


def state(status, producer, epoch, numbers):
    """The value of a transaction's state, which lists these partitions of a topic without logs."""
    listed = struct.pack(f">ih5si{len(numbers)}i", 1, 5, b"other", len(numbers), *numbers) if numbers else struct.pack(">i", 0)
    return struct.pack(">hqhib", 0, producer, epoch, 60000, status) + listed + struct.pack(">qq", 0, 0)


def transactions(count, numbers, others):
    """The records of so many transactions, of ten producers in turns: begun with these partitions, and prepared with the same, as this order has them."""
    for at in range(count):
        producer, epoch = 1000 + at % 10, at // 10
        key = text(b"\0\0" + struct.pack(">h", 4) + b"%d" % producer)
        for status, raised, listed in [(0, 0, [])] * (at < 10) + [(1, 0, numbers), (2, 1, others), (4, 1, [])]:
            yield key, text(state(status, producer, epoch + raised, listed))


def lay_transactions(path, count, *listed):
    """A folder of evidence of just a transaction log of so many transactions, whose partitions have no folder."""
    base = 0
    os.makedirs(f"{path}/__transaction_state-0")
    records = list(transactions(count, *listed))
    with open(f"{path}/__transaction_state-0/{0:020}.log", "wb") as log:
        while base < len(records):
            part = [record(place, key, value) for place, (key, value) in enumerate(records[base : base + 100])]
            log.write(at_offset(batch(part), base))
            base += len(part)
    with open(f"{path}/evidence.json", "w", encoding="utf-8") as manifest:
        manifest.write('{"version":2,"apps":[],"ends":{"__transaction_state-0":%d}}' % base)


# What check says of it.
ABSENT = b"no 3.6 AbsentPartition producer=1000 epoch=0 partition=other-0\n"


def many_listed(count):
    """By name what transactions list: as many records with one partition as partitions in long lists, in the same order or another."""
    each = 1000
    numbers = list(range(each))
    yield f"{count} records", (count // 3, [0], [0])
    yield f"{count} listed partitions in the same order", (count // (2 * each), numbers, numbers)
    yield f"{count} listed partitions in another order", (count // (2 * each), numbers, numbers[::-1])


def answers_many_listed_partitions(cases):
    """Of how long these take tells bench/run --listed."""
    path = os.path.join(cases.folder, "listed")
    for name, made in many_listed(40_000):
        lay_transactions(path, *made)
        said = cases.run([cases.program, "check", "--quiet", "--workers", "1", path])
        cases.tell(name, None if said == (1, ABSENT, "") else f"{said}, not {ABSENT!r}")
        shutil.rmtree(path)


def main():
    with tempfile.TemporaryDirectory() as folder:
        cases = Cases(os.path.abspath(sys.argv[1]), folder)
        answers_hostile_counts(cases)
        answers_large_records(cases)
        answers_many_batches(cases)
        answers_the_largest(cases)
        answers_evidence_in_little_memory(cases)
        answers_many_listed_partitions(cases)
    print(f"{cases.passed} passed, {cases.failed} failed")
    sys.exit(1 if cases.failed else 0)


if __name__ == "__main__":
    main()
