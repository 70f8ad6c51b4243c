#!/usr/bin/env -S python3 -B
"""Compares `dump` with --headers, --decode, --as, --from and --to with a plain reading of the formats.

    tests/decoded_dump.py PROGRAM

The segments are those of tests/segments, tests/real-evidence and tests/evidence, which other software wrote, and a few that
are made here, whose lines stand here as they were worked out by hand. The reading is that of tests/plain_logs.py, by the same
authors as the program, whose code it doesn't share. Prints what differs, and as its last line 'N passed, N failed'.
"""
import glob
import os
import re
import struct
import subprocess
import sys
import tempfile

import plain_logs
from made_evidence import text, unsigned
from mutants import Reader, Refused, varint

HERE = os.path.dirname(os.path.abspath(__file__))
OUTPUTS, TRANSACTIONS, OFFSETS = "outputs", "transactions", "offsets"
STATES = (
    "Empty Ongoing PrepareCommit PrepareAbort CompleteCommit CompleteAbort Dead PrepareEpochFence".split()
)
ABOVE_ALL = 2**64 - 1


# ---- what a listing says, by the plain reading


def printed(name):
    return "".join(chr(b) if re.match(rb"[A-Za-z0-9._-]", bytes([b])) else f"%{b:02x}" for b in name)


def digits(value):
    return "null" if value is None else value.hex()


def place(topic, number):
    return f"{printed(topic)}-{number}"


def partitions_of(value):
    """The partitions of a transaction's value that reads, in the order of the record."""
    fields = plain_logs.Fields(value)
    version = fields.number("h")
    fields.take(8 + 2 + 4 + 1)
    count = (lambda: fields.unsigned() - 1) if version else (lambda: fields.number("i"))
    found = []
    for _ in range(count()):
        topic = fields.take(count()) if version else fields.text()
        found += [place(topic, fields.number("i")) for _ in range(count())]
        if version:
            fields.tagged()
    return found


def transaction_said(key, value):
    name = plain_logs.state_key(key)
    if name is None:
        return "skipped key"
    state = plain_logs.state_value(value)
    if value is None:
        return f"transaction id={printed(name)} tombstone"
    return (
        f"transaction id={printed(name)} producer={state.producer} epoch={state.epoch} "
        f"status={STATES[state.status]} partitions={','.join(partitions_of(value))}"
    )


def commit_said(key, value):
    found = plain_logs.offset_key(key)
    if found is None:
        return "skipped key"
    group, topic, number = found
    line = f"commit group={printed(group)} {place(topic, number)}"
    return f"{line} tombstone" if value is None else f"{line}={plain_logs.offset_value(value)}"


def claim_said(headers):
    claim = plain_logs.claim_of(headers)
    if claim is None:
        return "unread BadLineage"
    (topic, number, offset), output, of = claim
    return f"claim {place(topic, number)}:{offset} {output}/{of}"


def said(reading, record):
    try:
        if reading == OUTPUTS:
            return claim_said(record.headers)
        return (transaction_said if reading == TRANSACTIONS else commit_said)(record.key, record.value)
    except Refused as refusal:
        return f"unread {refusal}"


def timestamps(text_of_batch):
    """The records' timestamps of a batch that reads."""
    attributes = struct.unpack(">h", text_of_batch[21:23])[0]
    base, most = struct.unpack(">qq", text_of_batch[27:43])
    body, found = Reader(text_of_batch[61:]), []
    while body.left():
        fields = Reader(body.take(body.varint()))
        fields.take(1)
        found.append(most if attributes & 8 else (base + fields.varint(10, 64) + 2**63) % 2**64 - 2**63)
    return found


def listing(data, headers=False, reading=None, first=0, end=ABOVE_ALL):
    lines, at = [], 0
    while at < len(data):
        try:
            batch, size = plain_logs.read_batch(data, at)
        except Refused as refusal:
            return lines + [f"bad byte={at} {refusal}"], 1
        times = timestamps(data[at : at + size])
        wanted = [i for i in range(batch.count) if first <= batch.base + i < end]
        if wanted:
            lines.append(
                f"batch byte={at} base={batch.base} count={batch.count} producer={batch.producer} "
                f"epoch={batch.epoch} sequence={batch.sequence} {batch.word}"
            )
        for i in wanted:
            record = batch.records[i]
            lines.append(
                f"record offset={batch.base + i} key={digits(record.key)} value={digits(record.value)} "
                f"headers={len(record.headers)}"
            )
            if headers:
                lines.append(f"  timestamp={times[i]}")
                lines += [f"  header {printed(name)}={digits(value)}" for name, value in record.headers]
            if reading and batch.word in ("plain", "txn"):
                lines.append("  " + said(reading, record))
        at += size
    return lines + [f"end bytes={at}"], 0


# ---- the program against it


class Tries:
    def __init__(self, program):
        self.program, self.passed, self.failed = os.path.abspath(program), 0, 0

    def count(self, good, text):
        good = bool(good)
        self.passed += good
        self.failed += not good
        if not good:
            print(f"FAILED: {text}")

    def run(self, *words, **settings):
        return subprocess.run([self.program, *words], capture_output=True, timeout=60, **settings)

    def same(self, words, wanted, **settings):
        """Whether a run writes these lines and ends so."""
        lines, status = wanted
        done = self.run("dump", *words, **settings)
        found = done.stdout.decode(errors="replace").split("\n")
        differs = next((i for i, (a, b) in enumerate(zip(found, lines + [""])) if a != b), min(len(found), len(lines)))
        good = found == lines + [""] and done.returncode == status and not done.stderr
        self.count(good, f"dump {' '.join(words)}: status {done.returncode}, line {differs + 1}: {found[differs:][:1]}")


def reading_of(path):
    topic = os.path.basename(os.path.dirname(path)).rpartition("-")[0]
    return {"__transaction_state": TRANSACTIONS, "__consumer_offsets": OFFSETS}.get(topic, OUTPUTS)


def read_file(path):
    with open(path, "rb") as file:
        return file.read()


def try_samples(tries):
    """Each unequal segment of the folders, with its headers and what its records say."""
    seen = set()
    paths = [p for folder in ("segments", "real-evidence", "evidence") for p in sorted(glob.glob(f"{HERE}/{folder}/**/*.log", recursive=True))]
    for path in (path for path in paths if os.path.isfile(path)):
        data, reading = read_file(path), reading_of(path)
        if (data, reading) not in seen:
            seen.add((data, reading))
            if reading != OUTPUTS or f"{HERE}/evidence/" not in path or len(seen) % 4 == 0:
                tries.same(["--decode", "--headers", path], listing(data, True, reading))
    return seen


def try_ranges(tries):
    """Each border of a batch as the first offset and as the end, and ranges that are empty or wider than the log."""
    paths = [f"{HERE}/segments/rdkafka-txn-1.log", f"{HERE}/segments/sarama-txn-markers.log", f"{HERE}/segments/kpy-producer-1.log"]
    paths += sorted(glob.glob(f"{HERE}/real-evidence/sarama-raw/__*/*.log"))[:2] + [f"{HERE}/segments/damaged-cut-60.log"]
    for path in paths:
        data, borders, at = read_file(path), {0, 1, 2**63 - 1, 2**63, ABOVE_ALL}, 0
        while at < len(data):
            try:
                batch, size = plain_logs.read_batch(data, at)
            except Refused:
                break
            borders |= {batch.base, batch.base + 1, batch.base + batch.count - 1, batch.base + batch.count}
            at += size
        borders = sorted(borders)
        borders = borders[:: max(1, len(borders) // 24)] + borders[-4:]
        for i, border in enumerate(borders):
            tries.same(["--from", str(border), path], listing(data, first=border))
            tries.same(["--to", str(border), path], listing(data, end=border))
            other = borders[(i * 7 + 3) % len(borders)]
            words = ["--from", str(border), "--to", str(other), "--decode", path]
            tries.same(words, listing(data, False, reading_of(path), border, other))
        whole = ["--from", "0", "--to", str(ABOVE_ALL), path]
        tries.same(whole, listing(data))


# ---- segments that are made here


def crc_sealed(head, body):
    return head + struct.pack(">I", plain_logs.crc32c(body)) + body


def made_batch(base, records, attributes=0, base_time=0, most=0, deltas=None, producer=-1, epoch=-1, sequence=-1):
    """A batch of records (key, value, headers)."""
    bodies = b""
    for i, (key, value, headers) in enumerate(records):
        body = b"\0" + varint((deltas or [0] * len(records))[i]) + varint(i)
        for held in key, value:
            body += varint(-1) if held is None else varint(len(held)) + held
        body += varint(len(headers))
        for name, held in headers:
            body += varint(len(name)) + name + (varint(-1) if held is None else varint(len(held)) + held)
        bodies += varint(len(body)) + body
    count = len(records)
    covered = struct.pack(">hiqqqhii", attributes, count - 1, base_time, most, producer, epoch, sequence, count) + bodies
    return crc_sealed(struct.pack(">qiib", base, 9 + len(covered), 0, 2), covered)


def state(version, status, tail=b"", producer=7, epoch=3):
    return struct.pack(">hqhib", version, producer, epoch, 60000, status) + tail


ENDS = struct.pack(">qq", 5, 6)
ID = b"\0\0" + text(b"app-1")
PLAIN = struct.pack(">i", 2) + text(b"out") + struct.pack(">i3i", 3, 2, 0, 1) + text(b"a,b") + struct.pack(">i1i", 1, 5) + ENDS
FLEXIBLE = (
    unsigned(3) + unsigned(1 + 3) + b"out" + unsigned(1 + 1) + struct.pack(">i", 4) + b"\0"
    + unsigned(1 + 2) + b"xy" + unsigned(1 + 0) + b"\1\7\3abc" + ENDS + b"\0"
)
SAID_BY_TRANSACTIONS = [
    (ID, state(0, 2, PLAIN), "transaction id=app-1 producer=7 epoch=3 status=PrepareCommit partitions=out-2,out-0,out-1,a%2cb-5"),
    (ID, state(1, 1, FLEXIBLE), "transaction id=app-1 producer=7 epoch=3 status=Ongoing partitions=out-4"),
    (ID, state(0, 0, struct.pack(">i", -1) + ENDS), "transaction id=app-1 producer=7 epoch=3 status=Empty partitions="),
    (ID, state(0, 3, struct.pack(">i", 0) + ENDS, -1, -1), "transaction id=app-1 producer=-1 epoch=-1 status=PrepareAbort partitions="),
    (ID, state(1, 4, b"\0" + ENDS + b"\0"), "transaction id=app-1 producer=7 epoch=3 status=CompleteCommit partitions="),
    (ID, state(0, 5, struct.pack(">i", 0) + ENDS), "transaction id=app-1 producer=7 epoch=3 status=CompleteAbort partitions="),
    (ID, state(0, 6, struct.pack(">i", 0) + ENDS), "transaction id=app-1 producer=7 epoch=3 status=Dead partitions="),
    (ID, state(0, 7, struct.pack(">i", 0) + ENDS), "transaction id=app-1 producer=7 epoch=3 status=PrepareEpochFence partitions="),
    (b"\0\0" + text(b"h\xc3\xa9 %"), None, "transaction id=h%c3%a9%20%25 tombstone"),
    (b"\0\0" + text(b""), None, "transaction id= tombstone"),
    (b"\0\1anything", state(0, 2, PLAIN), "skipped key"),
    (b"\xff\xff", None, "skipped key"),
    (None, state(0, 2, PLAIN), "unread Short"),
    (b"\0", None, "unread Short"),
    (b"\0\0\0\5app", None, "unread Short"),
    (b"\0\0\xff\xff", None, "unread Length"),
    (ID + b"\0", None, "unread Trailing"),
    (ID, b"", "unread Short"),
    (ID, state(0, 2, PLAIN)[:-1], "unread Short"),
    (ID, state(2, 2, PLAIN), "unread Version"),
    (ID, state(0, 8, PLAIN), "unread Status"),
    (ID, state(0, -1, PLAIN), "unread Status"),
    (ID, state(0, 2, struct.pack(">i", -2) + ENDS), "unread Length"),
    (ID, state(0, 2, PLAIN + b"\0"), "unread Trailing"),
]


def commit_key(version=1, group=b"payments", topic=b"orders", number=2):
    return struct.pack(">h", version) + text(group) + text(topic) + struct.pack(">i", number)


SAID_BY_OFFSETS = [
    (commit_key(), struct.pack(">hqihq", 3, 4712, -1, 0, 1), "commit group=payments orders-2=4712"),
    (commit_key(0), struct.pack(">hqhqq", 1, 0, -1, 1, 2), "commit group=payments orders-2=0"),
    (commit_key(1, b"a=b", b"x y", -1), struct.pack(">hqhq", 2, -3, 0, 1), "commit group=a%3db x%20y--1=-3"),
    (commit_key(), struct.pack(">hqh2sq", 0, 9, 2, b"hi", 1), "commit group=payments orders-2=9"),
    (commit_key(), None, "commit group=payments orders-2 tombstone"),
    (b"\0\2group", b"whatever", "skipped key"),
    (None, None, "unread Short"),
    (commit_key()[:-1], None, "unread Short"),
    (b"\0\1\xff\xff", None, "unread Length"),
    (commit_key() + b"\0", None, "unread Trailing"),
    (commit_key(), b"\0", "unread Short"),
    (commit_key(), struct.pack(">hqihq", 4, 4712, -1, 0, 1), "unread Version"),
    (commit_key(), struct.pack(">hqihq", 3, 4712, -1, -2, 1), "unread Length"),
    (commit_key(), struct.pack(">hqihq", 3, 4712, -1, 0, 1) + b"\0", "unread Trailing"),
]

CLAIM = [
    (b"eo.topic", b"orders"), (b"eo.partition", struct.pack(">i", 2)), (b"eo.offset", struct.pack(">q", 4711)),
    (b"eo.output", struct.pack(">i", 2)), (b"eo.of", struct.pack(">i", 3)),
]
SAID_BY_OUTPUTS = [
    (CLAIM, "claim orders-2:4711 2/3"),
    ([(b"trace", None)] + CLAIM[::-1] + [(b"trace", b"")], "claim orders-2:4711 2/3"),
    ([(b"eo.topic", b"a:b\0"), *CLAIM[1:]], "claim a%3ab%00-2:4711 2/3"),
    ([*CLAIM[:3], (b"eo.output", bytes(4)), (b"eo.of", bytes(4))], "claim orders-2:4711 0/0"),
    ([], "unread BadLineage"),
    (CLAIM[:4], "unread BadLineage"),
    (CLAIM + CLAIM[:1], "unread BadLineage"),
    ([(b"eo.topic", None), *CLAIM[1:]], "unread BadLineage"),
    ([CLAIM[0], (b"eo.partition", b"2"), *CLAIM[2:]], "unread BadLineage"),
    ([CLAIM[0], (b"eo.partition", struct.pack(">i", -2)), *CLAIM[2:]], "unread BadLineage"),
]


def said_below(lines):
    """For each record's line what stands below it, without its two spaces."""
    found = []
    for line in lines:
        if line.startswith("record "):
            found.append([])
        elif line.startswith("  "):
            found[-1].append(line[2:])
    return found


def try_made(tries, scratch):
    """Records whose lines were worked out by hand."""
    tables = {
        TRANSACTIONS: [(key, value, [], line) for key, value, line in SAID_BY_TRANSACTIONS],
        OFFSETS: [(key, value, [], line) for key, value, line in SAID_BY_OFFSETS],
        OUTPUTS: [(b"k", None, headers, line) for headers, line in SAID_BY_OUTPUTS],
    }
    marker = made_batch(0, [(struct.pack(">hh", 0, 1), bytes(6), [])], 48, producer=7, epoch=4)
    for reading, rows in tables.items():
        path = f"{scratch}/{reading}.log"
        records = [row[:3] for row in rows]
        data = made_batch(0, records[:3], 16, producer=7, epoch=3, sequence=0) + made_batch(3, records[3:])
        data += made_batch(len(rows), [(struct.pack(">hh", 0, 1), bytes(6), [])], 48, producer=7, epoch=4)
        with open(path, "wb") as file:
            file.write(data)
        done = tries.run("dump", "--as", reading, path)
        found = said_below(done.stdout.decode().splitlines())
        for (key, value, headers, line), lines in zip(rows, found):
            tries.count(lines == [line], f"{reading}: {line}: {lines}")
        tries.count(len(found) == len(rows) + 1 and found[-1] == [] and done.returncode == 0, f"{reading}: {len(found)} records")
        tries.same(["--as", reading, "--headers", path], listing(data, True, reading))
        tries.same(["--headers", path], listing(data, True))
        tries.same([path], listing(data))
    headers = [(b"a b", b"\0\xff"), (b"", None), (b"\n", b"")]
    rows = [
        (made_batch(0, [(None, b"v", headers)], base_time=1000, most=9, deltas=[-1]), ["timestamp=999", "header a%20b=00ff", "header =null", "header %0a="]),
        (made_batch(0, [(None, b"v", [])], 8, base_time=1000, most=77, deltas=[5]), ["timestamp=77"]),
        (made_batch(0, [(None, b"v", [])], base_time=2**63 - 1, deltas=[1]), [f"timestamp={-2**63}"]),
        (made_batch(0, [(None, b"v", [])], base_time=-1, deltas=[0]), ["timestamp=-1"]),
        (marker, ["timestamp=0"]),
    ]
    for data, lines in rows:
        done = tries.run("dump", "--headers", "-", input=data)
        tries.count(said_below(done.stdout.decode().splitlines()) == [lines], f"{lines}: {done.stdout}")
    last = made_batch(2**63 - 1, [(b"k", b"v", [])])
    for words, shown in ([], 1), (["--from", str(2**63 - 1)], 1), (["--from", str(2**63)], 0), (["--to", str(2**63 - 1)], 0):
        done = tries.run("dump", *words, "-", input=last)
        tries.count(len(done.stdout.splitlines()) == 2 * shown + 1, f"the last offset, {words}: {done.stdout}")


# ---- which of the three is tried


def try_paths(tries, scratch):
    data = made_batch(0, [(commit_key(), None, [])])
    lines = {
        OUTPUTS: "unread BadLineage", TRANSACTIONS: "skipped key", OFFSETS: "commit group=payments orders-2 tombstone",
    }
    folders = {
        "__consumer_offsets-13": OFFSETS, "__transaction_state-4": TRANSACTIONS, "out-0": OUTPUTS, "__consumer_offsets": OUTPUTS,
        "__consumer_offsets-x-0": OUTPUTS, "my__consumer_offsets-0": OUTPUTS, "__transaction_state-4/out-0": OUTPUTS,
        "out-0/__consumer_offsets-0": OFFSETS,
    }
    for folder, reading in folders.items():
        os.makedirs(f"{scratch}/{folder}", exist_ok=True)
        name = f"{scratch}/{folder}/00000000000000000000.log"
        with open(name, "wb") as file:
            file.write(data)
        for path, settings in (name, {}), (f"./{folder}/00000000000000000000.log", {"cwd": scratch}):
            done = tries.run("dump", "--decode", path, **settings)
            tries.count(said_below(done.stdout.decode().splitlines()) == [[lines[reading]]], f"{path}: {done.stdout}")
        for other, line in lines.items():
            for words in (["--as", other], ["--decode", "--as", other], ["--as", other, "--decode"]):
                done = tries.run("dump", *words, name)
                tries.count(said_below(done.stdout.decode().splitlines()) == [[line]], f"{words} {name}: {done.stdout}")
        tries.same([name], listing(data))
    for words, settings in (["-"], {"input": data}), (["00000000000000000000.log"], {"cwd": f"{scratch}/__consumer_offsets-13"}):
        done = tries.run("dump", "--decode", *words, **settings)
        tries.count(said_below(done.stdout.decode().splitlines()) == [[lines[OUTPUTS]]], f"{words}: {done.stdout}")


def try_words(tries):
    path = f"{HERE}/segments/kpy-producer-1.log"
    for words in (
        ["--from", "x"], ["--from", "-1"], ["--from", "1.5"], ["--to", "18446744073709551616"], ["--to", ""], ["--as", "other"],
        ["--as"], ["--from"], ["--decode", "--decode"], ["--from", "1", "--from", "2"], ["--headers=yes"],
    ):
        done = tries.run("dump", *words, path)
        tries.count(done.returncode == 2 and not done.stdout and done.stderr, f"bad words {words}: status {done.returncode}")
    for words in (["--decode"], ["--headers"], ["--from", "1"], ["--to", "1"], ["--as", "outputs"]):
        done = tries.run("chain", *words, path)
        tries.count(done.returncode == 2 and not done.stdout and done.stderr, f"chain {words}: status {done.returncode}")


def main():
    tries = Tries(sys.argv[1])
    with tempfile.TemporaryDirectory() as scratch:
        seen = try_samples(tries)
        for reading in OUTPUTS, TRANSACTIONS, OFFSETS:
            tries.count(sum(r == reading for _, r in seen) > 4, f"samples of {reading}")
        try_ranges(tries)
        try_made(tries, scratch)
        try_paths(tries, scratch)
        try_words(tries)
    print(f"{tries.passed} passed, {tries.failed} failed")
    sys.exit(1 if tries.failed else 0)


if __name__ == "__main__":
    main()
