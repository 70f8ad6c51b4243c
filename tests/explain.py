#!/usr/bin/env -S python3 -B
"""Reads the stories that `explain` tells, and looks up each place of theirs in the logs.

    tests/explain.py PROGRAM

Of each folder of tests/evidence and of the stories: the first line of the K-th story is the K-th fault by tests/reference.py; a
story has 40 lines at most, and no row twice; each place is one at which the plain reader finds that batch, of that producer and epoch, with that
record in it, and what a row says of it is what the plain reader reads there; that nothing is there is so; the claims, markers,
decisions and commits of a fault of an output are those that the second program finds, and so are the commits that its transaction owes, the
claims in another layout, and the first batch of what was left open; the last line is a command. With 1 and 4 workers alike; a yes, a
refused folder, a number past the list, any number where it is a yes, and output that can't be written. The last line is 'N passed, N failed'.
"""
import collections
import os
import re
import shutil
import subprocess
import sys
import tempfile

import reference
from mutants import Refused
from plain_logs import (ABORT, COMMIT, OFFSETS, STATES, claim_of, next_marker, offset_key, offset_value, read_batch, read_folder,
                        records_of, state_key, state_value)
from story_lines import is_right_time, without_time

HERE = os.path.dirname(os.path.abspath(__file__))
PLACE = re.compile(r"^ (\w+) +([\w.%-]+)-(\d+):(\d+) byte (\d+) of segment (\d+)(.*)$")
NOTHING = re.compile(r"^ (marker|data) +([\w.%-]+)-(\d+) [Hh][Aa][Ss] [Nn][Oo][Nn][Ee] of producer=(-?\d+)(?: epoch=(-?\d+))?$")
LEFT_OPEN = re.compile(r"^no 1\.11 OpenAtEnd ([\w.%-]+)-(\d+) offset=\d+ producer=(-?\d+)$")
STATUS_NAMES = "Empty Ongoing PrepareCommit PrepareAbort CompleteCommit CompleteAbort Dead PrepareEpochFence".split()
PREPARES = (2, 3)
wrong, passed = [], 0


def expect(holds, why):
    global passed
    if holds:
        passed += 1
    else:
        wrong.append(why)


def run(program, *words, **more):
    done = subprocess.run([program, *words], capture_output=not more, text=True, timeout=100, **more)
    return done.returncode, done.stdout, done.stderr


def bytes_of(text):
    return re.sub(rb"%([0-9a-f]{2})", lambda found: bytes([int(found[1], 16)]), text.encode())


def batch_at(folder, topic, number, segment, byte):
    path = os.path.join(folder, f"{bytes_of(topic).decode()}-{number}", f"{int(segment):020}.log")
    with open(path, "rb") as file:
        data = file.read()
    try:
        return read_batch(data, int(byte))[0]
    except Refused:
        return None


# ---- what a row says of its place


def fate_of(part, batch):
    if batch.word == "plain":
        return ""
    marker = next_marker(part, batch)
    return " open" if marker is None else {COMMIT: " committed", ABORT: " aborted"}[marker.word]


def names_text(names):
    return sorted(f"{reference.escaped(topic)}-{number}" for topic, number in names)


def is_said(role, said, topic, record):
    """Whether the words after two spaces are what the record says."""
    if said.startswith("claim "):
        claim = claim_of(record.headers)
        return claim is not None and said == f"claim {reference.place_text(claim[0])} {claim[1]}/{claim[2]}"
    if said.startswith("transaction "):
        name, state = state_key(record.key), state_value(record.value)
        if said.endswith(" tombstone"):
            return record.value is None and said == f"transaction id={reference.escaped(name)} tombstone"
        head, _, listed = said.partition(" partitions=")
        return head == (
            f"transaction id={reference.escaped(name)} producer={state.producer} epoch={state.epoch} status={STATUS_NAMES[state.status]}"
        ) and sorted(set(filter(None, listed.split(",")))) == names_text(state.partitions or [])
    if said.startswith("commit "):
        group, source, number = offset_key(record.key)
        head = f"commit group={reference.escaped(group)} {reference.escaped(source)}-{number}"
        return said == (f"{head} tombstone" if record.value is None else f"{head}={offset_value(record.value)}")
    return said.startswith(("unread ", "skipped ")) or (not said and topic not in (OFFSETS, STATES))


def is_right_place(folder, parts, row):
    role, topic, number, offset, segment, byte = row[1], row[2], int(row[3]), int(row[4]), row[6], row[5]
    rest = row[7]
    batch = batch_at(folder, topic, number, segment, byte)
    if batch is None or not batch.base <= offset < batch.base + batch.count:
        return False
    writer = f" producer={batch.producer} epoch={batch.epoch}"
    if " sequence=" in rest or rest.endswith((" COMMIT", " ABORT", " control")):
        words = {COMMIT: " COMMIT", ABORT: " ABORT", "control": " control"}
        kind = words.get(batch.word) or f" sequence={batch.sequence} records={batch.count}" + " transactional" * (batch.word == "txn")
        return batch.base == offset and rest == writer + kind
    part = next(p for p in parts if p.name == (bytes_of(topic), number))
    before, _, said = rest.partition("  ")
    head = (writer if batch.word == "txn" else "") + fate_of(part, batch)
    return before == head and is_said(role, said, bytes_of(topic), batch.records[offset - batch.base])


def is_right_absence(parts, row):
    role, topic, number, producer, epoch = row[1], bytes_of(row[2]), int(row[3]), int(row[4]), row[5]
    part = next((p for p in parts if p.name == (topic, number)), None)
    words = (COMMIT, ABORT) if role == "marker" else ("txn",)
    return part is None or not any(
        b.word in words and b.producer == producer and (epoch is None or b.epoch == int(epoch)) for b in part.batches
    )


def first_open(parts, fault):
    """The offset of the first transactional data of a producer id behind its last end marker in a partition."""
    topic, number, producer = bytes_of(fault[1]), int(fault[2]), int(fault[3])
    batches = [b for p in parts if p.name == (topic, number) for b in p.batches if b.producer == producer]
    ends = [b.base for b in batches if b.word in (COMMIT, ABORT)]
    return min(b.base for b in batches if b.word == "txn" and b.base >= max(ends, default=0))


# ---- the rows of a fault of an output, by the second program


def owed_rows(parts, line):
    """Of the output's transaction the first data in each partition of the offsets log that its decision lists, at -1 where there is none."""
    found = re.search(r" at=([\w.%-]+)-(\d+):(\d+)", line)
    if not re.match(r"no 5\.(7|12) ", line) or not found:
        return []
    topic, number, offset = bytes_of(found[1]), int(found[2]), int(found[3])
    batch = next(b for p in parts if p.name == (topic, number) for b in p.batches if b.base <= offset < b.base + b.count)
    if batch.word != "txn":
        return []
    for _, _, record in (row for p in parts if p.name[0] == STATES for row in records_of(p)):
        try:
            state = state_value(record.value)
        except Refused:
            continue
        if state.status in PREPARES and (state.producer, state.epoch) == (batch.producer, batch.epoch + 1):
            names = [name for name in state.partitions or [] if name[0] == OFFSETS]
            held = {p.name: [b.base for b in p.batches if (b.word, b.producer, b.epoch) == ("txn", batch.producer, batch.epoch)] for p in parts}
            return [(*name, min(held.get(name) or [-1])) for name in names]
    return []


def alike_rows(parts, line, source):
    """The first two visible claims that name the missing output in another layout."""
    if not line.startswith("no 5.11 "):
        return []
    output = int(re.search(r" output=(\d+)", line)[1])
    topics = source[0], source[0] + b"\0", b'"' + source[0] + b'"'

    def like(said, number, size):
        return said in (number, int.from_bytes(number.to_bytes(size, "big"), "little"))

    rows = []
    for part in parts:
        for _, offset, record in records_of(part, True):
            claim = claim_of(record.headers)
            if claim and claim[:2] != (source, output):
                (topic, number, at), said = claim[0], claim[1]
                if topic in topics and like(number, source[1], 4) and like(at, source[2], 8) and like(said, output, 4):
                    rows.append((*part.name, offset))
    return rows[:2]


def wanted_rows(apps, parts, line):
    """The places of the claims, markers, decisions and commits that a fault of an output is about, by role."""
    found = re.search(r"source=([\w.%-]+)-(\d+):(\d+) ", line + " ")
    source = bytes_of(found[1]), int(found[2]), int(found[3])
    group = re.search(r" group=(\S+)$", line)
    group = bytes_of(group[1]) if group else apps[0].group
    decided = collections.defaultdict(list)
    rows = collections.defaultdict(list)
    claims = {True: [], False: []}
    for part in parts:
        visible = {offset for _, offset, _ in records_of(part, True)}
        for batch, offset, record in records_of(part):
            place = (*part.name, offset)
            claim = claim_of(record.headers)
            if claim and claim[0] == source:
                claims[offset in visible].append((place, part, batch))
            if part.name[0] == STATES:
                try:
                    state = state_value(record.value)
                except Refused:
                    continue
                if state.status in PREPARES:
                    decided[state.producer, state.epoch].append(place)
            if part.name[0] == OFFSETS and record.value is not None:
                try:
                    key, value = offset_key(record.key), offset_value(record.value)
                except Refused:
                    continue
                if key and key[1:] == source[:2] and value > source[2]:
                    rows["own" if key[0] == group else "others"].append(place)
                elif key == (group, *source[:2]):
                    rows["up to"].append(place)
    for visible, most in (True, 3), (False, 2):
        for place, part, batch in claims[visible][:most]:
            rows["claim" if visible else "unseen"].append(place)
            marker = batch.word == "txn" and next_marker(part, batch)
            if marker:
                rows["marker"].append((*part.name, marker.base))
                rows["decided"] += decided[marker.producer, marker.epoch][:1]
    rows["commit"] = (rows.pop("own", []) or rows.pop("others", []))[:3] + rows.pop("up to", [])[-1:]
    rows.pop("others", None)
    rows["data"], rows["alike"] = owed_rows(parts, line), alike_rows(parts, line, source)
    return {role: sorted(set(places)) for role, places in rows.items() if places}


def told_rows(lines, at):
    rows = collections.defaultdict(list)
    for row in filter(None, map(PLACE.match, lines)):
        role = "claim" if row[1] == "fault" else row[1]
        if role in ("claim", "unseen", "marker", "decided", "commit", "data", "alike"):
            rows[role].append((bytes_of(row[2]), int(row[3]), int(row[4])))
    for row in filter(None, map(NOTHING.match, lines)):
        if row[1] == "data":
            rows["data"].append((bytes_of(row[2]), int(row[3]), -1))
    return {role: sorted(set(places)) for role, places in rows.items()}


# ---- folders


def look_at(program, folder, faults, number):
    status, text, said = run(program, "explain", "--fault", str(number), "--workers", "1", folder)
    lines, where = text.splitlines(), f"{folder} --fault {number}"
    expect((status, said) == (1, ""), f"{where}: {status} {said}")
    expect(lines and lines[0] == faults[number - 1].rstrip(), f"{where}: {lines[:1]}")
    expect(len(lines) <= 40, f"{where}: {len(lines)} lines")
    expect(run(program, "explain", "--fault", str(number), "--workers", "4", folder)[1] == text, f"{where}: other by 4 workers")
    apps, parts = read_folder(folder)
    rows = [line for line in lines[1:] if line.startswith(" ")]
    expect(len(set(rows)) == len(rows), f"{where}: a row stands twice: {rows}")
    for line in rows:
        expect(is_right_time(folder, line), f"{where}: another time: {line}")
    lines = [lines[0], *map(without_time, lines[1:])] if lines else lines
    for line in lines[1:]:
        place, nothing = PLACE.match(line), NOTHING.match(line)
        if place:
            expect(is_right_place(folder, parts, place), f"{where}: {line}")
        elif nothing:
            expect(is_right_absence(parts, nothing), f"{where}: {line}")
    kinds = collections.Counter(fault.split()[1] + " " + fault.split()[2] for fault in faults)
    counts = sorted(kinds.items(), key=lambda kind: int(kind[0].split()[0].split(".")[1]))
    wanted = f"Faults: {len(faults)} in all" + "".join(f", {count} of {kind}" for kind, count in counts)
    expect(wanted in lines, f"{where}: not '{wanted}'")
    for word in "Means: ", "Next: ":
        expect(sum(line.startswith(word) for line in lines) == 1, f"{where}: no {word}")
    expect(lines and re.match(r"Run: (eoscheck dump|ls -l) ", lines[-1]), f"{where}: no command at its end: {lines[-1:]}")
    left_open = LEFT_OPEN.match(lines[0])
    if left_open:
        first = f" open     {left_open[1]}-{left_open[2]}:{first_open(parts, left_open)} "
        expect(sum(line.startswith(first) for line in lines) == 1, f"{where}: no row that begins '{first}'")
    if lines[0].startswith("no 5."):
        expect(told_rows(lines, None) == wanted_rows(apps, parts, lines[0]), f"{where}: other rows than {wanted_rows(apps, parts, lines[0])}")


def look_at_folder(program, folder):
    status, text, said = run(program, "check", folder)
    if status != 1:
        expect(run(program, "explain", folder) == (status, text, said), f"{folder}: not as check")
        # A yes has no fault of any number; a folder that is refused is refused first.
        wanted = (2, "", "eoscheck: there are 0 faults\n") if status == 0 else (status, text, said)
        for number in 1, 2, 2**64 - 1:
            ran = run(program, "explain", "--fault", str(number), folder)
            expect(ran == wanted, f"{folder} --fault {number}: {ran}")
        return
    faults = reference.listed(folder)
    for number in sorted({*range(1, 6), len(faults)} & set(range(1, len(faults) + 1))):
        look_at(program, folder, faults, number)
    told = "eoscheck: there is 1 fault\n" if len(faults) == 1 else f"eoscheck: there are {len(faults)} faults\n"
    for number in len(faults) + 1, 2**64 - 1:
        ran = run(program, "explain", "--fault", str(number), folder)
        expect(ran == (2, "", told), f"{folder} --fault {number}: {ran}")


# The causes that the stories of these folders have to name in their first ten lines.
CAUSES = {
    "01-duplicate-output": [r"claim orders-0:2 1/1", r"^ fault +payments-1:5 ", r"^ decided "],
    "04-missing-marker": [r"^ marker +payments-0 HAS NONE of producer=2000 epoch=1", r"^ decided .*id=billing-1 producer=2000"],
    "09-misspelled-group": [r"none of group biling goes past", r"commit group=billing orders-0="],
    "34-dup-across-transactions": [r"id=billing-0 ", r"id=billing-1 ", r"^ fault +payments-1:8 "],
    "39-headers-as-text": [r"^ header +eo\.\w+ has bytes=\d+, not 4"],
}


def main():
    program = os.path.abspath(sys.argv[1])
    for part in "stories", "evidence", "as-brokers-write":
        with open(os.path.join(HERE, part, "expected.tsv"), encoding="utf-8") as file:
            for name in (line.split("\t")[0] for line in file):
                look_at_folder(program, os.path.join(HERE, part, name))
    for name, causes in CAUSES.items():
        lines = run(program, "explain", os.path.join(HERE, "stories", name))[1].splitlines()[:10]
        for cause in causes:
            expect(any(re.search(cause, line) for line in lines), f"{name}: '{cause}' is not in {lines}")
    with tempfile.TemporaryDirectory() as scratch:
        # The group is right here, and the output's topic isn't: the story shows where the outputs went.
        folder = os.path.join(scratch, "32")
        shutil.copytree(os.path.join(HERE, "stories", "32-group-and-output-misspelled"), folder)
        manifest = os.path.join(folder, "evidence.json")
        with open(manifest, encoding="utf-8") as file:
            text = file.read().replace('"biling"', '"billing"')
        with open(manifest, "w", encoding="utf-8") as file:
            file.write(text)
        status, text, _ = run(program, "explain", folder)
        expect(status == 1 and re.search(r"^ claim +payments-0:0 ", text, re.M), f"no claim in a topic that no application names: {status} {text}")
    folder = os.path.join(HERE, "stories", "34-dup-across-transactions")
    with open("/dev/full", "w", encoding="utf-8") as full:
        status, _, said = run(program, "explain", folder, stdout=full, stderr=subprocess.PIPE)
    expect((status, said) == (2, "eoscheck: cannot write -\n"), f"output that can't be written: {status} {said}")
    for words in ([folder, "--code", "5.10"], ["--fault", "0", folder], ["--fault", "x", folder], ["--workers", "65", folder], [folder, folder], [""]):
        status, text, said = run(program, "explain", *words)
        expect(status == 2 and not text and said, f"{words}: {status}")
    for why in wrong:
        print(f"FAILED: {why}")
    print(f"{passed} passed, {len(wrong)} failed")
    return bool(wrong)


if __name__ == "__main__":
    sys.exit(main())
