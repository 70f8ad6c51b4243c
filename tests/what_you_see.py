#!/usr/bin/env -S python3 -B
"""The tables 'you see, what it often is' of docs/EVIDENCE.md and docs/APPLICATION.md: each row is tried.

    tests/what_you_see.py [PROGRAM]

For each row the mistake is made in a good folder, whose data a client library wrote, and the answer has to be the row's: that
of tests/reference.py, and of PROGRAM where it is given. A row without a case here is an error, and so is a case without a row.
Prints what is wrong, and as its last line 'N passed, N failed'.
"""
import os
import random
import re
import struct
import subprocess
import sys
import tempfile

import plain_logs
import reference
from made_evidence import commit_record, state_text, text
from random_evidence import Folder, Piece, settle

TOP = os.path.dirname(os.path.dirname(os.path.abspath(__file__)))
GOOD = os.path.join(TOP, "tests", "real-evidence", "sarama-raw")
OLD = os.path.join(TOP, "tests", "real-evidence", "rdkafka-one-tv1")
COMMITS, STATES = "__consumer_offsets-13", "__transaction_state-5"
TOPIC, NUMBERS = b"eo.topic", {b"eo.partition": "i", b"eo.offset": "q", b"eo.output": "i", b"eo.of": "i"}


# ---- the tools


def topics_of(folder, topic):
    return [name for name in folder.logs if name.rsplit("-", 1)[0] == topic]


def change_records(folder, names, change):
    """Puts `change(batch, record)`, a list of records, in the place of each data record of these partitions."""
    for name in names:
        for i, piece in enumerate(folder.logs[name]):
            if piece.batch.word in ("txn", "plain"):
                records = [new for record in piece.batch.records for new in change(piece.batch, record)]
                folder.logs[name][i] = piece.with_records(records) if records else None
        folder.logs[name] = [piece for piece in folder.logs[name] if piece]
        folder.logs[name] = [Piece(p.text, 0 if i == 0 else None) for i, p in enumerate(folder.logs[name])]
        settle(folder, name)


def change_headers(folder, change, topic="out"):
    """Puts `change(headers)` in the place of the headers of each output."""
    change_records(folder, topics_of(folder, topic), lambda _, r: [(r.key, r.value, change(dict(r.headers)))])


def with_headers(change):
    """A folder whose outputs have other headers: those given stand in the place of the ones they name."""
    def made(folder):
        change_headers(folder, lambda headers: list({**headers, **change(headers)}.items()))
    return made


def numbers_of(headers):
    return {key: struct.unpack(">" + form, headers[key])[0] for key, form in NUMBERS.items()}


def value_of(record):
    return plain_logs.offset_value(record.value)


def with_offset(record, offset):
    return record.key, record.value[:2] + struct.pack(">q", offset) + record.value[10:], record.headers


def add_commit(folder, partition, offset, name=COMMITS):
    """A plain commit record at the end of the offsets log, as tools write it."""
    record = commit_record(random.Random(1), b"payments", f"in-{partition}", offset)
    add_plain(folder, name, [record])


def add_plain(folder, name, records):
    leader = folder.logs[name][-1].text[12:16] if folder.logs.get(name) else bytes(4)
    blank = Piece(bytes(12) + leader + b"\2" + bytes(44), None if folder.logs.get(name) else 0)
    piece = blank.with_records(records).changed(producer=-1, epoch=-1, sequence=-1)
    folder.logs.setdefault(name, []).append(piece)
    folder.manifest["ends"].setdefault(name, 0)
    settle(folder, name)


def manifest(**members):
    return lambda folder: folder.manifest.update(members)


def not_in_ends(*names):
    def made(folder):
        for name in names:
            del folder.manifest["ends"][name], folder.logs[name]
    return made


def no_marker(folder):
    markers = [i for i, piece in enumerate(folder.logs["out-1"]) if piece.batch.word == "commit"]
    del folder.logs["out-1"][markers[0]]
    settle(folder, "out-1", sequences=False)


def front_gone(name):
    """The segments before an offset are gone; the offsets and the end stay."""
    def made(folder):
        folder.logs[name] = folder.logs[name][4:]
        folder.logs[name][0].name = folder.logs[name][0].batch.base
    return made


def compacted(folder):
    """Of each key only the last record is left, at its offset."""
    log, last = folder.logs[STATES], {}
    for piece in log:
        last.update({record.key: piece for record in piece.batch.records})
    folder.logs[STATES] = [piece for piece in log if piece in last.values()]
    folder.logs[STATES][0].name = 0


def tail(name, text_of_last):
    def made(folder):
        folder.logs[name][-1] = Piece(text_of_last(folder.logs[name][-1].text))
    return made


def open_at_end(folder):
    """Copied after the last transaction's Prepare record and before its markers."""
    log = folder.logs[STATES]
    states = [plain_logs.state_value(piece.batch.records[0].value).status for piece in log]
    at = len(states) - 1 - states[::-1].index(2)
    folder.logs[STATES] = log[: at + 1]
    settle(folder, STATES)


def open_output(folder):
    """Copied before the last marker of out-0, and so was its end."""
    folder.logs["out-0"].pop()
    settle(folder, "out-0")


def lost_source(folder):
    """A partition of `in` is forgotten, and its outputs are lost: nobody asks for them."""
    drop_outputs(lambda r: is_of(r, 1))(folder)
    not_in_ends("in-1")(folder)


def is_of(record, partition):
    return plain_logs.claim_of(record.headers)[0][1] == partition


def chain(forwarded):
    """A second application reads `out` and writes `fin`: `forwarded` makes the headers of its outputs from those of its input."""
    def made(folder):
        place, headers = next((o, dict(r.headers)) for p in parts_of(folder) if p.name == (b"out", 0)
                              for _, o, r in plain_logs.records_of(p, True))
        own = [(TOPIC, b"out"), (b"eo.partition", struct.pack(">i", 0)), (b"eo.offset", struct.pack(">q", place))]
        own += [(b"eo.output", struct.pack(">i", 1)), (b"eo.of", struct.pack(">i", 1))]
        add_plain(folder, "fin-0", [(None, b"x", forwarded(list(headers.items()), own))])
        apps = [{key: folder.manifest[key] for key in ("group", "sources", "outputs")}]
        apps.append({"group": "second", "sources": ["out"], "outputs": ["fin"]})
        folder.manifest = {"version": 2, "apps": apps, "ends": folder.manifest["ends"]}
    return made


def parts_of(folder):
    with tempfile.TemporaryDirectory() as scratch:
        folder.write(os.path.join(scratch, "f"))
        return plain_logs.read_folder(os.path.join(scratch, "f"))[1]


# ---- the cases: for each document and row a folder with the mistake


def last_offsets(folder):
    change_records(folder, [COMMITS], lambda _, r: [with_offset(r, value_of(r) - 1)])


def last_of_all(folder):
    """Only the commits of the last transaction, which has epoch 18."""
    change_records(folder, [COMMITS], lambda batch, r: [with_offset(r, value_of(r) - (batch.epoch == 18))])


def by_the_consumer(folder):
    """The offsets are committed outside the transaction, in plain records, and no transaction lists the offsets log."""
    log = folder.logs[COMMITS]
    records = [r for piece in log if piece.batch.word == "txn" for r in piece.batch.records]
    folder.logs[COMMITS] = []
    add_plain(folder, COMMITS, records)
    unlist(folder, (b"__consumer_offsets", 13))


def unlist(folder, name, epochs=None):
    """No state lists a partition any more; where epochs are named, none of these."""
    def change(_, record):
        state = plain_logs.state_value(record.value)
        if epochs is not None and state.epoch not in epochs:
            return [(record.key, record.value, record.headers)]
        listed = [f"{t.decode()}-{n}" for t, n in sorted(state.partitions - {name})]
        return [(record.key, state_text(random.Random(1), state.status, state.producer, state.epoch, listed), record.headers)]

    change_records(folder, [STATES], change)


def outside(folder):
    """The outputs of out-1 are written by a second producer without transactions."""
    log = [p for p in folder.logs["out-1"] if p.batch.word == "txn"]
    seen = {p.batch.epoch for p in folder.logs["out-1"] if p.batch.word == "commit"}
    kept = [p.changed(attributes=0, producer=-1, epoch=-1, sequence=-1) for p in log if p.batch.epoch + 1 in seen]
    folder.logs["out-1"] = [Piece(p.text, 0 if i == 0 else None) for i, p in enumerate(kept)]
    settle(folder, "out-1")
    unlist(folder, (b"out", 1))


def drop_outputs(holds):
    return lambda folder: change_records(folder, topics_of(folder, "out"), lambda _, r: [] if holds(r) else [r])


def only_one_without(folder):
    """Of in-0:3, which has one output, the output is left out: as if it had none and nobody wrote the note."""
    drop_outputs(lambda r: plain_logs.claim_of(r.headers)[0] == (b"in", 0, 3))(folder)


def reset_and_again(folder):
    """The offsets of in-0 go back to 0 while the application is down, and it goes on: outputs are written once more."""
    log = folder.logs["out-2"]
    again = next(p for p in log if p.batch.word == "txn" and p.batch.epoch == 0)
    records = [(r.key, r.value, r.headers) for r in again.batch.records if is_of(r, 0)]
    marker = log[-1]
    producer, epoch = marker.batch.producer, marker.batch.epoch
    log.append(again.with_records(records).changed(epoch=epoch, sequence=0))
    log[-1].name = None
    log.append(marker.changed(epoch=epoch + 1))
    settle(folder, "out-2")
    add_commit(folder, 0, 0)
    commits = folder.logs[COMMITS]
    first = next(p for p in commits if p.batch.word == "txn")
    commits.append(Piece(first.changed(epoch=epoch).text))
    commits.append(Piece(marker.changed(epoch=epoch + 1).text))
    add_commit(folder, 0, 20)
    add_commit(folder, 1, 20)
    add_states(folder, producer, epoch)


def add_states(folder, producer, epoch):
    listed = [COMMITS, "out-2"]
    steps = [(0, epoch, []), (1, epoch, listed), (2, epoch + 1, listed), (4, epoch + 1, [])]
    key = folder.logs[STATES][0].batch.records[0].key
    add_plain(folder, STATES, [(key, state_text(random.Random(1), s, producer, e, names), []) for s, e, names in steps])


def made_again(folder):
    """Its first batch isn't the first that its producer wrote in this epoch."""
    log = folder.logs["out-0"]
    log[0] = log[0].changed(sequence=7)


def of_another(listed, raised, ends=None, states=(0, 1, 2, 4)):
    """Another transactional id ended a transaction before, whose data isn't evidence: its epoch was raised or not."""
    def made(folder):
        key = struct.pack(">hh", 0, 5) + b"other"
        steps = [(s, raised if s > 1 else 0, listed if s in (1, 2, 3) else []) for s in states]
        add_plain(folder, STATES, [(key, state_text(random.Random(1), s, 2000, e, names), []) for s, e, names in steps])
        for name in ends or []:
            folder.logs[name], folder.manifest["ends"][name] = [], 0
    return made


CASES = {
    "EVIDENCE.md": {
        "another group than ran": (manifest(group="payment"), "no 5.7 Early source=in-0:0 output=1 at=out-2:0"),
        "reset backwards after the run": (lambda f: add_commit(f, 0, 7), "no 5.7 Early source=in-0:7 output=1 at=out-0:18"),
        "reset backwards, and the application went on": (
            reset_and_again, "no 5.10 Repeated source=in-0:0 output=1 at=out-2:49"),
        "a newer version than 3": (
            lambda f: change_records(f, [COMMITS], lambda _, r: [(r.key, b"\0\4" + r.value[2:], [])]),
            "no 4.2 BadOffset __consumer_offsets-13 offset=0 record=Version"),
        "isn't the output topic that was written": (manifest(outputs=["ouput"]), "no 5.11 Missing source=in-0:0 output=1"),
        "began elsewhere than at 0": (
            drop_outputs(lambda r: plain_logs.claim_of(r.headers)[0][:2] == (b"in", 0) and plain_logs.claim_of(r.headers)[0][2] < 9),
            "no 5.11 Missing source=in-0:0 output=1"),
        "a source partition isn't in `ends`": (not_in_ends("in-0"), "no 5.6 NoSuchInput source=in-0:0 output=1 at=out-2:0"),
        "a source topic isn't in the manifest": (manifest(sources=["inn"]), "no 5.5 ForeignSource source=in-0:0 output=1 at=out-2:0"),
        "no partition of `__transaction_state`": (
            not_in_ends(STATES), "no 3.2 Undecided producer=1001 epoch=0 partition=__consumer_offsets-13"),
        "a partition that a transaction wrote": (
            not_in_ends(COMMITS), "no 3.6 AbsentPartition producer=1001 epoch=0 partition=__consumer_offsets-13"),
        "lacks an end marker": (no_marker, "no 1.6 EpochWhileOpen out-1 offset=3 producer=1001"),
        "the partition has no folder": (lambda f: f.logs.update({"in-1": []}), "no 1.10 End in-1 offset=0 end=20"),
        "copied before its end": (lambda f: f.logs["in-1"].pop(), "no 1.10 End in-1 offset=19 end=20"),
        "retention removed": (front_gone("in-0"), "no 1.2 Gap in-0 offset=0 found=6"),
        "was compacted": (compacted, "no 1.2 Gap __transaction_state-5 offset=0 found=47"),
        "copied while it was written": (tail("in-0", lambda t: t[:-5]), "no 1.1 BadBatch in-0 offset=18 segment=0 batch=Truncated"),
        "preallocated": (tail("in-0", lambda t: t + bytes(4096)), "no 1.1 BadBatch in-0 offset=20 segment=0 batch=Length"),
        "producer compresses": (
            lambda f: f.logs["in-0"].__setitem__(0, f.logs["in-0"][0].changed(attributes=2)),
            "no 1.1 BadBatch in-0 offset=0 segment=0 batch=Compressed"),
        "transaction version 1": (OLD, "no 1.7 NoBump __consumer_offsets-13 offset=2 producer=1002"),
        "an older client shares the partition": (
            of_another(["out-0"], 0), "no 2.2 Step __transaction_state-5 offset=50 id=other why=Epoch"),
        "a coordinator's decision that wasn't acknowledged": (
            of_another(["out-0"], 1, states=(0, 1, 2, 3, 5)), "no 2.2 Step __transaction_state-5 offset=51 id=other why=Order"),
        "made again while its producer": (made_again, "no 1.3 FirstSequence out-0 offset=0 producer=1001"),
        "its topic was deleted": (of_another(["gone-0"], 1), "no 3.6 AbsentPartition producer=2000 epoch=0 partition=gone-0"),
        "deleted and made again": (
            of_another(["gone-0"], 1, ["gone-0"]), "no 3.7 MissingMarker producer=2000 epoch=0 partition=gone-0"),
        "while a transaction was open": (open_at_end, "no 2.5 Unfinished __transaction_state-5 offset=47 id=pay-2"),
        "collected while": (open_output, "no 1.11 OpenAtEnd out-0 offset=57 producer=1001"),
        "others write to the topic too": (
            lambda f: add_plain(f, "out-0", [(None, b"x", [])]), "no 4.1 BadLineage out-0 offset=58"),
        "two clusters": (lambda f: add_commit(f, 0, 20, "__consumer_offsets-14"), "no 4.3 SplitGroup __consumer_offsets-14 offset=0"),
        "expired": (
            lambda f: add_plain(f, COMMITS, [(commit_key(b"payments"), None, [])]), "no 4.4 OffsetDeleted __consumer_offsets-13 offset=24"),
        "names nothing that ran": (
            manifest(group="payment", outputs=["ouput"]), "yes transactions=10 inputs=0 outputs=0"),
        "forgotten together with its outputs": (lost_source, "yes transactions=10 inputs=20 outputs=39"),
    },
    "APPLICATION.md": {
        "little-endian": (
            with_headers(lambda h: {key: struct.pack("<" + form, numbers_of(h)[key]) for key, form in NUMBERS.items()}),
            "no 5.11 Missing source=in-0:0 output=1"),
        "closing NUL": (with_headers(lambda h: {TOPIC: h[TOPIC] + b"\0"}), "no 5.11 Missing source=in-0:0 output=1"),
        "in quotes": (
            with_headers(lambda h: {TOPIC: b'"' + h[TOPIC] + b'"'}), "no 5.5 ForeignSource source=%22in%22-0:0 output=1 at=out-2:0"),
        "numbers as text": (
            with_headers(lambda h: {key: b"%d" % n for key, n in numbers_of(h).items()}), "no 4.1 BadLineage out-0 offset=0"),
        "offset of four bytes": (
            with_headers(lambda h: {b"eo.offset": h[b"eo.offset"][4:]}), "no 4.1 BadLineage out-0 offset=0"),
        "absent": (
            lambda f: change_headers(f, lambda h: [(k, v) for k, v in h.items() if k != b"eo.of"]), "no 4.1 BadLineage out-0 offset=0"),
        "null": (with_headers(lambda _: {b"eo.of": None}), "no 4.1 BadLineage out-0 offset=0"),
        "written twice": (
            lambda f: change_headers(f, lambda h: list(h.items()) * 2), "no 4.1 BadLineage out-0 offset=0"),
        "input's headers are forwarded beside": (chain(lambda old, own: old + own), "no 4.1 BadLineage fin-0 offset=0"),
        "input's headers are forwarded in place": (
            chain(lambda old, own: old), "no 5.5 ForeignSource source=in-0:1 output=1 at=fin-0:0 group=second"),
        "numbered from 0": (
            with_headers(lambda h: {b"eo.output": struct.pack(">i", numbers_of(h)[b"eo.output"] - 1)}),
            "no 5.9 NumberRange source=in-0:0 output=0 at=out-2:0"),
        "count so far": (
            with_headers(lambda h: {b"eo.of": h[b"eo.output"]}), "no 5.8 CountDisagrees source=in-0:1 output=2 at=out-2:1"),
        "without the note": (only_one_without, "no 5.11 Missing source=in-0:3 output=1"),
        "the last offset": (last_offsets, "no 5.12 OtherTransaction source=in-0:2 output=1 at=out-1:0"),
        "in place of the last plus one": (last_of_all, "no 5.7 Early source=in-0:19 output=1 at=out-0:54"),
        "by the consumer": (by_the_consumer, "no 5.12 OtherTransaction source=in-0:0 output=1 at=out-2:0"),
        "outside the transaction": (outside, "no 5.12 OtherTransaction source=in-0:2 output=1 at=out-1:0"),
    },
}


def commit_key(group):
    return b"\0\1" + text(group) + text(b"in") + struct.pack(">i", 0)


# ---- the documents' rows


def rows_of(document):
    """Of the tables whose first column is 'You see': the cells of each row."""
    with open(os.path.join(TOP, "docs", document), encoding="utf-8") as file:
        lines, inside = file.read().split("\n"), False
    for line in lines:
        cells = [cell.strip() for cell in line.strip("| ").split(" | ")]
        if cells[0] == "You see":
            inside = True
        elif not line.startswith("|"):
            inside = False
        elif inside and not cells[0].startswith("---"):
            yield cells


def shown(cell, line):
    """Whether all words of an answer that stands in the cell begin words of the verdict's line."""
    answers = [answer.split() for answer in re.findall(r"`([^`]+)`", cell)]
    return any(all(any(said.startswith(word) for said in line.split()) for word in answer) for answer in answers)


def verdicts(folder, program):
    """The lines, without the byte of a BadBatch."""
    lines = {"the second program": reference.verdict(folder)}
    if program:
        lines["check"] = subprocess.run([program, "check", "--quiet", folder], stdout=subprocess.PIPE, text=True, check=False).stdout
    return {who: re.sub(r" byte=\d+", "", line).strip() for who, line in lines.items()}


def main():
    program = sys.argv[1] if len(sys.argv) > 1 else None
    passed = failed = 0
    with tempfile.TemporaryDirectory() as scratch:
        for document, cases in CASES.items():
            rows = list(rows_of(document))
            for row in rows:
                if not any(name in row[1] for name in cases):
                    failed += 1
                    print(f"FAILED: {document}: '{row[1]}' has no case")
            for at, (name, (change, wanted)) in enumerate(cases.items()):
                path = change if isinstance(change, str) else os.path.join(scratch, f"{document}-{at}")
                if not isinstance(change, str):
                    folder = Folder(GOOD)
                    change(folder)
                    folder.write(path)
                found = [row[0] for row in rows if name in row[1]]
                for who, line in verdicts(path, program).items():
                    good = line == wanted and len(found) == 1 and shown(found[0], line)
                    passed, failed = passed + good, failed + (not good)
                    if not good:
                        print(f"FAILED: {document}, {name}: {who} says '{line}', not '{wanted}'; the row says {found}")
    print(f"{passed} passed, {failed} failed")
    sys.exit(1 if failed else 0)


if __name__ == "__main__":
    main()
