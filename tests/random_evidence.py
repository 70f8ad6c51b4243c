#!/usr/bin/env -S python3 -B
"""Compares `check` with tests/reference.py on many changed folders of evidence.

    tests/random_evidence.py PROGRAM [NUMBER [SEED [KEEP]]]

Each is a folder of tests/evidence, or one that tests/made_evidence.py makes, with 0 to 3 changes of its logs and manifest,
under right checksums and mostly with offsets, sequences and ends made right again, so that the later phases are reached.
Then its logs are cut into other segments, which may not change the verdict or the list of all faults where the logs are whole.
Everything follows from SEED. It prints the differences, how often each answer was seen and which fault never was, and ends in 1 where there
is a difference. The folders that differ are kept in KEEP, where that is given.
"""
import collections
import copy
import glob
import json
import os
import random
import shutil
import struct
import subprocess
import sys
import tempfile

import made_evidence
import mutants
import notes_reference
import plain_logs
import reference
from fault_fields import json_of
from mutants import varint

HERE = os.path.dirname(os.path.abspath(__file__))
FIELDS = {"base": (0, "q"), "attributes": (21, "h"), "producer": (43, "q"), "epoch": (51, "h"), "sequence": (53, "i")}
INTERNAL = ("__consumer_offsets", "__transaction_state")
LINEAGE = [(b"eo.partition", "i"), (b"eo.offset", "q"), (b"eo.output", "i"), (b"eo.of", "i")]


def sealed(text):
    text = text[:8] + struct.pack(">i", len(text) - 12) + text[12:]
    return text[:17] + struct.pack(">I", plain_logs.crc32c(text[21:])) + text[21:]


class Piece:
    """A batch, or bytes that are none, and the name of the segment that it begins, if it begins one."""

    def __init__(self, text, name=None):
        self.text, self.name = text, name
        try:
            self.batch = plain_logs.read_batch(text)[0]
        except mutants.Refused:
            self.batch = None

    def get(self, field):
        at, form = FIELDS[field]
        return struct.unpack_from(">" + form, self.text, at)[0]

    def changed(self, **fields):
        text = bytearray(self.text)
        for field, value in fields.items():
            at, form = FIELDS[field]
            bits = 8 * struct.calcsize(form)
            struct.pack_into(">" + form, text, at, (value + 2 ** (bits - 1)) % 2**bits - 2 ** (bits - 1))
        return Piece(sealed(bytes(text)), self.name)

    def with_records(self, records):
        body = b""
        for place, (key, value, headers) in enumerate(records):
            text = b"\0\0" + varint(place) + part_text(key) + part_text(value) + varint(len(headers))
            text += b"".join(part_text(name) + part_text(held) for name, held in headers)
            body += varint(len(text)) + text
        head = bytearray(self.text[:61])
        struct.pack_into(">i", head, 23, len(records) - 1)
        struct.pack_into(">i", head, 57, len(records))
        return Piece(sealed(bytes(head) + body), self.name)


def part_text(data):
    return varint(-1) if data is None else varint(len(data)) + data


class Folder:
    """A folder of evidence that can be changed and written."""

    def __init__(self, path=None, rng=None):
        if path is None:
            self.manifest, logs = made_evidence.Maker(rng, sealed).make()
            self.logs = {name: [Piece(text) for text in log] for name, log in logs.items()}
            return
        with open(os.path.join(path, "evidence.json"), encoding="utf-8") as file:
            self.manifest = json.load(file)
        self.logs = {}
        for name in self.manifest["ends"]:
            self.logs[name] = []
            for file in sorted(glob.glob(os.path.join(glob.escape(path), name, "[0-9]" * 20 + ".log"))):
                base = int(os.path.basename(file)[:20])
                if base <= mutants.LAST_OFFSET:
                    with open(file, "rb") as opened:
                        self.logs[name] += pieces_of(opened.read(), base)

    def copy(self):
        made = copy.copy(self)
        made.manifest = copy.deepcopy(self.manifest)
        made.logs = {name: [copy.copy(piece) for piece in log] for name, log in self.logs.items()}
        return made

    def apps(self):
        return self.manifest["apps"] if self.manifest["version"] == 2 else [self.manifest]

    def write(self, path):
        os.makedirs(path)
        with open(os.path.join(path, "evidence.json"), "w", encoding="utf-8") as file:
            json.dump(self.manifest, file)
        for name, log in self.logs.items():
            os.mkdir(os.path.join(path, name))
            segments, base = {}, 0
            for piece in log:
                if piece.name is not None:
                    base = piece.name
                segments[base] = segments.get(base, b"") + piece.text
            for base, text in segments.items():
                with open(os.path.join(path, name, f"{base:020}.log"), "wb") as file:
                    file.write(text)


def pieces_of(data, base):
    found, name = [], base
    while data:
        try:
            size = plain_logs.read_batch(data)[1]
        except mutants.Refused:
            size = len(data)
        found.append(Piece(data[:size], name))
        data, name = data[size:], None
    return found or [Piece(b"", base)]


def settle(folder, name, sequences=True):
    """Makes offsets, sequences, segment names and the declared end of a partition right again."""
    offset, counts = 0, collections.Counter()
    for i, piece in enumerate(folder.logs[name]):
        if piece.name is not None:
            piece.name = offset
        if piece.batch:
            fields = {"base": offset}
            if sequences and piece.batch.word in ("plain", "txn") and piece.batch.producer >= 0:
                if name.rsplit("-", 1)[0] not in INTERNAL:
                    key = piece.batch.producer, piece.batch.epoch
                    fields["sequence"] = counts[key] % 2**31
                    counts[key] += piece.batch.count
            folder.logs[name][i] = piece.changed(**fields)
            offset += piece.batch.count
    if name in folder.manifest["ends"]:
        folder.manifest["ends"][name] = offset


# ---- the changes: each takes random numbers and a folder, and gives the partitions that it touched, or None


def a_log(rng, folder, topic=None, least=1):
    names = [n for n, log in folder.logs.items() if len(log) >= least and (topic is None or n.startswith(topic + "-"))]
    return rng.choice(sorted(names)) if names else None


def a_batch(rng, folder, name, *words):
    log = folder.logs.get(name, [])
    places = [i for i, p in enumerate(log) if p.batch and (not words or p.batch.word in words)]
    return rng.choice(places) if places else None


def a_place(rng, folder, *words):
    """A partition that has a batch of one of these words, and the batch's place."""
    names = [n for n in sorted(folder.logs) if a_batch(rng, folder, n, *words) is not None]
    if not names:
        return None, None
    name = rng.choice(names)
    return name, a_batch(rng, folder, name, *words)


def drop(rng, folder):
    name, i = a_place(rng, folder, *rng.choice([(), ("commit", "abort"), ("txn",), ("plain",)]))
    if name:
        del folder.logs[name][i]
        return [name]


def repeat(rng, folder):
    name, i = a_place(rng, folder, *rng.choice([(), ("commit", "abort"), ("txn",)]))
    if name:
        again = copy.copy(folder.logs[name][i])
        again.name = None
        folder.logs[name].insert(i + rng.choice([1, 1, 2, 4]), again)
        return [name]


def swap(rng, folder):
    name = a_log(rng, folder, least=2)
    if name:
        log = folder.logs[name]
        i = rng.randrange(len(log) - 1)
        log[i], log[i + 1] = log[i + 1], log[i]
        log[i].name, log[i + 1].name = log[i + 1].name, log[i].name
        return [name]


def move(rng, folder):
    name, i = a_place(rng, folder)
    if name:
        piece = folder.logs[name].pop(i)
        piece.name = None
        topic = name.rsplit("-", 1)[0]
        other = a_log(rng, folder, rng.choice([topic, topic, None]), 0) or name
        if rng.random() < 0.3:
            other = f"{topic}-{rng.choice([0, 1, 7, 10, 2147483647])}"
        log = folder.logs.setdefault(other, [])
        folder.manifest["ends"].setdefault(other, 0)
        log.insert(rng.randrange(len(log) + 1), piece)
        return [name, other]


def number(rng, folder, field, *words):
    name, i = a_place(rng, folder, *words)
    if name:
        piece = folder.logs[name][i]
        old = piece.get(field)
        among = [p.get(field) for p in folder.logs[name] if p.batch]
        new = rng.choice([old + 1, old - 1, 0, -1, rng.choice(among), 2**31 - 1])
        folder.logs[name][i] = piece.changed(**{field: new})
        return [name]


def epoch(rng, folder):
    return number(rng, folder, "epoch", *rng.choice([(), ("commit", "abort"), ("txn", "plain")]))


def producer(rng, folder):
    return number(rng, folder, "producer", *rng.choice([(), ("commit", "abort"), ("txn", "plain")]))


def sequence(rng, folder):
    return number(rng, folder, "sequence", "txn", "plain")


def base(rng, folder):
    return number(rng, folder, "base")


def attributes(rng, folder):
    name, i = a_place(rng, folder)
    if name:
        piece = folder.logs[name][i]
        bit = rng.choice([16, 16, 16, 32, 8, 1, 64])
        folder.logs[name][i] = piece.changed(attributes=piece.get("attributes") ^ bit)
        return [name]


def marker_kind(rng, folder):
    name, i = a_place(rng, folder, "commit", "abort")
    if name:
        piece = folder.logs[name][i]
        key, value, headers = piece.batch.records[0]
        kind = rng.choice([1 - key[3], 1 - key[3], 1 - key[3], 2])
        folder.logs[name][i] = piece.with_records([(key[:2] + struct.pack(">h", kind % 256) + key[4:], value, headers)])
        return [name]


def all_numbers(rng, folder):
    """Renames a producer id or raises an epoch in a whole partition: right in itself, wrong to the others."""
    name, i = a_place(rng, folder, "txn")
    if name:
        old, add = folder.logs[name][i].batch.producer, rng.choice([0, 1, 1])
        new = old if add else rng.choice([old + 1, 5, 2**40])
        for j, piece in enumerate(folder.logs[name]):
            if piece.batch and piece.batch.producer == old:
                folder.logs[name][j] = piece.changed(producer=new, epoch=piece.batch.epoch + add)
        return [name]


def bytes_changed(rng, folder):
    name = a_log(rng, folder)
    if name:
        i = rng.randrange(len(folder.logs[name]))
        piece = folder.logs[name][i]
        if len(piece.text) > 61:
            folder.logs[name][i] = Piece(mutants.damaged(rng, piece.text), piece.name)
            return [] if rng.random() < 0.5 else [name]


def a_record(rng, folder, topics):
    """A partition of these topics, a data batch of it, its records and the place of one."""
    names = [n for n in sorted(folder.logs) if n.rsplit("-", 1)[0] in topics]
    names = [n for n in names if a_batch(rng, folder, n, "txn", "plain") is not None]
    if not names:
        return None, None, None, None
    name = rng.choice(names)
    i = a_batch(rng, folder, name, "txn", "plain")
    records = [list(record) for record in folder.logs[name][i].batch.records]
    return name, i, records, rng.randrange(len(records))


def some_record(rng, folder):
    """Drops, repeats or swaps a record, or changes bytes of its key or value."""
    topics = {n.rsplit("-", 1)[0] for n in folder.logs} if rng.random() < 0.4 else INTERNAL
    name, i, records, at = a_record(rng, folder, topics)
    if name is None:
        return None
    what, part = rng.randrange(6), rng.randrange(2)
    if what == 0 and len(records) > 1:
        del records[at]
    elif what == 1:
        records.insert(at, records[at])
    elif what == 2:
        records.insert(0, records.pop(at))
    elif what == 3:
        records[at][part] = None
    elif records[at][part]:
        data = records[at][part]
        j = rng.randrange(len(data))
        byte = rng.choice([0, 1, 127, 128, 255, data[j] ^ 1 << rng.randrange(8)])
        records[at][part] = rng.choice([data[:-1], data[:j], data + b"\0", data[:j] + bytes([byte]) + data[j + 1 :]])
    folder.logs[name][i] = folder.logs[name][i].with_records(records)
    return [name]


def lineage(rng, folder):
    outputs = {topic for app in folder.apps() for topic in app["outputs"]}
    name, i, records, at = a_record(rng, folder, outputs)
    if name is None or not records[at][2]:
        return None
    headers = list(records[at][2])
    what = rng.randrange(10)
    j = rng.randrange(len(headers))
    if what == 0:
        del headers[j]
    elif what == 1:
        headers.insert(j, rng.choice(headers))
    elif what == 2:
        headers[j] = (headers[j][0], rng.choice([None, b"", (headers[j][1] or b"") + b"\0", b"in", b"\xff" * 4]))
    else:
        chosen, form = rng.choice(LINEAGE)
        for j, (key, value) in enumerate(headers):
            if key == chosen and value and len(value) == struct.calcsize(form):
                old = struct.unpack(">" + form, value)[0]
                new = rng.choice([old + 1, old - 1, 0, 1, 2, -1, 2**31 - 1])
                headers[j] = (key, struct.pack(">" + form, min(new, 2**31 - 1)))
    records[at][2] = headers
    folder.logs[name][i] = folder.logs[name][i].with_records(records)
    return [name]


def second_home(rng, folder):
    """A record of an internal log goes, or goes again, to another partition of that log, or its key to a new name."""
    name, i, records, at = a_record(rng, folder, INTERNAL)
    if name is None:
        return None
    topic, what = name.rsplit("-", 1)[0], rng.randrange(3)
    if what == 0 and records[at][0] and len(records[at][0]) > 4:
        key = bytearray(records[at][0])
        key[4] ^= 1
        for j, piece in enumerate(folder.logs[name]):
            if piece.batch and piece.batch.word in ("txn", "plain") and rng.random() < 0.9:
                changed = [list(record) for record in piece.batch.records]
                for record in changed:
                    record[0] = bytes(key) if record[0] == records[at][0] else record[0]
                folder.logs[name][j] = piece.with_records(changed)
        return [name]
    other = rng.choice([f"{topic}-{n}" for n in (0, 1, 7, 10, 2147483647)] + [a_log(rng, folder, topic)])
    folder.manifest["ends"].setdefault(other, 0)
    plain = folder.logs[name][i].with_records([records[at]])
    plain = plain.changed(attributes=plain.get("attributes") & ~16, producer=-1, epoch=-1, sequence=-1)
    plain.name = None
    folder.logs.setdefault(other, []).append(plain)
    if what == 1 and len(records) > 1:
        del records[at]
        folder.logs[name][i] = folder.logs[name][i].with_records(records)
    return [name, other]


def claims_together(rng, folder):
    """The same claim in another record too, or all claims of a source with one more count, or a note in their place."""
    outputs = {topic for app in folder.apps() for topic in app["outputs"]}
    name, i, records, at = a_record(rng, folder, outputs)
    other, k, others, to = a_record(rng, folder, outputs)
    if name is None or not records[at][2]:
        return None
    if rng.random() < 0.5:
        others[to][2] = records[at][2]
        folder.logs[other][k] = folder.logs[other][k].with_records(others)
        return [other]
    source, add = plain_logs.claim_of(records[at][2]), rng.choice([1, -1, None])
    for log in [n for n in folder.logs if n.rsplit("-", 1)[0] in outputs]:
        for j, piece in enumerate(folder.logs[log]):
            if not piece.batch or piece.batch.word not in ("txn", "plain"):
                continue
            changed = [list(record) for record in piece.batch.records]
            for record in changed:
                claim = plain_logs.claim_of(record[2])
                if claim and source and claim[0] == source[0]:
                    new = {b"eo.of": 0, b"eo.output": 0} if add is None else {b"eo.of": claim[2] + add}
                    new = {key: struct.pack(">i", min(n, 2**31 - 1)) for key, n in new.items()}
                    record[2] = [(key, new.get(key, held)) for key, held in record[2]]
            if changed != [list(record) for record in piece.batch.records]:
                folder.logs[log][j] = piece.with_records(changed)
    return [name]


def offset(rng, folder):
    name, i, records, at = a_record(rng, folder, INTERNAL[:1])
    if name is None:
        return None
    key, value = records[at][:2]
    what = rng.randrange(5)
    if what == 0:
        records[at][1] = None
    elif what == 1 and key:
        records[at][0] = key[:-4] + struct.pack(">i", rng.choice([0, 1, 2, -1]))
    elif value and len(value) >= 10:
        old = struct.unpack_from(">q", value, 2)[0]
        new = rng.choice([old + 1, old - 1, 0, -1, 2**63 - 1, old + 2, old - 2])
        records[at][1] = value[:2] + struct.pack(">q", max(-5, min(new, 2**63 - 1))) + value[10:]
    folder.logs[name][i] = folder.logs[name][i].with_records(records)
    return [name]


def state(rng, folder):
    """A field of a value of the transaction log, in both forms."""
    name, i, records, at = a_record(rng, folder, INTERNAL[1:])
    if name is None or not records[at][1] or len(records[at][1]) < 21:
        return None
    value = bytearray(records[at][1])
    what, (old, age) = rng.randrange(6), struct.unpack_from(">qh", value, 2)
    if what < 2:
        value[16] = rng.randrange(8)
    elif what == 2:
        struct.pack_into(">h", value, 10, max(-1, min(age + rng.choice([-1, 1, 1, 2, -2]), 32767)))
    elif what == 3:
        logs = [folder.logs[log] for log in sorted(folder.logs) if log.startswith(INTERNAL[1] + "-")]
        others = [record.value for log in logs for p in log if p.batch for record in p.batch.records]
        others = [struct.unpack_from(">q", v, 2)[0] for v in others if v and len(v) > 10] + [old + 1, -1]
        struct.pack_into(">q", value, 2, rng.choice(others))
    else:
        value = listed_otherwise(rng, bytes(value), folder)
    records[at][1] = bytes(value)
    folder.logs[name][i] = folder.logs[name][i].with_records(records)
    return [name]


def listed_otherwise(rng, value, folder, change=None):
    """The value with another list of partitions, in the plain form, some of them named twice."""
    try:
        found = plain_logs.state_value(value)
    except mutants.Refused:
        return value
    change = change or a_change(rng, folder)
    names = sorted(change(found.partitions))
    rng.shuffle(names)
    entries = [(topic, [n] * rng.choice([1, 1, 1, 2])) for topic, n in names]
    entries += rng.choice([[], [], entries[:1], [(b"none", [])]])
    text = struct.pack(">hqhibi", 0, found.producer, found.epoch, 60000, found.status, len(entries) or -1)
    for topic, numbers in entries:
        text += struct.pack(">h", len(topic)) + topic + struct.pack(f">i{len(numbers)}i", len(numbers), *numbers)
    return text + struct.pack(">qq", 0, 0)


def a_change(rng, folder):
    name = rng.choice(sorted(folder.logs)).rsplit("-", 1)
    one = (name[0].encode(), rng.choice([int(name[1]), int(name[1]), 3, -1]))
    at = rng.random()
    if rng.random() < 0.5:
        return lambda held: held | {one}
    return lambda held: held - {sorted(held)[int(at * len(held))]} if held else held


def listed_through(rng, folder):
    """The same change of the listed partitions in all records of one id, or one status or epoch in a run of them."""
    name, i, records, at = a_record(rng, folder, INTERNAL[1:])
    if name is None or records[at][0] is None:
        return None
    change, key, shift = a_change(rng, folder), records[at][0], rng.choice([0, 0, 1, -1])
    flips = {2: 3, 3: 2, 4: 5, 5: 4} if rng.random() < 0.3 else {}
    before = rng.randrange(len(folder.logs[name]))
    for j, piece in enumerate(folder.logs[name]):
        if not piece.batch or piece.batch.word not in ("txn", "plain") or j < before:
            continue
        changed = [list(record) for record in piece.batch.records]
        for record in changed:
            if record[0] == key and record[1] and len(record[1]) > 20:
                value = bytearray(record[1])
                value[16] = flips.get(value[16], value[16])
                if shift:
                    age = struct.unpack_from(">h", value, 10)[0]
                    struct.pack_into(">h", value, 10, max(0, min(age + shift, 32767)))
                record[1] = bytes(value) if flips or shift else listed_otherwise(rng, bytes(value), folder, change)
        folder.logs[name][j] = piece.with_records(changed)
    return [name]


def outside(rng, folder):
    """In one partition a producer writes outside its transactions, which no longer list it."""
    name, i = a_place(rng, folder, "txn")
    if name is None:
        return None
    topic, n = name.rsplit("-", 1)
    one, log = (topic.encode(), int(n)), folder.logs[name]
    writer = log[i].batch.producer
    log[:] = [p for p in log if not (p.batch and p.batch.producer == writer and p.batch.word in ("commit", "abort"))]
    for j, piece in enumerate(log):
        if piece.batch and piece.batch.producer == writer and piece.batch.word == "txn":
            log[j] = piece.changed(attributes=piece.get("attributes") & ~16)
    for states in [n for n in sorted(folder.logs) if n.startswith(INTERNAL[1] + "-")]:
        for j, piece in enumerate(folder.logs[states]):
            if not piece.batch or piece.batch.word not in ("txn", "plain"):
                continue
            changed = [list(record) for record in piece.batch.records]
            for record in changed:
                if record[1] and len(record[1]) > 20 and struct.unpack_from(">q", record[1], 2)[0] == writer:
                    record[1] = listed_otherwise(rng, record[1], folder, lambda held: held - {one})
            folder.logs[states][j] = piece.with_records(changed)
    return [name]


def end(rng, folder):
    ends = folder.manifest["ends"]
    if ends:
        name = rng.choice(sorted(ends))
        ends[name] = max(0, min(rng.choice([ends[name] + 1, ends[name] - 1, 0, 2**63 - 1]), 2**63 - 1))
        return []


def drop_partition(rng, folder):
    name = a_log(rng, folder, least=0)
    if name:
        how = rng.randrange(3)
        if how == 0:
            folder.logs[name] = []
            return [name]
        del folder.logs[name]
        if how == 1:
            del folder.manifest["ends"][name]
        return []


def topics(rng, folder):
    """A topic goes to or from the sources or outputs of an application."""
    apps = folder.apps()
    if not apps:
        return None
    app, which = rng.choice(apps), rng.choice(["sources", "outputs"])
    named = {n.rsplit("-", 1)[0] for n in folder.logs} - set(INTERNAL)
    free = sorted(named - set(app["sources"]) - set(app["outputs"]))
    if which == "outputs":
        free = [topic for topic in free if all(topic not in other["outputs"] for other in apps)]
    if free and rng.random() < 0.5:
        app[which].append(rng.choice(free))
    elif app[which]:
        app[which].remove(rng.choice(app[which]))
    return []


def join_apps(rng, folder):
    """Two applications as one, or in another order, or one of them away."""
    apps = folder.manifest.get("apps", [])
    if len(apps) < 2:
        return None
    one, other = rng.sample(range(len(apps)), 2)
    what = rng.randrange(3)
    if what == 0:
        apps[one], apps[other] = apps[other], apps[one]
    elif what == 1:
        del apps[one]
    else:
        both = [sorted(set(apps[one][key]) | set(apps[other][key])) for key in ("sources", "outputs")]
        apps[one]["sources"], apps[one]["outputs"] = [t for t in both[0] if t not in both[1]], both[1]
        del apps[other]
    return []


def empty_segment(rng, folder):
    name = a_log(rng, folder, least=0)
    if name:
        log = folder.logs[name]
        at = rng.randrange(len(log) + 1)
        log.insert(at, Piece(b"", rng.choice([folder.manifest["ends"].get(name, 0), 0, 5])))
        return []


CHANGES = [drop, repeat, swap, move, epoch, producer, sequence, base, attributes, all_numbers, bytes_changed, end]
CHANGES += [drop_partition, topics, join_apps, empty_segment]
CHANGES += 3 * [some_record, lineage, claims_together, offset, state, listed_through, marker_kind] + 2 * [second_home, outside]


def cut(rng, folder):
    """The same logs in other segments."""
    for log in folder.logs.values():
        chance, at = rng.choice([0, 0.1, 0.5, 1]), 0
        log[:] = [piece for piece in log if piece.text]
        for i, piece in enumerate(log):
            piece.name = at if i == 0 or rng.random() < chance else None
            at += piece.batch.count if piece.batch else 0


def made(rng, folders, place):
    """The name of a folder, the changed folder and what was changed. It is by turns one made good, each of the folders in
    turn, and one of the good folders."""
    good, name = [name for name in folders if "-yes-" in name], "made"
    if place % 4 == 0:
        folder = Folder(rng=rng)
    else:
        name = rng.choice(good) if place % 4 == 2 else sorted(folders)[place // 2 % len(folders)]
        folder = folders[name].copy()
    done = []
    for _ in range(rng.choice([0, 0, 1, 1, 2] if place % 2 else [0, 1, 1, 1, 2, 2, 3])):
        change = rng.choice(CHANGES)
        touched = change(rng, folder)
        if touched is None:
            continue
        done.append(change.__name__)
        if rng.random() < 0.8:
            for log in sorted(set(touched)):
                settle(folder, log, rng.random() < 0.9 and change is not sequence)
    return name, folder, done


def list_of(lines, json_form=False):
    """What `check --all` prints where these are the faults, or the counts."""
    shown = [json_of(line) for line in lines] if json_form else lines
    if lines[0].startswith("no"):
        shown = shown + [json.dumps({"faults": len(lines)}, separators=(",", ":")) if json_form else f"faults={len(lines)}"]
    return "".join(f"{line}\n" for line in shown)


def compare(program, path, seen, rng):
    """What the program answers, first alone and then all, and what it should, each as status, output and message."""
    lines = reference.listed(path)
    line, status, notes = lines[0], 0 if lines[0].startswith("yes") else 1, notes_reference.lines(path)
    seen.update([line.split()[2] if line.startswith("no") else "yes"])
    json_form, workers, found, wanted = rng.random() < 0.3, rng.sample("14", 2), [], []
    if seen.total() % 2:
        workers = [{"1": "2", "4": "64"}[it] for it in workers]
    for words, count, shown in ([], workers[0], (json_of(line) if json_form else line) + "\n"), (
        ["--all"],
        workers[1],
        list_of(lines, json_form),
    ):
        command = [program, "check", *words, *["--json"] * json_form, "--workers", count, path]
        done = subprocess.run(command, capture_output=True, timeout=60)
        found.append((done.returncode, done.stdout.decode(), done.stderr.decode()))
        wanted.append((status, shown, notes))
    return lines, found, wanted


def main():
    program = sys.argv[1]
    count = int(sys.argv[2]) if len(sys.argv) > 2 else 300
    seed = int(sys.argv[3]) if len(sys.argv) > 3 else 1
    keep = sys.argv[4] if len(sys.argv) > 4 else None
    folders = {}
    with open(os.path.join(HERE, "evidence", "expected.tsv"), encoding="utf-8") as file:
        for name, status, _ in (line.split("\t") for line in file):
            if status != "2":
                folders[name] = Folder(os.path.join(HERE, "evidence", name))
    seen, changes, wrong = collections.Counter(), collections.Counter(), 0
    with tempfile.TemporaryDirectory() as scratch:
        for i in range(count):
            rng = random.Random(f"{seed} {i}")
            name, folder, done = made(rng, folders, i)
            changes.update(done or ["none"])
            paths, answers = [], []
            for form in "given", "cut":
                if form == "cut":
                    cut(rng, folder)
                paths.append(os.path.join(scratch, form))
                folder.write(paths[-1])
                answers.append(compare(program, paths[-1], seen, rng))
            lines, said, wanted = zip(*answers)
            whole = not any(line.startswith(("no 1.1 ", "no 1.2 ")) for line in lines[0])
            if said != wanted or (whole and lines[0] != lines[1]):
                wrong += 1
                print(f"evidence {i} with seed {seed}, {name} with {done}: {said}, not {wanted}")
                if keep:
                    shutil.copytree(scratch, os.path.join(keep, f"{seed}-{i}"), dirs_exist_ok=True)
            for path in paths:
                shutil.rmtree(path)
    print(f"{count} evidences, {wrong} differences: {mutants.tally(seen)}")
    print(f"changes: {mutants.tally(changes)}")
    names = reference.PARTITION_FAULTS + reference.LOG_FAULTS + reference.MATCH_FAULTS + reference.LINEAGE_FAULTS
    unseen = [name for name in names + ["yes"] if not seen[name]]
    if unseen:
        print("never seen:", " ".join(unseen))
    sys.exit(1 if wrong else 0)


if __name__ == "__main__":
    main()
