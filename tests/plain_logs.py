"""A plain reading of a folder of evidence: its manifest, its logs, and what their records say.

For tests/reference.py, by the same authors as the program, whose code it doesn't share. Of a record batch it takes the
reading of tests/mutants.py as far as that goes.
"""
import collections
import functools
import json
import os
import re
import struct

from mutants import LAST_OFFSET, Reader, Refused, control_word

OFFSETS, STATES = b"__consumer_offsets", b"__transaction_state"
COMMIT, ABORT, TOMBSTONE = "commit", "abort", "tombstone"

Batch = collections.namedtuple("Batch", "base count word producer epoch sequence records leader")
Record = collections.namedtuple("Record", "key value headers")
Part = collections.namedtuple("Part", "name end batches stop")
State = collections.namedtuple("State", "status producer epoch partitions")
App = collections.namedtuple("App", "group sources outputs")


# ---- batches


def crc_word(byte):
    for _ in range(8):
        byte = byte >> 1 ^ (0x82F63B78 if byte & 1 else 0)
    return byte


CRC_WORDS = [crc_word(byte) for byte in range(256)]


@functools.lru_cache(300_000)
def crc32c(data):
    register = 0xFFFFFFFF
    for byte in data:
        register = register >> 8 ^ CRC_WORDS[(register ^ byte) & 255]
    return register ^ 0xFFFFFFFF


def read_record(text, place):
    fields = Reader(text)
    fields.take(1)
    fields.varint(10, 64)
    delta = fields.varint()
    key = fields.take(fields.varint(), -1)
    value = fields.take(fields.varint(), -1)
    count = fields.varint()
    if count < 0:
        raise Refused("Record")
    headers = []
    for _ in range(count):
        name = fields.take(fields.varint())
        headers.append((name, fields.take(fields.varint(), -1)))
    if fields.left():
        raise Refused("Record")
    if delta != place:
        raise Refused("Delta")
    return Record(key, value, headers)


@functools.lru_cache(300_000)
def read_records(data, count):
    body = Reader(data)
    records = [read_record(body.take(body.varint()), place) for place in range(count)]
    if body.left():
        raise Refused("Trailing")
    return records


def read_batch(data, at=0):
    """The batch that begins at this byte, and its size."""
    if len(data) < at + 12:
        raise Refused("Truncated")
    base, length = struct.unpack_from(">qi", data, at)
    if length < 49:
        raise Refused("Length")
    if len(data) < at + 12 + length:
        raise Refused("Truncated")
    data = data[at : at + 12 + length]
    leader, magic, crc, attributes, last = struct.unpack(">ibIhi", data[12:27])
    producer, epoch, sequence, count = struct.unpack(">qhii", data[43:61])
    if magic != 2:
        raise Refused("Magic")
    if crc32c(data[21:]) != crc:
        raise Refused("Crc")
    if attributes & 7:
        raise Refused("Compressed")
    if count < 1 or count != last + 1 or base < 0 or base + last > LAST_OFFSET:
        raise Refused("Count")
    records = read_records(data[61:], count)
    word = control_word(records) if attributes & 32 else "txn" if attributes & 16 else "plain"
    if (producer < 0 and word in ("txn", COMMIT, ABORT)) or (producer >= 0 and epoch < 0):
        raise Refused("Producer")
    return Batch(base, count, word, producer, epoch, sequence, records, leader), 12 + length


def read_part(name, end, segments):
    """The front of a partition: its longest good beginning, and why it stops there, if it does."""
    batches, offset = [], 0
    for base, data in segments:
        if base != offset:
            return Part(name, end, batches, (2, f"found={base}"))
        at = 0
        while at < len(data):
            try:
                batch, size = read_batch(data, at)
            except Refused as refusal:
                return Part(name, end, batches, (1, f"segment={base} byte={at} batch={refusal}"))
            if batch.base != offset:
                return Part(name, end, batches, (2, f"found={batch.base}"))
            batches.append(batch)
            at, offset = at + size, offset + batch.count
    return Part(name, end, batches, None)


def length_of(part):
    return sum(batch.count for batch in part.batches)


def is_marker(batch):
    return batch.word in (COMMIT, ABORT)


def touches_of(part):
    """For each producer id its touches, in offset order."""
    touches = collections.defaultdict(list)
    for batch in part.batches:
        if is_marker(batch) or (batch.word in ("plain", "txn") and batch.producer >= 0):
            touches[batch.producer].append(batch)
    return touches


def next_marker(part, data):
    later = [b for b in part.batches if b.base > data.base and b.producer == data.producer and is_marker(b)]
    return min(later, key=lambda b: b.base, default=None)


def records_of(part, only_visible=False):
    for batch in part.batches:
        if batch.word in ("plain", "txn"):
            if only_visible and batch.word == "txn":
                marker = next_marker(part, batch)
                if marker is None or marker.word != COMMIT:
                    continue
            for place, record in enumerate(batch.records):
                yield batch, batch.base + place, record


# ---- records of the internal logs, and lineage headers


class Fields:
    """Fields of the records of the two internal logs."""

    def __init__(self, data):
        self.data, self.at = data, 0

    def take(self, length):
        if length < 0:
            raise Refused("Length")
        if length > len(self.data) - self.at:
            raise Refused("Short")
        self.at += length
        return self.data[self.at - length : self.at]

    def number(self, form):
        return struct.unpack(">" + form, self.take(struct.calcsize(form)))[0]

    def unsigned(self):
        value = 0
        for i in range(5):
            byte = self.number("B")
            value |= (byte & 127) << 7 * i
            if byte < 128:
                if value >= 2**32:
                    break
                return value
        raise Refused("Length")

    def text(self):
        return self.take(self.number("h"))

    def tagged(self):
        for _ in range(self.unsigned()):
            self.unsigned()
            self.take(self.unsigned())

    def end(self):
        if self.at < len(self.data):
            raise Refused("Trailing")


def state_key(key):
    if key is None:
        raise Refused("Short")
    fields = Fields(key)
    if fields.number("h") != 0:
        return None
    name = fields.text()
    fields.end()
    return name


def state_value(value):
    if value is None:
        return State(TOMBSTONE, None, None, None)
    fields = Fields(value)
    version = fields.number("h")
    if version not in (0, 1):
        raise Refused("Version")
    count = (lambda: fields.unsigned() - 1) if version else (lambda: fields.number("i"))
    producer, epoch, _, status = (fields.number(form) for form in "qhib")
    if not 0 <= status <= 7:
        raise Refused("Status")
    topics = count()
    if topics < -1:
        raise Refused("Length")
    partitions = set()
    for _ in range(topics):
        topic = fields.take(count()) if version else fields.text()
        numbers = count()
        if numbers < 0:
            raise Refused("Length")
        partitions.update([(topic, fields.number("i")) for _ in range(numbers)])
        if version:
            fields.tagged()
    fields.number("q"), fields.number("q")
    if version:
        fields.tagged()
    fields.end()
    return State(status, producer, epoch, frozenset(partitions))


def offset_key(key):
    if key is None:
        raise Refused("Short")
    fields = Fields(key)
    if fields.number("h") not in (0, 1):
        return None
    found = fields.text(), fields.text(), fields.number("i")
    fields.end()
    return found


def offset_value(value):
    fields = Fields(value)
    version = fields.number("h")
    if version not in (0, 1, 2, 3):
        raise Refused("Version")
    offset = fields.number("q")
    if version == 3:
        fields.number("i")
    length = fields.number("h")
    fields.take(0 if length == -1 else length)
    fields.take(16 if version == 1 else 8)
    fields.end()
    return offset


def claim_of(headers):
    """The source, the output number and the count of a record, None where its headers are no claim."""
    found = []
    for name, form in (b"topic", None), (b"partition", "i"), (b"offset", "q"), (b"output", "i"), (b"of", "i"):
        values = [value for key, value in headers if key == b"eo." + name]
        if len(values) != 1 or values[0] is None or (form and len(values[0]) != struct.calcsize(form)):
            return None
        found.append(struct.unpack(">" + form, values[0])[0] if form else values[0])
    return None if min(found[1:]) < 0 else (tuple(found[:3]), *found[3:])


# ---- the folder


def read_folder(folder):
    with open(os.path.join(folder, "evidence.json"), encoding="utf-8") as file:
        manifest = json.load(file)
    apps = [
        App(a["group"].encode(), *({t.encode() for t in a[key]} for key in ("sources", "outputs")))
        for a in (manifest["apps"] if manifest["version"] == 2 else [manifest])
    ]
    parts = []
    for name, end in manifest["ends"].items():
        path, segments = os.path.join(folder, name), []
        for file in os.listdir(path) if os.path.isdir(path) else []:
            if re.fullmatch("[0-9]{20}[.]log", file) and int(file[:20]) <= LAST_OFFSET:
                with open(os.path.join(path, file), "rb") as opened:
                    segments.append((int(file[:20]), opened.read()))
        topic, number = name.rsplit("-", 1)
        parts.append(read_part((topic.encode(), int(number)), end, sorted(segments)))
    return apps, sorted(parts, key=lambda part: part.name)
