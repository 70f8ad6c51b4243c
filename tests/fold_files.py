"""Fold files by docs/FOLD.md: which bytes are the fold of a segment, and what bytes say that may be one.

For tests/folds.py, by the same authors as the program, whose code it doesn't share. Batches and claims are those of
tests/plain_logs.py.
"""
import collections
import struct

import plain_logs
from mutants import LAST_OFFSET, REFUSALS, Refused, varint

MAGIC, VERSION = b"EOSFOLD", 3
# The most bytes that a text shares with the one before; of its last sixteenth it shares none, so it is at most 16 times its spelling.
MOST_SHARED, SHARE = 127, 16
# The least bytes of a batch, and of a record.
LEAST_BATCH, LEAST_RECORD = 61, 7
PRESENCE, CLAIMS, TEXTS = 0, 1, 2
KINDS = {"plain": 0, "txn": 1, "control": 2, plain_logs.COMMIT: 4, plain_logs.ABORT: 6}

# topics: with CLAIMS those that were asked for. kept: nothing with PRESENCE; with CLAIMS a Claim or None for each data record; with
# TEXTS (key, value, Claim or None). stop: (), (segment, byte, reason) or (found,). epochs: (epoch, start offset) where the leader epoch
# changes. batches: a checksum of those of the batches.
Fold = collections.namedtuple("Fold", "roles topic partition base size batches heads epochs topics kept stop")
Head = collections.namedtuple("Head", "kind coordinator count size producer epoch sequence")
Claim = collections.namedtuple("Claim", "topic partition offset output of")


# ---- what is kept of a segment


def roles_of(apps, topic):
    """What is wanted of a topic's records."""
    if topic in (plain_logs.OFFSETS, plain_logs.STATES):
        return TEXTS
    return CLAIMS if any(topic in app.outputs for app in apps) else PRESENCE


def sources_of(apps):
    """The source topics of all applications, each once, in byte order."""
    return sorted({topic for app in apps for topic in app.sources})


def claim_of(headers):
    found = plain_logs.claim_of(headers)
    return found and Claim(*found[0], *found[1:])


def head_of(batch, size, text):
    kind, coordinator = KINDS[batch.word], None
    if kind >= 2:
        kind += struct.unpack(">h", text[21:23])[0] >> 4 & 1
    if kind >= 4:
        coordinator = struct.unpack(">i", batch.records[0].value[2:6])[0]
    return Head(kind, coordinator, batch.count, size, batch.producer, batch.epoch, batch.sequence)


def kept_of(roles, record):
    claim = claim_of(record.headers)
    return claim if roles == CLAIMS else (record.key, record.value, claim)


def fold_of(roles, sources, name, base, data):
    """The fold of a segment of this partition, (topic, number), with this base offset and these bytes."""
    heads, epochs, kept, stop, at, offset, fields = [], [], [], (), 0, base, b""
    while at < len(data) and not stop:
        try:
            batch, size = plain_logs.read_batch(data, at)
        except Refused as refusal:
            stop = base, at, REFUSALS.index(str(refusal))
            continue
        if batch.base != offset:
            stop = (batch.base,)
            continue
        heads.append(head_of(batch, size, data[at : at + size]))
        epoch = struct.unpack(">i", data[at + 12 : at + 16])[0]
        if not epochs or epochs[-1][0] != epoch:
            epochs.append((epoch, offset))
        fields += data[at + 17 : at + 21]
        if roles != PRESENCE and heads[-1].kind < 2:
            kept += [kept_of(roles, record) for record in batch.records]
        at, offset = at + size, offset + batch.count
    sources = sources if roles == CLAIMS else []
    return Fold(roles, *name, base, len(data), plain_logs.crc32c(fields), heads, epochs, sources, kept, stop)


# ---- writing


def unsigned(value):
    """A number of 64 bits without a sign, as the signed one with the same bits."""
    return varint(value - 2**64 if value > LAST_OFFSET else value)


def text(data):
    return varint(len(data)) + data


def head_bytes(head):
    found = bytes([head.kind]) + (b"" if head.coordinator is None else varint(head.coordinator))
    return found + unsigned(head.count) + unsigned(head.size) + b"".join(varint(it) for it in head[4:])


def numbers_of_claim(claim):
    return varint(claim.partition) + b"".join(unsigned(it) for it in claim[2:])


def claim_bytes(claim, topics):
    if claim is None:
        return b"\0"
    if claim.topic in topics:
        return b"\1" + unsigned(topics.index(claim.topic)) + numbers_of_claim(claim)
    return b"\2" + text(claim.topic) + numbers_of_claim(claim)


def shared(before, data):
    """How many first bytes both have, as far as a text may share them."""
    least = min(len(before), len(data), MOST_SHARED, len(data) + 1 - len(data) // SHARE)
    return next((at for at in range(least) if before[at] != data[at]), least)


def shared_bytes(before, data):
    if data is None:
        return b"\xff"
    count = shared(before, data)
    return bytes([count]) + text(data[count:])


def optional_claim_bytes(claim):
    return b"\0" if claim is None else b"\1" + text(claim.topic) + numbers_of_claim(claim)


def texts_bytes(kept):
    """Keys and values, each beside the last of its kind that isn't null."""
    found, last_key, last_value = [], b"", b""
    for key, value, claim in kept:
        found.append(shared_bytes(last_key, key) + shared_bytes(last_value, value) + optional_claim_bytes(claim))
        last_key, last_value = last_key if key is None else key, last_value if value is None else value
    return b"".join(found)


def stop_bytes(stop):
    if len(stop) == 3:
        return b"\1" + varint(stop[0]) + unsigned(stop[1]) + bytes([stop[2]])
    return b"\2" + unsigned(stop[0]) if stop else b"\0"


def sealed(front):
    return front + struct.pack(">I", plain_logs.crc32c(front))


def front_bytes(fold):
    """The file of a fold without its checksum."""
    front = MAGIC + bytes([VERSION, fold.roles]) + text(fold.topic) + varint(fold.partition) + varint(fold.base)
    front += unsigned(fold.size) + struct.pack(">I", fold.batches) + unsigned(len(fold.heads)) + b"".join(map(head_bytes, fold.heads))
    front += unsigned(len(fold.epochs)) + b"".join(varint(epoch) + unsigned(start) for epoch, start in fold.epochs)
    if fold.roles == CLAIMS:
        front += unsigned(len(fold.topics)) + b"".join(map(text, fold.topics))
        front += b"".join(claim_bytes(claim, fold.topics) for claim in fold.kept)
    if fold.roles == TEXTS:
        front += texts_bytes(fold.kept)
    return front + stop_bytes(fold.stop)


def file_of(fold):
    return sealed(front_bytes(fold))


# ---- reading


class Reader:
    def __init__(self, data):
        self.data, self.at = data, 0

    def begin(self, field):
        """From here on a refusal is of this field."""
        self.place = self.at, field
        return self

    def take(self, length):
        if length > len(self.data) - self.at:
            raise Refused("Short")
        self.at += length
        return self.data[self.at - length : self.at]

    def kind(self, name, most):
        found = self.take(1)[0]
        if found > most:
            raise Refused(name)
        return found

    def number(self, bits=64):
        value = 0
        for i in range(10):
            byte = self.take(1)[0]
            value |= (byte & 127) << 7 * i
            if byte < 128:
                if (byte == 0 and i > 0) or value >> 64:
                    break
                value = value >> 1 ^ -(value & 1)
                if not -(2 ** (bits - 1)) <= value < 2 ** (bits - 1):
                    break
                return value
        raise Refused("Number")

    def unsigned(self, most=2**64 - 1):
        value = self.number() % 2**64
        if value > most:
            raise Refused("Number")
        return value

    def text(self):
        length = self.number()
        if length < 0:
            raise Refused("Number")
        return self.take(length)

    def shared(self, before):
        """A text beside the one before."""
        count = self.take(1)[0]
        if count == 255:
            return None
        if count > 127:
            raise Refused("Record")
        found = before[:count] + self.text()
        if shared(before, found) != count:
            raise Refused("Record")
        return found

    def head(self):
        kind = self.kind("Head", 7)
        coordinator = self.number(32) if kind >= 4 else None
        count, size = self.unsigned(2**32 - 1), self.unsigned()
        head = Head(kind, coordinator, count, size, self.number(), self.number(16), self.number(32))
        without = (kind == 1 or kind >= 4) and head.producer < 0
        possible = 1 <= count < 2**31 if kind < 2 else count == 1
        possible = possible and LEAST_BATCH + LEAST_RECORD * count <= size
        if not possible or without or (head.producer >= 0 and head.epoch < 0):
            raise Refused("Head")
        return head

    def numbers_of_claim(self):
        return self.number(32), self.unsigned(), self.unsigned(2**32 - 1), self.unsigned(2**32 - 1)

    def claim(self):
        """A claim, of which the topic may be a place."""
        kind = self.kind("Record", 2)
        return Claim(self.unsigned() if kind == 1 else self.text(), *self.numbers_of_claim()) if kind else None

    def texts(self, count):
        found, last_key, last_value = [], b"", b""
        for _ in range(count):
            key, value = self.shared(last_key), self.shared(last_value)
            found.append((key, value, Claim(self.text(), *self.numbers_of_claim()) if self.kind("Record", 1) else None))
            last_key, last_value = last_key if key is None else key, last_value if value is None else value
        return found

    def stop(self):
        kind = self.kind("Stop", 2)
        if kind == 1:
            return self.number(), self.unsigned(), self.kind("Stop", len(REFUSALS) - 1)
        return (self.unsigned(),) if kind else ()


def are_entries(base, heads, epochs):
    """Whether batches with these heads can have these leader epochs: the first has an entry, and each entry is of a batch."""
    starts, offset = [], abs(base)
    for head in heads:
        starts.append(offset)
        offset += head.count
    told = [start for _, start in epochs]
    rises = told == sorted(set(told)) and set(told) <= set(starts) and told[:1] == starts[:1]
    return rises and all(one[0] != other[0] for one, other in zip(epochs, epochs[1:]))


def is_inside(fold):
    """Whether a front ends behind its batches."""
    size, begin = sum(head.size for head in fold.heads), abs(fold.base)
    if not fold.stop:
        return size == fold.size
    if len(fold.stop) == 3:
        return fold.stop[:2] == (begin, size) and size < fold.size
    return fold.stop[0] != begin + sum(head.count for head in fold.heads) and size < fold.size


def placed(claim, topics):
    if claim is None or isinstance(claim.topic, bytes):
        return claim
    if claim.topic >= len(topics):
        raise Refused("Record")
    return claim._replace(topic=topics[claim.topic])


def is_said(claim):
    """Whether there are headers that say this."""
    if claim is None:
        return True
    return claim.partition >= 0 and claim.offset <= LAST_OFFSET and claim.output < 2**31 and claim.of < 2**31


def read_fields(fields):
    """The fold whose file a reader has; Refused tells by its name why it is none, and the reader at which field."""
    data = fields.data
    if fields.begin("magic").take(len(MAGIC)) != MAGIC:
        raise Refused("Magic")
    if fields.begin("version").kind("Version", 255) != VERSION:
        raise Refused("Version")
    roles = fields.begin("roles").kind("Roles", 2)
    topic, partition = fields.begin("topic").text(), fields.begin("partition").number(32)
    base, size = fields.begin("base").number(), fields.begin("bytes").unsigned()
    batches = struct.unpack(">I", fields.begin("batches").take(4))[0]
    heads, epochs, topics, kept = [], [], [], []
    for _ in range(fields.begin("heads").unsigned()):
        heads.append(fields.head())
    if abs(base) + sum(head.count for head in heads) > LAST_OFFSET + 1 or sum(head.size for head in heads) > min(size, 2**63):
        raise Refused("Head")
    for _ in range(fields.begin("epochs").unsigned()):
        epochs.append((fields.number(32), fields.unsigned()))
    if not are_entries(base, heads, epochs):
        raise Refused("Epoch")
    fields.begin("kept")
    if roles == CLAIMS:
        topics = [fields.text() for _ in range(fields.unsigned())]
    if roles != PRESENCE:
        records = sum(head.count for head in heads if head.kind < 2)
        kept = [fields.claim() for _ in range(records)] if roles == CLAIMS else fields.texts(records)
    if roles == CLAIMS:
        kept = [placed(claim, topics) for claim in kept]
    stop, checked = fields.begin("stop").stop(), fields.at
    fold = Fold(roles, topic, partition, base, size, batches, heads, epochs, topics, kept, stop)
    if not is_inside(fold):
        raise Refused("Stop")
    if struct.unpack(">I", fields.begin("checksum").take(4))[0] != plain_logs.crc32c(data[:checked]):
        raise Refused("Crc")
    if fields.at < len(data):
        fields.begin("end")
        raise Refused("Trailing")
    if not all(is_said(it if roles == CLAIMS else it[2]) for it in kept):
        fields.place = None
        raise Refused("Record")
    return fold


def read_fold(data):
    """The fold of which this is the file; Refused tells by its name why it is none."""
    return read_fields(Reader(data))


def place_of(data):
    """At which byte the field begins by which these bytes are no fold file, and the field's name; None where no single field is it."""
    fields = Reader(data)
    try:
        read_fields(fields)
    except Refused:
        return fields.place
    return None


def name_of(data):
    """Why these bytes are no fold file, or None."""
    try:
        read_fold(data)
    except Refused as refusal:
        return str(refusal)
    return None


# ---- a log of which only folds are left


WORDS = {kind: word for word, kind in KINDS.items()}


def headers_of(claim):
    """Headers that say a claim and nothing else."""
    if claim is None:
        return []
    values = claim.topic, *(struct.pack(">" + form, it) for form, it in zip("iqii", claim[1:]))
    return [(b"eo." + name, it) for name, it in zip((b"topic", b"partition", b"offset", b"output", b"of"), values)]


def record_of(roles, kept):
    claim = kept if roles == CLAIMS else kept[2]
    return plain_logs.Record(*(kept[:2] if roles == TEXTS else (None, None)), headers_of(claim))


def batches_of(fold):
    """Batches that have this fold, with no more in their records than it keeps."""
    kept, offset, leader, starts = iter(fold.kept), fold.base, None, {start: epoch for epoch, start in fold.epochs}
    for head in fold.heads:
        leader = starts.get(offset, leader)
        word = "txn" if head.kind == 1 else WORDS[head.kind & ~1]
        records = [plain_logs.Record(None, None, [])] * head.count
        if head.kind < 2 and fold.roles != PRESENCE:
            records = [record_of(fold.roles, next(kept)) for _ in range(head.count)]
        yield plain_logs.Batch(offset, head.count, word, head.producer, head.epoch, head.sequence, records, leader)
        offset += head.count


def part_of(name, end, folds):
    """The front of a partition by the folds of its segments, in their order, as tests/plain_logs.py has it by its segments."""
    batches, offset = [], 0
    for fold in folds:
        if fold.base != offset:
            return plain_logs.Part(name, end, batches, (2, f"found={fold.base}"))
        batches += batches_of(fold)
        offset += sum(head.count for head in fold.heads)
        if len(fold.stop) == 3:
            segment, at, reason = fold.stop
            return plain_logs.Part(name, end, batches, (1, f"segment={segment} byte={at} batch={REFUSALS[reason]}"))
        if fold.stop:
            return plain_logs.Part(name, end, batches, (2, f"found={fold.stop[0]}"))
    return plain_logs.Part(name, end, batches, None)
