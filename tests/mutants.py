#!/usr/bin/env -S python3 -B
"""Compares `dump` and `chain` with a plain reading of Kafka's Message Format, on many damaged and made-up segments.

    tests/mutants.py PROGRAM SEGMENTS [NUMBER [SEED]]

A segment is a few batches of the folder SEGMENTS or made-up ones, with a field, a varint or some bytes changed,
mostly under a checksum that is right again, so that the tests behind it are reached. Everything follows from SEED, so
a difference can be run again. It prints the differences, how often each answer was seen and which never was, and ends
in 1 where there is a difference.

`read` below is the format as a reader of Kafka's documentation would write it down. It shares no code with the program, but
its authors: what both misread is found by the listings of tests/segments alone, which other decoders made.
"""
import collections
import glob
import os
import random
import struct
import subprocess
import sys

from chain_of_listing import answer

LAST_OFFSET = 2**63 - 1
REFUSALS = "Truncated Length Magic Crc Compressed Count Varint Record Delta Trailing Control Producer".split()
FAULTS = "BadBatch Gap FirstSequence Sequence ZombieEpoch EpochWhileOpen NoBump MixedProducer MarkerKind".split()


class Refused(Exception):
    pass


def crc_word(byte):
    for _ in range(8):
        byte = byte >> 1 ^ (0x82F63B78 if byte & 1 else 0)
    return byte


CRC_WORDS = [crc_word(byte) for byte in range(256)]


def crc32c(data):
    register = 0xFFFFFFFF
    for byte in data:
        register = register >> 8 ^ CRC_WORDS[(register ^ byte) & 255]
    return register ^ 0xFFFFFFFF


# ---- reading


class Reader:
    def __init__(self, data):
        self.data, self.at = data, 0

    def left(self):
        return len(self.data) - self.at

    def varint(self, most=5, bits=32):
        value = 0
        for i in range(most):
            if self.left() == 0:
                raise Refused("Varint")
            byte = self.data[self.at]
            self.at += 1
            value |= (byte & 127) << 7 * i
            if byte < 128:
                if value >> bits:
                    raise Refused("Varint")
                return value >> 1 ^ -(value & 1)
        raise Refused("Varint")

    def take(self, length, least=0):
        if length < least or length > self.left():
            raise Refused("Record")
        if length == -1:
            return None
        self.at += length
        return self.data[self.at - length : self.at]


def read_record(text, place):
    fields = Reader(text)
    fields.take(1)
    fields.varint(10, 64)
    delta = fields.varint()
    key = fields.take(fields.varint(), -1)
    value = fields.take(fields.varint(), -1)
    headers = fields.varint()
    if headers < 0:
        raise Refused("Record")
    for _ in range(headers):
        fields.take(fields.varint())
        fields.take(fields.varint(), -1)
    if fields.left():
        raise Refused("Record")
    if delta != place:
        raise Refused("Delta")
    return key, value, headers


def control_word(records):
    key, value, _ = records[0]
    if len(records) != 1 or key is None or len(key) < 4:
        raise Refused("Control")
    version, kind = struct.unpack(">hh", key[:4])
    if version < 0:
        raise Refused("Control")
    if kind not in (0, 1):
        return "control"
    if value is None or len(value) < 6 or value[0] > 127:
        raise Refused("Control")
    return ("abort", "commit")[kind]


def read_batch(data):
    """The size of the batch at the front, its line without its place, and its records with their offsets."""
    if len(data) < 12:
        raise Refused("Truncated")
    base, length = struct.unpack(">qi", data[:12])
    if length < 49:
        raise Refused("Length")
    if len(data) < 12 + length:
        raise Refused("Truncated")
    data = data[: 12 + length]
    magic, crc = struct.unpack(">bI", data[16:21])
    if magic != 2:
        raise Refused("Magic")
    if crc32c(data[21:]) != crc:
        raise Refused("Crc")
    attributes, last, _, _, producer, epoch, sequence, count = struct.unpack(">hiqqqhii", data[21:61])
    if attributes & 7:
        raise Refused("Compressed")
    if count < 1 or count != last + 1 or base < 0 or base + last > LAST_OFFSET:
        raise Refused("Count")
    body = Reader(data[61:])
    records = [read_record(body.take(body.varint()), place) for place in range(count)]
    if body.left():
        raise Refused("Trailing")
    word = "txn" if attributes & 16 else "plain"
    if attributes & 32:
        word = control_word(records)
    if producer < 0 and word in ("txn", "commit", "abort") or producer >= 0 and epoch < 0:
        raise Refused("Producer")
    line = f"base={base} count={count} producer={producer} epoch={epoch} sequence={sequence} {word}"
    return 12 + length, line, [(base + i, *record) for i, record in enumerate(records)]


def shown(data):
    return "null" if data is None else data.hex()


def read(data):
    """The lines that `dump` has to print."""
    at, lines = 0, []
    while at < len(data):
        try:
            size, line, records = read_batch(data[at:])
        except Refused as refusal:
            return lines + [f"bad byte={at} {refusal}"]
        lines.append(f"batch byte={at} {line}")
        lines += [f"record offset={o} key={shown(k)} value={shown(v)} headers={h}" for o, k, v, h in records]
        at += size
    return lines + [f"end bytes={at}"]


# ---- making


def varint(value, longer=0):
    n = value << 1 if value >= 0 else (-value << 1) - 1
    groups = []
    while True:
        groups.append(n & 127)
        n >>= 7
        if not n:
            break
    groups += [0] * longer
    return bytes(g | 128 for g in groups[:-1]) + bytes(groups[-1:])


def sealed(batch):
    """The batch with its length and its checksum made right."""
    batch = batch[:8] + struct.pack(">i", len(batch) - 12) + batch[12:]
    return batch[:17] + struct.pack(">I", crc32c(batch[21:])) + batch[21:]


class Maker:
    """Made-up batches, one after the other in offsets and sequences. In some segments the bytes are odd here and there,
    in others what the producers do."""

    def __init__(self, rng):
        self.rng = rng
        self.base = rng.choice([0, 0, 0, 5, LAST_OFFSET - 3])
        self.sequences = {}
        self.chances = rng.choice([{}, {"bytes": 0.02}, {"bytes": 0.02}, {"producers": 0.1}, {"producers": 0.1}])

    def odd(self, right, *wrong, among="bytes"):
        return self.rng.choice(wrong) if self.rng.random() < self.chances.get(among, 0) else right

    def number(self, value):
        return varint(value, self.odd(0, 1, 2, 4, 9))

    def text(self, least):
        rng = self.rng
        length = self.odd(rng.choice([least, 0, 1, 4, 6, 20]), -2, 3, 2**31 - 1)
        kept = max(0, length) if length < 1000 else 3
        return self.number(length) + bytes(rng.choice([0, 1, 255, rng.randrange(256)]) for _ in range(kept))

    def record(self, place, key=None, value=None):
        headers = self.odd(self.rng.choice([0, 0, 0, 1, 2]), -1, 3, 2**31 - 1)
        text = bytes([self.odd(0, 7)]) + self.number(self.odd(self.rng.choice([0, -1, 70]), 2**63 - 1, -(2**63)))
        text += self.number(self.odd(place, place + 1, -1, 0))
        text += self.text(-1) if key is None else key
        text += self.text(-1) if value is None else value
        text += self.number(headers) + b"".join(self.text(0) + self.text(-1) for _ in range(min(2, max(0, headers))))
        text = self.odd(text, text + b"\0", text[:-1])
        return self.number(self.odd(len(text), -1, len(text) + 1, 2**30)) + text

    def marker(self):
        kind = self.odd(self.rng.choice([0, 1]), 2, -1, 3)
        key = struct.pack(">hh", self.odd(0, 1, -1), kind) + self.odd(b"", b"\0", b"xyz")
        value = struct.pack(">hi", self.odd(0, 2, -1), self.rng.choice([0, 7, -1])) + self.odd(b"", b"\0")
        key, value = self.odd(key, key[:3]), self.odd(value, value[:5])
        return self.record(0, varint(len(key)) + key, self.odd(varint(len(value)) + value, varint(-1)))

    def batch(self):
        rng = self.rng
        control = rng.random() < 0.25
        count = self.odd(1, 2) if control else rng.choice([1, 1, 2, 3])
        producer = self.odd(rng.choice([1000, 1001, 1000 if control else -1]), -1)
        epoch, sequence = self.sequences.get(producer, (rng.choice([0, 2]), 0))
        if control or rng.random() < 0.15:
            epoch, sequence = epoch + rng.choice([1, 1, 0]), 0
        if producer < 0:
            epoch, sequence = -1, -1
        epoch = self.odd(self.odd(epoch, epoch - 1, epoch + 1, among="producers"), -1)
        sequence = self.odd(sequence, (sequence + 1) % 2**31, 0, 2**31 - 1, among="producers")
        attributes = 32 if control else rng.choice([0, 8, 64]) | (16 if producer == 1000 else 0)
        attributes = self.odd(self.odd(attributes, attributes ^ 16, among="producers"), attributes ^ 16, 1, 4, -32768)
        last = self.odd(count - 1, count, -1, 2**31 - 1)
        records = [self.marker()] if control and count == 1 else [self.record(i) for i in range(count)]
        body = b"".join(records) + self.odd(b"", b"\0")
        if not 0 <= self.base <= LAST_OFFSET:
            self.base = 0
        base = self.odd(self.base, self.base + 1, self.base - 1, LAST_OFFSET) if self.base < LAST_OFFSET else self.base
        head = struct.pack(">qiibI", max(base, -1), 0, 0, self.odd(2, 1, 0), 0)
        told = self.odd(count, 0, -1, count + 1)
        head += struct.pack(">hiqqqhii", attributes, last, 0, 0, producer, epoch, sequence, told)
        self.sequences[producer] = (epoch, (sequence + (0 if control else count)) % 2**31)
        self.base += count
        return sealed(head + body)


def damaged(rng, batch):
    """One change of a batch; the checksum is mostly right again."""
    what, at = rng.randrange(6), rng.randrange(len(batch))
    if what == 0:
        batch = batch[:at] + bytes([batch[at] ^ 1 << rng.randrange(8)]) + batch[at + 1 :]
    elif what == 1:
        batch = batch[:at] + batch[at + rng.choice([1, 2, 4]) :]
    elif what == 2:
        batch = batch[:at] + bytes(rng.choice([0, 1, 127, 128, 255]) for _ in range(rng.choice([1, 4]))) + batch[at:]
    elif what == 3:
        at = rng.choice([8, 12, 16, 21, 22, 23, 27, 43, 51, 53, 57])
        batch = batch[:at] + rng.choice([b"\0", b"\1", b"\x7f", b"\x80", b"\xff"]) + batch[at + 1 :]
    elif what == 4:
        return batch[:at]
    elif what == 5:
        return batch[:8] + struct.pack(">i", rng.choice([-1, 0, 48, 49, len(batch)])) + batch[12:]
    return sealed(batch) if len(batch) > 21 and rng.random() < 0.8 else batch


def batches_of(path):
    with open(path, "rb") as f:
        data = f.read()
    while len(data) >= 12:
        size = 12 + struct.unpack(">i", data[8:12])[0]
        if size < 61 or size > len(data):
            return
        yield data[:size]
        data = data[size:]


def made(rng, real):
    maker = Maker(rng)
    batches = [maker.batch() for _ in range(rng.choice([1, 2, 4, 8]))]
    if rng.random() < 0.3:
        batches = [rng.choice(real) for _ in range(rng.choice([1, 2, 3]))]
    if rng.random() < 0.3:
        i = rng.randrange(len(batches))
        batches[i] = damaged(rng, batches[i])
    return b"".join(batches)


def said(program, command, data):
    done = subprocess.run([program, command, "-"], input=data, capture_output=True, timeout=60)
    return done.returncode, done.stdout.decode(), done.stderr.decode()


def differs(program, name, data, seen):
    """Whether `dump` or `chain` answers otherwise than the plain reading, which is printed; what it answers is counted."""
    lines = read(data)
    good = answer(lines)
    wanted = {
        "dump": (0 if lines[-1].startswith("end") else 1, "\n".join(lines) + "\n", ""),
        "chain": (0 if good.startswith("ok") else 1, good + "\n", ""),
    }
    wrong = False
    for command, want in wanted.items():
        found = said(program, command, data)
        if found != want:
            wrong = True
            print(f"{command} of {name}:")
            print(f"  {found[0]} {found[1][-200:]!r} {found[2]!r}, not {want[0]} {want[1][-200:]!r}")
    seen[lines[-1].split()[-1].split("=")[0]] += 1
    seen[good.split(" offset")[0].split()[-1] if good.startswith("no") else "kept"] += 1
    return wrong


def tally(seen):
    return " ".join(f"{word} {times}" for word, times in sorted(seen.items()))


def main():
    program, segments = sys.argv[1:3]
    number = int(sys.argv[3]) if len(sys.argv) > 3 else 500
    seed = int(sys.argv[4]) if len(sys.argv) > 4 else 1
    real = [b for path in sorted(glob.glob(os.path.join(segments, "*.log"))) for b in batches_of(path) if len(b) < 2000]
    seen, wrong = collections.Counter(), 0
    for i in range(number):
        data = made(random.Random(f"{seed} {i}"), real)
        wrong += differs(program, f"segment {i} with seed {seed}", data, seen)
    print(f"{number} segments, {wrong} differences: {tally(seen)}")
    unseen = [name for name in REFUSALS + FAULTS if not seen[name]]
    if unseen:
        print("never seen:", " ".join(unseen))
    sys.exit(1 if wrong else 0)


if __name__ == "__main__":
    main()
