"""Fold files that are none or stand at another place, and what can't be read or written while segments are folded or folds are checked.

For tests/folds.py. Which name a damaged file gets is what the second decoder says (tests/fold_files.py), and the first line of a
refusal says it behind the path; the second begins with the place and the name of the field that is refused, as that decoder says too. The
words behind them are the program's.
"""
import os
import re
import resource
import shutil
import signal
import struct
import subprocess

import fold_files
from fold_files import CLAIMS, PRESENCE, TEXTS, Claim, Head, sealed, text, unsigned
from fold_folders import files_in, fold_bytes, fold_path, fold_words, folds_of, log_path, name_of, note_of_folds, partitions_of, read, with_folds, write
from mutants import LAST_OFFSET, varint

GOOD = "tests/evidence/row-yes-2"
YES = (0, "yes transactions=1 inputs=2 outputs=3\n", "")
# A fold of each kind: of claims, of texts, and of records that have to be there.
SMALL = [fold_path(it, 0) for it in ("out-0", "__consumer_offsets-0", "in-0")]
MOST_BYTES = 1 << 30
NOBODY = 65534
LITTLE = 128 << 20
# How often a segment or a fold is read, in steps of so many bytes.
STEPS = [1, 7, 61]


class Place:
    """A folder of folds alone, in which one file is changed at a time."""

    def __init__(self, tests):
        self.tests = tests
        self.folds, _ = folds_of(GOOD)
        self.folder = with_folds(GOOD, self.folds, tests.new("place"))

    def refused(self, what, path, data, name, workers="1", **run):
        """With this file in the place of one of its folds the folder is refused by this name."""
        write(os.path.join(self.folder, path), data)
        status, out, err = self.tests.run("check", "--workers", workers, self.folder, **run)
        lines = err.split("\n")
        place = fold_files.place_of(data)
        begins = "  " if place is None else "  at byte {}, the {}: ".format(*place)
        lines += [""] * (3 - len(lines))
        told = status, out, lines[0], len(lines), lines[1][: len(begins)], len(lines[1]) > len(begins)
        self.tests.same(f"{what}, {workers} workers", told, (2, "", f"eoscheck: {os.path.join(self.folder, path)}: {name}", 3, begins, True))
        self.back(path)

    def back(self, path):
        if path in self.folds:
            write(os.path.join(self.folder, path), self.folds[path])
        else:
            os.remove(os.path.join(self.folder, path))

    def accepted(self, what, path, data, said):
        write(os.path.join(self.folder, path), data)
        for workers in "14":
            self.tests.same(f"{what}, {workers} workers", self.tests.check(self.folder, "--workers", workers), said)
        self.back(path)


# ---- damaged files


def damaged(data):
    """Each bit turned, and each cut."""
    for bit in range(8 * len(data)):
        changed = bytearray(data)
        changed[bit // 8] ^= 0x80 >> bit % 8
        yield f"bit {bit} turned", bytes(changed)
    for length in range(len(data)):
        yield f"cut to {length} bytes", data[:length]


def each_bit(place):
    for path in SMALL:
        for at, (what, data) in enumerate(damaged(place.folds[path])):
            place.refused(f"{path}, {what}", path, data, fold_files.name_of(data), "14"[at % 2])


def every_kind():
    """Folds that no segment has, with each kind of a head, of a kept record and of a stop."""
    some = Claim(b"in", 0, 2**40, 1, 2)
    heads = [Head(0, None, 2, 300, -1, -1, -1), Head(1, None, 1, 90, 2**50, 2**15 - 1, 2**31 - 1)]
    heads += [Head(kind, 7 if kind > 3 else None, 1, 78, 5, 6, -1) for kind in range(2, 8)]
    size = sum(head.size for head in heads)
    epochs = [(7, 0), (-1, 2), (2**31 - 1, 3), (-(2**31), 8)]
    kept = [None, some, some._replace(topic=b"other")]
    yield "out-0", fold_files.Fold(CLAIMS, b"out", 0, 0, size + 1, 2**32 - 1, heads, epochs, [b"in"], kept, (10,))
    texts = fold_files.Fold(TEXTS, b"__consumer_offsets", 0, 0, size + 1, 1, heads, epochs[:1], [], [], (0, size, 0))
    kept = [(b"key", None, None), (None, b"value", some), (b"ken", b"", None)]
    yield "__consumer_offsets-0", texts._replace(kept=kept)
    # more bytes in common than are shared
    kept = [(b"k" * 140, b"v" * 32, None), (b"k" * 127 + b"x", b"v" * 31, None), (b"k" * 139, b"v" * 47, None)]
    yield "__consumer_offsets-0", texts._replace(kept=kept)


def each_byte(place):
    """Of those every byte is changed, by its lowest bit, by its highest, and by all."""
    for partition, fold in every_kind():
        path, whole = fold_path(partition, 0), fold_files.file_of(fold)
        place.tests.same(f"every kind in {path}", fold_files.read_fold(whole), fold)
        write(os.path.join(place.folder, path), whole)
        place.tests.same(f"every kind in {path}, a verdict", place.tests.check(place.folder)[0], 1)
        for at in range(len(whole)):
            for turn in 1, 128, 255:
                data = whole[:at] + bytes([whole[at] ^ turn]) + whole[at + 1 :]
                what = f"every kind in {path}, byte {at} by {turn}"
                place.refused(what, path, data, fold_files.name_of(data), "14"[at % 2])


# ---- files with a right checksum that are none


LONG = b"\x86\x00"
ENDLESS = b"\x80" * 10
TOO_GREAT = b"\x80" * 9 + b"\x02"


SIZE = 500
# One leader epoch, from offset 0 on.
EPOCHS = unsigned(1) + b"\0\0"


def front(roles=PRESENCE, topic=text(b"in"), partition=b"\0", base=b"\0", size=unsigned(SIZE)):
    return b"EOSFOLD\3" + bytes([roles]) + topic + partition + base + size + b"\1\2\3\4"


def with_heads(*heads, roles=PRESENCE, **more):
    more = {"size": unsigned(SIZE * len(heads)), **more}
    return front(roles, **more) + unsigned(len(heads)) + b"".join(heads)


def head(kind=0, coordinator=b"", count=unsigned(2), producer=b"\1", epoch=b"\1", sequence=b"\1", size=unsigned(SIZE)):
    return bytes([kind]) + coordinator + count + size + producer + epoch + sequence


def with_epochs(*entries):
    """Of three batches of two records each."""
    return with_heads(head(), head(), head()) + unsigned(len(entries)) + b"".join(varint(epoch) + unsigned(at) for epoch, at in entries)


def with_stop(stop, **more):
    return with_heads(head(), **more) + EPOCHS + stop


def with_claim(claim, topics=unsigned(1) + text(b"in")):
    return with_heads(head(count=unsigned(1)), roles=CLAIMS, topic=text(b"out")) + EPOCHS + topics + claim


def with_text(*kept):
    return with_heads(head(count=unsigned(len(kept))), roles=TEXTS, topic=text(b"__consumer_offsets")) + EPOCHS + b"".join(kept)


def key(shared, rest):
    """A record that has this key, and no value and no claim."""
    return bytes([shared]) + text(rest) + b"\xff\0"


def value(shared, rest):
    return b"\xff" + bytes([shared]) + text(rest) + b"\0"


GREATEST = varint(LAST_OFFSET)
# As many records as a segment can have, in one batch.
MOST, MOST_RECORDS = unsigned(MOST_BYTES), (MOST_BYTES - 61) // 7
FULL = head(count=unsigned(MOST_RECORDS), size=MOST)
# Of each kind of fold fronts, what follows is left out where the fault comes before it.
HOSTILE = [
    ("Version", "version 0", b"EOSFOLD\0"),
    ("Version", "version 1", b"EOSFOLD\1\0" + front()[9:] + b"\0\0"),
    ("Version", "version 2, the one before", b"EOSFOLD\2\0" + front()[9:] + b"\0\0"),
    ("Version", "version 4, a newer one", b"EOSFOLD\4\0" + front()[9:] + b"\0\0"),
    ("Version", "version -1", b"EOSFOLD\xff"),
    ("Magic", "another magic", b"EOSFOLK" + front()[7:] + b"\0\0"),
    ("Magic", "a log", read(os.path.join(GOOD, log_path("out-0", 0)))),
    ("Roles", "roles 3", front(3) + b"\0\0"),
    ("Roles", "roles -1", front(255) + b"\0\0"),
    ("Number", "a longer spelling of a text's length", front(topic=LONG + b"in\0") + b"\0\0"),
    ("Number", "a longer spelling of 0", front(partition=b"\x80\0") + b"\0\0"),
    ("Number", "a longer spelling in three bytes", front(partition=b"\xff\xff\0") + b"\0\0"),
    ("Number", "a longer spelling in four bytes", front(base=b"\xff\xff\xff\0") + b"\0\0"),
    ("Number", "a longer spelling in ten bytes", front(base=b"\x80" * 9 + b"\0") + b"\0\0"),
    ("Number", "a number without an end", front(base=ENDLESS) + b"\0\0"),
    ("Number", "a number of 65 bits", front(size=TOO_GREAT) + b"\0\0"),
    ("Number", "a leader epoch past i32", with_epochs((2**31, 0))),
    ("Number", "a partition past i32", front(partition=varint(2**31)) + b"\0\0"),
    ("Number", "a partition below i32", front(partition=varint(-(2**31) - 1)) + b"\0\0"),
    ("Number", "an epoch past i16", with_heads(head(epoch=varint(2**15))) + b"\0"),
    ("Number", "a sequence past i32", with_heads(head(sequence=varint(2**31))) + b"\0"),
    ("Number", "a coordinator epoch past i32", with_heads(head(4, varint(2**31), unsigned(1), b"\2", b"\2")) + b"\0"),
    ("Number", "a claim's partition past i32", with_claim(b"\1\0" + varint(2**31) + b"\0\2\2") + b"\0"),
    ("Number", "a claim's output past 32 bits", with_claim(b"\1\0\0\0" + varint(2**32) + b"\2") + b"\0"),
    ("Number", "a claim's count past 32 bits", with_claim(b"\2" + text(b"x") + b"\0\0\2" + varint(2**32)) + b"\0"),
    ("Number", "a count past 32 bits", with_heads(head(count=unsigned(2**32))) + b"\0"),
    ("Number", "a topic without bytes, null", front(topic=varint(-1)) + b"\0\0"),
    ("Number", "a topic of -2 bytes", front(topic=varint(-2)) + b"\0\0"),
    ("Number", "the rest of a key, of -1 bytes", with_text(b"\0\1\xff\0") + b"\0"),
    ("Number", "the rest of a value, of -2 bytes", with_text(b"\xff\0" + varint(-2) + b"\0") + b"\0"),
    ("Number", "a longer spelling of a rest's length", with_text(b"\0" + LONG + b"key\xff\0") + b"\0"),
    ("Number", "a rest of -1 bytes behind bytes that aren't there", with_text(b"\5\1\xff\0") + b"\0"),
    ("Head", "a head of kind 8", with_heads(head(8)) + b"\0"),
    ("Head", "a head of kind -1", with_heads(head(255)) + b"\0"),
    ("Head", "a batch without records", with_heads(head(count=b"\0")) + b"\0"),
    ("Head", "a batch of 2^31 records", with_heads(head(count=unsigned(2**31))) + b"\0"),
    ("Head", "a batch of 2^32 - 1 records", with_heads(head(count=unsigned(2**32 - 1))) + b"\0"),
    ("Head", "a record more than fits", with_heads(head(count=unsigned(3), size=unsigned(81))) + b"\0"),
    ("Head", "a batch of 67 bytes", with_heads(head(count=unsigned(1), size=unsigned(67))) + b"\0"),
    ("Head", "a batch without bytes", with_heads(head(size=b"\0")) + b"\0"),
    ("Head", "a batch past its segment", with_heads(head(), size=unsigned(SIZE - 1)) + b"\0"),
    ("Head", "batches past their segment", with_heads(head(), head(), size=unsigned(2 * SIZE - 1)) + b"\0"),
    ("Head", "sizes past 2^63", with_heads(*[head(size=unsigned(2**62))] * 3, size=unsigned(3 * 2**62)) + b"\0"),
    ("Head", "sizes past 2^64", with_heads(*[head(size=unsigned(2**63))] * 3, size=unsigned(2**64 - 1)) + b"\0"),
    ("Epoch", "no leader epoch", with_epochs()),
    ("Epoch", "a first batch without one", with_epochs((0, 2))),
    ("Epoch", "a leader epoch in a batch", with_epochs((0, 0), (1, 3))),
    ("Epoch", "a leader epoch behind the batches", with_epochs((0, 0), (1, 6))),
    ("Epoch", "a leader epoch twice", with_epochs((0, 0), (0, 2))),
    ("Epoch", "two leader epochs at one offset", with_epochs((0, 0), (1, 0))),
    ("Epoch", "leader epochs that fall back", with_epochs((0, 0), (1, 4), (2, 2))),
    ("Epoch", "a leader epoch of no batch", front() + b"\0" + EPOCHS),
    ("Head", "a control batch of two", with_heads(head(2)) + b"\0"),
    ("Head", "a marker of two", with_heads(head(4, b"\0", producer=b"\2", epoch=b"\2")) + b"\0"),
    ("Head", "transactional data without a producer", with_heads(head(1)) + b"\0"),
    ("Head", "a COMMIT without a producer", with_heads(head(4, b"\0", unsigned(1))) + b"\0"),
    ("Head", "an ABORT without a producer", with_heads(head(6, b"\0", unsigned(1))) + b"\0"),
    ("Head", "a transactional COMMIT without a producer", with_heads(head(5, b"\0", unsigned(1))) + b"\0"),
    ("Head", "a producer without an epoch", with_heads(head(producer=b"\2")) + b"\0"),
    ("Head", "offsets past 2^63", with_heads(head(), base=GREATEST) + b"\0"),
    ("Head", "offsets past 2^63 by the second head", with_heads(head(), head(), base=varint(LAST_OFFSET - 2)) + b"\0"),
    ("Head", "a base below -2^63 + 2", with_heads(head(), base=varint(-(2**63) + 1)) + b"\0"),
    ("Head", "a head that is none before offsets past 2^63", with_heads(head(), head(8), base=GREATEST) + b"\0"),
    ("Record", "a kept record of kind 3", with_claim(b"\3\0\0\0\2\2") + b"\0"),
    ("Record", "the place of a second topic", with_claim(b"\1\2\0\0\2\2") + b"\0"),
    ("Record", "the place of a topic among none", with_claim(b"\1\0\0\0\2\2", b"\0") + b"\0"),
    ("Number", "a bad number before the place of a second topic", with_claim(b"\1\2" + LONG + b"\0\2\2") + b"\0"),
    ("Record", "a claim of a partition below 0", with_claim(b"\1\0\1\0\2\2") + b"\0"),
    ("Record", "a claim of an offset past i64", with_claim(b"\1\0\0" + unsigned(2**63) + b"\2\2") + b"\0"),
    ("Record", "a claim's output past i32", with_claim(b"\1\0\0\0" + varint(2**31) + b"\2") + b"\0"),
    ("Record", "a claim's count past i32", with_claim(b"\2" + text(b"x") + b"\0\0\2" + varint(2**31)) + b"\0"),
    ("Record", "a claim that isn't said, of a text", with_text(b"\xff\xff\1" + text(b"in") + b"\1\0\2\2") + b"\0"),
    ("Record", "a kept text of kind 2", with_text(b"\xff\xff\2" + text(b"in") + b"\0\0\2\2") + b"\0"),
    ("Record", "a key that shares -2 bytes", with_text(b"\xfe\0\xff\0") + b"\0"),
    ("Record", "a value that shares -128 bytes", with_text(b"\xff\x80\0\0") + b"\0"),
    ("Record", "a first key that shares a byte", with_text(key(1, b"")) + b"\0"),
    ("Record", "a first value that shares 127 bytes", with_text(value(127, b"x" * 127)) + b"\0"),
    ("Record", "a key that shares nothing and could", with_text(key(0, b"key"), key(0, b"k")) + b"\0"),
    ("Record", "a key that shares two bytes of three", with_text(key(0, b"key"), key(2, b"y")) + b"\0"),
    ("Record", "a key that shares four bytes of three", with_text(key(0, b"key"), key(4, b"")) + b"\0"),
    ("Record", "a value that shares one byte less than it can", with_text(value(0, b"abc"), value(1, b"bd")) + b"\0"),
    ("Record", "a value that shares bytes of the key", with_text(key(0, b"key"), value(3, b"")) + b"\0"),
    ("Record", "a key of 31 bytes that shares 30", with_text(key(0, b"k" * 31), key(30, b"k")) + b"\0"),
    ("Record", "a key of 32 bytes that shares all", with_text(key(0, b"k" * 32), key(32, b"")) + b"\0"),
    ("Record", "a key of 127 bytes that shares 122", with_text(key(0, b"k" * 127), key(122, b"k" * 5)) + b"\0"),
    ("Record", "a key of 127 bytes that shares all", with_text(key(0, b"k" * 127), key(127, b"")) + b"\0"),
    ("Record", "a key of 300 bytes that shares 126", with_text(key(0, b"k" * 300), key(126, b"k" * 174)) + b"\0"),
    ("Record", "a null key between two", with_text(key(0, b"key"), b"\xff\xff\0", key(0, b"kex")) + b"\0"),
    ("Stop", "a stop of kind 3", front() + b"\0\0\3"),
    ("Stop", "a stop of kind -1", front() + b"\0\0\xff"),
    ("Stop", "a twelfth reason", front() + b"\0\0\1\0\0\x0c"),
    ("Stop", "a front of all bytes, and bytes behind it", with_stop(b"\0", size=unsigned(SIZE + 1))),
    ("Stop", "a place before the batches' end", with_stop(b"\1\0" + unsigned(SIZE - 1) + b"\3", size=unsigned(SIZE + 1))),
    ("Stop", "a place behind the batches' end", with_stop(b"\1\0" + unsigned(SIZE + 1) + b"\3", size=unsigned(SIZE + 2))),
    ("Stop", "a place where no bytes are left", with_stop(b"\1\0" + unsigned(SIZE) + b"\3")),
    ("Stop", "a place in another segment", with_stop(b"\1\2" + unsigned(SIZE) + b"\3", size=unsigned(SIZE + 1))),
    ("Stop", "a batch where it is to be", with_stop(b"\2" + unsigned(2), size=unsigned(SIZE + 1))),
    ("Stop", "a batch where no bytes are left", with_stop(b"\2" + unsigned(3))),
    ("Short", "heads that are too few, whose offsets are past 2^63", front(base=GREATEST) + unsigned(2) + head()),
    ("Short", "nothing", None),
    ("Short", "heads without an end", front() + unsigned(2**63)),
    ("Short", "as many heads as a number has", front() + unsigned(2**64 - 1)),
    ("Short", "topics without an end", with_claim(b"", unsigned(2**40))),
    ("Short", "claims of as many records as a segment can have", with_heads(FULL, roles=CLAIMS, size=MOST) + EPOCHS + unsigned(1) + text(b"in")),
    ("Short", "texts of as many records as a segment can have", with_heads(FULL, roles=TEXTS, size=MOST) + EPOCHS),
    ("Short", "leader epochs without an end", with_heads(head()) + unsigned(2**64 - 1) + b"\0\0"),
    ("Short", "no checksum of the batches", front()[:-4]),
    ("Short", "a checksum of the batches that is cut", front()[:-1]),
    ("Short", "a topic of 2^63 - 1 bytes", front(topic=GREATEST)),
    ("Short", "a value of 2^63 - 1 bytes", with_text(b"\xff\0" + GREATEST)),
    ("Short", "a key without its rest, which shares bytes that aren't there", with_text(b"\x7f")),
]


def in_little_room():
    resource.setrlimit(resource.RLIMIT_AS, (LITTLE, LITTLE))


# Where a file of these roles stands.
PLACES = {PRESENCE: "in-0", CLAIMS: "out-0", TEXTS: "__consumer_offsets-0"}


def hostile(place):
    for name, what, data in HOSTILE:
        # what runs short has no place for a checksum
        whole = b"" if data is None else data if name == "Short" else sealed(data)
        place.tests.same(f"{what}, by the second decoder", fold_files.name_of(whole), name)
        path = fold_path(PLACES.get(whole[8] if len(whole) > 8 else PRESENCE, "in-0"), 0)
        place.refused(what, path, whole, name, before=in_little_room)
    path = fold_path("in-0", 0)
    for what, data in ("another checksum", place.folds[path][:-1] + b"\0"), ("no checksum", place.folds[path][:-4] + b"\0\0\0\0"):
        place.refused(what, path, data, "Crc")
    for what, more in ("a byte behind it", b"\0"), ("itself behind it", place.folds[path]):
        place.refused(what, path, place.folds[path] + more, "Trailing")


# ---- folds of something else


def changed(place, path, **fields):
    return fold_files.file_of(fold_files.read_fold(place.folds[path])._replace(**fields))


def fold_by(partition, roles, sources):
    """The fold of a partition's first segment by other roles or source topics."""
    data = read(os.path.join(GOOD, log_path(partition, 0)))
    return fold_files.file_of(fold_files.fold_of(roles, sources, name_of(partition), 0, data))


def mismatches(place):
    """A right fold of another segment, or by another manifest."""
    for partition, right in ("in-0", PRESENCE), ("out-0", CLAIMS), ("__consumer_offsets-0", TEXTS):
        for roles in {PRESENCE, CLAIMS, TEXTS} - {right}:
            place.refused(f"{partition} by roles {roles}", fold_path(partition, 0), fold_by(partition, roles, [b"in"]), "Roles")
    for sources in [], [b"a", b"in"], [b"in", b"x"], [b"x"], [b"i"], [b"in", b"in"]:
        place.refused(f"out-0 by {sources}", fold_path("out-0", 0), fold_by("out-0", CLAIMS, sources), "Roles")
    for to, of in ("out-0", "out-1"), ("out-1", "out-0"):
        place.refused(f"{of} at {to}", fold_path(to, 0), place.folds[fold_path(of, 0)], "Partition")
    for what, fields in ("topic", {"topic": b"im"}), ("topic", {"topic": b"in2"}), ("topic", {"topic": b""}), ("number", {"partition": -1}):
        place.refused(f"in-0 of another {what}", fold_path("in-0", 0), changed(place, fold_path("in-0", 0), **fields), "Partition")
    for base in 3, LAST_OFFSET:
        place.refused(f"base 0 at {base}", fold_path("out-0", base), place.folds[fold_path("out-0", 0)], "Base")
    for base in 1, -1, -(2**63) + 2:
        other = changed(place, fold_path("in-0", 0), base=base, epochs=[(0, abs(base))])
        place.refused(f"base {base} at 0", fold_path("in-0", 0), other, "Base")
    place.refused("a segment of one byte", fold_path("in-0", 0), changed(place, fold_path("in-0", 0), size=1), "Head")
    heads = [fold_files.Head(0, None, 2**31 - 1, 61, -1, -1, -1)] * 1000
    place.refused("records without bytes", fold_path("in-0", 0), changed(place, fold_path("in-0", 0), size=MOST_BYTES, heads=heads), "Head")


def limits(place):
    """A fold of a segment of as many bytes as one may have, and of one more."""
    path = fold_path("in-0", 0)
    heads = fold_files.read_fold(place.folds[path]).heads
    for size in 61 + 7 * heads[0].count, MOST_BYTES:
        place.accepted(f"a fold of {size} bytes", path, changed(place, path, size=size, heads=[heads[0]._replace(size=size)]), YES)
    for size in MOST_BYTES + 1, 2**63:
        write(os.path.join(place.folder, path), changed(place, path, size=size, heads=[heads[0]._replace(size=size)]))
        status, out, err = place.tests.check(place.folder)
        place.tests.same(f"a fold of {size} bytes", (status, out, err.split("\n")[0]), (2, "", "eoscheck: limit"))
        place.back(path)
    for size in 2**63 + 1, 2**64 - 1:
        whole = changed(place, path, size=size, heads=[heads[0]._replace(size=size)])
        place.refused(f"a fold of {size} bytes", path, whole, "Head")


def made_up(place):
    """Folds that no segment has, of which each field is right: they are judged, and each says what its own fields say."""
    path = fold_path("in-0", 0)
    heads = fold_files.read_fold(place.folds[path]).heads
    said = 1, "no 1.1 BadBatch in-0 offset=2 segment=0 byte=77 batch=Crc\n", ""
    place.accepted("a fault behind the front", path, changed(place, path, size=78, stop=(0, 77, 3)), said)
    said = 1, "no 1.2 Gap in-0 offset=2 found=5\n", ""
    place.accepted("a gap behind the front", path, changed(place, path, size=155, stop=(5,)), said)
    said = 1, f"no 1.10 End in-0 offset={MOST_RECORDS} end=2\n", ""
    many = [heads[0]._replace(count=MOST_RECORDS, size=MOST_BYTES)]
    place.accepted("as many records as fit", path, changed(place, path, size=MOST_BYTES, heads=many), said)
    last = fold_files.Fold(CLAIMS, b"out", 0, LAST_OFFSET, 77, 0, [Head(0, None, 1, 77, -1, -1, -1)], [(0, LAST_OFFSET)], [b"in"], [None], ())
    said = 1, f"no 1.2 Gap out-0 offset=3 found={LAST_OFFSET}\n", ""
    place.accepted("the greatest offset", fold_path("out-0", LAST_OFFSET), fold_files.file_of(last), said)
    # a claim that no header of the log says, of a topic that isn't asked for
    out = fold_path("out-0", 0)
    kept = fold_files.read_fold(place.folds[out]).kept
    other = changed(place, out, kept=[kept[0], Claim(b"a b", 7, 2**40, 1, 1)])
    said = 1, "no 5.5 ForeignSource source=a%20b-7:1099511627776 output=1 at=out-0:1\n", ""
    place.accepted("a claim of another topic", out, other, said)
    # claims that name the topic that is asked for, and not its place
    front = fold_files.front_bytes(fold_files.read_fold(place.folds[out]))
    named = front.replace(b"\1\0\0\0\2\4", b"\2\4in\0\0\2\4").replace(b"\1\0\0\2\2\2", b"\2\4in\0\2\2\2")
    place.tests.same("two claims are spelled otherwise", len(named) - len(front), 4)
    place.accepted("claims by the bytes of an asked topic", out, sealed(named), YES)


def refused_files(tests):
    place = Place(tests)
    tests.same("the folds", tests.check(place.folder), YES)
    each_bit(place)
    each_byte(place)
    hostile(place)
    mismatches(place)
    limits(place)
    made_up(place)
    tests.same("the folds as they were", tests.check(place.folder), YES)


# ---- at which place


def refused_places(tests):
    """A log beside its fold, which refusal of several comes first, and what needs logs."""
    place = Place(tests)
    folder = place.folder
    shutil.copy(os.path.join(GOOD, log_path("out-0", 0)), os.path.join(folder, "out-0"))
    twice = 2, "", f"eoscheck: {os.path.join(folder, fold_path('out-0', 0))}: Twice"
    for what, data in ("a fold", place.folds[fold_path("out-0", 0)]), ("none", b"x"), ("nothing", b""):
        write(os.path.join(folder, fold_path("out-0", 0)), data)
        for workers in "14":
            status, out, err = tests.run("check", "--workers", workers, folder)
            tests.same(f"a log beside {what}", (status, out, err.split("\n")[0]), twice)
    os.remove(os.path.join(folder, log_path("out-0", 0)))
    place.back(fold_path("out-0", 0))

    order = [fold_path(partition, 0) for partition in partitions_of(GOOD)]
    for at, first in enumerate(order[:-1]):
        write(os.path.join(folder, order[-1]), b"EOSFOLK" + b"\0" * 20)
        # a name of the first that differs from that of the last
        place.refused(f"{first} before {order[-1]}", first, place.folds[first][:-1], "Short", "14"[at % 2])
        place.back(order[-1])
    os.remove(os.path.join(folder, order[0]))
    os.mkdir(os.path.join(folder, order[0]))
    write(os.path.join(folder, order[1]), b"")
    said = tests.run("check", folder)
    tests.same("a folder in a fold's place", said, (2, "", f"eoscheck: cannot read {os.path.join(folder, order[0])}\n  a folder\n"))
    os.rmdir(os.path.join(folder, order[0]))
    place.back(order[0])
    place.back(order[1])

    os.remove(os.path.join(folder, "in-0", "00000000000000000000.fold"))
    tests.same("a fold that wasn't carried", tests.check(folder), (1, "no 1.10 End in-0 offset=0 end=2\n", ""))
    picture = os.path.join(tests.room, "picture.svg")
    tests.same("all of it", tests.check(folder, "--all"), (1, "no 1.10 End in-0 offset=0 end=2\nfaults=1\n", ""))
    for words in ["explain", folder], ["explain", "--fault", "1", folder]:
        status, out, err = tests.run(*words)
        tests.same(f"{words[0]} of folds", (status, out.split("\n")[0], err), (1, "no 1.10 End in-0 offset=0 end=2", ""))
    said = tests.run("draw", "--fault", "1", folder, picture)
    tests.same("draw of folds", (said[0], said[1].split(" ")[0], said[2], os.path.exists(picture)), (1, "drew", "", True))
    os.remove(picture)
    place.back("in-0/00000000000000000000.fold")


# ---- what can't be read


def refused_reads(tests):
    """Folds and segments that are read in small steps, or that fail behind so many bytes: the first of these is named."""
    if len(tests.libraries) < 2:
        return
    streams = tests.libraries[1]
    place = Place(tests)
    order = ["evidence.json", *(fold_path(it, 0) for it in partitions_of(GOOD))]
    wanted, line = folds_of(GOOD)
    for step in STEPS:
        said = tests.run("check", place.folder, LD_PRELOAD=streams, FILE_STEP=str(step))
        tests.same(f"folds read by {step} bytes", said, (*YES[:2], note_of_folds(place.folder)))
        out = tests.new("folds")
        said = tests.run(*fold_words(GOOD, out), LD_PRELOAD=streams, FILE_STEP=str(step))
        tests.same(f"logs folded by {step} bytes", (said, files_in(out)), ((0, line, ""), wanted))
    failing(tests, place.folder, order, lambda: ["check", place.folder], (*YES[:2], note_of_folds(place.folder)), streams)
    logs = ["evidence.json", *(log_path(it, 0) for it in partitions_of(GOOD))]
    failing(tests, GOOD, logs, lambda: fold_words(GOOD, tests.new("folds")), (0, line, ""), streams, wanted)


def failing(tests, folder, order, words, good, streams, wanted=None):
    sizes = [os.path.getsize(os.path.join(folder, it)) for it in order]
    for breaks in sorted({0, 1, *(size + by for size in sizes for by in (-1, 0, 1))}):
        command = words()
        status, out, err = tests.run(*command, LD_PRELOAD=streams, FILE_BREAKS=str(breaks))
        first = next((path for path, size in zip(order, sizes) if size > breaks), None)
        said = good if first is None else (2, "", f"eoscheck: cannot read {os.path.join(folder, first)}")
        found = (status, out, err if first is None else err.split("\n")[0])
        tests.same(f"{command[0]} with files that fail behind {breaks} bytes", found, said)
        if wanted is not None:
            whole(tests, f"folds where files fail behind {breaks} bytes", os.path.join(tests.room, "folds"), wanted)


def whole(tests, name, out, wanted):
    """Each file there is a whole fold, under its own name."""
    found = files_in(out)
    tests.same(f"{name}, all whole", [path for path, data in found.items() if wanted.get(path) != data], [])
    return found


# ---- what can't be written


def at_most(size):
    """No file may get longer than so many bytes."""
    def before():
        signal.signal(signal.SIGXFSZ, signal.SIG_IGN)
        resource.setrlimit(resource.RLIMIT_FSIZE, (size, size))
    return before


def as_nobody():
    os.setgid(NOBODY)
    os.setuid(NOBODY)


def unwritten(tests, what, words, out, wanted, paths, before=None):
    """A run that can't write one of these files or folders: it says in a line which, and leaves whole folds alone."""
    status, said, err = tests.run(*words, before=before)
    # a fold is written beside its place, and why it isn't may be said behind it
    found = re.fullmatch(r"eoscheck: cannot write (.*?)(?:[.]new)?(?:: [a-z ]+)?\n", err)
    tests.same(f"{what}: {err}", (status, said, found is not None and found[1] in paths), (2, "", True))
    return whole(tests, what, out, wanted)


def refused_writes(tests):
    wanted, _ = folds_of(GOOD)
    sizes = {path: len(data) for path, data in wanted.items()}
    for size in sorted({0, 1, *(it + by for it in sizes.values() for by in (-1, 0))} - {max(sizes.values())}):
        out = tests.new("folds")
        paths = [os.path.join(out, path) for path in wanted if sizes[path] > size]
        unwritten(tests, f"room for {size} bytes a file", fold_words(GOOD, out), out, wanted, paths, at_most(size))
    out = tests.new("folds")
    write(out, b"mine")
    paths = [out, *(os.path.join(out, it) for it in partitions_of(GOOD))]
    unwritten(tests, "a file in the place of OUT", fold_words(GOOD, out), out, wanted, paths)
    tests.same("a file in the place of OUT, it stays", read(out), b"mine")
    os.remove(out)
    out = tests.new("folds")
    write(os.path.join(out, "in-0"), b"mine")
    unwritten(tests, "a file in a partition's place", fold_words(GOOD, out), out, {**wanted, "in-0": b"mine"}, [os.path.join(out, "in-0")])
    tests.same("a file in a partition's place, it stays", read(os.path.join(out, "in-0")), b"mine")
    for partition in partitions_of(GOOD):
        for place in (lambda path: write(path, b"mine")), os.makedirs, (lambda path: os.symlink("nowhere", path)):
            there(tests, partition, place)
    out = tests.new("folds")
    tests.run(*fold_words(GOOD, out))
    times = {path: os.stat(os.path.join(out, path)).st_mtime_ns for path in wanted}
    unwritten(tests, "folded again", fold_words(GOOD, out), out, wanted, [os.path.join(out, next(iter(wanted)))])
    tests.same("folded again, all stay", {path: os.stat(os.path.join(out, path)).st_mtime_ns for path in files_in(out)}, times)
    at_once(tests, wanted)
    if os.geteuid() == 0:
        out = tests.new("folds")
        os.mkdir(out)
        paths = [out, *(os.path.join(out, it) for it in partitions_of(GOOD)), *(os.path.join(out, it) for it in wanted)]
        found = unwritten(tests, "a folder without permission", fold_words(copy_for_all(tests), out), out, wanted, paths, as_nobody)
        tests.same("a folder without permission, nothing", found, {})
    with open("/dev/full", "wb") as full:
        out = tests.new("folds")
        done = subprocess.run([tests.program, *fold_words(GOOD, out)], stdout=full, stderr=subprocess.PIPE, timeout=60)
        tests.same("a full device", (done.returncode, done.stderr), (2, b"eoscheck: cannot write -\n"))
        whole(tests, "a full device", out, wanted)


def at_once(tests, wanted):
    """Eight runs write one partition's folds to one place: one of them wins, and each of the others is refused."""
    for _ in range(3):
        out = tests.new("folds")
        words = [tests.program, *fold_words(GOOD, out, ["out-0"])]
        runs = [subprocess.Popen(words, stdout=subprocess.PIPE, stderr=subprocess.PIPE) for _ in range(8)]
        said = sorted((run.wait(60), run.stdout.read(), run.stderr.read()[:23]) for run in runs)
        for run in runs:
            run.stdout.close()
            run.stderr.close()
        won = 0, b"folded segments=1 bytes=307\n", b""
        tests.same("eight at once", said, [won, *[(2, b"", b"eoscheck: cannot write ")] * 7])
        tests.same("eight at once, the fold", files_in(out), {path: wanted[path] for path in wanted if path.startswith("out-0/")})


def copy_for_all(tests):
    folder = tests.new("readable")
    shutil.copytree(GOOD, folder)
    subprocess.run(["chmod", "-R", "a+rX", folder], check=True)
    return folder


def there(tests, partition, place):
    """Something stands in the place of one fold: it stays, and no fold is written at all."""
    out = tests.new("folds")
    path = os.path.join(out, fold_path(partition, 0))
    os.makedirs(os.path.dirname(path))
    place(path)
    was = os.lstat(path)
    status, said, err = tests.run(*fold_words(GOOD, out))
    tests.same(f"something at {path}", (status, said, err), (2, "", f"eoscheck: cannot write {path}: it is there already\n"))
    now = os.lstat(path)
    tests.same(f"something at {path}, it stays", (now.st_ino, now.st_mode, now.st_size), (was.st_ino, was.st_mode, was.st_size))
    tests.same(f"something at {path}, nothing beside it", [it for it in files_in(out) if os.path.join(out, it) != path], [])


# ---- memory


def counted_refusals(tests, words, after):
    """Each allocation of a run is refused in turn: its answer, or that memory ran out. What it wrote is looked at by `after`."""
    refuse, count = tests.libraries[0], os.path.join(tests.room, "count")
    good = tests.run(*words(), LD_PRELOAD=refuse, REFUSE_COUNT=count)
    after("no refused allocation", good)
    told, total = 0, int(read(count))
    for at in range(1, total + 1):
        given = words()
        said = tests.run(*given, LD_PRELOAD=refuse, REFUSE_AT=str(at))
        out_of_memory = 3, "", "eoscheck: out of memory\n"
        tests.same(f"{given[0]}, allocation {at} refused", said in (good, out_of_memory), True)
        told += said == out_of_memory
        after(f"allocation {at} refused", said)
    tests.same("refused allocations are told", told > 50, True)


def refused_memory(tests):
    if not tests.libraries:
        return
    wanted, line = folds_of(GOOD)
    out = os.path.join(tests.room, "folds")

    def after(name, said):
        found = whole(tests, f"fold, {name}", out, wanted)
        if said[0] == 0:
            tests.same(f"fold, {name}, its folds", (said, found), ((0, line, ""), wanted))

    counted_refusals(tests, lambda: fold_words(GOOD, tests.new("folds")), after)
    place = Place(tests)
    for workers in "14":
        counted_refusals(tests, lambda: ["check", "--workers", workers, place.folder], lambda name, said: None)
    # one that is refused, with its second line or without
    write(os.path.join(place.folder, fold_path("in-0", 0)), b"EOSFOLD\1")
    counted_refusals(tests, lambda: ["check", "--workers", "1", place.folder], lambda name, said: None)
    # one where the log is read again
    faulty = "tests/evidence/row-ZombieEpoch-1"
    again = with_folds(faulty, folds_of(faulty)[0], tests.new("again"))
    counted_refusals(tests, lambda: ["check", "--all", "--workers", "1", again], lambda name, said: None)


# ---- words


NO_NAME, NO_END = "not named TOPIC-N, as the folder of a partition", "the manifest has no end of this partition"
UNFIT = {
    "in-9": NO_END, "out-2": NO_END, "other-0": NO_END, "in": NO_NAME, "in-00": NO_NAME, "in-": NO_NAME, "-0": NO_NAME,
    "in-2147483648": NO_NAME, "in x-0": NO_NAME,
}


def words(tests):
    manifest, out = os.path.abspath(os.path.join(GOOD, "evidence.json")), tests.new("folds")
    folder = os.path.abspath(os.path.join(GOOD, "in-0"))
    for bad in ([], ["--manifest", manifest], [folder], ["--manifest", manifest, ""], ["--manifest", "", folder], ["--out", out, folder]):
        status, said, err = tests.run("fold", *bad, cwd=tests.room)
        tests.same(f"bad words: fold {bad}: {err}", (status, said, err != "", "cannot" in err), (2, "", True, False))
    tests.same("bad words make no folder", os.path.exists(os.path.join(tests.room, "folds")), False)
    absent = os.path.join(tests.room, "absent")
    said = tests.run("fold", "--manifest", absent, "--out", out, folder)
    tests.same("an absent manifest", said, (2, "", f"eoscheck: cannot read {absent}\n  no such file\n"))
    said = tests.run("fold", "--manifest", manifest, "--out", out, f"{absent}/in-0")
    tests.same("an absent folder", said, (2, "", f"eoscheck: cannot read {absent}/in-0\n  no such file\n"))
    # each beside a folder before it that could be folded
    for name, why in UNFIT.items():
        path = os.path.join(tests.room, "logs", name)
        if not os.path.isdir(path):
            shutil.copytree(folder, path)
        for paths in [path], [os.path.abspath(os.path.join(GOOD, "out-0")), path]:
            said = tests.run("fold", "--manifest", manifest, "--out", out, *paths)
            tests.same(f"a folder {name}", said, (2, "", f"eoscheck: {path}: {why}\n"))
    same = os.path.join(tests.room, "logs", "in-0")
    shutil.copytree(folder, same)
    said = tests.run("fold", "--manifest", manifest, "--out", out, folder, same)
    tests.same("a partition twice", said, (2, "", f"eoscheck: {same}: another folder of this partition is given\n"))
    tests.same("nothing is written", files_in(out), {})
    # into `folds` where nothing else is said, by folders of other places, with other ends in the manifest
    manifest = os.path.join(tests.room, "other.json")
    write(manifest, read(os.path.join(GOOD, "evidence.json")).replace(b'"in-0":2', b'"in-0":77,"in-5":1'))
    said = tests.run("fold", "--manifest", "other.json", "logs/in-0/", cwd=tests.room)
    tests.same("into folds", said, (0, "folded segments=1 bytes=77\n", ""))
    wanted = {fold_path("in-0", 0): fold_bytes(GOOD, "in-0", 0)}
    tests.same("into folds, the fold", files_in(os.path.join(tests.room, "folds")), wanted)
    said = tests.run("fold", "--help")
    tests.same("help", (said[0], said[1] != "", said[2]), (0, True, ""))
