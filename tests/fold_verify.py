"""`fold --verify`: what it says of folds that are their logs', older than these or of something else.

For tests/folds.py. The folds are those of the second encoder (tests/fold_files.py), and of the words that are printed each is put down
here.
"""
import json
import os
import random
import shutil

import fold_files
from fold_folders import (
    files_in, fold_path, folds_of, log_path, manifest_of, name_of, partitions_of, read, segments_of, with_folds, write,
)
from fold_refusals import counted_refusals

FOLDERS = ["tests/evidence/row-yes-2", "tests/real-evidence", "tests/simulated", "tests/as-brokers-write"]
GOOD = FOLDERS[0]
NONE = "no fold in it has its log in the folders that are given"


def counts(right=0, stale=0, forged=0, unmatched=0):
    return f"compared right={right} stale={stale} forged={forged} unmatched={unmatched}\n"


def verify(tests, folder, *logs, **run):
    return tests.run("fold", "--verify", folder, *logs, **run)


def part_fold(folder, partition, base, data):
    """The file of the fold of these bytes, as a segment of a folder, by its manifest."""
    _, apps = manifest_of(folder)
    topic, number = name_of(partition)
    return fold_files.file_of(fold_files.fold_of(fold_files.roles_of(apps, topic), fold_files.sources_of(apps), (topic, number), base, data))


class Place:
    """A folder of folds beside its logs, in which one file is changed at a time."""

    def __init__(self, tests, folder):
        self.tests, self.logs = tests, folder
        self.folds, _ = folds_of(folder)
        self.folder = with_folds(folder, self.folds, tests.new("verified"))

    def says(self, what, changed, word):
        """With these files in the place of its own each is told by this word."""
        for path, data in changed.items():
            write(os.path.join(self.folder, path), data)
        paths = sorted(changed, key=lambda path: (name_of(os.path.dirname(path)), path))
        lines = "".join(f"{word} {os.path.join(self.folder, path)}\n" for path in paths)
        last = counts(len(self.folds) - len(changed), **{word: len(changed)})
        self.tests.same(what, verify(self.tests, self.folder, self.logs), (1, lines + last, ""))
        for path in changed:
            write(os.path.join(self.folder, path), self.folds[path])


def folders_of(top):
    if os.path.exists(os.path.join(top, "evidence.json")):
        return [top]
    return sorted(os.path.join(top, it) for it in os.listdir(top) if os.path.exists(os.path.join(top, it, "evidence.json")))


def right(tests):
    """The folds of a folder are right beside its logs, and stand as they stood."""
    for top in FOLDERS:
        for folder in folders_of(top):
            place = Place(tests, folder)
            tests.same(f"{folder}, its folds", verify(tests, place.folder, folder), (0, counts(len(place.folds)), ""))
            found = {path: data for path, data in files_in(place.folder).items() if path.endswith(".fold")}
            tests.same(f"{folder}, nothing changed", found, place.folds)


def stale(tests):
    """Each fold of each front of each log."""
    place, tried = Place(tests, GOOD), 0
    for partition in partitions_of(GOOD):
        for base in segments_of(GOOD, partition):
            data = read(os.path.join(GOOD, log_path(partition, base)))
            for length in range(len(data)):
                path = fold_path(partition, base)
                place.says(f"{path}, of {length} bytes", {path: part_fold(GOOD, partition, base, data[:length])}, "stale")
                tried += 1
    tests.same("fronts are tried", tried > 1000, True)
    place.says("all of no bytes", {path: part_fold(GOOD, os.path.dirname(path), 0, b"") for path in place.folds}, "stale")


def forged(tests):
    """A fold with another byte, also where its checksum is made right; of more bytes than the log has; of another segment, by other
    roles or other topics; and files that are no fold."""
    place, rng = Place(tests, GOOD), random.Random("forged")
    for path, data in place.folds.items():
        for at in range(len(data)):
            changed = data[:at] + bytes([data[at] ^ 1 << rng.randrange(8)]) + data[at + 1 :]
            place.says(f"{path}, a bit of byte {at}", {path: changed}, "forged")
        log = read(os.path.join(GOOD, log_path(os.path.dirname(path), 0)))
        fronts = {part_fold(GOOD, os.path.dirname(path), 0, log[:length]) for length in range(len(log))}
        for at in range(len(data) - 4):
            sealed = fold_files.sealed(data[:at] + bytes([data[at] ^ 1 << rng.randrange(8)]) + data[at + 1 : -4])
            place.says(f"{path}, byte {at}, sealed", {path: sealed}, "stale" if sealed in fronts else "forged")
        for what, other in [("nothing", b""), ("cut", data[:-1]), ("a byte more", data + b"\0")]:
            place.says(f"{path}, {what}", {path: other}, "forged")
    out, log = fold_path("out-0", 0), read(os.path.join(GOOD, log_path("out-0", 0)))
    place.says("of more bytes", {out: part_fold(GOOD, "out-0", 0, log + b"\0")}, "forged")
    place.says("of another partition", {out: part_fold(GOOD, "out-1", 0, log)}, "forged")
    place.says("of another base", {out: part_fold(GOOD, "out-0", 1, log)}, "forged")
    _, apps = manifest_of(GOOD)
    for roles, sources in [(0, [b"in"]), (2, [b"in"]), (1, []), (1, [b"in", b"other"])]:
        fold = fold_files.fold_of(roles, sources, (b"out", 0), 0, log)
        place.says(f"by roles {roles} and topics {sources}", {out: fold_files.file_of(fold)}, "forged")
    tests.same("the roles that are right", (fold_files.roles_of(apps, b"out"), list(fold_files.sources_of(apps))), (1, [b"in"]))


def mixed(tests):
    """Logs of some partitions, in several folders, of which the first that has it counts; logs beside folds; and no log at all."""
    place = Place(tests, GOOD)
    some, none = tests.new("some"), tests.new("none")
    shutil.copytree(os.path.join(GOOD, "out-0"), os.path.join(some, "out-0"))
    os.makedirs(os.path.join(none, "out-0"))
    every = len(place.folds)
    tests.same("a sample", verify(tests, place.folder, some), (0, counts(1, unmatched=every - 1), ""))
    tests.same("a folder without logs before it", verify(tests, place.folder, none, some), (0, counts(1, unmatched=every - 1), ""))
    tests.same("no log", verify(tests, place.folder, none), (2, counts(unmatched=every), f"eoscheck: {place.folder}: {NONE}\n"))
    log = os.path.join(some, log_path("out-0", 0))
    write(log, read(log) + b"\0")
    path = os.path.join(place.folder, fold_path("out-0", 0))
    tests.same("a log that was written on", verify(tests, place.folder, some, GOOD), (1, f"stale {path}\n" + counts(every - 1, stale=1), ""))
    tests.same("the right log first", verify(tests, place.folder, GOOD, some), (0, counts(every), ""))
    beside = with_folds(GOOD, place.folds, tests.new("beside"), lambda it: it.startswith("out-0/"))
    tests.same("logs among the folds", verify(tests, beside, GOOD), (0, counts(1), ""))
    only = with_folds(GOOD, place.folds, tests.new("beside"), lambda it: False)
    tests.same("logs alone", verify(tests, only, GOOD), (2, counts(), f"eoscheck: {only}: {NONE}\n"))


def unread(tests):
    """What can't be read, in the order in which it is told."""
    place = Place(tests, GOOD)
    absent, some = os.path.join(tests.room, "absent"), tests.new("some")
    os.makedirs(os.path.join(some, log_path("out-0", 0)))
    def said(path, why):
        return 2, "", f"eoscheck: cannot read {path}\n  {why}\n"

    tests.same("absent logs", verify(tests, place.folder, GOOD, absent), said(absent, "no such file"))
    tests.same("absent folds", verify(tests, absent, GOOD), said(f"{absent}/evidence.json", "no such file"))
    tests.same("a folder in a log's place", verify(tests, place.folder, some), said(os.path.join(some, log_path("out-0", 0)), "a folder"))
    manifest = os.path.join(place.folder, "evidence.json")
    write(manifest, json.dumps({"version": 3}).encode())
    status, out, err = verify(tests, place.folder, GOOD)
    tests.same("a manifest that is none", (status, out, err.split("\n")[0].startswith("eoscheck: evidence.json: ")), (2, "", True))


def refused(tests):
    """Each allocation refused in turn."""
    if not tests.libraries:
        return
    place = Place(tests, GOOD)
    path = fold_path("out-0", 0)
    log = read(os.path.join(GOOD, log_path("out-0", 0)))
    for data in place.folds[path], part_fold(GOOD, "out-0", 0, log[:-1]), b"EOSFOLD":
        write(os.path.join(place.folder, path), data)
        counted_refusals(tests, lambda: ["fold", "--verify", place.folder, GOOD], lambda name, said: None)


def verified(tests):
    for part in right, stale, forged, mixed, unread, refused:
        part(tests)
