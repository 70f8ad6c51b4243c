#!/usr/bin/env -S python3 -B
"""The notes of `eoscheck check`: each by a folder that deserves it, and by one that nearly does.

    tests/notes.py [PROGRAM]

Each case is a change of a good folder, whose data a client library wrote and which has no note, and the lines that it has to get,
written by hand. They have to be those of tests/notes_reference.py and, where it is given, of PROGRAM, whose line and status have
to be those of tests/reference.py and the same with --quiet, which leaves the notes out. Prints what is wrong, and as its last line
'N passed, N failed'.
"""
import os
import random
import struct
import subprocess
import sys
import tempfile

import notes_reference
import reference
from made_evidence import commit_record, text
from random_evidence import Folder, Piece
from what_you_see import COMMITS, GOOD, STATES, TOP, add_commit, add_plain, manifest, not_in_ends

NOTHING, BEHIND = "group {} committed no offset of its sources", "group {} is behind: {} of {} visible inputs are below its committed offsets"
ABSENT, GAP = "topic {} of group {} has no partition in ends", "topic {} has no partition {} in ends, but one of a greater number"
UNLISTED, PAST = "{} isn't in ends, but group {} committed an offset of it", "group {} committed offset {} of {}, past its end {}"
INTERNAL = "no partition of {} is in ends"
FALLS = "the leader epoch falls at {}:{}"
OTHER = "group {} committed offset {} of {} under leader epoch {}, but the record before it is of epoch {}"
NO_APPLICATION = "no application is named: outputs and committed offsets aren't judged"


def commit(group, name, offset):
    return lambda folder: add_plain(folder, COMMITS, [commit_record(random.Random(1), group.encode(), name, offset)])


def under(group, name, offset, epoch, version=3):
    """A commit whose value, of a version that has the field, names this leader epoch."""
    topic, number = name.rsplit("-", 1)
    key = struct.pack(">h", 1) + text(group.encode()) + text(topic.encode()) + struct.pack(">i", int(number))
    value = struct.pack(">hq", version, offset) + (struct.pack(">i", epoch) if version == 3 else b"") + text(b"") + bytes(8)
    return lambda folder: add_plain(folder, COMMITS, [(key, value, [])])


def deleted(group, name):
    topic, number = name.rsplit("-", 1)
    key = struct.pack(">h", 1) + text(group.encode()) + text(topic.encode()) + struct.pack(">i", int(number))
    return lambda folder: add_plain(folder, COMMITS, [(key, None, [])])


def inputs(name, count):
    return lambda folder: add_plain(folder, name, [(None, b"later", [])] * count)


def end(name, offset):
    return lambda folder: folder.manifest["ends"].update({name: offset})


def empty(*names):
    def made(folder):
        for name in names:
            folder.logs[name] = []
            folder.manifest["ends"][name] = 0
    return made


def two_apps(*apps):
    def made(folder):
        keys = "group", "sources", "outputs"
        folder.manifest = {"version": 2, "apps": [dict(zip(keys, app)) for app in apps], "ends": folder.manifest["ends"]}
    return made


def both(*changes):
    def made(folder):
        for change in changes:
            change(folder)
    return made


def led(name, *epochs):
    """The batches of a partition get these leader epochs, and those behind them the last of these. All have 3 in the good folder."""
    def made(folder):
        for place, piece in enumerate(folder.logs[name]):
            epoch = struct.pack(">i", epochs[min(place, len(epochs) - 1)])
            folder.logs[name][place] = Piece(piece.text[:12] + epoch + piece.text[16:], piece.name)
    return made


PAYMENTS = "payments", ["in"], ["out"]
NO_APPS = two_apps()
CASES = [
    ("a good folder", both(), []),
    # 0: no application
    ("no application", NO_APPS, [NO_APPLICATION]),
    ("no application, and what would be noted of one", both(
        commit("payments", "in-2", 5), commit("payments", "in-1", 21), empty("in-6"), inputs("in-0", 1), NO_APPS), [NO_APPLICATION]),
    ("no application and no internal topic", both(not_in_ends(COMMITS, STATES), NO_APPS), [
        NO_APPLICATION, INTERNAL.format("__consumer_offsets"), INTERNAL.format("__transaction_state")]),
    ("no application, and another end than the log's", both(end("in-0", 21), NO_APPS), [NO_APPLICATION]),
    ("an application of no topic", two_apps(("idle", [], [])), [NOTHING.format("idle")]),
    # 1: a committed partition that isn't in `ends`
    ("a commit of in-2", commit("payments", "in-2", 5), [UNLISTED.format("in-2", "payments")]),
    ("a commit of in-2 at 0", commit("payments", "in-2", 0), [UNLISTED.format("in-2", "payments")]),
    ("commits of in-10, in-2 and in-2", both(*(commit("payments", f"in-{n}", 5) for n in (10, 2, 2))), [
        UNLISTED.format("in-2", "payments"), UNLISTED.format("in-10", "payments")]),
    ("a commit of another topic", commit("payments", "out-7", 5), []),
    ("a commit of another group", commit("payment", "in-2", 5), []),
    ("a deleted offset of in-2", deleted("payments", "in-2"), []),
    ("a commit of in-2, which is in `ends`", both(empty("in-2"), commit("payments", "in-2", 0)), []),
    # 2: past the end
    ("a commit past the end", commit("payments", "in-1", 21), [PAST.format("payments", 21, "in-1", 20)]),
    ("a commit at the end", commit("payments", "in-1", 20), []),
    ("a commit past the end and one at it", both(commit("payments", "in-1", 21), commit("payments", "in-1", 20)), []),
    ("a commit of an output past its end", commit("payments", "out-1", 1000), []),
    ("two commits past the end", both(commit("payments", "in-1", 99), commit("payments", "in-0", 2**62)), [
        PAST.format("payments", 2**62, "in-0", 20), PAST.format("payments", 99, "in-1", 20)]),
    # 3: a topic without a partition
    ("an output topic that isn't there", manifest(outputs=["outt", "out"]), [ABSENT.format("outt", "payments")]),
    ("a source topic that isn't there", manifest(sources=["in", "i"]), [ABSENT.format("i", "payments")]),
    ("topics in the manifest's order", manifest(sources=["z", "in", "b"], outputs=["out", "a"]), [
        ABSENT.format(topic, "payments") for topic in ("z", "b", "a")]),
    ("no source topic", manifest(sources=[]), [NOTHING.format("payments")]),
    # 4: a gap
    ("out-1 isn't in `ends`", not_in_ends("out-1"), [GAP.format("out", 1)]),
    ("out-2 isn't in `ends`", not_in_ends("out-2"), []),
    ("in-0 isn't in `ends`", not_in_ends("in-0"), [
        UNLISTED.format("in-0", "payments"), GAP.format("in", 0)]),
    ("gaps at 2, 4 and 5", empty("in-3", "in-6"), [GAP.format("in", 2)]),
    ("a gap in another topic", empty("other-3"), []),
    # 5: nothing committed
    ("a misspelled group", manifest(group="payment"), [NOTHING.format("payment"), BEHIND.format("payment", 0, 40)]),
    ("a group that committed 0", both(manifest(group="late"), commit("late", "in-0", 0)), [BEHIND.format("late", 0, 40)]),
    ("a group that committed another topic", both(manifest(group="late"), commit("late", "out-0", 3)), [
        NOTHING.format("late"), BEHIND.format("late", 0, 40)]),
    ("a group whose offset was deleted", both(manifest(group="late"), deleted("late", "in-0")), [
        NOTHING.format("late"), BEHIND.format("late", 0, 40)]),
    ("a group of other letters", manifest(group="zahlung é"), [
        NOTHING.format("zahlung%20%c3%a9"), BEHIND.format("zahlung%20%c3%a9", 0, 40)]),
    # 6: internal topics
    ("no offsets log", not_in_ends(COMMITS), [
        NOTHING.format("payments"), INTERNAL.format("__consumer_offsets"), BEHIND.format("payments", 0, 40)]),
    ("no transaction log", not_in_ends(STATES), [INTERNAL.format("__transaction_state")]),
    ("neither", not_in_ends(COMMITS, STATES), [
        NOTHING.format("payments"), INTERNAL.format("__consumer_offsets"), INTERNAL.format("__transaction_state"),
        BEHIND.format("payments", 0, 40)]),
    # 7: behind
    ("one input more", inputs("in-0", 1), [BEHIND.format("payments", 40, 41)]),
    ("one input more, committed", both(inputs("in-0", 1), commit("payments", "in-0", 21)), []),
    ("inputs of another topic", inputs("other-0", 3), []),
    ("an offset that went back", commit("payments", "in-1", 5), [BEHIND.format("payments", 25, 40)]),
    # 8: a leader epoch that falls
    ("leader epochs that rise", both(led("in-0", -1, 0, 0, 7, 2**31 - 1), led("out-1", 9)), []),
    ("a leader epoch that falls at the second batch", led("in-0", 4, 3), [FALLS.format("in-0", 1)]),
    ("leader epochs that fall twice", led("in-0", 4, 4, 3, 9, 2, 2), [FALLS.format("in-0", 2)]),
    ("one batch of another replica", led("in-1", 3, 2, 3), [FALLS.format("in-1", 2)]),
    ("a leader epoch that isn't there any more", led("in-1", 0, 0, -1), [FALLS.format("in-1", 4)]),
    ("leader epochs that fall in two partitions", both(led("out-2", 5, 4), led("in-1", 1, 0), led("in-0", 6)), [
        FALLS.format("in-1", 2), FALLS.format("out-2", 3)]),
    ("leader epochs that fall in Kafka's own logs", both(led(STATES, 1, 1, 0), led(COMMITS, 2**31 - 1, -2**31)), [
        FALLS.format(COMMITS, 2), FALLS.format(STATES, 2)]),
    ("a leader epoch that falls where another log's end is wrong", both(led("in-1", 4, 3), end("in-0", 21)), [FALLS.format("in-1", 2)]),
    ("leader epochs of a log that isn't in `ends`", both(led("out-2", 4, 3), not_in_ends("out-2")), []),
    ("a leader epoch that falls, without applications", both(led("in-1", 4, 3), NO_APPS), [NO_APPLICATION, FALLS.format("in-1", 2)]),
    # 9: another leader epoch than the record's before it, of which all have 3 in the good folder
    ("a commit under the record's leader epoch", under("payments", "in-0", 20, 3), []),
    ("a commit under a lesser one", under("payments", "in-0", 20, 2), [OTHER.format("payments", 20, "in-0", 2, 3)]),
    ("a commit under a greater one", under("payments", "in-0", 20, 4), [OTHER.format("payments", 20, "in-0", 4, 3)]),
    ("a commit under the least and the greatest", both(under("payments", "in-0", 20, 0), under("payments", "in-1", 20, 2**31 - 1)), [
        OTHER.format("payments", 20, "in-0", 0, 3), OTHER.format("payments", 20, "in-1", 2**31 - 1, 3)]),
    ("a commit under none", under("payments", "in-0", 20, -1), []),
    ("a commit under -2", under("payments", "in-0", 20, -2), [OTHER.format("payments", 20, "in-0", -2, 3)]),
    ("a commit of a version without the field", under("payments", "in-0", 20, 2, version=2), []),
    ("a record without a leader epoch", both(led("in-0", -1), under("payments", "in-0", 20, 3)), [OTHER.format("payments", 20, "in-0", 3, -1)]),
    ("neither has one", both(led("in-0", -1), under("payments", "in-0", 20, -1)), []),
    ("the record before is the last of its epoch", both(led("in-1", 1, 1, 5), under("payments", "in-1", 4, 1)), [BEHIND.format("payments", 24, 40)]),
    ("the record before is the first of its epoch", both(led("in-1", 1, 1, 5), under("payments", "in-1", 5, 1)), [
        BEHIND.format("payments", 25, 40), OTHER.format("payments", 5, "in-1", 1, 5)]),
    ("the record before, not the one at the offset", both(led("in-1", 1, 1, 5), under("payments", "in-1", 4, 5)), [
        BEHIND.format("payments", 24, 40), OTHER.format("payments", 4, "in-1", 5, 1)]),
    ("the last commit counts", both(under("payments", "in-0", 20, 2), under("payments", "in-0", 20, 3)), []),
    ("the last commit counts, which is the other one", both(under("payments", "in-0", 20, 3), under("payments", "in-0", 20, 9)), [
        OTHER.format("payments", 20, "in-0", 9, 3)]),
    ("the last commit of each partition", both(under("payments", "in-0", 20, 2), under("payments", "in-1", 20, 3)), [
        OTHER.format("payments", 20, "in-0", 2, 3)]),
    ("no record before", under("payments", "in-1", 0, 7), [BEHIND.format("payments", 20, 40)]),
    ("a negative offset", under("payments", "in-1", -5, 7), [BEHIND.format("payments", 20, 40)]),
    ("a commit past the end, under another", under("payments", "in-1", 25, 9), [
        PAST.format("payments", 25, "in-1", 20), OTHER.format("payments", 25, "in-1", 9, 3)]),
    ("a commit of a partition without records", both(empty("in-2"), under("payments", "in-2", 0, 7)), []),
    ("a commit of a partition that isn't in `ends`", under("payments", "in-2", 5, 7), [UNLISTED.format("in-2", "payments")]),
    ("a commit of another group", under("payment", "in-0", 20, 2), []),
    ("a commit of another topic", under("payments", "out-0", 3, 2), []),
    ("commits of another group, of other letters", both(
        two_apps(PAYMENTS, ("é", ["in"], ["y"])), empty("y-0"), under("é", "in-1", 20, 1), under("é", "in-0", 20, 2), under("payments", "in-1", 20, 1)), [
        OTHER.format("payments", 20, "in-1", 1, 3), OTHER.format("%c3%a9", 20, "in-0", 2, 3), OTHER.format("%c3%a9", 20, "in-1", 1, 3)]),
    ("another leader epoch, and ones that fall", both(led("in-0", 4, 3), led(STATES, 1, 0), under("payments", "in-0", 20, 4)), [
        FALLS.format(STATES, 1), FALLS.format("in-0", 1), OTHER.format("payments", 20, "in-0", 4, 3)]),
    ("another leader epoch where a log's end is wrong", both(under("payments", "in-1", 20, 2), end("in-0", 21)), []),
    ("another leader epoch, without applications", both(under("payments", "in-1", 20, 2), NO_APPS), [NO_APPLICATION]),
    # phase 1
    ("another end than the log's", both(end("in-0", 21), commit("payments", "in-7", 5), commit("payments", "in-1", 21)), []),
    ("another end, and what the manifest shows", both(end("in-0", 21), manifest(group="late", outputs=["out", "x"]), empty("in-3")), [
        ABSENT.format("x", "late"), GAP.format("in", 2)]),
    ("another end, and no internal topic", both(end("in-0", 21), not_in_ends(COMMITS, STATES)), [
        INTERNAL.format("__consumer_offsets"), INTERNAL.format("__transaction_state")]),
    # several
    ("all kinds, by two applications", both(
        empty("in-3"), commit("payments", "in-9", 1), commit("payments", "in-1", 30), commit("b", "out-9", 1), not_in_ends(STATES),
        two_apps(PAYMENTS, ("b", ["out", "no"], ["y"]), ("a", ["in"], ["z"]))), [
        UNLISTED.format("in-9", "payments"), UNLISTED.format("out-9", "b"), PAST.format("payments", 30, "in-1", 20),
        ABSENT.format("no", "b"), ABSENT.format("y", "b"), ABSENT.format("z", "a"), GAP.format("in", 2), NOTHING.format("a"),
        INTERNAL.format("__transaction_state"), BEHIND.format("b", 0, 79), BEHIND.format("a", 0, 40)]),
]


# Folders that stand as files, and their lines, by hand.
FOLDERS = [
    ("as-brokers-write/unclean-replaced-input", [OTHER.format("g", 4, "in-0", 2, 9)]),
    ("as-brokers-write/leader-epoch-falls", [BEHIND.format("g", 4, 5), FALLS.format("in-0", 4), OTHER.format("g", 4, "in-0", 2, 3)]),
    *((f"as-brokers-write/{name}", [OTHER.format("g", 4, "in-0", 2, 3)])
      for name in ("healthy", "tv1-trial", "deleted-topic", "recreated-topic", "failed-append-then-abort")),
]


def answers(program, folder, *words):
    done = subprocess.run([program, "check", *words, folder], capture_output=True, timeout=60)
    return done.returncode, done.stdout.decode(), done.stderr.decode()


def differences(program, folder, wanted):
    if notes_reference.lines(folder) != wanted:
        yield f"the second program says {notes_reference.lines(folder)!r}"
    if program:
        line = reference.verdict(folder)
        status = 0 if line.startswith("yes") else 1
        for workers in "14":
            if answers(program, folder, "--workers", workers) != (status, line + "\n", wanted):
                yield f"the program says {answers(program, folder, '--workers', workers)}"
        if answers(program, folder, "--quiet") != (status, line + "\n", ""):
            yield f"the program says with --quiet {answers(program, folder, '--quiet')}"


def tell(name, program, path, lines):
    """Whether the folder of this path gets other lines, each difference of which is printed."""
    wanted = "".join(f"eoscheck: note: {line}\n" for line in lines)
    found = list(differences(program, path, wanted))
    for difference in found:
        print(f"{name}: {difference}, not {wanted!r}")
    return bool(found)


def main():
    program = os.path.abspath(sys.argv[1]) if len(sys.argv) > 1 else None
    good = Folder(GOOD)
    failed = sum(tell(name, program, os.path.join(TOP, "tests", name), lines) for name, lines in FOLDERS)
    with tempfile.TemporaryDirectory() as scratch:
        for place, (name, change, lines) in enumerate(CASES):
            folder, path = good.copy(), os.path.join(scratch, str(place))
            change(folder)
            folder.write(path)
            failed += tell(name, program, path, lines)
    print(f"{len(FOLDERS) + len(CASES) - failed} passed, {failed} failed")
    sys.exit(1 if failed else 0)


if __name__ == "__main__":
    main()
