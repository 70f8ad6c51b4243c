#!/usr/bin/env -S python3 -B
"""The cause that a story names, by what its rows show: a folder for each case of the catalogue, and for the near misses.

    tests/causes.py PROGRAM

Each folder is a good one, whose data a client library wrote, with one mistake, or a story. Of its first fault of a kind `explain` has
to say the words that lead, from which row it knows them, and to do next; where the case doesn't quite hold, what the kind means. The
words were written by hand, the rows looked up in the logs. The last line of a story is a command, which a shell runs here. The last
line of this is 'N passed, N failed'.
"""
import os
import re
import shlex
import struct
import subprocess
import sys
import tempfile

from random_evidence import Folder
from what_you_see import (COMMITS, GOOD, NUMBERS, STATES, TOPIC, add_commit, add_plain, by_the_consumer, front_gone, last_of_all, last_offsets, manifest,
                          no_marker, numbers_of, only_one_without, open_at_end, open_output, outside, reset_and_again, settle, unlist, with_headers)

HERE = os.path.dirname(os.path.abspath(__file__))


def both(*changes):
    def made(folder):
        for change in changes:
            change(folder)
    return made


def renamed(folder):
    """The first segments are gone, and what is left has their name."""
    front_gone("in-0")(folder)
    folder.logs["in-0"][0].name = 0


def middle_gone(folder):
    """A batch in the middle is gone; all others stay where they are."""
    del folder.logs["in-0"][3]


def later_marker(folder):
    """The first end marker of out-1 is that of a later transaction of its producer."""
    log = folder.logs["out-1"]
    i = next(i for i, piece in enumerate(log) if piece.batch.word == "commit")
    log[i] = log[i].changed(epoch=log[i].batch.epoch + 4)


def marker_gone_at_end(folder):
    """The last marker of out-0 is lost, and the log goes on no further."""
    open_output(folder)


def not_complete(folder):
    """The same, collected before the coordinator knew that all markers were written."""
    open_output(folder)
    open_at_end(folder)


def two_in_one(folder):
    """An output stands twice in its transaction."""
    log = folder.logs["out-0"]
    i = next(i for i, piece in enumerate(log) if piece.batch.word == "txn")
    again = log[i].changed()
    again.name = None
    log.insert(i + 1, again)
    settle(folder, "out-0")


def no_folder(folder):
    """A partition that has an end has no folder."""
    del folder.logs["in-1"]


def other_names(folder):
    """The folder of a partition has its segment under another name."""
    def after(path):
        os.rename(os.path.join(path, "in-1", f"{0:020}.log"), os.path.join(path, "in-1", "0.log"))
    return after


def commits_gone(epoch):
    """The commit of the transaction of this epoch is lost; its end marker stands."""
    def made(folder):
        folder.logs[COMMITS] = [p for p in folder.logs[COMMITS] if (p.batch.word, p.batch.epoch) != ("txn", epoch)]
        settle(folder, COMMITS)
    return made


def never_sent(folder):
    """The last transaction, which has epoch 18, sent no offsets at all: nothing of it is in the offsets log, which it doesn't list."""
    folder.logs[COMMITS] = [p for p in folder.logs[COMMITS] if p.batch.epoch not in (18, 19)]
    settle(folder, COMMITS)
    unlist(folder, (b"__consumer_offsets", 13), epochs=(18, 19))


def turned(*keys):
    """Outputs whose headers under these keys are little-endian."""
    return with_headers(lambda h: {key: struct.pack("<" + NUMBERS[key], numbers_of(h)[key]) for key in keys})


def moved_up(headers):
    """Numbers by one byte to the left, which no order of their bytes gives."""
    return {b"eo.offset": struct.pack(">q", numbers_of(headers)[b"eo.offset"] << 8)}


# Of each case: its sign's words in the catalogue, the folder's change or the name of a story, the kind, what it has to mean, and the row.
CASES = [
    ("A segment has the name that is due", renamed, "1.2", "The file was renamed", "in-0 segment 0"),
    ("The first segment's name is above 0", front_gone("in-0"), "1.2", "taken by retention", "in-0 segment 6"),
    ("The partition has no segment", lambda f: f.logs.update({"in-1": []}), "1.10", "Its folder isn't there", "in-1"),
    ("The partition has no segment", no_folder, "1.10", "Its folder isn't there", "in-1"),
    ("The partition has no segment", other_names, "1.10", "or holds no file that is named as a segment is", "in-1"),
    ("The log goes on behind", lambda f: f.manifest["ends"].update({"in-1": 19}), "1.10", "The end is of an earlier time", "in-1"),
    ("The log ends before", lambda f: f.logs["in-1"].pop(), "1.10", "The copy is cut", "in-1"),
    ("An end marker's epoch is above", later_marker, "1.5", "of another, later transaction", r"out-1:\d+"),
    ("The transaction is complete, and a partition", no_marker, "1.6", "never had the marker", r"out-1"),
    ("The transaction is complete, and a partition", marker_gone_at_end, "1.11", "It won't end by waiting", r"out-0"),
    ("The record is of no producer id", lambda f: add_plain(f, "out-0", [(None, b"x", [])]), "4.1", "A tool or a hand wrote it", "out-0:58"),
    ("The output is of no transaction", both(outside, lambda f: add_commit(f, 0, 2)), "5.7", "outside any transaction", "out-1:0"),
    ("A later commit of the group", lambda f: add_commit(f, 0, 7), "5.7", "were moved back", COMMITS + ":24"),
    ("A later commit of the group", reset_and_again, "5.10", "from there on inputs were processed again", COMMITS + ":24"),
    ("The output's own transaction committed exactly", last_of_all, "5.7", "in place of the next one", COMMITS + r":\d+"),
    ("The output's own transaction committed exactly", last_offsets, "5.12", "in place of the next one", COMMITS + r":\d+"),
    ("Another group committed past", manifest(group="payment"), "5.7", "names another group than ran", COMMITS + r":\d+"),
    ("Another group committed past", "09-misspelled-group", "5.7", "names another group than ran", "__consumer_offsets-1:0"),
    ("Both outputs are of one producer id", "01-duplicate-output", "5.10", "One transaction wrote the output twice", "payments-1:5"),
    ("Both outputs are of one producer id", two_in_one, "5.10", "One transaction wrote the output twice", r"out-0:\d+"),
    ("A commit that goes past the input is of no", both(by_the_consumer, only_one_without), "5.11", "apart from the outputs", COMMITS + r":\d+"),
    ("A commit that goes past the input is of no", by_the_consumer, "5.12", "apart from the outputs", COMMITS + r":\d+"),
    ("The output is of no transaction", outside, "5.12", "outside any transaction", "out-1:0"),
    ("The transaction is complete, and a partition", "04-missing-marker", "1.6", "never had the marker", "payments-0"),
    ("The output's transaction lists a partition of offsets", "47-lost-commit", "5.7", "Its commit is lost", "__consumer_offsets-1"),
    ("The output's transaction lists a partition of offsets", commits_gone(18), "5.7", "Its commit is lost", COMMITS),
    ("The output's transaction lists a partition of offsets", commits_gone(0), "5.12", "Its commit is lost", COMMITS),
    ("A claim names the output with bytes turned round", turned(*NUMBERS), "5.11", "have another layout", r"out-\d:\d+"),
    ("A claim names the output with bytes turned round", turned(b"eo.offset"), "5.11", "have another layout", r"out-\d:\d+"),
    ("A claim names the output with bytes turned round", turned(b"eo.partition"), "5.11", "have another layout", r"out-\d:\d+"),
    ("A claim names the output with bytes turned round", with_headers(lambda h: {TOPIC: h[TOPIC] + b"\0"}), "5.11", "have another layout", r"out-\d:\d+"),
    ("A claim names the output with bytes turned round", with_headers(lambda h: {TOPIC: b'"' + h[TOPIC] + b'"'}), "5.11", "have another layout",
     r"out-\d:\d+"),
]
# Where no case holds, what the kind means.
NEARLY = [
    (middle_gone, "1.2", "Offsets are missing or stand twice"),
    (not_complete, "1.11", "Whether these records count can't be known"),
    (with_headers(lambda h: {b"eo.offset": h[b"eo.offset"][4:]}), "4.1", "can't be matched with an input"),
    ("34-dup-across-transactions", "5.10", "each time in a committed transaction"),
    (only_one_without, "5.11", "The input was passed and its outputs aren't visible"),
    (never_sent, "5.7", "The output is visible and its input would be processed again"),
    (with_headers(moved_up), "5.11", "The input was passed and its outputs aren't visible"),
    (with_headers(lambda h: {TOPIC: h[TOPIC] + b"\0\0"}), "5.11", "The input was passed and its outputs aren't visible"),
    (with_headers(lambda h: {TOPIC: b'"' + h[TOPIC]}), "5.11", "The input was passed and its outputs aren't visible"),
]


def run(program, *words):
    done = subprocess.run([program, *words], capture_output=True, text=True, timeout=100, check=False)
    return done.stdout


def story_of(program, folder, code):
    """The story of the first fault of this kind; no lines where there is none."""
    lines = run(program, "check", "--all", "--quiet", folder).splitlines()
    numbers = [i + 1 for i, line in enumerate(line for line in lines if line.startswith("no ")) if line.split()[1] == code]
    return run(program, "explain", "--fault", str(numbers[0]), folder).splitlines() if numbers else []


def said(lines, word):
    """What stands behind a word, up to the next one."""
    text = "\n".join(lines)
    found = re.search(rf"^{word}: (.*?)(?=^(?:Shown by|Next|Faults): )", text, re.M | re.S)
    return " ".join(found[1].split()) if found else None


def written(scratch, change):
    if isinstance(change, str):
        return os.path.join(HERE, "stories", change)
    folder = Folder(GOOD)
    after = change(folder)
    path = os.path.join(scratch, "folder")
    folder.write(path)
    if callable(after):
        after(path)
    return path


def commanded(program, lines, folder):
    """What the command of a story's last line prints, run by a shell as it stands; None where the last line is none, or not of this folder."""
    found = re.fullmatch(r"Run: (?:(ls -l )|eoscheck (dump (?:--decode --from (\d+) --to (\d+) )?))(.*)", lines[-1]) if lines else None
    if not found or not shlex.split(found[5])[-1].startswith(folder + "/") or (found[3] and int(found[4]) != int(found[3]) + 1):
        return None
    words = f"{found[1]}{found[5]}" if found[1] else f'"$0" {found[2]}{found[5]}'
    done = subprocess.run(["sh", "-c", words, program], capture_output=True, text=True, timeout=100, check=False)
    if found[1]:
        return listing_of(shlex.split(found[5])[-1], done)
    wanted = f"record offset={found[3]} " if found[3] else "record offset="
    return done.returncode, wanted in done.stdout, done.stderr


def listing_of(path, done):
    """What a listing of a partition's folder prints, which needs not be there."""
    if not os.path.isdir(path):
        return (0, True, "") if done.returncode and path in done.stderr else (done.returncode, False, done.stderr)
    return done.returncode, all(name in done.stdout for name in os.listdir(path)), done.stderr


def main():
    program = os.path.abspath(sys.argv[1])
    passed, wrong = 0, []

    def expect(holds, why):
        nonlocal passed
        passed += bool(holds)
        if not holds:
            wrong.append(why)

    for sign, change, code, means, row in CASES:
        with tempfile.TemporaryDirectory() as scratch:
            folder = written(scratch, change)
            lines = story_of(program, folder, code)
            ran = commanded(program, lines, folder)
        what = f"{code} {sign}"
        expect(means in (said(lines, "Means") or ""), f"{what}: means {said(lines, 'Means')}")
        shown = said(lines, "Shown by")
        expect(shown and re.fullmatch(row, shown), f"{what}: shown by {shown}")
        expect(shown and any(shown.split(" ")[0] in line for line in lines[1:] if line.startswith(" ")), f"{what}: its row isn't shown")
        expect(said(lines, "Next"), f"{what}: nothing to do next")
        expect(len(lines) <= 40, f"{what}: {len(lines)} lines")
        expect(ran == (0, True, ""), f"{what}: its command: {ran}, {lines[-1:]}")
        page = run(program, "explain", "--code", code)
        listed = [line for line in page.splitlines() if line.startswith("- " + sign)]
        expect(listed, f"{what}: its page has no such case")
    for change, code, means in NEARLY:
        with tempfile.TemporaryDirectory() as scratch:
            folder = written(scratch, change)
            lines = story_of(program, folder, code)
            ran = commanded(program, lines, folder)
        expect(means in (said(lines, "Means") or ""), f"{code} nearly: means {said(lines, 'Means')}")
        expect(ran == (0, True, ""), f"{code} nearly: its command: {ran}, {lines[-1:]}")
        expect(said(lines, "Shown by") is None, f"{code} nearly: shown by {said(lines, 'Shown by')}")
    for why in wrong:
        print(f"FAILED: {why}")
    print(f"{passed} passed, {len(wrong)} failed")
    return bool(wrong)


if __name__ == "__main__":
    sys.exit(main())
