#!/usr/bin/env -S python3 -B
"""What the catalogue's pages name as causes, of the kinds that clusters give which keep their rules, and what is then answered: each is
made in a good folder, and gives its kind of fault.

    tests/cluster_causes.py [PROGRAM]

Each folder's line is that of tests/reference.py, and of PROGRAM where it is given. Each cause that its page of these kinds names has its
folder here, by words of it. The good folder's data was written by a client library, and what is added is made as Kafka's sources have it,
from memory. Prints what is wrong, and as its last line 'N passed, N failed'.
"""
import os
import random
import re
import subprocess
import sys
import tempfile

from made_evidence import state_text, text
from random_evidence import Folder, Piece, settle
from what_you_see import COMMITS, GOOD, STATES, add_commit, add_plain, change_records, commit_key, verdicts

EMPTY, ONGOING, PREPARE_COMMIT, PREPARE_ABORT, COMPLETE_COMMIT, COMPLETE_ABORT = 0, 1, 2, 3, 4, 5


def add_steps(folder, steps, name=b"trial"):
    """The states of another transactional id, each a record with its status, its epoch and the partitions that it lists."""
    key = b"\0\0" + text(name)
    add_plain(folder, STATES, [(key, state_text(random.Random(1), status, 9000, epoch, listed), []) for status, epoch, listed in steps])


def to_front(folder, name):
    """The last batch of a partition becomes its first."""
    log = folder.logs[name]
    log.insert(0, log.pop())
    folder.logs[name] = [Piece(piece.text, 0 if i == 0 else None) for i, piece in enumerate(log)]
    settle(folder, name)


def made_again_under_a_producer(folder):
    """An idempotent producer's first batch went with the old log; the producer, which lives on, writes the others into the new one."""
    folder.logs["in-0"] = [piece.changed(producer=77, epoch=0) for piece in folder.logs["in-0"]]
    settle(folder, "in-0")
    folder.logs["in-0"] = [Piece(piece.text, 0 if i == 0 else None) for i, piece in enumerate(folder.logs["in-0"][1:])]
    settle(folder, "in-0", sequences=False)


def session_expires(folder):
    """A group writes to its offsets log after the ends were read."""
    end = folder.manifest["ends"][COMMITS]
    add_commit(folder, 0, 20)
    folder.manifest["ends"][COMMITS] = end


def older_client(folder):
    """A transaction of version 1: its end keeps the epoch. Its data is in a partition that isn't here."""
    add_steps(folder, [(EMPTY, 0, []), (ONGOING, 0, ["theirs-0"]), (PREPARE_COMMIT, 0, ["theirs-0"]), (COMPLETE_COMMIT, 0, [])])


def unacknowledged_prepare(folder):
    add_steps(folder, [(EMPTY, 0, []), (ONGOING, 0, ["out-0"]), (PREPARE_COMMIT, 1, ["out-0"]), (PREPARE_ABORT, 2, ["out-0"]), (COMPLETE_ABORT, 2, [])])


def lost_state(folder):
    """A transaction's Prepare was lost."""
    add_steps(folder, [(EMPTY, 0, []), (ONGOING, 0, ["out-0"]), (COMPLETE_COMMIT, 1, [])])


def two_coordinators(folder):
    """While a transaction goes on, a coordinator that doesn't know of it hands the id to another instance."""
    add_steps(folder, [(EMPTY, 0, []), (ONGOING, 0, ["out-0"]), (EMPTY, 1, [])])


def lost_front(folder):
    """An idempotent producer's first batch was lost, and what it wrote then stands in its place."""
    made_again_under_a_producer(folder)


def cut_copy(folder):
    """The last batch isn't there, and the manifest's ends are those of the whole log."""
    folder.logs["in-0"].pop()


def no_folder(folder):
    folder.manifest["ends"]["out-9"] = 7


def forgotten(*names):
    """Partitions that weren't collected, nor asked for."""
    def made(folder):
        for name in names:
            del folder.logs[name], folder.manifest["ends"][name]
    return made


def of_another_application(folder):
    """A whole transaction of another application, on a partition of its own that isn't here."""
    add_steps(folder, [(EMPTY, 0, []), (ONGOING, 0, ["theirs-0"]), (PREPARE_COMMIT, 1, ["theirs-0"]), (COMPLETE_COMMIT, 1, [])], b"theirs")


def before_its_marker(folder):
    """Decided, and collected before the marker was written."""
    add_steps(folder, [(EMPTY, 0, []), (ONGOING, 0, ["out-0"]), (PREPARE_COMMIT, 1, ["out-0"]), (COMPLETE_COMMIT, 1, [])])


def trial_on(name):
    """A transaction of version 2 on a partition that has no marker of it."""
    return lambda folder: add_steps(folder, [(EMPTY, 0, []), (ONGOING, 0, [name]), (PREPARE_COMMIT, 1, [name]), (COMPLETE_COMMIT, 1, [])])


def newer_broker(folder):
    change_records(folder, [COMMITS], lambda _, r: [(r.key, b"\0\4" + r.value[2:], [])])


def other_bytes(folder):
    change_records(folder, [COMMITS], lambda _, r: [(r.key, r.value[:1], [])])


def deleted_before_the_run(folder):
    add_plain(folder, COMMITS, [(commit_key(b"payments"), None, [])])
    to_front(folder, COMMITS)


def deleted_at_the_end(folder):
    add_plain(folder, COMMITS, [(commit_key(b"payments"), None, [])])


# For each cause words of its page, how it is made, and the line.
CAUSES = [
    ("deleted and made again while the producer lived", made_again_under_a_producer, "no 1.3 FirstSequence in-0 offset=0 producer=77"),
    ("first records were lost with a leader", lost_front, "no 1.3 FirstSequence in-0 offset=0 producer=77"),
    ("a group wasn't empty when the ends were read", session_expires, "no 1.10 End __consumer_offsets-13 offset=25 end=24"),
    ("the copy is cut", cut_copy, "no 1.10 End in-0 offset=18 end=20"),
    ("the partition has no folder", no_folder, "no 1.10 End out-9 offset=0 end=7"),
    ("an older client used an id of this partition", older_client, "no 2.2 Step __transaction_state-5 offset=50 id=trial why=Epoch"),
    ("a PrepareCommit was written and not acknowledged", unacknowledged_prepare, "no 2.2 Step __transaction_state-5 offset=51 id=trial why=Order"),
    ("a state between is missing", lost_state, "no 2.2 Step __transaction_state-5 offset=50 id=trial why=Order"),
    ("Two coordinators wrote", two_coordinators, "no 2.2 Step __transaction_state-5 offset=50 id=trial why=Order"),
    ("Its topic was deleted, in the run or in a trial before it", trial_on("trial-0"), "no 3.6 AbsentPartition producer=9000 epoch=0 partition=trial-0"),
    ("A partition was forgotten", forgotten("out-0"), "no 3.6 AbsentPartition producer=1001 epoch=0 partition=out-0"),
    ("Another application writes under the same transaction log", of_another_application, "no 3.6 AbsentPartition producer=9000 epoch=0 partition=theirs-0"),
    ("Its topic was deleted and made again", trial_on("in-1"), "no 3.7 MissingMarker producer=9000 epoch=0 partition=in-1"),
    ("between the decision and the last marker", before_its_marker, "no 3.7 MissingMarker producer=9000 epoch=0 partition=out-0"),
    ("lost the marker", trial_on("out-1"), "no 3.7 MissingMarker producer=9000 epoch=0 partition=out-1"),
    ("a newer version of the value than 3", newer_broker, "no 4.2 BadOffset __consumer_offsets-13 offset=0 record=Version"),
    ("Bytes that were changed", other_bytes, "no 4.2 BadOffset __consumer_offsets-13 offset=0 record=Short"),
    ("The group or its topic was deleted in a trial before the run", deleted_before_the_run, "no 4.4 OffsetDeleted __consumer_offsets-13 offset=0"),
    ("offsets expired", deleted_at_the_end, "no 4.4 OffsetDeleted __consumer_offsets-13 offset=24"),
    ("A tool deleted them", deleted_at_the_end, "no 4.4 OffsetDeleted __consumer_offsets-13 offset=24"),
]
# What no folder shows, but a single segment.
OF_A_SEGMENT = "`chain` does so"
HEADING = "\nWhat makes it happen, the likeliest first\n"


def code_of(line):
    return line.split()[1]


def causes_on(program, code):
    """The causes that a page names, each as a line."""
    page = subprocess.run([program, "explain", "--code", code], stdout=subprocess.PIPE, text=True, check=True).stdout
    section = page.split(HEADING)[1].split("\n\n")[0]
    return [" ".join(cause.split()) for cause in re.split(r"(?m)^- ", section)[1:]]


def pages(program):
    """What is wrong with the pages of these kinds: a cause without a folder, a folder without its cause."""
    for code in sorted({code_of(line) for _, _, line in CAUSES}):
        words = [words for words, _, line in CAUSES if code_of(line) == code]
        named = causes_on(program, code)
        for cause in named:
            has = any(it in cause for it in words) or OF_A_SEGMENT in cause
            yield None if has else f"{code}: no folder is made of the cause '{cause}'"
        for it in words:
            yield None if any(it in cause for cause in named) else f"{code}: its page names no cause '{it}'"


def main():
    program = sys.argv[1] if len(sys.argv) > 1 else None
    passed = failed = 0
    with tempfile.TemporaryDirectory() as scratch:
        for at, (words, change, wanted) in enumerate(CAUSES):
            path = os.path.join(scratch, str(at))
            folder = Folder(GOOD)
            change(folder)
            folder.write(path)
            found = verdicts(path, program)
            for who, said in found.items():
                passed, failed = passed + (said == wanted), failed + (said != wanted)
                if said != wanted:
                    print(f"FAILED: {words}: {who} says '{said}', not '{wanted}'")
    for why in pages(program) if program else ():
        passed, failed = passed + (why is None), failed + (why is not None)
        if why:
            print(f"FAILED: {why}")
    print(f"{passed} passed, {failed} failed")
    sys.exit(1 if failed else 0)


if __name__ == "__main__":
    main()
