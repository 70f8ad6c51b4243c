#!/usr/bin/env -S python3 -B
"""The matching's quick walk says yes of all evidence that agrees, so that the shards aren't asked there, and no of what doesn't.

    tests/quick_walk.py [NUMBER [SEED]]

Each evidence is one that tests/random_evidence.py makes, good or changed: with two partitions of the transaction log, sets spelled in other
orders, ids that take over each other's producer ids. Those whose partitions or transaction log have a fault don't reach the matching.
What agrees says tests/reference.py. The last line is 'N passed, N failed'; tests/unproved.py asks it, by the call `matched` of tests/rows.
"""
import glob
import os
import random
import sys
import tempfile

import random_evidence
import reference
from mutants import LAST_OFFSET
from unproved import Asked, tell

# How many evidences are asked in one run of the program, whose answers have little room.
EACH = 100


def word_of(path, name, end):
    """A partition as a word of tests/rows."""
    segments = []
    for file in sorted(glob.glob(f"{glob.escape(path)}/{name}/{'[0-9]' * 20}.log")):
        base = int(os.path.basename(file)[:20])
        if base <= LAST_OFFSET:
            with open(file, "rb") as opened:
                segments.append(f"{base}/{opened.read().hex() or '-'}")
    return f"{name}:{end}:{','.join(segments)}"


def by_name(name):
    topic, number = name.rsplit("-", 1)
    return topic.encode(), int(number)


def row_of(folder, workers):
    """The call for a folder, with the answer that it has to get; none where the matching isn't reached."""
    with tempfile.TemporaryDirectory() as scratch:
        path = os.path.join(scratch, "evidence")
        folder.write(path)
        verdict = reference.verdict(path)
        ends = folder.manifest["ends"]
        words = [word_of(path, name, ends[name]) for name in sorted(ends, key=by_name)]
    if verdict.startswith(("no 1.", "no 2.")):
        return None
    return f"matched {workers} {' '.join(words)}", "false" if verdict.startswith("no 3.") else "true"


def rows_of(count, seed):
    folders = {}
    for path in sorted(glob.glob(f"{os.path.dirname(os.path.abspath(__file__))}/evidence/*-yes-*")):
        folders[os.path.basename(path)] = random_evidence.Folder(path)
    for place in range(count):
        rng = random.Random(f"{seed} {place}")
        _, folder, done = random_evidence.made(rng, folders, place)
        row = row_of(folder, rng.choice([1, 2, 4, 64]))
        if row:
            yield (f"evidence {place} with seed {seed}, {done}", *row)


def judged(rows, answers):
    """How many answers are right, and a text for each that isn't."""
    failures = [] if len(answers) == len(rows) else [f"quick walk: {len(answers)} answers to {len(rows)} rows"]
    for (name, _, wanted), answer in zip(rows, answers):
        if answer.strip() != wanted:
            failures.append(f"quick walk: {name}: {answer[:200]}, not {wanted}")
    return max(len(rows) - len(failures), 0), failures


def asked_of(first, rows):
    return Asked(f"quick_walk-{first}", [call for _, call, _ in rows], lambda answers: judged(rows, answers))


def all_asked(count=200, seed=1):
    rows = list(rows_of(count, seed))
    told = [wanted for _, _, wanted in rows]
    if min(told.count("true"), told.count("false")) <= count // 40:
        sys.exit(f"of {count} evidences {told.count('true')} agree and {told.count('false')} don't")
    return [asked_of(first, rows[first : first + EACH]) for first in range(0, len(rows), EACH)]


if __name__ == "__main__":
    sys.exit(tell(all_asked(*map(int, sys.argv[1:]))))
