#!/usr/bin/env -S python3 -B
"""Folders whose files are read in small pieces, and files that fail or change while they are read.

    python3 -B tests/short_reads.py PROGRAM LIBRARY

LIBRARY is tests/streams.c. Each folder of evidence is checked with reads of 1, 7, 61 and 4,096 bytes at most: the answer, the
notes and the status are those of whole reads. Of one folder every file that is longer than so many bytes fails behind them: the
first of these is named, in the order of partitions and segments, the manifest before all. And where all faults are asked for, a
partition with a fault by itself is read once more: one whose least fault is another by then is refused.
"""
import glob
import os
import re
import subprocess
import sys

FOLDERS = ["tests/evidence", "tests/real-evidence", "tests/stories", "tests/simulated"]
STEPS = [1, 7, 61, 4096]
# Each folder is read with each step, the number of threads in turn.
WORKERS = ["1", "4", "2", "64"]
FAILING = "tests/evidence/row-yes-2"
# A folder with a fault in one partition by itself, that partition's log, and logs that it can have become.
FAULTY = "tests/evidence/row-ZombieEpoch-1"
LOG = f"{FAULTY}/out-0/00000000000000000000.log"
OTHERS = ["tests/evidence/row-MarkerKind-1/out-0/00000000000000000000.log", "tests/evidence/row-yes-2/out-0/00000000000000000000.log"]


def ran(program, words, **settings):
    done = subprocess.run([program, "check", *words], capture_output=True, timeout=120, env={**os.environ, **settings})
    return done.returncode, done.stdout, done.stderr


def folders():
    for path in FOLDERS:
        yield from sorted(os.path.dirname(it) for it in glob.glob(f"{path}/*/evidence.json"))


def in_order(folder):
    """The folder's files in the order in which a fault of reading decides."""
    def key(path):
        topic, partition = re.fullmatch(r"(.*)-(\d+)", os.path.basename(os.path.dirname(path))).groups()
        return topic.encode(), int(partition), os.path.basename(path)

    return [f"{folder}/evidence.json", *sorted(glob.glob(f"{folder}/*/*.log"), key=key)]


class Tests:
    def __init__(self, program, library):
        self.program, self.library = program, library
        self.passed = self.failed = 0

    def same(self, name, found, wanted):
        if found == wanted:
            self.passed += 1
        else:
            self.failed += 1
            print(f"FAILED: {name}: {found}, not {wanted}")

    def in_steps(self, folder):
        whole = ran(self.program, [folder])
        for step, workers in zip(STEPS, WORKERS):
            found = ran(self.program, ["--workers", workers, folder], LD_PRELOAD=self.library, FILE_STEP=str(step))
            self.same(f"{folder} by {step} bytes, {workers} workers", found, whole)

    def failing(self, folder):
        paths = in_order(folder)
        sizes = [os.path.getsize(it) for it in paths]
        whole = ran(self.program, [folder])
        for breaks in sorted({0, 1, *(size + by for size in sizes for by in (-1, 0, 1))} - {-1}):
            found = ran(self.program, [folder], LD_PRELOAD=self.library, FILE_BREAKS=str(breaks))
            first = next((path for path, size in zip(paths, sizes) if size > breaks), None)
            wanted = whole if first is None else (2, b"", f"eoscheck: cannot read {first}\n".encode())
            if first is not None:
                found = found[0], found[1], found[2][: len(wanted[2])]
            self.same(f"{folder}, files that fail behind {breaks} bytes", found, wanted)

    def changing(self):
        words = ["--all", "--workers", "1", FAULTY]
        whole = ran(self.program, words)
        self.same(f"{FAULTY} has a fault", whole[0], 1)
        self.same("the same once more", ran(self.program, words, LD_PRELOAD=self.library, FILE_AGAIN=LOG), whole)
        for other in OTHERS:
            found = ran(self.program, words, LD_PRELOAD=self.library, FILE_AGAIN=other)
            told = f"eoscheck: cannot read {LOG}\n  its partition changed while the folder was checked\n"
            self.same(f"{LOG} becomes {other}", found, (2, b"", told.encode()))


def main():
    tests = Tests(*map(os.path.realpath, sys.argv[1:]))
    for folder in folders():
        tests.in_steps(folder)
    tests.failing(FAILING)
    tests.changing()
    print(f"{tests.passed} passed, {tests.failed} failed")
    sys.exit(1 if tests.failed or not tests.passed else 0)


if __name__ == "__main__":
    main()
