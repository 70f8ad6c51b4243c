"""Each segment's batches, decoded, encoded and decoded again: as many as its listing has, the same batches, and the same bytes
where their numbers were the shortest. tests/unproved.py asks it.
"""
import os

from unproved import Asked

SEGMENTS = os.path.join(os.path.dirname(os.path.abspath(__file__)), "segments")
# Segments with numbers in more bytes than they need.
LONGER = {"odd-longvarints"}


def read(name, ending):
    with open(os.path.join(SEGMENTS, f"{name}.{ending}"), "rb") as file:
        return file.read()


def all_asked():
    with open(os.path.join(SEGMENTS, "cases"), encoding="utf-8") as cases:
        names = cases.read().split()
    rows = [f"round_trip {read(name, 'log').hex() or '-'}" for name in names]

    def judge(answers):
        failures = []
        for name, answer in zip(names, answers + [""] * len(names)):
            batches = sum(line.startswith(b"batch ") for line in read(name, "dump").splitlines())
            want = f"{batches} same {'batches' if name in LONGER else 'bytes'}"
            if answer != want:
                failures.append(f"round trip of {name}: {answer[:200]}, not {want}")
        return len(names) - len(failures), failures

    return [Asked("round_trips", rows, judge)]
