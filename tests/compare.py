#!/usr/bin/env -S python3 -B
"""Compares `dump` and `chain` of segments with the plain reading of tests/mutants.py.

    tests/compare.py PROGRAM FOLDER

Takes each file of bytes that stands below FOLDER under a name in .log, each content once. Prints the differences, and as
its last line how many segments were compared, with how many differences; the status is 1 where there is one or no segment.
"""
import collections
import glob
import os
import sys

import mutants


def main():
    program, folder = sys.argv[1:]
    contents = {}
    for path in sorted(glob.glob(os.path.join(folder, "**", "*.log"), recursive=True)):
        with open(path, "rb") as file:
            contents.setdefault(file.read(), path)
    seen, wrong = collections.Counter(), 0
    for data, path in contents.items():
        wrong += mutants.differs(program, path, data, seen)
    print(f"{len(contents)} segments, {wrong} differences: {mutants.tally(seen)}")
    sys.exit(1 if wrong or not contents else 0)


if __name__ == "__main__":
    main()
