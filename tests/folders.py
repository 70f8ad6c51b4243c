#!/usr/bin/env -S python3 -B
"""Folders at their limits, and what is no segment of them: more segments than evidence may have, a file that is longer than a
segment may be, names past the greatest offset, links that lead nowhere, and names that are too long for a folder.

    python3 -B tests/folders.py PROGRAM

Each folder is a copy of tests/evidence/row-yes-2 with some files more. The last line is 'N passed, N failed'.
"""
import json
import os
import shutil
import subprocess
import sys
import tempfile

FOLDER = "tests/evidence/row-yes-2"
YES = (0, "yes transactions=1 inputs=2 outputs=3\n", "")
# Five files are there already.
MOST_SEGMENTS, THERE = 65536, 5
MOST_BYTES = 1 << 30
GREATEST = 2**63 - 1
LAST = "out-1/00000000000000000002.log"
MANY = (2, "", f"eoscheck: limit\n  there are more than 65536 segments, and folder/{LAST} is the first of those\n")
LONG = (2, "", f"eoscheck: limit\n  folder/{LAST} has more than 1073741824 bytes, as many as a segment may have\n")
# A topic of the greatest length that a topic may have, whose folders' names are longer than a file system takes.
TOPIC = 249 * "t"
# A segment far behind the end of out-0, as tests/reference.py says too.
GAP = (1, f"no 1.2 Gap out-0 offset=3 found={GREATEST}\n", "")


def write(path, text=b"", length=None):
    with open(path, "wb") as file:
        file.write(text)
        if length is not None:
            file.truncate(length)


def empty_segments(count):
    """Adds so many empty segments to the log out-0, and as the last of all a folder in a segment's place, which can't be read."""
    def change(folder):
        for base in range(1, count):
            write(f"{folder}/out-0/{base:020}.log")
        os.mkdir(f"{folder}/{LAST}")
    return change


def long_file(name):
    return lambda folder: write(f"{folder}/{name}", length=MOST_BYTES + 1)


def linked(place, to):
    """Puts a link in the place of a partition's folder."""
    def change(folder):
        os.rename(f"{folder}/{place}", f"{folder}/kept")
        os.symlink(to, f"{folder}/{place}")
    return change


def with_end(name, end):
    """Adds a partition to the manifest."""
    def change(folder):
        with open(f"{folder}/evidence.json", encoding="utf-8") as file:
            manifest = json.load(file)
        manifest["ends"][name] = end
        write(f"{folder}/evidence.json", json.dumps(manifest).encode())
    return change


def other_file(base):
    return lambda folder: write(f"{folder}/out-0/{base:020}.log", b"\0")


# What is changed, and what is said with 1 and with 4 workers.
CASES = [
    ("as many segments as may be", empty_segments(MOST_SEGMENTS - THERE), (2, "", f"eoscheck: cannot read folder/{LAST}\n  a folder\n")),
    ("a segment more", empty_segments(MOST_SEGMENTS - THERE + 1), MANY),
    ("a segment of 2^30 + 1 bytes", long_file(LAST), LONG),
    ("another file of 2^30 + 1 bytes", long_file("out-1/00000000000000000002.index"), YES),
    ("a segment at the greatest offset", other_file(GREATEST), GAP),
    ("a name past the greatest offset", other_file(GREATEST + 1), YES),
    ("a name of twenty nines", other_file(10**20 - 1), YES),
    ("a link to a partition's folder", linked("in-0", "kept"), YES),
    ("a link to nothing", linked("in-0", "nowhere"), (2, "", "eoscheck: cannot read folder/in-0\n  no such file\n")),
    ("a link to itself", linked("in-0", "in-0"), (2, "", "eoscheck: cannot read folder/in-0\n  filesystem loop or indirection limit (e.g. symlink loop)\n")),
    ("a partition without a folder", with_end("none-0", 0), YES),
    ("a name that is too long for a folder", with_end(f"{TOPIC}-2147483647", 0), YES),
    ("such a name, and records", with_end(f"{TOPIC}-2147483647", 1), (1, f"no 1.10 End {TOPIC}-2147483647 offset=0 end=1\n", "")),
]


def main():
    program = os.path.abspath(sys.argv[1])
    passed = failed = 0
    for name, change, want in CASES:
        with tempfile.TemporaryDirectory() as room:
            folder = f"{room}/folder"
            shutil.copytree(FOLDER, folder)
            subprocess.run(["chmod", "-R", "u+w", folder], check=True)
            change(folder)
            for workers in ("1", "4"):
                command = [program, "check", "--workers", workers, "folder"]
                done = subprocess.run(command, cwd=room, capture_output=True, text=True, timeout=120)
                said = done.returncode, done.stdout, done.stderr
                if said == want:
                    passed += 1
                else:
                    failed += 1
                    print(f"{name}, {workers} workers: {said}, not {want}")
    print(f"{passed} passed, {failed} failed")
    sys.exit(1 if failed else 0)


if __name__ == "__main__":
    main()
