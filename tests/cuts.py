#!/usr/bin/env -S python3 -B
"""Compares `check` on each sample segment whole and cut.

    tests/cuts.py PROGRAM SEGMENTS

A segment counts as the whole log of a partition. It is cut at each border of its batches by itself, and at all of them at
once; a batch that can't be read begins a piece too. The answer has to be that of the whole segment: only the segment and
the byte of a batch that can't be read follow the cut, so the byte is counted from the log's begin. It prints the
differences and what was seen, and ends in 1 where there is a difference.
"""
import glob
import json
import os
import re
import struct
import subprocess
import sys
import tempfile

import mutants
import plain_logs


def borders(data):
    """The byte and the base offset of each batch but the first, up to the first that can't be read, and the end offset."""
    found, at, offset = [], 0, 0
    while at < len(data):
        if at:
            found.append((at, offset))
        try:
            size = plain_logs.read_batch(data, at)[1]
        except mutants.Refused:
            break
        offset = struct.unpack_from(">q", data, at)[0] + struct.unpack_from(">i", data, at + 57)[0]
        at += size
    return found, offset


def answer(program, data, end, cuts):
    """What `check` says of the log, cut at these places, with the byte of a bad batch counted from the log's begin."""
    begins = [(0, 0), *cuts]
    with tempfile.TemporaryDirectory() as folder:
        manifest = {"version": 1, "group": "g", "sources": ["in"], "outputs": ["out"], "ends": {"in-0": end}}
        with open(os.path.join(folder, "evidence.json"), "w", encoding="utf-8") as file:
            json.dump(manifest, file)
        os.mkdir(os.path.join(folder, "in-0"))
        for (at, offset), (until, _) in zip(begins, [*cuts, (len(data), end)]):
            with open(os.path.join(folder, "in-0", f"{offset:020}.log"), "wb") as file:
                file.write(data[at:until])
        ran = subprocess.run([program, "check", "--quiet", folder], capture_output=True, text=True, timeout=60)
    byte_of = {offset: at for at, offset in begins}
    line = re.sub(
        r"segment=(\d+) byte=(\d+)", lambda found: f"byte={byte_of[int(found[1])] + int(found[2])}", ran.stdout
    )
    return line, ran.stderr, ran.returncode


def main():
    program, folder = sys.argv[1:]
    seen, differences = 0, 0
    for path in sorted(glob.glob(os.path.join(folder, "*.log"))):
        with open(path, "rb") as file:
            data = file.read()
        cuts, end = borders(data)
        whole = answer(program, data, end, [])
        for chosen in [[cut] for cut in cuts] + [cuts] * (len(cuts) > 1):
            cut = answer(program, data, end, chosen)
            seen += 1
            if cut != whole or cut[1]:
                differences += 1
                print(f"{path}, cut at {[at for at, _ in chosen]}: {cut}, and whole {whole}")
    print(f"{seen} cuts, {differences} differences")
    return 1 if differences or seen < 40 else 0


if __name__ == "__main__":
    sys.exit(main())
