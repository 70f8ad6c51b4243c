#!/usr/bin/env -S python3 -B
"""Segments that are fed chunk by chunk: wherever the bytes are cut, the answer is that of a plain reading of all of them.

    tests/chunks.py NUMBER SEED

Each segment of tests/segments, cuts of it, and NUMBER damaged and made-up ones (see tests/mutants.py) are fed in chunks of 1, 7,
61 and 4,096 bytes and whole, as to `chain_in` (the chain) and `count_in` (the batches, their data records and where they stop).
Prints what differs, and as its last line 'N passed, N failed'. tests/unproved.py asks 60.
"""
import glob
import os
import random
import re
import sys

import mutants
from chain_of_listing import answer
from unproved import Asked, tell

SEGMENTS = os.path.join(os.path.dirname(os.path.abspath(__file__)), "segments")
CALLS = "chain_in", "count_in"
# Bytes in a chunk; 0 for all at once.
SIZES = 1, 7, 61, 4096, 0
KEPT = re.compile(r"ok batches=(\d+) producers=(\d+)")
BROKEN = re.compile(r"no 1\.\d (\w+) offset=(\d+)(?: segment=(\d+) byte=(\d+) batch=(\w+)| found=(\d+)| producer=(-?\d+))")


def of_chain(text):
    """The line of `chain` as such an answer is shown."""
    kept = KEPT.fullmatch(text)
    if kept:
        return "Ok(Ok(Chain {{ batches: {}, producers: {} }}))".format(*kept.groups())
    name, offset, segment, byte, batch, found, producer = BROKEN.fullmatch(text).groups()
    if batch:
        kind = f"BadBatch {{ segment: {segment}, byte: {byte}, batch: {batch} }}"
    elif found:
        kind = f"Gap {{ found: {found} }}"
    else:
        kind = f"Pair {{ fault: {name}, producer: {producer} }}"
    return f'Ok(Err(PartitionFault {{ topic: b"", partition: 0, offset: {offset}, kind: {kind} }}))'


def of_listing(lines):
    """The number of batches, that of data records, and where the batches stop."""
    batches, records, is_data = 0, 0, False
    for line in lines[:-1]:
        if line.startswith("batch "):
            batches, is_data = batches + 1, line.split()[-1] in ("plain", "txn")
        else:
            records += is_data
    bad = re.fullmatch(r"bad byte=(\d+) (\w+)", lines[-1])
    return f"({batches}, {records}, " + (f"Some(({bad[1]}, {bad[2]})))" if bad else "None)")


def segments(folder, number, seed):
    rng = random.Random(seed)
    real = []
    for path in sorted(glob.glob(os.path.join(folder, "*.log"))):
        with open(path, "rb") as file:
            data = file.read()
        real.append(data)
        yield os.path.basename(path), data
        for cut in {rng.randrange(len(data)) for _ in range(4)} if data else ():
            yield f"{os.path.basename(path)} to byte {cut}", data[:cut]
            flipped = bytearray(data)
            flipped[cut] ^= 1 << rng.randrange(8)
            yield f"{os.path.basename(path)} with a bit of byte {cut} turned", bytes(flipped)
    batches = [batch for path in sorted(glob.glob(os.path.join(folder, "*.log"))) for batch in mutants.batches_of(path)]
    for place in range(number):
        yield f"number {place} of seed {seed}", mutants.made(rng, batches)


def all_asked(number=60, seed=7):
    asked = []
    for name, data in segments(SEGMENTS, number, seed):
        lines = mutants.read(data)
        chain, counts = of_chain(answer(lines)), of_listing(lines)
        sizes = ",".join(map(str, SIZES))
        asked.append((name, f"in_chunks {data.hex() or '-'} {sizes}", (chain, counts)))

    def judge(answers):
        failed = [] if len(answers) == len(asked) else [f"{len(answers)} answers to {len(asked)} segments in chunks"]
        for (name, _, wants), text in zip(asked, answers):
            found = text.strip().split("; ")
            if len(found) != len(CALLS) * len(SIZES):
                failed.append(f"{name}: {text[:200]}")
            for place, (want, said) in enumerate(zip(wants * len(SIZES), found)):
                if said != want:
                    size, call = SIZES[place // len(CALLS)], CALLS[place % len(CALLS)]
                    failed.append(f"{name}, {call} {size}: {said}, not {want}")
        return max(len(asked) * len(SIZES) * len(CALLS) - len(failed), 0), failed

    return [Asked("chunks", [row for _, row, _ in asked], judge)]


if __name__ == "__main__":
    sys.exit(tell(all_asked(*map(int, sys.argv[1:3]))))
