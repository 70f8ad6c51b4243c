#!/usr/bin/env python3
"""What `eoscheck chain` has to answer for a segment, worked out from its listing.

    tests/chain_of_listing.py NAME.dump

The listing (NAME.dump) was made by other decoders of Kafka's format. This reads its lines and applies the rules of a
partition's producers, pair by pair of neighbours, as a table: it shares no code and no idea of order with the program.
"""
import re
import sys

BATCH = re.compile(
    r"batch byte=(\d+) base=(-?\d+) count=(\d+) producer=(-?\d+) epoch=(-?\d+) sequence=(-?\d+) (\w+)$"
)


def touches(lines):
    """For each batch its base offset, count, and what it says of its producer id, if anything."""
    for line in lines:
        found = BATCH.match(line)
        if not found:
            continue
        byte, base, count, producer, epoch, sequence = (int(n) for n in found.groups()[:6])
        kind = found.group(7)
        touch = None
        if kind in ("commit", "abort"):
            touch = ("end", producer, epoch, kind)
        elif kind in ("plain", "txn") and producer >= 0:
            touch = ("data", producer, epoch, kind == "txn", sequence, count)
        yield base, count, touch


def pair_fault(prev, touch):
    """The least kind that stands at a touch and the touch of its producer id before it."""
    data, epoch = touch[0] == "data", touch[2]
    if data:
        starts = prev is None or prev[2] < epoch or (prev[0] == "end" and prev[2] == epoch)
        if starts and touch[4] != 0:
            return "1.3 FirstSequence"
        if prev and prev[0] == "data" and prev[2] == epoch and touch[4] != (prev[4] + prev[5]) % 2**31:
            return "1.4 Sequence"
    if prev is None:
        return None
    if epoch < prev[2]:
        return "1.5 ZombieEpoch"
    if data and touch[3] and prev[0] == "data" and prev[3] and prev[2] < epoch:
        return "1.6 EpochWhileOpen"
    if not data and prev[0] == "data" and prev[2] == epoch:
        return "1.7 NoBump"
    plain = [t[0] == "data" and not t[3] for t in (prev, touch)]
    if plain[0] != plain[1]:
        return "1.8 MixedProducer"
    if not data and prev[0] == "end" and prev[2] == epoch and prev[3] != touch[3]:
        return "1.9 MarkerKind"
    return None


def answer(lines):
    last, batches, offset, first = {}, 0, None, None
    for base, count, touch in touches(lines):
        if offset is None:
            offset = first = base
        if base != offset:
            return f"no 1.2 Gap offset={offset} found={base}"
        if touch:
            fault = pair_fault(last.get(touch[1]), touch)
            if fault:
                return f"no {fault} offset={offset} producer={touch[1]}"
            last[touch[1]] = touch
        batches += 1
        offset += count
    bad = re.match(r"bad byte=(\d+) (\w+)$", lines[-1])
    if bad:
        return f"no 1.1 BadBatch offset={offset or 0} segment={first or 0} byte={bad.group(1)} batch={bad.group(2)}"
    return f"ok batches={batches} producers={len(last)}"


def main():
    with open(sys.argv[1], encoding="ascii") as listing:
        print(answer(listing.read().splitlines()))


if __name__ == "__main__":
    main()
