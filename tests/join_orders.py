#!/usr/bin/env -S python3 -B
"""Logs, cut at the borders of their batches and joined in three orders, say what they say whole.

    tests/join_orders.py

The logs are the segments that tests/segments/cases names, in a topic whose sequences are checked and in one whose sequences
aren't, and the logs of one segment in tests/tables/partitions.txt. Each is cut at each border by itself and at all of them at
once, also before a batch that can't be read; how many batches a segment has is read from its listing, so that none is missed. The
call `part` says everything of a log: its fault, the ends of its transactions, its markers and its records. The script prints what
differs, and as its last line 'N passed, N failed', of the logs. tests/unproved.py asks it.
"""
import os
import re
import sys

import plain_logs
import tables
from mutants import Refused
from unproved import Asked, tell

SEGMENTS = os.path.join(os.path.dirname(os.path.abspath(__file__)), "segments")
TABLE = os.path.join(os.path.dirname(os.path.abspath(__file__)), "tables", "partitions.txt")
# The kit's try gives no answers of more than 1 MiB; these have about one and a half times the characters of their calls.
MOST = 300_000
NAMES = "out-0", "__consumer_offsets-0"


def places_of(data):
    """The places before and behind each batch, up to bytes that are none: the byte, and the next record's offset."""
    places = [(0, 0)]
    while places[-1][0] < len(data):
        try:
            batch, size = plain_logs.read_batch(data, places[-1][0])
        except Refused:
            break
        places.append((places[-1][0] + size, batch.base + batch.count))
    return places


def of_segments(folder):
    """The logs of the segments: name, end and bytes."""
    with open(os.path.join(folder, "cases"), encoding="utf-8") as cases:
        names = cases.read().split()
    for case in names:
        path = os.path.join(folder, case)
        with open(f"{path}.log", "rb") as file:
            data = file.read()
        with open(f"{path}.dump", encoding="utf-8") as listing:
            batches = sum(line.startswith("batch ") for line in listing)
        places = places_of(data)
        if len(places) != batches + 1:
            sys.exit(f"{case}: {len(places) - 1} batches, not {batches}")
        for name in NAMES:
            yield name, places[-1][1], data


def of_table(table):
    """The logs of one segment in a table."""
    for row in tables.rows_of(table)[0]:
        found = re.fullmatch(r"\S+ (\S+):(-?\d+):0/([0-9a-f]+)", row.call)
        if found:
            yield found[1], int(found[2]), bytes.fromhex(found[3])


def calls_of(name, end, data):
    """The calls for one log, each with its cuts, of which the first is the call for it whole."""
    places = places_of(data)
    cuts = [("left", places[:1])] + [("left", [places[0], place]) for place in places[1:]]
    for order, chosen in cuts + [(order, places) for order in ("left", "right", "pairs")]:
        ends = [byte for byte, _ in chosen[1:]] + [len(data)]
        pieces = [f"{offset}/{data[byte:end].hex() or '-'}" for (byte, offset), end in zip(chosen, ends)]
        yield f"part {order} {name}:{end}:{','.join(pieces)}", {offset: byte for byte, offset in chosen}


def counted(answer, cuts):
    """The answer, with the byte of a batch that can't be read counted from the log's begin: it and the segment's name are
    all that follows the cut."""

    def place(found):
        return f" segment=0 byte={cuts[int(found[1])] + int(found[2])} batch="

    return re.sub(r" segment=(\d+) byte=(\d+) batch=(?=[A-Za-z]+$)", place, answer)


def judged(logs, answers):
    """How many of these logs say the same however they are cut, and a text for each that doesn't."""
    failures, answers = [], iter(answers)
    for log in logs:
        # (the log first: zip takes of the answers no more than there are calls)
        said = [counted(answer, cuts) for (_, cuts), answer in zip(log, answers)]
        wrong = [at for at, answer in enumerate(said) if answer != said[0] or not answer.startswith("[")]
        if len(said) < len(log):
            failures.append(f"{len(said)} answers to {len(log)} calls such as {log[0][0][:200]}")
        elif wrong:
            at = wrong[0]
            failures.append(f"{log[at][0][:200]}\n    is   {said[at][-300:]}\n    not  {said[0][-300:]}")
    return len(logs) - len(failures), failures


def asked_of(number, logs):
    rows = [call for log in logs for call, _ in log]
    return Asked(f"join_orders-{number}", rows, lambda answers: judged(logs, answers))


def all_asked():
    segments, rows = list(of_segments(SEGMENTS)), list(of_table(TABLE))
    files = sum(name.endswith(".log") for name in os.listdir(SEGMENTS))
    if len(segments) < 2 * max(files, 18) or len(rows) < 56:
        sys.exit(f"{len(segments)} segments and {len(rows)} logs of the table are too few")
    groups, size = [[]], 0
    for log in segments + rows:
        calls = list(calls_of(*log))
        length = sum(len(call) for call, _ in calls)
        if size + length > MOST and groups[-1]:
            groups.append([])
            size = 0
        groups[-1].append(calls)
        size += length
    return [asked_of(number, logs) for number, logs in enumerate(groups, 1)]


if __name__ == "__main__":
    sys.exit(tell(all_asked()))
