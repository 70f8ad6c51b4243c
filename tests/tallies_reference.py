#!/usr/bin/env -S python3 -B
"""The tables of a report of `eoscheck check`, worked out by a second program from their definitions.

    tests/tallies_reference.py FOLDER

It prints a line for each row. Like tests/notes_reference.py, it takes the reading of the logs of tests/reference.py, and shares no
code with the program, but the same authors wrote it. The manifest has to be a legal one.
"""
import collections
import os
import re
import sys

from mutants import LAST_OFFSET
from notes_reference import commits_of, has_fault, manifest_of
from plain_logs import OFFSETS, STATES, read_folder, records_of

PartitionRow = collections.namedtuple("PartitionRow", "topic partition roles end batches data_records visible_records segments bytes")
SourceRow = collections.namedtuple("SourceRow", "group topic partition committed end visible_inputs_below")


def sizes_of(folder, topic, number):
    """The sizes of a partition's segments."""
    path = os.path.join(folder, f"{topic.decode()}-{number}")
    names = os.listdir(path) if os.path.isdir(path) else []
    logs = [name for name in names if re.fullmatch("[0-9]{20}[.]log", name) and int(name[:20]) <= LAST_OFFSET]
    return [os.path.getsize(os.path.join(path, name)) for name in logs]


def roles_of(apps, topic):
    roles = []
    roles += ["source"] if any(topic in sources for _, sources, _ in apps) else []
    roles += ["output"] if any(topic in outputs for _, _, outputs in apps) else []
    roles += ["offsets_log"] if topic == OFFSETS else []
    roles += ["transaction_log"] if topic == STATES else []
    return roles


def partition_rows(folder):
    """One for each partition, by topic and number. Visible records are None where the partition's log has a fault."""
    apps, _ = manifest_of(folder)
    for part in read_folder(folder)[1]:
        (topic, number), sizes = part.name, sizes_of(folder, *part.name)
        data = sum(1 for _ in records_of(part))
        visible = None if has_fault(part) else sum(1 for _ in records_of(part, only_visible=True))
        yield PartitionRow(topic, number, roles_of(apps, topic), part.end, len(part.batches), data, visible, len(sizes), sum(sizes))


def group_rows(folder):
    """For each application in order, its group and one row for each partition of its sources, by topic and number; None where a
    partition's log has a fault."""
    apps, _ = manifest_of(folder)
    parts = read_folder(folder)[1]
    if any(has_fault(part) for part in parts):
        return None
    groups = []
    for group, sources, _ in apps:
        committed = {place: offset for place, offset, _ in commits_of(parts, group, sources)}
        rows = []
        for part in (part for part in parts if part.name[0] in sources):
            offset = committed.get(part.name, 0)
            below = sum(1 for _, place, _ in records_of(part, only_visible=True) if place < offset)
            rows.append(SourceRow(group, *part.name, offset, part.end, below))
        groups.append((group, rows))
    return groups


def main():
    for row in partition_rows(sys.argv[1]):
        print(*row)
    groups = group_rows(sys.argv[1])
    print("no rows of groups" if groups is None else f"groups={len(groups)}")
    for _, rows in groups or []:
        for row in rows:
            print(*row)


if __name__ == "__main__":
    main()
