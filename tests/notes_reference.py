#!/usr/bin/env -S python3 -B
"""The notes of `eoscheck check`, worked out by a second program from their definitions.

    tests/notes_reference.py FOLDER

It prints the lines that `check` has to print on standard error behind the verdict's line. Like tests/reference.py, whose reading of
the logs it takes, it shares no code with the program, but the same authors wrote it. The manifest has to be a legal one.
"""
import itertools
import json
import os
import struct
import sys

import reference
from mutants import Refused
from plain_logs import OFFSETS, STATES, offset_key, offset_value, read_folder, records_of


def manifest_of(folder):
    """The applications, as group, sources and outputs in the manifest's order, and the ends by topic and number."""
    with open(os.path.join(folder, "evidence.json"), encoding="utf-8") as file:
        manifest = json.load(file)
    ends = {}
    for name, end in manifest["ends"].items():
        topic, number = name.rsplit("-", 1)
        ends[topic.encode(), int(number)] = end
    apps = [
        (app["group"].encode(), [t.encode() for t in app["sources"]], [t.encode() for t in app["outputs"]])
        for app in (manifest["apps"] if manifest["version"] == 2 else [manifest])
    ]
    return apps, ends


def has_fault(part):
    return next(iter(reference.partition_faults(part)), None) is not None


def visible(parts, topics):
    for part in parts:
        if part.name[0] in topics:
            for _, offset, record in records_of(part, only_visible=True):
                yield part.name, offset, record


def commits_of(parts, group, sources):
    """The commits of a group under its source topics, in the order of the log: of each its partition, offset and leader epoch."""
    for _, _, record in visible(parts, [OFFSETS]):
        try:
            key = offset_key(record.key)
            if key and key[0] == group and key[1] in sources and record.value is not None:
                yield key[1:], offset_value(record.value), leader_epoch_of(record.value)
        except Refused:
            continue


def leader_epoch_of(value):
    """The field behind the version and the offset, which values have from version 3 on; -1 stands for none."""
    version, = struct.unpack_from(">h", value)
    return struct.unpack_from(">i", value, 10)[0] if version >= 3 else -1


def epoch_before(part, offset):
    """The leader epoch of the batch of the last record below this offset, as a list of one, or an empty one."""
    return [batch.leader for batch in part.batches if batch.base < offset][-1:]


def fall_of(part):
    """The offset of the first batch of a lesser leader epoch than the batch before it, if there is one."""
    return [after.base for before, after in itertools.pairwise(part.batches) if after.leader < before.leader][:1]


def named(place):
    return reference.place_text(place)


def least_gap(numbers):
    absent = next(n for n in itertools.count() if n not in numbers)
    return absent if absent < max(numbers) else None


def notes_of(folder):
    """For each kind of the list its lines."""
    apps, ends = manifest_of(folder)
    _, parts = read_folder(folder)
    kinds = {n: [] for n in range(10)}
    present = {topic for topic, _ in ends}
    used = {topic for _, sources, outputs in apps for topic in sources + outputs}
    if len(apps) == 0:
        kinds[0].append("no application is named: outputs and committed offsets aren't judged")
    for group, sources, outputs in apps:
        for topic in sources + outputs:
            if topic not in present:
                kinds[3].append(f"topic {reference.escaped(topic)} of group {reference.escaped(group)} has no partition in ends")
    for topic in sorted(used & present):
        absent = least_gap({number for name, number in ends if name == topic})
        if absent is not None:
            kinds[4].append(f"topic {reference.escaped(topic)} has no partition {absent} in ends, but one of a greater number")
    kinds[6] = [f"no partition of {topic.decode()} is in ends" for topic in (OFFSETS, STATES) if topic not in present]
    for part in parts:
        kinds[8] += [f"the leader epoch falls at {named(part.name)}:{offset}" for offset in fall_of(part)]
    if any(has_fault(part) for part in parts):
        return kinds
    for group, sources, _ in apps:
        shown, commits = reference.escaped(group), list(commits_of(parts, group, sources))
        last = {place: offset for place, offset, _ in commits}
        under = {place: epoch for place, _, epoch in commits}
        for place in sorted(set(last) - set(ends)):
            kinds[1].append(f"{named(place)} isn't in ends, but group {shown} committed an offset of it")
        for place in sorted(ends):
            if place[0] in sources and last.get(place, 0) > ends[place]:
                kinds[2].append(f"group {shown} committed offset {last[place]} of {named(place)}, past its end {ends[place]}")
        if not commits:
            kinds[5].append(f"group {shown} committed no offset of its sources")
        inputs = [(place, offset) for place, offset, _ in visible(parts, sources)]
        below = sum(offset < last.get(place, 0) for place, offset in inputs)
        if below < len(inputs):
            kinds[7].append(f"group {shown} is behind: {below} of {len(inputs)} visible inputs are below its committed offsets")
        for part in parts:
            for epoch in epoch_before(part, last.get(part.name, 0)):
                if under.get(part.name, -1) not in (-1, epoch):
                    kinds[9].append(f"group {shown} committed offset {last[part.name]} of {named(part.name)} under leader epoch "
                        f"{under[part.name]}, but the record before it is of epoch {epoch}")
    return kinds


def lines(folder):
    kinds = notes_of(folder)
    return "".join(f"eoscheck: note: {line}\n" for n in sorted(kinds) for line in kinds[n])


if __name__ == "__main__":
    sys.stdout.write(lines(sys.argv[1]))
