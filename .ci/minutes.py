#!/usr/bin/env -S python3 -B
"""Runs the gate and writes down the processor minutes of its parts, crate by crate.

    .ci/minutes.py FILE rt ci        runs the gate; FILE gets its table
    .ci/minutes.py --beside LAST FILE    prints the table FILE with the one in LAST beside it

The gate proves crates, their tests and their edits side by side, and says nothing of what each took. So the processes
below it are looked at twice a second, and what each has used when it is last seen counts for the crate and the part that its
words or its folder tell. The building of proved programs has a row for each of the two compilers. What ran too short to be seen,
and the running of programs and tests, is the rest. The status is the gate's.
"""
import collections
import os
import re
import resource
import subprocess
import sys
import time

TICKS = os.sysconf("SC_CLK_TCK")
PARTS = ["proofs", "tests", "edits"]


def seen():
    """Of each process its parent and the seconds that it has used."""
    found = {}
    for name in os.listdir("/proc") if os.path.isdir("/proc") else []:
        if not name.isdigit():
            continue
        try:
            with open(f"/proc/{name}/stat", encoding="utf-8", errors="replace") as file:
                fields = file.read().rpartition(")")[2].split()
        except OSError:
            continue
        # After the name: the state, the parent, and from the twelfth on the ticks in user and in system mode.
        found[int(name)] = (int(fields[1]), (int(fields[11]) + int(fields[12])) / TICKS)
    return found


def part_of(pid):
    """Which crate and part of the gate a process works for, where its words tell."""
    try:
        with open(f"/proc/{pid}/cmdline", "rb") as file:
            words = file.read().decode(errors="replace").split("\0")
        folder = os.readlink(f"/proc/{pid}/cwd")
    except OSError:
        return None
    if os.path.basename(words[0]) != "rattle" or words[1:2] not in (["check"], ["build"]) or "--crate-name" not in words:
        return None
    crate = words[words.index("--crate-name") + 1]
    if os.path.basename(folder).startswith("rt-edit-"):
        return crate, "edits"
    if "--test" in words:
        return crate, "tests"
    if "--crate-checked" in words:
        return None, f"building by {words[words.index('--backend') + 1]}" if "--backend" in words else "building"
    return crate, "proofs"


class Times:
    def __init__(self, top):
        self.top, self.used, self.parts = top, {}, {}

    def look(self):
        processes = seen()
        below = collections.defaultdict(list)
        for pid, (parent, _) in processes.items():
            below[parent].append(pid)
        waiting = [(self.top, None)]
        while waiting:
            pid, part = waiting.pop()
            if pid not in processes:
                continue
            part = part or self.parts.get(pid) or part_of(pid)
            self.parts[pid] = part
            self.used[pid] = max(self.used.get(pid, 0), processes[pid][1])
            waiting += [(child, part) for child in below[pid]]

    def minutes(self):
        found = collections.Counter()
        for pid, used in self.used.items():
            found[self.parts[pid]] += used / 60
        return found


def run(path, words):
    gate = subprocess.Popen(words)
    times = Times(gate.pid)
    while gate.poll() is None:
        times.look()
        time.sleep(0.5)
    used = resource.getrusage(resource.RUSAGE_CHILDREN)
    minutes = times.minutes()
    rest = minutes.pop(None, 0.0)
    # What the gate has waited for counts as a whole; of the rest, what was seen.
    rest = max(rest, (used.ru_utime + used.ru_stime) / 60 - sum(minutes.values()))
    with open(path, "w", encoding="utf-8") as file:
        for crate in sorted({crate for crate, _ in minutes if crate}):
            row = [minutes[crate, part] for part in PARTS]
            file.write(f"{crate:20}" + "".join(f"{it:8.1f}" for it in row) + "\n")
        row = [sum(used for (_, it), used in minutes.items() if it == part) for part in PARTS]
        file.write(f"{'all':20}" + "".join(f"{it:8.1f}" for it in row) + "\n")
        for part in sorted(part for crate, part in minutes if not crate):
            file.write(f"{part:20}{minutes[None, part]:8.1f}\n")
        file.write(f"{'the rest':20}{rest:8.1f}\n")
    return gate.returncode


def rows_of(path):
    """Of each row its numbers, by its name."""
    try:
        with open(path, encoding="utf-8") as file:
            found = re.findall(r"^(\w[\w -]*\w) {2,}([0-9. ]+)$", file.read(), re.M)
    except OSError:
        return {}
    return {name: [float(it) for it in numbers.split()] for name, numbers in found}


def beside(last, now):
    """Prints the rows of a table, each with the sum of what the last one had."""
    old, new = rows_of(last), rows_of(now)
    print(f"processor minutes   {''.join(f'{it:>8}' for it in PARTS)}     sum    last")
    for name, row in [*new.items(), ("the gate in all", [sum(sum(it) for name, it in new.items() if name in ENDS or name.startswith(BUILDING))])]:
        was = sum(old[name]) if name in old else None
        cells = "".join(f"{it:8.1f}" for it in row) if len(row) == len(PARTS) else " " * 8 * len(PARTS)
        print(f"{name:20}{cells}{sum(row):8.1f}{f'{was:8.1f}' if was is not None else '       -'}")
    for name in sorted(old.keys() - new.keys()):
        print(f"{name}: no longer there")


# The rows whose sum is the whole, with those of the compilers.
ENDS = ["all", "the rest", "end-to-end tests"]
BUILDING = "building"


def main():
    if sys.argv[1] == "--beside":
        beside(*sys.argv[2:4])
        return 0
    return run(sys.argv[1], sys.argv[2:])


if __name__ == "__main__":
    sys.exit(main())
