#!/usr/bin/env -S python3 -B
"""Compares `check --all` with the lists of tests/reference.py.

    tests/all_faults.py PROGRAM

On the folders of tests/evidence, of tests/real-evidence, the stories, and what each switch and mishap of the simulator leaves,
with 1 and 4 workers, as lines, as JSON, and in a report; of two folders in one run. tests/random_evidence.py does the same on
changed folders. The last line is 'N passed, N failed'.
"""
import json
import os
import subprocess
import sys
import tempfile

import reference
from random_evidence import list_of

HERE = os.path.dirname(os.path.abspath(__file__))
SWITCHES = "keep-duplicates no-fence no-bump lose-marker swap-marker hide-listing ignore-generation".split()
MISHAPS = "lost-output repeated-output early-output wrong-count wrong-number foreign-source other-transaction".split()


def run(program, *words):
    done = subprocess.run([program, *words], capture_output=True, text=True, timeout=100)
    return done.returncode, done.stdout


def folders(program, scratch):
    """Folders that can be read: those that are kept, and simulated ones."""
    for part in "evidence", "real-evidence", "as-brokers-write", "stories":
        with open(os.path.join(HERE, part, "expected.tsv"), encoding="utf-8") as file:
            for name, status, _ in (line.split("\t", 2) for line in file):
                if status != "2":
                    yield os.path.join(HERE, part, name)
    for flag, names in ("--switch", SWITCHES), ("--mishap", MISHAPS):
        for seed, name in enumerate(names):
            path = os.path.join(scratch, name)
            run(program, "simulate", "--seed", str(seed), "--events", "300", flag, name, path)
            if os.path.isdir(path):
                yield path


def faults_of_report(program, path, scratch):
    """The names and codes of the faults in the report of `check --all`."""
    report = os.path.join(scratch, "report")
    run(program, "check", "--all", "--quiet", "--report", report, path)
    with open(report, encoding="utf-8") as file:
        value = json.load(file)
    os.remove(report)
    return [f"{it['code']} {it['name']}" for it in value.get("faults", [])]


def is_right(program, path, scratch):
    lines = reference.listed(path)
    status = 0 if lines[0].startswith("yes") else 1
    wanted = [
        (["--all", "--workers", "1"], list_of(lines)),
        (["--all", "--workers", "4"], list_of(lines)),
        (["--all", "--json"], list_of(lines, True)),
    ]
    for words, text in wanted:
        found = run(program, "check", "--quiet", *words, path)
        if found != (status, text):
            print(f"{path} {words}: {found}, not {(status, text)}")
            return False
    codes = [" ".join(line.split()[1:3]) for line in lines if line.startswith("no")]
    found = faults_of_report(program, path, scratch)
    if found != codes:
        print(f"{path}: the report has {found}, not {codes}")
    return found == codes


def several(program, paths):
    """Each line of one of several folders begins with its name, and the status is the greatest."""
    text, statuses = "", []
    for path in paths:
        lines = reference.listed(path)
        statuses.append(0 if lines[0].startswith("yes") else 1)
        text += "".join(f"{path}: {line}\n" for line in list_of(lines).splitlines())
    found = run(program, "check", "--quiet", "--all", *paths)
    if found != (max(statuses), text):
        print(f"{paths}: {found}, not {(max(statuses), text)}")
    return found == (max(statuses), text)


def main():
    program = os.path.abspath(sys.argv[1])
    with tempfile.TemporaryDirectory() as scratch:
        paths = list(folders(program, scratch))
        right = [is_right(program, path, scratch) for path in paths]
        right.append(several(program, [paths[0], paths[-1], os.path.join(HERE, "evidence", "row-yes-2")]))
    print(f"{sum(right)} passed, {len(right) - sum(right)} failed")
    sys.exit(0 if all(right) else 1)


if __name__ == "__main__":
    main()
