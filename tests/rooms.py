#!/usr/bin/env -S python3 -B
"""That a visitor finds the crates and what each promises: the map of docs/ARCHITECTURE.md, a README beside each crate's code, and
the table of tasks in tests/rooms.txt.

    python3 -B tests/rooms.py

Each crate of crates.txt has one line in the list of docs/ARCHITECTURE.md, which has at most 150 lines, and a README.md: its name,
its purpose, `## Promises` and `## Why one crate`, at most 40 lines and 1,640 bytes. A promise begins with the calls that keep it,
each with names of its clauses or of definitions that these cite, as "`call`, `Type::call` (`clause`, `definition`); `laws::law`: ..".
Each such call is exported by the crate, and each such name stands in its contract. No document names a crate that isn't there.
Each path that a document names is there, a task of CONTRIBUTING.md has at most ten places, and README.md, CONTRIBUTING.md and what of
docs/*.md isn't made by a script have at most 200 KiB together. Each task of tests/rooms.txt leads to a crate. The last line is
'N passed, N failed'.
"""
import glob
import os
import re
import sys

from allocating import exported

MOST_LINES_OF_THE_MAP = 150
MOST_LINES = 40
MOST_BYTES = 1640
TASKS = 20
SECTIONS = ["## Promises", "## Why one crate"]
# A call's head, and what begins the block that methods stand in.
HEAD = re.compile(r"( *)(pub )?(?:const )?(?:unsafe )?fn (\w+)")
OWNER = re.compile(r"(?:unsafe )?impl(?:<.*?>)? (?:.+? for )?([\w:]+)|pub trait (\w+)")
# What a promise says of calls, in text or at its beginning.
CALLS = re.compile(r"(`[\w:]+`(?:, `[\w:]+`)*) \((`\w+`(?:, `\w+`)*)\)")
NAME = re.compile(r"`([\w:]+)`")
CRATE = re.compile(r"\beos_\w+")
# Words of this form that are no crates.
NO_CRATES = {"eos_"}
PATH = re.compile(r"`((?:crates|tests|docs|tools|bench|edits|examples)/[^` ]*)`")
# Paths in which a part stands for any.
ANY = re.compile(r"NAME|\bX\b|CRATE|\bPART\b")
PLACES = 10
MOST_KIB_OF_DOCUMENTS = 200
# A page that a script makes of the program's own table.
MADE = {"docs/FAULTS.md"}


def read(path):
    with open(path, encoding="utf-8") as file:
        return file.read()


def crates():
    """The crates of crates.txt, in their order."""
    lines = [line.partition("#")[0].partition(":") for line in read("crates.txt").splitlines()]
    return [name.split()[0] for name, colon, _ in lines if colon]


def blocks(text):
    """Each function of a file: the type or trait that it stands in, whether it is public, its name, and its contract's text."""
    owner, public, lines = None, False, text.splitlines()
    for at, line in enumerate(lines):
        found = OWNER.match(line)
        if found:
            owner, public = found.group(1) or found.group(2), bool(found.group(2))
        elif line == "}":
            owner, public = None, False
        head = HEAD.match(line)
        if head:
            margin, contract = head.group(1), []
            for below in lines[at:]:
                contract.append(below)
                if below.startswith((f"{margin}{{", f"{margin}}}")) or public and below.endswith(";"):
                    break
            yield owner, bool(head.group(2)) or public or head.group(3) == "main", head.group(3), "\n".join(contract)


def calls(crate):
    """The contracts of each call that a crate exports, by its name, with its type or module before it where it has one."""
    names = exported(crate) if os.path.exists(f"crates/{crate}/src/lib.rt") else {"main"}
    found = {}
    for path in glob.glob(f"crates/{crate}/src/**/*.rt", recursive=True):
        module = os.path.basename(path)[: -len(".rt")]
        for owner, public, name, contract in blocks(read(path)):
            if public and owner in names:
                found.setdefault(f"{owner}::{name}", []).append(contract)
            elif public and not owner:
                for key in [name] * (name in names) + [f"{module}::{name}"] * (module in names):
                    found.setdefault(key, []).append(contract)
    return found


def promises(text):
    """The lines of a README's list, each with those that go on with it."""
    found = []
    for line in text.splitlines():
        if line.startswith("- "):
            found.append(line)
        elif found and line.startswith("  "):
            found[-1] += " " + line.strip()
    return found


def of_readme(crate, say):
    path = f"crates/{crate}/README.md"
    if not os.path.exists(path):
        say(False, f"{path} is lacking")
        return
    text = read(path)
    say(text.startswith(f"# {crate}\n\n"), f"{path} doesn't begin with its crate's name")
    say(re.findall(r"^##.*", text, re.M) == SECTIONS, f"{path} hasn't the sections {SECTIONS}")
    say(len(text.splitlines()) <= MOST_LINES and len(text.encode()) <= MOST_BYTES, f"{path} has {len(text.encode())} bytes")
    there = calls(crate)
    listed = promises(text)
    say(listed, f"{path} promises nothing")
    for promise in listed:
        for name in NAME.findall(re.sub(r"\([^)]*\)", "", promise.partition(": ")[0])):
            say(name in there, f"{path}: no public call {name}")
        for names, words in CALLS.findall(promise):
            for name in NAME.findall(names):
                said = [contract.partition("\n")[2] for contract in there.get(name, [])]
                for word in NAME.findall(words):
                    stands = any(re.search(rf"\b{word}\b", contract) for contract in said)
                    say(stands, f"{path}: the contract of {name} has no {word}")


def of_map(found, say):
    text = read("docs/ARCHITECTURE.md")
    lines = len(text.splitlines())
    say(lines <= MOST_LINES_OF_THE_MAP, f"docs/ARCHITECTURE.md has {lines} lines")
    listed = re.findall(r"^- `(\w+)`: ", text, re.M)
    for crate in found:
        say(listed.count(crate) == 1, f"docs/ARCHITECTURE.md: not one line of {crate}")


def documents():
    """The documents, each with its text."""
    for path in ["README.md", "CONTRIBUTING.md", "bench/README.md", *sorted(glob.glob("docs/*.md") + glob.glob("crates/*/README.md"))]:
        yield path, read(path)


def of_paths(say):
    """The paths that documents name."""
    for document, text in documents():
        for path in sorted(set(PATH.findall(text))):
            say(ANY.search(path) or glob.glob(path), f"{document}: no {path}")


def of_size(say):
    """How large the documents are that are written by hand."""
    written = ["README.md", "CONTRIBUTING.md", *sorted(set(glob.glob("docs/*.md")) - MADE)]
    size = sum(os.path.getsize(path) for path in written)
    say(size <= MOST_KIB_OF_DOCUMENTS * 1024, f"the documents have {size} bytes")


def of_places(say):
    """The places of each task of CONTRIBUTING.md."""
    tasks = read("CONTRIBUTING.md").partition("## Five tasks")[2].partition("\n## ")[0].split("\n### ")[1:]
    say(len(tasks) == 5, f"CONTRIBUTING.md has {len(tasks)} tasks")
    for task in tasks:
        places = len(re.findall(r"^\d+\. ", task, re.M))
        say(0 < places <= PLACES, f"CONTRIBUTING.md: {task.splitlines()[0]} has {places} places")


def of_names(found, say):
    """No document, and no comment of a source, names a crate that isn't there."""
    for path, text in documents():
        gone = sorted(set(CRATE.findall(text)) - set(found) - NO_CRATES)
        say(not gone, f"{path} names {', '.join(gone)}")
    for ending, mark in (("rt", "//"), ("antt", "--")):
        for path in sorted(glob.glob(f"crates/*/*/**/*.{ending}", recursive=True)):
            if "/out/" not in path:
                comments = " ".join(line.partition(mark)[2] for line in read(path).splitlines())
                gone = sorted(set(CRATE.findall(comments)) - set(found) - NO_CRATES)
                say(not gone, f"{path} names {', '.join(gone)}")


def of_tasks(found, say):
    """The table of tasks: each leads to a crate, and no two to one."""
    lines = [line for line in read("tests/rooms.txt").splitlines() if line and not line.startswith("#")]
    say(len(lines) == TASKS, f"tests/rooms.txt has {len(lines)} tasks")
    rooms = [line.partition("->")[2].strip() for line in lines]
    for room in rooms:
        say(room in found and rooms.count(room) == 1, f"tests/rooms.txt: {room} is no crate, or stands twice")


def main():
    passed, failures = 0, []

    def say(holds, failure):
        nonlocal passed
        if holds:
            passed += 1
        else:
            failures.append(failure)

    found = crates()
    of_map(found, say)
    of_names(found, say)
    of_paths(say)
    of_size(say)
    of_places(say)
    of_tasks(found, say)
    for crate in found:
        of_readme(crate, say)
    print(*failures, sep="\n", end="\n" * bool(failures))
    print(f"{passed} passed, {len(failures)} failed")
    return bool(failures)


if __name__ == "__main__":
    sys.exit(main())
