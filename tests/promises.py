"""The promises of docs/YES.md stand in public contracts that the program reaches.

    python3 -B tests/promises.py
    python3 -B tests/promises.py --calls NAME    how main comes to call it

A row of its table whose last column is headed `Command` names contracts, the file of each, and the commands that come to them. Each
has to be a public function with a clause in that file, and the command's own function has to call it, itself or by others. The calls
are read in the sources: a name behind which a bracket opens, of a function that the file defines or brings in, or of a method. The
last line is 'N passed, N failed'.
"""
import glob
import os
import re
import sys

from shape import COMMENTS, TESTS, TEXTS, crates, read

PAGE = "docs/YES.md"
README = "README.md"
ACTS = "crates/eoscheck/src/acts.rt"
# `check` stands apart, with what a page tells of its faults.
TELLINGS = "crates/eoscheck/src/tellings.rt"
# What the words of a command are carried out by.
CARRIED_OUT = {
    "check": "check_words",
    "draw": "draw_folder",
    "explain": "explain_folder",
    "simulate": "simulate_folder",
    "fold": "fold_partitions",
    "init": "init_folder",
    "dump": "answer_segment",
    "chain": "answer_segment",
}
# Methods that are called without their name: by an operator, a macro, a loop, or at an end of a life.
UNNAMED = {"fmt", "from", "into", "next", "drop", "eq", "cmp", "partial_cmp", "index", "deref", "read", "write", "flush"}
# Contracts that nothing calls, or only tests do: what is said to be reached could else be all there is.
UNREACHED = {"crates/eos_source_check/src/laws.rt": "one_answer"}
HEAD = re.compile(r"( *)(pub(?:\([\w ]+\))? )?(?:const )?(?:unsafe )?fn (\w+)")
BLOCK = re.compile(r"(?:unsafe )?impl\b|(?:pub(?:\(crate\))? )?trait (\w+)")
USE = re.compile(r"^(?:pub )?use ([\w:]+?)::(?:\{([^}]*)\}|(\w+))(?: as \w+)?;", re.M)
CALL = re.compile(r"(\.|(?:\w+(?:::<[^<>()]*>)?::)*)(\w+)(?:::<[^()]*?>)?\(")


class Function:
    def __init__(self, crate, path, name, head):
        self.crate, self.path, self.name = crate, path, name
        self.public, self.owner = head
        self.clauses, self.body = "", ""


def parts(lines, first, indent):
    """Where the body of the function that begins here opens and ends; of one without a body, where its contract ends."""
    opening = first
    while lines[opening] != f"{indent}{{" and not lines[opening].endswith((" {", "{}", ";")):
        opening += 1
    last = opening
    while lines[opening].endswith("{") and lines[last] != f"{indent}}}":
        last += 1
    return opening, last


def functions(crate, path):
    """Each function of a file: what its contract and its body are, and whose it is."""
    lines = TEXTS.sub('""', COMMENTS["rt"].sub("", read(path))).splitlines()
    owner, at = "", 0
    while at < len(lines):
        block = BLOCK.match(lines[at])
        if block and lines[at][:1] != " ":
            owner = block[1] or ("for" if " for " in lines[at] else "impl")
        elif lines[at] == "}":
            owner = ""
        head = HEAD.match(lines[at])
        if not head:
            at += 1
            continue
        opening, last = parts(lines, at, head[1])
        one = Function(crate, path, head[3], (head[2] == "pub ", owner if head[1] else ""))
        one.clauses = "\n".join(lines[at:opening + 1])
        one.body = "\n".join(lines[opening:last + 1])
        yield one
        at = last + 1


class Program:
    """All functions of the crates, and which of them call which."""

    def __init__(self):
        self.all, self.brought = [], {}
        below = crates()
        self.names = [it for it in below if it not in TESTS]
        self.below = {}
        for crate in self.names:
            self.below[crate] = {crate}.union(*(self.below.get(it, set()) for it in below[crate]))
        for crate in self.names:
            for path in sorted(glob.glob(f"crates/{crate}/src/**/*.rt", recursive=True)):
                if os.path.basename(path) != "tests.rt":
                    self.all += functions(crate, path)
                    self.brought[path] = self.uses(crate, path)
        self.free, self.methods = {}, {}
        for one in self.all:
            if one.owner:
                self.methods.setdefault(one.name, []).append(one)
            else:
                self.free.setdefault((one.crate, one.name), []).append(one)

    def uses(self, crate, path):
        """Of each name that a file brings in, the crate that it is of."""
        found = {}
        for way, several, one in USE.findall(read(path)):
            first = way.split("::")[0]
            of = crate if first in ("crate", "super", "self") else first
            for name in (several or one).split(","):
                found[name.strip()] = of
        return found

    def called_by(self, one):
        """The functions of which a body names one in a call."""
        for way, name in CALL.findall(one.body):
            first = way.split("::")[0]
            if way == "." or first[:1].isupper():
                yield from (it for it in self.methods.get(name, []) if it.owner == "for" or it.crate in self.below[one.crate])
            elif not way:
                here = [it for it in self.free.get((one.crate, name), []) if it.path == one.path]
                yield from here or self.free.get((self.brought[one.path].get(name), name), [])
            else:
                yield from self.free.get((first if first in self.names else one.crate, name), [])

    def reached(self, start):
        """What this function calls, itself or by others; of each of them the one by which it was come to."""
        by, waiting, crates_in = {start: None}, [start], set()
        while waiting:
            one = waiting.pop()
            called = list(self.called_by(one))
            if one.crate not in crates_in:
                crates_in.add(one.crate)
                called += [it for it in self.all if it.crate == one.crate and it.owner == "for" and it.name in UNNAMED]
            for it in called:
                if it not in by:
                    by[it] = one
                    waiting.append(it)
        return by

    def one(self, path, name):
        return next((it for it in self.all if it.path == path and it.name == name), None)


def promised(text):
    """The rows of the table whose last column is headed `Command`: number, contract, file, commands."""
    inside = False
    for line in text.splitlines():
        cells = [it.strip() for it in line.strip("|").split("|")]
        if not line.startswith("|"):
            inside = False
        elif cells[-1] == "Command":
            inside = True
        elif inside and not set(line) <= set("|- "):
            yield cells


def main():
    program = Program()
    start = program.one("crates/eoscheck/src/main.rt", "main")
    if sys.argv[1:2] == ["--calls"]:
        by = program.reached(start)
        for one in [it for it in by if it.name == sys.argv[2]]:
            way = []
            while one:
                way.append(f"{one.crate}::{one.name}")
                one = by[one]
            print(" < ".join(way))
        return 0
    passed, wrong = 0, []

    def expect(holds, why):
        nonlocal passed
        passed += bool(holds)
        if not holds:
            wrong.append(why)

    by = program.reached(start)
    acts, reached = read(ACTS) + read(TELLINGS), {}
    for command, name in CARRIED_OUT.items():
        entry = next((it for it in by if it.name == name and not it.owner), None)
        expect(re.search(rf"(?:=>|match) {name}\(", acts) and entry, f"{command}: {ACTS} doesn't hand it to {name}")
        reached[command] = program.reached(entry) if entry else {}
    numbers = set()
    for number, *_, names, file, commands in promised(read(PAGE)):
        numbers.add(number)
        path = file.strip("`")
        for name in re.findall(r"`(\w+)`", names):
            one = program.one(path, name)
            expect(one and one.public and re.search(r"^ +ensures", one.clauses, re.M), f"{path}: no public function {name} with a contract")
            for command in re.findall(r"`([\w -]+)`", commands):
                expect(one in reached.get(command.split()[0], {}), f"{command}: the program doesn't come to {name} of {path}")
    said = set(re.findall(r"^(\d)\. ", read(README).split("## What is proved")[1].split("\n## ")[0], re.M))
    expect(numbers == said, f"{PAGE} has the promises {sorted(numbers)}, and {README} {sorted(said)}")
    for path, name in UNREACHED.items():
        one = program.one(path, name)
        expect(not one or one not in by, f"{path}: {name} counts as reached, so all might")
    print("\n".join(wrong))
    print(f"{passed} passed, {len(wrong)} failed")
    return 1 if wrong or passed < 30 else 0


if __name__ == "__main__":
    sys.exit(main())
