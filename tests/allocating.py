#!/usr/bin/env -S python3 -B
"""Whether tests/allocating.txt names each public function of the libraries that can answer want of memory, and nothing else.

    python3 -B tests/allocating.py

It says what is missing, or what isn't there, and ends in 1 then; else how many functions there are, and of how many nobody
refuses the allocations.

A line of the list is 'CRATE::FUNCTION PLACE': the function, of a type 'CRATE::TYPE::FUNCTION', and who refuses its
allocations: 'TABLE.txt=CALL', a call of a table, whose rows tests/refuse_each.py has refused; 'run COMMAND', a command that a part of tests/run
runs so; or 'none', and why nobody can. A function is one of the list's where its crate exports it or its type, and its result can be
want of memory.
"""
import glob
import os
import re
import sys

LIST = "tests/allocating.txt"
# Types of results that can be want of memory; of a fault of this name by its variant.
OUT = {"AllocError", "AllocFailed"}
# What says so without a name: a segment or runs that come back.
GIVEN_BACK = {"Segment", "(Tied<E>, Tied<E>)", "(Run, Run)", "(Kept<L>, Kept<L>)"}
# What holds a reply.
REPLIES = {"Called"}
FUNCTION = re.compile(r"^( *)pub fn (\w+)", re.M)
OWNER = re.compile(r"^impl(?:<[^{]*?>)? (?:\w+(?:<[^{]*?>)? for )?(\w+)", re.M)


def sources(crate):
    for path in sorted(glob.glob(f"crates/{crate}/src/**/*.rt", recursive=True)):
        with open(path, encoding="utf-8") as file:
            yield os.path.basename(path)[:-3], file.read()


def faults_of(crates):
    """The types with a variant for want of memory, or for a fault of another such type."""
    enums = [it for crate in crates for _, text in sources(crate) for it in re.findall(r"pub enum (\w+)[^{]*\{(.*?)\n\}", text, re.S)]
    found = {name for name, variants in enums if re.search(r"^    OutOfMemory\b", variants, re.M)}
    return found | {name for name, variants in enums if found & set(re.findall(r"^    Refused\((\w+)\)", variants, re.M))}


def exported(crate):
    """The names that the crate's root exports."""
    with open(f"crates/{crate}/src/lib.rt", encoding="utf-8") as file:
        root = file.read()
    names = set(re.findall(r"^pub (?:fn|struct|enum|mod) (\w+)", root, re.M))
    for listed in re.findall(r"^pub use ([^;]*);", root, re.M):
        names |= set(re.findall(r"\w+", listed))
    return names


def error_of(result):
    """The second type of a Result, as it is written."""
    inner = result[len("Result<"):-1].rstrip(", ")
    depth = 0
    for at, sign in enumerate(inner):
        depth += (sign in "<(") - (sign in ">)")
        if sign == "," and depth == 0:
            return inner[at + 1:].strip()
    return ""


def allocates(result, faults):
    if result.startswith("Result<"):
        error = error_of(result)
        return error in OUT | faults or error in GIVEN_BACK
    return result in faults | REPLIES


def public(crate, faults):
    """The public functions of a crate that can answer want of memory."""
    names = exported(crate)
    for _, text in sources(crate):
        owners = [(match.start(), match[1]) for match in OWNER.finditer(text)]
        for match in FUNCTION.finditer(text):
            head = text[match.start():]
            head = re.sub(r"\s+", " ", head[:re.search(r"\n\s*(?:requires|ensures|where|ghost)\b|\s*\{", head).start()])
            result = head.partition("-> ")[2].strip()
            owner = [name for start, name in owners if start < match.start()][-1] if match[1] else ""
            if (owner or match[2]) in names and allocates(result, faults):
                yield "::".join(part for part in (crate, owner, match[2]) if part)


def crates():
    for path in sorted(glob.glob("crates/*/src/lib.rt")):
        crate = path.split("/")[1]
        if not crate.endswith(("_tests", "_test_logs")):
            yield crate


def is_there(kind, name, run):
    """Whether the place of a line is there."""
    if kind == "run":
        return f"refused 1 {name} " in run.replace("\n", " \n") or f"{name}.py" in run
    if kind == "none":
        return bool(name)
    table, _, call = kind.partition(".txt=")
    path = f"tests/tables/{table}.txt"
    return os.path.isfile(path) and re.search(rf"^{call} ", open(path, encoding="utf-8").read(), re.M) is not None


def main():
    with open(LIST, encoding="utf-8") as file:
        lines = [line.split(" ", 2) + [""] for line in file.read().splitlines() if line and not line.startswith("#")]
    run = "".join(open(path, encoding="utf-8").read() for path in sorted(glob.glob("tests/parts/*.sh")))
    names = list(crates())
    faults = faults_of(names)
    there = {name for crate in names for name in public(crate, faults)}
    listed = {line[0] for line in lines}
    wrong = [f"{name} isn't listed" for name in sorted(there - listed)]
    wrong += [f"{name} is no public function that can answer want of memory" for name in sorted(listed - there)]
    wrong += [f"{line[0]}: there is no {' '.join(line[1:]).strip()}" for line in lines if not is_there(line[1], line[2], run)]
    if len(lines) != len(listed):
        wrong.append("a function is listed twice")
    untried = sum(line[1] == "none" for line in lines)
    for text in wrong or [f"{len(listed)} functions, {untried} of them not tried"]:
        print(text)
    sys.exit(1 if wrong or not there else 0)


if __name__ == "__main__":
    main()
