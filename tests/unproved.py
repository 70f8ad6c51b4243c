#!/usr/bin/env -S python3 -B
"""What an unproved program answers: one build of the calls that the tables of cases and some scripts ask for, and a run for each.

    python3 -B tests/unproved.py            all tables of tests/tables, tests/bad_rows.txt, and what scripts ask
    python3 -B tests/unproved.py TABLE ..   these tables alone, with what tests/refuse_each.py refuses to their rows
    python3 -B tests/unproved.py --layout   lays out the sources of tests/rows

The program is made of tests/rows, in a crate of its own beside copies of the repository's. The kit's `rt try` builds it without any
proof, and it tests what it does as it runs. Its heap is that of tests/rows/heap.c, so that rows can be asked of which each allocation
is refused, or what they hold is bounded. The last line is 'N passed, N failed'.
"""
import collections
import glob
import os
import re
import shutil
import subprocess
import sys
import tempfile

TOP = os.path.dirname(os.path.dirname(os.path.abspath(__file__)))
SOURCES = f"{TOP}/tests/rows"
# What the kit's interpreter, which is slow, may do, and how long the compiled program may take for one file of rows.
LIMITS = "--steps", "1", "--seconds", "1800"
# Lines of the kit's own on standard error, which every run has.
OWN = re.compile(r"(interpreter: |checked: the program ended|allocations: |races: |rt: compiling )")

# Rows of one run: its name, the calls, and what finds in the answers how many pass, and a text for each failure.
Asked = collections.namedtuple("Asked", "name rows judge")


def together(name, asked):
    """These lists of rows as those of one run: each run takes a second more than its rows."""

    def judge(answers):
        passed, failures, at = 0, [], 0
        for it in asked:
            last = at + len(it.rows) if it is not asked[-1] else None
            good, bad = it.judge(answers[at:last])
            passed, failures, at = passed + good, failures + bad, last
        return passed, failures

    return Asked(name, [row for it in asked for row in it.rows], judge)


def sources():
    """The program's sources in Rattle, by their paths below tests/rows."""
    paths = sorted(glob.glob(f"{SOURCES}/**/*.rattle", recursive=True))
    return [os.path.relpath(path, SOURCES)[: -len(".rattle")] for path in paths]


def derive(folder):
    """Has types of the crates below this folder derive what rows print and compare them by, as tests/rows/derives.txt lists them."""
    with open(f"{SOURCES}/derives.txt", encoding="utf-8") as file:
        lines = [line for line in file.read().splitlines() if not line.startswith("#")]
    for line in lines:
        (crate, *traits), names = (part.split() for part in line.split(":"))
        for path in glob.glob(f"{folder}/crates/{crate}/src/**/*.rt", recursive=True):
            with open(path, encoding="utf-8") as file:
                text = file.read()
            items = rf"(?m)^( *pub (?:struct|enum) (?:{'|'.join(names)})\b)"
            more = re.sub(items, rf"#[derive({', '.join(traits)})]\n\1", text)
            if more != text:
                with open(path, "w", encoding="utf-8") as file:
                    file.write(more)


def make_crate(folder):
    """The program's crate, below this folder."""
    shutil.copytree(f"{TOP}/crates", f"{folder}/crates", ignore=shutil.ignore_patterns("out"))
    derive(folder)
    crate = f"{folder}/crates/rows"
    words = set()
    for name in sources():
        os.makedirs(os.path.dirname(f"{crate}/src/{name}"), exist_ok=True)
        shutil.copy(f"{SOURCES}/{name}.rattle", f"{crate}/src/{name}.rt")
        with open(f"{crate}/src/{name}.rt", encoding="utf-8") as file:
            words.update(re.findall(r"\w+(?=::)", file.read()))
    os.mkdir(f"{crate}/c")
    shutil.copy(f"{SOURCES}/heap.c", f"{crate}/c")
    with open(f"{TOP}/crates.txt", encoding="utf-8") as file:
        lines = file.read()
    known = re.findall(r"\w+", re.sub(r"#.*", "", lines))
    with open(f"{folder}/crates.txt", "w", encoding="utf-8") as file:
        file.write(f"{lines}rows: {' '.join(sorted(words & set(known)))}\n")
    return crate


def laid_out(crate):
    """Lays out the program's crate, and names the files of tests/rows that were otherwise."""
    done = subprocess.run(["rt", "fmt"], cwd=crate, capture_output=True, text=True, check=False)
    return re.findall(r"^rt: formatted src/([\w/]+)\.rt$", done.stdout, re.M)


def parts_of(text, names):
    """What stands behind each line '== NAME' of these names, in its order."""
    parts, found = {}, []
    for line in text.removesuffix("\n").split("\n"):
        if line[:3] == "== " and line[3:] in names:
            found = parts.setdefault(line[3:], [])
        else:
            found.append(line)
    return parts


def ends_of(text):
    """How each run ended, and what was said of it besides."""
    ends, said = {}, []
    for line in text.splitlines():
        case = re.match(r"case=(\S+) (.*)", line)
        if case:
            ends[case[1]] = case[2], said
            said = []
        elif not OWN.match(line):
            said.append(line[:300])
    return ends, said


def run(asked):
    """The answers to each list of rows, how its run ended, what was said besides, and which sources have another layout."""
    with tempfile.TemporaryDirectory() as folder:
        crate = make_crate(folder)
        others = laid_out(crate)
        os.mkdir(f"{folder}/cases")
        for it in asked:
            with open(f"{folder}/cases/{it.name}", "w", encoding="utf-8") as file:
                file.writelines(f"{row}\n" for row in it.rows)
        words = [f"{TOP}/tools/try", "--own-heap", *LIMITS, "--cases", f"{folder}/cases"]
        allowed = dict(os.environ, RT_ALLOW_C="rows")
        done = subprocess.run(words, cwd=crate, env=allowed, capture_output=True, text=True, errors="replace", check=False)
    ends, said = ends_of(done.stderr)
    return parts_of(done.stdout, {it.name for it in asked}), ends, said, others


def failures_of(asked):
    """How many rows pass, and a text for each failure."""
    parts, ends, said, others = run(asked)
    if not ends:
        error = next((at for at, line in enumerate(said) if "error" in line), max(len(said) - 9, 0))
        return 0, ["the unproved program wasn't built or run:\n" + "\n".join(said[error : error + 9])]
    passed, failures = 0, [f"tests/rows/{name}.rattle has another layout: tests/unproved.py --layout" for name in others]
    for it in asked:
        end, why = ends.get(it.name, ("it wasn't run", []))
        if not end.startswith("run=ended status=0 "):
            failures.append(f"{it.name}: {end}: " + " ".join(why)[:2000])
        good, bad = it.judge(parts.get(it.name, []))
        passed, failures = passed + good, failures + bad
    return passed, failures


def tell(asked):
    """Prints the failures and the counts; the status."""
    passed, failures = failures_of(list(asked))
    for failure in failures:
        print(failure)
    print(f"{passed} passed, {len(failures)} failed")
    return 1 if failures else 0


def lay_out():
    """Lays out the program's sources."""
    with tempfile.TemporaryDirectory() as folder:
        crate = make_crate(folder)
        for name in laid_out(crate):
            shutil.copy(f"{crate}/src/{name}.rt", f"{SOURCES}/{name}.rattle")
            print(f"laid out tests/rows/{name}.rattle")
    return 0


def main():
    words = sys.argv[1:]
    if words == ["--layout"]:
        return lay_out()
    # (here, since they import this module)
    import chunks
    import join_orders
    import quick_walk
    import random_schedules
    import refuse_each
    import round_trips
    import tables
    import threads

    if words:
        return tell([together("tables", list(map(tables.asked, words))), refuse_each.asked(words)])
    scripts = tables, refuse_each, threads, round_trips, join_orders, chunks, quick_walk, random_schedules
    return tell(it for asks in scripts for it in asks.all_asked())


if __name__ == "__main__":
    sys.exit(main())
