#!/usr/bin/env -S python3 -B
"""What is said of the crates as a whole: their order, their place in the map and among the tests, and how long things get.

    python3 -B tests/shape.py

Each crate of crates.txt stands below those that name it, and names none that its sources don't; it stands in the map of
docs/ARCHITECTURE.md, and CONTRIBUTING.md says which tests are its own (tests/rooms.py looks at the rest that is said of it). No
function has more than five parameters or 45 lines, its contract and its body together, and no file more than 400 lines. The code
that names the kit's files, of which no contract can say what they hold, is in one crate and has at most 100 lines. The last line
is 'N passed, N failed'.
"""
import glob
import os
import re
import sys

MOST_PARAMETERS = 5
MOST_LINES = 45
MOST_LINES_OF_A_FILE = 400
# The crate that names the kit's files, how it does, and how many lines of code those files of it may have.
DISK = "eos_disk"
KIT_FILES = re.compile(r"\bstd::fs\b|\bstd::\{[^}]*\bfs\b|\bfs::|\bFile::")
MOST_LINES_OF_THE_DISK = 100
# The crate that is nothing but callers.
TESTS = {"eos_tests"}
COMMENTS = {"rt": re.compile(r"//.*"), "antt": re.compile(r"--.*")}
TEXTS = re.compile(r'"(?:\\.|[^"\\])*"')
OPENING = {"(": ")", "[": "]", "{": "}", "<": ">"}
HEAD = re.compile(r"( *)(?:pub(?:\(\w+\))? )?(?:const )?(?:unsafe )?fn (\w+)")


def read(path):
    with open(path, encoding="utf-8") as file:
        return file.read()


def sources(crate, ending):
    """The files of a crate with this ending, each without its comments."""
    for path in sorted(glob.glob(f"crates/{crate}/**/*.{ending}", recursive=True)):
        if f"crates/{crate}/out/" not in path:
            yield path, COMMENTS[ending].sub("", read(path))


def crates():
    """Of each crate of crates.txt, in their order, those that it names."""
    found = {}
    for line in read("crates.txt").splitlines():
        name, colon, below = line.partition("#")[0].partition(":")
        if colon:
            found[name.split()[0]] = below.split()
    return found


def close(text, at):
    """The place of the bracket that closes the one at this place; an arrow closes none."""
    waiting = []
    for place in range(at, len(text)):
        char = text[place]
        if char in OPENING and not (char == "<" and text[place - 1] == " "):
            waiting.append(OPENING[char])
        elif waiting and char == waiting[-1] and not (char == ">" and text[place - 1] in "-="):
            waiting.pop()
            if not waiting:
                return place
    return len(text)


def parameters(text, at):
    """How many parameters stand in the brackets that open at this place."""
    last = close(text, at)
    count, place, begun = 0, at + 1, False
    while place < last:
        char = text[place]
        if char in "([{<":
            place = close(text, place)
        elif char == ",":
            count, begun = count + begun, False
        elif not char.isspace():
            begun = True
        place += 1
    return count + begun


def functions(text):
    """Each function's name, and how many parameters it has."""
    for found in re.finditer(r"\bfn (\w+)", text):
        at = found.end()
        if text[at : at + 1] == "<":
            at = close(text, at) + 1
        if text[at : at + 1] == "(":
            yield found.group(1), parameters(text, at)


def of_list(found, say):
    """crates.txt against the folders and the sources."""
    folders = {os.path.basename(os.path.dirname(path)) for path in glob.glob("crates/*/src")}
    for name in sorted(folders ^ set(found)):
        say(False, f"{name} is a folder or a line of crates.txt, not both")
    above = set()
    for name, below in found.items():
        words = set()
        for ending in COMMENTS:
            for _, text in sources(name, ending):
                words.update(re.findall(r"\w+", text))
        for it in below:
            say(it not in found or it in above, f"crates.txt: {name} stands above {it}")
            say(it in words, f"crates.txt: no source of {name} names {it}")
        above.add(name)


def of_documents(found, say):
    """The documents that speak of each crate."""
    picture = read("docs/ARCHITECTURE.md").partition("## The ways")[0]
    tests = read("CONTRIBUTING.md")
    for name in found:
        say(name in TESTS or re.search(rf"\b{name}\b", picture), f"docs/ARCHITECTURE.md: the map lacks {name}")
        say(name in TESTS or f"`{name}`" in tests, f"CONTRIBUTING.md: no tests of {name}")


def bodies(text):
    """Each function's name, and how many lines it has from its head to the bracket that closes it, which stands below the head
    in the layout of rt fmt. A method without a body is left out."""
    name = None
    for line in text.splitlines():
        head = HEAD.match(line)
        if head:
            margin, name, count = head.group(1), head.group(2), 0
        if name:
            count += 1
            if line in (f"{margin}}}", f"{margin}{{}}") or head and line.endswith("}"):
                yield name, count
                name = None


def unproved():
    """The files of the unproved program that tests/unproved.py builds, each without its comments."""
    for path in sorted(glob.glob("tests/rows/**/*.rattle", recursive=True)):
        yield path, COMMENTS["rt"].sub("", read(path))


def of_sizes(found, say):
    """The sizes of files and functions."""
    for path, text in [it for crate in found for it in sources(crate, "rt")] + list(unproved()):
        lines = len(text.splitlines())
        say(lines <= MOST_LINES_OF_A_FILE, f"{path} has {lines} lines")
        for name, count in bodies(text):
            say(count <= MOST_LINES, f"{path}: {name} has {count} lines")
        for name, count in functions(TEXTS.sub('""', text)):
            say(count <= MOST_PARAMETERS, f"{path}: {name} has {count} parameters")


def of_kit_files(found, say):
    """The code that names the kit's files."""
    lines = 0
    for name in found:
        for path, text in sources(name, "rt"):
            if not KIT_FILES.search(text):
                continue
            if name == DISK:
                lines += sum(bool(line.strip()) for line in text.splitlines())
            else:
                say(False, f"{path} names the kit's files, which {DISK} is for")
    say(0 < lines <= MOST_LINES_OF_THE_DISK, f"{DISK} has {lines} lines of code that name the kit's files")


def main():
    passed, failures = 0, []

    def say(holds, failure):
        nonlocal passed
        if holds:
            passed += 1
        else:
            failures.append(failure)

    found = crates()
    of_list(found, say)
    of_documents(found, say)
    of_sizes(found, say)
    of_kit_files(found, say)
    print(*failures, sep="\n", end="\n" * bool(failures))
    print(f"{passed} passed, {len(failures)} failed")
    return bool(failures)


if __name__ == "__main__":
    sys.exit(main())
