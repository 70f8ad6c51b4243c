"""The page docs/YES.md names definitions that there are, each in the file beside it, and every kind of fault.

    python3 -B tests/yes_page.py

A row of its tables with a file in the last column names in the column before what that file defines. The codes and names of
faults are compared with the numbers that the definitions give them. The last line is 'N passed, N failed'.
"""
import os
import re
import sys

PAGE = "docs/YES.md"


def defines(path, name):
    with open(path, encoding="utf-8") as file:
        text = file.read()
    return re.search(rf"^(?:(?:pub|abbrev|unfoldable|record|data) )*{re.escape(name)}(?=[ :(])", text, re.M)


def rows(text):
    for line in text.splitlines():
        cells = [it.strip() for it in line.strip("|").split("|")]
        if line.startswith("|") and len(cells) > 1:
            yield cells


def main():
    with open(PAGE, encoding="utf-8") as file:
        text = file.read()
    passed, wrong = 0, []

    def expect(holds, why):
        nonlocal passed
        passed += bool(holds)
        if not holds:
            wrong.append(why)

    for path in re.findall(r"`((?:crates|docs)/[\w./]+)`", text):
        expect(os.path.isfile(path), f"{path}: there is no such file")
    for *_, names, path in rows(text):
        file = re.fullmatch(r"`(crates/\w+/specs/\w+\.antt)`", path)
        if file and os.path.isfile(file[1]):
            for name in re.findall(r"`(\w+)`", names):
                expect(defines(file[1], name), f"{file[1]} doesn't define {name}")
    # The names and numbers in the definitions of each phase, in their order.
    said = {cells[0]: cells[1].strip("`") for cells in rows(text) if re.fullmatch(r"[1-5]\.\d+", cells[0])}
    kinds = {}
    for phase, path, first in (
        ("1", "crates/eos_touch/specs/FaultNames.antt", "row_of"),
        ("1", "crates/eos_touch/specs/Pair.antt", "row_of"),
        ("2", "crates/eos_verdict/specs/LogNames.antt", "row_of"),
        ("3", "crates/eos_verdict/specs/MatchNames.antt", "row_of"),
        ("4", "crates/eos_verdict/specs/VisibleNames.antt", "row_of"),
        ("5", "crates/eos_claims/specs/Faults.antt", "row_of"),
    ):
        with open(path, encoding="utf-8") as file:
            for name, number, printed in re.findall(rf'^{first} \(?(\w+)[^=\n]* = \(?(\d+)(?:, codes "(\w+)".*\))?$', file.read(), re.M):
                kinds[f"{phase}.{number}"] = name
                expect(printed in ("", name), f"{phase}.{number} {name} is printed {printed}")
    for code in sorted(kinds.keys() | said.keys()):
        expect(kinds.get(code) == said.get(code), f"{code} is {kinds.get(code)} in the definitions, and {said.get(code)} on the page")
    print("\n".join(wrong))
    print(f"{passed} passed, {len(wrong)} failed")
    return 1 if wrong or passed < 50 else 0


if __name__ == "__main__":
    sys.exit(main())
