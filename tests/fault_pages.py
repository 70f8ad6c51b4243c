"""The catalogue of faults: each kind of docs/YES.md has a page, docs/FAULTS.md has all pages, and the help of check lists all kinds.

    python3 -B tests/fault_pages.py PROGRAM            compares
    python3 -B tests/fault_pages.py PROGRAM --write    writes docs/FAULTS.md

The kinds, their names and their order are those of docs/YES.md, which another test holds against the definitions. The last line
is 'N passed, N failed'.
"""
import re
import subprocess
import sys

PAGE = "docs/FAULTS.md"
HEAD = """# The kinds of faults

What `check` answers after *no*, kind by kind: what it says, what it means, what makes it happen, and what to look at next.
`eoscheck explain --code 5.10` prints a page of it. A phase counts only where those before it have no fault; which definition
stands behind a kind is in `YES.md`, and what an answer about a whole folder often is in `EVIDENCE.md`.

A row of a story ends in the time of its record, and of a batch in that of its first record, as ` at 2026-11-22T10:15:03.120Z`; before
1970 and past the year 9999 it is a number of milliseconds. It is the time that the batch has: of the producer's clock, or of the
broker's where the topic has `message.timestamp.type=LogAppendTime`. Clocks lie: no verdict rests on a time, and none on the order of two.

This page is made from the program's own table, by `tests/fault_pages.py`.
"""
PHASES = {
    "1": "Phase 1: a partition's log by itself",
    "2": "Phase 2: the transaction log",
    "3": "Phase 3: decisions and logs",
    "4": "Phase 4: single visible records",
    "5": "Phase 5: the outputs",
}
# where the help says what a kind is
COLUMN = 24
HEADINGS = ["What it says", "What it means", "What makes it happen, the likeliest first", "What to look at"]
# of a kind whose rows may show more than the kind
CASES = "What the rows of its story may show, the first that holds"


def kinds():
    """The code and the name of each kind, in order."""
    with open("docs/YES.md", encoding="utf-8") as file:
        return re.findall(r"^\| ([1-5]\.\d+) \| `(\w+)` \|", file.read(), re.M)


def run(program, *words):
    return subprocess.run([program, *words], stdin=subprocess.DEVNULL, capture_output=True, text=True, check=False)


def markdown(text):
    title, *sections = text.rstrip("\n").split("\n\n")
    said = [f"### {title}\n"]
    for section in sections:
        heading, _, lines = section.partition("\n")
        said.append(f"**{heading}.**" + ("\n\n" if lines.startswith("- ") else " ") + lines + "\n")
    return "\n".join(said)


def listed(helped):
    """The kinds that the help lists, phase by phase: of each its code, its name and the lines of what it is; None for another line."""
    phases = []
    for block in helped.rstrip("\n").split("\n\n"):
        if re.match(r"  \d\.\d+ ", block):
            found = []
            for line in block.split("\n"):
                row = re.fullmatch(r"  (\d\.\d+) (\w+)( *)(\S.*)", line)
                if row and len(line) - len(row[4]) == COLUMN:
                    found.append((row[1], row[2], [row[4]]))
                elif found and found[-1] and re.fullmatch(rf" {{{COLUMN}}}\S.*", line):
                    found[-1][2].append(line[COLUMN:])
                else:
                    found.append(None)
            phases.append(found)
    return phases


def main():
    program = sys.argv[1]
    passed, wrong, pages, phase = 0, [], [HEAD], ""
    helped = run(program, "check", "--help").stdout

    def expect(holds, why):
        nonlocal passed
        passed += bool(holds)
        if not holds:
            wrong.append(why)

    for code, name in kinds():
        ran = run(program, "explain", "--code", code)
        expect((ran.returncode, ran.stderr) == (0, ""), f"{code}: status {ran.returncode}, {ran.stderr}")
        expect(ran.stdout.startswith(f"{code} {name}\n"), f"{code}: its page isn't that of {name}")
        headings = [it.partition("\n")[0] for it in ran.stdout.split("\n\n")[1:]]
        expect(headings in (HEADINGS, [*HEADINGS, CASES]), f"{code}: other sections")
        named = run(program, "explain", "--code", name)
        expect((named.returncode, named.stdout, named.stderr) == (0, ran.stdout, ""), f"{name}: another page by its name")
        expect(max(map(len, ran.stdout.splitlines())) <= 78, f"{code}: a line is too long")
        if code[0] != phase:
            phase = code[0]
            pages.append(f"## {PHASES[phase]}\n")
        pages.append(markdown(ran.stdout))
    text = "\n".join(pages)
    if "--write" in sys.argv[2:]:
        with open(PAGE, "w", encoding="utf-8") as file:
            file.write(text)
    with open(PAGE, encoding="utf-8") as file:
        expect(file.read() == text, f"{PAGE} isn't what the program's pages say: write it by --write")
    phases = listed(helped)
    rows = [row for phase in phases for row in phase]
    expect(None not in rows, f"the help of check has a line of another form: {rows}")
    rows = [row for row in rows if row]
    expect([row[:2] for row in rows] == kinds(), f"the help of check lists other kinds: {[row[:2] for row in rows]}")
    expect([{row[0][0] for row in phase if row} for phase in phases] == [{it} for it in PHASES], "its empty lines aren't between phases")
    for code, _, lines in rows:
        expect(len(lines) <= 2 and max(map(len, lines)) <= 80 - COLUMN, f"{code}: the help says more than two lines: {lines}")
    expect(len({" ".join(lines) for _, _, lines in rows}) == len(rows), "the help says the same of two kinds")
    expect(rows and helped.endswith(f"{rows[-1][2][-1]}\n"), "the help goes on behind its list")
    for code in ("", "0.1", "1.12", "5.1", "6.1", "5.100", "510", "repeated", "Repeate", "5.10 Repeated", "5.10 "):
        ran = run(program, "explain", "--code", code)
        want = (2, "", f"eoscheck: no fault has the code {code}\n")
        expect((ran.returncode, ran.stdout, ran.stderr) == want, f"code {code!r}: {ran}")
    for words in (["explain"], ["explain", "--code"], ["explain", "5.10"]):
        ran = run(program, *words)
        expect(ran.returncode == 2 and not ran.stdout and ran.stderr, f"{words}: {ran}")
    for why in wrong:
        print(f"FAILED: {why}")
    print(f"{passed} passed, {len(wrong)} failed")
    return bool(wrong)


if __name__ == "__main__":
    sys.exit(main())
