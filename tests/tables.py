#!/usr/bin/env python3
"""Tables of cases: what is read of them, and how answers are compared with them. It runs tables through a program that answers
each line with a line, and prints each difference with its file and line, and last 'N passed, N failed'; the exit status is 1
where one failed. tests/unproved.py asks all tables.

    python3 tests/tables.py PROGRAM TABLE ..

A row is 'CALL ARGS => ANSWER'; empty lines and lines that begin with '#' say nothing. A row without an answer, an answer
of no row, a table without rows and a program that ends early or in a status other than 0 are failures too. What a program says of
a row that it can't read, 'bad row', no row may ask for; it has to say so of each line of tests/bad_rows.txt.

Bytes may be put together between '<' and '>', of hexadecimal digits, texts such as 'in', and names in capitals. Each may
be cut, as in KEY[2:], and repeated, as in 'a'*300; a '#' in a text is the number of the repetition. They stand for their
digits, or for '-' where there are none. A line 'NAME = <..>' gives bytes a name. What stands in braces in ARGS is written
out as bytes by tests/table_logs.py, with the pieces that lines 'let NAME = ..' name.
"""
import collections
import glob
import os
import re
import subprocess
import sys

from unproved import Asked, together

try:
    import table_logs
except ModuleNotFoundError as error:
    if error.name != "table_logs":
        raise
    table_logs = None

HERE = os.path.dirname(os.path.abspath(__file__))

Row = collections.namedtuple("Row", "place call answer")

PART = r"((?:[0-9a-f]{2})+|'[^']*'|[A-Z][A-Z_0-9]*)(?:\[(-?[0-9]*):(-?[0-9]*)\])?(?:\*([0-9]+))?"
PARTS = re.compile(rf"<(\s*{PART}(?:\s+{PART})*\s*)>")
NAMING = re.compile(r"([A-Z][A-Z_0-9]*) = (.*)")
# What is answered to a row that can't be read.
UNREADABLE = "bad row"
# How many bytes the rows of hostile.txt may hold, whose counts no bytes bear out.
LITTLE = 8 << 20


def bytes_of(parts, names):
    """The digits of what stands between '<' and '>'."""
    found = b""
    for part, first, last, times in re.findall(PART, parts):
        if part.startswith("'"):
            data = part[1:-1].encode()
        else:
            data = bytes.fromhex(names[part] if part[0].isupper() else part)
        data = data[int(first or 0) : int(last) if last else None]
        if times and part.startswith("'"):
            data = b"".join(data.replace(b"#", b"%d" % number) for number in range(int(times)))
        elif times:
            data *= int(times)
        found += data
    return found.hex() or "-"


def written_out(text, names, pieces):
    """A text with the digits of its bytes in their place."""
    text = PARTS.sub(lambda match: bytes_of(match[1], names), text)
    if "{" in text and table_logs:
        text = PARTS.sub(lambda match: bytes_of(match[1], names), table_logs.expand(text, pieces))
    return text


def row_of(line, names, pieces):
    """The call and the answer of a row, or None where the line gives a name."""
    if line.startswith("let ") and table_logs:
        table_logs.define(line, pieces)
        return None
    naming = NAMING.fullmatch(line)
    if naming:
        names[naming[1]] = bytes.fromhex(written_out(naming[2], names, pieces)).hex()
        return None
    call, arrow, answer = (line + " ").partition(" => ")
    if not arrow or not call.strip() or not answer.strip() or answer.strip() == UNREADABLE:
        raise ValueError("no row")
    answer = PARTS.sub(lambda match: bytes_of(match[1], names), answer)
    call = written_out(call, names, pieces).strip()
    if "<" in call:
        raise ValueError("bytes that can't be put together")
    return call, answer.strip()


def rows_of(table):
    """The rows of a table, and a text for each line that is none."""
    rows, bad, names, pieces = [], [], {}, {}
    with open(table, encoding="utf-8") as file:
        lines = file.read().split("\n")
    for number, line in enumerate(lines, 1):
        line, place = line.strip(), f"{table}:{number}"
        if not line or line.startswith("#"):
            continue
        try:
            row = row_of(line, names, pieces)
        except Exception as error:
            bad.append(f"{place}: {type(error).__name__}, {error}: {line[:100]}")
            continue
        if row:
            rows.append(Row(place, *row))
    if not rows:
        bad.append(f"{table}: no rows")
    return rows, bad


def unreadable(table):
    """The lines of a file as rows that can't be read."""
    with open(table, encoding="utf-8") as file:
        lines = enumerate(file.read().splitlines(), 1)
    return [Row(f"{table}:{number}", line, UNREADABLE) for number, line in lines if not line.startswith("#")]


def cut(text):
    return text if len(text) < 2000 else text[:2000] + " .."


def compare(table, rows, answers):
    """How many of these answers are those of the rows, and a text for each failure."""
    passed, failures = 0, []
    for row, answer in zip(rows, answers):
        if answer.strip() == row.answer:
            passed += 1
        else:
            failures.append(f"{row.place}: {cut(row.call)}\n    is   {cut(answer)}\n    not  {cut(row.answer)}")
    failures += [f"{row.place}: no answer" for row in rows[len(answers) :]]
    failures += [f"{table}: an answer of no row: {cut(answer)}" for answer in answers[len(rows) :]]
    return passed, failures


def asked_of(table, rows, bad):
    """What tests/unproved.py asks for these rows of a table, whose other lines are bad."""

    def judge(answers):
        passed, failures = compare(table, rows, answers)
        return passed, bad + failures

    return Asked(os.path.basename(table), [row.call for row in rows], judge)


def asked(table):
    return asked_of(table, *rows_of(table))


def all_asked():
    """All tables, and the rows that can't be read."""
    found = sorted(glob.glob(os.path.join(HERE, "tables", "*.txt")))
    bad_rows = os.path.join(HERE, "bad_rows.txt")
    first = asked_of(bad_rows, unreadable(bad_rows), [] if found else ["no tables"])
    hostile = rows_of(os.path.join(HERE, "tables", "hostile.txt"))[0]
    little = asked_of("hostile.txt in little room", [row._replace(call=f"within {LITTLE} {row.call}") for row in hostile], [])
    return [together("tables", [first, *map(asked, found), little])]


def run(program, table):
    """What comes of a table's rows by a program."""
    rows, failures = rows_of(table)
    lines = "".join(f"{row.call}\n" for row in rows)
    done = subprocess.run([program], input=lines.encode(), capture_output=True, timeout=600, check=False)
    answers = done.stdout.decode(errors="replace").split("\n")
    last = answers.pop()
    if last:
        failures.append(f"{table}: a part of a line at the end: {cut(last)}")
    passed, bad = compare(table, rows, answers)
    failures += bad
    if done.returncode or done.stderr:
        failures.append(f"{table}: status {done.returncode}, {cut(done.stderr.decode(errors='replace'))}")
    return passed, failures


def main():
    program, *found = sys.argv[1:]
    passed, failures = 0, [] if found else ["no tables"]
    for table in found:
        good, bad = run(program, table)
        passed, failures = passed + good, failures + bad
    for failure in failures:
        print(failure)
    print(f"{passed} passed, {len(failures)} failed")
    sys.exit(1 if failures else 0)


if __name__ == "__main__":
    main()
