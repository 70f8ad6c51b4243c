"""Rows of tables, of which each allocation is refused in turn. The row is then answered as it says, or it is said that memory ran out.
Any other answer is a failure. Of a table these are the rows whose calls tests/allocating.txt names, since what else allocates is
refused to one of them or to a run.

The builder of evidence, the simulated cluster and lists of what is kept of records go on after a refusal: tests/rows makes such a call
again, answers the row as it says, and marks that. Of each call of GOES_ON some row of the table has to be marked so.

tests/unproved.py asks them, of the program whose heap is tests/rows/heap.c. Rows with more than MOST allocations are left out, of
which refusals.txt has none.
"""
import collections
import os
import re

import tables
from unproved import Asked, together

HERE = os.path.dirname(os.path.abspath(__file__))
NAMES = f"{HERE}/allocating.txt"
REFUSED = ("OutOfMemory", "AllocError", "AllocFailed", "out of memory")
MOST = 300
# That table, of small rows, and how many allocations its rows may have.
SMALL, SMALL_MOST = "refusals.txt", 3000
# The table whose rows take longest, and how many of them are one run.
LONG, EACH = "all_faults.txt", 7
# The calls after whose refusals the program goes on.
GOES_ON = {"add_segments", "cluster", "keep_texts"}
# Where the writer is refused memory of its own, that is a failed write.
FAILED_WRITES = {"write_verdict": 'Err(Write) ""'}
# What is said of a row: how many allocations there are, a sign for each, and texts.
SAID = re.compile(r"(\d+) ([=+a-z]*)\t([^\t]*)(?:\t(.*))?")


def calls():
    """Of each table the calls that the list of what allocates names."""
    found = collections.defaultdict(set)
    with open(NAMES, encoding="utf-8") as file:
        for table, call in re.findall(r" (\w+\.txt)=(\w+)$", file.read(), re.M):
            found[table].add(call)
    return found


def judged(row, answer, most):
    """Of a row the signs of its refusals, how many of these are told, and a text for each that is something else."""
    said = SAID.fullmatch(answer)
    if not said or said[3].strip() != row.answer:
        return "", 0, [f"{row.place}: with none refused it is {tables.cut(answer)}"]
    count, signs, call = int(said[1]), said[2], row.call.split()[0]
    if len(signs) != (count if count <= most else 0) or not count:
        return "", 0, [f"{row.place}: {count} allocations, {len(signs)} of them refused"]
    others = dict(zip("abcdefghijklmnopqrstuvwxyz", said[4].split("\t") if said[4] is not None else []))
    is_told = {sign: any(name in text for name in REFUSED) for sign, text in others.items()}
    wrong = [sign for sign in set(signs) - {"=", "+"} if not is_told.get(sign) and others.get(sign, "").strip() != FAILED_WRITES.get(call)]
    failures = [f"{row.place}, allocation {signs.index(sign) + 1}: {tables.cut(others.get(sign, ''))}" for sign in sorted(wrong)]
    return signs, sum(sign == "+" or is_told.get(sign, False) for sign in signs), failures


def judge(name, rows, answers):
    """How many rows of a table pass, and a text for each failure."""
    most = SMALL_MOST if name == SMALL else MOST
    failures = [f"{name}: {len(answers)} answers to {len(rows)} rows"] * (len(answers) != len(rows))
    told = tried = passed = 0
    again = {row.call.split()[0]: False for row in rows}
    for row, answer in zip(rows, answers):
        signs, refusals, wrong = judged(row, answer, most)
        again[row.call.split()[0]] |= "+" in signs
        told, tried, passed, failures = told + refusals, tried + bool(signs), passed + (not wrong), failures + wrong
        if not signs and not wrong and name == SMALL:
            failures.append(f"{row.place}: too many allocations")
    failures += [f"{name}: no {call} goes on after a refusal" for call in sorted(again) if call in GOES_ON and not again[call]]
    if told < tried or not tried:
        failures.append(f"{name}: of {tried} rows {told} refusals are told")
    return passed, failures


def asked_of(name, rows):
    most = SMALL_MOST if name == SMALL else MOST
    return Asked(name, [f"refused {most} {row.call}" for row in rows], lambda answers: judge(name, rows, answers))


def asked(paths, run="refused"):
    """The rows of these tables whose allocations are refused."""
    found = []
    for path in paths:
        name = os.path.basename(path)
        rows = [row for row in tables.rows_of(path)[0] if row.call.split()[0] in calls()[name]]
        if rows:
            found.append(asked_of(name, rows))
    return together(run, found)


def all_asked():
    """A run for each table, and of all_faults.txt for each EACH rows: a row of many allocations, each of them refused, takes seconds."""
    found = [asked([f"{HERE}/tables/{name}"], f"refused-{name}") for name in sorted(calls()) if name != LONG]
    rows = [row for row in tables.rows_of(f"{HERE}/tables/{LONG}")[0] if row.call.split()[0] in calls()[LONG]]
    return found + [together(f"refused-{at}-{LONG}", [asked_of(LONG, rows[at : at + EACH])]) for at in range(0, len(rows), EACH)]
