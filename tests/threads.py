#!/usr/bin/env -S python3 -B
"""How many threads `check` and `explain` start, which only their speed depends on, and how many work at once: never more than there are workers.
The caller does one share of each step itself, so a step in n shares starts n - 1, and with one worker none is started.

With N workers, over P partitions, O of them of output topics, these are: those that draw pieces and read them, N; those that join them and
make the partitions' parts, one for each 16,384 batches, at most N; and the quick walk of the matching, N, which the shards repeat where it
says no. Then M = N look at the lineage; but where the transaction log has a record or more for 4 N (N - 1) of all, M = N - 1 do so while
one reads it. The faults of single records are found in M shares or P, if these are fewer, the claims in as many shares as runs of O / M
partitions, rounded up, make; where there are 4,096 claims or more, the sort of these, in at most M; and the source logs beside the claims,
in at most M, which is one to three where there is one source partition.

Where outputs are amiss, `explain` looks for all their faults, in as many ranges of their sources as there are workers where these are few: behind
what `check` starts, N - 1. Then it reads the partitions that its story names, N at a time: here three for their folds, after the one in which the
fault stands, and four for the times of rows.

Without `--workers` there are four. Who asks `check_lineage` and names no number gets at most 64: tests/unproved.py asks that.

    python3 -B tests/threads.py PROGRAM threads.so

threads.so is tests/threads.c, built. The last line is 'N passed, N failed'.
"""
import json
import os
import subprocess
import sys
import tempfile

import table_logs
from unproved import Asked

SMALL = "tests/evidence/row-yes-2"
EACH, OUTPUTS = 1500, 4


def large(folder):
    """A folder of so many outputs in each of so many partitions, one of each input, by one transaction."""
    count = EACH * OUTPUTS
    lists = "+".join(["__consumer_offsets-0"] + [f"out-{number}" for number in range(OUTPUTS)])
    states = "Empty 1000/0", f"Ongoing 1000/0 on {lists}", f"PrepareCommit 1000/1 on {lists}", "CompleteCommit 1000/1"
    logs = [
        f"__consumer_offsets-0: committed 1000/0 (g reads in-0 to {count})",
        "__transaction_state-0: plain (" + ", ".join(f"app is {state}" for state in states) + ")",
        "in-0: plain (" + ", ".join(["a"] * count) + ")",
    ]
    # The claims of a partition stand in the order of every fourth input, the greatest first.
    for number in range(OUTPUTS):
        claims = [f"output 1/1 of in-0:{offset}" for offset in range(count - 1 - number, -1, -OUTPUTS)]
        logs.append(f"out-{number}: committed 1000/0@0 (" + ", ".join(claims) + ")")
    ends = {}
    for word in table_logs.expand("{" + "; ".join(logs) + "}", {}).split():
        name, end, segments = word.split(":")
        ends[name] = int(end)
        os.mkdir(f"{folder}/{name}")
        for segment in segments.split(","):
            base, digits = segment.split("/")
            with open(f"{folder}/{name}/{int(base):020}.log", "wb") as file:
                file.write(bytes.fromhex(digits.strip("<>")))
    with open(f"{folder}/evidence.json", "w") as file:
        json.dump({"version": 1, "group": "g", "sources": ["in"], "outputs": ["out"], "ends": ends}, file)
    return f"yes transactions=1 inputs={count} outputs={count}\n"


def shares(things, workers):
    """In how many runs of equal length, but the last, the partitions are cut."""
    run = -(-things // workers)
    return -(-things // run)


def counted(command, library, **settings):
    """How a program ended, and how many threads it has started, and how many of these were there at once."""
    with tempfile.NamedTemporaryFile(mode="r") as count:
        words = dict(os.environ, LD_PRELOAD=os.path.abspath(library), THREAD_COUNT=count.name)
        done = subprocess.run(command, env=words, capture_output=True, text=True, timeout=120, **settings)
        return done, *map(int, (count.read() or "-1 -1").split())


def check_runs(program, library):
    """For each run of `check` whether it starts so many threads, and a text."""
    with tempfile.TemporaryDirectory() as made:
        said = large(made)
        # A folder, its answer, its partitions, those of outputs, its workers, in how many shares at most the claims are sorted, and whether
        # several look at the lineage while one reads the transaction log.
        cases = [(SMALL, "yes transactions=1 inputs=2 outputs=3\n", 5, 2, workers, 1, True) for workers in (None, 1, 2, 4, 8, 64)]
        cases += [(made, said, OUTPUTS + 3, OUTPUTS, workers, workers, False) for workers in (1, 2, 3, 8)]
        for folder, answer, partitions, outputs, named, sorting, is_long in cases:
            workers = named or 4
            beside = 1 if is_long and workers > 1 else 0
            others = workers - beside
            alone, sorts = min(others, partitions) - 1, min(others, sorting)
            least = 2 * (workers - 1) + beside + alone + shares(outputs, others) - 1 + min(sorts - 1, 1)
            greatest = least + max(sorts - 2, 0) + min(others - 1, 2)
            words = ["--workers", str(named)] if named else []
            done, started, most = counted([program, "check", *words, folder], library)
            right = (done.returncode, done.stdout) == (0, answer) and least <= started <= greatest and most <= workers - 1
            yield right, (
                f"{folder}, {workers} workers: {started} threads, {most} at once, not {least} to {greatest} and {workers - 1}; "
                f"status {done.returncode}, {done.stdout}{done.stderr}"
            )


def rounds(things, workers):
    """How many threads are started for so many things, of which as many are done at a time as there are workers."""
    return sum(min(workers, things - first) - 1 for first in range(0, things, workers))


def explain_runs(program, library):
    """The same of `explain` beside `check`, where the group is another and each output is amiss, and whether `check --all` lists just
    these, in the order of inputs, by however many ranges."""
    with tempfile.TemporaryDirectory() as made:
        large(made)
        with open(f"{made}/evidence.json") as file:
            spec = json.load(file)
        with open(f"{made}/evidence.json", "w") as file:
            json.dump(dict(spec, group="h"), file)
        count = EACH * OUTPUTS
        early = [f"no 5.7 Early source=in-0:{offset} output=1 at=out-{(count - 1 - offset) % OUTPUTS}:{(count - 1 - offset) // OUTPUTS}" for offset in range(count)]
        for named in (None, 1, 2, 4, 8):
            workers = named or 4
            words = ["--workers", str(named)] if named else []
            checked, before, _ = counted([program, "check", *words, made], library)
            told, started, most = counted([program, "explain", *words, made], library)
            listed, _, _ = counted([program, "check", "--all", *words, made], library)
            more = workers - 1 + rounds(3, workers) + rounds(4, workers)
            right = (checked.returncode, told.returncode) == (1, 1) and started == before + more and most <= workers - 1
            right = right and listed.stdout.splitlines() == [*early, f"faults={count}"]
            yield right, f"explain, {workers} workers: {started} threads, {most} at once, where check starts {before}; {told.stdout[:200]}{told.stderr}"


# Over so many partitions of outputs the lineage alone is asked for.
LINEAGES = 1, OUTPUTS, 64, 65


def lineage(outputs):
    logs = "; ".join(f"out-{number}: plain (note of in-0:0)" for number in range(outputs))
    return table_logs.expand("counted check_lineage g:in:out {in-0: plain (a); " + logs + "}", {})


def judge(answers):
    """The same of the lineage alone, which tests/unproved.py asks."""
    failures = [f"the lineage: {len(answers)} answers"] * (len(answers) != len(LINEAGES))
    for outputs, answer in zip(LINEAGES, answers):
        # The input isn't below the committed offset, which is 0: the first note comes too early, and no claim is held against a log.
        started = min(outputs + 1, 64) - 1 + shares(outputs, 64) - 1
        _, _, said = answer.partition(" ")
        if not said.startswith(f"threads={started} no 5.7 Early source=in-0:0 output=0 at=out-0:0"):
            failures.append(f"the lineage of {outputs} partitions of outputs, not by {started} threads: {answer}")
    return max(len(LINEAGES) - len(failures), 0), failures


def all_asked():
    return [Asked("threads", list(map(lineage, LINEAGES)), judge)]


def main():
    program, library = sys.argv[1:]
    passed = failed = 0
    for right, text in [*check_runs(program, library), *explain_runs(program, library)]:
        if right:
            passed += 1
        else:
            failed += 1
            print(text)
    print(f"{passed} passed, {failed} failed")
    sys.exit(1 if failed else 0)


if __name__ == "__main__":
    main()
