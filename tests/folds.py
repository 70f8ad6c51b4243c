#!/usr/bin/env -S python3 -B
"""Fold files: that `fold` writes the bytes that docs/FOLD.md tells, and that `check` over folds says what it says over logs.

    python3 -B tests/folds.py PROGRAM [REFUSE.SO STREAMS.SO [PART ..]]

Each fold file of tests/evidence, tests/real-evidence and tests/simulated, of 300 random evidences and of logs that are cut is
compared with that of a second encoder (tests/fold_files.py), byte for byte. Then `check` of the folds, of folds beside logs, and of
some segments of each in one partition says the same as of the logs: line, status and notes, with 1 and with 4 workers, and in a
report all but the seconds and the folder. The folds read by a second decoder deserve the verdict too, by tests/reference.py. Fold
files that are none, and what can't be read or written, are in tests/fold_refusals.py; what hostile ones cost in
tests/fold_costs.py; `fold --verify` in tests/fold_verify.py; the commands of docs/SCALE.md in tests/fold_engines.py. REFUSE.SO and
STREAMS.SO are tests/refuse.c and tests/streams.c, built. With the names of parts (see PARTS) these alone. Run it in the repository's top folder. The last line is 'N passed, N failed'.
"""
import glob
import json
import os
import random
import re
import shutil
import subprocess
import sys
import tempfile

import fold_costs
import fold_engines
import fold_files
import fold_refusals
import fold_verify
import random_evidence
import reference
from fold_folders import (
    Tests, files_in, fold_path, fold_words, folds_of, forms_of, manifest_of, name_of, partitions_of, read, segments_of, with_folds, write,
)

TOPS = ["tests/evidence", "tests/real-evidence", "tests/as-brokers-write", "tests/simulated"]
GOOD = "tests/evidence/row-yes-2"
WORKERS = "14"
RANDOM = 300
# What a report says of the run alone.
OF_THE_RUN = ("folder", "seconds")
# What it has of records in logs alone.
TIMES = ("timestamp", "source_timestamp", "at_timestamp")
# How much of an evidence its folds may be: bytes of a value, inputs a transaction, and the share.
SIZES = [(100, 500, 0.25), (100, 10, 0.25), (100, 1, 0.2), (1000, 500, 0.03), (1000, 10, 0.03), (1000, 1, 0.06)]
# So much that most inputs are worked off, though they are written by 500.
MEBIBYTES = {100: 4, 1000: 16}


# ---- folds of folders


def folded(tests, folder, name, each=False):
    """The folds that the program writes of a folder, after they were compared with those that are wanted; or by a run for each
    partition."""
    out = tests.new("folds")
    wanted, line = folds_of(folder)
    if each or not partitions_of(folder):
        for partition in partitions_of(folder):
            status, _, err = tests.run(*fold_words(folder, out, [partition]))
            tests.same(f"{name}, fold of {partition}", (status, err), (0, ""))
    else:
        tests.same(f"{name}, fold", tests.run(*fold_words(folder, out)), (0, line, ""))
    found = files_in(out)
    tests.same(f"{name}, which folds", sorted(found), sorted(wanted))
    wrong = [path for path, data in wanted.items() if found.get(path) != data]
    tests.same(f"{name}, folds that differ", [(path, found.get(path, b"").hex(), wanted[path].hex()) for path in wrong[:1]], [])
    return found


def judged(tests, folder, folds, name):
    """The folds by the second decoder and the second program: the first line that they deserve."""
    manifest, apps = manifest_of(folder)
    parts = []
    for partition, end in sorted(manifest["ends"].items(), key=lambda it: name_of(it[0])):
        paths = sorted(path for path in folds if os.path.dirname(path) == partition)
        parts.append(fold_files.part_of(name_of(partition), end, [fold_files.read_fold(folds[path]) for path in paths]))
    tests.same(f"{name}, its folds by the second program", reference.all_faults(apps, parts)[0], reference.verdict(folder))


def mixtures(folder):
    """Which segments are folds: all; every other partition; in each partition every other segment; and the others of both."""
    yield "folds", lambda path: True
    places = {partition: at for at, partition in enumerate(partitions_of(folder))}
    orders = {fold_path(p, base): at for p in places for at, base in enumerate(segments_of(folder, p))}
    for rest in 0, 1:
        yield f"folds beside logs ({rest})", lambda path, rest=rest: places[os.path.dirname(path)] % 2 == rest
        yield f"some segments of each ({rest})", lambda path, rest=rest: orders[path] % 2 == rest


def same_answers(tests, folder, folds, name, ways):
    """What `check` says of these mixtures is what it says of the logs."""
    whole = {workers: tests.check(folder, "--workers", workers) for workers in WORKERS}
    tests.same(f"{name}, 1 and 4 workers", whole["1"], whole["4"])
    tests.same(f"{name}, a verdict", whole["1"][0] in (0, 1) and whole["1"][1] != "", True)
    for what, chosen in ways:
        made = with_folds(folder, folds, tests.new("mixed"), chosen)
        for workers in WORKERS:
            tests.same(f"{name}, {what}, {workers} workers", tests.check(made, "--workers", workers), whole[workers])


def folders(tests):
    """Each folder of evidence that has a manifest."""
    found = sorted(os.path.dirname(it) for top in TOPS for it in glob.glob(f"{top}/*/evidence.json"))
    refused = 0
    for at, folder in enumerate(found):
        said = tests.check(folder)
        if said[0] == 2:
            refused += 1
            unread(tests, folder, said)
            continue
        folds = folded(tests, folder, folder, each=at % 4 == 1)
        same_answers(tests, folder, folds, folder, mixtures(folder))
        judged(tests, folder, folds, folder)
    # those of tests/evidence whose manifest is refused
    with open("tests/evidence/expected.tsv", encoding="utf-8") as file:
        tests.same("folders without a verdict", refused, sum(line.split("\t")[1] == "2" for line in file))


def unread(tests, folder, said):
    """A folder whose manifest is refused: `fold` refuses it in the words of `check`, by its path, and writes nothing."""
    out, manifest = tests.new("folds"), os.path.join(folder, "evidence.json")
    found = tests.run("fold", "--manifest", manifest, "--out", out, os.path.join(folder, "in-0"))
    tests.same(f"{folder}, fold", found, (2, "", re.sub(r"(FOLDER/)?evidence\.json", lambda _: manifest, said[2])))
    tests.same(f"{folder}, fold writes nothing", files_in(out), {})


# ---- random evidence


def report_of(tests, folder, workers):
    """A report but for what it says of the run and of times, which folds don't keep; and how many times it has."""
    path = tests.new("report.json")
    if os.path.exists(path):
        os.remove(path)
    tests.run("check", "--quiet", "--workers", workers, "--report", path, folder)
    report = json.loads(read(path))
    tests.same(f"{folder}: how many folds a report has", report.pop("folds"), forms_of(folder).count("fold"))
    times = [fault.pop(name) for fault in report.get("faults", []) for name in TIMES if name in fault]
    return {name: value for name, value in report.items() if name not in OF_THE_RUN}, len(times)


def faulty_in(lines):
    """The partitions that have a fault by itself: to list all of these their logs are read again."""
    return {line.split()[3] for line in lines if line.startswith("no 1.")}


def all_of_folds(tests, folder, made, folds, name):
    """`check --all` of folds alone, and beside the logs of those partitions that are read again: the list of the logs, or a refusal
    that names the first fold of the first partition whose log is wanted."""
    whole = tests.check(folder, "--all")
    faulty = faulty_in(whole[1].splitlines())
    wanted = sorted((path for path in folds if os.path.dirname(path) in faulty), key=lambda path: (name_of(os.path.dirname(path)), path))
    if wanted:
        status, out, err = tests.run("check", "--all", made)
        lines = err.splitlines()
        tests.same(f"{name}, --all of folds", (status, out, lines[:1], len(lines)), (2, "", [f"eoscheck: {made}/{wanted[0]}: Fold"], 2))
        made = with_folds(folder, folds, tests.new("beside"), lambda path: path not in wanted)
    tests.same(f"{name}, --all of folds", tests.check(made, "--all"), whole)


def randoms(tests):
    """Random evidence as tests/random_evidence.py makes it, by turns as it is and with its logs cut into other segments."""
    known = {}
    with open("tests/evidence/expected.tsv", encoding="utf-8") as file:
        for name, status, _ in (line.split("\t") for line in file):
            if status != "2":
                known[name] = random_evidence.Folder(os.path.join("tests/evidence", name))
    for at in range(RANDOM):
        rng = random.Random(f"folds {at}")
        origin, folder, done = random_evidence.made(rng, known, at)
        if at % 2:
            random_evidence.cut(rng, folder)
        path, name = tests.new("random"), f"evidence {at}, {origin} with {done}"
        folder.write(path)
        folds = folded(tests, path, name)
        same_answers(tests, path, folds, name, list(mixtures(path))[: 1 if at % 5 else None])
        made = with_folds(path, folds, tests.new("mixed"))
        workers = WORKERS[at % 2]
        of_folds = report_of(tests, made, workers)
        tests.same(f"{name}, report", of_folds, (report_of(tests, path, workers)[0], 0))
        all_of_folds(tests, path, made, folds, name)


# ---- folds of nothing, and up to a fault


def copied(tests, name="copy"):
    folder = tests.new(name)
    shutil.copytree(GOOD, folder)
    subprocess.run(["chmod", "-R", "u+w", folder], check=True)
    return folder


def faults(tests):
    """The log out-0 of a worked evidence, cut at every length, with a bit turned in each byte, and with other segments beside it."""
    log = "out-0/00000000000000000000.log"
    text = read(os.path.join(GOOD, log))
    rng = random.Random("faults")
    changed = [(f"cut to {length}", text[:length]) for length in range(len(text))]
    for at in range(len(text)):
        changed.append((f"bit of byte {at}", text[:at] + bytes([text[at] ^ 1 << rng.randrange(8)]) + text[at + 1 :]))
    changed += [("zeros behind it", text + bytes(500)), ("itself behind it", text + text), ("other bytes behind it", text + b"\xff" * 13)]
    folder = copied(tests)
    for what, data in changed:
        write(os.path.join(folder, log), data)
        folds = folded(tests, folder, what)
        same_answers(tests, folder, folds, what, [("folds", lambda path: True)])


def nothing(tests):
    """Segments without bytes, partitions without segments or without a folder, and names that are no segment's."""
    folder = copied(tests)
    for base in 3, 4, 2**63 - 1:
        write(os.path.join(folder, "out-0", f"{base:020}.log"), b"")
    for name in (f"{2**63:020}.log", "00000000000000000007.index", "7.log", "00000000000000000000.fold.new"):
        write(os.path.join(folder, "out-0", name), b"x")
    folds = folded(tests, folder, "empty segments")
    empty = fold_files.read_fold(folds[fold_path("out-0", 3)])
    tests.same("a fold of nothing", (empty.size, empty.heads, empty.kept, empty.stop), (0, [], [], ()))
    same_answers(tests, folder, folds, "empty segments", mixtures(folder))
    shutil.rmtree(os.path.join(folder, "in-0"))
    os.mkdir(os.path.join(folder, "in-0"))
    folds = folded(tests, folder, "a partition without segments")
    tests.same("its folds", [path for path in folds if path.startswith("in-0/")], [])
    tests.same("its words", tests.run(*fold_words(folder, tests.new("folds"), ["in-0"])), (0, "folded segments=0 bytes=0\n", ""))
    same_answers(tests, folder, folds, "a partition without segments", mixtures(folder))
    made = with_folds(folder, folds, tests.new("mixed"))
    os.rmdir(os.path.join(made, "in-0"))
    tests.same("without a folder", tests.check(made), tests.check(folder))


# ---- what docs/SCALE.md says of faults


def alone(folder, line):
    """The partitions that are enough for a fault of phase 1, or of phase 2."""
    if line.startswith("no 1."):
        return [line.split()[3]]
    return [it for it in manifest_of(folder)[0]["ends"] if it.startswith("__transaction_state-")]


def fewer(tests):
    """A fault of a log by itself, and one of the transaction log, is the same where only those logs are evidence, and is told there."""
    tried = 0
    with open("tests/evidence/expected.tsv", encoding="utf-8") as file:
        rows = [line.rstrip("\n").split("\t") for line in file]
    for name, _, line in rows:
        if not line.startswith(("no 1.", "no 2.")):
            continue
        folder, part = os.path.join("tests/evidence", name), tests.new("part")
        manifest = manifest_of(folder)[0]
        manifest["ends"] = {it: manifest["ends"][it] for it in alone(folder, line)}
        write(os.path.join(part, "evidence.json"), json.dumps(manifest).encode())
        for partition in set(manifest["ends"]) & set(partitions_of(folder)):
            shutil.copytree(os.path.join(folder, partition), os.path.join(part, partition))
        tests.same(f"{name}, of fewer partitions", tests.check(part)[:2], (1, f"{line}\n"))
        status, out, err = tests.run("explain", part)
        tests.same(f"{name}, its story of fewer partitions", (status, out.split("\n")[0], err), (1, line, ""))
        tried += 1
    tests.same("faults of phases 1 and 2 are tried", tried > 40, True)


# ---- stories over folds


def told_of(tests, folder, name):
    """Whether a folder's story shows all of its rows; then it is the same over folds of all partitions that it doesn't name, and where
    these are folds too, the first of them that it asks for is refused, if any is there."""
    status, out, err = tests.run("explain", folder)
    if status != 1 or ".. and " in out:
        return False
    manifest, apps = manifest_of(folder)
    ours = {b"__consumer_offsets", b"__transaction_state"}.union(*(app.sources | app.outputs for app in apps))
    named = {it for it in partitions_of(folder) if re.search(rf"\b{re.escape(it)}(?![0-9])", out) or name_of(it)[0] not in ours}
    named |= faulty_in(tests.check(folder, "--all")[1].splitlines())
    folds = folds_of(folder)[0]
    made = with_folds(folder, folds, tests.new("told"), lambda path: os.path.dirname(path) not in named)
    tests.same(f"{name}, its story over folds", tests.run("explain", made), (status, out.replace(folder, made), err.replace(folder, made)))
    told = status, out, err
    made = with_folds(folder, folds, tests.new("told"))
    status, out, err = tests.run("explain", made)
    if named.isdisjoint(partitions_of(folder)):
        tests.same(f"{name}, its story of what isn't there where all are folds", (status, out.replace(made, folder), err.replace(made, folder)), told)
        return True
    found = re.match(rf"eoscheck: {re.escape(made)}/([^/\n]+)/[0-9]{{20}}[.]fold: Fold\n", err)
    tests.same(f"{name}, its story where all are folds", (status, out, bool(found) and found[1] in named), (2, "", True))
    return True


def stories(tests):
    """Stories need the logs of the partitions that they name, and of no others."""
    with open("tests/evidence/expected.tsv", encoding="utf-8") as file:
        rows = [line.rstrip("\n").split("\t") for line in file]
    told = [told_of(tests, os.path.join("tests/evidence", name), name) for name, _, line in rows if line.startswith("no ")]
    tests.same("stories over folds are tried", sum(told) > 40, True)


# ---- worked folds, and how large folds are


def worked(tests):
    """The worked fold of docs/FOLD.md, whose bytes were put down by hand, is that of the segment that the page names."""
    with open("docs/FOLD.md", encoding="utf-8") as file:
        rows = re.findall(r"^\| `([0-9a-f ]+)` \| ", file.read().split("## A worked fold")[1], re.M)
    wanted = bytes.fromhex("".join(rows))
    folds, _ = folds_of(GOOD)
    tests.same("the worked fold, second encoder", folds["out-0/00000000000000000000.fold"].hex(" "), wanted.hex(" "))
    out = tests.new("folds")
    tests.run(*fold_words(GOOD, out, ["out-0"]))
    tests.same("the worked fold", files_in(out), {"out-0/00000000000000000000.fold": wanted})
    for path, data in folds.items():
        tests.same(f"{path}, read and written again", fold_files.file_of(fold_files.read_fold(data)), data)


def maker(tests, size):
    """bench/folder.c with values of this size."""
    program = os.path.join(tests.room, f"folder-{size}")
    subprocess.run(["cc", "-O2", f"-DSIZE={size}", "-o", program, "bench/folder.c"], check=True)
    return program


def made_folder(tests, program, mebibytes, inputs=500):
    """A folder of good evidence with the verdict that it deserves."""
    folder = tests.new("made")
    words = [program, folder, str(mebibytes), "7", str(inputs)]
    return folder, subprocess.run(words, capture_output=True, text=True, check=True).stdout.splitlines()[0]


def sizes(tests):
    """How large the folds of made folders are, which deserve the verdict; the smaller ones also by the second encoder."""
    programs = {size: maker(tests, size) for size, _, _ in SIZES}
    for size, inputs, most in SIZES:
        folder, verdict = made_folder(tests, programs[size], MEBIBYTES[size], inputs)
        name = f"values of {size} bytes, {inputs} inputs a transaction"
        if size == 100:
            folds = folded(tests, folder, name)
        else:
            tests.run(*fold_words(folder, tests.new("folds")))
            folds = files_in(os.path.join(tests.room, "folds"))
        logs = sum(os.path.getsize(it) for it in glob.glob(f"{folder}/*/*.log"))
        share = sum(map(len, folds.values())) / logs
        tests.same(f"{name}: {share:.4f} is at most {most}", share <= most, True)
        same_answers(tests, folder, folds, name, [("folds", lambda path: True)])
        tests.same(f"{name}, the verdict that it deserves", tests.check(folder)[1], f"{verdict}\n")


def engines(tests):
    folder, _ = made_folder(tests, maker(tests, 100), 1)
    fold_engines.engines(tests, ["tests/simulated/seed-7", folder])


PARTS = {
    "worked": worked,
    "folders": folders,
    "randoms": randoms,
    "faults": faults,
    "nothing": nothing,
    "fewer": fewer,
    "stories": stories,
    "sizes": sizes,
    "refused_files": fold_refusals.refused_files,
    "refused_places": fold_refusals.refused_places,
    "refused_reads": fold_refusals.refused_reads,
    "refused_writes": fold_refusals.refused_writes,
    "refused_memory": fold_refusals.refused_memory,
    "verified": fold_verify.verified,
    "costs": fold_costs.costs,
    "words": fold_refusals.words,
    "engines": engines,
}


def main():
    program, *libraries = map(os.path.abspath, sys.argv[1:4])
    with tempfile.TemporaryDirectory() as room:
        # tests/fold_refusals.py writes there as another user
        os.chmod(room, 0o755)
        tests = Tests(program, room)
        tests.libraries = libraries
        for name in sys.argv[4:] or PARTS:
            PARTS[name](tests)
    print(f"{tests.passed} passed, {tests.failed} failed")
    sys.exit(1 if tests.failed or not tests.passed else 0)


if __name__ == "__main__":
    main()
