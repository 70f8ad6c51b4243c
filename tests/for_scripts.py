#!/usr/bin/env -S python3 -B
"""What scripts rest on: `check --strict` and `--expect` over each folder of tests/evidence and tests/stories, `--report -`, `--force`, the
words that these refuse, and help into a pipe that nobody reads.

    python3 -B tests/for_scripts.py PROGRAM

What is wanted comes from the folders' own lists, and of notes from tests/notes_reference.py or the stories' files. The last line is
'N passed, N failed'.
"""
import json
import os
import re
import subprocess
import sys
import tempfile

EVIDENCE = "tests/evidence"
STORIES = "tests/stories"
GOOD = f"{EVIDENCE}/row-yes-2"
YES = "yes transactions=1 inputs=2 outputs=3\n"
NOTED = f"{STORIES}/32-group-and-output-misspelled"
FAULTY = f"{STORIES}/01-duplicate-output"
COUNTS = ("transactions", "inputs", "outputs")

passed = failed = 0


def same(what, found, want):
    global passed, failed
    if found == want:
        passed += 1
    else:
        failed += 1
        print(f"FAILED: {what}: {found}, not {want}")


def run(*words, **streams):
    streams = {"stdout": subprocess.PIPE, "stderr": subprocess.PIPE, **streams}
    done = subprocess.run([program, *words], stdin=subprocess.DEVNULL, timeout=120, check=False, **streams)
    return done.returncode, (done.stdout or b"").decode(), (done.stderr or b"").decode()


def rows():
    """Each folder with its status, its line and its notes."""
    for top in (EVIDENCE, STORIES):
        with open(f"{top}/expected.tsv", encoding="utf-8") as file:
            for row in file:
                name, status, line = row.rstrip("\n").split("\t")
                yield f"{top}/{name}", int(status), line, notes_of(top, name) if status != "2" else ""


def notes_of(top, name):
    if top == STORIES:
        with open(f"{top}/{name}.notes", encoding="utf-8") as file:
            return file.read()
    told = subprocess.run([sys.executable, "-B", "tests/notes_reference.py", f"{top}/{name}"], capture_output=True, text=True, check=True)
    return told.stdout


def expecting(counts):
    return [word for name, count in counts.items() for word in ("--expect", f"{name}={count}")]


def strict(folder, status, line, notes):
    """With --strict only the status of a yes with notes is another; so it is with --quiet, which leaves the notes out."""
    want = 4 if status == 0 and notes else status
    same(f"{folder}: strict", run("check", "--strict", folder), (want, f"{line}\n", notes))
    same(f"{folder}: strict and quiet", run("check", "--strict", "--quiet", folder), (want, f"{line}\n", ""))


def expected(folder, status, line, notes):
    """What is expected of a yes has no say in a no."""
    if status == 1:
        same(f"{folder}: expected of a no", run("check", "--expect", "inputs=0", folder), (1, f"{line}\n", notes))
        return
    counts = {name: int(re.search(rf" {name}=(\d+)", line)[1]) for name in COUNTS}
    same(f"{folder}: as expected", run("check", *expecting(counts), folder), (0, f"{line}\n", notes))
    for name in COUNTS:
        for other in {counts[name] + 1, max(counts[name] - 1, 0)} - {counts[name]}:
            words = expecting({**counts, name: other})
            said = f"eoscheck: {folder}: {name}={counts[name]}, but {other} were expected\n"
            same(f"{folder}: {name}={other}", run("check", *words, folder), (4, f"{line}\n", f"{notes}{said}"))
    others = {name: count + 7 for name, count in counts.items()}
    said = "".join(f"eoscheck: {folder}: {name}={counts[name]}, but {others[name]} were expected\n" for name in COUNTS)
    words = [*expecting(dict(reversed(others.items()))), "--strict", "--quiet"]
    same(f"{folder}: none as expected", run("check", *words, folder), (4, f"{line}\n", said))


def each_folder():
    seen = set()
    for folder, status, line, notes in rows():
        if status == 2:
            plain = run("check", folder)
            same(f"{folder}: unread", run("check", "--strict", "--expect", "inputs=1", folder), plain)
            same(f"{folder}: its status", plain[0], 2)
            continue
        seen.add((status, bool(notes)))
        strict(folder, status, line, notes)
        expected(folder, status, line, notes)
    same("yes and no with and without notes", len(seen), 4)


def beside_others():
    """Of several folders, as JSON, and with all faults."""
    same("several", run("check", "--expect", "inputs=2", "--strict", GOOD, GOOD), (0, f"{GOOD}: {YES}" * 2, ""))
    said = f"{GOOD}: eoscheck: {GOOD}: outputs=3, but 18446744073709551615 were expected\n"
    words = ["check", "--expect", f"outputs={2**64 - 1}"]
    same("several, otherwise", run(*words, GOOD, GOOD), (4, f"{GOOD}: {YES}" * 2, said * 2))
    status, out, err = run(*words, GOOD, "absent")
    same("the greatest status", (status, out, err.startswith(said)), (4, f"{GOOD}: {YES}", True))
    status, out, err = run(*words, FAULTY, GOOD)
    same("the greatest status, of a no", (status, out.count("\n")), (4, 2))
    said = f"eoscheck: {GOOD}: inputs=2, but 0 were expected\n"
    value = '{"answer":"yes","inputs":2,"outputs":3,"transactions":1}\n'
    same("as JSON", run("check", "--json", "--expect", "inputs=0", GOOD), (4, value, said))
    same("with all faults", run("check", "--all", "--expect", "inputs=0", GOOD), (4, YES, said))
    same("all of a no", run("check", "--all", "--strict", "--expect", "inputs=0", FAULTY), run("check", "--all", FAULTY))


def report_of(text):
    report = json.loads(text)
    del report["seconds"]
    return report


def standard_report():
    """The report alone stands on standard output, what else is printed on standard error."""
    for folder in (GOOD, FAULTY, NOTED):
        path = os.path.join(scratch, "report.json")
        status, out, err = run("check", "--report", path, folder)
        with open(path, encoding="utf-8") as file:
            want = report_of(file.read())
        os.remove(path)
        found = run("check", "--report", "-", folder)
        same(f"{folder}: the report on standard output", (found[0], report_of(found[1]), found[2]), (status, want, out + err))
        same(f"{folder}: one line", found[1].count("\n"), 1)
    same("no verdict, no report", run("check", "--report", "-", "absent"), run("check", "absent"))
    same("of several", run("check", "--report", "-", GOOD, GOOD), (2, "", "eoscheck: check --report takes one FOLDER\n"))
    same("--force has no say", run("check", "--force", "--report", "-", GOOD)[0], 0)
    with open("/dev/full", "wb") as full:
        same("a full device", run("check", "--report", "-", GOOD, stdout=full), (2, "", f"{YES}eoscheck: cannot write -\n"))
        same("no lines", run("check", "--report", "-", GOOD, stderr=full), (2, "", ""))


def forced():
    """With --force a report replaces a file, whole, and only where there is a verdict."""
    path = os.path.join(scratch, "forced.json")
    for before in ("", "mine", "m" * 100_000):
        with open(path, "w", encoding="utf-8") as file:
            file.write(before)
        same("over a file", run("check", "--force", "--report", path, GOOD), (0, YES, ""))
        with open(path, encoding="utf-8") as file:
            same("the report", json.loads(file.read())["answer"], "yes")
    os.remove(path)
    same("where none is", run("check", "--force", "--report", path, GOOD), (0, YES, ""))
    with open(path, "w", encoding="utf-8") as file:
        file.write("mine")
    same("no verdict", run("check", "--force", "--report", path, "absent")[0], 2)
    with open("/dev/full", "wb") as full:
        same("an answer that can't be written", run("check", "--force", "--report", path, GOOD, stdout=full)[0], 2)
    same("without --force", run("check", "--report", path, GOOD), (2, "", f"eoscheck: cannot write {path}: it is there already\n"))
    with open(path, encoding="utf-8") as file:
        same("it stays as it was", file.read(), "mine")
    for there in (scratch, "/dev/null"):
        words = ["check", "--force", "--report", there, GOOD]
        same(f"over {there}", run(*words), (2, "", f"eoscheck: cannot write {there}: it is there already\n"))
    same("the device stays", os.path.isfile("/dev/null"), False)
    round_about = f"{scratch}/{'../' * scratch.count('/')}dev/null"
    words = ["check", "--force", "--report", round_about, GOOD]
    same("a device by another path", run(*words), (2, "", f"eoscheck: cannot write {round_about}: it is there already\n"))
    pipe = os.path.join(scratch, "pipe")
    os.mkfifo(pipe)
    same("over a pipe", run("check", "--force", "--report", pipe, GOOD), (2, "", f"eoscheck: cannot write {pipe}: it is there already\n"))
    os.remove(pipe)
    beside = f"{path}.whole"
    with open(beside, "w", encoding="utf-8") as file:
        file.write("of a run that was killed")
    same("one is left beside", run("check", "--force", "--report", path, GOOD), (2, "", f"eoscheck: cannot write {beside}: it is there already\n"))
    with open(path, encoding="utf-8") as file:
        same("it stays then too", file.read(), "mine")
    os.remove(beside)
    absent = os.path.join(scratch, "absent", "report.json")
    same("no such folder", run("check", "--force", "--report", absent, GOOD), (2, "", f"eoscheck: cannot write {absent}: no such folder\n"))
    same("nothing else is left", os.listdir(scratch), ["forced.json"])


def bad_words():
    takes = "--expect takes transactions=N, inputs=N and outputs=N, each once"
    for words, word in (
        (["inputs"], "inputs"),
        (["inputs="], "inputs="),
        (["inputs=x"], "inputs=x"),
        (["inputs=-1"], "inputs=-1"),
        (["inputs=+1"], "inputs=+1"),
        (["inputs= 1"], "inputs= 1"),
        (["inputs=1.0"], "inputs=1.0"),
        (["inputs=1=1"], "inputs=1=1"),
        ([f"inputs={2**64}"], f"inputs={2**64}"),
        (["input=1"], "input=1"),
        (["Inputs=1"], "Inputs=1"),
        (["=1"], "=1"),
        ([""], ""),
        (["faults=1"], "faults=1"),
        (["inputs=1", "inputs=1"], "inputs=1"),
        (["outputs=1", "inputs=1", "outputs=2"], "outputs=2"),
    ):
        words = [part for it in words for part in ("--expect", it)]
        same(f"{words}", run("check", *words, GOOD), (2, "", f"eoscheck: {word}: {takes}\n"))
    path = os.path.join(scratch, "report.json")
    same("before the report's file", run("check", "--expect", "x", "--report", path, GOOD)[0], 2)
    same("no file", os.path.exists(path), False)
    for words in (["--expect"], ["--strict=1"], ["--strict", "--strict"], ["--force"]):
        status, out, err = run("check", *words, GOOD)
        same(f"{words}", (status, out, err != ""), (2, "", True))


def left_alone():
    """Help of which nobody reads more ends without a word, as a program does that the signal ends."""
    for words in (["--help"], ["check", "--help"], ["--version"]):
        ours, theirs = os.pipe()
        os.close(ours)
        same(f"{words} into a closed pipe", run(*words, stdout=theirs), (141, "", ""))
        os.close(theirs)


def main():
    each_folder()
    beside_others()
    standard_report()
    forced()
    bad_words()
    left_alone()
    print(f"{passed} passed, {failed} failed")
    return bool(failed)


if __name__ == "__main__":
    program = os.path.abspath(sys.argv[1])
    with tempfile.TemporaryDirectory() as scratch:
        status = main()
    sys.exit(status)
