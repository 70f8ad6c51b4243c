"""The first answers on a fresh machine: where no proved program stands, ./eoscheck answers by a build without proofs, which it makes
once and keeps, and says so.

    python3 -B tests/first_answer.py

It builds from a copy of the sources, in two or three minutes. The last line is 'N passed, N failed'.
"""
import json
import os
import shutil
import subprocess
import sys
import tempfile

TOP = os.path.dirname(os.path.dirname(os.path.abspath(__file__)))
FOLDER = "row-yes-2"
ANSWER = "yes transactions=1 inputs=2 outputs=3\n"
BUILDING = "eoscheck: building the program without its proofs, once; two or three minutes"
UNPROVED = "eoscheck: this answer is of a build that is not proved on this machine; ./eoscheck --prove proves it, once, in about "


def copy_sources(clone):
    """A fresh clone, as far as ./eoscheck reads it."""
    for name in ["crates", "tools", ".ci"]:
        shutil.copytree(f"{TOP}/{name}", f"{clone}/{name}", ignore=shutil.ignore_patterns("out"))
    for name in ["crates.txt", "eoscheck"]:
        shutil.copy(f"{TOP}/{name}", clone)


def call(clone, folder, *words, **more):
    """What ./eoscheck says to these words in this folder."""
    return subprocess.run([f"{clone}/eoscheck", *words], cwd=folder, capture_output=True, text=True, check=False, **more)


def report_of(folder):
    """The folder that a report is of, or nothing where there is none."""
    try:
        with open(f"{folder}/a report.json", encoding="utf-8") as file:
            return json.load(file)["folder"]
    except (OSError, ValueError):
        return None


def answers(clone, folder):
    """What is wanted of the first call and of those after it: names, and whether each holds."""
    first = call(clone, folder, "check", FOLDER)
    lines = first.stderr.splitlines()
    yield "the status", first.returncode == 0
    yield "the answer", first.stdout == ANSWER
    yield "that it is built first, and isn't proved", lines[:1] == [BUILDING] and lines[1].startswith(UNPROVED) and len(lines) == 2
    second = call(clone, folder, "check", "--report=a report.json", "--", FOLDER)
    lines = second.stderr.splitlines()
    yield "the second answer", (second.returncode, second.stdout) == (0, ANSWER)
    yield "that nothing is built again", len(lines) == 1 and lines[0].startswith(UNPROVED)
    yield "paths behind = and --, from the caller's folder", report_of(folder) == FOLDER
    listed = call(clone, folder, "chain", "-", stdin=subprocess.DEVNULL)
    yield "standard input, which is the caller's", listed.returncode == 0 and listed.stdout.startswith("ok ")
    refused = call(clone, folder, "check", "absent")
    yield "a refusal's status", refused.returncode == 2 and "eoscheck: cannot read absent/evidence.json" in refused.stderr
    os.utime(f"{clone}/crates/eoscheck/src/main.rt")
    nowhere = dict(os.environ, PATH="/usr/bin:/bin")
    if shutil.which("rt", path=nowhere["PATH"]) is None:
        lacking = call(clone, folder, "check", FOLDER, env=nowhere)
        yield "that a newer source wants a new build, and that the kit", lacking.returncode == 2 and "is not on the path" in lacking.stderr


def main():
    with tempfile.TemporaryDirectory() as scratch:
        clone, folder = f"{scratch}/a clone", f"{scratch}/elsewhere"
        os.mkdir(clone)
        copy_sources(clone)
        shutil.copytree(f"{TOP}/tests/evidence/{FOLDER}", f"{folder}/{FOLDER}")
        wanted = list(answers(clone, folder))
    failed = [name for name, holds in wanted if not holds]
    for name in failed:
        print(f"FAILED: the first answer: {name}")
    print(f"{len(wanted) - len(failed)} passed, {len(failed)} failed")
    return 1 if failed else 0


if __name__ == "__main__":
    sys.exit(main())
