#!/usr/bin/env -S python3 -B
"""Runs that are killed before each of their system calls that change files, or of which one such call fails: a file that they leave is
whole or not there.

    python3 -B tests/killed.py PROGRAM LIBRARY [COMMAND ..]

LIBRARY is tests/killed.c, built. Of `draw`, `check --report`, `check --page`, `simulate --history`, `shrink`, `init` and `fold` a run that isn't
killed says what the file holds. After one that was killed the file isn't there, or is that one; and the next run makes it, or is refused since it is there,
and leaves nothing beside it. A file that was there before stays, as does the folder that is read.

Where a call fails, as on a broken or a full device or past a quota, the run says so in a line and leaves nothing, or goes on to the same end:
the bytes of each file that it makes are synced before the file has its name, so that what `close` would refuse is told. The
last line is 'N passed, N failed'.
"""
import collections
import errno
import json
import os
import re
import shutil
import subprocess
import sys
import tempfile

FOLDER = os.path.abspath("tests/evidence/row-yes-2")
FAULTY = os.path.abspath("tests/stories/04-missing-marker")
# A faulty history, which is made first.
ROOM = tempfile.TemporaryDirectory()
HISTORY = f"{ROOM.name}/history"
THERE = "eoscheck: cannot write {}: it is there already\n"
FAILURES = errno.EIO, errno.ENOSPC, errno.EDQUOT
# The calls whose failure no run may pass over.
TOLD = {"write", "fsync"}
# What is read once more for a page's stories and pictures: where one fails, the page says why it lacks them.
READS, LACKS = {"open", "openat"}, b"<p>No (?:story|picture): eoscheck: cannot read "
# Those that take something away: where one fails, it stays.
TAKES_AWAY = {"unlink", "unlinkat"}
# A command: its words, for a file and for a folder that isn't there; how many calls it has at least; where in a folder of its own the file
# is to stand, and what is put into that folder before; its status.
Command = collections.namedtuple("Command", "words least place before status", defaults=("file", lambda scratch: None, 0))


def copy_logs(scratch):
    """A folder of copied logs without a manifest."""
    for name in os.listdir(FOLDER):
        if name != "evidence.json":
            shutil.copytree(f"{FOLDER}/{name}", f"{scratch}/{name}")


def make_folder(scratch):
    """A folder with one for folds in it, so that nothing but their files is new."""
    os.makedirs(f"{scratch}/in-0")


def fold_words(file, _):
    out = os.path.dirname(os.path.dirname(file))
    return ["fold", "--manifest", f"{FOLDER}/evidence.json", "--out", out, f"{FOLDER}/in-0"]


COMMANDS = {
    "draw": Command(lambda file, _: ["draw", FOLDER, file], 8),
    "check --report": Command(lambda file, _: ["check", "--workers", "1", "--quiet", "--report", file, FOLDER], 8),
    "check --page": Command(lambda file, _: ["check", "--workers", "1", "--quiet", "--page", file, FOLDER], 8),
    "check --page of faults": Command(lambda file, _: ["check", "--all", "--workers", "1", "--quiet", "--page", file, FAULTY], 8, status=1),
    "simulate --history": Command(lambda file, folder: ["simulate", "--seed", "7", "--events", "30", "--history", file, folder], 30),
    "shrink": Command(lambda file, _: ["shrink", "--fault", "1.5", HISTORY, file], 8),
    "init": Command(lambda file, _: ["init", "--ends-from-logs", "--app", "g:in:out", os.path.dirname(file)], 4, "evidence.json", copy_logs),
    "fold": Command(fold_words, 4, "in-0/00000000000000000000.fold", make_folder),
}


def read(path):
    with open(path, "rb") as file:
        return file.read()


def told(command, text):
    """What a file says; of a report all but how long the check took."""
    if command != "check --report":
        return text
    try:
        return {**json.loads(text), "seconds": {}}
    except json.JSONDecodeError:
        return text


class Tests:
    def __init__(self, program, library):
        self.program, self.library = program, library
        self.passed = self.failed = 0

    def expect(self, holds, what):
        self.passed += bool(holds)
        if not holds:
            self.failed += 1
            print(f"FAILED: {what}")

    def ran(self, words, **settings):
        loaded = {"LD_PRELOAD": self.library, **settings} if settings else {}
        done = subprocess.run([self.program, *words], capture_output=True, text=True, timeout=120, env={**os.environ, **loaded})
        return done.returncode, done.stdout, done.stderr

    def killed(self, name, command, at, whole):
        """Of a command the run that is killed before this call, and the next one."""
        said_of = f"{name}, killed before call {at}"
        with tempfile.TemporaryDirectory() as scratch:
            command.before(scratch)
            file = f"{scratch}/{command.place}"
            others = {*os.listdir(os.path.dirname(file)), "first", "second"}
            status, _, said = self.ran(command.words(file, f"{scratch}/first"), KILL_AT=str(at))
            self.expect(status == -9, f"{said_of}: status {status}, {said}")
            is_there = os.path.lexists(file)
            self.expect(not is_there or told(name, read(file)) == whole[0], f"{said_of}: half a file")
            again = self.ran(command.words(file, f"{scratch}/second"))
            wanted = (2, "", THERE.format(file)) if is_there else whole[1]
            self.expect(again == wanted, f"{said_of}: then {again}, not {wanted}")
            self.expect(told(name, read(file)) == whole[0], f"{said_of}: another file")
            left = {it.replace(os.path.basename(file), "file", 1) for it in set(os.listdir(os.path.dirname(file))) - others}
            self.expect(left == {"file"} or is_there and left == {"file", "file.new"}, f"{said_of}: {left} are left")

    def failed_call(self, name, command, at, call, whole):
        """Of a command the run of which this call fails, by each error where something is written."""
        for error in FAILURES if call in TOLD else FAILURES[:1]:
            said_of = f"{name}, whose call {at}, {call}, fails by {errno.errorcode[error]}"
            with tempfile.TemporaryDirectory() as scratch:
                command.before(scratch)
                file, folder = f"{scratch}/{command.place}", f"{scratch}/first"
                others = set(os.listdir(os.path.dirname(file)))
                status, out, said = self.ran(command.words(file, folder), KILL_AT=str(at), FAIL_BY=str(error))
                left = set(os.listdir(os.path.dirname(file))) - others - {os.path.basename(file), "first"}
                if call in TAKES_AWAY:
                    left -= {f"{os.path.basename(file)}.new"}
                self.expect(not left, f"{said_of}: {left} are left")
                # (what standard error doesn't take is lost)
                is_same = (status, out) == whole[1][:2] and (said == whole[1][2] or call == "print")
                if is_same and call not in TOLD:
                    is_whole = os.path.lexists(file) and told(name, read(file)) == whole[0]
                    self.expect(is_whole or "page of faults" in name and call in READS and re.search(LACKS, read(file)), f"{said_of}: another file")
                    continue
                why = re.findall("^eoscheck: cannot (?:write|read) .*", said, re.M)
                self.expect(status == 2 and len(why) == 1 and out in ("", whole[1][1]), f"{said_of}: {status} {out} {said}")
                # (the line about a file that stands is printed last)
                if call == "print" and os.path.lexists(file):
                    self.expect(told(name, read(file)) == whole[0], f"{said_of}: half a file")
                    continue
                self.expect(not os.path.lexists(file) and not os.path.lexists(folder), f"{said_of}: something is there")
                if call == "fsync":
                    places = scratch if "simulate" in name else file
                    self.expect(f"eoscheck: cannot write {places}" in said, f"{said_of}: {said}")

    def of(self, name, command):
        with tempfile.TemporaryDirectory() as scratch, tempfile.TemporaryDirectory() as beside:
            command.before(scratch)
            file, count = f"{scratch}/{command.place}", f"{beside}/count"
            others = {*os.listdir(os.path.dirname(file)), os.path.basename(file)}
            done = self.ran(command.words(file, f"{beside}/folder"), KILL_COUNT=count)
            self.expect(done[0] == command.status, f"{name}: {done}")
            whole, calls = (told(name, read(file)), done), read(count).decode().split()
            self.expect(set(os.listdir(os.path.dirname(file))) == others, f"{name}: something is left")
            self.expect(len(calls) >= command.least and "fsync" in calls and "close" in calls, f"{name} has only {calls}")
            with open(file, "w", encoding="utf-8") as other:
                other.write("other")
            done = self.ran(command.words(file, f"{beside}/third"))
            self.expect(done == (2, "", THERE.format(file)) and read(file) == b"other", f"{name} over a file: {done}")
        for at, call in enumerate(calls, 1):
            self.killed(name, command, at, whole)
            self.failed_call(name, command, at, call, whole)


def main():
    tests = Tests(*map(os.path.abspath, sys.argv[1:3]))
    script = ["simulate", "--seed", "7", "--events", "30", "--switch", "no-fence", "--history", HISTORY, f"{ROOM.name}/folder"]
    subprocess.run([os.path.abspath(sys.argv[1]), *script], stdout=subprocess.DEVNULL, timeout=60, check=True)
    for name, command in COMMANDS.items():
        if name in (sys.argv[3:] or COMMANDS):
            tests.of(name, command)
    print(f"{tests.passed} passed, {tests.failed} failed")
    return 1 if tests.failed else 0


if __name__ == "__main__":
    sys.exit(main())
