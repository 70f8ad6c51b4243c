#!/usr/bin/env -S python3 -B
"""Small stacks: each command answers as it does with a large one, down to 64 KiB for the main thread. The C library gives as
much to each further thread.

    python3 -B tests/stacks.py PROGRAM [--least]

CONTRIBUTING.md names the largest frames. What a run prints and leaves has to be what it prints and leaves
with 8 MiB; of two the words are also those that stand here. The last line is 'N passed, N failed'. With --least it prints instead how
many KiB each command wants, to 4.
"""
import os
import resource
import shutil
import subprocess
import sys
import tempfile

GOOD = "tests/evidence/row-yes-2"
FAULTY = "tests/stories/01-duplicate-output"
LOG = f"{FAULTY}/orders-0/00000000000000000000.log"
LARGE = 8192
SIZES = (LARGE, 2048, 512, 128, 64)
KNOWN = {
    ("check", GOOD): (0, "yes transactions=1 inputs=2 outputs=3\n", ""),
    ("coordinator", "billing"): (0, "billing partition=9\n", ""),
}

passed = failed = 0


def same(what, found, want):
    global passed, failed
    if found == want:
        passed += 1
    else:
        failed += 1
        print(f"FAILED: {what}: {found}, not {want}")


def commands(room):
    """The words of each command, and the file or folder that it leaves."""
    folds = f"{room}/folds"
    return [
        (["--help"], None),
        (["check", "--help"], None),
        (["check", GOOD], None),
        (["check", "--workers", "1", GOOD], None),
        (["check", "--workers", "4", FAULTY], None),
        (["check", "--json", "--all", FAULTY], None),
        (["check", "--report", f"{room}/report.json", FAULTY], None),
        (["check", f"{room}/nothing"], None),
        (["check", f"{room}/folded"], None),
        (["explain", FAULTY], None),
        (["explain", "--code", "5.10"], None),
        (["draw", FAULTY, f"{room}/new.svg"], f"{room}/new.svg"),
        (["dump", "--decode", LOG], None),
        (["chain", LOG], None),
        (["coordinator", "billing"], None),
        (["simulate", "--seed", "7", "--events", "60", "--history", f"{room}/history", f"{room}/simulated"], f"{room}/simulated/evidence.json"),
        (["simulate", "--schedule", f"{room}/history.kept", f"{room}/again"], f"{room}/again/evidence.json"),
        (["simulate", "--every", "2"], None),
        (["shrink", "--fault", "1.5", f"{room}/faulty.kept", f"{room}/small"], f"{room}/small"),
        (["fold", "--manifest", f"{GOOD}/evidence.json", "--out", folds, *partitions()], f"{folds}/{os.path.basename(partitions()[0])}"),
        (["fold", "--verify", f"{room}/folded", GOOD], None),
        (["init", "--app", "billing:orders:payments", "--ends-from-logs", f"{room}/copied"], f"{room}/copied/evidence.json"),
    ]


def partitions():
    return sorted(f"{GOOD}/{name}" for name in os.listdir(GOOD) if os.path.isdir(f"{GOOD}/{name}"))


def cleared(room):
    """The folder without what a run leaves, with what a run wants."""
    shutil.rmtree(room, ignore_errors=True)
    os.mkdir(room)
    shutil.copytree(FAULTY, f"{room}/copied")
    os.unlink(f"{room}/copied/evidence.json")


def left_at(path):
    """What stands there: a file's bytes, a folder's names."""
    if path is None or not os.path.exists(path):
        return None
    if os.path.isdir(path):
        return sorted(os.listdir(path))
    with open(path, "rb") as file:
        return file.read()


def answer(program, words, path, size):
    """What a run with a stack of so many KiB says, and what it leaves."""
    limits = (size * 1024, resource.getrlimit(resource.RLIMIT_STACK)[1])
    done = subprocess.run([program, *words], stdin=subprocess.DEVNULL, capture_output=True, timeout=300, env={},
                          preexec_fn=lambda: resource.setrlimit(resource.RLIMIT_STACK, limits))
    return done.returncode, done.stdout.decode(), done.stderr.decode(), left_at(path)


def run(program, room, at, size):
    """The words of a command, and its answer with so many KiB."""
    cleared(room)
    prepare(program, room)
    words, path = commands(room)[at]
    return words, answer(program, words, path, size)


def tell_least(program, room, at):
    """Prints how many KiB a command wants."""
    words, wanted = run(program, room, at, LARGE)
    few, enough = 16, LARGE
    while enough - few > 4:
        half = (few + enough) // 8 * 4
        if run(program, room, at, half)[1] == wanted:
            enough = half
        else:
            few = half
    print(enough, " ".join(os.path.relpath(it, room) if it.startswith(room) else it for it in words[:6]), flush=True)


def main(program, least=None):
    with tempfile.TemporaryDirectory() as scratch:
        room = f"{scratch}/room"
        for at in range(len(commands(room))):
            if least:
                tell_least(program, room, at)
                continue
            wanted = None
            for size in SIZES:
                words, found = run(program, room, at, size)
                what = f"{' '.join(words[:2])} with {size} KiB of stack"
                if size == LARGE:
                    wanted = found
                    same(f"{what}: it ends by itself", found[0] in (0, 1, 2), True)
                    if tuple(words) in KNOWN:
                        same(what, found[:3], KNOWN[tuple(words)])
                else:
                    same(what, found, wanted)
    print(f"{passed} passed, {failed} failed")
    return failed != 0


def prepare(program, room):
    """A history, and a folder of folds, as the commands want them, by the system's own stack."""
    for words in (
        ["simulate", "--seed", "7", "--events", "60", "--history", f"{room}/history.kept", f"{room}/kept"],
        ["simulate", "--seed", "7", "--events", "60", "--switch", "no-fence", "--history", f"{room}/faulty.kept", f"{room}/faulty"],
        ["fold", "--manifest", f"{GOOD}/evidence.json", "--out", f"{room}/folded", *partitions()],
    ):
        subprocess.run([program, *words], stdin=subprocess.DEVNULL, capture_output=True, timeout=300, check=True)
    shutil.copy(f"{GOOD}/evidence.json", f"{room}/folded/evidence.json")


if __name__ == "__main__":
    sys.exit(main(*sys.argv[1:3]))
