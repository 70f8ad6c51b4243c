#!/usr/bin/env -S python3 -B
"""Worked segments on standard input, and standard streams that falter: what the program writes and says of them.

    tests/streams.py PROGRAM STREAMS.SO

STREAMS.SO is tests/streams.c, built. The bytes of the segments were made by another program. Prints what is wrong, and as
its last line 'N passed, N failed'.
"""
import os
import subprocess
import sys
import tempfile

# One plain record with null key and value `a`, without a producer; and its listing.
PLAIN = bytes.fromhex(
    "0000000000000000000000390000000002dbe9c87600000000000000000000000000000000000000000000ffffffffffffff"
    "ffffffffffffff000000010e00000001026100"
)
LISTING = (
    "batch byte=0 base=0 count=1 producer=-1 epoch=-1 sequence=-1 plain\n"
    "record offset=0 key=null value=61 headers=0\n"
    "end bytes=69\n"
)

# Two records of a transaction of producer 1000, each with five headers, and its commit.
KEPT = bytes.fromhex(
    "0000000000000000000000d900000000027cbce8480010000000010000000000000000000000000000000000000000000003"
    "e800000000000000000002a4010000000102760a10656f2e746f70696304696e18656f2e706172746974696f6e0800000000"
    "12656f2e6f666673657410000000000000000012656f2e6f757470757408000000010a656f2e6f660800000002a401000002"
    "0102770a10656f2e746f70696304696e18656f2e706172746974696f6e080000000012656f2e6f6666736574100000000000"
    "00000112656f2e6f757470757408000000010a656f2e6f66080000000100000000000000020000004200000000021e3466f0"
    "0030000000000000000000000000000000000000000000000000000003e80001ffffffff000000012000000008000000010c"
    "00000000000000"
)

# A commit of producer 1000 at epoch 1, and then transactional data at epoch 1.
MARKER_FIRST = bytes.fromhex(
    "00000000000000000000004200000000021e3466f00030000000000000000000000000000000000000000000000000000003"
    "e80001ffffffff000000012000000008000000010c00000000000000000000000000000100000039000000000233501a5900"
    "10000000000000000000000000000000000000000000000000000003e8000100000000000000010e00000001026100"
)

# Transactional data of producer 1000 at epoch 0, and then at epoch 1.
RISES_WHILE_OPEN = bytes.fromhex(
    "00000000000000000000003900000000026cb4c6060010000000000000000000000000000000000000000000000000000003"
    "e8000000000000000000010e00000001026100000000000000000100000039000000000233501a5900100000000000000000"
    "00000000000000000000000000000000000003e8000100000000000000010e00000001026100"
)

passed = failed = 0


def expect(holds, what):
    global passed, failed
    if holds:
        passed += 1
    else:
        failed += 1
        print(f"FAILED: {what}")


def run(data, *words, **streams):
    """The exit status, the output and what is said, with these bytes on standard input and these streams."""
    settings = {f"STREAM_{name.upper()}": str(value) for name, value in streams.items()}
    done = subprocess.run(
        [program, *words], input=data, capture_output=True, timeout=60, env=dict(os.environ, LD_PRELOAD=library, **settings)
    )
    return done.returncode, done.stdout.decode(), done.stderr.decode()


def same(what, found, status, output, said=""):
    expect(found == (status, output, said), f"{what}: {found}")


def worked():
    same("a listing", run(PLAIN, "dump", "-"), 0, LISTING)
    status, listing, said = run(PLAIN + bytes(5), "dump", "-")
    expect((status, said) == (1, "") and listing.endswith("bad byte=69 Truncated\n"), f"five bytes more: {listing}")
    for data, status, line in [
        (b"", 0, "ok batches=0 producers=0\n"),
        (PLAIN, 0, "ok batches=1 producers=0\n"),
        (KEPT, 0, "ok batches=2 producers=1\n"),
        (MARKER_FIRST, 0, "ok batches=2 producers=1\n"),
        (RISES_WHILE_OPEN, 1, "no 1.6 EpochWhileOpen offset=1 producer=1000\n"),
    ]:
        same(f"the chain {line}", run(data, "chain", "-"), status, line)


CANNOT_READ = "eoscheck: cannot read -\n"
CANNOT_WRITE = "eoscheck: cannot write -\n"
# What Linux says of EIO.
BROKEN = "  Input/output error (os error 5)\n"


def failing():
    for command in ("dump", "chain"):
        same(f"{command} of no stream", run(PLAIN, command, "-", broken=1), 2, "", CANNOT_READ + BROKEN)
    for room in (0, 3, 10, 100):
        same(f"a listing in {room} bytes", run(PLAIN, "dump", "-", room=room), 2, LISTING[:room], CANNOT_WRITE)
    same("a listing in 1000 bytes", run(PLAIN, "dump", "-", room=1000), 0, LISTING)
    same("a chain in 10 bytes", run(KEPT, "chain", "-", room=10), 2, "ok batches", CANNOT_WRITE)


def in_steps():
    """A chain is read chunk by chunk: a stream that gives few bytes at a time, or breaks after some."""
    for data, status, line in [(KEPT, 0, "ok batches=2 producers=1\n"), (RISES_WHILE_OPEN, 1, "no 1.6 EpochWhileOpen offset=1 producer=1000\n")]:
        for step in (1, 7, 61, 4096):
            same(f"{line.strip()} in steps of {step}", run(data, "chain", "-", step=step), status, line)
            same(f"{line.strip()} in steps of {step}, interrupted", run(data, "chain", "-", step=step, reads=2), status, line)
        # also behind the least fault: the answer is about all bytes
        for breaks in (0, 1, 69, 70, len(data) - 1, len(data)):
            for step in (1, 61):
                same(f"{line.strip()}, broken at byte {breaks}", run(data, "chain", "-", breaks=breaks, step=step), 2, "", CANNOT_READ + BROKEN)
    same("a chain that is interrupted too often", run(KEPT, "chain", "-", reads=1000), 2, "", CANNOT_READ)


def interrupted():
    """What is interrupted is tried again, up to a thousand times in a row."""
    for times in (1, 999):
        found = run(PLAIN, "dump", "-", reads=times, writes=times, step=10)
        same(f"streams that are interrupted {times} times", found, 0, LISTING)
    same("an output that is interrupted too often", run(PLAIN, "dump", "-", writes=1000), 2, "", CANNOT_WRITE)
    same("an input that is interrupted too often", run(PLAIN, "dump", "-", reads=1000), 2, "", CANNOT_READ)


def told():
    """How much was written, of a cluster that did nothing."""
    line = "wrote partitions=6\n"
    with tempfile.TemporaryDirectory() as scratch:
        words = ["simulate", "--seed", "7", "--events", "0"]
        same("simulate of nothing", run(b"", *words, f"{scratch}/whole"), 0, line)
        for room in (0, 3):
            found = run(b"", *words, f"{scratch}/{room}", room=room)
            same(f"simulate in {room} bytes", found, 2, line[:room], CANNOT_WRITE)


if __name__ == "__main__":
    program, library = map(os.path.abspath, sys.argv[1:])
    worked()
    failing()
    in_steps()
    interrupted()
    told()
    print(f"{passed} passed, {failed} failed")
    sys.exit(1 if failed else 0)
