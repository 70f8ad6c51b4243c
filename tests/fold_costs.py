"""What hostile folds cost: memory by their own bytes, and time by a fold of a log of the same size and by the segment that they say.

For tests/folds.py. Each fold is made by tests/fold_files.py, with its checksum right, and stands in the place of one of a good folder.
There are 90, or as many as FOLD_COSTS says, which as many processes try as there are processors: by hand
`FOLD_COSTS=5000 python3 -B tests/folds.py PROGRAM '' '' costs`. The last line but one tells the most that one of them took.
"""
import multiprocessing
import os
import random
import resource
import subprocess
import sys

import fold_files
from fold_files import CLAIMS, PRESENCE, TEXTS, Fold, Head
from fold_folders import Tests, fold_path, folds_of, with_folds, write

GOOD = "tests/evidence/row-yes-2"
# What a byte of a fold may hold. It is dearest where neither a key nor a value is there: three bytes say such a record, and a check holds
# it as it was read and as it is kept.
BYTES = 64
# How many times the time of a fold of a log. Records that only have to be there take none of a fold's bytes, so a check of a fold may
# take as long besides as reading the segment that it says would, by so many bytes a second.
TIMES, SPEED = 10, 40_000_000
# What runs differ by, in bytes and in seconds; and how many runs one may take that takes longer, for what else the machine does.
ROOM, SECONDS, RUNS = 2**18, 0.05, 3
# So many are tried by one process.
FEW = 90
# Of how many bytes a fold is at least of which it is told what it took, so that these are little beside it.
TOLD_OF = 100_000
PLACES = {PRESENCE: (b"in", 0), CLAIMS: (b"out", 0), TEXTS: (b"__consumer_offsets", 0)}


def fold_with(roles, heads, kept=(), epochs=None, topics=()):
    size = sum(head.size for head in heads)
    epochs = [(0, 0)] if epochs is None and heads else epochs or []
    return Fold(roles, *PLACES[roles], 0, size, 0, heads, epochs, list(topics), list(kept), ())


def batch_of(count):
    return [Head(0, None, count, 61 + 7 * count, -1, -1, -1)]


def logged(roles, size, chance):
    """Of a log as brokers have it, with about so many bytes."""
    if roles == PRESENCE:
        return fold_with(roles, [Head(1, None, 3, 300, 2**20 + at, 0, 3 * at) for at in range(size // 12)])
    if roles == CLAIMS:
        claims = [fold_files.Claim(b"in", chance.randrange(9), at, 1, 1) for at in range(size // 8)]
        return fold_with(roles, batch_of(len(claims)), claims, topics=[b"in"])
    texts = [(b"group-%06d" % chance.randrange(10**6) + b"topic", chance.randbytes(24), None) for at in range(size // 42)]
    return fold_with(roles, batch_of(len(texts)), texts)


def hostile(kind, size, chance):
    """A fold of about so many bytes that says much."""
    if kind == "null texts":
        return fold_with(TEXTS, batch_of(size // 3), [(None, None, None)] * (size // 3))
    if kind == "empty texts":
        return fold_with(TEXTS, batch_of(size // 5), [(b"", b"", None)] * (size // 5))
    if kind == "shared texts":
        long = chance.choice([31, 32, 47, 100, 127, 128, 140])
        text = chance.randbytes(long)
        return fold_with(TEXTS, batch_of(size // 16), [(text, text, None)] * (size // 16))
    if kind == "no claims":
        return fold_with(CLAIMS, batch_of(size), [None] * size, topics=[b"in"])
    if kind == "topics":
        return fold_with(CLAIMS, [], topics=[b""] * size)
    if kind == "heads":
        return fold_with(PRESENCE, batch_of(1) * (size // 7))
    if kind == "producers":
        return fold_with(PRESENCE, [Head(1, None, 1, 68, at, 0, 0) for at in range(size // 9)])
    if kind == "leader epochs":
        count = size // 10
        return fold_with(PRESENCE, batch_of(1) * count, epochs=[(at % 2, at) for at in range(count)])
    count = (2**30 - 61) // 7
    return fold_with(PRESENCE, [Head(0, None, count, 2**30, -1, -1, -1)])


KINDS = ["null texts", "empty texts", "shared texts", "no claims", "topics", "heads", "producers", "leader epochs", "records"]


def changed(data, chance):
    """With a byte changed, or cut short, or a count that its bytes don't bear out."""
    body = bytearray(data[:-4])
    way = chance.randrange(4)
    if way == 0 and len(body) > 20:
        body[chance.randrange(8, len(body))] = chance.randrange(256)
    if way == 1:
        del body[chance.randrange(8, len(body)):]
    return fold_files.sealed(bytes(body))


def spent(tests, folder, most=resource.RLIM_INFINITY):
    """The exit status of a check that may have so many bytes of data, and its seconds."""
    run = subprocess.Popen(
        [tests.program, "check", "--workers", "1", folder], stdin=subprocess.DEVNULL, stdout=subprocess.DEVNULL, stderr=subprocess.DEVNULL,
        preexec_fn=lambda: resource.setrlimit(resource.RLIMIT_DATA, (most, most)),
    )
    _, status, usage = os.wait4(run.pid, 0)
    run.returncode = os.waitstatus_to_exitcode(status)
    return run.returncode, usage.ru_utime + usage.ru_stime


def least_for(tests, folder):
    """How many bytes of data a check of this folder wants, to 64 KiB."""
    few, enough = 0, 2**28
    while enough - few > 2**16:
        half = (few + enough) // 2
        if spent(tests, folder, half)[0] == 0:
            enough = half
        else:
            few = half
    return enough


def answers(tests, folder, most):
    """Whether a check of this folder ends with an answer, where it may have so many bytes of data."""
    return spent(tests, folder, most)[0] in (0, 1, 2)


def more_bytes(tests, folder, least, size, few):
    """How many bytes of memory a fold of this size takes for each of its own, to a quarter; or so few, if these are enough."""
    if answers(tests, folder, least + int(few * size)):
        return few
    enough = BYTES
    while enough - few > 0.25:
        half = (few + enough) / 2
        if answers(tests, folder, least + int(half * size)):
            enough = half
        else:
            few = half
    return enough


def costs_of(tests, count, chance):
    """Tries so many folds, and says what the dearest took: bytes of memory for each of its own, and how many times the time of a log's."""
    folds, _ = folds_of(GOOD)
    folder = with_folds(GOOD, folds, tests.new("costs"))
    least = least_for(tests, folder)
    most_times = most_bytes = 0
    for at in range(count):
        kind, size = KINDS[at % len(KINDS)], chance.choice([40, 4000, 40000, 200000])
        made = hostile(kind, size, chance)
        data = changed(fold_files.file_of(made), chance)
        name, number = PLACES[made.roles]
        path = fold_path(f"{name.decode()}-{number}", 0)
        write(os.path.join(folder, path), fold_files.file_of(logged(made.roles, len(data), chance)))
        right = spent(tests, folder)[1]
        write(os.path.join(folder, path), data)
        enough = least + ROOM + BYTES * len(data)
        status, found = spent(tests, folder, enough)
        seconds = TIMES * right + made.size / SPEED + SECONDS
        for _ in range(1, RUNS):
            if found > seconds:
                found = min(found, spent(tests, folder, enough)[1])
        if len(data) >= TOLD_OF:
            most_bytes = more_bytes(tests, folder, least, len(data), most_bytes)
            most_times = max(most_times, found / max(right, 0.01))
        write(os.path.join(folder, path), folds[path])
        tests.same(f"{kind}, {len(data)} bytes: its status, with {BYTES} bytes of memory for each of its own", status in (0, 1, 2), True)
        tests.same(f"{kind}, {len(data)} bytes, {found} s", found <= seconds, True)
    return most_bytes, most_times


def part_of(program, room, count, part):
    """The same by a process of its own, and how many tests passed and failed there."""
    os.mkdir(room)
    tests = Tests(program, room)
    most = costs_of(tests, count, random.Random(7 + part))
    sys.stdout.flush()
    return most, tests.passed, tests.failed


def costs(tests):
    count = int(os.environ.get("FOLD_COSTS", FEW))
    parts = 1 if count <= FEW else os.cpu_count()
    words = [(tests.program, tests.new(f"costs-{part}"), (count + part) // parts, part) for part in range(parts)]
    sys.stdout.flush()
    with multiprocessing.Pool(parts) as pool:
        said = pool.starmap(part_of, words, 1)
    tests.passed += sum(passed for _, passed, _ in said)
    tests.failed += sum(failed for _, _, failed in said)
    most_bytes, most_times = (max(most) for most in zip(*(most for most, _, _ in said)))
    print(f"{count} hostile folds: at most {most_bytes} bytes of memory for each of their own, and {most_times:.1f} times the time of a log's")
