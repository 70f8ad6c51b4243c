#!/usr/bin/env -S python3 -B
"""What `simulate --every` runs and says.

    tests/every.py PROGRAM [REFUSE.SO]

Of 0 to 3 words: how many schedules are run is worked out from the manual's table, which has a row for each word, and none is accused. Of 0 and
of 1 word the states are counted anew: each word by itself is what a rate of all words says, or a seed whose script says it, and the history
of that run has a line for each. A rule that is broken is accused by the shortest schedules that show it, never by shorter ones; the history
that is printed is the history of its own schedule, byte for byte, and `check` says of its folder what was told. What doesn't go with --every
is refused. With REFUSE.SO (tests/refuse.c, built) each allocation of a run is refused. The last line is 'N passed, N failed'.
"""
import itertools
import os
import re
import subprocess
import sys
import tempfile

TINY = ["--applications", 1, "--inputs", 1, "--outputs", 1]
RATES = ["lose", "repeat", "abandon", "members", "restart-broker", "restart-coordinator", "abort"]
# Rules that a cluster with one partition of `out` and one application can break, with the length that shows them first, if one up to 2 does.
SHOWN = {"lose-marker": 1, "no-bump": 1, "keep-duplicates": None, "no-fence": None}
# What isn't there to be broken.
UNFIT = ["swap-marker", "hide-listing", "ignore-generation"]
BESIDE = [
    "--seed 1", "--events 1", "--applications 2", "--inputs 2", "--outputs 2", "--transaction-logs 2", "--segment-records 2", "--batch-records 2",
    "--chain", *[f"--{it} 1" for it in [*RATES, "time-out", "add-partition", "late-complete", "elect"]], "--links", "--switch-at 1", "--no-tail", "--mishap lost-output", "--stop-anywhere", "--collect forgotten@out-0",
    "--history h", "--labels l", "--schedule s", "--count 2", "--swarm", "--progress", "FOLDER",
]

passed = failed = 0


def expect(holds, what):
    global passed, failed
    passed, failed = passed + bool(holds), failed + (not holds)
    if not holds:
        print(f"FAIL {what}")


def run(*words, **options):
    done = subprocess.run([program, *map(str, words)], capture_output=True, text=True, check=False, **options)
    return done.returncode, done.stdout, done.stderr


def rows_of_manual():
    """How many things a word can say at today's rates."""
    with open("docs/SIMULATOR.md", encoding="utf-8") as file:
        table = file.read().partition("| What a word says |")[2].partition("\n\n")[0]
    return sum("| 0 |" not in row for row in table.splitlines()) - 2


def lines_of(seed, events, *rates):
    """The events and notes of a run of the tiny cluster."""
    with tempfile.TemporaryDirectory() as scratch:
        answer = run("simulate", "--seed", seed, "--events", events, *TINY, *rates, "--history", f"{scratch}/history", f"{scratch}/folder")
        expect(answer[0] == 0, f"a run of seed {seed}: {answer}")
        with open(f"{scratch}/history", encoding="utf-8") as file:
            return file.read().splitlines()[1:-1]


def by_one_word():
    """How many lines the runs of one word have, in all."""
    calm = [it for name in RATES for it in (f"--{name}", 0)]
    still = len(lines_of(0, 0))
    # One that comes in, or a turn, is the first event; a message that arrives and a zombie that goes on are none here.
    firsts = {}
    for seed in itertools.count():
        lines = lines_of(seed, 1, *calm)
        event = re.search(r'"event":"([\w-]+)"', lines[0])[1]
        firsts.setdefault(event if event in ("feed", "start") else "nothing", len(lines))
        if len(firsts) == 3:
            break
    expect(firsts["nothing"] == still, f"a word by which nothing happens: {firsts}, {still}")
    others = sum(len(lines_of(0, 1, *[it for name in RATES for it in (f"--{name}", 1000 if name == chosen else 0)])) for chosen in RATES)
    return firsts["feed"] + firsts["start"] + 2 * still + others


def explored():
    words, states = rows_of_manual(), []
    for longest in range(4):
        status, line, told = run("simulate", "--every", longest)
        found = re.fullmatch(r"every schedules=(\d+) states=(\d+) accused=0\n", line)
        expect(status == 0 and not told and found, f"--every {longest}: {status} {line} {told}")
        if not found:
            return
        expect(int(found[1]) == sum(words**length for length in range(longest + 1)), f"--every {longest} of {words} words: {line}")
        states.append(int(found[2]))
    expect(states[0] == len(lines_of(0, 0)), f"the states of no word: {states}")
    expect(states[1] - states[0] == by_one_word(), f"the states of one word: {states}")


def accused(rule, shown):
    words = ["--switch", rule]
    for longest in range(3):
        status, text, told = run("simulate", "--every", longest, *words)
        if shown is None or longest < shown:
            expect(status == 0 and text.startswith("every schedules=") and text.endswith(" accused=0\n") and not told, f"{rule}, {longest}: {status} {text} {told}")
            continue
        said = re.fullmatch(rf"eoscheck: by a schedule of length {shown}: (no .*\n)", told)
        expect(status == 1 and said, f"{rule}, {longest}: {status} {told}")
        with tempfile.TemporaryDirectory() as scratch:
            answer = run("simulate", "--schedule", "-", "--history", f"{scratch}/history", f"{scratch}/folder", input=text)
            expect(answer[0] == 0, f"{rule}, {longest}, its schedule: {answer}")
            with open(f"{scratch}/history", encoding="utf-8") as file:
                expect(file.read() == text, f"{rule}, {longest}: its history is another one")
            answer = run("check", "--quiet", f"{scratch}/folder")
            expect(said and answer[:2] == (1, said[1]), f"{rule}, {longest}: {told} {answer}")


def refused_words():
    for words in [*(f"--every 1 {it}" for it in BESIDE), "--every", "--every 9", "--every x", "--every -1", "--every 1 --every 2"]:
        answer = run("simulate", *words.split())
        expect(answer[0] == 2 and not answer[1] and answer[2], f"{words}: {answer}")
    for rule in UNFIT:
        answer = run("simulate", "--every", 1, "--switch", rule)
        expect(answer[0] == 2 and not answer[1] and answer[2].startswith("eoscheck: ") and answer[2].count("\n") == 1, f"{rule}: {answer}")
    with open("/dev/full", "w", encoding="utf-8") as full:
        for words in [[], ["--switch", "lose-marker"]]:
            done = subprocess.run([program, "simulate", "--every", "1", *words], stdout=full, stderr=subprocess.PIPE, text=True, check=False)
            expect(done.returncode == 2 and done.stderr.endswith("eoscheck: cannot write -\n"), f"{words} to a full device: {done}")


def refused_memory(*words):
    """Each allocation of a run is refused, one each time."""
    whole, told = run("simulate", "--every", *words), 0
    with tempfile.TemporaryDirectory() as scratch:
        run("simulate", "--every", *words, env={**os.environ, "LD_PRELOAD": refuse, "REFUSE_COUNT": f"{scratch}/count"})
        with open(f"{scratch}/count", encoding="utf-8") as file:
            total = int(file.read())
    for place in range(1, total + 1):
        answer = run("simulate", "--every", *words, env={**os.environ, "LD_PRELOAD": refuse, "REFUSE_AT": str(place)})
        if answer != whole:
            told += 1
            expect(answer == (3, "", "eoscheck: out of memory\n"), f"{words}, allocation {place} is refused: {answer}")
    expect(told > 100, f"{words}: {told} of {total} allocations")


program = os.path.abspath(sys.argv[1])
refuse = os.path.abspath(sys.argv[2]) if len(sys.argv) > 2 else None
os.chdir(os.path.dirname(os.path.dirname(os.path.abspath(__file__))))
explored()
for broken, length in SHOWN.items():
    accused(broken, length)
refused_words()
if refuse:
    refused_memory(0)
    refused_memory(1, "--switch", "lose-marker")
print(f"{passed} passed, {failed} failed")
sys.exit(failed > 0)
