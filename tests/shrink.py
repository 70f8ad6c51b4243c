#!/usr/bin/env -S python3 -B
"""What `shrink` leaves of histories.

    tests/shrink.py PROGRAM [REFUSE.SO]

For each switch and each mishap of docs/SIMULATOR.md a history of 200 words is shrunk by the code that its table names: what is left gives
that fault first, by `check` and by the second program tests/reference.py; it has at most 20 lines; run again it is the same, byte for byte;
shrunk again too; its lines are some of the history's, in their order, but for the numbers of sessions and messages, and what bears one name
here bore one there; and where one line is left out by hand it gives another answer. Then random scripts with several switches, by the
code of their first fault. What can't be shrunk is told in a line, and nothing is left; nor is it where the disk is full or memory is refused,
or a run is killed, but for OUT.new. The last line is 'N passed, N failed'.
"""
import concurrent.futures
import filecmp
import json
import os
import random
import resource
import shutil
import signal
import subprocess
import sys
import tempfile
import time

import reference

# How many lines of a file are left at the most.
MOST = 20
SWITCHES = {
    "keep-duplicates": "1.4",
    "no-fence": "1.5",
    "no-bump": "1.7",
    "lose-marker": "1.11",
    "swap-marker": "3.3",
    "hide-listing": "3.4",
    "ignore-generation": "5.10",
}
MISHAPS = {
    "lost-output": "5.11",
    "repeated-output": "5.10",
    "early-output": "5.7",
    "wrong-count": "5.8",
    "wrong-number": "5.9",
    "foreign-source": "5.5",
    "other-transaction": "5.12",
    "no-headers": "4.1",
    "offset-deleted": "4.4",
    "aborted-input": "5.6",
}

passed = failed = 0


def expect(holds, what):
    global passed, failed
    if holds:
        passed += 1
    else:
        failed += 1
        print(f"FAILED: {what}")


def run(*words, **settings):
    done = subprocess.run([program, *map(str, words)], capture_output=True, timeout=600, **settings)
    return done.returncode, done.stdout.decode(), done.stderr.decode()


def lines_of(path):
    with open(path) as file:
        return [json.loads(line) for line in file.read().splitlines()]


def write_lines(path, lines):
    with open(path, "w") as file:
        file.writelines(json.dumps(line) + "\n" for line in lines)


def code_in(verdict):
    return verdict.split()[1] if verdict.startswith("no ") else verdict.split()[0]


def verdict_of(lines, at):
    """What `check` says of a schedule of these lines: the code, or the word that is printed in its place."""
    schedule, folder = f"{at}.lines", f"{at}.folder"
    write_lines(schedule, lines)
    answer = run("simulate", "--schedule", schedule, folder)
    if answer[0] != 0:
        return answer[2].strip()
    said = run("check", "--quiet", folder)[1]
    shutil.rmtree(folder)
    return code_in(said)


# ---- a part of a history


def bare(line):
    """A line without its number, its reply and the names in it."""
    left = {k: v for k, v in line.items() if k not in ("number", "reply", "value", "session", "message")}
    if left.get("claim"):
        left["claim"] = left["claim"] | {"offset": None}
    if left.get("offset") is not None:
        left["offset"] = "one"
    return left


def made_by(line):
    """The name that a line makes: of a session, of a client's message, of an input."""
    kinds = {"start": "session", "produce": "message", "commit": "message", "end": "message", "feed": "input"}
    if line.get("reply") != "done" or line.get("event") not in kinds:
        return []
    value = (line["source"], line["value"]) if line["event"] == "feed" else line["value"]
    return [(kinds[line["event"]], value)]


def named_by(line):
    """The names that a line calls; of inputs those of `in`."""
    names = [(it, line[it]) for it in ("session", "message") if it in line]
    claim = line.get("claim")
    if claim and claim["topic"] == "in":
        names.append(("input", (claim["partition"], claim["offset"])))
    return names


def is_part(part, whole):
    """Whether the lines of a part are some of the whole's, in their order, each name of the part standing for one of the whole: searched depth
    first, since of two lines that are alike either may be the one."""
    names, left = {}, [10**6]
    alike = [[place for place, line in enumerate(whole) if bare(line) == bare(mine)] for mine in part]

    def search(done, start):
        if done == len(part):
            return True
        for place in alike[done]:
            left[0] -= 1
            if place < start or left[0] < 0:
                continue
            pairs = [*zip(named_by(part[done]), named_by(whole[place])), *zip(made_by(part[done]), made_by(whole[place]))]
            if any(names.get(mine, theirs) != theirs for mine, theirs in pairs):
                continue
            fresh = [mine for mine, _ in pairs if mine not in names]
            names.update(pairs)
            if search(done + 1, place + 1):
                return True
            for mine in fresh:
                names.pop(mine, None)
        return False

    return search(0, 0)


def without(lines, place):
    """The lines but for one that makes nothing that has a name, nor changes what others make; None of another."""
    line = lines[place]
    if line.get("event") in ("fetch", "members", "broker-restart") or "set" in line or "note" in line:
        return [{k: v for k, v in it.items() if k not in ("reply", "value")} for it in lines[:place] + lines[place + 1:]]
    return None


# ---- one history


def shrunk(at, words, code):
    """What is wrong with what is left of the history of a script; None where nothing is."""
    history, out, again, folder = f"{at}.history", f"{at}.out", f"{at}.again", f"{at}.made"
    first = run("simulate", *words, "--history", history, folder)
    if first[0] != 0:
        return f"{words}: {first}"
    said = code_in(run("check", "--quiet", folder)[1])
    shutil.rmtree(folder)
    most = MOST if code else len(lines_of(history))
    code = code or said
    if code == "yes":
        return None
    answer = run("shrink", "--fault", code, history, out)
    whole, lines = lines_of(history), lines_of(out) if os.path.exists(out) else []
    begin = f"shrunk lines={len(lines) - 2} of={len(whole) - 2} runs="
    if answer[0] != 0 or answer[2] or not answer[1].startswith(begin) or not answer[1][len(begin):-1].isdigit():
        return f"{words}: {answer}"
    runs, count = int(answer[1][len(begin):]), len(whole)
    if runs > count * count + 4 * count:
        return f"{words}: {runs} runs of {count} lines"
    counts[tuple(words)] = len(lines), count, runs
    if len(lines) > most:
        return f"{words}: {len(lines)} lines are left"
    second = run("simulate", "--schedule", out, "--history", again, folder)
    if second[0] != 0 or not filecmp.cmp(out, again, shallow=False):
        return f"{words}: what is left isn't a history of itself: {second}"
    os.remove(again)
    verdict, other = run("check", "--quiet", folder)[1].strip(), reference.verdict(folder)
    shutil.rmtree(folder)
    if verdict != other or code_in(verdict) != code:
        return f"{words}: {verdict}, the second program {other}, wanted {code}"
    if lines[0] != whole[0] or not is_part(lines[1:-1], whole[1:-1]):
        return f"{words}: what is left isn't a part of it"
    for place in range(1, len(lines) - 1):
        fewer = without(lines[:-1], place)
        if fewer and verdict_of(fewer, at) == code:
            return f"{words}: line {place + 1} isn't needed"
    third = run("shrink", "--fault", code, out, again)
    if third[0] != 0 or not filecmp.cmp(out, again, shallow=False):
        return f"{words}: what is left can be shrunk: {third}"
    for path in (history, out, again):
        os.remove(path)
    return None


def scripts():
    """Words, and the code that is looked for; the first fault's where none is said."""
    for seed in SEEDS:
        for name, code in SWITCHES.items():
            yield ["--seed", seed, "--events", 200, "--switch", name], code
        for name, code in MISHAPS.items():
            chain = ["--chain", "--abort", 200] if name == "aborted-input" else []
            yield ["--seed", seed, "--events", 200, *chain, "--mishap", name], code
    for seed in range(1, 1 + RANDOM):
        chance = random.Random(seed)
        words = ["--seed", seed, "--events", chance.randrange(50, 400), "--switch-at", chance.randrange(0, 50), "--no-tail"]
        for name in chance.sample(sorted(SWITCHES), chance.randrange(1, 4)):
            words += ["--switch", name]
        if chance.random() < 0.5:
            words += ["--chain"]
        yield words, None


# Of which seeds, and how many random scripts.
SEEDS, RANDOM = (7,), 10
counts = {}


def all_scripts():
    with concurrent.futures.ThreadPoolExecutor(os.cpu_count()) as pool:
        tasks = [pool.submit(shrunk, f"{scratch}/{place}", *task) for place, task in enumerate(scripts())]
        for task in tasks:
            wrong = task.result()
            expect(wrong is None, wrong)


# ---- what can't be shrunk


def made_history(name, *words):
    path, folder = f"{scratch}/{name}", f"{scratch}/{name}.folder"
    run("simulate", *words, "--history", path, folder)
    shutil.rmtree(folder)
    return path


def refusals():
    """Each is one line with its cause, status 2 (or 1, where a line is answered otherwise), and nothing is left."""
    history, good = made_history("bad", "--seed", 7, "--events", 200, "--switch", "no-fence"), made_history("good", "--seed", 7, "--events", 50)
    out, there = f"{scratch}/out", f"{scratch}/there"
    with open(there, "w") as file:
        file.write("mine\n")
    lines = lines_of(history)
    write_lines(f"{scratch}/edited", [it | {"value": 9} if it.get("number") == 1 else it for it in lines])
    write_lines(f"{scratch}/cut", lines[:20])
    write_lines(f"{scratch}/totals", [*lines[:-1], lines[-1] | {"events": 1}])
    write_lines(f"{scratch}/doubled", [lines[0], lines[0]])
    verdict = f"no 1.5 ZombieEpoch "
    rows = [
        ("1.5", good, out, 2, f"eoscheck: {good}: it gives no 1.5 first, but: yes transactions="),
        ("5.10", history, out, 2, f"eoscheck: {history}: it gives no 5.10 first, but: {verdict}"),
        ("Repeated", history, out, 2, f"eoscheck: {history}: it gives no 5.10 first, but: {verdict}"),
        ("9.9", history, out, 2, "eoscheck: no fault has the code 9.9\n"),
        ("1.05", history, out, 2, "eoscheck: no fault has the code 1.05\n"),
        ("1.5", history, there, 2, f"eoscheck: cannot write {there}: it is there already\n"),
        ("1.5", history, f"{scratch}/no/such", 2, f"eoscheck: cannot write {scratch}/no/such: no such folder\n"),
        ("1.5", history, f"{scratch}/slash/", 2, f"eoscheck: cannot write {scratch}/slash/\n"),
        ("1.5", history, "", 2, "eoscheck: cannot write : no such folder\n"),
        ("1.5", f"{scratch}/none", out, 2, f"eoscheck: cannot read {scratch}/none\n"),
        ("1.5", scratch, out, 2, f"eoscheck: cannot read {scratch}\n"),
        ("1.5", f"{scratch}/edited", out, 1, f"eoscheck: {scratch}/edited: number 1 is answered otherwise: "),
        ("1.5", f"{scratch}/cut", out, 2, "eoscheck: the cluster is not at rest\n"),
        ("1.5", f"{scratch}/totals", out, 2, f"eoscheck: {scratch}/totals: line {len(lines)}: events is 1, and the lines come to "),
        ("1.5", f"{scratch}/doubled", out, 2, f"eoscheck: {scratch}/doubled: line 2: "),
        ("1.5", there, out, 2, f"eoscheck: {there}: line 1: it is no JSON text\n"),
    ]
    for code, what, where, status, told in rows:
        before = sorted(os.listdir(scratch))
        answer = run("shrink", "--fault", code, what, where)
        one_line = answer[2].count("\n") == 1 or answer[2].startswith("eoscheck: cannot read")
        expect(answer[0] == status and answer[1] == "" and answer[2].startswith(told) and one_line, f"{code} {what} {where}: {answer}")
        expect(sorted(os.listdir(scratch)) == before, f"{code} {what} {where} leaves something")
    with open(there) as file:
        expect(file.read() == "mine\n", "a file that was there is another now")
    for words in ([history, out], ["--fault", "1.5", history], ["--fault", "", history, out], ["--fault", "1.5", history, out, out]):
        answer = run("shrink", *words)
        expect(answer[0] == 2 and answer[1] == "" and answer[2].startswith("error: "), f"{words}: {answer}")
    # a name is its code, and standard input is read
    with open(history, "rb") as file:
        answer = run("shrink", "--fault", "ZombieEpoch", "-", out, stdin=file)
    other = run("shrink", "--fault", "1.5", history, f"{out}-2")
    expect(answer[0] == 0 and answer == other and filecmp.cmp(out, f"{out}-2", shallow=False), f"a name, of standard input: {answer}, {other}")
    os.remove(out)
    # nothing can be printed: what was written stays, whole
    with open("/dev/full", "w") as full:
        done = subprocess.run([program, "shrink", "--fault", "1.5", history, out], stdout=full, stderr=subprocess.PIPE, timeout=600)
    expect(done.returncode == 2 and done.stderr == b"eoscheck: cannot write -\n" and filecmp.cmp(out, f"{out}-2", shallow=False), f"a full output: {done}")
    os.remove(out)
    no_room(history, out)
    no_memory(history, out)
    is_killed(history, out)


def small_files():
    """No file gets larger than 200 bytes."""
    signal.signal(signal.SIGXFSZ, signal.SIG_IGN)
    resource.setrlimit(resource.RLIMIT_FSIZE, (200, 200))


def left_of(out):
    return [it for it in os.listdir(scratch) if it.startswith(os.path.basename(out) + ".new") or it == os.path.basename(out)]


def no_room(history, out):
    answer = run("shrink", "--fault", "1.5", history, out, preexec_fn=small_files)
    expect(answer == (2, "", f"eoscheck: cannot write {out}\n") and not left_of(out), f"a full disk: {answer}, {left_of(out)}")


def no_memory(history, out):
    """Of the allocations of a run every so many-th is refused."""
    if refuse is None:
        return
    for place in [*range(1, 60), *range(60, 40_000, 1777)]:
        env = {**os.environ, "LD_PRELOAD": refuse, "REFUSE_AT": str(place)}
        answer = run("shrink", "--fault", "1.5", history, out, env=env)
        if answer[0] == 0:
            os.remove(out)
        expect(answer[0] in (0, 3) and not left_of(out), f"allocation {place} is refused: {answer}, {left_of(out)}")


def is_killed(history, out):
    """A run that is killed leaves at most OUT.new, which the next one replaces."""
    for pause in (0.002, 0.01, 0.05):
        with subprocess.Popen([program, "shrink", "--fault", "1.5", history, out], stdout=subprocess.DEVNULL) as started:
            time.sleep(pause)
            started.kill()
        left = left_of(out)
        expect(left in ([], [f"{os.path.basename(out)}.new"]) or started.returncode == 0, f"killed after {pause}: {left}")
        answer = run("shrink", "--fault", "1.5", history, out)
        if started.returncode != 0:
            expect(answer[0] == 0 and left_of(out) == [os.path.basename(out)], f"after a killed run: {answer}, {left_of(out)}")
        os.remove(out)


program = os.path.abspath(sys.argv[1])
refuse = os.path.abspath(sys.argv[2]) if len(sys.argv) > 2 else None
with tempfile.TemporaryDirectory() as scratch:
    all_scripts()
    refusals()
if os.environ.get("SHRINK_COUNTS"):
    for words, found in sorted(counts.items(), key=lambda it: it[1]):
        print(found, *words)
print(f"{passed} passed, {failed} failed")
sys.exit(failed > 0)
