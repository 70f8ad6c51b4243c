#!/usr/bin/env -S python3 -B
"""What `simulate --swarm` draws, against a second drawing, and runs that stop anywhere.

    tests/swarm.py PROGRAM [REFUSE.SO [COUNT]]

Of COUNT seeds (300): what is drawn is what docs/SIMULATOR.md says, by a second program below; what is given stays; each folder is made, or
the seed is told; the words of its line make it again, byte for byte, with its labels; and `check` is scored by these as tests/labels.py
does. The same of runs that stop after their last word, and of schedules that do: at rest they are as ever, else they have a label, and
`check` refuses them. With REFUSE.SO (tests/refuse.c, built) the allocations of a drawn folder are refused. Prints what is wrong and the score, and as its last line 'N passed, N failed'.
"""
import collections
import concurrent.futures
import filecmp
import json
import os
import shutil
import sys
import tempfile

import labels
from labels import SWITCHES, expect, faults_in, lines_of, run, same_folder

MISHAPS = [*labels.MISHAPS, "aborted-input"]
RATES = [*labels.RATES, "abort"]
# The rates, each with its draw.
DRAWN = {**{name: at for at, name in enumerate(RATES, 7)}, "elect": 22}
# What today's rates are, in 32nds of a thousandth.
TODAY = {"lose": 500, "repeat": 2000, "abandon": 250, "members": 125, "restart-broker": 250, "restart-coordinator": 375, "abort": 1000, "elect": 0}
# Draw, least value, how many values in one half of the folders, and in the other half.
SIZES = {
    "applications": (0, 1, 3, 7),
    "inputs": (1, 1, 4, 16),
    "outputs": (2, 1, 3, 15),
    "transaction-logs": (3, 1, 1, 4),
    "segment-records": (4, 1, 16, 64),
    "batch-records": (5, 1, 1, 16),
}
NEEDS = {"swap-marker": "outputs", "hide-listing": "outputs", "ignore-generation": "applications"}
WIDE = 1 << 64


def draws(seed):
    """Words of PCG XSH RR 64/32 from the state that a seed gives, on stream 21."""
    factor, filled = 6364136223846793005, b""

    def output(state):
        shifted, turn = ((state >> 18 ^ state) >> 27) % 2**32, state >> 59
        return (shifted >> turn | shifted << (32 - turn)) % 2**32

    state = seed
    for _ in range(4):
        state = (state * factor + 11634580027462260723) % WIDE
        filled += output(state).to_bytes(4, "little")
    first, second = (int.from_bytes(filled[at : at + 8], "little") for at in (0, 8))
    increment = second | 1
    state = ((first + increment) * factor + increment) % WIDE
    words = []
    for _ in range(24):
        words.append(output(state))
        state = (state * factor + 43) % WIDE
    return words


def recipe(seed, events, given):
    """The words of a seed's folder: those that are given, and what is drawn beside them."""
    word, said = draws(seed), {name: value for name, value in given.items() if name not in ("switch", "mishap", "chain", "no-tail", "stop-anywhere")}
    switches, mishaps = list(given.get("switch", [])), list(given.get("mishap", []))
    sizes = {}
    for name, (at, least, few, many) in SIZES.items():
        if name in NEEDS.values() and switches:
            least = 2
        if name == "segment-records":
            least = 1 + events // 8192
        sizes[name] = said[name] if name in said else least + word[at] // 2 % (many if word[at] % 2 else few)
    chain = given.get("chain", False) or word[6] % 3 == 0
    rates = {name: said.get(name) for name in DRAWN}
    drawn = {name: word[at] // 4 % 101 if rates[name] is None and word[at] % 4 == 0 else rates[name] for name, at in DRAWN.items()}
    if sum(TODAY[name] if value is None else 32 * value for name, value in drawn.items()) <= 32000:
        rates = drawn
    if not switches and word[14] % 2:
        rules = [word[15]] + ([word[15] + 1 + word[17] % 6] if word[16] % 8 == 0 else [])
        rules = [SWITCHES[it % 7] for it in rules]
        switches = [it for it in rules if it not in NEEDS or sizes[NEEDS[it]] > 1]
    at, no_tail = said.get("switch-at"), given.get("no-tail", False)
    if at is None and switches and (word[18] % 4 or given.get("stop-anywhere")):
        at = word[18] // 4 % (events + 1)
    if at is not None and word[19] % 2 == 0:
        no_tail = True
    if not mishaps and word[20] % 3 == 0:
        name, place = MISHAPS[word[20] // 3 % (10 if chain else 9)], word[21]
        if name != "aborted-input" and place % 2:
            name += f"@in-{place // 2 % sizes['inputs']}:{place // 64 % (1 + events // 64 // sizes['inputs']) * 3 + 2}"
        mishaps = [name]
    if not given.get("mishap") and word[23] % 8 == 0:
        mishaps.append("unclean-election")
    words = ["--seed", seed, "--events", events]
    for name, value in [*sizes.items(), ("chain", chain), *rates.items(), *(("switch", it) for it in switches), ("switch-at", at), ("no-tail", no_tail), *(("mishap", it) for it in mishaps), ("stop-anywhere", given.get("stop-anywhere", False))]:
        if value is not None and value is not False:
            words += [f"--{name}"] if value is True else [f"--{name}", value]
    return [str(it) for it in words], switches


def words_of(given):
    words = []
    for name, value in given.items():
        for it in value if isinstance(value, list) else [value]:
            words += [f"--{name}"] if it is True else [f"--{name}", it]
    return words


def again(line):
    """What is wrong with the folder that the words of a line make, or None."""
    folder = f"{line['folder']}-again"
    made = run("simulate", *line["words"], "--labels", f"{folder}.labels", folder)
    right = made[0] == 0 and same_folder(folder, line["folder"]) and filecmp.cmp(f"{folder}.labels", line["labels"], shallow=False)
    shutil.rmtree(folder, ignore_errors=True)
    return None if right else f"{line['words']}: {made}, another folder"


def score_of(seed, line, switches):
    score = labels.Score(seed, (line["words"], switches))
    score.wrong = again(line)
    return score if score.wrong else score.judge(lines_of(line["labels"]), faults_in(line["folder"]), line["folder"])


def swarm(pool, name, count, given):
    """The folders of a swarm, with their scores."""
    folder, first, events = os.path.join(labels.scratch, name), 1 + 7919 * len(name), given.pop("events", 200)
    found = run("simulate", "--count", count, "--swarm", "--seed", first, "--events", events, *words_of(given), folder)
    index = {int(it["words"][1]): it for it in map(json.loads, found[1].splitlines())}
    told = found[2].splitlines()
    expect(found[0] == 0 and len(index) + len(told) == count, f"{name}: {found[0]}, {len(index)} folders and {len(told)} told of {count}")
    expect(all("suits this mishap" in it or "not at rest" in it or "a record to lose" in it for it in told), f"{name}: {told}")
    wanted = {seed: recipe(seed, events, given) for seed in range(first, first + count)}
    for seed, line in index.items():
        expect(line["words"] == wanted[seed][0], f"{name}: {line['words']}, not {wanted[seed][0]}")
    scores = list(pool.map(lambda it: score_of(it[0], it[1], wanted[it[0]][1]), index.items()))
    for it in scores:
        expect(not it.wrong, it.wrong)
    missed = collections.Counter(why for it in scores for why in it.missed)
    said, done = [it for it in scores if it.faults], [it for it in scores if it.labels]
    print(f"{name}: {len(index)} folders of {count}, {len(done)} with a label with codes, {len(said)} refused; {dict(missed)}")
    expect(all(it.labels for it in said), f"{name}: a fault without a label")
    expect(not [why for why in missed if why.startswith("unexplained")], f"{name}: {[(it.words, it.missed) for it in scores if any(why.startswith('unexplained') for why in it.missed)][:3]}")
    shutil.rmtree(folder)
    return len(told), scores


def stopped(seed):
    """What is wrong with a run that stops after its last word, and with its schedule, or None; and whether it was at rest."""
    words = ["--seed", seed, "--events", seed * 37 % 251, *(["--chain"] if seed % 3 == 0 else [])]
    folder, other = (os.path.join(labels.scratch, f"{it}-{seed}") for it in ("stopped", "replayed"))
    texts = [f"{folder}.labels", f"{folder}.history", f"{other}.labels", f"{other}.history"]
    made = run("simulate", *words, "--stop-anywhere", "--labels", texts[0], "--history", texts[1], folder)
    same = run("simulate", "--schedule", texts[1], "--stop-anywhere", "--labels", texts[2], "--history", texts[3], other)
    if made[0] != 0 or same != made or not same_folder(folder, other) or not all(filecmp.cmp(texts[at], texts[at + 2], shallow=False) for at in (0, 1)):
        return f"{words}: {made}, {same}", None
    said, history = lines_of(texts[0]), lines_of(texts[1])
    wrong = labels.wrong_labels(said, history, [])
    is_stopped = [it["label"] for it in said][-1:] == ["stopped"]
    found = {it["code"] for it in faults_in(folder)}
    if wrong or bool(found) != is_stopped or not found <= {code for it in said for code in it.get("codes", [])}:
        return f"{words}: {wrong}, {sorted(found)} beside {said[-1:]}", None
    shutil.rmtree(other)
    rest = run("simulate", "--schedule", texts[1], other)
    wanted = made if not is_stopped else (2, "", "eoscheck: the cluster is not at rest\n")
    return None if rest == wanted else f"{words}: without it {rest}", not is_stopped


def bad_words():
    folder = os.path.join(labels.scratch, "never")
    for words, message in (
        (["--swarm"], "--swarm: no --count"),
        (["--count", 2, "--swarm", "--switch-at", 3], "--switch-at: no --switch"),
        (["--count", 2, "--swarm", "--outputs", 1, "--switch", "swap-marker"], "swap-marker: it needs two partitions of `out`"),
        (["--stop-anywhere", "--switch", "no-fence"], "--stop-anywhere: no --switch-at of the --switch"),
    ):
        found = run("simulate", "--seed", 7, "--events", 9, *words, folder)
        expect(found == (2, "", f"eoscheck: {message}\n") and not os.path.exists(folder), f"{words}: {found}")
    found = run("simulate", "--schedule", folder, "--swarm", folder)
    expect(found[:2] == (2, "") and "cannot read" not in found[2] and not os.path.exists(folder), f"--schedule with --swarm: {found}")


def refused_memory(library):
    """Each allocation of a folder with a mishap that stops, or every so-manieth: the folder and its labels are there whole, or neither is."""
    counts, folder = (os.path.join(labels.scratch, it) for it in ("counts", "memory"))
    for seed in range(1, 100):
        words = ["simulate", "--count", 1, "--swarm", "--stop-anywhere", "--seed", seed, "--events", 60, folder]
        shutil.rmtree(folder, ignore_errors=True)
        good = run(*words, env=dict(os.environ, LD_PRELOAD=library, REFUSE_COUNT=counts))
        if good[1].count("--mishap") and '"stopped"' in json.dumps(lines_of(f"{folder}/000001.labels")):
            break
    os.rename(folder, f"{folder}-whole")
    with open(counts, encoding="utf-8") as file:
        total = int(file.read())
    told = 0
    for at in range(1, total + 1, max(1, total // 300)):
        shutil.rmtree(folder, ignore_errors=True)
        found = run(*words, env=dict(os.environ, LD_PRELOAD=library, REFUSE_AT=str(at)))
        told += found[0] == 3
        there = sorted(os.listdir(folder)) if os.path.exists(folder) else []
        expect(found == good or (found[0] == 3 and found[2].endswith("eoscheck: out of memory\n")), f"allocation {at} refused: {found}")
        expect(not there or same_folder(folder, f"{folder}-whole"), f"allocation {at} refused: a part is there: {there}")
    expect(told > 20, f"{told} of {total} refused allocations are told")


def main():
    count = int(sys.argv[3]) if len(sys.argv) > 3 else 300
    with concurrent.futures.ThreadPoolExecutor(4) as pool:
        told, scores = swarm(pool, "drawn", count, {})
        drawn = collections.Counter(it for score in scores for it in score.words if it.startswith("--"))
        expect(all(drawn[f"--{it}"] for it in [*SIZES, *DRAWN, "chain", "switch", "switch-at", "no-tail", "mishap"]), f"what is drawn: {drawn}")
        expect(told < count / 3, f"{told} seeds of {count} leave nothing")
        swarm(pool, "given", count // 5, {"inputs": 3, "lose": 800, "abort": 0, "switch": ["swap-marker", "ignore-generation"], "chain": True})
        swarm(pool, "mistaken", count // 5, {"mishap": ["lost-output@in-0:5"], "switch": ["no-bump"], "switch-at": 17, "outputs": 2})
        swarm(pool, "long", max(2, count // 50), {"events": 20000, "applications": 2})
        swarm(pool, "halted", count // 3, {"stop-anywhere": True})
        ends = list(pool.map(stopped, range(1, count + 1)))
    wrong = [why for why, _ in ends if why]
    expect(not wrong, f"runs that stop: {wrong[:3]}")
    rest = sum(bool(at_rest) for _, at_rest in ends)
    print(f"of {len(ends)} runs that stop {rest} are at rest")
    expect(0 < rest < len(ends), "runs that stop at rest, and others")
    bad_words()
    if len(sys.argv) > 2 and sys.argv[2] != "-":
        refused_memory(os.path.abspath(sys.argv[2]))
    print(f"{labels.passed} passed, {labels.failed} failed")
    return 1 if labels.failed else 0


if __name__ == "__main__":
    labels.program = os.path.abspath(sys.argv[1])
    with open(os.path.join(labels.HERE, "..", "docs", "labels.schema.json"), encoding="utf-8") as schema:
        labels.SCHEMA = json.load(schema)
    with tempfile.TemporaryDirectory() as labels.scratch:
        status = main()
    sys.exit(status)
