#!/usr/bin/env -S python3 -B
"""What `simulate` writes: `check` says yes to it, each switch gives its fault, `dump` reads it back.

    tests/simulate.py PROGRAM [REFUSE.SO [SEEDS]] [--wide]

SEEDS (200) scripts of 50 to 2,000 events each, and each switch with 20 of them, after the script and, with 5, inside it. Every
fifth folder is read back by `dump`, and every tenth's verdict compared with that of tests/reference.py too. Then random sizes
and rates, half of them with a second group, each rate's least and most, each mishap with 8 seeds, several switches and mishaps
at once; with a second group each switch with 5 seeds, and its mishap with 8, at the first record that suits and at a chosen one;
and the tables of docs/SIMULATOR.md, the help and these lists say the same. With --wide each switch and mishap with 20 seeds, all
by tests/reference.py too, and 50 seeds with each of twenty random settings. With REFUSE.SO (tests/refuse.c, built) the
allocations of a run are refused, each in turn. Prints what is wrong, and as its last line 'N passed, N failed'.
"""
import concurrent.futures
import filecmp
import json
import os
import random
import re
import resource
import shutil
import struct
import signal
import subprocess
import sys
import tempfile

import notes_reference
import plain_logs
import reference
from mutants import Reader

HERE = os.path.dirname(os.path.abspath(__file__))
WROTE = "wrote partitions=6\n"
CHAIN_WROTE = "wrote partitions=8\n"
YES = re.compile(r"yes transactions=(\d+) inputs=(\d+) outputs=(\d+)\n")
SWITCHES = {
    "keep-duplicates": "1.4 Sequence",
    "no-fence": "1.5 ZombieEpoch",
    "no-bump": "1.7 NoBump",
    "lose-marker": "1.11 OpenAtEnd",
    "swap-marker": "3.3 WrongKind",
    "hide-listing": "3.4 NotListed",
    "ignore-generation": "5.10 Repeated",
}
# What stands behind a switch's own fault, in all phases.
BEHIND = {
    "keep-duplicates": ["5.6", "5.8", "5.10", "5.12"],
    "no-fence": ["1.11"],
    "no-bump": ["3.3", "3.5", "3.7", "5.6", "5.8", "5.12"],
    "lose-marker": [],
    "swap-marker": ["3.5", "3.7", "5.6", "5.8", "5.12"],
    "hide-listing": ["3.5", "5.6", "5.8", "5.10", "5.12"],
    "ignore-generation": [],
}
# What may come before a switch's own fault where the rule is broken inside a script.
INSIDE = {
    "keep-duplicates": [],
    "no-fence": ["1.6", "1.11"],
    "no-bump": ["1.5"],
    "lose-marker": ["1.6"],
    "swap-marker": ["1.9"],
    "hide-listing": ["1.6"],
    "ignore-generation": [],
}
# The switch with which a cluster may not come to rest where its rule is broken inside a script.
RESTLESS = "hide-listing"
MISHAPS = {
    "lost-output": "5.11 Missing",
    "repeated-output": "5.10 Repeated",
    "early-output": "5.7 Early",
    "wrong-count": "5.8 CountDisagrees",
    "wrong-number": "5.9 NumberRange",
    "foreign-source": "5.5 ForeignSource",
    "other-transaction": "5.12 OtherTransaction",
    "no-headers": "4.1 BadLineage",
    "offset-deleted": "4.4 OffsetDeleted",
}
# A mistake of the second group.
CHAINED = {"aborted-input": "5.6 NoSuchInput"}
RATES = ["lose", "repeat", "abandon", "members", "restart-broker", "restart-coordinator", "abort", "time-out", "add-partition", "late-complete", "elect"]
# The ranges of the sizes, and what they are where nothing is said.
SIZES = {
    "applications": (1, 8, 2),
    "inputs": (1, 16, 2),
    "outputs": (1, 16, 2),
    "transaction-logs": (1, 4, 1),
    "segment-records": (1, 1000, 16),
    "batch-records": (1, 1000, 1),
}

# What is said of each switch and mishap is asked of 20 seeds, not of a few.
wide = "--wide" in sys.argv

passed = failed = 0


def expect(holds, what):
    global passed, failed
    if holds:
        passed += 1
    else:
        failed += 1
        print(f"FAILED: {what}")


def run(*words, **settings):
    done = subprocess.run([program, *map(str, words)], capture_output=True, timeout=120, **settings)
    return done.returncode, done.stdout.decode(), done.stderr.decode()


def simulate(seed, events, folder, *more, **settings):
    return run("simulate", "--seed", seed, "--events", events, *more, folder, **settings)


def events_of(seed):
    return 50 + seed * 37 % 1951


def dumped(folder):
    """What is wrong with the listing of a folder's segments, or None: in each partition the offsets are 0 to its end, in
    segments of 16; each input's value is the number of its event; each output has the lineage headers."""
    with open(os.path.join(folder, "evidence.json")) as f:
        ends = json.load(f)["ends"]
    if sorted(os.listdir(folder)) != sorted([*ends, "evidence.json"]):
        return "other folders than partitions"
    for name, end in ends.items():
        at = last = 0
        for file in sorted(os.listdir(os.path.join(folder, name))):
            if at % 16 or file != f"{at:020}.log":
                return f"{name} has {file} at {at}"
            status, text, _ = run("dump", os.path.join(folder, name, file))
            lines = [line for line in text.splitlines() if line.startswith("record ")]
            if status != 0 or not text.splitlines()[-1].startswith("end "):
                return f"{name}/{file} isn't read"
            if text.count("batch ") != len(lines):
                return f"{name}/{file} has batches of several records"
            kinds = [line.split()[-1] for line in text.splitlines() if line.startswith("batch ")]
            for line, kind in zip(lines, kinds):
                fields = dict(word.split("=") for word in line.split()[1:])
                value = int(fields["value"], 16) if fields["value"] != "null" else -1
                if int(fields["offset"]) != at:
                    return f"{name}/{file}: {line}"
                if name.startswith("in-") and (kind != "plain" or len(fields["value"]) != 16 or value < last):
                    return f"{name}/{file}: {line}"
                if name.startswith("out-") and kind == "txn" and (fields["headers"] != "5" or len(fields["value"]) != 16):
                    return f"{name}/{file}: {line}"
                if name.startswith("in-"):
                    last = value + 1
                at += 1
        if at != end:
            return f"{name} ends at {at}, not {end}"
    return None


def good(seed):
    """A script's folder: what is wrong with it, and its counts."""
    folder = os.path.join(scratch, f"good-{seed}")
    wrote = simulate(seed, events_of(seed), folder)
    one = run("check", "--workers", 1, folder)
    four = run("check", "--workers", 4, folder)
    wrong = dumped(folder) if seed % 5 == 0 else None
    if seed % 10 == 0 and wrong is None:
        said = reference.verdict(folder)
        wrong = None if said + "\n" == one[1] else f"the reference says {said}"
    shutil.rmtree(folder)
    counts = YES.fullmatch(one[1])
    if wrote != (0, WROTE, "") or counts is None or one != (0, one[1], "") or one != four:
        return f"{wrote}, {one}, {four}", None
    return wrong, tuple(map(int, counts.groups()))


def switched(name, seed):
    folder = os.path.join(scratch, f"{name}-{seed}")
    wrote = simulate(seed, events_of(seed) % 400, folder, "--switch", name)
    said = run("check", "--workers", 1 + seed % 4, folder)
    notes = notes_reference.lines(folder)
    behind = kinds_in(folder) if wide or seed < 4 else set()
    second = not wide or reference.verdict(folder) + "\n" == said[1]
    shutil.rmtree(folder)
    if not second or not behind <= {SWITCHES[name].split()[0], *BEHIND[name]}:
        return False
    return wrote == (0, WROTE, "") and said[0] == 1 and said[1].startswith(f"no {SWITCHES[name]} ") and said[2] == notes


def told(folder, is_second_asked=True):
    """What `check` says of a folder with 1 and 4 workers, where the second program says the same, and else that it doesn't. The
    folder is taken away."""
    one, four = (run("check", "--quiet", "--workers", workers, folder) for workers in (1, 4))
    said = reference.verdict(folder) if is_second_asked else one[1].strip()
    shutil.rmtree(folder)
    return one[1].strip() if one == four and said + "\n" == one[1] else f"{one}, {four}, the reference {said}"


def kinds_in(folder):
    """The kinds of all faults that stand in a folder by the second program, whatever stands in the phases before. Where logs can't
    be matched with decisions since markers are missing, phase 3 is left out."""
    apps, parts = reference.read_folder(folder)
    kinds = {f"1.{fault[1]}" for part in parts for fault in reference.partition_faults(part)}
    logs = [part for part in parts if part.name[0] == reference.STATES]
    states, bad = reference.read_states(logs)
    kinds |= {f"2.{fault[2]}" for fault in reference.log_faults(logs, states, bad)}
    if not any(kind == "1.11" for kind in kinds):
        kinds |= {f"3.{fault[2]}" for fault in reference.match_faults(parts, reference.decisions_of(states))}
    claims, commits, unread = reference.read_lineage(apps, parts)
    kinds |= {f"4.{fault[3]}" for fault in unread}
    for one in reference.split(apps, parts, claims, commits):
        kinds |= {f"5.{fault[2]}" for fault in reference.lineage_faults(*one)}
    return kinds


def code_in(line):
    return line.split()[1] if line.startswith("no ") else line


def inside(name, seed):
    """The first fault of a cluster that breaks a rule from a word on, or why it isn't one of those; None where there is no fault since
    the cluster doesn't come to rest."""
    folder = os.path.join(scratch, f"inside-{name}-{seed}")
    events = 150 + seed * 37 % 250
    wrote = simulate(seed, events, folder, "--switch", name, "--switch-at", events // 3)
    if name == RESTLESS and wrote == (2, "", "eoscheck: the cluster is not at rest\n") and not os.path.exists(folder):
        return None
    if wrote != (0, WROTE, ""):
        return f"{wrote}"
    return code_in(told(folder))


def insides(pool, seeds):
    for name, fault in SWITCHES.items():
        own = fault.split()[0]
        found = list(pool.map(lambda seed: inside(name, seed), seeds))
        expect({it for it in found if it} <= {own, *INSIDE[name]}, f"{name} inside a script: {found}")
        expect(found.count(None) <= len(seeds) // 10, f"{name} inside a script: {found.count(None)} runs of {len(seeds)} don't come to rest")


def erring(name, seed):
    """What is wrong with a run in which an application errs, or None."""
    folder = os.path.join(scratch, f"{name}-{seed}")
    more = ["--mishap", name]
    # at a chosen input, one of two outputs
    at = f"in-{seed % 2}:{2 + seed % 3 * 3}"
    if seed % 2:
        more = ["--mishap", f"{name}@{at}"]
    wrote = simulate(seed, 400 + seed * 37 % 400, folder, *more)
    if wrote == (0, WROTE, "") and kinds_in(folder) != {MISHAPS[name].split()[0]}:
        return f"{more}: {kinds_in(folder)}"
    said = told(folder) if wrote == (0, WROTE, "") else f"{wrote}"
    names = "foreign" + at[2:] if name == "foreign-source" else at
    placed = seed % 2 and MISHAPS[name].startswith("5.")
    if not said.startswith(f"no {MISHAPS[name]} ") or (placed and f" source={names} " not in said):
        return f"{more}: {said}"
    return None


def settings(choice, without=()):
    """Random sizes and rates, as words and as the number of partitions that they give."""
    sizes = {name: choice.randint(least, most) for name, (least, most, _) in SIZES.items() if name not in without}
    chosen = [name for name in RATES if choice.random() < 0.6]
    rates = {name: choice.choice([0, choice.randint(1, 130)]) for name in chosen}
    words = [word for name, value in {**sizes, **rates}.items() for word in (f"--{name}", value)]
    partitions = 1 + sizes["transaction-logs"] + sizes["inputs"] + sizes["outputs"]
    if choice.random() < 0.5:
        return [*words, "--chain"], partitions + sizes["outputs"]
    return words, partitions


def other_settings(number, seed):
    """What is wrong with a run of random sizes and rates, or None."""
    words, partitions = settings(random.Random(number))
    folder = os.path.join(scratch, f"other-{number}-{seed}")
    wrote = simulate(seed, 300 + seed * 37 % 700, folder, *words)
    if wrote != (0, f"wrote partitions={partitions}\n", ""):
        return f"{words}: {wrote}"
    said = told(folder, not wide or seed % 10 == 0)
    return None if YES.fullmatch(said + "\n") else f"seed {seed}, {words}: {said}"


def batches_of(path):
    """The batches of a segment, with their greatest time and the times of their records."""
    with open(path, "rb") as f:
        data = f.read()
    at, found = 0, []
    while at < len(data):
        batch, size = plain_logs.read_batch(data, at)
        first, most = struct.unpack_from(">qq", data, at + 27)
        body, times = Reader(data[at + 61 : at + size]), []
        for _ in range(batch.count):
            fields = Reader(body.take(body.varint()))
            fields.take(1)
            times.append(first + fields.varint(10, 64))
        found.append((batch, most, times))
        at += size
    return found


def goes_on(before, batch, name):
    """Whether a record may stand in a batch behind another: one producer, one epoch, and its sequence is the next, if it has one."""
    if {before.word, batch.word} & {"commit", "abort"} or name.startswith("__transaction_state"):
        return False
    if (before.producer, before.epoch) != (batch.producer, batch.epoch):
        return False
    return before.sequence == batch.sequence == -1 or before.sequence + 1 == batch.sequence > 0


def grouped(singles, most, name):
    """The batches of a segment that so many records may stand in, from those of one record each."""
    groups = []
    for batch, _, times in singles:
        if groups and len(groups[-1]) < most and goes_on(groups[-1][-1][0], batch, name):
            groups[-1].append((batch, times[0]))
        else:
            groups.append([(batch, times[0])])
    return [
        (group[0][0]._replace(count=len(group), records=[batch.records[0] for batch, _ in group]), group[-1][1], [time for _, time in group])
        for group in groups
    ]


def bites(name, words):
    """Whether a switch shows anything in a cluster of these words' sizes."""
    sizes = {option: words[words.index(option) + 1] if option in words else 2 for option in ("--outputs", "--applications")}
    return sizes["--outputs"] > 1 if name in ("swap-marker", "hide-listing") else sizes["--applications"] > 1 or name != "ignore-generation"


def batched(seed):
    """What is wrong with a run whose batches have several records, beside the same run with one each, or None. And how many
    records the largest batch has."""
    choice = random.Random(seed)
    most = [2, 3, 1000, choice.randint(2, 30)][seed % 4]
    words = settings(choice, ["batch-records"])[0]
    if seed % 3 == 0:
        words += ["--switch", choice.choice([it for it in SWITCHES if bites(it, words)])]
    one, other = (os.path.join(scratch, f"batches-{seed}-{name}") for name in ("one", "more"))
    events = 100 + seed * 37 % 700
    made = [simulate(seed, events, one, *words), simulate(seed, events, other, *words, "--batch-records", most)]
    if made[0] != made[1] or made[0][0] != 0:
        return f"{words}: {made}", 0
    largest = 0
    for name in sorted(os.listdir(one)):
        if name == "evidence.json":
            continue
        files = sorted(os.listdir(os.path.join(one, name)))
        if files != sorted(os.listdir(os.path.join(other, name))):
            return f"{words}: the segments of {name}", 0
        for file in files:
            singles, found = (batches_of(os.path.join(folder, name, file)) for folder in (one, other))
            if any(batch.count > 1 for batch, _, _ in singles) or found != grouped(singles, most, name):
                return f"{words}: the batches of {name}/{file}", 0
            largest = max([largest, *(batch.count for batch, _, _ in found)])
    said = [told(folder) for folder in (one, other)]
    return (None if said[0] == said[1] else f"{words}: {said}"), largest


def groups_in(folder):
    with open(os.path.join(folder, "evidence.json")) as f:
        manifest = json.load(f)
    return manifest["version"], [(app["group"], app["sources"], app["outputs"]) for app in manifest.get("apps", [])]


def chained_switch(name, seed):
    """What is wrong with a run of two groups in which a rule is broken after the script, or None."""
    folder = os.path.join(scratch, f"chained-{name}-{seed}")
    wrote = simulate(seed, 100 + seed * 37 % 300, folder, "--chain", "--switch", name)
    if wrote != (0, CHAIN_WROTE, ""):
        return f"{name}: {wrote}"
    said = told(folder)
    return None if said.startswith(f"no {SWITCHES[name]} ") else f"{name}: {said}"


def aborted_records(folder):
    """The places `out-N:O` of the records of `out` whose transaction was aborted, as the second program reads them, of those that
    have outputs: O isn't 0 modulo 3."""
    found = []
    for part in reference.read_folder(folder)[1]:
        if part.name[0] == b"out":
            all_data = {offset for _, offset, _ in plain_logs.records_of(part)}
            visible = {offset for _, offset, _ in plain_logs.records_of(part, only_visible=True)}
            found += [f"out-{part.name[1]}:{offset}" for offset in sorted(all_data - visible) if offset % 3]
    return found


def chained_mishap(seed):
    """What is wrong with a run in which the second group processes an aborted record, or None."""
    folder = os.path.join(scratch, f"chained-mishap-{seed}")
    events = 400 + seed * 37 % 400
    if simulate(seed, events, folder, "--chain") != (0, CHAIN_WROTE, ""):
        return "an honest run of two groups"
    places = aborted_records(folder)
    if groups_in(folder) != (2, [("g", ["in"], ["out"]), ("h", ["out"], ["fin"])]):
        return f"{groups_in(folder)}"
    shutil.rmtree(folder)
    if not places:
        return "no record was aborted"
    at = places[seed % len(places)]
    for words, wanted in (["aborted-input"], [f" source={it} " for it in places]), ([f"aborted-input@{at}"], [f" source={at} "]):
        wrote = simulate(seed, events, folder, "--chain", "--mishap", *words)
        if wrote != (0, CHAIN_WROTE, ""):
            return f"{words}: {wrote}"
        kinds = kinds_in(folder)
        said = told(folder)
        if kinds != {"5.6"} or not said.startswith("no 5.6 NoSuchInput ") or not any(it in f"{said} " for it in wanted):
            return f"{words}: {kinds} {said}"
    return None


def rates():
    """Each rate is heard: with the same seed its least and its most make other logs. And where nothing is lost, given up, moved,
    restarted or aborted, no transaction is.
    """
    for name in RATES:
        one, other = (os.path.join(scratch, f"{name}-{rate}") for rate in (0, 130))
        made = [simulate(7, 600, folder, f"--{name}", rate) for folder, rate in ((one, 0), (other, 130))]
        expect(made == [(0, WROTE, "")] * 2, f"--{name} 0 and 130: {made}")
        expect(not same_folder(one, other), f"--{name} is not heard")
    usual, calm = os.path.join(scratch, "usual"), os.path.join(scratch, "calm")
    simulate(7, 600, usual)
    simulate(7, 600, calm, *(word for name in RATES for word in (f"--{name}", 0)))
    expect(aborted(usual) > 0 and aborted(calm) == 0, f"abort markers: {aborted(usual)} and {aborted(calm)}")


def aborted(folder):
    """How many abort markers the logs of a folder have."""
    paths = (os.path.join(path, name) for path, _, names in os.walk(folder) for name in names if name.endswith(".log"))
    return sum(line.endswith(" abort") for path in paths for line in run("dump", path)[1].splitlines())


def untailed():
    """Without its tail a run with a switch is the same up to where the tail begins, and each switch is found at some seed all the same; two
    members that process one input, as `ignore-generation` lets them, come up by chance alone.
    """
    for name in SWITCHES:
        found = 0
        for seed in range(1, 21):
            folder, other = (os.path.join(scratch, f"{it}-{name}-{seed}") for it in ("tail", "no-tail"))
            words = ["--switch", name, "--switch-at", 0, "--history"]
            made = simulate(seed, 1000, folder, *words, f"{folder}.jsonl"), simulate(seed, 1000, other, "--no-tail", *words, f"{other}.jsonl")
            if name != "hide-listing" or made[1][0] == 0:
                expect(made == ((0, WROTE, ""), (0, WROTE, "")), f"{name}, seed {seed}: {made}")
                with open(f"{folder}.jsonl", encoding="utf-8") as whole, open(f"{other}.jsonl", encoding="utf-8") as front:
                    whole, front = whole.readlines(), front.readlines()
                expect(front[:-1] == whole[: len(front) - 1] and '"set":' in front[-2] and len(front) < len(whole), f"{name}, seed {seed}: another run")
                found += told(other).startswith("no ")
        expect(found > 0 or name == "ignore-generation", f"{name} without a tail: {found} of 20 are found")


def several():
    """Several switches and mishaps at once."""
    folder = os.path.join(scratch, "several")
    more = [word for name in MISHAPS for word in ("--mishap", name)]
    expect(simulate(7, 900, folder, *more) == (0, WROTE, ""), "all mishaps at once")
    one = reference.verdict(folder)
    expect(code_in(one) in ("4.1", "4.4") and told(folder) == one, f"all mishaps at once: {one}")
    more = [word for name, fault in MISHAPS.items() if fault.startswith("5.") for word in ("--mishap", name)]
    expect(simulate(7, 900, folder, *more) == (0, WROTE, ""), "all mishaps of outputs at once")
    one = reference.verdict(folder)
    expect(one.startswith("no 5.") and told(folder) == one, f"all mishaps of outputs at once: {one}")
    for names in (["keep-duplicates", "no-bump"], ["swap-marker", "ignore-generation"], ["hide-listing", "swap-marker"]):
        words = [word for name in names for word in ("--switch", name)]
        expect(simulate(7, 200, folder, *words) == (0, WROTE, ""), f"simulate with {names}")
        found = code_in(told(folder))
        expect(found in [SWITCHES[name].split()[0] for name in names], f"check of {names}: {found}")
    words = ["--switch", "no-bump", "--mishap", "lost-output"]
    expect(simulate(7, 200, folder, *words) == (0, WROTE, ""), f"simulate with {words}")
    expect(code_in(told(folder)) == "1.7", "the logs' fault comes before the outputs'")
    # twice the same switch is once
    other = os.path.join(scratch, "other")
    simulate(7, 200, folder, "--switch", "no-fence")
    simulate(7, 200, other, "--switch", "no-fence", "--switch", "no-fence")
    expect(same_folder(folder, other), "a switch given twice")
    # defaults that are given are the defaults
    shutil.rmtree(folder)
    shutil.rmtree(other)
    simulate(7, 200, folder)
    simulate(7, 200, other, *[word for name, it in SIZES.items() for word in (f"--{name}", it[2])])
    expect(same_folder(folder, other), "default sizes that are given")


def rows_below(text, heading):
    """The rows of the first table below a heading, as lists of their cells."""
    rows = re.search(rf"^## {heading}.*?\n((?:\|[^\n]*\n)+)", text, re.M | re.S)[1].splitlines()[2:]
    return [[cell.strip() for cell in row.strip("|").split("|")] for row in rows]


def documented():
    with open(os.path.join(HERE, "../docs/SIMULATOR.md"), encoding="utf-8") as f:
        text = f.read()
    switches = [(row[0].strip("`"), *row[2:]) for row in rows_below(text, "Switches")]
    wanted = [(name, fault, ", ".join(BEHIND[name]), ", ".join(INSIDE[name])) for name, fault in SWITCHES.items()]
    expect(switches == wanted, f"the switches of docs/SIMULATOR.md: {switches}")
    mishaps = {row[0].strip("`"): row[2] for row in rows_below(text, "Mishaps")}
    expect(mishaps == {**MISHAPS, **CHAINED}, f"the mishaps of docs/SIMULATOR.md: {mishaps}")
    sizes = {row[0].split("`")[1][2:]: tuple(map(int, row[1:])) for row in rows_below(text, "Sizes")}
    expect(sizes == SIZES, f"the sizes of docs/SIMULATOR.md: {sizes}")
    rates = [row for row in rows_below(text, "A script's words")]
    expect(sum(float(row[1]) for row in rates) == 1000, "the rates of docs/SIMULATOR.md come to 1000")
    said = run("simulate", "--help")[1]
    for _, rate, option in rates:
        # Those of one rate stand in a row before it.
        others = r"(?:,?\s+(?:and\s+)?[a-z][a-z-]*)*"
        named = re.search(rf"\b{option.strip('`')[2:]}{others}\s+{re.escape(rate)}[,.]", said) if option else True
        expect(named, f"the help says that {option} is {rate}")
    expect(all(f"--{name} " in said for name in [*RATES, *SIZES]), "the help has all sizes and rates")
    for name, fault in SWITCHES.items():
        row = re.search(rf"^  {name} +{re.escape(fault)}  .*\n((?: {{20,}}.*\n)?)", said, re.M)
        parts = [f"behind it {', '.join(BEHIND[name])}" if BEHIND[name] else "", f"before it {', '.join(INSIDE[name])}" if INSIDE[name] else ""]
        expect(row and row[1].strip() == "; ".join(part for part in parts if part), f"the help has what stands around the fault of {name}")


def same_folder(one, other):
    compared = filecmp.dircmp(one, other)
    names = sorted(name for name in os.listdir(one))
    if names != sorted(os.listdir(other)) or compared.funny_files:
        return False
    for name in names:
        a, b = os.path.join(one, name), os.path.join(other, name)
        if os.path.isdir(a):
            if not same_folder(a, b):
                return False
        elif not filecmp.cmp(a, b, shallow=False):
            return False
    return True


def restless():
    """What keeps a cluster from its rest: a restart of the coordinator, with a record of a transaction that lists none of its
    partitions, since all are hidden."""
    path = os.path.join(scratch, "restless.jsonl")
    simulate(7, 0, os.path.join(scratch, "restless-head"), "--history", path)
    with open(path) as f:
        head = {**json.loads(f.readline()), "switches": ["hide-listing"]}
    claim = {"of": 1, "offset": 0, "output": 1, "partition": 0, "topic": "in"}
    begin, restart = {"event": "start", "application": 0}, {"event": "coordinator-restart"}
    arrive = [{"event": "deliver", "message": number} for number in range(4)]
    produce = {"event": "produce", "session": 0, "partition": 1, "claim": claim}
    opened = [{"set": ["hide-listing"]}, begin, produce, arrive[0]]
    ended = [*opened, {"event": "end", "session": 0, "kind": "commit"}, arrive[1]]
    stuck = (2, "", "eoscheck: the cluster is not at rest\n")
    for events, wanted in [
        ([*ended, *arrive], (0, WROTE, "")),
        ([*opened, begin, *arrive], (0, WROTE, "")),
        ([*ended, restart, *arrive, begin, restart, *arrive], stuck),
        ([*opened, restart, begin, *arrive, begin, restart, *arrive], stuck),
    ]:
        with open(path, "w") as f:
            lines = [head, *({**it, "number": at} for at, it in enumerate(events, 1))]
            f.writelines(json.dumps(it, sort_keys=True, separators=(",", ":")) + "\n" for it in lines)
        folder = os.path.join(scratch, "restless")
        found = run("simulate", "--schedule", path, folder)
        expect(found == wanted and os.path.exists(folder) == (wanted != stuck), f"{events}: {found}")
        shutil.rmtree(folder, ignore_errors=True)


def worked():
    """The worked example: seed 7 and 200 events, with each switch and without."""
    folder = os.path.join(scratch, "worked")
    expect(simulate(7, 200, folder) == (0, WROTE, ""), "simulate of the worked example")
    one, eight = (run("check", "--workers", workers, folder) for workers in (1, 8))
    expect(one[0] == 0 and YES.fullmatch(one[1]) and one == eight, f"check of the worked example: {one}, {eight}")
    for name, fault in SWITCHES.items():
        folder = os.path.join(scratch, f"worked-{name}")
        expect(simulate(7, 200, folder, "--switch", name) == (0, WROTE, ""), f"simulate with {name}")
        said = run("check", folder)
        expect(said[0] == 1 and said[1].startswith(f"no {fault} "), f"check of {name}: {said}")


def limited(most):
    """Settings of a run under which no file gets more than so many bytes."""

    def limit():
        signal.signal(signal.SIGXFSZ, signal.SIG_IGN)
        resource.setrlimit(resource.RLIMIT_FSIZE, (most, most))

    return {"preexec_fn": limit}


def refused_folders():
    folder = os.path.join(scratch, "there")
    os.mkdir(folder)
    message = f"eoscheck: cannot write {folder}: it is there already\n"
    expect(simulate(7, 10, folder) == (2, "", message), "simulate to a folder that is there")
    expect(os.listdir(folder) == [], "simulate writes to a folder that is there")
    file = os.path.join(scratch, "file")
    open(file, "w").close()
    message = f"eoscheck: cannot write {file}: it is there already\n"
    expect(simulate(7, 10, file) == (2, "", message), "simulate to a file that is there")
    absent = os.path.join(scratch, "absent/folder")
    message = f"eoscheck: cannot write {absent}\n"
    expect(simulate(7, 10, absent) == (2, "", message), "simulate to a folder in an absent one")
    folder = os.path.join(scratch, "no-manifest")
    message = f"eoscheck: cannot write {folder}/evidence.json\n"
    # segments of one record are shorter than the manifest of so many partitions
    many = ["--segment-records", 1, "--inputs", 16, "--outputs", 16]
    expect(simulate(7, 0, folder, *many, **limited(300)) == (2, "", message), "a manifest that can't be written")
    expect(not os.path.exists(folder), "a folder without its manifest is taken away")
    folder = os.path.join(scratch, "no-segment")
    status, out, said = simulate(7, 100, folder, **limited(400))
    expect(
        status == 2 and out == "" and re.fullmatch(rf"eoscheck: cannot write {folder}/[a-z_]+-\d/\d{{20}}\.log\n", said),
        f"a segment that can't be written: {said}",
    )
    expect(not os.path.exists(folder), "a folder without a segment is taken away")
    with open("/dev/full", "w") as full:
        words = [program, "simulate", "--seed", "7", "--events", "10", os.path.join(scratch, "full")]
        done = subprocess.run(words, stdout=full, stderr=subprocess.PIPE, timeout=60)
        expect((done.returncode, done.stderr) == (2, b"eoscheck: cannot write -\n"), "simulate to a full device")


def killed():
    """A run that is killed while it writes leaves a folder without a whole manifest, or all of it: `check` takes no part for the
    whole."""
    words = [program, "simulate", "--seed", "7", "--events", "3000", "--segment-records", "1", "--inputs", "16", "--outputs", "16"]
    whole = os.path.join(scratch, "whole-of-killed")
    subprocess.run([*words, whole], capture_output=True, timeout=120)
    parts = 0
    for most in (1, 2, 4, 8, 16, 24, 32):
        folder = os.path.join(scratch, f"killed-{most}")
        running = subprocess.Popen([*words, folder], stdout=subprocess.DEVNULL)
        while running.poll() is None and (not os.path.exists(folder) or len(os.listdir(folder)) < most):
            pass
        running.kill()
        running.wait()
        if not os.path.exists(folder) or not same_folder(whole, folder):
            parts += 1
            said = run("check", folder)
            expect(said[0] == 2 and "evidence.json" in said[2], f"check of what a run leaves that is killed after {most} folders: {said}")
    expect(parts > 0, "no run was killed before its end")


def bad_words():
    folder = os.path.join(scratch, "never")
    for words in [
        ["--seed", "7", folder],
        ["--events", "7", folder],
        ["--seed", "7", "--events", "7"],
        ["--seed", "x", "--events", "7", folder],
        ["--seed", "-1", "--events", "7", folder],
        ["--seed", "18446744073709551616", "--events", "7", folder],
        ["--seed", "7", "--events", "1000001", folder],
        ["--seed", "7", "--events", "-1", folder],
        ["--seed", "7", "--events", "7", "--switch", "no-such", folder],
        ["--seed", "7", "--events", "7", "--applications", "0", folder],
        ["--seed", "7", "--events", "7", "--applications", "9", folder],
        ["--seed", "7", "--events", "7", "--inputs", "17", folder],
        ["--seed", "7", "--events", "7", "--outputs", "0", folder],
        ["--seed", "7", "--events", "7", "--transaction-logs", "5", folder],
        ["--seed", "7", "--events", "7", "--segment-records", "1001", folder],
        ["--seed", "7", "--events", "7", "--batch-records", "0", folder],
        ["--seed", "7", "--events", "7", "--batch-records", "1001", folder],
        ["--seed", "7", "--events", "7", "--lose", "1001", folder],
        ["--seed", "7", "--events", "7", "--abort", "x", folder],
        ["--seed", "7", "--events", "7", "--time-out", "1001", folder],
        ["--seed", "7", "--events", "7", "--add-partition", "1001", folder],
        ["--seed", "7", "--events", "7", "--late-complete", "-1", folder],
        ["--seed", "7", "--events", "7", "--switch-at", "1000001", folder],
        ["--seed", "7", "--events", "7", folder, "more"],
    ]:
        status, out, said = run("simulate", *words)
        expect((status, out) == (2, "") and said != "" and not os.path.exists(folder), f"bad words {words}")
    for words, message in [
        (["--lose", "1000"], "rates: more than 1000 in all"),
        (["--repeat", "500", "--abort", "460"], "rates: more than 1000 in all"),
        (["--time-out", "860"], "rates: more than 1000 in all"),
        (["--time-out", "400", "--add-partition", "460"], "rates: more than 1000 in all"),
        (["--add-partition", "430", "--late-complete", "430"], "rates: more than 1000 in all"),
        (["--switch-at", "3"], "--switch-at: no --switch"),
        (["--switch", "no-bump", "--switch-at", "8"], "--switch-at: more than --events"),
        (["--switch", "no-bump", "--no-tail"], "--no-tail: no --switch-at"),
        (["--no-tail"], "--no-tail: no --switch-at"),
        (["--mishap", "no-such"], "--mishap: no mishap, or not NAME@TOPIC-N:O"),
        (["--mishap", "lost-output@out-0:1"], "--mishap: no mishap, or not NAME@TOPIC-N:O"),
        (["--mishap", "lost-output@in-00:1"], "--mishap: no mishap, or not NAME@TOPIC-N:O"),
        (["--mishap", "lost-output@in-0:+1"], "--mishap: no mishap, or not NAME@TOPIC-N:O"),
        (["--mishap", "lost-output@in-0:0"], "lost-output: no input suits this mishap"),
        (["--mishap", "wrong-count@in-0:1"], "wrong-count: no input suits this mishap"),
        (["--mishap", "other-transaction@in-2:1"], "other-transaction: no input suits this mishap"),
        (["--mishap", "early-output@in-0:5000"], "early-output: no input suits this mishap"),
        (["--mishap", "aborted-input"], "aborted-input: it needs --chain"),
        (["--mishap", "lost-output", "--mishap", "aborted-input@out-0:1"], "aborted-input: it needs --chain"),
        (["--outputs", 1, "--switch", "swap-marker"], "swap-marker: it needs two partitions of `out`"),
        (["--outputs", 1, "--chain", "--switch", "no-fence", "--switch", "hide-listing"], "hide-listing: it needs two partitions of `out`"),
        (["--applications", 1, "--chain", "--switch", "ignore-generation"], "ignore-generation: it needs two applications of the first group"),
        (["--chain", "--mishap", "aborted-input@out-0:1"], "aborted-input: no input suits this mishap"),
        (["--chain", "--mishap", "aborted-input@in-0:1"], "--mishap: no mishap, or not NAME@TOPIC-N:O"),
        (["--chain", "--mishap", "lost-output@out-0:1"], "--mishap: no mishap, or not NAME@TOPIC-N:O"),
    ]:
        found = simulate(7, 7, folder, *words)
        wanted = (2, "", f"eoscheck: {message}\n")
        expect(found == wanted and not os.path.exists(folder), f"bad words {words}: {found}")
    status, out, said = run("simulate", "--help")
    named = all(re.search(rf"{name} +{fault}", out) for name, fault in {**SWITCHES, **MISHAPS, **CHAINED}.items())
    expect((status, said) == (0, "") and named, "the help of simulate")


def refused_memory(library):
    """Each allocation of a run, or where there are many every so-manieth: the folder is written, or the answer is want of
    memory and there is none, or a whole one of which nothing could be said any more."""
    count = os.path.join(scratch, "count")
    folder = os.path.join(scratch, "whole")
    words = dict(os.environ, LD_PRELOAD=library)
    good = simulate(7, 5, folder, env=dict(words, REFUSE_COUNT=count))
    expect(good == (0, WROTE, ""), "simulate with allocations counted")
    with open(count) as f:
        total = int(f.read())
    told = 0
    for at in range(1, total + 1, max(1, total // 1500)):
        again = os.path.join(scratch, "again")
        found = simulate(7, 5, again, env=dict(words, REFUSE_AT=str(at)))
        if found == (3, "", "eoscheck: out of memory\n"):
            told += 1
            whole = not os.path.exists(again) or same_folder(folder, again)
            expect(whole, f"allocation {at} refused: a part of the folder is left")
        elif found != good or not same_folder(folder, again):
            expect(False, f"allocation {at} refused: {found}")
        if os.path.exists(again):
            shutil.rmtree(again)
    expect(told > 100, f"{told} of {total} refused allocations are told")


def main():
    seeds = range(1, 1 + (int(words[2]) if len(words) > 2 else 200))
    with concurrent.futures.ThreadPoolExecutor(4) as pool:
        counts = []
        for seed, (wrong, found) in zip(seeds, pool.map(good, seeds)):
            expect(wrong is None, f"seed {seed}, {events_of(seed)} events: {wrong}")
            counts.append(found or (0, 0, 0))
        busy = sum(all(found) for found in counts)
        expect(busy > 0.9 * len(counts), f"{busy} of {len(counts)} runs have transactions, inputs and outputs")
        for name in SWITCHES:
            right = list(pool.map(lambda seed: switched(name, seed), seeds[:20]))
            expect(all(right), f"{name}: {right.count(False)} of {len(right)} runs don't give {SWITCHES[name]}")
        insides(pool, seeds[: 20 if wide else 5])
        for name in MISHAPS:
            wrong = [it for it in pool.map(lambda seed: erring(name, seed), seeds[: 20 if wide else 8]) if it]
            expect(not wrong, f"{name}: {wrong}")
        chosen = [(number, number) for number in seeds[: max(1, len(seeds) // 5)]]
        if wide:
            chosen = [(number, seed) for number in range(1, 21) for seed in range(1, 51)]
        wrong = [it for it in pool.map(lambda it: other_settings(*it), chosen) if it]
        expect(not wrong, f"other sizes and rates: {wrong}")
        wrong, largest = zip(*pool.map(batched, seeds[: max(4, len(seeds) // 5)]))
        expect(not any(wrong), f"batches of several records: {[it for it in wrong if it]}")
        expect(max(largest) > 3, f"the largest batch has {max(largest)} records")
        chained = [(name, seed) for name in SWITCHES for seed in seeds[: 20 if wide else 5]]
        wrong = [it for it in pool.map(lambda it: chained_switch(*it), chained) if it]
        expect(not wrong, f"switches with two groups: {wrong}")
        wrong = [it for it in pool.map(chained_mishap, seeds[: 20 if wide else 8]) if it]
        expect(not wrong, f"the mishap of the second group: {wrong}")
    untailed()
    worked()
    rates()
    several()
    documented()
    restless()
    refused_folders()
    killed()
    bad_words()
    if len(words) > 1:
        refused_memory(os.path.abspath(words[1]))
    print(f"{passed} passed, {failed} failed")


if __name__ == "__main__":
    words = [word for word in sys.argv[1:] if word != "--wide"]
    program = os.path.abspath(words[0])
    with tempfile.TemporaryDirectory() as scratch:
        main()
