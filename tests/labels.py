#!/usr/bin/env -S python3 -B
"""What `simulate --labels` says was done wrong, against what `check` and tests/reference.py find: the score of a checker.

    tests/labels.py PROGRAM [REFUSE.SO [COUNT [FIRST]]]

Of COUNT folders (300), of the seeds from FIRST (1) on, with random sizes, rates, switches and mishaps: the folder is the same with labels and without, and a schedule has
the labels of its history; each label names a line of the history of its kind, each note has a label, and each line fits
docs/labels.schema.json. Without a switch no rule was broken. Then the score. Of a folder: `check` says no where a label has codes, and yes
elsewhere. Of a fault: a label has its code. Of a label: a fault with one of its codes is found. What is missed is explained: labels of
HARMLESS may do no harm, nor a loss of records of which the second program finds none, nor does a zombie's record before the abort of its own transaction,
nor a rule that is broken at an end marker that is lost; a mishap's transaction may come to nothing where a rule is broken too, and a fault is hidden behind those of a
phase before, which `check --all` then lists alone: it stands by the second program, tests/reference.py, which looks at every phase of these
folders, and of every tenth. Faults of AT_LABELS stand at records that a label names, or of a
sequence behind one. Then `--count` makes the folders that single calls
make. With REFUSE.SO (tests/refuse.c, built) the allocations of a run are refused. Prints what is wrong and the score, and as its last line
'N passed, N failed'.
"""
import collections
import concurrent.futures
import filecmp
import json
import os
import random
import shutil
import subprocess
import sys
import tempfile

import reference
from plain_logs import ABORT, next_marker

HERE = os.path.dirname(os.path.abspath(__file__))
SWITCHES = ["keep-duplicates", "no-fence", "no-bump", "lose-marker", "swap-marker", "hide-listing", "ignore-generation"]
MISHAPS = ["lost-output", "repeated-output", "early-output", "wrong-count", "wrong-number", "foreign-source", "other-transaction", "no-headers", "offset-deleted"]
RATES = ["lose", "repeat", "abandon", "members", "restart-broker", "restart-coordinator"]
SIZES = {"applications": (2, 8), "inputs": (1, 16), "outputs": (2, 16), "transaction-logs": (1, 4), "segment-records": (1, 40)}
# A rule that is broken without harm: an offset of another generation is accepted, and nobody else has processed its inputs.
HARMLESS = "ignore-generation"
AT_LABELS = {"1.4", "1.5", "1.7"}

passed = failed = 0


def expect(holds, what):
    global passed, failed
    passed, failed = passed + bool(holds), failed + (not holds)
    if not holds:
        print(f"FAIL {what}")


def run(*args, **options):
    done = subprocess.run([program, *map(str, args)], capture_output=True, text=True, check=False, **options)
    return done.returncode, done.stdout, done.stderr


def lines_of(path):
    with open(path, encoding="utf-8") as file:
        return [json.loads(line) for line in file]


def same_folder(one, other):
    found = filecmp.dircmp(one, other)
    _, unlike, failing = filecmp.cmpfiles(one, other, found.common_files, shallow=False)
    return not (found.left_only or found.right_only or unlike or failing) and all(same_folder(f"{one}/{it}", f"{other}/{it}") for it in found.common_dirs)


def words_of(seed):
    """Random words, and the switches among them."""
    chance = random.Random(seed)
    words = ["--seed", seed, "--events", chance.randrange(50, 500)]
    for name, (least, most) in SIZES.items():
        if chance.random() < 0.3:
            words += [f"--{name}", chance.randrange(least, most + 1)]
    for name in RATES:
        if chance.random() < 0.3:
            words += [f"--{name}", chance.randrange(0, 120)]
    switches = chance.sample(SWITCHES, 2 if chance.random() < 0.1 else 1) if chance.random() < 0.5 else []
    for name in switches:
        words += ["--switch", name]
    if switches and chance.random() < 0.6:
        words += ["--switch-at", chance.randrange(0, 50)] + (["--no-tail"] if chance.random() < 0.5 else [])
    if chance.random() < 0.2:
        words += ["--mishap", chance.choice(MISHAPS)]
    if chance.random() < 0.3:
        words += ["--chain"]
    if chance.random() < 0.3:
        words += ["--elect", chance.randrange(0, 60)]
    if chance.random() < 0.2:
        words += ["--mishap", "unclean-election"]
    return words, switches


def members_of(label):
    """The members that a label of its kind has, by the schema."""
    for kind in SCHEMA["oneOf"]:
        said = kind["properties"]["label"]
        if label["label"] in said.get("enum", [said.get("const")]):
            return {"label", "number", *kind["required"]}
    return None


def wrong_labels(labels, history, switches):
    """What is wrong with labels beside their history's lines, or None."""
    deeds = {it["number"]: it for it in history if "number" in it}
    for it in labels:
        deed = deeds[it["number"]]
        if set(it) != members_of(it):
            return f"members of {it}"
        if it["label"] == "broken-rule":
            if it["rule"] not in switches or (deed.get("event"), deed.get("message"), deed.get("reply"), deed.get("value")) != ("deliver", it["message"], "done", it["offset"]):
                return f"{it} of {deed}"
        elif it["label"] == "unclean-election":
            if (deed.get("event"), deed.get("reply"), f"{deed.get('topic')}-{deed.get('partition')}", deed.get("kept")) != ("elect", "done", it["partition"], it["offset"]):
                return f"{it} of {deed}"
        elif it["label"] == "stopped":
            if it["number"] != max(deeds) or it is not labels[-1]:
                return f"{it} isn't the last"
        elif deed.get("note") != it["label"] or any(deed[name] != it[name] for name in ("message", "mishap") if name in it):
            return f"{it} of {deed}"
    noted = [it["number"] for it in labels if it["label"] not in ("broken-rule", "unclean-election", "stopped")]
    if noted != [number for number, it in deeds.items() if "note" in it]:
        return "notes without a label"
    if [it["number"] for it in labels] != sorted(it["number"] for it in labels):
        return "labels in another order"
    return None


def phase(code):
    return int(code.split(".")[0])


def kinds_in(folder):
    """The kinds of all faults of a folder by the second program, whatever stands in the phases before."""
    apps, parts = reference.read_folder(folder)
    kinds = {f"1.{fault[1]}" for part in parts for fault in reference.partition_faults(part)}
    states, bad = reference.read_states([part for part in parts if part.name[0] == reference.STATES])
    kinds |= {f"2.{fault[2]}" for fault in reference.log_faults([part for part in parts if part.name[0] == reference.STATES], states, bad)}
    if "1.11" not in kinds:
        kinds |= {f"3.{fault[2]}" for fault in reference.match_faults(parts, reference.decisions_of(states))}
    claims, commits, unread = reference.read_lineage(apps, parts)
    kinds |= {f"4.{fault[3]}" for fault in unread}
    for one in reference.split(apps, parts, claims, commits):
        kinds |= {f"5.{fault[2]}" for fault in reference.lineage_faults(*one)}
    return kinds


def faults_in(folder):
    """The faults that `check --all` reports: code, and where it stands."""
    path = f"{folder}.report"
    run("check", "--quiet", "--all", "--report", path, folder)
    with open(path, encoding="utf-8") as file:
        report = json.load(file)
    os.remove(path)
    return report.get("faults", [])


def is_given_up(folder, label):
    """Whether the record that a label of no-fence names came before the abort of its own transaction."""
    if label.get("rule") != "no-fence":
        return False
    part = next(it for it in reference.read_folder(folder)[1] if f"{it.name[0].decode()}-{it.name[1]}" == label["partition"])
    end = next_marker(part, next(it for it in part.batches if it.base <= label["offset"] < it.base + it.count))
    return end is not None and end.word == ABORT


def is_named(fault, places):
    """Whether a label names the record of a fault, or of a sequence the one before: what is taken twice isn't followed by its next."""
    part = f"{fault['topic']}-{fault['partition']}"
    return (part, fault["offset"]) in places or (fault["code"] == "1.4" and (part, fault["offset"] - 1) in places)


def is_unwritten(labels, label):
    """Whether what a label of a broken rule names is an end marker that isn't written, by a label of lose-marker."""
    return "rule" in label and any(it.get("rule") == "lose-marker" and it["number"] == label["number"] for it in labels)


class Score:
    """A seed's folder: what is wrong with its labels, and how `check` does by them."""

    def __init__(self, seed, words=None):
        self.seed, (self.words, self.switches) = seed, words or words_of(seed)
        self.wrong, self.missed, self.labels, self.faults, self.named = None, [], [], [], 0

    def fail(self, why):
        self.wrong = f"{' '.join(map(str, self.words))}: {why}"
        return self

    def judge(self, labels, faults, folder):
        codes = {code for it in labels for code in it.get("codes", [])}
        self.labels, self.faults = [it for it in labels if it.get("codes")], faults
        self.named = sum(it["code"] in codes for it in faults)
        if self.named < len(faults):
            return self.fail(f"no label has the code of {[it['code'] for it in faults if it['code'] not in codes]}")
        is_lossy = any(it["label"] == "unclean-election" for it in labels)
        places = {(it.get("partition"), it.get("offset")) for it in labels}
        for it in faults:
            if it["code"] in AT_LABELS and not is_lossy and not is_named(it, places):
                return self.fail(f"no label names the record of {it}")
        found = {it["code"] for it in faults}
        first = min(map(phase, found), default=9)
        lost = [it for it in self.labels if not found & set(it["codes"])]
        seen = kinds_in(folder) if any(it.get("rule") != HARMLESS for it in lost) or self.seed % 10 == 0 else found
        if not found <= seen or bool(seen) != bool(found):
            return self.fail(f"the reference finds {sorted(seen)}, and check {sorted(found)}")
        is_broken = any(it["label"] == "broken-rule" for it in labels)
        is_stopped = any(it["label"] == "stopped" for it in labels)
        for it in lost:
            if seen & {code for code in it["codes"] if phase(code) > first}:
                self.missed.append("behind a phase before")
            elif it.get("rule") == HARMLESS or (it["label"] == "unclean-election" and not seen & set(it["codes"])):
                self.missed.append("harmless")
            elif is_lossy and it["label"] in ("mishap", "broken-rule"):
                self.missed.append("what went wrong was lost")
            elif is_given_up(folder, it) or is_unwritten(labels, it):
                self.missed.append("harmless")
            elif it["label"] == "mishap" and is_broken:
                self.missed.append("a mishap beside a broken rule")
            elif is_stopped or (it["label"] == "mishap" and "--stop-anywhere" in self.words):
                # at rest too, where the transaction with the mishap was given up and none came after it
                self.missed.append("of what wasn't ended")
            else:
                self.missed.append(f"unexplained {it.get('rule', it.get('mishap'))} beside {sorted(found)}")
        return self


def scored(seed):
    """The score of a seed; or None where its words leave no evidence."""
    score = Score(seed)
    plain, folder, again = (os.path.join(scratch, f"{seed}-{it}") for it in ("plain", "labelled", "again"))
    made = run("simulate", *score.words, plain)
    if made[0] != 0:
        return None
    files = [os.path.join(scratch, f"{seed}-{it}") for it in ("labels", "history", "labels-again")]
    if run("simulate", *score.words, "--labels", files[0], "--history", files[1], folder) != made or not same_folder(plain, folder):
        return score.fail("another folder with labels")
    if run("simulate", "--schedule", files[1], "--labels", files[2], again) != made or not filecmp.cmp(files[0], files[2], shallow=False):
        return score.fail("a schedule has other labels")
    labels = lines_of(files[0])
    wrong = wrong_labels(labels, lines_of(files[1]), score.switches)
    if wrong:
        return score.fail(wrong)
    score.judge(labels, faults_in(folder), folder)
    for it in (plain, folder, again):
        shutil.rmtree(it)
    for it in files:
        os.remove(it)
    return score


def bad_files():
    """A file of labels that is there already, that can't be made or that is the history's bars the run, and nothing is left."""
    there, folder, history = (os.path.join(scratch, it) for it in ("there", "none", "history"))
    with open(there, "w", encoding="utf-8") as file:
        file.write("mine\n")
    for path, why in ((there, ": it is there already"), (f"{scratch}/no/such", ": no such folder"), (f"{scratch}/", ""), (history, None)):
        found = run("simulate", "--seed", 7, "--events", 20, "--history", history, "--labels", path, folder)
        expect(found[:2] == (2, "") and (why is None or found[2] == f"eoscheck: cannot write {path}{why}\n"), f"--labels {path}: {found}")
        expect(not os.path.exists(folder) and not [it for it in os.listdir(scratch) if it.startswith("history")], f"--labels {path} leaves something")
    with open(there, encoding="utf-8") as file:
        expect(file.read() == "mine\n", "the file that was there was written to")


def counted():
    """Many folders in one call are those of single calls, and the index says how each is made."""
    words = ["--events", 120, "--switch", "no-fence", "--switch-at", 30, "--inputs", 3]
    folder, single = os.path.join(scratch, "many"), os.path.join(scratch, "single")
    found = run("simulate", "--count", 4, "--seed", 18446744073709551614, *words, folder)
    index = [json.loads(line) for line in found[1].splitlines()]
    expect(found[0] == 0 and found[2] == "" and len(index) == 4, f"--count: {found}")
    for place, it in enumerate(index):
        seed = (18446744073709551614 + place) % 2**64
        expect(it["folder"] == f"{folder}/{place + 1:06}" and it["labels"] == f"{it['folder']}.labels", f"{it}: where it lies")
        expect(it["words"][:2] == ["--seed", str(seed)], f"{it}: its seed")
        made = run("simulate", *it["words"], "--labels", f"{single}.labels", single)
        expect(made[0] == 0 and same_folder(single, it["folder"]) and filecmp.cmp(f"{single}.labels", it["labels"], shallow=False), f"{it}: another folder")
        shutil.rmtree(single)
        os.remove(f"{single}.labels")
    expect(sorted(os.listdir(folder)) == [f"{place:06}{it}" for place in range(1, 5) for it in ("", ".labels")], "something else lies there")
    again = run("simulate", "--count", 1, "--seed", 1, "--events", 9, folder)
    expect(again == (2, "", f"eoscheck: cannot write {folder}: it is there already\n"), f"a folder that is there: {again}")
    told = run("simulate", "--count", 2, "--progress", "--seed", 1, "--events", 9, f"{folder}-2")
    expect(told[0] == 0 and told[2] == "eoscheck: 1 of 2 seeds\neoscheck: 2 of 2 seeds\n", f"--progress: {told}")
    unfit = run("simulate", "--count", 2, "--seed", 1, "--events", 9, "--lose", 600, "--abort", 600, f"{folder}-3")
    expect(unfit[:2] == (2, "") and not os.path.exists(f"{folder}-3"), f"words that don't fit: {unfit}")
    drawn = ["--seed", 1, "--events", 9]
    for words in ([*drawn, "--count", 0], [*drawn, "--count", 1000000], [*drawn, "--count", 2, "--history", single], [*drawn, "--count", 2, "--labels", single], ["--schedule", single, "--count", 2]):
        bad = run("simulate", *words, f"{folder}-5")
        expect(bad[:2] == (2, "") and bad[2] and not os.path.exists(f"{folder}-5"), f"{words}: {bad}")
    missing = run("simulate", "--count", 2, "--seed", 1, "--events", 0, "--mishap", "lost-output", f"{folder}-4")
    expect(missing[:2] == (0, "") and missing[2].count("\n") == 2 and os.listdir(f"{folder}-4") == [], f"seeds that a mishap doesn't suit: {missing}")


def refused_memory(library):
    """Each allocation, or where there are many every so-manieth: the folder, the history and the labels are there whole, or none is."""
    paths = [os.path.join(scratch, it) for it in ("memory", "memory-history", "memory-labels")]
    words = ["simulate", "--seed", 7, "--events", 40, "--switch", "no-fence", "--mishap", "lost-output", "--history", paths[1], "--labels", paths[2], paths[0]]
    counts = os.path.join(scratch, "counts")
    good = run(*words, env=dict(os.environ, LD_PRELOAD=library, REFUSE_COUNT=counts))
    whole = [lines_of(it) for it in paths[1:]]
    with open(counts, encoding="utf-8") as file:
        total = int(file.read())
    told = 0
    for at in range(1, total + 1, max(1, total // 300)):
        shutil.rmtree(paths[0], ignore_errors=True)
        for it in paths[1:]:
            if os.path.exists(it):
                os.remove(it)
        found = run(*words, env=dict(os.environ, LD_PRELOAD=library, REFUSE_AT=str(at)))
        told += found == (3, "", "eoscheck: out of memory\n")
        there = {os.path.exists(it) for it in paths}
        expect(found in (good, (3, "", "eoscheck: out of memory\n")), f"allocation {at} refused: {found}")
        expect(len(there) == 1, f"allocation {at} refused: one without the others")
        expect(there == {False} or [lines_of(it) for it in paths[1:]] == whole, f"allocation {at} refused: a part of a file")
    expect(told > 20, f"{told} of {total} refused allocations are told")


def main():
    count = int(sys.argv[3]) if len(sys.argv) > 3 else 300
    first = int(sys.argv[4]) if len(sys.argv) > 4 else 1
    with concurrent.futures.ThreadPoolExecutor(4) as pool:
        found = [it for it in pool.map(scored, range(first, first + count)) if it]
    for it in found:
        expect(not it.wrong, it.wrong)
    done, said = [it for it in found if it.labels], [it for it in found if it.faults]
    both = [it for it in done if it.faults]
    print(f"of {len(found)} folders {len(done)} have a label with codes, {len(said)} are refused, {len(both)} are both")
    faults, labels = sum(len(it.faults) for it in found), sum(len(it.labels) for it in found)
    missed = collections.Counter(why for it in found for why in it.missed)
    print(f"of {faults} faults {sum(it.named for it in found)} have their label; of {labels} labels {labels - sum(missed.values())} have their fault")
    for why, many in sorted(missed.items()):
        print(f"{many} labels have none: {why}")
    expect(len(said) == len(both) > count / 10, f"precision {len(both)}/{len(said)}")
    left = [it for it in done if not it.faults and set(it.missed) != {"harmless"}]
    expect(not left, f"recall: {[' '.join(map(str, it.words)) for it in left[:3]]} are not refused")
    expect(not [why for why in missed if why.startswith("unexplained")], f"labels are missed: {[(it.words, it.missed) for it in found if any(why.startswith('unexplained') for why in it.missed)][:3]}")
    bad_files()
    counted()
    if len(sys.argv) > 2 and sys.argv[2] != "-":
        refused_memory(os.path.abspath(sys.argv[2]))
    print(f"{passed} passed, {failed} failed")
    return 1 if failed else 0


if __name__ == "__main__":
    program = os.path.abspath(sys.argv[1])
    with open(os.path.join(HERE, "..", "docs", "labels.schema.json"), encoding="utf-8") as schema:
        SCHEMA = json.load(schema)
    with tempfile.TemporaryDirectory() as scratch:
        status = main()
    sys.exit(status)
