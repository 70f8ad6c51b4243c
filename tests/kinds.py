#!/usr/bin/env -S python3 -B
"""Each kind of fault has words of `simulate` that make it, and each mistake of a collector does what docs/SIMULATOR.md says.

    tests/kinds.py PROGRAM

The table of the manual has each kind of docs/YES.md once: of the folder that its words make `check` names this kind first, and
tests/reference.py says the same line. With a schedule and with labels the folder is the same. Each mistake's folder is the run's but for what
the mistake does, as it is done again here; the labels are the run's and a line for each mistake, which fits docs/labels.schema.json and whose
codes have each kind of fault that is listed; words that are no mistake, and mistakes with nothing in which they can be made, leave nothing.
Prints what is wrong, and as its last line 'N passed, N failed'.
"""
import concurrent.futures
import json
import os
import random
import re
import shutil
import subprocess
import sys
import tempfile

import jsonschema

import reference
from mutants import Reader, Refused
from plain_logs import ABORT, COMMIT, crc32c, read_batch

HERE = os.path.dirname(os.path.abspath(__file__))
MANIFEST = "evidence.json"
SIZES = [[], ["--segment-records", 1], ["--segment-records", 3, "--batch-records", 2, "--chain"]]

passed = failed = 0


def expect(holds, what):
    global passed, failed
    passed, failed = passed + bool(holds), failed + (not holds)
    if not holds:
        print(f"FAILED: {what}")


def run(*words):
    done = subprocess.run([program, *map(str, words)], capture_output=True, text=True, check=False)
    return done.returncode, done.stdout, done.stderr


def text_of(name):
    with open(os.path.join(HERE, "..", "docs", name), encoding="utf-8") as file:
        return file.read()


def table():
    """The manual's kinds: code, name and words."""
    rows = re.findall(r"^\| (\d\.\d+) (\w+) \| `([^`]+)` \|$", text_of("SIMULATOR.md"), re.M)
    known = re.findall(r"^\| (\d\.\d+) \| `(\w+)` \|", text_of("YES.md"), re.M)
    expect([row[:2] for row in rows] == known and len(known) == 35, f"the manual has the kinds {[row[:2] for row in rows]}, docs/YES.md {known}")
    return rows


def files_of(folder):
    """Its files by their paths, the manifest as what it says."""
    found = {}
    for place, _, names in os.walk(folder):
        for name in names:
            with open(os.path.join(place, name), "rb") as file:
                found[os.path.relpath(os.path.join(place, name), folder)] = file.read()
    found[MANIFEST] = json.loads(found[MANIFEST])
    return found


def lines_of(path):
    with open(path, encoding="utf-8") as file:
        return [json.loads(line) for line in file]


def kind(row):
    """What is wrong with the words of a kind, or None."""
    code, name, words = row
    words = words.split()
    folder, again = (os.path.join(scratch, f"{code}-{it}") for it in ("once", "again"))
    made = run("simulate", *words, "--labels", f"{folder}.labels", "--history", f"{folder}.history", folder)
    if made[0] != 0 or made[2]:
        return f"{row}: {made}"
    said = run("check", "--quiet", folder)
    if said[0] != 1 or not said[1].startswith(f"no {code} {name} "):
        return f"{row}: {said}"
    if reference.verdict(folder) + "\n" != said[1]:
        return f"{row}: {said[1]} and the second program says {reference.verdict(folder)}"
    labels = lines_of(f"{folder}.labels")
    if code not in {it for label in labels for it in label.get("codes", [])}:
        return f"{row}: no label has its code: {labels}"
    given = [words[at : at + 2] for at in range(len(words)) if words[at] == "--collect"]
    ends = [it for it in words if it == "--stop-anywhere"]
    same = run("simulate", "--schedule", f"{folder}.history", *sum(given, []), *ends, again)
    if same != made or files_of(folder) != files_of(again):
        return f"{row}: by its history {same}, or another folder"
    return None


# ---- the mistakes, done again


def path_of(part, base):
    return f"{part}/{base:020}.log"


def batches_of(text):
    """The batches of a file, each with its bytes, up to what is none."""
    at = 0
    while at < len(text):
        try:
            batch, size = read_batch(text, at)
        except Refused:
            return
        yield batch, text[at : at + size]
        at += size


def record_texts(batch, text):
    """The bytes of each record of a batch."""
    fields = Reader(text[61:])
    for _ in range(batch.count):
        before = fields.at
        fields.take(fields.varint())
        yield text[61 + before : 61 + fields.at]


def cleaned(files):
    """A partition's files as Kafka's log cleaner leaves them at its first pass: of each key the last record that isn't aborted and not of
    the last file, end markers, and the last batch of each producer id, if with nothing in it."""
    log = [(path, *it) for path, text in files.items() for it in batches_of(text)]
    latest, ended, sent = {}, {}, set()
    kept = {path: [] for path in files}
    is_active, last = True, log[-1][0] if log else None
    for place in reversed(range(len(log))):
        path, batch, text = log[place]
        is_active = is_active and path == last
        is_data = batch.word in ("txn", "plain")
        left, was_sent = text, batch.producer in sent
        if is_data:
            sent.add(batch.producer)
        if is_data and not is_active:
            records = [] if batch.word == "txn" and ended.get(batch.producer) == ABORT else list(zip(batch.records, record_texts(batch, text)))
            mine = {record.key: it for it, (record, _) in enumerate(records) if record.key is not None}
            stay = [it for n, (record, it) in enumerate(records) if record.key is not None and record.key not in latest and mine[record.key] == n]
            latest.update(mine)
            body = text[21:57] + len(stay).to_bytes(4, "big") + b"".join(stay)
            left = text[:8] + (9 + len(body)).to_bytes(4, "big") + text[12:17] + crc32c(body).to_bytes(4, "big") + body
            left = left if stay or (batch.producer >= 0 and not was_sent) else b""
        elif batch.word in (COMMIT, ABORT):
            ended[batch.producer] = batch.word
        kept[path].insert(0, left)
    return {path: b"".join(it) for path, it in kept.items()}


def done_again(files, word):
    """The files of a folder after a mistake."""
    name, place = word.split("@")
    part, *given = place.split(":")
    given = [int(it) for it in given]
    ends = dict(files[MANIFEST]["ends"])
    files = {**files, MANIFEST: {**files[MANIFEST], "ends": ends}}
    own = sorted(it for it in files if it.startswith(f"{part}/"))
    at = path_of(part, given[0]) if given else None
    if name == "lost-segment":
        del files[at]
    elif name == "cut-segment":
        files[at] = files[at][:-1]
    elif name == "renamed-segment":
        files[path_of(part, given[1])] = files.pop(at)
    elif name == "two-replicas":
        files[path_of(part, 0)] = b"".join(files[it] for it in own)
    elif name == "compacted":
        files.update(cleaned({it: files[it] for it in own}))
    elif name == "wrong-end":
        ends[part] = given[0]
    elif name == "forgotten":
        del ends[part]
        files = {it: text for it, text in files.items() if it not in own}
    elif name == "doubled":
        other = f"{part.rsplit('-', 1)[0]}-{given[0]}"
        ends[other] = ends[part]
        files.update({it.replace(part, other, 1): files[it] for it in own})
    else:
        text = bytearray(files[at])
        text[given[1]] = given[2]
        if name == "rewritten-byte":
            text[17:21] = crc32c(bytes(text[21:])).to_bytes(4, "big")
        files[at] = bytes(text)
    return files


def word_of(chance, files, name):
    """A word of this mistake, for a folder with these files."""
    ends = files[MANIFEST]["ends"]
    part = chance.choice([it for it in ends if sum(path.startswith(f"{it}/") for path in files) > 1] or list(ends))
    bases = sorted(int(it[-24:-4]) for it in files if it.startswith(f"{part}/"))
    base = chance.choice(bases)
    text = files[path_of(part, base)]
    at = chance.randrange(len(text))
    turned = f":{base}:{at}:{text[at] ^ 1 << chance.randrange(8)}"
    free = next(it for it in range(chance.randrange(1, 1000), 2000) if it not in bases)
    behind = {"two-replicas": "", "compacted": "", "forgotten": "", "doubled": ":20", "wrong-end": f":{max(0, ends[part] + chance.choice([-1, 1]))}", "renamed-segment": f":{base}:{free}", "turned-byte": turned, "rewritten-byte": turned}
    return f"{name}@{part}" + behind.get(name, f":{base}")


def listed(folder):
    """The codes of all faults that `check --all` reports."""
    run("check", "--quiet", "--all", "--report", f"{folder}.report", folder)
    return {it["code"] for it in lines_of(f"{folder}.report")[0].get("faults", [])}


def mistaken(seed):
    """What is wrong with two random mistakes, or None; and whether there was a fault."""
    chance = random.Random(seed)
    words = ["--seed", seed, "--events", chance.randrange(40, 200), *SIZES[seed % 3]]
    plain, folder = (os.path.join(scratch, f"{seed}-{it}") for it in ("plain", "mistaken"))
    run("simulate", *words, "--labels", f"{plain}.labels", plain)
    wanted, collected, mistakes = files_of(plain), [], []
    for name in (NAMES[seed % len(NAMES)], chance.choice(NAMES))[: 1 + seed % 2]:
        mistakes.append(word_of(chance, wanted, name))
        wanted, collected = done_again(wanted, mistakes[-1]), [*collected, "--collect", mistakes[-1]]
    made = run("simulate", *words, *collected, "--labels", f"{folder}.labels", folder)
    if made[0] != 0:
        return (None if made[0] == 2 and not os.path.exists(folder) and not os.path.exists(f"{folder}.labels") else f"{words} {collected}: {made}"), False
    found = files_of(folder)
    if found != wanted:
        return f"{words} {collected}: other files, as {[it for it in {*found, *wanted} if found.get(it) != wanted.get(it)][:2]}", False
    before, after = lines_of(f"{plain}.labels"), lines_of(f"{folder}.labels")
    labels = after[len(before) :]
    if after[: len(before)] != before or [it["mistake"] for it in labels] != mistakes:
        return f"{words} {collected}: the labels {after}", False
    for it in labels:
        jsonschema.validate(it, SCHEMA)
    codes, faults = {code for it in labels for code in it["codes"]}, listed(folder)
    for it in (plain, folder):
        shutil.rmtree(it)
    return (None if faults <= codes else f"{words} {collected}: no label has the code of {faults - codes}"), bool(faults)


def refused():
    """Words that are no mistakes, and mistakes with nothing in which they can be made."""
    form, none, twice = "--collect: no mistake, or not NAME@TOPIC-N[:..]", "nothing is there in which it can be made", "--collect: two partitions, or two files of one, have the same name"
    folder, labels = (os.path.join(scratch, it) for it in ("never", "never.labels"))
    rows = [(it, form) for it in ("lost-segment", "lost@out-0:0", "lost-segment@out-0", "lost-segment@out:0", "lost-segment@out-0:00", "lost-segment@out-0:0:1", "forgotten@out-0:1", "two-replicas@out-0:0", "compacted@out-0:0", "wrong-end@out-0:-1", "wrong-end@out-0:9223372036854775808", "doubled@out-0:2147483648", "turned-byte@out-0:0:0:256", "forgotten@out-00")]
    rows += [(it, f"{it.split('@')[0]}: {none}") for it in ("lost-segment@out-2:0", "lost-segment@out-0:1", "cut-segment@fin-0:0", "renamed-segment@out-0:0:0", "two-replicas@in-0", "compacted@in-0", "wrong-end@out-0:10", "forgotten@out-2", "doubled@out-2:3", "turned-byte@out-0:0:0:0", "rewritten-byte@out-0:0:100000:1")]
    rows += [("doubled@out-0:1", twice), ("renamed-segment@__transaction_state-0:0:16", twice)]
    for word, why in rows:
        found = run("simulate", "--seed", 7, "--events", 60, "--collect", word, "--labels", labels, folder)
        expect(found == (2, "", f"eoscheck: {why}\n"), f"{word}: {found}")
        expect(not os.path.exists(folder) and not os.path.exists(labels), f"{word} leaves something")
    found = run("simulate", "--count", 2, "--seed", 7, "--events", 60, "--collect", "lost", folder)
    expect(found == (2, "", f"eoscheck: {form}\n") and not os.path.exists(folder), f"--count with no mistake: {found}")
    found = run("simulate", "--count", 3, "--seed", 7, "--events", 60, "--collect", "lost-segment@out-0:0", folder)
    index = [json.loads(line) for line in found[1].splitlines()]
    expect(found[0] == 0 and index and all(it["words"][-2:] == ["--collect", "lost-segment@out-0:0"] for it in index), f"--count: {found}")


def main():
    rows = table()
    with concurrent.futures.ThreadPoolExecutor(4) as pool:
        for wrong in pool.map(kind, rows):
            expect(not wrong, wrong)
        found = list(pool.map(mistaken, range(1, 136)))
    for wrong, _ in found:
        expect(not wrong, wrong)
    expect(sum(is_no for _, is_no in found) > 40, f"{sum(is_no for _, is_no in found)} of {len(found)} random mistakes show a fault")
    refused()
    print(f"{passed} passed, {failed} failed")
    return 1 if failed else 0


if __name__ == "__main__":
    program = os.path.abspath(sys.argv[1])
    SCHEMA = json.loads(text_of("labels.schema.json"))
    NAMES = list(dict.fromkeys(re.findall(r"^\| `([a-z-]+)@TOPIC-N", text_of("SIMULATOR.md"), re.M)))
    with tempfile.TemporaryDirectory() as scratch:
        status = main()
    sys.exit(status)
