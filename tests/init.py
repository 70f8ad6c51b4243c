#!/usr/bin/env -S python3 -B
"""What `init` makes of folders whose manifest was taken away: the same manifest again, or a refusal; and what it notes.

    tests/init.py PROGRAM [REFUSE.SO]

Simulated folders, and each of tests/evidence and tests/real-evidence that has a manifest, with ends in the form of
kafka-get-offsets.sh. An application that has no topics no word gives. Which partitions the transaction log lists is read by
tests/plain_logs.py. With REFUSE.SO (tests/refuse.c, built) the allocations of some runs are refused, each in turn. Prints what is
wrong, and as its last line 'N passed, N failed'.
"""
import json
import os
import re
import resource
import shutil
import signal
import struct
import subprocess
import sys
import tempfile

import plain_logs
import reference

INTERNAL = {b"__consumer_offsets", b"__transaction_state"}
CUT = "eoscheck: note: the ends are those of the copied logs, so a copy that was cut short can't be found\n"
UNNAMED = "eoscheck: note: no application is named: outputs and committed offsets aren't judged\n"
APP = "g:in:out"

passed = failed = 0


def expect(holds, what):
    global passed, failed
    if holds:
        passed += 1
    else:
        failed += 1
        print(f"FAILED: {what}")


def run(*words, **settings):
    done = subprocess.run([program, *map(str, words)], capture_output=True, timeout=120, **settings)
    return done.returncode, done.stdout.decode(), done.stderr.decode()


def init(folder, *words, **settings):
    return run("init", *words, folder, **settings)


def load(folder):
    with open(os.path.join(folder, "evidence.json"), encoding="utf-8") as file:
        return json.load(file)


def apps_of(manifest):
    return manifest["apps"] if manifest["version"] == 2 else [manifest]


def words_of(apps):
    found = []
    for app in apps:
        found += ["--app", ":".join([app["group"], ",".join(app["sources"]), ",".join(app["outputs"])])]
    return found


def noted_of(notes):
    return "".join(f"eoscheck: note: {note}\n" for note in notes)


def hash_of(name):
    """Kafka's absolute value of Java's hash."""
    units = struct.unpack(f">{len(name.encode('utf-16-be')) // 2}H", name.encode("utf-16-be"))
    total = 0
    for unit in units:
        total = (total * 31 + unit) % 2**32
    return 0 if total == 2**31 else min(total, 2**32 - total)


def groups_of(apps, ends, folder):
    """The notes on the partition of each group, where the ends have all partitions of the offsets log."""
    numbers = sorted(place(name)[1] for name in ends if place(name)[0] == b"__consumer_offsets")
    notes = []
    for app in apps if numbers and numbers == list(range(len(numbers))) else []:
        name = f"__consumer_offsets-{hash_of(app['group']) % len(numbers)}"
        there = "whose folder is there" if os.path.isdir(os.path.join(folder, name)) else "which has no folder"
        notes.append(f"group {reference.escaped(app['group'].encode())} commits to {name} (of {len(numbers)}), {there}")
    return notes


def lines_noted(apps, ends, file="-"):
    """The notes on topics without a line."""
    topics = INTERNAL | {topic.encode() for app in apps for topic in app["sources"] + app["outputs"]}
    lacking = sorted(topics - {place(name)[0] for name in ends})
    return [f"{file} has no line of topic {reference.escaped(topic)}" for topic in lacking]


def said(manifest):
    """What a manifest says, of either version."""
    apps = [(app["group"], app["sources"], app["outputs"]) for app in apps_of(manifest)]
    return manifest["version"], apps, manifest["ends"]


def lines_of(ends):
    return "".join(f"{name.rpartition('-')[0]}:{name.rpartition('-')[2]}:{end}\n" for name, end in sorted(ends.items()))


def taken_away(source, name):
    """A copy of a folder without its manifest, and the manifest."""
    folder = os.path.join(scratch, name)
    shutil.copytree(source, folder)
    os.chmod(folder, 0o755)
    manifest = load(folder)
    os.remove(os.path.join(folder, "evidence.json"))
    return folder, manifest


def place(name):
    topic, _, number = name.rpartition("-")
    return topic.encode(), int(number)


def folders_in(folder):
    names = [name for name in os.listdir(folder) if re.fullmatch(r"[A-Za-z0-9._-]{1,249}-(0|[1-9]\d*)", name)]
    return {place(name) for name in names if place(name)[1] < 2**31}


def listed_in(folder):
    """The partitions that a record of the transaction log lists, up to the first fault of each segment."""
    found = set()
    for topic, number in folders_in(folder):
        path = os.path.join(folder, f"{topic.decode()}-{number}")
        if topic != b"__transaction_state" or not os.path.isdir(path):
            continue
        for file in os.listdir(path):
            if not re.fullmatch("[0-9]{20}[.]log", file):
                continue
            with open(os.path.join(path, file), "rb") as opened:
                data, at = opened.read(), 0
            while at < len(data):
                try:
                    batch, size = plain_logs.read_batch(data, at)
                except plain_logs.Refused:
                    break
                at += size
                for record in batch.records if batch.word in ("plain", "txn") else []:
                    try:
                        if plain_logs.state_key(record.key) is not None:
                            found |= plain_logs.state_value(record.value).partitions or set()
                    except plain_logs.Refused:
                        pass
    return found


def wanted(folder, manifest):
    """The ends that the manifest gets, and the first partition without one."""
    topics = INTERNAL | {topic.encode() for app in apps_of(manifest) for topic in app["sources"] + app["outputs"]}
    listed = listed_in(folder)
    required = listed | {it for it in folders_in(folder) if it[0] in topics or not apps_of(manifest)}
    ends = {name: end for name, end in manifest["ends"].items() if place(name)[0] in topics or place(name) in required}
    lacking = sorted(required - {place(name) for name in manifest["ends"]})
    return ends, lacking[0] if lacking else None


def again(source, name):
    """Makes the manifest of a folder again by its ends."""
    folder, manifest = taken_away(source, name)
    ends, lacking = wanted(folder, manifest)
    apps = apps_of(manifest)
    file = os.path.join(scratch, "ends.txt")
    with open(file, "w", encoding="utf-8") as opened:
        opened.write(lines_of(manifest["ends"]))
    done = init(folder, *words_of(apps), "--ends", file)
    if not all(app["sources"] and app["outputs"] for app in apps):
        expect(done[:2] == (2, "") and "not GROUP:SOURCE,..:OUTPUT,.." in done[2], f"{name} has an application without topics: {done}")
        return folder, None
    if lacking:
        text = f"eoscheck: {lacking[0].decode()}-{lacking[1]} has no end\n"
        expect(done == (2, "", text) and "evidence.json" not in os.listdir(folder), f"{name} lacks an end: {done}")
        return folder, None
    made = said(load(folder)) if done[0] == 0 else None
    version = 1 if len(apps) == 1 else 2
    expect(done[:2] == (0, f"wrote partitions={len(ends)}\n"), f"init of {name}: {done}")
    notes = done[2].splitlines(keepends=True)
    first = noted_of(lines_noted(apps, manifest["ends"], file) if manifest["ends"] else [f"{file} has no lines"])
    last = noted_of(groups_of(apps, manifest["ends"], folder))
    expect(done[2].startswith(first) and done[2].endswith(last) and not any(" commits to " in it or " line" in it for it in
           notes[first.count("\n"):len(notes) - last.count("\n")]), f"the notes on {name}: {done[2]}, not {first} .. {last}")
    expect(made == (version, said(manifest)[1], ends), f"the manifest of {name}: {made}")
    expect(sorted(os.listdir(folder)) == sorted(os.listdir(source)), f"files beside the manifest of {name}")
    return folder, manifest


def simulated(seed, events):
    source = os.path.join(scratch, f"seed-{seed}")
    expect(run("simulate", "--seed", seed, "--events", events, source)[0] == 0, f"simulate of seed {seed}")
    folder, manifest = taken_away(source, f"copy-{seed}")
    made = []
    group = noted_of(["group g commits to __consumer_offsets-0 (of 1), whose folder is there"])
    returns = noted_of(["lines of - end in carriage returns, which were not read"])
    for words, given, noted in (
        (["--ends", "-"], lines_of(manifest["ends"]), group),
        (["--ends", "-"], lines_of(manifest["ends"]).replace("\n", "\r\n"), returns + group),
        (["--ends", "-"], lines_of(manifest["ends"])[:-1] + "\r", returns + group),
        (["--ends", "-", "--version1"], lines_of(manifest["ends"]) + "other:0:7\nother:1:9\n", group),
        (["--ends-from-logs"], "", CUT),
    ):
        done = init(folder, "--app", APP, *words, input=given.encode())
        expect(done == (0, "wrote partitions=6\n", noted), f"init of seed {seed} by {words}: {done}")
        made.append(load(folder) if done[0] == 0 else None)
        if done[0] == 0:
            os.remove(os.path.join(folder, "evidence.json"))
    expect(made == [manifest] * 5, f"the manifests of seed {seed}: {made}")


def sample_folders():
    for collection in ("evidence", "real-evidence", "as-brokers-write"):
        with open(os.path.join(HERE, collection, "expected.tsv"), encoding="utf-8") as file:
            rows = [line.rstrip("\n").split("\t") for line in file]
        for name, status, line in rows:
            if status == "2":
                continue
            folder, manifest = again(os.path.join(HERE, collection, name), f"{collection}-{name}")
            whole = status == "0" and all(os.path.isdir(os.path.join(folder, it)) for it in (manifest or {"ends": []})["ends"])
            if manifest and whole and os.path.isfile(os.path.join(folder, "evidence.json")):
                ends = load(folder)["ends"]
                os.remove(os.path.join(folder, "evidence.json"))
                done = init(folder, *words_of(apps_of(manifest)), "--ends-from-logs")
                found = load(folder)["ends"] if done[0] == 0 else None
                expect(done[0] == 0 and done[2].startswith(CUT) and found == ends, f"{name} with the ends of its logs: {done}")


# ---- what is refused


def refused(folder, words, text, **settings):
    """A refusal in one line, after which nothing was written."""
    before = sorted(os.listdir(folder)) if os.path.isdir(folder) else None
    done = init(folder, *words, **settings)
    after = sorted(os.listdir(folder)) if os.path.isdir(folder) else None
    expect(done == (2, "", f"eoscheck: {text}\n") and before == after, f"{words}: {done}")


def limited(most):
    """Settings of a run under which no file gets more than so many bytes."""

    def limit():
        signal.signal(signal.SIGXFSZ, signal.SIG_IGN)
        resource.setrlimit(resource.RLIMIT_FSIZE, (most, most))

    return {"preexec_fn": limit}


def bad_input(source):
    folder, manifest = taken_away(source, "bad")
    good = lines_of(manifest["ends"])
    ends, app = ["--ends", "-"], ["--app", APP]
    for bad in ("in", "in:0", "in:0:", "in:0:x", "in:0:-1", "in:0:007", "in:x:1", "in::1", "in:00:1", ":0:1", "a b:0:1", "in:0:1:2x",
                "in:2147483648:1", "in:0:9223372036854775808", "in:0:1\r\r", "in:0:\r1", "\r", "", " in:0:1", "in:0: 1", "..:0:1", "t" * 250 + ":0:1"):
        for at, text in ((1, f"{bad}\n{good}"), (7, f"{good}{bad}\n"), (3, "other:0:1\nother:1:1\n" + bad + "\n" + good)):
            refused(folder, [*app, *ends], f"line {at} of -: not TOPIC:PARTITION:OFFSET", input=text.encode())
    refused(folder, [*app, *ends], "line 7 of -: not TOPIC:PARTITION:OFFSET", input=good.encode() + b"\xff:0:1")
    for name in manifest["ends"]:
        text = "".join(line + "\n" for line in good.splitlines() if not line.startswith(":".join(name.rsplit("-", 1)) + ":"))
        refused(folder, [*app, *ends], f"{name} has no end", input=text.encode())
    refused(folder, [*app, *ends], "a partition has two ends", input=(good + good.splitlines()[0] + "\n").encode())
    many = "".join(f"in:{number}:0\n" for number in range(100, 4200))
    refused(folder, [*app, *ends], "limit", input=(good + many).encode())
    for word in ("g", "g:in", ":", "::", "g::out", "g:in:", "g:in,:out", "g:in:out,", "g:a b:out", "g:in:out:", "in,out", "g:..:out"):
        refused(folder, ["--app", word, *ends], f"--app {word}: not GROUP:SOURCE,..:OUTPUT,..", input=good.encode())
    doubled = "--app: a topic stands twice or is Kafka's own, or two have one group or one output topic"
    for words in (["g:in:in"], ["g:in,in:out"], ["g:__consumer_offsets:out"], ["g:in:__transaction_state"],
                  [APP, "g:out:fin"], [APP, "h:out:out2,out"]):
        refused(folder, [it for word in words for it in ("--app", word)] + ends, doubled, input=good.encode())
    many = [it for number in range(257) for it in ("--app", f"g{number}:in:out{number}")]
    refused(folder, [*many, *ends], "limit", input=good.encode())
    one = "init takes one of --ends FILE and --ends-from-logs"
    refused(folder, app, one)
    refused(folder, [*app, *ends, "--ends-from-logs"], one)
    refused(folder, ["--version1", *app, "--app", "h:out:fin", *ends], "init --version1 takes one --app")
    refused(folder, ["--version1", *ends], "init --version1 takes one --app")
    refused(folder, [], one)
    refused(folder, [*app, "--ends", f"{scratch}/absent"], f"cannot read {scratch}/absent\n  no such file")
    refused(folder, [*app, "--ends", scratch], f"cannot read {scratch}\n  a folder")
    refused(f"{scratch}/absent", [*app, *ends], f"cannot read {scratch}/absent\n  no such file", input=good.encode())
    refused(folder, [*app, *ends], f"cannot write {folder}/evidence.json", input=good.encode(), **limited(10))
    for there in ("{}", ""):
        with open(f"{folder}/evidence.json", "w", encoding="utf-8") as file:
            file.write(there)
        refused(folder, [*app, *ends], f"cannot write {folder}/evidence.json: it is there already", input=good.encode())
        with open(f"{folder}/evidence.json", encoding="utf-8") as file:
            expect(file.read() == there, "a manifest that is there stays")
        os.remove(f"{folder}/evidence.json")
    os.symlink("nowhere", f"{folder}/evidence.json")
    refused(folder, [*app, *ends], f"cannot write {folder}/evidence.json: it is there already", input=good.encode())
    os.remove(f"{folder}/evidence.json")
    refused(f"{folder}/in-0/00000000000000000000.log", [*app, *ends],
            f"cannot read {folder}/in-0/00000000000000000000.log\n  not a folder", input=good.encode())
    stale(folder, manifest, [*app, *ends], good)
    for words in (["init"], ["init", *app, *ends], ["init", "--app", "--ends", "-", folder], ["init", "--app", "", *ends, folder]):
        status, out, text = run(*words)
        expect((status, out) == (2, "") and text != "", f"bad words {words}")
    with open("/dev/full", "w", encoding="utf-8") as full:
        done = subprocess.run([program, "init", *app, "--ends-from-logs", folder], stdout=full, stderr=subprocess.PIPE, timeout=60)
        expect((done.returncode, done.stderr.decode()) == (2, CUT + "eoscheck: cannot write -\n"), "init to a full device")


def stale(folder, manifest, words, lines):
    """What a killed run left beside the manifest's place is replaced; what stands there otherwise stays."""
    beside = f"{folder}/evidence.json.new"
    with open(beside, "w", encoding="utf-8") as file:
        file.write('{"version":')
    status, out, _ = init(folder, *words, input=lines.encode())
    expect((status, out) == (0, f"wrote partitions={len(manifest['ends'])}\n") and load(folder) == manifest, f"init beside a stale file: {out}")
    expect(not os.path.exists(beside), "a stale file beside the manifest is replaced")
    os.remove(f"{folder}/evidence.json")
    os.mkdir(beside)
    status, out, _ = init(folder, *words, input=lines.encode())
    expect((status, out) == (2, "") and os.path.isdir(beside) and "evidence.json" not in os.listdir(folder), "a folder beside the manifest's place")
    os.rmdir(beside)


# ---- what is said beside


def noted(source):
    """The notes, in the order of the partitions; the manifest is written, and `check` refuses what they tell."""
    folder, manifest = taken_away(source, "noted")
    first = "00000000000000000000.log"
    os.remove(f"{folder}/__consumer_offsets-0/{first}")
    with open(f"{folder}/in-0/{first}", "r+b") as file:
        file.seek(22)
        file.write(b"\x02")
    shutil.rmtree(f"{folder}/out-1")
    text = lines_of({**manifest["ends"], "in-7": 0})
    done = init(folder, "--app", APP, "--ends", "-", input=text.encode())
    notes = [
        "__consumer_offsets-0 begins with segment 00000000000000000016.log: its first segments are missing",
        "in-0 begins with a compressed batch",
        "out-1 has no folder",
        "group g commits to __consumer_offsets-0 (of 1), whose folder is there",
    ]
    want = (0, "wrote partitions=7\n", noted_of(notes))
    expect(done == want, f"the notes: {done}")
    expect(load(folder)["ends"] == {**manifest["ends"], "in-7": 0}, "the manifest beside the notes")
    expect(run("check", folder)[0] == 1, "check of a folder with notes")


def groups(source):
    """A group with colons, and two applications."""
    folder, manifest = taken_away(source, "groups")
    text = lines_of({**manifest["ends"], "fin-0": 0, "not-0": 5}).encode()
    done = init(folder, "--app", "a:b,c::in:out", "--app", "h é:out:fin", "--ends", "-", input=text)
    want = {
        "version": 2,
        "apps": [
            {"group": "a:b,c:", "sources": ["in"], "outputs": ["out"]},
            {"group": "h é", "sources": ["out"], "outputs": ["fin"]},
        ],
        "ends": {**manifest["ends"], "fin-0": 0},
    }
    notes = [f"group {group} commits to __consumer_offsets-0 (of 1), whose folder is there" for group in ("a%3ab%2cc%3a", "h%20%c3%a9")]
    expect(done == (0, "wrote partitions=7\n", noted_of(notes)) and load(folder) == want, f"two applications: {done}")


def partitions_of_groups(source):
    """Where a group commits is told where all partitions of the offsets log have a line, whether its folder is there or not."""
    for lines, notes in (
        ("".join(f"__consumer_offsets:{n}:0\n" for n in range(1, 50)), ["billing commits to __consumer_offsets-9 (of 50), which has no folder",
                                                                       "g commits to __consumer_offsets-3 (of 50), which has no folder"]),
        ("".join(f"__consumer_offsets:{n}:0\n" for n in range(2, 50)), []),
    ):
        folder, manifest = taken_away(source, f"groups-{len(notes)}")
        text = lines_of({**manifest["ends"], "fin-0": 0}) + lines
        done = init(folder, "--app", "billing:in:out", "--app", "g:out:fin", "--ends", "-", input=text.encode())
        expect(done[0] == 0 and done[2] == noted_of(f"group {note}" for note in notes), f"partitions of groups: {done}")


def lines_lack(source):
    """A topic without a line is told, and so is a file without lines."""
    folder, manifest = taken_away(source, "lacks")
    text = lines_of(manifest["ends"]).encode()
    done = init(folder, "--app", "g:in,none:out,nor", "--ends", "-", input=text)
    notes = [*(f"- has no line of topic {topic}" for topic in ("none", "nor")), "group g commits to __consumer_offsets-0 (of 1), whose folder is there"]
    expect(done[0] == 0 and done[2] == noted_of(notes), f"topics without a line: {done}")
    bare = os.path.join(scratch, "bare")
    os.mkdir(bare)
    done = init(bare, "--app", APP, "--ends", "-", input=b"")
    expect(done == (0, "wrote partitions=0\n", noted_of(["- has no lines"])), f"no lines: {done}")


def without_applications(source):
    """The manifest names no application, and has the end of each partition that has a folder."""
    folder, manifest = taken_away(source, "bare-logs")
    text = lines_of({**manifest["ends"], "other-0": 7}).encode()
    want = {"version": 2, "apps": [], "ends": manifest["ends"]}
    for words, notes in ((["--ends", "-"], ""), (["--ends-from-logs"], CUT)):
        done = init(folder, *words, input=text)
        expect(done == (0, "wrote partitions=6\n", notes) and load(folder) == want, f"init without an application: {done}, {load(folder)}")
        checked = run("check", folder)
        found = re.fullmatch(r"yes transactions=[1-9]\d* inputs=0 outputs=0\n", checked[1])
        expect(checked[0] == 0 and found and checked[2] == UNNAMED, f"check without an application: {checked}")
        os.remove(f"{folder}/evidence.json")
    lacking = "".join(line + "\n" for line in text.decode().splitlines() if not line.startswith("in:1:"))
    refused(folder, ["--ends", "-"], "in-1 has no end", input=lacking.encode())


def refused_memory(folder, manifest, words, notes, library):
    """Each allocation of a run, or where there are many every so-manieth: the manifest is written and the notes are told, or the
    answer is want of memory, before any note, and there is no manifest."""
    files = sorted(os.listdir(folder))
    count = os.path.join(scratch, "count")
    setting = dict(os.environ, LD_PRELOAD=library)
    text = lines_of(manifest["ends"]).encode()
    good = init(folder, "--app", APP, *words, input=text, env=dict(setting, REFUSE_COUNT=count))
    expect(good[0] == 0 and good[2] == notes and load(folder) == manifest, f"{words} with allocations counted: {good}")
    os.remove(f"{folder}/evidence.json")
    with open(count, encoding="utf-8") as file:
        total = int(file.read())
    told = 0
    for at in range(1, total + 1, max(1, total // 400)):
        found = init(folder, "--app", APP, *words, input=text, env=dict(setting, REFUSE_AT=str(at)))
        made = os.path.exists(f"{folder}/evidence.json")
        if made:
            expect(load(folder) == manifest, f"{words}, allocation {at} refused: another manifest")
            os.remove(f"{folder}/evidence.json")
        if found == good:
            expect(made, f"{words}, allocation {at} refused: no manifest")
            continue
        told += 1
        right = found == (3, "", "eoscheck: out of memory\n") and not made
        expect(right and sorted(os.listdir(folder)) == files, f"{words}, allocation {at} refused: {found}")
    expect(told > min(100, total // 2), f"{words}: {told} of {total} refused allocations are told")


def refused_runs(source, library):
    """The allocations of three runs: of a simulated folder with its ends and with those of its logs, and of a small folder in which
    each kind of note on a partition is due."""
    folder, manifest = taken_away(source, "memory")
    group = noted_of(["group g commits to __consumer_offsets-0 (of 1), whose folder is there"])
    refused_memory(folder, manifest, ["--ends", "-"], group, library)
    refused_memory(folder, manifest, ["--ends-from-logs"], CUT, library)
    folder = os.path.join(scratch, "short")
    for name, base, data in (("in-0", 0, bytes(16) + b"\2" + bytes(5) + b"\2" + bytes(60)), ("out-0", 7, b"")):
        os.makedirs(f"{folder}/{name}")
        with open(f"{folder}/{name}/{base:020}.log", "wb") as file:
            file.write(data)
    manifest = {"version": 1, "group": "g", "sources": ["in"], "outputs": ["out"], "ends": {"in-0": 1, "out-0": 8, "out-1": 2}}
    told = [
        "- has no line of topic __consumer_offsets",
        "- has no line of topic __transaction_state",
        "in-0 begins with a compressed batch",
        "out-0 begins with segment 00000000000000000007.log: its first segments are missing",
        "out-1 has no folder",
    ]
    notes = noted_of(told)
    refused_memory(folder, manifest, ["--ends", "-"], notes, library)


def main():
    for seed in range(1, 9):
        simulated(seed, 40 * seed)
    source = os.path.join(scratch, "seed-5")
    sample_folders()
    bad_input(source)
    noted(source)
    groups(source)
    partitions_of_groups(source)
    lines_lack(source)
    without_applications(source)
    if len(sys.argv) > 2:
        refused_runs(source, os.path.abspath(sys.argv[2]))
    print(f"{passed} passed, {failed} failed")


if __name__ == "__main__":
    HERE = os.path.dirname(os.path.abspath(__file__))
    program = os.path.abspath(sys.argv[1])
    with tempfile.TemporaryDirectory() as scratch:
        main()
