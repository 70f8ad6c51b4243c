#!/usr/bin/env -S python3 -B
"""What `simulate --history` writes, and what `simulate --schedule` makes of it.

    tests/histories.py PROGRAM [REFUSE.SO]

A folder is the same with a history and without one; its history's lines count up, and its totals are those that this file
counts in the lines, the transactions those of `check`, and what was lost and repeated what the script's words say. Nothing is
taken of a session whose transaction has timed out. Run again, each history gives the same folder and itself, byte for byte: of
200 seeds, and of 120 with random sizes, rates, switches and mishaps.
Schedules written by hand have an answer worked out by hand. Lines that are cut, edited, broken or answered otherwise are told
with their numbers, and nothing is left. With REFUSE.SO (tests/refuse.c, built) the allocations of a run are refused. Prints what
is wrong, and as its last line 'N passed, N failed'.
"""
import concurrent.futures
import filecmp
import json
import os
import random
import re
import resource
import shutil
import signal
import subprocess
import sys
import tempfile

SWITCHES = ["keep-duplicates", "no-fence", "no-bump", "lose-marker", "swap-marker", "hide-listing", "ignore-generation"]
MISHAPS = ["lost-output", "repeated-output", "wrong-count", "wrong-number", "foreign-source", "no-headers", "offset-deleted"]
RATES = ["lose", "repeat", "abandon", "members", "restart-broker", "restart-coordinator", "time-out", "add-partition", "late-complete", "elect"]
SIZES = {"applications": (1, 8), "inputs": (1, 16), "outputs": (1, 16), "transaction-logs": (1, 4), "segment-records": (1, 40), "batch-records": (1, 8)}
ARGUMENTS = {
    "feed": {"source"},
    "start": {"application"},
    "produce": {"session", "partition", "claim"},
    "commit": {"session", "source", "offset"},
    "end": {"session", "kind"},
    "resume": {"session"},
    "fetch": {"session", "source"},
    "members": set(),
    "broker-restart": {"topic", "partition"},
    "coordinator-restart": set(),
    "deliver": {"message"},
    "time-out": {"application"},
    "add-partition": {"session", "partition"},
    "write-marker": {"message"},
    "complete": {"application"},
    "elect": {"topic", "partition", "kept"},
}
REPLIES = {"done", "fenced", "out-of-order", "duplicate-kept", "wrong-state", "busy", "stale-generation", "epochs-spent", "unknown"}
HEAD = {
    "schema": 1, "applications": 2, "inputs": 2, "outputs": 2, "transaction_logs": 1, "segment_records": 16,
    "batch_records": 1, "chain": False, "switches": [], "seed": 0, "words": 0,
}

# How many scripts have random settings, and how many have none.
RANDOM, PLAIN = 120, 200

passed = failed = 0


def expect(holds, what):
    global passed, failed
    if holds:
        passed += 1
    else:
        failed += 1
        print(f"FAILED: {what}")


def run(*words, **settings):
    done = subprocess.run([program, *map(str, words)], capture_output=True, timeout=300, **settings)
    return done.returncode, done.stdout.decode(), done.stderr.decode()


def same_folder(one, other):
    found = filecmp.dircmp(one, other)
    if found.left_only or found.right_only or found.funny_files:
        return False
    _, unlike, failing = filecmp.cmpfiles(one, other, found.common_files, shallow=False)
    return not unlike and not failing and all(same_folder(f"{one}/{it}", f"{other}/{it}") for it in found.common_dirs)


def lines_of(path):
    with open(path) as file:
        return [json.loads(line) for line in file.read().splitlines()]


def settings_of(seed):
    """Random words for a script, and how many of them it has; past the seeds of RANDOM none but its seed and 50 to 2,000."""
    if seed > RANDOM:
        return [], 50 + seed * 37 % 1951
    chance = random.Random(seed)
    words, events = [], chance.randrange(0, 700)
    if chance.random() < 0.6:
        for name, (least, most) in SIZES.items():
            if chance.random() < 0.5:
                words += [f"--{name}", chance.randrange(least, most + 1)]
    if chance.random() < 0.6:
        for name in RATES:
            if chance.random() < 0.5:
                words += [f"--{name}", chance.randrange(0, 120)]
    for name in SWITCHES:
        if chance.random() < 0.12:
            words += ["--switch", name]
    if "--switch" in words and chance.random() < 0.5:
        words += ["--switch-at", chance.randrange(0, events + 1)]
    if chance.random() < 0.2:
        words += ["--mishap", chance.choice(MISHAPS)]
    if chance.random() < 0.2:
        words += ["--mishap", "unclean-election"]
    if chance.random() < 0.4:
        words += ["--chain"]
        if chance.random() < 0.3:
            words += ["--mishap", "aborted-input"]
    return words, events


def wrong_lines(lines, folder):
    """What is wrong with a history's lines, or None."""
    head, deeds, tail = lines[0], lines[1:-1], lines[-1]
    if set(head) != set(HEAD) or set(tail) != {"events", "transactions", "lost", "repeated"}:
        return f"{head} {tail}"
    if [it["number"] for it in deeds] != list(range(1, len(deeds) + 1)):
        return "the numbers don't count up"
    asked = [it for it in deeds if "event" in it]
    for it in asked:
        rest = set(it) - {"number", "event", "reply"} - ({"value"} if it["reply"] == "done" else set())
        # the second group is named, and the first isn't
        group = {"group"} if it["event"] == "members" and head["chain"] and it.get("group") == 1 else set()
        if it["reply"] not in REPLIES or rest != ARGUMENTS[it["event"]] | group:
            return f"{it}"
    notes = [it for it in deeds if "note" in it]
    if any(set(it) != {"number", "set"} for it in deeds if "event" not in it and "note" not in it) or tail["events"] != len(asked):
        return "other lines, or their number"
    for it in notes:
        if set(it) != {"number", "note", "mishap" if it["note"] == "mishap" else "message"}:
            return f"{it}"
    for name in ("lost", "repeated"):
        if tail[name] != sum(it["note"] == name for it in notes):
            return f"{tail}, and the lines say otherwise"
    # what comes again does so in the next line
    for it, after in zip(deeds, deeds[1:]):
        if it.get("note") == "repeated" and (after.get("event"), after.get("message")) != ("deliver", it["message"]):
            return f"{it} before {after}"
    said = run("check", "--quiet", folder)[1]
    counts = re.fullmatch(r"yes transactions=(\d+) .*\n", said)
    if counts and tail["transactions"] < int(counts[1]):
        return f"{tail}, but {said}"
    return None


def words_of(seed, count):
    """The words of a script: those of PCG XSH RR 64/32, whose state and stream a seed gives by a PCG of its own."""
    most, factor = (1 << 64) - 1, 6364136223846793005

    def word_at(state):
        word, turn = ((state >> 18 ^ state) >> 27) & 0xFFFFFFFF, state >> 59
        return (word >> turn | word << (32 - turn)) & 0xFFFFFFFF

    def next_of(state, step):
        return (state * factor + step) & most

    state, parts = seed, []
    for _ in range(4):
        state = next_of(state, 11634580027462260723)
        parts.append(word_at(state))
    step = parts[2] | parts[3] << 32 | 1
    state = next_of((parts[0] | parts[1] << 32) + step, step)
    words = []
    for _ in range(count):
        words.append(word_at(state))
        state = next_of(state, step)
    return words


def totals():
    """How often a message was lost and how often one came again, by the words that say so: some say it in vain, where no message
    is on its way, or none was."""
    for seed, lose, repeat in ((7, 0, 0), (8, 60, 0), (9, 0, 200), (10, 40, 150)):
        folder, history, events = f"{scratch}/totals-{seed}", f"{scratch}/totals-{seed}.jsonl", 1500
        run("simulate", "--seed", seed, "--events", events, "--lose", lose, "--repeat", repeat, "--history", history, folder)
        found = lines_of(history)[-1]
        places = [word % 32000 for word in words_of(seed, events)]
        losing = sum(place < 32 * lose for place in places)
        repeating = sum(32 * lose <= place < 32 * (lose + repeat) for place in places)
        well = losing / 4 <= found["lost"] <= losing and repeating * 0.8 <= found["repeated"] <= repeating
        expect(well, f"{losing} words lose a message and {repeating} repeat one: {found}")
        shutil.rmtree(folder)


def again(seed):
    """What is wrong with the history of a random script, run again; None where nothing is, and False where there was none."""
    words, events = settings_of(seed)
    at = f"{scratch}/{seed}"
    plain, kept, made, history, second = (f"{at}-{it}" for it in ("plain", "kept", "made", "history", "second"))
    script = ["simulate", "--seed", seed, "--events", events, *words]
    first = run(*script, plain)
    with_history = run(*script, "--history", history, kept)
    if first != with_history:
        return f"{words}: {first} and {with_history}"
    if first[0] != 0:
        return f"{words}: a history without a folder" if os.path.exists(history) else False
    lines = lines_of(history)
    wrong = None
    if not same_folder(plain, kept):
        wrong = "another folder with a history"
    elif run("simulate", "--schedule", history, "--history", second, made) != first or not same_folder(plain, made):
        wrong = "another folder when it is run again"
    elif not filecmp.cmp(history, second, shallow=False):
        wrong = "another history when it is run again"
    else:
        wrong = wrong_lines(lines, kept)
    for it in (plain, kept, made):
        shutil.rmtree(it)
    return wrong and f"seed {seed} {words}: {wrong}"


def fenced_after(lines):
    """How many transactions timed out in a history, and which lines say that what their sessions sent was taken after that. An abort that a
    session asks for is answered as one that was asked for again, and the session goes on."""
    sessions, senders, fenced, wrong, count = {}, {}, set(), [], 0
    for it in lines[1:-1]:
        if it.get("reply") == "done":
            if it["event"] == "start":
                sessions[it["value"]] = it["application"]
            elif it["event"] in ("produce", "commit", "end"):
                senders[it["value"]] = it["session"]
            elif it["event"] == "resume":
                fenced.discard(it["session"])
            elif it["event"] == "time-out":
                count += 1
                fenced |= {session for session, application in sessions.items() if application == it["application"]}
            elif it["event"] == "deliver" and senders.get(it["message"]) in fenced:
                wrong.append(it)
    return count, wrong


def time_outs():
    """Nothing is taken of a session whose transaction has timed out; the rest is processed as ever, in transactions of which each that timed
    out is one more."""
    for seed in range(1, 21):
        folder, history = f"{scratch}/time-outs-{seed}", f"{scratch}/time-outs-{seed}.jsonl"
        answer = run("simulate", "--seed", seed, "--events", 600, "--time-out", 10 * seed, *(["--chain"] if seed % 2 else []), "--history", history, folder)
        said = run("check", "--quiet", folder)
        count, wrong = fenced_after(lines_of(history))
        good = answer[0] == 0 and said[1].startswith("yes ") and not wrong and count > 0
        expect(good, f"seed {seed}: {answer} {said}, {count} time-outs, {wrong}")
        shutil.rmtree(folder)


def finer_steps():
    """Partitions that are added apart from what comes there, and transactions that are completed apart from their end markers: no fault stands,
    and all is processed."""
    done = dict.fromkeys(("add-partition", "write-marker", "complete"), 0)
    for seed in range(1, 21):
        folder, history = f"{scratch}/finer-{seed}", f"{scratch}/finer-{seed}.jsonl"
        rates = ["--add-partition", 10 * seed, "--late-complete", 420 - 20 * seed, "--restart-coordinator", seed]
        answer = run("simulate", "--seed", seed, "--events", 600, *rates, *(["--chain"] if seed % 2 else []), "--history", history, folder)
        said = run("check", "--quiet", folder)
        expect(answer[0] == 0 and said[1].startswith("yes "), f"finer steps, seed {seed}: {answer} {said}")
        for it in lines_of(history)[1:-1]:
            if it.get("event") in done and it["reply"] == "done":
                done[it["event"]] += 1
        shutil.rmtree(folder)
    expect(min(done.values()) > 20, f"finer steps: {done}")


def turns(history):
    """Of the messages of a session's transaction, as they come for the first time: the numbers of the lines by which one comes before an earlier
    one of its link, and how many data messages come before an earlier one of another link. A session sends the first one again that wasn't
    accepted, so that what comes by that is neither."""
    waiting, place, resumed, wrong, crossed = {}, {}, {}, [], 0
    for it in history:
        name, session, message = it.get("event"), it.get("session"), it.get("message")
        if name in ("produce", "commit", "end") and it["reply"] == "done":
            place[it["value"]] = own = session, resumed.get(session, 0)
            waiting.setdefault(own, {})[it["value"]] = (name, it.get("partition"))
        elif name == "resume" and it["reply"] == "done":
            resumed[session] = resumed.get(session, 0) + 1
        elif name == "deliver" or it.get("note") == "lost":
            own = waiting.get(place.get(message), {})
            link = own.pop(message, None)
            before = {other for earlier, other in own.items() if earlier < message}
            wrong += [it["number"]] if link in before else []
            crossed += name == "deliver" and link is not None and link[0] != "end" and any(other != link for other in before)
    return wrong, crossed


def links():
    """With a queue for each sender and receiver what a session sends comes in order on each of its links, and not on all; else on all. No fault
    stands, and an index says so."""
    found = {"--links": 0, "--chain": 0}
    for seed in range(1, 21):
        for flag in found:
            folder, history = f"{scratch}/links-{seed}{flag}", f"{scratch}/links-{seed}{flag}.jsonl"
            answer = run("simulate", "--seed", seed, "--events", 600, flag, *(["--chain"] if seed % 2 and flag == "--links" else []), "--history", history, folder)
            said = run("check", "--quiet", folder)
            wrong, crossed = turns(lines_of(history))
            expect(answer[0] == 0 and said[1].startswith("yes ") and not wrong, f"{flag}, seed {seed}: {answer} {said}, out of order {wrong[:3]}")
            found[flag] += crossed
            shutil.rmtree(folder)
    expect(found["--links"] > 100 and found["--chain"] == 0, f"what overtakes another link: {found}")
    status, out, _ = run("simulate", "--count", 1, "--seed", 7, "--events", 200, "--links", f"{scratch}/links")
    expect(status == 0 and json.loads(out)["words"] == ["--seed", "7", "--events", "200", "--links"], f"the index of links: {out}")
    expect(run("simulate", "--seed", 7, "--events", 200, "--links", f"{scratch}/same")[0] == 0 and same_folder(f"{scratch}/same", f"{scratch}/links/000001"), "--links again")


def schedule(*lines):
    """A file of these lines, which are objects or texts."""
    path = f"{scratch}/schedule"
    with open(path, "w") as file:
        file.writelines((it if isinstance(it, str) else json.dumps(it)) + "\n" for it in lines)
    return path


def replayed(*lines):
    """The answer to a schedule of these lines; the folder is there only where there is one."""
    folder = f"{scratch}/replayed"
    answer = run("simulate", "--schedule", schedule(*lines), folder)
    expect(os.path.isdir(folder) == (answer[0] == 0), f"{lines}: a folder, or none")
    if os.path.isdir(folder):
        counts = run("check", "--quiet", folder)[1]
        shutil.rmtree(folder)
        return answer[0], answer[1] + counts, answer[2]
    return answer


def event(number, name, **arguments):
    return {"number": number, "event": name, **arguments}


def worked():
    """A transaction by hand: one input, one output with its claim, committed past, its end and its markers delivered."""
    claim = {"topic": "in", "partition": 0, "offset": 1, "output": 1, "of": 1}
    first = {"topic": "in", "partition": 0, "offset": 0, "output": 0, "of": 0}
    deeds = [
        event(1, "feed", source=0, reply="done", value=0),
        event(2, "feed", source=0, reply="done", value=1),
        event(3, "start", application=0, reply="done", value=0),
        event(4, "produce", session=0, partition=0, claim=first, reply="done", value=0),
        event(5, "produce", session=0, partition=1, claim=claim, reply="done", value=1),
        event(6, "commit", session=0, source=0, offset=2, reply="done", value=2),
        event(7, "deliver", message=0),
        event(8, "deliver", message=1),
        event(9, "deliver", message=2),
        event(10, "end", session=0, kind="commit", reply="done", value=3),
        event(11, "deliver", message=3),
        event(12, "deliver", message=4),
        event(13, "deliver", message=5),
        event(14, "deliver", message=6),
        event(15, "deliver", message=7, reply="unknown"),
    ]
    good = (0, "wrote partitions=6\nyes transactions=1 inputs=2 outputs=1\n", "")
    expect(replayed(HEAD, *deeds) == good, "a worked schedule")
    # any numbers, members in another order, replies left out, the totals behind
    plain = [dict(reversed([(k, v) for k, v in it.items() if k not in ("reply", "value")])) | {"number": 7} for it in deeds]
    told = {"events": 15, "transactions": 1, "lost": 0, "repeated": 0}
    expect(replayed(HEAD, *plain, told) == good, "the same without replies")
    # what happened beside the cluster does nothing to it
    noted = [
        {"number": 1, "note": "lost", "message": 9},
        *deeds,
        {"number": 2, "note": "repeated", "message": 0},
        {"number": 3, "note": "mishap", "mishap": "any"},
    ]
    expect(replayed(HEAD, *noted, {**told, "lost": 1, "repeated": 1}) == good, "notes")
    # totals that don't fit
    for name in told:
        answer = replayed(HEAD, *deeds, {**told, name: told[name] + 1})
        message = f"eoscheck: {scratch}/schedule: line 17: {name} is {told[name] + 1}, and the lines come to {told[name]}\n"
        expect(answer == (2, "", message), f"a total that doesn't fit: {answer}")
    # its marker in out-1 is lost
    lost = deeds[:9] + [{"number": 99, "set": ["lose-marker"]}] + deeds[9:]
    answer = replayed(HEAD, *lost)
    expect(answer[0] == 0 and "\nno 1.11 OpenAtEnd " in answer[1], f"a lost marker: {answer}")
    # a record without headers, and an offset that is deleted in place of its commit
    for place, name, fault in ((4, "claim", "4.1 BadLineage"), (5, "offset", "4.4 OffsetDeleted")):
        edited = list(deeds)
        edited[place] = deeds[place] | {name: None}
        answer = replayed(HEAD, *edited)
        expect(answer[0] == 0 and f"\nno {fault} " in answer[1], f"{name} is null: {answer}")
    # a second group processes what the first has written: the record of out-0 has one output, that of out-1 a note
    chain = {**HEAD, "chain": True}
    second = [
        event(16, "start", application=2, reply="done", value=1),
        event(17, "fetch", session=1, source=0, reply="unknown"),
        event(18, "fetch", session=0, source=2, reply="unknown"),
        event(19, "fetch", session=1, source=2, reply="done", value=0),
        event(20, "produce", session=1, partition=0, claim={**claim, "topic": "out", "offset": 0}, reply="done", value=7),
        event(21, "produce", session=1, partition=1, claim={**first, "topic": "out", "partition": 1}, reply="done", value=8),
        event(22, "commit", session=1, source=2, offset=1, reply="done", value=9),
        event(23, "commit", session=1, source=3, offset=1, reply="done", value=10),
        event(24, "commit", session=1, source=1, offset=1, reply="unknown"),
        *(event(25, "deliver", message=message, reply="done", value=place) for message, place in ((7, 0), (8, 0), (9, 2), (10, 3))),
        event(26, "end", session=1, kind="commit", reply="done", value=11),
        event(27, "deliver", message=11, reply="done", value=12),
        *(event(28, "deliver", message=message) for message in (12, 13, 14)),
        event(29, "deliver", message=15, reply="unknown"),
    ]
    answer = (0, "wrote partitions=8\nyes transactions=2 inputs=4 outputs=2\n", "")
    expect(replayed(chain, *deeds[:14], *second) == answer, f"a second group: {replayed(chain, *deeds[:14], *second)}")
    # the members of the first group change, and what the second commits stands; when its own do, it is stale
    for group in ({}, {"group": 1}):
        changed = [*second[:9], event(24, "members", **group, reply="done", value=0), *second[9:]]
        said = replayed(chain, *deeds[:14], *changed)
        expect(said == answer if not group else said[0] == 1 and "answered otherwise" in said[2] and "stale-generation" in said[2], f"members {group}: {said}")
    # where it names a marker for a record
    none_there = [it if it["number"] != 21 else it | {"claim": {**first, "topic": "out", "partition": 1, "offset": 1}} for it in second]
    answer = replayed(chain, *deeds[:14], *none_there)
    expect(answer[0] == 0 and "\nno 5." in answer[1], f"an input that is no record: {answer}")
    # the producer epochs of an application are spent: none of its sessions begins or goes on, and another application's does
    last = 32766
    spent = [
        *(event(1, "start", application=0, reply="done", value=session) for session in range(last + 1)),
        event(2, "start", application=0, reply="epochs-spent"),
        event(3, "end", session=last, kind="abort", reply="done", value=0),
        event(4, "deliver", message=0, reply="done", value=1),
        event(5, "resume", session=last, reply="epochs-spent"),
        event(6, "start", application=0, reply="epochs-spent"),
        event(7, "start", application=1, reply="done", value=last + 1),
    ]
    # the one transaction that was decided is the abort
    answer = (0, "wrote partitions=6\nyes transactions=1 inputs=0 outputs=0\n", "")
    found = replayed({**HEAD, "segment_records": 1000}, *spent)
    expect(found == answer, f"epochs that are spent: {found}")
    # a transaction times out: its end is fenced, and a new session processes the inputs
    timed_out = [
        *deeds[:9],
        event(10, "time-out", application=1, reply="wrong-state"),
        event(11, "time-out", application=2, reply="unknown"),
        event(12, "time-out", application=0, reply="done", value=3),
        event(13, "end", session=0, kind="commit", reply="done", value=6),
        event(14, "deliver", message=6, reply="fenced"),
        event(15, "start", application=0, reply="busy"),
        *(event(16, "deliver", message=message) for message in (3, 4, 5)),
        event(17, "time-out", application=0, reply="wrong-state"),
        event(18, "start", application=0, reply="done", value=1),
        event(19, "fetch", session=1, source=0, reply="done", value=0),
        *(event(20, it["event"], **{k: v for k, v in it.items() if k not in ("number", "event", "value")}, value=7 + at) | {"session": 1} for at, it in enumerate(deeds[3:6])),
        *(event(21, "deliver", message=message) for message in (7, 8, 9)),
        event(22, "end", session=1, kind="commit", reply="done", value=10),
        *(event(23, "deliver", message=message) for message in (10, 11, 12, 13)),
        event(24, "deliver", message=14, reply="unknown"),
    ]
    answer = (0, "wrote partitions=6\nyes transactions=2 inputs=2 outputs=1\n", "")
    told = {"events": len(timed_out), "transactions": 2, "lost": 0, "repeated": 0}
    found = replayed(HEAD, *timed_out, told)
    expect(found == answer, f"a time-out: {found}")
    # partitions are added before a record comes: what is aborted so has end markers alone, and a later record finds its partition listed
    added = [
        *deeds[:3],
        event(4, "add-partition", session=0, partition=0, reply="done", value=0),
        event(5, "add-partition", session=0, partition=None, reply="done", value=0),
        event(6, "add-partition", session=0, partition=2, reply="unknown"),
        event(7, "add-partition", session=1, partition=0, reply="unknown"),
        event(8, "end", session=0, kind="abort", reply="done", value=0),
        event(9, "add-partition", session=0, partition=1, reply="wrong-state"),
        event(10, "deliver", message=0, reply="done", value=1),
        event(11, "deliver", message=1, reply="done", value=0),
        event(12, "resume", session=0, reply="busy"),
        event(13, "deliver", message=2, reply="done", value=0),
        event(14, "resume", session=0, reply="done", value=1),
        event(15, "add-partition", session=0, partition=1, reply="done", value=0),
        *({**it, "value": 3 + at} for at, it in enumerate(deeds[3:6])),
        *(event(16, "deliver", message=message) for message in (3, 4, 5)),
        event(17, "end", session=0, kind="commit", reply="done", value=6),
        event(18, "deliver", message=6, reply="done", value=7),
        *(event(19, "deliver", message=message, reply="done") | {"value": value} for message, value in ((7, 1), (8, 2), (9, 2))),
        event(20, "deliver", message=10, reply="unknown"),
    ]
    answer = (0, "wrote partitions=6\nyes transactions=2 inputs=2 outputs=1\n", "")
    found = replayed(HEAD, *added)
    expect(found == answer, f"partitions that are added: {found}")
    # the end markers come and complete nothing; the transaction is completed after the last one, or they come again after a restart
    marked = [event(12, "write-marker", message=message, reply="done", value=1) for message in (4, 5, 6)]
    completed = [
        *deeds[:11],
        event(12, "complete", application=0, reply="busy"),
        event(13, "write-marker", message=3, reply="unknown"),
        *marked,
        event(14, "resume", session=0, reply="busy"),
        event(15, "complete", application=2, reply="unknown"),
        event(16, "complete", application=1, reply="wrong-state"),
        event(17, "complete", application=0, reply="done", value=0),
        event(18, "resume", session=0, reply="done", value=1),
        event(19, "write-marker", message=7, reply="unknown"),
    ]
    expect(replayed(HEAD, *completed) == good, f"a transaction that is completed late: {replayed(HEAD, *completed)}")
    restarted = [
        *deeds[:11],
        *marked,
        event(13, "coordinator-restart", reply="done", value=0),
        event(14, "complete", application=0, reply="busy"),
        *(event(15, "deliver", message=message, reply="done", value=2) for message in (7, 8, 9)),
        event(16, "complete", application=0, reply="wrong-state"),
    ]
    expect(replayed(HEAD, *restarted) == good, f"a restart before a transaction is complete: {replayed(HEAD, *restarted)}")
    expect(replayed(HEAD, *deeds[:11], *marked) == (2, "", "eoscheck: the cluster is not at rest\n"), "a transaction that isn't completed")
    # cut before the end: a transaction is open
    expect(replayed(HEAD, *deeds[:9]) == (2, "", "eoscheck: the cluster is not at rest\n"), "a schedule that is cut")
    # nothing happens
    expect(replayed(HEAD) == (0, "wrote partitions=6\nyes transactions=0 inputs=0 outputs=0\n", ""), "no events")
    # a reply that isn't so
    for place, reply in ((0, {"reply": "done", "value": 1}), (2, {"reply": "busy"}), (14, {"reply": "fenced"})):
        edited = list(deeds)
        edited[place] = {k: v for k, v in deeds[place].items() if k not in ("reply", "value")} | reply
        status, out, told = replayed(HEAD, *edited)
        begin = f"eoscheck: {scratch}/schedule: number {place + 1} is answered otherwise: "
        expect((status, out) == (1, "") and told.startswith(begin), f"another reply: {status} {told}")
        expect(json.loads(told[len(begin):]) == deeds[place], f"another reply: {told}")


def refused():
    """Each line that is refused, with its number: status 2 and no folder."""
    feed = event(1, "feed", source=0)
    rows = [
        (1, [""]),
        (1, ["{"]),
        (1, ["[]"]),
        (1, [feed]),
        (1, [{**HEAD, "schema": 2}]),
        (1, [{**HEAD, "seed": -1}]),
        (1, [{k: v for k, v in HEAD.items() if k != "inputs"}]),
        (1, [{**HEAD, "switches": ["no-such-rule"]}]),
        (1, [{**HEAD, "colour": "red"}]),
        (1, [{**HEAD, "chain": 1}]),
        (1, [{k: v for k, v in HEAD.items() if k != "chain"}]),
        (2, [HEAD, ""]),
        (2, [HEAD, "feed"]),
        (2, [HEAD, HEAD]),
        (2, [HEAD, {**feed, "event": "eat"}]),
        (2, [HEAD, {**feed, "source": "0"}]),
        (2, [HEAD, {**feed, "source": 0.5}]),
        (2, [HEAD, {"number": 1, "event": "feed"}]),
        (2, [HEAD, {"event": "feed", "source": 0}]),
        (2, [HEAD, {**feed, "session": 0}]),
        (2, [HEAD, {**feed, "reply": "perhaps"}]),
        (2, [HEAD, {**feed, "reply": "done"}]),
        (2, [HEAD, {"number": 1, "set": ["no-such-rule"]}]),
        (2, [HEAD, {"number": 1, "set": "no-fence"}]),
        (2, [HEAD, event(1, "end", session=0, kind="perhaps")]),
        (2, [HEAD, event(1, "produce", session=0, partition=0)]),
        (2, [HEAD, event(1, "commit", session=0, source=0)]),
        (1, [json.dumps(HEAD)[:-1] + ', "seed": 1}']),
        (2, [HEAD, '{"number": 1, "event": "feed", "source": 0, "source": 0}']),
        (2, [HEAD, {"number": 1, "note": "found", "message": 0}]),
        (2, [HEAD, {"number": 1, "note": "lost", "message": 0, "event": "members"}]),
        (3, [HEAD, feed, feed | {"event": "Feed"}]),
        (3, [HEAD, feed, "", feed]),
        (3, [HEAD, {"events": 0, "transactions": 0, "lost": 0, "repeated": 0}, feed]),
    ]
    for number, lines in rows:
        status, out, told = replayed(*lines)
        begin = f"eoscheck: {scratch}/schedule: line {number}: "
        well = (status, out) == (2, "") and told.startswith(begin) and told.count("\n") == 1 and len(told) > len(begin) + 5
        expect(well, f"{lines}: {status} {out!r} {told!r}")
    status, out, told = replayed({**HEAD, "inputs": 17})
    expect((status, out, told) == (2, "", "eoscheck: limit\n"), f"a size out of range: {status} {told}")
    folder = f"{scratch}/none"
    for what in (f"{scratch}/no-such-file", scratch):
        status, out, told = run("simulate", "--schedule", what, folder)
        expect((status, out) == (2, "") and told.startswith(f"eoscheck: cannot read {what}\n"), f"{what}: {told}")
    for words in (["--seed", 1], ["--events", 1], ["--switch", "no-fence"], ["--inputs", 3], ["--chain"], ["--lose", 1], ["--links"], ["--mishap", "lost-output"]):
        status, out, told = run("simulate", "--schedule", schedule(HEAD), *words, folder)
        expect((status, out) == (2, "") and told.startswith("error: "), f"--schedule with {words}: {told}")
    expect(not os.path.exists(folder), "a refused schedule leaves a folder")


def files():
    """A history that is there already, or that can't be written, bars the run; what fails leaves neither."""
    there, folder = f"{scratch}/there", f"{scratch}/unmade"
    with open(there, "w") as file:
        file.write("mine\n")
    script = ["simulate", "--seed", 1, "--events", 20]
    rows = [
        (there, f"eoscheck: cannot write {there}: it is there already\n"),
        (f"{scratch}/no/such", f"eoscheck: cannot write {scratch}/no/such: no such folder\n"),
    ]
    for path, message in rows:
        expect(run(*script, "--history", path, folder) == (2, "", message), f"--history {path}")
    with open(there) as file:
        expect(file.read() == "mine\n", "a history was written over another file")
    os.mkdir(folder)
    status, _, told = run(*script, "--history", f"{scratch}/unwritten", folder)
    expect(status == 2 and not any(it.startswith("unwritten") for it in os.listdir(scratch)), f"a history without a folder: {told}")
    os.rmdir(folder)
    expect(not os.path.exists(folder), "a folder without a history")
    # where the system writes no more of the history, neither is left
    status, out, told = run(*script[:-1], 400, "--history", f"{scratch}/long", folder, preexec_fn=small_files)
    expect((status, out, told) == (2, "", f"eoscheck: cannot write {scratch}/long\n"), f"a full disk: {status} {told}")
    expect(not os.path.exists(folder) and not any(it.startswith("long") for it in os.listdir(scratch)), "a full disk leaves something")


def small_files():
    """No file gets larger than 20,000 bytes: a segment is smaller, and a history isn't."""
    signal.signal(signal.SIGXFSZ, signal.SIG_IGN)
    resource.setrlimit(resource.RLIMIT_FSIZE, (20_000, 20_000))


def refused_memory(library):
    """Each allocation, or where there are many every so-manieth: the folder and the history are there whole, or neither is."""
    history, folder = f"{scratch}/memory", f"{scratch}/memory-folder"
    words = dict(os.environ, LD_PRELOAD=library)
    lines = [HEAD, event(1, "feed", source=0), {"number": 2, "note": "mishap", "mishap": "any"}]
    for script in (["--seed", 7, "--events", 5], ["--schedule", schedule(*lines)]):
        count = f"{scratch}/count"
        good = run("simulate", *script, "--history", history, folder, env=dict(words, REFUSE_COUNT=count))
        whole = lines_of(history)
        with open(count) as file:
            total = int(file.read())
        told = 0
        for at in range(1, total + 1, max(1, total // 300)):
            shutil.rmtree(folder, ignore_errors=True)
            if os.path.exists(history):
                os.remove(history)
            found = run("simulate", *script, "--history", history, folder, env=dict(words, REFUSE_AT=str(at)))
            if found == (3, "", "eoscheck: out of memory\n"):
                told += 1
                expect(not os.path.exists(history) or lines_of(history) == whole, f"allocation {at} refused: a part of a history")
                expect(os.path.exists(history) == os.path.exists(folder), f"allocation {at} refused: one without the other")
            elif found != good or lines_of(history) != whole:
                expect(False, f"allocation {at} refused: {found}")
        expect(told > 20, f"{script}: {told} of {total} refused allocations are told")
        shutil.rmtree(folder, ignore_errors=True)
        if os.path.exists(history):
            os.remove(history)


def main():
    with concurrent.futures.ThreadPoolExecutor(4) as pool:
        found = list(pool.map(again, range(1, RANDOM + PLAIN + 1)))
    for it in found:
        expect(not it, it)
    made = found.count(None)
    expect(made > PLAIN + RANDOM / 2, f"only {made} of {len(found)} random scripts leave a folder")
    totals()
    time_outs()
    finer_steps()
    links()
    worked()
    refused()
    files()
    if len(sys.argv) > 2:
        refused_memory(os.path.abspath(sys.argv[2]))
    print(f"{passed} passed, {failed} failed")


if __name__ == "__main__":
    program = os.path.abspath(sys.argv[1])
    with tempfile.TemporaryDirectory() as scratch:
        main()
