#!/usr/bin/env -S python3 -B
"""The report that `check --report FILE` writes: for each folder of evidence, against the schema in docs and against what is
printed; and what is refused.

    python3 -B tests/report.py PROGRAM [REFUSE.SO] [STREAMS.SO]

A report is put together again as the verdict's line and as the lines of the notes, by the texts of the help and of docs/EVIDENCE.md,
and has to give what was printed. Lines that are wanted are those of the folders' own lists, times those of another reading of the logs. With REFUSE.SO (tests/refuse.c, built) the
allocations of a run are refused, each in turn; with STREAMS.SO (tests/streams.c) logs are others where they are read again. It needs Python's jsonschema (Debian's python3-jsonschema). Run it in the repository's top folder. The last line is 'N passed, N failed'.
"""
import bisect
import functools
import json
import os
import resource
import shutil
import signal
import struct
import subprocess
import sys
import tempfile

try:
    import jsonschema
except ImportError:
    sys.exit("Python's jsonschema is wanted (Debian's python3-jsonschema)")

import plain_logs
from random_evidence import Folder, settle
from reference import escaped
from story_lines import time_at
from tallies_reference import group_rows, partition_rows

GOOD = "tests/evidence/row-yes-2"
YES = "yes transactions=1 inputs=2 outputs=3\n"
NOBODY = 65534

passed = failed = 0


def same(what, found, want):
    global passed, failed
    if found == want:
        passed += 1
    else:
        failed += 1
        print(f"FAILED: {what}: {found}, not {want}")


def run(*words, before=None, stdout=subprocess.PIPE, **settings):
    done = subprocess.run(
        [program, *words],
        stdin=subprocess.DEVNULL,
        stdout=stdout,
        stderr=subprocess.PIPE,
        preexec_fn=before,
        env=dict(os.environ, **settings),
        timeout=120,
    )
    return done.returncode, (done.stdout or b"").decode(), done.stderr.decode()


# ---- what a report says, as it is printed


def shown(text):
    return escaped(bytes.fromhex(text["hex"]) if isinstance(text, dict) else text.encode())


def partition(of):
    return f"{shown(of['topic'])}-{of['partition']}"


def place(of):
    return f"{partition(of)}:{of['offset']}"


def where(fault):
    if fault["phase"] in (1, 2, 4):
        return f"{partition(fault)} offset={fault['offset']}"
    if fault["phase"] == 3:
        found = f" partition={partition(fault)}" if "topic" in fault else ""
        return f"producer={fault['producer']} epoch={fault['epoch']}{found}"
    return f"source={place(fault['source'])} output={fault['output']}"


DETAILS = {
    1: {"segment": str, "byte": str, "batch": str, "found": str, "producer": str, "end": str},
    2: {"record": str, "id": shown, "why": str},
    3: {},
    4: {"record": str},
    5: {"at": place, "group": shown},
}


def fault_line(fault):
    details = [f" {name}={text(fault[name])}" for name, text in DETAILS[fault["phase"]].items() if name in fault]
    return f"no {fault['code']} {fault['name']} {where(fault)}{''.join(details)}"


def verdict_line(report):
    if report["answer"] == "yes":
        return "yes " + " ".join(f"{name}={report['counts'][name]}" for name in ("transactions", "inputs", "outputs"))
    return fault_line(*report["faults"])


NOTES = {
    "NoApplication": lambda n: "no application is named: outputs and committed offsets aren't judged",
    "Unlisted": lambda n: f"{partition(n)} isn't in ends, but group {shown(n['group'])} committed an offset of it",
    "PastEnd": lambda n: f"group {shown(n['group'])} committed offset {n['offset']} of {partition(n)}, past its end {n['end']}",
    "NoPartition": lambda n: f"topic {shown(n['topic'])} of group {shown(n['group'])} has no partition in ends",
    "Gap": lambda n: f"topic {shown(n['topic'])} has no partition {n['partition']} in ends, but one of a greater number",
    "NothingCommitted": lambda n: f"group {shown(n['group'])} committed no offset of its sources",
    "NoInternal": lambda n: f"no partition of {n['topic']} is in ends",
    "Behind": lambda n: f"group {shown(n['group'])} is behind: {n['below']} of {n['inputs']} visible inputs are below its committed offsets",
    "EpochFalls": lambda n: f"the leader epoch falls at {partition(n)}:{n['offset']}",
    "OtherEpoch": lambda n: f"group {shown(n['group'])} committed offset {n['offset']} of {partition(n)} under leader epoch {n['committed_epoch']}, "
        f"but the record before it is of epoch {n['record_epoch']}",
}


def note_line(note):
    return f"eoscheck: note: {NOTES[note['kind']](note)}\n"


# ---- the times of records, against a second reading of the logs

TIMES = ("timestamp", "source_timestamp", "at_timestamp")
# Once they were read of so many faults alone.
TEN = 10


def without_times(fault):
    return {name: value for name, value in fault.items() if name not in TIMES}


def places_of(fault):
    """The places that a fault names, by the names of their times."""
    if "offset" in fault:
        return {"timestamp": fault}
    return {f"{name}_timestamp": fault[name] for name in ("source", "at") if name in fault}


@functools.cache
def log_of(path, base):
    """The bytes of a log, of each batch the first offset and the byte, and the offset behind the last: as far as each begins where the one
    before ends."""
    with open(path, "rb") as file:
        data = file.read()
    at, batches = 0, []
    while at < len(data):
        try:
            batch, size = plain_logs.read_batch(data, at)
        except plain_logs.Refused:
            break
        if batch.base != base:
            break
        batches.append((base, at))
        at, base = at + size, base + batch.count
    return data, batches, base


@functools.cache
def bases_of(path):
    return [int(name[:20]) for name in os.listdir(path) if name.endswith((".log", ".fold"))] if os.path.isdir(path) else []


def time_of(folder, place):
    """When the record at a place was written, by the log in which its offset lies; none of a fold."""
    path = os.path.join(folder, partition(place))
    base = max((base for base in bases_of(path) if base <= place["offset"]), default=0)
    path = os.path.join(path, f"{base:020}.log")
    if not os.path.isfile(path):
        return None
    data, batches, end = log_of(path, base)
    if not base <= place["offset"] < end:
        return None
    first, at = batches[bisect.bisect_right(batches, (place["offset"], len(data))) - 1]
    return time_at(data, at, place["offset"] - first)


def check_times(folder, report):
    """Each record that a fault names has its time; one that the logs don't have, or a fold keeps, has none. Gives the places in the list of
    the faults that have some."""
    same(f"{folder}: times are read", report["timestamps_read"], True)
    timed = []
    for at, fault in enumerate(report.get("faults", [])):
        times = {name: time_of(folder, of) for name, of in places_of(fault).items()}
        wanted = {name: time for name, time in times.items() if time is not None}
        same(f"{folder}: times of {fault_line(fault)}", {name: fault[name] for name in TIMES if name in fault}, wanted)
        timed += [at] * len(wanted)
    return timed


# ---- the tables, against a second program


def bytes_of(text):
    return bytes.fromhex(text["hex"]) if isinstance(text, dict) else text.encode()


def partition_numbers(row):
    roles = [name for name in ("source", "output", "offsets_log", "transaction_log") if row["roles"][name]]
    names = ("end", "batches", "data_records", "visible_records", "segments", "bytes")
    return (bytes_of(row["topic"]), row["partition"], roles, *(row[name] for name in names))


def group_numbers(row):
    names = ("partition", "committed", "end", "visible_inputs_below")
    return bytes_of(row["group"]), [(bytes_of(it["topic"]), *(it[name] for name in names)) for it in row["sources"]]


def tables(folder, report):
    same(f"{folder}: partitions", list(map(partition_numbers, report["partitions"])), list(map(tuple, partition_rows(folder))))
    wanted, found = group_rows(folder), report["groups"]
    wanted = wanted and [(group, [tuple(row)[1:] for row in rows]) for group, rows in wanted]
    same(f"{folder}: groups", found and list(map(group_numbers, found)), wanted)


# ---- folders


def unique(pairs):
    names = [name for name, _ in pairs]
    if len(set(names)) < len(names):
        raise ValueError(f"a name stands twice: {names}")
    return dict(pairs)


def report_in(path):
    """The report of a file, one line that the schema describes."""
    with open(path, encoding="utf-8") as file:
        text = file.read()
    same(f"{path}: one line", (text.count("\n"), text[-1:]), (1, "\n"))
    report = json.loads(text, object_pairs_hook=unique)
    same(f"{path}: the schema", [error.message for error in schema.iter_errors(report)][:1], [])
    return report


def reported(folder, *words):
    """The report of a folder, after what is printed was compared with it."""
    path = os.path.join(scratch, "report.json")
    status, out, err = run("check", *words, "--report", path, folder)
    report = report_in(path)
    os.remove(path)
    same(f"{folder}: the line", verdict_line(report) + "\n", out)
    same(f"{folder}: the notes", "".join(map(note_line, report["notes"])), err)
    same(f"{folder}: status", status, 0 if report["answer"] == "yes" else 1)
    same(f"{folder}: folder", report["folder"], folder)
    same(f"{folder}: folds", report["folds"], 0)
    tables(folder, report)
    check_times(folder, report)
    return report


def each_folder():
    """Each folder of the lists, its report or none: the kinds of faults and notes, and of each list's folders the first fault."""
    kinds, firsts = set(), {}
    for top in ("tests/evidence", "tests/stories", "tests/real-evidence"):
        with open(f"{top}/expected.tsv", encoding="utf-8") as file:
            rows = [line.rstrip("\n").split("\t") for line in file]
        for name, status, line in rows:
            folder = f"{top}/{name}"
            if status == "2":
                unread(folder)
                continue
            report = reported(folder)
            same(f"{folder}: as its list has it", verdict_line(report), line)
            kinds |= {fault["code"] for fault in report.get("faults", [])} | {note["kind"] for note in report["notes"]}
            if status == "1" and top != "tests/real-evidence":
                firsts[folder] = report["faults"][0]
    return kinds, firsts


def unread(folder):
    """A folder that can't be read has no report, and is answered as without one."""
    path = os.path.join(scratch, "report.json")
    same(f"{folder}: unread", run("check", "--report", path, folder), run("check", folder))
    same(f"{folder}: no report", os.path.exists(path), False)


# ---- members that the folders don't show


def members():
    report = reported(GOOD, "--workers", "7")
    same("workers", report["workers"], 7)
    same("workers by default", reported(GOOD)["workers"], 4)
    same("program", f"{report['program']['name']} {report['program']['version']}\n", run("--version")[1])
    path = os.path.join(scratch, "quiet.json")
    folder = "tests/stories/09-misspelled-group"
    with open(f"{folder}.notes", encoding="utf-8") as file:
        notes = file.read()
    _, out, err = run("check", "--quiet", "--json", "--report", path, folder)
    found = report_in(path)
    same("notes that aren't printed", ("".join(map(note_line, found["notes"])), err), (notes, ""))
    first = found["faults"][0]
    same("beside JSON", json.loads(out), {"answer": "no", "fault": fault_line(first)[3:], "fields": without_times(first)})


def bare(folder, *words, **settings):
    """The report of a folder, read without the schema, which takes most of the time."""
    path = os.path.join(scratch, "bare.json")
    run("check", "--quiet", *words, "--report", path, folder, **settings)
    with open(path, encoding="utf-8") as file:
        report = json.load(file)
    os.remove(path)
    return report


def all_faults(firsts):
    """The times of lists of faults, of which the first is as it is alone."""
    timed = []
    for folder, first in firsts.items():
        report = bare(folder, "--all")
        timed += check_times(folder, report)
        same(f"{folder}: the first fault alone", report["faults"][0], first)
    same("there are times, and of faults behind the tenth", (len(timed) > 50, max(timed) > TEN), (True, True))


def another_group():
    """A good folder of many segments whose group is named wrongly: each output has a fault."""
    folder = os.path.join(scratch, "another-group")
    shutil.copytree("tests/evidence/random-yes-7", folder)
    path = os.path.join(folder, "evidence.json")
    with open(path, encoding="utf-8") as file:
        manifest = json.load(file)
    for app in manifest.get("apps", [manifest]):
        app["group"] = "another-" + app["group"]
    with open(path, "w", encoding="utf-8") as file:
        json.dump(manifest, file)
    report = bare(folder, "--all")
    timed = check_times(folder, report)
    same("each of many faults has two times", (len(report["faults"]) > 40, timed), (True, sorted([*range(len(report["faults"]))] * 2)))
    same("by one worker", bare(folder, "--all", "--workers", "1")["faults"], report["faults"])


def odd_id():
    """A transactional id that isn't UTF-8."""
    folder = Folder("tests/real-evidence/sarama-raw")
    name = next(name for name, log in folder.logs.items() if name.startswith("__transaction_state-") and log)
    key = struct.pack(">hh", 0, 3) + b"a\xff\n"
    # the second record alone, which can't be the first of an id
    piece = folder.logs[name][1]
    folder.logs[name][1] = piece.with_records([(key, record.value, []) for record in piece.batch.records])
    settle(folder, name)
    path = os.path.join(scratch, "odd")
    folder.write(path)
    fault = reported(path)["faults"][0]
    same("an id that isn't UTF-8", (fault["phase"], fault["id"]), (2, {"hex": "61ff0a"}))


# ---- refusals


def refused(what, words, message, before=None):
    """Words that are refused: one line, status 2, and nothing else."""
    same(what, run(*words, before=before), (2, "", message))


def as_nobody():
    os.setgid(NOBODY)
    os.setuid(NOBODY)


def no_bytes():
    signal.signal(signal.SIGXFSZ, signal.SIG_IGN)
    resource.setrlimit(resource.RLIMIT_FSIZE, (0, 0))


def refusals():
    there = os.path.join(scratch, "there.json")
    with open(there, "w", encoding="utf-8") as file:
        file.write("mine")
    refused("a file that is there", ["check", "--report", there, GOOD], f"eoscheck: cannot write {there}: it is there already\n")
    # before the folder is looked at
    refused("the same, no folder", ["check", "--report", there, "absent"], f"eoscheck: cannot write {there}: it is there already\n")
    with open(there, encoding="utf-8") as file:
        same("it stays as it was", file.read(), "mine")
    path = os.path.join(scratch, "absent", "report.json")
    refused("no such folder", ["check", "--report", path, GOOD], f"eoscheck: cannot write {path}: no such folder\n")
    path = os.path.join(scratch, "report.json")
    if os.getuid() == 0:
        os.chmod(scratch, 0o755)
        refused("permission", ["check", "--report", path, GOOD], f"eoscheck: cannot write {path}: permission denied\n", as_nobody)
    refused("several folders", ["check", "--report", path, GOOD, GOOD], "eoscheck: check --report takes one FOLDER\n")
    for words in (["check", GOOD, "--report"], ["check", "--report", "", GOOD], ["check", "--report", path]):
        status, out, err = run(*words)
        same(f"bad words: {words}", (status, out, err != ""), (2, "", True))
    unread("absent")
    same("no file is left", os.path.exists(path), False)


def unwritten():
    """Output that can't be written leaves no report, and a report that can't be written no file."""
    path = os.path.join(scratch, "report.json")
    same("no room", run("check", "--report", path, GOOD, before=no_bytes), (2, YES, f"eoscheck: cannot write {path}\n"))
    same("no room: no file", os.path.exists(path), False)
    with open("/dev/full", "wb") as full:
        same("a full device", run("check", "--report", path, GOOD, stdout=full), (2, "", "eoscheck: cannot write -\n"))
    same("a full device: no file", os.path.exists(path), False)


def without_memory(library):
    """Each allocation of a run refused in turn: the answer with its report, or that memory ran out and neither."""
    path, count = os.path.join(scratch, "refused.json"), os.path.join(scratch, "count")
    words = ["check", "--workers", "1", "--report", path, GOOD]
    run(*words, LD_PRELOAD=library, REFUSE_COUNT=count)
    os.remove(path)
    with open(count, encoding="utf-8") as file:
        total, told = int(file.read()), 0
    for at in range(1, total + 1):
        status, out, err = run(*words, LD_PRELOAD=library, REFUSE_AT=str(at))
        if status == 0:
            same(f"allocation {at}", (out, err, verdict_line(report_in(path)) + "\n"), (YES, "", YES))
            os.remove(path)
        else:
            same(f"allocation {at}", (status, out, err, os.path.exists(path)), (3, "", "eoscheck: out of memory\n", False))
            told += 1
    same("refused allocations are told", told > 100, True)


def read_again(library):
    """Logs that are gone or others where they are read a second time: no time is told that isn't theirs, and all else stands."""
    for folder, words in ("tests/stories/34-dup-across-transactions", []), ("tests/stories/09-misspelled-group", ["--all"]):
        words = [*words, "--workers", "1"]
        want = bare(folder, *words)
        same("there are times", [name in want["faults"][-1] for name in TIMES], [False, True, True])
        for what, file, is_read in ("gone", os.path.join(scratch, "absent"), False), ("empty", "/dev/null", True):
            found = bare(folder, *words, LD_PRELOAD=library, FILE_AGAIN=file)
            rest = {name: value for name, value in want.items() if name != "seconds"}
            rest.update({"faults": [without_times(fault) for fault in want["faults"]], "timestamps_read": is_read})
            same(f"{folder}: logs that are {what}", {name: found[name] for name in rest}, rest)


def main():
    kinds, firsts = each_folder()
    members()
    all_faults(firsts)
    another_group()
    odd_id()
    refusals()
    unwritten()
    if len(sys.argv) > 2:
        without_memory(os.path.abspath(sys.argv[2]))
    if len(sys.argv) > 3:
        read_again(os.path.abspath(sys.argv[3]))
    wanted = {name["properties"]["code"]["const"] for name in description["definitions"].values() if "code" in name.get("properties", {})}
    same("kinds of faults without a report", sorted(wanted - kinds), [])
    print(f"{passed} passed, {failed} failed")
    sys.exit(1 if failed else 0)


if __name__ == "__main__":
    program = os.path.abspath(sys.argv[1])
    with open("docs/report.schema.json", encoding="utf-8") as described:
        description = json.load(described)
    jsonschema.Draft7Validator.check_schema(description)
    schema = jsonschema.Draft7Validator(description)
    with tempfile.TemporaryDirectory() as scratch:
        main()
