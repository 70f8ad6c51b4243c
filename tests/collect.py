#!/usr/bin/env -S python3 -B
"""Tries tools/collect.sh with stand-ins of Kafka's tools (tests/kafka_tools.py), ssh and scp, over folders in brokers' places.

    tests/collect.py PROGRAM

The logs are those of tests/real-evidence and of a simulated folder, laid in the log directories of two brokers. What is collected has
to be these logs, and the verdict the one that is written down; each refusal is one line, leaves nothing, and changes no cluster.
Prints what is wrong, and as its last line 'N passed, N failed'.
"""
import glob
import json
import os
import re
import shlex
import shutil
import signal
import subprocess
import sys
import tempfile
import time

import kafka_tools

HERE = os.path.dirname(os.path.abspath(__file__))
SCRIPT = os.path.join(os.path.dirname(HERE), "tools", "collect.sh")
TOOLS = ["kafka-topics", "kafka-features", "kafka-configs", "kafka-consumer-groups", "kafka-transactions", "kafka-get-offsets"]
CHANGES = ("upgrade", "--alter", "--reset-offsets", "--delete", "abort")
APP = "payments:in:out"
YES = "yes transactions=10 inputs=40 outputs=79\n"
SSH = """#!/bin/bash
echo "ssh $*" >> "$STAND_IN/calls"
while [ "${1#-}" != "$1" ]; do case $1 in -o | -l) shift 2 ;; *) shift ;; esac; done
[ "$1" = far ] || { echo "ssh: Could not resolve hostname $1: Name or service not known" >&2; exit 255; }
shift
exec sh -c "$*"
"""
SCP = """#!/bin/bash
echo "scp $*" >> "$STAND_IN/calls"
[ ! -e "$STAND_IN/scp-fails" ] || { echo 'scp: Connection closed' >&2; exit 1; }
while [ "${1#-}" != "$1" ]; do shift; done
cp -p ${1#far:} "$2"
"""
RSYNC = """#!/bin/bash
echo "rsync $*" >> "$STAND_IN/calls"
[ "$1 $2 $3" = "-a --include=*.log --exclude=*" ] && cp -p "${4#far:}"*.log "$5"
"""

passed = failed = 0


def expect(holds, what):
    global passed, failed
    if holds:
        passed += 1
    else:
        failed += 1
        print(f"FAILED: {what}")


def write(path, text, mode=0o644):
    with open(path, "w", encoding="utf-8") as file:
        file.write(text)
    os.chmod(path, mode)


class Cluster:
    """A folder with the tools in `bin`, the brokers' log directories, and where evidence is collected to."""

    def __init__(self, name, source, group="payments"):
        self.root = os.path.join(scratch, name)
        self.source = source
        self.bin, self.out, self.folder = (os.path.join(self.root, it) for it in ("bin", "out", "out/run"))
        for folder in (self.bin, self.out, f"{self.root}/1", f"{self.root}/2"):
            os.makedirs(folder)
        for tool in TOOLS:
            shutil.copy(os.path.join(HERE, "kafka_tools.py"), f"{self.bin}/{tool}.sh")
            os.chmod(f"{self.bin}/{tool}.sh", 0o755)
        write(f"{self.bin}/ssh", SSH, 0o755)
        write(f"{self.bin}/scp", SCP, 0o755)
        if not shutil.which("rsync"):
            write(f"{self.bin}/rsync", RSYNC, 0o755)
        write(f"{self.root}/calls", "")
        with open(os.path.join(source, "evidence.json"), encoding="utf-8") as file:
            ends = json.load(file)["ends"]
        self.state = {"version": 2, "topics": {}, "groups": {group: "Empty"}, "transactions": {"pay-1": "CompleteCommit", "pay 2": "Empty"}}
        for at, (name, end) in enumerate(sorted(ends.items())):
            topic, number = name.rsplit("-", 1)
            leader = str(1 + at % 2)
            self.topic(topic)["partitions"][number] = {"leader": leader, "replicas": "1,2", "isr": "2,1", "end": end}
            shutil.copytree(os.path.join(source, name), f"{self.root}/{leader}/{name}")
            # brokers keep more beside a segment, and a follower's copy may be behind
            write(f"{self.root}/{leader}/{name}/{0:020}.index", "")
            write(f"{self.root}/{leader}/{name}/leader-epoch-checkpoint", "0\n")
            os.mkdir(f"{self.root}/{3 - int(leader)}/{name}")

    def topic(self, name):
        return self.state["topics"].setdefault(name, {"partitions": {}})

    def part(self, name):
        topic, number = name.rsplit("-", 1)
        return self.topic(topic)["partitions"][number]

    def logs(self, far=True):
        return ["--logs", f"1={self.root}/1", "--logs", f"2={'far:' if far else ''}{self.root}/2"]

    def words(self, *more, app=APP, far=True):
        return ["--bootstrap", "b1:9092", *(["--app", app] if app else []), *self.logs(far), "--eoscheck", program, *more, self.folder]

    def environment(self):
        write(f"{self.root}/cluster.json", json.dumps(self.state))
        return {**os.environ, "STAND_IN": self.root, "PATH": f"{self.bin}:{os.environ['PATH']}", "TMPDIR": self.root}

    def run(self, *words):
        done = subprocess.run(["bash", SCRIPT, *words], capture_output=True, text=True, env=self.environment(), timeout=120)
        return done.returncode, done.stdout, done.stderr

    def calls(self):
        with open(f"{self.root}/calls", encoding="utf-8") as file:
            return file.read().splitlines()

    def changing(self):
        return [call for call in self.calls() if any(word in call.split() for word in CHANGES)]

    def left(self):
        """What a run left behind: in the folder's place, and of its notes."""
        return os.listdir(self.out) + glob.glob(f"{self.root}/tmp.*") + glob.glob(f"{self.root}/out/.*")


def new(name, source="real-evidence/sarama-raw", **more):
    return Cluster(name, os.path.join(HERE, source) if not os.path.isabs(source) else source, **more)


def same_logs(cluster, names):
    """Whether these partitions' logs were collected, byte for byte, and nothing else."""
    there = sorted(name for name in os.listdir(cluster.folder) if os.path.isdir(f"{cluster.folder}/{name}"))
    for name in names:
        for file in os.listdir(f"{cluster.source}/{name}"):
            with open(f"{cluster.source}/{name}/{file}", "rb") as one, open(f"{cluster.folder}/{name}/{file}", "rb") as other:
                if one.read() != other.read():
                    return False
        if sorted(os.listdir(f"{cluster.folder}/{name}")) != sorted(os.listdir(f"{cluster.source}/{name}")):
            return False
    return there == sorted(names)


def steps(text):
    return [line.removeprefix("collect: ") for line in text.splitlines() if line.startswith("collect: ")]


# ---- what is collected


def good():
    for name, words, far in (("local", [], False), ("scp", [], True), ("rsync", ["--with", "rsync"], True)):
        cluster = new(name)
        status, out, text = cluster.run(*cluster.words(*words, far=far))
        expect((status, out) == (0, YES), f"{name}: {status}, {out}{text}")
        names = [it for it in os.listdir(cluster.source) if it != "evidence.json"]
        expect(os.path.isdir(cluster.folder) and same_logs(cluster, names), f"{name}: other logs")
        with open(f"{cluster.source}/evidence.json", encoding="utf-8") as one, open(f"{cluster.folder}/evidence.json", encoding="utf-8") as other:
            expect(json.load(one) == json.load(other), f"{name}: another manifest")
        expect(not cluster.changing() and cluster.left() == ["run"], f"{name}: {cluster.changing()} {cluster.left()}")
        expect(all(line.startswith("collect: ") for line in text.splitlines()), f"{name} says {text}")
        order = [r"looks at topics", r"looks at the feature", r"looks whether groups", r"reads the ends \(", r"lists", r"copies 7 partitions",
                 r"writes the manifest", r"reads the ends again", r"checks "]
        expect(len(steps(text)) == len(order) and all(re.match(*it) for it in zip(order, steps(text))), f"{name}: its steps are {steps(text)}")
        asked = [call.split()[0] for call in cluster.calls() if call.startswith("kafka-get-offsets.sh")]
        expect(len(asked) == 2, f"{name}: the ends are asked {len(asked)} times")


def command_config():
    cluster = new("secured")
    write(f"{cluster.root}/client.properties", "security.protocol=SSL\n")
    status, out, text = cluster.run(*cluster.words("--command-config", f"{cluster.root}/client.properties", "--kafka", cluster.bin))
    kafka = [call for call in cluster.calls() if call.startswith("kafka")]
    expect((status, out) == (0, YES) and all("--command-config" in call for call in kafka), f"a secured cluster: {text} {kafka}")


def judged_no():
    """A verdict that is a no: the evidence stays, and the status is the check's."""
    cluster = new("no", "real-evidence/rdkafka-one-tv1")
    cluster.state["version"] = 1
    with open(f"{cluster.source}/evidence.json", encoding="utf-8") as file:
        it = json.load(file)
    cluster.state["groups"] = {it["group"]: "Empty"}
    status, out, text = cluster.run(*cluster.words(app=f"{it['group']}:{','.join(it['sources'])}:{','.join(it['outputs'])}"))
    expect(status == 1 and out.startswith("no 1.7 NoBump ") and os.path.isfile(f"{cluster.folder}/evidence.json"), f"a no: {status} {out}{text}")
    expect("note: transaction.version is 1: with it no log can pass; set 2 before a run (--configure)" in steps(text), f"version 1: {text}")


def of_two_groups():
    """An application that isn't named: what its transactions wrote is copied too."""
    source = os.path.join(scratch, "chain")
    made = subprocess.run([program, "simulate", "--chain", "--seed", "5", "--events", "300", source], capture_output=True, text=True)
    expect(made.returncode == 0, f"simulate --chain: {made}")
    cluster = new("two", source)
    cluster.state["groups"] = {"g": "Empty", "h": "Empty"}
    with open(f"{source}/evidence.json", encoding="utf-8") as file:
        manifest = json.load(file)
    (first, second) = manifest["apps"]
    listed = [it for it in manifest["ends"] if it.rsplit("-", 1)[0] in second["outputs"]]
    status, out, text = cluster.run(*cluster.words(app=f"{first['group']}:{','.join(first['sources'])}:{','.join(first['outputs'])}"))
    expect(status == 0 and out.startswith("yes "), f"one of two: {status} {out}{text}")
    copied = [it.split()[1].rstrip(",") for it in steps(text) if it.endswith("which a transaction wrote")]
    expect(copied and set(copied) <= set(listed), f"one of two: {copied} were copied, not {listed}")
    words = [it for app in manifest["apps"] for it in ("--app", f"{app['group']}:{','.join(app['sources'])}:{','.join(app['outputs'])}")]
    cluster.folder += "-both"
    status, out, text = cluster.run(*cluster.words(*words, app=None))
    expect(status == 0 and same_logs(cluster, list(manifest["ends"])), f"both of two: {status} {out}{text}")


def without_applications():
    """`init` is asked without --app; a program that knows that stands in where this one doesn't yet."""
    cluster = new("nobody")
    write(f"{cluster.bin}/judge", f"""#!/bin/bash
[ "$1" = init ] || exec {program} "$@"
echo "eoscheck $*" >> "$STAND_IN/calls"
python3 -c 'import json, sys
ends = dict((":".join(line.split(":")[:2]).replace(":", "-"), int(line.split(":")[2])) for line in open(sys.argv[1]))
json.dump({{"version": 2, "apps": [], "ends": ends}}, open(sys.argv[2], "w"))' "$3" "$4/evidence.json"
sed -i 's/": /":/g' "$4/evidence.json"
""", 0o755)
    status, out, text = cluster.run(*cluster.words("--eoscheck", f"{cluster.bin}/judge", app=None))
    called = [call for call in cluster.calls() if call.startswith("eoscheck init")]
    expect(called and all("--app" not in call for call in called), f"without applications: {called}")
    expect((status, out) == (0, "yes transactions=10 inputs=0 outputs=0\n"), f"without applications: {status} {out}{text}")
    expect(sum("which a transaction wrote" in it or "in-" in it for it in steps(text)) >= 3, f"without applications: {steps(text)}")


def noted():
    """Settings with which a log doesn't stay whole, a group that isn't there: notes, and no refusal."""
    cluster = new("noted", group="payment")
    cluster.topic("__transaction_state")["settings"] = {"cleanup.policy": "compact", "retention.ms": "604800000"}
    cluster.topic("in")["settings"] = {"compression.type": "zstd", "preallocate": "true", "remote.storage.enable": "true"}
    cluster.topic("other")["settings"] = {"cleanup.policy": "compact"}
    # what isn't asked for may be as it is, whatever its name
    cluster.topic("other")["partitions"]["0"] = cluster.topic("Error")["partitions"]["0"] = {"leader": "none", "end": 3}
    status, out, text = cluster.run(*cluster.words())
    found = [it for it in steps(text) if it.startswith("note: ")]
    want = ["no group payments is there", "__transaction_state has cleanup.policy=compact", "__transaction_state has retention.ms=604800000",
            "in has remote.storage.enable=true", "in has compression.type=zstd", "in has preallocate=true"]
    expect((status, out) == (0, YES), f"noted: {text}")
    expect(len(found) == len(want) and all(it.startswith("note: " + other) for it, other in zip(found, want)), f"the notes are {found}")


def waiting():
    cluster = new("waiting")
    cluster.state.update(groups={"payments": "Stable"}, rests=3)
    status, out, text = cluster.run(*cluster.words("--wait", "60"))
    asked = sum(call.startswith("kafka-consumer-groups.sh") for call in cluster.calls())
    expect((status, out, asked) == (0, YES, 3), f"waiting: {asked} {text}")
    cluster = new("impatient")
    cluster.state["groups"] = {"payments": "Stable"}
    began = time.time()
    status = cluster.run(*cluster.words("--wait", "2"))[0]
    expect(status == 2 and time.time() - began >= 1 and not cluster.left(), "a wait that ends")


def dry():
    cluster = new("dry")
    status, out, text = cluster.run(*cluster.words("--dry-run"))
    copies = sorted(it for it in steps(text) if it.startswith("would copy"))
    want = []
    for topic, made in cluster.state["topics"].items():
        for number, part in made["partitions"].items():
            place = f"{'far:' if part['leader'] == '2' else ''}{cluster.root}/{part['leader']}"
            want.append(f"would copy {place}/{topic}-{number}/*.log")
    expect((status, out, copies) == (0, "", sorted(want)) and not cluster.left() and not cluster.changing(), f"a dry run: {text}")


def interrupted():
    cluster = new("interrupted")
    cluster.state["groups"] = {"payments": "Stable"}
    words = ["bash", SCRIPT, *cluster.words("--wait", "60")]
    made = subprocess.Popen(words, env=cluster.environment(), stdout=subprocess.PIPE, stderr=subprocess.PIPE)
    while not any("kafka-transactions" in call for call in cluster.calls()):
        time.sleep(0.1)
    made.send_signal(signal.SIGTERM)
    made.communicate(timeout=60)
    expect(made.returncode == 130 and not cluster.left(), f"interrupted: {made.returncode} {cluster.left()}")


# ---- what is refused


def refused(what, line, words=None, change=None, build=None):
    """One line behind the steps, status 2, nothing left, nothing changed."""
    global number
    number += 1
    cluster = new(f"refused-{number}")
    if change:
        change(cluster.state)
    if build:
        build(cluster)
    before = cluster.left()
    status, out, text = cluster.run(*(words(cluster) if words else cluster.words()))
    last = text.splitlines()[-1] if text else ""
    line = line.replace("ROOT", cluster.root)
    expect((status, out) == (2, "") and re.fullmatch("collect: " + line, last), f"{what}: {status} {text}")
    expect(cluster.left() == before and not cluster.changing(), f"{what} leaves {cluster.left()} {cluster.changing()}")
    expect(all(re.match("collect: (looks|reads|lists|copies|writes|note)", it) for it in text.splitlines()[:-1]), f"{what} says {text}")


number = 0


def bad_words():
    place = lambda c: ["--logs", f"1={c.root}/1"]
    for what, line, words in (
        ("no words", "no bootstrap server is given: --bootstrap HOST:PORT .*", lambda c: []),
        ("an unknown option", "no option --topics is known: see --help", lambda c: ["--topics", "x"]),
        ("an option without its word", "--app wants a word after it: see --help", lambda c: ["--bootstrap", "b", "--app"]),
        ("no group", "--app in:out isn't GROUP:SOURCE,..:OUTPUT,..", lambda c: ["--app", "in:out"]),
        ("no source", "--app g::out isn't GROUP:SOURCE,..:OUTPUT,..", lambda c: ["--app", "g::out"]),
        ("logs without a broker", "--logs /var isn't ID=PATH or ID=HOST:PATH, .*", lambda c: ["--logs", "/var"]),
        ("a broker's name", "--logs b1=/var isn't ID=PATH or ID=HOST:PATH, .*", lambda c: ["--logs", "b1=/var"]),
        ("no broker's number", "--logs =/var isn't ID=PATH or ID=HOST:PATH, .*", lambda c: ["--logs", "=/var"]),
        ("a broker without a path", "--logs 1= isn't ID=PATH or ID=HOST:PATH, .*", lambda c: ["--logs", "1="]),
        ("two folders", "one folder is wanted, not both a and b: see --help", lambda c: ["a", "b"]),
        ("no folder", "no folder is given, where the evidence goes .*", lambda c: ["--bootstrap", "b", *place(c)]),
        ("no place", "no broker's log directory is given: --logs .*", lambda c: ["--bootstrap", "b", c.folder]),
        ("another copier", "--with ftp is neither scp nor rsync", lambda c: c.words("--with", "ftp")),
        ("no time", "--wait soon isn't a number of seconds", lambda c: c.words("--wait", "soon")),
        ("no settings", "--command-config ROOT/none can't be read: .*", lambda c: c.words("--command-config", f"{c.root}/none")),
        ("no place for the folder", "ROOT/none is no folder: .*", lambda c: [*c.words()[:-1], f"{c.root}/none/run"]),
        ("no program", "no program ROOT/none: give the checker by --eoscheck", lambda c: c.words("--eoscheck", f"{c.root}/none")),
        ("no tools", "no tool kafka-topics.sh in ROOT/1: give the folder bin of a Kafka 4 by --kafka", lambda c: c.words("--kafka", f"{c.root}/1")),
    ):
        refused(what, line, words)
    refused("a folder that is there", "ROOT/out/run is there already: .*", build=lambda c: os.mkdir(c.folder))
    refused("a link that is there", "ROOT/out/run is there already: .*", build=lambda c: os.symlink("nowhere", c.folder))
    for tool in TOOLS:
        refused(f"without {tool}", f"no tool {tool}.sh on the path: .*", build=lambda c, tool=tool: os.remove(f"{c.bin}/{tool}.sh"))


def bad_cluster():
    fails = lambda tool, said: lambda state: state.update(fails={f"{tool}.sh": said})
    refused("no broker", r"b1:9092 doesn't answer \(Error: Timed out waiting for a node assignment\): look at the address, .*",
            change=fails("kafka-topics", "Timed out waiting for a node assignment"))
    for tool in TOOLS[1:]:
        refused(f"{tool} fails", rf"{tool}.sh failed.* \(Error: not authorized\): .*", change=fails(tool, "not authorized"))
    for state in ("Stable", "PreparingRebalance", "CompletingRebalance", "Assigning", "Reconciling"):
        refused(f"a group is {state}", rf"the group a b:c is {state}: stop its members, .*",
                change=lambda it, state=state: it["groups"].update({"a b:c": state}))
    for state in ("Ongoing", "PrepareCommit", "PrepareAbort"):
        refused(f"a transaction is {state}", rf"the transaction of pay-1 is {state}: stop its producer, .*",
                change=lambda it, state=state: it["transactions"].update({"pay-1": state}))
    refused("an id with a blank", "the transaction of pay 2 is Ongoing: .*", change=lambda it: it["transactions"].update({"pay 2": "Ongoing"}))
    part = lambda **members: lambda state: state["topics"]["out"]["partitions"]["1"].update(members)
    refused("no leader", "out-1 has no leader: bring one of its brokers back, .*", change=part(leader="none"))
    refused("under-replicated", r"out-1 is under-replicated \(1 of 2 replicas are in sync\): .*", change=part(isr="2"))
    refused("nobody in sync", r"out-1 is under-replicated \(0 of 2 replicas are in sync\): .*", change=part(isr=""))
    refused("a broker without a place", r"out-1 is led by broker 7, and no --logs 7=\.\. says where its logs lie", change=part(leader="7"))
    refused("an end that moved", "the end of out-1 moved from 38 to 40 while it was copied: something still writes; .*", change=part(after=40))
    refused("an end that went", "the end of out-1 moved from 38 to 4 while it was copied: .*", change=part(after=4))
    for topic in ("in", "__transaction_state"):
        refused(f"no topic {topic}", f"no topic {topic} is there: .*", change=lambda it, topic=topic: it["topics"].pop(topic))
    refused("a part of a name", "no topic o.t is there: .*", lambda c: c.words(app="payments:in:o.t"))
    refused("words that init refuses", r"no manifest could be written \(eoscheck: --app: .*\): .*", lambda c: c.words("--app", "other:in:out"))


def bad_copies():
    gone = lambda c: shutil.rmtree(f"{c.root}/{c.part('out-1')['leader']}/out-1")
    refused("a partition without a folder", "out-1 has no folder in the log directories of its leader, broker [12]: .*", build=gone)
    refused("no log directory", r"--logs 1=ROOT/none can't be listed \(ls: .*No such file or directory\): .*",
            lambda c: c.words("--logs", f"1={c.root}/none"))
    refused("an unknown host", r"--logs 2=near:/var can't be listed \(ssh: Could not resolve .*\): .*", lambda c: c.words("--logs", "2=near:/var"))
    refused("a copy that fails", r".* can't be copied from far:ROOT/2 \(scp: Connection closed\): .*",
            build=lambda c: write(f"{c.root}/scp-fails", ""))

    def directory(cluster):
        os.mkdir(f"{cluster.root}/{cluster.part('out-1')['leader']}/out-1/00000000000000000099.log")

    refused("a copy of a folder", r"out-1 can't be copied from ROOT/[12] \(cp: .*\): .*", lambda c: c.words(far=False), build=directory)

    def empty(cluster):
        for file in glob.glob(f"{cluster.root}/{cluster.part('out-1')['leader']}/out-1/*.log"):
            os.remove(file)

    refused("a partition without segments", "out-1 can't be copied from .*", lambda c: c.words(far=False), build=empty)
    refused("the same by rsync", "(?:out-1 has no segment in|out-1 can't be copied from) .*", lambda c: c.words("--with", "rsync"), build=empty)

    def deleted(cluster):
        del cluster.state["topics"]["out"]

    refused("a deleted topic", "no topic out is there: .*", build=deleted)

    def deleted_of_others(cluster):
        deleted(cluster)
        cluster.topic("other")["partitions"]["0"] = {"leader": "1", "end": 0}
        os.mkdir(f"{cluster.root}/1/other-0")
        write(f"{cluster.root}/1/other-0/{0:020}.log", "")

    refused("a deleted topic of others", r"no manifest could be written \(eoscheck: out-[0-9] has no end\): .*",
            lambda c: c.words(app="payments:in:other"), build=deleted_of_others)


# ---- what changes the cluster


def configuring():
    words = ["--configure", "--bootstrap", "b1:9092"]
    alter = [f"kafka-configs.sh --bootstrap-server b1:9092 --alter --entity-type topics --entity-name {topic} --add-config "
             "cleanup.policy=delete,retention.ms=-1,retention.bytes=-1" for topic in ("__consumer_offsets", "__transaction_state")]
    upgrade = "kafka-features.sh --bootstrap-server b1:9092 upgrade --feature transaction.version=2"
    for version, want in ((2, alter), (1, [upgrade, *alter]), (0, [upgrade, *alter])):
        cluster = new(f"configure-{version}")
        cluster.state["version"] = version
        status, out, text = cluster.run(*words)
        expect((status, out) == (0, "") and cluster.changing() == want and not cluster.left(), f"configure {version}: {text} {cluster.changing()}")
        told = [it.removeprefix("changes: ") for it in steps(text) if it.startswith("changes: ")]
        expect(told == want, f"configure {version} tells {told}")
    cluster = new("configure-dry")
    cluster.state["version"] = 1
    status, out, text = cluster.run(*words, "--dry-run")
    expect(status == 0 and not cluster.changing() and len([it for it in steps(text) if it.startswith("changes: ")]) == 3, f"a dry configure: {text}")
    cluster = new("configure-early")
    del cluster.state["topics"]["__transaction_state"]
    status, out, text = cluster.run(*words)
    expect(status == 2 and steps(text)[-1].startswith("not there yet: __transaction_state: ") and cluster.changing() == alter[:1], f"too early: {text}")
    cluster = new("configure-fails")
    cluster.state["fails"] = {"kafka-configs.sh": "not authorized"}
    status, out, text = cluster.run(*words)
    expect(status == 2 and steps(text)[-1].startswith("kafka-configs.sh failed (Error: not authorized): "), f"a refused change: {text}")


def commands_of(page):
    """The commands of Kafka's tools in the blocks of a page, each as its words."""
    with open(os.path.join(HERE, "..", "docs", page), encoding="utf-8") as file:
        blocks = re.findall(r"^```sh\n(.*?)^```", file.read().replace("\\\n", " "), re.M | re.S)
    lines = [line for block in blocks for line in block.splitlines() if line.startswith("kafka-")]
    return [shlex.split(re.split(r"[|>]", line)[0]) for line in lines]


def page():
    """docs/EVIDENCE.md names no other words than Kafka's tools take, and the script calls nothing that the page doesn't have."""
    told = commands_of("EVIDENCE.md")
    expect(len(told) >= 14, f"the page has {len(told)} commands")
    for words in told:
        options = [it for at, it in enumerate(words) if it.startswith("--") and not it.startswith("--bootstrap") or at == 3]
        known = kafka_tools.TAKEN.get(words[0], "").split()
        expect(words[1:3] == ["--bootstrap-server", "B"] and options and set(options) <= set(known), f"Kafka has no {' '.join(words)}")
    cluster = new("page")
    cluster.state["version"] = 1
    cluster.run("--configure", "--bootstrap", "B")
    for call in cluster.calls():
        if call.split()[0] in ("kafka-features.sh", "kafka-configs.sh"):
            expect(call.split() in told, f"the page lacks {call}")
    cluster.state["version"] = 2
    status, _, text = cluster.run(*["B" if it == "b1:9092" else it for it in cluster.words()])
    for call in cluster.calls():
        if call.split()[0] in ("kafka-consumer-groups.sh", "kafka-transactions.sh", "kafka-get-offsets.sh"):
            expect(call.split() in told, f"the page lacks {call}")
    expect(status == 0, f"the page's steps: {text}")


def helping():
    done = subprocess.run(["bash", SCRIPT, "--help"], capture_output=True, text=True)
    expect(done.returncode == 0 and not done.stderr and all(len(line) <= 80 for line in done.stdout.splitlines()), f"--help: {done}")
    with open(SCRIPT, encoding="utf-8") as file:
        cases = re.findall(r"^ +((?:-[a-z-]+ \| )*-[a-z-]+)\)", file.read(), re.M)
    options = {it for case in cases for it in case.split(" | ")} - {"-h"}
    expect(options >= {"--dry-run", "--app"} and all(f"\n  {it}" in done.stdout for it in options), f"the help lacks some of {options}")
    if shutil.which("shellcheck"):
        expect(subprocess.run(["shellcheck", SCRIPT], stdout=sys.stdout).returncode == 0, "shellcheck")


def main():
    global program, scratch
    program = os.path.abspath(sys.argv[1])
    with tempfile.TemporaryDirectory() as scratch:
        for part in (good, command_config, judged_no, of_two_groups, without_applications, noted, waiting, dry, interrupted,
                     bad_words, bad_cluster, bad_copies, configuring, page, helping):
            part()
    print(f"{passed} passed, {failed} failed")
    sys.exit(1 if failed else 0)


if __name__ == "__main__":
    main()
