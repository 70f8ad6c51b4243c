#!/usr/bin/env -S python3 -B
"""Compiles and runs what stands in examples/, and judges what it writes.

    tests/examples.py [PROGRAM]

An application runs against a mock cluster (tests/mock_cluster.py), with orders in it. Its batches, as a broker would store
them, become a folder of evidence: with the end markers, the offsets that it committed and a transaction log by another encoder.
tests/reference.py has to say yes to it with the right counts, each shipment has to be the item that its headers say, and
PROGRAM, where it is given, has to agree. Where a client has no transactions, or no broker can be had, the headers alone are
looked at, and the application is compiled beside tests/declarations. What needs a compiler or a client that isn't here is
skipped, and says so. Prints what is wrong and what is skipped, and as its last line 'N passed, N failed'.
"""
import collections
import concurrent.futures
import json
import os
import random
import shutil
import signal
import struct
import subprocess
import sys
import tempfile
import threading

import example_polls
import made_evidence
import mock_cluster
import mutants
import plain_logs
import reference
from random_evidence import Piece

TOP = os.path.dirname(os.path.dirname(os.path.abspath(__file__)))
EXAMPLES = os.path.join(TOP, "examples")
# The last has a null value, which is an input too.
ORDERS = {0: [b"apple,pear,plum", b"fig"], 1: [b"", b"nut,,seed", b"rice", None]}
SHIPMENTS = {
    ("orders", 0, 0): [b"apple", b"pear", b"plum"],
    ("orders", 0, 1): [b"fig"],
    ("orders", 1, 0): [],
    ("orders", 1, 1): [b"nut", b"seed"],
    ("orders", 1, 2): [b"rice"],
    ("orders", 1, 3): [],
}
YES = "yes transactions=%d inputs=6 outputs=7"
DECLARATIONS = os.path.join(TOP, "tests", "declarations")
# The worked record of docs/APPLICATION.md: output 2 of the 3 of offset 4711 of orders-2.
WORKED = ("orders", 2, 4711, 2, 3)
WORKED_HEADERS = {
    "eo.topic": "6f7264657273",
    "eo.partition": "00000002",
    "eo.offset": "0000000000001267",
    "eo.output": "00000002",
    "eo.of": "00000003",
}

counts = {"passed": 0, "failed": 0, "skipped": 0}
lock = threading.Lock()


def tell(what, said=None):
    with lock:
        counts[what] += 1
        if said:
            print(said, flush=True)


def expect(holds, what):
    tell(*(["passed"] if holds else ["failed", f"FAILED: {what}"]))


def skip(what, why):
    tell("skipped", f"skipped: {what}: {why}")


def run(words, seconds=60, **more):
    """The status, and all that was said; the status is None where it took too long."""
    made = subprocess.Popen(words, stdout=subprocess.PIPE, stderr=subprocess.STDOUT, text=True, start_new_session=True, **more)
    try:
        said = made.communicate(timeout=seconds)[0]
        return made.returncode, said
    except subprocess.TimeoutExpired:
        os.killpg(made.pid, signal.SIGKILL)
        return None, made.communicate()[0]


# ---- what an application wrote, as evidence


def text_of(records, base=0, attributes=0, producer=-1, epoch=-1):
    blank = Piece(bytes(16) + b"\2" + bytes(44))
    fields = {"base": base, "attributes": attributes, "producer": producer, "epoch": epoch, "sequence": -1}
    return blank.with_records(records).changed(**fields).text


def marker_text(base, producer, epoch):
    return text_of([(struct.pack(">hh", 0, 1), bytes(6), [])], base, 48, producer, epoch + 1)


def evidence_of(cluster, folder):
    """Writes the folder of the transactions that were committed, and tells how many: the logs of `orders` and `shipments`, and
    what a coordinator would add. The mock raises no epoch, so each transaction but the first gets the next one here."""
    logs = {f"orders-{p}": cluster.log("orders", p) for p in range(2)}
    outputs = {f"shipments-{p}": pieces_of(cluster.log("shipments", p)) for p in range(3)}
    committed = [said for at, said in enumerate(cluster.relay.committed) if said not in cluster.relay.committed[:at]]
    ((producer, epoch),) = {(it.batch.producer, it.batch.epoch) for pieces in outputs.values() for it in pieces}
    named = {(said.group, said.producer, said.epoch) for said in committed}
    expect(named == {(b"shipping", producer, epoch)}, f"the commits are of the same producer: {named}")
    rng, states, passed = random.Random(1), [(0, epoch, [])], {}
    logs.update({name: b"" for name in [*outputs, "__consumer_offsets-0"]})
    for at, said in enumerate(committed, epoch):
        passed.update(said.offsets)
        offsets = [made_evidence.commit_record(rng, said.group, f"{t}-{p}", o) for (t, p), o in sorted(said.offsets.items())]
        listed = {"__consumer_offsets-0": [Piece(text_of(offsets, 0, 16, producer, at))]}
        for name, pieces in outputs.items():
            listed[name] = [it for it in pieces if all(is_passed(record, passed) for record in it.batch.records)]
            outputs[name] = pieces[len(listed[name]) :]
        listed = {name: pieces for name, pieces in sorted(listed.items()) if pieces}
        for name, pieces in listed.items():
            logs[name] += transaction_text(pieces, length_of(logs[name]), producer, at)
        states += [(1, at, list(listed)), (2, at + 1, list(listed)), (4, at + 1, [])]
    expect(not any(outputs.values()), "each output is of a transaction that was committed")
    records = [(b"\0\0\0\3app", made_evidence.state_text(rng, status, producer, e, names), []) for status, e, names in states]
    logs["__transaction_state-0"] = text_of(records)
    write_folder(folder, logs)
    return len(committed)


def pieces_of(log):
    pieces, at = [], 0
    while at < len(log):
        size = plain_logs.read_batch(log, at)[1]
        pieces.append(Piece(log[at : at + size]))
        at += size
    return pieces


def is_passed(record, passed):
    (topic, partition, offset), _, _ = plain_logs.claim_of(record.headers)
    return offset < passed.get((topic.decode(), partition), 0)


def transaction_text(pieces, base, producer, epoch):
    """The batches of a transaction in one partition, with its sequences from 0 on, and its end marker."""
    text, sequence = b"", 0
    for it in pieces:
        is_data = it.batch.sequence >= 0
        text += it.changed(base=base, producer=producer, epoch=epoch, sequence=sequence if is_data else -1).text
        base, sequence = base + it.batch.count, sequence + it.batch.count
    return text + marker_text(base, producer, epoch)


def write_folder(folder, logs):
    for name, log in logs.items():
        os.makedirs(os.path.join(folder, name))
        with open(os.path.join(folder, name, f"{0:020}.log"), "wb") as file:
            file.write(log)
    ends = {name: length_of(log) for name, log in logs.items()}
    with open(os.path.join(folder, "evidence.json"), "w", encoding="utf-8") as file:
        json.dump({"version": 1, "group": "shipping", "sources": ["orders"], "outputs": ["shipments"], "ends": ends}, file)


def batches_of(log):
    at = 0
    while at < len(log):
        batch, size = plain_logs.read_batch(log, at)
        yield batch
        at += size


def length_of(log):
    return sum(batch.count for batch in batches_of(log))


def shipped(folder):
    """For each order the values of its shipments by their numbers, as their headers say."""
    found = collections.defaultdict(list)
    for part in plain_logs.read_folder(folder)[1]:
        for _, _, record in plain_logs.records_of(part, True) if part.name[0] == b"shipments" else []:
            (topic, partition, offset), output, of = plain_logs.claim_of(record.headers)
            found[topic.decode(), partition, offset].append((output, of, record.value))
    return {source: sorted(values) for source, values in found.items()}


def judge(name, cluster, folder, program):
    yes = YES % evidence_of(cluster, folder)
    said = reference.verdict(folder)
    expect(said == yes, f"{name}: the second program says '{said}'")
    wanted = {s: [(n, len(v), x) for n, x in enumerate(v, 1)] or [(0, 0, b"")] for s, v in SHIPMENTS.items()}
    expect(shipped(folder) == wanted, f"{name}: other shipments than the orders ask for")
    if program:
        status, line = run([program, "check", folder])
        expect((status, line) == (0, yes + "\n"), f"{name}: check says '{line}'")
        for n in range(3):
            path = os.path.join(folder, f"shipments-{n}", f"{0:020}.log")
            with open(path, "rb") as file:
                listing = "\n".join(mutants.read(file.read())) + "\n"
            expect(run([program, "dump", path]) == (0, listing), f"{name}: dump of shipments-{n} differs")


def new_cluster(lib):
    cluster = mock_cluster.Cluster(lib, {"orders": 2, "shipments": 3})
    for partition, orders in ORDERS.items():
        for n, order in enumerate(orders):
            cluster.feed("orders", partition, b"order-%d" % n, order)
    cluster.flush()
    return cluster


def try_application(name, words, lib, scratch, program, **more):
    """Runs an application, which is started with the words and three more, on a cluster of its own."""
    cluster = new_cluster(lib)
    status, said = run([*words, cluster.address, "app-0", str(len(SHIPMENTS))], 180, **more)
    expect(status == 0, f"{name} ends in {status}: {said[-2000:]}")
    if status == 0:
        judge(name, cluster, os.path.join(scratch, name), program)


def try_headers(name, words, lib, **more):
    """Runs a program that sends one record with the worked headers, and looks at it."""
    cluster = new_cluster(lib)
    status, said = run([*words, cluster.address], **more)
    found = [r.headers for p in range(3) for b in batches_of(cluster.log("shipments", p)) for r in b.records]
    wanted = [(key.encode(), bytes.fromhex(value)) for key, value in WORKED_HEADERS.items()]
    expect(found == [wanted], f"{name} sends {found}, ends in {status}: {said[-2000:]}")


# ---- the languages


def python_with(module):
    for python in dict.fromkeys([sys.executable, "/usr/bin/python3"]):
        if shutil.which(python) and run([python, "-c", f"import {module}"])[0] == 0:
            return python
    return None


def try_python(lib, scratch, program):
    sys.path.insert(0, os.path.join(EXAMPLES, "python"))
    from claim import claim

    made = {key: value.hex() for key, value in claim(*WORKED)}
    expect(made == WORKED_HEADERS, f"python: the worked headers are {made}")
    example_polls.try_polls(os.path.join(EXAMPLES, "python", "application.py"), expect)
    python = lib and python_with("confluent_kafka")
    if python:
        path = os.path.join(EXAMPLES, "python", "application.py")
        try_application("python", [python, "-B", path], lib, scratch, program)
    else:
        skip("python, the application", "no librdkafka, or no confluent_kafka for Python (python3-confluent-kafka)")


SEND_KAFKA_PYTHON = """
import sys
sys.path.insert(0, sys.argv[1])
from claim import claim
from kafka import KafkaProducer
producer = KafkaProducer(bootstrap_servers=sys.argv[2], api_version=(2, 0), retries=3)
producer.send("shipments", key=b"k", value=b"v", headers=claim(*%r)).get(20)
producer.close()
"""


def try_kafka_python(lib, scratch, program):
    python = lib and python_with("kafka")
    if python:
        words = [python, "-B", "-c", SEND_KAFKA_PYTHON % (WORKED,), os.path.join(EXAMPLES, "python")]
        try_headers("kafka-python", words, lib)
    else:
        skip("kafka-python, the headers", "no librdkafka, or no kafka for Python (python3-kafka)")


def try_c(lib, scratch, program):
    source, built = os.path.join(EXAMPLES, "c", "application.c"), os.path.join(scratch, "application")
    if not lib or not shutil.which("cc") or not os.path.exists("/usr/include/librdkafka/rdkafka.h"):
        skip("c", "no C compiler, or no librdkafka (librdkafka-dev)")
        return
    status, said = run(["cc", "-std=gnu11", "-O1", "-Wall", "-Wextra", "-Werror", "-o", built, source, "-lrdkafka"])
    expect(status == 0, f"c: not compiled: {said}")
    if status == 0:
        try_application("c", [built], lib, scratch, program)


PRINT_JAVA = """
final class Print {
  public static void main(String[] words) {
    Claim.of("%s", %d, %dL, %d, %d).forEach((key, value) -> System.out.println(key + "=" + java.util.HexFormat.of().formatHex(value)));
  }
}
"""


def try_java(lib, scratch, program):
    """The headers alone, and the application where EOSCHECK_KAFKA_CLIENTS names the jar of kafka-clients (and what it needs,
    as a class path)."""
    if not shutil.which("javac"):
        skip("java", "no Java compiler (default-jdk)")
        return
    folder, classes = os.path.join(EXAMPLES, "java"), os.path.join(scratch, "classes")
    with open(os.path.join(scratch, "Print.java"), "w", encoding="utf-8") as file:
        file.write(PRINT_JAVA % WORKED)
    status, said = run(["javac", "-Xlint:all", "-Werror", "-d", classes, f"{folder}/Claim.java", f"{scratch}/Print.java"])
    expect(status == 0, f"java: not compiled: {said}")
    said = run(["java", "-cp", classes, "Print"])[1]
    made = dict(line.split("=") for line in said.split())
    expect(made == WORKED_HEADERS, f"java: the worked headers are {said}")
    clients = os.environ.get("EOSCHECK_KAFKA_CLIENTS") or declared_java(scratch)
    path = f"{classes}:{clients}"
    words = ["javac", "-Xlint:all,-path", "-Werror", "-d", classes, "-cp", path]
    status, said = run([*words, f"{folder}/Claim.java", f"{folder}/Application.java"])
    expect(status == 0, f"java: the application is not compiled: {said}")
    if not lib or "EOSCHECK_KAFKA_CLIENTS" not in os.environ:
        skip("java, a run of the application", "no librdkafka, or EOSCHECK_KAFKA_CLIENTS names no kafka-clients (Debian has none)")
    elif status == 0:
        try_application("java", ["java", "-cp", path, "Application"], lib, scratch, program)


def declared_java(scratch):
    """A class path of the declarations."""
    sources, classes = os.path.join(scratch, "declared"), os.path.join(scratch, "declared-classes")
    _, *files = read(os.path.join(DECLARATIONS, "kafka-clients.txt")).decode().split("\n== ")
    for file in files:
        name, text = file.split("\n", 1)
        os.makedirs(os.path.join(sources, os.path.dirname(name)), exist_ok=True)
        with open(os.path.join(sources, name), "w", encoding="utf-8") as opened:
            opened.write(text)
    status, said = run(["javac", "-d", classes, *(os.path.join(sources, file.split("\n", 1)[0]) for file in files)])
    expect(status == 0, f"java: the declarations are not compiled: {said}")
    return classes


SEND_GO = """package main

import (
	"log"
	"os"

	"github.com/confluentinc/confluent-kafka-go/kafka"
)

func main() {
	producer, err := kafka.NewProducer(&kafka.ConfigMap{"bootstrap.servers": os.Args[1]})
	if err != nil {
		log.Fatal(err)
	}
	topic, done := "shipments", make(chan kafka.Event, 1)
	place := kafka.TopicPartition{Topic: &topic, Partition: 0}
	message := kafka.Message{TopicPartition: place, Value: []byte("v"), Headers: claim("%s", %d, %d, %d, %d)}
	if err := producer.Produce(&message, done); err != nil {
		log.Fatal(err)
	}
	<-done
}
"""


def try_go(lib, scratch, program):
    """The headers by Debian's client, which has no transactions, and the application where the client has them."""
    if shutil.which("go"):
        vet_go(scratch, "go", "github.com/confluentinc/confluent-kafka-go/kafka", "kafka.go")
    env = {**os.environ, "GO111MODULE": "off", "GOPATH": os.environ.get("GOPATH", scratch) + ":/usr/share/gocode"}
    client = shutil.which("go") and run(["go", "list", "-f", "{{.Dir}}", "github.com/confluentinc/confluent-kafka-go/kafka"], env=env)
    if not lib or not client or client[0] != 0:
        skip("go", "no Go, or no client (golang-github-confluentinc-confluent-kafka-go-dev)")
        return
    folder, source = os.path.join(scratch, "go-headers"), os.path.join(EXAMPLES, "go")
    os.mkdir(folder)
    shutil.copy(os.path.join(source, "claim.go"), folder)
    with open(os.path.join(folder, "main.go"), "w", encoding="utf-8") as file:
        file.write(SEND_GO % WORKED)
    status, said = run(["go", "build", "-o", "send", "."], 300, cwd=folder, env=env)
    expect(status == 0, f"go: not compiled: {said}")
    if status == 0:
        try_headers("go", [os.path.join(folder, "send")], lib)
    if b") BeginTransaction(" not in read(os.path.join(client[1].strip(), "producer.go")):
        skip("go, a run of the application", "the client that is here has no transactions (1.4 or later has)")
        return
    status, said = run(["go", "build", "-o", f"{scratch}/go-application", "."], 300, cwd=source, env=env)
    expect(status == 0, f"go: the application is not compiled: {said}")
    if status == 0:
        try_application("go", [f"{scratch}/go-application"], lib, scratch, program)


PRINT_GO = """package main

import "fmt"

func main() {
	for _, header := range claim("%s", %d, %d, %d, %d) {
		fmt.Printf("%%s=%%x\\n", header.Key, header.Value)
	}
}
"""


def try_franz_go(lib, scratch, program):
    """The example beside declarations, and its headers."""
    if not shutil.which("go"):
        skip("franz-go", "no Go (golang-go)")
        return
    env = vet_go(scratch, "franz-go", "github.com/twmb/franz-go/pkg/kgo", "kgo.go")
    folder = os.path.join(scratch, "franz-go-headers")
    os.mkdir(folder)
    shutil.copy(os.path.join(EXAMPLES, "franz-go", "claim.go"), folder)
    with open(os.path.join(folder, "main.go"), "w", encoding="utf-8") as file:
        file.write(PRINT_GO % WORKED)
    status, said = run(["go", "run", "."], 300, cwd=folder, env=env)
    made = dict(line.split("=") for line in said.split() if "=" in line)
    expect(status == 0 and made == WORKED_HEADERS, f"franz-go: the worked headers are {said}")
    skip("franz-go, a run of the application", "its module isn't fetched by a test")


def vet_go(scratch, name, package, declared):
    """Compiles and vets an example beside the declarations of its client, and tells the environment in which that is done."""
    folder = os.path.join(scratch, f"{name}-declared")
    os.makedirs(os.path.join(folder, "src", package))
    shutil.copy(os.path.join(DECLARATIONS, declared), os.path.join(folder, "src", package))
    env = {**os.environ, "GO111MODULE": "off", "GOPATH": folder, "GOFLAGS": ""}
    for words in (["go", "build", "-o", os.path.join(folder, "built"), "."], ["go", "vet", "."]):
        status, said = run(words, 300, cwd=os.path.join(EXAMPLES, name), env=env)
        expect(status == 0, f"{name}: {words[1]} beside declarations: {said}")
    status, said = run(["gofmt", "-l", ".", DECLARATIONS], cwd=os.path.join(EXAMPLES, name), env=env)
    expect((status, said) == (0, ""), f"{name}: gofmt would change {said}")
    return env


def read(path):
    with open(path, "rb") as file:
        return file.read()


def main():
    program = os.path.abspath(sys.argv[1]) if len(sys.argv) > 1 else None
    lib = mock_cluster.load()
    with tempfile.TemporaryDirectory() as scratch:
        with concurrent.futures.ThreadPoolExecutor() as pool:
            tried = [pool.submit(try_it, lib, scratch, program) for try_it in (try_c, try_python, try_kafka_python, try_java, try_go, try_franz_go)]
        for one in tried:
            one.result()
    text = read(os.path.join(TOP, "docs", "APPLICATION.md")).decode()
    expect(all(value in text for value in WORKED_HEADERS.values()), "docs/APPLICATION.md has other worked headers")
    print(f"{counts['passed']} passed, {counts['failed']} failed", flush=True)
    os._exit(1 if counts["failed"] else 0)  # the mock clusters' threads go on


if __name__ == "__main__":
    main()
