#!/usr/bin/env -S python3 -B
"""Stands in for Kafka's tools: prints what those of Kafka 4 print, from memory, of the cluster that a file describes.

    NAME.sh WORDS ..    NAME is the tool's name, by which this file is linked

STAND_IN names a folder: `cluster.json` is the cluster, and to `calls` each call is added, a line of its words. Words that the tool of
that name doesn't have are refused, so that a script can't call what there isn't.

The members of the cluster: `version` of transactions; `topics`, each with its partitions (`leader`, `replicas`, `isr`, `end`, and
`after`, the end from the second time on that ends are asked) and its settings; `groups` and `transactions` by their state; `fails`,
tools that fail, with what they say; `rests`, how often groups are asked until all are empty.
"""
import json
import os
import sys

FOLDER = os.environ.get("STAND_IN", "")
SETTINGS = {"cleanup.policy": "delete", "retention.ms": "-1", "retention.bytes": "-1", "compression.type": "producer",
            "preallocate": "false", "remote.storage.enable": "false"}

# The words that these tools of Kafka 4 take, from memory: docs/EVIDENCE.md may use no others (tests/collect.py).
TAKEN = {
    "kafka-topics.sh": "--create --delete --alter --describe --list --topic --partitions --replication-factor --config --exclude-internal "
                       "--if-exists --if-not-exists --under-replicated-partitions --unavailable-partitions",
    "kafka-features.sh": "describe upgrade downgrade disable --feature --release-version --metadata --dry-run",
    "kafka-configs.sh": "--describe --alter --all --entity-type --entity-name --add-config --delete-config",
    "kafka-consumer-groups.sh": "--describe --list --delete --reset-offsets --delete-offsets --group --all-groups --state --members --offsets",
    "kafka-transactions.sh": "list describe describe-producers find-hanging abort --transactional-id --topic --partition",
    "kafka-get-offsets.sh": "--time --topic --partitions --topic-partitions --exclude-internal-topics",
    "kafka-log-dirs.sh": "--describe --topic-list --broker-list",
}


def load():
    with open(os.path.join(FOLDER, "cluster.json"), encoding="utf-8") as file:
        return json.load(file)


def times(tool):
    """How often this tool was called before."""
    with open(os.path.join(FOLDER, "calls"), encoding="utf-8") as file:
        return sum(line.split()[0] == tool for line in file) - 1


def table(rows, form):
    for row in rows:
        print(form % row)


def topics(cluster, words):
    if words != ["--describe"]:
        return False
    for name, topic in cluster["topics"].items():
        parts = topic["partitions"]
        print(f"Topic: {name}\tTopicId: 3PmOSFt0RLK0d0RzEQbFcg\tPartitionCount: {len(parts)}\tReplicationFactor: 1\tConfigs: segment.bytes=1073741824")
        for number, part in parts.items():
            print(f"\tTopic: {name}\tPartition: {number}\tLeader: {part.get('leader', 1)}\tReplicas: {part.get('replicas', '1')}\t"
                  f"Isr: {part.get('isr', '1')}\tElr: \tLastKnownElr: ")
    return True


def features(cluster, words):
    if words == ["upgrade", "--feature", "transaction.version=2"]:
        print("transaction.version was upgraded to 2.")
        return True
    if words != ["describe"]:
        return False
    for name, most, level in (("group.version", 1, 1), ("metadata.version", "4.0-IV3", "4.0-IV3"), ("transaction.version", 2, cluster["version"])):
        print(f"Feature: {name}\tSupportedMinVersion: 0\tSupportedMaxVersion: {most}\tFinalizedVersionLevel: {level}\tEpoch: 42")
    return True


def configs(cluster, words):
    if words[:3] == ["--describe", "--all", "--entity-type"]:
        _, _, _, kind, _, name = words
        settings = {**SETTINGS, **cluster["topics"][name].get("settings", {})}
        print(f"All configs for topic {name} are:")
        for key, value in sorted(settings.items()):
            print(f"  {key}={value} sensitive=false synonyms={{DEFAULT_CONFIG:log.{key}={value}}}")
        return kind == "topics"
    wanted = ["--alter", "--entity-type", "topics", "--entity-name"]
    kept = ["--add-config", "cleanup.policy=delete,retention.ms=-1,retention.bytes=-1"]
    if words[:4] == wanted and words[5:] == kept:
        print(f"Completed updating config for topic {words[4]}.")
        return True
    return False


def groups(cluster, words):
    if words != ["--describe", "--all-groups", "--state"]:
        return False
    rests = cluster.get("rests", 0) <= times("kafka-consumer-groups.sh") + 1
    for name, state in cluster["groups"].items():
        # a busy group is empty once the cluster rests
        shown = "Empty" if rests and cluster.get("rests") else state
        count = 0 if shown == "Empty" else 1
        if not count:
            print(f"\nConsumer group '{name}' has no active members.", file=sys.stderr)
        print()
        form = f"%-{max(15, len(name))}s %-25s %-20s %-20s %s"
        table([("GROUP", "COORDINATOR (ID)", "ASSIGNMENT-STRATEGY", "STATE", "#MEMBERS")], form)
        table([(name, "b1:9092  (1)", "range" if count else "", shown, count)], form)
    return True


def transactions(cluster, words):
    if words != ["list"]:
        return False
    rows = [("TransactionalId", "Coordinator", "ProducerId", "TransactionState")]
    rows += [(name, "1", str(1001 + at), state) for at, (name, state) in enumerate(cluster["transactions"].items())]
    table(rows, "%-20s\t%-11s\t%-10s\t%-16s\t")
    return True


def offsets(cluster, words):
    if words != ["--time", "-1"]:
        return False
    member = "after" if times("kafka-get-offsets.sh") > 0 else "end"
    for name, topic in cluster["topics"].items():
        for number, part in topic["partitions"].items():
            print(f"{name}:{number}:{part.get(member, part['end'])}")
    return True


TOOLS = {
    "kafka-topics.sh": topics,
    "kafka-features.sh": features,
    "kafka-configs.sh": configs,
    "kafka-consumer-groups.sh": groups,
    "kafka-transactions.sh": transactions,
    "kafka-get-offsets.sh": offsets,
}


def main():
    tool, words = os.path.basename(sys.argv[0]), sys.argv[1:]
    with open(os.path.join(FOLDER, "calls"), "a", encoding="utf-8") as file:
        file.write(" ".join([tool, *words]) + "\n")
    cluster = load()
    if words[:1] != ["--bootstrap-server"]:
        sys.exit("no --bootstrap-server")
    words = words[2:]
    if words[:1] == ["--command-config"]:
        words = words[2:]
    said = cluster.get("fails", {}).get(tool)
    if said:
        # this tool tells an error on standard output, with status 0
        print(f"\nError: {said}" if tool == "kafka-consumer-groups.sh" else f"Error: {said}")
        sys.exit(0 if tool == "kafka-consumer-groups.sh" else 1)
    sys.exit(0 if TOOLS[tool](cluster, words) else f"{tool}: no such words: {words}")


if __name__ == "__main__":
    main()
