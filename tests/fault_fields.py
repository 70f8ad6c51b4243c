#!/usr/bin/env -S python3 -B
"""The fields of a fault, as `check --json` and a report have them, worked out of the line that names it.

    tests/fault_fields.py LINE

Prints the JSON line of the verdict whose line that is.
"""
import json
import re
import sys

# What stands in digits; all else is a name or a text.
NUMBERS = {"offset", "segment", "byte", "found", "end", "producer", "epoch", "output"}
NAMES = {"batch", "record", "why"}


def text_of(shown):
    """The text behind its escapes; bytes that are no UTF-8 as their digits."""
    data = re.sub(rb"%([0-9a-f]{2})", lambda m: bytes.fromhex(m[1].decode()), shown.encode())
    try:
        return data.decode()
    except UnicodeDecodeError:
        return {"hex": data.hex()}


def partition_of(shown):
    topic, number = shown.rsplit("-", 1)
    return {"topic": text_of(topic), "partition": int(number)}


def place_of(shown):
    partition, offset = shown.rsplit(":", 1)
    return {**partition_of(partition), "offset": int(offset)}


def value_of(name, shown):
    if name in ("source", "at"):
        return {name: place_of(shown)}
    if name == "partition":
        return partition_of(shown)
    if name in NUMBERS:
        return {name: int(shown)}
    return {name: shown if name in NAMES else text_of(shown)}


def fields_of(line):
    """Of `no 1.2 Gap in-0 offset=0 found=1` what stands behind `no`."""
    _, code, name, *parts = line.split(" ")
    fields = {"code": code, "name": name, "phase": int(code.split(".")[0])}
    for part in parts:
        key, is_named, shown = part.partition("=")
        fields.update(value_of(key, shown) if is_named else partition_of(part))
    return fields


def json_of(line):
    """The JSON line of the verdict whose line this is, without its end."""
    if line.startswith("yes"):
        value = {"answer": "yes", **{name: int(count) for name, count in re.findall(r"(\w+)=(\d+)", line)}}
    else:
        value = {"answer": "no", "fault": line[len("no "):], "fields": fields_of(line)}
    return json.dumps(value, sort_keys=True, separators=(",", ":"), ensure_ascii=False)


if __name__ == "__main__":
    print(json_of(sys.argv[1]))
