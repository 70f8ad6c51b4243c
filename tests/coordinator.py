#!/usr/bin/env -S python3 -B
"""What `coordinator` prints of 10,000 names, beside Java's own `hashCode`, and what it refuses.

    tests/coordinator.py PROGRAM

The names are of ASCII, of umlauts and other letters, and beyond Unicode's first plane, and some have a hash that is a limit of 32
bits. Where `javac` isn't there, a second implementation stands for Java's. Prints what is wrong, and as its last line 'N passed,
N failed'.
"""
import os
import random
import shutil
import struct
import subprocess
import sys
import tempfile

import reference

# `polygenelubricants` has the least integer for its hash, and so have the two others: "Aa" and "BB" have the same one.
LIMITS = {"polygenelubricants": -(2**31), "GydZG_": -(2**31), "DESIGNING WORKHOUSES": -(2**31), "Aa": 2112, "BB": 2112}
KNOWN = {"billing": 9, "shipping": 8, "payments": 13}
ALPHABETS = (
    [chr(c) for c in range(33, 127) if c != 45],
    list("äöüÄÖÜßéèñçøåœ"),
    [chr(c) for c in range(0x400, 0x460)] + [chr(c) for c in range(0x4E00, 0x4E80)] + ["\uffff", "\ufffd", "\ue000", "\ud7ff"],
    [chr(c) for c in (0x10000, 0x1F600, 0x1F64F, 0x1D49C, 0x20BB7, 0xFFFFF, 0x10FFFF)],
)
CONTROLS = ["\n", "\t", "\x1b[31m", "\x7f", "\u0085", "\u202e", " ", "=", "%"]
JAVA = """
import java.nio.file.*;
public class Hashes {
    public static void main(String[] words) throws Exception {
        for (String name : new String(Files.readAllBytes(Paths.get(words[0])), "UTF-8").split("\\0", -1))
            System.out.println(name.hashCode());
    }
}
"""

passed = failed = 0


def expect(holds, what):
    global passed, failed
    passed, failed = passed + bool(holds), failed + (not holds)
    if not holds:
        print(f"FAILED: {what}")


def run(*words):
    done = subprocess.run([program, "coordinator", *words], capture_output=True, timeout=120, check=False)
    return done.returncode, done.stdout.decode(), done.stderr.decode()


def names():
    rng = random.Random(53)
    found = list(LIMITS) + list(KNOWN) + CONTROLS + ["transactional-id", "a", "\x01"]
    while len(found) < 10_000:
        letters = [it for alphabet in rng.sample(ALPHABETS, rng.randint(1, 3)) for it in alphabet]
        found.append("".join(rng.choices(letters, k=rng.choice([1, 2, 3, 7, 12, 40]))))
    return found


def hash_of(name):
    """Java's hash, by the sum that its documentation gives."""
    units = struct.unpack(f">{len(name.encode('utf-16-be')) // 2}H", name.encode("utf-16-be"))
    total = sum(unit * 31 ** (len(units) - 1 - i) for i, unit in enumerate(units)) % 2**32
    return total - 2**32 if total >= 2**31 else total


def hashes_of(given, scratch):
    if not shutil.which("javac"):
        return [hash_of(name) for name in given]
    with open(os.path.join(scratch, "Hashes.java"), "w", encoding="utf-8") as file:
        file.write(JAVA)
    with open(os.path.join(scratch, "names"), "wb") as file:
        file.write("\0".join(given).encode())
    subprocess.run(["javac", "-d", scratch, os.path.join(scratch, "Hashes.java")], check=True, timeout=120)
    said = subprocess.run(["java", "-cp", scratch, "Hashes", os.path.join(scratch, "names")], check=True, timeout=120, stdout=subprocess.PIPE)
    return [int(line) for line in said.stdout.split()]


def line_of(name, partition):
    return f"{reference.escaped(name.encode())} partition={partition}\n"


def printed(given, hashes):
    for words, count in (([], 50), (["--partitions", "7"], 7), (["--partitions", "1"], 1), (["--partitions", "2147483647"], 2147483647)):
        for at in range(0, len(given), 1000):
            part = list(zip(given[at:at + 1000], hashes[at:at + 1000]))
            done = run(*words, "--", *(name for name, _ in part))
            want = [line_of(name, (0 if value == -(2**31) else abs(value)) % count) for name, value in part]
            found = done[1].splitlines(keepends=True)
            wrong = [(a, b) for a, b in zip(found, want) if a != b]
            expect(done[0] == 0 and not done[2] and found == want, f"{words}, names from {at} on: {done[0]}, {done[2]}, {wrong[:3]}")


def refused():
    few = "eoscheck: coordinator takes one NAME or several\n"
    range_of = "eoscheck: coordinator --partitions takes a number from 1 to 2147483647\n"
    for words, text in (
        ([], few), (["--partitions", "3"], few), (["--partitions", "0", "billing"], range_of), (["--partitions", "2147483648", "billing"], range_of),
        (["billing", b"caf\xe9"], "error: a word of the command line is not UTF-8 text\n"),
    ):
        done = run(*words)
        expect(done == (2, "", text), f"{words}: {done}")
    for words in (["--partitions", "x", "billing"], ["--partitions", "-1", "billing"], ["--partitions"], [""], ["billing", ""], ["--no-such-word", "billing"]):
        done = run(*words)
        expect(done[:2] == (2, "") and done[2], f"{words}: {done}")
    with open("/dev/full", "w", encoding="utf-8") as full:
        done = subprocess.run([program, "coordinator", "billing"], stdout=full, stderr=subprocess.PIPE, timeout=60, check=False)
        expect((done.returncode, done.stderr.decode()) == (2, "eoscheck: cannot write -\n"), "coordinator to a full device")


def main():
    given = names()
    with tempfile.TemporaryDirectory() as scratch:
        hashes = hashes_of(given, scratch)
    expect(hashes == [hash_of(name) for name in given], "Java's hashes aren't those of its documentation")
    by_name = dict(zip(given, hashes))
    expect({name: by_name[name] for name in LIMITS} == LIMITS, f"the hashes of {list(LIMITS)}")
    expect(run(*KNOWN) == (0, "".join(f"{name} partition={at}\n" for name, at in KNOWN.items()), ""), "what is known of three names")
    printed(given, hashes)
    refused()
    print(f"{passed} passed, {failed} failed")


if __name__ == "__main__":
    program = os.path.abspath(sys.argv[1])
    main()
