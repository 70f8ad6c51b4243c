"""Damage to one log of a worked evidence: its output's segment cut at every length, and each of its bits flipped.

    python3 -B tests/damage.py PROGRAM

The folder is tests/evidence/row-yes-2, whose log out-0 is one segment of two batches: data at offsets 0 and 1, and an end
marker at 2; its declared end stays 3. The answers follow from the format alone, and are the same with 1 and with 4 workers:
cut to nothing the log ends at 0; cut inside a batch, that batch is truncated; cut between the two, the log ends at 2; and a
flipped bit is a batch that can't be read or a gap, but for the 32 bits of a batch's partitionLeaderEpoch, which no checksum
covers and no rule reads: where the second batch's is then the lesser, a note says so. The last line is 'N passed, N failed'.
"""
import concurrent.futures
import os
import shutil
import struct
import subprocess
import sys
import tempfile
import threading

FOLDER = "tests/evidence/row-yes-2"
SEGMENT = "out-0/00000000000000000000.log"
YES = (0, "yes transactions=1 inputs=2 outputs=3")
# A batch's first fields: base offset (8 bytes), length of the rest (4), partitionLeaderEpoch (4).
HEAD, LEADER_EPOCH = 12, range(12 * 8, 16 * 8)


def truncated(offset, byte):
    return 1, f"no 1.1 BadBatch out-0 offset={offset} segment=0 byte={byte} batch=Truncated"


def ends_at(offset):
    return 1, f"no 1.10 End out-0 offset={offset} end=3"


def note_of(text, second):
    """The note on the leader epochs of two batches, of which the second begins at this byte."""
    epochs = [struct.unpack_from(">i", text, at + HEAD)[0] for at in (0, second)]
    return "eoscheck: note: the leader epoch falls at out-0:2\n" if epochs[1] < epochs[0] else ""


def cases(text):
    """Each damaged text with a name and what its answer has to be: (status, line, notes), or None for any fault 1.1 or 1.2 of out-0."""
    first = HEAD + struct.unpack(">i", text[8:HEAD])[0]
    assert first < len(text) == first + HEAD + struct.unpack(">i", text[first + 8:first + HEAD])[0], "two batches"
    for length in range(len(text)):
        want = truncated(0, 0) if length < first else truncated(2, first)
        want = {0: ends_at(0), first: ends_at(2)}.get(length, want)
        yield f"cut to {length} bytes", text[:length], (*want, "")
    for bit in range(8 * len(text)):
        place = bit if bit < 8 * first else bit - 8 * first
        damaged = bytearray(text)
        damaged[bit // 8] ^= 0x80 >> bit % 8
        yield f"bit {bit} flipped", bytes(damaged), (*YES, note_of(damaged, first)) if place in LEADER_EPOCH else None


def is_right(status, line, notes, want):
    if want:
        return (status, line, notes) == want
    return status == 1 and line.startswith(("no 1.1 BadBatch out-0 ", "no 1.2 Gap out-0 ")) and not notes


def try_case(program, room, case):
    name, damaged, want = case
    # A folder for each thread, in which only this segment changes.
    folder = f"{room}/{threading.get_ident()}"
    if not os.path.isdir(folder):
        shutil.copytree(FOLDER, folder)
    with open(f"{folder}/{SEGMENT}", "wb") as file:
        file.write(damaged)
    wrong = []
    for workers in "14":
        ran = subprocess.run([program, "check", "--workers", workers, folder], capture_output=True, text=True, timeout=60)
        if not is_right(ran.returncode, ran.stdout.rstrip("\n"), ran.stderr, want):
            wrong.append(f"{name}, {workers} workers: status {ran.returncode}, {ran.stdout.strip()} {ran.stderr.strip()}, wanted {want}")
    return wrong


def main():
    program = os.path.abspath(sys.argv[1])
    with open(f"{FOLDER}/{SEGMENT}", "rb") as file:
        tried = list(cases(file.read()))
    with tempfile.TemporaryDirectory() as room, concurrent.futures.ThreadPoolExecutor(os.cpu_count()) as pool:
        found = pool.map(lambda it: try_case(program, room, it), tried)
        wrong = [it for lines in found for it in lines]
    print("\n".join(wrong[:5]))
    print(f"{2 * len(tried) - len(wrong)} passed, {len(wrong)} failed")
    return 1 if wrong else 0


if __name__ == "__main__":
    sys.exit(main())
