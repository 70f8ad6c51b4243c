#!/usr/bin/env -S python3 -B
"""The lines of stories: the time at a row's end, each line once, at most twenty parts, and the folder's path in the last one.

    tests/story_lines.py PROGRAM

Times are those of Python's datetime, of what this file reads in the batch's bytes. Each folder is a good one whose data a client library
wrote, with one change. The last line is 'N passed, N failed'.
"""
import datetime
import os
import re
import shlex
import struct
import subprocess
import sys
import tempfile

HERE = os.path.dirname(os.path.abspath(__file__))
LAST = 253_402_300_799_999
TIMED = re.compile(r"^(.*) at (\d{4,}-\d\d-\d\dT\d\d:\d\d:\d\d\.\d{3}Z|-?\d+)$")
AT_PLACE = re.compile(r"^ (\w+) +([\w.%-]+-\d+):(\d+) byte (\d+) of segment (\d+)")
LOG_APPEND_TIME = 8


def time_text(ms):
    """A time as ISO 8601 has it, in UTC; before 1970 and past the year 9999 its number."""
    if not 0 <= ms <= LAST:
        return str(ms)
    moment = datetime.datetime(1970, 1, 1) + datetime.timedelta(milliseconds=ms)
    return moment.isoformat(timespec="milliseconds") + "Z"


def number_at(data, at):
    """A zigzag number and the byte after it."""
    number, shift = 0, 0
    while True:
        number |= (data[at] & 127) << shift
        shift, at = shift + 7, at + 1
        if data[at - 1] < 128:
            return (number >> 1) ^ -(number & 1), at


def time_at(data, byte, number):
    """When the record of this number was written, of the batch at this byte."""
    attributes, = struct.unpack_from(">h", data, byte + 21)
    base, greatest = struct.unpack_from(">qq", data, byte + 27)
    if attributes & LOG_APPEND_TIME:
        return greatest
    at = byte + 61
    for _ in range(number):
        length, at = number_at(data, at)
        at += length
    _, at = number_at(data, at)
    delta, _ = number_at(data, at + 1)
    return (base + delta + 2**63) % 2**64 - 2**63


def is_right_time(folder, line):
    """Whether a row of a place ends in its record's time, and another row in none."""
    place, timed = AT_PLACE.match(line), TIMED.match(line)
    if not place:
        return not re.search(r" at \d{4,}-\d\d-\d\dT", line)
    if not timed:
        return False
    with open(os.path.join(folder, place[2], f"{int(place[5]):020}.log"), "rb") as file:
        data = file.read()
    base, = struct.unpack_from(">q", data, int(place[4]))
    return timed[2] == time_text(time_at(data, int(place[4]), int(place[3]) - base))


def without_time(line):
    timed = TIMED.match(line)
    return timed[1] if timed and AT_PLACE.match(line) else line


# ---- folders

# The first and the last millisecond of a form, leap days, ends of years and months, and times of no form.
TIMES = [0, 1, 999, 86_399_999, 86_400_000, 951_782_399_999, 951_782_400_000, 951_868_800_000, 1_709_164_800_000, 4_107_542_399_999, 4_107_542_400_000,
         1_772_323_199_999, 1_735_689_599_999, 1_795_342_503_120, 13_569_465_600_000, LAST - 86_400_000, LAST, LAST + 1, -1, -2**63, 2**63 - 1]


def with_times(sealed, base, greatest, append):
    """Of each batch its base timestamp, its greatest and whether the broker set it."""
    def made(folder):
        for log in folder.logs.values():
            for piece in log:
                text = bytearray(piece.text)
                struct.pack_into(">qq", text, 27, base, greatest)
                attributes, = struct.unpack_from(">h", text, 21)
                struct.pack_into(">h", text, 21, attributes | LOG_APPEND_TIME if append else attributes & ~LOG_APPEND_TIME)
                piece.text = sealed(bytes(text))
    return made


def story(program, folder):
    done = subprocess.run([program, "explain", folder], capture_output=True, text=True, timeout=100, check=False)
    return done.stdout.splitlines()


def main():
    from cluster_causes import COMPLETE_COMMIT, EMPTY, ONGOING, PREPARE_COMMIT, add_steps
    from random_evidence import Folder, sealed
    from what_you_see import GOOD, by_the_consumer, only_one_without

    program = os.path.abspath(sys.argv[1])
    passed, wrong = 0, []

    def expect(holds, why):
        nonlocal passed
        passed += bool(holds)
        if not holds:
            wrong.append(why)

    def told(name, *changes, after=lambda name, lines, path: None):
        with tempfile.TemporaryDirectory() as scratch:
            folder, path = Folder(GOOD), os.path.join(scratch, name)
            for change in changes:
                change(folder)
            folder.write(path)
            lines = story(program, path)
            rows = [line for line in lines[1:] if line.startswith(" ")]
            expect(lines and lines[0].startswith("no "), f"{name}: {lines[:1]}")
            expect(len(lines) <= 40, f"{name}: {len(lines)} lines")
            expect(len(set(rows)) == len(rows), f"{name}: a row stands twice: {rows}")
            for line in rows:
                expect(is_right_time(path, line), f"{name}: {line}")
            after(name, lines, path)
            return lines

    def runs_its_command(name, lines, path):
        command = re.fullmatch(r"Run: eoscheck (dump .*)", lines[-1]) if lines else None
        expect(command, f"{name!r}: {lines[-1:]}")
        if command and ("'" in name or "\n" in name):
            expect(" FOLDER/" in command[1], f"{name!r}: {command[0]}")
        elif command:
            expect(shlex.split(command[1])[-1].startswith((path + "/", "FOLDER/")), f"{name!r}: {command[0]}")
            words = f'"$0" {command[1].replace("FOLDER", shlex.quote(path))}'
            done = subprocess.run(["sh", "-c", words, program], capture_output=True, text=True, timeout=100, check=False)
            expect(done.returncode == 0 and "record offset=" in done.stdout, f"{name!r}: {command[0]}: {done.stderr}")

    for time in TIMES:
        lines = told(f"time {time}", by_the_consumer, only_one_without, with_times(sealed, time, 7, False))
        expect(any(line.endswith(f" at {time_text(time)}") for line in lines), f"{time}: no row at {time_text(time)}")
        told(f"appended {time}", by_the_consumer, with_times(sealed, 7, time, True))
    for count in 19, 20, 21, 45:
        names = [f"far-{i}" for i in range(count)]
        steps = [(EMPTY, 0, []), (ONGOING, 0, names), (PREPARE_COMMIT, 1, names), (COMPLETE_COMMIT, 1, [])]
        lines = told(f"listed {count}", lambda folder: add_steps(folder, steps))
        decided = [line for line in lines if line.startswith(" decided ")]
        expect(len(decided) == 1 and decided[0].count("far-") == min(count, 20), f"{count} listed: {decided}")
        expect(len(decided) == 1 and (f",.. and {count - 20} more at " in decided[0].replace(" ..", ",..")) == (count > 20), f"{count} listed: {decided}")
    for name in "plain", "with space", "it's", "$HOME", "a;b", "ümlaut", "new\nline":
        told(name, by_the_consumer, after=runs_its_command)
    for why in wrong:
        print(f"FAILED: {why}")
    print(f"{passed} passed, {len(wrong)} failed")
    return bool(wrong)


if __name__ == "__main__":
    sys.exit(main())
