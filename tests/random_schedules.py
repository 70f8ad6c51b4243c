#!/usr/bin/env -S python3 -B
"""Random events in any order: a simulated cluster comes to rest, and the checker accuses none of its logs.

    tests/random_schedules.py LISTS

LISTS lists of 40 events, one for each seed from 0 on; then each open transaction is ended, and all messages are delivered. Prints
what is wrong, and as its last line 'N passed, N failed'. tests/unproved.py asks 1000.
"""
import re
import sys

from unproved import Asked, tell

SIZES = "3,2,2,2,5,1"
# Every other list is of a cluster with a second group, whose application is number 2.
CHAIN = "2,2,2,2,5,1,chain"
MESSAGES = 400
# Lists that are asked at once; some of them write an output.
EACH = 200


class Words:
    """PCG XSH RR 64/32, seeded as the generator of the scripts is."""

    def __init__(self, seed):
        self.state, self.increment = seed, 0xA17654E46FBE17F3
        state, increment = (self.seeding() | self.seeding() << 32 for _ in range(2))
        self.increment = increment | 1
        self.state = state + self.increment
        self.step()

    def step(self):
        self.state = (self.state * 0x5851F42D4C957F2D + self.increment) % 2**64

    def output(self):
        word, turn = ((self.state >> 18 ^ self.state) >> 27) % 2**32, self.state >> 59
        return (word >> turn | word << 32 - turn) % 2**32

    def seeding(self):
        self.step()
        return self.output()

    def next(self):
        word = self.output()
        self.step()
        return word


def number(words):
    """A number, small most of the time."""
    word = words.next()
    return word if word % 64 == 0 else (word >> 8) % 3


def event(words):
    choice = words.next() % 20
    if choice == 0:
        return f"feed:{number(words)}"
    if choice in (1, 2):
        return f"start:{number(words)}"
    if choice in (3, 4, 5):
        name = "bare" if words.next() % 8 == 0 else "produce"
        return f"{name}:{number(words)},{number(words)}"
    if choice == 6:
        if words.next() % 8 == 0:
            return f"delete:{number(words)},{number(words)}"
        return f"offset:{number(words)},{number(words)},{-1 if words.next() % 8 == 0 else 1}"
    if choice in (7, 8):
        session = number(words)
        return f"{'abort' if words.next() % 3 == 0 else 'commit'}:{session}"
    if choice == 9:
        return f"resume:{number(words)}"
    if choice == 10:
        return f"fetch:{number(words)},{number(words)}"
    if choice == 11:
        return f"members:{number(words)}"
    if choice == 12:
        return f"broker:{number(words)}"
    if choice == 13:
        rest = f"add:{number(words)},{words.next() % 3 - 1}", f"mark:{words.next() % 12}", f"complete:{number(words)}"
        return ("coordinator", f"time-out:{number(words)}", *rest)[words.next() % 5]
    return f"deliver:{words.next() % 12}"


def line(seed):
    words = Words(seed)
    events = [event(words) for _ in range(40)]
    events += ["start:0", "start:1", "start:2", "coordinator", f"below:{MESSAGES}"]
    told = " ".join("-" + word for word in events)
    return f"cluster {CHAIN if seed % 2 else SIZES} {told} deliver:{MESSAGES} at-rest ends verdict"


def judged(answers, first, count):
    """How many of the answers to so many lists, from this seed on, are right, and a text for each that isn't."""
    failures = [] if len(answers) == count else [f"{len(answers)} answers to {count} lists from seed {first} on"]
    with_outputs = 0
    for seed, answer in enumerate(answers[:count], first):
        found = re.fullmatch(r"Unknown true \[(.*)\] (yes|no),(\d+)\S+", answer)
        if not found or (found[2] == "no" and found[3] in "123"):
            failures.append(f"seed {seed}: {answer[:2000]}")
        elif any(int(end) for end in found[1].split(",")[-2:]):
            with_outputs += 1
    if with_outputs <= 4:
        failures.append(f"of the {count} lists from seed {first} on {with_outputs} wrote an output")
    return max(count - len(failures), 0), failures


def asked_of(first, count):
    rows = [line(seed) for seed in range(first, first + count)]
    return Asked(f"random_schedules-{first}", rows, lambda answers: judged(answers, first, count))


def all_asked(count=1000):
    seven = Words(7)
    if [seven.next() for _ in range(5)] != [2442223337, 414063806, 2743600285, 3524868804, 2371632060]:
        sys.exit("the words of seed 7 are others")
    return [asked_of(first, min(count - first, EACH)) for first in range(0, count, EACH)]


if __name__ == "__main__":
    sys.exit(tell(all_asked(int(sys.argv[1]))))
