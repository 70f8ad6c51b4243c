"""Proves crates side by side: as many as there are processors and memory, each once those below it are proved, and first
those with the longest chain of others above them. What earlier runs kept is used again.
"""
import copy
import os
import re
import sys
import tempfile
import threading
import time
from concurrent.futures import FIRST_COMPLETED, ThreadPoolExecutor, wait

from kit import TOP, rt, rtlib

# Where a crate has no line in the table, its seconds are guessed by its lines.
SECONDS_OF_A_LINE = 0.2

# What part of the memory that the kit plans on a proof takes at most, as seen: 3.7 GB of 6.9.
TAKEN = 0.6

# How many processors the proof gets on which the longest chain of others waits. Two shorten a proof by a third or more, and
# cost a tenth more of the processors; what more would gain is less than what it takes from the others.
JOBS_OF_THE_CHAIN = 2


def expected():
    """Of each crate the seconds of processor that its proof took when the table was last written."""
    try:
        with open(f"{TOP}/.ci/minutes.txt", encoding="utf-8") as file:
            rows = re.findall(r"^(\w+) +([0-9.]+)", file.read(), re.M)
    except OSError:
        rows = []
    return {name: 60 * float(minutes) for name, minutes in rows}


class Progress:
    """Says on standard error which crates are done, and what time is left by the table and by the pace so far."""

    def __init__(self, crates):
        table = expected()
        self.cost = {it.name: table.get(it.name, SECONDS_OF_A_LINE * it.count(rb"\n")) for it in crates}
        self.below = {it.name: [dep.name for dep in it.below()] for it in crates}
        self.left, self.done, self.start = {it.name for it in crates}, 0.0, time.time()
        self.lock = threading.Lock()

    def seconds_left(self):
        """At least the longest chain of crates that are left, and what all processors need for the sum."""
        behind = {}
        for name in sorted(self.left, key=lambda it: len(self.below[it])):
            below = [behind[it] for it in self.below[name] if it in behind]
            behind[name] = self.cost[name] + max(below, default=0)
        whole = sum(self.cost[it] for it in self.left)
        # A chain's crates get the processors that no other waits for, which halves their time.
        return max(max(behind.values(), default=0) / 2, whole / rt.processors())

    def say(self, text, name=None):
        with self.lock:
            if name:
                self.left.discard(name)
            left = self.seconds_left()
            number, whole = len(self.cost) - len(self.left), len(self.cost)
            minutes = f"; about {max(1, round(left / 60))} min left" if self.left else ""
            print(f"[{number} of {whole}] {text}{minutes}", file=sys.stderr, flush=True)


def prove(crates, work=None):
    """Proves these crates, and returns the names of those that are not proved. `work(crate, flags)` gives the status of one,
    None where its proof stands as it is; without it each is built as a library.
    """
    work = work or (lambda crate, flags: crate.build_rlib(flags, anew=False))
    progress = Progress(crates)

    def task(crate, given, jobs):
        lacking = [it.name for it in crate.below() if not given.get((it.name, "proof"), True)]
        if lacking:
            progress.say(f"{crate.name}: not tried, since {lacking[0]} isn't proved", crate.name)
            return False
        start, crate = time.time(), copy.copy(crate)
        os.makedirs(f"{crate.folder}/out", exist_ok=True)
        with tempfile.TemporaryFile("a+", errors="replace") as crate.out:
            status = work(crate, ["--jobs", str(jobs)])
            if status:
                crate.out.seek(0)
                print(f"== {crate.name}\n{crate.out.read()}", file=sys.stderr, flush=True)
        took = time.time() - start
        ended = "stands as it is" if status is None else f"{'NOT PROVED' if status else 'proved'} in {took:.0f} s"
        progress.say(f"{crate.name}: {ended}", crate.name)
        return not status

    names = {it.name for it in crates}
    tasks = {}
    for crate in crates:
        waits = [(it.name, "proof") for it in crate.below() if it.name in names]
        call = lambda given, jobs, it=crate: task(it, given, jobs)
        tasks[crate.name, "proof"] = (waits, progress.cost[crate.name], TAKEN * rt.need(crate), call)
    progress.say(f"proving {len(crates)} crates on {rt.processors()} processors")
    given = in_lanes(tasks)
    return [it.name for it in crates if not given[it.name, "proof"]]


def in_lanes(tasks):
    """Runs tasks side by side, each once those that it waits for have ended, and returns what each gave. A task is what it waits
    for, its cost, its memory, and a call that gets what was given and how many jobs it may use. The kit's function of this name
    gives each task one processor while others wait; here the longest chain is the shorter for two.
    """
    lanes, memory, behind = rt.processors(), 0.85 * rt.free(), dict.fromkeys(tasks, 0.0)
    for key in reversed([*tasks]):
        behind[key] += tasks[key][1]
        for it in tasks[key][0]:
            behind[it] = max(behind[it], behind[key])
    left, running, given = sorted(tasks, key=lambda it: -behind[it]), {}, {}
    with ThreadPoolExecutor(lanes) as pool:
        while left or running:
            longest = max(behind[it] for it in [*left, *(key for key, _, _ in running.values())])
            ready = [it for it in left if all(below in given for below in tasks[it][0])]
            for at, key in enumerate(ready):
                idle = lanes - sum(jobs for _, _, jobs in running.values())
                room = memory - sum(needs for _, needs, _ in running.values())
                _, _, needs, call = tasks[key]
                if idle <= 0 or running and needs > room:
                    continue
                wanted = max(idle // (len(ready) - at), JOBS_OF_THE_CHAIN if behind[key] == longest else 1)
                jobs = max(1, min(wanted, idle, 4, 1 + int((room / needs - 1) / 0.6)))
                left.remove(key)
                running[pool.submit(call, given, jobs)] = key, needs * (1 + 0.6 * (jobs - 1)), jobs
            for it in wait(running, return_when=FIRST_COMPLETED).done:
                given[running.pop(it)[0]] = it.result()
    return given


def crates_of_the_repository():
    """All crates, lowest first."""
    os.chdir(TOP)
    crates = rtlib.crates_below(TOP)
    for made in {type(it) for it in crates}:
        made.stamp = remembered(made.stamp)
    return sorted(crates, key=lambda it: len(it.below()))


def remembered(stamp):
    """A crate's stamp, remembered for a second: it asks for those of all below it, again on each path that leads to them."""
    known = {}

    def call(crate):
        at, text = known.get(crate.name, (-1.0, ""))
        if time.monotonic() > at + 1:
            text = stamp(crate)
            known[crate.name] = time.monotonic(), text
        return text

    return call


def keep(crates):
    """Keeps the crates from any other run of the kit's commands, until this one ends or what is returned is closed."""
    return rtlib.lock(crates)
