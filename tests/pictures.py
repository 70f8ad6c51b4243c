#!/usr/bin/env -S python3 -B
"""Whether a picture shows the cause: small folders with one mistake each, and where its marks have to stand.

    python3 -B tests/pictures.py PROGRAM

Each folder is made here, of transactions of a few producers in named partitions, with a marker lost, exchanged, doubled or of a wrong
epoch, a record of the transaction log that doesn't read, an output without headers, one that is lost or has no commit, long transactional
ids, or fifty partitions of that log. What is looked for is written by hand: which transactions are shown and in which order, in which row
and which transaction's column a mark stands, of which class it is, and what is told of it, with its time, also where that is none of a
calendar's years. Where rsvg-convert or chromium is there, the pictures are rendered, and the marks and the rings around the fault's places
looked for by their colour. Run it in the repository's top folder.
The last line is 'N passed, N failed'.
"""
import os
import random
import re
import shutil
import struct
import subprocess
import sys
import tempfile
import xml.etree.ElementTree as xml

import made_evidence
from draw import SPACE, pixels_of
from made_evidence import OFFSETS, STATES, commit_record
from random_evidence import Folder, Piece, sealed
from story_lines import TIMES, time_text, with_times

COMMIT, ABORT = 1, 0
BLUE, WHITE, GREY = (0, 0x72, 0xB2), (255, 255, 255), (0xD4, 0xD4, 0xD4)

passed = failed = 0


def same(what, found, want):
    global passed, failed
    if found == want:
        passed += 1
    else:
        failed += 1
        print(f"FAILED: {what}: {found}, not {want}")


class Always:
    """Takes the first of what there is to choose from."""

    def choice(self, those):
        return those[0]

    def randrange(self, count):
        return 0

    def random(self):
        return 0.9


class Cluster:
    """The logs of a cluster whose transactions are written one after the other."""

    def __init__(self, *names, homes=1):
        self.maker = made_evidence.Maker(random.Random(1), sealed)
        self.maker.rng = Always()
        self.homes = [f"{STATES}-{n}" for n in range(homes)]
        for held in (self.maker.logs, self.maker.lengths, self.maker.visible, self.maker.open):
            held.clear()
        for name in (*names, *self.homes):
            self.maker.logs[name], self.maker.lengths[name], self.maker.visible[name], self.maker.open[name] = [], 0, [], {}
        self.epochs, self.apps = {}, []

    def state(self, producer, epoch, status, listed=()):
        name = b"id-%d" % producer if producer not in self.ids else self.ids[producer]
        worker = {"id": name, "producer": producer, "epoch": epoch, "home": self.homes[producer % len(self.homes)]}
        self.maker.say(worker, status, listed)

    ids = {}

    def begin(self, producer, *names, listed=()):
        """A transaction writes two records into each of these partitions."""
        epoch = self.epochs.setdefault(producer, 0)
        if epoch == 0:
            self.state(producer, 0, 0)
        self.state(producer, epoch, 1, [*names, *listed])
        for name in names:
            self.maker.append(name, [(None, b"x", [])] * 2, producer, epoch, 16)

    def end(self, producer, *names, kind=COMMIT, markers=None, listed=()):
        """Its end, by these markers, each a partition, a kind and how much its epoch is raised."""
        epoch = self.epochs[producer] + 1
        self.epochs[producer] = epoch
        self.state(producer, epoch, 2 if kind == COMMIT else 3, [*names, *listed])
        for name, that, raised in [(name, kind, 1) for name in names] if markers is None else markers:
            self.maker.marker(name, producer, epoch - 1 + raised, that)
        self.state(producer, epoch, 4 if kind == COMMIT else 5)

    def whole(self, producer, *names, kind=COMMIT):
        self.begin(producer, *names)
        self.end(producer, *names, kind=kind)

    def write(self, path, change=lambda folder: None):
        folder = Folder.__new__(Folder)
        folder.manifest = {"version": 2, "apps": self.apps, "ends": dict(self.maker.lengths)}
        folder.logs = {name: [Piece(it) for it in log] or [Piece(b"", 0)] for name, log in self.maker.logs.items()}
        for log in folder.logs.values():
            log[0].name = 0
        change(folder)
        folder.write(path)

    def process(self, producer, *records, commits=()):
        """A transaction writes these records into out-0, and commits these offsets of the sources' partitions."""
        names = [name for name, some in (("out-0", records), (GROUPS, commits)) if some]
        epoch = self.epochs.setdefault(producer, 0)
        if epoch == 0:
            self.state(producer, 0, 0)
        self.state(producer, epoch, 1, names)
        if records:
            self.maker.append("out-0", list(records), producer, epoch, 16)
        if commits:
            self.maker.append(GROUPS, [commit_record(self.maker.rng, b"g", *it) for it in commits], producer, epoch, 16)
        self.end(producer, *names)


# ---- the folders, and what their pictures have to show: the place's row, the producer id and epoch of the column, the class, what is told


def lost(cluster):
    """The marker of 7's first transaction is lost in out-0, and 8 goes on there; then 7 does."""
    cluster.begin(7, "out-0", "out-1")
    cluster.end(7, "out-0", "out-1", markers=[("out-1", COMMIT, 1)])
    cluster.whole(8, "out-0")
    cluster.whole(7, "out-0")


def lost_last(cluster):
    cluster.whole(8, "out-0")
    cluster.begin(7, "out-0")
    cluster.end(7, "out-0", markers=[])


def lost_without_data(cluster):
    """Partition out-1 is listed, holds no data of the transaction, and lacks its marker."""
    cluster.whole(8, "out-0", "out-1")
    cluster.begin(7, "out-0", listed=["out-1"])
    cluster.end(7, "out-0", listed=["out-1"])


def lost_second(cluster):
    """The same of a second transaction of the producer: its epoch is the first one's markers', which doesn't list out-1."""
    cluster.whole(7, "out-0")
    cluster.begin(7, "out-0", listed=["out-1"])
    cluster.end(7, "out-0", listed=["out-1"])


def exchanged(cluster):
    """7 was to commit and 8 to abort; each has the other's kind of marker in out-0."""
    cluster.begin(7, "out-0")
    cluster.begin(8, "out-0")
    cluster.end(7, "out-0", markers=[("out-0", ABORT, 1)])
    cluster.end(8, "out-0", kind=ABORT, markers=[("out-0", COMMIT, 1)])


def doubled(cluster):
    cluster.begin(7, "out-0")
    cluster.begin(8, "out-0")
    cluster.end(7, "out-0", markers=[("out-0", COMMIT, 1)] * 3)
    cluster.end(8, "out-0")


def both_kinds(cluster):
    """After 7's COMMIT, and while 8 is open, an ABORT of 7's epoch."""
    cluster.begin(7, "out-0")
    cluster.end(7, "out-0")
    cluster.begin(8, "out-0")
    cluster.maker.marker("out-0", 7, 1, ABORT)
    cluster.end(8, "out-0")


def not_raised(cluster):
    """7's marker has the epoch of its data, behind data of 8."""
    cluster.begin(7, "out-0")
    cluster.begin(8, "out-0")
    cluster.end(7, "out-0", markers=[("out-0", COMMIT, 0)])
    cluster.end(8, "out-0")


def stray(cluster):
    """A marker of 7 in a partition that its transaction doesn't list."""
    cluster.whole(8, "out-1")
    cluster.begin(7, "out-0")
    cluster.end(7, "out-0", markers=[("out-0", COMMIT, 1), ("out-1", COMMIT, 1)])


def bad_state(cluster):
    cluster.whole(7, "out-0")
    cluster.maker.append(cluster.homes[0], [(b"\0\0\0\1x", b"\0\x09", [])])
    cluster.whole(8, "out-0")


def long_ids(cluster):
    cluster.ids = {n: b"payments-service-of-the-first-region-%d" % n for n in (7, 8)}
    cluster.whole(7, "out-0")
    cluster.whole(8, "out-0")
    cluster.begin(9, "out-0")
    cluster.end(9, "out-0", markers=[])


def many_homes(cluster):
    """Sixty producers of fifty partitions of the transaction log; the last of them loses its marker in out-0."""
    for producer in range(100, 160):
        cluster.begin(producer, "out-0" if producer % 10 == 9 else "out-1")
        cluster.end(producer, "out-0" if producer % 10 == 9 else "out-1", markers=[] if producer == 159 else None)


def take_turns(cluster):
    """7 and 8, of two partitions of the transaction log, take turns in out-0; 9 is between them there, and writes to out-1."""
    for _ in range(4):
        cluster.whole(7, "out-0")
        cluster.whole(9, "out-1")
        cluster.whole(8, "out-0")
    cluster.begin(8, "out-0")
    cluster.end(8, "out-0", markers=[])


def bad_state_of_many(cluster):
    """Of sixty producers two are of that partition of the transaction log of which a record doesn't read."""
    for producer in range(100, 160):
        cluster.whole(producer, "out-0")
    cluster.maker.append(cluster.homes[9], [(b"\0\0\0\1x", b"\0\x09", [])])


GROUPS = OFFSETS + "-0"


def output_of(source, offset):
    topic, number = source.split("-")
    headers = [(b"eo.topic", topic.encode()), (b"eo.partition", struct.pack(">i", int(number))), (b"eo.offset", struct.pack(">q", offset))]
    return None, b"out", headers + [(b"eo.output", struct.pack(">i", 1)), (b"eo.of", struct.pack(">i", 1))]


def in_turns(cluster, odd):
    """An application of three producers works on thirty inputs in turns; what is odd comes in place of the twenty-first, or beside it."""
    cluster.apps = [{"group": "g", "sources": ["in"], "outputs": ["out"]}]
    cluster.maker.append("in-0", [(None, b"x", [])] * 30)
    cluster.maker.append("in-1", [(None, b"x", [])])
    for n in range(30):
        if n == 20:
            odd(7 + n % 3, n)
        else:
            cluster.process(7 + n % 3, output_of("in-0", n), commits=[("in-0", n + 1)])


def lost_output(cluster):
    in_turns(cluster, lambda producer, n: cluster.process(producer, commits=[("in-0", n + 1)]))


def lost_commit(cluster):
    """Its transaction works on an input of in-1 too, and commits nothing of that."""
    in_turns(cluster, lambda producer, n: cluster.process(producer, output_of("in-0", n), output_of("in-1", 0), commits=[("in-0", n + 1)]))


def without_headers(cluster):
    in_turns(cluster, lambda producer, n: cluster.process(producer, output_of("in-0", n), (None, b"out", []), commits=[("in-0", n + 1)]))


def deleted_offset(cluster):
    """The transaction deletes the group's offset, by a record without a value, after it committed it."""
    key = commit_record(cluster.maker.rng, b"g", "in-0", 0)[0]

    def odd(producer, n):
        cluster.begin(producer, "out-1")
        cluster.maker.append("out-0", [output_of("in-0", n)], producer, n // 3, 16)
        cluster.maker.append(GROUPS, [commit_record(cluster.maker.rng, b"g", "in-0", n + 1), (key, None, [])], producer, n // 3, 16)
        cluster.state(producer, n // 3, 1, ["out-1", "out-0", GROUPS])
        cluster.end(producer, "out-1", "out-0", GROUPS)

    in_turns(cluster, odd)


CASES = {
    "lost": (lost, "no 1.6 EpochWhileOpen out-0 offset=5 producer=7", [
        ("out-0", "7/0", "missing", "missing: the end marker COMMIT"), ("out-0", "7/0", "open", "out-0:0 data record, open: its own"),
        ("out-0", "7/0", "open", "out-0:1 data record, open: its own"), ("out-1", "7/0", "commit-marker", "end marker COMMIT"),
        ("out-0", "8/0", "commit-marker", "end marker COMMIT"), ("out-0", "7/1", "committed", "a place of the fault")]),
    "lost_last": (lost_last, "no 1.11 OpenAtEnd out-0 offset=5 producer=7", [
        ("out-0", "7/0", "missing", "missing: the end marker COMMIT"), ("out-0", "7/0", "missing", "a place of the fault"),
        ("out-0", "7/0", "open", "out-0:3 data record, open: no end marker follows")]),
    "lost_without_data": (lost_without_data, "no 3.7 MissingMarker producer=7 epoch=0 partition=out-1", [
        ("out-1", "7/0", "missing", "a place of the fault"), ("out-0", "7/0", "committed", "data record, committed")]),
    "lost_second": (lost_second, "no 3.7 MissingMarker producer=7 epoch=1 partition=out-1", [
        ("out-1", "7/1", "missing", "a place of the fault"), (STATES + "-0", "7/1", "committed", "a place of the fault")]),
    "exchanged": (exchanged, "no 3.3 WrongKind producer=7 epoch=0 partition=out-0", [
        ("out-0", "7/0", "abort-marker", "a place of the fault"), ("out-0", "8/0", "commit-marker", "end marker COMMIT")]),
    "doubled": (doubled, "yes transactions=2 inputs=0 outputs=0", [
        ("out-0", "7/0", "commit-marker", "end marker COMMIT, 3 times"), ("out-0", "8/0", "commit-marker", "end marker COMMIT, pid 8")]),
    "both_kinds": (both_kinds, "no 1.9 MarkerKind out-0 offset=5 producer=7", [
        ("out-0", "7/0", "abort-marker", "out-0:5 end marker ABORT"), ("out-0", "7/0", "abort-marker", "a place of the fault"),
        ("out-0", "7/0", "commit-marker", "end marker COMMIT"), ("out-0", "8/0", "committed", "out-0:3 data record, committed")]),
    "not_raised": (not_raised, "no 1.7 NoBump out-0 offset=4 producer=7", [
        ("out-0", "7/0", "commit-marker", "out-0:4 end marker COMMIT"), ("out-0", "7/0", "commit-marker", "a place of the fault"),
        ("out-0", "8/0", "commit-marker", "end marker COMMIT")]),
    "stray": (stray, "no 3.5 StrayMarker producer=7 epoch=1 partition=out-1", [("out-1", "7/0", "commit-marker", "a place of the fault")]),
    "bad_state": (bad_state, "no 2.1 BadRecord", [(STATES + "-0", "none", "page", "a place of the fault")]),
    "long_ids": (long_ids, "no 1.11 OpenAtEnd", [("out-0", "9/0", "missing", "a place of the fault")]),
    "many_homes": (many_homes, "no 1.11 OpenAtEnd out-0 offset=17 producer=159", [("out-0", "159/0", "missing", "a place of the fault")]),
    "take_turns": (take_turns, "no 1.11 OpenAtEnd out-0 offset=26 producer=8", [("out-0", "8/4", "missing", "a place of the fault")]),
    "bad_state_of_many": (bad_state_of_many, "no 2.1 BadRecord __transaction_state-9 offset=8", [
        (STATES + "-9", "none", "page", "a place of the fault")]),
    "without_headers": (without_headers, "no 4.1 BadLineage out-0 offset=41", [
        ("out-0", "9/6", "committed", "out-0:41 data record, committed, pid 9 epoch 6"), ("out-0", "9/6", "committed", "a place of the fault")]),
    "deleted_offset": (deleted_offset, "no 4.4 OffsetDeleted __consumer_offsets-0 offset=41", [
        (GROUPS, "9/6", "committed", "a place of the fault")]),
    "lost_output": (lost_output, "no 5.11 Missing source=in-0:20 output=1", [
        (GROUPS, "9/6", "committed", "commit of in-0 at 21, committed, pid 9 epoch 6"), (GROUPS, "9/6", "committed", "a place of the fault"),
        ("in-0", "9/6", "passed", "inputs passed by its commit: [20,21)")]),
    "lost_commit": (lost_commit, "no 5.7 Early source=in-1:0 output=1 at=out-0:41", [
        ("out-0", "9/6", "committed", "out-0:41 data record, committed, pid 9 epoch 6"), ("out-0", "9/6", "committed", "a place of the fault")]),
}
# the transactions around the twenty-first
IN_TURNS = [f"{7 + n % 3}/{n // 3}" for n in range(14, 27)]
# the partitions of the transaction log, where there are more than one
HOMES = {"many_homes": 50, "bad_state_of_many": 50, "take_turns": 2}
# the transactions that share a partition with the fault, in the order of its log
COLUMNS = {
    **{name: IN_TURNS for name in ("without_headers", "deleted_offset", "lost_output", "lost_commit")},
    "many_homes": ["109/0", "119/0", "129/0", "139/0", "149/0", "159/0"],
    "take_turns": ["7/1", "8/1", "7/2", "8/2", "7/3", "8/3", "8/4"],
    "bad_state_of_many": ["109/0", "159/0"],
    "stray": ["7/0"],
    "lost": ["7/0", "8/0", "7/1"],
    "exchanged": ["7/0", "8/0"],
    "long_ids": ["7/0", "8/0", "9/0"],
}
# marks that may not stand there
NOT_THERE = {
    "both_kinds": [("out-0", "8/0", "page")],
    "lost_second": [("out-1", "7/0", "missing")],
    "not_raised": [("out-0", "8/0", "page")],
    "doubled": [("out-0", "8/0", "missing")],
    "lost": [("out-0", "8/0", "page"), ("out-0", "7/0", "committed"), ("out-1", "7/0", "missing")],
}


# ---- a picture


class Picture:
    def __init__(self, path):
        self.root = xml.parse(path).getroot()
        elements = list(self.root)
        texts = [it for it in elements if it.tag == SPACE + "text"]
        words = [(int(it.get("x")), int(it.get("y")), it.text) for it in texts]
        columns = [int(it.get("x")) for it in elements if it.get("class") == "column"]
        others = [x - 6 for x, _, text in words if text == "of none of these"]
        self.columns = [(x, self.writer(words, x)) for x in columns + others]
        lines = [int(it.get("y1")) for it in elements if it.tag == SPACE + "line"]
        self.rows = [(y, name) for y, name in zip(lines, [it.text for it in texts if it.get("x") == "10" and it.get("class") == "words"])]
        self.marks = []
        for before, it in enumerate(elements):
            if it.get("class") == "mark":
                x, y = int(it.get("x")), int(it.get("y"))
                look = self.look(elements[:before], x, y)
                self.marks.append((self.row(y), self.column(x), look, it.find(SPACE + "title").text, x, y))

    @staticmethod
    def writer(words, left):
        for x, _, text in words:
            found = re.match(r"pid (\d+) epoch (\d+)$", text)
            if found and x == left + 6:
                return "/".join(found.groups())
        return None

    @staticmethod
    def look(elements, x, y):
        """The class of the shape that was drawn there last, but for rings."""
        for it in reversed(elements):
            if it.tag == SPACE + "rect" and (it.get("x"), it.get("y")) == (str(x), str(y)) and it.get("class") not in ("fault", "mark"):
                return it.get("class")
            if it.tag == SPACE + "path" and it.get("d").startswith(f"M{x + 7} {y}l"):
                return it.get("class")
        return None

    def row(self, y):
        return next((name for bottom, name in self.rows if y < bottom), None)

    def column(self, x):
        return next((writer for left, writer in reversed(self.columns) if left <= x), "none")

    def has(self, row, writer, look, told):
        return any((row, writer, look) == mark[:3] and told in mark[3] for mark in self.marks)


def check(name, make, line, wanted):
    folder, path = os.path.join(scratch, name), os.path.join(scratch, name + ".svg")
    cluster = Cluster("out-0", "out-1", *(["in-0", "in-1", GROUPS] if name in COLUMNS and COLUMNS[name] is IN_TURNS else []), homes=HOMES.get(name, 1))
    make(cluster)
    cluster.write(folder)
    answer = subprocess.run([program, "check", "--quiet", folder], capture_output=True, timeout=100).stdout.decode().strip()
    same(f"{name}: line", answer[: len(line)], line)
    done = subprocess.run([program, "draw", folder, path], capture_output=True, timeout=100)
    same(f"{name}: drawn", (done.returncode, done.stderr), (0 if line.startswith("yes") else 1, b""))
    if not os.path.exists(path):
        return
    if keep:
        shutil.copy(path, keep)
    picture = Picture(path)
    for row, writer, look, told in wanted:
        if writer == "none":
            same(f"{name}: in no transaction {told}", any(m[0] == row and m[1] is None and told in m[3] for m in picture.marks), True)
        else:
            same(f"{name}: {look} of {writer} in {row}: {told}", picture.has(row, writer, look, told), True)
    for row, writer, look in NOT_THERE.get(name, []):
        same(f"{name}: no {look} of {writer} in {row}", picture.has(row, writer, look, ""), False)
    if name == "lost_second":
        same(f"{name}: the other Prepare record", picture.has(STATES + "-0", "7/0", "committed", "a place of the fault"), False)
    if name in COLUMNS:
        same(f"{name}: columns", [writer for _, writer in picture.columns if writer], COLUMNS[name])
    markers = [mark[:3] for mark in picture.marks if mark[2] and mark[2].endswith("-marker")]
    same(f"{name}: one mark for each kind", len(markers), len(set(markers)))
    if name == "long_ids":
        heads = [it.text for it in picture.root.iter(SPACE + "text") if it.get("class") == "heading"]
        same(f"{name}: told apart", heads[:2], ["T1 payments-se..first-region-7", "T2 payments-se..first-region-8"])
    look_at(name, path, picture)


def check_times():
    """Of each mark that has an offset the time stands behind what it is, as a date, or where that has no year of four digits as a number."""
    for time in TIMES:
        for appended in False, True:
            name = f"time {time} {appended}"
            folder, path = os.path.join(scratch, name), os.path.join(scratch, name + ".svg")
            cluster = Cluster("out-0")
            both_kinds(cluster)
            cluster.write(folder, with_times(sealed, 7 if appended else time, time if appended else 7, appended))
            done = subprocess.run([program, "draw", folder, path], capture_output=True, timeout=100)
            same(f"{name}: drawn", (done.returncode, done.stderr), (1, b""))
            titles = [mark[3] for mark in Picture(path).marks]
            placed = [title for title in titles if re.match(r"\S+-\d+:\d+ ", title)]
            end = f", at {time_text(time)}"
            same(f"{name}: told", [title for title in placed if not title.removesuffix("; a place of the fault").endswith(end)], [])
            same(f"{name}: of these there are", len(placed) > 5, True)
            same(f"{name}: not told", [title for title in titles if title not in placed and ", at " in title], [])


# ---- rendered


def renderers():
    if shutil.which("rsvg-convert"):
        yield "rsvg-convert", lambda path, image, w, h: ["rsvg-convert", "-o", image, path]
    for browser in "chromium", "chromium-browser", "google-chrome":
        if shutil.which(browser):
            yield browser, lambda path, image, w, h, browser=browser: [
                browser, "--headless", "--no-sandbox", "--disable-gpu", "--hide-scrollbars", "--force-color-profile=srgb",
                f"--screenshot={image}", f"--window-size={w},{h}", "file://" + path]
            return


def look_at(name, path, picture):
    """Of each marker the colour of its middle, and at the edge of one that is missing some red and some of the ground; of each box the
    colour of its corner; and of each ring, that of the legend too, some red of its upper edge."""
    width, height = int(picture.root.get("width")), int(picture.root.get("height"))
    for tool, command in ways:
        image = path + ".png"
        done = subprocess.run(command(path, image, width, height), stdout=subprocess.DEVNULL, stderr=subprocess.DEVNULL, cwd=scratch, timeout=100)
        if done.returncode != 0 or not os.path.exists(image):
            print(f"{tool} gave no image of {name}: skipped")
            continue
        rows = pixels_of(image)
        for _, writer, look, _, x, y in picture.marks:
            if look in ("commit-marker", "abort-marker", "missing"):
                want = {"commit-marker": BLUE, "abort-marker": WHITE, "missing": WHITE}[look]
                same(f"{name}, {tool}: the middle of {look} of {writer}", rows[y + 7][x + 7], want)
            elif look in ("committed", "aborted", "open"):
                want = {"committed": BLUE, "aborted": GREY, "open": WHITE}[look]
                same(f"{name}, {tool}: the corner of {look} of {writer}", rows[y + 2][x + 2], want)
            if look == "missing":
                edge = [rows[y + abs(7 - k)][x + k] for k in range(15)] + [rows[y + 14 - abs(7 - k)][x + k] for k in range(15)]
                reds = sum(1 for r, g, b in edge if r > 150 and g < 130 and b < 130)
                same(f"{name}, {tool}: the dashes of what is missing of {writer}, {reds} of {len(edge)}", 3 < reds < len(edge), True)
        for it in picture.root.iter(SPACE + "rect"):
            if it.get("class") == "fault":
                r, g, b = rows[int(it.get("y"))][int(it.get("x")) + 8]
                same(f"{name}, {tool}: the ring at {it.get('x')},{it.get('y')}", r > 180 and g < 60 and b < 60, True)
        os.remove(image)


def main():
    for name, (make, line, wanted) in CASES.items():
        check(name, make, line, wanted)
    check_times()
    print(f"{passed} passed, {failed} failed")
    sys.exit(1 if failed else 0)


if __name__ == "__main__":
    program = os.path.abspath(sys.argv[1])
    keep = sys.argv[2] if len(sys.argv) > 2 else None
    ways = list(renderers())
    for tool in "rsvg-convert", "chromium":
        if tool not in [name for name, _ in ways]:
            print(f"no {tool}: not looked at there")
    with tempfile.TemporaryDirectory() as scratch:
        main()
