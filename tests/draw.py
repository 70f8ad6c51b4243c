#!/usr/bin/env -S python3 -B
"""The pictures that `draw` makes, against a second reading of the logs.

    python3 -B tests/draw.py PROGRAM [REFUSE.SO]

Each picture is read by Python's XML parser; it may have no script and name nothing outside of itself. Its title has to be the line of `check`, its
columns the transactions, and it has to have as many shapes of each kind as tests/plain_logs.py finds things to be drawn. What is told of a mark has
the time that Python reads in the batch that holds its offset, and no time where there is none. Over the folds that the program makes of a folder, all
of them or every other one, the picture has to be the same to the byte but for times, which folds don't have. Pictures of logs with hostile texts are
among them. Where rsvg-convert or chromium is there, some are rendered and looked at. Run it in the repository's top folder.
The last line is 'N passed, N failed'.
"""
import collections
import json
import os
import random
import re
import resource
import shutil
import signal
import struct
import subprocess
import sys
import tempfile
import xml.etree.ElementTree as xml

import made_evidence
import plain_logs
import reference
from fold_folders import files_in, fold_words, name_of, partitions_of, with_folds
from made_evidence import text
from plain_logs import ABORT, COMMIT, OFFSETS, STATES
from random_evidence import Folder, Piece, sealed
from story_lines import time_at, time_text

SPACE = "{http://www.w3.org/2000/svg}"
TAGS = {SPACE + name for name in ("svg", "title", "rect", "line", "path", "text")}
ATTRIBUTES = set(
    "xmlns width height viewBox font-family font-size font-weight x y x1 y1 x2 y2 d class fill stroke stroke-width stroke-dasharray pointer-events".split()
)
# one of each stands in the legend, but for the arc
LEGEND = collections.Counter(["committed", "aborted", "open", "commit-marker", "abort-marker", "missing", "passed", "fault"])
MOST = 12
SWITCHES = "keep-duplicates no-fence no-bump lose-marker swap-marker hide-listing ignore-generation".split()
MISHAPS = "lost-output repeated-output early-output wrong-count wrong-number foreign-source other-transaction".split()
HOSTILE = [
    b"<script>alert(1)</script>",
    b"\" onload=\"x' <&>",
    b"]]>&amp;&#0;&lt;!--",
    bytes(range(32)) + b"\x7f",
    b"\xff\xfe\x80\xc0\xed\xa0\x80\xef\xbf\xbf",
    "zwei Bücher 漢字 \u2028".encode(),
    b"",
    b"a" * 300,
]

passed = failed = 0


def same(what, found, want):
    global passed, failed
    if found == want:
        passed += 1
    else:
        failed += 1
        print(f"FAILED: {what}: {found}, not {want}")


def run(*words, before=None, **settings):
    done = subprocess.run(
        [program, *words], stdin=subprocess.DEVNULL, capture_output=True, preexec_fn=before, env=dict(os.environ, **settings), timeout=100
    )
    return done.returncode, done.stdout.decode(), done.stderr.decode()


# ---- what is to be drawn


def kind_of(name):
    return COMMIT if name == 2 else ABORT


class Transaction:
    def __init__(self, producer, epoch, name=None, home=None, offset=None, kind=None, marker_epoch=None):
        self.writer, self.name, self.home, self.offset, self.kind, self.marker_epoch = (producer, epoch), name, home, offset, kind, marker_epoch


def transactions(parts):
    """In the order of the Prepare records, and behind them those without one."""
    states, _ = reference.read_states([part for part in parts if part.name[0] == STATES])
    found = []
    for part, offset, name, state, before in states:
        # a tombstone has no producer id
        if state.status in reference.PREPARES and before is not None and before.producer is not None:
            kind = reference.PREPARES[state.status]
            found.append(Transaction(state.producer, before.epoch, name, part.name, offset, kind, state.epoch))
    decided = {it.writer for it in found}
    writers = {(b.producer, b.epoch) for part in parts for b in part.batches if b.word == "txn"}
    return found + [Transaction(*writer) for writer in sorted(writers - decided)]


def look_of(part, batch):
    marker = plain_logs.next_marker(part, batch)
    return "open" if marker is None else "committed" if marker.word == COMMIT else "aborted"


def commit_in(part, record):
    """The group's partition and the offset, where a record of the offsets log commits one."""
    try:
        key = plain_logs.offset_key(record.key)
        return key and record.value is not None and (key, plain_logs.offset_value(record.value))
    except (plain_logs.Refused, TypeError):
        return None


def has_own_end(part, it):
    """Whether a marker has the epoch that was decided."""
    return any(plain_logs.is_marker(b) and (b.producer, b.epoch) == (it.writer[0], it.marker_epoch) for b in part.batches)


def shapes_of(parts, shown, line):
    """How many shapes of each kind stand for the things of these transactions; the greatest number of one cell; and the rows."""
    shapes, cells, rows = collections.Counter(), collections.Counter(), set()
    place_of = {}
    for place, it in enumerate(shown):
        place_of.setdefault(it.writer, place)

    def add(look, row, place, group):
        shapes[look] += 1
        rows.add(row)
        cells[row, place, group] += 1

    names = {part.name for part in parts}
    for place, it in enumerate(shown):
        if it.kind:
            add("committed" if it.kind == COMMIT else "aborted", it.home, place, "box")
    for part in parts:
        last, lacking, drawn_ends = {}, set(), set()
        for place, it in enumerate(shown):
            written = any(b.word == "txn" and (b.producer, b.epoch) == it.writer for b in part.batches)
            if it.kind and not has_own_end(part, it) and (written or is_missed(part, it, line)):
                lacking.add(place)
                add("missing", part.name, place, "marker")
        for batch in part.batches:
            place = place_of.get((batch.producer, batch.epoch)) if batch.word == "txn" else None
            if plain_logs.is_marker(batch):
                for place, it in enumerate(shown):
                    if it.kind and (batch.producer, batch.epoch) == (it.writer[0], it.marker_epoch):
                        drawn_ends.add((place, batch.word))
            elif batch.word in ("txn", "plain"):
                look = look_of(part, batch) if batch.word == "txn" else "committed"
                for record in batch.records:
                    commit = part.name[0] == OFFSETS and commit_in(part, record)
                    if place is not None:
                        add("open" if place in lacking else look, part.name, place, "line" if commit else "box")
                    if commit:
                        key, offset = commit
                        if place is not None and key[1:] in names:
                            add("passed" if look == "committed" else "not-passed", key[1:], place, "line")
                        if look == "committed":
                            last[key] = offset
        for place, word in drawn_ends:
            add(f"{word}-marker", part.name, place, "marker")
        closed = set()
        for batch in part.batches:
            place = place_of.get((batch.producer, batch.epoch)) if batch.word == "txn" else None
            if place is not None and not shown[place].kind:
                marker = plain_logs.next_marker(part, batch)
                if marker and (place, marker.epoch, marker.word) not in closed:
                    closed.add((place, marker.epoch, marker.word))
                    add(f"{marker.word}-marker", part.name, place, "marker")
        for marker in markers_at_fault(part, line):
            of_decided = any(it.kind and (marker.producer, marker.epoch) == (it.writer[0], it.marker_epoch) for it in shown)
            of_others = any(shown[p].writer[0] == marker.producer and word == marker.word for p, _, word in closed)
            if not of_decided and not of_others:
                add(f"{marker.word}-marker", part.name, None, "marker")
    return shapes, max(cells.values(), default=0), rows


def words_of(line):
    return dict(word.split("=", 1) for word in line.split() if "=" in word)


def is_missed(part, it, line):
    """Whether the line says that the transaction lacks its marker in this partition."""
    words = words_of(line)
    if line.startswith("no 3.7 ") and words["partition"] == reference.place_text(part.name):
        producer, epoch = int(words["producer"]), int(words["epoch"])
        return it.writer == (producer, epoch)
    return False


def markers_at_fault(part, line):
    """Of each kind one of the markers of this partition that the line is about."""
    words, name = words_of(line), reference.place_text(part.name)
    found = {}
    for batch in part.batches:
        if plain_logs.is_marker(batch):
            if line.startswith("no 3.5 ") and words["partition"] == name:
                if (batch.producer, batch.epoch) == (int(words["producer"]), int(words["epoch"])):
                    found[batch.word] = batch
            elif re.match(r"no 1\.[3-9] ", line) and line.split()[3] == name and batch.base == int(words["offset"]):
                found[batch.word] = batch
    return found.values()


# ---- a picture


def headings(root):
    """The first lines above the columns."""
    return [it.text for it in root.iter(SPACE + "text") if it.get("class") == "heading"]


def shortened(line, most=30):
    last = (most - 2) // 2
    return line if len(line) <= most else line[: most - 2 - last] + ".." + line[-last:]


def first_line(place, it):
    return shortened(f"T{place + 1} " + ("undecided" if it.name is None else reference.escaped(it.name)))


def drawn(folder, *words):
    """The status, what was printed, and the text of the picture, which is taken away."""
    path = os.path.join(scratch, "picture.svg")
    status, printed, told = run("draw", *words, folder, path)
    data = None
    if os.path.exists(path):
        with open(path, "rb") as file:
            data = file.read()
        os.remove(path)
    return status, printed, told, data


def is_harmless(data):
    data.decode("ascii")
    lower = data.lower()
    return not any(word in lower for word in (b"<script", b"href", b"url(", b"<style", b"<!", b"<?", b"<foreignobject", b"<image", b"<use"))


def folds_in(folder):
    """The folds that the program makes of a folder's segments, by their paths."""
    out = os.path.join(scratch, "folds")
    shutil.rmtree(out, ignore_errors=True)
    if partitions_of(folder):
        status, _, told = run(*fold_words(folder, out))
        same(f"fold {folder}", (status, told), (0, ""))
    return files_in(out)


def over_folds(folder, folds, name, chosen=lambda path: True):
    """A folder with these folds in place of the chosen segments."""
    made = os.path.join(scratch, name)
    shutil.rmtree(made, ignore_errors=True)
    return with_folds(folder, folds, made, chosen)


def check_folds(folder, words):
    """The picture over a folder's folds, or over every other one, is that over its logs."""
    status, printed, told, data = drawn(folder, *words)
    folds = folds_in(folder)
    some = set(sorted(folds)[::2])
    for name, chosen in ("all-folds", lambda path: True), ("some-folds", lambda path: path in some):
        made = over_folds(folder, folds, name, chosen)
        found = drawn(made, *words)
        same(f"draw {folder} {words}, {name}", found[:3], (status, printed, told))
        same(f"draw {folder} {words}, {name}: its bytes", without_times(found[3]) == without_times(data), True)
        check_times(f"draw {folder} {words}, {name}", made, xml.fromstring(found[3]))


# ---- times

TOLD = re.compile(r"(\S*?-\d+)(?::(\d+))? .*?(?:, at (\d{4,}-\d\d-\d\dT\d\d:\d\d:\d\d\.\d{3}Z|-?\d+))?(?:; a place of the fault)?$", re.S)


def without_times(data):
    return re.sub(rb", at [0-9TZ:.-]+(?=; a place of the fault</title>|</title>)", b"", data)


def times_in(folder):
    """When each record was written, by its partition and offset, as far as a segment's bytes are batches, each where the one before ends."""
    found = {}
    with open(os.path.join(folder, "evidence.json"), encoding="utf-8") as file:
        names = json.load(file)["ends"]
    for name in names:
        path = os.path.join(folder, name)
        for segment in os.listdir(path) if os.path.isdir(path) else []:
            if re.fullmatch("[0-9]{20}[.]log", segment):
                with open(os.path.join(path, segment), "rb") as file:
                    data = file.read()
                found.update(times_of(name, int(segment[:20]), data))
    return found


def times_of(name, offset, data):
    at = 0
    while at < len(data):
        try:
            batch, size = plain_logs.read_batch(data, at)
        except plain_logs.Refused:
            return
        if batch.base != offset:
            return
        yield from (((name, offset + place), time_at(data, at, place)) for place in range(batch.count))
        at, offset = at + size, offset + batch.count


def check_times(what, folder, root):
    times = times_in(folder)
    for it in root.iter(SPACE + "rect"):
        if it.get("class") == "mark":
            title = it.find(SPACE + "title").text
            name, offset, time = TOLD.match(title).groups()
            written = times.get((name, int(offset))) if offset else None
            same(f"{what}: time of {title}", time, None if written is None else time_text(written))


def check_picture(folder, around=None, number=None):
    what = f"draw {folder} {around} {number}"
    words = [*(["--around", str(around)] if around else []), *(["--fault", str(number)] if number else [])]
    lines = run("check", "--quiet", *(["--all"] if number else []), folder)
    status, printed, told, data = drawn(folder, *words)
    same(f"{what}: status", (status, told), (lines[0], ""))
    if data is None:
        same(f"{what}: picture", None, "one")
        return None
    same(f"{what}: harmless", is_harmless(data), True)
    root = xml.fromstring(data)
    same(f"{what}: tags", {it.tag for it in root.iter()} - TAGS, set())
    same(f"{what}: attributes", {name for it in root.iter() for name in it.attrib} - ATTRIBUTES, set())
    line = lines[1].splitlines()[number - 1 if number else 0]
    same(f"{what}: name", root.find(SPACE + "title").text, line)
    same(f"{what}: title", "".join(it.text for it in root.iter(SPACE + "text") if it.get("class") == "title"), line)
    check_shapes(what, folder, root, printed, around or 6, line)
    check_times(what, folder, root)
    check_input(what, folder, root, line)
    if not number:
        check_folds(folder, words)
    return root


def check_shapes(what, folder, root, printed, around, line):
    apps, parts = plain_logs.read_folder(folder)
    every = transactions(parts)
    heads = headings(root)
    places = [int(head.split()[0][1:]) - 1 for head in heads]
    shown = [every[place] for place in places]
    same(f"{what}: columns", heads, [first_line(place, it) for place, it in zip(places, shown)])
    middle = middle_of(every, apps, parts, line)
    if line.startswith("yes"):
        same(f"{what}: window", places, list(range(min(len(every), 2 * around))))
    elif middle is not None:
        same(f"{what}: window around {middle}", places in windows(every, parts, line, middle, around), True)
    else:
        found = any(places in windows(every, parts, line, it, around) for it in places)
        same(f"{what}: window", found or places == list(range(min(len(every), 2 * around))), True)
    shapes, most, rows = shapes_of(parts, shown, line)
    found = collections.Counter(it.get("class") for it in root.iter() if it.tag in (SPACE + "rect", SPACE + "path"))
    if most <= MOST:
        wanted = shapes + LEGEND
        kinds = ["committed", "aborted", "open", "commit-marker", "abort-marker", "missing", "passed", "not-passed"]
        same(f"{what}: shapes", {it: found[it] for it in kinds}, {it: wanted[it] for it in kinds})
    same(f"{what}: columns drawn", found["column"] - len(heads) in (0, 1), True)
    check_labels(what, root)
    drawn_rows = sum(1 for it in root.iter(SPACE + "line"))
    same(f"{what}: printed", printed, f"drew columns={len(heads)} rows={drawn_rows}\n")
    same(f"{what}: rows", drawn_rows == len(rows) or (drawn_rows > len(rows) and line.startswith("no")), True)
    same(f"{what}: arcs", found["fault-arc"], max(0, found["fault"] - 2))
    width, height = float(root.get("width")), float(root.get("height"))
    same(f"{what}: inside", [it.attrib for it in root.iter(SPACE + "rect") if not is_inside(it, width, height)], [])


def stand_of(part, it):
    """Where a transaction stands in a partition: at its last data record, or at its Prepare record."""
    if part.name[0] == STATES:
        return it.offset if it.home == part.name else None
    return max((place for batch, place, _ in plain_logs.records_of(part) if batch.word == "txn" and (batch.producer, batch.epoch) == it.writer), default=None)


def named_in(line):
    """The partition that the line names, if it names one."""
    words = words_of(line)
    if "at" in words:
        return words["at"].rsplit(":", 1)[0]
    return words.get("partition", line.split()[3] if re.match(r"no [124]\.", line) else None)


def windows(every, parts, line, middle, around):
    """What may be shown around a transaction: those beside it in the fault's partition, if it stands there, or else in any in which it has
    data, or else in that of the transaction log."""
    there = [part for part in parts if stand_of(part, every[middle]) is not None]
    own = [part for part in there if reference.place_text(part.name) == named_in(line)]
    shared = own or [part for part in there if part.name[0] != STATES] or there
    found = [] if shared else [[middle]]
    for part in shared:
        stands = sorted((stand, place) for place, stand in enumerate(stand_of(part, it) for it in every) if stand is not None)
        order = [place for _, place in stands]
        at = order.index(middle)
        found.append(order[max(0, at - around) : at + around + 1])
    return found


def check_input(what, folder, root, line):
    """Of a lost output the first commit past its input, and the input, are places of the fault."""
    if line.startswith("no 5.11 "):
        titles = [it.find(SPACE + "title").text for it in root.iter(SPACE + "rect") if it.get("class") == "mark"]
        of_fault = [title.split(" ")[0] for title in titles if title.endswith("; a place of the fault")]
        apps, parts = plain_logs.read_folder(folder)
        wanted = [*first_past(apps, parts, line), words_of(line)["source"]]
        same(f"{what}: the commit past the input, and the input", [it for it in wanted if it not in of_fault], [])


def first_past(apps, parts, line):
    """Where the first visible commit of the line's group, or of the only one, stands that goes past its input."""
    words = words_of(line)
    group = next(app.group for app in apps if words.get("group", reference.escaped(app.group)) == reference.escaped(app.group))
    name, offset = words["source"].rsplit(":", 1)
    topic, number = name.rsplit("-", 1)
    for part in parts:
        if part.name[0] == OFFSETS:
            for _, place, record in plain_logs.records_of(part, only_visible=True):
                key, committed = commit_in(part, record) or (None, 0)
                if key and key == (group, topic.encode(), int(number)) and committed > int(offset):
                    return [f"{reference.place_text(part.name)}:{place}"]
    return []


def check_labels(what, root):
    """Below each ring around a box stands the offset: that in the box, or of a commit, whose box has another text, a number."""
    words = {(int(it.get("x")), int(it.get("y"))): (it.get("class"), it.text) for it in root.iter(SPACE + "text")}
    for it in root.iter(SPACE + "rect"):
        x, y, high = (int(it.get(name)) for name in ("x", "y", "height"))
        kind, inside = words.get((x + 7, y + 15), (None, ""))
        if it.get("class") != "fault" or kind != "words" or not (inside.isdigit() or " -> " in inside):
            continue
        kind, label = words.get((x + 3, y + high + 11), (None, ""))
        same(f"{what}: label at {x},{y}", (kind, label[:1], label[1:].isdigit()), ("fault-words", ":", True))
        if inside.isdigit():
            same(f"{what}: label of {inside}", label, ":" + inside)


def is_inside(it, width, height):
    x, y, w, h = (float(it.get(name)) for name in ("x", "y", "width", "height"))
    return 0 <= x and 0 <= y and x + w <= width and y + h <= height


def middle_of(every, apps, parts, line):
    """Where the fault names the place of a record of a transaction: that transaction's place. Of a lost output it is that of the first
    commit past its input."""
    at = [word[3:] for word in line.split() if word.startswith("at=")]
    if line.startswith("no 5.11 "):
        at = first_past(apps, parts, line)
    if not at:
        return None
    name, offset = at[0].rsplit(":", 1)
    topic, number = name.rsplit("-", 1)
    for part in parts:
        if part.name == (topic.encode(), int(number)):
            for batch, place, _ in plain_logs.records_of(part):
                if place == int(offset) and batch.word == "txn":
                    return next((i for i, it in enumerate(every) if it.writer == (batch.producer, batch.epoch)), None)
    return None


# ---- folders


def kept_folders():
    for part, every in ("stories", 1), ("real-evidence", 2), ("evidence", 4):
        with open(os.path.join("tests", part, "expected.tsv"), encoding="utf-8") as file:
            names = [name for name, status, _ in (line.split("\t", 2) for line in file) if status != "2"]
        yield from (os.path.join("tests", part, name) for name in names[::every])
    yield os.path.join("tests", "simulated", "seed-7")


def simulated_folders():
    for flag, names in ("--switch", SWITCHES), ("--mishap", MISHAPS):
        for seed, name in enumerate(names):
            path = os.path.join(scratch, name)
            run("simulate", "--seed", str(seed), "--events", "300", flag, name, path)
            if os.path.isdir(path):
                yield path


def hostile_folder(path):
    """A folder whose ids, groups and committed topics are hostile texts, and whose transactions are committed, aborted and left open."""
    maker = made_evidence.Maker(random.Random(3), sealed)
    home, offsets, source = (maker.parts[topic][0] for topic in (made_evidence.STATES, made_evidence.OFFSETS, "in"))
    for n, bad in enumerate(HOSTILE):
        worker = {"id": bad, "producer": 1000 + n, "epoch": 0, "home": home}
        listed = [source, offsets]
        maker.say(worker, 0)
        maker.say(worker, 1, listed)
        maker.append(source, [(bad, bad, [(bad, bad)])], 1000 + n, 0, 16)
        key = b"\0\1" + text(bad) + text(bad) + struct.pack(">i", n)
        maker.append(offsets, [(key, struct.pack(">hq", 0, n) + text(bad) + bytes(8), [])], 1000 + n, 0, 16)
        worker["epoch"] = 1
        maker.say(worker, 2 + n % 2, listed)
        for name in listed if n < len(HOSTILE) - 1 else []:
            maker.marker(name, 1000 + n, 1, 1 - n % 2)
        maker.say(worker, 4 + n % 2)
    folder = Folder.__new__(Folder)
    folder.manifest = {"version": 2, "apps": maker.apps, "ends": dict(maker.lengths)}
    folder.logs = {name: [Piece(it) for it in log] for name, log in maker.logs.items()}
    folder.write(path)
    return path


def made_folders():
    for seed in range(12):
        path = os.path.join(scratch, f"made-{seed}")
        Folder(rng=random.Random(seed)).write(path)
        yield path


def damaged_folders(path):
    """The folder with each partition cut in its middle, and with a byte of it changed."""
    for name in sorted(os.listdir(path)):
        segment = os.path.join(path, name, "0" * 20 + ".log")
        if os.path.isfile(segment) and os.path.getsize(segment) > 100:
            for way in "cut", "changed":
                copy = os.path.join(scratch, f"{way}-{os.path.basename(path)}-{name}")
                shutil.copytree(path, copy)
                with open(os.path.join(copy, name, "0" * 20 + ".log"), "r+b") as file:
                    size = os.path.getsize(file.name)
                    if way == "cut":
                        file.truncate(size // 2)
                    else:
                        file.seek(size // 2)
                        byte = file.read(1)[0]
                        file.seek(size // 2)
                        file.write(bytes([byte ^ 1]))
                yield copy


# ---- what is refused


def refused(what, words, message, before=None, status=2):
    path = words[-1]
    was = os.path.exists(path)
    found, printed, told = run(*words, before=before)
    same(what, (found, printed, told.splitlines()[:1], os.path.exists(path)), (status, "", [message], was))


def no_bytes():
    signal.signal(signal.SIGXFSZ, signal.SIG_IGN)
    resource.setrlimit(resource.RLIMIT_FSIZE, (100, 100))


def refused_folders(good):
    """Folders that `check` refuses: those of tests/evidence, one that isn't there, and a good one with another manifest, or none."""
    with open("tests/evidence/expected.tsv", encoding="utf-8") as file:
        yield from (f"tests/evidence/{row[0]}" for row in (line.split("\t") for line in file) if row[1] == "2")
    yield "absent"
    with open(os.path.join(good, "evidence.json"), encoding="utf-8") as file:
        manifest = file.read().rstrip()
    changed = {
        "comma": manifest[:-1] + ",}",
        "text": json.dumps({**json.loads(manifest), "ends": {name: str(end) for name, end in json.loads(manifest)["ends"].items()}}),
        "version": json.dumps({**json.loads(manifest), "version": 3}),
        "none": None,
    }
    for name, text_of_it in changed.items():
        folder = os.path.join(scratch, f"manifest-{name}")
        shutil.copytree(good, folder)
        path = os.path.join(folder, "evidence.json")
        os.remove(path)
        if text_of_it is not None:
            with open(path, "w", encoding="utf-8") as file:
                file.write(text_of_it)
        yield folder


def damaged_folds(good):
    """Folders of folds that `check` refuses: one that is none, or is of another partition, beside its log, or made for other roles."""
    folds = folds_in(good)
    first, last = min(folds), max(folds)
    changed = {
        "cut": folds[first][:-1],
        "turned": folds[first][:-1] + bytes([folds[first][-1] ^ 1]),
        "moved": folds[last],
        "twice": folds[first],
        "roles": folds[first],
    }
    for name, data in changed.items():
        folder = over_folds(good, {**folds, first: data}, f"fold-{name}")
        if name == "twice":
            log = first.removesuffix(".fold") + ".log"
            shutil.copy(os.path.join(good, log), os.path.join(folder, log))
        if name == "roles":
            path = os.path.join(folder, "evidence.json")
            with open(path, encoding="utf-8") as file:
                manifest = json.load(file)
            os.remove(path)
            with open(path, "w", encoding="utf-8") as file:
                json.dump({**manifest, "sources": manifest["outputs"], "outputs": manifest["sources"]}, file)
        yield folder


def first_of(folds):
    """The fold that is read first."""
    return min(folds, key=lambda path: (name_of(os.path.dirname(path)), path))


def refusals():
    good, bad = "tests/evidence/row-yes-2", "tests/stories/34-dup-across-transactions"
    there, new = os.path.join(scratch, "there.svg"), os.path.join(scratch, "new.svg")
    with open(there, "w", encoding="utf-8") as file:
        file.write("mine")
    refused("a file that is there", ["draw", good, there], f"eoscheck: cannot write {there}: it is there already")
    with open(there, encoding="utf-8") as file:
        same("its bytes", file.read(), "mine")
    refused("a file in no folder", ["draw", good, "absent/new.svg"], "eoscheck: cannot write absent/new.svg: no such folder")
    refused("a full disk", ["draw", good, new], f"eoscheck: cannot write {new}", before=no_bytes)
    refused("a fault at yes", ["draw", "--fault", "1", good, new], "eoscheck: there are 0 faults")
    refused("a fault past the list", ["draw", "--fault", "2", bad, new], "eoscheck: there is 1 fault")
    refused("a fault far past it", ["draw", "--fault", str(2**64 - 1), bad, new], "eoscheck: there is 1 fault")
    folds = folds_in(good)
    refused("a fault at yes, over folds", ["draw", "--fault", "1", over_folds(good, folds, "good-folds"), new], "eoscheck: there are 0 faults")
    folds = folds_in(bad)
    made = over_folds(bad, folds, "bad-folds")
    refused("a later fault, over folds", ["draw", "--fault", "2", made, new], "eoscheck: there is 1 fault")
    over, of_logs = drawn(made, "--fault", "1"), drawn(bad)
    same("the first fault, over folds", (*over[:3], without_times(over[3])), (*of_logs[:3], without_times(of_logs[3])))
    for folder in [*refused_folders(good), *damaged_folds(good)]:
        status, printed, told = run("check", folder)
        same(f"{folder}: check refuses it", (status, printed, told.startswith("eoscheck: ")), (2, "", True))
        for words in [], ["--fault", "1"], ["--around", "2"]:
            found = run("draw", *words, folder, new)
            same(f"{folder} {words}: as check", (*found, os.path.exists(new)), (status, "", told, False))
    for words in ["draw", good], ["draw"], ["draw", "--fault", "0", good, new], ["draw", "--around", "0", good, new], ["draw", "--around", "101", good, new]:
        found = run(*words)
        same(" ".join(words), (found[0], found[1], os.path.exists(new)), (2, "", False))
    with open("/dev/full", "wb") as full:
        done = subprocess.run([program, "draw", good, new], stdout=full, stderr=subprocess.PIPE, timeout=100)
    same("standard output is full", (done.returncode, done.stderr.decode()), (2, "eoscheck: cannot write -\n"))
    os.remove(new)


def refuse_each(library):
    """Each allocation of a run refused: the same picture, or none and no file."""
    folder = "tests/stories/34-dup-across-transactions"
    want = drawn(folder)
    path = os.path.join(scratch, "picture.svg")
    for at in list(range(1, 200, 7)) + list(range(200, 4000, 131)):
        found = run("draw", folder, path, LD_PRELOAD=library, REFUSE_AT=str(at))
        if found[0] != 1:
            same(f"allocation {at}", (*found, os.path.exists(path)), (3, "", "eoscheck: out of memory\n", False))
        else:
            with open(path, "rb") as file:
                same(f"allocation {at}", (*found, file.read()), want)
            os.remove(path)


# ---- rendered


def red_pixels(rows):
    return sum(1 for row in rows for pixel in row if pixel[0] > 180 and pixel[1] < 60 and pixel[2] < 60)


def pixels_of(path):
    """The rows of a PNG, by rsvg-convert or chromium (eight bits, true colour, no interlacing)."""
    import zlib

    with open(path, "rb") as file:
        data = file.read()
    at, body = 8, b""
    while at < len(data):
        size, name = struct.unpack_from(">I4s", data, at)
        if name == b"IHDR":
            width, height, depth, colour = struct.unpack_from(">IIBB", data, at + 8)
        if name == b"IDAT":
            body += data[at + 8 : at + 8 + size]
        at += 12 + size
    step = {2: 3, 6: 4}[colour]
    assert depth == 8
    raw, rows, last = zlib.decompress(body), [], bytes(width * step)
    for y in range(height):
        line = raw[y * (width * step + 1) : (y + 1) * (width * step + 1)]
        way, row = line[0], bytearray(line[1:])
        for x in range(len(row)):
            left = row[x - step] if x >= step else 0
            up, corner = last[x], last[x - step] if x >= step else 0
            if way == 4:
                guess = left + up - corner
                near = min((abs(guess - left), 0, left), (abs(guess - up), 1, up), (abs(guess - corner), 2, corner))[2]
            else:
                near = (0, left, up, (left + up) // 2)[way]
            row[x] = (row[x] + near) & 255
        rows.append([tuple(row[x : x + 3]) for x in range(0, len(row), step)])
        last = bytes(row)
    return rows


def rendered(name, command):
    folder = "tests/stories/34-dup-across-transactions"
    path, image = os.path.join(scratch, "look.svg"), os.path.join(scratch, "look.png")
    run("draw", folder, path)
    root = xml.parse(path).getroot()
    width, height = int(root.get("width")), int(root.get("height"))
    done = subprocess.run(command(path, image, width, height), stdout=subprocess.DEVNULL, stderr=subprocess.DEVNULL, cwd=scratch, timeout=100)
    if done.returncode != 0 or not os.path.exists(image):
        print(f"{name} gave no image: skipped")
        os.remove(path)
        return
    rows = pixels_of(image)
    same(f"{name}: size", (len(rows[0]), len(rows)), (width, height))
    same(f"{name}: red", red_pixels(rows) > 150, True)
    for it in root.iter(SPACE + "rect"):
        if it.get("class") in ("committed", "aborted", "open", "fault") and int(it.get("width")) < 40:
            x, y = int(it.get("x")), int(it.get("y"))
            look = {"committed": (0, 0x72, 0xB2), "aborted": (0xD4, 0xD4, 0xD4), "open": (255, 255, 255), "fault": None}[it.get("class")]
            if look:
                same(f"{name}: {it.get('class')} at {x},{y}", rows[y + 2][x + 2], look)
            else:
                same(f"{name}: ring at {x},{y}", red_pixels([[rows[y][x + 8]]]), 1)
    os.remove(path)
    os.remove(image)


def render():
    ways = [("rsvg-convert", lambda path, image, w, h: ["rsvg-convert", "-o", image, path])]
    for browser in "chromium", "chromium-browser", "google-chrome":
        if shutil.which(browser):
            ways.append((browser, lambda path, image, w, h, browser=browser: [
                browser, "--headless", "--no-sandbox", "--disable-gpu", "--hide-scrollbars", "--force-color-profile=srgb",
                f"--screenshot={image}", f"--window-size={w},{h}", "file://" + path]))
            break
    else:
        print("no chromium: not looked at there")
    for name, command in ways:
        if shutil.which(name):
            rendered(name, command)
        else:
            print(f"no {name}: not looked at there")


def main():
    for folder in kept_folders():
        check_picture(folder)
    root = check_picture("tests/stories/34-dup-across-transactions")
    rings = [it for it in root.iter(SPACE + "rect") if it.get("class") == "fault"]
    same("34: rings, and that of the legend", len(rings), 3)
    for around in 1, 2, 100:
        check_picture("tests/stories/34-dup-across-transactions", around)
        check_picture("tests/simulated/seed-7", around)
    check_picture("tests/stories/09-misspelled-group", None, 3)
    for folder in simulated_folders():
        check_picture(folder)
        check_picture(folder, 2)
    for folder in made_folders():
        check_picture(folder)
    hostile = hostile_folder(os.path.join(scratch, "hostile"))
    check_picture(hostile)
    check_picture(hostile, 100)
    for folder in damaged_folders(os.path.join("tests", "stories", "34-dup-across-transactions")):
        check_picture(folder)
    for folder in damaged_folders(hostile):
        check_picture(folder)
    refusals()
    if len(sys.argv) > 2:
        refuse_each(os.path.abspath(sys.argv[2]))
    render()
    print(f"{passed} passed, {failed} failed")
    sys.exit(1 if failed else 0)


if __name__ == "__main__":
    program = os.path.abspath(sys.argv[1])
    with tempfile.TemporaryDirectory() as scratch:
        main()
