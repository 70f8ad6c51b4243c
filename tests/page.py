#!/usr/bin/env -S python3 -B
"""The page of `check --page`: what it says beside the lines of `check` and the report, and that it is whole HTML of its own.

    python3 -B tests/page.py PROGRAM [REFUSE.SO]

Over the folders of tests/evidence and the stories, so over every kind of fault: the page says the verdict, the notes, how many faults there
are of each kind, the first ten of them, and the tables, as the report of the same check has them; and of these ten what `explain` tells and
`draw` draws, or why there is none. Its elements are balanced and none of them is a script, a link or what is fetched; it is ASCII, whatever
stands in the folder's name and in ids. What can't be written, what is there already, and words that don't fit are refused in one line, and
nothing half written is left. With REFUSE.SO (tests/refuse.c, built) the allocations of a run are refused, each in turn.
The last line is 'N passed, N failed'.

Where a Chromium is on the path, it lays each kind's page out at 360 and at 1,400 pixels: nothing is wider than the window but what moves
inside its own box, and printed no picture is wider than the paper; and the tree that it reads is the page's own, with nothing mended. Where
Python's html5lib (Debian's python3-html5lib) or `tidy` is there, neither finds an error. Whether it is a pleasure to read no program judges.
"""
import collections
import html
import html.parser
import json
import os
import re
import resource
import shutil
import signal
import struct
import subprocess
import sys
import tempfile

from random_evidence import Folder, settle

GOOD = "tests/evidence/row-yes-2"
FAULTY = "tests/stories/04-missing-marker"
# Elements that HTML ends by themselves (HTML, section 13.1.2).
VOID = {"meta", "br"}
# All that may stand in a page, with the attributes that each may have.
ELEMENTS = {
    "html": {"lang"}, "head": set(), "meta": {"charset", "name", "content"}, "title": set(), "style": set(), "body": set(), "h1": set(),
    "h2": set(), "h3": set(), "p": set(), "br": set(), "pre": {"class"}, "code": set(), "div": set(), "table": set(), "tr": set(), "th": set(),
    "td": {"colspan"}, "ol": set(), "li": set(),
}
# What may stand in a picture, which has no ids, styles or references: nothing of one picture can mean another.
LOOKS = {"class", "fill", "stroke", "stroke-width", "stroke-dasharray", "font-size", "font-weight"}
SVG = {
    "svg": {"xmlns", "width", "height", "viewbox", "font-family", "font-size"}, "title": set(), "path": {"d"} | LOOKS, "text": {"x", "y"} | LOOKS,
    "rect": {"x", "y", "width", "height", "pointer-events"} | LOOKS, "line": {"x1", "y1", "x2", "y2"} | LOOKS,
}
NAMESPACE = 'xmlns="http://www.w3.org/2000/svg"'
HEADING = "Where the faults come from"
ROLES = ("source", "output", "offsets_log", "transaction_log")
ROLE_WORDS = {"source": "source", "output": "output", "offsets_log": "offsets", "transaction_log": "transactions"}

passed = failed = 0


def same(what, found, want):
    global passed, failed
    if found == want:
        passed += 1
    else:
        failed += 1
        print(f"FAILED: {what}: {found!r}, not {want!r}")


def run(*words, before=None):
    done = subprocess.run([program, *words], capture_output=True, timeout=120, preexec_fn=before)
    return done.returncode, done.stdout.decode(), done.stderr.decode()


# ---- the page, read as HTML

class Page(html.parser.HTMLParser):
    """A page's texts by where they stand; what is wrong with its elements."""

    def __init__(self, text):
        super().__init__(convert_charrefs=True)
        self.open, self.wrong, self.texts, self.rows, self.heading = [], [], collections.defaultdict(list), collections.defaultdict(list), ""
        self.told = []
        self.feed(text)
        self.close()
        if self.open:
            self.wrong.append(f"open at the end: {self.open}")

    def handle_startendtag(self, tag, attrs):
        self.handle_starttag(tag, attrs)
        self.handle_endtag(tag)

    def handle_starttag(self, tag, attrs):
        may = SVG if "svg" in self.open or tag == "svg" else ELEMENTS
        if tag not in may or any(name not in may[tag] for name, _ in attrs):
            self.wrong.append(f"{tag} with {attrs}")
        if tag == "h3":
            self.told.append([])
        elif self.told and tag in ("pre", "p", "svg"):
            self.told[-1].append(tag)
        if tag == "tr":
            self.rows[self.heading].append([])
        if tag in ("td", "th"):
            self.rows[self.heading][-1].append("")
        if tag not in VOID:
            self.open.append(tag)
            self.texts[tag].append("")

    def handle_endtag(self, tag):
        if not self.open or self.open.pop() != tag:
            self.wrong.append(f"{tag} ends where it isn't open")
        if tag == "h2":
            self.heading = self.texts["h2"][-1]

    def handle_data(self, data):
        if not self.open:
            if data.strip():
                self.wrong.append(f"text outside: {data!r}")
            return
        self.texts[self.open[-1]][-1] += data
        if self.open[-1] in ("td", "th"):
            self.rows[self.heading][-1][-1] += data

    def handle_comment(self, data):
        self.wrong.append(f"a comment: {data!r}")


def shown(text):
    """As topics and ids are printed."""
    data = bytes.fromhex(text["hex"]) if isinstance(text, dict) else text.encode()
    return "".join(chr(byte) if re.match(rb"[\w.-]", bytes([byte])) and byte < 128 else f"%{byte:02x}" for byte in data)


def in_page(text):
    """As other texts stand in a page: what isn't ASCII or is a control as digits."""
    return "".join(chr(byte) if byte == 10 or 32 <= byte < 127 else f"%{byte:02x}" for byte in text.encode())


def numbers_of(row):
    visible = row["visible_records"]
    return [str(row["batches"]), str(row["data_records"]), "not known" if visible is None else str(visible), str(row["segments"]), str(row["bytes"])]


def partition_row(row):
    roles = "".join(f"{ROLE_WORDS[name]} " for name in ROLES if row["roles"][name])
    return [f"{shown(row['topic'])}-{row['partition']}", roles, str(row["end"]), *numbers_of(row)]


def group_rows(groups):
    if groups is None:
        return [["not known, since the log of a partition has a fault of its own"]]
    return [
        [shown(of["group"]), f"{shown(it['topic'])}-{it['partition']}", str(it["committed"]), str(it["end"]), str(it["visible_inputs_below"])]
        for of in groups
        for it in of["sources"]
    ]


def order(code):
    return [int(number) for number in code.split(".")]


def kind_rows(faults):
    counts = collections.Counter((fault["code"], fault["name"]) for fault in faults)
    return [[code, name, str(count)] for (code, name), count in sorted(counts.items(), key=lambda it: order(it[0][0]))]


TOLD = re.compile(r"(?:<pre>(.*?)</pre>|<p>No story: (.*?)</p>)\n(?:<div>\n(.*?)</div>|<p>No picture: (.*?)</p>)\n", re.DOTALL)


def drawn(folder, number):
    """What `draw` makes of the fault of this number, and what it says where that is none."""
    file = os.path.join(scratch, "drawn.svg")
    status, _, said = run("draw", "--fault", str(number), folder, file)
    if status == 2:
        return None, said
    with open(file, encoding="ascii") as made_file:
        text = made_file.read()
    os.remove(file)
    return text, None


def words_of(text):
    """A text of a page in one line, as it is shown outside of a preformatted one."""
    return text and " ".join(html.unescape(text).split())


def stories(what, text, page, folder, count):
    """The end of a page: of the first faults what `explain` tells and `draw` draws."""
    end = text.partition(f"<h2>{HEADING}</h2>\n")[2].removesuffix("</body>\n</html>\n")
    parts = re.split(r"<h3>Fault (\d+)</h3>\n", end)
    want = range(1, min(count, 10) + 1)
    same(f"{what}: the faults that are told", (parts[:1], parts[1::2], page.texts["h3"]), ([""], [str(it) for it in want], [f"Fault {it}" for it in want]))
    for number, part in zip(want, parts[2::2]):
        found = TOLD.fullmatch(part)
        if not found:
            same(f"{what}: fault {number}", part, "a story and a picture")
            continue
        story, no_story, picture, no_picture = found.groups()
        status, words, refusal = run("explain", "--fault", str(number), folder)
        wanted = (in_page(words), None) if status == 1 else (None, words_of(in_page(refusal)))
        same(f"{what}: story {number}", (story and html.unescape(story), words_of(no_story)), wanted)
        svg, why = drawn(folder, number)
        same(f"{what}: picture {number}", (picture, words_of(no_picture)), (svg, why and words_of(in_page(why))))


def right(what, text, lines, notes, report):
    """A page beside the lines and the notes of `check`, and beside its report."""
    same(f"{what}: is ASCII", text.isascii(), True)
    outside = [word for word in ("http", "src=", "href", "url(", "@import", "javascript") if word in text.replace(NAMESPACE, "").lower()]
    same(f"{what}: nothing from outside", outside, [])
    page = Page(text)
    same(f"{what}: elements", page.wrong, [])
    verdict, told = page.texts["pre"][0], page.texts["pre"][1]
    faults = report.get("faults", [])
    first = lines.splitlines()[0] + "\n"
    same(f"{what}: the verdict", verdict, first)
    # How many segments were judged by folds is told on standard error and in a report; a page is about the evidence.
    of_evidence = "".join(it for it in notes.splitlines(keepends=True) if not it.endswith(" were judged by folds\n"))
    same(f"{what}: the notes", told, in_page(of_evidence))
    if report["answer"] == "yes":
        counts = re.findall(r"(transactions|inputs|outputs): (\d+)", page.texts["p"][1])
        same(f"{what}: in words", (page.texts["p"][1][:4], {name: int(n) for name, n in counts}), ("Yes:", report["counts"]))
        same(f"{what}: no faults", (page.rows.get("Faults by kind"), page.texts["li"]), (None, []))
    else:
        same(f"{what}: in words", (page.texts["p"][1][:3], re.findall(r"told here: (\d+)", page.texts["p"][1])), ("No:", [str(len(faults))]))
        same(f"{what}: faults by kind", page.rows["Faults by kind"][1:], kind_rows(faults))
        wanted = [line[len("no "):] for line in lines.splitlines() if line.startswith("no ")]
        same(f"{what}: the first faults", page.texts["li"], wanted[:10])
    stories(what, text, page, report["folder"], len(faults))
    same(f"{what}: partitions", page.rows["Partitions"][1:], [partition_row(row) for row in report["partitions"]])
    same(f"{what}: groups", page.rows["Groups"][1:], group_rows(report["groups"]))
    about = page.texts["p"][0]
    same(f"{what}: what was checked", about, f"Folder: {in_page(report['folder'])}\neoscheck {report['program']['version']}, workers: {report['workers']}")
    return page


def made(what, folder, *words):
    """The page and the report of one check, whose answer is that of a check without them."""
    page, report = os.path.join(scratch, "page.html"), os.path.join(scratch, "report.json")
    found = run("check", *words, "--page", page, "--report", report, folder)
    same(f"{what}: the answer", found, run("check", *words, folder))
    if found[0] > 1:
        same(f"{what}: no page", (os.path.exists(page), os.path.exists(report)), (False, False))
        return None
    with open(page, encoding="utf-8", newline="") as file:
        text = file.read()
    with open(report, encoding="utf-8") as file:
        value = json.load(file)
    os.remove(page)
    os.remove(report)
    same(f"{what}: nothing else", os.listdir(scratch), [])
    right(what, text, found[1], found[2], value)
    return text


def folders():
    kinds = set()
    for part in ("evidence", "stories"):
        with open(f"tests/{part}/expected.tsv", encoding="utf-8") as file:
            names = [(line.split("\t")[0], line.split("\t")[2]) for line in file]
        for name, line in names:
            kinds.add(line.split()[1] if line.startswith("no") else "yes")
            made(name, f"tests/{part}/{name}", "--all")
    # with the first fault alone
    made("one fault", FAULTY)
    same("each kind of fault", len(kinds) - len([1 for it in kinds if "." not in it]), 35)


def over_folds():
    """Where the logs are folds, there is no story; and the page says so, and stands."""
    folder, folds = os.path.join(scratch, "folded"), os.path.join(scratch, "folds")
    for name, kind in (("01-duplicate-output", "a later fault"), ("04-missing-marker", "a partition's fault")):
        made_of = f"tests/stories/{name}"
        shutil.copytree(made_of, folder)
        partitions = [os.path.join(made_of, it) for it in os.listdir(made_of) if it != "evidence.json"]
        same(f"{kind}: folds", run("fold", "--manifest", f"{made_of}/evidence.json", "--out", folds, *partitions)[0], 0)
        for partition in os.listdir(folds):
            for file in os.listdir(f"{folder}/{partition}"):
                os.remove(f"{folder}/{partition}/{file}")
            for file in os.listdir(f"{folds}/{partition}"):
                shutil.move(f"{folds}/{partition}/{file}", f"{folder}/{partition}/{file}")
        shutil.rmtree(folds)
        shutil.move(folder, other)
        text = made(f"{kind}, over folds", other)
        same(f"{kind}, over folds: no story", (text.count("<p>No story: "), text.count("<p>No picture: "), text.count("<svg ")), (1, 0, 1))
        if kind == "a later fault":
            made(f"{kind}, over folds, all", other, "--all")
        shutil.rmtree(other)


# ---- names that mean something to HTML

def odd_names():
    folder = Folder("tests/real-evidence/sarama-raw")
    name = next(name for name, log in folder.logs.items() if name.startswith("__transaction_state-") and log)
    name_of_it = "<script>alert(\"1\")&'</script>\u202e".encode()
    key = struct.pack(">hh", 0, len(name_of_it)) + name_of_it
    piece = folder.logs[name][1]
    folder.logs[name][1] = piece.with_records([(key, record.value, []) for record in piece.batch.records])
    settle(folder, name)
    path = os.path.join(scratch, "<b>&\"'\u202eé\x1b")
    folder.write(path)
    inner = os.path.join(scratch, "pages")
    os.mkdir(inner)
    page, report = os.path.join(inner, "page.html"), os.path.join(inner, "report.json")
    status, lines, notes = run("check", "--all", "--page", page, "--report", report, path)
    same("odd names", status, 1)
    with open(page, encoding="utf-8", newline="") as file, open(report, encoding="utf-8") as value:
        text = file.read()
        right("odd names", text, lines, notes, json.load(value))
    same("markup by its number", "&#60;b&#62;&#38;&#34;&#39;%e2%80%ae%c3%a9%1b" in text, True)
    shutil.rmtree(path)
    shutil.rmtree(inner)
    return text


# ---- refusals

def refused(what, words, message, before=None):
    same(what, run(*words, before=before), (2, "", message))


def no_bytes():
    signal.signal(signal.SIGXFSZ, signal.SIG_IGN)
    resource.setrlimit(resource.RLIMIT_FSIZE, (0, 0))


def refusals():
    path, report = os.path.join(scratch, "page.html"), os.path.join(scratch, "report.json")
    takes = "eoscheck: check --page takes"
    refused("several folders", ["check", "--page", path, GOOD, GOOD], f"{takes} one FOLDER\n")
    refused("the standard output", ["check", "--page", "-", GOOD], f"{takes} a FILE, not -\n")
    refused("the report's file", ["check", "--page", path, "--report", path, GOOD], "eoscheck: check --report and --page take two FILEs\n")
    refused("--force of nothing", ["check", "--force", GOOD], "eoscheck: check --force goes with --report or --page\n")
    same("the empty text", run("check", "--page", "", GOOD)[:2], (2, ""))
    with open(path, "w", encoding="utf-8") as file:
        file.write("mine")
    there = f"eoscheck: cannot write {path}: it is there already\n"
    refused("a file that is there", ["check", "--page", path, GOOD], there)
    refused("the same beside a report", ["check", "--report", report, "--page", path, GOOD], there)
    with open(path, encoding="utf-8") as file:
        same("it stays as it was", (file.read(), os.listdir(scratch)), ("mine", ["page.html"]))
    same("--force", run("check", "--force", "--page", path, "--report", report, GOOD)[0], 0)
    with open(path, encoding="utf-8") as file:
        same("it is written over", file.read().startswith("<!DOCTYPE html>"), True)
    os.remove(path)
    os.remove(report)
    under, over = os.path.relpath(report), os.path.abspath(report)
    refused("the report's file by another path", ["check", "--report", under, "--page", over, GOOD], f"eoscheck: cannot write {over}: it is there already\n")
    refused("the same with --force", ["check", "--force", "--report", under, "--page", over, GOOD], f"eoscheck: cannot write {over}.whole: it is there already\n")
    same("neither is left", os.listdir(scratch), [])
    absent = os.path.join(scratch, "absent", "page.html")
    refused("no such folder", ["check", "--page", absent, GOOD], f"eoscheck: cannot write {absent}: no such folder\n")
    status, out, err = run("check", "--page", path, GOOD, before=no_bytes)
    same("no room", (status, err, os.listdir(scratch)), (2, f"eoscheck: cannot write {path}\n", []))
    unread = run("check", "--page", path, "absent")
    same("no verdict, no page", (unread, os.listdir(scratch)), (run("check", "absent"), []))
    with open("/dev/full", "wb") as full:
        done = subprocess.run([program, "check", "--page", path, GOOD], stdout=full, stderr=subprocess.PIPE, timeout=60)
    same("an answer that can't be written", (done.returncode, os.listdir(scratch)), (2, []))


def lacks_for_memory(text, whole):
    """Whether a page is this one but for stories or pictures that memory was wanting for, and says so."""
    told = [TOLD.fullmatch(it.partition(HEADING)[2].partition("</h3>\n")[2].removesuffix("</body>\n</html>\n")) for it in (text, whole)]
    if text.partition(HEADING)[0] != whole.partition(HEADING)[0] or not all(told):
        return False
    story, no_story, picture, no_picture = told[0].groups()
    lacking = {words_of(it) for it in (no_story, no_picture) if it}
    return lacking == {"eoscheck: out of memory"} and story in (None, told[1][1]) and picture in (None, told[1][3])


def without_memory(library):
    """Each refused allocation: no page and status 3, or all is well, but for a story or a picture that is told to be lacking."""
    path, told, lacking = os.path.join(scratch, "page.html"), 0, 0
    words = ["check", "--all", "--quiet", "--workers", "1", "--page", path, FAULTY]
    good = run(*words)
    with open(path, encoding="utf-8") as file:
        whole = file.read()
    os.remove(path)
    count = os.path.join(scratch, "count")
    subprocess.run([program, *words], capture_output=True, timeout=60, env=dict(os.environ, LD_PRELOAD=library, REFUSE_COUNT=count))
    with open(count, encoding="ascii") as file:
        total = int(file.read())
    os.remove(count)
    os.remove(path)
    for at in range(1, total + 1):
        env = dict(os.environ, LD_PRELOAD=library, REFUSE_AT=str(at))
        done = subprocess.run([program, *words], capture_output=True, text=True, timeout=60, env=env)
        left = os.listdir(scratch)
        if os.path.exists(path):
            with open(path, encoding="utf-8") as file:
                text = file.read()
            os.remove(path)
            lacks = lacks_for_memory(text, whole)
            lacking += lacks
            same(f"allocation {at}", (done.returncode, done.stdout, text == whole or lacks, left), (good[0], good[1], True, ["page.html"]))
        else:
            same(f"allocation {at}", (done.returncode, done.stderr, left), (3, "eoscheck: out of memory\n", []))
            told += 1
    same("refused allocations are told", (told > 100, lacking > 100), (True, True))


# ---- how browsers read it

class Tree(html.parser.HTMLParser):
    """A page as a list of its tags, with what they are given, and of its texts but for spaces; tables have the part that each browser adds."""

    def __init__(self, text):
        super().__init__(convert_charrefs=True)
        self.parts, self.held = [], []
        self.feed(text)
        self.close()
        self.flush()

    def flush(self):
        words = "".join(self.held).split()
        self.parts += [" ".join(words)] if words else []
        self.held = []

    def handle_starttag(self, tag, attrs):
        self.flush()
        self.parts += [" ".join([f"<{tag}", *sorted(f'{name}="{value}"' for name, value in attrs)]), *(["<tbody"] if tag == "table" else [])]
        if tag in VOID:
            self.parts.append(f"</{tag}")

    def handle_startendtag(self, tag, attrs):
        self.handle_starttag(tag, attrs)
        self.handle_endtag(tag)

    def handle_endtag(self, tag):
        self.flush()
        self.parts += [*(["</tbody"] if tag == "table" else []), f"</{tag}"]

    def handle_data(self, data):
        self.held.append(data)


def valid(pages):
    """Each page, by what it is, by what reads HTML to the letter, as far as it is there."""
    try:
        import html5lib
    except ImportError:
        print("skipped: html5lib over each page (Debian's python3-html5lib isn't there)")
    else:
        for what, text in pages.items():
            reader = html5lib.HTMLParser()
            reader.parse(text)
            same(f"{what}: html5lib", reader.errors, [])
    if not shutil.which("tidy"):
        print("skipped: tidy over each page (no tidy on the path)")
        return
    for what, text in pages.items():
        done = subprocess.run(["tidy", "-errors", "-quiet", "-utf8"], input=text.encode(), capture_output=True, timeout=60)
        # what it warns of is good HTML: an empty text, and attributes of SVG that it doesn't know
        said = [line for line in done.stderr.decode().splitlines() if not re.search("trimming empty <pre>|proprietary attribute .font-", line)]
        same(f"{what}: tidy", (done.returncode < 2, said), (True, []))


# ---- how it looks

# Windows of some widths with a page in each, of which a script tells how they are laid out: how wide the page's content is; which elements that
# are no part of a box that moves by itself are wider than the window; how wide pictures are, and their boxes; and what no page may have.
FRAMES = """<!DOCTYPE html><meta charset="utf-8"><pre id="told"></pre>
{frames}
<script>
const look = frame => {{
  const page = frame.contentDocument, root = page.documentElement;
  const loose = [...page.body.querySelectorAll("*")].filter(it => !it.parentElement.closest("div") && it.getBoundingClientRect().right > root.clientWidth + 1);
  const pictures = [...page.querySelectorAll("svg")].map(it => [it.getBoundingClientRect().width, it.parentElement.clientWidth, it.parentElement.scrollWidth]);
  const tags = page.querySelectorAll("script, img, link, iframe, object, a, [id], [style]").length;
  const parts = [];
  let held = "";
  const flush = () => {{ if (held.trim()) parts.push(held.trim().split(/[ \\n]+/).join(" ")); held = ""; }};
  const walk = it => {{
    if (it.nodeType === 3) held += it.data;
    if (it.nodeType !== 1) return;
    flush();
    const name = it.localName.toLowerCase();
    parts.push(["<" + name, ...[...it.attributes].map(of => of.name.toLowerCase() + '="' + of.value + '"').sort()].join(" "));
    [...it.childNodes].forEach(walk);
    flush();
    parts.push("</" + name);
  }};
  walk(root);
  return {{width: root.clientWidth, content: root.scrollWidth, loose: loose.map(it => it.outerHTML.slice(0, 80)), pictures, tags, faults: page.querySelectorAll("h3").length, parts, mode: page.compatMode}};
}};
onload = () => {{ document.getElementById("told").textContent = JSON.stringify([...document.querySelectorAll("iframe")].map(look)) + "."; }};
</script>
"""
FRAME = """<iframe scrolling="no" style="width: {}px; height: 900px; border: 0" srcdoc="{}"></iframe>"""
# A telephone's and a desk's; and a sheet of A4 with its margins, where what the style sheet says of print holds.
WINDOWS = (360, 1400)
SHEET = 718


def laid_out(browser, pages):
    """How pages are laid out, each in a window of its width."""
    path = os.path.join(scratch, "frames.html")
    with open(path, "w", encoding="utf-8") as file:
        file.write(FRAMES.format(frames="\n".join(FRAME.format(width, html.escape(text)) for text, width in pages)))
    words = [browser, "--headless", "--no-sandbox", "--disable-gpu", "--window-size=1600,1000", "--virtual-time-budget=20000", "--dump-dom", f"file://{path}"]
    done = subprocess.run(words, capture_output=True, timeout=600)
    os.remove(path)
    return json.loads(html.unescape(re.search('<pre id="told">(.*?)[.]</pre>', done.stdout.decode(), re.DOTALL).group(1)))


def look_at(browser, pages):
    """Looks at these pages, by what they are."""
    shown = [(what, text, width) for what, text in pages.items() for width in (*WINDOWS, SHEET)]
    layouts = laid_out(browser, [(text.replace("@media print", "@media all") if width == SHEET else text, width) for _, text, width in shown])
    for (what, text, width), found in zip(shown, layouts):
        where = f"{what}, in print" if width == SHEET else f"{what}, at {width} pixels"
        pictures, parts = found.pop("pictures"), found.pop("parts")
        same(where, found, {"width": width, "content": width, "loose": [], "tags": 0, "faults": text.count("<h3>"), "mode": "CSS1Compat"})
        if width == WINDOWS[0]:
            wanted = Tree(text).parts
            other = next((pair for pair in zip(parts, wanted) if pair[0] != pair[1]), None)
            same(f"{what}: the tree that a browser reads", (other, len(parts)), (None, len(wanted)))
        if width == SHEET:
            same(f"{where}: pictures", [it for it in pictures if it[0] > it[1] + 1], [])
        else:
            # a picture is as large as it is drawn, and moves inside its box
            sizes = [int(it) for it in re.findall('<svg [^>]*? width="([0-9]+)"', text)]
            same(f"{where}: pictures", [(round(it[0]), it[1] <= width, it[2] >= it[0] - 1) for it in pictures], [(it, True, True) for it in sizes])


def each_kind():
    """A page of each kind of fault and of a yes, and the one with odd names."""
    path, pages = os.path.join(scratch, "page.html"), {"odd names": odd_text}
    for part in ("stories", "evidence"):
        with open(f"tests/{part}/expected.tsv", encoding="utf-8") as file:
            names = [(line.split("\t")[0], line.split("\t")[2].split()[:2]) for line in file]
        for name, verdict in names:
            # one of each kind, and of a yes
            kind = verdict[1] if verdict[0] == "no" else "yes"
            if kind in pages:
                continue
            run("check", "--all", "--page", path, f"tests/{part}/{name}")
            with open(path, encoding="utf-8") as file:
                pages[kind] = file.read()
            os.remove(path)
    same("each kind has a page", len(pages), 37)
    return pages


def looks(pages):
    browser = next((it for it in ("chromium", "chromium-browser", "google-chrome") if shutil.which(it)), None)
    if not browser:
        print("skipped: how a page looks (no Chromium on the path)")
        return
    look_at(browser, pages)
    path = os.path.join(scratch, "page.html")
    run("check", "--all", "--page", path, FAULTY)
    printed = os.path.join(scratch, "page.pdf")
    done = subprocess.run([browser, "--headless", "--no-sandbox", f"--print-to-pdf={printed}", f"file://{path}"], capture_output=True, timeout=120)
    same("in print", (done.returncode, os.path.exists(printed)), (0, True))


if __name__ == "__main__":
    program = os.path.abspath(sys.argv[1])
    with tempfile.TemporaryDirectory() as scratch, tempfile.TemporaryDirectory() as beside:
        other = os.path.join(beside, "folded")
        folders()
        over_folds()
        odd_text = odd_names()
        refusals()
        if len(sys.argv) > 2:
            without_memory(os.path.abspath(sys.argv[2]))
        kinds = each_kind()
        valid(kinds)
        looks(kinds)
    print(f"{passed} passed, {failed} failed")
    sys.exit(1 if failed else 0)
