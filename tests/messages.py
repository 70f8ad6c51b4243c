#!/usr/bin/env -S python3 -B
"""What is said of a refusal: its first line, and a second one with the cause. Each refusal of the manifest, of files and folders
and of limits; several folders; the hint and the progress that a terminal gets.

    python3 -B tests/messages.py PROGRAM [REFUSE.SO]

The texts are written down here by hand, and no program made them. With REFUSE.SO, which is tests/refuse.c, built, it is only
tried what is said where memory is refused to the cause. The last line is 'N passed, N failed'.
"""
import json
import os
import pty
import re
import shutil
import subprocess
import sys
import tempfile
import time

EVIDENCE = "tests/evidence"
GOOD = f"{EVIDENCE}/row-yes-2"
YES = "yes transactions=1 inputs=2 outputs=3\n"
MOST_BYTES = 1 << 30
NOBODY = 65534
LONG = "has more than 1073741824 bytes, as many as a segment may have"

passed = failed = 0


def same(what, found, want):
    global passed, failed
    if found == want:
        passed += 1
    else:
        failed += 1
        print(f"FAILED: {what}: {found}, not {want}")


def run(*words, cwd=None, demoted=False, **streams):
    streams.setdefault("stdin", subprocess.DEVNULL)
    streams.setdefault("stdout", subprocess.PIPE)
    streams.setdefault("stderr", subprocess.PIPE)
    before = (lambda: (os.setgid(NOBODY), os.setuid(NOBODY))) if demoted else None
    done = subprocess.run([program, *words], cwd=cwd, timeout=120, preexec_fn=before, **streams)
    return done.returncode, *((part or b"").decode() for part in (done.stdout, done.stderr))


def said(first, second=None, about=""):
    return "".join(f"{about}{line}\n" for line in (f"eoscheck: {first}", second and f"  {second}") if line)


# ---- manifests

APP = '"group":"g","sources":["in"],"outputs":["out"]'
ENDS = '"ends":{"in-0":2,"out-0":3}'
TOPIC = "; a topic's name is wanted"
LARGEST = 9223372036854775807


def one(group='"g"', sources='["in"]', outputs='["out"]', ends='{"in-0":2,"out-0":3}', version="1"):
    """A manifest of version 1 with these values."""
    return f'{{"version":{version},"group":{group},"sources":{sources},"outputs":{outputs},"ends":{ends}}}'


def two(*apps, ends='{"in-0":2}'):
    """A manifest of version 2 with these applications."""
    return f'{{"version":2,"apps":[{",".join(apps)}],"ends":{ends}}}'


def app(group='"g"', sources='["in"]', outputs='["out"]'):
    return f'{{"group":{group},"sources":{sources},"outputs":{outputs}}}'


def without(text, member):
    value = json.loads(text)
    del value[member]
    return json.dumps(value)


def many_apps(count):
    return two(*(app(f'"g{k}"', "[]", "[]") for k in range(count)))


def many_ends(count):
    return one(ends="{" + ",".join(f'"in-{k}":0' for k in range(count)) + "}")


LINES = '''{
  "version": 1,
  "group": "g",
  "sources": ["in"], "outputs": ["out"],
  "ends": { "orders-00": 1 }
}
'''

# The manifest, the refusal, its cause and what stands at the place that it is about, from there on; the text's end for none.
MANIFESTS = [
    ("", "Json", "the text ends too early, at byte 0", ""),
    ('{"version":1', "Json", "the text ends too early, at byte 12", ""),
    ('{"version":1,}', "Json", "the text stops being JSON at byte 13", "}"),
    ('{"version":1,\n "group":g}', "Json", "the text stops being JSON at byte 23", "g}"),
    ('{"version":1} {}', "Json", "the text stops being JSON at byte 14", "{}"),
    (b'{"group":"\xff"}', "Json", "the bytes stop being UTF-8 at byte 10", b"\xff"),
    ('{"a":' + "[" * 126 + "[0]", "Json", "the text nests deeper than 127 at byte 131", "[0]"),
    ("[1]", "Field", "the manifest is an array; an object is wanted", "[1]"),
    ("null", "Field", "the manifest is null; an object is wanted", "null"),
    (without(one(), "version"), "Field", "version is absent", "{"),
    (one(version='"1"'), "Field", "version is a text; an integer is wanted", '"1"'),
    (one(version="1.0"), "Field", "version is a number that isn't an integer of 64 bits; an integer is wanted", "1.0"),
    (one(version="true"), "Field", "version is a boolean; an integer is wanted", "true"),
    (one(version="3"), "Version", "version is 3; 1 or 2 is wanted", "3,"),
    (one(version="-1"), "Version", "version is -1; 1 or 2 is wanted", "-1"),
    (one(version=str(2**64 - 1)), "Version", f"version is {2**64 - 1}; 1 or 2 is wanted", str(2**64 - 1)),
    (without(one(), "group"), "Field", "group is absent", "{"),
    (one(group="5"), "Field", "group is an integer; a text is wanted", "5,"),
    (without(one(), "sources"), "Field", "sources is absent", "{"),
    (one(sources='"in"'), "Field", "sources is a text; an array is wanted", '"in",'),
    (one(sources='["in",null]'), "Field", "sources[1] is null; a text is wanted", "null"),
    (without(one(), "outputs"), "Field", "outputs is absent", "{"),
    (one(outputs="{}"), "Field", "outputs is an object; an array is wanted", "{},"),
    (one(outputs="[[]]"), "Field", "outputs[0] is an array; a text is wanted", "[]]"),
    (without(one(), "ends"), "Field", "ends is absent", "{"),
    (one(ends="[]"), "Field", "ends is an array; an object is wanted", "[]"),
    (one(ends='{"orders-00":1}'), "Field", 'ends["orders-00"] isn\'t a partition\'s name', '"orders-00'),
    (one(ends='{"orders":1}'), "Field", 'ends["orders"] isn\'t a partition\'s name', '"orders"'),
    (one(ends='{"orders-2147483648":1}'), "Field", 'ends["orders-2147483648"] isn\'t a partition\'s name', '"orders-2147483648"'),
    (one(ends='{"orders-+1":1}'), "Field", 'ends["orders-+1"] isn\'t a partition\'s name', '"orders-+1"'),
    (one(ends='{"orders-0":"1"}'), "Field", 'ends["orders-0"] is a text; an integer is wanted', '"1"'),
    (one(ends='{"orders-0":1.5}'), "Field", 'ends["orders-0"] is a number that isn\'t an integer of 64 bits; an integer is wanted', "1.5"),
    (one(ends='{"orders-0":-0}'), "Field", 'ends["orders-0"] is a number that isn\'t an integer of 64 bits; an integer is wanted', "-0}"),
    (one(ends=f'{{"orders-0":{LARGEST + 1}}}'), "Field", f'ends["orders-0"] is {LARGEST + 1}; 0 to {LARGEST} is wanted', str(LARGEST + 1)),
    (one(ends='{"orders-0":-1}'), "Field", f'ends["orders-0"] is -1; 0 to {LARGEST} is wanted', "-1"),
    (one(ends='{"or ders-0":1}'), "Field", 'ends["or ders-0"] isn\'t a partition\'s name, since its topic\'s isn\'t one', '"or ders-0"'),
    (one(ends='{"-0":1}'), "Field", 'ends["-0"] isn\'t a partition\'s name, since its topic\'s isn\'t one', '"-0"'),
    (one(ends='{"a\\"\\n\\\\":1}'), "Field", 'ends["a\\"\\u000a\\\\"] isn\'t a partition\'s name', '"a\\"'),
    (one(sources='["or ders"]'), "Field", 'sources[0] is "or ders"' + TOPIC, '"or ders"'),
    (one(sources='["in",".."]'), "Field", 'sources[1] is ".."' + TOPIC, '".."'),
    (one(outputs='["' + 250 * "o" + '"]'), "Field", f'outputs[0] is "{250 * "o"}"' + TOPIC, '"ooo'),
    (one(sources='["__consumer_offsets"]'), "Field", 'sources[0] is "__consumer_offsets"; a topic that isn\'t Kafka\'s own is wanted', '"__consumer_offsets"'),
    (one(outputs='["__transaction_state"]'), "Field", 'outputs[0] is "__transaction_state"; a topic that isn\'t Kafka\'s own is wanted', '"__transaction_state"'),
    (one(sources='["in","a","in"]'), "Field", 'sources[2] is "in" again; an application names a topic once', '"in"],"outputs'),
    (one(outputs='["out","in"]'), "Field", 'outputs[1] is "in" again; an application names a topic once', '"in"],"ends'),
    ('{"version":2,' + ENDS + "}", "Field", "apps is absent", "{"),
    ('{"version":2,"apps":{},' + ENDS + "}", "Field", "apps is an object; an array is wanted", "{},"),
    (two(app(), '"g"'), "Field", "apps[1] is a text; an object is wanted", '"g"],'),
    (two(app(), '{"group":"h","outputs":[]}'), "Field", "apps[1].sources is absent", '{"group":"h"'),
    (two(app(), app("null")), "Field", "apps[1].group is null; a text is wanted", "null"),
    (two(app(sources='["in",7]')), "Field", "apps[0].sources[1] is an integer; a text is wanted", "7]"),
    (two(app(), app('"h"', '["in"]', '["a/b"]')), "Field", 'apps[1].outputs[0] is "a/b"' + TOPIC, '"a/b"'),
    (two(app(), app('"g"', '["in"]', '["fin"]')), "Field", 'two applications have the group "g"', '"g","sources":["in"],"outputs":["fin"]'),
    (two(app(), app('"h"', '["in"]', '["out"]')), "Field", 'two applications have the output topic "out"', '"out"]}],'),
    (many_apps(257), "Limit", "apps has 257 items; at most 256 are allowed", '[{"group":"g0"'),
    (many_ends(4097), "Limit", "ends has 4097 members; at most 4096 are allowed", '{"in-0":0,'),
    # the first in the stated order: version, types, ends' names, applications, ends, numbers
    ('{"version":3,"ends":7}', "Version", "version is 3; 1 or 2 is wanted", "3,"),
    (one(sources='[""]', ends='{"x":0}'), "Field", 'ends["x"] isn\'t a partition\'s name', '"x"'),
    (one(sources='[""]', ends='{"in-0":-1}'), "Field", 'sources[0] is ""' + TOPIC, '""]'),
    (one(ends='{"b-0":-1,"a-0":-2}'), "Field", f'ends["a-0"] is -2; 0 to {LARGEST} is wanted', "-2"),
    (two(*(app('"g"', "[]", "[]") for _ in range(257))), "Field", 'two applications have the group "g"', 70),
    # lines, and characters of them
    (LINES, "Field", 'ends["orders-00"] isn\'t a partition\'s name', '"orders-00"'),
    (LINES.replace("\n", "\r\n"), "Field", 'ends["orders-00"] isn\'t a partition\'s name', '"orders-00"'),
    ('{"\u00e9\u20ac\U0001f600":"\u00e9","version":1,"group":7}', "Field", "group is an integer; a text is wanted", "7}"),
    ('{"\\u0067roup":5,\n"version":1}', "Field", "group is an integer; a text is wanted", "5,"),
    # the last of those of a name counts
    (one(ends='{"in-0":"x","in-0":-1}'), "Field", f'ends["in-0"] is -1; 0 to {LARGEST} is wanted', "-1"),
    (" \n\t[]", "Field", "the manifest is an array; an object is wanted", "[]"),
]

# The refused manifests among the folders of tests/evidence.
REFUSED = [
    ("random-Field-1", "Field", "1:82: ends is an array; an object is wanted"),
    ("random-Field-2", "Field", "1:13: version is a number that isn't an integer of 64 bits; an integer is wanted"),
    ("random-Json-1", "Json", "1:414: the text nests deeper than 127 at byte 413"),
    ("random-Json-2", "Json", "1:424: the text nests deeper than 127 at byte 423"),
    ("random-Limit-1", "Limit", "1:87: ends has 4103 members; at most 4096 are allowed"),
]


def position(text, part):
    """The line and the character at which this part of a text begins, or which has this number."""
    at = part if isinstance(part, int) else text.index(part) if part else len(text)
    before = text[:at].decode("ascii") if isinstance(text, bytes) else text[:at]
    return f"{before.count(chr(10)) + 1}:{len(before.rsplit(chr(10), 1)[-1]) + 1}"


def manifests(room):
    folder = f"{room}/manifest"
    os.mkdir(folder)
    for text, fault, cause, part in MANIFESTS:
        with open(f"{folder}/evidence.json", "wb") as file:
            file.write(text if isinstance(text, bytes) else text.encode())
        second = f"{folder}/evidence.json:{position(text, part)}: {cause}"
        same(f"the manifest {text[:60]!r}", run("check", folder), (2, "", said(f"evidence.json: {fault}", second)))
    same("lines", position(LINES, '"orders-00"'), "5:13")


def refused_samples():
    for name, fault, cause in REFUSED:
        second = f"{EVIDENCE}/{name}/evidence.json:{cause}"
        same(f"check of {name}", run("check", f"{EVIDENCE}/{name}"), (2, "", said(f"evidence.json: {fault}", second)))


# ---- files and folders

def copy_of_good(room, name):
    folder = f"{room}/{name}"
    shutil.copytree(GOOD, folder)
    subprocess.run(["chmod", "-R", "u+w,a+rX", folder], check=True)
    return folder


def unread(path, cause):
    return 2, "", said(f"cannot read {path}", cause)


def folded(room):
    """Of a fold, which is no segment, it is said that it is one."""
    done = run("fold", "--manifest", f"{GOOD}/evidence.json", "--out", f"{room}/folds", f"{GOOD}/in-0")
    file = f"{room}/folds/in-0/00000000000000000000.fold"
    same("a fold is made", (done[0], os.path.isfile(file)), (0, True))
    for word in "dump", "chain":
        status, _, err = run(word, file)
        same(f"{word} of a fold", (status, err), (1, f"eoscheck: {file} has the name of a fold, which check reads; dump and chain read segments\n"))


def long_file(path):
    with open(path, "wb") as file:
        file.truncate(MOST_BYTES + 1)


def folders(room):
    LOG = "00000000000000000000.log"
    same("an absent folder", run("check", f"{room}/absent"), unread(f"{room}/absent/evidence.json", "no such file"))
    folder = copy_of_good(room, "places")
    file = f"{folder}/in-0/{LOG}"
    same("a file in the folder's place", run("check", file), unread(f"{file}/evidence.json", "not a folder"))
    os.remove(file)
    os.mkdir(file)
    same("a folder in a segment's place", run("check", folder), unread(file, "a folder"))
    shutil.rmtree(f"{folder}/in-0")
    with open(f"{folder}/in-0", "wb"):
        pass
    same("a file in a partition's place", run("check", folder), unread(f"{folder}/in-0", "not a folder"))
    os.remove(f"{folder}/in-0")
    os.symlink("nowhere", f"{folder}/in-0")
    same("a link to nothing in a partition's place", run("check", folder), unread(f"{folder}/in-0", "no such file"))
    os.remove(f"{folder}/in-0")
    os.symlink("in-0", f"{folder}/in-0")
    loop = "filesystem loop or indirection limit (e.g. symlink loop)"
    same("a link to itself in a partition's place", run("check", folder), unread(f"{folder}/in-0", loop))
    os.remove(f"{folder}/evidence.json")
    os.mkdir(f"{folder}/evidence.json")
    same("a folder in the manifest's place", run("check", folder), unread(f"{folder}/evidence.json", "a folder"))

    folder = copy_of_good(room, "long")
    long_file(f"{folder}/out-0/{LOG}")
    same("a long segment", run("check", folder), (2, "", said("limit", f"{folder}/out-0/{LOG} {LONG}")))
    long_file(f"{folder}/evidence.json")
    same("a long manifest", run("check", folder), (2, "", said("limit", f"{folder}/evidence.json {LONG}")))
    os.remove(f"{folder}/evidence.json")


def locked(room):
    """What may not be read: as root the program has to be somebody else for it."""
    demoted = os.geteuid() == 0
    folder = copy_of_good(room, "locked")
    os.chmod(room, 0o755)
    for place, opened in (("in-0/00000000000000000000.log", 0o644), ("in-0", 0o755), ("evidence.json", 0o644)):
        path = f"{folder}/{place}"
        os.chmod(path, 0)
        same(f"{place}, locked", run("check", folder, demoted=demoted), unread(path, "permission denied"))
        os.chmod(path, opened)
    same("the same, open", run("check", folder, demoted=demoted), (0, YES, ""))


def segments(room):
    for command in ("dump", "chain"):
        same(f"{command} of nothing", run(command, f"{room}/absent"), unread(f"{room}/absent", "no such file"))
        same(f"{command} of a folder", run(command, room), unread(room, "a folder"))
        with open(f"{room}/long.log", "wb") as file:
            file.truncate(MOST_BYTES + 1)
        same(f"{command} of a long file", run(command, f"{room}/long.log"), (2, "", said("limit", f"{room}/long.log {LONG}")))
    with open(f"{room}/long.log", "rb") as file:
        same("dump of a long stream", run("dump", "-", stdin=file), (2, "", said("limit", f"- {LONG}")))
    stream = os.open(room, os.O_RDONLY)
    same("dump of a folder as a stream", run("dump", "-", stdin=stream), unread("-", "a folder"))
    os.close(stream)
    os.remove(f"{room}/long.log")


# ---- several folders

def several(room):
    yes, absent = copy_of_good(room, "yes"), f"{room}/none"
    refused = f"{room}/refused"
    os.mkdir(refused)
    with open(f"{refused}/evidence.json", "w", encoding="utf-8") as file:
        file.write(one(version="3"))
    no = copy_of_good(room, "no")
    os.remove(f"{no}/in-0/00000000000000000000.log")
    end = "no 1.10 End in-0 offset=0 end=2\n"
    same("the folder of a no", run("check", no), (1, end, ""))
    same("two of a yes", run("check", yes, yes), (0, f"{yes}: {YES}" * 2, ""))
    same("a yes and a no", run("check", yes, no), (1, f"{yes}: {YES}{no}: {end}", ""))
    same("a no and a yes", run("check", no, yes), (1, f"{no}: {end}{yes}: {YES}", ""))
    first = said(f"cannot read {absent}/evidence.json", "no such file", f"{absent}: ")
    second = said("evidence.json: Version", f"{refused}/evidence.json:1:12: version is 3; 1 or 2 is wanted", f"{refused}: ")
    found = run("check", no, absent, "--workers", "2", refused, yes)
    same("two that are refused among others", found, (2, f"{no}: {end}{yes}: {YES}", first + second))
    json_line = '{"answer":"yes","inputs":2,"outputs":3,"transactions":1}\n'
    same("two as JSON", run("check", "--json", yes, yes), (0, f"{yes}: {json_line}" * 2, ""))
    with open("/dev/full", "wb") as full:
        status, _, err = run("check", yes, yes, absent, stdout=full)
    same("two to a full device", (status, err), (2, f"{yes}: eoscheck: cannot write -\n"))
    for words in ([""], [yes, ""], ["", yes]):
        status, out, err = run("check", *words, cwd=room)
        same(f"check of {words}", (status, out, bool(err), "evidence.json" in err), (2, "", True, False))


# ---- progress, and what a terminal gets

LINE = re.compile(r"eoscheck: read \d+ of \d+ segments, \d+ bytes")
TIMES = re.compile(r"eoscheck: seconds read=\d+\.\d{3} folded=\d+\.\d{3} judged=\d+\.\d{3}")


def are_lines(lines, most=20):
    """Whether there is a line of progress, at most so many, and then the times."""
    return 2 <= len(lines) <= most + 1 and all(map(LINE.fullmatch, lines[:-1])) and TIMES.fullmatch(lines[-1]) is not None


def at_terminal(*words):
    """What is answered, and what a terminal as standard error and standard input gets."""
    ours, theirs = pty.openpty()
    done = subprocess.run([program, *words], stdin=theirs, stdout=subprocess.PIPE, stderr=theirs, timeout=60)
    os.close(theirs)
    told = b""
    while True:
        try:
            part = os.read(ours, 4096)
        except OSError:
            break
        if not part:
            break
        told += part
    os.close(ours)
    return done.returncode, done.stdout.decode(), told.decode().replace("\r\n", "\n")


def waits():
    """Without words, a terminal is told how to begin, and isn't read."""
    ours, theirs = pty.openpty()
    done = subprocess.run([program], stdin=theirs, capture_output=True, timeout=60)
    os.close(theirs)
    os.close(ours)
    hint = "eoscheck: no words; 'eoscheck check FOLDER' checks a folder of logs, 'eoscheck --help' says what else there is\n"
    same("no words at a terminal", (done.returncode, done.stdout.decode(), done.stderr.decode()), (2, "", hint))
    ours, theirs = pty.openpty()
    os.write(ours, b"\x04")
    done = subprocess.run([program, "dump", "-"], stdin=theirs, capture_output=True, timeout=60)
    os.close(theirs)
    os.close(ours)
    same("dump at a terminal", (done.stdout.decode(), done.stderr.decode()), ("end bytes=0\n", ""))


def progress(room):
    folder = copy_of_good(room, "progress")
    same("without it", run("check", folder), (0, YES, ""))
    size = sum(os.path.getsize(f"{at}/{name}") for at, _, names in os.walk(folder) for name in names if name.endswith(".log"))
    status, out, err = run("check", "--progress", "--workers", "1", folder)
    lines = err.splitlines()
    same(f"with it: {err}", (status, out, are_lines(lines)), (0, YES, True))
    sizes = [int(part) for part in re.findall(r"(\d+) bytes", err)]
    same(f"its bytes: {err}", all(0 < part <= size for part in sizes), True)
    same(f"its segments: {err}", " of 5 segments" in lines[0], True)
    status, out, err = run("check", "--progress", folder, folder)
    told = [line.removeprefix(f"{folder}: ") for line in err.splitlines()]
    times = [at for at, line in enumerate(told) if TIMES.fullmatch(line)]
    same(f"of two: {err}", (status, out, len(times), times[-1:]), (0, f"{folder}: {YES}" * 2, 2, [len(told) - 1]))
    same(f"of two, each line: {err}", all(line.startswith(f"{folder}: eoscheck: ") for line in err.splitlines()), True)
    same(f"of two, the first line at once: {err}", LINE.fullmatch(told[0]) is not None and times[0] >= 1, True)
    status, out, err = at_terminal("check", folder)
    same(f"at a terminal: {err}", (status, out, are_lines(err.splitlines())), (0, YES, True))

    for base in range(1, 20000):
        with open(f"{folder}/out-0/{base:020}.log", "wb"):
            pass
    began = time.monotonic()
    status, out, err = run("check", "--progress", folder)
    most = 2 + int(4 * (time.monotonic() - began))
    same(f"of many segments, at most {most}: {err}", are_lines(err.splitlines(), most=most), True)


# ---- memory refused

def refused(room, library):
    """Each allocation of a run that refuses a manifest, a third of them, is refused in turn: both lines, the first alone, or out of memory."""
    folder = f"{room}/refused-memory"
    os.mkdir(folder)
    for text, fault, cause, part in [row for row in MANIFESTS if len(row[0]) < 200][::3]:
        with open(f"{folder}/evidence.json", "wb") as file:
            file.write(text if isinstance(text, bytes) else text.encode())
        second = f"{folder}/evidence.json:{position(text, part)}: {cause}"
        whole, alone = said(f"evidence.json: {fault}", second), said(f"evidence.json: {fault}")
        run("check", folder, env=dict(os.environ, LD_PRELOAD=library, REFUSE_COUNT=f"{room}/count"))
        with open(f"{room}/count", encoding="ascii") as file:
            count = int(file.read())
        met = set()
        for at in range(1, count + 1):
            met.add(run("check", folder, env=dict(os.environ, LD_PRELOAD=library, REFUSE_AT=str(at))))
        memory = (3, "", said("out of memory"))
        same(f"{count} refused allocations at {text[:60]!r}", met - {(2, "", whole), (2, "", alone), memory}, set())
        same(f"it is told of {count} refused allocations at {text[:60]!r}", memory in met and (2, "", alone) in met, True)


def main():
    if len(sys.argv) > 2:
        with tempfile.TemporaryDirectory() as room:
            refused(room, os.path.abspath(sys.argv[2]))
        print(f"{passed} passed, {failed} failed")
        sys.exit(1 if failed else 0)
    with tempfile.TemporaryDirectory() as room:
        manifests(room)
        refused_samples()
        folders(room)
        locked(room)
        segments(room)
        folded(room)
        several(room)
        waits()
        progress(room)
    print(f"{passed} passed, {failed} failed")
    sys.exit(1 if failed else 0)


if __name__ == "__main__":
    program = os.path.abspath(sys.argv[1])
    main()
