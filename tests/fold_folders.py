"""What the tests of fold files share: runs of the program that are counted, folders of evidence, and the folds that are wanted of them.

For tests/folds.py and the files that it names.
"""
import json
import os
import re
import shutil
import subprocess

import fold_files
import plain_logs
from mutants import LAST_OFFSET

SEGMENT = re.compile(r"([0-9]{20})[.]log")
EITHER = re.compile(r"([0-9]{20})[.](log|fold)")


class Tests:
    """The program, a folder for scratch, and how many tests passed and failed."""

    def __init__(self, program, room):
        self.program, self.room = program, room
        self.passed = self.failed = 0

    def same(self, name, found, wanted):
        if found == wanted:
            self.passed += 1
        else:
            self.failed += 1
            print(f"FAILED: {name}: {str(found)[:900]}, not {str(wanted)[:900]}")

    def run(self, *words, cwd=None, before=None, **settings):
        done = subprocess.run(
            [self.program, *words],
            cwd=cwd,
            stdin=subprocess.DEVNULL,
            capture_output=True,
            preexec_fn=before,
            env=dict(os.environ, **settings),
            timeout=120,
        )
        return done.returncode, done.stdout.decode(), done.stderr.decode()

    def check(self, folder, *words):
        """What `check` says of a folder, whatever its name is, but for the note of its folds behind all others, which has to stand there."""
        status, out, err = self.run("check", *words, folder)
        if status < 2:
            note = note_of_folds(folder)
            self.same(f"{folder}: the note of its folds", (err[len(err) - len(note) :], err.count("judged by folds")), (note, note.count("\n")))
            err = err[: len(err) - len(note)]
        return status, out.replace(folder, "FOLDER"), err.replace(folder, "FOLDER")

    def new(self, name):
        """A path in the scratch folder at which nothing stands."""
        path = os.path.join(self.room, name)
        shutil.rmtree(path, ignore_errors=True)
        return path


def manifest_of(folder):
    with open(os.path.join(folder, "evidence.json"), encoding="utf-8") as file:
        manifest = json.load(file)
    apps = manifest["apps"] if manifest["version"] == 2 else [manifest]
    return manifest, [plain_logs.App(a["group"].encode(), *({t.encode() for t in a[k]} for k in ("sources", "outputs"))) for a in apps]


def name_of(partition):
    topic, number = partition.rsplit("-", 1)
    return topic.encode(), int(number)


def partitions_of(folder):
    """The partitions that are evidence and have a folder, in the order in which they are read."""
    names = [it for it in manifest_of(folder)[0]["ends"] if os.path.isdir(os.path.join(folder, it))]
    return sorted(names, key=name_of)


def segments_of(folder, partition):
    """The bases of a partition's segments."""
    found = (SEGMENT.fullmatch(it) for it in os.listdir(os.path.join(folder, partition)))
    return sorted(int(it[1]) for it in found if it and int(it[1]) <= LAST_OFFSET)


def forms_of(folder):
    """In which form each segment stands in the partitions that are evidence."""
    found = (EITHER.fullmatch(it) for partition in partitions_of(folder) for it in os.listdir(os.path.join(folder, partition)))
    return [it[2] for it in found if it and int(it[1]) <= LAST_OFFSET]


def note_of_folds(folder):
    """What `check` says of them behind its notes, if there are any."""
    forms = forms_of(folder)
    folds = forms.count("fold")
    return f"eoscheck: note: {folds} of {len(forms)} segments were judged by folds\n" if folds else ""


def read(path):
    with open(path, "rb") as file:
        return file.read()


def write(path, data):
    os.makedirs(os.path.dirname(path), exist_ok=True)
    with open(path, "wb") as file:
        file.write(data)


def log_path(partition, base):
    return os.path.join(partition, f"{base:020}.log")


def fold_path(partition, base):
    return os.path.join(partition, f"{base:020}.fold")


def fold_bytes(folder, partition, base):
    """The fold file that is wanted of a segment."""
    _, apps = manifest_of(folder)
    topic, number = name_of(partition)
    roles, sources = fold_files.roles_of(apps, topic), fold_files.sources_of(apps)
    data = read(os.path.join(folder, log_path(partition, base)))
    return fold_files.file_of(fold_files.fold_of(roles, sources, (topic, number), base, data))


def folds_of(folder):
    """The fold files that are wanted of a folder, by their paths, and the words that `fold` prints."""
    folds, size = {}, 0
    for partition in partitions_of(folder):
        for base in segments_of(folder, partition):
            folds[fold_path(partition, base)] = fold_bytes(folder, partition, base)
            size += os.path.getsize(os.path.join(folder, log_path(partition, base)))
    return folds, f"folded segments={len(folds)} bytes={size}\n"


def files_in(path):
    """The bytes of each file below a folder, by its path there; of a link where it leads."""
    found = {}
    for at, _, names in os.walk(path):
        for file in (os.path.join(at, name) for name in names):
            found[os.path.relpath(file, path)] = os.readlink(file).encode() if os.path.islink(file) else read(file)
    return found


def fold_words(folder, out, partitions=None):
    paths = [os.path.join(folder, it) for it in partitions or partitions_of(folder)]
    return ["fold", "--manifest", os.path.join(folder, "evidence.json"), "--out", out, *paths]


def with_folds(folder, folds, to, chosen=lambda path: True):
    """A folder with this manifest that has folds in place of the chosen segments, and logs in place of the others."""
    os.makedirs(to)
    shutil.copy(os.path.join(folder, "evidence.json"), to)
    for partition in partitions_of(folder):
        os.mkdir(os.path.join(to, partition))
        for base in segments_of(folder, partition):
            path = fold_path(partition, base)
            if chosen(path):
                write(os.path.join(to, path), folds[path])
            else:
                shutil.copy(os.path.join(folder, log_path(partition, base)), os.path.join(to, partition))
    return to
