"""The commands of docs/SCALE.md, as they stand there: by GNU parallel over ssh, by Dask, and by a script for each partition.

For tests/folds.py. A folder stands for each broker, and a script for ssh that runs its words there. What a broker's worker and a
job's script say is the page's own text. Where `parallel` (Debian's parallel) or a Python with dask.distributed (Debian's
python3-distributed) isn't there, that one is skipped, and says so.
"""
import concurrent.futures
import json
import os
import re
import shutil
import subprocess
import sys
import time

from fold_folders import files_in, folds_of, partitions_of

PAGE = "docs/SCALE.md"
AT_ONCE = 8
SSH = '#!/bin/sh\n# ssh HOST WORDS ..: the words, run in the folder of the host\ncd "$HOSTS/$1" || exit 255\nshift\nexec sh -c "$*"\n'
WORKER = "dask-worker SCHEDULER:8786 --name broker-1 --nthreads 8"


def parts_of_page():
    """The first block of code of each part of the page, by the part's title."""
    with open(PAGE, encoding="utf-8") as file:
        parts = re.split(r"^## ", file.read(), flags=re.M)[1:]
    return {part.split("\n", 1)[0]: re.search(r"^```(?:sh|python)?\n(.*?)^```", part, re.M | re.S) for part in parts}


def python_with(module):
    for python in dict.fromkeys([sys.executable, "/usr/bin/python3"]):
        if shutil.which(python) and subprocess.run([python, "-c", f"import {module}"], capture_output=True).returncode == 0:
            return python
    return None


class Home:
    """Where the commands are run: the program, the manifest, and a folder for each of eight brokers with some partitions' logs."""

    def __init__(self, tests, folder, room):
        self.tests, self.folder, self.room = tests, folder, room
        self.folds, _ = folds_of(folder)
        self.wanted = [tests.check(folder, "--workers", it) for it in "14"]
        self.brokers = [f"broker-{it + 1}" for it in range(AT_ONCE)]
        self.places = []
        os.makedirs(f"{room}/bin")
        with open(f"{room}/bin/ssh", "w", encoding="utf-8") as file:
            file.write(SSH)
        os.chmod(f"{room}/bin/ssh", 0o755)
        # on the path, and where a worker or a job looks for it
        shutil.copy(tests.program, f"{room}/bin/eoscheck")
        shutil.copy(tests.program, f"{room}/eoscheck")
        for at, partition in enumerate(partitions_of(folder)):
            broker = self.brokers[at % AT_ONCE]
            path = os.path.join(room, "hosts", broker, "logs", partition)
            shutil.copytree(os.path.join(folder, partition), path)
            self.places.append((broker, path))
        for name, lines in ("places", [" ".join(it) for it in self.places]), ("folders", [path for _, path in self.places]):
            with open(f"{room}/{name}", "w", encoding="utf-8") as file:
                file.write("".join(f"{line}\n" for line in lines))
        self.environment = dict(os.environ, HOSTS=f"{room}/hosts", HOME=room, PATH=f"{room}/bin:{os.environ['PATH']}")

    def begin(self):
        """An evidence of the manifest alone."""
        shutil.rmtree(f"{self.room}/evidence", ignore_errors=True)
        os.mkdir(f"{self.room}/evidence")
        shutil.copy(os.path.join(self.folder, "evidence.json"), f"{self.room}/evidence")

    def run(self, words):
        done = subprocess.run(words, cwd=self.room, env=self.environment, stdin=subprocess.DEVNULL, capture_output=True, timeout=300)
        return done.returncode, done.stdout.decode(), done.stderr.decode()

    def end(self, name):
        """The folds have arrived, and the verdict is that of the logs."""
        found = files_in(f"{self.room}/evidence")
        del found["evidence.json"]
        self.tests.same(f"{name} of {self.folder}: the folds", found, self.folds)
        for workers, wanted in zip("14", self.wanted):
            said = self.tests.check(f"{self.room}/evidence", "--workers", workers)
            self.tests.same(f"{name} of {self.folder}: the verdict, {workers} workers", said, wanted)


def by_parallel(home, block):
    """The block ends in the check itself, whose line and notes are those of the logs."""
    home.begin()
    home.tests.same("eight at once by GNU parallel", f"--jobs {AT_ONCE} " in block, True)
    status, out, err = home.run(["sh", "-c", block])
    line = home.wanted[1][1]
    home.tests.same(f"GNU parallel of {home.folder}: {err[-500:]}", (status, out[-len(line) :]), (home.wanted[1][0], line))
    home.end("GNU parallel")


def by_script(home, block):
    """A process for each line of the file `folders`, as a scheduler starts them, eight at once."""
    home.begin()
    with open(f"{home.room}/fold_one.sh", "w", encoding="utf-8") as file:
        file.write(block)
    with concurrent.futures.ThreadPoolExecutor(AT_ONCE) as pool:
        said = list(pool.map(lambda at: home.run(["sh", "fold_one.sh", str(at + 1)]), range(len(home.places))))
    wrong = [it for it in said if it[0] != 0 or it[2]]
    home.tests.same(f"a script a partition of {home.folder}", wrong, [])
    home.end("a script a partition")


class Dask:
    """A scheduler and a worker for each of eight brokers, by the page's own words but for names and addresses."""

    def __init__(self, python, home):
        self.python, self.home, self.started = python, home, []

    def start(self, module, *words):
        # Its working files go to the scratch folder, and nobody looks at its page.
        more = ["--no-dashboard"] + (["--no-nanny", "--local-directory", "dask"] if module == "worker" else [])
        command = [self.python, "-m", f"distributed.cli.dask_{module}", *words, *more]
        quiet = subprocess.DEVNULL
        self.started.append(subprocess.Popen(command, cwd=self.home.room, env=self.home.environment, stdin=quiet, stdout=quiet, stderr=quiet))

    def __enter__(self):
        file = f"{self.home.room}/scheduler.json"
        self.start("scheduler", "--host", "127.0.0.1", "--port", "0", "--scheduler-file", file)
        until = time.monotonic() + 60
        while not os.path.exists(file) and time.monotonic() < until:
            time.sleep(0.1)
        with open(file, encoding="utf-8") as opened:
            self.address = json.load(opened)["address"]
        _, _, *words = WORKER.split()
        for broker in self.home.brokers:
            named = [{"broker-1": broker, str(AT_ONCE): "1"}.get(it, it) for it in words]
            self.start("worker", self.address, *named)
        return self

    def __exit__(self, *_):
        for process in self.started:
            process.terminate()
        for process in self.started:
            try:
                process.wait(20)
            except subprocess.TimeoutExpired:
                process.kill()
                process.wait()


def by_dask(dask, home, block):
    home.begin()
    with open(f"{home.room}/fold_by_dask.py", "w", encoding="utf-8") as file:
        file.write(block)
    said = home.run([dask.python, "-B", "fold_by_dask.py", dask.address])
    home.tests.same(f"Dask of {home.folder}", said, (0, "", ""))
    home.end("Dask")


def engines(tests, folders):
    """Each of these folders by each way; the verdict is that of `check` on its logs."""
    blocks = parts_of_page()
    homes = [Home(tests, folder, tests.new(f"home-{at}")) for at, folder in enumerate(folders)]
    for home in homes:
        by_script(home, blocks["A scheduler's job for each partition"][1])
        if shutil.which("parallel"):
            by_parallel(home, blocks["GNU parallel over ssh"][1])
        else:
            print("no parallel (Debian's parallel): GNU parallel was not tried")
    python = python_with("dask.distributed")
    if python is None:
        print("no dask.distributed (Debian's python3-distributed): Dask was not tried")
        return
    with open(PAGE, encoding="utf-8") as file:
        tests.same("the words of a Dask worker", WORKER in file.read(), True)
    with Dask(python, homes[0]) as dask:
        for home in homes:
            by_dask(dask, home, blocks["Dask"][1])
