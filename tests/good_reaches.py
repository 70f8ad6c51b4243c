"""What stands behind *good*, and behind a folder's yes: the definitions that `Good` reaches, and those that the clauses of
`check_folder_to` reach, followed by their names from file to file.

    python3 -B tests/good_reaches.py [REVISION | --files]

Prints how many definitions, files and lines they are; a line counts that is neither blank nor a comment. With a revision the
same is counted there and said beside it, with --files the count of each file. It fails where *good* is said by what the checker
does: the list of a partition's faults, the front of a log and why it ends, the decoder, a summary. docs/YES.md says how
many they are at most, of both, and how many of *good* say Kafka's formats and rules at least; it fails where that isn't so, or says much more. The last line is 'N passed, N failed'.
"""
import collections
import io
import os
import re
import subprocess
import sys
import tarfile
import tempfile

from specs_steps import Definitions

GOOD = [("eos_check.specs.Good", "Good")]
# What the clauses of check_folder_to name.
FOLDER = [
    ("eos_checking.specs.Folders", "HoldsOf"),
    ("eos_checking.specs.Folders", "IsToldOf"),
    ("eos_checking.specs.Checking", "IsCheckAnswer"),
    ("eos_disk.specs.Shapes", "AreKnown"),
    ("eos_source.specs.Saying", "StandsAt"),
    ("eos_text.specs.Writing", "WritesFrontOf"),
]
PAGE = "docs/YES.md"
SAID = re.compile(r"at most ([\d,]+) definitions in ([\d,]+) files, ([\d,]+) lines")
# Whose definitions say Kafka's formats and rules.
OF_KAFKA = {"eos_wire", "eos_batch", "eos_touch", "eos_txnlog", "eos_offsets", "eos_table", "eos_commits"}
SAID_OF_KAFKA = re.compile(r"of these at least ([\d,]+) definitions say Kafka's formats and rules")
# How much more than there is the page may say, in hundredths.
ROOM = 10

# By the module and the name; of a module without a name each definition counts.
OF_THE_CHECKER = (
    ("eos_base.specs.Least", None),
    ("eos_batch.specs.Reading", None),
    ("eos_touch.specs.Pair", "stands"),
    ("eos_touch.specs.FaultNames", None),
    ("eos_touch.specs.declared.fault.PartitionFault", None),
    ("eos_fold.specs.Summaries", None),
    ("eos_fold.specs.Standing", None),
    ("eos_fold.specs.Sums", None),
    ("eos_fold.specs.Fronts", "IsFront"),
    ("eos_fold.specs.declared.stop.Stop", None),
    ("eos_table.specs.LogFaults", None),
    ("eos_table.specs.MatchFaults", None),
    ("eos_commits.specs.Faults", None),
    ("eos_claims.specs.Faults", None),
    ("eos_verdict.specs.LogNames", None),
    ("eos_verdict.specs.MatchNames", None),
    ("eos_verdict.specs.VisibleNames", None),
    ("eos_verdict.specs.LineageNames", None),
    ("eos_lineage.specs.Faults", None),
)


def reached(words, roots):
    """All that is named on the way from the roots: definitions, and types of the code."""
    found, waiting = set(), list(roots)
    while waiting:
        key = waiting.pop()
        if key not in found:
            found.add(key)
            waiting += words.get(key, ())
    return found


class Counts:
    """The definitions of the tree that is the working directory."""

    def __init__(self, roots):
        definitions = Definitions()
        lacking = [root for root in roots if root not in definitions.words]
        if lacking:
            sys.exit(f"no definition has the name {'.'.join(lacking[0])}")
        self.names = reached(definitions.words, roots)
        own = [key for key in self.names if key in definitions.words]
        self.of_kafka = sum(key[0].split(".")[0] in OF_KAFKA for key in own)
        self.files = collections.Counter()
        for key in own:
            self.files[definitions.place[key]] += definitions.lines[key]
        crates = {it.split("/")[1] for it in self.files}
        self.sums = (len(own), len(self.files), len(crates), sum(self.files.values()))

    def __str__(self):
        return "{} definitions in {} files of {} crates, {} lines".format(*self.sums)


def counts_at(revision):
    packed = subprocess.run(["git", "archive", revision, "crates"], check=True, capture_output=True).stdout
    here = os.getcwd()
    with tempfile.TemporaryDirectory() as folder, tarfile.open(fileobj=io.BytesIO(packed)) as tree:
        tree.extractall(folder, filter="data")
        os.chdir(folder)
        try:
            return Counts(GOOD)
        finally:
            os.chdir(here)


def main(arguments):
    now, folder = Counts(GOOD), Counts(FOLDER)
    if arguments == ["--files"]:
        for path, lines in now.files.most_common():
            print(f"{lines:5} {path}")
    elif arguments:
        before = counts_at(arguments[0])
        print(f"{arguments[0]}: {before}")
        less = before.sums[3] - now.sums[3]
        print(f"{less} lines fewer, {100 * less / before.sums[3]:.1f} of a hundred")
    print(f"good: {now}, and {now.of_kafka} of the definitions say Kafka's formats and rules\na folder's yes: {folder}")
    failed = 0
    for module, name in OF_THE_CHECKER:
        for key in sorted(key for key in now.names if key[0] == module and name in (None, key[1])):
            print(f"{'.'.join(key)}: good is said by what the checker does")
            failed += 1
    with open(PAGE, encoding="utf-8") as file:
        text = file.read().replace("\n", " ")
    said = [[int(it.replace(",", "")) for it in found] for found in SAID.findall(text)]
    for counts, most in zip((now, folder), [*said, None, None]):
        definitions, files, _, lines = counts.sums
        if not most or not all(it <= bound <= it * (100 + ROOM) / 100 for bound, it in zip(most, (definitions, files, lines))):
            print(f"{PAGE} says {most or 'no counts'}, and there are {counts}")
            failed += 1
    least = SAID_OF_KAFKA.search(text)
    least = int(least[1].replace(",", "")) if least else 0
    if not now.of_kafka * (100 - ROOM) / 100 <= least <= now.of_kafka:
        print(f"{PAGE} says that {least} definitions say Kafka's formats and rules, and {now.of_kafka} do")
        failed += 1
    checks = len(OF_THE_CHECKER) + 3
    print(f"{max(checks - failed, 0)} passed, {failed} failed")
    return 1 if failed or now.sums[0] < 100 else 0


if __name__ == "__main__":
    sys.exit(main(sys.argv[1:]))
