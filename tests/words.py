#!/usr/bin/env -S python3 -B
"""Whether the words place, fold, run and part have one meaning each: of every type, function, constant and module that has one of
them in its name this table says that it is meant so, and of the pages that say what it means docs/GLOSSARY.md does.

    python3 -B tests/words.py

    place  a partition and an offset in it
    fold   the file that is kept of a segment, and its making; a byte fold (`ByteFold`) is a given name
    run    consecutive segments of one partition, and what is known of their batches
    part   a partition's log

A new name with one of the words fails until a line of the table takes it, and so does a line that takes nothing. The last line is
'N passed, N failed'.
"""
import glob
import os
import re
import sys

WORDS = "place", "fold", "run", "part"
SAID = re.compile(r"^ *(?:pub(?:\([a-z]+\))? )?(?:fn|struct|enum|type|trait|mod|const) (\w+)", re.M)

# By the word, of each crate what has it in its name, with the word's meaning.
TABLE = {
    "place": """
        eos_claims: place Place PlaceRef
        eos_explaining: push_first_place push_place_command push_row_place push_segment_place
        eos_faults: LentPlace own_place
        eos_lineage: own_place_if
        eos_picture: TxnPlace push_place
        eos_reading: places
        eos_report: place put_place
        eos_sought: names_place
        eos_story: place copy_place place_at place_of push_place is_same_place
        eos_table: Place place_of places
        eos_verdict: push_place
        """,
    "fold": """
        eos_checking: fold_count folds is_fold say_folds
        eos_commands: FOLD FoldGiven fold fold_all fold_fault fold_folder fold_folders fold_partitions fold_segment fold_writing read_fold
            verify_folds write_fold
        eos_disk: FoldRefusal first_fold refused_fold
        eos_explaining: folds_at push_folds
        eos_fold: ByteFold fold
        eos_fold_file: FoldFault FoldField FoldFile FoldHead FoldKept FoldTexts decode_fold encode_fold fold fold_of fold_texts read_fold write_fold
        eos_kept: SegmentFold fold
        eos_source: fold read_fold
        eos_source_check: fold_again fold_of_log folds_again
        eos_words: FOLD FOLDS FOLD_USAGE FOLD_WRITES Fold fold_arguments read_fold
        """,
    "run": """
        eos_fold_file: run run_front run_of
        eos_kept: KeptRun Run kept_run run run_held
        eos_source: next_run
        """,
    "part": """
        eos_commits: take_part
        eos_explaining: parts_of
        eos_faults: pass_part
        eos_kept: Part part
        eos_lineage: parts take_part
        eos_notes: count_part count_part_if
        eos_sought: take_part walk_part
        eos_table: name_of_part take_part
        """,
}
# Rust's own names for taking a value apart; and, below all that has runs and parts, claims of one input in a row, and a record's fields.
ELSEWHERE = {"into_parts", "of_parts"}
# Public calls that had their names before the words had one meaning: what runs is a command, a script, a list of events.
GIVEN = {
    "eos_drive": {"run_kept", "run_script", "run_tail", "run_tail_kept", "run_threads", "run_with"},
    "eos_segment": {"RunFault"},
}
BELOW = {"eos_batch": {"Parts", "parts_of", "own_parts"}, "eos_claims": {"in_run"}}


def words_of(name):
    """The words of a name, each without the ending of many."""
    words = re.sub(r"([a-z0-9])([A-Z])", r"\1_\2", name).lower().split("_")
    return {it[:-1] if it.endswith("s") and it[:-1] in WORDS else it for it in words}


def taken(table):
    """What the table takes: the word, the crate and the name."""
    found = set()
    for word, text in table.items():
        crate = None
        for it in text.split():
            if it.endswith(":"):
                crate = it[:-1]
            else:
                found.add((word, crate, it))
    return found


def named():
    """What the crates name so, with the first file that does."""
    found = {}
    for path in sorted(glob.glob("crates/*/src/**/*.rt", recursive=True)):
        crate = path.split("/")[1]
        with open(path, encoding="utf-8") as file:
            text = file.read()
        for name in SAID.findall(text):
            if name in ELSEWHERE or name in BELOW.get(crate, ()) or name in GIVEN.get(crate, ()):
                continue
            for word in words_of(name) & set(WORDS):
                found.setdefault((word, crate, name), path)
    return found


def explained():
    """The words that the page of words says, each in one row."""
    with open("docs/GLOSSARY.md", encoding="utf-8") as file:
        return [it for row in re.findall(r"^\| ([^|]*) \|", file.read(), re.M) for it in re.split(r", ", row)]


def main():
    os.chdir(os.path.join(os.path.dirname(os.path.abspath(__file__)), ".."))
    wanted, found = taken(TABLE), named()
    rows = explained()
    failed = [f"{found[it]}: {it[2]}: is it a {it[0]} in the sense of the table?" for it in sorted(found.keys() - wanted)]
    failed += [f"the table: {word}, {crate}: nothing has the name {name}" for word, crate, name in sorted(wanted - found.keys())]
    failed += [f"docs/GLOSSARY.md: {rows.count(word)} rows say what a {word} is" for word in WORDS if rows.count(word) != 1]
    for it in failed:
        print(it)
    print(f"{len(wanted & found.keys()) + len(WORDS)} passed, {len(failed)} failed")
    return bool(failed)


if __name__ == "__main__":
    sys.exit(main())
