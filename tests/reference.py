#!/usr/bin/env -S python3 -B
"""The verdict of `eoscheck check`, worked out by a second program from the definitions.

    tests/reference.py FOLDER
    tests/reference.py FOLDER --all

It reads the folder, lists every fault that stands, phase by phase, and prints the least one, or with --all those of the first
phase that has one, or the counts where none stands. Apart from that it asks what good evidence is, of all pairs of touches and all claims, without a word on faults,
and stops where the two disagree. It shares no code with the program, but the same authors wrote it: what they misread
stands in both. The manifest has to be a legal one.
"""
import collections
import itertools
import re
import sys

from mutants import Refused
from plain_logs import ABORT, COMMIT, OFFSETS, STATES, TOMBSTONE, claim_of, is_marker, length_of, next_marker, offset_key
from plain_logs import offset_value, read_folder, records_of, state_key, state_value, touches_of

EMPTY, ONGOING, PREPARE_COMMIT, PREPARE_ABORT, COMPLETE_COMMIT, COMPLETE_ABORT = range(6)
PREPARES = {PREPARE_COMMIT: COMMIT, PREPARE_ABORT: ABORT}
AFTER_COMPLETE = {EMPTY, ONGOING, PREPARE_ABORT, TOMBSTONE}
STEPS = {
    TOMBSTONE: {EMPTY},
    EMPTY: {EMPTY, ONGOING, PREPARE_ABORT, TOMBSTONE},
    ONGOING: {ONGOING, PREPARE_COMMIT, PREPARE_ABORT},
    PREPARE_COMMIT: {COMPLETE_COMMIT},
    PREPARE_ABORT: {COMPLETE_ABORT},
    COMPLETE_COMMIT: AFTER_COMPLETE,
    COMPLETE_ABORT: AFTER_COMPLETE,
}
PARTITION_FAULTS = (
    "BadBatch Gap FirstSequence Sequence ZombieEpoch EpochWhileOpen NoBump MixedProducer MarkerKind End OpenAtEnd".split()
)
LOG_FAULTS = "BadRecord Step SplitId SharedProducer Unfinished".split()
MATCH_FAULTS = "TwiceDecided Undecided WrongKind NotListed StrayMarker AbsentPartition MissingMarker".split()
LINEAGE_FAULTS = (
    "BadLineage BadOffset SplitGroup OffsetDeleted ForeignSource NoSuchInput Early CountDisagrees NumberRange Repeated "
    "Missing OtherTransaction".split()
)

Decision = collections.namedtuple("Decision", "producer epoch marker_epoch kind partitions")
Commit = collections.namedtuple("Commit", "group source offset writer place")
Claim = collections.namedtuple("Claim", "source output of writer place")


# ---- phase 1


def pair_faults(before, batch, sequenced):
    data, plain = not is_marker(batch), batch.word == "plain"
    if before is None:
        return {3} if data and sequenced and batch.sequence != 0 else set()
    data_before, same = not is_marker(before), before.epoch == batch.epoch
    found = set()
    if data and sequenced and batch.sequence != 0 and (before.epoch < batch.epoch or (same and not data_before)):
        found.add(3)
    if data and data_before and sequenced and same and batch.sequence != (before.sequence + before.count) % 2**31:
        found.add(4)
    if batch.epoch < before.epoch:
        found.add(5)
    if batch.word == before.word == "txn" and before.epoch < batch.epoch:
        found.add(6)
    if not data and data_before and same:
        found.add(7)
    if plain != (before.word == "plain"):
        found.add(8)
    if not data and not data_before and same and batch.word != before.word:
        found.add(9)
    return found


def partition_faults(part):
    internal = part.name[0] in (OFFSETS, STATES)
    total, touches = length_of(part), touches_of(part)
    if part.stop:
        yield total, part.stop[0], -1, part.stop[1]
    for producer, ones in touches.items():
        for before, batch in zip([None] + ones, ones):
            for kind in pair_faults(before, batch, not internal):
                yield batch.base, kind, producer, f"producer={producer}"
    if not part.stop:
        if total != part.end:
            yield total, 10, -1, f"end={part.end}"
        for producer, ones in touches.items():
            if ones[-1].word == "txn":
                yield total, 11, producer, f"producer={producer}"


# ---- phase 2


def step_fault(before, state):
    if state.status not in STEPS[before.status if before else TOMBSTONE]:
        return "Order"
    if before and before.status == state.status == ONGOING and before[1:3] != state[1:3]:
        return "Producer"
    if state.status in PREPARES:
        if before.producer != state.producer:
            return "Producer"
        if state.epoch <= before.epoch:
            return "Epoch"
    return None


def read_states(parts):
    """The unskipped states, as (partition, offset, id, state, the one before), and the records that don't read."""
    states, bad = [], []
    for part in parts:
        last = {}
        for _, offset, record in records_of(part):
            try:
                name = state_key(record.key)
                if name is None:
                    continue
                state = state_value(record.value)
            except Refused as refusal:
                bad.append((part, offset, str(refusal)))
                continue
            if state.status in (6, 7) or last.get(name) == state:
                continue
            states.append((part, offset, name, state, last.get(name)))
            last[name] = state
    return states, bad


def log_faults(parts, states, bad):
    for part, offset, why in bad:
        yield part.name, offset, 1, b"", f"record={why}"
    for i, (part, offset, name, state, before) in enumerate(states):
        why, shown = step_fault(before, state), f"id={escaped(name)}"
        if why:
            yield part.name, offset, 2, name, f"{shown} why={why}"
        if any(n == name and p.name < part.name for p, _, n, _, _ in states[:i]):
            yield part.name, offset, 3, name, shown
        if state.producer is not None and state.producer >= 0:
            if any(n != name and s.producer == state.producer for _, _, n, s, _ in states[:i]):
                yield part.name, offset, 4, name, shown
    for part in parts:
        last = {name: state for p, _, name, state, _ in states if p is part}
        for name, state in last.items():
            if state.status in (ONGOING, PREPARE_COMMIT, PREPARE_ABORT):
                yield part.name, part.end, 5, name, f"id={escaped(name)}"


def decisions_of(states):
    found = []
    for _, _, _, state, before in states:
        if state.status in PREPARES:
            found.append(Decision(state.producer, before.epoch, state.epoch, PREPARES[state.status], state.partitions))
    return found


# ---- phase 3


def match_faults(parts, decisions):
    by_data = collections.Counter((d.producer, d.epoch) for d in decisions)
    for (producer, epoch), times in by_data.items():
        if times > 1:
            yield producer, epoch, 1, ()
    for part in parts:
        for batch in part.batches:
            same = [d for d in decisions if d.producer == batch.producer]
            if batch.word == "txn":
                mine = [d for d in same if d.epoch == batch.epoch]
                close = next_marker(part, batch)
                if not mine:
                    yield batch.producer, batch.epoch, 2, part.name
                elif len(mine) == 1 and (close.epoch, close.word) != (mine[0].marker_epoch, mine[0].kind):
                    yield batch.producer, batch.epoch, 3, part.name
                if len(mine) == 1 and part.name not in mine[0].partitions:
                    yield batch.producer, batch.epoch, 4, part.name
            elif is_marker(batch):
                wanted = (batch.epoch, batch.word)
                if not any((d.marker_epoch, d.kind) == wanted and part.name in d.partitions for d in same):
                    yield batch.producer, batch.epoch, 5, part.name
    markers = {(p.name, b.producer, b.epoch, b.word) for p in parts for b in p.batches if is_marker(b)}
    names = {part.name for part in parts}
    for decision in decisions:
        for name in decision.partitions:
            if name not in names:
                yield decision.producer, decision.epoch, 6, name
            elif (name, decision.producer, decision.marker_epoch, decision.kind) not in markers:
                yield decision.producer, decision.epoch, 7, name


# ---- phases 4 and 5


def writer_of(batch):
    return (batch.producer, batch.epoch) if batch.word == "txn" else None


def read_lineage(apps, parts):
    """All visible claims and commits, and the faults of phase 4."""
    outputs = {topic for app in apps for topic in app.outputs}
    sources = {(app.group, topic) for app in apps for topic in app.sources}
    claims, commits, faults, homes = [], [], [], {}
    for part in parts:
        for batch, offset, record in records_of(part, only_visible=True):
            place = (*part.name, offset)
            if part.name[0] in outputs:
                claim = claim_of(record.headers)
                if claim is None:
                    faults.append((*place, 1, ""))
                else:
                    claims.append(Claim(*claim, writer_of(batch), place))
            if part.name[0] == OFFSETS:
                try:
                    key = offset_key(record.key)
                    if key is None or key[:2] not in sources:
                        continue
                    if homes.setdefault(key[0], part.name) != part.name:
                        faults.append((*place, 3, ""))
                    if record.value is None:
                        faults.append((*place, 4, ""))
                    else:
                        commits.append(Commit(key[0], key[1:], offset_value(record.value), writer_of(batch), place))
                except Refused as refusal:
                    faults.append((*place, 2, f"record={refusal}"))
    return claims, commits, faults


def committed(commits, source):
    return max(((c.place, c.offset) for c in commits if c.source == source), default=(None, 0))[1]


def lineage_faults(app, inputs, claims, commits):
    """The faults of phase 5 of one application, given what is its own."""
    ends = {source: committed(commits, source) for source in {(*i[:2],) for i in inputs}}
    by_source = collections.defaultdict(list)
    for claim in claims:
        by_source[claim.source].append(claim)
    for source, named in by_source.items():
        of = min(named, key=lambda c: (c.output, c.place)).of
        for claim in named:
            found = set()
            if source[0] not in app.sources:
                found.add(5)
            elif source not in inputs:
                found.add(6)
            elif source[2] >= ends[source[:2]]:
                found.add(7)
            else:
                passed = {c.writer for c in commits if c.source == source[:2] and c.offset > source[2]}
                if claim.writer is None or claim.writer not in passed:
                    found.add(12)
            if claim.of != of:
                found.add(8)
            if claim.output not in ([0] if claim.of == 0 else range(1, claim.of + 1)):
                found.add(9)
            if any(c.output == claim.output and c.place < claim.place for c in named):
                found.add(10)
            for kind in found:
                yield source, claim.output, kind, claim.place
    for source in inputs:
        if source[2] < ends[source[:2]]:
            named = by_source.get(source, [])
            of = min(named, key=lambda c: (c.output, c.place)).of if named else 1
            absent = next(n for n in itertools.count(1) if all(c.output != n for c in named))
            if absent <= of:
                yield source, absent, 11, ()


# ---- good evidence, by its definition


def is_fenced(part):
    sequenced = part.name[0] not in (OFFSETS, STATES)
    for ones in touches_of(part).values():
        numbers = collections.Counter()
        for j, b in enumerate(ones):
            if sequenced and not is_marker(b):
                if b.sequence != numbers[b.epoch] % 2**31:
                    return False
                numbers[b.epoch] += b.count
            if b.word == "txn" and next_marker(part, b) is None:
                return False
            for i, a in enumerate(ones[:j]):
                if a.epoch > b.epoch or (a.epoch == b.epoch and not is_marker(a) and is_marker(b)):
                    return False
                if a.word == b.word == "txn" and a.epoch != b.epoch and not any(map(is_marker, ones[i + 1 : j])):
                    return False
                if is_marker(a) and is_marker(b) and a.epoch == b.epoch and a.word != b.word:
                    return False
                if (a.word == "plain") != (b.word == "plain"):
                    return False
    return True


def is_atomic(parts, decisions):
    holds = {(p.name, b.producer, b.epoch, b.word) for p in parts for b in p.batches if is_marker(b)}
    due = {(name, d.producer, d.marker_epoch, d.kind) for d in decisions for name in d.partitions}
    if len({(d.producer, d.epoch) for d in decisions}) < len(decisions) or holds != due:
        return False
    kept = {(n, d.producer, d.epoch, d.marker_epoch, d.kind) for d in decisions for n in d.partitions}
    for part in parts:
        for b in part.batches:
            if b.word == "txn":
                marker = next_marker(part, b)
                if (part.name, b.producer, b.epoch, marker.epoch, marker.word) not in kept:
                    return False
    return True


def is_exact(inputs, claims, commits):
    below = {i for i in inputs if i[2] < committed(commits, i[:2])}
    for source in below:
        named = sorted((c.output, c.of) for c in claims if c.source == source)
        if named != [(0, 0)] and (not named or named != [(n + 1, len(named)) for n in range(len(named))]):
            return False
        passed = {c.writer for c in commits if c.source == source[:2] and c.offset > source[2]}
        if any(c.writer is None or c.writer not in passed for c in claims if c.source == source):
            return False
    return all(c.source in below for c in claims)


# ---- the verdict


def escaped(data):
    return re.sub(rb"[^A-Za-z0-9._-]", lambda found: b"%%%02x" % found[0][0], data).decode()


def place_text(place):
    return f"{escaped(place[0])}-{place[1]}" + (f":{place[2]}" if len(place) > 2 else "")


def all_faults(apps, parts):
    """The lines of all faults of the first phase that has one, in their order, each once; or the line of the counts."""
    found = sorted({(part.name, *fault) for part in parts for fault in partition_faults(part)})
    if found:
        return [
            f"no 1.{kind} {PARTITION_FAULTS[kind - 1]} {place_text(name)} offset={offset} {rest}"
            for name, offset, kind, _, rest in found
        ]
    logs = [part for part in parts if part.name[0] == STATES]
    states, bad = read_states(logs)
    found = sorted(set(log_faults(logs, states, bad)))
    if found:
        return [
            f"no 2.{kind} {LOG_FAULTS[kind - 1]} {place_text(name)} offset={offset} {rest}"
            for name, offset, kind, _, rest in found
        ]
    decisions = decisions_of(states)
    found = sorted(set(match_faults(parts, decisions)))
    if found:
        return [match_line(*fault) for fault in found]
    claims, commits, faults = read_lineage(apps, parts)
    if faults:
        return [
            f"no 4.{kind} {LINEAGE_FAULTS[kind - 1]} {place_text(place[:2])} offset={place[2]} {rest}".rstrip()
            for *place, kind, rest in sorted(set(faults))
        ]
    lines, inputs_count = [], 0
    for app, inputs, mine, own in split(apps, parts, claims, commits):
        for source, output, kind, place in sorted(set(lineage_faults(app, inputs, mine, own))):
            rest = (f" at={place_text(place)}" if place else "") + (f" group={escaped(app.group)}" if len(apps) > 1 else "")
            lines.append(f"no 5.{kind} {LINEAGE_FAULTS[kind - 1]} source={place_text(source)} output={output}{rest}")
        inputs_count += sum(i[2] < committed(own, i[:2]) for i in inputs)
    counts = f"yes transactions={len(decisions)} inputs={inputs_count} outputs={sum(claim.of > 0 for claim in claims)}"
    return lines or [counts]


def match_line(producer, epoch, kind, name):
    rest = f" partition={place_text(name)}" if name else ""
    return f"no 3.{kind} {MATCH_FAULTS[kind - 1]} producer={producer} epoch={epoch}{rest}"


def split(apps, parts, claims, commits):
    """For each application its inputs, claims and commits."""
    for app in apps:
        inputs = {(*p.name, o) for p in parts if p.name[0] in app.sources for _, o, _ in records_of(p, True)}
        mine = [claim for claim in claims if claim.place[0] in app.outputs]
        yield app, inputs, mine, [commit for commit in commits if commit.group == app.group]


def is_good(apps, parts):
    if any(part.stop or length_of(part) != part.end or not is_fenced(part) for part in parts):
        return False
    states, bad = read_states([part for part in parts if part.name[0] == STATES])
    last = {name: state for _, _, name, state, _ in states}
    homes = {(name, part.name) for part, _, name, _, _ in states}
    owners = {(s.producer, name) for _, _, name, s, _ in states if s.producer is not None and s.producer >= 0}
    if bad or any(step_fault(before, state) for _, _, _, state, before in states) or len(homes) > len(last):
        return False
    if any(s.status in (ONGOING, *PREPARES) for s in last.values()) or len(owners) > len({p for p, _ in owners}):
        return False
    claims, commits, unread = read_lineage(apps, parts)
    return is_atomic(parts, decisions_of(states)) and not unread and all(
        is_exact(*rest) for _, *rest in split(apps, parts, claims, commits)
    )


def listed(folder):
    """The lines that `check --all` has for a folder, but for the last one, which counts them."""
    apps, parts = read_folder(folder)
    lines = all_faults(apps, parts)
    if lines[0].startswith("yes") != is_good(apps, parts):
        raise AssertionError(f"{folder}: '{lines[0]}' is not what the definition of good evidence says")
    return lines


def verdict(folder):
    return listed(folder)[0]


if __name__ == "__main__":
    print(*listed(sys.argv[1])[: None if "--all" in sys.argv[2:] else 1], sep="\n")
