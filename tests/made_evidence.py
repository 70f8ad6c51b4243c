"""Good evidence made at random: the logs that applications would leave which keep all the rules.

Producers feed the sources, plainly, idempotently or in transactions. Applications read what is committed in one partition
up to its first open transaction, write outputs or notes, and commit their offsets in the same transaction, several at a
time in one another's way; a transaction is committed or aborted, and its marker may come twice. The internal logs also
get what has to be skipped. For tests/random_evidence.py, by the same authors as the program.
"""
import struct

from mutants import varint

OFFSETS, STATES = "__consumer_offsets", "__transaction_state"


def text(data):
    return struct.pack(">h", len(data)) + data


def unsigned(n):
    groups = []
    while n > 127:
        groups.append(n & 127 | 128)
        n >>= 7
    return bytes(groups + [n])


def state_text(rng, status, producer, epoch, partitions):
    listed = {}
    for name in partitions:
        topic, number = name.rsplit("-", 1)
        listed.setdefault(topic.encode(), []).append(int(number))
    fields = struct.pack(">qhib", producer, epoch, rng.choice([60000, 0]), status)
    if rng.random() < 0.5:
        fields = b"\0\0" + fields + struct.pack(">i", len(listed) or rng.choice([0, -1]))
        for topic, numbers in listed.items():
            fields += text(topic) + struct.pack(f">i{len(numbers)}i", len(numbers), *numbers)
        return fields + struct.pack(">qq", 5, 6)
    tagged = [b"\0", b"\0", b"\1\7\3abc", b"\2\0\0\1\1z"]
    fields = b"\0\1" + fields + unsigned(len(listed) + 1 if listed else rng.choice([0, 1]))
    for topic, numbers in listed.items():
        fields += unsigned(len(topic) + 1) + topic + unsigned(len(numbers) + 1)
        fields += struct.pack(f">{len(numbers)}i", *numbers) + rng.choice(tagged)
    return fields + struct.pack(">qq", -1, 2**40) + rng.choice(tagged)


def commit_record(rng, group, name, offset):
    topic, number = name.rsplit("-", 1)
    key = struct.pack(">h", rng.choice([0, 1])) + text(group) + text(topic.encode()) + struct.pack(">i", int(number))
    version, note = rng.randrange(4), rng.choice([b"\xff\xff", b"\0\0", b"\0\2hi"])
    value = struct.pack(">hq", version, offset) + (b"\0\0\0\7" if version == 3 else b"") + note
    return key, value + bytes(16 if version == 1 else 8), []


class Maker:
    def __init__(self, rng, sealed):
        self.rng, self.sealed = rng, sealed
        self.logs, self.lengths, self.sequences = {}, {}, {}
        self.visible, self.open, self.passed, self.busy = {}, {}, {}, set()
        count = {"in": rng.choice([1, 2]), "out": rng.choice([1, 2, 3]), "fin": 1, OFFSETS: rng.choice([1, 2]), STATES: 2}
        self.parts = {topic: [f"{topic}-{n * rng.choice([1, 1, 7])}" for n in range(count[topic])] for topic in count}
        for topic in count:
            for name in set(self.parts[topic]):
                self.logs[name], self.lengths[name], self.visible[name], self.open[name] = [], 0, [], {}
        self.apps = [{"group": "g", "sources": ["in"], "outputs": ["out"]}]
        if rng.random() < 0.6:
            self.apps.append({"group": "hé", "sources": [rng.choice(["out", "in"])], "outputs": ["fin"]})

    def append(self, name, records, producer=-1, epoch=-1, bits=0):
        body = b""
        for place, (key, value, headers) in enumerate(records):
            record = b"\0\0" + varint(place)
            for held in key, value:
                record += varint(-1) if held is None else varint(len(held)) + held
            record += varint(len(headers)) + b"".join(varint(len(k)) + k + varint(len(v)) + v for k, v in headers)
            body += varint(len(record)) + record
        base, count = self.lengths[name], len(records)
        key = name, producer, epoch
        sequence = self.sequences.get(key, 0) if producer >= 0 and not bits & 32 else -1
        self.sequences[key] = (max(sequence, 0)) + count if not bits & 32 else self.sequences.get(key, 0)
        if name.startswith("__") and self.rng.random() < 0.5:
            sequence = -1
        head = struct.pack(">qiibI", base, 0, 0, 2, 0)
        head += struct.pack(">hiqqqhii", bits, count - 1, 0, 0, producer, epoch, sequence, count)
        self.logs[name].append(self.sealed(head + body))
        self.lengths[name] += count
        if bits & 48 == 16:
            self.open[name].setdefault(producer, []).extend(range(base, base + count))
        elif not bits & 32:
            self.visible[name] = sorted(self.visible[name] + list(range(base, base + count)))

    def marker(self, name, producer, epoch, kind):
        self.append(name, [(struct.pack(">hh", 0, kind), bytes(6), [])], producer, epoch, 32 | self.rng.choice([0, 16]))
        held = self.open[name].pop(producer, [])
        if kind:
            self.visible[name] = sorted(self.visible[name] + held)

    def say(self, worker, status, partitions=()):
        key = b"\0\0" + text(worker["id"])
        value = None if status is None else state_text(self.rng, status, worker["producer"], worker["epoch"], partitions)
        again = self.rng.choice([1, 1, 1, 2])
        skipped = [(b"\0\1xyz", b"?", [])] * self.rng.choice([0, 0, 0, 1])
        if self.rng.random() < 0.05:
            skipped.append((key, state_text(self.rng, self.rng.choice([6, 7]), 99, 9, []), []))
        self.append(worker["home"], [(key, value, [])] * again + skipped)

    def spread(self, names, worker, records, wait):
        """Writes the records in batches to some partitions, each listed before it is first written to."""
        while records:
            name, size = self.rng.choice(names), self.rng.choice([1, 2, 5])
            yield from self.list_partition(worker, name, wait)
            self.append(name, records[:size], worker["producer"], worker["epoch"], 16)
            del records[:size]
            yield

    def list_partition(self, worker, name, wait):
        if name not in worker["listed"]:
            worker["listed"].append(name)
            self.say(worker, 1, worker["listed"])
            if wait:
                yield

    def transaction(self, worker):
        """One transaction, a step at a time."""
        rng, app = self.rng, worker["app"]
        if worker["epoch"] is None or rng.random() < 0.1:
            if worker["epoch"] is not None:
                worker["producer"] += rng.choice([0, 0, 100])
                if rng.random() < 0.5:
                    self.say(worker, None)
            worker["epoch"] = worker["epoch"] + 1 if worker["epoch"] is not None else 0
            self.say(worker, 0)
            yield
        worker["listed"], kind, source = [], rng.choice([0, 1, 1, 1]), None
        self.say(worker, 1, [])
        if app is None:
            records = [(None, b"fed", [])] * rng.choice([1, 2, 6])
            yield from self.spread(self.parts["in"], worker, records, True)
        else:
            free = [n for t in app["sources"] for n in set(self.parts[t]) if (app["group"], n) not in self.busy]
            if free:
                source = rng.choice(sorted(free))
                self.busy.add((app["group"], source))
                yield from self.process(worker, app, source, kind)
        if rng.random() < 0.2:
            yield from self.list_partition(worker, rng.choice(sorted(self.logs)), False)
        worker["epoch"] += rng.choice([1, 1, 1, 5])
        self.say(worker, 2 if kind else 3, worker["listed"])
        order = list(worker["listed"])
        rng.shuffle(order)
        for name in order:
            yield
            for _ in range(rng.choice([1, 1, 1, 2])):
                self.marker(name, worker["producer"], worker["epoch"], kind)
        self.say(worker, 4 if kind else 5)
        if source:
            self.busy.discard((app["group"], source))

    def process(self, worker, app, source, kind):
        rng, at = self.rng, (app["group"], source)
        stable = min([o[0] for o in self.open[source].values() if o] + [self.lengths[source]])
        ready = [o for o in self.visible[source] if self.passed.get(at, 0) <= o < stable]
        taken, topic = ready[: rng.choice([1, 2, 4, 8])], source.rsplit("-", 1)
        records = []
        for offset in taken:
            of = rng.choice([0, 1, 1, 2, 3])
            for output in range(1, of + 1) if of else [0]:
                headers = [(b"eo.topic", topic[0].encode()), (b"eo.partition", struct.pack(">i", int(topic[1])))]
                headers += [(b"eo.offset", struct.pack(">q", offset)), (b"eo.output", struct.pack(">i", output))]
                headers += [(b"eo.of", struct.pack(">i", of))] + [(b"other", b"x")] * rng.choice([0, 0, 1])
                rng.shuffle(headers)
                records.append((None, b"out", headers))
        rng.shuffle(records)
        home = sorted(set(self.parts[OFFSETS]))[len(app["group"]) % len(set(self.parts[OFFSETS]))]
        yield from self.spread([n for t in app["outputs"] for n in self.parts[t]], worker, records, rng.random() < 0.5)
        reached = ready[len(taken)] if len(ready) > len(taken) else stable
        if taken:
            offset = rng.choice([taken[-1] + 1, reached])
            group = app["group"].encode()
            commits = [commit_record(rng, group, source, self.passed.get(at, 0))] * rng.choice([0, 0, 1])
            commits += [commit_record(rng, group, source, offset)]
            commits += [(b"\0\2" + text(group), b"members", [])] * rng.choice([0, 0, 1])
            commits += [(commit_record(rng, b"else", "in-0", 3)[0], rng.choice([None, b"bad"]), [])] * rng.choice([0, 0, 1])
            yield from self.spread([home], worker, commits, False)
            if kind:
                self.passed[at] = offset

    def make(self):
        """The manifest, and for each partition its batches."""
        rng, running = self.rng, []
        workers = [{"id": b"up", "app": None}]
        for app in self.apps:
            workers += [{"id": app["group"].encode() + b"-%d" % n, "app": app} for n in range(rng.choice([1, 2]))]
        for n, worker in enumerate(workers):
            worker.update(producer=1000 + n, epoch=None, home=rng.choice(self.parts[STATES]), listed=[])
        epoch, left = 0, rng.choice([10, 30, 60, 120])
        while left or running:
            left = max(0, left - 1)
            if left and rng.random() < 0.2:
                epoch += rng.choice([0, 0, 1])
                records = [(b"k", b"fed", [])] * rng.choice([1, 2, 5])
                self.append(rng.choice(self.parts["in"]), records, *rng.choice([(-1, -1), (500, epoch)]))
            idle = [w for w in workers if all(w is not other for other, _ in running)]
            if left and idle and rng.random() < 0.3:
                worker = rng.choice(idle)
                running.append((worker, self.transaction(worker)))
            elif running:
                chosen = rng.choice(running)
                if next(chosen[1], "done") == "done":
                    running.remove(chosen)
        return {"version": 2, "apps": self.apps, "ends": dict(self.lengths)}, self.logs
