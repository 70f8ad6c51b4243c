"""Logs in the tables of cases, as words: what stands in braces, written out as bytes.

    {out-0: committed 1000/0@0 (output 1/1 of in-0:0); in-0: plain (a, b)}

Partitions are parted by ';' and become words 'NAME:END:BASE/BYTES,BASE/BYTES', a base and bytes for each segment. END is
the offset behind the last batch; 'out-0 to 7:' says another. Braces without a name become the bytes of their batches.

A partition is a row of
    KIND P/E@S (RECORD, ..)   a batch: of no producer ('plain'), or of producer id P at epoch E from base sequence S
                              (without '@S' it is -1), outside transactions ('idempotent') or in one ('data');
                              'committed' also writes the marker COMMIT at the next epoch
    commit P/E, abort P/E     an end marker
    at N                      the next batch has base offset N, not that of the next record
    /  and  /N                another segment begins here, named by the next offset, or N
    bytes HEX                 bytes that are no batch
and a record is one of
    WORD                      its value; it has no key
    output N/OF of NAME:AT    the claim to be output N of OF of a record, with the value 'o', or 'null output ..'; behind
                              it maybe 'but HEADER CHANGE', one of CHANGES, or 'but others beside', which adds a header
                              and turns them all
    note of NAME:AT           the claim to be output 0 of 0
    GROUP reads NAME to N     an offset commit
    GROUP forgets NAME        the tombstone of one
    ID is STATUS P/E on NAME+NAME
                              a state of a transactional id; without partitions 'on' is left out
    key HEX value HEX         '-' is null, '.' is no bytes
In groups and ids '%20' is the byte 20. A line 'let NAME = ..' names a piece for the lines below it, in capitals. The
encoder is that of tests/random_evidence.py and tests/made_evidence.py, which shares nothing with the program.
"""
import re
import struct
from urllib.parse import unquote_to_bytes

from made_evidence import text, unsigned
from mutants import varint
from random_evidence import part_text, sealed

STATUSES = "Empty Ongoing PrepareCommit PrepareAbort CompleteCommit CompleteAbort Dead PrepareEpochFence".split()
BITS = {"plain": 0, "idempotent": 0, "data": 16, "committed": 16, "commit": 48, "abort": 48}
CHANGES = {
    "absent": lambda held: [],
    "twice": lambda held: [held, held],
    "null": lambda held: [None],
    "longer": lambda held: [b"\0" + held],
    "shorter": lambda held: [held[: len(held) // 2]],
    "negative": lambda held: [b"\x80" + held[1:]],
}
ITEM = re.compile(
    r"\s*(?:(?P<cut>/)(?P<name>\d*)|at (?P<at>-?\d+)|bytes (?P<bytes>[0-9a-f]+)|(?P<kind>[a-z]+)"
    r"(?: (?P<producer>-?\d+)/(?P<epoch>-?\d+)(?:@(?P<sequence>-?\d+))?)?(?: *\((?P<records>[^()]*)\))?)(?=\s|$)"
)
PLACE = r"(\S+)-(\d+)"


def bytes_of(word):
    return None if word == "-" else bytes.fromhex(word.strip("."))


def claim(null, output, of, topic, partition, offset, header=None, change=None):
    numbers = ("partition", "i", partition), ("offset", "q", offset), ("output", "i", output), ("of", "i", of)
    headers = [("topic", topic.encode())] + [(name, struct.pack(">" + form, int(n))) for name, form, n in numbers]
    if header and header != "others":
        if header not in dict(headers):
            raise ValueError(f"no header {header}")
        headers = [(name, new) for name, held in headers for new in (CHANGES[change](held) if name == header else [held])]
    headers = [(b"eo." + name.encode(), held) for name, held in headers]
    if header == "others":
        headers = [(b"eo.outputs", None)] + headers[::-1]
    return None, None if null else b"o", headers


def offset_key(group, topic, partition):
    return b"\0\1" + text(unquote_to_bytes(group)) + text(topic.encode()) + struct.pack(">i", int(partition))


def offset_commit(group, topic, partition, offset):
    return offset_key(group, topic, partition), struct.pack(">hqihq", 3, int(offset), -1, 0, 0), []


def state(name, status, producer, epoch, partitions):
    fields = struct.pack(">hqhib", 1, int(producer), int(epoch), 60000, STATUSES.index(status))
    listed = [name.rsplit("-", 1) for name in partitions.split("+")] if partitions else []
    fields += unsigned(len(listed) + 1)
    for topic, number in listed:
        fields += unsigned(len(topic) + 1) + topic.encode() + struct.pack(">Bi", 2, int(number)) + b"\0"
    return b"\0\0" + text(unquote_to_bytes(name)), fields + struct.pack(">qq", 5, -1) + b"\0", []


RECORDS = [
    (rf"(null )?output (-?\d+)/(-?\d+) of {PLACE}:(\d+)(?: but (\S+) (\S+))?", claim),
    (rf"note of {PLACE}:(\d+)", lambda *place: claim(None, 0, 0, *place)),
    (rf"(\S+) reads {PLACE} to (-?\d+)", offset_commit),
    (rf"(\S+) forgets {PLACE}", lambda *key: (offset_key(*key), None, [])),
    (r"(\S+) is (\S+) (-?\d+)/(-?\d+)(?: on (\S+))?", state),
    (r"key (\S+) value (\S+)", lambda key, value: (bytes_of(key), bytes_of(value), [])),
    (r"([a-z0-9]+)", lambda value: (None, value.encode(), [])),
]


def record(words):
    for form, made in RECORDS:
        found = re.fullmatch(form, words.strip())
        if found:
            return made(*found.groups())
    raise ValueError(f"no record: {words}")


def batch(base, bits, producer, epoch, sequence, records):
    body = b""
    for place, (key, value, headers) in enumerate(records):
        held = b"\0\0" + varint(place) + part_text(key) + part_text(value) + varint(len(headers))
        held += b"".join(part_text(name) + part_text(value) for name, value in headers)
        body += varint(len(held)) + held
    head = struct.pack(">qiibI", base, 0, 0, 2, 0)
    head += struct.pack(">hiqqqhii", bits, len(records) - 1, 0, 0, producer, epoch, sequence, len(records))
    return sealed(head + body)


class Log:
    """The segments of a partition, each a name and its bytes."""

    def __init__(self):
        self.segments, self.next, self.cut = [], 0, None

    def put(self, data):
        if self.cut is not None or not self.segments:
            self.segments.append([self.cut or 0, b""])
            self.cut = None
        self.segments[-1][1] += data

    def begin(self, name):
        if self.cut is not None:
            self.put(b"")
        self.cut = name

    def batch(self, kind, producer, epoch, sequence, records):
        self.put(batch(self.next, BITS[kind], producer, epoch, sequence, records))
        self.next += len(records)

    def row(self, kind, producer, epoch, sequence, records):
        if kind in ("commit", "abort"):
            records = [(struct.pack(">hh", 0, kind == "commit"), bytes(6), [])]
        self.batch(kind, producer, epoch, sequence, records)
        if kind == "committed":
            self.row("commit", producer, epoch + 1, -1, [])

    def item(self, found):
        if found["cut"]:
            self.begin(int(found["name"] or self.next))
        elif found["at"]:
            self.next = int(found["at"])
        elif found["bytes"]:
            self.put(bytes.fromhex(found["bytes"]))
        else:
            numbers = (int(found[name] or -1) for name in ("producer", "epoch", "sequence"))
            records = [record(words) for words in (found["records"] or "").split(",") if words.strip()]
            self.row(found["kind"], *numbers, records)


def log(words):
    made, at = Log(), 0
    words = words.strip()
    while at < len(words):
        found = ITEM.match(words, at)
        if not found:
            raise ValueError(f"no batch: {words[at:]}")
        made.item(found)
        at = found.end()
    if made.cut is not None:
        made.put(b"")
    return made


def partition(words):
    found = re.fullmatch(r"\s*(\S+-\d+)(?: to (-?\d+))?:(.*)", words)
    if not found:
        return "".join(data.hex() for _, data in log(words).segments) or "-"
    name, end, rows = found.groups()
    made = log(rows)
    segments = ",".join(f"{base}/{data.hex() or '-'}" for base, data in made.segments)
    return f"{name}:{made.next if end is None else end}:{segments}"


def named(words, names):
    return re.sub(r"\b[A-Z][A-Z0-9_]*\b", lambda found: names.get(found[0], found[0]), words)


def define(line, names):
    """Takes a line 'let NAME = ..' into the names."""
    name, piece = re.fullmatch(r"let ([A-Z][A-Z0-9_]*) = (.*)", line).groups()
    names[name] = named(piece, names)


def expand(words, names={}):
    """The words with what stands in braces written out as bytes, and these names as what they are."""

    def written(found):
        return " ".join(partition(part) for part in found[1].split(";") if part.strip())

    return re.sub(r"\{([^{}]*)\}", written, named(words, names))
