"""A cluster to try clients on: the mock cluster of librdkafka, and a relay before it that notes what is committed.

The mock keeps record batches as clients send them, and gives them back byte for byte but for their base offsets, as brokers
do; so what a fetch returns is what a segment would hold. It writes no end markers, no offsets log and no transaction log.
What a transaction commits it forgets, so the relay reads it from the request. For tests/examples.py.
"""
import collections
import ctypes
import socket
import struct
import threading

import plain_logs

FETCH, TXN_OFFSET_COMMIT = 1, 28
COPY = 2

Committed = collections.namedtuple("Committed", "group producer epoch offsets")


def load():
    """librdkafka, or None where it isn't there."""
    try:
        lib = ctypes.CDLL("librdkafka.so.1")
    except OSError:
        return None
    text, pointer, size, number = ctypes.c_char_p, ctypes.c_void_p, ctypes.c_size_t, ctypes.c_int
    for name, result, words in (
        ("conf_new", pointer, []),
        ("conf_set", number, [pointer, text, text, text, size]),
        ("new", pointer, [number, pointer, text, size]),
        ("topic_new", pointer, [pointer, text, pointer]),
        ("produce", number, [pointer, ctypes.c_int32, number, text, size, text, size, pointer]),
        ("flush", number, [pointer, number]),
        ("set_log_level", None, [pointer, number]),
        ("handle_mock_cluster", pointer, [pointer]),
        ("mock_cluster_bootstraps", text, [pointer]),
        ("mock_topic_create", number, [pointer, text, number, number]),
    ):
        call = getattr(lib, "rd_kafka_" + name)
        call.restype, call.argtypes = result, words
    return lib


class Cluster:
    """One broker. `address` is where clients find it: that of the relay."""

    def __init__(self, lib, topics):
        self.lib, why = lib, ctypes.create_string_buffer(512)
        conf = lib.rd_kafka_conf_new()
        for name, value in (b"test.mock.num.brokers", b"1"), (b"compression.type", b"none"), (b"log_level", b"3"):
            if lib.rd_kafka_conf_set(conf, name, value, why, len(why)):
                raise OSError(why.value.decode())
        self.handle = lib.rd_kafka_new(0, conf, why, len(why))
        if not self.handle:
            raise OSError(why.value.decode())
        mock = lib.rd_kafka_handle_mock_cluster(self.handle)
        host, port = lib.rd_kafka_mock_cluster_bootstraps(mock).decode().split(":")
        self.broker = host, int(port)
        for topic, partitions in topics.items():
            lib.rd_kafka_mock_topic_create(mock, topic.encode(), partitions, 1)
        self.relay = Relay(self.broker)
        self.address = f"{host}:{self.relay.port}"

    def feed(self, topic, partition, key, value):
        made = self.lib.rd_kafka_topic_new(self.handle, topic.encode(), None)
        if self.lib.rd_kafka_produce(made, partition, COPY, value, len(value or b""), key, len(key), None):
            raise OSError("not fed")

    def flush(self):
        if self.lib.rd_kafka_flush(self.handle, 10_000):
            raise OSError("not flushed")

    def log(self, topic, partition):
        """The bytes of a partition's batches, in order."""
        held, offset, end = b"", 0, 1
        while offset < end:
            end, data = self.fetch(topic, partition, offset)
            if data:
                at = 0
                while at < len(data):
                    batch, size = plain_logs.read_batch(data, at)
                    at, offset = at + size, batch.base + batch.count
                held += data
            elif offset < end:
                raise OSError(f"{topic}-{partition} ends at {offset}, not at {end}")
        return held

    def fetch(self, topic, partition, offset):
        """The end of the log, and the bytes from this offset on, by a request of version 4."""
        name = text_of(topic)
        asked = struct.pack(">iiiibi", -1, 100, 1, 2**26, 0, 1) + name + struct.pack(">iiqi", 1, partition, offset, 2**26)
        with socket.create_connection(self.broker, 10) as connection:
            stream = connection.makefile("rwb")
            send(stream, struct.pack(">hhih", FETCH, 4, 1, 4) + b"test" + asked)
            answer = receive(stream)
        at = 4 + 4 + 4 + len(name) + 4
        _, refusal, end, _, aborted = struct.unpack_from(">ihqqi", answer, at)
        if refusal:
            raise OSError(f"fetch is refused: {refusal}")
        at += 26 + 16 * max(aborted, 0)
        length = struct.unpack_from(">i", answer, at)[0]
        return end, answer[at + 4 : at + 4 + max(length, 0)]


def text_of(text):
    return struct.pack(">h", len(text)) + text.encode()


def send(stream, message):
    stream.write(struct.pack(">i", len(message)) + message)
    stream.flush()


def receive(stream):
    size = stream.read(4)
    return stream.read(struct.unpack(">i", size)[0]) if len(size) == 4 else None


class Relay:
    """Passes requests on to the broker and answers back, in which it names itself as the broker."""

    def __init__(self, broker):
        self.broker, self.committed = broker, []
        self.listener = socket.create_server(("127.0.0.1", 0))
        self.port = self.listener.getsockname()[1]
        self.there, self.here = (host_port(broker[0], port) for port in (broker[1], self.port))
        threading.Thread(target=self.accept, daemon=True).start()

    def accept(self):
        while True:
            client, _ = self.listener.accept()
            broker = socket.create_connection(self.broker)
            streams = client.makefile("rwb"), broker.makefile("rwb")
            threading.Thread(target=self.pass_on, args=(*streams, self.note), daemon=True).start()
            threading.Thread(target=self.pass_on, args=(*streams[::-1], self.renamed), daemon=True).start()

    def pass_on(self, source, target, changed):
        try:
            while (message := receive(source)) is not None:
                send(target, changed(message))
        except (OSError, ValueError):
            pass

    def renamed(self, answer):
        return answer.replace(self.there, self.here)

    def note(self, request):
        api, version = struct.unpack_from(">hh", request)
        if api == TXN_OFFSET_COMMIT:
            self.committed.append(committed_in(request, version))
        return request


def host_port(host, port):
    return host.encode() + struct.pack(">i", port)


def committed_in(request, version):
    """What a TxnOffsetCommit request of version 0 to 3 says."""
    fields, flexible = plain_logs.Fields(request), version >= 3
    text = (lambda: fields.take(fields.unsigned() - 1)) if flexible else fields.text
    count = (lambda: fields.unsigned() - 1) if flexible else (lambda: fields.number("i"))
    tagged = fields.tagged if flexible else (lambda: None)
    fields.take(8)
    fields.text()  # the client's name
    tagged()
    text()  # the transactional id
    group, producer, epoch, offsets = text(), fields.number("q"), fields.number("h"), {}
    if flexible:
        fields.number("i"), text(), fields.take(max(fields.unsigned() - 1, 0))  # generation, member, instance
    for _ in range(count()):
        topic = text()
        for _ in range(count()):
            partition, offset = fields.number("i"), fields.number("q")
            if version >= 2:
                fields.number("i")
            length = fields.unsigned() - 1 if flexible else fields.number("h")
            fields.take(max(length, 0))
            tagged()
            offsets[topic.decode(), partition] = offset
        tagged()
    return Committed(group, producer, epoch, offsets)
