"""The Python application of examples/ with a client of its own: what it asks of a client when partitions go, and when an answer is late.

For tests/examples.py, whose mock cluster never rebalances a group. `calls` are what the application asked of the client, in order.
"""
import importlib.util
import os
import sys
import types


class KafkaException(Exception):
    pass


class Refused:
    def __init__(self, is_retriable):
        self.retriable = lambda: is_retriable


class Order:
    def __init__(self, partition, offset, value=b"apple"):
        self.topic, self.partition, self.offset = (lambda: "orders"), (lambda: partition), (lambda: offset)
        self.key, self.value, self.error = (lambda: b"k"), (lambda: value), (lambda: None)


class Client:
    """A producer and a consumer. A poll brings what comes next: an order, None, or a call of the application's, as of a rebalance."""

    def __init__(self, coming=(), late=None):
        self.calls, self.coming, self.late = [], list(coming), dict(late or {})

    def poll(self, _):
        while self.coming and not isinstance(self.coming[0], (Order, type(None))):
            self.coming.pop(0)(self)
        return self.coming.pop(0) if self.coming else None

    def consumer_group_metadata(self):
        return "group"

    def __getattr__(self, name):
        def call(*words, **named):
            self.calls.append((name, *words) if name == "send_offsets_to_transaction" else name)
            if self.late.get(name):
                raise KafkaException(Refused(self.late[name].pop(0)))

        return call


def load(path):
    """The application, over this client."""
    client = types.ModuleType("confluent_kafka")
    client.Consumer = client.Producer = Client
    client.KafkaException, client.TopicPartition = KafkaException, lambda *place: place
    names = {"confluent_kafka": client}
    kept = {name: sys.modules.get(name) for name in [*names, "claim"]}
    sys.modules.update(names)
    sys.path.insert(0, os.path.dirname(path))
    try:
        spec = importlib.util.spec_from_file_location("application_by_itself", path)
        made = importlib.util.module_from_spec(spec)
        spec.loader.exec_module(made)
    finally:
        sys.path.pop(0)
        for name, module in kept.items():
            sys.modules.pop(name, None)
            if module:
                sys.modules[name] = module
    return made


def try_polls(path, expect):
    made = load(path)
    offsets = lambda *places: ("send_offsets_to_transaction", [("orders", p, o) for p, o in places], "group")
    one = ["begin_transaction", "produce"]

    def asked(coming, late=None, most=9):
        client = Client(late=late)
        application = made.Application(client)
        client.coming = [it(application) if callable(it) else it for it in coming]
        made.process(application, client, most)
        return client.calls

    # rebalances: what a poll calls when partitions are revoked, and when they are lost
    revoke = lambda application: lambda client: application.commit(client, [])
    lose = lambda application: lambda client: application.abort(client, [])
    for what, coming, wanted in (
        ("one poll", [Order(0, 4), Order(1, 7, None), None], [*one, "produce", offsets((0, 5), (1, 8)), "commit_transaction"]),
        ("partitions go between two polls", [Order(0, 4), revoke, Order(0, 5), None],
         [*one, offsets((0, 5)), "commit_transaction", *one, offsets((0, 6)), "commit_transaction"]),
        ("partitions go with nothing read", [revoke, lose, None], []),
        ("partitions are lost", [Order(0, 4), lose, Order(0, 4), None],
         [*one, "abort_transaction", *one, offsets((0, 5)), "commit_transaction"]),
    ):
        calls = asked(coming)
        expect(calls == wanted, f"python, {what}: {calls}")
    calls = asked([Order(0, 4)], {"commit_transaction": [True, True], "send_offsets_to_transaction": [True]})
    wanted = [*one, offsets((0, 5)), offsets((0, 5)), *["commit_transaction"] * 3]
    expect(calls == wanted, f"python, late answers: {calls}")
    try:
        asked([Order(0, 4)], {"commit_transaction": [True, False]})
        expect(False, "python: a commit that is refused ends the program")
    except KafkaException:
        expect(True, "")
