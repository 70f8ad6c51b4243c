"""Reads orders and writes a shipment for each of their items, exactly once. Client: confluent-kafka.

    application.py BOOTSTRAP TRANSACTIONAL-ID ORDERS

The value of an order is its items, divided by commas. An order without items, or without a value, has no shipments, so it gets
a note. It stops after so many orders; a real application goes on.

confluent-kafka is librdkafka, and no release of that which is known here raises a producer's epoch at the end of a transaction:
so a log of it can't pass today (docs/EVIDENCE.md). The calls are those of one that will.
"""
import sys

from confluent_kafka import Consumer, KafkaException, Producer, TopicPartition

from claim import claim

MOST_ORDERS = 500


def shipments(order):
    """All outputs of one input, before the first of them is sent: so their number is known. A null value is an input too."""
    return [item for item in (order.value() or b"").split(b",") if item]


def send(producer, order):
    outputs = shipments(order)
    source = order.topic(), order.partition(), order.offset()
    for number, item in enumerate(outputs, 1):
        producer.produce("shipments", key=order.key(), value=item, headers=claim(*source, number, len(outputs)))
    if not outputs:
        producer.produce("shipments", key=order.key(), value=b"", headers=claim(*source, 0, 0))


def again(call, *words):
    """Calls until it is answered: after a time-out nobody knows whether it was done, so it is asked again, and not aborted. At
    another error the program ends, and the next run's init_transactions aborts what was begun."""
    while True:
        try:
            return call(*words)
        except KafkaException as refused:
            if not refused.args[0].retriable():
                raise


class Application:
    """What is read since the last commit, in one transaction: the offset after the last order of each partition. None is open
    while there are none."""

    def __init__(self, producer):
        self.producer, self.passed = producer, {}

    def take(self, order):
        if order.error():
            raise KafkaException(order.error())
        if not self.passed:
            self.producer.begin_transaction()
        send(self.producer, order)
        self.passed[order.topic(), order.partition()] = order.offset() + 1

    def commit(self, consumer, _=None):
        """Ends the transaction that is open, under the group's generation in which its orders were read: so nothing is polled
        between an order and this. A poll that takes partitions away calls it first: afterwards the offsets would be committed
        for orders which another member reads too."""
        if self.passed:
            offsets = [TopicPartition(*place, offset) for place, offset in self.passed.items()]
            again(self.producer.send_offsets_to_transaction, offsets, consumer.consumer_group_metadata())
            again(self.producer.commit_transaction)
            self.passed = {}

    def abort(self, *_):
        """The partitions are lost, another member has them already."""
        if self.passed:
            again(self.producer.abort_transaction)
            self.passed = {}


def process(application, consumer, most):
    """The orders that are at hand, up to a number, in one transaction; waits a second for the first. How many they were."""
    count, order = 0, consumer.poll(1.0)
    while order is not None:
        application.take(order)
        count += 1
        order = consumer.poll(0) if count < most else None
    application.commit(consumer)
    return count


def main():
    bootstrap, transactional_id, orders = sys.argv[1:]
    consumer = Consumer({
        "bootstrap.servers": bootstrap,
        "group.id": "shipping",
        "isolation.level": "read_committed",
        "enable.auto.commit": False,
        "auto.offset.reset": "earliest",
    })
    producer = Producer({"bootstrap.servers": bootstrap, "transactional.id": transactional_id, "compression.type": "none"})
    producer.init_transactions()
    application = Application(producer)
    consumer.subscribe(["orders"], on_revoke=application.commit, on_lost=application.abort)
    left = int(orders)
    while left > 0:
        left -= process(application, consumer, min(left, MOST_ORDERS))
    consumer.close()


if __name__ == "__main__":
    main()
