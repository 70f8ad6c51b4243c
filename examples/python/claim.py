"""The headers that an application writes on each output record: of which input it is an output (docs/APPLICATION.md)."""
import struct


def claim(topic, partition, offset, output, of):
    """Output number `output` of the `of` outputs of the record at `offset` of a partition of `topic`; 0 of 0 is the note
    that it has none. Both clients take the list: confluent-kafka and kafka-python."""
    return [
        ("eo.topic", topic.encode("ascii")),
        ("eo.partition", struct.pack(">i", partition)),
        ("eo.offset", struct.pack(">q", offset)),
        ("eo.output", struct.pack(">i", output)),
        ("eo.of", struct.pack(">i", of)),
    ]
