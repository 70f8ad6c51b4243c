package main

import (
	"encoding/binary"

	"github.com/twmb/franz-go/pkg/kgo"
)

// claim gives the headers that an application writes on each output record: of which input it is an output
// (docs/APPLICATION.md). It is output number output of the of outputs of the record at offset of a partition of topic; 0 of 0
// is the note that it has none.
func claim(topic string, partition int32, offset int64, output, of int32) []kgo.RecordHeader {
	return []kgo.RecordHeader{
		{Key: "eo.topic", Value: []byte(topic)},
		{Key: "eo.partition", Value: int32Bytes(partition)},
		{Key: "eo.offset", Value: int64Bytes(offset)},
		{Key: "eo.output", Value: int32Bytes(output)},
		{Key: "eo.of", Value: int32Bytes(of)},
	}
}

func int32Bytes(number int32) []byte {
	value := make([]byte, 4)
	binary.BigEndian.PutUint32(value, uint32(number))
	return value
}

func int64Bytes(number int64) []byte {
	value := make([]byte, 8)
	binary.BigEndian.PutUint64(value, uint64(number))
	return value
}
