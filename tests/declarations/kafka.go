// Package kafka declares what examples/go uses of confluent-kafka-go's, from memory of its release 1.9: so that the example is
// compiled where the client that is here has no transactions. Nothing here does anything.
package kafka

import "context"

type (
	ConfigValue           interface{}
	ConfigMap             map[string]ConfigValue
	Consumer              struct{}
	Producer              struct{}
	ConsumerGroupMetadata struct{}
	Offset                int64
	RebalanceCb           func(*Consumer, Event) error
	Event                 interface{ String() string }
	Error                 struct{}
	AssignedPartitions    struct{ Partitions []TopicPartition }
	RevokedPartitions     struct{ Partitions []TopicPartition }
	TopicPartition        struct {
		Topic     *string
		Partition int32
		Offset    Offset
		Metadata  *string
		Error     error
	}
	Header struct {
		Key   string
		Value []byte
	}
	Message struct {
		TopicPartition TopicPartition
		Value, Key     []byte
		Headers        []Header
	}
)

const PartitionAny = int32(-1)

func NewConsumer(conf *ConfigMap) (*Consumer, error)                          { return nil, nil }
func NewProducer(conf *ConfigMap) (*Producer, error)                          { return nil, nil }
func (e Error) Error() string                                                 { return "" }
func (e Error) String() string                                                { return "" }
func (e Error) IsRetriable() bool                                             { return false }
func (e AssignedPartitions) String() string                                   { return "" }
func (e RevokedPartitions) String() string                                    { return "" }
func (m *Message) String() string                                             { return "" }
func (c *Consumer) Subscribe(topic string, rebalanceCb RebalanceCb) error     { return nil }
func (c *Consumer) Poll(timeoutMs int) Event                                  { return nil }
func (c *Consumer) Assign(partitions []TopicPartition) error                  { return nil }
func (c *Consumer) Unassign() error                                           { return nil }
func (c *Consumer) AssignmentLost() bool                                      { return false }
func (c *Consumer) GetConsumerGroupMetadata() (*ConsumerGroupMetadata, error) { return nil, nil }
func (c *Consumer) Close() error                                              { return nil }
func (p *Producer) Events() chan Event                                        { return nil }
func (p *Producer) Produce(msg *Message, deliveryChan chan Event) error       { return nil }
func (p *Producer) InitTransactions(ctx context.Context) error                { return nil }
func (p *Producer) BeginTransaction() error                                   { return nil }
func (p *Producer) CommitTransaction(ctx context.Context) error               { return nil }
func (p *Producer) AbortTransaction(ctx context.Context) error                { return nil }
func (p *Producer) Close()                                                    {}

func (p *Producer) SendOffsetsToTransaction(ctx context.Context, offsets []TopicPartition, group *ConsumerGroupMetadata) error {
	return nil
}
