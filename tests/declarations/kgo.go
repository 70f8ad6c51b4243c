// Package kgo declares what examples/franz-go uses of franz-go's, from memory of its release 1.19: so that the example is compiled
// where the module can't be had. Nothing here does anything.
package kgo

import "context"

type (
	Opt                  interface{}
	Client               struct{}
	GroupTransactSession struct{}
	FirstErrPromise      struct{}
	Fetches              []struct{}
	FetchError           struct {
		Topic     string
		Partition int32
		Err       error
	}
	IsolationLevel    struct{}
	Offset            struct{}
	CompressionCodec  struct{}
	TransactionEndTry bool
	RecordHeader      struct {
		Key   string
		Value []byte
	}
	Record struct {
		Key, Value  []byte
		Headers     []RecordHeader
		Topic       string
		Partition   int32
		LeaderEpoch int32
		Offset      int64
	}
)

func NewGroupTransactSession(opts ...Opt) (*GroupTransactSession, error) { return nil, nil }
func SeedBrokers(seeds ...string) Opt                                    { return nil }
func TransactionalID(id string) Opt                                      { return nil }
func ConsumerGroup(group string) Opt                                     { return nil }
func ConsumeTopics(topics ...string) Opt                                 { return nil }
func FetchIsolationLevel(level IsolationLevel) Opt                       { return nil }
func ReadCommitted() IsolationLevel                                      { return IsolationLevel{} }
func RequireStableFetchOffsets() Opt                                     { return nil }
func ConsumeResetOffset(offset Offset) Opt                               { return nil }
func NewOffset() Offset                                                  { return Offset{} }
func (o Offset) AtStart() Offset                                         { return o }
func ProducerBatchCompression(preference ...CompressionCodec) Opt        { return nil }
func NoCompression() CompressionCodec                                    { return CompressionCodec{} }
func AbortingFirstErrPromise(client *Client) *FirstErrPromise            { return nil }
func (f *FirstErrPromise) Promise() func(*Record, error)                 { return nil }
func (f *FirstErrPromise) Err() error                                    { return nil }
func (fs Fetches) Errors() []FetchError                                  { return nil }
func (fs Fetches) EachRecord(fn func(*Record))                           {}
func (fs Fetches) NumRecords() int                                       { return 0 }
func (s *GroupTransactSession) Client() *Client                          { return nil }
func (s *GroupTransactSession) Close()                                   {}
func (s *GroupTransactSession) Begin() error                             { return nil }

func (s *GroupTransactSession) PollRecords(ctx context.Context, maxPollRecords int) Fetches {
	return nil
}

func (s *GroupTransactSession) Produce(ctx context.Context, r *Record, promise func(*Record, error)) {
}

func (s *GroupTransactSession) End(ctx context.Context, commit TransactionEndTry) (committed bool, err error) {
	return false, nil
}
