// Application reads orders and writes a shipment for each of their items, exactly once. Client: franz-go, 1.19 or later: an older
// one doesn't raise the producer's epoch at the end of a transaction, so that its logs can't pass.
//
//	application BOOTSTRAP TRANSACTIONAL-ID ORDERS
//
// The value of an order is its items, divided by commas. An order without items, or without a value, has no shipments, so it
// gets a note. It stops after so many orders; a real application goes on.
package main

import (
	"context"
	"log"
	"os"
	"strconv"
	"strings"

	"github.com/twmb/franz-go/pkg/kgo"
)

func main() {
	if len(os.Args) != 4 {
		log.Fatal("words: BOOTSTRAP TRANSACTIONAL-ID ORDERS")
	}
	left, err := strconv.Atoi(os.Args[3])
	must(err)
	session, err := kgo.NewGroupTransactSession(
		kgo.SeedBrokers(os.Args[1]),
		kgo.TransactionalID(os.Args[2]),
		kgo.ConsumerGroup("shipping"),
		kgo.ConsumeTopics("orders"),
		kgo.FetchIsolationLevel(kgo.ReadCommitted()),
		kgo.RequireStableFetchOffsets(),
		kgo.ConsumeResetOffset(kgo.NewOffset().AtStart()),
		kgo.ProducerBatchCompression(kgo.NoCompression()),
	)
	must(err)
	defer session.Close()
	for left > 0 {
		left -= process(session)
	}
}

// must ends the program at an error; the transaction is aborted by its time-out, or by the next run's first one.
func must(err error) {
	if err != nil {
		log.Fatal(err)
	}
}

// process makes one transaction of one poll, and tells how many orders it committed. The session commits their offsets with the
// outputs, under the group's generation in which they were polled; where the group has rebalanced since, it aborts, and the
// orders come again.
func process(session *kgo.GroupTransactSession) int {
	ctx := context.Background()
	fetches := session.PollRecords(ctx, 500)
	for _, refused := range fetches.Errors() {
		must(refused.Err)
	}
	must(session.Begin())
	sent := kgo.AbortingFirstErrPromise(session.Client())
	fetches.EachRecord(func(order *kgo.Record) { sendOutputs(ctx, session, order, sent) })
	ended, err := session.End(ctx, kgo.TransactionEndTry(sent.Err() == nil))
	must(err)
	if !ended {
		return 0
	}
	return fetches.NumRecords()
}

// sendOutputs knows the number of outputs before it sends the first. A null value is an input too: its string is empty.
func sendOutputs(ctx context.Context, session *kgo.GroupTransactSession, order *kgo.Record, sent *kgo.FirstErrPromise) {
	items := strings.FieldsFunc(string(order.Value), func(r rune) bool { return r == ',' })
	if len(items) == 0 {
		session.Produce(ctx, shipment(order, "", 0, 0), sent.Promise())
	}
	for at, item := range items {
		session.Produce(ctx, shipment(order, item, int32(at+1), int32(len(items))), sent.Promise())
	}
}

// shipment is a new record: its headers are the claim alone, whatever headers the order had.
func shipment(order *kgo.Record, item string, output, of int32) *kgo.Record {
	return &kgo.Record{
		Topic:   "shipments",
		Key:     order.Key,
		Value:   []byte(item),
		Headers: claim(order.Topic, order.Partition, order.Offset, output, of),
	}
}
