// Application reads orders and writes a shipment for each of their items, exactly once. Client: confluent-kafka-go, 1.7 or
// later; with version 2 the path of the import ends in /v2/kafka.
//
//	application BOOTSTRAP TRANSACTIONAL-ID ORDERS
//
// The value of an order is its items, divided by commas. An order without items, or without a value, has no shipments, so it
// gets a note. It stops after so many orders; a real application goes on.
//
// confluent-kafka-go is librdkafka, and no release of that which is known here raises a producer's epoch at the end of a
// transaction: so a log of it can't pass today (docs/EVIDENCE.md). The calls are those of one that will; ../franz-go can.
package main

import (
	"context"
	"log"
	"os"
	"strconv"
	"strings"

	"github.com/confluentinc/confluent-kafka-go/kafka"
)

const mostOrders = 500

// application is what was read since the last commit, in one transaction: the offset after the last order of each partition.
// None is open while there are none.
type application struct {
	consumer *kafka.Consumer
	producer *kafka.Producer
	passed   map[int32]kafka.TopicPartition
}

func main() {
	if len(os.Args) != 4 {
		log.Fatal("words: BOOTSTRAP TRANSACTIONAL-ID ORDERS")
	}
	left, err := strconv.Atoi(os.Args[3])
	must(err)
	consumer, err := kafka.NewConsumer(&kafka.ConfigMap{
		"bootstrap.servers":  os.Args[1],
		"group.id":           "shipping",
		"isolation.level":    "read_committed",
		"enable.auto.commit": false,
		"auto.offset.reset":  "earliest",
	})
	must(err)
	producer, err := kafka.NewProducer(&kafka.ConfigMap{
		"bootstrap.servers": os.Args[1],
		"transactional.id":  os.Args[2],
		"compression.type":  "none",
	})
	must(err)
	go func() {
		for range producer.Events() { // what a transaction's commit waits for
		}
	}()
	must(producer.InitTransactions(context.Background()))
	a := &application{consumer, producer, map[int32]kafka.TopicPartition{}}
	must(consumer.Subscribe("orders", a.rebalance))
	for left > 0 {
		left -= a.process(left)
	}
	must(consumer.Close())
	producer.Close()
}

// must ends the program at an error; the next run's InitTransactions aborts what was begun.
func must(err error) {
	if err != nil {
		log.Fatal(err)
	}
}

// again makes a call until it is answered: after a time-out nobody knows whether it was done, so it is asked again, and not
// aborted.
func again(call func() error) {
	for {
		err := call()
		if refused, ok := err.(kafka.Error); !ok || !refused.IsRetriable() {
			must(err)
			return
		}
	}
}

// process makes one transaction of the orders that are at hand, at most so many; it waits a second for the first.
func (a *application) process(most int) (count int) {
	for wait := 1000; count < most && count < mostOrders; wait = 0 {
		switch event := a.consumer.Poll(wait).(type) {
		case *kafka.Message:
			must(event.TopicPartition.Error)
			a.take(event)
			count++
		case kafka.Error:
			log.Print(event)
		case nil:
			a.commit()
			return count
		}
	}
	a.commit()
	return count
}

func (a *application) take(order *kafka.Message) {
	if len(a.passed) == 0 {
		must(a.producer.BeginTransaction())
	}
	must(sendOutputs(a.producer, order))
	next := order.TopicPartition
	next.Offset++
	a.passed[next.Partition] = next
}

// commit ends the transaction that is open, under the group's generation in which its orders were read: so nothing is polled
// between an order and this.
func (a *application) commit() {
	if len(a.passed) == 0 {
		return
	}
	offsets := []kafka.TopicPartition{}
	for _, next := range a.passed {
		offsets = append(offsets, next)
	}
	group, err := a.consumer.GetConsumerGroupMetadata()
	must(err)
	ctx := context.Background()
	again(func() error { return a.producer.SendOffsetsToTransaction(ctx, offsets, group) })
	again(func() error { return a.producer.CommitTransaction(ctx) })
	a.passed = map[int32]kafka.TopicPartition{}
}

// rebalance ends the transaction before partitions go: afterwards offsets would be committed for orders which another member
// reads too. Where they are lost already, it is aborted.
func (a *application) rebalance(consumer *kafka.Consumer, event kafka.Event) error {
	switch changed := event.(type) {
	case kafka.AssignedPartitions:
		return consumer.Assign(changed.Partitions)
	case kafka.RevokedPartitions:
		if !consumer.AssignmentLost() {
			a.commit()
		} else if len(a.passed) > 0 {
			again(func() error { return a.producer.AbortTransaction(context.Background()) })
			a.passed = map[int32]kafka.TopicPartition{}
		}
		return consumer.Unassign()
	}
	return nil
}

// sendOutputs knows the number of outputs before it sends the first.
func sendOutputs(producer *kafka.Producer, order *kafka.Message) error {
	// A null value is an input too: its string is empty.
	items := strings.FieldsFunc(string(order.Value), func(r rune) bool { return r == ',' })
	if len(items) == 0 {
		return sendOne(producer, order, "", 0, 0)
	}
	for at, item := range items {
		if err := sendOne(producer, order, item, int32(at+1), int32(len(items))); err != nil {
			return err
		}
	}
	return nil
}

func sendOne(producer *kafka.Producer, order *kafka.Message, item string, output, of int32) error {
	shipments, source := "shipments", order.TopicPartition
	return producer.Produce(&kafka.Message{
		TopicPartition: kafka.TopicPartition{Topic: &shipments, Partition: kafka.PartitionAny},
		Key:            order.Key,
		Value:          []byte(item),
		Headers:        claim(*source.Topic, source.Partition, int64(source.Offset), output, of),
	}, nil)
}
