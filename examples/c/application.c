/* Reads orders and writes a shipment for each of their items, exactly once. Client: librdkafka.
 *
 *     application BOOTSTRAP TRANSACTIONAL-ID ORDERS
 *
 * The value of an order is its items, divided by commas. An order without items, or without a value, has no shipments, so it
 * gets a note. It stops after so many orders; a real application goes on.
 *
 * No release of librdkafka that is known here raises a producer's epoch at the end of a transaction, so a log of it can't pass
 * today (docs/EVIDENCE.md). The calls are those of one that will. */
#include <stdio.h>
#include <stdlib.h>
#include <string.h>

#include "claim.h"

#define MOST_ORDERS 500

static void fail(const char *what, const char *why) {
  fprintf(stderr, "application: %s: %s\n", what, why);
  exit(1);
}

static void must(const char *what, rd_kafka_error_t *error) {
  if (error) fail(what, rd_kafka_error_string(error));
}

static void set(rd_kafka_conf_t *conf, const char *name, const char *value) {
  char why[512];
  if (rd_kafka_conf_set(conf, name, value, why, sizeof why)) fail(name, why);
}

static rd_kafka_t *client(rd_kafka_type_t type, rd_kafka_conf_t *conf) {
  char why[512];
  rd_kafka_t *made = rd_kafka_new(type, conf, why, sizeof why);
  if (!made) fail("no client", why);
  return made;
}

static rd_kafka_t *make_producer(const char *bootstrap, const char *transactional_id) {
  rd_kafka_conf_t *conf = rd_kafka_conf_new();
  set(conf, "bootstrap.servers", bootstrap);
  set(conf, "transactional.id", transactional_id);
  set(conf, "compression.type", "none");
  rd_kafka_t *producer = client(RD_KAFKA_PRODUCER, conf);
  must("init", rd_kafka_init_transactions(producer, 30000));
  return producer;
}

/* The first item at or after `at`, and its length; NULL where there is none. */
static const char *next_item(const char *at, const char *end, size_t *length) {
  while (at < end && *at == ',') at++;
  const char *comma = at < end ? memchr(at, ',', (size_t)(end - at)) : NULL;
  *length = (size_t)((comma ? comma : end) - at);
  return at < end ? at : NULL;
}

static int32_t count_items(const char *at, const char *end) {
  int32_t count = 0;
  size_t length;
  while ((at = next_item(at, end, &length))) {
    at += length;
    count++;
  }
  return count;
}

static void send_one(rd_kafka_t *producer, const rd_kafka_message_t *order, const char *item, size_t length, int32_t output, int32_t of) {
  rd_kafka_headers_t *headers = claim(rd_kafka_topic_name(order->rkt), order->partition, order->offset, output, of);
  rd_kafka_resp_err_t refused = rd_kafka_producev(
      producer, RD_KAFKA_V_TOPIC("shipments"), RD_KAFKA_V_MSGFLAGS(RD_KAFKA_MSG_F_COPY),
      RD_KAFKA_V_KEY(order->key, order->key_len), RD_KAFKA_V_VALUE((void *)item, length),
      RD_KAFKA_V_HEADERS(headers), RD_KAFKA_V_END);
  if (refused) {
    rd_kafka_headers_destroy(headers);
    fail("produce", rd_kafka_err2str(refused));
  }
}

/* The number of outputs is known before the first is sent. */
static void send_outputs(rd_kafka_t *producer, const rd_kafka_message_t *order) {
  const char *at = order->payload, *end = at + order->len;
  int32_t of = count_items(at, end), output = 0;
  size_t length;
  if (of == 0) send_one(producer, order, "", 0, 0, 0);
  while ((at = next_item(at, end, &length))) {
    send_one(producer, order, at, length, ++output, of);
    at += length;
  }
}

/* What is read since the last commit, in one transaction: the offset after the last order of each partition. None is open
 * while the list is empty. */
struct application {
  rd_kafka_t *producer;
  rd_kafka_topic_partition_list_t *passed;
};

static void take(struct application *application, const rd_kafka_message_t *order) {
  const char *topic = rd_kafka_topic_name(order->rkt);
  if (application->passed->cnt == 0) must("begin", rd_kafka_begin_transaction(application->producer));
  send_outputs(application->producer, order);
  rd_kafka_topic_partition_t *one = rd_kafka_topic_partition_list_find(application->passed, topic, order->partition);
  if (!one) one = rd_kafka_topic_partition_list_add(application->passed, topic, order->partition);
  one->offset = order->offset + 1;
}

static void clear(struct application *application) {
  rd_kafka_topic_partition_list_destroy(application->passed);
  application->passed = rd_kafka_topic_partition_list_new(1);
}

/* Whether a call has to be made again: after a time-out nobody knows whether it was done, so it is asked again, and not
 * aborted. At another error the program ends, and the next run's init aborts what was begun. */
static int again(const char *what, rd_kafka_error_t *error) {
  if (!error || !rd_kafka_error_is_retriable(error)) {
    must(what, error);
    return 0;
  }
  rd_kafka_error_destroy(error);
  return 1;
}

/* Ends the transaction that is open: its outputs, and the offsets past their orders, under the group's generation in which
 * they were read. So nothing is polled between an order and this. */
static void commit(struct application *application, rd_kafka_t *consumer) {
  if (application->passed->cnt == 0) return;
  rd_kafka_t *producer = application->producer;
  rd_kafka_consumer_group_metadata_t *group = rd_kafka_consumer_group_metadata(consumer);
  while (again("offsets", rd_kafka_send_offsets_to_transaction(producer, application->passed, group, 30000)))
    ;
  while (again("commit", rd_kafka_commit_transaction(producer, 30000)))
    ;
  rd_kafka_consumer_group_metadata_destroy(group);
  clear(application);
}

/* A poll that brings this ends the transaction first: once the partitions are another member's, an offset of them would be
 * committed for orders which that member reads too. Where they are lost already, it is aborted. */
static void rebalance(rd_kafka_t *consumer, rd_kafka_resp_err_t what, rd_kafka_topic_partition_list_t *partitions, void *opaque) {
  struct application *application = opaque;
  if (what == RD_KAFKA_RESP_ERR__ASSIGN_PARTITIONS) {
    if (rd_kafka_assign(consumer, partitions)) fail("assign", "orders");
    return;
  }
  if (!rd_kafka_assignment_lost(consumer)) commit(application, consumer);
  if (application->passed->cnt > 0) {
    while (again("abort", rd_kafka_abort_transaction(application->producer, 30000)))
      ;
    clear(application);
  }
  if (rd_kafka_assign(consumer, NULL)) fail("unassign", "orders");
}

static rd_kafka_t *make_consumer(const char *bootstrap, struct application *application) {
  rd_kafka_conf_t *conf = rd_kafka_conf_new();
  set(conf, "bootstrap.servers", bootstrap);
  set(conf, "group.id", "shipping");
  set(conf, "isolation.level", "read_committed");
  set(conf, "enable.auto.commit", "false");
  set(conf, "auto.offset.reset", "earliest");
  rd_kafka_conf_set_rebalance_cb(conf, rebalance);
  rd_kafka_conf_set_opaque(conf, application);
  rd_kafka_t *consumer = client(RD_KAFKA_CONSUMER, conf);
  rd_kafka_poll_set_consumer(consumer);
  rd_kafka_topic_partition_list_t *topics = rd_kafka_topic_partition_list_new(1);
  rd_kafka_topic_partition_list_add(topics, "orders", RD_KAFKA_PARTITION_UA);
  if (rd_kafka_subscribe(consumer, topics)) fail("subscribe", "orders");
  rd_kafka_topic_partition_list_destroy(topics);
  return consumer;
}

/* The orders that are at hand, up to a number, in one transaction; waits a second for the first. How many they were. */
static int process(struct application *application, rd_kafka_t *consumer, int most) {
  int count = 0;
  while (count < most) {
    rd_kafka_message_t *order = rd_kafka_consumer_poll(consumer, count == 0 ? 1000 : 0);
    if (!order) break;
    if (order->err) fail("read", rd_kafka_message_errstr(order));
    take(application, order);
    rd_kafka_message_destroy(order);
    count++;
  }
  commit(application, consumer);
  return count;
}

int main(int argc, char **argv) {
  if (argc != 4) fail("words", "BOOTSTRAP TRANSACTIONAL-ID ORDERS");
  struct application application = {make_producer(argv[1], argv[2]), rd_kafka_topic_partition_list_new(1)};
  rd_kafka_t *consumer = make_consumer(argv[1], &application);
  for (int left = atoi(argv[3]); left > 0;) left -= process(&application, consumer, left < MOST_ORDERS ? left : MOST_ORDERS);
  rd_kafka_consumer_close(consumer);
  rd_kafka_destroy(consumer);
  rd_kafka_destroy(application.producer);
  rd_kafka_topic_partition_list_destroy(application.passed);
  return 0;
}
