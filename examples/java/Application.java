import java.time.Duration;
import java.util.ArrayList;
import java.util.HashMap;
import java.util.List;
import java.util.Map;
import org.apache.kafka.clients.consumer.ConsumerGroupMetadata;
import org.apache.kafka.clients.consumer.ConsumerRecord;
import org.apache.kafka.clients.consumer.ConsumerRecords;
import org.apache.kafka.clients.consumer.KafkaConsumer;
import org.apache.kafka.clients.consumer.OffsetAndMetadata;
import org.apache.kafka.clients.producer.KafkaProducer;
import org.apache.kafka.clients.producer.ProducerRecord;
import org.apache.kafka.common.KafkaException;
import org.apache.kafka.common.TopicPartition;
import org.apache.kafka.common.errors.ProducerFencedException;
import org.apache.kafka.common.errors.TimeoutException;
import org.apache.kafka.common.serialization.StringDeserializer;
import org.apache.kafka.common.serialization.StringSerializer;

/**
 * Reads orders and writes a shipment for each of their items, exactly once. Client: kafka-clients, 4.0 or later: an older one
 * doesn't raise the producer's epoch at the end of a transaction, so that its logs can't pass.
 *
 * <p>java Application BOOTSTRAP TRANSACTIONAL-ID ORDERS
 *
 * <p>The value of an order is its items, divided by commas. An order without items, or without a value, has no shipments, so it
 * gets a note. It stops after so many orders; a real application goes on.
 */
public final class Application {
  private Application() {}

  public static void main(String[] words) {
    try (KafkaConsumer<String, String> consumer = makeConsumer(words[0]);
        KafkaProducer<String, String> producer = makeProducer(words[0], words[1])) {
      producer.initTransactions();
      consumer.subscribe(List.of("orders"));
      for (int left = Integer.parseInt(words[2]); left > 0; ) {
        // One poll a transaction, and the group's generation right after it: a later poll may cross a rebalance, and then offsets
        // would be committed for orders which another member reads too.
        ConsumerRecords<String, String> orders = consumer.poll(Duration.ofSeconds(1));
        if (!orders.isEmpty()) {
          process(producer, orders, consumer.groupMetadata());
          left -= orders.count();
        }
      }
    }
  }

  /** One transaction: the outputs of these orders, and the offsets past them. */
  private static void process(KafkaProducer<String, String> producer, ConsumerRecords<String, String> orders, ConsumerGroupMetadata group) {
    producer.beginTransaction();
    try {
      orders.forEach(order -> sendOutputs(producer, order));
      producer.sendOffsetsToTransaction(passed(orders), group);
      commit(producer);
    } catch (ProducerFencedException fenced) {
      throw fenced;
    } catch (KafkaException failed) {
      producer.abortTransaction();
      throw failed;
    }
  }

  /** After a time-out nobody knows whether it was committed: so it is asked again, and not aborted. */
  private static void commit(KafkaProducer<String, String> producer) {
    while (true) {
      try {
        producer.commitTransaction();
        return;
      } catch (TimeoutException late) {
        System.err.println("the commit isn't answered yet: " + late.getMessage());
      }
    }
  }

  /** The number of outputs is known before the first is sent. */
  private static void sendOutputs(KafkaProducer<String, String> producer, ConsumerRecord<String, String> order) {
    List<String> items = new ArrayList<>();
    // A null value is an input too.
    String value = order.value() == null ? "" : order.value();
    for (String item : value.split(",")) {
      if (!item.isEmpty()) {
        items.add(item);
      }
    }
    for (int at = 0; at < items.size(); at++) {
      send(producer, order, items.get(at), at + 1, items.size());
    }
    if (items.isEmpty()) {
      send(producer, order, "", 0, 0);
    }
  }

  /** A new record: its headers are the claim alone, whatever headers the order had. */
  private static void send(KafkaProducer<String, String> producer, ConsumerRecord<String, String> order, String item, int output, int of) {
    ProducerRecord<String, String> shipment = new ProducerRecord<>("shipments", order.key(), item);
    Claim.of(order.topic(), order.partition(), order.offset(), output, of).forEach(shipment.headers()::add);
    producer.send(shipment);
  }

  /** For each partition the offset after the last order that was read of it, and that order's leader epoch. */
  private static Map<TopicPartition, OffsetAndMetadata> passed(ConsumerRecords<String, String> orders) {
    Map<TopicPartition, OffsetAndMetadata> after = new HashMap<>();
    for (ConsumerRecord<String, String> order : orders) {
      OffsetAndMetadata next = new OffsetAndMetadata(order.offset() + 1, order.leaderEpoch(), "");
      after.put(new TopicPartition(order.topic(), order.partition()), next);
    }
    return after;
  }

  private static KafkaConsumer<String, String> makeConsumer(String bootstrap) {
    Map<String, Object> settings = new HashMap<>();
    settings.put("bootstrap.servers", bootstrap);
    settings.put("group.id", "shipping");
    settings.put("isolation.level", "read_committed");
    settings.put("enable.auto.commit", false);
    settings.put("auto.offset.reset", "earliest");
    return new KafkaConsumer<>(settings, new StringDeserializer(), new StringDeserializer());
  }

  private static KafkaProducer<String, String> makeProducer(String bootstrap, String transactionalId) {
    Map<String, Object> settings = new HashMap<>();
    settings.put("bootstrap.servers", bootstrap);
    settings.put("transactional.id", transactionalId);
    settings.put("compression.type", "none");
    return new KafkaProducer<>(settings, new StringSerializer(), new StringSerializer());
  }
}
