/* The headers that an application writes on each output record: of which input it is an output (docs/APPLICATION.md). */
#include <endian.h>
#include <librdkafka/rdkafka.h>
#include <string.h>

/* Output number `output` of the `of` outputs of the record at `offset` of a partition of `topic`; 0 of 0 is the note that it
 * has none. The headers belong to the caller until a rd_kafka_producev that takes them has succeeded. Sizes are given: a
 * length left to strlen would end at the first zero byte. */
static rd_kafka_headers_t *claim(const char *topic, int32_t partition, int64_t offset, int32_t output, int32_t of) {
  uint32_t partition_be = htobe32((uint32_t)partition), output_be = htobe32((uint32_t)output), of_be = htobe32((uint32_t)of);
  uint64_t offset_be = htobe64((uint64_t)offset);
  rd_kafka_headers_t *headers = rd_kafka_headers_new(5);
  rd_kafka_header_add(headers, "eo.topic", -1, topic, strlen(topic));
  rd_kafka_header_add(headers, "eo.partition", -1, &partition_be, sizeof partition_be);
  rd_kafka_header_add(headers, "eo.offset", -1, &offset_be, sizeof offset_be);
  rd_kafka_header_add(headers, "eo.output", -1, &output_be, sizeof output_be);
  rd_kafka_header_add(headers, "eo.of", -1, &of_be, sizeof of_be);
  return headers;
}
