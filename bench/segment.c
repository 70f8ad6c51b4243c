/* Writes a segment of record batches to standard output, the same bytes for the same words.
 *
 *     segment RECORDS SIZE BATCHES SEED LINEAGE
 *
 * RECORDS records a batch, each with a null key and a value of SIZE bytes from a 64-bit linear congruential generator
 * that starts with SEED; BATCHES batches of the idempotent producer 1000, epoch 0, in sequence. Not compressed. Where
 * LINEAGE is 1 each record has the five lineage headers, 75 bytes; where it is 0, none.
 */
#include <stdint.h>
#include <stdio.h>
#include <stdlib.h>
#include <string.h>

static uint32_t table[256];

static void fill_table(void) {
    for (uint32_t i = 0; i < 256; i++) {
        uint32_t c = i;
        for (int k = 0; k < 8; k++) c = c & 1 ? (c >> 1) ^ 0x82f63b78u : c >> 1;
        table[i] = c;
    }
}

static uint32_t crc32c(const uint8_t *p, size_t n) {
    uint32_t c = 0xffffffffu;
    while (n--) c = (c >> 8) ^ table[(c ^ *p++) & 0xff];
    return ~c;
}

static uint8_t *big(uint8_t *p, uint64_t value, int width) {
    for (int i = width - 1; i >= 0; i--) *p++ = (uint8_t)(value >> (8 * i));
    return p;
}

static uint8_t *varint(uint8_t *p, int64_t value) {
    uint64_t n = ((uint64_t)value << 1) ^ (uint64_t)(value >> 63);
    for (; n >= 128; n >>= 7) *p++ = (uint8_t)(n | 128);
    *p++ = (uint8_t)n;
    return p;
}

static uint8_t *header(uint8_t *p, const char *key, uint64_t value, int width) {
    size_t len = strlen(key);
    p = varint(p, (int64_t)len);
    memcpy(p, key, len);
    p = varint(p + len, width);
    return big(p, value, width);
}

/* The record is the only output of the input with its own offset, in partition 0 of the topic `in`. */
static uint8_t *lineage(uint8_t *p, uint64_t offset) {
    p = header(p, "eo.topic", 'i' << 8 | 'n', 2);
    p = header(p, "eo.partition", 0, 4);
    p = header(p, "eo.offset", offset, 8);
    p = header(p, "eo.output", 1, 4);
    return header(p, "eo.of", 1, 4);
}

int main(int argc, char **argv) {
    if (argc != 6) return 2;
    long records = atol(argv[1]), size = atol(argv[2]), batches = atol(argv[3]);
    uint64_t state = strtoull(argv[4], NULL, 10);
    int headers = atoi(argv[5]) ? 5 : 0;
    uint8_t *batch = malloc(61 + (size_t)records * (size + 120)), *body = malloc((size_t)size + 120);
    if (!batch || !body) return 3;
    fill_table();
    for (long b = 0; b < batches; b++) {
        uint8_t *p = batch + 61;
        for (long r = 0; r < records; r++) {
            uint8_t *q = body;
            *q++ = 0;
            q = varint(q, 0);
            q = varint(q, r);
            q = varint(q, -1);
            q = varint(q, size);
            for (long i = 0; i < size; i++) {
                state = state * 6364136223846793005u + 1442695040888963407u;
                *q++ = (uint8_t)(state >> 56);
            }
            q = varint(q, headers);
            if (headers) q = lineage(q, (uint64_t)(b * records + r));
            p = varint(p, q - body);
            memcpy(p, body, (size_t)(q - body));
            p += q - body;
        }
        uint8_t *h = batch;
        h = big(h, (uint64_t)b * records, 8);
        h = big(h, (uint64_t)(p - batch - 12), 4);
        h = big(h, 0, 4);
        h = big(h, 2, 1);
        uint8_t *crc = h;
        h += 4;
        h = big(h, 0, 2);
        h = big(h, (uint64_t)(records - 1), 4);
        h = big(h, 0, 8);
        h = big(h, 0, 8);
        h = big(h, 1000, 8);
        h = big(h, 0, 2);
        h = big(h, ((uint64_t)b * records) & 0x7fffffff, 4);
        big(h, (uint64_t)records, 4);
        big(crc, crc32c(batch + 21, (size_t)(p - batch - 21)), 4);
        if (fwrite(batch, 1, (size_t)(p - batch), stdout) != (size_t)(p - batch)) return 4;
    }
    return 0;
}
