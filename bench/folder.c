/* Makes a folder of good evidence, the same bytes for the same words, and prints the verdict that it deserves.
 *
 *     folder FOLDER MEBIBYTES SEED [INPUTS [SEGMENT [ROTATE [INSTANCES]]]]
 *
 * INSTANCES (as many as partitions) of one application, each with its own transactional id, read the PARTS (4) partitions of `in` (plain
 * records of SIZE bytes, 100 where it isn't defined) and write to those of `out`. A transaction takes INPUTS (500) inputs in a row, writes 1 to 3
 * outputs of SIZE bytes for each of them, with the five lineage headers, and commits the offset past them. It has an epoch of its own: its
 * markers and its Prepare and Complete records have the epoch that the instance's next transaction starts with. All instances
 * have a transaction open at the same time, then all end theirs. After ROTATE (32000) transactions an instance takes a new
 * producer id. A segment has at most SEGMENT bytes (64 MiB), or one batch. FOLDER must not exist; it grows to at least
 * MEBIBYTES. SEED picks the values (as in segment.c), the number of outputs and their partitions. With TRANSACTION_VERSION defined the values of the
 * transaction log end in the tagged field of that version, as brokers write them since KIP-890, and else in none.
 *
 * The first line printed is the verdict, the second says how many bytes, records and segments were written, and the third how many pairs
 * there are of a partition and a producer id that wrote to it.
 */
#include <inttypes.h>
#include <stdint.h>
#include <stdio.h>
#include <stdlib.h>
#include <string.h>
#include <sys/stat.h>

/* The bytes of a value; at most some 9,000, so that a batch has room. */
#ifndef SIZE
#define SIZE 100
#endif

/* How many partitions each of the topics has. */
#ifndef PARTS
#define PARTS 4
#endif

enum { IN_BATCH = 500, OUT_BATCH = 100, TRANSACTIONAL = 16, CONTROL = 32 };
enum { EMPTY, ONGOING, PREPARE_COMMIT, COMPLETE_COMMIT = 4 };

static uint32_t table[256];
static uint64_t state, bytes, records, segments, segment_size;
static const char *folder;

static void fill_table(void) {
    for (uint32_t i = 0; i < 256; i++) {
        uint32_t c = i;
        for (int k = 0; k < 8; k++) c = c & 1 ? (c >> 1) ^ 0x82f63b78u : c >> 1;
        table[i] = c;
    }
}

static uint32_t crc32c(const uint8_t *p, size_t n) {
    uint32_t c = 0xffffffffu;
    while (n--) c = (c >> 8) ^ table[(c ^ *p++) & 0xff];
    return ~c;
}

static uint8_t *big(uint8_t *p, uint64_t value, int width) {
    for (int i = width - 1; i >= 0; i--) *p++ = (uint8_t)(value >> (8 * i));
    return p;
}

static uint8_t *varint(uint8_t *p, int64_t value) {
    uint64_t n = ((uint64_t)value << 1) ^ (uint64_t)(value >> 63);
    for (; n >= 128; n >>= 7) *p++ = (uint8_t)(n | 128);
    *p++ = (uint8_t)n;
    return p;
}

static uint8_t *text(uint8_t *p, const char *value) {
    memcpy(p, value, strlen(value));
    return p + strlen(value);
}

static uint8_t *filling(uint8_t *p) {
    for (int i = 0; i < SIZE; i++) {
        state = state * 6364136223846793005u + 1442695040888963407u;
        *p++ = (uint8_t)(state >> 56);
    }
    return p;
}

/* ---- a partition's log */

struct log {
    const char *topic;
    int number;
    uint64_t offset, size;
    FILE *file;
};

/* A batch that is being written: its records stand from byte 61 on. */
struct batch {
    uint8_t *bytes, *end;
    int count;
};

static void fail(const char *what) {
    perror(what);
    exit(3);
}

static void open_segment(struct log *log) {
    char path[4096];
    if (log->file && fclose(log->file)) fail("close");
    snprintf(path, sizeof path, "%s/%s-%d", folder, log->topic, log->number);
    if (!log->file && mkdir(path, 0777)) fail(path);
    snprintf(path, sizeof path, "%s/%s-%d/%020" PRIu64 ".log", folder, log->topic, log->number, log->offset);
    if (!(log->file = fopen(path, "wb"))) fail(path);
    log->size = 0;
    segments++;
}

static struct batch new_batch(void) {
    struct batch batch = {malloc(IN_BATCH * (SIZE + 100) + (1 << 20)), NULL, 0};
    if (!batch.bytes) fail("batch");
    batch.end = batch.bytes + 61;
    return batch;
}

/* Adds a record with these bytes after its offset: key, value and headers. */
static void add_record(struct batch *batch, const uint8_t *rest, size_t size) {
    uint8_t front[20], *p = front;
    *p++ = 0;
    p = varint(varint(p, 0), batch->count++);
    batch->end = varint(batch->end, (p - front) + (int64_t)size);
    memcpy(batch->end, front, (size_t)(p - front));
    batch->end += p - front;
    memcpy(batch->end, rest, size);
    batch->end += size;
}

/* Writes the batch at the end of the log, and empties it. */
static void append(struct log *log, struct batch *batch, int attributes, int64_t producer, int epoch, int64_t sequence) {
    size_t size = (size_t)(batch->end - batch->bytes);
    if (!log->file || (log->size > 0 && log->size + size > segment_size)) open_segment(log);
    uint8_t *h = big(batch->bytes, log->offset, 8);
    h = big(h, size - 12, 4);
    h = big(h, 0, 4);
    h = big(h, 2, 1);
    uint8_t *crc = h;
    h = big(h + 4, (uint64_t)attributes, 2);
    h = big(h, (uint64_t)batch->count - 1, 4);
    h = big(h, 0, 8);
    h = big(h, 0, 8);
    h = big(h, (uint64_t)producer, 8);
    h = big(h, (uint64_t)epoch, 2);
    h = big(h, (uint64_t)sequence, 4);
    big(h, (uint64_t)batch->count, 4);
    big(crc, crc32c(batch->bytes + 21, size - 21), 4);
    if (fwrite(batch->bytes, 1, size, log->file) != size) fail("write");
    log->size += size;
    log->offset += (uint64_t)batch->count;
    bytes += size;
    records += (uint64_t)batch->count;
    batch->end = batch->bytes + 61;
    batch->count = 0;
}

/* ---- records of the four kinds of logs */

static void add_input(struct batch *batch) {
    uint8_t rest[SIZE + 20], *p = varint(varint(rest, -1), SIZE);
    p = varint(filling(p), 0);
    add_record(batch, rest, (size_t)(p - rest));
}

static uint8_t *header(uint8_t *p, const char *key, uint64_t value, int width) {
    p = text(varint(p, (int64_t)strlen(key)), key);
    return big(varint(p, width), value, width);
}

static void add_output(struct batch *batch, int partition, uint64_t offset, int output, int of) {
    uint8_t rest[SIZE + 120], *p = varint(varint(rest, -1), SIZE);
    p = varint(filling(p), 5);
    p = header(p, "eo.topic", 'i' << 8 | 'n', 2);
    p = header(p, "eo.partition", (uint64_t)partition, 4);
    p = header(p, "eo.offset", offset, 8);
    p = header(p, "eo.output", (uint64_t)output, 4);
    p = header(p, "eo.of", (uint64_t)of, 4);
    add_record(batch, rest, (size_t)(p - rest));
}

static void add_pair(struct batch *batch, const uint8_t *key, int64_t key_size, const uint8_t *value, int64_t value_size) {
    uint8_t rest[400], *p = varint(rest, key_size);
    memcpy(p, key, (size_t)key_size);
    p = varint(p + key_size, value_size);
    memcpy(p, value, (size_t)value_size);
    p = varint(p + value_size, 0);
    add_record(batch, rest, (size_t)(p - rest));
}

static void add_marker(struct batch *batch) {
    uint8_t key[4], value[6];
    add_pair(batch, key, big(big(key, 0, 2), 1, 2) - key, value, big(big(value, 0, 2), 0, 4) - value);
}

static void add_commit(struct batch *batch, int partition, uint64_t offset) {
    uint8_t key[40], value[40], *k = text(big(big(key, 1, 2), 1, 2), "g"), *v = big(big(value, 3, 2), offset, 8);
    k = big(text(big(k, 2, 2), "in"), (uint64_t)partition, 4);
    v = big(big(big(v, UINT64_MAX, 4), 0, 2), 0, 8);
    add_pair(batch, key, k - key, value, v - value);
}

/* The partitions are a set of bits of `out`, and that of the offsets where there are any. */
/* The partitions of `out` that a transaction has written to. */
struct set {
    int count;
    uint8_t has[PARTS];
};

static const struct set none;

static void add_state(struct batch *batch, const char *id, int64_t producer, int epoch, int status, const struct set *outs) {
    uint8_t key[40], value[200 + 4 * PARTS], *k = text(big(big(key, 0, 2), strlen(id), 2), id), *v = big(big(value, 1, 2), (uint64_t)producer, 8);
    v = big(big(big(v, (uint64_t)epoch, 2), 60000, 4), (uint64_t)status, 1);
    *v++ = outs->count ? 3 : 1;
    if (outs->count) {
        *v++ = 4;
        v = text(v, "out");
        unsigned listed = (unsigned)outs->count + 1;
        for (; listed >= 128; listed >>= 7) *v++ = (uint8_t)(listed | 128);
        *v++ = (uint8_t)listed;
        for (int i = 0; i < PARTS; i++)
            if (outs->has[i]) v = big(v, (uint64_t)i, 4);
        *v++ = 0;
        *v++ = 19;
        v = text(v, "__consumer_offsets");
        *v++ = 2;
        v = big(v, 0, 4);
        *v++ = 0;
    }
    v = big(big(v, 0, 8), 0, 8);
#ifdef TRANSACTION_VERSION
    *v++ = 1;
    *v++ = 2;
    *v++ = 2;
    v = big(v, TRANSACTION_VERSION, 2);
#else
    *v++ = 0;
#endif
    add_pair(batch, key, k - key, value, v - value);
}

/* ---- transactions */

static struct log in[PARTS], out[PARTS], offsets = {"__consumer_offsets", 0, 0, 0, NULL}, states = {"__transaction_state", 0, 0, 0, NULL};
static struct batch single, input, pending[PARTS];
static uint64_t done[PARTS], inputs, outputs, transactions, pairs, seed;

struct instance {
    char id[20];
    int64_t producer;
    int epoch;
    struct set outs;
    uint32_t sequences[PARTS];
    /* The producer id with which it last wrote to each partition of `out`. */
    int64_t writers[PARTS];
};

static void write_state(const struct instance *a, int epoch, int status, const struct set *outs) {
    add_state(&single, a->id, a->producer, epoch, status, outs);
    append(&states, &single, 0, -1, -1, -1);
}

static void flush(struct instance *a, int to) {
    uint32_t count = (uint32_t)pending[to].count;
    if (count == 0) return;
    append(&out[to], &pending[to], TRANSACTIONAL, a->producer, a->epoch, a->sequences[to]);
    a->sequences[to] += count;
    pairs += a->writers[to] != a->producer;
    a->writers[to] = a->producer;
    a->outs.count += !a->outs.has[to];
    a->outs.has[to] = 1;
}

static void feed(int partition, uint64_t until) {
    while (in[partition].offset < until) {
        for (int i = 0; i < IN_BATCH; i++) add_input(&input);
        append(&in[partition], &input, 0, -1, -1, -1);
    }
}

/* The outputs of the next inputs, and the commit of the offset past them. */
static void write_data(struct instance *a, int partition, uint64_t count) {
    a->outs = none;
    memset(a->sequences, 0, sizeof a->sequences);
    for (uint64_t offset = done[partition]; offset < done[partition] + count; offset++) {
        uint64_t draw = (offset * PARTS + (uint64_t)partition + seed) * 0x9e3779b97f4a7c15u;
        int of = 1 + (int)((draw >> 40) % 3);
        for (int i = 1; i <= of; i++) {
            int to = (int)(((draw >> 20) + (uint64_t)i) % PARTS);
            add_output(&pending[to], partition, offset, i, of);
            if (pending[to].count == OUT_BATCH) flush(a, to);
        }
        outputs += (uint64_t)of;
    }
    for (int to = 0; to < PARTS; to++) flush(a, to);
    done[partition] += count;
    inputs += count;
    write_state(a, a->epoch, ONGOING, &a->outs);
    add_commit(&single, partition, done[partition]);
    append(&offsets, &single, TRANSACTIONAL, a->producer, a->epoch, -1);
}

static void end(struct instance *a) {
    int raised = a->epoch + 1;
    write_state(a, raised, PREPARE_COMMIT, &a->outs);
    for (int to = 0; to <= PARTS; to++) {
        if (to < PARTS && !a->outs.has[to]) continue;
        add_marker(&single);
        append(to < PARTS ? &out[to] : &offsets, &single, TRANSACTIONAL | CONTROL, a->producer, raised, -1);
    }
    write_state(a, raised, COMPLETE_COMMIT, &none);
    a->epoch = raised;
    transactions++;
}

static void close_all(void) {
    char path[4096];
    snprintf(path, sizeof path, "%s/evidence.json", folder);
    FILE *f = fopen(path, "w");
    if (!f) fail(path);
    fprintf(f, "{\"version\":1,\"group\":\"g\",\"sources\":[\"in\"],\"outputs\":[\"out\"],\"ends\":{");
    for (int i = 0; i < PARTS; i++)
        fprintf(f, "\"in-%d\":%" PRIu64 ",\"out-%d\":%" PRIu64 ",", i, in[i].offset, i, out[i].offset);
    fprintf(f, "\"__consumer_offsets-0\":%" PRIu64 ",\"__transaction_state-0\":%" PRIu64 "}}\n", offsets.offset, states.offset);
    int bad = fclose(f) | fclose(offsets.file) | fclose(states.file);
    for (int i = 0; i < PARTS; i++) bad |= (in[i].file && fclose(in[i].file)) | (out[i].file && fclose(out[i].file));
    if (bad) fail("close");
}

int main(int argc, char **argv) {
    if (argc < 4 || argc > 8) return 2;
    folder = argv[1];
    uint64_t least = strtoull(argv[2], NULL, 10) << 20, count = argc > 4 ? strtoull(argv[4], NULL, 10) : 500;
    segment_size = argc > 5 ? strtoull(argv[5], NULL, 10) : 64 << 20;
    int rotate = argc > 6 ? atoi(argv[6]) : 32000, all = argc > 7 ? atoi(argv[7]) : PARTS;
    if (mkdir(folder, 0777)) fail(folder);
    state = seed = strtoull(argv[3], NULL, 10);
    fill_table();
    single = new_batch();
    input = new_batch();
    struct instance *instances = calloc((size_t)all, sizeof *instances);
    if (!instances) fail("instances");
    int64_t next_producer = 1000;
    for (int i = 0; i < PARTS; i++) {
        in[i] = (struct log){"in", i, 0, 0, NULL};
        out[i] = (struct log){"out", i, 0, 0, NULL};
        pending[i] = new_batch();
    }
    for (int i = 0; i < all; i++) {
        snprintf(instances[i].id, sizeof instances[i].id, "app-%d", i);
        instances[i].producer = -1;
    }
    do {
        for (int i = 0; i < all; i++) {
            struct instance *a = &instances[i];
            if (a->producer < 0 || a->epoch >= rotate) {
                a->producer = next_producer++;
                a->epoch = 0;
                pairs++; /* with the partition of the offsets */
                write_state(a, 0, EMPTY, &none);
            }
            feed(i % PARTS, done[i % PARTS] + count);
            write_data(a, i % PARTS, count);
        }
        for (int i = 0; i < all; i++) end(&instances[i]);
    } while (bytes < least);
    close_all();
    printf("yes transactions=%" PRIu64 " inputs=%" PRIu64 " outputs=%" PRIu64 "\n", transactions, inputs, outputs);
    printf("bytes=%" PRIu64 " records=%" PRIu64 " segments=%" PRIu64 "\n", bytes, records, segments);
    printf("pairs=%" PRIu64 "\n", pairs);
    return 0;
}
