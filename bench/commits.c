/* Makes a folder of evidence with many commits and many applications, and prints the verdict that it deserves.
 *
 *     commits FOLDER COMMITS APPLICATIONS [SEGMENTS]
 *
 * Application i has the group `g<i>`, reads `in<i>` and writes `out<i>`, one partition each. The groups take turns to commit
 * offset 0, COMMITS times in all, in batches of 500 records of the one partition of `__consumer_offsets`; so nothing was to be
 * processed. The log of `in0` has SEGMENTS (1) segments of one record; all other topics are empty. FOLDER must not exist. The
 * second line printed says how many bytes, commits and segments were written.
 */
#include <inttypes.h>
#include <stdint.h>
#include <stdio.h>
#include <stdlib.h>
#include <string.h>
#include <sys/stat.h>

enum { IN_BATCH = 500 };

static const char *folder;
static uint32_t table[256];
static uint64_t bytes, segments;

static void fail(const char *what) {
    perror(what);
    exit(3);
}

static void fill_table(void) {
    for (uint32_t i = 0; i < 256; i++) {
        uint32_t c = i;
        for (int k = 0; k < 8; k++) c = c & 1 ? (c >> 1) ^ 0x82f63b78u : c >> 1;
        table[i] = c;
    }
}

static uint32_t crc32c(const uint8_t *p, size_t n) {
    uint32_t c = 0xffffffffu;
    while (n--) c = (c >> 8) ^ table[(c ^ *p++) & 0xff];
    return ~c;
}

static uint8_t *big(uint8_t *p, uint64_t value, int width) {
    for (int i = width - 1; i >= 0; i--) *p++ = (uint8_t)(value >> (8 * i));
    return p;
}

static uint8_t *varint(uint8_t *p, int64_t value) {
    uint64_t n = ((uint64_t)value << 1) ^ (uint64_t)(value >> 63);
    for (; n >= 128; n >>= 7) *p++ = (uint8_t)(n | 128);
    *p++ = (uint8_t)n;
    return p;
}

static uint8_t *name(uint8_t *p, const char *front, uint64_t number) {
    int size = sprintf((char *)p + 2, "%s%" PRIu64, front, number);
    big(p, (uint64_t)size, 2);
    return p + 2 + size;
}

static FILE *segment(const char *topic, uint64_t base) {
    char path[4096];
    snprintf(path, sizeof path, "%s/%s-0", folder, topic);
    if (base == 0 && mkdir(path, 0777)) fail(path);
    snprintf(path, sizeof path, "%s/%s-0/%020" PRIu64 ".log", folder, topic, base);
    FILE *f = fopen(path, "wb");
    if (!f) fail(path);
    segments++;
    return f;
}

static void empty(const char *topic) {
    if (fclose(segment(topic, 0))) fail(topic);
}

/* A record: a key of a group and a topic, and the offset 0. */
static uint8_t *add_commit(uint8_t *p, int delta, uint64_t app) {
    uint8_t key[80], value[40], rest[200], *k = big(key, 1, 2), *v = big(big(value, 3, 2), 0, 8), *r = rest;
    k = big(name(name(k, "g", app), "in", app), 0, 4);
    v = big(big(big(v, UINT64_MAX, 4), 0, 2), 0, 8);
    *r++ = 0;
    r = varint(varint(varint(r, 0), delta), k - key);
    memcpy(r, key, (size_t)(k - key));
    r = varint(r + (k - key), v - value);
    memcpy(r, value, (size_t)(v - value));
    r = varint(r + (v - value), 0);
    p = varint(p, r - rest);
    memcpy(p, rest, (size_t)(r - rest));
    return p + (r - rest);
}

/* A record with null key and value. */
static uint8_t *add_empty(uint8_t *p) {
    memcpy(p, "\x0c\0\0\0\x01\x01\0", 7);
    return p + 7;
}

static void write_batch(FILE *f, uint8_t *batch, uint8_t *end, uint64_t offset, uint64_t count) {
    size_t size = (size_t)(end - batch);
    uint8_t *h = big(big(big(big(batch, offset, 8), size - 12, 4), 0, 4), 2, 1), *crc = h;
    h = big(big(big(big(h + 4, 0, 2), count - 1, 4), 0, 8), 0, 8);
    big(big(big(big(h, UINT64_MAX, 8), UINT64_MAX, 2), UINT64_MAX, 4), count, 4);
    big(crc, crc32c(batch + 21, size - 21), 4);
    if (fwrite(batch, 1, size, f) != size) fail("write");
    bytes += size;
}

static void write_commits(uint8_t *batch, uint64_t commits, uint64_t apps) {
    FILE *f = segment("__consumer_offsets", 0);
    for (uint64_t offset = 0; offset < commits; offset += IN_BATCH) {
        uint64_t count = commits - offset < IN_BATCH ? commits - offset : IN_BATCH;
        uint8_t *end = batch + 61;
        for (uint64_t i = 0; i < count; i++) end = add_commit(end, (int)i, (offset + i) % apps);
        write_batch(f, batch, end, offset, count);
    }
    if (fclose(f)) fail("close");
}

static void write_inputs(uint8_t *batch, uint64_t count) {
    for (uint64_t offset = 0; offset < count; offset++) {
        FILE *f = segment("in0", offset);
        write_batch(f, batch, add_empty(batch + 61), offset, 1);
        if (fclose(f)) fail("close");
    }
}

static void write_manifest(uint64_t commits, uint64_t apps, uint64_t inputs) {
    char path[4096];
    snprintf(path, sizeof path, "%s/evidence.json", folder);
    FILE *f = fopen(path, "w");
    if (!f) fail(path);
    fprintf(f, "{\"version\":2,\"apps\":[");
    for (uint64_t i = 0; i < apps; i++)
        fprintf(f, "%s{\"group\":\"g%" PRIu64 "\",\"sources\":[\"in%" PRIu64 "\"],\"outputs\":[\"out%" PRIu64 "\"]}", i ? "," : "", i, i, i);
    fprintf(f, "],\"ends\":{");
    for (uint64_t i = 0; i < apps; i++) fprintf(f, "\"in%" PRIu64 "-0\":%" PRIu64 ",\"out%" PRIu64 "-0\":0,", i, i ? 0 : inputs, i);
    fprintf(f, "\"__consumer_offsets-0\":%" PRIu64 ",\"__transaction_state-0\":0}}\n", commits);
    if (fclose(f)) fail(path);
}

int main(int argc, char **argv) {
    if (argc < 4 || argc > 5) return 2;
    folder = argv[1];
    uint64_t commits = strtoull(argv[2], NULL, 10), apps = strtoull(argv[3], NULL, 10);
    uint64_t inputs = argc > 4 ? strtoull(argv[4], NULL, 10) : 1;
    uint8_t *batch = malloc(1 << 20);
    char topic[40];
    if (apps == 0 || !batch || mkdir(folder, 0777)) fail(folder);
    fill_table();
    for (uint64_t i = 0; i < apps; i++) {
        sprintf(topic, "in%" PRIu64, i);
        if (i) empty(topic);
        sprintf(topic, "out%" PRIu64, i);
        empty(topic);
    }
    empty("__transaction_state");
    write_inputs(batch, inputs);
    write_commits(batch, commits, apps);
    write_manifest(commits, apps, inputs);
    printf("yes transactions=0 inputs=0 outputs=0\nbytes=%" PRIu64 " commits=%" PRIu64 " segments=%" PRIu64 "\n", bytes, commits, segments);
    return 0;
}
