/* pair BEFORE.so AFTER.so [ROUNDS]: two builds of the library in one program, asked in turn over the same inputs.
 *
 * Each round asks both, one after the other, and which goes first changes from round to round. Printed: the best round
 * and the median of each, in ns for a record or a call, and what the second takes of the first's. The inputs are of
 * categories 017 and 018, which both know. State of the buffers: as in bench.c. */
#include <stdbool.h>
#include <stdio.h>
#include <stdlib.h>
#include <string.h>

#include "../tests/c/generate.h"
#include "asterix.h"
#include "timing.h"

void *dlopen(const char *file, int mode);
void *dlsym(void *handle, const char *name);

enum { SEED = 1718, MB = 1000000, MOST_ROUNDS = 1000, ITEMS = 4000, MOST = 1100 };

/* The functions that are timed, of each library. */
static struct library {
    __typeof__(asterix_check_recording) *check_recording;
    __typeof__(asterix_check_block) *check_block;
    __typeof__(asterix_next_record) *next_record;
    __typeof__(asterix_find_record) *find_record;
    __typeof__(asterix_find_item) *find_item;
    __typeof__(asterix_read_item) *read_item;
    __typeof__(asterix_write_item) *write_item;
    __typeof__(asterix_add_record) *add_record;
    __typeof__(asterix_begin_merge) *begin_merge;
    __typeof__(asterix_next_merged_words) *next_merged;
    __typeof__(asterix_least_length) *least_length;
} libraries[2];

static void *need(void *some, const char *what)
{
    if (!some) {
        fprintf(stderr, "pair: no %s\n", what);
        exit(2);
    }
    return some;
}

static void open_library(struct library *to, const char *file)
{
    void *from = need(dlopen(file, 2), file); /* all names now; none for another library */
#define TAKE(name, symbol) to->name = (__typeof__(to->name))need(dlsym(from, symbol), symbol)
    TAKE(check_recording, "asterix_check_recording");
    TAKE(check_block, "asterix_check_block");
    TAKE(next_record, "asterix_next_record");
    TAKE(find_record, "asterix_find_record");
    TAKE(find_item, "asterix_find_item");
    TAKE(read_item, "asterix_read_item");
    TAKE(write_item, "asterix_write_item");
    TAKE(add_record, "asterix_add_record");
    TAKE(begin_merge, "asterix_begin_merge");
    TAKE(next_merged, "asterix_next_merged_words");
    TAKE(least_length, "asterix_least_length");
#undef TAKE
}

/* ---- the inputs */

static volatile size_t sink;
static uint8_t *recording;
static size_t recording_len;

/* An item, and its fields as each library lists them. */
static struct sample {
    uint8_t category;
    uint16_t reference;
    size_t length, count[2];
    uint8_t octets[MOST];
    int64_t fields[2][520];
} *samples;

static uint8_t block[65536];
static size_t block_len, block_records;

static void take_samples(struct chance *c)
{
    static int64_t fields[ASTERIX_FIELDS];
    size_t n = 0;
    samples = need(calloc(ITEMS, sizeof *samples), "memory");
    while (n < ITEMS) {
        unsigned category = 17 + (unsigned)below(c, 2);
        size_t have = make_block(c, category, 1, false, block, 16000);
        for (uint16_t reference = 0; reference < 400 && n < ITEMS; reference++) {
            struct asterix_item_found item = libraries[0].find_item(block, have, reference, 0);
            if (item.number)
                continue;
            struct sample *s = &samples[n++];
            s->category = (uint8_t)category;
            s->reference = reference;
            s->length = item.length;
            memcpy(s->octets, block + item.start, item.length);
            for (size_t k = 0; k < 2; k++) {
                s->count[k] = libraries[k].read_item((uint8_t)category, reference, s->octets, s->length, fields).count;
                memcpy(s->fields[k], fields, s->count[k] * sizeof *fields);
            }
        }
    }
}

/* ---- what is timed: each answers for how many records or calls */

static size_t check(size_t k)
{
    return libraries[k].check_recording(recording, recording_len).records;
}

static size_t walk(size_t k)
{
    size_t records = 0, types = 0;
    struct asterix_record_met at = libraries[k].next_record(recording, recording_len, asterix_start());
    for (; at.met; at = libraries[k].next_record(recording, recording_len, at.next), records++)
        types += recording[at.block + at.starts[2]];
    sink += types;
    return records;
}

static size_t merge(size_t k)
{
    static struct asterix_merged out[64];
    size_t words = sizeof out / (sizeof(size_t)), records = 0;
    struct asterix_merge_begun begun =
        libraries[k].begin_merge(recording, recording_len, recording, recording_len, 100);
    struct asterix_merge_next next = { 0, begun.merge };
    do {
        next = libraries[k].next_merged(recording, recording_len, recording, recording_len, next.merge,
                                        (size_t *)(void *)out, words);
        records += next.count;
    } while (next.count);
    return records;
}

static size_t read_all(size_t k)
{
    static int64_t fields[ASTERIX_FIELDS];
    for (size_t i = 0; i < ITEMS; i++)
        sink += libraries[k]
                    .read_item(samples[i].category, samples[i].reference, samples[i].octets, samples[i].length, fields)
                    .count;
    return ITEMS;
}

static size_t write_all(size_t k)
{
    static uint8_t out[MOST];
    for (size_t i = 0; i < ITEMS; i++)
        sink += libraries[k]
                    .write_item(samples[i].category, samples[i].reference, samples[i].fields[k], samples[i].count[k],
                                out, sizeof out)
                    .length;
    return ITEMS;
}

static size_t find_items(size_t k)
{
    size_t calls = 0;
    for (size_t i = 0; i < 50; i++)
        for (uint16_t reference = 0; reference < 38; reference++, calls++)
            sink += libraries[k].find_item(block, block_len, reference, block_records - 1).start;
    return calls;
}

static size_t find_records(size_t k)
{
    for (size_t i = 0; i < 500; i++)
        sink += libraries[k].find_record(block, block_len, block_records - 1).start;
    return 500;
}

/* Keep_alive: source, destination, type 05 */
static const uint8_t KEEP_ALIVE[] = { 18, 0, 9, 0xE0, 1, 2, 3, 4, 5 };

static size_t add_all(size_t k)
{
    static uint8_t out[2000];
    const uint64_t frns = asterix_frn(1) | asterix_frn(2) | asterix_frn(3);
    for (size_t i = 0; i < 200; i++) {
        size_t used = 3;
        memcpy(out, "\x12\x00\x03", 3);
        for (size_t n = 0; n < 10; n++)
            used = libraries[k].add_record(out, sizeof out, used, frns, KEEP_ALIVE + 4, 5).length;
        sink += used;
    }
    return 2000;
}

static size_t check_short(size_t k)
{
    for (size_t i = 0; i < 2000; i++)
        sink += libraries[k].check_block(KEEP_ALIVE, sizeof KEEP_ALIVE).records;
    return 2000;
}

static size_t lengths_all(size_t k)
{
    for (unsigned octet = 0; octet < 256; octet++)
        for (size_t place = 0; place < 5; place++)
            sink += libraries[k].least_length(18, place, (uint8_t)octet);
    return 5 * 256;
}

/* ---- timing */

static void time_both(const char *name, size_t (*go)(size_t), size_t rounds)
{
    static double took[2][MOST_ROUNDS];
    size_t of[2] = { go(0), go(1) };
    if (of[0] != of[1]) {
        printf("pair: %s: %zu and %zu\n", name, of[0], of[1]);
        exit(1);
    }
    for (size_t r = 0; r < rounds; r++)
        for (size_t turn = 0; turn < 2; turn++) {
            size_t k = (r + turn) % 2;
            double start = now();
            go(k);
            took[k][r] = (now() - start) / (double)of[0];
        }
    double best[2], median[2];
    for (size_t k = 0; k < 2; k++)
        settle(took[k], rounds, &best[k], &median[k]);
    printf("  %-22s %9.1f %9.1f   %9.1f %9.1f   %7.3f %7.3f\n", name, best[0], median[0], best[1], median[1],
           best[1] / best[0], median[1] / median[0]);
}

int main(int argc, char **argv)
{
    if (argc < 3) {
        fputs("pair: two libraries\n", stderr);
        return 2;
    }
    size_t rounds = argc > 3 ? (size_t)strtoull(argv[3], NULL, 10) : 101;
    if (rounds < 1 || rounds > MOST_ROUNDS)
        rounds = 101;
    for (size_t k = 0; k < 2; k++)
        open_library(&libraries[k], argv[1 + k]);
    struct chance c = { SEED };
    recording = need(malloc(4 * MB), "memory");
    recording_len = make_recording(&c, 0, recording, 4 * MB);
    printf("%zu bytes of 017 and 018, %zu records, %zu rounds; ns for a record or a call\n", recording_len, check(0),
           rounds);
    printf("  %-22s %9s %9s   %9s %9s   %15s\n  %-22s %9s %9s   %9s %9s   %7s %7s\n", "", "before", "", "after", "",
           "after to before", "", "best", "median", "best", "median", "best", "median");
    time_both("checked", check, rounds);
    time_both("walked", walk, (rounds + 3) / 4);
    time_both("merged with itself", merge, (rounds + 3) / 4);
    take_samples(&c);
    time_both("read_item", read_all, rounds);
    time_both("write_item", write_all, rounds);
    for (size_t records = 1; records <= 100; records *= 10) {
        char name[40];
        block_len = make_block(&c, 18, records, false, block, 65535);
        block_records = libraries[0].check_block(block, block_len).records;
        snprintf(name, sizeof name, "find_item, of %zu", block_records);
        time_both(name, find_items, rounds);
        snprintf(name, sizeof name, "find_record, of %zu", block_records);
        time_both(name, find_records, rounds);
    }
    time_both("add_record", add_all, rounds);
    time_both("check_block, 9 octets", check_short, rounds);
    time_both("least_length", lengths_all, rounds);
    return 0;
}
