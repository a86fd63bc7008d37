/* bench [ROUNDS]: how fast recordings are checked, walked and merged, and how long finding, reading and writing take.
 *
 * Each round lets every checker, and the walk over all records with their maps, go once over the whole of the same
 * recording in memory, one after another, so that what disturbs the machine disturbs them all alike; so do the rounds
 * that check two logs and merge them. Printed: the best round and the median; MB is 10^6 bytes. Before anything is timed the answers are compared.
 *
 * State of the buffers: a recording is made and then gone over once by each checker before it is timed, so pages
 * are mapped, and what fits the caches is in them (what the largest does is said by its size). Single calls are
 * timed over the same few thousand inputs again and again; they and the outputs are in the nearest cache, and no
 * output is cleared between calls.
 *
 * Built with -DLIBRARY it times the functions of include/asterix.h too. */
#include <stdbool.h>
#include <stdio.h>
#include <stdlib.h>
#include <string.h>

#include "../tests/c/generate.h"
#include "baseline.h"
#include "timing.h"

#ifdef LIBRARY
#include "asterix.h"

static volatile size_t sink;

static void check_recording_library(const uint8_t *p, size_t n, struct answer *out)
{
    struct asterix_recording_checked checked = asterix_check_recording(p, n);
    *out = (struct answer){ checked.number, checked.place, checked.blocks, checked.records };
}

/* Every record by a walk from the start, and by its map the message type; the answer is that of a check. */
static void walk_recording_library(const uint8_t *p, size_t n, struct answer *out)
{
    size_t blocks = 0, records = 0, end = 0, types = 0;
    struct asterix_cursor cursor = asterix_start();
    for (;;) {
        struct asterix_record_met at = asterix_next_record(p, n, cursor);
        if (!at.met) {
            bool whole = at.number == 0;
            *out = (struct answer){ at.number, at.place, whole ? blocks : 0, whole ? records : 0 };
            break;
        }
        blocks += at.block == end; /* the first of its block */
        records++;
        end = at.next.end;
        types += p[at.block + at.starts[at.category == 61 ? 1 : 2]];
        cursor = at.next;
    }
    sink += types;
}
#endif

enum { SEED = 1718, MOST_ROUNDS = 1000, MB = 1000000 };

struct checker {
    const char *name;
    void (*check)(const uint8_t *p, size_t n, struct answer *out);
    double took[MOST_ROUNDS]; /* ns, by round */
    double best, median;
};

static struct checker checkers[] = {
    { "fastest C", check_recording, { 0 }, 0, 0 },
    { "table-driven C", check_recording_plain, { 0 }, 0, 0 },
#ifdef LIBRARY
    { "library", check_recording_library, { 0 }, 0, 0 },
    { "library, walked", walk_recording_library, { 0 }, 0, 0 },
#endif
};

enum { FASTEST, TABLE, PROVED, WALKED, CHECKERS = sizeof checkers / sizeof *checkers };

static void *need(void *memory)
{
    if (!memory) {
        fputs("bench: no memory\n", stderr);
        exit(2);
    }
    return memory;
}

static void same(const struct answer *a, const struct answer *b, const char *name)
{
    if (a->number != b->number || a->place != b->place || a->blocks != b->blocks || a->records != b->records) {
        printf("bench: %s answers otherwise\n", name);
        exit(1);
    }
}

/* Times every checker over a recording; answers how many records it has. */
static size_t time_checkers(const uint8_t *recording, size_t n, size_t rounds)
{
    struct answer first[CHECKERS];
    for (size_t i = 0; i < CHECKERS; i++) {
        checkers[i].check(recording, n, &first[i]);
        same(&first[0], &first[i], checkers[i].name);
    }
    if (first[0].number) {
        printf("bench: the recording is refused %lu at %lu\n", (unsigned long)first[0].number,
               (unsigned long)first[0].place);
        exit(1);
    }
    for (size_t r = 0; r < rounds; r++)
        for (size_t i = 0; i < CHECKERS; i++) {
            struct answer a;
            double start = now();
            checkers[i].check(recording, n, &a);
            checkers[i].took[r] = now() - start;
            same(&first[0], &a, checkers[i].name);
        }
    for (size_t i = 0; i < CHECKERS; i++)
        settle(checkers[i].took, rounds, &checkers[i].best, &checkers[i].median);
    return (size_t)first[0].records;
}

/* ---- A recording of 4 MB, and what damaged ones are answered */

static void bench_recording(const char *of, const uint8_t *recording, size_t n, size_t rounds)
{
    size_t records = time_checkers(recording, n, rounds);
    printf("checking a recording%s: %zu bytes, %zu records, %zu rounds\n", of, n, records, rounds);
    printf("  %-16s %12s %12s %14s\n", "", "best MB/s", "median MB/s", "ns a record");
    for (size_t i = 0; i < CHECKERS; i++)
        printf("  %-16s %12.0f %12.0f %14.1f\n", checkers[i].name, (double)n * 1000 / checkers[i].best,
               (double)n * 1000 / checkers[i].median, checkers[i].best / (double)records);
#ifdef LIBRARY
    printf("  library to table-driven C %.2f, to fastest C %.2f (best rounds; more than 1: the library is faster)\n",
           checkers[TABLE].best / checkers[PROVED].best, checkers[FASTEST].best / checkers[PROVED].best);
    printf("  a walk with maps takes %.2f times what checking takes (best rounds; medians %.2f)\n",
           checkers[WALKED].best / checkers[PROVED].best, checkers[WALKED].median / checkers[PROVED].median);
#endif
}

/* A recording of at most 4,000 bytes, of 017 and 018; or of 061, mostly with some of those before it. */
static size_t draw_short(struct chance *c, bool of_061, uint8_t *to)
{
    if (!of_061)
        return make_recording(c, 0, to, between(c, 100, 4000));
    size_t n = one_in(c, 4) ? 0 : make_recording(c, 0, to, below(c, 400));
    return n + make_recording(c, 61, to + n, 4000 - n);
}

/* Of a refused recording the work ends at the fault. The answers are compared over many damaged recordings:
 * nothing is timed. */
static void compare_damaged(struct chance *c, bool of_061)
{
    static uint8_t bytes[4000 + 8];
    size_t refused = 0, tries = 20000;
    for (size_t i = 0; i < tries; i++) {
        size_t n = draw_short(c, of_061, bytes);
        struct answer first, other;
        for (size_t k = below(c, 3); k > 0; k--)
            damage(c, bytes, &n);
        if (n > 4000)
            n = 4000;
        check_recording(bytes, n, &first);
        refused += first.number != 0;
        for (size_t k = 1; k < CHECKERS; k++) {
            checkers[k].check(bytes, n, &other);
            same(&first, &other, checkers[k].name);
        }
    }
    printf("%zu recordings%s, %zu of them refused: answered alike by all\n", tries, of_061 ? " with 061" : "",
           refused);
}

/* ---- How the cost grows */

/* From 1 to 64 MB, each size some times the one before. */
static void bench_growth(const char *of, const uint8_t *recording, const size_t *ends, size_t times, size_t rounds)
{
    size_t sizes = 0;
    printf("growth%s: MB/s of the best of %zu rounds, by the recording's size\n  %-16s", of, rounds, "");
    for (size_t size = 1; size <= 64; size *= times, sizes++)
        printf("%5zu MB", size);
    printf("\n");
    double speed[CHECKERS][7];
    for (size_t k = 0; k < sizes; k++) {
        time_checkers(recording, ends[k], rounds);
        for (size_t i = 0; i < CHECKERS; i++)
            speed[i][k] = (double)ends[k] * 1000 / checkers[i].best;
    }
    for (size_t i = 0; i < CHECKERS; i++) {
        printf("  %-16s", checkers[i].name);
        for (size_t k = 0; k < sizes; k++)
            printf("%8.0f", speed[i][k]);
        printf("\n");
    }
}

/* A recording of 061 alone: all its message types, with their items, compound ones among them. */
static void bench_061(uint8_t *recording, size_t rounds)
{
    struct chance c = { SEED }; /* its own, so that the other inputs stay as they are */
    size_t size = 0, ends[4];
    compare_damaged(&c, true);
    for (size_t k = 0; k < 4; k++) {
        size += make_recording(&c, 61, recording + size, ((size_t)MB << 2 * k) - size);
        ends[k] = size;
    }
    bench_recording(" of 061", recording, ends[1], rounds);
    bench_growth(" of 061", recording, ends, 4, rounds < 9 ? rounds : 9);
}

#ifdef LIBRARY
/* ---- A log of ten full blocks, where finding each record would check its block anew */

static void bench_full_blocks(size_t rounds)
{
    struct chance c = { SEED }; /* its own, so that the other inputs stay as they are */
    enum { BLOCKS = 10, LONGEST = 65535 };
    static uint8_t log[BLOCKS * LONGEST];
    size_t n = 0;
    for (size_t i = 0; i < BLOCKS; i++)
        n += make_block(&c, 17 + (unsigned)below(&c, 2), LONGEST, false, log + n, LONGEST);
    size_t records = time_checkers(log, n, rounds);
    printf("ten full blocks: %zu bytes, %zu records: checked in %.2f ms, walked in %.2f ms (best of %zu rounds)\n", n,
           records, checkers[PROVED].best / 1e6, checkers[WALKED].best / 1e6, rounds);
}

/* ---- Two logs, checked and merged */

struct logs {
    const uint8_t *a, *b;
    size_t a_len, b_len;
};

/* Each way to go over both logs answers how many records they have. */
static size_t check_both(struct logs logs)
{
    return asterix_check_recording(logs.a, logs.a_len).records + asterix_check_recording(logs.b, logs.b_len).records;
}

static size_t merge_by(struct logs logs, size_t room)
{
    static struct asterix_merged out[64];
    struct asterix_merge_begun begun = asterix_begin_merge(logs.a, logs.a_len, logs.b, logs.b_len, 100);
    struct asterix_merge_next next = { 0, begun.merge };
    size_t records = 0, octets = 0;
    do {
        next = asterix_next_merged(logs.a, logs.a_len, logs.b, logs.b_len, next.merge, out, room);
        for (size_t i = 0; i < next.count; i++)
            octets += out[i].length;
        records += next.count;
    } while (next.count == room);
    sink += octets;
    return records;
}

static size_t merge_64(struct logs logs)
{
    return merge_by(logs, 64);
}

static size_t merge_1(struct logs logs)
{
    return merge_by(logs, 1);
}

static struct way {
    const char *name;
    size_t (*go)(struct logs logs);
    double took[MOST_ROUNDS]; /* ns, by round */
    double best, median;
} ways[] = {
    { "checking both", check_both, { 0 }, 0, 0 },
    { "merging, room 64", merge_64, { 0 }, 0, 0 },
    { "merging, room 1", merge_1, { 0 }, 0, 0 },
};

enum { BOTH, MERGED, MERGED_SINGLY, WAYS = sizeof ways / sizeof *ways };

/* Times every way over two logs; answers how many records they have. */
static size_t time_ways(struct logs logs, size_t rounds)
{
    size_t records = check_both(logs);
    for (size_t r = 0; r < rounds; r++)
        for (size_t i = 0; i < WAYS; i++) {
            double start = now();
            size_t came = ways[i].go(logs);
            ways[i].took[r] = now() - start;
            if (came != records) {
                printf("bench: %s: %zu of %zu records\n", ways[i].name, came, records);
                exit(1);
            }
        }
    for (size_t i = 0; i < WAYS; i++)
        settle(ways[i].took, rounds, &ways[i].best, &ways[i].median);
    return records;
}

/* The end of the last block that ends within `most` octets. */
static size_t last_end(const uint8_t *recording, size_t most)
{
    size_t end = 0;
    for (size_t next = 0; next <= most; next = end + (size_t)recording[end + 1] * 256 + recording[end + 2])
        end = next;
    return end;
}

/* The two halves of a recording as two logs, with the times as they were drawn; then the starts of both, by size. */
static void bench_merging(const uint8_t *recording, size_t half, size_t n, size_t rounds)
{
    struct logs logs = { recording, recording + half, half, n - half };
    size_t records = time_ways(logs, rounds);
    double speed[WAYS][7];
    printf("merging two logs: %zu and %zu bytes, %zu records, %zu rounds\n", logs.a_len, logs.b_len, records, rounds);
    printf("  %-16s %12s %12s %14s\n", "", "best MB/s", "median MB/s", "ns a record");
    for (size_t i = 0; i < WAYS; i++) {
        speed[i][6] = (double)n * 1000 / ways[i].best;
        printf("  %-16s %12.0f %12.0f %14.1f\n", ways[i].name, speed[i][6], (double)n * 1000 / ways[i].median,
               ways[i].best / (double)records);
    }
    printf("  merging takes %.2f times what checking both takes (best rounds; medians %.2f); one at a time %.2f\n",
           ways[MERGED].best / ways[BOTH].best, ways[MERGED].median / ways[BOTH].median,
           ways[MERGED_SINGLY].best / ways[BOTH].best);
    printf("growth: MB/s of the best of %zu rounds, by the size of both logs\n  %-16s", rounds, "");
    for (size_t size = 1; size <= 64; size *= 2)
        printf("%5zu MB", size);
    printf("\n");
    for (size_t k = 0; k < 6; k++) {
        size_t size = ((size_t)MB << k) / 2;
        logs.a_len = last_end(logs.a, size);
        logs.b_len = last_end(logs.b, size);
        time_ways(logs, rounds);
        for (size_t i = 0; i < WAYS; i++)
            speed[i][k] = (double)(logs.a_len + logs.b_len) * 1000 / ways[i].best;
    }
    for (size_t i = 0; i < WAYS; i++) {
        printf("  %-16s", ways[i].name);
        for (size_t k = 0; k < 7; k++)
            printf("%8.0f", speed[i][k]);
        printf("\n");
    }
}

/* ---- Single calls */

enum { ITEMS = 4000, MOST = 1100 };

struct sample {
    uint8_t category;
    uint16_t reference;
    size_t length, count;
    uint8_t octets[MOST];
    int64_t fields[520];
};

static struct sample *samples;

/* The items of legal records, found by the library itself. */
static void take_samples(struct chance *c)
{
    static uint8_t block[65536];
    static int64_t fields[ASTERIX_FIELDS];
    size_t n = 0;
    samples = need(calloc(ITEMS, sizeof *samples));
    while (n < ITEMS) {
        unsigned category = 17 + (unsigned)below(c, 2);
        size_t have = make_block(c, category, 1, false, block, 16000);
        for (uint16_t reference = 0; reference < 400 && n < ITEMS; reference++) {
            struct asterix_item_found item = asterix_find_item(block, have, reference, 0);
            if (item.number)
                continue;
            struct asterix_item_read read =
                asterix_read_item((uint8_t)category, reference, block + item.start, item.length, fields);
            struct sample *s = &samples[n++];
            s->category = (uint8_t)category;
            s->reference = reference;
            s->length = item.length;
            s->count = read.count;
            memcpy(s->octets, block + item.start, item.length);
            memcpy(s->fields, fields, read.count * sizeof *fields);
        }
    }
}

/* Runs `all` a few times, and prints the least time of one of its calls. */
static void time_calls(const char *name, size_t (*all)(void), const char *of)
{
    double best = 0;
    size_t calls = 0;
    for (size_t r = 0; r < 15; r++) {
        double start = now();
        calls = all();
        double took = (now() - start) / (double)calls;
        if (r == 0 || took < best)
            best = took;
    }
    printf("  %-14s %10.1f   %s\n", name, best, of);
}

static int64_t read_fields[ASTERIX_FIELDS];

static size_t read_all(void)
{
    for (size_t i = 0; i < ITEMS; i++)
        sink += asterix_read_item(samples[i].category, samples[i].reference, samples[i].octets, samples[i].length,
                                  read_fields)
                    .count;
    return ITEMS;
}

static size_t write_all(void)
{
    static uint8_t out[MOST];
    for (size_t i = 0; i < ITEMS; i++)
        sink += asterix_write_item(samples[i].category, samples[i].reference, samples[i].fields, samples[i].count,
                                   out, sizeof out)
                    .length;
    return ITEMS;
}

static uint8_t found_block[65536];
static size_t found_len, found_records;

/* Every item of the last record. */
static size_t find_all(void)
{
    size_t calls = 0;
    for (size_t i = 0; i < 200; i++)
        for (uint16_t reference = 0; reference < 38; reference++, calls++)
            sink += asterix_find_item(found_block, found_len, reference, found_records - 1).start;
    return calls;
}

static size_t find_records(void)
{
    for (size_t i = 0; i < 2000; i++)
        sink += asterix_find_record(found_block, found_len, found_records - 1).start;
    return 2000;
}

static size_t add_all(void)
{
    /* Keep_alive: source, destination, type 05 */
    static const uint8_t items[5] = { 1, 2, 3, 4, 5 };
    static uint8_t out[2000];
    const uint64_t frns = asterix_frn(1) | asterix_frn(2) | asterix_frn(3);
    for (size_t i = 0; i < 200; i++) {
        size_t used = 3;
        memcpy(out, "\x12\x00\x03", 3);
        for (size_t n = 0; n < 10; n++)
            used = asterix_add_record(out, sizeof out, used, frns, items, sizeof items).length;
        sink += used;
    }
    return 2000;
}

static size_t lengths_all(void)
{
    for (unsigned octet = 0; octet < 256; octet++)
        for (size_t place = 0; place < 5; place++)
            sink += asterix_least_length(18, place, (uint8_t)octet);
    return 5 * 256;
}

static void bench_calls(struct chance *c)
{
    char of[120];
    take_samples(c);
    size_t octets = 0, fields = 0;
    for (size_t i = 0; i < ITEMS; i++) {
        octets += samples[i].length;
        fields += samples[i].count;
    }
    printf("single calls, best of 15 runs\n  %-14s %10s\n", "", "ns a call");
    snprintf(of, sizeof of, "items as they come in records: %.1f octets, %.1f fields on average",
             (double)octets / ITEMS, (double)fields / ITEMS);
    time_calls("read_item", read_all, of);
    time_calls("write_item", write_all, of);
    for (size_t records = 1; records <= 100; records *= 10) {
        found_len = make_block(c, 18, records, false, found_block, 65535);
        found_records = asterix_check_block(found_block, found_len).records;
        snprintf(of, sizeof of, "in the last of %zu records, a block of %zu octets, which is checked whole first",
                 found_records, found_len);
        time_calls("find_item", find_all, of);
        time_calls("find_record", find_records, of);
    }
    time_calls("add_record", add_all, "to a block of 0 to 9 short records, which is checked whole first");
    time_calls("least_length", lengths_all, "every FSPEC octet of category 018");
}
#endif

int main(int argc, char **argv)
{
    size_t rounds = argc > 1 ? (size_t)strtoull(argv[1], NULL, 10) : 41;
    if (rounds < 1 || rounds > MOST_ROUNDS)
        rounds = 41;
    struct chance c = { SEED };

    /* one recording of 64 MB; the smaller ones are its start, up to a block's end */
    size_t room = 64 * (size_t)MB, size = 0, ends[7];
    uint8_t *recording = need(malloc(room));
    for (size_t k = 0; k < 7; k++) {
        size += make_recording(&c, 0, recording + size, ((size_t)MB << k) - size);
        ends[k] = size;
    }
    bench_recording("", recording, ends[2], rounds);
    compare_damaged(&c, false);
    bench_growth("", recording, ends, 2, rounds < 9 ? rounds : 9);
#ifdef LIBRARY
    bench_full_blocks(rounds < 9 ? rounds : 9);
    bench_merging(recording, ends[5], ends[6], rounds < 9 ? rounds : 9);
    bench_calls(&c);
#endif
    bench_061(recording, rounds);
    free(recording);
    return 0;
}
