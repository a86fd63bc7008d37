/* differ [SEED] [INPUTS]: asks the functions of include/asterix.h, whichever it is linked with, and the plain
 * implementation the same, over legal and damaged inputs, and compares. SEED is a number, or `fresh` for one from
 * the clock; it is printed either way.
 *
 * Compared: every member of every answer, and every octet of every buffer lent, with guard octets on both sides of
 * it and pages that may not be touched beyond those. What a refused call was lent must be as before.
 *
 * Status 1 where anything differs; where a refusal number was never met, or one that an entry point can give was
 * not met there, or one that it can't give was; where a message type was never accepted, or never refused by 14 and by
 * 15, or an item never found, read or written; where a part of an extended item, or a subfield, was never there or
 * never absent, read and written, or never at fault in a way that it can be, or fields of a form that they may not have
 * were never refused; where a recording of one category, or of some together, was never accepted; where two logs were
 * never finished, or one never refused or gone on in by a record of each category; where a field of a sheet was never at
 * fault in a way that it can be, or a mark never found or missed. */
#include <inttypes.h>
#include <stdbool.h>
#include <stdio.h>
#include <stdlib.h>
#include <string.h>
#include <sys/mman.h>
#include <time.h>

#include "asterix.h"
#include "generate.h"
#include "plain.h"
#include "tables.h"

/* ---- What was met */

enum call {
    BLOCK,
    RECORDING,
    RECORD,
    ITEM,
    WALK,
    STEP,
    BEGIN,
    READ,
    WRITE,
    ADD_OLD,
    ADD_NEW,
    SHEET_READ,
    SHEET_WRITE,
    MARK_ADD_OLD,
    MARK_ADD,
    MARK_REMOVE_OLD,
    MARK_REMOVE,
    SHEET_EMPTY_OLD,
    SHEET_EMPTY,
    CALLS
};

static const char *const call_name[CALLS] = { "check_block", "check_recording", "find_record", "find_item",
                                              "next_record", "merge_step",      "begin_merge", "read_item",
                                              "write_item",  "add (old)",       "add (new)",   "read_sheet",
                                              "write_sheet", "add_mark (old)",  "add_mark",    "remove (old)",
                                              "remove_mark", "empty (old)",     "empty_sheet" };

/* The numbers that each call can give, as bits; 0 is an acceptance, which of adding is counted with the new. Of a
 * changed sheet the refusals that reading gives are told apart as the old one's. */
#define IN_BLOCK 0xFFFEu /* 1 to 15 */
#define NO(n) ((uint64_t)1 << (n))
#define IN_ITEM (NO(6) | NO(7) | NO(8) | NO(9) | NO(10) | NO(11))
#define IN_SHEET (NO(30) | NO(31) | NO(32) | NO(33) | NO(34))
static const uint64_t can_give[CALLS] = {
    NO(0) | IN_BLOCK,
    NO(0) | IN_BLOCK,
    NO(0) | IN_BLOCK | NO(19),
    NO(0) | IN_BLOCK | NO(19) | NO(20) | NO(21),
    NO(0) | IN_BLOCK,
    NO(0) | IN_BLOCK | NO(22) | NO(23),
    NO(0) | IN_BLOCK | NO(22),
    NO(0) | IN_ITEM | NO(18) | NO(21),
    NO(0) | NO(11) | NO(16) | NO(21),
    (IN_BLOCK & ~NO(4)) | NO(16),
    NO(0) | IN_ITEM | NO(12) | NO(13) | NO(14) | NO(15) | NO(16) | NO(17) | NO(18),
    NO(0) | IN_SHEET,
    NO(0) | NO(16) | NO(33) | NO(34),
    IN_SHEET,
    NO(0) | NO(16) | NO(33) | NO(34) | NO(35),
    IN_SHEET,
    NO(0) | NO(16) | NO(36),
    IN_SHEET,
    NO(0) | NO(16),
};

enum { NUMBERS = 37 };
static size_t met[CALLS][NUMBERS];
static size_t types_accepted[COUNT(messages)], types_refused[COUNT(messages)][2]; /* by 14, 15 */
static size_t found[COUNT(items)], read[COUNT(items)], written[COUNT(items)];
static size_t calls, lengths, differences;
static size_t records_met, ends_met; /* by the walk, whose acceptances are both */

/* Of extended and compound items that are read or written: part by part, there or absent; of those that are refused,
 * at which part, or in the primary octets. */
enum part_way { READ_THERE, READ_ABSENT, WRITTEN_THERE, WRITTEN_ABSENT, CUT, BAD, PART_WAYS };
static const char *const part_name[PART_WAYS] = { "read", "read, absent", "written", "written, absent", "9", "11" };
enum { MOST_PARTS = 12 };
static size_t parts_met[COUNT(items)][MOST_PARTS][PART_WAYS];
enum inside { PAST, NAMELESS, UNPRINTED, PRIMARY_CUT, INSIDES }; /* the first three are 6, 7, 8 */
static const char *const inside_name[INSIDES] = { "6", "7", "8", "9, primary" };
static size_t inside_met[COUNT(items)][INSIDES];

/* The same three numbers where an item gave them in a block that was checked, and among new items. */
static size_t in_blocks[3], in_new_items[3];

/* Of lists of fields that have no such form, or a barred count: those that were refused. */
enum form { AS_IT_IS, AFTER_ABSENT, NO_SUBFIELD, BARRED_COUNT, OTHER_COUNT, ABSENT_INSIDE, EXCHANGED, FORMS };
static const char *const form_name[FORMS] = { "",
                                              "an extension after an absent one",
                                              "no subfield",
                                              "a barred count in a subfield",
                                              "a count not borne out",
                                              "absent within a part",
                                              "" };
static size_t forms_refused[FORMS];

/* Of recordings that are accepted: by the categories that they have, as bits. Of records, by their category: those
 * that a walk met, that came out of merges as they were begun, and that were added. */
static size_t recordings_of[1 << COUNT(categories)];
enum record_way { WALKED, FROM_A, FROM_B, ADDED, RECORD_WAYS };
static const char *const record_name[RECORD_WAYS] = { "walked", "merged, from A", "merged, from B", "added" };
static size_t records_of[COUNT(categories)][RECORD_WAYS];

/* Of two logs: by steps, by beginning, and by the next records of whole and of damaged merges. */
enum merging { OF_A, OF_B, FINISHED, REFUSED_A, REFUSED_B, MERGINGS };
static const char *const merging_name[MERGINGS] = { "from A", "from B", "finished", "refused: A", "refused: B" };
enum way { BY_STEP, BY_BEGIN, BY_NEXT, BY_DAMAGED, WAYS };
static const char *const way_name[WAYS] = { "merge_step", "begin_merge", "next_merged", "damaged merges" };
static const uint64_t can_meet[WAYS] = { 0x1F, NO(REFUSED_A) | NO(REFUSED_B), NO(OF_A) | NO(OF_B) | NO(FINISHED),
                                         NO(OF_A) | NO(OF_B) | NO(FINISHED) };
static size_t merged[WAYS][MERGINGS];

/* Of sheets that are refused: in what way, and at which field, or behind the last one's head. */
enum fault { CUT_HEAD, CUT_BODY, NOTHING_LEFT, OTHER_TAG, OTHER_LENGTH, BARRED, TOO_MANY, FAULTS };
static const char *const fault_name[FAULTS] = {
    "30, its head", "30, its body", "31, nothing left", "31, a tag", "32", "33", "34"
};
enum field_at { TAG_1, TAG_2, TAG_3, BEHIND, FIELDS_AT };
static const char *const field_name[FIELDS_AT] = { "tag 1", "tag 2", "tag 3", "marks, after" };
static const uint64_t can_be[FAULTS] = { 0x7, 0x7, 0x7, 0xF, 0x7, NO(TAG_1) | NO(TAG_2) | NO(BEHIND), NO(TAG_3) };
static size_t at_fault[FAULTS][FIELDS_AT], sheets_empty, sheets_full;

/* Of marks that are found by where they lie: as reading told, or otherwise, in one list or in two. */
enum finding { AS_READ, ONE_LIST, TWO_LISTS, FINDINGS };
static const char *const finding_name[FINDINGS] = { "as read", "damaged, one list", "damaged, two lists" };
static size_t marks_met[FINDINGS][2]; /* none, found */

/* ---- Lending: a region between two pages that may not be touched */

enum { PAGE = 4096, REGION = 18 * PAGE, GUARD = 64 };

struct lent {
    uint8_t *low, *high; /* the region */
    uint8_t *at;         /* what is lent, `size` octets, at one end of the region */
    size_t size;
    uint8_t was[REGION]; /* what it held */
};

static struct lent input, second, output;

static void open_region(struct lent *l)
{
    uint8_t *pages = mmap(NULL, REGION + 2 * PAGE, PROT_READ | PROT_WRITE, MAP_PRIVATE | MAP_ANONYMOUS, -1, 0);
    if (pages == MAP_FAILED || mprotect(pages, PAGE, PROT_NONE) || mprotect(pages + PAGE + REGION, PAGE, PROT_NONE)) {
        fputs("differ: no pages\n", stderr);
        exit(2);
    }
    l->low = pages + PAGE;
    l->high = l->low + REGION;
    memset(l->low, 0xA5, REGION);
}

/* Lends `size` octets with this content, at the region's one end or the other. */
static uint8_t *lend(struct lent *l, bool at_end, const void *content, size_t size)
{
    l->at = at_end ? l->high - size : l->low;
    l->size = size;
    memcpy(l->was, content, size);
    memcpy(l->at, content, size);
    return l->at;
}

/* Whether what was lent now holds this, and the guard octets beside it what they held. Puts the guards back over
 * it. */
static bool holds(struct lent *l, const void *content)
{
    bool same = memcmp(l->at, content, l->size) == 0;
    const uint8_t *guard = l->at == l->low ? l->at + l->size : l->at - GUARD;
    if (l->size + GUARD <= REGION)
        for (size_t i = 0; i < GUARD; i++)
            same = same && guard[i] == 0xA5;
    memset(l->at, 0xA5, l->size);
    return same;
}

static bool unchanged(struct lent *l)
{
    return holds(l, l->was);
}

/* ---- Differences */

static void print_octets(const uint8_t *octets, size_t n)
{
    for (size_t i = 0; i < n; i++)
        printf("%02X", octets[i]);
    if (n == 0)
        printf("-");
}

/* The first of an item's fields, as the vectors have them. */
static void print_fields(const int64_t *fields, size_t n)
{
    printf("  fields ");
    for (size_t i = 0; i < n && i < 100; i++) {
        printf("%s", i ? "," : "");
        if (fields[i] == ASTERIX_ABSENT)
            printf("x");
        else
            printf("%" PRId64, fields[i]);
    }
    printf("%s\n", n > 100 ? " .." : "");
}

/* The question as the vectors have it, and the two answers. */
static void differs(const char *question, const uint8_t *octets, size_t have, const char *rest)
{
    printf("differ: %s ", question);
    print_octets(octets, have);
    printf("%s\n", rest);
    if (++differences == 10) {
        puts("differ: ten differences, and no more are looked for");
        exit(1);
    }
}

static void tally(enum call call, unsigned number)
{
    calls++;
    met[call][number < NUMBERS ? number : 0]++;
}

static char *answers(char *to, size_t room, struct plain_fault ours, size_t a, size_t b, unsigned number,
                     size_t place, size_t c, size_t d, bool kept)
{
    snprintf(to, room, "\n  plain   %u at %zu, %zu, %zu\n  library %u at %zu, %zu, %zu%s", ours.number, ours.place, a,
             b, number, place, c, d,
             kept ? "" : "\n  a lent buffer, or an octet beside it, does not hold what it should");
    return to;
}

/* ---- The calls */

static char text[400];

static size_t category_row(unsigned category)
{
    return (size_t)(find_category(category) - categories);
}

/* The row of the message type of a record whose items are as they should be; past all where there is none. */
static size_t message_at(const uint8_t *block, size_t place)
{
    const uint8_t *fspec = block + place, *at = fspec;
    while (*at++ & 1)
        ;
    for (unsigned frn = 1; frn < type_frn(block[0]); frn++)
        if (fspec[0] >> (8 - frn) & 1)
            at += layout_at(block[0], frn)->parts->octets;
    size_t row = 0;
    while (row < COUNT(messages) && (messages[row].category != block[0] || messages[row].type != *at))
        row++;
    return row;
}

/* Where the record starts in which a block is refused. */
static size_t record_at_fault(const uint8_t *block, size_t have)
{
    struct plain_met met = plain_next_record(block, have, (struct plain_cursor){ 0, 0, 0, 0 });
    while (met.met)
        met = plain_next_record(block, have, met.next);
    return met.next.place ? met.next.place : 3;
}

static void tally_in_block(const uint8_t *block, size_t have, struct plain_fault fault)
{
    if (fault.number == 14 || fault.number == 15) {
        size_t row = message_at(block, fault.place);
        if (row < COUNT(messages))
            types_refused[row][fault.number - 14]++;
    } else if (fault.number >= 6 && fault.number <= 8 && fault.place != record_at_fault(block, have))
        in_blocks[fault.number - 6]++;
}

static bool try_block(struct chance *c, const uint8_t *block, size_t have)
{
    struct plain_block ours = plain_check_block(block, have);
    uint8_t *lent = lend(&input, one_in(c, 2), block, have);
    struct asterix_block_checked theirs = asterix_check_block(lent, have);
    bool kept = unchanged(&input);
    tally(BLOCK, ours.fault.number);
    tally_in_block(block, have, ours.fault);
    if (!kept || theirs.number != ours.fault.number || theirs.place != ours.fault.place ||
        theirs.records != ours.records)
        differs("block", block, have,
                answers(text, sizeof text, ours.fault, ours.records, 0, theirs.number, theirs.place, theirs.records,
                        0, kept));
    return ours.fault.number == 0;
}

static void try_recording(struct chance *c, const uint8_t *recording, size_t have)
{
    struct plain_recording ours = plain_check_recording(recording, have);
    uint8_t *lent = lend(&input, one_in(c, 2), recording, have);
    struct asterix_recording_checked theirs = asterix_check_recording(lent, have);
    bool kept = unchanged(&input);
    tally(RECORDING, ours.fault.number);
    if (ours.fault.number == 0) {
        size_t set = 0;
        for (size_t at = 0; at < have; at += (size_t)recording[at + 1] * 256 + recording[at + 2])
            set |= (size_t)1 << category_row(recording[at]);
        recordings_of[set]++;
    }
    if (!kept || theirs.number != ours.fault.number || theirs.place != ours.fault.place ||
        theirs.blocks != ours.blocks || theirs.records != ours.records)
        differs("recording", recording, have,
                answers(text, sizeof text, ours.fault, ours.blocks, ours.records, theirs.number, theirs.place,
                        theirs.blocks, theirs.records, kept));
}

static void try_record(struct chance *c, const uint8_t *block, size_t have, size_t n)
{
    struct plain_record ours = plain_find_record(block, have, n);
    uint8_t *lent = lend(&input, one_in(c, 2), block, have);
    struct asterix_record_found theirs = asterix_find_record(lent, have, n);
    bool kept = unchanged(&input), same = true;
    tally(RECORD, ours.fault.number);
    for (unsigned frn = 1; frn <= ASTERIX_FRNS; frn++)
        same = same && theirs.starts[frn - 1] == ours.starts[frn - 1];
    if (!kept || !same || theirs.number != ours.fault.number || theirs.place != ours.fault.place ||
        theirs.start != ours.start || theirs.length != ours.length || theirs.end != ours.end ||
        theirs.count != ours.count) {
        answers(text, sizeof text, ours.fault, ours.start, ours.length, theirs.number, theirs.place, theirs.start,
                theirs.length, kept);
        differs("record", block, have, text);
        printf("  record %zu; end %zu and %zu, items %zu and %zu, maps %s\n", n, ours.end, theirs.end, ours.count,
               theirs.count, same ? "alike" : "not alike");
    }
}

static void try_item(struct chance *c, const uint8_t *block, size_t have, unsigned reference, size_t n)
{
    struct plain_item ours = plain_find_item(block, have, reference, n);
    uint8_t *lent = lend(&input, one_in(c, 2), block, have);
    struct asterix_item_found theirs = asterix_find_item(lent, have, (uint16_t)reference, n);
    bool kept = unchanged(&input);
    tally(ITEM, ours.fault.number);
    if (ours.fault.number == 0)
        found[find_layout(block[0], reference) - items]++;
    if (!kept || theirs.number != ours.fault.number || theirs.place != ours.fault.place ||
        theirs.start != ours.start || theirs.length != ours.length) {
        differs("find", block, have,
                answers(text, sizeof text, ours.fault, ours.start, ours.length, theirs.number, theirs.place,
                        theirs.start, theirs.length, kept));
        printf("  item %03u of record %zu\n", reference, n);
    }
}

/* One step of a walk. Answers what the plain implementation met. */
static struct plain_met try_walk(struct chance *c, const uint8_t *recording, size_t have, struct plain_cursor at)
{
    struct plain_met ours = plain_next_record(recording, have, at);
    uint8_t *lent = lend(&input, one_in(c, 2), recording, have);
    struct asterix_cursor cursor = { at.block, at.place, at.end, (uint8_t)at.category };
    struct asterix_record_met theirs = asterix_next_record(lent, have, cursor);
    bool kept = unchanged(&input), same = true;
    tally(WALK, ours.fault.number);
    records_met += ours.met;
    if (ours.met)
        records_of[category_row(ours.category)][WALKED]++;
    ends_met += !ours.met && ours.fault.number == 0;
    for (unsigned frn = 1; frn <= ASTERIX_FRNS; frn++)
        same = same && theirs.starts[frn - 1] == ours.starts[frn - 1];
    bool next = theirs.next.block == ours.next.block && theirs.next.place == ours.next.place &&
                theirs.next.end == ours.next.end && theirs.next.category == ours.next.category;
    if (!kept || !same || !next || theirs.number != ours.fault.number || theirs.place != ours.fault.place ||
        theirs.met != ours.met || theirs.category != ours.category || theirs.start != ours.start ||
        theirs.length != ours.length || theirs.block != ours.block || theirs.end != ours.end ||
        theirs.count != ours.count) {
        answers(text, sizeof text, ours.fault, ours.start, ours.length, theirs.number, theirs.place, theirs.start,
                theirs.length, kept);
        differs("walk", recording, have, text);
        printf("  from %zu, %zu, %zu, %u; met %d and %u, category %u and %u, block %zu and %zu, end %zu and %zu, "
               "items %zu and %zu, maps %s, next %s\n",
               at.block, at.place, at.end, at.category, ours.met, theirs.met, ours.category, theirs.category,
               ours.block, theirs.block, ours.end, theirs.end, ours.count, theirs.count, same ? "alike" : "not alike",
               next ? "alike" : "not alike");
    }
    return ours;
}

/* Two logs, of which A is lent first; what a difference shows. */
struct logs {
    const uint8_t *a, *b;
    size_t a_len, b_len;
};

static struct asterix_cursor as_cursor(struct plain_cursor at)
{
    return (struct asterix_cursor){ at.block, at.place, at.end, (uint8_t)at.category };
}

static struct asterix_merge_head as_head(struct plain_head head)
{
    return (struct asterix_merge_head){ as_cursor(head.at), head.length, (uint8_t)head.timed, head.time };
}

static bool same_head(struct plain_head ours, struct asterix_merge_head theirs)
{
    return ours.at.block == theirs.at.block && ours.at.place == theirs.at.place && ours.at.end == theirs.at.end &&
           ours.at.category == theirs.at.category && ours.length == theirs.length && ours.timed == theirs.timed &&
           ours.time == theirs.time;
}

static bool same_merge(const struct plain_merge *ours, const struct asterix_merge *theirs)
{
    return same_head(ours->a, theirs->a) && same_head(ours->b, theirs->b) && ours->turn == theirs->turn;
}

static void print_head(const char *of, struct asterix_merge_head head)
{
    printf("  %s: %zu, %zu, %zu, %u; length %zu, timed %u, time %" PRIu64 "\n", of, head.at.block, head.at.place,
           head.at.end, head.at.category, head.length, head.timed, head.time);
}

static void print_merge(const char *of, struct asterix_merge merge)
{
    printf("  %s, turn %" PRIu64 "\n", of, merge.turn);
    print_head("A", merge.a);
    print_head("B", merge.b);
}

static void merge_differs(const char *question, struct logs logs)
{
    differs(question, logs.a, logs.a_len, "");
    printf("  log B ");
    print_octets(logs.b, logs.b_len);
    printf("\n");
}

static void lend_logs(struct chance *c, struct logs logs)
{
    lend(&input, one_in(c, 2), logs.a, logs.a_len);
    lend(&second, one_in(c, 2), logs.b, logs.b_len);
}

static bool kept_logs(void)
{
    bool a = unchanged(&input), b = unchanged(&second);
    return a && b;
}

/* One step over two logs. Answers what the plain implementation has. */
static struct plain_stepped try_step(struct chance *c, struct logs logs, size_t place_a, size_t place_b,
                                     int64_t offset)
{
    struct plain_stepped ours = plain_merge_step(logs.a, logs.a_len, logs.b, logs.b_len, place_a, place_b, offset);
    lend_logs(c, logs);
    struct asterix_merge_stepped theirs =
        asterix_merge_step(input.at, logs.a_len, second.at, logs.b_len, place_a, place_b, offset);
    bool kept = kept_logs();
    tally(STEP, ours.fault.number);
    if (ours.met)
        merged[BY_STEP][ours.log ? OF_B : OF_A]++;
    else if (ours.fault.number == 0)
        merged[BY_STEP][FINISHED]++;
    else if (ours.fault.number < 16)
        merged[BY_STEP][ours.log ? REFUSED_B : REFUSED_A]++;
    if (!kept || theirs.number != ours.fault.number || theirs.place != ours.fault.place || theirs.met != ours.met ||
        theirs.log != ours.log || theirs.start != ours.start || theirs.length != ours.length ||
        theirs.place_a != ours.place_a || theirs.place_b != ours.place_b) {
        snprintf(text, sizeof text, "merge %" PRId64 " %zu %zu", offset, place_a, place_b);
        merge_differs(text, logs);
        puts(answers(text, sizeof text, ours.fault, ours.start, ours.length, theirs.number, theirs.place,
                     theirs.start, theirs.length, kept));
        printf("  met %d and %u, log %u and %u, places %zu, %zu and %zu, %zu\n", ours.met, theirs.met, ours.log,
               theirs.log, ours.place_a, ours.place_b, theirs.place_a, theirs.place_b);
    }
    return ours;
}

static struct plain_begun try_begin(struct chance *c, struct logs logs, int64_t offset)
{
    struct plain_begun ours = plain_begin_merge(logs.a, logs.a_len, logs.b, logs.b_len, offset);
    lend_logs(c, logs);
    struct asterix_merge_begun theirs = asterix_begin_merge(input.at, logs.a_len, second.at, logs.b_len, offset);
    bool kept = kept_logs();
    tally(BEGIN, ours.fault.number);
    if (ours.fault.number > 0 && ours.fault.number < 16)
        merged[BY_BEGIN][ours.log ? REFUSED_B : REFUSED_A]++;
    if (!kept || theirs.number != ours.fault.number || theirs.place != ours.fault.place || theirs.log != ours.log ||
        !same_merge(&ours.merge, &theirs.merge)) {
        snprintf(text, sizeof text, "mergerun %" PRId64, offset);
        merge_differs(text, logs);
        puts(answers(text, sizeof text, ours.fault, ours.log, 0, theirs.number, theirs.place, theirs.log, 0, kept));
        print_merge("plain", (struct asterix_merge){ as_head(ours.merge.a), as_head(ours.merge.b), ours.merge.turn });
        print_merge("library", theirs.merge);
    }
    return ours;
}

enum { MOST_MERGED = 8, MERGED_NUMBERS = sizeof(struct asterix_merged) / sizeof(size_t) };
_Static_assert(MERGED_NUMBERS == 6 && offsetof(struct asterix_merged, at.category) == 5 * sizeof(size_t),
               "the six numbers that the library writes of a record");

/* The next records of a merge, which goes on; how many. Through the inline function, or with a few numbers of room
 * more than whole records take. What was lent for them beyond those must be as before. */
static size_t try_next(struct chance *c, enum way way, struct logs logs, struct plain_merge *merge,
                       struct plain_merged *came, size_t room)
{
    size_t should[MOST_MERGED * MERGED_NUMBERS + 5], words = room * MERGED_NUMBERS;
    struct asterix_merge given = { as_head(merge->a), as_head(merge->b), merge->turn };
    size_t count = plain_next_merged(logs.a, logs.a_len, logs.b, logs.b_len, merge, came, room);
    bool as_words = one_in(c, 4);
    if (as_words)
        words += below(c, 6);
    for (size_t i = 0; i < words; i++)
        should[i] = (size_t)any(c);
    size_t *out = (size_t *)(void *)lend(&output, one_in(c, 2), should, words * sizeof *should);
    for (size_t i = 0; i < count; i++) {
        const size_t numbers[MERGED_NUMBERS] = { came[i].log,      came[i].length, came[i].at.block,
                                                 came[i].at.place, came[i].at.end, came[i].at.category };
        memcpy(should + i * MERGED_NUMBERS, numbers, sizeof numbers);
        merged[way][came[i].log ? OF_B : OF_A]++;
        if (way == BY_NEXT)
            records_of[category_row(came[i].at.category)][came[i].log ? FROM_B : FROM_A]++;
    }
    merged[way][FINISHED] += count < room;
    lend_logs(c, logs);
    struct asterix_merge_next theirs =
        as_words ? asterix_next_merged_words(input.at, logs.a_len, second.at, logs.b_len, given, out, words)
                 : asterix_next_merged(input.at, logs.a_len, second.at, logs.b_len, given,
                                       (struct asterix_merged *)(void *)out, room);
    bool kept = kept_logs();
    kept = holds(&output, should) && kept;
    calls++;
    if (!kept || theirs.count != count || !same_merge(merge, &theirs.merge)) {
        snprintf(text, sizeof text, "next_merged, room %zu, came %zu and %zu%s, log A", room, count, theirs.count,
                 kept ? "" : ", a lent buffer or an octet beside it does not hold what it should");
        merge_differs(text, logs);
        print_merge("from", given);
        print_merge("plain", (struct asterix_merge){ as_head(merge->a), as_head(merge->b), merge->turn });
        print_merge("library", theirs.merge);
    }
    return count;
}

/* ---- The parts of an extended item, and the subfields of a compound one */

static bool has_parts(const struct item *item)
{
    return item->layout == EXTENDED || item->layout == COMPOUND;
}

/* Where the fields of each part start, in a list that has the form of that item; and where they end. */
static void find_parts(const struct item *item, const int64_t *fields, size_t starts[MOST_PARTS + 1])
{
    starts[0] = 0;
    for (size_t i = 0; i < item->count; i++) {
        const struct part *part = &item->parts[i];
        size_t n = fields_of(part);
        if (fields[starts[i]] == PLAIN_ABSENT)
            n = 1;
        else if (item->layout == COMPOUND && is_list(part))
            n = 1 + (size_t)fields[starts[i]] * n;
        starts[i + 1] = starts[i] + n;
    }
}

static void tally_parts(const struct item *item, const int64_t *fields, enum part_way there)
{
    size_t starts[MOST_PARTS + 1];
    if (!has_parts(item))
        return;
    find_parts(item, fields, starts);
    for (size_t i = 0; i < item->count; i++)
        parts_met[item - items][i][there + (fields[starts[i]] == PLAIN_ABSENT)]++;
}

/* The same item with its parts up to the one with this number and no more; its length. 0 where it has none of them. */
static size_t cut_behind(const struct item *item, size_t last, const uint8_t *octets, size_t have, uint8_t *to)
{
    size_t n = 0, primary = octets[0] & 1 ? 2 : 1;
    uint8_t names[2] = { 0, 0 };
    if (item->layout == EXTENDED) {
        for (size_t i = 0; i <= last; i++)
            n += item->parts[i].octets;
        memcpy(to, octets, n < have ? n : have);
        to[n - 1] &= 0xFE;
        return n < have ? n : have;
    }
    for (size_t i = 0; i <= last; i++) {
        unsigned number = item->parts[i].number - 1;
        if (number / 7 < primary)
            names[number / 7] |= octets[number / 7] & 0x80 >> number % 7;
    }
    if (!names[0] && !names[1])
        return 0;
    to[n++] = names[0] | (names[1] != 0);
    if (names[1])
        to[n++] = names[1];
    memcpy(to + n, octets + primary, have - primary);
    return n + have - primary;
}

/* Which part an item is refused for by 9 or 11: the last of the fewest with which it is. */
static size_t part_at_fault(const struct item *item, const uint8_t *octets, size_t have, unsigned number)
{
    static uint8_t some[REGION];
    static int64_t fields[PLAIN_FIELDS];
    size_t i = 0;
    for (; have > 0 && i + 1 < item->count; i++) {
        size_t n = cut_behind(item, i, octets, have, some);
        if (n && plain_read_item(item->category, item->reference, some, n, fields).fault.number == number)
            break;
    }
    return i;
}

static void tally_inside(const struct item *item, const uint8_t *octets, size_t have, unsigned number)
{
    size_t row = (size_t)(item - items);
    if (!has_parts(item) || number == 0 || number > 11)
        return;
    if (number < 9)
        inside_met[row][number - 6]++;
    else if (item->layout == COMPOUND && (have == 0 || (have == 1 && octets[0] & 1)))
        inside_met[row][PRIMARY_CUT]++;
    else
        parts_met[row][part_at_fault(item, octets, have, number)][number == 9 ? CUT : BAD]++;
}

/* ---- One item, and adding a record */

/* What `fields` is lent with, and what it should hold: 8,192 numbers that no item has. */
static int64_t blank[ASTERIX_FIELDS], full[ASTERIX_FIELDS];

static void try_read(struct chance *c, unsigned category, unsigned reference, const uint8_t *item, size_t have)
{
    static int64_t told[PLAIN_FIELDS];
    struct plain_fields ours = plain_read_item(category, reference, item, have, told);
    uint8_t *lent = lend(&input, one_in(c, 2), item, have);
    int64_t *fields = (int64_t *)(void *)lend(&output, one_in(c, 2), blank, sizeof blank);
    struct asterix_item_read theirs = asterix_read_item((uint8_t)category, (uint16_t)reference, lent, have, fields);
    memcpy(full, told, ours.count * sizeof *full);
    bool kept = unchanged(&input);
    kept = holds(&output, full) && kept;
    memcpy(full, blank, ours.count * sizeof *full);
    tally(READ, ours.fault.number);
    const struct item *row = find_layout(category, reference);
    if (ours.fault.number == 0) {
        read[row - items]++;
        tally_parts(row, told, READ_THERE);
    } else if (row)
        tally_inside(row, item, have, ours.fault.number);
    if (!kept || theirs.number != ours.fault.number || theirs.place != ours.fault.place ||
        theirs.count != ours.count) {
        char question[40];
        snprintf(question, sizeof question, "read %u %03u", category, reference);
        differs(question, item, have,
                answers(text, sizeof text, ours.fault, ours.count, 0, theirs.number, theirs.place, theirs.count, 0,
                        kept));
    }
}

/* Answers the number that the plain implementation gives. */
static unsigned try_write(struct chance *c, unsigned category, unsigned reference, const int64_t *fields,
                          size_t count, const uint8_t *old, size_t room)
{
    static uint8_t should[REGION];
    memcpy(should, old, room);
    struct plain_length ours = plain_write_item(category, reference, fields, count, should, room);
    const int64_t *from = (int64_t *)(void *)lend(&input, one_in(c, 2), fields, count * sizeof *fields);
    uint8_t *out = lend(&output, one_in(c, 2), old, room);
    struct asterix_item_written theirs =
        asterix_write_item((uint8_t)category, (uint16_t)reference, from, count, out, room);
    bool kept = unchanged(&input);
    kept = (ours.fault.number ? unchanged(&output) : holds(&output, should)) && kept;
    tally(WRITE, ours.fault.number);
    if (ours.fault.number == 0) {
        written[find_layout(category, reference) - items]++;
        tally_parts(find_layout(category, reference), fields, WRITTEN_THERE);
    }
    if (!kept || theirs.number != ours.fault.number || theirs.place != ours.fault.place ||
        theirs.length != ours.length) {
        char question[80];
        snprintf(question, sizeof question, "write %u %03u %zu, %zu fields; plain writes", category, reference, room,
                 count);
        differs(question, should, ours.length,
                answers(text, sizeof text, ours.fault, ours.length, 0, theirs.number, theirs.place, theirs.length, 0,
                        kept));
        print_fields(fields, count);
    }
    return ours.fault.number;
}

static void try_add(struct chance *c, const uint8_t *old, size_t room, size_t used, uint64_t frns, const uint8_t *new,
                    size_t have)
{
    static uint8_t should[REGION];
    memcpy(should, old, room);
    struct plain_length ours = plain_add_record(should, room, used, frns, new, have);
    uint8_t *out = lend(&output, one_in(c, 2), old, room);
    uint8_t *lent = lend(&second, one_in(c, 2), new, have);
    struct asterix_record_added theirs = asterix_add_record(out, room, used, frns, lent, have);
    bool kept = unchanged(&second);
    kept = (ours.fault.number ? unchanged(&output) : holds(&output, should)) && kept;
    bool in_new = ours.fault.number && ours.in_new;
    tally(ours.fault.number && !in_new ? ADD_OLD : ADD_NEW, ours.fault.number);
    if (ours.fault.number == 0)
        records_of[category_row(should[0])][ADDED]++;
    if (in_new && ours.fault.number >= 6 && ours.fault.number <= 8 && ours.fault.place > 0)
        in_new_items[ours.fault.number - 6]++;
    if (!kept || theirs.number != ours.fault.number || theirs.place != ours.fault.place || theirs.in_new != in_new ||
        theirs.length != ours.length) {
        answers(text, sizeof text, ours.fault, ours.length, in_new, theirs.number, theirs.place, theirs.length,
                theirs.in_new, kept);
        differs("add", old, used < room ? used : room, text);
        printf("  room %zu, used %zu, set %016" PRIx64 ", items ", room, used, frns);
        print_octets(new, have);
        printf("\n");
    }
}

/* ---- Sheets */

/* The fault that a number, a place and the sheet's length tell. */
static void tally_fault(struct plain_fault fault, size_t have)
{
    enum field_at at = fault.place == 0 ? TAG_1 : fault.place == 4 ? TAG_2 : fault.place == 11 ? TAG_3 : BEHIND;
    switch (fault.number) {
    case 30:
        at_fault[have - fault.place < 3 ? CUT_HEAD : CUT_BODY][at]++;
        break;
    case 31:
        at_fault[have == fault.place ? NOTHING_LEFT : OTHER_TAG][at]++;
        break;
    case 32:
        at_fault[OTHER_LENGTH][at]++;
        break;
    case 33:
        at_fault[BARRED][at]++;
        break;
    case 34:
        at_fault[TOO_MANY][at]++;
        break;
    }
}

static bool same_mark(struct plain_mark ours, struct asterix_mark theirs)
{
    return ours.place == theirs.place && ours.log == theirs.log && ours.station == theirs.station &&
           ours.comment == theirs.comment;
}

/* Mark n of these, of a sheet that is lent. Answers what the library has. */
static struct asterix_mark_found find_both(enum finding way, const uint8_t *sheet, size_t have,
                                           struct plain_marks marks, size_t n)
{
    struct plain_found ours = plain_find_mark(sheet, have, marks, n);
    struct asterix_marks given = { marks.base, marks.first, marks.count, (uint8_t)marks.split };
    struct asterix_mark_found theirs = asterix_find_mark(input.at, have, given, n);
    calls++;
    marks_met[way][ours.found]++;
    if (theirs.found != ours.found || !same_mark(ours.mark, theirs.mark)) {
        differs("find_mark", sheet, have, "");
        printf("  mark %zu of %zu, %zu, %zu, %u\n  plain   %d, %u:%u:%u:%u\n  library %d, %u:%u:%u:%u\n", n,
               marks.base, marks.first, marks.count, marks.split, ours.found, (unsigned)ours.mark.place,
               ours.mark.log, ours.mark.station, ours.mark.comment, theirs.found, (unsigned)theirs.mark.place,
               theirs.mark.log, theirs.mark.station, theirs.mark.comment);
    }
    return theirs;
}

static void try_mark(struct chance *c, const uint8_t *sheet, size_t have, struct plain_marks marks, size_t n)
{
    lend(&input, one_in(c, 2), sheet, have);
    find_both(marks.split ? TWO_LISTS : ONE_LIST, sheet, have, marks, n);
    if (!unchanged(&input))
        differs("find_mark", sheet, have, "\n  which changed what was lent");
}

/* Every mark of a sheet that was read, whose octets must be those of the sheet; and the one after, which is none. */
static void try_marks(struct chance *c, const uint8_t *sheet, size_t have, struct plain_marks marks)
{
    lend(&input, one_in(c, 2), sheet, have);
    for (size_t n = 0; n <= marks.count; n++) {
        uint8_t mark[ASTERIX_MARK_BYTES];
        asterix_put_mark(find_both(AS_READ, sheet, have, marks, n).mark, mark);
        if (n < marks.count && memcmp(mark, sheet + SHEET_OCTETS + n * MARK_OCTETS, sizeof mark) != 0)
            differs("find_mark", sheet, have, "\n  which finds a mark of other octets");
    }
    if (!unchanged(&input))
        differs("find_mark", sheet, have, "\n  which changed what was lent");
}

/* Reading a sheet, and finding its marks. Answers what the plain implementation has. */
static const struct plain_sheet *try_sheet(struct chance *c, const uint8_t *sheet, size_t have)
{
    static struct plain_sheet ours;
    ours = plain_read_sheet(sheet, have);
    uint8_t *lent = lend(&input, one_in(c, 2), sheet, have);
    struct asterix_sheet_read theirs = asterix_read_sheet(lent, have);
    bool kept = unchanged(&input);
    tally(SHEET_READ, ours.fault.number);
    tally_fault(ours.fault, have);
    sheets_empty += ours.fault.number == 0 && ours.marks.count == 0;
    sheets_full += ours.marks.count == MOST_MARKS;
    if (!kept || theirs.number != ours.fault.number || theirs.place != ours.fault.place ||
        theirs.edition != ours.edition || theirs.offset != ours.offset || theirs.marks.base != ours.marks.base ||
        theirs.marks.first != ours.marks.first || theirs.marks.count != ours.marks.count ||
        theirs.marks.split != ours.marks.split) {
        differs("sheetread", sheet, have,
                answers(text, sizeof text, ours.fault, ours.edition, ours.marks.count, theirs.number, theirs.place,
                        theirs.edition, theirs.marks.count, kept));
        printf("  offset %" PRId64 " and %" PRId64 ", base %zu and %zu, first %zu and %zu, split %u and %u\n",
               ours.offset, theirs.offset, ours.marks.base, theirs.marks.base, ours.marks.first, theirs.marks.first,
               ours.marks.split, theirs.marks.split);
    }
    if (ours.fault.number == 0)
        try_marks(c, sheet, have, ours.marks);
    return &ours;
}

/* What is lent for a sheet to be written to, and what it should hold then. */
static uint8_t before[REGION], should[REGION];

static uint8_t *lend_room(struct chance *c, size_t room)
{
    for (size_t i = 0; i < room; i++)
        before[i] = should[i] = (uint8_t)any(c);
    return lend(&output, one_in(c, 2), before, room);
}

/* The two answers, and the buffers that were lent. */
static bool same_written(struct plain_length ours, struct asterix_sheet_written theirs, bool *kept)
{
    *kept = unchanged(&input);
    *kept = (ours.fault.number ? unchanged(&output) : holds(&output, should)) && *kept;
    return *kept && theirs.number == ours.fault.number && theirs.place == ours.fault.place &&
           theirs.length == ours.length;
}

static void written_differs(const char *question, const uint8_t *octets, size_t have, struct plain_length ours,
                            struct asterix_sheet_written theirs, bool kept)
{
    answers(text, sizeof text, ours.fault, ours.length, 0, theirs.number, theirs.place, theirs.length, 0, kept);
    differs(question, octets, have, text);
}

static void try_write_sheet(struct chance *c, int64_t offset, const uint8_t *marks, size_t have, size_t room)
{
    uint8_t *out = lend_room(c, room), *lent = lend(&input, one_in(c, 2), marks, have);
    struct plain_length ours = plain_write_sheet(offset, marks, have, should, room);
    struct asterix_sheet_written theirs = asterix_write_sheet(offset, lent, have, out, room);
    bool kept;
    tally(SHEET_WRITE, ours.fault.number);
    if (!same_written(ours, theirs, &kept)) {
        char question[80];
        snprintf(question, sizeof question, "sheetwrite %zu %" PRId64 ", marks", room, offset);
        written_differs(question, marks, have, ours, theirs, kept);
    }
}

/* A changed sheet: with a mark more, without one, or without any. Where `old`, which is what reading it answers, is a
 * refusal, it is counted as the old sheet's, in the place before the call's. */
static void try_change(struct chance *c, enum call call, const uint8_t *sheet, size_t have,
                       const struct plain_sheet *old, struct plain_mark mark, size_t room)
{
    uint8_t *out = lend_room(c, room), *lent = lend(&input, one_in(c, 2), sheet, have);
    struct asterix_mark given = { mark.place, (uint8_t)mark.log, (uint8_t)mark.station, (uint8_t)mark.comment };
    struct asterix_sheet_written theirs;
    struct plain_length ours;
    const char *question;
    bool kept;
    if (call == MARK_ADD) {
        question = "sheetadd";
        ours = plain_add_mark(sheet, have, mark, should, room);
        theirs = asterix_add_mark(lent, have, given, out, room);
    } else if (call == MARK_REMOVE) {
        question = "sheetremove";
        ours = plain_remove_mark(sheet, have, mark.log, mark.place, should, room);
        theirs = asterix_remove_mark(lent, have, given.log, given.place, out, room);
    } else {
        question = "sheetempty";
        ours = plain_empty_sheet(sheet, have, should, room);
        theirs = asterix_empty_sheet(lent, have, out, room);
    }
    tally(old->fault.number ? call - 1 : call, ours.fault.number);
    if (!same_written(ours, theirs, &kept)) {
        written_differs(question, sheet, have, ours, theirs, kept);
        printf("  mark %u:%u:%u:%u, room %zu\n", (unsigned)mark.place, mark.log, mark.station, mark.comment, room);
    }
}

/* ---- Inputs */

static uint8_t block[REGION], octets[REGION], out[REGION];
static int64_t fields[ASTERIX_FIELDS];
static struct sketch sketch;

/* The category and reference of an item, or, one time in sixteen, of none. */
static void draw_reference(struct chance *c, unsigned row, unsigned *category, unsigned *reference)
{
    *category = items[row].category;
    *reference = items[row].reference;
    if (one_in(c, 16)) {
        if (one_in(c, 2))
            *category = one_in(c, 2) ? any_category(c) : (unsigned)below(c, 256);
        else
            *reference = (unsigned)below(c, one_in(c, 2) ? 400 : 65536);
    }
}

/* A message type: one time in twelve one that compound items are sent with. */
static unsigned draw_type(struct chance *c)
{
    for (bool any_type = !one_in(c, 12);;) {
        unsigned message = (unsigned)below(c, COUNT(messages));
        if (any_type || is_in(messages[message].may, 130))
            return message;
    }
}

static void input_block(struct chance *c)
{
    bool legal = one_in(c, 3);
    unsigned message = draw_type(c);
    size_t have, records = 1;
    if (one_in(c, 2)) { /* one record of each message type in turn */
        make_sketch(c, message, !legal, &sketch);
        block[0] = (uint8_t)sketch.category;
        have = 3 + make_record(&sketch, block + 3);
        block[1] = (uint8_t)(have / 256);
        block[2] = (uint8_t)have;
    } else {
        message = COUNT(messages);
        records = one_in(c, 100) ? 40 : between(c, 1, 4);
        have = make_block(c, any_category(c), records, !legal, block, 60000);
    }
    if (!legal && one_in(c, 2))
        for (size_t n = between(c, 1, 2); n > 0; n--)
            damage_block(c, block, &have);
    if (try_block(c, block, have) && message < COUNT(messages) && legal)
        types_accepted[message]++;
    size_t n = one_in(c, 50) ? (size_t)any(c) : below(c, records + one_in(c, 4));
    try_record(c, block, have, n);
    unsigned category = have ? block[0] : 17;
    int reference = is_category(category) && !one_in(c, 8)
                        ? reference_at(category, (unsigned)between(c, 1, last_frn(category)))
                        : NONE;
    if (message < COUNT(messages) && one_in(c, 2))
        for (unsigned tries = 0; tries < 30; tries++) { /* an item that the record has */
            unsigned frn = (unsigned)between(c, 1, 35);
            if (sketch.frns >> (63 - frn) & 1)
                reference = reference_at(sketch.category, frn);
        }
    try_item(c, block, have, reference == NONE ? (unsigned)below(c, one_in(c, 2) ? 400 : 65536) : (unsigned)reference,
             n);
}

/* A number for a cursor that may be given to a recording of `have` octets: near its own ends, near the last that a
 * size_t holds, or any. */
static size_t draw_place(struct chance *c, size_t have)
{
    switch (below(c, 6)) {
    case 0:
        return have - below(c, 3); /* past SIZE_MAX and back: near it, where the recording is empty */
    case 1:
        return have + below(c, 3);
    case 2:
        return SIZE_MAX - below(c, 70000);
    case 3:
        return (size_t)any(c) >> below(c, 64);
    default:
        return below(c, have + 1);
    }
}

/* One change of a cursor, or another cursor altogether. */
static struct plain_cursor damage_cursor(struct chance *c, struct plain_cursor at, size_t have)
{
    size_t some = draw_place(c, have), few = between(c, 1, 3);
    switch (below(c, 12)) {
    case 0:
        at.block = some;
        break;
    case 1:
        at.place = some;
        break;
    case 2:
        at.end = some;
        break;
    case 3:
        at.category = one_in(c, 2) ? any_category(c) : (unsigned)below(c, 256);
        break;
    case 4:
        at.place = one_in(c, 2) ? at.place - few : at.place + few;
        break;
    case 5:
        at.end = one_in(c, 2) ? at.end - few : at.end + few;
        break;
    case 6:
        at.block = one_in(c, 2) ? at.place + few : at.block - few;
        break;
    case 7: /* the longest block that there can be, and the next */
        at.block = at.end - 65534 - few;
        break;
    case 8: /* all of the recording as records */
        at = (struct plain_cursor){ 0, below(c, have + 1), have, any_category(c) };
        break;
    case 9: /* before a block at any place */
        at = (struct plain_cursor){ some, some, some, (unsigned)below(c, 256) };
        break;
    case 10: /* past all that there is, as sums that wrap would have it */
        at = (struct plain_cursor){ SIZE_MAX - few, SIZE_MAX - few + 1, SIZE_MAX, 17 };
        break;
    default:
        at = (struct plain_cursor){ draw_place(c, have), draw_place(c, have), draw_place(c, have),
                                    (unsigned)below(c, 256) };
        break;
    }
    return at;
}

/* A recording from its start to its end or its fault, which are held to what checking it answers; then cursors of
 * that walk that are damaged, and those of the walk before, over another recording. */
static void input_walk(struct chance *c, const uint8_t *recording, size_t have)
{
    enum { KEPT = 64 };
    static struct plain_cursor kept[KEPT], before[KEPT];
    static size_t walked = 1, others = 1;
    memcpy(before, kept, sizeof before);
    others = walked;
    struct plain_recording whole = plain_check_recording(recording, have);
    struct plain_cursor at = { 0, 0, 0, 0 };
    size_t records = 0;
    walked = 0;
    for (bool on = true; on;) {
        kept[walked < KEPT ? walked++ : below(c, KEPT)] = at;
        struct plain_met step = try_walk(c, recording, have, at);
        on = step.met;
        records += on;
        at = step.next;
        if (!on && (step.fault.number != whole.fault.number || step.fault.place != whole.fault.place ||
                    (whole.fault.number == 0 && records != whole.records)))
            differs("walk", recording, have, "\n  ends otherwise than checking it");
    }
    for (size_t n = 0; n < 5; n++) {
        at = one_in(c, 6) ? before[below(c, others)] : kept[below(c, walked)];
        at = one_in(c, 8) ? at : damage_cursor(c, at, have);
        for (size_t steps = between(c, 1, 2); steps > 0; steps--)
            at = try_walk(c, recording, have, at).next;
    }
}

/* A recording in `to`, whole or damaged; its length. */
static size_t draw_recording(struct chance *c, uint8_t *to)
{
    size_t have = 0;
    for (size_t blocks = below(c, 5); blocks > 0; blocks--) {
        size_t n = make_block(c, any_category(c), between(c, 1, 3), one_in(c, 6), block, 16000);
        if (one_in(c, 6))
            damage_block(c, block, &n);
        if (have + n > REGION - GUARD)
            break;
        memcpy(to + have, block, n);
        have += n;
    }
    if (one_in(c, 6) && have < REGION - 100)
        damage(c, to, &have);
    return have;
}

static void input_recording(struct chance *c, struct chance *w)
{
    size_t have = draw_recording(c, octets);
    try_recording(c, octets, have);
    input_walk(w, octets, have);
}

/* ---- Two logs */

enum { DAY = LAST_TIME + 1 };

static uint32_t draw_time(struct chance *c)
{
    static const uint32_t some[] = { 0, DAY - 1, DAY / 2, ASTERIX_OFFSET, DAY - ASTERIX_OFFSET };
    return one_in(c, 2) ? some[below(c, COUNT(some))] : (uint32_t)below(c, DAY);
}

/* A time near another, or half a day from it, or one that the ends of the offset reach. */
static uint32_t draw_time_near(struct chance *c, uint32_t time)
{
    static const uint32_t far[] = { 0, 0, 0, DAY / 2, DAY / 2, ASTERIX_OFFSET, DAY - ASTERIX_OFFSET };
    return (uint32_t)(time + far[below(c, COUNT(far))] + DAY + below(c, 9) - 4) % DAY;
}

/* An offset: mostly small or at the ends of its range, now and then past them, or any number. */
static int64_t draw_offset(struct chance *c)
{
    int64_t few = (int64_t)below(c, 5) - 2;
    switch (below(c, 16)) {
    case 0:
        return (int64_t)below(c, 2 * ASTERIX_OFFSET + 1) - ASTERIX_OFFSET;
    case 1:
    case 2:
        return ASTERIX_OFFSET - (few < 0 ? 0 : few);
    case 3:
    case 4:
        return -ASTERIX_OFFSET + (few < 0 ? 0 : few);
    case 5:
        return (ASTERIX_OFFSET + 1) * (one_in(c, 2) ? 1 : -1);
    case 6:
        return one_in(c, 4) ? INT64_MIN : one_in(c, 3) ? INT64_MAX : (int64_t)any(c) >> below(c, 64);
    default:
        return few;
    }
}

/* A log: often short, with times from `time` on; or none, or as recordings are drawn; now and then damaged. */
static size_t draw_log(struct chance *c, uint32_t time, uint8_t *to)
{
    static const uint8_t packet[] = { 18, 0, 14, 0xE9, 0x40, 1, 2, 3, 4, 0x23, 5, 6, 7, 2 };
    size_t have, n;
    switch (below(c, 16)) {
    case 0:
        return 0;
    case 1:
        return draw_recording(c, to);
    case 2: /* its last block, or its only one, damaged; or a packet with a length that is too small */
        have = make_timed(c, below(c, 2), time, to, REGION / 2);
        n = make_block(c, any_category(c), 1, one_in(c, 2), to + have, 16000);
        if (one_in(c, 12))
            memcpy(to + have, packet, n = sizeof packet);
        else
            damage_block(c, to + have, &n);
        return have + n;
    case 3:
        return make_timed(c, between(c, 4, 9), time, to, REGION - GUARD);
    default:
        return make_timed(c, between(c, 1, 3), time, to, REGION - GUARD);
    }
}

/* A place in a log: mostly a record's start or the end; else a block's head, beside one of these, or any. */
static size_t draw_merge_place(struct chance *c, const uint8_t *log, size_t have)
{
    size_t starts[32], count = 0, place;
    struct plain_met at = plain_next_record(log, have, (struct plain_cursor){ 0, 0, 0, 0 });
    for (; at.met && count < COUNT(starts) - 1; at = plain_next_record(log, have, at.next))
        starts[count++] = at.start;
    starts[count++] = have;
    place = starts[below(c, count)];
    switch (below(c, 16)) {
    case 0:
        return place - 3;
    case 1:
        return place + (one_in(c, 2) ? 1 : (size_t)-1);
    case 2:
        return draw_place(c, have);
    default:
        return place;
    }
}

/* Where an item of the record behind a head starts, or any place near. */
static size_t draw_cut(struct chance *c, const struct plain_head *head, const uint8_t *log, size_t have)
{
    struct plain_cursor behind = head->at;
    behind.place += head->length;
    struct plain_met met = plain_next_record(log, have, behind);
    for (unsigned frn = PLAIN_FRNS; met.met && frn > 0; frn--)
        if (met.starts[frn - 1] && one_in(c, 2))
            return met.block + met.starts[frn - 1];
    return behind.place + below(c, 24);
}

/* One number of a head changed, or two that go together. */
static void damage_head(struct chance *c, struct plain_head *head, const uint8_t *log, size_t have)
{
    size_t few = between(c, 1, 3);
    switch (below(c, 12)) {
    case 0:
        head->length = one_in(c, 2) ? head->length + few : head->length - few;
        break;
    case 1:
        head->length = one_in(c, 2) ? 0 : draw_place(c, have);
        break;
    case 2: /* the block's end cuts the next record */
    case 3:
    case 4:
        head->at.end = draw_cut(c, head, log, have);
        break;
    case 5:
        head->timed = (unsigned)below(c, 256);
        break;
    case 6:
        head->time = one_in(c, 2) ? any(c) >> below(c, 64) : head->time + DAY;
        break;
    case 7: /* the last octets of the log, by any length */
        head->length = have - head->at.place + below(c, 3) - 1;
        head->at.end = have;
        break;
    default:
        head->at = damage_cursor(c, head->at, have);
        break;
    }
}

static void damage_merge(struct chance *c, struct plain_merge *merge, const struct plain_merge *other,
                         struct logs logs)
{
    struct plain_head head = merge->a;
    switch (below(c, 12)) {
    case 0: /* each log's head in the other */
        merge->a = merge->b;
        merge->b = head;
        break;
    case 1:
        merge->turn = one_in(c, 2) ? any(c) >> below(c, 64) : merge->turn + DAY * below(c, 3) + below(c, 3) - 1;
        break;
    case 2:
        *merge = *other;
        break;
    case 3:
        merge->a = other->a;
        break;
    case 4:
        merge->b = other->b;
        break;
    case 5:
        memset(merge, one_in(c, 2) ? 0 : 0xFF, sizeof *merge);
        merge->a.timed = merge->b.timed = merge->a.at.category = merge->b.at.category = 255;
        break;
    case 6:
    case 7:
    case 8:
        damage_head(c, &merge->a, logs.a, logs.a_len);
        break;
    default:
        damage_head(c, &merge->b, logs.b, logs.b_len);
        break;
    }
}

/* One octet of a log changed, mostly in an item that is of no fixed length. */
static void damage_log(struct chance *c, uint8_t *log, size_t have)
{
    size_t at = have ? below(c, have) : 0, seen = 0;
    struct plain_met met = plain_next_record(log, have, (struct plain_cursor){ 0, 0, 0, 0 });
    for (; met.met; met = plain_next_record(log, have, met.next))
        for (unsigned frn = 1; frn <= last_frn(met.category); frn++)
            if (met.starts[frn - 1] && layout_at(met.category, frn)->layout != FIXED && one_in(c, ++seen))
                at = met.block + met.starts[frn - 1] + below(c, 5);
    if (at < have)
        log[at] = one_in(c, 3) ? log[at] | 1 : one_in(c, 2) ? log[at] ^ (1u << below(c, 8)) : (uint8_t)any(c);
}

/* Merges of a run, where the logs are no longer those that were checked. */
static void input_other_logs(struct chance *c, struct logs logs, const struct plain_merge *kept, size_t have)
{
    static uint8_t log_a[REGION], log_b[REGION];
    memcpy(log_a, logs.a, logs.a_len);
    memcpy(log_b, logs.b, logs.b_len);
    for (size_t n = 0; n < 2; n++) {
        struct plain_merge merge = kept[below(c, have)];
        struct plain_merged came[MOST_MERGED];
        damage_log(c, log_a, logs.a_len);
        damage_log(c, log_b, logs.b_len);
        try_next(c, BY_DAMAGED, (struct logs){ log_a, log_b, logs.a_len, logs.b_len }, &merge, came, MOST_MERGED);
    }
}

/* Both logs from their first records to their ends: by the next records of a merge, some at a time, and now and then
 * by steps as well, which must be the same; then damaged merges of that run, and those of the run before; then merges
 * of that run with damaged logs. */
static void input_run(struct chance *c, struct logs logs, int64_t offset)
{
    enum { KEPT = 16 };
    static struct plain_merge kept[KEPT], before[KEPT];
    static size_t have = 1, others = 1;
    struct plain_begun begun = try_begin(c, logs, offset);
    if (begun.fault.number)
        return;
    memcpy(before, kept, sizeof before);
    others = have;
    have = 0;
    struct plain_merge merge = begun.merge;
    struct plain_merged came[MOST_MERGED];
    size_t place_a = logs.a_len ? 3 : 0, place_b = logs.b_len ? 3 : 0;
    bool by_steps = one_in(c, 6);
    for (size_t count = 1, room = 1; count > 0 || room == 0;) {
        kept[have < KEPT ? have++ : below(c, KEPT)] = merge;
        room = below(c, MOST_MERGED + 1);
        count = try_next(c, BY_NEXT, logs, &merge, came, room);
        for (size_t i = 0; i < count && by_steps; i++) {
            struct plain_stepped step = try_step(c, logs, place_a, place_b, offset);
            if (!step.met || step.log != came[i].log || step.start != came[i].at.place ||
                step.length != came[i].length)
                merge_differs("mergerun, otherwise by steps, log A", logs);
            place_a = step.place_a;
            place_b = step.place_b;
        }
    }
    if (by_steps && try_step(c, logs, place_a, place_b, offset).met)
        merge_differs("mergerun, more by steps, log A", logs);
    for (size_t n = 0; n < 6; n++) {
        merge = kept[below(c, have)];
        for (size_t changes = between(c, 1, 2); changes > 0; changes--)
            damage_merge(c, &merge, &before[below(c, others)], logs);
        for (size_t steps = between(c, 1, 2); steps > 0; steps--)
            try_next(c, BY_DAMAGED, logs, &merge, came, below(c, MOST_MERGED + 1));
    }
    input_other_logs(c, logs, kept, have);
}

static void input_merge(struct chance *c)
{
    static uint8_t log_b[REGION];
    uint32_t time = draw_time(c);
    struct logs logs = { octets, log_b, draw_log(c, time, octets), 0 };
    logs.b_len = draw_log(c, draw_time_near(c, time), log_b);
    size_t place_a = draw_merge_place(c, logs.a, logs.a_len);
    try_step(c, logs, place_a, draw_merge_place(c, logs.b, logs.b_len), draw_offset(c));
    input_run(c, logs, draw_offset(c));
}

/* An item's row: one time in three of an extended or compound one. */
static unsigned draw_row(struct chance *c)
{
    for (bool any_item = !one_in(c, 3);;) {
        unsigned row = (unsigned)below(c, COUNT(items));
        if (any_item || has_parts(&items[row]))
            return row;
    }
}

static void input_read(struct chance *c)
{
    unsigned row = draw_row(c), category, reference;
    draw_reference(c, row, &category, &reference);
    bool barred = one_in(c, 4);
    size_t have = make_item(c, row, barred, octets);
    if (barred && one_in(c, 2)) {
        /* as it is */
    } else if (has_parts(&items[row]) && one_in(c, 4)) { /* cut anywhere, often near its start */
        have = below(c, one_in(c, 2) && have > 12 ? 12 : have);
    } else if (one_in(c, 8)) {
        have = below(c, 12);
        for (size_t i = 0; i < have; i++)
            octets[i] = (uint8_t)any(c);
    } else if (!one_in(c, 3))
        damage(c, octets, &have);
    try_read(c, category, reference, octets, have);
}

static int64_t draw_near(struct chance *c, int64_t value)
{
    static const int64_t ends[] = { -4194305, -4194304,  4194303,   4194304,  -8388609, -8388608,  8388607,
                                    8388608,  11059199,  11059200,  32768,    32769,    -8193,     -8192,
                                    8191,     8192,      -32769,    -32768,   32767,    65535,     65536,
                                    255,      256,       -1,        0,        1,        16777215,  16777216,
                                    16777217, -16777216, -16777217, 33554432, 33554433, -33554432, -33554433,
                                    -60,      -61,       6000,      6001,     3,        4,         3600,
                                    3601,     INT64_MIN, INT64_MAX };
    switch (below(c, 5)) {
    case 0:
        return ends[below(c, COUNT(ends))];
    case 1: /* a power of two, or one less, or its negative */
        value = (int64_t)((uint64_t)1 << below(c, 63));
        value = one_in(c, 2) ? value - 1 : value;
        return one_in(c, 4) ? -value : value;
    case 2:
        return value < INT64_MAX ? value + 1 : value;
    case 3:
        return value > INT64_MIN ? value - 1 : value;
    default:
        return (int64_t)any(c);
    }
}

/* Other fields in the place of those from `at` to `end`; how many there then are. */
static size_t put_fields(size_t count, size_t at, size_t end, const int64_t *from, size_t n)
{
    memmove(fields + at + n, fields + end, (count - end) * sizeof *fields);
    memcpy(fields + at, from, n * sizeof *fields);
    return count - (end - at) + n;
}

/* A list of 256 parts that is told as such, or a count that is none; how many fields there then are. */
static size_t bar_count(struct chance *c, const struct part *part, size_t count, size_t at, size_t end)
{
    static const int64_t some[] = { 256, -1, 511, INT64_MAX, -255 };
    static const int64_t zeros[1 + 256 * 8] = { 256 };
    if (one_in(c, 3) && count + COUNT(zeros) <= COUNT(fields))
        return put_fields(count, at, end, zeros, 1 + 256 * fields_of(part));
    fields[at] = some[below(c, COUNT(some))];
    return count;
}

/* Brings the fields of an extended or compound item into a form that they may not have, or exchanges a part that is
 * there for an absent one, or the other way round. What was done, and how many fields there then are. */
static enum form damage_form(struct chance *c, const struct item *item, size_t *count)
{
    static const int64_t zeros[MOST_PARTS + 32];
    int64_t absent[MOST_PARTS];
    for (size_t i = 0; i < MOST_PARTS; i++)
        absent[i] = PLAIN_ABSENT;
    size_t starts[MOST_PARTS + 1], i = below(c, item->count);
    find_parts(item, fields, starts);
    const struct part *part = &item->parts[i];
    size_t at = starts[i], end = starts[i + 1];
    bool there = fields[at] != PLAIN_ABSENT, compound = item->layout == COMPOUND, list = compound && is_list(part);
    size_t inner = at + list + 1, zeroed = list ? 1 : fields_of(part);
    switch (below(c, 6)) {
    case 0:
        if (compound || i < 2)
            break;
        if (!there)
            *count = put_fields(*count, at, end, zeros, zeroed);
        *count = put_fields(*count, starts[i - 1], at, absent, 1);
        return AFTER_ABSENT;
    case 1:
        if (!compound)
            break;
        *count = put_fields(*count, 0, *count, absent, item->count);
        return NO_SUBFIELD;
    case 2:
        if (!list)
            break;
        *count = bar_count(c, part, *count, at, end);
        return BARRED_COUNT;
    case 3:
        if (!list || !there)
            break;
        fields[at] += one_in(c, 2) ? 1 : -1;
        return OTHER_COUNT;
    case 4: /* where no part begins, or where an extended item does */
        if (!there || inner >= end)
            break;
        fields[!compound && i == 0 && one_in(c, 2) ? 0 : between(c, inner, end - 1)] = PLAIN_ABSENT;
        return ABSENT_INSIDE;
    }
    *count = there ? put_fields(*count, at, end, absent, 1) : put_fields(*count, at, end, zeros, zeroed);
    return EXCHANGED;
}

/* As many parts as a list may have, or contents as a length octet tells, or as few; or one less or more. */
static size_t draw_fields_of(struct chance *c, const struct item *item)
{
    size_t each = item->layout == LIST ? fields_of(item->parts) : 1;
    size_t least = item->layout == LIST ? item->parts->least : 2,
           most = item->layout == LIST ? item->parts->most : 254;
    size_t parts = (one_in(c, 3) ? least : most) + below(c, 3);
    return parts == 0 ? 0 : (parts - 1) * each + one_in(c, 6);
}

static void input_write(struct chance *c)
{
    unsigned row = draw_row(c), category, reference;
    const struct item *item = &items[row];
    size_t have = make_item(c, row, false, octets);
    size_t count = plain_read_item(item->category, item->reference, octets, have, fields).count;
    enum form form = AS_IT_IS;
    draw_reference(c, row, &category, &reference);
    if (has_parts(item) && one_in(c, 3))
        form = damage_form(c, item, &count);
    else if (one_in(c, 3))
        for (size_t n = between(c, 1, 2); n > 0 && count > 0; n--) {
            size_t at = below(c, count);
            fields[at] = draw_near(c, fields[at]);
        }
    if ((item->layout == LIST || item->layout == LED) && one_in(c, 6)) {
        count = draw_fields_of(c, item);
        for (size_t i = 0; i < count; i++)
            fields[i] = (int64_t)below(c, 256);
        have = 1 + count * 4;
    }
    if (form == AS_IT_IS && one_in(c, 6)) { /* fewer, or more, than the item has */
        size_t more = one_in(c, 3) ? between(c, 1, 300) : between(c, 1, 2);
        if (one_in(c, 2))
            count -= count < more ? count : more;
        else
            for (; more > 0 && count < COUNT(fields); more--)
                fields[count++] = one_in(c, 2) ? 0 : one_in(c, 4) ? PLAIN_ABSENT : (int64_t)below(c, 256);
    }
    size_t room = one_in(c, 4) ? below(c, have + 1) : one_in(c, 2) ? have : have + below(c, 20);
    for (size_t i = 0; i < room; i++)
        out[i] = (uint8_t)any(c);
    if (try_write(c, category, reference, fields, count, out, room) == 11)
        forms_refused[form]++;
}

static void input_add(struct chance *c)
{
    unsigned category = any_category(c);
    size_t used = make_block(c, category, one_in(c, 3) ? 0 : between(c, 1, 3), one_in(c, 8), out, 16000);
    if (one_in(c, 8))
        damage_block(c, out, &used);
    unsigned message;
    do
        message = draw_type(c);
    while (messages[message].category != category && !one_in(c, 100));
    make_sketch(c, message, one_in(c, 2), &sketch);
    size_t have = sketch.length;
    memcpy(octets, sketch.items, have);
    uint64_t frns = sketch.frns;
    if (one_in(c, 6))
        damage(c, octets, &have);
    if (one_in(c, 8))
        frns = one_in(c, 4) ? 0 : one_in(c, 3) ? any(c) : frns ^ (uint64_t)1 << below(c, 64);
    size_t need = used + 5 + have;
    size_t room = one_in(c, 4) ? below(c, need + 1) : need - below(c, 6) + (one_in(c, 3) ? below(c, 100) : 0);
    if (one_in(c, 30))
        used = one_in(c, 2) ? below(c, room + 10) : room + 1 + (size_t)(any(c) >> below(c, 64)) % (SIZE_MAX - room);
    for (size_t i = used; i < room; i++)
        out[i] = (uint8_t)any(c);
    try_add(c, out, room, used, frns, octets, have);
}

/* A recording that is longer than a block can be: its first steps, and cursors that stand in 65,535 octets of it or
 * in a few more. */
static void input_long_walk(struct chance *c, unsigned category, const uint8_t *large, size_t used)
{
    size_t have = used;
    memcpy(octets, large, used);
    while (have < 65600) {
        size_t n = make_block(c, any_category(c), 3, false, block, 4000);
        memcpy(octets + have, block, n);
        have += n;
    }
    struct plain_cursor at = { 0, 0, 0, 0 };
    for (size_t n = 0; n < 3; n++)
        at = try_walk(c, octets, have, at).next;
    at = (struct plain_cursor){ below(c, 4), 3, 0, category };
    at.end = at.block + 65533 + below(c, 4);
    try_walk(c, octets, have, at);
    at = (struct plain_cursor){ 0, used, used, 0 };
    for (size_t n = 0; n < 3; n++)
        at = try_walk(c, octets, have, at).next;
}

/* Blocks near 65,535 octets, and a record whose length is chosen to end there: the last that fits, and 17. */
static void input_large(struct chance *c, struct chance *w)
{
    unsigned category = any_category(c);
    size_t used = make_block(c, category, 20000, false, out, between(c, 65200, 65535));
    input_long_walk(w, category, out, used);
    size_t to = 65533 + below(c, 6), n = to > used ? to - used : 0;
    if (category == 61) { /* Request for Disconnection: SDPS, type, user, time, report */
        size_t parts = n < 11 ? 1 : n - 10 < 255 ? n - 10 : 255;
        sketch =
            (struct sketch){ .frns = (uint64_t)7 << 60 | (uint64_t)1 << 58 | (uint64_t)1 << 51, .length = 8 + parts };
        sketch.items[2] = 0x12;
        sketch.items[7] = (uint8_t)parts;
    } else if (category == 17) { /* New Node: source, destination, type 30, addresses */
        size_t parts = n < 8 ? 0 : (n - 8) / 3 < 255 ? (n - 8) / 3 : 255;
        sketch = (struct sketch){ .frns = (uint64_t)7 << 60 | (uint64_t)1 << 49, .length = 6 + 3 * parts };
        sketch.items[4] = 30;
        sketch.items[5] = (uint8_t)parts;
    } else { /* Downlink_packet: source, destination, type, address, packet */
        size_t led = n < 13 ? 3 : n - 10 < 255 ? n - 10 : 255;
        sketch =
            (struct sketch){ .frns = (uint64_t)7 << 60 | (uint64_t)1 << 58 | (uint64_t)1 << 54, .length = 8 + led };
        sketch.items[4] = 0x23;
        sketch.items[8] = (uint8_t)led;
    }
    size_t room = one_in(c, 3) ? between(c, used, 65535) : between(c, 65535, 65600);
    memset(out + used, 0x5A, room - used);
    if (one_in(c, 4))
        try_block(c, out, used);
    try_add(c, out, room, used, sketch.frns, sketch.items, sketch.length);
}

/* ---- Exercise sheets */

/* The octets of marks that two octets of length can tell; and of marks that those would tell as a sheet's most. */
enum { MOST_TOLD = 65535, MOST_LIST = MOST_TOLD + 1 + MOST_MARKS * MARK_OCTETS };

static size_t draw_count(struct chance *c)
{
    switch (below(c, 12)) {
    case 0:
        return 0;
    case 1:
        return 1;
    case 2:
        return MOST_MARKS - 1;
    case 3:
    case 4:
        return MOST_MARKS;
    case 5:
        return between(c, 9, MOST_MARKS - 2);
    default:
        return between(c, 2, 8);
    }
}

/* More than a sheet may have: a few more, as many as an octet would count as fewer, or as two octets of length
 * would. */
static size_t draw_too_many(struct chance *c)
{
    static const size_t some[] = { MOST_MARKS + 1, MOST_MARKS + 1, MOST_MARKS + 2, 255, 256, 257, 256 + MOST_MARKS };
    if (one_in(c, 8))
        return between(c, MOST_TOLD_MARKS - 1, MOST_LIST / MARK_OCTETS);
    return one_in(c, 3) ? between(c, MOST_MARKS + 1, MOST_MARKS + 100) : some[below(c, COUNT(some))];
}

/* Marks in `to`, at most `most` octets of them, legal or damaged; how many octets. */
static size_t draw_marks(struct chance *c, size_t most, uint8_t *to)
{
    size_t have = make_marks(c, one_in(c, 12) ? draw_too_many(c) : draw_count(c), to);
    if (one_in(c, 3))
        for (size_t n = between(c, 1, 2); n > 0; n--)
            damage_marks(c, to, &have);
    return have < most ? have : most - below(c, MARK_OCTETS);
}

static int64_t draw_legal_offset(struct chance *c)
{
    for (;;) {
        int64_t offset = draw_offset(c);
        if (-ASTERIX_OFFSET <= offset && offset <= ASTERIX_OFFSET)
            return offset;
    }
}

/* A mark to add or to take out: mostly at or beside one that the sheet has, now and then of no log or station. */
static struct plain_mark draw_mark(struct chance *c, const struct plain_sheet *sheet)
{
    struct plain_mark mark = { (uint32_t)any(c) >> below(c, 32), (unsigned)below(c, 2), (unsigned)below(c, 6),
                               (unsigned)below(c, 256) };
    if (sheet->marks.count > 0 && !one_in(c, 8)) {
        struct plain_mark there = sheet->mark[below(c, sheet->marks.count)];
        mark.place = there.place;
        mark.log = there.log;
        switch (below(c, 6)) {
        case 0:
            mark.place++;
            break;
        case 1:
            mark.place--;
            break;
        case 2:
            mark.log = 1 - mark.log;
            break;
        }
    }
    if (one_in(c, 12))
        mark.log = one_in(c, 2) ? 2 : (unsigned)below(c, 256);
    if (one_in(c, 12))
        mark.station = one_in(c, 2) ? 6 : (unsigned)below(c, 256);
    return mark;
}

/* Room for what needs so many octets: as many, one less, none, a mark more or less, or any. */
static size_t draw_room(struct chance *c, size_t need)
{
    if (need > ASTERIX_SHEET_BYTES + 2 * MARK_OCTETS) /* no sheet is that long */
        need = ASTERIX_SHEET_BYTES;
    switch (below(c, 10)) {
    case 0:
        return 0;
    case 1:
    case 2:
        return need - 1;
    case 3:
        return need < MARK_OCTETS ? 0 : need - MARK_OCTETS;
    case 4:
        return need + MARK_OCTETS;
    case 5:
        return below(c, need + 40);
    default:
        return need;
    }
}

/* A number of where marks lie, instead of another: beside it, near the most that it may be, or one that wraps where
 * it is added to or multiplied. */
static size_t draw_instead(struct chance *c, size_t number)
{
    switch (below(c, 8)) {
    case 0:
        return number + 1;
    case 1:
        return number - 1;
    case 2:
        return SIZE_MAX - below(c, 300);
    case 3:
        return SIZE_MAX / (7 + below(c, 2)) + below(c, 20);
    case 4:
        return MOST_TOLD_MARKS - 1 + below(c, 4);
    case 5:
        return (size_t)any(c) >> below(c, 64);
    default:
        return below(c, 20);
    }
}

/* Where marks may lie: as many as `have` octets hold, of either kind, or with other numbers. */
static struct plain_marks draw_where(struct chance *c, size_t have)
{
    struct plain_marks marks = { SHEET_OCTETS, 0, 0, 0 };
    if (one_in(c, 2)) {
        marks.split = one_in(c, 2) ? 1 : (unsigned)below(c, 256);
        marks.count = have < SHEET_OCTETS + 3 ? 0 : (have - SHEET_OCTETS - 3) / (MARK_OCTETS - 1);
    } else
        marks.count = have < SHEET_OCTETS ? 0 : (have - SHEET_OCTETS) / MARK_OCTETS;
    marks.first = below(c, marks.count + 2);
    for (size_t n = below(c, 3); n > 0; n--)
        switch (below(c, 3)) {
        case 0:
            marks.base = draw_instead(c, marks.base);
            break;
        case 1:
            marks.first = draw_instead(c, marks.first);
            break;
        case 2:
            marks.count = draw_instead(c, marks.count);
            break;
        }
    return marks;
}

/* A mark of those that may lie in these octets, which perhaps end where the marks do, or an octet before. */
static void input_find(struct chance *c, const uint8_t *sheet, size_t have)
{
    struct plain_marks marks = draw_where(c, have);
    size_t end = marks.base + (marks.split ? 3 + 7 * marks.count : 8 * marks.count);
    if (end > 0 && end <= have && one_in(c, 3))
        have = end - below(c, 2);
    size_t n = draw_instead(c, marks.count);
    if (marks.count <= REGION && !one_in(c, 4))
        n = below(c, marks.count + 1);
    try_mark(c, sheet, have, marks, n);
}

static void input_sheet(struct chance *c)
{
    static uint8_t sheet[REGION], marks[REGION];
    size_t length = draw_marks(c, MOST_TOLD, marks), have = make_sheet(draw_legal_offset(c), marks, length, sheet);
    if (one_in(c, 3))
        for (size_t n = between(c, 1, 2); n > 0; n--)
            damage_sheet(c, sheet, &have);
    const struct plain_sheet *old = try_sheet(c, sheet, have);
    struct plain_mark mark = draw_mark(c, old);
    try_change(c, MARK_ADD, sheet, have, old, mark, draw_room(c, have + MARK_OCTETS));
    mark = draw_mark(c, old);
    size_t less = have < SHEET_OCTETS + MARK_OCTETS ? SHEET_OCTETS : have - MARK_OCTETS;
    try_change(c, MARK_REMOVE, sheet, have, old, mark, draw_room(c, less));
    try_change(c, SHEET_EMPTY, sheet, have, old, mark, draw_room(c, SHEET_OCTETS));
    for (size_t n = 0; n < 3; n++)
        input_find(c, sheet, have);
    if (one_in(c, 50)) /* octets for the most marks that there may be, and one more */
        input_find(c, marks, SHEET_OCTETS + 3 + (MOST_TOLD_MARKS + 1) * MARK_OCTETS);
    length = draw_marks(c, MOST_LIST, marks);
    int64_t offset = draw_offset(c);
    try_write_sheet(c, offset, marks, length, draw_room(c, SHEET_OCTETS + length));
}

/* ---- All lengths by FSPEC octet */

static void all_lengths(void)
{
    for (unsigned category = 0; category < 256; category++)
        for (size_t place = 0; place < 12; place++)
            for (unsigned octet = 0; octet < 256; octet++) {
                /* after the eleventh place, one far out */
                size_t at = place < 11 ? place : SIZE_MAX - octet;
                size_t ours = plain_least_length(category, at, octet);
                size_t theirs = asterix_least_length((uint8_t)category, at, (uint8_t)octet);
                lengths++;
                if (ours != theirs) {
                    uint8_t asked[2] = { (uint8_t)category, (uint8_t)octet };
                    snprintf(text, sizeof text, " at octet %zu: plain %zu, library %zu", at, ours, theirs);
                    differs("least_length", asked, 2, text);
                }
            }
}

/* ---- The run */

static bool complete = true;

static void lacks(const char *what, const char *of)
{
    printf("differ: %s%s\n", what, of);
    complete = false;
}

/* A count in a table, and what it lacks: none where there can be some, or some where there can be none. */
static void report_count(size_t count, bool can, const char *row, const char *column)
{
    char line[100];
    if (can || count)
        printf("%16zu", count);
    else
        printf("%16s", "");
    snprintf(line, sizeof line, "%s of %s", row, column);
    if (can && !count)
        lacks("never met: ", line);
    if (!can && count)
        lacks("can't be: ", line);
}

/* The numbers that some calls gave. */
static void report_calls(enum call from, enum call to)
{
    char row[20];
    uint64_t all = 0;
    printf("%-18s", "number");
    for (enum call call = from; call < to; call++) {
        printf("%16s", call_name[call]);
        all |= can_give[call];
        for (unsigned number = 0; number < NUMBERS; number++)
            all |= met[call][number] ? NO(number) : 0;
    }
    printf("\n");
    for (unsigned number = 0; number < NUMBERS; number++) {
        if (!(all & NO(number)))
            continue;
        snprintf(row, sizeof row, number ? "%u" : "accepted", number);
        printf("%-18s", row);
        for (enum call call = from; call < to; call++)
            report_count(met[call][number], can_give[call] & NO(number), row, call_name[call]);
        printf("\n");
    }
}

static void report_sheets(void)
{
    printf("%-18s", "sheets refused");
    for (enum field_at at = 0; at < FIELDS_AT; at++)
        printf("%16s", field_name[at]);
    printf("\n");
    for (enum fault fault = 0; fault < FAULTS; fault++) {
        printf("%-18s", fault_name[fault]);
        for (enum field_at at = 0; at < FIELDS_AT; at++)
            report_count(at_fault[fault][at], can_be[fault] & NO(at), fault_name[fault], field_name[at]);
        printf("\n");
    }
    printf("read_sheet read %zu sheets without marks and %zu full ones\n", sheets_empty, sheets_full);
    if (sheets_empty == 0 || sheets_full == 0)
        lacks("never read: a sheet ", sheets_empty ? "that is full" : "without marks");
    printf("%-18s%16s%16s\n", "find_mark", "none", "found");
    for (enum finding way = 0; way < FINDINGS; way++) {
        printf("%-18s", finding_name[way]);
        report_count(marks_met[way][0], true, "none", finding_name[way]);
        report_count(marks_met[way][1], true, "found", finding_name[way]);
        printf("\n");
    }
}

/* Whether a part can be at fault by 11: it has a spare bit, a printed range or a range of counts. */
static bool can_be_bad(const struct part *part)
{
    bool can = is_list(part) && (part->least > 0 || part->most < 255);
    for (const struct field *f = part->fields; f->high; f++)
        can = can || f->is == SPARE || f->least < f->most;
    return can;
}

static void report_parts(const struct item *item)
{
    char row[40];
    bool compound = item->layout == COMPOUND;
    for (size_t i = 0; i < item->count; i++) {
        snprintf(row, sizeof row, compound ? "I%03u/%03u #%u" : "I%03u/%03u, %u", item->category, item->reference,
                 compound ? item->parts[i].number : (unsigned)i + 1);
        printf("%-18s", row);
        for (enum part_way way = 0; way < PART_WAYS; way++) {
            bool first = !compound && i == 0, absent = way == READ_ABSENT || way == WRITTEN_ABSENT;
            report_count(parts_met[item - items][i][way],
                         way == BAD ? can_be_bad(&item->parts[i]) : !(first && absent), part_name[way], row);
        }
        printf("\n");
    }
}

/* What was met inside of extended and compound items. */
static void report_items(void)
{
    char row[40];
    printf("%-18s", "parts, subfields");
    for (enum part_way way = 0; way < PART_WAYS; way++)
        printf("%16s", part_name[way]);
    printf("\n");
    for (size_t i = 0; i < COUNT(items); i++)
        if (has_parts(&items[i]))
            report_parts(&items[i]);
    printf("%-18s", "read_item");
    for (enum inside in = 0; in < INSIDES; in++)
        printf("%16s", inside_name[in]);
    printf("\n");
    for (size_t i = 0; i < COUNT(items); i++) {
        if (!has_parts(&items[i]))
            continue;
        snprintf(row, sizeof row, "I%03u/%03u", items[i].category, items[i].reference);
        printf("%-18s", row);
        for (enum inside in = 0; in < INSIDES; in++)
            report_count(inside_met[i][in], in == PAST || items[i].layout == COMPOUND, inside_name[in], row);
        printf("\n");
    }
    for (unsigned n = 0; n < 3; n++) {
        printf("%u of an item: check_block %zu, add (new) %zu\n", n + 6, in_blocks[n], in_new_items[n]);
        if (!in_blocks[n] || !in_new_items[n])
            lacks("never met of an item: ", inside_name[n]);
    }
    for (enum form form = 0; form < FORMS; form++) {
        if (!*form_name[form])
            continue;
        printf("write_item refused %zu times: %s\n", forms_refused[form], form_name[form]);
        if (!forms_refused[form])
            lacks("never refused: ", form_name[form]);
    }
}

/* By category: recordings that were accepted, and records. */
static void report_categories(void)
{
    char row[40];
    for (size_t set = 1; set < COUNT(recordings_of); set++) {
        size_t n = 0;
        for (size_t i = 0; i < COUNT(categories); i++)
            if (set >> i & 1)
                n += (size_t)snprintf(row + n, sizeof row - n, " %03u", categories[i].number);
        printf("recordings of%s: %zu\n", row, recordings_of[set]);
        if (!recordings_of[set])
            lacks("never accepted: a recording of", row);
    }
    printf("%-18s", "records of");
    for (enum record_way way = 0; way < RECORD_WAYS; way++)
        printf("%16s", record_name[way]);
    printf("\n");
    for (size_t i = 0; i < COUNT(categories); i++) {
        snprintf(row, sizeof row, "%03u", categories[i].number);
        printf("%-18s", row);
        for (enum record_way way = 0; way < RECORD_WAYS; way++)
            report_count(records_of[i][way], true, record_name[way], row);
        printf("\n");
    }
}

/* The fewest times that a message type was accepted, and refused by 14 and by 15. */
static void report_types(void)
{
    char line[40];
    size_t fewest[3] = { SIZE_MAX, SIZE_MAX, SIZE_MAX };
    for (unsigned i = 0; i < COUNT(messages); i++) {
        const size_t counts[3] = { types_accepted[i], types_refused[i][0], types_refused[i][1] };
        static const char *const never[3] = { "message type never accepted: ", "message type never refused by 14: ",
                                              "message type never refused by 15: " };
        snprintf(line, sizeof line, "%03u of category %03u", messages[i].type, messages[i].category);
        for (unsigned n = 0; n < 3; n++) {
            fewest[n] = counts[n] < fewest[n] ? counts[n] : fewest[n];
            if (!counts[n])
                lacks(never[n], line);
        }
    }
    printf("each of %zu message types: accepted %zu times or more, refused by 14 %zu or more, by 15 %zu or more\n",
           COUNT(messages), fewest[0], fewest[1], fewest[2]);
}

static void report(void)
{
    char line[200];
    report_calls(0, SHEET_READ);
    report_types();
    report_items();
    report_categories();
    report_calls(SHEET_READ, CALLS);
    report_sheets();
    printf("next_record met %zu records and %zu ends\n", records_met, ends_met);
    if (records_met == 0 || ends_met == 0)
        lacks("never met by a walk: ", records_met ? "the end" : "a record");
    for (enum way way = 0; way < WAYS; way++) {
        printf("%-16s", way_name[way]);
        for (enum merging m = 0; m < MERGINGS; m++) {
            if (!(can_meet[way] & NO(m)))
                continue;
            printf("%12s %zu", merging_name[m], merged[way][m]);
            snprintf(line, sizeof line, "%s by %s", merging_name[m], way_name[way]);
            if (!merged[way][m])
                lacks("never met: ", line);
        }
        printf("\n");
    }
    for (unsigned i = 0; i < COUNT(items); i++) {
        snprintf(line, sizeof line, "I%03u/%03u", items[i].category, items[i].reference);
        if (!found[i])
            lacks("never found: ", line);
        if (!read[i])
            lacks("never read: ", line);
        if (!written[i])
            lacks("never written: ", line);
    }
}

static uint64_t fresh_seed(void)
{
    struct timespec now;
    clock_gettime(CLOCK_REALTIME, &now);
    struct chance c = { (uint64_t)now.tv_sec * 1000000000 + (uint64_t)now.tv_nsec };
    return any(&c) >> 16;
}

int main(int argc, char **argv)
{
    uint64_t seed = argc < 2 ? 1718 : strcmp(argv[1], "fresh") == 0 ? fresh_seed() : strtoull(argv[1], NULL, 10);
    size_t inputs = argc < 3 ? 1000000 : (size_t)strtoull(argv[2], NULL, 10);
    const uint64_t half = (uint64_t)1 << 63; /* walks, merges and sheets draw apart */
    struct chance c = { seed }, w = { ~seed }, m = { seed + half }, s = { ~seed + half };
    printf("differ: seed %" PRIu64 ", %zu inputs\n", seed, inputs);
    fflush(stdout);
    open_region(&input);
    open_region(&second);
    open_region(&output);
    for (size_t i = 0; i < COUNT(blank); i++)
        blank[i] = full[i] = (int64_t)(0x7B00000000000000 + i);
    for (size_t i = 0; i < inputs; i++) {
        if (i % 12 == 11) /* two logs, beside the input in turn */
            input_merge(&m);
        if (i % 4 == 3) /* and a sheet */
            input_sheet(&s);
        if (i % 2500 == 2499) {
            input_large(&c, &w);
            continue;
        }
        switch (below(&c, 20)) {
        case 0:
        case 1:
            input_recording(&c, &w);
            break;
        case 2:
        case 3:
        case 4:
            input_read(&c);
            break;
        case 5:
        case 6:
        case 7:
            input_write(&c);
            break;
        case 8:
        case 9:
        case 10:
        case 11:
            input_add(&c);
            break;
        default:
            input_block(&c);
            break;
        }
    }
    all_lengths();
    report();
    printf("differ: seed %" PRIu64 ", %zu inputs, %zu calls and %zu lengths, %zu differences\n", seed, inputs, calls,
           lengths, differences);
    return differences > 0 || !complete;
}
