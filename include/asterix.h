/* ASTERIX categories 017, 018 and 061: checking, finding, merging two logs, reading and writing; exercise sheets.
 *
 * Category 017, Mode S Surveillance Coordination Function Messages, edition 1.3; category 018, Mode S Datalink
 * Function Messages, edition 1.6; category 061, SDPS Session and Service Control Messages, edition 1.2. Every item
 * and message type of the three. The functions are those of the crate `asterix`, proved to answer as its contracts
 * say for any bytes; this file says the same in words.
 *
 *     tools/library.sh                                         writes target/staticlib/libasterix.a
 *     cc -Iinclude program.c target/staticlib/libasterix.a     x86-64 Linux; C99, C11 or C++
 *
 * In order: what holds of every call; refusals; checking; finding; walking a log; merging two logs; one item; adding
 * a record; lengths; exercise sheets; the items and their fields.
 *
 *
 * What holds of every call
 *
 * - Any bytes may be given. A call always ends; it either does its work or refuses. There is no state between
 *   calls, nothing is allocated, no file is touched and nothing is kept: what was lent is yours again when the
 *   call returns.
 * - A pointer is followed by how many elements it points to. It may not be NULL, even for none; for none any
 *   other pointer does. It must have the alignment of its type.
 * - A buffer that is lent to be written to may not overlap another that is lent to the same call.
 * - A call reads and writes no byte outside of what is lent.
 * - A refused call changes no byte of anything that was lent to it.
 * - Calls from several threads at once are fine where none writes to what another reads or writes.
 *
 * Each answer is a struct by value. Its `number` is 0 where the work was done, and else the refusal's, 1 to 36;
 * its `place` is that of the refusal, and 0 where there is none. Its other members are 0 where it is a refusal
 * (but for `next` of a walk, and the log and the places of a merging).
 *
 * Octets are counted from 0, records of a block from 0, field reference numbers (FRN) from 1, as the documents
 * do.
 */
#ifndef ASTERIX_H
#define ASTERIX_H

#include <stddef.h>
#include <stdint.h>

#ifdef __cplusplus
extern "C" {
#endif

/* ---- Refusals
 *
 *   No.  Given when                                                                    Place
 *    1   fewer than 3 bytes where a block should start                                 block
 *    2   CAT is not 17, 18 or 61                                                       block
 *    3   LEN is under 3, or is not the length lent (in a recording: is more than left)  block
 *    4   LEN is 3: the block has no record                                             block
 *    5   the FSPEC is cut by the block's end                                           record
 *    6   FX is set in the last FSPEC octet that there may be (017: third, 018: fifth,
 *        061: fourth)                                                                  record
 *        or in an item's last printed part, or last printed primary octet              item
 *    7   the last FSPEC octet has no presence bit                                      record
 *        or a compound item's last primary octet has none                              item
 *    8   a presence bit for an FRN that has no item                                    record
 *        or in a primary octet, where no subfield is printed                           item
 *    9   an item is cut by the end, its count, length and primary octets included      item
 *   10   a length octet under the least that its item allows                           item
 *   11   a field outside its range, a spare bit set, a list of too few or many parts   item
 *   12   the record has no message type item                                           record
 *   13   its message type is not one of the document's                                 record
 *   14   an item is absent that this message type must have                            record
 *   15   an item is present that this message type doesn't send                        record
 *   16   the lent output is too short                                                  0
 *   17   the block would pass 65,535 bytes                                             0
 *   18   bytes are left after the last item named, or after the one item read          first of them
 *   19   the block has no record with that number                                      0
 *   20   the record does not have that item                                            record
 *   21   the category has no item with that reference                                  0
 *   22   the clock offset is not from -46,080 to 46,080                                0
 *   23   a place that is neither a record's start nor the log's end                    0
 *   30   a field of a sheet is cut, its head or its body                               field
 *   31   a sheet has no such field, another in its place, or bytes after the last      field
 *   32   a field of another length than what it holds                                  field
 *   33   a barred value in a sheet, or marks that do not rise                          field or mark
 *   34   more marks than a sheet may have                                              field
 *   35   there is a mark already at that log and place                                 0
 *   36   there is no mark at that log and place                                        0
 *
 * "Block", "record" and "item": where that block, record or item starts. Places count from the start of the
 * block or recording that was lent (of two logs: the one that is refused); of one item alone, and of the new items of
 * an added record, from the start of those bytes (there "record" is 0). "Field" is where that field of the sheet
 * starts or would start, "mark" the first mark at fault; in what was to be written both are 0.
 *
 * Blocks are taken in order, the records of a block in order, and the first fault ends the work. At a block's
 * start 1, 2, 3, 4 are tried in that order; in a record 5 and 6 octet by octet, then 7, then 8, then each item
 * in FRN order, then 12, 13, 14, 15. In an item 9, 10, 9 for its body, 11; in one that FX extends 9 part by part,
 * then 6, then 11 over all parts; in a compound one 9 and 6 primary octet by primary octet, then 7, then 8, then
 * each subfield in order, all of it before the next. What else a call tries, and when, is said at the call. */
enum asterix_refusal {
    ASTERIX_HEAD_CUT = 1,
    ASTERIX_CATEGORY = 2,
    ASTERIX_LEN = 3,
    ASTERIX_NO_RECORD = 4,
    ASTERIX_FSPEC_CUT = 5,
    ASTERIX_FSPEC_LONG = 6,
    ASTERIX_FSPEC_EMPTY = 7,
    ASTERIX_FRN_UNUSABLE = 8,
    ASTERIX_ITEM_CUT = 9,
    ASTERIX_LENGTH_OCTET = 10,
    ASTERIX_FIELD = 11,
    ASTERIX_TYPE_ABSENT = 12,
    ASTERIX_TYPE_UNKNOWN = 13,
    ASTERIX_ITEM_MISSING = 14,
    ASTERIX_ITEM_UNSENT = 15,
    ASTERIX_NO_ROOM = 16,
    ASTERIX_BLOCK_FULL = 17,
    ASTERIX_BYTES_LEFT = 18,
    ASTERIX_NO_SUCH_RECORD = 19,
    ASTERIX_ITEM_ABSENT = 20,
    ASTERIX_NO_SUCH_ITEM = 21,
    ASTERIX_OFFSET_RANGE = 22,
    ASTERIX_NO_SUCH_PLACE = 23,
    ASTERIX_SHEET_CUT = 30,
    ASTERIX_SHEET_TAG = 31,
    ASTERIX_SHEET_LENGTH = 32,
    ASTERIX_SHEET_VALUE = 33,
    ASTERIX_SHEET_FULL = 34,
    ASTERIX_MARK_TWICE = 35,
    ASTERIX_NO_SUCH_MARK = 36
};

/* What a refusal number means, in a few words; "" for a number that is none. */
static inline const char *asterix_refusal_text(unsigned number)
{
    static const char *const text[] = {
        "",
        "fewer than three bytes where a block should start",
        "CAT is not 17, 18 or 61",
        "LEN is not the block's length",
        "the block has no record",
        "the FSPEC is cut",
        "FX is set in the last octet or part allowed",
        "the last FSPEC or primary octet has no presence bit",
        "a presence bit for no item or subfield",
        "an item is cut",
        "a length octet is too small",
        "a field or spare bit is outside its rule",
        "the record has no message type",
        "the message type is unknown",
        "a compulsory item is absent",
        "an item is present that the message type doesn't send",
        "the output is too short",
        "the block would pass 65,535 bytes",
        "bytes are left",
        "there is no record with that number",
        "the record does not have that item",
        "the category has no item with that reference",
        "the clock offset is out of range",
        "a place is neither a record's start nor the log's end",
        "",
        "",
        "",
        "",
        "",
        "",
        "a field of the sheet is cut",
        "a field of the sheet is not there, is another, or bytes follow the last",
        "a field of the sheet has another length than what it holds",
        "a value in the sheet is barred, or its marks do not rise",
        "the sheet has too many marks",
        "there is a mark already at that log and place",
        "there is no mark at that log and place"
    };
    return text[number <= 36 ? number : 0];
}

/* ---- Checking */

struct asterix_block_checked {
    uint8_t number;
    size_t place;   /* from the block's start */
    size_t records; /* how many the block has, at least 1; 0 where it is refused */
};

/* Checks a single block: all of `block`, and nothing after it. Refuses by 1 to 15. */
struct asterix_block_checked asterix_check_block(const uint8_t *block, size_t block_len);

struct asterix_recording_checked {
    uint8_t number;
    size_t place; /* from the recording's start */
    size_t blocks, records;
};

/* Checks a recording: blocks end to end and nothing else. An empty one is accepted, with 0 blocks. Refuses by 1
 * to 15. One or two bytes after the last whole block are 1 at their place. */
struct asterix_recording_checked asterix_check_recording(const uint8_t *recording, size_t recording_len);

/* ---- Finding */

enum { ASTERIX_FRNS = 35 };

struct asterix_record_found {
    uint8_t number;
    size_t place;
    /* The record is block + start and so many octets, its FSPEC first. On refusal both are 0. */
    size_t start, length;
    /* The record map: where the record ends, counted from the block's start; how many items it has; and in
     * starts[FRN - 1] where the item with that FRN starts, counted from the block's start, 0 where it is
     * absent. */
    size_t end, count;
    uint16_t starts[ASTERIX_FRNS];
};

/* Finds record `n` of a single block. The whole block is checked first: 1 to 15; then 19. Each call does so anew,
 * and passes the records before the one asked for: to go through all records of a block or a log, walk it
 * (asterix_next_record). */
struct asterix_record_found asterix_find_record(const uint8_t *block, size_t block_len, size_t n);

struct asterix_item_found {
    uint8_t number;
    size_t place;
    /* The item is block + start and so many octets, its count or length octet among them. On refusal both are 0. */
    size_t start, length;
};

/* Finds the item with `reference` (45 for I017/045) in record `n` of a single block. The whole block is checked
 * first, on each call: 1 to 15; then 21, 19, 20. */
struct asterix_item_found asterix_find_item(const uint8_t *block, size_t block_len, uint16_t reference, size_t n);

/* ---- Walking a log
 *
 * The records of a recording one after another, in one pass: each call reads one record and, where it is the first
 * of its block, the block's CAT and LEN. You keep the cursor.
 *
 *     struct asterix_record_met at = asterix_next_record(log, log_len, asterix_start());
 *     for (; at.met; at = asterix_next_record(log, log_len, at.next))
 *         ...                                   the record is log + at.start, at.length octets
 *     if (at.number)
 *         ...                                   the refusal that asterix_check_recording gives of this log
 *
 * Of a log that asterix_check_recording accepts, that meets every record, in order. Of one that it refuses, it meets
 * those before the fault and then that refusal: records of a block are met before it is known that a later one is
 * refused. A program that must use no record of a refused log checks the log first. */

/* Where a walk stands: at `place` of the block that starts at `block` and ends before `end`, of a category. All count
 * from the recording's start. A walk begins at asterix_start(), and goes on from the `next` of each answer. */
struct asterix_cursor {
    size_t block, place, end;
    uint8_t category;
};

/* Before the first block. */
static inline struct asterix_cursor asterix_start(void)
{
    struct asterix_cursor start = { 0, 0, 0, 0 };
    return start;
}

struct asterix_record_met {
    uint8_t number;
    uint8_t met; /* 1: a record was met. 0 with number 0: the end, there is no more. 0 with a number: a refusal */
    uint8_t category;
    size_t place; /* from the recording's start */
    /* The record is recording + start and so many octets, its FSPEC first; its block starts at recording + block.
     * 0 where no record was met. */
    size_t start, length, block;
    /* The record map, as asterix_find_record has it: its places count from the start of the record's block. The item
     * with an FRN is at recording + block + starts[FRN - 1], and the record ends at recording + block + end. */
    size_t end, count;
    uint16_t starts[ASTERIX_FRNS];
    struct asterix_cursor next; /* where the walk goes on; the cursor given where no record was met */
};

/* Meets the record at `cursor`, or the first of the next block where `cursor` is at its block's end. Refuses by 1 to
 * 15; asked again, it refuses again.
 *
 * Any cursor may be given, also one of another recording. One that is not inside a block of this recording by its own
 * numbers (block <= place <= end <= recording_len, with end - block at most 65,535), or is at the recording's end,
 * gets the end. Any other is taken at its word: the octets from `place` to `end` are read as records of `category`,
 * 2 at `place` where it is not 17, 18 or 61, and where `place` is `end` a block is read from there, whatever the
 * category. So three times the same place stands before the block that starts there. */
struct asterix_record_met asterix_next_record(const uint8_t *recording, size_t recording_len,
                                              struct asterix_cursor cursor);

/* ---- Merging two logs
 *
 * The records of two logs, A and B, in one order by their times, I017/140, I018/002 and I061/020, with an offset that
 * is added to B's times for the difference of the clocks. Each log keeps its own order. Of the two records that come
 * next, A's goes first where B's time plus the offset, less A's time, modulo 11,059,200 (a day), is at most 5,529,600
 * (half a day), and else B's. A record without a time goes out at once, A's before B's; a GICB_extraction counts as
 * one, for its I018/002 is the end of a request. A log at its end yields to the other.
 *
 * There are two ways. asterix_merge_step is one step from a place in each log; nothing is kept, so every call checks
 * both whole logs. To go through two logs, begin a merge, which checks both once, and ask for the records, many at a
 * time: each then costs its own octets, and what a call costs is shared by all that it hands out.
 *
 *     struct asterix_merged out[64];
 *     struct asterix_merge_begun begun = asterix_begin_merge(a, a_len, b, b_len, offset);
 *     struct asterix_merge_next next = { 0, begun.merge };
 *     if (begun.number)
 *         ...                                   22, or what asterix_check_recording gives of the log begun.log
 *     else
 *         while ((next = asterix_next_merged(a, a_len, b, b_len, next.merge, out, 64)).count)
 *             for (size_t i = 0; i < next.count; i++)
 *                 ...                           (out[i].log ? b : a) + out[i].at.place, out[i].length octets
 */

/* Offsets are from -46,080 to 46,080, in 1/128 s: six minutes. */
enum { ASTERIX_OFFSET = 46080 };

struct asterix_merge_stepped {
    uint8_t number; /* 1 to 15 of the log that `log` names, 22, 23 */
    uint8_t met;    /* 1: a record comes next. 0 with number 0: both logs are at their ends */
    uint8_t log;    /* of the record, or of a refusal that is a log's own: 0 is A, 1 is B. Else 0 */
    size_t place;   /* of a log's own refusal, from that log's start; else 0 */
    /* The record is that part of its log, its FSPEC first. Both 0 where none comes. */
    size_t start, length;
    /* The new places: of the log that it came from the next record's start, past the next block's head, or the end;
     * of the other the one given. Both those given where no record comes. */
    size_t place_a, place_b;
};

/* Which record comes next, where log A stands at `place_a` and log B at `place_b`: each a record's start, which is
 * its FSPEC (so 3 is a log's first, and 0 none), or the log's length. Refuses, in this order, by 1 to 15 of log A, by
 * 1 to 15 of log B, by 22, and by 23 of either place; also where both are at their ends. Checks both whole logs at
 * every call. */
struct asterix_merge_stepped asterix_merge_step(const uint8_t *a, size_t a_len, const uint8_t *b, size_t b_len,
                                                size_t place_a, size_t place_b, int64_t offset);

/* The record of a log that comes next: the walk's cursor at it, its length and its time. Length 0: the log is at its
 * end. */
struct asterix_merge_head {
    struct asterix_cursor at;
    size_t length;
    uint8_t timed; /* 1: it has a time that counts. Else `time` is 0 */
    uint64_t time;
};

/* Where a merge of two logs stands: both heads, and the offset as a number from 0 to 11,059,199. It is small, yours
 * to keep and to copy; nothing in it is yours to set. */
struct asterix_merge {
    struct asterix_merge_head a, b;
    uint64_t turn;
};

struct asterix_merge_begun {
    uint8_t number;
    uint8_t log;  /* of a log's own refusal: 0 is A, 1 is B. Else 0 */
    size_t place; /* of a log's own refusal, from that log's start; else 0 */
    struct asterix_merge merge;
};

/* Begins a merge before the first records of both logs, which are checked whole, here and not again. Refuses by 1 to
 * 15 of log A, by 1 to 15 of log B, then by 22. */
struct asterix_merge_begun asterix_begin_merge(const uint8_t *a, size_t a_len, const uint8_t *b, size_t b_len,
                                               int64_t offset);

/* A record that came out: its log, 0 is A, 1 is B; its length; and the walk's cursor at it. It starts at at.place of
 * its log; asterix_next_record(log, log_len, at) meets it, with its map. */
struct asterix_merged {
    size_t log;
    size_t length;
    struct asterix_cursor at;
};

struct asterix_merge_next {
    size_t count;               /* how many came out */
    struct asterix_merge merge; /* the merge after them */
};

/* asterix_next_merged with the records as numbers, six to each: log, length, and the cursor's block, place, end and
 * category. Its room is `words` / 6. */
struct asterix_merge_next asterix_next_merged_words(const uint8_t *a, size_t a_len, const uint8_t *b, size_t b_len,
                                                    struct asterix_merge merge, size_t *out, size_t words);

/* The next records of a merge, at most `room`, at the start of `out`; fewer only where both logs are at their ends.
 * The others of `out` stay as they were. Count 0, where there is room: the merge is finished. It refuses nothing and
 * checks nothing anew: the logs should be those that the merge was begun with, unchanged.
 *
 * Any merge may be given with any logs, also one that was damaged or is of other logs. A head is taken at its word
 * where it lies in its log by its own numbers (block <= place <= end <= the log's length; a length that is not 0, and
 * at most end - place); a log with any other head counts as at its end, and that head stays as it is. `timed` is no
 * where it is 0, and comes back as 0 or 1; times and `turn` count modulo a day. Behind a record the log goes on by the
 * lengths of the items that its octets name, to the head's `end` and through the blocks from there on, and is at its
 * end where they name no record of category 17, 18 or 61 that its block holds. So what comes out lies in its log, and
 * every call ends. */
static inline struct asterix_merge_next asterix_next_merged(const uint8_t *a, size_t a_len, const uint8_t *b,
                                                            size_t b_len, struct asterix_merge merge,
                                                            struct asterix_merged *out, size_t room)
{
    /* A struct asterix_merged is six numbers of eight octets; the category is the last one's lowest octet, which
     * comes first on x86-64. */
    const size_t words = sizeof *out / sizeof(size_t), most = (size_t)-1 / words;
    return asterix_next_merged_words(a, a_len, b, b_len, merge, (size_t *)(void *)out,
                                     words * (room < most ? room : most));
}

/* ---- One item
 *
 * An item's fields are whole numbers, from its highest bit down, in the order of the tables at this file's end.
 * Signed fields come with their sign. Spare bits, FX bits, primary octets and a led item's length octet are not
 * among them.
 *
 *   fixed     its fields
 *   list      its parts' fields, one part after another, without the count: how many there are says how many parts
 *   led       its content octets
 *   extended  for each printed part, in order, its fields, or one ASTERIX_ABSENT where the part is absent. The first
 *             part never is, and behind an absent one all are. FX past the printed parts is 6
 *   compound  for each printed subfield, in order, its fields, those of a list behind their count, or one
 *             ASTERIX_ABSENT where the subfield is absent. The primary octets say which are there, at least one
 *
 * So I018/008 without its extent is UDS, DDS, UCS, DCS, EI, ASTERIX_ABSENT, which differs from an extent of zeros;
 * and I061/380 with a refresh period of 60 s alone is 60 and eight times ASTERIX_ABSENT. */

/* What an absent extent or subfield has in place of its fields: once, where it would begin. Anywhere else it is a
 * value like any other, outside every range. */
#define ASTERIX_ABSENT INT64_MIN

/* How many numbers are lent for an item's fields. I061/130 has the most, 7,421. */
enum { ASTERIX_FIELDS = 8192 };

struct asterix_item_read {
    uint8_t number;
    size_t place; /* from the item's first octet */
    size_t count; /* how many numbers the item has, each ASTERIX_ABSENT among them */
};

/* Reads the fields of one item that is all of `item`. Refuses by 21 (also where the category is not 17, 18 or 61),
 * by 6 to 11 as in a record, then by 18. On success the first `count` of `fields` are the item's; the others stay
 * as they were. Any message type is read. */
struct asterix_item_read asterix_read_item(uint8_t category, uint16_t reference, const uint8_t *item,
                                           size_t item_len, int64_t fields[ASTERIX_FIELDS]);

struct asterix_item_written {
    uint8_t number;
    size_t place;  /* always 0 */
    size_t length; /* how many octets the item has */
};

/* Writes one item from its fields, at the start of `out`. Refuses by 21, then 11 (a value outside its range; too few
 * or too many numbers, or a count that those behind it do not bear out; an extent behind an absent one; a compound
 * item without a subfield), then 16. On success the first `length` of `out` are the item; the others stay as they
 * were. Any message type is written. */
struct asterix_item_written asterix_write_item(uint8_t category, uint16_t reference, const int64_t *fields,
                                               size_t fields_len, uint8_t *out, size_t out_len);

/* ---- Adding a record */

struct asterix_record_added {
    uint8_t number;
    uint8_t in_new; /* where the place is: 0 in the old block, 1 in the new items */
    size_t place;
    size_t length; /* the block's new length, which is its new LEN */
};

/* Adds a record to the block that the first `used` octets of `out` are. A new block is begun as CAT, 00, 03
 * with `used` 3.
 *
 * `frns` is the set of the new record's items: the sum of asterix_frn(FRN) of each. `items` has those items end
 * to end in FRN order, without an FSPEC, and nothing else.
 *
 * Refusals in the old block (`in_new` 0): 16 at 0 where `used` is more than `out_len`; then the octets in use
 * are checked as a single block, but a LEN of 3 is allowed. In the new record (`in_new` 1): 7 for an empty set,
 * 8 for an FRN without an item, 6 to 11 of the items, 18, 12 to 15, then 17, then 16; their places count from
 * the start of `items`, and are 0 but for those of an item and 18.
 *
 * On success the record, FSPEC first, follows the old ones, LEN is the new length, and no other octet of `out`
 * changes. */
struct asterix_record_added asterix_add_record(uint8_t *out, size_t out_len, size_t used, uint64_t frns,
                                               const uint8_t *items, size_t items_len);

/* The set with one FRN. FRNs above 63 count as 63, which no category has. */
static inline uint64_t asterix_frn(unsigned frn)
{
    return (uint64_t)1 << (frn < 63 ? 63 - frn : 0);
}

/* ---- Lengths */

/* The sum of the least lengths of the items that one FSPEC octet names: a fixed item its length, an extended one
 * that of its first part (I061/230: 3, any other: 1), a list, a led or a compound one 1. `place` is the octet's, the
 * first is 0; its FX bit and the bits of FRNs without an item add nothing. 0 where the category has no such octet, or
 * is not 17, 18 or 61. */
size_t asterix_least_length(uint8_t category, size_t place, uint8_t octet);

/* ---- Exercise sheets
 *
 * An instructor's marks of an exercise, and the clock offset of its second log. A sheet is three fields and nothing
 * after them, each a tag of one byte, a length of two and so many bytes; numbers have their high byte first:
 *
 *   tag 1  1 byte       the edition, 1
 *   tag 2  4 bytes      the clock offset, two's complement, -46,080 to 46,080 in 1/128 s
 *   tag 3  8 each       the marks: place in the log (4), log 0 or 1, station 0 to 5, any comment code, zero
 *
 * Marks rise by log and then by place, no two at one log and place; there are at most 200, perhaps none. So the same
 * marks and offset have one sheet, of 14 + 8 n bytes.
 *
 *     struct asterix_sheet_read read = asterix_read_sheet(sheet, sheet_len);
 *     if (read.number)
 *         ...                                   refused
 *     for (size_t i = 0; i < read.marks.count; i++)
 *         ...                                   asterix_find_mark(sheet, sheet_len, read.marks, i).mark
 */

/* The most marks; the stations; the bytes of a mark, as tag 3 has it; and of the longest sheet. */
enum {
    ASTERIX_MARKS = 200,
    ASTERIX_STATIONS = 6,
    ASTERIX_MARK_BYTES = 8,
    ASTERIX_SHEET_BYTES = 14 + ASTERIX_MARKS * ASTERIX_MARK_BYTES
};

struct asterix_mark {
    uint32_t place; /* in its log; that a record starts there is not asked */
    uint8_t log;    /* 0 is A, 1 is B */
    uint8_t station, comment;
};

/* Where the marks of a sheet lie in it, and how many they are. It is yours to keep; nothing but `count` means
 * something to you, and nothing in it is yours to set. */
struct asterix_marks {
    size_t base, first, count;
    uint8_t split;
};

struct asterix_sheet_read {
    uint8_t number;
    uint8_t edition;
    size_t place; /* from the sheet's start */
    int64_t offset;
    struct asterix_marks marks;
};

/* Reads a sheet that is all of `sheet`, in one pass. Refuses field by field: 31 where nothing is left, 30 where its
 * head or its body is cut, 31 for another tag, 32, then in the marks 34, then 33; and 31 for bytes after the last
 * field. */
struct asterix_sheet_read asterix_read_sheet(const uint8_t *sheet, size_t sheet_len);

struct asterix_mark_found {
    uint8_t found; /* 1: the mark is there. Else 0, and so is all of `mark` */
    struct asterix_mark mark;
};

/* The mark with a number, counted from 0, of a sheet that was read; `marks` is from that reading. None where `n` is
 * not below marks.count. A call costs the same whatever `n` is.
 *
 * Any bytes and any `marks` may be given: there is no mark where they do not lie in these bytes by their own numbers
 * (base at most 14, count at most 8,191, base + 8 * count at most sheet_len; where `split` is not 0, base + 3 +
 * 7 * count), and else what is found is what stands there, legal or not. */
struct asterix_mark_found asterix_find_mark(const uint8_t *sheet, size_t sheet_len, struct asterix_marks marks,
                                            size_t n);

struct asterix_sheet_written {
    uint8_t number;
    size_t place;
    size_t length; /* of the sheet that was written */
};

/* Writes the sheet of an offset and marks, at the start of `out`. The marks are lent as tag 3 has them, 8 bytes each,
 * in order (asterix_put_mark). Refuses, at 0, by 34 (201 whole marks or more); by 33 (the offset, a mark, marks that do
 * not rise, a last byte that is not zero, a `marks_len` that 8 does not divide); then by 16. The other bytes of `out`
 * stay as they were. */
struct asterix_sheet_written asterix_write_sheet(int64_t offset, const uint8_t *marks, size_t marks_len,
                                                 uint8_t *out, size_t out_len);

/* The bytes of a mark as tag 3 has them. */
static inline void asterix_put_mark(struct asterix_mark mark, uint8_t bytes[ASTERIX_MARK_BYTES])
{
    bytes[0] = (uint8_t)(mark.place >> 24);
    bytes[1] = (uint8_t)(mark.place >> 16);
    bytes[2] = (uint8_t)(mark.place >> 8);
    bytes[3] = (uint8_t)mark.place;
    bytes[4] = mark.log;
    bytes[5] = mark.station;
    bytes[6] = mark.comment;
    bytes[7] = 0;
}

/* A changed sheet goes to the start of a second buffer, `out`, whose other bytes stay as they were; `sheet` is only
 * read. Each refuses first as asterix_read_sheet does, at its places, and then at 0. */

/* The sheet with one mark more, where it belongs. Then refuses by 33 (the mark), 35, 34, 16. */
struct asterix_sheet_written asterix_add_mark(const uint8_t *sheet, size_t sheet_len, struct asterix_mark mark,
                                              uint8_t *out, size_t out_len);

/* The sheet without its mark at a log and place. Then refuses by 36, 16. */
struct asterix_sheet_written asterix_remove_mark(const uint8_t *sheet, size_t sheet_len, uint8_t log, uint32_t place,
                                                 uint8_t *out, size_t out_len);

/* The sheet without its marks; the offset stays. Then refuses by 16. */
struct asterix_sheet_written asterix_empty_sheet(const uint8_t *sheet, size_t sheet_len, uint8_t *out,
                                                 size_t out_len);

/* ---- The items and their fields
 *
 * Ranges that the bits alone don't give are in brackets. "each": of each part of a list. "extent": a part that may be
 * absent.
 *
 * Category 017. FSPEC of at most 3 octets; FRN 16 to 21 have no item.
 *
 *   FRN  Item  Octets      Fields
 *     1  010   2           SAC, SIC of the source
 *     2  012   2           SAC, SIC of the destination
 *     3  000   1           message type: 0, 10, 20, 21, 22, 23, 30, 31, 32, 33, 110, 111
 *     4  350   1 + 2 each  SAC, SIC each [at least one part]
 *     5  220   3           aircraft address
 *     6  221   2           duplicate address reference number
 *     7  140   3           time of day, 1/128 s [0 to 11,059,199]
 *     8  045   6           latitude [-4,194,304 to 4,194,303], longitude; signed, 180/2^23 degree
 *     9  070   2           V, G, L, Mode 3/A code (12 bits)
 *    10  050   2           V, G, altitude; signed, 25 ft
 *    11  200   4           speed, 2^-14 NM/s; heading, 360/2^16 degree
 *    12  230   1           CA, SI (0: SI capable, 1: not)
 *    13  240   1           CST, FLT
 *    14  210   1 + 3 each  aircraft address each [may be empty]
 *    15  360   1           state
 *
 * Category 018. FSPEC of at most 5 octets; every FRN has an item.
 *
 *   FRN  Item  Octets      Fields
 *     1  036   2           SAC, SIC of the source
 *     2  037   2           SAC, SIC of the destination
 *     3  000   1           message type, hexadecimal: 00 to 05, 10 to 12, 20 to 23, 26, 27, 30 to 32, 34, 40 to 43
 *     4  001   1           CAUSE, DIAG
 *     5  005   3           Mode S address
 *     6  016   4           packet number
 *     7  017   1 + 4 each  packet number each [at least one part]
 *     8  018   1           PR, PT
 *     9  019   3 to 255    the Mode S packet's octets, 2 to 254 of them
 *    10  028   2           GICB periodicity, s
 *    11  030   2           priority, PC, AU, NE, RD
 *    12  025   4           GICB number
 *    13  027   1           BDS code
 *    14  029   7           GICB extracted (56 bits)
 *    15  002   3           time of day, 1/128 s [0 to 11,059,199]
 *    16  006   1 + 3 each  Mode S address each [at least one part]
 *    17  007   1           UM, DM, UC, DC
 *    18  008   1 or 2      UDS, DDS, UCS, DCS, EI; extent: IC
 *    19  009   1 or 2      SR, AR, ER, FR, MR, PR, CR; extent: ID, MA, SP, HG, HD
 *    20  010   1           COM
 *    21  011   7           capability report (56 bits)
 *    22  014   4           RHO, 1/256 NM; THETA, 360/2^16 degree
 *    23  015   4           X, Y; signed, 1/128 NM
 *    24  020   4           broadcast number
 *    25  021   6           priority, power, duration in s, coverage (32 bits)
 *    26  022   4           prefix (27 bits)
 *    27  023   7           broadcast (56 bits)
 *    28  004   1           former, current II code
 *    29  031   6           identity (48 bits)
 *    30  032   2           V, G, L, Mode 3/A code (12 bits)
 *    31  033   2           V, G, flight level; signed, 25 ft
 *    32  034   2           ground speed, 2^-14 NM/s [0 to 32,768]
 *    33  035   2           heading, 360/2^16 degree
 *    34  012   1           FS, CQF (0 not supported, 127 undefined)
 *    35  013   1           CQF calculation method
 *
 * Category 061. FSPEC of at most 4 octets; FRN 23 to 28 have no item.
 *
 *   FRN  Item  Octets      Fields
 *     1  010   2           SAC, SIC of the SDPS
 *     2  000   1           message type, FAM, NAT: 1, 1 to 6; 2, 1 to 8; 2, 15
 *     3  012   1           user identification
 *     4  015   1           service identification
 *     5  020   3           time of message, 1/128 s [0 to 11,059,199]
 *     6  030   1           batch number
 *     7  045   1           application version number
 *     8  050   1           DGA
 *     9  060   1 + 8 each  latitude [-16,777,216 to 16,777,216], longitude [-33,554,432 to 33,554,432] each; signed,
 *                          180/2^25 degree [at least three parts]
 *    10  070   2           lower limit; signed, 1/4 FL [-60 to 6,000]
 *    11  080   2           upper limit; signed, 1/4 FL [-60 to 6,000]
 *    12  100   1 + 1 each  CODE each [at least one part]
 *    13  130   compound    track selector: nine subfields, below
 *    14  210   1 to 4      N1 to N7; extents: N8 to N14, N15 to N21, N22 to N28
 *    15  220   5           SD, scanning period, batch period, update period, extra delay, MAXFLOW
 *    16  230   3 or 6      MSAC, MSIC, NOP; extent: BSAC, BSIC
 *    17  240   compound    triggering criteria for aperiodical services: eleven subfields, below
 *    18  330   1 + 2 each  CODE (16 bits) each [may be empty]
 *    19  350   1 + 2 each  SAC, SIC each [at most 30 parts, may be empty]
 *    20  360   1 to 3      N1 to N7; extents: N8 to N14, N15 to N21
 *    21  370   2           update period, s
 *    22  380   compound    aperiodical characteristics of sensor information service: nine subfields, below
 *
 * The subfields of its compound items, named as the bits of the primary octets are. Their lists may be empty.
 *
 *   130  TNS               list: track number (15 bits) each
 *        AAS               list: aircraft address each
 *        AIS               list: eight characters of 6 bits each
 *        CFS               list: W1, W2, W3, W4, Mode 3/A code (12 bits) each
 *        DPS, DTS, ATS     each a list: four characters of 8 bits each
 *        CCS               list: CENTRE, POSITION each
 *        TCS               SIM, CSR, PSR, SSR, MDS, ADS, VALT, FPC, CNF, SPI, GAT/OAT, IFR, VFR, CFR, RVSM, FRI/FOE,
 *                          ME, MI
 *   240  DPF               TLF, TNB, PLN, M3A, COR, SPE, MOF. Subfield 2 is spare and has no place
 *        RCT, PT, RTT, TAT, GST, LAT, AT, FK, RP, MNP      one number of 8 bits each
 *   380  RP                refresh period, s [4 to 3,600]
 *        DP                SSC
 *        TSB, SRB, SGB, SAB, PRB, PGB, PAB                 one threshold of 16 bits each
 */

#ifdef __cplusplus
}
#endif

#endif
