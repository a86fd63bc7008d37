/* Checking, reading, merging and writing blocks of ASTERIX categories 017, 018 and 061, and exercise sheets: a
 * second, plain implementation, for comparison with the proved one.
 *
 * Written from the documents: category 017 edition 1.3, category 018 edition 1.6, category 061 edition 1.2, the scope
 * paper, W-201, W-203 and W-205 of the later requests, and docs/DECISIONS.md. It shares nothing with the proved
 * code, and was made to be read and not to be fast. Nothing is proved of it. */
#ifndef PLAIN_H
#define PLAIN_H

#include <stdbool.h>
#include <stddef.h>
#include <stdint.h>

enum {
    PLAIN_FRNS = 35,     /* the longest profile's last field reference number */
    PLAIN_FIELDS = 7421, /* most fields of one item: I061/130, with 8 counts, 255 times 29 in lists, and 18 more */
    PLAIN_MARKS = 200    /* most marks of one sheet */
};

/* Among an item's fields, in the place of an extension or a subfield: it is absent. No field has this value. */
#define PLAIN_ABSENT INT64_MIN

/* A refusal: its number, 1 to 23 or 30 to 36, and its place. Number 0 is no refusal. */
struct plain_fault {
    unsigned number;
    size_t place;
};

struct plain_block {
    struct plain_fault fault;
    size_t records;
};

struct plain_recording {
    struct plain_fault fault;
    size_t blocks, records;
};

/* Where a record of a block is, and where its items start, all counted from the block's start. */
struct plain_record {
    struct plain_fault fault;
    size_t start, length;
    size_t starts[PLAIN_FRNS]; /* [FRN - 1]; 0: the item is absent */
    size_t end, count;
};

struct plain_item {
    struct plain_fault fault;
    size_t start, length;
};

/* Where a walk over a recording stands: at `place` of the block that starts at `block` and ends before `end`, all
 * counted from the recording's start. All of it 0: before the first block. */
struct plain_cursor {
    size_t block, place, end;
    unsigned category;
};

/* What a step of a walk met: a fault, a record, or neither, which is the end. A record's start counts from the
 * recording's start; its map, as that of plain_find_record, from its block's. */
struct plain_met {
    struct plain_fault fault;
    bool met;
    unsigned category;
    size_t start, length, block;
    size_t starts[PLAIN_FRNS];
    size_t end, count;
    struct plain_cursor next;
};

/* A step over two logs: a fault, a record, or neither, where both are at their ends. `log`, 0 or 1, is the record's,
 * or that of a log's own fault. The record's start and the places count from the start of their log. */
struct plain_stepped {
    struct plain_fault fault;
    bool met;
    unsigned log;
    size_t start, length;
    size_t place_a, place_b;
};

/* The record of a log that comes next, its length and its time. Length 0: none does. */
struct plain_head {
    struct plain_cursor at;
    size_t length;
    unsigned timed; /* 0: it counts as untimed */
    uint64_t time;
};

/* Two logs that are gone through together; the offset as a number under a day. */
struct plain_merge {
    struct plain_head a, b;
    uint64_t turn;
};

struct plain_begun {
    struct plain_fault fault;
    unsigned log;
    struct plain_merge merge;
};

struct plain_merged {
    unsigned log;
    size_t length;
    struct plain_cursor at;
};

struct plain_fields {
    struct plain_fault fault;
    size_t count;
};

struct plain_length {
    struct plain_fault fault;
    bool in_new; /* of a refused addition: the place lies in the new items */
    size_t length;
};

/* An instructor's mark. */
struct plain_mark {
    uint32_t place; /* in its log */
    unsigned log, station, comment;
};

/* Where marks lie in the octets of a sheet: `count` of them from `base` on, eight octets each. Where `split` is not 0
 * they are seven octets each, without the log: `first` of log 0 from `base` on, then three other octets, then log
 * 1's. */
struct plain_marks {
    size_t base, first, count;
    unsigned split;
};

/* A sheet taken apart: where its marks lie, and the marks themselves, as many as `marks.count` says. */
struct plain_sheet {
    struct plain_fault fault;
    unsigned edition;
    int64_t offset;
    struct plain_marks marks;
    struct plain_mark mark[PLAIN_MARKS];
};

struct plain_found {
    bool found;
    struct plain_mark mark;
};

struct plain_block plain_check_block(const uint8_t *block, size_t have);
struct plain_recording plain_check_recording(const uint8_t *recording, size_t have);
struct plain_record plain_find_record(const uint8_t *block, size_t have, size_t n);
struct plain_item plain_find_item(const uint8_t *block, size_t have, unsigned reference, size_t n);

/* The record at a cursor, or the first of the next block. The end where the cursor stands in no block of the
 * recording. Without a record `next` is the cursor given. */
struct plain_met plain_next_record(const uint8_t *recording, size_t have, struct plain_cursor at);

/* The record that comes next of two logs, from a place in each, with an offset for the times of the second. */
struct plain_stepped plain_merge_step(const uint8_t *a, size_t a_len, const uint8_t *b, size_t b_len, size_t place_a,
                                      size_t place_b, int64_t offset);

/* Both logs checked, and their first records. */
struct plain_begun plain_begin_merge(const uint8_t *a, size_t a_len, const uint8_t *b, size_t b_len, int64_t offset);

/* The next records, at most `room`; how many. Nothing is checked but that a record lies in its log. */
size_t plain_next_merged(const uint8_t *a, size_t a_len, const uint8_t *b, size_t b_len, struct plain_merge *merge,
                         struct plain_merged *out, size_t room);

/* One item alone, and nothing after it: its fields, as many as are counted, at the start of `field`.
 *
 * A list has its parts' fields, a led item its contents. An extended item has, part by part, the part's fields or one
 * PLAIN_ABSENT; a compound item the same for each subfield that is printed, and before the parts of one that is a list
 * their count. */
struct plain_fields plain_read_item(unsigned category, unsigned reference, const uint8_t *item, size_t have,
                                    int64_t field[PLAIN_FIELDS]);

/* The item at the start of `out`, which has `room` octets. A refusal leaves `out` as it was. */
struct plain_length plain_write_item(unsigned category, unsigned reference, const int64_t *field, size_t count,
                                     uint8_t *out, size_t room);

/* One record more in the block that the first `used` octets of `out` are. `set` has the FRNs: FRN f is bit 63 - f.
 * A refusal leaves `out` as it was. */
struct plain_length plain_add_record(uint8_t *out, size_t room, size_t used, uint64_t set, const uint8_t *items,
                                     size_t have);

/* The fixed lengths, summed, of the items that an FSPEC octet names (`place` from 0): a list, a led or a compound item
 * counts 1, an item extended by FX its first part. 0 where the category or the octet is not there. */
size_t plain_least_length(unsigned category, size_t place, unsigned octet);

/* A sheet, and nothing after it. */
struct plain_sheet plain_read_sheet(const uint8_t *sheet, size_t have);

/* Mark n, from 0, of marks that lie somewhere in these octets; whatever stands there. None where the marks have no
 * such one, or are not within the octets, or are not where or as many as a sheet's can be. */
struct plain_found plain_find_mark(const uint8_t *sheet, size_t have, struct plain_marks marks, size_t n);

/* The sheet of an offset and of marks, eight octets each, at the start of `out`, which has `room` octets. Here and
 * below a refusal leaves `out` as it was. */
struct plain_length plain_write_sheet(int64_t offset, const uint8_t *marks, size_t have, uint8_t *out, size_t room);

/* A sheet with one mark more, with one less, and with none, at the start of `out`. */
struct plain_length plain_add_mark(const uint8_t *sheet, size_t have, struct plain_mark mark, uint8_t *out,
                                   size_t room);
struct plain_length plain_remove_mark(const uint8_t *sheet, size_t have, unsigned log, uint32_t place, uint8_t *out,
                                      size_t room);
struct plain_length plain_empty_sheet(const uint8_t *sheet, size_t have, uint8_t *out, size_t room);

#endif
