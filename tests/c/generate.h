/* Inputs for differ.c and bench/: legal items, records, blocks and recordings of the three categories, exercise
 * sheets, and damaged ones. All comes from one seed. */
#ifndef GENERATE_H
#define GENERATE_H

#include <stdbool.h>
#include <stddef.h>
#include <stdint.h>

struct chance {
    uint64_t state;
};

uint64_t any(struct chance *c);                       /* 64 bits */
size_t below(struct chance *c, size_t n);             /* 0 to n - 1 */
size_t between(struct chance *c, size_t a, size_t b); /* a to b */
bool one_in(struct chance *c, size_t n);

unsigned any_category(struct chance *c); /* 17, 18 or 61 */

enum { MOST_RECORD_OCTETS = 10240 }; /* more than 061's longest has, 6,899 of it I061/130 */

/* A record to be: its message type, its items by FRN, and those items end to end. */
struct sketch {
    unsigned category, message; /* the row of the table of messages that it was drawn from */
    uint64_t frns;              /* FRN f is bit 63 - f */
    size_t length;
    size_t time; /* where its I017/140, I018/002 or I061/020 is, if it has it */
    uint8_t items[MOST_RECORD_OCTETS];
};

/* A legal item of row `item` of the table of items; its length. `barred`: perhaps with a value just outside of a
 * printed range, a spare bit, a count or too small a length octet that is barred, or presence or FX bits that are. */
size_t make_item(struct chance *c, unsigned item, bool barred, uint8_t *to);

/* A legal record of row `message` of the table of messages. `twist`: perhaps with an item dropped or put in,
 * another type, or an item that is damaged or barred. */
void make_sketch(struct chance *c, unsigned message, bool twist, struct sketch *to);

/* The record of a sketch, FSPEC first; its length. */
size_t make_record(const struct sketch *from, uint8_t *to);

/* A block of `records` records, or of those before the first that `room` octets do not hold; its length. */
size_t make_block(struct chance *c, unsigned category, size_t records, bool twist, uint8_t *to, size_t room);

/* A legal recording of `records` records, one to three in a block, most of a type that has a time or a led item.
 * Times start at `time` and go on by a little, over midnight too. At most `room` octets, perhaps without its last
 * blocks; its length. */
size_t make_timed(struct chance *c, size_t records, uint32_t time, uint8_t *to, size_t room);

/* One change of `*have` octets, which may come to be up to 8 more: a bit, an octet, a cut, octets put in or taken
 * out. */
void damage(struct chance *c, uint8_t *octets, size_t *have);

/* The same of a block: also its CAT and LEN, and presence bits. Mostly LEN is made right again, so that the fault
 * is further in. */
void damage_block(struct chance *c, uint8_t *block, size_t *have);

/* A legal recording of some `size` octets, every message type alike often, one to twenty records a block; its
 * length, at most `size`. Of one category; or, where that is 0, each block of 017 or 018. */
size_t make_recording(struct chance *c, unsigned category, uint8_t *to, size_t size);

/* A mark's octets; those of a sheet without marks; the most marks that a sheet may have, and that a length of two
 * octets can tell. */
enum { MARK_OCTETS = 8, SHEET_OCTETS = 14, MOST_MARKS = 200, MOST_TOLD_MARKS = 8191 };

/* Legal marks that rise, as many as asked for, also more than a sheet may have; their length. */
size_t make_marks(struct chance *c, size_t count, uint8_t *to);

/* One change of marks of `*have` octets, which may come to be up to 8 more: a barred value, two exchanged, two at one
 * place, or as `damage` does. */
void damage_marks(struct chance *c, uint8_t *marks, size_t *have);

/* The sheet of an offset and of marks, whatever those are, at most 65,535 octets; its length. */
size_t make_sheet(int64_t offset, const uint8_t *marks, size_t length, uint8_t *to);

/* One change of a sheet of `*have` octets, which may come to be up to 300 more: a field's tag, its length with its body
 * or without, the edition, the offset, a cut in or behind a head, a field left out, octets after, or as `damage` does. */
void damage_sheet(struct chance *c, uint8_t *sheet, size_t *have);

#endif
