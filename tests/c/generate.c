/* Drawing inputs: see generate.h. */
#include "generate.h"

#include <string.h>

#include "tables.h"

/* ---- Chance: splitmix64 */

uint64_t any(struct chance *c)
{
    uint64_t x = c->state += 0x9E3779B97F4A7C15;
    x = (x ^ x >> 30) * 0xBF58476D1CE4E5B9;
    x = (x ^ x >> 27) * 0x94D049BB133111EB;
    return x ^ x >> 31;
}

size_t below(struct chance *c, size_t n)
{
    return (size_t)(any(c) % n);
}

size_t between(struct chance *c, size_t a, size_t b)
{
    return a + below(c, b - a + 1);
}

bool one_in(struct chance *c, size_t n)
{
    return below(c, n) == 0;
}

unsigned any_category(struct chance *c)
{
    return categories[below(c, COUNT(categories))].number;
}

/* ---- Legal items, and barred ones */

/* A value of a field's range, its ends often; `barred`: perhaps the next one outside of a printed range. */
static int64_t draw_value(struct chance *c, struct field f, bool barred)
{
    unsigned bits = f.high - f.low + 1;
    int64_t least = f.is == SIGNED ? -((int64_t)1 << (bits - 1)) : 0;
    int64_t most = f.is == SIGNED ? ((int64_t)1 << (bits - 1)) - 1 : ((int64_t)1 << bits) - 1;
    if (f.least < f.most) {
        least = f.least;
        most = f.most;
        if (barred && one_in(c, 2))
            return one_in(c, 2) && least != 0 ? least - 1 : most + 1;
    }
    switch (below(c, 8)) {
    case 0:
        return least;
    case 1:
        return most;
    default:
        return least + (int64_t)(any(c) % (uint64_t)(most - least + 1));
    }
}

static void draw_part(struct chance *c, const struct part *part, bool barred, uint8_t *to)
{
    memset(to, 0, part->octets);
    for (const struct field *f = part->fields; f->high; f++) {
        if (f->is == SPARE && !(barred && one_in(c, 4)))
            continue;
        int64_t value = f->is == SPARE ? (int64_t)1 << below(c, f->high - f->low + 1) : draw_value(c, *f, barred);
        for (unsigned bit = f->low; bit <= f->high; bit++)
            to[part->octets - 1 - (bit - 1) / 8] |= (uint8_t)((value >> (bit - f->low) & 1) << (bit - 1) % 8);
    }
}

/* One part, or a list: mostly of a few parts, seldom of as many as it may have. */
static size_t draw_parts(struct chance *c, const struct part *part, bool barred, uint8_t *to)
{
    if (!is_list(part)) {
        draw_part(c, part, barred, to);
        return part->octets;
    }
    size_t least = part->least > 1 ? part->least : 1;
    bool large = part->octets > 4 || part->number; /* subfields stand together: fewer parts */
    size_t parts = one_in(c, large ? 100 : 20) ? between(c, least, part->most) : between(c, least, large ? 5 : 12);
    if (one_in(c, 6) && part->least == 0)
        parts = 0;
    if (barred && one_in(c, 3))
        parts = part->most < 255 ? part->most + 1 : part->least > 0 ? below(c, part->least) : parts;
    to[0] = (uint8_t)parts;
    for (size_t i = 0; i < parts; i++)
        draw_part(c, part, barred, to + 1 + i * part->octets);
    return 1 + parts * part->octets;
}

/* `barred`: perhaps with FX in the last part that is printed. */
static size_t draw_extended(struct chance *c, const struct item *item, bool barred, uint8_t *to)
{
    bool past = barred && one_in(c, 2);
    size_t n = 0;
    for (size_t i = 0; i < item->count; i++) {
        draw_part(c, &item->parts[i], barred, to + n);
        n += item->parts[i].octets;
        if (i + 1 < item->count ? !past && one_in(c, 2) : !past)
            break;
        to[n - 1] |= 1;
    }
    return n;
}

static uint64_t frn_bit(unsigned frn)
{
    return (uint64_t)1 << (63 - frn);
}

/* The octets of presence bits for a set; how many. */
static size_t put_presence(uint64_t frns, uint8_t *to)
{
    size_t octets = 1;
    for (unsigned frn = 1; frn < 64; frn++)
        if (frns & frn_bit(frn))
            octets = (frn + 6) / 7;
    for (size_t i = 0; i < octets; i++)
        to[i] = (uint8_t)(frns << (7 * i + 1) >> 57 << 1 | (i + 1 < octets));
    return octets;
}

/* Some subfields, at least one: one alone, all, or each as likely as not. */
static uint64_t draw_subfields(struct chance *c, const struct item *item)
{
    uint64_t set = frn_bit(item->parts[below(c, item->count)].number);
    size_t which = below(c, 6);
    for (size_t i = 0; i < item->count; i++)
        if (which == 1 || (which > 1 && one_in(c, 2)))
            set |= frn_bit(item->parts[i].number);
    return set;
}

/* The bit of a subfield that is not printed. */
static uint64_t draw_unprinted(struct chance *c, const struct item *item)
{
    unsigned last = item->parts[item->count - 1].number;
    return frn_bit(item->reference == 240 && one_in(c, 2) ? 2 : (unsigned)between(c, last + 1, 14));
}

/* `barred`: perhaps with FX in its second primary octet, which is the last of each; with a last one that is empty; with
 * the bit of a subfield that is not printed; or with some of these together. */
static size_t draw_compound(struct chance *c, const struct item *item, bool barred, uint8_t *to)
{
    uint64_t set = draw_subfields(c, item);
    size_t faults = barred && one_in(c, 2) ? between(c, 1, 7) : 0;
    if (faults & 1)
        set |= draw_unprinted(c, item);
    size_t n = put_presence(set, to);
    if (faults & 2 && n == 1 && one_in(c, 2))
        to[0] = 0;
    else if (faults & 6) {
        to[0] |= 1;
        to[1] = n == 1 || faults & 2 ? 0 : to[1];
        n = 2;
    }
    if (faults & 4)
        to[n - 1] |= 1;
    for (size_t i = 0; i < item->count; i++)
        if (set & frn_bit(item->parts[i].number))
            n += draw_parts(c, &item->parts[i], barred, to + n);
    return n;
}

static size_t draw_led(struct chance *c, bool barred, uint8_t *to)
{
    size_t octets = one_in(c, 12) ? between(c, 3, 255) : between(c, 3, 9);
    to[0] = (uint8_t)octets;
    for (size_t i = 1; i < octets; i++)
        to[i] = (uint8_t)any(c);
    if (barred && one_in(c, 2))
        to[0] = (uint8_t)below(c, 3);
    return octets;
}

size_t make_item(struct chance *c, unsigned row, bool barred, uint8_t *to)
{
    const struct item *item = &items[row];
    switch (item->layout) {
    case LED:
        return draw_led(c, barred, to);
    case EXTENDED:
        return draw_extended(c, item, barred, to);
    case COMPOUND:
        return draw_compound(c, item, barred, to);
    default:
        return draw_parts(c, item->parts, barred, to);
    }
}

/* ---- Records */

static unsigned row_at(unsigned category, unsigned frn)
{
    return (unsigned)(layout_at(category, frn) - items);
}

static int time_reference(unsigned category)
{
    return find_category(category)->time;
}

void make_sketch(struct chance *c, unsigned message, bool twist, struct sketch *to)
{
    unsigned category = messages[message].category;
    uint8_t type = (uint8_t)messages[message].type;
    uint64_t frns = 0;
    for (unsigned frn = 1; frn <= last_frn(category); frn++) {
        int reference = reference_at(category, frn);
        if (frn <= IN_EVERY || is_in(messages[message].must, reference) ||
            (is_in(messages[message].may, reference) && one_in(c, 2)))
            frns |= frn_bit(frn);
    }
    int fault = NONE;
    bool barred = false;
    if (twist)
        switch (below(c, 8)) {
        case 0: /* one of its items dropped, or one put in */
        case 1:
            for (unsigned tries = 0, put_in = one_in(c, 2); tries < 40; tries++) {
                unsigned frn = (unsigned)between(c, 1, last_frn(category));
                if (reference_at(category, frn) != NONE && ((frns & frn_bit(frn)) == 0) == put_in) {
                    frns ^= frn_bit(frn);
                    break;
                }
            }
            break;
        case 2:
            type = (uint8_t)any(c);
            break;
        case 3: /* a set of any items */
            frns = any(c) & any(c);
            for (unsigned frn = 0; frn < 64; frn++)
                if (reference_at(category, frn) == NONE)
                    frns &= ~frn_bit(frn);
            break;
        case 4: /* an item damaged */
        case 5:
            fault = (int)below(c, 4);
            break;
        case 6: /* an item with a barred value, if one can have any */
            barred = true;
            break;
        }
    to->category = category;
    to->message = message;
    to->frns = frns;
    to->length = 0;
    for (unsigned frn = 1; frn <= last_frn(category); frn++) {
        if (!(frns & frn_bit(frn)))
            continue;
        uint8_t *at = to->items + to->length;
        if (reference_at(category, frn) == time_reference(category))
            to->time = to->length;
        size_t n = make_item(c, row_at(category, frn), barred, at);
        if (frn == type_frn(category))
            at[0] = type;
        if (fault != NONE && fault-- == 0)
            damage(c, at, &n);
        to->length += n;
    }
}

size_t make_record(const struct sketch *from, uint8_t *to)
{
    size_t octets = put_presence(from->frns, to);
    memcpy(to + octets, from->items, from->length);
    return octets + from->length;
}

/* ---- Blocks */

/* Those of 017 and 018 are drawn among each other, whatever other categories there are: so the recordings of both that
 * bench/ times stay the same. */
static unsigned draw_message(struct chance *c, unsigned category)
{
    size_t of_061 = 0;
    while (messages[of_061].category != 61)
        of_061++;
    size_t from = category == 61 ? of_061 : 0, to = category == 61 ? COUNT(messages) : of_061;
    for (;;) {
        unsigned message = (unsigned)(from + below(c, to - from));
        if (messages[message].category == category)
            return message;
    }
}

static void set_len(uint8_t *block, size_t len)
{
    block[1] = (uint8_t)(len / 256);
    block[2] = (uint8_t)len;
}

size_t make_block(struct chance *c, unsigned category, size_t records, bool twist, uint8_t *to, size_t room)
{
    struct sketch sketch;
    uint8_t record[MOST_RECORD_OCTETS + 8];
    size_t len = 3;
    to[0] = (uint8_t)category;
    for (size_t i = 0; i < records; i++) {
        make_sketch(c, draw_message(c, category), twist && one_in(c, records), &sketch);
        size_t n = make_record(&sketch, record);
        if (len + n > room)
            break;
        memcpy(to + len, record, n);
        len += n;
    }
    set_len(to, len);
    return len;
}

/* ---- Recordings with times */

/* Whether records of that type have a time, or may have one, or have the led item of 018. */
static bool is_odd(unsigned message)
{
    const struct message *row = &messages[message];
    int time = time_reference(row->category);
    return is_in(row->must, time) || is_in(row->may, time) || (row->category == 18 && is_in(row->must, 19));
}

static bool is_timed(const struct sketch *sketch)
{
    for (unsigned frn = 1; frn <= last_frn(sketch->category); frn++)
        if (reference_at(sketch->category, frn) == time_reference(sketch->category))
            return sketch->frns & frn_bit(frn);
    return false;
}

size_t make_timed(struct chance *c, size_t records, uint32_t time, uint8_t *to, size_t room)
{
    static struct sketch sketch;
    size_t have = 0;
    while (records > 0) {
        size_t start = have, in_block = between(c, 1, 3);
        unsigned category = any_category(c);
        to[have] = (uint8_t)category;
        have += 3;
        for (; in_block > 0 && records > 0; in_block--, records--) {
            unsigned message = draw_message(c, category);
            for (bool any_type = one_in(c, 4); !any_type && !is_odd(message);)
                message = draw_message(c, category);
            make_sketch(c, message, false, &sketch);
            if (is_timed(&sketch)) {
                uint8_t *octets = sketch.items + sketch.time;
                octets[0] = (uint8_t)(time >> 16);
                octets[1] = (uint8_t)(time >> 8);
                octets[2] = (uint8_t)time;
                time = (time + (uint32_t)below(c, 4)) % (LAST_TIME + 1);
            }
            if (have + MOST_RECORD_OCTETS + 8 > room)
                return start;
            have += make_record(&sketch, to + have);
        }
        set_len(to + start, have - start);
    }
    return have;
}

/* ---- Damage */

static uint8_t draw_octet(struct chance *c, uint8_t old)
{
    static const uint8_t ends[] = { 0, 1, 2, 3, 0x7F, 0x80, 0xFE, 0xFF };
    switch (below(c, 4)) {
    case 0:
        return ends[below(c, COUNT(ends))];
    case 1:
        return (uint8_t)(old + 1);
    case 2:
        return (uint8_t)(old - 1);
    default:
        return (uint8_t)any(c);
    }
}

void damage(struct chance *c, uint8_t *octets, size_t *have)
{
    size_t at = *have ? below(c, *have) : 0, n;
    switch (*have == 0 ? 5 : below(c, 10)) {
    case 0:
    case 1:
    case 2:
        octets[at] ^= (uint8_t)(1u << below(c, 8));
        break;
    case 3:
    case 4:
        octets[at] = draw_octet(c, octets[at]);
        break;
    case 5: /* octets after the end */
        for (n = between(c, 1, 8); n > 0; n--)
            octets[(*have)++] = one_in(c, 2) ? 0 : (uint8_t)any(c);
        break;
    case 6: /* cut anywhere, or near the end */
        *have = one_in(c, 2) ? at : *have - 1;
        break;
    case 7: /* one octet taken out */
        memmove(octets + at, octets + at + 1, *have - at - 1);
        --*have;
        break;
    case 8: /* one put in */
        memmove(octets + at + 1, octets + at, *have - at);
        octets[at] = (uint8_t)any(c);
        ++*have;
        break;
    case 9: /* octets of any kind from there on */
        for (; at < *have; at++)
            octets[at] = (uint8_t)any(c);
        break;
    }
}

void damage_block(struct chance *c, uint8_t *block, size_t *have)
{
    bool mend = true;
    switch (below(c, 12)) {
    case 0: /* LEN */
        if (*have >= 3)
            set_len(block, one_in(c, 2)   ? *have + between(c, 0, 8) - 4
                           : one_in(c, 3) ? below(c, 6)
                                          : below(c, 65536));
        mend = false;
        break;
    case 1: /* CAT */
        if (*have >= 1)
            block[0] = one_in(c, 2) ? (uint8_t)any_category(c) : draw_octet(c, block[0]);
        break;
    case 2: /* presence bits and FX of the first record */
    case 3:
        if (*have >= 4)
            block[3] ^= (uint8_t)(1u << below(c, 8));
        break;
    case 4:
        for (size_t at = 3; at < *have; at++)
            if (!(block[at] & 1)) { /* the first FSPEC's last octet */
                block[at] ^= one_in(c, 2) ? 1 : (uint8_t)(1u << below(c, 8));
                break;
            }
        break;
    case 5: /* an octet more in the first FSPEC, perhaps without a presence bit */
        for (size_t at = 3; at < *have; at++)
            if (!(block[at] & 1)) {
                block[at] |= 1;
                memmove(block + at + 2, block + at + 1, *have - at - 1);
                block[at + 1] = one_in(c, 2) ? 0 : (uint8_t)any(c);
                ++*have;
                break;
            }
        break;
    case 6: /* few octets of any kind */
        *have = below(c, 12);
        for (size_t at = 0; at < *have; at++)
            block[at] = (uint8_t)any(c);
        if (*have >= 1 && !one_in(c, 4))
            block[0] = (uint8_t)any_category(c);
        break;
    case 7: /* a head, and octets of any kind */
        *have = between(c, 3, 60);
        for (size_t at = 3; at < *have; at++)
            block[at] = (uint8_t)any(c);
        break;
    default:
        damage(c, block, have);
        break;
    }
    if (mend && *have >= 3 && !one_in(c, 8))
        set_len(block, *have);
}

/* ---- Recordings */

size_t make_recording(struct chance *c, unsigned category, uint8_t *to, size_t size)
{
    static uint8_t block[65536];
    size_t len = 0;
    for (;;) {
        unsigned of = category ? category : 17 + (unsigned)below(c, 2);
        size_t n = make_block(c, of, between(c, 1, 20), false, block, sizeof block - 1);
        if (len + n > size)
            return len;
        memcpy(to + len, block, n);
        len += n;
    }
}

/* ---- Exercise sheets */

static void put_number(uint8_t *to, size_t octets, uint32_t number)
{
    for (size_t i = octets; i > 0; i--, number >>= 8)
        to[i - 1] = (uint8_t)number;
}

/* Where the marks of a log start: mostly low, or near where an octet of a place runs over. */
static uint64_t draw_first_place(struct chance *c)
{
    static const uint32_t ends[] = { 0x100, 0x10000, 0x1000000, 0x80000000, 0xFFFFFFFF };
    switch (below(c, 8)) {
    case 0:
        return 0;
    case 1:
        return (uint32_t)any(c) >> below(c, 32);
    case 2:
    case 3:
        return ends[below(c, COUNT(ends))] - below(c, 20);
    default:
        return below(c, 300);
    }
}

/* From one mark of a log to the next. */
static uint64_t draw_step(struct chance *c)
{
    if (one_in(c, 2))
        return 1;
    return 1 + (one_in(c, 50) ? any(c) >> 34 : below(c, 200));
}

size_t make_marks(struct chance *c, size_t count, uint8_t *to)
{
    size_t of_a = one_in(c, 6) ? 0 : one_in(c, 5) ? count : below(c, count + 1);
    uint64_t place = 0;
    for (size_t i = 0; i < count; i++) {
        uint8_t *at = to + i * MARK_OCTETS;
        size_t later = (i < of_a ? of_a : count) - 1 - i; /* of the same log: a place is left for each */
        uint64_t most = 0xFFFFFFFF - (uint64_t)later;
        place = i == 0 || i == of_a ? draw_first_place(c) : place + draw_step(c);
        place = place < most ? place : most;
        put_number(at, 4, (uint32_t)place);
        at[4] = i >= of_a;
        at[5] = (uint8_t)below(c, 6);
        at[6] = one_in(c, 4) ? 0 : (uint8_t)any(c);
        at[7] = 0;
    }
    return count * MARK_OCTETS;
}

void damage_marks(struct chance *c, uint8_t *marks, size_t *have)
{
    size_t count = *have / MARK_OCTETS, n = count ? below(c, count) : 0;
    uint8_t *at = marks + n * MARK_OCTETS, *other = n + 1 < count ? at + MARK_OCTETS : marks, kept[MARK_OCTETS];
    switch (count == 0 ? 7 : below(c, 9)) {
    case 0: /* a log that is none */
        at[4] = one_in(c, 2) ? 2 : draw_octet(c, at[4]);
        break;
    case 1: /* the other log */
        at[4] ^= 1;
        break;
    case 2: /* a station that is none */
        at[5] = one_in(c, 2) ? 6 : draw_octet(c, at[5]);
        break;
    case 3:
        at[7] = one_in(c, 2) ? 1 : draw_octet(c, at[7]);
        break;
    case 4: /* two exchanged, mostly neighbours */
        if (one_in(c, 4))
            other = marks + below(c, count) * MARK_OCTETS;
        memcpy(kept, at, MARK_OCTETS);
        memmove(at, other, MARK_OCTETS);
        memcpy(other, kept, MARK_OCTETS);
        break;
    case 5: /* two at one place of one log */
        memmove(other, at, 5);
        break;
    case 6: /* any place */
        put_number(at, 4, (uint32_t)any(c) >> below(c, 32));
        break;
    default:
        damage(c, marks, have);
        break;
    }
}

size_t make_sheet(int64_t offset, const uint8_t *marks, size_t length, uint8_t *to)
{
    static const uint8_t empty[SHEET_OCTETS] = { 1, 0, 1, 1, 2, 0, 4, 0, 0, 0, 0, 3, 0, 0 };
    memcpy(to, empty, sizeof empty);
    put_number(to + 7, 4, (uint32_t)offset);
    put_number(to + 12, 2, (uint32_t)length);
    memcpy(to + SHEET_OCTETS, marks, length);
    return SHEET_OCTETS + length;
}

/* The octets from `at` to `end` become `octets` others. */
static void replace(struct chance *c, uint8_t *sheet, size_t *have, size_t at, size_t end, size_t octets)
{
    memmove(sheet + at + octets, sheet + end, *have - end);
    *have = at + octets + (*have - end);
    for (size_t i = end; i < at + octets; i++)
        sheet[i] = (uint8_t)any(c);
}

/* Just outside of the range, or inside of it by some of its octets only. */
static uint32_t draw_barred_offset(struct chance *c)
{
    static const uint32_t some[] = { 46081,      (uint32_t)-46081, 0x7FFFFFFF, 0x80000000, 0x10000,   0xFFFF0000,
                                     0x0100B400, 0x8000B400,       0x7FFF4C00, 0x00FF4C00, 0x0000FFFF };
    return one_in(c, 8) ? (uint32_t)any(c) : some[below(c, COUNT(some))];
}

void damage_sheet(struct chance *c, uint8_t *sheet, size_t *have)
{
    static const size_t starts[] = { 0, 4, 11 };
    size_t at = starts[below(c, COUNT(starts))], length = 0, n;
    if (*have >= SHEET_OCTETS)
        length = (size_t)sheet[at + 1] * 256 + sheet[at + 2];
    bool whole = *have >= SHEET_OCTETS && *have - at - 3 >= length;
    switch (whole ? below(c, 12) : 11) {
    case 0:
        sheet[at] = one_in(c, 2) ? (uint8_t)below(c, 8) : draw_octet(c, sheet[at]);
        break;
    case 1: /* a length that the body does not have */
        n = at + 1 + below(c, 2);
        sheet[n] = draw_octet(c, sheet[n]);
        break;
    case 2: /* a length, and a body that has it */
        n = one_in(c, 3) ? below(c, 12) : one_in(c, 4) ? length + 256 : length + below(c, 5) - (length < 2 ? 0 : 2);
        replace(c, sheet, have, at + 3, at + 3 + length, n);
        put_number(sheet + at + 1, 2, (uint32_t)n);
        break;
    case 3: /* a field left out */
        replace(c, sheet, have, at, at + 3 + length, 0);
        break;
    case 4: /* the edition */
        sheet[3] = one_in(c, 2) ? (uint8_t)below(c, 5) : draw_octet(c, sheet[3]);
        break;
    case 5:
    case 6:
        put_number(sheet + 7, 4, draw_barred_offset(c));
        break;
    case 7: /* a cut at a field's start, in its head or soon behind it, perhaps with another tag */
    case 8:
        if (one_in(c, 3))
            sheet[at] = (uint8_t)below(c, 10);
        n = at + below(c, 6);
        *have = n < *have ? n : *have;
        break;
    case 9: /* a field after the last */
        n = one_in(c, 2) ? 0 : 12;
        sheet[*have] = (uint8_t)below(c, 7);
        put_number(sheet + *have + 1, 2, (uint32_t)n);
        memset(sheet + *have + 3, 0, n);
        *have += 3 + n;
        break;
    default:
        damage(c, sheet, have);
        break;
    }
}
