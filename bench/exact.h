/* The exact layer of baseline.c: one record, item by item, with the facts of the
 * three categories. For baseline.c and plain.c. */
#ifndef EXACT_H
#define EXACT_H
#include "baseline.h"

#define LIKELY(x) __builtin_expect(!!(x), 1)
#define UNLIKELY(x) __builtin_expect(!!(x), 0)
#define INLINE static inline __attribute__((always_inline))
#define NOINLINE static __attribute__((noinline))

#if __BYTE_ORDER__ != __ORDER_LITTLE_ENDIAN__
#error "little-endian only"
#endif

INLINE uint64_t load64(const uint8_t *p)
{
    uint64_t v;
    __builtin_memcpy(&v, p, 8);
    return v;
}

INLINE uint32_t load32(const uint8_t *p)
{
    uint32_t v;
    __builtin_memcpy(&v, p, 4);
    return v;
}

/* FSPEC octets as a number. */
#define F1(a) ((uint64_t)(a))
#define F2(a, b) (F1(a) | F1(b) << 8)
#define F3(a, b, c) (F2(a, b) | F1(c) << 16)
#define F4(a, b, c, d) (F3(a, b, c) | F1(d) << 24)
#define F5(a, b, c, d, e) (F4(a, b, c, d) | F1(e) << 32)
#define FX_BITS 0x0101010101010101u

#define LAST_TIME 11059199 /* I017/140, I018/002, I061/020: under 24 hours, in 1/128 s */
#define MOST_SPEED 32768   /* I018/034, 5.2.32: 2 NM/s in units of 2^-14 */

INLINE void refuse(struct answer *out, unsigned number, uint64_t place)
{
    *out = (struct answer){ number, place, 0, 0 };
}

enum kind { NONE, FREE, BITS, TIME, LATITUDE, SPEED, LIST, LED, EXTENDED, OF_061 };

/* BITS: a and b are the spare bits of the first and second octet. LIST: octets
 * is a part's length, a the least count. LED: a is the least length octet, which
 * counts itself. EXTENDED: a and b are the spare bits of the first octet and of
 * the extent. OF_061: a says which, of those below. */
struct item {
    uint8_t kind, octets, a, b;
};

struct row {
    uint64_t compulsory, allowed; /* allowed is 0 for an unknown type */
};

struct category {
    unsigned fspec_octets;
    uint64_t unusable;       /* presence bits without a reference */
    uint8_t special[5];      /* by octet: presence bits of items that aren't FREE */
    struct item items[5][7]; /* by octet and FRN in it */
    uint8_t lengths[5][128]; /* by octet and presence: FREE items, summed */
    struct row rows[256];
};

#define SUM1(s, g) (s), (s) + (g)
#define SUM2(s, f, g) SUM1(s, g), SUM1((s) + (f), g)
#define SUM3(s, e, f, g) SUM2(s, f, g), SUM2((s) + (e), f, g)
#define SUM4(s, d, e, f, g) SUM3(s, e, f, g), SUM3((s) + (d), e, f, g)
#define SUM5(s, c, d, e, f, g) SUM4(s, d, e, f, g), SUM4((s) + (c), d, e, f, g)
#define SUM6(s, b, c, d, e, f, g) SUM5(s, c, d, e, f, g), SUM5((s) + (b), c, d, e, f, g)
#define SUMS(a, b, c, d, e, f, g) { SUM6(0, b, c, d, e, f, g), SUM6(a, b, c, d, e, f, g) }

/* Category 017, edition 1.3: 5.3.1 (profile), 5.2 (layouts), 5.3.2 (types). */
static const struct category category_017 = {
    .fspec_octets = 3,
    .unusable = F3(0x00, 0x00, 0x7E),
    .special = { 0x12, 0xCE, 0x00 },
    .items = {
        {
            { FREE, 2, 0, 0 },     /*  1 I017/010 */
            { FREE, 2, 0, 0 },     /*  2 I017/012 */
            { FREE, 1, 0, 0 },     /*  3 I017/000 */
            { LIST, 2, 1, 0 },     /*  4 I017/350 */
            { FREE, 3, 0, 0 },     /*  5 I017/220 */
            { FREE, 2, 0, 0 },     /*  6 I017/221 */
            { TIME, 3, 0, 0 },     /*  7 I017/140 */
        },
        {
            { LATITUDE, 6, 0, 0 }, /*  8 I017/045 */
            { BITS, 2, 0x10, 0 },  /*  9 I017/070 */
            { FREE, 2, 0, 0 },     /* 10 I017/050 */
            { FREE, 4, 0, 0 },     /* 11 I017/200 */
            { BITS, 1, 0x0F, 0 },  /* 12 I017/230 */
            { BITS, 1, 0x3F, 0 },  /* 13 I017/240 */
            { LIST, 3, 0, 0 },     /* 14 I017/210 */
        },
        {
            { FREE, 1, 0, 0 },     /* 15 I017/360 */
        },
    },
    .lengths = {
        SUMS(2, 2, 1, 0, 3, 2, 0),
        SUMS(0, 0, 2, 4, 0, 0, 0),
        SUMS(1, 0, 0, 0, 0, 0, 0),
    },
    .rows = {
        [0] = { F1(0xF0), F1(0xF0) },
        [10] = { F2(0xEA, 0xF8), F2(0xEE, 0xFC) },
        [20] = { F1(0xE8), F1(0xE8) },
        [21] = { F1(0xE8), F1(0xE8) },
        [22] = { F1(0xE8), F1(0xEC) },
        [23] = { F1(0xE8), F1(0xE8) },
        [30] = { F2(0xE0, 0x02), F2(0xE0, 0x02) },
        [31] = { F2(0xE0, 0x02), F2(0xE0, 0x02) },
        [32] = { F2(0xE0, 0x02), F2(0xE0, 0x02) },
        [33] = { F2(0xE0, 0x02), F2(0xE0, 0x02) },
        [110] = { F3(0xE0, 0, 0x80), F3(0xE0, 0, 0x80) },
        [111] = { F3(0xE0, 0, 0x80), F3(0xE0, 0, 0x80) },
    },
};

/* Category 018, edition 1.6: 5.3.1 (profile), 5.2 (layouts), 5.3.2 (types). */
static const struct category category_018 = {
    .fspec_octets = 5,
    .unusable = 0,
    .special = { 0x02, 0xD0, 0xFC, 0x08, 0x50 },
    .items = {
        {
            { FREE, 2, 0, 0 },           /*  1 I018/036 */
            { FREE, 2, 0, 0 },           /*  2 I018/037 */
            { FREE, 1, 0, 0 },           /*  3 I018/000 */
            { FREE, 1, 0, 0 },           /*  4 I018/001 */
            { FREE, 3, 0, 0 },           /*  5 I018/005 */
            { FREE, 4, 0, 0 },           /*  6 I018/016 */
            { LIST, 4, 1, 0 },           /*  7 I018/017 */
        },
        {
            { BITS, 1, 0x80, 0 },        /*  8 I018/018 */
            { LED, 0, 3, 0 },            /*  9 I018/019 */
            { FREE, 2, 0, 0 },           /* 10 I018/028 */
            { BITS, 2, 0x07, 0x07 },     /* 11 I018/030 */
            { FREE, 4, 0, 0 },           /* 12 I018/025 */
            { FREE, 1, 0, 0 },           /* 13 I018/027 */
            { FREE, 7, 0, 0 },           /* 14 I018/029 */
        },
        {
            { TIME, 3, 0, 0 },           /* 15 I018/002 */
            { LIST, 3, 1, 0 },           /* 16 I018/006 */
            { BITS, 1, 0x0F, 0 },        /* 17 I018/007 */
            { EXTENDED, 0, 0x0C, 0x7E }, /* 18 I018/008 */
            { EXTENDED, 0, 0x00, 0x06 }, /* 19 I018/009 */
            { BITS, 1, 0xF8, 0 },        /* 20 I018/010 */
            { FREE, 7, 0, 0 },           /* 21 I018/011 */
        },
        {
            { FREE, 4, 0, 0 },           /* 22 I018/014 */
            { FREE, 4, 0, 0 },           /* 23 I018/015 */
            { FREE, 4, 0, 0 },           /* 24 I018/020 */
            { FREE, 6, 0, 0 },           /* 25 I018/021 */
            { BITS, 4, 0xF8, 0 },        /* 26 I018/022 */
            { FREE, 7, 0, 0 },           /* 27 I018/023 */
            { FREE, 1, 0, 0 },           /* 28 I018/004 */
        },
        {
            { FREE, 6, 0, 0 },           /* 29 I018/031 */
            { BITS, 2, 0x10, 0 },        /* 30 I018/032 */
            { FREE, 2, 0, 0 },           /* 31 I018/033 */
            { SPEED, 2, 0, 0 },          /* 32 I018/034 */
            { FREE, 2, 0, 0 },           /* 33 I018/035 */
            { FREE, 1, 0, 0 },           /* 34 I018/012 */
            { FREE, 1, 0, 0 },           /* 35 I018/013 */
        },
    },
    .lengths = {
        SUMS(2, 2, 1, 1, 3, 4, 0),
        SUMS(0, 0, 2, 0, 4, 1, 7),
        SUMS(0, 0, 0, 0, 0, 0, 7),
        SUMS(4, 4, 4, 6, 0, 7, 1),
        SUMS(6, 0, 2, 0, 2, 1, 1),
    },
    .rows = {
        [0x00] = { F1(0xE0), F4(0xE0, 0, 0, 0x02) },
        [0x01] = { F1(0xF0), F4(0xF0, 0, 0, 0x02) },
        [0x02] = { F1(0xE0), F1(0xE0) },
        [0x03] = { F1(0xF0), F1(0xF0) },
        [0x04] = { F1(0xE0), F1(0xF0) },
        [0x05] = { F1(0xE0), F1(0xE0) },
        [0x10] = { F3(0xE8, 0, 0x10), F5(0xE8, 0, 0x16, 0xC0, 0xFE) },
        [0x11] = { F3(0xE8, 0, 0x28), F5(0xE8, 0, 0x28, 0, 0x02) },
        [0x12] = { F4(0xE0, 0, 0, 0x02), F4(0xE0, 0, 0, 0x02) },
        [0x20] = { F2(0xEC, 0xC0), F2(0xEC, 0xC0) },
        [0x21] = { F1(0xE8), F1(0xEC) },
        [0x22] = { F1(0xF8), F1(0xFA) },
        [0x23] = { F2(0xE8, 0x40), F2(0xF8, 0x40) },
        [0x26] = { F3(0xE0, 0, 0x40), F3(0xE0, 0, 0x40) },
        [0x27] = { F3(0xE0, 0, 0x40), F3(0xE0, 0, 0x40) },
        [0x30] = { F4(0xE0, 0, 0, 0x2C), F4(0xE0, 0, 0, 0x3C) },
        [0x31] = { F1(0xE0), F4(0xE0, 0, 0, 0x20) },
        [0x32] = { F1(0xF0), F4(0xF0, 0, 0, 0x20) },
        [0x34] = { F4(0xE8, 0, 0x80, 0x04), F4(0xE8, 0, 0x80, 0x04) },
        [0x40] = { F2(0xE8, 0x0C), F3(0xE8, 0x3C, 0x80) },
        [0x41] = { F1(0xE8), F2(0xE8, 0x08) },
        [0x42] = { F1(0xF8), F2(0xF8, 0x08) },
        [0x43] = { F3(0xF8, 0x0C, 0x80), F3(0xF8, 0x0E, 0x80) },
    },
};

/* Items of 061 that no other category has the like of. */
enum { AREA, LOWER, UPPER, TRACKS, SELECTED, CYCLE, TAGS, TRIGGERS, SENSORS, SENSOR_ITEMS, CHANGES };

/* Category 061, edition 1.2: 5.3 (profile), 5.2 (layouts), 5.2.1 (types, table 2). */
static const struct category category_061 = {
    .fspec_octets = 4,
    .unusable = F4(0x00, 0x00, 0x00, 0x7E),
    .special = { 0x08, 0xFE, 0xFC, 0x80 },
    .items = {
        {
            { FREE, 2, 0, 0 },              /*  1 I061/010 */
            { FREE, 1, 0, 0 },              /*  2 I061/000 */
            { FREE, 1, 0, 0 },              /*  3 I061/012 */
            { FREE, 1, 0, 0 },              /*  4 I061/015 */
            { TIME, 3, 0, 0 },              /*  5 I061/020 */
            { FREE, 1, 0, 0 },              /*  6 I061/030 */
            { FREE, 1, 0, 0 },              /*  7 I061/045 */
        },
        {
            { BITS, 1, 0x7F, 0 },           /*  8 I061/050 */
            { OF_061, 0, AREA, 0 },         /*  9 I061/060 */
            { OF_061, 0, LOWER, 0 },        /* 10 I061/070 */
            { OF_061, 0, UPPER, 0 },        /* 11 I061/080 */
            { LIST, 1, 1, 0 },              /* 12 I061/100 */
            { OF_061, 0, TRACKS, 0 },       /* 13 I061/130 */
            { OF_061, 0, SELECTED, 0 },     /* 14 I061/210 */
        },
        {
            { OF_061, 0, CYCLE, 0 },        /* 15 I061/220 */
            { OF_061, 0, TAGS, 0 },         /* 16 I061/230 */
            { OF_061, 0, TRIGGERS, 0 },     /* 17 I061/240 */
            { LIST, 2, 0, 0 },              /* 18 I061/330 */
            { OF_061, 0, SENSORS, 0 },      /* 19 I061/350 */
            { OF_061, 0, SENSOR_ITEMS, 0 }, /* 20 I061/360 */
            { FREE, 2, 0, 0 },              /* 21 I061/370 */
        },
        {
            { OF_061, 0, CHANGES, 0 },      /* 22 I061/380 */
        },
    },
    .lengths = {
        SUMS(2, 1, 1, 1, 0, 1, 1),
        SUMS(0, 0, 0, 0, 0, 0, 0),
        SUMS(0, 0, 0, 0, 0, 0, 2),
        SUMS(0, 0, 0, 0, 0, 0, 0),
    },
    .rows = {
        [0x11] = { F1(0xE8), F1(0xEC) },
        [0x12] = { F1(0xE8), F2(0xEC, 0x08) },
        [0x13] = { F1(0xEA), F1(0xEE) },
        [0x14] = { F1(0xE8), F2(0xEC, 0x08) },
        [0x15] = { F1(0xE8), F2(0xEC, 0x08) },
        [0x16] = { F1(0xE8), F2(0xEC, 0x08) },
        [0x21] = { F1(0xE8), F4(0xFC, 0xF6, 0xEE, 0x80) },
        [0x22] = { F1(0xF8), F4(0xFC, 0xF6, 0xEE, 0x80) },
        [0x23] = { F1(0xF8), F3(0xFC, 0, 0x10) },
        [0x24] = { F1(0xF8), F3(0xFC, 0, 0x10) },
        [0x25] = { F1(0xF8), F3(0xFC, 0, 0x10) },
        [0x26] = { F1(0xF8), F3(0xFC, 0, 0x10) },
        [0x27] = { F1(0xE8), F3(0xFC, 0, 0x10) },
        [0x28] = { F1(0xF8), F3(0xFC, 0, 0x10) },
        [0x2F] = { F3(0xF8, 0, 0x10), F3(0xFC, 0, 0x10) },
    },
};

/* A subfield: its octets, or where it is a list those of a part. The spare bits of
 * these, the first octet highest; a range of the number they are, where most isn't 0. */
struct subfield {
    uint8_t list, octets;
    uint32_t spare;
    uint16_t least, most;
};

/* By primary octet and presence bit; the presence bits without a subfield. */
struct compound {
    uint8_t unprinted[2];
    struct subfield subfields[2][7];
};

#define SUB(octets, spare) { 0, octets, spare, 0, 0 }
#define SUBLIST(octets, spare) { 1, octets, spare, 0, 0 }

/* 5.2.13 */
static const struct compound compound_130 = {
    { 0x00, 0x3E },
    {
        { SUBLIST(2, 0x8000), SUBLIST(3, 0), SUBLIST(6, 0), SUBLIST(2, 0), SUBLIST(4, 0), SUBLIST(4, 0), SUBLIST(4, 0) },
        { SUBLIST(2, 0), SUB(4, 0x0004007F) },
    },
};

/* 5.2.17 */
static const struct compound compound_240 = {
    { 0x40, 0x06 },
    {
        { SUB(1, 0x20), SUB(0, 0), SUB(1, 0), SUB(1, 0), SUB(1, 0), SUB(1, 0), SUB(1, 0) },
        { SUB(1, 0), SUB(1, 0), SUB(1, 0), SUB(1, 0), SUB(1, 0) },
    },
};

/* 5.2.22 */
static const struct compound compound_380 = {
    { 0x00, 0x3E },
    {
        { { 0, 2, 0, 4, 3600 }, SUB(1, 0x7F), SUB(2, 0), SUB(2, 0), SUB(2, 0), SUB(2, 0), SUB(2, 0) },
        { SUB(2, 0), SUB(2, 0) },
    },
};

/* Where a record ends, or its fault. */
struct end {
    const uint8_t *at; /* the next record, or the fault's place */
    unsigned number;   /* 0, or the fault's number */
};

#define ENDS(where) ((struct end){ (where), 0 })
#define FAULT(what, where) ((struct end){ (where), (what) })

INLINE int breaks_rule(const struct item *i, const uint8_t *p)
{
    switch (i->kind) {
    case BITS:
        return (p[0] & i->a) || (i->b && (p[1] & i->b));
    case TIME:
        return (p[0] << 16 | p[1] << 8 | p[2]) > LAST_TIME;
    case LATITUDE: /* 24 bits, of which the upper two agree */
        return (p[0] ^ p[0] << 1) & 0x80;
    case SPEED:
        return (p[0] << 8 | p[1]) > MOST_SPEED;
    }
    return 0;
}

INLINE uint32_t number(const uint8_t *p, size_t octets)
{
    uint32_t n = 0;
    for (size_t i = 0; i < octets; i++)
        n = n << 8 | p[i];
    return n;
}

/* One subfield: 9, 11. */
INLINE struct end check_subfield(const struct subfield *s, const uint8_t *const p, const uint8_t *end)
{
    const uint8_t *at = p;
    if (s->list && at == end)
        return FAULT(9, p);
    size_t parts = s->list ? *at++ : 1;
    if ((size_t)(end - at) < parts * s->octets)
        return FAULT(9, p);
    if (LIKELY(!s->spare && !s->most))
        return ENDS(at + parts * s->octets);
    for (; parts > 0; parts--, at += s->octets) {
        uint32_t n = number(at, s->octets);
        if ((n & s->spare) || (s->most && (n < s->least || n > s->most)))
            return FAULT(11, p);
    }
    return ENDS(at);
}

/* 9, 6, 7, 8 of the primary octets, then subfield by subfield 9, 11; all at the item's start. */
INLINE struct end check_compound(const struct compound *k, const uint8_t *const p, const uint8_t *end)
{
    const uint8_t *at = p;
    unsigned octets = 0;
    do {
        if (octets == 2)
            return FAULT(6, p);
        if (at == end)
            return FAULT(9, p);
        octets++;
    } while (*at++ & 1);
    if (at[-1] == 0)
        return FAULT(7, p);
    if ((p[0] & k->unprinted[0]) || (octets == 2 && (p[1] & k->unprinted[1])))
        return FAULT(8, p);
    for (unsigned o = 0; o < octets; o++)
        for (unsigned bits = (p[o] & 0xFEu) << 24; bits;) {
            unsigned index = __builtin_clz(bits);
            bits &= ~(0x80000000u >> index);
            struct end e = check_subfield(&k->subfields[o][index], at, end);
            if (UNLIKELY(e.number))
                return FAULT(e.number, p);
            at = e.at;
        }
    return ENDS(at);
}

/* Parts of one octet without a spare bit. */
INLINE struct end check_selector(const uint8_t *p, const uint8_t *end, size_t parts)
{
    size_t left = end - p, n = 0;
    do {
        if (n == parts)
            return FAULT(6, p);
        if (n == left)
            return FAULT(9, p);
    } while (p[n++] & 1);
    return ENDS(p + n);
}

INLINE struct end check_tags(const uint8_t *p, const uint8_t *end)
{
    size_t left = end - p;
    if (left < 3 || (p[2] & 1 && left < 6))
        return FAULT(9, p);
    if (!(p[2] & 1))
        return p[2] & 0x7E ? FAULT(11, p) : ENDS(p + 3);
    if (p[5] & 1)
        return FAULT(6, p);
    return p[2] & 0x7E || p[5] & 0xFE ? FAULT(11, p) : ENDS(p + 6);
}

/* Points: latitude and longitude, 90 and 180 degrees and no more in units of 180/2^25. */
INLINE struct end check_area(const uint8_t *p, const uint8_t *end)
{
    size_t left = end - p;
    if (left < 1 || left < 1 + (size_t)p[0] * 8)
        return FAULT(9, p);
    if (p[0] < 3)
        return FAULT(11, p);
    for (const uint8_t *at = p + 1, *last = at + p[0] * 8; at < last; at += 8)
        if (number(at, 4) + 0x01000000u > 0x02000000u || number(at + 4, 4) + 0x02000000u > 0x04000000u)
            return FAULT(11, p);
    return ENDS(p + 1 + p[0] * 8);
}

NOINLINE struct end check_of_061(unsigned which, const uint8_t *p, const uint8_t *end)
{
    size_t left = end - p;
    switch (which) {
    case AREA:
        return check_area(p, end);
    case LOWER: /* -15 to 1,500 FL in units of 1/4, two's complement */
    case UPPER:
        if (left < 2)
            return FAULT(9, p);
        return ((number(p, 2) + 60) & 0xFFFF) > 6060 ? FAULT(11, p) : ENDS(p + 2);
    case TRACKS:
        return check_compound(&compound_130, p, end);
    case SELECTED:
        return check_selector(p, end, 4);
    case CYCLE:
        if (left < 5)
            return FAULT(9, p);
        return p[3] & 0xC0 ? FAULT(11, p) : ENDS(p + 5);
    case TAGS:
        return check_tags(p, end);
    case TRIGGERS:
        return check_compound(&compound_240, p, end);
    case SENSORS:
        if (left < 1 || left < 1 + (size_t)p[0] * 2)
            return FAULT(9, p);
        return p[0] > 30 ? FAULT(11, p) : ENDS(p + 1 + p[0] * 2);
    case SENSOR_ITEMS:
        return check_selector(p, end, 3);
    default:
        return check_compound(&compound_380, p, end);
    }
}

/* 9, 10, 9 for the body, 6, 11. */
INLINE struct end check_item(const struct item *i, const uint8_t *p, const uint8_t *end)
{
    size_t left = end - p, need;
    switch (i->kind) {
    case LIST:
        if (left < 1 || left < (need = 1 + (size_t)p[0] * i->octets))
            return FAULT(9, p);
        if (p[0] < i->a)
            return FAULT(11, p);
        return ENDS(p + need);
    case LED:
        if (left < 1)
            return FAULT(9, p);
        if (p[0] < i->a)
            return FAULT(10, p);
        if (left < p[0])
            return FAULT(9, p);
        return ENDS(p + p[0]);
    case EXTENDED:
        if (left < 1 || left < (need = 1 + (p[0] & 1)))
            return FAULT(9, p);
        if (need == 2 && (p[1] & 1))
            return FAULT(6, p);
        if ((p[0] & i->a) || (need == 2 && (p[1] & i->b)))
            return FAULT(11, p);
        return ENDS(p + need);
    case OF_061:
        return check_of_061(i->a, p, end);
    default:
        if (left < i->octets)
            return FAULT(9, p);
        if (breaks_rule(i, p))
            return FAULT(11, p);
        return ENDS(p + i->octets);
    }
}

/* The record at p, of a block that ends at end; p is before end. `type_bit` is the
 * message type's presence bit, `second` the octets of FRN 2 where it comes before. */
INLINE struct end exact_by(const struct category *k, unsigned type_bit, unsigned second, const uint8_t *const p,
                           const uint8_t *end)
{
    /* 5, 6, 7, 8 */
    const uint8_t *at = p;
    uint64_t set = 0;
    unsigned place = 0;
    for (;;) {
        if (at == end)
            return FAULT(5, p);
        unsigned octet = *at++;
        set |= (uint64_t)(octet & 0xFE) << 8 * place++;
        if (!(octet & 1)) {
            if (octet == 0)
                return FAULT(7, p);
            break;
        }
        if (place == k->fspec_octets)
            return FAULT(6, p);
    }
    if (set & k->unusable)
        return FAULT(8, p);

    /* 9, 10, 11, octet by octet. FRNs 1 to 3 are free and fixed in each
     * profile, so the message type's place is known beforehand. */
    const uint8_t *type = at + (set >> 6 & 2) + (set >> 5 & second);
    uint64_t rest = set;
    for (place = 0; rest; rest >>= 8, place++) {
        unsigned octet = rest & 0xFF;
        size_t length = k->lengths[place][octet >> 1];
        if (LIKELY(!(octet & k->special[place]) && length <= (size_t)(end - at))) {
            at += length;
            continue;
        }
        for (unsigned bits = octet << 24; bits;) {
            unsigned index = __builtin_clz(bits);
            bits &= ~(0x80000000u >> index);
            struct end e = check_item(&k->items[place][index], at, end);
            if (UNLIKELY(e.number))
                return e;
            at = e.at;
        }
    }

    /* 12, 13, 14, 15 */
    if (!(set & type_bit))
        return FAULT(12, p);
    const struct row *row = &k->rows[*type];
    if (!row->allowed)
        return FAULT(13, p);
    if (row->compulsory & ~set)
        return FAULT(14, p);
    if (set & ~row->allowed)
        return FAULT(15, p);
    return ENDS(at);
}

/* Of 017 or 018. */
INLINE struct end exact(const struct category *k, const uint8_t *p, const uint8_t *end)
{
    return exact_by(k, 0x20, 2, p, end);
}

/* The records of a block of 061: where it ends, or its fault. */
NOINLINE struct end exact_061(const uint8_t *p, const uint8_t *end, uint64_t *records)
{
    struct end e = ENDS(p);
    for (; e.at < end && !e.number; ++*records)
        e = exact_by(&category_061, 0x40, 0, e.at, end);
    return e;
}

#endif
