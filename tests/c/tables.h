/* The tables of the three categories, for plain.c, generate.c and differ.c: the items' layouts and fields (section 5.2
 * of each document), the profiles (5.3.1; 5.3 of 061) and the message types (5.3.2; 5.2.1 of 061). Transcribed from
 * category 017 edition 1.3, category 018 edition 1.6 and category 061 edition 1.2, under docs/DECISIONS.md where those
 * leave a choice or lost a figure. */
#ifndef TABLES_H
#define TABLES_H

#include <stdbool.h>
#include <stddef.h>
#include <stdint.h>

#define COUNT(table) (sizeof(table) / sizeof *(table))

/* ---- The items: section 5.2 of each document */

/* A field, by the numbers that the document gives its highest and lowest bit; the last bit of its part is 1. */
struct field {
    unsigned high, low;
    enum { NUMBER, SIGNED, SPARE } is;
    int64_t least, most; /* a printed range, where least < most */
};

/* Octets that stand together: a fixed item, a part of a list, of an item that FX bits extend, or a subfield. */
struct part {
    unsigned octets;
    unsigned least, most;       /* of a list: how many its count may say that there are; 0, 0: one, without a count */
    unsigned number;            /* of a subfield: the document's, which is that of its bit in the primary octets */
    const struct field *fields; /* until a field with high 0; FX is no field */
};

enum layout {
    FIXED,    /* its one part */
    LIST,     /* a count, and that many parts */
    LED,      /* a length octet that counts itself, at least 3, and contents */
    EXTENDED, /* its first part, and each next one where FX, the last bit of the one before, is set */
    COMPOUND, /* primary octets of presence bits, and the subfields that they name */
};

struct item {
    unsigned category, reference;
    enum layout layout;
    unsigned count; /* how many parts are printed */
    const struct part *parts;
};

#define FIELDS(...) (const struct field[]) { __VA_ARGS__, { 0 } }
#define PARTS(...) COUNT(((const struct part[]){ __VA_ARGS__ })), (const struct part[]){ __VA_ARGS__ }

#define ITEM(category, reference, layout, octets, ...) { category, reference, layout, PARTS(PART(octets, __VA_ARGS__)) }
#define LISTED(category, reference, least, most, octets, ...) \
    { category, reference, LIST, PARTS({ octets, least, most, 0, FIELDS(__VA_ARGS__) }) }
#define EXTENDABLE(category, reference, ...) { category, reference, EXTENDED, PARTS(__VA_ARGS__) }
#define COMPOSED(category, reference, ...) { category, reference, COMPOUND, PARTS(__VA_ARGS__) }

#define PART(octets, ...) { octets, 0, 0, 0, FIELDS(__VA_ARGS__) }
#define SUBFIELD(number, octets, ...) { octets, 0, 0, number, FIELDS(__VA_ARGS__) }
#define SUBLIST(number, octets, ...) { octets, 0, 255, number, FIELDS(__VA_ARGS__) }

#define BITS(high, low) { high, low, NUMBER, 0, 0 }
#define BIT(at) { at, at, NUMBER, 0, 0 }
#define UPTO(high, low, most) { high, low, NUMBER, 0, most }
#define FROM(high, low, least, most) { high, low, NUMBER, least, most }
#define TWOS(high, low) { high, low, SIGNED, 0, 0 }
#define RANGE(high, low, least, most) { high, low, SIGNED, least, most }
#define ZERO(high, low) { high, low, SPARE, 0, 0 }
#define SEVEN BIT(8), BIT(7), BIT(6), BIT(5), BIT(4), BIT(3), BIT(2)

/* 24 hours in units of 1/128 s, less one. */
#define LAST_TIME (24 * 60 * 60 * 128 - 1)

static const struct item items[] = {
    /* category 017 */
    ITEM(17, 0, FIXED, 1, BITS(8, 1)),                                                   /* 5.2.1  message type */
    ITEM(17, 10, FIXED, 2, BITS(16, 9), BITS(8, 1)),                                     /* 5.2.2  SAC, SIC */
    ITEM(17, 12, FIXED, 2, BITS(16, 9), BITS(8, 1)),                                     /* 5.2.3  SAC, SIC */
    ITEM(17, 45, FIXED, 6, RANGE(48, 25, -4194304, 4194303), TWOS(24, 1)),               /* 5.2.4  latitude, longitude */
    ITEM(17, 50, FIXED, 2, BIT(16), BIT(15), TWOS(14, 1)),                               /* 5.2.5  V, G, altitude */
    ITEM(17, 70, FIXED, 2, BIT(16), BIT(15), BIT(14), ZERO(13, 13), BITS(12, 1)),        /* 5.2.6  V, G, L, code */
    ITEM(17, 140, FIXED, 3, UPTO(24, 1, LAST_TIME)),                                     /* 5.2.7  time of day */
    ITEM(17, 200, FIXED, 4, BITS(32, 17), BITS(16, 1)),                                  /* 5.2.8  speed, heading */
    LISTED(17, 210, 0, 255, 3, BITS(24, 1)),                                             /* 5.2.9  addresses: REP = 0 is allowed */
    ITEM(17, 220, FIXED, 3, BITS(24, 1)),                                                /* 5.2.10 address */
    ITEM(17, 221, FIXED, 2, BITS(16, 1)),                                                /* 5.2.11 DRN */
    ITEM(17, 230, FIXED, 1, BITS(8, 6), BIT(5), ZERO(4, 1)),                             /* 5.2.12 CA, SI, as the figure has it */
    ITEM(17, 240, FIXED, 1, BIT(8), BIT(7), ZERO(6, 1)),                                 /* 5.2.13 CST, FLT */
    LISTED(17, 350, 1, 255, 2, BITS(16, 9), BITS(8, 1)),                                 /* 5.2.14 SAC, SIC each */
    ITEM(17, 360, FIXED, 1, BITS(8, 1)),                                                 /* 5.2.15 state */

    /* category 018 */
    ITEM(18, 0, FIXED, 1, BITS(8, 1)),                                                   /* 5.2.1  message type */
    ITEM(18, 1, FIXED, 1, BITS(8, 5), BITS(4, 1)),                                       /* 5.2.2  CAUSE, DIAG */
    ITEM(18, 2, FIXED, 3, UPTO(24, 1, LAST_TIME)),                                       /* 5.2.3  time of day */
    ITEM(18, 4, FIXED, 1, BITS(8, 5), BITS(4, 1)),                                       /* 5.2.4  former, current II */
    ITEM(18, 5, FIXED, 3, BITS(24, 1)),                                                  /* 5.2.5  address */
    LISTED(18, 6, 1, 255, 3, BITS(24, 1)),                                               /* 5.2.6  addresses */
    ITEM(18, 7, FIXED, 1, BIT(8), BIT(7), BIT(6), BIT(5), ZERO(4, 1)),                   /* 5.2.7  UM, DM, UC, DC */
    /* 5.2.8  UDS, DDS, UCS, DCS, EI; extent: IC */
    EXTENDABLE(18, 8, PART(1, BIT(8), BIT(7), BIT(6), BIT(5), ZERO(4, 3), BIT(2)), PART(1, BIT(8), ZERO(7, 2))),
    /* 5.2.9  SR, AR, ER, FR, MR, PR, CR; extent: ID, MA, SP, HG, HD */
    EXTENDABLE(18, 9, PART(1, SEVEN), PART(1, BIT(8), BIT(7), BIT(6), BIT(5), BIT(4), ZERO(3, 2))),
    ITEM(18, 10, FIXED, 1, ZERO(8, 4), BITS(3, 1)),                                      /* 5.2.10 COM */
    ITEM(18, 11, FIXED, 7, BITS(56, 1)),                                                 /* 5.2.11 capability report */
    ITEM(18, 12, FIXED, 1, BIT(8), BITS(7, 1)),                                          /* 5.2.12 FS, CQF */
    ITEM(18, 13, FIXED, 1, BITS(8, 1)),                                                  /* 5.2.13 CQF method */
    ITEM(18, 14, FIXED, 4, BITS(32, 17), BITS(16, 1)),                                   /* 5.2.14 RHO, THETA */
    ITEM(18, 15, FIXED, 4, TWOS(32, 17), TWOS(16, 1)),                                   /* 5.2.15 X, Y */
    ITEM(18, 16, FIXED, 4, BITS(32, 1)),                                                 /* 5.2.16 packet number */
    LISTED(18, 17, 1, 255, 4, BITS(32, 1)),                                              /* 5.2.17 packet numbers */
    ITEM(18, 18, FIXED, 1, ZERO(8, 8), BITS(7, 3), BITS(2, 1)),                          /* 5.2.18 PR, PT */
    ITEM(18, 19, LED, 0, { 0 }),                                                         /* 5.2.19 packet: "3+" in table 9 */
    ITEM(18, 20, FIXED, 4, BITS(32, 1)),                                                 /* 5.2.20 broadcast number */
    ITEM(18, 21, FIXED, 6, BITS(48, 45), BITS(44, 41), BITS(40, 33), BITS(32, 1)),       /* 5.2.21 priority, power, duration, coverage */
    ITEM(18, 22, FIXED, 4, ZERO(32, 28), BITS(27, 1)),                                   /* 5.2.22 prefix */
    ITEM(18, 23, FIXED, 7, BITS(56, 1)),                                                 /* 5.2.23 broadcast */
    ITEM(18, 25, FIXED, 4, BITS(32, 1)),                                                 /* 5.2.24 GICB number */
    ITEM(18, 27, FIXED, 1, BITS(8, 1)),                                                  /* 5.2.25 BDS code */
    ITEM(18, 28, FIXED, 2, BITS(16, 1)),                                                 /* 5.2.26 periodicity */
    ITEM(18, 29, FIXED, 7, BITS(56, 1)),                                                 /* 5.2.27 GICB extracted */
    /* 5.2.28 priority, PC, AU, NE, RD */
    ITEM(18, 30, FIXED, 2, BITS(16, 12), ZERO(11, 9), BIT(8), BIT(7), BIT(6), BITS(5, 4), ZERO(3, 1)),
    ITEM(18, 31, FIXED, 6, BITS(48, 1)),                                                 /* 5.2.29 identity */
    ITEM(18, 32, FIXED, 2, BIT(16), BIT(15), BIT(14), ZERO(13, 13), BITS(12, 1)),        /* 5.2.30 V, G, L, code */
    ITEM(18, 33, FIXED, 2, BIT(16), BIT(15), TWOS(14, 1)),                               /* 5.2.31 V, G, level */
    ITEM(18, 34, FIXED, 2, UPTO(16, 1, 2 * 16384)),                                      /* 5.2.32 speed, at most 2 NM/s */
    ITEM(18, 35, FIXED, 2, BITS(16, 1)),                                                 /* 5.2.33 heading */
    ITEM(18, 36, FIXED, 2, BITS(16, 9), BITS(8, 1)),                                     /* 5.2.34 SAC, SIC */
    ITEM(18, 37, FIXED, 2, BITS(16, 9), BITS(8, 1)),                                     /* 5.2.35 SAC, SIC */

    /* category 061 */
    ITEM(61, 0, FIXED, 1, BITS(8, 5), BITS(4, 1)),                                       /* 5.2.1  FAM, NAT */
    ITEM(61, 10, FIXED, 2, BITS(16, 9), BITS(8, 1)),                                     /* 5.2.2  SAC, SIC */
    ITEM(61, 12, FIXED, 1, BITS(8, 1)),                                                  /* 5.2.3  user */
    ITEM(61, 15, FIXED, 1, BITS(8, 1)),                                                  /* 5.2.4  service */
    ITEM(61, 20, FIXED, 3, UPTO(24, 1, LAST_TIME)),                                      /* 5.2.5  time of message */
    ITEM(61, 30, FIXED, 1, BITS(8, 1)),                                                  /* 5.2.6  batch */
    ITEM(61, 45, FIXED, 1, BITS(8, 1)),                                                  /* 5.2.7  version */
    ITEM(61, 50, FIXED, 1, BIT(8), ZERO(7, 1)),                                          /* 5.2.8  DGA */
    /* 5.2.9  latitude, longitude each, 90 and 180 degrees in units of 180/2^25: REP >= 3 */
    LISTED(61, 60, 3, 255, 8, RANGE(64, 33, -16777216, 16777216), RANGE(32, 1, -33554432, 33554432)),
    ITEM(61, 70, FIXED, 2, RANGE(16, 1, 4 * -15, 4 * 1500)),                             /* 5.2.10 lower limit, 1/4 FL */
    ITEM(61, 80, FIXED, 2, RANGE(16, 1, 4 * -15, 4 * 1500)),                             /* 5.2.11 upper limit, 1/4 FL */
    LISTED(61, 100, 1, 255, 1, BITS(8, 1)),                                              /* 5.2.12 CODE each: 1 to 255 */
    /* 5.2.13 track selector: bits 6 to 2 of its second primary octet are spare */
    COMPOSED(61, 130,
        SUBLIST(1, 2, ZERO(16, 16), BITS(15, 1)),                                        /* TNS: track number */
        SUBLIST(2, 3, BITS(24, 1)),                                                      /* AAS: address */
        SUBLIST(3, 6, BITS(48, 43), BITS(42, 37), BITS(36, 31), BITS(30, 25),            /* AIS: characters */
                      BITS(24, 19), BITS(18, 13), BITS(12, 7), BITS(6, 1)),
        SUBLIST(4, 2, BIT(16), BIT(15), BIT(14), BIT(13), BITS(12, 1)),                  /* CFS: W1 to W4, code */
        SUBLIST(5, 4, BITS(32, 25), BITS(24, 17), BITS(16, 9), BITS(8, 1)),              /* DPS: characters */
        SUBLIST(6, 4, BITS(32, 25), BITS(24, 17), BITS(16, 9), BITS(8, 1)),              /* DTS: characters */
        SUBLIST(7, 4, BITS(32, 25), BITS(24, 17), BITS(16, 9), BITS(8, 1)),              /* ATS: characters */
        SUBLIST(8, 2, BITS(16, 9), BITS(8, 1)),                                          /* CCS: CENTRE, POSITION */
        SUBFIELD(9, 4, BITS(32, 31), BIT(30), BIT(29), BIT(28), BIT(27), BIT(26),        /* TCS: SIM, CSR, PSR, SSR, MDS, ADS, */
                       BITS(25, 24), BITS(23, 22), BIT(21), BIT(20), ZERO(19, 19),       /* VALT, FPC, CNF, SPI, */
                       BITS(18, 17), BIT(16), BIT(15), BIT(14), BITS(13, 12),            /* GAT/OAT, IFR, VFR, CFR, RVSM, */
                       BITS(11, 10), BIT(9), BIT(8), ZERO(7, 1))),                       /* FRI/FOE, ME, MI */
    EXTENDABLE(61, 210, PART(1, SEVEN), PART(1, SEVEN), PART(1, SEVEN), PART(1, SEVEN)), /* 5.2.14 N1 to N28 */
    /* 5.2.15 SD, scanning, batch and update period, delay, MAXFLOW */
    ITEM(61, 220, FIXED, 5, BITS(40, 39), BITS(38, 33), BITS(32, 29), BITS(28, 17), ZERO(16, 15), BITS(14, 9), BITS(8, 1)),
    /* 5.2.16 MSAC, MSIC, NOP; then BSAC, BSIC. Bits 48 to 25 are 24 to 1 of the first part */
    EXTENDABLE(61, 230, PART(3, BITS(24, 17), BITS(16, 9), BIT(8), ZERO(7, 2)),
               PART(3, BITS(24, 17), BITS(16, 9), ZERO(8, 2))),
    /* 5.2.17 triggering criteria: subfield 2 is spare, as are bits 3 and 2 of the second primary octet */
    COMPOSED(61, 240,
        SUBFIELD(1, 1, BIT(8), BIT(7), ZERO(6, 6), BIT(5), BIT(4), BIT(3), BIT(2), BIT(1)), /* TLF, TNB, PLN, M3A, COR, SPE, MOF */
        SUBFIELD(3, 1, BITS(8, 1)),                                                      /* RCT */
        SUBFIELD(4, 1, BITS(8, 1)),                                                      /* PT */
        SUBFIELD(5, 1, BITS(8, 1)),                                                      /* RTT */
        SUBFIELD(6, 1, BITS(8, 1)),                                                      /* TAT */
        SUBFIELD(7, 1, BITS(8, 1)),                                                      /* GST */
        SUBFIELD(8, 1, BITS(8, 1)),                                                      /* LAT */
        SUBFIELD(9, 1, BITS(8, 1)),                                                      /* AT */
        SUBFIELD(10, 1, BITS(8, 1)),                                                     /* FK */
        SUBFIELD(11, 1, BITS(8, 1)),                                                     /* RP */
        SUBFIELD(12, 1, BITS(8, 1))),                                                    /* MNP */
    LISTED(61, 330, 0, 255, 2, BITS(16, 1)),                                             /* 5.2.18 CODE each */
    LISTED(61, 350, 0, 30, 2, BITS(16, 9), BITS(8, 1)),                                  /* 5.2.19 SAC, SIC each: 0 to 30 */
    EXTENDABLE(61, 360, PART(1, SEVEN), PART(1, SEVEN), PART(1, SEVEN)),                 /* 5.2.20 N1 to N21 */
    ITEM(61, 370, FIXED, 2, BITS(16, 1)),                                                /* 5.2.21 update period */
    /* 5.2.22 sensor information: bits 6 to 2 of its second primary octet are spare */
    COMPOSED(61, 380,
        SUBFIELD(1, 2, FROM(16, 1, 4, 3600)),                                            /* RP: from 4 to 3600 s */
        SUBFIELD(2, 1, BIT(8), ZERO(7, 1)),                                              /* DP: SSC */
        SUBFIELD(3, 2, BITS(16, 1)),                                                     /* TSB */
        SUBFIELD(4, 2, BITS(16, 1)),                                                     /* SRB */
        SUBFIELD(5, 2, BITS(16, 1)),                                                     /* SGB */
        SUBFIELD(6, 2, BITS(16, 1)),                                                     /* SAB */
        SUBFIELD(7, 2, BITS(16, 1)),                                                     /* PRB */
        SUBFIELD(8, 2, BITS(16, 1)),                                                     /* PGB */
        SUBFIELD(9, 2, BITS(16, 1))),                                                    /* PAB */
};

/* ---- The profiles and the message types: section 5.3 of each document, and 5.2.1 of 061 */

#define NONE (-1) /* a place with no item: spare, or kept for special purposes */

/* Table 2: the references by FRN. Three octets, FRN 1 to 21. */
static const int profile17[21] = {
    10,  12,   0,    350,  220,  221,  140,  /* FRN 1 to 7 */
    45,  70,   50,   200,  230,  240,  210,  /* FRN 8 to 14 */
    360, NONE, NONE, NONE, NONE, NONE, NONE, /* FRN 15 to 21 */
};

/* Table 9. Five octets, FRN 1 to 35: the FX after FRN 35 is printed as 0. */
static const int profile18[35] = {
    36, 37, 0,  1,  5,  16, 17, /* FRN 1 to 7 */
    18, 19, 28, 30, 25, 27, 29, /* FRN 8 to 14 */
    2,  6,  7,  8,  9,  10, 11, /* FRN 15 to 21 */
    14, 15, 20, 21, 22, 23, 4,  /* FRN 22 to 28 */
    31, 32, 33, 34, 35, 12, 13, /* FRN 29 to 35 */
};

/* Table 3 of category 061. Four octets, FRN 1 to 28. */
static const int profile61[28] = {
    10,  0,    12,   15,   20,   30,   45,   /* FRN 1 to 7 */
    50,  60,   70,   80,   100,  130,  210,  /* FRN 8 to 14 */
    220, 230,  240,  330,  350,  360,  370,  /* FRN 15 to 21 */
    380, NONE, NONE, NONE, NONE, NONE, NONE, /* FRN 22 to 28 */
};

/* What a message type must have and may have, apart from the items with FRN 1 to 3, which every one has: source,
 * destination and message type, of 061 SDPS, message type and user. By reference; NONE ends a list. A cell that hangs
 * on more than the type counts as "may". */
enum { IN_EVERY = 3 };

struct message {
    unsigned category, type;
    int must[10], may[16];
};

static const struct message messages[] = {
    /* Table 3 of category 017, types in decimal */
    { 17, 0, { 350, NONE }, { NONE } },
    { 17, 10, { 220, 140, 45, 70, 50, 200, 230, NONE }, { 221, 240, NONE } },
    { 17, 20, { 220, NONE }, { NONE } },
    { 17, 21, { 220, NONE }, { NONE } },
    { 17, 22, { 220, NONE }, { 221, NONE } },
    { 17, 23, { 220, NONE }, { NONE } },
    { 17, 30, { 210, NONE }, { NONE } },
    { 17, 31, { 210, NONE }, { NONE } },
    { 17, 32, { 210, NONE }, { NONE } },
    { 17, 33, { 210, NONE }, { NONE } },
    { 17, 110, { 360, NONE }, { NONE } },
    { 17, 111, { 360, NONE }, { NONE } },

    /* 5.3.2 of category 018, types in hexadecimal */
    { 18, 0x00, { NONE }, { 4, NONE } },
    { 18, 0x01, { 1, NONE }, { 4, NONE } },
    { 18, 0x02, { NONE }, { NONE } },
    { 18, 0x03, { 1, NONE }, { NONE } },
    { 18, 0x04, { NONE }, { 1, NONE } },
    { 18, 0x05, { NONE }, { NONE } },
    { 18, 0x10, { 5, 8, NONE }, { 10, 11, 14, 15, 31, 32, 33, 34, 35, 12, 13, NONE } },
    { 18, 0x11, { 5, 7, 9, NONE }, { 13, NONE } },
    { 18, 0x12, { 4, NONE }, { NONE } },
    { 18, 0x20, { 5, 16, 18, 19, NONE }, { NONE } },
    { 18, 0x21, { 5, NONE }, { 16, NONE } },
    { 18, 0x22, { 1, 5, NONE }, { 17, NONE } },
    { 18, 0x23, { 5, 19, NONE }, { 1, NONE } },
    { 18, 0x26, { 6, NONE }, { NONE } },
    { 18, 0x27, { 6, NONE }, { NONE } },
    { 18, 0x30, { 20, 22, 23, NONE }, { 21, NONE } },
    { 18, 0x31, { NONE }, { 20, NONE } },
    { 18, 0x32, { 1, NONE }, { 20, NONE } },
    { 18, 0x34, { 5, 2, 23, NONE }, { NONE } },
    { 18, 0x40, { 5, 25, 27, NONE }, { 28, 30, 2, NONE } },
    { 18, 0x41, { 5, NONE }, { 25, NONE } },
    { 18, 0x42, { 1, 5, NONE }, { 25, NONE } },
    { 18, 0x43, { 1, 5, 25, 27, 2, NONE }, { 29, NONE } },

    /* Table 2 of category 061, family and nature in hexadecimal; 030 has no row there, and is optional in each */
    { 61, 0x11, { 20, NONE }, { 30, NONE } },
    { 61, 0x12, { 20, NONE }, { 30, 100, NONE } },
    { 61, 0x13, { 20, 45, NONE }, { 30, NONE } },
    { 61, 0x14, { 20, NONE }, { 30, 100, NONE } },
    { 61, 0x15, { 20, NONE }, { 30, 100, NONE } },
    { 61, 0x16, { 20, NONE }, { 30, 100, NONE } },
    { 61, 0x21, { 20, NONE }, { 15, 30, 50, 60, 70, 80, 130, 210, 220, 230, 240, 350, 360, 370, 380, NONE } },
    { 61, 0x22, { 15, 20, NONE }, { 30, 50, 60, 70, 80, 130, 210, 220, 230, 240, 350, 360, 370, 380, NONE } },
    { 61, 0x23, { 15, 20, NONE }, { 30, 330, NONE } },
    { 61, 0x24, { 15, 20, NONE }, { 30, 330, NONE } },
    { 61, 0x25, { 15, 20, NONE }, { 30, 330, NONE } },
    { 61, 0x26, { 15, 20, NONE }, { 30, 330, NONE } },
    { 61, 0x27, { 20, NONE }, { 15, 30, 330, NONE } },
    { 61, 0x28, { 15, 20, NONE }, { 30, 330, NONE } },
    { 61, 0x2F, { 15, 20, 330, NONE }, { 30, NONE } },
};

static const struct category {
    unsigned number;
    const int *profile;
    unsigned frns, type_frn; /* how many places the profile has, and which is the message type's */
    int time;                /* the item that is a record's time */
} categories[] = {
    { 17, profile17, COUNT(profile17), 3, 140 },
    { 18, profile18, COUNT(profile18), 3, 2 },
    { 61, profile61, COUNT(profile61), 2, 20 },
};

/* ---- Looking up */

/* NULL where it is none of the three. */
static inline const struct category *find_category(unsigned category)
{
    for (size_t i = 0; i < COUNT(categories); i++)
        if (categories[i].number == category)
            return &categories[i];
    return NULL;
}

static inline bool is_category(unsigned category)
{
    return find_category(category) != NULL;
}

static inline unsigned last_frn(unsigned category)
{
    return find_category(category)->frns;
}

static inline unsigned type_frn(unsigned category)
{
    return find_category(category)->type_frn;
}

static inline int reference_at(unsigned category, unsigned frn)
{
    const struct category *of = find_category(category);
    return of && frn >= 1 && frn <= of->frns ? of->profile[frn - 1] : NONE;
}

static inline const struct item *find_layout(unsigned category, unsigned reference)
{
    for (size_t i = 0; i < COUNT(items); i++)
        if (items[i].category == category && items[i].reference == reference)
            return &items[i];
    return NULL;
}

static inline const struct item *layout_at(unsigned category, unsigned frn)
{
    int reference = reference_at(category, frn);
    return reference == NONE ? NULL : find_layout(category, (unsigned)reference);
}

static inline bool is_list(const struct part *part)
{
    return part->most > 0;
}

static inline size_t fields_of(const struct part *part)
{
    size_t n = 0;
    for (const struct field *f = part->fields; f->high; f++)
        n += f->is != SPARE;
    return n;
}

static inline bool is_in(const int *list, int reference)
{
    for (; *list != NONE; list++)
        if (*list == reference)
            return true;
    return false;
}

#endif
