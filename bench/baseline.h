/* Two checkers of recordings of categories 017, 018 and 061, written by hand in C, to be compared with: nothing is proved of either.
 * They read I017/230 as edition 1.3 has it in its figure (bit 5 is SI, four spare bits). README.md says how they were made. */
#ifndef BASELINE_H
#define BASELINE_H

#include <stddef.h>
#include <stdint.h>

struct answer {
    uint64_t number;  /* 0: accepted; otherwise the refusal's number, 1 to 15 */
    uint64_t place;   /* refused: its place, from p; accepted: 0 */
    uint64_t blocks;  /* accepted: how many; refused: 0 */
    uint64_t records; /* the same */
};

/* Checks blocks end to end, those of 017 and 018 as fast as could be written. Reads p[0..n) and nothing else. */
void check_recording(const uint8_t *p, size_t n, struct answer *out);

/* Checks one block, which is all that is lent; blocks is then 1. */
void check_block(const uint8_t *p, size_t n, struct answer *out);

/* The same answers without the fast path for whole records: what a plain, good table-driven checker does. */
void check_recording_plain(const uint8_t *p, size_t n, struct answer *out);

#endif
