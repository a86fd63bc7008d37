/* The interface of include/asterix.h over the plain implementation. Linked in the library's place it lets the
 * vectors be asked of the plain implementation, and, with a fault planted in it (faults/), shows that differ.c
 * finds the fault. */
#include "asterix.h"
#include "plain.h"

struct asterix_block_checked asterix_check_block(const uint8_t *block, size_t have)
{
    struct plain_block answer = plain_check_block(block, have);
    return (struct asterix_block_checked){ (uint8_t)answer.fault.number, answer.fault.place, answer.records };
}

struct asterix_recording_checked asterix_check_recording(const uint8_t *recording, size_t have)
{
    struct plain_recording answer = plain_check_recording(recording, have);
    return (struct asterix_recording_checked){ (uint8_t)answer.fault.number, answer.fault.place, answer.blocks,
                                               answer.records };
}

struct asterix_record_found asterix_find_record(const uint8_t *block, size_t have, size_t n)
{
    struct plain_record answer = plain_find_record(block, have, n);
    struct asterix_record_found found = {
        (uint8_t)answer.fault.number, answer.fault.place, answer.start, answer.length, answer.end, answer.count, { 0 }
    };
    for (unsigned frn = 1; frn <= ASTERIX_FRNS; frn++)
        found.starts[frn - 1] = (uint16_t)answer.starts[frn - 1];
    return found;
}

struct asterix_item_found asterix_find_item(const uint8_t *block, size_t have, uint16_t reference, size_t n)
{
    struct plain_item answer = plain_find_item(block, have, reference, n);
    return (struct asterix_item_found){ (uint8_t)answer.fault.number, answer.fault.place, answer.start,
                                        answer.length };
}

struct asterix_record_met asterix_next_record(const uint8_t *recording, size_t have, struct asterix_cursor cursor)
{
    struct plain_cursor at = { cursor.block, cursor.place, cursor.end, cursor.category };
    struct plain_met answer = plain_next_record(recording, have, at);
    struct asterix_record_met met = { .number = (uint8_t)answer.fault.number,
                                      .met = answer.met,
                                      .category = (uint8_t)answer.category,
                                      .place = answer.fault.place,
                                      .start = answer.start,
                                      .length = answer.length,
                                      .block = answer.block,
                                      .end = answer.end,
                                      .count = answer.count,
                                      .next = { answer.next.block, answer.next.place, answer.next.end,
                                                (uint8_t)answer.next.category } };
    for (unsigned frn = 1; frn <= ASTERIX_FRNS; frn++)
        met.starts[frn - 1] = (uint16_t)answer.starts[frn - 1];
    return met;
}

struct asterix_merge_stepped asterix_merge_step(const uint8_t *a, size_t a_len, const uint8_t *b, size_t b_len,
                                                size_t place_a, size_t place_b, int64_t offset)
{
    struct plain_stepped answer = plain_merge_step(a, a_len, b, b_len, place_a, place_b, offset);
    return (struct asterix_merge_stepped){ (uint8_t)answer.fault.number,
                                           answer.met,
                                           (uint8_t)answer.log,
                                           answer.fault.place,
                                           answer.start,
                                           answer.length,
                                           answer.place_a,
                                           answer.place_b };
}

static struct asterix_merge_head told_head(struct plain_head head)
{
    return (struct asterix_merge_head){ { head.at.block, head.at.place, head.at.end, (uint8_t)head.at.category },
                                        head.length,
                                        head.timed != 0,
                                        head.time };
}

static struct plain_head taken_head(struct asterix_merge_head head)
{
    return (struct plain_head){
        { head.at.block, head.at.place, head.at.end, head.at.category }, head.length, head.timed, head.time
    };
}

struct asterix_merge_begun asterix_begin_merge(const uint8_t *a, size_t a_len, const uint8_t *b, size_t b_len,
                                               int64_t offset)
{
    struct plain_begun answer = plain_begin_merge(a, a_len, b, b_len, offset);
    return (
        struct asterix_merge_begun){ (uint8_t)answer.fault.number,
                                     (uint8_t)answer.log,
                                     answer.fault.place,
                                     { told_head(answer.merge.a), told_head(answer.merge.b), answer.merge.turn } };
}

struct asterix_merge_next asterix_next_merged_words(const uint8_t *a, size_t a_len, const uint8_t *b, size_t b_len,
                                                    struct asterix_merge given, size_t *out, size_t words)
{
    struct plain_merge merge = { taken_head(given.a), taken_head(given.b), given.turn };
    struct plain_merged one;
    size_t count = 0;
    for (; count < words / 6 && plain_next_merged(a, a_len, b, b_len, &merge, &one, 1) == 1; count++) {
        const size_t numbers[6] = { one.log, one.length, one.at.block, one.at.place, one.at.end, one.at.category };
        for (size_t i = 0; i < 6; i++)
            out[6 * count + i] = numbers[i];
    }
    return (struct asterix_merge_next){ count, { told_head(merge.a), told_head(merge.b), merge.turn } };
}

struct asterix_item_read asterix_read_item(uint8_t category, uint16_t reference, const uint8_t *item, size_t have,
                                           int64_t fields[ASTERIX_FIELDS])
{
    static int64_t field[PLAIN_FIELDS];
    struct plain_fields answer = plain_read_item(category, reference, item, have, field);
    for (size_t i = 0; i < answer.count; i++)
        fields[i] = field[i];
    return (struct asterix_item_read){ (uint8_t)answer.fault.number, answer.fault.place, answer.count };
}

struct asterix_item_written asterix_write_item(uint8_t category, uint16_t reference, const int64_t *fields,
                                               size_t count, uint8_t *out, size_t room)
{
    struct plain_length answer = plain_write_item(category, reference, fields, count, out, room);
    return (struct asterix_item_written){ (uint8_t)answer.fault.number, answer.fault.place, answer.length };
}

struct asterix_record_added asterix_add_record(uint8_t *out, size_t room, size_t used, uint64_t frns,
                                               const uint8_t *items, size_t have)
{
    struct plain_length answer = plain_add_record(out, room, used, frns, items, have);
    return (struct asterix_record_added){ (uint8_t)answer.fault.number, answer.in_new, answer.fault.place,
                                          answer.length };
}

size_t asterix_least_length(uint8_t category, size_t place, uint8_t octet)
{
    return plain_least_length(category, place, octet);
}

struct asterix_sheet_read asterix_read_sheet(const uint8_t *sheet, size_t have)
{
    struct plain_sheet answer = plain_read_sheet(sheet, have);
    struct plain_marks marks = answer.marks;
    return (struct asterix_sheet_read){ (uint8_t)answer.fault.number,
                                        (uint8_t)answer.edition,
                                        answer.fault.place,
                                        answer.offset,
                                        { marks.base, marks.first, marks.count, (uint8_t)marks.split } };
}

struct asterix_mark_found asterix_find_mark(const uint8_t *sheet, size_t have, struct asterix_marks given, size_t n)
{
    struct plain_marks marks = { given.base, given.first, given.count, given.split };
    struct plain_found answer = plain_find_mark(sheet, have, marks, n);
    struct plain_mark mark = answer.mark;
    return (struct asterix_mark_found){
        answer.found, { mark.place, (uint8_t)mark.log, (uint8_t)mark.station, (uint8_t)mark.comment }
    };
}

static struct asterix_sheet_written told_sheet(struct plain_length answer)
{
    return (struct asterix_sheet_written){ (uint8_t)answer.fault.number, answer.fault.place, answer.length };
}

struct asterix_sheet_written asterix_write_sheet(int64_t offset, const uint8_t *marks, size_t have, uint8_t *out,
                                                 size_t room)
{
    return told_sheet(plain_write_sheet(offset, marks, have, out, room));
}

struct asterix_sheet_written asterix_add_mark(const uint8_t *sheet, size_t have, struct asterix_mark given,
                                              uint8_t *out, size_t room)
{
    struct plain_mark mark = { given.place, given.log, given.station, given.comment };
    return told_sheet(plain_add_mark(sheet, have, mark, out, room));
}

struct asterix_sheet_written asterix_remove_mark(const uint8_t *sheet, size_t have, uint8_t log, uint32_t place,
                                                 uint8_t *out, size_t room)
{
    return told_sheet(plain_remove_mark(sheet, have, log, place, out, room));
}

struct asterix_sheet_written asterix_empty_sheet(const uint8_t *sheet, size_t have, uint8_t *out, size_t room)
{
    return told_sheet(plain_empty_sheet(sheet, have, out, room));
}
