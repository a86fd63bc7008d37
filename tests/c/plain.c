/* The plain implementation: see plain.h. In order: bits, one part, parts and lists, presence bits, extended and
 * compound items, one item, one record, blocks and recordings, walking a recording, two logs, adding a record,
 * lengths, exercise sheets. */
#include "plain.h"
#include "tables.h"

/* ---- Refusals */

static struct plain_fault refused(unsigned number, size_t place)
{
    return (struct plain_fault){ number, place };
}

static const struct plain_fault fine = { 0, 0 };

/* ---- Bits */

/* A part's octets, at most eight, as one number: bit 1 by the document's numbers is its lowest. */
static uint64_t get_octets(const uint8_t *part, unsigned octets)
{
    uint64_t number = 0;
    for (unsigned i = 0; i < octets; i++)
        number = number << 8 | part[i];
    return number;
}

static int64_t get_field(const uint8_t *part, unsigned octets, struct field f)
{
    unsigned bits = f.high - f.low + 1;
    int64_t value = (int64_t)(get_octets(part, octets) >> (f.low - 1) & (((uint64_t)1 << bits) - 1));
    if (f.is == SIGNED && value >> (bits - 1))
        value -= (int64_t)1 << bits;
    return value;
}

static void put_field(uint8_t *part, unsigned octets, struct field f, int64_t value)
{
    for (unsigned bit = f.low; bit <= f.high; bit++)
        if ((uint64_t)value >> (bit - f.low) & 1)
            part[octets - 1 - (bit - 1) / 8] |= (uint8_t)(1u << (bit - 1) % 8);
}

/* Whether a value may stand in a field: it fits the field's bits, and its printed range holds it. */
static bool may_hold(struct field f, int64_t value)
{
    unsigned bits = f.high - f.low + 1;
    int64_t least = f.is == SIGNED ? -((int64_t)1 << (bits - 1)) : 0;
    int64_t most = f.is == SPARE ? 0 : f.is == SIGNED ? ((int64_t)1 << (bits - 1)) - 1 : ((int64_t)1 << bits) - 1;
    if (value < least || value > most)
        return false;
    return f.least == f.most || (f.least <= value && value <= f.most);
}

/* ---- One part of an item: the fields of some octets */

static bool is_good_part(const struct part *part, const uint8_t *at)
{
    for (const struct field *f = part->fields; f->high; f++)
        if (!may_hold(*f, get_field(at, part->octets, *f)))
            return false;
    return true;
}

static size_t get_part(const struct part *part, const uint8_t *at, int64_t *to)
{
    size_t n = 0;
    for (const struct field *f = part->fields; f->high; f++)
        if (f->is != SPARE)
            to[n++] = get_field(at, part->octets, *f);
    return n;
}

/* Writes a part from its fields, or answers false where one is barred. */
static bool put_part(const struct part *part, const int64_t *from, uint8_t *to)
{
    for (unsigned i = 0; i < part->octets; i++)
        to[i] = 0;
    for (const struct field *f = part->fields; f->high; f++)
        if (f->is != SPARE) {
            if (!may_hold(*f, *from))
                return false;
            put_field(to, part->octets, *f, *from++);
        }
    return true;
}

/* ---- Equal parts: one alone, or a list, which is a count and that many. A fixed item, a list, a subfield. */

static size_t count_at(const struct part *part, const uint8_t *at)
{
    return is_list(part) ? at[0] : 1;
}

static size_t length_of(const struct part *part, size_t parts)
{
    return is_list(part) + parts * part->octets;
}

/* Their length at the start of `have` octets. Refuses at 0 by 9, then 11. */
static struct plain_fault check_parts(const struct part *part, const uint8_t *at, size_t have, size_t *length)
{
    if (is_list(part) && have < 1)
        return refused(9, 0);
    size_t parts = count_at(part, at);
    *length = length_of(part, parts);
    if (*length > have)
        return refused(9, 0);
    if (is_list(part) && (parts < part->least || parts > part->most))
        return refused(11, 0);
    for (size_t i = 0; i < parts; i++)
        if (!is_good_part(part, at + length_of(part, i)))
            return refused(11, 0);
    return fine;
}

/* Their fields, without the count. */
static size_t get_parts(const struct part *part, const uint8_t *at, int64_t *to)
{
    size_t n = 0;
    for (size_t i = 0; i < count_at(part, at); i++)
        n += get_part(part, at + length_of(part, i), to + n);
    return n;
}

/* Writes so many and answers their length; 0 where their count or a field is barred. */
static size_t put_parts(const struct part *part, const int64_t *from, size_t parts, uint8_t *to)
{
    if (is_list(part)) {
        if (parts < part->least || parts > part->most)
            return 0;
        to[0] = (uint8_t)parts;
    }
    for (size_t i = 0; i < parts; i++)
        if (!put_part(part, from + i * fields_of(part), to + length_of(part, i)))
            return 0;
    return length_of(part, parts);
}

/* ---- Presence bits: an FSPEC, or a compound item's primary octets */

enum { FX = 1, MOST_FRN = 63 };

/* A record's items by FRN, or an item's subfields by number. FRNs above 35 and FRN 0 are in no profile, but a set may
 * name them. */
struct set {
    bool has[MOST_FRN + 1];
};

static bool is_empty(const struct set *set)
{
    for (unsigned frn = 0; frn <= MOST_FRN; frn++)
        if (set->has[frn])
            return false;
    return true;
}

/* The octets with presence bits at the start of `have`: after each that has FX, another. What they name, and how many
 * they are. Refuses at 0 octet by octet by `cut`, then by 6 where there would be more than `most`; then by 7. */
static struct plain_fault get_presence(const uint8_t *at, size_t have, size_t most, unsigned cut, struct set *set,
                                       size_t *octets)
{
    *set = (struct set){ { false } };
    for (size_t i = 0;; i++) {
        if (i == have)
            return refused(cut, 0);
        for (unsigned bit = 0; bit < 7; bit++)
            set->has[i * 7 + bit + 1] = at[i] >> (7 - bit) & 1;
        if (!(at[i] & FX)) {
            *octets = i + 1;
            break;
        }
        if (i + 1 == most)
            return refused(6, 0);
    }
    if (at[*octets - 1] == 0)
        return refused(7, 0);
    return fine;
}

/* Writes those that name a set, and answers how many they are. */
static size_t put_presence(const struct set *set, uint8_t *to)
{
    unsigned last = 0;
    for (unsigned frn = 1; frn <= MOST_FRN; frn++)
        if (set->has[frn])
            last = frn;
    size_t octets = (last + 6) / 7;
    for (size_t i = 0; i < octets; i++) {
        to[i] = i + 1 < octets ? FX : 0;
        for (unsigned bit = 0; bit < 7; bit++)
            if (set->has[i * 7 + bit + 1])
                to[i] |= (uint8_t)(0x80 >> bit);
    }
    return octets;
}

/* ---- An item that FX bits extend */

/* How many of its parts there are. Refuses at 0 by 9, part by part, and by 6 where more than are printed would be. */
static struct plain_fault count_extended(const struct item *item, const uint8_t *at, size_t have, size_t *parts,
                                         size_t *length)
{
    *length = 0;
    for (*parts = 0; *parts < item->count;) {
        *length += item->parts[(*parts)++].octets;
        if (have < *length)
            return refused(9, 0);
        if (!(at[*length - 1] & FX))
            return fine;
    }
    return refused(6, 0); /* FX in the last that is printed */
}

/* 9, then 6, then 11 over all parts. */
static struct plain_fault check_extended(const struct item *item, const uint8_t *at, size_t have, size_t *length)
{
    size_t parts = 0, done = 0;
    struct plain_fault fault = count_extended(item, at, have, &parts, length);
    for (size_t i = 0; i < parts && !fault.number; i++) {
        if (!is_good_part(&item->parts[i], at + done))
            fault = refused(11, 0);
        done += item->parts[i].octets;
    }
    return fault;
}

static size_t get_extended(const struct item *item, const uint8_t *at, size_t length, int64_t *to)
{
    size_t n = 0, done = 0;
    for (size_t i = 0; i < item->count; i++)
        if (done < length) {
            n += get_part(&item->parts[i], at + done, to + n);
            done += item->parts[i].octets;
        } else
            to[n++] = PLAIN_ABSENT;
    return n;
}

/* A first part is never absent, and none that is there follows one that isn't. */
static size_t put_extended(const struct item *item, const int64_t *field, size_t count, uint8_t *to)
{
    size_t used = 0, done = 0;
    bool ended = false;
    for (size_t i = 0; i < item->count; i++) {
        const struct part *part = &item->parts[i];
        if (i > 0 && used < count && field[used] == PLAIN_ABSENT) {
            ended = true;
            used++;
            continue;
        }
        if (ended || count - used < fields_of(part) || !put_part(part, field + used, to + done))
            return 0;
        if (i > 0)
            to[done - 1] |= FX;
        used += fields_of(part);
        done += part->octets;
    }
    return used == count ? done : 0;
}

/* ---- A compound item */

enum { MOST_ITEM = 2 + 8 + 255 * 27 + 4 }; /* I061/130: its eight lists have 27 octets to a part */

static bool has_subfield(const struct item *item, unsigned number)
{
    for (size_t i = 0; i < item->count; i++)
        if (item->parts[i].number == number)
            return true;
    return false;
}

/* As many are printed as the last subfield's bit needs. */
static size_t most_primary(const struct item *item)
{
    return (item->parts[item->count - 1].number + 6) / 7;
}

/* The primary octets: which subfields follow. Refuses at 0 by 9, 6, 7, 8. */
static struct plain_fault get_primary(const struct item *item, const uint8_t *at, size_t have, struct set *set,
                                      size_t *octets)
{
    struct plain_fault fault = get_presence(at, have, most_primary(item), 9, set, octets);
    for (unsigned number = 1; number <= MOST_FRN && !fault.number; number++)
        if (set->has[number] && !has_subfield(item, number))
            fault = refused(8, 0);
    return fault;
}

/* The primary octets, and then the subfields one after another, by 9 and 11. */
static struct plain_fault check_compound(const struct item *item, const uint8_t *at, size_t have, size_t *length)
{
    struct set set;
    size_t done = 0;
    struct plain_fault fault = get_primary(item, at, have, &set, &done);
    for (size_t i = 0; i < item->count && !fault.number; i++) {
        size_t n = 0;
        if (!set.has[item->parts[i].number])
            continue;
        fault = check_parts(&item->parts[i], at + done, have - done, &n);
        done += n;
    }
    *length = done;
    return refused(fault.number, 0); /* the item's start, wherever in it the fault is */
}

static size_t get_compound(const struct item *item, const uint8_t *at, size_t length, int64_t *to)
{
    struct set set;
    size_t n = 0, done = 0;
    get_primary(item, at, length, &set, &done);
    for (size_t i = 0; i < item->count; i++) {
        const struct part *part = &item->parts[i];
        if (!set.has[part->number]) {
            to[n++] = PLAIN_ABSENT;
            continue;
        }
        if (is_list(part))
            to[n++] = at[done];
        n += get_parts(part, at + done, to + n);
        done += length_of(part, count_at(part, at + done));
    }
    return n;
}

/* Writes a subfield from the first of the fields given, and answers its length and how many those are; 0 where they
 * are none of its. */
static size_t put_subfield(const struct part *part, const int64_t *field, size_t count, size_t *used, uint8_t *to)
{
    size_t head = is_list(part), parts = 1;
    if (head) {
        if (count == 0 || field[0] < 0 || (uint64_t)field[0] > count)
            return 0;
        parts = (size_t)field[0];
    }
    *used = head + parts * fields_of(part);
    return *used > count ? 0 : put_parts(part, field + head, parts, to);
}

static size_t put_compound(const struct item *item, const int64_t *field, size_t count, uint8_t *to)
{
    uint8_t body[MOST_ITEM];
    struct set set = { { false } };
    size_t used = 0, done = 0;
    for (size_t i = 0; i < item->count; i++) {
        size_t took = 1, n = 0;
        if (used < count && field[used] == PLAIN_ABSENT) {
            used++;
            continue;
        }
        n = put_subfield(&item->parts[i], field + used, count - used, &took, body + done);
        if (n == 0)
            return 0;
        set.has[item->parts[i].number] = true;
        used += took;
        done += n;
    }
    if (used < count || is_empty(&set))
        return 0;
    size_t octets = put_presence(&set, to);
    for (size_t i = 0; i < done; i++)
        to[octets + i] = body[i];
    return octets + done;
}

/* ---- An item led by its length */

enum { LEAST_LED = 3, MOST_LED = 255 };

/* 9, 10, 9 for the body. */
static struct plain_fault check_led(const uint8_t *at, size_t have, size_t *length)
{
    if (have < 1)
        return refused(9, 0);
    if (at[0] < LEAST_LED)
        return refused(10, 0);
    *length = at[0];
    return have < *length ? refused(9, 0) : fine;
}

static size_t get_led(const uint8_t *at, size_t length, int64_t *to)
{
    for (size_t i = 1; i < length; i++)
        to[i - 1] = at[i];
    return length - 1;
}

static size_t put_led(const int64_t *field, size_t count, uint8_t *to)
{
    if (count + 1 < LEAST_LED || count + 1 > MOST_LED)
        return 0;
    to[0] = (uint8_t)(count + 1);
    for (size_t i = 0; i < count; i++) {
        if (field[i] < 0 || field[i] > 255)
            return 0;
        to[1 + i] = (uint8_t)field[i];
    }
    return 1 + count;
}

/* ---- One item */

/* The item at the start of `have` octets: its length, or a refusal at 0, the item's start. */
static struct plain_fault check_item(const struct item *item, const uint8_t *at, size_t have, size_t *length)
{
    switch (item->layout) {
    case LED:
        return check_led(at, have, length);
    case EXTENDED:
        return check_extended(item, at, have, length);
    case COMPOUND:
        return check_compound(item, at, have, length);
    default:
        return check_parts(item->parts, at, have, length);
    }
}

/* The fields of an item that was checked. */
static size_t get_item(const struct item *item, const uint8_t *at, size_t length, int64_t *to)
{
    switch (item->layout) {
    case LED:
        return get_led(at, length, to);
    case EXTENDED:
        return get_extended(item, at, length, to);
    case COMPOUND:
        return get_compound(item, at, length, to);
    default:
        return get_parts(item->parts, at, to);
    }
}

/* Writes an item, at most MOST_ITEM octets, and answers its length; 0 where no legal item has these fields. */
static size_t put_item(const struct item *item, const int64_t *field, size_t count, uint8_t *to)
{
    size_t each = fields_of(item->parts);
    switch (item->layout) {
    case LED:
        return put_led(field, count, to);
    case EXTENDED:
        return put_extended(item, field, count, to);
    case COMPOUND:
        return put_compound(item, field, count, to);
    case LIST:
        return count % each ? 0 : put_parts(item->parts, field, count / each, to);
    default:
        return count != each ? 0 : put_parts(item->parts, field, 1, to);
    }
}

struct plain_fields plain_read_item(unsigned category, unsigned reference, const uint8_t *item, size_t have,
                                    int64_t field[PLAIN_FIELDS])
{
    struct plain_fields answer = { fine, 0 };
    const struct item *layout = find_layout(category, reference);
    size_t length = 0;
    if (!layout) {
        answer.fault = refused(21, 0);
        return answer;
    }
    answer.fault = check_item(layout, item, have, &length);
    if (answer.fault.number)
        return answer;
    if (length < have) {
        answer.fault = refused(18, length);
        return answer;
    }
    answer.count = get_item(layout, item, length, field);
    return answer;
}

struct plain_length plain_write_item(unsigned category, unsigned reference, const int64_t *field, size_t count,
                                     uint8_t *out, size_t room)
{
    struct plain_length answer = { fine, false, 0 };
    const struct item *layout = find_layout(category, reference);
    uint8_t written[MOST_ITEM];
    if (!layout) {
        answer.fault = refused(21, 0);
        return answer;
    }
    size_t length = put_item(layout, field, count, written);
    if (length == 0)
        answer.fault = refused(11, 0);
    else if (length > room)
        answer.fault = refused(16, 0);
    else {
        for (size_t i = 0; i < length; i++)
            out[i] = written[i];
        answer.length = length;
    }
    return answer;
}

/* ---- One record */

static bool has_unusable(unsigned category, const struct set *set)
{
    for (unsigned frn = 0; frn <= MOST_FRN; frn++)
        if (set->has[frn] && reference_at(category, frn) == NONE)
            return true;
    return false;
}

/* The FSPEC at the start of `have` octets: 5, 6, 7, 8, all at 0: the record's start. */
static struct plain_fault get_fspec(unsigned category, const uint8_t *at, size_t have, struct set *set,
                                    size_t *octets)
{
    struct plain_fault fault = get_presence(at, have, last_frn(category) / 7, 5, set, octets);
    if (fault.number)
        return fault;
    return has_unusable(category, set) ? refused(8, 0) : fine;
}

/* The items of a set, end to end at the start of `have` octets: where each starts, and their whole length. A
 * refusal, 6 to 11, is at the item's start. */
static struct plain_fault check_items(unsigned category, const struct set *set, const uint8_t *at, size_t have,
                                      size_t *starts, size_t *length)
{
    size_t done = 0;
    for (unsigned frn = 1; frn <= PLAIN_FRNS; frn++) {
        if (!set->has[frn])
            continue;
        size_t n = 0;
        struct plain_fault fault = check_item(layout_at(category, frn), at + done, have - done, &n);
        if (fault.number)
            return refused(fault.number, done + fault.place);
        starts[frn - 1] = done;
        done += n;
    }
    *length = done;
    return fine;
}

static bool must_have(const struct message *message, unsigned frn)
{
    return frn <= IN_EVERY || is_in(message->must, reference_at(message->category, frn));
}

static bool may_have(const struct message *message, unsigned frn)
{
    return must_have(message, frn) || is_in(message->may, reference_at(message->category, frn));
}

/* 12 to 15, at 0: the record's start. `type` is looked at only where the set has the message type item. */
static struct plain_fault check_type(unsigned category, const struct set *set, const uint8_t *type)
{
    const struct message *message = NULL;
    if (!set->has[type_frn(category)])
        return refused(12, 0);
    for (size_t i = 0; i < COUNT(messages); i++)
        if (messages[i].category == category && messages[i].type == *type)
            message = &messages[i];
    if (!message)
        return refused(13, 0);
    for (unsigned frn = 1; frn <= last_frn(category); frn++)
        if (!set->has[frn] && must_have(message, frn))
            return refused(14, 0);
    for (unsigned frn = 1; frn <= last_frn(category); frn++)
        if (set->has[frn] && !may_have(message, frn))
            return refused(15, 0);
    return fine;
}

/* The record at `at` of a block of `have` octets; on success where it and its items are. */
static struct plain_record check_record(unsigned category, const uint8_t *block, size_t have, size_t at)
{
    const struct plain_record nothing = { .count = 0 };
    struct plain_record record = nothing;
    struct set set;
    size_t octets = 0, length = 0, starts[PLAIN_FRNS] = { 0 };

    struct plain_fault fault = get_fspec(category, block + at, have - at, &set, &octets);
    if (fault.number) {
        record.fault = refused(fault.number, at);
        return record;
    }
    fault = check_items(category, &set, block + at + octets, have - at - octets, starts, &length);
    if (fault.number) {
        record.fault = refused(fault.number, at + octets + fault.place);
        return record;
    }
    fault = check_type(category, &set, block + at + octets + starts[type_frn(category) - 1]);
    if (fault.number) {
        record.fault = refused(fault.number, at);
        return record;
    }
    record.start = at;
    record.length = octets + length;
    record.end = at + octets + length;
    for (unsigned frn = 1; frn <= PLAIN_FRNS; frn++)
        if (set.has[frn]) {
            record.starts[frn - 1] = at + octets + starts[frn - 1];
            record.count++;
        }
    return record;
}

/* ---- Blocks and recordings */

enum { HEAD = 3, MOST_LEN = 65535 };

static size_t len_of(const uint8_t *block)
{
    return (size_t)block[1] * 256 + block[2];
}

/* The records of a block whose head is right, and that is `have` octets long. */
static struct plain_block check_records(const uint8_t *block, size_t have)
{
    struct plain_block answer = { fine, 0 };
    for (size_t at = HEAD; at < have;) {
        struct plain_record record = check_record(block[0], block, have, at);
        if (record.fault.number)
            return (struct plain_block){ record.fault, 0 };
        at = record.end;
        answer.records++;
    }
    return answer;
}

static struct plain_fault check_head(const uint8_t *block, size_t have)
{
    if (have < HEAD)
        return refused(1, 0);
    if (!is_category(block[0]))
        return refused(2, 0);
    if (len_of(block) < HEAD)
        return refused(3, 0);
    return fine;
}

struct plain_block plain_check_block(const uint8_t *block, size_t have)
{
    struct plain_fault fault = check_head(block, have);
    if (fault.number == 0 && len_of(block) != have)
        fault = refused(3, 0);
    if (fault.number == 0 && len_of(block) == HEAD)
        fault = refused(4, 0);
    if (fault.number)
        return (struct plain_block){ fault, 0 };
    return check_records(block, have);
}

/* The head of a recording's next block, where `left` octets are left: 1 to 4. */
static struct plain_fault check_next_head(const uint8_t *block, size_t left)
{
    struct plain_fault fault = check_head(block, left);
    if (fault.number == 0 && len_of(block) > left)
        fault = refused(3, 0);
    if (fault.number == 0 && len_of(block) == HEAD)
        fault = refused(4, 0);
    return fault;
}

struct plain_recording plain_check_recording(const uint8_t *recording, size_t have)
{
    struct plain_recording answer = { fine, 0, 0 };
    for (size_t at = 0; at < have;) {
        const uint8_t *block = recording + at;
        struct plain_block checked = { check_next_head(block, have - at), 0 };
        if (checked.fault.number == 0)
            checked = check_records(block, len_of(block));
        if (checked.fault.number)
            return (struct plain_recording){ refused(checked.fault.number, at + checked.fault.place), 0, 0 };
        answer.blocks++;
        answer.records += checked.records;
        at += len_of(block);
    }
    return answer;
}

struct plain_record plain_find_record(const uint8_t *block, size_t have, size_t n)
{
    struct plain_record record = { .count = 0 };
    struct plain_block checked = plain_check_block(block, have);
    record.fault = checked.fault;
    if (record.fault.number == 0 && n >= checked.records)
        record.fault = refused(19, 0);
    if (record.fault.number)
        return record;
    size_t at = HEAD;
    for (size_t i = 0; i <= n; i++) {
        record = check_record(block[0], block, have, at);
        at = record.end;
    }
    return record;
}

struct plain_item plain_find_item(const uint8_t *block, size_t have, unsigned reference, size_t n)
{
    struct plain_item answer = { fine, 0, 0 };
    answer.fault = plain_check_block(block, have).fault;
    if (answer.fault.number)
        return answer;
    const struct item *item = find_layout(block[0], reference);
    if (!item) {
        answer.fault = refused(21, 0);
        return answer;
    }
    struct plain_record record = plain_find_record(block, have, n);
    if (record.fault.number) {
        answer.fault = record.fault;
        return answer;
    }
    for (unsigned frn = 1; frn <= PLAIN_FRNS; frn++)
        if (layout_at(block[0], frn) == item && record.starts[frn - 1]) {
            answer.start = record.starts[frn - 1];
            check_item(item, block + answer.start, have - answer.start, &answer.length);
            return answer;
        }
    answer.fault = refused(20, record.start);
    return answer;
}

/* ---- Walking a recording */

struct plain_met plain_next_record(const uint8_t *recording, size_t have, struct plain_cursor at)
{
    struct plain_met answer = { .next = at };
    bool in_block = at.block <= at.place && at.place <= at.end && at.end <= have && at.end - at.block <= MOST_LEN;
    if (!in_block || at.place == have)
        return answer;
    if (at.place == at.end) { /* the next block */
        const uint8_t *block = recording + at.end;
        struct plain_fault fault = check_next_head(block, have - at.end);
        if (fault.number) {
            answer.fault = refused(fault.number, at.end);
            return answer;
        }
        at.block = at.end;
        at.place = at.block + HEAD;
        at.end = at.block + len_of(block);
        at.category = block[0];
    }
    if (!is_category(at.category)) {
        answer.fault = refused(2, at.place);
        return answer;
    }
    struct plain_record record =
        check_record(at.category, recording + at.block, at.end - at.block, at.place - at.block);
    if (record.fault.number) {
        answer.fault = refused(record.fault.number, at.block + record.fault.place);
        return answer;
    }
    answer.met = true;
    answer.category = at.category;
    answer.start = at.place;
    answer.length = record.length;
    answer.block = at.block;
    answer.end = record.end;
    answer.count = record.count;
    for (unsigned frn = 1; frn <= PLAIN_FRNS; frn++)
        answer.starts[frn - 1] = record.starts[frn - 1];
    at.place += record.length;
    answer.next = at;
    return answer;
}

/* ---- Two logs: which record comes next */

enum { DAY = 24 * 60 * 60 * 128, HALF_DAY = DAY / 2, MOST_OFFSET = 46080, GICB_EXTRACTION = 0x40 };

static bool is_offset(int64_t offset)
{
    return -MOST_OFFSET <= offset && offset <= MOST_OFFSET;
}

/* An offset in range as a number under a day. */
static uint64_t turn_of(int64_t offset)
{
    return (uint64_t)(offset < 0 ? offset + DAY : offset);
}

/* Whether A's record goes before B's, where each log has one. */
static bool goes_first(const struct plain_head *a, const struct plain_head *b, uint64_t turn)
{
    if (!a->timed)
        return true;
    if (!b->timed)
        return false;
    uint64_t gap = (b->time % DAY + turn % DAY + (DAY - a->time % DAY)) % DAY;
    return gap <= HALF_DAY;
}

/* Whether this message type's I018/002 is no time of the record: 5.2.3, rule 3. */
static bool is_untimed(unsigned category, unsigned type)
{
    return category == 18 && type == GICB_EXTRACTION;
}

/* The FRN of I017/140, I018/002 or I061/020. */
static unsigned time_frn(unsigned category)
{
    unsigned frn = 1;
    while (reference_at(category, frn) != find_category(category)->time)
        frn++;
    return frn;
}

static uint64_t time_at(const uint8_t *octets)
{
    return (uint64_t)octets[0] << 16 | (uint64_t)octets[1] << 8 | octets[2];
}

/* ---- Two logs: a step from two places, each log walked from its start */

/* Where a log stands. At a record: `head`, and the next record's start or the log's end. At the log's end: a head of
 * length 0. False: the place is neither. */
static bool stand_at(const uint8_t *log, size_t have, size_t place, struct plain_head *head, size_t *after)
{
    *head = (struct plain_head){ .length = 0 };
    *after = place;
    struct plain_met met = plain_next_record(log, have, (struct plain_cursor){ 0, 0, 0, 0 });
    while (met.met && met.start != place)
        met = plain_next_record(log, have, met.next);
    if (!met.met)
        return place == have;
    size_t time = met.starts[time_frn(met.category) - 1];
    head->length = met.length;
    head->timed = time && !is_untimed(met.category, log[met.block + met.starts[type_frn(met.category) - 1]]);
    head->time = head->timed ? time_at(log + met.block + time) : 0;
    struct plain_met next = plain_next_record(log, have, met.next);
    *after = next.met ? next.start : have;
    return true;
}

/* What both ways of merging ask first: log A, log B, the offset. `log` is that of a log's own fault. */
static struct plain_fault check_logs(const uint8_t *a, size_t a_len, const uint8_t *b, size_t b_len, int64_t offset,
                                     unsigned *log)
{
    struct plain_fault fault = plain_check_recording(a, a_len).fault;
    *log = 0;
    if (fault.number)
        return fault;
    fault = plain_check_recording(b, b_len).fault;
    if (fault.number) {
        *log = 1;
        return fault;
    }
    return is_offset(offset) ? fine : refused(22, 0);
}

struct plain_stepped plain_merge_step(const uint8_t *a, size_t a_len, const uint8_t *b, size_t b_len, size_t place_a,
                                      size_t place_b, int64_t offset)
{
    struct plain_stepped answer = { .place_a = place_a, .place_b = place_b };
    struct plain_head in_a, in_b;
    size_t after_a, after_b;
    answer.fault = check_logs(a, a_len, b, b_len, offset, &answer.log);
    if (answer.fault.number)
        return answer;
    if (!stand_at(a, a_len, place_a, &in_a, &after_a) || !stand_at(b, b_len, place_b, &in_b, &after_b)) {
        answer.fault = refused(23, 0);
        return answer;
    }
    if (!in_a.length && !in_b.length)
        return answer;
    answer.met = true;
    if (in_a.length && (!in_b.length || goes_first(&in_a, &in_b, turn_of(offset)))) {
        answer.start = place_a;
        answer.length = in_a.length;
        answer.place_a = after_a;
    } else {
        answer.log = 1;
        answer.start = place_b;
        answer.length = in_b.length;
        answer.place_b = after_b;
    }
    return answer;
}

/* ---- Two logs: one record after another, each measured and no more */

/* The octet at a place of a log, which is taken as 0 past the end. */
static unsigned octet_at(const uint8_t *log, size_t at, size_t end)
{
    return at < end ? log[at] : 0;
}

/* How long the item at `at` is. Where its first octet tells, by that, and no more asked of it; else (it is compound, or FX may ask for
   more than one part more, or stands in no first octet) by its check, and 0 where that refuses it. */
static size_t span(const struct item *item, const uint8_t *log, size_t at, size_t end)
{
    const struct part *first = &item->parts[0];
    bool one_octet = first->octets == 1 && item->count == 2;
    if (item->layout == LED)
        return octet_at(log, at, end);
    if (item->layout == EXTENDED && one_octet)
        return 1 + (octet_at(log, at, end) & FX);
    if (item->layout != EXTENDED && item->layout != COMPOUND)
        return length_of(first, is_list(first) ? octet_at(log, at, end) : 1);
    size_t length = 0;
    struct plain_fault fault = at < end ? check_item(item, log + at, end - at, &length) : (struct plain_fault){ 9, 0 };
    return fault.number ? 0 : length;
}

/* The length and the time of the record at a head's cursor. False where there is none in its block. */
static bool measure_record(const uint8_t *log, struct plain_head *head)
{
    unsigned category = head->at.category;
    size_t start = head->at.place, end = head->at.end, octets = 0, time = 0, type = 0;
    struct set set;
    if (!is_category(category) || get_fspec(category, log + start, end - start, &set, &octets).number)
        return false;
    size_t at = start + octets;
    unsigned of_time = time_frn(category);
    for (unsigned frn = 1; frn <= last_frn(category); frn++) {
        if (frn == type_frn(category))
            type = at;
        if (!set.has[frn])
            continue;
        if (frn == of_time)
            time = at;
        at += span(layout_at(category, frn), log, at, end);
    }
    if (at > end)
        return false;
    head->length = at - start;
    head->timed = time && time + 3 <= end && !is_untimed(category, log[type]);
    head->time = head->timed ? time_at(log + time) : 0;
    return true;
}

/* The record at a cursor, or the first of the next block; where there is none, the log's end. */
static struct plain_head next_head(const uint8_t *log, size_t have, struct plain_cursor at)
{
    const struct plain_head none = { .at = { 0, have, have, 0 } };
    struct plain_head head = { .at = at };
    if (at.place > at.end || at.end > have)
        return none;
    if (at.place == at.end) { /* the next block */
        const uint8_t *block = log + at.end;
        size_t left = have - at.end;
        if (left <= HEAD || !is_category(block[0]) || len_of(block) <= HEAD || len_of(block) > left)
            return none;
        head.at = (struct plain_cursor){ at.end, at.end + HEAD, at.end + len_of(block), block[0] };
    }
    return measure_record(log, &head) ? head : none;
}

static bool is_head(const struct plain_head *head, size_t have)
{
    struct plain_cursor at = head->at;
    return at.end <= have && at.block <= at.place && at.place <= at.end && head->length != 0 &&
           head->length <= at.end - at.place;
}

struct plain_begun plain_begin_merge(const uint8_t *a, size_t a_len, const uint8_t *b, size_t b_len, int64_t offset)
{
    const struct plain_cursor start = { 0, 0, 0, 0 };
    struct plain_begun answer = { .log = 0 };
    answer.fault = check_logs(a, a_len, b, b_len, offset, &answer.log);
    if (answer.fault.number)
        return answer;
    answer.merge.a = next_head(a, a_len, start);
    answer.merge.b = next_head(b, b_len, start);
    answer.merge.turn = turn_of(offset);
    return answer;
}

size_t plain_next_merged(const uint8_t *a, size_t a_len, const uint8_t *b, size_t b_len, struct plain_merge *merge,
                         struct plain_merged *out, size_t room)
{
    size_t count = 0;
    merge->a.timed = merge->a.timed != 0; /* whatever it was, it comes back as 0 or 1 */
    merge->b.timed = merge->b.timed != 0;
    for (; count < room; count++) {
        bool in_a = is_head(&merge->a, a_len), in_b = is_head(&merge->b, b_len);
        if (!in_a && !in_b)
            break;
        bool from_a = in_a && (!in_b || goes_first(&merge->a, &merge->b, merge->turn));
        struct plain_head *head = from_a ? &merge->a : &merge->b;
        out[count] = (struct plain_merged){ !from_a, head->length, head->at };
        struct plain_cursor behind = head->at;
        behind.place += head->length;
        *head = from_a ? next_head(a, a_len, behind) : next_head(b, b_len, behind);
    }
    return count;
}

/* ---- Adding a record */

struct plain_length plain_add_record(uint8_t *out, size_t room, size_t used, uint64_t frns, const uint8_t *lent,
                                     size_t have)
{
    struct plain_length answer = { fine, false, 0 };

    /* the old block */
    if (used > room) {
        answer.fault = refused(16, 0);
        return answer;
    }
    answer.fault = check_head(out, used);
    if (answer.fault.number == 0 && len_of(out) != used)
        answer.fault = refused(3, 0);
    if (answer.fault.number == 0)
        answer.fault = check_records(out, used).fault;
    if (answer.fault.number)
        return answer;

    /* the new record */
    answer.in_new = true;
    unsigned category = out[0];
    struct set set = { { false } };
    for (unsigned frn = 0; frn <= MOST_FRN; frn++)
        set.has[frn] = frns >> (63 - frn) & 1;
    if (is_empty(&set)) {
        answer.fault = refused(7, 0);
        return answer;
    }
    if (has_unusable(category, &set)) {
        answer.fault = refused(8, 0);
        return answer;
    }
    size_t starts[PLAIN_FRNS] = { 0 }, length = 0;
    answer.fault = check_items(category, &set, lent, have, starts, &length);
    if (answer.fault.number)
        return answer;
    if (length < have) {
        answer.fault = refused(18, length);
        return answer;
    }
    answer.fault = check_type(category, &set, lent + starts[type_frn(category) - 1]);
    if (answer.fault.number)
        return answer;
    uint8_t fspec[MOST_FRN / 7];
    size_t octets = put_presence(&set, fspec), len = used + octets + length;
    if (len > MOST_LEN)
        answer.fault = refused(17, 0);
    else if (len > room)
        answer.fault = refused(16, 0);
    if (answer.fault.number)
        return answer;

    /* FSPEC, items, LEN */
    for (size_t i = 0; i < octets; i++)
        out[used + i] = fspec[i];
    for (size_t i = 0; i < length; i++)
        out[used + octets + i] = lent[i];
    out[1] = (uint8_t)(len / 256);
    out[2] = (uint8_t)(len % 256);
    answer.in_new = false;
    answer.length = len;
    return answer;
}

/* ---- Lengths by FSPEC octet */

size_t plain_least_length(unsigned category, size_t place, unsigned octet)
{
    size_t sum = 0;
    if (!is_category(category) || place >= last_frn(category) / 7)
        return 0;
    for (unsigned bit = 0; bit < 7; bit++) {
        const struct item *item = layout_at(category, (unsigned)place * 7 + bit + 1);
        if (octet >> (7 - bit) & 1 && item)
            sum += item->layout == FIXED || item->layout == EXTENDED ? item->parts->octets : 1;
    }
    return sum;
}

/* ---- Exercise sheets: the octets of one taken apart */

enum { FIELD_HEAD = 3, EDITION = 1, FIRST_MARK = 14, MARK = 8, MARK_WITHOUT_LOG = 7, MOST_TOLD = 65535 / MARK };

static uint32_t four_octets(const uint8_t *at)
{
    return (uint32_t)at[0] << 24 | (uint32_t)at[1] << 16 | (uint32_t)at[2] << 8 | at[3];
}

static int64_t get_offset(const uint8_t *at)
{
    int64_t value = four_octets(at);
    return value < (int64_t)1 << 31 ? value : value - ((int64_t)1 << 32);
}

static struct plain_mark get_mark(const uint8_t *at)
{
    return (struct plain_mark){ four_octets(at), at[4], at[5], at[6] };
}

static bool is_mark(struct plain_mark mark)
{
    return mark.log <= 1 && mark.station <= 5;
}

/* Whether a mark may stand before another. */
static bool is_below(struct plain_mark mark, struct plain_mark other)
{
    return mark.log != other.log ? mark.log < other.log : mark.place < other.place;
}

/* The first `count` marks, and where the first at fault starts: one that is barred, or not above the one before it.
 * `count` times eight where none is. */
static size_t get_marks(const uint8_t *at, size_t count, struct plain_mark *to)
{
    for (size_t i = 0; i < count; i++) {
        to[i] = get_mark(at + i * MARK);
        if (!is_mark(to[i]) || at[i * MARK + 7] != 0)
            return i * MARK;
        if (i > 0 && !is_below(to[i - 1], to[i]))
            return i * MARK;
    }
    return count * MARK;
}

/* The field that starts at `at`, or would: how long its body is. 31 where nothing is left, 30, 31, at its start. */
static struct plain_fault open_field(const uint8_t *sheet, size_t have, size_t at, unsigned tag, size_t *length)
{
    size_t left = have - at;
    if (left == 0)
        return refused(31, at);
    if (left < FIELD_HEAD)
        return refused(30, at);
    *length = (size_t)sheet[at + 1] * 256 + sheet[at + 2];
    if (*length > left - FIELD_HEAD)
        return refused(30, at);
    return sheet[at] == tag ? fine : refused(31, at);
}

/* Each of the three fields at `*at`, which goes on behind it. */

static struct plain_fault get_edition_field(const uint8_t *sheet, size_t have, size_t *at, struct plain_sheet *to)
{
    size_t length = 0, start = *at;
    struct plain_fault fault = open_field(sheet, have, start, 1, &length);
    if (fault.number)
        return fault;
    if (length != 1)
        return refused(32, start);
    to->edition = sheet[start + FIELD_HEAD];
    *at = start + FIELD_HEAD + length;
    return to->edition == EDITION ? fine : refused(33, start);
}

static struct plain_fault get_offset_field(const uint8_t *sheet, size_t have, size_t *at, struct plain_sheet *to)
{
    size_t length = 0, start = *at;
    struct plain_fault fault = open_field(sheet, have, start, 2, &length);
    if (fault.number)
        return fault;
    if (length != 4)
        return refused(32, start);
    to->offset = get_offset(sheet + start + FIELD_HEAD);
    *at = start + FIELD_HEAD + length;
    return is_offset(to->offset) ? fine : refused(33, start);
}

static struct plain_fault get_marks_field(const uint8_t *sheet, size_t have, size_t *at, struct plain_sheet *to)
{
    size_t length = 0, start = *at;
    struct plain_fault fault = open_field(sheet, have, start, 3, &length);
    if (fault.number)
        return fault;
    if (length % MARK != 0)
        return refused(32, start);
    if (length / MARK > PLAIN_MARKS)
        return refused(34, start);
    size_t body = start + FIELD_HEAD, good = get_marks(sheet + body, length / MARK, to->mark);
    if (good < length)
        return refused(33, body + good);
    to->marks = (struct plain_marks){ body, length / MARK, length / MARK, 0 };
    *at = body + length;
    return fine;
}

struct plain_sheet plain_read_sheet(const uint8_t *sheet, size_t have)
{
    struct plain_sheet answer = { .edition = 0 };
    size_t at = 0;
    struct plain_fault fault = get_edition_field(sheet, have, &at, &answer);
    if (!fault.number)
        fault = get_offset_field(sheet, have, &at, &answer);
    if (!fault.number)
        fault = get_marks_field(sheet, have, &at, &answer);
    if (!fault.number && at < have)
        fault = refused(31, at);
    return fault.number ? (struct plain_sheet){ .fault = fault } : answer;
}

struct plain_found plain_find_mark(const uint8_t *sheet, size_t have, struct plain_marks marks, size_t n)
{
    const struct plain_found none = { .found = false };
    size_t each = marks.split ? MARK_WITHOUT_LOG : MARK, between = marks.split ? FIELD_HEAD : 0;
    if (marks.base > FIRST_MARK || marks.count > MOST_TOLD || n >= marks.count)
        return none;
    if (marks.base + between + marks.count * each > have)
        return none;
    const uint8_t *at = sheet + marks.base + n * each;
    if (!marks.split)
        return (struct plain_found){ true, get_mark(at) };
    unsigned log = n >= marks.first;
    if (log)
        at += between;
    return (struct plain_found){ true, { four_octets(at), log, at[4], at[5] } };
}

/* ---- Exercise sheets: one put together */

static struct plain_length not_put(struct plain_fault fault)
{
    return (struct plain_length){ fault, false, 0 };
}

static void put_number(uint8_t *to, size_t octets, uint32_t number)
{
    for (size_t i = octets; i > 0; i--) {
        to[i - 1] = (uint8_t)number;
        number >>= 8;
    }
}

static uint8_t *put_head(uint8_t *to, unsigned tag, size_t length)
{
    put_number(to, 1, tag);
    put_number(to + 1, 2, (uint32_t)length);
    return to + FIELD_HEAD;
}

/* The sheet of an offset and marks that are as they should be, at the start of `out`. Refuses by 16. */
static struct plain_length put_sheet(int64_t offset, const struct plain_mark *mark, size_t count, uint8_t *out,
                                     size_t room)
{
    size_t length = FIRST_MARK + count * MARK;
    if (length > room)
        return not_put(refused(16, 0));
    uint8_t *at = put_head(out, 1, 1);
    put_number(at, 1, EDITION);
    at = put_head(at + 1, 2, 4);
    put_number(at, 4, (uint32_t)offset);
    at = put_head(at + 4, 3, count * MARK);
    for (size_t i = 0; i < count; i++, at += MARK) {
        put_number(at, 4, mark[i].place);
        put_number(at + 4, 1, mark[i].log);
        put_number(at + 5, 1, mark[i].station);
        put_number(at + 6, 1, mark[i].comment);
        put_number(at + 7, 1, 0);
    }
    return (struct plain_length){ fine, false, length };
}

struct plain_length plain_write_sheet(int64_t offset, const uint8_t *marks, size_t have, uint8_t *out, size_t room)
{
    struct plain_mark mark[PLAIN_MARKS];
    size_t count = have / MARK;
    if (count > PLAIN_MARKS)
        return not_put(refused(34, 0));
    if (!is_offset(offset) || have % MARK != 0 || get_marks(marks, count, mark) < have)
        return not_put(refused(33, 0));
    return put_sheet(offset, mark, count, out, room);
}

/* ---- Exercise sheets: one changed */

/* The number of the first mark that is not below this one: where it is, or would belong. */
static size_t place_of(const struct plain_sheet *sheet, struct plain_mark mark)
{
    size_t i = 0;
    while (i < sheet->marks.count && is_below(sheet->mark[i], mark))
        i++;
    return i;
}

/* Whether the mark with a number is at the same log and place as this one. */
static bool is_there(const struct plain_sheet *sheet, size_t i, struct plain_mark mark)
{
    return i < sheet->marks.count && sheet->mark[i].log == mark.log && sheet->mark[i].place == mark.place;
}

struct plain_length plain_add_mark(const uint8_t *sheet, size_t have, struct plain_mark mark, uint8_t *out,
                                   size_t room)
{
    struct plain_sheet read = plain_read_sheet(sheet, have);
    if (read.fault.number)
        return not_put(read.fault);
    if (!is_mark(mark))
        return not_put(refused(33, 0));
    size_t count = read.marks.count, at = place_of(&read, mark);
    if (is_there(&read, at, mark))
        return not_put(refused(35, 0));
    if (count == PLAIN_MARKS)
        return not_put(refused(34, 0));
    for (size_t i = count; i > at; i--)
        read.mark[i] = read.mark[i - 1];
    read.mark[at] = mark;
    return put_sheet(read.offset, read.mark, count + 1, out, room);
}

struct plain_length plain_remove_mark(const uint8_t *sheet, size_t have, unsigned log, uint32_t place, uint8_t *out,
                                      size_t room)
{
    struct plain_sheet read = plain_read_sheet(sheet, have);
    struct plain_mark mark = { .place = place, .log = log };
    if (read.fault.number)
        return not_put(read.fault);
    size_t at = place_of(&read, mark);
    if (!is_there(&read, at, mark))
        return not_put(refused(36, 0));
    for (size_t i = at; i + 1 < read.marks.count; i++)
        read.mark[i] = read.mark[i + 1];
    return put_sheet(read.offset, read.mark, read.marks.count - 1, out, room);
}

struct plain_length plain_empty_sheet(const uint8_t *sheet, size_t have, uint8_t *out, size_t room)
{
    struct plain_sheet read = plain_read_sheet(sheet, have);
    if (read.fault.number)
        return not_put(read.fault);
    return put_sheet(read.offset, read.mark, 0, out, room);
}
