/* answers < QUESTIONS: answers each line of standard input, a question, by the functions of include/asterix.h,
 * whichever it is linked with. tests/vectors/README.md says what questions and answers look like.
 *
 * Any octets may come, in lines of any length, the last with a line feed or without. Memory is that of the longest
 * line and no more: octets are put where their digits stood, and an answer is written as it is found. Status 0 once
 * every line is answered; 2, with a line on standard error, where standard input cannot be read, a line is longer
 * than memory holds (the lines before it are answered), or standard output cannot be written.
 *
 * Beside answering it asks the same in other ways, and looks at what was lent: a remark in brackets then stands in the
 * answer, so that it is not the one expected.
 *
 * In order: the answer as text; a line's words; the questions about one block, recording or item; two logs; exercise
 * sheets; the table of questions; the lines. */
#include <errno.h>
#include <inttypes.h>
#include <stdbool.h>
#include <stdio.h>
#include <stdlib.h>
#include <string.h>
#include <sys/types.h>

#include "asterix.h"
#include "tables.h"

/* A way that takes the square of a length is only tried up to this one. */
enum { SHORT = 4000 };

/* More room than any item, block or sheet needs; what lent octets and numbers hold before a call. */
enum { ROOM = 65536, BLANK = 0xA5 };

/* ---- The answer, as text */

static void say(const char *text)
{
    fputs(text, stdout);
}

static void say_number(size_t n)
{
    printf("%zu", n);
}

static void say_numbers(const char *before, size_t n, size_t m)
{
    printf("%s%zu %zu", before, n, m);
}

static void say_refused(unsigned number, size_t place)
{
    printf("refused %u at %zu", number, place);
}

static void say_octets(const uint8_t *octets, size_t n)
{
    static const char digits[] = "0123456789ABCDEF";
    if (n == 0)
        say("-");
    for (size_t i = 0; i < n; i++) {
        putchar(digits[octets[i] / 16]);
        putchar(digits[octets[i] % 16]);
    }
}

static void say_fields(const int64_t *fields, size_t n)
{
    if (n == 0)
        say("-");
    for (size_t i = 0; i < n; i++) {
        if (i > 0)
            say(",");
        if (fields[i] == ASTERIX_ABSENT)
            say("x");
        else
            printf("%" PRId64, fields[i]);
    }
}

/* ---- A line's words: parts of it, with one separator between. A reader answers whether its word is what it reads. */

struct word {
    char *at;
    size_t length;
};

/* Cuts the first word off. There is always one, which may be empty; false where no separator ends it. */
static bool cut_word(struct word *line, char separator, struct word *first)
{
    char *end = memchr(line->at, separator, line->length);
    *first = *line;
    if (!end)
        return false;
    first->length = (size_t)(end - line->at);
    line->at = end + 1;
    line->length -= first->length + 1;
    return true;
}

static bool is_word(struct word word, const char *text)
{
    return word.length == strlen(text) && memcmp(word.at, text, word.length) == 0;
}

/* One or more digits. A number greater than `most`, which is the greatest that a call can be given or that means
 * something to it, counts as `most`: no category has an item 65535 or an FRN 63, no log has 2^64 - 1 octets. */
static bool take_number(struct word word, uint64_t most, uint64_t *n)
{
    *n = 0;
    for (size_t i = 0; i < word.length; i++) {
        if (word.at[i] < '0' || word.at[i] > '9')
            return false;
        uint64_t digit = (uint64_t)(word.at[i] - '0');
        *n = most < digit || *n > (most - digit) / 10 ? most : *n * 10 + digit;
    }
    return word.length > 0;
}

/* The same for a number that no other stands for: one that is not below `limit` is none. */
static bool take_below(struct word word, uint64_t limit, uint64_t *n)
{
    return take_number(word, limit, n) && *n < limit;
}

/* Cuts a minus off the front, where there is one. */
static bool cut_minus(struct word *word)
{
    bool below = word->length > 0 && word->at[0] == '-';
    word->at += below;
    word->length -= below;
    return below;
}

static int64_t with_sign(bool below, uint64_t size)
{
    return below ? -(int64_t)(size / 2) - (int64_t)(size - size / 2) : (int64_t)size;
}

/* A number perhaps with a minus in front; the nearest that 64 bits hold. */
static bool take_signed(struct word word, int64_t *n)
{
    uint64_t size;
    bool below = cut_minus(&word), taken = take_number(word, (uint64_t)INT64_MAX + below, &size);
    *n = with_sign(below, size);
    return taken;
}

/* The same; none where 64 bits do not hold it. */
static bool take_64_bits(struct word word, int64_t *n)
{
    uint64_t size;
    bool below = cut_minus(&word), taken = take_below(word, (uint64_t)INT64_MAX + below + 1, &size);
    *n = taken ? with_sign(below, size) : 0;
    return taken;
}

static bool take_category(struct word word, uint8_t *category)
{
    uint64_t n;
    bool taken = take_below(word, 256, &n);
    *category = (uint8_t)n;
    return taken;
}

static bool take_reference(struct word word, uint16_t *reference)
{
    uint64_t n;
    bool taken = take_number(word, 65535, &n);
    *reference = (uint16_t)n;
    return taken;
}

static int digit(char c)
{
    return c >= '0' && c <= '9'   ? c - '0'
           : c >= 'A' && c <= 'F' ? c - 'A' + 10
           : c >= 'a' && c <= 'f' ? c - 'a' + 10
                                  : -1;
}

struct octets {
    uint8_t *at;
    size_t count;
};

/* A minus alone, or pairs of digits, which give way to their octets. */
static bool take_octets(struct word word, struct octets *octets)
{
    *octets = (struct octets){ (uint8_t *)word.at, word.length / 2 };
    if (is_word(word, "-"))
        return true;
    for (size_t i = 0; i + 1 < word.length; i += 2) {
        int high = digit(word.at[i]), low = digit(word.at[i + 1]);
        if (high < 0 || low < 0)
            return false;
        octets->at[i / 2] = (uint8_t)(high * 16 + low);
    }
    return word.length > 0 && word.length % 2 == 0;
}

/* A number perhaps with a minus in front, or `x` for what is absent. One that 64 bits do not hold does not stand for
 * that, but for another that no field has. */
static bool take_field(struct word word, int64_t *n)
{
    bool absent = is_word(word, "x");
    if (absent)
        *n = ASTERIX_ABSENT;
    if (absent || take_64_bits(word, n))
        return true;
    bool taken = take_signed(word, n);
    *n += *n == ASTERIX_ABSENT;
    return taken;
}

/* A minus alone, or fields with commas between. No item has as many as are kept, so that what is answered hangs on
 * none after them. */
static bool take_list(struct word word, int64_t kept[ASTERIX_FIELDS], size_t *count)
{
    *count = 0;
    if (is_word(word, "-"))
        return true;
    for (bool more = true; more;) {
        struct word one;
        int64_t n;
        more = cut_word(&word, ',', &one);
        if (!take_field(one, &n))
            return false;
        if (*count < ASTERIX_FIELDS)
            kept[(*count)++] = n;
    }
    return true;
}

static bool take_frns(struct word word, uint64_t *set)
{
    *set = 0;
    if (is_word(word, "-"))
        return true;
    for (bool more = true; more;) {
        struct word one;
        uint64_t frn;
        more = cut_word(&word, ',', &one);
        if (!take_number(one, 63, &frn))
            return false;
        *set |= asterix_frn((unsigned)frn);
    }
    return true;
}

/* PLACE:LOG:STATION:COMMENT. */
static bool take_mark(struct word word, struct asterix_mark *mark)
{
    static const uint64_t limits[] = { (uint64_t)1 << 32, 256, 256, 256 };
    uint64_t n[COUNT(limits)];
    for (size_t i = 0; i < COUNT(limits); i++) {
        struct word one;
        bool more = cut_word(&word, ':', &one);
        if (more == (i + 1 == COUNT(limits)) || !take_below(one, limits[i], &n[i]))
            return false;
    }
    *mark = (struct asterix_mark){ (uint32_t)n[0], (uint8_t)n[1], (uint8_t)n[2], (uint8_t)n[3] };
    return true;
}

/* A minus alone, or marks with commas between, which give way to their octets: a mark and the comma or space before it
 * are no fewer characters than those. */
static bool take_marks(struct word word, struct octets *marks)
{
    *marks = (struct octets){ (uint8_t *)word.at - 1, 0 };
    if (is_word(word, "-"))
        return true;
    for (bool more = true; more; marks->count += ASTERIX_MARK_BYTES) {
        struct word one;
        struct asterix_mark mark;
        more = cut_word(&word, ',', &one);
        if (!take_mark(one, &mark))
            return false;
        asterix_put_mark(mark, marks->at + marks->count);
    }
    return true;
}

/* ---- The questions about one block, recording or item. Each takes the words after the first; false where one of them
 * is not what its place asks for, and then nothing is said. */

static int64_t fields[ASTERIX_FIELDS];
static uint8_t out[ROOM];

static bool is_blank(const void *from, size_t size)
{
    const uint8_t *octets = from;
    return size == 0 || (octets[0] == BLANK && memcmp(octets, octets + 1, size - 1) == 0);
}

/* The item at an FRN of a record that was met: it ends where the next starts. */
static size_t item_end(const struct asterix_record_met *record, unsigned frn)
{
    for (unsigned next = frn + 1; next <= ASTERIX_FRNS; next++)
        if (record->starts[next - 1])
            return record->starts[next - 1];
    return record->end;
}

/* Whether finding record n, and each of its items, hands back what the walk met. */
static bool is_found(struct octets block, size_t n, const struct asterix_record_met *met)
{
    struct asterix_record_found record = asterix_find_record(block.at, block.count, n);
    bool same = !record.number && record.start == met->start && record.length == met->length &&
                record.end == met->end && record.count == met->count &&
                memcmp(record.starts, met->starts, sizeof record.starts) == 0;
    for (unsigned frn = 1; same && frn <= ASTERIX_FRNS; frn++) {
        size_t start = met->starts[frn - 1];
        uint16_t reference = (uint16_t)reference_at(met->category, frn);
        if (start == 0)
            continue;
        struct asterix_item_found item = asterix_find_item(block.at, block.count, reference, n);
        same = !item.number && item.start == start && item.length == item_end(met, frn) - start;
    }
    return same;
}

static void say_record(struct octets block, const struct asterix_record_met *record)
{
    say_numbers(" | ", record->start, record->end);
    for (unsigned frn = 1; frn <= ASTERIX_FRNS; frn++) {
        size_t start = record->starts[frn - 1];
        if (start == 0)
            continue;
        uint16_t reference = (uint16_t)reference_at(record->category, frn);
        struct asterix_item_read read =
            asterix_read_item(record->category, reference, block.at + start, item_end(record, frn) - start, fields);
        printf(" %03u=", reference);
        say_fields(fields, read.count);
        if (read.number)
            say("(not read)");
    }
}

/* The records by walking, since finding one checks the whole block. */
static void say_records(struct octets block)
{
    size_t n = 0;
    struct asterix_record_met record = asterix_next_record(block.at, block.count, asterix_start());
    for (; record.met; record = asterix_next_record(block.at, block.count, record.next), n++) {
        say_record(block, &record);
        if (block.count <= SHORT && !is_found(block, n, &record))
            say(" (found otherwise)");
    }
    if (record.number)
        say(" (walked otherwise)");
}

static bool ask_block(const struct word *word)
{
    struct octets block;
    if (!take_octets(word[0], &block))
        return false;
    struct asterix_block_checked checked = asterix_check_block(block.at, block.count);
    if (checked.number) {
        say_refused(checked.number, checked.place);
        return true;
    }
    say("ok ");
    say_number(checked.records);
    say_records(block);
    return true;
}

static bool ask_recording(const struct word *word)
{
    struct octets recording;
    if (!take_octets(word[0], &recording))
        return false;
    struct asterix_recording_checked checked = asterix_check_recording(recording.at, recording.count);
    if (checked.number)
        say_refused(checked.number, checked.place);
    else
        say_numbers("ok ", checked.blocks, checked.records);
    return true;
}

static bool ask_read(const struct word *word)
{
    uint8_t category;
    uint16_t reference;
    struct octets item;
    if (!take_category(word[0], &category) || !take_reference(word[1], &reference) || !take_octets(word[2], &item))
        return false;
    memset(fields, BLANK, sizeof fields);
    struct asterix_item_read read = asterix_read_item(category, reference, item.at, item.count, fields);
    if (read.number)
        say_refused(read.number, read.place);
    else {
        say("ok ");
        say_fields(fields, read.count);
    }
    if (!is_blank(fields + read.count, sizeof fields - read.count * sizeof *fields))
        say(" (other fields changed)");
    return true;
}

/* What was written to the first `room` of `out`, or why nothing was. */
static void say_written(unsigned number, size_t place, size_t length, size_t room)
{
    if (number)
        say_refused(number, place);
    else {
        say("ok ");
        say_number(length);
        say(" ");
        say_octets(out, length);
    }
    if (!is_blank(out + length, room - length))
        say(" (other octets changed)");
}

static bool ask_write(const struct word *word)
{
    uint8_t category;
    uint16_t reference;
    uint64_t room;
    size_t count;
    if (!take_category(word[0], &category) || !take_reference(word[1], &reference) ||
        !take_number(word[2], ROOM, &room) || !take_list(word[3], fields, &count))
        return false;
    memset(out, BLANK, room);
    struct asterix_item_written written = asterix_write_item(category, reference, fields, count, out, room);
    say_written(written.number, written.place, written.length, room);
    return true;
}

/* Whether the octets in use, and those behind them, are as they were lent. */
static bool is_kept(const uint8_t *block, size_t room, const uint8_t *old, size_t used)
{
    size_t both = room < used ? room : used;
    return memcmp(block, old, both) == 0 && is_blank(block + both, room - both);
}

/* Room that no block needs counts as ROOM, or as the octets in use where those are more: then they are no block. So
 * that such ones take no memory, what is lent is a copy where the last of their digits stood. */
static bool ask_add(const struct word *word)
{
    struct octets old, items;
    uint64_t room, set;
    if (!take_octets(word[0], &old) || !take_number(word[1], old.count < ROOM ? ROOM : old.count, &room) ||
        !take_frns(word[2], &set) || !take_octets(word[3], &items))
        return false;
    uint8_t *block = old.count <= ROOM ? out : old.at + old.count;
    if (room > old.count)
        memset(block, BLANK, room);
    memcpy(block, old.at, old.count);
    struct asterix_record_added added = asterix_add_record(block, room, old.count, set, items.at, items.count);
    if (added.number) {
        say_refused(added.number, added.place);
        say(added.in_new ? " new" : " old");
        if (!is_kept(block, room, old.at, old.count))
            say(" (changed)");
        return true;
    }
    say("ok ");
    say_number(added.length);
    say(" ");
    say_octets(block, added.length);
    if (!is_blank(block + added.length, room - added.length))
        say(" (other octets changed)");
    return true;
}

static bool ask_find(const struct word *word)
{
    struct octets block;
    uint16_t reference;
    uint64_t n;
    if (!take_octets(word[0], &block) || !take_reference(word[1], &reference) ||
        !take_number(word[2], UINT64_MAX, &n))
        return false;
    struct asterix_item_found item = asterix_find_item(block.at, block.count, reference, n);
    if (item.number) {
        say_refused(item.number, item.place);
        return true;
    }
    say_numbers("ok ", item.start, item.length);
    say(" ");
    say_octets(block.at + item.start, item.length);
    return true;
}

static bool ask_record(const struct word *word)
{
    struct octets block;
    uint64_t n;
    if (!take_octets(word[0], &block) || !take_number(word[1], UINT64_MAX, &n))
        return false;
    struct asterix_record_found record = asterix_find_record(block.at, block.count, n);
    if (record.number) {
        say_refused(record.number, record.place);
        return true;
    }
    say_numbers("ok ", record.start, record.length);
    say(" ");
    say_number(record.count);
    for (unsigned frn = 1; frn <= ASTERIX_FRNS; frn++)
        if (record.starts[frn - 1])
            printf(" %u@%u", frn, (unsigned)record.starts[frn - 1]);
    return true;
}

static bool ask_least(const struct word *word)
{
    uint8_t category;
    uint64_t place;
    struct octets octet;
    if (!take_category(word[0], &category) || !take_number(word[1], UINT64_MAX, &place) ||
        !take_octets(word[2], &octet) || octet.count != 1)
        return false;
    say("ok ");
    say_number(asterix_least_length(category, place, octet.at[0]));
    return true;
}

/* ---- Two logs */

struct logs {
    struct octets a, b;
    int64_t offset;
};

static void say_merge_refused(unsigned number, size_t place, unsigned log)
{
    say_refused(number, place);
    if (number <= ASTERIX_ITEM_UNSENT) /* a log's own */
        say(log ? " B" : " A");
    else if (log)
        say(" (of a log)");
}

static struct asterix_merge_stepped step_from(const struct logs *logs, size_t place_a, size_t place_b)
{
    return asterix_merge_step(logs->a.at, logs->a.count, logs->b.at, logs->b.count, place_a, place_b, logs->offset);
}

static bool ask_merge(const struct word *word)
{
    struct logs logs;
    uint64_t place_a, place_b;
    if (!take_signed(word[0], &logs.offset) || !take_number(word[1], UINT64_MAX, &place_a) ||
        !take_number(word[2], UINT64_MAX, &place_b) || !take_octets(word[3], &logs.a) ||
        !take_octets(word[4], &logs.b))
        return false;
    struct asterix_merge_stepped step = step_from(&logs, place_a, place_b);
    if (step.met) {
        say_numbers(step.log ? "next B " : "next A ", step.start, step.length);
        say_numbers(" ", step.place_a, step.place_b);
        return true;
    }
    if (step.number)
        say_merge_refused(step.number, step.place, step.log);
    else
        say_numbers("finished ", step.place_a, step.place_b);
    if (step.start || step.length || step.place_a != place_a || step.place_b != place_b)
        say(" (and a part, or other places)");
    return true;
}

/* One way to go through two logs: by a merge, `room` records at a call, or where that is 0 by steps, each from the
 * places that the one before told. */
struct way {
    size_t room;
    uint8_t number, log; /* of a refusal */
    size_t place;
    struct asterix_merge merge;
    struct asterix_merged came[64];
    size_t count, next; /* of those that came, how many there are and which comes next */
    size_t place_a, place_b;
};

static void begin(struct way *way, size_t room, const struct logs *logs)
{
    *way = (struct way){ .room = room, .place_a = logs->a.count ? 3 : 0, .place_b = logs->b.count ? 3 : 0 };
    if (room == 0)
        return;
    struct asterix_merge_begun begun =
        asterix_begin_merge(logs->a.at, logs->a.count, logs->b.at, logs->b.count, logs->offset);
    way->merge = begun.merge;
    way->number = begun.number;
    way->log = begun.log;
    way->place = begun.place;
}

static void come_by_step(struct way *way, const struct logs *logs)
{
    struct asterix_merge_stepped step = step_from(logs, way->place_a, way->place_b);
    way->number = step.number;
    way->log = step.number ? step.log : 0;
    way->place = step.place;
    way->count = step.met;
    way->came[0] = (struct asterix_merged){ step.log, step.length, { .place = step.start } };
    way->place_a = step.place_a;
    way->place_b = step.place_b;
}

static void come_merged(struct way *way, const struct logs *logs)
{
    struct asterix_merge_next next =
        asterix_next_merged(logs->a.at, logs->a.count, logs->b.at, logs->b.count, way->merge, way->came, way->room);
    way->merge = next.merge;
    way->count = next.count;
}

/* The next record; NULL where there is none, which asking again does not change. */
static const struct asterix_merged *next_by(struct way *way, const struct logs *logs)
{
    if (way->next == way->count) {
        way->next = way->count = 0;
        if (way->room == 0)
            come_by_step(way, logs);
        else if (way->number == 0)
            come_merged(way, logs);
    }
    return way->next < way->count ? &way->came[way->next++] : NULL;
}

static bool is_same(const struct asterix_merged *one, const struct asterix_merged *other)
{
    if (!one || !other)
        return one == other;
    return one->log == other->log && one->length == other->length && one->at.place == other->at.place;
}

/* Whether the walk meets it at its cursor. */
static bool is_met(const struct logs *logs, const struct asterix_merged *record)
{
    const struct octets *log = record->log ? &logs->b : &logs->a;
    struct asterix_record_met met = asterix_next_record(log->at, log->count, record->at);
    return met.met && met.start == record->at.place && met.length == record->length;
}

/* How many records come out, once every way has been gone side by side to its end and a call further. */
static size_t count_merged(const struct logs *logs, struct way *first)
{
    static struct way others[3];
    static const size_t rooms[] = { 1, 7, 0 };
    size_t ways = logs->a.count + logs->b.count <= SHORT ? 3 : 2, count = 0;
    begin(first, 64, logs);
    for (size_t i = 0; i < ways; i++)
        begin(&others[i], rooms[i], logs);
    for (int ends = 0; ends < 2;) {
        const struct asterix_merged *record = next_by(first, logs);
        for (size_t i = 0; i < ways; i++)
            if (!is_same(record, next_by(&others[i], logs)) || first->number != others[i].number ||
                first->log != others[i].log || first->place != others[i].place) {
                say(rooms[i] ? "(otherwise with other room) " : "(otherwise by steps) ");
                return count;
            }
        if (record && ends)
            say("(more after the end) ");
        if (record && !is_met(logs, record))
            say("(came out, and not met) ");
        if (record)
            count++;
        else
            ends++;
    }
    return count;
}

static bool ask_mergerun(const struct word *word)
{
    static struct way way;
    struct logs logs;
    if (!take_signed(word[0], &logs.offset) || !take_octets(word[1], &logs.a) || !take_octets(word[2], &logs.b))
        return false;
    size_t count = count_merged(&logs, &way);
    if (way.number) {
        say_merge_refused(way.number, way.place, way.log);
        return true;
    }
    say("ok ");
    say_number(count);
    begin(&way, 64, &logs);
    for (const struct asterix_merged *record; (record = next_by(&way, &logs));)
        printf(record->log ? " B@%zu" : " A@%zu", record->at.place);
    return true;
}

/* ---- Exercise sheets */

/* Octets that were lent to be read, by a number that one changed octet changes. */
static uint64_t digest(struct octets octets)
{
    uint64_t sum = octets.count;
    for (size_t i = 0; i < octets.count; i++)
        sum = (sum ^ octets.at[i]) * 0x100000001B3;
    return sum;
}

static void say_kept(struct octets lent, uint64_t was)
{
    if (digest(lent) != was)
        say(" (lent octets changed)");
}

/* A sheet made the other way, to be held to one that was asked about. */
static uint8_t again[ASTERIX_SHEET_BYTES];

static bool is_again(struct asterix_sheet_written made, struct octets sheet)
{
    return !made.number && made.length == sheet.count && memcmp(again, sheet.at, sheet.count) == 0;
}

/* The octets of a sheet's marks, as they are found one by one. False where they are not as many as it says. */
static uint8_t found[ASTERIX_MARKS * ASTERIX_MARK_BYTES];

static bool find_marks(struct octets sheet, struct asterix_marks marks)
{
    if (marks.count > ASTERIX_MARKS)
        return false;
    for (size_t i = 0; i < marks.count; i++) {
        struct asterix_mark_found one = asterix_find_mark(sheet.at, sheet.count, marks, i);
        if (!one.found)
            return false;
        asterix_put_mark(one.mark, found + i * ASTERIX_MARK_BYTES);
    }
    return !asterix_find_mark(sheet.at, sheet.count, marks, marks.count).found;
}

static void say_marks(struct octets sheet, const struct asterix_sheet_read *read)
{
    printf("ok %u %" PRId64 " %zu", read->edition, read->offset, read->marks.count);
    for (size_t i = 0; i < read->marks.count; i++) {
        struct asterix_mark mark = asterix_find_mark(sheet.at, sheet.count, read->marks, i).mark;
        printf(" %u:%u:%u:%u", (unsigned)mark.place, mark.log, mark.station, mark.comment);
    }
    if (!find_marks(sheet, read->marks)) {
        say(" (found otherwise)");
        return;
    }
    size_t length = read->marks.count * ASTERIX_MARK_BYTES;
    if (!is_again(asterix_write_sheet(read->offset, found, length, again, sizeof again), sheet))
        say(" (written otherwise)");
}

static bool ask_sheetread(const struct word *word)
{
    struct octets sheet;
    if (!take_octets(word[0], &sheet))
        return false;
    uint64_t was = digest(sheet);
    struct asterix_sheet_read read = asterix_read_sheet(sheet.at, sheet.count);
    struct asterix_marks marks = read.marks;
    if (read.number) {
        say_refused(read.number, read.place);
        if (read.edition || read.offset || marks.base || marks.first || marks.count || marks.split)
            say(" (and a sheet)");
    } else
        say_marks(sheet, &read);
    say_kept(sheet, was);
    return true;
}

/* Whether a sheet is read as one of this offset and these marks. */
static bool is_read(struct octets sheet, int64_t offset, struct octets marks)
{
    struct asterix_sheet_read read = asterix_read_sheet(sheet.at, sheet.count);
    return !read.number && read.offset == offset && find_marks(sheet, read.marks) &&
           read.marks.count * ASTERIX_MARK_BYTES == marks.count && memcmp(found, marks.at, marks.count) == 0;
}

static bool ask_sheetwrite(const struct word *word)
{
    uint64_t room;
    int64_t offset;
    struct octets marks;
    if (!take_number(word[0], ROOM, &room) || !take_64_bits(word[1], &offset) || !take_marks(word[2], &marks))
        return false;
    uint64_t was = digest(marks);
    memset(out, BLANK, room);
    struct asterix_sheet_written written = asterix_write_sheet(offset, marks.at, marks.count, out, room);
    say_written(written.number, written.place, written.length, room);
    if (!written.number && !is_read((struct octets){ out, written.length }, offset, marks))
        say(" (read otherwise)");
    say_kept(marks, was);
    return true;
}

static bool ask_sheetadd(const struct word *word)
{
    struct octets sheet;
    struct asterix_mark mark;
    uint64_t room;
    if (!take_octets(word[0], &sheet) || !take_mark(word[1], &mark) || !take_number(word[2], ROOM, &room))
        return false;
    uint64_t was = digest(sheet);
    memset(out, BLANK, room);
    struct asterix_sheet_written added = asterix_add_mark(sheet.at, sheet.count, mark, out, room);
    say_written(added.number, added.place, added.length, room);
    size_t length = added.length;
    if (!added.number &&
        !is_again(asterix_remove_mark(out, length, mark.log, mark.place, again, sizeof again), sheet))
        say(" (removed otherwise)");
    say_kept(sheet, was);
    return true;
}

/* The mark of a sheet at a log and place; its last where it has none there. */
static struct asterix_mark mark_at(struct octets sheet, uint8_t log, uint32_t place)
{
    struct asterix_sheet_read read = asterix_read_sheet(sheet.at, sheet.count);
    struct asterix_mark mark = { 0, 0, 0, 0 };
    for (size_t i = 0; i < read.marks.count; i++) {
        mark = asterix_find_mark(sheet.at, sheet.count, read.marks, i).mark;
        if (mark.log == log && mark.place == place)
            break;
    }
    return mark;
}

static bool ask_sheetremove(const struct word *word)
{
    struct octets sheet;
    uint64_t log, place, room;
    if (!take_octets(word[0], &sheet) || !take_below(word[1], 256, &log) ||
        !take_below(word[2], (uint64_t)1 << 32, &place) || !take_number(word[3], ROOM, &room))
        return false;
    uint64_t was = digest(sheet);
    struct asterix_mark mark = mark_at(sheet, (uint8_t)log, (uint32_t)place);
    memset(out, BLANK, room);
    struct asterix_sheet_written removed =
        asterix_remove_mark(sheet.at, sheet.count, (uint8_t)log, (uint32_t)place, out, room);
    say_written(removed.number, removed.place, removed.length, room);
    if (!removed.number && !is_again(asterix_add_mark(out, removed.length, mark, again, sizeof again), sheet))
        say(" (added otherwise)");
    say_kept(sheet, was);
    return true;
}

static bool ask_sheetempty(const struct word *word)
{
    struct octets sheet;
    uint64_t room;
    if (!take_octets(word[0], &sheet) || !take_number(word[1], ROOM, &room))
        return false;
    uint64_t was = digest(sheet);
    int64_t offset = asterix_read_sheet(sheet.at, sheet.count).offset;
    memset(out, BLANK, room);
    struct asterix_sheet_written emptied = asterix_empty_sheet(sheet.at, sheet.count, out, room);
    say_written(emptied.number, emptied.place, emptied.length, room);
    struct octets empty = { out, emptied.length };
    if (!emptied.number && !is_again(asterix_write_sheet(offset, found, 0, again, sizeof again), empty))
        say(" (written otherwise)");
    say_kept(sheet, was);
    return true;
}

/* ---- The table of questions */

enum { WORDS = 5 };

static const struct question {
    const char *name;
    size_t words; /* after the first */
    bool (*ask)(const struct word *word);
} questions[] = {
    { "block", 1, ask_block },
    { "recording", 1, ask_recording },
    { "read", 3, ask_read },
    { "write", 4, ask_write },
    { "add", 4, ask_add },
    { "find", 3, ask_find },
    { "record", 2, ask_record },
    { "least", 3, ask_least },
    { "merge", 5, ask_merge },
    { "mergerun", 3, ask_mergerun },
    { "sheetread", 1, ask_sheetread },
    { "sheetwrite", 3, ask_sheetwrite },
    { "sheetadd", 3, ask_sheetadd },
    { "sheetremove", 4, ask_sheetremove },
    { "sheetempty", 2, ask_sheetempty },
};

static bool answer_line(struct word line)
{
    struct word name, word[WORDS];
    size_t words = 0;
    bool more = cut_word(&line, ' ', &name);
    while (more && words < WORDS)
        more = cut_word(&line, ' ', &word[words++]);
    for (size_t i = 0; !more && i < COUNT(questions); i++)
        if (is_word(name, questions[i].name) && words == questions[i].words)
            return questions[i].ask(word);
    return false;
}

/* ---- The lines */

static int stopped(const char *why)
{
    fprintf(stderr, "answers: %s\n", why);
    return 2;
}

int main(int argc, char **argv)
{
    char *line = NULL;
    size_t room = 0;
    ssize_t got;
    if (argc > 1) {
        fprintf(stderr, "answers: questions come on standard input; %s is no word that it knows\n", argv[1]);
        return 2;
    }
    while ((got = getline(&line, &room, stdin)) > 0 && !ferror(stdin) && !ferror(stdout)) {
        struct word all = { line, (size_t)got - (line[got - 1] == '\n') };
        if (!answer_line(all))
            say("bad line");
        putchar('\n');
    }
    bool ended = feof(stdin), no_memory = errno == ENOMEM;
    if (fflush(stdout) != 0 || ferror(stdout))
        return stopped("standard output cannot be written");
    if (!ended)
        return stopped(no_memory ? "a line is longer than memory holds" : "standard input cannot be read");
    return 0;
}
