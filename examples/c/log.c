/* log FILE: prints every record of a log of ASTERIX categories 017, 018 and 061: its message type, and the fields of
 * its items. Status 1 where the log is refused: then one line says why and where, and nothing else is printed.
 *
 * log A B [OFFSET]: lists the records of two logs on one line by their times, a line for each: its log, where it
 * starts, its time as logged, its message type. OFFSET, in 1/128 s, is added to B's times, to put the clocks right.
 *
 * A worked example of include/asterix.h. It checks the whole log first, and then walks it: no step can refuse. Two
 * logs are checked where their merge begins, and 64 records come at a time. */
#include <inttypes.h>
#include <stdbool.h>
#include <stdio.h>
#include <stdlib.h>

#include "asterix.h"

/* ---- Names, as the documents have them */

/* The items of a category in the order of their field reference numbers, with the names of their fields. A list has
 * those of one part. | comes before each extent, and before each subfield of a compound item but the first; what ends
 * in : is the name of a subfield, and what ends in = that of one that is a list, where its count is. */
struct item {
    uint16_t reference;
    const char *names;
};

static const struct item items_017[] = {
    { 10, "SAC SIC" },
    { 12, "SAC SIC" },
    { 0, "type" },
    { 350, "SAC SIC" },
    { 220, "address" },
    { 221, "DRN" },
    { 140, "time" },
    { 45, "latitude longitude" },
    { 70, "V G L code" },
    { 50, "V G altitude" },
    { 200, "speed heading" },
    { 230, "CA SI" },
    { 240, "CST FLT" },
    { 210, "address" },
    { 360, "state" },
};

static const struct item items_018[] = {
    { 36, "SAC SIC" },
    { 37, "SAC SIC" },
    { 0, "type" },
    { 1, "CAUSE DIAG" },
    { 5, "address" },
    { 16, "number" },
    { 17, "number" },
    { 18, "PR PT" },
    { 19, "octet" },
    { 28, "periodicity" },
    { 30, "priority PC AU NE RD" },
    { 25, "number" },
    { 27, "BDS" },
    { 29, "GICB" },
    { 2, "time" },
    { 6, "address" },
    { 7, "UM DM UC DC" },
    { 8, "UDS DDS UCS DCS EI | IC" },
    { 9, "SR AR ER FR MR PR CR | ID MA SP HG HD" },
    { 10, "COM" },
    { 11, "report" },
    { 14, "RHO THETA" },
    { 15, "X Y" },
    { 20, "number" },
    { 21, "priority power duration coverage" },
    { 22, "prefix" },
    { 23, "broadcast" },
    { 4, "former current" },
    { 31, "identity" },
    { 32, "V G L code" },
    { 33, "V G level" },
    { 34, "speed" },
    { 35, "heading" },
    { 12, "FS CQF" },
    { 13, "method" },
};

static const struct item items_061[] = {
    { 10, "SAC SIC" },
    { 0, "FAM NAT" },
    { 12, "user" },
    { 15, "service" },
    { 20, "time" },
    { 30, "batch" },
    { 45, "version" },
    { 50, "DGA" },
    { 60, "latitude longitude" },
    { 70, "lower" },
    { 80, "upper" },
    { 100, "CODE" },
    { 130, "TNS= number | AAS= address | AIS= c1 c2 c3 c4 c5 c6 c7 c8 | CFS= W1 W2 W3 W4 code | DPS= c1 c2 c3 c4 "
           "| DTS= c1 c2 c3 c4 | ATS= c1 c2 c3 c4 | CCS= CENTRE POSITION | TCS: SIM CSR PSR SSR MDS ADS VALT FPC "
           "CNF SPI GAT/OAT IFR VFR CFR RVSM FRI/FOE ME MI" },
    { 210, "N1 N2 N3 N4 N5 N6 N7 | N8 N9 N10 N11 N12 N13 N14 | N15 N16 N17 N18 N19 N20 N21 "
           "| N22 N23 N24 N25 N26 N27 N28" },
    { 220, "SD scanning batch update delay MAXFLOW" },
    { 230, "MSAC MSIC NOP | BSAC BSIC" },
    { 240, "DPF: TLF TNB PLN M3A COR SPE MOF | RCT: threshold | PT: threshold | RTT: threshold | TAT: threshold "
           "| GST: threshold | LAT: threshold | AT: threshold | FK: factor | RP: period | MNP: period" },
    { 330, "CODE" },
    { 350, "SAC SIC" },
    { 360, "N1 N2 N3 N4 N5 N6 N7 | N8 N9 N10 N11 N12 N13 N14 | N15 N16 N17 N18 N19 N20 N21" },
    { 370, "period" },
    { 380, "RP: period | DP: SSC | TSB: threshold | SRB: threshold | SGB: threshold | SAB: threshold "
           "| PRB: threshold | PGB: threshold | PAB: threshold" },
};

/* A category's items, and the field reference numbers of its message type and of its time. */
struct category {
    uint8_t number;
    const struct item *items;
    size_t type_frn, time_frn;
};

static const struct category categories[] = {
    { 17, items_017, 3, 7 },  /* I017/140 */
    { 18, items_018, 3, 15 }, /* I018/002 */
    { 61, items_061, 2, 5 },  /* I061/020 */
};

static const struct category *category_of(const struct asterix_record_met *record)
{
    const struct category *category = categories;
    while (category->number != record->category) /* no record has another */
        category++;
    return category;
}

struct message {
    uint8_t category, type;
    const char *name;
};

static const struct message messages[] = {
    { 17, 0, "Network information" },
    { 17, 10, "Track data" },
    { 17, 20, "Track data request" },
    { 17, 21, "Track data stop" },
    { 17, 22, "Cancel track data request" },
    { 17, 23, "Track data stop acknowledgement" },
    { 17, 30, "New node, initial or intermediate segment" },
    { 17, 31, "New node, final or only segment" },
    { 17, 32, "New node, initial or intermediate segment reply" },
    { 17, 33, "New node, final or only segment reply" },
    { 17, 110, "Move node to new cluster state" },
    { 17, 111, "Move node to new cluster state acknowledgement" },
    { 18, 0x00, "Associate_req" },
    { 18, 0x01, "Associate_resp" },
    { 18, 0x02, "Release_req" },
    { 18, 0x03, "Release_resp" },
    { 18, 0x04, "Abort_req" },
    { 18, 0x05, "Keep_alive" },
    { 18, 0x10, "Aircraft_report" },
    { 18, 0x11, "Aircraft_command" },
    { 18, 0x12, "II_code_change" },
    { 18, 0x20, "Uplink_packet" },
    { 18, 0x21, "Cancel_uplink_packet" },
    { 18, 0x22, "Uplink_packet_ack" },
    { 18, 0x23, "Downlink_packet" },
    { 18, 0x26, "Data_XON" },
    { 18, 0x27, "Data_XOFF" },
    { 18, 0x30, "Uplink_broadcast" },
    { 18, 0x31, "Cancel_uplink_broadcast" },
    { 18, 0x32, "Uplink_broadcast_ack" },
    { 18, 0x34, "Downlink_broadcast" },
    { 18, 0x40, "GICB_extraction" },
    { 18, 0x41, "Cancel_GICB_extraction" },
    { 18, 0x42, "GICB_extraction_ack" },
    { 18, 0x43, "GICB_response" },
    { 61, 0x11, "Request for Connection" },
    { 61, 0x12, "Request for Disconnection" },
    { 61, 0x13, "Connection Acknowledgement" },
    { 61, 0x14, "Connection Rejection" },
    { 61, 0x15, "Disconnection Acknowledgement" },
    { 61, 0x16, "Disconnection Rejection" },
    { 61, 0x21, "Service Definition Request" },
    { 61, 0x22, "Service Modification Request" },
    { 61, 0x23, "Service Suspension Request" },
    { 61, 0x24, "Service Resumption Request" },
    { 61, 0x25, "Service Termination Request" },
    { 61, 0x26, "Service Acknowledgement" },
    { 61, 0x27, "Service Rejection" },
    { 61, 0x28, "Service Report" },
    { 61, 0x2F, "End of Batch" },
};

enum { MESSAGES = sizeof messages / sizeof *messages, GICB_EXTRACTION = 0x40 };

static uint8_t type_of(const uint8_t *log, const struct asterix_record_met *record)
{
    return log[record->block + record->starts[category_of(record)->type_frn - 1]];
}

static const char *message_name(uint8_t category, uint8_t type)
{
    for (size_t i = 0; i < MESSAGES; i++)
        if (messages[i].category == category && messages[i].type == type)
            return messages[i].name;
    return "?"; /* not of a record that was accepted */
}

/* ---- Printing */

static int64_t fields[ASTERIX_FIELDS];

/* The length of the first of `names`; the names behind it; and where those of the part that it is in end. */
static int name_length(const char *names)
{
    int length = 0;
    while (names[length] && names[length] != ' ')
        length++;
    return length;
}

static const char *other_names(const char *names)
{
    names += name_length(names);
    return *names ? names + 1 : names;
}

static const char *part_end(const char *names)
{
    while (*names && *names != '|')
        names = other_names(names);
    return names;
}

/* One item: its reference, and each field as name=value; - for an extent or a subfield that is absent. */
static void print_item(uint8_t category, const struct item *item, const uint8_t *octets, size_t length)
{
    struct asterix_item_read read = asterix_read_item(category, item->reference, octets, length, fields);
    const int64_t *at = fields, *end = fields + read.count;
    const char *part = item->names;
    printf("    I%03u/%03u", category, item->reference);
    while (at < end) {
        const char *last = part_end(part);
        char mark = part[name_length(part) - 1];
        int64_t times = 1; /* that the part's fields come */
        if (mark == ':' || mark == '=') {
            printf(" %.*s", name_length(part) - 1, part);
            part = other_names(part);
        }
        if (*at == ASTERIX_ABSENT) {
            printf(" -");
            times = 0;
            at++;
        } else if (mark == '=') {
            times = *at++;
            printf("=%" PRId64, times);
        }
        for (; times > 0; times--)
            for (const char *name = part; name < last; name = other_names(name))
                printf(" %.*s=%" PRId64, name_length(name), name, *at++);
        if (*last)
            printf(" |");
        part = *last ? other_names(last) : item->names; /* behind the last one a list goes on */
    }
    printf("\n");
}

/* The items of a record, by its map: an item ends where the next one starts, and the last where the record ends. */
static void print_record(const uint8_t *log, const struct asterix_record_met *record)
{
    const uint8_t *block = log + record->block; /* from where the map counts */
    uint8_t category = record->category, type = type_of(log, record);
    const struct item *items = category_of(record)->items;
    printf("  %s (%u), %zu octets, %zu items\n", message_name(category, type), type, record->length, record->count);
    for (size_t frn = 1; frn <= ASTERIX_FRNS; frn++) {
        size_t start = record->starts[frn - 1], end = record->end;
        if (start == 0)
            continue; /* absent */
        for (size_t next = frn + 1; next <= ASTERIX_FRNS; next++)
            if (record->starts[next - 1]) {
                end = record->starts[next - 1];
                break;
            }
        print_item(category, &items[frn - 1], block + start, end - start);
    }
}

/* ---- Two logs */

/* The record's I017/140, I018/002 or I061/020, or - where it has none. That of a GICB_extraction is the end of a
 * request, and does not count. */
static void print_time(const uint8_t *log, const struct asterix_record_met *record, uint8_t type)
{
    size_t frn = category_of(record)->time_frn, start = record->starts[frn - 1];
    if (start == 0 || (record->category == 18 && type == GICB_EXTRACTION)) {
        printf("%-12s", "-");
        return;
    }
    uint16_t reference = category_of(record)->items[frn - 1].reference;
    asterix_read_item(record->category, reference, log + record->block + start, 3, fields);
    unsigned seconds = (unsigned)fields[0] / 128, thousandths = (unsigned)fields[0] % 128 * 1000 / 128;
    printf("%02u:%02u:%02u.%03u", seconds / 3600, seconds / 60 % 60, seconds % 60, thousandths);
}

static int print_merged(const uint8_t *a, size_t a_len, const uint8_t *b, size_t b_len, int64_t offset)
{
    struct asterix_merge_begun begun = asterix_begin_merge(a, a_len, b, b_len, offset);
    if (begun.number) {
        const char *of = begun.number == ASTERIX_OFFSET_RANGE ? "" : begun.log ? " of log B" : " of log A";
        printf("refused %u at %zu%s: %s\n", begun.number, begun.place, of, asterix_refusal_text(begun.number));
        return 1;
    }
    struct asterix_merge_next next = { 0, begun.merge };
    struct asterix_merged out[64];
    while ((next = asterix_next_merged(a, a_len, b, b_len, next.merge, out, 64)).count)
        for (size_t i = 0; i < next.count; i++) {
            const uint8_t *log = out[i].log ? b : a;
            struct asterix_record_met record = asterix_next_record(log, out[i].log ? b_len : a_len, out[i].at);
            uint8_t type = type_of(log, &record);
            printf("%c %5zu  ", out[i].log ? 'B' : 'A', record.start);
            print_time(log, &record, type);
            printf("  %s (%u)\n", message_name(record.category, type), type);
        }
    return 0;
}

/* ---- The log */

/* The whole of a file, and its length. */
static uint8_t *load(const char *name, size_t *length)
{
    FILE *file = fopen(name, "rb");
    size_t room = 1 << 16;
    uint8_t *bytes = malloc(room);
    *length = 0;
    while (file && bytes) {
        size_t got = fread(bytes + *length, 1, room - *length, file);
        if (got == 0)
            break;
        *length += got;
        if (*length == room)
            bytes = realloc(bytes, room *= 2);
    }
    if (!file || !bytes || ferror(file)) {
        fprintf(stderr, "log: can't read %s\n", name);
        exit(2);
    }
    fclose(file);
    return bytes;
}

int main(int argc, char **argv)
{
    if (argc < 2 || argc > 4) {
        fputs("usage: log FILE\n       log A B [OFFSET]\n", stderr);
        return 2;
    }
    if (argc > 2) {
        size_t a_len, b_len;
        uint8_t *a = load(argv[1], &a_len), *b = load(argv[2], &b_len);
        int status = print_merged(a, a_len, b, b_len, argc > 3 ? strtoll(argv[3], NULL, 10) : 0);
        free(a);
        free(b);
        return status;
    }
    size_t length;
    uint8_t *log = load(argv[1], &length);

    struct asterix_recording_checked checked = asterix_check_recording(log, length);
    if (checked.number) {
        printf("refused %u at %zu: %s\n", checked.number, checked.place, asterix_refusal_text(checked.number));
        free(log);
        return 1;
    }
    printf("%zu blocks, %zu records\n", checked.blocks, checked.records);
    size_t end = 0; /* of the block before */
    struct asterix_record_met record = asterix_next_record(log, length, asterix_start());
    for (; record.met; record = asterix_next_record(log, length, record.next)) {
        if (record.block == end) { /* the first of its block */
            end = record.next.end;
            printf("block at %zu, category %03u, %zu octets\n", record.block, record.category, end - record.block);
        }
        print_record(log, &record);
    }
    free(log);
    return 0;
}
