/* sheet FILE: lists the exercise sheet in a file: how long it is, its edition, its clock offset and its marks.
 *
 * sheet FILE new OFFSET [MARK..]   writes the sheet of an offset, in 1/128 s, and marks, by log and then by place
 * sheet FILE add MARK              adds a mark
 * sheet FILE remove LOG:PLACE      removes the one at a log and place
 * sheet FILE empty                 removes all
 *
 * A MARK is LOG:PLACE:STATION:COMMENT, its LOG A or B: A:15:2:7. A changed sheet goes to the file and is listed. Status
 * 1 where anything is refused: then one line says why and where, and the file stays as it was.
 *
 * A worked example of include/asterix.h, "Exercise sheets". */
#include <inttypes.h>
#include <stdbool.h>
#include <stdio.h>
#include <stdlib.h>
#include <string.h>

#include "asterix.h"

static void fail(const char *what, const char *name)
{
    fprintf(stderr, "sheet: %s %s\n", what, name);
    exit(2);
}

/* ---- The sheet */

static int refuse(uint8_t number, size_t place)
{
    printf("refused %u at %zu: %s\n", number, place, asterix_refusal_text(number));
    return 1;
}

static int list(const uint8_t *sheet, size_t length)
{
    struct asterix_sheet_read read = asterix_read_sheet(sheet, length);
    if (read.number)
        return refuse(read.number, read.place);
    printf("%zu bytes, edition %u, offset %" PRId64 ", %zu marks\n", length, read.edition, read.offset,
           read.marks.count);
    for (size_t i = 0; i < read.marks.count; i++) {
        struct asterix_mark mark = asterix_find_mark(sheet, length, read.marks, i).mark;
        printf("  %c %u, station %u, comment %u\n", mark.log ? 'B' : 'A', (unsigned)mark.place, mark.station,
               mark.comment);
    }
    return 0;
}

/* ---- Words */

/* A colon and a number, at `at`, which is moved behind it. */
static bool take_number(const char **at, uint64_t most, uint64_t *number)
{
    char *end;
    if ((*at)[0] != ':' || (*at)[1] < '0' || (*at)[1] > '9')
        return false;
    *number = strtoull(*at + 1, &end, 10); /* the greatest that there is where it is greater still */
    *at = end;
    return *number <= most;
}

/* LOG:PLACE, and, where it is `whole`, :STATION:COMMENT. That there is no station 6 is left to the library. */
static struct asterix_mark take_mark(const char *word, bool whole)
{
    struct asterix_mark mark = { 0, *word == 'B', 0, 0 };
    uint64_t place = 0, station = 0, comment = 0;
    const char *at = word + 1;
    bool taken = (*word == 'A' || *word == 'B') && take_number(&at, 0xFFFFFFFF, &place);
    if (whole)
        taken = taken && take_number(&at, 255, &station) && take_number(&at, 255, &comment);
    if (!taken || *at)
        fail(whole ? "not LOG:PLACE:STATION:COMMENT:" : "not LOG:PLACE:", word);
    mark.place = (uint32_t)place;
    mark.station = (uint8_t)station;
    mark.comment = (uint8_t)comment;
    return mark;
}

/* ---- The file */

/* The start of a file, and how long it is. */
static size_t load(const char *name, uint8_t *bytes, size_t room)
{
    FILE *file = fopen(name, "rb");
    size_t length = file ? fread(bytes, 1, room, file) : 0;
    if (!file || ferror(file))
        fail("can't read", name);
    fclose(file);
    return length;
}

static void save(const char *name, const uint8_t *bytes, size_t length)
{
    FILE *file = fopen(name, "wb");
    bool written = file && fwrite(bytes, 1, length, file) == length;
    if (!file || fclose(file) != 0 || !written)
        fail("can't write", name);
}

/* ---- The commands. Each writes a whole new sheet, which is in `out` where nothing is refused. */

/* Longer than three fields can be: a longer file is refused for its start already. */
static uint8_t old[1 << 18];
static uint8_t out[ASTERIX_SHEET_BYTES];

static struct asterix_sheet_written begin(const char *offset, char **words, size_t count)
{
    char *end;
    long long units = strtoll(offset, &end, 10);
    uint8_t *marks = malloc(count * ASTERIX_MARK_BYTES + 1); /* what is lent may not be NULL, even for none */
    if (end == offset || *end)
        fail("not an offset:", offset);
    if (!marks)
        fail("no memory for", "the marks");
    for (size_t i = 0; i < count; i++)
        asterix_put_mark(take_mark(words[i], true), marks + i * ASTERIX_MARK_BYTES);
    struct asterix_sheet_written written =
        asterix_write_sheet(units, marks, count * ASTERIX_MARK_BYTES, out, sizeof out);
    free(marks);
    return written;
}

int main(int argc, char **argv)
{
    struct asterix_sheet_written changed;
    const char *command = argc > 2 ? argv[2] : "";

    if (argc == 2)
        return list(old, load(argv[1], old, sizeof old));
    if (argc > 3 && strcmp(command, "new") == 0)
        changed = begin(argv[3], argv + 4, (size_t)argc - 4);
    else if (argc == 4 && strcmp(command, "add") == 0) {
        struct asterix_mark mark = take_mark(argv[3], true);
        changed = asterix_add_mark(old, load(argv[1], old, sizeof old), mark, out, sizeof out);
    } else if (argc == 4 && strcmp(command, "remove") == 0) {
        struct asterix_mark at = take_mark(argv[3], false);
        changed = asterix_remove_mark(old, load(argv[1], old, sizeof old), at.log, at.place, out, sizeof out);
    } else if (argc == 3 && strcmp(command, "empty") == 0)
        changed = asterix_empty_sheet(old, load(argv[1], old, sizeof old), out, sizeof out);
    else {
        fputs("usage: sheet FILE\n"
              "       sheet FILE new OFFSET [LOG:PLACE:STATION:COMMENT..]\n"
              "       sheet FILE add LOG:PLACE:STATION:COMMENT\n"
              "       sheet FILE remove LOG:PLACE\n"
              "       sheet FILE empty\n",
              stderr);
        return 2;
    }
    if (changed.number)
        return refuse(changed.number, changed.place);
    save(argv[1], out, changed.length);
    return list(out, changed.length);
}
