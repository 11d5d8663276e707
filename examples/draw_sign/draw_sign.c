/* Draws the sign: the level and the age of the last report of every gauge, one row a line, as an SVG on standard
 * output.
 *
 *     draw_sign FILE REPORTS NOW LIMIT > sign.svg
 *
 * FILE is a directory file. REPORTS is a text of reports, one a line: CODE LEVEL TIME, a code that starts with 0x in
 * hex, the level in millimetres, the time in seconds. NOW is a time too, and LIMIT the greatest age that is fresh. A
 * line that is no report, or whose report is not accepted, is told on standard error, and the drawing goes on.
 *
 *     (cd crates/dronesickle && rt lib)
 *     cc -std=c11 -Iinclude examples/draw_sign/draw_sign.c examples/draw_sign/reports.c \
 *        examples/draw_sign/picture.c crates/dronesickle/out/libdronesickle.a -o draw_sign
 */
#define _POSIX_C_SOURCE 200809L
#include "draw_sign.h"

#include <errno.h>
#include <stdio.h>
#include <stdlib.h>
#include <string.h>

/* The arguments. */
enum { FILE_NAME = 1, REPORTS_NAME, NOW, LIMIT, ARGUMENTS };

/* A directory file, and the lists of its sign. */
struct sign {
    uint8_t file[DS_LONGEST_FILE + 1];
    size_t length, n;
    uint8_t levels[DS_BYTES_OF_A_PLACE * DS_MOST_CODES];
    uint8_t times[DS_BYTES_OF_A_PLACE * DS_MOST_CODES];
};

/* Why a file does not open, or a report or an ask is refused. */
static const char *const refusals[] = {
    [DS_LENGTH] = "it is shorter than 7 bytes, or not as long as its header calls for (refusal 9)",
    [DS_MARK] = "a mark is wrong (refusal 10)",
    [DS_HEADER_NUMBERS] = "the numbers in its header are outside the sizes that are allowed (refusal 11)",
    [DS_VALUE] = "a value is over R, or spare bits are set (refusal 12)",
    [DS_RANK] = "a rank entry is wrong, or the assigned vertices are not as many as the codes (refusal 13)",
    [DS_STORED_CODE] = "a stored code has not 1 to 32 bytes, or what follows it is not zero (refusal 14)",
    [DS_ASTRAY] = "a stored code does not lead to its line (refusal 15)",
    [DS_CODE_ASKED] = "a code has 1 to 32 bytes (refusal 16)",
    [DS_LEVEL] = "the level is not -20000 to 20000 millimetres (refusal 17)",
    [DS_EARLIER] = "the time is before that of the gauge's last report (refusal 18)",
    [DS_NOW_EARLIER] = "now is before the time of the gauge's last report (refusal 19)",
    [DS_LIMIT] = "it must be 1 to 86400 seconds (refusal 22)",
    [DS_LISTS] = "the lists are not as long as the directory has lines (refusal 23)",
};

static void tell(const char *name, const char *words)
{
    fprintf(stderr, "%s: %s\n", name, words);
}

/* Reads FILE. A byte more than the longest file has is room enough to see that it is too long. */
static bool read_file(const char *name, struct sign *sign)
{
    FILE *stream = fopen(name, "rb");
    if (stream == NULL) {
        tell(name, strerror(errno));
        return false;
    }
    sign->length = fread(sign->file, 1, sizeof sign->file, stream);
    bool read = ferror(stream) == 0;
    if (!read)
        tell(name, strerror(errno));
    fclose(stream);
    return read;
}

/* Clears the lists: DS_NEVER_HEARD as every level, 0 as every time. */
static void clear(struct sign *sign)
{
    memset(sign->levels, 0, DS_BYTES_OF_A_PLACE * sign->n);
    memset(sign->times, 0, DS_BYTES_OF_A_PLACE * sign->n);
    for (size_t line = 0; line < sign->n; line++) {
        sign->levels[DS_BYTES_OF_A_PLACE * line] = DS_NEVER_HEARD % 256;
        sign->levels[DS_BYTES_OF_A_PLACE * line + 1] = DS_NEVER_HEARD / 256;
    }
}

static bool open_sign(const char *name, struct sign *sign)
{
    if (!read_file(name, sign))
        return false;
    struct ds_opened opened = ds_open(sign->file, sign->length);
    sign->n = opened.n;
    clear(sign);
    if (opened.number == DS_SUCCESS)
        return true;
    fprintf(stderr, "%s: %s, place %zu\n", name, refusals[opened.number], opened.place);
    return false;
}

/* Brings a report. Gives NULL, or in words why it is not accepted. */
static const char *bring(struct sign *sign, const struct report *report)
{
    size_t list = DS_BYTES_OF_A_PLACE * sign->n;
    struct ds_reported reported = ds_report(sign->file, sign->length, report->code, report->length, report->level,
                                            report->time, sign->levels, list, sign->times, list);
    if (reported.kind == DS_UNKNOWN)
        return "the code is unknown: no gauge of the directory has it";
    return reported.kind == DS_REFUSED ? refusals[reported.number] : NULL;
}

/* Brings the report of a line of REPORTS, and tells where there is none or it is not accepted. */
static void bring_line(struct sign *sign, const char *name, unsigned long line, const char *text, size_t length)
{
    struct report report;
    const char *wrong = read_report(text, length, &report);
    if (wrong == NULL)
        wrong = bring(sign, &report);
    if (wrong != NULL)
        fprintf(stderr, "%s, line %lu: %s\n", name, line, wrong);
}

/* Brings all reports of a text. */
static bool bring_all(struct sign *sign, const char *name)
{
    FILE *stream = fopen(name, "r");
    if (stream == NULL) {
        tell(name, strerror(errno));
        return false;
    }
    char *text = NULL;
    size_t room = 0;
    ssize_t length;
    for (unsigned long line = 1; (length = getline(&text, &room, stream)) >= 0; line++)
        bring_line(sign, name, line, text, (size_t)length);
    bool read = feof(stream) != 0;
    if (!read)
        tell(name, strerror(errno));
    free(text);
    fclose(stream);
    return read;
}

static struct ds_asked ask(const struct sign *sign, const uint8_t *code, size_t length, uint32_t now, uint32_t limit)
{
    size_t list = DS_BYTES_OF_A_PLACE * sign->n;
    return ds_ask(sign->file, sign->length, code, length, now, limit, sign->levels, list, sign->times, list);
}

/* A limit is looked at before the code is, so that any code shows whether it is refused. */
static bool limit_allowed(const struct sign *sign, uint32_t now, uint32_t limit)
{
    bool allowed = ask(sign, (const uint8_t *)"?", 1, now, limit).number != DS_LIMIT;
    if (!allowed)
        fprintf(stderr, "LIMIT is %u; %s\n", limit, refusals[DS_LIMIT]);
    return allowed;
}

static uint32_t number_at(const uint8_t *place)
{
    return place[0] | (uint32_t)place[1] << 8 | (uint32_t)place[2] << 16 | (uint32_t)place[3] << 24;
}

/* The row of a line. Asking gives the age where it is stale; where it is fresh, the line's time gives it. */
static struct row row_of(const struct sign *sign, size_t line, uint32_t now, uint32_t limit)
{
    struct ds_part part = ds_show(sign->file, sign->length, line);
    struct row row = {.code = sign->file + part.start, .length = part.length};
    row.asked = ask(sign, row.code, row.length, now, limit);
    row.age = row.asked.age;
    if (row.asked.kind == DS_FRESH)
        row.age = now - number_at(sign->times + DS_BYTES_OF_A_PLACE * line);
    return row;
}

static void draw(const struct sign *sign, uint32_t now, uint32_t limit)
{
    draw_start(sign->n, now, limit);
    for (size_t line = 0; line < sign->n; line++) {
        struct row row = row_of(sign, line, now, limit);
        draw_row(line, &row);
    }
    draw_end();
}

/* The number that an argument stands for. */
static bool read_argument(const char *name, const char *argument, uint32_t *number)
{
    bool read = read_number(argument, strlen(argument), number);
    if (!read)
        fprintf(stderr, "%s is %s; it must be a number from 0 to 4294967295\n", name, argument);
    return read;
}

int main(int count, char **arguments)
{
    static struct sign sign;
    uint32_t now, limit;
    if (count != ARGUMENTS) {
        fprintf(stderr, "usage: draw_sign FILE REPORTS NOW LIMIT > sign.svg\n");
        return 2;
    }
    if (!read_argument("NOW", arguments[NOW], &now) || !read_argument("LIMIT", arguments[LIMIT], &limit))
        return 1;
    if (!open_sign(arguments[FILE_NAME], &sign) || !limit_allowed(&sign, now, limit))
        return 1;
    if (!bring_all(&sign, arguments[REPORTS_NAME]))
        return 1;
    draw(&sign, now, limit);
    if (fflush(stdout) == 0 && ferror(stdout) == 0)
        return 0;
    tell("standard output", strerror(errno));
    return 1;
}
