/* Signs as the test keeps them, and reports and asks with the answers they must give, every field of them. The lists
 * that a report must leave are written here by hand, and what the library left is held to them. */
#include "calls.h"

#include <string.h>

/* A number in a place, the low byte first. */
static void put_place(uint8_t *list, size_t line, uint32_t number)
{
    uint8_t *place = list + DS_BYTES_OF_A_PLACE * line;
    place[0] = (uint8_t)(number % 256);
    place[1] = (uint8_t)(number / 256 % 256);
    place[2] = (uint8_t)(number / 65536 % 256);
    place[3] = (uint8_t)(number / 16777216);
}

/* As a 32-bit number a level is its two's complement. */
void put_places(struct sign *sign, size_t line, int32_t level, uint32_t time)
{
    put_place(sign->levels, line, (uint32_t)level);
    put_place(sign->times, line, time);
}

void clear(struct sign *sign, const struct file *file, size_t n)
{
    sign->file = file;
    sign->levels_len = DS_BYTES_OF_A_PLACE * n;
    sign->times_len = DS_BYTES_OF_A_PLACE * n;
    for (size_t line = 0; line < n; line++)
        put_places(sign, line, 30000, 0);
}

/* Lends a list, to be written. */
static uint8_t *lend_list(enum slice slice, const uint8_t *list, size_t length)
{
    uint8_t *lent = lend_coloured(slice, length);
    memcpy(lent, list, length);
    return lent;
}

/* That no byte beside a list has changed, and that the list is the right one. */
static void expect_list(enum slice slice, const uint8_t *lent, const uint8_t *right, size_t length)
{
    const char *name = slice == LEVELS ? "levels" : "times";
    check(coloured_before(slice, length), "a byte before the %s has changed", name);
    check(coloured_after(slice, length, length), "a byte after the %s has changed", name);
    size_t offset = 0;
    while (offset < length && lent[offset] == right[offset])
        offset++;
    check(offset == length, "byte %zu of the %s is not as it must be", offset, name);
}

struct ds_reported call_report(struct sign *sign, struct report report)
{
    const uint8_t *file = lend(FILE_BYTES, sign->file->bytes, sign->file->length);
    const uint8_t *code = lend(CODE, report.code, report.length);
    uint8_t *levels = lend_list(LEVELS, sign->levels, sign->levels_len);
    uint8_t *times = lend_list(TIMES, sign->times, sign->times_len);
    struct ds_reported answer = ds_report(file, sign->file->length, code, report.length, report.level, report.time,
                                          levels, sign->levels_len, times, sign->times_len);
    if (answer.kind == DS_ACCEPTED) {
        check(answer.line < sign->levels_len / DS_BYTES_OF_A_PLACE, "the report's line is %zu", answer.line);
        put_places(sign, answer.line, report.level, report.time);
    }
    expect_list(LEVELS, levels, sign->levels, sign->levels_len);
    expect_list(TIMES, times, sign->times, sign->times_len);
    return answer;
}

struct ds_asked call_ask(const struct sign *sign, struct ask ask)
{
    const uint8_t *file = lend(FILE_BYTES, sign->file->bytes, sign->file->length);
    const uint8_t *code = lend(CODE, ask.code, ask.length);
    const uint8_t *levels = lend(LEVELS, sign->levels, sign->levels_len);
    const uint8_t *times = lend(TIMES, sign->times, sign->times_len);
    return ds_ask(file, sign->file->length, code, ask.length, ask.now, ask.limit, levels, sign->levels_len, times,
                  sign->times_len);
}

void expect_reported(struct ds_reported given, struct ds_reported right)
{
    check(given.kind == right.kind, "the report's kind is %u and not %u", given.kind, right.kind);
    check(given.number == right.number && given.place == right.place && given.line == right.line,
          "the report gave number %u, place %zu, line %zu, and not %u, %zu, %zu", given.number, given.place, given.line,
          right.number, right.place, right.line);
}

void expect_accepted(struct sign *sign, struct report report, size_t line)
{
    expect_reported(call_report(sign, report), (struct ds_reported){.kind = DS_ACCEPTED, .line = line});
}

void expect_stranger(struct sign *sign, struct report report)
{
    expect_reported(call_report(sign, report), (struct ds_reported){.kind = DS_UNKNOWN});
}

void expect_report_refused(struct sign *sign, struct report report, unsigned number, size_t place)
{
    struct ds_reported right = {.kind = DS_REFUSED, .number = number, .place = place};
    expect_reported(call_report(sign, report), right);
}

void expect_asked(struct ds_asked given, struct ds_asked right)
{
    check(given.kind == right.kind, "the answer's kind is %u and not %u", given.kind, right.kind);
    check(given.number == right.number && given.place == right.place,
          "the answer has number %u, place %zu, and not %u, %zu", given.number, given.place, right.number, right.place);
    check(given.level == right.level && given.age == right.age, "the answer has level %d, age %u, and not %d, %u",
          given.level, given.age, right.level, right.age);
}

void expect_never(const struct sign *sign, struct ask ask)
{
    expect_asked(call_ask(sign, ask), (struct ds_asked){.kind = DS_NEVER});
}

void expect_fresh(const struct sign *sign, struct ask ask, int32_t level)
{
    expect_asked(call_ask(sign, ask), (struct ds_asked){.kind = DS_FRESH, .level = level});
}

void expect_stale(const struct sign *sign, struct ask ask, int32_t level, uint32_t age)
{
    expect_asked(call_ask(sign, ask), (struct ds_asked){.kind = DS_STALE, .level = level, .age = age});
}

void expect_asked_stranger(const struct sign *sign, struct ask ask)
{
    expect_asked(call_ask(sign, ask), (struct ds_asked){.kind = DS_UNKNOWN});
}

void expect_ask_refused(const struct sign *sign, struct ask ask, unsigned number, size_t place)
{
    struct ds_asked right = {.kind = DS_REFUSED, .number = number, .place = place};
    expect_asked(call_ask(sign, ask), right);
}
