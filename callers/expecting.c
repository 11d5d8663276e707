/* Calls with the answers that they must give, every field of them. */
#include "calls.h"

#include <string.h>

static void expect_answer(struct ds_counted given, struct ds_counted right)
{
    check(given.number == right.number && given.place == right.place,
          "the build answered %u, place %zu, and not %u, place %zu", given.number, given.place, right.number,
          right.place);
    check(given.most_waiting == right.most_waiting, "at most %zu codes waited at once, and not %zu", given.most_waiting,
          right.most_waiting);
}

void expect_built(const struct list *list, size_t most_waiting, struct file *file)
{
    expect_answer(call_build(list, file), (struct ds_counted){.most_waiting = most_waiting});
}

void expect_build_refused(const struct list *list, unsigned number, size_t place)
{
    static struct file file;
    expect_answer(call_build(list, &file), (struct ds_counted){.number = number, .place = place});
}

static void expect_opening(struct ds_opened given, struct ds_opened right)
{
    check(given.number == right.number && given.place == right.place,
          "the opening answered %u, place %zu, and not %u, place %zu", given.number, given.place, right.number,
          right.place);
    check(given.n == right.n && given.r == right.r && given.v == right.v,
          "the opening gave n %zu, r %zu, v %zu, and not %zu, %zu, %zu", given.n, given.r, given.v, right.n, right.r,
          right.v);
}

void expect_opened(const struct file *file, size_t n, size_t r, size_t v)
{
    expect_opening(call_open(file), (struct ds_opened){.n = n, .r = r, .v = v});
}

void expect_open_refused(const struct file *file, unsigned number, size_t place)
{
    expect_opening(call_open(file), (struct ds_opened){.number = number, .place = place});
}

static void expect_found(struct ds_found given, struct ds_found right)
{
    check(given.kind == right.kind, "the lookup's kind is %u and not %u", given.kind, right.kind);
    check(given.number == right.number && given.place == right.place && given.line == right.line,
          "the lookup gave number %u, place %zu, line %zu, and not %u, %zu, %zu", given.number, given.place, given.line,
          right.number, right.place, right.line);
}

void expect_at(const struct file *file, const void *code, size_t length, size_t line)
{
    expect_found(call_lookup(file, code, length), (struct ds_found){.kind = DS_AT, .line = line});
}

void expect_unknown(const struct file *file, const void *code, size_t length)
{
    expect_found(call_lookup(file, code, length), (struct ds_found){.kind = DS_UNKNOWN});
}

void expect_lookup_refused(const struct file *file, const void *code, size_t length, unsigned number, size_t place)
{
    struct ds_found right = {.kind = DS_REFUSED, .number = number, .place = place};
    expect_found(call_lookup(file, code, length), right);
}

static void expect_part(struct ds_part given, size_t start, size_t length)
{
    check(given.start == start && given.length == length, "the part is %zu bytes from %zu on, and not %zu from %zu on",
          given.length, given.start, length, start);
}

void expect_shown(const struct file *file, size_t line, size_t start, const void *code, size_t length)
{
    struct ds_part part = call_show(file, line);
    expect_part(part, start, length);
    check(memcmp(file->bytes + part.start, code, length) == 0, "line %zu shows another code", line);
    expect_found(call_lookup_inside(file, part), call_lookup(file, code, length));
}

void expect_nothing_shown(const struct file *file, size_t line)
{
    expect_part(call_show(file, line), 0, 0);
}

void expect_same(const struct file *given, const struct file *right)
{
    check(given->length == right->length, "the file has %zu bytes and not %zu", given->length, right->length);
    size_t offset = 0;
    while (offset < right->length && given->bytes[offset] == right->bytes[offset])
        offset++;
    check(offset == right->length, "byte %zu of the file is %02X and not %02X", offset, given->bytes[offset],
          right->bytes[offset]);
}
