/* Holds the library to the plain C version: the same answers and bytes on the measured lists, in files with a wrong byte or
 * a wrong length, and where a build is refused; and the same answers and lists of a sign. It ends with status 1 where anything is wrong. */
#include "lists.h"

#include <stdbool.h>
#include <stdio.h>
#include <string.h>

enum {
    WRONG_BYTES = 200, /* wrong bytes of a file that are tried, each alone */
    HEADER_BYTES = 20, /* of these, in the first bytes of the file */
    ASKED = 8,         /* codes and strangers that are asked in a damaged file */
    OTHER_WEIGHTS = 20,
    OTHER_SEED = 1000,
    SIGN_CALLS = 2000,            /* reports and questions of a sign */
    SPAN = 100,                   /* the seconds that they fall into */
    LISTS = DS_BYTES_OF_A_PLACE * DS_MOST_CODES,
    SHOWN = 20,                   /* how many wrong answers are named */
    BUFFER = DS_LONGEST_FILE + 64 /* bytes past the file must stay as they are */
};

static unsigned long checks, wrong;

static void expect(bool right, const char *what, const struct list *l, size_t r)
{
    checks++;
    if (!right && wrong++ < SHOWN)
        printf("wrong: %s, n = %zu, r = %zu\n", what, l->n, r);
}

/* ---- Looking up --------------------------------------------------------- */

static bool same(struct ds_found a, struct ds_found b)
{
    return a.kind == b.kind && a.number == b.number && a.place == b.place && a.line == b.line;
}

struct file {
    const struct list *list;
    size_t r, length;
    uint8_t bytes[BUFFER];
};

/* The library's answer, which is held to both of the plain C version's. */
static struct ds_found held_lookup(const struct file *f, struct code c)
{
    struct ds_found found = ds_lookup(f->bytes, f->length, c.bytes, c.len);
    expect(same(found, plain_lookup(f->bytes, f->length, c.bytes, c.len)), "a lookup", f->list, f->r);
    expect(same(found, plain_lookup_loop(f->bytes, f->length, c.bytes, c.len)), "a lookup by the loop", f->list, f->r);
    return found;
}

/* Each code has a line of its own, and no stranger has one. */
static void check_lines(const struct file *f)
{
    const struct list *l = f->list;
    bool taken[DS_MOST_CODES] = {false};
    for (size_t k = 0; k < l->n; k++) {
        struct ds_found found = held_lookup(f, l->codes[k]);
        expect(found.kind == DS_AT && found.line < l->n && !taken[found.line], "a code's line", l, f->r);
        taken[found.line % DS_MOST_CODES] = true;
        expect(held_lookup(f, l->strangers[k]).kind == DS_UNKNOWN, "a stranger", l, f->r);
    }
}

static void ask_a_few(const struct file *f)
{
    for (size_t k = 0; k < ASKED; k++) {
        held_lookup(f, f->list->codes[k]);
        held_lookup(f, f->list->strangers[k]);
    }
}

static void check_wrong_bytes(struct file *f, uint64_t *state)
{
    for (size_t i = 0; i < WRONG_BYTES; i++) {
        uint8_t *byte = &f->bytes[next_random(state) % (i < HEADER_BYTES ? HEADER_BYTES : f->length)];
        uint8_t right = *byte;
        *byte ^= (uint8_t)(1 + next_random(state) % UINT8_MAX);
        ask_a_few(f);
        *byte = right;
    }
}

static void check_wrong_lengths(struct file *f)
{
    size_t right = f->length;
    const size_t lengths[] = {0, 1, 6, 7, 8, right - 1, right + 1};
    for (size_t i = 0; i < sizeof lengths / sizeof lengths[0]; i++) {
        f->length = lengths[i];
        ask_a_few(f);
    }
    f->length = right;
    for (size_t len = 0; len <= DS_LONGEST_CODE + 1; len++)
        held_lookup(f, (struct code){f->list->run, len});
}

/* ---- Building ----------------------------------------------------------- */

/* What is lent to a build, besides the buffer. */
struct lent {
    const uint8_t *run;
    size_t run_len;
    const uint16_t *ends;
    size_t n, r, v;
    const uint16_t *weights;
    size_t weights_len, buffer_len;
};

static struct lent lent_for(const struct list *l, size_t r)
{
    const struct fit *f = &l->fits[r];
    return (struct lent){l->run, l->run_len, l->ends, l->n, r, f->v, f->weights, DS_WEIGHTS_OF_A_PART * r, BUFFER};
}

/* The same bytes before each build. */
static void colour(uint8_t buffer[BUFFER], uint64_t state)
{
    for (size_t i = 0; i < BUFFER; i++)
        buffer[i] = (uint8_t)next_random(&state);
}

static struct ds_answer build(build_fn *by, const struct lent *a, uint8_t *buffer)
{
    colour(buffer, a->v);
    return by(a->run, a->run_len, a->ends, a->n, a->r, a->v, a->weights, a->weights_len, buffer, a->buffer_len);
}

static struct ds_counted build_counted(counted_fn *by, const struct lent *a, uint8_t *buffer)
{
    colour(buffer, a->v);
    return by(a->run, a->run_len, a->ends, a->n, a->r, a->v, a->weights, a->weights_len, buffer, a->buffer_len);
}

/* The library's counted build, held to the plain C version's by the count, and to what its build answered and wrote. */
static void held_count(const struct list *l, const struct lent *a, struct ds_answer right, const uint8_t buffer[BUFFER])
{
    static uint8_t counted[BUFFER], other[BUFFER];
    struct ds_counted ours = build_counted(ds_build_counted, a, counted), plain = build_counted(plain_build_counted, a, other);
    expect(ours.number == right.number && ours.place == right.place, "a counted build's answer", l, a->r);
    expect(ours.most_waiting == plain.most_waiting, "the most codes waiting", l, a->r);
    expect(memcmp(counted, buffer, BUFFER) == 0, "a counted build's bytes", l, a->r);
}

/* The library's build, held to the plain C version's by every byte of the buffer; gives its number. */
static uint32_t held_build(const struct list *l, const struct lent *a, uint8_t buffer[BUFFER])
{
    static uint8_t other[BUFFER];
    struct ds_answer ours = build(ds_build, a, buffer), plain = build(plain_build, a, other);
    expect(ours.number == plain.number && ours.place == plain.place, "a build's answer", l, a->r);
    expect(memcmp(buffer, other, BUFFER) == 0, "a build's bytes", l, a->r);
    held_count(l, a, ours, buffer);
    return ours.number;
}

/* What the list's build would be lent, but for one thing: just this refusal applies. */
static struct lent lent_wrongly(const struct list *l, size_t r, uint32_t number)
{
    static const uint8_t twice[] = {1, 1};
    static const uint16_t ends[DS_MOST_CODES + 1] = {1, 2}, zeros[MOST_WEIGHTS];
    struct lent a = lent_for(l, r);
    switch (number) {
    case DS_ARITY: a.r = MOST_ARITY + 1; break;
    case DS_PART_SIZE: a.v = DS_MOST_VERTICES / r + 1; break;
    case DS_WEIGHTS: a.weights_len--; break;
    case DS_TOO_MANY_CODES: a.ends = ends, a.n = DS_MOST_CODES + 1; break;
    case DS_CODE_LIST: a.run_len--; break;
    case DS_SHORT_BUFFER: a.buffer_len = list_file_length(l, r) - 1; break;
    case DS_REPEATED: a.run = twice, a.run_len = a.n = sizeof twice, a.ends = ends; break;
    case DS_CYCLIC: a.weights = zeros; break;
    }
    return a;
}

static void check_refusals(const struct list *l, size_t r)
{
    static uint8_t buffer[BUFFER];
    for (uint32_t number = DS_ARITY; number <= DS_CYCLIC; number++) {
        struct lent a = lent_wrongly(l, r, number);
        expect(held_build(l, &a, buffer) == number, "a refused build", l, r);
    }
}

/* Some of these weights are cyclic. */
static void check_other_weights(const struct list *l, size_t r)
{
    static uint8_t buffer[BUFFER];
    uint16_t weights[MOST_WEIGHTS];
    struct lent a = lent_for(l, r);
    a.weights = weights;
    for (uint32_t seed = 0; seed < OTHER_WEIGHTS; seed++) {
        weights_of(OTHER_SEED + seed, r, weights);
        held_build(l, &a, buffer);
    }
}

/* ---- The sign ----------------------------------------------------------- */

/* A sign that the library keeps, and the plain C version's. */
struct sign {
    uint8_t levels[LISTS], times[LISTS], plain_levels[LISTS], plain_times[LISTS];
    size_t bytes;
};

/* A code or a stranger, which may be empty or too long. */
static struct code any_code(const struct list *l, uint64_t *state)
{
    uint64_t x = next_random(state);
    struct code c = x % 8 < 7 ? l->codes[x / 8 % l->n] : l->strangers[x / 8 % l->n];
    if (x % 64 == 63)
        c.len = x / 64 % 2 * (DS_LONGEST_CODE + 1);
    return c;
}

static void held_report(const struct file *f, struct sign *s, struct code c, int32_t level, uint32_t time, size_t bytes)
{
    struct ds_reported ours =
        ds_report(f->bytes, f->length, c.bytes, c.len, level, time, s->levels, bytes, s->times, s->bytes);
    struct ds_reported plain =
        plain_report(f->bytes, f->length, c.bytes, c.len, level, time, s->plain_levels, bytes, s->plain_times, s->bytes);
    expect(ours.kind == plain.kind && ours.number == plain.number && ours.place == plain.place && ours.line == plain.line,
           "a report", f->list, f->r);
    expect(memcmp(s->levels, s->plain_levels, LISTS) == 0 && memcmp(s->times, s->plain_times, LISTS) == 0, "a report's bytes",
           f->list, f->r);
}

static void held_ask(const struct file *f, const struct sign *s, struct code c, uint32_t now, uint32_t limit, size_t bytes)
{
    struct ds_asked ours = ds_ask(f->bytes, f->length, c.bytes, c.len, now, limit, s->levels, bytes, s->times, s->bytes);
    struct ds_asked plain =
        plain_ask(f->bytes, f->length, c.bytes, c.len, now, limit, s->plain_levels, bytes, s->plain_times, s->bytes);
    expect(ours.kind == plain.kind && ours.number == plain.number && ours.place == plain.place && ours.level == plain.level &&
               ours.age == plain.age,
           "a question", f->list, f->r);
}

/* Random calls on lists of random bytes: levels a little past their range, times in a short span, and now and then lists of a
 * wrong length. */
static void check_sign(const struct file *f, uint64_t *state)
{
    static struct sign s;
    s.bytes = DS_BYTES_OF_A_PLACE * f->list->n;
    for (size_t i = 0; i < LISTS; i++) {
        s.levels[i] = s.plain_levels[i] = (uint8_t)next_random(state);
        s.times[i] = s.plain_times[i] = (uint8_t)next_random(state);
    }
    for (size_t i = 0; i < SIGN_CALLS; i++) {
        struct code c = any_code(f->list, state);
        size_t bytes = next_random(state) % 16 == 0 ? s.bytes - 1 : s.bytes;
        int32_t level = (int32_t)(next_random(state) % 40100) - 20050;
        held_report(f, &s, c, level, (uint32_t)(next_random(state) % SPAN), bytes);
        held_ask(f, &s, c, (uint32_t)(next_random(state) % SPAN), (uint32_t)(next_random(state) % (SPAN / 2)), bytes);
    }
}

/* ---- All of it ---------------------------------------------------------- */

static void check_list(const struct list *l, size_t r)
{
    static struct file f;
    uint64_t state = r;
    struct lent a = lent_for(l, r);
    f.list = l;
    f.r = r;
    f.length = list_file_length(l, r);
    expect(held_build(l, &a, f.bytes) == DS_SUCCESS, "a build", l, r);
    check_lines(&f);
    check_wrong_bytes(&f, &state);
    check_wrong_lengths(&f);
    check_sign(&f, &state);
    check_refusals(l, r);
    check_other_weights(l, r);
}

int main(void)
{
    const size_t sizes[] = MEASURED_SIZES;
    for (size_t i = 0; i < sizeof sizes / sizeof sizes[0]; i++) {
        struct list *l = list_new(sizes[i]);
        for (size_t r = LEAST_ARITY; r <= MOST_ARITY; r++)
            check_list(l, r);
        list_free(l);
    }
    printf("%lu comparisons with the plain C version, %lu wrong\n", checks, wrong);
    return wrong != 0;
}
