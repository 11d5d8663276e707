/* Makes the measured lists, and finds part sizes and weights under which they build. */
#include "lists.h"

#include <stdbool.h>
#include <stdlib.h>
#include <string.h>

enum { TRIES = 64 /* of weights, before the part size grows */ };

uint64_t next_random(uint64_t *state)
{
    uint64_t z = *state += 0x9E3779B97F4A7C15u;
    z = (z ^ z >> 30) * 0xBF58476D1CE4E5B9u;
    z = (z ^ z >> 27) * 0x94D049BB133111EBu;
    return z ^ z >> 31;
}

/* Knuth's linear congruential generator; its upper halves are the weights. */
void weights_of(uint32_t seed, size_t r, uint16_t *weights)
{
    uint32_t x = seed;
    for (size_t i = 0; i < DS_WEIGHTS_OF_A_PART * r; i++) {
        x = 1664525u * x + 1013904223u;
        weights[i] = (uint16_t)(x >> 16);
    }
}

/* ---- Codes -------------------------------------------------------------- */

static struct code random_code(uint64_t *state, uint8_t *bytes)
{
    size_t len = 1 + next_random(state) % DS_LONGEST_CODE;
    for (size_t i = 0; i < len; i++)
        bytes[i] = (uint8_t)next_random(state);
    if (bytes[len - 1] == 0)
        bytes[len - 1] = 1;
    return (struct code){bytes, len};
}

static bool among(const struct code *codes, size_t n, struct code c)
{
    for (size_t k = 0; k < n; k++)
        if (codes[k].len == c.len && memcmp(codes[k].bytes, c.bytes, c.len) == 0)
            return true;
    return false;
}

/* A random code that is none of the first `listed` codes. */
static struct code other_code(const struct list *l, size_t listed, uint64_t *state, uint8_t *bytes)
{
    struct code c;
    do
        c = random_code(state, bytes);
    while (among(l->codes, listed, c));
    return c;
}

static void fill(struct list *l)
{
    uint64_t state = 1 + l->n;
    uint8_t *next = l->run;
    for (size_t k = 0; k < l->n; k++) {
        l->codes[k] = other_code(l, k, &state, next);
        next += l->codes[k].len;
        l->ends[k] = (uint16_t)(next - l->run);
    }
    l->run_len = (size_t)(next - l->run);
    for (size_t k = 0; k < l->n; k++) {
        l->strangers[k] = other_code(l, l->n, &state, next);
        next += l->strangers[k].len;
    }
}

/* ---- Fits --------------------------------------------------------------- */

/* The usual part size: 1.23 vertices a code at r = 3 and 2.09 at r = 2, in an odd part. */
static size_t usual_part_size(size_t n, size_t r)
{
    size_t vertices_of_100_codes = r == 3 ? 123 : 209;
    return (n * vertices_of_100_codes + 100 * r - 1) / (100 * r) | 1;
}

static bool builds(const struct list *l, size_t r)
{
    static uint8_t file[DS_LONGEST_FILE];
    return list_build(plain_build, l, r, file, sizeof file).number == DS_SUCCESS;
}

/* Starts at the usual part size and goes up while no weights build. It has to: two codes that differ only by multiples of v
 * within their bytes share all vertices under any weights, as happens to lists with short codes while v is below 256. */
static void find_fit(struct list *l, size_t r)
{
    struct fit *f = &l->fits[r];
    f->v = usual_part_size(l->n, r);
    for (uint32_t seed = 1;; seed++) {
        weights_of(seed, r, f->weights);
        if (builds(l, r))
            return;
        if (seed == TRIES) {
            seed = 0;
            f->v += 2;
        }
    }
}

/* ---- Lists -------------------------------------------------------------- */

struct list *list_new(size_t n)
{
    struct list *l = calloc(1, sizeof *l);
    l->n = n;
    l->run = malloc(2 * n * DS_LONGEST_CODE);
    fill(l);
    for (size_t r = LEAST_ARITY; r <= MOST_ARITY; r++)
        find_fit(l, r);
    return l;
}

void list_free(struct list *l)
{
    free(l->run);
    free(l);
}

size_t list_file_length(const struct list *l, size_t r)
{
    return plain_length(l->n, r, l->fits[r].v);
}

struct ds_answer list_build(build_fn *build, const struct list *l, size_t r, uint8_t *buffer, size_t buffer_len)
{
    const struct fit *f = &l->fits[r];
    return build(l->run, l->run_len, l->ends, l->n, r, f->v, f->weights, DS_WEIGHTS_OF_A_PART * r, buffer, buffer_len);
}
