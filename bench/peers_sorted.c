/* Binary search in a sorted list of codes. */
#include "peers.h"

#include <stdlib.h>
#include <string.h>

struct table {
    size_t n;
    struct key keys[];
};

static int order(const uint8_t *a, size_t a_len, const uint8_t *b, size_t b_len)
{
    int first = memcmp(a, b, a_len < b_len ? a_len : b_len);
    return first != 0 ? first : (a_len > b_len) - (a_len < b_len);
}

static int by_code(const void *a, const void *b)
{
    const struct key *x = a, *y = b;
    return order(x->bytes, x->len, y->bytes, y->len);
}

static void *build(const struct list *l)
{
    struct table *t = malloc(sizeof *t + l->n * sizeof t->keys[0]);
    t->n = l->n;
    for (size_t k = 0; k < l->n; k++) {
        t->keys[k].len = (uint8_t)l->codes[k].len;
        memcpy(t->keys[k].bytes, l->codes[k].bytes, l->codes[k].len);
    }
    qsort(t->keys, t->n, sizeof t->keys[0], by_code);
    return t;
}

static int32_t lookup(const void *structure, const uint8_t *code, size_t len)
{
    const struct table *t = structure;
    size_t low = 0, high = t->n;
    while (low < high) {
        size_t middle = (low + high) / 2;
        int side = order(code, len, t->keys[middle].bytes, t->keys[middle].len);
        if (side == 0)
            return (int32_t)middle;
        if (side < 0)
            high = middle;
        else
            low = middle + 1;
    }
    return -1;
}

const struct peer binary_search = {"binary search", build, free, lookup};
