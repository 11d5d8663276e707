/* Where the records of a file stand and how its numbers are read: what building and looking up by hand share. It is for
 * machines that store the low byte of a number first. */
#ifndef PLAIN_FILE_H
#define PLAIN_FILE_H

#include "plain.h"

#include <string.h>

#define INLINE static inline __attribute__((always_inline))

enum {
    MOST_PARTS = 3,
    MARK = 2,                                /* the bytes of a mark */
    HEADER = 7,                              /* the bytes of the HD record */
    WEIGHTS = HEADER + MARK,                 /* where the weights begin */
    PART_WEIGHTS = 2 * DS_WEIGHTS_OF_A_PART, /* the bytes of one part's weights */
    KEY_LENGTH = 2,                          /* where the length stands in a KY record */
    KEY_CODE = 3,                            /* where the code begins in it */
    KEY_RECORD = KEY_CODE + DS_LONGEST_CODE,
    VALUES_OF_A_BYTE = 4,
    VALUE_BITS = 2,
    BLOCK = 64 /* the vertices of a rank entry */
};

/* The header's numbers, the number of vertices, and where the records' contents begin, past the marks. */
struct layout {
    uint32_t n, r, v, m;
    uint32_t values, ranks, keys;
    uint32_t length;
};

INLINE struct layout layout_of(uint32_t n, uint32_t r, uint32_t v)
{
    struct layout at = {.n = n, .r = r, .v = v, .m = r * v};
    at.values = WEIGHTS + PART_WEIGHTS * r + MARK;
    at.ranks = at.values + (at.m + VALUES_OF_A_BYTE - 1) / VALUES_OF_A_BYTE + MARK;
    at.keys = at.ranks + (at.m + BLOCK - 1) / BLOCK * 2;
    at.length = at.keys + KEY_RECORD * n;
    return at;
}

INLINE uint32_t load16(const uint8_t *p)
{
    uint16_t x;
    memcpy(&x, p, sizeof x);
    return x;
}

/* The sums of a code for all parts at once. */
INLINE void sums_of(const uint8_t *code, size_t len, const uint8_t *weights, uint32_t sum[MOST_PARTS], const uint32_t r)
{
    uint32_t a = 0, b = 0, c = 0;
    for (size_t i = 0; i < len; i++) {
        a += code[i] * load16(weights + 2 * i);
        b += code[i] * load16(weights + PART_WEIGHTS + 2 * i);
        if (r == 3)
            c += code[i] * load16(weights + 2 * PART_WEIGHTS + 2 * i);
    }
    sum[0] = a;
    sum[1] = b;
    sum[2] = c;
}

#endif
