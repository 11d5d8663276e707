/* The code lists that everything is measured on, the same on every run. */
#ifndef LISTS_H
#define LISTS_H

#include "plain.h"

#ifdef __cplusplus
extern "C" {
#endif

/* The lists that are measured, by their number of codes. */
#define MEASURED_SIZES {16, 128, 1024}

enum { LEAST_ARITY = 2, MOST_ARITY = 3, MOST_WEIGHTS = DS_WEIGHTS_OF_A_PART * MOST_ARITY };

struct code {
    const uint8_t *bytes;
    size_t len;
};

/* A part size and weights under which a list builds. */
struct fit {
    size_t v;
    uint16_t weights[MOST_WEIGHTS];
};

/* n different codes, and n strangers. Lengths are uniform in 1 to 32 and bytes in 0 to 255, but a code's last byte is never
 * 0: no weights tell two codes apart that differ by a zero byte at the end. */
struct list {
    size_t n;
    uint8_t *run; /* the codes, then the strangers */
    size_t run_len;
    uint16_t ends[DS_MOST_CODES];
    struct code codes[DS_MOST_CODES];
    struct code strangers[DS_MOST_CODES];
    struct fit fits[MOST_ARITY + 1]; /* of each arity */
};

typedef struct ds_answer build_fn(const uint8_t *run, size_t run_len, const uint16_t *ends, size_t ends_len, size_t r,
                                  size_t v, const uint16_t *weights, size_t weights_len, uint8_t *buffer,
                                  size_t buffer_len);
typedef struct ds_counted counted_fn(const uint8_t *run, size_t run_len, const uint16_t *ends, size_t ends_len, size_t r,
                                     size_t v, const uint16_t *weights, size_t weights_len, uint8_t *buffer,
                                     size_t buffer_len);
typedef struct ds_found lookup_fn(const uint8_t *file, size_t file_len, const uint8_t *code, size_t code_len);

typedef struct ds_reported report_fn(const uint8_t *file, size_t file_len, const uint8_t *code, size_t code_len,
                                     int32_t level, uint32_t time, uint8_t *levels, size_t levels_len, uint8_t *times,
                                     size_t times_len);
typedef struct ds_asked ask_fn(const uint8_t *file, size_t file_len, const uint8_t *code, size_t code_len, uint32_t now,
                               uint32_t limit, const uint8_t *levels, size_t levels_len, const uint8_t *times,
                               size_t times_len);

/* The list of n codes. */
struct list *list_new(size_t n);
void list_free(struct list *l);

/* The length of the list's file of arity r, and the build of it. */
size_t list_file_length(const struct list *l, size_t r);
struct ds_answer list_build(build_fn *build, const struct list *l, size_t r, uint8_t *buffer, size_t buffer_len);

/* The next of a row of random numbers (splitmix64). */
uint64_t next_random(uint64_t *state);

/* The 32 * r weights that a seed gives. */
void weights_of(uint32_t seed, size_t r, uint16_t *weights);

#ifdef __cplusplus
}
#endif
#endif
