/* The structs as they lie in memory, the constants, and the lengths of files. */
#include "calls.h"

static void try_structs(void)
{
    about("the layout of the structs");
    check(sizeof(struct ds_answer) == 16 && offsetof(struct ds_answer, number) == 0 &&
              offsetof(struct ds_answer, place) == 8,
          "ds_answer");
    check(sizeof(struct ds_counted) == 24 && offsetof(struct ds_counted, number) == 0 &&
              offsetof(struct ds_counted, place) == 8 && offsetof(struct ds_counted, most_waiting) == 16,
          "ds_counted");
    check(sizeof(struct ds_opened) == 40 && offsetof(struct ds_opened, number) == 0 &&
              offsetof(struct ds_opened, place) == 8 && offsetof(struct ds_opened, n) == 16 &&
              offsetof(struct ds_opened, r) == 24 && offsetof(struct ds_opened, v) == 32,
          "ds_opened");
    check(sizeof(struct ds_found) == 24 && offsetof(struct ds_found, kind) == 0 &&
              offsetof(struct ds_found, number) == 4 && offsetof(struct ds_found, place) == 8 &&
              offsetof(struct ds_found, line) == 16,
          "ds_found");
    check(sizeof(struct ds_reported) == 24 && offsetof(struct ds_reported, kind) == 0 &&
              offsetof(struct ds_reported, number) == 4 && offsetof(struct ds_reported, place) == 8 &&
              offsetof(struct ds_reported, line) == 16,
          "ds_reported");
    check(sizeof(struct ds_asked) == 24 && offsetof(struct ds_asked, kind) == 0 &&
              offsetof(struct ds_asked, number) == 4 && offsetof(struct ds_asked, place) == 8 &&
              offsetof(struct ds_asked, level) == 16 && offsetof(struct ds_asked, age) == 20,
          "ds_asked");
    check(sizeof(struct ds_part) == 16 && offsetof(struct ds_part, start) == 0 && offsetof(struct ds_part, length) == 8,
          "ds_part");
}

/* Document 02's numbers, and a number of its own for each kind. */
static void try_numbers(void)
{
    about("the numbers of the sign");
    check(DS_LOWEST_LEVEL == -20000 && DS_HIGHEST_LEVEL == 20000 && DS_NEVER_HEARD == 30000, "the levels");
    check(DS_LONGEST_LIMIT == 86400 && DS_BYTES_OF_A_PLACE == 4, "the limit, and the bytes of a place");
    check(DS_LEVEL == 17 && DS_EARLIER == 18 && DS_NOW_EARLIER == 19 && DS_LIMIT == 22 && DS_LISTS == 23,
          "the refusals");
    check(DS_AT == 0 && DS_UNKNOWN == 1 && DS_REFUSED == 2 && DS_ACCEPTED == 3 && DS_NEVER == 4 && DS_FRESH == 5 &&
              DS_STALE == 6,
          "the kinds");
}

static void expect_length(size_t n, size_t r, size_t v, size_t right)
{
    size_t given = ds_length(n, r, v);
    check(given == right, "for n %zu, r %zu, v %zu it is %zu and not %zu", n, r, v, given, right);
}

/* 13 + 64*r + ceil(m/4) + 2*ceil(m/64) + 35*n, by hand. */
static void try_lengths(void)
{
    about("the length of a file");
    expect_length(4, 2, 4, 285);
    expect_length(0, 2, 1, 144);
    expect_length(0, 2, 4, 145);
    expect_length(1, 3, 1, 243);
    expect_length(2, 2, 100, 269);
    expect_length(0, 2, 32, 13 + 128 + 16 + 2);
    expect_length(0, 2, 33, 13 + 128 + 17 + 4);
    expect_length(DS_MOST_CODES, 2, 2048, 37133);
    expect_length(DS_MOST_CODES, 3, 1365, DS_LONGEST_FILE);
}

/* Twice 2^63 is 2^64, and three times 6,148,914,691,236,517,206 is 2^64 + 2: as 64 bits they would be 0 and 2. */
static void try_lengths_outside(void)
{
    about("the length of a file outside the sizes");
    expect_length(DS_MOST_CODES + 1, 2, 4, 0);
    expect_length(SIZE_MAX, 2, 4, 0);
    expect_length(4, 0, 4, 0);
    expect_length(4, 1, 4, 0);
    expect_length(4, 4, 4, 0);
    expect_length(4, 256 + 2, 4, 0);
    expect_length(4, SIZE_MAX, 1, 0);
    expect_length(4, 2, 0, 0);
    expect_length(4, 3, 0, 0);
    expect_length(4, 2, DS_MOST_VERTICES / 2 + 1, 0);
    expect_length(4, 3, DS_MOST_VERTICES / 3 + 1, 0);
    expect_length(4, 2, (size_t)1 << 63, 0);
    expect_length(4, 2, ((size_t)1 << 63) + 4, 0);
    expect_length(4, 3, 6148914691236517206, 0);
    expect_length(4, 2, SIZE_MAX, 0);
}

void try_layout(void)
{
    try_structs();
    try_numbers();
    try_lengths();
    try_lengths_outside();
}
