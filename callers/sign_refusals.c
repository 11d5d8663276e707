/* The sign's refusals, 17, 18, 19, 22 and 23, at both sides of their edges, and the lookup's with its place. The file
 * is document 01's case 1, whose lines are DA 0, BA 1, BB 2, BC 3. */
#include "calls.h"

enum { DAY = 86400 };

static struct sign sign;

/* From 65,536 on they would be 0 or -1 in two bytes. */
static void try_levels(void)
{
    about("refusal 17: a level out of range");
    static const int32_t wrong[] = {-20001, 20001, 30000, INT32_MIN, INT32_MAX, 65536, -65536, 131072, -65537};
    clear(&sign, case_1_file(), 4);
    for (size_t i = 0; i < COUNT(wrong); i++)
        expect_report_refused(&sign, (struct report){"BA", 2, wrong[i], 1}, DS_LEVEL, 0);
    expect_never(&sign, (struct ask){"BA", 2, 1, 1});
    about("the lowest and the highest level");
    expect_accepted(&sign, (struct report){"BA", 2, -20000, 1}, 1);
    expect_fresh(&sign, (struct ask){"BA", 2, 1, 1}, -20000);
    expect_accepted(&sign, (struct report){"BA", 2, 20000, 1}, 1);
    expect_fresh(&sign, (struct ask){"BA", 2, 1, 1}, 20000);
}

/* Times that differ in one byte, at the edge of a byte, and across the middle of the 32 bits. */
static const struct {
    uint32_t last, before;
} moments[] = {{1, 0},         {UINT32_MAX, 0},      {UINT32_MAX, UINT32_MAX - 1},        {256, 255},
               {65536, 65535}, {16777216, 16777215}, {(uint32_t)INT32_MAX + 1, INT32_MAX}};

static void try_times(void)
{
    about("refusal 18: a time before the last of a line already heard");
    for (size_t i = 0; i < COUNT(moments); i++) {
        clear(&sign, case_1_file(), 4);
        expect_accepted(&sign, (struct report){"BB", 2, 10, moments[i].last}, 2);
        expect_report_refused(&sign, (struct report){"BB", 2, 20, moments[i].before}, DS_EARLIER, 0);
        expect_accepted(&sign, (struct report){"BC", 2, 30, moments[i].before}, 3);
        expect_accepted(&sign, (struct report){"BC", 2, 40, moments[i].last}, 3);
    }
}

static void try_nows(void)
{
    about("refusal 19: now before the last of a line already heard");
    for (size_t i = 0; i < COUNT(moments); i++) {
        clear(&sign, case_1_file(), 4);
        expect_accepted(&sign, (struct report){"BB", 2, 10, moments[i].last}, 2);
        expect_ask_refused(&sign, (struct ask){"BB", 2, moments[i].before, DAY}, DS_NOW_EARLIER, 0);
        expect_fresh(&sign, (struct ask){"BB", 2, moments[i].last, 1}, 10);
        expect_never(&sign, (struct ask){"BC", 2, moments[i].before, DAY});
    }
}

/* Without their upper bits 65,536 + 86,400 and 2^31 + 1 would be limits. */
static void try_limits(void)
{
    about("refusal 22: a limit out of range");
    static const uint32_t wrong[] = {0, DAY + 1, 65536 + DAY, 16777216, ((uint32_t)1 << 31) + 1, UINT32_MAX};
    clear(&sign, case_1_file(), 4);
    expect_accepted(&sign, (struct report){"BA", 2, 10, 5}, 1);
    for (size_t i = 0; i < COUNT(wrong); i++) {
        expect_ask_refused(&sign, (struct ask){"BA", 2, 5, wrong[i]}, DS_LIMIT, 0);
        expect_ask_refused(&sign, (struct ask){"DA", 2, 5, wrong[i]}, DS_LIMIT, 0);
    }
    about("the shortest and the longest limit");
    expect_fresh(&sign, (struct ask){"BA", 2, 6, 1}, 10);
    expect_fresh(&sign, (struct ask){"BA", 2, 5 + DAY, DAY}, 10);
}

/* Lists of these lengths, over a file of n codes. */
static void expect_wrong_lists(const struct file *file, size_t n, size_t levels_len, size_t times_len)
{
    clear(&sign, file, n);
    sign.levels_len = levels_len;
    sign.times_len = times_len;
    expect_report_refused(&sign, (struct report){"BA", 2, 10, 5}, DS_LISTS, 0);
    expect_ask_refused(&sign, (struct ask){"BA", 2, 5, 1}, DS_LISTS, 0);
}

static void try_lists(void)
{
    about("refusal 23: a list that is not n places long");
    static const size_t wrong[] = {0, 1, 3, 4, 8, 12, 13, 14, 15, 17, 18, 19, 20, 32, 64};
    for (size_t i = 0; i < COUNT(wrong); i++) {
        expect_wrong_lists(case_1_file(), 4, wrong[i], 16);
        expect_wrong_lists(case_1_file(), 4, 16, wrong[i]);
        expect_wrong_lists(case_1_file(), 4, wrong[i], wrong[i]);
    }
    expect_wrong_lists(case_1_file(), 4, 12, 20);
    about("refusal 23: a file without codes");
    static struct file file;
    expect_built(list_of(2, 4, ""), 0, &file);
    expect_wrong_lists(&file, 0, 1, 0);
    expect_wrong_lists(&file, 0, 0, 4);
}

/* Rank entry 1 of two_codes_file leads 5A06 past the last line. */
static void try_the_lookups_place(void)
{
    about("refusal 13 with its place");
    struct file *file = two_codes_file();
    file->bytes[TWO_CODES_RANK + 2] = 2;
    clear(&sign, file, 2);
    expect_report_refused(&sign, (struct report){"\x5A\x06", 2, 10, 5}, DS_RANK, 1);
    expect_ask_refused(&sign, (struct ask){"\x5A\x06", 2, 5, 1}, DS_RANK, 1);
    expect_accepted(&sign, (struct report){"\x0A\x05", 2, 10, 5}, 0);
}

void try_sign_refusals(void)
{
    try_levels();
    try_times();
    try_nows();
    try_limits();
    try_lists();
    try_the_lookups_place();
}
