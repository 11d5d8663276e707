/* Showing: where the code of a line stands, and when there is nothing to show. */
#include "calls.h"

/* As 32 bits, or times 35 in 64 bits, some of these would be line 0 or 1. */
static void try_lines_past_the_last(void)
{
    about("lines past the last");
    static const size_t lines[] = {
        4, 5, 255, 256, 65536, 65537, (size_t)1 << 32, ((size_t)1 << 32) + 1, SIZE_MAX / KY_BYTES + 1, SIZE_MAX};
    for (size_t i = 0; i < COUNT(lines); i++)
        expect_nothing_shown(case_1_file(), lines[i]);
}

/* The last line's code ends where the file does if its length is 32. */
static void try_stored_lengths(void)
{
    about("a stored length of 1 and of 32");
    enum { LAST = KY + 3 * KY_BYTES };
    struct file *file = case_1_file();
    file->bytes[LAST + 2] = 1;
    expect_shown(file, 3, LAST + 3, "B", 1);
    file->bytes[LAST + 2] = 32;
    expect_shown(file, 3, LAST + 3, file->bytes + LAST + 3, 32);
    about("a stored length of 0 and over 32");
    static const uint8_t wrong[] = {0, 33, 34, 128, 255};
    for (size_t i = 0; i < COUNT(wrong); i++) {
        file->bytes[LAST + 2] = wrong[i];
        expect_nothing_shown(file, 3);
        expect_shown(file, 2, LAST - KY_BYTES + 3, "BB", 2);
    }
}

static void try_the_header(void)
{
    about("nothing is shown of a file with a wrong header");
    static const struct {
        size_t offset;
        uint8_t byte;
    } wrong[] = {{0, 'X'}, {1, 'X'}, {2, 5}, {3, 4}, {4, 3}, {4, 4}, {5, 0}, {5, 5}, {6, 255}};
    for (size_t i = 0; i < COUNT(wrong); i++) {
        struct file *file = case_1_file();
        file->bytes[wrong[i].offset] = wrong[i].byte;
        expect_nothing_shown(file, 0);
        expect_nothing_shown(file, 3);
    }
}

static void try_what_is_passed_over(void)
{
    about("showing looks at no mark but the first and at nothing after a code");
    static const size_t offsets[] = {WT, GV, RK, KY + 1, KY + 34, RK + 2, GV + 2};
    struct file *file = case_1_file();
    for (size_t i = 0; i < COUNT(offsets); i++)
        file->bytes[offsets[i]] = '?';
    expect_shown(file, 0, KY + 3, "DA", 2);
}

void try_showing(void)
{
    try_lines_past_the_last();
    try_stored_lengths();
    try_the_header();
    try_what_is_passed_over();
}
