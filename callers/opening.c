/* Opening: the refusals 9 to 15 at their places, which of several is given, and files that no build wrote. */
#include "calls.h"

/* A byte of case 1's file, what it is made, and what opening then gives. */
struct fault {
    size_t offset;
    uint8_t byte;
    unsigned number;
    size_t place;
};

/* Case 1's values are 88 5A, the vertices 0 2 0 2 and 2 2 1 1 from the lowest bits on. */
static const struct fault faults[] = {
    {0, 'X', DS_MARK, 0},
    {1, 'X', DS_MARK, 0},
    {3, 4, DS_HEADER_NUMBERS, 0}, /* n is 1,028 */
    {4, 0, DS_HEADER_NUMBERS, 0},
    {4, 1, DS_HEADER_NUMBERS, 0},
    {4, 4, DS_HEADER_NUMBERS, 0},
    {5, 0, DS_HEADER_NUMBERS, 0},
    {6, 8, DS_HEADER_NUMBERS, 0}, /* v is 2,052 */
    {2, 3, DS_LENGTH, 0},
    {4, 3, DS_LENGTH, 0},
    {5, 5, DS_LENGTH, 0},
    {WT, 'X', DS_MARK, WT},
    {WT + 1, 'X', DS_MARK, WT},
    {GV, 'X', DS_MARK, GV},
    {RK + 1, 'X', DS_MARK, RK},
    {KY, 'X', DS_MARK, KY},
    {KY + 3 * KY_BYTES + 1, 'X', DS_MARK, 250},
    {GV + 2, 0x8B, DS_VALUE, 0},
    {GV + 2, 0x8C, DS_VALUE, 1},
    {GV + 3, 0xDA, DS_VALUE, 7},
    {RK + 2, 1, DS_RANK, 0},
    {RK + 3, 1, DS_RANK, 0},
    {GV + 2, 0x80, DS_RANK, 1}, /* vertex 1 is assigned too: five in all */
    {GV + 2, 0x8A, DS_RANK, 1}, /* vertex 0 is not: three in all */
    {KY + 2, 0, DS_STORED_CODE, 0},
    {KY + 2, 1, DS_STORED_CODE, 0}, /* the A of DA is then after the code */
    {KY + 2, 33, DS_STORED_CODE, 0},
    {KY + 3 * KY_BYTES + 2, 255, DS_STORED_CODE, 3},
    {KY + 5, 1, DS_STORED_CODE, 0},
    {KY + 3 * KY_BYTES - 1, 1, DS_STORED_CODE, 2},
    {KY + 4, 'B', DS_ASTRAY, 0},                /* DB leads to line 2 */
    {KY + 3 * KY_BYTES + 4, 'D', DS_ASTRAY, 3}, /* BD has the vertices 2 and 4 and leads to line 1 */
};

/* Case 1's file with each of these faults. */
static struct file *with_faults(const struct fault *given, size_t count)
{
    struct file *file = case_1_file();
    for (size_t i = 0; i < count; i++)
        file->bytes[given[i].offset] = given[i].byte;
    return file;
}

static void try_each_fault(void)
{
    about("a byte of case 1's file is changed");
    for (size_t i = 0; i < COUNT(faults); i++)
        expect_open_refused(with_faults(faults + i, 1), faults[i].number, faults[i].place);
}

/* Faults that leave each other's bytes alone, in the order in which opening looks at them. */
static void try_the_order(void)
{
    about("the first of 9 to 15 that applies");
    static const struct fault together[] = {
        {0, 'X', DS_MARK, 0},
        {4, 0, DS_HEADER_NUMBERS, 0},
        {2, 3, DS_LENGTH, 0},
        {WT, 'X', DS_MARK, WT},
        {KY + 3 * KY_BYTES, 'X', DS_MARK, 250},
        {GV + 3, 0xDA, DS_VALUE, 7},
        {RK + 2, 1, DS_RANK, 0},
        {KY + 3 * KY_BYTES + 2, 0, DS_STORED_CODE, 3},
        {KY + 4, 'B', DS_ASTRAY, 0},
    };
    for (size_t i = 0; i < COUNT(together); i++)
        expect_open_refused(with_faults(together + i, COUNT(together) - i), together[i].number, together[i].place);
}

static void try_lengths(void)
{
    about("case 1's file with another length");
    static const size_t lengths[] = {0, 1, 6, 7, 8, 144, 145, 284, 286, 285 + KY_BYTES, 285 + 256, 2 * DS_LONGEST_FILE};
    for (size_t i = 0; i < COUNT(lengths); i++) {
        struct file *file = case_1_file();
        file->length = lengths[i];
        expect_open_refused(file, DS_LENGTH, 0);
        expect_lookup_refused(file, "BA", 2, DS_LENGTH, 0);
        expect_nothing_shown(file, 0);
    }
    about("under 7 bytes comes before the mark");
    struct file *file = case_1_file();
    file->bytes[0] = 'X';
    file->length = 6;
    expect_open_refused(file, DS_LENGTH, 0);
}

/* r = 3, v = 1 and no codes: three values of 3 and two spare bits. */
static void try_spare_bits(void)
{
    static struct file file;
    about("refusal 12: spare bits");
    put_header(&file, 0, 3, 1);
    put_weights(&file, list_of(3, 1, ""));
    put_values(&file, "\x3F", 1);
    put_rank(&file, 1, (const unsigned[]){0});
    expect_opened(&file, 0, 3, 1);
    file.bytes[7 + 2 + 192 + 2] = 0x7F;
    expect_open_refused(&file, DS_VALUE, 3);
    file.bytes[7 + 2 + 192 + 2] = 0xBF;
    expect_open_refused(&file, DS_VALUE, 3);
}

/* A file of case 1's sizes with other values and codes. */
static void write_file(struct file *file, const char *values, size_t n, const char *const *codes)
{
    put_header(file, n, 2, 4);
    put_weights(file, case_1());
    put_values(file, values, 2);
    put_rank(file, 1, (const unsigned[]){0});
    for (size_t line = 0; line < n; line++)
        put_key(file, codes[line], 2);
}

/* BA has the vertices 2 and 5, both unassigned, and so lands on 2; vertex 3 alone is assigned. */
static void try_a_landing_vertex_that_is_unassigned(void)
{
    static struct file file;
    about("refusal 15: the stored code lands on an unassigned vertex");
    write_file(&file, "\x2A\xAA", 1, (const char *const[]){"BA"});
    expect_open_refused(&file, DS_ASTRAY, 0);
    expect_unknown(&file, "BA", 2);
}

/* Case 5's codes, which no build takes; the values are 0 2 1 2 2 0 1 2. */
static void try_a_cyclic_file_that_opens(void)
{
    static struct file file;
    about("a file over a cyclic graph that opens");
    write_file(&file, "\x98\x92", 4, (const char *const[]){"DA", "BB", "BA", "DB"});
    expect_opened(&file, 4, 2, 4);
    expect_at(&file, "DA", 2, 0);
    expect_at(&file, "BB", 2, 1);
    expect_at(&file, "BA", 2, 2);
    expect_at(&file, "DB", 2, 3);
    expect_unknown(&file, "BC", 2);
    expect_shown(&file, 3, KY + 3 * KY_BYTES + 3, "DB", 2);
}

/* DB leads to the same line as BB; DA and a zero byte to the same as DA. */
static void try_other_codes_that_open(void)
{
    about("case 1's file with another code that leads to the same line");
    struct file *file = case_1_file();
    file->bytes[KY + 2 * KY_BYTES + 3] = 'D';
    expect_opened(file, 4, 2, 4);
    expect_at(file, "DB", 2, 2);
    expect_unknown(file, "BB", 2);
    file = case_1_file();
    file->bytes[KY + 2] = 3;
    expect_opened(file, 4, 2, 4);
    expect_at(file, "DA\0", 3, 0);
    expect_unknown(file, "DA", 2);
    expect_shown(file, 0, KY + 3, "DA\0", 3);
}

void try_opening(void)
{
    try_each_fault();
    try_the_order();
    try_lengths();
    try_spare_bits();
    try_a_landing_vertex_that_is_unassigned();
    try_a_cyclic_file_that_opens();
    try_other_codes_that_open();
}
