/* Looking up: the refusals in their order, what a lookup passes over, and codes that are near to a listed one. */
#include "calls.h"

static const uint8_t long_code[256] = "BA";

/* Everything that opening would refuse first, too. */
static void try_the_header(void)
{
    about("a lookup in a file with a wrong header");
    static const struct {
        size_t offset;
        uint8_t byte;
        unsigned number;
    } wrong[] = {{0, 'X', DS_MARK},         {1, 'X', DS_MARK},         {3, 4, DS_HEADER_NUMBERS},
                 {4, 4, DS_HEADER_NUMBERS}, {5, 0, DS_HEADER_NUMBERS}, {6, 255, DS_HEADER_NUMBERS},
                 {2, 5, DS_LENGTH},         {4, 3, DS_LENGTH},         {5, 5, DS_LENGTH}};
    for (size_t i = 0; i < COUNT(wrong); i++) {
        struct file *file = case_1_file();
        file->bytes[wrong[i].offset] = wrong[i].byte;
        expect_lookup_refused(file, "BA", 2, wrong[i].number, 0);
        expect_lookup_refused(file, long_code, 0, wrong[i].number, 0);
        expect_lookup_refused(file, long_code, 33, wrong[i].number, 0);
    }
}

static void try_codes_asked(void)
{
    about("refusal 16: the code asked for is empty or over 32 bytes");
    static const size_t lengths[] = {0, 33, 34, 255, 256};
    for (size_t i = 0; i < COUNT(lengths); i++)
        expect_lookup_refused(case_1_file(), long_code, lengths[i], DS_CODE_ASKED, 0);
    expect_unknown(case_1_file(), long_code, 32);
    about("refusal 16 in a file of no bytes");
    struct file *file = case_1_file();
    file->length = 0;
    expect_lookup_refused(file, long_code, 0, DS_LENGTH, 0);
}

static void try_rank_entries(void)
{
    about("refusal 13 at a lookup");
    struct file *file = two_codes_file();
    expect_opened(file, 2, 2, 100);
    expect_at(file, "\x0A\x05", 2, 0);
    expect_at(file, "\x5A\x06", 2, 1);
    file->bytes[TWO_CODES_RANK + 2] = 2;
    expect_at(file, "\x0A\x05", 2, 0);
    expect_lookup_refused(file, "\x5A\x06", 2, DS_RANK, 1);
    expect_lookup_refused(file, long_code, 33, DS_CODE_ASKED, 0);
    file = two_codes_file();
    file->bytes[TWO_CODES_RANK] = 0xFF;
    file->bytes[TWO_CODES_RANK + 1] = 0xFF;
    expect_lookup_refused(file, "\x0A\x05", 2, DS_RANK, 0);
    expect_at(file, "\x5A\x06", 2, 1);
    about("a rank entry that leads to another code's line");
    file = two_codes_file();
    file->bytes[TWO_CODES_RANK] = 1;
    expect_unknown(file, "\x0A\x05", 2);
}

/* All values 0: AA has the vertices 1 and 5 and lands on 1, with one assigned vertex below it. */
static void try_no_codes_but_values(void)
{
    static struct file file;
    about("refusal 13 at a lookup: no codes, but assigned vertices");
    put_header(&file, 0, 2, 4);
    put_weights(&file, case_1());
    put_values(&file, "\0\0", 2);
    put_rank(&file, 1, (const unsigned[]){0});
    expect_lookup_refused(&file, "AA", 2, DS_RANK, 0);
    expect_open_refused(&file, DS_RANK, 1);
}

/* Every mark but the first, and bytes after the codes. */
static void try_what_is_passed_over(void)
{
    about("a lookup looks at no mark but the first and at nothing after a code");
    static const size_t offsets[] = {WT, GV + 1, RK, KY, KY + 34, KY + KY_BYTES + 1, KY + 2 * KY_BYTES + 5};
    struct file *file = case_1_file();
    for (size_t i = 0; i < COUNT(offsets); i++)
        file->bytes[offsets[i]] = '?';
    expect_at(file, "DA", 2, 0);
    expect_at(file, "BA", 2, 1);
    expect_at(file, "BB", 2, 2);
    expect_at(file, "BC", 2, 3);
    expect_unknown(file, "AA", 2);
}

/* BC is stored at line 3, the last of the file. */
static void try_stored_lengths(void)
{
    about("a stored length that is not the code's");
    static const uint8_t lengths[] = {0, 1, 3, 32, 33, 255};
    for (size_t i = 0; i < COUNT(lengths); i++) {
        struct file *file = case_1_file();
        file->bytes[KY + 3 * KY_BYTES + 2] = lengths[i];
        expect_unknown(file, "BC", 2);
    }
}

/* At r = 2 a stored 3 adds 3 and counts as assigned: vertex 1 is then assigned, and AA (1,5) has the sum 5. */
static void try_a_stored_three(void)
{
    about("a stored 3 at r = 2");
    struct file *file = case_1_file();
    file->bytes[GV + 2] = 0x8C;
    expect_at(file, "DA", 2, 0);
    /* AA lands on vertex 5, which is unassigned */
    expect_unknown(file, "AA", 2);
    /* one more is assigned below vertex 2, so that BA leads to the line of BB; and BC leads past the last */
    expect_unknown(file, "BA", 2);
    expect_lookup_refused(file, "BC", 2, DS_RANK, 0);
}

static void try_strangers(void)
{
    about("codes that are near to a listed one");
    struct file *file = case_1_file();
    expect_unknown(file, "D", 1);
    expect_unknown(file, "DA\0", 3);
    expect_unknown(file, "da", 2);
    expect_unknown(file, "AD", 2);
    expect_unknown(file, "\0", 1);
    expect_unknown(file, "\xFF\xFF", 2);
    expect_unknown(file, "HA", 2); /* the vertices of DA */
    expect_unknown(file, "DE", 2); /* and again */
}

void try_looking_up(void)
{
    try_the_header();
    try_codes_asked();
    try_rank_entries();
    try_no_codes_but_values();
    try_what_is_passed_over();
    try_stored_lengths();
    try_a_stored_three();
    try_strangers();
}
