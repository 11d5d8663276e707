/* Document 01's cases 1 to 12, by its numbers. The files are written down by hand from its text. */
#include "calls.h"

#include <string.h>

static struct file file;
static struct file right;

/* Where line k's code stands in a file with r = 2 and v = 4. */
static size_t code_start(size_t line)
{
    return KY + KY_BYTES * line + 3;
}

static void try_cases_1_to_3(void)
{
    about("case 1: BA, BB, DA, BC");
    expect_built(case_1(), CASE_1_WAITING, &file);
    expect_same(&file, case_1_file());
    expect_opened(&file, 4, 2, 4);
    expect_at(&file, "DA", 2, 0);
    expect_at(&file, "BA", 2, 1);
    expect_at(&file, "BB", 2, 2);
    expect_at(&file, "BC", 2, 3);
    expect_shown(&file, 0, code_start(0), "DA", 2);
    expect_shown(&file, 1, code_start(1), "BA", 2);
    expect_shown(&file, 2, code_start(2), "BB", 2);
    expect_shown(&file, 3, code_start(3), "BC", 2);
    about("case 2: AA lands on an unassigned vertex");
    expect_unknown(&file, "AA", 2);
    about("case 3: DB lands on the line of BB");
    expect_unknown(&file, "DB", 2);
}

/* BA has the vertices 2 and 5. Vertex 2 gets the value 0, the others stay 2. */
static void try_case_4(void)
{
    about("case 4: BA alone");
    expect_built(list_of(2, 4, "BA"), 1, &file);
    put_header(&right, 1, 2, 4);
    put_weights(&right, list_of(2, 4, "BA"));
    put_values(&right, "\x8A\xAA", 2);
    put_rank(&right, 1, (const unsigned[]){0});
    put_key(&right, "BA", 2);
    expect_same(&file, &right);
    expect_opened(&file, 1, 2, 4);
    expect_at(&file, "BA", 2, 0);
    expect_shown(&file, 0, code_start(0), "BA", 2);
    expect_nothing_shown(&file, 1);
    expect_unknown(&file, "CA", 2);
}

static void try_cases_5_to_8(void)
{
    about("case 5: BA, BB, DA, DB");
    expect_build_refused(list_of(2, 4, "BA BB DA DB"), DS_CYCLIC, 4);
    about("case 6: the same with BC");
    expect_build_refused(list_of(2, 4, "BA BB DA DB BC"), DS_CYCLIC, 4);
    about("case 7: BA, FA");
    expect_build_refused(list_of(2, 4, "BA FA"), DS_CYCLIC, 2);
    about("case 8: BA, BB, BA");
    expect_build_refused(list_of(2, 4, "BA BB BA"), DS_REPEATED, 2);
}

static void try_case_9(void)
{
    about("case 9: no codes");
    expect_built(list_of(2, 4, ""), 0, &file);
    put_header(&right, 0, 2, 4);
    put_weights(&right, list_of(2, 4, ""));
    put_values(&right, "\xAA\xAA", 2);
    put_rank(&right, 1, (const unsigned[]){0});
    expect_same(&file, &right);
    expect_opened(&file, 0, 2, 4);
    expect_unknown(&file, "AA", 2);
    expect_unknown(&file, "BA", 2);
    expect_nothing_shown(&file, 0);
}

static void try_case_10(void)
{
    about("case 10: r = 3, v = 1, all weights 0");
    struct list *list = list_of(3, 1, "BA");
    memset(list->weights, 0, sizeof list->weights);
    expect_built(list, 1, &file);
    put_header(&right, 1, 3, 1);
    put_weights(&right, list);
    put_values(&right, "\x3C", 1);
    put_rank(&right, 1, (const unsigned[]){0});
    put_key(&right, "BA", 2);
    expect_same(&file, &right);
    expect_opened(&file, 1, 3, 1);
    expect_at(&file, "BA", 2, 0);
    expect_shown(&file, 0, 243 - KY_BYTES + 3, "BA", 2);
    list = list_of(3, 1, "BA BB");
    memset(list->weights, 0, sizeof list->weights);
    expect_build_refused(list, DS_CYCLIC, 2);
}

static void try_case_11_codes(void)
{
    about("case 11: 32 bytes pass, 33 do not");
    uint8_t code[DS_LONGEST_CODE + 1];
    for (size_t i = 0; i < sizeof code; i++)
        code[i] = (uint8_t)(7 * i + 200);
    struct list *list = list_of(2, 4, "");
    add(list, code, DS_LONGEST_CODE);
    list->room = ds_length(1, 2, 4);
    expect_built(list, 1, &file);
    expect_opened(&file, 1, 2, 4);
    expect_at(&file, code, DS_LONGEST_CODE, 0);
    expect_shown(&file, 0, code_start(0), code, DS_LONGEST_CODE);
    expect_unknown(&file, code, DS_LONGEST_CODE - 1);
    expect_lookup_refused(&file, code, DS_LONGEST_CODE + 1, DS_CODE_ASKED, 0);
    list = list_of(2, 4, "");
    add(list, code, DS_LONGEST_CODE + 1);
    list->room = ds_length(1, 2, 4);
    expect_build_refused(list, DS_CODE_LIST, 0);
}

static void try_case_11_part_sizes(void)
{
    about("case 11: the largest part sizes");
    expect_built(list_of(2, 2048, "BA"), 1, &file);
    expect_opened(&file, 1, 2, 2048);
    expect_build_refused(list_of(2, 2049, "BA"), DS_PART_SIZE, 0);
    expect_built(list_of(3, 1365, "BA"), 1, &file);
    expect_opened(&file, 1, 3, 1365);
    expect_build_refused(list_of(3, 1366, "BA"), DS_PART_SIZE, 0);
}

static void try_case_12(void)
{
    about("case 12: a buffer of 285 bytes, and of 284");
    struct list *list = case_1();
    list->room = 285;
    expect_built(list, CASE_1_WAITING, &file);
    expect_same(&file, case_1_file());
    list = case_1();
    list->room = 284;
    expect_build_refused(list, DS_SHORT_BUFFER, 285);
}

void try_cases(void)
{
    try_cases_1_to_3();
    try_case_4();
    try_cases_5_to_8();
    try_case_9();
    try_case_10();
    try_case_11_codes();
    try_case_11_part_sizes();
    try_case_12();
}
