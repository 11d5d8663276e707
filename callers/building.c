/* Building: the refusals 1 to 8 at their places, which of several is given, and buffers that are too long. */
#include "calls.h"

#include <string.h>

/* As one byte, two or four bytes some of these would be 2 or 3. */
static void try_arities(void)
{
    about("refusal 1: r is not 2 or 3");
    static const size_t wrong[] = {0, 1, 4, 5, 256 + 2, 65536 + 3, ((size_t)1 << 32) + 2, SIZE_MAX};
    for (size_t i = 0; i < COUNT(wrong); i++) {
        struct list *list = case_1();
        list->r = wrong[i];
        expect_build_refused(list, DS_ARITY, 0);
    }
}

/* Twice 2^63 + 4 would be 8 in 64 bits, and three times the last 2. */
static void try_part_sizes(void)
{
    about("refusal 2: v is 0 or r * v is over 4,096");
    static const struct {
        size_t r, v;
    } wrong[] = {
        {2, 0},
        {2, 2049},
        {2, 65536 + 4},
        {2, ((size_t)1 << 32) + 4},
        {2, (size_t)1 << 63},
        {2, ((size_t)1 << 63) + 4},
        {2, SIZE_MAX},
        {3, 0},
        {3, 1366},
        {3, SIZE_MAX},
        {3, 6148914691236517206},
    };
    for (size_t i = 0; i < COUNT(wrong); i++) {
        struct list *list = list_of(wrong[i].r, 4, "BA BB");
        list->v = wrong[i].v;
        expect_build_refused(list, DS_PART_SIZE, 0);
    }
}

static void try_numbers_of_weights(void)
{
    about("refusal 3: the weights are not 32 * r in number");
    static const struct {
        size_t r, count;
    } wrong[] = {{2, 0}, {2, 32}, {2, 63}, {2, 65}, {2, 96}, {3, 0}, {3, 64}, {3, 95}, {3, 97}};
    for (size_t i = 0; i < COUNT(wrong); i++) {
        struct list *list = list_of(wrong[i].r, 4, "BA BB");
        list->weights_len = wrong[i].count;
        expect_build_refused(list, DS_WEIGHTS, 0);
    }
}

static void try_numbers_of_codes(void)
{
    about("refusal 4: more than 1,024 codes");
    struct list *list = star(DS_MOST_CODES + 1, 2, 2048);
    list->room = 2 * DS_LONGEST_FILE;
    expect_build_refused(list, DS_TOO_MANY_CODES, 0);
}

/* A run of so many letters, and ends. */
static void try_ends(void)
{
    static const struct {
        const char *words;
        size_t run_len, n;
        uint16_t ends[5];
        size_t place;
    } lists[] = {
        {"refusal 5: the first code is empty", 4, 2, {0, 4}, 0},
        {"refusal 5: the only code is empty", 0, 1, {0}, 0},
        {"refusal 5: a code is empty", 4, 3, {2, 2, 4}, 1},
        {"refusal 5: the last code is empty", 4, 3, {2, 4, 4}, 2},
        {"refusal 5: an end falls", 4, 3, {2, 1, 4}, 1},
        {"refusal 5: the first end passes the run", 4, 1, {5}, 0},
        {"refusal 5: the last end passes the run", 4, 2, {2, 5}, 1},
        {"refusal 5: an end passes the run by far", 4, 3, {2, 65535, 4}, 1},
        {"refusal 5: the first code has 33 bytes", 35, 2, {33, 35}, 0},
        {"refusal 5: the last code has 33 bytes", 35, 2, {2, 35}, 1},
        {"refusal 5: the run is missed by a byte", 5, 2, {2, 4}, 2},
        {"refusal 5: no codes, but a run", 1, 0, {0}, 0},
        {"refusal 5: of several faults the lowest", 4, 5, {2, 3, 3, 9, 1}, 2},
        {"refusal 5: a run past two bytes, missed", 65536, 2, {32, 64}, 2},
        {"refusal 5: a run past two bytes, and too long a code", 65536, 2, {32, 65535}, 1},
    };
    for (size_t i = 0; i < COUNT(lists); i++) {
        about(lists[i].words);
        struct list *list = case_1();
        memset(list->run, 'A', sizeof list->run);
        list->run_len = lists[i].run_len;
        memcpy(list->ends, lists[i].ends, sizeof lists[i].ends);
        list->n = lists[i].n;
        list->room = DS_LONGEST_FILE;
        expect_build_refused(list, DS_CODE_LIST, lists[i].place);
    }
}

static void try_short_buffers(void)
{
    about("refusal 6: the buffer is shorter than the file");
    static const size_t rooms[] = {0, 1, 7, 284};
    for (size_t i = 0; i < COUNT(rooms); i++) {
        struct list *list = case_1();
        list->room = rooms[i];
        expect_build_refused(list, DS_SHORT_BUFFER, 285);
    }
    struct list *list = star(DS_MOST_CODES, 3, 1365);
    list->room--;
    expect_build_refused(list, DS_SHORT_BUFFER, DS_LONGEST_FILE);
    list = list_of(2, 1, "");
    list->room--;
    expect_build_refused(list, DS_SHORT_BUFFER, 144);
}

static void try_long_buffers(void)
{
    static struct file file;
    about("a buffer longer than the file");
    static const size_t more[] = {1, 2, 63, 35, 4096, 20000};
    for (size_t i = 0; i < COUNT(more); i++) {
        struct list *list = case_1();
        list->room += more[i];
        expect_built(list, CASE_1_WAITING, &file);
        expect_same(&file, case_1_file());
    }
}

static void try_repeated_codes(void)
{
    about("refusal 7: a code equals an earlier one");
    expect_build_refused(list_of(2, 4, "BA BA"), DS_REPEATED, 1);
    expect_build_refused(list_of(2, 4, "BA BB BC BB BA"), DS_REPEATED, 3);
    expect_build_refused(list_of(3, 9, "BA BB DA BC BA"), DS_REPEATED, 4);
    struct list *list = star(DS_MOST_CODES, 2, 2048);
    memcpy(list->run + list->run_len - 2, list->run, 2);
    expect_build_refused(list, DS_REPEATED, DS_MOST_CODES - 1);
}

static void try_cyclic_lists(void)
{
    about("refusal 8: all codes have the same vertices");
    struct list *list = star(DS_MOST_CODES, 3, 1365);
    memset(list->weights, 0, sizeof list->weights);
    expect_build_refused(list, DS_CYCLIC, DS_MOST_CODES);
    about("refusal 8: two of 1,024 codes have the same vertices");
    list = star(DS_MOST_CODES, 2, 2048);
    /* 256 * 251 + 254 is 64,510, which is 1,022 mod 2,048: the vertex of code 1,022 */
    list->run[list->run_len - 2] = 251;
    list->run[list->run_len - 1] = 254;
    expect_build_refused(list, DS_CYCLIC, 2);
    about("refusal 8: more codes than vertices");
    expect_build_refused(list_of(2, 1, "A B C"), DS_CYCLIC, 3);
}

/* A list that is wrong in every way up to a number: each later fault stands behind it. */
static struct list *wrong_from(unsigned number)
{
    struct list *list = list_of(2, 4, number <= DS_REPEATED ? "BA FA BA" : "BA FA");
    if (number <= DS_SHORT_BUFFER)
        list->room = 12;
    if (number <= DS_CODE_LIST)
        list->run_len++;
    while (number <= DS_TOO_MANY_CODES && list->n <= DS_MOST_CODES)
        add(list, "C", 1);
    if (number <= DS_WEIGHTS)
        list->weights_len--;
    if (number <= DS_PART_SIZE)
        list->v = 0;
    if (number <= DS_ARITY)
        list->r = 1;
    return list;
}

static void try_the_order(void)
{
    about("the first of 1 to 8 that applies");
    static const size_t places[] = {0, 0, 0, 0, 0, 3, 13 + 128 + 2 + 2 + 3 * 35, 2, 2};
    for (unsigned number = DS_ARITY; number <= DS_CYCLIC; number++)
        expect_build_refused(wrong_from(number), number, places[number]);
}

void try_building(void)
{
    try_arities();
    try_part_sizes();
    try_numbers_of_weights();
    try_numbers_of_codes();
    try_ends();
    try_short_buffers();
    try_long_buffers();
    try_repeated_codes();
    try_cyclic_lists();
    try_the_order();
}
