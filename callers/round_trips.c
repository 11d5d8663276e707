/* Build, open, look every code up, show every line: the largest lists, and random ones at both arities. */
#include "calls.h"

#include <string.h>

static struct file file;

/* A number below a limit; the same ones on every run. */
static size_t below(size_t limit)
{
    static uint64_t state = 1;
    state = state * 6364136223846793005u + 1442695040888963407u;
    return (size_t)(state >> 33) % limit;
}

static const uint8_t *code_at(const struct list *list, size_t k)
{
    return list->run + (k == 0 ? 0 : list->ends[k - 1]);
}

static size_t length_at(const struct list *list, size_t k)
{
    return list->ends[k] - (k == 0 ? 0u : list->ends[k - 1]);
}

static bool listed(const struct list *list, const uint8_t *code, size_t length)
{
    size_t k = 0;
    while (k < list->n && (length_at(list, k) != length || memcmp(code_at(list, k), code, length) != 0))
        k++;
    return k < list->n;
}

/* Where the code of a line stands, counted from the end of the file. */
static size_t start_at(const struct list *list, size_t line)
{
    return file.length - KY_BYTES * (list->n - line) + 3;
}

/* Code k is found at a line that no other code has, and the line shows it. */
static void expect_a_line_of_its_own(const struct list *list, size_t k, bool *taken)
{
    struct ds_found found = call_lookup(&file, code_at(list, k), length_at(list, k));
    check(found.kind == DS_AT && found.line < list->n, "code %zu has no line", k);
    check(!taken[found.line], "code %zu has the line of another", k);
    taken[found.line] = true;
    expect_shown(&file, found.line, start_at(list, found.line), code_at(list, k), length_at(list, k));
}

/* A code with a byte changed, a byte more, or a byte less. */
static void expect_strangers_unknown(const struct list *list, size_t k)
{
    uint8_t code[DS_LONGEST_CODE + 1] = {0};
    size_t length = length_at(list, k);
    memcpy(code, code_at(list, k), length);
    if (length < DS_LONGEST_CODE && !listed(list, code, length + 1))
        expect_unknown(&file, code, length + 1);
    if (length > 1 && !listed(list, code, length - 1))
        expect_unknown(&file, code, length - 1);
    code[below(length)] ^= (uint8_t)(1 + below(255));
    if (!listed(list, code, length))
        expect_unknown(&file, code, length);
}

/* A list that was built into the file. */
static void expect_round_trip(const struct list *list)
{
    bool taken[DS_MOST_CODES] = {false};
    expect_opened(&file, list->n, list->r, list->v);
    for (size_t k = 0; k < list->n; k++) {
        expect_a_line_of_its_own(list, k, taken);
        expect_strangers_unknown(list, k);
    }
    expect_nothing_shown(&file, list->n);
}

/* Each code has a vertex 0 of its own, whose value is 0: the lines are in the order of these vertices, and all codes
 * wait at the start. */
static void try_star(size_t r, size_t v)
{
    const struct list *list = star(DS_MOST_CODES, r, v);
    expect_built(list, DS_MOST_CODES, &file);
    expect_round_trip(list);
    for (size_t k = 0; k < list->n; k += 93)
        expect_at(&file, code_at(list, k), 2, k);
}

static void try_stars(void)
{
    about("1,024 codes in a star, r = 2");
    try_star(2, 2048);
    about("1,024 codes in a star, r = 3");
    try_star(3, 1365);
}

/* Adds a random code, unless the list has it. */
static void add_random(struct list *list)
{
    uint8_t code[DS_LONGEST_CODE];
    size_t length = 1 + below(DS_LONGEST_CODE);
    for (size_t i = 0; i < length; i++)
        code[i] = (uint8_t)below(256);
    if (!listed(list, code, length))
        add(list, code, length);
}

static void choose_weights(struct list *list)
{
    for (size_t i = 0; i < list->weights_len; i++)
        list->weights[i] = (uint16_t)below(65536);
}

/* Whether the list builds under other weights. */
static bool builds(struct list *list)
{
    choose_weights(list);
    struct ds_counted answer = call_build(list, &file);
    bool built = answer.number == DS_SUCCESS && answer.place == 0;
    check(built || (answer.number == DS_CYCLIC && answer.place >= 2 && answer.place <= list->n),
          "the build of %zu codes answered %u, place %zu", list->n, answer.number, answer.place);
    return built;
}

/* Random codes, with a buffer that is longer by so many bytes than the file. */
static struct list *random_list(size_t n, size_t r, size_t v, size_t more)
{
    struct list *list = list_of(r, v, "");
    while (list->n < n)
        add_random(list);
    list->room = ds_length(n, r, v) + more;
    return list;
}

/* Builds such a list under other weights until it is not cyclic. */
static void try_random_list(size_t n, size_t r, size_t v, size_t more)
{
    enum { MOST_TRIES = 1000 };
    struct list *list = random_list(n, r, v, more);
    size_t tries = 1;
    while (!builds(list) && tries < MOST_TRIES)
        tries++;
    check(tries < MOST_TRIES, "%zu codes were not built under %d random weights", n, MOST_TRIES);
    expect_round_trip(list);
}

static void try_random_lists(void)
{
    about("random lists under random weights");
    static const size_t sizes[] = {1, 2, 3, 7, 31, 64, 65, 200};
    for (size_t i = 0; i < COUNT(sizes); i++) {
        try_random_list(sizes[i], 2, 1 + 2 * sizes[i], i);
        try_random_list(sizes[i], 3, 1 + sizes[i], 10 * i);
    }
    about("1,024 random codes under random weights");
    try_random_list(DS_MOST_CODES, 2, 2048, 0);
    try_random_list(DS_MOST_CODES, 3, 1365, 1);
}

void try_round_trips(void)
{
    try_stars();
    try_random_lists();
}
