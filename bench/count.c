/* Makes the calls whose instructions are counted: count FUNCTION N R listed|strangers|build.
 *
 * FUNCTION is a lookup, a build, a report or a question, of the library or of the plain C version. A lookup is called once for
 * each code or stranger of the measured list of N codes; a report once for each code, the first of its line; a question once for
 * each code, of lines that are fresh. Of builds the last call is the one to count, since weights for the list are found by
 * building. It prints how many calls there are to count, and ends with status 1 where an answer is wrong. */
#include "lists.h"

#include <stdbool.h>
#include <stdio.h>
#include <stdlib.h>
#include <string.h>

static const struct function {
    const char *name;
    lookup_fn *lookup; /* one of the four */
    build_fn *build;
    report_fn *report;
    ask_fn *ask;
} functions[] = {
    {.name = "ds_lookup", .lookup = ds_lookup}, {.name = "plain_lookup_loop", .lookup = plain_lookup_loop},
    {.name = "ds_build", .build = ds_build},    {.name = "plain_build", .build = plain_build},
    {.name = "ds_report", .report = ds_report}, {.name = "plain_report", .report = plain_report},
    {.name = "ds_ask", .ask = ds_ask},          {.name = "plain_ask", .ask = plain_ask},
};

static const struct function *function_named(const char *name)
{
    for (size_t i = 0; i < sizeof functions / sizeof functions[0]; i++)
        if (strcmp(functions[i].name, name) == 0)
            return &functions[i];
    return NULL;
}

/* Looks all n codes up; whether every answer is of this kind. */
static bool all_are(uint32_t kind, lookup_fn *lookup, const struct code *codes, size_t n, const uint8_t *file, size_t length)
{
    bool all = true;
    for (size_t k = 0; k < n; k++)
        all &= lookup(file, length, codes[k].bytes, codes[k].len).kind == kind;
    return all;
}

/* The lists of a sign, and what is reported and asked. */
static uint8_t levels[DS_BYTES_OF_A_PLACE * DS_MOST_CODES], times[DS_BYTES_OF_A_PLACE * DS_MOST_CODES];
enum { LEVEL = 1250, TIME = 1000, NOW = 1060, LIMIT = 60 };

/* Brings a first report of every code; whether all are accepted. */
static bool all_accepted(report_fn *report, const struct list *l, const uint8_t *file, size_t length)
{
    size_t bytes = DS_BYTES_OF_A_PLACE * l->n;
    memset(levels, UINT8_MAX / 2, bytes); /* out of range: never heard */
    bool all = true;
    for (size_t k = 0; k < l->n; k++)
        all &= report(file, length, l->codes[k].bytes, l->codes[k].len, LEVEL, TIME, levels, bytes, times, bytes).kind ==
               DS_ACCEPTED;
    return all;
}

/* Asks for every code; whether all are fresh. */
static bool all_fresh(ask_fn *ask, const struct list *l, const uint8_t *file, size_t length)
{
    size_t bytes = DS_BYTES_OF_A_PLACE * l->n;
    bool all = true;
    for (size_t k = 0; k < l->n; k++) {
        struct ds_asked asked = ask(file, length, l->codes[k].bytes, l->codes[k].len, NOW, LIMIT, levels, bytes, times, bytes);
        all &= asked.kind == DS_FRESH && asked.level == LEVEL;
    }
    return all;
}

/* Makes the calls; whether the answers are right. */
static bool call(const struct function *f, const struct list *l, size_t r, bool strangers)
{
    static uint8_t file[DS_LONGEST_FILE];
    size_t length = list_file_length(l, r);
    build_fn *build = f->build != NULL ? f->build : plain_build;
    if (list_build(build, l, r, file, length).number != DS_SUCCESS)
        return false;
    if (f->build != NULL)
        return true;
    if (f->report != NULL)
        return all_accepted(f->report, l, file, length);
    if (f->ask != NULL)
        return all_accepted(plain_report, l, file, length) && all_fresh(f->ask, l, file, length);
    return strangers ? all_are(DS_UNKNOWN, f->lookup, l->strangers, l->n, file, length)
                     : all_are(DS_AT, f->lookup, l->codes, l->n, file, length);
}

int main(int argc, char **argv)
{
    const struct function *f = argc == 5 ? function_named(argv[1]) : NULL;
    if (f == NULL) {
        fprintf(stderr, "usage: count FUNCTION N R listed|strangers|build\n");
        return 2;
    }
    size_t n = strtoul(argv[2], NULL, 10), r = strtoul(argv[3], NULL, 10);
    struct list *l = list_new(n);
    bool right = call(f, l, r, strcmp(argv[4], "strangers") == 0);
    list_free(l);
    printf("%zu\n", f->build == NULL ? n : 1);
    return right ? 0 : 1;
}
