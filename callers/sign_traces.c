/* Long runs of random calls on signs that start cleared, held to a plain map from code to last accepted report. The map
 * knows the codes and no lines. Among the calls are codes that lead to a listed code's line. */
#include "calls.h"

#include <string.h>

enum { LISTED = 24, CALLS = 500, LONGEST = DS_LONGEST_CODE + 1 };

/* A code of a trace. */
struct code {
    uint8_t bytes[LONGEST];
    size_t length;
};

/* The last accepted report of a listed code. */
struct entry {
    struct code code;
    bool heard;
    int32_t level;
    uint32_t time;
};

static struct entry map[LISTED];
static struct file file;
static struct sign sign;
static unsigned long reported[DS_STALE + 1], asked[DS_STALE + 1];

/* A number below a limit; the same ones on every run. */
static uint32_t below(uint32_t limit)
{
    static uint64_t state = 1;
    state = state * 6364136223846793005u + 1442695040888963407u;
    return (uint32_t)(state >> 33) % limit;
}

static struct entry *entry_of(struct code code)
{
    size_t k = 0;
    while (k < LISTED && (map[k].code.length != code.length || memcmp(map[k].code.bytes, code.bytes, code.length) != 0))
        k++;
    return k < LISTED ? &map[k] : NULL;
}

/* In a star with v = 64, code k is the bytes 0 and k and has the vertices k and 64; so have the bytes 1 and k, and 0, k
 * and a zero byte, since their sums are k, 256 + k and k. */
static void start(size_t r)
{
    expect_built(star(LISTED, r, 64), LISTED, &file);
    clear(&sign, &file, LISTED);
    for (size_t k = 0; k < LISTED; k++)
        map[k] = (struct entry){.code = {.bytes = {0, (uint8_t)k}, .length = 2}};
}

/* Of twelve codes nine are listed, one is empty or too long, two lead to a listed code's line. */
static struct code random_code(void)
{
    struct code code = {.bytes = {0, (uint8_t)below(LISTED)}, .length = 2};
    uint32_t chosen = below(12);
    if (chosen == 0)
        code.length = below(2) * LONGEST;
    if (chosen == 1)
        code.length = 3;
    if (chosen == 2)
        code.bytes[0] = 1;
    return code;
}

/* Of six levels one is out of range, often just so. */
static int32_t random_level(void)
{
    static const int32_t wrong[] = {DS_LOWEST_LEVEL - 1, DS_HIGHEST_LEVEL + 1, INT32_MIN, INT32_MAX, DS_NEVER_HEARD};
    if (below(6) == 0)
        return wrong[below(COUNT(wrong))];
    return DS_LOWEST_LEVEL + (int32_t)below(DS_HIGHEST_LEVEL - DS_LOWEST_LEVEL + 1);
}

/* What document 02 has the map answer to a report. The line is the one that looking up gives. */
static struct ds_reported report_to_the_map(struct report report, struct entry *entry)
{
    if (report.length == 0 || report.length > DS_LONGEST_CODE)
        return (struct ds_reported){.kind = DS_REFUSED, .number = DS_CODE_ASKED};
    if (entry == NULL)
        return (struct ds_reported){.kind = DS_UNKNOWN};
    if (report.level < -20000 || report.level > 20000)
        return (struct ds_reported){.kind = DS_REFUSED, .number = DS_LEVEL};
    if (entry->heard && report.time < entry->time)
        return (struct ds_reported){.kind = DS_REFUSED, .number = DS_EARLIER};
    entry->heard = true;
    entry->level = report.level;
    entry->time = report.time;
    return (struct ds_reported){.kind = DS_ACCEPTED, .line = call_lookup(&file, report.code, report.length).line};
}

/* What document 02 has the map answer to an ask. */
static struct ds_asked ask_the_map(struct ask ask, const struct entry *entry)
{
    if (ask.length == 0 || ask.length > DS_LONGEST_CODE)
        return (struct ds_asked){.kind = DS_REFUSED, .number = DS_CODE_ASKED};
    if (ask.limit == 0 || ask.limit > 86400)
        return (struct ds_asked){.kind = DS_REFUSED, .number = DS_LIMIT};
    if (entry == NULL)
        return (struct ds_asked){.kind = DS_UNKNOWN};
    if (!entry->heard)
        return (struct ds_asked){.kind = DS_NEVER};
    if (ask.now < entry->time)
        return (struct ds_asked){.kind = DS_REFUSED, .number = DS_NOW_EARLIER};
    if (ask.now - entry->time <= ask.limit)
        return (struct ds_asked){.kind = DS_FRESH, .level = entry->level};
    return (struct ds_asked){.kind = DS_STALE, .level = entry->level, .age = ask.now - entry->time};
}

static void try_a_report(struct code code, uint32_t moment)
{
    struct report report = {code.bytes, code.length, random_level(), moment};
    struct ds_reported right = report_to_the_map(report, entry_of(code));
    expect_reported(call_report(&sign, report), right);
    reported[right.kind]++;
}

static void try_an_ask(struct code code, uint32_t moment, uint32_t limit)
{
    struct ask ask = {code.bytes, code.length, moment, limit};
    struct ds_asked right = ask_the_map(ask, entry_of(code));
    expect_asked(call_ask(&sign, ask), right);
    asked[right.kind]++;
}

/* A call at a moment up to 50 seconds before or after the trace's own, which goes on by about ten seconds a call. */
static void try_a_call(uint32_t moment)
{
    moment += 50 - below(101);
    if (below(2) == 0)
        try_a_report(random_code(), moment);
    else
        try_an_ask(random_code(), moment, below(20) == 0 ? 86401 * below(2) : 1 + below(200));
}

/* Random calls, and then an ask for every code. */
static void try_trace(size_t r, uint32_t from)
{
    start(r);
    for (uint32_t i = 0; i < CALLS; i++)
        try_a_call(from + 10 * i);
    for (size_t k = 0; k < LISTED; k++)
        try_an_ask(map[k].code, from + 10 * CALLS + 100, 1000);
}

static void try_kinds(void)
{
    about("what the traces met");
    check(reported[DS_ACCEPTED] > 0 && reported[DS_UNKNOWN] > 0 && reported[DS_REFUSED] > 0, "the reports");
    check(asked[DS_NEVER] > 0 && asked[DS_FRESH] > 0 && asked[DS_STALE] > 0 && asked[DS_UNKNOWN] > 0 &&
              asked[DS_REFUSED] > 0,
          "the asks");
}

void try_sign_traces(void)
{
    about("random calls, r = 2");
    try_trace(2, 1000);
    about("random calls, r = 3, times across the middle of the 32 bits");
    try_trace(3, (uint32_t)INT32_MAX - 2500);
    about("random calls, times up to the last");
    try_trace(2, UINT32_MAX - 10 * CALLS - 100);
    try_kinds();
}
