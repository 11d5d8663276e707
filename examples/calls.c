/* The calls from C: builds the directory of a small club's gauges, opens it, looks codes up, shows the lines, brings
 * reports and asks for them. include/dronesickle.h says what each call takes and gives.
 *
 *     (cd crates/dronesickle && rt lib)
 *     cc -std=c99 -Iinclude examples/calls.c crates/dronesickle/out/libdronesickle.a -o calls && ./calls
 */
#include "dronesickle.h"

#include <stdio.h>
#include <string.h>

/* r = 3 and v = 4 make 12 vertices for the five codes. */
enum { N = 5, R = 3, V = 4, WEIGHTS = DS_WEIGHTS_OF_A_PART * R, MOST_TRIES = 100 };

static const char *const gauges[N] = {"MILL", "WEIR-2", "LOCK", "FERRY", "BRIDGE"};

/* A list as it is lent: all codes one after the other, and where each ends. */
static uint8_t run[N * DS_LONGEST_CODE];
static uint16_t ends[N];
static uint16_t weights[WEIGHTS];
static uint8_t buffer[DS_LONGEST_FILE];

/* The sign: a place for each line in each of two lists. */
static uint8_t levels[DS_BYTES_OF_A_PLACE * N];
static uint8_t times[DS_BYTES_OF_A_PLACE * N];

static size_t put_codes(void)
{
    size_t length = 0;
    for (size_t k = 0; k < N; k++) {
        memcpy(run + length, gauges[k], strlen(gauges[k]));
        length += strlen(gauges[k]);
        ends[k] = (uint16_t)length;
    }
    return length;
}

/* Any numbers serve as weights. */
static void choose_weights(void)
{
    static uint32_t state = 1;
    for (size_t i = 0; i < WEIGHTS; i++) {
        state = state * 1664525u + 1013904223u;
        weights[i] = (uint16_t)(state >> 16);
    }
}

/* Builds under other weights as long as the list is cyclic under them. The first weights serve: MILL, WEIR-2, LOCK and
 * FERRY wait at the start, and BRIDGE joins as WEIR-2, the second of them, is taken off. ds_build is the same call
 * without most_waiting. */
static struct ds_counted build(void)
{
    size_t run_length = put_codes();
    struct ds_counted answer = {DS_CYCLIC, 0, 0};
    for (int tries = 0; answer.number == DS_CYCLIC && tries < MOST_TRIES; tries++) {
        choose_weights();
        answer = ds_build_counted(run, run_length, ends, N, R, V, weights, WEIGHTS, buffer, sizeof buffer);
    }
    return answer;
}

static void look_up(size_t length, const char *code)
{
    struct ds_found found = ds_lookup(buffer, length, (const uint8_t *)code, strlen(code));
    if (found.kind == DS_AT)
        printf("%s has line %zu\n", code, found.line);
    else if (found.kind == DS_UNKNOWN)
        printf("%s is unknown\n", code);
    else
        printf("`%s` is refused: %u, place %zu\n", code, found.number, found.place);
}

/* DS_NEVER_HEARD as every level, 0 as every time. */
static void clear(void)
{
    memset(levels, 0, sizeof levels);
    memset(times, 0, sizeof times);
    for (size_t line = 0; line < N; line++) {
        levels[DS_BYTES_OF_A_PLACE * line] = DS_NEVER_HEARD % 256;
        levels[DS_BYTES_OF_A_PLACE * line + 1] = DS_NEVER_HEARD / 256;
    }
}

static void report(size_t length, const char *code, int32_t level, uint32_t time)
{
    struct ds_reported reported = ds_report(buffer, length, (const uint8_t *)code, strlen(code), level, time, levels,
                                            sizeof levels, times, sizeof times);
    printf("%s reports %d at %u: ", code, level, time);
    if (reported.kind == DS_ACCEPTED)
        printf("accepted, line %zu\n", reported.line);
    else if (reported.kind == DS_UNKNOWN)
        printf("unknown\n");
    else
        printf("refused, %u\n", reported.number);
}

static void ask(size_t length, const char *code, uint32_t now, uint32_t limit)
{
    struct ds_asked asked = ds_ask(buffer, length, (const uint8_t *)code, strlen(code), now, limit, levels,
                                   sizeof levels, times, sizeof times);
    printf("%s at %u: ", code, now);
    if (asked.kind == DS_NEVER)
        printf("never heard\n");
    else if (asked.kind == DS_FRESH)
        printf("%d, fresh\n", asked.level);
    else if (asked.kind == DS_STALE)
        printf("%d, stale, %u seconds old\n", asked.level, asked.age);
    else if (asked.kind == DS_UNKNOWN)
        printf("unknown\n");
    else
        printf("refused, %u\n", asked.number);
}

/* A sign with a limit of an hour. */
static void show_reports(size_t length)
{
    enum { HOUR = 3600 };
    clear();
    report(length, "MILL", 1250, 1000);
    report(length, "LOCK", -340, 1000);
    report(length, "LOCK", -310, 1000);
    report(length, "MILL", 1180, 999);
    report(length, "FERRY", 20001, 1000);
    report(length, "FERY", 900, 1000);
    report(length, "MILL", 1265, 4000);
    ask(length, "MILL", 4601, HOUR);
    ask(length, "LOCK", 4600, HOUR);
    ask(length, "LOCK", 4601, HOUR);
    ask(length, "FERRY", 4601, HOUR);
    ask(length, "FERY", 4601, HOUR);
    ask(length, "MILL", 3999, HOUR);
    ask(length, "MILL", 4601, 0);
}

int main(void)
{
    struct ds_counted built = build();
    if (built.number != DS_SUCCESS) {
        printf("the build is refused: %u, place %zu\n", built.number, built.place);
        return 1;
    }
    printf("built, with at most %zu codes waiting at once\n", built.most_waiting);
    size_t length = ds_length(N, R, V);
    struct ds_opened opened = ds_open(buffer, length);
    printf("%zu bytes, opened: %zu codes, r = %zu, v = %zu\n", length, opened.n, opened.r, opened.v);
    for (size_t k = 0; k < N; k++)
        look_up(length, gauges[k]);
    look_up(length, "MIL");
    look_up(length, "");
    for (size_t line = 0; line < opened.n; line++) {
        struct ds_part part = ds_show(buffer, length, line);
        printf("line %zu shows %.*s\n", line, (int)part.length, (const char *)buffer + part.start);
    }
    show_reports(length);
    return 0;
}
