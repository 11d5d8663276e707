/* Times every peer in one run: times ROUNDS.
 *
 * Each round takes one sample of every peer, so that a slow spell of the machine falls on all of them. A sample repeats its
 * work until it takes about SAMPLE_NS of processor time. The figures are medians over the rounds; a ratio is the median of
 * the ratios to the first peer, the plain C version at r = 3, within a round. */
#define _GNU_SOURCE
#include "peers.h"

#include <malloc.h>
#include <sched.h>
#include <stdbool.h>
#include <stdio.h>
#include <stdlib.h>
#include <string.h>
#include <time.h>

enum {
    MOST_ROUNDS = 101,
    QUERIES = 4096, /* lookups that a sample goes through in turn */
    MOST_BUILDS = 512,
    SAMPLE_NS = 400000,
    KEPT_BYTES = 1 << 30
};

enum measure { LISTED, STRANGERS, BUILD, MEASURES };

static const struct peer *const peers[] = {
    &plain_3,  &library_3,     &plain_2, &library_2,
#ifdef WITH_CMPH
    &cmph_bdz,
#endif
    &unordered_map, &binary_search,
};

enum { PEERS = sizeof peers / sizeof peers[0] };

/* A peer with its structure of the list, and what was measured of it. */
struct entry {
    const struct peer *peer;
    void *structure;
    size_t repeats[MEASURES];
    double ns[MEASURES][MOST_ROUNDS];
};

static struct entry entries[PEERS];
static struct code queries[BUILD][QUERIES];
static volatile int64_t sink; /* so that no lookup is left out as unused */

/* ---- Before the rounds -------------------------------------------------- */

static void stay_on_one_core(void)
{
    cpu_set_t set;
    CPU_ZERO(&set);
    CPU_SET(sched_getcpu(), &set);
    sched_setaffinity(0, sizeof set, &set);
}

/* Freed memory stays with the process: no build pays for fresh pages. */
static void keep_memory(void)
{
    mallopt(M_TRIM_THRESHOLD, KEPT_BYTES);
    mallopt(M_MMAP_THRESHOLD, KEPT_BYTES);
}

static void choose_queries(const struct list *l)
{
    uint64_t state = l->n;
    for (size_t k = 0; k < QUERIES; k++) {
        queries[LISTED][k] = l->codes[next_random(&state) % l->n];
        queries[STRANGERS][k] = l->strangers[next_random(&state) % l->n];
    }
}

/* Whether each code has a line of its own, and no stranger has one. */
static bool answers_rightly(const struct entry *e, const struct list *l)
{
    bool taken[DS_MOST_CODES] = {false};
    for (size_t k = 0; k < l->n; k++) {
        int32_t line = e->peer->lookup(e->structure, l->codes[k].bytes, l->codes[k].len);
        if (line < 0 || (size_t)line >= l->n || taken[line])
            return false;
        taken[line] = true;
        if (e->peer->lookup(e->structure, l->strangers[k].bytes, l->strangers[k].len) != -1)
            return false;
    }
    return true;
}

/* ---- Samples ------------------------------------------------------------ */

/* Processor time of this process: what else the machine does meanwhile is not counted. */
static double now_ns(void)
{
    struct timespec t;
    clock_gettime(CLOCK_PROCESS_CPUTIME_ID, &t);
    return (double)t.tv_sec * 1e9 + (double)t.tv_nsec;
}

static void drop_all(const struct peer *p, void *const *made, size_t count)
{
    for (size_t i = 0; i < count; i++)
        p->drop(made[i]);
}

static double sample_builds(const struct entry *e, const struct list *l, size_t repeats)
{
    static void *made[MOST_BUILDS];
    double start = now_ns();
    for (size_t i = 0; i < repeats; i++)
        made[i] = e->peer->build(l);
    double ns = now_ns() - start;
    drop_all(e->peer, made, repeats);
    return ns / (double)repeats;
}

static double sample_lookups(const struct entry *e, const struct code *asked, size_t repeats)
{
    int64_t sum = 0;
    double start = now_ns();
    for (size_t i = 0; i < repeats; i++)
        for (size_t k = 0; k < QUERIES; k++)
            sum += e->peer->lookup(e->structure, asked[k].bytes, asked[k].len);
    double ns = now_ns() - start;
    sink = sum;
    return ns / (double)(repeats * QUERIES);
}

/* The time of one build or of one lookup. */
static double sample(const struct entry *e, const struct list *l, enum measure m, size_t repeats)
{
    return m == BUILD ? sample_builds(e, l, repeats) : sample_lookups(e, queries[m], repeats);
}

/* The first repeat, on the caches that another peer left, is not counted. */
static double warm_sample(const struct entry *e, const struct list *l, enum measure m)
{
    sample(e, l, m, 1);
    return sample(e, l, m, e->repeats[m]);
}

static void choose_repeats(struct entry *e, const struct list *l)
{
    for (enum measure m = 0; m < MEASURES; m++) {
        double once = sample(e, l, m, 1) * (m == BUILD ? 1 : QUERIES);
        e->repeats[m] = (size_t)(SAMPLE_NS / once) + 1;
    }
    if (e->repeats[BUILD] > MOST_BUILDS)
        e->repeats[BUILD] = MOST_BUILDS;
}

static void prepare(struct entry *e, const struct peer *p, const struct list *l)
{
    e->peer = p;
    e->structure = p->build(l);
    if (!answers_rightly(e, l)) {
        fprintf(stderr, "%s answers wrongly at n = %zu\n", p->name, l->n);
        exit(1);
    }
    choose_repeats(e, l);
}

static void sample_peer(struct entry *e, const struct list *l, size_t round)
{
    srand((unsigned)round); /* libcmph takes its seeds from rand */
    for (enum measure m = 0; m < MEASURES; m++)
        e->ns[m][round] = warm_sample(e, l, m);
}

static void sample_round(const struct list *l, size_t round)
{
    for (size_t i = 0; i < PEERS; i++)
        sample_peer(&entries[i], l, round);
}

/* ---- Figures ------------------------------------------------------------ */

static int by_size(const void *a, const void *b)
{
    double x = *(const double *)a, y = *(const double *)b;
    return (x > y) - (x < y);
}

static double median(const double *of, size_t count)
{
    double sorted[MOST_ROUNDS];
    memcpy(sorted, of, count * sizeof sorted[0]);
    qsort(sorted, count, sizeof sorted[0], by_size);
    return sorted[count / 2];
}

static double ratio(const struct entry *e, enum measure m, size_t rounds)
{
    double ratios[MOST_ROUNDS];
    for (size_t i = 0; i < rounds; i++)
        ratios[i] = e->ns[m][i] / entries[0].ns[m][i];
    return median(ratios, rounds);
}

static void print_row(const struct entry *e, size_t rounds)
{
    printf("%-28s %8.1f %6.2f %10.1f %6.2f %10.2f %6.2f\n", e->peer->name,
           median(e->ns[LISTED], rounds), ratio(e, LISTED, rounds),
           median(e->ns[STRANGERS], rounds), ratio(e, STRANGERS, rounds),
           median(e->ns[BUILD], rounds) / 1000, ratio(e, BUILD, rounds));
}

static void print_table(const struct list *l, size_t rounds)
{
    printf("\nn = %zu; part size %zu at r = 3, %zu at r = 2\n", l->n, l->fits[3].v, l->fits[2].v);
    printf("%-28s %8s %6s %10s %6s %10s %6s\n", "", "listed", "", "stranger", "", "build", "");
    printf("%-28s %8s %6s %10s %6s %10s %6s\n", "", "ns", "ratio", "ns", "ratio", "us", "ratio");
    for (size_t i = 0; i < PEERS; i++)
        print_row(&entries[i], rounds);
}

static void measure(const struct list *l, size_t rounds)
{
    choose_queries(l);
    for (size_t i = 0; i < PEERS; i++)
        prepare(&entries[i], peers[i], l);
    for (size_t round = 0; round < rounds; round++)
        sample_round(l, round);
    print_table(l, rounds);
    for (size_t i = 0; i < PEERS; i++)
        entries[i].peer->drop(entries[i].structure);
}

int main(int argc, char **argv)
{
    size_t rounds = argc == 2 ? strtoul(argv[1], NULL, 10) : 0;
    if (rounds == 0 || rounds > MOST_ROUNDS) {
        fprintf(stderr, "usage: times ROUNDS, 1 to %d\n", MOST_ROUNDS);
        return 2;
    }
    keep_memory();
    stay_on_one_core();
    const size_t sizes[] = MEASURED_SIZES;
    for (size_t i = 0; i < sizeof sizes / sizeof sizes[0]; i++) {
        struct list *l = list_new(sizes[i]);
        measure(l, rounds);
        list_free(l);
    }
    return 0;
}
