/* Building by hand in plain C: the refusals in their order, the graph of the codes, its peeling and the file. */
#include "plain_file.h"

#include <stdbool.h>

/* What one build keeps meanwhile, about 54 KiB on the stack. */
struct graph {
    uint16_t start[DS_MOST_CODES]; /* of each code in the run */
    uint32_t sum[DS_MOST_CODES];   /* of part 0, to tell codes apart */
    uint16_t chain[DS_MOST_CODES]; /* an earlier code with the same vertex 0, plus one */
    uint16_t vertex[DS_MOST_CODES][MOST_PARTS];
    uint16_t order[DS_MOST_CODES]; /* the removal list, and the waiting queue behind it */
    uint8_t queued[DS_MOST_CODES];
    uint16_t landing[DS_MOST_CODES];
    uint16_t degree[DS_MOST_VERTICES];
    uint16_t mixed[DS_MOST_VERTICES]; /* exclusive or of the unremoved codes on a vertex */
    uint16_t line[DS_MOST_VERTICES];  /* assigned vertices below; before that, the head of each vertex's chain */
    uint8_t value[DS_MOST_VERTICES + VALUES_OF_A_BYTE - 1];
};

INLINE struct ds_counted refused(uint32_t number, size_t place)
{
    return (struct ds_counted){.number = number, .place = place};
}

/* The lowest code that the ends make wrong; n where only the last end is; n + 1 where all is well. */
static size_t wrong_code(size_t run_len, const uint16_t *ends, size_t n)
{
    uint32_t start = 0;
    for (size_t k = 0; k < n; k++) {
        uint32_t end = ends[k];
        if (end <= start || end - start > DS_LONGEST_CODE || end > run_len)
            return k;
        start = end;
    }
    return start == run_len ? n + 1 : n;
}

/* ---- The graph ---------------------------------------------------------- */

/* Puts code k on its vertices. */
INLINE void add_edge(struct graph *g, uint32_t k, const uint32_t sum[MOST_PARTS], uint32_t v, const uint32_t r)
{
    g->sum[k] = sum[0];
    for (uint32_t j = 0; j < r; j++) {
        uint32_t x = sum[j] % v + j * v;
        g->vertex[k][j] = (uint16_t)x;
        g->degree[x]++;
        g->mixed[x] ^= (uint16_t)k;
    }
}

/* Whether code k equals an earlier one. Equal codes share vertex 0, so it is compared along that vertex's chain alone. */
INLINE bool came_before(const struct graph *g, const uint8_t *run, const uint16_t *ends, uint32_t k, const uint8_t *code,
                        uint32_t len)
{
    for (uint32_t e = g->line[g->vertex[k][0]]; e != 0; e = g->chain[e - 1]) {
        uint32_t start = g->start[e - 1];
        if (g->sum[e - 1] == g->sum[k] && ends[e - 1] - start == len && memcmp(run + start, code, len) == 0)
            return true;
    }
    return false;
}

INLINE void add_to_chain(struct graph *g, uint32_t k)
{
    uint16_t *head = &g->line[g->vertex[k][0]];
    g->chain[k] = *head;
    *head = (uint16_t)(k + 1);
}

INLINE void clear(struct graph *g, const struct layout *at)
{
    memset(g->degree, 0, sizeof g->degree[0] * at->m);
    memset(g->mixed, 0, sizeof g->mixed[0] * at->m);
    memset(g->line, 0, sizeof g->line[0] * at->v);
}

/* Puts the codes on their vertices; the lowest code that equals an earlier one, or n. */
INLINE uint32_t fill(struct graph *g, const uint8_t *run, const uint16_t *ends, const struct layout *at,
                     const uint8_t *weights, const uint32_t r)
{
    clear(g, at);
    uint32_t start = 0;
    for (uint32_t k = 0; k < at->n; k++) {
        const uint8_t *code = run + start;
        uint32_t len = ends[k] - start, sum[MOST_PARTS];
        sums_of(code, len, weights, sum, r);
        add_edge(g, k, sum, at->v, r);
        if (came_before(g, run, ends, k, code, len))
            return k;
        add_to_chain(g, k);
        g->start[k] = (uint16_t)start;
        start += len;
    }
    return at->n;
}

/* ---- Peeling and assignment --------------------------------------------- */

/* The first waiting queue; gives how many wait. */
INLINE uint32_t first_queue(struct graph *g, uint32_t n, const uint32_t r)
{
    uint32_t tail = 0;
    for (uint32_t k = 0; k < n; k++) {
        bool removable = false;
        for (uint32_t j = 0; j < r; j++)
            removable |= g->degree[g->vertex[k][j]] == 1;
        g->queued[k] = removable;
        g->order[tail] = (uint16_t)k;
        tail += removable;
    }
    return tail;
}

/* Removes code k; gives the queue's new end. */
INLINE uint32_t remove_code(struct graph *g, uint32_t k, uint32_t tail, const uint32_t r)
{
    for (uint32_t j = 0; j < r; j++) {
        uint32_t x = g->vertex[k][j];
        uint32_t left = g->mixed[x] ^= (uint16_t)k;
        if (--g->degree[x] == 1 && !g->queued[left]) {
            g->queued[left] = 1;
            g->order[tail++] = (uint16_t)left;
        }
    }
    return tail;
}

/* How many codes were removed, and the most that waited at once, after the start and after each step. */
struct peeled {
    uint32_t removed, most_waiting;
};

/* A code joins the queue at most once, so removal list and queue are one array. */
INLINE struct peeled peel(struct graph *g, uint32_t n, const uint32_t r)
{
    uint32_t head = 0, tail = first_queue(g, n, r), most = tail;
    while (head < tail) {
        tail = remove_code(g, g->order[head++], tail, r);
        most = tail - head > most ? tail - head : most;
    }
    return (struct peeled){.removed = tail, .most_waiting = most};
}

/* Assigns code k's vertex j0, where the code then lands: its other vertices keep r or the value that they have. After a
 * full peeling every degree is 0; from here on 1 means visited. */
INLINE void assign_code(struct graph *g, uint32_t k, const uint32_t r)
{
    uint32_t sum = 0, j0 = r;
    for (uint32_t j = r; j-- > 0;) {
        uint32_t x = g->vertex[k][j];
        if (g->degree[x] == 0)
            j0 = j;
        sum += g->value[x]; /* r, so nothing, where unvisited */
        g->degree[x] = 1;
    }
    uint32_t landing = g->vertex[k][j0];
    g->value[landing] = (uint8_t)((j0 + r * r - sum) % r);
    g->landing[k] = (uint16_t)landing;
}

INLINE void assign(struct graph *g, const struct layout *at, const uint32_t r)
{
    memset(g->value, (int)r, at->m);
    for (uint32_t i = at->n; i-- > 0;)
        assign_code(g, g->order[i], r);
}

/* ---- The file ----------------------------------------------------------- */

INLINE void put16(uint8_t *p, uint32_t x)
{
    p[0] = (uint8_t)x;
    p[1] = (uint8_t)(x >> 8);
}

INLINE void put_header(uint8_t *file, const struct layout *at, const uint8_t *weights, const uint32_t r)
{
    memcpy(file, "HD", MARK);
    put16(file + 2, at->n);
    file[4] = (uint8_t)r;
    put16(file + 5, at->v);
    memcpy(file + WEIGHTS - MARK, "WT", MARK);
    memcpy(file + WEIGHTS, weights, PART_WEIGHTS * r);
}

/* The four values from vertex x on as one byte; their lines, and the assigned vertices up to them. */
INLINE uint32_t packed(struct graph *g, uint32_t x, uint32_t *assigned, const uint32_t r)
{
    uint32_t byte = 0;
    for (uint32_t i = 0; i < VALUES_OF_A_BYTE; i++) {
        uint32_t value = g->value[x + i];
        byte |= value << VALUE_BITS * i;
        g->line[x + i] = (uint16_t)*assigned;
        *assigned += value != r;
    }
    return byte;
}

INLINE void put_values(struct graph *g, uint8_t *file, const struct layout *at, const uint32_t r)
{
    memcpy(file + at->values - MARK, "GV", MARK);
    memcpy(file + at->ranks - MARK, "RK", MARK);
    memset(g->value + at->m, 0, VALUES_OF_A_BYTE - 1);
    uint32_t assigned = 0;
    for (uint32_t x = 0; x < at->m; x += VALUES_OF_A_BYTE) {
        if (x % BLOCK == 0)
            put16(file + at->ranks + x / BLOCK * 2, assigned);
        file[at->values + x / VALUES_OF_A_BYTE] = (uint8_t)packed(g, x, &assigned, r);
    }
}

INLINE void put_keys(const struct graph *g, const uint8_t *run, const uint16_t *ends, uint8_t *file, const struct layout *at)
{
    for (uint32_t k = 0; k < at->n; k++) {
        uint32_t start = g->start[k], len = ends[k] - start;
        uint8_t *key = file + at->keys + KEY_RECORD * g->line[g->landing[k]];
        memcpy(key, "KY", MARK);
        key[KEY_LENGTH] = (uint8_t)len;
        memset(key + KEY_CODE, 0, DS_LONGEST_CODE);
        memcpy(key + KEY_CODE, run + start, len);
    }
}

/* ---- The call ----------------------------------------------------------- */

INLINE struct ds_counted build(const uint8_t *run, const uint16_t *ends, const struct layout *at, const uint8_t *weights,
                               uint8_t *file, const uint32_t r)
{
    struct graph g;
    uint32_t repeated = fill(&g, run, ends, at, weights, r);
    if (repeated < at->n)
        return refused(DS_REPEATED, repeated);
    struct peeled peeled = peel(&g, at->n, r);
    if (peeled.removed < at->n)
        return refused(DS_CYCLIC, at->n - peeled.removed);
    assign(&g, at, r);
    put_header(file, at, weights, r);
    put_values(&g, file, at, r);
    put_keys(&g, run, ends, file, at);
    return (struct ds_counted){.number = DS_SUCCESS, .most_waiting = peeled.most_waiting};
}

/* Not inlined, so that no compiler leaves the counting out of plain_build. */
__attribute__((noinline)) struct ds_counted plain_build_counted(const uint8_t *run, size_t run_len, const uint16_t *ends,
                                                                size_t ends_len, size_t r, size_t v,
                                                                const uint16_t *weights, size_t weights_len,
                                                                uint8_t *buffer, size_t buffer_len)
{
    if (r != 2 && r != 3)
        return refused(DS_ARITY, 0);
    if (v == 0 || v > DS_MOST_VERTICES / r)
        return refused(DS_PART_SIZE, 0);
    if (weights_len != DS_WEIGHTS_OF_A_PART * r)
        return refused(DS_WEIGHTS, 0);
    if (ends_len > DS_MOST_CODES)
        return refused(DS_TOO_MANY_CODES, 0);
    size_t wrong = wrong_code(run_len, ends, ends_len);
    if (wrong <= ends_len)
        return refused(DS_CODE_LIST, wrong);
    struct layout at = layout_of((uint32_t)ends_len, (uint32_t)r, (uint32_t)v);
    if (buffer_len < at.length)
        return refused(DS_SHORT_BUFFER, at.length);
    const uint8_t *bytes = (const uint8_t *)weights;
    return r == 2 ? build(run, ends, &at, bytes, buffer, 2) : build(run, ends, &at, bytes, buffer, 3);
}

struct ds_answer plain_build(const uint8_t *run, size_t run_len, const uint16_t *ends, size_t ends_len, size_t r, size_t v,
                             const uint16_t *weights, size_t weights_len, uint8_t *buffer, size_t buffer_len)
{
    struct ds_counted built =
        plain_build_counted(run, run_len, ends, ends_len, r, v, weights, weights_len, buffer, buffer_len);
    return (struct ds_answer){.number = built.number, .place = built.place};
}

size_t plain_length(size_t n, size_t r, size_t v)
{
    return layout_of((uint32_t)n, (uint32_t)r, (uint32_t)v).length;
}
