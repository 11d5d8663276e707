/* The most codes waiting at once, of lists whose waiting queue is worked out by hand. */
#include "calls.h"

#include <string.h>

static struct file file;

/* Under document 01's usual weights. The vertices are given within the parts, and the queue, by the places of the codes
 * in the list, after the first filling and after each step. */
static void try_short_lists(void)
{
    static const struct {
        const char *words;
        size_t r, v;
        const char *codes;
        size_t most;
    } lists[] = {
        /* (1,1) (1,2) (2,2) (2,3) (3,3) (3,0): 0 5, 5 1, 1 4, 4 2, 2 3, 3, none */
        {"a chain: one goes, one joins", 2, 4, "AA AB BB BC CC CD", 2},
        /* (2,0,0) (1,0,4) (2,2,3) (1,3,0) (0,3,4): 2 4, 4 0, 0 3 1, 3 1, 1, none */
        {"the most wait after the second step", 3, 5, "CFF BAE CCD BDF FDE", 3},
        /* (0,0,0) (1,0,1) (1,1,0) (1,1,1): 0, 1 2, 2 3, 3, none */
        {"one waits at the start, then two", 3, 2, "BBB CBC CCB CCC", 2},
        /* (0,0,0) (1,0,0) (1,1,1): 0 2, 2 1, 1, none; the first step frees two vertices of code 1 */
        {"a code that two vertices free", 3, 2, "BBB CBB CCC", 2},
        /* (2,2,2) (3,3,3) (0,0,0) (1,0,1) (1,1,0) (1,1,1): 0 1 2, 1 2, 2, 3 4, 4 5, 5, none */
        {"the code that two follow is third", 3, 4, "BBB CCC DDD ADA AAD AAA", 3},
        /* the same codes, (0,0,0) first: 0 1 2, 1 2 3 4, 2 3 4, 3 4, 4 5, 5, none */
        {"the code that two follow is first", 3, 4, "DDD BBB CCC ADA AAD AAA", 4},
    };
    for (size_t i = 0; i < COUNT(lists); i++) {
        about(lists[i].words);
        expect_built(list_of(lists[i].r, lists[i].v, lists[i].codes), lists[i].most, &file);
    }
}

/* Each code has a vertex of its own, so all wait at the start, and nobody joins. */
static void try_all_at_once(void)
{
    about("all codes wait at the start");
    static const size_t sizes[] = {0, 1, 2, 63, 64, 255, 256, 257, DS_MOST_CODES - 1, DS_MOST_CODES};
    for (size_t i = 0; i < COUNT(sizes); i++) {
        expect_built(star(sizes[i], 2, 1 + sizes[i]), sizes[i], &file);
        expect_built(star(sizes[i], 3, 1 + sizes[i]), sizes[i], &file);
    }
}

/* Adds the code of six bytes whose vertices within the parts are a, b and c, under the weights of copies(). */
static void add_vertices(struct list *list, size_t a, size_t b, size_t c)
{
    const size_t numbers[] = {a, b, c};
    uint8_t code[2 * COUNT(numbers)];
    for (size_t j = 0; j < COUNT(numbers); j++) {
        code[2 * j] = (uint8_t)(numbers[j] / 256);
        code[2 * j + 1] = (uint8_t)(numbers[j] % 256);
    }
    add(list, code, sizeof code);
}

/* So many copies of (0,0,0) (1,0,1) (1,1,0) (1,1,1), each with two vertices in each part to itself. */
static struct list *copies(size_t count)
{
    struct list *list = list_of(3, 2 * count, "");
    memset(list->weights, 0, sizeof list->weights);
    for (size_t j = 0; j < list->r; j++) {
        list->weights[DS_WEIGHTS_OF_A_PART * j + 2 * j] = 256;
        list->weights[DS_WEIGHTS_OF_A_PART * j + 2 * j + 1] = 1;
    }
    for (size_t at = 0; at < 2 * count; at += 2) {
        add_vertices(list, at, at, at);
        add_vertices(list, at + 1, at, at + 1);
        add_vertices(list, at + 1, at + 1, at);
        add_vertices(list, at + 1, at + 1, at + 1);
    }
    list->room = ds_length(list->n, list->r, list->v);
    return list;
}

/* At the start the first code of each copy waits. Each of their steps lets two join, so twice as many wait when the
 * last of them is taken off. From then on a step lets at most one join. */
static void try_many_joining(void)
{
    about("twice as many wait as at the start");
    static const size_t counts[] = {1, 2, 100, 128, DS_MOST_CODES / 4};
    for (size_t i = 0; i < COUNT(counts); i++)
        expect_built(copies(counts[i]), 2 * counts[i], &file);
}

void try_waiting(void)
{
    try_short_lists();
    try_all_at_once();
    try_many_joining();
}
