/* What is lent to a build: code lists with their weights. */
#include "calls.h"

#include <string.h>

/* The weights of document 01's cases: p(j,j) = 1, the others 0. */
static void use_diagonal_weights(struct list *list)
{
    memset(list->weights, 0, sizeof list->weights);
    list->weights_len = DS_WEIGHTS_OF_A_PART * list->r;
    for (size_t j = 0; j < list->r; j++)
        list->weights[DS_WEIGHTS_OF_A_PART * j + j] = 1;
}

/* No codes. */
static struct list *start(size_t r, size_t v)
{
    static struct list list;
    list.run_len = 0;
    list.n = 0;
    list.r = r;
    list.v = v;
    use_diagonal_weights(&list);
    return &list;
}

void add(struct list *list, const void *code, size_t length)
{
    memcpy(list->run + list->run_len, code, length);
    list->run_len += length;
    list->ends[list->n++] = (uint16_t)list->run_len;
}

struct list *list_of(size_t r, size_t v, const char *words)
{
    struct list *list = start(r, v);
    while (*words != '\0') {
        size_t length = strcspn(words, " ");
        add(list, words, length);
        words += length + strspn(words + length, " ");
    }
    list->room = ds_length(list->n, r, v);
    return list;
}

struct list *case_1(void)
{
    return list_of(2, 4, "BA BB DA BC");
}

struct list *star(size_t n, size_t r, size_t v)
{
    struct list *list = start(r, v);
    memset(list->weights, 0, sizeof list->weights);
    list->weights[0] = 256;
    list->weights[1] = 1;
    for (size_t k = 0; k < n; k++)
        add(list, (const uint8_t[]){(uint8_t)(k / 256), (uint8_t)(k % 256)}, 2);
    list->room = ds_length(n, r, v);
    return list;
}
