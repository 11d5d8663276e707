/* What the benchmark asks of everything that it times: each is a peer. */
#ifndef PEERS_H
#define PEERS_H

#include "lists.h"

#ifdef __cplusplus
extern "C" {
#endif

struct peer {
    const char *name;
    /* A structure that knows the codes of the list. */
    void *(*build)(const struct list *l);
    void (*drop)(void *structure);
    /* The line of a code, a number below n of its own, or -1. */
    int32_t (*lookup)(const void *structure, const uint8_t *code, size_t len);
};

extern const struct peer plain_3, plain_2, library_3, library_2, cmph_bdz, unordered_map, binary_search;

/* A code as peers store it that compare codes as the directory does. */
struct key {
    uint8_t len;
    uint8_t bytes[DS_LONGEST_CODE];
};

#ifdef __cplusplus
}
#endif
#endif
