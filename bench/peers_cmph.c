/* libcmph's BDZ, the same method by its authors, with the stored code compared after it as the directory does. */
#include "peers.h"

#include <cmph.h>
#include <stdio.h>
#include <stdlib.h>
#include <string.h>

struct keyed {
    cmph_t *hash;
    struct key keys[];
};

/* libcmph reads each code as a length of four bytes and then its own; `run` has room for all of them. */
static void fill(const struct list *l, cmph_uint8 *run, cmph_uint8 **codes)
{
    for (size_t k = 0; k < l->n; k++) {
        uint32_t len = (uint32_t)l->codes[k].len;
        codes[k] = run;
        memcpy(run, &len, sizeof len);
        memcpy(run + sizeof len, l->codes[k].bytes, len);
        run += sizeof len + len;
    }
}

static cmph_t *hash_of(const struct list *l)
{
    cmph_uint8 *run = malloc(l->run_len + sizeof(uint32_t) * l->n);
    cmph_uint8 **codes = malloc(l->n * sizeof *codes);
    fill(l, run, codes);
    cmph_io_adapter_t *source = cmph_io_byte_vector_adapter(codes, (cmph_uint32)l->n);
    cmph_config_t *config = cmph_config_new(source);
    cmph_config_set_algo(config, CMPH_BDZ);
    cmph_t *hash = cmph_new(config);
    cmph_config_destroy(config);
    cmph_io_byte_vector_adapter_destroy(source);
    free(codes);
    free(run);
    return hash;
}

static void *build(const struct list *l)
{
    struct keyed *s = malloc(sizeof *s + l->n * sizeof s->keys[0]);
    s->hash = hash_of(l);
    if (s->hash == NULL) {
        fputs("libcmph builds no table of the list\n", stderr);
        exit(1);
    }
    for (size_t k = 0; k < l->n; k++) {
        const struct code *c = &l->codes[k];
        struct key *key = &s->keys[cmph_search(s->hash, (const char *)c->bytes, (cmph_uint32)c->len)];
        key->len = (uint8_t)c->len;
        memcpy(key->bytes, c->bytes, c->len);
    }
    return s;
}

static void drop(void *structure)
{
    struct keyed *s = structure;
    cmph_destroy(s->hash);
    free(s);
}

static int32_t lookup(const void *structure, const uint8_t *code, size_t len)
{
    const struct keyed *s = structure;
    uint32_t line = cmph_search(s->hash, (const char *)code, (cmph_uint32)len);
    if (line >= cmph_size(s->hash)) /* as BDZ may answer for a stranger */
        return -1;
    const struct key *key = &s->keys[line];
    return key->len == len && memcmp(key->bytes, code, len) == 0 ? (int32_t)line : -1;
}

const struct peer cmph_bdz = {"libcmph BDZ, codes compared", build, drop, lookup};
