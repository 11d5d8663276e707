/* The directory at both arities, by the library and by the plain C version, with weights that build. */
#include "peers.h"

#include <stdlib.h>

struct directory {
    size_t length;
    uint8_t file[];
};

static void *build(build_fn *by, const struct list *l, size_t r)
{
    size_t length = list_file_length(l, r);
    struct directory *d = malloc(sizeof *d + length);
    d->length = length;
    list_build(by, l, r, d->file, length);
    return d;
}

static void *build_plain_3(const struct list *l)
{
    return build(plain_build, l, 3);
}

static void *build_plain_2(const struct list *l)
{
    return build(plain_build, l, 2);
}

static void *build_library_3(const struct list *l)
{
    return build(ds_build, l, 3);
}

static void *build_library_2(const struct list *l)
{
    return build(ds_build, l, 2);
}

static int32_t line_of(struct ds_found found)
{
    return found.kind == DS_AT ? (int32_t)found.line : -1;
}

static int32_t lookup_plain(const void *structure, const uint8_t *code, size_t len)
{
    const struct directory *d = structure;
    return line_of(plain_lookup(d->file, d->length, code, len));
}

static int32_t lookup_library(const void *structure, const uint8_t *code, size_t len)
{
    const struct directory *d = structure;
    return line_of(ds_lookup(d->file, d->length, code, len));
}

const struct peer plain_3 = {"plain C, r = 3", build_plain_3, free, lookup_plain};
const struct peer plain_2 = {"plain C, r = 2", build_plain_2, free, lookup_plain};
const struct peer library_3 = {"dronesickle, r = 3", build_library_3, free, lookup_library};
const struct peer library_2 = {"dronesickle, r = 2", build_library_2, free, lookup_library};
