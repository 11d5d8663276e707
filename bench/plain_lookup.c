/* Looking up by hand in plain C, with two ways to count within a rank block. */
#include "plain_file.h"

#include <stdbool.h>

INLINE struct ds_found at_line(uint32_t line)
{
    return (struct ds_found){.kind = DS_AT, .line = line};
}

INLINE struct ds_found unknown(void)
{
    return (struct ds_found){.kind = DS_UNKNOWN};
}

INLINE struct ds_found refused(uint32_t number, uint32_t place)
{
    return (struct ds_found){.kind = DS_REFUSED, .number = number, .place = place};
}

/* The refusal of the header, or success and the layout. */
INLINE uint32_t read_header(const uint8_t *file, size_t file_len, struct layout *at)
{
    if (file_len < HEADER)
        return DS_LENGTH;
    if (file[0] != 'H' || file[1] != 'D')
        return DS_MARK;
    uint32_t n = load16(file + 2), r = file[4], v = load16(file + 5);
    if ((r != 2 && r != 3) || v == 0 || r * v > DS_MOST_VERTICES || n > DS_MOST_CODES)
        return DS_HEADER_NUMBERS;
    *at = layout_of(n, r, v);
    return file_len == at->length ? DS_SUCCESS : DS_LENGTH;
}

INLINE uint32_t value_at(const uint8_t *values, uint32_t vertex)
{
    return values[vertex / VALUES_OF_A_BYTE] >> vertex % VALUES_OF_A_BYTE * VALUE_BITS & 3;
}

/* How many of the first `within` values of a block are not r; `room` bytes may be read there. */
typedef uint32_t count_in_block(const uint8_t *block, size_t room, uint32_t within, const uint32_t r);

INLINE uint32_t count_values(const uint8_t *block, size_t room, uint32_t within, const uint32_t r)
{
    (void)room;
    uint32_t count = 0;
    for (uint32_t i = 0; i < within; i++)
        count += value_at(block, i) != r;
    return count;
}

enum { WORD = 8, VALUES_OF_A_WORD = 32 };

/* The values of a word that are not r, as the lower bit of each. */
INLINE uint64_t assigned_in(const uint8_t *word, const uint32_t r)
{
    uint64_t values;
    memcpy(&values, word, sizeof values);
    uint64_t low = r == 3 ? values : ~values;
    return ~(low & values >> 1) & 0x5555555555555555u;
}

INLINE uint32_t count_words(const uint8_t *block, size_t room, uint32_t within, const uint32_t r)
{
    uint8_t copy[2 * WORD] = {0};
    if (room < sizeof copy) { /* only in files with no codes */
        memcpy(copy, block, room);
        block = copy;
    }
    bool both = within >= VALUES_OF_A_WORD;
    uint64_t first = assigned_in(block, r), second = assigned_in(block + WORD, r);
    uint64_t below = ((uint64_t)1 << within % VALUES_OF_A_WORD * VALUE_BITS) - 1;
    uint64_t whole = both ? first : 0;
    uint64_t part = (both ? second : first) & below;
    /* each has one bit in two: side by side they take one count */
    return (uint32_t)__builtin_popcountll(whole << 1 | part);
}

/* The code's landing vertex. */
INLINE uint32_t landing_of(const uint8_t *file, const struct layout *at, const uint8_t *code, size_t len, const uint32_t r)
{
    uint32_t vertex[MOST_PARTS], total = 0;
    sums_of(code, len, file + WEIGHTS, vertex, r);
    for (uint32_t j = 0; j < r; j++) {
        vertex[j] = vertex[j] % at->v + j * at->v;
        total += value_at(file + at->values, vertex[j]);
    }
    return vertex[total % r];
}

INLINE struct ds_found lookup_in(const uint8_t *file, const struct layout *at, const uint8_t *code, size_t len,
                                 count_in_block *count, const uint32_t r)
{
    uint32_t landing = landing_of(file, at, code, len, r);
    if (value_at(file + at->values, landing) == r)
        return unknown();
    uint32_t b = landing / BLOCK, block = at->values + b * (BLOCK / VALUES_OF_A_BYTE);
    uint32_t line = load16(file + at->ranks + 2 * b) + count(file + block, at->length - block, landing % BLOCK, r);
    if (line >= at->n)
        return refused(DS_RANK, b);
    const uint8_t *key = file + at->keys + KEY_RECORD * line;
    return key[KEY_LENGTH] == len && memcmp(key + KEY_CODE, code, len) == 0 ? at_line(line) : unknown();
}

INLINE struct ds_found lookup(const uint8_t *file, size_t file_len, const uint8_t *code, size_t code_len, count_in_block *count)
{
    struct layout at;
    uint32_t number = read_header(file, file_len, &at);
    if (number != DS_SUCCESS)
        return refused(number, 0);
    if (code_len == 0 || code_len > DS_LONGEST_CODE)
        return refused(DS_CODE_ASKED, 0);
    return at.r == 2 ? lookup_in(file, &at, code, code_len, count, 2) : lookup_in(file, &at, code, code_len, count, 3);
}

struct ds_found plain_lookup(const uint8_t *file, size_t file_len, const uint8_t *code, size_t code_len)
{
    return lookup(file, file_len, code, code_len, count_words);
}

struct ds_found plain_lookup_loop(const uint8_t *file, size_t file_len, const uint8_t *code, size_t code_len)
{
    return lookup(file, file_len, code, code_len, count_values);
}
