/* The sign by hand in plain C, above the plain lookup that counts values one by one. */
#include "plain_file.h"

#include <stdbool.h>

INLINE uint32_t load32(const uint8_t *p)
{
    uint32_t x;
    memcpy(&x, p, sizeof x);
    return x;
}

INLINE bool is_level(int32_t level)
{
    return level >= DS_LOWEST_LEVEL && level <= DS_HIGHEST_LEVEL;
}

/* Whether lists of so many bytes have a place for each line of a file whose header is right. */
INLINE bool have_places(const uint8_t *file, size_t levels_len, size_t times_len)
{
    size_t bytes = DS_BYTES_OF_A_PLACE * load16(file + 2);
    return levels_len == bytes && times_len == bytes;
}

INLINE struct ds_reported refused_report(uint32_t number, size_t place)
{
    return (struct ds_reported){.kind = DS_REFUSED, .number = number, .place = place};
}

struct ds_reported plain_report(const uint8_t *file, size_t file_len, const uint8_t *code, size_t code_len, int32_t level,
                                uint32_t time, uint8_t *levels, size_t levels_len, uint8_t *times, size_t times_len)
{
    struct ds_found found = plain_lookup_loop(file, file_len, code, code_len);
    if (found.kind == DS_REFUSED)
        return refused_report(found.number, found.place);
    if (!have_places(file, levels_len, times_len))
        return refused_report(DS_LISTS, 0);
    if (found.kind == DS_UNKNOWN)
        return (struct ds_reported){.kind = DS_UNKNOWN};
    if (!is_level(level))
        return refused_report(DS_LEVEL, 0);
    uint8_t *last_level = levels + DS_BYTES_OF_A_PLACE * found.line, *last_time = times + DS_BYTES_OF_A_PLACE * found.line;
    if (is_level((int32_t)load32(last_level)) && time < load32(last_time))
        return refused_report(DS_EARLIER, 0);
    memcpy(last_level, &level, sizeof level);
    memcpy(last_time, &time, sizeof time);
    return (struct ds_reported){.kind = DS_ACCEPTED, .line = found.line};
}

INLINE struct ds_asked refused_ask(uint32_t number, size_t place)
{
    return (struct ds_asked){.kind = DS_REFUSED, .number = number, .place = place};
}

struct ds_asked plain_ask(const uint8_t *file, size_t file_len, const uint8_t *code, size_t code_len, uint32_t now,
                          uint32_t limit, const uint8_t *levels, size_t levels_len, const uint8_t *times, size_t times_len)
{
    struct ds_found found = plain_lookup_loop(file, file_len, code, code_len);
    if (found.kind == DS_REFUSED)
        return refused_ask(found.number, found.place);
    if (limit == 0 || limit > DS_LONGEST_LIMIT)
        return refused_ask(DS_LIMIT, 0);
    if (!have_places(file, levels_len, times_len))
        return refused_ask(DS_LISTS, 0);
    if (found.kind == DS_UNKNOWN)
        return (struct ds_asked){.kind = DS_UNKNOWN};
    int32_t level = (int32_t)load32(levels + DS_BYTES_OF_A_PLACE * found.line);
    uint32_t time = load32(times + DS_BYTES_OF_A_PLACE * found.line);
    if (!is_level(level))
        return (struct ds_asked){.kind = DS_NEVER};
    if (now < time)
        return refused_ask(DS_NOW_EARLIER, 0);
    if (now - time <= limit)
        return (struct ds_asked){.kind = DS_FRESH, .level = level};
    return (struct ds_asked){.kind = DS_STALE, .level = level, .age = now - time};
}
