/* Reports out of text: three words, a code, a level in millimetres and a time in seconds. */
#include "draw_sign.h"

#include <string.h>

/* A part of a line without blanks. */
struct word {
    const char *text;
    size_t length;
};

enum { WORDS = 3 };

/* What separates words. */
static bool is_blank(char sign)
{
    return sign == ' ' || sign == '\t' || sign == '\r' || sign == '\n';
}

/* The word at or after a place of a line, which moves to its end; an empty word where there is none. */
static struct word next_word(const char *line, size_t length, size_t *at)
{
    while (*at < length && is_blank(line[*at]))
        ++*at;
    size_t start = *at;
    while (*at < length && !is_blank(line[*at]))
        ++*at;
    return (struct word){line + start, *at - start};
}

bool read_number(const char *text, size_t length, uint32_t *number)
{
    uint64_t read = 0;
    size_t i = 0;
    while (i < length && text[i] >= '0' && text[i] <= '9' && read <= UINT32_MAX)
        read = 10 * read + (uint64_t)(text[i++] - '0');
    *number = (uint32_t)read;
    return length > 0 && i == length && read <= UINT32_MAX;
}

/* A number that may begin with a minus sign. */
static bool read_level(struct word word, int32_t *level)
{
    size_t sign = word.length > 0 && word.text[0] == '-';
    uint32_t size = 0;
    bool read = read_number(word.text + sign, word.length - sign, &size) && size <= INT32_MAX;
    if (read)
        *level = sign == 1 ? -(int32_t)size : (int32_t)size;
    return read;
}

/* The value of a hex digit; 16 where it is none. */
static uint8_t hex_digit(char sign)
{
    static const char digits[] = "0123456789abcdef0123456789ABCDEF";
    const char *found = sign == '\0' ? NULL : strchr(digits, sign);
    return found == NULL ? 16 : (uint8_t)((found - digits) % 16);
}

/* The bytes of pairs of hex digits. */
static bool read_pairs(struct word digits, struct report *report)
{
    report->length = 0;
    for (size_t i = 0; i + 1 < digits.length; i += 2) {
        uint8_t high = hex_digit(digits.text[i]), low = hex_digit(digits.text[i + 1]);
        if (high > 15 || low > 15)
            return false;
        if (report->length < MOST_KEPT)
            report->code[report->length++] = (uint8_t)(16 * high + low);
    }
    return digits.length % 2 == 0;
}

/* A code as it stands, or in hex after 0x. */
static bool read_code(struct word word, struct report *report)
{
    if (word.length >= 2 && memcmp(word.text, "0x", 2) == 0)
        return read_pairs((struct word){word.text + 2, word.length - 2}, report);
    report->length = word.length < MOST_KEPT ? word.length : MOST_KEPT;
    memcpy(report->code, word.text, report->length);
    return true;
}

const char *read_report(const char *line, size_t length, struct report *report)
{
    struct word words[WORDS];
    size_t at = 0;
    for (size_t i = 0; i < WORDS; i++)
        words[i] = next_word(line, length, &at);
    if (words[WORDS - 1].length == 0 || next_word(line, length, &at).length > 0)
        return "it is no report: a report has three words, CODE LEVEL TIME";
    if (!read_code(words[0], report))
        return "its code is not hex: after 0x come pairs of the digits 0 to 9 and a to f";
    if (!read_level(words[1], &report->level))
        return "its level is not a number from -2147483647 to 2147483647";
    if (!read_number(words[2].text, words[2].length, &report->time))
        return "its time is not a number from 0 to 4294967295";
    return NULL;
}
