/* Signs of no lines and of the most, lists that overlap or begin anywhere, and a small sign written out line by line.
 */
#include "calls.h"

#include <stdio.h>
#include <string.h>

/* The moment of the small sign, and its limit. */
enum { NOW = 5000, HOUR = 3600 };

static struct sign sign;

static void try_no_codes(void)
{
    static struct file file;
    about("a sign without lines");
    expect_built(list_of(2, 4, ""), 0, &file);
    clear(&sign, &file, 0);
    expect_stranger(&sign, (struct report){"AA", 2, 1250, 1});
    expect_asked_stranger(&sign, (struct ask){"AA", 2, 1, 1});
}

/* In a star code k, which is the bytes k / 256 and k % 256, has line k. */
static void try_most_codes(void)
{
    static struct file file;
    static const size_t lines[] = {0, 1, 255, 256, 257, 1022, 1023};
    about("a sign of 1,024 lines");
    expect_built(star(DS_MOST_CODES, 3, 1365), DS_MOST_CODES, &file);
    clear(&sign, &file, DS_MOST_CODES);
    for (size_t i = 0; i < COUNT(lines); i++) {
        const uint8_t code[] = {(uint8_t)(lines[i] / 256), (uint8_t)(lines[i] % 256)};
        expect_accepted(&sign, (struct report){code, 2, (int32_t)i - 3, (uint32_t)i}, lines[i]);
        expect_fresh(&sign, (struct ask){code, 2, 10, 10}, (int32_t)i - 3);
    }
    expect_never(&sign, (struct ask){"\x03\xFD", 2, 10, 10});
}

/* The bytes after BA in its KY record are 0, which as lists say level 0 at time 0 on every line. DA and the two zeros
 * after it are 16,708 in the place of line 0, as a level and as a time. */
static void try_overlaps(void)
{
    about("asking with slices that overlap");
    enum { CODE_OF_DA = KY + 3, CODE_OF_BA = KY + KY_BYTES + 3, AFTER_BA = CODE_OF_BA + 2 };
    const struct file *file = case_1_file();
    const uint8_t *bytes = lend(FILE_BYTES, file->bytes, file->length);
    const uint8_t *zeros = bytes + AFTER_BA;
    const uint8_t *da = bytes + CODE_OF_DA;
    expect_asked(ds_ask(bytes, CASE_1_LENGTH, bytes + CODE_OF_BA, 2, 60, 60, zeros, 16, zeros, 16),
                 (struct ds_asked){.kind = DS_FRESH});
    expect_asked(ds_ask(bytes, CASE_1_LENGTH, bytes + CODE_OF_BA, 2, 61, 60, zeros, 16, zeros + 1, 16),
                 (struct ds_asked){.kind = DS_STALE, .age = 61});
    expect_asked(ds_ask(bytes, CASE_1_LENGTH, da, 2, 16708, 1, da, 16, da, 16),
                 (struct ds_asked){.kind = DS_FRESH, .level = 16708});
    expect_asked(ds_ask(bytes, CASE_1_LENGTH, da, 2, 16707, 1, da, 16, da, 16),
                 (struct ds_asked){.kind = DS_REFUSED, .number = DS_NOW_EARLIER});
}

/* Lists that begin at every address from a multiple of eight on. */
static void try_addresses(void)
{
    about("lists at odd addresses");
    const struct file *file = case_1_file();
    for (size_t shift = 0; shift < 8; shift++) {
        _Alignas(8) uint8_t levels[16 + 8] = {0};
        _Alignas(8) uint8_t times[16 + 8] = {0};
        const uint8_t *code = (const uint8_t *)"BA";
        expect_reported(
            ds_report(file->bytes, file->length, code, 2, -340, 67305985, levels + shift, 16, times + 7 - shift, 16),
            (struct ds_reported){.kind = DS_ACCEPTED, .line = 1});
        check(memcmp(levels + shift, "\0\0\0\0\xAC\xFE\xFF\xFF\0\0\0", 12) == 0, "the levels, from %zu on", shift);
        check(memcmp(times + 7 - shift, "\0\0\0\0\x01\x02\x03\x04\0\0\0", 12) == 0, "the times, from %zu on",
              7 - shift);
        expect_asked(ds_ask(file->bytes, file->length, code, 2, 67305986, 1, levels + shift, 16, times + 7 - shift, 16),
                     (struct ds_asked){.kind = DS_FRESH, .level = -340});
    }
}

/* Case 3's DB and case 2's AA are no codes of the file; DB leads to the line of BB, whose gauge fell silent. */
static void bring_reports(void)
{
    clear(&sign, case_1_file(), 4);
    expect_accepted(&sign, (struct report){"BB", 2, -340, 1000}, 2);
    expect_accepted(&sign, (struct report){"BA", 2, 900, 1200}, 1);
    expect_accepted(&sign, (struct report){"BC", 2, 0, 4000}, 3);
    expect_accepted(&sign, (struct report){"BA", 2, 1250, 4600}, 1);
    expect_stranger(&sign, (struct report){"DB", 2, 700, 4990});
    expect_stranger(&sign, (struct report){"AA", 2, 700, 4990});
    expect_report_refused(&sign, (struct report){"BC", 2, 20001, 4990}, DS_LEVEL, 0);
    expect_report_refused(&sign, (struct report){"BA", 2, 700, 4599}, DS_EARLIER, 0);
}

/* The text of a line: its code, and what asking for it gives. */
static void write_line(size_t line, char *text, size_t room)
{
    struct ds_part part = call_show(sign.file, line);
    const char *code = (const char *)sign.file->bytes + part.start;
    struct ds_asked asked = call_ask(&sign, (struct ask){code, part.length, NOW, HOUR});
    int length = (int)part.length;
    if (asked.kind == DS_FRESH)
        snprintf(text, room, "%.*s fresh %d", length, code, asked.level);
    else if (asked.kind == DS_STALE)
        snprintf(text, room, "%.*s stale %d, age %u", length, code, asked.level, asked.age);
    else
        snprintf(text, room, "%.*s %s", length, code, asked.kind == DS_NEVER ? "never" : "without answer");
}

static void try_a_small_sign(void)
{
    about("a small sign: the stranger DB does not renew the line of BB");
    static const char *const right[] = {"DA never", "BA fresh 1250", "BB stale -340, age 4000", "BC fresh 0"};
    bring_reports();
    for (size_t line = 0; line < COUNT(right); line++) {
        char text[100];
        write_line(line, text, sizeof text);
        check(strcmp(text, right[line]) == 0, "line %zu is `%s` and not `%s`", line, text, right[line]);
    }
    expect_asked_stranger(&sign, (struct ask){"DB", 2, NOW, HOUR});
}

void try_sign_lists(void)
{
    try_no_codes();
    try_most_codes();
    try_overlaps();
    try_addresses();
    try_a_small_sign();
}
