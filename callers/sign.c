/* The sign: what reports leave in the lists, byte for byte, and what asking gives for any bytes in them. The file is
 * document 01's case 1, whose lines are DA 0, BA 1, BB 2, BC 3. */
#include "calls.h"

#include <string.h>

enum { HOUR = 3600, DAY = 86400 };

static struct sign sign;

static void clear_case_1(void)
{
    clear(&sign, case_1_file(), 4);
}

/* That the lists have just these bytes. */
static void expect_bytes(const char *levels, const char *times)
{
    check(memcmp(sign.levels, levels, sign.levels_len) == 0, "the levels are not as written by hand");
    check(memcmp(sign.times, times, sign.times_len) == 0, "the times are not as written by hand");
}

/* 20,000 is 4E20 and 1,250 is 04E2; -20,000 and -340 are FFFFB1E0 and FFFFFEAC; 67,305,985 is 04030201. */
static void try_bytes(void)
{
    about("four bytes a place, the low byte first, levels in two's complement");
    clear_case_1();
    expect_bytes("\x30\x75\0\0\x30\x75\0\0\x30\x75\0\0\x30\x75\0\0", "\0\0\0\0\0\0\0\0\0\0\0\0\0\0\0\0");
    expect_accepted(&sign, (struct report){"BA", 2, 1250, 67305985}, 1);
    expect_bytes("\x30\x75\0\0\xE2\x04\0\0\x30\x75\0\0\x30\x75\0\0", "\0\0\0\0\x01\x02\x03\x04\0\0\0\0\0\0\0\0");
    expect_accepted(&sign, (struct report){"BB", 2, -340, UINT32_MAX}, 2);
    expect_accepted(&sign, (struct report){"DA", 2, -20000, 256}, 0);
    expect_accepted(&sign, (struct report){"BC", 2, 20000, 65536}, 3);
    expect_bytes("\xE0\xB1\xFF\xFF\xE2\x04\0\0\xAC\xFE\xFF\xFF\x20\x4E\0\0",
                 "\0\x01\0\0\x01\x02\x03\x04\xFF\xFF\xFF\xFF\0\0\x01\0");
}

/* The lowest and the highest level, and some of which a byte alone would mislead. */
static void try_stored_levels(void)
{
    about("levels that are stored in the lists");
    static const struct {
        const char *bytes;
        int32_t level;
    } stored[] = {{"\xE0\xB1\xFF\xFF", -20000}, {"\x20\x4E\0\0", 20000}, {"\0\0\0\0", 0},
                  {"\xFF\xFF\xFF\xFF", -1},     {"\x01\0\0\0", 1},       {"\0\xFF\xFF\xFF", -256},
                  {"\xFF\0\0\0", 255},          {"\0\x01\0\0", 256},     {"\x7F\xFF\xFF\xFF", -129}};
    for (size_t i = 0; i < COUNT(stored); i++) {
        clear_case_1();
        memcpy(sign.levels + 8, stored[i].bytes, 4);
        memcpy(sign.times + 8, "\x10\x27\0\0", 4); /* 10,000 */
        expect_fresh(&sign, (struct ask){"BB", 2, 10001, 1}, stored[i].level);
        expect_stale(&sign, (struct ask){"BB", 2, 10002, 1}, stored[i].level, 2);
        expect_ask_refused(&sign, (struct ask){"BB", 2, 9999, 1}, DS_NOW_EARLIER, 0);
        expect_report_refused(&sign, (struct report){"BB", 2, 5, 9999}, DS_EARLIER, 0);
        expect_accepted(&sign, (struct report){"BB", 2, 5, 10000}, 2);
    }
}

/* From 65,536 on the low half is 0, which would be a level. */
static void try_junk(void)
{
    about("a stored level out of range: never heard, and its time is ignored");
    static const int32_t junk[] = {-20001, 20001, 30000, INT32_MIN, INT32_MAX, 65536, -65536, 16777216, 1310720};
    for (size_t i = 0; i < COUNT(junk); i++) {
        clear_case_1();
        put_places(&sign, 3, junk[i], UINT32_MAX);
        expect_never(&sign, (struct ask){"BC", 2, 0, 1});
        expect_never(&sign, (struct ask){"BC", 2, UINT32_MAX, DAY});
        expect_accepted(&sign, (struct report){"BC", 2, -7, 0}, 3);
        expect_fresh(&sign, (struct ask){"BC", 2, 0, 1}, -7);
    }
}

static void try_ages(void)
{
    about("fresh is an age of at most the limit");
    static const struct {
        uint32_t time, now, limit;
        bool fresh;
    } ages[] = {{0, 0, 1, true},
                {0, 1, 1, true},
                {0, 2, 1, false},
                {1000, 1000, HOUR, true},
                {1000, 1000 + HOUR, HOUR, true},
                {1000, 1001 + HOUR, HOUR, false},
                {5, 5 + DAY, DAY, true},
                {5, 6 + DAY, DAY, false},
                {0, UINT32_MAX, DAY, false},
                {UINT32_MAX, UINT32_MAX, 1, true},
                {UINT32_MAX - DAY, UINT32_MAX, DAY, true},
                {UINT32_MAX - DAY - 1, UINT32_MAX, DAY, false},
                {INT32_MAX, (uint32_t)INT32_MAX + 1, 1, true},
                {INT32_MAX, (uint32_t)INT32_MAX + 2, 1, false}};
    for (size_t i = 0; i < COUNT(ages); i++) {
        struct ask ask = {"DA", 2, ages[i].now, ages[i].limit};
        clear_case_1();
        expect_accepted(&sign, (struct report){"DA", 2, 1250, ages[i].time}, 0);
        if (ages[i].fresh)
            expect_fresh(&sign, ask, 1250);
        else
            expect_stale(&sign, ask, 1250, ages[i].now - ages[i].time);
    }
}

static void try_replacing(void)
{
    about("an equal time replaces, a later one too, an earlier one does not");
    clear_case_1();
    expect_accepted(&sign, (struct report){"BA", 2, 100, 500}, 1);
    expect_accepted(&sign, (struct report){"BA", 2, 200, 500}, 1);
    expect_fresh(&sign, (struct ask){"BA", 2, 500, 1}, 200);
    expect_report_refused(&sign, (struct report){"BA", 2, 300, 499}, DS_EARLIER, 0);
    expect_fresh(&sign, (struct ask){"BA", 2, 500, 1}, 200);
    expect_accepted(&sign, (struct report){"BA", 2, -300, 501}, 1);
    expect_stale(&sign, (struct ask){"BA", 2, 503, 1}, -300, 2);
    expect_never(&sign, (struct ask){"DA", 2, 503, 1});
    expect_never(&sign, (struct ask){"BB", 2, 503, 1});
}

void try_sign(void)
{
    try_bytes();
    try_stored_levels();
    try_junk();
    try_ages();
    try_replacing();
}
