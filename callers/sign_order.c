/* Which of two faults a report and an ask are refused for: every pair of them, in document 02's order. The file is
 * document 01's case 1, each line of which was heard at HEARD seconds. */
#include "calls.h"

enum { HEARD = 1000 };

/* All that can be wrong with a call, in the order in which it is looked for. STRANGER is no refusal. */
enum fault {
    SHORT_FILE,
    WRONG_MARK,
    WRONG_NUMBERS,
    LONG_FILE,
    LONG_CODE,
    WRONG_RANK,
    WRONG_LIMIT,
    WRONG_LISTS,
    STRANGER,
    WRONG_LEVEL,
    EARLIER,
    FAULTS
};

/* The number of each, but for asking a stranger and for asking too early. */
static const unsigned numbers[FAULTS] = {
    [SHORT_FILE] = DS_LENGTH, [WRONG_MARK] = DS_MARK,      [WRONG_NUMBERS] = DS_HEADER_NUMBERS,
    [LONG_FILE] = DS_LENGTH,  [LONG_CODE] = DS_CODE_ASKED, [WRONG_RANK] = DS_RANK,
    [WRONG_LIMIT] = DS_LIMIT, [WRONG_LISTS] = DS_LISTS,    [WRONG_LEVEL] = DS_LEVEL,
    [EARLIER] = DS_EARLIER,
};

/* The rest of what a report or an ask brings. */
struct call {
    const uint8_t *code;
    size_t length;
    int32_t level;
    uint32_t moment, limit;
};

static struct sign sign;

static void spoil_the_file(struct file *file, enum fault fault)
{
    if (fault == SHORT_FILE)
        file->length = 6;
    if (fault == WRONG_MARK)
        file->bytes[0] = 'X';
    if (fault == WRONG_NUMBERS)
        file->bytes[4] = 4;
    if (fault == LONG_FILE && file->length == CASE_1_LENGTH)
        file->length++;
    if (fault == WRONG_RANK)
        file->bytes[RK + 3] = 255;
}

/* DB, which leads to the line of BB, is not in the file. */
static void spoil_the_call(struct call *call, enum fault fault)
{
    static const uint8_t stranger[DS_LONGEST_CODE + 1] = "DB";
    if (fault == LONG_CODE)
        call->length = DS_LONGEST_CODE + 1;
    if (fault == WRONG_LIMIT)
        call->limit = 0;
    if (fault == WRONG_LISTS)
        sign.times_len--;
    if (fault == STRANGER)
        call->code = stranger;
    if (fault == WRONG_LEVEL)
        call->level = DS_HIGHEST_LEVEL + 1;
    if (fault == EARLIER)
        call->moment = HEARD - 1;
}

/* A call with one or two faults, and nothing else that is wrong. */
static struct call with_faults(enum fault first, enum fault second)
{
    static const uint8_t listed[DS_LONGEST_CODE + 1] = "BB";
    struct call call = {listed, 2, 1250, HEARD, 1};
    struct file *file = case_1_file();
    clear(&sign, file, 4);
    for (size_t line = 0; line < 4; line++)
        put_places(&sign, line, 500, HEARD);
    spoil_the_file(file, first);
    spoil_the_file(file, second);
    spoil_the_call(&call, first);
    spoil_the_call(&call, second);
    return call;
}

/* A limit is not brought by a report. */
static void try_reporting(enum fault first, enum fault second)
{
    if (first == WRONG_LIMIT || second == WRONG_LIMIT)
        return;
    struct call call = with_faults(first, second);
    struct report report = {call.code, call.length, call.level, call.moment};
    if (first == STRANGER)
        expect_stranger(&sign, report);
    else
        expect_report_refused(&sign, report, numbers[first], 0);
}

/* A level is not brought by an ask. */
static void try_asking(enum fault first, enum fault second)
{
    if (first == WRONG_LEVEL || second == WRONG_LEVEL)
        return;
    struct call call = with_faults(first, second);
    struct ask ask = {call.code, call.length, call.moment, call.limit};
    if (first == STRANGER)
        expect_asked_stranger(&sign, ask);
    else
        expect_ask_refused(&sign, ask, first == EARLIER ? DS_NOW_EARLIER : numbers[first], 0);
}

void try_sign_order(void)
{
    about("the first of two faults that applies");
    for (enum fault first = 0; first < FAULTS; first++)
        for (enum fault second = first; second < FAULTS; second++) {
            try_reporting(first, second);
            try_asking(first, second);
        }
    about("no fault");
    struct call call = with_faults(FAULTS, FAULTS);
    expect_accepted(&sign, (struct report){call.code, call.length, call.level, call.moment}, 2);
    expect_fresh(&sign, (struct ask){call.code, call.length, call.moment, call.limit}, call.level);
}
