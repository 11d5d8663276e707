/* What the files of this test share: checks that are counted, lists and files written by hand, and the calls
 * with every slice lent between pages that nobody may touch. */
#ifndef CALLS_H
#define CALLS_H

#include "dronesickle.h"

#include <stdbool.h>

#define COUNT(array) (sizeof(array) / sizeof *(array))

/* ---- checks.c: checks that are counted ---- */

/* Says what the next checks are about, for the words of one that is wrong. */
void about(const char *words);

/* What the checks are about. */
const char *subject(void);

/* Counts a check. The first one that is wrong ends the test with these words. */
__attribute__((format(printf, 2, 3))) void check(bool right, const char *format, ...);

/* Ends the test with these words where something that it needs itself is not there. It is not counted. */
void need(bool there, const char *words);

/* How many checks were made. */
unsigned long checks_made(void);

/* ---- lists.c: what is lent to a build ---- */

enum {
    MOST_OF_A_RUN = 65536, /* a byte more than two-byte ends reach */
    MOST_ENDS = DS_MOST_CODES + 2,
    MOST_WEIGHTS = 3 * DS_WEIGHTS_OF_A_PART + 1
};

struct list {
    uint8_t run[MOST_OF_A_RUN];
    size_t run_len;
    uint16_t ends[MOST_ENDS];
    size_t n;
    size_t r, v;
    uint16_t weights[MOST_WEIGHTS];
    size_t weights_len;
    size_t room; /* the length of the buffer */
};

/* Adds a code to a list. */
void add(struct list *list, const void *code, size_t length);

/* A list of words, one blank between them, with document 01's usual weights, p(j,j) = 1, and room for the file
 * and no more. It is the same object each time. */
struct list *list_of(size_t r, size_t v, const char *words);

/* Document 01's case 1: BA, BB, DA, BC with r = 2 and v = 4. BB, DA and BC wait at the start, then DA BC, BC BA, BA. */
struct list *case_1(void);
enum { CASE_1_WAITING = 3 };

/* n codes of two bytes, (0,0), (0,1), .., with p(0,0) = 256 and p(0,1) = 1: code k has vertex k in part 0 and
 * the first vertex of each other part. */
struct list *star(size_t n, size_t r, size_t v);

/* ---- files.c: files written by hand ---- */

struct file {
    uint8_t bytes[2 * DS_LONGEST_FILE];
    size_t length;
};

/* The records of a file, one after the other; a header begins anew. Values are given as the packed bytes. */
void put_header(struct file *file, size_t n, size_t r, size_t v);
void put_weights(struct file *file, const struct list *list);
void put_values(struct file *file, const char *packed, size_t length);
void put_rank(struct file *file, size_t entries, const unsigned *numbers);
void put_key(struct file *file, const void *code, size_t length);

/* Document 01's case 1 as a file, by hand. It is the same object each time. */
struct file *case_1_file(void);

/* r = 2, v = 100 with the codes 0A05 and 5A06, whose vertices are 10, 105 and 90, 106. They land on 10 and 90 and have
 * the lines 0 and 1. It is the same object each time; its rank entries stand after HD, WT, GV and the RK mark. */
struct file *two_codes_file(void);
enum { TWO_CODES_RANK = 7 + 2 + 128 + 2 + 50 + 2 };

/* Where the records of case 1's file stand: HD has 7 bytes, WT 2 + 128, GV 2 + 2, RK 2 + 2, and each KY 35, so
 * that the four of them end at 285. */
enum { WT = 7, GV = 137, RK = 141, KY = 145, KY_BYTES = 35, CASE_1_LENGTH = 285 };

/* ---- lending.c: the calls, each slice between pages that nobody may touch ---- */

/* Against which of the two pages the slices are lent. */
enum side { AGAINST_THE_PAGE_AFTER, AGAINST_THE_PAGE_BEFORE };

void lend_from(enum side side);

/* What is lent, each in an area of its own. */
enum slice { RUN, ENDS, WEIGHTS, BUFFER, COUNTED_BUFFER, FILE_BYTES, CODE, LEVELS, TIMES, SLICES };

/* Lends a copy of some bytes, to be read alone. */
const void *lend(enum slice slice, const void *bytes, size_t size);

/* Lends a coloured slice, to be written. */
uint8_t *lend_coloured(enum slice slice, size_t size);

/* Whether the area still has its colours before such a slice, and after the first so many bytes of it. */
bool coloured_before(enum slice slice, size_t size);
bool coloured_after(enum slice slice, size_t size, size_t written);

/* Builds by ds_build and by ds_build_counted, each into a buffer of its own, and copies the whole buffer to the file
 * as they left it. Its length is that of the file on success, else of the buffer. Checks that no byte but the
 * file's has changed, that both gave the same answer and bytes, and that 1 to n codes waited at once where n codes
 * were built, since at least one waits at the start; else none. */
struct ds_counted call_build(const struct list *list, struct file *file);

struct ds_opened call_open(const struct file *file);
struct ds_found call_lookup(const struct file *file, const void *code, size_t length);
struct ds_part call_show(const struct file *file, size_t line);

/* Looks up a part of the file where it lies. */
struct ds_found call_lookup_inside(const struct file *file, struct ds_part part);

/* Sees that each page beside what is lent is guarded, and that what is lent to be read can only be read. */
void check_the_pages(void);

/* ---- expecting.c: calls with the answers they must give ---- */

/* Builds are made by call_build. A refused one gives 0 as the most codes waiting. */
void expect_built(const struct list *list, size_t most_waiting, struct file *file);
void expect_build_refused(const struct list *list, unsigned number, size_t place);
void expect_opened(const struct file *file, size_t n, size_t r, size_t v);
void expect_open_refused(const struct file *file, unsigned number, size_t place);
void expect_at(const struct file *file, const void *code, size_t length, size_t line);
void expect_unknown(const struct file *file, const void *code, size_t length);
void expect_lookup_refused(const struct file *file, const void *code, size_t length, unsigned number, size_t place);
void expect_shown(const struct file *file, size_t line, size_t start, const void *code, size_t length);
void expect_nothing_shown(const struct file *file, size_t line);

/* That the file has just these bytes. */
void expect_same(const struct file *given, const struct file *right);

/* ---- signs.c: signs, and reports and asks with the answers they must give ---- */

enum { MOST_OF_A_LIST = DS_BYTES_OF_A_PLACE * (DS_MOST_CODES + 2) };

/* A file, and the lists of its sign as they are lent. */
struct sign {
    const struct file *file;
    uint8_t levels[MOST_OF_A_LIST];
    size_t levels_len;
    uint8_t times[MOST_OF_A_LIST];
    size_t times_len;
};

/* A report that is brought. */
struct report {
    const void *code;
    size_t length;
    int32_t level;
    uint32_t time;
};

/* What is asked. */
struct ask {
    const void *code;
    size_t length;
    uint32_t now, limit;
};

/* Lists of n places for a file, as document 02 has them cleared: 30,000 as every level and 0 as every time. */
void clear(struct sign *sign, const struct file *file, size_t n);

/* Writes a line's places by hand, whatever the numbers are. */
void put_places(struct sign *sign, size_t line, int32_t level, uint32_t time);

/* Reports, and takes the lists back. Checks that an accepted report changed its line's places to its level and time
 * and no other byte, and any other report none. */
struct ds_reported call_report(struct sign *sign, struct report report);

/* Asks, with lists that cannot be written. */
struct ds_asked call_ask(const struct sign *sign, struct ask ask);

void expect_accepted(struct sign *sign, struct report report, size_t line);
void expect_stranger(struct sign *sign, struct report report);
void expect_report_refused(struct sign *sign, struct report report, unsigned number, size_t place);
void expect_never(const struct sign *sign, struct ask ask);
void expect_fresh(const struct sign *sign, struct ask ask, int32_t level);
void expect_stale(const struct sign *sign, struct ask ask, int32_t level, uint32_t age);
void expect_asked_stranger(const struct sign *sign, struct ask ask);
void expect_ask_refused(const struct sign *sign, struct ask ask, unsigned number, size_t place);

/* That two answers are the same in every field. */
void expect_reported(struct ds_reported given, struct ds_reported right);
void expect_asked(struct ds_asked given, struct ds_asked right);

/* ---- the subjects ---- */

void try_layout(void);        /* layout.c: structs, constants and lengths */
void try_cases(void);         /* cases.c: document 01's cases 1 to 12 */
void try_building(void);      /* building.c: refusals 1 to 8 */
void try_waiting(void);       /* waiting.c: the most codes waiting at once, worked out by hand */
void try_opening(void);       /* opening.c: refusals 9 to 15, and files from elsewhere */
void try_looking_up(void);    /* looking_up.c: lookup's refusals, and what a lookup passes over */
void try_showing(void);       /* showing.c: where a line's code stands */
void try_round_trips(void);   /* round_trips.c: build, open, every code, every line */
void try_sign(void);          /* sign.c: what reports leave in the lists, and what asking gives */
void try_sign_lists(void);    /* sign_lists.c: lists of any length and at any place, and a small sign */
void try_sign_refusals(void); /* sign_refusals.c: refusals 17, 18, 19, 22 and 23 */
void try_sign_order(void);    /* sign_order.c: which of two faults is given */
void try_sign_traces(void);   /* sign_traces.c: long runs of calls against a plain map from code to last report */
void try_stack(void);         /* stack.c: how much stack the calls take */

#endif
