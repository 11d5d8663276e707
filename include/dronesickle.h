/* dronesickle.h: code directories and the sign that stands on them, for callers in C (C99 on) and C++ (C++11 on).
 *
 * WHAT A DIRECTORY IS
 *
 * A directory gives every code of a list a line: n codes get the lines 0 to n-1, each line once, and a
 * code that is not on the list gets none. It is a file of at most 37,197 bytes, built once from the list by
 * the minimal perfect hash of Botelho, Pagh and Ziviani, and it is read where it lies: looking a code up
 * computes one line and compares the code that is stored there. Nothing is searched or unpacked.
 *
 * A code is 1 to 32 bytes of any value. It is not a string of C: its length is given with it, and a
 * zero byte counts like every other.
 *
 * SIZES
 *
 *     codes, n                 0 to 1,024, all different
 *     bytes of a code          1 to 32
 *     arity, r                 2 or 3
 *     part size, v             at least 1, with r * v at most 4,096
 *     weights                  32 * r numbers of 0 to 65,535
 *     bytes of the file        13 + 64*r + ceil(r*v/4) + 2*ceil(r*v/64) + 35*n: ds_length(n, r, v)
 *
 * HOW CODES ARE LENT
 *
 * A list is one run of bytes, all codes one after the other, and an array of ends. Code k begins where code
 * k-1 ends (at 0 for the first) and ends before run[ends[k]]. The last end is the length of the run; there
 * are as many codes as ends. BA, BB and DA are lent so:
 *
 *     const uint8_t run[] = "BABBDA";        length 6, without the zero that C puts after it
 *     const uint16_t ends[] = {2, 4, 6};     length 3: three ends, not six bytes
 *
 * A slice is always two arguments, a pointer and then how many ELEMENTS it points to.
 *
 * WEIGHTS AND PART SIZE
 *
 * Each code has r vertices, one in each part of v: in part j it is the sum of byte i times weight number
 * 32*j + i, over the bytes of the code, mod v. A build is refused as cyclic (8) if there is a group of the
 * codes in which every vertex that one of them has is also another's. That follows from the codes, r, v and
 * the weights, and from nothing else: then take other weights or a larger v, and build again.
 * Random weights serve. Of 200 lists of random codes, each under random weights, so many were built:
 *
 *                                    n = 10    n = 50   n = 200   n = 1,024
 *     r = 3, r * v about 2 * n          162       195       198         200
 *     r = 3, r * v about 1.25 * n        19        68        91         165
 *     r = 2, r * v about 4 * n          185       169       174         171
 *     r = 2, r * v about 2 * n          112        91        62          56
 *
 * THE WAITING QUEUE
 *
 * A build takes the codes off their vertices one by one; this is the peeling. A code may go once it is the only one
 * left on at least one of its vertices. At the start all that may go wait in a queue, in list order. A peeling step
 * takes off the code at the front; then its followers, those that may go because of it and do not wait yet, join
 * the back, in the order of the parts in which they met it. No code waits twice in one build, so a queue of 1,024
 * places is enough; it is in the library's own memory, on the stack. ds_build_counted gives the most codes
 * waiting at once.
 *
 * THE FILE
 *
 * A built file is the first ds_length(n, r, v) bytes of the buffer that was lent for it. Store and hand on
 * exactly these: opening, looking up and showing refuse a file that is one byte longer or shorter. Its
 * bytes mean the same on every machine, and the same list, r, v and weights always give the same bytes.
 * What it holds, in this order, each record behind a mark of two letters, numbers with the low byte first:
 *
 *     HD   n (2 bytes), r (1), v (2)
 *     WT   the 32 * r weights, 2 bytes each
 *     GV   the r * v values, two bits each, four to a byte from the lowest bits on; spare bits are 0
 *     RK   ceil(r * v / 64) rank entries, 2 bytes each
 *     KY   one record for each line: the length of its code (1), and 32 bytes, 0 after the code
 *
 * THE SIGN
 *
 * A sign has the lines of a directory, and keeps the last report of each. ds_report brings a code, a level in
 * millimetres, -20,000 to 20,000 and below zero at low water, and a time in seconds, any number of 32 bits.
 * ds_ask brings a code, the time now and a limit, 1 to 86,400 seconds. It answers that the code's line was never
 * heard; or fresh, with the level; or stale, with the level and the age. The age is now less the time of
 * the last report, and fresh is an age of at most the limit. What the seconds are counted from is the caller's
 * matter, as long as it is the same in all calls.
 *
 * The sign lies in two lists of bytes, levels and times, which the caller keeps and lends to every call. A
 * list has one place for each line and four bytes for each place, 4 * n in all, not one more or fewer: bytes
 * 4*k to 4*k + 3 are the place of line k. The low byte is first, and levels are in two's complement:
 *
 *     1,250 is E2 04 00 00        -340 is AC FE FF FF        30,000 is 30 75 00 00        (hex)
 *
 * A stored level outside -20,000 to 20,000 means that the line was never heard; its time then means nothing.
 * A sign starts cleared, with 30,000 as every level and 0 as every time. No call clears the lists. These lines
 * do, with the n that ds_open gives:
 *
 *     memset(levels, 0, DS_BYTES_OF_A_PLACE * n);
 *     memset(times, 0, DS_BYTES_OF_A_PLACE * n);
 *     for (size_t line = 0; line < n; line++) {
 *         levels[DS_BYTES_OF_A_PLACE * line] = DS_NEVER_HEARD % 256;
 *         levels[DS_BYTES_OF_A_PLACE * line + 1] = DS_NEVER_HEARD / 256;
 *     }
 *
 * WHAT THE SIGN PROMISES
 *
 * Say that the lists were cleared, that every call is lent one and the same file, which opens, and that nothing
 * but ds_report writes to the lists. Then, after any calls, refused ones and unknown codes among them, the answers
 * are those of a plain map from code to last accepted report:
 * - A report is accepted exactly if its code is in the file, its level is -20,000 to 20,000, and its time is not
 *   before that of the code's last accepted report, where there is one. An equal time replaces.
 * - DS_NEVER means exactly that no report of this code was ever accepted.
 * - DS_FRESH means exactly that this code's last accepted report is at most the limit old. The level is its level.
 * - DS_STALE means exactly that this code's last accepted report is older than the limit. The level is its level,
 *   and the age its age.
 * "Exactly" is said of calls with lists of 4 * n bytes, and of asks with a code of the file, a limit of 1 to 86,400
 * and a now that is not before that report; any other is unknown or refused, as ds_report and ds_ask say.
 * So no report of another code, in the file or not, changes what is answered for a code.
 *
 * ANSWERS
 *
 * Every call comes back, whatever the bytes and numbers are that it is lent. It looks at its input in
 * an order that is written beside it, and gives the FIRST refusal that applies: a number (enum ds_refusal)
 * and a place. A place of 0 can be a real place, as for code 0; look at the number first. A field that has
 * nothing to say is 0. Answers are structs and come back by value.
 *
 * WHAT NO CALL DOES
 *
 * - Write anything but the buffer of a build that succeeds and, in each list, the one place of a report that is
 *   accepted. A refused build has changed no byte of the buffer, a refused or unknown report no byte of the lists.
 * - Read anything but the bytes, ends and weights that it is lent.
 * - Keep anything: no pointer is held after the call, and there is nothing to free or to close. The sign is in the
 *   caller's lists and nowhere else.
 * - Allocate, open, print, lock, or look at the locale, errno or any other state. So threads may call at will,
 *   on the same file too, as long as nobody writes to what is lent to a call before it comes back. ds_report
 *   writes to its lists: while it does, no other call may be lent them.
 *
 * WHAT THE CALLER SEES TO
 *
 * No call can look at these; each is undefined behaviour where it does not hold:
 * - Each pointer is valid for the length that goes with it. It is never NULL, also where the length is 0:
 *   then it points to any object of its type, or one past it.
 * - ends and weights are aligned as uint16_t is.
 * - In ds_build and ds_build_counted, buffer does not overlap run, ends or weights. In ds_report, levels and times
 *   overlap neither each other nor the file or the code. All other slices may overlap: a code may lie in the
 *   file, as ds_show gives it, and all that is lent to ds_ask may overlap.
 * - There is stack. ds_build and ds_build_counted need some 39 KB of it, whatever the list is: 39,040 bytes for
 *   their arrays, a little for the rest, and what memset and memcpy take. Leave them 48 KB. The others need less
 *   than 1 KB.
 * And this one, which is not undefined but takes away what the sign promises: between the calls nobody else writes
 * to the lists. The calls take any bytes in them, and answer from what they find.
 *
 * LINKING
 *
 * `rt lib` in crates/dronesickle proves the calls and writes out/libdronesickle.a there, for x86-64 Linux. It
 * needs memcpy and memset from the C library and nothing else.
 *
 *     cc -std=c99 -Iinclude examples/calls.c crates/dronesickle/out/libdronesickle.a -o calls
 *
 * EXAMPLE (with the list above and 64 weights; examples/calls.c is one that runs, examples/draw_sign draws a sign)
 *
 *     uint8_t buffer[DS_LONGEST_FILE];
 *     struct ds_answer built = ds_build(run, 6, ends, 3, 2, 4, weights, 64, buffer, sizeof buffer);
 *     if (built.number != DS_SUCCESS)
 *         return refused(built.number, built.place);
 *     size_t length = ds_length(3, 2, 4);
 *
 *     struct ds_opened opened = ds_open(buffer, length);       opened.n is 3
 *     struct ds_found found = ds_lookup(buffer, length, code, code_length);
 *     if (found.kind == DS_AT) {
 *         struct ds_part part = ds_show(buffer, length, found.line);
 *         ..  part.length bytes from buffer + part.start on are the code
 *     }
 *
 *     uint8_t levels[DS_BYTES_OF_A_PLACE * DS_MOST_CODES];
 *     uint8_t times[DS_BYTES_OF_A_PLACE * DS_MOST_CODES];
 *     size_t list = DS_BYTES_OF_A_PLACE * opened.n;            12 bytes of each, cleared as above
 *     struct ds_reported reported =
 *         ds_report(buffer, length, code, code_length, level, time, levels, list, times, list);
 *     if (reported.kind != DS_ACCEPTED)
 *         ..  DS_UNKNOWN, or DS_REFUSED with reported.number
 *
 *     struct ds_asked asked =
 *         ds_ask(buffer, length, code, code_length, now, 3600, levels, list, times, list);
 *     if (asked.kind == DS_FRESH)
 *         ..  asked.level millimetres, reported at most an hour before now
 */
#ifndef DRONESICKLE_H
#define DRONESICKLE_H

#include <stddef.h>
#include <stdint.h>

#ifdef __cplusplus
extern "C" {
#endif

/* The most codes of a directory. */
#define DS_MOST_CODES 1024

/* The most vertices, r * v. */
#define DS_MOST_VERTICES 4096

/* The most bytes of a code. */
#define DS_LONGEST_CODE 32

/* Weights of one part: a build takes DS_WEIGHTS_OF_A_PART * r of them. */
#define DS_WEIGHTS_OF_A_PART 32

/* The bytes of the longest file: a buffer of this length takes any directory. */
#define DS_LONGEST_FILE 37197

/* The lowest and the highest level of a report, in millimetres. */
#define DS_LOWEST_LEVEL (-20000)
#define DS_HIGHEST_LEVEL 20000

/* The longest limit, in seconds: a day. The shortest is 1. */
#define DS_LONGEST_LIMIT 86400

/* The bytes of a place in a list of levels or times: a list has DS_BYTES_OF_A_PLACE * n of them. */
#define DS_BYTES_OF_A_PLACE 4

/* The level of each place in a cleared list. Every level outside the range means never heard; clear with this one. */
#define DS_NEVER_HEARD 30000

/* The numbers of the refusals. ds_build and ds_build_counted give 1 to 8, ds_open 9 to 15, ds_lookup 9, 10, 11, 13
 * and 16, ds_report ds_lookup's and 17, 18 and 23, ds_ask ds_lookup's and 19, 22 and 23. No call gives 20 or 21. The
 * place is 0 where none is named here. */
enum ds_refusal {
    /* Not refused. Place: 0. */
    DS_SUCCESS = 0,

    /* Building: r is not 2 or 3. */
    DS_ARITY = 1,

    /* Building: v is 0, or r * v is over 4,096. */
    DS_PART_SIZE = 2,

    /* Building: there are not 32 * r weights. */
    DS_WEIGHTS = 3,

    /* Building: there are more than 1,024 codes. */
    DS_TOO_MANY_CODES = 4,

    /* Building: a code is empty or has over 32 bytes, its end lies before its start or past the run; or the
     * last end (0 where there are no codes) is not the length of the run.
     * Place: the lowest such code, from 0; n where only the last end misses the run's length. */
    DS_CODE_LIST = 5,

    /* Building: the buffer is shorter than the file.
     * Place: the length needed, ds_length(n, r, v). */
    DS_SHORT_BUFFER = 6,

    /* Building: a code equals an earlier one.
     * Place: the lowest such code, from 0. */
    DS_REPEATED = 7,

    /* Building: cyclic under these weights. There is a group of the codes in which every vertex that one
     * of them has is also another's.
     * Place: how many codes the largest such group has. */
    DS_CYCLIC = 8,

    /* Reading: the file has under 7 bytes, or not exactly as many as its n, r and v call for. */
    DS_LENGTH = 9,

    /* Reading: a record does not begin with its mark.
     * Place: the offset of the mark in the file, also where only its second letter is wrong. */
    DS_MARK = 10,

    /* Reading: the header's n, r or v are outside the sizes above. */
    DS_HEADER_NUMBERS = 11,

    /* Opening: a value is over r, or spare bits are set.
     * Place: the lowest such vertex, from 0; r * v where only spare bits are set. */
    DS_VALUE = 12,

    /* Opening: a rank entry is not the number of assigned vertices before its block, or there are not n
     * assigned vertices in all.
     * Place: the lowest such entry, from 0; ceil(r * v / 64) where only the total is wrong.
     * Looking up, reporting, asking: a rank entry leads past the last line; never in a file that opens.
     * Place: that rank entry, from 0. */
    DS_RANK = 13,

    /* Opening: a stored code's length is 0 or over 32, or the bytes after the code are not all 0.
     * Place: the lowest such line. */
    DS_STORED_CODE = 14,

    /* Opening: the code stored at a line does not lead to that line.
     * Place: the lowest such line. */
    DS_ASTRAY = 15,

    /* Looking up, reporting, asking: the code is empty or has over 32 bytes. */
    DS_CODE_ASKED = 16,

    /* Reporting: the level is not -20,000 to 20,000. */
    DS_LEVEL = 17,

    /* Reporting: the line was heard, and the time is before that of its last report. */
    DS_EARLIER = 18,

    /* Asking: the line was heard, and now is before the time of its last report. */
    DS_NOW_EARLIER = 19,

    /* Asking: the limit is not 1 to 86,400. */
    DS_LIMIT = 22,

    /* Reporting, asking: the levels or the times are not 4 * n bytes. */
    DS_LISTS = 23
};

/* The kinds of answer of ds_lookup, ds_report and ds_ask. A kind has the same number in all of them. DS_UNKNOWN is no
 * refusal: the file was read, and the code is not in it. No answer of ds_report or ds_ask has the kind 0, so
 * a struct of zeros is never taken for one of theirs. */
enum ds_kind {
    DS_AT = 0,       /* a lookup: the code has a line */
    DS_UNKNOWN = 1,  /* all three: the code is not in the file */
    DS_REFUSED = 2,  /* all three: a refusal, with its number and place */
    DS_ACCEPTED = 3, /* a report: the lists now hold it */
    DS_NEVER = 4,    /* an ask: the line was never heard */
    DS_FRESH = 5,    /* an ask: the last report is at most the limit old */
    DS_STALE = 6     /* an ask: the last report is older than the limit */
};

/* The answer of a build. */
struct ds_answer {
    uint32_t number; /* DS_SUCCESS, or the refusal, 1 to 8 */
    size_t place;    /* of the refusal, else 0 */
};

/* The answer of a counted build. */
struct ds_counted {
    uint32_t number;     /* DS_SUCCESS, or the refusal, 1 to 8 */
    size_t place;        /* of the refusal, else 0 */
    size_t most_waiting; /* the most codes waiting at once, at most n; 0 on refusal, and for n = 0: look at number */
};

/* The answer of an opening. */
struct ds_opened {
    uint32_t number; /* DS_SUCCESS, or the refusal, 9 to 15 */
    size_t place;    /* of the refusal, else 0 */
    size_t n;        /* the codes of the file; 0 on refusal */
    size_t r;        /* its arity; 0 on refusal */
    size_t v;        /* its part size; 0 on refusal */
};

/* The answer of a lookup. */
struct ds_found {
    uint32_t kind;   /* DS_AT, DS_UNKNOWN or DS_REFUSED */
    uint32_t number; /* of the refusal where kind is DS_REFUSED, else 0 */
    size_t place;    /* of the refusal where kind is DS_REFUSED, else 0 */
    size_t line;     /* where kind is DS_AT, else 0; below n */
};

/* The answer of a report. */
struct ds_reported {
    uint32_t kind;   /* DS_ACCEPTED, DS_UNKNOWN or DS_REFUSED */
    uint32_t number; /* of the refusal where kind is DS_REFUSED, else 0 */
    size_t place;    /* of the refusal where kind is DS_REFUSED, else 0 */
    size_t line;     /* the code's line where kind is DS_ACCEPTED, else 0; below n */
};

/* The answer of an ask. */
struct ds_asked {
    uint32_t kind;   /* DS_NEVER, DS_FRESH, DS_STALE, DS_UNKNOWN or DS_REFUSED */
    uint32_t number; /* of the refusal where kind is DS_REFUSED, else 0 */
    size_t place;    /* of the refusal where kind is DS_REFUSED, else 0 */
    int32_t level;   /* millimetres, where kind is DS_FRESH or DS_STALE, else 0; 0 is a level too: look at kind */
    uint32_t age;    /* seconds, over the limit, where kind is DS_STALE, else 0 */
};

/* A part of a file. */
struct ds_part {
    size_t start;  /* the offset of its first byte; 0 where length is 0 */
    size_t length; /* how many bytes it has, 1 to 32; 0 where there is nothing to show */
};

/* The length of the file for n codes, arity r and part size v.
 *
 * Gives its bytes, 144 to 37,197. Gives 0, which is the length of no file, where n, r or v are outside
 * the sizes above; nothing wraps, however large they are. It has no refusals.
 */
size_t ds_length(size_t n, size_t r, size_t v);

/* Builds the directory of a code list.
 *
 * Takes
 *   run, run_len          the bytes of all codes, one after the other
 *   ends, ends_len        where each code ends in the run; ends_len is n, the number of codes
 *   r, v                  the arity and the part size
 *   weights, weights_len  32 * r weights, those of part 0 first; weights_len counts weights, not bytes
 *   buffer, buffer_len    room for the file: ds_length(n, r, v) bytes, or more
 *
 * On success number and place are 0, the file is the first ds_length(n, r, v) bytes of the buffer, and the
 * bytes after it are unchanged. It then opens, ds_lookup finds each code of the list at a line of its own,
 * and any other code is unknown. Which line a code gets follows from the method, not from its place in
 * the list.
 *
 * On refusal no byte of the buffer has changed. The first that applies, in this order:
 *   DS_ARITY           (1)  r is not 2 or 3
 *   DS_PART_SIZE       (2)  v is 0, or r * v is over 4,096
 *   DS_WEIGHTS         (3)  weights_len is not 32 * r
 *   DS_TOO_MANY_CODES  (4)  ends_len is over 1,024
 *   DS_CODE_LIST       (5)  a code is empty, too long or not in the run; place: the lowest such code. Or
 *                           only the last end is not run_len; place: n
 *   DS_SHORT_BUFFER    (6)  buffer_len is too small; place: the length needed
 *   DS_REPEATED        (7)  a code equals an earlier one; place: the lowest such code
 *   DS_CYCLIC          (8)  no table under these weights; place: how many codes are left over
 * So a buffer that is too short hides 7 and 8, and 8 is given only to a list that is right in all else.
 *
 * An empty list is a list: ends_len and run_len are 0, and the file has no KY record.
 * buffer must not overlap run, ends or weights. The stack must have some 39 KB left (see above).
 */
struct ds_answer ds_build(const uint8_t *run, size_t run_len,
                          const uint16_t *ends, size_t ends_len,
                          size_t r, size_t v,
                          const uint16_t *weights, size_t weights_len,
                          uint8_t *buffer, size_t buffer_len);

/* Builds the directory of a code list, and gives the most codes waiting at once.
 *
 * Takes what ds_build takes, and all that is said there holds of this call too. ds_build is the same call without
 * the field most_waiting: number, place and every byte of the buffer are the same.
 *
 * On success most_waiting is the most codes that waited at once in the peeling (see above). The codes in the waiting
 * queue are counted after its first filling and after each whole peeling step, when the front code is taken off
 * and its followers have joined; the largest of these numbers is given. It is at most n, and 0 for n = 0. It
 * follows from the list, in its order, r, v and the weights, and from nothing else.
 *
 * On refusal most_waiting is 0.
 */
struct ds_counted ds_build_counted(const uint8_t *run, size_t run_len,
                                   const uint16_t *ends, size_t ends_len,
                                   size_t r, size_t v,
                                   const uint16_t *weights, size_t weights_len,
                                   uint8_t *buffer, size_t buffer_len);

/* Looks at every byte of a file, whoever wrote it.
 *
 * Takes
 *   file, file_len        the bytes of the file and no others
 *
 * On success number and place are 0, and n, r and v are the file's. Then each line stores one code, no
 * two lines the same, and ds_lookup finds each at its own line and nothing else. Such a file need not be one
 * that ds_build would write.
 *
 * On refusal n, r and v are 0. The first that applies, in this order:
 *   DS_LENGTH          (9)   under 7 bytes
 *   DS_MARK            (10)  the HD mark; place: 0
 *   DS_HEADER_NUMBERS  (11)  n, r or v are outside the sizes
 *   DS_LENGTH          (9)   file_len is not ds_length(n, r, v)
 *   DS_MARK            (10)  another mark: WT, GV, RK, then KY of line 0, 1, ..; place: its offset
 *   DS_VALUE           (12)  a value is over r; place: the lowest such vertex. Or spare bits; place: r * v
 *   DS_RANK            (13)  a rank entry is wrong; place: the lowest such entry. Or the total; place: how
 *                            many entries there are
 *   DS_STORED_CODE     (14)  a stored length or the bytes after a code; place: the lowest such line
 *   DS_ASTRAY          (15)  a stored code does not lead to its line; place: the lowest such line
 *
 * Nothing needs to be opened before ds_lookup and ds_show are called. Opening is what makes sure that a file
 * from elsewhere answers for all of its codes.
 */
struct ds_opened ds_open(const uint8_t *file, size_t file_len);

/* Looks a code up in any bytes, opened before or not.
 *
 * Takes
 *   file, file_len        the bytes of the file and no others
 *   code, code_len        the code; it may lie in the file
 *
 * Gives DS_AT with the line that stores this code, or DS_UNKNOWN. In a file that opens, or that ds_build
 * wrote, DS_AT is given exactly to the codes that are stored. In any other bytes DS_AT still means that
 * the line is below n and stores exactly this code, but a stored code may be unknown.
 *
 * DS_REFUSED comes with the first that applies, in this order:
 *   DS_LENGTH          (9)   under 7 bytes
 *   DS_MARK            (10)  the HD mark; place: 0. No other mark is looked at
 *   DS_HEADER_NUMBERS  (11)  n, r or v are outside the sizes
 *   DS_LENGTH          (9)   file_len is not ds_length(n, r, v)
 *   DS_CODE_ASKED      (16)  code_len is 0 or over 32
 *   DS_RANK            (13)  the code leads to no line of the file, which then does not open; place: the
 *                            rank entry that led there
 */
struct ds_found ds_lookup(const uint8_t *file, size_t file_len,
                          const uint8_t *code, size_t code_len);

/* Where the code of a line stands in a file. Nothing is copied.
 *
 * Takes
 *   file, file_len        the bytes of the file and no others, opened before or not
 *   line                  the line, from 0
 *
 * Gives a part of the file: file + start is the code's first byte, and it has length bytes, 1 to 32.
 * Both are 0 where there is nothing to show: where ds_lookup's refusals 9, 10 or 11 apply, line is n or more,
 * or the stored length is 0 or over 32. It has no refusals; a code is never empty, so the two cannot be
 * confused. Neither the KY mark nor the bytes after the code are looked at.
 */
struct ds_part ds_show(const uint8_t *file, size_t file_len, size_t line);

/* Brings a report: the level of a gauge at a time.
 *
 * Takes
 *   file, file_len        the bytes of the file and no others, opened before or not
 *   code, code_len        the gauge's code; it may lie in the file
 *   level                 in millimetres, -20,000 to 20,000
 *   time                  in seconds, any number
 *   levels, levels_len    the levels of the sign: 4 * n bytes, where n is the file's
 *   times, times_len      the times of the sign: 4 * n bytes
 *
 * Gives DS_ACCEPTED with the code's line, the one that ds_lookup gives. That line's place in levels now holds the
 * level, and its place in times the time, the low byte first; no other byte has changed. Or gives DS_UNKNOWN or
 * DS_REFUSED, and no byte has changed. The first that applies, in this order:
 *   ds_lookup's refusals (9, 10, 11, 9, 16, 13), with their places
 *   DS_LISTS           (23)  levels_len or times_len is not 4 * n
 *   DS_UNKNOWN               the code is not in the file; it ends the report here, whatever its level and time
 *   DS_LEVEL           (17)  level is not -20,000 to 20,000
 *   DS_EARLIER         (18)  the line was heard, and time is before the time of its last report
 * An equal time is not before: the report is accepted and replaces the last one. On a line that was never heard
 * every time is accepted.
 *
 * levels and times must not overlap each other, the file or the code.
 */
struct ds_reported ds_report(const uint8_t *file, size_t file_len,
                             const uint8_t *code, size_t code_len,
                             int32_t level, uint32_t time,
                             uint8_t *levels, size_t levels_len,
                             uint8_t *times, size_t times_len);

/* Asks for the last report of a gauge, and whether it is fresh.
 *
 * Takes
 *   file, file_len        the bytes of the file and no others, opened before or not
 *   code, code_len        the gauge's code; it may lie in the file
 *   now                   in seconds, counted as the times of the reports are
 *   limit                 in seconds, 1 to 86,400: the greatest age that is fresh
 *   levels, levels_len    the levels of the sign: 4 * n bytes, where n is the file's
 *   times, times_len      the times of the sign: 4 * n bytes
 *
 * Writes nothing. What is lent may overlap. Gives the first that applies, in this order:
 *   ds_lookup's refusals (9, 10, 11, 9, 16, 13), with their places
 *   DS_LIMIT           (22)  limit is 0 or over 86,400
 *   DS_LISTS           (23)  levels_len or times_len is not 4 * n
 *   DS_UNKNOWN               the code is not in the file
 *   DS_NEVER                 the line was never heard: its stored level is not -20,000 to 20,000. Its stored time
 *                            is not looked at
 *   DS_NOW_EARLIER     (19)  now is before the time of the line's last report
 *   DS_FRESH                 with its level: now less that time is at most limit
 *   DS_STALE                 with its level, and its age: now less that time
 */
struct ds_asked ds_ask(const uint8_t *file, size_t file_len,
                       const uint8_t *code, size_t code_len,
                       uint32_t now, uint32_t limit,
                       const uint8_t *levels, size_t levels_len,
                       const uint8_t *times, size_t times_len);

#ifdef __cplusplus
}
#endif

#endif
