/* What the files of the drawing program share: reports out of text, and rows of the picture. */
#ifndef DRAW_SIGN_H
#define DRAW_SIGN_H

#include "dronesickle.h"

#include <stdbool.h>

/* ---- reports.c: reports out of text ---- */

/* One byte more than a code has is kept, so that a code that is too long is refused as such. */
enum { MOST_KEPT = DS_LONGEST_CODE + 1 };

/* A report as a line of text has it. */
struct report {
    uint8_t code[MOST_KEPT];
    size_t length;
    int32_t level;
    uint32_t time;
};

/* The number of 32 bits that a text of decimal digits stands for; false where it is none. */
bool read_number(const char *text, size_t length, uint32_t *number);

/* The report of a line `CODE LEVEL TIME`. Gives NULL, or in words what keeps the line from being a report. */
const char *read_report(const char *line, size_t length, struct report *report);

/* ---- picture.c: the picture, on standard output ---- */

/* A row: a line's code, what asking for it gave, and the age of its last report where it is fresh or stale. */
struct row {
    const uint8_t *code;
    size_t length;
    struct ds_asked asked;
    uint32_t age;
};

void draw_start(size_t rows, uint32_t now, uint32_t limit);
void draw_row(size_t line, const struct row *row);
void draw_end(void);

#endif
