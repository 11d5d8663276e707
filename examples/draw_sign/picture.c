/* The picture: one row a line, white on black, and nothing that is said by colour. A fresh row is plain, with solid
 * figures; a stale one has a hatched band around it, a hollow level and its word in a box; one that was never heard has
 * dashes. The text is text, in a table that a screen reader reads row by row. */
#include "draw_sign.h"

#include <stdio.h>
#include <string.h>

/* Lengths in the picture's units. The rows begin at TOP. */
enum { WIDTH = 1200, MARGIN = 40, TOP = 200, ROW = 72, BOTTOM = 30, TITLE_SIZE = 58, HEADING_SIZE = 26 };

/* A column: its heading, where its texts start or end, the size of their letters, and the room that they have. */
struct column {
    const char *name, *heading;
    int x;
    const char *anchor;
    int size, room;
};

static const struct column codes = {"code", "gauge", MARGIN, "start", 42, 490};
static const struct column levels = {"level", "level, m", 770, "end", 56, 240};
static const struct column ages = {"age", "age, h:mm:ss", 990, "end", 42, 200};
static const struct column states = {"state", "state", 1038, "start", 34, 112};

/* In UTF-8: a minus sign, which is as wide as a digit and is read out, and a dash. */
#define MINUS "\xE2\x88\x92"
#define DASH "\xE2\x80\x94"

/* The longest text of a cell: 0x, two digits for each byte of a code, and an end. */
enum { LONGEST_TEXT = 2 + 2 * DS_LONGEST_CODE + 1 };

static const char style[] = "  <style>\n"
                            "    .ground { fill: #0b0d10 }\n"
                            "    text, .box { fill: #fffdf5 }\n"
                            "    .title, .code, .level, .state { font-weight: bold }\n"
                            "    .rule { stroke: #8f9499; stroke-width: 1.5 }\n"
                            "    .band { fill: url(#hatch) }\n"
                            "    .stale .level { fill: none; stroke: #fffdf5; stroke-width: 2.5 }\n"
                            "    .stale .state { fill: #0b0d10 }\n"
                            "  </style>\n"
                            "  <pattern id=\"hatch\" width=\"14\" height=\"14\" patternUnits=\"userSpaceOnUse\" "
                            "patternTransform=\"rotate(45)\">\n"
                            "    <rect width=\"6\" height=\"14\" fill=\"#9aa0a6\"/>\n"
                            "  </pattern>\n";

/* The band of a stale row, what of it is free for the text, and the box of its word. */
static const char band[] = "    <rect class=\"band\" y=\"1\" width=\"1200\" height=\"70\"/>\n"
                           "    <rect class=\"ground\" x=\"28\" y=\"9\" width=\"1144\" height=\"54\"/>\n"
                           "    <rect class=\"box\" x=\"1028\" y=\"13\" width=\"132\" height=\"46\"/>\n";

/* ---- cells ---- */

/* How many letters a text has: the bytes of UTF-8 that begin one. */
static int letters(const char *text)
{
    int count = 0;
    for (; *text != '\0'; text++)
        count += (*text & 0xC0) != 0x80;
    return count;
}

/* The size of a text's letters: the column's, or less where it has no room for so many. A letter is 0.6 of its size
 * wide. */
static int fitting(const struct column *column, const char *text)
{
    int size = 10 * column->room / (6 * letters(text));
    return size < column->size ? size : column->size;
}

static void put_letter(char letter)
{
    if (letter == '&')
        printf("&amp;");
    else if (letter == '<')
        printf("&lt;");
    else if (letter == '>')
        printf("&gt;");
    else
        putchar(letter);
}

/* A text in the middle of the row's height; a capital letter is some 0.72 of its size high. */
static void draw_cell(const struct column *column, const char *text)
{
    int size = fitting(column, text);
    printf("    <text role=\"cell\" class=\"%s\" x=\"%d\" y=\"%d\" text-anchor=\"%s\" font-size=\"%d\">", column->name,
           column->x, ROW / 2 + 36 * size / 100, column->anchor, size);
    while (*text != '\0')
        put_letter(*text++);
    printf("</text>\n");
}

/* Whether a code is shown as it stands, so that no other looks like it: a blank only between two other letters, and
 * nothing that begins with 0x, as hex does. */
static bool is_plain(const uint8_t *code, size_t length)
{
    size_t i = 0;
    while (i < length &&
           ((code[i] > ' ' && code[i] <= '~') || (code[i] == ' ' && i > 0 && i + 1 < length && code[i - 1] != ' ')))
        i++;
    return i == length && (length < 2 || memcmp(code, "0x", 2) != 0);
}

static void draw_code(const uint8_t *code, size_t length)
{
    char text[LONGEST_TEXT] = "0x";
    if (is_plain(code, length))
        snprintf(text, sizeof text, "%.*s", (int)length, (const char *)code);
    else
        for (size_t i = 0; i < length; i++)
            snprintf(text + 2 + 2 * i, 3, "%02x", code[i]);
    draw_cell(&codes, text);
}

/* Millimetres as metres. */
static void draw_level(int32_t level)
{
    char text[LONGEST_TEXT];
    int size = level < 0 ? -level : level;
    snprintf(text, sizeof text, "%s%d.%03d", level < 0 ? MINUS : "", size / 1000, size % 1000);
    draw_cell(&levels, text);
}

/* Seconds as hours, minutes and seconds. */
static void write_age(char *text, size_t room, uint32_t age)
{
    snprintf(text, room, "%u:%02u:%02u", age / 3600, age / 60 % 60, age % 60);
}

/* ---- rows ---- */

static void draw_heard(const struct row *row)
{
    char text[LONGEST_TEXT];
    write_age(text, sizeof text, row->age);
    draw_level(row->asked.level);
    draw_cell(&ages, text);
    draw_cell(&states, row->asked.kind == DS_STALE ? "STALE" : "FRESH");
}

/* Never heard, or refused. */
static void draw_dashes(const struct row *row)
{
    char text[LONGEST_TEXT] = "NEVER";
    if (row->asked.kind == DS_REFUSED)
        snprintf(text, sizeof text, "refused %u", row->asked.number);
    draw_cell(&levels, DASH);
    draw_cell(&ages, DASH);
    draw_cell(&states, text);
}

void draw_row(size_t line, const struct row *row)
{
    bool stale = row->asked.kind == DS_STALE;
    printf("  <g role=\"row\" class=\"%s\" transform=\"translate(0 %zu)\">\n", stale ? "stale" : "row",
           TOP + ROW * line);
    if (stale)
        printf("%s", band);
    draw_code(row->code, row->length);
    if (stale || row->asked.kind == DS_FRESH)
        draw_heard(row);
    else
        draw_dashes(row);
    printf("    <line class=\"rule\" x1=\"%d\" y1=\"%d\" x2=\"%d\" y2=\"%d\"/>\n", MARGIN, ROW, WIDTH - MARGIN, ROW);
    printf("  </g>\n");
}

/* ---- the sign ---- */

static void draw_heading(const struct column *column)
{
    printf("    <text role=\"columnheader\" x=\"%d\" y=\"%d\" text-anchor=\"%s\" font-size=\"%d\">%s</text>\n",
           column->x, TOP - HEADING_SIZE / 2, column->anchor, HEADING_SIZE, column->heading);
}

static void draw_headings(void)
{
    printf("  <g role=\"row\">\n");
    draw_heading(&codes);
    draw_heading(&levels);
    draw_heading(&ages);
    draw_heading(&states);
    printf("  </g>\n");
}

void draw_start(size_t rows, uint32_t now, uint32_t limit)
{
    char age[LONGEST_TEXT];
    size_t height = TOP + ROW * rows + BOTTOM;
    write_age(age, sizeof age, limit);
    printf(
        "<svg xmlns=\"http://www.w3.org/2000/svg\" viewBox=\"0 0 %d %zu\" width=\"%d\" height=\"%zu\" role=\"table\"\n",
        WIDTH, height, WIDTH, height);
    printf("     aria-labelledby=\"title\" aria-describedby=\"about\"\n"
           "     font-family=\"DejaVu Sans Mono, Menlo, Liberation Mono, Consolas, monospace\">\n");
    printf("  <title id=\"title\">Gauges upstream</title>\n");
    printf("  <desc id=\"about\">The last level that each gauge reported, and how old it is.</desc>\n");
    printf("%s", style);
    printf("  <rect class=\"ground\" width=\"%d\" height=\"%zu\"/>\n", WIDTH, height);
    printf("  <text class=\"title\" x=\"%d\" y=\"84\" font-size=\"%d\">Gauges upstream</text>\n", MARGIN, TITLE_SIZE);
    printf("  <text x=\"%d\" y=\"128\" font-size=\"%d\">Now: %u s. Fresh: at most %s old.</text>\n", MARGIN,
           HEADING_SIZE, now, age);
    draw_headings();
}

void draw_end(void)
{
    printf("</svg>\n");
}
