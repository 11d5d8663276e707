/* The calls, with every slice lent between two stretches of memory that nobody may touch: first against the one
 * after it, then against the one before it. What is lent to be read stands in pages that cannot be written.
 * The library is compiled by its own compiler, which no sanitizer reaches; this shows every byte that it
 * would read or write beside what it was lent. */
#define _GNU_SOURCE
#include "calls.h"

#include <signal.h>
#include <string.h>
#include <sys/mman.h>
#include <sys/wait.h>
#include <unistd.h>

/* STEP is a multiple of every size that pages have; an area has ROOM bytes, and STEP that are guarded on each
 * side of it. */
enum { STEP = 65536, ROOM = 2 * STEP, GUARDED = STEP + ROOM + STEP };

static uint8_t *areas[SLICES];
static uint8_t colours[ROOM];
static enum side side;

static void protect(enum slice slice, int protection)
{
    need(mprotect(areas[slice], ROOM, protection) == 0, "memory cannot be protected");
}

/* Ends the test in words where a guarded byte is touched. */
static void touched(int signal_number)
{
    static const char words[] = ": a byte was touched that is not lent, or one written that is lent to be read\n";
    (void)signal_number;
    ssize_t written = write(STDOUT_FILENO, "calls.c: wrong: ", 16);
    written += write(STDOUT_FILENO, subject(), strlen(subject()));
    written += write(STDOUT_FILENO, words, sizeof words - 1);
    _exit(written > 0 ? 1 : 2);
}

/* An area between two stretches that are guarded. */
static uint8_t *new_area(void)
{
    uint8_t *start = mmap(NULL, GUARDED + STEP, PROT_NONE, MAP_PRIVATE | MAP_ANONYMOUS, -1, 0);
    need(start != MAP_FAILED, "there is no memory for an area");
    return start + STEP - (uintptr_t)start % STEP + STEP;
}

/* Bytes that are neither all zero nor like their neighbours, so that a change among them shows. */
static void choose_colours(void)
{
    for (size_t offset = 0; offset < ROOM; offset++)
        colours[offset] = (uint8_t)(offset % 251) ^ 0xA5;
}

void lend_from(enum side new_side)
{
    side = new_side;
    if (areas[0] != NULL)
        return;
    choose_colours();
    for (enum slice slice = 0; slice < SLICES; slice++)
        areas[slice] = new_area();
    struct sigaction action = {.sa_handler = touched};
    need(sigaction(SIGSEGV, &action, NULL) == 0 && sigaction(SIGBUS, &action, NULL) == 0, "no signal is caught");
}

/* Where this many bytes of an area are lent: its last ones, or its first. */
static uint8_t *place(enum slice slice, size_t size)
{
    return side == AGAINST_THE_PAGE_AFTER ? areas[slice] + ROOM - size : areas[slice];
}

const void *lend(enum slice slice, const void *bytes, size_t size)
{
    protect(slice, PROT_READ | PROT_WRITE);
    memcpy(place(slice, size), bytes, size);
    protect(slice, PROT_READ);
    return place(slice, size);
}

uint8_t *lend_coloured(enum slice slice, size_t size)
{
    protect(slice, PROT_READ | PROT_WRITE);
    memcpy(areas[slice], colours, ROOM);
    return place(slice, size);
}

/* Whether an area has its colours from one offset to another. */
static bool coloured(enum slice slice, size_t from, size_t to)
{
    return memcmp(areas[slice] + from, colours + from, to - from) == 0;
}

bool coloured_before(enum slice slice, size_t size)
{
    return coloured(slice, 0, (size_t)(place(slice, size) - areas[slice]));
}

bool coloured_after(enum slice slice, size_t size, size_t written)
{
    return coloured(slice, (size_t)(place(slice, size) - areas[slice]) + written, ROOM);
}

/* Sees that a counted build answered as the build did, and left the same bytes in its area. */
static void check_counted(const struct list *list, struct ds_answer answer, struct ds_counted counted)
{
    size_t most = answer.number == DS_SUCCESS ? list->n : 0;
    check(counted.number == answer.number && counted.place == answer.place,
          "the counted build answered %u, place %zu, and the build %u, place %zu", counted.number, counted.place,
          answer.number, answer.place);
    check(memcmp(areas[COUNTED_BUFFER], areas[BUFFER], ROOM) == 0, "the counted build left other bytes");
    check(counted.most_waiting <= most && (counted.most_waiting > 0) == (most > 0),
          "of %zu codes %zu waited at once, answer %u", list->n, counted.most_waiting, counted.number);
}

struct ds_counted call_build(const struct list *list, struct file *file)
{
    const uint8_t *run = lend(RUN, list->run, list->run_len);
    const uint16_t *ends = lend(ENDS, list->ends, list->n * sizeof *list->ends);
    const uint16_t *weights = lend(WEIGHTS, list->weights, list->weights_len * sizeof *list->weights);
    uint8_t *buffer = lend_coloured(BUFFER, list->room);
    uint8_t *counted_buffer = lend_coloured(COUNTED_BUFFER, list->room);
    struct ds_answer answer =
        ds_build(run, list->run_len, ends, list->n, list->r, list->v, weights, list->weights_len, buffer, list->room);
    struct ds_counted counted = ds_build_counted(run, list->run_len, ends, list->n, list->r, list->v, weights,
                                                 list->weights_len, counted_buffer, list->room);
    bool built = answer.number == DS_SUCCESS;
    size_t written = built ? ds_length(list->n, list->r, list->v) : 0;
    check(coloured_before(BUFFER, list->room), "a byte before the buffer has changed");
    check(coloured_after(BUFFER, list->room, written),
          built ? "a byte after the file has changed" : "a refused build wrote");
    check_counted(list, answer, counted);
    memcpy(file->bytes, buffer, list->room);
    file->length = built ? written : list->room;
    return counted;
}

struct ds_opened call_open(const struct file *file)
{
    return ds_open(lend(FILE_BYTES, file->bytes, file->length), file->length);
}

struct ds_found call_lookup(const struct file *file, const void *code, size_t length)
{
    const uint8_t *lent_file = lend(FILE_BYTES, file->bytes, file->length);
    return ds_lookup(lent_file, file->length, lend(CODE, code, length), length);
}

struct ds_found call_lookup_inside(const struct file *file, struct ds_part part)
{
    const uint8_t *lent_file = lend(FILE_BYTES, file->bytes, file->length);
    return ds_lookup(lent_file, file->length, lent_file + part.start, part.length);
}

struct ds_part call_show(const struct file *file, size_t line)
{
    return ds_show(lend(FILE_BYTES, file->bytes, file->length), file->length, line);
}

/* ---- The pages themselves ---- */

enum { CRASHED = 3 };

static void crash(int signal_number)
{
    (void)signal_number;
    _exit(CRASHED);
}

/* Whether touching a byte crashes, in a process of its own. */
static bool crashes(volatile uint8_t *byte, bool write_it)
{
    pid_t child = fork();
    if (child == 0) {
        signal(SIGSEGV, crash);
        signal(SIGBUS, crash);
        uint8_t seen = *byte;
        if (write_it)
            *byte = seen;
        _exit(0);
    }
    int status = 0;
    need(waitpid(child, &status, 0) == child && WIFEXITED(status), "a process for a trial of the pages is lost");
    return WEXITSTATUS(status) == CRASHED;
}

void check_the_pages(void)
{
    static const uint8_t bytes[3] = {1, 2, 3};
    about("the pages");
    for (enum slice slice = 0; slice < SLICES; slice++) {
        lend(slice, bytes, sizeof bytes);
        check(crashes(areas[slice] - 1, false), "the byte before area %d can be read", slice);
        check(crashes(areas[slice] + ROOM, false), "the byte after area %d can be read", slice);
        check(crashes(place(slice, sizeof bytes), true), "what is lent in area %d can be written", slice);
        check(!crashes(place(slice, sizeof bytes), false), "what is lent in area %d cannot be read", slice);
    }
}
