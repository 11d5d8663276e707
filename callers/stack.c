/* How much stack the calls take: each runs in a thread of its own, on a stack that is coloured before. */
#define _GNU_SOURCE
#include "calls.h"

#include <pthread.h>
#include <string.h>
#include <sys/mman.h>

/* What include/dronesickle.h asks for. AddressSanitizer puts its own memset and memcpy in the place of the C library's,
 * and they take more. */
#ifdef __SANITIZE_ADDRESS__
enum { STACK_OF_A_BUILD = 256 * 1024, STACK_OF_OTHERS = 256 * 1024 };
#else
enum { STACK_OF_A_BUILD = 48 * 1024, STACK_OF_OTHERS = 1024 };
#endif

enum { STACK = 1024 * 1024, COLOUR = 0xA5 };

/* The largest list there is, and its file. */
static const struct list *list;
static struct file file;

/* The lists of its sign. */
static uint8_t levels[DS_BYTES_OF_A_PLACE * DS_MOST_CODES];
static uint8_t times[DS_BYTES_OF_A_PLACE * DS_MOST_CODES];

static void *nothing(void *unused)
{
    ds_length(0, 2, 1);
    return unused;
}

static void *build(void *unused)
{
    ds_build(list->run, list->run_len, list->ends, list->n, list->r, list->v, list->weights, list->weights_len,
             file.bytes, list->room);
    return unused;
}

static void *build_counted(void *unused)
{
    ds_build_counted(list->run, list->run_len, list->ends, list->n, list->r, list->v, list->weights, list->weights_len,
                     file.bytes, list->room);
    return unused;
}

static void *open_it(void *unused)
{
    ds_open(file.bytes, list->room);
    return unused;
}

static void *look_up(void *unused)
{
    ds_lookup(file.bytes, list->room, list->run, 2);
    return unused;
}

static void *show(void *unused)
{
    ds_show(file.bytes, list->room, 0);
    return unused;
}

static void *report(void *unused)
{
    ds_report(file.bytes, list->room, list->run, 2, 1250, 2, levels, sizeof levels, times, sizeof times);
    return unused;
}

static void *ask(void *unused)
{
    ds_ask(file.bytes, list->room, list->run, 2, 2, 1, levels, sizeof levels, times, sizeof times);
    return unused;
}

/* The bytes from the lowest one that is touched to the top of the stack. */
static size_t taken_by(void *(*call)(void *))
{
    uint8_t *stack = mmap(NULL, STACK, PROT_READ | PROT_WRITE, MAP_PRIVATE | MAP_ANONYMOUS, -1, 0);
    need(stack != MAP_FAILED, "there is no memory for a stack");
    memset(stack, COLOUR, STACK);
    pthread_attr_t attributes;
    pthread_t thread;
    need(pthread_attr_init(&attributes) == 0 && pthread_attr_setstack(&attributes, stack, STACK) == 0 &&
             pthread_create(&thread, &attributes, call, NULL) == 0 && pthread_join(thread, NULL) == 0,
         "no thread ran");
    pthread_attr_destroy(&attributes);
    size_t untouched = 0;
    while (untouched < STACK && stack[untouched] == COLOUR)
        untouched++;
    munmap(stack, STACK);
    return STACK - untouched;
}

static void expect_at_most(void *(*call)(void *), const char *name, size_t most)
{
    size_t before = taken_by(nothing);
    size_t after = taken_by(call);
    check(after <= before + most, "%s takes %zu bytes of stack, over %zu", name, after - before, most);
}

void try_stack(void)
{
    about("the stack");
    list = star(DS_MOST_CODES, 3, 1365);
    expect_at_most(build, "ds_build", STACK_OF_A_BUILD);
    expect_at_most(build_counted, "ds_build_counted", STACK_OF_A_BUILD);
    expect_at_most(open_it, "ds_open", STACK_OF_OTHERS);
    expect_at_most(look_up, "ds_lookup", STACK_OF_OTHERS);
    expect_at_most(show, "ds_show", STACK_OF_OTHERS);
    expect_at_most(report, "ds_report", STACK_OF_OTHERS);
    expect_at_most(ask, "ds_ask", STACK_OF_OTHERS);
    check(ds_open(file.bytes, list->room).n == DS_MOST_CODES, "the file of the thread does not open");
    check(times[0] == 2, "the report of the thread was not accepted");
}
