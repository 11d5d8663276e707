/* Checks that are counted; the first one that is wrong ends the test. */
#include "calls.h"

#include <stdarg.h>
#include <stdio.h>
#include <stdlib.h>

static unsigned long made;
static const char *words_of_the_subject = "nothing yet";

void about(const char *words)
{
    words_of_the_subject = words;
}

const char *subject(void)
{
    return words_of_the_subject;
}

void check(bool right, const char *format, ...)
{
    made++;
    if (right)
        return;
    printf("calls.c: wrong: %s: ", words_of_the_subject);
    va_list arguments;
    va_start(arguments, format);
    vprintf(format, arguments);
    va_end(arguments);
    printf("\n");
    exit(1);
}

void need(bool there, const char *words)
{
    if (there)
        return;
    printf("calls.c: the test cannot go on: %s\n", words);
    exit(1);
}

unsigned long checks_made(void)
{
    return made;
}
