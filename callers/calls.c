/* The calls of include/dronesickle.h from C: document 01's cases, every refusal at its places, codes that wait, files
 * from elsewhere, round trips, signs. Everything is tried twice, with what is lent against the guarded page after it
 * and against the one before it. The first check that is wrong ends the test with words and status 1. */
#include "calls.h"

#include <stdio.h>

static void try_all(enum side side)
{
    lend_from(side);
    check_the_pages();
    try_cases();
    try_building();
    try_waiting();
    try_opening();
    try_looking_up();
    try_showing();
    try_round_trips();
    try_sign();
    try_sign_lists();
    try_sign_refusals();
    try_sign_order();
    try_sign_traces();
}

int main(void)
{
    try_layout();
    try_all(AGAINST_THE_PAGE_AFTER);
    try_all(AGAINST_THE_PAGE_BEFORE);
    try_stack();
    printf("calls.c: %lu checks, 0 wrong\n", checks_made());
    return 0;
}
