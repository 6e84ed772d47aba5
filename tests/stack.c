/* Measures how deep the stack goes below a call of the library: every call, in a mix that reaches every stage, runs on
 * a painted stack of its own. It prints the bytes, and fails if they are more than include/gurtheddu.h says. */
#define _XOPEN_SOURCE 700
#include <stdio.h>
#include <string.h>
#include <ucontext.h>

#include "gurtheddu.h"

enum { STACK = 65536, PAINT = 0xa5 };

static unsigned char stack[STACK];
static unsigned char *top; /* where the caller's frame ends, about */
static ucontext_t back, painted;
static struct gurtheddu deck;
static uint32_t list[GURTHEDDU_LIST], seen;

static uint32_t state = 1;
static uint32_t any(uint32_t below)
{
    state = state * 1664525u + 1013904223u;
    return (state >> 8) % below;
}

static void mix(void)
{
    unsigned char here = 0;
    uint32_t made, steps, filled, i, x, y;
    top = &here;
    seen |= gd_reset(&deck);
    for (i = 0; i < 200000; i++) {
        x = any(3000), y = any(3000);
        switch (any(8)) {
        case 0: case 1: seen |= gd_update_start(&deck, any(9), any(300), x, y, any(11)); break;
        case 2: case 3: case 4: seen |= gd_update_run(&deck, any(9), any(6), &made); break;
        case 5: case 6: seen |= gd_query_run(&deck, any(5), any(12), &made); break;
        default:
            seen |= gd_query_start(&deck, any(5), any(3), 0, 0, x, y, any(512));
            seen |= gd_read(&deck, any(5), list, any(GURTHEDDU_LIST + 1), &steps, &filled);
            seen |= gd_collect(&deck, any(5), list, any(GURTHEDDU_LIST + 1), &steps, &filled);
            seen |= gd_rewind(&deck);
        }
    }
}

static long used(void)
{
    long low = 0;
    while (low < STACK && stack[low] == PAINT) low++;
    return (long)(top - (stack + low));
}

int main(void)
{
    mix(); /* on the ordinary stack first: whatever is resolved at a first call has been resolved then */
    memset(stack, PAINT, STACK);
    if (getcontext(&painted) != 0) return 2;
    painted.uc_stack.ss_sp = stack;
    painted.uc_stack.ss_size = STACK;
    painted.uc_link = &back;
    makecontext(&painted, mix, 0);
    if (swapcontext(&back, &painted) != 0) return 2;
    printf("%ld bytes of stack\n", used());
    return used() <= GURTHEDDU_STACK && seen != 0 ? 0 : 1;
}
