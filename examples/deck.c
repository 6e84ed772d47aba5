/* A whole program with the library: three carriers report their places, one of them moves while a sweep is under way,
 * and the list is printed. README.md compiles it with one line; examples/deck.out is what it prints. */
#include <stdio.h>
#include <stdlib.h>

#include "gurtheddu.h"

static struct gurtheddu deck;

/* What must not happen in this program. */
static void expect(uint32_t number, uint32_t wanted, const char *what)
{
    if (number != wanted) {
        fprintf(stderr, "%s: number %u\n", what, (unsigned)number);
        exit(1);
    }
}

/* One report from its start to its end. Nobody else steps in between, so it is never held. */
static void report(uint32_t lane, uint32_t carrier, uint32_t x, uint32_t y, uint32_t mark)
{
    uint32_t made;
    expect(gd_update_start(&deck, lane, carrier, x, y, mark), GURTHEDDU_ACCEPTED, "report");
    expect(gd_update_run(&deck, lane, 100, &made), GURTHEDDU_FINISHED, "report");
    printf("carrier %u is at (%u, %u) after %u steps\n", (unsigned)carrier, (unsigned)x, (unsigned)y, (unsigned)made);
}

/* A sweep in lane 0 and a report in lane 0 in turns, one step each, until both have ended. Either may be held by the
 * other for a while, and a report may go back to its first stage; both then go on. */
static void take_turns(void)
{
    uint32_t sweep = GURTHEDDU_MOVED_ON, update = GURTHEDDU_MOVED_ON;
    while (sweep != GURTHEDDU_FINISHED || update != GURTHEDDU_FINISHED) {
        if (sweep != GURTHEDDU_FINISHED) {
            sweep = gd_query_step(&deck, 0);
            if (sweep == GURTHEDDU_HELD) puts("the sweep waits");
            if (sweep > 0 && sweep < GURTHEDDU_HELD) expect(sweep, GURTHEDDU_MOVED_ON, "sweep step");
        }
        if (update != GURTHEDDU_FINISHED) {
            update = gd_update_step(&deck, 0);
            if (update == GURTHEDDU_HELD) puts("the report waits");
            if (update > 0 && update < GURTHEDDU_HELD) expect(update, GURTHEDDU_MOVED_ON, "report step");
        }
    }
}

int main(void)
{
    uint32_t list[GURTHEDDU_LIST], steps, filled, i;

    expect(gd_reset(&deck), GURTHEDDU_ACCEPTED, "reset");
    report(0, 7, 100, 100, 1);
    report(0, 19, 2100, 100, 2);
    report(0, 30, 5000, 5000, 0);

    /* The sweep has read the first cell when carrier 19 begins to move there from a cell that it has not read. */
    expect(gd_query_start(&deck, 0, GURTHEDDU_CENTRE, 0, 0, 3071, 1023, 0), GURTHEDDU_ACCEPTED, "sweep");
    for (i = 0; i < 3; i++) expect(gd_query_step(&deck, 0), GURTHEDDU_MOVED_ON, "sweep step");
    expect(gd_update_start(&deck, 0, 19, 200, 100, 3), GURTHEDDU_ACCEPTED, "report");
    take_turns();

    expect(gd_collect(&deck, 0, list, GURTHEDDU_LIST, &steps, &filled), GURTHEDDU_ACCEPTED, "collection");
    printf("the sweep had %u steps and lists %u carriers\n", (unsigned)steps, (unsigned)(filled / GURTHEDDU_ENTRY));
    for (i = 0; i < filled; i += GURTHEDDU_ENTRY)
        printf("carrier %u at (%u, %u) with mark %u\n", (unsigned)list[i], (unsigned)list[i + 1], (unsigned)list[i + 2],
               (unsigned)list[i + 3]);
    return 0;
}
