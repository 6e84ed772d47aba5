/* Holds the list of every question against a list made by going through all carriers: questions [SEED] [DECKS]
 *
 * A deck is made of reports from a fresh one, each carried out to its end, so that it is at rest. The carriers stand
 * around a rectangle: on its sides, one beside them, a radius away, on the corner circles and next to them, on the
 * edges of the deck. Then queries ask T, W and Q of that rectangle and of others, several at a time, their steps in any
 * order.
 *
 * Each list has to have the carriers, and no others, whose last reported place satisfies the question, with their
 * marks, by the words of the rules and with signed numbers of 64 bits; and each query the steps of its cells: one for
 * each cell walked, found by looking at all 256, and one for each bucket and each tuple in them.
 *
 * SEED (1) and DECKS (100,000) decide everything. It ends with what was compared and status 0, or with the first
 * difference and status 1. tools/compare-questions builds and runs it. */
#include <inttypes.h>
#include <stdio.h>
#include <stdlib.h>
#include <string.h>

#include "gurtheddu.h"

enum { EDGE = GURTHEDDU_COORDINATES - 1, SIDE = 1024, CELLS_IN_ROW = 16, RADIUS_MAX = 511 };

struct question {
    uint32_t kind, x0, y0, x1, y1, radius;
};

struct carrier {
    uint32_t oid, x, y, mark; /* in the order of an entry */
};

static struct gurtheddu deck;
static struct carrier carriers[GURTHEDDU_CARRIERS];
static uint32_t known;
static uint64_t deck_number, asked[3], listed[3], all_steps;

/* ---- chance ---- */

static uint64_t state;

static uint64_t chance(void)
{
    uint64_t z = (state += UINT64_C(0x9e3779b97f4a7c15));
    z = (z ^ (z >> 30)) * UINT64_C(0xbf58476d1ce4e5b9);
    z = (z ^ (z >> 27)) * UINT64_C(0x94d049bb133111eb);
    return z ^ (z >> 31);
}

static uint32_t below(uint32_t n)
{
    return (uint32_t)(chance() % n);
}

static int64_t from_to(int64_t low, int64_t high)
{
    return low + (int64_t)(chance() % (uint64_t)(high - low + 1));
}

static uint32_t on_deck(int64_t at)
{
    return (uint32_t)(at < 0 ? 0 : at > EDGE ? EDGE : at);
}

/* ---- what is said where two things differ ---- */

static void stop(const char *what, const struct question *q, uint64_t have, uint64_t want)
{
    uint32_t i;
    printf("deck %" PRIu64 ": %s: %" PRIu64 ", wanted %" PRIu64 "\n", deck_number, what, have, want);
    if (q != NULL)
        printf("question %c from (%" PRIu32 ", %" PRIu32 ") to (%" PRIu32 ", %" PRIu32 "), radius %" PRIu32 "\n",
               "TWQ"[q->kind], q->x0, q->y0, q->x1, q->y1, q->radius);
    for (i = 0; i < known; i++)
        printf("%" PRIu32 " at (%" PRIu32 ", %" PRIu32 ")\n", carriers[i].oid, carriers[i].x, carriers[i].y);
    exit(1);
}

/* ---- the rules ---- */

/* How far a coordinate lies from the nearest one from low to high. */
static int64_t away(int64_t at, int64_t low, int64_t high)
{
    return at < low ? low - at : at > high ? at - high : 0;
}

/* Whether a place satisfies a question. */
static int satisfies(const struct question *q, const struct carrier *c)
{
    int64_t x = c->x, y = c->y, r = q->radius, dx = away(x, q->x0, q->x1), dy = away(y, q->y0, q->y1);
    switch (q->kind) {
    case GURTHEDDU_TOUCHING: return dx * dx + dy * dy <= r * r;
    case GURTHEDDU_WITHIN: return x - q->x0 >= r && q->x1 - x >= r && y - q->y0 >= r && q->y1 - y >= r;
    default: return dx == 0 && dy == 0;
    }
}

/* Whether a cell is walked: whether it has a point of the rectangle, for T of the rectangle grown by the radius. */
static int is_walked(const struct question *q, uint32_t cell)
{
    int64_t r = q->kind == GURTHEDDU_TOUCHING ? q->radius : 0;
    int64_t left = cell % CELLS_IN_ROW * SIDE, low = cell / CELLS_IN_ROW * SIDE;
    return left <= q->x1 + r && q->x0 - r <= left + SIDE - 1 && low <= q->y1 + r && q->y0 - r <= low + SIDE - 1;
}

/* The steps of a query on a deck at rest: the cells walked, and the buckets and tuples in them. */
static uint32_t steps_of(const struct question *q)
{
    uint32_t cell, bucket, steps = 0;
    for (cell = 0; cell < CELLS_IN_ROW * CELLS_IN_ROW; cell++) {
        if (!is_walked(q, cell)) continue;
        steps++;
        for (bucket = deck.words[GURTHEDDU_FIRST + cell]; bucket != GURTHEDDU_NO_BUCKET;
             bucket = deck.words[GURTHEDDU_NEXT + bucket])
            steps += 1 + deck.words[GURTHEDDU_COUNT + bucket];
    }
    return steps;
}

/* ---- decks ---- */

/* A coordinate around an interval: beside one of its ends, a radius away from it, inside, or anywhere. */
static uint32_t around(uint32_t low, uint32_t high, uint32_t radius)
{
    int64_t end = below(2) ? low : high, off = from_to(-1, 1);
    switch (below(6)) {
    case 0: return on_deck(end + off);
    case 1: return on_deck(end + radius + off);
    case 2: return on_deck(end - radius + off);
    case 3: return on_deck(from_to(low, high));
    case 4: return on_deck(end + from_to(-2 * SIDE, 2 * SIDE));
    default: return below(GURTHEDDU_COORDINATES);
    }
}

static uint32_t root(uint32_t n)
{
    uint32_t r = 0;
    while ((r + 1) * (r + 1) <= n) r++;
    return r;
}

/* A place for a carrier: around the rectangle, or at a corner's circle, on it, one inside or one outside. */
static void place(const struct question *q, uint32_t *x, uint32_t *y)
{
    if (below(3) == 0) {
        uint32_t dx = below(q->radius + 1), dy = root(q->radius * q->radius - dx * dx);
        int right = (int)below(2), up = (int)below(2);
        int64_t off = from_to(-1, 1);
        *x = on_deck(right ? (int64_t)q->x1 + dx : (int64_t)q->x0 - dx);
        *y = on_deck(up ? (int64_t)q->y1 + dy + off : (int64_t)q->y0 - dy - off);
        return;
    }
    *x = around(q->x0, q->x1, q->radius);
    *y = around(q->y0, q->y1, q->radius);
}

/* A side of a rectangle: a point, short, up to some cells, or up to the deck's edge. */
static void side(uint32_t *low, uint32_t *high)
{
    static const uint32_t most[] = {0, 1, 40, 1100, 5000, EDGE};
    uint32_t length = below(most[below(6)] + 1);
    *low = below(5) == 0 ? 0 : below(GURTHEDDU_COORDINATES);
    if (below(5) == 0) *low = EDGE - (length > EDGE ? EDGE : length);
    *high = on_deck((int64_t)*low + length);
}

static void any_question(struct question *q)
{
    static const uint32_t radii[] = {0, 1, 5, RADIUS_MAX - 1, RADIUS_MAX};
    q->kind = below(3);
    side(&q->x0, &q->x1);
    side(&q->y0, &q->y1);
    q->radius = below(2) ? radii[below(5)] : below(RADIUS_MAX + 1);
}

/* Reports a carrier and carries the report out. */
static void report(struct carrier *c, uint32_t lane)
{
    uint32_t made, number = gd_update_start(&deck, lane, c->oid, c->x, c->y, c->mark);
    if (number != 0) stop("a report was refused", NULL, number, 0);
    number = gd_update_run(&deck, lane, UINT32_MAX, &made);
    if (number != GURTHEDDU_FINISHED) stop("a report did not end", NULL, number, GURTHEDDU_FINISHED);
}

/* The same to a place around a rectangle. */
static void move(struct carrier *c, const struct question *q)
{
    place(q, &c->x, &c->y);
    c->mark = below(10);
    report(c, below(GURTHEDDU_UPDATE_LANES));
}

static int is_known(uint32_t oid)
{
    uint32_t i;
    for (i = 0; i < known; i++)
        if (carriers[i].oid == oid) return 1;
    return 0;
}

/* Carriers with places around a rectangle; some are reported again later. */
static void fill(const struct question *q)
{
    uint32_t many = below(16) == 0 ? below(GURTHEDDU_CARRIERS + 1) : below(13), again, i;
    gd_reset(&deck);
    for (known = 0; known < many; known++) {
        struct carrier *c = &carriers[known];
        do c->oid = below(2) ? 1 + below(1000) : (uint32_t)chance() | 1;
        while (is_known(c->oid));
        move(c, q);
    }
    again = known == 0 ? 0 : below(known + 1);
    for (i = 0; i < again; i++) {
        move(&carriers[below(known)], q);
    }
}

/* ---- queries ---- */

static int by_oid(const void *a, const void *b)
{
    uint32_t i = ((const struct carrier *)a)->oid, j = ((const struct carrier *)b)->oid;
    return (i > j) - (i < j);
}

/* Collects a finished query and holds its list and its steps against the rules. */
static void compare(const struct question *q, uint32_t lane)
{
    static uint32_t list[GURTHEDDU_LIST];
    static struct carrier have[GURTHEDDU_CARRIERS], want[GURTHEDDU_CARRIERS];
    uint32_t steps, filled, count, wanted = 0, i, number;
    number = gd_collect(&deck, lane, list, GURTHEDDU_LIST, &steps, &filled);
    if (number != 0) stop("a collection was refused", q, number, 0);
    count = filled / GURTHEDDU_ENTRY;
    for (i = 0; i < count; i++) memcpy(&have[i], &list[GURTHEDDU_ENTRY * i], sizeof have[i]);
    for (i = 0; i < known; i++)
        if (satisfies(q, &carriers[i])) want[wanted++] = carriers[i];
    if (count != wanted) stop("entries", q, count, wanted);
    qsort(have, count, sizeof have[0], by_oid);
    qsort(want, wanted, sizeof want[0], by_oid);
    for (i = 0; i < count; i++) {
        if (have[i].oid != want[i].oid) stop("a carrier of the list", q, have[i].oid, want[i].oid);
        if (have[i].x != want[i].x) stop("x of a carrier of the list", q, have[i].x, want[i].x);
        if (have[i].y != want[i].y) stop("y of a carrier of the list", q, have[i].y, want[i].y);
        if (have[i].mark != want[i].mark) stop("mark of a carrier of the list", q, have[i].mark, want[i].mark);
    }
    if (steps != steps_of(q)) stop("steps", q, steps, steps_of(q));
    asked[q->kind]++;
    listed[q->kind] += count;
    all_steps += steps;
}

/* Asks a question in each of so many lanes, and steps them in any order until all have finished. */
static void ask(const struct question *questions, uint32_t lanes)
{
    uint32_t lane, made, number, left = lanes, finished[GURTHEDDU_QUERY_LANES] = {0};
    for (lane = 0; lane < lanes; lane++) {
        const struct question *q = &questions[lane];
        number = gd_query_start(&deck, lane, q->kind, q->x0, q->y0, q->x1, q->y1, q->radius);
        if (number != 0) stop("a query was refused", q, number, 0);
    }
    while (left > 0) {
        lane = below(lanes);
        if (finished[lane]) continue;
        number = gd_query_run(&deck, lane, 1 + below(200), &made);
        if (number != 0 && number != GURTHEDDU_FINISHED) stop("a step", &questions[lane], number, 0);
        if (number == 0) continue;
        finished[lane] = 1;
        left--;
        compare(&questions[lane], lane);
    }
}

int main(int argc, char **argv)
{
    uint64_t decks = argc > 2 ? strtoull(argv[2], NULL, 10) : 100000;
    state = argc > 1 ? strtoull(argv[1], NULL, 10) : 1;
    for (deck_number = 1; deck_number <= decks; deck_number++) {
        struct question questions[GURTHEDDU_QUERY_LANES];
        uint32_t lane;
        any_question(&questions[0]);
        for (lane = 1; lane < 3; lane++) {
            questions[lane] = questions[0];
            questions[lane].kind = (questions[0].kind + lane) % 3;
        }
        any_question(&questions[3]);
        fill(&questions[0]);
        ask(questions, GURTHEDDU_QUERY_LANES);
    }
    printf("%" PRIu64 " decks: T %" PRIu64 " times with %" PRIu64 " entries, W %" PRIu64 " with %" PRIu64 ", Q %" PRIu64
           " with %" PRIu64 "; %" PRIu64 " steps; every list and every step count as by hand\n",
           decks, asked[0], listed[0], asked[1], listed[1], asked[2], listed[2], all_steps);
    return 0;
}
