/* Gurtheddu: the verified index of a carrier deck, for programs in C99 or C++.
 *
 * It answers which carriers stand in a rectangle, touch it or lie within it while they go on moving. Reports of new
 * positions (updates) and sweeps over a rectangle (queries) take turns, one small step each. README.md has the rules in
 * short, docs/SCOPE.md in full; docs/THEOREMS.md says what is proved.
 *
 * Build the archive with `tools/library`, and link it: cc -Iinclude program.c target/staticlib/libgurtheddu.a
 *
 * A deck is one `struct gurtheddu`, which the caller keeps wherever it likes: 76,312 bytes without a pointer. It can be
 * copied by assignment, saved and loaded as its bytes, and compared with memcmp. The library keeps nothing of its own
 * and allocates nothing, so a program can have several decks.
 *
 * ONE CALL AT A TIME on one deck: no two threads, and no interrupt that calls in the middle of a call. Change nothing in
 * a deck between calls. If something is changed all the same, no call does anything undefined: where a call has to use a
 * number that cannot be right it answers 12 and changes nothing.
 *
 * A call that is refused (1 to 12, 30, 31, 32) or held (20) changes nothing in the deck.
 *
 * COST. Every call ends, and no loop of one is long: what is said 'at most' below counts the turns of its loops. How
 * many instructions and nanoseconds whole updates and queries take stands in README.md.
 *
 * STACK. A call needs at most GURTHEDDU_STACK bytes, its caller's frame not counted: measured by tests/stack.c, which
 * runs a mix of all calls on a painted stack of its own, and not proved.
 *
 * X86-64 ONLY: the Rattle kit, which proves the calls, compiles for nothing else. */
#ifndef GURTHEDDU_H
#define GURTHEDDU_H

#include <stddef.h>
#include <stdint.h>

/* ---- the numbers that a call gives (document 01's words) ---- */

enum gurtheddu_number {
    GURTHEDDU_ACCEPTED = 0,         /* a start, a reading, a clearing or a rewind was accepted */
    GURTHEDDU_MOVED_ON = 0,         /* a step was made, and there are more */
    GURTHEDDU_NO_SUCH_LANE = 1,     /* an update lane over 7, a query lane over 3 */
    GURTHEDDU_LANE_TAKEN = 2,       /* a start in a lane that is not idle */
    GURTHEDDU_LANE_IDLE = 3,        /* a step, a reading or a clearing in an idle lane */
    GURTHEDDU_NO_CARRIER = 4,       /* carrier number 0 */
    GURTHEDDU_OFF_THE_DECK = 5,     /* a coordinate over 16,383 */
    GURTHEDDU_CROSSED_CORNERS = 6,  /* x0 above x1, or y0 above y1 */
    GURTHEDDU_DECK_FULL = 7,        /* a new carrier where 256 are known */
    GURTHEDDU_CLOCK_SPENT = 8,      /* a start when 2,147,483,600 stamps have been drawn */
    GURTHEDDU_SWEEP_FINISHED = 9,   /* a step of a query that has finished */
    GURTHEDDU_SWEEP_UNFINISHED = 10, /* a reading or a clearing of one that has not */
    GURTHEDDU_SHORT_LIST = 11,      /* fewer than four numbers lent for each entry */
    GURTHEDDU_BROKEN_TABLES = 12,   /* a stored number cannot be right; never from a deck that nobody else wrote to */
    GURTHEDDU_HELD = 20,            /* something is in the way and nothing was changed: try again later */
    GURTHEDDU_WENT_BACK = 21,       /* an update begins again at its first stage: step on */
    GURTHEDDU_FINISHED = 22,        /* that was the last step */
    GURTHEDDU_DECK_IN_MOTION = 30,  /* a rewind while an update is under way or a query lane is not idle */
    GURTHEDDU_MARK_OVER = 31,       /* a mark over 9 */
    GURTHEDDU_RADIUS_OVER = 32      /* a radius over 511 */
};

/* ---- sizes ---- */

enum {
    GURTHEDDU_UPDATE_LANES = 8,
    GURTHEDDU_QUERY_LANES = 4,
    GURTHEDDU_CARRIERS = 256,       /* known at most */
    GURTHEDDU_COORDINATES = 16384,  /* x and y are below this, in tenths of a millimetre */
    GURTHEDDU_MARKS = 10,           /* the load mark of a carrier is below this */
    GURTHEDDU_ENTRY = 4,            /* numbers of an entry of a list: carrier, x, y, mark */
    GURTHEDDU_LIST = 1024,          /* numbers of a list of 256 entries: no list is longer */
    GURTHEDDU_STACK = 512           /* bytes of stack of a call, measured */
};

/* ---- the map of the words: where each table begins; docs/TABLES.md has what each holds, and its ranges ---- */

enum {
    GURTHEDDU_CELLS = 0,            /* 256: the lock of each cell; 0 is free, else 1 + the update lane that holds it */
    GURTHEDDU_FIRST = 256,          /* 256: the first bucket of each cell; 512 is none */
    GURTHEDDU_COUNT = 512,          /* 512: slots of each bucket in use, 0 to 4 */
    GURTHEDDU_NEXT = 1024,          /* 512: the bucket after each bucket; 512 is none */
    GURTHEDDU_READERS = 1536,       /* 512: queries that stand in each bucket, 0 to 4 */
    GURTHEDDU_TUPLES = 2048,        /* 4 columns of 2,048; slot s of bucket b is at 4 * b + s: the carriers, */
    GURTHEDDU_TUPLE_XS = 2048,      /*     x at GURTHEDDU_TUPLES + GURTHEDDU_TUPLE_XS, */
    GURTHEDDU_TUPLE_YS = 4096,      /*     y at GURTHEDDU_TUPLES + GURTHEDDU_TUPLE_YS, */
    GURTHEDDU_TUPLE_TAGS = 6144,    /*     marks at GURTHEDDU_TUPLES + GURTHEDDU_TUPLE_TAGS */
    GURTHEDDU_INDEX = 10240,        /* 4 columns of 512, one entry for each known carrier: the carriers (0 is none), */
    GURTHEDDU_INDEX_LOCKS = 512,    /*     locks at GURTHEDDU_INDEX + GURTHEDDU_INDEX_LOCKS, */
    GURTHEDDU_INDEX_CURRENT = 1024, /*     current places, 2,048 * cell + 4 * bucket + slot; 524,288 is none, */
    GURTHEDDU_INDEX_PREVIOUS = 1536, /*    former places */
    GURTHEDDU_HITS = 12288,         /* 4 columns of 1,024; the list of query lane q is from 256 * q: the carriers, */
    GURTHEDDU_HIT_XS = 1024,        /*     x at GURTHEDDU_HITS + GURTHEDDU_HIT_XS, */
    GURTHEDDU_HIT_YS = 2048,        /*     y at GURTHEDDU_HITS + GURTHEDDU_HIT_YS, */
    GURTHEDDU_HIT_TAGS = 3072,      /*     marks at GURTHEDDU_HITS + GURTHEDDU_HIT_TAGS */
    GURTHEDDU_CLOCK = 16384,        /* 1: the last stamp drawn */
    GURTHEDDU_POOL = 16385,         /* 513: the free buckets, a stack, and its height in the last number */
    GURTHEDDU_WORDS = 16898,        /* the length of all */
    GURTHEDDU_TIMES = 2048,         /* stamps, one for each slot, at 4 * b + s: above 0 current, below 0 former */
    GURTHEDDU_NO_BUCKET = 512,
    GURTHEDDU_NO_PLACE = 524288
};

/* ---- the lanes: numbers of one lane, in order. What a stage does not carry is 0. ---- */

enum {
    GURTHEDDU_U_CARRIER, GURTHEDDU_U_X, GURTHEDDU_U_Y,
    GURTHEDDU_U_TAG,                /* the mark reported */
    GURTHEDDU_U_STAGE,              /* 0 idle, else the stage that the next step makes, 1 to 14 */
    GURTHEDDU_U_CELL, GURTHEDDU_U_BUCKET, GURTHEDDU_U_SLOT, /* a place: the former one (stages 2 to 7, 13), the new one */
    GURTHEDDU_U_MOVED,              /* the carrier whose tuple fills the gap (stages 4 to 7) */
    GURTHEDDU_U_UNLINKED,           /* the bucket to return (stage 6) */
    GURTHEDDU_UPDATER               /* how many numbers a lane has: 10 */
};

enum {
    GURTHEDDU_Q_KIND,               /* the kind of question: 0 touching, 1 within, 2 centre */
    GURTHEDDU_Q_X0, GURTHEDDU_Q_Y0, GURTHEDDU_Q_X1, GURTHEDDU_Q_Y1,
    GURTHEDDU_Q_RADIUS,             /* of touching and within */
    GURTHEDDU_Q_STAMP,              /* drawn at the start */
    GURTHEDDU_Q_HITS,               /* entries of the list so far */
    GURTHEDDU_Q_STEPS,              /* steps made so far */
    GURTHEDDU_Q_STAGE,              /* 0 idle, 1 to enter a cell, 2 in a bucket, 3 finished */
    GURTHEDDU_Q_CELL, GURTHEDDU_Q_BUCKET,
    GURTHEDDU_Q_LEFT,               /* slots of the bucket that are still to be read */
    GURTHEDDU_QUERY                 /* how many numbers a lane has: 13 */
};

/* ---- what a query asks about its rectangle ---- */

enum gurtheddu_kind {
    GURTHEDDU_TOUCHING = 0,         /* the centre lies at most the radius from the rectangle (T) */
    GURTHEDDU_WITHIN = 1,           /* the centre lies at least the radius inside each side (W) */
    GURTHEDDU_CENTRE = 2            /* the centre lies in the rectangle; its radius is not looked at (Q) */
};

/* ---- a deck ---- */

struct gurtheddu {
    uint32_t words[GURTHEDDU_WORDS];
    int32_t times[GURTHEDDU_TIMES];
    uint32_t updaters[GURTHEDDU_UPDATE_LANES * GURTHEDDU_UPDATER];
    uint32_t queries[GURTHEDDU_QUERY_LANES * GURTHEDDU_QUERY];
};

/* ---- what the archive exports. Use the calls on a whole deck, below: they cannot mix the arrays up. ---- */

#ifdef __cplusplus
extern "C" {
#endif

/* No pointer may be null, each leads to as many numbers as is said, and no two of them overlap. */
uint32_t gurtheddu_reset(uint32_t *updaters, uint32_t *queries, uint32_t *words, int32_t *times);
uint32_t gurtheddu_update_start(uint32_t *updaters, uint32_t lane, uint32_t oid, uint32_t x, uint32_t y, uint32_t tag,
                                uint32_t *words, const int32_t *times);
uint32_t gurtheddu_update_run(uint32_t *updaters, uint32_t lane, uint32_t budget, uint32_t *made,
                              uint32_t *words, int32_t *times);
uint32_t gurtheddu_query_start(uint32_t *queries, uint32_t lane, uint32_t kind, uint32_t x0, uint32_t y0, uint32_t x1,
                               uint32_t y1, uint32_t radius, uint32_t *words, const int32_t *times);
uint32_t gurtheddu_query_run(uint32_t *queries, uint32_t lane, uint32_t budget, uint32_t *made,
                             uint32_t *words, const int32_t *times);
uint32_t gurtheddu_read(const uint32_t *queries, uint32_t lane, uint32_t *out, size_t out_len, uint32_t *steps,
                        uint32_t *filled, const uint32_t *words, const int32_t *times);
uint32_t gurtheddu_clear(uint32_t *queries, uint32_t lane, const uint32_t *words, const int32_t *times);
uint32_t gurtheddu_rewind(const uint32_t *updaters, const uint32_t *queries, uint32_t *words, int32_t *times);

#ifdef __cplusplus
}
#endif

/* ---- the calls on a deck ---- */

/* Makes a fresh deck of whatever was there: every deck begins so. Gives 0.
 * Writes all 19,078 numbers. */
static inline uint32_t gd_reset(struct gurtheddu *deck)
{
    return gurtheddu_reset(deck->updaters, deck->queries, deck->words, deck->times);
}

/* Starts an update in a lane, 0 to 7: the carrier, any number but 0, is now at (x, y) and has this
 * mark, 0 to 9. It counts from its last step on. Gives 0, or 1, 2, 4, 5, 31, 7, 8, 12.
 * At most 512 turns to find the carrier, and 512 to count the known ones where it is new. */
static inline uint32_t gd_update_start(struct gurtheddu *deck, uint32_t lane, uint32_t carrier, uint32_t x, uint32_t y,
                                       uint32_t mark)
{
    return gurtheddu_update_start(deck->updaters, lane, carrier, x, y, mark, deck->words, deck->times);
}

/* Makes up to `budget` steps of the update in a lane, ended by the first number that is not 0, and gives the last
 * number: 0, 20, 21, 22, or 1, 3, 12. `made` is the number of steps that were made; a step that was refused or held is
 * none. An update that nobody disturbs has 3 to 14 steps.
 * Each step at most two look-ups of a carrier, of 512 turns each. */
static inline uint32_t gd_update_run(struct gurtheddu *deck, uint32_t lane, uint32_t budget, uint32_t *made)
{
    return gurtheddu_update_run(deck->updaters, lane, budget, made, deck->words, deck->times);
}

/* Makes the next step of the update in a lane: a run of one. */
static inline uint32_t gd_update_step(struct gurtheddu *deck, uint32_t lane)
{
    uint32_t made = 0;
    return gd_update_run(deck, lane, 1, &made);
}

/* Starts a query in a lane, 0 to 3: which carriers satisfy a question about the rectangle from (x0, y0) to (x1, y1),
 * edges included? `kind` is one of enum gurtheddu_kind, and any other is 12; the radius is 0 to 511.
 * Gives 0, or 1, 2, 5, 6, 32, 8, 12.
 * No loop. */
static inline uint32_t gd_query_start(struct gurtheddu *deck, uint32_t lane, uint32_t kind, uint32_t x0, uint32_t y0,
                                      uint32_t x1, uint32_t y1, uint32_t radius)
{
    return gurtheddu_query_start(deck->queries, lane, kind, x0, y0, x1, y1, radius, deck->words, deck->times);
}

/* Makes up to `budget` steps of the query in a lane, ended by the first number that is not 0, and gives the last number:
 * 0, 20, 22, or 1, 3, 9, 12. `made` is the number of steps that were made; a step that was refused or held is none.
 * A query has a step for each cell that the rectangle touches, for touching the rectangle grown by the radius, and one
 * for each tuple and each bucket found there.
 * Each step at most two passes over the list so far, of 256 turns each. */
static inline uint32_t gd_query_run(struct gurtheddu *deck, uint32_t lane, uint32_t budget, uint32_t *made)
{
    return gurtheddu_query_run(deck->queries, lane, budget, made, deck->words, deck->times);
}

/* Makes the next step of the query in a lane: a run of one. */
static inline uint32_t gd_query_step(struct gurtheddu *deck, uint32_t lane)
{
    uint32_t made = 0;
    return gd_query_run(deck, lane, 1, &made);
}

/* Writes the list of a finished query into `out`, which has `length` numbers: carrier, x, y, mark for each entry. Later
 * numbers are left alone. `filled` is how many numbers were written, `steps` how many steps the query had. Nothing in the
 * deck changes, so every reading gives the same until the lane is cleared, whatever calls come between.
 * Gives 0, or 1, 3, 10, 11, 12, and then `filled` and `steps` are 0.
 * At most 256 turns. */
static inline uint32_t gd_read(const struct gurtheddu *deck, uint32_t lane, uint32_t *out, size_t length,
                               uint32_t *steps, uint32_t *filled)
{
    return gurtheddu_read(deck->queries, lane, out, length, steps, filled, deck->words, deck->times);
}

/* Makes the lane of a finished query idle again. Gives 0, or 1, 3, 10, 12.
 * No loop. */
static inline uint32_t gd_clear(struct gurtheddu *deck, uint32_t lane)
{
    return gurtheddu_clear(deck->queries, lane, deck->words, deck->times);
}

/* Collects the list of a finished query: a reading and, if it is accepted, the clearing of its lane. Gives what the
 * reading gives; if that is not 0, nothing is cleared. */
static inline uint32_t gd_collect(struct gurtheddu *deck, uint32_t lane, uint32_t *out, size_t length, uint32_t *steps,
                                  uint32_t *filled)
{
    uint32_t number = gd_read(deck, lane, out, length, steps, filled);
    return number != 0 ? number : gd_clear(deck, lane);
}

/* Winds the clock back: a stamp above 0 becomes 1, one below 0 becomes -1, a clock above 1 becomes 1. For a deck whose
 * clock is spent (8) or soon will be; queries started later list what they would have listed without it.
 * Gives 0, or 12 where a lane's stage number is none, or 30 unless every lane is idle: a finished query is to be cleared
 * first.
 * At most 2,048 turns for the stamps, and two for each lane. */
static inline uint32_t gd_rewind(struct gurtheddu *deck)
{
    return gurtheddu_rewind(deck->updaters, deck->queries, deck->words, deck->times);
}

#endif
