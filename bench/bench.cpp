// Whole updates and whole queries: the library, the twin by hand, and boost's R-tree where it is installed.
//
//   bench time [ROUNDS] [MOVES]   nanoseconds of thread CPU time, engines in turn in each round: a line for each engine
//                                 and operation, with the median and the least of the rounds
//   bench count ENGINE OPERATION  the same operations a few times, for callgrind: what it is to count is `measured`
//
// ENGINE: run, step, twin, boost, none. OPERATION: update, 3000, 8000, whole.
// A load: 256 carriers all over the deck, moves of up to 400 in x and in y. An update goes from its start to its end; a
// query from its start to its collection, over a square of side 3000 or 8000, or over the whole deck.
#include <algorithm>
#include <cstdio>
#include <cstdlib>
#include <cstring>
#include <ctime>
#include <random>
#include <string>
#include <vector>

#include "gurtheddu.h"

#if __has_include(<boost/geometry/index/rtree.hpp>)
#include <boost/geometry.hpp>
#include <boost/geometry/index/rtree.hpp>
#define HAVE_BOOST 1
#endif

extern "C" {
struct Twin;
Twin *twin_new();
uint32_t twin_reset(Twin *);
uint32_t twin_update_start(Twin *, uint32_t lane, uint32_t oid, uint32_t x, uint32_t y, uint32_t tag);
uint32_t twin_update_step(Twin *, uint32_t lane);
uint32_t twin_query_start(Twin *, uint32_t lane, uint32_t x0, uint32_t y0, uint32_t x1, uint32_t y1);
uint32_t twin_query_step(Twin *, uint32_t lane);
uint32_t twin_collect(Twin *, uint32_t lane, uint32_t *out, size_t length, uint32_t *steps, size_t *filled);
size_t twin_dump(const Twin *, uint32_t *out);
}

struct Move { uint32_t carrier, x, y; };
struct Square { uint32_t x0, y0, x1, y1; };
struct List { uint32_t out[GURTHEDDU_LIST], steps, filled; };

static void must(bool right)
{
    if (!right) {
        std::fputs("bench: an unexpected answer\n", stderr);
        std::abort();
    }
}

// ---- engines: reset, update, query

struct LibraryRun { // a run of steps under one call
    gurtheddu deck;
    void reset() { must(gd_reset(&deck) == 0); }
    void update(const Move &m)
    {
        uint32_t made;
        must(gd_update_start(&deck, 0, m.carrier, m.x, m.y, m.carrier % 10) == 0);
        must(gd_update_run(&deck, 0, 1000000, &made) == GURTHEDDU_FINISHED);
    }
    void query(const Square &s, List &l)
    {
        uint32_t made;
        must(gd_query_start(&deck, 0, GURTHEDDU_CENTRE, s.x0, s.y0, s.x1, s.y1, 0) == 0);
        must(gd_query_run(&deck, 0, 1000000, &made) == GURTHEDDU_FINISHED);
        must(gd_collect(&deck, 0, l.out, GURTHEDDU_LIST, &l.steps, &l.filled) == 0);
    }
};

struct LibraryStep { // a step under each call
    gurtheddu deck;
    void reset() { must(gd_reset(&deck) == 0); }
    void update(const Move &m)
    {
        uint32_t number;
        must(gd_update_start(&deck, 0, m.carrier, m.x, m.y, m.carrier % 10) == 0);
        do number = gd_update_step(&deck, 0);
        while (number == 0);
        must(number == GURTHEDDU_FINISHED);
    }
    void query(const Square &s, List &l)
    {
        uint32_t number;
        must(gd_query_start(&deck, 0, GURTHEDDU_CENTRE, s.x0, s.y0, s.x1, s.y1, 0) == 0);
        do number = gd_query_step(&deck, 0);
        while (number == 0);
        must(number == GURTHEDDU_FINISHED);
        must(gd_collect(&deck, 0, l.out, GURTHEDDU_LIST, &l.steps, &l.filled) == 0);
    }
};

struct TwinStep { // the twin, a step under each call
    Twin *deck = twin_new();
    void reset() { twin_reset(deck); }
    void update(const Move &m)
    {
        uint32_t number;
        must(twin_update_start(deck, 0, m.carrier, m.x, m.y, m.carrier % 10) == 0);
        do number = twin_update_step(deck, 0);
        while (number == 0);
        must(number == GURTHEDDU_FINISHED);
    }
    void query(const Square &s, List &l)
    {
        uint32_t number;
        size_t filled;
        must(twin_query_start(deck, 0, s.x0, s.y0, s.x1, s.y1) == 0);
        do number = twin_query_step(deck, 0);
        while (number == 0);
        must(number == GURTHEDDU_FINISHED);
        must(twin_collect(deck, 0, l.out, GURTHEDDU_LIST, &l.steps, &filled) == 0);
        l.filled = uint32_t(filled);
    }
};

struct Nothing { // what the measurement itself costs
    void reset() {}
    void update(const Move &) {}
    void query(const Square &, List &) {}
};

#ifdef HAVE_BOOST
namespace bg = boost::geometry;
struct Boost { // an update removes the old point and inserts the new one
    typedef bg::model::point<int, 2, bg::cs::cartesian> Point;
    typedef std::pair<Point, uint32_t> Value;
    bg::index::rtree<Value, bg::index::quadratic<16>> tree;
    std::vector<Point> at;
    std::vector<bool> known;
    std::vector<Value> found;
    void reset()
    {
        tree.clear();
        at.assign(257, Point(0, 0));
        known.assign(257, false);
    }
    void update(const Move &m)
    {
        if (known[m.carrier]) tree.remove(Value(at[m.carrier], m.carrier));
        known[m.carrier] = true;
        at[m.carrier] = Point(int(m.x), int(m.y));
        tree.insert(Value(at[m.carrier], m.carrier));
    }
    void query(const Square &s, List &l)
    {
        found.clear();
        bg::model::box<Point> box(Point(int(s.x0), int(s.y0)), Point(int(s.x1), int(s.y1)));
        tree.query(bg::index::intersects(box), std::back_inserter(found));
        l.filled = 0;
        l.steps = 0;
        for (auto &v : found) {
            l.out[l.filled++] = v.second;
            l.out[l.filled++] = uint32_t(bg::get<0>(v.first));
            l.out[l.filled++] = uint32_t(bg::get<1>(v.first));
            l.out[l.filled++] = v.second % 10;
        }
    }
};
#endif

// ---- the load

struct Load {
    std::vector<Move> first, moves;
    std::vector<Square> squares[3];
};

static const char *const OPERATIONS[4] = {"update", "3000", "8000", "whole"};

static Load make_load(size_t moves, size_t queries)
{
    std::mt19937 any(1);
    Load w;
    uint32_t at[256][2];
    for (uint32_t k = 0; k < 256; k++) {
        at[k][0] = any() % 16384;
        at[k][1] = any() % 16384;
        w.first.push_back({k + 1, at[k][0], at[k][1]});
    }
    for (size_t i = 0; i < moves; i++) {
        uint32_t k = any() % 256;
        for (int j = 0; j < 2; j++) at[k][j] = uint32_t(std::min(16383, std::max(0, int(at[k][j]) + int(any() % 801) - 400)));
        w.moves.push_back({k + 1, at[k][0], at[k][1]});
    }
    const uint32_t side[2] = {3000, 8000};
    for (int s = 0; s < 2; s++)
        for (size_t i = 0; i < queries; i++) {
            uint32_t x = any() % (16384 - side[s]), y = any() % (16384 - side[s]);
            w.squares[s].push_back({x, y, x + side[s], y + side[s]});
        }
    for (size_t i = 0; i < (queries + 3) / 4; i++) w.squares[2].push_back({0, 0, 16383, 16383});
    return w;
}

// ---- time

static double now()
{
    timespec t;
    clock_gettime(CLOCK_THREAD_CPUTIME_ID, &t);
    return double(t.tv_sec) * 1e9 + double(t.tv_nsec);
}

struct Times {
    std::vector<double> of[4];
    unsigned long hits[3], steps[3], sum; // of the last round; sum tells lists apart
};

template <class E> static void one_round(E &e, const Load &w, Times &t)
{
    static List l;
    e.reset();
    for (auto &m : w.first) e.update(m);
    double from = now();
    for (auto &m : w.moves) e.update(m);
    t.of[0].push_back((now() - from) / double(w.moves.size()));
    t.sum = 0;
    for (int s = 0; s < 3; s++) {
        t.hits[s] = t.steps[s] = 0;
        from = now();
        for (auto &q : w.squares[s]) {
            e.query(q, l);
            t.hits[s] += l.filled / GURTHEDDU_ENTRY;
            t.steps[s] += l.steps;
            t.sum = t.sum * 31 + l.out[0] + l.filled;
        }
        t.of[s + 1].push_back((now() - from) / double(w.squares[s].size()));
    }
}

static void print_times(const char *engine, Times &t)
{
    for (int k = 0; k < 4; k++) {
        std::sort(t.of[k].begin(), t.of[k].end());
        std::printf("time %s %s %.1f %.1f\n", engine, OPERATIONS[k], t.of[k][t.of[k].size() / 2], t.of[k][0]);
    }
}

static int time_all(int rounds, size_t moves)
{
    Load w = make_load(moves, 1000);
    static LibraryRun run;
    static LibraryStep step;
    static TwinStep twin;
    Times runs, steps, twins;
#ifdef HAVE_BOOST
    static Boost boost;
    Times boosts;
#endif
    for (int i = 0; i < rounds; i++) {
        one_round(run, w, runs);
        one_round(twin, w, twins);
        one_round(step, w, steps);
#ifdef HAVE_BOOST
        one_round(boost, w, boosts);
        must(std::equal(boosts.hits, boosts.hits + 3, runs.hits));
#endif
    }
    // The same lists, and the same deck at the end: the library's words and stamps beside the twin's.
    static uint32_t dump[GURTHEDDU_WORDS + GURTHEDDU_TIMES];
    must(runs.sum == twins.sum && runs.sum == steps.sum);
    must(twin_dump(twin.deck, dump) == GURTHEDDU_WORDS + GURTHEDDU_TIMES);
    must(!std::memcmp(dump, run.deck.words, sizeof run.deck.words));
    must(!std::memcmp(dump + GURTHEDDU_WORDS, run.deck.times, sizeof run.deck.times));
    must(!std::memcmp(&run.deck, &step.deck, sizeof run.deck));
    for (int s = 0; s < 3; s++)
        std::printf("size %s %.1f %.1f\n", OPERATIONS[s + 1], double(runs.steps[s]) / double(w.squares[s].size()),
                    double(runs.hits[s]) / double(w.squares[s].size()));
    print_times("run", runs);
    print_times("step", steps);
    print_times("twin", twins);
#ifdef HAVE_BOOST
    print_times("boost", boosts);
#endif
    return 0;
}

// ---- instructions

template <class E> __attribute__((noinline)) static void measured(E &e, const Load &w, int operation)
{
    static List l;
    if (operation == 0)
        for (auto &m : w.moves) e.update(m);
    else
        for (auto &q : w.squares[operation - 1]) e.query(q, l);
}

template <class E> static int count(E &e, int operation)
{
    Load w = make_load(5000, 100);
    e.reset();
    for (auto &m : w.first) e.update(m);
    if (operation != 0)
        for (auto &m : w.moves) e.update(m);
    measured(e, w, operation);
    std::printf("operations %zu\n", operation == 0 ? w.moves.size() : w.squares[operation - 1].size());
    return 0;
}

static int count_one(const std::string &engine, const std::string &operation)
{
    static LibraryRun run;
    static LibraryStep step;
    static TwinStep twin;
    static Nothing nothing;
    int k = int(std::find(OPERATIONS, OPERATIONS + 4, operation) - OPERATIONS);
    if (k < 4 && engine == "run") return count(run, k);
    if (k < 4 && engine == "step") return count(step, k);
    if (k < 4 && engine == "twin") return count(twin, k);
    if (k < 4 && engine == "none") return count(nothing, k);
#ifdef HAVE_BOOST
    static Boost boost;
    if (k < 4 && engine == "boost") return count(boost, k);
#endif
    return 2;
}

int main(int argc, char **argv)
{
    std::string what = argc > 1 ? argv[1] : "";
    if (what == "time") return time_all(argc > 2 ? std::atoi(argv[2]) : 15, argc > 3 ? size_t(std::atoi(argv[3])) : 60000);
    if (what == "count" && argc == 4) return count_one(argv[2], argv[3]);
    std::fputs("usage: bench time [ROUNDS] [MOVES] | bench count ENGINE OPERATION\n", stderr);
    return 2;
}
