/* Answers a file of calls on a fresh deck, through the library: calls FILE, or calls --script FILE; - is standard input.
 * Each line prints its number and its answer.
 *
 * With --script every line is a line of a script, as document 01 has it. Else a line may also be one of these:
 *
 *   collect LANE LENT            as C, with a lent list of LENT numbers
 *   read LANE LENT               as L, with a lent list of LENT numbers
 *   clear LANE                   as X
 *   rewind                       n,number: winds the clock back
 *   run update LANE BUDGET       n,number,made: up to BUDGET steps of the update in LANE
 *   run query LANE BUDGET        the same of a query
 *   show                         n,clock,buckets in the store; then for each entered carrier, rising:
 *                                carrier,x,y,mark,stamp,former stamp or none (no place: none,none,..)
 *   set TABLE INDEX FIELD VALUE  n,0: puts a number into a table; `tables` below has all of them, - is no index or field
 *   same                         n,yes if the deck is as before the line before this one, else n,no
 *   changed                      n,how many numbers of the deck the line before this one changed; then each of them:
 *                                table,index,field,before,after
 *   # ...                        a remark, printed as it is
 *
 * A list that is lent is watched: what a call has to leave alone and did not is said on standard error, with status 1.
 * A line that is none of these is 13 in a script and ends the run with status 2 elsewhere if it looks like a call.
 *
 * TO ADD A CALL: a row in `calls` (or in `letters`, for a letter of the script) and its function. To come are
 * looked, nearest, export, import, repair and level. */
#include <inttypes.h>
#include <stdio.h>
#include <stdlib.h>
#include <string.h>

#include "gurtheddu.h"

enum { LINE_BYTES = 60, LENT_MAX = 4096, MARK = 0xa5a5a5a5u & 0x7fffffff };

static struct gurtheddu deck;
static struct gurtheddu older, newer; /* as before the line before, and as before this line */
static uint64_t line_number;

static void stop(int status, const char *what, const char *which)
{
    fflush(stdout);
    fprintf(stderr, "calls: line %" PRIu64 ": %s%s%s\n", line_number, what, which ? " " : "", which ? which : "");
    exit(status);
}

static void answer(uint32_t number)
{
    printf("%" PRIu64 ",%" PRIu32 "\n", line_number, number);
}

/* ---- reading and collection ---- */

/* Reads or collects with a lent list of so many numbers, and prints what L and C print. Room for more is there, so that
 * a call that writes past its list is seen. A reading is lent a deck that it cannot change. */
static void list_of(uint32_t lane, uint32_t lent, int clears)
{
    static uint32_t list[LENT_MAX + 16];
    uint32_t steps = MARK, filled = MARK, number, i;
    if (lent > LENT_MAX) stop(2, "a list of more than 4096 numbers", NULL);
    for (i = 0; i < LENT_MAX + 16; i++) list[i] = MARK;
    number = clears ? gd_collect(&deck, lane, list, lent, &steps, &filled)
                    : gd_read(&deck, lane, list, lent, &steps, &filled);
    if (number != 0 && (steps != 0 || filled != 0)) stop(1, "a refused reading handed something back", NULL);
    if (filled > lent || filled % GURTHEDDU_ENTRY != 0) stop(1, "the filled part is none of the list", NULL);
    for (i = filled; i < LENT_MAX + 16; i++)
        if (list[i] != MARK) stop(1, "a number behind the filled part was written", NULL);
    if (number != 0) {
        answer(number);
        return;
    }
    printf("%" PRIu64 ",0,%" PRIu32 ",%" PRIu32 "\n", line_number, steps, filled / GURTHEDDU_ENTRY);
    for (i = 0; i < filled; i += GURTHEDDU_ENTRY)
        printf("%" PRIu32 ",%" PRIu32 ",%" PRIu32 ",%" PRIu32 "\n", list[i], list[i + 1], list[i + 2], list[i + 3]);
}

/* ---- lines of a script ---- */

static void letter_r4(const uint32_t *f) { answer(gd_update_start(&deck, f[0], f[1], f[2], f[3], 0)); }
static void letter_r5(const uint32_t *f) { answer(gd_update_start(&deck, f[0], f[1], f[2], f[3], f[4])); }
static void letter_u(const uint32_t *f) { answer(gd_update_step(&deck, f[0])); }
static void ask(uint32_t kind, const uint32_t *f, uint32_t radius)
{
    answer(gd_query_start(&deck, f[0], kind, f[1], f[2], f[3], f[4], radius));
}
static void letter_q(const uint32_t *f) { ask(GURTHEDDU_CENTRE, f, 0); }
static void letter_t(const uint32_t *f) { ask(GURTHEDDU_TOUCHING, f, f[5]); }
static void letter_w(const uint32_t *f) { ask(GURTHEDDU_WITHIN, f, f[5]); }
static void letter_s(const uint32_t *f) { answer(gd_query_step(&deck, f[0])); }
static void letter_c(const uint32_t *f) { list_of(f[0], GURTHEDDU_LIST, 1); }
static void letter_l(const uint32_t *f) { list_of(f[0], GURTHEDDU_LIST, 0); }
static void letter_x(const uint32_t *f) { answer(gd_clear(&deck, f[0])); }

enum { FIELDS_MAX = 6 };
static const struct letter {
    char letter;
    int fields;
    void (*run)(const uint32_t *fields);
} letters[] = {
    {'R', 4, letter_r4}, {'R', 5, letter_r5}, {'U', 1, letter_u}, {'Q', 5, letter_q}, {'S', 1, letter_s},
    {'C', 1, letter_c}, {'L', 1, letter_l}, {'X', 1, letter_x}, {'T', 6, letter_t}, {'W', 6, letter_w},
};

/* A number of a script: decimal, 0 to 4,294,967,295, no sign, no needless leading zero. Gives what follows it, or NULL. */
static const char *script_number(const char *at, const char *end, uint32_t *number)
{
    const char *from = at;
    uint64_t n = 0;
    for (; at < end && *at >= '0' && *at <= '9'; at++) {
        n = 10 * n + (uint64_t)(*at - '0');
        if (n > UINT32_MAX) return NULL;
    }
    if (at == from || (*from == '0' && at - from > 1)) return NULL;
    *number = (uint32_t)n;
    return at;
}

/* The letter of a line that a script may have, with its fields, or NULL. */
static const struct letter *script_line(const char *line, size_t length, uint32_t *fields)
{
    const char *at = line + 1, *end = line + length;
    size_t i;
    int n = 0;
    if (length == 0 || length > LINE_BYTES) return NULL;
    for (; at < end; n++) {
        if (n == FIELDS_MAX || *at != ',') return NULL;
        at = script_number(at + 1, end, &fields[n]);
        if (!at) return NULL;
    }
    for (i = 0; i < sizeof letters / sizeof *letters; i++)
        if (letters[i].letter == line[0] && letters[i].fields == n) return &letters[i];
    return NULL;
}

/* ---- calls that have no script line ---- */

static uint32_t small_number(const char *word)
{
    char *end;
    unsigned long n = strtoul(word, &end, 10);
    if (*word < '0' || *word > '9' || *end || n > UINT32_MAX) stop(2, "no number:", word);
    return (uint32_t)n;
}

static void call_collect(char **word) { list_of(small_number(word[1]), small_number(word[2]), 1); }
static void call_read(char **word) { list_of(small_number(word[1]), small_number(word[2]), 0); }
static void call_clear(char **word) { answer(gd_clear(&deck, small_number(word[1]))); }

static void call_rewind(char **word)
{
    (void)word;
    answer(gd_rewind(&deck));
}

static void call_run(char **word)
{
    uint32_t made = MARK, number, lane = small_number(word[2]), budget = small_number(word[3]);
    if (!strcmp(word[1], "update")) number = gd_update_run(&deck, lane, budget, &made);
    else if (!strcmp(word[1], "query")) number = gd_query_run(&deck, lane, budget, &made);
    else stop(2, "no run of", word[1]), number = 0;
    printf("%" PRIu64 ",%" PRIu32 ",%" PRIu32 "\n", line_number, number, made);
}

static void call_same(char **word)
{
    (void)word;
    printf("%" PRIu64 ",%s\n", line_number, memcmp(&deck, &older, sizeof deck) ? "no" : "yes");
}

/* Prints what stands at a place of the directory: x, y, mark and stamp, or none for each. */
static void show_place(uint32_t place)
{
    const uint32_t *tuples = deck.words + GURTHEDDU_TUPLES;
    uint32_t slot = place % 2048;
    if (place >= GURTHEDDU_NO_PLACE) printf(",none,none,none,none");
    else
        printf(",%" PRIu32 ",%" PRIu32 ",%" PRIu32 ",%" PRId32, tuples[GURTHEDDU_TUPLE_XS + slot],
               tuples[GURTHEDDU_TUPLE_YS + slot], tuples[GURTHEDDU_TUPLE_TAGS + slot], deck.times[slot]);
}

static void call_show(char **word)
{
    const uint32_t *index = deck.words + GURTHEDDU_INDEX;
    uint32_t done = 0, i, at;
    (void)word;
    printf("%" PRIu64 ",%" PRIu32 ",%" PRIu32 "\n", line_number, deck.words[GURTHEDDU_CLOCK],
           deck.words[GURTHEDDU_POOL + 512]);
    for (;;) {
        for (i = 0, at = 512; i < 512; i++)
            if (index[i] > done && (at == 512 || index[i] < index[at])) at = i;
        if (at == 512) return;
        done = index[at];
        printf("%" PRIu32, done);
        show_place(index[GURTHEDDU_INDEX_CURRENT + at]);
        if (index[GURTHEDDU_INDEX_PREVIOUS + at] >= GURTHEDDU_NO_PLACE) puts(",none");
        else printf(",%" PRId32 "\n", deck.times[index[GURTHEDDU_INDEX_PREVIOUS + at] % 2048]);
    }
}

/* ---- set: each table with its fields ---- */

enum form { NUMBER, BUCKET, PLACE, STAMP }; /* how a value is written: `none` is a bucket's or a place's */

static const struct table {
    const char *name, *field;
    uint32_t *base;       /* NULL for the stamps */
    uint32_t size, width; /* how many there are, and how far apart */
    uint32_t parts;       /* an index A.B means parts * A + B; 0: one number */
    enum form form;
} tables[] = {
    {"cells", "-", deck.words + GURTHEDDU_FIRST, 256, 1, 0, BUCKET},
    {"locks", "-", deck.words + GURTHEDDU_CELLS, 256, 1, 0, NUMBER},
    {"buckets", "count", deck.words + GURTHEDDU_COUNT, 512, 1, 0, NUMBER},
    {"buckets", "next", deck.words + GURTHEDDU_NEXT, 512, 1, 0, BUCKET},
    {"buckets", "readers", deck.words + GURTHEDDU_READERS, 512, 1, 0, NUMBER},
    {"slots", "carrier", deck.words + GURTHEDDU_TUPLES, 2048, 1, 4, NUMBER},
    {"slots", "x", deck.words + GURTHEDDU_TUPLES + GURTHEDDU_TUPLE_XS, 2048, 1, 4, NUMBER},
    {"slots", "y", deck.words + GURTHEDDU_TUPLES + GURTHEDDU_TUPLE_YS, 2048, 1, 4, NUMBER},
    {"slots", "mark", deck.words + GURTHEDDU_TUPLES + GURTHEDDU_TUPLE_TAGS, 2048, 1, 4, NUMBER},
    {"slots", "stamp", NULL, 2048, 1, 4, STAMP},
    {"directory", "carrier", deck.words + GURTHEDDU_INDEX, 512, 1, 0, NUMBER},
    {"directory", "lock", deck.words + GURTHEDDU_INDEX + GURTHEDDU_INDEX_LOCKS, 512, 1, 0, NUMBER},
    {"directory", "current", deck.words + GURTHEDDU_INDEX + GURTHEDDU_INDEX_CURRENT, 512, 1, 0, PLACE},
    {"directory", "former", deck.words + GURTHEDDU_INDEX + GURTHEDDU_INDEX_PREVIOUS, 512, 1, 0, PLACE},
    {"lists", "carrier", deck.words + GURTHEDDU_HITS, 1024, 1, 256, NUMBER},
    {"lists", "x", deck.words + GURTHEDDU_HITS + GURTHEDDU_HIT_XS, 1024, 1, 256, NUMBER},
    {"lists", "y", deck.words + GURTHEDDU_HITS + GURTHEDDU_HIT_YS, 1024, 1, 256, NUMBER},
    {"lists", "mark", deck.words + GURTHEDDU_HITS + GURTHEDDU_HIT_TAGS, 1024, 1, 256, NUMBER},
    {"clock", "-", deck.words + GURTHEDDU_CLOCK, 1, 1, 0, NUMBER},
    {"store", "-", deck.words + GURTHEDDU_POOL, 512, 1, 0, NUMBER},
    {"store", "height", deck.words + GURTHEDDU_POOL + 512, 1, 1, 0, NUMBER},
    {"updates", "carrier", deck.updaters + GURTHEDDU_U_CARRIER, 8, GURTHEDDU_UPDATER, 0, NUMBER},
    {"updates", "x", deck.updaters + GURTHEDDU_U_X, 8, GURTHEDDU_UPDATER, 0, NUMBER},
    {"updates", "y", deck.updaters + GURTHEDDU_U_Y, 8, GURTHEDDU_UPDATER, 0, NUMBER},
    {"updates", "mark", deck.updaters + GURTHEDDU_U_TAG, 8, GURTHEDDU_UPDATER, 0, NUMBER},
    {"updates", "stage", deck.updaters + GURTHEDDU_U_STAGE, 8, GURTHEDDU_UPDATER, 0, NUMBER},
    {"updates", "cell", deck.updaters + GURTHEDDU_U_CELL, 8, GURTHEDDU_UPDATER, 0, NUMBER},
    {"updates", "bucket", deck.updaters + GURTHEDDU_U_BUCKET, 8, GURTHEDDU_UPDATER, 0, NUMBER},
    {"updates", "slot", deck.updaters + GURTHEDDU_U_SLOT, 8, GURTHEDDU_UPDATER, 0, NUMBER},
    {"updates", "moved", deck.updaters + GURTHEDDU_U_MOVED, 8, GURTHEDDU_UPDATER, 0, NUMBER},
    {"updates", "unlinked", deck.updaters + GURTHEDDU_U_UNLINKED, 8, GURTHEDDU_UPDATER, 0, NUMBER},
    {"queries", "kind", deck.queries + GURTHEDDU_Q_KIND, 4, GURTHEDDU_QUERY, 0, NUMBER},
    {"queries", "x0", deck.queries + GURTHEDDU_Q_X0, 4, GURTHEDDU_QUERY, 0, NUMBER},
    {"queries", "y0", deck.queries + GURTHEDDU_Q_Y0, 4, GURTHEDDU_QUERY, 0, NUMBER},
    {"queries", "x1", deck.queries + GURTHEDDU_Q_X1, 4, GURTHEDDU_QUERY, 0, NUMBER},
    {"queries", "y1", deck.queries + GURTHEDDU_Q_Y1, 4, GURTHEDDU_QUERY, 0, NUMBER},
    {"queries", "radius", deck.queries + GURTHEDDU_Q_RADIUS, 4, GURTHEDDU_QUERY, 0, NUMBER},
    {"queries", "stamp", deck.queries + GURTHEDDU_Q_STAMP, 4, GURTHEDDU_QUERY, 0, NUMBER},
    {"queries", "hits", deck.queries + GURTHEDDU_Q_HITS, 4, GURTHEDDU_QUERY, 0, NUMBER},
    {"queries", "steps", deck.queries + GURTHEDDU_Q_STEPS, 4, GURTHEDDU_QUERY, 0, NUMBER},
    {"queries", "stage", deck.queries + GURTHEDDU_Q_STAGE, 4, GURTHEDDU_QUERY, 0, NUMBER},
    {"queries", "cell", deck.queries + GURTHEDDU_Q_CELL, 4, GURTHEDDU_QUERY, 0, NUMBER},
    {"queries", "bucket", deck.queries + GURTHEDDU_Q_BUCKET, 4, GURTHEDDU_QUERY, 0, NUMBER},
    {"queries", "left", deck.queries + GURTHEDDU_Q_LEFT, 4, GURTHEDDU_QUERY, 0, NUMBER},
};

/* The numbers of A.B or A.B.C, and how many there were. */
static int dotted(char *word, uint32_t *numbers, int most)
{
    int n = 0;
    char *part;
    for (part = strtok(word, "."); part && n < most; part = strtok(NULL, ".")) numbers[n++] = small_number(part);
    if (part) stop(2, "too many dots before", part);
    return n;
}

static uint32_t value_of(char *word, enum form form)
{
    uint32_t part[3];
    if (!strcmp(word, "none")) {
        if (form == BUCKET) return GURTHEDDU_NO_BUCKET;
        if (form == PLACE) return GURTHEDDU_NO_PLACE;
        stop(2, "nothing there is none", NULL);
    }
    if (form == STAMP) return (uint32_t)(int32_t)strtol(word, NULL, 10);
    if (form == PLACE && strchr(word, '.')) {
        if (dotted(word, part, 3) != 3) stop(2, "a place is cell.bucket.slot", NULL);
        return 2048 * part[0] + 4 * part[1] + part[2];
    }
    return small_number(word);
}

static void call_set(char **word)
{
    const struct table *t;
    uint32_t part[2] = {0, 0}, at = 0;
    for (t = tables; t < tables + sizeof tables / sizeof *tables; t++)
        if (!strcmp(t->name, word[1]) && !strcmp(t->field, word[3])) break;
    if (t == tables + sizeof tables / sizeof *tables) stop(2, "no table", word[1]);
    if (strcmp(word[2], "-")) {
        if (dotted(word[2], part, 2) != (t->parts ? 2 : 1)) stop(2, "no index of", t->name);
        at = t->parts ? t->parts * part[0] + part[1] : part[0];
    }
    if (at >= t->size || (t->parts && part[1] >= t->parts)) stop(2, "the index is too large for", t->name);
    if (t->base) t->base[at * t->width] = value_of(word[4], t->form);
    else deck.times[at] = (int32_t)value_of(word[4], t->form);
    answer(0);
}

/* The numbers of a table that the line before changed: prints them if asked to, and gives how many they are. */
static uint32_t changes_of(const struct table *t, int print)
{
    const int32_t *stamps = deck.times;
    const char *base = t->base ? (const char *)t->base : (const char *)stamps;
    const char *was = (const char *)&older + (base - (const char *)&deck);
    uint32_t at, n = 0;
    for (at = 0; at < t->size; at++) {
        uint32_t before, after;
        memcpy(&before, was + 4 * at * t->width, 4);
        memcpy(&after, base + 4 * at * t->width, 4);
        if (before == after) continue;
        n++;
        if (!print) continue;
        printf("%s,", t->name);
        if (t->parts) printf("%" PRIu32 ".%" PRIu32, at / t->parts, at % t->parts);
        else if (t->size > 1) printf("%" PRIu32, at);
        else printf("-");
        if (t->form == STAMP) printf(",%s,%" PRId32 ",%" PRId32 "\n", t->field, (int32_t)before, (int32_t)after);
        else printf(",%s,%" PRIu32 ",%" PRIu32 "\n", t->field, before, after);
    }
    return n;
}

static void call_changed(char **word)
{
    const struct table *t, *end = tables + sizeof tables / sizeof *tables;
    uint32_t n = 0;
    (void)word;
    for (t = tables; t < end; t++) n += changes_of(t, 0);
    printf("%" PRIu64 ",%" PRIu32 "\n", line_number, n);
    for (t = tables; t < end; t++) changes_of(t, 1);
}

static const struct call {
    const char *name;
    int words; /* its name and what follows */
    void (*run)(char **word);
} calls[] = {
    {"changed", 1, call_changed}, {"clear", 2, call_clear}, {"collect", 3, call_collect}, {"read", 3, call_read},
    {"rewind", 1, call_rewind},   {"run", 4, call_run},     {"same", 1, call_same},       {"set", 5, call_set},
    {"show", 1, call_show},
};

/* Makes the call of a line if it begins with a call's name, which no line of a script does. */
static int named_call(const char *line)
{
    static char *copy;
    char *word[8] = {NULL};
    size_t i;
    int n = 0;
    copy = realloc(copy, strlen(line) + 1);
    if (!copy) stop(2, "no memory", NULL);
    strcpy(copy, line);
    for (word[0] = strtok(copy, " "); n < 7 && word[n]; word[++n] = strtok(NULL, " ")) {}
    if (line[0] == '#') {
        puts(line);
        return 1;
    }
    if (n == 0 || word[0][0] < 'a' || word[0][0] > 'z') return 0;
    for (i = 0; i < sizeof calls / sizeof *calls; i++) {
        if (strcmp(calls[i].name, word[0])) continue;
        if (n != calls[i].words) stop(2, "wrong number of words for", word[0]);
        calls[i].run(word);
        return 1;
    }
    if (strchr(line, ',') == NULL) stop(2, "no call", word[0]);
    return 0;
}

/* ---- reading ---- */

/* The next line without its line feed, with a zero behind it; the last may lack the line feed. Gives 0 at the end. */
static int next_line(FILE *in, char **line, size_t *room, size_t *length)
{
    int c;
    *length = 0;
    while ((c = getc(in)) != EOF && c != '\n') {
        if (*length + 1 >= *room) {
            *room = *room ? 2 * *room : 256;
            *line = realloc(*line, *room);
            if (!*line) stop(2, "no memory", NULL);
        }
        (*line)[(*length)++] = (char)c;
    }
    if (c == EOF && *length == 0) return 0;
    if (!*line) *line = malloc(*room = 256);
    if (!*line) stop(2, "no memory", NULL);
    (*line)[*length] = 0;
    return 1;
}

int main(int count, char **names)
{
    int script = count == 3 && !strcmp(names[1], "--script");
    uint32_t fields[FIELDS_MAX];
    char *line = NULL;
    size_t room = 0, length;
    FILE *in;
    if (count != 2 + script) {
        fputs("usage: calls [--script] FILE\n", stderr);
        return 2;
    }
    in = strcmp(names[count - 1], "-") ? fopen(names[count - 1], "rb") : stdin;
    if (!in) {
        perror(names[count - 1]);
        return 2;
    }
    if (gd_reset(&deck) != 0) stop(1, "no fresh deck", NULL);
    older = newer = deck;
    while (next_line(in, &line, &room, &length)) {
        const struct letter *letter;
        line_number++;
        if (!script) {
            older = newer;
            newer = deck;
            if (strlen(line) == length && named_call(line)) continue;
        }
        letter = script_line(line, length, fields);
        if (letter) letter->run(fields);
        else answer(13);
    }
    if (ferror(in) || fflush(stdout) != 0 || ferror(stdout)) stop(2, "reading or writing failed", NULL);
    free(line);
    return 0;
}
