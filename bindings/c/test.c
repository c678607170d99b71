/* Tries every call of ullagreth.h: document 01's cases, each refusal in its order, and what must stay as it was.
 * Prints what failed and exits 1, or prints one line. What is expected was written by hand from documents 01 and 02. */
#include "ullagreth.h"
#include <stdio.h>
#include <string.h>

_Static_assert(ULLAGRETH_WORDS == 2 + ULLAGRETH_SLOTS * ULLAGRETH_SLOT_WORDS, "the slots fill the table");
_Static_assert(ULLAGRETH_SLOT_WORDS == 2 + 5 * ULLAGRETH_MOST_ENTRIES, "the entries fill a slot");
_Static_assert(sizeof(struct ullagreth_candidate) == 24, "the size of a record");
_Static_assert(offsetof(struct ullagreth_candidate, number) == 0, "the place of the number");
_Static_assert(offsetof(struct ullagreth_candidate, x) == 8, "the place of x");
_Static_assert(offsetof(struct ullagreth_candidate, y) == 12, "the place of y");
_Static_assert(offsetof(struct ullagreth_candidate, square) == 16, "the place of the square");

enum { WORDS = ULLAGRETH_WORDS, MOST = ULLAGRETH_MOST_POINTS, REACH = ULLAGRETH_REACH, MOST_K = ULLAGRETH_MOST_K };

/* Marks that no call writes. */
enum { MARK = 77777 };
static const struct ullagreth_candidate MARKED = {MARK, -MARK, -MARK, 77777777777777};

static int checks, failures;
static const char *trying;

static void same(int line, const char *what, long long got, long long want)
{
    checks++;
    if (got == want)
        return;
    failures++;
    printf("%s, test.c:%d: %s is %lld and not %lld\n", trying, line, what, got, want);
}

#define SAME(got, want) same(__LINE__, #got, (long long)(got), (long long)(want))

/* The table, with room for one that is too long, and its words before the call. */
static int32_t table[WORDS + 1], before[WORDS + 1];
static struct ullagreth_candidate list[MOST];
static uint32_t answers[MOST];
static uint64_t counts[4];

/* The row for rule and slot, with a place more; and the two that it is to tell with refusal 2, which each test of a bad table sets. */
enum { FAULT = 3 };
static int32_t fault[FAULT], rule, slot;

/* The row, marked. */
static int32_t *unsaid(void)
{
    for (size_t i = 0; i < FAULT; i++)
        fault[i] = MARK;
    return fault;
}

/* The number of a call that was lent the marked row: rule and slot with 2, 0 and 0 with any other, and the third place stays. */
static uint8_t told(uint8_t number)
{
    SAME(fault[0], number == ULLAGRETH_NOT_WELL_FORMED ? rule : 0);
    SAME(fault[1], number == ULLAGRETH_NOT_WELL_FORMED ? slot : 0);
    SAME(fault[2], MARK);
    return number;
}

static uint8_t check(size_t words)
{
    return told(ullagreth_check(table, words, unsaid(), FAULT));
}

static uint8_t enrol(size_t words, int32_t number, int32_t x, int32_t y)
{
    return told(ullagreth_enrol(table, words, number, x, y, unsaid(), FAULT));
}

static uint8_t withdraw(size_t words, int32_t number)
{
    return told(ullagreth_withdraw(table, words, number, unsaid(), FAULT));
}

static void save(void)
{
    memcpy(before, table, sizeof table);
}

static int stays(void)
{
    return memcmp(before, table, sizeof table) == 0;
}

static int same_record(struct ullagreth_candidate a, struct ullagreth_candidate b)
{
    return a.number == b.number && a.x == b.x && a.y == b.y && a.square == b.square;
}

/* From so many on, both lists have their marks; so has the fourth count. */
static int marked_from(size_t candidates, size_t answered)
{
    int holds = counts[3] == MARK;
    for (size_t i = candidates; i < MOST; i++)
        holds = holds && same_record(list[i], MARKED);
    for (size_t i = answered; i < MOST; i++)
        holds = holds && answers[i] == MARK;
    return holds;
}

/* A query with a table of so many words and lists of so many places, on lists that are marked. */
static uint8_t ask(size_t words, int32_t x, int32_t y, int32_t k, size_t room, size_t places)
{
    for (size_t i = 0; i < MOST; i++) {
        list[i] = MARKED;
        answers[i] = MARK;
    }
    for (size_t i = 0; i < 4; i++)
        counts[i] = MARK;
    save();
    return told(ullagreth_query(table, words, x, y, k, list, room, answers, places, counts, 4, unsaid(), FAULT));
}

struct point {
    int32_t number, x, y;
};

/* A query and what is wanted: counts, the numbers of the candidates in the order found, the answers. */
struct query {
    int32_t x, y, k;
    uint64_t n, m, o;
    int32_t candidates[6];
    uint32_t answers[6];
};

static struct ullagreth_candidate record_of(struct point p, int32_t x, int32_t y)
{
    int64_t across = (int64_t)p.x - x, up = (int64_t)p.y - y;
    struct ullagreth_candidate c = {(uint64_t)p.number, p.x, p.y, (uint64_t)(across * across + up * up)};
    return c;
}

/* The front of the list is the m candidates that the query wants; points[i] has number i + 1. */
static void same_candidates(const struct query *q, const struct point *points)
{
    for (size_t i = 0; i < q->m; i++) {
        struct point p = points[q->candidates[i] - 1];
        SAME(same_record(list[i], record_of(p, q->x, q->y)), 1);
    }
}

static void granted(const struct query *q, const struct point *points)
{
    SAME(ask(WORDS, q->x, q->y, q->k, MOST, MOST), ULLAGRETH_DONE);
    SAME(counts[0], q->n);
    SAME(counts[1], q->m);
    SAME(counts[2], q->o);
    same_candidates(q, points);
    for (size_t i = 0; i < q->n; i++)
        SAME(answers[i], q->answers[i]);
    SAME(marked_from(q->m, q->n), 1);
    SAME(stays(), 1);
}

/* The same query with one answer place too few: n alone, the list as before, no answer. */
static void refused_for_answers(const struct query *q, const struct point *points)
{
    SAME(ask(WORDS, q->x, q->y, q->k, MOST, q->n - 1), ULLAGRETH_SHORT_LIST);
    SAME(counts[0], q->n);
    SAME(counts[1], 0);
    SAME(counts[2], 0);
    same_candidates(q, points);
    SAME(marked_from(q->m, 0), 1);
    SAME(stays(), 1);
}

static void enrol_all(const struct point *points, size_t n)
{
    for (size_t i = 0; i < n; i++)
        SAME(enrol(WORDS, points[i].number, points[i].x, points[i].y), ULLAGRETH_DONE);
    SAME(check(WORDS), ULLAGRETH_DONE);
}

static void try_queries(const struct query *queries, size_t n, const struct point *points)
{
    for (size_t i = 0; i < n; i++) {
        granted(&queries[i], points);
        if (queries[i].n > 0)
            refused_for_answers(&queries[i], points);
    }
}

#define LENGTH(row) (sizeof(row) / sizeof(row)[0])

/* ---- document 01's cases */

static void empty_table(void)
{
    static const struct query none = {5, 0, 1, 0, 0, 0, {0}, {0}};
    ullagreth_empty(table);
    SAME(check(WORDS), ULLAGRETH_DONE);
    granted(&none, NULL);
    /* It has no points, so that lists of no places are long enough. */
    SAME(ask(WORDS, 5, 0, 1, 0, 0), ULLAGRETH_DONE);
    SAME(counts[0] + counts[1] + counts[2], 0);
    SAME(ask(WORDS, 5, 0, 17, 0, 0), ULLAGRETH_NO_SUCH_K);
    SAME(withdraw(WORDS, 1), ULLAGRETH_NOT_ENROLLED);
    SAME(stays(), 1);
}

static void three_and_four(void)
{
    static const struct point points[] = {{1, 0, 0}, {2, 4, 0}, {3, 10, 0}, {4, 4, 0}};
    static const struct query of_three[] = {
        {5, 0, 1, 2, 2, 1, {2, 3}, {2, 3}},
        {5, 0, 2, 3, 3, 1, {2, 1, 3}, {1, 2, 3}},
        {8, 0, 1, 1, 2, 1, {3, 2}, {3}},
    };
    /* In the last three, 2 and 4 stand at q, as near to each of the others as q is. */
    static const struct query of_four[] = {
        {5, 0, 1, 1, 2, 1, {2, 3}, {3}},
        {5, 0, 2, 3, 3, 1, {2, 4, 3}, {2, 3, 4}},
        {4, 0, 1, 0, 1, 1, {2}, {0}},
        {4, 0, 2, 2, 2, 1, {2, 4}, {2, 4}},
        {4, 0, 3, 4, 4, 1, {2, 4, 1, 3}, {1, 2, 3, 4}},
    };
    ullagreth_empty(table);
    enrol_all(points, 3);
    try_queries(of_three, LENGTH(of_three), points);
    enrol_all(points + 3, 1);
    try_queries(of_four, LENGTH(of_four), points);
}

static void put(int32_t *words, size_t slot, size_t place, int32_t reference, int32_t low, int32_t high)
{
    int32_t *entry = words + 2 + ULLAGRETH_SLOT_WORDS * slot + 2 + 5 * place;
    entry[0] = reference;
    entry[1] = low;
    entry[3] = high;
}

static void head(int32_t *words, size_t slot, int32_t level, int32_t entries)
{
    words[2 + ULLAGRETH_SLOT_WORDS * slot] = level;
    words[2 + ULLAGRETH_SLOT_WORDS * slot + 1] = entries;
}

/* Number i at (10 × (i − 1), 0). */
static void nine(struct point *points)
{
    for (int32_t i = 0; i < 9; i++)
        points[i] = (struct point){i + 1, 10 * i, 0};
    ullagreth_empty(table);
    enrol_all(points, 9);
}

/* Word 1 says ten: rule 7, in the header. */
static void count_one_too_many(void)
{
    table[1] = 10;
    rule = 7;
    slot = ULLAGRETH_HEADER;
}

/* Every word of the nine points' table: slot 0 holds 1 to 4, slot 1 holds 5 to 9, the root is slot 2. */
static void words_of_nine(int32_t *words)
{
    ullagreth_empty(words);
    words[0] = 2;
    words[1] = 9;
    head(words, 0, 0, 4);
    head(words, 1, 0, 5);
    head(words, 2, 1, 2);
    for (int32_t i = 0; i < 9; i++)
        put(words, i < 4 ? 0 : 1, (size_t)(i < 4 ? i : i - 4), i + 1, 10 * i, 10 * i);
    put(words, 2, 0, 0, 0, 30);
    put(words, 2, 1, 1, 40, 80);
}

static void nine_points(void)
{
    static int32_t wanted[WORDS];
    /* The first is starred: slot 1 is never opened, and 2 is as near to 1 as q is; a step on, or with k 2, 1 answers. In the last, slot 1 is
     * opened; 3 and 6 are candidates and fail the final test. */
    static const struct query queries[] = {
        {-10, 0, 1, 0, 1, 2, {1}, {0}},
        {-9, 0, 1, 1, 1, 2, {1}, {1}},
        {-10, 0, 2, 1, 2, 2, {1, 2}, {1}},
        {35, 0, 2, 2, 4, 3, {4, 3, 5, 6}, {4, 5}},
    };
    struct point points[9];
    nine(points);
    words_of_nine(wanted);
    SAME(memcmp(table, wanted, sizeof wanted), 0);
    try_queries(queries, LENGTH(queries), points);
    /* A list of nine places is long enough, one of eight is not. */
    SAME(ask(WORDS, 35, 0, 2, 9, 2), ULLAGRETH_DONE);
    SAME(ask(WORDS, 35, 0, 2, 8, 2), ULLAGRETH_FEW_CANDIDATES);
    /* Withdrawn one after the other, they leave the empty table. */
    for (int32_t i = 1; i <= 9; i++) {
        SAME(withdraw(WORDS, i), ULLAGRETH_DONE);
        SAME(check(WORDS), ULLAGRETH_DONE);
    }
    ullagreth_empty(wanted);
    SAME(memcmp(table, wanted, sizeof wanted), 0);
}

/* A row of fewer than three counts stays as it was; of a longer one the rest does, which marked_from sees. */
static void short_counts(void)
{
    uint64_t two[] = {MARK, MARK};
    struct point points[9];
    nine(points);
    SAME(told(ullagreth_query(table, WORDS, -10, 0, 1, list, MOST, answers, MOST, two, 2, unsaid(), FAULT)), ULLAGRETH_DONE);
    SAME(two[0] == MARK && two[1] == MARK, 1);
}

/* ---- refusals: every line from the wanted one on holds, and none before it */

static void query_refused(uint8_t number, size_t words, int32_t x, int32_t y, int32_t k, size_t room)
{
    SAME(ask(words, x, y, k, room, 0), number);
    SAME(counts[0] + counts[1] + counts[2], 0);
    SAME(marked_from(0, 0), 1);
    SAME(stays(), 1);
}

static void enrol_refused(uint8_t number, size_t words, int32_t point, int32_t x, int32_t y)
{
    save();
    SAME(enrol(words, point, x, y), number);
    SAME(stays(), 1);
}

static void withdraw_refused(uint8_t number, size_t words, int32_t point)
{
    save();
    SAME(withdraw(words, point), number);
    SAME(stays(), 1);
}

static void tables_refused(void)
{
    static const size_t lengths[] = {0, 1, WORDS - 1, WORDS + 1};
    struct point points[9];
    nine(points);
    table[WORDS] = 0;
    /* Well formed no more, and of a wrong length that is not asked. */
    count_one_too_many();
    for (size_t i = 0; i < LENGTH(lengths); i++) {
        SAME(check(lengths[i]), ULLAGRETH_WRONG_LENGTH);
        enrol_refused(ULLAGRETH_WRONG_LENGTH, lengths[i], 0, REACH + 1, 0);
        withdraw_refused(ULLAGRETH_WRONG_LENGTH, lengths[i], 0);
        query_refused(ULLAGRETH_WRONG_LENGTH, lengths[i], REACH + 1, 0, 0, 0);
    }
    SAME(check(WORDS), ULLAGRETH_NOT_WELL_FORMED);
    enrol_refused(ULLAGRETH_NOT_WELL_FORMED, WORDS, 0, REACH + 1, 0);
    withdraw_refused(ULLAGRETH_NOT_WELL_FORMED, WORDS, 0);
    query_refused(ULLAGRETH_NOT_WELL_FORMED, WORDS, REACH + 1, 0, 0, 0);
}

static void queries_refused(void)
{
    static const int32_t off[] = {REACH + 1, -REACH - 1, INT32_MAX, INT32_MIN};
    static const int32_t ks[] = {0, 17, -1, INT32_MAX, INT32_MIN};
    struct point points[9];
    nine(points);
    for (size_t i = 0; i < LENGTH(off); i++) {
        query_refused(ULLAGRETH_OFF_GRID, WORDS, off[i], 0, 0, 0);
        query_refused(ULLAGRETH_OFF_GRID, WORDS, 0, off[i], 0, 0);
    }
    for (size_t i = 0; i < LENGTH(ks); i++)
        query_refused(ULLAGRETH_NO_SUCH_K, WORDS, REACH, -REACH, ks[i], 0);
    /* With k 16 all nine answer, with k 1 none: each has another 10 away. */
    query_refused(ULLAGRETH_FEW_CANDIDATES, WORDS, -REACH, REACH, 16, 8);
    SAME(ask(WORDS, -REACH, REACH, 16, 9, 8), ULLAGRETH_SHORT_LIST);
    SAME(ask(WORDS, -REACH, REACH, 16, 9, 9), ULLAGRETH_DONE);
    SAME(counts[0], 9);
    SAME(ask(WORDS, -REACH, REACH, 1, 9, 0), ULLAGRETH_DONE);
    SAME(counts[0], 0);
}

static void changes_refused(void)
{
    static const int32_t numbers[] = {0, 10000, -1, INT32_MAX, INT32_MIN};
    static const int32_t off[] = {REACH + 1, -REACH - 1, INT32_MAX, INT32_MIN};
    ullagreth_empty(table);
    SAME(enrol(WORDS, 1, REACH, -REACH), ULLAGRETH_DONE);
    SAME(enrol(WORDS, 9999, -REACH, REACH), ULLAGRETH_DONE);
    for (int32_t i = 2; i < 500; i++)
        SAME(enrol(WORDS, i, 37 * i % 1000, 91 * i % 1000), ULLAGRETH_DONE);
    for (size_t i = 0; i < LENGTH(numbers); i++) {
        enrol_refused(ULLAGRETH_NO_SUCH_NUMBER, WORDS, numbers[i], REACH + 1, 0);
        withdraw_refused(ULLAGRETH_NO_SUCH_NUMBER, WORDS, numbers[i]);
    }
    for (size_t i = 0; i < LENGTH(off); i++) {
        enrol_refused(ULLAGRETH_OFF_GRID, WORDS, 1, off[i], 0);
        enrol_refused(ULLAGRETH_OFF_GRID, WORDS, 1, 0, off[i]);
    }
    enrol_refused(ULLAGRETH_ALREADY_ENROLLED, WORDS, 9999, 0, 0);
    enrol_refused(ULLAGRETH_FULL, WORDS, 500, 0, 0);
    withdraw_refused(ULLAGRETH_NOT_ENROLLED, WORDS, 500);
    /* With one withdrawn there is room again. */
    SAME(withdraw(WORDS, 9999), ULLAGRETH_DONE);
    withdraw_refused(ULLAGRETH_NOT_ENROLLED, WORDS, 9999);
    SAME(enrol(WORDS, 500, 0, 0), ULLAGRETH_DONE);
    SAME(check(WORDS), ULLAGRETH_DONE);
    SAME(table[1], MOST);
}

/* ---- many places at once */

/* Five places across, four up. */
static uint8_t sites(size_t words, const int32_t *xs, const int32_t *ys, int32_t k, uint32_t *found, size_t places)
{
    return told(ullagreth_sites(table, words, xs, 5, ys, 4, k, found, places, unsaid(), FAULT));
}

static void many_places(void)
{
    static const int32_t xs[] = {-10, REACH + 1, 35, 0, 7}, ys[] = {0, 0, 0, -REACH - 1};
    struct point points[9];
    uint32_t found[5];
    nine(points);
    save();
    for (int32_t k = 0; k <= 17; k++) {
        for (size_t i = 0; i < 5; i++)
            found[i] = MARK;
        SAME(sites(WORDS, xs, ys, k, found, 5), ULLAGRETH_DONE);
        for (size_t i = 0; i < 4; i++)
            SAME(found[i], ask(WORDS, xs[i], ys[i], k, MOST, MOST) == ULLAGRETH_DONE ? counts[0] : 0);
        SAME(found[4], MARK);
    }
    SAME(sites(WORDS, xs, ys, 2, found, 1), ULLAGRETH_DONE);
    SAME(found[0], 1);
    SAME(found[4], MARK);
    /* A refused table, by the check's number. */
    found[0] = MARK;
    SAME(sites(WORDS - 1, xs, ys, 1, found, 5), ULLAGRETH_WRONG_LENGTH);
    SAME(stays(), 1);
    count_one_too_many();
    SAME(sites(WORDS, xs, ys, 1, found, 5), ULLAGRETH_NOT_WELL_FORMED);
    SAME(found[0], MARK);
}

/* ---- cards */

static uint32_t names[MOST_K + 1];
static uint64_t how_many[2];

/* From so many on, the list has its marks; so has the second place of the other row. */
static int unnamed_from(size_t n)
{
    int holds = how_many[1] == MARK;
    for (size_t i = n; i < LENGTH(names); i++)
        holds = holds && names[i] == MARK;
    return holds;
}

/* A card with a table of so many words and a list of so many places, on rows that are marked. */
static uint8_t ask_card(size_t words, int32_t number, int32_t k, size_t places)
{
    for (size_t i = 0; i < LENGTH(names); i++)
        names[i] = MARK;
    how_many[0] = how_many[1] = MARK;
    save();
    return told(ullagreth_card(table, words, number, k, names, places, how_many, 2, unsaid(), FAULT));
}

/* A card and what is wanted: how many names, and the names in card order. */
struct card {
    int32_t number, k;
    size_t n;
    uint32_t names[8];
};

/* With room to spare, with just enough, and with one place too few: then the length alone. */
static void try_cards(const struct card *cards, size_t n)
{
    for (const struct card *c = cards; c < cards + n; c++) {
        for (size_t places = c->n; places <= LENGTH(names); places += LENGTH(names) - c->n) {
            SAME(ask_card(WORDS, c->number, c->k, places), ULLAGRETH_DONE);
            SAME(how_many[0], c->n);
            SAME(memcmp(names, c->names, c->n * sizeof names[0]), 0);
            SAME(unnamed_from(c->n), 1);
            SAME(stays(), 1);
        }
        if (c->n == 0)
            continue;
        SAME(ask_card(WORDS, c->number, c->k, c->n - 1), ULLAGRETH_SHORT_LIST);
        SAME(how_many[0], c->n);
        SAME(unnamed_from(0), 1);
        SAME(stays(), 1);
    }
}

static void cards_of_few(void)
{
    static const struct point points[] = {{1, 0, 0}, {2, 4, 0}, {3, 10, 0}, {4, 4, 0}};
    /* Alone, a station has an empty card, for which a list of no places is long enough. */
    static const struct card of_one[] = {{1, 1, 0, {0}}, {1, 16, 0, {0}}};
    static const struct card of_three[] = {{2, 1, 1, {1}}, {2, 2, 2, {1, 3}}, {1, 16, 2, {2, 3}}, {3, 1, 1, {2}}};
    /* 4 stands where 2 does: each is the other's nearest, and to 1 and 3 they are as near, so that the lower number decides. */
    static const struct card of_four[] = {{2, 1, 1, {4}}, {4, 2, 2, {2, 1}}, {1, 1, 1, {2}}, {1, 2, 2, {2, 4}}, {3, 16, 3, {2, 4, 1}}};
    ullagreth_empty(table);
    enrol_all(points, 1);
    try_cards(of_one, LENGTH(of_one));
    enrol_all(points + 1, 2);
    try_cards(of_three, LENGTH(of_three));
    enrol_all(points + 3, 1);
    try_cards(of_four, LENGTH(of_four));
    /* With 2 enrolled after 4, it stands behind 4 in the leaf: the cards are the same. */
    SAME(withdraw(WORDS, 2), ULLAGRETH_DONE);
    enrol_all(points + 1, 1);
    try_cards(of_four, LENGTH(of_four));
    SAME(withdraw(WORDS, 4), ULLAGRETH_DONE);
    try_cards(of_three, LENGTH(of_three));
}

/* Slot 0 holds 1 to 4, slot 1 holds 5 to 9. 4 and 6 are as near to 5, and 4 and 8 to 6: the lower number, though its box is no nearer. */
static void cards_of_nine(void)
{
    static const struct card cards[] = {
        {5, 1, 1, {4}},
        {5, 3, 3, {4, 6, 3}},
        {5, 16, 8, {4, 6, 3, 7, 2, 8, 1, 9}},
        {6, 3, 3, {5, 7, 4}},
        {9, 2, 2, {8, 7}},
        {1, 5, 5, {2, 3, 4, 5, 6}},
    };
    struct point points[9];
    nine(points);
    try_cards(cards, LENGTH(cards));
    /* A row of no places for how many stays as it was. */
    how_many[0] = MARK;
    SAME(told(ullagreth_card(table, WORDS, 5, 1, names, MOST_K, how_many, 0, unsaid(), FAULT)), ULLAGRETH_DONE);
    SAME(how_many[0], MARK);
}

static void card_refused(uint8_t given, size_t words, int32_t number, int32_t k)
{
    SAME(ask_card(words, number, k, 0), given);
    SAME(how_many[0], 0);
    SAME(unnamed_from(0), 1);
    SAME(stays(), 1);
}

/* Every line from the wanted one on holds, and none before it. */
static void cards_refused(void)
{
    static const size_t lengths[] = {0, 1, WORDS - 1, WORDS + 1};
    static const int32_t numbers[] = {0, 10000, -1, INT32_MAX, INT32_MIN};
    static const int32_t ks[] = {0, 17, -1, INT32_MAX, INT32_MIN};
    struct point points[9];
    nine(points);
    for (size_t i = 0; i < 5; i++) {
        card_refused(ULLAGRETH_NO_SUCH_NUMBER, WORDS, numbers[i], ks[i]);
        card_refused(ULLAGRETH_NO_SUCH_NUMBER, WORDS, numbers[i], 1);
        card_refused(ULLAGRETH_NO_SUCH_K, WORDS, 10, ks[i]);
        card_refused(ULLAGRETH_NO_SUCH_K, WORDS, 9, ks[i]);
    }
    card_refused(ULLAGRETH_NOT_ENROLLED, WORDS, 10, 1);
    card_refused(ULLAGRETH_NOT_ENROLLED, WORDS, 9999, 16);
    table[WORDS] = 0;
    count_one_too_many();
    for (size_t i = 0; i < LENGTH(lengths); i++)
        card_refused(ULLAGRETH_WRONG_LENGTH, lengths[i], 0, 0);
    card_refused(ULLAGRETH_NOT_WELL_FORMED, WORDS, 0, 0);
    card_refused(ULLAGRETH_NOT_WELL_FORMED, WORDS, 5, 1);
    ullagreth_empty(table);
    card_refused(ULLAGRETH_NOT_ENROLLED, WORDS, 1, 1);
}

static uint8_t cards_of(size_t words, const int32_t *numbers, size_t n, int32_t k, uint32_t *cards, size_t places)
{
    return told(ullagreth_cards(table, words, numbers, n, k, cards, places, unsaid(), FAULT));
}

/* 0 and 10 have no card, and their stretches stay; so does what is left behind the last whole stretch, or the last number. */
static void many_cards(void)
{
    static const int32_t numbers[] = {5, 0, 6, 10, 9};
    static const uint32_t wanted[5][3] = {{4, 6, 3}, {MARK, MARK, MARK}, {5, 7, 4}, {MARK, MARK, MARK}, {8, 7, 6}};
    static const size_t lengths[] = {0, 3, 15, 16, 17, 31, 47, 48, 79, 80, 81, 6 * MOST_K};
    uint32_t cards[6 * MOST_K];
    struct point points[9];
    nine(points);
    save();
    for (size_t l = 0; l < LENGTH(lengths); l++) {
        for (size_t i = 0; i < LENGTH(cards); i++)
            cards[i] = MARK;
        SAME(cards_of(WORDS, numbers, 5, 3, cards, lengths[l]), ULLAGRETH_DONE);
        for (size_t i = 0; i < LENGTH(cards); i++) {
            size_t card = i / MOST_K, place = i % MOST_K;
            int written = card < 5 && (card + 1) * MOST_K <= lengths[l] && place < 3;
            SAME(cards[i], written ? wanted[card][place] : MARK);
        }
    }
    for (size_t i = 0; i < LENGTH(cards); i++)
        cards[i] = MARK;
    SAME(cards_of(WORDS, numbers, 0, 3, cards, LENGTH(cards)), ULLAGRETH_DONE);
    SAME(cards_of(WORDS, numbers, 5, 0, cards, LENGTH(cards)), ULLAGRETH_DONE);
    SAME(cards_of(WORDS, numbers, 5, 17, cards, LENGTH(cards)), ULLAGRETH_DONE);
    SAME(cards_of(WORDS - 1, numbers, 5, 3, cards, LENGTH(cards)), ULLAGRETH_WRONG_LENGTH);
    SAME(stays(), 1);
    count_one_too_many();
    SAME(cards_of(WORDS, numbers, 5, 3, cards, LENGTH(cards)), ULLAGRETH_NOT_WELL_FORMED);
    for (size_t i = 0; i < LENGTH(cards); i++)
        SAME(cards[i], MARK);
}

/* ---- where a table is bad */

/* Every call refuses the table and tells rule and slot, with arguments that the nine points' table would grant. */
static void all_refuse(void)
{
    static const int32_t five[5] = {5, 6, 7, 8, 9};
    uint32_t row[2 * MOST_K];
    for (size_t i = 0; i < LENGTH(row); i++)
        row[i] = MARK;
    save();
    SAME(check(WORDS), ULLAGRETH_NOT_WELL_FORMED);
    enrol_refused(ULLAGRETH_NOT_WELL_FORMED, WORDS, 10, 0, 0);
    withdraw_refused(ULLAGRETH_NOT_WELL_FORMED, WORDS, 5);
    query_refused(ULLAGRETH_NOT_WELL_FORMED, WORDS, 0, 0, 1, MOST);
    SAME(ask_card(WORDS, 5, 1, MOST_K), ULLAGRETH_NOT_WELL_FORMED);
    SAME(how_many[0], 0);
    SAME(unnamed_from(0), 1);
    SAME(sites(WORDS, five, five, 1, row, 4), ULLAGRETH_NOT_WELL_FORMED);
    SAME(cards_of(WORDS, five, 2, 1, row, LENGTH(row)), ULLAGRETH_NOT_WELL_FORMED);
    for (size_t i = 0; i < LENGTH(row); i++)
        SAME(row[i], MARK);
    SAME(stays(), 1);
}

/* Where word j of an entry is: its reference, x low, y low, x high, y high. */
#define ENTRY(slot, place, j) (2 + ULLAGRETH_SLOT_WORDS * (slot) + 2 + 5 * (place) + (j))
/* Where a slot's level is, and behind it how many entries it has. */
#define SLOT(slot) (2 + ULLAGRETH_SLOT_WORDS * (slot))

/* Some words of the nine points' table that become others, the rule that is then broken, and the slot. */
struct wrong {
    int32_t rule, slot;
    size_t n;
    struct {
        size_t at;
        int32_t word;
    } words[6];
};

static void places_told(void)
{
    static const struct wrong wrongs[] = {
        /* A word of a free slot; of an unused entry; of both, where the lower slot counts. */
        {1, 255, 1, {{SLOT(255) + 41, 1}}},
        {1, 0, 1, {{ENTRY(0, 7, 4), 1}}},
        {1, 0, 2, {{SLOT(255) + 41, 1}, {ENTRY(0, 4, 0), -1}}},
        /* No such root; a free one; too many points. */
        {2, ULLAGRETH_HEADER, 1, {{0, 256}}},
        {2, ULLAGRETH_HEADER, 1, {{0, 3}}},
        {2, ULLAGRETH_HEADER, 1, {{1, 501}}},
        /* Nine entries in slot 1; a level below 0 in slot 0 too. */
        {3, 1, 1, {{SLOT(1) + 1, 9}}},
        {3, 0, 2, {{SLOT(1) + 1, 9}, {SLOT(0), -2}}},
        /* A number that is none; 1 comes again in slot 0; 1 comes again in slot 1; slot 0 gets 9, which then comes again in slot 1. */
        {4, 1, 1, {{ENTRY(1, 0, 0), 10000}}},
        {4, 0, 1, {{ENTRY(0, 3, 0), 1}}},
        {4, 1, 1, {{ENTRY(1, 4, 0), 1}}},
        {4, 1, 1, {{ENTRY(0, 0, 0), 9}}},
        /* No such child; a free one; the root itself: of entries in slot 2. */
        {5, 2, 1, {{ENTRY(2, 1, 0), 256}}},
        {5, 2, 1, {{ENTRY(2, 1, 0), 3}}},
        {5, 2, 1, {{ENTRY(2, 0, 0), 2}}},
        /* A box too wide, and a point that has left its box: an entry in slot 2 again. */
        {6, 2, 1, {{ENTRY(2, 0, 3), 31}}},
        {6, 2, 2, {{ENTRY(1, 4, 1), 81}, {ENTRY(1, 4, 3), 81}}},
        /* A point too few. Both entries of the root are for slot 0: it is referred to twice, slot 1 not at all; and with a point too few. */
        {7, ULLAGRETH_HEADER, 1, {{1, 8}}},
        {7, 0, 3, {{ENTRY(2, 1, 0), 0}, {ENTRY(2, 1, 1), 0}, {ENTRY(2, 1, 3), 30}}},
        {7, ULLAGRETH_HEADER, 4, {{ENTRY(2, 1, 0), 0}, {ENTRY(2, 1, 1), 0}, {ENTRY(2, 1, 3), 30}, {1, 8}}},
        /* Rules 3 and 4; 6 and 7; 4 to 7; all seven: the lowest one counts, whatever slots the others have. */
        {3, 1, 2, {{SLOT(1) + 1, 9}, {ENTRY(0, 0, 0), 0}}},
        {6, 2, 2, {{ENTRY(2, 0, 3), 31}, {1, 8}}},
        {4, 1, 4, {{ENTRY(1, 0, 0), 0}, {ENTRY(2, 0, 0), -1}, {ENTRY(2, 1, 1), 0}, {1, 8}}},
        {1, 9, 6, {{SLOT(9) + 1, 1}, {0, -1}, {SLOT(0), -2}, {ENTRY(1, 0, 0), 0}, {ENTRY(2, 0, 0), -1}, {ENTRY(2, 1, 1), 0}}},
    };
    struct point points[9];
    for (const struct wrong *w = wrongs; w < wrongs + LENGTH(wrongs); w++) {
        nine(points);
        for (size_t i = 0; i < w->n; i++)
            table[w->words[i].at] = w->words[i].word;
        rule = w->rule;
        slot = w->slot;
        all_refuse();
    }
}

/* The number of a call whose row for rule and slot must stay as it was. */
static uint8_t silent(uint8_t number)
{
    SAME(fault[0] == MARK && fault[1] == MARK, 1);
    return number;
}

/* Each call gives a number, and leaves a row of so many places for rule and slot; enrolling comes after those that only look. */
static void all_leave(uint8_t number, size_t words, size_t places)
{
    static const int32_t five[5] = {5, 6, 7, 8, 9};
    uint32_t row[MOST_K];
    SAME(silent(ullagreth_check(table, words, unsaid(), places)), number);
    SAME(silent(ullagreth_query(table, words, 0, 0, 1, list, MOST, answers, MOST, counts, 4, fault, places)), number);
    SAME(silent(ullagreth_sites(table, words, five, 5, five, 5, 1, row, 5, fault, places)), number);
    SAME(silent(ullagreth_card(table, words, 5, 1, names, MOST_K, how_many, 2, fault, places)), number);
    SAME(silent(ullagreth_cards(table, words, five, 1, 1, row, MOST_K, fault, places)), number);
    SAME(silent(ullagreth_enrol(table, words, 10, 90, 0, fault, places)), number);
    SAME(silent(ullagreth_withdraw(table, words, 10, fault, places)), number);
}

/* A row of no places or of one stays whole, whatever the number; one of just two is long enough. */
static void short_faults(void)
{
    struct point points[9];
    for (size_t places = 0; places < 2; places++) {
        nine(points);
        all_leave(ULLAGRETH_DONE, WORDS, places);
        all_leave(ULLAGRETH_WRONG_LENGTH, WORDS - 1, places);
        count_one_too_many();
        all_leave(ULLAGRETH_NOT_WELL_FORMED, WORDS, places);
    }
    SAME(told(ullagreth_check(table, WORDS, unsaid(), 2)), ULLAGRETH_NOT_WELL_FORMED);
    SAME(told(ullagreth_check(table, WORDS - 1, unsaid(), 2)), ULLAGRETH_WRONG_LENGTH);
}

static void try(const char *name, void (*cases)(void))
{
    trying = name;
    cases();
}

int main(void)
{
    try("the empty table", empty_table);
    try("three and four points", three_and_four);
    try("nine points", nine_points);
    try("short counts", short_counts);
    try("tables refused", tables_refused);
    try("queries refused", queries_refused);
    try("changes refused", changes_refused);
    try("many places", many_places);
    try("cards of few", cards_of_few);
    try("cards of nine", cards_of_nine);
    try("cards refused", cards_refused);
    try("many cards", many_cards);
    try("places told", places_told);
    try("short faults", short_faults);
    if (failures > 0) {
        printf("the C header: %d of %d checks failed\n", failures, checks);
        return 1;
    }
    printf("the C header: %d checks hold\n", checks);
    return 0;
}
