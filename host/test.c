/* What hall.h says of the archive, and no proof covers, tried: widths and layout, the name of each refusal, the order of the
 * arguments, NULL with length 0, crowded pairs, lists of routes, passing times, old tables moved over, the longest image. Prints what does
 * not hold. */
#include "hall.h"

#include <stdio.h>
#include <string.h>

/* A score is a product in 64 bits, also by the old scale, and by this one fits 32; entries of 32 bits are compared in 32. */
_Static_assert(992 * HALL_OLD_SCALE == 230930219520, "a product with the scale must not wrap");
_Static_assert(63 * 62 * HALL_SCALE == 108274320 && 108274320 <= UINT32_MAX, "the largest score fits 32 bits");
_Static_assert(HALL_OLD_SCALE == 8398 * HALL_SCALE, "what a share is divided by");
_Static_assert(sizeof HALL_SCALE == sizeof(uint64_t) && sizeof HALL_STOPS == sizeof(uint64_t), "as wide as a score, as n");
_Static_assert(sizeof HALL_OLD_SCALE == sizeof(uint64_t) && sizeof HALL_OLD_WAYS == sizeof(uint32_t), "as wide as a score, as ways");
_Static_assert(sizeof HALL_MARK == sizeof(uint32_t) && sizeof HALL_WAYS == sizeof(uint32_t), "as wide as an entry");
_Static_assert(sizeof HALL_LARGEST_COST == sizeof(uint32_t) && sizeof HALL_LARGEST_PASSING == sizeof(uint32_t), "as wide as an entry");
_Static_assert(63 * HALL_LARGEST_COST + 62 * HALL_LARGEST_PASSING == 8191875 && 8191875 < HALL_MARK, "the largest time is not the mark");
_Static_assert(HALL_CROWDED_WAYS == HALL_WAYS + 1 && sizeof HALL_CROWDED_WAYS == sizeof(uint32_t), "as wide as an entry");
_Static_assert(HALL_LONGEST_ROUTE_LIST == 1 + HALL_WAYS * (1 + HALL_STOPS), "the number of routes, and for each its length and its stops");
_Static_assert(HALL_WAYS <= UINT8_MAX && HALL_STOPS <= UINT8_MAX, "each of these is a byte");
_Static_assert(sizeof HALL_LONGEST_ROUTE_LIST == sizeof(uint64_t), "as wide as a length");

/* An edit's answer and a list's in memory, that of a call that writes in two registers, as the archive returns them; an edit of a
 * list as it is read. */
_Static_assert(sizeof(hall_edited) == 24 && offsetof(hall_edited, rows) == 4, "layout, with 4 bytes of padding");
_Static_assert(offsetof(hall_edited, touched) == 8 && offsetof(hall_edited, before) == 16, "layout");
_Static_assert(sizeof(hall_listed) == 24 && offsetof(hall_listed, place) == 4, "layout, with 4 bytes of padding");
_Static_assert(offsetof(hall_listed, touched) == 8 && offsetof(hall_listed, rows) == 16, "layout");
_Static_assert(sizeof(hall_edit) == 4 * sizeof(uint64_t) && offsetof(hall_edit, from) == sizeof(uint64_t), "four numbers");
_Static_assert(offsetof(hall_edit, to) == 16 && offsetof(hall_edit, c) == 24, "in this order");
_Static_assert(sizeof(hall_written) == 16 && offsetof(hall_written, length) == 8, "layout, with 4 bytes of padding");

static int wrong;

#define HOLDS(fact)                                              \
    do {                                                         \
        if (!(fact)) {                                           \
            printf("test.c:%d: not so: %s\n", __LINE__, #fact);  \
            wrong++;                                             \
        }                                                        \
    } while (0)

enum { MOST = 64 * 64 };

static uint32_t cost[MOST], passing[64], time[MOST], ways[MOST];
static uint64_t share[MOST], score[64];
static uint8_t buffer[HALL_LONGEST_IMAGE];

/* Each test finds and leaves passing times of 0. */
static hall_tables tables_of(uint64_t n)
{
    return (hall_tables){.n = n, .cost = cost, .passing = passing, .time = time, .ways = ways, .share = share, .score = score};
}

#define NONE NULL, 0, NULL, 0, NULL, 0, NULL, 0, NULL, 0, NULL, 0
#define OLD_NONE NULL, 0, NULL, 0, NULL, 0, NULL, 0, NULL, 0

/* NULL with length 0 is a length that does not fit, in tables, images and buffers alike. */
static void null_is_empty(void)
{
    hall_tables t = tables_of(2);

    for (uint64_t n = 0; n < 3; n++) {
        uint32_t expected = n == 0 ? HALL_BAD_SIZE : HALL_BAD_LENGTH;
        HOLDS(hall_empty(n, NONE) == expected);
        HOLDS(hall_work_out(n, NONE) == expected);
        HOLDS(hall_audit(n, NONE) == expected);
        HOLDS(hall_move_over(n, OLD_NONE) == expected);
        HOLDS(hall_insert(n, 0, 1, 1, NONE).refusal == expected);
        HOLDS(hall_cheapen(n, 0, 1, 1, NONE).refusal == expected);
        HOLDS(hall_raise(n, 0, 1, 1, NONE).refusal == expected);
        HOLDS(hall_delete(n, 0, 1, NONE).refusal == expected);
        HOLDS(hall_edit_list(n, NULL, 0, NONE).refusal == expected);
        HOLDS(hall_edit_numbers(n, NULL, 0, NONE).refusal == expected);
        HOLDS(hall_list_routes(n, 0, 0, NONE, NULL, 0).refusal == expected);
        HOLDS(hall_image_write(n, NONE, NULL, 0).refusal == expected);
        HOLDS(hall_image_read(n, NULL, 0, NONE) == expected);
        HOLDS(hall_image_check(NULL, 0, n) == (n == 0 ? HALL_BAD_SIZE : HALL_BAD_IMAGE));
    }
    HOLDS(hall_empty(t.n, HALL_TABLES(t)) == HALL_ACCEPTED);
    HOLDS(hall_edit_list(t.n, NULL, 0, HALL_TABLES(t)).refusal == HALL_ACCEPTED);
    HOLDS(hall_list_routes(t.n, 0, 1, HALL_TABLES(t), NULL, 0).refusal == HALL_SHORT_BUFFER);
    HOLDS(hall_image_write(t.n, HALL_TABLES(t), NULL, 0).refusal == HALL_SHORT_BUFFER);
    HOLDS(hall_image_read(t.n, NULL, 0, HALL_TABLES(t)) == HALL_BAD_IMAGE);
}

/* Each refusal has the number that its name has, and the link goes from the first stop to the second. */
static void names_fit(void)
{
    hall_tables t = tables_of(3), other = tables_of(4);
    hall_edited e;

    HOLDS(hall_empty(0, HALL_TABLES(t)) == HALL_BAD_SIZE);
    HOLDS(hall_empty(3, HALL_TABLES(other)) == HALL_BAD_LENGTH);
    HOLDS(hall_empty(3, HALL_TABLES(t)) == HALL_ACCEPTED);
    e = hall_insert(3, 2, 1, 7, HALL_TABLES(t));
    HOLDS(e.refusal == HALL_ACCEPTED && e.rows == 1 && e.touched == 4 && e.before == 0 && cost[2 * 3 + 1] == 7);
    HOLDS(hall_insert(3, 2, 3, 7, HALL_TABLES(t)).refusal == HALL_BAD_STOP);
    HOLDS(hall_insert(3, 0, 1, HALL_LARGEST_COST + 1, HALL_TABLES(t)).refusal == HALL_BAD_COST);
    HOLDS(hall_insert(3, 2, 1, 7, HALL_TABLES(t)).refusal == HALL_LINK_PRESENT);
    HOLDS(hall_delete(3, 1, 2, HALL_TABLES(t)).refusal == HALL_LINK_ABSENT);
    HOLDS(hall_cheapen(3, 2, 1, 7, HALL_TABLES(t)).refusal == HALL_COST_WRONG_SIDE);
    HOLDS(hall_raise(3, 2, 1, 7, HALL_TABLES(t)).refusal == HALL_COST_WRONG_SIDE);
    HOLDS(hall_raise(3, 1, 2, 8, HALL_TABLES(t)).refusal == HALL_LINK_ABSENT);
    HOLDS(time[2 * 3 + 1] == 7 && time[1 * 3 + 2] == HALL_MARK);
    e = hall_raise(3, 2, 1, 8, HALL_TABLES(t));
    HOLDS(e.refusal == HALL_ACCEPTED && e.rows == 1 && e.touched == 4 && e.before == 7);
    HOLDS(cost[2 * 3 + 1] == 8 && time[2 * 3 + 1] == 8);
    e = hall_cheapen(3, 2, 1, 8, HALL_TABLES(t));
    HOLDS(e.refusal == HALL_COST_WRONG_SIDE && e.rows == 0 && e.touched == 0 && e.before == 0);
    HOLDS(hall_image_write(3, HALL_TABLES(t), buffer, 11).refusal == HALL_SHORT_BUFFER);
    HOLDS(hall_image_write(3, HALL_TABLES(t), buffer, 12).length == 12);
    HOLDS(hall_image_check(buffer, 12, 3) == HALL_ACCEPTED);
    HOLDS(hall_image_check(buffer, 12, 4) == HALL_BAD_IMAGE);
    HOLDS(hall_image_check(buffer, 12, 65) == HALL_BAD_SIZE);
    ways[2 * 3 + 1]++;
    HOLDS(hall_audit(3, HALL_TABLES(t)) == HALL_BAD_TABLES);
    HOLDS(hall_image_read(3, buffer, 12, HALL_TABLES(t)) == HALL_ACCEPTED);
    HOLDS(hall_audit(3, HALL_TABLES(t)) == HALL_ACCEPTED);
}

/* `between` ways of time 10 from 0 to 1, over a stop each from 2 on, worked out. */
static hall_tables bundle(uint64_t between)
{
    hall_tables t = tables_of(2 + between);

    memset(cost, 0, sizeof cost);
    for (uint64_t v = 2; v < t.n; v++)
        cost[v] = cost[v * t.n + 1] = 5;
    HOLDS(hall_work_out(t.n, HALL_TABLES(t)) == HALL_ACCEPTED);
    return t;
}

/* Whether the pair 0, 1 of such a hall is crowded, with no share and no score in the hall, and the tables pass the audit. */
static int is_crowded(hall_tables t)
{
    int good = ways[1] == HALL_CROWDED_WAYS && time[1] == 10 && hall_audit(t.n, HALL_TABLES(t)) == HALL_ACCEPTED;

    for (uint64_t i = 0; i < t.n * t.n; i++)
        good &= share[i] == 0;
    for (uint64_t v = 0; v < t.n; v++)
        good &= score[v] == 0;
    return good;
}

/* 12 ways are not too many; a 13th crowds the pair, by an insert, by a work out or by the delete of a quicker link, and so do 62. */
static void most_ways(void)
{
    hall_tables t = bundle(HALL_WAYS);
    hall_edited e;

    HOLDS(ways[1] == 12 && score[2] == 2310);
    t = bundle(HALL_CROWDED_WAYS);
    HOLDS(is_crowded(t));
    e = hall_delete(t.n, 14, 1, HALL_TABLES(t));
    HOLDS(e.refusal == HALL_ACCEPTED && e.rows == 2 && e.touched == 0x4001 && e.before == 5);
    HOLDS(ways[1] == 12 && share[2] == 2310 && score[2] == 2310 && score[14] == 0);
    e = hall_insert(t.n, 14, 1, 5, HALL_TABLES(t));
    HOLDS(e.refusal == HALL_ACCEPTED && e.rows == 2 && e.touched == 0x4001 && e.before == 0 && is_crowded(t));
    HOLDS(hall_insert(t.n, 0, 1, 9, HALL_TABLES(t)).refusal == HALL_ACCEPTED && ways[1] == 1 && time[1] == 9);
    e = hall_delete(t.n, 0, 1, HALL_TABLES(t));
    HOLDS(e.refusal == HALL_ACCEPTED && e.rows == 1 && e.touched == 1 && e.before == 9 && is_crowded(t));
    t = bundle(62);
    HOLDS(is_crowded(t));
}

/* An audit takes no other entry for a crowded pair, and no share that it might have had: 14 routes, an equal part of the scale for each. */
static void crowded_audit(void)
{
    hall_tables t = bundle(14);

    HOLDS(is_crowded(t));
    for (uint32_t wrong_ways = 0; wrong_ways < 64; wrong_ways++) {
        ways[1] = wrong_ways;
        HOLDS(hall_audit(t.n, HALL_TABLES(t)) == (wrong_ways == HALL_CROWDED_WAYS ? HALL_ACCEPTED : HALL_BAD_TABLES));
    }
    ways[1] = HALL_CROWDED_WAYS + 65536;
    HOLDS(hall_audit(t.n, HALL_TABLES(t)) == HALL_BAD_TABLES);
    for (int is_true = 0; is_true < 2; is_true++) {
        ways[1] = is_true ? 14 : HALL_CROWDED_WAYS;
        for (uint64_t v = 2; v < t.n; v++)
            share[v] = score[v] = HALL_SCALE / 14;
        HOLDS(hall_audit(t.n, HALL_TABLES(t)) == HALL_BAD_TABLES);
        memset(share, 0, sizeof share);
        memset(score, 0, sizeof score);
    }
    ways[1] = HALL_CROWDED_WAYS;
    HOLDS(is_crowded(t));
}

/* Links from each stop to all later ones, of the cost of their distance, so that the ways double from stop to stop. */
static hall_tables forward(uint64_t n)
{
    hall_tables t = tables_of(n);

    memset(cost, 0, sizeof cost);
    for (uint64_t u = 0; u < n; u++)
        for (uint64_t v = u + 1; v < n; v++)
            cost[u * n + v] = v - u;
    return t;
}

/* Ways are counted in 16 bits: too many are too many, however many, and what is right in 16 bits only is wrong. A stop far from the ends
 * has half of each pair around it that is less than five stops apart: 3 of these begin a stop before it, 2 two stops, 1 three. */
static void ways_in_16_bits(void)
{
    hall_tables t = forward(HALL_STOPS);
    int good = 1;

    HOLDS(hall_work_out(t.n, HALL_TABLES(t)) == HALL_ACCEPTED && ways[1] == 1 && ways[4] == 8);
    for (uint64_t v = 5; v < t.n; v++)
        good &= ways[v] == HALL_CROWDED_WAYS && time[v] == v;
    HOLDS(good && score[31] == 3 * HALL_SCALE && hall_audit(t.n, HALL_TABLES(t)) == HALL_ACCEPTED);
    t = forward(6);
    HOLDS(hall_work_out(t.n, HALL_TABLES(t)) == HALL_ACCEPTED && ways[5] == HALL_CROWDED_WAYS);
    t = forward(5);
    HOLDS(hall_work_out(t.n, HALL_TABLES(t)) == HALL_ACCEPTED);
    HOLDS(ways[4] == 8 && hall_audit(t.n, HALL_TABLES(t)) == HALL_ACCEPTED);
    ways[4] += 65536;
    HOLDS(hall_audit(t.n, HALL_TABLES(t)) == HALL_BAD_TABLES);
}

static uint32_t kept_cost[MOST], kept_passing[64], kept_time[MOST], kept_ways[MOST];
static uint64_t kept_share[MOST], kept_score[64];

static void keep(void)
{
    memcpy(kept_cost, cost, sizeof cost);
    memcpy(kept_passing, passing, sizeof passing);
    memcpy(kept_time, time, sizeof time);
    memcpy(kept_ways, ways, sizeof ways);
    memcpy(kept_share, share, sizeof share);
    memcpy(kept_score, score, sizeof score);
}

static int as_kept(void)
{
    return !memcmp(kept_cost, cost, sizeof cost) && !memcmp(kept_passing, passing, sizeof passing) &&
           !memcmp(kept_time, time, sizeof time) && !memcmp(kept_ways, ways, sizeof ways) && !memcmp(kept_share, share, sizeof share) &&
           !memcmp(kept_score, score, sizeof score);
}

static int same_sources(hall_edited a, hall_edited b) { return a.touched == b.touched && a.rows == b.rows; }

/* 11 ways from 0 to 1 over a stop each, of which the one over 3 is quickest: an edit of each kind changes the tables, and is
 * reversed from its answer. */
static void reversed(void)
{
    hall_tables t = tables_of(15);
    hall_edited e, back;

    memset(cost, 0, sizeof cost);
    for (uint64_t v = 2; v < 1 + HALL_WAYS; v++)
        cost[v] = cost[v * t.n + 1] = 5;
    cost[3] = 4;
    HOLDS(hall_work_out(t.n, HALL_TABLES(t)) == HALL_ACCEPTED && ways[1] == 1);
    keep();
    e = hall_insert(t.n, 0, 1, 8, HALL_TABLES(t));
    HOLDS(e.refusal == HALL_ACCEPTED && e.before == 0 && !as_kept());
    back = hall_delete(t.n, 0, 1, HALL_TABLES(t));
    HOLDS(back.refusal == HALL_ACCEPTED && same_sources(back, e) && back.before == 8 && as_kept());
    e = hall_raise(t.n, 0, 3, HALL_LARGEST_COST, HALL_TABLES(t));
    HOLDS(e.refusal == HALL_ACCEPTED && e.before == 4 && ways[1] == HALL_WAYS - 2 && !as_kept());
    back = hall_cheapen(t.n, 0, 3, e.before, HALL_TABLES(t));
    HOLDS(back.refusal == HALL_ACCEPTED && same_sources(back, e) && back.before == HALL_LARGEST_COST && as_kept());
    e = hall_cheapen(t.n, 0, 4, 4, HALL_TABLES(t));
    HOLDS(e.refusal == HALL_ACCEPTED && e.before == 5 && ways[1] == 2 && !as_kept());
    back = hall_raise(t.n, 0, 4, e.before, HALL_TABLES(t));
    HOLDS(back.refusal == HALL_ACCEPTED && same_sources(back, e) && back.before == 4 && as_kept());
    e = hall_delete(t.n, 3, 1, HALL_TABLES(t));
    HOLDS(e.refusal == HALL_ACCEPTED && e.before == 5 && !as_kept());
    back = hall_insert(t.n, 3, 1, e.before, HALL_TABLES(t));
    HOLDS(back.refusal == HALL_ACCEPTED && same_sources(back, e) && back.before == 0 && as_kept());
}

/* Whether row s of times, ways and shares is the one that was kept. */
static int row_as_kept(uint64_t n, uint64_t s)
{
    return !memcmp(kept_time + s * n, time + s * n, n * sizeof *time) && !memcmp(kept_ways + s * n, ways + s * n, n * sizeof *ways) &&
           !memcmp(kept_share + s * n, share + s * n, n * sizeof *share);
}

/* Each edit is reversed, where it crowds a pair, leaves it crowded or ends that: of 14 ways from 0 to 1 one runs slower, one closes, two
 * do; a quicker link opens. From a crowded pair to a crowded one row 0 is touched and looks the same, and the others stay. */
static void reversed_crowded(void)
{
    hall_tables t = bundle(14);
    hall_edited e, back;

    keep();
    e = hall_raise(t.n, 15, 1, 6, HALL_TABLES(t));
    HOLDS(e.refusal == HALL_ACCEPTED && e.touched == 0x8001 && e.before == 5 && is_crowded(t) && row_as_kept(t.n, 0) && !as_kept());
    for (uint64_t s = 1; s < 15; s++)
        HOLDS(row_as_kept(t.n, s));
    back = hall_cheapen(t.n, 15, 1, e.before, HALL_TABLES(t));
    HOLDS(back.refusal == HALL_ACCEPTED && same_sources(back, e) && back.before == 6 && as_kept());
    HOLDS(hall_delete(t.n, 15, 1, HALL_TABLES(t)).refusal == HALL_ACCEPTED && is_crowded(t) && row_as_kept(t.n, 0));
    keep();
    e = hall_delete(t.n, 0, 14, HALL_TABLES(t));
    HOLDS(e.refusal == HALL_ACCEPTED && e.touched == 1 && ways[1] == 12 && score[2] == 2310);
    back = hall_insert(t.n, 0, 14, e.before, HALL_TABLES(t));
    HOLDS(back.refusal == HALL_ACCEPTED && same_sources(back, e) && as_kept() && is_crowded(t));
    e = hall_insert(t.n, 0, 1, 9, HALL_TABLES(t));
    HOLDS(e.refusal == HALL_ACCEPTED && e.touched == 1 && ways[1] == 1);
    back = hall_delete(t.n, 0, 1, HALL_TABLES(t));
    HOLDS(back.refusal == HALL_ACCEPTED && same_sources(back, e) && back.before == 9 && as_kept());
    e = hall_cheapen(t.n, 0, 2, 4, HALL_TABLES(t));
    HOLDS(e.refusal == HALL_ACCEPTED && e.touched == 1 && ways[1] == 1 && score[2] == HALL_SCALE);
    back = hall_raise(t.n, 0, 2, e.before, HALL_TABLES(t));
    HOLDS(back.refusal == HALL_ACCEPTED && same_sources(back, e) && back.before == 4 && as_kept());
}

static int answers(hall_listed a, uint32_t refusal, uint32_t place, uint64_t touched, uint32_t rows)
{
    return a.refusal == refusal && a.place == place && a.touched == touched && a.rows == rows;
}

/* A list of each kind of edit, four numbers each, on a line of four stops: 0 to 1 to 2 to 3 of 5 each. */
static void listed(void)
{
    hall_tables t = tables_of(4);
    hall_edit list[34] = {
        {HALL_INSERT, 0, 3, 20}, {HALL_CHEAPEN, 0, 3, 15}, {HALL_RAISE, 2, 3, 6}, {HALL_DELETE, 1, 2, 99}, {HALL_DELETE, 1, 2, 99}};

    memset(cost, 0, sizeof cost);
    for (uint64_t u = 0; u < 3; u++)
        cost[u * 4 + u + 1] = 5;
    HOLDS(hall_work_out(4, HALL_TABLES(t)) == HALL_ACCEPTED);
    keep();
    HOLDS(answers(hall_edit_list(4, list, 0, HALL_TABLES(t)), HALL_ACCEPTED, 0, 0, 0) && as_kept());
    /* the insert is on no quickest route, the cheapened link ties, the raise reaches back to 0, the delete too */
    HOLDS(answers(hall_edit_list(4, list, 1, HALL_TABLES(t)), HALL_ACCEPTED, 0, 0, 0) && cost[3] == 20);
    HOLDS(answers(hall_edit_list(4, list + 1, 3, HALL_TABLES(t)), HALL_ACCEPTED, 0, 7, 3));
    HOLDS(cost[3] == 15 && cost[11] == 6 && cost[6] == 0 && time[3] == 15 && time[6] == HALL_MARK);
    keep();
    /* each refused: nothing has changed, though edits before it were made */
    HOLDS(answers(hall_edit_list(4, list, 5, HALL_TABLES(t)), HALL_LINK_PRESENT, 1, 0, 0) && as_kept());
    list[0] = (hall_edit){HALL_DELETE, 0, 3, 0};
    list[1] = (hall_edit){HALL_INSERT, 1, 2, 5};
    HOLDS(answers(hall_edit_list(4, list, 3, HALL_TABLES(t)), HALL_COST_WRONG_SIDE, 3, 0, 0) && as_kept());
    list[2].c = 7;
    HOLDS(answers(hall_edit_list(4, list, 5, HALL_TABLES(t)), HALL_LINK_ABSENT, 5, 0, 0) && as_kept());
    /* a kind that is none comes first, whatever else is wrong; 33 edits are too many */
    list[1].kind = 0;
    HOLDS(answers(hall_edit_list(0, list, 5, HALL_TABLES(t)), HALL_NO_KIND, 2, 0, 0) && as_kept());
    list[1].kind = HALL_DELETE + 1;
    HOLDS(answers(hall_edit_list(4, list, 34, HALL_TABLES(t)), HALL_NO_KIND, 2, 0, 0) && as_kept());
    for (int i = 0; i < 34; i++)
        list[i] = i % 2 ? (hall_edit){HALL_DELETE, 3, 0, 0} : (hall_edit){HALL_INSERT, 3, 0, 1};
    HOLDS(answers(hall_edit_list(4, list, 33, HALL_TABLES(t)), HALL_LIST_TOO_LONG, 0, 0, 0) && as_kept());
    HOLDS(answers(hall_edit_list(4, list, SIZE_MAX, HALL_TABLES(t)), HALL_LIST_TOO_LONG, 0, 0, 0) && as_kept());
    HOLDS(answers(hall_edit_list(4, list, (size_t)1 << 62, HALL_TABLES(t)), HALL_LIST_TOO_LONG, 0, 0, 0) && as_kept());
    /* numbers that are no edit */
    HOLDS(answers(hall_edit_numbers(4, &list[0].kind, 3, HALL_TABLES(t)), HALL_NO_KIND, 1, 0, 0) && as_kept());
    HOLDS(answers(hall_edit_numbers(4, &list[0].kind, 7, HALL_TABLES(t)), HALL_NO_KIND, 2, 0, 0) && as_kept());
    HOLDS(hall_edit_list(4, list, HALL_EDITS, HALL_TABLES(t)).refusal == HALL_ACCEPTED && as_kept());
    HOLDS(answers(hall_edit_list(5, list, 33, HALL_TABLES(t)), HALL_BAD_LENGTH, 0, 0, 0));
    ways[3]++;
    HOLDS(answers(hall_edit_list(4, list, 33, HALL_TABLES(t)), HALL_BAD_TABLES, 0, 0, 0));
}

/* A list may crowd a pair for good or in passing; refused, it is put back, from a crowded hall and to one. */
static void listed_crowded(void)
{
    hall_tables t = bundle(HALL_CROWDED_WAYS);
    hall_edit list[3] = {{HALL_DELETE, 0, 1, 0}, {HALL_DELETE, 14, 1, 0}, {HALL_DELETE, 14, 1, 0}};

    HOLDS(hall_insert(t.n, 0, 1, 9, HALL_TABLES(t)).refusal == HALL_ACCEPTED && ways[1] == 1);
    keep();
    HOLDS(answers(hall_edit_list(t.n, list, 3, HALL_TABLES(t)), HALL_LINK_ABSENT, 3, 0, 0) && as_kept());
    HOLDS(answers(hall_edit_list(t.n, list, 2, HALL_TABLES(t)), HALL_ACCEPTED, 0, 0x4001, 2) && ways[1] == 12 && score[2] == 2310);
    list[0] = (hall_edit){HALL_INSERT, 14, 1, 5};
    HOLDS(answers(hall_edit_list(t.n, list, 1, HALL_TABLES(t)), HALL_ACCEPTED, 0, 0x4001, 2) && is_crowded(t));
    keep();
    list[0] = (hall_edit){HALL_RAISE, 0, 14, 6};
    HOLDS(answers(hall_edit_list(t.n, list, 3, HALL_TABLES(t)), HALL_LINK_ABSENT, 3, 0, 0) && as_kept());
    list[1] = (hall_edit){HALL_CHEAPEN, 0, 14, 5};
    HOLDS(answers(hall_edit_list(t.n, list, 2, HALL_TABLES(t)), HALL_ACCEPTED, 0, 1, 1) && as_kept());
}

/* Lists into `room` bytes of the buffer, all of which hold 0xa5 before. What the call answers, or HALL_NO_KIND if a table has changed,
 * or a byte past the list, or if refused any byte, or if the length is not 0 then. */
static hall_written list_into(size_t room, hall_tables t, uint64_t n, uint64_t from, uint64_t to)
{
    hall_written w;

    keep();
    memset(buffer, 0xa5, sizeof buffer);
    w = hall_list_routes(n, from, to, HALL_TABLES(t), buffer, room);
    if (!as_kept() || w.length > room || (w.refusal != HALL_ACCEPTED && w.length != 0))
        w.refusal = HALL_NO_KIND;
    for (size_t i = w.length; i < sizeof buffer; i++)
        if (buffer[i] != 0xa5)
            w.refusal = HALL_NO_KIND;
    return w;
}

/* Whether the list is accepted and these are its bytes, also where the buffer has no byte more, and one less is refused with 10. */
static int lists(hall_tables t, uint64_t from, uint64_t to, const char *bytes, size_t length)
{
    hall_written w = list_into(sizeof buffer, t, t.n, from, to);
    int good = w.refusal == HALL_ACCEPTED && w.length == length && !memcmp(buffer, bytes, length);

    w = list_into(length, t, t.n, from, to);
    good &= w.refusal == HALL_ACCEPTED && w.length == length && !memcmp(buffer, bytes, length);
    return good && list_into(length - 1, t, t.n, from, to).refusal == HALL_SHORT_BUFFER;
}

/* Two ways from 3 to 0, over 1 and over 4 and 2, and a slower one over 2 alone: the list of them, of a part, of a stop, of none; and
 * the refusals in their order. */
static void routes_listed(void)
{
    hall_tables t = tables_of(5), other = tables_of(4);

    memset(cost, 0, sizeof cost);
    cost[3 * 5 + 1] = cost[1 * 5 + 0] = 6;
    cost[3 * 5 + 4] = cost[4 * 5 + 2] = cost[2 * 5 + 0] = 4;
    cost[3 * 5 + 2] = 9;
    HOLDS(hall_work_out(5, HALL_TABLES(t)) == HALL_ACCEPTED && ways[3 * 5 + 0] == 2);
    HOLDS(lists(t, 3, 0, "\2\3\3\1\0\4\3\4\2\0", 10));
    HOLDS(lists(t, 4, 0, "\1\3\4\2\0", 5));
    HOLDS(lists(t, 3, 1, "\1\2\3\1", 4));
    HOLDS(lists(t, 3, 3, "\1\1\3", 3) && lists(t, 0, 0, "\1\1\0", 3));
    HOLDS(lists(t, 0, 3, "\0", 1) && lists(t, 1, 2, "\0", 1));
    /* a stop of n or more comes before a buffer that is too short, also one that 32 bits or a byte would take for another */
    HOLDS(list_into(0, t, 5, 5, 0).refusal == HALL_BAD_STOP && list_into(0, t, 5, 0, 5).refusal == HALL_BAD_STOP);
    HOLDS(list_into(9, t, 5, 3 + 256, 0).refusal == HALL_BAD_STOP && list_into(9, t, 5, 3, 256).refusal == HALL_BAD_STOP);
    HOLDS(list_into(9, t, 5, 3, UINT64_C(1) << 32).refusal == HALL_BAD_STOP);
    HOLDS(list_into(9, t, 5, UINT64_MAX, UINT64_MAX).refusal == HALL_BAD_STOP);
    HOLDS(list_into(0, t, 5, 3, 0).refusal == HALL_SHORT_BUFFER && list_into(0, t, 5, 0, 3).refusal == HALL_SHORT_BUFFER);
    ways[3 * 5 + 0]++;
    HOLDS(list_into(0, t, 5, 5, 5).refusal == HALL_BAD_TABLES);
    HOLDS(list_into(0, other, 5, 5, 5).refusal == HALL_BAD_LENGTH && list_into(0, other, 0, 5, 5).refusal == HALL_BAD_SIZE);
    HOLDS(list_into(0, other, HALL_STOPS + 1, 5, 5).refusal == HALL_BAD_SIZE);
}

/* 12 ways over a stop each are listed in order of that stop. */
static void twelve_listed(void)
{
    hall_tables t = tables_of(2 + HALL_WAYS);
    char bytes[1 + 12 * 4] = {12};

    memset(cost, 0, sizeof cost);
    for (uint64_t v = 2; v < t.n; v++) {
        cost[v] = cost[v * t.n + 1] = HALL_LARGEST_COST;
        memcpy(bytes + 1 + 4 * (v - 2), (char[]){3, 0, (char)v, 1}, 4);
    }
    HOLDS(hall_work_out(t.n, HALL_TABLES(t)) == HALL_ACCEPTED);
    HOLDS(lists(t, 0, 1, bytes, sizeof bytes));
}

/* The routes of a crowded pair are not listed, whatever the buffer, which stays; those of other pairs in its hall are. 14 comes after 1, 2,
 * 13, 3 and 4 and before 10. */
static void crowded_not_listed(void)
{
    hall_tables t = bundle(HALL_CROWDED_WAYS), other = tables_of(14);

    HOLDS(list_into(sizeof buffer, t, t.n, 0, 1).refusal == HALL_CROWDED_PAIR);
    HOLDS(list_into(53, t, t.n, 0, 1).refusal == HALL_CROWDED_PAIR && list_into(1, t, t.n, 0, 1).refusal == HALL_CROWDED_PAIR);
    HOLDS(list_into(0, t, t.n, 0, 1).refusal == HALL_CROWDED_PAIR);
    HOLDS(hall_list_routes(t.n, 0, 1, HALL_TABLES(t), NULL, 0).refusal == HALL_CROWDED_PAIR);
    HOLDS(lists(t, 0, 14, "\1\2\0\16", 4) && lists(t, 2, 1, "\1\2\2\1", 4) && lists(t, 0, 0, "\1\1\0", 3) && lists(t, 1, 0, "\0", 1));
    HOLDS(list_into(0, t, t.n, 0, 15).refusal == HALL_BAD_STOP && list_into(0, t, t.n, 15, 1).refusal == HALL_BAD_STOP);
    HOLDS(list_into(0, t, t.n, 0, 1 + (UINT64_C(1) << 32)).refusal == HALL_BAD_STOP);
    share[2]++;
    HOLDS(list_into(0, t, t.n, 0, 1).refusal == HALL_BAD_TABLES);
    share[2]--;
    passing[1] = HALL_LARGEST_PASSING + 1;
    HOLDS(list_into(0, t, t.n, 0, 1).refusal == HALL_BAD_PASSING);
    HOLDS(list_into(0, other, t.n, 0, 1).refusal == HALL_BAD_LENGTH && list_into(0, t, 0, 0, 1).refusal == HALL_BAD_SIZE);
    passing[1] = 0;
    /* one way fewer, and they are listed */
    HOLDS(hall_delete(t.n, 0, 14, HALL_TABLES(t)).refusal == HALL_ACCEPTED);
    HOLDS(list_into(48, t, t.n, 0, 1).refusal == HALL_SHORT_BUFFER && list_into(49, t, t.n, 0, 1).length == 49);
}

/* Whether the list in the buffer ends at `length` and has quickest routes from 0 to 63, each behind the one before it. */
static int routes_in_order(hall_tables t, size_t length)
{
    size_t at = 1, last = 0;

    for (int left = buffer[0]; left > 0; left--) {
        size_t stops = buffer[at];
        uint64_t all = 0;

        if (at + stops >= length || buffer[at + 1] != 0 || buffer[at + stops] != 63)
            return 0;
        for (size_t i = at + 1; i < at + stops; i++) {
            if (buffer[i] >= t.n || cost[buffer[i] * t.n + buffer[i + 1]] == 0)
                return 0;
            all += cost[buffer[i] * t.n + buffer[i + 1]];
        }
        if (all != time[63] || (last != 0 && memcmp(buffer + last + 1, buffer + at + 1, stops) >= 0))
            return 0;
        last = at;
        at += 1 + stops;
    }
    return at == length;
}

/* A line of 64 stops with links past stops 1, 3, 5 and 6, which makes 12 ways: no list is longer. */
static void longest_list(void)
{
    hall_tables t = tables_of(HALL_STOPS);
    hall_written w;

    memset(cost, 0, sizeof cost);
    for (uint64_t u = 0; u + 1 < t.n; u++)
        cost[u * t.n + u + 1] = 1;
    cost[0 * t.n + 2] = cost[2 * t.n + 4] = cost[4 * t.n + 6] = cost[5 * t.n + 7] = 2;
    HOLDS(hall_work_out(t.n, HALL_TABLES(t)) == HALL_ACCEPTED);
    HOLDS(list_into(760, t, t.n, 0, 63).refusal == HALL_SHORT_BUFFER);
    w = list_into(761, t, t.n, 0, 63);
    HOLDS(w.refusal == HALL_ACCEPTED && w.length == 761 && buffer[0] == HALL_WAYS && routes_in_order(t, 761));
}

/* The tables of t with passing times that lie elsewhere. */
#define PASSING(t, p, length)                                                                                          \
    (t).cost, (t).n * (t).n, p, length, (t).time, (t).n * (t).n, (t).ways, (t).n * (t).n, (t).share, (t).n * (t).n, \
        (t).score, (t).n

/* Whether each call that is lent passing times answers this to them, and has changed nothing. Its other arguments are such that it is
 * refused later, but for hall_empty. */
static int all_answer(hall_tables t, uint64_t n, const uint32_t *p, size_t length, uint32_t refusal)
{
    hall_edit list[33];
    int good;

    for (int i = 0; i < 33; i++)
        list[i] = (hall_edit){HALL_DELETE, n, n, 0};
    keep();
    good = hall_empty(n, PASSING(t, p, length)) == refusal && hall_work_out(n, PASSING(t, p, length)) == refusal &&
           hall_audit(n, PASSING(t, p, length)) == refusal && hall_insert(n, n, n, 0, PASSING(t, p, length)).refusal == refusal &&
           hall_cheapen(n, n, n, 0, PASSING(t, p, length)).refusal == refusal &&
           hall_raise(n, n, n, 0, PASSING(t, p, length)).refusal == refusal &&
           hall_delete(n, n, n, PASSING(t, p, length)).refusal == refusal &&
           hall_edit_list(n, list, 33, PASSING(t, p, length)).refusal == refusal &&
           hall_list_routes(n, n, n, PASSING(t, p, length), NULL, 0).refusal == refusal &&
           hall_image_write(n, PASSING(t, p, length), NULL, 0).refusal == refusal &&
           hall_image_read(n, NULL, 0, PASSING(t, p, length)) == refusal;
    return good && as_kept();
}

/* 1, 2 and 13 come in this order, and before the tests of damaged tables with a cost that is none. */
static void passing_refused(void)
{
    hall_tables t = tables_of(4);

    HOLDS(hall_empty(4, HALL_TABLES(t)) == HALL_ACCEPTED);
    cost[0] = 1;
    ways[3]++;
    passing[3] = HALL_LARGEST_PASSING + 1;
    HOLDS(all_answer(t, 4, passing, 4, HALL_BAD_PASSING));
    HOLDS(all_answer(t, 4, passing, 3, HALL_BAD_LENGTH) && all_answer(t, 4, passing, 5, HALL_BAD_LENGTH));
    HOLDS(all_answer(t, 4, passing, 16, HALL_BAD_LENGTH) && all_answer(t, 4, NULL, 0, HALL_BAD_LENGTH));
    HOLDS(all_answer(t, 0, passing, 4, HALL_BAD_SIZE) && all_answer(t, HALL_STOPS + 1, passing, 4, HALL_BAD_SIZE));
    passing[3] = 0;
    passing[0] = UINT32_MAX;
    HOLDS(all_answer(t, 4, passing, 4, HALL_BAD_PASSING));
    passing[0] = UINT32_C(1) << 31;
    HOLDS(all_answer(t, 4, passing, 4, HALL_BAD_PASSING));
    /* the largest is not too long, and what lies behind the table is not looked at */
    passing[0] = HALL_LARGEST_PASSING;
    passing[4] = UINT32_MAX;
    HOLDS(hall_audit(4, HALL_TABLES(t)) == HALL_BAD_TABLES && hall_work_out(4, HALL_TABLES(t)) == HALL_BAD_COST);
    HOLDS(hall_image_read(4, NULL, 0, HALL_TABLES(t)) == HALL_BAD_IMAGE);
    HOLDS(hall_empty(4, HALL_TABLES(t)) == HALL_ACCEPTED && hall_audit(4, HALL_TABLES(t)) == HALL_ACCEPTED);
    memset(passing, 0, sizeof passing);
}

/* Passing times in memory that can only be read: a call that wrote them would end the program. */
static void passing_only_read(void)
{
    static const uint32_t fixed[15] = {9, 9, 1, 1, 1, 1, 1, 1, 1, 1, 1, 1, 1, 1, 0};
    hall_tables t = tables_of(15);
    hall_edit list[2] = {{HALL_INSERT, 1, 0, 7}, {HALL_DELETE, 1, 0, 0}};
    hall_written w;

    HOLDS(hall_empty(15, PASSING(t, fixed, 15)) == HALL_ACCEPTED);
    for (uint64_t v = 2; v < 15; v++)
        cost[v] = cost[v * 15 + 1] = 5;
    /* 12 ways of time 11, and one of 10 over the last stop, which has no passing time */
    HOLDS(hall_work_out(15, PASSING(t, fixed, 15)) == HALL_ACCEPTED && time[1] == 10 && ways[1] == 1 && score[14] == HALL_SCALE);
    HOLDS(hall_audit(15, PASSING(t, fixed, 15)) == HALL_ACCEPTED);
    HOLDS(hall_raise(15, 0, 14, 6, PASSING(t, fixed, 15)).refusal == HALL_ACCEPTED && ways[1] == HALL_CROWDED_WAYS && time[1] == 11);
    HOLDS(hall_list_routes(15, 0, 1, PASSING(t, fixed, 15), buffer, sizeof buffer).refusal == HALL_CROWDED_PAIR);
    HOLDS(hall_insert(15, 0, 1, 11, PASSING(t, fixed, 15)).refusal == HALL_ACCEPTED);
    HOLDS(hall_raise(15, 0, 14, 7, PASSING(t, fixed, 15)).refusal == HALL_ACCEPTED && ways[1] == HALL_CROWDED_WAYS && score[2] == 0);
    HOLDS(hall_delete(15, 0, 1, PASSING(t, fixed, 15)).refusal == HALL_ACCEPTED && ways[1] == 12 && score[2] == 2310);
    HOLDS(hall_cheapen(15, 0, 14, 5, PASSING(t, fixed, 15)).refusal == HALL_ACCEPTED && ways[1] == 1);
    HOLDS(hall_edit_list(15, list, 2, PASSING(t, fixed, 15)).refusal == HALL_ACCEPTED);
    w = hall_list_routes(15, 0, 1, PASSING(t, fixed, 15), buffer, sizeof buffer);
    HOLDS(w.refusal == HALL_ACCEPTED && w.length == 5 && !memcmp(buffer, "\1\3\0\16\1", 5));
    w = hall_image_write(15, PASSING(t, fixed, 15), buffer, sizeof buffer);
    HOLDS(w.refusal == HALL_ACCEPTED && hall_image_read(15, buffer, w.length, PASSING(t, fixed, 15)) == HALL_ACCEPTED);
    cost[14] = 6;
    HOLDS(hall_work_out(15, PASSING(t, fixed, 15)) == HALL_ACCEPTED && ways[1] == HALL_CROWDED_WAYS);
    HOLDS(hall_audit(15, PASSING(t, fixed, 15)) == HALL_ACCEPTED);
}

/* A line of four stops of 5 each, with another passing time at each stop: what a route passes is added, its ends are not, whichever way
 * the tables are made. */
static void only_between(void)
{
    hall_tables t = tables_of(4);
    hall_edited e;

    memcpy(passing, (uint32_t[]){1000, 10, 1, 100}, 4 * sizeof *passing);
    HOLDS(hall_empty(4, HALL_TABLES(t)) == HALL_ACCEPTED);
    for (uint64_t u = 0; u < 3; u++)
        HOLDS(hall_insert(4, u, u + 1, 5, HALL_TABLES(t)).refusal == HALL_ACCEPTED);
    HOLDS(time[0 * 4 + 1] == 5 && time[0 * 4 + 2] == 20 && time[0 * 4 + 3] == 26 && time[1 * 4 + 3] == 11 && time[2 * 4 + 3] == 5);
    keep();
    HOLDS(hall_work_out(4, HALL_TABLES(t)) == HALL_ACCEPTED && as_kept());
    /* past stop 1: slower by one, as quick, quicker by one */
    e = hall_insert(4, 0, 2, 21, HALL_TABLES(t));
    HOLDS(e.refusal == HALL_ACCEPTED && e.touched == 0 && e.rows == 0);
    e = hall_cheapen(4, 0, 2, 20, HALL_TABLES(t));
    HOLDS(e.refusal == HALL_ACCEPTED && e.touched == 1 && ways[3] == 2 && score[1] == HALL_SCALE && score[2] == 2 * HALL_SCALE);
    HOLDS(lists(t, 0, 3, "\2\4\0\1\2\3\3\0\2\3", 10));
    e = hall_cheapen(4, 0, 2, 19, HALL_TABLES(t));
    HOLDS(e.refusal == HALL_ACCEPTED && e.touched == 1 && ways[3] == 1 && time[3] == 25 && score[1] == 0);
    HOLDS(lists(t, 0, 3, "\1\3\0\2\3", 5));
    memset(passing, 0, sizeof passing);
}

/* A line of 64 stops, all numbers the largest: the largest time, and no more in a hall where the ends pass at once. */
static void largest_time(void)
{
    hall_tables t = tables_of(HALL_STOPS);

    memset(cost, 0, sizeof cost);
    for (uint64_t u = 0; u + 1 < t.n; u++)
        cost[u * t.n + u + 1] = HALL_LARGEST_COST;
    for (uint64_t v = 0; v < t.n; v++)
        passing[v] = HALL_LARGEST_PASSING;
    HOLDS(hall_work_out(t.n, HALL_TABLES(t)) == HALL_ACCEPTED && time[63] == 8191875 && score[31] == 992 * HALL_SCALE);
    HOLDS(hall_audit(t.n, HALL_TABLES(t)) == HALL_ACCEPTED && list_into(66, t, t.n, 0, 63).length == 66);
    passing[0] = passing[63] = 0;
    HOLDS(hall_audit(t.n, HALL_TABLES(t)) == HALL_ACCEPTED);
    passing[62] = 0;
    HOLDS(hall_audit(t.n, HALL_TABLES(t)) == HALL_BAD_TABLES);
    memset(passing, 0, sizeof passing);
}

/* Whether each call that looks at the tables answers this, and nothing has changed. */
static int lookers_answer(hall_tables t, uint32_t refusal)
{
    keep();
    return hall_audit(t.n, HALL_TABLES(t)) == refusal && hall_insert(t.n, 0, t.n, 1, HALL_TABLES(t)).refusal == refusal &&
           hall_cheapen(t.n, 0, t.n, 1, HALL_TABLES(t)).refusal == refusal &&
           hall_raise(t.n, 0, t.n, 1, HALL_TABLES(t)).refusal == refusal &&
           hall_delete(t.n, 0, t.n, HALL_TABLES(t)).refusal == refusal &&
           hall_edit_list(t.n, NULL, 0, HALL_TABLES(t)).refusal == refusal &&
           hall_list_routes(t.n, 0, t.n, HALL_TABLES(t), NULL, 0).refusal == refusal &&
           hall_image_write(t.n, HALL_TABLES(t), NULL, 0).refusal == refusal && as_kept();
}

/* Two ways from 0 to 3, over 1, where passing takes 1, and over 2: a change of the table is found where it changes another one, and a
 * hall gets other passing times by a work out. */
static void passing_changed(void)
{
    hall_tables t = tables_of(4);

    memset(cost, 0, sizeof cost);
    cost[0 * 4 + 1] = cost[0 * 4 + 2] = cost[1 * 4 + 3] = cost[2 * 4 + 3] = 5;
    passing[1] = 1;
    HOLDS(hall_work_out(4, HALL_TABLES(t)) == HALL_ACCEPTED && time[3] == 10 && score[2] == HALL_SCALE);
    passing[2] = 2; /* another time */
    HOLDS(lookers_answer(t, HALL_BAD_TABLES));
    passing[2] = 1; /* another time and number of ways */
    HOLDS(lookers_answer(t, HALL_BAD_TABLES));
    passing[1] = passing[2] = 0; /* another number of ways alone */
    HOLDS(lookers_answer(t, HALL_BAD_TABLES));
    passing[2] = 1; /* the same times and ways, other shares */
    HOLDS(lookers_answer(t, HALL_BAD_TABLES));
    passing[0] = passing[3] = 8;
    passing[1] = 7; /* nothing that counts */
    passing[2] = 0;
    HOLDS(hall_audit(4, HALL_TABLES(t)) == HALL_ACCEPTED);
    passing[1] = 0;
    passing[2] = 1;
    HOLDS(hall_work_out(4, HALL_TABLES(t)) == HALL_ACCEPTED && time[3] == 10 && score[1] == HALL_SCALE && score[2] == 0);
    HOLDS(hall_audit(4, HALL_TABLES(t)) == HALL_ACCEPTED);
    memset(passing, 0, sizeof passing);
}

/* 12 ways, and a quicker one that passing makes the 13th, or a slower one. A passing time that is too long is refused, and with the former
 * ones set back all is as it was. */
static void passing_crowds(void)
{
    hall_tables t = bundle(HALL_CROWDED_WAYS);
    hall_written w;

    HOLDS(hall_cheapen(t.n, 0, 2, 4, HALL_TABLES(t)).refusal == HALL_ACCEPTED && ways[1] == 1);
    w = hall_image_write(t.n, HALL_TABLES(t), buffer, sizeof buffer);
    keep();
    passing[2] = HALL_LARGEST_PASSING + 1;
    HOLDS(hall_work_out(t.n, HALL_TABLES(t)) == HALL_BAD_PASSING);
    HOLDS(hall_image_read(t.n, buffer, w.length, HALL_TABLES(t)) == HALL_BAD_PASSING);
    passing[2] = 0;
    HOLDS(as_kept() && hall_audit(t.n, HALL_TABLES(t)) == HALL_ACCEPTED);
    passing[2] = 1;
    HOLDS(hall_work_out(t.n, HALL_TABLES(t)) == HALL_ACCEPTED && is_crowded(t));
    keep();
    passing[2] = 2;
    HOLDS(hall_image_read(t.n, buffer, w.length, HALL_TABLES(t)) == HALL_ACCEPTED && ways[1] == 12 && time[1] == 10);
    passing[2] = 1;
    HOLDS(hall_image_read(t.n, buffer, w.length, HALL_TABLES(t)) == HALL_ACCEPTED && is_crowded(t) && as_kept());
    memset(passing, 0, sizeof passing);
}

/* An image has links only: its bytes are the same with any passing times, and with those of the hall that was written it gives back
 * all five tables. */
static void image_without_passing(void)
{
    static uint8_t other[HALL_LONGEST_IMAGE];
    hall_tables t = forward(4);
    hall_written w, o;

    HOLDS(hall_work_out(t.n, HALL_TABLES(t)) == HALL_ACCEPTED && ways[3] == 4);
    o = hall_image_write(t.n, HALL_TABLES(t), other, sizeof other);
    passing[1] = 1;
    passing[3] = 5;
    HOLDS(hall_work_out(t.n, HALL_TABLES(t)) == HALL_ACCEPTED && ways[3] == 2);
    w = hall_image_write(t.n, HALL_TABLES(t), buffer, sizeof buffer);
    HOLDS(w.refusal == HALL_ACCEPTED && w.length == o.length && !memcmp(buffer, other, w.length));
    keep();
    HOLDS(hall_empty(t.n, HALL_TABLES(t)) == HALL_ACCEPTED && !as_kept());
    HOLDS(hall_image_read(t.n, buffer, w.length, HALL_TABLES(t)) == HALL_ACCEPTED && as_kept());
    memset(passing, 0, sizeof passing);
    HOLDS(hall_image_read(t.n, buffer, w.length, HALL_TABLES(t)) == HALL_ACCEPTED && ways[3] == 4);
}

/* Five tables by the old numbers, put down entry by entry: `between` ways of time 10 from 0 to 1, each over one stop. */
static hall_tables old_hall(uint64_t between)
{
    hall_tables t = tables_of(2 + between);

    memset(cost, 0, sizeof cost);
    memset(time, 0xff, sizeof time);
    memset(ways, 0, sizeof ways);
    memset(share, 0, sizeof share);
    memset(score, 0, sizeof score);
    for (uint64_t v = 0; v < t.n; v++) {
        time[v * t.n + v] = 0;
        ways[v * t.n + v] = 1;
    }
    for (uint64_t v = 2; v < t.n; v++) {
        cost[v] = cost[v * t.n + 1] = time[v] = time[v * t.n + 1] = 5;
        ways[v] = ways[v * t.n + 1] = 1;
        share[v] = score[v] = HALL_OLD_SCALE / between;
    }
    time[1] = 10;
    ways[1] = between;
    return t;
}

/* What the moving call answers, or HALL_NO_KIND if it refuses and some byte has changed. */
static uint32_t move(uint64_t n, hall_tables t)
{
    uint32_t refusal;

    keep();
    refusal = hall_move_over(n, HALL_OLD_TABLES(t));
    return refusal == HALL_ACCEPTED || as_kept() ? refusal : (uint32_t)HALL_NO_KIND;
}

/* 12 ways by the old numbers move over once, and are then those of a work out; until then an edit refuses them, and a list of routes. */
static void moved(void)
{
    hall_tables t = old_hall(12);

    HOLDS(share[2] == 19399380 && hall_audit(t.n, HALL_TABLES(t)) == HALL_BAD_TABLES);
    HOLDS(hall_delete(t.n, 0, 2, HALL_TABLES(t)).refusal == HALL_BAD_TABLES);
    HOLDS(list_into(sizeof buffer, t, t.n, 0, 1).refusal == HALL_BAD_TABLES);
    HOLDS(move(t.n, t) == HALL_ACCEPTED && share[2] == 2310 && score[2] == 2310 && score[13] == 2310);
    HOLDS(hall_audit(t.n, HALL_TABLES(t)) == HALL_ACCEPTED);
    HOLDS(move(t.n, t) == HALL_BAD_TABLES);
    keep();
    HOLDS(hall_work_out(t.n, HALL_TABLES(t)) == HALL_ACCEPTED && as_kept());
    /* where every share is 0, old tables and new ones are the same */
    t = tables_of(3);
    HOLDS(hall_empty(3, HALL_TABLES(t)) == HALL_ACCEPTED && move(3, t) == HALL_ACCEPTED && as_kept());
    HOLDS(hall_insert(3, 2, 1, 7, HALL_TABLES(t)).refusal == HALL_ACCEPTED && move(3, t) == HALL_ACCEPTED && as_kept());
}

/* The moving call's refusals in their order; move() sees that nothing has changed. */
static void not_moved(void)
{
    hall_tables t = old_hall(13);

    HOLDS(share[2] == 17907120 && move(t.n, t) == HALL_TOO_MANY_WAYS);
    HOLDS(move(0, t) == HALL_BAD_SIZE && move(HALL_STOPS + 1, t) == HALL_BAD_SIZE);
    HOLDS(move(t.n + (UINT64_C(1) << 32), t) == HALL_BAD_SIZE);
    HOLDS(move(t.n - 1, t) == HALL_BAD_LENGTH && move(t.n + 1, t) == HALL_BAD_LENGTH);
    HOLDS(hall_move_over(t.n, cost, t.n * t.n, time, t.n * t.n, ways, t.n * t.n, share, t.n * t.n, score, t.n - 1) == HALL_BAD_LENGTH);
    share[2]++;
    HOLDS(move(t.n, t) == HALL_BAD_TABLES);
    t = old_hall(HALL_OLD_WAYS);
    HOLDS(share[2] == 10581480 && move(t.n, t) == HALL_TOO_MANY_WAYS);
    t = old_hall(HALL_OLD_WAYS + 1);
    HOLDS(move(t.n, t) == HALL_BAD_TABLES);
    /* a stray write, also one that the division or 16 or 32 bits would lose */
    t = old_hall(12);
    share[2]++;
    HOLDS(share[2] / 8398 == 2310 && move(t.n, t) == HALL_BAD_TABLES);
    score[2]++;
    HOLDS(move(t.n, t) == HALL_BAD_TABLES);
    share[2]--;
    HOLDS(move(t.n, t) == HALL_BAD_TABLES);
    score[2]--;
    share[13] += UINT64_C(1) << 32;
    HOLDS(move(t.n, t) == HALL_BAD_TABLES);
    share[13] -= UINT64_C(1) << 32;
    ways[1] += 65536;
    HOLDS(move(t.n, t) == HALL_BAD_TABLES);
    ways[1] -= 65536;
    time[1]++;
    HOLDS(move(t.n, t) == HALL_BAD_TABLES);
    time[1]--;
    cost[2 * t.n + 1]++;
    HOLDS(move(t.n, t) == HALL_BAD_TABLES);
    cost[2 * t.n + 1]--;
    HOLDS(move(t.n, t) == HALL_ACCEPTED);
}

/* Old tables with 13 to 22 ways do not move over, with 11, and those with more are none, with 3. A work out takes each of them; what it
 * leaves, with a crowded pair, is 3 for the moving call, also where the entry of 13 is the number of ways. */
static void crowded_not_moved(void)
{
    for (uint64_t between = 13; between < 26; between++) {
        hall_tables t = old_hall(between);

        HOLDS(move(t.n, t) == (between <= HALL_OLD_WAYS ? HALL_TOO_MANY_WAYS : HALL_BAD_TABLES));
        HOLDS(hall_audit(t.n, HALL_TABLES(t)) == HALL_BAD_TABLES);
        HOLDS(hall_work_out(t.n, HALL_TABLES(t)) == HALL_ACCEPTED && is_crowded(t) && move(t.n, t) == HALL_BAD_TABLES);
        /* nor are there crowded pairs by the old limit */
        ways[1] = HALL_OLD_WAYS + 1;
        HOLDS(move(t.n, t) == HALL_BAD_TABLES);
    }
}

/* The moving call knows no passing times: what it leaves has none, and tables in which one counts are not those of the old numbers, also
 * where every share is 0. */
static void moved_without_passing(void)
{
    hall_tables t = old_hall(12);

    passing[2] = HALL_LARGEST_PASSING + 1;
    HOLDS(move(t.n, t) == HALL_ACCEPTED && hall_audit(t.n, HALL_TABLES(t)) == HALL_BAD_PASSING);
    passing[2] = 1;
    HOLDS(hall_audit(t.n, HALL_TABLES(t)) == HALL_BAD_TABLES);
    passing[2] = 0;
    HOLDS(hall_audit(t.n, HALL_TABLES(t)) == HALL_ACCEPTED);
    /* from 0 to 2 directly, since passing 1 takes too long */
    t = tables_of(3);
    memset(cost, 0, sizeof cost);
    cost[0 * 3 + 1] = cost[1 * 3 + 2] = 1;
    cost[0 * 3 + 2] = 3;
    passing[1] = 5;
    HOLDS(hall_work_out(3, HALL_TABLES(t)) == HALL_ACCEPTED && time[2] == 3 && score[1] == 0);
    HOLDS(hall_audit(3, HALL_TABLES(t)) == HALL_ACCEPTED && move(3, t) == HALL_BAD_TABLES);
    /* nor does it matter where the passing time changes nothing */
    HOLDS(hall_delete(3, 1, 2, HALL_TABLES(t)).refusal == HALL_ACCEPTED && move(3, t) == HALL_ACCEPTED && as_kept());
    memset(passing, 0, sizeof passing);
}

/* Links from stop 0 to all others and back: all routes of the largest hall pass it, and its score, moved over, fits 32 bits. */
static void largest_score(void)
{
    hall_tables t = tables_of(HALL_STOPS);

    memset(cost, 0, sizeof cost);
    for (uint64_t v = 1; v < t.n; v++)
        cost[v] = cost[v * t.n] = 1;
    HOLDS(hall_work_out(t.n, HALL_TABLES(t)) == HALL_ACCEPTED && score[0] == 108274320);
    for (int i = 0; i < MOST; i++)
        share[i] *= 8398;
    score[0] *= 8398;
    HOLDS(score[0] == 909287739360 && move(t.n, t) == HALL_ACCEPTED);
    HOLDS(score[0] == 108274320 && (uint32_t)score[0] == score[0] && hall_audit(t.n, HALL_TABLES(t)) == HALL_ACCEPTED);
}

/* All links of the largest hall make the longest image. */
static void longest_image(void)
{
    hall_tables t = tables_of(HALL_STOPS);
    hall_written w;

    for (uint64_t u = 0; u < t.n; u++)
        for (uint64_t v = 0; v < t.n; v++)
            cost[u * t.n + v] = u == v ? 0 : HALL_LARGEST_COST;
    HOLDS(hall_work_out(t.n, HALL_TABLES(t)) == HALL_ACCEPTED);
    HOLDS(hall_image_write(t.n, HALL_TABLES(t), buffer, sizeof buffer - 1).refusal == HALL_SHORT_BUFFER);
    w = hall_image_write(t.n, HALL_TABLES(t), buffer, sizeof buffer);
    HOLDS(w.refusal == HALL_ACCEPTED && w.length == HALL_LONGEST_IMAGE);
    HOLDS(hall_work_out(HALL_STOPS + 1, HALL_TABLES(t)) == HALL_BAD_SIZE);
}

int main(void)
{
    null_is_empty();
    names_fit();
    most_ways();
    crowded_audit();
    ways_in_16_bits();
    reversed();
    reversed_crowded();
    listed();
    listed_crowded();
    routes_listed();
    twelve_listed();
    crowded_not_listed();
    longest_list();
    passing_refused();
    passing_only_read();
    only_between();
    largest_time();
    passing_changed();
    passing_crowds();
    image_without_passing();
    moved();
    not_moved();
    crowded_not_moved();
    moved_without_passing();
    largest_score();
    longest_image();
    return wrong != 0;
}
