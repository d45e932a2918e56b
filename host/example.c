/* A small hall from a C host: built, edited, scored, its routes listed, written as an image and read back, with refusals shown, edits
 * reversed and a shift changed in one go; then one whose racks take time at a junction, one in which a shut link leaves too many ways to
 * list, one that an older release left, moved over, and a line of 64 stops. What it prints stands in example.out. */
#include "hall.h"

#include <inttypes.h>
#include <stdio.h>
#include <stdlib.h>
#include <string.h>

/* A refusal in words. There is no default, so that the compiler names a refusal that is missing here. */
static const char *words(uint32_t refusal)
{
    switch ((hall_refusal)refusal) {
    case HALL_ACCEPTED: return "accepted";
    case HALL_BAD_SIZE: return "no such number of stops";
    case HALL_BAD_LENGTH: return "a table has another length";
    case HALL_BAD_TABLES: return "the tables are not those of a hall";
    case HALL_BAD_STOP: return "no such two stops";
    case HALL_BAD_COST: return "no such cost";
    case HALL_LINK_PRESENT: return "there is a link already";
    case HALL_LINK_ABSENT: return "there is no such link";
    case HALL_COST_WRONG_SIDE: return "the new cost is on the wrong side of the present one";
    case HALL_BAD_IMAGE: return "not an image of this hall";
    case HALL_SHORT_BUFFER: return "the buffer is too short";
    case HALL_TOO_MANY_WAYS: return "a pair has too many ways to move over";
    case HALL_LIST_TOO_LONG: return "the list is too long";
    case HALL_BAD_PASSING: return "a passing time is too long";
    case HALL_CROWDED_PAIR: return "the pair has too many ways to list";
    case HALL_NO_KIND: return "no such kind of edit";
    }
    return "not a refusal";
}

/* The host owns the tables: one block for those of 32 bits, one for those of 64. Each passing time is 0 at first. */
static hall_tables make_tables(uint64_t n)
{
    size_t cells = n * n;
    uint32_t *narrow = (uint32_t *)malloc((3 * cells + n) * sizeof *narrow);
    uint64_t *wide = (uint64_t *)malloc((cells + n) * sizeof *wide);
    hall_tables t;

    if (!narrow || !wide) {
        fprintf(stderr, "out of memory\n");
        exit(1);
    }
    t.n = n;
    t.cost = narrow;
    t.time = narrow + cells;
    t.ways = narrow + 2 * cells;
    t.passing = narrow + 3 * cells;
    t.share = wide;
    t.score = wide + cells;
    memset(t.passing, 0, n * sizeof *t.passing);
    return t;
}

static void free_tables(hall_tables t)
{
    free(t.cost);
    free(t.share);
}

/* Tables of make_tables lie in two blocks, from cost and from share on, of so many bytes. */
static size_t narrow_bytes(hall_tables t) { return (3 * t.n * t.n + t.n) * sizeof *t.cost; }

static size_t wide_bytes(hall_tables t) { return (t.n * t.n + t.n) * sizeof *t.share; }

static hall_tables copy_of(hall_tables from)
{
    hall_tables to = make_tables(from.n);

    memcpy(to.cost, from.cost, narrow_bytes(from));
    memcpy(to.share, from.share, wide_bytes(from));
    return to;
}

static int same_tables(hall_tables a, hall_tables b)
{
    return memcmp(a.cost, b.cost, narrow_bytes(a)) == 0 && memcmp(a.share, b.share, wide_bytes(a)) == 0;
}

/* Each call, over the host's own type. */
static inline uint32_t empty(const hall_tables *t) { return hall_empty(t->n, HALL_TABLES(*t)); }

static inline uint32_t work_out(const hall_tables *t) { return hall_work_out(t->n, HALL_TABLES(*t)); }

static inline uint32_t audit(const hall_tables *t) { return hall_audit(t->n, HALL_TABLES(*t)); }

static inline uint32_t move_over(const hall_tables *t) { return hall_move_over(t->n, HALL_OLD_TABLES(*t)); }

static inline hall_edited insert(const hall_tables *t, uint64_t from, uint64_t to, uint64_t c)
{
    return hall_insert(t->n, from, to, c, HALL_TABLES(*t));
}

static inline hall_edited cheapen(const hall_tables *t, uint64_t from, uint64_t to, uint64_t c)
{
    return hall_cheapen(t->n, from, to, c, HALL_TABLES(*t));
}

static inline hall_edited raise_cost(const hall_tables *t, uint64_t from, uint64_t to, uint64_t c)
{
    return hall_raise(t->n, from, to, c, HALL_TABLES(*t));
}

static inline hall_edited delete_link(const hall_tables *t, uint64_t from, uint64_t to)
{
    return hall_delete(t->n, from, to, HALL_TABLES(*t));
}

static inline hall_listed edit_list(const hall_tables *t, const hall_edit *list, size_t edits)
{
    return hall_edit_list(t->n, list, edits, HALL_TABLES(*t));
}

static inline hall_written list_routes(const hall_tables *t, uint64_t from, uint64_t to, uint8_t *buffer, size_t length)
{
    return hall_list_routes(t->n, from, to, HALL_TABLES(*t), buffer, length);
}

static inline hall_written image_write(const hall_tables *t, uint8_t *buffer, size_t length)
{
    return hall_image_write(t->n, HALL_TABLES(*t), buffer, length);
}

static inline uint32_t image_read(const hall_tables *t, const uint8_t *image, size_t length)
{
    return hall_image_read(t->n, image, length, HALL_TABLES(*t));
}

static void print_scores(const hall_tables *t)
{
    uint64_t v;

    for (v = 0; v < t->n; v++)
        printf("stop %" PRIu64 " score %" PRIu64 " = %.3f routes\n", v, t->score[v], (double)t->score[v] / (double)HALL_SCALE);
}

static void print_edit(const char *what, hall_edited e)
{
    printf("%s: %" PRIu32 " %s, %" PRIu32 " rows touched, set %#" PRIx64 ", cost before %" PRIu32 "\n", what, e.refusal, words(e.refusal),
           e.rows, e.touched, e.before);
}

static void print_list(const char *what, hall_listed l)
{
    printf("%s: %" PRIu32 " %s, place %" PRIu32 ", %" PRIu32 " rows touched, set %#" PRIx64 "\n", what, l.refusal, words(l.refusal),
           l.place, l.rows, l.touched);
}

/* A list of routes, a line for each. */
static void print_routes(const char *what, hall_written w, const uint8_t *list)
{
    const uint8_t *route = list + 1;
    int left, i;

    printf("%s: %" PRIu32 " %s, %" PRIu64 " bytes\n", what, w.refusal, words(w.refusal), w.length);
    if (w.refusal != HALL_ACCEPTED)
        return;
    if (list[0] == 0)
        printf("  no route\n");
    for (left = list[0]; left > 0; left--, route += 1 + route[0]) {
        printf("  route");
        for (i = 1; i <= route[0]; i++)
            printf(" %d", route[i]);
        printf("\n");
    }
}

static void print_call(const char *what, uint32_t refusal)
{
    printf("%s: %" PRIu32 " %s\n", what, refusal, words(refusal));
}

/* Which ways do the racks take from 0 to 3? From a stop to itself there is one route, from 3 to 0 none, and a stop 4 there is not.
 * Says whether there are as many routes from 0 to 3 as the ways table has. */
static int routes_shown(const hall_tables *hall)
{
    uint8_t list[HALL_LONGEST_ROUTE_LIST];
    hall_written w = list_routes(hall, 0, 3, list, sizeof list);
    int same;

    print_routes("routes 0 3", w, list);
    /* Refused: the list has a byte more. What the buffer held is still there. */
    print_routes("routes 0 3, short buffer", list_routes(hall, 0, 3, list, w.length - 1), list);
    same = list[0] == hall->ways[0 * hall->n + 3];
    w = list_routes(hall, 2, 2, list, sizeof list);
    print_routes("routes 2 2", w, list);
    w = list_routes(hall, 3, 0, list, sizeof list);
    print_routes("routes 3 0", w, list);
    w = list_routes(hall, 0, 4, list, sizeof list);
    print_routes("routes 0 4", w, list);
    return same;
}

/* The belt from 2 to 3 runs slower. First refused: the cost is not above the present one. */
static void worn_belt(const hall_tables *hall)
{
    print_edit("raise 2 3 4", raise_cost(hall, 2, 3, 4));
    print_edit("raise 2 3 5", raise_cost(hall, 2, 3, 5));
    print_scores(hall);
}

typedef enum { INSERT, CHEAPEN, RAISE, DELETE } edit_kind;

/* The edit that reverses an accepted one, from its kind, its stops and its answer. */
static hall_edited reverse(const hall_tables *t, edit_kind kind, uint64_t from, uint64_t to, hall_edited e)
{
    switch (kind) {
    case INSERT: return delete_link(t, from, to);
    case CHEAPEN: return raise_cost(t, from, to, e.before);
    case RAISE: return cheapen(t, from, to, e.before);
    case DELETE: break;
    }
    return insert(t, from, to, e.before);
}

/* What if the belt from 2 to 3 closed, and what if one ran from 3 to 0? Each edit is looked at and reversed. Says whether all five
 * tables are then those of before. */
static int looked_at(const hall_tables *hall)
{
    hall_tables before = copy_of(*hall);
    hall_edited e = delete_link(hall, 2, 3);
    int same;

    print_edit("delete 2 3", e);
    print_scores(hall);
    print_edit("reversed", reverse(hall, DELETE, 2, 3, e));
    e = insert(hall, 3, 0, 5);
    print_edit("insert 3 0 5", e);
    print_scores(hall);
    print_edit("reversed", reverse(hall, INSERT, 3, 0, e));
    same = same_tables(before, *hall);
    printf("after that: %s\n", same ? "same tables" : "OTHER TABLES");
    free_tables(before);
    return same;
}

/* At the shift change the belt from 2 to 3 closes and two open, in one call; back again the same way. A list in which an edit is
 * refused, here the second, since that belt is closed by then, changes nothing. Says whether all five tables are then those of
 * before. */
static int shift_change(const hall_tables *hall)
{
    const hall_edit night[] = {{HALL_DELETE, 2, 3, 0}, {HALL_INSERT, 2, 1, 2}, {HALL_INSERT, 3, 0, 5}};
    const hall_edit twice[] = {{HALL_DELETE, 2, 1, 0}, {HALL_DELETE, 2, 1, 0}};
    const hall_edit day[] = {{HALL_DELETE, 3, 0, 0}, {HALL_DELETE, 2, 1, 0}, {HALL_INSERT, 2, 3, 5}};
    hall_tables before = copy_of(*hall);
    int same;

    print_list("night shift", edit_list(hall, night, 3));
    print_scores(hall);
    print_list("closed twice", edit_list(hall, twice, 2));
    print_list("day shift", edit_list(hall, day, 3));
    same = same_tables(before, *hall);
    printf("after that: %s\n", same ? "same tables" : "OTHER TABLES");
    free_tables(before);
    return same;
}

/* Writes the hall as an image and reads it back over the tables of another. Says whether they are the same then. */
static int kept_as_image(const hall_tables *hall, const hall_tables *copy)
{
    uint8_t image[HALL_LONGEST_IMAGE];
    hall_written w = image_write(hall, image, sizeof image);
    int same;

    printf("image write: %" PRIu32 " %s, %" PRIu64 " bytes\n", w.refusal, words(w.refusal), w.length);
    /* The image check takes n last. */
    print_call("image check", hall_image_check(image, w.length, hall->n));
    print_call("image check, 5 stops", hall_image_check(image, w.length, 5));
    print_call("image read", image_read(copy, image, w.length));
    same = same_tables(*hall, *copy);
    printf("read back: %s\n", same ? "same tables" : "OTHER TABLES");
    return same;
}

/* Says whether the list of routes is as long as the ways table has it, the hall that was read back is the one that was written, edits
 * that were reversed and a shift left nothing behind, and the edited tables pass the audit. */
static int small_hall(void)
{
    hall_tables hall = make_tables(4), copy = make_tables(4);
    uint32_t refusal;
    int routes, same, back, shifts;

    print_call("empty hall", empty(&hall));
    print_edit("insert 0 1 5", insert(&hall, 0, 1, 5));
    print_edit("insert 0 2 5", insert(&hall, 0, 2, 5));
    print_edit("insert 1 3 5", insert(&hall, 1, 3, 5));
    print_edit("insert 2 3 5", insert(&hall, 2, 3, 5));
    print_scores(&hall);
    routes = routes_shown(&hall);

    /* Refused: the link costs 5 already. Nothing has changed. */
    print_edit("cheapen 2 3 5", cheapen(&hall, 2, 3, 5));
    print_edit("cheapen 2 3 4", cheapen(&hall, 2, 3, 4));
    print_scores(&hall);

    same = kept_as_image(&hall, &copy);
    worn_belt(&hall);
    back = looked_at(&hall);
    shifts = shift_change(&hall);

    /* A stray write is found by the call itself. */
    copy.ways[3] += 1;
    print_edit("delete 2 3, damaged", delete_link(&copy, 2, 3));
    refusal = audit(&hall);
    print_call("audit", refusal);
    free_tables(hall);
    free_tables(copy);
    return routes && same && back && shifts && refusal == HALL_ACCEPTED;
}

/* Gives a stop another passing time, which is set right before a work out and set back if that is refused. */
static uint32_t set_passing(const hall_tables *t, uint64_t stop, uint32_t passing)
{
    uint32_t before = t->passing[stop], refusal;

    t->passing[stop] = passing;
    refusal = work_out(t);
    if (refusal != HALL_ACCEPTED)
        t->passing[stop] = before;
    return refusal;
}

/* Reads the hall's image over the tables of another with the same passing times. Says whether they are the same then. */
static int kept_with_passing(const hall_tables *hall)
{
    uint8_t image[HALL_LONGEST_IMAGE];
    hall_tables copy = make_tables(hall->n);
    hall_written w = image_write(hall, image, sizeof image);
    int same;

    memcpy(copy.passing, hall->passing, hall->n * sizeof *hall->passing);
    print_call("image read, same passing times", image_read(&copy, image, w.length));
    same = same_tables(*hall, copy);
    printf("read back: %s\n", same ? "same tables" : "OTHER TABLES");
    free_tables(copy);
    return same;
}

/* From 0 to 3 the way over 1 takes 10, that over 2 takes 12. Racks are weighed and turned at 1: if that takes 2, both ways are quickest,
 * and if it takes 3, only the one over 2 is. A route that begins at 1 takes as long as before. Says whether the hall that was read back is
 * the one that was written, and refused passing times have left the tables as they were. */
static int weighed_racks(void)
{
    const hall_edit links[] = {{HALL_INSERT, 0, 1, 5}, {HALL_INSERT, 1, 3, 5}, {HALL_INSERT, 0, 2, 6}, {HALL_INSERT, 2, 3, 6}};
    hall_tables hall = make_tables(4);
    uint8_t list[HALL_LONGEST_ROUTE_LIST];
    hall_written w;
    uint32_t refusal;
    int same;

    print_call("empty hall", empty(&hall));
    print_list("four links", edit_list(&hall, links, 4));
    print_scores(&hall);
    print_call("2 to pass stop 1", set_passing(&hall, 1, 2));
    print_scores(&hall);
    print_call("3 to pass stop 1", set_passing(&hall, 1, 3));
    print_scores(&hall);
    printf("time 0 to 3: %" PRIu32 ", 1 to 3: %" PRIu32 "\n", hall.time[0 * 4 + 3], hall.time[1 * 4 + 3]);
    w = list_routes(&hall, 0, 3, list, sizeof list);
    print_routes("routes 0 3", w, list);
    same = kept_with_passing(&hall);

    /* A passing time that changes at another time is found by the next call. */
    hall.passing[1] = 2;
    print_edit("delete 2 3, other passing time", delete_link(&hall, 2, 3));
    hall.passing[1] = 3;
    print_call("65536 to pass stop 1", set_passing(&hall, 1, HALL_LARGEST_PASSING + 1));
    refusal = audit(&hall);
    print_call("audit", refusal);
    free_tables(hall);
    return same && refusal == HALL_ACCEPTED;
}

/* What a screen shows of the way from 0 to 1, and of stop 2, which is on it. */
static void print_pair(const hall_tables *t)
{
    uint8_t list[HALL_LONGEST_ROUTE_LIST];
    hall_written w = list_routes(t, 0, 1, list, sizeof list);

    if (t->ways[1] == HALL_CROWDED_WAYS)
        printf("0 to 1: time %" PRIu32 ", more than %" PRIu32 " ways: not listed, in no score\n", t->time[1], HALL_WAYS);
    else
        printf("0 to 1: time %" PRIu32 ", %" PRIu32 " ways\n", t->time[1], t->ways[1]);
    printf("stop 2: score %" PRIu64 "\n", t->score[2]);
    printf("routes 0 1: %" PRIu32 " %s, %" PRIu64 " bytes\n", w.refusal, words(w.refusal), w.length);
}

/* A belt from 0 to 1 that takes 9, and 13 ways that take 10, over a stop each. The belt is shut, which no call refuses: the pair is
 * crowded. Once one of the 13 is shut too, the other 12 count and are listed. Then both edits are reversed. Says whether the tables of
 * the crowded pair pass the audit, and those of before are there again. */
static int shut_belt(void)
{
    hall_tables hall = make_tables(15), before;
    hall_edited belt, way;
    uint32_t refusal;
    uint64_t v;
    int same;

    empty(&hall);
    insert(&hall, 0, 1, 9);
    for (v = 2; v < hall.n; v++) {
        insert(&hall, 0, v, 5);
        insert(&hall, v, 1, 5);
    }
    before = copy_of(hall);
    belt = delete_link(&hall, 0, 1);
    print_edit("delete 0 1", belt);
    print_pair(&hall);
    refusal = audit(&hall);
    print_call("audit", refusal);
    way = delete_link(&hall, 14, 1);
    print_edit("delete 14 1", way);
    print_pair(&hall);
    print_edit("reversed", reverse(&hall, DELETE, 14, 1, way));
    print_edit("reversed", reverse(&hall, DELETE, 0, 1, belt));
    same = same_tables(before, hall);
    printf("after that: %s\n", same ? "same tables" : "OTHER TABLES");
    free_tables(before);
    free_tables(hall);
    return same && refusal == HALL_ACCEPTED;
}

/* The tables that an older release left of the first hall before its first cheapen: two ways from 0 to 3. Shares and scores are by the
 * old scale, half of 232,792,560 for the stop between. It had no passing times: they start with 0. */
static hall_tables old_tables(void)
{
    static const uint32_t cost[] = {0, 5, 5, 0, 0, 0, 0, 5, 0, 0, 0, 5, 0, 0, 0, 0};
    static const uint32_t time[] = {0,         5,         5, 10, HALL_MARK, 0,         HALL_MARK, 5,
                                    HALL_MARK, HALL_MARK, 0, 5,  HALL_MARK, HALL_MARK, HALL_MARK, 0};
    static const uint32_t ways[] = {1, 1, 1, 2, 0, 1, 0, 1, 0, 0, 1, 1, 0, 0, 0, 1};
    static const uint64_t share[] = {0, 116396280, 116396280, 0, 0, 0, 0, 0, 0, 0, 0, 0, 0, 0, 0, 0};
    static const uint64_t score[] = {0, 116396280, 116396280, 0};
    hall_tables t = make_tables(4);

    memcpy(t.cost, cost, sizeof cost);
    memcpy(t.time, time, sizeof time);
    memcpy(t.ways, ways, sizeof ways);
    memcpy(t.share, share, sizeof share);
    memcpy(t.score, score, sizeof score);
    return t;
}

/* Moves such tables over, and tries to move them again. Says whether they are then those of a work out from the same costs. */
static int moved_hall(void)
{
    hall_tables hall = old_tables(), anew = copy_of(hall);
    int same;

    print_call("audit of old tables", audit(&hall));
    print_call("move over", move_over(&hall));
    print_scores(&hall);
    print_call("move over again", move_over(&hall));
    print_call("work out", work_out(&anew));
    same = same_tables(hall, anew);
    printf("moved: %s\n", same ? "same tables" : "OTHER TABLES");
    free_tables(hall);
    free_tables(anew);
    return same;
}

/* A one-way line of 64 stops: 31 stops lie before stop 31 and 32 behind it, so that 992 routes pass it. Says whether they do. */
static int long_line(void)
{
    hall_tables line = make_tables(HALL_STOPS);
    uint64_t u;
    int same;

    empty(&line);
    for (u = 0; u + 1 < line.n; u++)
        insert(&line, u, u + 1, 1);
    same = line.score[31] == 992 * HALL_SCALE;
    printf("stop 31 of a line of 64: score %" PRIu64 ", %s\n", line.score[31], same ? "992 routes" : "OTHER SCORE");
    free_tables(line);
    return same;
}

int main(void)
{
    int small = small_hall(), weighed = weighed_racks(), shut = shut_belt(), moved = moved_hall(), line = long_line();

    return small && weighed && shut && moved && line ? 0 : 1;
}
