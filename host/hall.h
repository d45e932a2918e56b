#ifndef FEZORNAU_HALL_H
#define FEZORNAU_HALL_H

/*
 * Exact scores for a hall of stops.
 *
 * A hall has n stops, 0 to n - 1, with n from 1 to 64, and one-way links
 * between them, each with a cost (its travel time) from 1 to 65,535. Each stop
 * has a passing time from 0 to 65,535, which a route spends there on its way. A
 * stop's score is its share of the quickest routes between all other stops,
 * times HALL_SCALE, which makes it a whole number; a pair of stops with more than
 * 12 quickest routes is crowded and left out. No score passes 108,274,320, so
 * that it fits 32 bits. The calls below fill five tables of a hall, keep them
 * right through edits of its links, list the quickest routes between two stops,
 * and turn the links into bytes, an image, and back. One call moves tables of
 * an older scale over to this one.
 *
 *
 * LINKING
 *
 * `rt lib --cpu=x86-64` in the folder crates/host makes out/libhost.a there,
 * which stands behind the last of the host's own files: cc host.c libhost.a. It
 * is for x86-64 Linux with 64-bit pointers (the System V calling convention)
 * and runs on every such processor. It is position independent, so it goes into
 * programs with -pie, -no-pie or -static and into shared objects. Of the C
 * library it needs memcpy and memset (tried with glibc), and nothing else. It
 * has no variables, no unwind tables and no debug data; it starts nothing,
 * calls nothing back and leaves errno alone.
 *
 * A call needs at most HALL_STACK bytes of stack, 40 KiB. Measured: a list of
 * routes 16 KiB, an edit or a list of edits 6 KiB, all others below 3 KiB; the
 * rest is a margin, for the dynamic linker at the first call among others.
 *
 * The library is proved; that this header fits it is not. `make -C host check`
 * tries it. The two go together: compile a host anew for another release of
 * the library, whose calls may be lent more, whose answers may have grown, or
 * whose scale is another.
 *
 *
 * MEMORY
 *
 * The host owns every table, list, image and buffer and lends them for one call. A
 * call allocates nothing and keeps no pointer. Each table is passed as a
 * pointer and the number of its entries:
 *
 *   cost     n x n, 32 bits   cost of the link u to v at u * n + v, 0 for none
 *   passing  n,     32 bits   passing time of v
 *   time     n x n, 32 bits   least time s to t at s * n + t, at most
 *                             8,191,875, HALL_MARK where there is no route
 *   ways     n x n, 32 bits   number of quickest routes s to t,
 *                             HALL_CROWDED_WAYS where there are more than 12
 *   share    n x n, 64 bits   share of v in the quickest routes from s, at
 *                             s * n + v, times HALL_SCALE, crowded pairs left
 *                             out
 *   score    n,     64 bits   score of v: its shares added up over all sources
 *
 * The five tables are all of these but the passing times, which no call writes.
 * Contents and lengths may be anything: a call refuses what it cannot use, and
 * a table that a call fills may be uninitialised. Pointers may not:
 *
 * - What is lent to one call must not overlap. No call finds an overlap: it is
 *   undefined behaviour, and the host may end with an illegal instruction.
 * - Each pointer must be aligned and lead to as many entries as its length
 *   says, even where the call will refuse. Else, and so for NULL with a length
 *   other than 0, it is undefined behaviour.
 * - NULL with length 0 is allowed everywhere, for tables, lists, images and
 *   buffers. It is refused like any other length that does not fit, but as a
 *   list it fits: it has no edits.
 *
 * A table that is const is only read. Calls on different tables may run at the
 * same time, and so may calls that only read the tables they share. While a
 * call may write a table, no other call may use it; while a call may read one,
 * the host may not write it.
 *
 *
 * CROWDED PAIRS
 *
 * A pair s, t is crowded if it has more than 12 quickest routes from s to t; with
 * exactly 12 it is not. Of a crowded pair
 *
 * - the time is the least time, as of every pair;
 * - the entry in the ways table is HALL_CROWDED_WAYS, 13, however many ways it
 *   has: it says 'more than 12' and is no number of routes;
 * - nothing is added to the shares from s, and so nothing to a score.
 *
 * No work out, image read, edit or list of edits is refused for it. So a link
 * that is shut on the track can always be deleted. Audit passes right tables with
 * crowded pairs; it answers 3 for another entry in the place of 13, such as a
 * true number of 14, and for shares to which such a pair has added. Two calls
 * refuse: hall_list_routes answers 14 for a crowded pair, and hall_move_over 11
 * for an old hall with a pair of 13 to 22 ways.
 *
 * A screen should show a crowded pair as one that has more than 12 ways, whose
 * routes are not listed, and which the scores leave out:
 *
 *   if (t.ways[from * t.n + to] == HALL_CROWDED_WAYS)
 *       show("more than 12 ways: not listed, in no score");
 *
 * A stop between its ends gets nothing for it, so that its score can fall though
 * it carries no less than before. Once an edit leaves the pair 12 ways or fewer,
 * it counts again.
 *
 * Tables of a release with this scale that refused such halls have no crowded
 * pair, and go on as they are. Such a release answers 3 for tables with one, and
 * 11 for the image of its hall.
 *
 *
 * PASSING TIMES
 *
 * A rack is weighed and turned at a junction, which takes time that is in no
 * link. A route's time is the sum of the costs of its links and of the passing
 * times of the stops strictly between its ends: the stops where it begins and
 * ends count for nothing. Times, ways, shares, scores, touched sources and lists
 * of routes go by this sum. The largest time is 8,191,875: 63 links of 65,535
 * and as much at each of the 62 stops between. In a hall where passing takes no
 * time, the table has n zeros.
 *
 * The host sets the table, and every call on the tables but hall_move_over is
 * lent it. A hall has the passing times with which it was made, worked out or
 * read:
 *
 * 1. Set the table right before hall_empty, hall_work_out or hall_image_read,
 *    and at no other time; a hall that was moved over has zeros at first.
 * 2. If that call is refused, set it back right after: the five tables are
 *    still those of the former passing times.
 *
 * So to change the passing times of a running hall, set the table and call
 * hall_work_out with the present costs. It refuses a passing time above 65,535,
 * with 13, and no other; the routes that are quickest then may crowd a pair.
 *
 * If the table is changed at another time, the five tables need not be those of
 * their hall any more: each call that looks at them (audit, the edits, a list of
 * edits, a list of routes, image write) answers 3 wherever the change makes
 * another entry of times, ways, shares or scores, and 13 for a time above 65,535.
 * Where the change makes none of these, nothing is found and nothing is wrong:
 * the tables are also those of the other passing times.
 *
 * An image has links only. hall_image_read is lent the passing times, and gives
 * back the hall of an image if they are those of the hall that was written. So
 * keep them with an image.
 *
 * A hall of a release with this scale and without passing times goes on with a
 * table of zeros: its tables are the same.
 *
 *
 * REFUSED CALLS, AND CALLS THAT ARE CUT SHORT
 *
 * A call that refuses has changed nothing that it was lent, once it returns.
 * While a list of edits runs, this does not hold: its first edits are made before
 * it is known that a later one is refused, and then put back. A signal handler,
 * another thread or a process that shares the memory can see that. All other
 * calls have made their tests before they write.
 *
 * A host that is killed inside a call can leave tables (in shared memory or a
 * mapped file) that are half written. hall_audit answers 3 for tables that do
 * not belong together. It cannot tell which links they were meant to have:
 * the cost table may hold a link before or after its edit, after a list some
 * of its edits, and after empty hall or image read a part of the old links and
 * a part of the new ones. Nor can it tell which passing times were meant, if the
 * host had set them for that call. So keep the last good image apart, with its
 * passing times, and read it after a kill; or bring a cost table and passing
 * times that are known to be good to work out. A half-written image can pass the
 * image check too: keep the old one until the call has returned.
 *
 *
 * REFUSALS
 *
 * Every call answers a refusal, 0 for accepted. Each call lists those that it
 * knows, in the order in which it tests them; the first that applies is the
 * answer. That order is rising, but that 13 is tested directly after 2, a list
 * of edits for 12 before its edits are, and a list of routes for 14 before 10.
 * The names are those of hall_refusal below.
 *
 *    0  HALL_ACCEPTED
 *    1  HALL_BAD_SIZE         n is 0 or above 64
 *    2  HALL_BAD_LENGTH       a table's length is not exactly n x n, or n for
 *                             passing and score
 *    3  HALL_BAD_TABLES       the tables are not those of a hall: the cost
 *                             table is not one that work out accepts, or the
 *                             other four are not what it would fill with these
 *                             passing times; in hall_move_over, by the old
 *                             numbers and with passing times of 0
 *    4  HALL_BAD_STOP         a stop is n or more, or both are the same; in
 *                             hall_list_routes they may be the same
 *    5  HALL_BAD_COST         a cost is 0 or above 65,535; in work out, an
 *                             entry above 65,535 or a diagonal entry other
 *                             than 0
 *    6  HALL_LINK_PRESENT     insert where a link is
 *    7  HALL_LINK_ABSENT      cheapen, raise or delete where none is
 *    8  HALL_COST_WRONG_SIDE  cheapen to a cost not below the present one, or
 *                             raise to one not above it
 *    9  HALL_BAD_IMAGE        the bytes are no image of a hall of n stops
 *   10  HALL_SHORT_BUFFER     the buffer is too short for the image or for the
 *                             list of routes
 *   11  HALL_TOO_MANY_WAYS    in hall_move_over alone: the old hall has a pair
 *                             with more than 12 ways
 *   12  HALL_LIST_TOO_LONG    a list has more than 32 edits
 *   13  HALL_BAD_PASSING      a passing time is above 65,535; tested directly
 *                             after 2, in every call on the tables but
 *                             hall_move_over
 *   14  HALL_CROWDED_PAIR     in hall_list_routes alone: the pair has more than
 *                             12 ways; tested directly after 4
 *
 * One answer stands for a call that is not made, since it was given no list of
 * edits. It comes before all refusals, 1 included:
 *
 *  255  HALL_NO_KIND          one of the first 32 edits of a list has a kind
 *                             that is none
 *
 *
 * MOVING A HALL OVER FROM THE OLD NUMBERS
 *
 * Older releases allowed 22 ways and had the scale 232,792,560: HALL_OLD_WAYS
 * and HALL_OLD_SCALE, which is 8,398 times HALL_SCALE. They had no passing
 * times. The tables have the same widths, costs, times and ways as now with
 * passing times of 0, where no pair has more than 12 ways; each share and score
 * is 8,398 times as large. hall_move_over divides them in place, so a hall need
 * not stop:
 *
 * 1. The tables lie in the host's memory. Let them lie there, as the last call
 *    of the old library left them.
 * 2. Link this library in place of the old one. Both have the same names, but
 *    this one's calls are lent the passing times; a host that wants both at once
 *    puts each into a shared object of its own.
 * 3. Call hall_move_over once. It is lent no passing times, and takes each for
 *    0. From there on use this library alone, read shares and scores by
 *    HALL_SCALE, and lend it a table of n passing times, at first all 0.
 *
 * Until step 3 each call of this library that looks at the tables (audit, the
 * edits, a list of edits, a list of routes, image write) answers 3. If every
 * share is 0, old and new tables are the same: with passing times of 0 all calls
 * take them, and moving changes nothing.
 *
 * Refused with 11: some pair has 13 to 22 ways. Go on with the old library, which
 * can still edit the hall, and once no entry of the ways table is above 12, move
 * again. Or do without the shares of these pairs: hall_work_out takes the cost
 * table, with passing times of 0, and leaves them crowded.
 *
 * Refused with 3: the tables are not those of the old numbers. If hall_audit
 * answers 0 with the passing times in use, they have been moved already. Else
 * they are damaged: work them out anew from the cost table by hall_work_out,
 * with passing times of 0, which needs no old tables, or read the last good
 * image. A host that was killed inside hall_move_over finds its costs as they
 * were.
 *
 * Once moved, every share and score fits 32 bits, though the tables keep their
 * widths. An image has links only, so old images are read as before, with
 * passing times of 0; a pair that had more than 12 ways is crowded then.
 */

#if !defined(__x86_64__) || defined(__ILP32__) || !defined(__linux__)
#error "libhost.a is for x86-64 Linux with 64-bit pointers"
#endif

#include <stddef.h>
#include <stdint.h>

#ifdef __cplusplus
extern "C" {
#endif

/* The limits, each as wide as what it is compared with or multiplied into. */
#define HALL_STOPS UINT64_C(64)               /* most stops */
#define HALL_LARGEST_COST UINT32_C(65535)     /* of a link */
#define HALL_LARGEST_PASSING UINT32_C(65535)  /* time of a stop */
#define HALL_WAYS UINT32_C(12)                /* most of a pair that is not crowded */
#define HALL_CROWDED_WAYS UINT32_C(13)        /* the ways entry of a crowded pair */
#define HALL_EDITS UINT64_C(32)               /* most edits of a list */
#define HALL_MARK UINT32_C(4294967295)        /* the time where there is no route */
#define HALL_SCALE UINT64_C(27720)            /* one route, in a share or a score */
#define HALL_LONGEST_IMAGE UINT64_C(16136)    /* bytes: 8, and 4 for each link */
#define HALL_LONGEST_ROUTE_LIST UINT64_C(781) /* bytes: 1, and 65 for each route */
#define HALL_STACK UINT64_C(40960)            /* bytes of stack for any call */

/* The old numbers, for hall_move_over alone. */
#define HALL_OLD_WAYS UINT32_C(22)
#define HALL_OLD_SCALE UINT64_C(232792560)

/* The numbers that calls answer, by name. */
typedef enum {
    HALL_ACCEPTED = 0,
    HALL_BAD_SIZE = 1,
    HALL_BAD_LENGTH = 2,
    HALL_BAD_TABLES = 3,
    HALL_BAD_STOP = 4,
    HALL_BAD_COST = 5,
    HALL_LINK_PRESENT = 6,
    HALL_LINK_ABSENT = 7,
    HALL_COST_WRONG_SIDE = 8,
    HALL_BAD_IMAGE = 9,
    HALL_SHORT_BUFFER = 10,
    HALL_TOO_MANY_WAYS = 11,
    HALL_LIST_TOO_LONG = 12,
    HALL_BAD_PASSING = 13,
    HALL_CROWDED_PAIR = 14,
    HALL_NO_KIND = 255
} hall_refusal;

/* The kinds of edit in a list. 0 is none of them, so that an edit that was
 * never filled in is not taken for one. */
typedef enum {
    HALL_INSERT = 1,
    HALL_CHEAPEN = 2,
    HALL_RAISE = 3,
    HALL_DELETE = 4
} hall_kind;

/* One edit of a list: its kind, a hall_kind, the two stops, and the cost, which
 * is not read for HALL_DELETE. */
typedef struct {
    uint64_t kind;
    uint64_t from;
    uint64_t to;
    uint64_t c;
} hall_edit;

/* An edit's answer: its refusal, the number of touched sources (those from
 * which a quickest route, before or after, uses the edited link), their set,
 * bit s for source s, and what the link cost before the edit, 0 where there
 * was none. Refused: 0 rows, an empty set and 0 as the cost before. Behind the
 * last field lie 4 bytes of padding with unspecified content: compare the
 * fields, not the bytes.
 *
 * Rows of other sources, in times, ways and shares, are as they were. The row of
 * a touched source has changed if no pair was crowded before and none is after;
 * else it may look the same, since the routes of a crowded pair count as touched
 * and show in no entry.
 *
 * To reverse an accepted edit, call on the tables that it left, with the same
 * n, the same passing times and the same stops:
 *
 *   after hall_insert    hall_delete
 *   after hall_cheapen   hall_raise, with `before` as the cost
 *   after hall_raise     hall_cheapen, with `before` as the cost
 *   after hall_delete    hall_insert, with `before` as the cost
 *
 * Such a call is never refused. It touches the same sources and leaves all five
 * tables as they were before the edit, whether or not pairs are crowded. */
typedef struct {
    uint32_t refusal;
    uint32_t rows;
    uint64_t touched;
    uint32_t before;
} hall_edited;

/* A list's answer: its refusal; the place of the first refused edit, counted
 * from 1, 0 where no edit was refused (so also for 1, 2, 13, 3 and 12), and for
 * HALL_NO_KIND that of the first edit without a kind; the set of
 * the sources that some edit touched, bit s for source s, and their number.
 * Rows of other sources are as they were; the row of a source in the set may
 * be so too, where a later edit undid an earlier one or pairs are crowded.
 * Refused: an empty set and 0 rows. Behind the last field lie 4 bytes of padding with unspecified
 * content: compare the fields, not the bytes. */
typedef struct {
    uint32_t refusal;
    uint32_t place;
    uint64_t touched;
    uint32_t rows;
} hall_listed;

/* The answer of a call that writes to a buffer: its refusal, and the number of
 * bytes written, 0 if refused. Between the two lie 4 bytes of padding with
 * unspecified content: compare the fields, not the bytes. */
typedef struct {
    uint32_t refusal;
    uint64_t length;
} hall_written;

/* Five tables that the host has made for n stops, and their passing times: n x n
 * entries each, n for passing and score. No call takes this type; it is there
 * for HALL_TABLES. */
typedef struct {
    uint64_t n;
    uint32_t *cost;
    uint32_t *passing;
    uint32_t *time;
    uint32_t *ways;
    uint64_t *share;
    uint64_t *score;
} hall_tables;

/* The twelve arguments for the tables of t, a hall_tables or another struct with
 * such fields: hall_insert(t.n, from, to, c, HALL_TABLES(t)). It evaluates t
 * more than once. */
#define HALL_TABLES(t)          \
    (t).cost, (t).n * (t).n,    \
    (t).passing, (t).n,         \
    (t).time, (t).n * (t).n,    \
    (t).ways, (t).n * (t).n,    \
    (t).share, (t).n * (t).n,   \
    (t).score, (t).n

/* The ten arguments of the same tables for hall_move_over, which is lent no
 * passing times: hall_move_over(t.n, HALL_OLD_TABLES(t)). */
#define HALL_OLD_TABLES(t)      \
    (t).cost, (t).n * (t).n,    \
    (t).time, (t).n * (t).n,    \
    (t).ways, (t).n * (t).n,    \
    (t).share, (t).n * (t).n,   \
    (t).score, (t).n

/* Fills all five tables for a hall without links, which has these passing times
 * from there on. Refusals 1, 2, 13. */
uint32_t hall_empty(uint64_t n,
                    uint32_t *cost, size_t cost_length,
                    const uint32_t *passing, size_t passing_length,
                    uint32_t *time, size_t time_length,
                    uint32_t *ways, size_t ways_length,
                    uint64_t *share, size_t share_length,
                    uint64_t *score, size_t score_length);

/* Fills the other four tables from a cost table and passing times.
 * Refusals 1, 2, 13, 5. */
uint32_t hall_work_out(uint64_t n,
                       const uint32_t *cost, size_t cost_length,
                       const uint32_t *passing, size_t passing_length,
                       uint32_t *time, size_t time_length,
                       uint32_t *ways, size_t ways_length,
                       uint64_t *share, size_t share_length,
                       uint64_t *score, size_t score_length);

/* 0 exactly if work out accepts the cost table and the passing times and would
 * fill the other four tables with what they hold. Only reads.
 * Refusals 1, 2, 13, 3. */
uint32_t hall_audit(uint64_t n,
                    const uint32_t *cost, size_t cost_length,
                    const uint32_t *passing, size_t passing_length,
                    const uint32_t *time, size_t time_length,
                    const uint32_t *ways, size_t ways_length,
                    const uint64_t *share, size_t share_length,
                    const uint64_t *score, size_t score_length);

/* Moves tables of the old numbers over: divides each share and score by 8,398,
 * HALL_OLD_SCALE / HALL_SCALE, so that the five are those of a work out from
 * the same costs with passing times of 0. Costs, times and ways are only read.
 * It is lent no passing times. It first audits the tables by the old scale, the
 * old limit of 22 ways and passing times of 0, so that it answers 3 for tables
 * that have been moved, unless every share is 0, and wherever a passing time has
 * made another time or number of ways. The old numbers know no crowded pairs: for
 * tables with one it answers 3, as for a pair of more than 22 ways. Refused, it
 * has changed nothing. Refusals 1, 2, 3, 11. */
uint32_t hall_move_over(uint64_t n,
                        const uint32_t *cost, size_t cost_length,
                        const uint32_t *time, size_t time_length,
                        const uint32_t *ways, size_t ways_length,
                        uint64_t *share, size_t share_length,
                        uint64_t *score, size_t score_length);

/* The edits audit the tables, change the cost of one link, and bring the other
 * four tables up to it. None is refused for the ways that it leaves: a pair may
 * become crowded by it, or be so no longer. */

/* Adds the link from one stop to another, with cost c.
 * Refusals 1, 2, 13, 3, 4, 5, 6. */
hall_edited hall_insert(uint64_t n, uint64_t from, uint64_t to, uint64_t c,
                        uint32_t *cost, size_t cost_length,
                        const uint32_t *passing, size_t passing_length,
                        uint32_t *time, size_t time_length,
                        uint32_t *ways, size_t ways_length,
                        uint64_t *share, size_t share_length,
                        uint64_t *score, size_t score_length);

/* Gives a link the lower cost c. Refusals 1, 2, 13, 3, 4, 5, 7, 8. */
hall_edited hall_cheapen(uint64_t n, uint64_t from, uint64_t to, uint64_t c,
                         uint32_t *cost, size_t cost_length,
                         const uint32_t *passing, size_t passing_length,
                         uint32_t *time, size_t time_length,
                         uint32_t *ways, size_t ways_length,
                         uint64_t *share, size_t share_length,
                         uint64_t *score, size_t score_length);

/* Gives a link the higher cost c. Refusals 1, 2, 13, 3, 4, 5, 7, 8. */
hall_edited hall_raise(uint64_t n, uint64_t from, uint64_t to, uint64_t c,
                       uint32_t *cost, size_t cost_length,
                       const uint32_t *passing, size_t passing_length,
                       uint32_t *time, size_t time_length,
                       uint32_t *ways, size_t ways_length,
                       uint64_t *share, size_t share_length,
                       uint64_t *score, size_t score_length);

/* Takes a link out: on right tables, one that is there always goes.
 * Refusals 1, 2, 13, 3, 4, 7. */
hall_edited hall_delete(uint64_t n, uint64_t from, uint64_t to,
                        uint32_t *cost, size_t cost_length,
                        const uint32_t *passing, size_t passing_length,
                        uint32_t *time, size_t time_length,
                        uint32_t *ways, size_t ways_length,
                        uint64_t *share, size_t share_length,
                        uint64_t *score, size_t score_length);

/* A list of edits in one go, four numbers for each as in hall_edit, so that
 * list_length is 4 for each edit; one of the first 32 with fewer than four is
 * an edit without a kind. C and C++ call hall_edit_list, which hands on to it.
 * Refusals 1, 2, 13, 3, 12, and of an edit 4, 5, 6, 7, 8; and HALL_NO_KIND. */
hall_listed hall_edit_numbers(uint64_t n, const uint64_t *list, size_t list_length,
                              uint32_t *cost, size_t cost_length,
                              const uint32_t *passing, size_t passing_length,
                              uint32_t *time, size_t time_length,
                              uint32_t *ways, size_t ways_length,
                              uint64_t *share, size_t share_length,
                              uint64_t *score, size_t score_length);

/* Audits the tables and makes all edits of a list, or none. They are judged in
 * turn, each in the hall that its predecessors made, by what would refuse it
 * alone. The tables are audited once. Refused, they are as they were, whatever
 * the place.
 * A list of no edits is accepted if the tables pass 1, 2, 13 and 3, and touches
 * none. If one of the first 32 edits has a kind that is none, the answer is
 * HALL_NO_KIND with its place, whatever the other arguments are, and nothing is
 * changed. Refusals as above. */
static inline hall_listed hall_edit_list(uint64_t n, const hall_edit *list, size_t edits,
                                         uint32_t *cost, size_t cost_length,
                                         const uint32_t *passing, size_t passing_length,
                                         uint32_t *time, size_t time_length,
                                         uint32_t *ways, size_t ways_length,
                                         uint64_t *share, size_t share_length,
                                         uint64_t *score, size_t score_length)
{
    /* a longer list is refused as one of 33, so that the product does not wrap */
    size_t numbers = 4 * (edits > HALL_EDITS ? HALL_EDITS + 1 : edits);

    return hall_edit_numbers(n, (const uint64_t *)list, numbers,
                             cost, cost_length, passing, passing_length,
                             time, time_length, ways, ways_length,
                             share, share_length, score, score_length);
}

/* Audits the tables and writes the quickest routes from one stop to another to
 * a buffer: one byte with their number, and then each route as one byte with
 * the number of its stops and the stops, a byte each, first stop first. The
 * routes stand in order of their stop numbers, compared from the front; each
 * stands there once. From a stop to itself there is one route of one stop, so
 * that the bytes are 1, 1 and the stop; without a route there is one byte, 0. The
 * routes of a crowded pair are not listed: the answer is 14, whatever the buffer.
 *
 * HALL_LONGEST_ROUTE_LIST bytes are enough for every list: the number, and at
 * most 12 routes of at most 64 stops, each behind a byte. (12 routes cannot all
 * pass all stops: by a search of all cases, which is no proof, the longest list
 * has 761 bytes.) A shorter buffer will do if the list fits, and in a longer one
 * the bytes past the list stay. Refusals 1, 2, 13, 3, 4, 14, 10.
 *
 * To go through a list, with t a hall_tables:
 *
 *   uint8_t list[HALL_LONGEST_ROUTE_LIST];
 *   hall_written w = hall_list_routes(t.n, from, to, HALL_TABLES(t),
 *                                     list, sizeof list);
 *
 *   if (w.refusal == HALL_ACCEPTED) {
 *       const uint8_t *route = list + 1;
 *
 *       for (int left = list[0]; left > 0; left--, route += 1 + route[0])
 *           for (int i = 1; i <= route[0]; i++)
 *               pass(route[i]);
 *   }
 */
hall_written hall_list_routes(uint64_t n, uint64_t from, uint64_t to,
                              const uint32_t *cost, size_t cost_length,
                              const uint32_t *passing, size_t passing_length,
                              const uint32_t *time, size_t time_length,
                              const uint32_t *ways, size_t ways_length,
                              const uint64_t *share, size_t share_length,
                              const uint64_t *score, size_t score_length,
                              uint8_t *buffer, size_t buffer_length);

/* Audits the tables and writes the hall's links to a buffer: 4 bytes for each
 * and 8 more, at most HALL_LONGEST_IMAGE. The buffer may be longer; its bytes
 * past the image stay. The passing times are not in it.
 * Refusals 1, 2, 13, 3, 10. */
hall_written hall_image_write(uint64_t n,
                              const uint32_t *cost, size_t cost_length,
                              const uint32_t *passing, size_t passing_length,
                              const uint32_t *time, size_t time_length,
                              const uint32_t *ways, size_t ways_length,
                              const uint64_t *share, size_t share_length,
                              const uint64_t *score, size_t score_length,
                              uint8_t *buffer, size_t buffer_length);

/* Fills all five tables from an image, whose length must be the image's own
 * and not that of a longer buffer, and passing times: with those of the hall
 * that was written they are its tables. Refusals 1, 2, 13, 9. */
uint32_t hall_image_read(uint64_t n, const uint8_t *image, size_t image_length,
                         uint32_t *cost, size_t cost_length,
                         const uint32_t *passing, size_t passing_length,
                         uint32_t *time, size_t time_length,
                         uint32_t *ways, size_t ways_length,
                         uint64_t *share, size_t share_length,
                         uint64_t *score, size_t score_length);

/* Whether the bytes are an image of a hall of n stops. The read for this n
 * refuses an image that passes with 2 or 13 alone. Refusals 1, 9.
 *
 * NOTE the order: here n comes LAST, in every other call it comes first. The
 * compiler cannot see a length and an n that are swapped. */
uint32_t hall_image_check(const uint8_t *image, size_t image_length, uint64_t n);

#ifdef __cplusplus
}
#endif

#endif
