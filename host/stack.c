/* Measures how deep each call goes, on a stack of its own that is filled with one byte before it. Fails above HALL_STACK.
 * Calls that write rows go deepest, here on 64 stops; some of them crowd a pair, and a list is refused and puts the rows back. No depth
 * goes by the passing times, which are 0. */
#include "hall.h"

#include <stdio.h>
#include <string.h>
#include <ucontext.h>

enum { N = 64, CELLS = N * N, ROOM = 1 << 20, UNUSED = 0xa5 };

static uint32_t cost[CELLS], passing[N], time[CELLS], ways[CELLS];
static uint64_t share[CELLS], score[N];
static uint8_t image[HALL_LONGEST_IMAGE], routes[HALL_LONGEST_ROUTE_LIST];
static hall_tables t = {N, cost, passing, time, ways, share, score};
static size_t image_length;

static unsigned char room[ROOM] __attribute__((aligned(4096)));
static ucontext_t here, there;
static uint32_t answer;

static void empty(void) { answer = hall_empty(N, HALL_TABLES(t)); }
static void work_out(void) { answer = hall_work_out(N, HALL_TABLES(t)); }
static void audit(void) { answer = hall_audit(N, HALL_TABLES(t)); }
static void move_over(void) { answer = hall_move_over(N, HALL_OLD_TABLES(t)); }
static void insert(void) { answer = hall_insert(N, 0, 1, 10, HALL_TABLES(t)).refusal; }
static void cheapen(void) { answer = hall_cheapen(N, 0, 1, 10, HALL_TABLES(t)).refusal; }
static void raise_cost(void) { answer = hall_raise(N, 0, 1, 10, HALL_TABLES(t)).refusal; }
static void delete_link(void) { answer = hall_delete(N, 0, 1, HALL_TABLES(t)).refusal; }
static hall_edit list[3] = {{HALL_INSERT, 1, 0, 10}, {HALL_DELETE, 1, 0, 0}, {HALL_DELETE, 1, 0, 0}};
static void edit_list(void) { answer = hall_edit_list(N, list, 2, HALL_TABLES(t)).refusal; }
static void refused_list(void) { answer = hall_edit_list(N, list, 3, HALL_TABLES(t)).refusal; }
static void list_routes(void) { answer = hall_list_routes(N, N - 1, 0, HALL_TABLES(t), routes, sizeof routes).refusal; }
static void list_crowded(void) { answer = hall_list_routes(N, 0, 1, HALL_TABLES(t), routes, sizeof routes).refusal; }
static void image_read(void) { answer = hall_image_read(N, image, image_length, HALL_TABLES(t)); }
static void image_check(void) { answer = hall_image_check(image, image_length, N); }

static void image_write(void)
{
    hall_written w = hall_image_write(N, HALL_TABLES(t), image, sizeof image);

    answer = w.refusal;
    image_length = w.length;
}

/* Runs a call on the stack of its own. */
static void run(void (*call)(void))
{
    memset(room, UNUSED, sizeof room);
    getcontext(&there);
    there.uc_stack.ss_sp = room;
    there.uc_stack.ss_size = sizeof room;
    there.uc_link = &here;
    makecontext(&there, call, 0);
    swapcontext(&here, &there);
}

/* Prints how much stack a call uses, and says whether it fits and the answer is the expected one. */
static int fits(const char *name, void (*call)(void), uint32_t expected)
{
    size_t unused = 0;
    int good;

    run(call);
    while (unused < ROOM && room[unused] == UNUSED)
        unused++;
    good = answer == expected && ROOM - unused <= HALL_STACK;
    printf("%-12s refusal %2u  %6zu bytes of stack%s\n", name, answer, ROOM - unused, good ? "" : ": NOT SO EXPECTED");
    return good;
}

/* A hall with `between` ways of time 10 from 0 to 1, each over one stop, and a direct link that costs `direct`. */
static void lay(uint64_t between, uint32_t direct)
{
    memset(cost, 0, sizeof cost);
    for (uint64_t v = 2; v < 2 + between; v++)
        cost[v] = cost[v * N + 1] = 5;
    cost[1] = direct;
}

/* A line from the last stop down to 0, whose first stop has links to the next 12. A list of routes takes the one to the nearest of
 * them last, and goes from there over all stops. None goes deeper: a level for each stop of the route in hand, and one for each link
 * that was taken before at one of them, of which each has given a route. */
static void lay_line(void)
{
    memset(cost, 0, sizeof cost);
    for (uint64_t v = 0; v + 1 < N; v++)
        cost[(v + 1) * N + v] = 1;
    for (uint32_t past = 2; past <= HALL_WAYS; past++)
        cost[(N - 1) * N + N - 1 - past] = past;
}

/* The tables as the old numbers would have them. */
static void make_old(void)
{
    for (size_t i = 0; i < CELLS; i++)
        share[i] *= HALL_OLD_SCALE / HALL_SCALE;
    for (size_t v = 0; v < N; v++)
        score[v] *= HALL_OLD_SCALE / HALL_SCALE;
}

int main(void)
{
    int good = fits("empty hall", empty, HALL_ACCEPTED);

    lay(HALL_WAYS, 0);
    good &= fits("work out", work_out, HALL_ACCEPTED);
    good &= fits("insert", insert, HALL_ACCEPTED);
    lay(HALL_WAYS, 11);
    good &= fits("work out", work_out, HALL_ACCEPTED);
    good &= fits("cheapen", cheapen, HALL_ACCEPTED);
    lay(HALL_CROWDED_WAYS, 9);
    good &= fits("work out", work_out, HALL_ACCEPTED);
    good &= fits("raise", raise_cost, HALL_ACCEPTED);
    good &= fits("delete", delete_link, HALL_ACCEPTED);
    good &= fits("list routes", list_crowded, HALL_CROWDED_PAIR);
    good &= fits("list", edit_list, HALL_ACCEPTED);
    good &= fits("list", refused_list, HALL_LINK_ABSENT);
    good &= fits("audit", audit, HALL_ACCEPTED);
    good &= fits("image write", image_write, HALL_ACCEPTED);
    good &= fits("image check", image_check, HALL_ACCEPTED);
    good &= fits("image read", image_read, HALL_ACCEPTED);
    lay(HALL_WAYS, 0);
    good &= fits("work out", work_out, HALL_ACCEPTED);
    make_old();
    good &= fits("move over", move_over, HALL_ACCEPTED);
    good &= fits("move over", move_over, HALL_BAD_TABLES);
    lay_line();
    good &= fits("work out", work_out, HALL_ACCEPTED);
    good &= fits("list routes", list_routes, HALL_ACCEPTED);
    return !good;
}
