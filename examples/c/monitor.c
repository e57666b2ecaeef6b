/*
 * The display of a run from C: per task the jobs among the last 256, how many of them were late, and the largest response, after each
 * of four pieces of the run. The second piece has a burst of task 1, which its jitter does not allow: jobs of task 1 are late, and none of
 * the others. Two pieces later they are no longer among the last 256.
 * Build, after ./install:
 *   cc -O2 examples/c/monitor.c -lnolkrada -o monitor
 * or, without installing, after `rt staticlib nolkrada`:
 *   cc -O2 -Iinclude examples/c/monitor.c target/staticlib/libnolkrada.a -o monitor
 */
#include <inttypes.h>
#include <stdio.h>
#include <stdlib.h>
#include <string.h>

#include "nolkrada.h"

#define LENGTH(a) (sizeof(a) / sizeof((a)[0]))

/* P, J, E, D and the mark of each task, task 0 first; all are high. */
static const uint32_t sheet[] = {6, 5, 2, 6, 0, 8, 7, 2, 8, 0, 10, 0, 2, 11, 0};
#define TASKS 3
#define SHEET sheet, LENGTH(sheet), TASKS, 0
#define NO_FRAME sheet, 0

/* A piece has releases in 480 ticks, and the next one starts 1,000 ticks after it. By then every job is finished and no shaper holds a
 * job back for the ones before, so that each piece may be run in a call of its own. */
#define PIECES 4
#define PIECE 480
#define APART 1000

/* The releases of a piece. */
static uint32_t task[NOLKRADA_MAX_RELEASES], cost[NOLKRADA_MAX_RELEASES];
static uint64_t tick[NOLKRADA_MAX_RELEASES], ready[NOLKRADA_MAX_RELEASES], finish[NOLKRADA_MAX_RELEASES];
static uint32_t releases;

/* The last jobs: memory of this program, which the calls change. */
static uint64_t window[NOLKRADA_WINDOW_SLOTS];
#define WINDOW window, NOLKRADA_WINDOW_SLOTS

static int refused(const char *call, uint64_t code) {
    if (code != 0) printf("%s refused %u at %u\n", call, nolkrada_number(code), nolkrada_place(code));
    return code != 0;
}

static void release(uint32_t i, uint64_t at) {
    task[releases] = i, tick[releases] = at, cost[releases] = 2;
    releases++;
}

/* The releases of a piece in order of tick: task 0 each 6 ticks and up to 5 later, task 1 each 8 and up to 7 later, task 2 each 10; and
 * so many of task 1 besides, all at tick 40 of the piece. */
static void make_piece(uint64_t start, uint32_t burst) {
    releases = 0;
    for (uint64_t t = 0; t < PIECE; t++) {
        if (t % 6 == t / 6 * 5 % 6) release(0, start + t);
        if (t % 8 == t / 8 * 3 % 8) release(1, start + t);
        if (t % 10 == 0) release(2, start + t);
        for (uint32_t n = 0; t == 40 && n < burst; n++) release(1, start + t);
    }
}

static int by_finish(const void *a, const void *b) {
    const uint64_t x = finish[*(const uint32_t *)a], y = finish[*(const uint32_t *)b];
    return (x > y) - (x < y);
}

/* Runs the piece and brings its jobs to the window, in order of finish. No two jobs finish at one tick. */
static int run_piece(const uint32_t *kept) {
    uint32_t order[NOLKRADA_MAX_RELEASES];
    uint64_t close[2], stops[1];
    if (refused("trace check", nolkrada_trace_check(SHEET, releases, task, releases, tick, releases, cost, releases, close, 2))) return 1;
    if (refused("jump", nolkrada_jump(SHEET, NO_FRAME, kept, TASKS, releases, task, releases, tick, releases, cost, releases, ready,
                                      releases, finish, releases, stops, 1)))
        return 1;
    printf("%u jobs, the releases are %s\n", releases, close[0] == 0 ? "legal" : "too close");
    for (uint32_t p = 0; p < releases; p++) order[p] = p;
    qsort(order, releases, sizeof order[0], by_finish);
    for (uint32_t p = 0; p < releases; p++)
        if (refused("take", nolkrada_monitor_take(WINDOW, task[order[p]], finish[order[p]] - tick[order[p]]))) return 1;
    return 0;
}

static int print_display(void) {
    uint32_t jobs[TASKS], late[TASKS];
    uint64_t largest[TASKS];
    if (refused("show all", nolkrada_monitor_show_all(WINDOW, jobs, TASKS, late, TASKS, largest, TASKS))) return 1;
    printf("task jobs late largest\n");
    for (int i = 0; i < TASKS; i++) printf("%4d %4u %4u %7" PRIu64 "\n", i, jobs[i], late[i], largest[i]);
    return 0;
}

/* A job of a task that is not in the sheet is refused, and the window is as it was. */
static int print_refusal(void) {
    uint64_t before[NOLKRADA_WINDOW_SLOTS];
    memcpy(before, window, sizeof window);
    const uint64_t code = nolkrada_monitor_take(WINDOW, TASKS, 5);
    printf("a job of task %d is refused %u at %u, and the window is %s\n", TASKS, nolkrada_number(code), nolkrada_place(code),
           memcmp(before, window, sizeof window) == 0 ? "as it was" : "another");
    return nolkrada_number(code) != NOLKRADA_REFUSED_NO_SUCH_TASK;
}

int main(void) {
    uint32_t kept[TASKS], worst[TASKS];
    uint64_t which[1], answer[3];
    if (refused("choice", nolkrada_choice(SHEET, NO_FRAME, kept, TASKS, worst, TASKS, which, 1))) return 1;
    if (refused("open", nolkrada_monitor_open(SHEET, WINDOW))) return 1;
    for (uint32_t k = 0; k < PIECES; k++) {
        make_piece(k * APART, k == 1 ? 9 : 0);
        if (run_piece(kept)) return 1;
        if (print_display()) return 1;
    }
    if (refused("show", nolkrada_monitor_show(WINDOW, 1, answer, 3))) return 1;
    printf("task 1 alone: %" PRIu64 " jobs, %" PRIu64 " late, largest %" PRIu64 "\n", answer[0], answer[1], answer[2]);
    return print_refusal();
}
