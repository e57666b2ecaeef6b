/*
 * A test bench from C: every legal trace of a small sheet, with up to three releases and ticks below 3. How many there are comes first, then
 * each of them by its position, with the largest response of its jobs in the run that jumps. At the end the bench says beside the worst value
 * of each task, which the choice gives, how near to it these traces come, and which of them is the first that comes so near.
 * Build, after ./install:
 *   cc -O2 examples/c/traces.c -lnolkrada -o traces
 * or, without installing, after `rt staticlib nolkrada`:
 *   cc -O2 -Iinclude examples/c/traces.c target/staticlib/libnolkrada.a -o traces
 */
#include <inttypes.h>
#include <stdio.h>

#include "nolkrada.h"

/* P, J, E, D and the mark of each task, task 0 first; all are high. Task 0 may be released twice in one tick, task 1 not. */
#define TASKS 2
static const struct nolkrada_task tasks[TASKS] = {{4, 4, 1, 4, 0}, {5, 3, 2, 5, 0}};
#define SHEET &tasks[0].period, NOLKRADA_TASK_NUMBERS * TASKS, TASKS, 0
#define NO_FRAME &tasks[0].period, 0
#define RELEASES 3
#define TICKS 3

/* A trace. Its columns take any small trace. */
static uint32_t task[NOLKRADA_SMALL_RELEASES], cost[NOLKRADA_SMALL_RELEASES], length;
static uint64_t tick[NOLKRADA_SMALL_RELEASES];

/* The largest response of each task in all traces, and the position of the first trace that has it. */
static uint64_t largest[TASKS], at[TASKS];

static int refused(const char *call, uint64_t code) {
    if (code != 0) printf("%s refused %u at %u\n", call, nolkrada_number(code), nolkrada_place(code));
    return code != 0;
}

/* Fetches the trace at a position, and says whether there is one. */
static int fetch(uint64_t position, int *there) {
    uint64_t answer[2];
    const size_t slots = NOLKRADA_SMALL_RELEASES;
    if (refused("small trace", nolkrada_small_trace(SHEET, RELEASES, TICKS, position, task, slots, tick, slots, cost, slots, answer, 2))) return 1;
    *there = answer[0] == 1;
    length = (uint32_t)answer[1];
    return 0;
}

/* The largest response of the trace, after a check that its releases are legal. */
static int run(const uint32_t *kept, uint64_t position, uint64_t *response) {
    uint64_t ready[NOLKRADA_SMALL_RELEASES], finish[NOLKRADA_SMALL_RELEASES], close[2], stops[1];
    if (refused("trace check", nolkrada_trace_check(SHEET, length, task, length, tick, length, cost, length, close, 2))) return 1;
    if (close[0] != 0) printf("release %" PRIu64 " is too close\n", close[1]);
    if (refused("jump", nolkrada_jump(SHEET, NO_FRAME, kept, TASKS, length, task, length, tick, length, cost, length, ready, length, finish,
                                      length, stops, 1)))
        return 1;
    *response = 0;
    for (uint32_t p = 0; p < length; p++) {
        const uint64_t one = finish[p] - tick[p];
        if (one > *response) *response = one;
        if (one > largest[task[p]]) largest[task[p]] = one, at[task[p]] = position;
    }
    return close[0] != 0;
}

static void print_trace(void) {
    for (uint32_t p = 0; p < length; p++) printf(" %" PRIu64 "/%u", tick[p], task[p]);
    if (length == 0) printf(" no release");
}

int main(void) {
    uint32_t kept[TASKS], worst[TASKS];
    uint64_t which[1], many[1], position, response;
    int there;
    if (refused("choice", nolkrada_choice(SHEET, NO_FRAME, kept, TASKS, worst, TASKS, which, 1))) return 1;
    if (refused("small trace count", nolkrada_small_trace_count(SHEET, RELEASES, TICKS, many, 1))) return 1;
    printf("%" PRIu64 " traces of up to %d releases with ticks below %d\nposition: tick/task of each release, largest response\n", many[0], RELEASES,
           TICKS);
    for (position = 0;; position++) {
        if (fetch(position, &there)) return 1;
        if (!there) break;
        if (run(kept, position, &response)) return 1;
        printf("%" PRIu64 ":", position);
        print_trace();
        printf(", %" PRIu64 "\n", response);
    }
    printf("none at %" PRIu64 "\n", position);
    for (int i = 0; i < TASKS; i++) {
        if (fetch(at[i], &there)) return 1;
        printf("task %d: keeps %u, worst value %u, largest response %" PRIu64 " in trace %" PRIu64 ":", i, kept[i], worst[i], largest[i], at[i]);
        print_trace();
        printf("\n");
    }
    const uint64_t code = nolkrada_small_trace_count(SHEET, RELEASES, NOLKRADA_SMALL_TICKS + 1, many, 1);
    printf("ticks below %d are refused %u at %u\n", NOLKRADA_SMALL_TICKS + 1, nolkrada_number(code), nolkrada_place(code));
    return position != many[0] || nolkrada_number(code) != NOLKRADA_REFUSED_RELEASE_TICK;
}
