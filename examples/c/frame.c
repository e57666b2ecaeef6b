/*
 * A frame from C: a board that lends the processor for six of every ten ticks. The choice without the frame and with it, a verdict, both
 * runs, and a frame that is refused.
 * Build, after ./install:
 *   cc -O2 examples/c/frame.c -lnolkrada -o frame
 * or, without installing, after `rt staticlib nolkrada`:
 *   cc -O2 -Iinclude examples/c/frame.c target/staticlib/libnolkrada.a -o frame
 */
#include <inttypes.h>
#include <stdio.h>

#include "nolkrada.h"

#define LENGTH(a) (sizeof(a) / sizeof((a)[0]))

/* P, J, E, D and the mark of each task, task 0 first; all are high. */
static const uint32_t sheet[] = {20, 10, 2, 12, 0, 40, 0, 4, 40, 0};
#define TASKS 2
#define NO_CHARGE 0

/* Ten ticks with two windows: ours are 0, 1, 2 and 4, 5, 6, then 10, 11, 12 and 14, 15, 16, and so on. */
static const struct nolkrada_frame lent = {.ticks = 10, .count = 2, .windows = {{.first = 0, .length = 3}, {.first = 4, .length = 3}}};

/* The frame as an array and its length; a length of 0 is no frame. */
#define WITH_FRAME &lent.ticks, NOLKRADA_FRAME_NUMBERS

/* Three releases: task 0 at tick 0 and at tick 10, task 1 at tick 5, each of its full cost. */
static const uint32_t task[] = {0, 1, 0};
static const uint64_t tick[] = {0, 5, 10};
static const uint32_t cost[] = {2, 4, 2};
#define RELEASES 3

static int refused(const char *call, uint64_t code) {
    if (code != 0) printf("%s refused %u at %u\n", call, nolkrada_number(code), nolkrada_place(code));
    return code != 0;
}

/* The choice with a frame of so many numbers, 0 for none. */
static int print_choice(const char *name, size_t frame_length, uint32_t *kept) {
    uint32_t worst[TASKS];
    uint64_t answer[1];
    const uint64_t code = nolkrada_choice(sheet, LENGTH(sheet), TASKS, NO_CHARGE, &lent.ticks, frame_length, kept, TASKS, worst, TASKS,
                                          answer, 1);
    if (refused("choice", code)) return 1;
    printf("%s\ntask keep worst\n", name);
    for (int i = 0; i < TASKS; i++) printf("%d %u %u\n", i, kept[i], worst[i]);
    return 0;
}

/* The verdict of task 0. The fourth word is 0 with a frame. */
static int print_verdict(const uint32_t *kept) {
    static const char *const kinds[] = {[NOLKRADA_HORIZON] = "horizon", [NOLKRADA_LATE] = "late", [NOLKRADA_FITS] = "fits"};
    uint64_t answer[4];
    if (refused("verdict", nolkrada_verdict(sheet, LENGTH(sheet), TASKS, NO_CHARGE, WITH_FRAME, 0, kept, TASKS, answer, 4))) return 1;
    printf("task 0 with kept jitter %u: %s, q %" PRIu64 ", R %" PRIu64 "\n", kept[0], kinds[answer[0]], answer[1], answer[2]);
    return 0;
}

/* The run tick by tick, and the finish ticks and the stops of the one that jumps. */
static int print_runs(const uint32_t *kept) {
    uint64_t ready[RELEASES], finish[RELEASES], again[RELEASES], stops[1];
    if (refused("run", nolkrada_run(sheet, LENGTH(sheet), TASKS, NO_CHARGE, WITH_FRAME, kept, TASKS, RELEASES, task, RELEASES, tick,
                                    RELEASES, cost, RELEASES, ready, RELEASES, finish, RELEASES)))
        return 1;
    printf("job task release ready finish response\n");
    for (int p = 0; p < RELEASES; p++)
        printf("%d %u %" PRIu64 " %" PRIu64 " %" PRIu64 " %" PRIu64 "\n", p, task[p], tick[p], ready[p], finish[p], finish[p] - tick[p]);
    if (refused("jump", nolkrada_jump(sheet, LENGTH(sheet), TASKS, NO_CHARGE, WITH_FRAME, kept, TASKS, RELEASES, task, RELEASES, tick,
                                      RELEASES, cost, RELEASES, ready, RELEASES, again, RELEASES, stops, 1)))
        return 1;
    printf("the run that jumps finishes the last job at %" PRIu64 " and makes %" PRIu64 " stops\n", again[RELEASES - 1], stops[0]);
    return 0;
}

/* Windows that touch are refused, with the place of the second: one longer window says the same. */
static int print_refusal(void) {
    static const struct nolkrada_frame touching = {.ticks = 10, .count = 2, .windows = {{0, 3}, {3, 3}}};
    uint32_t kept[TASKS], worst[TASKS];
    uint64_t answer[1];
    const uint64_t code = nolkrada_choice(sheet, LENGTH(sheet), TASKS, NO_CHARGE, &touching.ticks, NOLKRADA_FRAME_NUMBERS, kept, TASKS,
                                          worst, TASKS, answer, 1);
    printf("windows that touch are refused %u at %u\n", nolkrada_number(code), nolkrada_place(code));
    return nolkrada_number(code) != NOLKRADA_REFUSED_FRAME;
}

int main(void) {
    uint32_t kept[TASKS];
    if (print_choice("without a frame", 0, kept)) return 1;
    if (print_choice("six of ten ticks", NOLKRADA_FRAME_NUMBERS, kept)) return 1;
    if (print_verdict(kept)) return 1;
    if (print_runs(kept)) return 1;
    /* One less than the choice. */
    kept[0]--;
    if (print_verdict(kept)) return 1;
    return print_refusal();
}
