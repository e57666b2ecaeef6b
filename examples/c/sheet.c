/*
 * The sheet of examples/folder.sheet from C: choice and a plan for it, verdicts, arrival count, trace check, ready ticks, both runs,
 * a charge, a low task, write, read and load.
 * Build, after ./install:
 *   cc -O2 examples/c/sheet.c -lnolkrada -o sheet
 * or, without installing, after `rt staticlib nolkrada`:
 *   cc -O2 -Iinclude examples/c/sheet.c target/staticlib/libnolkrada.a -o sheet
 */
#include <inttypes.h>
#include <stdio.h>
#include <string.h>

#include "nolkrada.h"

#define LENGTH(a) (sizeof(a) / sizeof((a)[0]))

/* P, J, E, D and the mark of each task, task 0 first. A mark of 0 is high, any other number low. */
#define HIGH 0
#define LOW 1
static const uint32_t sheet[] = {6, 5, 2, 6, HIGH, 8, 7, 2, 8, HIGH, 10, 0, 2, 11, HIGH};
#define TASKS 3

/* The same with a deadline at which no kept jitter makes the last task fit, and with that task low. */
static const uint32_t marked[] = {6, 5, 2, 6, HIGH, 8, 7, 2, 8, HIGH, 10, 0, 2, 10, LOW};

/* The charge: ticks that each job takes besides its cost, for the switch to it. */
#define NO_CHARGE 0

/* No frame: every tick is ours. A length of 0, with any array. examples/c/frame.c has frames. */
#define NO_FRAME sheet, 0

/* Three releases: task 0 at tick 0, task 2 at tick 0, task 0 at tick 1, all of cost 2. */
static const uint32_t task[] = {0, 2, 0};
static const uint64_t tick[] = {0, 0, 1};
static const uint32_t cost[] = {2, 2, 2};
#define RELEASES 3

static int refused(const char *call, uint64_t code) {
    if (code != 0) printf("%s refused %u at %u\n", call, nolkrada_number(code), nolkrada_place(code));
    return code != 0;
}

/* The choice, and which of the two it is: of all tasks, or of the high ones alone, where a low task has a worst value of 0 and may be
 * late. */
static int print_choice(const uint32_t *numbers, uint32_t *kept) {
    static const char *const which[] = {[NOLKRADA_ORDINARY] = "fits", [NOLKRADA_HIGH_ONLY] = "high only"};
    uint32_t worst[TASKS];
    uint64_t answer[1];
    if (refused("choice", nolkrada_choice(numbers, LENGTH(sheet), TASKS, NO_CHARGE, NO_FRAME, kept, TASKS, worst, TASKS, answer, 1))) return 1;
    printf("task keep worst\n");
    for (int i = 0; i < TASKS; i++) printf("%d %u %u\n", i, kept[i], worst[i]);
    printf("%s\n", which[answer[0]]);
    return 0;
}

static uint64_t print_verdict(const uint32_t *kept, uint32_t i) {
    static const char *const kinds[] = {[NOLKRADA_HORIZON] = "horizon", [NOLKRADA_LATE] = "late", [NOLKRADA_FITS] = "fits"};
    uint64_t answer[4];
    const uint64_t code = nolkrada_verdict(sheet, LENGTH(sheet), TASKS, NO_CHARGE, NO_FRAME, i, kept, TASKS, answer, 4);
    if (!refused("verdict", code))
        printf("task %u with kept jitter %u: %s, q %" PRIu64 ", R %" PRIu64 ", evaluations %" PRIu64 "\n", i, kept[i],
               kinds[answer[0]], answer[1], answer[2], answer[3]);
    return code;
}

/* A plan for the choice on a board: how often it works demand out, and how many tasks above that goes over. The second number, times
 * what a verdict takes on the board for each of its evaluations and each task above, is about the time of the choice. */
static int print_plan(const uint32_t *kept) {
    uint64_t answer[4], evaluations = 0, over = 0;
    for (uint32_t i = 0; i < TASKS; i++) {
        if (refused("verdict", nolkrada_verdict(sheet, LENGTH(sheet), TASKS, NO_CHARGE, NO_FRAME, i, kept, TASKS, answer, 4))) return 1;
        evaluations += answer[3];
        over += answer[3] * i;
    }
    printf("the choice takes %" PRIu64 " evaluations, which go over %" PRIu64 " tasks above\n", evaluations, over);
    return 0;
}

static int print_run(const uint32_t *kept) {
    uint64_t ready[RELEASES], finish[RELEASES];
    uint64_t close[2];
    if (refused("trace check", nolkrada_trace_check(sheet, LENGTH(sheet), TASKS, NO_CHARGE, RELEASES, task, RELEASES, tick, RELEASES,
                                                    cost, RELEASES, close, 2)))
        return 1;
    printf("the releases are %s\n", close[0] == 0 ? "legal" : "too close");
    if (refused("ready", nolkrada_ready(sheet, LENGTH(sheet), TASKS, NO_CHARGE, kept, TASKS, RELEASES, task, RELEASES, tick,
                                        RELEASES, cost, RELEASES, ready, RELEASES)))
        return 1;
    if (refused("run", nolkrada_run(sheet, LENGTH(sheet), TASKS, NO_CHARGE, NO_FRAME, kept, TASKS, RELEASES, task, RELEASES, tick, RELEASES,
                                    cost, RELEASES, ready, RELEASES, finish, RELEASES)))
        return 1;
    printf("job task release ready finish response\n");
    for (int p = 0; p < RELEASES; p++)
        printf("%d %u %" PRIu64 " %" PRIu64 " %" PRIu64 " %" PRIu64 "\n", p, task[p], tick[p], ready[p], finish[p],
               finish[p] - tick[p]);
    return 0;
}

/* The run that jumps, for lists with late ticks or long gaps: the same columns, and how often it stopped. */
static int print_jump(const uint32_t *kept) {
    uint64_t ready[RELEASES], finish[RELEASES];
    uint64_t stops[1];
    if (refused("jump", nolkrada_jump(sheet, LENGTH(sheet), TASKS, NO_CHARGE, NO_FRAME, kept, TASKS, RELEASES, task, RELEASES, tick, RELEASES,
                                      cost, RELEASES, ready, RELEASES, finish, RELEASES, stops, 1)))
        return 1;
    printf("the last job finishes at %" PRIu64 "; the run that jumps made %" PRIu64 " stops\n", finish[RELEASES - 1], stops[0]);
    return 0;
}

/* The same releases, the last one three months later, with ticks of a microsecond. A run tick by tick would take close to an hour. */
static int print_months(const uint32_t *kept) {
    static const uint64_t later[] = {0, 0, UINT64_C(7776000000000)};
    uint64_t ready[RELEASES], finish[RELEASES];
    uint64_t stops[1];
    if (refused("jump", nolkrada_jump(sheet, LENGTH(sheet), TASKS, NO_CHARGE, NO_FRAME, kept, TASKS, RELEASES, task, RELEASES, later, RELEASES,
                                      cost, RELEASES, ready, RELEASES, finish, RELEASES, stops, 1)))
        return 1;
    printf("released at %" PRIu64 " it finishes at %" PRIu64 "\n", later[RELEASES - 1], finish[RELEASES - 1]);
    return 0;
}

/* The same sheet and releases where each job takes one tick more for the switch to it: no kept jitter makes task 1 fit any more. */
static int print_charge(const uint32_t *kept) {
    uint32_t keep[TASKS], worst[TASKS];
    uint64_t ready[RELEASES], finish[RELEASES];
    uint64_t stops[1], answer[1];
    const uint64_t code = nolkrada_choice(sheet, LENGTH(sheet), TASKS, 1, NO_FRAME, keep, TASKS, worst, TASKS, answer, 1);
    printf("with a charge of 1 the choice is refused %u at %u\n", nolkrada_number(code), nolkrada_place(code));
    if (refused("jump", nolkrada_jump(sheet, LENGTH(sheet), TASKS, 1, NO_FRAME, kept, TASKS, RELEASES, task, RELEASES, tick, RELEASES, cost,
                                      RELEASES, ready, RELEASES, finish, RELEASES, stops, 1)))
        return 1;
    printf("with a charge of 1 the jobs finish at %" PRIu64 ", %" PRIu64 " and %" PRIu64 "\n", finish[0], finish[1], finish[2]);
    return nolkrada_number(code) != NOLKRADA_REFUSED_UNFIT;
}

static int print_file(const uint32_t *numbers, uint8_t charge) {
    /* Buffers that hold whatever a file may hold. */
    static uint8_t file[NOLKRADA_READ_BYTES];
    static uint32_t again[NOLKRADA_SHEET_NUMBERS];
    static uint32_t tasks[NOLKRADA_MAX_RELEASES], costs[NOLKRADA_MAX_RELEASES];
    static uint64_t ticks[NOLKRADA_MAX_RELEASES];
    uint64_t bytes[1], counts[3];
    if (refused("write", nolkrada_write(numbers, LENGTH(sheet), TASKS, charge, RELEASES, task, RELEASES, tick, RELEASES, cost,
                                        RELEASES, file, sizeof file, bytes, 1)))
        return 1;
    if (refused("read", nolkrada_read(file, bytes[0], again, LENGTH(again), tasks, LENGTH(tasks), ticks, LENGTH(ticks), costs,
                                      LENGTH(costs), counts, 3)))
        return 1;
    printf("%" PRIu64 " bytes, %" PRIu64 " tasks, %" PRIu64 " releases, charge %" PRIu64 ", %s\n", bytes[0], counts[0], counts[1],
           counts[2], memcmp(again, numbers, sizeof sheet) == 0 ? "the same sheet" : "another sheet");
    return 0;
}

static int print_text(void) {
    static const char text[] = "6,5,2,6\n8,7,2,8\n10,0,2,11\n";
    static uint32_t loaded[NOLKRADA_SHEET_NUMBERS];
    uint64_t count[1];
    if (refused("load", nolkrada_load((const uint8_t *)text, strlen(text), loaded, LENGTH(loaded), count, 1))) return 1;
    printf("%" PRIu64 " lines of text, %s\n", count[0],
           memcmp(loaded, sheet, sizeof sheet) == 0 ? "the same sheet" : "another sheet");
    return 0;
}

int main(void) {
    uint32_t kept[TASKS], other[TASKS];
    uint64_t arrivals[1];
    if (print_choice(sheet, kept)) return 1;
    if (print_plan(kept)) return 1;
    if (print_verdict(kept, 1)) return 1;
    if (refused("arrival count", nolkrada_arrival_count(sheet, LENGTH(sheet), TASKS, NO_CHARGE, 0, kept, TASKS, 8, arrivals, 1)))
        return 1;
    printf("task 0 arrives at most %" PRIu64 " times in 8 ticks\n", arrivals[0]);
    if (print_run(kept)) return 1;
    if (print_jump(kept)) return 1;
    if (print_months(kept)) return 1;
    if (print_charge(kept)) return 1;
    if (print_choice(marked, other)) return 1;
    if (print_file(sheet, NO_CHARGE)) return 1;
    if (print_file(sheet, 1)) return 1;
    if (print_file(marked, NO_CHARGE)) return 1;
    if (print_text()) return 1;
    /* One less than the choice. */
    kept[1] = 3;
    if (print_verdict(kept, 1)) return 1;
    /* More than the task's jitter. */
    kept[1] = 8;
    return nolkrada_number(print_verdict(kept, 1)) == NOLKRADA_REFUSED_KEPT ? 0 : 1;
}
