/*
 * A task added to a board that runs, from C: ask first, then commit. A board is opened with three tasks. Two asks show what the kept jitters
 * become with one task more, and change nothing. One of them is committed: too early at first, which is refused, since a job is not finished
 * by then. The other is stale after that, and is asked for anew.
 * Build, after ./install:
 *   cc -O2 examples/c/board.c -lnolkrada -o board
 * or, without installing, after `rt staticlib nolkrada`:
 *   cc -O2 -Iinclude examples/c/board.c target/staticlib/libnolkrada.a -o board
 */
#include <inttypes.h>
#include <stdio.h>
#include <string.h>

#include "nolkrada.h"

#define LENGTH(a) (sizeof(a) / sizeof((a)[0]))

/* P, J, E, D and the mark of each task, task 0 first; all are high. No charge and no frame. */
static const struct nolkrada_task opened[] = {{20, 12, 4, 20, 0}, {50, 35, 9, 50, 0}, {100, 60, 15, 90, 0}};
#define NO_CHARGE 0
#define NO_FRAME &opened[0].period, 0

/* The new tasks: one that is to stand between tasks 0 and 1, and one below all others. */
static const struct nolkrada_task valve = {60, 40, 4, 45, 0}, lamp = {400, 100, 20, 300, 0};

/* The board: memory of this program, which only openings and commits change. */
static struct nolkrada_board board;

/* A board and an offer as an array and its length; the sheet and the frame of a board. */
#define BOARD &board.plan.tasks[0].period, NOLKRADA_BOARD_NUMBERS
#define OFFER(offer) &(offer).tasks[0].period, NOLKRADA_OFFER_NUMBERS
#define SHEET_OF(board) &(board).plan.tasks[0].period, NOLKRADA_SHEET_NUMBERS, (board).plan.count, (uint8_t)(board).plan.charge
#define FRAME_OF(board) &(board).frame.ticks, (board).framed ? NOLKRADA_FRAME_NUMBERS : 0

/* Releases since the opening: each task at tick 0, and task 0 at tick 20. And since the first commit: the new task 1, at its tick. */
static const uint32_t task[] = {0, 1, 2, 0}, cost[] = {4, 9, 15, 4};
static const uint64_t tick[] = {0, 0, 0, 20};
#define RELEASES 4

static int refused(const char *call, uint64_t code) {
    if (code != 0) printf("%s refused %u at %u\n", call, nolkrada_number(code), nolkrada_place(code));
    return code != 0;
}

/* Asks for a task on a sheet that is held, and prints the kept jitters of the offer, beside them those in force. */
static int print_ask(const char *name, const struct nolkrada_board *held, const struct nolkrada_task *new_task, uint32_t place,
                     struct nolkrada_offer *offer) {
    if (refused("ask", nolkrada_board_ask(SHEET_OF(*held), FRAME_OF(*held), &new_task->period, NOLKRADA_TASK_NUMBERS, place, OFFER(*offer))))
        return 1;
    printf("with %s as task %u\ntask period jitter cost deadline keep worst now\n", name, place);
    for (uint32_t i = 0; i < offer->count; i++) {
        const struct nolkrada_task *t = &offer->tasks[i];
        printf("%u %u %u %u %u %u %u ", i, t->period, t->jitter, t->cost, t->deadline, offer->kept[i], offer->worst[i]);
        if (i == place)
            printf("new\n");
        else
            printf("%u\n", held->plan.kept[i < place ? i : i - 1]);
    }
    puts(offer->which == NOLKRADA_ORDINARY ? "fits" : "high only");
    return 0;
}

/* Commits an offer that was asked of a board as it was then, with these releases. */
static int print_commit(const char *name, const struct nolkrada_offer *offer, const struct nolkrada_board *asked, uint32_t n,
                        const uint32_t *tasks, const uint64_t *ticks, const uint32_t *costs, uint64_t at, uint32_t expected) {
    const struct nolkrada_board before = board;
    const uint64_t code =
        nolkrada_board_commit(BOARD, OFFER(*offer), SHEET_OF(*asked), FRAME_OF(*asked), n, tasks, n, ticks, n, costs, n, at);
    if (code == 0)
        printf("commit of %s at %" PRIu64 ": %u tasks are in force, the last commit is at %" PRIu64 "\n", name, at, board.plan.count,
               nolkrada_board_last(&board));
    else
        printf("commit of %s at %" PRIu64 " is refused %u at %u, and the board is %s\n", name, at, nolkrada_number(code),
               nolkrada_place(code), memcmp(&before, &board, sizeof board) == 0 ? "as it was" : "another");
    return nolkrada_number(code) != expected;
}

int main(void) {
    struct nolkrada_offer with_valve, with_lamp;
    if (refused("open", nolkrada_board_open(&opened[0].period, NOLKRADA_TASK_NUMBERS * LENGTH(opened), LENGTH(opened), NO_CHARGE, NO_FRAME, BOARD)))
        return 1;
    printf("opened with %u tasks, which keep %u, %u and %u\n", board.plan.count, board.plan.kept[0], board.plan.kept[1], board.plan.kept[2]);

    /* A commit writes the board, so what was asked of is kept beside it. */
    struct nolkrada_board asked = board;
    if (print_ask("the valve", &asked, &valve, 1, &with_valve)) return 1;
    if (print_ask("the lamp", &asked, &lamp, 3, &with_lamp)) return 1;

    /* The last of these jobs is finished at 33. */
    if (print_commit("the valve", &with_valve, &asked, RELEASES, task, tick, cost, 32, NOLKRADA_REFUSED_TOO_SOON)) return 1;
    if (print_commit("the valve", &with_valve, &asked, RELEASES, task, tick, cost, 33, 0)) return 1;

    /* The lamp was asked for on another sheet than the one in force now. */
    static const uint32_t one[] = {1}, four[] = {4};
    static const uint64_t at_once[] = {33};
    if (print_commit("the lamp", &with_lamp, &asked, 1, one, at_once, four, 100, NOLKRADA_REFUSED_STALE)) return 1;
    asked = board;
    if (print_ask("the lamp", &asked, &lamp, 4, &with_lamp)) return 1;
    if (print_commit("the lamp", &with_lamp, &asked, 1, one, at_once, four, 100, 0)) return 1;
    printf("%u tasks keep", board.plan.count);
    for (uint32_t i = 0; i < board.plan.count; i++) printf(" %u", board.plan.kept[i]);
    printf("\n");
    return 0;
}
