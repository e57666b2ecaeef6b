/*
 * The constants of include/nolkrada.h: the limits of documents 01 and 02, the sizes of files and texts, the largest charge, the
 * largest finish and the most stops of a run, each refusal by its name, verdicts with their evaluations, choices with marks, frames,
 * windows of the last jobs, boards, and small traces, got from the archive.
 */
#include <stddef.h>
#include <stdio.h>
#include <string.h>

#include "nolkrada.h"

#define SAME(name, value) _Static_assert(name == (value), #name)

SAME(NOLKRADA_MAX_TASKS, 32);
SAME(NOLKRADA_MAX_RELEASES, 1024);
/* P, J, E, D and the mark of each task, and the struct of the same layout. */
SAME(NOLKRADA_TASK_NUMBERS, 5);
SAME(NOLKRADA_SHEET_NUMBERS, NOLKRADA_TASK_NUMBERS * NOLKRADA_MAX_TASKS);
SAME(sizeof(struct nolkrada_task), NOLKRADA_TASK_NUMBERS * sizeof(uint32_t));
SAME(_Alignof(struct nolkrada_task), _Alignof(uint32_t));
SAME(offsetof(struct nolkrada_task, period), 0);
SAME(offsetof(struct nolkrada_task, jitter), 4);
SAME(offsetof(struct nolkrada_task, cost), 8);
SAME(offsetof(struct nolkrada_task, deadline), 12);
SAME(offsetof(struct nolkrada_task, mark), 16);
/* A ready tick plus 1 and a finish of each release. */
SAME(NOLKRADA_MAX_STOPS, 2 * NOLKRADA_MAX_RELEASES);
/* Both have 64 bits; one of kind 2 has four bytes in a file. */
SAME(NOLKRADA_MAX_TICK, 1000 * 1000 * NOLKRADA_MAX_SHORT_TICK);
SAME(NOLKRADA_MAX_SHORT_TICK, 1000000000);
SAME(sizeof NOLKRADA_MAX_SHORT_TICK, 8);
/* Released at the last tick, and each job runs from the tick after; with a frame in one tick of its largest number. */
#define MOST_WORK (UINT64_C(1000000) * NOLKRADA_MAX_RELEASES)
#define MAX_PLAIN_FINISH (NOLKRADA_MAX_TICK + NOLKRADA_PICKUP + MOST_WORK)
SAME(MAX_PLAIN_FINISH, UINT64_C(1000001024000001));
SAME(NOLKRADA_MAX_FINISH, NOLKRADA_MAX_TICK + NOLKRADA_PICKUP + MOST_WORK * NOLKRADA_MAX_FRAME);
/* Ticks, count, and first tick and length of each window: the row of a frame, and the struct of the same layout. */
SAME(NOLKRADA_FRAME_NUMBERS, 2 + 2 * NOLKRADA_MAX_WINDOWS);
SAME(sizeof(struct nolkrada_frame), NOLKRADA_FRAME_NUMBERS * sizeof(uint32_t));
SAME(_Alignof(struct nolkrada_frame), _Alignof(uint32_t));
SAME(offsetof(struct nolkrada_frame, ticks), 0);
SAME(offsetof(struct nolkrada_frame, count), 4);
SAME(offsetof(struct nolkrada_frame, windows), 8);
SAME(offsetof(struct nolkrada_frame, windows[1].first), 16);
SAME(offsetof(struct nolkrada_frame, windows[NOLKRADA_MAX_WINDOWS - 1].length), 4 * (NOLKRADA_FRAME_NUMBERS - 1));
/* Tasks, count, charge, which choice, kept jitters and worst values: the row of an offer, and the struct of the same layout. */
SAME(NOLKRADA_OFFER_NUMBERS, NOLKRADA_SHEET_NUMBERS + 3 + 2 * NOLKRADA_MAX_TASKS);
SAME(sizeof(struct nolkrada_offer), NOLKRADA_OFFER_NUMBERS * sizeof(uint32_t));
SAME(_Alignof(struct nolkrada_offer), _Alignof(uint32_t));
SAME(offsetof(struct nolkrada_offer, tasks), 0);
SAME(offsetof(struct nolkrada_offer, tasks[1].period), 4 * 5);
SAME(offsetof(struct nolkrada_offer, count), 4 * 160);
SAME(offsetof(struct nolkrada_offer, charge), 4 * 161);
SAME(offsetof(struct nolkrada_offer, which), 4 * 162);
SAME(offsetof(struct nolkrada_offer, kept), 4 * 163);
SAME(offsetof(struct nolkrada_offer, worst), 4 * 195);
/* The same, whether there is a frame, the frame, and two halves of a tick: the row of a board, and its struct. */
SAME(NOLKRADA_BOARD_NUMBERS, NOLKRADA_OFFER_NUMBERS + 1 + NOLKRADA_FRAME_NUMBERS + 2);
SAME(NOLKRADA_BOARD_NUMBERS * sizeof(uint32_t), 1056);
SAME(sizeof(struct nolkrada_board), NOLKRADA_BOARD_NUMBERS * sizeof(uint32_t));
SAME(_Alignof(struct nolkrada_board), _Alignof(uint32_t));
SAME(offsetof(struct nolkrada_board, plan), 0);
SAME(offsetof(struct nolkrada_board, framed), 4 * 227);
SAME(offsetof(struct nolkrada_board, frame), 4 * 228);
SAME(offsetof(struct nolkrada_board, frame.count), 4 * 229);
SAME(offsetof(struct nolkrada_board, frame.windows), 4 * 230);
SAME(offsetof(struct nolkrada_board, last_low), 4 * 262);
SAME(offsetof(struct nolkrada_board, last_high), 4 * 263);
/* A charge has one byte. */
SAME(NOLKRADA_MAX_CHARGE, UINT8_MAX);
/* Low tasks, of kind 6, have the longest records. */
SAME(NOLKRADA_MAX_FILE, 2 + 18 * NOLKRADA_MAX_TASKS + 14 * NOLKRADA_MAX_RELEASES + 1);
/* One more record after the last that is allowed, a low task: the longest. */
SAME(NOLKRADA_READ_BYTES, 2 + 18 * NOLKRADA_MAX_TASKS + 14 * NOLKRADA_MAX_RELEASES + 18);
/* Four numbers of up to 7 digits, three commas and a line feed in a line. */
SAME(NOLKRADA_MAX_TEXT, NOLKRADA_MAX_TASKS * (4 * 7 + 3 + 1));
/* Number of tasks, count of jobs, deadline of each task, task and response of each job. */
SAME(NOLKRADA_WINDOW_JOBS, 256);
SAME(NOLKRADA_WINDOW_SLOTS, 2 + NOLKRADA_MAX_TASKS + 2 * NOLKRADA_WINDOW_JOBS);
SAME(NOLKRADA_WINDOW_SLOTS * sizeof(uint64_t), 4368);
/* The ways to take up to 6 of 3 * 12 pairs of tick and task, any of them several times: as many as to take 6 of 42 once. */
SAME(NOLKRADA_SMALL_TASKS, 3);
SAME(NOLKRADA_SMALL_RELEASES, 6);
SAME(NOLKRADA_SMALL_TICKS, 12);
SAME(NOLKRADA_SMALL_TRACES, UINT64_C(42) * 41 * 40 * 39 * 38 * 37 / (2 * 3 * 4 * 5 * 6));

#define TEXT_OF(x) #x
#define TEXT(x) TEXT_OF(x)
static const char version[] =
    TEXT(NOLKRADA_VERSION_MAJOR) "." TEXT(NOLKRADA_VERSION_MINOR) "." TEXT(NOLKRADA_VERSION_PATCH);

static const uint32_t printed[] = {6, 5, 2, 6, 0, 8, 7, 2, 8, 0, 10, 0, 2, 10, 0};
static const uint32_t unfit[] = {2, 1, 1, 2, 0, 2, 0, 2, 2, 0};
/* How many numbers the first has. */
#define PRINTED (sizeof printed / sizeof printed[0])
/* No frame: a length of 0, with any array. A frame: the numbers of its struct. */
#define NO_FRAME printed, 0
#define WITH(frame) &(frame).ticks, NOLKRADA_FRAME_NUMBERS

static uint32_t sheet[NOLKRADA_SHEET_NUMBERS], task[NOLKRADA_MAX_RELEASES], cost[NOLKRADA_MAX_RELEASES];
static uint64_t tick[NOLKRADA_MAX_RELEASES], answer[4];
/* The charge of the sheet that is written. */
static uint8_t charge;
static int wrong;

static void expect(const char *name, uint64_t code, uint32_t number, uint32_t place) {
    if (code == ((uint64_t)number << 32 | place) && nolkrada_number(code) == number && nolkrada_place(code) == place) return;
    printf("%s: %u at %u, not %u at %u\n", name, nolkrada_number(code), nolkrada_place(code), number, place);
    wrong = 1;
}

static uint64_t read_bytes(const uint8_t *file, size_t length) {
    return nolkrada_read(file, length, sheet, NOLKRADA_SHEET_NUMBERS, task, NOLKRADA_MAX_RELEASES, tick, NOLKRADA_MAX_RELEASES, cost,
                         NOLKRADA_MAX_RELEASES, answer, 3);
}

static uint64_t load_bytes(const char *text, size_t length) {
    return nolkrada_load((const uint8_t *)text, length, sheet, NOLKRADA_SHEET_NUMBERS, answer, 3);
}

static uint64_t load(const char *text) { return load_bytes(text, strlen(text)); }

static uint64_t write_bytes(uint8_t *file, size_t length) {
    return nolkrada_write(sheet, NOLKRADA_SHEET_NUMBERS, NOLKRADA_MAX_TASKS, charge, NOLKRADA_MAX_RELEASES, task,
                          NOLKRADA_MAX_RELEASES, tick, NOLKRADA_MAX_RELEASES, cost, NOLKRADA_MAX_RELEASES, file, length, answer, 1);
}

/* The largest file, of low tasks and with the largest charge, then one more byte, release or task. */
static void sizes(void) {
    static uint8_t file[NOLKRADA_READ_BYTES];
    const size_t end = NOLKRADA_MAX_FILE - 1;
    charge = NOLKRADA_MAX_CHARGE;
    /* The mark of a low task may be any number but 0. */
    for (uint32_t i = 0; i < NOLKRADA_SHEET_NUMBERS; i++) sheet[i] = i % 5 == 2 ? 1 : 1 + NOLKRADA_MAX_CHARGE;
    for (uint32_t n = 0; n < NOLKRADA_MAX_RELEASES; n++) task[n] = 0, tick[n] = NOLKRADA_MAX_SHORT_TICK + 1 + n, cost[n] = 1;
    expect("write of the largest file, a byte too few", write_bytes(file, end), NOLKRADA_REFUSED_SHORT_ARRAY, NOLKRADA_MAX_FILE);
    expect("write of the largest file", write_bytes(file, NOLKRADA_MAX_FILE), 0, 0);
    if (answer[0] != NOLKRADA_MAX_FILE) wrong = 1;
    expect("read of the largest file", read_bytes(file, NOLKRADA_MAX_FILE), 0, 0);
    if (file[0] != 5 || file[1] != NOLKRADA_MAX_CHARGE) wrong = 1;
    if (answer[0] != NOLKRADA_MAX_TASKS || answer[1] != NOLKRADA_MAX_RELEASES || answer[2] != NOLKRADA_MAX_CHARGE) wrong = 1;
    if (tick[NOLKRADA_MAX_RELEASES - 1] != NOLKRADA_MAX_SHORT_TICK + NOLKRADA_MAX_RELEASES) wrong = 1;
    /* A read tells a low mark as 1. */
    for (uint32_t i = 0; i < NOLKRADA_SHEET_NUMBERS; i++)
        wrong |= sheet[i] != (i % 5 == 2 || i % 5 == 4 ? 1 : 1 + NOLKRADA_MAX_CHARGE);
    /* The byte that a buffer of the largest file misses. */
    expect("one more byte", read_bytes(file, NOLKRADA_MAX_FILE + 1), NOLKRADA_REFUSED_BYTE_AFTER_END, NOLKRADA_MAX_FILE);
    memcpy(file + end, file + end - 14, 14);
    expect("one more release", read_bytes(file, end + 14), NOLKRADA_REFUSED_TOO_MANY_RELEASES, end);
    memcpy(file + end, file, 2);
    expect("one more charge", read_bytes(file, end + 2), NOLKRADA_REFUSED_TASK_AFTER_RELEASE, end);
    memcpy(file + end, file + 2, 18);
    if (file[2] != 6 || file[19] != 0) wrong = 1;
    expect("one more task", read_bytes(file, NOLKRADA_READ_BYTES), NOLKRADA_REFUSED_TASK_AFTER_RELEASE, end);
    expect("one more task, cut", read_bytes(file, NOLKRADA_READ_BYTES - 1), NOLKRADA_REFUSED_CUT, end);
}

/* The largest file of high tasks with short ticks and without a charge, the largest tick at the end: two bytes less, one less for
 * each task, and four less for each release. Then one long tick at the end, and in the first release a tick that is one too large for
 * kind 2, and one too small for kind 4. */
static void short_sizes(void) {
    static const uint8_t large[] = {2, 0, 0x01, 0xca, 0x9a, 0x3b, 1, 0, 0, 0};
    static const uint8_t small[] = {4, 0, 0x00, 0xca, 0x9a, 0x3b, 0, 0, 0, 0, 1, 0, 0, 0};
    static uint8_t file[NOLKRADA_MAX_FILE];
    const size_t first = 17 * NOLKRADA_MAX_TASKS, all = NOLKRADA_MAX_FILE - 2 - NOLKRADA_MAX_TASKS - 4 * NOLKRADA_MAX_RELEASES;
    charge = 0;
    for (uint32_t i = 0; i < NOLKRADA_MAX_TASKS; i++) sheet[5 * i + 4] = 0;
    for (uint32_t n = 0; n < NOLKRADA_MAX_RELEASES; n++) tick[n] = NOLKRADA_MAX_SHORT_TICK + 1 - NOLKRADA_MAX_RELEASES + n;
    expect("write of short ticks", write_bytes(file, all), 0, 0);
    if (answer[0] != all || file[first] != 2) wrong = 1;
    expect("read of short ticks", read_bytes(file, all), 0, 0);
    if (file[0] != 1 || answer[2] != 0) wrong = 1;
    if (tick[0] != NOLKRADA_MAX_SHORT_TICK + 1 - NOLKRADA_MAX_RELEASES) wrong = 1;
    tick[NOLKRADA_MAX_RELEASES - 1] = NOLKRADA_MAX_SHORT_TICK + 1;
    expect("write of one long tick", write_bytes(file, all), NOLKRADA_REFUSED_SHORT_ARRAY, (uint32_t)all + 4);
    expect("write of one long tick", write_bytes(file, all + 4), 0, 0);
    if (file[first] != 2 || file[all - 11] != 4) wrong = 1;
    memcpy(file + first, large, sizeof large);
    expect("tick of kind 2", read_bytes(file, all + 4), NOLKRADA_REFUSED_RELEASE_TICK, (uint32_t)first);
    memcpy(file + first, small, sizeof small);
    expect("tick of kind 4", read_bytes(file, all + 4), NOLKRADA_REFUSED_RELEASE_TICK, (uint32_t)first);
}

/* The longest text, then one more byte, one more line, and a last line that is cut. */
static void text_sizes(void) {
    static const char line[] = "1000000,1000000,1000000,1000000\n";
    static char text[NOLKRADA_MAX_TEXT + sizeof line];
    const size_t one = sizeof line - 1;
    for (size_t at = 0; at + one <= sizeof text; at += one) memcpy(text + at, line, one);
    expect("load of the longest text", load_bytes(text, NOLKRADA_MAX_TEXT), 0, 0);
    if (answer[0] != NOLKRADA_MAX_TASKS) wrong = 1;
    for (size_t i = 0; i < NOLKRADA_SHEET_NUMBERS; i++) wrong |= sheet[i] != (i % 5 == 4 ? 0 : 1000000);
    expect("one more line", load_bytes(text, NOLKRADA_MAX_TEXT + one), NOLKRADA_REFUSED_TOO_MANY_TASKS, 32);
    expect("one more byte", load_bytes(text, NOLKRADA_MAX_TEXT + 1), NOLKRADA_REFUSED_LINE, 32);
    expect("one byte less", load_bytes(text, NOLKRADA_MAX_TEXT - 1), NOLKRADA_REFUSED_LINE, 31);
    expect("one line", load("6,5,2,6\n"), 0, 0);
    if (answer[0] != 1 || memcmp(sheet, printed, 5 * sizeof sheet[0]) != 0) wrong = 1;
    for (size_t i = 5; i < NOLKRADA_SHEET_NUMBERS; i++) wrong |= sheet[i] != 0;
}

static void refusals(void) {
    static const uint8_t kind[] = {9}, cut[] = {1, 6}, alone[] = {3};
    static const uint32_t zero[3] = {0, 0, 0}, one[3] = {1, 1, 1}, five[3] = {5, 5, 5};
    static const uint64_t at_0[3] = {0, 0, 0}, falling[2] = {1, 0}, over[1] = {NOLKRADA_MAX_TICK + 1};
    const size_t n = PRINTED;
    uint32_t kept[3], worst[3];
    expect("kind", read_bytes(kind, 1), NOLKRADA_REFUSED_KIND, 0);
    expect("cut", read_bytes(cut, 2), NOLKRADA_REFUSED_CUT, 0);
    expect("end alone", read_bytes(alone, 1), NOLKRADA_REFUSED_NO_TASK, 0);
    expect("too many tasks", nolkrada_choice(printed, n, 33, 0, NO_FRAME, kept, 3, worst, 3, answer, 1), NOLKRADA_REFUSED_TOO_MANY_TASKS,
           32);
    expect("no task", nolkrada_choice(printed, n, 0, 0, NO_FRAME, kept, 3, worst, 3, answer, 1), NOLKRADA_REFUSED_NO_TASK, 0);
    expect("range", nolkrada_choice(printed, n, 4, 0, NO_FRAME, kept, 3, worst, 3, answer, 1), NOLKRADA_REFUSED_RANGE, 3);
    expect("task of a release", nolkrada_trace_check(printed, n, 3, 0, 1, five, 3, at_0, 3, one, 3, answer, 3),
           NOLKRADA_REFUSED_RELEASE_TASK, 0);
    expect("tick of a release", nolkrada_trace_check(printed, n, 3, 0, 2, one, 3, falling, 2, one, 3, answer, 3),
           NOLKRADA_REFUSED_RELEASE_TICK, 1);
    expect("tick over the limit", nolkrada_trace_check(printed, n, 3, 0, 1, one, 3, over, 1, one, 3, answer, 3),
           NOLKRADA_REFUSED_RELEASE_TICK, 0);
    expect("cost of a release", nolkrada_trace_check(printed, n, 3, 0, 1, one, 3, at_0, 3, five, 3, answer, 3),
           NOLKRADA_REFUSED_RELEASE_COST, 0);
    expect("too many releases", nolkrada_trace_check(printed, n, 3, 0, 1025, one, 3, at_0, 3, one, 3, answer, 3),
           NOLKRADA_REFUSED_TOO_MANY_RELEASES, 1024);
    expect("kept", nolkrada_verdict(printed, n, 3, 0, NO_FRAME, 0, five, 3, answer, 4), NOLKRADA_REFUSED_KEPT, 2);
    expect("short array", nolkrada_choice(printed, n, 3, 0, NO_FRAME, kept, 2, worst, 3, answer, 1), NOLKRADA_REFUSED_SHORT_ARRAY, 3);
    expect("no such task", nolkrada_verdict(printed, n, 3, 0, NO_FRAME, 3, zero, 3, answer, 4), NOLKRADA_REFUSED_NO_SUCH_TASK, 3);
    expect("unfit", nolkrada_choice(unfit, 10, 2, 0, NO_FRAME, kept, 3, worst, 3, answer, 1), NOLKRADA_REFUSED_UNFIT, 1);
    expect("no slot for which choice it is", nolkrada_choice(unfit, 10, 2, 0, NO_FRAME, kept, 3, worst, 3, answer, 0),
           NOLKRADA_REFUSED_SHORT_ARRAY, 1);
    expect("line", load("6,5,2,6\n8,7,2,8\r\n"), NOLKRADA_REFUSED_LINE, 1);
    expect("line before range", load("0,5,2,6 \n"), NOLKRADA_REFUSED_LINE, 0);
    expect("range in a line", load("6,5,2,6\n8,7,2,8\n8,7,20000000000000000000000002,8\n"), NOLKRADA_REFUSED_RANGE, 2);
    expect("no line", load(""), NOLKRADA_REFUSED_NO_TASK, 0);
    expect("short sheet", nolkrada_load((const uint8_t *)"6,5,2,6\n", 8, sheet, 159, answer, 3), NOLKRADA_REFUSED_SHORT_ARRAY, 160);
    expect("short answer", nolkrada_load((const uint8_t *)"6,5,2,6\n", 8, sheet, 160, answer, 0), NOLKRADA_REFUSED_SHORT_ARRAY, 1);
}

/* The four words of a verdict. */
static void expect_words(const char *name, uint64_t kind, uint64_t q, uint64_t bound, uint64_t evaluations) {
    if (answer[0] == kind && answer[1] == q && answer[2] == bound && answer[3] == evaluations) return;
    printf("%s: not the words of its verdict\n", name);
    wrong = 1;
}

/* The verdicts of the printed sheet's second task and, with full jitters, of its second and third, and of a task under a full load;
 * with the t that they try: 4; 4; 4, 6 and 6, 8, 10; 6, 10, 14, 16; 2 and each up to 10000001. Then too few words. */
static void verdicts(void) {
    static const uint32_t busy[] = {1, 0, 1, 1, 0, 1, 0, 1, 1, 0}, kept[3] = {1, 4, 0}, less[3] = {1, 3, 0}, whole[3] = {5, 7, 0};
    expect("fits", nolkrada_verdict(printed, PRINTED, 3, 0, NO_FRAME, 1, kept, 3, answer, 4), 0, 0);
    expect_words("fits", NOLKRADA_FITS, 0, 8, 1);
    expect("late", nolkrada_verdict(printed, PRINTED, 3, 0, NO_FRAME, 1, less, 3, answer, 4), 0, 0);
    expect_words("late", NOLKRADA_LATE, 0, 9, 1);
    expect("late at q 1", nolkrada_verdict(printed, PRINTED, 3, 0, NO_FRAME, 1, whole, 3, answer, 4), 0, 0);
    expect_words("late at q 1", NOLKRADA_LATE, 1, 10, 5);
    expect("late, task 2", nolkrada_verdict(printed, PRINTED, 3, 0, NO_FRAME, 2, whole, 3, answer, 4), 0, 0);
    expect_words("late, task 2", NOLKRADA_LATE, 0, 17, 4);
    expect("horizon", nolkrada_verdict(busy, 10, 2, 0, NO_FRAME, 1, (const uint32_t[]){0, 0}, 2, answer, 4), 0, 0);
    expect_words("horizon", NOLKRADA_HORIZON, 0, 0, 10000000);
    for (size_t n = 0; n < 4; n++)
        expect("too few words", nolkrada_verdict(printed, PRINTED, 3, 0, NO_FRAME, 1, kept, 3, answer, n), NOLKRADA_REFUSED_SHORT_ARRAY, 4);
}

/* A plan for a choice: the evaluations of the verdicts at the chosen kept jitters, 1 + 1 + 2 with a deadline of 11 for the last task. */
static void plan(void) {
    static const uint32_t folder[] = {6, 5, 2, 6, 0, 8, 7, 2, 8, 0, 10, 0, 2, 11, 0};
    static const uint64_t numbers[3] = {1, 1, 2};
    uint32_t kept[3], worst[3];
    expect("choice", nolkrada_choice(folder, 15, 3, 0, NO_FRAME, kept, 3, worst, 3, answer, 1), 0, 0);
    if (answer[0] != NOLKRADA_ORDINARY) wrong = 1;
    for (uint32_t i = 0; i < 3; i++) {
        expect("verdict of a chosen task", nolkrada_verdict(folder, 15, 3, 0, NO_FRAME, i, kept, 3, answer, 4), 0, 0);
        expect_words("verdict of a chosen task", NOLKRADA_FITS, 0, worst[i], numbers[i]);
    }
}

/* A choice on three tasks with these deadlines and marks, the other numbers of the printed sheet: its code, and where it answers which
 * one it is, the kept jitters and the worst values. */
static void expect_choice(const char *name, const uint32_t *deadlines, const uint32_t *marks, uint32_t number, uint32_t place,
                          uint64_t which, const uint32_t *keep, const uint32_t *worse) {
    uint32_t row[PRINTED], kept[3], worst[3];
    memcpy(row, printed, sizeof row);
    for (int i = 0; i < 3; i++) row[5 * i + 3] = deadlines[i], row[5 * i + 4] = marks[i];
    expect(name, nolkrada_choice(row, PRINTED, 3, 0, NO_FRAME, kept, 3, worst, 3, answer, 1), number, place);
    if (number != 0 || (answer[0] == which && memcmp(kept, keep, sizeof kept) == 0 && memcmp(worst, worse, sizeof worst) == 0)) return;
    printf("%s: not the columns of its choice\n", name);
    wrong = 1;
}

/* Choices with marks: any number but 0 is low, a number past the end is 0, and of the choice of the high tasks alone a low task is kept
 * at 0 with a worst value of 0. Marks change no verdict. Then the records of a file. */
static void marks(void) {
    static const uint32_t fit[3] = {6, 8, 11}, last[3] = {6, 8, 10}, first[3] = {2, 8, 10};
    static const uint32_t high[3] = {0, 0, 0}, low_1[3] = {0, UINT32_MAX, 0}, low_2[3] = {0, 0, 256}, low_0[3] = {1, 0, 0};
    static const uint32_t all[3] = {1, 2, 3}, keep[3] = {2, 4, 0}, none[3] = {0, 0, 0};
    static const uint32_t zero[1], two[1] = {2};
    static const uint64_t at_0[1];
    uint8_t file[18 + 17 + 10 + 1];
    uint32_t row[PRINTED], kept[3], worst[3];
    uint64_t other[4];
    expect_choice("ordinary", fit, high, 0, 0, NOLKRADA_ORDINARY, keep, (const uint32_t[]){6, 8, 11});
    expect_choice("ordinary, all low", fit, all, 0, 0, NOLKRADA_ORDINARY, keep, (const uint32_t[]){6, 8, 11});
    expect_choice("task 2 low", last, low_2, 0, 0, NOLKRADA_HIGH_ONLY, keep, (const uint32_t[]){6, 8, 0});
    expect_choice("task 1 low", last, low_1, 0, 0, NOLKRADA_HIGH_ONLY, (const uint32_t[]){2, 0, 0}, (const uint32_t[]){6, 0, 9});
    expect_choice("all low", last, all, 0, 0, NOLKRADA_HIGH_ONLY, none, none);
    expect_choice("all high", last, high, NOLKRADA_REFUSED_UNFIT, 2, 0, none, none);
    expect_choice("task 0 low", last, low_0, NOLKRADA_REFUSED_UNFIT, 2, 0, none, none);
    expect_choice("no K fits task 0", first, low_2, NOLKRADA_REFUSED_UNFIT, 0, 0, none, none);
    expect_choice("no K fits task 0, which is low", first, low_0, NOLKRADA_REFUSED_UNFIT, 2, 0, none, none);
    /* The low mark of task 2 is past the end: the task is high. */
    memcpy(row, printed, sizeof row);
    row[14] = 1;
    expect("mark past the end", nolkrada_choice(row, PRINTED - 1, 3, 0, NO_FRAME, kept, 3, worst, 3, answer, 1), NOLKRADA_REFUSED_UNFIT, 2);
    row[4] = 7;
    for (uint32_t i = 0; i < 2; i++) {
        expect("verdict of a high task", nolkrada_verdict(printed, 10, 2, 0, NO_FRAME, i, keep, 2, answer, 4), 0, 0);
        expect("verdict with a mark", nolkrada_verdict(row, 10, 2, 0, NO_FRAME, i, keep, 2, other, 4), 0, 0);
        if (memcmp(answer, other, sizeof other) != 0) wrong = 1;
    }
    expect("write of a low task, a byte too few",
           nolkrada_write(row, 10, 2, 0, 1, zero, 1, at_0, 1, two, 1, file, sizeof file - 1, answer, 1), NOLKRADA_REFUSED_SHORT_ARRAY,
           sizeof file);
    expect("write of a low task", nolkrada_write(row, 10, 2, 0, 1, zero, 1, at_0, 1, two, 1, file, sizeof file, answer, 1), 0, 0);
    if (answer[0] != sizeof file || file[0] != 6 || file[17] != 0 || file[18] != 1) wrong = 1;
    expect("read of a low task", read_bytes(file, sizeof file), 0, 0);
    row[4] = 1;
    if (answer[0] != 2 || answer[1] != 1 || memcmp(sheet, row, 10 * sizeof row[0]) != 0) wrong = 1;
    expect("low task that is cut", read_bytes(file, 17), NOLKRADA_REFUSED_CUT, 0);
    file[17] = 1;
    expect("another last byte", read_bytes(file, sizeof file), NOLKRADA_REFUSED_RANGE, 0);
    file[17] = 0, file[0] = 7;
    expect("kind 7", read_bytes(file, sizeof file), NOLKRADA_REFUSED_KIND, 0);
}

/* The charge: in every call that takes a sheet 17 where a task holds no more than 4, and answers with 4; a release with a cost over E
 * although E and the charge hold it; the records of a file; and a charge that a caller cuts. */
static void charges(void) {
    static const uint8_t cut[] = {5}, none[] = {5, 0}, twice[] = {5, 1, 5, 1}, first[] = {5, 1, 3};
    static const uint32_t zero[1], two[1] = {2}, three[1] = {3}, loose[3] = {5, 7, 0};
    static const uint64_t at_0[1];
    const unsigned wide = 256 + 4;
    const size_t n = PRINTED;
    uint32_t kept[3], worst[3];
    uint64_t ready[1], finish[1];
    uint8_t file[2 + 17 * 3 + 10 + 1];
    for (uint32_t s = 4; s <= 5; s++) {
        const uint8_t c = (uint8_t)s;
        const uint32_t number = s == 5 ? NOLKRADA_REFUSED_CHARGE : 0;
        expect("charge, arrival count", nolkrada_arrival_count(printed, n, 3, c, 0, loose, 3, 8, answer, 1), number, 0);
        expect("charge, verdict", nolkrada_verdict(printed, n, 3, c, NO_FRAME, 0, loose, 3, answer, 4), number, 0);
        expect("charge, choice", nolkrada_choice(printed, n, 3, c, NO_FRAME, kept, 3, worst, 3, answer, 1),
               s == 5 ? number : NOLKRADA_REFUSED_UNFIT, 0);
        expect("charge, trace check", nolkrada_trace_check(printed, n, 3, c, 1, zero, 1, at_0, 1, two, 1, answer, 2), number, 0);
        expect("charge, ready", nolkrada_ready(printed, n, 3, c, loose, 3, 1, zero, 1, at_0, 1, two, 1, ready, 1), number, 0);
        expect("charge, run", nolkrada_run(printed, n, 3, c, NO_FRAME, loose, 3, 1, zero, 1, at_0, 1, two, 1, ready, 1, finish, 1), number, 0);
        if (finish[0] != NOLKRADA_PICKUP + 2 + 4) wrong = 1;
        expect("charge, jump", nolkrada_jump(printed, n, 3, c, NO_FRAME, loose, 3, 1, zero, 1, at_0, 1, two, 1, ready, 1, finish, 1, answer, 1),
               number, 0);
        if (finish[0] != NOLKRADA_PICKUP + 2 + 4) wrong = 1;
        expect("charge, write", nolkrada_write(printed, n, 3, c, 1, zero, 1, at_0, 1, two, 1, file, sizeof file, answer, 1), number, 0);
    }
    if (answer[0] != sizeof file || file[0] != 5 || file[1] != 4) wrong = 1;
    expect("charge, read", read_bytes(file, sizeof file), 0, 0);
    if (answer[0] != 3 || answer[1] != 1 || answer[2] != 4) wrong = 1;
    expect("charge, short answer",
           nolkrada_read(file, sizeof file, sheet, NOLKRADA_SHEET_NUMBERS, task, 1, tick, 1, cost, 1, answer, 2),
           NOLKRADA_REFUSED_SHORT_ARRAY, 3);
    file[1] = 5;
    expect("charge over a task's room in a file", read_bytes(file, sizeof file), NOLKRADA_REFUSED_CHARGE, 2);
    file[1] = 0;
    expect("charge 0 in a file", read_bytes(file, sizeof file), NOLKRADA_REFUSED_RANGE, 0);
    expect("charge 0, nothing after it", read_bytes(none, 2), NOLKRADA_REFUSED_RANGE, 0);
    expect("charge that is cut", read_bytes(cut, 1), NOLKRADA_REFUSED_CUT, 0);
    expect("second charge", read_bytes(twice, 4), NOLKRADA_REFUSED_TASK_AFTER_RELEASE, 2);
    expect("charge alone", read_bytes(first, 3), NOLKRADA_REFUSED_NO_TASK, 2);
    expect("cost over E with a charge", nolkrada_trace_check(printed, n, 3, 4, 1, zero, 1, at_0, 1, three, 1, answer, 2),
           NOLKRADA_REFUSED_RELEASE_COST, 0);
    /* 256 + 4 is cut to 4. */
    expect("charge over 255",
           nolkrada_write(printed, n, 3, (uint8_t)wide, 1, zero, 1, at_0, 1, two, 1, file, sizeof file, answer, 1), 0, 0);
    if (file[1] != 4) wrong = 1;
}

/* A job that is alone may run NOLKRADA_PICKUP ticks after its ready tick, and is finished when it has run for its cost. */
static void runs(void) {
    static const uint32_t zero[1], two[1] = {2}, kept[3] = {2, 4, 0};
    static const uint64_t three[1] = {3};
    uint64_t ready[1], finish[1];
    expect("run", nolkrada_run(printed, PRINTED, 3, 0, NO_FRAME, kept, 3, 1, zero, 1, three, 1, two, 1, ready, 1, finish, 1), 0, 0);
    if (ready[0] != 3 || finish[0] != 3 + NOLKRADA_PICKUP + 2) wrong = 1;
}

/* The run that jumps: of one job the same and two stops; of none no stop; of two, at tick 0 and at the last tick allowed, four; as
 * many as the header says of the longest list with idle ticks between the jobs; and the largest finish, of 1,024 jobs of the largest
 * cost at the last tick allowed, and of the largest charge and the rest of that cost. Refused without a slot for the stops. */
static void jumps(void) {
    static const uint32_t zero[2], two[2] = {2, 2}, kept[3] = {2, 4, 0}, alone[5] = {1, 0, 1, 1, 0};
    static const uint32_t longest[5] = {1000000, 0, 1000000, 1000000, 0}, charged[5] = {1000000, 0, 999745, 1000000, 1};
    static const uint64_t three[1] = {3}, far[2] = {0, NOLKRADA_MAX_TICK};
    static uint64_t ready[NOLKRADA_MAX_RELEASES], finish[NOLKRADA_MAX_RELEASES];
    const size_t all = NOLKRADA_MAX_RELEASES;
    expect("jump", nolkrada_jump(printed, PRINTED, 3, 0, NO_FRAME, kept, 3, 1, zero, 1, three, 1, two, 1, ready, 1, finish, 1, answer, 1), 0, 0);
    if (ready[0] != 3 || finish[0] != 3 + NOLKRADA_PICKUP + 2 || answer[0] != 2) wrong = 1;
    expect("jump of no release",
           nolkrada_jump(printed, PRINTED, 3, 0, NO_FRAME, kept, 3, 0, zero, 0, three, 0, two, 0, ready, 0, finish, 0, answer, 1), 0, 0);
    if (answer[0] != 0) wrong = 1;
    expect("jump to the last tick allowed",
           nolkrada_jump(printed, PRINTED, 3, 0, NO_FRAME, kept, 3, 2, zero, 2, far, 2, two, 2, ready, 2, finish, 2, answer, 1), 0, 0);
    if (ready[0] != 0 || finish[0] != 3 || ready[1] != NOLKRADA_MAX_TICK || finish[1] != NOLKRADA_MAX_TICK + 3) wrong = 1;
    if (answer[0] != 4) wrong = 1;
    for (uint32_t n = 0; n < all; n++) task[n] = 0, tick[n] = 2 * n, cost[n] = 1;
    expect("most stops",
           nolkrada_jump(alone, 5, 1, 0, NO_FRAME, zero, 1, all, task, all, tick, all, cost, all, ready, all, finish, all, answer, 1), 0, 0);
    if (answer[0] != NOLKRADA_MAX_STOPS) wrong = 1;
    for (uint32_t n = 0; n < all; n++) tick[n] = NOLKRADA_MAX_TICK, cost[n] = 1000000;
    expect("largest finish",
           nolkrada_jump(longest, 5, 1, 0, NO_FRAME, zero, 1, all, task, all, tick, all, cost, all, ready, all, finish, all, answer, 1), 0, 0);
    if (finish[all - 1] != MAX_PLAIN_FINISH || finish[0] != NOLKRADA_MAX_TICK + 1000001) wrong = 1;
    for (uint32_t n = 0; n < all; n++) cost[n] = 1000000 - NOLKRADA_MAX_CHARGE;
    expect("largest finish with the largest charge",
           nolkrada_jump(charged, 5, 1, NOLKRADA_MAX_CHARGE, NO_FRAME, zero, 1, all, task, all, tick, all, cost, all, ready, all, finish, all,
                         answer, 1),
           0, 0);
    if (finish[all - 1] != MAX_PLAIN_FINISH || finish[0] != NOLKRADA_MAX_TICK + 1000001) wrong = 1;
    expect("no slot for the stops",
           nolkrada_jump(printed, PRINTED, 3, 0, NO_FRAME, kept, 3, 1, zero, 1, three, 1, two, 1, ready, 1, finish, 1, answer, 0),
           NOLKRADA_REFUSED_SHORT_ARRAY, 1);
}

/* A frame of ten ticks, of which the first four and the last five are ours: the four calls that take one, with the whole struct and with
 * the six numbers that it needs. From tick 4 on the second of ours is tick 6. A frame that is all window gives what none gives, but the
 * number of evaluations, which is 0. Then what of a frame is refused, before all but the sheet; and the largest finish. */
static void frames(void) {
    static const uint32_t zero[3] = {0, 0, 0}, two[1] = {2}, kept[3] = {2, 4, 0}, longest[5] = {1000000, 0, 1000000, 1000000, 0};
    static const uint64_t three[1] = {3};
    static const struct nolkrada_frame nine = {10, 2, {{0, 4}, {5, 5}}}, whole = {10000, 1, {{0, 10000}}}, last = {10000, 1, {{0, 1}}};
    static const struct nolkrada_frame sixteen = {31, 16, {{0, 1}, {2, 1}, {4, 1}, {6, 1}, {8, 1}, {10, 1}, {12, 1}, {14, 1},
                                                           {16, 1}, {18, 1}, {20, 1}, {22, 1}, {24, 1}, {26, 1}, {28, 1}, {30, 1}}};
    static uint64_t ready[NOLKRADA_MAX_RELEASES], finish[NOLKRADA_MAX_RELEASES];
    const size_t n = PRINTED, all = NOLKRADA_MAX_RELEASES;
    struct nolkrada_frame wrong_frame;
    uint32_t keep[3], worst[3];
    expect("verdict with a frame", nolkrada_verdict(printed, n, 3, 0, WITH(nine), 0, kept, 3, answer, 4), 0, 0);
    expect_words("verdict with a frame", NOLKRADA_LATE, 0, 7, 0);
    expect("verdict with six numbers", nolkrada_verdict(printed, n, 3, 0, &nine.ticks, 6, 0, (const uint32_t[]){3, 0, 0}, 3, answer, 4), 0, 0);
    expect_words("verdict with six numbers", NOLKRADA_FITS, 0, 6, 0);
    expect("verdict, all window", nolkrada_verdict(printed, n, 3, 0, WITH(whole), 1, kept, 3, answer, 4), 0, 0);
    expect_words("verdict, all window", NOLKRADA_FITS, 0, 8, 0);
    expect("choice with a frame", nolkrada_choice(printed, 5, 1, 0, WITH(nine), keep, 3, worst, 3, answer, 1), 0, 0);
    if (keep[0] != 3 || worst[0] != 6 || answer[0] != NOLKRADA_ORDINARY) wrong = 1;
    expect("choice with 16 windows", nolkrada_choice(printed, n, 3, 0, WITH(sixteen), keep, 3, worst, 3, answer, 1), NOLKRADA_REFUSED_UNFIT, 0);
    expect("run with a frame", nolkrada_run(printed, n, 3, 0, WITH(nine), kept, 3, 1, zero, 1, three, 1, two, 1, ready, 1, finish, 1), 0, 0);
    if (ready[0] != 3 || finish[0] != 7) wrong = 1;
    expect("jump with a frame",
           nolkrada_jump(printed, n, 3, 0, WITH(nine), kept, 3, 1, zero, 1, three, 1, two, 1, ready, 1, finish, 1, answer, 1), 0, 0);
    if (ready[0] != 3 || finish[0] != 7 || answer[0] != 2) wrong = 1;
    for (uint32_t k = 0; k < 18; k++) {
        wrong_frame = sixteen;
        if (k < 16) wrong_frame.windows[k].length = k % 2 ? 0 : UINT32_MAX;
        if (k == 16) wrong_frame.count = NOLKRADA_MAX_WINDOWS + 1;
        if (k == 17) wrong_frame.ticks = NOLKRADA_MAX_FRAME + 1;
        expect("refused frame", nolkrada_verdict(printed, n, 3, 0, WITH(wrong_frame), 9, zero, 0, answer, 0), NOLKRADA_REFUSED_FRAME, k);
        expect("refused frame, choice", nolkrada_choice(printed, n, 3, 0, WITH(wrong_frame), keep, 0, worst, 0, answer, 0),
               NOLKRADA_REFUSED_FRAME, k);
        expect("refused frame, run",
               nolkrada_run(printed, n, 3, 0, WITH(wrong_frame), zero, 0, 1025, zero, 0, three, 0, two, 0, ready, 0, finish, 0),
               NOLKRADA_REFUSED_FRAME, k);
        expect("refused frame, jump",
               nolkrada_jump(printed, n, 3, 0, WITH(wrong_frame), zero, 0, 1025, zero, 0, three, 0, two, 0, ready, 0, finish, 0, answer, 0),
               NOLKRADA_REFUSED_FRAME, k);
        expect("charge before frame", nolkrada_verdict(printed, n, 3, 5, WITH(wrong_frame), 0, kept, 3, answer, 4), NOLKRADA_REFUSED_CHARGE, 0);
    }
    /* Windows that touch; two, of which the second is past the count; a row that ends after its ticks. */
    wrong_frame = nine;
    wrong_frame.windows[1].first = 4;
    expect("windows that touch", nolkrada_verdict(printed, n, 3, 0, WITH(wrong_frame), 0, kept, 3, answer, 4), NOLKRADA_REFUSED_FRAME, 1);
    wrong_frame.count = 1;
    expect("window past the count", nolkrada_verdict(printed, n, 3, 0, WITH(wrong_frame), 0, kept, 3, answer, 4), 0, 0);
    expect("ticks alone", nolkrada_verdict(printed, n, 3, 0, &nine.ticks, 1, 0, kept, 3, answer, 4), NOLKRADA_REFUSED_FRAME, 16);
    for (uint32_t p = 0; p < all; p++) task[p] = 0, tick[p] = NOLKRADA_MAX_TICK, cost[p] = 1000000;
    expect("largest finish with a frame",
           nolkrada_jump(longest, 5, 1, 0, WITH(last), zero, 1, all, task, all, tick, all, cost, all, ready, all, finish, all, answer, 1), 0, 0);
    if (finish[all - 1] != NOLKRADA_MAX_FINISH || answer[0] != NOLKRADA_MAX_STOPS) wrong = 1;
}

/* One slot more than a window has, which no call may change. */
static uint64_t window[NOLKRADA_WINDOW_SLOTS + 1];
#define WINDOW window, NOLKRADA_WINDOW_SLOTS
/* What the slot after a window holds. */
#define BEHIND UINT64_C(0x0123456789abcdef)

/* What is shown of a task, alone and beside the others, in a window of three tasks. */
static void expect_shown(const char *name, uint32_t which, uint64_t jobs, uint64_t late, uint64_t largest) {
    uint32_t all_jobs[4] = {9, 9, 9, 9}, all_late[4] = {9, 9, 9, 9};
    uint64_t all_largest[4] = {9, 9, 9, 9}, before[NOLKRADA_WINDOW_SLOTS + 1];
    memcpy(before, window, sizeof window);
    answer[3] = 9;
    expect(name, nolkrada_monitor_show(WINDOW, which, answer, 4), 0, 0);
    expect(name, nolkrada_monitor_show_all(WINDOW, all_jobs, 4, all_late, 4, all_largest, 4), 0, 0);
    if (answer[3] == 9 && all_jobs[3] == 9 && all_late[3] == 9 && all_largest[3] == 9 && memcmp(before, window, sizeof window) == 0 &&
        answer[0] == jobs && answer[1] == late && answer[2] == largest && all_jobs[which] == jobs && all_late[which] == late &&
        all_largest[which] == largest)
        return;
    printf("%s: task %u, not what it shows\n", name, which);
    wrong = 1;
}

/* So many jobs of a task with this response. */
static void take_jobs(const char *name, uint32_t jobs, uint32_t which, uint64_t response) {
    for (uint32_t n = 0; n < jobs; n++) expect(name, nolkrada_monitor_take(WINDOW, which, response), 0, 0);
}

/* A window on the printed sheet, with deadlines 6, 8 and 10: what is late, a task that is not in the sheet, the last jobs after 256 and
 * after thousands, equal largest responses, the largest number, a copy, an opening that is refused, and one on another sheet. */
static void last_jobs(void) {
    static const uint32_t tighter[] = {6, 5, 2, 2, 0, 8, 7, 2, 7, 0, 10, 0, 2, 2, 0};
    uint64_t stored[NOLKRADA_WINDOW_SLOTS], largest[3] = {9, 9, 9};
    uint32_t jobs[3] = {9, 9, 9}, late[3] = {9, 9, 9};
    memset(window, 0, sizeof window);
    window[NOLKRADA_WINDOW_SLOTS] = BEHIND;
    for (size_t n = 0; n < NOLKRADA_WINDOW_SLOTS; n += NOLKRADA_WINDOW_SLOTS - 1)
        expect("short window", nolkrada_monitor_open(printed, PRINTED, 3, 0, window, n), NOLKRADA_REFUSED_SHORT_ARRAY, NOLKRADA_WINDOW_SLOTS);
    expect("take in a window of zeros", nolkrada_monitor_take(WINDOW, 0, 1), NOLKRADA_REFUSED_NO_TASK, 0);
    expect("show of a window of zeros", nolkrada_monitor_show(WINDOW, 0, answer, 3), NOLKRADA_REFUSED_NO_TASK, 0);
    expect("show all of a window of zeros", nolkrada_monitor_show_all(WINDOW, jobs, 3, late, 3, largest, 3), NOLKRADA_REFUSED_NO_TASK, 0);
    for (size_t n = 0; n < NOLKRADA_WINDOW_SLOTS; n++) wrong |= window[n] != 0;
    memset(window, 0xff, sizeof stored);
    expect("take in a window of ones", nolkrada_monitor_take(WINDOW, 0, 1), NOLKRADA_REFUSED_TOO_MANY_TASKS, 32);
    expect("show of a window of ones", nolkrada_monitor_show(WINDOW, 0, answer, 3), NOLKRADA_REFUSED_TOO_MANY_TASKS, 32);
    expect("show all of a window of ones", nolkrada_monitor_show_all(WINDOW, jobs, 3, late, 3, largest, 3), NOLKRADA_REFUSED_TOO_MANY_TASKS, 32);
    expect("open", nolkrada_monitor_open(printed, PRINTED, 3, 4, window, NOLKRADA_WINDOW_SLOTS + 1), 0, 0);
    for (uint32_t i = 0; i < 3; i++) expect_shown("no job", i, 0, 0, 0);
    take_jobs("at the deadline", 1, 0, 6);
    take_jobs("after the deadline", 2, 0, 7);
    take_jobs("response of 0", 1, 1, 0);
    take_jobs("largest response", 1, 2, UINT64_MAX);
    expect("task that is not in the sheet", nolkrada_monitor_take(WINDOW, 3, 100), NOLKRADA_REFUSED_NO_SUCH_TASK, 3);
    expect("no such task", nolkrada_monitor_show(WINDOW, UINT32_MAX, answer, 0), NOLKRADA_REFUSED_NO_SUCH_TASK, UINT32_MAX);
    expect_shown("five jobs", 0, 3, 2, 7);
    expect_shown("five jobs", 1, 1, 0, 0);
    expect_shown("five jobs", 2, 1, 1, UINT64_MAX);
    /* Short arrays: nothing is written. */
    for (size_t n = 0; n < 3; n++) {
        answer[0] = answer[1] = answer[2] = 9;
        expect("short answer", nolkrada_monitor_show(WINDOW, 0, answer, n), NOLKRADA_REFUSED_SHORT_ARRAY, 3);
        if (answer[0] != 9 || answer[1] != 9 || answer[2] != 9) wrong = 1;
        expect("short column", nolkrada_monitor_show_all(WINDOW, jobs, n == 0 ? 2 : 3, late, n == 1 ? 2 : 3, largest, n == 2 ? 2 : 3),
               NOLKRADA_REFUSED_SHORT_ARRAY, 3);
        for (int i = 0; i < 3; i++) wrong |= jobs[i] != 9 || late[i] != 9 || largest[i] != 9;
        expect("short window, take", nolkrada_monitor_take(window, NOLKRADA_WINDOW_SLOTS - 1 - n, 3, 1), NOLKRADA_REFUSED_SHORT_ARRAY,
               NOLKRADA_WINDOW_SLOTS);
        expect("short window, show", nolkrada_monitor_show(window, NOLKRADA_WINDOW_SLOTS - 1 - n, 3, answer, n),
               NOLKRADA_REFUSED_SHORT_ARRAY, NOLKRADA_WINDOW_SLOTS);
        expect("short window, show all", nolkrada_monitor_show_all(window, NOLKRADA_WINDOW_SLOTS - 1 - n, jobs, 0, late, 0, largest, 0),
               NOLKRADA_REFUSED_SHORT_ARRAY, NOLKRADA_WINDOW_SLOTS);
    }
    /* 251 jobs more: all 256 count. One more: the first of task 0 does not; then one of two equal largest ones, then the other. */
    take_jobs("251 jobs more", NOLKRADA_WINDOW_JOBS - 5, 1, 8);
    expect_shown("256 jobs", 0, 3, 2, 7);
    expect_shown("256 jobs", 1, NOLKRADA_WINDOW_JOBS - 4, 0, 8);
    take_jobs("job 257", 1, 1, 9);
    expect_shown("257 jobs", 0, 2, 2, 7);
    take_jobs("job 258", 1, 1, 9);
    expect_shown("258 jobs", 0, 1, 1, 7);
    take_jobs("job 259", 1, 1, 9);
    expect_shown("259 jobs", 0, 0, 0, 0);
    expect_shown("259 jobs", 1, NOLKRADA_WINDOW_JOBS - 1, 3, 9);
    expect_shown("259 jobs", 2, 1, 1, UINT64_MAX);
    /* A window that is stored, and copied back after 5000 jobs more. */
    memcpy(stored, window, sizeof stored);
    take_jobs("5000 jobs more", 5000, 0, 6);
    expect_shown("5000 jobs more", 0, NOLKRADA_WINDOW_JOBS, 0, 6);
    expect_shown("5000 jobs more", 2, 0, 0, 0);
    memcpy(window, stored, sizeof stored);
    expect_shown("stored", 2, 1, 1, UINT64_MAX);
    /* Openings that are refused change nothing. One on another sheet begins with no job, and its deadlines decide. */
    expect("open, no task", nolkrada_monitor_open(printed, PRINTED, 0, 0, window, 0), NOLKRADA_REFUSED_NO_TASK, 0);
    expect("open, too many tasks", nolkrada_monitor_open(printed, PRINTED, 33, 0, window, 0), NOLKRADA_REFUSED_TOO_MANY_TASKS, 32);
    expect("open, range", nolkrada_monitor_open(printed, PRINTED, 4, 0, WINDOW), NOLKRADA_REFUSED_RANGE, 3);
    expect("open, charge", nolkrada_monitor_open(printed, PRINTED, 3, 5, WINDOW), NOLKRADA_REFUSED_CHARGE, 0);
    if (memcmp(window, stored, sizeof stored) != 0) wrong = 1;
    expect("open anew", nolkrada_monitor_open(tighter, PRINTED, 3, 0, WINDOW), 0, 0);
    expect_shown("opened anew", 1, 0, 0, 0);
    take_jobs("later than the new deadline", 1, 1, 8);
    expect_shown("opened anew", 1, 1, 1, 8);
    if (window[NOLKRADA_WINDOW_SLOTS] != BEHIND) wrong = 1;
}

/* One board, with one number more behind it, which no call may change. */
static struct {
    struct nolkrada_board now;
    uint32_t behind;
} held;
#define BOARD &held.now.plan.tasks[0].period, NOLKRADA_BOARD_NUMBERS
#define OFFER(offer) &(offer).tasks[0].period, NOLKRADA_OFFER_NUMBERS
/* The sheet and the frame of a board. */
#define ASKED_OF(board)                                                                                                                 \
    &(board).plan.tasks[0].period, NOLKRADA_SHEET_NUMBERS, (board).plan.count, (uint8_t)(board).plan.charge, &(board).frame.ticks,     \
        (board).framed ? NOLKRADA_FRAME_NUMBERS : 0

/* The releases of a commit. */
static uint32_t since;

static uint64_t commit_with(const struct nolkrada_offer *offer, const struct nolkrada_board *asked, uint64_t at) {
    return nolkrada_board_commit(BOARD, OFFER(*offer), ASKED_OF(*asked), since, task, NOLKRADA_MAX_RELEASES, tick, NOLKRADA_MAX_RELEASES,
                                 cost, NOLKRADA_MAX_RELEASES, at);
}

/* A commit that is refused leaves the board and the offer as they were. */
static void expect_refused(const char *name, const struct nolkrada_offer *offer, const struct nolkrada_board *asked, uint64_t at,
                           uint32_t number, uint32_t place) {
    const struct nolkrada_board before = held.now;
    const struct nolkrada_offer given = *offer;
    expect(name, commit_with(offer, asked, at), number, place);
    if (memcmp(&before, &held.now, sizeof before) == 0 && memcmp(&given, offer, sizeof given) == 0 && held.behind == 77) return;
    printf("%s: something is changed\n", name);
    wrong = 1;
}

/* A board on tasks 0 and 2 of the printed sheet with a deadline of 11, to which task 1 is added. With kept jitters 2 and 0 jobs of both at
 * tick 0 are finished at 3 and 5. */
static void boards(void) {
    static const struct nolkrada_task two[2] = {{6, 5, 2, 6, 0}, {10, 0, 2, 11, 0}}, middle = {8, 7, 2, 8, 0}, foot = {100, 0, 1, 100, 9};
    static const struct nolkrada_task none, unfit_task = {8, 7, 2, 2, 0}, large = {6, 0, 3, 6, 0};
    static const struct nolkrada_frame nine = {10, 2, {{0, 4}, {5, 5}}};
    static const uint32_t kept[3] = {2, 4, 0}, worst[3] = {6, 8, 11};
    struct nolkrada_board asked, other, stored;
    struct nolkrada_offer offer, forged, filled;
    memset(&held, 0xff, sizeof held);
    held.behind = 77;
    for (size_t n = 0; n < NOLKRADA_BOARD_NUMBERS; n += NOLKRADA_BOARD_NUMBERS - 1)
        expect("short board", nolkrada_board_open(&two[0].period, 10, 2, 0, NO_FRAME, &held.now.plan.tasks[0].period, n),
               NOLKRADA_REFUSED_SHORT_ARRAY, NOLKRADA_BOARD_NUMBERS);
    expect("unfit", nolkrada_board_open(&unfit_task.period, 5, 1, 0, NO_FRAME, BOARD), NOLKRADA_REFUSED_UNFIT, 0);
    expect("no task", nolkrada_board_open(&two[0].period, 10, 0, 0, NO_FRAME, BOARD), NOLKRADA_REFUSED_NO_TASK, 0);
    if (held.now.plan.count != UINT32_MAX || nolkrada_board_last(&held.now) != UINT64_MAX) wrong = 1;
    expect("open", nolkrada_board_open(&two[0].period, 10, 2, 0, NO_FRAME, BOARD), 0, 0);
    if (held.now.plan.count != 2 || held.now.plan.kept[0] != 2 || held.now.plan.kept[1] != 0 || held.now.plan.worst[0] != 6) wrong = 1;
    if (memcmp(held.now.plan.tasks, two, sizeof two) != 0 || held.now.plan.which != NOLKRADA_ORDINARY || held.now.framed != 0) wrong = 1;
    if (memcmp(&held.now.plan.tasks[2], &none, sizeof none) != 0 || held.now.plan.kept[2] != 0 || held.now.frame.ticks != 0) wrong = 1;
    if (nolkrada_board_last(&held.now) != 0 || held.behind != 77) wrong = 1;

    /* Asks: nothing but the offer is written, and that not where it is refused. */
    stored = asked = held.now;
    memset(&offer, 0xff, sizeof offer);
    expect("place", nolkrada_board_ask(ASKED_OF(asked), &none.period, 5, 3, &offer.tasks[0].period, 0), NOLKRADA_REFUSED_NO_SUCH_TASK, 3);
    expect("range of the new task", nolkrada_board_ask(ASKED_OF(asked), &middle.period, 3, 2, &offer.tasks[0].period, 0),
           NOLKRADA_REFUSED_RANGE, 2);
    expect("charge over the new task",
           nolkrada_board_ask(&two[0].period, 10, 2, 4, NO_FRAME, &large.period, 5, 0, &offer.tasks[0].period, 0), NOLKRADA_REFUSED_CHARGE, 0);
    expect("short offer", nolkrada_board_ask(ASKED_OF(asked), &unfit_task.period, 5, 0, &offer.tasks[0].period, NOLKRADA_OFFER_NUMBERS - 1),
           NOLKRADA_REFUSED_SHORT_ARRAY, NOLKRADA_OFFER_NUMBERS);
    expect("unfit with the new task", nolkrada_board_ask(ASKED_OF(asked), &unfit_task.period, 5, 1, OFFER(offer)), NOLKRADA_REFUSED_UNFIT, 1);
    for (uint32_t i = 0; i < NOLKRADA_MAX_TASKS; i++) memcpy(sheet + 5 * i, &foot, sizeof foot);
    expect("32 tasks", nolkrada_board_ask(sheet, 160, 32, 0, NO_FRAME, &foot.period, 5, 32, OFFER(offer)), NOLKRADA_REFUSED_TOO_MANY_TASKS, 32);
    if (offer.count != UINT32_MAX || offer.worst[31] != UINT32_MAX) wrong = 1;
    expect("ask", nolkrada_board_ask(ASKED_OF(held.now), &middle.period, 5, 1, OFFER(offer)), 0, 0);
    if (offer.count != 3 || offer.charge != 0 || offer.which != NOLKRADA_ORDINARY || memcmp(&offer.tasks[1], &middle, sizeof middle) != 0) wrong = 1;
    if (memcmp(offer.kept, kept, sizeof kept) != 0 || memcmp(offer.worst, worst, sizeof worst) != 0 || offer.kept[3] != 0) wrong = 1;
    if (memcmp(&stored, &held.now, sizeof stored) != 0) wrong = 1;

    /* Commits that are refused: the releases, then 19, then 20. */
    since = 2;
    for (uint32_t p = 0; p < since; p++) task[p] = p, tick[p] = 0, cost[p] = 2;
    expect_refused("a finish over the tick", &offer, &asked, 4, NOLKRADA_REFUSED_TOO_SOON, 0);
    forged = offer;
    forged.kept[1]++;
    expect_refused("a kept jitter that is raised", &forged, &asked, 4, NOLKRADA_REFUSED_STALE, 0);
    forged = offer;
    forged.worst[2]--;
    expect_refused("a worst value", &forged, &asked, 5, NOLKRADA_REFUSED_STALE, 0);
    forged = offer;
    forged.which = NOLKRADA_HIGH_ONLY;
    expect_refused("which choice", &forged, &asked, 5, NOLKRADA_REFUSED_STALE, 0);
    other = asked;
    other.framed = 1;
    other.frame = nine;
    expect_refused("another frame", &offer, &other, 5, NOLKRADA_REFUSED_STALE, 0);
    other = asked;
    other.plan.charge = 1;
    expect_refused("another charge", &offer, &other, 5, NOLKRADA_REFUSED_STALE, 0);
    task[1] = 2;
    expect_refused("a task that is not in force yet", &offer, &asked, 5, NOLKRADA_REFUSED_RELEASE_TASK, 1);
    task[1] = 1, cost[1] = 3;
    expect_refused("a cost", &forged, &asked, 0, NOLKRADA_REFUSED_RELEASE_COST, 1);
    cost[1] = 2, since = 1025;
    expect_refused("too many releases", &offer, &asked, 5, NOLKRADA_REFUSED_TOO_MANY_RELEASES, 1024);
    since = 2;
    expect("short column", nolkrada_board_commit(BOARD, OFFER(offer), ASKED_OF(asked), 2, task, 2, tick, 1, cost, 2, 5),
           NOLKRADA_REFUSED_SHORT_ARRAY, 2);
    expect("short board, commit",
           nolkrada_board_commit(&held.now.plan.tasks[0].period, NOLKRADA_BOARD_NUMBERS - 1, OFFER(offer), ASKED_OF(asked), 2, task, 2, tick, 2,
                                 cost, 2, 5),
           NOLKRADA_REFUSED_SHORT_ARRAY, NOLKRADA_BOARD_NUMBERS);
    if (memcmp(&stored, &held.now, sizeof stored) != 0) wrong = 1;

    /* At the last finish, with other numbers past the counts, which are not written, and a row that ends after its last worst value. */
    filled = offer;
    memset(&filled.tasks[3], 0xff, 29 * sizeof filled.tasks[3]);
    memset(&filled.kept[3], 0xff, 29 * sizeof filled.kept[3]);
    filled.charge = 256;
    expect("commit",
           nolkrada_board_commit(BOARD, &filled.tasks[0].period, 195 + 3, ASKED_OF(asked), 2, task, 2, tick, 2, cost, 2, 5), 0, 0);
    if (memcmp(&held.now.plan, &offer, sizeof offer) != 0 || held.now.framed != 0 || nolkrada_board_last(&held.now) != 5) wrong = 1;

    /* The offer is stale now. Releases are at 5 or later, and the tick too. */
    expect_refused("the same offer again", &offer, &asked, 5, NOLKRADA_REFUSED_RELEASE_TICK, 0);
    tick[0] = tick[1] = 5;
    expect_refused("a stale offer", &offer, &asked, 100, NOLKRADA_REFUSED_STALE, 0);
    asked = held.now;
    expect_refused("an offer that was asked of another sheet", &offer, &asked, 0, NOLKRADA_REFUSED_STALE, 0);
    expect("ask again", nolkrada_board_ask(ASKED_OF(asked), &foot.period, 5, 3, OFFER(offer)), 0, 0);
    if (offer.tasks[3].mark != 1 || offer.count != 4) wrong = 1;
    expect_refused("a finish over the tick again", &offer, &asked, 9, NOLKRADA_REFUSED_TOO_SOON, 0);
    since = 0;
    expect_refused("before the last commit", &offer, &asked, 4, NOLKRADA_REFUSED_TOO_SOON, 0);
    since = 2;
    expect("second commit", commit_with(&offer, &asked, UINT64_C(1) << 40), 0, 0);
    if (nolkrada_board_last(&held.now) != UINT64_C(1) << 40 || held.now.last_low != 0 || held.now.last_high != 256) wrong = 1;
    expect_refused("a release before the last commit", &offer, &asked, UINT64_MAX, NOLKRADA_REFUSED_RELEASE_TICK, 0);
    since = 0, asked = held.now;
    expect("third ask", nolkrada_board_ask(ASKED_OF(asked), &foot.period, 5, 4, OFFER(offer)), 0, 0);
    expect_refused("a tick of 39 bits", &offer, &asked, UINT64_C(1) << 39, NOLKRADA_REFUSED_TOO_SOON, 0);
    expect("third commit, at the tick of the last", commit_with(&offer, &asked, UINT64_C(1) << 40), 0, 0);
    asked = held.now;
    expect("fourth ask", nolkrada_board_ask(ASKED_OF(asked), &foot.period, 5, 3, OFFER(offer)), 0, 0);
    expect("fourth commit, at the largest tick", commit_with(&offer, &asked, UINT64_MAX), 0, 0);
    since = 1, tick[0] = NOLKRADA_MAX_TICK;
    expect_refused("no release any more", &offer, &asked, UINT64_MAX, NOLKRADA_REFUSED_RELEASE_TICK, 0);

    /* With a frame, which stays: one job that is ready at 3 is finished at 7. */
    expect("open with a frame", nolkrada_board_open(&two[0].period, 5, 1, 0, WITH(nine), BOARD), 0, 0);
    if (held.now.framed != 1 || memcmp(&held.now.frame, &nine, sizeof nine) != 0 || held.now.plan.kept[0] != 3) wrong = 1;
    asked = held.now;
    expect("ask with a frame", nolkrada_board_ask(ASKED_OF(asked), &foot.period, 5, 1, OFFER(offer)), 0, 0);
    since = 1, task[0] = 0, tick[0] = 3, cost[0] = 2;
    other = asked;
    other.framed = 0;
    expect_refused("without its frame", &offer, &other, 7, NOLKRADA_REFUSED_STALE, 0);
    expect_refused("a finish over the tick with a frame", &offer, &asked, 6, NOLKRADA_REFUSED_TOO_SOON, 0);
    expect("commit with a frame", commit_with(&offer, &asked, 7), 0, 0);
    if (held.now.framed != 1 || memcmp(&held.now.frame, &nine, sizeof nine) != 0 || held.now.plan.count != 2) wrong = 1;

    /* Boards that no call made. */
    held.now.plan.kept[1] = 1;
    expect_refused("a kept jitter over J", &offer, &asked, 7, NOLKRADA_REFUSED_KEPT, 1);
    memset(&held.now, 0xff, sizeof held.now);
    expect_refused("a board of ones", &offer, &asked, 7, NOLKRADA_REFUSED_TOO_MANY_TASKS, 32);
    memset(&held.now, 0, sizeof held.now);
    expect_refused("a board of zeros", &offer, &asked, 7, NOLKRADA_REFUSED_NO_TASK, 0);
    if (held.behind != 77) wrong = 1;
}

/* What the slots of small traces hold before a call, one more than a trace may need. */
#define SLOT 77
static struct {
    uint32_t task[NOLKRADA_SMALL_RELEASES + 1], cost[NOLKRADA_SMALL_RELEASES + 1];
    uint64_t tick[NOLKRADA_SMALL_RELEASES + 1], answer[3];
} lent;

static void fill_slots(void) {
    for (size_t p = 0; p <= NOLKRADA_SMALL_RELEASES; p++) lent.task[p] = lent.cost[p] = SLOT, lent.tick[p] = SLOT;
    for (size_t p = 0; p < 3; p++) lent.answer[p] = SLOT;
}

/* Whether the slots of the columns from one on, and those of the answer, hold what they held. */
static int slots_kept(size_t column, size_t words) {
    int kept = 1;
    for (size_t p = column; p <= NOLKRADA_SMALL_RELEASES; p++) kept &= lent.task[p] == SLOT && lent.tick[p] == SLOT && lent.cost[p] == SLOT;
    for (size_t p = words; p < 3; p++) kept &= lent.answer[p] == SLOT;
    return kept;
}

/* An array of tasks as a sheet; with a count, a charge, releases and ticks; and so many slots of the columns and of the answer. */
#define ROW(tasks) &(tasks)[0].period, NOLKRADA_TASK_NUMBERS * (sizeof(tasks) / sizeof((tasks)[0]))
#define SMALL(tasks, count, charge, releases, ticks) ROW(tasks), count, charge, releases, ticks
#define LENT(a, b, c, words) lent.task, a, lent.tick, b, lent.cost, c, lent.answer, words

/* The trace at a position is this one: n releases by task, tick and cost, in columns with one slot more. */
static void expect_trace(const char *name, uint64_t code, size_t n, const uint32_t *tasks, const uint64_t *ticks, const uint32_t *costs) {
    expect(name, code, 0, 0);
    if (lent.answer[0] == 1 && lent.answer[1] == n && slots_kept(n, 2) && memcmp(lent.task, tasks, n * sizeof tasks[0]) == 0 &&
        memcmp(lent.tick, ticks, n * sizeof ticks[0]) == 0 && memcmp(lent.cost, costs, n * sizeof costs[0]) == 0)
        return;
    printf("%s: not its trace\n", name);
    wrong = 1;
}

/* There is no trace at a position: the answer says so, and the columns are as they were. */
static void expect_none(const char *name, uint64_t code) {
    expect(name, code, 0, 0);
    if (lent.answer[0] == 0 && lent.answer[1] == 0 && slots_kept(0, 2)) return;
    printf("%s: not none\n", name);
    wrong = 1;
}

/* A refusal leaves every slot. */
static void expect_left(const char *name, uint64_t code, uint32_t number, uint32_t place) {
    expect(name, code, number, place);
    if (slots_kept(0, 0)) return;
    printf("%s: a slot is changed\n", name);
    wrong = 1;
}

/* Two tasks, of which the first may be released twice in one tick: all twelve traces of up to two releases with ticks below 2. One task whose
 * releases are 1 tick apart, and 4 from the one before the last: of three releases three traces. No release and no tick. The most traces that
 * there are: some of them, and how many; the last one passes the trace check. Then what is refused. */
static void small_traces(void) {
    static const struct nolkrada_task two[2] = {{1, 1, 1, 1, 0}, {2, 0, 2, 2, 7}};
    static const struct nolkrada_task most[3] = {{1, 5, 1, 1, 0}, {2, 10, 2, 2, 1}, {200000, 1000000, 3, 9, 0}};
    static const struct nolkrada_task four[4] = {{9, 0, 1, 9, 0}, {9, 0, 1, 9, 0}, {9, 0, 1, 9, 0}, {9, 0, 1, 9, 0}};
    static const struct nolkrada_task faulty[4] = {{9, 0, 1, 9, 0}, {9, 0, 1, 9, 0}, {9, 0, 1, 9, 0}, {9, 0, 10, 9, 0}};
    static const uint32_t lengths[12] = {0, 1, 1, 1, 1, 2, 2, 2, 2, 2, 2, 2};
    static const uint32_t tasks[12][2] = {{0, 0}, {0, 0}, {1, 0}, {0, 0}, {1, 0}, {0, 0}, {0, 1}, {0, 0}, {0, 1}, {1, 0}, {0, 0}, {0, 1}};
    static const uint64_t ticks[12][2] = {{0, 0}, {0, 0}, {0, 0}, {1, 0}, {1, 0}, {0, 0}, {0, 0}, {0, 1}, {0, 1}, {0, 1}, {1, 1}, {1, 1}};
    static const struct nolkrada_task apart[1] = {{3, 2, 1, 3, 0}};
    static const uint32_t last_task[6] = {2, 2, 2, 2, 2, 2}, last_cost[6] = {3, 3, 3, 3, 3, 3}, first_of_six[6] = {0, 0, 0, 0, 0, 0};
    static const uint64_t last_tick[6] = {11, 11, 11, 11, 11, 11}, at_0[6] = {0, 0, 0, 0, 0, 0};
    static const uint32_t ones[6] = {1, 1, 1, 1, 1, 1};
    const size_t all = NOLKRADA_SMALL_RELEASES + 1;
    for (uint64_t p = 0; p < 12; p++) {
        uint32_t costs[2];
        for (int k = 0; k < 2; k++) costs[k] = two[tasks[p][k]].cost;
        fill_slots();
        expect_trace("small trace", nolkrada_small_trace(SMALL(two, 2, 0, 2, 2), p, LENT(all, all, all, 3)), lengths[p], tasks[p], ticks[p], costs);
        fill_slots();
        const size_t n = lengths[p];
        expect_trace("exact columns", nolkrada_small_trace(SMALL(two, 2, 0, 2, 2), p, LENT(n, n, n, 2)), n, tasks[p], ticks[p], costs);
        /* A slot too few, in each column and in the answer. */
        fill_slots();
        for (size_t k = 0; n > 0 && k < 3; k++)
            expect_left("short column", nolkrada_small_trace(SMALL(two, 2, 0, 2, 2), p, LENT(n - (k == 0), n - (k == 1), n - (k == 2), 1)),
                        NOLKRADA_REFUSED_SHORT_ARRAY, (uint32_t)n);
        for (size_t words = 0; words < 2; words++)
            expect_left("short answer", nolkrada_small_trace(SMALL(two, 2, 0, 2, 2), p, LENT(n, n, n, words)), NOLKRADA_REFUSED_SHORT_ARRAY, 2);
    }
    static const uint64_t past[5] = {12, 13, UINT64_C(1) << 32, (UINT64_C(1) << 32) + 3, UINT64_MAX};
    for (size_t k = 0; k < 5; k++) {
        fill_slots();
        expect_none("past the last", nolkrada_small_trace(SMALL(two, 2, 0, 2, 2), past[k], LENT(k % 2 ? 0 : all, 0, 0, 2)));
        fill_slots();
        expect_left("past the last, short answer", nolkrada_small_trace(SMALL(two, 2, 0, 2, 2), past[k], LENT(0, 0, 0, 1)),
                    NOLKRADA_REFUSED_SHORT_ARRAY, 2);
    }
    expect("how many", nolkrada_small_trace_count(SMALL(two, 2, 0, 2, 2), lent.answer, 3), 0, 0);
    if (lent.answer[0] != 12 || !slots_kept(0, 1)) wrong = 1;
    expect("how many of one task", nolkrada_small_trace_count(SMALL(apart, 1, 0, 3, 5), lent.answer, 1), 0, 0);
    if (lent.answer[0] != 1 + 5 + 10 + 3) wrong = 1;
    fill_slots();
    expect_trace("the first of three releases", nolkrada_small_trace(SMALL(apart, 1, 0, 3, 5), 16, LENT(3, 3, 3, 2)), 3, first_of_six,
                 (const uint64_t[]){0, 1, 4}, ones);
    for (uint32_t none = 0; none < 2; none++) {
        const uint32_t releases = none ? 0 : 6, bound = none ? 12 : 0;
        fill_slots();
        expect_trace("the empty trace", nolkrada_small_trace(SMALL(two, 2, 0, releases, bound), 0, LENT(0, 0, 0, 2)), 0, ones, at_0, ones);
        fill_slots();
        expect_none("only the empty trace", nolkrada_small_trace(SMALL(two, 2, 0, releases, bound), 1, LENT(0, 0, 0, 2)));
        expect("how many, the empty one", nolkrada_small_trace_count(SMALL(two, 2, 0, releases, bound), lent.answer, 1), 0, 0);
        if (lent.answer[0] != 1) wrong = 1;
    }
    /* An entry past the count does not matter, and one that is not there is 0. */
    expect("an entry past the count", nolkrada_small_trace_count(SMALL(faulty, 3, 0, 6, 12), lent.answer, 1), 0, 0);
    expect("an entry that is not there", nolkrada_small_trace_count(&four[0].period, 10, 3, 0, 6, 12, lent.answer, 1), NOLKRADA_REFUSED_RANGE, 2);

    fill_slots();
    expect("how many, the most", nolkrada_small_trace_count(SMALL(most, 3, 0, 6, 12), lent.answer, 1), 0, 0);
    if (lent.answer[0] != NOLKRADA_SMALL_TRACES || !slots_kept(0, 1)) wrong = 1;
    fill_slots();
    expect_trace("the first of six releases", nolkrada_small_trace(SMALL(most, 3, 0, 6, 12), 749398, LENT(all, all, all, 2)), 6, first_of_six,
                 at_0, ones);
    fill_slots();
    expect_trace("the last of all", nolkrada_small_trace(SMALL(most, 3, 0, 6, 12), NOLKRADA_SMALL_TRACES - 1, LENT(6, 6, 6, 2)), 6, last_task,
                 last_tick, last_cost);
    expect("trace check of it", nolkrada_trace_check(ROW(most), 3, 0, 6, lent.task, 6, lent.tick, 6, lent.cost, 6, answer, 2), 0, 0);
    if (answer[0] != 0) wrong = 1;
    fill_slots();
    expect_none("none after it", nolkrada_small_trace(SMALL(most, 3, 0, 6, 12), NOLKRADA_SMALL_TRACES, LENT(6, 6, 6, 2)));

    /* What decides: the sheet, then its tasks, the releases, the ticks, the columns, the answer. */
    fill_slots();
    expect_left("no task", nolkrada_small_trace(SMALL(two, 0, 9, 7, 13), 1, LENT(0, 0, 0, 0)), NOLKRADA_REFUSED_NO_TASK, 0);
    expect_left("over 32 tasks", nolkrada_small_trace(SMALL(two, 33, 9, 7, 13), 1, LENT(0, 0, 0, 0)), NOLKRADA_REFUSED_TOO_MANY_TASKS, 32);
    expect_left("charge", nolkrada_small_trace(SMALL(faulty, 4, 9, 7, 13), 1, LENT(0, 0, 0, 0)), NOLKRADA_REFUSED_CHARGE, 0);
    expect_left("range", nolkrada_small_trace(SMALL(faulty, 4, 8, 7, 13), 1, LENT(0, 0, 0, 0)), NOLKRADA_REFUSED_RANGE, 3);
    expect_left("over 3 tasks", nolkrada_small_trace(SMALL(four, 4, 8, 7, 13), 1, LENT(0, 0, 0, 0)), NOLKRADA_REFUSED_TOO_MANY_TASKS, 4);
    expect_left("over 6 releases", nolkrada_small_trace(SMALL(four, 3, 8, 7, 13), 1, LENT(0, 0, 0, 0)), NOLKRADA_REFUSED_TOO_MANY_RELEASES, 7);
    expect_left("ticks over 12", nolkrada_small_trace(SMALL(four, 3, 8, 6, 13), 1, LENT(0, 0, 0, 0)), NOLKRADA_REFUSED_RELEASE_TICK, 13);
    expect_left("columns", nolkrada_small_trace(SMALL(four, 3, 8, 6, 12), 1, LENT(0, 0, 0, 0)), NOLKRADA_REFUSED_SHORT_ARRAY, 1);
    expect_left("answer", nolkrada_small_trace(SMALL(four, 3, 8, 6, 12), 1, LENT(1, 1, 1, 0)), NOLKRADA_REFUSED_SHORT_ARRAY, 2);
    expect_left("largest numbers", nolkrada_small_trace(SMALL(four, 3, 8, UINT32_MAX, UINT32_MAX), 1, LENT(1, 1, 1, 2)),
                NOLKRADA_REFUSED_TOO_MANY_RELEASES, UINT32_MAX);
    expect_left("largest bound", nolkrada_small_trace(SMALL(four, 3, 8, 6, UINT32_MAX), 1, LENT(1, 1, 1, 2)), NOLKRADA_REFUSED_RELEASE_TICK,
                UINT32_MAX);
    expect_left("no task, how many", nolkrada_small_trace_count(SMALL(two, 0, 9, 7, 13), lent.answer, 0), NOLKRADA_REFUSED_NO_TASK, 0);
    expect_left("over 32 tasks, how many", nolkrada_small_trace_count(SMALL(two, 33, 9, 7, 13), lent.answer, 0), NOLKRADA_REFUSED_TOO_MANY_TASKS, 32);
    expect_left("charge, how many", nolkrada_small_trace_count(SMALL(faulty, 4, 9, 7, 13), lent.answer, 0), NOLKRADA_REFUSED_CHARGE, 0);
    expect_left("range, how many", nolkrada_small_trace_count(SMALL(faulty, 4, 8, 7, 13), lent.answer, 0), NOLKRADA_REFUSED_RANGE, 3);
    expect_left("over 3 tasks, how many", nolkrada_small_trace_count(SMALL(four, 4, 8, 7, 13), lent.answer, 0), NOLKRADA_REFUSED_TOO_MANY_TASKS, 4);
    expect_left("over 6 releases, how many", nolkrada_small_trace_count(SMALL(four, 3, 8, 7, 13), lent.answer, 0),
                NOLKRADA_REFUSED_TOO_MANY_RELEASES, 7);
    expect_left("ticks over 12, how many", nolkrada_small_trace_count(SMALL(four, 3, 8, 6, 13), lent.answer, 0), NOLKRADA_REFUSED_RELEASE_TICK, 13);
    expect_left("short answer, how many", nolkrada_small_trace_count(SMALL(four, 3, 8, 6, 12), lent.answer, 0), NOLKRADA_REFUSED_SHORT_ARRAY, 1);
}

/* The calling convention leaves open what stands above the byte of a charge in its register: the archive looks at the byte alone. */
typedef uint64_t (*whole_register)(const uint32_t *, size_t, uint32_t, uint32_t, const uint32_t *, size_t, uint32_t,
                                   const uint32_t *, size_t, uint64_t *, size_t);
typedef uint64_t (*whole_register_open)(const uint32_t *, size_t, uint32_t, uint32_t, uint64_t *, size_t);
typedef uint64_t (*whole_register_board)(const uint32_t *, size_t, uint32_t, uint32_t, const uint32_t *, size_t, uint32_t *, size_t);
typedef uint64_t (*whole_register_ask)(const uint32_t *, size_t, uint32_t, uint32_t, const uint32_t *, size_t, const uint32_t *, size_t,
                                       uint32_t, uint32_t *, size_t);
typedef uint64_t (*whole_slot_commit)(uint32_t *, size_t, const uint32_t *, size_t, const uint32_t *, size_t, uint32_t, uint32_t,
                                      const uint32_t *, size_t, uint32_t, const uint32_t *, size_t, const uint64_t *, size_t,
                                      const uint32_t *, size_t, uint64_t);
typedef uint64_t (*whole_register_trace)(const uint32_t *, size_t, uint32_t, uint32_t, uint32_t, uint32_t, uint64_t, uint32_t *, size_t,
                                         uint64_t *, size_t, uint32_t *, size_t, uint64_t *, size_t);
typedef uint64_t (*whole_register_count)(const uint32_t *, size_t, uint32_t, uint32_t, uint32_t, uint32_t, uint64_t *, size_t);

static void upper_bits(void) {
    static const uint32_t none[3] = {0, 0, 0};
    uint64_t other[4];
    whole_register verdict = (whole_register)(void (*)(void))nolkrada_verdict;
    whole_register_open open = (whole_register_open)(void (*)(void))nolkrada_monitor_open;
    whole_register_board open_board = (whole_register_board)(void (*)(void))nolkrada_board_open;
    whole_register_ask ask = (whole_register_ask)(void (*)(void))nolkrada_board_ask;
    whole_slot_commit commit = (whole_slot_commit)(void (*)(void))nolkrada_board_commit;
    whole_register_trace trace = (whole_register_trace)(void (*)(void))nolkrada_small_trace;
    whole_register_count count = (whole_register_count)(void (*)(void))nolkrada_small_trace_count;
    static const struct nolkrada_task first = {60, 0, 2, 60, 0}, second = {80, 0, 2, 70, 0};
    for (uint32_t c = 0; c < 6; c++) {
        uint64_t code = nolkrada_verdict(printed, PRINTED, 3, (uint8_t)c, NO_FRAME, 1, none, 3, answer, 4);
        if (verdict(printed, PRINTED, 3, UINT32_C(0xabcdef00) + c, NO_FRAME, 1, none, 3, other, 4) != code) wrong = 1;
        if (code == 0 && memcmp(answer, other, sizeof other) != 0) wrong = 1;
        if (open(printed, PRINTED, 3, UINT32_C(0xabcdef00) + c, WINDOW) != nolkrada_monitor_open(printed, PRINTED, 3, (uint8_t)c, WINDOW)) wrong = 1;
        struct nolkrada_offer offer;
        expect("open, upper bits", open_board(&first.period, 5, 1, UINT32_C(0xabcdef00) + c, NO_FRAME, BOARD), 0, 0);
        expect("ask, upper bits", ask(&first.period, 5, 1, UINT32_C(0xabcdef00) + c, NO_FRAME, &second.period, 5, 1, OFFER(offer)), 0, 0);
        if (held.now.plan.charge != c || offer.charge != c) wrong = 1;
        expect("commit, upper bits",
               commit(BOARD, OFFER(offer), &first.period, 5, 1, UINT32_C(0xabcdef00) + c, NO_FRAME, 0, task, 0, tick, 0, cost, 0, 9), 0, 0);
        if (memcmp(&held.now.plan, &offer, sizeof offer) != 0) wrong = 1;
        const uint32_t number = c == 5 ? NOLKRADA_REFUSED_CHARGE : 0;
        expect("trace, upper bits", trace(printed, PRINTED, 3, UINT32_C(0xabcdef00) + c, 6, 12, 5, LENT(6, 6, 6, 2)), number, 0);
        expect("how many, upper bits", count(printed, PRINTED, 3, UINT32_C(0xabcdef00) + c, 6, 12, lent.answer, 1), number, 0);
    }
}

int main(void) {
    if (strcmp(version, NOLKRADA_VERSION) != 0) wrong = 1;
    sizes();
    short_sizes();
    text_sizes();
    refusals();
    verdicts();
    plan();
    marks();
    charges();
    upper_bits();
    runs();
    jumps();
    frames();
    last_jobs();
    boards();
    small_traces();
    puts(wrong ? "header: something is not as it says"
               : "header: limits, sizes, refusals, verdicts, evaluations, marks, charge, pickup, frames, largest finish, stops, last jobs, boards and "
                 "small traces as it says");
    return wrong;
}
