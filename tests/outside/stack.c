/*
 * The stack that each call takes, against what include/nolkrada.h says. A call runs on a stack of its own that is filled with a
 * pattern, and the bytes that it changed are counted. Link with -z now, so that memcpy and memset are not looked up on that stack.
 */
#include <stdio.h>
#include <string.h>
#include <ucontext.h>

#include "nolkrada.h"

/* What the header says: a call takes less. */
#define READ_LIMIT 4096
#define COMMIT_LIMIT 40960
#define OTHER_LIMIT 12288

#define SLOTS NOLKRADA_MAX_RELEASES
#define NUMBERS NOLKRADA_SHEET_NUMBERS

static uint32_t sheet[NUMBERS], kept[SLOTS], worst[SLOTS], task[SLOTS], cost[SLOTS];
static uint64_t tick[SLOTS], ready[SLOTS], finish[SLOTS];
static uint8_t file[NOLKRADA_READ_BYTES];
static const char line[] = "1000000,1000000,1000000,1000000\n";
static char text[NOLKRADA_MAX_TEXT + sizeof line - 1];
static uint64_t window[NOLKRADA_WINDOW_SLOTS];
static struct nolkrada_board board;
static struct nolkrada_offer offer;
/* The tasks of small traces, and one more. */
#define SMALL_NUMBERS (5 * (NOLKRADA_SMALL_TASKS + 1))
static uint32_t small_sheet[SMALL_NUMBERS];
static uint64_t answer[4], code;
/* The parts of a call that a case changes: the charge, the frame, how many numbers it has, tasks, releases, slots, bytes, characters,
 * numbers of a sheet that is read or loaded, slots of a window, numbers of a board and of an offer and words there are, and which task is
 * asked for; of small traces the tasks, releases, ticks and position. */
static uint8_t charge;
static struct nolkrada_frame frame;
static size_t frame_numbers;
static uint32_t tasks, releases, which;
/* The tick of the first release. */
static uint64_t first;
static size_t slots, bytes, characters, numbers_lent, window_lent, board_lent, offer_lent, words;
/* The tick of a commit. */
static uint64_t at;
static uint32_t small_tasks, small_releases, small_ticks;
static uint64_t position;

static void nothing(void) { code = 0; }
static void arrival_count(void) {
    code = nolkrada_arrival_count(sheet, NUMBERS, tasks, charge, which, kept, slots, 1000000, answer, words);
}
static void verdict(void) { code = nolkrada_verdict(sheet, NUMBERS, tasks, charge, &frame.ticks, frame_numbers, which, kept, slots, answer, words); }
static void choice(void) { code = nolkrada_choice(sheet, NUMBERS, tasks, charge, &frame.ticks, frame_numbers, kept, slots, worst, slots, answer, words); }
static void trace_check(void) {
    code = nolkrada_trace_check(sheet, NUMBERS, tasks, charge, releases, task, slots, tick, slots, cost, slots, answer, words);
}
static void ready_ticks(void) {
    code = nolkrada_ready(sheet, NUMBERS, tasks, charge, kept, slots, releases, task, slots, tick, slots, cost, slots, ready, slots);
}
static void run(void) {
    code = nolkrada_run(sheet, NUMBERS, tasks, charge, &frame.ticks, frame_numbers, kept, slots, releases, task, slots, tick, slots, cost, slots, ready, slots,
                        finish, slots);
}
static void jump(void) {
    code = nolkrada_jump(sheet, NUMBERS, tasks, charge, &frame.ticks, frame_numbers, kept, slots, releases, task, slots, tick, slots, cost, slots, ready, slots,
                         finish, slots, answer, words);
}
static void read_file(void) {
    code = nolkrada_read(file, bytes, sheet, numbers_lent, task, slots, tick, slots, cost, slots, answer, words);
}
static void write_file(void) {
    code = nolkrada_write(sheet, NUMBERS, tasks, charge, releases, task, slots, tick, slots, cost, slots, file, bytes, answer, words);
}
static void load_text(void) {
    code = nolkrada_load((const uint8_t *)text, characters, sheet, numbers_lent, answer, words);
}
static void open_window(void) { code = nolkrada_monitor_open(sheet, NUMBERS, tasks, charge, window, window_lent); }
static void take_job(void) { code = nolkrada_monitor_take(window, window_lent, which, UINT64_MAX); }
static void show_task(void) { code = nolkrada_monitor_show(window, window_lent, which, answer, words); }
static void show_tasks(void) { code = nolkrada_monitor_show_all(window, window_lent, kept, slots, worst, slots, ready, slots); }

/* An opening with all tasks; an ask for the last one on the others, in any place; and the commit of its offer. */
#define LAST_TASK (NUMBERS - 5)
static void open_board(void) {
    code = nolkrada_board_open(sheet, NUMBERS, tasks, charge, &frame.ticks, frame_numbers, &board.plan.tasks[0].period, board_lent);
}
static void ask_task(void) {
    code = nolkrada_board_ask(sheet, LAST_TASK, tasks - 1, charge, &frame.ticks, frame_numbers, sheet + LAST_TASK, 5, which, &offer.tasks[0].period,
                              offer_lent);
}
static void commit_offer(void) {
    code = nolkrada_board_commit(&board.plan.tasks[0].period, board_lent, &offer.tasks[0].period, offer_lent, sheet, LAST_TASK, tasks - 1, charge,
                                 &frame.ticks, frame_numbers, releases, task, slots, tick, slots, cost, slots, at);
}

static void small_trace(void) {
    code = nolkrada_small_trace(small_sheet, SMALL_NUMBERS, small_tasks, charge, small_releases, small_ticks, position, task, slots, tick, slots,
                                cost, slots, answer, words);
}
static void small_count(void) {
    code = nolkrada_small_trace_count(small_sheet, SMALL_NUMBERS, small_tasks, charge, small_releases, small_ticks, answer, words);
}

/* The releases, 100 ticks apart, and their file, with the charge. */
static void list(void) {
    for (uint32_t n = 0; n < NOLKRADA_MAX_RELEASES; n++) tick[n] = first + 100 * n;
    bytes = NOLKRADA_MAX_FILE;
    write_file();
    bytes = answer[0];
}

/* So many jobs in a window of 32 tasks, in time and late. */
static void jobs(uint32_t n) {
    window_lent = NOLKRADA_WINDOW_SLOTS;
    open_window();
    for (uint32_t k = 0; k < n; k++) nolkrada_monitor_take(window, NOLKRADA_WINDOW_SLOTS, k % 7 * k % 32, 1000000 - n / 2 + k);
}

/* What a case changes of a board or an offer that is made. */
static void (*late_change)(void);

/* 32 high tasks, 1,024 releases and their file; the longest text, and one line more behind it; a window that has counted 300 jobs; three
 * tasks of which every list of six releases with ticks below 3 is legal, and the last of these traces. */
static void full(void) {
    for (uint32_t i = 0; i < NOLKRADA_MAX_TASKS; i++) {
        const uint32_t numbers[5] = {3000 + 100 * i, 1500, 60, 1000000, 0};
        memcpy(sheet + 5 * i, numbers, sizeof numbers);
        kept[i] = 750;
    }
    for (uint32_t n = 0; n < NOLKRADA_MAX_RELEASES; n++) {
        task[n] = n % 32;
        cost[n] = 60;
    }
    charge = 5;
    frame_numbers = 0;
    tasks = NOLKRADA_MAX_TASKS;
    releases = NOLKRADA_MAX_RELEASES;
    which = NOLKRADA_MAX_TASKS - 1;
    slots = SLOTS;
    for (size_t at = 0; at < sizeof text; at += sizeof line - 1) memcpy(text + at, line, sizeof line - 1);
    characters = NOLKRADA_MAX_TEXT;
    numbers_lent = NUMBERS;
    words = 4;
    list();
    jobs(300);
    board_lent = NOLKRADA_BOARD_NUMBERS;
    offer_lent = NOLKRADA_OFFER_NUMBERS;
    at = UINT64_MAX;
    late_change = nothing;
    for (uint32_t i = 0; i <= NOLKRADA_SMALL_TASKS; i++) {
        const uint32_t numbers[5] = {400 + i, 2000 + 5 * i, 60 + i, 1000000, 0};
        memcpy(small_sheet + 5 * i, numbers, sizeof numbers);
    }
    small_tasks = NOLKRADA_SMALL_TASKS;
    small_releases = NOLKRADA_SMALL_RELEASES;
    small_ticks = 3;
    position = 5004;
}

/* The board and the offer of a commit, as far as the case allows them, with releases of its 31 tasks; then what the case changes of them. */
static void board_and_offer(void) {
    const size_t board_kept = board_lent, offer_kept = offer_lent;
    board_lent = NOLKRADA_BOARD_NUMBERS;
    offer_lent = NOLKRADA_OFFER_NUMBERS;
    tasks--;
    open_board();
    tasks++;
    ask_task();
    board_lent = board_kept;
    offer_lent = offer_kept;
    for (uint32_t n = 0; n < NOLKRADA_MAX_RELEASES; n++) task[n] = n % (NOLKRADA_MAX_TASKS - 1);
    late_change();
}

/* Full size, then each with one thing that a call refuses or answers in another way. */
static void no_slots(void) { slots = 0; }
static void many_tasks(void) { tasks = NOLKRADA_MAX_TASKS + 1; }
static void many_releases(void) { releases = NOLKRADA_MAX_RELEASES + 1; }
static void no_such_task(void) { which = NOLKRADA_MAX_TASKS; }
/* The deadline of the last task. */
#define LAST_DEADLINE (NUMBERS - 2)
static void last_range(void) { sheet[LAST_DEADLINE] = 0; }
static void no_charge(void) {
    charge = 0;
    list();
}
static void most_charge(void) {
    charge = NOLKRADA_MAX_CHARGE;
    list();
}
/* The deadline of the last task, and in the file of the first, one below its cost and the charge. */
static void over_charge(void) {
    sheet[LAST_DEADLINE] = 64;
    file[15] = 64, file[16] = 0, file[17] = 0, file[18] = 0;
}
static void second_charge(void) { file[2] = 5; }
static void zero_charge(void) { file[1] = 0; }
static void last_cost(void) { cost[NOLKRADA_MAX_RELEASES - 1] = 0; }
static void last_kept(void) { kept[NOLKRADA_MAX_TASKS - 1] = 1501; }
static void tight(void) { sheet[LAST_DEADLINE] = 65; }
/* Every task low, and their file, the largest. */
static void all_low(void) {
    for (uint32_t i = 0; i < NOLKRADA_MAX_TASKS; i++) sheet[5 * i + 4] = UINT32_MAX;
    list();
}
/* A choice of the high tasks alone: the last task, which is low and fits at no K, and every second one besides; and one that ends in 15
 * at the last. */
static void last_low(void) {
    tight();
    sheet[NUMBERS - 1] = 1;
}
static void half_low(void) {
    tight();
    for (uint32_t i = 1; i < NOLKRADA_MAX_TASKS; i += 2) sheet[5 * i + 4] = 1;
    list();
}
static void last_high(void) {
    tight();
    for (uint32_t i = 0; i < NOLKRADA_MAX_TASKS - 1; i += 3) sheet[5 * i + 4] = 1;
}
/* The last byte of the first low task in the file. */
static void wrong_mark(void) {
    all_low();
    file[2 + 17] = 1;
}
/* The largest file and one byte more, and one low task more, which is cut. */
static void low_and_more(void) {
    all_low();
    file[bytes++] = 0;
}
static void low_task_cut(void) {
    all_low();
    memcpy(file + bytes - 1, file + 2, 17);
    bytes += 16;
}
/* A frame of 16 windows in which half of the ticks are ours, and one in which nearly all are; one window alone; the last window, the count
 * and the ticks outside the rules; a choice of the high tasks alone and one that ends in 15 with a frame; a row of one number; and a kept
 * jitter or a cost outside the rules beside a frame. */
static void teeth(void) {
    frame.ticks = NOLKRADA_MAX_FRAME;
    frame.count = NOLKRADA_MAX_WINDOWS;
    for (uint32_t k = 0; k < NOLKRADA_MAX_WINDOWS; k++) frame.windows[k].first = 625 * k, frame.windows[k].length = 312;
    frame_numbers = NOLKRADA_FRAME_NUMBERS;
}
static void long_teeth(void) {
    teeth();
    for (uint32_t k = 0; k < NOLKRADA_MAX_WINDOWS; k++) frame.windows[k].length = 624;
}
static void one_window(void) {
    teeth();
    frame.count = 1;
    frame.windows[0].length = NOLKRADA_MAX_FRAME;
}
static void last_window(void) {
    teeth();
    frame.windows[NOLKRADA_MAX_WINDOWS - 1].length = 626;
}
static void many_windows(void) {
    teeth();
    frame.count = NOLKRADA_MAX_WINDOWS + 1;
}
static void long_frame(void) {
    teeth();
    frame.ticks = NOLKRADA_MAX_FRAME + 1;
}
static void framed_low(void) {
    half_low();
    long_teeth();
}
static void framed_high(void) {
    last_high();
    long_teeth();
}
static void one_number(void) {
    teeth();
    frame_numbers = 1;
}
static void framed_kept(void) {
    teeth();
    last_kept();
}
static void framed_cost(void) {
    teeth();
    last_cost();
}
static void crowded(void) {
    for (uint32_t n = 0; n < SLOTS; n++) tick[n] = first;
}
static void short_ticks(void) {
    first = 0;
    list();
}
static void last_tick(void) { tick[SLOTS - 1] = NOLKRADA_MAX_TICK + 1; }
static void cut(void) { bytes--; }
static void one_more_byte(void) { file[bytes++] = 0; }
static void no_text(void) { characters = 0; }
static void text_cut(void) { characters = NOLKRADA_MAX_TEXT - 1; }
static void one_more_line(void) { characters = sizeof text; }
static void line_form(void) { text[NOLKRADA_MAX_TEXT - 2] = '\r'; }
static void line_zero(void) { text[0] = '0'; }
static void line_range(void) { text[NOLKRADA_MAX_TEXT - 2] = '1'; }
static void few_numbers(void) { numbers_lent = NUMBERS - 1; }
static void no_words(void) { words = 0; }
static void short_window(void) { window_lent = NOLKRADA_WINDOW_SLOTS - 1; }
static void no_job(void) { jobs(0); }
static void one_job(void) { jobs(1); }
static void ring_full(void) { jobs(NOLKRADA_WINDOW_JOBS); }
static void ring_again(void) { jobs(2 * NOLKRADA_WINDOW_JOBS); }
/* Windows of zeros and of the largest numbers, which no call made. */
static void zeros(void) { memset(window, 0, sizeof window); }
static void ones(void) { memset(window, 0xff, sizeof window); }
/* A board and an offer that are too short; a commit at tick 0; a task asked for at the top and in the middle; an offer with a kept jitter
 * that is raised, and one of another count; a board of zeros, one of ones, with a kept jitter over J, with a last commit after all releases
 * and with another deadline; and the same with a frame. */
static void short_board(void) { board_lent = NOLKRADA_BOARD_NUMBERS - 1; }
static void short_offer(void) { offer_lent = NOLKRADA_OFFER_NUMBERS - 1; }
static void too_soon(void) { at = 0; }
static void at_top(void) { which = 0; }
static void in_middle(void) { which = 15; }
static void raise_kept(void) { offer.kept[NOLKRADA_MAX_TASKS - 1]++; }
static void raised_kept(void) { late_change = raise_kept; }
static void count_more(void) { offer.count++; }
static void another_count(void) { late_change = count_more; }
static void clear_board(void) { memset(&board, 0, sizeof board); }
static void board_of_zeros(void) { late_change = clear_board; }
static void fill_board(void) { memset(&board, 0xff, sizeof board); }
static void board_of_ones(void) { late_change = fill_board; }
static void raise_held(void) { board.plan.kept[NOLKRADA_MAX_TASKS - 2] = UINT32_MAX; }
static void held_kept(void) { late_change = raise_held; }
static void set_last(void) { board.last_high = UINT32_MAX; }
static void last_commit(void) { late_change = set_last; }
static void change_deadline(void) { board.plan.tasks[NOLKRADA_MAX_TASKS - 2].deadline--; }
static void another_deadline(void) { late_change = change_deadline; }
/* Small traces: none past the last, and the first; no release and one; no tick, one, and all that are allowed with two releases; one task,
 * four, none and over 32; too many releases and ticks; a period of 0; jitters with which few traces are legal; and columns of six slots and of
 * five. */
static void past_last(void) { position = UINT64_MAX; }
static void first_trace(void) { position = 0; }
static void no_release(void) { small_releases = position = 0; }
static void one_release(void) {
    small_releases = 1;
    position = 9;
}
static void no_tick(void) { small_ticks = position = 0; }
static void one_tick(void) {
    small_ticks = 1;
    position = 83;
}
static void all_ticks(void) {
    small_ticks = NOLKRADA_SMALL_TICKS;
    small_releases = 2;
    position = 702;
}
static void one_task(void) {
    small_tasks = 1;
    position = 83;
}
static void four_tasks(void) { small_tasks = 4; }
static void no_small_task(void) { small_tasks = 0; }
static void many_small_tasks(void) { small_tasks = NOLKRADA_MAX_TASKS + 1; }
static void seven_releases(void) { small_releases = NOLKRADA_SMALL_RELEASES + 1; }
static void thirteen_ticks(void) { small_ticks = NOLKRADA_SMALL_TICKS + 1; }
static void small_range(void) { small_sheet[10] = 0; }
static void few_traces(void) {
    for (uint32_t i = 0; i < NOLKRADA_SMALL_TASKS; i++) small_sheet[5 * i + 1] = small_sheet[5 * i];
    position = 999;
}
static void six_slots(void) { slots = NOLKRADA_SMALL_RELEASES; }
static void five_slots(void) { slots = NOLKRADA_SMALL_RELEASES - 1; }
static void framed_soon(void) {
    teeth();
    too_soon();
}
static void framed_raised(void) {
    long_teeth();
    raised_kept();
}
static void (*const cases[])(void) = {nothing, few_numbers, no_words, no_slots, many_tasks, many_releases, no_such_task, last_range,
                                      no_charge, most_charge, over_charge, second_charge, zero_charge, last_cost, last_kept, last_tick,
                                      tight, all_low, last_low, half_low, last_high, wrong_mark, low_and_more, low_task_cut, crowded,
                                      short_ticks, cut, one_more_byte, no_text, text_cut, one_more_line, line_form, line_zero,
                                      line_range, teeth, long_teeth, one_window, last_window, many_windows, long_frame, framed_low,
                                      framed_high, one_number, framed_kept, framed_cost, short_window, no_job, one_job, ring_full,
                                      ring_again, zeros, ones, short_board, short_offer, too_soon, at_top, in_middle, raised_kept,
                                      another_count, board_of_zeros, board_of_ones, held_kept, last_commit, another_deadline, framed_soon,
                                      framed_raised, past_last, first_trace, no_release, one_release, no_tick, one_tick, all_ticks, one_task,
                                      four_tasks, no_small_task, many_small_tasks, seven_releases, thirteen_ticks, small_range, few_traces,
                                      six_slots, five_slots};

static unsigned char room[1 << 16];
static ucontext_t outside, inside;

static size_t changed(void (*call)(void), unsigned char pattern) {
    size_t same = 0;
    memset(room, pattern, sizeof room);
    getcontext(&inside);
    inside.uc_stack.ss_sp = room;
    inside.uc_stack.ss_size = sizeof room;
    inside.uc_link = &outside;
    makecontext(&inside, call, 0);
    swapcontext(&outside, &inside);
    while (same < sizeof room && room[same] == pattern) same++;
    return sizeof room - same;
}

/* The most that a call takes in all cases, over what an empty call takes here. Two patterns: data may be like one of them. Ticks go
 * up to the limit, but for the run, which would go through all of them. */
static size_t most(void (*call)(void)) {
    const size_t empty = changed(nothing, 0xa5);
    size_t top = 0;
    for (size_t c = 0; c < sizeof cases / sizeof cases[0]; c++)
        for (int pattern = 0x5a; pattern <= 0xa5; pattern += 0xa5 - 0x5a) {
            first = call == run ? 0 : NOLKRADA_MAX_TICK - 100 * (SLOTS - 1);
            full();
            cases[c]();
            if (call == commit_offer) board_and_offer();
            const size_t n = changed(call, (unsigned char)pattern);
            if (n > top) top = n;
        }
    return top - empty;
}

static int over(const char *name, void (*call)(void), size_t limit) {
    const size_t n = most(call);
    printf("stack of %s: %zu bytes, below %zu%s\n", name, n, limit, n < limit ? "" : ": NO");
    return n >= limit;
}

int main(void) {
    int wrong = 0;
    wrong += over("nolkrada_arrival_count", arrival_count, OTHER_LIMIT);
    wrong += over("nolkrada_verdict", verdict, OTHER_LIMIT);
    wrong += over("nolkrada_choice", choice, OTHER_LIMIT);
    wrong += over("nolkrada_trace_check", trace_check, OTHER_LIMIT);
    wrong += over("nolkrada_ready", ready_ticks, OTHER_LIMIT);
    wrong += over("nolkrada_run", run, OTHER_LIMIT);
    wrong += over("nolkrada_jump", jump, OTHER_LIMIT);
    wrong += over("nolkrada_read", read_file, READ_LIMIT);
    wrong += over("nolkrada_write", write_file, OTHER_LIMIT);
    wrong += over("nolkrada_load", load_text, READ_LIMIT);
    wrong += over("nolkrada_monitor_open", open_window, OTHER_LIMIT);
    wrong += over("nolkrada_monitor_take", take_job, OTHER_LIMIT);
    wrong += over("nolkrada_monitor_show", show_task, OTHER_LIMIT);
    wrong += over("nolkrada_monitor_show_all", show_tasks, OTHER_LIMIT);
    wrong += over("nolkrada_board_open", open_board, OTHER_LIMIT);
    wrong += over("nolkrada_board_ask", ask_task, OTHER_LIMIT);
    wrong += over("nolkrada_board_commit", commit_offer, COMMIT_LIMIT);
    wrong += over("nolkrada_small_trace", small_trace, OTHER_LIMIT);
    wrong += over("nolkrada_small_trace_count", small_count, OTHER_LIMIT);
    return wrong != 0;
}
