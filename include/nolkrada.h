/*
 * Nolkrada for C: kept jitters and verdicts for a fixed-priority sheet.
 *
 * ./install puts this header and libnolkrada.a in place: cc main.c -lnolkrada (x86-64 Linux). Without installing, `tools/prove
 * staticlib nolkrada` writes target/staticlib/libnolkrada.a. Of the C library the archive calls memcpy and memset alone; it allocates nothing
 * and has no writable data, so any number of threads may call it. A read or a load takes below 4096 bytes of stack, a commit below
 * 40960, any other call below 12288; what memcpy and memset take is counted, what the dynamic linker takes when it looks them up is not.
 *
 * Every call ends, but not always soon. A verdict or a choice takes microseconds on most sheets; where the tasks load the
 * processor whole or a little more, it may walk over millions of q: with 31 tasks (62,0,1,1000000) above (2,1,1,1000000), kept at
 * 1, the verdict of the lowest takes seconds, and so does the choice with 31 tasks (40,31,1,1000000) above (4,1,1,1000000), which
 * is refused with 15. With a frame each q takes one search for each window, at most 16, whatever the ticks of the frame are. A run
 * goes tick by tick: some 0.4 s for each 1000000000 ticks up to the last finish, so that one release near the last tick allowed
 * makes nolkrada_run go on for days. Take nolkrada_jump for such lists. A run that jumps goes from one ready or finish moment to the
 * next: microseconds for a few releases, whatever their ticks, and below a millisecond for 1024. These figures are for calls without
 * a frame. docs/BENCHMARK.md has all of them; PLANNING A CHOICE says how to plan for a choice on a board. An opening of a board and an
 * ask take the time of one choice, a commit that of one choice and of one run that jumps, or less. The time of a call on a window does
 * not grow with the length of the run: see LAST JOBS. The time of a call for a small trace grows with the position: see SMALL TRACES.
 *
 * WHAT A CALL RETURNS
 *   0 where it answered. Otherwise a refusal, number * 2^32 + place; nolkrada_number and nolkrada_place take it apart.
 *   A refusal leaves every slot of every lent array as it was. An answer fills the first slots of an array, and the slots
 *   past it keep what they held. A window is changed inside its first NOLKRADA_WINDOW_SLOTS slots alone, a board inside its first
 *   NOLKRADA_BOARD_NUMBERS.
 *
 * SHEET
 *   sheet, sheet_length: the numbers of the tasks, P, J, E, D and the mark of task 0, then of task 1, and so on; task 0 has the
 *   highest priority. sheet_length is the number of uint32_t, normally 5 * count. Numbers past the end count as 0, and nothing past
 *   task 31 is read. count: how many tasks the sheet has, 1 to 32.
 *   P (period) and D (deadline) are 1 to 1000000, J (jitter) is 0 to 1000000, E (cost) is 1 to the smaller of P and D.
 *   mark: 0 is high, any other number is low. nolkrada_choice and the calls on a board, which make a choice, do not judge low tasks
 *   where not all tasks fit, and nolkrada_write writes them as kind 6. A commit compares the marks too. Every other call that takes a
 *   sheet ignores them. Where a call writes a mark it is 0 or 1.
 *   struct nolkrada_task has the numbers of one task: pass &tasks[0].period and 5 * count.
 *   charge: the ticks S, 0 to 255, that each job takes besides its cost, for the switch to it; 0 for none. E + S is at most the
 *   smaller of P and D of each task. Verdicts and choices use E + S in place of E, and in a run each job takes its cost plus S.
 *   A charge over 255 is not refused: charge is a uint8_t, and C cuts a larger number to its low byte, 256 to 0. A caller whose
 *   charge may be larger must check it before the call.
 *
 * FRAME
 *   Where the board lends the processor for a part of each frame only. frame, frame_length: the ticks of the frame, the count of its
 *   windows, then the first tick and the length of window 0, of window 1, and so on. frame_length is the number of uint32_t: 0 for no
 *   frame, otherwise normally 2 + 2 * count or NOLKRADA_FRAME_NUMBERS. Numbers past the end count as 0, and nothing past window 15 is
 *   read. struct nolkrada_frame has the same layout: pass &frame.ticks and NOLKRADA_FRAME_NUMBERS.
 *   ticks is 1 to 10000, count 1 to 16; each window is of at least one tick, inside the frame (first + length <= ticks), and starts
 *   after the end of the one before: its first is over the first + length before it, so windows do not touch. Windows past the count
 *   do not matter.
 *   Ours are the ticks from first up to first + length, not including the latter, of each window; the frame repeats from tick 0. In
 *   all other ticks nothing runs. Without a frame every tick is ours; a frame with one window over all its ticks gives the verdicts,
 *   choices and runs of no frame.
 *   nolkrada_verdict, nolkrada_choice, nolkrada_run, nolkrada_jump, nolkrada_board_open, nolkrada_board_ask and nolkrada_board_commit
 *   take a frame. No other call depends on it, and files have none.
 *
 * KEPT JITTERS
 *   kept, kept_length: one K for each task of the sheet, 0 <= K <= J; a call looks at all of them.
 *
 * RELEASES
 *   n releases, at most 1024, in three arrays of at least n slots each, each with its own length: task (its number), tick
 *   (0 to 1000000000000000, never falling along the list) and cost (1 to the task's E, without the charge). Release, ready and
 *   finish ticks have 64 bits, the other numbers of a list 32.
 *
 * FILE
 *   Records, numbers little-endian: a charge first, where there is one, then tasks, then releases with ticks that never fall, then
 *   one end record, then nothing.
 *   Kind 5, charge: S, 1 to 255, one byte (2 bytes with the kind). A file without this record has the charge 0. Kind 1, task: P, J,
 *   E, D, four bytes each (17 bytes); the task is high. Kind 6, low task: as kind 1, with a last byte, which is 0 (18 bytes). Kind 2,
 *   release with a tick up to 1000000000: task number, one byte; tick, four; cost, four (10 bytes). Kind 4, release with a later tick:
 *   task number, one byte; tick, eight; cost, four (14 bytes). Kind 3, end: no body.
 *
 * PROCESSOR
 *   In each of our ticks the highest-priority task's oldest job runs, of the jobs that were ready before that tick and are
 *   unfinished: the kernel looks at the ready list at tick ends only, so a job may run from the tick after its ready tick
 *   (NOLKRADA_PICKUP). FRAME says which ticks are ours. A job is finished when it has run for its cost plus the charge; the charge is
 *   taken once for each job, however often it is interrupted.
 *   Verdicts, choices and runs are about that processor. W(q) is the least t >= 1 with (q + 1) * (E + S) + (the sum over the tasks
 *   above of (E + S) * arrival count in t ticks) <= t, and R(q) = W(q) + 1 + max(x - K, min(0, x)) with x = J - q * P. With a frame
 *   that t on the right side becomes our ticks among t ticks from a start, and W(q) is the largest of these least t over all starts
 *   in the frame.
 *
 * LAST JOBS
 *   For a display of a run: per task the number of jobs among the last 256 (NOLKRADA_WINDOW_JOBS) that were taken, or among all while
 *   there are fewer, how many of them were late, and their largest response. The 256 jobs are those of all tasks together. Each number
 *   is what a fresh count of these jobs gives, however many were taken before: a largest response does not outlast the last of these
 *   jobs that had it.
 *   window, window_length: memory that the caller keeps from call to call, at least 546 uint64_t (NOLKRADA_WINDOW_SLOTS; 4368 bytes).
 *   It is no window of a frame. What its slots mean is left open: only these calls read it, and only nolkrada_monitor_open and
 *   nolkrada_monitor_take change it. It may be copied or stored as a whole, and the copy goes on from there. There may be any number of
 *   windows. As any array that a call writes, a window must not overlap another one; and while one thread is in a call that changes
 *   it, no other thread may be in a call on it.
 *   Open it on a sheet. A job is late where its response is over the D of its task in this sheet, until the window is opened anew.
 *   Then let it take each finished job, in order of finish: its task and its response, finish - tick, which may be any number of 64
 *   bits. A job of a task that is not in the sheet is refused with 14 and is not counted.
 *   Whatever numbers the slots hold, a call ends, touches no memory but what is lent, and answers or is refused. One on a window of
 *   zeros is refused with 5. Where other code wrote to a window, what it shows is about no run.
 *   Taking a job is the same few steps each time. A show, of one task or of all, goes once over the jobs held, at most 256.
 *
 * BOARD
 *   For a task that is added to a board that runs: ask first, then commit. An ask takes the sheet in force with its frame, a new task and
 *   its place, and gives the new sheet and its choice as one record, the offer: the kept jitters can be looked at before anything is
 *   changed. A commit puts an offer in force.
 *   board, board_length: memory that the caller keeps from call to call, at least 264 uint32_t (NOLKRADA_BOARD_NUMBERS; 1056 bytes). It
 *   holds the sheet in force, its charge and its choice, the frame, and the tick of the last commit, as struct nolkrada_board: pass
 *   &board.plan.tasks[0].period and NOLKRADA_BOARD_NUMBERS. nolkrada_board_open writes it, with no commit yet, and then only commits
 *   change it. It may be copied or stored as a whole, and the copy goes on from there. While one thread is in a commit, no other thread
 *   may be in a call on that board.
 *   offer, offer_length: 227 uint32_t (NOLKRADA_OFFER_NUMBERS), as struct nolkrada_offer: pass &offer.tasks[0].period and
 *   NOLKRADA_OFFER_NUMBERS. The sheet that a board holds is `&board.plan.tasks[0].period, NOLKRADA_SHEET_NUMBERS, board.plan.count,
 *   (uint8_t)board.plan.charge`, its frame `&board.frame.ticks, board.framed ? NOLKRADA_FRAME_NUMBERS : 0`. An ask may take them from
 *   there. A commit writes the board, so the sheet and the frame asked of must stand elsewhere: copy the board, ask of the copy, and
 *   commit with the copy.
 *   What a call writes: entries of tasks, kept jitters and worst values past the count are 0, and so are windows past the count of the
 *   frame; marks, `which` and `framed` are 0 or 1; without a frame all numbers of it are 0. What a call reads: numbers past the end of a
 *   row count as 0, a mark, `which` or `framed` other than 0 counts as 1, of a charge the low byte counts, and entries past a count do
 *   not matter.
 *   A commit takes the board, the offer, the sheet and the frame that the offer was asked of, all releases since the last commit and a
 *   tick, `at`. The offer is refused with 19 where the board holds another sheet or frame than the one asked of, as after another commit,
 *   or where no ask on it gives this offer, whatever the task and its place: sheet, kept jitters, worst values and `which` are compared.
 *   The tick is refused with 20 where it is before that of the last commit, or where a job of those releases is finished after it, in
 *   the run with the sheet, the frame and the kept jitters in force. Otherwise the new sheet and its choice are in force from `at` on. A
 *   finish at `at` and releases at the tick of the last commit are allowed. The tick has no limit of its own; but releases have one, so
 *   after a commit over NOLKRADA_MAX_TICK a board takes none.
 *   A commit starts a new run with no earlier jobs. Ticks go on counting from the same tick 0, and the frame repeats from tick 0. At the
 *   tick of a commit no job of the run before is unfinished, and no job of the new run runs in that tick or before it: it is released
 *   at that tick or later and runs from the tick after its ready tick on. The shapers start anew: a job of the new run is not held back
 *   for jobs of the run before. So shares, limits and lateness are claimed from one commit to the next, with the sheet and the choice
 *   that are in force there, for the releases since the commit: what is legal is judged among them alone.
 *   Whatever numbers a board holds, a call ends, touches no memory but what is lent, and answers or is refused. A commit on a board of
 *   zeros, as one that was never opened, is refused with 5.
 *
 * SMALL TRACES
 *   For a test bench: all legal traces of a sheet of at most 3 tasks (NOLKRADA_SMALL_TASKS) with up to `releases` releases, at most 6
 *   (NOLKRADA_SMALL_RELEASES), and ticks below `ticks`, at most 12 (NOLKRADA_SMALL_TICKS). Each release has the full cost E of its task.
 *   A trace is a list of releases that nolkrada_trace_check finds no fault with: any release lies at least max(0, k * P - J) ticks after
 *   the one of its task k places before, for every k. Several jobs of a task in one tick are a trace where J allows it.
 *   Inside a trace releases stand by tick, then task. Fewer releases come first; traces of equal counts are ordered by the first (tick,
 *   task) that differs. Positions count from 0: each trace has one, and the empty trace is at 0. With no release or no tick it is the only
 *   one. There are at most NOLKRADA_SMALL_TRACES.
 *   The columns of a trace may be lent to the calls with a list, with its length as n.
 *   A call for a trace walks over those before it, and one for how many over all, so that its time grows with the position: the last of
 *   NOLKRADA_SMALL_TRACES takes some 0.05 s, and reading all n traces of a sheet takes the time of n * n / 2 steps. Charge and marks change
 *   no trace; the charge is checked.
 *
 * PLANNING A CHOICE
 *   This is about calls without a frame. A verdict takes q = 0, 1, .. and finds each W(q) by a list of t. The first t is
 *   (q + 1) * (E + S) plus one E + S of each task above. The next is the demand in the t before it: (q + 1) * (E + S) + (the sum over
 *   the tasks above of (E + S) * arrival count in t ticks). The list ends where the demand equals t, or where t is over 10000000.
 *   Each t of it is one evaluation, a last one over 10000000 too.
 *   The fourth word of a verdict is the number of its evaluations, over all q that it took. It is at most 100000020000001. With a
 *   frame, also one that is all window, it is 0.
 *   For one q with W(q) up to 10000000 the list is at most as long as 1 + (the arrival counts of the tasks above in W(q) ticks,
 *   added up) - (the number of tasks above).
 *   The evaluations of an ordinary choice that succeeds are those of the verdicts of all tasks at the chosen kept jitters, added up.
 *   One of the high tasks alone (NOLKRADA_HIGH_ONLY) took those of the verdicts of its high tasks and, before, the ordinary choice that
 *   ended in 15. A choice that ends in 15 is not covered, and so that part of one of the high tasks alone is not.
 *   One evaluation for task i goes once over the i tasks above it, so the time of a verdict is about its number * i * a constant.
 *   To plan, make the choice on any machine, ask for these verdicts, and add up number * i over all tasks. Then time one verdict
 *   with many evaluations on the board, divide by its own number * i, and multiply. That is a plan and no promise in time: checks
 *   and the first steps of a call are not in it, which counts where the numbers are small.
 *
 * TEXT
 *   A sheet as text: a line P,J,E,D for each task, task 0 first, in decimal digits without signs, blanks or leading zeros (0 itself
 *   is allowed), each line, the last one too, ended by a line feed (byte 10; a carriage return before it is not allowed). A text has
 *   no charge, and its tasks are high.
 *
 * EVERY LENGTH counts elements, not bytes. An array of length 0 may be any non-null, aligned pointer. Arrays that a call
 * writes must not overlap each other or an array that it reads.
 *
 * REFUSALS (number: condition, place)
 *    1  read: kind byte not 1 to 6; offset of the kind byte
 *    2  read: the file ends inside a record, or where a kind is due; offset of that kind
 *    3  read: task after a release; a second charge, or one after a task or a release; offset of the record
 *    4  over 32 tasks; 32 (read: offset; load: the line. A window or a board that holds such a number: 32. ask: 32 tasks are held; 32.
 *       Small traces: also over 3 tasks; the count)
 *    5  no task: count 0; 0 (read: release or end before any task; offset. load: an empty text; 0. A window or a board that holds
 *       no task, as one of zeros that was never opened: 0)
 *    6  P, J, E or D outside its range; the task (read: offset; also a charge of 0 in kind 5, and a last byte of kind 6 that is not 0.
 *       load: the line, however long a number is. ask: of the new task, its place)
 *    7  release of a task that is not in the sheet; the release (read: offset)
 *    8  tick below the one before, or over 1000000000000000; the release (read: offset; also a tick over 1000000000 in kind 2, and
 *       one up to 1000000000 in kind 4. commit: also a tick of the first release that is below that of the last commit. Small traces:
 *       `ticks` over 12; the number given)
 *    9  cost 0 or over the task's E; the release (read: offset)
 *   10  over 1024 releases; 1024 (read: offset. Small traces: `releases` over 6; the number given)
 *   11  read: a byte follows the end record; its offset
 *   12  some kept jitter is over J; the first such task
 *   13  an array is too short; the slots that it needs (a window: 546; an offer that is written: 227; a board: 264)
 *   14  there is no such task; the number given (a window: in the sheet on which it was opened; ask: a place over the count)
 *   15  choice, and of a board open and ask: no K fits; the first such task, of the high ones alone (see nolkrada_choice)
 *   16  load: a line that is not P,J,E,D and a line feed; the line
 *   17  E + S is over P or over D; the task (read: offset of the task's record; ask: of the new task, its place)
 *   18  frame: ticks not 1 to 10000; 17. Then count not 1 to 16; 16. Then the first window that is empty, ends over the ticks or does
 *       not start after the end of the one before; the window. first + length is taken as a number, without wrapping
 *   19  commit: the board holds another sheet or frame than the one asked of, or no ask on it gives this offer; 0
 *   20  commit: `at` is below the tick of the last commit, or a finish is over it; 0
 * A line is its number in the text, from 0.
 * A call checks, in this order: the sheet (5, 4, then 6 and 17 of task 0, 6 and 17 of task 1, and so on), 18, 14, 10, 13 (arrays
 * by task, then by release, then bytes, then `answer`), 12, the releases in order (7, 8, 9), 15. A read checks the whole file, record
 * by record and the lower number first, and then 13 (`sheet`, then task, tick and cost, then `answer`). A load checks the whole text,
 * line by line: 16, then 4, then 6 on a line, 5 where there is none; and then 13 (`sheet`, then `answer`). nolkrada_monitor_open checks
 * the sheet and then 13. The other calls on a window check the window (13, then 5, then 4), then 14, then 13 (`answer`; jobs, then late,
 * then largest). nolkrada_board_open checks the sheet, 18, 13 (`board`), 15. nolkrada_board_ask checks the sheet held, 18, 14, then the
 * new sheet (4, then 6 and 17 of the new task), 13 (`offer`), 15. nolkrada_board_commit checks the sheet and the frame that the board
 * holds (5, 4, 6 and 17, 18), 10, 13 (task, tick, cost, then `board`), 12 of the kept jitters that it holds, the releases in order (7, 8,
 * 9), 19, 20; of a board that calls alone have changed 5, 4, 6, 17, 18 and 12 do not come up. The offer and what it was asked of meet no
 * check but 19. nolkrada_small_trace checks the sheet (5, 4, 6 and 17), then 4 for more than 3 tasks, 10, 8, then 13 of a trace that exists
 * (task, tick, cost), and last 13 (`answer`), also where there is no trace at the position. nolkrada_small_trace_count checks the same up to
 * 8 and then 13 (`answer`).
 */
#ifndef NOLKRADA_H
#define NOLKRADA_H

#include <stddef.h>
#include <stdint.h>

#ifdef __cplusplus
extern "C" {
#endif

/* The version of this interface. The archive has no symbol for it: take header and archive of one build. */
#define NOLKRADA_VERSION_MAJOR 0
#define NOLKRADA_VERSION_MINOR 12
#define NOLKRADA_VERSION_PATCH 0
#define NOLKRADA_VERSION "0.12.0"

/* Tasks of a sheet, numbers of a task (P, J, E, D and mark) and of a sheet that is read or loaded (those of 32 tasks), releases of a
 * list. */
#define NOLKRADA_MAX_TASKS 32
#define NOLKRADA_TASK_NUMBERS 5
#define NOLKRADA_SHEET_NUMBERS 160
#define NOLKRADA_MAX_RELEASES 1024
/* The largest charge. */
#define NOLKRADA_MAX_CHARGE 255
/* The last tick of a release, and the last of one that is written as kind 2; later ones are written as kind 4. */
#define NOLKRADA_MAX_TICK UINT64_C(1000000000000000)
#define NOLKRADA_MAX_SHORT_TICK UINT64_C(1000000000)
/* Ticks and windows of a frame, and the numbers of one with all its windows. */
#define NOLKRADA_MAX_FRAME 10000
#define NOLKRADA_MAX_WINDOWS 16
#define NOLKRADA_FRAME_NUMBERS 34
/* The largest finish: 1024 jobs, whose cost and charge are 1000000 together, released at the last tick, with one tick of ours in each
 * frame of 10000. Without a frame it is 1000001024000001. */
#define NOLKRADA_MAX_FINISH UINT64_C(1010240000000001)
/* Ticks from a job's ready tick to the first in which it may run. */
#define NOLKRADA_PICKUP 1
/* The most stops of a run that jumps: a ready tick plus 1 and a finish for each release. */
#define NOLKRADA_MAX_STOPS 2048
/* Bytes of the largest file: 2 for a charge, 18 for each low task, 14 for each release with a tick over NOLKRADA_MAX_SHORT_TICK, 1
 * for the end. nolkrada_write writes no more. */
#define NOLKRADA_MAX_FILE 14915
/* Bytes that decide a read: none past these changes what it answers. Make a buffer that is filled from an input this long: one of
 * NOLKRADA_MAX_FILE bytes may hold a whole file and miss the byte that follows it, which is refusal 11. */
#define NOLKRADA_READ_BYTES 14932
/* Bytes of the longest text that is accepted: 32 lines of four numbers of 7 digits, three commas and a line feed. A longer text is
 * refused; what its refusal is may depend on every byte. Make a buffer that is filled from an input one byte longer: the first
 * NOLKRADA_MAX_TEXT bytes of a longer text may be accepted, the first NOLKRADA_MAX_TEXT + 1 never are. */
#define NOLKRADA_MAX_TEXT 1024
/* The jobs that a window counts, and its slots, uint64_t each. */
#define NOLKRADA_WINDOW_JOBS 256
#define NOLKRADA_WINDOW_SLOTS 546
/* The numbers of an offer and of a board. */
#define NOLKRADA_OFFER_NUMBERS 227
#define NOLKRADA_BOARD_NUMBERS 264
/* Tasks, releases and ticks of small traces, and how many of them there are at most. */
#define NOLKRADA_SMALL_TASKS 3
#define NOLKRADA_SMALL_RELEASES 6
#define NOLKRADA_SMALL_TICKS 12
#define NOLKRADA_SMALL_TRACES 5245786

/* The numbers of the refusals. NOLKRADA_REFUSED_TASK_AFTER_RELEASE is also that of a charge that is not the first record. */
enum {
    NOLKRADA_REFUSED_KIND = 1,
    NOLKRADA_REFUSED_CUT = 2,
    NOLKRADA_REFUSED_TASK_AFTER_RELEASE = 3,
    NOLKRADA_REFUSED_TOO_MANY_TASKS = 4,
    NOLKRADA_REFUSED_NO_TASK = 5,
    NOLKRADA_REFUSED_RANGE = 6,
    NOLKRADA_REFUSED_RELEASE_TASK = 7,
    NOLKRADA_REFUSED_RELEASE_TICK = 8,
    NOLKRADA_REFUSED_RELEASE_COST = 9,
    NOLKRADA_REFUSED_TOO_MANY_RELEASES = 10,
    NOLKRADA_REFUSED_BYTE_AFTER_END = 11,
    NOLKRADA_REFUSED_KEPT = 12,
    NOLKRADA_REFUSED_SHORT_ARRAY = 13,
    NOLKRADA_REFUSED_NO_SUCH_TASK = 14,
    NOLKRADA_REFUSED_UNFIT = 15,
    NOLKRADA_REFUSED_LINE = 16,
    NOLKRADA_REFUSED_CHARGE = 17,
    NOLKRADA_REFUSED_FRAME = 18,
    NOLKRADA_REFUSED_STALE = 19,
    NOLKRADA_REFUSED_TOO_SOON = 20
};

/* A task as the calls take it, for callers that fill a struct: see SHEET. */
struct nolkrada_task {
    uint32_t period;
    uint32_t jitter;
    uint32_t cost;
    uint32_t deadline;
    uint32_t mark;
};

/* A frame as the calls take it, for callers that fill a struct: see FRAME. */
struct nolkrada_frame {
    uint32_t ticks;
    uint32_t count;
    struct {
        uint32_t first;
        uint32_t length;
    } windows[NOLKRADA_MAX_WINDOWS];
};

/* An offer: a sheet, its charge and its choice. which is NOLKRADA_ORDINARY or NOLKRADA_HIGH_ONLY. */
struct nolkrada_offer {
    struct nolkrada_task tasks[NOLKRADA_MAX_TASKS];
    uint32_t count;
    uint32_t charge;
    uint32_t which;
    uint32_t kept[NOLKRADA_MAX_TASKS];
    uint32_t worst[NOLKRADA_MAX_TASKS];
};

/* A board: the sheet and the choice in force, whether there is a frame, the frame, and the low and the high 32 bits of the tick of the
 * last commit, 0 where there is none yet: see BOARD. */
struct nolkrada_board {
    struct nolkrada_offer plan;
    uint32_t framed;
    struct nolkrada_frame frame;
    uint32_t last_low;
    uint32_t last_high;
};

/* The tick of the last commit of a board, 0 where there is none yet. */
static inline uint64_t nolkrada_board_last(const struct nolkrada_board *board) {
    return (uint64_t)board->last_high << 32 | board->last_low;
}

/* The number and the place of a refusal. */
static inline uint32_t nolkrada_number(uint64_t code) { return (uint32_t)(code >> 32); }
static inline uint32_t nolkrada_place(uint64_t code) { return (uint32_t)code; }

/* Arrival count of a task in t ticks: 0 for t = 0, else ceil((t + K) / P). The charge is checked and changes no count.
 * answer: 1 slot, the count.                                                                      Refuses 5 4 6 17 14 13 12. */
uint64_t nolkrada_arrival_count(const uint32_t *sheet, size_t sheet_length, uint32_t count, uint8_t charge, uint32_t task,
                                const uint32_t *kept, size_t kept_length, uint32_t t, uint64_t *answer, size_t answer_length);

enum { NOLKRADA_HORIZON = 0, NOLKRADA_LATE = 1, NOLKRADA_FITS = 2 };

/* Verdict of a task.
 * answer: 4 slots. NOLKRADA_HORIZON, q, 0, n: no W(q) up to 10000000 ticks, and nothing is claimed. NOLKRADA_LATE, q, R(q), n: some
 * legal list of releases makes a job of the task late. NOLKRADA_FITS, q, R, n: no job of the task is late in any list in which its
 * own releases keep its jitter, whatever the other tasks release; R is the largest response bound met and q the first that had it.
 * n is the number of evaluations, at least 1, and 0 with a frame: see PLANNING A CHOICE.       Refuses 5 4 6 17 18 14 13 12. */
uint64_t nolkrada_verdict(const uint32_t *sheet, size_t sheet_length, uint32_t count, uint8_t charge, const uint32_t *frame,
                          size_t frame_length, uint32_t task, const uint32_t *kept, size_t kept_length, uint64_t *answer,
                          size_t answer_length);

enum { NOLKRADA_ORDINARY = 0, NOLKRADA_HIGH_ONLY = 1 };

/* Choice: from task 0 down the least K at which the verdict is "fits", given the choices above. This is the ordinary choice. Where it
 * ends in 15 the choice is made anew with every low task kept at 0 and not judged; 15 then names the first high task that fits at no
 * K. For its time see PLANNING A CHOICE.
 * kept, worst: `count` slots each, written: the kept jitters and the largest response bounds, 0 for a task that was not judged.
 * answer: 1 slot. NOLKRADA_ORDINARY: every task was judged, and no job of any task whose own releases keep its jitter is late,
 * whatever the other tasks release. NOLKRADA_HIGH_ONLY: the ordinary choice ended in 15, and this is the one with every low task kept
 * at 0 and not judged. The worst value of a low task is then 0, and nothing is promised about its lateness; no job of a high task
 * whose own releases keep its jitter is late, whatever all other tasks release.
 * No smaller kept jitters do, at any task: where some make every task fit, by nolkrada_verdict, the choice is ordinary, and none of its
 * K is over theirs for the same task. Where it ends in 15, none make every high task down to that one fit. Refuses 5 4 6 17 18 13 15. */
uint64_t nolkrada_choice(const uint32_t *sheet, size_t sheet_length, uint32_t count, uint8_t charge, const uint32_t *frame,
                         size_t frame_length, uint32_t *kept, size_t kept_length, uint32_t *worst, size_t worst_length,
                         uint64_t *answer, size_t answer_length);

/* Trace check: whether the releases keep the jitters of their tasks. The charge is checked and changes no answer.
 * answer: 2 slots. 0, 0: they do. 1, p: release p is the first that is too close to an earlier one of its task.
 *                                                                                          Refuses 5 4 6 17 10 13 7 8 9. */
uint64_t nolkrada_trace_check(const uint32_t *sheet, size_t sheet_length, uint32_t count, uint8_t charge, uint32_t n,
                              const uint32_t *task, size_t task_length, const uint64_t *tick, size_t tick_length,
                              const uint32_t *cost, size_t cost_length, uint64_t *answer, size_t answer_length);

/* Ready ticks: when the shapers let each job through. The charge is checked and changes no ready tick.
 * ready: n slots, written.                                                             Refuses 5 4 6 17 10 13 12 7 8 9. */
uint64_t nolkrada_ready(const uint32_t *sheet, size_t sheet_length, uint32_t count, uint8_t charge, const uint32_t *kept,
                        size_t kept_length, uint32_t n, const uint32_t *task, size_t task_length, const uint64_t *tick,
                        size_t tick_length, const uint32_t *cost, size_t cost_length, uint64_t *ready, size_t ready_length);

/* Run: ready and finish tick of each job, from tick 0 with no earlier job. A job takes its cost plus the charge, in our ticks. Finish
 * is the last tick in which the job ran, plus 1; response is finish - tick. No finish is over NOLKRADA_MAX_FINISH. The time grows with
 * the last finish: see above.
 * ready, finish: n slots each, written.                                             Refuses 5 4 6 17 18 10 13 12 7 8 9. */
uint64_t nolkrada_run(const uint32_t *sheet, size_t sheet_length, uint32_t count, uint8_t charge, const uint32_t *frame,
                      size_t frame_length, const uint32_t *kept, size_t kept_length, uint32_t n, const uint32_t *task,
                      size_t task_length, const uint64_t *tick, size_t tick_length, const uint32_t *cost, size_t cost_length,
                      uint64_t *ready, size_t ready_length, uint64_t *finish, size_t finish_length);

/* Run that jumps: the ready and finish ticks of nolkrada_run for every sheet, frame and list and, where answer has its slot, its
 * refusals. It goes from one tick that is a ready tick plus 1 or a finish to the next, so its time grows with releases, tasks and
 * windows and not with the ticks.
 * ready, finish: n slots each, written. answer: 1 slot, the stops: how many different ticks are a ready tick plus 1 or a finish,
 * 0 without a release, at most NOLKRADA_MAX_STOPS.                                  Refuses 5 4 6 17 18 10 13 12 7 8 9. */
uint64_t nolkrada_jump(const uint32_t *sheet, size_t sheet_length, uint32_t count, uint8_t charge, const uint32_t *frame,
                       size_t frame_length, const uint32_t *kept, size_t kept_length, uint32_t n, const uint32_t *task,
                       size_t task_length, const uint64_t *tick, size_t tick_length, const uint32_t *cost, size_t cost_length,
                       uint64_t *ready, size_t ready_length, uint64_t *finish, size_t finish_length, uint64_t *answer,
                       size_t answer_length);

/* Read a file. Lend it whole, or its first NOLKRADA_READ_BYTES bytes.
 * sheet: NOLKRADA_SHEET_NUMBERS slots, all written; entries past the count are 0. task, tick, cost: a slot for each release,
 * written: NOLKRADA_MAX_RELEASES slots take any file.
 * answer: 3 slots, the tasks, the releases and the charge of the file; the charge is 0 where the file has none.
 *                                                                                                 Refuses 1 to 11, 13, 17. */
uint64_t nolkrada_read(const uint8_t *file, size_t file_length, uint32_t *sheet, size_t sheet_length, uint32_t *task,
                       size_t task_length, uint64_t *tick, size_t tick_length, uint32_t *cost, size_t cost_length,
                       uint64_t *answer, size_t answer_length);

/* Write a file: 2 bytes for a charge that is not 0, 17 for each high task and 18 for each low one, 10 for each release with a tick
 * up to NOLKRADA_MAX_SHORT_TICK and 14 for each other, 1 for the end. The charge is the first record. 13 comes before 7, 8 and 9 and
 * counts the bytes by the marks and ticks as they are given, 14 for a tick over the limit too.
 * out: the bytes, written. answer: 1 slot, how many.                                          Refuses 5 4 6 17 10 13 7 8 9. */
uint64_t nolkrada_write(const uint32_t *sheet, size_t sheet_length, uint32_t count, uint8_t charge, uint32_t n,
                        const uint32_t *task, size_t task_length, const uint64_t *tick, size_t tick_length, const uint32_t *cost,
                        size_t cost_length, uint8_t *out, size_t out_length, uint64_t *answer, size_t answer_length);

/* Load a text, which has no charge and no marks: every task is high. Lend it whole.
 * sheet: NOLKRADA_SHEET_NUMBERS slots, all written; entries past the count are 0.
 * answer: 1 slot, the tasks of the text.                                                                Refuses 16 4 6 5 13. */
uint64_t nolkrada_load(const uint8_t *text, size_t text_length, uint32_t *sheet, size_t sheet_length, uint64_t *answer,
                       size_t answer_length);

/* Open a window on a sheet: no job. What the window held does not matter. The charge is checked and changes nothing that is shown.
 * window: NOLKRADA_WINDOW_SLOTS slots, some of them written.                                            Refuses 5 4 6 17 13. */
uint64_t nolkrada_monitor_open(const uint32_t *sheet, size_t sheet_length, uint32_t count, uint8_t charge, uint64_t *window,
                               size_t window_length);

/* Take one finished job, the last one so far. From the 257th on it takes the place of the oldest.
 * window: NOLKRADA_WINDOW_SLOTS slots, some of them written.                                                Refuses 13 5 4 14. */
uint64_t nolkrada_monitor_take(uint64_t *window, size_t window_length, uint32_t task, uint64_t response);

/* Show one task. The window is not changed.
 * answer: 3 slots, written: the jobs of the task among the last 256, how many of them were late, and their largest response, 0 where
 * there is no job.                                                                            Refuses 13 5 4 14, 13 for `answer`. */
uint64_t nolkrada_monitor_show(const uint64_t *window, size_t window_length, uint32_t task, uint64_t *answer, size_t answer_length);

/* Show all tasks, each as nolkrada_monitor_show does. The window is not changed.
 * jobs, late, largest: a slot for each task of the sheet on which the window was opened, written; NOLKRADA_MAX_TASKS slots take any.
 *                                                                                           Refuses 13 5 4, 13 for the columns. */
uint64_t nolkrada_monitor_show_all(const uint64_t *window, size_t window_length, uint32_t *jobs, size_t jobs_length, uint32_t *late,
                                   size_t late_length, uint64_t *largest, size_t largest_length);

/* Open a board with a sheet, its frame and its choice, which is the one that nolkrada_choice makes. No commit was made: the last tick
 * is 0. What the board held does not matter.
 * board: NOLKRADA_BOARD_NUMBERS slots, all written.                                                Refuses 5 4 6 17 18 13 15. */
uint64_t nolkrada_board_open(const uint32_t *sheet, size_t sheet_length, uint32_t count, uint8_t charge, const uint32_t *frame,
                             size_t frame_length, uint32_t *board, size_t board_length);

/* Ask for a new task: what the sheet becomes with it and what its choice is then. Nothing but the offer is written.
 * sheet, frame: those held. task: P, J, E, D and mark of the new task, numbers past the end count as 0. place: its priority place, 0 for
 * above all tasks, `count` for below them; the tasks from there on come one lower. The new sheet has the charge and the frame of the one
 * held.
 * offer: NOLKRADA_OFFER_NUMBERS slots, all written.                            Refuses 5 4 6 17 18, 14, 4 6 17 of the new sheet, 13 15. */
uint64_t nolkrada_board_ask(const uint32_t *sheet, size_t sheet_length, uint32_t count, uint8_t charge, const uint32_t *frame,
                            size_t frame_length, const uint32_t *task, size_t task_length, uint32_t place, uint32_t *offer,
                            size_t offer_length);

/* Commit an offer at a tick. sheet, count, charge, frame: what the offer was asked of. n, task, tick, cost: the releases since the last
 * commit, with numbers of the tasks of the sheet in force, and ticks that count from the same tick 0 as ever.
 * board: NOLKRADA_BOARD_NUMBERS slots, all written: sheet and choice of the offer, the frame that was held, and `at` as the tick of the
 * last commit.                                                       Refuses 5 4 6 17 18 10 13 12 7 8 9 19 20: see REFUSALS and BOARD. */
uint64_t nolkrada_board_commit(uint32_t *board, size_t board_length, const uint32_t *offer, size_t offer_length, const uint32_t *sheet,
                               size_t sheet_length, uint32_t count, uint8_t charge, const uint32_t *frame, size_t frame_length,
                               uint32_t n, const uint32_t *task, size_t task_length, const uint64_t *tick, size_t tick_length,
                               const uint32_t *cost, size_t cost_length, uint64_t at);

/* The small trace at a position: see SMALL TRACES.
 * task, tick, cost: a slot for each release of the trace, written where there is one; NOLKRADA_SMALL_RELEASES slots take any.
 * answer: 2 slots. 1, n: there is a trace at the position, of n releases. 0, 0: the position is past the last one, and the columns are
 * as they were.                                                              Refuses 5 4 6 17, 4 10 8, 13 of a trace that exists, 13. */
uint64_t nolkrada_small_trace(const uint32_t *sheet, size_t sheet_length, uint32_t count, uint8_t charge, uint32_t releases,
                              uint32_t ticks, uint64_t position, uint32_t *task, size_t task_length, uint64_t *tick, size_t tick_length,
                              uint32_t *cost, size_t cost_length, uint64_t *answer, size_t answer_length);

/* How many small traces there are.
 * answer: 1 slot, the number, at least 1: the last one is at the position before it.                        Refuses 5 4 6 17, 4 10 8 13. */
uint64_t nolkrada_small_trace_count(const uint32_t *sheet, size_t sheet_length, uint32_t count, uint8_t charge, uint32_t releases,
                                    uint32_t ticks, uint64_t *answer, size_t answer_length);

#ifdef __cplusplus
}
#endif

#endif
