//! The cases of `vectors_run`: the ticking run, then the run that jumps on the same case, with columns of its own that held the
//! same; or the run that jumps alone.

use crate::case::*;
use crate::lists::*;
use crate::reference::{check_run, finish_by_tick, jump, ready_ticks, run, Frame, Release, Sheet, MAX_TICK};

/// The last tick of a case that is made by the ticking run too, which goes through all of them.
const LAST_TICKED: u64 = 1_000_000_000;

/// Whether the run that jumps makes a case alone, since the ticks are too many. What is refused both make.
fn alone(c: &ListCall) -> bool {
    let checked = check_run(&c.sheet, &c.kept, c.count, &c.columns(), c.ready.len(), c.finish.len());
    checked.is_ok_and(|list| list.iter().any(|r| r.tick > LAST_TICKED))
}

/// The line of both runs, or of the one that jumps. The reference has a method for each, and both give the same columns and the same
/// refusals.
fn answer(c: &ListCall) -> String {
    let (ready_slots, finish_slots) = (c.ready.len(), c.finish.len());
    let ticked = run(&c.sheet, &c.kept, c.count, &c.columns(), ready_slots, finish_slots);
    let jumped = jump(&c.sheet, &c.kept, c.count, &c.columns(), ready_slots, finish_slots);
    assert_eq!(ticked, jumped.clone().map(|j| (j.ready, j.finish)));
    match jumped {
        Err(r) => {
            let half = refused(r) + &column(&c.ready) + &column(&c.finish);
            format!("{half};{half}")
        }
        Ok(j) if alone(c) => line_alone(&after(c, &j.ready, &j.finish), j.stops),
        Ok(j) => line(&after(c, &j.ready, &j.finish), j.stops),
    }
}

/// The two columns after a run that is not refused.
fn after(c: &ListCall, ready: &[u64], finish: &[u64]) -> String {
    column(&written(ready, &c.ready)) + &column(&written(finish, &c.finish))
}

/// The line of a case that is not refused: the columns after each run, and the stops of the one that jumps.
fn line(columns: &str, stops: u64) -> String {
    format!(" fine{columns};{}", line_alone(columns, stops))
}

/// The same of the run that jumps alone.
fn line_alone(columns: &str, stops: u64) -> String {
    format!(" {stops} stops{columns}")
}

/// Call 0 is both runs, call 1 the run that jumps.
fn blocks(c: &ListCall) -> Vec<Vec<u8>> {
    let mut all = framed_head(alone(c) as u32, &[c.count as u32], &c.sheet);
    all.push(numbers(&c.kept));
    all.extend(c.list_blocks());
    all.push(numbers(&c.ready));
    all.push(numbers(&c.finish));
    all
}

/// The printed example, with the kept jitters that document 01 prints and with D 11, and sum 12.
fn worked(v: &mut Vectors) {
    let mut add = |label: &str, c: &ListCall, columns: &str, stops: u64| {
        v.worked(label, &blocks(c), &answer(c), &line(columns, stops));
    };
    let printed = ListCall::of(&printed_sheet(), &[1, 3, 0], &printed_list());
    add("printed example", &printed, ", 0 0 5 - -, 3 5 8 - -", 5);
    let folder = ListCall::of(&folder_sheet(), &[2, 4, 0], &printed_list());
    add("printed example, D 11", &folder, ", 0 0 4 - -, 3 5 7 - -", 4);
    add("sum 12, no release", &ListCall::of(&printed_sheet(), &[1, 3, 0], &[]), ", - -, - -", 0);
    let one = |c: u32| ListCall::of(&sheet(&[(6, 1, 4, 6)]), &[1], &list(&[(0, 3, c)]));
    add("sum 12, one release", &one(1), ", 3 - -, 5 - -", 2);
    add("sum 12, one release of cost 4", &one(4), ", 3 - -, 8 - -", 2);
}

/// A job may run from the tick after its ready tick. The kept jitters let three jobs of a task be ready at once, so that ready is
/// release.
fn picked_up(v: &mut Vectors) {
    let three = sheet(&[(50, 200, 20, 50), (60, 200, 20, 90), (70, 200, 20, 99)]);
    let mut add = |label: &str, releases: &[(u32, u64, u32)], columns: &str, stops: u64| {
        let c = ListCall::of(&three, &[200, 200, 200], &list(releases));
        v.worked(&format!("pickup, {label}"), &blocks(&c), &answer(&c), &line(columns, stops));
    };
    add("nothing runs in tick 0", &[(0, 0, 1)], ", 0 - -, 2 - -", 2);
    // One after the other without an idle tick: ticks 1 and 2, 3 and 4, 5 and 6.
    add("three tasks at tick 0", &[(2, 0, 2), (1, 0, 2), (0, 0, 2)], ", 0 0 0 - -, 7 5 3 - -", 4);
    add("three jobs of a task at tick 0", &[(1, 0, 2), (1, 0, 2), (1, 0, 2)], ", 0 0 0 - -, 3 5 7 - -", 4);
    // Task 2 runs in tick 1, task 0 in ticks 2 and 3, task 2 in ticks 4 and 5.
    add("ready in the tick in which a lower one starts", &[(2, 0, 3), (0, 1, 2)], ", 0 1 - -, 6 4 - -", 4);
    // Task 2 runs in ticks 1 and 2, task 0 in ticks 3 and 4, task 2 in tick 5.
    add("ready while a lower one runs", &[(2, 0, 3), (0, 2, 2)], ", 0 2 - -, 6 5 - -", 4);
    // Task 2 runs in ticks 1 to 3, and is not preempted any more.
    add("ready in the last tick of a lower one", &[(2, 0, 3), (0, 3, 2)], ", 0 3 - -, 4 6 - -", 3);
    // Tick 4 is idle.
    add("ready at the finish of a lower one", &[(2, 0, 3), (0, 4, 2)], ", 0 4 - -, 4 7 - -", 4);
    add("ready in the last tick of a higher one", &[(0, 0, 3), (2, 3, 2)], ", 0 3 - -, 4 6 - -", 3);
    add("ready at the finish of a higher one", &[(0, 0, 3), (2, 4, 2)], ", 0 4 - -, 4 7 - -", 4);
    add("ready in the last tick of the job before", &[(1, 0, 3), (1, 3, 2)], ", 0 3 - -, 4 6 - -", 3);
    add("ready at the finish of the job before", &[(1, 0, 3), (1, 4, 2)], ", 0 4 - -, 4 7 - -", 4);
    // Task 1 runs in ticks 1, 4 and 7: before, between and after the two jobs of task 0.
    add("between two higher ones", &[(1, 0, 3), (0, 1, 2), (0, 4, 2)], ", 0 1 4 - -, 8 4 7 - -", 6);
    // Task 1 may run from tick 6, task 0 from tick 7.
    add("a higher one a tick later", &[(1, 5, 2), (0, 6, 2)], ", 5 6 - -, 10 9 - -", 4);
    add("a higher one in the same tick", &[(1, 5, 2), (0, 5, 2)], ", 5 5 - -, 10 8 - -", 3);
    // Held: with K 0 the second job of task 0 is ready at 50, where task 2 has run in tick 50 alone.
    let held = ListCall::of(&three, &[0, 0, 0], &list(&[(0, 0, 5), (0, 1, 5), (2, 49, 3)]));
    v.worked("pickup, held", &blocks(&held), &answer(&held), &line(", 0 50 49 - -, 6 56 58 - -", 6));
}

fn four_tasks() -> Sheet {
    sheet(&[(50, 200, 20, 50), (60, 200, 20, 90), (70, 200, 20, 99), (80, 200, 20, 99)])
}

/// Stops of the run that jumps. Before a case stand the different ticks that are a start, which is a ready tick plus 1, or a
/// finish. The kept jitters let three jobs of a task be ready at once, so that ready is release.
fn jumps(v: &mut Vectors) {
    let four = four_tasks();
    let mut add = |label: &str, releases: &[(u32, u64, u32)], columns: &str, stops: u64| {
        let c = ListCall::of(&four, &[200; 4], &list(releases));
        v.worked(&format!("jump, {label}"), &blocks(&c), &answer(&c), &line(columns, stops));
    };
    // 1, 3, 5, 8: task 3 runs in ticks 1 and 2, and from 5 on.
    add("a higher one interrupts", &[(3, 0, 5), (0, 2, 2)], ", 0 2 - -, 8 5 - -", 4);
    // 1, 2, 3, 4, 5, 9: task 3 runs in ticks 1 and 3, and from 5 on. The stop at 3 is a finish, the one at 4 a start.
    add("interrupted twice", &[(3, 0, 6), (0, 1, 1), (0, 3, 1)], ", 0 1 3 - -, 9 3 5 - -", 6);
    // 1, 2, 4, 6, 11: task 1 starts at 4, where task 0 is finished, and task 3 goes on at 6.
    add("interrupted by two without a tick between", &[(3, 0, 6), (0, 1, 2), (1, 3, 2)], ", 0 1 3 - -, 11 4 6 - -", 5);
    // 1, 2, 3, 4, 8, 11, 14, 17: each has run for one tick when the next starts.
    add(
        "chain of four, each interrupted by the next",
        &[(3, 0, 4), (2, 1, 4), (1, 2, 4), (0, 3, 4)],
        ", 0 1 2 3 - -, 17 14 11 8 - -",
        8,
    );
    // 8, 10, 13, 17.
    add("one stop for three tasks ready at once", &[(0, 7, 2), (1, 7, 3), (2, 7, 4)], ", 7 7 7 - -, 10 13 17 - -", 4);
    // 5, 7, 9, 12.
    add("one stop for three jobs of a task ready at once", &[(1, 4, 2), (1, 4, 2), (1, 4, 3)], ", 4 4 4 - -, 7 9 12 - -", 4);
    // 5, 7, 9, 10, 13: both jobs of task 1, then those of task 2.
    add(
        "one stop for two jobs of each of two tasks",
        &[(2, 4, 1), (1, 4, 2), (1, 4, 2), (2, 4, 3)],
        ", 4 4 4 4 - -, 10 7 9 13 - -",
        5,
    );
    // 1, 5, 7.
    add("a higher one starts at a finish", &[(1, 0, 4), (0, 4, 2)], ", 0 4 - -, 5 7 - -", 3);
    add("a lower one starts at a finish", &[(0, 0, 4), (3, 4, 2)], ", 0 4 - -, 5 7 - -", 3);
    add("the next job of the task starts at a finish", &[(2, 0, 4), (2, 4, 2)], ", 0 4 - -, 5 7 - -", 3);
    // 1, 2, 5, 7, 10: task 2 waits from 2 on, and task 1, which starts at 5, goes before it.
    add("a job starts at a finish before a lower one that waits", &[(0, 0, 4), (2, 1, 3), (1, 4, 2)], ", 0 1 4 - -, 5 10 7 - -", 5);
    // 1, 2, 5, 8, 10: task 1 waits from 2 on, and goes before task 2, which starts at 5.
    add("a job starts at a finish after a higher one that waits", &[(0, 0, 4), (1, 1, 3), (2, 4, 2)], ", 0 1 4 - -, 5 8 10 - -", 5);
    // 1, 3, 7, 9: at 3 the same job runs on.
    add("a lower one starts while a job runs", &[(0, 0, 6), (3, 2, 2)], ", 0 2 - -, 7 9 - -", 4);
    add("the next job of the task starts while a job runs", &[(1, 0, 6), (1, 2, 2)], ", 0 2 - -, 7 9 - -", 4);
    // 1, 2, 3, 4, 7, 8, 9, 10.
    add(
        "three lower ones start while a job runs, the lowest first",
        &[(0, 0, 6), (3, 1, 1), (2, 2, 1), (1, 3, 1)],
        ", 0 1 2 3 - -, 7 10 9 8 - -",
        8,
    );
    // 10, 12, 15.
    add("ready at once, the lower one first in the list", &[(2, 9, 3), (0, 9, 2)], ", 9 9 - -, 15 12 - -", 3);
    // 4, 5, 6, 7, 9.
    add(
        "ready at once, the lowest one first in the list",
        &[(3, 3, 2), (0, 3, 1), (1, 3, 1), (2, 3, 1)],
        ", 3 3 3 3 - -, 9 5 6 7 - -",
        5,
    );
    // 1, 3, 4, 6: tick 3 is idle.
    add("one idle tick", &[(0, 0, 2), (1, 3, 2)], ", 0 3 - -, 3 6 - -", 4);
    // Ticks 3 to 1,000,002 are idle.
    add("1000000 idle ticks", &[(0, 0, 2), (1, 1_000_002, 2)], ", 0 1000002 - -, 3 1000005 - -", 4);
    add("two releases, ticks 0 and 2000000", &[(0, 0, 2), (0, 2_000_000, 2)], ", 0 2000000 - -, 3 2000003 - -", 4);
    add("one release, tick 5000000", &[(2, 5_000_000, 3)], ", 5000000 - -, 5000004 - -", 2);
    add("two releases, ticks 0 and 1000000000", &[(3, 0, 1), (0, 1_000_000_000, 20)], ", 0 1000000000 - -, 2 1000000021 - -", 4);
}

/// The run that jumps alone, on ticks that are too many for the ticking run.
fn late_jumps(v: &mut Vectors) {
    let mut add = |label: &str, c: &ListCall, columns: &str, stops: u64| {
        v.worked(&format!("alone, {label}"), &blocks(c), &answer(c), &line_alone(columns, stops));
    };
    let four = four_tasks();
    let open = |releases: &[(u32, u64, u32)]| ListCall::of(&four, &[200; 4], &list(releases));
    let held = |releases: &[(u32, u64, u32)]| ListCall::of(&four, &[0; 4], &list(releases));
    let two = open(&[(3, 0, 1), (0, MAX_TICK, 20)]);
    add("two releases, tick 0 and the limit", &two, ", 0 1000000000000000 - -, 2 1000000000000021 - -", 4);
    let one = open(&[(2, MAX_TICK, 3)]);
    add("one release at the limit", &one, ", 1000000000000000 - -, 1000000000000004 - -", 2);
    // Starts 4294967294 and 4294967298, finishes 4294967300 and 4294967304: task 3 has run for four ticks when it is interrupted.
    let across = open(&[(3, 4_294_967_293, 8), (0, 4_294_967_297, 2)]);
    add("interrupted past 4294967296", &across, ", 4294967293 4294967297 - -, 4294967304 4294967300 - -", 4);
    // Starts 4294967296 twice, finishes 4294967298 and 4294967301.
    let at_once = open(&[(2, 4_294_967_295, 3), (0, 4_294_967_295, 2)]);
    add("ready at once at 4294967295", &at_once, ", 4294967295 4294967295 - -, 4294967301 4294967298 - -", 3);
    // The first is finished at 4294967296, where the second starts.
    let touching = open(&[(0, 4_294_967_291, 4), (3, 4_294_967_295, 2)]);
    add("a start and a finish at 4294967296", &touching, ", 4294967291 4294967295 - -, 4294967296 4294967298 - -", 3);
    // A gap of 5000000000 ticks between two that are both long.
    let gap = open(&[(0, 5_000_000_000, 2), (1, 10_000_000_000, 2)]);
    add("a gap of 5000000000 ticks", &gap, ", 5000000000 10000000000 - -, 5000000003 10000000003 - -", 4);
    // Ticks 0, 1000000000, 1000000001 and the limit.
    let row = open(&[(0, 0, 1), (1, 1_000_000_000, 1), (2, 1_000_000_001, 1), (3, MAX_TICK, 1)]);
    let columns = ", 0 1000000000 1000000001 1000000000000000 - -, 2 1000000002 1000000003 1000000000000002 - -";
    add("ticks of both kinds", &row, columns, 7);
    // The second job of task 0 is held for 50 ticks, past the limit; task 3 runs in between.
    let past = held(&[(0, MAX_TICK, 5), (0, MAX_TICK, 5), (3, MAX_TICK, 10)]);
    let columns = ", 1000000000000000 1000000000000050 1000000000000000 - -, 1000000000000006 1000000000000056 1000000000000016 - -";
    add("held past the limit", &past, columns, 5);
    // 1024 jobs of the largest cost, each starts at the finish of the one before: the largest ready tick and the largest finish.
    let largest = sheet(&[(1_000_000, 0, 1_000_000, 1_000_000)]);
    let all = ListCall::of(&largest, &[0], &list(&[(0, MAX_TICK, 1_000_000); 1024]));
    let ready: Vec<u64> = (0..1024).map(|p| 1_000_000_000_000_000 + 1_000_000 * p).collect();
    let finish: Vec<u64> = ready.iter().map(|t| t + 1_000_001).collect();
    assert_eq!((ready[1023], finish[1023]), (1_000_001_023_000_000, 1_000_001_024_000_001));
    add("largest ready and finish ticks", &all, &after(&all, &ready, &finish), 1_025);
}

/// The same lists so much later, made by the run that jumps alone: the same stops, and ticks that are so much later.
fn moved_jumps(v: &mut Vectors) {
    for (label, c) in short().iter().chain(&long()) {
        if *label == "late tick" {
            continue;
        }
        for (name, last) in [("past 4294967296", (1 << 32) + 20), ("up to the limit", MAX_TICK)] {
            if c.count == 1024 && last != MAX_TICK {
                continue;
            }
            let by = last - c.tick[c.count - 1];
            let mut later = c.clone();
            later.tick.iter_mut().for_each(|t| *t += by);
            let j = jump(&c.sheet, &c.kept, c.count, &c.columns(), c.ready.len(), c.finish.len()).unwrap();
            let ticks = |all: &[u64]| all.iter().map(|t| t + by).collect::<Vec<u64>>();
            let by_shift = line_alone(&after(c, &ticks(&j.ready), &ticks(&j.finish)), j.stops);
            v.worked(&format!("alone, {label}, {name}"), &blocks(&later), &answer(&later), &by_shift);
        }
    }
}

/// Stops of the run that jumps where jobs are ready after their release: no jitter is kept, so that the jobs of a task are ready at
/// least a period apart.
fn held_jumps(v: &mut Vectors) {
    let four = four_tasks();
    let mut add = |label: &str, c: &ListCall, columns: &str, stops: u64| {
        v.worked(&format!("jump, {label}"), &blocks(c), &answer(c), &line(columns, stops));
    };
    let of = |releases: &[(u32, u64, u32)]| ListCall::of(&four, &[0; 4], &list(releases));
    // 1, 6, 41, 51, 56: task 3 runs in ticks 41 to 50.
    let lower = of(&[(0, 0, 5), (0, 1, 5), (3, 40, 10)]);
    add("a held job starts at the finish of a lower one", &lower, ", 0 50 40 - -, 6 56 51 - -", 5);
    // 1, 6, 41, 61, 66: task 0 runs in ticks 41 to 60.
    let higher = of(&[(1, 0, 5), (1, 1, 5), (0, 40, 20)]);
    add("a held job starts at the finish of a higher one", &higher, ", 0 60 40 - -, 6 66 61 - -", 5);
    // 1, 6, 11, 16.
    let row = ListCall::of(&sheet(&[(5, 0, 5, 9)]), &[0], &list(&[(0, 0, 5), (0, 0, 5), (0, 0, 5)]));
    add("held jobs, each starts at the finish of the one before", &row, ", 0 5 10 - -, 6 11 16 - -", 4);
    // 1, 6, 46, 51, 56, 61: task 3 runs in ticks 46 to 50, and from 56 on.
    let interrupts = of(&[(0, 0, 5), (0, 1, 5), (3, 45, 10)]);
    add("a held job interrupts", &interrupts, ", 0 50 45 - -, 6 56 61 - -", 6);
    // 1, 3, 4, 6, 51, 53.
    let passed = of(&[(0, 0, 2), (0, 1, 2), (1, 3, 2)]);
    add("a held job is ready after one released later", &passed, ", 0 50 3 - -, 3 53 6 - -", 6);
    // 1, 3, 6, 10, 51, 53, 61, 64, 71, 75.
    let pairs = of(&[(2, 0, 4), (2, 0, 4), (1, 0, 3), (1, 0, 3), (0, 0, 2), (0, 0, 2)]);
    add("a held job of each of three tasks", &pairs, ", 0 70 0 60 0 50 - -, 10 75 6 64 3 53 - -", 10);
    // 1, 3, 81, 84, 86: the second job of task 3 is held up to the release of task 0.
    let tie = of(&[(3, 0, 2), (3, 1, 2), (0, 80, 3)]);
    add("ready at once, the lower one released before", &tie, ", 0 80 80 - -, 3 86 84 - -", 5);
}

/// Stops of the run that jumps on as many tasks and as many releases as there may be.
fn many_jumps(v: &mut Vectors) {
    let full = sheet(&[(100, 0, 4, 200); 32]);
    let from_lowest = |tick: fn(u64) -> u64, cost: u32| {
        let all: Vec<Release> = (0..32).map(|p| Release { task: 31 - p, tick: tick(p as u64), cost }).collect();
        ListCall::of(&full, &[0; 32], &all)
    };
    let single = |period: u32, cost: u32| {
        let all: Vec<Release> = (0..1024).map(|p| Release { task: 0, tick: period as u64 * p, cost }).collect();
        ListCall::of(&sheet(&[(period, 0, cost, period)]), &[0], &all)
    };
    let mut add = |label: &str, c: &ListCall, ready: fn(u64) -> u64, finish: fn(u64) -> u64, stops: u64| {
        let ticks = |of: fn(u64) -> u64| (0..c.count as u64).map(of).collect::<Vec<u64>>();
        let by_hand = line(&after(c, &ticks(ready), &ticks(finish)), stops);
        v.worked(&format!("jump, {label}"), &blocks(c), &answer(c), &by_hand);
    };
    // 1, and the finishes 2 to 33.
    add("32 tasks ready at once, the lowest first in the list", &from_lowest(|_| 0, 1), |_| 0, |p| 33 - p, 33);
    // The starts 1 to 32, and the finishes 34 to 65.
    add("chain of 32, each interrupted by the next", &from_lowest(|p| p, 2), |p| p, |p| 65 - p, 64);
    // The starts 1, 2, .. 32: all but the first are finishes too; and the finish 33.
    add("32 tasks, each starts at the finish of the one before", &from_lowest(|p| p, 1), |p| p, |p| p + 2, 33);
    // 1, 5, .. 4,097: the fewest stops of 1,024 jobs.
    add("1024 releases, each starts at the finish of the one before", &single(4, 4), |p| 4 * p, |p| 4 * p + 5, 1025);
    // 1, 2, 4, 5, .. 3,070, 3,071: the most.
    add("1024 releases, each starts after an idle tick", &single(3, 1), |p| 3 * p, |p| 3 * p + 2, 2048);
}

/// A charge of 2 on tasks of any cost up to 20: a job takes its cost and 2 ticks. Before a case stand the ticks in which the jobs run.
/// The kept jitters let three jobs of a task be ready at once, so that ready is release.
fn charged(v: &mut Vectors) {
    let four = four_tasks().charged(2);
    let mut add = |label: &str, releases: &[(u32, u64, u32)], columns: &str, stops: u64| {
        let c = ListCall::of(&four, &[200; 4], &list(releases));
        v.worked(&format!("charge, {label}"), &blocks(&c), &answer(&c), &line(columns, stops));
    };
    add("no release", &[], ", - -, - -", 0);
    // 1 to 3.
    add("one release of cost 1", &[(0, 0, 1)], ", 0 - -, 4 - -", 2);
    // 4 to 25.
    add("one release of cost E", &[(3, 3, 20)], ", 3 - -, 26 - -", 2);
    // Task 0 in 1 to 4, task 1 in 5 to 8, task 2 in 9 to 12.
    add("three tasks at tick 0", &[(2, 0, 2), (1, 0, 2), (0, 0, 2)], ", 0 0 0 - -, 13 9 5 - -", 4);
    add("three jobs of a task at tick 0", &[(1, 0, 2), (1, 0, 1), (1, 0, 3)], ", 0 0 0 - -, 5 8 13 - -", 4);
    // Task 3 in 1 to 3, task 0 in 4 to 6, task 3 in 7 and 8: the charge is taken once.
    add("interrupted once", &[(3, 0, 3), (0, 3, 1)], ", 0 3 - -, 9 7 - -", 4);
    // Task 3 in 1, task 0 in 2 to 4, task 3 in 5, task 0 in 6 to 8, task 3 in 9 to 11.
    add("interrupted twice", &[(3, 0, 3), (0, 1, 1), (0, 5, 1)], ", 0 1 5 - -, 12 5 9 - -", 6);
    // Task 3 in 1 and 2, where without the charge it is finished at 3; task 0 in 3 to 5.
    add("interrupted in the ticks of the charge", &[(3, 0, 2), (0, 2, 1)], ", 0 2 - -, 8 6 - -", 4);
    // Task 3 in 1 to 4, task 0 in 5 to 7.
    add("a higher one starts at the finish", &[(3, 0, 2), (0, 4, 1)], ", 0 4 - -, 5 8 - -", 3);
    // Tick 5 is idle.
    add("a higher one starts a tick after the finish", &[(3, 0, 2), (0, 5, 1)], ", 0 5 - -, 5 9 - -", 4);
    // Task 0 in 1 to 6, task 3 in 7 to 9.
    add("a lower one waits", &[(0, 0, 4), (3, 2, 1)], ", 0 2 - -, 7 10 - -", 4);
    // Ticks 5 to 1,000,002 are idle.
    add("999998 idle ticks", &[(0, 0, 2), (1, 1_000_002, 2)], ", 0 1000002 - -, 5 1000007 - -", 4);
    // The largest charge: 1 to 256, 257 to 512.
    let largest = sheet(&[(256, 0, 1, 256), (999, 0, 700, 999)]).charged(255);
    let two = ListCall::of(&largest, &[0, 0], &list(&[(0, 0, 1), (1, 0, 1)]));
    v.worked("charge, the largest", &blocks(&two), &answer(&two), &line(", 0 0 - -, 257 513 - -", 3));
    // Held: with K 0 the second job of task 0 is ready at 8, where the first one, of 2 + 6 ticks, is finished at 9.
    let row = ListCall::of(&sheet(&[(8, 0, 2, 8)]).charged(6), &[0], &list(&[(0, 0, 2), (0, 0, 2), (0, 0, 1)]));
    v.worked("charge, held jobs, E + S is P", &blocks(&row), &answer(&row), &line(", 0 8 16 - -, 9 17 24 - -", 4));
    // The sum of tests/outside/sums.rs: task 1 in 1, task 0 in 2 to 4, task 1 in 5 and 6, task 0, held to 9, in 10 and 11.
    let sums = sheet(&[(8, 0, 2, 8), (9, 0, 2, 9)]).charged(1);
    let three = ListCall::of(&sums, &[0, 0], &list(&[(1, 0, 2), (0, 1, 2), (0, 8, 1)]));
    v.worked("charge, a cost below E", &blocks(&three), &answer(&three), &line(", 0 1 9 - -, 7 5 12 - -", 6));
    // The printed releases: task 0 in 1 to 3, task 2 in 4, task 0 in 5 to 7, task 2 in 8 and 9.
    let folder = ListCall::of(&folder_sheet().charged(1), &[2, 4, 0], &printed_list());
    v.worked("charge, printed example", &blocks(&folder), &answer(&folder), &line(", 0 0 4 - -, 4 10 8 - -", 5));
}

/// The same by the run that jumps alone, at late ticks.
fn charged_late(v: &mut Vectors) {
    let mut add = |label: &str, c: &ListCall, columns: &str, stops: u64| {
        v.worked(&format!("charge, alone, {label}"), &blocks(c), &answer(c), &line_alone(columns, stops));
    };
    let open = |releases: &[(u32, u64, u32)]| ListCall::of(&four_tasks().charged(2), &[200; 4], &list(releases));
    let two = open(&[(3, 0, 1), (0, MAX_TICK, 20)]);
    add("two releases, tick 0 and the limit", &two, ", 0 1000000000000000 - -, 4 1000000000000023 - -", 4);
    // Task 3 has run for four ticks when it is interrupted.
    let across = open(&[(3, 4_294_967_293, 8), (0, 4_294_967_297, 2)]);
    add("interrupted past 4294967296", &across, ", 4294967293 4294967297 - -, 4294967308 4294967302 - -", 4);
    // 1024 jobs of 999745 + 255 ticks: the largest ready tick and the largest finish.
    let largest = sheet(&[(1_000_000, 0, 999_745, 1_000_000)]).charged(255);
    let all = ListCall::of(&largest, &[0], &list(&[(0, MAX_TICK, 999_745); 1024]));
    let ready: Vec<u64> = (0..1024).map(|p| 1_000_000_000_000_000 + 1_000_000 * p).collect();
    let finish: Vec<u64> = ready.iter().map(|t| t + 1_000_001).collect();
    add("largest ready and finish ticks", &all, &after(&all, &ready, &finish), 1_025);
}

/// Lists of the cases without a charge, with some that their sheets hold: what the runs give of the list in which each cost has it in it.
fn charged_lists(v: &mut Vectors) {
    let long = long();
    for (label, c) in short().iter().chain([&long[0], &long[2]]) {
        for charge in [1, 2, 30] {
            let mut c = c.clone();
            c.sheet.charge = charge;
            let holds = c.sheet.tasks.iter().all(|t| t.e + charge as u32 <= t.p.min(t.d));
            if !holds || (c.count == 1024 && charge != 2) {
                continue;
            }
            let in_costs = answer(&c.charge_in_costs());
            v.worked(&format!("charge {charge}, {label}"), &blocks(&c), &answer(&c), &in_costs);
        }
    }
}

/// Runs of a few jobs.
fn short() -> Vec<(&'static str, ListCall)> {
    let five = sheet(&[(50, 0, 20, 50), (60, 0, 20, 90), (70, 100, 20, 99), (80, 10, 20, 99), (90, 0, 20, 300)]);
    let keep = [0, 0, 100, 5, 0];
    let of = |releases: &[(u32, u64, u32)]| ListCall::of(&five, &keep, &list(releases));
    let single = |p, k, releases: &[(u32, u64, u32)]| ListCall::of(&sheet(&[(p, k, p.min(4), 100)]), &[k], &list(releases));
    vec![
        ("chain of preemptions", of(&[(4, 0, 9), (3, 1, 9), (2, 2, 9), (1, 3, 9), (0, 4, 9)])),
        ("chain, each over before the next", of(&[(4, 0, 1), (3, 2, 1), (2, 4, 1), (1, 6, 1), (0, 8, 1)])),
        ("chain, each finished as the next gets ready", of(&[(0, 0, 5), (1, 6, 5), (2, 12, 5), (3, 18, 5), (4, 24, 5)])),
        ("chain, each finished as the next may run", of(&[(0, 0, 5), (1, 5, 5), (2, 10, 5), (3, 15, 5), (4, 20, 5)])),
        ("equal ticks, lowest priority first in the list", of(&[(4, 7, 3), (3, 7, 3), (2, 7, 3), (1, 7, 3), (0, 7, 3)])),
        ("equal ticks, highest priority first in the list", of(&[(0, 7, 3), (1, 7, 3), (2, 7, 3), (3, 7, 3), (4, 7, 3)])),
        ("preempted again and again", of(&[(4, 0, 20), (0, 3, 2), (1, 6, 2), (0, 53, 2), (2, 54, 20), (3, 55, 20), (0, 103, 20)])),
        ("two jobs of a task, the oldest first", of(&[(2, 0, 5), (2, 0, 7), (1, 4, 3), (2, 10, 1)])),
        ("a held job waits for its ready tick", of(&[(0, 0, 5), (0, 1, 5), (4, 2, 20)])),
        ("a held job preempts", of(&[(0, 0, 5), (0, 1, 5), (4, 48, 20)])),
        ("idle ticks between", of(&[(4, 5, 2), (4, 500, 2), (0, 900, 1)])),
        ("the job before is late", of(&[(4, 0, 20), (3, 0, 20), (2, 0, 20), (1, 0, 20), (0, 0, 20), (4, 1, 20), (0, 50, 20)])),
        ("period 1, cost 1", single(1, 0, &[(0, 0, 1), (0, 1, 1), (0, 2, 1), (0, 2, 1)])),
        ("illegal burst, K 0", single(6, 0, &[(0, 2, 4), (0, 2, 3), (0, 2, 2), (0, 2, 1), (0, 2, 4)])),
        ("illegal burst, K 3", single(6, 3, &[(0, 2, 4), (0, 2, 3), (0, 2, 2), (0, 2, 1), (0, 2, 4)])),
        ("illegal burst, K 20", single(6, 20, &[(0, 2, 4), (0, 2, 3), (0, 2, 2), (0, 2, 1), (0, 2, 4)])),
        ("late tick", of(&[(0, 0, 1), (4, 50_000_000, 20), (0, 50_000_003, 20)])),
    ]
}

/// Longer runs: the full sheet, and every job of 1,024 of one task.
fn long() -> Vec<(&'static str, ListCall)> {
    let sheet32 = full_sheet();
    let burst: Vec<Release> = (0..1024).map(|i| Release { task: 31 - i / 32, tick: 0, cost: 1 }).collect();
    let one: Vec<Release> = (0..1024).map(|i| Release { task: 0, tick: 2 * i as u64, cost: 1 + i % 5 }).collect();
    vec![
        ("1024 releases of 32 tasks", ListCall::of(&sheet32, &full_kept(), &full_list())),
        ("1024 legal releases of 32 tasks", ListCall::of(&sheet32, &full_kept(), &tight_list(&sheet32, 32))),
        ("1024 releases at tick 0", ListCall::of(&sheet32, &full_kept(), &burst)),
        ("1024 releases of one task", ListCall::of(&sheet(&[(5, 100, 5, 500)]), &[100], &one)),
    ]
}

/// The refusals of the column of finish ticks.
fn finish_refusals() -> Vec<(&'static str, ListCall)> {
    let of = |change: fn(&mut ListCall)| {
        let mut c = sound();
        change(&mut c);
        c
    };
    vec![
        ("finish column short", of(|c| c.finish.truncate(3))),
        ("no finish column", of(|c| c.finish.clear())),
        ("finish column as long as the count", of(|c| c.finish.truncate(4))),
        ("finish column short before 12", of(|c| {
            c.finish.truncate(1);
            c.kept[1] = 8;
        })),
        ("13 by task before the finish column", of(|c| {
            c.finish.clear();
            c.kept.clear();
        })),
    ]
}

/// Runs with a frame, whose ours stand before each case: in all other ticks nothing runs. Nothing is held.
fn framed(v: &mut Vectors) {
    let mut add = |label: &str, frame: Frame, charge: u8, releases: &[(u32, u64, u32)], columns: &str, stops: u64| {
        let c = ListCall::of(&four_tasks().charged(charge).framed(Some(frame)), &[200; 4], &list(releases));
        v.worked(&format!("frame, {label}"), &blocks(&c), &answer(&c), &line(columns, stops));
    };
    let half = || Frame::of(4, &[(0, 2)]);
    // 1, 4, 5. 4, 5, 8. 4.
    add("0, 1 of 4, released at 0", half(), 0, &[(0, 0, 3)], ", 0 - -, 6 - -", 2);
    add("0, 1 of 4, released at 1", half(), 0, &[(0, 1, 3)], ", 1 - -, 9 - -", 2);
    add("0, 1 of 4, released at 3", half(), 0, &[(0, 3, 1)], ", 3 - -, 5 - -", 2);
    add("0, 1 of 4, with a charge", half(), 1, &[(0, 0, 2)], ", 0 - -, 6 - -", 2);
    // Task 1 in tick 1, task 0 in tick 4, task 1 in tick 5.
    add("interrupted in a gap", half(), 0, &[(1, 0, 2), (0, 1, 1)], ", 0 1 - -, 6 5 - -", 4);
    // Task 1 in ticks 1 and 4, task 0 in ticks 5 and 8, task 1 in tick 9.
    add("interrupted in a window", half(), 0, &[(1, 0, 3), (0, 4, 2)], ", 0 4 - -, 10 9 - -", 4);
    // Two starts in the gap from 2 to 3: task 0 in ticks 4 and 5, task 1 in tick 8.
    add("two starts in a gap", half(), 0, &[(1, 1, 1), (0, 2, 2)], ", 1 2 - -, 9 6 - -", 4);
    // 0, 2, 3, 4, 10, 12, ..: 2, 3, 4, 10, 12.
    add("two gaps", Frame::of(10, &[(0, 1), (2, 3)]), 0, &[(0, 0, 5)], ", 0 - -, 13 - -", 2);
    // 3, 7, 11.
    add("3 of 4", Frame::of(4, &[(3, 1)]), 0, &[(0, 3, 2)], ", 3 - -, 12 - -", 2);
    // 5, 6, 7, 8.
    add("joined over the end", Frame::of(7, &[(0, 2), (5, 2)]), 0, &[(0, 2, 4)], ", 2 - -, 9 - -", 2);
    add("no release", half(), 0, &[], ", - -, - -", 0);
    // The worked frame: task 0 in 1 and 2, task 1 in 6, 10, 11 and 12, task 0, held to 16, in 20 and 21.
    let six = in_frame(&sheet(&[(20, 10, 2, 12), (40, 0, 4, 40)]), 10, &[(0, 3), (4, 3)]);
    let c = ListCall::of(&six, &[4, 0], &list(&[(0, 0, 2), (1, 5, 4), (0, 10, 2)]));
    v.worked("frame, gaps of 1 and 3", &blocks(&c), &answer(&c), &line(", 0 5 16 - -, 3 13 22 - -", 6));
}

/// The same by the run that jumps alone, at late ticks. The last tick allowed is tick 0 of a frame of 4.
fn framed_late(v: &mut Vectors) {
    let mut add = |label: &str, c: &ListCall, columns: &str, stops: u64| {
        v.worked(&format!("frame, alone, {label}"), &blocks(c), &answer(c), &line_alone(columns, stops));
    };
    let open = |ticks: u32, windows: &[(u32, u32)], releases: &[(u32, u64, u32)]| {
        ListCall::of(&in_frame(&four_tasks(), ticks, windows), &[200; 4], &list(releases))
    };
    let two = open(4, &[(0, 2)], &[(3, 0, 1), (0, MAX_TICK, 2)]);
    add("two releases, tick 0 and the limit", &two, ", 0 1000000000000000 - -, 2 1000000000000005 - -", 4);
    // 1024 jobs of 1000000 ticks, one in each frame of 10000: the largest finish.
    let largest = in_frame(&sheet(&[(1_000_000, 0, 1_000_000, 1_000_000)]), 10_000, &[(0, 1)]);
    let all = ListCall::of(&largest, &[0], &list(&[(0, MAX_TICK, 1_000_000); 1024]));
    let ready: Vec<u64> = (0..1024).map(|p| MAX_TICK + 1_000_000 * p).collect();
    let finish: Vec<u64> = (1..=1024).map(|p| MAX_TICK + 10_000_000_000 * p + 1).collect();
    assert_eq!(finish[1023], 1_010_240_000_000_001);
    add("largest finish", &all, &after(&all, &ready, &finish), 2_048);
}

/// The lists of the cases without a frame in each frame, and in one that is all window, where they are as without it.
fn framed_lists(v: &mut Vectors) {
    let long = long();
    for (label, c) in short().iter().chain([&long[0], &long[2]]) {
        for (name, frame) in frames() {
            // the late tick and the longest lists are for one of them
            if (c.count == 1024 || label.starts_with("late")) && name != "16 windows" {
                continue;
            }
            let c = ListCall { sheet: c.sheet.framed(Some(frame)), ..c.clone() };
            v.case(&format!("frame {name}, {label}"), &blocks(&c), &answer(&c));
        }
        if c.count == 1024 {
            continue;
        }
        let whole = ListCall { sheet: in_frame(&c.sheet, 7, &[(0, 7)]), ..c.clone() };
        v.worked(&format!("frame, all 7 ticks, {label}"), &blocks(&whole), &answer(&whole), &answer(c));
    }
}

/// Frames outside the rules, and one of them beside every other refusal of a run.
fn framed_checks(v: &mut Vectors) {
    for (label, frame, place) in wrong_frames() {
        let c = ListCall { sheet: sound().sheet.framed(Some(frame)), ..sound() };
        let half = format!(" refused 18 at {place}") + &column(&c.ready) + &column(&c.finish);
        v.worked(&format!("frame, {label}"), &blocks(&c), &answer(&c), &format!("{half};{half}"));
    }
    for (label, c) in refusals().iter().chain(&kept_refusals()) {
        let wrong = ListCall { sheet: in_frame(&c.sheet, 10, &[(0, 4), (4, 3)]), ..c.clone() };
        v.case(&format!("frame 18 at 1, {label}"), &blocks(&wrong), &answer(&wrong));
    }
    let mut charged = sound();
    charged.sheet = in_frame(&charged.sheet.charged(5), 10, &[(0, 4), (4, 3)]);
    let half = String::from(" refused 17 at 0") + &column(&charged.ready) + &column(&charged.finish);
    v.worked("frame 18 at 1, charge 5", &blocks(&charged), &answer(&charged), &format!("{half};{half}"));
}

pub fn vectors() -> Vectors {
    let mut v = Vectors::new();
    worked(&mut v);
    picked_up(&mut v);
    for (label, c) in short().iter().chain(&long()) {
        if c.tick.iter().all(|&t| t < 100_000) {
            let all: Vec<Release> =
                (0..c.count).map(|p| Release { task: c.task[p], tick: c.tick[p], cost: c.cost[p] }).collect();
            let ready = ready_ticks(&c.sheet, &c.kept, &all);
            let finish = finish_by_tick(&c.sheet.frame, c.sheet.charge, &all, &ready);
            let end = finish.iter().copied().max().unwrap_or(0);
            let stops = (0..=end).filter(|t| finish.contains(t) || ready.contains(&(t - 1))).count() as u64;
            let slots = |ticks: &[i64]| ticks.iter().map(|&t| t as u64).collect::<Vec<u64>>();
            assert_eq!(answer(c), line(&after(c, &slots(&ready), &slots(&finish)), stops), "{label}");
        }
        v.case(label, &blocks(c), &answer(c));
    }
    for (label, c) in refusals().iter().chain(&kept_refusals()) {
        v.case(label, &blocks(c), &answer(c));
    }
    for (label, c) in &finish_refusals() {
        v.case(label, &blocks(c), &answer(c));
    }
    jumps(&mut v);
    held_jumps(&mut v);
    many_jumps(&mut v);
    late_jumps(&mut v);
    moved_jumps(&mut v);
    charged(&mut v);
    charged_late(&mut v);
    charged_lists(&mut v);
    for (label, c) in &kept_charges() {
        v.case(label, &blocks(c), &answer(c));
    }
    // Marks change no run and no refusal.
    for (label, c, high) in &marks() {
        v.worked(label, &blocks(c), &answer(c), &answer(high));
    }
    framed(&mut v);
    framed_late(&mut v);
    framed_lists(&mut v);
    framed_checks(&mut v);
    v
}
