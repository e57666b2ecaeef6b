//! Lists of releases, and the refusals of a call with a list.

use crate::case::*;
use crate::reference::{gap, Release, Sheet, MAX_SHORT_TICK, MAX_TICK};

/// 32 tasks with periods 40 to 195, jitters up to three periods and costs up to 4.
pub fn full_sheet() -> Sheet {
    let all: Vec<_> = (0..32).map(|i| (40 + 5 * i, (i % 7) * 20 + (i % 3) * 5 * i, 1 + i % 4, 100 + 10 * i)).collect();
    sheet(&all)
}

/// Kept jitters of the full sheet: none, half and all in turn.
pub fn full_kept() -> Vec<u32> {
    full_sheet().tasks.iter().enumerate().map(|(i, t)| [0, t.j / 2, t.j][i % 3]).collect()
}

/// 1,024 releases of the full sheet, ticks rising by 0 to 9.
pub fn full_list() -> Vec<Release> {
    let (sheet, mut m, mut tick) = (full_sheet(), Mixer::from(1), 0);
    (0..1024)
        .map(|_| {
            tick += m.within(0, 9) as u64;
            let task = m.within(0, 31);
            Release { task, tick, cost: m.within(1, sheet.task(task as usize).e) }
        })
        .collect()
}

/// The same releases, the last one at the last tick allowed.
pub fn late_list() -> Vec<Release> {
    let list = full_list();
    moved(&list, MAX_TICK - list[1023].tick)
}

/// The same releases around tick 1,000,000,000.
pub fn middle_list() -> Vec<Release> {
    let list = full_list();
    moved(&list, MAX_SHORT_TICK - list[511].tick)
}

/// `n` legal releases of each task of a sheet, each as early as the gaps allow, in the order of their ticks.
pub fn tight_list(sheet: &Sheet, n: usize) -> Vec<Release> {
    let mut all: Vec<Release> = Vec::new();
    for i in 0..sheet.count {
        let t = sheet.task(i);
        let mut ticks: Vec<i64> = Vec::new();
        for m in 0..n {
            let least = (1..=m).map(|k| ticks[m - k] + gap(t.p as i64, t.j as i64, k as i64)).max().unwrap_or(0);
            ticks.push(least);
        }
        all.extend(ticks.iter().map(|&tick| Release { task: i as u32, tick: tick as u64, cost: 1 }));
    }
    all.sort_by_key(|r| (r.tick, r.task));
    all
}

/// A call that is accepted, with columns longer than its count: what stands past the count does not matter.
pub fn sound() -> ListCall {
    let mut c = ListCall::of(&printed_sheet(), &[1, 3, 0], &list(&[(0, 0, 2), (2, 0, 2), (1, 4, 1), (0, 9, 1)]));
    c.kept.push(77);
    c.task.push(99);
    c.tick.push(0);
    c.cost.push(0);
    c
}

/// Refusals of the sheet: 5, 4 and 6.
fn sheets() -> Vec<(String, ListCall)> {
    let mut all = Vec::new();
    let mut add = |label: &str, change: &dyn Fn(&mut Sheet)| {
        let mut c = sound();
        change(&mut c.sheet);
        all.push((label.to_string(), c));
    };
    add("count 0", &|s| s.count = 0);
    add("count 33", &|s| s.count = 33);
    add("count 4294967295", &|s| s.count = u32::MAX as usize);
    for i in 0..3 {
        add(&format!("P 0 of task {i}"), &|s| s.tasks[i].p = 0);
        add(&format!("E 0 of task {i}"), &|s| s.tasks[i].e = 0);
    }
    add("P 1000001", &|s| s.tasks[1] = task(1_000_001, 7, 2, 8));
    add("J 1000001", &|s| s.tasks[1] = task(8, 1_000_001, 2, 8));
    add("J 4294967295", &|s| s.tasks[1] = task(8, u32::MAX, 2, 8));
    add("D 0", &|s| s.tasks[1] = task(8, 7, 2, 0));
    add("D 1000001", &|s| s.tasks[1] = task(8, 7, 2, 1_000_001));
    add("E over P", &|s| s.tasks[1] = task(8, 7, 9, 20));
    add("E over D", &|s| s.tasks[1] = task(8, 7, 5, 4));
    add("two tasks out of range", &|s| {
        s.tasks[2].p = 0;
        s.tasks[1].d = 0;
    });
    add("an entry past the count out of range", &|s| s.tasks.push(task(0, 9, 0, 0)));
    all
}

/// Refusals of the list: 10, 7, 8 and 9, and the largest numbers that are allowed.
fn lists() -> Vec<(String, ListCall)> {
    let mut all = Vec::new();
    let mut add = |label: &str, change: &dyn Fn(&mut ListCall)| {
        let mut c = sound();
        change(&mut c);
        all.push((label.to_string(), c));
    };
    add("sound", &|_| {});
    add("count of releases 1025", &|c| c.count = 1025);
    add("count of releases 4294967295", &|c| c.count = u32::MAX as usize);
    for p in 0..4 {
        add(&format!("task 3 at release {p}"), &|c| c.task[p] = 3);
    }
    add("task 4294967295", &|c| c.task[1] = u32::MAX);
    add("tick falls", &|c| c.tick[3] = 3);
    add("tick falls to 0", &|c| c.tick[3] = 0);
    add("equal ticks", &|c| c.tick = vec![4, 4, 4, 4]);
    for tick in EDGE_TICKS {
        add(&format!("tick {tick}"), &|c| c.tick[3] = tick);
    }
    add("first tick 4294967295", &|c| c.tick[0] = u32::MAX as u64);
    add("first tick 4294967296", &|c| c.tick[0] = 1 << 32);
    add("first tick 18446744073709551615", &|c| c.tick[0] = u64::MAX);
    add("every tick the last allowed", &|c| c.tick = vec![MAX_TICK; 4]);
    add("every tick over the limit", &|c| c.tick = vec![MAX_TICK + 1; 4]);
    add("ticks up to 1000000000 and over it", &|c| c.tick = vec![999_999_999, 1_000_000_000, 1_000_000_001, 1_000_000_001]);
    add("tick falls below 1000000001", &|c| c.tick = vec![1_000_000_000, 1_000_000_001, 1_000_000_000, 1_000_000_001]);
    add("tick falls below 4294967296", &|c| c.tick = vec![1, 1 << 32, (1 << 32) - 1, 1 << 33]);
    add("tick falls, its low half rises", &|c| c.tick = vec![1, 1 << 33, (1 << 32) + 5, 1 << 34]);
    add("tick rises, its low half falls", &|c| c.tick = vec![1, (1 << 32) - 1, 1 << 32, 1 << 33]);
    add("7, 8 over the limit and 9 at one release", &|c| {
        c.task[3] = 32;
        c.tick[3] = MAX_TICK + 1;
        c.cost[3] = 0;
    });
    add("8 over the limit and 9 at one release", &|c| {
        c.tick[3] = 1 << 63;
        c.cost[3] = 0;
    });
    for p in 0..4 {
        add(&format!("cost 0 at release {p}"), &|c| c.cost[p] = 0);
    }
    add("cost over E", &|c| c.cost[2] = 3);
    add("cost 4294967295", &|c| c.cost[2] = u32::MAX);
    add("7, 8 and 9 at one release", &|c| {
        c.task[3] = 32;
        c.tick[3] = 0;
        c.cost[3] = 0;
    });
    add("8 and 9 at one release", &|c| {
        c.tick[3] = 0;
        c.cost[3] = 0;
    });
    add("9 at release 1 before 7 at release 2", &|c| {
        c.cost[1] = 0;
        c.task[2] = 9;
    });
    add("8 at release 2 before 7 at release 3", &|c| {
        c.tick[1] = 5;
        c.task[3] = 9;
    });
    all
}

/// Refusals of the three columns: 13.
fn columns() -> Vec<(String, ListCall)> {
    let mut all = Vec::new();
    let mut add = |label: &str, change: &dyn Fn(&mut ListCall)| {
        let mut c = sound();
        change(&mut c);
        all.push((label.to_string(), c));
    };
    add("task column short", &|c| c.task.truncate(3));
    add("tick column short", &|c| c.tick.truncate(3));
    add("cost column short", &|c| c.cost.truncate(3));
    add("no task column", &|c| c.task.clear());
    add("columns as long as the count", &|c| {
        c.task.truncate(4);
        c.tick.truncate(4);
        c.cost.truncate(4);
    });
    add("13 before 7", &|c| {
        c.cost.truncate(3);
        c.task[0] = 9;
    });
    add("10 before 13", &|c| {
        c.count = 1025;
        c.task.clear();
    });
    add("6 before 10", &|c| {
        c.count = 1025;
        c.sheet.tasks[2].d = 1;
    });
    add("4 before 6", &|c| {
        c.sheet.count = 40;
        c.sheet.tasks[0].p = 0;
    });
    add("5 before 10", &|c| {
        c.sheet.count = 0;
        c.count = 1025;
    });
    all
}

/// The refusals of every call with a list.
pub fn refusals() -> Vec<(String, ListCall)> {
    let mut all = sheets();
    all.extend(lists());
    all.extend(columns());
    all
}

/// Charges in a call with a list, and 17. Of the sound call the tasks hold up to 4.
pub fn charges() -> Vec<(String, ListCall)> {
    let mut all = Vec::new();
    let mut add = |label: &str, change: &dyn Fn(&mut ListCall)| {
        let mut c = sound();
        change(&mut c);
        all.push((format!("charge, {label}"), c));
    };
    for charge in [1, 3, 4, 5, 6, 254, 255] {
        add(&format!("{charge}"), &|c| c.sheet.charge = charge);
    }
    // E + S at P and at D, one over them, and E alone over them.
    for (charge, e) in [(1, 4), (2, 9), (254, 2), (255, 2), (255, 999_745)] {
        let work = e + charge as u32;
        for (label, p, d) in [
            ("E + S is P", work, work + 1),
            ("E + S is D", work + 1, work),
            ("E + S is P and D", work, work),
            ("E + S is P + 1", work - 1, work),
            ("E + S is D + 1", work, work - 1),
            ("E over P", e - 1, work),
        ] {
            if p.max(d) <= 1_000_000 {
                add(&format!("{label}, S {charge}, E {e}"), &|c| {
                    c.sheet = sheet(&[(999_000, 5, 2, 999_000), (999_000, 7, 2, 999_000), (p, 0, e, d)]).charged(charge)
                });
            }
        }
    }
    add("E is P", &|c| (c.sheet.charge, c.sheet.tasks[2]) = (1, task(2, 0, 2, 10)));
    add("E is D", &|c| (c.sheet.charge, c.sheet.tasks[2]) = (1, task(10, 0, 2, 2)));
    add("E and P the largest", &|c| (c.sheet.charge, c.sheet.tasks[1]) = (1, task(1_000_000, 7, 1_000_000, 1_000_000)));
    add("E 4294967295", &|c| (c.sheet.charge, c.sheet.tasks[1]) = (4, task(8, 7, u32::MAX, 8)));
    add("cost over E, within E + S", &|c| (c.sheet.charge, c.cost[2]) = (4, 3));
    add("cost 0", &|c| (c.sheet.charge, c.cost[2]) = (4, 0));
    add("17 of task 0 before 6 of task 1", &|c| (c.sheet.charge, c.sheet.tasks[1].p) = (5, 0));
    add("6 of task 0 before 17 of task 1", &|c| (c.sheet.charge, c.sheet.tasks[0].p, c.sheet.tasks[1].d) = (4, 0, 5));
    add("17 of task 1 before 6 of task 2", &|c| (c.sheet.charge, c.sheet.tasks[1].d, c.sheet.tasks[2].p) = (4, 5, 0));
    add("6 of task 1 before 17 of task 2", &|c| (c.sheet.charge, c.sheet.tasks[1].p, c.sheet.tasks[2].d) = (4, 0, 5));
    add("6 before 17 of one task", &|c| (c.sheet.charge, c.sheet.tasks[1].j, c.sheet.tasks[1].d) = (4, 1_000_001, 5));
    add("17 of two tasks", &|c| (c.sheet.charge, c.sheet.tasks[1].d, c.sheet.tasks[2].p) = (4, 5, 5));
    add("an entry past the count", &|c| {
        c.sheet.charge = 4;
        c.sheet.tasks.push(task(5, 0, 2, 5));
    });
    add("5 before 17", &|c| (c.sheet.charge, c.sheet.count) = (255, 0));
    add("4 before 17", &|c| (c.sheet.charge, c.sheet.count) = (255, 33));
    add("17 before 10", &|c| (c.sheet.charge, c.count) = (5, 1025));
    add("17 before 13", &|c| (c.sheet.charge, c.task) = (5, vec![]));
    add("17 before 7", &|c| (c.sheet.charge, c.task[0]) = (5, 3));
    add("10 with a charge", &|c| (c.sheet.charge, c.count) = (4, 1025));
    all
}

/// The same in a call with kept jitters besides.
pub fn kept_charges() -> Vec<(String, ListCall)> {
    let mut all = charges();
    let mut add = |label: &str, change: &dyn Fn(&mut ListCall)| {
        let mut c = sound();
        change(&mut c);
        all.push((format!("charge, {label}"), c));
    };
    add("17 before 13 by task", &|c| (c.sheet.charge, c.kept) = (5, vec![]));
    add("17 before 12", &|c| (c.sheet.charge, c.kept[0]) = (5, 6));
    add("12 with a charge", &|c| (c.sheet.charge, c.kept[0]) = (4, 6));
    add("slots hold numbers, 17", &|c| {
        c.sheet.charge = 5;
        c.ready = vec![11, 22, 33, 44, 55, 1 << 63];
        c.finish = vec![12, 23, 34, 45, 56, 4_294_967_295];
    });
    add("slots hold numbers, accepted", &|c| {
        c.sheet.charge = 4;
        c.ready = vec![11, 22, 33, 44, 55, 1 << 63];
        c.finish = vec![12, 23, 34, 45, 56, 4_294_967_295];
    });
    all
}

/// Calls with low tasks, each beside the same with high tasks alone, which has the same answer: the sound one with every pattern of marks,
/// and the refusals.
pub fn marks() -> Vec<(String, ListCall, ListCall)> {
    let marked = |c: &ListCall, lows: &[bool]| ListCall { sheet: c.sheet.marked(lows), ..c.clone() };
    let c = sound();
    let mut all: Vec<_> = patterns(3).iter().map(|lows| (format!("marks {}, sound", letters(lows)), marked(&c, lows), c.clone())).collect();
    for (n, (label, c)) in refusals().into_iter().chain(charges()).enumerate() {
        let lows: Vec<bool> = (0..c.sheet.tasks.len()).map(|i| (n + i) % 2 == 0).collect();
        all.push((format!("marks {}, {label}", letters(&lows)), marked(&c, &lows), c));
    }
    let full = ListCall::of(&full_sheet(), &full_kept(), &full_list());
    all.push(("32 low tasks, 1024 releases".to_string(), marked(&full, &[true; 32]), full));
    all
}

/// The refusals of a call with kept jitters and a list besides: 12 and 13, and which decides.
pub fn kept_refusals() -> Vec<(String, ListCall)> {
    let mut all = Vec::new();
    let mut add = |label: &str, change: &dyn Fn(&mut ListCall)| {
        let mut c = sound();
        change(&mut c);
        all.push((label.to_string(), c));
    };
    for i in 0..3 {
        add(&format!("K over J of task {i}"), &|c| c.kept[i] = c.sheet.tasks[i].j + 1);
    }
    add("K over J of two tasks", &|c| c.kept = vec![5, 8, 1]);
    add("K 4294967295", &|c| c.kept[1] = u32::MAX);
    add("K is J", &|c| c.kept = vec![5, 7, 0]);
    add("kept column short", &|c| c.kept.truncate(2));
    add("no kept column", &|c| c.kept.clear());
    add("kept column as long as the sheet", &|c| c.kept.truncate(3));
    add("ready column short", &|c| c.ready.truncate(3));
    add("no ready column", &|c| c.ready.clear());
    add("ready column as long as the count", &|c| c.ready.truncate(4));
    add("13 by task before 13 by release", &|c| {
        c.kept.truncate(1);
        c.task.truncate(1);
        c.ready.clear();
    });
    add("13 by release before 12", &|c| {
        c.ready.truncate(2);
        c.kept[0] = 6;
    });
    add("12 before 7", &|c| {
        c.kept[2] = 1;
        c.task[0] = 3;
    });
    add("10 before 13 by task", &|c| {
        c.count = 2000;
        c.kept.clear();
    });
    add("slots hold numbers, refused", &|c| {
        c.ready = vec![11, 22, 33, 44, 55, 1 << 63];
        c.finish = vec![12, 23, 34, 45, 56, 4_294_967_295];
        c.cost[3] = 0;
    });
    add("slots hold numbers, accepted", &|c| {
        c.ready = vec![11, 22, 33, 44, 55, 1 << 63];
        c.finish = vec![12, 23, 34, 45, 56, 4_294_967_295];
    });
    all.extend(every_fault());
    all
}

/// A call with every fault at once, then with the first of them mended, and so on in the order of the checks.
fn every_fault() -> Vec<(String, ListCall)> {
    let mend: [(&str, fn(&mut ListCall)); 11] = [
        ("", |_| {}),
        (" but 5", |c| c.sheet.count = 33),
        (" but 5 4", |c| c.sheet.count = 3),
        (" but 5 4 6", |c| c.sheet = printed_sheet()),
        (" but 5 4 6 10", |c| c.count = 4),
        (" but 5 4 6 10 13 by task", |c| c.kept = vec![1, 8, 0]),
        (" but 5 4 6 10 13", |c| {
            c.tick.extend([0, 9]);
            c.ready = held(5);
            c.finish = held(6);
        }),
        (" but 5 4 6 10 13 12", |c| c.kept = vec![1, 3, 0]),
        (" but 5 4 6 10 13 12 7", |c| c.task[2] = 2),
        (" but 5 4 6 10 13 12 7 8", |c| c.tick[2] = 9),
        (" but 5 4 6 10 13 12 7 8 and the first 9", |c| c.cost[2] = 2),
    ];
    let mut c = ListCall::of(&printed_sheet(), &[1, 8], &list(&[(0, 0, 2), (2, 4, 2), (3, 0, 9), (0, 9, 0)]));
    c.sheet.count = 0;
    c.sheet.tasks[2].d = 1;
    c.count = 1025;
    c.tick.truncate(2);
    c.ready = held(3);
    c.finish = held(2);
    let mut all = Vec::new();
    for (label, change) in mend {
        change(&mut c);
        all.push((format!("every fault{label}"), c.clone()));
    }
    all
}
