//! The cases of `vectors_trace`: trace check and ready ticks.

use crate::case::*;
use crate::lists::*;
use crate::reference::{ready, trace_check, Release, Sheet, MAX_TICK};

fn trace_answer(c: &ListCall) -> String {
    match trace_check(&c.sheet, c.count, &c.columns()) {
        Err(r) => refused(r),
        Ok(None) => " legal".to_string(),
        Ok(Some(p)) => format!(" too close {p}"),
    }
}

fn ready_answer(c: &ListCall) -> String {
    match ready(&c.sheet, &c.kept, c.count, &c.columns(), c.ready.len()) {
        Err(r) => refused(r) + &column(&c.ready),
        Ok(ticks) => format!(" fine{}", column(&written(&ticks, &c.ready))),
    }
}

fn trace_blocks(c: &ListCall) -> Vec<Vec<u8>> {
    let mut all = vec![head(0, &[c.count as u32], &c.sheet)];
    all.extend(c.list_blocks());
    all
}

fn ready_blocks(c: &ListCall) -> Vec<Vec<u8>> {
    let mut all = vec![head(1, &[c.count as u32], &c.sheet), numbers(&c.kept)];
    all.extend(c.list_blocks());
    all.push(numbers(&c.ready));
    all
}

fn add_trace(v: &mut Vectors, label: &str, c: &ListCall) {
    v.case(&format!("trace, {label}"), &trace_blocks(c), &trace_answer(c));
}

fn add_ready(v: &mut Vectors, label: &str, c: &ListCall) {
    v.case(&format!("ready, {label}"), &ready_blocks(c), &ready_answer(c));
}

/// Releases of one task at the ticks given, cost 1.
fn single(p: u32, j: u32, keep: u32, ticks: &[u64]) -> ListCall {
    let all: Vec<Release> = ticks.iter().map(|&tick| Release { task: 0, tick, cost: 1 }).collect();
    ListCall::of(&sheet(&[(p, j, 1, p)]), &[keep], &all)
}

/// Sums 3, 4, 5 and 12, and the printed example.
fn worked(v: &mut Vectors) {
    let mut both = |label: &str, c: &ListCall, ready: &str, trace: &str| {
        v.worked(&format!("ready, {label}"), &ready_blocks(c), &ready_answer(c), ready);
        v.worked(&format!("trace, {label}"), &trace_blocks(c), &trace_answer(c), trace);
    };
    both("sum 3", &single(6, 1, 1, &[0, 1, 7]), " fine, 0 5 11 - -", " too close 1");
    both("sum 3 with J 5", &single(6, 5, 1, &[0, 1, 7]), " fine, 0 5 11 - -", " legal");
    both("sum 4", &single(6, 1, 1, &[0, 0, 0]), " fine, 0 5 11 - -", " too close 1");
    both("sum 5", &single(6, 8, 8, &[0, 0, 0]), " fine, 0 0 4 - -", " too close 2");
    both("sum 12, no release", &single(6, 1, 1, &[]), " fine, - -", " legal");
    both("sum 12, one release", &single(6, 1, 1, &[3]), " fine, 3 - -", " legal");
    let printed = ListCall::of(&printed_sheet(), &[1, 3, 0], &printed_list());
    both("printed example", &printed, " fine, 0 0 5 - -", " legal");
    let folder = ListCall::of(&folder_sheet(), &[2, 4, 0], &printed_list());
    both("printed example, D 11", &folder, " fine, 0 0 4 - -", " legal");
}

/// Ticks past 1,000,000,000: around what four bytes hold, up to the limit, and ready ticks past it, up to the largest.
fn worked_late(v: &mut Vectors) {
    let mut both = |label: &str, c: &ListCall, ready: &str, trace: &str| {
        v.worked(&format!("ready, {label}"), &ready_blocks(c), &ready_answer(c), ready);
        v.worked(&format!("trace, {label}"), &trace_blocks(c), &trace_answer(c), trace);
    };
    let over = single(6, 1, 1, &[999_999_996, 1_000_000_001, 1_000_000_006]);
    both("1000000000 and over", &over, " fine, 999999996 1000000001 1000000007 - -", " too close 2");
    let legal = single(10, 0, 0, &[4_294_967_291, 4_294_967_301]);
    both("gap across 4294967296", &legal, " fine, 4294967291 4294967301 - -", " legal");
    let close = single(10, 0, 0, &[4_294_967_291, 4_294_967_300]);
    both("too close across 4294967296", &close, " fine, 4294967291 4294967301 - -", " too close 1");
    let burst = single(10, 5, 5, &[4_294_967_290; 3]);
    both("held across 4294967296", &burst, " fine, 4294967290 4294967295 4294967305 - -", " too close 1");
    both("far apart", &single(6, 1, 1, &[0, MAX_TICK]), " fine, 0 1000000000000000 - -", " legal");
    let past = single(6, 8, 8, &[MAX_TICK; 3]);
    both("held past the limit", &past, " fine, 1000000000000000 1000000000000000 1000000000000004 - -", " too close 2");
    let ticks: String = (0..1024).map(|p| format!(" {}", 1_000_000_000_000_000u64 + 1_000_000 * p)).collect();
    assert!(ticks.ends_with(" 1000001023000000"));
    both("largest ready ticks of all", &single(1_000_000, 0, 0, &[MAX_TICK; 1024]), &format!(" fine,{ticks} - -"), " too close 1");
}

/// Bursts and gaps of one task and of several.
fn shapes() -> Vec<(String, ListCall)> {
    let mut all = Vec::new();
    let mut add = |label: &str, c: ListCall| all.push((label.to_string(), c));
    add("burst of eight, K 0", single(10, 35, 0, &[4; 8]));
    add("burst of eight, K 17", single(10, 35, 17, &[4; 8]));
    add("burst of eight, K is J", single(10, 35, 35, &[4; 8]));
    add("three bursts", single(7, 20, 15, &[0, 0, 0, 0, 30, 30, 30, 30, 31, 90, 90, 90, 90, 90]));
    add("falling gaps", single(20, 19, 5, &[0, 40, 70, 90, 100, 105, 107, 108, 108]));
    add("rising gaps", single(20, 19, 5, &[0, 0, 1, 3, 8, 18, 38, 78, 158]));
    add("period 1", single(1, 0, 0, &[0, 0, 0, 1, 2, 3, 9]));
    add("period 1, J 3", single(1, 3, 2, &[5, 5, 5, 5, 5, 6]));
    add("period and jitter 1000000", single(1_000_000, 1_000_000, 999_999, &[0, 0, 0, 1, 1_000_000]));
    add("largest ready ticks", single(1_000_000, 0, 0, &[1_000_000_000; 12]));
    add("burst at the limit, K 17", single(10, 35, 17, &[MAX_TICK; 8]));
    add("bursts at 0 and at the limit", single(7, 20, 15, &[0, 0, 0, 0, MAX_TICK, MAX_TICK, MAX_TICK, MAX_TICK]));
    add("each as early as the gaps allow", single(10, 35, 10, &[0, 0, 0, 0, 5, 15, 25]));
    add("one tick too early", single(10, 35, 10, &[0, 0, 0, 0, 5, 15, 24]));
    add("too close to the fifth before alone", single(10, 35, 10, &[0, 4, 4, 4, 5, 14]));
    let two = sheet(&[(6, 8, 2, 20), (9, 0, 1, 9)]);
    add("too close to one that is not its neighbour", ListCall::of(&two, &[8, 0], &list(&[(0, 0, 1), (1, 0, 1), (0, 0, 2), (1, 9, 1), (0, 9, 1), (0, 9, 1)])));
    add("task 1 too close first", ListCall::of(&two, &[3, 0], &list(&[(0, 0, 1), (1, 0, 1), (0, 0, 1), (1, 8, 1), (0, 8, 1), (0, 8, 1)])));
    add("task 0 too close first", ListCall::of(&two, &[3, 0], &list(&[(0, 0, 1), (1, 0, 1), (0, 0, 1), (0, 3, 1), (1, 8, 1)])));
    add("releases of other tasks between", ListCall::of(&printed_sheet(), &[0, 4, 0], &list(&[(0, 0, 1), (1, 0, 1), (2, 0, 1), (1, 1, 1), (0, 1, 1), (1, 2, 1), (2, 10, 1), (0, 12, 2), (1, 12, 2)])));
    all
}

/// Whole lists of the full sheet.
fn full() -> Vec<(String, ListCall)> {
    let (sheet, kept) = (full_sheet(), full_kept());
    let mut tight: Vec<Release> = tight_list(&sheet, 32);
    let legal = ListCall::of(&sheet, &kept, &tight);
    tight.truncate(1024);
    let last = tight.iter().rposition(|r| r.task == 31).unwrap();
    let mut early = legal.clone();
    early.task[last - 1] = 31;
    early.cost[last - 1] = 1;
    vec![
        ("1024 releases of 32 tasks".to_string(), ListCall::of(&sheet, &kept, &full_list())),
        ("1024 legal releases of 32 tasks".to_string(), legal),
        ("1024 releases, one of the last too close".to_string(), early),
        ("1024 releases of 32 tasks, around 1000000000".to_string(), ListCall::of(&sheet, &kept, &middle_list())),
        ("1024 releases of 32 tasks, up to the limit".to_string(), ListCall::of(&sheet, &kept, &late_list())),
        ("1024 legal releases of 32 tasks, past 4294967296".to_string(), ListCall::of(&sheet, &kept, &moved(&tight, (1 << 32) - 100))),
    ]
}

/// A sheet of one task with every number at its least or largest.
fn limits() -> Vec<(String, ListCall)> {
    let least: Sheet = sheet(&[(1, 0, 1, 1)]);
    let largest: Sheet = sheet(&[(1_000_000, 1_000_000, 1_000_000, 1_000_000)]);
    vec![
        ("least numbers".to_string(), ListCall::of(&least, &[0], &list(&[(0, 0, 1), (0, 1, 1)]))),
        ("largest numbers".to_string(), ListCall::of(&largest, &[1_000_000], &list(&[(0, 0, 1_000_000), (0, 1_000_000_000, 1_000_000)]))),
        ("largest numbers, last tick".to_string(), ListCall::of(&largest, &[1_000_000], &list(&[(0, 0, 1_000_000), (0, MAX_TICK, 1_000_000)]))),
    ]
}

/// Charges: 17; and that a charge changes no ready tick and no answer of the check.
fn charged(v: &mut Vectors) {
    for (label, c) in &charges() {
        add_trace(v, label, c);
    }
    for (label, c) in &kept_charges() {
        add_ready(v, label, c);
    }
    let both = shapes().into_iter().chain([("1024 releases of 32 tasks".to_string(), full().remove(0).1)]);
    for (label, mut c) in both {
        let (ready, trace) = (ready_answer(&c), trace_answer(&c));
        c.sheet.charge = c.sheet.tasks.iter().map(|t| t.p.min(t.d) - t.e).min().unwrap().min(255) as u8;
        if c.sheet.charge > 0 {
            let label = format!("charge {}, {label}", c.sheet.charge);
            v.worked(&format!("ready, {label}"), &ready_blocks(&c), &ready_answer(&c), &ready);
            v.worked(&format!("trace, {label}"), &trace_blocks(&c), &trace_answer(&c), &trace);
        }
    }
}

/// Marks change no ready tick, no answer of the check and no refusal.
fn marked(v: &mut Vectors) {
    for (label, c, high) in &marks() {
        v.worked(&format!("ready, {label}"), &ready_blocks(c), &ready_answer(c), &ready_answer(high));
        v.worked(&format!("trace, {label}"), &trace_blocks(c), &trace_answer(c), &trace_answer(high));
    }
}

pub fn vectors() -> Vectors {
    let mut v = Vectors::new();
    worked(&mut v);
    worked_late(&mut v);
    let both: Vec<_> = shapes().into_iter().chain(limits()).chain(full()).chain(refusals()).collect();
    for (label, c) in &both {
        add_trace(&mut v, label, c);
        add_ready(&mut v, label, c);
    }
    for (label, c) in &kept_refusals() {
        add_ready(&mut v, label, c);
    }
    charged(&mut v);
    marked(&mut v);
    v
}
