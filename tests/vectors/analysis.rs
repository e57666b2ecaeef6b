//! The cases of `vectors_analysis`: arrival count, verdict and choice.

use crate::case::*;
use crate::lists::{full_kept, full_sheet};
use crate::reference::{arrival_count, choice, verdict, Budget, Chosen, Frame, Sheet, Verdict};

const MILLION: u32 = 1_000_000;

/// What a call about one task is given; t matters to the arrival count alone.
#[derive(Clone)]
struct TaskCall {
    sheet: Sheet,
    task: u32,
    kept: Vec<u32>,
    t: u32,
}

fn about(sheet: &Sheet, task: u32, kept: &[u32], t: u32) -> TaskCall {
    TaskCall { sheet: sheet.clone(), task, kept: kept.to_vec(), t }
}

fn arrival_answer(c: &TaskCall) -> String {
    match arrival_count(&c.sheet, c.task as usize, &c.kept, c.t) {
        Err(r) => refused(r),
        Ok(n) => format!(" {n}"),
    }
}

fn verdict_answer(c: &TaskCall) -> String {
    let judged = match verdict(&c.sheet, c.task as usize, &c.kept, &mut Budget::of(u64::MAX)).ok().unwrap() {
        Err(r) => return refused(r),
        Ok(j) => j,
    };
    let line = match judged.verdict {
        Verdict::Horizon { q } => format!(" horizon q {q}"),
        Verdict::Late { q, r } => format!(" late q {q} R {r}"),
        Verdict::Fits { r, q } => format!(" fits R {r} q {q}"),
    };
    counted(&line, judged.evaluations)
}

/// The line of a verdict with the number of its evaluations.
fn counted(line: &str, evaluations: u64) -> String {
    format!("{line} evaluations {evaluations}")
}

fn arrival_blocks(c: &TaskCall) -> Vec<Vec<u8>> {
    vec![head(0, &[c.task, c.t], &c.sheet), numbers(&c.kept)]
}

fn verdict_blocks(c: &TaskCall) -> Vec<Vec<u8>> {
    [framed_head(1, &[c.task], &c.sheet), vec![numbers(&c.kept)]].concat()
}

/// What the choice is given.
#[derive(Clone)]
struct ChoiceCall {
    sheet: Sheet,
    kept: Vec<u32>,
    worst: Vec<u32>,
}

/// Two slots more than the sheet has tasks in each column.
fn choosing(sheet: &Sheet) -> ChoiceCall {
    ChoiceCall { sheet: sheet.clone(), kept: held(sheet.count + 2), worst: held(sheet.count + 2) }
}

fn choice_answer(c: &ChoiceCall) -> String {
    match choice(&c.sheet, c.kept.len(), c.worst.len(), &mut Budget::of(u64::MAX)).ok().unwrap() {
        Err(r) => refused(r) + &column(&c.kept) + &column(&c.worst),
        Ok(Chosen { kept, worst, high_only }) => {
            let which = if high_only { "high only" } else { "fits" };
            format!(" {which}{}{}", column(&written(&kept, &c.kept)), column(&written(&worst, &c.worst)))
        }
    }
}

fn choice_blocks(c: &ChoiceCall) -> Vec<Vec<u8>> {
    [framed_head(2, &[], &c.sheet), vec![numbers(&c.kept), numbers(&c.worst)]].concat()
}

fn add_arrivals(v: &mut Vectors, label: &str, c: &TaskCall) {
    v.case(&format!("arrivals, {label}"), &arrival_blocks(c), &arrival_answer(c));
}

fn add_verdict(v: &mut Vectors, label: &str, c: &TaskCall) {
    v.case(&format!("verdict, {label}"), &verdict_blocks(c), &verdict_answer(c));
}

/// A verdict that was worked out by hand, with its evaluations.
fn worked_verdict(v: &mut Vectors, label: &str, c: &TaskCall, line: &str, evaluations: u64) {
    v.worked(&format!("verdict, {label}"), &verdict_blocks(c), &verdict_answer(c), &counted(line, evaluations));
}

fn add_choice(v: &mut Vectors, label: &str, c: &ChoiceCall) {
    v.case(&format!("choice, {label}"), &choice_blocks(c), &choice_answer(c));
}

/// The printed sheet with another deadline for one task.
fn with_deadline(task: usize, d: u32) -> Sheet {
    let mut s = printed_sheet();
    s.tasks[task].d = d;
    s
}

/// Sums 1 and 6 to 11.
fn worked_tasks(v: &mut Vectors) {
    let s = printed_sheet();
    for (t, line) in [(0, " 0"), (1, " 1"), (2, " 2"), (7, " 2"), (8, " 3")] {
        let c = about(&s, 0, &[5, 7, 0], t);
        v.worked(&format!("arrivals, sum 1, t {t}"), &arrival_blocks(&c), &arrival_answer(&c), line);
    }
    let most = about(&sheet(&[(1, MILLION, 1, 1)]), 0, &[MILLION], u32::MAX);
    v.worked("arrivals, most", &arrival_blocks(&most), &arrival_answer(&most), " 4295967295");
    let mut add = |label: &str, sheet: &Sheet, task: u32, kept: &[u32], line: &str, evaluations: u64| {
        worked_verdict(v, label, &about(sheet, task, kept, 0), line, evaluations);
    };
    // With K = J = 7, R(0) is W(0) + 1 and R(1) is W(1): 5 and 8.
    add("sum 6, W(0)", &with_deadline(1, 4), 1, &[1, 7, 0], " late q 0 R 5", 1);
    add("sum 6, W(1)", &with_deadline(1, 7), 1, &[1, 7, 0], " late q 1 R 8", 3);
    add("sum 7, K 2", &s, 1, &[1, 2, 0], " late q 0 R 10", 1);
    add("sum 7, K 3", &s, 1, &[1, 3, 0], " late q 0 R 9", 1);
    add("sum 7, K 4", &s, 1, &[1, 4, 0], " fits R 8 q 0", 1);
    add("sum 8, W(0)", &with_deadline(1, 6), 1, &[5, 7, 0], " late q 0 R 7", 2);
    add("sum 8", &s, 1, &[5, 7, 0], " late q 1 R 10", 5);
    add("sum 9", &s, 2, &[1, 3, 0], " late q 0 R 11", 2);
    add("sum 9, D 9", &with_deadline(2, 9), 2, &[1, 3, 0], " late q 0 R 11", 2);
    add("sum 9, D 11", &with_deadline(2, 11), 2, &[1, 3, 0], " fits R 11 q 0", 2);
    add("sum 10", &s, 2, &[5, 7, 0], " late q 0 R 17", 4);
    let busy = sheet(&[(1, 0, 1, 1), (1, 0, 1, 1)]);
    add("sum 11, task 0", &busy, 0, &[0, 0], " late q 0 R 2", 1);
    add("sum 11, task 1", &busy, 1, &[0, 0], " horizon q 0", 10_000_000);
}

/// R-2's figures on the printed sheet; R(q) at D and one over it; and the stop of the walk, which has no pickup.
fn picked_up_tasks(v: &mut Vectors) {
    let mut add = |label: &str, sheet: &Sheet, task: u32, kept: &[u32], line: &str, evaluations: u64| {
        worked_verdict(v, &format!("pickup, {label}"), &about(sheet, task, kept, 0), line, evaluations);
    };
    let s = printed_sheet();
    // W(0) is 2, R(0) is 2 + 1 + 5 − K.
    add("task 0, K 1", &s, 0, &[1, 0, 0], " late q 0 R 7", 1);
    add("task 0, K 2", &s, 0, &[2, 0, 0], " fits R 6 q 0", 1);
    // W(0) is 4, R(0) is 4 + 1 + 7 − K.
    add("task 1, K 3", &s, 1, &[2, 3, 0], " late q 0 R 9", 1);
    add("task 1, K 4", &s, 1, &[2, 4, 0], " fits R 8 q 0", 1);
    // W(0) is 10.
    add("task 2", &s, 2, &[2, 4, 0], " late q 0 R 11", 2);
    add("task 2, D 11", &with_deadline(2, 11), 2, &[2, 4, 0], " fits R 11 q 0", 2);
    // W(0) is 3.
    add("R(0) is D", &sheet(&[(10, 0, 3, 4)]), 0, &[0], " fits R 4 q 0", 1);
    add("R(0) is D + 1", &sheet(&[(10, 0, 3, 3)]), 0, &[0], " late q 0 R 4", 1);
    add("D 1", &sheet(&[(10, 0, 1, 1)]), 0, &[0], " late q 0 R 2", 1);
    add("D 2", &sheet(&[(10, 0, 1, 2)]), 0, &[0], " fits R 2 q 0", 1);
    // W is 2, 4. With K 7 R is 3, 4, and d_7 is 1, 9: W(0) is over d_7(1) by 1. With K 6 R(0) is 4, and W(0) is d_6(1).
    add("R(1) is D", &sheet(&[(8, 7, 2, 4)]), 0, &[7], " fits R 4 q 1", 2);
    add("R(1) is D + 1", &sheet(&[(8, 7, 2, 3)]), 0, &[7], " late q 1 R 4", 2);
    add("W(0) is d(1) + 1", &sheet(&[(8, 7, 2, 8)]), 0, &[7], " fits R 4 q 1", 2);
    add("W(0) is d(1), K 6", &sheet(&[(8, 7, 2, 8)]), 0, &[6], " fits R 4 q 0", 1);
    // W(q) is d_0(q + 1) for every q: a walk that does not stop at q 0 goes up to the horizon.
    add("W(0) is d(1), period 1", &sheet(&[(1, 0, 1, 2)]), 0, &[0], " fits R 2 q 0", 1);
    add("W(0) is d(1), period 5", &sheet(&[(5, 0, 5, 6)]), 0, &[0], " fits R 6 q 0", 1);
    add("W(0) is d(1), a task above", &sheet(&[(4, 0, 2, 4), (8, 0, 4, 9)]), 1, &[0, 0], " fits R 9 q 0", 2);
    // W is 7, 10, d_0 is 5, 10, R is 8, 6.
    add("W(1) is d(2)", &sheet(&[(10, 0, 4, 10), (5, 0, 3, 8)]), 1, &[0, 0], " fits R 8 q 0", 2);
    add("W(1) is d(2), D one less", &sheet(&[(10, 0, 4, 10), (5, 0, 3, 7)]), 1, &[0, 0], " late q 0 R 8", 1);
    // W is 7, 10, d_5 is 3, 11, R is 8, 8.
    add("R(0) is R(1)", &sheet(&[(100, 0, 4, 100), (8, 5, 3, 8)]), 1, &[0, 5], " fits R 8 q 0", 2);
    // W(0) is the horizon and J the largest.
    let largest = sheet(&[(MILLION, 0, 999_999, MILLION), (MILLION, MILLION, 10, MILLION)]);
    add("largest R", &largest, 1, &[0, 0], " late q 0 R 11000001", 10);
}

/// Lists of t and how many evaluations they are.
fn counted_tasks(v: &mut Vectors) {
    let mut add = |label: &str, sheet: &Sheet, task: u32, kept: &[u32], line: &str, evaluations: u64| {
        worked_verdict(v, &format!("evaluations, {label}"), &about(sheet, task, kept, 0), line, evaluations);
    };
    let (s, large) = (printed_sheet(), (MILLION, 0, MILLION, MILLION));
    add("no task above", &s, 0, &[2, 4, 0], " fits R 6 q 0", 1);
    add("t 4", &s, 1, &[2, 4, 0], " fits R 8 q 0", 1);
    add("t 4, 6", &with_deadline(1, 6), 1, &[5, 7, 0], " late q 0 R 7", 2);
    add("t 4, 6 and 6, 8, 10", &s, 1, &[5, 7, 0], " late q 1 R 10", 5);
    add("t 7, 9, 11", &sheet(&[(4, 0, 2, 4), (100, 0, 5, 100)]), 1, &[0, 0], " fits R 12 q 0", 3);
    add("t 6, 10, 14, 16", &s, 2, &[5, 7, 0], " late q 0 R 17", 4);
    // 7, 10, 13, 16 and 11, 17, 23, 26, 29, 32: demand is 4(q + 1) + 3σ(t).
    add("four and six t, with a charge", &sheet(&[(4, 0, 1, 4), (8, 0, 2, 17)]).charged(2), 1, &[0, 0], " late q 1 R 25", 4 + 6);
    // W(q) is (q + 1)P, each with one t: with K 1 the walk does not stop, and R is P + 1, then P + 2, up to the first t over H.
    add("a first t over H, q 10", &sheet(&[(999_998, 1, 999_998, MILLION)]), 0, &[1], " horizon q 10", 11);
    add("a first t over H, q 10, D one less", &sheet(&[(999_998, 1, 999_998, 999_999)]), 0, &[1], " late q 1 R 1000000", 2);
    add("a first t over H, q 100, with a charge", &sheet(&[(100_000, 1, 99_745, MILLION)]).charged(255), 0, &[1], " horizon q 100", 101);
    add("over 2^16, with a charge", &sheet(&[(100, 1, 90, 102)]).charged(10), 0, &[1], " horizon q 100000", 100_001);
    // One E of each task is over H; or it is H, and the demand in it is over H.
    add("a first t over H, q 0", &sheet(&[large; 11]), 10, &[0; 11], " horizon q 0", 1);
    add("H and a t over it", &sheet(&[large; 11]), 9, &[0; 11], " horizon q 0", 2);
    // 2,000,000, 3,000,000, .. 11,000,000.
    add("a last t over H", &sheet(&[large; 2]), 1, &[0; 2], " horizon q 0", 10);
    // Of q 0 99,999 and 100,099. Of each q up to 99 (q + 1) × 99,899, and 100 times 1, q + 1 and q + 2, which is W(q).
    let many = sheet(&[(100_000, 101, 100, 101), (100_000, 0, 99_899, 200_000)]);
    add("100 q", &many, 1, &[101, 0], " fits R 100100 q 0", 2 + 99 * 3);
    add("100 q, with a charge", &part_charged(&many, 99), 1, &[101, 0], " fits R 100100 q 0", 2 + 99 * 3);
    let longer = sheet(&[(1000, 1, 500, 502), (1000, 500, 500, MILLION)]);
    add_verdict(v, "evaluations, 10,000 q, with a charge", &about(&part_charged(&longer, 200), 1, &[1, 500], 0));
}

/// The choice of the printed sheet, and choices that follow from the sums.
fn worked_choices(v: &mut Vectors) {
    let mut add = |label: &str, sheet: &Sheet, line: &str| {
        let c = choosing(sheet);
        v.worked(&format!("choice, {label}"), &choice_blocks(&c), &choice_answer(&c), line);
    };
    add("printed sheet", &printed_sheet(), " refused 15 at 2, - - - - -, - - - - -");
    add("printed sheet, D 11", &folder_sheet(), " fits, 2 4 0 - -, 6 8 11 - -");
    add("printed sheet, D 9", &with_deadline(2, 9), " refused 15 at 2, - - - - -, - - - - -");
    add("printed sheet, tasks 0 and 1", &sheet(&[(6, 5, 2, 6), (8, 7, 2, 8)]), " fits, 2 4 - -, 6 8 - -");
    add("sum 11, one task", &sheet(&[(1, 0, 1, 1)]), " refused 15 at 0, - - -, - - -");
    add("sum 11, two tasks", &sheet(&[(1, 0, 1, 1), (1, 0, 1, 1)]), " refused 15 at 0, - - - -, - - - -");
    add("sum 11, one task, D 2", &sheet(&[(1, 0, 1, 2)]), " fits, 0 - -, 2 - -");
    add("sum 11, two tasks, D 2", &sheet(&[(1, 0, 1, 2), (1, 0, 1, 2)]), " refused 15 at 1, - - - -, - - - -");
    // R(0) is 3 + 1 + 4 − K.
    add("pickup, K 2", &sheet(&[(10, 4, 3, 6)]), " fits, 2 - -, 6 - -");
    add("pickup, K 0 and R is D", &sheet(&[(10, 4, 3, 8)]), " fits, 0 - -, 8 - -");
    add("pickup, K is J", &sheet(&[(10, 4, 3, 4)]), " fits, 4 - -, 4 - -");
    add("pickup, R over D at every K", &sheet(&[(10, 4, 3, 3)]), " refused 15 at 0, - - -, - - -");
    // W is 2, 4. R(0) is 2 + 1 + 7 − K; with K 7 R(1) is 4 + 1 − 1. W(0) is d_6(1).
    add("pickup, W(0) is d(1)", &sheet(&[(8, 7, 2, 4)]), " fits, 6 - -, 4 - -");
    add("pickup, R(1) over D", &sheet(&[(8, 7, 2, 3)]), " refused 15 at 0, - - -, - - -");
    // W is 2, 4. R(0) is 2 + 1 + 7 − K. With K 5 and more W(0) is over d_K(1), and R(1) is 4 + 1.
    add("pickup, R(1) is D", &sheet(&[(6, 7, 2, 5)]), " fits, 5 - -, 5 - -");
    add("pickup, R(1) is D + 1", &sheet(&[(6, 7, 2, 4)]), " refused 15 at 0, - - -, - - -");
}

/// Choices that the reference is too slow for, since it walks to the horizon for each of a million K.
fn worked_by_hand_alone(v: &mut Vectors) {
    // Task 0 keeps 1 (R(0) = 1 + 1 + 1 − K, D 2), so that for task 1 W(q) is 2q + 3. That is over d_K(q + 1) ≤ 2q + 2 for every K and q.
    let c = choosing(&sheet(&[(2, 1, 1, 2), (2, 999_990, 1, MILLION)]));
    v.case("choice, no K fits up to the horizon", &choice_blocks(&c), " refused 15 at 1, - - - -, - - - -");
    // W(q) is q + 1. At K 0 and 1 R(0) is over 1,000,000; at any other K W(q) is over d_K(q + 1) for every q.
    let c = choosing(&sheet(&[(1, MILLION, 1, MILLION)]));
    v.case("choice, period 1, largest jitter", &choice_blocks(&c), " refused 15 at 0, - - -, - - -");
}

fn arrivals(v: &mut Vectors) {
    let s = sheet(&[(7, 20, 2, 9), (MILLION, MILLION, 1, 5), (3, 2, 3, 3)]);
    for (task, kept) in [(0, [0, 0, 0]), (0, [20, 0, 0]), (1, [0, MILLION, 0]), (1, [0, 999_999, 0]), (2, [0, 0, 2])] {
        for t in [0, 1, 2, 7, 8, 1_000_000, 1_000_001, 10_000_000, u32::MAX - 1, u32::MAX] {
            let label = format!("task {task}, K {}, t {t}", kept[task as usize]);
            add_arrivals(v, &label, &about(&s, task, &kept, t));
        }
    }
}

/// Sheets at the limits of each number, and relations between the numbers of a task.
fn edges() -> Vec<(&'static str, Sheet)> {
    vec![
        ("J over P", sheet(&[(10, 35, 3, 40), (20, 70, 3, 90), (50, 120, 10, 200)])),
        ("D over P", sheet(&[(10, 4, 4, 30), (14, 5, 5, 60), (25, 3, 5, 100)])),
        ("E is P", sheet(&[(5, 0, 5, 5)])),
        ("E is P, D one more", sheet(&[(5, 0, 5, 6)])),
        ("E is P, D over P", sheet(&[(5, 3, 5, 20)])),
        ("E is P, J over P", sheet(&[(5, 11, 5, 17)])),
        ("E is P, J over P, D one less", sheet(&[(5, 11, 5, 16)])),
        ("E is D", sheet(&[(9, 0, 4, 4), (20, 0, 5, 13)])),
        ("E is D, J 1", sheet(&[(9, 1, 4, 4), (20, 0, 5, 13)])),
        ("D is E + 1", sheet(&[(9, 0, 4, 5), (20, 0, 5, 14)])),
        ("D is E + 1, J 1", sheet(&[(9, 1, 4, 5), (20, 0, 5, 14)])),
        ("whole processor", sheet(&[(4, 0, 2, 4), (8, 0, 2, 8), (16, 0, 4, 17)])),
        ("whole processor, D is P", sheet(&[(4, 0, 2, 4), (8, 0, 2, 8), (16, 0, 4, 16)])),
        ("whole processor and one more", sheet(&[(4, 0, 2, 4), (8, 0, 2, 8), (16, 0, 4, 17), (1000, 0, 1, 1000)])),
        ("over the whole processor", sheet(&[(4, 0, 2, 4), (8, 0, 4, 16), (16, 0, 1, 64)])),
        ("least numbers", sheet(&[(1, 0, 1, 1)])),
        ("least numbers that fit", sheet(&[(1, 0, 1, 2)])),
        ("period 1, J is D", sheet(&[(1, 60, 1, 60)])),
        ("period 1, D is J + 1", sheet(&[(1, 60, 1, 61)])),
        ("period 1, D is J + 2", sheet(&[(1, 60, 1, 62)])),
        ("largest numbers", sheet(&[(MILLION, MILLION, MILLION, MILLION)])),
        ("largest numbers, E one less", sheet(&[(MILLION, MILLION, 999_999, MILLION)])),
        ("largest numbers, J 0", sheet(&[(MILLION, 0, MILLION, MILLION)])),
        ("largest numbers, J 0, E one less", sheet(&[(MILLION, 0, 999_999, MILLION)])),
        ("largest P, J and D, E 1", sheet(&[(MILLION, MILLION, 1, MILLION)])),
        ("D 1", sheet(&[(MILLION, MILLION, 1, 1)])),
        ("D 2", sheet(&[(MILLION, MILLION, 1, 2)])),
        ("no K is enough", sheet(&[(6, 5, 2, 3)])),
    ]
}

/// W(0) at and over the horizon. With one task above, of cost P − 1 and kept jitter K, W(0) = e + (e + K)(P − 1) for a cost e.
fn horizon(v: &mut Vectors) {
    let at = sheet(&[(MILLION, 0, 999_999, MILLION), (50, 9, 10, MILLION)]);
    add_verdict(v, "W(0) is the horizon", &about(&at, 1, &[0, 9], 0));
    add_verdict(v, "W(0) is the horizon, K 0", &about(&at, 1, &[0, 0], 0));
    let also = sheet(&[(909_091, 1, 909_090, MILLION), (50, 9, 10, MILLION), (50, 0, 11, MILLION)]);
    add_verdict(v, "W(0) is the horizon, K 1 above", &about(&also, 1, &[1, 9, 0], 0));
    let over = sheet(&[(909_091, 1, 909_090, MILLION), (50, 0, 11, MILLION)]);
    add_verdict(v, "W(0) one over the horizon", &about(&over, 1, &[0, 0], 0));
    let far = sheet(&[(MILLION, 0, 999_999, MILLION), (50, 9, 11, MILLION)]);
    add_verdict(v, "W(0) far over the horizon", &about(&far, 1, &[0, 0], 0));
    // W(q) = (q + 1)P + (99 − q), so that the stop is met at q 99 first, where W is the horizon.
    let stop = sheet(&[(100_000, 101, 100, 101), (100_000, 0, 99_899, 200_000)]);
    add_verdict(v, "fits with W(99) at the horizon", &about(&stop, 1, &[101, 0], 0));
    add_choice(v, "fits with W(99) at the horizon", &choosing(&stop));
    let beyond = sheet(&[(100_000, 102, 101, 102), (100_000, 0, 99_898, 200_000)]);
    add_verdict(v, "W(99) one over the horizon", &about(&beyond, 1, &[102, 0], 0));
    add_choice(v, "W(99) one over the horizon", &choosing(&beyond));
    let late_q = sheet(&[(2000, 1, 1000, 1002), (2000, 1500, 1000, MILLION)]);
    add_verdict(v, "horizon at a late q", &about(&late_q, 1, &[1, 1500], 0));
    add_verdict(v, "horizon at a late q, K 0", &about(&late_q, 1, &[1, 0], 0));
    add_choice(v, "horizon at a late q", &choosing(&late_q));
    let kept = sheet(&[(2000, 1, 1000, 1001), (2000, 1500, 1000, MILLION)]);
    add_choice(v, "horizon at a late q, K 1 above", &choosing(&kept));
}

/// W(0) where the arrival count of the tasks above steps. Tasks of period P and kept jitter K leave `free` ticks of each P, above a cost of
/// k × free − K: at each multiple of P before the k-th, less K, some ticks are missing, and at that one none. R(0) is kP − K + 1.
fn steps(v: &mut Vectors) {
    let mut add = |p: u32, k: u32, keep: u32, free: u32| {
        for above in [1, 5, 31].into_iter().filter(|&n| n <= p - free) {
            let part = |j: u32| (p - free) / above + (j < (p - free) % above) as u32;
            let mut all: Vec<_> = (0..above).map(|j| (p, keep, part(j), MILLION)).collect();
            all.push((MILLION, 0, k * free - keep, MILLION));
            let mut kept = vec![keep; above as usize];
            kept.push(0);
            let c = about(&sheet(&all), above, &kept, 0);
            let answer = verdict_answer(&c);
            assert!(answer.starts_with(&format!(" late q 0 R {} ", k * p - keep + 1)), "{answer}");
            v.case(&format!("verdict, step {k} of period {p}, K {keep}, {above} above"), &verdict_blocks(&c), &answer);
        }
    };
    for (p, k) in [(2, 1_000_000), (3, 1_000_000), (7, 1_000_000), (10, 1_000_000), (11, 909_090), (12, 833_333), (13, 769_230)] {
        add(p, k, 0, 1);
        add(p, k, p - 1, 1);
    }
    for p in [1_023, 1_024, 1_025, 65_535, 65_536, 65_537, 524_287, 524_288, 524_289] {
        add(p, 10_000_000 / p, 0, 1);
        add(p, 10_000_000 / p, 1, 1);
    }
    for p in [999_979, 999_983, 999_998, 999_999, MILLION] {
        add(p, 10, 0, 1);
        add(p, 10, 9, 1);
        add(p, 11, p, 90_910);
    }
}

/// 32 tasks that load a part of the processor.
fn loaded(per_mille: u32, jitter: u32, deadlines: u32) -> Sheet {
    let all: Vec<_> = (0..32u32)
        .map(|i| {
            let p = 400 + 97 * i + 13 * (i * i % 7);
            let e = (p * per_mille / 32_000).max(1);
            (p, p * jitter / 100 + i % 5, e, (p * deadlines / 100 + 12 * i).max(e))
        })
        .collect();
    sheet(&all)
}

fn full(v: &mut Vectors) {
    for (per_mille, jitter, deadlines) in
        [(300, 0, 90), (400, 100, 100), (300, 90, 80), (500, 60, 70), (300, 160, 110), (900, 50, 400), (980, 5, 700), (1010, 0, 700)]
    {
        let s = loaded(per_mille, jitter, deadlines);
        let label = format!("32 tasks, load {per_mille}, jitter {jitter}, deadlines {deadlines}");
        let whole: Vec<u32> = s.tasks.iter().map(|t| t.j).collect();
        for i in [0, 15, 31] {
            add_verdict(v, &format!("{label}, task {i}, K is J"), &about(&s, i, &whole, 0));
            add_verdict(v, &format!("{label}, task {i}, K 0"), &about(&s, i, &[0; 32], 0));
        }
        add_choice(v, &label, &choosing(&s));
    }
    for i in 0..32 {
        add_verdict(v, &format!("full sheet, task {i}"), &about(&full_sheet(), i, &full_kept(), 0));
    }
    add_choice(v, "full sheet", &choosing(&full_sheet()));
}

/// Small sheets: each task's verdict and the choice.
fn small(v: &mut Vectors) {
    let mut m = Mixer::from(7);
    for n in 0..40 {
        let all: Vec<_> = (0..m.within(1, 4))
            .map(|_| {
                let p = m.within(3, 30);
                let e = m.within(1, 1 + p / 4);
                (p, m.within(0, 2 * p), e, m.within(e, 3 * p + 10))
            })
            .collect();
        let s = sheet(&all);
        let kept: Vec<u32> = s.tasks.iter().map(|t| m.within(0, t.j)).collect();
        for i in 0..s.count {
            add_verdict(v, &format!("small sheet {n}, task {i}"), &about(&s, i as u32, &kept, 0));
        }
        add_choice(v, &format!("small sheet {n}"), &choosing(&s));
    }
}

/// The refusals of a call about one task.
fn task_refusals() -> Vec<(&'static str, TaskCall)> {
    let of = |change: fn(&mut TaskCall)| {
        let mut c = about(&printed_sheet(), 1, &[2, 4, 0], 8);
        change(&mut c);
        c
    };
    vec![
        ("count 0", of(|c| c.sheet.count = 0)),
        ("count 33", of(|c| c.sheet.count = 33)),
        ("P 0 of task 2", of(|c| c.sheet.tasks[2].p = 0)),
        ("E over D of task 0", of(|c| c.sheet.tasks[0].d = 1)),
        ("J 1000001 of task 1", of(|c| c.sheet.tasks[1].j = 1_000_001)),
        ("D 1000001 of task 1", of(|c| c.sheet.tasks[1].d = 1_000_001)),
        ("task 3", of(|c| c.task = 3)),
        ("task 32", of(|c| c.task = 32)),
        ("task 4294967295", of(|c| c.task = u32::MAX)),
        ("kept column short", of(|c| c.kept.truncate(2))),
        ("no kept column", of(|c| c.kept.clear())),
        ("kept column longer", of(|c| c.kept.push(99))),
        ("K over J of task 0", of(|c| c.kept[0] = 6)),
        ("K over J of task 1", of(|c| c.kept[1] = 8)),
        ("K over J of the task below", of(|c| c.kept[2] = 1)),
        ("K over J of tasks 1 and 2", of(|c| c.kept = vec![5, u32::MAX, 1])),
        ("6 before 14", of(|c| {
            c.sheet.tasks[2].p = 0;
            c.task = 3;
        })),
        ("14 before 13", of(|c| {
            c.task = 5;
            c.kept.clear();
        })),
        ("13 before 12", of(|c| c.kept = vec![6, 8])),
        ("5 before 14", of(|c| {
            c.sheet.count = 0;
            c.task = 0;
        })),
        ("4 before 6", of(|c| {
            c.sheet.count = 33;
            c.sheet.tasks[0].p = 0;
        })),
        ("an entry past the count out of range", of(|c| c.sheet.tasks.push(task(0, 0, 0, 0)))),
    ]
}

/// The refusals of the choice.
fn choice_refusals() -> Vec<(&'static str, ChoiceCall)> {
    let of = |change: fn(&mut ChoiceCall)| {
        let mut c = choosing(&folder_sheet());
        change(&mut c);
        c
    };
    vec![
        ("count 0", of(|c| c.sheet.count = 0)),
        ("count 33", of(|c| c.sheet.count = 33)),
        ("P 0 of task 2", of(|c| c.sheet.tasks[2].p = 0)),
        ("kept column short", of(|c| c.kept.truncate(2))),
        ("worst column short", of(|c| c.worst.truncate(2))),
        ("no column", of(|c| {
            c.kept.clear();
            c.worst.clear();
        })),
        ("columns as long as the sheet", of(|c| {
            c.kept.truncate(3);
            c.worst.truncate(3);
        })),
        ("6 before 13", of(|c| {
            c.sheet.tasks[1].e = 0;
            c.kept.clear();
        })),
        ("13 before 15", of(|c| {
            c.sheet.tasks[0].d = 3;
            c.worst.truncate(1);
        })),
        ("no K fits task 0", of(|c| c.sheet.tasks[0].d = 3)),
        ("no K fits task 1", of(|c| c.sheet.tasks[1].d = 4)),
        ("slots hold numbers, accepted", of(|c| {
            c.kept = vec![11, 22, 33, 44];
            c.worst = vec![55, 66, 77, 88];
        })),
        ("slots hold numbers, 15", of(|c| {
            c.sheet.tasks[2].d = 10;
            c.kept = vec![11, 22, 33, 44];
            c.worst = vec![55, 66, 77, 88];
        })),
        ("an entry past the count out of range", of(|c| c.sheet.tasks.push(task(0, 0, 0, 0)))),
    ]
}

/// Verdicts with a charge.
fn charged_tasks(v: &mut Vectors) {
    let mut add = |label: &str, sheet: &Sheet, task: u32, kept: &[u32], line: &str, evaluations: u64| {
        worked_verdict(v, &format!("charge, {label}"), &about(sheet, task, kept, 0), line, evaluations);
    };
    // Without a charge W(0) of task 1 is 2 + 1 = 3. With 1 the demand is 3 + 2σ(t), so that it is 7. With 2 it is 4 + 3σ(t): t − 4 is at
    // least 3σ(t) first at t = 16, where σ is 4.
    let two = |d: u32| sheet(&[(4, 0, 1, 4), (8, 0, 2, d)]);
    add("none", &two(4), 1, &[0, 0], " fits R 4 q 0", 1);
    add("1", &two(4).charged(1), 1, &[0, 0], " late q 0 R 8", 2);
    add("1, D 8", &two(8).charged(1), 1, &[0, 0], " fits R 8 q 0", 2);
    add("2, D 16", &two(16).charged(2), 1, &[0, 0], " late q 0 R 17", 4);
    // R(0) is E + S + 1.
    add("R(0) is D", &sheet(&[(10, 0, 1, 4)]).charged(2), 0, &[0], " fits R 4 q 0", 1);
    add("R(0) is D + 1", &sheet(&[(10, 0, 1, 3)]).charged(2), 0, &[0], " late q 0 R 4", 1);
    add("255, R(0) is D", &sheet(&[(900, 0, 1, 257)]).charged(255), 0, &[0], " fits R 257 q 0", 1);
    add("255, R(0) is D + 1", &sheet(&[(900, 0, 1, 256)]).charged(255), 0, &[0], " late q 0 R 257", 1);
    // E + S is P: W(q) is d_0(q + 1).
    add("E + S is P", &sheet(&[(5, 0, 2, 6)]).charged(3), 0, &[0], " fits R 6 q 0", 1);
    // W is 3, 6. With K 7 R is 4, 6, and d_7 is 1, 9.
    add("R(1)", &sheet(&[(8, 7, 2, 6)]).charged(1), 0, &[7], " fits R 6 q 1", 2);
    add("R(1) is D + 1", &sheet(&[(8, 7, 2, 5)]).charged(1), 0, &[7], " late q 1 R 6", 2);
    // The printed sheet: R(0) of task 0 is 3 + 1 + 5 − K, of task 1 with K 3 above 9 + 1 + 7 − K.
    add("printed sheet, task 0, K 3", &printed_sheet().charged(1), 0, &[3, 0, 0], " fits R 6 q 0", 1);
    add("printed sheet, task 0, K 2", &printed_sheet().charged(1), 0, &[2, 0, 0], " late q 0 R 7", 1);
    add("printed sheet, task 1", &printed_sheet().charged(1), 1, &[3, 7, 0], " late q 0 R 10", 2);
    // Both tasks take the whole processor, and there is no W(0).
    let busy = sheet(&[(2, 0, 1, 2), (2, 0, 1, 2)]);
    add("horizon", &busy.charged(1), 1, &[0, 0], " horizon q 0", 5_000_000);
    // W(0) is the horizon: the task above leaves 1 tick of each 1,000,000, and 10 are needed.
    let at = sheet(&[(MILLION, 0, 999_744, MILLION), (MILLION, 0, 1, MILLION)]);
    add("no horizon", &at, 1, &[0, 0], " fits R 999746 q 0", 1);
    let far = sheet(&[(MILLION, 0, 999_990, MILLION), (50, 9, 1, MILLION)]);
    add("W(0) is the horizon", &far.charged(9), 1, &[0, 9], " late q 0 R 10000001", 10);
    add("W(0) over the horizon", &sheet(&[(MILLION, 0, 999_989, MILLION), (50, 9, 1, MILLION)]).charged(10), 1, &[0, 9], " horizon q 0", 10);
}

/// Choices with a charge.
fn charged_choices(v: &mut Vectors) {
    let mut add = |label: &str, sheet: &Sheet, line: &str| {
        let c = choosing(sheet);
        v.worked(&format!("choice, charge, {label}"), &choice_blocks(&c), &choice_answer(&c), line);
    };
    let two = |d: u32| sheet(&[(4, 0, 1, 4), (8, 0, 2, d)]);
    add("none", &two(4), " fits, 0 0 - -, 2 4 - -");
    add("1", &two(4).charged(1), " refused 15 at 1, - - - -, - - - -");
    add("1, D 8", &two(8).charged(1), " fits, 0 0 - -, 3 8 - -");
    // R(0) is E + S + 1 + 4 − K.
    add("K is one more", &sheet(&[(10, 4, 3, 6)]).charged(1), " fits, 3 - -, 6 - -");
    add("K is J", &sheet(&[(10, 4, 3, 6)]).charged(2), " fits, 4 - -, 6 - -");
    add("over J", &sheet(&[(10, 4, 3, 6)]).charged(3), " refused 15 at 0, - - -, - - -");
    add("over D", &sheet(&[(10, 4, 3, 6)]).charged(4), " refused 17 at 0, - - -, - - -");
    add("printed sheet, D 11", &folder_sheet().charged(1), " refused 15 at 1, - - - - -, - - - - -");
    add("printed sheet, D 11, 4", &folder_sheet().charged(4), " refused 15 at 0, - - - - -, - - - - -");
    add("printed sheet, D 11, 5", &folder_sheet().charged(5), " refused 17 at 0, - - - - -, - - - - -");
    add("255", &sheet(&[(900, 0, 1, 257)]).charged(255), " fits, 0 - -, 257 - -");
}

/// Sheets of the cases without a charge, with one that is taken off each cost: the same verdicts and choices.
fn charged_parts(v: &mut Vectors) {
    let mut sheets: Vec<(String, Sheet)> = edges().into_iter().map(|(label, s)| (label.to_string(), s)).collect();
    for (per_mille, jitter, deadlines) in [(300, 0, 90), (900, 50, 400), (1010, 0, 700)] {
        sheets.push((format!("32 tasks, load {per_mille}, jitter {jitter}, deadlines {deadlines}"), loaded(per_mille, jitter, deadlines)));
    }
    for (label, s) in &sheets {
        let charge = (s.tasks.iter().map(|t| t.e).min().unwrap() - 1).min(255) as u8;
        if charge == 0 {
            continue;
        }
        let (part, label) = (part_charged(s, charge), format!("charge {charge}, {label}"));
        let whole: Vec<u32> = s.tasks.iter().map(|t| t.j).collect();
        for i in if s.count > 1 { vec![0, s.count - 1] } else { vec![0] } {
            let c = about(&part, i as u32, &whole, 0);
            let answer = verdict_answer(&about(s, i as u32, &whole, 0));
            v.worked(&format!("verdict, {label}, task {i}"), &verdict_blocks(&c), &verdict_answer(&c), &answer);
        }
        let c = choosing(&part);
        v.worked(&format!("choice, {label}"), &choice_blocks(&c), &choice_answer(&c), &choice_answer(&choosing(s)));
    }
}

/// Small sheets with a charge of 1, 2 or 3, some of which are refused with 17.
fn charged_small(v: &mut Vectors) {
    let mut m = Mixer::from(11);
    for n in 0..40 {
        let all: Vec<_> = (0..m.within(1, 4))
            .map(|_| {
                let p = m.within(6, 60);
                let e = m.within(1, 1 + p / 8);
                (p, m.within(0, 2 * p), e, m.within(e + 2, 3 * p + 10))
            })
            .collect();
        let s = sheet(&all).charged(m.within(1, 3) as u8);
        let kept: Vec<u32> = s.tasks.iter().map(|t| m.within(0, t.j)).collect();
        for i in 0..s.count {
            add_verdict(v, &format!("charge {}, small sheet {n}, task {i}", s.charge), &about(&s, i as u32, &kept, 0));
        }
        add_choice(v, &format!("charge {}, small sheet {n}", s.charge), &choosing(&s));
    }
}

/// 17 and what decides, in each of the three calls. The tasks of the printed sheet hold up to 4.
fn charged_checks(v: &mut Vectors) {
    let mut add = |label: &str, change: &dyn Fn(&mut TaskCall)| {
        let mut c = about(&printed_sheet(), 1, &[2, 4, 0], 8);
        change(&mut c);
        add_arrivals(v, &format!("charge, {label}"), &c);
        add_verdict(v, &format!("charge, {label}"), &c);
        add_choice(v, &format!("charge, {label}"), &choosing_at_most(&c.sheet));
    };
    for charge in [1, 4, 5, 254, 255] {
        add(&format!("{charge} on the printed sheet"), &|c| c.sheet.charge = charge);
    }
    for (charge, e) in [(1, 4), (2, 9), (254, 2), (255, 2), (255, 999_745)] {
        let work = e + charge as u32;
        for (label, p, d) in [
            ("E + S is P", work, work + 1),
            ("E + S is D", work + 1, work),
            ("E + S is P + 1", work - 1, work),
            ("E + S is D + 1", work, work - 1),
        ] {
            if p.max(d) <= MILLION {
                let (sound, edge) = ((MILLION, 7, 2, MILLION), (p, 9, e, d));
                add(&format!("{label}, S {charge}, E {e}, task 0"), &|c| c.sheet = sheet(&[edge, sound, sound]).charged(charge));
                add(&format!("{label}, S {charge}, E {e}, task 2"), &|c| c.sheet = sheet(&[sound, sound, edge]).charged(charge));
            }
        }
    }
    add("17 of task 0 before 6 of task 1", &|c| (c.sheet.charge, c.sheet.tasks[1].p) = (5, 0));
    add("6 of task 0 before 17 of task 1", &|c| (c.sheet.charge, c.sheet.tasks[0].p, c.sheet.tasks[1].d) = (4, 0, 5));
    add("17 of task 1 before 6 of task 2", &|c| (c.sheet.charge, c.sheet.tasks[1].d, c.sheet.tasks[2].p) = (4, 5, 0));
    add("6 of task 1 before 17 of task 2", &|c| (c.sheet.charge, c.sheet.tasks[1].p, c.sheet.tasks[2].d) = (4, 0, 5));
    add("6 before 17 of one task", &|c| (c.sheet.charge, c.sheet.tasks[1].j, c.sheet.tasks[1].d) = (4, 1_000_001, 5));
    add("17 of a task below the one asked for", &|c| (c.sheet.charge, c.sheet.tasks[2].d, c.task) = (4, 5, 0));
    add("5 before 17", &|c| (c.sheet.charge, c.sheet.count) = (255, 0));
    add("4 before 17", &|c| (c.sheet.charge, c.sheet.count) = (255, 33));
    add("17 before 14", &|c| (c.sheet.charge, c.task) = (5, 3));
    add("14 with a charge", &|c| (c.sheet.charge, c.task) = (4, 3));
    add("17 before 13", &|c| (c.sheet.charge, c.kept) = (5, vec![]));
    add("17 before 12", &|c| (c.sheet.charge, c.kept[0]) = (5, 6));
    add("an entry past the count", &|c| {
        c.sheet.charge = 4;
        c.sheet.tasks.push(task(5, 0, 2, 5));
    });
    let mut short = choosing(&folder_sheet().charged(5));
    short.kept.clear();
    add_choice(v, "charge, 17 before 13, no column", &short);
}

/// What the choice is given for a sheet whose count may be over the limit: at most five slots in each column.
fn choosing_at_most(sheet: &Sheet) -> ChoiceCall {
    ChoiceCall { sheet: sheet.clone(), kept: held((sheet.count + 2).min(5)), worst: held((sheet.count + 2).min(5)) }
}

/// Choices with marks, worked out by hand.
fn marked_choices(v: &mut Vectors) {
    let mut add = |label: &str, sheet: &Sheet, lows: &[bool], line: &str| {
        let c = choosing(&sheet.marked(lows));
        v.worked(&format!("choice, marks {}, {label}", letters(lows)), &choice_blocks(&c), &choice_answer(&c), line);
    };
    let (h, l) = (false, true);
    // The ordinary choice judges every task.
    for lows in [[h, l, h], [l, h, h], [h, h, l], [l, l, l]] {
        add("printed sheet, D 11", &folder_sheet(), &lows, " fits, 2 4 0 - -, 6 8 11 - -");
    }
    // The ordinary choice ends in 15 at task 2. With task 1 kept at 0 its W(0) is 8, with task 0 kept at 0 it is 10 still, with both 6.
    let printed = printed_sheet();
    add("printed sheet", &printed, &[h, h, h], " refused 15 at 2, - - - - -, - - - - -");
    add("printed sheet", &printed, &[h, h, l], " high only, 2 4 0 - -, 6 8 0 - -");
    add("printed sheet", &printed, &[h, l, h], " high only, 2 0 0 - -, 6 0 9 - -");
    add("printed sheet", &printed, &[h, l, l], " high only, 2 0 0 - -, 6 0 0 - -");
    add("printed sheet", &printed, &[l, h, h], " refused 15 at 2, - - - - -, - - - - -");
    add("printed sheet", &printed, &[l, h, l], " high only, 0 4 0 - -, 0 8 0 - -");
    add("printed sheet", &printed, &[l, l, h], " high only, 0 0 0 - -, 0 0 7 - -");
    add("printed sheet", &printed, &[l, l, l], " high only, 0 0 0 - -, 0 0 0 - -");
    // At task 0: R(0) is 3. Of task 1 it is 5.
    let pair = |d: u32, e: u32| sheet(&[(10, 0, 2, d), (10, 0, 2, e)]);
    add("no K fits task 0", &pair(2, 5), &[l, h], " high only, 0 0 - -, 0 5 - -");
    add("no K fits task 0", &pair(2, 5), &[h, l], " refused 15 at 0, - - - -, - - - -");
    add("no K fits task 0", &pair(2, 5), &[l, l], " high only, 0 0 - -, 0 0 - -");
    add("no K fits tasks 0 and 1", &pair(2, 4), &[l, h], " refused 15 at 1, - - - -, - - - -");
    add("no K fits tasks 0 and 1", &pair(2, 4), &[h, h], " refused 15 at 0, - - - -, - - - -");
    add("no K fits task 1", &pair(3, 4), &[h, l], " high only, 0 0 - -, 3 0 - -");
    add("no K fits task 1", &pair(3, 4), &[l, h], " refused 15 at 1, - - - -, - - - -");
    // At task 1, whose R(0) is 12 − K; of the high tasks at task 2, whose R(0) is 9.
    let middle = |d: u32| sheet(&[(6, 5, 2, 6), (8, 7, 2, 4), (10, 0, 2, d)]);
    add("no K fits task 1, D 9", &middle(9), &[h, l, h], " high only, 2 0 0 - -, 6 0 9 - -");
    add("no K fits task 1, D 8", &middle(8), &[h, l, h], " refused 15 at 2, - - - - -, - - - - -");
    add("no K fits task 1, D 8", &middle(8), &[h, h, l], " refused 15 at 1, - - - - -, - - - - -");
    add("no K fits task 1, D 8", &middle(8), &[h, l, l], " high only, 2 0 0 - -, 6 0 0 - -");
    // With a charge of 1 W(0) of task 0 is 2, of task 1 7.
    let two = sheet(&[(4, 0, 1, 4), (8, 0, 2, 4)]).charged(1);
    add("charge 1", &two, &[h, l], " high only, 0 0 - -, 3 0 - -");
    add("charge 1", &two, &[l, h], " refused 15 at 1, - - - -, - - - -");
    add("one task", &sheet(&[(1, 0, 1, 1)]), &[l], " high only, 0 - -, 0 - -");
    add("one task, D 2", &sheet(&[(1, 0, 1, 2)]), &[l], " fits, 0 - -, 2 - -");
    // A walk up to the horizon that is not made again: task 0 keeps 1, and task 1 fits at no K.
    let c = choosing(&sheet(&[(2, 1, 1, 2), (2, 999_990, 1, MILLION)]).marked(&[h, l]));
    v.case("choice, marks hl, no K fits up to the horizon", &choice_blocks(&c), " high only, 1 0 - -, 2 0 - -");
    // Any number but 0 marks a task as low.
    for number in [2, 255, 256, 65_536, 1 << 31, u32::MAX] {
        let c = choosing(&printed.marked(&[h, l, h]));
        let blocks = [head_with(2, &[], &c.sheet, number), numbers(&c.kept), numbers(&c.worst)];
        v.worked(&format!("choice, mark {number}"), &blocks, &choice_answer(&c), " high only, 2 0 0 - -, 6 0 9 - -");
    }
}

/// Small sheets with every pattern of marks.
fn marked_small(v: &mut Vectors) {
    let mut m = Mixer::from(13);
    for n in 0..40 {
        let all: Vec<_> = (0..m.within(2, 4))
            .map(|_| {
                let p = m.within(4, 30);
                let e = m.within(1, 1 + p / 4);
                (p, m.within(0, 2 * p), e, m.within(e + 1, 2 * p + 4))
            })
            .collect();
        let s = sheet(&all).charged(m.within(0, 1) as u8);
        for lows in patterns(s.count) {
            add_choice(v, &format!("small sheet {n}, marks {}", letters(&lows)), &choosing(&s.marked(&lows)));
        }
    }
}

/// 32 tasks of which some are low.
fn marked_full(v: &mut Vectors) {
    for (per_mille, jitter, deadlines) in [(300, 90, 80), (500, 60, 70), (300, 160, 110), (900, 50, 400), (1010, 0, 700)] {
        let s = loaded(per_mille, jitter, deadlines);
        let label = format!("32 tasks, load {per_mille}, jitter {jitter}, deadlines {deadlines}");
        let choices: [(&str, fn(usize) -> bool); 6] = [
            ("the last low", |i| i == 31),
            ("every second low", |i| i % 2 == 1),
            ("the lower half low", |i| i >= 16),
            ("the upper half low", |i| i < 16),
            ("all but the last low", |i| i < 31),
            ("all low", |_| true),
        ];
        for (name, low) in choices {
            let lows: Vec<bool> = (0..32).map(low).collect();
            add_choice(v, &format!("{label}, {name}"), &choosing(&s.marked(&lows)));
        }
    }
}

/// Marks change no arrival count, no verdict and no refusal of the choice before 15.
fn marked_tasks(v: &mut Vectors) {
    for (n, (label, c)) in task_refusals().into_iter().enumerate() {
        let lows: Vec<bool> = (0..c.sheet.tasks.len()).map(|i| (n + i) % 2 == 0).collect();
        let marked = TaskCall { sheet: c.sheet.marked(&lows), ..c.clone() };
        let label = format!("marks {}, {label}", letters(&lows));
        v.worked(&format!("arrivals, {label}"), &arrival_blocks(&marked), &arrival_answer(&marked), &arrival_answer(&c));
        v.worked(&format!("verdict, {label}"), &verdict_blocks(&marked), &verdict_answer(&marked), &verdict_answer(&c));
    }
    for (label, s) in &edges() {
        let whole: Vec<u32> = s.tasks.iter().map(|t| t.j).collect();
        let lows = vec![true; s.count];
        for i in 0..s.count as u32 {
            let (c, marked) = (about(s, i, &whole, 0), about(&s.marked(&lows), i, &whole, 0));
            let label = format!("verdict, marks {}, {label}, task {i}", letters(&lows));
            v.worked(&label, &verdict_blocks(&marked), &verdict_answer(&marked), &verdict_answer(&c));
        }
    }
    for (label, c) in choice_refusals() {
        for lows in [[true, false, false, false], [false, false, true, true]] {
            let marked = ChoiceCall { sheet: c.sheet.marked(&lows), ..c.clone() };
            add_choice(v, &format!("marks {}, {label}", letters(&lows[..c.sheet.tasks.len()])), &marked);
        }
    }
}

/// Verdicts with a frame, and choices: the demand is met by our ticks alone, from the worst start on. With a frame there are no evaluations.
fn framed_worked(v: &mut Vectors) {
    let mut add = |label: &str, sheet: &Sheet, task: u32, kept: &[u32], line: &str| {
        worked_verdict(v, &format!("frame, {label}"), &about(sheet, task, kept, 0), line, 0);
    };
    // Ours 0 to 3 of 10: from 4 on the second of ours is tick 11, after 8 ticks.
    let one = |d: u32| in_frame(&sheet(&[(10, 0, 2, d)]), 10, &[(0, 4)]);
    add("0 to 3 of 10, D 9", &one(9), 0, &[0], " fits R 9 q 0");
    add("0 to 3 of 10, D 8", &one(8), 0, &[0], " late q 0 R 9");
    // Ours 0, 2, 3, 4 of 10: from 5 on the fifth of ours is tick 20, after 16 ticks. From 1 on it is tick 12.
    let two = |d: u32| in_frame(&sheet(&[(20, 0, 5, d)]), 10, &[(0, 1), (2, 3)]);
    add("0, 2, 3, 4 of 10, D 17", &two(17), 0, &[0], " fits R 17 q 0");
    add("0, 2, 3, 4 of 10, D 16", &two(16), 0, &[0], " late q 0 R 17");
    // Ours 0 and 1 of 4. The demand is 3 up to 5 ticks, then 4: from 2 on the fourth of ours is tick 9, after 8 ticks.
    let pair = |d: u32| in_frame(&sheet(&[(5, 0, 1, 4), (20, 0, 2, d)]), 4, &[(0, 2)]);
    add("0, 1 of 4, task 0", &pair(9), 0, &[0, 0], " fits R 4 q 0");
    add("0, 1 of 4, D 9", &pair(9), 1, &[0, 0], " fits R 9 q 0");
    add("0, 1 of 4, D 8", &pair(8), 1, &[0, 0], " late q 0 R 9");
    // W is 8, 16, and d_5 is 3, 11: R is 9, 17 - 3.
    add("0 of 4, q 1", &in_frame(&sheet(&[(8, 5, 2, 13)]), 4, &[(0, 1)]), 0, &[5], " late q 1 R 14");
    // The gap of 1 is the worst one for task 1, that of 3 for task 0: W is 5 and 10.
    let gaps = |k: u32| (in_frame(&sheet(&[(20, 10, 2, 12), (40, 0, 4, 40)]), 10, &[(0, 3), (4, 3)]), [k, 0]);
    add("gaps of 1 and 3, K 4", &gaps(4).0, 0, &gaps(4).1, " fits R 12 q 0");
    add("gaps of 1 and 3, K 3", &gaps(3).0, 0, &gaps(3).1, " late q 0 R 13");
    add("gaps of 1 and 3, task 1", &gaps(4).0, 1, &gaps(4).1, " fits R 11 q 0");
    // From the tick after it on a window of one tick brings E of ours after E frames: up to the horizon, and one over it.
    let tick = |e: u32| in_frame(&sheet(&[(MILLION, 0, e, MILLION)]), 10_000, &[(5_000, 1)]);
    add("1 of 10000, E 99", &tick(99), 0, &[0], " fits R 990001 q 0");
    add("1 of 10000, E 1000", &tick(1_000), 0, &[0], " late q 0 R 10000001");
    add("1 of 10000, E 1001", &tick(1_001), 0, &[0], " horizon q 0");
    let large = in_frame(&sheet(&[(MILLION, 0, MILLION, MILLION); 2]), 2, &[(0, 1)]);
    add("0 of 2, largest numbers", &large, 0, &[0, 0], " late q 0 R 2000001");
    add("0 of 2, nothing left", &large, 1, &[0, 0], " horizon q 0");
    let c = choosing(&gaps(0).0);
    v.worked("choice, frame, gaps of 1 and 3", &choice_blocks(&c), &choice_answer(&c), " fits, 4 0 - -, 12 11 - -");
    let c = choosing(&in_frame(&folder_sheet(), 10, &[(0, 4), (5, 5)]));
    add_choice(v, "frame, all but 4 of 10", &c);
}

/// A frame that is all window gives what no frame gives, but the evaluations.
fn framed_whole(v: &mut Vectors) {
    for ticks in [1, 2, 10, 10_000] {
        for (label, s) in [("printed sheet", printed_sheet()), ("folder sheet", folder_sheet()), ("full sheet", full_sheet())] {
            let (whole, kept) = (in_frame(&s, ticks, &[(0, ticks)]), s.tasks.iter().map(|t| t.j / 2).collect::<Vec<u32>>());
            for i in [0, s.count - 1] {
                let (c, plain) = (about(&whole, i as u32, &kept, 0), verdict_answer(&about(&s, i as u32, &kept, 0)));
                let line = plain.split(" evaluations").next().unwrap();
                worked_verdict(v, &format!("frame, all {ticks} ticks, {label}, task {i}"), &c, line, 0);
            }
            if s.count < 32 {
                let c = choosing(&whole);
                let label = format!("choice, frame, all {ticks} ticks, {label}");
                v.worked(&label, &choice_blocks(&c), &choice_answer(&c), &choice_answer(&choosing(&s)));
            }
        }
    }
}

/// Small sheets in each frame, some with a charge or a low task.
fn framed_small(v: &mut Vectors) {
    let mut m = Mixer::from(10);
    for (name, frame) in frames() {
        let scale = if frame.ticks > 1_000 { 500 } else { 2 };
        for n in 0..3 {
            let all: Vec<_> = (0..m.within(1, 4))
                .map(|_| {
                    let p = scale * m.within(8, 40);
                    let e = m.within(1, 1 + p / 12);
                    (p, m.within(0, p), e, m.within(p / 2 + e, 4 * p))
                })
                .collect();
            let s = sheet(&all).charged((n == 2) as u8).marked(&[false, n == 1]).framed(Some(frame.clone()));
            let kept: Vec<u32> = s.tasks.iter().map(|t| m.within(0, t.j)).collect();
            for i in 0..s.count {
                add_verdict(v, &format!("frame {name}, sheet {n}, task {i}"), &about(&s, i as u32, &kept, 0));
            }
            add_choice(v, &format!("frame {name}, sheet {n}"), &choosing(&s));
        }
    }
}

/// Frames outside the rules; then beside what comes before 18, the sheet's own checks with 17, and what comes after it.
fn framed_checks(v: &mut Vectors) {
    for (label, frame, place) in wrong_frames() {
        let line = format!(" refused 18 at {place}");
        let wrong = printed_sheet().framed(Some(frame));
        let c = about(&wrong, 1, &[2, 4, 0], 0);
        v.worked(&format!("verdict, frame, {label}"), &verdict_blocks(&c), &verdict_answer(&c), &line);
        let c = choosing(&wrong);
        v.worked(&format!("choice, frame, {label}"), &choice_blocks(&c), &choice_answer(&c), &format!("{line}, - - - - -, - - - - -"));
    }
    let frame = || Some(Frame::of(10, &[(0, 4), (4, 3)]));
    for (label, c) in task_refusals() {
        add_verdict(v, &format!("frame 18 at 1, {label}"), &TaskCall { sheet: c.sheet.framed(frame()), ..c.clone() });
    }
    for (label, c) in choice_refusals() {
        add_choice(v, &format!("frame 18 at 1, {label}"), &ChoiceCall { sheet: c.sheet.framed(frame()), ..c.clone() });
    }
    let charged = about(&printed_sheet().charged(5).framed(frame()), 1, &[2, 4, 0], 0);
    v.worked("verdict, frame 18 at 1, charge 5", &verdict_blocks(&charged), &verdict_answer(&charged), " refused 17 at 0");
}

/// The verdicts of two tasks under every set of kept jitters, and the choice, worked out by hand: no set under which both tasks fit is smaller at either of them.
fn every_set(v: &mut Vectors) {
    let pair = |e: u32, d: u32| sheet(&[(10, 5, 1, 4), (20, 5, e, d)]);
    // W(0) of task 0 is 1, R(0) 7 - K. W(0) of task 1 is 9, R(0) 15 - K, and with K 2 or more of task 0 one more. So with D 10 task 1 fits where task 0 keeps 0 or 1 alone.
    let charged = sheet(&[(10, 5, 1, 5), (20, 5, 7, 13)]).charged(1);
    let gaps = in_frame(&sheet(&[(20, 4, 2, 8), (40, 4, 4, 13)]), 10, &[(0, 3), (4, 3)]);
    for (label, s, lows, line) in [
        ("D 12", pair(8, 12), [false, false], " fits, 3 4 - -, 4 12 - -"),
        ("D 12", pair(8, 12), [true, false], " fits, 3 4 - -, 4 12 - -"),
        ("D 10", pair(8, 10), [false, false], " refused 15 at 1, - - - -, - - - -"),
        ("D 10", pair(8, 10), [true, false], " high only, 0 5 - -, 0 10 - -"),
        // Loads of 2 and 8: W(0) is 2, and 12 with K 3 of task 0.
        ("charge 1", charged, [false, false], " fits, 3 5 - -, 5 13 - -"),
        // W(0) is 5 and 10.
        ("gaps of 1 and 3", gaps, [false, false], " fits, 2 2 - -, 8 13 - -"),
    ] {
        let s = s.marked(&lows);
        let c = choosing(&s);
        v.worked(&format!("choice, every set, {label}, marks {}", letters(&lows)), &choice_blocks(&c), &choice_answer(&c), line);
        if lows == [false, false] {
            verdicts_of_every_set(v, label, &s);
        }
    }
}

/// The verdicts of two tasks under every set of kept jitters.
fn verdicts_of_every_set(v: &mut Vectors, label: &str, s: &Sheet) {
    for k in 0..=s.tasks[0].j {
        add_verdict(v, &format!("every set, {label}, task 0, K {k}"), &about(s, 0, &[k, 0], 0));
        for own in 0..=s.tasks[1].j {
            add_verdict(v, &format!("every set, {label}, task 1, K {k} {own}"), &about(s, 1, &[k, own], 0));
        }
    }
}

pub fn vectors() -> Vectors {
    let mut v = Vectors::new();
    worked_tasks(&mut v);
    picked_up_tasks(&mut v);
    worked_choices(&mut v);
    worked_by_hand_alone(&mut v);
    arrivals(&mut v);
    for (label, s) in &edges() {
        let whole: Vec<u32> = s.tasks.iter().map(|t| t.j).collect();
        for i in 0..s.count {
            add_verdict(&mut v, &format!("{label}, task {i}, K is J"), &about(s, i as u32, &whole, 0));
            add_verdict(&mut v, &format!("{label}, task {i}, K 0"), &about(s, i as u32, &vec![0; s.count], 0));
        }
        add_choice(&mut v, label, &choosing(s));
    }
    horizon(&mut v);
    full(&mut v);
    small(&mut v);
    for (label, c) in &task_refusals() {
        add_arrivals(&mut v, label, c);
        add_verdict(&mut v, label, c);
    }
    for (label, c) in &choice_refusals() {
        add_choice(&mut v, label, c);
    }
    charged_tasks(&mut v);
    charged_choices(&mut v);
    charged_parts(&mut v);
    charged_small(&mut v);
    charged_checks(&mut v);
    steps(&mut v);
    counted_tasks(&mut v);
    marked_choices(&mut v);
    marked_small(&mut v);
    marked_full(&mut v);
    marked_tasks(&mut v);
    framed_worked(&mut v);
    framed_whole(&mut v);
    framed_small(&mut v);
    framed_checks(&mut v);
    every_set(&mut v);
    v
}
