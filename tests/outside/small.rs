//! Every small trace: the call for the trace at a position, and the one for how many there are. After each of them every slot that was lent
//! is compared, and the sheet, which is only read.

use crate::board::passed;
use crate::generator::*;
use crate::reference::{self, Refusal, Release, Sheet, Task, MAX_TASKS, MAX_TIME, SMALL_RELEASES, SMALL_TASKS, SMALL_TICKS, SMALL_TRACES};
use crate::{library, numbers, sums, words, Case, Tally};
use std::hint::black_box;

const TRACE: usize = 17;
const COUNT: usize = 18;

/// What the two calls may answer.
pub const ANSWERS: [&str; 30] = [
    "the empty trace", "one release", "two releases", "three releases", "four releases", "five releases", "six releases",
    "two of a task in one tick", "six of a task in one tick", "three tasks in one tick", "a release at its gap", "a release held by one further back",
    "a release in the last tick", "the last one", "none right after it", "none later", "none at a position over 32 bits", "no release allowed",
    "no tick allowed", "one task", "two tasks", "three tasks", "columns as long as the trace", "longer columns", "no columns for none",
    "other numbers past the count", "one of the most that there are", "how many: one", "how many: over one", "how many: the most",
];

/// What may decide where a call is refused.
const DECIDING: [&str; 12] = [
    "no task", "over 32 tasks", "a range", "the charge over a task", "over 3 tasks", "over 6 releases", "ticks over 12", "a short task column",
    "a short tick column", "a short cost column", "a short answer", "a short answer for none",
];

/// How many refusals the two calls have: all of these of a call for a trace; of one for how many no column is short, and there is no none.
const REFUSALS: usize = 12 + 8;

/// Whether each answer and each refusal came up so often; of the most traces, over which a call takes long, a few times.
pub fn came_up(tally: &Tally, often: u64) -> bool {
    let few = ANSWERS.len() - 1;
    tally.small_answers[..few].iter().chain(tally.small_refusals.values()).all(|&n| n >= often)
        && tally.small_answers[few] >= 3
        && tally.small_refusals.len() == REFUSALS
}

/// The most lists, legal or not, that are made for a sheet, and the most traces of which every one is read. A call goes over the traces before
/// its own, so that reading n of them takes n² ÷ 2 steps.
const MOST_LISTS: u64 = 20_000;
const MOST_READ: u64 = 500;

/// Where a trace comes from: the list of all, or how many begin with each release, where every list is legal.
enum Traces {
    Listed(Vec<Vec<Release>>),
    AllLegal,
}

/// What both calls are given but a position: a sheet as it is passed, a count of releases and a tick bound. The traces, and how many of them
/// have up to 0, 1, .. releases.
struct Small {
    case: Case,
    sheet: Sheet,
    releases: u32,
    ticks: u32,
    traces: Traces,
    up_to: Vec<u64>,
}

/// The slots lent to a call for a trace: of task, tick and cost, and of the answer.
#[derive(Clone, Copy, Debug)]
struct Slots {
    columns: [usize; 3],
    answer: usize,
}

impl Slots {
    /// Columns of so many slots, and an answer of two.
    fn of(columns: usize) -> Slots {
        Slots { columns: [columns; 3], answer: 2 }
    }
}

impl Small {
    /// Every trace listed, none where the call is refused.
    fn listed(case: Case, releases: u32, ticks: u32) -> Small {
        let sheet = case.sheet();
        let refused = reference::check_small(&sheet, releases, ticks).is_err();
        let all = if refused { Vec::new() } else { reference::small_traces(&sheet, releases, ticks) };
        let most = releases.min(SMALL_RELEASES) as usize;
        let up_to = (0..=most).map(|n| all.iter().filter(|list| list.len() <= n).count() as u64).collect();
        Small { case, sheet, releases, ticks, traces: Traces::Listed(all), up_to }
    }

    /// A sheet with which every list is legal.
    fn all_legal(case: Case, releases: u32, ticks: u32) -> Small {
        let sheet = case.sheet();
        assert!(sheet.tasks.iter().take(sheet.count).all(|t| t.j as u64 >= (SMALL_RELEASES as u64 - 1) * t.p as u64));
        let up_to = (0..=releases).map(|n| reference::count_where_all_legal(&sheet, n, ticks)).collect();
        Small { case, sheet, releases, ticks, traces: Traces::AllLegal, up_to }
    }

    fn many(&self) -> u64 {
        self.up_to[self.up_to.len() - 1]
    }

    /// How many have at most so many releases: they come first.
    fn up_to(&self, n: u32) -> u64 {
        self.up_to[n as usize]
    }

    fn at(&self, position: u64) -> Option<Vec<Release>> {
        match &self.traces {
            Traces::Listed(all) => all.get(usize::try_from(position).ok()?).cloned(),
            Traces::AllLegal => reference::trace_where_all_legal(&self.sheet, self.releases, self.ticks, position),
        }
    }

    fn show(&self) -> String {
        let Case { numbers, count, charge, .. } = &self.case;
        format!("{} releases, ticks below {}, sheet {:?} count {} charge {}", self.releases, self.ticks, numbers, count, charge)
    }

    /// What decides where a call is refused, with the trace and the slots of a call for one.
    fn decided_by(&self, refusal: Refusal, trace: Option<&[Release]>, slots: Slots) -> &'static str {
        let length = trace.map_or(0, |list| list.len());
        let which = match refusal.number {
            5 => 0,
            4 if self.case.count as usize > MAX_TASKS => 1,
            6 => 2,
            17 => 3,
            4 => 4,
            10 => 5,
            8 => 6,
            _ => match slots.columns.iter().position(|&s| s < length) {
                Some(column) => 7 + column,
                None if trace.is_some() => 10,
                None => 11,
            },
        };
        DECIDING[which]
    }

    /// A call for the trace at a position. The refusal of the reference, if any.
    fn trace(&self, r: &mut Random, tally: &mut Tally, position: u64, slots: Slots) -> Option<Refusal> {
        let trace = self.at(position);
        let expected = reference::small_trace(&self.sheet, self.releases, self.ticks, trace.as_deref(), slots.columns, slots.answer);
        let [a, b, c] = slots.columns;
        let (mut task, mut tick, mut cost, mut answer) = (numbers(r, a), words(r, b), numbers(r, c), words(r, slots.answer));
        let Case { numbers: row, count, charge, .. } = &self.case;
        let before = row.clone();
        let got = library::small_trace(
            row, *count, *charge, self.releases, self.ticks, position, &mut task.now, &mut tick.now, &mut cost.now, &mut answer.now,
        );
        let list = expected.ok().flatten();
        let column = |f: fn(&Release) -> u32| list.map(|l| l.iter().map(f).collect::<Vec<u32>>());
        let told = expected.ok().map(|l| l.map_or([0, 0], |l| [1, l.len() as u64]));
        let same = black_box(row) == &before
            && task.holds(column(|x| x.task).as_deref())
            && tick.holds(list.map(|l| l.iter().map(|x| x.tick).collect::<Vec<u64>>()).as_deref())
            && cost.holds(column(|x| x.cost).as_deref())
            && answer.holds(told.as_ref().map(|a| &a[..]));
        match expected {
            Ok(list) => self.answered(tally, position, list, slots),
            Err(refusal) => {
                *tally.small_refusals.entry((TRACE, self.decided_by(refusal, trace.as_deref(), slots))).or_insert(0) += 1;
            }
        }
        tally.note(TRACE, expected.err(), got, same, || {
            let lent = (&task.now, &tick.now, &cost.now, &answer.now);
            format!("position {} {:?}, expected {:?}, got {:?}; {}", position, slots, trace, lent, self.show())
        });
        expected.err()
    }

    /// Notes what a call for a trace answers.
    fn answered(&self, tally: &mut Tally, position: u64, list: Option<&[Release]>, slots: Slots) {
        tally.answered(TRACE, &self.sheet);
        let (many, n) = (self.many(), list.map(|l| l.len()));
        let none = list.is_none();
        let list = list.unwrap_or(&[]);
        let same = |x: &Release, y: &Release| (x.tick, x.task) == (y.tick, y.task);
        let burst = list.iter().map(|x| list.iter().filter(|y| same(x, y)).count()).max().unwrap_or(0);
        let in_one_tick = |tick: u64| (0..SMALL_TASKS as u32).all(|task| list.iter().any(|x| (x.tick, x.task) == (tick, task)));
        let held: Vec<i64> = (0..list.len()).filter_map(|p| holding(&self.sheet, list, p)).collect();
        let seen = [
            n == Some(0),
            n == Some(1),
            n == Some(2),
            n == Some(3),
            n == Some(4),
            n == Some(5),
            n == Some(6),
            burst > 1,
            burst == 6,
            list.iter().any(|x| in_one_tick(x.tick)),
            held.contains(&1),
            held.iter().any(|&k| k > 1),
            list.last().map_or(false, |x| x.tick + 1 == self.ticks as u64),
            position == many - 1,
            position == many,
            position > many,
            none && position >> 32 > 0 && position & 0xffff_ffff < many,
            self.releases == 0,
            self.ticks == 0,
            !none && self.sheet.count == 1,
            !none && self.sheet.count == 2,
            !none && self.sheet.count == 3,
            n.map_or(false, |n| n > 0 && slots.columns == [n; 3]),
            n.map_or(false, |n| n > 0 && slots.columns.iter().all(|&s| s > n)),
            none && slots.columns == [0; 3],
            self.case.numbers.len() > TASK_NUMBERS * self.sheet.count,
            many == SMALL_TRACES,
            // how many there are is another call
            false,
            false,
            false,
        ];
        for (count, seen) in tally.small_answers.iter_mut().zip(seen) {
            *count += seen as u64;
        }
    }

    /// A call for how many there are, with so many slots for the answer. The refusal of the reference, if any.
    fn count(&self, r: &mut Random, tally: &mut Tally, slots: usize) -> Option<Refusal> {
        let expected = reference::small_trace_count(&self.sheet, self.releases, self.ticks, self.many(), slots);
        let mut answer = words(r, slots);
        let Case { numbers: row, count, charge, .. } = &self.case;
        let before = row.clone();
        let got = library::small_trace_count(row, *count, *charge, self.releases, self.ticks, &mut answer.now);
        match expected {
            Ok(many) => {
                tally.answered(COUNT, &self.sheet);
                let seen = [many == 1, many > 1, many == SMALL_TRACES];
                for (count, seen) in tally.small_answers[ANSWERS.len() - seen.len()..].iter_mut().zip(seen) {
                    *count += seen as u64;
                }
            }
            Err(refusal) => {
                let decided_by = self.decided_by(refusal, Some(&[]), Slots { columns: [0; 3], answer: slots });
                *tally.small_refusals.entry((COUNT, decided_by)).or_insert(0) += 1;
            }
        }
        let same = black_box(row) == &before && answer.holds(expected.ok().map(|n| [n]).as_ref().map(|a| &a[..]));
        tally.note(COUNT, expected.err(), got, same, || format!("expected {:?}, got {:?}; {}", expected, answer.now, self.show()));
        expected.err()
    }

    /// A call with slots around those needed, mostly enough.
    fn read(&self, r: &mut Random, tally: &mut Tally, position: u64) {
        let needed = self.at(position).map_or(0, |list| list.len());
        let around = |r: &mut Random| match r.within(0, 19) {
            0 => needed.saturating_sub(1),
            1 => r.within(0, needed as u32) as usize,
            2..=5 => needed + r.within(1, 5) as usize,
            _ => needed,
        };
        let columns = if r.once_in(2) { [needed; 3] } else { [(); 3].map(|_| around(r)) };
        let answer = r.of(&[2, 2, 2, 2, 2, 2, 2, 2, 2, 2, 2, 2, 3, 3, 4, 1, 0]);
        self.trace(r, tally, position, Slots { columns, answer });
    }

    /// The positions right after the last, far after it, and those whose low half is one of the first.
    fn past_the_last(&self, r: &mut Random, tally: &mut Tally) {
        let many = self.many();
        for position in [many, many + 1, many + 2, u64::MAX, 1 << 32, (1 << 32) + r.tick(0, many), 1 << 63] {
            let slots = if r.once_in(2) { 0 } else { r.of(&[1, 6, 9]) };
            self.trace(r, tally, position, Slots::of(slots));
        }
    }

    /// Every position and three past the last; how many there are, with any number of slots.
    fn read_all(&self, r: &mut Random, tally: &mut Tally) {
        for position in 0..self.many() {
            self.read(r, tally, position);
        }
        self.past_the_last(r, tally);
        let slots = r.of(&[0, 1, 1, 1, 2, 3]);
        self.count(r, tally, slots);
    }

    /// The first and the last of each length, so many any, and those past the last; how many there are.
    fn read_some(&self, r: &mut Random, tally: &mut Tally, any: u32) {
        for n in 0..=self.releases {
            let end = self.up_to(n);
            self.trace(r, tally, end - 1, Slots::of(n as usize));
            self.read(r, tally, end);
        }
        for _ in 0..any {
            let position = r.tick(0, self.many() - 1);
            self.read(r, tally, position);
        }
        self.past_the_last(r, tally);
        self.count(r, tally, 1);
    }

    fn read_all_or_some(&self, r: &mut Random, tally: &mut Tally) {
        if self.many() <= MOST_READ { self.read_all(r, tally) } else { self.read_some(r, tally, 20) }
    }
}

/// The least k for which a release lies just d_J(k) after the one of its task k places before, where that is over 0.
fn holding(sheet: &Sheet, list: &[Release], at: usize) -> Option<i64> {
    let t = sheet.task(list[at].task as usize);
    let before = list[..at].iter().rev().filter(|x| x.task == list[at].task);
    let gaps = before.zip(1..).map(|(x, k)| (k, list[at].tick as i64 - x.tick as i64, reference::gap(t.p as i64, t.j as i64, k)));
    gaps.filter(|&(_, apart, gap)| gap > 0 && apart == gap).map(|(k, ..)| k).next()
}

// ---- Sheets ------------------------------------------------------------------------------------------------------------

/// Periods of which up to twelve are in the ticks, or one, and some of these with no bit in their low byte or half.
const PERIODS: [u32; 8] = [1, 2, 3, 5, 12, 256, 1 << 16, MAX_TIME];

/// Jitters of a period: none, below it, the period, above it, multiples of it, and the largest.
fn jitters(p: u32) -> Vec<u32> {
    let mut all = vec![0, 1, p / 2, p - 1, p, p + 1, 2 * p, 3 * p - 1, 4 * p, 5 * p - 1, 5 * p, MAX_TIME];
    all.retain(|&j| j <= MAX_TIME);
    all.sort();
    all.dedup();
    all
}

/// A task with this period and jitter, with any cost, deadline and mark.
fn task_with(r: &mut Random, p: u32, j: u32) -> Task {
    let d = if r.once_in(2) { r.within(1, MAX_TIME) } else { r.within(1, 9) };
    let e = if r.once_in(3) { p.min(d) } else { r.within(1, p.min(d).min(200)) };
    Task::high(p, j, e, d).marked(r.once_in(4))
}

/// A task with a period and a jitter of these, most of them with small ones.
fn some_task(r: &mut Random) -> Task {
    let p = if r.once_in(2) { r.of(&PERIODS) } else { r.within(1, 13) };
    let j = if r.once_in(2) { r.of(&jitters(p)) } else { r.within(0, (3 * p).min(MAX_TIME)) };
    task_with(r, p, j)
}

fn some_sheet(r: &mut Random, tasks: usize) -> Sheet {
    let all: Vec<Task> = (0..tasks).map(|_| some_task(r)).collect();
    let sheet = Sheet::of(&all);
    if r.once_in(2) { with_fitting_charge(r, sheet) } else { sheet }
}

/// A sheet of which every list is legal: J is at least 5 periods of each task.
fn bursting_sheet(r: &mut Random, tasks: usize) -> Sheet {
    let all: Vec<Task> = (0..tasks)
        .map(|_| {
            let p = r.of(&[1, 2, 7, 200_000]);
            let j = r.of(&[5 * p, 5 * p, MAX_TIME]);
            task_with(r, p, j)
        })
        .collect();
    let sheet = Sheet::of(&all);
    if r.once_in(2) { with_fitting_charge(r, sheet) } else { sheet }
}

// ---- Traces ------------------------------------------------------------------------------------------------------------

/// Lists that were written by hand.
pub fn by_hand(r: &mut Random, tally: &mut Tally) {
    for (sheet, releases, ticks, _) in sums::small_lists() {
        for _ in 0..5 {
            let small = Small::listed(passed(r, &sheet), releases, ticks);
            small.read_all(r, tally);
        }
    }
}

/// One task with each period and jitter, with every count of releases and every tick bound.
pub fn one_task(r: &mut Random, tally: &mut Tally) {
    for p in PERIODS {
        for j in jitters(p) {
            let task = task_with(r, p, j);
            let sheet = with_fitting_charge(r, Sheet::of(&[task]));
            for (releases, ticks) in (0..=SMALL_RELEASES).flat_map(|n| (0..=SMALL_TICKS).map(move |t| (n, t))) {
                Small::listed(passed(r, &sheet), releases, ticks).read_all_or_some(r, tally);
            }
        }
    }
}

/// So many sheets of so many tasks, with every count of releases and tick bound of which the lists are not too many.
pub fn more_tasks(r: &mut Random, tally: &mut Tally, sheets: u32, tasks: usize) {
    for k in 0..sheets {
        let sheet = if k % 4 == 0 { bursting_sheet(r, tasks) } else { some_sheet(r, tasks) };
        for (releases, ticks) in (0..=SMALL_RELEASES).flat_map(|n| (0..=SMALL_TICKS).map(move |t| (n, t))) {
            if reference::count_where_all_legal(&sheet, releases, ticks) <= MOST_LISTS {
                Small::listed(passed(r, &sheet), releases, ticks).read_all_or_some(r, tally);
            }
        }
    }
}

/// Sheets of three tasks with many lists, legal or not: chosen positions.
pub fn large_sheets(r: &mut Random, tally: &mut Tally, any: u32) {
    let sheets: [([(u32, u32); 3], u32, u32); 5] = [
        ([(5, 0), (4, 1), (7, 9)], 6, 12),
        ([(12, 0), (3, 2), (5, 5)], 5, 12),
        ([(MAX_TIME, 0), (2, 1), (6, 7)], 6, 9),
        ([(1, 0), (1, 1), (1, 2)], 4, 12),
        ([(2, 6), (3, 9), (5, 4)], 6, 6),
    ];
    for (numbers, releases, ticks) in sheets {
        let tasks = numbers.map(|(p, j)| task_with(r, p, j));
        let small = Small::listed(passed(r, &Sheet::of(&tasks)), releases, ticks);
        assert_eq!(small.many(), reference::count_by_task(&small.sheet, releases, ticks));
        small.read_some(r, tally, any);
    }
}

/// How many there are of sheets of three tasks with any count and bound, by task.
pub fn large_counts(r: &mut Random, tally: &mut Tally, sheets: u32) {
    for _ in 0..sheets {
        let tasks = r.of(&[2, 3, 3]);
        let sheet = some_sheet(r, tasks);
        let (releases, ticks) = (r.within(3, SMALL_RELEASES), r.within(8, SMALL_TICKS));
        let case = passed(r, &sheet);
        let mut answer = [r.bits(), 77];
        let got = library::small_trace_count(&case.numbers, case.count, case.charge, releases, ticks, &mut answer);
        let many = reference::count_by_task(&sheet, releases, ticks);
        tally.answered(COUNT, &sheet);
        tally.note(COUNT, None, got, answer == [many, 77], || format!("{:?}, not {} of {} {} {:?}", answer, many, releases, ticks, sheet));
    }
}

/// The most traces that there are: three tasks, six releases, ticks below 12, every list legal. Of six releases, which take the longest, so
/// many; of fewer so many of each number.
pub fn most_traces(r: &mut Random, tally: &mut Tally, of_six: u32, of_each: u32) {
    let sheet = bursting_sheet(r, SMALL_TASKS).marked(&[false, true, false]);
    let small = Small::all_legal(passed(r, &sheet), SMALL_RELEASES, SMALL_TICKS);
    assert_eq!(small.many(), SMALL_TRACES);
    small.read_some(r, tally, 0);
    for n in 1..=SMALL_RELEASES {
        for _ in 0..if n == SMALL_RELEASES { of_six } else { of_each } {
            let position = r.tick(small.up_to(n - 1), small.up_to(n) - 1);
            small.read(r, tally, position);
        }
    }
    // the last one with a slot too few, in each column and in the answer
    for (columns, answer) in [([5, 6, 6], 2), ([6, 5, 6], 2), ([6, 6, 5], 2), ([6, 6, 6], 1)] {
        small.trace(r, tally, SMALL_TRACES - 1, Slots { columns, answer });
    }
    // the same of other sheets of which every list is legal
    for p in [1, 200_000] {
        let tasks = [(); 3].map(|_| task_with(r, p, 5 * p));
        let small = Small::all_legal(passed(r, &Sheet::of(&tasks)), SMALL_RELEASES, SMALL_TICKS);
        small.count(r, tally, 1);
        small.trace(r, tally, SMALL_TRACES - 1, Slots::of(6));
        small.trace(r, tally, SMALL_TRACES, Slots::of(0));
    }
}

/// Columns of no slot and of up to two less or more than the trace has releases, each with a length of its own, and answers of up to three
/// slots: of a trace of each length, and past the last.
pub fn slots(r: &mut Random, tally: &mut Tally) {
    for tasks in 1..=SMALL_TASKS {
        let sheet = bursting_sheet(r, tasks);
        let small = Small::all_legal(passed(r, &sheet), SMALL_RELEASES, 2);
        for n in 0..=SMALL_RELEASES {
            let lengths: Vec<usize> = (0..=n as usize + 2).filter(|&l| l == 0 || l + 2 >= n as usize).collect();
            for k in 0..lengths.len().pow(3) {
                let columns = [0, 1, 2].map(|column| lengths[k / lengths.len().pow(column) % lengths.len()]);
                for answer in 0..=3 {
                    for position in [small.up_to(n) - 1, small.many(), r.bits() | 1 << 32] {
                        small.trace(r, tally, position, Slots { columns, answer });
                    }
                }
            }
        }
        for answer in 0..=3 {
            small.count(r, tally, answer);
        }
    }
}

/// Any sheets, counts and bounds, most of which are refused: numbers at the limits, rows that are cut, counts over the entries, charges.
pub fn any_sheets(r: &mut Random, tally: &mut Tally, cases: u32) {
    for _ in 0..cases {
        let tasks = r.within(1, SMALL_TASKS as u32) as usize;
        let sheet = if r.once_in(3) { boundary_sheet(r) } else { some_sheet(r, tasks) };
        let sheet = if r.once_in(3) { with_charge(r, sheet) } else { sheet };
        let mut case = passed(r, &sheet);
        match r.within(0, 7) {
            0 => case.count = r.of(&[0, 1, 2, 3, 4, 5, 31, 32, 33, 1 << 31, u32::MAX]),
            1 => case.numbers.truncate(r.within(0, case.numbers.len() as u32) as usize),
            2 => {
                let at = r.within(0, case.numbers.len().min(TASK_NUMBERS * case.count as usize) as u32 - 1) as usize;
                case.numbers[at] = r.of(&BOUNDARY);
            }
            _ => {}
        }
        let releases = if r.once_in(4) { r.of(&[6, 7, 8, 255, 256, 262, 1 << 16, 1 << 31, u32::MAX]) } else { r.within(0, 4) };
        let ticks = if r.once_in(4) { r.of(&[12, 13, 14, 255, 256, 268, 1 << 16, 1 << 31, u32::MAX]) } else { r.within(0, 4) };
        let sheet = case.sheet();
        let accepted = reference::check_small(&sheet, releases, ticks).is_ok();
        if accepted && reference::count_where_all_legal(&sheet, releases, ticks) > 4_000 {
            continue;
        }
        let small = Small::listed(case, releases, ticks);
        for _ in 0..3 {
            let position = r.tick(0, small.many() + 1);
            small.read(r, tally, position);
        }
        let slots = r.of(&[0, 1, 1, 1, 2]);
        small.count(r, tally, slots);
    }
}

// ---- What decides ------------------------------------------------------------------------------------------------------

/// What is passed to a call: what is given, a position, the slots, and how many releases the trace there has, none where there is no trace.
#[derive(Clone)]
struct Passed {
    case: Case,
    releases: u32,
    ticks: u32,
    position: u64,
    slots: Slots,
    length: Option<usize>,
}

/// What a change alone makes of a call that is answered: a refusal; nothing; or the change cannot be made here.
#[derive(Clone, Copy, PartialEq)]
enum Decides {
    Refused(u32, u64),
    Nothing,
    NotHere,
}

/// The stage of the check that a change touches, and the change.
type Change = (u32, fn(&mut Random, &mut Passed) -> Decides);

/// A column one slot short or shorter, where the trace has a release.
fn cut_column(r: &mut Random, now: &mut Passed, column: usize) -> Decides {
    match now.length {
        Some(0) => Decides::NotHere,
        Some(n) => {
            now.slots.columns[column] = if r.once_in(2) { n - 1 } else { r.within(0, n as u32 - 1) as usize };
            Decides::Refused(13, n as u64)
        }
        None => {
            now.slots.columns[column] = 0;
            Decides::Nothing
        }
    }
}

/// The changes, in the order of the checks.
fn changes() -> Vec<Change> {
    use Decides::*;
    vec![
        // the sheet
        (0, |_, now| {
            now.case.count = 0;
            Refused(5, 0)
        }),
        (0, |r, now| {
            now.case.count = r.of(&[33, 34, 257, 1 << 16, 1 << 31, u32::MAX]);
            Refused(4, 32)
        }),
        (1, |r, now| {
            let i = r.within(0, now.case.count - 1);
            let (place, number) = r.of(&[(0, 0), (0, MAX_TIME + 1), (1, MAX_TIME + 1), (1, u32::MAX), (3, 0), (3, u32::MAX)]);
            now.case.numbers[5 * i as usize + place] = number;
            Refused(6, i as u64)
        }),
        (1, |_, now| {
            // the last entry is cut off
            let i = now.case.count - 1;
            now.case.numbers.truncate(5 * i as usize);
            Refused(6, i as u64)
        }),
        (1, |r, now| {
            let (i, charge) = (r.within(0, now.case.count - 1), now.case.charge as u32);
            let Some(row) = now.case.numbers.get_mut(5 * i as usize..5 * i as usize + 5).filter(|_| charge > 0) else {
                return NotHere;
            };
            row[2] = row[0].min(row[3]).wrapping_sub(charge).wrapping_add(r.within(1, charge));
            Refused(17, i as u64)
        }),
        // more than three tasks, all of which are sound
        (2, |r, now| {
            let count = r.of(&[4, 4, 5, 6, 31, 32]);
            let first: Vec<u32> = now.case.numbers[..TASK_NUMBERS].to_vec();
            now.case.numbers.truncate(TASK_NUMBERS * now.case.count as usize);
            while now.case.numbers.len() < TASK_NUMBERS * count as usize {
                now.case.numbers.extend(&first);
            }
            now.case.count = count;
            Refused(4, count as u64)
        }),
        (3, |r, now| {
            now.releases = r.of(&[7, 7, 8, 12, 256, 260, 1024, 1025, 1 << 31, u32::MAX]);
            Refused(10, now.releases as u64)
        }),
        (4, |r, now| {
            now.ticks = r.of(&[13, 13, 14, 256, 260, 1 << 16, 1 << 31, u32::MAX]);
            Refused(8, now.ticks as u64)
        }),
        // the slots
        (5, |r, now| cut_column(r, now, 0)),
        (5, |r, now| cut_column(r, now, 1)),
        (5, |r, now| cut_column(r, now, 2)),
        (6, |r, now| {
            now.slots.answer = r.of(&[0, 1]);
            Refused(13, 2)
        }),
        // what does not matter
        (7, |r, now| {
            let first = TASK_NUMBERS * now.case.count as usize;
            now.case.numbers.resize(now.case.numbers.len().max(SHEET_NUMBERS + 2), 0);
            now.case.numbers[first..].iter_mut().for_each(|n| *n = if r.once_in(2) { r.of(&BOUNDARY) } else { r.bits() as u32 });
            Nothing
        }),
        (7, |r, now| {
            now.case.numbers[4] = r.of(&LOW_MARKS);
            Nothing
        }),
        (7, |r, now| {
            now.slots.columns.iter_mut().for_each(|s| *s += r.within(0, 4) as usize);
            now.slots.answer += r.within(0, 2) as usize;
            Nothing
        }),
    ]
}

/// So many calls that are answered, with traces of each length and past the last, each with every change alone and every two and some three
/// of them: what decides is stated beside each change, the earlier of the checks where there are several.
pub fn pairs(r: &mut Random, tally: &mut Tally, sheets: u32) {
    let all = changes();
    for k in 0..sheets {
        let tasks = r.within(1, SMALL_TASKS as u32) as usize;
        let charge = r.of(&[0, 1, 1, 5, 255]);
        let sheet = roomy_sheet_for(r, tasks, charge);
        let small = Small::listed(passed(r, &sheet), r.within(1, 4), r.within(1, 3));
        let position = match k % 3 {
            0 => small.many() + r.tick(0, 2),
            1 => small.up_to(r.within(0, small.releases)) - 1,
            _ => r.tick(0, small.many() - 1),
        };
        let length = small.at(position).map(|list| list.len());
        let (releases, ticks, slots) = (small.releases, small.ticks, Slots::of(length.unwrap_or(0)));
        let good = Passed { case: small.case, releases, ticks, position, slots, length };
        decide(r, tally, &good, &[]);
        for one in &all {
            decide(r, tally, &good, &[one]);
            for two in &all {
                decide(r, tally, &good, &[one, two]);
            }
            let (two, three) = (r.within(0, all.len() as u32 - 1) as usize, r.within(0, all.len() as u32 - 1) as usize);
            decide(r, tally, &good, &[one, &all[two], &all[three]]);
        }
    }
}

/// Both calls with these changes, against what is stated of them and against the reference.
fn decide(r: &mut Random, tally: &mut Tally, good: &Passed, changes: &[&Change]) {
    // that of a later check is made first, so that it does not undo one of an earlier check
    let mut changes = changes.to_vec();
    changes.sort_by_key(|c| std::cmp::Reverse(c.0));
    let mut now = good.clone();
    let mut made = Vec::new();
    for (stage, change) in changes {
        if *stage == 1 && now.case.numbers.len() < TASK_NUMBERS * now.case.count as usize {
            // the row is cut already
            return;
        }
        match change(r, &mut now) {
            Decides::NotHere => return,
            Decides::Refused(number, place) => made.push((*stage, if *stage == 1 { place } else { 0 }, number, place)),
            Decides::Nothing => {}
        }
    }
    // of two changes of one number the later one counts; 6 and 17 are by task, and of one task 6 comes first
    let twice = [0, 2, 3, 4].iter().any(|&stage| made.iter().filter(|m| m.0 == stage).count() > 1);
    made.sort();
    let decides = |last: u32| made.iter().find(|m| m.0 <= last).map(|&(_, _, number, place)| Refusal { number, place });
    let small = Small::listed(now.case, now.releases, now.ticks);
    let refused = small.trace(r, tally, now.position, now.slots);
    assert!(twice || refused == decides(6), "{:?} {:?} {}", refused, made, small.show());
    // how many there are: no column, and one slot for the answer
    let short = made.iter().any(|m| m.0 == 6);
    let slots = if short { 0 } else { r.within(1, 3) as usize };
    let refused = small.count(r, tally, slots);
    let stated = decides(4).or(if short { Some(Refusal { number: 13, place: 1 }) } else { None });
    assert!(twice || refused == stated, "{:?} {:?} {}", refused, made, small.show());
}

// ---- The reference alone -----------------------------------------------------------------------------------------------

/// The lists that never fall, against all lists of as many numbers; the traces against those that the trace check lets through, against how
/// many there are by task and, where every list is legal, against how many begin with each release.
pub fn check_reference(r: &mut Random, sheets: u32) {
    for (n, m) in (0..5u32).flat_map(|n| (0..6u32).map(move |m| (n, m))) {
        let lists = (0..(m as usize).pow(n)).map(|k| (0..n).map(|i| k / (m as usize).pow(i) % m as usize).collect::<Vec<usize>>());
        let mut all: Vec<Vec<usize>> = lists.filter(|l| l.windows(2).all(|two| two[0] <= two[1])).collect();
        let mut made: Vec<Vec<usize>> = reference::never_falling(n, m).collect();
        all.sort();
        made.sort();
        assert_eq!(made, all);
    }
    let (mut legal, mut not) = (0, 0);
    for k in 0..sheets {
        let tasks = r.within(1, SMALL_TASKS as u32) as usize;
        let sheet = if k % 3 == 0 { bursting_sheet(r, tasks) } else { some_sheet(r, tasks) };
        let (releases, ticks) = (r.within(0, 4), r.within(0, 5));
        let all = reference::small_traces(&sheet, releases, ticks);
        assert_eq!(all.len() as u64, reference::count_by_task(&sheet, releases, ticks));
        assert!(all[0].is_empty() && all.iter().all(|list| reference::first_too_close(&sheet, list).is_none()));
        if k % 3 == 0 {
            let many = reference::count_where_all_legal(&sheet, releases, ticks);
            let made: Vec<Vec<Release>> = (0..many).map_while(|p| reference::trace_where_all_legal(&sheet, releases, ticks, p)).collect();
            assert_eq!(made, all);
            assert_eq!(reference::trace_where_all_legal(&sheet, releases, ticks, many), None);
        }
        for _ in 0..20 {
            let (n, step) = (r.within(0, 6) as usize, r.of(&[1, 2, 6]));
            let list = list_for(r, &sheet, n, step);
            let close = reference::first_too_close(&sheet, &list).is_some();
            assert_eq!(reference::is_legal(&sheet, &list), !close);
            (legal, not) = (legal + !close as u32, not + close as u32);
        }
    }
    assert!(legal > sheets && not > sheets);
}
