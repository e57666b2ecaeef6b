//! Compares the archive with the reference implementation: every answer, every lent slot, refusals with their place; and the run
//! that jumps with the ticking run of the archive, where the ticks are not too many. The calls on a window are in monitor.rs, those on a
//! board in board.rs, those for small traces in small.rs.
//! One argument may give another seed. The last line says how many calls were compared and how many differed.

mod board;
mod generator;
mod library;
mod monitor;
mod reference;
mod small;
mod sums;

use generator::*;
use std::collections::{BTreeMap, BTreeSet};
use reference::{add_release, add_task, Budget, Chosen, Exhausted, Frame, Judged, Refusal, Release, Sheet, Supply, Task, Verdict};
use reference::{HORIZON, MAX_FRAME, MAX_RELEASES, MAX_SHORT_TICK, MAX_TICK, MAX_TIME, MAX_WINDOWS};

const SEED: u64 = 20_240_601;

/// The ticks that a ticking run may go through in comparisons that are made often, and in a few: a thousand million take some 0.4 s.
const SOON: u64 = 10_000_000;
const LATE: u64 = 2_100_000_000;

/// Slots lent to a call: filled with numbers that no answer depends on.
struct Lent<T> {
    held: Vec<T>,
    now: Vec<T>,
}

impl<T: Copy + PartialEq + std::fmt::Debug> Lent<T> {
    fn of(held: Vec<T>) -> Lent<T> {
        Lent { now: held.clone(), held }
    }
    /// The answer stands in the first slots and all others keep what they held; nothing changes without an answer.
    fn holds(&self, answer: Option<&[T]>) -> bool {
        let answer = answer.unwrap_or(&[]);
        let n = answer.len();
        n <= self.now.len() && self.now[..n] == *answer && self.now[n..] == self.held[n..]
    }
}

fn words(r: &mut Random, n: usize) -> Lent<u64> {
    Lent::of((0..n).map(|_| r.bits()).collect())
}

fn numbers(r: &mut Random, n: usize) -> Lent<u32> {
    Lent::of((0..n).map(|_| r.bits() as u32).collect())
}

fn bytes(r: &mut Random, n: usize) -> Lent<u8> {
    Lent::of((0..n).map(|_| r.bits() as u8).collect())
}

/// What a call returns: 0 where it answered, else number · 2^32 + place.
fn code(refusal: Option<Refusal>) -> u64 {
    refusal.map_or(0, |r| ((r.number as u64) << 32) + (r.place & 0xffff_ffff))
}

/// Slots around a number needed: exact, some more, or too few.
fn around(r: &mut Random, needed: usize) -> usize {
    match r.within(0, 19) {
        0 => needed.saturating_sub(1),
        1 => r.within(0, needed as u32) as usize,
        2..=4 => needed + r.within(1, 5) as usize,
        _ => needed,
    }
}

/// A sheet as it is passed, with a frame, which has no number where there is none, kept jitters and a list. Each column has a length of
/// its own.
#[derive(Clone)]
struct Case {
    numbers: Vec<u32>,
    count: u32,
    charge: u8,
    frame: Vec<u32>,
    kept: Vec<u32>,
    n: u32,
    task: Vec<u32>,
    tick: Vec<u64>,
    cost: Vec<u32>,
}

impl Case {
    fn sound(r: &mut Random, sheet: &Sheet, list: &[Release]) -> Case {
        Case {
            numbers: given_numbers_of(r, sheet),
            count: sheet.count as u32,
            charge: sheet.charge,
            frame: given_frame_of(r, &sheet.frame),
            kept: kept_for(r, sheet),
            n: list.len() as u32,
            task: list.iter().map(|x| x.task).collect(),
            tick: list.iter().map(|x| x.tick).collect(),
            cost: list.iter().map(|x| x.cost).collect(),
        }
    }

    /// One thing about the case changed.
    fn damage(&mut self, r: &mut Random) {
        match r.within(0, 14) {
            0 => self.count = r.of(&[0, 1, 31, 32, 33, 34, 64, u32::MAX]),
            1 => self.numbers.truncate(r.within(0, self.numbers.len() as u32) as usize),
            2 => {
                let at = r.within(0, self.numbers.len() as u32 - 1) as usize;
                self.numbers[at] = r.of(&BOUNDARY);
            }
            3 => self.kept.truncate(r.within(0, self.kept.len() as u32) as usize),
            4 | 5 => {
                let i = r.within(0, self.kept.len() as u32 - 1) as usize;
                self.kept[i] = if r.once_in(3) { u32::MAX } else { self.numbers[TASK_NUMBERS * i + 1].wrapping_add(1) };
            }
            6 => self.kept.push(r.bits() as u32),
            7 => self.n = r.of(&[self.n + 1, 1024, 1025, u32::MAX]),
            8 => self.task.truncate(self.task.len().saturating_sub(1)),
            9 => self.tick.truncate(self.tick.len().saturating_sub(1)),
            10 => self.cost.truncate(self.cost.len().saturating_sub(1)),
            11 => self.numbers.push(r.bits() as u32),
            12 => self.charge = if r.once_in(2) { r.of(&EDGE_CHARGES) } else { r.bits() as u8 },
            13 => {
                let i = r.within(0, self.kept.len() as u32 - 1) as usize;
                self.numbers[TASK_NUMBERS * i + 4] = if r.once_in(2) { 0 } else { r.of(&LOW_MARKS) };
            }
            _ => {
                self.task.push(r.bits() as u32);
                self.tick.push(r.bits());
                self.cost.push(r.bits() as u32);
            }
        }
    }

    /// One number of the frame changed, or its row cut.
    fn damage_frame(&mut self, r: &mut Random) {
        let count = frame_of(&self.frame).map_or(0, |f| f.count.min(MAX_WINDOWS));
        let at = r.within(0, 1 + 2 * count as u32) as usize;
        match r.within(0, 3) {
            0 => self.frame.truncate(r.within(0, self.frame.len() as u32) as usize),
            1 => self.frame[at] = r.of(&FRAME_EDGES),
            2 => self.frame[at] = self.frame[at].wrapping_add(1),
            _ => self.frame[at] = self.frame[at].wrapping_sub(1),
        }
    }

    /// The same case with this frame, whose row is as long as its windows need.
    fn with_frame(&self, frame: Option<Frame>) -> Case {
        Case { frame: frame_numbers_of(&frame), ..self.clone() }
    }

    /// The same case with every mark high.
    fn all_high(&self) -> Case {
        let mut case = self.clone();
        case.numbers.iter_mut().skip(TASK_NUMBERS - 1).step_by(TASK_NUMBERS).for_each(|mark| *mark = 0);
        case
    }

    fn sheet(&self) -> Sheet {
        sheet_of(&self.numbers, self.count, self.charge).framed(frame_of(&self.frame))
    }
    fn reference_list(&self) -> reference::Columns<'_> {
        reference::Columns { task: &self.task, tick: &self.tick, cost: &self.cost }
    }
    fn library_list(&self) -> library::Columns<'_> {
        library::Columns { task: &self.task, tick: &self.tick, cost: &self.cost }
    }
    /// Whether a ticking run of the case, with so many slots of ready and finish ticks, is refused or goes through at most so many
    /// ticks: no job is ready later than a largest period for each release after the last tick, and then all of them run at most, in our
    /// ticks.
    fn ends_by(&self, slots: [usize; 2], ticks: u64) -> bool {
        let checked = reference::check_run(&self.sheet(), &self.kept, self.n as usize, &self.reference_list(), slots[0], slots[1]);
        let Ok(list) = checked else {
            return true;
        };
        let period = self.sheet().tasks.iter().map(|t| t.p as u64).max().unwrap_or(0);
        let work: u64 = list.iter().map(|x| x.cost as u64 + self.charge as u64).sum();
        let supply = Supply::of(&self.sheet().frame);
        let start = list.last().map_or(0, |x| x.tick) + list.len() as u64 * period + 1;
        supply.after(supply.before(start as i64) + work as i64) as u64 <= ticks
    }
    fn show(&self) -> String {
        format!(
            "sheet {:?} count {} charge {} frame {:?} kept {:?} n {} task {:?} tick {:?} cost {:?}",
            self.numbers, self.count, self.charge, self.frame, self.kept, self.n, self.task, self.tick, self.cost
        )
    }
}

#[derive(Default)]
struct Tally {
    calls: [u64; NAMES.len()],
    refusals: [u64; 21],
    /// How many of the calls were answered with a charge, and the charges; how many with a low task; and how many with a frame.
    charged: [u64; NAMES.len()],
    charges: BTreeSet<u8>,
    marked: [u64; NAMES.len()],
    framed: [u64; NAMES.len()],
    /// The verdicts with a frame, by kind; and of each of UNLIKE how many were compared with that of no frame, and how many differ.
    framed_verdicts: [u64; 3],
    beside_none: [u64; 4],
    unlike_none: [u64; 4],
    /// The places at which a frame was refused.
    frame_places: BTreeSet<u64>,
    /// How many choices with a low task ended in each of ENDS.
    ends: [u64; 4],
    /// How many sets of kept jitters were tried, the most of one sheet, and how many sheets had each of TRIED.
    sets: u64,
    most_sets: u64,
    tried: [u64; TRIED.len()],
    /// Files that were refused with 6 for a last byte of kind 6 alone, by that byte.
    wrong_marks: BTreeSet<u8>,
    verdicts: [u64; 3],
    /// Of the verdicts: the largest number of evaluations, and how many had each of LISTS.
    most_evaluations: u64,
    lists: [u64; 4],
    /// Choices whose evaluations are those of the verdicts, added up.
    added_up: u64,
    too_close: u64,
    /// Of the runs that jump: the most stops, and how many have fewer than two for each release.
    most_stops: u64,
    shared_stops: u64,
    /// The largest ready tick and the largest finish.
    last_ready: u64,
    last_finish: u64,
    passed_over: u64,
    /// Runs that were not made tick by tick, since the ticks are too many.
    not_ticked: u64,
    /// Of the tasks that a window showed: how many had each of DISPLAYS. The most jobs since an opening. And the refusals of the calls on a
    /// window, by call, number and whether it is that the window is too short.
    displays: [u64; DISPLAYS.len()],
    most_jobs: usize,
    window_refusals: BTreeSet<(usize, u32, bool)>,
    /// Of the commits: how many had each of board::COMMITS. How often each change of a commit that is accepted was made alone. And the
    /// refusals of the calls on a board, by call, number and whether it is that the board is too short.
    commits: [u64; board::COMMITS.len()],
    forged: BTreeMap<&'static str, u64>,
    board_refusals: BTreeSet<(usize, u32, bool)>,
    /// Of the calls for small traces: how many had each of small::ANSWERS, and how often each check of each call decided.
    small_answers: [u64; small::ANSWERS.len()],
    small_refusals: BTreeMap<(usize, &'static str), u64>,
    differences: u64,
}

const NAMES: [&str; 19] = [
    "arrival count", "verdict", "choice", "trace check", "ready ticks", "run", "read", "write", "load", "jumping run", "monitor open",
    "monitor take", "monitor show", "show all", "board open", "board ask", "board commit", "small trace", "small count",
];

/// What the lists of t of a verdict may have: one member at q = 0, a last t over H after others, a first t over H; and more than one list.
const LISTS: [&str; 4] = ["a list of one", "a last t over H", "a first t over H", "more than one q"];

/// How a choice on a sheet with a low task may end: as the ordinary one, as that of the high tasks alone, and with 15 of that one, at the
/// task at which the ordinary one ended or at another.
const ENDS: [&str; 4] = ["ordinary", "high only", "15 at the same task", "15 at another task"];

/// What a sheet may have of which all sets of kept jitters were tried: how the choice with every mark high ends; a verdict of horizon, a
/// jitter over the period; a frame or a charge and a choice with a K over 0; marks with which only the choice of the high tasks succeeds;
/// and marks with which the ordinary one succeeds, and some set with a smaller K for a high task makes every high task fit.
const TRIED: [&str; 13] = [
    "every K 0", "a K over 0", "15 at task 0", "15 at task 1", "15 at task 2", "15 at task 3", "horizon", "J over P", "frame and K over 0",
    "windows and K over 0", "charge and K over 0", "high only", "high tasks fit with less",
];

/// What of a sheet with a frame may differ from that without it.
const UNLIKE: [&str; 4] = ["kinds of verdicts", "verdicts", "choices", "runs"];

/// What a window may show of a task: after so many jobs since the opening; no job of the task among those that count, none of its jobs late,
/// some of them, all of 256; a largest response below the one shown before; and anything, in a window that no call made.
const DISPLAYS: [&str; 11] = [
    "no job yet", "up to 255 jobs", "256 jobs", "257 jobs", "over 512 jobs", "none of the task", "none late", "some late", "256 late",
    "a largest that fell", "slots that no call made",
];

/// How many refusals the calls on a window have: 5, 4, 6, 17 and 13 of an opening; 13, 5, 4 and 14 of a job; the same and 13 for the answer
/// of a show; 13, 5, 4 and 13 for the columns of a show of all.
const WINDOW_REFUSALS: usize = 5 + 4 + 5 + 4;

/// How often each end of a choice has to come up, and each of TRIED, of DISPLAYS, of board::COMMITS and of small::ANSWERS.
const OFTEN: u64 = 2_000;
const SOME: u64 = 100;

impl Tally {
    /// Notes how a choice with a low task ends, of which the ordinary one is given too.
    fn ended(&mut self, ordinary: &Result<Chosen, Refusal>, chosen: &Result<Chosen, Refusal>) {
        let end = match (ordinary, chosen) {
            (_, Ok(c)) => c.high_only as usize,
            (Err(a), Err(b)) if a == b => 2,
            _ => 3,
        };
        self.ends[end] += 1;
    }
    /// Notes the evaluations of a verdict without a frame.
    fn judged(&mut self, case: &Case, task: u32, judged: &Judged) {
        if !case.frame.is_empty() {
            return;
        }
        let begins = |q: i64| reference::tried(&case.sheet(), &case.kept, task as usize, q).take(2).collect::<Vec<i64>>();
        let one = matches!(begins(0)[..], [t] if t <= HORIZON);
        let over = match judged.verdict {
            Verdict::Horizon { q } => begins(q).len(),
            _ => 0,
        };
        self.most_evaluations = self.most_evaluations.max(judged.evaluations);
        for (count, seen) in self.lists.iter_mut().zip([one, over == 2, over == 1, judged.taken > 1]) {
            *count += seen as u64;
        }
    }
    /// A ticking run that is not refused where it should be may go on for days: with such ticks none is made once something differed.
    fn may_tick(&self, case: &Case) -> bool {
        self.differences == 0 || case.tick.iter().all(|&tick| tick <= LATE)
    }
    /// Notes a call that is answered with this sheet.
    fn answered(&mut self, call: usize, sheet: &Sheet) {
        if sheet.charge > 0 {
            self.charged[call] += 1;
            self.charges.insert(sheet.charge);
        }
        self.marked[call] += sheet.tasks.iter().any(|t| t.low) as u64;
        self.framed[call] += sheet.frame.is_some() as u64;
    }
    fn note(&mut self, call: usize, expected: Option<Refusal>, got: u64, slots: bool, show: impl Fn() -> String) {
        self.calls[call] += 1;
        if let Some(r) = expected {
            self.refusals[r.number as usize] += 1;
            if r.number == 18 {
                self.frame_places.insert(r.place);
            }
        }
        if got == code(expected) && slots {
            return;
        }
        self.differences += 1;
        if self.differences <= 5 {
            let what = if got == code(expected) { "a lent slot differs" } else { "the code differs" };
            println!("{}: {}; expected {:?}, got {} · 2^32 + {}; {}", NAMES[call], what, expected, got >> 32, got & 0xffff_ffff, show());
        }
    }
}

/// 13 where a slice has fewer slots than are needed.
fn short(slots: usize, needed: usize) -> Result<(), Refusal> {
    if slots < needed { Err(Refusal { number: 13, place: needed as u64 }) } else { Ok(()) }
}

/// A call on values that answers in words: they are the last of its lent slices, so that only kept jitters (12), releases
/// (7, 8, 9) and the choice (15) are checked after them.
fn in_words<T>(slots: usize, needed: usize, given: Result<T, Refusal>) -> Result<T, Refusal> {
    match given {
        Err(r) if !matches!(r.number, 7 | 8 | 9 | 12 | 15) => Err(r),
        _ => short(slots, needed).and(given),
    }
}

/// A read: the whole file, then the slots of the sheet, of the columns and of the answer.
fn read_into(file: &[u8], sheet: usize, slots: [usize; 3], answer: usize) -> Result<(Sheet, Vec<Release>), Refusal> {
    reference::decode(file)?;
    short(sheet, SHEET_NUMBERS)?;
    let given = reference::read(file, slots)?;
    short(answer, 3)?;
    Ok(given)
}

/// A load: the whole text, then the slots of the sheet and of the answer.
fn load_into(text: &[u8], sheet: usize, answer: usize) -> Result<Sheet, Refusal> {
    let given = reference::load(text)?;
    short(sheet, SHEET_NUMBERS)?;
    short(answer, 1)?;
    Ok(given)
}

fn compare_arrival_count(r: &mut Random, tally: &mut Tally, case: &Case, task: u32, t: u32) {
    let slots = around(r, 1);
    let mut answer = words(r, slots);
    let expected = in_words(slots, 1, reference::arrival_count(&case.sheet(), task as usize, &case.kept, t));
    let got = library::arrival_count(&case.numbers, case.count, case.charge, task, &case.kept, t, &mut answer.now);
    if expected.is_ok() {
        tally.answered(0, &case.sheet());
    }
    let same = answer.holds(expected.ok().map(|n| [n]).as_ref().map(|a| &a[..]));
    tally.note(0, expected.err(), got, same, || format!("task {} t {} answer {:?} {}", task, t, answer.now, case.show()));
}

fn compare_verdict(r: &mut Random, tally: &mut Tally, case: &Case, task: u32, budget: u64) {
    let slots = around(r, 4);
    let mut answer = words(r, slots);
    let Ok(given) = reference::verdict(&case.sheet(), task as usize, &case.kept, &mut Budget::of(budget)) else {
        tally.passed_over += 1;
        return;
    };
    let expected = in_words(slots, 4, given).map(|j| {
        tally.judged(case, task, &j);
        match j.verdict {
            Verdict::Horizon { q } => [0, q as u64, 0, j.evaluations],
            Verdict::Late { q, r } => [1, q as u64, r as u64, j.evaluations],
            Verdict::Fits { r, q } => [2, q as u64, r as u64, j.evaluations],
        }
    });
    if let Ok(a) = expected {
        tally.verdicts[a[0] as usize] += 1;
        tally.framed_verdicts[a[0] as usize] += !case.frame.is_empty() as u64;
        tally.answered(1, &case.sheet());
    }
    let got = library::verdict(&case.numbers, case.count, case.charge, &case.frame, task, &case.kept, &mut answer.now);
    let same = answer.holds(expected.as_ref().ok().map(|a| &a[..]));
    tally.note(1, expected.err(), got, same, || format!("task {} answer {:?} {}", task, answer.now, case.show()));
}

fn compare_choice(r: &mut Random, tally: &mut Tally, case: &Case, budget: u64) {
    let needed = case.count.min(40) as usize;
    let slots = [around(r, needed), around(r, needed), around(r, 1)];
    compare_choice_into(r, tally, case, slots, budget);
}

/// The same with so many slots of kept jitters, of worst values and of the answer.
fn compare_choice_into(r: &mut Random, tally: &mut Tally, case: &Case, slots: [usize; 3], budget: u64) {
    let [a, b, w] = slots;
    let Ok(given) = reference::choice(&case.sheet(), a, b, &mut Budget::of(budget)) else {
        tally.passed_over += 1;
        return;
    };
    let expected = in_words(w, 1, given);
    compare_choice_with(r, tally, case, slots, &expected);
    if let Ok(chosen) = &expected {
        compare_choice_evaluations(tally, case, chosen, budget.max(1_000_000));
    }
}

/// The archive's choice with so many slots and this answer or refusal: every lent slot, and those that keep what they held.
fn compare_choice_with(r: &mut Random, tally: &mut Tally, case: &Case, [a, b, w]: [usize; 3], expected: &Result<Chosen, Refusal>) {
    let (mut kept, mut worst, mut answer) = (numbers(r, a), numbers(r, b), words(r, w));
    let got = library::choice(&case.numbers, case.count, case.charge, &case.frame, &mut kept.now, &mut worst.now, &mut answer.now);
    if expected.is_ok() {
        tally.answered(2, &case.sheet());
    }
    let chosen = expected.as_ref().ok();
    let scope = chosen.map(|c| [c.high_only as u64]);
    let same = kept.holds(chosen.map(|c| &c.kept[..]))
        && worst.holds(chosen.map(|c| &c.worst[..]))
        && answer.holds(scope.as_ref().map(|s| &s[..]));
    tally.note(2, expected.as_ref().err().copied(), got, same, || {
        format!("kept {:?} worst {:?} answer {:?} expected {:?} {}", kept.now, worst.now, answer.now, expected, case.show())
    });
}

/// The tasks that a choice judged: all, or where it is that of the high tasks alone these.
fn judged_tasks<'a>(sheet: &'a Sheet, chosen: &'a Chosen) -> impl Iterator<Item = usize> + 'a {
    (0..sheet.count).filter(|&i| !(chosen.high_only && sheet.task(i).low))
}

/// The evaluations of a choice that succeeds, which the reference counts without a verdict: those of the archive's verdicts at the chosen
/// kept jitters, added up over the tasks that are judged, all of which fit with the worst value chosen. Those of the ordinary choice before
/// one of the high tasks alone are no part of it.
fn compare_choice_evaluations(tally: &mut Tally, case: &Case, chosen: &Chosen, budget: u64) {
    let sheet = case.sheet();
    let Ok(counted) = reference::choice_evaluations(&sheet, &mut Budget::of(budget)) else {
        tally.passed_over += 1;
        return;
    };
    let (mut fit, mut sum) = (true, 0);
    for task in judged_tasks(&sheet, chosen) {
        let mut answer = [0; 4];
        let code = library::verdict(&case.numbers, case.count, case.charge, &case.frame, task as u32, &chosen.kept, &mut answer);
        (fit, sum) = (fit && (code, answer[0], answer[2]) == (0, 2, chosen.worst[task] as u64), sum + answer[3]);
    }
    tally.added_up += 1;
    let same = fit && counted == Some((chosen.high_only, chosen.kept.clone(), sum));
    tally.note(1, None, 0, same, || format!("{:?}, {} evaluations, by one walk {:?} {}", chosen, sum, counted, case.show()));
}

fn compare_trace_check(r: &mut Random, tally: &mut Tally, case: &Case) {
    let slots = around(r, 2);
    let mut answer = words(r, slots);
    let expected = in_words(slots, 2, reference::trace_check(&case.sheet(), case.n as usize, &case.reference_list()));
    let got = library::trace_check(&case.numbers, case.count, case.charge, case.n, case.library_list(), &mut answer.now);
    let numbers = expected.ok().map(|close| match close {
        None => [0, 0],
        Some(p) => [1, p as u64],
    });
    if let Some([close, _]) = numbers {
        tally.too_close += close;
        tally.answered(3, &case.sheet());
    }
    let same = answer.holds(numbers.as_ref().map(|a| &a[..]));
    tally.note(3, expected.err(), got, same, || format!("answer {:?} {}", answer.now, case.show()));
}

fn compare_ready(r: &mut Random, tally: &mut Tally, case: &Case) {
    let slots = around(r, case.n.min(1030) as usize);
    let mut ready = words(r, slots);
    let expected = reference::ready(&case.sheet(), &case.kept, case.n as usize, &case.reference_list(), slots);
    let got = library::ready(&case.numbers, case.count, case.charge, &case.kept, case.n, case.library_list(), &mut ready.now);
    if expected.is_ok() {
        tally.answered(4, &case.sheet());
    }
    let same = ready.holds(expected.as_ref().ok().map(|c| &c[..]));
    tally.note(4, expected.as_ref().err().copied(), got, same, || {
        format!("ready {:?} expected {:?} {}", ready.now, expected, case.show())
    });
}

/// The ticking run, where it is refused or goes through at most so many ticks.
fn compare_run(r: &mut Random, tally: &mut Tally, case: &Case, ticks: u64) {
    let needed = case.n.min(1030) as usize;
    let (a, b) = (around(r, needed), around(r, needed));
    if !case.ends_by([a, b], ticks) || !tally.may_tick(case) {
        tally.not_ticked += 1;
        return;
    }
    let (mut ready, mut finish) = (words(r, a), words(r, b));
    let expected = reference::run(&case.sheet(), &case.kept, case.n as usize, &case.reference_list(), a, b);
    let got = library::run(
        &case.numbers, case.count, case.charge, &case.frame, &case.kept, case.n, case.library_list(), &mut ready.now, &mut finish.now,
    );
    let columns = expected.as_ref().ok();
    if columns.is_some() {
        tally.answered(5, &case.sheet());
    }
    let same = ready.holds(columns.map(|c| &c.0[..])) && finish.holds(columns.map(|c| &c.1[..]));
    tally.note(5, expected.as_ref().err().copied(), got, same, || {
        format!("ready {:?} finish {:?} expected {:?} {}", ready.now, finish.now, expected, case.show())
    });
}

/// The run that jumps: ready ticks, the finish ticks that the reference allots job by job, and the stops that it counts from them.
fn compare_jump(r: &mut Random, tally: &mut Tally, case: &Case) {
    let needed = case.n.min(1030) as usize;
    let (a, b, w) = (around(r, needed), around(r, needed), around(r, 1));
    let (mut ready, mut finish, mut answer) = (words(r, a), words(r, b), words(r, w));
    let given = reference::jump(&case.sheet(), &case.kept, case.n as usize, &case.reference_list(), a, b);
    let expected = in_words(w, 1, given);
    let got = library::jump(
        &case.numbers, case.count, case.charge, &case.frame, &case.kept, case.n, case.library_list(), &mut ready.now, &mut finish.now, &mut answer.now,
    );
    let jumped = expected.as_ref().ok();
    let stops = jumped.map(|j| [j.stops]);
    let same = ready.holds(jumped.map(|j| &j.ready[..]))
        && finish.holds(jumped.map(|j| &j.finish[..]))
        && answer.holds(stops.as_ref().map(|s| &s[..]));
    if let Some(j) = jumped {
        let largest = |ticks: &[u64], before: u64| ticks.iter().copied().fold(before, u64::max);
        tally.answered(9, &case.sheet());
        tally.most_stops = tally.most_stops.max(j.stops);
        tally.shared_stops += (j.stops < 2 * case.n as u64) as u64;
        (tally.last_ready, tally.last_finish) = (largest(&j.ready, tally.last_ready), largest(&j.finish, tally.last_finish));
    }
    tally.note(9, expected.as_ref().err().copied(), got, same, || {
        format!("ready {:?} finish {:?} answer {:?} expected {:?} {}", ready.now, finish.now, answer.now, expected, case.show())
    });
}

/// The run that jumps and the ticking run, both of the archive, with lent slots that held the same: the same code, and the same in
/// every slot. The answer has its slot, so that both refuse the same. Where the ticking run is refused or goes through at most so
/// many ticks.
fn compare_jump_with_run(r: &mut Random, tally: &mut Tally, case: &Case, ticks: u64) {
    let needed = case.n.min(1030) as usize;
    let (a, b) = (around(r, needed), around(r, needed));
    if !case.ends_by([a, b], ticks) || !tally.may_tick(case) {
        tally.not_ticked += 1;
        return;
    }
    let (mut ready, mut finish, mut answer) = (words(r, a), words(r, b), words(r, 1));
    let (mut ticked_ready, mut ticked_finish) = (ready.held.clone(), finish.held.clone());
    let got = library::jump(
        &case.numbers, case.count, case.charge, &case.frame, &case.kept, case.n, case.library_list(), &mut ready.now, &mut finish.now, &mut answer.now,
    );
    let ticked = library::run(
        &case.numbers, case.count, case.charge, &case.frame, &case.kept, case.n, case.library_list(), &mut ticked_ready, &mut ticked_finish,
    );
    let same = got == ticked
        && (&ready.now, &finish.now) == (&ticked_ready, &ticked_finish)
        && (got == 0 || answer.holds(None));
    tally.note(9, None, 0, same, || {
        let ticked = (ticked, &ticked_ready, &ticked_finish);
        format!("jumped {:?} ticked {:?} {}", (got, &ready.now, &finish.now), ticked, case.show())
    });
}

fn compare_read(r: &mut Random, tally: &mut Tally, file: &[u8]) {
    let releases = reference::decode(file).map_or(0, |(_, list)| list.len());
    let slots = [around(r, releases), around(r, releases), around(r, releases)];
    let (a, s) = (around(r, 3), around(r, SHEET_NUMBERS));
    let (mut answer, mut sheet) = (words(r, a), numbers(r, s));
    let (mut task, mut tick, mut cost) = (numbers(r, slots[0]), words(r, slots[1]), numbers(r, slots[2]));
    let expected = read_into(file, s, slots, a);
    let got = library::read(file, &mut sheet.now, &mut task.now, &mut tick.now, &mut cost.now, &mut answer.now);
    let same = match &expected {
        Err(_) => {
            answer.holds(None) && sheet.holds(None) && task.holds(None) && tick.holds(None) && cost.holds(None)
        }
        Ok((s, list)) => {
            let mut whole = numbers_of(s);
            whole.resize(SHEET_NUMBERS, 0);
            let column = |f: fn(&Release) -> u32| list.iter().map(f).collect::<Vec<u32>>();
            tally.answered(6, s);
            answer.holds(Some(&[s.count as u64, list.len() as u64, s.charge as u64]))
                && sheet.holds(Some(&whole))
                && task.holds(Some(&column(|x| x.task)))
                && tick.holds(Some(&list.iter().map(|x| x.tick).collect::<Vec<u64>>()))
                && cost.holds(Some(&column(|x| x.cost)))
        }
    };
    tally.note(6, expected.as_ref().err().copied(), got, same, || format!("slots {:?} file {:?}", slots, file));
    if let Ok((sheet, _)) = reference::decode(file) {
        compare_again(tally, file, &sheet);
    }
}

/// A file that is accepted, read and written again by the archive: the same bytes.
fn compare_again(tally: &mut Tally, file: &[u8], given: &Sheet) {
    let (mut sheet, mut counts, mut length) = ([0; SHEET_NUMBERS], [0; 3], [0; 1]);
    let (mut task, mut tick, mut cost) = ([0; MAX_RELEASES], [0; MAX_RELEASES], [0; MAX_RELEASES]);
    let mut out = vec![0; file.len()];
    let got = library::read(file, &mut sheet, &mut task, &mut tick, &mut cost, &mut counts);
    let [tasks, releases, charge] = counts.map(|n| n as u32);
    let list = library::Columns { task: &task, tick: &tick, cost: &cost };
    let and = library::write(&sheet, tasks, charge as u8, releases, list, &mut out, &mut length);
    let same = out == file && length[0] == file.len() as u64;
    tally.answered(7, given);
    tally.note(7, None, if got == 0 { and } else { got }, same, || format!("read and written again: {:?}", file));
}

/// The bytes that a write of a case needs, more or less where its columns are short.
fn bytes_of(case: &Case) -> usize {
    let ticks = &case.tick[..case.tick.len().min(case.n.min(1030) as usize)];
    reference::bytes_needed(&case.sheet(), case.count.min(40) as usize, ticks)
}

/// A write, and a read of what was written.
fn compare_write(r: &mut Random, tally: &mut Tally, case: &Case) {
    let slots = around(r, bytes_of(case));
    compare_write_to(r, tally, case, slots);
}

/// The same with so many bytes lent.
fn compare_write_to(r: &mut Random, tally: &mut Tally, case: &Case, slots: usize) {
    let a = around(r, 1);
    let (mut answer, mut out) = (words(r, a), bytes(r, slots));
    let expected = in_words(a, 1, reference::write(&case.sheet(), case.n as usize, &case.reference_list(), slots));
    let got = library::write(&case.numbers, case.count, case.charge, case.n, case.library_list(), &mut out.now, &mut answer.now);
    let length = expected.as_ref().ok().map(|f| [f.len() as u64]);
    let same = answer.holds(length.as_ref().map(|l| &l[..])) && out.holds(expected.as_ref().ok().map(|f| &f[..]));
    tally.note(7, expected.as_ref().err().copied(), got, same, || case.show());
    if let Ok(file) = expected {
        tally.answered(7, &case.sheet());
        compare_read(r, tally, &file);
    }
}

/// A load; and where the text is accepted, that the same tasks as records are read to the same sheet, without a charge.
fn compare_load(r: &mut Random, tally: &mut Tally, text: &[u8]) {
    let (a, s) = (around(r, 1), around(r, SHEET_NUMBERS));
    let (mut answer, mut sheet) = (words(r, a), numbers(r, s));
    let expected = load_into(text, s, a);
    let got = library::load(text, &mut sheet.now, &mut answer.now);
    let whole = expected.as_ref().ok().map(|s| {
        let mut whole = numbers_of(s);
        whole.resize(SHEET_NUMBERS, 0);
        whole
    });
    let count = expected.as_ref().ok().map(|s| [s.count as u64]);
    let same = answer.holds(count.as_ref().map(|c| &c[..])) && sheet.holds(whole.as_ref().map(|w| &w[..]));
    tally.note(8, expected.as_ref().err().copied(), got, same, || {
        format!("sheet {} slots, answer {} slots, {} bytes: {}", s, a, text.len(), text.escape_ascii())
    });
    if let Ok(given) = reference::load(text) {
        compare_load_with_read(r, tally, text, &given);
    }
}

fn compare_load_with_read(r: &mut Random, tally: &mut Tally, text: &[u8], given: &Sheet) {
    let file = reference::encode(given, &[]);
    let (mut loaded, mut read) = (numbers(r, SHEET_NUMBERS), numbers(r, SHEET_NUMBERS));
    let (mut count, mut counts) = ([u64::MAX; 1], [u64::MAX; 3]);
    let got = library::load(text, &mut loaded.now, &mut count);
    let and = library::read(&file, &mut read.now, &mut [], &mut [], &mut [], &mut counts);
    let same = loaded.now == read.now && [count[0], 0, 0] == counts;
    tally.note(8, None, if got == 0 { and } else { got }, same, || format!("loaded and read: {}", text.escape_ascii()));
}

fn compare_list_calls(r: &mut Random, tally: &mut Tally, case: &Case, ticks: u64) {
    compare_trace_check(r, tally, case);
    compare_ready(r, tally, case);
    compare_run(r, tally, case, ticks);
    compare_jump(r, tally, case);
    compare_jump_with_run(r, tally, case, ticks);
    compare_write(r, tally, case);
}

fn compare_sheet_calls(r: &mut Random, tally: &mut Tally, case: &Case, budget: u64) {
    let task = if r.once_in(20) { r.of(&[case.count, case.count.wrapping_add(1), u32::MAX]) } else { r.within(0, case.count.saturating_sub(1).min(40)) };
    let t = if r.once_in(3) { r.of(&[0, 1, 10_000_000, u32::MAX - 1, u32::MAX]) } else { r.within(0, 200) };
    compare_arrival_count(r, tally, case, task, t);
    compare_verdict(r, tally, case, task, budget);
    compare_choice(r, tally, case, 4 * budget);
}

/// Small sheets with short lists, sound and damaged.
fn small(r: &mut Random, tally: &mut Tally, cases: u32) {
    for _ in 0..cases {
        let sheet = small_sheet(r);
        let sheet = if r.once_in(2) { with_charge(r, sheet) } else { with_part_charged(r, sheet) };
        let sheet = with_marks(r, sheet);
        let n = r.within(0, 12) as usize;
        let step = r.of(&[1, 4, 12, 40]);
        let mut list = if r.once_in(3) { legal_list_for(r, &sheet, n) } else { list_for(r, &sheet, n, step) };
        if r.once_in(4) {
            damage_list(r, &sheet, &mut list);
        }
        let mut case = Case::sound(r, &sheet, &list);
        if r.once_in(4) {
            case.damage(r);
        }
        let budget = if r.once_in(400) { 20_000_000 } else { 40_000 };
        compare_sheet_calls(r, tally, &case, budget);
        compare_list_calls(r, tally, &case, SOON);
    }
}

/// W(q) as the reference finds it agrees with a search that tries every t.
fn check_reference_windows(r: &mut Random, cases: u32) {
    for _ in 0..cases {
        let sheet = small_sheet(r);
        let sheet = with_fitting_charge(r, sheet);
        let kept = kept_for(r, &sheet);
        let i = sheet.count - 1;
        let mut budget = Budget::of(u64::MAX);
        let mut windows = reference::Windows::of(&sheet, &kept, i, &mut budget);
        for q in 0..4 {
            let demand = |t: i64| -> i64 {
                let above = (0..i).map(|j| {
                    let x = sheet.task(j);
                    (x.e as i64 + sheet.charge as i64) * reference::sigma(x.p as i64, kept[j] as i64, t)
                });
                (q + 1) * (sheet.task(i).e as i64 + sheet.charge as i64) + above.sum::<i64>()
            };
            match (1..2_000).find(|&t| demand(t) <= t) {
                None => break,
                Some(t) => assert_eq!(windows.get(q).ok(), Some(Some(t))),
            }
        }
    }
}

/// The evaluations of a choice that succeeds, by one walk over q for each task that is judged: those of the verdicts at its kept jitters,
/// added up. Some of the verdicts take more than one q, with more than one t each.
fn check_reference_evaluations(r: &mut Random, cases: u32) {
    let mut long = 0;
    for _ in 0..cases {
        let (tasks, top) = (r.of(&[1, 2, 5, 12]), r.of(&[40, 1_000]));
        let sheet = if r.once_in(2) { small_sheet(r) } else { loaded_sheet(r, tasks, top) };
        let sheet = with_part_charged(r, sheet);
        let sheet = with_marks(r, sheet);
        let budget = || Budget::of(100_000);
        let Ok(Ok(Chosen { kept, high_only, .. })) = reference::choice(&sheet, 32, 32, &mut budget()) else {
            continue;
        };
        let tasks = (0..sheet.count).filter(|&i| !(high_only && sheet.task(i).low));
        let judged = tasks.map(|i| reference::judge(&sheet, &kept, i, &mut budget())).collect::<Result<Vec<Judged>, _>>();
        let (Ok(judged), Ok(counted)) = (judged, reference::choice_evaluations(&sheet, &mut budget())) else {
            continue;
        };
        assert_eq!(counted, Some((high_only, kept, judged.iter().map(|j| j.evaluations).sum())));
        long += judged.iter().filter(|j| j.taken > 1 && j.evaluations > 2 * j.taken as u64).count();
    }
    assert!(long > 0);
}

/// The three ways in which the reference finds the finish ticks agree, and each is one tick later than where a job may run in its
/// ready tick. They are those of the list in which each cost has the charge in it. Its stops are those that a look at every tick counts, at least one more than there are jobs, since no two finishes
/// are equal and the first start is before them.
fn check_reference_run(r: &mut Random, cases: u32) {
    for _ in 0..cases {
        let sheet = small_sheet(r);
        let sheet = with_fitting_charge(r, sheet);
        let n = r.within(0, 12) as usize;
        let list = list_for(r, &sheet, n, 8);
        let kept = kept_for(r, &sheet);
        let ready = reference::ready_ticks(&sheet, &kept, &list);
        let finish = reference::finish_ticks(sheet.charge, &list, &ready);
        assert_eq!(finish, reference::finish_ticks_by_tick(sheet.charge, &list, &ready));
        assert_eq!(finish, reference::finish_ticks_by_job(sheet.charge, &list, &ready));
        let at_once = reference::finish_from(&None, sheet.charge, &list, &ready);
        assert_eq!(finish, at_once.iter().map(|t| t + 1).collect::<Vec<i64>>());
        assert_eq!(finish, reference::finish_ticks(0, &with_costs(&list, sheet.charge), &ready));
        let end = finish.iter().max().map_or(0, |&f| f);
        let stops = (0..=end).filter(|t| finish.contains(t) || ready.contains(&(t - 1))).count();
        assert_eq!(stops as u64, reference::stops(&ready, &finish));
        assert!(if n == 0 { stops == 0 } else { (n + 1..=2 * n).contains(&stops) });
    }
}

/// The same of lists of each form, and of ticks that are too late to be looked at one by one: by event and by job.
fn check_reference_jump(r: &mut Random, cases: u32) {
    for _ in 0..cases {
        for form in FORMS {
            let (n, charge) = (r.within(1, 40) as usize, form_charge(r));
            let (sheet, list) = form(r, n, charge);
            let kept = kept_for(r, &sheet);
            let ready = reference::ready_ticks(&sheet, &kept, &list);
            let finish = reference::finish_ticks_by_job(charge, &list, &ready);
            assert_eq!(finish, reference::finish_ticks(charge, &list, &ready));
            if finish.iter().all(|&f| f < 3_000) {
                assert_eq!(finish, reference::finish_ticks_by_tick(charge, &list, &ready));
            }
        }
        let (tasks, top) = (r.of(&[1, 3, 32]), r.of(&[40, 1_000, 1_000_000]));
        let sheet = loaded_sheet(r, tasks, top);
        let sheet = with_part_charged(r, sheet);
        let n = r.within(1, 60) as usize;
        let list = gapped_list_for(r, &sheet, n);
        let kept = kept_for(r, &sheet);
        let ready = reference::ready_ticks(&sheet, &kept, &list);
        let finish = reference::finish_ticks_by_job(sheet.charge, &list, &ready);
        assert_eq!(finish, reference::finish_ticks(sheet.charge, &list, &ready));
    }
}

/// Sheets of any size whose load is chosen, up to 32 tasks with the largest numbers.
fn loaded(r: &mut Random, tally: &mut Tally, cases: u32, tasks: &[u32]) {
    for _ in 0..cases {
        let (n, top) = (r.of(tasks), r.of(&[40, 200, 1_000, 20_000, 1_000_000]));
        let sheet = loaded_sheet(r, n, top);
        let sheet = any_charge(r, sheet);
        let sheet = with_marks(r, sheet);
        let case = Case::sound(r, &sheet, &[]);
        for _ in 0..3 {
            compare_sheet_calls(r, tally, &case, 30_000);
        }
    }
}

fn boundary(r: &mut Random, tally: &mut Tally, cases: u32) {
    for _ in 0..cases {
        let sheet = boundary_sheet(r);
        let sheet = with_charge(r, sheet);
        let sheet = with_marks(r, sheet);
        let mut list = list_for_any(r, &sheet);
        if r.once_in(2) {
            damage_list(r, &sheet, &mut list);
        }
        let mut case = Case::sound(r, &sheet, &list);
        if r.once_in(3) {
            case.damage(r);
        }
        compare_sheet_calls(r, tally, &case, 10_000);
        compare_list_calls(r, tally, &case, SOON);
    }
}

/// A list for a sheet that may be refused: costs are drawn as if it were sound.
fn list_for_any(r: &mut Random, sheet: &Sheet) -> Vec<Release> {
    let n = r.within(0, 6) as usize;
    let mut tick = 0;
    (0..n)
        .map(|_| {
            tick += r.tick(0, 5);
            Release { task: r.within(0, sheet.count as u32 - 1), tick, cost: 1 }
        })
        .collect()
}

/// Lists at the limit of 1,024 releases.
fn long_lists(r: &mut Random, tally: &mut Tally, cases: u32) {
    for _ in 0..cases {
        let (tasks, top) = (r.of(&[1, 3, 32]), r.of(&[40, 300, 3_000]));
        let sheet = loaded_sheet(r, tasks, top);
        let sheet = any_charge(r, sheet);
        let sheet = with_marks(r, sheet);
        let n = r.of(&[1023, 1024, 1024, 1025]);
        let step = r.of(&[0, 3, 60]);
        let mut list = if r.once_in(3) { legal_list_for(r, &sheet, n) } else { list_for(r, &sheet, n, step) };
        if r.once_in(4) {
            damage_list(r, &sheet, &mut list);
        }
        let case = Case::sound(r, &sheet, &list);
        compare_list_calls(r, tally, &case, SOON);
    }
}

/// Ticks at the largest one of kind 2, the last that a ticking run is asked to reach here.
fn late_ticks(r: &mut Random, tally: &mut Tally, cases: u32) {
    for _ in 0..cases {
        let sheet = loaded_sheet(r, 3, 1_000);
        let sheet = any_charge(r, sheet);
        let mut list = list_for(r, &sheet, 8, 50);
        for x in list.iter_mut() {
            x.tick = MAX_SHORT_TICK - 200 + x.tick.min(400);
        }
        let case = Case::sound(r, &sheet, &list);
        compare_list_calls(r, tally, &case, LATE);
    }
}

/// Lists that lie around the largest tick of kind 2, around what four bytes hold, up to the limit and over it: sound and damaged.
/// The ticking run is compared where it refuses.
fn long_ticks(r: &mut Random, tally: &mut Tally, cases: u32, sizes: &[usize]) {
    for _ in 0..cases {
        let (tasks, top) = (r.of(&[1, 2, 5, 32]), r.of(&[40, 1_000, 1_000_000]));
        let sheet = if r.once_in(3) { loaded_sheet(r, tasks, top) } else { small_sheet(r) };
        let sheet = any_charge(r, sheet);
        let sheet = with_marks(r, sheet);
        let (n, step) = (r.of(sizes), r.of(&[0, 3, 40, 2_000]));
        let list = if r.once_in(3) { legal_list_for(r, &sheet, n) } else { list_for(r, &sheet, n, step) };
        let (tick, over) = (r.of(&MIDDLE_TICKS), if r.once_in(8) { r.tick(1, 50) } else { 0 });
        let mut list = moved(&list, way_to(r, &list, tick) + over);
        if r.once_in(5) {
            damage_list(r, &sheet, &mut list);
        }
        let mut case = Case::sound(r, &sheet, &list);
        if r.once_in(5) {
            case.damage(r);
        }
        compare_list_calls(r, tally, &case, SOON);
    }
}

/// Lists of each form, moved to long ticks: ready ticks and jumping run.
fn moved_lists(r: &mut Random, tally: &mut Tally, cases: u32, sizes: &[usize]) {
    for _ in 0..cases {
        for form in FORMS {
            let (n, charge) = (r.of(sizes), form_charge(r));
            let (sheet, list) = form(r, n, charge);
            let case = Case::sound(r, &sheet, &list);
            let tick = r.of(&MIDDLE_TICKS);
            let by = way_to(r, &list, tick);
            let later = Case { tick: case.tick.iter().map(|t| t + by).collect(), ..case.clone() };
            compare_ready(r, tally, &later);
            compare_jump(r, tally, &later);
            compare_moved(tally, &case, &later, by);
        }
    }
}

/// The jumping run of the moved list gives what the ticking run gives of the list as it was, so much later; both of the archive.
fn compare_moved(tally: &mut Tally, case: &Case, later: &Case, by: u64) {
    let n = case.n as usize;
    let (mut ready, mut finish) = (vec![0; n], vec![0; n]);
    let (mut late_ready, mut late_finish) = (vec![0; n], vec![0; n]);
    let ticked = library::run(&case.numbers, case.count, case.charge, &case.frame, &case.kept, case.n, case.library_list(), &mut ready, &mut finish);
    let list = later.library_list();
    let got = library::jump(&case.numbers, case.count, case.charge, &case.frame, &case.kept, case.n, list, &mut late_ready, &mut late_finish, &mut [0]);
    let moved = |ticks: &[u64]| ticks.iter().map(|t| t + by).collect::<Vec<u64>>();
    let same = ticked == 0 && (moved(&ready), moved(&finish)) == (late_ready, late_finish);
    tally.note(9, None, got, same, || format!("{} ticks later than {}", by, case.show()));
}

/// The largest ready and finish ticks: 1,024 jobs of the largest cost and period, all released at one tick. Each but the last is
/// finished where the next one starts, hence the stops. At the limit in the jumping run, at the largest tick of kind 2 in both runs.
/// With the largest charge, which the cost leaves room for, they are the same.
fn largest_finish(r: &mut Random, tally: &mut Tally) {
    for (charge, tick, last) in [
        (0, MAX_SHORT_TICK, (2_023_000_000, 2_024_000_001)),
        (0, MAX_TICK, (1_000_001_023_000_000, 1_000_001_024_000_001)),
        (255, MAX_SHORT_TICK, (2_023_000_000, 2_024_000_001)),
        (255, MAX_TICK, (1_000_001_023_000_000, 1_000_001_024_000_001)),
    ] {
        let cost = MAX_TIME - charge as u32;
        let sheet = Sheet::of(&[Task::high(MAX_TIME, 0, cost, MAX_TIME)]).charged(charge);
        let case = Case::sound(r, &sheet, &[Release { task: 0, tick, cost }; 1024]);
        let expected = reference::run(&case.sheet(), &case.kept, 1024, &case.reference_list(), 1024, 1024).unwrap();
        assert_eq!((expected.0[1023], expected.1[1023]), last);
        let jumped = reference::jump(&case.sheet(), &case.kept, 1024, &case.reference_list(), 1024, 1024).unwrap();
        assert_eq!((&jumped.ready, &jumped.finish, jumped.stops), (&expected.0, &expected.1, 1_025));
        let (mut ready, mut finish) = (words(r, 1024), words(r, 1024));
        if tick == MAX_SHORT_TICK {
            let got = library::run(
                &case.numbers, case.count, case.charge, &case.frame, &case.kept, case.n, case.library_list(), &mut ready.now, &mut finish.now,
            );
            let same = ready.holds(Some(&expected.0)) && finish.holds(Some(&expected.1));
            tally.note(5, None, got, same, || format!("last ready {} finish {}", ready.now[1023], finish.now[1023]));
        }
        for _ in 0..20 {
            compare_jump(r, tally, &case);
            compare_ready(r, tally, &case);
        }
    }
}

/// Jumping runs of lists of each form: bursts, chains of preemption, equal ready ticks, idle gaps, finishes at starts. With some
/// kept jitters, with full ones, by which nothing is held back, and with none.
fn formed_lists(r: &mut Random, tally: &mut Tally, cases: u32, sizes: &[usize]) {
    for _ in 0..cases {
        for form in FORMS {
            let (n, charge) = (r.of(sizes), form_charge(r));
            let (sheet, list) = form(r, n, charge);
            let mut case = Case::sound(r, &sheet, &list);
            let full = sheet.tasks.iter().map(|t| t.j).collect();
            for kept in [case.kept.clone(), full, vec![0; sheet.count]] {
                case.kept = kept;
                compare_jump(r, tally, &case);
                compare_jump_with_run(r, tally, &case, SOON);
            }
        }
    }
}

/// Jumping runs over long gaps, up to the last tick allowed; with the reference alone, since the ticks are too many for a run that
/// goes through them.
fn long_gaps(r: &mut Random, tally: &mut Tally, cases: u32, sizes: &[usize]) {
    for _ in 0..cases {
        let (tasks, top) = (r.of(&[1, 2, 3, 8, 32]), r.of(&[40, 1_000, 1_000_000]));
        let sheet = loaded_sheet(r, tasks, top);
        let sheet = any_charge(r, sheet);
        let n = r.of(sizes);
        let mut list = gapped_list_for(r, &sheet, n);
        if r.once_in(10) {
            damage_list(r, &sheet, &mut list);
        }
        let mut case = Case::sound(r, &sheet, &list);
        if r.once_in(10) {
            case.damage(r);
        }
        compare_jump(r, tally, &case);
    }
}

/// Jumping runs of two releases, the first at 0 and the second up to the limit: of one task and of two, in both orders, with a charge
/// and without. With the ticking run too up to 1,000,000, and once at the largest tick of kind 2.
fn two_releases(r: &mut Random, tally: &mut Tally) {
    let short = [0, 1, 2, 3, 4, 5, 6, 1_000, 1_000_000];
    for tick in short.into_iter().chain(EDGE_TICKS) {
        for tasks in [[0, 0], [0, 2], [2, 0]] {
            for (cost, charge) in [(1, 0), (2, 0), (1, 1), (2, 4)] {
                let sheet = sums::printed_sheet().charged(charge);
                let list = [(tasks[0], 0), (tasks[1], tick)].map(|(task, tick)| Release { task, tick, cost });
                let case = Case::sound(r, &sheet, &list);
                for _ in 0..20 {
                    compare_jump(r, tally, &case);
                }
                let ticks = if (tick, tasks, cost, charge) == (MAX_SHORT_TICK, [0, 0], 2, 0) { LATE } else { SOON };
                compare_jump_with_run(r, tally, &case, ticks);
            }
        }
    }
}

/// Sound files of short and of long ticks, with a charge and without, with high and low tasks, cut at every byte and with every byte
/// changed; random records.
fn files(r: &mut Random, tally: &mut Tally, cases: u32) {
    for _ in 0..cases {
        let (tasks, releases) = (r.within(1, 4) as usize, r.within(0, 6) as usize);
        let (tick, charge) = (r.of(&MIDDLE_TICKS), if r.once_in(2) { r.of(&EDGE_CHARGES) } else { r.bits() as u8 });
        let file = if r.once_in(2) { file_for(r, charge, tasks, releases) } else { late_file_for(r, charge, tasks, releases, tick) };
        for end in 0..=file.len() {
            compare_read(r, tally, &file[..end]);
        }
        for at in 0..file.len() {
            let mut other = file.clone();
            other[at] = if r.once_in(2) { r.bits() as u8 } else { other[at].wrapping_add(1) };
            compare_read(r, tally, &other);
        }
        let mut longer = file.clone();
        longer.push(r.within(0, 7) as u8);
        compare_read(r, tally, &longer);
        for _ in 0..20 {
            let any = random_file(r);
            compare_read(r, tally, &any);
        }
        let noise: Vec<u8> = (0..r.within(0, 40)).map(|_| r.within(0, 7) as u8).collect();
        compare_read(r, tally, &noise);
    }
}

/// The record of a task.
fn record_of(t: Task) -> Vec<u8> {
    let mut record = Vec::new();
    add_task(&mut record, t);
    record
}

/// The record of the high task (6,5,2,6).
fn one_task() -> Vec<u8> {
    record_of(Task::high(6, 5, 2, 6))
}

/// The record of the low task (6,5,2,6), with this last byte, which is to be 0.
fn one_low_task(mark: u8) -> Vec<u8> {
    let mut record = record_of(Task::high(6, 5, 2, 6).marked(true));
    record[17] = mark;
    record
}

/// Two releases with ticks at the edges, each in either kind. Sound ones whole and cut at every byte, then with a task that is not
/// there, a cost of 0, or both, in the second.
fn edge_files(r: &mut Random, tally: &mut Tally) {
    let ticks = || [0, 1].into_iter().chain(EDGE_TICKS).flat_map(|tick| [(2, tick), (4, tick)]);
    for (kind, tick) in ticks() {
        for (then, next) in ticks() {
            for (task, cost) in [(0, 2), (1, 2), (0, 0), (1, 0)] {
                let mut file = one_task();
                add_release(&mut file, kind, Release { task: 0, tick, cost: 1 });
                add_release(&mut file, then, Release { task, tick: next, cost });
                file.push(3);
                compare_read(r, tally, &file);
                for end in (0..file.len()).filter(|_| (task, cost) == (0, 2)) {
                    compare_read(r, tally, &file[..end]);
                }
            }
        }
    }
}

/// Up to so many records of every kind in every order, of kind 6 with a last byte of 0 and of 1: whole, cut in the last one, and with a
/// byte after it. Ticks rise in the order of the kinds, so that a release of kind 2 after one of kind 4 has a tick that falls. Of the charge
/// the tasks hold at most 4.
fn record_orders(r: &mut Random, tally: &mut Tally, charge: u8, records: u64) {
    let mut all: Vec<Vec<u8>> = vec![Vec::new()];
    for turn in 0..records {
        let record = |kind: u8| match kind {
            1 => one_task(),
            3 => vec![3],
            5 => vec![5, charge],
            6 | 7 => one_low_task(kind - 6),
            _ => {
                let mut record = Vec::new();
                let tick = if kind == 2 { MAX_SHORT_TICK - 5 } else { MAX_SHORT_TICK + 1 } + turn;
                add_release(&mut record, kind, Release { task: 0, tick, cost: 1 });
                record
            }
        };
        let mut longer = Vec::new();
        for file in &all {
            for kind in 1..=7 {
                let whole = [&file[..], &record(kind)].concat();
                for end in file.len() + 1..=whole.len() {
                    compare_read(r, tally, &whole[..end]);
                }
                let after = r.within(0, 7) as u8;
                compare_read(r, tally, &[&whole[..], &[after]].concat());
                longer.push(whole);
            }
        }
        all = longer;
    }
}

/// Files of the kinds 1, 2 and 3 alone, as there were before the longer ticks, the charge and the marks: the releases that they had, no
/// charge, every task high, and the same bytes again.
fn old_files(r: &mut Random, tally: &mut Tally, cases: u32) {
    for _ in 0..cases {
        let (tasks, n) = (r.of(&[1, 3, 32]), r.of(&[1, 2, 7, 30, 1024]));
        let sheet = sheet_for(r, tasks);
        let list = list_for(r, &sheet, n, 9);
        let by = if r.once_in(2) { MAX_SHORT_TICK - list[n - 1].tick } else { r.tick(0, MAX_SHORT_TICK / 2) };
        let list = moved(&list, by);
        let mut file = reference::encode(&sheet, &[]);
        file.pop();
        for &x in &list {
            add_release(&mut file, 2, x);
        }
        file.push(3);
        assert_eq!((file.len(), reference::decode(&file)), (17 * sheet.count + 10 * n + 1, Ok((sheet, list))));
        compare_read(r, tally, &file);
    }
}

/// 32 and 33 tasks, 1,024 and 1,025 releases of short, of both and of long ticks, whole and cut at every byte near the end; with this
/// charge.
fn full_files(r: &mut Random, tally: &mut Tally, charge: u8) {
    for tasks in [32, 33] {
        for (releases, tick) in [0, 1, 1024, 1025].into_iter().flat_map(|n| [(n, 0), (n, MAX_SHORT_TICK), (n, MAX_TICK)]) {
            let file =
                if tick == 0 { file_for(r, charge, tasks, releases) } else { late_file_for(r, charge, tasks, releases, tick) };
            for end in (0..=file.len()).filter(|e| e % 97 == 0 || e + 40 > file.len()) {
                compare_read(r, tally, &file[..end]);
            }
            for _ in 0..40 {
                let mut other = file.clone();
                let at = r.within(0, file.len() as u32 - 1) as usize;
                other[at] = r.bits() as u8;
                compare_read(r, tally, &other);
            }
            let mut longer = file.clone();
            longer.extend_from_slice(&[1; 20]);
            compare_read(r, tally, &longer);
        }
    }
}

/// The largest file, of low tasks and with a charge, and what may follow its last release: 14,932 bytes decide a read, and of a low task
/// there 14,931 do not. Without a charge it is two bytes less, and for each high task one.
fn deciding_bytes(r: &mut Random, tally: &mut Tally) {
    for (charge, lows, decide) in [
        (255, 32, 14_932), (1, 32, 14_932), (0, 32, 14_930), (255, 0, 14_900), (0, 0, 14_898), (1, 1, 14_901), (1, 31, 14_931),
    ] {
        let sheet = roomy_sheet_for(r, 32, charge).marked(&vec![true; lows]);
        let file = late_file_of(r, &sheet, 1024, MAX_TICK);
        assert_eq!(file.len(), decide - 17);
        assert!(reference::decode(&file).is_ok_and(|(read, list)| (read, list.len()) == (sheet, 1024)));
        compare_read(r, tally, &file);
        let end = file.len() - 1;
        let releases = &file[..end];
        let mut long = Vec::new();
        add_release(&mut long, 4, Release { task: 0, tick: MAX_TICK, cost: 1 });
        let mut short = Vec::new();
        add_release(&mut short, 2, Release { task: 0, tick: MAX_SHORT_TICK, cost: 1 });
        let records: [(&[u8], u32, usize); 10] = [
            (&one_task(), 3, end), (&long, 10, end), (&short, 8, end), (&[3], 11, end + 1), (&[7], 1, end), (&[0], 1, end),
            (&[5, 1], 3, end), (&[5, 0], 3, end), (&one_low_task(0), 3, end), (&one_low_task(1), 3, end),
        ];
        for (record, number, place) in records {
            let whole = [releases, record, &[3; 40]].concat();
            let refused = Err(Refusal { number, place: place as u64 });
            assert_eq!((reference::decode(&whole), reference::decode(&whole[..decide])), (refused.clone(), refused));
            for end in end..=whole.len() {
                compare_read(r, tally, &whole[..end]);
            }
        }
        for mark in [0, 1] {
            let cut = [releases, &one_low_task(mark)].concat();
            assert_eq!(cut.len(), decide);
            assert_eq!(reference::decode(&cut[..decide - 1]), Err(Refusal { number: 2, place: end as u64 }));
        }
    }
}

/// The bytes that a write needs, with a charge or none, high and low tasks and ticks of any size and in any order: 13 with their number
/// where fewer are lent, whatever else is wrong with the releases.
fn write_places(r: &mut Random, tally: &mut Tally, cases: u32, sizes: &[usize]) {
    for _ in 0..cases {
        let tasks = r.of(&[1, 2, 5, 32]);
        let sheet = sheet_for(r, tasks);
        let sheet = any_charge(r, sheet);
        let sheet = with_marks(r, sheet);
        let n = r.of(sizes);
        let mut list = list_for(r, &sheet, n, 9);
        let any = r.once_in(2);
        for x in list.iter_mut() {
            x.tick = if any { r.of(&EDGE_TICKS) } else { MAX_SHORT_TICK - 20 + x.tick };
        }
        if r.once_in(3) {
            damage_list(r, &sheet, &mut list);
        }
        let case = Case::sound(r, &sheet, &list);
        let needed = bytes_of(&case);
        for slots in [0, needed - 1, needed, needed + 3] {
            compare_write_to(r, tally, &case, slots);
        }
    }
}

/// The text of tasks within the limits gives them back, a text that is accepted is the text of its tasks, and what is decided stays.
fn check_reference_texts(r: &mut Random, cases: u32) {
    for _ in 0..cases {
        let n = r.within(1, 32) as usize;
        let tasks = tasks_for(r, n);
        assert_eq!(reference::load(&reference::text_of(&tasks)), Ok(Sheet::of(&tasks)));
        let any = random_text(r);
        if let Ok(sheet) = reference::load(&any) {
            assert_eq!(reference::text_of(&sheet.tasks), any);
        }
        if reference::decided(&any) {
            assert_eq!(reference::load(&[&any[..], &random_text(r)].concat()), reference::load(&any));
        }
    }
}

/// Sound texts cut, changed, shortened and lengthened at every byte, with other line ends and empty lines; and random ones.
fn texts(r: &mut Random, tally: &mut Tally, cases: u32) {
    compare_load(r, tally, b"");
    for odd in 0..=255 {
        compare_load(r, tally, &[odd]);
    }
    for _ in 0..cases {
        let lines = r.within(1, 4) as usize;
        let text = text_for(r, lines);
        compare_load(r, tally, &text);
        for other in damaged_texts(&text).iter().chain(&other_line_ends(&text)) {
            compare_load(r, tally, other);
        }
        for _ in 0..200 {
            let any = random_text(r);
            compare_load(r, tally, &any);
        }
        let noise: Vec<u8> = (0..r.within(0, 40)).map(|_| if r.once_in(3) { r.of(&ODD_BYTES) } else { r.bits() as u8 }).collect();
        compare_load(r, tally, &noise);
    }
}

/// Numbers at the limits and far over them in each field; 31 to 34 lines, with faults in the last ones; the longest text.
fn full_texts(r: &mut Random, tally: &mut Tally) {
    for digits in digits_at_limits() {
        for text in texts_with_digits(&digits) {
            compare_load(r, tally, &text);
        }
    }
    for text in texts_at_line_limit() {
        compare_load(r, tally, &text);
    }
    for lines in 31..=34 {
        let text = text_for(r, lines);
        for other in damaged_texts(&text).iter().chain(&other_line_ends(&text)) {
            compare_load(r, tally, other);
        }
    }
    let longest = "1000000,1000000,1000000,1000000\n".repeat(32).into_bytes();
    assert_eq!(longest.len(), 1_024);
    assert!(reference::load(&longest).is_ok());
    for end in 0..=longest.len() {
        compare_load(r, tally, &longest[..end]);
    }
    for more in ODD_BYTES {
        compare_load(r, tally, &[&longest[..], &[more]].concat());
    }
}

// ---- Charges -----------------------------------------------------------------------------------------------------------

/// Every call with the case as it is.
fn compare_all(r: &mut Random, tally: &mut Tally, case: &Case) {
    compare_sheet_calls(r, tally, case, 40_000);
    compare_list_calls(r, tally, case, SOON);
}

/// One task with a charge that leaves its period and its deadline less, exactly and more than what its cost and the charge take: 17
/// where it leaves one of them less, and 6 in place of it where the cost alone is over them. Two tasks, the other one sound.
fn charge_edges(r: &mut Random, tally: &mut Tally) {
    let around = [-2i64, -1, 0, 1, 50];
    for charge in [0u8, 1, 2, 3, 100, 254, 255] {
        for e in [1u32, 2, 7, 300, 999_744, 999_745, 999_746, 999_999, 1_000_000] {
            for (p, d) in around.iter().flat_map(|p| around.map(|d| (*p, d))) {
                let work = e as i64 + charge as i64;
                let task = Task::high((work + p).max(0) as u32, r.within(0, 9), e, (work + d).max(0) as u32);
                let least = task.p.min(task.d);
                let expected = if least == 0 || task.p.max(task.d) > MAX_TIME || e > least {
                    Some(6)
                } else if work > least as i64 {
                    Some(17)
                } else {
                    None
                };
                let other = Task::high(MAX_TIME, 0, 1, MAX_TIME);
                for (place, tasks) in [(0, vec![task]), (0, vec![task, other]), (1, vec![other, task])] {
                    let sheet = with_marks(r, Sheet::of(&tasks).charged(charge));
                    let refusal = expected.map(|number| Refusal { number, place });
                    assert_eq!(reference::check_sheet(&sheet).err(), refusal);
                    let list = list_for_any(r, &sheet);
                    let mut case = Case::sound(r, &sheet, &list);
                    compare_all(r, tally, &case);
                    if r.once_in(4) {
                        case.damage(r);
                        compare_all(r, tally, &case);
                    }
                    compare_read(r, tally, &reference::encode(&sheet, &list));
                }
            }
        }
    }
}

/// Three tasks, each of them sound, out of range, too tight for the charge, or both of these: 6 or 17 of the first that is not sound, in
/// every call and in a file, where the place is the offset of its record. Then with one thing more to refuse.
fn charge_orders(r: &mut Random, tally: &mut Tally, charge: u8) {
    let room = charge as u32;
    let kinds = [
        (None, Task::high(9 + room, 3, 2, 12 + room)),
        (Some(6), Task::high(9 + room, MAX_TIME + 1, 2, 12 + room)),
        (Some(17), Task::high(1 + room, 3, 2, 12 + room)),
        (Some(17), Task::high(9 + room, 3, 2, 1 + room)),
        (Some(6), Task::high(1, 3, 2, 12 + room)),
    ];
    for choice in 0..125 {
        let [a, b, c] = [choice / 25, choice / 5 % 5, choice % 5].map(|n| kinds[n]);
        let sheet = with_marks(r, Sheet::of(&[a.1, b.1, c.1]).charged(charge));
        let first = [a.0, b.0, c.0].iter().position(|n| n.is_some());
        let expected = first.map(|i| Refusal { number: [a.0, b.0, c.0][i].unwrap(), place: i as u64 });
        assert_eq!(reference::check_sheet(&sheet).err(), expected);
        let list = list_for_any(r, &sheet);
        let mut case = Case::sound(r, &sheet, &list);
        for task in [0, 2, 3] {
            compare_arrival_count(r, tally, &case, task, 7);
            compare_verdict(r, tally, &case, task, 40_000);
        }
        compare_all(r, tally, &case);
        let file = reference::encode(&sheet, &list);
        // the bytes before it, less that of an end
        let offset = expected.map(|x| Refusal { place: reference::bytes_needed(&sheet, x.place as usize, &[]) as u64 - 1, ..x });
        if let Some(refusal) = offset {
            assert_eq!(reference::decode(&file), Err(refusal));
        }
        for end in (0..=file.len()).filter(|e| choice % 4 == 0 || *e == file.len()) {
            compare_read(r, tally, &file[..end]);
        }
        for _ in 0..6 {
            case.damage(r);
            compare_all(r, tally, &case);
            case = Case::sound(r, &sheet, &list);
        }
    }
}

/// A file that is refused so, or accepted: whole and cut at every byte.
fn check_file(r: &mut Random, tally: &mut Tally, file: &[u8], expected: Option<(u32, u64)>) {
    let refusal = expected.map(|(number, place)| Refusal { number, place });
    assert_eq!(reference::decode(file).err(), refusal, "{file:?}");
    for end in 0..=file.len() {
        compare_read(r, tally, &file[..end]);
    }
}

/// Every charge in a file, before a task that holds it and before one that does not; records of a charge where none may stand, cut ones
/// and others; what is refused is written out.
fn charge_files(r: &mut Random, tally: &mut Tally) {
    let mut check = |file: &[u8], expected: Option<(u32, u64)>| check_file(r, tally, file, expected);
    for charge in 0..=255u8 {
        let least = 2 + charge as u32;
        for (p, d, number) in [(least, least, None), (least - 1, least, Some(17)), (least, least - 1, Some(17)), (1, least, Some(6))] {
            let expected = if charge == 0 { Some((6, 0)) } else { number.map(|n| (n, 2)) };
            for low in [false, true] {
                check(&[&[5, charge][..], &record_of(Task::high(p, 0, 2, d).marked(low)), &[3]].concat(), expected);
            }
        }
    }
    let (task, tight) = (one_task(), record_of(Task::high(9, 0, 8, 9)));
    let (mut short, mut long) = (Vec::new(), Vec::new());
    add_release(&mut short, 2, Release { task: 0, tick: 1, cost: 2 });
    add_release(&mut long, 4, Release { task: 0, tick: MAX_TICK, cost: 2 });
    let files: [(&[&[u8]], Option<(u32, u64)>); 34] = [
        (&[&[5]], Some((2, 0))),
        (&[&[5, 1]], Some((2, 2))),
        (&[&[5, 0]], Some((6, 0))),
        (&[&[5, 1], &[3]], Some((5, 2))),
        (&[&[5, 1], &short, &[3]], Some((5, 2))),
        (&[&[5, 1], &long, &[3]], Some((5, 2))),
        (&[&[5, 1], &[0]], Some((1, 2))),
        (&[&[5, 1], &[6, 1]], Some((2, 2))),
        (&[&[5, 1], &[7, 1]], Some((1, 2))),
        (&[&[5, 1], &[5]], Some((2, 2))),
        (&[&[5, 1], &[5, 1], &task, &[3]], Some((3, 2))),
        (&[&[5, 1], &[5, 0], &task, &[3]], Some((3, 2))),
        (&[&[5, 0], &[5, 1], &task, &[3]], Some((6, 0))),
        (&[&task, &[5]], Some((2, 17))),
        (&[&task, &[5, 1], &[3]], Some((3, 17))),
        (&[&task, &[5, 0], &[3]], Some((3, 17))),
        (&[&task, &[5, 3]], Some((3, 17))),
        (&[&[5, 1], &task, &[5, 1], &[3]], Some((3, 19))),
        (&[&[5, 1], &task, &[5, 0], &[3]], Some((3, 19))),
        (&[&[5, 1], &task, &[5]], Some((2, 19))),
        (&[&[5, 1], &task, &short, &[5, 1], &[3]], Some((3, 29))),
        (&[&[5, 1], &task, &short, &[5]], Some((2, 29))),
        (&[&[5, 1], &task, &long, &[5, 0], &[3]], Some((3, 33))),
        (&[&[5, 1], &task, &[3], &[5, 1]], Some((11, 20))),
        (&[&task, &[3], &[5, 1]], Some((11, 18))),
        (&[&[5, 1], &[3], &[5, 1]], Some((5, 2))),
        (&[&[5, 4], &task, &short, &long, &[3]], None),
        (&[&[5, 5], &task, &short, &long, &[3]], Some((17, 2))),
        (&[&[5, 5], &task[..16]], Some((2, 2))),
        (&[&[5, 5], &task, &[9]], Some((17, 2))),
        (&[&[5, 4], &task, &short, &task, &[3]], Some((3, 29))),
        // 3 before 17, 4 before 17
        (&[&[5, 4], &task, &short, &tight, &[3]], Some((3, 29))),
        (&[&[5, 4], &task.repeat(32), &tight, &[3]], Some((4, 546))),
        (&[&[5, 4], &task.repeat(31), &tight, &[3]], Some((17, 529))),
    ];
    for (records, expected) in files {
        check(&records.concat(), expected);
    }
    // costs up to E, whatever the charge is
    for (cost, expected) in [(0, Some((9, 19))), (1, None), (2, None), (3, Some((9, 19))), (6, Some((9, 19)))] {
        let mut release = Vec::new();
        add_release(&mut release, 2, Release { task: 0, tick: 0, cost });
        check(&[&[5, 4][..], &task, &release, &[3]].concat(), expected);
    }
}

/// A sheet with a charge, and the sheet in which each cost has it in it: the archive gives the same verdicts, with the same number of
/// evaluations, and choices of both, the same arrival counts, checks and ready ticks, and the same runs of a list and of the list in which
/// each cost has it in it.
fn charge_law(r: &mut Random, tally: &mut Tally, cases: u32, releases: &[usize]) {
    for _ in 0..cases {
        let (tasks, top) = (r.of(&[1, 2, 5, 32]), r.of(&[40, 1_000, 20_000, 1_000_000]));
        let sheet = if r.once_in(2) { small_sheet(r) } else { loaded_sheet(r, tasks, top) };
        let sheet = if r.once_in(2) { with_fitting_charge(r, sheet) } else { with_part_charged(r, sheet) };
        let sheet = with_marks(r, sheet);
        if reference::check_sheet(&sheet).is_err() {
            continue;
        }
        let (n, step) = (r.of(releases), r.of(&[0, 3, 40, 2_000]));
        let list = if r.once_in(3) { legal_list_for(r, &sheet, n) } else { list_for(r, &sheet, n, step) };
        let case = Case::sound(r, &sheet, &list);
        let whole = Case { kept: case.kept.clone(), ..Case::sound(r, &charge_in_costs(&sheet), &with_costs(&list, sheet.charge)) };
        let choices = reference::choice(&sheet, 32, 32, &mut Budget::of(160_000)).is_ok();
        compare_both(tally, [&case, &whole], choices);
    }
}

/// The calls of two cases with as many tasks and releases: the same codes and slots. With the choice too, where so stated. Where one of
/// them has a frame its number of evaluations is 0, and that of the other is not.
fn compare_both(tally: &mut Tally, both: [&Case; 2], choices: bool) {
    let (tasks, n) = (both[0].count.min(40) as usize, both[0].n.min(1030) as usize);
    let ticks = both[0].ends_by([n, n], SOON) && tally.may_tick(both[0]);
    let one_framed = both[0].frame.is_empty() != both[1].frame.is_empty();
    let mut same = |call: usize, [a, b]: [(u64, Vec<Vec<u64>>); 2]| {
        tally.note(call, None, 0, a == b, || format!("{:?} {}, and {:?} {}", a, both[0].show(), b, both[1].show()));
    };
    let wide = |column: &[u32]| column.iter().map(|&x| x as u64).collect::<Vec<u64>>();
    for task in [0, both[0].count.saturating_sub(1)] {
        same(0, both.map(|c| {
            let mut answer = vec![7; 1];
            (library::arrival_count(&c.numbers, c.count, c.charge, task, &c.kept, 1_000, &mut answer), vec![answer])
        }));
        if reference::verdict(&both[0].sheet(), task as usize, &both[0].kept, &mut Budget::of(40_000)).is_ok() {
            same(1, both.map(|c| {
                let mut answer = vec![7; 4];
                let code = library::verdict(&c.numbers, c.count, c.charge, &c.frame, task, &c.kept, &mut answer);
                if one_framed && code == 0 {
                    // of a verdict with a frame it is 0, of one without it at least 1
                    answer[3] = ((answer[3] == 0) != c.frame.is_empty()) as u64;
                }
                (code, vec![answer])
            }));
        }
    }
    if choices {
        same(2, both.map(|c| {
            let (mut kept, mut worst, mut answer) = (vec![7; tasks], vec![7; tasks], vec![7; 1]);
            let code = library::choice(&c.numbers, c.count, c.charge, &c.frame, &mut kept, &mut worst, &mut answer);
            (code, vec![wide(&kept), wide(&worst), answer])
        }));
    }
    same(3, both.map(|c| {
        let mut answer = vec![7; 2];
        (library::trace_check(&c.numbers, c.count, c.charge, c.n, c.library_list(), &mut answer), vec![answer])
    }));
    same(4, both.map(|c| {
        let mut ready = vec![7; n];
        (library::ready(&c.numbers, c.count, c.charge, &c.kept, c.n, c.library_list(), &mut ready), vec![ready])
    }));
    if ticks {
        same(5, both.map(|c| {
            let (mut ready, mut finish) = (vec![7; n], vec![7; n]);
            let code = library::run(&c.numbers, c.count, c.charge, &c.frame, &c.kept, c.n, c.library_list(), &mut ready, &mut finish);
            (code, vec![ready, finish])
        }));
    }
    same(9, both.map(|c| {
        let (mut ready, mut finish, mut stops) = (vec![7; n], vec![7; n], vec![7; 1]);
        let lent = (&mut ready[..], &mut finish[..], &mut stops[..]);
        let code = library::jump(&c.numbers, c.count, c.charge, &c.frame, &c.kept, c.n, c.library_list(), lent.0, lent.1, lent.2);
        (code, vec![ready, finish, stops])
    }));
}

/// The law on the reference: W(q), verdicts with their evaluations, choices and runs of a sheet with a charge are those of the sheet and
/// the list in which each cost has it in it.
fn check_reference_charge(r: &mut Random, cases: u32) {
    for _ in 0..cases {
        let sheet = small_sheet(r);
        let sheet = with_fitting_charge(r, sheet);
        let sheet = with_marks(r, sheet);
        let whole = charge_in_costs(&sheet);
        let kept = kept_for(r, &sheet);
        let budget = || Budget::of(40_000);
        for i in 0..sheet.count {
            let both = [&sheet, &whole].map(|s| reference::verdict(s, i, &kept, &mut budget()).ok());
            assert_eq!(both[0], both[1]);
        }
        let both = [&sheet, &whole].map(|s| reference::choice(s, 32, 32, &mut budget()).ok());
        assert_eq!(both[0], both[1]);
        let list = list_for(r, &sheet, 12, 8);
        let ready = reference::ready_ticks(&sheet, &kept, &list);
        let longer = with_costs(&list, sheet.charge);
        assert_eq!(ready, reference::ready_ticks(&whole, &kept, &longer));
        assert_eq!(reference::finish_ticks(sheet.charge, &list, &ready), reference::finish_ticks(0, &longer, &ready));
        let file = reference::encode(&sheet, &list);
        assert_eq!(reference::decode(&file), Ok((sheet, list)));
    }
}

// ---- Marks -------------------------------------------------------------------------------------------------------------

/// Every pattern of marks.
fn patterns(tasks: usize) -> impl Iterator<Item = Vec<bool>> {
    (0..1u32 << tasks).map(move |pattern| (0..tasks).map(|i| pattern >> i & 1 == 1).collect())
}

/// Choices of small sheets with every pattern of marks: of those whose ordinary choice ends in 15, and of some others.
fn marked_choices(r: &mut Random, tally: &mut Tally, cases: u32) {
    let budget = || Budget::of(160_000);
    for _ in 0..cases {
        let sheet = small_sheet(r);
        let sheet = with_part_charged(r, sheet);
        let ordinary = match reference::choice(&sheet, 32, 32, &mut budget()) {
            Ok(Ok(_)) if !r.once_in(6) => continue,
            Ok(ordinary) => ordinary,
            Err(_) => {
                tally.passed_over += 1;
                continue;
            }
        };
        assert!(ordinary.as_ref().map_or_else(|x| x.number == 15, |c| !c.high_only));
        for lows in patterns(sheet.count) {
            let marked = sheet.marked(&lows);
            let Ok(chosen) = reference::choice(&marked, 32, 32, &mut budget()) else {
                tally.passed_over += 1;
                continue;
            };
            if lows.contains(&true) {
                tally.ended(&ordinary, &chosen);
            }
            let case = Case::sound(r, &marked, &[]);
            compare_choice_into(r, tally, &case, [sheet.count, sheet.count, 1], 160_000);
        }
    }
}

/// The choices with marks that were worked out by hand.
fn marked_by_hand(r: &mut Random, tally: &mut Tally) {
    for (sheet, lows, _) in sums::marked_choices() {
        for _ in 0..20 {
            let case = Case::sound(r, &sheet.marked(&lows), &[]);
            compare_choice(r, tally, &case, 100_000_000);
        }
    }
}

/// A sheet of any size with a charge and marks, and a list of one of these numbers of releases.
fn marked_sheet_and_list(r: &mut Random, releases: &[usize]) -> (Sheet, Vec<Release>) {
    let (tasks, top) = (r.of(&[1, 2, 5, 32]), r.of(&[40, 1_000, 20_000, 1_000_000]));
    let sheet = if r.once_in(2) { small_sheet(r) } else { loaded_sheet(r, tasks, top) };
    let sheet = any_charge(r, sheet);
    let sheet = with_marks(r, sheet);
    let (n, step) = (r.of(releases), r.of(&[0, 3, 40, 2_000]));
    let list = if r.once_in(3) { legal_list_for(r, &sheet, n) } else { list_for(r, &sheet, n, step) };
    (sheet, list)
}

/// A sheet with marks, and the same with every task high: the archive gives the same arrival counts, verdicts, checks, ready ticks and runs
/// of both, the same choice where the ordinary one succeeds, and the same refusals. Sound and damaged.
fn mark_law(r: &mut Random, tally: &mut Tally, cases: u32, releases: &[usize]) {
    for _ in 0..cases {
        let (sheet, mut list) = marked_sheet_and_list(r, releases);
        if r.once_in(8) {
            damage_list(r, &sheet, &mut list);
        }
        let mut case = Case::sound(r, &sheet, &list);
        if r.once_in(5) {
            case.damage(r);
        }
        let high = case.all_high();
        let choices = match reference::choice(&high.sheet(), 40, 40, &mut Budget::of(160_000)) {
            Ok(given) => given.map_or_else(|x| x.number != 15, |_| true),
            Err(_) => false,
        };
        compare_both(tally, [&case, &high], choices);
    }
}

/// What a choice promises, on runs of the reference: with its kept jitters no job of a task that it judged is late where the releases of
/// that task are legal, whatever the others release. Of the choices of the high tasks alone some leave a low task with a late job.
fn check_reference_marks(r: &mut Random, cases: u32) {
    let (mut judged, mut late) = ([0; 2], 0);
    for _ in 0..cases {
        let sheet = small_sheet(r);
        let sheet = with_part_charged(r, sheet);
        let sheet = with_marks(r, sheet);
        let Ok(Ok(Chosen { kept, high_only, .. })) = reference::choice(&sheet, 32, 32, &mut Budget::of(40_000)) else {
            continue;
        };
        for _ in 0..4 {
            let list = if r.once_in(2) { legal_list_for(r, &sheet, 24) } else { list_for(r, &sheet, 24, 8) };
            let ready = reference::ready_ticks(&sheet, &kept, &list);
            let finish = reference::finish_ticks(sheet.charge, &list, &ready);
            for i in 0..sheet.count {
                let own: Vec<usize> = (0..list.len()).filter(|&p| list[p].task as usize == i).collect();
                let releases: Vec<Release> = own.iter().map(|&p| list[p]).collect();
                if reference::first_too_close(&sheet, &releases).is_some() {
                    continue;
                }
                let is_late = own.iter().any(|&p| finish[p] - list[p].tick as i64 > sheet.task(i).d as i64);
                if high_only && sheet.task(i).low {
                    late += is_late as u32;
                } else {
                    assert!(!is_late, "task {i} {sheet:?} {kept:?} {list:?}");
                    judged[high_only as usize] += own.len();
                }
            }
        }
    }
    assert!(judged.iter().all(|&n| n > 1_000) && late > 1_000, "{judged:?} {late}");
}

/// Marks in files: each last byte of kind 6, in the first task and in another; low tasks where none may stand, cut ones, out of range,
/// too tight for the charge, and with two of these; what is refused is written out.
fn mark_files(r: &mut Random, tally: &mut Tally) {
    let (task, low, wrong) = (one_task(), one_low_task(0), one_low_task(1));
    for mark in 0..=255 {
        let (record, number) = (one_low_task(mark), if mark == 0 { None } else { Some(6) });
        for (before, charge) in [(vec![], vec![]), (vec![], vec![5, 4]), (task.repeat(2), vec![]), (low.repeat(3), vec![5, 1])] {
            let place = (charge.len() + before.len()) as u64;
            for after in [vec![3], [&task[..], &[3]].concat()] {
                let file = [&charge[..], &before, &record, &after].concat();
                check_file(r, tally, &file, number.map(|n| (n, place)));
            }
        }
        if mark > 0 {
            tally.wrong_marks.insert(mark);
        }
    }
    let (range, tight) = (record_of(Task::high(6, 5, 7, 6).marked(true)), record_of(Task::high(9, 0, 8, 9).marked(true)));
    let mut both = tight.clone();
    both[17] = 255;
    let (mut short, mut long) = (Vec::new(), Vec::new());
    add_release(&mut short, 2, Release { task: 0, tick: 1, cost: 2 });
    add_release(&mut long, 4, Release { task: 0, tick: MAX_TICK, cost: 2 });
    let files: [(&[&[u8]], Option<(u32, u64)>); 40] = [
        (&[&[6]], Some((2, 0))),
        (&[&low[..17]], Some((2, 0))),
        (&[&low], Some((2, 18))),
        (&[&low, &[3]], None),
        (&[&low, &low, &[3]], None),
        (&[&low, &task, &[3]], None),
        (&[&task, &low, &[3]], None),
        (&[&[5, 4], &low, &short, &long, &[3]], None),
        (&[&wrong], Some((6, 0))),
        (&[&wrong[..17]], Some((2, 0))),
        (&[&wrong, &[9]], Some((6, 0))),
        // a low task is kind 1 with one byte more: without it the next kind is taken for it
        (&[&low[..17], &[3]], Some((6, 0))),
        (&[&low[..17], &task, &[3]], Some((6, 0))),
        (&[&task, &[0], &[3]], Some((1, 17))),
        // after a release 3, whatever its last byte is
        (&[&low, &short, &low, &[3]], Some((3, 28))),
        (&[&low, &short, &wrong, &[3]], Some((3, 28))),
        (&[&task, &short, &low, &[3]], Some((3, 27))),
        (&[&task, &long, &wrong, &[3]], Some((3, 31))),
        (&[&task, &short, &range, &[3]], Some((3, 27))),
        (&[&low, &short, &low[..17]], Some((2, 28))),
        (&[&low, &long, &wrong[..17]], Some((2, 32))),
        // the 33rd task 4, whatever its last byte is
        (&[&low.repeat(32), &[3]], None),
        (&[&low.repeat(32), &low, &[3]], Some((4, 576))),
        (&[&low.repeat(32), &wrong, &[3]], Some((4, 576))),
        (&[&low.repeat(32), &wrong[..17]], Some((2, 576))),
        (&[&task.repeat(32), &low, &[3]], Some((4, 544))),
        (&[&task.repeat(32), &wrong, &[3]], Some((4, 544))),
        (&[&task.repeat(31), &wrong, &[3]], Some((6, 527))),
        (&[&[5, 4], &low.repeat(32), &both, &[3]], Some((4, 578))),
        // 6 and 17
        (&[&range, &[3]], Some((6, 0))),
        (&[&[5, 1], &tight, &[3]], None),
        (&[&[5, 4], &tight, &[3]], Some((17, 2))),
        (&[&[5, 4], &low, &tight, &[3]], Some((17, 20))),
        (&[&[5, 4], &low, &both, &[3]], Some((6, 20))),
        (&[&[5, 4], &task, &tight, &wrong, &[3]], Some((17, 19))),
        (&[&[5, 4], &task, &wrong, &tight, &[3]], Some((6, 19))),
        // a charge after a low task, and a release and an end after one
        (&[&low, &[5, 1], &[3]], Some((3, 18))),
        (&[&low, &[3], &low], Some((11, 19))),
        (&[&[3], &low], Some((5, 0))),
        (&[&short, &low, &[3]], Some((5, 0))),
    ];
    for (records, expected) in files {
        check_file(r, tally, &records.concat(), expected);
    }
    // releases of low tasks
    for (number, cost, expected) in [(0, 2, None), (1, 2, None), (2, 2, Some((7, 35))), (0, 3, Some((9, 35))), (1, 0, Some((9, 35)))] {
        let mut release = Vec::new();
        add_release(&mut release, 2, Release { task: number, tick: 0, cost });
        check_file(r, tally, &[&low[..], &task, &release, &[3]].concat(), expected);
    }
}

/// Files of the kinds up to 5, and of the same tasks with marks: the archive reads the same but for the marks, and writes the records of
/// high tasks as kind 1 and of low ones as kind 6.
fn marked_files(r: &mut Random, tally: &mut Tally, cases: u32) {
    for _ in 0..cases {
        let (tasks, n, charge) = (r.of(&[1, 2, 7, 32]), r.of(&[0, 1, 5, 30]), r.of(&EDGE_CHARGES));
        let sheet = roomy_sheet_for(r, tasks, charge);
        let marked = with_marks(r, sheet.clone());
        let list = list_for(r, &sheet, n, 9);
        let by = if r.once_in(2) { 0 } else { MAX_TICK - list.last().map_or(0, |x| x.tick) };
        let list = moved(&list, by);
        let read = |file: &[u8]| {
            let (mut numbers, mut counts) = (vec![7; SHEET_NUMBERS], vec![7; 3]);
            let (mut task, mut tick, mut cost) = (vec![7; 32], vec![7; 32], vec![7; 32]);
            let code = library::read(file, &mut numbers, &mut task, &mut tick, &mut cost, &mut counts);
            (code, numbers, counts, task, tick, cost)
        };
        let (high, low) = (reference::encode(&sheet, &list), reference::encode(&marked, &list));
        let lows = marked.tasks.iter().filter(|t| t.low).count();
        assert_eq!(low.len(), high.len() + lows);
        let (mut with, without) = (read(&low), read(&high));
        for (i, t) in marked.tasks.iter().enumerate() {
            with.1[TASK_NUMBERS * i + 4] -= t.low as u32;
        }
        tally.note(6, None, with.0, with == without, || format!("with marks {with:?}, and without {without:?} {low:?}"));
        let case = Case::sound(r, &marked, &list);
        compare_write_to(r, tally, &case, low.len());
        compare_write_to(r, tally, &case.all_high(), high.len());
    }
}

// ---- Frames ------------------------------------------------------------------------------------------------------------

/// W(q) as the reference finds it with a frame, by the steps of the demand and a count of our ticks, is what its words give: every start,
/// every tick. A frame that is all window has the verdicts, choices and runs of none, and no evaluations.
fn check_reference_frames(r: &mut Random, cases: u32) {
    for _ in 0..cases {
        let sheet = small_sheet(r);
        let sheet = with_fitting_charge(r, sheet);
        let sheet = with_marks(r, sheet);
        let most = r.of(&[1, 2, 5, 12, 40]);
        let framed = sheet.framed(Some(frame_for(r, most, MAX_WINDOWS)));
        let kept = kept_for(r, &sheet);
        let i = r.within(0, sheet.count as u32 - 1) as usize;
        let budget = &mut Budget::of(400_000);
        let mut windows = reference::Windows::of(&framed, &kept, i, budget);
        for q in 0..3 {
            let Ok(literal) = reference::window_by_tick(&framed, &kept, i, q, &mut Budget::of(60_000)) else { break };
            let Ok(found) = windows.get(q) else { break };
            assert_eq!(found, literal);
        }
        let (plain, whole) = (sheet.clone(), sheet.framed(Some(all_window(most))));
        let budget = || Budget::of(40_000);
        let (none, all) = (reference::judge(&plain, &kept, i, &mut budget()), reference::judge(&whole, &kept, i, &mut budget()));
        if let (Ok(none), Ok(all)) = (none, all) {
            assert_eq!(Judged { evaluations: 0, ..none }, all);
        }
        let both = [&plain, &whole].map(|s| reference::choice(s, 32, 32, &mut budget()));
        if let [Ok(none), Ok(all)] = both {
            assert_eq!(none, all);
        }
        let list = list_for(r, &sheet, 8, 8);
        let ready = reference::ready_ticks(&sheet, &kept, &list);
        let by_tick = reference::finish_by_tick(&framed.frame, sheet.charge, &list, &ready);
        assert_eq!(by_tick, reference::finish_by_event(&framed.frame, sheet.charge, &list, &ready));
        assert_eq!(by_tick, reference::finish_by_job(&framed.frame, sheet.charge, &list, &ready));
        let finish = reference::finish_by_tick(&whole.frame, sheet.charge, &list, &ready);
        assert_eq!(finish, reference::finish_ticks_by_tick(sheet.charge, &list, &ready));
    }
}

/// What a choice with a frame promises, on runs of the reference: with its kept jitters no job of a task that it judged takes longer than the
/// worst value where the releases of that task are legal. Where there is no choice, or a task was not judged, some jobs are late.
fn check_reference_promises(r: &mut Random, cases: u32) {
    let (mut judged, mut late) = (0, 0);
    for _ in 0..cases {
        let sheet = small_sheet(r);
        let sheet = with_part_charged(r, sheet);
        let sheet = with_marks(r, sheet);
        let most = r.of(&[2, 5, 12]);
        let sheet = sheet.framed(Some(frame_for(r, most, MAX_WINDOWS)));
        let chosen = match reference::choice(&sheet, 32, 32, &mut Budget::of(160_000)) {
            Ok(Ok(chosen)) => Some(chosen),
            Ok(Err(_)) => None,
            Err(_) => continue,
        };
        let kept = chosen.as_ref().map_or(sheet.tasks.iter().map(|t| t.j).collect(), |c| c.kept.clone());
        for _ in 0..4 {
            let n = r.within(1, 20) as usize;
            let list = legal_list_for(r, &sheet, n);
            let ready = reference::ready_ticks(&sheet, &kept, &list);
            let finish = reference::finish_by_event(&sheet.frame, sheet.charge, &list, &ready);
            for (x, f) in list.iter().zip(&finish) {
                let t = sheet.task(x.task as usize);
                let over = f - x.tick as i64 > t.d as i64;
                match &chosen {
                    Some(c) if !(c.high_only && t.low) => {
                        assert!(!over && f - x.tick as i64 <= c.worst[x.task as usize] as i64);
                        judged += 1;
                    }
                    _ => late += over as u64,
                }
            }
        }
    }
    assert!(judged > 0 && late > 0);
}

/// The calls that take a frame.
fn compare_framed(r: &mut Random, tally: &mut Tally, case: &Case, task: u32, budget: u64) {
    compare_verdict(r, tally, case, task, budget);
    compare_choice(r, tally, case, 4 * budget);
    compare_run(r, tally, case, SOON);
    compare_jump(r, tally, case);
    compare_jump_with_run(r, tally, case, SOON);
}

/// Notes whether the verdict of a task, the choice and the run of a sound case differ from those without its frame.
fn note_unlike(tally: &mut Tally, case: &Case, task: usize) {
    let both = [case.sheet(), case.sheet().framed(None)];
    let budget = || Budget::of(160_000);
    let verdicts = both.each_ref().map(|s| reference::verdict_of(s, &case.kept, task, &mut budget()).ok());
    let choices = both.each_ref().map(|s| reference::choice(s, 32, 32, &mut budget()).ok());
    let n = case.n as usize;
    let runs = both.each_ref().map(|s| reference::run(s, &case.kept, n, &case.reference_list(), n, n).ok());
    let kinds = verdicts.map(|v| v.as_ref().map(std::mem::discriminant));
    let judged = verdicts.iter().all(|v| v.is_some());
    let seen = [
        (judged, kinds[0] != kinds[1]),
        (judged, verdicts[0] != verdicts[1]),
        (choices.iter().all(|c| c.is_some()), choices[0] != choices[1]),
        (n > 0, runs[0] != runs[1]),
    ];
    for (k, (compared, unlike)) in seen.into_iter().enumerate() {
        tally.beside_none[k] += compared as u64;
        tally.unlike_none[k] += (compared && unlike) as u64;
    }
}

/// Every frame of up to so many ticks with every set of windows, each with some small sheets, kept jitters and lists.
fn small_frames(r: &mut Random, tally: &mut Tally, ticks: u32, sheets: u32) {
    for frame in (1..=ticks).flat_map(all_frames) {
        for _ in 0..sheets {
            let sheet = small_sheet(r);
            let sheet = if r.once_in(2) { sheet } else { with_part_charged(r, sheet) };
            let sheet = with_marks(r, sheet).framed(Some(frame.clone()));
            let (n, step) = (r.within(0, 10) as usize, r.of(&[1, 4, 12]));
            let list = if r.once_in(3) { legal_list_for(r, &sheet, n) } else { list_for(r, &sheet, n, step) };
            let case = Case::sound(r, &sheet, &list);
            let task = r.within(0, sheet.count as u32 - 1);
            compare_framed(r, tally, &case, task, 60_000);
            note_unlike(tally, &case, task as usize);
        }
    }
}

/// Frames of up to so many ticks and 16 windows with sheets of any size, sound and damaged.
fn any_frames(r: &mut Random, tally: &mut Tally, cases: u32, ticks: &[u32], budget: u64) {
    for _ in 0..cases {
        let (tasks, top) = (r.of(&[1, 2, 3, 5]), r.of(&[40, 1_000, 20_000, 1_000_000]));
        let sheet = if r.once_in(3) { small_sheet(r) } else { loaded_sheet(r, tasks, top) };
        let sheet = any_charge(r, sheet);
        let sheet = with_marks(r, sheet);
        let most = r.of(ticks);
        let sheet = sheet.framed(Some(frame_for(r, most, MAX_WINDOWS)));
        let (n, step) = (r.within(0, 12) as usize, r.of(&[0, 3, 40, 2_000, 20_000]));
        let mut list = if r.once_in(3) { legal_list_for(r, &sheet, n) } else { list_for(r, &sheet, n, step) };
        if r.once_in(8) {
            damage_list(r, &sheet, &mut list);
        }
        let mut case = Case::sound(r, &sheet, &list);
        match r.within(0, 7) {
            0 => case.damage(r),
            1 => case.damage_frame(r),
            _ => (),
        }
        let task = r.within(0, case.count.clamp(1, 40) - 1);
        compare_framed(r, tally, &case, task, budget);
        if r.once_in(8) {
            // the other calls take no frame and ignore whether it is sound
            compare_all(r, tally, &case);
        }
    }
}

/// Walks with a frame that reach the horizon in a few steps, and verdicts whose W(q) is the horizon or one tick more.
fn framed_horizons(r: &mut Random, tally: &mut Tally) {
    let large = Task::high(MAX_TIME, 0, MAX_TIME, MAX_TIME);
    for tasks in [1, 2, 3, 10, 11] {
        for (ticks, windows) in [(1, vec![(0, 1)]), (2, vec![(1, 1)]), (10, vec![(0, 9)]), (10, vec![(3, 1)]), (64, vec![(0, 1), (2, 62)])] {
            let sheet = Sheet::of(&vec![large; tasks]).framed(Some(Frame::of(ticks, &windows)));
            let case = Case::sound(r, &sheet, &[]);
            for task in 0..tasks as u32 {
                compare_verdict(r, tally, &case, task, 10_000_000);
            }
            compare_choice(r, tally, &case, 10_000_000);
        }
    }
    // one window of one tick: from the tick after it on, W(0) is E frames
    for (ticks, e) in [(10_000, 999), (10_000, 1_000), (10_000, 1_001), (9_999, 1_000), (9_999, 1_001), (20, 500_000), (20, 500_001), (10, 1_000_000)] {
        let first = r.within(0, ticks - 1);
        let sheet = Sheet::of(&[Task::high(MAX_TIME, 0, e, MAX_TIME)]).framed(Some(Frame::of(ticks, &[(first, 1)])));
        let mut found = Budget::of(u64::MAX);
        let w = reference::Windows::of(&sheet, &[0], 0, &mut found).get(0).ok().unwrap();
        let whole = e as i64 * ticks as i64;
        assert_eq!(w, Some(whole).filter(|&w| w <= HORIZON));
        let case = Case::sound(r, &sheet, &[]);
        compare_verdict(r, tally, &case, 0, 10_000_000);
        compare_choice(r, tally, &case, 10_000_000);
    }
}

/// Rows of a frame that break one rule, each at its edge, and the place; the last few break two of them, and the first decides.
fn broken_frames() -> Vec<(Vec<u32>, u64)> {
    let mut all = vec![
        (vec![0], 17),
        (vec![MAX_FRAME + 1, 1, 0, 1], 17),
        (vec![u32::MAX, 1, 0, 1], 17),
        (vec![10], 16),
        (vec![10, 0, 0, 1], 16),
        (vec![MAX_FRAME, u32::MAX, 0, 1], 16),
        (vec![0, 17, 0, 0], 17),
        (vec![MAX_FRAME + 1, 0], 17),
        (vec![10, 17, 0, 0], 16),
        (vec![10, 0, 11, 0], 16),
        (vec![10, 2, 4, 7, 11, 0], 0),
        (vec![10, 2, 4, 0, 4, 1], 0),
    ];
    let spread = |count: u32| -> Vec<u32> { [100, count].into_iter().chain((0..count).flat_map(|k| [6 * k, 5])).collect() };
    all.push((spread(17), 16));
    for k in 0..MAX_WINDOWS {
        // the change of window k: its first tick and its length, where the one before it ends at 6k − 1
        let (at, first) = (2 + 2 * k, 6 * k as u32);
        let mut add = |first: u32, length: u32| {
            let mut row = spread(16);
            (row[at], row[at + 1]) = (first, length);
            all.push((row, k as u64));
        };
        add(first, 0);
        add(100, 1);
        add(101, 1);
        add(first, 101 - first);
        add(first + 3, 98 - first);
        add(u32::MAX, 1);
        add(u32::MAX, u32::MAX);
        add(first, u32::MAX);
        // first + length is 2^32 and a number inside the frame
        add(first + 2, u32::MAX);
        add(u32::MAX - 1, first + 4);
        if k > 0 {
            add(first - 1, 5);
            add(first - 1, 1);
            add(first - 2, 5);
            add(first - 6, 1);
            add(0, 1);
        }
        all.push((spread(16)[..at].to_vec(), k as u64));
        all.push((spread(16)[..at + 1].to_vec(), k as u64));
    }
    all
}

/// Frames that keep every rule at its edge.
fn edge_frames() -> Vec<Frame> {
    let teeth: Vec<(u32, u32)> = (0..16).map(|k| (2 * k, 1)).collect();
    let last: Vec<(u32, u32)> = (0..16).map(|k| (MAX_FRAME - 31 + 2 * k, 1)).collect();
    let mut long = last.clone();
    long[0] = (0, MAX_FRAME - 30);
    vec![
        Frame::of(1, &[(0, 1)]),
        Frame::of(MAX_FRAME, &[(0, 1)]),
        Frame::of(MAX_FRAME, &[(MAX_FRAME - 1, 1)]),
        Frame::of(MAX_FRAME, &[(0, MAX_FRAME)]),
        Frame::of(31, &teeth),
        Frame::of(32, &teeth),
        Frame::of(MAX_FRAME, &teeth),
        Frame::of(MAX_FRAME, &last),
        Frame::of(MAX_FRAME, &long),
        Frame::of(3, &[(0, 1), (2, 1)]),
        Frame::of(2, &[(1, 1)]),
    ]
}

/// Each rule of a frame at its edge, alone and beside each other thing that a call refuses: the sheet's own checks, 17 among them, come
/// before 18, and all others after it. Nothing is written where it is refused.
fn frame_orders(r: &mut Random, tally: &mut Tally) {
    let changes: [(fn(&mut Case), Option<(u32, u64)>); 14] = [
        (|_| (), None),
        (|c| c.count = 0, Some((5, 0))),
        (|c| c.count = 33, Some((4, 32))),
        (|c| c.numbers[7] = 0, Some((6, 1))),
        (|c| c.charge = 5, Some((17, 0))),
        (|c| (c.charge, c.numbers[12]) = (4, 7), Some((17, 2))),
        (|c| c.n = 1025, None),
        (|c| c.kept.clear(), None),
        (|c| c.task.clear(), None),
        (|c| c.kept[1] = 8, None),
        (|c| c.task[1] = 3, None),
        (|c| c.tick[1] = MAX_TICK + 1, None),
        (|c| c.cost[0] = 0, None),
        (|c| c.charge = 4, None),
    ];
    let sound = Case::sound(r, &sums::printed_sheet(), &sums::printed_releases());
    let edges: Vec<(Vec<u32>, Option<u64>)> = edge_frames().into_iter().map(|f| (frame_numbers_of(&Some(f)), None)).collect();
    let broken = broken_frames().into_iter().map(|(row, place)| (row, Some(place)));
    for (row, place) in edges.into_iter().chain(broken) {
        for (change, before) in changes {
            let mut case = Case { kept: vec![1, 3, 0], frame: row.clone(), ..sound.clone() };
            change(&mut case);
            let expected = before.or(place.map(|p| (18, p))).map(|(number, place)| Refusal { number, place });
            assert_eq!(reference::check_framed(&case.sheet()).err(), expected, "{:?}", row);
            for task in [1, 7] {
                compare_framed(r, tally, &case, task, 400_000);
            }
            if let Some(refusal) = expected {
                compare_refused(r, tally, &case, refusal);
            }
        }
    }
}

/// The four calls that take a frame, with no slot for any answer: this refusal, which comes before 13, in each.
fn compare_refused(r: &mut Random, tally: &mut Tally, case: &Case, refusal: Refusal) {
    for task in [0, 7, u32::MAX] {
        let got = library::verdict(&case.numbers, case.count, case.charge, &case.frame, task, &case.kept, &mut []);
        tally.note(1, Some(refusal), got, true, || format!("no slot, task {} {}", task, case.show()));
    }
    let got = library::choice(&case.numbers, case.count, case.charge, &case.frame, &mut [], &mut [], &mut []);
    tally.note(2, Some(refusal), got, true, || format!("no slot {}", case.show()));
    let got = library::run(&case.numbers, case.count, case.charge, &case.frame, &case.kept, case.n, case.library_list(), &mut [], &mut []);
    tally.note(5, Some(refusal), got, true, || format!("no slot {}", case.show()));
    let (mut ready, mut finish, mut answer) = (words(r, 4), words(r, 4), words(r, 1));
    let lent = (&mut ready.now[..], &mut finish.now[..], &mut answer.now[..]);
    let got = library::jump(&case.numbers, case.count, case.charge, &case.frame, &case.kept, case.n, case.library_list(), lent.0, lent.1, lent.2);
    let same = ready.holds(None) && finish.holds(None) && answer.holds(None);
    tally.note(9, Some(refusal), got, same, || case.show());
}

/// The row of a frame cut at every length, and windows past the count with any numbers.
fn frame_rows(r: &mut Random, tally: &mut Tally, cases: u32) {
    for _ in 0..cases {
        let sheet = small_sheet(r);
        let sheet = with_marks(r, sheet);
        let list = list_for(r, &sheet, 6, 8);
        let case = Case::sound(r, &sheet, &list);
        let most = r.of(&[5, 31, 40, 200]);
        let frame = frame_for(r, most, MAX_WINDOWS);
        let row = given_frame_of(r, &Some(frame));
        for length in 0..=row.len() {
            let cut = Case { frame: row[..length].to_vec(), ..case.clone() };
            compare_framed(r, tally, &cut, 0, 60_000);
        }
        // one window less: the numbers of the last one do not matter any more
        let fewer = Case { frame: [&[row[0], row[1] - 1], &row[2..]].concat(), ..case.clone() };
        compare_framed(r, tally, &fewer, 0, 60_000);
    }
}

/// A frame that is all window, and no frame, both of the archive: the same codes and slots but for the number of evaluations, which is 0.
fn frame_law(r: &mut Random, tally: &mut Tally, cases: u32, releases: &[usize]) {
    for _ in 0..cases {
        let (sheet, list) = marked_sheet_and_list(r, releases);
        let mut case = Case::sound(r, &sheet, &list);
        if r.once_in(5) {
            case.damage(r);
        }
        let ticks = r.of(&[1, 2, 7, 100, MAX_FRAME]);
        let whole = case.with_frame(Some(all_window(ticks)));
        let choices = reference::choice(&case.sheet(), 40, 40, &mut Budget::of(160_000)).is_ok();
        compare_both(tally, [&case, &whole], choices);
    }
}

/// Lists of each form with a frame, as they are and moved to long ticks: both runs of the archive where the ticks are not too many, and the
/// jumping run where they are.
fn framed_lists(r: &mut Random, tally: &mut Tally, cases: u32, sizes: &[usize], ticks: &[u32]) {
    for _ in 0..cases {
        for form in FORMS {
            let (n, charge) = (r.of(sizes), form_charge(r));
            let (sheet, list) = form(r, n, charge);
            let most = r.of(ticks);
            let sheet = sheet.framed(Some(frame_for(r, most, MAX_WINDOWS)));
            let case = Case::sound(r, &sheet, &list);
            compare_run(r, tally, &case, SOON);
            compare_jump(r, tally, &case);
            compare_jump_with_run(r, tally, &case, SOON);
            let tick = r.of(&MIDDLE_TICKS);
            let by = way_to(r, &list, tick);
            let later = Case { tick: case.tick.iter().map(|t| t + by).collect(), ..case.clone() };
            compare_jump(r, tally, &later);
            // by whole frames later the run is the same, so much later
            let by = by / sheet.frame.as_ref().unwrap().ticks as u64 * sheet.frame.as_ref().unwrap().ticks as u64;
            let later = Case { tick: case.tick.iter().map(|t| t + by).collect(), ..case.clone() };
            if case.ends_by([n, n], SOON) && tally.may_tick(&case) {
                compare_moved(tally, &case, &later, by);
            }
        }
    }
}

/// The largest finish with a frame: 1,024 jobs of the largest cost at the last tick, of each frame of 10,000 ticks one is ours, the one
/// before the first in which a job may run. With the largest charge it is the same.
fn largest_framed_finish(r: &mut Random, tally: &mut Tally) {
    for charge in [0, 255] {
        let cost = MAX_TIME - charge as u32;
        let frame = Frame::of(MAX_FRAME, &[((MAX_TICK % MAX_FRAME as u64) as u32, 1)]);
        let sheet = Sheet::of(&[Task::high(MAX_TIME, 0, cost, MAX_TIME)]).charged(charge).framed(Some(frame));
        let case = Case::sound(r, &sheet, &[Release { task: 0, tick: MAX_TICK, cost }; 1024]);
        let jumped = reference::jump(&case.sheet(), &case.kept, 1024, &case.reference_list(), 1024, 1024).unwrap();
        assert_eq!((jumped.ready[1023], jumped.finish[1023], jumped.stops), (1_000_001_023_000_000, 1_010_240_000_000_001, 2_048));
        for _ in 0..10 {
            compare_jump(r, tally, &case);
        }
    }
}

/// The sheets and lists with a frame that were worked out by hand.
fn framed_by_hand(r: &mut Random, tally: &mut Tally) {
    for (sheet, kept, task, _) in sums::framed_verdicts() {
        for _ in 0..10 {
            let case = Case { kept: kept.clone(), ..Case::sound(r, &sheet, &[]) };
            compare_verdict(r, tally, &case, task as u32, 1_000_000);
            compare_choice(r, tally, &case, 1_000_000);
        }
    }
    for (sheet, list, _) in sums::framed_runs() {
        for _ in 0..10 {
            let case = Case { kept: vec![0; sheet.count], ..Case::sound(r, &sheet, &list) };
            compare_run(r, tally, &case, SOON);
            compare_jump(r, tally, &case);
        }
    }
}

// ---- Sets of kept jitters ----------------------------------------------------------------------------------------------

/// A set of kept jitters, one for each task, and the verdict of each task under it.
struct Set {
    kept: Vec<u32>,
    verdicts: Vec<Verdict>,
}

impl Set {
    /// Whether each of these tasks fits under the set.
    fn fits(&self, tasks: &[usize]) -> bool {
        tasks.iter().all(|&i| matches!(self.verdicts[i], Verdict::Fits { .. }))
    }
}

/// All sets of kept jitters for the first so many tasks of a sheet, each from 0 to J, in rising order.
fn kept_sets(sheet: &Sheet, tasks: usize) -> Vec<Vec<u32>> {
    (0..tasks).fold(vec![vec![]], |sets, i| {
        let longer = |set: Vec<u32>| (0..=sheet.task(i).j).map(move |k| [&set[..], &[k]].concat());
        sets.into_iter().flat_map(longer).collect()
    })
}

/// All sets of kept jitters of a sheet, each verdict by the reference's own. The verdict of a task depends on the kept jitters of it and of
/// the tasks above it alone, and is found once for these.
fn all_sets(sheet: &Sheet, budget: &mut Budget) -> Result<Vec<Set>, Exhausted> {
    let mut verdicts = BTreeMap::new();
    for kept in (1..=sheet.count).flat_map(|tasks| kept_sets(sheet, tasks)) {
        let verdict = reference::verdict_of(sheet, &kept, kept.len() - 1, budget)?;
        verdicts.insert(kept, verdict);
    }
    let set = |kept: Vec<u32>| Set { verdicts: (1..=sheet.count).map(|tasks| verdicts[&kept[..tasks]]).collect(), kept };
    Ok(kept_sets(sheet, sheet.count).into_iter().map(set).collect())
}

/// The set that has in each slot the least number over all sets under which these tasks fit: these tasks fit under it too. None where they
/// fit under no set.
fn least_set<'a>(sets: &'a [Set], tasks: &[usize]) -> Option<&'a Set> {
    let fit: Vec<&Set> = sets.iter().filter(|set| set.fits(tasks)).collect();
    let first = fit.first()?;
    let least: Vec<u32> = (0..first.kept.len()).map(|i| fit.iter().map(|set| set.kept[i]).min().unwrap()).collect();
    Some(fit.into_iter().find(|set| set.kept == least).expect("the least numbers are not a set under which the tasks fit"))
}

/// What a choice that judges these tasks answers with a set under which they fit: the worst value of another task is 0.
fn chosen_of(set: &Set, tasks: &[usize], high_only: bool) -> Chosen {
    let worst = set.verdicts.iter().enumerate().map(|(i, verdict)| match verdict {
        Verdict::Fits { r, .. } if tasks.contains(&i) => *r as u32,
        _ => 0,
    });
    Chosen { kept: set.kept.clone(), worst: worst.collect(), high_only }
}

/// The tasks that are high with these marks.
fn high_tasks(lows: &[bool]) -> Vec<usize> {
    (0..lows.len()).filter(|&i| !lows[i]).collect()
}

/// The choice with these marks by all sets, and not task by task: the least set under which every task fits; where there is none, the
/// least one under which every high task fits, whatever the low ones do; and where there is none either, 15 at the first high task with
/// which the high tasks up to it fit under no set.
fn choice_by_sets(sets: &[Set], lows: &[bool]) -> Result<Chosen, Refusal> {
    let (all, high) = ((0..lows.len()).collect::<Vec<usize>>(), high_tasks(lows));
    for (tasks, high_only) in [(&all, false), (&high, true)] {
        if let Some(set) = least_set(sets, tasks) {
            return Ok(chosen_of(set, tasks, high_only));
        }
    }
    let last = (0..high.len()).find(|&n| least_set(sets, &high[..=n]).is_none()).unwrap();
    Err(Refusal { number: 15, place: high[last] as u64 })
}

/// Notes what a sheet has of which all sets were tried, with its choice where every mark is high, and whether the marks of it show the
/// last two of TRIED.
fn note_tried(tally: &mut Tally, sheet: &Sheet, sets: &[Set], chosen: &Result<Chosen, Refusal>, marks: [bool; 2]) {
    let over = chosen.as_ref().map_or(false, |c| c.kept.iter().any(|&k| k > 0));
    let refused = |place: u64| chosen.as_ref().map_or_else(|x| x.place == place, |_| false);
    let windows = sheet.frame.as_ref().map_or(0, |f| f.count);
    let horizon = sets.iter().any(|set| set.verdicts.iter().any(|v| matches!(v, Verdict::Horizon { .. })));
    let seen = [
        chosen.is_ok() && !over,
        over,
        refused(0),
        refused(1),
        refused(2),
        refused(3),
        horizon,
        sheet.tasks.iter().any(|t| t.j > t.p),
        over && windows > 0,
        over && windows > 1,
        over && sheet.charge > 0,
        marks[0],
        marks[1],
    ];
    for (count, seen) in tally.tried.iter_mut().zip(seen) {
        *count += seen as u64;
    }
    tally.sets += sets.len() as u64;
    tally.most_sets = tally.most_sets.max(sets.len() as u64);
}

/// The archive's verdicts at a choice: each task that it judged fits with its worst value, and with no smaller K of its own.
fn compare_least_keeps(tally: &mut Tally, case: &Case, chosen: &Chosen) {
    let sheet = case.sheet();
    for task in judged_tasks(&sheet, chosen) {
        for k in 0..=chosen.kept[task] {
            let (mut kept, mut answer) = (chosen.kept.clone(), [7; 4]);
            kept[task] = k;
            let got = library::verdict(&case.numbers, case.count, case.charge, &case.frame, task as u32, &kept, &mut answer);
            let same = match answer {
                [2, _, worst, _] => k == chosen.kept[task] && worst == chosen.worst[task] as u64,
                _ => k < chosen.kept[task],
            };
            tally.note(1, None, got, same, || format!("task {} kept {:?} answer {:?} {:?} {}", task, kept, answer, chosen, case.show()));
        }
    }
}

/// Whether the choice is the ordinary one, and every high task fits under some set with a smaller K for a high task.
fn fit_with_less(sets: &[Set], lows: &[bool], chosen: &Chosen) -> bool {
    let high = high_tasks(lows);
    let least = least_set(sets, &high).unwrap();
    !chosen.high_only && high.iter().any(|&i| least.kept[i] < chosen.kept[i])
}

/// Small sheets of which all sets of kept jitters are tried by the reference's verdicts, with every pattern of marks: the archive chooses the
/// least set, or refuses where there is none. A sheet with a walk that takes too long is passed over.
fn small_sets(r: &mut Random, tally: &mut Tally, cases: u32) {
    for _ in 0..cases {
        let sheet = sheet_of_few_sets(r);
        let budget = if r.once_in(200) { 20_000_000 } else { 200_000 };
        let Ok(sets) = all_sets(&sheet, &mut Budget::of(budget)) else {
            tally.passed_over += 1;
            continue;
        };
        let n = sheet.count;
        let mut marks = [false; 2];
        for lows in patterns(n) {
            let expected = choice_by_sets(&sets, &lows);
            let case = Case::sound(r, &sheet.marked(&lows), &[]);
            let more = r.within(0, 2) as usize;
            compare_choice_with(r, tally, &case, [n + more, n, 1 + more], &expected);
            if let Ok(chosen) = &expected {
                compare_least_keeps(tally, &case, chosen);
                marks[0] |= chosen.high_only && lows.contains(&false);
                marks[1] |= fit_with_less(&sets, &lows, chosen);
            }
        }
        note_tried(tally, &sheet, &sets, &choice_by_sets(&sets, &vec![false; n]), marks);
    }
}

/// A sheet whose high task fits with less than the choice keeps. Task 0 (10, 5, 1, 4) is low: W(0) = 1, R(0) = 1 + 1 + 5 − K, which is at
/// most 4 from K = 3 on. Task 1 (20, 5, 8, 12) is high. With task 0 kept at 3 its σ(9) and σ(10) are 2, since 9 + 3 is over its period of
/// 10: W(0) = 8 + 2 = 10, R(0) = 10 + 1 + 5 − K, which is at most 12 from K = 4 on. So the choice is 3, 4. With task 0 kept at 0 its σ(9)
/// is 1: W(0) = 8 + 1 = 9, R(0) = 9 + 1 + 5 − K, which is at most 12 from K = 3 on. Under the set 0, 3 the high task fits, with less than
/// the choice keeps, and the low one is late with R(0) = 7. So with low tasks it is not enough that every high task fits under a set.
fn set_by_hand(r: &mut Random, tally: &mut Tally) {
    let sheet = Sheet::of(&[Task::high(10, 5, 1, 4).marked(true), Task::high(20, 5, 8, 12)]);
    let verdicts = |kept: [u32; 2]| [0, 1].map(|i| reference::verdict_of(&sheet, &kept, i, &mut Budget::of(1_000)).ok().unwrap());
    let (late, fits) = (|r: i64| Verdict::Late { q: 0, r }, |r: i64| Verdict::Fits { r, q: 0 });
    assert_eq!(verdicts([3, 4]), [fits(4), fits(12)]);
    assert_eq!(verdicts([2, 4]), [late(5), fits(12)]);
    assert_eq!(verdicts([3, 3]), [fits(4), late(13)]);
    assert_eq!(verdicts([0, 3]), [late(7), fits(12)]);
    assert_eq!(verdicts([0, 2]), [late(7), late(13)]);
    let sets = all_sets(&sheet, &mut Budget::of(10_000)).ok().unwrap();
    let expected = Chosen { kept: vec![3, 4], worst: vec![4, 12], high_only: false };
    for lows in patterns(2) {
        assert_eq!(choice_by_sets(&sets, &lows).as_ref(), Ok(&expected));
        assert_eq!(fit_with_less(&sets, &lows, &expected), lows == [true, false]);
        let case = Case::sound(r, &sheet.marked(&lows), &[]);
        compare_choice_with(r, tally, &case, [2, 2, 1], &Ok(expected.clone()));
        compare_least_keeps(tally, &case, &expected);
    }
}

/// The walk of a task: its verdict, and W(q) of each q that it took. One over the horizon is the largest number.
type Walk = (Verdict, Vec<i64>);

/// The walks of a task under each set of kept jitters for it and the tasks above it.
fn all_walks(sheet: &Sheet, i: usize, budget: &mut Budget) -> Result<BTreeMap<Vec<u32>, Walk>, Exhausted> {
    let mut walks = BTreeMap::new();
    for kept in kept_sets(sheet, i + 1) {
        let judged = reference::judge(sheet, &kept, i, budget)?;
        let mut windows = reference::Windows::of(sheet, &kept, i, budget);
        let mut taken = Vec::new();
        for q in 0..judged.taken {
            taken.push(windows.get(q)?.unwrap_or(i64::MAX));
        }
        walks.insert(kept, (judged.verdict, taken));
    }
    Ok(walks)
}

/// The walk of a task with less kept above it, and that with more, and the same K of its own: each W(q) is no larger, and so is each R(q),
/// which is W(q) and a number that depends on q and that K alone. Where it fits with more it fits with less, the largest R is no larger and
/// the walk stops no later. Returns whether it stops earlier, and whether it fits with less alone.
fn check_less((less, first): &Walk, (more, second): &Walk) -> [bool; 2] {
    assert!(first.iter().zip(second).all(|(a, b)| a <= b), "{first:?} {second:?}");
    match (less, more) {
        (Verdict::Fits { r: a, .. }, Verdict::Fits { r: b, .. }) => {
            assert!(a <= b && first.len() <= second.len(), "{less:?} {first:?} {more:?} {second:?}");
            [first.len() < second.len(), false]
        }
        (_, Verdict::Fits { .. }) => panic!("{less:?} with less kept above, {more:?} with more"),
        _ => [false, matches!(less, Verdict::Fits { .. })],
    }
}

/// The verdicts of a task over its own K from 0 to J, with those above it kept as they are: late for some, then fits for some, then horizon
/// for some, and any of the three for none. Returns 1 for late, 2 for fits and 4 for horizon, added up over those that there are.
fn check_stretches(verdicts: &[Verdict]) -> usize {
    let place = |verdict: &Verdict| match verdict {
        Verdict::Late { .. } => 0,
        Verdict::Fits { .. } => 1,
        Verdict::Horizon { .. } => 2,
    };
    assert!(verdicts.windows(2).all(|pair| place(&pair[0]) <= place(&pair[1])), "{verdicts:?}");
    verdicts.iter().fold(0, |seen, verdict| seen | 1 << place(verdict))
}

/// A sheet of two tasks whose second is late with K = 0 and at the horizon with more, which rarely comes up. They take 599,999 of 600,000
/// ticks. With 20 kept for task 0, W(q) has q + 2 jobs of it up to q = 18: W(q) = (q + 1) × 599,999 + 300,000, over (q + 1) × 600,000, so
/// that the walk does not stop before q = 16, where W(q) is over the horizon. R(0) = 899,999 + 1 + 2 − K is over 900,001 with K = 0 alone, and
/// R(q) of a later q is 900,002 − q.
fn late_then_horizon() -> Sheet {
    Sheet::of(&[Task::high(600_000, 20, 300_000, MAX_TIME), Task::high(600_000, 2, 299_999, 900_001)])
}

/// The laws by which a choice is the least set, on the walks of the reference: every set is compared with each that has one less for one task
/// above, and from any set such steps lead to any that is nowhere larger; and the verdicts over a task's own K. Each combination of late,
/// fits and horizon comes up.
fn check_reference_sets(r: &mut Random, cases: u32) {
    let (mut earlier, mut fit, mut stretches) = (0, 0, [0; 8]);
    for case in 0..cases {
        let sheet = if case == 0 { late_then_horizon() } else { sheet_of_few_sets(r) };
        for i in 0..sheet.count {
            let Ok(walks) = all_walks(&sheet, i, &mut Budget::of(200_000)) else { break };
            for (kept, walk) in &walks {
                for j in (0..i).filter(|&j| kept[j] > 0) {
                    let mut less = kept.clone();
                    less[j] -= 1;
                    let seen = check_less(&walks[&less], walk);
                    (earlier, fit) = (earlier + seen[0] as u32, fit + seen[1] as u32);
                }
            }
            // sets that differ in the task's own K alone stand side by side
            let verdicts: Vec<Verdict> = walks.values().map(|walk| walk.0).collect();
            for row in verdicts.chunks(sheet.task(i).j as usize + 1) {
                stretches[check_stretches(row)] += 1;
            }
        }
    }
    assert!(earlier > 1_000 && fit > 1_000 && !stretches[1..].contains(&0), "{earlier} {fit} {stretches:?}");
}

/// Some tasks of one period P and one kept jitter K above a task of which W(0) is kP − K: what they leave free of each P up to there is
/// its cost and K. There the arrival count steps, a tick later it is one more.
fn sheet_at_step(above: u32, p: u32, k: u32, keep: u32) -> Option<(Sheet, Vec<u32>)> {
    let free = (keep + k) / k;
    let (taken, cost) = (p.checked_sub(free)?, k * free - keep);
    if taken < above || cost > 1_000_000 {
        return None;
    }
    let share = |j: u32| taken / above + (j < taken % above) as u32;
    let mut tasks: Vec<Task> = (0..above).map(|j| Task::high(p, keep, share(j), 1_000_000)).collect();
    tasks.push(Task::high(1_000_000, 0, cost, 1_000_000));
    let mut kept = vec![keep; above as usize];
    kept.push(0);
    Some((Sheet::of(&tasks), kept))
}

/// Arrival counts at their steps, up to the horizon: every period up to 64, those around each power of 2, the largest ones, and others;
/// over one task and over several. W(0) is known, and where it is over the deadline the verdict tells it.
fn counts_at_steps(r: &mut Random, tally: &mut Tally, others: u32) {
    let mut periods: Vec<u32> = (2..=64).chain((6..20).flat_map(|b| (1 << b) - 1..=(1 << b) + 1)).chain(999_980..=1_000_000).collect();
    periods.extend((0..others).map(|_| r.within(65, 999_979)));
    let mut last = 0;
    for p in periods {
        for keep in [0, 1, p - 1, p, 1_000_000] {
            let most = (10_000_000 + keep) / p;
            let above = r.of(&[1, 2, 3, 4, 5, 7, 8, 30, 31]);
            for k in [most, most - most / 8, most / 2, r.within(1, most)] {
                let Some((sheet, kept)) = sheet_at_step(above, p, k, keep) else { continue };
                let w = k * p - keep;
                let verdict = reference::verdict(&sheet, above as usize, &kept, &mut Budget::of(1_000_000));
                if let (Ok(Ok(j)), true) = (verdict, w >= 1_000_000) {
                    assert!(matches!(j.verdict, Verdict::Late { q: 0, r } if r as u32 == w + 1));
                    last = last.max(w);
                }
                let mut case = Case::sound(r, &sheet, &[]);
                case.kept = kept;
                compare_verdict(r, tally, &case, above, 1_000_000);
                compare_choice(r, tally, &case, 100_000);
            }
        }
    }
    assert_eq!(last, 10_000_000);
}

/// The verdicts whose evaluations were counted by hand.
fn numbers_by_hand(r: &mut Random, tally: &mut Tally) {
    for (sheet, kept, task, _, _) in sums::numbers() {
        let case = Case { kept, ..Case::sound(r, &sheet, &[]) };
        for _ in 0..5 {
            compare_verdict(r, tally, &case, task as u32, 100_000_000);
        }
    }
}

/// Walks that reach the horizon or take many q, and jitters for which every K in 0..J can only just be tried. With a charge too, where
/// the costs leave a part for it.
fn long_walks(r: &mut Random, tally: &mut Tally) {
    let sheets: [&[[u32; 4]]; 8] = [
        &[[300, 1, 300, 302]],
        &[[1, 0, 1, 2], [1, 0, 1, 2]],
        &[[2, 0, 1, 2], [2, 1, 1, 1_000_000]],
        &[[3, 2, 1, 9], [3, 2, 1, 90], [3, 1_000_000, 1, 1_000_000]],
        &[[1_000_000, 1_000_000, 1_000_000, 1_000_000], [1_000_000, 0, 1, 1_000_000]],
        &[[10, 9, 3, 30], [1_000_000, 1_000_000, 400_000, 1_000_000], [1_000_000, 999_999, 200_000, 990_000]],
        &[[2, 1, 1, 2], [2, 999_990, 1, 1_000_000]],
        &[[2_000, 1, 1_000, 1_002], [2_000, 1_500, 1_000, 1_000_000]],
    ];
    for (sheet, charge) in sheets.into_iter().flat_map(|s| [(s, 0), (s, 200)]) {
        let all: Vec<Task> = sheet.iter().map(|t| Task::high(t[0], t[1], t[2], t[3])).collect();
        let mut whole = with_marks(r, Sheet::of(&all).charged(charge));
        if whole.tasks.iter().any(|t| t.e <= charge as u32) {
            continue;
        }
        whole.tasks.iter_mut().for_each(|t| t.e -= charge as u32);
        for full in [true, false] {
            let mut case = Case::sound(r, &whole, &[]);
            case.kept = sheet.iter().map(|t| if full { t[1] } else { t[1] / 2 }).collect();
            for task in 0..case.count {
                compare_verdict(r, tally, &case, task, 2_000_000_000);
            }
        }
        let case = Case::sound(r, &whole, &[]);
        compare_choice(r, tally, &case, 100_000_000);
        compare_choice_by_verdicts(tally, &case);
    }
}

/// A choice that is too long to be made by trying every K: the K chosen fits with the worst value given, and one less does not fit; where
/// it is that of the high tasks alone, both are 0 of a low task.
fn compare_choice_by_verdicts(tally: &mut Tally, case: &Case) {
    let (sheet, n) = (case.sheet(), case.count as usize);
    let (mut kept, mut worst, mut answer) = (vec![0; n], vec![0; n], [0; 1]);
    if library::choice(&case.numbers, case.count, case.charge, &case.frame, &mut kept, &mut worst, &mut answer) != 0 {
        return;
    }
    for i in 0..n {
        if answer[0] == 1 && sheet.task(i).low {
            tally.note(2, None, 0, (kept[i], worst[i]) == (0, 0), || format!("task {} kept {:?} worst {:?} {}", i, kept, worst, case.show()));
            continue;
        }
        let at = |k: u32| {
            let mut all = kept.clone();
            all[i] = k;
            reference::verdict_of(&sheet, &all, i, &mut Budget::of(u64::MAX)).ok().unwrap()
        };
        let fits = matches!(at(kept[i]), Verdict::Fits { r, .. } if r == worst[i] as i64);
        let least = kept[i] == 0 || !matches!(at(kept[i] - 1), Verdict::Fits { .. });
        tally.note(2, None, 0, fits && least, || format!("task {} kept {:?} worst {:?} {}", i, kept, worst, case.show()));
    }
}

/// Document 01's printed sheet and releases, and the sheet with the deadline at which it fits; with every charge that the tasks hold, and
/// with one more.
fn printed(r: &mut Random, tally: &mut Tally) {
    for (sheet, charge) in [sums::printed_sheet(), sums::folder_sheet()].iter().flat_map(|s| (0..=5).map(move |c| (s, c))) {
        let sheet = sheet.charged(charge);
        let case = Case::sound(r, &sheet, &sums::printed_releases());
        for _ in 0..50 {
            compare_sheet_calls(r, tally, &case, 1_000_000);
            compare_list_calls(r, tally, &case, SOON);
        }
    }
}

/// Answers that are too short, in calls that have something else to refuse as well: what decides is written out.
fn short_answers(r: &mut Random, tally: &mut Tally) {
    let sound = Case::sound(r, &sums::printed_sheet(), &sums::printed_releases());
    let changed = |change: fn(&mut Case)| {
        let mut case = Case { kept: vec![1, 3, 0], ..sound.clone() };
        change(&mut case);
        case
    };
    let refused = |number: u32, place: u64| Some(Refusal { number, place });

    // one task: the change, the task, then what an arrival count with no slot and a verdict with up to three slots refuse
    let single: [(fn(&mut Case), u32, [(u32, u64); 2]); 16] = [
        (|_| (), 1, [(13, 1), (13, 4)]),
        (|c| c.count = 0, 1, [(5, 0), (5, 0)]),
        (|c| c.count = 33, 1, [(4, 32), (4, 32)]),
        (|c| c.numbers[7] = 0, 0, [(6, 1), (6, 1)]),
        (|_| (), 7, [(14, 7), (14, 7)]),
        (|c| c.kept.clear(), 1, [(13, 3), (13, 3)]),
        (|c| c.kept[1] = 8, 1, [(13, 1), (13, 4)]),
        // a charge: the tasks hold up to 4
        (|c| c.charge = 4, 1, [(13, 1), (13, 4)]),
        (|c| c.charge = 5, 1, [(17, 0), (17, 0)]),
        (|c| (c.charge, c.numbers[12]) = (4, 7), 1, [(17, 2), (17, 2)]),
        (|c| (c.charge, c.numbers[7]) = (5, 0), 1, [(17, 0), (17, 0)]),
        (|c| (c.charge, c.numbers[2]) = (5, 7), 1, [(6, 0), (6, 0)]),
        (|c| (c.charge, c.numbers[7], c.numbers[12]) = (4, 0, 7), 1, [(6, 1), (6, 1)]),
        (|c| (c.charge, c.count) = (255, 0), 1, [(5, 0), (5, 0)]),
        (|c| (c.charge, c.count) = (255, 33), 1, [(4, 32), (4, 32)]),
        (|c| (c.charge, c.kept) = (255, vec![]), 7, [(17, 0), (17, 0)]),
    ];
    for (change, task, [count, verdict]) in single {
        let case = changed(change);
        let mut answer = words(r, 3);
        let got = library::arrival_count(&case.numbers, case.count, case.charge, task, &case.kept, 7, &mut answer.now[..0]);
        tally.note(0, refused(count.0, count.1), got, answer.holds(None), || format!("no slot, task {} {}", task, case.show()));
        for slots in 0..=3 {
            let got = library::verdict(&case.numbers, case.count, case.charge, &case.frame, task, &case.kept, &mut answer.now[..slots]);
            tally.note(1, refused(verdict.0, verdict.1), got, answer.holds(None), || format!("{slots} slots, task {task} {}", case.show()));
        }
    }
    // four slots and more: late at q = 0 with R(0) = 9 after one t
    for slots in 4..=6 {
        let (case, mut answer) = (changed(|_| ()), words(r, slots));
        let got = library::verdict(&case.numbers, case.count, case.charge, &case.frame, 1, &case.kept, &mut answer.now);
        tally.note(1, None, got, answer.holds(Some(&[1, 0, 9, 1])), || format!("{} slots: {:?}", slots, answer.now));
    }

    // a choice on the printed sheet, which ends in 15 at task 2: the change, the slots of kept jitters, worst values and answer, and what it
    // refuses
    let choices: [(fn(&mut Case), [usize; 3], (u32, u64)); 22] = [
        (|_| (), [3, 3, 1], (15, 2)),
        (|_| (), [3, 3, 0], (13, 1)),
        (|_| (), [2, 3, 0], (13, 3)),
        (|_| (), [3, 2, 1], (13, 3)),
        (|_| (), [0, 0, 0], (13, 3)),
        // the ordinary choice, and that of the high tasks alone
        (|c| c.numbers[13] = 11, [3, 3, 0], (13, 1)),
        (|c| c.numbers[13] = 11, [3, 2, 0], (13, 3)),
        (|c| c.numbers[14] = 1, [3, 3, 0], (13, 1)),
        (|c| c.numbers[14] = 1, [2, 3, 0], (13, 3)),
        (|c| c.numbers[9] = u32::MAX, [3, 3, 0], (13, 1)),
        // with task 0 low it ends at task 2 still; where no K fits task 0 the ordinary one ends there
        (|c| c.numbers[4] = 256, [3, 3, 1], (15, 2)),
        (|c| c.numbers[3] = 2, [3, 3, 1], (15, 0)),
        (|c| (c.numbers[3], c.numbers[4]) = (2, 1), [3, 3, 1], (15, 2)),
        (|c| (c.numbers[3], c.numbers[4]) = (2, 1), [3, 3, 0], (13, 1)),
        (|c| (c.numbers[3], c.numbers[14]) = (2, 1), [3, 3, 1], (15, 0)),
        (|c| (c.numbers[3], c.numbers[8], c.numbers[4]) = (2, 4, 1), [3, 3, 1], (15, 1)),
        // the sheet before all
        (|c| c.count = 0, [0, 0, 0], (5, 0)),
        (|c| c.count = 33, [0, 0, 0], (4, 32)),
        (|c| c.numbers[7] = 0, [0, 0, 0], (6, 1)),
        (|c| (c.numbers[7], c.numbers[9]) = (0, 1), [3, 3, 0], (6, 1)),
        (|c| (c.charge, c.numbers[4]) = (5, 1), [0, 0, 0], (17, 0)),
        (|c| (c.charge, c.numbers[4]) = (4, 1), [3, 3, 0], (13, 1)),
    ];
    for (change, [a, b, w], (number, place)) in choices {
        let case = changed(change);
        let (mut kept, mut worst, mut answer) = (numbers(r, a), numbers(r, b), words(r, w));
        let got = library::choice(&case.numbers, case.count, case.charge, &case.frame, &mut kept.now, &mut worst.now, &mut answer.now);
        let same = kept.holds(None) && worst.holds(None) && answer.holds(None);
        tally.note(2, refused(number, place), got, same, || format!("slots {:?} {}", [a, b, w], case.show()));
        compare_choice_into(r, tally, &case, [a, b, w], 1_000_000);
    }

    // a list of three: what a trace check with one slot and a write with none refuse, and the bytes that the write needs
    let lists: [(fn(&mut Case), [(u32, u64); 2], usize); 25] = [
        (|_| (), [(13, 2), (13, 1)], 82),
        (|c| c.count = 0, [(5, 0), (5, 0)], 0),
        (|c| c.numbers[0] = 0, [(6, 0), (6, 0)], 0),
        (|c| c.n = 1025, [(10, 1024), (10, 1024)], 0),
        (|c| c.tick.truncate(2), [(13, 3), (13, 3)], 0),
        (|c| c.task[1] = 3, [(13, 2), (13, 1)], 82),
        (|c| c.cost[0] = 0, [(13, 2), (13, 1)], 82),
        (|c| c.tick[2] = MAX_SHORT_TICK, [(13, 2), (13, 1)], 82),
        (|c| c.tick[2] = MAX_SHORT_TICK + 1, [(13, 2), (13, 1)], 86),
        (|c| c.tick[2] = MAX_TICK + 1, [(13, 2), (13, 1)], 86),
        (|c| c.tick = vec![u64::MAX, 0, 1 << 32], [(13, 2), (13, 1)], 90),
        (|c| c.tick = vec![MAX_TICK; 4], [(13, 2), (13, 1)], 94),
        // a charge has two bytes
        (|c| c.charge = 4, [(13, 2), (13, 1)], 84),
        (|c| (c.charge, c.tick) = (1, vec![MAX_TICK; 4]), [(13, 2), (13, 1)], 96),
        (|c| (c.charge, c.cost[0]) = (2, 3), [(13, 2), (13, 1)], 84),
        (|c| c.charge = 5, [(17, 0), (17, 0)], 0),
        (|c| (c.charge, c.n) = (5, 1025), [(17, 0), (17, 0)], 0),
        (|c| (c.charge, c.n) = (4, 1025), [(10, 1024), (10, 1024)], 0),
        (|c| (c.charge, c.tick) = (255, vec![]), [(17, 0), (17, 0)], 0),
        // a low task has one byte more, and one past the count none
        (|c| c.numbers[4] = 1, [(13, 2), (13, 1)], 83),
        (|c| (c.numbers[4], c.numbers[9], c.numbers[14]) = (2, 256, u32::MAX), [(13, 2), (13, 1)], 85),
        (|c| (c.charge, c.numbers[9]) = (4, 1), [(13, 2), (13, 1)], 85),
        (|c| (c.numbers[14], c.tick) = (1 << 31, vec![MAX_TICK; 4]), [(13, 2), (13, 1)], 95),
        (|c| (c.numbers[9], c.cost[0]) = (1, 0), [(13, 2), (13, 1)], 83),
        (|c| c.numbers.extend([6, 5, 2, 6, 1]), [(13, 2), (13, 1)], 82),
    ];
    for (change, [check, write], needed) in lists {
        let case = changed(change);
        let (mut answer, mut out) = (words(r, 1), bytes(r, needed));
        let got = library::trace_check(&case.numbers, case.count, case.charge, case.n, case.library_list(), &mut answer.now);
        tally.note(3, refused(check.0, check.1), got, answer.holds(None), || format!("one slot {}", case.show()));
        let got = library::write(&case.numbers, case.count, case.charge, case.n, case.library_list(), &mut out.now, &mut answer.now[..0]);
        tally.note(7, refused(write.0, write.1), got, out.holds(None), || format!("no slot {}", case.show()));
        if needed > 0 {
            let short = &mut out.now[..needed - 1];
            let got = library::write(&case.numbers, case.count, case.charge, 3, case.library_list(), short, &mut answer.now[..0]);
            tally.note(7, refused(13, needed as u64), got, out.holds(None), || format!("no slot, a byte too few {}", case.show()));
        }
    }

    // a run that jumps of two releases, in columns of three slots: the change, the slots of ready and finish, what it refuses with
    // no slot for its answer, and what it refuses with one, as the run does
    let jumps: [(fn(&mut Case), [usize; 2], (u32, u64), Option<(u32, u64)>); 36] = [
        (|_| (), [2, 2], (13, 1), None),
        (|c| c.count = 0, [2, 2], (5, 0), Some((5, 0))),
        (|c| c.count = 33, [2, 2], (4, 32), Some((4, 32))),
        (|c| c.numbers[7] = 0, [2, 2], (6, 1), Some((6, 1))),
        (|c| c.n = 1025, [2, 2], (10, 1024), Some((10, 1024))),
        (|c| c.kept.truncate(2), [2, 2], (13, 3), Some((13, 3))),
        (|c| c.task.truncate(1), [2, 2], (13, 2), Some((13, 2))),
        (|c| c.tick.truncate(1), [2, 2], (13, 2), Some((13, 2))),
        (|c| c.cost.truncate(1), [2, 2], (13, 2), Some((13, 2))),
        (|_| (), [1, 2], (13, 2), Some((13, 2))),
        (|_| (), [2, 1], (13, 2), Some((13, 2))),
        (|c| c.kept[1] = 8, [2, 2], (13, 1), Some((12, 1))),
        (|c| c.task[1] = 3, [2, 2], (13, 1), Some((7, 1))),
        (|c| c.tick[1] = MAX_TICK + 1, [2, 2], (13, 1), Some((8, 1))),
        (|c| c.tick[0] = 1, [2, 2], (13, 1), Some((8, 1))),
        (|c| c.cost[0] = 0, [2, 2], (13, 1), Some((9, 0))),
        (|c| c.cost[1] = 3, [2, 2], (13, 1), Some((9, 1))),
        // two things besides the answer
        (|c| (c.count, c.n) = (0, 1025), [2, 2], (5, 0), Some((5, 0))),
        (|c| (c.numbers[7], c.n) = (0, 1025), [0, 0], (6, 1), Some((6, 1))),
        (|c| (c.n, c.kept) = (1025, vec![]), [0, 0], (10, 1024), Some((10, 1024))),
        (|c| (c.kept, c.task) = (vec![], vec![]), [0, 0], (13, 3), Some((13, 3))),
        (|c| c.kept[1] = 8, [1, 2], (13, 2), Some((13, 2))),
        (|c| c.task[0] = 3, [2, 1], (13, 2), Some((13, 2))),
        (|c| (c.kept[2], c.task[0]) = (1, 3), [2, 2], (13, 1), Some((12, 2))),
        (|c| (c.kept[0], c.cost[0]) = (6, 0), [2, 2], (13, 1), Some((12, 0))),
        (|c| (c.task[1], c.cost[0]) = (3, 3), [2, 2], (13, 1), Some((9, 0))),
        (|c| (c.task[1], c.tick[1], c.cost[1]) = (3, MAX_TICK + 1, 0), [2, 2], (13, 1), Some((7, 1))),
        (|c| (c.tick[0], c.cost[1]) = (1, 0), [2, 2], (13, 1), Some((8, 1))),
        (|c| (c.n, c.task, c.tick, c.cost) = (0, vec![], vec![], vec![]), [0, 0], (13, 1), None),
        // a charge: the tasks hold up to 4, and costs are up to E without it
        (|c| c.charge = 4, [2, 2], (13, 1), None),
        (|c| c.charge = 5, [2, 2], (17, 0), Some((17, 0))),
        (|c| (c.charge, c.n) = (5, 1025), [2, 2], (17, 0), Some((17, 0))),
        (|c| (c.charge, c.numbers[12], c.kept) = (4, 7, vec![]), [0, 0], (17, 2), Some((17, 2))),
        (|c| (c.charge, c.numbers[7], c.numbers[12]) = (4, 0, 7), [2, 2], (6, 1), Some((6, 1))),
        (|c| (c.charge, c.cost[1]) = (4, 3), [2, 2], (13, 1), Some((9, 1))),
        (|c| (c.charge, c.kept[1]) = (4, 8), [2, 2], (13, 1), Some((12, 1))),
    ];
    for (change, [a, b], none, one) in jumps {
        let mut case = Case { kept: vec![1, 3, 0], n: 2, ..sound.clone() };
        change(&mut case);
        let (mut ready, mut finish, mut answer) = (words(r, a), words(r, b), words(r, 1));
        for (slots, expected) in [(0, Some(none)), (1, one)] {
            let Some((number, place)) = expected else {
                continue;
            };
            let lent = (&mut ready.now[..], &mut finish.now[..], &mut answer.now[..slots]);
            let got = library::jump(&case.numbers, case.count, case.charge, &case.frame, &case.kept, case.n, case.library_list(), lent.0, lent.1, lent.2);
            let same = ready.holds(None) && finish.holds(None) && answer.holds(None);
            tally.note(9, refused(number, place), got, same, || format!("{} slots for the answer {}", slots, case.show()));
        }
        if !tally.may_tick(&case) {
            continue;
        }
        let got = library::run(
            &case.numbers, case.count, case.charge, &case.frame, &case.kept, case.n, case.library_list(), &mut ready.now, &mut finish.now,
        );
        let expected = one.and_then(|(number, place)| refused(number, place));
        let same = expected.is_none() || (ready.holds(None) && finish.holds(None));
        tally.note(5, expected, got, same, || case.show());
    }

    // files: the slots of the sheet, of the columns and of the answer, and what decides
    let sheet = sums::printed_sheet();
    let file = reference::encode(&sheet, &sums::printed_releases());
    let mut longer = file.clone();
    longer.push(3);
    let late = reference::encode(&sheet, &moved(&sums::printed_releases(), MAX_TICK - 1));
    let one = reference::encode(&sheet, &sums::printed_releases()[..1]);
    let charged = reference::encode(&sheet.charged(4), &sums::printed_releases()[..1]);
    let over = reference::encode(&sheet.charged(5), &sums::printed_releases()[..1]);
    let low = reference::encode(&sheet.marked(&[false, true, true]), &sums::printed_releases()[..1]);
    let files: [(&[u8], usize, [usize; 3], usize, (u32, u64)); 29] = [
        (&file, 159, [3, 3, 3], 3, (13, 160)),
        (&file, 160, [3, 3, 3], 2, (13, 3)),
        (&file, 0, [0, 3, 3], 0, (13, 160)),
        (&file, 160, [2, 3, 3], 0, (13, 3)),
        (&file, 160, [3, 0, 3], 1, (13, 3)),
        (&file, 200, [5, 4, 2], 0, (13, 3)),
        // of one release, so that the place says which of them is short
        (&one, 160, [1, 1, 1], 0, (13, 3)),
        (&one, 160, [1, 1, 1], 1, (13, 3)),
        (&one, 160, [1, 1, 1], 2, (13, 3)),
        (&one, 160, [1, 0, 1], 2, (13, 1)),
        (&low, 160, [1, 1, 1], 2, (13, 3)),
        (&low, 160, [1, 1, 0], 2, (13, 1)),
        (&low, 159, [0, 0, 0], 0, (13, 160)),
        (&low[..62], 159, [0, 0, 0], 0, (2, 53)),
        (&charged, 160, [1, 1, 1], 2, (13, 3)),
        (&charged, 160, [0, 1, 1], 2, (13, 1)),
        (&charged, 159, [0, 1, 1], 2, (13, 160)),
        (&charged[..63], 159, [0, 1, 1], 2, (2, 63)),
        (&charged[2..], 160, [1, 1, 1], 2, (13, 3)),
        (&charged[..1], 0, [0, 0, 0], 0, (2, 0)),
        (&over, 0, [0, 0, 0], 0, (17, 2)),
        (&over[..18], 0, [0, 0, 0], 0, (2, 2)),
        (&[], 0, [0, 0, 0], 0, (2, 0)),
        (&file[..81], 0, [3, 3, 3], 3, (2, 81)),
        (&longer, 159, [0, 0, 0], 0, (11, 82)),
        (&file[17 * 3..], 160, [3, 3, 3], 0, (5, 0)),
        (&late, 160, [3, 2, 3], 3, (13, 3)),
        (&late[..93], 0, [0, 0, 0], 0, (2, 93)),
        (&late[17 * 3..], 0, [0, 0, 0], 0, (5, 0)),
    ];
    for (file, s, slots, a, (number, place)) in files {
        let (mut answer, mut sheet) = (words(r, a), numbers(r, s));
        let (mut task, mut tick, mut cost) = (numbers(r, slots[0]), words(r, slots[1]), numbers(r, slots[2]));
        let got = library::read(file, &mut sheet.now, &mut task.now, &mut tick.now, &mut cost.now, &mut answer.now);
        let same = answer.holds(None) && sheet.holds(None) && task.holds(None) && tick.holds(None) && cost.holds(None);
        tally.note(6, refused(number, place), got, same, || format!("sheet {} slots {:?} answer {} file {:?}", s, slots, a, file));
    }

    // texts: the slots of the sheet and of the answer, and what decides
    let texts: [(&str, usize, usize, (u32, u64)); 18] = [
        ("6,5,2,6\n8,7,2,8\n", 159, 1, (13, 160)),
        ("6,5,2,6\n8,7,2,8\n", 160, 0, (13, 1)),
        ("6,5,2,6\n8,7,2,8\n", 0, 0, (13, 160)),
        ("", 0, 0, (5, 0)),
        ("\n", 0, 0, (16, 0)),
        ("6,5,2,6", 160, 1, (16, 0)),
        ("6,5,2,6\r\n", 160, 1, (16, 0)),
        ("6,5,2,6\n8,7,2,8\n8,7,2,08\n", 159, 0, (16, 2)),
        ("6,5,2,6\n8,7,2,8\n\n", 160, 0, (16, 2)),
        ("6,5,2,6\n8,7,9,8\n8,7,2,08\n", 159, 0, (6, 1)),
        ("6,5,2,6\n1000001,7,9,+8\n", 160, 1, (16, 1)),
        ("0,5,2,6,\n", 160, 1, (16, 0)),
        ("0,5,2,6\nx\n", 160, 1, (6, 0)),
        ("6,5,4294967298,6\n", 160, 1, (6, 0)),
        ("18446744073709551622,5,2,6\n", 160, 1, (6, 0)),
        ("6,5,2,1000001\n", 0, 0, (6, 0)),
        ("6,5,2,6\n8,7,2,8", 0, 1, (16, 1)),
        ("6,5,2,6\n8,0,0,8\n", 160, 0, (6, 1)),
    ];
    for (text, s, a, (number, place)) in texts {
        let (mut answer, mut sheet) = (words(r, a), numbers(r, s));
        let got = library::load(text.as_bytes(), &mut sheet.now, &mut answer.now);
        let same = answer.holds(None) && sheet.holds(None);
        tally.note(8, refused(number, place), got, same, || format!("sheet {} answer {} text {:?}", s, a, text));
    }
    let full = "6,5,2,6\n".repeat(32);
    for (last, number) in [("6,5,2,6\n", 4), ("0,0,0,0\n", 4), ("6,5,2,6", 16), ("6,5,2\n", 16), ("\n", 16), ("6,5,2,06\n", 16)] {
        let (mut answer, mut sheet) = (words(r, 1), numbers(r, 160));
        let got = library::load(format!("{full}{last}").as_bytes(), &mut sheet.now, &mut answer.now);
        let same = answer.holds(None) && sheet.holds(None);
        tally.note(8, refused(number, 32), got, same, || format!("32 lines and {:?}", last));
    }
}

fn timed(name: &str, part: impl FnOnce()) {
    let start = std::time::Instant::now();
    part();
    println!("{:<40} {:6.1} s", name, start.elapsed().as_secs_f64());
}

fn main() {
    let seed = std::env::args().nth(1).and_then(|s| s.parse().ok()).unwrap_or(SEED);
    let r = &mut Random::seeded(seed);
    let tally = &mut Tally::default();
    println!("seed {}", seed);
    println!("reference: {} sums and examples of documents 01 and 02 agree", sums::check());
    timed("reference: W(q) by step and by tick", || check_reference_windows(r, 2_000));
    timed("reference: evaluations of a choice", || check_reference_evaluations(r, 20_000));
    timed("reference: run by event, tick and job", || check_reference_run(r, 4_000));
    timed("reference: forms and late ticks", || check_reference_jump(r, 500));
    timed("reference: texts there and back", || check_reference_texts(r, 20_000));
    timed("reference: a charge and costs with it", || check_reference_charge(r, 10_000));
    timed("reference: marks and late jobs", || check_reference_marks(r, 10_000));
    timed("reference: frames by step and by tick", || check_reference_frames(r, 4_000));
    timed("reference: frames and late jobs", || check_reference_promises(r, 4_000));
    timed("reference: sets of kept jitters", || check_reference_sets(r, 20_000));
    timed("printed sheet", || printed(r, tally));
    timed("answers that are too short", || short_answers(r, tally));
    timed("small sheets and lists", || small(r, tally, 120_000));
    timed("boundary values", || boundary(r, tally, 25_000));
    timed("loaded sheets", || loaded(r, tally, 4_000, &[1, 2, 3, 5, 8, 16]));
    timed("full sheets", || loaded(r, tally, 500, &[31, 32]));
    timed("long lists", || long_lists(r, tally, 80));
    timed("charges: cost and charge at P and D", || charge_edges(r, tally));
    timed("charges: 6 and 17 of three tasks", || [1, 2, 254, 255].iter().for_each(|&charge| charge_orders(r, tally, charge)));
    timed("charges: files", || charge_files(r, tally));
    timed("charges: in the costs", || charge_law(r, tally, 20_000, &[0, 1, 2, 5, 12, 40]));
    timed("the same with 1,024 releases", || charge_law(r, tally, 40, &[1024]));
    timed("marks: choices by hand", || marked_by_hand(r, tally));
    timed("marks: every pattern on small sheets", || marked_choices(r, tally, 20_000));
    timed("marks: every task high", || mark_law(r, tally, 20_000, &[0, 1, 2, 5, 12, 40]));
    timed("the same with 1,024 releases", || mark_law(r, tally, 40, &[1024]));
    timed("marks: files", || mark_files(r, tally));
    timed("marks: files of high tasks and these", || marked_files(r, tally, 3_000));
    timed("frames: by hand", || framed_by_hand(r, tally));
    timed("frames: every one of up to 6 ticks", || small_frames(r, tally, 6, 60));
    timed("frames: of up to 500 ticks", || any_frames(r, tally, 3_000, &[2, 5, 12, 31, 100, 500], 100_000));
    timed("frames: of up to 10,000 ticks", || any_frames(r, tally, 300, &[2_000, MAX_FRAME], 4_000_000));
    timed("frames: W(q) at the horizon", || framed_horizons(r, tally));
    timed("frames: 18 and the other refusals", || frame_orders(r, tally));
    timed("frames: rows cut at every number", || frame_rows(r, tally, 20));
    timed("frames: all window", || frame_law(r, tally, 5_000, &[0, 1, 2, 5, 12, 40]));
    timed("frames: bursts and so on", || framed_lists(r, tally, 300, &[2, 5, 33], &[2, 5, 12, 100, MAX_FRAME]));
    timed("the same with 1,024 releases", || framed_lists(r, tally, 8, &[1024], &[5, 100, MAX_FRAME]));
    timed("frames: largest finish", || largest_framed_finish(r, tally));
    timed("sets of kept jitters: by hand", || set_by_hand(r, tally));
    timed("sets of kept jitters: of small sheets", || small_sets(r, tally, 60_000));
    timed("ticks at 1,000,000,000", || late_ticks(r, tally, 3));
    timed("ticks past it, up to the limit", || long_ticks(r, tally, 20_000, &[0, 1, 2, 5, 12]));
    timed("the same with 1,024 releases", || long_ticks(r, tally, 60, &[1023, 1024, 1024, 1025]));
    timed("largest ready and finish ticks", || largest_finish(r, tally));
    timed("jumps: bursts, chains, equal ticks, gaps", || formed_lists(r, tally, 1_500, &[2, 5, 33, 100]));
    timed("jumps: the same with 1,024 releases", || formed_lists(r, tally, 30, &[1024]));
    timed("jumps: long gaps", || long_gaps(r, tally, 20_000, &[1, 2, 3, 10, 60]));
    timed("jumps: long gaps, 1,024 releases", || long_gaps(r, tally, 300, &[1024]));
    timed("jumps: two releases", || two_releases(r, tally));
    timed("jumps: bursts and so on, later", || moved_lists(r, tally, 500, &[2, 5, 33, 100]));
    timed("jumps: the same with 1,024 releases", || moved_lists(r, tally, 10, &[1024]));
    timed("files, cut and changed at every byte", || files(r, tally, 1_000));
    timed("releases of both kinds at the edges", || edge_files(r, tally));
    timed("records in every order", || record_orders(r, tally, 4, 5));
    timed("the same with a charge that is refused", || [0, 5].iter().for_each(|&charge| record_orders(r, tally, charge, 4)));
    timed("files without long ticks", || old_files(r, tally, 300));
    timed("full files", || [0, 1, 255].iter().for_each(|&charge| full_files(r, tally, charge)));
    timed("bytes that decide a read", || deciding_bytes(r, tally));
    timed("bytes that a write needs", || write_places(r, tally, 2_000, &[0, 1, 2, 5, 12]));
    timed("the same with 1,024 releases", || write_places(r, tally, 20, &[1024]));
    timed("texts, cut and changed at every byte", || texts(r, tally, 200));
    timed("numbers and lines at the limits", || full_texts(r, tally));
    timed("arrival counts at their steps", || counts_at_steps(r, tally, 1_000));
    timed("evaluations counted by hand", || numbers_by_hand(r, tally));
    timed("long walks", || long_walks(r, tally));
    timed("last jobs: what decides", || monitor::refusals(r, tally));
    timed("last jobs: after each of the first 1,030", || monitor::first_jobs(r, tally, 1_030, &[1, 2, 5, 31, 32]));
    timed("last jobs: equal largest responses", || monitor::equal_largest(r, tally));
    timed("last jobs: runs of up to 20,000", || monitor::long_runs(r, tally, &[3_000, 8_000, 20_000], false));
    timed("last jobs: the same, reopened", || monitor::long_runs(r, tally, &[3_000, 8_000], true));
    timed("last jobs: openings", || monitor::openings(r, tally, 40_000));
    timed("last jobs: slots that no call made", || monitor::any_slots(r, tally, 20_000));
    timed("reference: what some ask gives", || board::check_reference(r, 10_000));
    timed("boards: by hand", || board::by_hand(r, tally));
    timed("boards: openings and asks, what decides", || board::ask_pairs(r, tally, 200, &[0, 0, 12]));
    timed("boards: commits, every two changes", || board::pairs(r, tally, 300, &[0, 0, 12, 30]));
    timed("boards: every number another", || board::every_number(r, tally, 80, &[0, 12]));
    timed("boards: rows of every length", || board::rows(r, tally, 100, &[0, 12]));
    timed("boards: asks and commits", || board::lives(r, tally, 4_000, &[1, 2, 3, 5], 40, &[0, 0, 0, 5, 12, 40]));
    timed("boards: the same with long frames", || board::lives(r, tally, 40, &[1, 3], 30, &[1_000, MAX_FRAME]));
    timed("boards: the same with many tasks", || board::lives(r, tally, 300, &[12, 24, 29], 30, &[0, 0, 12]));
    timed("boards: up to 32 tasks", || board::full_sheets(r, tally, 300, &[0, 0, 12]));
    timed("boards: equal tasks", || board::neighbours(r, tally, 600, &[0, 0, 12]));
    timed("boards: ticks at the edges", || board::edge_ticks(r, tally, 30, &[0, 0, 12]));
    timed("boards: up to 1,024 releases", || board::long_lists(r, tally, 120, &[200, 1023, 1024, 1024, 1025], &[0, 0, 12]));
    timed("boards: numbers that no call made", || board::any_boards(r, tally, 20_000, &[0, 0, 12]));
    timed("reference: small traces", || small::check_reference(r, 3_000));
    timed("small traces: by hand", || small::by_hand(r, tally));
    timed("small traces: what decides", || small::pairs(r, tally, 300));
    timed("small traces: slots", || small::slots(r, tally));
    timed("small traces: any sheets", || small::any_sheets(r, tally, 20_000));
    timed("small traces: of one task", || small::one_task(r, tally));
    timed("small traces: of two tasks", || small::more_tasks(r, tally, 24, 2));
    timed("small traces: of three tasks", || small::more_tasks(r, tally, 24, 3));
    timed("small traces: of large sheets", || small::large_sheets(r, tally, 40));
    timed("small traces: how many", || small::large_counts(r, tally, 60));
    timed("small traces: the most that there are", || small::most_traces(r, tally, 30, 34));
    for (call, name) in NAMES.iter().enumerate() {
        let (charged, marked, framed) = (tally.charged[call], tally.marked[call], tally.framed[call]);
        println!("{:<14} {:8} calls, {} answered with a charge, {} with a low task, {} with a frame", name, tally.calls[call], charged, marked, framed);
    }
    let each: Vec<String> = (1..21).map(|n| format!("{}: {}", n, tally.refusals[n])).collect();
    println!("refusals by number  {}", each.join("  "));
    let [horizon, late, fits] = tally.verdicts;
    println!("verdicts  horizon {}  late {}  fits {}; too close {}; passed over {}", horizon, late, fits, tally.too_close, tally.passed_over);
    let lists: Vec<String> = LISTS.iter().zip(tally.lists).map(|(name, n)| format!("{name} {n}")).collect();
    println!("evaluations  most {}; {}; choices added up {}", tally.most_evaluations, lists.join("  "), tally.added_up);
    println!("jumping runs  most stops {}; fewer than two stops for each release {}", tally.most_stops, tally.shared_stops);
    println!("charges with which a call was answered: {}", tally.charges.len());
    let ends: Vec<String> = ENDS.iter().zip(tally.ends).map(|(name, n)| format!("{name} {n}")).collect();
    println!("choices with low tasks  {}; last bytes of kind 6 refused {}", ends.join("  "), tally.wrong_marks.len());
    let tried: Vec<String> = TRIED.iter().zip(tally.tried).map(|(name, n)| format!("{name} {n}")).collect();
    println!("sets of kept jitters tried {}, most of one sheet {}; sheets  {}", tally.sets, tally.most_sets, tried.join("  "));
    let [horizon, late, fits] = tally.framed_verdicts;
    println!("verdicts with a frame  horizon {}  late {}  fits {}", horizon, late, fits);
    let unlike: Vec<String> = (0..4).map(|k| format!("{} {} of {}", UNLIKE[k], tally.unlike_none[k], tally.beside_none[k])).collect();
    println!("unlike those without their frame  {}", unlike.join("  "));
    println!("largest ready tick {}, finish {}; too many ticks to be ticked through {}", tally.last_ready, tally.last_finish, tally.not_ticked);
    let displays: Vec<String> = DISPLAYS.iter().zip(tally.displays).map(|(name, n)| format!("{name} {n}")).collect();
    println!("tasks shown  {}; most jobs of a window {}", displays.join("  "), tally.most_jobs);
    let commits: Vec<String> = board::COMMITS.iter().zip(tally.commits).map(|(name, n)| format!("{name} {n}")).collect();
    println!("commits  {}", commits.join("  "));
    println!("commits changed  {}", tally.forged.iter().map(|(name, n)| format!("{name} {n}")).collect::<Vec<String>>().join("  "));
    let answers: Vec<String> = small::ANSWERS.iter().zip(tally.small_answers).map(|(name, n)| format!("{name} {n}")).collect();
    println!("small traces  {}", answers.join("  "));
    let decided: Vec<String> = tally.small_refusals.iter().map(|((call, name), n)| format!("{}, {name} {n}", NAMES[*call])).collect();
    println!("small traces refused  {}", decided.join("  "));
    println!("outside comparison: {} calls, {} differences", tally.calls.iter().sum::<u64>(), tally.differences);
    let stops = tally.most_stops == 2 * MAX_RELEASES as u64 && tally.shared_stops > 0;
    let ticks = (tally.last_ready, tally.last_finish) == (1_000_001_023_000_000, 1_010_240_000_000_001);
    // a read, a load, the calls on a window and those for small traces have no frame, the other calls on values ignore it or take it
    let frames = (0..NAMES.len()).all(|call| (tally.framed[call] > 0) != matches!(call, 6 | 8 | 10..=13 | 17 | 18))
        && tally.frame_places.len() == 18
        && !tally.framed_verdicts.contains(&0)
        && !tally.unlike_none.contains(&0);
    // a load has no charge and no low task; of the calls on a window only an opening has a sheet
    let charges = tally.charges.len() == 255 && (0..NAMES.len()).all(|call| (tally.charged[call] > 0) != matches!(call, 8 | 11..=13));
    let marks = tally.wrong_marks.len() == 255 && (0..NAMES.len()).all(|call| (tally.marked[call] > 0) != matches!(call, 8 | 11..=13));
    let ends = tally.ends.iter().all(|&n| n >= OFTEN);
    let sets = tally.tried.iter().all(|&n| n >= SOME);
    let lists = !tally.lists.contains(&0) && tally.most_evaluations > 1_000_000 && tally.added_up > 0;
    let numbers = !(1..21).any(|n| tally.refusals[n] == 0) && !tally.verdicts.contains(&0);
    let windows = tally.displays.iter().all(|&n| n >= SOME) && tally.most_jobs >= 15_000 && tally.window_refusals.len() == WINDOW_REFUSALS;
    let boards = tally.commits.iter().all(|&n| n >= SOME) && board::forged_often(tally, 20) && tally.board_refusals.len() == board::REFUSALS;
    let traces = small::came_up(tally, SOME);
    let missing = !(numbers && lists && stops && ticks && charges && marks && ends && sets && frames && windows && boards && traces);
    if missing {
        println!("some refusal, verdict, kind of list, number of evaluations or stops, largest tick, charge, mark, frame or choice never came up");
        println!("or, of the choices with low tasks, of the sheets all of whose sets of kept jitters were tried, of the displays, of the commits or");
        println!("of the small traces, not often enough");
    }
    std::process::exit(if tally.differences == 0 && !missing { 0 } else { 1 });
}
