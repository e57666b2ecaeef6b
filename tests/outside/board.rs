//! Ask first, then commit: the three calls on boards and offers. After each of them every slot that was lent is compared, those past a row
//! and those of arrays that are only read too.

use crate::generator::*;
use crate::reference::{self, Board, Budget, Frame, Offer, Refusal, Release, Sheet, Supply, Task};
use crate::reference::{BOARD_NUMBERS, MAX_FRAME, MAX_RELEASES, MAX_TASKS, MAX_TICK, MAX_TIME, MAX_WINDOWS, OFFER_NUMBERS};
use crate::{library, numbers, sums, Case, Tally};
use std::hint::black_box;

pub const OPEN: usize = 14;
pub const ASK: usize = 15;
pub const COMMIT: usize = 16;

/// What a commit may be or meet: accepted ones and refused ones.
pub const COMMITS: [&str; 27] = [
    "no release", "some releases", "1,024 releases", "a release at the last commit", "a finish at the tick", "the tick of the last commit",
    "a tick over 32 bits", "a low half that falls", "the largest tick", "ordinary", "high only", "a frame", "a charge", "32 tasks",
    "at the top", "between two", "at the foot", "equal to its neighbour", "the third or later", "on slots that no call made",
    "other numbers past the counts", "19 of a stale offer", "19 and a finish over the tick", "19 and a tick before the last",
    "20 by a finish", "20 by the last commit", "8 by the last commit",
];

/// The place of a stale offer among them.
const STALE: usize = 21;

/// How many refusals the calls have: 5, 4, 6, 17, 18, 13 and 15 of an opening; the same and 14 of an ask; 5, 4, 6, 17, 18, 10, 13 for a
/// column, 13 for the board, 12, 7, 8, 9, 19 and 20 of a commit.
pub const REFUSALS: usize = 7 + 8 + 14;

/// The steps of a choice of the reference.
const STEPS: u64 = 4_000_000;

/// A case, the offer, and the tick of a commit. The sheet and the frame of the case are those that it was asked of.
#[derive(Clone)]
struct Commit {
    asked: Case,
    offer: Vec<u32>,
    at: u64,
}

impl Commit {
    fn show(&self) -> String {
        format!("offer {:?} at {} {}", self.offer, self.at, self.asked.show())
    }
    /// Whether another one holds the same numbers.
    fn same(&self, other: &Commit) -> bool {
        self.offer == other.offer && same_case(&self.asked, &other.asked)
    }
    fn set_list(&mut self, list: &[Release]) {
        self.asked.n = list.len() as u32;
        self.asked.task = list.iter().map(|x| x.task).collect();
        self.asked.tick = list.iter().map(|x| x.tick).collect();
        self.asked.cost = list.iter().map(|x| x.cost).collect();
    }
}

fn same_case(a: &Case, b: &Case) -> bool {
    a.numbers == b.numbers && a.frame == b.frame && a.task == b.task && a.tick == b.tick && a.cost == b.cost
}

/// A board as it is lent, what its slots have to hold, and how many commits it has had since it was opened; none where no call made it.
#[derive(Clone)]
struct Live {
    lent: Vec<u32>,
    slots: Vec<u32>,
    commits: Option<u64>,
}

impl Live {
    /// A board that holds these numbers.
    fn of(held: Vec<u32>) -> Live {
        Live { lent: held.clone(), slots: held, commits: None }
    }

    /// So many slots that hold any numbers.
    fn any(r: &mut Random, slots: usize) -> Live {
        Live::of(numbers(r, slots).held)
    }

    fn board(&self) -> Board {
        reference::board_in(&self.slots)
    }

    fn sheet(&self) -> Sheet {
        self.board().plan.sheet
    }

    /// Writes the same numbers to both accounts: slots that no call made.
    fn set(&mut self, row: Vec<u32>) {
        *self = Live { commits: self.commits, ..Live::of(row) };
    }

    fn note(&self, tally: &mut Tally, call: usize, expected: Option<Refusal>, got: u64, same: bool, show: impl Fn() -> String) {
        if let Some(refusal) = expected {
            tally.board_refusals.insert((call, refusal.number, refusal.place == BOARD_NUMBERS as u64));
        }
        tally.note(call, expected, got, same && self.lent == self.slots, || {
            let unlike = (0..self.slots.len()).find(|&k| self.lent[k] != self.slots[k]).map(|k| (k, self.lent[k], self.slots[k]));
            format!("board {:?} unlike {:?} read only {}; {}", self.slots, unlike, same, show())
        });
    }

    /// An opening with the case's sheet and frame. Whether it was accepted.
    fn open(&mut self, tally: &mut Tally, case: &Case) -> bool {
        let Ok(expected) = reference::open_board(&case.sheet(), self.slots.len(), &mut Budget::of(STEPS)) else {
            tally.passed_over += 1;
            return false;
        };
        if let Ok(board) = &expected {
            self.slots[..BOARD_NUMBERS].copy_from_slice(&reference::row_of_board(board));
            self.commits = Some(0);
            tally.answered(OPEN, &case.sheet());
        }
        let before = case.clone();
        let got = library::board_open(&case.numbers, case.count, case.charge, &case.frame, &mut self.lent);
        let same = same_case(black_box(case), &before);
        self.note(tally, OPEN, expected.as_ref().err().copied(), got, same, || case.show());
        expected.is_ok()
    }

    /// A commit. The answer of the reference, none where it takes too long.
    fn commit(&mut self, tally: &mut Tally, commit: &Commit) -> Option<Result<(), Refusal>> {
        let case = &commit.asked;
        let sheet = case.sheet();
        let given = reference::commit(
            &self.slots, &commit.offer, &sheet, case.n as usize, &case.reference_list(), commit.at, &mut Budget::of(STEPS),
        );
        let Ok(expected) = given else {
            tally.passed_over += 1;
            return None;
        };
        self.met(tally, commit, &expected);
        if let Ok(board) = &expected {
            tally.answered(COMMIT, &self.sheet());
            self.slots[..BOARD_NUMBERS].copy_from_slice(&reference::row_of_board(board));
            self.commits = self.commits.map(|n| n + 1);
        }
        let before = commit.clone();
        let got = library::board_commit(
            &mut self.lent, &commit.offer, &case.numbers, case.count, case.charge, &case.frame, case.n, case.library_list(), commit.at,
        );
        let same = black_box(commit).same(&before);
        self.note(tally, COMMIT, expected.as_ref().err().copied(), got, same, || commit.show());
        Some(expected.map(|_| ()))
    }

    /// Counts what a commit is or meets, before it is made.
    fn met(&self, tally: &mut Tally, commit: &Commit, expected: &Result<Board, Refusal>) {
        let Board { plan, last } = self.board();
        let (case, at) = (&commit.asked, commit.at);
        let list = reference::check_commit(&self.slots, case.n as usize, &case.reference_list());
        let finish = list.as_ref().map_or(0, |list| reference::last_finish(&plan, list));
        let offer = reference::offer_in(&commit.offer, plan.sheet.frame.clone());
        let first = case.tick.first().copied();
        let number = expected.as_ref().err().map(|x| x.number);
        let accepted = number.is_none();
        let count = plan.sheet.count;
        let places: Vec<usize> = (0..=count.min(MAX_TASKS))
            .filter(|&place| accepted && reference::same_sheet(&plan.sheet.with_task(place, offer.sheet.task(place)), &offer.sheet))
            .collect();
        let canonical = self.slots.get(..BOARD_NUMBERS) == Some(&reference::row_of_board(&self.board())[..])
            && commit.offer == reference::row_of_offer(&offer);
        let seen = [
            accepted && case.n == 0,
            accepted && case.n > 0,
            accepted && case.n == MAX_RELEASES as u32,
            accepted && case.n > 0 && last > 0 && first == Some(last),
            accepted && case.n > 0 && finish == at,
            accepted && last > 0 && at == last,
            accepted && at >> 32 > 0,
            accepted && (at as u32) < last as u32,
            accepted && at == u64::MAX,
            accepted && !offer.chosen.high_only,
            accepted && offer.chosen.high_only,
            accepted && plan.sheet.frame.is_some(),
            accepted && plan.sheet.charge > 0,
            accepted && offer.sheet.count == MAX_TASKS,
            places.contains(&0),
            accepted && !places.contains(&0) && !places.contains(&count),
            places.contains(&count),
            places.len() > 1,
            accepted && self.commits.map_or(false, |n| n >= 2),
            accepted && self.commits.is_none(),
            accepted && !canonical,
            // counted where the offer is taken from those asked for before
            false,
            number == Some(19) && finish > at,
            number == Some(19) && at < last,
            number == Some(20) && finish > at && at >= last,
            number == Some(20) && at < last,
            number == Some(8) && first.map_or(false, |tick| tick < last),
        ];
        for (count, seen) in tally.commits.iter_mut().zip(seen) {
            *count += seen as u64;
        }
    }
}

/// An ask on the case's sheet, with so many slots for the offer. The row of the offer; nothing where it is refused or takes too long.
fn ask(r: &mut Random, tally: &mut Tally, case: &Case, task: &[u32], place: u32, slots: usize) -> Option<Vec<u32>> {
    let at = |k: usize| task.get(k).copied().unwrap_or(0);
    let new = Task { p: at(0), j: at(1), e: at(2), d: at(3), low: at(4) != 0 };
    let Ok(expected) = reference::ask(&case.sheet(), new, place as usize, slots, &mut Budget::of(STEPS)) else {
        tally.passed_over += 1;
        return None;
    };
    let mut offer = numbers(r, slots);
    let (before, task_before) = (case.clone(), task.to_vec());
    let got = library::board_ask(&case.numbers, case.count, case.charge, &case.frame, task, place, &mut offer.now);
    let row = expected.as_ref().ok().map(reference::row_of_offer);
    if let Ok(offer) = &expected {
        tally.answered(ASK, &offer.sheet);
    }
    if let Err(refusal) = &expected {
        tally.board_refusals.insert((ASK, refusal.number, false));
    }
    let same = offer.holds(row.as_deref()) && same_case(black_box(case), &before) && black_box(task) == &task_before[..];
    tally.note(ASK, expected.as_ref().err().copied(), got, same, || {
        format!("task {:?} place {} offer {:?} expected {:?} {}", task, place, offer.now, row, case.show())
    });
    row
}

// ---- Sheets, tasks, rows -----------------------------------------------------------------------------------------------

/// A board's kind of sheets: the most tasks that it may get, the charge and the frame.
#[derive(Clone)]
struct Kind {
    most: u32,
    charge: u8,
    frame: Option<Frame>,
}

impl Kind {
    fn any(r: &mut Random, most: u32, ticks: &[u32]) -> Kind {
        let ticks = r.of(ticks);
        let frame = if ticks == 0 { None } else { Some(frame_for(r, ticks, MAX_WINDOWS)) };
        Kind { most, charge: r.of(&[0, 0, 0, 1, 2, 7, 255]), frame }
    }

    /// A task of which so many mostly fit: jobs take a third of our ticks in all, and few deadlines are short. Some have a jitter near the
    /// deadline, so that some of it is kept, and some are low and fit at no K.
    fn task(&self, r: &mut Random) -> Task {
        let ticks = self.frame.as_ref().map_or(1, |f| f.ticks);
        let ours = Supply::of(&self.frame).before(ticks as i64) as u32;
        let work = self.charge as u32 + r.within(1, 4);
        let p = (3 * self.most * work).saturating_mul(ticks) / ours + 2 * ticks + r.within(0, 40 * self.most);
        let p = p.min(MAX_TIME);
        let d = if r.once_in(8) { r.within(work, p) } else { r.within(p, 3 * p) }.min(MAX_TIME);
        let j = match r.within(0, 7) {
            0 => 0,
            1 => r.within(0, 20),
            2 => r.within(0, p / 2),
            3 => r.within(0, 2 * p.min(400)),
            _ => d.saturating_sub(r.within(0, 4 * work)),
        };
        let task = Task::high(p, j, work - self.charge as u32, d);
        if r.once_in(12) { Task { d: work, ..task }.marked(true) } else { task.marked(r.once_in(4)) }
    }

    fn sheet(&self, r: &mut Random, tasks: usize) -> Sheet {
        let all: Vec<Task> = (0..tasks).map(|_| self.task(r)).collect();
        Sheet::of(&all).charged(self.charge).framed(self.frame.clone())
    }
}

/// A sheet as it is passed, with any numbers past its tasks and windows, or none.
pub fn passed(r: &mut Random, sheet: &Sheet) -> Case {
    let mut case = Case::sound(r, sheet, &[]);
    let length = r.of(&[case.numbers.len(), case.numbers.len(), SHEET_NUMBERS, SHEET_NUMBERS + 2]).max(case.numbers.len());
    while case.numbers.len() < length {
        case.numbers.push(odd_number(r));
    }
    case
}

/// Numbers that may stand past a count, and of which most are outside of any rule.
fn odd_number(r: &mut Random) -> u32 {
    if r.once_in(3) { r.of(&BOUNDARY) } else { r.bits() as u32 }
}

/// Any number that counts as this flag.
fn flag(r: &mut Random, set: bool) -> u32 {
    if set { r.of(&LOW_MARKS) } else { 0 }
}

/// The row of an offer or of a board with other numbers that stand for the same: those past the counts, marks, flags and the charge.
fn other_numbers(r: &mut Random, row: &mut [u32]) {
    let of = reference::board_in(row);
    let (tasks, chosen) = (&of.plan.sheet.tasks, &of.plan.chosen);
    for i in 0..MAX_TASKS {
        let places: Vec<usize> = if i < tasks.len() { vec![] } else { (5 * i..5 * i + 5).chain([163 + i, 195 + i]).collect() };
        for place in places {
            row[place] = odd_number(r);
        }
        if let Some(task) = tasks.get(i) {
            row[5 * i + 4] = flag(r, task.low);
        }
    }
    row[161] = of.plan.sheet.charge as u32 + 256 * r.of(&[0, 1, (1 << 24) - 1]);
    row[162] = flag(r, chosen.high_only);
    if row.len() >= BOARD_NUMBERS {
        row[227] = flag(r, of.plan.sheet.frame.is_some());
        let windows = of.plan.sheet.frame.as_ref().map_or(0, |f| f.windows.len());
        let first = if of.plan.sheet.frame.is_some() { 230 + 2 * windows } else { 228 };
        for place in first..262 {
            row[place] = odd_number(r);
        }
    }
}

/// The same in a board as it is lent.
fn with_other_numbers(r: &mut Random, live: &mut Live) {
    let mut row = live.slots.clone();
    other_numbers(r, &mut row);
    live.set(row);
}

/// Releases since the last commit: so many, the first of them often at its tick. None after the last tick allowed.
fn releases_since(r: &mut Random, board: &Board, n: usize) -> Vec<Release> {
    let step = r.of(&[0, 3, 40, 2_000]);
    let list = list_for(r, &board.plan.sheet, n, step);
    let start = list.first().map_or(0, |x| x.tick);
    let later = if r.once_in(2) { 0 } else { r.tick(0, 50) };
    let list: Vec<Release> = list.iter().map(|x| Release { tick: x.tick - start, ..*x }).collect();
    let end = list.last().map_or(0, |x| x.tick);
    let later_by = board.last.checked_add(later).filter(|&by| by <= MAX_TICK - end);
    later_by.map_or(Vec::new(), |by| moved(&list, by))
}

/// Ticks at which a commit with this last finish is accepted, after the last commit.
fn tick_for(r: &mut Random, last: u64, finish: u64) -> u64 {
    let least = last.max(finish);
    match r.within(0, 19) {
        0..=7 => least,
        8 | 9 => least.saturating_add(1),
        10..=16 => least.saturating_add(r.tick(0, 1_000)),
        // to the next of those at which the low half falls
        17 => (least | 0xffff_ffff).saturating_add(r.tick(0, 3)),
        18 => least.saturating_add(r.of(&[1 << 31, 1 << 32, 1 << 40])),
        _ => least.max(r.of(&[MAX_TICK - 5, MAX_TICK, MAX_TICK + 1, 1 << 63, u64::MAX])),
    }
}

/// A commit of an offer on what is in force, with releases, at a tick at which it is accepted.
fn fresh(r: &mut Random, live: &Live, offer: Vec<u32>, n: usize) -> Commit {
    let board = live.board();
    let list = releases_since(r, &board, n);
    let at = tick_for(r, board.last, reference::last_finish(&board.plan, &list));
    let mut commit = Commit { asked: passed(r, &board.plan.sheet), offer, at };
    commit.set_list(&list);
    commit
}

/// A task that is asked for: any of the kind, one that is held, or one that is no task of a sheet.
fn task_row(r: &mut Random, kind: &Kind, held: &Sheet) -> Vec<u32> {
    let task = if r.once_in(4) { r.of(&held.tasks) } else { kind.task(r) };
    let mut row = vec![task.p, task.j, task.e, task.d, flag(r, task.low)];
    match r.within(0, 15) {
        0 => row[r.within(0, 3) as usize] = r.of(&BOUNDARY),
        1 => row.truncate(r.within(0, 5) as usize),
        2 => row.extend([r.bits() as u32, 1]),
        _ => {}
    }
    row
}

/// An ask on what is in force, mostly one that is accepted.
fn ask_for(r: &mut Random, tally: &mut Tally, kind: &Kind, live: &Live) -> Option<Vec<u32>> {
    let held = live.sheet();
    let count = held.count as u32;
    let task = task_row(r, kind, &held);
    let place = if r.once_in(20) { r.of(&[count + 1, 33, 1 << 31, u32::MAX]) } else { r.within(0, count) };
    let slots = if r.once_in(20) { r.of(&[0, 1, 226]) } else { OFFER_NUMBERS + r.of(&[0, 0, 0, 1, 40]) };
    let case = passed(r, &held);
    ask(r, tally, &case, &task, place, slots)
}

/// A board opened on a sheet of the kind with so many tasks; none where ten sheets do not fit.
fn opened(r: &mut Random, tally: &mut Tally, kind: &Kind, tasks: usize) -> Option<Live> {
    let slots = BOARD_NUMBERS + r.of(&[0, 0, 0, 1, 40]);
    for _ in 0..10 {
        let mut live = Live::any(r, slots);
        let sheet = kind.sheet(r, tasks);
        let case = passed(r, &sheet);
        if live.open(tally, &case) {
            return Some(live);
        }
    }
    None
}

/// An offer that is accepted, and the ask for it; none where twenty asks are refused.
fn offered(r: &mut Random, tally: &mut Tally, kind: &Kind, live: &Live) -> Option<Vec<u32>> {
    (0..20).find_map(|_| ask_for(r, tally, kind, live))
}

// ---- Boards that calls change ------------------------------------------------------------------------------------------

/// An offer and what it was asked of.
struct Asked {
    offer: Vec<u32>,
    sheet: Sheet,
}

/// Boards with so many tasks at first, each with so many steps: asks, commits of the last offer and of those before, commits with one or two
/// things changed, other numbers past the counts, and openings anew, refused ones too.
pub fn lives(r: &mut Random, tally: &mut Tally, cases: u32, tasks: &[usize], steps: u32, ticks: &[u32]) {
    for _ in 0..cases {
        let first = r.of(tasks);
        let kind = Kind::any(r, (first as u32 + 8).min(33), ticks);
        let Some(mut live) = opened(r, tally, &kind, first) else {
            continue;
        };
        let mut pool: Vec<Asked> = Vec::new();
        for _ in 0..steps {
            match r.within(0, 11) {
                0..=3 => {
                    let sheet = live.sheet();
                    pool.extend(ask_for(r, tally, &kind, &live).map(|offer| Asked { offer, sheet }));
                }
                4..=10 if !pool.is_empty() => a_commit(r, tally, &mut live, &pool),
                11 => another_opening(r, tally, &kind, &mut live),
                _ => with_other_numbers(r, &mut live),
            }
        }
    }
}

/// A commit of one of these offers, the last or another, with the sheet that it was asked of or the one in force, sound or damaged.
fn a_commit(r: &mut Random, tally: &mut Tally, live: &mut Live, pool: &[Asked]) {
    let one = if r.once_in(2) { &pool[pool.len() - 1] } else { &pool[r.within(0, pool.len() as u32 - 1) as usize] };
    let stale = !reference::same_sheet(&one.sheet, &live.sheet());
    let n = r.of(&[0, 0, 1, 2, 5, 20]);
    let mut commit = fresh(r, live, one.offer.clone(), n);
    if !r.once_in(3) {
        let sheet = passed(r, &one.sheet);
        commit.asked = Case { task: commit.asked.task, tick: commit.asked.tick, cost: commit.asked.cost, n: commit.asked.n, ..sheet };
    }
    let before = live.clone();
    for _ in 0..r.of(&[0, 0, 0, 1, 1, 2]) {
        damage(r, live, &mut commit);
    }
    let expected = live.commit(tally, &commit);
    if expected != Some(Ok(())) && live.slots != before.slots {
        // a board that was changed by hand goes on as it was before
        *live = before;
    }
    tally.commits[STALE] += (stale && expected.map_or(false, |e| e.err().map(|x| x.number) == Some(19))) as u64;
}

/// An opening of the same memory, mostly one that is refused, so that the board goes on as it was.
fn another_opening(r: &mut Random, tally: &mut Tally, kind: &Kind, live: &mut Live) {
    let tasks = r.within(1, 5) as usize;
    let sheet = kind.sheet(r, tasks);
    let mut case = passed(r, &sheet);
    if !r.once_in(6) {
        match r.within(0, 3) {
            0 => case.count = r.of(&[0, 33, u32::MAX]),
            1 => case.numbers[TASK_NUMBERS * (tasks - 1)] = r.of(&[0, MAX_TIME + 1]),
            2 => case.frame = vec![r.of(&[0, MAX_FRAME + 1])],
            _ => (case.charge, case.numbers[3]) = (255, 3),
        }
    }
    live.open(tally, &case);
}

/// One thing of a commit or of the board changed.
fn damage(r: &mut Random, live: &mut Live, commit: &mut Commit) {
    let board = live.board();
    let finish = reference::check_commit(&live.slots, commit.asked.n as usize, &commit.asked.reference_list())
        .map_or(0, |list| reference::last_finish(&board.plan, &list));
    match r.within(0, 15) {
        0..=4 => {
            let all = forgeries();
            let k = r.within(0, all.len() as u32 - 1) as usize;
            let mut good = Good { live: live.clone(), commit: commit.clone(), finish };
            (all[k].change)(r, &mut good);
            (*live, *commit) = (good.live, good.commit);
        }
        5 | 6 => commit.at = r.of(&[0, board.last, board.last.wrapping_sub(1), finish, finish.wrapping_sub(1), u64::MAX]),
        7 => {
            let place = r.within(0, OFFER_NUMBERS as u32 - 1) as usize;
            if let Some(number) = commit.offer.get_mut(place) {
                *number = if r.once_in(2) { number.wrapping_add(1) } else { odd_number(r) };
            }
        }
        8 if !commit.asked.kept.is_empty() && commit.asked.numbers.len() >= TASK_NUMBERS * commit.asked.kept.len() => {
            commit.asked.damage(r)
        }
        9 if commit.asked.frame.len() >= FRAME_NUMBERS => commit.asked.damage_frame(r),
        10 => {
            let mut list: Vec<Release> = (0..commit.asked.task.len().min(commit.asked.tick.len()).min(commit.asked.cost.len()))
                .map(|p| Release { task: commit.asked.task[p], tick: commit.asked.tick[p], cost: commit.asked.cost[p] })
                .collect();
            damage_list(r, &board.plan.sheet, &mut list);
            commit.set_list(&list);
        }
        11 => {
            // a kept jitter that no choice made
            let mut row = live.slots.clone();
            let i = r.within(0, board.plan.sheet.count.clamp(1, MAX_TASKS) as u32 - 1) as usize;
            let most = row.get(5 * i + 1).map_or(0, |&j| j.min(MAX_TIME)) + r.once_in(8) as u32;
            if let Some(kept) = row.get_mut(163 + i) {
                *kept = r.within(0, most);
            }
            live.set(row);
        }
        12 if commit.offer.len() >= OFFER_NUMBERS => other_numbers(r, &mut commit.offer),
        _ => with_other_numbers(r, live),
    }
}

// ---- What decides ------------------------------------------------------------------------------------------------------

/// A commit that is accepted, and the last finish of its releases.
#[derive(Clone)]
struct Good {
    live: Live,
    commit: Commit,
    finish: u64,
}

impl Good {
    /// Changes a number of the board.
    fn set(&mut self, place: usize, number: u32) {
        let mut row = self.live.slots.clone();
        if let Some(slot) = row.get_mut(place) {
            *slot = number;
        }
        self.live.set(row);
    }
    fn at(&self, place: usize) -> u32 {
        self.live.slots.get(place).copied().unwrap_or(0)
    }
    fn tasks(&self) -> u32 {
        self.live.sheet().count.clamp(1, MAX_TASKS) as u32
    }
    /// The tasks of the offer.
    fn offered(&self) -> u32 {
        self.commit.offer.get(160).copied().unwrap_or(0).clamp(1, MAX_TASKS as u32)
    }
    /// Changes a number of the offer, where it has such a one.
    fn forge(&mut self, place: usize, number: u32) -> Decides {
        match self.commit.offer.get_mut(place) {
            Some(slot) if *slot != number => *slot = number,
            _ => return Decides::NotHere,
        }
        Decides::Refused(8, 19, 0)
    }
    /// The same of the sheet asked of.
    fn of_sheet(&mut self, place: usize, number: u32) -> Decides {
        match self.commit.asked.numbers.get_mut(place) {
            Some(slot) if *slot != number => *slot = number,
            _ => return Decides::NotHere,
        }
        Decides::Refused(8, 19, 0)
    }
    /// The same of the frame asked of.
    fn of_frame(&mut self, place: usize, number: u32) -> Decides {
        match self.commit.asked.frame.get_mut(place) {
            Some(slot) if *slot != number => *slot = number,
            _ => return Decides::NotHere,
        }
        Decides::Refused(8, 19, 0)
    }
    fn release(&self, r: &mut Random) -> Option<usize> {
        let n = self.commit.asked.n.min(MAX_RELEASES as u32) as usize;
        let there = n.min(self.commit.asked.task.len()).min(self.commit.asked.tick.len()).min(self.commit.asked.cost.len());
        if there == 0 { None } else { Some(r.within(0, there as u32 - 1) as usize) }
    }
}

/// What a change alone makes of a commit that is accepted: a refusal, with the stage of its check in the order, number and place; nothing;
/// anything; or the change cannot be made here.
#[derive(Clone, Copy, PartialEq)]
enum Decides {
    Refused(u32, u32, u64),
    Nothing,
    Unsaid,
    NotHere,
}

/// A change, what it touches, and its name. Two that touch the same may undo each other.
struct Forgery {
    name: &'static str,
    touches: &'static str,
    change: fn(&mut Random, &mut Good) -> Decides,
}

fn forgery(name: &'static str, touches: &'static str, change: fn(&mut Random, &mut Good) -> Decides) -> Forgery {
    Forgery { name, touches, change }
}

/// A number of a row of tasks, P, J, E or D of one below the count, made another one.
fn other_task_number(r: &mut Random, tasks: u32, row: &[u32]) -> (usize, u32) {
    let place = (TASK_NUMBERS as u32 * r.within(0, tasks - 1) + r.within(0, 3)) as usize;
    let number = row.get(place).copied().unwrap_or(0);
    (place, if r.once_in(2) { number.wrapping_add(1) } else { r.of(&[number.wrapping_sub(1), number ^ 1 << 31, number ^ 1 << 16]) })
}

/// The changes, in the order of the checks that they touch.
fn forgeries() -> Vec<Forgery> {
    use Decides::*;
    vec![
        // the sheet that the board holds, and its frame
        forgery("board: no task", "board count", |_, g| {
            g.set(160, 0);
            Refused(0, 5, 0)
        }),
        forgery("board: over 32 tasks", "board count", |r, g| {
            g.set(160, r.of(&[33, 34, 256, 1 << 31, u32::MAX]));
            Refused(0, 4, 32)
        }),
        forgery("board: range", "board range", |r, g| {
            let i = r.within(0, g.tasks() - 1);
            let (place, number) = r.of(&[(0, 0), (0, MAX_TIME + 1), (1, MAX_TIME + 1), (1, u32::MAX), (3, 0), (3, u32::MAX)]);
            g.set(5 * i as usize + place, number);
            Refused(1, 6, i as u64)
        }),
        forgery("board: charge over a task", "board charge", |r, g| {
            let i = r.within(0, g.tasks() - 1);
            let (row, charge) = (5 * i as usize, g.at(161) % 256);
            if charge == 0 {
                return NotHere;
            }
            g.set(row + 2, g.at(row).min(g.at(row + 3)).wrapping_sub(charge).wrapping_add(r.within(1, charge)));
            Refused(1, 17, i as u64)
        }),
        forgery("board: ticks of the frame", "board ticks", |r, g| {
            g.set(228, r.of(&[0, MAX_FRAME + 1, u32::MAX]));
            if g.at(227) == 0 { Nothing } else { Refused(2, 18, 17) }
        }),
        forgery("board: count of the windows", "board windows", |r, g| {
            g.set(229, r.of(&[0, 17, u32::MAX]));
            if g.at(227) == 0 { Nothing } else { Refused(2, 18, 16) }
        }),
        forgery("board: a window", "board window", |r, g| {
            let k = r.within(0, g.at(229).clamp(1, 16) - 1);
            g.set(231 + 2 * k as usize, r.of(&[0, MAX_FRAME + 1, u32::MAX]));
            if g.at(227) == 0 { Nothing } else { Refused(2, 18, k as u64) }
        }),
        forgery("board: a frame of zeros", "board frame", |r, g| {
            if g.at(227) != 0 {
                return NotHere;
            }
            (228..262).for_each(|place| g.set(place, 0));
            g.set(227, flag(r, true));
            Refused(2, 18, 17)
        }),
        // the list
        forgery("over 1,024 releases", "n", |r, g| {
            g.commit.asked.n = r.of(&[1025, 1026, 1 << 31, u32::MAX]);
            Refused(3, 10, 1024)
        }),
        forgery("a short column", "columns", |r, g| {
            let asked = &mut g.commit.asked;
            let n = asked.n as usize;
            if n == 0 || n > MAX_RELEASES {
                return NotHere;
            }
            let left = if r.once_in(2) { n - 1 } else { r.within(0, n as u32 - 1) as usize };
            match r.within(0, 2) {
                0 => asked.task.truncate(left),
                1 => asked.tick.truncate(left),
                _ => asked.cost.truncate(left),
            }
            Refused(4, 13, n as u64)
        }),
        forgery("a short board", "board length", |_, g| {
            // its last number is 0 there or not
            let mut row = g.live.slots.clone();
            row.truncate(BOARD_NUMBERS - 1);
            g.live.set(row);
            Refused(5, 13, BOARD_NUMBERS as u64)
        }),
        forgery("board: a kept jitter over J", "board kept", |r, g| {
            let i = r.within(0, g.tasks() - 1) as usize;
            g.set(163 + i, if r.once_in(3) { u32::MAX } else { g.at(5 * i + 1).wrapping_add(1) });
            Refused(6, 12, i as u64)
        }),
        forgery("a release of no task", "task", |r, g| {
            let Some(p) = g.release(r) else { return NotHere };
            let tasks = g.tasks();
            g.commit.asked.task[p] = no_task_of(r, tasks);
            Refused(7, 7, p as u64)
        }),
        forgery("a tick over the limit", "tick", |r, g| {
            let Some(p) = g.release(r) else { return NotHere };
            g.commit.asked.tick[p] = r.of(&[MAX_TICK + 1, 1 << 63, u64::MAX]);
            Refused(7, 8, p as u64)
        }),
        forgery("a tick that falls", "tick", |r, g| {
            let Some(p) = g.release(r) else { return NotHere };
            let before = if p == 0 { g.live.board().last } else { g.commit.asked.tick[p - 1] };
            if before == 0 {
                return NotHere;
            }
            g.commit.asked.tick[p] = if r.once_in(3) { r.tick(0, before - 1) } else { before - 1 };
            Refused(7, 8, p as u64)
        }),
        forgery("a release before the last commit", "tick", |_, g| {
            let last = g.live.board().last;
            if last == 0 || g.commit.asked.n == 0 || g.commit.asked.tick.is_empty() {
                return NotHere;
            }
            g.commit.asked.tick[0] = last - 1;
            Refused(7, 8, 0)
        }),
        forgery("a cost", "cost", |r, g| {
            let Some(p) = g.release(r) else { return NotHere };
            let e = g.live.sheet().task(g.commit.asked.task[p] as usize).e;
            g.commit.asked.cost[p] = r.of(&[0, e + 1, u32::MAX]);
            Refused(7, 9, p as u64)
        }),
        // the sheet in force is another than the one asked of
        forgery("board: another jitter", "board kept", |r, g| {
            let i = r.within(0, g.tasks() - 1) as usize;
            if g.at(5 * i + 1) >= MAX_TIME {
                return NotHere;
            }
            g.set(5 * i + 1, g.at(5 * i + 1) + 1);
            Refused(8, 19, 0)
        }),
        forgery("board: another mark", "board mark", |r, g| {
            let i = r.within(0, g.tasks() - 1) as usize;
            let low = g.at(5 * i + 4) != 0;
            g.set(5 * i + 4, flag(r, !low));
            Refused(8, 19, 0)
        }),
        forgery("board: a longer frame", "board ticks", |_, g| {
            if g.at(227) == 0 || !(1..MAX_FRAME).contains(&g.at(228)) {
                return NotHere;
            }
            g.set(228, g.at(228) + 1);
            Refused(8, 19, 0)
        }),
        forgery("board: no frame", "board frame", |_, g| {
            if g.at(227) == 0 {
                return NotHere;
            }
            g.set(227, 0);
            Refused(8, 19, 0)
        }),
        forgery("asked of: a number of a task", "sheet", |r, g| {
            let tasks = g.commit.asked.count.clamp(1, 32);
            let (place, number) = other_task_number(r, tasks, &g.commit.asked.numbers);
            g.of_sheet(place, number)
        }),
        forgery("asked of: a mark", "sheet", |r, g| {
            let i = r.within(0, g.commit.asked.count.clamp(1, 32) - 1) as usize;
            let low = g.commit.asked.numbers.get(5 * i + 4).map_or(false, |&mark| mark != 0);
            let mark = flag(r, !low);
            g.of_sheet(5 * i + 4, mark)
        }),
        forgery("asked of: another count", "count", |r, g| {
            let count = g.live.sheet().count as u32;
            g.commit.asked.count = r.of(&[count.wrapping_add(1), count.wrapping_sub(1), 0, 33, count.wrapping_add(256), u32::MAX]);
            if g.commit.asked.count == count { NotHere } else { Refused(8, 19, 0) }
        }),
        forgery("asked of: another charge", "charge", |r, g| {
            g.commit.asked.charge = g.commit.asked.charge.wrapping_add(r.of(&[1, 255, 128]));
            Refused(8, 19, 0)
        }),
        forgery("asked of: cut", "sheet", |r, g| {
            // the deadline of the last task is gone
            let deadline = 5 * g.commit.asked.count.clamp(1, 32) as usize - 2;
            let left = if r.once_in(2) { deadline } else { r.within(0, deadline as u32) as usize };
            g.commit.asked.numbers.truncate(left);
            Refused(8, 19, 0)
        }),
        forgery("asked of: no frame", "frame", |_, g| {
            if g.commit.asked.frame.is_empty() {
                return NotHere;
            }
            g.commit.asked.frame.clear();
            Refused(8, 19, 0)
        }),
        forgery("asked of: a frame", "frame", |r, g| {
            if !g.commit.asked.frame.is_empty() {
                return NotHere;
            }
            g.commit.asked.frame = r.of(&[&[10, 1, 0, 10][..], &[10_000, 2, 0, 1, 5, 5], &[1], &[0]]).to_vec();
            Refused(8, 19, 0)
        }),
        forgery("asked of: ticks of the frame", "frame", |r, g| {
            let ticks = g.commit.asked.frame.first().map_or(0, |&n| n);
            let other = r.of(&[ticks.wrapping_add(1), ticks.wrapping_sub(1), 0]);
            g.of_frame(0, other)
        }),
        forgery("asked of: count of the windows", "frame", |r, g| {
            let count = g.commit.asked.frame.get(1).map_or(0, |&n| n);
            let other = r.of(&[count.wrapping_add(1), count.wrapping_sub(1), u32::MAX]);
            g.of_frame(1, other)
        }),
        forgery("asked of: a window", "frame", |r, g| {
            let count = g.commit.asked.frame.get(1).map_or(1, |&n| n).clamp(1, 16);
            let place = 2 + r.within(0, 2 * count - 1) as usize;
            let other = g.commit.asked.frame.get(place).map_or(0, |&n| n).wrapping_add(r.of(&[1, u32::MAX]));
            g.of_frame(place, other)
        }),
        // the offer is none that an ask gives
        forgery("offer: a kept jitter raised", "offer", |r, g| {
            let place = 163 + r.within(0, g.offered() - 1) as usize;
            let kept = g.commit.offer.get(place).copied().unwrap_or(0);
            g.forge(place, kept.wrapping_add(1))
        }),
        forgery("offer: a kept jitter lowered", "offer", |r, g| {
            let place = 163 + r.within(0, g.offered() - 1) as usize;
            let kept = g.commit.offer.get(place).copied().unwrap_or(0);
            g.forge(place, kept.saturating_sub(1))
        }),
        forgery("offer: every jitter kept whole", "offer", |_, g| {
            let before = g.commit.offer.clone();
            for i in 0..g.offered() as usize {
                let j = before.get(5 * i + 1).copied().unwrap_or(0);
                g.forge(163 + i, j);
            }
            if g.commit.offer == before { NotHere } else { Refused(8, 19, 0) }
        }),
        forgery("offer: a worst value", "offer", |r, g| {
            let place = 195 + r.within(0, g.offered() - 1) as usize;
            let worst = g.commit.offer.get(place).copied().unwrap_or(0);
            let other = r.of(&[worst.wrapping_add(1), worst.saturating_sub(1), 0, worst ^ 1 << 31]);
            g.forge(place, other)
        }),
        forgery("offer: the other choice", "offer", |r, g| {
            let high_only = g.commit.offer.get(162).map_or(false, |&n| n != 0);
            let which = flag(r, !high_only);
            g.forge(162, which)
        }),
        forgery("offer: another count", "offer", |r, g| {
            let count = g.commit.offer.get(160).copied().unwrap_or(0);
            let other = r.of(&[count.wrapping_add(1), count.wrapping_sub(1), 0, 33, count.wrapping_add(256), u32::MAX]);
            g.forge(160, other)
        }),
        forgery("offer: another charge", "offer", |r, g| {
            let charge = g.commit.offer.get(161).copied().unwrap_or(0);
            let other = charge.wrapping_add(r.of(&[1, 255, 128]));
            g.forge(161, other)
        }),
        forgery("offer: the sheet in force", "offer", |_, g| {
            g.commit.offer = g.live.slots.iter().copied().take(OFFER_NUMBERS).collect();
            Refused(8, 19, 0)
        }),
        forgery("offer: no number", "offer", |r, g| {
            g.commit.offer.truncate(r.of(&[0, 5, 159, 160]));
            Refused(8, 19, 0)
        }),
        forgery("offer: a number of a task", "offer", |r, g| {
            let tasks = g.offered();
            let (place, number) = other_task_number(r, tasks, &g.commit.offer);
            if g.forge(place, number) == NotHere { NotHere } else { Unsaid }
        }),
        forgery("offer: a mark", "offer", |r, g| {
            let place = 5 * r.within(0, g.offered() - 1) as usize + 4;
            let low = g.commit.offer.get(place).map_or(false, |&n| n != 0);
            let mark = flag(r, !low);
            if g.forge(place, mark) == NotHere { NotHere } else { Unsaid }
        }),
        forgery("offer: two tasks changed about", "offer", |r, g| {
            let (i, j) = (r.within(0, g.offered() - 1) as usize, r.within(0, g.offered() - 1) as usize);
            if i == j || g.commit.offer.len() < OFFER_NUMBERS {
                return NotHere;
            }
            (0..5).for_each(|k| g.commit.offer.swap(5 * i + k, 5 * j + k));
            Unsaid
        }),
        forgery("offer: cut", "offer", |r, g| {
            g.commit.offer.truncate(r.within(0, OFFER_NUMBERS as u32) as usize);
            Unsaid
        }),
        // the tick
        forgery("a finish over the tick", "at", |_, g| {
            if g.finish == 0 {
                return NotHere;
            }
            g.commit.at = g.finish - 1;
            Refused(9, 20, 0)
        }),
        forgery("a tick before the last commit", "at", |r, g| {
            let last = g.live.board().last;
            if last == 0 {
                return NotHere;
            }
            g.commit.at = r.of(&[last - 1, last - 1, 0]);
            Refused(9, 20, 0)
        }),
        // what does not matter
        forgery("board: other numbers past the counts", "board other", |r, g| {
            if g.live.slots.len() >= BOARD_NUMBERS {
                with_other_numbers(r, &mut g.live);
            }
            Nothing
        }),
        forgery("board: worst values and which choice", "board other", |r, g| {
            for place in (195..227).chain([162]) {
                g.set(place, r.bits() as u32);
            }
            Nothing
        }),
        forgery("board: slots past it", "board length", |r, g| {
            let mut row = g.live.slots.clone();
            row.extend([r.bits() as u32, r.bits() as u32]);
            g.live.set(row);
            Nothing
        }),
        forgery("asked of: other numbers past the count", "sheet", |r, g| {
            let (first, numbers) = (5 * g.live.sheet().count.min(32), &mut g.commit.asked.numbers);
            numbers.resize(numbers.len().max(SHEET_NUMBERS + 5), 0);
            numbers[first..].iter_mut().for_each(|n| *n = odd_number(r));
            Nothing
        }),
        forgery("asked of: other windows past the count", "frame", |r, g| {
            let frame = &mut g.commit.asked.frame;
            if frame.len() < 2 {
                return NotHere;
            }
            let first = 2 + 2 * frame[1].min(16) as usize;
            frame.resize(frame.len().max(FRAME_NUMBERS + 2), 0);
            frame[first..].iter_mut().for_each(|n| *n = odd_number(r));
            Nothing
        }),
        forgery("offer: other numbers past the count", "offer", |r, g| {
            if g.commit.offer.len() < OFFER_NUMBERS {
                return NotHere;
            }
            other_numbers(r, &mut g.commit.offer);
            if r.once_in(2) {
                g.commit.offer.extend([r.bits() as u32; 40]);
            }
            Nothing
        }),
        forgery("offer: cut after its last number", "offer", |_, g| {
            let last = 195 + g.offered() as usize;
            g.commit.offer.truncate(last);
            Nothing
        }),
        forgery("columns longer than the list", "columns", |r, g| {
            let asked = &mut g.commit.asked;
            asked.task.push(r.bits() as u32);
            asked.tick.push(r.bits());
            asked.cost.push(r.bits() as u32);
            Nothing
        }),
    ]
}

/// Whether each change alone came up often enough, as it is stated.
pub fn forged_often(tally: &Tally, often: u64) -> bool {
    forgeries().iter().all(|f| tally.forged.get(f.name).map_or(false, |&n| n >= often))
}

/// So many commits that are accepted, each with every change alone and every two of them: what decides is stated beside each change, the
/// earlier of the checks where there are two.
pub fn pairs(r: &mut Random, tally: &mut Tally, boards: u32, ticks: &[u32]) {
    let all = forgeries();
    let mut made = 0;
    while made < boards {
        let tasks = r.of(&[1, 1, 2, 3, 4]);
        let kind = Kind::any(r, 6, ticks);
        let Some(mut live) = opened(r, tally, &kind, tasks) else {
            continue;
        };
        // up to two commits before
        for _ in 0..r.of(&[0, 1, 2]) {
            let n = r.of(&[0, 1, 5]);
            if let Some(offer) = offered(r, tally, &kind, &live) {
                let commit = fresh(r, &live, offer, n);
                live.commit(tally, &commit);
            }
        }
        let Some(offer) = offered(r, tally, &kind, &live) else {
            continue;
        };
        let n = r.of(&[0, 1, 2, 3, 6]);
        let commit = fresh(r, &live, offer, n);
        let board = live.board();
        let Ok(list) = reference::check_commit(&live.slots, commit.asked.n as usize, &commit.asked.reference_list()) else {
            continue;
        };
        let good = Good { finish: reference::last_finish(&board.plan, &list), live, commit };
        made += 1;
        for one in &all {
            decide(r, tally, &good, &[one]);
            for two in &all {
                decide(r, tally, &good, &[one, two]);
            }
        }
    }
}

/// A commit with these changes, against what is stated of them and against the reference.
fn decide(r: &mut Random, tally: &mut Tally, good: &Good, changes: &[&Forgery]) {
    let mut now = good.clone();
    let mut all = Vec::new();
    for change in changes {
        all.push((change.change)(r, &mut now));
    }
    if all.contains(&Decides::NotHere) {
        return;
    }
    let Some(expected) = now.live.commit(tally, &now.commit) else {
        return;
    };
    if all.contains(&Decides::Unsaid) {
        if let [one] = changes {
            *tally.forged.entry(one.name).or_insert(0) += 1;
        }
        return;
    }
    let rank = |d: &Decides| match *d {
        Decides::Refused(stage, number, place) => Some((stage, place_in(stage, place), number, place)),
        _ => None,
    };
    let mut refused: Vec<_> = all.iter().filter_map(rank).collect();
    refused.sort();
    // changes of the same may undo each other, and a frame that is taken away is not looked at; two at which 19 decides may together be what
    // an ask gives
    let framing = |c: &Forgery| matches!(c.touches, "board ticks" | "board windows" | "board window");
    let undone = changes.len() == 2
        && (changes[0].touches == changes[1].touches
            || changes[1].name == "board: no frame" && framing(changes[0])
            || refused.iter().all(|x| x.0 == 8) && refused.len() == 2);
    if !undone {
        let stated = refused.first().map_or(Ok(()), |&(_, _, number, place)| Err(Refusal { number, place }));
        let names: Vec<&str> = changes.iter().map(|c| c.name).collect();
        assert_eq!(expected, stated, "{:?} {:?} {}", names, good.live.slots, good.commit.show());
        if let [one] = changes {
            *tally.forged.entry(one.name).or_insert(0) += 1;
        }
    }
}

/// The order of the places of one stage: of tasks and releases as they stand, of a frame 17, 16, then the windows.
fn place_in(stage: u32, place: u64) -> u64 {
    match (stage, place) {
        (1 | 6 | 7, place) => place,
        (2, 17) => 0,
        (2, 16) => 1,
        (2, window) => 2 + window,
        _ => 0,
    }
}

/// What decides in openings and asks: each of these changes alone and every two of them, on sheets that are accepted.
pub fn ask_pairs(r: &mut Random, tally: &mut Tally, sheets: u32, ticks: &[u32]) {
    /// What is passed: the sheet, the new task, its place, and the slots for the answer.
    type Passed = (Case, Vec<u32>, u32, usize);
    // the stage of the check, and the change: its number and place; none where the change cannot be made here
    type Change = (u32, fn(&mut Random, &mut Passed) -> Option<(u32, u64)>);
    let held: [Change; 7] = [
        (0, |_, (case, ..)| {
            case.count = 0;
            Some((5, 0))
        }),
        (0, |r, (case, ..)| {
            case.count = r.of(&[33, 34, 288, u32::MAX]);
            Some((4, 32))
        }),
        (1, |r, (case, ..)| {
            let i = r.within(0, case.count.clamp(1, 32) - 1);
            let slot = case.numbers.get_mut(5 * i as usize + 3)?;
            *slot = r.of(&[0, MAX_TIME + 1, u32::MAX]);
            Some((6, i as u64))
        }),
        (1, |r, (case, ..)| {
            let (i, charge) = (r.within(0, case.count.clamp(1, 32) - 1), case.charge as u32);
            let row = case.numbers.get_mut(5 * i as usize..5 * i as usize + 5).filter(|_| charge > 0)?;
            row[2] = row[0].min(row[3]).wrapping_sub(charge).wrapping_add(r.within(1, charge));
            Some((17, i as u64))
        }),
        (2, |r, (case, ..)| {
            *case.frame.first_mut()? = r.of(&[0, MAX_FRAME + 1, u32::MAX]);
            Some((18, 17))
        }),
        (2, |r, (case, ..)| {
            *case.frame.get_mut(1)? = r.of(&[0, 17, u32::MAX]);
            Some((18, 16))
        }),
        (2, |r, (case, ..)| {
            let k = r.within(0, case.frame.get(1)?.clamp(&1, &16) - 1);
            *case.frame.get_mut(3 + 2 * k as usize)? = r.of(&[0, MAX_FRAME + 1, u32::MAX]);
            Some((18, k as u64))
        }),
    ];
    let opening: [Change; 2] = [
        (5, |r, (_, _, _, slots)| {
            *slots = r.of(&[0, 1, 226, 227, 263]);
            Some((13, BOARD_NUMBERS as u64))
        }),
        (6, |_, (case, ..)| {
            // a high task that is late whatever it keeps
            let row = case.numbers.get_mut(..5)?;
            (row[3], row[4]) = (row[2] + case.charge as u32, 0);
            Some((15, 0))
        }),
    ];
    let asking: [Change; 5] = [
        (3, |r, (case, _, place, _)| {
            *place = r.of(&[case.count.wrapping_add(1), case.count.wrapping_add(256), 1 << 31, u32::MAX]);
            if *place > case.count { Some((14, *place as u64)) } else { None }
        }),
        (4, |r, (_, task, place, _)| {
            let (k, number) = r.of(&[(0, 0), (0, MAX_TIME + 1), (1, MAX_TIME + 1), (2, 0), (3, 0), (3, u32::MAX)]);
            *task.get_mut(k)? = number;
            Some((6, *place as u64))
        }),
        (4, |r, (case, task, place, _)| {
            let charge = case.charge as u32;
            let row = task.get_mut(..5).filter(|row| charge > 0 && row[2] > 0)?;
            row[2] = row[0].min(row[3]).wrapping_sub(charge).wrapping_add(r.within(1, charge));
            Some((17, *place as u64))
        }),
        (5, |r, (_, _, _, slots)| {
            *slots = r.of(&[0, 1, 5, 160, 226]);
            Some((13, OFFER_NUMBERS as u64))
        }),
        (6, |_, (case, task, place, _)| {
            let row = task.get_mut(..5)?;
            (row[3], row[4]) = (row[2].saturating_add(case.charge as u32), 0);
            Some((15, *place as u64))
        }),
    ];
    for _ in 0..sheets {
        let tasks = r.of(&[1, 2, 3, 5]);
        let kind = Kind::any(r, 6, ticks);
        let Some(live) = opened(r, tally, &kind, tasks) else {
            continue;
        };
        let sheet = live.sheet();
        let Some(task) = (0..20).map(|_| kind.task(r)).find(|&task| {
            let given = reference::ask(&sheet, task, tasks, OFFER_NUMBERS, &mut Budget::of(STEPS));
            task.d > task.e + sheet.charge as u32 && given.map_or(false, |g| g.is_ok())
        }) else {
            continue;
        };
        let row = vec![task.p, task.j, task.e, task.d, task.low as u32];
        let place = r.within(0, tasks as u32);
        for (call, own) in [(OPEN, &opening[..]), (ASK, &asking[..])] {
            let all: Vec<&Change> = held.iter().chain(own).collect();
            for (one, two) in all.iter().flat_map(|&one| all.iter().map(move |&two| (one, two))) {
                let mut case = passed(r, &sheet);
                case.numbers.resize(case.numbers.len().max(SHEET_NUMBERS), 0);
                let mut now = (case, row.clone(), place, if call == OPEN { BOARD_NUMBERS } else { OFFER_NUMBERS });
                // the later check's change is made first, so that it does not undo that of the earlier one
                let (one, two) = if one.0 < two.0 { (two, one) } else { (one, two) };
                let (first, second) = ((one.1)(r, &mut now), (two.1)(r, &mut now));
                let (Some(first), Some(second)) = (first, second) else {
                    continue;
                };
                let ranked = [(one.0, first), (two.0, second)].map(|(stage, (number, place))| (stage, place_in(stage, place), number, place));
                let (_, _, number, place) = *ranked.iter().min().unwrap();
                // of two changes of the count or of one task's numbers the later may undo the earlier
                let stated = if one.0 == two.0 && one.0 != 2 { None } else { Some(Refusal { number, place }) };
                if call == OPEN {
                    let mut live = Live::any(r, now.3);
                    let given = reference::open_board(&now.0.sheet(), now.3, &mut Budget::of(STEPS));
                    assert!(stated.is_none() || given.map_or(true, |g| g.err() == stated), "{:?} {}", stated, now.0.show());
                    live.open(tally, &now.0);
                } else {
                    let at = |k: usize| now.1.get(k).copied().unwrap_or(0);
                    let new = Task { p: at(0), j: at(1), e: at(2), d: at(3), low: at(4) != 0 };
                    let given = reference::ask(&now.0.sheet(), new, now.2 as usize, now.3, &mut Budget::of(STEPS));
                    let same = stated.is_none() || given.map_or(true, |g| g.err() == stated);
                    assert!(same, "{:?} {:?} {}", stated, now.1, now.0.show());
                    ask(r, tally, &now.0, &now.1, now.2, now.3);
                }
            }
        }
    }
}

// ---- Rows, neighbours, full sheets, long lists -------------------------------------------------------------------------

/// Every number of the board, of the offer, of the sheet and of the frame asked of made another one, one at a time.
pub fn every_number(r: &mut Random, tally: &mut Tally, boards: u32, ticks: &[u32]) {
    for _ in 0..boards {
        let tasks = r.of(&[1, 2, 4]);
        let kind = Kind::any(r, 6, ticks);
        let Some(mut live) = opened(r, tally, &kind, tasks) else {
            continue;
        };
        for round in 0..2 {
            let Some(offer) = offered(r, tally, &kind, &live) else {
                continue;
            };
            let commit = fresh(r, &live, offer, 3);
            if round == 0 && r.once_in(2) {
                live.commit(tally, &commit);
                continue;
            }
            let others = |n: u32| [n.wrapping_add(1), n.wrapping_sub(1), n ^ 1 << 31, 0];
            for place in 0..BOARD_NUMBERS {
                for other in others(live.slots[place]) {
                    let mut row = live.slots.clone();
                    row[place] = other;
                    Live::of(row).commit(tally, &commit);
                }
            }
            for place in 0..OFFER_NUMBERS {
                for other in others(commit.offer[place]) {
                    let mut forged = commit.clone();
                    forged.offer[place] = other;
                    live.clone().commit(tally, &forged);
                }
            }
            for place in 0..commit.asked.numbers.len() {
                for other in others(commit.asked.numbers[place]) {
                    let mut forged = commit.clone();
                    forged.asked.numbers[place] = other;
                    live.clone().commit(tally, &forged);
                }
            }
            for place in 0..commit.asked.frame.len() {
                for other in others(commit.asked.frame[place]) {
                    let mut forged = commit.clone();
                    forged.asked.frame[place] = other;
                    live.clone().commit(tally, &forged);
                }
            }
        }
    }
}

/// Rows of every length: of the board, the offer, the sheet and the frame asked of in a commit; of all that an opening and an ask take.
pub fn rows(r: &mut Random, tally: &mut Tally, boards: u32, ticks: &[u32]) {
    for _ in 0..boards {
        let tasks = r.of(&[1, 2, 4]);
        let kind = Kind::any(r, 6, ticks);
        let Some(live) = opened(r, tally, &kind, tasks) else {
            continue;
        };
        let Some(offer) = offered(r, tally, &kind, &live) else {
            continue;
        };
        let commit = fresh(r, &live, offer, 2);
        let sheet = live.sheet();
        let cut = |row: &[u32], length: usize| row.iter().copied().chain([7; 3]).take(length).collect::<Vec<u32>>();
        for length in 0..=BOARD_NUMBERS + 2 {
            let mut shorter = Live::of(cut(&live.slots[..BOARD_NUMBERS], length));
            shorter.commit(tally, &commit);
            let mut shorter = Live::any(r, length);
            let case = passed(r, &sheet);
            shorter.open(tally, &case);
        }
        let task = kind.task(r);
        let row = [task.p, task.j, task.e, task.d, task.low as u32];
        let place = r.within(0, sheet.count as u32);
        for length in 0..=OFFER_NUMBERS + 2 {
            live.clone().commit(tally, &Commit { offer: cut(&commit.offer, length), ..commit.clone() });
            let case = passed(r, &sheet);
            ask(r, tally, &case, &row, place, length);
        }
        for length in 0..=commit.asked.numbers.len() + 2 {
            let case = Case { numbers: cut(&commit.asked.numbers, length), ..commit.asked.clone() };
            ask(r, tally, &case, &row, place, OFFER_NUMBERS);
            Live::any(r, BOARD_NUMBERS).open(tally, &case);
            live.clone().commit(tally, &Commit { asked: case, ..commit.clone() });
        }
        for length in 0..=commit.asked.frame.len() {
            let case = Case { frame: cut(&commit.asked.frame, length), ..commit.asked.clone() };
            ask(r, tally, &case, &row, place, OFFER_NUMBERS);
            Live::any(r, BOARD_NUMBERS).open(tally, &case);
            live.clone().commit(tally, &Commit { asked: case, ..commit.clone() });
        }
        for length in 0..=7 {
            let case = passed(r, &sheet);
            ask(r, tally, &case, &cut(&row, length), place, OFFER_NUMBERS);
        }
    }
}

/// Equal tasks: one more of them at every place gives one and the same offer, and another task at every place as many as there are places;
/// each is committed.
pub fn neighbours(r: &mut Random, tally: &mut Tally, boards: u32, ticks: &[u32]) {
    for _ in 0..boards {
        let kind = Kind::any(r, 6, ticks);
        let (tasks, task, other) = (r.within(1, 4) as usize, kind.task(r), kind.task(r));
        let sheet = Sheet::of(&vec![task; tasks]).charged(kind.charge).framed(kind.frame.clone());
        let mut live = Live::any(r, BOARD_NUMBERS);
        let case = passed(r, &sheet);
        if !live.open(tally, &case) {
            continue;
        }
        // in one number alone another: the mark, the deadline, the jitter
        let near = match r.within(0, 2) {
            0 => Task { low: !task.low, ..task },
            1 => Task { d: (task.d + 1).min(MAX_TIME), ..task },
            _ => Task { j: (task.j + 1).min(MAX_TIME), ..task },
        };
        let mut offers = Vec::new();
        for new in [task, near, other] {
            for place in 0..=tasks as u32 {
                let row = [new.p, new.j, new.e, new.d, new.low as u32];
                offers.extend(ask(r, tally, &case, &row, place, OFFER_NUMBERS));
            }
        }
        for offer in offers {
            let commit = fresh(r, &live, offer.clone(), 3);
            let mut after = live.clone();
            after.commit(tally, &commit);
            // and what was offered once more on the sheet that it gave
            let again = fresh(r, &after, offer, 1);
            after.commit(tally, &again);
        }
    }
}

/// Sheets of 30, 31 and 32 tasks: asks and commits up to 32, and what 32 tasks refuse; an offer of 33 tasks, of which the first 32 are held.
pub fn full_sheets(r: &mut Random, tally: &mut Tally, boards: u32, ticks: &[u32]) {
    for _ in 0..boards {
        let tasks = r.of(&[30, 31, 31, 32]);
        let kind = Kind::any(r, 33, ticks);
        let Some(mut live) = opened(r, tally, &kind, tasks) else {
            continue;
        };
        for _ in 0..8 {
            let count = live.sheet().count as u32;
            let place = r.of(&[0, count / 2, count, count, count + 1]);
            let case = passed(r, &live.sheet());
            let task = kind.task(r);
            let row = [task.p, task.j, r.of(&[task.e, task.e, task.e, 0]), task.d, task.low as u32];
            let slots = r.of(&[OFFER_NUMBERS, OFFER_NUMBERS, 226]);
            if let Some(offer) = ask(r, tally, &case, &row, place, slots) {
                let n = r.of(&[0, 2, 40]);
                let commit = fresh(r, &live, offer, n);
                live.commit(tally, &commit);
            }
        }
        if live.sheet().count == MAX_TASKS {
            let mut more: Vec<u32> = live.slots[..OFFER_NUMBERS].to_vec();
            more[160] = r.of(&[33, 33, 32, 31]);
            let commit = fresh(r, &live, more, 1);
            live.commit(tally, &commit);
        }
    }
}

/// Commits with these numbers of releases, at the last finish, a tick before it and later, one after the other on one board. The ticks begin
/// here.
pub fn long_lists(r: &mut Random, tally: &mut Tally, boards: u32, releases: &[usize], ticks: &[u32]) {
    for _ in 0..boards {
        let tasks = r.of(&[1, 3, 8, 24]);
        let kind = Kind::any(r, (tasks as u32 + 6).min(33), ticks);
        let Some(mut live) = opened(r, tally, &kind, tasks) else {
            continue;
        };
        let mut row = live.slots.clone();
        let start = if r.once_in(2) { 0 } else { r.of(&MIDDLE_TICKS).saturating_sub(r.tick(0, 100_000)) };
        (row[262], row[263]) = (start as u32, (start >> 32) as u32);
        live.set(row);
        for _ in 0..4 {
            let Some(offer) = offered(r, tally, &kind, &live) else {
                continue;
            };
            let n = r.of(releases);
            let mut commit = fresh(r, &live, offer, n.min(MAX_RELEASES));
            if n > MAX_RELEASES {
                commit.asked.n = n as u32;
            }
            let board = live.board();
            if let Ok(list) = reference::check_commit(&live.slots, commit.asked.n as usize, &commit.asked.reference_list()) {
                let finish = reference::last_finish(&board.plan, &list);
                live.commit(tally, &Commit { at: finish.wrapping_sub(1), ..commit.clone() });
                commit.at = if r.once_in(2) { finish.max(board.last) } else { commit.at };
            }
            live.commit(tally, &commit);
        }
    }
}

/// Commits at ticks around the last one and around the last finish, where the last one has each of these values, and releases around it.
pub fn edge_ticks(r: &mut Random, tally: &mut Tally, boards: u32, ticks: &[u32]) {
    let lasts = [
        0, 1, 2, 100, (1 << 32) - 1, 1 << 32, (1 << 32) + 5, 3 << 32, MAX_TICK - 1, MAX_TICK, MAX_TICK + 1, 1 << 63, u64::MAX - 1, u64::MAX,
    ];
    for _ in 0..boards {
        let kind = Kind::any(r, 6, ticks);
        let tasks = r.within(1, 3) as usize;
        let Some(live) = opened(r, tally, &kind, tasks) else {
            continue;
        };
        let Some(offer) = offered(r, tally, &kind, &live) else {
            continue;
        };
        for last in lasts {
            let mut row = live.slots.clone();
            (row[262], row[263]) = (last as u32, (last >> 32) as u32);
            for first in [last.wrapping_sub(1), last, last.wrapping_add(1), last & 0xffff_ffff, last ^ 1 << 32, MAX_TICK] {
                for n in [0, 1, 3] {
                    let mut board = Live { commits: live.commits, ..Live::of(row.clone()) };
                    let mut commit = fresh(r, &board, offer.clone(), 0);
                    let list: Vec<Release> = (0..n)
                        .map(|k| {
                            let task = r.within(0, tasks as u32 - 1);
                            Release { task, tick: first.saturating_add(k), cost: r.within(1, live.sheet().task(task as usize).e) }
                        })
                        .collect();
                    commit.set_list(&list);
                    let checked = reference::check_commit(&board.slots, list.len(), &commit.asked.reference_list());
                    let finish = checked.map_or(last, |list| reference::last_finish(&board.board().plan, &list));
                    let around = [last, finish].map(|t| [t.wrapping_sub(1), t, t.wrapping_add(1)]);
                    for at in around.concat().into_iter().chain([0, last ^ 1 << 32, u64::MAX]) {
                        board.clone().commit(tally, &Commit { at, ..commit.clone() });
                    }
                    // and one after it
                    commit.at = last.max(finish);
                    if board.commit(tally, &commit) == Some(Ok(())) {
                        if let Some(offer) = offered(r, tally, &kind, &board) {
                            let next = fresh(r, &board, offer, 1);
                            board.commit(tally, &next);
                        }
                    }
                }
            }
        }
    }
}

/// Boards that no call made: any numbers; zeros, ones; those of calls with a number changed, or with kept jitters that no choice made.
pub fn any_boards(r: &mut Random, tally: &mut Tally, cases: u32, ticks: &[u32]) {
    let kind = Kind::any(r, 6, ticks);
    let Some(mut live) = opened(r, tally, &kind, 3) else {
        return;
    };
    let Some(mut offer) = offered(r, tally, &kind, &live) else {
        return;
    };
    let mut kind = kind;
    for k in 0..cases {
        if k % 20 == 0 {
            let other = Kind::any(r, 6, ticks);
            let tasks = r.within(1, 5) as usize;
            if let Some(one) = opened(r, tally, &other, tasks) {
                if let Some(another) = offered(r, tally, &other, &one) {
                    (kind, live, offer) = (other, one, another);
                }
            }
        }
        let mut row = live.slots.clone();
        let style = r.within(0, 9);
        match style {
            0 => row.iter_mut().for_each(|n| *n = odd_number(r)),
            1 => row.fill(r.of(&[0, 1, u32::MAX])),
            2 => {
                row.iter_mut().for_each(|n| *n = odd_number(r));
                row[160] = r.of(&[0, 1, 2, 32, 33, 1 << 16, u32::MAX]);
            }
            3 | 4 => row[r.within(0, BOARD_NUMBERS as u32 - 1) as usize] = odd_number(r),
            5 => {
                let place = r.within(0, BOARD_NUMBERS as u32 - 1) as usize;
                row[place] = if r.once_in(2) { row[place].wrapping_add(1) } else { row[place].wrapping_sub(1) };
            }
            // a sound sheet that does not fit, or is another, with any kept jitters
            _ => {
                let sheet = if r.once_in(2) { live.sheet() } else { kind.sheet(r, 3) };
                let kept = kept_for(r, &sheet);
                let worst = numbers(r, sheet.count).held;
                let chosen = reference::Chosen { kept, worst, high_only: r.once_in(2) };
                let last = r.of(&[0, 0, 1, 1 << 32, MAX_TICK]);
                row[..BOARD_NUMBERS].copy_from_slice(&reference::row_of_board(&Board { plan: Offer { sheet, chosen }, last }));
            }
        }
        let mut board = Live::of(row);
        let sheet = board.sheet();
        let sound = reference::check_framed(&sheet).is_ok();
        let taken = if sound && r.once_in(2) { ask_for(r, tally, &kind, &board).unwrap_or(offer.clone()) } else { offer.clone() };
        let n = if sound && r.once_in(2) { 3 } else { 0 };
        let mut commit = fresh(r, if sound { &board } else { &live }, taken, n);
        if !sound && r.once_in(2) {
            commit.asked = Case { n: 0, ..Case::sound(r, &live.sheet(), &[]) };
        }
        if r.once_in(4) {
            damage(r, &mut board, &mut commit);
        }
        board.commit(tally, &commit);
        // what the board holds as the sheet of an ask
        let tasks = board.slots[..SHEET_NUMBERS.min(board.slots.len())].to_vec();
        let case = Case { numbers: tasks, count: sheet.count as u32, ..commit.asked.clone() };
        let task = task_row(r, &kind, &live.sheet());
        let place = r.within(0, 6);
        ask(r, tally, &case, &task, place, OFFER_NUMBERS);
    }
}

/// Boards, offers and commits that were worked out by hand.
pub fn by_hand(r: &mut Random, tally: &mut Tally) {
    for (sheet, steps) in sums::boards() {
        let mut live = Live::any(r, BOARD_NUMBERS + 1);
        let case = passed(r, &sheet);
        assert!(live.open(tally, &case));
        for (task, place, list, at, refused) in steps {
            let case = passed(r, &live.sheet());
            let row = [task.p, task.j, task.e, task.d, task.low as u32];
            let offer = ask(r, tally, &case, &row, place as u32, OFFER_NUMBERS).unwrap();
            let mut commit = Commit { asked: case, offer, at };
            commit.set_list(&list);
            assert_eq!(live.commit(tally, &commit), Some(refused.map_or(Ok(()), Err)));
        }
    }
}

/// The reference alone: whether some ask gives an offer, with nothing passed over: at every place it is asked for the task that stands there,
/// whatever the offer is.
pub fn check_reference(r: &mut Random, cases: u32) {
    let (mut given, mut none) = (0, 0);
    for _ in 0..cases {
        let kind = Kind::any(r, 6, &[0, 0, 7]);
        let tasks = r.within(1, 4) as usize;
        let sheet = kind.sheet(r, tasks);
        let (task, place) = (if r.once_in(3) { r.of(&sheet.tasks) } else { kind.task(r) }, r.within(0, tasks as u32) as usize);
        let Ok(Ok(offer)) = reference::ask(&sheet, task, place, OFFER_NUMBERS, &mut Budget::of(STEPS)) else {
            continue;
        };
        let mut row = reference::row_of_offer(&offer);
        assert_eq!(reference::offer_in(&row, sheet.frame.clone()), offer);
        if r.once_in(2) {
            let (number, entry) = (r.within(0, 5 * tasks as u32 + 4), r.within(0, tasks as u32));
            let k = r.of(&[number, 160, 161, 162, 163 + entry, 195 + entry]) as usize;
            row[k] = row[k].wrapping_add(r.of(&[1, u32::MAX]));
        }
        let forged = reference::offer_in(&row, sheet.frame.clone());
        let some = (0..=tasks).any(|place| {
            let asked = reference::ask(&sheet, forged.sheet.task(place), place, OFFER_NUMBERS, &mut Budget::of(STEPS));
            asked.map_or(false, |a| a == Ok(forged.clone()))
        });
        let found = reference::some_ask_gives(&sheet, &forged, &mut Budget::of(4 * STEPS));
        assert_eq!(found.ok(), Some(some));
        (given, none) = (given + some as u32, none + !some as u32);
    }
    assert!(given > cases / 4 && none > cases / 8);
}
