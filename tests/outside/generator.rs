//! Seeded cases: sheets, frames, kept jitters, lists of releases, files and texts, sound and damaged; finished jobs and lent windows.

use crate::reference::{add_release, add_task, encode, finish_ticks_by_job, text_of, Budget, Frame, Release, Sheet, Supply, Task, Windows};
use crate::reference::{MAX_SHORT_TICK, MAX_TICK, MAX_TIME, MAX_WINDOWS, WINDOW_JOBS, WINDOW_SLOTS};

/// SplitMix64.
pub struct Random {
    state: u64,
}

impl Random {
    pub fn seeded(seed: u64) -> Random {
        Random { state: seed }
    }
    pub fn bits(&mut self) -> u64 {
        self.state = self.state.wrapping_add(0x9e37_79b9_7f4a_7c15);
        let mut z = self.state;
        z = (z ^ (z >> 30)).wrapping_mul(0xbf58_476d_1ce4_e5b9);
        z = (z ^ (z >> 27)).wrapping_mul(0x94d0_49bb_1331_11eb);
        z ^ (z >> 31)
    }
    /// A number from low to high, both included.
    pub fn within(&mut self, low: u32, high: u32) -> u32 {
        low + (self.bits() % (high as u64 - low as u64 + 1)) as u32
    }
    /// The same for a tick.
    pub fn tick(&mut self, low: u64, high: u64) -> u64 {
        low + self.bits() % (high - low + 1)
    }
    /// True once in n times.
    pub fn once_in(&mut self, n: u32) -> bool {
        self.within(1, n) == 1
    }
    pub fn of<T: Copy>(&mut self, all: &[T]) -> T {
        all[self.within(0, all.len() as u32 - 1) as usize]
    }
}

/// Values at the limits of a period, jitter or deadline, and beyond.
pub const BOUNDARY: [u32; 9] = [0, 1, 2, 3, 999_999, 1_000_000, 1_000_001, 1 << 31, u32::MAX];

/// Ticks at the largest one of kind 2, at what four bytes hold, at the limit, and beyond.
pub const EDGE_TICKS: [u64; 10] = [
    MAX_SHORT_TICK - 1, MAX_SHORT_TICK, MAX_SHORT_TICK + 1, (1 << 32) - 1, 1 << 32, MAX_TICK - 1, MAX_TICK, MAX_TICK + 1, 1 << 63,
    u64::MAX,
];

/// Ticks that a list may lie around: both sides of each are allowed, but for the last.
pub const MIDDLE_TICKS: [u64; 6] = [MAX_SHORT_TICK, MAX_SHORT_TICK + 1, 1 << 32, 3 << 32, 1 << 49, MAX_TICK];

/// Charges at the limits.
pub const EDGE_CHARGES: [u8; 5] = [0, 1, 2, 254, 255];

/// The numbers of a task as the archive takes them, P, J, E, D and its mark, and those of a sheet that it writes.
pub const TASK_NUMBERS: usize = 5;
pub const SHEET_NUMBERS: usize = 32 * TASK_NUMBERS;

/// Numbers that mark a task as low: any but 0, some of which have no bit in their low byte or half.
pub const LOW_MARKS: [u32; 8] = [1, 2, 255, 256, 1 << 16, 1 << 31, u32::MAX - 1, u32::MAX];

fn small_task(r: &mut Random) -> Task {
    let p = r.within(1, 24);
    let d = if r.once_in(3) { r.within(1, 24) } else { r.within(1, 80) };
    let e = if r.once_in(4) { r.within(1, p.min(d)) } else { r.within(1, p.min(d).min(3)) };
    let j = match r.within(0, 3) {
        0 => 0,
        1 => r.within(0, p),
        2 => r.within(0, 3 * p),
        _ => r.within(0, 60),
    };
    Task::high(p, j, e, d)
}

/// One to five tasks with small numbers.
pub fn small_sheet(r: &mut Random) -> Sheet {
    let n = r.within(1, 5) as usize;
    sheet_for(r, n)
}

/// So many tasks with small numbers.
pub fn sheet_for(r: &mut Random, tasks: usize) -> Sheet {
    let all: Vec<Task> = (0..tasks).map(|_| small_task(r)).collect();
    Sheet::of(&all)
}

/// The same with this charge, and with periods and deadlines that hold it.
pub fn roomy_sheet_for(r: &mut Random, tasks: usize, charge: u8) -> Sheet {
    let mut sheet = sheet_for(r, tasks).charged(charge);
    for t in sheet.tasks.iter_mut() {
        *t = Task { p: t.p + charge as u32, d: t.d + charge as u32, ..*t };
    }
    sheet
}

/// Tasks whose costs add up to a chosen share of the processor; periods up to `top`.
pub fn loaded_sheet(r: &mut Random, n: u32, top: u32) -> Sheet {
    let per_mille = r.within(200, 1_050) as u64;
    let tasks: Vec<Task> = (0..n)
        .map(|i| {
            let p = r.within(top / 20 + 1, top);
            let e = ((p as u64 * per_mille / (n as u64 * 1_000)) as u32).max(1);
            let d = r.within(e.max(p / 2), (p as u64 * (i as u64 + 2)).min(1_000_000) as u32);
            let j = if r.once_in(2) { r.within(0, p / 2) } else { r.within(0, (3 * p).min(1_000_000)) };
            Task::high(p, j, e, d)
        })
        .collect();
    Sheet::of(&tasks)
}

/// The sheet with marks: every task high, every task low, or each of them either.
pub fn with_marks(r: &mut Random, sheet: Sheet) -> Sheet {
    let style = r.within(0, 5);
    let lows: Vec<bool> = (0..sheet.tasks.len())
        .map(|_| match style {
            0 => false,
            1 => true,
            2 => r.once_in(5),
            _ => r.once_in(2),
        })
        .collect();
    sheet.marked(&lows)
}

/// The largest charge that every task of a sound sheet holds.
pub fn room(sheet: &Sheet) -> u8 {
    sheet.tasks.iter().map(|t| t.p.min(t.d).saturating_sub(t.e)).min().unwrap_or(0).min(255) as u8
}

/// The sheet with some charge or none: at the limits, at the largest that every task holds and one over it, and any. Where the sheet is
/// small most of these are refused with 17.
pub fn with_charge(r: &mut Random, sheet: Sheet) -> Sheet {
    let room = room(&sheet);
    let charge = match r.within(0, 7) {
        0..=2 => 0,
        3 => r.of(&EDGE_CHARGES),
        4 => room,
        5 => room.saturating_add(1),
        6 => r.within(0, room as u32) as u8,
        _ => r.bits() as u8,
    };
    sheet.charged(charge)
}

/// The sheet with a charge that every task holds, and none where there is no room for one.
pub fn with_fitting_charge(r: &mut Random, sheet: Sheet) -> Sheet {
    let room = room(&sheet);
    let charge = if r.once_in(2) { r.of(&[1, 2, 254, 255, room]).min(room) } else { r.within(0, room as u32) as u8 };
    sheet.charged(charge)
}

/// A part of each cost taken for a charge: the sheet has the load that it had, and none is refused that was not.
pub fn with_part_charged(r: &mut Random, sheet: Sheet) -> Sheet {
    let most = sheet.tasks.iter().map(|t| t.e - 1).min().unwrap_or(0).min(255);
    let charge = if r.once_in(3) { most } else { r.within(0, most) };
    let tasks: Vec<Task> = sheet.tasks.iter().map(|t| Task { e: t.e - charge, ..*t }).collect();
    Sheet::of(&tasks).charged(charge as u8)
}

/// The sheet with a charge in one of these ways, mostly one that is not refused.
pub fn any_charge(r: &mut Random, sheet: Sheet) -> Sheet {
    match r.within(0, 5) {
        0 => with_charge(r, sheet),
        1 | 2 => with_fitting_charge(r, sheet),
        _ => with_part_charged(r, sheet),
    }
}

/// The sheet without a charge in which each cost has it in it.
pub fn charge_in_costs(sheet: &Sheet) -> Sheet {
    let tasks: Vec<Task> = sheet.tasks.iter().map(|t| Task { e: t.e + sheet.charge as u32, ..*t }).collect();
    Sheet::of(&tasks)
}

/// The same for releases.
pub fn with_costs(list: &[Release], charge: u8) -> Vec<Release> {
    list.iter().map(|x| Release { cost: x.cost + charge as u32, ..*x }).collect()
}

/// Each number a boundary value or a small one; most of these are refused.
pub fn boundary_sheet(r: &mut Random) -> Sheet {
    let n = r.of(&[1, 2, 3, 31, 32]);
    let tasks: Vec<Task> = (0..n)
        .map(|_| {
            let mut t = small_task(r);
            match r.within(0, 11) {
                0 => t.p = r.of(&BOUNDARY),
                1 => t.j = r.of(&BOUNDARY),
                2 => t.e = r.of(&BOUNDARY),
                3 => t.d = r.of(&BOUNDARY),
                4 => t = Task::high(1_000_000, r.of(&[0, 1, 1_000_000]), r.of(&[1, 999_999, 1_000_000]), 1_000_000),
                5 => t.e = t.p.min(t.d),
                6 => t.e = t.p.min(t.d) + 1,
                _ => {}
            }
            t
        })
        .collect();
    Sheet::of(&tasks)
}

/// The most sets of kept jitters of a sheet of which all are tried.
const MOST_SETS: u32 = 300;

/// Jitters of so many tasks, some of them 0, of which there are at most MOST_SETS sets of kept jitters. Any task may have the largest.
fn few_jitters(r: &mut Random, tasks: u32) -> Vec<u32> {
    let mut left = MOST_SETS;
    let mut all = Vec::new();
    for _ in 0..tasks {
        let most = r.of(&[0, 2, 4, 9, 30]).min(left - 1);
        let j = r.within(0, most);
        left /= j + 1;
        all.push(j);
    }
    all.rotate_left(r.within(0, tasks - 1) as usize);
    all
}

/// Periods, and what a job takes with the charge, of so many tasks with so many of our ticks in each 840: short periods, and a part of our
/// ticks that is taken in all, from little to more than there are.
fn short_works(r: &mut Random, tasks: u32, least: u32, ours: u32) -> Vec<(u32, u32)> {
    let (per_cent, stretch) = (r.of(&[30, 60, 80, 95, 110]), 840 / ours);
    let work = |p: u32| (p * ours / 840 * per_cent / 100 / tasks).clamp(least, p);
    (0..tasks).map(|_| r.within(least, 6 * least * tasks * stretch)).map(|p| (p, work(p))).collect()
}

/// The same with one long period of whole frames, of which the tasks take all of our ticks but so many, so that a walk reaches the horizon
/// after a few q. Now and then a task more is below them.
fn long_works(r: &mut Random, tasks: u32, least: u32, ours: u32, slack: u32) -> Vec<(u32, u32)> {
    let frames = r.within(480, 1_170);
    let (p, all) = (840 * frames, ours * frames - slack);
    let full = if tasks > 1 && r.once_in(3) { tasks - 1 } else { tasks };
    let mut works: Vec<(u32, u32)> = (0..tasks).map(|i| (p, if i < full { all / full } else { least })).collect();
    works[0].1 += all % full;
    works
}

/// A task below the others of a sheet, with a deadline that it just meets with up to so much of its jitter kept, or just misses, where the
/// tasks above are kept at some number; and any deadline where there is no such.
fn add_edge_task(r: &mut Random, sheet: &mut Sheet, (p, work): (u32, u32), j: u32, most: u32) {
    sheet.tasks.push(Task::high(p, j, work - sheet.charge as u32, MAX_TIME));
    sheet.count += 1;
    let i = sheet.count - 1;
    let kept = kept_for(r, sheet);
    let d = match Windows::of(sheet, &kept, i, &mut Budget::of(5_000)).get(0) {
        Ok(Some(w)) if !r.once_in(8) => w as u32 + 1 + j - r.within(0, most.min(j)) - r.once_in(8) as u32,
        _ => r.within(work, 4 * work + p + j),
    };
    sheet.tasks[i].d = d.clamp(work, MAX_TIME);
}

/// One to four high tasks of which all sets of kept jitters can be tried, with a charge of up to 3 or none, and a frame of up to 8 ticks
/// or none. Periods are short or long.
pub fn sheet_of_few_sets(r: &mut Random) -> Sheet {
    let (n, charge, ticks) = (r.within(1, 4), r.of(&[0, 0, 1, 2, 3]), r.within(2, 8));
    let pattern = r.within(1, (1 << ticks) - 1);
    let frame = if r.once_in(2) { None } else { Some(pattern_frame(ticks, pattern)) };
    let (ours, least) = (Supply::of(&frame).before(840) as u32, charge as u32 + 1);
    let mut sheet = Sheet::of(&[]).charged(charge).framed(frame);
    let (long, slack) = (r.once_in(3), r.within(0, 3));
    let works = if long { long_works(r, n, least, ours, slack) } else { short_works(r, n, least, ours) };
    for (work, j) in works.into_iter().zip(few_jitters(r, n)) {
        add_edge_task(r, &mut sheet, work, j, if long { slack } else { j });
    }
    sheet
}

/// The numbers of a sheet as the archive writes them: a mark is 0 for high and 1 for low.
pub fn numbers_of(sheet: &Sheet) -> Vec<u32> {
    sheet.tasks.iter().flat_map(|t| [t.p, t.j, t.e, t.d, t.low as u32]).collect()
}

/// The same as the archive takes them: the mark of a low task is any number but 0.
pub fn given_numbers_of(r: &mut Random, sheet: &Sheet) -> Vec<u32> {
    let mut numbers = numbers_of(sheet);
    for row in numbers.chunks_mut(TASK_NUMBERS).filter(|row| row[4] != 0) {
        row[4] = if r.once_in(2) { r.of(&LOW_MARKS) } else { 1 };
    }
    numbers
}

/// The sheet that a slice of numbers, a count and a charge give: numbers past the slice's end count as 0.
pub fn sheet_of(numbers: &[u32], count: u32, charge: u8) -> Sheet {
    let at = |i: usize| numbers.get(i).copied().unwrap_or(0);
    let tasks = (0..count.min(32) as usize)
        .map(|i| {
            let [p, j, e, d, mark] = [0, 1, 2, 3, 4].map(|k| at(TASK_NUMBERS * i + k));
            Task::high(p, j, e, d).marked(mark != 0)
        })
        .collect();
    Sheet { count: count as usize, tasks, charge, frame: None }
}

// ---- Frames ------------------------------------------------------------------------------------------------------------

/// The numbers of a frame of 16 windows as the archive takes them: ticks, count, and the first tick and the length of each window.
pub const FRAME_NUMBERS: usize = 2 + 2 * MAX_WINDOWS;

/// Numbers at the limits of a frame's ticks, count and windows, and beyond.
pub const FRAME_EDGES: [u32; 14] =
    [0, 1, 2, 15, 16, 17, 9_999, 10_000, 10_001, 1 << 31, (1 << 31) + 1, u32::MAX - 9_999, u32::MAX - 1, u32::MAX];

/// The numbers of a frame up to its last window; none where there is no frame.
pub fn frame_numbers_of(frame: &Option<Frame>) -> Vec<u32> {
    frame.as_ref().map_or(Vec::new(), |f| {
        [f.ticks, f.count as u32].into_iter().chain(f.windows.iter().flat_map(|&(first, length)| [first, length])).collect()
    })
}

/// The same as they may be given: cut after the last window, or with any numbers past it, also past those of 16 windows.
pub fn given_frame_of(r: &mut Random, frame: &Option<Frame>) -> Vec<u32> {
    let mut row = frame_numbers_of(frame);
    if row.is_empty() {
        return row;
    }
    let length = r.of(&[row.len(), row.len() + 1, FRAME_NUMBERS, FRAME_NUMBERS, FRAME_NUMBERS + 3]);
    while row.len() < length {
        row.push(if r.once_in(3) { r.of(&FRAME_EDGES) } else { r.bits() as u32 });
    }
    row
}

/// The frame that a row of numbers gives: none where there is none, and numbers past the end count as 0.
pub fn frame_of(row: &[u32]) -> Option<Frame> {
    let at = |i: usize| row.get(i).copied().unwrap_or(0);
    let windows = (0..MAX_WINDOWS).map(|k| (at(2 + 2 * k), at(3 + 2 * k))).collect();
    if row.is_empty() { None } else { Some(Frame { ticks: at(0), count: at(1) as usize, windows }) }
}

/// The frame of so many ticks whose ours are those of a pattern, tick 0 in its lowest bit. The pattern has some.
pub fn pattern_frame(ticks: u32, pattern: u32) -> Frame {
    let ours = |t: u32| t < ticks && pattern >> t & 1 == 1;
    let firsts = (0..ticks).filter(|&t| ours(t) && (t == 0 || !ours(t - 1)));
    let windows: Vec<(u32, u32)> = firsts.map(|t| (t, (t..).take_while(|&u| ours(u)).count() as u32)).collect();
    Frame::of(ticks, &windows)
}

/// Every frame of so many ticks.
pub fn all_frames(ticks: u32) -> impl Iterator<Item = Frame> {
    (1..1 << ticks).map(move |pattern| pattern_frame(ticks, pattern))
}

/// A frame of up to so many ticks with up to so many windows, sound: some windows or gaps are of one tick, some start at 0 or end with the
/// frame.
pub fn frame_for(r: &mut Random, most: u32, windows: usize) -> Frame {
    let ticks = if r.once_in(2) { most } else { r.within(1, most) };
    let count = r.within(1, windows.min((ticks as usize + 1) / 2) as u32);
    // where windows begin and end
    let mut cuts: Vec<u32> = Vec::new();
    while cuts.len() < 2 * count as usize {
        let cut = match r.within(0, 7) {
            0 => 0,
            1 => ticks,
            2 | 3 => cuts.last().map_or(0, |c| c + 1),
            _ => r.within(0, ticks),
        };
        if cut <= ticks && !cuts.contains(&cut) {
            cuts.push(cut);
        }
    }
    cuts.sort();
    Frame::of(ticks, &cuts.chunks(2).map(|c| (c[0], c[1] - c[0])).collect::<Vec<_>>())
}

/// A frame that is all window.
pub fn all_window(ticks: u32) -> Frame {
    Frame::of(ticks, &[(0, ticks)])
}

/// Kept jitters for each task of a sheet, from 0 to J.
pub fn kept_for(r: &mut Random, sheet: &Sheet) -> Vec<u32> {
    let style = r.within(0, 3);
    sheet
        .tasks
        .iter()
        .map(|t| match style {
            0 => t.j,
            1 => 0,
            _ => r.within(0, t.j),
        })
        .collect()
}

/// A list that passes the checks; ticks rise by up to `step`.
pub fn list_for(r: &mut Random, sheet: &Sheet, n: usize, step: u32) -> Vec<Release> {
    let mut tick = 0;
    (0..n)
        .map(|_| {
            if !r.once_in(3) {
                tick = (tick + r.within(0, step) as u64).min(MAX_TICK);
            }
            let task = r.within(0, sheet.count as u32 - 1);
            let e = sheet.task(task as usize).e;
            let cost = if r.once_in(2) { e } else { r.within(1, e) };
            Release { task, tick, cost }
        })
        .collect()
}

/// A legal list: each release lies at least d_J(k) after every earlier one of its task, k places before.
pub fn legal_list_for(r: &mut Random, sheet: &Sheet, n: usize) -> Vec<Release> {
    let mut all: Vec<Release> = Vec::new();
    let mut ticks: Vec<Vec<i64>> = vec![Vec::new(); sheet.count];
    let mut now = 0i64;
    for _ in 0..n {
        let i = r.within(0, sheet.count as u32 - 1) as usize;
        let t = sheet.task(i);
        let m = ticks[i].len();
        let least = (0..m).map(|a| ticks[i][a] + ((m - a) as i64 * t.p as i64 - t.j as i64).max(0)).max().unwrap_or(0);
        let tick = least.max(now) + if r.once_in(2) { 0 } else { r.within(0, t.p) as i64 };
        if tick > MAX_TICK as i64 {
            break;
        }
        now = tick;
        ticks[i].push(tick);
        all.push(Release { task: i as u32, tick: tick as u64, cost: r.within(1, t.e) });
    }
    all
}

/// How much later a list has to be so that some release of it has this tick; the last one, where it is the limit.
pub fn way_to(r: &mut Random, list: &[Release], tick: u64) -> u64 {
    let n = list.len();
    if n == 0 {
        return 0;
    }
    let p = if tick == MAX_TICK { n - 1 } else { r.within(0, n as u32 - 1) as usize };
    tick.saturating_sub(list[p].tick)
}

/// The same releases, each as much later.
pub fn moved(list: &[Release], by: u64) -> Vec<Release> {
    list.iter().map(|x| Release { tick: x.tick + by, ..*x }).collect()
}

/// One number of a list changed, so that most lists are refused with 7, 8 or 9.
pub fn damage_list(r: &mut Random, sheet: &Sheet, list: &mut [Release]) {
    if list.is_empty() {
        return;
    }
    let p = r.within(0, list.len() as u32 - 1) as usize;
    match r.within(0, 5) {
        0 => list[p].task = r.of(&[sheet.count as u32, sheet.count as u32 + 1, 32, 255, 256, u32::MAX]),
        1 => list[p].tick = if r.once_in(4) { r.of(&[0, 1]) } else { r.of(&EDGE_TICKS) },
        2 => list[p].tick = list[p].tick.wrapping_sub(1),
        3 => list[p].cost = 0,
        4 => list[p].cost = sheet.task(list[p].task as usize).e + 1,
        _ => list[p].cost = u32::MAX,
    }
}

/// A sound file, with ticks from 0 on.
pub fn file_for(r: &mut Random, charge: u8, tasks: usize, releases: usize) -> Vec<u8> {
    let sheet = roomy_sheet_for(r, tasks, charge);
    let sheet = with_marks(r, sheet);
    let list = list_for(r, &sheet, releases, 9);
    encode(&sheet, &list)
}

/// A sound file with ticks around this one, or up to it where it is the limit.
pub fn late_file_for(r: &mut Random, charge: u8, tasks: usize, releases: usize, tick: u64) -> Vec<u8> {
    let sheet = roomy_sheet_for(r, tasks, charge);
    let sheet = with_marks(r, sheet);
    late_file_of(r, &sheet, releases, tick)
}

/// The same of this sheet.
pub fn late_file_of(r: &mut Random, sheet: &Sheet, releases: usize, tick: u64) -> Vec<u8> {
    let list = list_for(r, sheet, releases, 9);
    let by = way_to(r, &list, tick);
    encode(sheet, &moved(&list, by))
}

/// Records in any order, with numbers at and beyond the limits.
pub fn random_file(r: &mut Random) -> Vec<u8> {
    let mut file = Vec::new();
    let mut tick = if r.once_in(2) { 0 } else { r.of(&MIDDLE_TICKS) - 20 };
    if r.once_in(2) {
        let charge = if r.once_in(4) { r.of(&EDGE_CHARGES) } else { r.within(0, 4) as u8 };
        file.extend_from_slice(&[5, charge]);
    }
    for _ in 0..r.within(0, 12) {
        match r.within(0, 9) {
            0..=3 => {
                let mut t = small_task(r);
                if r.once_in(8) {
                    t.e = r.of(&BOUNDARY);
                }
                if r.once_in(8) {
                    t.p = r.of(&BOUNDARY);
                }
                t.low = r.once_in(2);
                add_task(&mut file, t);
                if t.low && r.once_in(12) {
                    *file.last_mut().unwrap() = r.within(1, 255) as u8;
                }
            }
            4..=7 => {
                let next = tick.saturating_add(r.tick(0, 9));
                tick = if r.once_in(12) { r.of(&EDGE_TICKS) } else if r.once_in(24) { 0 } else { next };
                let short = (tick <= MAX_SHORT_TICK) != r.once_in(12);
                let task = if r.once_in(12) { r.within(0, 255) } else { r.within(0, 2) };
                let cost = r.within(0, 3);
                add_release(&mut file, if short { 2 } else { 4 }, Release { task, tick, cost });
            }
            8 if r.once_in(3) => file.extend_from_slice(&[5, r.within(0, 3) as u8]),
            8 => file.push(3),
            _ => file.push(r.within(0, 7) as u8),
        }
    }
    if r.once_in(2) {
        file.push(3);
    }
    file
}

// ---- Lists of a chosen form --------------------------------------------------------------------------------------------

/// A charge for such lists: none in two of five cases.
pub fn form_charge(r: &mut Random) -> u8 {
    r.of(&[0, 0, 1, 3, 255])
}

/// Tasks of any cost up to e, and of one period that a job of cost e and the charge take whole, below 978. With full jitters kept
/// nothing is held back in 1,024 releases, since 1,023 periods are below that jitter. With 0 kept, jobs of a task that are released
/// together are ready P ticks apart.
fn open_sheet(n: u32, e: u32, charge: u8) -> Sheet {
    Sheet::of(&vec![Task::high(e + charge as u32, MAX_TIME, e, MAX_TIME); n as usize]).charged(charge)
}

/// Bursts: many jobs at one tick, then a gap.
fn bursts(r: &mut Random, n: usize, charge: u8) -> (Sheet, Vec<Release>) {
    let (tasks, p, gap) = (r.of(&[1, 3, 32]), r.of(&[8, 60, 500]), r.of(&[1, 10, 300, 4_000]));
    let mut tick = 0;
    let list = (0..n)
        .map(|_| {
            if r.once_in(n as u32 / 3 + 1) {
                tick += r.within(1, gap) as u64;
            }
            Release { task: r.within(0, tasks - 1), tick, cost: r.within(1, 8) }
        })
        .collect();
    (open_sheet(tasks, p, charge), list)
}

/// Chains of preemption: from the lowest task up, each job is released while the one below it has work left.
fn chains(r: &mut Random, n: usize, charge: u8) -> (Sheet, Vec<Release>) {
    let (tasks, step, gap) = (r.of(&[2, 5, 32]), r.within(1, 3), r.of(&[1, 40, 3_000]));
    let mut tick = 0;
    let list = (0..n as u32)
        .map(|k| {
            if k > 0 {
                tick += if k % tasks == 0 { r.within(1, gap) } else { step } as u64;
            }
            Release { task: tasks - 1 - k % tasks, tick, cost: r.within(step + 1, 9) }
        })
        .collect();
    (open_sheet(tasks, 60, charge), list)
}

/// Equal ready ticks of several tasks: all released at 0, so that the shapers give them ready ticks P apart, or task after task at
/// multiples of P.
fn equal_ticks(r: &mut Random, n: usize, charge: u8) -> (Sheet, Vec<Release>) {
    let (tasks, p, at_once) = (r.of(&[2, 7, 32]), r.of(&[4, 30, 250]), r.once_in(2));
    let list = (0..n as u32)
        .map(|k| {
            let tick = if at_once { 0 } else { k / tasks * (p + charge as u32) } as u64;
            Release { task: k % tasks, tick, cost: r.within(1, p.min(5)) }
        })
        .collect();
    (open_sheet(tasks, p, charge), list)
}

/// Each job alone, with idle ticks before it: with full jitters kept every start and every finish is a tick of its own.
fn jobs_apart(r: &mut Random, n: usize, charge: u8) -> (Sheet, Vec<Release>) {
    let (tasks, p, gap) = (r.of(&[1, 4, 32]), r.of(&[3, 20]), r.of(&[1, 2, 50, 1_000]));
    let mut tick = r.within(0, gap) as u64;
    let list = (0..n)
        .map(|_| {
            let one = Release { task: r.within(0, tasks - 1), tick, cost: r.within(1, p) };
            tick += (one.cost + charge as u32 + r.within(1, gap)) as u64;
            one
        })
        .collect();
    (open_sheet(tasks, p, charge), list)
}

/// Jobs that start in the tick in which the one before is finished, some a tick sooner or later.
fn jobs_touching(r: &mut Random, n: usize, charge: u8) -> (Sheet, Vec<Release>) {
    let (tasks, p) = (r.of(&[1, 2, 32]), r.of(&[2, 9, 300]));
    let mut tick = r.within(0, 3) as u64;
    let list = (0..n)
        .map(|_| {
            let one = Release { task: r.within(0, tasks - 1), tick, cost: r.within(1, p) };
            tick += (one.cost + charge as u32 + r.of(&[1, 1, 1, 1, 0, 2]) - 1) as u64;
            one
        })
        .collect();
    (open_sheet(tasks, p, charge), list)
}

/// Up to 40 jobs, each of which starts at a finish that the list has without it, a tick sooner or a tick later.
fn jobs_meeting(r: &mut Random, n: usize, charge: u8) -> (Sheet, Vec<Release>) {
    let (tasks, p) = (r.of(&[2, 3, 8]), r.of(&[4, 15]));
    let mut list = vec![Release { task: tasks - 1, tick: 0, cost: r.within(1, p) }];
    while list.len() < n.min(40) {
        let ready: Vec<i64> = list.iter().map(|x| x.tick as i64).collect();
        let finish = r.of(&finish_ticks_by_job(charge, &list, &ready)) as u64;
        let before = list[list.len() - 1].tick;
        let tick = (finish + r.of(&[1, 1, 0, 2]) - 2).max(before);
        list.push(Release { task: r.within(0, tasks - 1), tick, cost: r.within(1, p) });
    }
    (open_sheet(tasks, p, charge), list)
}

/// A sheet with this charge and n releases, or up to 40 where so stated, of each form.
pub const FORMS: [fn(&mut Random, usize, u8) -> (Sheet, Vec<Release>); 6] =
    [bursts, chains, equal_ticks, jobs_apart, jobs_touching, jobs_meeting];

/// A list with ticks that mostly rise by a little and now and then by much, up to the limit.
pub fn gapped_list_for(r: &mut Random, sheet: &Sheet, n: usize) -> Vec<Release> {
    let little = r.of(&[0, 3, 200, 100_000]);
    let much = r.of(&[1_000, 1_000_000, 100_000_000, MAX_SHORT_TICK, 5_000_000_000, 1_000_000_000_000, MAX_TICK]);
    let every = r.of(&[1, 4, 40]);
    let mut tick = 0;
    (0..n)
        .map(|_| {
            let rise = if r.once_in(every) { r.tick(0, much) } else { r.tick(0, little) };
            tick = (tick + rise).min(MAX_TICK);
            let task = r.within(0, sheet.count as u32 - 1);
            let e = sheet.task(task as usize).e;
            Release { task, tick, cost: if r.once_in(2) { e } else { r.within(1, e) } }
        })
        .collect()
}

// ---- Texts -------------------------------------------------------------------------------------------------------------

/// Bytes that a damaged text may have in some place: of other forms, of neighbours of the digits, and digits.
pub const ODD_BYTES: [u8; 20] = [
    b'\r', b' ', b'\t', b',', b'+', b'-', b'0', b'9', 0, 127, 128, 255, b'\n', b':', b'/', b'1', b'.', b';', b'"', b'e',
];

/// Tasks at the limits.
const EDGE_TASKS: [Task; 5] = [
    Task::high(1, 0, 1, 1),
    Task::high(1_000_000, 1_000_000, 1_000_000, 1_000_000),
    Task::high(1_000_000, 0, 1, 1),
    Task::high(999_999, 999_999, 999_999, 1_000_000),
    Task::high(10, 1_000_000, 10, 999_999),
];

/// Tasks within the limits, some at them.
pub fn tasks_for(r: &mut Random, n: usize) -> Vec<Task> {
    (0..n).map(|_| if r.once_in(4) { r.of(&EDGE_TASKS) } else { small_task(r) }).collect()
}

/// A sound text.
pub fn text_for(r: &mut Random, lines: usize) -> Vec<u8> {
    text_of(&tasks_for(r, lines))
}

/// A byte changed, put in before, taken away or doubled, at each place and at the end; and the text cut at each place.
pub fn damaged_texts(text: &[u8]) -> Vec<Vec<u8>> {
    let mut all = Vec::new();
    for at in 0..=text.len() {
        let (before, after) = text.split_at(at);
        let rest = after.get(1..).unwrap_or(&[]);
        all.push(before.to_vec());
        all.push([before, rest].concat());
        all.push([before, after.get(..1).unwrap_or(&[]), after].concat());
        for odd in ODD_BYTES {
            all.push([before, &[odd], rest].concat());
            all.push([before, &[odd], after].concat());
        }
    }
    all
}

/// Line ends of other forms, and empty lines: in all lines, and in each alone.
pub fn other_line_ends(text: &[u8]) -> Vec<Vec<u8>> {
    let ends: [&[u8]; 7] = [b"\r\n", b"\n\r", b"\r", b"\n\n", b" \n", b",\n", b""];
    let lines: Vec<&[u8]> = text.split_inclusive(|&b| b == b'\n').collect();
    let mut all = Vec::new();
    for end in ends {
        for which in 0..=lines.len() {
            let ended = lines.iter().enumerate().flat_map(|(n, line)| {
                let bare = &line[..line.len() - 1];
                if which == lines.len() || which == n { [bare, end] } else { [bare, b"\n"] }
            });
            all.push(ended.collect::<Vec<_>>().concat());
        }
    }
    for blank in [&b"\n"[..], b"\r\n", b" \n", b"\t\n"] {
        for at in 0..=lines.len() {
            all.push([&lines[..at].concat(), blank, &lines[at..].concat()].concat());
        }
    }
    all
}

/// Numbers as digits: at the limits, at the widths of machine numbers and past them by a number that is allowed, of 100 and of
/// 5,000 digits, some of which end in an allowed number that 64 bits would be left with; and forms that are no number.
pub fn digits_at_limits() -> Vec<String> {
    let mut all: Vec<String> = ["", "00", "01", "-1", "+1", "1 ", " 1", "1.0", "1e3", "0x1"].iter().map(|s| s.to_string()).collect();
    for n in [0u128, 1, 2, 9, 10, 999_999, 1_000_000, 1_000_001, 1_000_009, 9_999_999, 10_000_000, 10_000_010] {
        all.push(n.to_string());
    }
    for bits in [31, 32, 33, 63, 64, 65, 127] {
        all.push(((1u128 << bits) - 1).to_string());
        for more in [0, 1, 2, 6, 1_000_000] {
            all.push(((1u128 << bits) + more).to_string());
        }
    }
    for zeros in [18, 19, 20, 63, 99, 4_999] {
        let tail = |end: &str| format!("1{}{}", "0".repeat(zeros - end.len()), end);
        all.extend([tail(""), tail("1"), tail("6"), "9".repeat(zeros + 1), "0".repeat(zeros + 1), format!("0{}", tail(""))]);
    }
    all
}

/// Each of these digits in each field of a line that is the first, a middle or the last one.
pub fn texts_with_digits(digits: &str) -> Vec<Vec<u8>> {
    let mut all = Vec::new();
    for field in 0..4 {
        for (before, after) in [(0, 0), (0, 2), (2, 1), (31, 0), (32, 0), (32, 1)] {
            let mut fields = ["20", "3", "1", "30"];
            fields[field] = digits;
            let line = format!("{}\n", fields.join(","));
            all.push(["6,5,2,6\n".repeat(before), line, "8,7,2,8\n".repeat(after)].concat().into_bytes());
        }
    }
    all
}

/// Lines with some fault, or none: of the form, of the range, of a number that is too long, and of two kinds at once.
pub const ODD_LINES: [&str; 14] = [
    "6,5,2,6\n", "6,5,2\n", "6,5,2,6,1\n", "\n", "6,5,2,06\n", "6,5,2,6\r\n", "6,5,7,6\n", "0,0,0,0\n", "6,1000001,2,6\n",
    "6,5,2,100000000000000000000000000000000000006\n", "0,5,2,-6\n", "1000001,5,2,6 \n", "6,5,2,6", "",
];

/// Texts of some 30 to 35 lines, the last of which have such faults.
pub fn texts_at_line_limit() -> Vec<Vec<u8>> {
    let mut all = Vec::new();
    for sound in 29..=33 {
        for a in ODD_LINES {
            for b in ODD_LINES {
                all.push(["6,5,2,6\n".repeat(sound).as_str(), a, b].concat().into_bytes());
                all.push(["6,5,2,6\n".repeat(sound - 1).as_str(), a, "8,7,2,8\n", b].concat().into_bytes());
            }
        }
    }
    all
}

/// Digits, commas and line feeds in any order, mostly in the order of a line.
pub fn random_text(r: &mut Random) -> Vec<u8> {
    let mut text = Vec::new();
    for _ in 0..r.within(0, 6) {
        if r.once_in(8) {
            text.extend_from_slice(r.of(&ODD_LINES).as_bytes());
            continue;
        }
        for field in 0..4 {
            let n = r.of(&[0, 1, 5, 9, 10, 99, 1_000, 999_999, 1_000_000, 1_000_001, u32::MAX]);
            text.extend_from_slice(if r.once_in(3) { n } else { r.within(1, 12) }.to_string().as_bytes());
            text.push(if r.once_in(40) { r.of(&ODD_BYTES) } else if field < 3 { b',' } else { b'\n' });
        }
    }
    text
}

// ---- The last 256 jobs -------------------------------------------------------------------------------------------------

/// Numbers of tasks and counts of jobs in a window that no call made, at the limits and beyond; the low half of some is small.
pub const HELD_TASKS: [u64; 10] = [0, 1, 2, 31, 32, 33, 1 << 32, (1 << 32) + 3, 1 << 63, u64::MAX];
pub const HELD_COUNTS: [u64; 15] =
    [0, 1, 2, 254, 255, 256, 257, 510, 511, 512, 513, 1 << 32, (1 << 32) + 5, 1 << 63, u64::MAX];

/// A task that a sheet of so many tasks does not have; the low byte or half of some is that of one that it has.
pub fn no_task_of(r: &mut Random, tasks: u32) -> u32 {
    r.of(&[tasks, tasks + 1, tasks.max(32), 256 + tasks - 1, (1 << 16) + tasks - 1, 1 << 31, u32::MAX])
}

/// A sound sheet of so many tasks with a charge that they hold, or none, and marks. Some deadlines are at the limits.
pub fn watched_sheet(r: &mut Random, tasks: usize) -> Sheet {
    let sheet = if r.once_in(2) { sheet_for(r, tasks) } else { Sheet::of(&tasks_for(r, tasks)) };
    let sheet = with_fitting_charge(r, sheet);
    with_marks(r, sheet)
}

/// Responses of the jobs of a run: at the edges, around the deadline; and so that the largest leaves the last 256 jobs time and again: few
/// that are much later than the others, some of them equally late, and responses that fall, three equal ones after each other.
#[derive(Clone, Copy)]
pub enum Responses {
    Edges,
    Near,
    FewLate,
    Falling,
}

pub const RESPONSES: [Responses; 4] = [Responses::Edges, Responses::Near, Responses::FewLate, Responses::Falling];

impl Responses {
    /// That of the n-th job, of a task with this deadline.
    pub fn next(self, r: &mut Random, n: u64, deadline: u64) -> u64 {
        let edges = [0, 1, deadline.wrapping_sub(1), deadline, deadline.wrapping_add(1), u64::MAX];
        match self {
            Responses::Edges => r.of(&edges),
            Responses::Near => deadline.saturating_add(r.tick(0, 6)).saturating_sub(3),
            Responses::FewLate if r.once_in(100) => r.of(&[deadline.saturating_add(9), 1 << 32, 1 << 63, u64::MAX - 1, u64::MAX]),
            Responses::FewLate => r.of(&edges[..4]),
            Responses::Falling => (1 << 33) - n / 3,
        }
    }
}

/// So many slots of a window that no call made: any numbers. Its jobs are mostly of the tasks that it has, and some of others: of the
/// first that it does not have, and of a task in the low half alone.
pub fn any_window(r: &mut Random, slots: usize, tasks: u64, count: u64) -> Vec<u64> {
    let mut window: Vec<u64> = (0..slots.max(WINDOW_SLOTS)).map(|_| r.bits()).collect();
    (window[0], window[1]) = (tasks, count);
    let (few, style) = (tasks.clamp(1, 4), r.of(&RESPONSES));
    for deadline in &mut window[2..34] {
        *deadline = match r.within(0, 4) {
            0 => r.of(&[0, 1, (1 << 32) - 1, 1 << 32, 1 << 63, u64::MAX - 1, u64::MAX]),
            _ => r.tick(1, 1_000_000),
        };
    }
    for place in 0..WINDOW_JOBS {
        let task = r.tick(0, few - 1);
        window[34 + place] = match r.within(0, 9) {
            0 => r.of(&[tasks, tasks.wrapping_add(1), 31, 32, 33, u64::MAX]),
            1 => r.of(&[task + (1 << 32), task + (1 << 63)]),
            2 => r.tick(0, tasks.saturating_sub(1)),
            _ => task,
        };
        window[290 + place] = style.next(r, place as u64, window[2 + task as usize]);
    }
    window.truncate(slots);
    window
}
