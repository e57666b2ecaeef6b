//! The sheets whose verdicts and choices are timed.

use crate::reference::{Frame, Sheet, Task};

/// n tasks with a load of about 95 in 100 whatever n is, full jitters of half a period and deadlines that all tasks meet.
pub fn full_sheet(n: u32) -> Sheet {
    let tasks: Vec<Task> = (0..n)
        .map(|i| {
            let p = 3_000 + 211 * ((i * 7) % 32);
            Task::high(p, p / 2, p * 95 / (100 * n), 1_000_000)
        })
        .collect();
    Sheet::of(&tasks)
}

/// The charge of the rows that have one.
pub const CHARGE: u8 = 5;

/// The charge taken off each cost: the sheet has the same load with it, so that a row with a charge has the walk, the run and the size
/// of the row without it.
pub fn charged(sheet: &Sheet) -> Sheet {
    let tasks: Vec<Task> = sheet.tasks.iter().map(|t| Task { e: t.e - CHARGE as u32, ..*t }).collect();
    Sheet::of(&tasks).charged(CHARGE)
}

/// The full sheet with a deadline at which no K fits its lowest task, which is low: the ordinary choice goes over all tasks and ends in 15,
/// and the choice of the high tasks goes over all others. With `more`, every second task is low too.
pub fn high_only_sheet(more: bool) -> Sheet {
    let mut sheet = full_sheet(32);
    sheet.tasks[31].d = sheet.tasks[31].e;
    let lows: Vec<bool> = (0..32).map(|i| i == 31 || (more && i % 2 == 1)).collect();
    sheet.marked(&lows)
}

/// A sheet of 32 tasks of which the lowest walks over many q.
pub fn long_walk() -> (Sheet, Vec<u32>) {
    let mut tasks: Vec<Task> = (0..31).map(|_| Task::high(32, 31, 1, 1_000_000)).collect();
    tasks.push(Task::high(40, 1, 1, 1_000_000));
    let kept = (0..32).map(|i| if i == 31 { 1 } else { i }).collect();
    (Sheet::of(&tasks), kept)
}

/// Sheets of 32 tasks that load the processor whole or more, so that the verdict of the lowest walks over q up to the horizon or to a
/// late job: the period of the 31 above, the kept jitter that each has more than the one above it, and the period of the lowest.
pub const LONGEST: [(u32, u32, u32); 3] = [(62, 0, 2), (40, 1, 4), (32, 1, 32)];

pub fn longest((above, step, lowest): (u32, u32, u32)) -> (Sheet, Vec<u32>) {
    let mut tasks: Vec<Task> = (0..31).map(|_| Task::high(above, 31 * step, 1, 1_000_000)).collect();
    tasks.push(Task::high(lowest, 1, 1, 1_000_000));
    let kept = (0..32).map(|i| if i == 31 { 1 } else { step * i }).collect();
    (Sheet::of(&tasks), kept)
}

/// A sheet of 32 tasks with a load of about 5 in 100: the verdict of the lowest tries one t.
pub fn light_sheet() -> Sheet {
    let tasks: Vec<Task> = full_sheet(32).tasks.iter().map(|t| Task { e: (t.e / 19).max(1), ..*t }).collect();
    Sheet::of(&tasks)
}

/// A sheet of 32 tasks with a load of about 95 in 100, of which every fourth has a period below 12.
pub fn short_periods() -> Sheet {
    let tasks: Vec<Task> = (full_sheet(32).tasks.iter().enumerate())
        .map(|(i, t)| if i % 4 == 3 { Task::high(11, 10, 1, 1_000_000) } else { Task { e: t.e / 4, ..*t } })
        .collect();
    Sheet::of(&tasks)
}

/// A frame of so many ticks with so many windows, which take three of every four ticks.
pub fn three_of_four(ticks: u32, windows: u32) -> Frame {
    let part = ticks / windows;
    Frame::of(ticks, &(0..windows).map(|k| (part * k, part * 3 / 4)).collect::<Vec<_>>())
}

/// 32 tasks with a load of about 70 in 100, so that they fit in such a frame.
pub fn seventy_sheet() -> Sheet {
    let tasks: Vec<Task> = full_sheet(32).tasks.iter().map(|t| Task { e: t.e * 14 / 19, ..*t }).collect();
    Sheet::of(&tasks)
}
