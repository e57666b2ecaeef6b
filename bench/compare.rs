//! Times verdict, choice, both runs, read and write of this archive and of an earlier one, whose functions were renamed, in one run. Each has
//! its own declarations and its own rows of a sheet. Both must give the same, but for what only this one has: the marks, all of which are
//! high, which of the two choices it is, and the evaluations of a verdict where the earlier one has none. No call has a frame.
//! With `four_numbers` the earlier one is of before R-9: a task has four numbers in a row, and a choice no answer. With `frameless` it is of
//! before R-10: no call takes a frame.

#[path = "../tests/outside/generator.rs"]
#[allow(dead_code)]
mod generator;
#[path = "../tests/outside/reference.rs"]
#[allow(dead_code)]
mod reference;
#[allow(dead_code)]
mod sheets;
mod timing;

use generator::{list_for, numbers_of, Random, SHEET_NUMBERS, TASK_NUMBERS};
use reference::{encode, Release, Sheet, Task, MAX_TICK};
use sheets::{full_sheet, light_sheet, long_walk, longest, short_periods, LONGEST};
use std::hint::black_box;
use timing::medians;

/// The calls of an archive that take the same in each: those of this one are declared in include/nolkrada.h.
macro_rules! archive {
    ($read:ident, $write:ident) => {
        extern "C" {
            fn $read(
                _: *const u8, _: usize, _: *mut u32, _: usize, _: *mut u32, _: usize, _: *mut u64, _: usize, _: *mut u32, _: usize,
                _: *mut u64, _: usize,
            ) -> u64;
            fn $write(
                _: *const u32, _: usize, _: u32, _: u8, _: u32, _: *const u32, _: usize, _: *const u64, _: usize, _: *const u32,
                _: usize, _: *mut u8, _: usize, _: *mut u64, _: usize,
            ) -> u64;
        }
    };
}

archive!(nolkrada_read, nolkrada_write);
archive!(earlier_read, earlier_write);

/// The calls that take a frame from R-10 on: an array and its length after the charge.
macro_rules! framed {
    ($verdict:ident, $choice:ident, $run:ident, $jump:ident) => {
        extern "C" {
            fn $verdict(
                _: *const u32, _: usize, _: u32, _: u8, _: *const u32, _: usize, _: u32, _: *const u32, _: usize, _: *mut u64, _: usize,
            ) -> u64;
            fn $choice(
                _: *const u32, _: usize, _: u32, _: u8, _: *const u32, _: usize, _: *mut u32, _: usize, _: *mut u32, _: usize,
                _: *mut u64, _: usize,
            ) -> u64;
            fn $run(
                _: *const u32, _: usize, _: u32, _: u8, _: *const u32, _: usize, _: *const u32, _: usize, _: u32, _: *const u32,
                _: usize, _: *const u64, _: usize, _: *const u32, _: usize, _: *mut u64, _: usize, _: *mut u64, _: usize,
            ) -> u64;
            fn $jump(
                _: *const u32, _: usize, _: u32, _: u8, _: *const u32, _: usize, _: *const u32, _: usize, _: u32, _: *const u32,
                _: usize, _: *const u64, _: usize, _: *const u32, _: usize, _: *mut u64, _: usize, _: *mut u64, _: usize, _: *mut u64,
                _: usize,
            ) -> u64;
        }
    };
}

framed!(nolkrada_verdict, nolkrada_choice, nolkrada_run, nolkrada_jump);
#[cfg(not(frameless))]
framed!(earlier_verdict, earlier_choice, earlier_run, earlier_jump);

#[cfg(frameless)]
extern "C" {
    fn earlier_verdict(_: *const u32, _: usize, _: u32, _: u8, _: u32, _: *const u32, _: usize, _: *mut u64, _: usize) -> u64;
    #[cfg(four_numbers)]
    fn earlier_choice(_: *const u32, _: usize, _: u32, _: u8, _: *mut u32, _: usize, _: *mut u32, _: usize) -> u64;
    #[cfg(not(four_numbers))]
    fn earlier_choice(
        _: *const u32, _: usize, _: u32, _: u8, _: *mut u32, _: usize, _: *mut u32, _: usize, _: *mut u64, _: usize,
    ) -> u64;
    fn earlier_run(
        _: *const u32, _: usize, _: u32, _: u8, _: *const u32, _: usize, _: u32, _: *const u32, _: usize, _: *const u64, _: usize,
        _: *const u32, _: usize, _: *mut u64, _: usize, _: *mut u64, _: usize,
    ) -> u64;
    fn earlier_jump(
        _: *const u32, _: usize, _: u32, _: u8, _: *const u32, _: usize, _: u32, _: *const u32, _: usize, _: *const u64, _: usize,
        _: *const u32, _: usize, _: *mut u64, _: usize, _: *mut u64, _: usize, _: *mut u64, _: usize,
    ) -> u64;
}

/// How many numbers of each task the earlier archive takes, and how many of a sheet it writes.
const EARLIER_NUMBERS: usize = if cfg!(four_numbers) { 4 } else { TASK_NUMBERS };
const EARLIER_SHEET: usize = 32 * EARLIER_NUMBERS;

/// The words lent for a verdict. An archive of before R-8 answers in three of them and leaves the last one.
const WORDS: usize = 4;
const LEFT: u64 = u64::MAX;

#[derive(Clone, Copy)]
enum Archive {
    Earlier,
    Now,
}

use Archive::{Earlier, Now};

impl Archive {
    /// A sheet as this archive takes it.
    fn numbers(self, sheet: &Sheet) -> Vec<u32> {
        let width = match self {
            Earlier => EARLIER_NUMBERS,
            Now => TASK_NUMBERS,
        };
        numbers_of(sheet).chunks(TASK_NUMBERS).flat_map(|row| row[..width].to_vec()).collect()
    }

    /// Code and answer.
    fn verdict(self, numbers: &[u32], sheet: &Sheet, task: u32, kept: &[u32]) -> (u64, [u64; WORDS]) {
        let mut a = [LEFT; WORDS];
        let (rows, length, count, charge) = (numbers.as_ptr(), numbers.len(), sheet.count as u32, sheet.charge);
        let (keep, keeps, words) = (kept.as_ptr(), kept.len(), a.as_mut_ptr());
        let code = unsafe {
            match self {
                #[cfg(frameless)]
                Earlier => earlier_verdict(rows, length, count, charge, task, keep, keeps, words, WORDS),
                #[cfg(not(frameless))]
                Earlier => earlier_verdict(rows, length, count, charge, rows, 0, task, keep, keeps, words, WORDS),
                Now => nolkrada_verdict(rows, length, count, charge, rows, 0, task, keep, keeps, words, WORDS),
            }
        };
        (code, a)
    }

    /// Code, kept jitters and largest R. No task is low, so that the choice is the ordinary one.
    fn choice(self, numbers: &[u32], sheet: &Sheet) -> (u64, [u32; 32], [u32; 32]) {
        let (mut k, mut w) = ([0u32; 32], [0u32; 32]);
        let (rows, length, count, charge) = (numbers.as_ptr(), numbers.len(), sheet.count as u32, sheet.charge);
        let mut which = [0u64; 1];
        let (keep, worst, words) = (k.as_mut_ptr(), w.as_mut_ptr(), which.as_mut_ptr());
        let code = unsafe {
            match self {
                #[cfg(four_numbers)]
                Earlier => earlier_choice(rows, length, count, charge, keep, 32, worst, 32),
                #[cfg(all(frameless, not(four_numbers)))]
                Earlier => earlier_choice(rows, length, count, charge, keep, 32, worst, 32, words, 1),
                #[cfg(not(frameless))]
                Earlier => earlier_choice(rows, length, count, charge, rows, 0, keep, 32, worst, 32, words, 1),
                Now => nolkrada_choice(rows, length, count, charge, rows, 0, keep, 32, worst, 32, words, 1),
            }
        };
        assert_eq!(which, [0]);
        (code, k, w)
    }

    /// Code of the ticking run, from these columns with nothing kept, into the ticks of another.
    fn run(self, numbers: &[u32], sheet: &Sheet, from: &Columns, to: &mut Columns) -> u64 {
        let (rows, length, count, charge, n) = (numbers.as_ptr(), numbers.len(), sheet.count as u32, sheet.charge, from.n as u32);
        let (keep, task, tick, cost) = (NONE.as_ptr(), from.task.as_ptr(), from.tick.as_ptr(), from.cost.as_ptr());
        let (ready, finish) = (to.ready.as_mut_ptr(), to.tick.as_mut_ptr());
        unsafe {
            match self {
                #[cfg(frameless)]
                Earlier => earlier_run(rows, length, count, charge, keep, 32, n, task, 1024, tick, 1024, cost, 1024, ready, 1024, finish, 1024),
                #[cfg(not(frameless))]
                Earlier => {
                    earlier_run(rows, length, count, charge, rows, 0, keep, 32, n, task, 1024, tick, 1024, cost, 1024, ready, 1024, finish, 1024)
                }
                Now => nolkrada_run(rows, length, count, charge, rows, 0, keep, 32, n, task, 1024, tick, 1024, cost, 1024, ready, 1024, finish, 1024),
            }
        }
    }

    /// Code and stops of the run that jumps, in the same way.
    fn jump(self, numbers: &[u32], sheet: &Sheet, from: &Columns, to: &mut Columns) -> (u64, u64) {
        let (rows, length, count, charge, n) = (numbers.as_ptr(), numbers.len(), sheet.count as u32, sheet.charge, from.n as u32);
        let (keep, task, tick, cost) = (NONE.as_ptr(), from.task.as_ptr(), from.tick.as_ptr(), from.cost.as_ptr());
        let (ready, finish) = (to.ready.as_mut_ptr(), to.tick.as_mut_ptr());
        let mut stops = [0u64; 1];
        let s = stops.as_mut_ptr();
        let code = unsafe {
            match self {
                #[cfg(frameless)]
                Earlier => {
                    earlier_jump(rows, length, count, charge, keep, 32, n, task, 1024, tick, 1024, cost, 1024, ready, 1024, finish, 1024, s, 1)
                }
                #[cfg(not(frameless))]
                Earlier => earlier_jump(
                    rows, length, count, charge, rows, 0, keep, 32, n, task, 1024, tick, 1024, cost, 1024, ready, 1024, finish, 1024, s, 1,
                ),
                Now => nolkrada_jump(
                    rows, length, count, charge, rows, 0, keep, 32, n, task, 1024, tick, 1024, cost, 1024, ready, 1024, finish, 1024, s, 1,
                ),
            }
        };
        (code, stops[0])
    }

    /// Code, counts and charge, into these columns.
    fn read(self, file: &[u8], to: &mut Columns) -> (u64, [u64; 3]) {
        let mut a = [0u64; 3];
        let (bytes, length) = (file.as_ptr(), file.len());
        let (sheet, task, tick, cost) = (to.sheet.as_mut_ptr(), to.task.as_mut_ptr(), to.tick.as_mut_ptr(), to.cost.as_mut_ptr());
        let code = unsafe {
            match self {
                Earlier => {
                    earlier_read(bytes, length, sheet, EARLIER_SHEET, task, 1024, tick, 1024, cost, 1024, a.as_mut_ptr(), 3)
                }
                Now => nolkrada_read(bytes, length, sheet, SHEET_NUMBERS, task, 1024, tick, 1024, cost, 1024, a.as_mut_ptr(), 3),
            }
        };
        (code, a)
    }

    /// Code and number of bytes, from these columns.
    fn write(self, numbers: &[u32], sheet: &Sheet, from: &Columns, out: &mut [u8]) -> (u64, u64) {
        let mut a = [0u64; 1];
        let (rows, length, count, charge, n) = (numbers.as_ptr(), numbers.len(), sheet.count as u32, sheet.charge, from.n as u32);
        let (task, tick, cost) = (from.task.as_ptr(), from.tick.as_ptr(), from.cost.as_ptr());
        let (bytes, room) = (out.as_mut_ptr(), out.len());
        let code = unsafe {
            match self {
                Earlier => {
                    earlier_write(rows, length, count, charge, n, task, 1024, tick, 1024, cost, 1024, bytes, room, a.as_mut_ptr(), 1)
                }
                Now => nolkrada_write(rows, length, count, charge, n, task, 1024, tick, 1024, cost, 1024, bytes, room, a.as_mut_ptr(), 1),
            }
        };
        (code, a[0])
    }
}

/// Nothing is kept in the runs.
static NONE: [u32; 32] = [0; 32];

/// What a read fills and a write takes: a sheet, and n releases. A run fills ready ticks, and finish ticks in place of the ticks.
#[derive(Clone, PartialEq, Debug)]
struct Columns {
    sheet: Vec<u32>,
    n: usize,
    task: Vec<u32>,
    tick: Vec<u64>,
    cost: Vec<u32>,
    ready: Vec<u64>,
}

impl Columns {
    fn of(list: &[Release]) -> Columns {
        let (sheet, task, tick, cost, ready) = (vec![0; SHEET_NUMBERS], vec![0; 1024], vec![0; 1024], vec![0; 1024], vec![0; 1024]);
        let mut all = Columns { sheet, n: list.len(), task, tick, cost, ready };
        for (p, x) in list.iter().enumerate() {
            (all.task[p], all.tick[p], all.cost[p]) = (x.task, x.tick, x.cost);
        }
        all
    }
}

fn line(name: &str, t: &[f64]) {
    println!("| {} | {:.2} | {:.2} | {:.2} |", name, t[0], t[1], t[1] / t[0]);
}

fn compare_verdict(name: &str, sheet: &Sheet, kept: &[u32], task: u32) {
    let (old, new) = (Earlier.numbers(sheet), Now.numbers(sheet));
    let before = || Earlier.verdict(black_box(&old), sheet, task, black_box(kept));
    let after = || Now.verdict(black_box(&new), sheet, task, black_box(kept));
    let (earlier, mut now) = (before(), after());
    if earlier.1[WORDS - 1] == LEFT {
        now.1[WORDS - 1] = LEFT;
    }
    assert_eq!(earlier, now);
    line(name, &medians(&mut [&mut || { black_box(before()); }, &mut || { black_box(after()); }]));
}

fn compare_choice(name: &str, sheet: &Sheet) {
    let (old, new) = (Earlier.numbers(sheet), Now.numbers(sheet));
    let before = || Earlier.choice(black_box(&old), sheet);
    let after = || Now.choice(black_box(&new), sheet);
    assert_eq!(before(), after());
    line(name, &medians(&mut [&mut || { black_box(before()); }, &mut || { black_box(after()); }]));
}

/// The run that jumps, and the ticking one where so stated.
fn compare_runs(name: &str, sheet: &Sheet, list: &[Release], ticking: bool) {
    let (old, new, from) = (Earlier.numbers(sheet), Now.numbers(sheet), Columns::of(list));
    let (mut a, mut b) = (Columns::of(&[]), Columns::of(&[]));
    assert_eq!(Earlier.jump(&old, sheet, &from, &mut a), Now.jump(&new, sheet, &from, &mut b));
    assert_eq!(a, b);
    if ticking {
        assert_eq!((Earlier.run(&old, sheet, &from, &mut a), Now.run(&new, sheet, &from, &mut b)), (0, 0));
        assert_eq!(a, b);
        let times = medians(&mut [
            &mut || { black_box(Earlier.run(black_box(&old), sheet, &from, &mut a)); },
            &mut || { black_box(Now.run(black_box(&new), sheet, &from, &mut b)); },
        ]);
        line(&format!("run of {name}"), &times);
    }
    let times = medians(&mut [
        &mut || { black_box(Earlier.jump(black_box(&old), sheet, &from, &mut a)); },
        &mut || { black_box(Now.jump(black_box(&new), sheet, &from, &mut b)); },
    ]);
    line(&format!("jumping run of {name}"), &times);
}

/// A read and a write of a file of high tasks.
fn compare_file(name: &str, sheet: &Sheet, list: &[Release]) {
    let file = encode(sheet, list);
    let (mut a, mut b) = (Columns::of(&[]), Columns::of(&[]));
    assert_eq!(Earlier.read(&file, &mut a), Now.read(&file, &mut b));
    assert_eq!((&a.task, &a.tick, &a.cost), (&b.task, &b.tick, &b.cost));
    assert_eq!((&a.sheet[..EARLIER_SHEET], &b.sheet), (&padded(Earlier, sheet)[..EARLIER_SHEET], &padded(Now, sheet)));
    let times = medians(&mut [
        &mut || { black_box(Earlier.read(black_box(&file), &mut a)); },
        &mut || { black_box(Now.read(black_box(&file), &mut b)); },
    ]);
    line(&format!("read of {name}"), &times);
    let (old, new, from) = (Earlier.numbers(sheet), Now.numbers(sheet), Columns::of(list));
    let (mut c, mut d) = (vec![0; file.len()], vec![0; file.len()]);
    let written = (0, file.len() as u64);
    assert_eq!((Earlier.write(&old, sheet, &from, &mut c), Now.write(&new, sheet, &from, &mut d)), (written, written));
    assert_eq!((&c, &d), (&file, &file));
    let times = medians(&mut [
        &mut || { black_box(Earlier.write(black_box(&old), sheet, &from, &mut c)); },
        &mut || { black_box(Now.write(black_box(&new), sheet, &from, &mut d)); },
    ]);
    line(&format!("write of {name}"), &times);
}

/// The rows of a sheet that an archive writes: entries past the count are 0.
fn padded(archive: Archive, sheet: &Sheet) -> Vec<u32> {
    let mut numbers = archive.numbers(sheet);
    numbers.resize(SHEET_NUMBERS, 0);
    numbers
}

/// 32 tasks and n releases, the first of which has this tick.
fn file_of(n: usize, first: u64) -> (Sheet, Vec<Release>) {
    let tasks: Vec<Task> = (0..32).map(|i| Task::high(400 + 10 * i, 100, 12, 1_000_000)).collect();
    let sheet = Sheet::of(&tasks);
    let list = list_for(&mut Random::seeded(7), &sheet, n, 28);
    let list = list.iter().map(|x| Release { tick: x.tick + first, ..*x }).collect();
    (sheet, list)
}

fn main() {
    println!("\n| Call | earlier, µs | now, µs | now ÷ earlier |");
    println!("|---|---|---|---|");
    let quarter = |s: &Sheet| -> Vec<u32> { s.tasks.iter().map(|t| t.j / 4).collect() };
    let full = full_sheet(32);
    compare_verdict("verdict of task 31 of 32", &full, &quarter(&full), 31);
    let (sheet, kept) = long_walk();
    compare_verdict("verdict of task 31 of 32, many q", &sheet, &kept, 31);
    compare_choice("choice of 32 tasks", &full);
    let (sheet, kept) = longest(LONGEST[2]);
    compare_verdict("the heaviest verdict known", &sheet, &kept, 31);
    compare_choice("the longest choice known, refused with 15", &longest(LONGEST[1]).0);
    let short = short_periods();
    compare_verdict("verdict of task 30 of 32, every fourth period below 12", &short, &quarter(&short), 30);
    compare_choice("choice of 32 tasks, every fourth period below 12", &short);
    let light = light_sheet();
    compare_verdict("verdict of task 31 of 32, load of 5 in 100", &light, &quarter(&light), 31);
    compare_choice("choice of 32 tasks, load of 5 in 100", &light);
    compare_verdict("verdict of task 0 of 32", &full, &quarter(&full), 0);
    for n in [1u32, 2, 4, 8, 16] {
        let sheet = full_sheet(n);
        compare_verdict(&format!("verdict of the lowest of {}", n), &sheet, &quarter(&sheet), n - 1);
        compare_choice(&format!("choice of {}", n), &sheet);
    }
    let (sheet, list) = file_of(1024, 0);
    compare_runs("1,024 releases", &sheet, &list, true);
    compare_runs("64 releases", &sheet, &list[..64], true);
    let two = [list[0], Release { tick: MAX_TICK, ..list[1] }];
    compare_runs("two releases, the second at the last tick", &sheet, &two, false);
    let late = [Release { tick: 100_000_000, ..list[0] }];
    compare_runs("one release at tick 100,000,000", &sheet, &late, true);
    for (name, n, first) in [("32 tasks", 0, 0), ("10,785 bytes", 1024, 0), ("14,881 bytes", 1024, MAX_TICK - 100_000)] {
        let (sheet, list) = file_of(n, first);
        compare_file(name, &sheet, &list);
    }
}
