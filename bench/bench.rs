//! Times the archive against the same methods in plain Rust and against the reference implementation, and shows how the cost
//! grows with tasks, releases and ticks. All three are optimised and called in turn. Each figure is the median of several
//! repetitions, in processor time of the thread, so that other work on the machine counts little. The tables of the last 256 jobs, of
//! boards and of small traces have no reference.

mod board;
#[path = "../tests/outside/generator.rs"]
#[allow(dead_code)]
mod generator;
#[path = "../tests/outside/library.rs"]
#[allow(dead_code)]
mod library;
mod monitor;
#[path = "../tests/outside/reference.rs"]
#[allow(dead_code)]
mod reference;
mod same_method;
mod sheets;
mod small;
mod timing;

use generator::{frame_numbers_of, legal_list_for, list_for, numbers_of, Random, SHEET_NUMBERS};
use reference::{Budget, Release, Sheet, Task, MAX_SHORT_TICK, MAX_TICK};
use sheets::{charged, full_sheet, high_only_sheet, light_sheet, long_walk, longest, seventy_sheet, short_periods, three_of_four, CHARGE, LONGEST};
use std::hint::black_box;
use std::ops::Range;
use timing::medians;

struct List {
    sheet: Sheet,
    kept: Vec<u32>,
    task: Vec<u32>,
    tick: Vec<u64>,
    cost: Vec<u32>,
}

fn busy_sheet() -> Sheet {
    let tasks: Vec<Task> = (0..32).map(|i| Task::high(400 + 10 * i, 100, 12, 1_000_000)).collect();
    Sheet::of(&tasks)
}

fn list_with(sheet: Sheet, all: &[Release]) -> List {
    List {
        kept: sheet.tasks.iter().map(|t| t.j / 2).collect(),
        task: all.iter().map(|r| r.task).collect(),
        tick: all.iter().map(|r| r.tick).collect(),
        cost: all.iter().map(|r| r.cost).collect(),
        sheet,
    }
}

/// n releases of 32 tasks that keep the processor busy most of the time.
fn list_of(n: usize) -> List {
    let sheet = busy_sheet();
    let all = list_for(&mut Random::seeded(7), &sheet, n, 28);
    list_with(sheet, &all)
}

/// n legal releases of 32 tasks, so that the trace check looks at all of them.
fn legal_list_of(n: usize) -> List {
    let sheet = busy_sheet();
    let all = legal_list_for(&mut Random::seeded(7), &sheet, n);
    assert_eq!(all.len(), n);
    list_with(sheet, &all)
}

/// n releases of 32 tasks, one in each tick and of cost 1: every tick up to the last finish is a stop.
fn dense_list_of(n: u32) -> List {
    let tasks: Vec<Task> = (0..32).map(|_| Task::high(32, 0, 1, 1_000_000)).collect();
    let all: Vec<Release> = (0..n).map(|p| Release { task: p % 32, tick: p as u64, cost: 1 }).collect();
    list_with(Sheet::of(&tasks), &all)
}

/// The same releases as in `list_of`, the last one at the last tick that is allowed: the largest file.
fn long_list_of(n: usize) -> List {
    let mut list = list_of(n);
    let by = MAX_TICK - list.tick[n - 1];
    list.tick.iter_mut().for_each(|t| *t += by);
    list
}

/// A list with the charge taken off each cost, down to 1: its jobs take the ticks that they took, and those of a small cost up to 5 more.
fn charged_list(list: List) -> List {
    let cost = list.cost.iter().map(|c| c.saturating_sub(CHARGE as u32).max(1)).collect();
    List { sheet: charged(&list.sheet), cost, ..list }
}

/// A list with every task low: each has one byte more in a file.
fn low_list(list: List) -> List {
    List { sheet: list.sheet.marked(&[true; 32]), ..list }
}

/// One release at the largest tick of kind 2: later ones take a ticking run minutes and days.
fn late_list() -> List {
    let mut list = list_of(1);
    list.tick[0] = MAX_SHORT_TICK;
    list
}

/// Two releases, at tick 0 and at this one.
fn two_releases(tick: u64) -> List {
    let mut list = list_of(2);
    list.tick = vec![0, tick];
    list
}

impl List {
    fn n(&self) -> u32 {
        self.task.len() as u32
    }
    fn library(&self) -> library::Columns<'_> {
        library::Columns { task: &self.task, tick: &self.tick, cost: &self.cost }
    }
    fn same(&self) -> same_method::Columns<'_> {
        same_method::Columns { task: &self.task, tick: &self.tick, cost: &self.cost }
    }
    fn reference(&self) -> reference::Columns<'_> {
        reference::Columns { task: &self.task, tick: &self.tick, cost: &self.cost }
    }
}

/// The rows of verdicts and choices: name, evaluations, how many tasks above these go over, and microseconds of the archive.
#[derive(Default)]
struct Searches {
    rows: Vec<(String, u64, u64, f64)>,
}

impl Searches {
    fn verdict(&mut self, name: &str, sheet: &Sheet, kept: &[u32], task: usize) {
        let times = time_verdict(sheet, kept, task);
        let (evaluations, over) = evaluations_of(sheet, kept, task..task + 1);
        self.add(name, &times, evaluations, over);
    }
    fn choice(&mut self, name: &str, sheet: &Sheet) {
        let (mut kept, mut worst) = ([0u32; 32], [0u32; 32]);
        let counted = same_method::choice(&sheet.tasks, sheet.charge, None, &mut kept, &mut worst).ok();
        let times = time_choice(sheet);
        let (evaluations, over) = evaluations_of(sheet, &kept, 0..sheet.count);
        assert_eq!(counted, Some((false, evaluations)));
        self.add(name, &times, evaluations, over);
    }
    fn add(&mut self, name: &str, times: &[f64], evaluations: u64, over: u64) {
        line(name, times);
        self.rows.push((name.to_string(), evaluations, over, times[0]));
    }
    /// What an evaluation takes for each task that it goes over.
    fn print(&self) {
        println!("\n| Call | evaluations | tasks above that they go over | archive, µs | archive, ns for each of these tasks |");
        println!("|---|---|---|---|---|");
        for (name, evaluations, over, time) in &self.rows {
            let each = if *over == 0 { "–".to_string() } else { format!("{:.2}", 1_000.0 * time / *over as f64) };
            println!("| {} | {} | {} | {:.2} | {} |", name, evaluations, over, time, each);
        }
    }
}

/// A choice of the high tasks alone. The evaluations of the ordinary one before it are told by no verdict, so that it has no row among those.
fn high_only_line(name: &str, sheet: &Sheet) {
    let (mut kept, mut worst) = ([0u32; 32], [0u32; 32]);
    let (high_only, evaluations) = same_method::choice(&sheet.tasks, sheet.charge, None, &mut kept, &mut worst).ok().unwrap();
    let judged = (0..sheet.count).filter(|&i| !sheet.task(i).low);
    let counted = judged.map(|i| evaluations_of(sheet, &kept, i..i + 1).0).sum::<u64>();
    assert_eq!((high_only, evaluations), (true, counted));
    line(name, &time_choice(sheet));
}

/// The evaluations of the archive's verdicts of some tasks, and how many tasks above they go over: each time those above the task.
fn evaluations_of(sheet: &Sheet, kept: &[u32], tasks: Range<usize>) -> (u64, u64) {
    let numbers = numbers_of(sheet);
    tasks.fold((0, 0), |(evaluations, over), i| {
        let mut answer = [0u64; 4];
        assert_eq!(library::verdict(&numbers, sheet.count as u32, sheet.charge, &[], i as u32, kept, &mut answer), 0);
        (evaluations + answer[3], over + answer[3] * i as u64)
    })
}

/// Archive, same method and reference, in microseconds.
fn time_verdict(sheet: &Sheet, kept: &[u32], task: usize) -> Vec<f64> {
    let (numbers, row, frame) = (numbers_of(sheet), frame_numbers_of(&sheet.frame), sheet.frame.as_ref());
    let count = sheet.count as u32;
    let mut answer = [0u64; 4];
    assert_eq!(library::verdict(&numbers, count, sheet.charge, &row, task as u32, kept, &mut answer), 0);
    assert_eq!(same_method::verdict(&sheet.tasks, sheet.charge, frame, task, kept).unwrap(), answer);
    medians(&mut [
        &mut || {
            let mut a = [0u64; 4];
            black_box(library::verdict(black_box(&numbers), count, sheet.charge, black_box(&row), task as u32, black_box(kept), &mut a));
            black_box(a);
        },
        &mut || {
            black_box(same_method::verdict(black_box(&sheet.tasks), sheet.charge, black_box(frame), task, black_box(kept)).is_ok());
        },
        &mut || {
            black_box(reference::verdict(black_box(sheet), task, black_box(kept), &mut Budget::of(u64::MAX)).is_ok());
        },
    ])
}

fn time_choice(sheet: &Sheet) -> Vec<f64> {
    let (numbers, row, frame) = (numbers_of(sheet), frame_numbers_of(&sheet.frame), sheet.frame.as_ref());
    let count = sheet.count as u32;
    let (mut k, mut w) = ([0u32; 32], [0u32; 32]);
    let (mut k2, mut w2) = ([0u32; 32], [0u32; 32]);
    let mut answer = [0u64; 1];
    assert_eq!(library::choice(&numbers, count, sheet.charge, &row, &mut k, &mut w, &mut answer), 0);
    let (high_only, _) = same_method::choice(&sheet.tasks, sheet.charge, frame, &mut k2, &mut w2).ok().unwrap();
    assert_eq!((k, w, answer[0]), (k2, w2, high_only as u64));
    medians(&mut [
        &mut || {
            let lent = (black_box(&mut k), black_box(&mut w), black_box(&mut answer));
            black_box(library::choice(black_box(&numbers), count, sheet.charge, black_box(&row), lent.0, lent.1, lent.2));
        },
        &mut || {
            let lent = (black_box(&mut k2), black_box(&mut w2));
            black_box(same_method::choice(black_box(&sheet.tasks), sheet.charge, black_box(frame), lent.0, lent.1).is_ok());
        },
        &mut || {
            black_box(reference::choice(black_box(sheet), 32, 32, &mut Budget::of(u64::MAX)).is_ok());
        },
    ])
}

fn time_trace(l: &List) -> Vec<f64> {
    let numbers = numbers_of(&l.sheet);
    let mut answer = [0u64; 2];
    assert_eq!(library::trace_check(&numbers, 32, l.sheet.charge, l.n(), l.library(), &mut answer), 0);
    assert_eq!(answer, [0, 0]);
    assert_eq!(same_method::trace_check(&l.sheet.tasks, l.sheet.charge, l.n() as usize, l.same()).unwrap(), None);
    medians(&mut [
        &mut || {
            black_box(library::trace_check(black_box(&numbers), 32, l.sheet.charge, l.n(), l.library(), black_box(&mut answer)));
        },
        &mut || {
            black_box(same_method::trace_check(black_box(&l.sheet.tasks), l.sheet.charge, l.n() as usize, l.same()).is_ok());
        },
        &mut || {
            black_box(reference::trace_check(black_box(&l.sheet), l.n() as usize, &l.reference()).is_ok());
        },
    ])
}

fn time_ready(l: &List) -> Vec<f64> {
    let numbers = numbers_of(&l.sheet);
    let (mut a, mut b) = (vec![0u64; 1024], vec![0u64; 1024]);
    assert_eq!(library::ready(&numbers, 32, l.sheet.charge, &l.kept, l.n(), l.library(), &mut a), 0);
    assert!(same_method::ready(&l.sheet.tasks, l.sheet.charge, &l.kept, l.n() as usize, l.same(), &mut b).is_ok());
    assert_eq!(a, b);
    medians(&mut [
        &mut || {
            black_box(library::ready(black_box(&numbers), 32, l.sheet.charge, &l.kept, l.n(), l.library(), black_box(&mut a)));
        },
        &mut || {
            let (n, lent) = (l.n() as usize, black_box(&mut b));
            black_box(same_method::ready(black_box(&l.sheet.tasks), l.sheet.charge, &l.kept, n, l.same(), lent).is_ok());
        },
        &mut || {
            black_box(reference::ready(black_box(&l.sheet), &l.kept, l.n() as usize, &l.reference(), 1024).is_ok());
        },
    ])
}

fn time_run(l: &List) -> Vec<f64> {
    let (numbers, row, frame) = (numbers_of(&l.sheet), frame_numbers_of(&l.sheet.frame), l.sheet.frame.as_ref());
    let (mut a, mut b, mut c, mut d) = (vec![0u64; 1024], vec![0u64; 1024], vec![0u64; 1024], vec![0u64; 1024]);
    assert_eq!(library::run(&numbers, 32, l.sheet.charge, &row, &l.kept, l.n(), l.library(), &mut a, &mut b), 0);
    assert!(same_method::run(&l.sheet.tasks, l.sheet.charge, frame, &l.kept, l.n() as usize, l.same(), &mut c, &mut d).is_ok());
    assert_eq!((&a, &b), (&c, &d));
    medians(&mut [
        &mut || {
            let lent = (black_box(&mut a), black_box(&mut b));
            black_box(library::run(black_box(&numbers), 32, l.sheet.charge, black_box(&row), &l.kept, l.n(), l.library(), lent.0, lent.1));
        },
        &mut || {
            let (n, lent) = (l.n() as usize, (black_box(&mut c), black_box(&mut d)));
            black_box(same_method::run(black_box(&l.sheet.tasks), l.sheet.charge, frame, &l.kept, n, l.same(), lent.0, lent.1).is_ok());
        },
        &mut || {
            black_box(reference::run(black_box(&l.sheet), &l.kept, l.n() as usize, &l.reference(), 1024, 1024).is_ok());
        },
    ])
}

fn time_jump(l: &List) -> Vec<f64> {
    let (numbers, row, frame) = (numbers_of(&l.sheet), frame_numbers_of(&l.sheet.frame), l.sheet.frame.as_ref());
    let (mut a, mut b, mut c, mut d) = (vec![0u64; 1024], vec![0u64; 1024], vec![0u64; 1024], vec![0u64; 1024]);
    let mut answer = [0u64; 1];
    assert_eq!(library::jump(&numbers, 32, l.sheet.charge, &row, &l.kept, l.n(), l.library(), &mut a, &mut b, &mut answer), 0);
    assert_eq!(same_method::jump(&l.sheet.tasks, l.sheet.charge, frame, &l.kept, l.n() as usize, l.same(), &mut c, &mut d).unwrap(), answer[0]);
    assert_eq!((&a, &b), (&c, &d));
    medians(&mut [
        &mut || {
            let lent = (black_box(&mut a), black_box(&mut b), black_box(&mut answer));
            black_box(library::jump(black_box(&numbers), 32, l.sheet.charge, black_box(&row), &l.kept, l.n(), l.library(), lent.0, lent.1, lent.2));
        },
        &mut || {
            let (n, lent) = (l.n() as usize, (black_box(&mut c), black_box(&mut d)));
            black_box(same_method::jump(black_box(&l.sheet.tasks), l.sheet.charge, frame, &l.kept, n, l.same(), lent.0, lent.1).is_ok());
        },
        &mut || {
            black_box(reference::jump(black_box(&l.sheet), &l.kept, l.n() as usize, &l.reference(), 1024, 1024).is_ok());
        },
    ])
}

fn time_read(l: &List) -> Vec<f64> {
    let file = reference::write(&l.sheet, l.n() as usize, &l.reference(), 1 << 20).unwrap();
    let (mut sheet, mut answer) = ([0u32; SHEET_NUMBERS], [0u64; 3]);
    let (mut a, mut b, mut c) = (vec![0u32; 1024], vec![0u64; 1024], vec![0u32; 1024]);
    let (mut d, mut e, mut f) = (vec![0u32; 1024], vec![0u64; 1024], vec![0u32; 1024]);
    let mut tasks = [Task::high(0, 0, 0, 0); 32];
    assert_eq!(library::read(&file, &mut sheet, &mut a, &mut b, &mut c, &mut answer), 0);
    assert_eq!(same_method::read(&file, &mut tasks, &mut d, &mut e, &mut f).unwrap(), (32, l.task.len(), l.sheet.charge));
    assert_eq!((&a, &b, &c, answer[2]), (&d, &e, &f, l.sheet.charge as u64));
    assert_eq!(sheet.to_vec(), numbers_of(&Sheet::of(&tasks)));
    medians(&mut [
        &mut || {
            black_box(library::read(black_box(&file), black_box(&mut sheet), &mut a, &mut b, &mut c, &mut answer));
        },
        &mut || {
            black_box(same_method::read(black_box(&file), black_box(&mut tasks), &mut d, &mut e, &mut f).is_ok());
        },
        &mut || {
            black_box(reference::read(black_box(&file), [1024; 3]).is_ok());
        },
    ])
}

fn time_write(l: &List) -> Vec<f64> {
    let numbers = numbers_of(&l.sheet);
    let size = reference::bytes_needed(&l.sheet, 32, &l.tick);
    let (mut a, mut b, mut answer) = (vec![0u8; size], vec![0u8; size], [0u64; 1]);
    assert_eq!(library::write(&numbers, 32, l.sheet.charge, l.n(), l.library(), &mut a, &mut answer), 0);
    assert!(same_method::write(&l.sheet.tasks, l.sheet.charge, l.n() as usize, l.same(), &mut b).is_ok());
    assert_eq!(a, b);
    medians(&mut [
        &mut || {
            black_box(library::write(black_box(&numbers), 32, l.sheet.charge, l.n(), l.library(), black_box(&mut a), &mut answer));
        },
        &mut || {
            black_box(same_method::write(black_box(&l.sheet.tasks), l.sheet.charge, l.n() as usize, l.same(), black_box(&mut b)).is_ok());
        },
        &mut || {
            black_box(reference::write(black_box(&l.sheet), l.n() as usize, &l.reference(), size).is_ok());
        },
    ])
}

/// The longest text that is accepted.
fn longest_text() -> Vec<u8> {
    "1000000,1000000,1000000,1000000\n".repeat(32).into_bytes()
}

/// One line whose P has 1,000,000 digits: refused with 6 after all of them.
fn long_number() -> Vec<u8> {
    format!("{},0,1,1\n", "9".repeat(1_000_000)).into_bytes()
}

fn time_load(text: &[u8]) -> Vec<f64> {
    let (mut sheet, mut answer) = ([0u32; SHEET_NUMBERS], [0u64; 1]);
    let mut tasks = [Task::high(0, 0, 0, 0); 32];
    let code = library::load(text, &mut sheet, &mut answer);
    match same_method::load(text, &mut tasks) {
        Ok(n) => assert_eq!((code, answer[0]), (0, n as u64)),
        Err(r) => assert_eq!(code, ((r.number as u64) << 32) + r.place),
    }
    assert_eq!(sheet.to_vec(), numbers_of(&Sheet::of(&tasks)));
    medians(&mut [
        &mut || {
            black_box(library::load(black_box(text), black_box(&mut sheet), &mut answer));
        },
        &mut || {
            black_box(same_method::load(black_box(text), black_box(&mut tasks)).is_ok());
        },
        &mut || {
            black_box(reference::load(black_box(text)).is_ok());
        },
    ])
}

fn line(name: &str, t: &[f64]) {
    println!("| {} | {:.2} | {:.2} | {:.2} | {:.2} | {:.2} |", name, t[0], t[1], t[2], t[0] / t[1], t[0] / t[2]);
}

fn head(first: &str) {
    println!("\n| {} | archive, µs | same method in Rust, µs | reference, µs | archive ÷ same | archive ÷ reference |", first);
    println!("|---|---|---|---|---|---|");
}

/// Verdicts, choices and runs with a frame of three of every four ticks, of one window and of 16, of a few ticks and of the most; and the same
/// without a frame.
fn with_frames() {
    head("Frame");
    let sheet = seventy_sheet();
    let kept: Vec<u32> = sheet.tasks.iter().map(|t| t.j / 4).collect();
    // half of each cost, since a part of the ticks is not ours
    let list = |framed: &dyn Fn(Sheet) -> Sheet| {
        let list = list_of(1024);
        List { cost: list.cost.iter().map(|c| c.div_ceil(2)).collect(), sheet: framed(list.sheet.clone()), ..list }
    };
    line("verdict of task 31 of 32, no frame", &time_verdict(&sheet, &kept, 31));
    line("choice of 32 tasks, no frame", &time_choice(&sheet));
    line("run of 1,024 releases, no frame", &time_run(&list(&|s| s)));
    line("jumping run of 1,024 releases, no frame", &time_jump(&list(&|s| s)));
    for (ticks, windows) in [(1_000, 1), (1_000, 16), (10_000, 1), (10_000, 16)] {
        let framed = |s: Sheet| s.framed(Some(three_of_four(ticks, windows)));
        let what = format!("{windows} {} in {ticks} ticks", if windows == 1 { "window" } else { "windows" });
        line(&format!("verdict of task 31 of 32, {what}"), &time_verdict(&framed(sheet.clone()), &kept, 31));
        line(&format!("choice of 32 tasks, {what}"), &time_choice(&framed(sheet.clone())));
        line(&format!("run of 1,024 releases, {what}"), &time_run(&list(&framed)));
        line(&format!("jumping run of 1,024 releases, {what}"), &time_jump(&list(&framed)));
    }
    let two = |l: List| List { sheet: l.sheet.framed(Some(three_of_four(10_000, 16))), ..l };
    line("jumping run of two releases, at 0 and 1,000,000,000,000,000", &time_jump(&two(two_releases(MAX_TICK))));
}

/// The calls at full size.
fn full_size(searches: &mut Searches) {
    head("Call");
    let full = full_sheet(32);
    let full_kept: Vec<u32> = full.tasks.iter().map(|t| t.j / 4).collect();
    searches.verdict("verdict of task 31 of 32", &full, &full_kept, 31);
    let (sheet, kept) = long_walk();
    searches.verdict("verdict of task 31 of 32, many q", &sheet, &kept, 31);
    searches.choice("choice of 32 tasks", &full);
    let short = short_periods();
    let short_kept: Vec<u32> = short.tasks.iter().map(|t| t.j / 4).collect();
    searches.verdict("verdict of task 30 of 32, every fourth period below 12", &short, &short_kept, 30);
    searches.choice("choice of 32 tasks, every fourth period below 12", &short);
    let light = light_sheet();
    searches.verdict("verdict of task 31 of 32, load of 5 in 100", &light, &full_kept, 31);
    searches.choice("choice of 32 tasks, load of 5 in 100", &light);
    let with_charge = charged(&full);
    searches.verdict("verdict of task 31 of 32, with a charge", &with_charge, &full_kept, 31);
    searches.choice("choice of 32 tasks, with a charge", &with_charge);
    high_only_line("choice of 32 tasks, high only", &high_only_sheet(false));
    high_only_line("choice of 32 tasks, high only, 16 of them", &high_only_sheet(true));
    line("trace check of 1,024 releases", &time_trace(&legal_list_of(1024)));
    let list = list_of(1024);
    line("ready ticks of 1,024 releases", &time_ready(&list));
    line("run of 1,024 releases", &time_run(&list));
    line("jumping run of 1,024 releases", &time_jump(&list));
    let with_charge = charged_list(list_of(1024));
    line("run of 1,024 releases, with a charge", &time_run(&with_charge));
    line("jumping run of 1,024 releases, with a charge", &time_jump(&with_charge));
    let dense = dense_list_of(1024);
    line("run of 1,024 releases, a stop in every tick", &time_run(&dense));
    line("jumping run of 1,024 releases, a stop in every tick", &time_jump(&dense));
    line("run of one release at tick 1,000,000,000", &time_run(&late_list()));
    line("jumping run of two releases, at 0 and 1,000,000,000", &time_jump(&two_releases(MAX_SHORT_TICK)));
    line("jumping run of two releases, at 0 and 1,000,000,000,000,000", &time_jump(&two_releases(MAX_TICK)));
    line("read of 10,785 bytes", &time_read(&list));
    line("write of 10,785 bytes", &time_write(&list));
    let long = long_list_of(1024);
    line("read of 14,881 bytes", &time_read(&long));
    line("write of 14,881 bytes", &time_write(&long));
    let with_charge = charged_list(long);
    line("read of 14,883 bytes, with a charge", &time_read(&with_charge));
    line("write of 14,883 bytes, with a charge", &time_write(&with_charge));
    let low = low_list(with_charge);
    line("read of 14,915 bytes, 32 low tasks", &time_read(&low));
    line("write of 14,915 bytes, 32 low tasks", &time_write(&low));
    let tasks = list_of(0);
    line("read of 545 bytes, 32 high tasks alone", &time_read(&tasks));
    line("write of 545 bytes, 32 high tasks alone", &time_write(&tasks));
    let tasks = low_list(tasks);
    line("read of 577 bytes, 32 low tasks alone", &time_read(&tasks));
    line("write of 577 bytes, 32 low tasks alone", &time_write(&tasks));
    line("load of a text of 1,024 bytes", &time_load(&longest_text()));
    line("load of one line of 1,000,000 digits", &time_load(&long_number()));
}

/// How the cost grows.
fn growth(searches: &mut Searches) {
    head("Tasks");
    for n in [1u32, 2, 4, 8, 16, 32] {
        let sheet = full_sheet(n);
        let kept: Vec<u32> = sheet.tasks.iter().map(|t| t.j / 4).collect();
        searches.verdict(&format!("verdict of the lowest of {}", n), &sheet, &kept, n as usize - 1);
        searches.choice(&format!("choice of {}", n), &sheet);
    }
    head("Releases");
    for n in [64usize, 256, 1024] {
        let list = list_of(n);
        line(&format!("trace check of {}", n), &time_trace(&legal_list_of(n)));
        line(&format!("ready ticks of {}", n), &time_ready(&list));
        line(&format!("run of {}", n), &time_run(&list));
        line(&format!("jumping run of {}", n), &time_jump(&list));
        line(&format!("read of {}", n), &time_read(&list));
        line(&format!("write of {}", n), &time_write(&list));
    }
    head("Two releases, the first at 0");
    for tick in [1_000, 1_000_000, MAX_SHORT_TICK, 1_000_000_000_000, MAX_TICK] {
        let list = two_releases(tick);
        if tick <= MAX_SHORT_TICK {
            line(&format!("run to the second at {}", tick), &time_run(&list));
        }
        line(&format!("jumping run to the second at {}", tick), &time_jump(&list));
    }
}

fn longest_verdicts(searches: &mut Searches) {
    head("Sheet");
    for one in LONGEST {
        let (sheet, kept) = longest(one);
        let (a, t) = (sheet.tasks[0], sheet.tasks[31]);
        let name = format!("31 tasks ({},{},1,1000000) above ({},1,1,1000000)", a.p, a.j, t.p);
        searches.verdict(&name, &sheet, &kept, 31);
    }
}

/// Without an argument all tables; with `full` the first, that of frames, that of the last 256 jobs, that of boards and that of small traces
/// alone, with `frames`, `monitor`, `board` or `small` one of these four alone. Then the evaluations of the verdicts and choices timed without
/// a frame.
fn main() {
    let searches = &mut Searches::default();
    let which = std::env::args().nth(1);
    match which.as_deref() {
        Some("frames") => return with_frames(),
        Some("monitor") => return monitor::table(),
        Some("board") => return board::table(),
        Some("small") => return small::table(),
        _ => (),
    }
    full_size(searches);
    with_frames();
    monitor::table();
    board::table();
    small::table();
    if which.as_deref() != Some("full") {
        growth(searches);
        longest_verdicts(searches);
    }
    searches.print();
}
