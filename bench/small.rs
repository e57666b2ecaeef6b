//! The table of small traces: the archive and the same method in plain Rust. A call walks over the traces before its own, so that what one of
//! them takes is told besides.

use crate::generator::numbers_of;
use crate::library;
use crate::reference::{Sheet, Task, SMALL_TRACES};
use crate::same_method;
use crate::timing::medians;
use std::hint::black_box;

/// A sheet with a count of releases and a tick bound.
struct Small {
    sheet: Sheet,
    numbers: Vec<u32>,
    releases: u32,
    ticks: u32,
}

/// The columns of a trace.
#[derive(Default, Debug, PartialEq, Eq)]
struct Lent {
    task: [u32; 6],
    tick: [u64; 6],
    cost: [u32; 6],
}

impl Small {
    fn of(tasks: &[(u32, u32, u32, u32)], releases: u32, ticks: u32) -> Small {
        let sheet = Sheet::of(&tasks.iter().map(|&(p, j, e, d)| Task::high(p, j, e, d)).collect::<Vec<_>>());
        Small { numbers: numbers_of(&sheet), sheet, releases, ticks }
    }

    fn count_archive(&self, answer: &mut [u64]) -> u64 {
        let (numbers, count, charge) = (black_box(&self.numbers), self.sheet.count as u32, self.sheet.charge);
        library::small_trace_count(numbers, count, charge, black_box(self.releases), black_box(self.ticks), answer)
    }
    fn count_same(&self) -> u64 {
        let (tasks, releases, ticks) = (black_box(&self.sheet.tasks), black_box(self.releases), black_box(self.ticks));
        same_method::small_trace_count(tasks, self.sheet.charge, releases, ticks).unwrap()
    }
    fn trace_archive(&self, position: u64, lent: &mut Lent, answer: &mut [u64]) -> u64 {
        let (numbers, count, charge) = (black_box(&self.numbers), self.sheet.count as u32, self.sheet.charge);
        let (releases, ticks, at) = (black_box(self.releases), black_box(self.ticks), black_box(position));
        library::small_trace(numbers, count, charge, releases, ticks, at, &mut lent.task, &mut lent.tick, &mut lent.cost, answer)
    }
    fn trace_same(&self, position: u64, lent: &mut Lent) -> Option<usize> {
        let (tasks, releases, ticks, at) = (black_box(&self.sheet.tasks), black_box(self.releases), black_box(self.ticks), black_box(position));
        same_method::small_trace(tasks, self.sheet.charge, releases, ticks, at, &mut lent.task, &mut lent.tick, &mut lent.cost).unwrap()
    }

    /// How many there are, in which both agree.
    fn many(&self) -> u64 {
        let mut answer = [0; 1];
        assert_eq!(self.count_archive(&mut answer), 0);
        assert_eq!(answer[0], self.count_same());
        answer[0]
    }

    fn time_count(&self) -> Vec<f64> {
        let mut answer = [0; 1];
        medians(&mut [
            &mut || {
                black_box(self.count_archive(black_box(&mut answer)));
            },
            &mut || {
                black_box(self.count_same());
            },
        ])
    }

    /// The trace at a position, in which both agree.
    fn time_trace(&self, position: u64) -> Vec<f64> {
        let (mut a, mut b, mut answer) = (Lent::default(), Lent::default(), [0; 2]);
        assert_eq!(self.trace_archive(position, &mut a, &mut answer), 0);
        let same = self.trace_same(position, &mut b);
        assert_eq!((answer, &a), (same.map_or([0, 0], |n| [1, n as u64]), &b));
        medians(&mut [
            &mut || {
                black_box(self.trace_archive(position, black_box(&mut a), black_box(&mut answer)));
            },
            &mut || {
                black_box(self.trace_same(position, black_box(&mut b)));
            },
        ])
    }
}

/// A row, with the traces that the call walks over, and nanoseconds of the archive for each of them.
fn line(name: &str, t: &[f64], traces: u64) {
    println!("| {} | {} | {:.2} | {:.2} | {:.2} | {:.1} |", name, traces, t[0], t[1], t[0] / t[1], 1_000.0 * t[0] / traces as f64);
}

/// The most traces that there are; a middling sheet of three tasks whose periods let few traces through; and a small one of two tasks.
pub fn table() {
    println!("\n| Small traces | traces walked over | archive, µs | same method in Rust, µs | archive ÷ same | archive, ns for each of these traces |");
    println!("|---|---|---|---|---|---|");
    let most = Small::of(&[(2, 10, 1, 2), (3, 15, 1, 3), (5, 25, 2, 5)], 6, 12);
    assert_eq!(most.many(), SMALL_TRACES);
    line("how many, 3 tasks, 6 releases, ticks below 12, every list legal", &most.time_count(), SMALL_TRACES);
    line("the last of them", &most.time_trace(SMALL_TRACES - 1), SMALL_TRACES);
    let middling = Small::of(&[(6, 5, 2, 6), (8, 7, 2, 8), (10, 0, 2, 11)], 6, 12);
    let many = middling.many();
    line("how many, the folder's sheet, 6 releases, ticks below 12", &middling.time_count(), many);
    line("the last of them", &middling.time_trace(many - 1), many);
    let small = Small::of(&[(2, 0, 1, 2), (3, 2, 1, 3)], 3, 4);
    let many = small.many();
    line("the last, 2 tasks, 3 releases, ticks below 4", &small.time_trace(many - 1), many);
    line("the first of them", &small.time_trace(0), 1);
}
