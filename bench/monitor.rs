//! The table of the last 256 jobs: the archive and the same method in plain Rust, in nanoseconds of a job or a display.

use crate::generator::{numbers_of, Random};
use crate::library::{monitor_open, monitor_show, monitor_show_all, monitor_take};
use crate::reference::Sheet;
use crate::same_method::{self, Shown, WINDOW_SLOTS};
use crate::sheets::full_sheet;
use crate::timing::medians;
use std::hint::black_box;

/// The jobs of one repetition.
const JOBS: usize = 4096;

/// Jobs of all tasks, one in four late, and a window of each of the two, to which they are brought in turn.
struct Run {
    sheet: Sheet,
    jobs: Vec<(u32, u64)>,
    archive: Vec<u64>,
    same: Vec<u64>,
}

/// What both show of all tasks, which must be the same, as must be the slots of the windows.
fn compare(run: &Run) {
    let (mut a, mut b) = (([0u32; 32], [0u32; 32], [0u64; 32]), ([0u32; 32], [0u32; 32], [0u64; 32]));
    assert_eq!(run.archive, run.same);
    assert_eq!(monitor_show_all(&run.archive, &mut a.0, &mut a.1, &mut a.2), 0);
    assert!(same_method::show_all(&run.same, &mut b.0, &mut b.1, &mut b.2).is_ok());
    assert_eq!(a, b);
    for i in 0..run.sheet.count {
        let mut answer = [0u64; 3];
        assert_eq!(monitor_show(&run.archive, i as u32, &mut answer), 0);
        assert_eq!(same_method::show_task(&run.same, i).unwrap(), Shown { jobs: a.0[i], late: a.1[i], largest: a.2[i] });
        assert_eq!(answer, [a.0[i] as u64, a.1[i] as u64, a.2[i]]);
    }
}

/// A run of n tasks with so many jobs in it.
fn run_of(n: u32, so_far: usize) -> Run {
    let sheet = full_sheet(n);
    let mut random = Random::seeded(256);
    let jobs = (0..JOBS).map(|_| {
        let task = random.within(0, n - 1);
        (task, random.tick(0, sheet.tasks[task as usize].d as u64 * 4 / 3))
    });
    let jobs: Vec<(u32, u64)> = jobs.collect();
    let mut run = Run { jobs, archive: vec![7; WINDOW_SLOTS], same: vec![7; WINDOW_SLOTS], sheet };
    assert_eq!(monitor_open(&numbers_of(&run.sheet), n, run.sheet.charge, &mut run.archive), 0);
    assert!(same_method::open_window(&run.sheet.tasks, run.sheet.charge, &mut run.same).is_ok());
    for k in 0..so_far {
        let (task, response) = run.jobs[k % JOBS];
        assert_eq!(monitor_take(&mut run.archive, task, response), 0);
        assert!(same_method::take_job(&mut run.same, task as usize, response).is_ok());
    }
    compare(&run);
    run
}

/// Each job taken, and its task shown.
fn time_jobs(mut run: Run) -> Vec<f64> {
    let jobs = &run.jobs;
    medians(&mut [
        &mut || {
            for &(task, response) in jobs {
                let mut answer = [0u64; 3];
                black_box(monitor_take(black_box(&mut run.archive), task, response));
                black_box(monitor_show(black_box(&run.archive), task, &mut answer));
                black_box(answer);
            }
        },
        &mut || {
            for &(task, response) in jobs {
                black_box(same_method::take_job(black_box(&mut run.same), task as usize, response).is_ok());
                black_box(same_method::show_task(black_box(&run.same), task as usize).ok());
            }
        },
    ])
}

fn time_takes(mut run: Run) -> Vec<f64> {
    let jobs = &run.jobs;
    medians(&mut [
        &mut || {
            for &(task, response) in jobs {
                black_box(monitor_take(black_box(&mut run.archive), task, response));
            }
        },
        &mut || {
            for &(task, response) in jobs {
                black_box(same_method::take_job(black_box(&mut run.same), task as usize, response).is_ok());
            }
        },
    ])
}

fn time_displays(run: Run) -> Vec<f64> {
    let (mut a, mut b) = (([0u32; 32], [0u32; 32], [0u64; 32]), ([0u32; 32], [0u32; 32], [0u64; 32]));
    medians(&mut [
        &mut || {
            let lent = black_box(&mut a);
            black_box(monitor_show_all(black_box(&run.archive), &mut lent.0, &mut lent.1, &mut lent.2));
        },
        &mut || {
            let lent = black_box(&mut b);
            black_box(same_method::show_all(black_box(&run.same), &mut lent.0, &mut lent.1, &mut lent.2).is_ok());
        },
    ])
}

/// Microseconds of so many jobs or displays, as nanoseconds of one.
fn line(name: &str, t: &[f64], many: usize) {
    let (archive, same) = (1_000.0 * t[0] / many as f64, 1_000.0 * t[1] / many as f64);
    println!("| {} | {:.1} | {:.1} | {:.2} |", name, archive, same, t[0] / t[1]);
}

/// Windows that hold 256 jobs.
pub fn table() {
    println!("\n| Last 256 jobs | archive, ns | same method in Rust, ns | archive ÷ same |");
    println!("|---|---|---|---|");
    line("a job taken and its task shown, 32 tasks", &time_jobs(run_of(32, 256)), JOBS);
    line("a job taken and its task shown, 1 task", &time_jobs(run_of(1, 256)), JOBS);
    line("a job taken and its task shown, 32 tasks, after 1,000,000 jobs", &time_jobs(run_of(32, 1_000_000)), JOBS);
    line("all tasks shown, 32 tasks", &time_displays(run_of(32, 256)), 1);
    line("a job taken", &time_takes(run_of(32, 256)), JOBS);
}
