//! The last 256 jobs: the four calls on a lent window. After each of them every slot of the window is compared with the layout and, where
//! calls made the window, what is shown with a fresh count of the jobs accepted since it was opened.

use crate::generator::*;
use crate::reference::{self, Finished, Opened, Refusal, Shown, WINDOW_JOBS, WINDOW_SLOTS};
use crate::{library, numbers, sums, words, Case, Lent, Tally};

const OPEN: usize = 10;
const TAKE: usize = 11;
const SHOW: usize = 12;
const SHOW_ALL: usize = 13;

/// Lengths of a window: too short, exact and longer.
const LENGTHS: [usize; 10] = [0, 1, 2, 34, 290, 545, 546, 547, 600, 1_000];

/// A window as it is lent, what its slots have to hold, what it stands for where calls made it, and the largest response that was last
/// shown of each task.
struct Monitor {
    lent: Vec<u64>,
    slots: Vec<u64>,
    opened: Option<Opened>,
    largest: Vec<u64>,
}

impl Monitor {
    /// A window that holds these numbers.
    fn of(held: Vec<u64>) -> Monitor {
        Monitor { lent: held.clone(), slots: held, opened: None, largest: vec![0; 32] }
    }

    /// Notes a call: its code, its answer, and the slots of the window.
    fn note(&self, tally: &mut Tally, call: usize, expected: Option<Refusal>, got: u64, answer: bool, show: impl Fn() -> String) {
        if let Some(refusal) = expected {
            tally.window_refusals.insert((call, refusal.number, refusal.place == WINDOW_SLOTS as u64));
        }
        tally.note(call, expected, got, answer && self.lent == self.slots, || {
            let unlike = (0..self.slots.len()).find(|&k| self.lent[k] != self.slots[k]).map(|k| (k, self.lent[k], self.slots[k]));
            let jobs = self.opened.as_ref().map(|o| o.accepted.len());
            format!("{} slots, begin with {:?}, unlike {:?}, jobs {:?}; {}", self.slots.len(), self.slots.get(..3), unlike, jobs, show())
        });
    }

    /// A call with the case's sheet: where it is refused the window is as it was.
    fn open(&mut self, tally: &mut Tally, case: &Case) {
        let expected = reference::open_window(&case.sheet(), &mut self.slots);
        let got = library::monitor_open(&case.numbers, case.count, case.charge, &mut self.lent);
        if expected.is_ok() {
            self.opened = Opened::on(&case.sheet()).ok();
            self.largest = vec![0; 32];
            tally.answered(OPEN, &case.sheet());
        }
        self.note(tally, OPEN, expected.err(), got, true, || case.show());
    }

    fn take(&mut self, tally: &mut Tally, task: u32, response: u64) {
        let job = Finished { task, response };
        let expected = reference::take_job(&mut self.slots, job);
        if let Some(opened) = &mut self.opened {
            assert_eq!(opened.take(job), expected);
            tally.most_jobs = tally.most_jobs.max(opened.accepted.len());
        }
        let got = library::monitor_take(&mut self.lent, task, response);
        self.note(tally, TAKE, expected.err(), got, true, || format!("{:?}", job));
    }

    /// Notes what is shown of a task, and that both ways to count agree.
    fn shown(&mut self, tally: &mut Tally, task: u32, shown: Shown) {
        if let Some(opened) = &self.opened {
            assert_eq!(opened.show(task), Ok(shown));
        }
        let jobs = self.opened.as_ref().map(|o| o.accepted.len());
        let last = &mut self.largest[task as usize];
        let seen = [
            jobs == Some(0),
            jobs.map_or(false, |n| (1..WINDOW_JOBS).contains(&n)),
            jobs == Some(WINDOW_JOBS),
            jobs == Some(WINDOW_JOBS + 1),
            jobs.map_or(false, |n| n > 2 * WINDOW_JOBS),
            jobs.map_or(false, |n| n > 0) && shown.jobs == 0,
            shown.jobs > 0 && shown.late == 0,
            0 < shown.late && shown.late < shown.jobs,
            shown.jobs == WINDOW_JOBS as u64 && shown.late == shown.jobs,
            jobs.is_some() && shown.largest < *last,
            jobs.is_none(),
        ];
        for (count, seen) in tally.displays.iter_mut().zip(seen) {
            *count += seen as u64;
        }
        *last = shown.largest;
    }

    /// A show of one task, with so many slots for the answer.
    fn show(&mut self, r: &mut Random, tally: &mut Tally, task: u32, slots: usize) {
        let expected = reference::show_task(&self.slots, task, slots);
        let mut answer = words(r, slots);
        let got = library::monitor_show(&self.lent, task, &mut answer.now);
        if let Ok(shown) = expected {
            self.shown(tally, task, shown);
        }
        let three = expected.ok().map(|s| [s.jobs, s.late, s.largest]);
        let same = answer.holds(three.as_ref().map(|a| &a[..]));
        self.note(tally, SHOW, expected.err(), got, same, || format!("task {} answer {:?} expected {:?}", task, answer.now, expected));
    }

    /// A show of all tasks, with so many slots for each column.
    fn show_all(&mut self, r: &mut Random, tally: &mut Tally, slots: [usize; 3]) {
        let expected = reference::show_tasks(&self.slots, slots);
        let (mut jobs, mut late, mut largest) = (numbers(r, slots[0]), numbers(r, slots[1]), words(r, slots[2]));
        let got = library::monitor_show_all(&self.lent, &mut jobs.now, &mut late.now, &mut largest.now);
        for (task, &shown) in expected.iter().flatten().enumerate() {
            self.shown(tally, task as u32, shown);
        }
        let all = expected.as_ref().ok();
        let column = |f: fn(&Shown) -> u64| all.map(|a| a.iter().map(f).collect::<Vec<u64>>());
        let column_32 = |f: fn(&Shown) -> u64| column(f).map(|c| c.into_iter().map(|n| n as u32).collect::<Vec<u32>>());
        let same = jobs.holds(column_32(|s| s.jobs).as_deref())
            && late.holds(column_32(|s| s.late).as_deref())
            && largest.holds(column(|s| s.largest).as_deref());
        self.note(tally, SHOW_ALL, expected.as_ref().err().copied(), got, same, || {
            format!("jobs {:?} late {:?} largest {:?} expected {:?}", jobs.now, late.now, largest.now, expected)
        });
    }

    /// The number of tasks that the window has: 1 where it has none, and 33 where it has more than a sheet may have.
    fn tasks(&self) -> u32 {
        self.slots.first().map_or(1, |&n| n.clamp(1, 33) as u32)
    }

    /// Each task, and all of them.
    fn show_each(&mut self, r: &mut Random, tally: &mut Tally) {
        let tasks = self.tasks();
        for task in 0..tasks {
            self.show(r, tally, task, 3);
        }
        self.show_all(r, tally, [tasks as usize; 3]);
    }

    /// A show with slots around those needed: of a task, which now and then is not in the sheet, or of all.
    fn show_some(&mut self, r: &mut Random, tally: &mut Tally) {
        let tasks = self.tasks();
        let around = |r: &mut Random, needed: usize| r.of(&[0, needed - 1, needed, needed, needed, needed, needed + 1, needed + 40]);
        if r.once_in(3) {
            let slots = [(); 3].map(|_| around(r, tasks as usize));
            self.show_all(r, tally, slots);
        } else {
            let task = if r.once_in(8) { no_task_of(r, tasks) } else { r.within(0, tasks - 1) };
            let slots = around(r, 3);
            self.show(r, tally, task, slots);
        }
    }

    /// The same window in other memory.
    fn moved(&mut self) {
        self.lent = self.lent.clone();
    }
}

/// A window opened on a sound sheet of so many tasks, in memory that held any numbers.
fn opened_on(r: &mut Random, tally: &mut Tally, tasks: usize, slots: usize) -> Monitor {
    let sheet = watched_sheet(r, tasks);
    let held = words(r, slots).held;
    let mut monitor = Monitor::of(held);
    monitor.open(tally, &Case::sound(r, &sheet, &[]));
    monitor
}

/// So many slots of any numbers, the first of which is this one.
fn window_with(r: &mut Random, slots: usize, first: u64) -> Lent<u64> {
    let mut held = words(r, slots).held;
    held.iter_mut().take(1).for_each(|slot| *slot = first);
    Lent::of(held)
}

/// The deadline of a task of a window.
fn deadline(monitor: &Monitor, task: u32) -> u64 {
    monitor.slots[2 + task as usize]
}

/// What decides, written out: each refusal of each call beside those that come later in its order. Nothing is changed.
pub fn refusals(r: &mut Random, tally: &mut Tally) {
    let refused = |(number, place): (u32, u64)| Some(Refusal { number, place });
    let sound = Case::sound(r, &sums::printed_sheet(), &[]);

    // open: the change, the slots of the window, and what decides
    let opens: [(fn(&mut Case), usize, (u32, u64)); 15] = [
        (|_| (), 545, (13, 546)),
        (|_| (), 0, (13, 546)),
        (|c| c.charge = 4, 545, (13, 546)),
        (|c| c.count = 0, 545, (5, 0)),
        (|c| c.count = 0, 546, (5, 0)),
        (|c| c.count = 33, 545, (4, 32)),
        (|c| c.count = u32::MAX, 546, (4, 32)),
        (|c| c.numbers[7] = 0, 545, (6, 1)),
        (|c| c.numbers[13] = 0, 600, (6, 2)),
        (|c| c.numbers.clear(), 0, (6, 0)),
        (|c| c.count = 4, 545, (6, 3)),
        (|c| c.charge = 5, 545, (17, 0)),
        (|c| (c.charge, c.numbers[12]) = (4, 7), 546, (17, 2)),
        (|c| (c.charge, c.numbers[7]) = (5, 0), 545, (17, 0)),
        (|c| (c.charge, c.numbers[2]) = (5, 7), 545, (6, 0)),
    ];
    for (change, slots, decides) in opens {
        let mut case = sound.clone();
        change(&mut case);
        let mut window = words(r, slots);
        let got = library::monitor_open(&case.numbers, case.count, case.charge, &mut window.now);
        tally.note(OPEN, refused(decides), got, window.holds(None), || format!("{} slots {}", slots, case.show()));
    }

    // the slots of the window, its number of tasks, the task asked for, and what decides in a take and in a show with up to two slots
    let tasks: [(usize, u64, u32, (u32, u64)); 14] = [
        (0, 0, 0, (13, 546)),
        (1, 3, 0, (13, 546)),
        (545, 3, 0, (13, 546)),
        (545, 0, 0, (13, 546)),
        (545, 33, 40, (13, 546)),
        (546, 0, 0, (5, 0)),
        (546, 0, u32::MAX, (5, 0)),
        (546, 33, 0, (4, 32)),
        (546, 1 << 32, 0, (4, 32)),
        (600, u64::MAX, u32::MAX, (4, 32)),
        (546, 3, 3, (14, 3)),
        (546, 1, 1, (14, 1)),
        (546, 32, 32, (14, 32)),
        (600, 32, u32::MAX, (14, u32::MAX as u64)),
    ];
    for (slots, number, task, decides) in tasks {
        let mut window = window_with(r, slots, number);
        let got = library::monitor_take(&mut window.now, task, 5);
        tally.note(TAKE, refused(decides), got, window.holds(None), || format!("{} slots {} tasks {}", slots, number, task));
        for length in 0..3 {
            let mut answer = words(r, length);
            let got = library::monitor_show(&window.now, task, &mut answer.now);
            let same = window.holds(None) && answer.holds(None);
            tally.note(SHOW, refused(decides), got, same, || format!("{} slots {} tasks {} answer {}", slots, number, task, length));
        }
    }

    // a window and a task in it: the answer decides
    for (slots, number, task) in [(546, 1, 0), (546, 3, 2), (600, 32, 31)] {
        for length in 0..3 {
            let (window, mut answer) = (window_with(r, slots, number), words(r, length));
            let got = library::monitor_show(&window.now, task, &mut answer.now);
            let same = window.holds(None) && answer.holds(None);
            tally.note(SHOW, refused((13, 3)), got, same, || format!("{} slots {} tasks {} answer {}", slots, number, task, length));
        }
    }

    // the slots of the window, its number of tasks, the slots of the columns, and what decides in a show of all
    let columns: [(usize, u64, [usize; 3], (u32, u64)); 13] = [
        (0, 0, [0, 0, 0], (13, 546)),
        (545, 0, [0, 0, 0], (13, 546)),
        (545, 33, [40, 40, 40], (13, 546)),
        (545, 3, [3, 3, 3], (13, 546)),
        (546, 0, [0, 0, 0], (5, 0)),
        (546, 33, [0, 0, 0], (4, 32)),
        (546, (1 << 32) + 3, [3, 3, 3], (4, 32)),
        (546, 32, [31, 32, 32], (13, 32)),
        (546, 32, [32, 31, 32], (13, 32)),
        (546, 32, [32, 32, 31], (13, 32)),
        (600, 1, [0, 1, 1], (13, 1)),
        (546, 1, [1, 0, 9], (13, 1)),
        (546, 3, [9, 9, 2], (13, 3)),
    ];
    for (slots, number, [a, b, c], decides) in columns {
        let window = window_with(r, slots, number);
        let (mut jobs, mut late, mut largest) = (numbers(r, a), numbers(r, b), words(r, c));
        let got = library::monitor_show_all(&window.now, &mut jobs.now, &mut late.now, &mut largest.now);
        let same = window.holds(None) && jobs.holds(None) && late.holds(None) && largest.holds(None);
        tally.note(SHOW_ALL, refused(decides), got, same, || format!("{} slots {} tasks columns {:?}", slots, number, [a, b, c]));
    }
}

/// What is shown of each task after each of the first jobs, of sheets with so many tasks, before a job and with the ring filled anew.
pub fn first_jobs(r: &mut Random, tally: &mut Tally, jobs: u64, sheets: &[usize]) {
    for &tasks in sheets {
        for style in RESPONSES {
            let slots = r.of(&[546, 547, 600]);
            let mut monitor = opened_on(r, tally, tasks, slots);
            for n in 0..=jobs {
                monitor.show_each(r, tally);
                let task = r.within(0, tasks as u32 - 1);
                let response = style.next(r, n, deadline(&monitor, task));
                monitor.take(tally, task, response);
            }
        }
    }
}

/// Equal largest responses at these places of a run and smaller ones at all others: the largest is shown up to the last job with which one
/// of them is among the last 256, and not after it, whatever the jobs between them are.
pub fn equal_largest(r: &mut Random, tally: &mut Tally) {
    let places: [&[usize]; 8] = [
        &[0], &[0, 1], &[0, 255], &[100, 101, 102], &[5, 9, 200, 260, 261], &[250, 255, 256, 257], &[0, 256, 512], &[300, 555, 811],
    ];
    let all: Vec<usize> = (0..300).collect();
    for (places, others) in places.into_iter().chain([&all[..]]).flat_map(|p| [(p, 0), (p, 1)]) {
        let (least, most) = r.of(&[(1, 9), (7, u64::MAX), (u64::MAX - 1, u64::MAX), (0, 1)]);
        let mut monitor = opened_on(r, tally, 1 + others as usize, 546);
        for n in 0..1_100 {
            // every job of task 0, or all but the largest ones of the other task
            let large = places.contains(&n);
            let task = if large { 0 } else { others };
            monitor.take(tally, task, if large { most } else { least });
            monitor.show(r, tally, 0, 3);
            let first = (n + 1).saturating_sub(256);
            let among = places.iter().filter(|&&p| (first..=n).contains(&p)).count() as u64;
            let jobs = if others == 0 { (n + 1 - first) as u64 } else { among };
            let largest = if among > 0 { most } else if jobs > 0 { least } else { 0 };
            let mut answer = [0; 3];
            let got = library::monitor_show(&monitor.lent, 0, &mut answer);
            let same = (answer[0], answer[2]) == (jobs, largest);
            tally.note(SHOW, None, got, same, || format!("{} at {:?} of {} jobs: {:?}, not {:?}", most, places, n + 1, answer, (jobs, largest)));
        }
    }
}

/// Long runs, one for each number of tasks, of these numbers of jobs in turn: tasks that are not in the sheet among them, shows between
/// them, the window moved, openings that are refused, and where it is reopened openings on other sheets.
pub fn long_runs(r: &mut Random, tally: &mut Tally, jobs: &[u64], reopened: bool) {
    for tasks in 1..=32 {
        let (length, slots) = (jobs[tasks % jobs.len()], r.of(&[546, 546, 547, 600]));
        let mut monitor = opened_on(r, tally, tasks, slots);
        let mut style = r.of(&RESPONSES);
        for n in 0..length {
            let count = monitor.tasks();
            let known = r.within(0, count - 1);
            let task = if r.once_in(12) { no_task_of(r, count) } else { known };
            let response = style.next(r, n, deadline(&monitor, known));
            monitor.take(tally, task, response);
            if r.once_in(3) {
                monitor.show_some(r, tally);
            }
            if r.once_in(300) {
                style = r.of(&RESPONSES);
                monitor.moved();
                refused_opening(r, tally, &mut monitor);
            }
            if reopened && r.once_in(1_500) {
                let tasks = r.within(1, 32) as usize;
                let sheet = watched_sheet(r, tasks);
                monitor.open(tally, &Case::sound(r, &sheet, &[]));
            }
        }
        monitor.show_each(r, tally);
    }
}

/// An opening that is refused, in the middle of a run: the display is as it was.
fn refused_opening(r: &mut Random, tally: &mut Tally, monitor: &mut Monitor) {
    let tasks = r.within(1, 32);
    let sheet = watched_sheet(r, tasks as usize);
    let (mut case, task) = (Case::sound(r, &sheet, &[]), r.within(0, tasks - 1) as usize);
    match r.within(0, 3) {
        0 => case.count = r.of(&[0, 33, u32::MAX]),
        1 => case.numbers[TASK_NUMBERS * task + 3] = r.of(&[0, 1_000_001, u32::MAX]),
        2 => case.numbers.truncate(TASK_NUMBERS * task),
        _ => (case.charge, case.numbers[TASK_NUMBERS * task]) = (255, 1),
    }
    assert!(reference::check_sheet(&case.sheet()).is_err());
    monitor.open(tally, &case);
    monitor.show_each(r, tally);
}

/// Openings on sheets that may be refused, in windows of each length, with the first jobs of those that are not.
pub fn openings(r: &mut Random, tally: &mut Tally, cases: u32) {
    for _ in 0..cases {
        let tasks = r.within(1, 32) as usize;
        let sheet = if r.once_in(2) { watched_sheet(r, tasks) } else { boundary_sheet(r) };
        let sheet = if r.once_in(2) { with_charge(r, sheet) } else { sheet };
        let mut case = Case::sound(r, &sheet, &[]);
        if r.once_in(3) {
            case.damage(r);
        }
        let slots = if r.once_in(2) { r.of(&LENGTHS) } else { WINDOW_SLOTS };
        let (tasks, count) = (r.of(&HELD_TASKS), r.of(&HELD_COUNTS));
        let mut monitor = Monitor::of(any_window(r, slots, tasks, count));
        monitor.open(tally, &case);
        for n in 0..3 {
            let task = r.within(0, 3);
            monitor.take(tally, task, n);
            monitor.show_some(r, tally);
        }
    }
}

/// Windows that no call made, of each length, number of tasks and count of jobs: every call, and some jobs more, of some so many that the
/// ring is filled anew.
pub fn any_slots(r: &mut Random, tally: &mut Tally, cases: u32) {
    let all = HELD_TASKS.iter().flat_map(|&tasks| HELD_COUNTS.iter().map(move |&count| (tasks, count)));
    for (tasks, count) in all {
        for slots in LENGTHS {
            let monitor = Monitor::of(any_window(r, slots, tasks, count));
            any_calls(r, tally, monitor, if slots == WINDOW_SLOTS { 600 } else { 4 });
        }
    }
    for _ in 0..cases {
        let (tasks, near) = (r.tick(1, 32), r.of(&HELD_COUNTS).wrapping_add(r.tick(0, 4)).wrapping_sub(2));
        let count = if r.once_in(4) { r.bits() } else { near };
        let monitor = Monitor::of(any_window(r, WINDOW_SLOTS, tasks, count));
        any_calls(r, tally, monitor, 6);
    }
}

fn any_calls(r: &mut Random, tally: &mut Tally, mut monitor: Monitor, jobs: u64) {
    let tasks = monitor.tasks();
    monitor.show_each(r, tally);
    for n in 0..jobs {
        monitor.show_some(r, tally);
        let task = if r.once_in(8) { no_task_of(r, tasks) } else { r.within(0, tasks - 1) };
        let response = r.of(&RESPONSES).next(r, n, 1_000);
        monitor.take(tally, task, response);
    }
    monitor.show_each(r, tally);
}
