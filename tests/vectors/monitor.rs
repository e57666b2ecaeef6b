//! The cases of `vectors_monitor`: windows of the last 256 jobs. What is shown is counted anew from the whole list of jobs, and the slots
//! are worked out from the numbers of the jobs in the run, not step by step.

use crate::case::*;
use crate::lists::full_sheet;
use crate::reference::{check_sheet, Refusal, Sheet};

/// The jobs that count.
const LAST: usize = 256;
/// The slots of a window, and the first of deadlines, tasks and responses.
const SLOTS: usize = 546;
const DEADLINES: usize = 2;
const TASKS: usize = 34;
const RESPONSES: usize = 290;

/// What a slot holds that no call has written.
const OTHER: u64 = 77;

/// A finished job: task and response.
type Job = (u64, u64);

/// A window: its slots when it was opened or given, and every job since then, those that it held when it was given first. The jobs are
/// numbered in the order of the run; number k is at place k mod 256 of the ring.
struct Window {
    slots: Vec<u64>,
    jobs: Vec<Job>,
    held: usize,
    first: usize,
}

impl Window {
    /// The window that these slots stand for. The numbers of a full ring tell no more than its next place.
    fn given(slots: &[u64]) -> Window {
        let slot = |i: usize| slots.get(i).copied().unwrap_or(0);
        let next = if slot(1) < LAST as u64 { slot(1) as usize } else { LAST + (slot(1) % LAST as u64) as usize };
        let first = next.saturating_sub(LAST);
        let jobs: Vec<Job> = (first..next).map(|k| (slot(TASKS + k % LAST), slot(RESPONSES + k % LAST))).collect();
        Window { slots: slots.to_vec(), held: jobs.len(), jobs, first }
    }

    fn open(&mut self, sheet: &Sheet) -> Result<(), Refusal> {
        check_sheet(sheet)?;
        check_slots(self.slots.len(), SLOTS)?;
        let mut slots = self.now();
        slots[0] = sheet.count as u64;
        slots[1] = 0;
        for i in 0..sheet.count {
            slots[DEADLINES + i] = sheet.task(i).d as u64;
        }
        *self = Window { slots, jobs: Vec::new(), held: 0, first: 0 };
        Ok(())
    }

    fn check(&self) -> Result<(), Refusal> {
        check_slots(self.slots.len(), SLOTS)?;
        match self.slots[0] {
            0 => refuse(5, 0),
            1..=32 => Ok(()),
            _ => refuse(4, 32),
        }
    }

    fn check_task(&self, task: u32) -> Result<(), Refusal> {
        self.check()?;
        if task as u64 >= self.slots[0] { refuse(14, task as u64) } else { Ok(()) }
    }

    fn take(&mut self, task: u32, response: u64) -> Result<(), Refusal> {
        self.check_task(task)?;
        self.jobs.push((task as u64, response));
        Ok(())
    }

    /// Number of jobs, late ones and largest response of a task among the last 256.
    fn count(&self, task: usize) -> (u32, u32, u64) {
        let last = &self.jobs[self.jobs.len().saturating_sub(LAST)..];
        let own: Vec<u64> = last.iter().filter(|job| job.0 == task as u64).map(|job| job.1).collect();
        let late = own.iter().filter(|&&response| response > self.slots[DEADLINES + task]).count();
        (own.len() as u32, late as u32, own.iter().copied().max().unwrap_or(0))
    }

    /// The slots as they stand now.
    fn now(&self) -> Vec<u64> {
        let mut slots = self.slots.clone();
        for (k, &(task, response)) in self.jobs.iter().enumerate().skip(self.held) {
            let place = (self.first + k) % LAST;
            (slots[TASKS + place], slots[RESPONSES + place]) = (task, response);
        }
        if self.jobs.len() > self.held {
            let all = self.first + self.jobs.len();
            slots[1] = if all < LAST { all } else { LAST + all % LAST } as u64;
        }
        slots
    }
}

fn refuse<T>(number: u32, place: u64) -> Result<T, Refusal> {
    Err(Refusal { number, place })
}

fn check_slots(slots: usize, needed: usize) -> Result<(), Refusal> {
    if slots < needed { refuse(13, needed as u64) } else { Ok(()) }
}

/// An opening, where there is a sheet, and the jobs after it; whether what is shown of its task is printed after each.
#[derive(Clone)]
struct Run {
    sheet: Option<Sheet>,
    jobs: Vec<(u32, u64)>,
    each: bool,
}

impl Run {
    fn none() -> Run {
        Run { sheet: None, jobs: Vec::new(), each: false }
    }
    fn on(sheet: &Sheet, jobs: &[(u32, u64)]) -> Run {
        Run { sheet: Some(sheet.clone()), jobs: jobs.to_vec(), each: false }
    }
    /// The jobs alone, on a window as it is.
    fn going_on(jobs: &[(u32, u64)]) -> Run {
        Run { jobs: jobs.to_vec(), ..Run::none() }
    }
    fn blocks(&self, shown: u32) -> [Vec<u8>; 3] {
        let none = Sheet::of(&[]);
        let head = head(self.sheet.is_some() as u32, &[shown, self.each as u32], self.sheet.as_ref().unwrap_or(&none));
        let (tasks, responses): (Vec<u32>, Vec<u64>) = self.jobs.iter().copied().unzip();
        [head, numbers(&tasks), numbers(&responses)]
    }
    fn answer(&self, window: &mut Window) -> String {
        let mut line = match &self.sheet {
            Some(sheet) => window.open(sheet).map_or_else(refused, |()| " fine".to_string()),
            None => String::new(),
        };
        for (i, &(task, response)) in self.jobs.iter().enumerate() {
            match window.take(task, response) {
                Err(r) => line += &format!(", job {i}{}", refused(r)),
                Ok(()) if self.each => line += &format!(", job {i}{}", shows(window, task)),
                Ok(()) => (),
            }
        }
        line + ";"
    }
}

fn shows(window: &Window, task: u32) -> String {
    match window.check_task(task) {
        Err(r) => refused(r),
        Ok(()) => {
            let (jobs, late, largest) = window.count(task as usize);
            format!(" shows {jobs} {late} {largest}")
        }
    }
}

/// A case: a lent window, one or two runs on it, the task that is shown, and the columns in which all are.
#[derive(Clone)]
struct WindowCase {
    slots: Vec<u64>,
    runs: [Run; 2],
    shown: u32,
    jobs: Vec<u32>,
    late: Vec<u32>,
    largest: Vec<u64>,
}

impl WindowCase {
    /// A window of 546 slots, and columns with a slot more than the sheet has tasks.
    fn of(run: Run, shown: u32) -> WindowCase {
        let tasks = run.sheet.as_ref().map_or(32, |s| s.count.min(32));
        WindowCase {
            slots: vec![OTHER; SLOTS],
            runs: [run, Run::none()],
            shown,
            jobs: held(tasks + 1),
            late: held(tasks + 1),
            largest: vec![OTHER; tasks + 1],
        }
    }
    /// Calls on these slots, which no opening has written.
    fn given(slots: &[u64], jobs: &[(u32, u64)], shown: u32) -> WindowCase {
        WindowCase { slots: slots.to_vec(), ..WindowCase::of(Run::going_on(jobs), shown) }
    }
    fn then(&self, run: Run) -> WindowCase {
        WindowCase { runs: [self.runs[0].clone(), run], ..self.clone() }
    }
    fn columns(&self, jobs: usize, late: usize, largest: usize) -> WindowCase {
        WindowCase { jobs: held(jobs), late: held(late), largest: vec![OTHER; largest], ..self.clone() }
    }

    fn blocks(&self) -> Vec<Vec<u8>> {
        let [head, tasks, responses] = self.runs[0].blocks(self.shown);
        let mut all = vec![head, numbers(&self.slots), tasks, responses];
        all.extend(self.runs[1].blocks(0));
        all.extend([numbers(&self.jobs), numbers(&self.late), numbers(&self.largest)]);
        all
    }

    fn answer(&self) -> String {
        let mut window = Window::given(&self.slots);
        let mut line = self.runs[0].answer(&mut window);
        line += &self.runs[1].answer(&mut window);
        for (i, (before, after)) in self.slots.iter().zip(window.now()).enumerate() {
            if *before != after {
                line += &format!(", {i} {after}");
            }
        }
        line + ";" + &shows(&window, self.shown) + ";" + &self.all(&window)
    }

    fn all(&self, window: &Window) -> String {
        let answer = window.check().and_then(|()| {
            let tasks = window.slots[0] as usize;
            [self.jobs.len(), self.late.len(), self.largest.len()].iter().try_for_each(|&slots| check_slots(slots, tasks))?;
            Ok((0..tasks).map(|i| window.count(i)).collect::<Vec<_>>())
        });
        let (said, counts) = match answer {
            Err(r) => (refused(r), Vec::new()),
            Ok(counts) => (" fine".to_string(), counts),
        };
        let jobs: Vec<u32> = counts.iter().map(|c| c.0).collect();
        let late: Vec<u32> = counts.iter().map(|c| c.1).collect();
        let largest: Vec<u64> = counts.iter().map(|c| c.2).collect();
        let largest = written(&largest, &self.largest).iter().fold(",".to_string(), |text, v| text + &format!(" {v}"));
        said + &column(&written(&jobs, &self.jobs)) + &column(&written(&late, &self.late)) + &largest
    }
}

/// A number of things, in words.
fn many(n: usize, what: &str) -> String {
    format!("{n} {what}{}", if n == 1 { "" } else { "s" })
}

fn add(v: &mut Vectors, label: &str, c: &WindowCase) {
    v.case(label, &c.blocks(), &c.answer());
}

/// Jobs of so many tasks that look random, about half of them late.
fn mixed(sheet: &Sheet, n: usize, seed: u64) -> Vec<(u32, u64)> {
    let mut m = Mixer::from(seed);
    let mut one = || {
        let task = m.within(0, sheet.count as u32 - 1);
        (task, m.within(0, 2 * sheet.task(task as usize).d) as u64)
    };
    (0..n).map(|_| one()).collect()
}

/// A sheet of one task.
fn single(d: u32) -> Sheet {
    sheet(&[(1_000_000, 0, 1, d)])
}

/// Lines worked out by hand.
fn by_hand(v: &mut Vectors) {
    let mut worked = |label: &str, c: &WindowCase, line: &str| v.worked(label, &c.blocks(), &c.answer(), line);
    let folder = folder_sheet();
    let each = |jobs: &[(u32, u64)]| Run { each: true, ..Run::on(&folder, jobs) };
    worked(
        "no job",
        &WindowCase::of(each(&[]), 0),
        " fine;;, 0 3, 1 0, 2 6, 3 8, 4 11; shows 0 0 0; fine, 0 0 0 -, 0 0 0 -, 0 0 0 77",
    );
    worked(
        "three jobs of the folder sheet",
        &WindowCase::of(each(&[(0, 3), (2, 5), (0, 6)]), 0),
        " fine, job 0 shows 1 0 3, job 1 shows 1 0 5, job 2 shows 2 0 6;;, 0 3, 1 3, 2 6, 3 8, 4 11, 34 0, 35 2, 36 0, 290 3, 291 5, 292 6; \
         shows 2 0 6; fine, 2 0 1 -, 0 0 0 -, 6 0 5 77",
    );
    worked(
        "late jobs and one of a task that is not there",
        &WindowCase::of(each(&[(1, 9), (3, 1), (0, 7), (1, 8)]), 1),
        " fine, job 0 shows 1 1 9, job 1 refused 14 at 3, job 2 shows 1 1 7, job 3 shows 2 1 9;;, 0 3, 1 3, 2 6, 3 8, 4 11, 34 1, 35 0, 36 1, \
         290 9, 291 7, 292 8; shows 2 1 9; fine, 1 2 0 -, 1 1 0 -, 7 9 0 77",
    );
    let mut jobs = vec![(0, 900)];
    jobs.extend([(0, 5); 256]);
    let mut slots = vec![OTHER; SLOTS];
    slots[TASKS..].fill(0);
    slots[RESPONSES..].fill(5);
    let c = WindowCase { slots, ..WindowCase::of(Run::on(&single(899), &jobs), 0) };
    worked("the largest of one task has left", &c, " fine;;, 0 1, 1 257, 2 899; shows 256 0 5; fine, 256 -, 0 -, 5 77");
    let c = WindowCase { runs: [Run::on(&single(899), &jobs[..256]), Run::none()], ..c };
    worked("the largest of one task has not left", &c, " fine;;, 0 1, 1 256, 2 899, 290 900; shows 256 1 900; fine, 256 -, 1 -, 900 77");
}

/// Numbers of jobs on both sides of a full ring, and of a second and a third time round.
fn lengths(v: &mut Vectors) {
    for (name, sheet) in [("1 task", single(500)), ("3 tasks", folder_sheet()), ("32 tasks", full_sheet())] {
        for n in [0, 1, 2, 255, 256, 257, 511, 512, 513, 767, 768, 769, 1000] {
            let jobs = mixed(&sheet, n, n as u64);
            add(v, &format!("{}, {name}", many(n, "job")), &WindowCase::of(Run::on(&sheet, &jobs), sheet.count as u32 - 1));
        }
    }
}

/// The largest of a task, and its only job, leave the ring.
fn leaving(v: &mut Vectors) {
    let two = sheet(&[(100, 0, 1, 50), (100, 0, 1, 60)]);
    let mut jobs: Vec<(u32, u64)> = (0..400).map(|k| ((k % 5 == 0) as u32, (k % 50) as u64)).collect();
    let mut rows = |name: &str, jobs: &[(u32, u64)], shown: u32, lengths: &[usize]| {
        for &n in lengths {
            add(v, &format!("{name}, {}", many(n, "job")), &WindowCase::of(Run::on(&two, &jobs[..n]), shown));
        }
    };
    jobs[0] = (1, 700);
    rows("the largest comes first", &jobs, 1, &[256, 257]);
    jobs[1] = (1, 700);
    rows("two equal largest come first", &jobs, 1, &[256, 257, 258]);
    (jobs[1], jobs[100]) = ((0, 3), (1, 700));
    rows("two equal largest, a hundred apart", &jobs, 1, &[256, 257, 356, 357]);
    let mut once: Vec<(u32, u64)> = vec![(0, 60); 300];
    once[0] = (1, 60);
    rows("the only job of task 1 comes first", &once, 1, &[1, 256, 257]);
    once[0] = (1, 61);
    rows("the only job of task 1 comes first, late", &once, 1, &[1, 256, 257]);
    let falling: Vec<(u32, u64)> = (0..300).map(|k| (0, 300 - k)).collect();
    let rising: Vec<(u32, u64)> = (0..300).map(|k| (0, k)).collect();
    for (name, jobs) in [("falling", falling), ("rising", rising)] {
        let run = Run { each: true, ..Run::on(&two, &jobs) };
        add(v, &format!("{name} responses, each shown"), &WindowCase::of(run, 0));
    }
    let run = Run { each: true, ..Run::on(&full_sheet(), &mixed(&full_sheet(), 600, 6)) };
    add(v, "600 jobs of 32 tasks, each shown", &WindowCase::of(run, 7));
}

/// Responses around a deadline, the least and the largest of all, and those that 32 bits do not hold.
fn responses(v: &mut Vectors) {
    for d in [1u64, 2, 500, 1_000_000] {
        let mut all = vec![d - 1, d, d + 1, 0, u64::MAX, u64::MAX - 1, 1 << 32, (1 << 32) + d, 1 << 63, d];
        for name in ["forwards", "backwards"] {
            let jobs: Vec<(u32, u64)> = all.iter().map(|&r| (0, r)).collect();
            let run = Run { each: true, ..Run::on(&single(d as u32), &jobs) };
            add(v, &format!("responses around D {d}, {name}"), &WindowCase::of(run, 0));
            all.reverse();
        }
    }
    let one = sheet(&[(9, 0, 1, 9), (9, 0, 1, 8)]);
    for r in [0, 8, 9, 10, u64::MAX] {
        add(v, &format!("one job of task 1 with D 8 and response {r}"), &WindowCase::of(Run::on(&one, &[(1, r)]), 1));
    }
    let jobs = vec![(0, u64::MAX); 256];
    add(v, "256 times the largest response", &WindowCase::of(Run::on(&one, &jobs), 0));
    add(v, "256 times response 0", &WindowCase::of(Run::on(&one, &[(0, 0); 256]), 0));
}

/// Tasks that the sheet has not, between others, and as the one shown.
fn no_such_task(v: &mut Vectors) {
    let folder = folder_sheet();
    let strangers = [3, 4, 31, 32, 33, 255, 256, 1 << 16, 1 << 31, u32::MAX];
    let mut between = |name: &str, n: usize| {
        let jobs: Vec<(u32, u64)> = (mixed(&folder, n, 14).into_iter().enumerate())
            .flat_map(|(k, job)| if k * 7 % n < 10 { vec![(strangers[k % 10], 9_000), job] } else { vec![job] })
            .collect();
        add(v, &format!("tasks that are not there, {name}"), &WindowCase::of(Run::on(&folder, &jobs), 2));
    };
    between("9 others", 9);
    between("256 others", 256);
    between("300 others", 300);
    let full = full_sheet();
    for task in [31, 32, 33, u32::MAX] {
        let jobs = [(31, 5), (task, 7), (30, 6)];
        add(v, &format!("task {task} of 32 finishes and is shown"), &WindowCase::of(Run::on(&full, &jobs), task));
    }
    for task in [1, 32, u32::MAX] {
        add(v, &format!("task {task} of 1 finishes and is shown"), &WindowCase::of(Run::on(&single(5), &[(task, 7)]), task));
    }
    let run = Run { each: true, ..Run::on(&folder, &[(3, 1), (0, 1), (u32::MAX, 2)]) };
    add(v, "each shown, and two that are not there", &WindowCase::of(run, 0));
}

/// Sheets that are refused, and what they are refused with.
fn wrong_sheets() -> Vec<(&'static str, Sheet)> {
    let mut all: Vec<(&str, Sheet)> = Vec::new();
    let mut add = |label, change: &dyn Fn(&mut Sheet)| {
        let mut s = folder_sheet();
        change(&mut s);
        all.push((label, s));
    };
    add("count 0", &|s| s.count = 0);
    add("count 33", &|s| s.count = 33);
    add("count 4294967295", &|s| s.count = u32::MAX as usize);
    add("count 4, an entry of 0", &|s| s.count = 4);
    add("P 0 of task 1", &|s| s.tasks[1].p = 0);
    add("D 1000001 of task 2", &|s| s.tasks[2].d = 1_000_001);
    add("charge 5", &|s| s.charge = 5);
    add("charge 4, E 5 of task 1", &|s| (s.charge, s.tasks[1].e) = (4, 5));
    add("charge 4, E 9 of task 1", &|s| (s.charge, s.tasks[1].e) = (4, 9));
    all
}

fn openings(v: &mut Vectors) {
    let folder = folder_sheet();
    let jobs = mixed(&folder, 20, 20);
    for (label, sheet) in wrong_sheets() {
        let c = WindowCase::of(Run::on(&folder, &jobs), 1);
        add(v, &format!("{label}, slots of no window"), &WindowCase { runs: [Run::on(&sheet, &jobs[..2]), Run::none()], ..c.clone() });
        add(v, &format!("{label}, after a run"), &c.then(Run::on(&sheet, &jobs[..7])));
        let run = Run::on(&sheet, &[]);
        add(v, &format!("{label}, window of 545 slots"), &WindowCase { slots: vec![OTHER; 545], runs: [run, Run::none()], ..c });
    }
    let past = Sheet { count: 2, ..folder.clone() };
    add(v, "entries past the count", &WindowCase::of(Run::on(&past, &[(1, 9), (2, 9)]), 1));
    let low = folder.marked(&[true, false, true]).charged(1);
    add(v, "a charge and low tasks", &WindowCase::of(Run::on(&low, &jobs), 2));
    let mut edge = full_sheet();
    edge.tasks[0].d = 1_000_000;
    edge.tasks[31] = task(1_000_000, 0, 1, 1);
    add(v, "least and largest D of 32 tasks", &WindowCase::of(Run::on(&edge, &[(0, 1_000_000), (0, 1_000_001), (31, 1), (31, 2)]), 31));
}

/// A second opening after a run: no job of before counts, and the D are the new ones.
fn second_openings(v: &mut Vectors) {
    let (folder, full) = (folder_sheet(), full_sheet());
    for (before, after) in [(0, 0), (0, 3), (1, 0), (1, 1), (255, 1), (256, 0), (256, 1), (257, 255), (600, 256), (300, 257)] {
        let first = Run::on(&full, &mixed(&full, before, 1));
        let second = Run::on(&folder, &mixed(&folder, after, 2));
        add(v, &format!("32 tasks, {}, then 3 tasks, {}", many(before, "job"), many(after, "job")), &WindowCase::of(first, 2).then(second));
    }
    for (before, after) in [(256, 0), (300, 5)] {
        let first = Run::on(&folder, &mixed(&folder, before, 3));
        let second = Run::on(&full, &mixed(&full, after, 4));
        let c = WindowCase::of(first, 31).then(second).columns(33, 33, 33);
        add(v, &format!("3 tasks, {before} jobs, then 32 tasks, {after} jobs"), &c);
    }
    let jobs = mixed(&folder, 100, 5);
    let again = Run { each: true, ..Run::on(&folder, &[(0, 6), (0, 7)]) };
    add(v, "the same sheet again", &WindowCase::of(Run::on(&folder, &jobs), 0).then(again));
    add(v, "jobs in two parts", &WindowCase::of(Run::on(&folder, &mixed(&folder, 200, 8)), 1).then(Run::going_on(&mixed(&folder, 200, 9))));
}

/// Windows of other lengths, opened and not.
fn window_lengths(v: &mut Vectors) {
    let folder = folder_sheet();
    let jobs = [(0, 7), (2, 12), (5, 1)];
    for n in [0usize, 1, 2, 34, 290, 545, 546, 547, 550] {
        let c = WindowCase { slots: vec![OTHER; n], ..WindowCase::of(Run::on(&folder, &jobs), 2) };
        add(v, &format!("opened window of {}", many(n, "slot")), &c);
    }
    for n in [0usize, 1, 545, 546, 550] {
        let mut slots = vec![3; n];
        slots.iter_mut().skip(1).for_each(|s| *s = 2);
        add(v, &format!("window of {}, not opened", many(n, "slot")), &WindowCase::given(&slots, &jobs, 2).columns(4, 4, 4));
    }
}

/// Columns that are too short, each of them, and longer ones.
fn columns(v: &mut Vectors) {
    let folder = folder_sheet();
    let c = WindowCase::of(Run::on(&folder, &mixed(&folder, 10, 13)), 0);
    let lengths = [
        (3, 3, 3), (2, 3, 3), (3, 2, 3), (3, 3, 2), (2, 2, 2), (0, 3, 3), (3, 0, 3), (3, 3, 0), (0, 0, 0), (3, 4, 60), (60, 3, 3), (4, 60, 3),
    ];
    for (jobs, late, largest) in lengths {
        add(v, &format!("columns of {jobs}, {late} and {largest} slots"), &c.columns(jobs, late, largest));
    }
    let full = full_sheet();
    let c = WindowCase::of(Run::on(&full, &mixed(&full, 300, 13)), 0);
    for (jobs, late, largest) in [(32, 32, 32), (31, 32, 32), (32, 31, 32), (32, 32, 31)] {
        add(v, &format!("32 tasks, columns of {jobs}, {late} and {largest} slots"), &c.columns(jobs, late, largest));
    }
    let c = WindowCase::given(&[0; SLOTS], &[], 0).columns(0, 0, 0);
    add(v, "no task and no column", &c);
}

/// A window of so many tasks and this count that no call has made: D 100 + i, tasks that go round, and two that are not there.
fn made(tasks: u64, count: u64) -> Vec<u64> {
    let mut slots = vec![OTHER; SLOTS];
    (slots[0], slots[1]) = (tasks, count);
    for i in 0..32 {
        slots[DEADLINES + i] = 100 + i as u64;
    }
    for k in 0..LAST {
        slots[TASKS + k] = k as u64 * 5 % 34;
        slots[RESPONSES + k] = 90 + k as u64 * 11 % 47;
    }
    slots
}

/// Slots that no call has made: every number has a meaning or is refused.
fn made_by_no_call(v: &mut Vectors) {
    let jobs = [(0, 101), (31, 5)];
    for tasks in [0, 1, 2, 31, 32, 33, 256, 1 << 32, (1 << 32) + 3, 1 << 63, u64::MAX] {
        add(v, &format!("slot 0 at {tasks}"), &WindowCase::given(&made(tasks, 40), &jobs, 0));
    }
    for count in [0, 1, 254, 255, 256, 257, 510, 511, 512, 513, 1023, 1024, 1 << 32, (1 << 32) + 255, 1 << 63, u64::MAX - 1, u64::MAX] {
        add(v, &format!("slot 1 at {count}"), &WindowCase::given(&made(32, count), &[], 5));
        add(v, &format!("slot 1 at {count}, two jobs"), &WindowCase::given(&made(32, count), &jobs, 31));
    }
    for count in [255, 512, u64::MAX] {
        let jobs = mixed(&full_sheet(), 300, count);
        add(v, &format!("slot 1 at {count}, 300 jobs"), &WindowCase::given(&made(32, count), &jobs, 9));
    }
    for held in [1u64, 32, (1 << 32) + 1, u64::MAX] {
        let mut slots = made(3, 256);
        slots[TASKS..RESPONSES].fill(held);
        add(v, &format!("every job of task {held}, 3 tasks"), &WindowCase::given(&slots, &[], 1));
    }
    for (name, d) in [("0", 0), ("4294967396", (1 << 32) + 100), ("18446744073709551615", u64::MAX)] {
        let mut slots = made(32, 300);
        slots[DEADLINES..TASKS].fill(d);
        slots[RESPONSES + 9] = u64::MAX;
        add(v, &format!("every D {name}"), &WindowCase::given(&slots, &jobs, 11));
    }
    add(v, "every slot 0", &WindowCase::given(&[0; SLOTS], &jobs, 0));
    add(v, "every slot 1", &WindowCase::given(&[1; SLOTS], &jobs, 0));
    add(v, "every slot 32", &WindowCase::given(&[32; SLOTS], &jobs, 31));
    add(v, "every slot 18446744073709551615", &WindowCase::given(&[u64::MAX; SLOTS], &jobs, 0));
    for task in [0, 2, 3, 31, 32, u32::MAX] {
        add(v, &format!("3 tasks, task {task} shown"), &WindowCase::given(&made(3, 256), &[], task));
    }
}

pub fn vectors() -> Vectors {
    let mut v = Vectors::new();
    by_hand(&mut v);
    lengths(&mut v);
    leaving(&mut v);
    responses(&mut v);
    no_such_task(&mut v);
    openings(&mut v);
    second_openings(&mut v);
    window_lengths(&mut v);
    columns(&mut v);
    made_by_no_call(&mut v);
    v
}
