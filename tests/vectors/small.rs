//! The cases of `vectors_small`: the trace at a position, and how many there are. Traces are gone through pair by pair, by tick and then task:
//! first those with all releases left in a pair, then those with one less, and so on down to none. A whole trace is kept where no stretch of
//! ticks has more releases of a task than its arrival count.

use crate::case::*;
use crate::reference::{check_sheet, sigma, Refusal, Release, Sheet, MAX_TIME};
use std::collections::{BTreeMap, BTreeSet};

/// The limits, and the most traces that there are.
const TASKS: usize = 3;
const RELEASES: u32 = 6;
const TICKS: u32 = 12;
const MOST: u64 = 5_245_786;

/// Whether any t ticks have at most ceil((t + J) ÷ P) releases of each task.
fn within_arrivals(sheet: &Sheet, trace: &[Release]) -> bool {
    (0..sheet.count).all(|i| {
        let t = sheet.task(i);
        let own: Vec<i64> = trace.iter().filter(|r| r.task as usize == i).map(|r| r.tick as i64).collect();
        own.iter().enumerate().all(|(n, from)| {
            own[n..].iter().zip(1i64..).all(|(to, many)| many <= sigma(t.p as i64, t.j as i64, to - from + 1))
        })
    })
}

/// Goes through the traces of a sheet.
struct Walk<'a> {
    sheet: &'a Sheet,
    ticks: u32,
    /// How many were met, and those at the positions asked for.
    met: u64,
    found: BTreeMap<u64, Vec<Release>>,
    asked: &'a [u64],
}

impl Walk<'_> {
    /// All that begin with these releases and have so many more, in this tick from this task on or later.
    fn from(&mut self, begun: &mut Vec<Release>, more: u32, tick: u32, task: u32) {
        if more == 0 {
            if within_arrivals(self.sheet, begun) {
                if self.asked.contains(&self.met) {
                    self.found.insert(self.met, begun.clone());
                }
                self.met += 1;
            }
            return;
        }
        if tick == self.ticks {
            return;
        }
        if task == self.sheet.count as u32 {
            return self.from(begun, more, tick + 1, 0);
        }
        let length = begun.len();
        let one = Release { task, tick: tick as u64, cost: self.sheet.task(task as usize).e };
        for here in (0..=more).rev() {
            begun.resize(length + here as usize, one);
            self.from(begun, more - here, tick, task + 1);
            begun.truncate(length);
        }
    }
}

/// How many traces there are, and those at some positions.
fn traces(sheet: &Sheet, releases: u32, ticks: u32, asked: &[u64]) -> (u64, BTreeMap<u64, Vec<Release>>) {
    let mut walk = Walk { sheet, ticks, met: 0, found: BTreeMap::new(), asked };
    for n in 0..=releases {
        walk.from(&mut Vec::new(), n, 0, 0);
    }
    (walk.met, walk.found)
}

fn refuse<T>(number: u32, place: u64) -> Result<T, Refusal> {
    Err(Refusal { number, place })
}

/// What both calls check before 13.
fn check(sheet: &Sheet, releases: u32, ticks: u32) -> Result<(), Refusal> {
    check_sheet(sheet)?;
    match (sheet.count > TASKS, releases > RELEASES, ticks > TICKS) {
        (true, ..) => refuse(4, sheet.count as u64),
        (_, true, _) => refuse(10, releases as u64),
        (.., true) => refuse(8, ticks as u64),
        _ => Ok(()),
    }
}

/// A sheet with a count of releases and a tick bound, and what its slots hold before a call.
#[derive(Clone)]
struct Small {
    sheet: Sheet,
    releases: u32,
    ticks: u32,
    task: Vec<u32>,
    tick: Vec<u64>,
    cost: Vec<u32>,
}

impl Small {
    /// Columns of seven slots.
    fn of(sheet: &Sheet, releases: u32, ticks: u32) -> Small {
        Small { sheet: sheet.clone(), releases, ticks, task: held(7), tick: held(7), cost: held(7) }
    }
    fn columns(&self, task: usize, tick: usize, cost: usize) -> Small {
        Small { task: held(task), tick: held(tick), cost: held(cost), ..self.clone() }
    }
    /// Slots that hold other numbers.
    fn filled(&self) -> Small {
        let n = |length: usize| (1..=length as u32).map(|k| 1_000 * k).collect::<Vec<u32>>();
        let tick = n(self.tick.len()).into_iter().map(|k| k as u64 + (1 << 40)).collect();
        Small { task: n(self.task.len()), tick, cost: n(self.cost.len()), ..self.clone() }
    }

    fn blocks(&self, position: u64) -> Vec<Vec<u8>> {
        let head = head(self.releases, &[self.ticks, position as u32, (position >> 32) as u32], &self.sheet);
        vec![head, numbers(&self.task), numbers(&self.tick), numbers(&self.cost)]
    }

    /// The line of a call for the trace at a position, which is given, and of one for how many there are.
    fn line(&self, trace: Option<&Vec<Release>>, many: u64) -> String {
        let checked = check(&self.sheet, self.releases, self.ticks);
        let needed = trace.map_or(0, |t| t.len());
        let short = [self.task.len(), self.tick.len(), self.cost.len()].iter().any(|&slots| slots < needed);
        let answer = checked.and(if short { refuse(13, needed as u64) } else { Ok(trace) });
        let said = match answer {
            Err(r) => refused(r),
            Ok(None) => String::from(" none"),
            Ok(Some(t)) => format!(" trace {}", t.len()),
        };
        let empty = Vec::new();
        let t = answer.ok().flatten().unwrap_or(&empty);
        let task = written(&t.iter().map(|r| r.task).collect::<Vec<_>>(), &self.task);
        let tick = written(&t.iter().map(|r| r.tick).collect::<Vec<_>>(), &self.tick);
        let cost = written(&t.iter().map(|r| r.cost).collect::<Vec<_>>(), &self.cost);
        let counted = checked.map_or_else(refused, |()| format!(" count {many}"));
        said + &column(&task) + &column(&tick) + &column(&cost) + ";" + &counted
    }

    /// The lines of some positions.
    fn lines(&self, positions: &[u64]) -> Vec<String> {
        let refused = check(&self.sheet, self.releases, self.ticks).is_err();
        let (many, found) = if refused { (0, BTreeMap::new()) } else { traces(&self.sheet, self.releases, self.ticks, positions) };
        positions.iter().map(|p| self.line(found.get(p), many)).collect()
    }

    fn many(&self) -> u64 {
        traces(&self.sheet, self.releases, self.ticks, &[]).0
    }

    /// A case for each of these positions.
    fn add(&self, v: &mut Vectors, label: &str, positions: &[u64]) {
        for (p, line) in positions.iter().zip(self.lines(positions)) {
            v.case(&format!("{label}, position {p}"), &self.blocks(*p), &line);
        }
    }
    fn worked(&self, v: &mut Vectors, label: &str, position: u64, by_hand: &str) {
        v.worked(label, &self.blocks(position), &self.lines(&[position])[0], by_hand);
    }
}

/// Two tasks: the first twice in one tick, the second once in the two ticks that there are.
fn two() -> Sheet {
    sheet(&[(1, 1, 1, 1), (2, 0, 2, 2)])
}

/// Three tasks of which every list of six releases is legal.
fn bursts() -> Sheet {
    sheet(&[(1, 5, 1, 1), (2, 10, 2, 2), (200_000, MAX_TIME, 3, 9)])
}

/// Lines worked out by hand.
fn by_hand(v: &mut Vectors) {
    let one = |p: u32, j: u32| sheet(&[(p, j, 1, p)]);
    // [], 0, 1, 2, then 0 2
    let apart = Small::of(&one(2, 0), 2, 3).columns(2, 2, 2);
    apart.worked(v, "the empty trace", 0, " trace 0, - -, - -, - -; count 5");
    apart.worked(v, "one release", 3, " trace 1, 0 -, 2 -, 1 -; count 5");
    apart.worked(v, "two releases", 4, " trace 2, 0 0, 0 2, 1 1; count 5");
    apart.worked(v, "none", 5, " none, - -, - -, - -; count 5");
    // d(1) is 1 and d(2) is 4: after 1 + 5 + 10 come 0 1 4, 0 2 4 and 0 3 4
    let near = Small::of(&one(3, 2), 3, 5).columns(3, 3, 3);
    near.worked(v, "the last of two releases", 15, " trace 2, 0 0 -, 3 4 -, 1 1 -; count 19");
    near.worked(v, "the first of three releases", 16, " trace 3, 0 0 0, 0 1 4, 1 1 1; count 19");
    near.worked(v, "the last of three releases", 18, " trace 3, 0 0 0, 0 3 4, 1 1 1; count 19");
    // two in one tick, d(2) is 2: after 1 + 3 + 6 come 0 0 2, 0 1 2 and 0 2 2
    Small::of(&one(2, 2), 3, 3).columns(3, 3, 3).worked(v, "a burst", 10, " trace 3, 0 0 0, 0 0 2, 1 1 1; count 13");
    // by tick, then task
    let both = Small::of(&two(), 2, 2).columns(2, 2, 2);
    both.worked(v, "task 1 at 0", 2, " trace 1, 1 -, 0 -, 2 -; count 12");
    both.worked(v, "task 0 twice at 0", 5, " trace 2, 0 0, 0 0, 1 1; count 12");
    both.worked(v, "task 1 at 0, task 0 at 1", 9, " trace 2, 1 0, 0 1, 2 1; count 12");
    both.columns(1, 2, 2).worked(v, "a short column of tasks", 9, " refused 13 at 2, -, - -, - -; count 12");
    Small::of(&bursts(), 6, 12).columns(6, 6, 6).worked(
        v,
        "the last of all",
        MOST - 1,
        " trace 6, 2 2 2 2 2 2, 11 11 11 11 11 11, 3 3 3 3 3 3; count 5245786",
    );
    Small::of(&bursts(), 7, 13).columns(1, 1, 1).worked(v, "10 before 8", 0, " refused 10 at 7, -, -, -; refused 10 at 7");
}

/// Every position of some sheets, and three past the last.
fn every_position(v: &mut Vectors) {
    let three = sheet(&[(1, 0, 1, 1), (2, 3, 2, 2), (3, 1, 3, 3)]);
    for (name, s, releases, ticks) in [
        ("two tasks", two(), 2, 2),
        ("two low tasks", two().marked(&[true, true]), 2, 2),
        ("one task, J below P", sheet(&[(3, 2, 2, 3)]), 3, 5),
        ("one task, J twice P", sheet(&[(2, 4, 1, 2)]), 4, 3),
        ("three tasks", three.clone(), 2, 2),
        ("three tasks, a charge", sheet(&[(9, 8, 2, 9), (8, 16, 2, 9), (MAX_TIME, 0, 5, 12)]).charged(6), 3, 1),
        ("no release", three.clone(), 0, 12),
        ("no tick", three, 6, 0),
    ] {
        let small = Small::of(&s, releases, ticks);
        let many = small.many();
        small.add(v, &format!("{name}, {releases} releases below {ticks}"), &(0..many + 3).collect::<Vec<_>>());
    }
}

/// Chosen positions of larger sheets, up to the largest.
fn chosen(v: &mut Vectors) {
    for (name, s, releases, ticks) in [
        ("one task, P 1", sheet(&[(1, 0, 1, 1)]), 6, 12),
        ("one task, P 2, J 1", sheet(&[(2, 1, 1, 2)]), 6, 12),
        ("one task in all ticks", sheet(&[(MAX_TIME, 0, 7, 8)]), 6, 12),
        ("the folder sheet", folder_sheet(), 4, 8),
        ("bursts of two", sheet(&[(12, 12, 1, 12), (256, 256, 2, 12), (65_536, 65_536, 3, 12)]), 5, 6),
        ("two tasks, bursts", sheet(&[(1, 6, 1, 1), (2, 12, 1, 2)]), 6, 5),
    ] {
        let small = Small::of(&s, releases, ticks);
        let many = small.many();
        let mut m = Mixer::from(12);
        let mut positions = BTreeSet::from([0, 1, many - 1, many, u64::MAX, 1 << 32, (1 << 32) + 1]);
        positions.extend((0..5).map(|_| m.within(2, many as u32 - 2) as u64));
        small.add(v, &format!("{name}, {releases} releases below {ticks}"), &positions.into_iter().collect::<Vec<_>>());
    }
    // the first and the last of each number of releases, where every list is legal
    let up_to = [1, 37, 703, 9_139, 91_390, 749_398, MOST];
    for n in 1..=4 {
        let small = Small::of(&bursts(), n, 12);
        assert_eq!(small.many(), up_to[n as usize]);
        small.add(v, &format!("the most with up to {n} releases"), &[up_to[n as usize - 1], up_to[n as usize] - 1]);
    }
    Small::of(&bursts(), 6, 12).add(v, "the most", &[91_390, 749_397, 749_398, 3_000_000, MOST - 2, MOST - 1, MOST]);
}

/// Sheets, counts and bounds that are refused, and what decides.
fn refusals(v: &mut Vectors) {
    let of = |change: fn(&mut Sheet)| {
        let mut s = two();
        change(&mut s);
        s
    };
    let many = |n: usize| Sheet::of(&vec![task(9, 0, 1, 9); n]);
    let with = |n: usize, i: usize, change: fn(&mut Sheet, usize)| {
        let mut s = many(n);
        change(&mut s, i);
        s
    };
    for (label, s, releases, ticks) in [
        ("count 0", of(|s| s.count = 0), 2, 2),
        ("count 33", of(|s| s.count = 33), 2, 2),
        ("count 4294967295", of(|s| s.count = u32::MAX as usize), 2, 2),
        ("count 3, an entry of 0", of(|s| s.count = 3), 2, 2),
        ("P 0 of task 1", of(|s| s.tasks[1].p = 0), 2, 2),
        ("J 1000001 of task 0", of(|s| s.tasks[0].j = 1_000_001), 2, 2),
        ("E over D of task 1", of(|s| s.tasks[1].d = 1), 2, 2),
        ("charge over task 0", of(|s| s.charge = 1), 2, 2),
        ("4 tasks", many(4), 2, 2),
        ("5 tasks", many(5), 0, 0),
        ("31 tasks", many(31), 6, 12),
        ("32 tasks", many(32), 6, 12),
        ("7 releases", two(), 7, 2),
        ("8 releases", two(), 8, 0),
        ("256 releases", two(), 256, 2),
        ("1024 releases", two(), 1024, 2),
        ("4294967295 releases", two(), u32::MAX, 2),
        ("13 ticks", two(), 2, 13),
        ("14 ticks", two(), 0, 14),
        ("256 ticks", two(), 2, 256),
        ("65536 ticks", two(), 2, 65_536),
        ("4294967295 ticks", two(), 2, u32::MAX),
        ("5 before 10", of(|s| s.count = 0), 7, 13),
        ("4 at 32 before 10", of(|s| s.count = 40), 7, 13),
        ("6 before 10", of(|s| s.tasks[0].e = 0), 7, 13),
        ("17 before 10", of(|s| s.charge = 1), 7, 13),
        ("6 of task 3 before 4", with(4, 3, |s, i| s.tasks[i].p = 0), 2, 2),
        ("6 of task 31 before 4", with(32, 31, |s, i| s.tasks[i].e = 10), 2, 2),
        ("6 of task 4, which is not there", with(4, 0, |s, _| s.count = 5), 2, 2),
        ("17 of task 3 before 4", with(4, 3, |s, i| (s.charge, s.tasks[i].d) = (8, 8)), 2, 2),
        ("17 of task 0 before 6 of task 1", with(2, 1, |s, i| (s.charge, s.tasks[i].p) = (9, 0)), 2, 2),
        ("6 of task 0 before 17", with(2, 0, |s, i| (s.charge, s.tasks[i].p) = (9, 0)), 2, 2),
        ("4 before 10", many(4), 7, 2),
        ("4 before 8", many(4), 6, 13),
        ("4 before 10 and 8", many(32), 7, 13),
        ("10 before 8, three tasks", many(3), 7, 13),
    ] {
        let small = Small::of(&s, releases, ticks);
        small.columns(2, 2, 2).add(v, label, &[0]);
        small.columns(0, 0, 0).add(v, &format!("{label}, no column"), &[1]);
    }
    // an entry past the count does not matter
    let mut past = two();
    past.tasks.extend([task(0, 0, 0, 0), task(u32::MAX, 1, 2, 3).marked(true)]);
    Small::of(&past, 2, 2).add(v, "entries past the count", &[0, 2, 11, 12]);
    Small::of(&many(3), 6, 12).add(v, "3 tasks, 6 releases, 12 ticks", &[0, 1]);
}

/// Columns of many lengths, empty ones too, and slots that hold other numbers.
fn columns(v: &mut Vectors) {
    let small = Small::of(&two(), 2, 2);
    for (name, position, n) in [("the empty trace", 0, 0), ("one release", 3, 1), ("two releases", 6, 2), ("none", 12, 0)] {
        let lengths = [
            (n, n, n), (n + 1, n + 3, n), (9, n, n), (n, 9, n), (n, n, 9), (0, n, n), (n, 0, n), (n, n, 0), (0, 0, 0), (1, 2, 2), (2, 1, 2), (2, 2, 1),
        ];
        for (task, tick, cost) in BTreeSet::from(lengths) {
            small.columns(task, tick, cost).add(v, &format!("{name}, columns of {task}, {tick} and {cost}"), &[position]);
        }
        small.filled().add(v, &format!("{name}, filled slots"), &[position]);
    }
    let six = Small::of(&sheet(&[(4, 20, 4, 4)]), 6, 1);
    for (task, tick, cost) in [(6, 6, 6), (5, 6, 6), (6, 5, 6), (6, 6, 5), (7, 7, 7), (0, 0, 0)] {
        six.columns(task, tick, cost).filled().add(v, &format!("six releases, columns of {task}, {tick} and {cost}"), &[6]);
    }
    // 13 is the last: the numbers before it decide
    Small::of(&two(), 7, 2).columns(0, 0, 0).add(v, "10 before 13", &[6]);
    Small::of(&two(), 2, 13).columns(0, 0, 0).add(v, "8 before 13", &[6]);
}

pub fn vectors() -> Vectors {
    let mut v = Vectors::new();
    by_hand(&mut v);
    every_position(&mut v);
    chosen(&mut v);
    refusals(&mut v);
    columns(&mut v);
    v
}
