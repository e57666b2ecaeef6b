//! An implementation of document 01 with document 02's text sheets, pickup, long ticks, charge for each switch,
//! stops of a run, last 256 jobs, evaluations of a verdict, marks, windows in a frame, asks and commits
//! and small traces, for comparison, written from their words alone. It shares no code and no method with the library: ready
//! ticks and the trace check look at every pair of jobs, W(q) is found by walking over the ticks at which the demand steps, the choice tries
//! every K in rising order, the ticking run is compared with one from event to event and the run that jumps with one that allots free ticks
//! job by job, a file is taken apart in one pass, and a text is split into whole lines and fields. Of a frame every start and every tick is
//! looked at: our ticks are counted one by one. Every job since a window was opened is kept, and the last 256 are counted anew whenever they
//! are shown. Whether some ask gives an offer is decided by asking at every place. Of the small traces every list of releases is made, legal
//! or not, the legal ones are kept, and then they are sorted.
//! Only what R-8 counts is gone through as it is counted: the lists of t, and the walk over q of a choice. No answer is taken from them.
//! And the slots of a lent window are written by their layout, beside the jobs, for windows that no call made.

use std::cmp::Ordering;
use std::collections::BTreeSet;
use std::ops::RangeInclusive;

pub const MAX_TASKS: usize = 32;
pub const MAX_RELEASES: usize = 1024;
pub const MAX_TICK: u64 = 1_000_000_000_000_000;
/// The largest tick of a release of kind 2, whose tick has four bytes. A later one is of kind 4, with eight.
pub const MAX_SHORT_TICK: u64 = 1_000_000_000;
pub const MAX_TIME: u32 = 1_000_000;
pub const HORIZON: i64 = 10_000_000;
pub const MAX_FRAME: u32 = 10_000;
pub const MAX_WINDOWS: usize = 16;
/// Pickup: the kernel looks at the ready list at tick ends only, so a job may run from the tick after its ready tick, and R(q)
/// grows by 1.
pub const PICKUP: i64 = 1;

/// A task with its mark: low, or high where it is not low.
#[derive(Clone, Copy, Debug, PartialEq, Eq)]
pub struct Task {
    pub p: u32,
    pub j: u32,
    pub e: u32,
    pub d: u32,
    pub low: bool,
}

impl Task {
    pub const fn high(p: u32, j: u32, e: u32, d: u32) -> Task {
        Task { p, j, e, d, low: false }
    }
    /// The same task with this mark.
    pub fn marked(self, low: bool) -> Task {
        Task { low, ..self }
    }
}

/// A frame: its ticks and the count of its windows as given, and the windows that there are, each a first tick and a length. A window
/// that is not there counts as 0, 0.
#[derive(Clone, Debug, PartialEq, Eq)]
pub struct Frame {
    pub ticks: u32,
    pub count: usize,
    pub windows: Vec<(u32, u32)>,
}

impl Frame {
    pub fn of(ticks: u32, windows: &[(u32, u32)]) -> Frame {
        Frame { ticks, count: windows.len(), windows: windows.to_vec() }
    }
    /// The first tick of a window and the one after its last.
    fn window(&self, k: usize) -> (i64, i64) {
        let (first, length) = self.windows.get(k).copied().unwrap_or((0, 0));
        (first as i64, first as i64 + length as i64)
    }
    /// Whether a tick is ours: its place in the frame, which repeats from tick 0, is in some window.
    pub fn is_ours(&self, tick: i64) -> bool {
        let at = tick % self.ticks as i64;
        (0..self.count).any(|k| {
            let (first, end) = self.window(k);
            first <= at && at < end
        })
    }
}

/// Whether a tick is ours, with a frame or without: without one every tick is.
pub fn is_ours(frame: &Option<Frame>, tick: i64) -> bool {
    frame.as_ref().map_or(true, |f| f.is_ours(tick))
}

/// A sheet: `count` as given, the entries that there are, and the charge for each switch, 0 for none. An entry that is not there
/// counts as 0, 0, 0, 0, high. Besides, the frame that stands beside it in a call, if one does: no file and no text has one.
#[derive(Clone, Debug, PartialEq, Eq)]
pub struct Sheet {
    pub count: usize,
    pub tasks: Vec<Task>,
    pub charge: u8,
    pub frame: Option<Frame>,
}

impl Sheet {
    /// A sheet without a charge and without a frame.
    pub fn of(tasks: &[Task]) -> Sheet {
        Sheet { count: tasks.len(), tasks: tasks.to_vec(), charge: 0, frame: None }
    }
    /// The same sheet with this frame, or without one.
    pub fn framed(&self, frame: Option<Frame>) -> Sheet {
        Sheet { frame, ..self.clone() }
    }
    /// The same sheet with this charge.
    pub fn charged(&self, charge: u8) -> Sheet {
        Sheet { charge, ..self.clone() }
    }
    /// The same sheet with these marks, true for low; an entry past them is high.
    pub fn marked(&self, lows: &[bool]) -> Sheet {
        let tasks = self.tasks.iter().enumerate().map(|(i, t)| t.marked(lows.get(i).copied().unwrap_or(false))).collect();
        Sheet { tasks, ..self.clone() }
    }
    pub fn task(&self, i: usize) -> Task {
        self.tasks.get(i).copied().unwrap_or(Task::high(0, 0, 0, 0))
    }
    /// The most ticks that a job of a task takes: its cost and the charge.
    fn most_work(&self, i: usize) -> i64 {
        self.task(i).e as i64 + self.charge as i64
    }
}

#[derive(Clone, Copy, Debug, PartialEq, Eq)]
pub struct Release {
    pub task: u32,
    pub tick: u64,
    pub cost: u32,
}

/// A refusal: document 01's number and place.
#[derive(Clone, Copy, Debug, PartialEq, Eq)]
pub struct Refusal {
    pub number: u32,
    pub place: u64,
}

fn refuse<T>(number: u32, place: usize) -> Result<T, Refusal> {
    Err(Refusal { number, place: place as u64 })
}

#[derive(Clone, Copy, Debug, PartialEq, Eq)]
pub enum Verdict {
    Horizon { q: i64 },
    Late { q: i64, r: i64 },
    Fits { r: i64, q: i64 },
}

/// A verdict, how many q it took, and the number of evaluations: how often demand was worked out.
#[derive(Clone, Copy, Debug, PartialEq, Eq)]
pub struct Judged {
    pub verdict: Verdict,
    pub taken: i64,
    pub evaluations: u64,
}

/// A limit on the steps of a search, so that a comparison can pass over a case that takes too long.
pub struct Budget {
    pub left: u64,
}

pub struct Exhausted;

impl Budget {
    pub fn of(left: u64) -> Budget {
        Budget { left }
    }
    fn spend(&mut self, n: u64) -> Result<(), Exhausted> {
        if self.left < n {
            return Err(Exhausted);
        }
        self.left -= n;
        Ok(())
    }
}

// ---- Definitions -------------------------------------------------------------------------------------------------------

/// Arrival count: zero in 0 ticks, ceil((t + K) ÷ P) in t ticks for t ≥ 1.
pub fn sigma(p: i64, k: i64, t: i64) -> i64 {
    if t == 0 {
        return 0;
    }
    let (whole, rest) = ((t + k) / p, (t + k) % p);
    if rest == 0 { whole } else { whole + 1 }
}

/// Gap: max(0, nP − K) for n ≥ 1, and 0 for n = 0.
pub fn gap(p: i64, k: i64, n: i64) -> i64 {
    if n == 0 { 0 } else { std::cmp::max(0, n * p - k) }
}

/// The jobs of a release's task up to and including it: their places in the list, in list order.
fn own_places(list: &[Release], at: usize) -> Vec<usize> {
    (0..=at).filter(|&p| list[p].task == list[at].task).collect()
}

/// The first release of the whole list that lies less than d_J(k) after the one k places before it in its task.
pub fn first_too_close(sheet: &Sheet, list: &[Release]) -> Option<usize> {
    (0..list.len()).find(|&at| {
        let t = sheet.task(list[at].task as usize);
        let own = own_places(list, at);
        let last = own.len() - 1;
        (1..=last).any(|k| {
            let earlier = list[own[last - k]].tick as i64;
            (list[at].tick as i64) < earlier + gap(t.p as i64, t.j as i64, k as i64)
        })
    })
}

/// Ready ticks: the least tick not before the release and at least d_K(k) after the ready tick of the job k places before.
pub fn ready_ticks(sheet: &Sheet, kept: &[u32], list: &[Release]) -> Vec<i64> {
    let mut ready: Vec<i64> = Vec::new();
    for at in 0..list.len() {
        let i = list[at].task as usize;
        let own = own_places(list, at);
        let last = own.len() - 1;
        let least = (1..=last)
            .map(|k| ready[own[last - k]] + gap(sheet.task(i).p as i64, kept[i] as i64, k as i64))
            .max()
            .unwrap_or(0);
        ready.push(std::cmp::max(list[at].tick as i64, least));
    }
    ready
}

/// The first tick in which each job may run.
fn first_ticks(ready: &[i64]) -> Vec<i64> {
    ready.iter().map(|&r| r + PICKUP).collect()
}

/// The job that runs at tick t: of those that may run in it and are unfinished, the highest-priority task's oldest.
fn job_at(list: &[Release], first: &[i64], left: &[i64], t: i64) -> Option<usize> {
    (0..list.len()).filter(|&p| first[p] <= t && left[p] > 0).min_by_key(|&p| (list[p].task, p))
}

/// The ticks that each job takes: its cost and the charge.
fn work_of(charge: u8, list: &[Release]) -> Vec<i64> {
    list.iter().map(|r| r.cost as i64 + charge as i64).collect()
}

/// Our ticks in the order of time: how many of ours stand among the first 0, 1, .. ticks of the frame, counted one by one. Without a
/// frame every tick is one of them, as in a frame of one tick that is ours.
pub struct Supply {
    among: Vec<i64>,
}

impl Supply {
    pub fn of(frame: &Option<Frame>) -> Supply {
        let ticks = frame.as_ref().map_or(1, |f| f.ticks as i64);
        let mut among = vec![0];
        for t in 0..ticks {
            among.push(among[t as usize] + is_ours(frame, t) as i64);
        }
        Supply { among }
    }
    fn ticks(&self) -> i64 {
        self.among.len() as i64 - 1
    }
    /// How many of ours come before a tick.
    pub fn before(&self, tick: i64) -> i64 {
        tick / self.ticks() * self.among[self.ticks() as usize] + self.among[(tick % self.ticks()) as usize]
    }
    /// The tick that comes after n of ours, for n ≥ 1: the last of them is the tick before it.
    pub fn after(&self, n: i64) -> i64 {
        let each = self.among[self.ticks() as usize];
        let (frames, rest) = ((n - 1) / each, (n - 1) % each + 1);
        frames * self.ticks() + self.among.partition_point(|&ours| ours < rest) as i64
    }
}

/// Finish ticks of the run without a frame.
pub fn finish_ticks(charge: u8, list: &[Release], ready: &[i64]) -> Vec<i64> {
    finish_by_event(&None, charge, list, ready)
}

/// Finish ticks of the run, from event to event.
pub fn finish_by_event(frame: &Option<Frame>, charge: u8, list: &[Release], ready: &[i64]) -> Vec<i64> {
    finish_from(frame, charge, list, &first_ticks(ready))
}

/// Finish ticks of jobs that may run from these ticks on, from event to event: a job runs in our ticks until it is finished or the next
/// job may run.
pub fn finish_from(frame: &Option<Frame>, charge: u8, list: &[Release], first: &[i64]) -> Vec<i64> {
    let supply = Supply::of(frame);
    let mut left = work_of(charge, list);
    let mut finish = vec![0; list.len()];
    let mut t = 0;
    loop {
        let next_first = (0..list.len()).filter(|&p| first[p] > t).map(|p| first[p]).min();
        match (job_at(list, first, &left, t), next_first) {
            (None, None) => return finish,
            (None, Some(f)) => t = f,
            (Some(p), next) => {
                let end = std::cmp::min(supply.after(supply.before(t) + left[p]), next.unwrap_or(i64::MAX));
                left[p] -= supply.before(end) - supply.before(t);
                t = end;
                if left[p] == 0 {
                    finish[p] = t;
                }
            }
        }
    }
}

/// Finish ticks of the run without a frame, tick by tick.
pub fn finish_ticks_by_tick(charge: u8, list: &[Release], ready: &[i64]) -> Vec<i64> {
    finish_by_tick(&None, charge, list, ready)
}

/// Finish ticks of the run, tick by tick: in a tick that is not ours nothing runs.
pub fn finish_by_tick(frame: &Option<Frame>, charge: u8, list: &[Release], ready: &[i64]) -> Vec<i64> {
    let first = first_ticks(ready);
    let mut left = work_of(charge, list);
    let mut finish = vec![0; list.len()];
    let mut t = 0;
    while left.iter().any(|&l| l > 0) {
        if let Some(p) = job_at(list, &first, &left, t).filter(|_| is_ours(frame, t)) {
            left[p] -= 1;
            finish[p] = t + 1;
        }
        t += 1;
    }
    finish
}

/// Finish ticks of the run without a frame, job by job.
pub fn finish_ticks_by_job(charge: u8, list: &[Release], ready: &[i64]) -> Vec<i64> {
    finish_by_job(&None, charge, list, ready)
}

/// Finish ticks of the run, job by job and not in the order of time: the tasks from the highest priority down, the jobs of a task
/// in list order, each takes the earliest of our ticks from its first one on that no job before it took. Only our ticks are numbered
/// while they are allotted, so that those between windows play no part. The time that this takes does not grow with the ticks.
pub fn finish_by_job(frame: &Option<Frame>, charge: u8, list: &[Release], ready: &[i64]) -> Vec<i64> {
    let (supply, work) = (Supply::of(frame), work_of(charge, list));
    let first: Vec<i64> = first_ticks(ready).into_iter().map(|t| supply.before(t)).collect();
    let mut order: Vec<usize> = (0..list.len()).collect();
    order.sort_by_key(|&p| (list[p].task, p));
    let mut finish = vec![0; list.len()];
    // stretches of free ticks of ours in rising order, each from its first one up to its second, not including the latter
    let mut free = vec![(0, i64::MAX)];
    for p in order {
        let mut wanted = work[p];
        let mut rest = Vec::new();
        for (from, to) in free {
            let begin = from.max(first[p]).min(to);
            let end = begin + wanted.min(to - begin);
            if begin < end {
                wanted -= end - begin;
                finish[p] = end;
            }
            rest.extend([(from, begin), (end, to)].into_iter().filter(|(a, b)| a < b));
        }
        free = rest;
    }
    finish.into_iter().map(|n| supply.after(n)).collect()
}

/// Stops of a run: the number of different ticks that are a ready tick plus 1 or a finish.
pub fn stops(ready: &[i64], finish: &[i64]) -> u64 {
    let ticks: BTreeSet<i64> = ready.iter().map(|&r| r + 1).chain(finish.iter().copied()).collect();
    ticks.len() as u64
}

/// P, K, and E with the charge, of each task above.
fn tasks_above(sheet: &Sheet, kept: &[u32], i: usize) -> Vec<(i64, i64, i64)> {
    (0..i).map(|j| (sheet.task(j).p as i64, kept[j] as i64, sheet.most_work(j))).collect()
}

/// The demand in t ticks with so much of the own task, and the last t up to the horizon in which it is the same.
fn demand_at(own: i64, above: &[(i64, i64, i64)], t: i64) -> (i64, i64) {
    above.iter().fold((own, HORIZON), |(demand, end), &(p, k, e)| {
        let n = sigma(p, k, t);
        (demand + e * n, std::cmp::min(end, n * p - k))
    })
}

/// W(q) of a task by its words: for each start in the frame the t from 1 on, one by one, until the demand is at most our ticks among so
/// many from the start, which are counted on the way; and the largest of all these t. None: for some start it is over the horizon.
/// Without a frame there is one start, and our ticks among t are t.
pub fn window_by_tick(sheet: &Sheet, kept: &[u32], i: usize, q: i64, budget: &mut Budget) -> Result<Option<i64>, Exhausted> {
    let above = tasks_above(sheet, kept, i);
    let mut largest = 0;
    for start in 0..sheet.frame.as_ref().map_or(1, |f| f.ticks as i64) {
        let (mut t, mut ours) = (0, 0);
        loop {
            budget.spend(1 + i as u64)?;
            (t, ours) = (t + 1, ours + is_ours(&sheet.frame, start + t) as i64);
            if t > HORIZON {
                return Ok(None);
            }
            if demand_at((q + 1) * sheet.most_work(i), &above, t).0 <= ours {
                break;
            }
        }
        largest = std::cmp::max(largest, t);
    }
    Ok(Some(largest))
}

/// W(q) of one task for q = 0, 1, .., found when asked for. None: over the horizon, or no such t.
pub struct Windows<'a> {
    own_cost: i64,
    above: Vec<(i64, i64, i64)>,
    /// With a frame our ticks and, for each start in it, the least t of the last q that was looked at.
    framed: Option<(Supply, Vec<i64>)>,
    found: Vec<Option<i64>>,
    budget: &'a mut Budget,
}

impl<'a> Windows<'a> {
    pub fn of(sheet: &Sheet, kept: &[u32], i: usize, budget: &'a mut Budget) -> Windows<'a> {
        let framed = sheet.frame.as_ref().map(|f| (Supply::of(&sheet.frame), vec![1; f.ticks as usize]));
        Windows { own_cost: sheet.most_work(i), above: tasks_above(sheet, kept, i), framed, found: Vec::new(), budget }
    }

    /// The largest over all starts in the frame of the least t whose demand is at most our ticks among t from the start. None where one
    /// of them is over the horizon. The demand is constant up to `end`, and the least t with so many of ours is read off the count.
    fn search_framed(&mut self, q: i64) -> Result<Option<i64>, Exhausted> {
        let (supply, reached) = self.framed.as_mut().unwrap();
        for (start, least) in reached.iter_mut().enumerate() {
            let start = start as i64;
            let mut t = *least;
            *least = loop {
                self.budget.spend(1 + self.above.len() as u64)?;
                let (demand, end) = demand_at((q + 1) * self.own_cost, &self.above, t);
                let met = std::cmp::max(t, supply.after(supply.before(start) + demand) - start);
                if t > HORIZON || met <= end {
                    break met;
                }
                t = end + 1;
            };
        }
        Ok(reached.iter().copied().max().filter(|&t| t <= HORIZON))
    }

    /// The least t from `from` on with (q + 1)E + sum of E_j σ_j(t) ≤ t, each E with the charge. The demand is constant up to the
    /// least tick σ_j P_j − K_j, where some σ_j takes its last tick, so only one t in each such stretch is to be tried.
    fn search(&mut self, q: i64, from: i64) -> Result<Option<i64>, Exhausted> {
        let mut t = from;
        while t <= HORIZON {
            self.budget.spend(1 + self.above.len() as u64)?;
            let (demand, end) = demand_at((q + 1) * self.own_cost, &self.above, t);
            let met = std::cmp::max(t, demand);
            if met <= end {
                return Ok(Some(met));
            }
            t = end + 1;
        }
        Ok(None)
    }

    /// W(q). The demand grows with q, so that no t below W(q − 1), with a frame that of the same start, need be tried.
    pub fn get(&mut self, q: i64) -> Result<Option<i64>, Exhausted> {
        while self.found.len() as i64 <= q {
            let n = self.found.len();
            let from = if n == 0 { Some(1) } else { self.found[n - 1] };
            let w = match from {
                None => None,
                Some(_) if self.framed.is_some() => self.search_framed(n as i64)?,
                Some(t) => self.search(n as i64, t)?,
            };
            self.found.push(w);
        }
        Ok(self.found[q as usize])
    }
}

/// The list of t of the search for W(q): it starts from (q + 1) × E plus one E of each task above, S added to each E, and goes on
/// with the demand just found until it equals t, or t is over H, which ends the list.
pub fn tried(sheet: &Sheet, kept: &[u32], i: usize, q: i64) -> impl Iterator<Item = i64> {
    let (own, above) = ((q + 1) * sheet.most_work(i), tasks_above(sheet, kept, i));
    let start = own + above.iter().map(|&(_, _, e)| e).sum::<i64>();
    std::iter::successors(Some(start), move |&t| {
        let demand = own + above.iter().map(|&(p, k, e)| e * sigma(p, k, t)).sum::<i64>();
        if demand == t || t > HORIZON { None } else { Some(demand) }
    })
}

/// The length of that list; with a frame 0. It rises, and its last member is W(q) or the first t over H; where it is W(q), the list is at
/// most as long as 1 + (sum over tasks above of σ_j at W(q)) − (number of tasks above).
fn evaluations_at(sheet: &Sheet, kept: &[u32], i: usize, q: i64, windows: &mut Windows) -> Result<u64, Exhausted> {
    if sheet.frame.is_some() {
        return Ok(0);
    }
    let (mut length, mut last) = (0, 0);
    for t in tried(sheet, kept, i, q) {
        windows.budget.spend(1 + i as u64)?;
        assert!(last < t && last <= HORIZON);
        (length, last) = (length + 1, t);
    }
    match windows.get(q)? {
        None => assert!(last > HORIZON),
        Some(w) => {
            let jobs = windows.above.iter().map(|&(p, k, _)| sigma(p, k, w)).sum::<i64>();
            assert!(last == w && length <= 1 + jobs - i as i64);
        }
    }
    Ok(length as u64)
}

/// The walk over q of a task with kept jitter K: R(q) has the pickup, the stop has not. The verdict, and the q at which the walk stops.
fn walk(task: Task, keep: u32, windows: &mut Windows) -> Result<(Verdict, i64), Exhausted> {
    let (p, j, d, k) = (task.p as i64, task.j as i64, task.d as i64, keep as i64);
    let mut best: Option<(i64, i64)> = None;
    let mut q = 0;
    loop {
        windows.budget.spend(1)?;
        let Some(w) = windows.get(q)? else {
            return Ok((Verdict::Horizon { q }, q));
        };
        let x = j - q * p;
        let r = w + PICKUP + std::cmp::max(x - k, std::cmp::min(0, x));
        if r > d {
            return Ok((Verdict::Late { q, r }, q));
        }
        if best.map_or(true, |(b, _)| r > b) {
            best = Some((r, q));
        }
        if w <= gap(p, k, q + 1) {
            let (r, first) = best.unwrap();
            return Ok((Verdict::Fits { r, q: first }, q));
        }
        q += 1;
    }
}

/// The verdict alone.
pub fn verdict_of(sheet: &Sheet, kept: &[u32], i: usize, budget: &mut Budget) -> Result<Verdict, Exhausted> {
    Ok(walk(sheet.task(i), kept[i], &mut Windows::of(sheet, kept, i, budget))?.0)
}

/// The verdict with its number: the lengths of the lists of t, added up over the q that it took.
pub fn judge(sheet: &Sheet, kept: &[u32], i: usize, budget: &mut Budget) -> Result<Judged, Exhausted> {
    let mut windows = Windows::of(sheet, kept, i, budget);
    let (verdict, last) = walk(sheet.task(i), kept[i], &mut windows)?;
    let mut evaluations = 0;
    for q in 0..=last {
        evaluations += evaluations_at(sheet, kept, i, q, &mut windows)?;
    }
    Ok(Judged { verdict, taken: last + 1, evaluations })
}

/// The least K in 0..J at which the verdict is "fits", with the largest R.
pub fn least_keep(sheet: &Sheet, kept: &[u32], i: usize, budget: &mut Budget) -> Result<Option<(u32, u32)>, Exhausted> {
    let mut windows = Windows::of(sheet, kept, i, budget);
    for k in 0..=sheet.task(i).j {
        if let (Verdict::Fits { r, .. }, _) = walk(sheet.task(i), k, &mut windows)? {
            return Ok(Some((k, r as u32)));
        }
    }
    Ok(None)
}

/// The kept jitters of a choice that succeeds, whether it is that of the high tasks alone, and how often demand is worked out for it,
/// without a verdict. Of the choice of the high tasks alone, what the ordinary one before it took does not count. None where no K fits.
pub fn choice_evaluations(sheet: &Sheet, budget: &mut Budget) -> Result<Option<(bool, Vec<u32>, u64)>, Exhausted> {
    for high_only in [false, true] {
        if let Some((kept, evaluations)) = walked_choice(sheet, high_only, budget)? {
            return Ok(Some((high_only, kept, evaluations)));
        }
    }
    Ok(None)
}

/// One of the two choices, by one walk over q for each task that is judged. The least K grows to what R(q) ≤ D asks for, and the walk
/// ends where W(q) is within d_K(q + 1).
fn walked_choice(sheet: &Sheet, high_only: bool, budget: &mut Budget) -> Result<Option<(Vec<u32>, u64)>, Exhausted> {
    let (mut kept, mut evaluations) = (Vec::new(), 0);
    for i in 0..sheet.count {
        if high_only && sheet.task(i).low {
            kept.push(0);
            continue;
        }
        let (p, j, d) = (sheet.task(i).p as i64, sheet.task(i).j as i64, sheet.task(i).d as i64);
        let mut windows = Windows::of(sheet, &kept, i, budget);
        let (mut q, mut least) = (0, 0);
        loop {
            evaluations += evaluations_at(sheet, &kept, i, q, &mut windows)?;
            let x = j - q * p;
            let Some(w) = windows.get(q)?.filter(|w| w + PICKUP + std::cmp::min(0, x) <= d) else {
                return Ok(None);
            };
            least = std::cmp::max(least, w + PICKUP + x - d);
            if w <= gap(p, least, q + 1) {
                break;
            }
            q += 1;
        }
        kept.push(least as u32);
    }
    Ok(Some((kept, evaluations)))
}

// ---- Checks of a call on values, in the stated order -------------------------------------------------------------------

pub fn check_sheet(sheet: &Sheet) -> Result<(), Refusal> {
    if sheet.count == 0 {
        return refuse(5, 0);
    }
    if sheet.count > MAX_TASKS {
        return refuse(4, MAX_TASKS);
    }
    for i in 0..sheet.count {
        if !in_range(sheet.task(i)) {
            return refuse(6, i);
        }
        if !holds_charge(sheet.task(i), sheet.charge) {
            return refuse(17, i);
        }
    }
    Ok(())
}

/// The sheet, and then the frame beside it: its ticks (place 17), the count of its windows (place 16), and the windows in order: each is
/// of at least one tick, inside the frame, and starts after the end of the one before it, so that no two touch.
pub fn check_framed(sheet: &Sheet) -> Result<(), Refusal> {
    check_sheet(sheet)?;
    let Some(frame) = &sheet.frame else {
        return Ok(());
    };
    if frame.ticks < 1 || frame.ticks > MAX_FRAME {
        return refuse(18, 17);
    }
    if frame.count < 1 || frame.count > MAX_WINDOWS {
        return refuse(18, 16);
    }
    for k in 0..frame.count {
        let (first, end) = frame.window(k);
        let apart = k == 0 || first > frame.window(k - 1).1;
        if first == end || end > frame.ticks as i64 || !apart {
            return refuse(18, k);
        }
    }
    Ok(())
}

/// Whether a job of the full cost and the charge is within P and D.
fn holds_charge(t: Task, charge: u8) -> bool {
    let work = t.e as i64 + charge as i64;
    work <= t.p as i64 && work <= t.d as i64
}

fn in_range(t: Task) -> bool {
    (1..=MAX_TIME).contains(&t.p)
        && t.j <= MAX_TIME
        && (1..=MAX_TIME).contains(&t.d)
        && t.e >= 1
        && t.e <= std::cmp::min(t.p, t.d)
}

fn check_task(sheet: &Sheet, i: usize) -> Result<(), Refusal> {
    if i < sheet.count { Ok(()) } else { refuse(14, i) }
}

fn check_count(n: usize) -> Result<(), Refusal> {
    if n > MAX_RELEASES { refuse(10, MAX_RELEASES) } else { Ok(()) }
}

fn check_slots(slots: usize, needed: usize) -> Result<(), Refusal> {
    if slots < needed { refuse(13, needed) } else { Ok(()) }
}

fn check_kept(sheet: &Sheet, kept: &[u32]) -> Result<(), Refusal> {
    match (0..sheet.count).find(|&i| kept[i] > sheet.task(i).j) {
        Some(i) => refuse(12, i),
        None => Ok(()),
    }
}

/// The number of what is wrong with a release, the lowest first. Its tick has to be one of those given. The charge is no part of a
/// cost.
fn release_fault(sheet: &Sheet, before: Option<u64>, ticks: RangeInclusive<u64>, r: Release) -> Option<u32> {
    if r.task as usize >= sheet.count {
        return Some(7);
    }
    if before.map_or(false, |b| r.tick < b) || !ticks.contains(&r.tick) {
        return Some(8);
    }
    if r.cost == 0 || r.cost > sheet.task(r.task as usize).e {
        return Some(9);
    }
    None
}

fn check_releases(sheet: &Sheet, list: &[Release]) -> Result<(), Refusal> {
    for p in 0..list.len() {
        let before = if p == 0 { None } else { Some(list[p - 1].tick) };
        if let Some(number) = release_fault(sheet, before, 0..=MAX_TICK, list[p]) {
            return refuse(number, p);
        }
    }
    Ok(())
}

/// Three columns of releases.
pub struct Columns<'a> {
    pub task: &'a [u32],
    pub tick: &'a [u64],
    pub cost: &'a [u32],
}

impl<'a> Columns<'a> {
    fn check_slots(&self, n: usize) -> Result<(), Refusal> {
        check_slots(self.task.len(), n)?;
        check_slots(self.tick.len(), n)?;
        check_slots(self.cost.len(), n)
    }
    fn list(&self, n: usize) -> Vec<Release> {
        (0..n)
            .map(|p| Release { task: self.task[p], tick: self.tick[p], cost: self.cost[p] })
            .collect()
    }
}

// ---- The calls ---------------------------------------------------------------------------------------------------------

/// The checks of a call about one task after those of the sheet and of a frame.
fn check_single(sheet: &Sheet, i: usize, kept: &[u32]) -> Result<(), Refusal> {
    check_task(sheet, i)?;
    check_slots(kept.len(), sheet.count)?;
    check_kept(sheet, kept)
}

pub fn arrival_count(sheet: &Sheet, i: usize, kept: &[u32], t: u32) -> Result<u64, Refusal> {
    check_sheet(sheet)?;
    check_single(sheet, i, kept)?;
    Ok(sigma(sheet.task(i).p as i64, kept[i] as i64, t as i64) as u64)
}

pub fn verdict(sheet: &Sheet, i: usize, kept: &[u32], budget: &mut Budget) -> Result<Result<Judged, Refusal>, Exhausted> {
    if let Err(r) = check_framed(sheet).and_then(|_| check_single(sheet, i, kept)) {
        return Ok(Err(r));
    }
    Ok(Ok(judge(sheet, kept, i, budget)?))
}

/// What a choice answers: kept jitters and worst values, and whether it is the one of the high tasks alone.
#[derive(Clone, Debug, PartialEq, Eq)]
pub struct Chosen {
    pub kept: Vec<u32>,
    pub worst: Vec<u32>,
    pub high_only: bool,
}

/// The ordinary choice.
fn ordinary_choice(sheet: &Sheet, budget: &mut Budget) -> Result<Result<Chosen, Refusal>, Exhausted> {
    let (mut kept, mut worst) = (Vec::new(), Vec::new());
    for i in 0..sheet.count {
        match least_keep(sheet, &kept, i, budget)? {
            None => return Ok(refuse(15, i)),
            Some((k, r)) => {
                kept.push(k);
                worst.push(r);
            }
        }
    }
    Ok(Ok(Chosen { kept, worst, high_only: false }))
}

/// The choice with every low task kept at 0 and not judged: low tasks have a worst value of 0 and are passed over.
fn choice_of_high_tasks(sheet: &Sheet, budget: &mut Budget) -> Result<Result<Chosen, Refusal>, Exhausted> {
    let mut chosen = Chosen { kept: vec![0; sheet.count], worst: vec![0; sheet.count], high_only: true };
    for i in (0..sheet.count).filter(|&i| !sheet.task(i).low) {
        match least_keep(sheet, &chosen.kept[..i], i, budget)? {
            None => return Ok(refuse(15, i)),
            Some((k, r)) => (chosen.kept[i], chosen.worst[i]) = (k, r),
        }
    }
    Ok(Ok(chosen))
}

/// The choice: the ordinary one, and where it ends in 15 that of the high tasks alone. The lengths of the two lent columns decide 13.
pub fn choice(
    sheet: &Sheet,
    kept_slots: usize,
    worst_slots: usize,
    budget: &mut Budget,
) -> Result<Result<Chosen, Refusal>, Exhausted> {
    let checks = check_framed(sheet)
        .and_then(|_| check_slots(kept_slots, sheet.count))
        .and_then(|_| check_slots(worst_slots, sheet.count));
    if let Err(r) = checks {
        return Ok(Err(r));
    }
    match ordinary_choice(sheet, budget)? {
        Err(_) => choice_of_high_tasks(sheet, budget),
        chosen => Ok(chosen),
    }
}

/// The trace check: none where the list is legal, else the first release that is too close.
pub fn trace_check(sheet: &Sheet, n: usize, columns: &Columns) -> Result<Option<usize>, Refusal> {
    check_sheet(sheet)?;
    check_count(n)?;
    columns.check_slots(n)?;
    let list = columns.list(n);
    check_releases(sheet, &list)?;
    Ok(first_too_close(sheet, &list))
}

pub fn ready(sheet: &Sheet, kept: &[u32], n: usize, columns: &Columns, ready_slots: usize) -> Result<Vec<u64>, Refusal> {
    check_sheet(sheet)?;
    check_count(n)?;
    check_slots(kept.len(), sheet.count)?;
    columns.check_slots(n)?;
    check_slots(ready_slots, n)?;
    check_kept(sheet, kept)?;
    let list = columns.list(n);
    check_releases(sheet, &list)?;
    Ok(column(&ready_ticks(sheet, kept, &list)))
}

/// The checks of a run. The lengths of the two lent columns decide 13. The list, where nothing is refused.
pub fn check_run(
    sheet: &Sheet,
    kept: &[u32],
    n: usize,
    columns: &Columns,
    ready_slots: usize,
    finish_slots: usize,
) -> Result<Vec<Release>, Refusal> {
    check_framed(sheet)?;
    check_count(n)?;
    check_slots(kept.len(), sheet.count)?;
    columns.check_slots(n)?;
    check_slots(ready_slots, n)?;
    check_slots(finish_slots, n)?;
    check_kept(sheet, kept)?;
    let list = columns.list(n);
    check_releases(sheet, &list)?;
    Ok(list)
}

fn column(ticks: &[i64]) -> Vec<u64> {
    ticks.iter().map(|&t| t as u64).collect()
}

pub fn run(
    sheet: &Sheet,
    kept: &[u32],
    n: usize,
    columns: &Columns,
    ready_slots: usize,
    finish_slots: usize,
) -> Result<(Vec<u64>, Vec<u64>), Refusal> {
    let list = check_run(sheet, kept, n, columns, ready_slots, finish_slots)?;
    let ready = ready_ticks(sheet, kept, &list);
    let finish = finish_by_event(&sheet.frame, sheet.charge, &list, &ready);
    Ok((column(&ready), column(&finish)))
}

/// What the run that jumps answers: the columns of the run, and its stops.
#[derive(Clone, Debug, PartialEq, Eq)]
pub struct Jumped {
    pub ready: Vec<u64>,
    pub finish: Vec<u64>,
    pub stops: u64,
}

pub fn jump(
    sheet: &Sheet,
    kept: &[u32],
    n: usize,
    columns: &Columns,
    ready_slots: usize,
    finish_slots: usize,
) -> Result<Jumped, Refusal> {
    let list = check_run(sheet, kept, n, columns, ready_slots, finish_slots)?;
    let ready = ready_ticks(sheet, kept, &list);
    let finish = finish_by_job(&sheet.frame, sheet.charge, &list, &ready);
    Ok(Jumped { ready: column(&ready), finish: column(&finish), stops: stops(&ready, &finish) })
}

// ---- Files -------------------------------------------------------------------------------------------------------------

/// Adds a release as a record of kind 2, with the low four bytes of its tick, or of kind 4, with all eight.
pub fn add_release(out: &mut Vec<u8>, kind: u8, r: Release) {
    let tick = r.tick.to_le_bytes();
    out.extend_from_slice(&[kind, r.task as u8]);
    out.extend_from_slice(if kind == 2 { &tick[..4] } else { &tick });
    out.extend_from_slice(&r.cost.to_le_bytes());
}

/// Adds a task as a record of kind 1, or of kind 6 where it is low.
pub fn add_task(out: &mut Vec<u8>, t: Task) {
    out.push(if t.low { 6 } else { 1 });
    for x in [t.p, t.j, t.e, t.d] {
        out.extend_from_slice(&x.to_le_bytes());
    }
    if t.low {
        out.push(0);
    }
}

/// The bytes of a sheet and a list: the charge first, where there is one.
pub fn encode(sheet: &Sheet, list: &[Release]) -> Vec<u8> {
    let mut out = Vec::new();
    if sheet.charge > 0 {
        out.extend_from_slice(&[5, sheet.charge]);
    }
    for i in 0..sheet.count {
        add_task(&mut out, sheet.task(i));
    }
    for &r in list {
        add_release(&mut out, if r.tick <= MAX_SHORT_TICK { 2 } else { 4 }, r);
    }
    out.push(3);
    out
}

/// The bytes that a write of the first tasks of a sheet needs: those of a charge, of each of so many tasks by its mark, of each release by
/// its tick, whatever it is, and of the end.
pub fn bytes_needed(sheet: &Sheet, tasks: usize, ticks: &[u64]) -> usize {
    let head = if sheet.charge == 0 { 0 } else { 2 };
    let task_size = |i: usize| if sheet.task(i).low { 18 } else { 17 };
    let size = |&tick: &u64| if tick <= MAX_SHORT_TICK { 10 } else { 14 };
    head + (0..tasks).map(task_size).sum::<usize>() + ticks.iter().map(size).sum::<usize>() + 1
}

pub fn write(sheet: &Sheet, n: usize, columns: &Columns, out_slots: usize) -> Result<Vec<u8>, Refusal> {
    check_sheet(sheet)?;
    check_count(n)?;
    columns.check_slots(n)?;
    check_slots(out_slots, bytes_needed(sheet, sheet.count, &columns.tick[..n]))?;
    let list = columns.list(n);
    check_releases(sheet, &list)?;
    Ok(encode(sheet, &list))
}

/// A whole record. Beside a task stands whether its last byte may be there, which one of kind 1 does not have; beside a release the
/// ticks that its kind is for.
enum Record {
    Charge(u8),
    Task(Task, bool),
    Release(Release, RangeInclusive<u64>),
    End,
}

/// The number of some bytes, the low one first.
fn number_of(bytes: &[u8]) -> u64 {
    bytes.iter().rev().fold(0, |n, &b| 256 * n + b as u64)
}

/// The high task of four numbers.
fn task_of(body: &[u8]) -> Task {
    let number = |i: usize| number_of(&body[4 * i..4 * i + 4]) as u32;
    Task::high(number(0), number(1), number(2), number(3))
}

/// A release: one byte of task number, four of cost at the end, and a tick in all between.
fn release_of(body: &[u8]) -> Release {
    let (tick, cost) = body[1..].split_at(body.len() - 5);
    Release { task: body[0] as u32, tick: number_of(tick), cost: number_of(cost) as u32 }
}

/// The record at an offset and its size: refused with 1 for another kind, with 2 where the file ends in it or before it.
fn record_at(file: &[u8], at: usize) -> Result<(Record, usize), Refusal> {
    let Some((&kind, rest)) = file[at..].split_first() else {
        return refuse(2, at);
    };
    let length = match kind {
        1 => 16,
        2 => 9,
        3 => 0,
        4 => 13,
        5 => 1,
        6 => 17,
        _ => return refuse(1, at),
    };
    let Some(body) = rest.get(..length) else {
        return refuse(2, at);
    };
    let record = match kind {
        1 => Record::Task(task_of(body), true),
        2 => Record::Release(release_of(body), 0..=MAX_SHORT_TICK),
        3 => Record::End,
        4 => Record::Release(release_of(body), MAX_SHORT_TICK + 1..=MAX_TICK),
        5 => Record::Charge(body[0]),
        _ => Record::Task(task_of(body).marked(true), body[16] == 0),
    };
    Ok((record, 1 + length))
}

/// What a file holds. The earliest record decides, and within a record the lowest number.
pub fn decode(file: &[u8]) -> Result<(Sheet, Vec<Release>), Refusal> {
    let mut sheet = Sheet::of(&[]);
    let mut list: Vec<Release> = Vec::new();
    let mut at = 0;
    loop {
        let (record, size) = record_at(file, at)?;
        match record {
            Record::Charge(charge) => {
                // none but the first record may be a charge: a release has a task before it
                if at > 0 {
                    return refuse(3, at);
                }
                if charge == 0 {
                    return refuse(6, at);
                }
                sheet.charge = charge;
            }
            Record::Task(t, mark) => {
                if !list.is_empty() {
                    return refuse(3, at);
                }
                if sheet.count == MAX_TASKS {
                    return refuse(4, at);
                }
                if !mark || !in_range(t) {
                    return refuse(6, at);
                }
                if !holds_charge(t, sheet.charge) {
                    return refuse(17, at);
                }
                sheet.tasks.push(t);
                sheet.count += 1;
            }
            Record::Release(r, ticks) => {
                if sheet.count == 0 {
                    return refuse(5, at);
                }
                if let Some(number) = release_fault(&sheet, list.last().map(|r| r.tick), ticks, r) {
                    return refuse(number, at);
                }
                if list.len() == MAX_RELEASES {
                    return refuse(10, at);
                }
                list.push(r);
            }
            Record::End => {
                if sheet.count == 0 {
                    return refuse(5, at);
                }
                if file.len() > at + 1 {
                    return refuse(11, at + 1);
                }
                return Ok((sheet, list));
            }
        }
        at += size;
    }
}

/// A read: 13 after the whole file; the lengths of the three lent columns decide it.
pub fn read(file: &[u8], slots: [usize; 3]) -> Result<(Sheet, Vec<Release>), Refusal> {
    let (sheet, list) = decode(file)?;
    for s in slots {
        check_slots(s, list.len())?;
    }
    Ok((sheet, list))
}

// ---- Sheets as text ----------------------------------------------------------------------------------------------------

/// The number of a field: decimal digits alone, at least one, and no zero before others. None where it has another form.
/// One that 32 bits cannot hold is over every limit, so the largest of 32 bits stands for it.
fn numeral(field: &[u8]) -> Option<u32> {
    let text = std::str::from_utf8(field).ok()?;
    let digits = !text.is_empty() && text.chars().all(|c| c.is_ascii_digit());
    let leading = text.len() > 1 && text.starts_with('0');
    if digits && !leading { Some(text.parse().unwrap_or(u32::MAX)) } else { None }
}

/// The task of a line without its line feed; none where the line is not P,J,E,D.
fn line_task(line: &[u8]) -> Option<Task> {
    let fields: Vec<u32> = line.split(|&b| b == b',').map(numeral).collect::<Option<_>>()?;
    match fields[..] {
        [p, j, e, d] => Some(Task::high(p, j, e, d)),
        _ => None,
    }
}

/// Whether a line that begins so can become P,J,E,D.
fn may_become_line(begun: &[u8]) -> bool {
    let fields: Vec<&[u8]> = begun.split(|&b| b == b',').collect();
    let (last, before) = fields.split_last().unwrap();
    fields.len() <= 4 && before.iter().all(|f| numeral(f).is_some()) && (last.is_empty() || numeral(last).is_some())
}

/// Whether the answer stays, whatever follows the text: one of its whole lines is refused, or the line begun can have no other answer.
pub fn decided(text: &[u8]) -> bool {
    let begun = text.rsplit(|&b| b == b'\n').next().unwrap();
    let whole = &text[..text.len() - begun.len()];
    (!whole.is_empty() && load(whole).is_err()) || !may_become_line(begun)
}

/// What a text holds. The earliest line decides, with its number from 0; on a line 16, then 4, then 6.
pub fn load(text: &[u8]) -> Result<Sheet, Refusal> {
    let mut lines: Vec<&[u8]> = text.split(|&b| b == b'\n').collect();
    let after_last_feed = lines.pop().unwrap();
    let mut tasks = Vec::new();
    for (n, line) in lines.iter().enumerate() {
        let Some(t) = line_task(line) else {
            return refuse(16, n);
        };
        if n == MAX_TASKS {
            return refuse(4, n);
        }
        if !in_range(t) {
            return refuse(6, n);
        }
        tasks.push(t);
    }
    if !after_last_feed.is_empty() {
        return refuse(16, lines.len());
    }
    if tasks.is_empty() {
        return refuse(5, 0);
    }
    Ok(Sheet::of(&tasks))
}

/// The text of some tasks, which tells no marks.
pub fn text_of(tasks: &[Task]) -> Vec<u8> {
    let lines = tasks.iter().map(|t| format!("{},{},{},{}\n", t.p, t.j, t.e, t.d));
    lines.collect::<String>().into_bytes()
}

// ---- The last 256 jobs -------------------------------------------------------------------------------------------------

/// The jobs that count, and the slots of a lent window.
pub const WINDOW_JOBS: usize = 256;
pub const WINDOW_SLOTS: usize = 546;

/// A finished job.
#[derive(Clone, Copy, Debug, PartialEq, Eq)]
pub struct Finished {
    pub task: u32,
    pub response: u64,
}

/// What a display shows of a task.
#[derive(Clone, Copy, Debug, Default, PartialEq, Eq)]
pub struct Shown {
    pub jobs: u64,
    pub late: u64,
    pub largest: u64,
}

/// What a window stands for: the sheet on which it was opened, and every job accepted since, the first one first.
#[derive(Clone, Debug)]
pub struct Opened {
    sheet: Sheet,
    pub accepted: Vec<Finished>,
}

impl Opened {
    pub fn on(sheet: &Sheet) -> Result<Opened, Refusal> {
        check_sheet(sheet)?;
        Ok(Opened { sheet: sheet.clone(), accepted: Vec::new() })
    }
    /// A job of a task that is not in the sheet is no job of the run.
    pub fn take(&mut self, job: Finished) -> Result<(), Refusal> {
        check_task(&self.sheet, job.task as usize)?;
        self.accepted.push(job);
        Ok(())
    }
    /// The responses of a task among the last 256 jobs, counted anew.
    pub fn show(&self, task: u32) -> Result<Shown, Refusal> {
        check_task(&self.sheet, task as usize)?;
        let last = self.accepted.iter().rev().take(WINDOW_JOBS);
        let responses: Vec<u64> = last.filter(|job| job.task == task).map(|job| job.response).collect();
        let deadline = self.sheet.task(task as usize).d as u64;
        Ok(Shown {
            jobs: responses.len() as u64,
            late: responses.iter().filter(|&&response| response > deadline).count() as u64,
            largest: responses.iter().copied().max().unwrap_or(0),
        })
    }
}

/// Where the parts of a window begin. Slot 0 is the number of tasks and slot 1 the count of jobs; then come the deadlines of 32 tasks,
/// the tasks of 256 jobs and their responses.
const DEADLINES: usize = 2;
const JOB_TASKS: usize = DEADLINES + MAX_TASKS;
const RESPONSES: usize = JOB_TASKS + WINDOW_JOBS;

/// The checks of a lent window: its slots, and its number of tasks, which is the answer.
fn check_window(window: &[u64]) -> Result<u64, Refusal> {
    check_slots(window.len(), WINDOW_SLOTS)?;
    match window[0] {
        0 => refuse(5, 0),
        tasks @ 1..=32 => Ok(tasks),
        _ => refuse(4, MAX_TASKS),
    }
}

/// The same, and of a task.
fn check_window_task(window: &[u64], task: u32) -> Result<(), Refusal> {
    if (task as u64) < check_window(window)? { Ok(()) } else { refuse(14, task as usize) }
}

/// The slots after an opening: all but these keep what they held.
pub fn open_window(sheet: &Sheet, window: &mut [u64]) -> Result<(), Refusal> {
    check_sheet(sheet)?;
    check_slots(window.len(), WINDOW_SLOTS)?;
    (window[0], window[1]) = (sheet.count as u64, 0);
    for i in 0..sheet.count {
        window[DEADLINES + i] = sheet.task(i).d as u64;
    }
    Ok(())
}

/// The slots after a job. The count goes up to 511, and then on from 256.
pub fn take_job(window: &mut [u64], job: Finished) -> Result<(), Refusal> {
    check_window_task(window, job.task)?;
    let (count, place) = (window[1], (window[1] % 256) as usize);
    window[JOB_TASKS + place] = job.task as u64;
    window[RESPONSES + place] = job.response;
    window[1] = if count < 256 { count + 1 } else { 256 + count.wrapping_add(1) % 256 };
    Ok(())
}

/// What the slots hold of a task.
fn shown_in(window: &[u64], task: usize) -> Shown {
    let mut shown = Shown::default();
    for place in 0..std::cmp::min(window[1], 256) as usize {
        if window[JOB_TASKS + place] == task as u64 {
            let response = window[RESPONSES + place];
            shown.jobs += 1;
            shown.late += (response > window[DEADLINES + task]) as u64;
            shown.largest = std::cmp::max(shown.largest, response);
        }
    }
    shown
}

/// A show of one task: 13 for the answer comes last.
pub fn show_task(window: &[u64], task: u32, answer_slots: usize) -> Result<Shown, Refusal> {
    check_window_task(window, task)?;
    check_slots(answer_slots, 3)?;
    Ok(shown_in(window, task as usize))
}

/// A show of all tasks: 13 for each of the three columns comes last.
pub fn show_tasks(window: &[u64], slots: [usize; 3]) -> Result<Vec<Shown>, Refusal> {
    let tasks = check_window(window)? as usize;
    for s in slots {
        check_slots(s, tasks)?;
    }
    Ok((0..tasks).map(|task| shown_in(window, task)).collect())
}

// ---- Ask first, then commit --------------------------------------------------------------------------------------------

/// The numbers of a row of an offer and of a board.
pub const OFFER_NUMBERS: usize = 227;
pub const BOARD_NUMBERS: usize = 264;

/// What an ask gives, or what is in force: a sheet and its choice. The sheet has the frame that stands beside it.
#[derive(Clone, Debug, PartialEq, Eq)]
pub struct Offer {
    pub sheet: Sheet,
    pub chosen: Chosen,
}

/// A board: what is in force, and the tick of the last commit, 0 where there is none yet.
#[derive(Clone, Debug, PartialEq, Eq)]
pub struct Board {
    pub plan: Offer,
    pub last: u64,
}

fn same_frame(a: &Option<Frame>, b: &Option<Frame>) -> bool {
    match (a, b) {
        (None, None) => true,
        (Some(a), Some(b)) => {
            (a.ticks, a.count) == (b.ticks, b.count) && (0..a.count.min(MAX_WINDOWS)).all(|k| a.window(k) == b.window(k))
        }
        _ => false,
    }
}

/// Whether two sheets are the same, with their frames. Entries and windows past the counts do not matter.
pub fn same_sheet(a: &Sheet, b: &Sheet) -> bool {
    (a.count, a.charge) == (b.count, b.charge)
        && (0..a.count.min(MAX_TASKS)).all(|i| a.task(i) == b.task(i))
        && same_frame(&a.frame, &b.frame)
}

impl Sheet {
    /// The same sheet with one more task at this place: those from there on are one lower.
    pub fn with_task(&self, place: usize, task: Task) -> Sheet {
        let mut tasks: Vec<Task> = (0..self.count).map(|i| self.task(i)).collect();
        tasks.insert(place, task);
        Sheet { count: tasks.len(), tasks, ..self.clone() }
    }
}

/// The number at a place of a row, 0 past its end.
fn number_at(row: &[u32], place: usize) -> u32 {
    row.get(place).copied().unwrap_or(0)
}

/// The offer that a row stands for, on a sheet with this frame. Entries past the count are left out.
pub fn offer_in(row: &[u32], frame: Option<Frame>) -> Offer {
    let at = |place: usize| number_at(row, place);
    let count = at(160) as usize;
    let tasks: Vec<Task> = (0..count.min(MAX_TASKS))
        .map(|i| Task { p: at(5 * i), j: at(5 * i + 1), e: at(5 * i + 2), d: at(5 * i + 3), low: at(5 * i + 4) != 0 })
        .collect();
    let column = |first: usize| (0..tasks.len()).map(|i| at(first + i)).collect();
    let chosen = Chosen { kept: column(163), worst: column(195), high_only: at(162) != 0 };
    Offer { sheet: Sheet { count, tasks, charge: (at(161) % 256) as u8, frame }, chosen }
}

/// The board that a row stands for. Windows past the count are left out.
pub fn board_in(row: &[u32]) -> Board {
    let at = |place: usize| number_at(row, place);
    let count = at(229) as usize;
    let windows = (0..count.min(MAX_WINDOWS)).map(|k| (at(230 + 2 * k), at(231 + 2 * k))).collect();
    let frame = if at(227) == 0 { None } else { Some(Frame { ticks: at(228), count, windows }) };
    Board { plan: offer_in(row, frame), last: at(262) as u64 + ((at(263) as u64) << 32) }
}

/// The row of an offer: all that is past the count is 0.
pub fn row_of_offer(offer: &Offer) -> Vec<u32> {
    let mut row = vec![0; OFFER_NUMBERS];
    for (i, t) in offer.sheet.tasks.iter().take(offer.sheet.count).enumerate() {
        row[5 * i..5 * i + 5].copy_from_slice(&[t.p, t.j, t.e, t.d, t.low as u32]);
        (row[163 + i], row[195 + i]) = (offer.chosen.kept[i], offer.chosen.worst[i]);
    }
    row[160..163].copy_from_slice(&[offer.sheet.count as u32, offer.sheet.charge as u32, offer.chosen.high_only as u32]);
    row
}

/// The row of a board: what is past the count of the windows is 0, and all of a frame where there is none.
pub fn row_of_board(board: &Board) -> Vec<u32> {
    let mut row = row_of_offer(&board.plan);
    row.resize(BOARD_NUMBERS, 0);
    if let Some(frame) = &board.plan.sheet.frame {
        row[227..230].copy_from_slice(&[1, frame.ticks, frame.count as u32]);
        for (k, &(first, length)) in frame.windows.iter().take(frame.count).enumerate() {
            row[230 + 2 * k..232 + 2 * k].copy_from_slice(&[first, length]);
        }
    }
    (row[262], row[263]) = (board.last as u32, (board.last >> 32) as u32);
    row
}

/// A choice that is made where its checks are passed.
fn plan_of(
    sheet: &Sheet,
    checks: Result<(), Refusal>,
    budget: &mut Budget,
) -> Result<Result<Offer, Refusal>, Exhausted> {
    if let Err(r) = checks {
        return Ok(Err(r));
    }
    Ok(choice(sheet, MAX_TASKS, MAX_TASKS, budget)?.map(|chosen| Offer { sheet: sheet.clone(), chosen }))
}

/// The opening of a board in so many slots: 13 comes before 15.
pub fn open_board(sheet: &Sheet, slots: usize, budget: &mut Budget) -> Result<Result<Board, Refusal>, Exhausted> {
    let checks = check_framed(sheet).and_then(|_| check_slots(slots, BOARD_NUMBERS));
    Ok(plan_of(sheet, checks, budget)?.map(|plan| Board { plan, last: 0 }))
}

/// An ask on a sheet, with so many slots for the offer: the sheet held, the place, then the new sheet as the choice does.
pub fn ask(sheet: &Sheet, task: Task, place: usize, slots: usize, budget: &mut Budget) -> Result<Result<Offer, Refusal>, Exhausted> {
    let held = check_framed(sheet).and_then(|_| if place > sheet.count { refuse(14, place) } else { Ok(()) });
    if let Err(r) = held {
        return Ok(Err(r));
    }
    let new = sheet.with_task(place, task);
    let checks = check_framed(&new).and_then(|_| check_slots(slots, OFFER_NUMBERS));
    plan_of(&new, checks, budget)
}

/// Whether some ask on a sheet gives an offer: it is asked at every place for the task that the offer has there. Where that would be
/// another sheet than the offer's, nothing is asked.
pub fn some_ask_gives(sheet: &Sheet, offer: &Offer, budget: &mut Budget) -> Result<bool, Exhausted> {
    for place in 0..=sheet.count {
        let task = offer.sheet.task(place);
        if same_sheet(&sheet.with_task(place, task), &offer.sheet) {
            if let Ok(given) = ask(sheet, task, place, OFFER_NUMBERS, budget)? {
                if given.chosen == offer.chosen {
                    return Ok(true);
                }
            }
        }
    }
    Ok(false)
}

/// The checks of a commit on a row before 19 and 20, and the list where nothing is refused.
pub fn check_commit(row: &[u32], n: usize, columns: &Columns) -> Result<Vec<Release>, Refusal> {
    let Board { plan: Offer { sheet, chosen }, last } = board_in(row);
    check_framed(&sheet)?;
    check_count(n)?;
    columns.check_slots(n)?;
    check_slots(row.len(), BOARD_NUMBERS)?;
    check_kept(&sheet, &chosen.kept)?;
    let list = columns.list(n);
    for p in 0..n {
        let before = if p == 0 { last } else { list[p - 1].tick };
        if let Some(number) = release_fault(&sheet, Some(before), 0..=MAX_TICK, list[p]) {
            return refuse(number, p);
        }
    }
    Ok(list)
}

/// The last finish of a list in the run with what is in force, 0 without a release.
pub fn last_finish(plan: &Offer, list: &[Release]) -> u64 {
    let ready = ready_ticks(&plan.sheet, &plan.chosen.kept, list);
    finish_by_job(&plan.sheet.frame, plan.sheet.charge, list, &ready).into_iter().max().unwrap_or(0) as u64
}

/// A commit at a tick of an offer that was asked of this sheet, both as they are given. The board after it, or the refusal.
pub fn commit(
    row: &[u32],
    offer: &[u32],
    asked: &Sheet,
    n: usize,
    columns: &Columns,
    at: u64,
    budget: &mut Budget,
) -> Result<Result<Board, Refusal>, Exhausted> {
    let list = match check_commit(row, n, columns) {
        Ok(list) => list,
        Err(r) => return Ok(Err(r)),
    };
    let held = board_in(row);
    let offer = offer_in(offer, asked.frame.clone());
    if !same_sheet(&held.plan.sheet, asked) || !some_ask_gives(asked, &offer, budget)? {
        return Ok(refuse(19, 0));
    }
    if at < held.last || last_finish(&held.plan, &list) > at {
        return Ok(refuse(20, 0));
    }
    let sheet = offer.sheet.framed(held.plan.sheet.frame);
    Ok(Ok(Board { plan: Offer { sheet, chosen: offer.chosen }, last: at }))
}

// ---- Every small trace -------------------------------------------------------------------------------------------------

/// The most tasks and releases of a small trace, the largest tick bound, and the most traces that there are.
pub const SMALL_TASKS: usize = 3;
pub const SMALL_RELEASES: u32 = 6;
pub const SMALL_TICKS: u32 = 12;
pub const SMALL_TRACES: u64 = 5_245_786;

/// The checks of both calls before 13: those of the sheet, then its tasks, the count of releases and the tick bound. The place of these three
/// is the number given.
pub fn check_small(sheet: &Sheet, releases: u32, ticks: u32) -> Result<(), Refusal> {
    check_sheet(sheet)?;
    if sheet.count > SMALL_TASKS {
        return refuse(4, sheet.count);
    }
    if releases > SMALL_RELEASES {
        return refuse(10, releases as usize);
    }
    if ticks > SMALL_TICKS {
        return refuse(8, ticks as usize);
    }
    Ok(())
}

/// Every list of n numbers below m that never fall: n different ones below m + n − 1 in rising order, each less how many stand before it.
/// The different ones are the bits of a number, and the next is the next number with as many bits: so the lists do not come in order.
pub fn never_falling(n: u32, m: u32) -> impl Iterator<Item = Vec<usize>> {
    let places = (m + n).saturating_sub(1);
    let next = |&bits: &u64| {
        let lowest = bits & bits.wrapping_neg();
        if lowest == 0 { None } else { Some(((bits ^ (bits + lowest)) >> 2) / lowest | (bits + lowest)) }
    };
    let list = move |bits: u64| {
        let mut rest = bits;
        let mut lowest = || {
            let place = rest.trailing_zeros() as usize;
            rest &= rest - 1;
            place
        };
        (0..n as usize).map(|before| lowest() - before).collect()
    };
    std::iter::successors(Some((1u64 << n) - 1), next).take_while(move |bits| bits >> places == 0).map(list)
}

/// Every release that a small trace may have, by tick and then task: ticks below the bound, full costs.
fn small_releases(sheet: &Sheet, ticks: u32) -> Vec<Release> {
    let at = |tick: u32| (0..sheet.count as u32).map(move |task| Release { task, tick: tick as u64, cost: sheet.task(task as usize).e });
    (0..ticks).flat_map(at).collect()
}

/// Whether any release lies at least d_J(k) after the one of its task k places before, for every k: every two releases of a task are
/// looked at.
pub fn is_legal(sheet: &Sheet, list: &[Release]) -> bool {
    let same = |a: usize, b: usize| list[a].task == list[b].task;
    (0..list.len()).all(|later| {
        let t = sheet.task(list[later].task as usize);
        (0..later).filter(|&earlier| same(earlier, later)).all(|earlier| {
            let k = (earlier + 1..=later).filter(|&p| same(p, later)).count() as i64;
            list[later].tick as i64 - list[earlier].tick as i64 >= gap(t.p as i64, t.j as i64, k)
        })
    })
}

/// Which of two traces comes first: the one with fewer releases; of equal counts the first (tick, task) that differs decides.
fn which_first(a: &[Release], b: &[Release]) -> Ordering {
    let pair = |r: &Release| (r.tick, r.task);
    let differing = a.iter().zip(b).map(|(x, y)| pair(x).cmp(&pair(y))).find(|o| o.is_ne());
    a.len().cmp(&b.len()).then(differing.unwrap_or(Ordering::Equal))
}

/// The legal traces of up to so many releases with ticks below the bound, in order, each once.
pub fn small_traces(sheet: &Sheet, releases: u32, ticks: u32) -> Vec<Vec<Release>> {
    let each = small_releases(sheet, ticks);
    let all_of = |n: u32| never_falling(n, each.len() as u32).map(|list| list.into_iter().map(|x| each[x]).collect::<Vec<Release>>());
    let mut all: Vec<Vec<Release>> = (0..=releases).flat_map(all_of).filter(|list| is_legal(sheet, list)).collect();
    all.sort_by(|a, b| which_first(a, b));
    assert!(all.windows(2).all(|two| which_first(&two[0], &two[1]).is_lt()));
    all
}

/// How many there are, from those of each task alone: whether a trace is legal is decided task by task, and lists of the tasks go together
/// in one way.
pub fn count_by_task(sheet: &Sheet, releases: u32, ticks: u32) -> u64 {
    let most = releases as usize;
    let mut ways = vec![1];
    for i in 0..sheet.count {
        let alone = Sheet::of(&[sheet.task(i)]);
        let legal = |ticks: &Vec<usize>| {
            let list: Vec<Release> = ticks.iter().map(|&tick| Release { task: 0, tick: tick as u64, cost: 1 }).collect();
            is_legal(&alone, &list)
        };
        let own: Vec<u64> = (0..=releases).map(|n| never_falling(n, ticks).filter(legal).count() as u64).collect();
        ways = (0..=most).map(|n| (0..=n).map(|of_others| ways.get(of_others).unwrap_or(&0) * own[n - of_others]).sum()).collect();
    }
    ways.iter().take(most + 1).sum()
}

/// How many lists of n numbers below m never fall: the ways to take n of m + n − 1.
fn lists_of(n: u64, m: u64) -> u64 {
    (0..n).fold(1, |ways, i| ways * (m + n - 1 - i) / (i + 1))
}

/// How many small traces there are where every list is legal.
pub fn count_where_all_legal(sheet: &Sheet, releases: u32, ticks: u32) -> u64 {
    (0..=releases as u64).map(|n| lists_of(n, sheet.count as u64 * ticks as u64)).sum()
}

/// The trace at a position where every list is legal, worked out from how many lists begin with each release.
pub fn trace_where_all_legal(sheet: &Sheet, releases: u32, ticks: u32, position: u64) -> Option<Vec<Release>> {
    let each = small_releases(sheet, ticks);
    let mut left = position;
    let mut n = 0;
    while left >= lists_of(n, each.len() as u64) {
        left -= lists_of(n, each.len() as u64);
        n += 1;
        if n > releases as u64 {
            return None;
        }
    }
    let (mut list, mut x) = (Vec::new(), 0);
    for more in (0..n).rev() {
        while left >= lists_of(more, (each.len() - x) as u64) {
            left -= lists_of(more, (each.len() - x) as u64);
            x += 1;
        }
        list.push(each[x]);
    }
    Some(list)
}

/// A call for the trace at a position, which is given, with so many slots of task, tick and cost and of the answer: 13 comes last. Where there
/// is no trace no column is needed, and where there is none or one the answer tells it.
pub fn small_trace<'a>(
    sheet: &Sheet,
    releases: u32,
    ticks: u32,
    trace: Option<&'a [Release]>,
    slots: [usize; 3],
    answer_slots: usize,
) -> Result<Option<&'a [Release]>, Refusal> {
    check_small(sheet, releases, ticks)?;
    for s in slots {
        check_slots(s, trace.map_or(0, |list| list.len()))?;
    }
    check_slots(answer_slots, 2)?;
    Ok(trace)
}

/// A call for how many there are, which is given.
pub fn small_trace_count(sheet: &Sheet, releases: u32, ticks: u32, many: u64, answer_slots: usize) -> Result<u64, Refusal> {
    check_small(sheet, releases, ticks)?;
    check_slots(answer_slots, 1)?;
    Ok(many)
}
