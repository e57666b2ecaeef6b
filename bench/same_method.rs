//! The calls in plain Rust with the methods of the library: the search for W(q) by the list of R-8, one walk over q for the choice, which
//! is made anew for the high tasks alone where it does not succeed, a shaper of two numbers for each task, a run tick by tick with one
//! queue for each task, a run from one start or finish to the next, a reader in two passes, a writer in one, a loader that looks once at
//! each byte. With a frame the search goes on from where our ticks reach the demand just found, at the starts where a gap begins, and a job's
//! end is reckoned by counting windows. The last 256 jobs are a ring in lent slots, which is looked through when it is shown. An ask puts a
//! task in and makes the choice; a commit asks once, at the first task in which the sheets differ, and makes a run that jumps. The small
//! trace at a position is found by walking over those before it, each extended one release deeper.
//! Each makes the checks of its call. Used as the measure of the archive's speed.

use crate::reference::{Frame, Refusal, Task, HORIZON, MAX_FRAME, MAX_RELEASES, MAX_SHORT_TICK, MAX_TASKS, MAX_TICK, MAX_TIME, MAX_WINDOWS};
use crate::reference::{SMALL_RELEASES, SMALL_TASKS, SMALL_TICKS};

type Checked = Result<(), Refusal>;

/// The ticks from a job's ready tick to the first in which it may run. R(q) has as many more.
const PICKUP: u64 = 1;

fn refuse<T>(number: u32, place: usize) -> Result<T, Refusal> {
    Err(Refusal { number, place: place as u64 })
}

fn in_range(t: &Task) -> bool {
    t.p >= 1 && t.p <= MAX_TIME && t.j <= MAX_TIME && t.e >= 1 && t.e <= t.p && t.e <= t.d && t.d <= MAX_TIME
}

/// What is wrong with a task: 6, or 17 where its cost and the charge are over P or D.
#[inline(always)]
fn task_fault(t: &Task, charge: u8) -> Option<u32> {
    if !in_range(t) {
        return Some(6);
    }
    let work = t.e + charge as u32;
    if work > t.p || work > t.d { Some(17) } else { None }
}

fn check_sheet(tasks: &[Task], charge: u8) -> Checked {
    if tasks.is_empty() {
        return refuse(5, 0);
    }
    if tasks.len() > MAX_TASKS {
        return refuse(4, MAX_TASKS);
    }
    for (i, t) in tasks.iter().enumerate() {
        if let Some(number) = task_fault(t, charge) {
            return refuse(number, i);
        }
    }
    Ok(())
}

fn check_frame(frame: Option<&Frame>) -> Checked {
    let Some(f) = frame else {
        return Ok(());
    };
    if f.ticks < 1 || f.ticks > MAX_FRAME {
        return refuse(18, 17);
    }
    if f.count < 1 || f.count > MAX_WINDOWS {
        return refuse(18, 16);
    }
    // one past the end of the window before
    let mut least = 0u64;
    for (k, &(first, length)) in f.windows[..f.count].iter().enumerate() {
        let end = first as u64 + length as u64;
        if length == 0 || end > f.ticks as u64 || (first as u64) < least {
            return refuse(18, k);
        }
        least = end + 1;
    }
    Ok(())
}

fn check_slots(slots: usize, needed: usize) -> Checked {
    if slots < needed { refuse(13, needed) } else { Ok(()) }
}

fn check_kept(tasks: &[Task], kept: &[u32]) -> Checked {
    match tasks.iter().zip(kept).position(|(t, &k)| k > t.j) {
        Some(i) => refuse(12, i),
        None => Ok(()),
    }
}

fn check_release(tasks: &[Task], before: u64, task: u32, tick: u64, cost: u32) -> Option<u32> {
    if task as usize >= tasks.len() {
        return Some(7);
    }
    if tick < before || tick > MAX_TICK {
        return Some(8);
    }
    if cost == 0 || cost > tasks[task as usize].e {
        return Some(9);
    }
    None
}

/// n releases in three columns.
#[derive(Clone, Copy)]
pub struct Columns<'a> {
    pub task: &'a [u32],
    pub tick: &'a [u64],
    pub cost: &'a [u32],
}

fn check_columns(n: usize, list: Columns) -> Checked {
    check_slots(list.task.len(), n)?;
    check_slots(list.tick.len(), n)?;
    check_slots(list.cost.len(), n)
}

fn check_list(tasks: &[Task], n: usize, list: Columns) -> Checked {
    check_list_from(tasks, 0, n, list)
}

/// The same with a least tick.
#[inline(always)]
fn check_list_from(tasks: &[Task], least: u64, n: usize, list: Columns) -> Checked {
    let mut before = least;
    for p in 0..n {
        if let Some(number) = check_release(tasks, before, list.task[p], list.tick[p], list.cost[p]) {
            return refuse(number, p);
        }
        before = list.tick[p];
    }
    Ok(())
}

// ---- Verdict and choice ------------------------------------------------------------------------------------------------

/// Loads, which are costs and the charge, and periods, in flat columns; and of the first periods the factors 2^44 ÷ P, rounded up, in
/// two parts.
struct Flat {
    loads: [u32; 32],
    periods: [u32; 32],
    highs: [u32; 32],
    lows: [u32; 32],
}

fn flat(tasks: &[Task], charge: u8, factors: usize) -> Flat {
    let mut f = Flat { loads: [0; 32], periods: [0; 32], highs: [0; 32], lows: [0; 32] };
    for (i, t) in tasks.iter().enumerate() {
        f.loads[i] = t.e + charge as u32;
        f.periods[i] = t.p;
    }
    for i in 0..factors {
        let m = (1u64 << 44).div_ceil(f.periods[i] as u64);
        f.highs[i] = (m >> 20) as u32;
        f.lows[i] = (m & 0xfffff) as u32;
    }
    f
}

fn above_load(f: &Flat, kept: &[u32], n: usize, t: u32) -> u64 {
    let (loads, periods, highs, lows, kept) = (&f.loads[..n], &f.periods[..n], &f.highs[..n], &f.lows[..n], &kept[..n]);
    let mut sum = 0u64;
    for j in 0..n {
        let y = (t + kept[j] + periods[j] - 1) as u64;
        let count = (y * highs[j] as u64 + ((y * lows[j] as u64) >> 20)) >> 24;
        sum += loads[j] as u64 * count as u32 as u64;
    }
    sum
}

/// One load of each of the first n tasks.
fn once_each(f: &Flat, n: usize) -> u64 {
    f.loads[..n].iter().map(|&e| e as u64).sum()
}

/// The search for W(q), from the own load and one load of each task above on: the last t, W(q) or one over H, and how many were tried.
fn search(f: &Flat, kept: &[u32], n: usize, own: u64, once: u64) -> (u64, u64) {
    let (mut t, mut tried) = (own + once, 1);
    while t <= HORIZON as u64 {
        let d = own + above_load(f, kept, n, t as u32);
        if d <= t {
            break;
        }
        (t, tried) = (d, tried + 1);
    }
    (t, tried)
}

/// A frame in columns: where each window begins, where it ends, and how many of ours come before it; how many windows there are, how many
/// of ours a frame has, and its ticks. Without a frame one window of one tick.
struct Windows {
    first: [u64; 16],
    end: [u64; 16],
    before: [u64; 16],
    count: usize,
    ours: u64,
    ticks: u64,
    framed: bool,
}

impl Windows {
    fn of(frame: Option<&Frame>) -> Windows {
        let mut w = Windows { first: [0; 16], end: [0; 16], before: [0; 16], count: 1, ours: 1, ticks: 1, framed: false };
        w.end[0] = 1;
        if let Some(f) = frame {
            (w.count, w.ours, w.ticks, w.framed) = (f.count, 0, f.ticks as u64, true);
            for (k, &(first, length)) in f.windows[..f.count].iter().enumerate() {
                (w.first[k], w.end[k], w.before[k]) = (first as u64, (first + length) as u64, w.ours);
                w.ours += length as u64;
            }
        }
        w
    }

    /// Our ticks before this one.
    fn before(&self, tick: u64) -> u64 {
        if !self.framed {
            return tick;
        }
        let (frames, at) = (tick / self.ticks, tick % self.ticks);
        let inside = (0..self.count).map(|k| at.min(self.end[k]).saturating_sub(self.first[k])).sum::<u64>();
        frames * self.ours + inside
    }

    /// The tick after the n-th of ours, n at least 1.
    fn after(&self, n: u64) -> u64 {
        if !self.framed {
            return n;
        }
        let (frames, rest) = ((n - 1) / self.ours, (n - 1) % self.ours);
        let k = (0..self.count).rfind(|&k| self.before[k] <= rest).unwrap();
        frames * self.ticks + self.first[k] + (rest - self.before[k]) + 1
    }

    /// Whether a tick is ours.
    fn is_ours(&self, tick: u64) -> bool {
        let at = tick % self.ticks;
        (0..self.count).any(|k| self.first[k] <= at && at < self.end[k])
    }
}

/// The search for W(q) with a frame: at each start where a gap begins, the largest.
fn search_framed(f: &Flat, w: &Windows, kept: &[u32], n: usize, own: u64, once: u64) -> u64 {
    let mut largest = 0;
    for k in 0..w.count {
        let start = w.end[k];
        let gone = w.before[k] + (w.end[k] - w.first[k]);
        let mut wanted = own + once;
        let t = loop {
            let t = w.after(gone + wanted) - start;
            if t > HORIZON as u64 {
                return t;
            }
            let d = own + above_load(f, kept, n, t as u32);
            if d <= wanted {
                break t;
            }
            wanted = d;
        };
        largest = largest.max(t);
    }
    largest
}

/// W(q), or a t over H, and how many t were tried without a frame.
#[inline(always)]
fn window(f: &Flat, w: &Windows, kept: &[u32], n: usize, own: u64, once: u64) -> (u64, u64) {
    if w.framed { (search_framed(f, w, kept, n, own, once), 0) } else { search(f, kept, n, own, once) }
}

/// Kind, q, R and the number of evaluations, as the archive answers.
pub fn verdict(tasks: &[Task], charge: u8, frame: Option<&Frame>, task: usize, kept: &[u32]) -> Result<[u64; 4], Refusal> {
    check_sheet(tasks, charge)?;
    check_frame(frame)?;
    if task >= tasks.len() {
        return refuse(14, task);
    }
    check_slots(kept.len(), tasks.len())?;
    check_kept(tasks, kept)?;
    let (f, windows) = (flat(tasks, charge, task), Windows::of(frame));
    let t = tasks[task];
    let (p, j, d, k) = (t.p as i64, t.j as i64, t.d as i64, kept[task] as i64);
    let once = once_each(&f, task);
    let (mut worst, mut first) = (0i64, 0i64);
    let (mut q, mut evaluations) = (0i64, 0);
    loop {
        let (w, tried) = window(&f, &windows, kept, task, (q as u64 + 1) * f.loads[task] as u64, once);
        evaluations += tried;
        if w > HORIZON as u64 {
            return Ok([0, q as u64, 0, evaluations]);
        }
        let x = j - q * p;
        let r = (w + PICKUP) as i64 + (x - k).max(x.min(0));
        if r > d {
            return Ok([1, q as u64, r as u64, evaluations]);
        }
        if worst < r {
            (worst, first) = (r, q);
        }
        if w as i64 <= ((q + 1) * p - k).max(0) {
            return Ok([2, first as u64, worst as u64, evaluations]);
        }
        q += 1;
    }
}

/// The least kept jitter at which a task fits, its largest R, and the evaluations, by one walk over q.
fn least_keep(f: &Flat, w: &Windows, kept: &[u32], i: usize, t: &Task) -> Option<(u32, u32, u64)> {
    let (p, j, d) = (t.p as u64, t.j as u64, t.d as u64);
    let once = once_each(f, i);
    let (mut q, mut high, mut evaluations) = (0u64, 0u64, 0);
    loop {
        let (t, tried) = window(f, w, kept, i, (q + 1) * f.loads[i] as u64, once);
        evaluations += tried;
        let picked = t + PICKUP;
        let base = q * p;
        if t > HORIZON as u64 || d + base.saturating_sub(j) < picked {
            return None;
        }
        high = high.max((picked + j).saturating_sub(base));
        let keep = high.saturating_sub(d);
        if t <= ((q + 1) * p).saturating_sub(keep) {
            return Some((keep as u32, high.min(d) as u32, evaluations));
        }
        q += 1;
    }
}

/// What one of the two choices finds: kept jitters and largest R, which are 0 of a task that is not judged, its evaluations, and the first
/// task that fits at no K, if there is one. The evaluations for that task are not counted.
struct Pass {
    keeps: [u32; 32],
    worsts: [u32; 32],
    evaluations: u64,
    unfit: Option<usize>,
}

/// The choice of all tasks, or of the high ones alone.
fn pass(tasks: &[Task], f: &Flat, windows: &Windows, high_only: bool) -> Pass {
    let mut p = Pass { keeps: [0; 32], worsts: [0; 32], evaluations: 0, unfit: None };
    for (i, t) in tasks.iter().enumerate() {
        if high_only && t.low {
            continue;
        }
        match least_keep(f, windows, &p.keeps, i, t) {
            None => {
                p.unfit = Some(i);
                return p;
            }
            Some((k, w, n)) => {
                (p.keeps[i], p.worsts[i]) = (k, w);
                p.evaluations += n;
            }
        }
    }
    p
}

/// The choice; returns whether it is that of the high tasks alone, and its evaluations without those of an ordinary one before it.
pub fn choice(
    tasks: &[Task], charge: u8, frame: Option<&Frame>, kept: &mut [u32], worst: &mut [u32],
) -> Result<(bool, u64), Refusal> {
    check_sheet(tasks, charge)?;
    check_frame(frame)?;
    check_slots(kept.len(), tasks.len())?;
    check_slots(worst.len(), tasks.len())?;
    let (f, windows) = (flat(tasks, charge, tasks.len()), Windows::of(frame));
    let mut p = pass(tasks, &f, &windows, false);
    // without a low task both are the same
    let high_only = p.unfit.is_some() && tasks.iter().any(|t| t.low);
    if high_only {
        p = pass(tasks, &f, &windows, true);
    }
    if let Some(i) = p.unfit {
        return refuse(15, i);
    }
    kept[..tasks.len()].copy_from_slice(&p.keeps[..tasks.len()]);
    worst[..tasks.len()].copy_from_slice(&p.worsts[..tasks.len()]);
    Ok((high_only, p.evaluations))
}

// ---- Ready ticks and run -----------------------------------------------------------------------------------------------

fn check_call(
    tasks: &[Task], charge: u8, frame: Option<&Frame>, kept: &[u32], n: usize, list: Columns, slots: usize,
) -> Checked {
    check_sheet(tasks, charge)?;
    check_frame(frame)?;
    if n > MAX_RELEASES {
        return refuse(10, MAX_RELEASES);
    }
    check_slots(kept.len(), tasks.len())?;
    check_columns(n, list)?;
    check_slots(slots, n)?;
    check_kept(tasks, kept)?;
    check_list(tasks, n, list)
}

fn fill_ready(tasks: &[Task], kept: &[u32], n: usize, list: Columns, ready: &mut [u64]) {
    let (mut last, mut next) = ([0u64; 32], [0u64; 32]);
    for p in 0..n {
        let i = list.task[p] as usize;
        let r = list.tick[p].max(last[i]).max(next[i].saturating_sub(kept[i] as u64));
        last[i] = r;
        next[i] = next[i].max(r) + tasks[i].p as u64;
        ready[p] = r;
    }
}

pub fn ready(tasks: &[Task], charge: u8, kept: &[u32], n: usize, list: Columns, ready: &mut [u64]) -> Checked {
    check_call(tasks, charge, None, kept, n, list, ready.len())?;
    fill_ready(tasks, kept, n, list, ready);
    Ok(())
}

/// The first release that the shapers with the full jitters would move, if any.
pub fn trace_check(tasks: &[Task], charge: u8, n: usize, list: Columns) -> Result<Option<usize>, Refusal> {
    check_sheet(tasks, charge)?;
    if n > MAX_RELEASES {
        return refuse(10, MAX_RELEASES);
    }
    check_columns(n, list)?;
    check_list(tasks, n, list)?;
    let (mut last, mut next) = ([0u64; 32], [0u64; 32]);
    for p in 0..n {
        let i = list.task[p] as usize;
        let at = list.tick[p];
        if at < last[i].max(next[i].saturating_sub(tasks[i].j as u64)) {
            return Ok(Some(p));
        }
        last[i] = at;
        next[i] = next[i].max(at) + tasks[i].p as u64;
    }
    Ok(None)
}

fn next_of(task: &[u32], n: usize, i: u32, from: usize) -> usize {
    (from..n).find(|&p| task[p] == i).unwrap_or(n)
}

pub fn run(
    tasks: &[Task], charge: u8, frame: Option<&Frame>, kept: &[u32], n: usize, list: Columns, ready: &mut [u64], finish: &mut [u64],
) -> Checked {
    check_call(tasks, charge, frame, kept, n, list, ready.len().min(finish.len()))?;
    fill_ready(tasks, kept, n, list, ready);
    let work_of = |p: usize| if p < n { list.cost[p] + charge as u32 } else { 0 };
    let (mut head, mut left) = ([n; 32], [0u32; 32]);
    for i in 0..tasks.len() {
        head[i] = next_of(list.task, n, i as u32, 0);
        left[i] = work_of(head[i]);
    }
    let wake_of = |p: usize, ready: &[u64]| if p < n { ready[p] + PICKUP } else { u64::MAX };
    let may_run = |p: usize, ready: &[u64], t: u64| p < n && ready[p] + PICKUP <= t;
    let windows = Windows::of(frame);
    let (mut t, mut wake) = (0u64, 0u64);
    loop {
        if t >= wake && (!windows.framed || windows.is_ours(t)) {
            match (0..tasks.len()).find(|&i| may_run(head[i], ready, t)) {
                None => {
                    wake = (0..tasks.len()).map(|i| wake_of(head[i], ready)).min().unwrap_or(u64::MAX);
                    if wake == u64::MAX {
                        return Ok(());
                    }
                }
                Some(i) => {
                    left[i] -= 1;
                    if left[i] == 0 {
                        finish[head[i]] = t + 1;
                        head[i] = next_of(list.task, n, i as u32, head[i] + 1);
                        left[i] = work_of(head[i]);
                    }
                }
            }
        }
        t += 1;
    }
}

/// Over every tick in which a job may start: no job is to come.
const NEVER: u64 = u64::MAX;

/// The run that jumps; returns its stops. Of each task: the oldest unfinished job with its start and the work that is left of it, and
/// the first job whose start is to come with that start. `wake` is the least of the starts to come.
pub fn jump(
    tasks: &[Task], charge: u8, frame: Option<&Frame>, kept: &[u32], n: usize, list: Columns, ready: &mut [u64], finish: &mut [u64],
) -> Result<u64, Refusal> {
    check_call(tasks, charge, frame, kept, n, list, ready.len().min(finish.len()))?;
    fill_ready(tasks, kept, n, list, ready);
    let start_of = |p: usize, ready: &[u64]| if p < n { ready[p] + PICKUP } else { NEVER };
    let work_of = |p: usize| if p < n { list.cost[p] + charge as u32 } else { 0 };
    let (mut head, mut since, mut left) = ([n; 32], [NEVER; 32], [0u32; 32]);
    for i in 0..tasks.len() {
        head[i] = next_of(list.task, n, i as u32, 0);
        since[i] = start_of(head[i], ready);
        left[i] = work_of(head[i]);
    }
    let (mut coming, mut due) = (head, since);
    let windows = Windows::of(frame);
    let (mut t, mut wake, mut stops) = (0u64, 0u64, 0u64);
    loop {
        if wake <= t {
            wake = NEVER;
            for i in 0..tasks.len() {
                if due[i] <= t {
                    let mut p = coming[i];
                    while p < n && (list.task[p] != i as u32 || start_of(p, ready) <= t) {
                        p += 1;
                    }
                    (coming[i], due[i]) = (p, start_of(p, ready));
                }
                wake = wake.min(due[i]);
            }
        }
        match (0..tasks.len()).find(|&i| since[i] <= t) {
            None => {
                if wake == NEVER {
                    return Ok(stops);
                }
                t = wake;
            }
            Some(i) => {
                let done = windows.before(t);
                let end = windows.after(done + left[i] as u64);
                if wake < end {
                    left[i] -= (windows.before(wake) - done) as u32;
                    t = wake;
                } else {
                    finish[head[i]] = end;
                    head[i] = next_of(list.task, n, i as u32, head[i] + 1);
                    since[i] = start_of(head[i], ready);
                    left[i] = work_of(head[i]);
                    t = end;
                }
            }
        }
        stops += 1;
    }
}

// ---- Files -------------------------------------------------------------------------------------------------------------

/// Bytes of a high and of a low task, of a charge, and of a release of kind 2 and of kind 4.
const HIGH: usize = 17;
const LOW: usize = 18;
const CHARGE: usize = 2;
const SHORT: usize = 10;
const LONG: usize = 14;

/// The bytes of a charge and of tasks.
fn sheet_size(tasks: &[Task], charge: u8) -> usize {
    let head = if charge > 0 { CHARGE } else { 0 };
    head + tasks.iter().map(|t| if t.low { LOW } else { HIGH }).sum::<usize>()
}

pub fn write(tasks: &[Task], charge: u8, n: usize, list: Columns, out: &mut [u8]) -> Result<usize, Refusal> {
    check_sheet(tasks, charge)?;
    if n > MAX_RELEASES {
        return refuse(10, MAX_RELEASES);
    }
    check_columns(n, list)?;
    let list_size = list.tick[..n].iter().map(|&t| if t <= MAX_SHORT_TICK { SHORT } else { LONG }).sum::<usize>();
    let size = sheet_size(tasks, charge) + list_size + 1;
    check_slots(out.len(), size)?;
    check_list(tasks, n, list)?;
    let mut at = 0;
    if charge > 0 {
        (out[0], out[1]) = (5, charge);
        at = CHARGE;
    }
    for t in tasks {
        out[at] = if t.low { 6 } else { 1 };
        for (k, x) in [t.p, t.j, t.e, t.d].iter().enumerate() {
            out[at + 1 + 4 * k..at + 5 + 4 * k].copy_from_slice(&x.to_le_bytes());
        }
        at += HIGH;
        if t.low {
            out[at] = 0;
            at += 1;
        }
    }
    for p in 0..n {
        let (tick, cost) = (list.tick[p].to_le_bytes(), list.cost[p].to_le_bytes());
        out[at + 1] = list.task[p] as u8;
        if list.tick[p] <= MAX_SHORT_TICK {
            out[at] = 2;
            out[at + 2..at + 6].copy_from_slice(&tick[..4]);
            out[at + 6..at + 10].copy_from_slice(&cost);
            at += SHORT;
        } else {
            out[at] = 4;
            out[at + 2..at + 10].copy_from_slice(&tick);
            out[at + 10..at + 14].copy_from_slice(&cost);
            at += LONG;
        }
    }
    out[at] = 3;
    Ok(size)
}

/// What a first pass over a file finds: its charge, its tasks, how many they are, and the number of its releases.
struct Scanned {
    charge: u8,
    tasks: [Task; 32],
    count: usize,
    releases: usize,
}

#[inline(always)]
fn number_at(file: &[u8], at: usize) -> u32 {
    u32::from_le_bytes([file[at], file[at + 1], file[at + 2], file[at + 3]])
}

fn task_at(file: &[u8], at: usize) -> Task {
    Task::high(number_at(file, at), number_at(file, at + 4), number_at(file, at + 8), number_at(file, at + 12))
}

/// Kind and size of the record at an offset: refused with 1 for another kind, with 2 where the file ends in it or before it.
fn record_at(file: &[u8], at: usize) -> Result<(u8, usize), Refusal> {
    let Some(&kind) = file.get(at) else {
        return refuse(2, at);
    };
    let size = match kind {
        1 => HIGH,
        2 => SHORT,
        3 => 1,
        4 => LONG,
        5 => CHARGE,
        6 => LOW,
        _ => return refuse(1, at),
    };
    if file.len() - at < size {
        return refuse(2, at);
    }
    Ok((kind, size))
}

/// Task, tick and cost of the record of kind 2 at an offset.
#[inline(always)]
fn short_at(file: &[u8], at: usize) -> (u32, u64, u32) {
    let r: &[u8; SHORT] = file[at..at + SHORT].try_into().unwrap();
    (r[1] as u32, number_at(r, 2) as u64, number_at(r, 6))
}

/// The same of kind 4.
#[inline(always)]
fn long_at(file: &[u8], at: usize) -> (u32, u64, u32) {
    let r: &[u8; LONG] = file[at..at + LONG].try_into().unwrap();
    (r[1] as u32, number_at(r, 2) as u64 + ((number_at(r, 6) as u64) << 32), number_at(r, 10))
}

/// Checks a whole file, record by record.
fn scan(file: &[u8]) -> Result<Scanned, Refusal> {
    let mut tasks = [Task::high(0, 0, 0, 0); 32];
    let (mut charge, mut count, mut releases, mut at, mut before) = (0, 0, 0, 0, 0);
    loop {
        let (kind, size) = record_at(file, at)?;
        match kind {
            1 | 6 => {
                let t = task_at(file, at + 1).marked(kind == 6);
                if releases > 0 {
                    return refuse(3, at);
                }
                if count == MAX_TASKS {
                    return refuse(4, at);
                }
                if t.low && file[at + 17] != 0 {
                    return refuse(6, at);
                }
                if let Some(number) = task_fault(&t, charge) {
                    return refuse(number, at);
                }
                tasks[count] = t;
                count += 1;
            }
            2 | 4 => {
                if count == 0 {
                    return refuse(5, at);
                }
                let (task, tick, cost) = if kind == 2 { short_at(file, at) } else { long_at(file, at) };
                // a tick of the other kind counts as one over the limit
                let tick = if (kind == 2) == (tick <= MAX_SHORT_TICK) { tick } else { u64::MAX };
                if let Some(number) = check_release(&tasks[..count], before, task, tick, cost) {
                    return refuse(number, at);
                }
                if releases == MAX_RELEASES {
                    return refuse(10, at);
                }
                before = tick;
                releases += 1;
            }
            5 => {
                if charge > 0 || count > 0 {
                    return refuse(3, at);
                }
                charge = file[at + 1];
                if charge == 0 {
                    return refuse(6, at);
                }
            }
            _ => {
                if count == 0 {
                    return refuse(5, at);
                }
                if file.len() > at + 1 {
                    return refuse(11, at + 1);
                }
                return Ok(Scanned { charge, tasks, count, releases });
            }
        }
        at += size;
    }
}

/// Reads a file: the sheet and three columns; the counts of tasks and releases, and the charge. A second pass decodes the releases,
/// whose kinds give the offset of the next.
pub fn read(
    file: &[u8], sheet: &mut [Task; 32], task: &mut [u32], tick: &mut [u64], cost: &mut [u32],
) -> Result<(usize, usize, u8), Refusal> {
    let s = scan(file)?;
    let n = s.releases;
    for slots in [task.len(), tick.len(), cost.len()] {
        check_slots(slots, n)?;
    }
    *sheet = s.tasks;
    let (task, tick, cost) = (&mut task[..n], &mut tick[..n], &mut cost[..n]);
    let mut at = sheet_size(&s.tasks[..s.count], s.charge);
    for p in 0..n {
        if file[at] == 2 {
            (task[p], tick[p], cost[p]) = short_at(file, at);
            at += SHORT;
        } else {
            (task[p], tick[p], cost[p]) = long_at(file, at);
            at += LONG;
        }
    }
    Ok((s.count, n, s.charge))
}

// ---- Texts -------------------------------------------------------------------------------------------------------------

/// What the bytes of a text so far leave: the tasks of the whole lines; of the line begun the numbers before its commas, how many
/// commas they are, whether a digit follows them, and the number of the digits since, cut off just over the limit.
pub struct Loading {
    pub tasks: [Task; 32],
    pub count: usize,
    before: [u32; 3],
    commas: usize,
    digit: bool,
    value: u32,
}

impl Loading {
    pub fn start() -> Loading {
        Loading { tasks: [Task::high(0, 0, 0, 0); 32], count: 0, before: [0; 3], commas: 0, digit: false, value: 0 }
    }

    /// One byte more. What cannot stand here is 16; a digit cannot after a first zero.
    #[inline(always)]
    pub fn byte(&mut self, b: u8) -> Checked {
        match b {
            b'0'..=b'9' if !self.digit || self.value > 0 => {
                self.digit = true;
                self.value = (10 * self.value + (b - b'0') as u32).min(MAX_TIME + 1);
                Ok(())
            }
            b',' if self.digit && self.commas < 3 => {
                self.before[self.commas] = self.value;
                self.commas += 1;
                (self.digit, self.value) = (false, 0);
                Ok(())
            }
            b'\n' if self.digit && self.commas == 3 => self.line(),
            _ => refuse(16, self.count),
        }
    }

    /// A line of the form is there.
    fn line(&mut self) -> Checked {
        let [p, j, e] = self.before;
        let t = Task::high(p, j, e, self.value);
        if self.count == MAX_TASKS {
            return refuse(4, self.count);
        }
        if !in_range(&t) {
            return refuse(6, self.count);
        }
        self.tasks[self.count] = t;
        self.count += 1;
        (self.commas, self.digit, self.value) = (0, false, 0);
        Ok(())
    }

    /// The text ends here.
    pub fn end(&self) -> Checked {
        if self.digit || self.commas > 0 {
            return refuse(16, self.count);
        }
        if self.count == 0 { refuse(5, 0) } else { Ok(()) }
    }
}

/// Loads a text: the sheet, and the count of its tasks.
pub fn load(text: &[u8], sheet: &mut [Task; 32]) -> Result<usize, Refusal> {
    let mut loading = Loading::start();
    for &b in text {
        loading.byte(b)?;
    }
    loading.end()?;
    *sheet = loading.tasks;
    Ok(loading.count)
}

// ---- The last 256 jobs -------------------------------------------------------------------------------------------------

/// The slots of a window: the number of tasks, the count of jobs, 32 deadlines, then the tasks and the responses of 256 jobs.
pub const WINDOW_SLOTS: usize = 546;
const DEADLINES: usize = 2;
const JOB_TASKS: usize = 34;
const JOB_RESPONSES: usize = 290;
const WINDOW_JOBS: u64 = 256;

pub fn open_window(tasks: &[Task], charge: u8, window: &mut [u64]) -> Checked {
    check_sheet(tasks, charge)?;
    check_slots(window.len(), WINDOW_SLOTS)?;
    window[0] = tasks.len() as u64;
    window[1] = 0;
    for (slot, t) in window[DEADLINES..].iter_mut().zip(tasks) {
        *slot = t.d as u64;
    }
    Ok(())
}

fn check_window(window: &[u64]) -> Checked {
    check_slots(window.len(), WINDOW_SLOTS)?;
    if window[0] == 0 {
        return refuse(5, 0);
    }
    if window[0] > MAX_TASKS as u64 {
        return refuse(4, MAX_TASKS);
    }
    Ok(())
}

fn check_task_in(window: &[u64], task: usize) -> Checked {
    check_window(window)?;
    if window[0] <= task as u64 {
        return refuse(14, task);
    }
    Ok(())
}

/// A finished job goes to the next place of the ring. The count goes on from 256 after 511.
pub fn take_job(window: &mut [u64], task: usize, response: u64) -> Checked {
    check_task_in(window, task)?;
    let count = window[1];
    let place = (count % WINDOW_JOBS) as usize;
    window[JOB_TASKS + place] = task as u64;
    window[JOB_RESPONSES + place] = response;
    window[1] = if count < WINDOW_JOBS { count + 1 } else { WINDOW_JOBS + (count % WINDOW_JOBS + 1) % WINDOW_JOBS };
    Ok(())
}

/// What is shown of a task: its jobs, the late ones among them, and the largest response.
#[derive(Clone, Copy, Debug, PartialEq, Eq)]
pub struct Shown {
    pub jobs: u32,
    pub late: u32,
    pub largest: u64,
}

/// The places of the ring in use: tasks and responses.
fn jobs_in(window: &[u64]) -> impl Iterator<Item = (u64, u64)> + '_ {
    let used = window[1].min(WINDOW_JOBS) as usize;
    let (tasks, responses) = (&window[JOB_TASKS..][..used], &window[JOB_RESPONSES..][..used]);
    tasks.iter().copied().zip(responses.iter().copied())
}

/// One look at each place in use.
pub fn show_task(window: &[u64], task: usize) -> Result<Shown, Refusal> {
    check_task_in(window, task)?;
    let deadline = window[DEADLINES + task];
    let mut shown = Shown { jobs: 0, late: 0, largest: 0 };
    for (t, r) in jobs_in(window) {
        if t == task as u64 {
            shown.jobs += 1;
            shown.late += (r > deadline) as u32;
            shown.largest = shown.largest.max(r);
        }
    }
    Ok(shown)
}

/// One look at each place in use, whatever the tasks.
pub fn show_all(window: &[u64], jobs: &mut [u32], late: &mut [u32], largest: &mut [u64]) -> Checked {
    check_window(window)?;
    let count = window[0] as usize;
    for slots in [jobs.len(), late.len(), largest.len()] {
        check_slots(slots, count)?;
    }
    let (jobs, late, largest) = (&mut jobs[..count], &mut late[..count], &mut largest[..count]);
    jobs.fill(0);
    late.fill(0);
    largest.fill(0);
    for (t, r) in jobs_in(window) {
        if t < count as u64 {
            let i = t as usize;
            jobs[i] += 1;
            late[i] += (r > window[DEADLINES + i]) as u32;
            largest[i] = largest[i].max(r);
        }
    }
    Ok(())
}

// ---- Ask and commit ----------------------------------------------------------------------------------------------------

/// A sheet and its choice: an offer, or what is in force.
#[derive(Clone, Copy)]
pub struct Plan {
    pub tasks: [Task; 32],
    pub count: usize,
    pub charge: u8,
    pub kept: [u32; 32],
    pub worst: [u32; 32],
    pub high_only: bool,
}

impl Plan {
    pub fn sheet(&self) -> &[Task] {
        &self.tasks[..self.count]
    }
}

#[derive(Clone)]
pub struct Board {
    pub plan: Plan,
    pub frame: Option<Frame>,
    pub last: u64,
}

fn plan_of(tasks: [Task; 32], count: usize, charge: u8, frame: Option<&Frame>) -> Result<Plan, Refusal> {
    let mut plan = Plan { tasks, count, charge, kept: [0; 32], worst: [0; 32], high_only: false };
    plan.high_only = choice(&tasks[..count], charge, frame, &mut plan.kept, &mut plan.worst)?.0;
    Ok(plan)
}

pub fn open_board(tasks: &[Task], charge: u8, frame: Option<&Frame>) -> Result<Board, Refusal> {
    check_sheet(tasks, charge)?;
    let mut all = [Task::high(0, 0, 0, 0); 32];
    all[..tasks.len()].copy_from_slice(tasks);
    Ok(Board { plan: plan_of(all, tasks.len(), charge, frame)?, frame: frame.cloned(), last: 0 })
}

pub fn ask(tasks: &[Task], charge: u8, frame: Option<&Frame>, task: Task, place: usize) -> Result<Plan, Refusal> {
    check_sheet(tasks, charge)?;
    check_frame(frame)?;
    let count = tasks.len();
    if place > count {
        return refuse(14, place);
    }
    if count == MAX_TASKS {
        return refuse(4, MAX_TASKS);
    }
    let mut all = [Task::high(0, 0, 0, 0); 32];
    all[..place].copy_from_slice(&tasks[..place]);
    all[place] = task;
    all[place + 1..=count].copy_from_slice(&tasks[place..]);
    plan_of(all, count + 1, charge, frame)
}

fn same_frame(a: Option<&Frame>, b: Option<&Frame>) -> bool {
    match (a, b) {
        (None, None) => true,
        (Some(a), Some(b)) => a.ticks == b.ticks && a.count == b.count && a.windows[..a.count] == b.windows[..b.count],
        _ => false,
    }
}

/// Whether some ask gives the offer: the one for the first task in which the sheets differ.
fn is_offer(tasks: &[Task], charge: u8, frame: Option<&Frame>, offer: &Plan) -> bool {
    if tasks.len() >= MAX_TASKS {
        return false;
    }
    let place = (0..tasks.len()).find(|&i| tasks[i] != offer.tasks[i]).unwrap_or(tasks.len());
    ask(tasks, charge, frame, offer.tasks[place], place).is_ok_and(|given| {
        let n = given.count;
        given.sheet() == offer.sheet()
            && given.charge == offer.charge
            && given.kept[..n] == offer.kept[..n]
            && given.worst[..n] == offer.worst[..n]
            && given.high_only == offer.high_only
    })
}

/// A commit of an offer that was asked of a sheet with its frame.
pub fn commit(
    board: &mut Board, offer: &Plan, tasks: &[Task], charge: u8, frame: Option<&Frame>, n: usize, list: Columns, at: u64,
) -> Checked {
    let held = &board.plan;
    check_sheet(held.sheet(), held.charge)?;
    check_frame(board.frame.as_ref())?;
    if n > MAX_RELEASES {
        return refuse(10, MAX_RELEASES);
    }
    check_columns(n, list)?;
    check_kept(held.sheet(), &held.kept)?;
    check_list_from(held.sheet(), board.last, n, list)?;
    let same = held.sheet() == tasks && held.charge == charge && same_frame(board.frame.as_ref(), frame);
    if !same || !is_offer(tasks, charge, frame, offer) {
        return refuse(19, 0);
    }
    if at < board.last {
        return refuse(20, 0);
    }
    let (mut ready, mut finish) = ([0u64; MAX_RELEASES], [0u64; MAX_RELEASES]);
    jump(held.sheet(), held.charge, board.frame.as_ref(), &held.kept, n, list, &mut ready, &mut finish)?;
    if finish[..n].iter().any(|&f| f > at) {
        return refuse(20, 0);
    }
    board.plan = *offer;
    board.last = at;
    Ok(())
}

// ---- Every small trace -------------------------------------------------------------------------------------------------

/// The releases placed so far.
struct Prefix {
    task: [u32; SMALL_RELEASES as usize],
    tick: [u64; SMALL_RELEASES as usize],
    cost: [u32; SMALL_RELEASES as usize],
}

impl Prefix {
    fn none() -> Prefix {
        Prefix { task: [0; 6], tick: [0; 6], cost: [0; 6] }
    }

    /// The least tick of one more release of a task: at least d_J(k) after the one k places before, the latest first.
    #[inline(always)]
    fn floor(&self, placed: usize, task: u32, t: &Task) -> u64 {
        let (mut least, mut apart) = (0, 0u64);
        for p in (0..placed).rev() {
            if self.task[p] == task {
                apart += t.p as u64;
                least = least.max(self.tick[p] + apart.saturating_sub(t.j as u64));
            }
        }
        least
    }
}

/// Where the walk stands: the trace is found, or so many positions are left to go.
enum Walked {
    Found,
    Left(u64),
}

/// Extends the releases placed so far to n, by each pair that may follow, from pair x on.
fn extend(tasks: &[Task], pairs: u32, prefix: &mut Prefix, placed: usize, n: usize, x: u32, position: u64) -> Walked {
    if placed == n {
        return if position == 0 { Walked::Found } else { Walked::Left(position - 1) };
    }
    let mut left = position;
    for y in x..pairs {
        let (task, tick) = (y % tasks.len() as u32, (y / tasks.len() as u32) as u64);
        let t = &tasks[task as usize];
        if prefix.floor(placed, task, t) <= tick {
            (prefix.task[placed], prefix.tick[placed], prefix.cost[placed]) = (task, tick, t.e);
            match extend(tasks, pairs, prefix, placed + 1, n, y, left) {
                Walked::Found => return Walked::Found,
                Walked::Left(more) => left = more,
            }
        }
    }
    Walked::Left(left)
}

fn check_small(tasks: &[Task], charge: u8, releases: u32, ticks: u32) -> Checked {
    check_sheet(tasks, charge)?;
    if tasks.len() > SMALL_TASKS {
        return refuse(4, tasks.len());
    }
    if releases > SMALL_RELEASES {
        return refuse(10, releases as usize);
    }
    if ticks > SMALL_TICKS {
        return refuse(8, ticks as usize);
    }
    Ok(())
}

/// The trace at a position in the prefix, and its length; or what is left of the position.
fn walk_to(tasks: &[Task], releases: u32, ticks: u32, position: u64, prefix: &mut Prefix) -> Result<usize, u64> {
    let mut left = position;
    for n in 0..=releases as usize {
        match extend(tasks, ticks * tasks.len() as u32, prefix, 0, n, 0, left) {
            Walked::Found => return Ok(n),
            Walked::Left(more) => left = more,
        }
    }
    Err(left)
}

/// The length of the trace at a position, which is written; none past the last.
pub fn small_trace(
    tasks: &[Task], charge: u8, releases: u32, ticks: u32, position: u64, task: &mut [u32], tick: &mut [u64], cost: &mut [u32],
) -> Result<Option<usize>, Refusal> {
    check_small(tasks, charge, releases, ticks)?;
    let mut prefix = Prefix::none();
    let Ok(n) = walk_to(tasks, releases, ticks, position, &mut prefix) else {
        return Ok(None);
    };
    for slots in [task.len(), tick.len(), cost.len()] {
        check_slots(slots, n)?;
    }
    task[..n].copy_from_slice(&prefix.task[..n]);
    tick[..n].copy_from_slice(&prefix.tick[..n]);
    cost[..n].copy_from_slice(&prefix.cost[..n]);
    Ok(Some(n))
}

/// How many there are: the walk to the largest position goes over all of them.
pub fn small_trace_count(tasks: &[Task], charge: u8, releases: u32, ticks: u32) -> Result<u64, Refusal> {
    check_small(tasks, charge, releases, ticks)?;
    Ok(u64::MAX - walk_to(tasks, releases, ticks, u64::MAX, &mut Prefix::none()).err().unwrap())
}
