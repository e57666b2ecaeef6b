//! The cases of `vectors_files`: read, write, and a file read and written again.

use crate::case::*;
use crate::lists::{charges, full_list, full_sheet, late_list, middle_list, refusals, sound};
use crate::reference::{add_release, bytes_needed, encode, read, write, Release, Sheet, Task, MAX_TICK};

/// What a byte of a lent buffer holds before a call.
const BYTE: u8 = 0xee;

pub fn no_sheet() -> Sheet {
    Sheet::of(&[])
}

/// What a read is given: a file and three columns.
#[derive(Clone)]
struct ReadCall {
    file: Vec<u8>,
    task: Vec<u32>,
    tick: Vec<u64>,
    cost: Vec<u32>,
}

/// Columns with `n` slots each.
fn reading(file: &[u8], n: usize) -> ReadCall {
    ReadCall { file: file.to_vec(), task: held(n), tick: held(n), cost: held(n) }
}

/// The tasks of a sheet, a low one with that word.
pub fn entries(s: &Sheet) -> String {
    let mark = |t: &Task| if t.low { " low" } else { "" };
    s.tasks.iter().fold(format!(" sheet {}", s.count), |text, t| text + &format!(", {} {} {} {}{}", t.p, t.j, t.e, t.d, mark(t)))
}

/// The sheet of a read: after a refusal it has no tasks and the charge 0.
fn read_sheet(s: &Sheet) -> String {
    format!("{} charge {}", entries(s), s.charge)
}

fn read_answer(c: &ReadCall) -> String {
    match read(&c.file, [c.task.len(), c.tick.len(), c.cost.len()]) {
        Err(r) => refused(r) + &read_sheet(&no_sheet()) + &column(&c.task) + &column(&c.tick) + &column(&c.cost),
        Ok((sheet, list)) => {
            let task: Vec<u32> = list.iter().map(|r| r.task).collect();
            let tick: Vec<u64> = list.iter().map(|r| r.tick).collect();
            let cost: Vec<u32> = list.iter().map(|r| r.cost).collect();
            let columns = [column(&written(&task, &c.task)), column(&written(&tick, &c.tick)), column(&written(&cost, &c.cost))];
            format!(" read {}{}{}", list.len(), read_sheet(&sheet), columns.concat())
        }
    }
}

fn read_blocks(c: &ReadCall) -> Vec<Vec<u8>> {
    vec![head(0, &[], &no_sheet()), c.file.clone(), numbers(&c.task), numbers(&c.tick), numbers(&c.cost)]
}

fn bytes(all: &[u8]) -> String {
    all.iter().fold(String::from(", "), |text, b| text + &format!("{b:02x}"))
}

fn write_answer(c: &ListCall, slots: usize) -> String {
    match write(&c.sheet, c.count, &c.columns(), slots) {
        Err(r) => refused(r) + &bytes(&vec![BYTE; slots]),
        Ok(file) => {
            let mut all = file.clone();
            all.resize(slots, BYTE);
            format!(" written {}{}", file.len(), bytes(&all))
        }
    }
}

fn write_blocks(c: &ListCall, slots: usize) -> Vec<Vec<u8>> {
    let mut all = vec![head(1, &[c.count as u32], &c.sheet)];
    all.extend(c.list_blocks());
    all.push(vec![BYTE; slots]);
    all
}

fn needed(c: &ListCall) -> usize {
    bytes_needed(&c.sheet, c.sheet.count, &c.tick[..c.count])
}

/// A file that is read and written again: the same bytes.
fn again_answer(file: &[u8]) -> String {
    match read(file, [1024; 3]) {
        Err(r) => refused(r),
        Ok((sheet, list)) => {
            assert_eq!(encode(&sheet, &list), file);
            format!(" written {}{}", file.len(), bytes(file))
        }
    }
}

fn again_blocks(file: &[u8]) -> Vec<Vec<u8>> {
    vec![head(2, &[], &no_sheet()), file.to_vec()]
}

fn add_read(v: &mut Vectors, label: &str, c: &ReadCall) {
    v.case(&format!("read, {label}"), &read_blocks(c), &read_answer(c));
}

fn add_write(v: &mut Vectors, label: &str, c: &ListCall, slots: usize) {
    v.case(&format!("write, {label}"), &write_blocks(c, slots), &write_answer(c, slots));
}

fn add_again(v: &mut Vectors, label: &str, file: &[u8]) {
    v.case(&format!("again, {label}"), &again_blocks(file), &again_answer(file));
}

// ---- Records as bytes ----

/// A task: of kind 6 where it is low.
fn of_task(t: Task) -> Vec<u8> {
    let mut all = encode(&Sheet::of(&[t]), &[]);
    all.pop();
    all
}

/// A low task with this last byte, which is to be 0.
fn of_low(t: Task, mark: u8) -> Vec<u8> {
    let mut all = of_task(t.marked(true));
    all[17] = mark;
    all
}

/// A charge, which is to be the first record.
fn of_charge(charge: u8) -> Vec<u8> {
    vec![5, charge]
}

fn of_release(kind: u8, task: u32, tick: u64, cost: u32) -> Vec<u8> {
    let mut all = Vec::new();
    add_release(&mut all, kind, Release { task, tick, cost });
    all
}

/// A release of kind 2, with the low four bytes of its tick.
fn short(task: u32, tick: u64, cost: u32) -> Vec<u8> {
    of_release(2, task, tick, cost)
}

/// A release of kind 4.
fn long(task: u32, tick: u64, cost: u32) -> Vec<u8> {
    of_release(4, task, tick, cost)
}

/// Records one after the other.
fn file(records: &[Vec<u8>]) -> Vec<u8> {
    records.concat()
}

fn end() -> Vec<u8> {
    vec![3]
}

fn printed_file() -> Vec<u8> {
    encode(&printed_sheet(), &printed_list())
}

/// The printed sheet without and with the printed releases, written out by hand.
fn worked(v: &mut Vectors) {
    let sheet_hex = "0106000000050000000200000006000000010800000007000000020000000800000001\
                     0a00000000000000020000000a000000";
    let list_hex = "020000000000020000000202000000000200000002000100000002000000";
    let sheet_line = " sheet 3, 6 5 2 6, 8 7 2 8, 10 0 2 10 charge 0";
    for (label, list, hex, line) in [
        ("printed sheet", vec![], format!("{sheet_hex}03"), format!(" read 0{sheet_line}, - - - - -, - - - - -, - - - - -")),
        ("printed example", printed_list(), format!("{sheet_hex}{list_hex}03"),
         format!(" read 3{sheet_line}, 0 2 0 - -, 0 0 1 - -, 2 2 2 - -")),
    ] {
        let whole = encode(&printed_sheet(), &list);
        let r = reading(&whole, 5);
        v.worked(&format!("read, {label}"), &read_blocks(&r), &read_answer(&r), &line);
        let w = ListCall::of(&printed_sheet(), &[], &list);
        let line = format!(" written {}, {hex}eeee", hex.len() / 2);
        v.worked(&format!("write, {label}"), &write_blocks(&w, needed(&w) + 2), &write_answer(&w, needed(&w) + 2), &line);
        let line = format!(" written {}, {hex}", hex.len() / 2);
        v.worked(&format!("again, {label}"), &again_blocks(&whole), &again_answer(&whole), &line);
    }
    let empty = reading(&[], 1);
    v.worked("read, empty file", &read_blocks(&empty), &read_answer(&empty), " refused 2 at 0 sheet 0 charge 0, -, -, -");
    let lone = reading(&[3], 1);
    v.worked("read, lone end", &read_blocks(&lone), &read_answer(&lone), " refused 5 at 0 sheet 0 charge 0, -, -, -");
    let after = reading(&[3, 3], 1);
    v.worked("read, lone end and a byte", &read_blocks(&after), &read_answer(&after), " refused 5 at 0 sheet 0 charge 0, -, -, -");
}

/// A file cut before each of its bytes.
fn cut(v: &mut Vectors) {
    let tasks = || file(&[of_task(task(6, 5, 2, 6)), of_task(task(8, 7, 2, 8))]);
    let whole = file(&[tasks(), short(0, 3, 2), short(1, 4, 1), end()]);
    for n in 0..=whole.len() {
        add_read(v, &format!("the first {n} bytes"), &reading(&whole[..n], 3));
    }
    for n in 1..10 {
        add_read(v, &format!("a release before any task, {n} bytes"), &reading(&short(9, u32::MAX as u64, 0)[..n], 1));
    }
    let both = file(&[tasks(), short(0, 1_000_000_000, 2), long(1, MAX_TICK, 1), end()]);
    for n in tasks().len()..=both.len() {
        add_read(v, &format!("both kinds, the first {n} bytes"), &reading(&both[..n], 3));
    }
    for n in 1..14 {
        add_read(v, &format!("a long release before any task, {n} bytes"), &reading(&long(9, u64::MAX, 0)[..n], 1));
    }
}

/// Files with one fault or with several that compete.
fn faults() -> Vec<(&'static str, Vec<u8>)> {
    let t = || of_task(task(6, 5, 2, 6));
    let low = || of_task(task(8, 7, 2, 8));
    let bad = || of_task(task(0, 7, 2, 8));
    let r = |task, tick, cost| short(task, tick, cost);
    vec![
        ("kind 0", file(&[t(), vec![0], end()])),
        ("kind 4 with one byte after it", file(&[t(), low(), vec![4], end()])),
        ("kind 5 with one byte after it", file(&[t(), low(), vec![5], end()])),
        ("kind 255 first", vec![255]),
        ("kind 0 after a release", file(&[t(), r(0, 1, 1), vec![0]])),
        ("kind 9 with nothing after it", file(&[t(), r(0, 1, 1), vec![9]])),
        ("no end", file(&[t(), low()])),
        ("no end after a release", file(&[t(), r(0, 0, 1)])),
        ("task after a release", file(&[t(), r(0, 0, 1), low(), end()])),
        ("task out of range after a release", file(&[t(), r(0, 0, 1), bad(), end()])),
        ("task after a release, cut", file(&[t(), r(0, 0, 1), low()[..16].to_vec()])),
        ("release before any task", file(&[r(0, 0, 1), t(), end()])),
        ("release of no task before any task", file(&[r(200, u32::MAX as u64, 0), end()])),
        ("end before any task, then a file", file(&[end(), t(), end()])),
        ("P 0", file(&[t(), bad(), end()])),
        ("P 1000001", file(&[of_task(task(1_000_001, 0, 1, 1)), end()])),
        ("J 1000001", file(&[t(), of_task(task(5, 1_000_001, 1, 1)), end()])),
        ("E 0", file(&[t(), of_task(task(5, 0, 0, 1)), end()])),
        ("E over P", file(&[t(), of_task(task(5, 0, 6, 9)), end()])),
        ("E over D", file(&[t(), of_task(task(5, 0, 4, 3)), end()])),
        ("D 0", file(&[t(), of_task(task(5, 0, 1, 0)), end()])),
        ("D 1000001", file(&[t(), low(), of_task(task(5, 0, 1, 1_000_001)), end()])),
        ("every byte 255 in a task", file(&[vec![1], vec![255; 16], end()])),
        ("least numbers", file(&[of_task(task(1, 0, 1, 1)), r(0, 0, 1), end()])),
        ("largest numbers", file(&[of_task(task(1_000_000, 1_000_000, 1_000_000, 1_000_000)), r(0, 1_000_000_000, 1_000_000), end()])),
        ("release of task 2 of two", file(&[t(), low(), r(2, 0, 1), end()])),
        ("release of task 255", file(&[t(), low(), r(0, 0, 1), r(255, 0, 1), end()])),
        ("tick falls", file(&[t(), r(0, 9, 1), r(0, 8, 1), end()])),
        ("equal ticks", file(&[t(), r(0, 9, 1), r(0, 9, 2), end()])),
        ("tick 1000000001", file(&[t(), r(0, 1_000_000_001, 1), end()])),
        ("tick 4294967295", file(&[t(), r(0, 3, 1), r(0, u32::MAX as u64, 1), end()])),
        ("cost 0", file(&[t(), r(0, 9, 0), end()])),
        ("cost over E", file(&[t(), r(0, 9, 3), end()])),
        ("cost 4294967295", file(&[t(), r(0, 9, 1), r(0, 9, u32::MAX), end()])),
        ("7 before 8 and 9", file(&[t(), r(0, 9, 1), r(1, 8, 0), end()])),
        ("8 before 9", file(&[t(), r(0, 9, 1), r(0, 8, 0), end()])),
        ("9 in an earlier record than 7", file(&[t(), r(0, 9, 0), r(1, 8, 0), end()])),
        ("7 in an earlier record than 3", file(&[t(), r(1, 9, 1), t(), end()])),
        ("6 in an earlier record than 1", file(&[bad(), vec![7]])),
        ("a byte after the end", file(&[t(), end(), vec![0]])),
        ("an end after the end", file(&[t(), r(0, 1, 1), end(), end()])),
        ("a file after the end", file(&[t(), end(), t(), end()])),
        ("9 before a byte after the end", file(&[t(), r(0, 1, 0), end(), end()])),
    ]
}

/// Files with releases of kind 4, alone and beside others of kind 2.
fn long_releases() -> Vec<(&'static str, Vec<u8>)> {
    let t = || of_task(task(6, 5, 2, 6));
    let bad = || of_task(task(0, 7, 2, 8));
    let largest = || of_task(task(1_000_000, 1_000_000, 1_000_000, 1_000_000));
    const LAST: u64 = 1_000_000_000;
    vec![
        ("kind 2, then 4", file(&[t(), short(0, LAST, 1), long(0, LAST + 1, 2), end()])),
        ("kinds 2, 2, 4, 4", file(&[t(), short(0, 0, 1), short(0, LAST, 2), long(0, LAST + 1, 2), long(0, LAST + 1, 1), end()])),
        ("kind 4, then 2", file(&[t(), long(0, LAST + 1, 1), short(0, LAST, 1), end()])),
        ("kind 4, then 2 with a later tick", file(&[t(), long(0, LAST + 1, 1), short(0, LAST + 2, 1), end()])),
        ("kinds 2, 4, 2", file(&[t(), short(0, LAST, 1), long(0, LAST + 1, 2), short(0, LAST, 1), end()])),
        ("kinds 2, 4, 1", file(&[t(), short(0, LAST, 1), long(0, LAST + 1, 2), t(), end()])),
        ("kinds 4, 1", file(&[t(), long(0, LAST + 1, 2), t(), end()])),
        ("task out of range after kind 4", file(&[t(), long(0, LAST + 1, 2), bad(), end()])),
        ("task after kind 4, cut", file(&[t(), long(0, LAST + 1, 2), t()[..16].to_vec()])),
        ("kind 4 before any task", file(&[long(0, LAST + 1, 1), t(), end()])),
        ("kind 4 of no task before any task", file(&[long(200, u64::MAX, 0), end()])),
        ("kind 4 with the largest numbers", file(&[largest(), long(0, MAX_TICK, 1_000_000), end()])),
        ("kind 4 of task 1 of one", file(&[t(), long(1, MAX_TICK, 1), end()])),
        ("kind 4 of task 255", file(&[t(), t(), long(1, MAX_TICK, 1), long(255, MAX_TICK, 1), end()])),
        ("kind 4, cost 0", file(&[t(), long(0, MAX_TICK, 0), end()])),
        ("kind 4, cost over E", file(&[t(), long(0, MAX_TICK, 3), end()])),
        ("kind 4, cost 4294967295", file(&[t(), long(0, MAX_TICK, u32::MAX), end()])),
        ("kind 4, tick falls", file(&[t(), long(0, 1 << 33, 1), long(0, (1 << 33) - 1, 1), end()])),
        ("kind 4, tick falls, its low half rises", file(&[t(), long(0, 1 << 33, 1), long(0, (1 << 32) + 5, 1), end()])),
        ("kind 4, tick rises, its low half falls", file(&[t(), long(0, (1 << 33) - 1, 1), long(0, 1 << 33, 1), end()])),
        ("kind 4, equal ticks", file(&[t(), long(0, MAX_TICK, 1), long(0, MAX_TICK, 2), end()])),
        ("kind 4, 7 before 8 and 9", file(&[t(), long(0, MAX_TICK, 1), long(1, MAX_TICK - 1, 0), end()])),
        ("kind 4, 8 before 9", file(&[t(), long(0, MAX_TICK, 1), long(0, MAX_TICK - 1, 0), end()])),
        ("kind 4, 7 before a short tick and 9", file(&[t(), long(1, LAST, 0), end()])),
        ("kind 4, a short tick before 9", file(&[t(), long(0, LAST, 0), end()])),
        ("kind 2, 7 before a long tick and 9", file(&[t(), short(1, LAST + 1, 0), end()])),
        ("kind 2, a long tick before 9", file(&[t(), short(0, LAST + 1, 0), end()])),
        ("9 in an earlier record than a short tick", file(&[t(), long(0, LAST + 1, 0), long(0, LAST, 1), end()])),
        ("a short tick in an earlier record than 3", file(&[t(), long(0, LAST, 1), t(), end()])),
        ("a byte after the end after kind 4", file(&[t(), long(0, LAST + 1, 1), end(), vec![4]])),
        ("kind 4 after the end", file(&[t(), end(), long(0, LAST + 1, 1), end()])),
        ("no end after kind 4", file(&[t(), long(0, LAST + 1, 1)])),
        ("kind 4 without its last byte, then an end", file(&[t(), long(0, LAST + 1, 1)[..13].to_vec(), end()])),
        ("kind 4 with a tick of four bytes", file(&[t(), vec![4], short(0, LAST, 1)[1..].to_vec(), end()])),
        ("kind 2 with a tick of eight bytes", file(&[t(), vec![2], long(0, LAST, 1)[1..].to_vec(), end()])),
        ("every byte 255 in kind 4", file(&[t(), vec![4], vec![255; 13], end()])),
    ]
}

/// Each tick at an edge in either kind, as the first release and after others.
fn edges() -> Vec<(String, Vec<u8>)> {
    let t = of_task(task(6, 5, 2, 6));
    let mut all = Vec::new();
    for tick in EDGE_TICKS {
        for kind in [2, 4] {
            let r = of_release(kind, 0, tick, 2);
            let label = format!("tick {tick} in kind {kind}{}", if kind == 2 && tick >> 32 > 0 { ", low half" } else { "" });
            for (before, name) in [(vec![], ""), (short(0, 3, 1), " after 3"), (long(0, 1_000_000_001, 1), " after 1000000001")] {
                all.push((format!("{label}{name}"), file(&[t.clone(), before, r.clone(), end()])));
            }
        }
    }
    all
}

/// Counts at their limits. Only the columns of an accepted file have as many slots as it has releases.
fn limits(v: &mut Vectors) {
    let tasks: Vec<Vec<u8>> = full_sheet().tasks.iter().map(|&t| of_task(t)).collect();
    let all = file(&tasks);
    let one = of_task(task(6, 5, 2, 6));
    let with = |tail: &[Vec<u8>]| [all.clone(), tail.concat()].concat();
    add_read(v, "32 tasks", &reading(&with(&[end()]), 1));
    add_read(v, "33 tasks", &reading(&with(&[one.clone(), end()]), 1));
    add_read(v, "33rd task out of range", &reading(&with(&[of_task(task(0, 0, 0, 0)), end()]), 1));
    add_read(v, "33rd task cut", &reading(&with(&[one[..16].to_vec()]), 1));
    add_read(v, "33rd task after a release", &reading(&with(&[short(0, 0, 1), one.clone(), end()]), 1));
    add_read(v, "release of task 32 of 32", &reading(&with(&[short(32, 0, 1), end()]), 1));
    add_again(v, "32 tasks", &with(&[end()]));

    let list = full_list();
    let full = encode(&full_sheet(), &list);
    let last = list[1023].tick;
    let mut many = full.clone();
    many.pop();
    let then = |tail: &[Vec<u8>]| [many.clone(), tail.concat()].concat();
    add_read(v, "1024 releases", &reading(&full, 1026));
    add_read(v, "1024 releases, 1023 slots", &reading(&full, 1023));
    add_again(v, "1024 releases", &full);
    add_read(v, "1025 releases", &reading(&then(&[short(0, last, 1), end()]), 1));
    add_read(v, "1025th release of no task", &reading(&then(&[short(32, last, 1), end()]), 1));
    add_read(v, "1025th tick falls", &reading(&then(&[short(0, last - 1, 1), end()]), 1));
    add_read(v, "1025th cost 0", &reading(&then(&[short(0, last, 0), end()]), 1));
    add_read(v, "1025th release cut", &reading(&then(&[short(0, last, 1)[..9].to_vec()]), 1));
    add_read(v, "task after 1024 releases", &reading(&then(&[one.clone(), end()]), 1));
    add_read(v, "1024 releases, a byte after the end", &reading(&then(&[end(), vec![2]]), 1));
}

/// The same with ticks up to the last one allowed, all of them long; and with ticks around 1,000,000,000. Of high tasks and without a charge
/// 14,898 bytes decide a read, 14,897 where the record after the releases is a high task.
fn long_limits(v: &mut Vectors) {
    let all = late_list();
    let full = encode(&full_sheet(), &all);
    assert_eq!((full.len(), all[1023].tick), (14_881, MAX_TICK));
    let mut many = full.clone();
    many.pop();
    let one = of_task(task(6, 5, 2, 6));
    let then = |tail: &[Vec<u8>]| [many.clone(), tail.concat()].concat();
    let mut add = |label: &str, tail: &[Vec<u8>]| add_read(v, label, &reading(&then(tail), 1));
    add("1025 long releases", &[long(0, MAX_TICK, 1), end()]);
    add("1025th long tick falls", &[long(0, MAX_TICK - 1, 1), end()]);
    add("1025th long tick over the limit", &[long(0, MAX_TICK + 1, 1), end()]);
    add("1025th long release cut", &[long(0, MAX_TICK, 1)[..13].to_vec()]);
    add("short release after 1024 long ones", &[short(0, 1_000_000_000, 1), end()]);
    add("task after 1024 long releases", &[one.clone()]);
    add("task after 1024 long releases, cut", &[one[..16].to_vec()]);
    add("1024 long releases, a byte after the end", &[end(), vec![4]]);
    add_read(v, "1024 long releases", &reading(&full, 1026));
    add_read(v, "1024 long releases, 1023 slots", &reading(&full, 1023));
    add_again(v, "1024 long releases", &full);
    let both = encode(&full_sheet(), &middle_list());
    add_read(v, "1024 releases of both kinds", &reading(&both, 1026));
    add_again(v, "1024 releases of both kinds", &both);
}

/// The columns of a read: 13 after the whole file.
fn read_columns(v: &mut Vectors) {
    for (label, slots) in [
        ("task column short", [2, 3, 3]),
        ("tick column short", [3, 2, 3]),
        ("cost column short", [3, 3, 2]),
        ("no columns", [0, 0, 0]),
        ("columns as long as the list", [3, 3, 3]),
        ("columns of different lengths", [3, 5, 4]),
    ] {
        let [task, tick, cost] = slots;
        add_read(v, label, &ReadCall { file: printed_file(), task: held(task), tick: held(tick), cost: held(cost) });
    }
    let late = encode(&printed_sheet(), &moved(&printed_list(), MAX_TICK - 1));
    let short_column = ReadCall { file: late, task: held(3), tick: held(2), cost: held(3) };
    add_read(v, "tick column short for long ticks", &short_column);
    let mut after = printed_file();
    after.push(3);
    add_read(v, "11 before 13", &reading(&after, 0));
    // In a column of ticks the largest number of 32 bits is no stroke.
    let tick = vec![55, 66, 77, 4_294_967_295, 1 << 63];
    let numbers = ReadCall { file: printed_file(), task: vec![11, 22, 33, 44], tick, cost: vec![1, 2, 3, 4] };
    add_read(v, "slots hold numbers, accepted", &numbers);
    add_read(v, "slots hold numbers, refused", &ReadCall { file: after, ..numbers });
}

/// The writer's bytes: 13 after the columns, before the releases.
fn write_bytes(v: &mut Vectors) {
    let c = sound();
    let n = needed(&c);
    add_write(v, "as many bytes as needed", &c, n);
    add_write(v, "one byte too few", &c, n - 1);
    add_write(v, "no bytes", &c, 0);
    let mut short = c.clone();
    short.tick.truncate(2);
    add_write(v, "column short before bytes", &short, 0);
    let mut wrong = c.clone();
    wrong.task[0] = 3;
    add_write(v, "bytes short before 7", &wrong, n - 1);
    write_kinds(v);
    let full = ListCall::of(&full_sheet(), &[], &full_list());
    add_write(v, "32 tasks and 1024 releases", &full, needed(&full) + 2);
    add_write(v, "32 tasks and 1024 releases, too few bytes", &full, 3);
    add_write(v, "no releases", &ListCall::of(&printed_sheet(), &[], &[]), 52);
    let late = ListCall::of(&full_sheet(), &[], &late_list());
    assert_eq!(needed(&late), 14_881);
    add_write(v, "32 tasks and 1024 long releases", &late, 14_883);
    add_write(v, "32 tasks and 1024 long releases, one byte too few", &late, 14_880);
    add_write(v, "32 tasks and 1024 long releases, too few bytes", &late, 3);
    let both = ListCall::of(&full_sheet(), &[], &middle_list());
    add_write(v, "32 tasks and 1024 releases of both kinds", &both, needed(&both) + 2);
    add_write(v, "32 tasks and 1024 releases of both kinds, too few bytes", &both, 3);
}

/// 10 bytes for a tick up to 1,000,000,000 and 14 for any other, whatever else is wrong with it: three tasks and the end have 52.
fn write_kinds(v: &mut Vectors) {
    let mut add = |label: &str, ticks: [u64; 4], change: fn(&mut ListCall), bytes: usize| {
        let mut c = sound();
        c.tick = ticks.to_vec();
        // Past the count: not counted.
        c.tick.push(u64::MAX);
        change(&mut c);
        assert_eq!(needed(&c), bytes, "{label}");
        for (name, slots) in [("", bytes), (", one byte too few", bytes - 1), (", no bytes", 0)] {
            add_write(v, &format!("kinds, {label}{name}"), &c, slots);
        }
    };
    add("ticks up to 1000000000", [0, 1, 999_999_999, 1_000_000_000], |_| {}, 92);
    add("ticks up to 1000000000 and one over", [0, 1, 1_000_000_000, 1_000_000_001], |_| {}, 96);
    add("ticks around 1000000000", [999_999_999, 1_000_000_000, 1_000_000_001, MAX_TICK], |_| {}, 100);
    add("ticks around 4294967296", [4_294_967_295, 4_294_967_296, 4_294_967_297, 1 << 33], |_| {}, 108);
    add("every tick at the limit", [MAX_TICK; 4], |_| {}, 108);
    add("one tick over the limit", [0, 1, 2, MAX_TICK + 1], |_| {}, 96);
    add("every tick over the limit", [MAX_TICK + 1, 1 << 50, 1 << 63, u64::MAX], |_| {}, 108);
    add("falling ticks", [u64::MAX, 0, 1 << 32, 1_000_000_000], |_| {}, 100);
    add("long ticks, a release of no task", [0, 1_000_000_001, MAX_TICK, MAX_TICK], |c| c.task[2] = 3, 104);
    add("long ticks, cost 0", [0, 1_000_000_001, MAX_TICK, MAX_TICK], |c| c.cost[1] = 0, 104);
}

/// The printed sheet and releases with a charge of 4, written out by hand, and refusals of a charge.
fn worked_charges(v: &mut Vectors) {
    let hex = "05040106000000050000000200000006000000010800000007000000020000000800000001\
               0a00000000000000020000000a000000\
               02000000000002000000020200000000020000000200010000000200000003";
    let charged = printed_sheet().charged(4);
    let whole = encode(&charged, &printed_list());
    let r = reading(&whole, 4);
    let line = " read 3 sheet 3, 6 5 2 6, 8 7 2 8, 10 0 2 10 charge 4, 0 2 0 -, 0 0 1 -, 2 2 2 -";
    v.worked("read, charge 4, printed example", &read_blocks(&r), &read_answer(&r), line);
    let w = ListCall::of(&charged, &[], &printed_list());
    v.worked("write, charge 4, printed example", &write_blocks(&w, 85), &write_answer(&w, 85), &format!(" written 84, {hex}ee"));
    v.worked("again, charge 4, printed example", &again_blocks(&whole), &again_answer(&whole), &format!(" written 84, {hex}"));
    let mut add = |label: &str, bytes: &[u8], line: &str| {
        let r = reading(bytes, 1);
        v.worked(&format!("read, charge, {label}"), &read_blocks(&r), &read_answer(&r), &format!("{line} sheet 0 charge 0, -, -, -"));
    };
    let t = of_task(task(6, 5, 2, 6));
    add("kind 5 alone", &[5], " refused 2 at 0");
    add("nothing after it", &[5, 1], " refused 2 at 2");
    add("0 and nothing after it", &[5, 0], " refused 6 at 0");
    add("then the end", &[5, 1, 3], " refused 5 at 2");
    add("0 before a task", &file(&[of_charge(0), t.clone(), end()]), " refused 6 at 0");
    add("a second one", &file(&[of_charge(1), of_charge(1), t.clone(), end()]), " refused 3 at 2");
    add("after a task", &file(&[t.clone(), of_charge(1), end()]), " refused 3 at 17");
    add("after a release", &file(&[t.clone(), short(0, 0, 1), of_charge(1), end()]), " refused 3 at 27");
    add("after the end", &file(&[t.clone(), end(), of_charge(1)]), " refused 11 at 18");
    add("5 before (6,5,2,6)", &file(&[of_charge(5), t.clone(), end()]), " refused 17 at 2");
    add("kind 7", &[7, 1], " refused 1 at 0");
}

/// A file with a charge cut before each of its bytes.
fn cut_charges(v: &mut Vectors) {
    let tasks = || file(&[of_task(task(6, 5, 2, 6)), of_task(task(8, 7, 2, 8))]);
    let whole = file(&[of_charge(4), tasks(), short(0, 1_000_000_000, 2), long(1, MAX_TICK, 1), end()]);
    for n in 0..=whole.len() {
        add_read(v, &format!("charge 4, the first {n} bytes"), &reading(&whole[..n], 3));
    }
}

/// Files with a charge: where it stands, 17, and which of several faults decides.
fn charge_records() -> Vec<(String, Vec<u8>)> {
    let t = || of_task(task(6, 5, 2, 6));
    let tight = || of_task(task(9, 0, 6, 9));
    let bad = || of_task(task(0, 7, 2, 8));
    let r = || short(0, 9, 2);
    let mut all = Vec::new();
    let mut add = |label: &str, records: &[Vec<u8>]| all.push((format!("charge, {label}"), file(records)));
    for charge in [1, 2, 3, 4, 5, 254, 255] {
        add(&format!("{charge} before (6,5,2,6) and a release"), &[of_charge(charge), t(), r(), end()]);
        let least = 2 + charge as u32;
        add(&format!("{charge}, E + S is P"), &[of_charge(charge), of_task(task(least, 0, 2, least + 1)), end()]);
        add(&format!("{charge}, E + S is D"), &[of_charge(charge), of_task(task(least + 1, 0, 2, least)), end()]);
        add(&format!("{charge}, E + S is P + 1"), &[of_charge(charge), of_task(task(least - 1, 0, 2, least)), end()]);
        add(&format!("{charge}, E + S is D + 1"), &[of_charge(charge), of_task(task(least, 0, 2, least - 1)), end()]);
    }
    add("the largest numbers", &[of_charge(255), of_task(task(1_000_000, 1_000_000, 999_745, 1_000_000)), end()]);
    add("the largest numbers and one more", &[of_charge(255), of_task(task(1_000_000, 1_000_000, 999_746, 1_000_000)), end()]);
    add("E the largest", &[of_charge(1), of_task(task(1_000_000, 0, 1_000_000, 1_000_000)), end()]);
    add("every byte 255 in a task", &[of_charge(255), vec![1], vec![255; 16], end()]);
    add("before a release", &[of_charge(1), r(), end()]);
    add("before a long release", &[of_charge(1), long(0, MAX_TICK, 1), end()]);
    add("before another kind", &[of_charge(1), vec![0]]);
    add("a second one of 0", &[of_charge(1), of_charge(0), t(), end()]);
    add("a second one, cut", &[of_charge(1), vec![5]]);
    add("0, then another one", &[of_charge(0), of_charge(1), t(), end()]);
    add("0 after a task", &[t(), of_charge(0), end()]);
    add("after a task, cut", &[t(), vec![5]]);
    add("after a charge and a task", &[of_charge(1), t(), of_charge(1), end()]);
    add("after a task out of range", &[bad(), of_charge(1), end()]);
    add("after a long release", &[t(), long(0, MAX_TICK, 1), of_charge(1), end()]);
    add("between two tasks", &[t(), of_charge(1), t(), end()]);
    add("between two releases", &[t(), r(), of_charge(1), r(), end()]);
    add("after a charge, a task and a release", &[of_charge(1), t(), r(), of_charge(1), end()]);
    add("before the end of a file without tasks, then one more", &[of_charge(1), end(), of_charge(1)]);
    add("17 of the second task", &[of_charge(4), t(), tight(), end()]);
    add("17 of the second task, cut", &[of_charge(4), t(), tight()[..16].to_vec()]);
    add("17 in an earlier record than 6", &[of_charge(4), t(), tight(), bad(), end()]);
    add("6 in an earlier record than 17", &[of_charge(4), bad(), tight(), end()]);
    add("6 before 17 in one record", &[of_charge(4), t(), of_task(task(9, 1_000_001, 6, 9)), end()]);
    add("3 before 17", &[of_charge(4), t(), r(), tight(), end()]);
    add("17 in an earlier record than 1", &[of_charge(4), tight(), vec![9]]);
    add("17 in an earlier record than 9", &[of_charge(4), t(), tight(), short(0, 0, 0), end()]);
    add("without one the task holds", &[t(), tight(), r(), end()]);
    add("cost over E, within E + S", &[of_charge(4), t(), short(0, 9, 3), end()]);
    add("cost 0", &[of_charge(4), t(), short(0, 9, 0), end()]);
    add("releases of both kinds", &[of_charge(4), t(), r(), long(0, MAX_TICK, 1), end()]);
    add("a byte after the end", &[of_charge(4), t(), end(), vec![5]]);
    all
}

/// 32 high tasks and 1,024 releases with a charge of 1: the largest file of them has 14,883 bytes.
fn charge_limits(v: &mut Vectors) {
    let s = full_sheet().charged(1);
    let one = of_task(task(6, 5, 2, 6));
    let tight = of_task(task(9, 0, 9, 9));
    let tasks = encode(&s, &[])[..2 + 17 * 32].to_vec();
    let with = |tail: &[Vec<u8>]| [tasks.clone(), tail.concat()].concat();
    add_read(v, "charge 1, 32 tasks", &reading(&with(&[end()]), 1));
    add_read(v, "charge 1, 33 tasks", &reading(&with(&[one.clone(), end()]), 1));
    add_read(v, "charge 1, 33rd task with 17", &reading(&with(&[tight.clone(), end()]), 1));
    let full = encode(&s, &late_list());
    assert_eq!(full.len(), 14_883);
    let many = full[..14_882].to_vec();
    let then = |tail: &[Vec<u8>]| [many.clone(), tail.concat()].concat();
    add_read(v, "charge 1, 1024 long releases", &reading(&full, 1024));
    add_read(v, "charge 1, 1025 long releases", &reading(&then(&[long(0, MAX_TICK, 1), end()]), 1));
    add_read(v, "charge 1, task after 1024 long releases", &reading(&then(&[one.clone()]), 1));
    add_read(v, "charge 1, task after 1024 long releases, cut", &reading(&then(&[one[..16].to_vec()]), 1));
    add_read(v, "charge 1, 1024 long releases, a second charge", &reading(&then(&[of_charge(1), end()]), 1));
    add_read(v, "charge 1, 1024 long releases, a byte after the end", &reading(&then(&[end(), vec![5]]), 1));
    add_again(v, "charge 1, 1024 long releases", &full);
    let late = ListCall::of(&s, &[], &late_list());
    add_write(v, "charge 1, 32 tasks and 1024 long releases", &late, 14_884);
    add_write(v, "charge 1, 32 tasks and 1024 long releases, too few bytes", &late, 3);
}

/// The bytes that a write needs with a charge: 2 more.
fn charge_bytes(v: &mut Vectors) {
    let mut c = sound();
    let n = needed(&c);
    c.sheet.charge = 4;
    assert_eq!(needed(&c), n + 2);
    for slots in [0, 1, 2, n, n + 1, n + 2] {
        add_write(v, &format!("charge 4, {slots} bytes"), &c, slots);
    }
    let mut wrong = c.clone();
    wrong.cost[0] = 3;
    add_write(v, "charge 4, bytes short before 9", &wrong, n + 1);
    add_write(v, "charge 4, 9", &wrong, n + 2);
    c.sheet.charge = 5;
    add_write(v, "charge 5, 17 before bytes", &c, 0);
    c.sheet.charge = 0;
    add_write(v, "charge 0, the first byte is a task's", &c, n);
}

/// The printed sheet and releases with task 1 low, written out by hand, and refusals of a low task.
fn worked_marks(v: &mut Vectors) {
    let hex = "0106000000050000000200000006000000060800000007000000020000000800000000\
               010a00000000000000020000000a000000\
               02000000000002000000020200000000020000000200010000000200000003";
    let marked = printed_sheet().marked(&[false, true, false]);
    let whole = encode(&marked, &printed_list());
    let r = reading(&whole, 4);
    let line = " read 3 sheet 3, 6 5 2 6, 8 7 2 8 low, 10 0 2 10 charge 0, 0 2 0 -, 0 0 1 -, 2 2 2 -";
    v.worked("read, marks hlh, printed example", &read_blocks(&r), &read_answer(&r), line);
    let w = ListCall::of(&marked, &[], &printed_list());
    v.worked("write, marks hlh, printed example", &write_blocks(&w, 84), &write_answer(&w, 84), &format!(" written 83, {hex}ee"));
    v.worked("again, marks hlh, printed example", &again_blocks(&whole), &again_answer(&whole), &format!(" written 83, {hex}"));
    let mut add = |label: &str, bytes: &[u8], line: &str| {
        let r = reading(bytes, 1);
        v.worked(&format!("read, low task, {label}"), &read_blocks(&r), &read_answer(&r), &format!("{line} sheet 0 charge 0, -, -, -"));
    };
    let t = || of_task(task(6, 5, 2, 6));
    let low = |mark: u8| of_low(task(6, 5, 2, 6), mark);
    add("kind 6 alone", &[6], " refused 2 at 0");
    add("without its last byte", &low(0)[..17], " refused 2 at 0");
    add("nothing after it", &low(0), " refused 2 at 18");
    add("last byte 1", &file(&[low(1), end()]), " refused 6 at 0");
    add("last byte 1 and nothing after it", &low(1), " refused 6 at 0");
    add("last byte 255 after a task", &file(&[t(), low(255), end()]), " refused 6 at 17");
    add("the next kind in place of its last byte", &file(&[low(0)[..17].to_vec(), end()]), " refused 6 at 0");
    add("after a release", &file(&[t(), short(0, 0, 1), low(0), end()]), " refused 3 at 27");
    add("after a release, last byte 1", &file(&[low(0), short(0, 0, 1), low(1), end()]), " refused 3 at 28");
    add("after the end", &file(&[low(0), end(), low(0)]), " refused 11 at 19");
    add("then a charge", &file(&[low(0), of_charge(1), end()]), " refused 3 at 18");
    add("33 of them", &file(&[low(0).repeat(33), end()]), " refused 4 at 576");
    add("the 33rd, last byte 1", &file(&[t().repeat(32), low(1), end()]), " refused 4 at 544");
    add("out of range", &file(&[of_low(task(6, 5, 7, 6), 0), end()]), " refused 6 at 0");
    add("charge 5", &file(&[of_charge(5), low(0), end()]), " refused 17 at 2");
    add("charge 5, last byte 1", &file(&[of_charge(5), low(1), end()]), " refused 6 at 2");
    add("kind 7 after it", &file(&[low(0), vec![7], end()]), " refused 1 at 18");
}

/// Files with low tasks cut before each of their bytes.
fn cut_marks(v: &mut Vectors) {
    let (low, high) = (of_low(task(6, 5, 2, 6), 0), of_task(task(8, 7, 2, 8)));
    for (label, tasks) in [("lh", [low.clone(), high.clone()]), ("hl", [high, low])] {
        let whole = file(&[of_charge(4), tasks.concat(), short(0, 1_000_000_000, 2), long(1, MAX_TICK, 1), end()]);
        for n in 0..=whole.len() {
            add_read(v, &format!("marks {label}, the first {n} bytes"), &reading(&whole[..n], 3));
        }
    }
}

/// Files with low tasks: where they stand, each last byte, 6 and 17, and which of several faults decides.
fn mark_records() -> Vec<(String, Vec<u8>)> {
    let t = || of_task(task(6, 5, 2, 6));
    let low = |mark: u8| of_low(task(6, 5, 2, 6), mark);
    let tight = |mark: u8| of_low(task(9, 0, 6, 9), mark);
    let bad = |mark: u8| of_low(task(0, 7, 2, 8), mark);
    let r = || short(0, 9, 2);
    let mut all = Vec::new();
    let mut add = |label: &str, records: &[Vec<u8>]| all.push((format!("low task, {label}"), file(records)));
    for mark in 0..=255 {
        add(&format!("last byte {mark}"), &[low(mark), r(), end()]);
    }
    for mark in [0, 1, 128] {
        add(&format!("last byte {mark}, after two tasks"), &[t(), t(), low(mark), r(), end()]);
        add(&format!("last byte {mark}, before a task"), &[low(mark), t(), r(), end()]);
        add(&format!("last byte {mark}, after a low task"), &[low(0), low(mark), r(), end()]);
        add(&format!("last byte {mark}, after a charge"), &[of_charge(4), low(mark), r(), end()]);
        add(&format!("last byte {mark}, out of range"), &[t(), bad(mark), end()]);
        add(&format!("last byte {mark}, out of range, cut"), &[t(), bad(mark)[..17].to_vec()]);
        add(&format!("last byte {mark}, 17"), &[of_charge(4), t(), tight(mark), end()]);
        add(&format!("last byte {mark}, 17, cut"), &[of_charge(4), t(), tight(mark)[..17].to_vec()]);
        add(&format!("last byte {mark}, after a release"), &[t(), r(), low(mark), end()]);
        add(&format!("last byte {mark}, after a long release"), &[t(), long(0, MAX_TICK, 1), low(mark), end()]);
        add(&format!("last byte {mark}, out of range after a release"), &[t(), r(), bad(mark), end()]);
        add(&format!("last byte {mark}, 17 after a release"), &[of_charge(4), low(0), r(), tight(mark), end()]);
        add(&format!("last byte {mark}, in an earlier record than 1"), &[low(mark), vec![9]]);
        add(&format!("last byte {mark}, in an earlier record than 9"), &[low(mark), short(0, 0, 0), end()]);
        add(&format!("last byte {mark}, in an earlier record than 11"), &[low(mark), end(), end()]);
        add(&format!("last byte {mark}, in an earlier record than 17"), &[of_charge(4), low(mark), tight(0), end()]);
        add(&format!("last byte {mark}, as the 32nd task"), &[t().repeat(31), low(mark), r(), end()]);
        add(&format!("last byte {mark}, as the 33rd task"), &[t().repeat(32), low(mark), end()]);
        add(&format!("last byte {mark}, out of range, as the 33rd task"), &[low(0).repeat(32), bad(mark), end()]);
        add(&format!("last byte {mark}, as the 33rd task, cut"), &[low(0).repeat(32), low(mark)[..17].to_vec()]);
        add(&format!("last byte {mark}, as the 33rd task after a release"), &[low(0).repeat(32), r(), low(mark), end()]);
    }
    add("without one the task holds", &[tight(0), short(0, 9, 6), end()]);
    add("E + S is P and D", &[of_charge(3), tight(0), short(0, 9, 6), end()]);
    add("every byte 255", &[vec![6], vec![255; 17], end()]);
    add("every byte 255 but the last", &[vec![6], vec![255; 16], vec![0], end()]);
    add("largest numbers", &[of_low(task(1_000_000, 1_000_000, 1_000_000, 1_000_000), 0), end()]);
    add("least numbers", &[of_low(task(1, 0, 1, 1), 0), short(0, 0, 1), end()]);
    add("a byte more than kind 1", &[t(), vec![0], end()]);
    add("kind 1 with a last byte of kind 6", &[vec![1], low(0)[1..].to_vec(), end()]);
    add("a release of it of no cost", &[low(0), short(0, 0, 0), end()]);
    add("a release of a task after it", &[low(0), short(1, 0, 1), end()]);
    add("releases of high and low tasks", &[low(0), t(), low(0), short(2, 0, 1), short(1, 3, 2), long(0, MAX_TICK, 2), end()]);
    all
}

/// 32 low tasks and 1,024 long releases with a charge of 1: the largest file has 14,915 bytes, and 14,932 decide a read.
fn mark_limits(v: &mut Vectors) {
    let s = full_sheet().charged(1).marked(&[true; 32]);
    let low = |mark: u8| of_low(task(6, 5, 2, 6), mark);
    let full = encode(&s, &late_list());
    assert_eq!(full.len(), 14_915);
    let many = full[..14_914].to_vec();
    let then = |tail: &[Vec<u8>]| [many.clone(), tail.concat()].concat();
    assert_eq!(then(&[low(0)]).len(), 14_932);
    add_read(v, "32 low tasks", &reading(&encode(&s, &[]), 1));
    add_read(v, "32 low tasks, 1024 long releases", &reading(&full, 1026));
    add_read(v, "32 low tasks, 1024 long releases, 1023 slots", &reading(&full, 1023));
    add_read(v, "32 low tasks, 1025 long releases", &reading(&then(&[long(0, MAX_TICK, 1), end()]), 1));
    add_read(v, "32 low tasks, 1024 long releases, no end", &reading(&many, 1));
    add_read(v, "32 low tasks, 1024 long releases, a byte after the end", &reading(&then(&[end(), vec![6]]), 1));
    for mark in [0, 1] {
        add_read(v, &format!("low task after 1024 long releases, last byte {mark}"), &reading(&then(&[low(mark)]), 1));
        add_read(v, &format!("low task after 1024 long releases, last byte {mark}, more"), &reading(&then(&[low(mark), vec![6; 40]]), 1));
    }
    add_read(v, "low task after 1024 long releases, cut", &reading(&then(&[low(0)[..17].to_vec()]), 1));
    add_read(v, "task after 32 low tasks and 1024 long releases", &reading(&then(&[of_task(task(6, 5, 2, 6))]), 1));
    add_again(v, "32 low tasks, 1024 long releases", &full);
    let every_second: Vec<bool> = (0..32).map(|i| i % 2 == 0).collect();
    let half = full_sheet().marked(&every_second);
    add_read(v, "16 low tasks, 1024 releases of both kinds", &reading(&encode(&half, &middle_list()), 1026));
    add_again(v, "16 low tasks, 1024 releases of both kinds", &encode(&half, &middle_list()));
    let late = ListCall::of(&s, &[], &late_list());
    assert_eq!(needed(&late), 14_915);
    add_write(v, "32 low tasks and 1024 long releases", &late, 14_916);
    add_write(v, "32 low tasks and 1024 long releases, one byte too few", &late, 14_914);
    add_write(v, "32 low tasks and 1024 long releases, too few bytes", &late, 3);
}

/// The bytes that a write needs with low tasks: one more for each.
fn mark_bytes(v: &mut Vectors) {
    let c = sound();
    let n = needed(&c);
    for lows in patterns(3) {
        let more = n + lows.iter().filter(|&&low| low).count();
        let marked = ListCall { sheet: c.sheet.marked(&lows), ..c.clone() };
        assert_eq!(needed(&marked), more);
        for slots in [0, n - 1, more - 1, more, more + 2] {
            add_write(v, &format!("marks {}, {slots} bytes", letters(&lows)), &marked, slots);
        }
        let mut wrong = marked.clone();
        wrong.cost[0] = 3;
        add_write(v, &format!("marks {}, bytes short before 9", letters(&lows)), &wrong, more - 1);
        add_write(v, &format!("marks {}, 9", letters(&lows)), &wrong, more);
        let charged = ListCall { sheet: marked.sheet.charged(4), ..marked };
        add_write(v, &format!("marks {}, charge 4", letters(&lows)), &charged, more + 2);
        add_write(v, &format!("marks {}, charge 4, one byte too few", letters(&lows)), &charged, more + 1);
    }
    // A mark past the count is not counted.
    let mut past = c.clone();
    past.sheet.tasks.push(task(6, 5, 2, 6).marked(true));
    add_write(v, "a low entry past the count", &past, n);
    add_write(v, "a low entry past the count, one byte too few", &past, n - 1);
}

pub fn vectors() -> Vectors {
    let mut v = Vectors::new();
    worked(&mut v);
    cut(&mut v);
    for (label, f) in &faults() {
        add_read(&mut v, label, &reading(f, 2));
        add_again(&mut v, label, f);
    }
    limits(&mut v);
    for (label, f) in &long_releases() {
        add_read(&mut v, label, &reading(f, 5));
        add_again(&mut v, label, f);
    }
    for (label, f) in &edges() {
        add_read(&mut v, label, &reading(f, 2));
        add_again(&mut v, label, f);
    }
    long_limits(&mut v);
    read_columns(&mut v);
    for (label, c) in &refusals() {
        // Two bytes more than the sheet and the first four ticks need, and no fewer than the sound call has.
        let ticks = &c.tick[..c.tick.len().min(4)];
        add_write(&mut v, label, c, bytes_needed(&c.sheet, 3, ticks).max(needed(&sound())) + 2);
    }
    write_bytes(&mut v);
    worked_charges(&mut v);
    cut_charges(&mut v);
    for (label, f) in &charge_records() {
        add_read(&mut v, label, &reading(f, 3));
        add_again(&mut v, label, f);
    }
    charge_limits(&mut v);
    for (label, c) in &charges() {
        let ticks = &c.tick[..c.tick.len().min(4)];
        add_write(&mut v, label, c, bytes_needed(&c.sheet, 3, ticks).max(needed(&sound())) + 2);
    }
    charge_bytes(&mut v);
    worked_marks(&mut v);
    cut_marks(&mut v);
    for (label, f) in &mark_records() {
        add_read(&mut v, label, &reading(f, 3));
        add_again(&mut v, label, f);
    }
    mark_limits(&mut v);
    mark_bytes(&mut v);
    v
}
