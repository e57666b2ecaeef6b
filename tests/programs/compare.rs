//! Runs the programs on stored examples and on generated files and texts, and compares what they print with the reference.

#[path = "../outside/generator.rs"]
#[allow(dead_code)]
mod generator;
#[path = "../outside/reference.rs"]
#[allow(dead_code)]
mod reference;

use generator::{damaged_texts, digits_at_limits, other_line_ends, texts_at_line_limit, texts_with_digits};
use generator::{any_charge, file_for, late_file_for, legal_list_for, loaded_sheet, moved, random_file, random_text, small_sheet, way_to};
use generator::with_marks;
use generator::{Random, EDGE_CHARGES, EDGE_TICKS, MIDDLE_TICKS};
use reference::{add_release, choice, decode, encode, finish_ticks, load, ready_ticks, text_of, Budget, Refusal, Release, Sheet, Task};
use reference::{MAX_SHORT_TICK, MAX_TICK};
use std::io::{Read, Write};
use std::path::Path;
use std::process::{Child, Command, Stdio};
use std::sync::atomic::{AtomicUsize, Ordering};

const CHOOSE: &str = "target/built/choose";
const REPLAY: &str = "target/built/replay";
const CHOOSE_CSV: &str = "target/built/choose_csv";

fn refused(r: Refusal) -> String {
    format!("refused {} at {}\n", r.number, r.place)
}

/// The last line of the first and third program: the choice is of all tasks, or of the high ones alone.
const LAST_LINES: [&str; 2] = ["fits\n", "high only\n"];

/// What the first program prints for a file, and the third for a text; none where the reference would search too long.
fn choose_text(given: Result<Sheet, Refusal>) -> Option<String> {
    let sheet = match given {
        Ok(x) => x,
        Err(r) => return Some(refused(r)),
    };
    let mut out = String::from("task period jitter cost deadline keep worst\n");
    match choice(&sheet, 32, 32, &mut Budget::of(20_000_000)).ok()? {
        Err(r) => return Some(refused(r)),
        Ok(chosen) => {
            for i in 0..sheet.count {
                let t = sheet.task(i);
                out += &format!("{} {} {} {} {} {} {}\n", i, t.p, t.j, t.e, t.d, chosen.kept[i], chosen.worst[i]);
            }
            out += LAST_LINES[chosen.high_only as usize];
        }
    }
    Some(out)
}

/// What the second program prints.
fn replay_text(file: &[u8]) -> Option<String> {
    let (sheet, list) = match decode(file) {
        Ok(x) => x,
        Err(r) => return Some(refused(r)),
    };
    let kept = match choice(&sheet, 32, 32, &mut Budget::of(20_000_000)).ok()? {
        Err(r) => return Some(refused(r)),
        Ok(chosen) => chosen.kept,
    };
    let ready = ready_ticks(&sheet, &kept, &list);
    let finish = finish_ticks(sheet.charge, &list, &ready);
    let mut out = String::from("job task release ready finish response\n");
    for (p, r) in list.iter().enumerate() {
        out += &format!("{} {} {} {} {} {}\n", p, r.task, r.tick, ready[p], finish[p], finish[p] - r.tick as i64);
    }
    Some(out)
}

/// The output of a program on an input that is written in pieces of a given size.
fn run(program: &str, input: &[u8], piece: usize) -> String {
    let mut child = spawned(program);
    let mut stdin = child.stdin.take().unwrap();
    let bytes = input.to_vec();
    let writer = std::thread::spawn(move || {
        for part in bytes.chunks(piece.max(1)) {
            if stdin.write_all(part).and_then(|_| stdin.flush()).is_err() {
                return;
            }
        }
    });
    let mut out = String::new();
    child.stdout.take().unwrap().read_to_string(&mut out).unwrap();
    writer.join().unwrap();
    assert!(child.wait().unwrap().success(), "{program} ended with an error");
    out
}

/// How many choices of the first program were of the high tasks alone.
static HIGH_ONLY: AtomicUsize = AtomicUsize::new(0);

fn same(name: &str, file: &[u8], piece: usize) -> usize {
    let mut n = 0;
    let sheet = decode(file).map(|(sheet, _)| sheet);
    for (program, text) in [(CHOOSE, choose_text(sheet)), (REPLAY, replay_text(file))] {
        if let Some(text) = text {
            assert_eq!(run(program, file, piece), text, "{program} on {name}");
            HIGH_ONLY.fetch_add(text.ends_with(LAST_LINES[1]) as usize, Ordering::Relaxed);
            n += 1;
        }
    }
    n
}

fn same_text(name: &str, text: &[u8], piece: usize) -> usize {
    let Some(expected) = choose_text(load(text)) else {
        return 0;
    };
    assert_eq!(run(CHOOSE_CSV, text, piece), expected, "{CHOOSE_CSV} on {name}, {}", text.escape_ascii());
    1
}

/// A file NAME.sheet with its stored outputs, NAME.choose and NAME.replay.
fn stored_file(path: &Path) -> usize {
    let file = std::fs::read(path).unwrap();
    for (program, end) in [(CHOOSE, "choose"), (REPLAY, "replay")] {
        let stored = std::fs::read_to_string(path.with_extension(end)).unwrap();
        assert_eq!(run(program, &file, 4096), stored, "{program} on {}", path.display());
    }
    2 + same(&path.display().to_string(), &file, 4096)
}

/// A text NAME.csv with its stored output, NAME.csv.choose. Beside a file NAME.sheet the text has the tasks of that file, the report
/// is the same, and NAME.choose stands for both.
fn stored_text(path: &Path) -> usize {
    let text = std::fs::read(path).unwrap();
    let beside = path.with_extension("sheet");
    let output = if beside.exists() {
        assert_eq!(load(&text), decode(&std::fs::read(&beside).unwrap()).map(|(sheet, _)| sheet), "{}", path.display());
        path.with_extension("choose")
    } else {
        path.with_extension("csv.choose")
    };
    let stored = std::fs::read_to_string(output).unwrap();
    for piece in [4096, 1] {
        assert_eq!(run(CHOOSE_CSV, &text, piece), stored, "{CHOOSE_CSV} on {}", path.display());
    }
    2 + same_text(&path.display().to_string(), &text, 4096)
}

/// The files and the texts of a folder.
fn stored(folder: &str) -> usize {
    let mut n = 0;
    for entry in std::fs::read_dir(folder).unwrap() {
        let path = entry.unwrap().path();
        n += match path.extension().and_then(|x| x.to_str()) {
            Some("sheet") => stored_file(&path),
            Some("csv") => stored_text(&path),
            _ => 0,
        };
    }
    n
}

fn sheet(tasks: &[[u32; 4]]) -> Sheet {
    Sheet::of(&tasks.iter().map(|t| Task::high(t[0], t[1], t[2], t[3])).collect::<Vec<_>>())
}

fn rel(task: u32, tick: u64, cost: u32) -> Release {
    Release { task, tick, cost }
}

/// 32 tasks and 1,024 releases.
fn full() -> (Sheet, Vec<Release>) {
    let tasks: Vec<Task> = (0..32).map(|i| Task::high(100 + i, 3 * i, 1, 1000)).collect();
    (Sheet::of(&tasks), (0..1024).map(|n| rel(n % 32, n as u64 / 3, 1)).collect())
}

/// The same with the last release at the last tick allowed, this charge and all tasks high or low, without the end: where there is a charge
/// and the tasks are low, the largest file.
fn longest(charge: u8, low: bool) -> Vec<u8> {
    let (sheet, list) = full();
    let mut file = encode(&sheet.marked(&[low; 32]).charged(charge), &moved(&list, MAX_TICK - list[1023].tick));
    let size = 14_881 + if charge > 0 { 2 } else { 0 } + if low { 32 } else { 0 };
    assert_eq!((file.len(), file.pop()), (size, Some(3)));
    file
}

/// One file for each refusal of a file, and the files at the limits.
fn worked() -> Vec<(&'static str, Vec<u8>)> {
    let tasks = sheet(&[[6, 5, 2, 6], [8, 7, 2, 8], [10, 0, 2, 11]]);
    let whole = encode(&tasks, &[rel(0, 0, 2), rel(2, 0, 2), rel(0, 1, 2)]);
    let many = encode(&sheet(&[[6, 5, 2, 6]; 33]), &[]);
    let mut cases = vec![
        ("empty", vec![]),
        ("unknown kind", vec![9]),
        ("cut", whole[..20].to_vec()),
        ("over 32 tasks", many),
        ("end alone", vec![3]),
        ("range", encode(&sheet(&[[6, 5, 7, 6]]), &[])),
        ("no such task", encode(&tasks, &[rel(3, 0, 1)])),
        ("falling tick", encode(&tasks, &[rel(0, 5, 1), rel(0, 4, 1)])),
        ("cost", encode(&tasks, &[rel(0, 5, 3)])),
        ("over 1,024 releases", encode(&tasks, &vec![rel(0, 0, 1); 1025])),
        ("no releases", encode(&tasks, &[])),
        ("no kept jitter fits", encode(&sheet(&[[6, 5, 2, 6], [8, 7, 2, 8], [10, 0, 2, 10]]), &[])),
        ("no kept jitter fits up to the horizon", encode(&sheet(&[[2000, 1, 1000, 1001], [2000, 1500, 1000, 1_000_000]]), &[])),
    ];
    let mut late_task = whole[..whole.len() - 1].to_vec();
    late_task.extend_from_slice(&whole[..17]);
    cases.push(("task after release", late_task));
    let mut more = whole.clone();
    more.push(0);
    cases.push(("byte after end", more));
    let (tasks, list) = full();
    cases.push(("full", encode(&tasks, &list)));
    cases.push(("full, both kinds of releases", encode(&tasks, &moved(&list, MAX_SHORT_TICK - list[511].tick))));
    cases
}

/// Long ticks: files at the limits and past them, and each tick at an edge in both kinds.
fn worked_long() -> Vec<(String, Vec<u8>)> {
    let tasks = sheet(&[[6, 5, 2, 6], [8, 7, 2, 8], [10, 0, 2, 11]]);
    let record = |kind: u8, r: Release| {
        let mut bytes = Vec::new();
        add_release(&mut bytes, kind, r);
        bytes
    };
    let one = &encode(&tasks, &[])[..17];
    let low = &encode(&tasks.marked(&[true]), &[])[..18];
    let tails: [(&str, &[u8]); 13] = [
        ("the end", &[3]),
        ("no end", &[]),
        ("two ends", &[3, 3]),
        ("a charge", &[5, 1]),
        ("one more long release", &record(4, rel(0, MAX_TICK, 1))),
        ("a short release", &record(2, rel(0, 5, 1))),
        ("a task", one),
        ("a task that is cut", &one[..16]),
        ("a task and 5,000 bytes", &[one, &[1; 5_000]].concat()),
        ("a low task", low),
        ("a low task with another last byte", &[&low[..17], &[1]].concat()),
        ("a low task that is cut", &low[..17]),
        ("a low task and 5,000 bytes", &[low, &[1; 5_000]].concat()),
    ];
    let mut cases: Vec<(String, Vec<u8>)> = Vec::new();
    for (charge, low) in [0, 1, 99].into_iter().flat_map(|charge| [(charge, false), (charge, true)]) {
        cases.extend(tails.iter().map(|(name, tail)| {
            (format!("charge {charge}, low {low}, 1,024 long releases, {name}"), [&longest(charge, low), *tail].concat())
        }));
    }
    let ticks = [0, MAX_SHORT_TICK, MAX_SHORT_TICK + 1, 1 << 32, MAX_TICK];
    cases.push(("ticks of up to 16 digits".to_string(), encode(&tasks, &ticks.map(|tick| rel(0, tick, 2)))));
    for tick in EDGE_TICKS {
        for kind in [2, 4] {
            let records = [&encode(&tasks, &[])[..51], &record(2, rel(2, 0, 1)), &record(kind, rel(0, tick, 2)), &[3]];
            cases.push((format!("tick {tick} in kind {kind}"), records.concat()));
        }
    }
    cases
}

/// Charges: files with one that fits, that is too much, and that is refused; where it stands; and each cut at every byte of its start.
fn worked_charges() -> Vec<(String, Vec<u8>)> {
    let roomy = sheet(&[[400, 300, 4, 400], [600, 35, 9, 700], [900, 60, 15, 2_000]]);
    let tight = sheet(&[[6, 5, 2, 6], [8, 7, 2, 8], [10, 0, 2, 11]]);
    let list = [rel(0, 0, 4), rel(2, 0, 15), rel(1, 1, 1), rel(0, 5, 2), rel(2, MAX_TICK, 3)];
    let mut cases = Vec::new();
    for charge in [1, 2, 3, 50, 100, 130, 200, 254, 255] {
        cases.push((format!("charge {charge}"), encode(&roomy.charged(charge), &list)));
        let small = encode(&tight.charged(charge), &[rel(0, 0, 2), rel(2, 0, 1), rel(0, 1, 2)]);
        cases.push((format!("charge {charge} on a tight sheet"), small));
    }
    let file = encode(&roomy.charged(7), &list);
    for end in 0..30 {
        cases.push((format!("charge, the first {end} bytes"), file[..end].to_vec()));
    }
    let (task, release, rest) = (&file[2..19], &file[53..63], &file[2..]);
    let odd: [(&str, &[&[u8]]); 15] = [
        ("0", &[&[5, 0], rest]),
        ("a second one", &[&[5, 7, 5, 7], rest]),
        ("a second one of 0", &[&[5, 7, 5, 0], rest]),
        ("a second one, cut", &[&[5, 7, 5]]),
        ("after a task", &[task, &[5, 7], rest]),
        ("0 after a task", &[task, &[5, 0], rest]),
        ("after a task, cut", &[task, &[5]]),
        ("after a release", &[task, release, &[5, 7, 3]]),
        ("after the end", &[task, &[3, 5, 7]]),
        ("before the end", &[&[5, 7, 3]]),
        ("before a release", &[&[5, 7], release, &[3]]),
        ("before another kind", &[&[5, 7, 7]]),
        ("before a low task cut", &[&[5, 7, 6]]),
        ("before the task cut", &[&[5, 7], &task[..16]]),
        ("and a byte after the end", &[&[5, 7], rest, &[5]]),
    ];
    cases.extend(odd.iter().map(|(name, parts)| (format!("charge, {name}"), parts.concat())));
    cases
}

/// Marks: every pattern of them on sheets that fit, that do not, and that fit without some tasks, with a charge and without; a low task cut
/// at every byte, with each last byte, where none may stand, out of range, and too tight for the charge.
fn worked_marks() -> Vec<(String, Vec<u8>)> {
    let sheets = [
        ("the folder's", sheet(&[[6, 5, 2, 6], [8, 7, 2, 8], [10, 0, 2, 11]])),
        ("the printed", sheet(&[[6, 5, 2, 6], [8, 7, 2, 8], [10, 0, 2, 10]])),
        ("no K fits task 0 of", sheet(&[[6, 5, 2, 2], [8, 7, 2, 8], [10, 0, 2, 9]])),
        ("no K fits task 1 of", sheet(&[[6, 5, 2, 6], [8, 7, 2, 4], [10, 0, 2, 9]])),
    ];
    let list = [rel(0, 0, 2), rel(2, 0, 2), rel(1, 1, 1), rel(0, 1, 2)];
    let mut cases = Vec::new();
    for (name, s) in &sheets {
        for (pattern, charge) in (0..8).flat_map(|pattern| [(pattern, 0), (pattern, 1)]) {
            let lows = [0, 1, 2].map(|i| pattern >> i & 1 == 1);
            cases.push((format!("{name} sheet, low {lows:?}, charge {charge}"), encode(&s.marked(&lows).charged(charge), &list)));
        }
    }
    let low = &encode(&sheets[1].1.marked(&[true]), &[])[..18];
    let (task, release) = (&encode(&sheets[0].1, &[])[..17], &encode(&sheets[0].1, &list)[51..61]);
    for end in 0..18 {
        cases.push((format!("low task, the first {end} bytes"), low[..end].to_vec()));
    }
    for mark in [0, 1, 2, 127, 128, 255] {
        let other = [&low[..17], &[mark]].concat();
        for (name, parts) in [
            ("alone", &[&other, &[3][..]] as &[&[u8]]),
            ("after a task", &[task, &other, &[3]]),
            ("after a release", &[task, release, &other, &[3]]),
            ("as the 33rd task", &[&task.repeat(32), &other, &[3]]),
            ("with a charge over its room", &[&[5, 5], &other, &[3]]),
            ("with a charge", &[&[5, 4], &other, release, &[3]]),
        ] {
            cases.push((format!("low task with last byte {mark}, {name}"), parts.concat()));
        }
    }
    let range = [&low[..9], &[7], &low[10..]].concat();
    for (name, parts) in [
        ("out of range", &[&range, &[3][..]] as &[&[u8]]),
        ("out of range with another last byte", &[&range[..17], &[1, 3]]),
        ("without its last byte, then the end", &[&low[..17], &[3]]),
        ("and no end", &[low]),
        ("and a charge after it", &[low, &[5, 1, 3]]),
        ("and a byte after the end", &[low, &[3, 6]]),
        ("after the end", &[&[3], low]),
    ] {
        cases.push((format!("low task, {name}"), parts.concat()));
    }
    cases
}

/// Texts damaged at every byte, with other line ends, with numbers and lines at the limits; and random ones. Of the many texts that
/// the outside comparison tries some are taken.
fn texts(r: &mut Random) -> usize {
    let mut n = 0;
    let mut all = Vec::new();
    for text in [&b"6,5,2,6\n8,7,2,8\n10,0,2,11\n"[..], b"1000000,1000000,1,1000000\n7,0,1,7\n"] {
        all.extend(damaged_texts(text));
        all.extend(other_line_ends(text));
    }
    all.extend(digits_at_limits().iter().flat_map(|digits| texts_with_digits(digits)));
    all.extend(texts_at_line_limit());
    for _ in 0..500 {
        let text = &all[r.within(0, all.len() as u32 - 1) as usize];
        let piece = r.of(&[1, 3, 31, 4096]);
        n += same_text("a damaged text", text, piece);
    }
    for _ in 0..150 {
        let s = if r.once_in(3) { loaded_sheet(r, 6, 200) } else { small_sheet(r) };
        let piece = r.of(&[5, 64, 4096]);
        n += same_text("a small text", &text_of(&s.tasks), piece);
        n += same_text("a random text", &random_text(r), piece);
    }
    // One line of many digits, longer than any piece that a program may read at a time.
    let digits = "7".repeat(300_000);
    n += same_text("300,000 digits", format!("{digits},0,1,1\n").as_bytes(), 65_536);
    n += same_text("300,000 digits alone", digits.as_bytes(), 65_536);
    n
}

fn spawned(program: &str) -> Child {
    Command::new(program).stdin(Stdio::piped()).stdout(Stdio::piped()).spawn().expect(program)
}

/// An input without end: some bytes, then the same bytes again and again.
fn endless(program: &str, first: &[u8], part: &[u8], expected: &str) {
    let mut child = spawned(program);
    let mut stdin = child.stdin.take().unwrap();
    let _ = stdin.write_all(first);
    while stdin.write_all(part).is_ok() {}
    let mut out = String::new();
    child.stdout.take().unwrap().read_to_string(&mut out).unwrap();
    child.wait().unwrap();
    assert_eq!(out, expected, "{program} on an endless input");
}

/// An output that nobody reads.
fn unread(program: &str, input: &[u8]) {
    let mut child = spawned(program);
    drop(child.stdout.take());
    child.stdin.take().unwrap().write_all(input).unwrap();
    child.wait().unwrap();
}

fn odd_ends() {
    let task = encode(&sheet(&[[6, 5, 2, 6]]), &[]);
    let low_task = encode(&sheet(&[[6, 5, 2, 6]]).marked(&[true]), &[]);
    let mut last = Vec::new();
    add_release(&mut last, 4, rel(0, MAX_TICK, 1));
    for program in [CHOOSE, REPLAY] {
        endless(program, b"", &task[..17], "refused 4 at 544\n");
        for (charge, low, end) in [(0, false, 14_880), (1, false, 14_882), (0, true, 14_912), (1, true, 14_914)] {
            let first = longest(charge, low);
            endless(program, &first, &task[..17], &format!("refused 3 at {end}\n"));
            endless(program, &first, &low_task[..18], &format!("refused 3 at {end}\n"));
            endless(program, &first, &last, &format!("refused 10 at {end}\n"));
            endless(program, &first, b"\x03", &format!("refused 11 at {}\n", end + 1));
            endless(program, &first, b"\x05", &format!("refused 3 at {end}\n"));
            endless(program, &first, b"\x06", &format!("refused 3 at {end}\n"));
        }
        endless(program, b"", b"\x05", "refused 3 at 2\n");
        endless(program, b"\x05\x01", &task[..17], "refused 4 at 546\n");
        endless(program, b"", &low_task[..18], "refused 4 at 576\n");
        endless(program, b"\x05\x01", &low_task[..18], "refused 4 at 578\n");
        endless(program, b"", b"\x06", "refused 6 at 0\n");
        unread(program, &task);
    }
    endless(CHOOSE_CSV, b"", b"6,5,2,6\n", "refused 4 at 32\n");
    endless(CHOOSE_CSV, b"", b"6,5,7,6\n", "refused 6 at 0\n");
    endless(CHOOSE_CSV, b"", b"6,5,2,6,", "refused 16 at 0\n");
    endless(CHOOSE_CSV, b"", b"\n", "refused 16 at 0\n");
    unread(CHOOSE_CSV, b"6,5,2,6\n");
}

fn main() {
    let mut n = stored("examples") + stored("tests/programs/stored");
    for (name, file) in worked() {
        n += same(name, &file, 4096);
        n += same(name, &file, 7);
    }
    for (name, file) in worked_long().into_iter().chain(worked_charges()).chain(worked_marks()) {
        n += same(&name, &file, 4096);
    }
    odd_ends();
    let mut r = Random::seeded(20_260_101);
    for _ in 0..400 {
        let s = if r.once_in(3) { loaded_sheet(&mut r, 6, 200) } else { small_sheet(&mut r) };
        let s = any_charge(&mut r, s);
        let s = with_marks(&mut r, s);
        let list = legal_list_for(&mut r, &s, 20);
        let tick = r.of(&MIDDLE_TICKS);
        let by = if r.once_in(2) { way_to(&mut r, &list, tick) } else { 0 };
        n += same("a small file", &encode(&s, &moved(&list, by)), 4096);
    }
    for _ in 0..200 {
        let file = random_file(&mut r);
        n += same("a random file", &file, 4096);
        let (tick, charge) = (r.of(&MIDDLE_TICKS), r.of(&EDGE_CHARGES));
        let mut cut = if r.once_in(2) { file_for(&mut r, charge, 3, 5) } else { late_file_for(&mut r, charge, 3, 5, tick) };
        cut.truncate(r.within(0, cut.len() as u32) as usize);
        n += same("a cut file", &cut, 4096);
    }
    n += texts(&mut r);
    let high_only = HIGH_ONLY.load(Ordering::Relaxed);
    println!("programs: {n} runs as the reference says, of which {high_only} chose for the high tasks alone");
    assert!(high_only >= 40);
}
