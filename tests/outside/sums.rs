//! The reference implementation on the twelve sums and the two printed examples of document 01, 7 to 12 and the examples as document
//! 02's R-2 has them, on R-2's own figures, on stops of R-5 and lists of t and evaluations of R-8 that were counted by hand, on records of
//! written by hand, on verdicts, choices and runs with a charge, choices with marks, and verdicts and runs with a frame
//! that were worked out by hand, on displays and slots of R-6 that were written by hand, on asks and commits of R-11 that were, and on lists
//! of small traces of R-12 that were.

use crate::reference::*;

fn task(p: u32, j: u32, e: u32, d: u32) -> Task {
    Task::high(p, j, e, d)
}

/// The sheet printed in document 01, with another deadline of task 2.
fn printed_with(d: u32) -> Sheet {
    Sheet::of(&[task(6, 5, 2, 6), task(8, 7, 2, 8), task(10, 0, 2, d)])
}

/// The sheet printed in document 01. No K fits its task 2.
pub fn printed_sheet() -> Sheet {
    printed_with(10)
}

/// The same with the deadline at which it fits.
pub fn folder_sheet() -> Sheet {
    printed_with(11)
}

/// The releases printed in document 01.
pub fn printed_releases() -> Vec<Release> {
    list_of(&[(0, 0, 2), (2, 0, 2), (0, 1, 2)])
}

fn list_of(releases: &[(u32, u64, u32)]) -> Vec<Release> {
    releases.iter().map(|&(task, tick, cost)| Release { task, tick, cost }).collect()
}

/// The bytes that two hexadecimal digits each stand for; blanks do not count.
fn bytes_of(text: &str) -> Vec<u8> {
    let digits: Vec<u32> = text.chars().filter_map(|c| c.to_digit(16)).collect();
    digits.chunks(2).map(|pair| (16 * pair[0] + pair[1]) as u8).collect()
}

/// A task (6,5,2,6), these records of its releases and the end: read to the list, and the list written as these bytes.
fn both_ways(records: &str, list: &[(u32, u64, u32)]) {
    let file = bytes_of(&format!("01 06000000 05000000 02000000 06000000 {records} 03"));
    let sheet = Sheet::of(&[task(6, 5, 2, 6)]);
    assert_eq!(decode(&file), Ok((sheet.clone(), list_of(list))));
    assert_eq!(encode(&sheet, &list_of(list)), file);
}

/// The record of the task (6,5,2,6), and of a release of it at tick 1 with cost 2.
const TASK: &str = "01 06000000 05000000 02000000 06000000";
const RELEASE: &str = "02 00 01000000 02000000";

/// These records are refused so.
fn refused(records: &str, number: u32, place: u64) {
    assert_eq!(decode(&bytes_of(records)), Err(Refusal { number, place }), "{records}");
}

/// Records of a charge: read and written, and each refusal that has to do with one.
fn charge_records() -> usize {
    for (hex, charge) in [("01", 1), ("04", 4)] {
        let file = bytes_of(&format!("05 {hex} {TASK} {RELEASE} 03"));
        let sheet = Sheet::of(&[task(6, 5, 2, 6)]).charged(charge);
        assert_eq!(decode(&file), Ok((sheet.clone(), list_of(&[(0, 1, 2)]))));
        assert_eq!(encode(&sheet, &list_of(&[(0, 1, 2)])), file);
        assert_eq!(bytes_needed(&sheet, 1, &[1]), file.len());
    }
    assert_eq!(bytes_needed(&Sheet::of(&[task(6, 5, 2, 6)]), 1, &[1]), bytes_of(&format!("{TASK} {RELEASE} 03")).len());
    // 256 = 1 + 255 ticks within P and D
    let longest = bytes_of("05 ff 01 00010000 00000000 01000000 00010000 03");
    let sheet = Sheet::of(&[task(256, 0, 1, 256)]).charged(255);
    assert_eq!((decode(&longest), encode(&sheet, &[])), (Ok((sheet.clone(), vec![])), longest));
    // cut; before anything but a task; a charge of 0; a second one; after a task, a release and the end
    refused("05", 2, 0);
    refused("05 01", 2, 2);
    refused("05 01 03", 5, 2);
    refused(&format!("05 01 {RELEASE} 03"), 5, 2);
    refused(&format!("05 00 {TASK} 03"), 6, 0);
    refused(&format!("05 01 05 01 {TASK} 03"), 3, 2);
    refused(&format!("05 01 05 00 {TASK} 03"), 3, 2);
    refused("05 01 05", 2, 2);
    refused(&format!("{TASK} 05 01 03"), 3, 17);
    refused(&format!("{TASK} 05 00 03"), 3, 17);
    refused(&format!("{TASK} {RELEASE} 05 01 03"), 3, 27);
    refused(&format!("{TASK} 03 05 01"), 11, 18);
    refused("07 01", 1, 0);
    // 2 + 5 ticks are over 6; a cost of 3 is over E, although 3 + 1 ticks are within P; E of 7 is 6 before 17
    refused(&format!("05 05 {TASK} 03"), 17, 2);
    refused(&format!("05 04 {TASK} 01 07000000 00000000 04000000 09000000 03"), 17, 19);
    refused(&format!("05 04 {TASK} 01 09000000 00000000 04000000 07000000 03"), 17, 19);
    refused(&format!("05 01 {TASK} 02 00 01000000 03000000 03"), 9, 19);
    refused("05 05 01 06000000 05000000 07000000 06000000 03", 6, 2);
    2 + 1 + 1 + 18
}

/// The charge in verdicts, choices, runs and checks.
fn charges() -> usize {
    // Task 0 takes 1 + S and task 1 2 + S ticks of each 4 and 8. Without a charge W(0) of task 1 is 2 + 1 = 3, R(0) is 4, D is 4: fits.
    // With 1 the demand at t is 3 + 2σ(t): 5 at t = 1 to 4, 7 at t = 5 to 8, so W(0) is 7, R(0) is 8: late.
    let two = Sheet::of(&[task(4, 0, 1, 4), task(8, 0, 2, 4)]);
    assert_eq!(windows(&two, &[0, 0], 1, 1), [3]);
    assert_eq!(verdict_for(&two, &[0, 0], 1), Verdict::Fits { r: 4, q: 0 });
    assert_eq!(windows(&two.charged(1), &[0, 0], 1, 1), [7]);
    assert_eq!(verdict_for(&two.charged(1), &[0, 0], 1), Verdict::Late { q: 0, r: 8 });
    // the choice: without a charge it keeps 0 of both, with 1 no K fits task 1
    assert_eq!(choice_for(&two), ordinary(&[0, 0], &[2, 4]));
    assert_eq!(choice_for(&two.charged(1)), unfit(1));
    // with D 8 it fits again: W(0) is 7, which is within d_0(1) = 8
    let roomy = Sheet::of(&[task(4, 0, 1, 4), task(8, 0, 2, 8)]).charged(1);
    assert_eq!(choice_for(&roomy), ordinary(&[0, 0], &[3, 8]));
    // the charge is in the task's own jobs for each q: W is 3, 6, and with K 7 R is 4, 6 and d_7 is 1, 9
    let one = Sheet::of(&[task(8, 7, 2, 8)]).charged(1);
    assert_eq!(windows(&one, &[7], 0, 2), [3, 6]);
    assert_eq!(verdict_for(&one, &[7], 0), Verdict::Fits { r: 6, q: 1 });
    // the folder sheet with a charge of 1: R(0) of task 0 is 3 + 1 + 5 − K, so that it keeps 3. The demand of task 1 is then 3 + 3 = 6 at
    // t = 1 to 3 and 3 + 3 · 2 = 9 at t = 4 to 9, so that its R(0) is 9 + 1 + 7 − K, at least 10
    assert_eq!(windows(&folder_sheet().charged(1), &[3, 0, 0], 1, 1), [9]);
    assert_eq!(choice_for(&folder_sheet().charged(1)), unfit(1));

    // a run: the jobs take 3, 3 and 2 ticks, the last a tick less than its task may. Task 1 runs in tick 1, task 0 in ticks 2 to 4,
    // task 1 in ticks 5 and 6, and the last job, held to tick 9, in ticks 10 and 11
    let sheet = Sheet::of(&[task(8, 0, 2, 8), task(9, 0, 2, 9)]).charged(1);
    let list = list_of(&[(1, 0, 2), (0, 1, 2), (0, 8, 1)]);
    let kept = [0, 0];
    let ready = ready_ticks(&sheet, &kept, &list);
    assert_eq!(ready, [0, 1, 9]);
    for finish in [finish_ticks(1, &list, &ready), finish_ticks_by_tick(1, &list, &ready), finish_ticks_by_job(1, &list, &ready)] {
        assert_eq!(finish, [7, 5, 12]);
    }
    // without the charge: task 1 in ticks 1 and 4, task 0 in ticks 2 and 3, and in tick 10
    assert_eq!(finish_ticks(0, &list, &ready), [5, 4, 11]);
    // stops: starts 1, 2 and 10, finishes 7, 5 and 12
    assert_eq!(stops(&ready, &finish_ticks(1, &list, &ready)), 6);
    // one release of the largest charge: cost 1, in ticks 1 to 256
    assert_eq!(finish_ticks(255, &list_of(&[(0, 0, 1)]), &[0]), [257]);

    // checks: 17 by task right after 6 by task
    let refusal = |tasks: &[Task], charge: u8| check_sheet(&Sheet::of(tasks).charged(charge)).err().map(|r| (r.number, r.place));
    let (sound, range, tight) = (task(9, 0, 2, 9), task(9, 0, 10, 9), task(5, 0, 2, 9));
    assert_eq!(refusal(&[sound, sound], 7), None);
    assert_eq!(refusal(&[sound, sound], 8), Some((17, 0)));
    assert_eq!(refusal(&[sound, tight], 4), Some((17, 1)));
    assert_eq!(refusal(&[tight, range], 4), Some((17, 0)));
    assert_eq!(refusal(&[range, tight], 4), Some((6, 0)));
    assert_eq!(refusal(&[sound, task(9, 0, 2, 5)], 4), Some((17, 1)));
    assert_eq!(refusal(&[sound, task(MAX_TIME, 0, 999_745, MAX_TIME)], 7), None);
    assert_eq!(refusal(&[task(MAX_TIME, 0, 999_745, MAX_TIME)], 255), None);
    assert_eq!(refusal(&[task(MAX_TIME, 0, 999_746, MAX_TIME)], 255), Some((17, 0)));
    assert_eq!(refusal(&[task(MAX_TIME, 0, u32::MAX, MAX_TIME)], 255), Some((6, 0)));
    assert_eq!(refusal(&[], 255), Some((5, 0)));
    11 + 5 + 11
}

/// Lists of t and evaluations of verdicts and choices.
fn evaluations() -> usize {
    let (s, large) = (printed_sheet(), task(MAX_TIME, 0, MAX_TIME, MAX_TIME));
    let pair = Sheet::of(&[task(10, 0, 2, 6), task(20, 0, 2, 8)]).charged(1);
    // one member without a task above and below one that brings one job; two, three and four; with a charge; W(q) = H; a first t over H; a
    // last one
    let lists: [(&Sheet, &[u32], usize, i64, &[i64]); 12] = [
        (&s, &[5, 7, 0], 0, 1, &[4]),
        (&s, &[1, 3, 0], 1, 0, &[4]),
        (&s, &[1, 3, 0], 1, 1, &[6, 8]),
        (&s, &[5, 7, 0], 1, 0, &[4, 6]),
        (&s, &[5, 7, 0], 1, 1, &[6, 8, 10]),
        (&s, &[5, 7, 0], 2, 0, &[6, 10, 14, 16]),
        (&s.charged(1), &[3, 7, 0], 1, 0, &[6, 9]),
        (&pair, &[9, 0], 1, 0, &[6, 9]),
        (&Sheet::of(&[large]), &[0], 0, 9, &[10_000_000]),
        (&Sheet::of(&[large]), &[0], 0, 10, &[11_000_000]),
        (&Sheet::of(&[large; 12]), &[0; 12], 11, 0, &[12_000_000]),
        (&Sheet::of(&[large; 2]), &[0; 2], 1, 3, &[5_000_000, 9_000_000, 13_000_000]),
    ];
    for (sheet, kept, i, q, list) in lists {
        assert_eq!(tried(sheet, kept, i, q).collect::<Vec<i64>>(), list);
    }
    let numbers = numbers();
    for (sheet, kept, i, taken, number) in &numbers {
        let judged = judge(sheet, kept, *i, &mut Budget::of(u64::MAX)).ok().unwrap();
        assert_eq!((judged.taken, judged.evaluations), (*taken, *number));
    }
    // the folder sheet: 1 + 1 + 2, since task 2 tries 6 and 10; the printed one is refused; a choice that takes two q, below no task
    let choice = |sheet: &Sheet| choice_evaluations(sheet, &mut Budget::of(u64::MAX)).ok().unwrap();
    assert_eq!(choice(&folder_sheet()), Some((false, vec![2, 4, 0], 4)));
    assert_eq!(choice(&s), None);
    assert_eq!(choice(&Sheet::of(&[task(6, 7, 2, 5)])), Some((false, vec![5], 2)));
    // the high tasks of the printed sheet alone: of tasks 0 and 1 one t each; of tasks 0 and 2, which tries 6 and 8, 1 + 2; of none
    assert_eq!(choice(&s.marked(&[false, false, true])), Some((true, vec![2, 4, 0], 2)));
    assert_eq!(choice(&s.marked(&[false, true, false])), Some((true, vec![2, 0, 0], 3)));
    assert_eq!(choice(&s.marked(&[true; 3])), Some((true, vec![0; 3], 0)));
    assert_eq!(choice(&s.marked(&[true, false, false])), None);
    lists.len() + numbers.len() + 3 + 4
}

/// Choices with marks: the sheet, the marks, true for low, and what the choice is.
pub fn marked_choices() -> Vec<(Sheet, Vec<bool>, Result<Chosen, Refusal>)> {
    let (printed, folder) = (printed_sheet(), folder_sheet());
    let (high, low) = (false, true);
    // R(0) of task 0 is 3, over its deadline of 2 and within 3; below it R(0) of task 1 is 5
    let pair = |d: u32, e: u32| Sheet::of(&[task(10, 0, 2, d), task(10, 0, 2, e)]);
    // no K fits task 1: its R(0) is 12 − K. Task 2, with task 0 kept at 2 and task 1 at 0, has W(0) = 8
    let middle = |d: u32| Sheet::of(&[task(6, 5, 2, 6), task(8, 7, 2, 4), task(10, 0, 2, d)]);
    // with the charge W(0) of task 0 is 2, of task 1 7
    let charged = Sheet::of(&[task(4, 0, 1, 4), task(8, 0, 2, 4)]).charged(1);
    vec![
        // the ordinary choice, in which a low task is judged too
        (folder.clone(), vec![high, low, high], ordinary(&[2, 4, 0], &[6, 8, 11])),
        (folder.clone(), vec![low; 3], ordinary(&[2, 4, 0], &[6, 8, 11])),
        (folder, vec![high; 3], ordinary(&[2, 4, 0], &[6, 8, 11])),
        // the ordinary one ends in 15 at task 2: with task 2 low it is left out, with task 1 low and kept at 0 task 2 fits, with task 0 low
        // and kept at 0 it does not
        (printed.clone(), vec![high, high, low], high_only(&[2, 4, 0], &[6, 8, 0])),
        (printed.clone(), vec![high, low, high], high_only(&[2, 0, 0], &[6, 0, 9])),
        (printed.clone(), vec![high, low, low], high_only(&[2, 0, 0], &[6, 0, 0])),
        (printed.clone(), vec![low, high, high], unfit(2)),
        (printed.clone(), vec![low, high, low], high_only(&[0, 4, 0], &[0, 8, 0])),
        (printed.clone(), vec![low, low, high], high_only(&[0, 0, 0], &[0, 0, 7])),
        (printed.clone(), vec![low; 3], high_only(&[0; 3], &[0; 3])),
        (printed, vec![high; 3], unfit(2)),
        // the ordinary one ends in 15 at task 0
        (pair(2, 4), vec![low, high], unfit(1)),
        (pair(2, 5), vec![low, high], high_only(&[0, 0], &[0, 5])),
        (pair(2, 5), vec![high, low], unfit(0)),
        (pair(2, 4), vec![low, low], high_only(&[0, 0], &[0, 0])),
        (pair(3, 4), vec![high, low], high_only(&[0, 0], &[3, 0])),
        (pair(3, 5), vec![low, low], ordinary(&[0, 0], &[3, 5])),
        // at task 1, and of the high tasks at task 2
        (middle(8), vec![high, low, high], unfit(2)),
        (middle(9), vec![high, low, high], high_only(&[2, 0, 0], &[6, 0, 9])),
        (middle(9), vec![high, high, low], unfit(1)),
        // with a charge
        (charged.clone(), vec![high, low], high_only(&[0, 0], &[3, 0])),
        (charged, vec![low, high], unfit(1)),
    ]
}

/// The choices with marks, and what the first program prints of two of them and the second of one.
fn marks() -> usize {
    let choices = marked_choices();
    for (sheet, lows, chosen) in &choices {
        assert_eq!(choice_for(&sheet.marked(lows)), *chosen, "{sheet:?} {lows:?}");
    }
    let lines = "task period jitter cost deadline keep worst\n0 6 5 2 6 2 6\n1 8 7 2 8 4 8\n";
    let (printed, folder) = (printed_sheet().marked(&[false, false, true]), folder_sheet().marked(&[false, false, true]));
    assert_eq!(lines_of_choice(&printed), format!("{lines}2 10 0 2 10 0 0\nhigh only\n"));
    assert_eq!(lines_of_choice(&folder), format!("{lines}2 10 0 2 11 0 11\nfits\n"));
    // kept at 2, 4 and 0 as on the folder sheet
    assert_eq!(lines_of_run(&printed, &printed_releases()), lines_of_run(&folder_sheet(), &printed_releases()));
    choices.len() + 3
}

/// The record of the low task (6,5,2,6).
const LOW: &str = "06 06000000 05000000 02000000 06000000 00";

/// Records of low tasks: read and written, and each refusal that has to do with one.
fn mark_records() -> usize {
    let (low, high) = (task(6, 5, 2, 6).marked(true), task(6, 5, 2, 6));
    let files: [(&str, &[Task], u8); 5] = [
        (LOW, &[low], 0),
        ("06 06000000 05000000 02000000 06000000 00 01 06000000 05000000 02000000 06000000", &[low, high], 0),
        ("01 06000000 05000000 02000000 06000000 06 06000000 05000000 02000000 06000000 00", &[high, low], 0),
        ("05 04 06 06000000 05000000 02000000 06000000 00", &[low], 4),
        ("06 40420f00 00000000 40420f00 40420f00 00", &[task(MAX_TIME, 0, MAX_TIME, MAX_TIME).marked(true)], 0),
    ];
    for (records, tasks, charge) in files {
        let file = bytes_of(&format!("{records} {RELEASE} 03"));
        let (sheet, list) = (Sheet::of(tasks).charged(charge), list_of(&[(0, 1, 2)]));
        assert_eq!(decode(&file), Ok((sheet.clone(), list.clone())));
        assert_eq!(encode(&sheet, &list), file);
        assert_eq!(bytes_needed(&sheet, tasks.len(), &[1]), file.len());
    }
    // cut after the kind, in the numbers and before the last byte
    refused("06", 2, 0);
    refused("06 06000000 05", 2, 0);
    refused("06 06000000 05000000 02000000 06000000", 2, 0);
    // another last byte
    refused("06 06000000 05000000 02000000 06000000 01 03", 6, 0);
    refused(&format!("{TASK} 06 06000000 05000000 02000000 06000000 ff 03"), 6, 17);
    // E over P, alone and with another last byte; the charge over the task's room, and 6 before it
    refused("06 06000000 05000000 07000000 06000000 00 03", 6, 0);
    refused("06 06000000 05000000 07000000 06000000 01 03", 6, 0);
    refused(&format!("05 05 {LOW} 03"), 17, 2);
    refused("05 05 06 06000000 05000000 02000000 06000000 01 03", 6, 2);
    // after a release, and with another last byte; a charge after a low task
    refused(&format!("{TASK} {RELEASE} {LOW} 03"), 3, 27);
    refused(&format!("{LOW} {RELEASE} 06 06000000 05000000 02000000 06000000 01 03"), 3, 28);
    refused(&format!("{LOW} 05 01 03"), 3, 18);
    // the 33rd task, and with another last byte
    refused(&format!("{} {LOW} 03", LOW.repeat(32)), 4, 18 * 32);
    refused(&format!("{} 06 06000000 05000000 02000000 06000000 01 03", TASK.repeat(32)), 4, 17 * 32);
    files.len() + 14
}

/// Sheets with a frame, kept jitters and a task: its verdict.
pub fn framed_verdicts() -> Vec<(Sheet, Vec<u32>, usize, Verdict)> {
    let in_frame = |ticks: u32, windows: &[(u32, u32)], tasks: &[Task]| Sheet::of(tasks).framed(Some(Frame::of(ticks, windows)));
    let large = task(MAX_TIME, 0, MAX_TIME, MAX_TIME);
    // ours 0 to 3 of 10: from 3 on the second of ours is tick 10, and from 4 on it is 11, both after 8 ticks
    let one = |d: u32| in_frame(10, &[(0, 4)], &[task(10, 0, 2, d)]);
    // ours 0, 2, 3, 4 of 10: from 5 on the fifth of ours is 20, after 16 ticks; from 1 on it is 12
    let two = |d: u32| in_frame(10, &[(0, 1), (2, 3)], &[task(20, 0, 5, d)]);
    // ours 0 and 1 of 4. From 2 on the one of task 0 is 4, after 3 ticks. Of task 1 the demand is 3 up to 5 ticks, 4 up to 10; from 2 on ours
    // are 4, 5, 8, 9, the fourth after 8 ticks, from 1 on 1, 4, 5, the third after 5 ticks
    let pair = |d: u32| in_frame(4, &[(0, 2)], &[task(5, 0, 1, 4), task(20, 0, 2, d)]);
    // ours 3 of 4. With J = 3 and K = 1 R(0) is 8 + 1 + 2
    let held = |d: u32| in_frame(4, &[(3, 1)], &[task(10, 3, 2, d)]);
    // W(0) is 8, over d_5(1) = 3, and W(1) is 16, over d_5(2) = 11; W(2) is 24 and d_5(3) = 19: R(q) is 9, 17 − 3, 25 − 11, 33 − 19, ..
    let never = in_frame(4, &[(0, 1)], &[task(8, 5, 2, 13)]);
    let half = in_frame(2, &[(0, 1)], &[large, large]);
    vec![
        (one(9), vec![0], 0, Verdict::Fits { r: 9, q: 0 }),
        (one(8), vec![0], 0, Verdict::Late { q: 0, r: 9 }),
        (two(17), vec![0], 0, Verdict::Fits { r: 17, q: 0 }),
        (two(16), vec![0], 0, Verdict::Late { q: 0, r: 17 }),
        (pair(9), vec![0, 0], 0, Verdict::Fits { r: 4, q: 0 }),
        (pair(9), vec![0, 0], 1, Verdict::Fits { r: 9, q: 0 }),
        (pair(8), vec![0, 0], 1, Verdict::Late { q: 0, r: 9 }),
        (held(11), vec![1], 0, Verdict::Fits { r: 11, q: 0 }),
        (held(10), vec![1], 0, Verdict::Late { q: 0, r: 11 }),
        (never, vec![5], 0, Verdict::Late { q: 1, r: 14 }),
        // 1,000,000 of ours from tick 1 on; below them nothing is left
        (half.clone(), vec![0, 0], 0, Verdict::Late { q: 0, r: 2_000_001 }),
        (half, vec![0, 0], 1, Verdict::Horizon { q: 0 }),
    ]
}

/// Sheets with a frame and lists, with nothing kept: the finish ticks. Ours are 0 and 1 of 4.
pub fn framed_runs() -> Vec<(Sheet, Vec<Release>, Vec<i64>)> {
    let sheet = Sheet::of(&[task(9, 0, 3, 9), task(9, 0, 3, 9)]).framed(Some(Frame::of(4, &[(0, 2)])));
    vec![
        // ticks 1, 4, 5; 4, 5, 8
        (sheet.clone(), list_of(&[(0, 0, 3)]), vec![6]),
        (sheet.clone(), list_of(&[(0, 1, 3)]), vec![9]),
        (sheet.charged(1), list_of(&[(0, 0, 2)]), vec![6]),
        // task 1 in tick 1, task 0 in tick 4, task 1 in tick 5
        (sheet.clone(), list_of(&[(1, 0, 2), (0, 1, 1)]), vec![6, 5]),
        // the last tick is 0 of a frame
        (sheet.clone(), list_of(&[(0, MAX_TICK - 1, 1), (1, MAX_TICK, 2)]), vec![MAX_TICK as i64 + 1, MAX_TICK as i64 + 5]),
        (sheet, vec![], vec![]),
    ]
}

/// Frames: our ticks, verdicts and runs; and what of a frame is refused.
fn frames() -> usize {
    let frame = Some(Frame::of(10, &[(0, 1), (2, 3)]));
    let ours: Vec<i64> = (0..20).filter(|&t| is_ours(&frame, t)).collect();
    assert_eq!(ours, [0, 2, 3, 4, 10, 12, 13, 14]);
    let supply = Supply::of(&frame);
    let before: Vec<i64> = [0, 1, 2, 5, 10, 11, 25].iter().map(|&t| supply.before(t)).collect();
    assert_eq!(before, [0, 1, 1, 4, 4, 5, 12]);
    let after: Vec<i64> = [1, 2, 4, 5, 8].iter().map(|&n| supply.after(n)).collect();
    assert_eq!(after, [1, 3, 5, 11, 15]);
    let (verdicts, runs) = (framed_verdicts(), framed_runs());
    for (sheet, kept, i, verdict) in &verdicts {
        let judged = judge(sheet, kept, *i, &mut Budget::of(u64::MAX)).ok().unwrap();
        assert_eq!((judged.verdict, judged.evaluations), (*verdict, 0));
    }
    for (sheet, list, finish) in &runs {
        let ready: Vec<i64> = list.iter().map(|x| x.tick as i64).collect();
        assert_eq!(&finish_by_event(&sheet.frame, sheet.charge, list, &ready), finish);
        assert_eq!(&finish_by_job(&sheet.frame, sheet.charge, list, &ready), finish);
        if finish.iter().all(|&f| f < 1_000) {
            assert_eq!(&finish_by_tick(&sheet.frame, sheet.charge, list, &ready), finish);
        }
    }
    let refusal = |ticks: u32, windows: &[(u32, u32)]| {
        let sheet = printed_sheet().framed(Some(Frame::of(ticks, windows)));
        check_framed(&sheet).err().map(|r| (r.number, r.place))
    };
    assert_eq!(refusal(10, &[(0, 4), (5, 5)]), None);
    assert_eq!(refusal(10, &[(0, 4), (4, 5)]), Some((18, 1)));
    assert_eq!(refusal(10, &[(0, 4), (5, 6)]), Some((18, 1)));
    assert_eq!(refusal(10, &[(0, 0), (5, 5)]), Some((18, 0)));
    assert_eq!(refusal(10, &[(5, u32::MAX)]), Some((18, 0)));
    assert_eq!(refusal(10, &[]), Some((18, 16)));
    assert_eq!(refusal(10, &[(0, 1); 17]), Some((18, 16)));
    assert_eq!(refusal(0, &[]), Some((18, 17)));
    assert_eq!(refusal(10_001, &[(0, 1)]), Some((18, 17)));
    3 + verdicts.len() + runs.len() + 9
}

/// Sheets with kept jitters and a task: how many q its verdict takes, and the number of evaluations.
pub fn numbers() -> Vec<(Sheet, Vec<u32>, usize, i64, u64)> {
    let (s, large) = (printed_sheet(), task(MAX_TIME, 0, MAX_TIME, MAX_TIME));
    // W(q) is (q + 1)P: with K = 1 it is over d_1(q + 1), and R(q) is at most P + 2, up to the first t over H
    let steps = |p: u32| Sheet::of(&[task(p, 1, p, MAX_TIME)]);
    // q = 0 has t = 99,999 and W(0) = 100,099. Each q from 1 to 99 has (q + 1) × 99,899 + 100 times 1, q + 1 and q + 2, which is W(q). The
    // walk stops at q = 99, where W(q) is H
    let many = Sheet::of(&[task(100_000, 101, 100, 101), task(100_000, 0, 99_899, 200_000)]);
    let many_charged = Sheet::of(&[task(100_000, 101, 10, 101), task(100_000, 0, 99_809, 200_000)]).charged(90);
    // 7, 10, 13 and 16 with costs of 3 and 4
    let four = Sheet::of(&[task(4, 0, 1, 4), task(8, 0, 2, 16)]).charged(2);
    vec![
        (s.clone(), vec![5, 7, 0], 2, 1, 4),
        (s.clone(), vec![5, 7, 0], 1, 2, 2 + 3),
        (s.clone(), vec![1, 4, 0], 1, 1, 1),
        (s.clone(), vec![1, 3, 0], 2, 1, 2),
        (s.charged(1), vec![3, 7, 0], 1, 1, 2),
        (Sheet::of(&[task(8, 7, 2, 8)]), vec![7], 0, 2, 1 + 1),
        (Sheet::of(&[task(10, 9, 2, 6), task(20, 0, 2, 10)]).charged(1), vec![9, 0], 1, 1, 2),
        (four, vec![0, 0], 1, 1, 4),
        // a first t over H: after ten q and after a hundred, each with one t; at q = 0
        (steps(999_998), vec![1], 0, 11, 11),
        (steps(100_000), vec![1], 0, 101, 101),
        (Sheet::of(&[task(100_000, 1, 99_800, MAX_TIME)]).charged(200), vec![1], 0, 101, 101),
        (Sheet::of(&[large; 12]), vec![0; 12], 11, 1, 1),
        // a last t over H: 10,000,000 and 91,000,000; 2, 3, .. up to 10,000,001
        (Sheet::of(&[large; 12]), vec![0; 12], 9, 1, 2),
        (Sheet::of(&[task(1, 0, 1, 1); 2]), vec![0, 0], 1, 1, 10_000_000),
        (many, vec![101, 0], 1, 100, 2 + 99 * 3),
        (many_charged, vec![101, 0], 1, 100, 2 + 99 * 3),
    ]
}

/// The same, but the record at this offset is refused with 8.
fn refused_tick(records: &str, place: u64) {
    let file = bytes_of(&format!("01 06000000 05000000 02000000 06000000 {records} 03"));
    assert_eq!(decode(&file), Err(Refusal { number: 8, place }));
}

/// Records around the largest tick of kind 2 and around the limit.
fn records() -> usize {
    both_ways("02 00 01000000 02000000", &[(0, 1, 2)]);
    both_ways("02 00 00ca9a3b 02000000", &[(0, 1_000_000_000, 2)]);
    both_ways("04 00 01ca9a3b00000000 02000000", &[(0, 1_000_000_001, 2)]);
    both_ways("04 00 0000000001000000 01000000", &[(0, 4_294_967_296, 1)]);
    both_ways("04 00 0080c6a47e8d0300 02000000", &[(0, 1_000_000_000_000_000, 2)]);
    both_ways(
        "02 00 00ca9a3b 01000000 04 00 01ca9a3b00000000 02000000 04 00 01ca9a3b00000000 01000000",
        &[(0, 1_000_000_000, 1), (0, 1_000_000_001, 2), (0, 1_000_000_001, 1)],
    );
    refused_tick("02 00 01ca9a3b 02000000", 17);
    refused_tick("04 00 00ca9a3b00000000 02000000", 17);
    refused_tick("04 00 0180c6a47e8d0300 02000000", 17);
    refused_tick("04 00 01ca9a3b00000000 02000000 02 00 00ca9a3b 02000000", 31);
    10
}

fn verdict_for(sheet: &Sheet, kept: &[u32], i: usize) -> Verdict {
    match verdict_of(sheet, kept, i, &mut Budget::of(u64::MAX)) {
        Ok(v) => v,
        Err(_) => unreachable!(),
    }
}

fn windows(sheet: &Sheet, kept: &[u32], i: usize, n: i64) -> Vec<i64> {
    let mut budget = Budget::of(u64::MAX);
    let mut w = Windows::of(sheet, kept, i, &mut budget);
    (0..n).map(|q| w.get(q).ok().unwrap().unwrap()).collect()
}

fn ready_of(p: u32, keep: u32, ticks: &[u64]) -> Vec<i64> {
    let sheet = Sheet::of(&[task(p, keep, 1, p)]);
    let list: Vec<Release> = ticks.iter().map(|&tick| Release { task: 0, tick, cost: 1 }).collect();
    ready_ticks(&sheet, &[keep], &list)
}

/// Stops of a list with these ready ticks.
fn stops_of(list: &[(u32, u64, u32)]) -> u64 {
    let list = list_of(list);
    let ready: Vec<i64> = list.iter().map(|x| x.tick as i64).collect();
    stops(&ready, &finish_ticks_by_job(0, &list, &ready))
}

fn choice_for(sheet: &Sheet) -> Result<Chosen, Refusal> {
    choice(sheet, 32, 32, &mut Budget::of(u64::MAX)).ok().unwrap()
}

/// An ordinary choice, one of the high tasks alone, and one that ends in 15.
fn ordinary(kept: &[u32], worst: &[u32]) -> Result<Chosen, Refusal> {
    Ok(Chosen { kept: kept.to_vec(), worst: worst.to_vec(), high_only: false })
}

fn high_only(kept: &[u32], worst: &[u32]) -> Result<Chosen, Refusal> {
    Ok(Chosen { kept: kept.to_vec(), worst: worst.to_vec(), high_only: true })
}

fn unfit(place: u64) -> Result<Chosen, Refusal> {
    Err(Refusal { number: 15, place })
}

fn refusal_line(r: Refusal) -> String {
    format!("refused {} at {}\n", r.number, r.place)
}

fn lines_of_choice(sheet: &Sheet) -> String {
    let chosen = match choice_for(sheet) {
        Err(r) => return refusal_line(r),
        Ok(chosen) => chosen,
    };
    let mut text = String::from("task period jitter cost deadline keep worst\n");
    for i in 0..sheet.count {
        let t = sheet.task(i);
        text += &format!("{} {} {} {} {} {} {}\n", i, t.p, t.j, t.e, t.d, chosen.kept[i], chosen.worst[i]);
    }
    text + if chosen.high_only { "high only\n" } else { "fits\n" }
}

fn lines_of_run(sheet: &Sheet, list: &[Release]) -> String {
    let kept = match choice_for(sheet) {
        Err(r) => return refusal_line(r),
        Ok(chosen) => chosen.kept,
    };
    let ready = ready_ticks(sheet, &kept, list);
    let finish = finish_ticks(sheet.charge, list, &ready);
    let mut text = String::from("job task release ready finish response\n");
    for p in 0..list.len() {
        let r = list[p];
        text += &format!("{} {} {} {} {} {}\n", p, r.task, r.tick, ready[p], finish[p], finish[p] - r.tick as i64);
    }
    text
}

/// The last jobs of a run on the printed sheet, whose deadlines are 6, 8 and 10: what is shown, and slots.
fn last_jobs() -> usize {
    let shows = |opened: &Opened, window: &[u64], expected: [(u64, u64, u64); 3]| {
        let all: Vec<Shown> = expected.iter().map(|&(jobs, late, largest)| Shown { jobs, late, largest }).collect();
        assert_eq!((0..3).map(|task| opened.show(task)).collect::<Result<Vec<_>, _>>().as_ref(), Ok(&all));
        assert_eq!(show_tasks(window, [3; 3]).as_ref(), Ok(&all));
        for task in 0..3 {
            assert_eq!(show_task(window, task, 3), Ok(all[task as usize]));
        }
    };
    let mut opened = Opened::on(&printed_sheet()).unwrap();
    let mut window = vec![77; WINDOW_SLOTS];
    assert_eq!(open_window(&printed_sheet(), &mut window), Ok(()));
    assert_eq!(window[..6], [3, 0, 6, 8, 10, 77]);
    shows(&opened, &window, [(0, 0, 0); 3]);
    let mut take = |opened: &mut Opened, task: u32, response: u64| {
        let job = Finished { task, response };
        let taken = opened.take(job);
        assert_eq!(take_job(&mut window, job), taken);
        (taken.err().map(|r| (r.number, r.place)), window.clone())
    };
    // a response of D is not late, one of D + 1 is; a task that is not in the sheet changes nothing
    for (task, response) in [(0, 3), (2, 5), (0, 6), (0, 7), (1, 8)] {
        assert_eq!(take(&mut opened, task, response).0, None);
    }
    let (refused, now) = take(&mut opened, 3, u64::MAX);
    assert_eq!((refused, now[1]), (Some((14, 3)), 5));
    assert_eq!((&now[34..40], &now[290..296]), (&[0, 2, 0, 0, 1, 77][..], &[3, 5, 6, 7, 8, 77][..]));
    shows(&opened, &now, [(3, 1, 7), (1, 0, 8), (1, 0, 5)]);
    let (_, now) = take(&mut opened, 2, 11);
    shows(&opened, &now, [(3, 1, 7), (1, 0, 8), (2, 1, 11)]);
    // so many jobs of task 0 more, slot 1, and what is shown: of 258 jobs the first two do not count any more, then one by one the two others
    // of task 0, that of task 1 and that of task 2
    let mut now = now;
    for (more, count, expected) in [
        (252, 258, [(2 + 252, 1, 7), (1, 0, 8), (1, 1, 11)]),
        (1, 259, [(1 + 253, 1, 7), (1, 0, 8), (1, 1, 11)]),
        (1, 260, [(254, 0, 1), (1, 0, 8), (1, 1, 11)]),
        (1, 261, [(255, 0, 1), (0, 0, 0), (1, 1, 11)]),
        (1, 262, [(256, 0, 1), (0, 0, 0), (0, 0, 0)]),
        (249, 511, [(256, 0, 1), (0, 0, 0), (0, 0, 0)]),
        (1, 256, [(256, 0, 1), (0, 0, 0), (0, 0, 0)]),
        (1, 257, [(256, 0, 1), (0, 0, 0), (0, 0, 0)]),
    ] {
        for _ in 0..more {
            now = take(&mut opened, 0, 1).1;
        }
        assert_eq!(now[..6], [3, count, 6, 8, 10, 77]);
        shows(&opened, &now, expected);
    }
    // slots that no call made: the largest count has place 255 and goes on from 256; the task of place 0 is not in the sheet
    let mut odd = vec![0; WINDOW_SLOTS];
    (odd[0], odd[1], odd[2], odd[34], odd[290 + 255]) = (1, u64::MAX, 9, 1 << 32, 9);
    assert_eq!(show_task(&odd, 0, 3), Ok(Shown { jobs: 255, late: 0, largest: 9 }));
    assert_eq!(take_job(&mut odd, Finished { task: 0, response: 10 }), Ok(()));
    assert_eq!((odd[1], odd[290 + 255]), (256, 10));
    assert_eq!(show_task(&odd, 0, 3), Ok(Shown { jobs: 255, late: 1, largest: 10 }));
    // what is refused, in this order
    let refused = |answer: Result<Shown, Refusal>| answer.err().map(|r| (r.number, r.place));
    assert_eq!(refused(show_task(&odd[..545], 1, 2)), Some((13, 546)));
    assert_eq!(refused(show_task(&odd, 1, 2)), Some((14, 1)));
    assert_eq!(refused(show_task(&odd, 0, 2)), Some((13, 3)));
    odd[0] = 33;
    assert_eq!(refused(show_task(&odd, 40, 2)), Some((4, 32)));
    odd[0] = 0;
    assert_eq!(refused(show_task(&odd, 40, 2)), Some((5, 0)));
    1 + 5 + 1 + 1 + 8 + 3 + 5
}

/// Boards by hand: a sheet, and for each commit the new task, its place, the releases since the last commit, the tick, and what is refused,
/// if anything.
pub fn boards() -> Vec<(Sheet, Vec<(Task, usize, Vec<Release>, u64, Option<Refusal>)>)> {
    let refused = |number: u32, place: u64| Some(Refusal { number, place });
    let (middle, foot) = (task(8, 7, 2, 8), task(10, 0, 2, 11));
    let top = Sheet::of(&[task(6, 5, 2, 6)]);
    // ten ticks, of which the first four and the last five are ours
    let lent = Frame::of(10, &[(0, 4), (5, 5)]);
    vec![
        // the printed sheet with D 11, task by task. Alone task 0 keeps 2: two releases at 0 are ready at 0 and 4 and finished at 3 and 7
        (
            top.clone(),
            vec![
                (foot, 1, list_of(&[(0, 0, 2), (0, 0, 2)]), 6, refused(20, 0)),
                (foot, 1, list_of(&[(0, 0, 2), (0, 0, 2)]), 7, None),
                // in force from 7 on, with no earlier jobs: the release at 7 is ready at 7 and finished at 10; that of task 1 at 12
                (middle, 1, list_of(&[(0, 6, 2)]), 100, refused(8, 0)),
                (middle, 1, list_of(&[(0, 7, 2), (1, 7, 2)]), 11, refused(20, 0)),
                (middle, 1, list_of(&[(0, 7, 2), (1, 7, 2)]), 12, None),
                // three tasks: of no release any tick from 12 on
                (task(100, 0, 1, 100), 3, vec![], 11, refused(20, 0)),
                (task(100, 0, 1, 100), 3, vec![], 12, None),
            ],
        ),
        // with a frame: a job that is ready at 3 runs in 5 and 6; the frame repeats from tick 0 after a commit at 7 too, so that one that
        // is ready at 13 runs in 15 and 16
        (
            top.framed(Some(lent)),
            vec![
                (task(100, 0, 1, 100), 1, list_of(&[(0, 3, 2)]), 6, refused(20, 0)),
                (task(100, 0, 1, 100), 1, list_of(&[(0, 3, 2)]), 7, None),
                (task(100, 0, 1, 100), 0, list_of(&[(0, 13, 2)]), 16, refused(20, 0)),
                (task(100, 0, 1, 100), 0, list_of(&[(0, 13, 2)]), 17, None),
            ],
        ),
    ]
}

/// These boards, the rows of one of them and of an offer, and what is refused with 19.
fn asks_and_commits() -> usize {
    let budget = || Budget::of(100_000_000);
    let mut looked_at = 0;
    for (sheet, steps) in boards() {
        let mut row = row_of_board(&open_board(&sheet, BOARD_NUMBERS, &mut budget()).ok().unwrap().unwrap());
        for (new, place, list, at, refused) in steps {
            let held = board_in(&row).plan.sheet;
            let offer = row_of_offer(&ask(&held, new, place, OFFER_NUMBERS, &mut budget()).ok().unwrap().unwrap());
            let (tasks, ticks): (Vec<u32>, Vec<u64>) = (list.iter().map(|x| x.task).collect(), list.iter().map(|x| x.tick).collect());
            let costs: Vec<u32> = list.iter().map(|x| x.cost).collect();
            let columns = Columns { task: &tasks, tick: &ticks, cost: &costs };
            let given = commit(&row, &offer, &held, list.len(), &columns, at, &mut budget()).ok().unwrap();
            assert_eq!(given.as_ref().err().copied(), refused);
            row = given.map_or(row, |board| row_of_board(&board));
            looked_at += 1;
        }
    }
    // the rows, number by number: tasks, count, charge, which; kept jitters, worst values; frame; ticks
    let two = Sheet::of(&[task(6, 5, 2, 6), task(8, 7, 2, 8).marked(true)]).charged(1).framed(Some(Frame::of(10, &[(0, 10)])));
    let chosen = Chosen { kept: vec![3, 7], worst: vec![6, 0], high_only: true };
    let board = Board { plan: Offer { sheet: two.clone(), chosen }, last: (5 << 32) + 9 };
    let row = row_of_board(&board);
    let numbers = [(0, 6), (1, 5), (2, 2), (3, 6), (5, 8), (6, 7), (7, 2), (8, 8), (9, 1), (160, 2), (161, 1), (162, 1), (163, 3), (164, 7), (195, 6)];
    let rest = [(227, 1), (228, 10), (229, 1), (231, 10), (262, 9), (263, 5)];
    for (place, &number) in row.iter().enumerate() {
        let stated = numbers.iter().chain(&rest).find(|(k, _)| *k == place).map_or(0, |&(_, n)| n);
        assert_eq!((place, number), (place, stated));
    }
    assert_eq!((row.len(), board_in(&row), row_of_offer(&board.plan)), (264, board.clone(), row[..227].to_vec()));
    // other numbers that stand for the same
    let mut other = row.clone();
    for (place, number) in [(4, 0), (9, 256), (10, 77), (161, 257), (162, 9), (165, 4), (226, 4), (227, 1 << 31), (232, 5), (261, 5)] {
        other[place] = number;
    }
    assert_eq!(board_in(&other), board);
    // without a frame nothing of one is written; numbers past the end are 0
    let bare = Board { plan: Offer { sheet: two.framed(None), ..board.plan.clone() }, last: 0 };
    assert_eq!(row_of_board(&bare)[227..], [0; 37]);
    assert_eq!(board_in(&row[..164]).plan.chosen, Chosen { kept: vec![3, 0], worst: vec![0, 0], high_only: true });
    // an offer of the folder's sheet: what an ask gives, and nothing else
    let folder = folder_sheet();
    let held = Sheet::of(&[folder.tasks[0], folder.tasks[2]]);
    let offer = ask(&held, folder.tasks[1], 1, 227, &mut budget()).ok().unwrap().unwrap();
    assert_eq!(offer, Offer { sheet: folder.clone(), chosen: Chosen { kept: vec![2, 4, 0], worst: vec![6, 8, 11], high_only: false } });
    let gives = |sheet: &Sheet, offer: &Offer| some_ask_gives(sheet, offer, &mut budget()).ok().unwrap();
    assert!(gives(&held, &offer));
    // also that of task 0 on the other two, and of task 2 on those above it
    assert!(gives(&Sheet::of(&folder.tasks[1..]), &offer) && gives(&Sheet::of(&folder.tasks[..2]), &offer));
    assert!(!gives(&folder, &offer) && !gives(&Sheet::of(&[folder.tasks[1], folder.tasks[0]]), &offer));
    let mut raised = offer.clone();
    raised.chosen.kept[1] = 5;
    assert!(!gives(&held, &raised));
    // what an ask refuses, in this order
    let no = |sheet: &Sheet, new: Task, place: usize, slots: usize| ask(sheet, new, place, slots, &mut budget()).ok().unwrap().err();
    let refused = |number: u32, place: u64| Some(Refusal { number, place });
    assert_eq!(no(&Sheet::of(&[]), task(0, 0, 0, 0), 5, 0), refused(5, 0));
    assert_eq!(no(&held, task(0, 0, 0, 0), 3, 0), refused(14, 3));
    assert_eq!(no(&held, task(0, 0, 0, 0), 2, 0), refused(6, 2));
    assert_eq!(no(&held.charged(4), task(6, 0, 3, 6), 0, 0), refused(17, 0));
    assert_eq!(no(&held, task(8, 7, 2, 2), 0, 226), refused(13, 227));
    assert_eq!(no(&held, task(8, 7, 2, 2), 0, 227), refused(15, 0));
    assert_eq!(no(&Sheet::of(&[task(100, 0, 1, 100); 32]), task(0, 0, 0, 0), 32, 0), refused(4, 32));
    assert_eq!(no(&Sheet::of(&[task(100, 0, 1, 100); 32]), task(0, 0, 0, 0), 33, 0), refused(14, 33));
    looked_at + 2 + 1 + 2 + 6 + 8
}

/// Traces by hand, one after each semicolon: tick and task of each release.
fn traces_in(text: &str) -> Vec<Vec<(u64, u32)>> {
    let pair = |word: &str| word.split_once('/').map(|(tick, task)| (tick.parse().unwrap(), task.parse().unwrap())).unwrap();
    text.split(';').map(|trace| trace.split_whitespace().map(pair).collect()).collect()
}

/// Sheets with a count of releases and a tick bound, and all their small traces in order.
pub fn small_lists() -> Vec<(Sheet, u32, u32, Vec<Vec<(u64, u32)>>)> {
    let sheet = |tasks: &[Task]| Sheet::of(tasks);
    let one = |p: u32, j: u32| sheet(&[task(p, j, 1, p)]);
    let all: Vec<(Sheet, u32, u32, &str)> = vec![
        // no release or no tick: the empty trace alone
        (one(2, 0), 0, 12, ""),
        (one(1, MAX_TIME), 6, 0, ""),
        (one(1, MAX_TIME), 0, 0, ""),
        // two ticks apart
        (one(2, 0), 2, 3, "; 0/0; 1/0; 2/0; 0/0 2/0"),
        (one(2, 0), 6, 3, "; 0/0; 1/0; 2/0; 0/0 2/0"),
        (one(2, 0), 3, 5, "; 0/0; 1/0; 2/0; 3/0; 4/0; 0/0 2/0; 0/0 3/0; 0/0 4/0; 1/0 3/0; 1/0 4/0; 2/0 4/0; 0/0 2/0 4/0"),
        // one in all ticks
        (one(MAX_TIME, 0), 6, 12, "; 0/0; 1/0; 2/0; 3/0; 4/0; 5/0; 6/0; 7/0; 8/0; 9/0; 10/0; 11/0"),
        // J below P: d(1) is 1 and d(2) is 4, so that neighbours alone do not decide
        (
            one(3, 2),
            3,
            5,
            "; 0/0; 1/0; 2/0; 3/0; 4/0; 0/0 1/0; 0/0 2/0; 0/0 3/0; 0/0 4/0; 1/0 2/0; 1/0 3/0; 1/0 4/0; 2/0 3/0; 2/0 4/0; 3/0 4/0; \
             0/0 1/0 4/0; 0/0 2/0 4/0; 0/0 3/0 4/0",
        ),
        // J is P: two in one tick, since d(1) is 0; d(2) is 2
        (one(2, 2), 3, 3, "; 0/0; 1/0; 2/0; 0/0 0/0; 0/0 1/0; 0/0 2/0; 1/0 1/0; 1/0 2/0; 2/0 2/0; 0/0 0/0 2/0; 0/0 1/0 2/0; 0/0 2/0 2/0"),
        // J is three periods: four in one tick, since d(3) is 0; d(4) is 1
        (
            one(1, 3),
            5,
            2,
            "; 0/0; 1/0; 0/0 0/0; 0/0 1/0; 1/0 1/0; 0/0 0/0 0/0; 0/0 0/0 1/0; 0/0 1/0 1/0; 1/0 1/0 1/0; 0/0 0/0 0/0 0/0; 0/0 0/0 0/0 1/0; \
             0/0 0/0 1/0 1/0; 0/0 1/0 1/0 1/0; 1/0 1/0 1/0 1/0; 0/0 0/0 0/0 0/0 1/0; 0/0 0/0 0/0 1/0 1/0; 0/0 0/0 1/0 1/0 1/0; \
             0/0 1/0 1/0 1/0 1/0",
        ),
        // six in the one tick that there is
        (one(1, 5), 6, 1, "; 0/0; 0/0 0/0; 0/0 0/0 0/0; 0/0 0/0 0/0 0/0; 0/0 0/0 0/0 0/0 0/0; 0/0 0/0 0/0 0/0 0/0 0/0"),
        (one(1, 4), 6, 1, "; 0/0; 0/0 0/0; 0/0 0/0 0/0; 0/0 0/0 0/0 0/0; 0/0 0/0 0/0 0/0 0/0"),
        // two tasks, each at most once in two ticks: by tick, then task
        (
            sheet(&[task(2, 0, 1, 2), task(3, 0, 3, 3)]),
            2,
            2,
            "; 0/0; 0/1; 1/0; 1/1; 0/0 0/1; 0/0 1/1; 0/1 1/0; 1/0 1/1",
        ),
        // task 0 twice in one tick, task 1 not: d(1) is 0 and 2
        (
            sheet(&[task(1, 1, 1, 1), task(2, 0, 2, 2)]),
            2,
            2,
            "; 0/0; 0/1; 1/0; 1/1; 0/0 0/0; 0/0 0/1; 0/0 1/0; 0/0 1/1; 0/1 1/0; 1/0 1/0; 1/0 1/1",
        ),
        // task 0 only once, task 1 in each tick: releases of the other task do not count for k
        (
            sheet(&[task(9, 0, 1, 9), task(1, 0, 1, 1).marked(true)]),
            3,
            2,
            "; 0/0; 0/1; 1/0; 1/1; 0/0 0/1; 0/0 1/1; 0/1 1/0; 0/1 1/1; 1/0 1/1; 0/0 0/1 1/1; 0/1 1/0 1/1",
        ),
        // three tasks, once each in one tick; with a charge
        (
            sheet(&[task(4, 3, 1, 4), task(4, 3, 2, 4), task(4, 3, 3, 4)]).charged(1),
            6,
            1,
            "; 0/0; 0/1; 0/2; 0/0 0/1; 0/0 0/2; 0/1 0/2; 0/0 0/1 0/2",
        ),
    ];
    all.into_iter().map(|(sheet, releases, ticks, text)| (sheet, releases, ticks, traces_in(text))).collect()
}

/// These lists, how many there are at most, positions of the largest number of traces, and what is refused, in this order.
fn lists_of_traces() -> usize {
    let lists = small_lists();
    for (sheet, releases, ticks, expected) in &lists {
        let all = small_traces(sheet, *releases, *ticks);
        let pairs: Vec<Vec<(u64, u32)>> = all.iter().map(|list| list.iter().map(|x| (x.tick, x.task)).collect()).collect();
        assert_eq!(&pairs, expected);
        assert!(all.iter().flatten().all(|x| x.cost == sheet.task(x.task as usize).e));
        assert_eq!(count_by_task(sheet, *releases, *ticks), expected.len() as u64);
    }
    // 36 pairs: of n releases there are 36 · 37 · .. · (35 + n) ÷ n!
    let most = Sheet::of(&[task(1, 5, 1, 1), task(2, 10, 2, 2), task(200_000, MAX_TIME, 3, 9)]);
    for (releases, many) in [(0, 1), (1, 37), (2, 703), (3, 9_139), (4, 91_390), (5, 749_398), (6, SMALL_TRACES)] {
        assert_eq!((count_where_all_legal(&most, releases, 12), count_by_task(&most, releases, 12)), (many, many));
    }
    let at = |position: u64| trace_where_all_legal(&most, 6, 12, position);
    let releases = |all: &[(u32, u64, u32)]| Some(list_of(all));
    assert_eq!(at(0), releases(&[]));
    assert_eq!((at(1), at(3), at(36)), (releases(&[(0, 0, 1)]), releases(&[(2, 0, 3)]), releases(&[(2, 11, 3)])));
    assert_eq!((at(37), at(73)), (releases(&[(0, 0, 1), (0, 0, 1)]), releases(&[(1, 0, 2), (1, 0, 2)])));
    assert_eq!(at(749_398), releases(&[(0, 0, 1); 6]));
    assert_eq!((at(SMALL_TRACES - 1), at(SMALL_TRACES), at(u64::MAX)), (releases(&[(2, 11, 3); 6]), None, None));
    // what decides: the sheet, its tasks, the releases, the ticks, the columns, the answer
    let (two, five) = (list_of(&[(0, 0, 1), (0, 0, 1)]), Sheet::of(&[task(1, 5, 1, 1); 5]));
    let refused = |sheet: &Sheet, releases, ticks, trace, slots, answer| {
        small_trace(sheet, releases, ticks, trace, slots, answer).err().map(|r| (r.number, r.place))
    };
    assert_eq!(refused(&Sheet::of(&[]), 7, 13, None, [0; 3], 0), Some((5, 0)));
    assert_eq!(refused(&Sheet::of(&[task(1, 0, 1, 1); 33]), 7, 13, None, [0; 3], 0), Some((4, 32)));
    assert_eq!(refused(&five.charged(1), 7, 13, None, [0; 3], 0), Some((17, 0)));
    assert_eq!(refused(&five.with_task(4, task(0, 0, 1, 1)), 7, 13, None, [0; 3], 0), Some((6, 4)));
    assert_eq!(refused(&five, 7, 13, None, [0; 3], 0), Some((4, 5)));
    assert_eq!(refused(&most, 7, 13, None, [0; 3], 0), Some((10, 7)));
    assert_eq!(refused(&most, 6, 13, None, [0; 3], 0), Some((8, 13)));
    for slots in [[1, 2, 2], [2, 1, 2], [2, 2, 1]] {
        assert_eq!(refused(&most, 6, 12, Some(&two), slots, 0), Some((13, 2)));
    }
    assert_eq!(refused(&most, 6, 12, Some(&two[..1]), [1; 3], 1), Some((13, 2)));
    assert_eq!(refused(&most, 6, 12, None, [0; 3], 1), Some((13, 2)));
    assert_eq!(refused(&most, 6, 12, None, [0; 3], 2), None);
    assert_eq!(small_trace(&most, 6, 12, Some(&two), [2; 3], 2), Ok(Some(&two[..])));
    assert_eq!(small_trace_count(&most, 6, 13, 9, 0), Err(Refusal { number: 8, place: 13 }));
    assert_eq!(small_trace_count(&most, 6, 12, 9, 0), Err(Refusal { number: 13, place: 1 }));
    lists.len() + 7 + 5 + 16
}

/// Panics where the reference does not give a sum or a printed line; returns how many were looked at.
pub fn check() -> usize {
    let s = printed_sheet();
    let full = [5, 7, 0];
    // 1 to 5
    let alpha: Vec<i64> = [0, 1, 2, 7, 8].iter().map(|&t| sigma(6, 5, t)).collect();
    assert_eq!(alpha, [0, 1, 2, 2, 3]);
    let gaps: Vec<i64> = (0..4).map(|n| gap(6, 1, n)).collect();
    assert_eq!(gaps, [0, 5, 11, 17]);
    assert_eq!(ready_of(6, 1, &[0, 1, 7]), [0, 5, 11]);
    assert_eq!(ready_of(6, 1, &[0, 0, 0]), [0, 5, 11]);
    assert_eq!(ready_of(6, 8, &[0, 0, 0]), [0, 0, 4]);
    // 6 to 8
    assert_eq!(windows(&s, &[1, 0, 0], 1, 2), [4, 8]);
    assert_eq!(verdict_for(&s, &[1, 2, 0], 1), Verdict::Late { q: 0, r: 10 });
    assert_eq!(verdict_for(&s, &[1, 3, 0], 1), Verdict::Late { q: 0, r: 9 });
    assert!(matches!(verdict_for(&s, &[1, 4, 0], 1), Verdict::Fits { r: 8, .. }));
    assert_eq!(windows(&s, &full, 1, 2), [6, 10]);
    assert_eq!(verdict_for(&s, &full, 1), Verdict::Late { q: 1, r: 10 });
    // 9 and 10
    assert_eq!(verdict_for(&s, &[1, 3, 0], 2), Verdict::Late { q: 0, r: 11 });
    assert_eq!(verdict_for(&printed_with(9), &[1, 3, 0], 2), Verdict::Late { q: 0, r: 11 });
    assert!(matches!(verdict_for(&folder_sheet(), &[1, 3, 0], 2), Verdict::Fits { r: 11, .. }));
    assert_eq!(verdict_for(&s, &full, 2), Verdict::Late { q: 0, r: 17 });
    // 11
    let busy = Sheet::of(&[task(1, 0, 1, 1), task(1, 0, 1, 1)]);
    assert_eq!(verdict_for(&busy, &[0, 0], 0), Verdict::Late { q: 0, r: 2 });
    assert_eq!(verdict_for(&busy, &[0, 0], 1), Verdict::Horizon { q: 0 });
    // 12
    assert!(finish_ticks(0, &[], &[]).is_empty());
    assert_eq!(ready_of(6, 1, &[3]), [3]);
    for cost in 1..=6 {
        let one = [Release { task: 0, tick: 3, cost }];
        assert_eq!(finish_ticks(0, &one, &[3]), [4 + cost as i64]);
        assert_eq!(finish_ticks_by_tick(0, &one, &[3]), [4 + cost as i64]);
        assert_eq!(finish_ticks_by_job(0, &one, &[3]), [4 + cost as i64]);
    }
    // the printed examples
    let list = printed_releases();
    assert_eq!(lines_of_choice(&s), "refused 15 at 2\n");
    assert_eq!(lines_of_run(&s, &list), "refused 15 at 2\n");
    // the same with D 11
    assert_eq!(
        lines_of_choice(&folder_sheet()),
        "task period jitter cost deadline keep worst\n0 6 5 2 6 2 6\n1 8 7 2 8 4 8\n2 10 0 2 11 0 11\nfits\n"
    );
    assert_eq!(
        lines_of_run(&folder_sheet(), &list),
        "job task release ready finish response\n0 0 0 0 3 3\n1 2 0 0 5 5\n2 0 1 4 7 6\n"
    );
    // tasks 0 and 1 of the printed sheet alone
    assert_eq!(choice_for(&Sheet::of(&s.tasks[..2])), ordinary(&[2, 4], &[6, 8]));
    // the stop of the walk has no pickup: W(0) = d_0(1) = 1, and W(0) = 2 over d_7(1) = 1
    assert_eq!(verdict_for(&Sheet::of(&[task(1, 0, 1, 2)]), &[0], 0), Verdict::Fits { r: 2, q: 0 });
    assert_eq!(verdict_for(&Sheet::of(&[task(8, 7, 2, 8)]), &[7], 0), Verdict::Fits { r: 4, q: 1 });
    // each finish is one tick later than in a run that lets a job run in its ready tick
    let ready = ready_ticks(&s, &[2, 4, 0], &list);
    let at_once: Vec<i64> = finish_from(&None, 0, &list, &ready).iter().map(|t| t + 1).collect();
    assert_eq!(finish_ticks(0, &list, &ready), at_once);
    // stops of the printed releases: starts 1, 1, 5 and finishes 3, 5, 7
    let finish = finish_ticks_by_job(0, &list, &ready);
    assert_eq!((&ready[..], &finish[..], stops(&ready, &finish)), (&[0, 0, 4][..], &[3, 5, 7][..], 4));
    // no release; one; one after the other of a task, the second at the finish of the first; one inside the other; two of a burst
    assert_eq!(stops_of(&[]), 0);
    assert_eq!(stops_of(&[(0, 3, 2)]), 2);
    assert_eq!(stops_of(&[(0, 0, 2), (0, 2, 2)]), 3);
    assert_eq!(stops_of(&[(1, 0, 3), (0, 1, 1)]), 4);
    assert_eq!(stops_of(&[(1, 0, 1), (0, 0, 1)]), 3);
    // two releases alone, at tick 0 and at the limit
    assert_eq!(stops_of(&[(0, 0, 1), (0, MAX_TICK, 1)]), 4);
    // twelve sums, two examples, these with D 11, three figures more, seven of stops, the records, those of a charge, evaluations, those of
    // marks, those of frames, those of the last jobs, those of asks and commits and those of small traces
    let with_frames = records() + charge_records() + charges() + evaluations() + marks() + mark_records() + frames();
    12 + 2 + 2 + 3 + 7 + with_frames + last_jobs() + asks_and_commits() + lists_of_traces()
}
