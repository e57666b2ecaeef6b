//! A stored case: blocks of standard input and the line that answers them.

use crate::reference::{Columns, Frame, Refusal, Release, Sheet, Task, MAX_TICK};

/// A number of a column: 32 bits, or 64 for release, ready and finish ticks.
pub trait Number: Copy + PartialEq + std::fmt::Display {
    /// What a lent slot holds before a call; the programs print it as a stroke.
    const HELD: Self;
    /// Its bytes in a block, the low one first.
    fn bytes(self) -> Vec<u8>;
}

impl Number for u32 {
    const HELD: u32 = u32::MAX;
    fn bytes(self) -> Vec<u8> {
        self.to_le_bytes().to_vec()
    }
}

impl Number for u64 {
    const HELD: u64 = u64::MAX;
    fn bytes(self) -> Vec<u8> {
        self.to_le_bytes().to_vec()
    }
}

/// The cases of one program.
pub struct Vectors {
    pub stdin: Vec<u8>,
    pub stdout: String,
}

impl Vectors {
    pub fn new() -> Vectors {
        Vectors { stdin: Vec::new(), stdout: String::new() }
    }

    /// Adds a case with the line that the reference gives.
    pub fn case(&mut self, label: &str, blocks: &[Vec<u8>], answer: &str) {
        assert!(label.len() <= 128);
        self.block(label.as_bytes());
        for b in blocks {
            self.block(b);
        }
        self.stdout += &format!("{label}:{answer}\n");
    }

    /// Adds a case of documents 01 and 02 with the line worked out by hand, which the reference has to give too.
    pub fn worked(&mut self, label: &str, blocks: &[Vec<u8>], answer: &str, by_hand: &str) {
        assert_eq!(answer, by_hand, "{label}");
        self.case(label, blocks, by_hand);
    }

    fn block(&mut self, bytes: &[u8]) {
        self.stdin.extend_from_slice(&(bytes.len() as u32).to_le_bytes());
        self.stdin.extend_from_slice(bytes);
    }
}

/// A block of numbers, each with the bytes of its width.
pub fn numbers<N: Number>(all: &[N]) -> Vec<u8> {
    all.iter().flat_map(|n| n.bytes()).collect()
}

/// The first block of numbers: which call, up to three numbers that it is given, the sheet's count, its charge and its entries, five numbers
/// each, of which the last is the mark.
pub fn head(call: u32, given: &[u32], sheet: &Sheet) -> Vec<u8> {
    head_with(call, given, sheet, 1)
}

/// The same with this number for the mark of a low task; that of a high one is 0.
pub fn head_with(call: u32, given: &[u32], sheet: &Sheet, low: u32) -> Vec<u8> {
    let mut all = vec![0; 8];
    all[0] = call;
    all[1..1 + given.len()].copy_from_slice(given);
    all[4] = sheet.count as u32;
    all[5] = sheet.charge as u32;
    all.extend(sheet.tasks.iter().flat_map(|t| [t.p, t.j, t.e, t.d, if t.low { low } else { 0 }]));
    numbers(&all)
}

/// The head of a call that takes a frame. Where the sheet has one, number 6 of the head is 1, and a block of the frame's numbers follows:
/// ticks, count, and first tick and length of each window that is given. Without one the head is as it was, and no block follows.
pub fn framed_head(call: u32, given: &[u32], sheet: &Sheet) -> Vec<Vec<u8>> {
    let mut first = head(call, given, sheet);
    let Some(frame) = &sheet.frame else {
        return vec![first];
    };
    first[4 * 6] = 1;
    let windows = frame.windows.iter().flat_map(|&(first, length)| [first, length]);
    vec![first, numbers(&[frame.ticks, frame.count as u32].into_iter().chain(windows).collect::<Vec<u32>>())]
}

/// `n` slots that hold the stroke.
pub fn held<N: Number>(n: usize) -> Vec<N> {
    vec![N::HELD; n]
}

/// A column as it stands after a call: the answer, then what the slots held.
pub fn written<N: Number>(answer: &[N], slots: &[N]) -> Vec<N> {
    answer.iter().chain(&slots[answer.len()..]).copied().collect()
}

/// A column as it is printed.
pub fn column<N: Number>(slots: &[N]) -> String {
    slots.iter().fold(String::from(","), |text, &v| if v == N::HELD { text + " -" } else { text + &format!(" {v}") })
}

pub fn refused(r: Refusal) -> String {
    format!(" refused {} at {}", r.number, r.place)
}

pub fn task(p: u32, j: u32, e: u32, d: u32) -> Task {
    Task::high(p, j, e, d)
}

/// A sheet of high tasks.
pub fn sheet(tasks: &[(u32, u32, u32, u32)]) -> Sheet {
    Sheet::of(&tasks.iter().map(|&(p, j, e, d)| task(p, j, e, d)).collect::<Vec<_>>())
}

pub fn list(releases: &[(u32, u64, u32)]) -> Vec<Release> {
    releases.iter().map(|&(task, tick, cost)| Release { task, tick, cost }).collect()
}

/// A sheet with a frame of so many ticks and these windows.
pub fn in_frame(sheet: &Sheet, ticks: u32, windows: &[(u32, u32)]) -> Sheet {
    sheet.framed(Some(Frame::of(ticks, windows)))
}

/// Some frames: one window of one tick, at the start, inside and at the end; a gap of one tick; two gaps that differ; windows that join over
/// the end; 16 windows; windows past the count; the largest one.
pub fn frames() -> Vec<(&'static str, Frame)> {
    let teeth: Vec<(u32, u32)> = (0..16).map(|k| (3 * k, 1 + k % 2)).collect();
    let mut more = Frame::of(10, &[(1, 2), (4, 5), (2, 0), (u32::MAX, 1)]);
    more.count = 2;
    vec![
        ("0 of 2", Frame::of(2, &[(0, 1)])),
        ("1 of 3", Frame::of(3, &[(1, 1)])),
        ("3 of 4", Frame::of(4, &[(3, 1)])),
        ("all but 4 of 10", Frame::of(10, &[(0, 4), (5, 5)])),
        ("gaps of 1 and 3", Frame::of(10, &[(0, 3), (4, 3)])),
        ("joined over the end", Frame::of(7, &[(0, 2), (3, 1), (5, 2)])),
        ("16 windows", Frame::of(48, &teeth)),
        ("windows past the count", more),
        ("10000 ticks", Frame::of(10_000, &[(0, 9_000), (9_001, 999)])),
    ]
}

/// Frames outside the rules and the place of the refusal: each rule at its edge, the frame before the count before the windows.
pub fn wrong_frames() -> Vec<(String, Frame, u64)> {
    let mut all: Vec<(String, Frame, u64)> = Vec::new();
    let mut add = |label: &str, ticks: u32, count: usize, windows: &[(u32, u32)], place: u64| {
        all.push((label.to_string(), Frame { ticks, count, windows: windows.to_vec() }, place));
    };
    add("ticks and count 0", 0, 0, &[], 17);
    add("ticks 0", 0, 1, &[(0, 1)], 17);
    add("ticks 10001", 10_001, 1, &[(0, 1)], 17);
    add("ticks 4294967295", u32::MAX, 1, &[(0, 1)], 17);
    add("count 0", 10, 0, &[(0, 1)], 16);
    add("count 17", 100, 17, &[(0, 1); 16], 16);
    add("count 4294967295", 10_000, u32::MAX as usize, &[(0, 1)], 16);
    add("ticks before count", 10_001, 17, &[(0, 0)], 17);
    add("count before windows", 10, 0, &[(10, 0)], 16);
    add("window 0 empty", 10, 2, &[(4, 0), (6, 1)], 0);
    add("window 0 a tick too long", 10, 1, &[(4, 7)], 0);
    add("window 0 after the frame", 10, 1, &[(10, 1)], 0);
    add("window 0 over 2^32", 10, 1, &[(5, u32::MAX)], 0);
    add("first tick over 2^32", 10, 1, &[(u32::MAX, 5)], 0);
    add("window 1 touches", 10, 2, &[(0, 4), (4, 3)], 1);
    add("window 1 overlaps", 10, 2, &[(0, 4), (3, 3)], 1);
    add("window 1 before window 0", 10, 2, &[(5, 4), (0, 3)], 1);
    add("window 1 not given", 10, 2, &[(0, 4)], 1);
    add("windows 0 and 1", 10, 2, &[(0, 11), (4, 0)], 0);
    for k in [2usize, 15] {
        let mut windows: Vec<(u32, u32)> = (0..16).map(|k| (3 * k, 2)).collect();
        windows[k].1 = 0;
        add(&format!("window {k} of 16 empty"), 48, 16, &windows, k as u64);
        windows[k] = (3 * k as u32 - 1, 1);
        add(&format!("window {k} of 16 touches"), 48, 16, &windows, k as u64);
        windows[k] = (3 * k as u32, 49 - 3 * k as u32);
        add(&format!("window {k} of 16 a tick too long"), 48, 16, &windows, k as u64);
    }
    all
}

/// The sheet without a charge in which each cost has it in it.
pub fn charge_in_costs(s: &Sheet) -> Sheet {
    Sheet::of(&s.tasks.iter().map(|t| Task { e: t.e + s.charge as u32, ..*t }).collect::<Vec<_>>())
}

/// The sheet with this charge, taken off each cost: where the charge is in the costs again it is the sheet as it was.
pub fn part_charged(s: &Sheet, charge: u8) -> Sheet {
    Sheet::of(&s.tasks.iter().map(|t| Task { e: t.e - charge as u32, ..*t }).collect::<Vec<_>>()).charged(charge)
}

/// Every pattern of marks of so many tasks.
pub fn patterns(tasks: usize) -> Vec<Vec<bool>> {
    (0..1u32 << tasks).map(|pattern| (0..tasks).map(|i| pattern >> i & 1 == 1).collect()).collect()
}

/// Marks as they stand in a label: a letter for each task, h or l.
pub fn letters(lows: &[bool]) -> String {
    lows.iter().map(|&low| if low { 'l' } else { 'h' }).collect()
}

/// The same releases, each as much later.
pub fn moved(list: &[Release], by: u64) -> Vec<Release> {
    list.iter().map(|r| Release { tick: r.tick + by, ..*r }).collect()
}

/// Ticks at the largest one of kind 2, at what four bytes hold, at the limit, and beyond.
pub const EDGE_TICKS: [u64; 10] = [
    999_999_999, 1_000_000_000, 1_000_000_001, 4_294_967_295, 4_294_967_296, MAX_TICK - 1, MAX_TICK, MAX_TICK + 1, 1 << 63, u64::MAX,
];

/// The sheet and the releases printed in document 01. No K fits task 2 of the sheet.
pub fn printed_sheet() -> Sheet {
    sheet(&[(6, 5, 2, 6), (8, 7, 2, 8), (10, 0, 2, 10)])
}

pub fn printed_list() -> Vec<Release> {
    list(&[(0, 0, 2), (2, 0, 2), (0, 1, 2)])
}

/// The printed sheet with the deadline at which it fits.
pub fn folder_sheet() -> Sheet {
    sheet(&[(6, 5, 2, 6), (8, 7, 2, 8), (10, 0, 2, 11)])
}

/// Numbers that look random, the same at each run.
pub struct Mixer {
    state: u64,
}

impl Mixer {
    pub fn from(seed: u64) -> Mixer {
        Mixer { state: seed }
    }
    /// A number from low to high, both included.
    pub fn within(&mut self, low: u32, high: u32) -> u32 {
        self.state = self.state.wrapping_mul(6364136223846793005).wrapping_add(1442695040888963407);
        low + ((self.state >> 33) % (high as u64 - low as u64 + 1)) as u32
    }
}

/// What a call with a list is given. A call that takes no kept jitters or writes no ticks leaves those columns aside.
#[derive(Clone)]
pub struct ListCall {
    pub sheet: Sheet,
    pub kept: Vec<u32>,
    pub count: usize,
    pub task: Vec<u32>,
    pub tick: Vec<u64>,
    pub cost: Vec<u32>,
    pub ready: Vec<u64>,
    pub finish: Vec<u64>,
}

impl ListCall {
    /// Columns as long as the list, and two slots more than that for each answer.
    pub fn of(sheet: &Sheet, kept: &[u32], list: &[Release]) -> ListCall {
        ListCall {
            sheet: sheet.clone(),
            kept: kept.to_vec(),
            count: list.len(),
            task: list.iter().map(|r| r.task).collect(),
            tick: list.iter().map(|r| r.tick).collect(),
            cost: list.iter().map(|r| r.cost).collect(),
            ready: held(list.len() + 2),
            finish: held(list.len() + 2),
        }
    }

    pub fn columns(&self) -> Columns<'_> {
        Columns { task: &self.task, tick: &self.tick, cost: &self.cost }
    }

    /// The same call without a charge, in which each cost has it in it.
    pub fn charge_in_costs(&self) -> ListCall {
        let cost = self.cost.iter().map(|c| c + self.sheet.charge as u32).collect();
        ListCall { sheet: charge_in_costs(&self.sheet), cost, ..self.clone() }
    }

    /// The three columns of releases as blocks.
    pub fn list_blocks(&self) -> Vec<Vec<u8>> {
        vec![numbers(&self.task), numbers(&self.tick), numbers(&self.cost)]
    }
}
