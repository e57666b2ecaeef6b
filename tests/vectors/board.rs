//! The cases of `vectors_board`: a board, and asks and commits one after the other. The line is worked out step by step as the case is
//! put together.

use crate::case::*;
use crate::reference::{
    self, last_finish, row_of_board, row_of_offer, Board, Budget, Chosen, Frame, Offer, Sheet, Task, BOARD_NUMBERS, MAX_TASKS, MAX_TICK,
    MAX_WINDOWS, OFFER_NUMBERS,
};

/// How a case starts: a board is opened, or it is given and may be one that no call makes, or there are asks alone and it is not printed.
const OPENED: u32 = 0;
const GIVEN: u32 = 1;
const ASKS: u32 = 2;

/// What a step does.
const ASK: u32 = 0;
const COMMIT: u32 = 1;
const COMMIT_GIVEN: u32 = 2;

fn budget() -> Budget {
    Budget::of(u64::MAX)
}

/// A commit: the offer, where it is not that of the last ask, the sheet asked of with its frame and the releases, and the tick.
#[derive(Clone)]
struct Commit {
    offer: Option<Offer>,
    call: ListCall,
    at: u64,
}

/// A case so far: how it starts, the blocks of its first board and of each step, the line, the board, and the offer of the last ask.
#[derive(Clone)]
struct Case {
    start: u32,
    first: Board,
    steps: Vec<Vec<Vec<u8>>>,
    line: String,
    board: Board,
    offer: Offer,
}

impl Case {
    fn from(start: u32, board: Board, line: String) -> Case {
        Case { start, first: board.clone(), steps: Vec::new(), line, offer: board.plan.clone(), board }
    }
    fn open(sheet: &Sheet) -> Case {
        let board = reference::open_board(sheet, BOARD_NUMBERS, &mut budget()).ok().unwrap().expect("an opening that is not refused");
        let line = String::from(" fine") + &board_text(&board);
        Case::from(OPENED, board, line)
    }
    fn given(board: Board) -> Case {
        let line = board_text(&board);
        Case::from(GIVEN, board, line)
    }
    /// Asks alone.
    fn asks() -> Case {
        Case::from(ASKS, Board { plan: plan(&Sheet::of(&[]), &[], &[]), last: 0 }, String::new())
    }

    /// The sheet in force.
    fn sheet(&self) -> &Sheet {
        &self.board.plan.sheet
    }

    fn ask_of(mut self, sheet: &Sheet, task: Task, place: u32) -> Case {
        let mut blocks = framed_head(ASK, &[place], sheet);
        blocks.push(numbers(&[task.p, task.j, task.e, task.d, task.low as u32]));
        self.steps.push(blocks);
        self.line += ";";
        match reference::ask(sheet, task, place as usize, OFFER_NUMBERS, &mut budget()).ok().unwrap() {
            Err(r) => self.line += &refused(r),
            Ok(offer) => {
                self.line += &(String::from(" fine") + &plan_text(&offer));
                self.offer = offer;
            }
        }
        self
    }
    /// An ask of the sheet in force.
    fn ask(self, task: Task, place: u32) -> Case {
        let sheet = self.sheet().clone();
        self.ask_of(&sheet, task, place)
    }

    /// A commit of what was asked of the sheet in force.
    fn due(&self, releases: &[(u32, u64, u32)], at: u64) -> Commit {
        Commit { offer: None, call: ListCall::of(self.sheet(), &[], &list(releases)), at }
    }
    fn commit_with(mut self, c: &Commit) -> Case {
        let kind = if c.offer.is_some() { COMMIT_GIVEN } else { COMMIT };
        let mut blocks = framed_head(kind, &[c.call.count as u32], &c.call.sheet);
        blocks.extend(c.offer.iter().flat_map(plan_blocks));
        blocks.extend(c.call.list_blocks());
        blocks.push(numbers(&[c.at]));
        self.steps.push(blocks);
        let (row, offer) = (row_of_board(&self.board), row_of_offer(c.offer.as_ref().unwrap_or(&self.offer)));
        let answer = reference::commit(&row, &offer, &c.call.sheet, c.call.count, &c.call.columns(), c.at, &mut budget());
        self.line += ";";
        match answer.ok().unwrap() {
            Err(r) => self.line += &refused(r),
            Ok(board) => {
                self.line += " fine";
                self.board = board;
            }
        }
        self.line += &board_text(&self.board);
        self
    }
    fn commit(self, releases: &[(u32, u64, u32)], at: u64) -> Case {
        let c = self.due(releases, at);
        self.commit_with(&c)
    }

    fn blocks(&self) -> Vec<Vec<u8>> {
        let plan = &self.first.plan;
        let mut all = framed_head(self.start, &[plan.chosen.high_only as u32, self.steps.len() as u32], &plan.sheet);
        if self.start != OPENED {
            all.extend([numbers(&plan.chosen.kept), numbers(&plan.chosen.worst), numbers(&[self.first.last])]);
        }
        all.extend(self.steps.iter().flatten().cloned());
        all
    }
    fn add(&self, v: &mut Vectors, label: &str) {
        v.case(label, &self.blocks(), &self.line);
    }
    fn worked(&self, v: &mut Vectors, label: &str, by_hand: &str) {
        v.worked(label, &self.blocks(), &self.line, by_hand);
    }
}

/// A record of a sheet, kept jitters and worst values, of an ordinary choice.
fn plan(sheet: &Sheet, kept: &[u32], worst: &[u32]) -> Offer {
    Offer { sheet: sheet.clone(), chosen: Chosen { kept: kept.to_vec(), worst: worst.to_vec(), high_only: false } }
}

fn plan_blocks(plan: &Offer) -> Vec<Vec<u8>> {
    let head = head(0, &[plan.chosen.high_only as u32], &plan.sheet);
    vec![head, numbers(&plan.chosen.kept), numbers(&plan.chosen.worst)]
}

/// A record as it is printed, which is up to the count.
fn plan_text(plan: &Offer) -> String {
    let (sheet, n) = (&plan.sheet, plan.sheet.count.min(MAX_TASKS));
    let mut text = format!(" sheet {} charge {}", sheet.count, sheet.charge);
    for t in (0..n).map(|i| sheet.task(i)) {
        text += &format!(", {} {} {} {}{}", t.p, t.j, t.e, t.d, if t.low { " low" } else { "" });
    }
    for (name, all) in [("kept", &plan.chosen.kept), ("worst", &plan.chosen.worst)] {
        text += &(0..n).fold(format!(" {name},"), |text, i| text + &format!(" {}", all.get(i).unwrap_or(&0)));
    }
    if plan.chosen.high_only { text + " high only" } else { text }
}

fn board_text(board: &Board) -> String {
    let mut text = plan_text(&board.plan);
    if let Some(frame) = &board.plan.sheet.frame {
        text += &format!(" frame {}", frame.ticks);
        for k in 0..frame.count.min(MAX_WINDOWS) {
            let (first, length) = frame.windows.get(k).copied().unwrap_or((0, 0));
            text += &format!(", {first} {length}");
        }
    }
    text + &format!(" last {}", board.last)
}

/// The three tasks of the folder sheet, and one that is done in any gap.
const TOP: Task = Task::high(6, 5, 2, 6);
const MIDDLE: Task = Task::high(8, 7, 2, 8);
const FOOT: Task = Task::high(10, 0, 2, 11);
const RARE: Task = Task::high(100, 0, 1, 100);

fn top() -> Sheet {
    Sheet::of(&[TOP])
}

/// Three tasks with room for more, and one more. Each holds jobs back.
fn three() -> Sheet {
    sheet(&[(20, 15, 3, 17), (30, 20, 4, 25), (50, 40, 6, 50)])
}
const FOURTH: Task = Task::high(40, 20, 2, 24);

/// So many tasks that fit, all of which hold jobs back.
fn many(n: u32) -> Sheet {
    Sheet::of(&(0..n).map(|i| task(1_000 + 10 * i, 300, 5 + i % 3, 310 + 6 * i)).collect::<Vec<_>>())
}

/// Lines worked out by hand.
fn by_hand(v: &mut Vectors) {
    let one = " sheet 1 charge 0, 6 5 2 6 kept, 2 worst, 6";
    Case::open(&top()).worked(v, "opened", &format!(" fine{one} last 0"));
    // Task by task. Two releases of task 0 at 0 are ready at 0 and 4 and finished at 3 and 7. From 7 on, with no earlier job, task 0 is ready at
    // 7 and finished at 10, task 1 at 12.
    let two = " sheet 2 charge 0, 6 5 2 6, 10 0 2 11 kept, 2 0 worst, 6 5";
    let folder = " sheet 3 charge 0, 6 5 2 6, 8 7 2 8, 10 0 2 11 kept, 2 4 0 worst, 6 8 11";
    let four = " sheet 4 charge 0, 6 5 2 6, 8 7 2 8, 10 0 2 11, 100 0 1 100 kept, 2 4 0 0 worst, 6 8 11 20";
    Case::open(&top())
        .ask(FOOT, 1)
        .commit(&[(0, 0, 2), (0, 0, 2)], 6)
        .commit(&[(0, 0, 2), (0, 0, 2)], 7)
        .ask(MIDDLE, 1)
        .commit(&[(0, 6, 2)], 100)
        .commit(&[(0, 7, 2), (1, 7, 2)], 11)
        .commit(&[(0, 7, 2), (1, 7, 2)], 12)
        .ask(RARE, 3)
        .commit(&[], 11)
        .commit(&[], 12)
        .worked(
            v,
            "the folder sheet, task by task",
            &format!(
                " fine{one} last 0; fine{two}; refused 20 at 0{one} last 0; fine{two} last 7; fine{folder}; refused 8 at 0{two} last 7; \
                 refused 20 at 0{two} last 7; fine{folder} last 12; fine{four}; refused 20 at 0{folder} last 12; fine{four} last 12"
            ),
        );
    // Tick 4 of each frame of 10 is not ours. A job that is ready at 3 runs in 5 and 6; the frame repeats from tick 0 after the commit too, so
    // that one that is ready at 13 runs in 15 and 16.
    let lent = " frame 10, 0 4, 5 5";
    let one = " sheet 1 charge 0, 6 5 2 6 kept, 3 worst, 6";
    let two = " sheet 2 charge 0, 6 5 2 6, 100 0 1 100 kept, 3 0 worst, 6 7";
    let three = " sheet 3 charge 0, 100 0 1 100, 6 5 2 6, 100 0 1 100 kept, 0 4 0 worst, 3 6 8";
    Case::open(&in_frame(&top(), 10, &[(0, 4), (5, 5)]))
        .ask(RARE, 1)
        .commit(&[(0, 3, 2)], 6)
        .commit(&[(0, 3, 2)], 7)
        .ask(RARE, 0)
        .commit(&[(0, 13, 2)], 16)
        .commit(&[(0, 13, 2)], 17)
        .worked(
            v,
            "a frame, task by task",
            &format!(
                " fine{one}{lent} last 0; fine{two}; refused 20 at 0{one}{lent} last 0; fine{two}{lent} last 7; fine{three}; \
                 refused 20 at 0{two}{lent} last 7; fine{three}{lent} last 17"
            ),
        );
    // A charge of 1: task 0 alone has W(0) 3, so that it keeps 3. Each job takes 3 ticks: the second one, ready at 3, runs in 4 to 6.
    let one = " sheet 1 charge 1, 6 5 2 6 kept, 3 worst, 6";
    let two = " sheet 2 charge 1, 6 5 2 6, 100 0 1 100 kept, 3 0 worst, 6 9";
    Case::open(&top().charged(1)).ask(RARE, 1).commit(&[(0, 0, 2), (0, 0, 2)], 6).commit(&[(0, 0, 2), (0, 0, 2)], 7).worked(
        v,
        "a charge",
        &format!(" fine{one} last 0; fine{two}; refused 20 at 0{one} last 0; fine{two} last 7"),
    );
    // Refusals of an ask.
    for (label, sheet, task, place, line) in [
        ("no task held", Sheet::of(&[]), RARE, 0, " refused 5 at 0"),
        ("at the foot", top(), RARE, 1, " fine sheet 2 charge 0, 6 5 2 6, 100 0 1 100 kept, 2 0 worst, 6 4"),
        ("over the foot", top(), RARE, 2, " refused 14 at 2"),
        ("a cost over D", top(), task(8, 7, 2, 1), 1, " refused 6 at 1"),
        ("a load over D", top().charged(4), task(8, 7, 5, 8), 0, " refused 17 at 0"),
        ("no room for the new task", top(), task(8, 7, 2, 2), 0, " refused 15 at 0"),
    ] {
        Case::asks().ask_of(&sheet, task, place).worked(v, &format!("ask, {label}, by hand"), &(String::from(";") + line));
    }
}

/// An opening that may be refused.
fn opening(v: &mut Vectors, label: &str, sheet: &Sheet) {
    let line = match reference::open_board(sheet, BOARD_NUMBERS, &mut budget()).ok().unwrap() {
        Err(r) => refused(r),
        Ok(board) => String::from(" fine") + &board_text(&board),
    };
    v.case(&format!("open, {label}"), &framed_head(OPENED, &[], sheet), &line);
}

fn openings(v: &mut Vectors) {
    opening(v, "the folder sheet", &folder_sheet());
    opening(v, "three tasks", &three());
    for charge in [1, 2, 7, 255] {
        opening(v, &format!("three tasks, charge {charge}"), &three().charged(charge));
    }
    for lows in patterns(3) {
        opening(v, &format!("the printed sheet, marks {}", letters(&lows)), &printed_sheet().marked(&lows));
    }
    for (name, frame) in frames() {
        opening(v, &format!("frame {name}"), &three().framed(Some(frame)));
    }
    for n in [31, 32] {
        opening(v, &format!("{n} tasks"), &many(n));
    }
    let mut high_only = many(32).marked(&(0..32).map(|i| i % 3 == 1).collect::<Vec<bool>>());
    high_only.tasks[31].d = 6;
    high_only.tasks[31].low = true;
    opening(v, "32 tasks, high only", &high_only);
    for (label, s) in wrong_sheets() {
        opening(v, label, &s);
    }
    for (label, frame, _) in wrong_frames().into_iter().step_by(5) {
        opening(v, &format!("frame, {label}"), &three().framed(Some(frame)));
    }
}

/// Sheets that are refused, and in which order; an entry past the count does not matter.
fn wrong_sheets() -> Vec<(&'static str, Sheet)> {
    let of = |change: fn(&mut Sheet)| {
        let mut s = three();
        change(&mut s);
        s
    };
    let wrong = || Some(Frame::of(10, &[(0, 4), (4, 3)]));
    vec![
        ("count 0", of(|s| s.count = 0)),
        ("count 33", of(|s| s.count = 33)),
        ("count 4294967295", of(|s| s.count = u32::MAX as usize)),
        ("P 0 of task 0", of(|s| s.tasks[0].p = 0)),
        ("J 1000001 of task 1", of(|s| s.tasks[1].j = 1_000_001)),
        ("E over D of task 2", of(|s| s.tasks[2].d = 5)),
        ("charge over D of task 0", of(|s| s.charge = 15)),
        ("charge over P of task 1", of(|s| (s.charge, s.tasks[1].p) = (5, 8))),
        ("5 before 18", Sheet { count: 0, ..three().framed(wrong()) }),
        ("6 of task 2 before 18", of(|s| s.tasks[2].e = 0).framed(wrong())),
        ("17 of task 0 before 6 of task 1", of(|s| (s.charge, s.tasks[1].p) = (15, 0))),
        ("17 before 18", three().charged(15).framed(wrong())),
        ("18 before 15", printed_sheet().framed(wrong())),
        ("15 of task 2", printed_sheet()),
        ("15 of task 0", of(|s| s.tasks[0].d = 3)),
        ("an entry past the count out of range", of(|s| s.tasks.push(task(0, 0, 0, 0)))),
    ]
}

fn asking(v: &mut Vectors, label: &str, sheet: &Sheet, task: Task, place: u32) {
    Case::asks().ask_of(sheet, task, place).add(v, &format!("ask, {label}, place {place}"));
}

/// Asks at every place, the foot, and past it.
fn places(v: &mut Vectors) {
    let gaps = in_frame(&three(), 10, &[(0, 4), (5, 5)]);
    for (label, s, t) in [
        ("three tasks", three(), FOURTH),
        ("three tasks, a low one", three(), FOURTH.marked(true)),
        ("three low tasks", three().marked(&[true; 3]), FOURTH),
        ("charge 1", three().charged(1), FOURTH),
        ("a frame", gaps.clone(), FOURTH),
        ("a frame and charge 1", gaps.charged(1), FOURTH.marked(true)),
        ("a task that is there", three(), three().tasks[1]),
        ("a task that fits nowhere", three(), task(9, 0, 9, 9)),
        ("a low task that fits nowhere", three(), task(9, 0, 9, 9).marked(true)),
    ] {
        for place in 0..=3 {
            asking(v, label, &s, t, place);
        }
    }
    for place in [4, 5, 32, 33, u32::MAX] {
        asking(v, "three tasks", &three(), FOURTH, place);
    }
    // the folder sheet without one of its tasks, which is asked for again
    let folder = folder_sheet();
    for i in 0..3 {
        let mut held = folder.clone();
        let t = held.tasks.remove(i);
        held.count = 2;
        for place in 0..=3 {
            asking(v, &format!("the folder sheet without task {i}"), &held, t, place);
        }
    }
    for n in [31, 32] {
        for place in [0, 15, n - 1, n, n + 1] {
            asking(v, &format!("{n} tasks"), &many(n), task(5_000, 100, 3, 1_000), place);
        }
    }
}

/// Offers of the high tasks alone, and 15 of a task above, below and at the place of the new one.
fn marks(v: &mut Vectors) {
    for lows in patterns(3) {
        asking(v, &format!("the printed sheet, marks {}", letters(&lows)), &printed_sheet().marked(&lows), RARE, 0);
        asking(v, &format!("the folder sheet, marks {}", letters(&lows)), &folder_sheet().marked(&lows), task(12, 0, 2, 12), 1);
    }
    for low in [false, true] {
        let t = task(12, 0, 2, 12).marked(low);
        let mark = if low { "low" } else { "high" };
        for place in 0..=3 {
            asking(v, &format!("the folder sheet, task 2 low, a {mark} one"), &folder_sheet().marked(&[false, false, true]), t, place);
        }
    }
    // not every task fits, the new one does: the sheet held is not refused with 15
    asking(v, "the printed sheet, below its unfit task", &printed_sheet(), RARE, 3);
}

/// Refusals of an ask: of the sheet held, its frame, the place, and of the new sheet.
fn ask_refusals(v: &mut Vectors) {
    for (label, s) in wrong_sheets() {
        asking(v, label, &s, FOURTH, 0);
    }
    for (label, frame, _) in wrong_frames().into_iter().step_by(5) {
        asking(v, &format!("frame, {label}"), &three().framed(Some(frame)), FOURTH, 1);
    }
    let wrong = task(0, 0, 0, 0);
    for (label, s, t, place) in [
        ("5 before 14", Sheet::of(&[]), wrong, 1),
        ("4 of the sheet held before 14", Sheet { count: 33, ..three() }, wrong, 34),
        ("6 of the sheet held before 14", sheet(&[(20, 15, 3, 17), (30, 20, 0, 25)]), wrong, 3),
        ("17 of the sheet held before 14", three().charged(15), wrong, 4),
        ("18 before 14", in_frame(&three(), 10, &[(0, 11)]), wrong, 4),
        ("14 before 4", many(32), wrong, 33),
        ("14 before 6", three(), wrong, 4),
        ("4 before 6", many(32), wrong, 7),
        ("4 before 15", many(32), task(9, 0, 9, 9), 0),
        ("6 of the new task before 15", printed_sheet(), wrong, 3),
        ("6 of the new task before 15 below it", printed_sheet(), wrong, 0),
        ("17 of the new task before 15", printed_sheet().charged(1), task(9, 0, 9, 9), 1),
    ] {
        asking(v, label, &s, t, place);
    }
    for (label, t) in [
        ("P 0", task(0, 20, 2, 24)),
        ("P 1000001", task(1_000_001, 20, 2, 24)),
        ("J 1000001", task(40, 1_000_001, 2, 24)),
        ("J 1000000", task(40, 1_000_000, 2, 1_000_000)),
        ("E 0", task(40, 20, 0, 24)),
        ("E over P", task(40, 20, 41, 60)),
        ("E over D", task(40, 20, 25, 24)),
        ("D 1000001", task(40, 20, 2, 1_000_001)),
        ("E 4294967295", task(40, 20, u32::MAX, 24)),
    ] {
        asking(v, &format!("the new task has {label}"), &three(), t, 2);
    }
    for (label, t) in [
        ("E + S is P", task(5, 0, 3, 9)),
        ("E + S is P + 1", task(4, 0, 3, 9)),
        ("E + S is D", task(50, 0, 3, 5)),
        ("E + S is D + 1", task(50, 0, 3, 4)),
    ] {
        asking(v, &format!("charge 2, of the new task {label}"), &three().charged(2), t, 3);
    }
    let mut more = three();
    more.tasks.extend([wrong, task(7, 7, 7, 7).marked(true)]);
    for place in [0, 3, 4] {
        asking(v, "entries past the count of the sheet held", &more, FOURTH, place);
    }
    let mut past = Frame::of(10, &[(0, 4), (5, 5), (2, 0)]);
    past.count = 2;
    asking(v, "windows past the count", &three().framed(Some(past)), FOURTH, 1);
}

/// Boards that grow: an ask and a commit at a time.
fn growth(v: &mut Vectors) {
    for (label, s) in [
        ("", top()),
        (", charge 2", sheet(&[(60, 30, 5, 60)]).charged(2)),
        (", a frame", in_frame(&sheet(&[(60, 30, 5, 60)]), 10, &[(0, 3), (4, 3)])),
        (", 16 windows", sheet(&[(60, 30, 5, 60)]).framed(Some(frames()[6].1.clone()))),
    ] {
        let mut m = Mixer::from(11);
        let mut c = Case::open(&s);
        for _ in 0..6 {
            let count = c.sheet().count as u32;
            let t = task(m.within(80, 200), m.within(0, 60), m.within(1, 4), m.within(60, 200)).marked(m.within(0, 3) == 0);
            c = c.ask(t, m.within(0, count));
            let releases = some_releases(&c, &mut m, 4);
            let finish = last_finish(&c.board.plan, &list(&releases));
            c = c.commit(&releases, finish.wrapping_sub(1)).commit(&releases, finish + m.within(0, 20) as u64);
        }
        c.add(v, &format!("a board that grows{label}"));
    }
    // from 28 tasks to 32, and one more
    let mut c = Case::open(&many(28));
    for i in 0..5 {
        c = c.ask(task(5_000 + i, 100, 3, 1_000), 7 * i).commit(&[(i, 1_000 * i as u64, 3)], 1_000 * i as u64 + 500);
    }
    c.add(v, "a board that grows to 32 tasks");
    for seed in 0..16 {
        mixed(seed).add(v, &format!("asks and commits, {seed}"));
    }
}

/// Some releases of the sheet in force from the tick of the last commit on.
fn some_releases(c: &Case, m: &mut Mixer, n: u32) -> Vec<(u32, u64, u32)> {
    let mut tick = c.board.last;
    let mut one = || {
        tick += m.within(0, 9) as u64;
        let task = m.within(0, c.sheet().count as u32 - 1);
        (task, tick, m.within(1, c.sheet().task(task as usize).e))
    };
    (0..n).map(|_| one()).collect()
}

/// Asks and commits that look random: some stale, some too soon.
fn mixed(seed: u64) -> Case {
    let mut m = Mixer::from(100 + seed);
    let mut s = sheet(&[(30, 12, 3, 30), (45, 20, 4, 50)]).charged(m.within(0, 2) as u8);
    if seed % 4 == 3 {
        s = in_frame(&s, 9, &[(0, 5), (6, 2)]);
    }
    let mut c = Case::open(&s);
    let mut asked = c.sheet().clone();
    for _ in 0..8 {
        if m.within(0, 3) > 0 {
            asked = c.sheet().clone();
            let t = task(m.within(20, 90), m.within(0, 30), m.within(1, 4), m.within(20, 90)).marked(m.within(0, 2) == 0);
            let past = u32::from(m.within(0, 7) == 0);
            c = c.ask(t, m.within(0, asked.count as u32 + past));
        }
        let n = m.within(0, 3);
        let releases = some_releases(&c, &mut m, n);
        let finish = last_finish(&c.board.plan, &list(&releases)).max(c.board.last);
        let mut due = c.due(&releases, (finish + m.within(0, 4) as u64).saturating_sub(1));
        due.call.sheet = asked.clone();
        c = c.commit_with(&due);
    }
    c
}

/// A board of three tasks with this tick of the last commit, and an ask on it.
fn asked_at(s: &Sheet, last: u64) -> Case {
    let mut board = Case::open(s).board;
    board.last = last;
    let c = Case::given(board).ask(FOURTH, 1);
    assert_eq!(c.offer.sheet.count, 4);
    c
}

/// Commits, each by itself.
fn commits(v: &mut Vectors, label: &str, c: &Case, all: &[(&str, Commit)]) {
    for (name, commit) in all {
        c.clone().commit_with(commit).add(v, &format!("commit, {label}{name}"));
    }
}

/// Refusals of the releases: 10, 13, 7, 8 and 9.
fn list_refusals(v: &mut Vectors) {
    let c = asked_at(&three(), 100);
    let sound = || c.due(&[(0, 100, 3), (2, 100, 6), (1, 104, 1), (0, 130, 2)], 1_000);
    let of = |change: fn(&mut Commit)| {
        let mut one = sound();
        change(&mut one);
        one
    };
    let stale = |one: Commit| Commit { offer: Some(plan(&three(), &[0; 3], &[0; 3])), at: 0, ..one };
    commits(v, "", &c, &[
        ("sound", sound()),
        ("no release", c.due(&[], 100)),
        ("columns longer than the count", of(|o| {
            o.call.task.push(99);
            o.call.tick.push(0);
            o.call.cost.push(0);
        })),
        ("count 1025", of(|o| o.call.count = 1025)),
        ("count 4294967295", of(|o| o.call.count = u32::MAX as usize)),
        ("10 before 13", of(|o| {
            o.call.count = 1025;
            o.call.task.clear();
        })),
        ("task column short", of(|o| o.call.task.truncate(3))),
        ("tick column short", of(|o| o.call.tick.truncate(3))),
        ("cost column short", of(|o| o.call.cost.truncate(3))),
        ("no column", of(|o| (o.call.task, o.call.tick, o.call.cost) = (vec![], vec![], vec![]))),
        ("13 before 7", of(|o| {
            o.call.cost.truncate(3);
            o.call.task[0] = 3;
        })),
        ("task 3", of(|o| o.call.task[1] = 3)),
        ("task 3, which the offer has", c.due(&[(3, 100, 1)], 1_000)),
        ("task 4294967295", of(|o| o.call.task[3] = u32::MAX)),
        ("a release at the last tick", c.due(&[(0, 100, 3)], 1_000)),
        ("a release before the last tick", c.due(&[(0, 99, 3)], 1_000)),
        ("a release at 0", c.due(&[(0, 0, 3)], 1_000)),
        ("the second release before the last tick", of(|o| o.call.tick[1] = 99)),
        ("tick falls", of(|o| o.call.tick[3] = 103)),
        ("tick 1000000000000000", of(|o| (o.call.tick[3], o.at) = (MAX_TICK, MAX_TICK + 4))),
        ("tick 1000000000000001", of(|o| (o.call.tick[3], o.at) = (MAX_TICK + 1, u64::MAX))),
        ("tick 18446744073709551615", of(|o| (o.call.tick[3], o.at) = (u64::MAX, u64::MAX))),
        ("cost 0", of(|o| o.call.cost[2] = 0)),
        ("cost over E", of(|o| o.call.cost[2] = 5)),
        ("7 and 8 at one release", of(|o| (o.call.task[0], o.call.tick[0]) = (3, 99))),
        ("8 and 9 at one release", of(|o| (o.call.tick[0], o.call.cost[0]) = (99, 0))),
        ("9 at release 0 before 8 at release 1", of(|o| (o.call.cost[0], o.call.tick[1]) = (0, 99))),
        ("10 before 19 and 20", stale(of(|o| o.call.count = 1025))),
        ("13 before 19 and 20", stale(of(|o| o.call.tick.truncate(3)))),
        ("7 before 19 and 20", stale(of(|o| o.call.task[3] = 3))),
        ("8 before 19 and 20", stale(of(|o| o.call.tick[0] = 99))),
        ("9 before 19 and 20", stale(of(|o| o.call.cost[3] = 4))),
    ]);
}

/// 19: the sheet held is another than the one asked of, or no ask gives the offer. What is past a count does not matter.
fn stale(v: &mut Vectors) {
    let framed = in_frame(&three().charged(1), 10, &[(0, 4), (5, 5)]);
    let c = asked_at(&framed, 7);
    let frame = |change: fn(&mut Frame)| {
        let mut f = framed.frame.clone().unwrap();
        change(&mut f);
        Some(f)
    };
    // with the offer that the ask on this sheet gives, where it is not refused
    let asked = |s: Sheet| {
        let own = Case::asks().ask_of(&s, FOURTH, 1).offer;
        Commit { offer: Some(own).filter(|o| o.sheet.count > 0), call: ListCall { sheet: s, ..c.due(&[], 50).call }, at: 50 }
    };
    let of_sheet = |change: fn(&mut Sheet)| {
        let mut s = framed.clone();
        change(&mut s);
        asked(s)
    };
    let with = |change: fn(&mut Offer)| {
        let mut o = c.offer.clone();
        change(&mut o);
        Commit { offer: Some(o), ..c.due(&[], 50) }
    };
    commits(v, "asked of, ", &c, &[
        ("the sheet held", asked(framed.clone())),
        ("no frame", asked(framed.framed(None))),
        ("0 ticks", asked(framed.framed(frame(|f| f.ticks = 0)))),
        ("17 windows", asked(framed.framed(frame(|f| f.count = 17)))),
        ("charge 0", of_sheet(|s| s.charge = 0)),
        ("charge 2", of_sheet(|s| s.charge = 2)),
        ("P of task 0", of_sheet(|s| s.tasks[0].p += 1)),
        ("J of task 2", of_sheet(|s| s.tasks[2].j -= 1)),
        ("E of task 1", of_sheet(|s| s.tasks[1].e += 1)),
        ("D of task 2", of_sheet(|s| s.tasks[2].d += 1)),
        ("mark of task 2", of_sheet(|s| s.tasks[2].low = true)),
        ("two tasks", of_sheet(|s| s.count = 2)),
        ("no task", of_sheet(|s| s.count = 0)),
        ("4294967295 tasks", of_sheet(|s| s.count = u32::MAX as usize)),
        ("an entry past the count", of_sheet(|s| s.tasks.push(task(0, 0, 0, 0)))),
        ("the new sheet", asked(c.offer.sheet.clone())),
    ]);
    commits(v, "an offer with ", &c, &[
        ("nothing changed", with(|_| {})),
        ("a kept jitter raised", with(|o| o.chosen.kept[1] += 1)),
        ("the last kept jitter raised", with(|o| o.chosen.kept[3] += 1)),
        ("a kept jitter lowered", with(|o| o.chosen.kept[0] -= 1)),
        ("another worst value", with(|o| o.chosen.worst[2] -= 1)),
        ("the first worst value raised", with(|o| o.chosen.worst[0] += 1)),
        ("high only", with(|o| o.chosen.high_only = true)),
        ("another charge", with(|o| o.sheet.charge = 0)),
        ("a task of the sheet held changed", with(|o| o.sheet.tasks[3].p += 1)),
        ("a task above the new one changed", with(|o| o.sheet.tasks[0].d += 1)),
        ("the new task changed", with(|o| o.sheet.tasks[1].j += 1)),
        ("the mark of the new task changed", with(|o| o.sheet.tasks[1].low = true)),
        ("two tasks changed places", with(|o| o.sheet.tasks.swap(2, 3))),
        ("a task fewer", with(|o| o.sheet.count = 3)),
        ("a task more", with(|o| {
            o.sheet.tasks.push(RARE);
            o.sheet.count = 5;
            o.chosen.kept.push(0);
            o.chosen.worst.push(0);
        })),
        ("count 33", with(|o| o.sheet.count = 33)),
        ("count 0", with(|o| o.sheet.count = 0)),
        ("entries past the count", with(|o| {
            o.sheet.tasks.push(task(0, 9, 0, 0));
            o.chosen.kept.push(77);
            o.chosen.worst.push(u32::MAX);
        })),
    ]);
}

/// Frames asked of that are other than the one held, with the offer asked for in them: 19, whether the choice is another or not.
fn other_frames(v: &mut Vectors) {
    let bare = sheet(&[(60, 30, 5, 60)]);
    let held = Frame::of(12, &[(0, 4), (5, 5)]);
    let mut past = Frame::of(12, &[(0, 4), (5, 5), (3, 3)]);
    past.count = 2;
    let whole = || Frame::of(12, &[(0, 12)]);
    for (name, on, asked) in [
        ("the frame held", Some(held.clone()), Some(held.clone())),
        ("a window past the count", Some(held.clone()), Some(past.clone())),
        ("a window past the count of the one held", Some(past), Some(held.clone())),
        ("none", Some(held.clone()), None),
        ("13 ticks", Some(held.clone()), Some(Frame::of(13, &[(0, 4), (5, 5)]))),
        ("another first tick", Some(held.clone()), Some(Frame::of(12, &[(0, 4), (6, 5)]))),
        ("another length", Some(held.clone()), Some(Frame::of(12, &[(0, 4), (5, 6)]))),
        ("another length of window 0", Some(held.clone()), Some(Frame::of(12, &[(0, 3), (5, 5)]))),
        ("one window", Some(held.clone()), Some(Frame::of(12, &[(0, 4)]))),
        ("three windows", Some(held.clone()), Some(Frame::of(12, &[(0, 4), (5, 5), (11, 1)]))),
        ("all window, none held", None, Some(whole())),
        ("none, one that is all window held", Some(whole()), None),
    ] {
        let c = Case::open(&bare.framed(on)).ask_of(&bare.framed(asked.clone()), RARE, 1);
        let due = Commit { offer: None, call: ListCall::of(&bare.framed(asked), &[], &[]), at: 9 };
        c.commit_with(&due).add(v, &format!("commit, frame asked of, {name}"));
    }
}

/// Offers that are stale by what came before, and some that are what an ask gives by another way.
fn stale_by_then(v: &mut Vectors) {
    let open = || Case::open(&three());
    open().ask(FOURTH, 1).commit(&[], 5).commit(&[], 6).add(v, "the same offer once more, of the new sheet");
    let c = open().ask(FOURTH, 1).commit(&[], 5);
    let again = Commit { call: ListCall::of(&three(), &[], &[]), ..c.due(&[], 6) };
    c.commit_with(&again).add(v, "the same offer once more, of the old sheet");
    let c = open().ask(FOURTH, 1);
    let first = c.offer.clone();
    let c = c.ask(RARE, 3).commit(&[], 5);
    let late = Commit { offer: Some(first), call: ListCall::of(&three(), &[], &[]), at: 6 };
    c.commit_with(&late).add(v, "the first of two offers after the second");
    let c = open().ask(FOURTH, 1);
    let mut other = c.offer.clone();
    other.chosen.kept[0] += 1;
    let forged = Commit { offer: Some(other), ..c.due(&[], 5) };
    c.commit_with(&forged).commit(&[], 5).add(v, "a forged offer, then the asked one");
    open().ask(FOURTH, 1).ask(FOURTH, 4).commit(&[], 5).add(v, "an offer, a refused ask, a commit");
    open().commit(&[], 5).add(v, "a commit before any ask, of the record held");
    // nothing was asked: the offer is what an ask would give
    let offer = open().ask(FOURTH, 1).offer;
    let c = open();
    let never = Commit { offer: Some(offer), ..c.due(&[], 5) };
    c.commit_with(&never).add(v, "an offer that was not asked for here");
    // equal neighbours: the place of the new task is the first at which the sheets differ
    let equal = sheet(&[(30, 10, 2, 30), (30, 10, 2, 30)]);
    for place in 0..=2 {
        let c = Case::open(&equal);
        c.ask(equal.tasks[0], place).commit(&[], 0).add(v, &format!("equal neighbours, place {place}"));
        Case::open(&equal).ask(equal.tasks[0].marked(true), place).commit(&[], 0).add(v, &format!("neighbours of another mark, place {place}"));
    }
    let pair = sheet(&[(30, 10, 2, 30), (60, 5, 3, 60)]);
    for place in 0..=2 {
        Case::open(&pair).ask(pair.tasks[0], place).commit(&[], 9).add(v, &format!("task 0 once more, place {place}"));
        Case::open(&pair).ask(pair.tasks[1], place).commit(&[], 9).add(v, &format!("task 1 once more, place {place}"));
    }
    // high only, ordinary after it, and high only again
    let low = folder_sheet().marked(&[false, false, true]);
    Case::open(&low).ask(task(12, 0, 2, 12), 1).commit(&[(2, 0, 2)], 9).ask(RARE, 0).commit(&[], 9).add(v, "offers of the high tasks alone");
    let c = Case::open(&low).ask(task(12, 0, 2, 12), 1);
    let mut ordinary = c.offer.clone();
    ordinary.chosen.high_only = false;
    let forged = Commit { offer: Some(ordinary), ..c.due(&[], 9) };
    c.commit_with(&forged).add(v, "a high only offer said to be ordinary");
    // 32 tasks are held: no ask gives anything
    let c = Case::open(&many(32));
    let same = Commit { offer: Some(c.offer.clone()), ..c.due(&[], 9) };
    c.commit_with(&same).add(v, "32 tasks held, the record held as an offer");
    let c = Case::open(&many(32));
    let mut more = c.offer.clone();
    more.sheet.count = 33;
    let over = Commit { offer: Some(more), ..c.due(&[], 9) };
    c.commit_with(&over).add(v, "32 tasks held, an offer of 33");
}

/// 20: a tick before that of the last commit, or before a finish; both at their edges, and 19 before it.
fn too_soon(v: &mut Vectors) {
    for last in [0, 1, 7, 4_294_967_295, 4_294_967_296, MAX_TICK, MAX_TICK + 1, u64::MAX - 1, u64::MAX] {
        let c = asked_at(&three(), last);
        if last > 0 {
            c.clone().commit(&[], last - 1).add(v, &format!("commit, a tick before the last at {last}"));
        }
        c.commit(&[], last).add(v, &format!("commit, at the last at {last}"));
    }
    for at in [1 << 32, MAX_TICK, MAX_TICK + 1, u64::MAX] {
        asked_at(&three(), 7).commit(&[(0, 7, 3)], at).add(v, &format!("commit, at {at}"));
    }
    let first = (4 << 32) - 3;
    for (label, s) in [("", three()), (", charge 1", three().charged(1)), (", a frame", in_frame(&three(), 10, &[(0, 4), (5, 5)]))] {
        let c = asked_at(&s, first);
        for (what, releases) in [
            ("one release", vec![(0, first, 3)]),
            ("held releases", vec![(0, first, 3), (0, first, 3), (0, first + 1, 1)]),
            ("an interrupted job", vec![(2, first, 6), (0, first + 2, 3), (1, first + 2, 4)]),
        ] {
            let finish = last_finish(&c.board.plan, &list(&releases));
            for (name, at) in [("a tick before", finish - 1), ("at", finish)] {
                c.clone().commit(&releases, at).add(v, &format!("commit, {what}{label}, {name} the last finish"));
            }
        }
    }
    // the finish over the tick is not that of the last release
    let c = asked_at(&three(), 0);
    for at in [13, 14] {
        c.clone().commit(&[(2, 0, 6), (0, 2, 3), (1, 3, 4)], at).add(v, &format!("commit at {at}, the first release is finished last"));
    }
    let c = asked_at(&three(), 7);
    for (name, change) in [("kept jitter", 0), ("worst value", 1)] {
        let mut o = c.offer.clone();
        if change == 0 { o.chosen.kept[0] += 1 } else { o.chosen.worst[0] += 1 }
        for at in [6, 7] {
            let both = Commit { offer: Some(o.clone()), ..c.due(&[], at) };
            c.clone().commit_with(&both).add(v, &format!("commit, another {name}, at {at}"));
        }
        let late = Commit { offer: Some(o), ..c.due(&[(0, 7, 3)], 8) };
        c.clone().commit_with(&late).add(v, &format!("commit, another {name}, before a finish"));
    }
    // at the largest tick, after which no release is taken
    Case::open(&top())
        .ask(RARE, 1)
        .commit(&[(0, MAX_TICK, 2)], u64::MAX)
        .ask(RARE, 2)
        .commit(&[(0, MAX_TICK, 2)], u64::MAX)
        .commit(&[], u64::MAX - 1)
        .commit(&[], u64::MAX)
        .add(v, "a commit at the largest tick, and one more");
    let burst: Vec<(u32, u64, u32)> = (0..1024).map(|p| (p % 3, p as u64 / 2, 1)).collect();
    let c = asked_at(&three(), 0);
    let finish = last_finish(&c.board.plan, &list(&burst));
    c.clone().commit(&burst, finish).add(v, "1024 releases, at the last finish");
    c.commit(&burst, finish - 1).add(v, "1024 releases, a tick before it");
}

/// Boards that no call makes: their sheet and frame, then 10 and 13, then their kept jitters are refused.
fn given(v: &mut Vectors) {
    let offer = Case::open(&three()).ask(FOURTH, 1).offer;
    let mut add = |label: &str, b: Board, change: &dyn Fn(&mut Commit)| {
        let c = Case::given(b);
        let mut one = c.due(&[(0, 5, 1)], 50);
        one.offer = Some(offer.clone());
        change(&mut one);
        c.commit_with(&one).add(v, &format!("given, {label}"));
    };
    let board = |s: &Sheet, kept: &[u32]| Board { plan: plan(s, kept, &[0; 3]), last: 0 };
    for (label, s) in wrong_sheets() {
        add(label, board(&s, &[0; 3]), &|_| {});
        if label == "count 0" || label == "E over D of task 2" {
            add(&format!("{label}, count 1025"), board(&s, &[0; 3]), &|c| c.call.count = 1025);
        }
    }
    for (label, frame, _) in wrong_frames().into_iter().step_by(7) {
        add(&format!("frame, {label}"), board(&three().framed(Some(frame)), &[0; 3]), &|_| {});
    }
    for (label, kept) in [("K is J", [15, 20, 40]), ("K over J of task 0", [16, 20, 40]), ("K over J of task 2", [0, 0, 41]), ("K 4294967295 of task 1", [0, u32::MAX, 0])] {
        add(label, board(&three(), &kept), &|_| {});
    }
    let wrong = || board(&three(), &[0, 21, 0]);
    add("10 before 12", wrong(), &|c| c.call.count = 1025);
    add("13 before 12", wrong(), &|c| c.call.cost.clear());
    add("12 before 7", wrong(), &|c| c.call.task[0] = 3);
    add("12 before 19 and 20", wrong(), &|c| (c.call.sheet.charge, c.at) = (1, 0));
    // kept jitters of no choice decide the run: with K 0 the second job is ready at 20, with K 10 at 10
    for (k, finish) in [(0, 24), (10, 14)] {
        for at in [finish - 1, finish] {
            add(&format!("K {k} of task 0, at {at}"), board(&three(), &[k, 0, 0]), &|c| {
                c.call = ListCall::of(&c.call.sheet, &[], &list(&[(0, 0, 3), (0, 0, 3)]));
                c.at = at;
            });
        }
    }
}

pub fn vectors() -> Vectors {
    let mut v = Vectors::new();
    by_hand(&mut v);
    openings(&mut v);
    places(&mut v);
    marks(&mut v);
    ask_refusals(&mut v);
    growth(&mut v);
    list_refusals(&mut v);
    stale(&mut v);
    other_frames(&mut v);
    stale_by_then(&mut v);
    too_soon(&mut v);
    given(&mut v);
    v
}
