//! The table of boards: opening, ask and commit of the archive and of the same method in plain Rust, and the choice and the run that jumps of
//! the same data, of which they are made. What stands in one ratio is timed in turn.

use crate::generator::{frame_numbers_of, list_for, numbers_of, Random};
use crate::library;
use crate::reference::{row_of_board, row_of_offer, Board, Chosen, Offer, Sheet, Task, BOARD_NUMBERS, OFFER_NUMBERS};
use crate::same_method::{self, Plan};
use crate::sheets::{full_sheet, seventy_sheet, three_of_four};
use crate::timing::medians;
use std::hint::black_box;

/// A sheet that is held, a task that is asked for at a place, the offer and the board: as the archive has them and as the same method does.
struct Asked {
    sheet: Sheet,
    task: Task,
    place: usize,
    numbers: Vec<u32>,
    frame: Vec<u32>,
    offer: Vec<u32>,
    plan: Plan,
    board: Vec<u32>,
    held: same_method::Board,
}

/// Releases since the opening, and the tick at which the last one is finished.
struct Since {
    task: Vec<u32>,
    tick: Vec<u64>,
    cost: Vec<u32>,
    at: u64,
}

impl Since {
    fn library(&self) -> library::Columns<'_> {
        library::Columns { task: &self.task, tick: &self.tick, cost: &self.cost }
    }
    fn same(&self) -> same_method::Columns<'_> {
        same_method::Columns { task: &self.task, tick: &self.tick, cost: &self.cost }
    }
}

/// What the same method gives, as a row.
fn offer_row(plan: &Plan) -> Vec<u32> {
    row_of_offer(&offer_of(plan, &Sheet::of(&[])))
}

fn offer_of(plan: &Plan, framed: &Sheet) -> Offer {
    let n = plan.count;
    let chosen = Chosen { kept: plan.kept[..n].to_vec(), worst: plan.worst[..n].to_vec(), high_only: plan.high_only };
    Offer { sheet: Sheet::of(plan.sheet()).charged(plan.charge).framed(framed.frame.clone()), chosen }
}

/// Two calls that do the same: the archive's and that of the same method.
type Both<'a> = (Box<dyn FnMut() + 'a>, Box<dyn FnMut() + 'a>);

impl Asked {
    /// An opening and an ask, in which both have to give the same.
    fn of(sheet: &Sheet, task: Task, place: usize) -> Asked {
        let held = same_method::open_board(&sheet.tasks, sheet.charge, sheet.frame.as_ref()).ok().unwrap();
        let plan = same_method::ask(&sheet.tasks, sheet.charge, sheet.frame.as_ref(), task, place).ok().unwrap();
        let board = row_of_board(&Board { plan: offer_of(&held.plan, sheet), last: 0 });
        let (numbers, frame) = (numbers_of(sheet), frame_numbers_of(&sheet.frame));
        let asked = Asked { sheet: sheet.clone(), task, place, numbers, frame, offer: offer_row(&plan), plan, board, held };
        let (mut offer, mut board) = (vec![7; OFFER_NUMBERS], vec![7; BOARD_NUMBERS]);
        assert_eq!((asked.open_archive(&mut board), asked.ask_archive(&mut offer)), (0, 0));
        assert_eq!((&board, &offer), (&asked.board, &asked.offer));
        asked
    }

    fn open_archive(&self, board: &mut [u32]) -> u64 {
        let (numbers, frame) = (black_box(&self.numbers), black_box(&self.frame));
        library::board_open(numbers, self.sheet.count as u32, self.sheet.charge, frame, black_box(board))
    }
    fn ask_archive(&self, offer: &mut [u32]) -> u64 {
        let row = [self.task.p, self.task.j, self.task.e, self.task.d, self.task.low as u32];
        let (numbers, frame) = (black_box(&self.numbers), black_box(&self.frame));
        let (count, place) = (self.sheet.count as u32, self.place as u32);
        library::board_ask(numbers, count, self.sheet.charge, frame, black_box(&row), place, black_box(offer))
    }
    fn jump_archive(&self, since: &Since, ready: &mut [u64], finish: &mut [u64], answer: &mut [u64]) -> u64 {
        let (numbers, frame, kept) = (black_box(&self.numbers), black_box(&self.frame), &self.held.plan.kept);
        let (count, charge, n) = (self.sheet.count as u32, self.sheet.charge, since.task.len() as u32);
        library::jump(numbers, count, charge, frame, kept, n, since.library(), black_box(ready), black_box(finish), black_box(answer))
    }
    fn commit_archive(&self, since: &Since, board: &mut [u32]) -> u64 {
        let (offer, numbers, frame) = (black_box(&self.offer), black_box(&self.numbers), black_box(&self.frame));
        let (count, charge, n) = (self.sheet.count as u32, self.sheet.charge, since.task.len() as u32);
        library::board_commit(black_box(board), offer, numbers, count, charge, frame, n, since.library(), since.at)
    }
    fn commit_same(&self, since: &Since, board: &mut same_method::Board) {
        let (offer, tasks, frame) = (black_box(&self.plan), black_box(&self.sheet.tasks), black_box(self.sheet.frame.as_ref()));
        let n = since.task.len();
        assert!(same_method::commit(black_box(board), offer, tasks, self.sheet.charge, frame, n, since.same(), since.at).is_ok());
    }

    /// Releases that keep the processor busy most of the time.
    fn since(&self, n: usize) -> Since {
        let cost = self.sheet.tasks.iter().map(|t| t.e).sum::<u32>() / self.sheet.count as u32;
        let step = if self.sheet.frame.is_some() { cost * 7 / 2 } else { cost * 7 / 3 };
        let all = list_for(&mut Random::seeded(7), &self.sheet, n, step);
        let mut since = Since {
            task: all.iter().map(|r| r.task).collect(),
            tick: all.iter().map(|r| r.tick).collect(),
            cost: all.iter().map(|r| r.cost).collect(),
            at: 0,
        };
        let mut finish = vec![0u64; n];
        assert_eq!(self.jump_archive(&since, &mut vec![0u64; n], &mut finish, &mut [0]), 0);
        since.at = finish.iter().copied().max().unwrap_or(0);
        since
    }

    fn choice<'a>(&'a self, tasks: &'a [Task]) -> Both<'a> {
        let numbers = numbers_of(&Sheet::of(tasks));
        let (count, charge, frame) = (tasks.len() as u32, self.sheet.charge, self.sheet.frame.as_ref());
        let (mut k, mut w, mut answer, mut k2, mut w2) = ([0u32; 32], [0u32; 32], [0u64; 1], [0u32; 32], [0u32; 32]);
        (
            Box::new(move || {
                let lent = (black_box(&mut k), black_box(&mut w), black_box(&mut answer));
                black_box(library::choice(black_box(&numbers), count, charge, black_box(&self.frame), lent.0, lent.1, lent.2));
            }),
            Box::new(move || {
                let lent = (black_box(&mut k2), black_box(&mut w2));
                black_box(same_method::choice(black_box(tasks), charge, black_box(frame), lent.0, lent.1).is_ok());
            }),
        )
    }

    fn opening(&self) -> Both<'_> {
        let (mut board, charge, frame) = (self.board.clone(), self.sheet.charge, self.sheet.frame.as_ref());
        (
            Box::new(move || {
                black_box(self.open_archive(&mut board));
            }),
            Box::new(move || {
                black_box(same_method::open_board(black_box(&self.sheet.tasks), charge, black_box(frame)).ok());
            }),
        )
    }

    fn ask(&self) -> Both<'_> {
        let (mut offer, charge, frame) = (self.offer.clone(), self.sheet.charge, self.sheet.frame.as_ref());
        (
            Box::new(move || {
                black_box(self.ask_archive(&mut offer));
            }),
            Box::new(move || {
                let (tasks, task) = (black_box(&self.sheet.tasks), black_box(self.task));
                black_box(same_method::ask(tasks, charge, black_box(frame), task, self.place).ok());
            }),
        )
    }

    /// The run that jumps, with the kept jitters in force.
    fn run<'a>(&'a self, since: &'a Since) -> Both<'a> {
        let (charge, frame, kept) = (self.sheet.charge, self.sheet.frame.as_ref(), &self.held.plan.kept);
        let (mut a, mut b, mut c, mut d) = (vec![0u64; 1024], vec![0u64; 1024], vec![0u64; 1024], vec![0u64; 1024]);
        let (mut answer, n) = ([0u64; 1], since.task.len());
        (
            Box::new(move || {
                black_box(self.jump_archive(since, &mut a, &mut b, &mut answer));
            }),
            Box::new(move || {
                let lent = (black_box(&mut c), black_box(&mut d));
                black_box(same_method::jump(black_box(&self.sheet.tasks), charge, frame, kept, n, since.same(), lent.0, lent.1).is_ok());
            }),
        )
    }

    /// A commit at the last finish. The board is set back before each.
    fn commit<'a>(&'a self, since: &'a Since) -> Both<'a> {
        let (mut board, mut held) = (self.board.clone(), self.held.clone());
        assert_eq!(self.commit_archive(since, &mut board), 0);
        self.commit_same(since, &mut held);
        assert_eq!(board, row_of_board(&Board { plan: offer_of(&held.plan, &self.sheet), last: held.last }));
        (
            Box::new(move || {
                board.copy_from_slice(&self.board);
                assert_eq!(self.commit_archive(since, &mut board), 0);
            }),
            Box::new(move || {
                (held.plan, held.last) = (self.held.plan, self.held.last);
                self.commit_same(since, &mut held);
            }),
        )
    }
}

/// Two calls one after the other.
fn in_turn<'a>(first: Both<'a>, second: Both<'a>) -> Both<'a> {
    let ((mut a, mut b), (mut c, mut d)) = (first, second);
    let archive = move || {
        a();
        c();
    };
    let same = move || {
        b();
        d();
    };
    (Box::new(archive), Box::new(same))
}

/// Microseconds of each, the archive's and those of the same method.
fn times<const N: usize>(calls: [Both; N]) -> [[f64; 2]; N] {
    let mut all: Vec<Box<dyn FnMut()>> = calls.into_iter().flat_map(|(archive, same)| [archive, same]).collect();
    let t = medians(&mut all.iter_mut().map(|call| call as &mut dyn FnMut()).collect::<Vec<_>>());
    std::array::from_fn(|i| [t[2 * i], t[2 * i + 1]])
}

/// A row; of a call on a board also how it stands to the choice, or the run and the choice, that are in it.
fn line(name: &str, t: [f64; 2], parts: Option<[f64; 2]>) {
    let share = parts.map_or("–".to_string(), |parts| format!("{:.2}", t[0] / parts[0]));
    println!("| {} | {:.2} | {:.2} | {:.2} | {} |", name, t[0], t[1], t[0] / t[1], share);
}

fn rows(asked: Asked, what: &str, releases: &[usize]) {
    let (old, new) = (&asked.sheet.tasks, asked.plan.sheet());
    let n = old.len();
    let [choice, opening] = times([asked.choice(old), asked.opening()]);
    line(&format!("choice of {n} tasks{what}"), choice, None);
    line(&format!("opening with {n} tasks{what}"), opening, Some(choice));
    let [choice, ask] = times([asked.choice(new), asked.ask()]);
    line(&format!("choice of {} tasks{what}", n + 1), choice, None);
    line(&format!("ask, {n} tasks held{what}"), ask, Some(choice));
    for &many in releases {
        let since = asked.since(many);
        let many = if many == 1024 { "1,024".to_string() } else { many.to_string() };
        let parts = in_turn(asked.run(&since), asked.choice(new));
        let [run, parts, commit] = times([asked.run(&since), parts, asked.commit(&since)]);
        line(&format!("jumping run of {many} releases, {n} tasks{what}"), run, None);
        line(&format!("that run, then a choice of {} tasks{what}", n + 1), parts, None);
        line(&format!("commit of {many} releases, {n} tasks held{what}"), commit, Some(parts));
    }
}

/// Sheets of 10 and of 31 tasks with a load of 95 in 100, and one of 31 tasks with a load of 70 in 100 in a frame of 16 windows; a task with a
/// load of 1 in 100 is asked for in the middle.
pub fn table() {
    println!("\n| Board | archive, µs | same method in Rust, µs | archive ÷ same | archive ÷ its parts |");
    println!("|---|---|---|---|---|");
    let new = Task::high(9_000, 4_500, 90, 1_000_000);
    for n in [10, 31] {
        rows(Asked::of(&full_sheet(n), new, n as usize / 2), "", &[0, 100, 1024]);
    }
    let sheet = Sheet::of(&seventy_sheet().tasks[..31]).framed(Some(three_of_four(1_000, 16)));
    rows(Asked::of(&sheet, new, 15), ", 16 windows in 1000 ticks", &[1024]);
}
