//! The functions of the archive, as include/nolkrada.h declares them, with slices in place of pointer and length. A frame of length 0 is no frame.

extern "C" {
    fn nolkrada_arrival_count(
        sheet: *const u32, sheet_length: usize, count: u32, charge: u8, task: u32, kept: *const u32, kept_length: usize, t: u32,
        answer: *mut u64, answer_length: usize,
    ) -> u64;
    fn nolkrada_verdict(
        sheet: *const u32, sheet_length: usize, count: u32, charge: u8, frame: *const u32, frame_length: usize, task: u32,
        kept: *const u32, kept_length: usize, answer: *mut u64, answer_length: usize,
    ) -> u64;
    fn nolkrada_choice(
        sheet: *const u32, sheet_length: usize, count: u32, charge: u8, frame: *const u32, frame_length: usize, kept: *mut u32,
        kept_length: usize, worst: *mut u32, worst_length: usize, answer: *mut u64, answer_length: usize,
    ) -> u64;
    fn nolkrada_trace_check(
        sheet: *const u32, sheet_length: usize, count: u32, charge: u8, n: u32, task: *const u32, task_length: usize,
        tick: *const u64, tick_length: usize, cost: *const u32, cost_length: usize, answer: *mut u64, answer_length: usize,
    ) -> u64;
    fn nolkrada_ready(
        sheet: *const u32, sheet_length: usize, count: u32, charge: u8, kept: *const u32, kept_length: usize, n: u32,
        task: *const u32, task_length: usize, tick: *const u64, tick_length: usize, cost: *const u32, cost_length: usize,
        ready: *mut u64, ready_length: usize,
    ) -> u64;
    fn nolkrada_run(
        sheet: *const u32, sheet_length: usize, count: u32, charge: u8, frame: *const u32, frame_length: usize, kept: *const u32,
        kept_length: usize, n: u32, task: *const u32, task_length: usize, tick: *const u64, tick_length: usize, cost: *const u32,
        cost_length: usize,
        ready: *mut u64, ready_length: usize, finish: *mut u64, finish_length: usize,
    ) -> u64;
    fn nolkrada_jump(
        sheet: *const u32, sheet_length: usize, count: u32, charge: u8, frame: *const u32, frame_length: usize, kept: *const u32,
        kept_length: usize, n: u32, task: *const u32, task_length: usize, tick: *const u64, tick_length: usize, cost: *const u32,
        cost_length: usize,
        ready: *mut u64, ready_length: usize, finish: *mut u64, finish_length: usize, answer: *mut u64, answer_length: usize,
    ) -> u64;
    fn nolkrada_read(
        file: *const u8, file_length: usize, sheet: *mut u32, sheet_length: usize, task: *mut u32, task_length: usize,
        tick: *mut u64, tick_length: usize, cost: *mut u32, cost_length: usize, answer: *mut u64, answer_length: usize,
    ) -> u64;
    fn nolkrada_write(
        sheet: *const u32, sheet_length: usize, count: u32, charge: u8, n: u32, task: *const u32, task_length: usize,
        tick: *const u64, tick_length: usize, cost: *const u32, cost_length: usize, out: *mut u8, out_length: usize,
        answer: *mut u64, answer_length: usize,
    ) -> u64;
    fn nolkrada_load(
        text: *const u8, text_length: usize, sheet: *mut u32, sheet_length: usize, answer: *mut u64, answer_length: usize,
    ) -> u64;
    fn nolkrada_monitor_open(
        sheet: *const u32, sheet_length: usize, count: u32, charge: u8, window: *mut u64, window_length: usize,
    ) -> u64;
    fn nolkrada_monitor_take(window: *mut u64, window_length: usize, task: u32, response: u64) -> u64;
    fn nolkrada_monitor_show(
        window: *const u64, window_length: usize, task: u32, answer: *mut u64, answer_length: usize,
    ) -> u64;
    fn nolkrada_monitor_show_all(
        window: *const u64, window_length: usize, jobs: *mut u32, jobs_length: usize, late: *mut u32, late_length: usize,
        largest: *mut u64, largest_length: usize,
    ) -> u64;
    fn nolkrada_board_open(
        sheet: *const u32, sheet_length: usize, count: u32, charge: u8, frame: *const u32, frame_length: usize, board: *mut u32,
        board_length: usize,
    ) -> u64;
    fn nolkrada_board_ask(
        sheet: *const u32, sheet_length: usize, count: u32, charge: u8, frame: *const u32, frame_length: usize, task: *const u32,
        task_length: usize, place: u32, offer: *mut u32, offer_length: usize,
    ) -> u64;
    fn nolkrada_board_commit(
        board: *mut u32, board_length: usize, offer: *const u32, offer_length: usize, sheet: *const u32, sheet_length: usize,
        count: u32, charge: u8, frame: *const u32, frame_length: usize, n: u32, task: *const u32, task_length: usize,
        tick: *const u64, tick_length: usize, cost: *const u32, cost_length: usize, at: u64,
    ) -> u64;
    fn nolkrada_small_trace(
        sheet: *const u32, sheet_length: usize, count: u32, charge: u8, releases: u32, ticks: u32, position: u64, task: *mut u32,
        task_length: usize, tick: *mut u64, tick_length: usize, cost: *mut u32, cost_length: usize, answer: *mut u64,
        answer_length: usize,
    ) -> u64;
    fn nolkrada_small_trace_count(
        sheet: *const u32, sheet_length: usize, count: u32, charge: u8, releases: u32, ticks: u32, answer: *mut u64,
        answer_length: usize,
    ) -> u64;
}

/// Columns of releases, each with a length of its own.
#[derive(Clone, Copy)]
pub struct Columns<'a> {
    pub task: &'a [u32],
    pub tick: &'a [u64],
    pub cost: &'a [u32],
}

pub fn arrival_count(sheet: &[u32], count: u32, charge: u8, task: u32, kept: &[u32], t: u32, answer: &mut [u64]) -> u64 {
    unsafe {
        nolkrada_arrival_count(
            sheet.as_ptr(), sheet.len(), count, charge, task, kept.as_ptr(), kept.len(), t, answer.as_mut_ptr(), answer.len(),
        )
    }
}

pub fn verdict(sheet: &[u32], count: u32, charge: u8, frame: &[u32], task: u32, kept: &[u32], answer: &mut [u64]) -> u64 {
    unsafe {
        nolkrada_verdict(
            sheet.as_ptr(), sheet.len(), count, charge, frame.as_ptr(), frame.len(), task, kept.as_ptr(), kept.len(),
            answer.as_mut_ptr(), answer.len(),
        )
    }
}

pub fn choice(
    sheet: &[u32], count: u32, charge: u8, frame: &[u32], kept: &mut [u32], worst: &mut [u32], answer: &mut [u64],
) -> u64 {
    unsafe {
        nolkrada_choice(
            sheet.as_ptr(), sheet.len(), count, charge, frame.as_ptr(), frame.len(), kept.as_mut_ptr(), kept.len(),
            worst.as_mut_ptr(), worst.len(), answer.as_mut_ptr(), answer.len(),
        )
    }
}

pub fn trace_check(sheet: &[u32], count: u32, charge: u8, n: u32, list: Columns, answer: &mut [u64]) -> u64 {
    unsafe {
        nolkrada_trace_check(
            sheet.as_ptr(), sheet.len(), count, charge, n, list.task.as_ptr(), list.task.len(), list.tick.as_ptr(),
            list.tick.len(), list.cost.as_ptr(), list.cost.len(), answer.as_mut_ptr(), answer.len(),
        )
    }
}

pub fn ready(sheet: &[u32], count: u32, charge: u8, kept: &[u32], n: u32, list: Columns, ready: &mut [u64]) -> u64 {
    unsafe {
        nolkrada_ready(
            sheet.as_ptr(), sheet.len(), count, charge, kept.as_ptr(), kept.len(), n, list.task.as_ptr(), list.task.len(),
            list.tick.as_ptr(), list.tick.len(), list.cost.as_ptr(), list.cost.len(), ready.as_mut_ptr(), ready.len(),
        )
    }
}

pub fn run(
    sheet: &[u32], count: u32, charge: u8, frame: &[u32], kept: &[u32], n: u32, list: Columns, ready: &mut [u64],
    finish: &mut [u64],
) -> u64 {
    unsafe {
        nolkrada_run(
            sheet.as_ptr(), sheet.len(), count, charge, frame.as_ptr(), frame.len(), kept.as_ptr(), kept.len(), n,
            list.task.as_ptr(), list.task.len(), list.tick.as_ptr(), list.tick.len(), list.cost.as_ptr(), list.cost.len(),
            ready.as_mut_ptr(), ready.len(),
            finish.as_mut_ptr(), finish.len(),
        )
    }
}

pub fn jump(
    sheet: &[u32], count: u32, charge: u8, frame: &[u32], kept: &[u32], n: u32, list: Columns, ready: &mut [u64],
    finish: &mut [u64], answer: &mut [u64],
) -> u64 {
    unsafe {
        nolkrada_jump(
            sheet.as_ptr(), sheet.len(), count, charge, frame.as_ptr(), frame.len(), kept.as_ptr(), kept.len(), n,
            list.task.as_ptr(), list.task.len(), list.tick.as_ptr(), list.tick.len(), list.cost.as_ptr(), list.cost.len(),
            ready.as_mut_ptr(), ready.len(),
            finish.as_mut_ptr(), finish.len(), answer.as_mut_ptr(), answer.len(),
        )
    }
}

pub fn read(
    file: &[u8], sheet: &mut [u32], task: &mut [u32], tick: &mut [u64], cost: &mut [u32], answer: &mut [u64],
) -> u64 {
    unsafe {
        nolkrada_read(
            file.as_ptr(), file.len(), sheet.as_mut_ptr(), sheet.len(), task.as_mut_ptr(), task.len(), tick.as_mut_ptr(),
            tick.len(), cost.as_mut_ptr(), cost.len(), answer.as_mut_ptr(), answer.len(),
        )
    }
}

pub fn write(sheet: &[u32], count: u32, charge: u8, n: u32, list: Columns, out: &mut [u8], answer: &mut [u64]) -> u64 {
    unsafe {
        nolkrada_write(
            sheet.as_ptr(), sheet.len(), count, charge, n, list.task.as_ptr(), list.task.len(), list.tick.as_ptr(),
            list.tick.len(), list.cost.as_ptr(), list.cost.len(), out.as_mut_ptr(), out.len(), answer.as_mut_ptr(), answer.len(),
        )
    }
}

pub fn load(text: &[u8], sheet: &mut [u32], answer: &mut [u64]) -> u64 {
    unsafe {
        nolkrada_load(
            text.as_ptr(), text.len(), sheet.as_mut_ptr(), sheet.len(), answer.as_mut_ptr(), answer.len(),
        )
    }
}

pub fn monitor_open(sheet: &[u32], count: u32, charge: u8, window: &mut [u64]) -> u64 {
    unsafe { nolkrada_monitor_open(sheet.as_ptr(), sheet.len(), count, charge, window.as_mut_ptr(), window.len()) }
}

pub fn monitor_take(window: &mut [u64], task: u32, response: u64) -> u64 {
    unsafe { nolkrada_monitor_take(window.as_mut_ptr(), window.len(), task, response) }
}

pub fn monitor_show(window: &[u64], task: u32, answer: &mut [u64]) -> u64 {
    unsafe { nolkrada_monitor_show(window.as_ptr(), window.len(), task, answer.as_mut_ptr(), answer.len()) }
}

pub fn monitor_show_all(window: &[u64], jobs: &mut [u32], late: &mut [u32], largest: &mut [u64]) -> u64 {
    unsafe {
        nolkrada_monitor_show_all(
            window.as_ptr(), window.len(), jobs.as_mut_ptr(), jobs.len(), late.as_mut_ptr(), late.len(), largest.as_mut_ptr(),
            largest.len(),
        )
    }
}

pub fn board_open(sheet: &[u32], count: u32, charge: u8, frame: &[u32], board: &mut [u32]) -> u64 {
    unsafe {
        nolkrada_board_open(
            sheet.as_ptr(), sheet.len(), count, charge, frame.as_ptr(), frame.len(), board.as_mut_ptr(), board.len(),
        )
    }
}

pub fn board_ask(sheet: &[u32], count: u32, charge: u8, frame: &[u32], task: &[u32], place: u32, offer: &mut [u32]) -> u64 {
    unsafe {
        nolkrada_board_ask(
            sheet.as_ptr(), sheet.len(), count, charge, frame.as_ptr(), frame.len(), task.as_ptr(), task.len(), place,
            offer.as_mut_ptr(), offer.len(),
        )
    }
}

pub fn board_commit(
    board: &mut [u32], offer: &[u32], sheet: &[u32], count: u32, charge: u8, frame: &[u32], n: u32, list: Columns, at: u64,
) -> u64 {
    unsafe {
        nolkrada_board_commit(
            board.as_mut_ptr(), board.len(), offer.as_ptr(), offer.len(), sheet.as_ptr(), sheet.len(), count, charge,
            frame.as_ptr(), frame.len(), n, list.task.as_ptr(), list.task.len(), list.tick.as_ptr(), list.tick.len(),
            list.cost.as_ptr(), list.cost.len(), at,
        )
    }
}

pub fn small_trace(
    sheet: &[u32], count: u32, charge: u8, releases: u32, ticks: u32, position: u64, task: &mut [u32], tick: &mut [u64],
    cost: &mut [u32], answer: &mut [u64],
) -> u64 {
    unsafe {
        nolkrada_small_trace(
            sheet.as_ptr(), sheet.len(), count, charge, releases, ticks, position, task.as_mut_ptr(), task.len(), tick.as_mut_ptr(),
            tick.len(), cost.as_mut_ptr(), cost.len(), answer.as_mut_ptr(), answer.len(),
        )
    }
}

pub fn small_trace_count(sheet: &[u32], count: u32, charge: u8, releases: u32, ticks: u32, answer: &mut [u64]) -> u64 {
    unsafe {
        nolkrada_small_trace_count(
            sheet.as_ptr(), sheet.len(), count, charge, releases, ticks, answer.as_mut_ptr(), answer.len(),
        )
    }
}
