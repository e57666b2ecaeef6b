//! Processor time of calls.

const REPETITIONS: usize = 21;

/// The C library's `struct timespec` on 64-bit Linux.
#[repr(C)]
struct Timespec {
    seconds: i64,
    nanoseconds: i64,
}

extern "C" {
    fn clock_gettime(clock: i32, time: *mut Timespec) -> i32;
}

/// Processor time of this thread in microseconds.
fn processor_time() -> f64 {
    const THREAD_CPUTIME: i32 = 3;
    let mut t = Timespec { seconds: 0, nanoseconds: 0 };
    assert_eq!(unsafe { clock_gettime(THREAD_CPUTIME, &mut t) }, 0);
    t.seconds as f64 * 1e6 + t.nanoseconds as f64 / 1e3
}

/// Time of one call in microseconds.
fn once(call: &mut dyn FnMut(), calls: u32) -> f64 {
    let start = processor_time();
    for _ in 0..calls {
        call();
    }
    (processor_time() - start) / calls as f64
}

/// As many calls as take some milliseconds.
fn calls_for(call: &mut dyn FnMut()) -> u32 {
    let mut calls = 1;
    while once(call, calls) * (calls as f64) < 3_000.0 && calls < 1 << 20 {
        calls *= 2;
    }
    calls
}

/// Medians of the times of several calls, each timed in turn; of seven repetitions where a call takes over 0.1 s, and one call of
/// each where one takes over 1 s.
pub fn medians(all: &mut [&mut dyn FnMut()]) -> Vec<f64> {
    let single: Vec<f64> = all.iter_mut().map(|c| once(*c, 1)).collect();
    let longest = single.iter().copied().fold(0.0, f64::max);
    if longest > 1_000_000.0 {
        return single;
    }
    let calls: Vec<u32> = all.iter_mut().map(|c| calls_for(*c)).collect();
    let mut times: Vec<Vec<f64>> = vec![Vec::new(); all.len()];
    for _ in 0..if longest > 100_000.0 { 7 } else { REPETITIONS } {
        for (i, call) in all.iter_mut().enumerate() {
            times[i].push(once(*call, calls[i]));
        }
    }
    times
        .iter_mut()
        .map(|t| {
            t.sort_by(|a, b| a.partial_cmp(b).unwrap());
            t[t.len() / 2]
        })
        .collect()
}
