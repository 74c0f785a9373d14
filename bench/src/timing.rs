//! How long a call takes. Contestants take turns, so that a busy moment of the machine is none's alone.

use std::hint::black_box;
use std::time::Duration;

/// How long to measure.
#[derive(Clone, Copy)]
pub struct Effort {
    /// How often each contestant has its turn.
    pub rounds: u32,
    /// How long a turn is, at least.
    pub turn: Duration,
}

/// One contestant: a call, which answers how long it took of what is to be counted.
pub type Call<'a> = Box<dyn FnMut() -> Duration + 'a>;

/// A call of which everything counts but the dropping of what it answers.
pub fn call<'a, T>(mut run: impl FnMut() -> T + 'a) -> Call<'a> {
    Box::new(move || {
        let start = clock();
        let answer = black_box(run());
        let taken = clock() - start;
        drop(answer);
        taken
    })
}

/// The best time of each contestant, in nanoseconds for one call, without what the clock takes.
pub fn best(effort: Effort, contestants: &mut [Call]) -> Vec<f64> {
    let idle = turn(effort.turn / 10, &mut call(|| ()));
    let mut best = vec![f64::INFINITY; contestants.len()];
    for _ in 0..effort.rounds {
        for (contestant, best) in contestants.iter_mut().zip(&mut best) {
            *best = best.min(turn(effort.turn, contestant));
        }
    }
    best.iter().map(|best| best - idle).collect()
}

/// The best of the batches of one turn. A batch is long enough for the clock.
fn turn(length: Duration, contestant: &mut Call) -> f64 {
    const BATCH: Duration = Duration::from_millis(2);
    let once = contestant().max(Duration::from_nanos(1));
    let calls = (BATCH.as_nanos() / once.as_nanos()).max(1) as u32;
    let mut best = f64::INFINITY;
    let mut spent = Duration::ZERO;
    while spent < length {
        let batch: Duration = (0..calls).map(|_| contestant()).sum();
        best = best.min(batch.as_nanos() as f64 / f64::from(calls));
        spent += batch.max(Duration::from_nanos(1));
    }
    best
}

/// The processor's time that this thread has had: what others do meanwhile is not in it.
fn clock() -> Duration {
    #[repr(C)]
    struct Time {
        seconds: i64,
        nanoseconds: i64,
    }
    extern "C" {
        fn clock_gettime(clock: i32, time: *mut Time) -> i32;
    }
    const THREAD_CPUTIME: i32 = 3;
    let mut time = Time {
        seconds: 0,
        nanoseconds: 0,
    };
    // SAFETY: the C library, which std links on Linux, writes one such struct.
    let failed = unsafe { clock_gettime(THREAD_CPUTIME, &mut time) };
    assert_eq!(failed, 0, "Linux has a clock for each thread");
    Duration::new(time.seconds as u64, time.nanoseconds as u32)
}
