//! Calls timed in turn, so that what slows the machine down for a while slows all of
//! them down.

use std::hint::black_box;

/// Many short batches in each pass: on a busy machine some of them run
/// undisturbed.
const ROUNDS: usize = 60;
/// A batch takes at least this many nanoseconds, far more than reading the
/// clock.
const BATCH: i64 = 300_000;

/// How many rounds are passed over before one counts. The clock of a virtual
/// machine may jump, and then a round seems to take no time.
const PASSED_OVER: usize = 5;

/// Nanoseconds for each of the calls, the best of all rounds but a few.
pub fn best_of_each<A>(calls: &mut [impl FnMut() -> A]) -> Vec<f64> {
    let repeats: Vec<u32> = calls.iter_mut().map(repeats).collect();
    let mut times = vec![vec![]; calls.len()];
    for _ in 0..ROUNDS {
        for ((call, &repeats), times) in calls.iter_mut().zip(&repeats).zip(&mut times) {
            times.push(nanoseconds(call, repeats));
        }
    }
    times.into_iter().map(nearly_best).collect()
}

fn nearly_best(mut rounds: Vec<f64>) -> f64 {
    rounds.sort_by(f64::total_cmp);
    rounds[PASSED_OVER]
}

/// How many calls make a batch.
fn repeats<A>(call: &mut impl FnMut() -> A) -> u32 {
    let mut repeats = 1;
    while batch(call, repeats) < BATCH {
        repeats *= 2;
    }
    repeats
}

fn nanoseconds<A>(call: &mut impl FnMut() -> A, repeats: u32) -> f64 {
    batch(call, repeats) as f64 / f64::from(repeats)
}

fn batch<A>(call: &mut impl FnMut() -> A, repeats: u32) -> i64 {
    let begin = processor_time();
    for _ in 0..repeats {
        black_box(call());
    }
    processor_time() - begin
}

/// C's `timespec`, and the number of the clock that counts only while this
/// thread is on a processor; both as on Linux for x86-64, the only machine
/// that the archive is for.
#[repr(C)]
struct Timespec {
    seconds: i64,
    nanoseconds: i64,
}

const CLOCK_THREAD_CPUTIME_ID: i32 = 3;

extern "C" {
    fn clock_gettime(clock: i32, time: *mut Timespec) -> i32;
}

/// Nanoseconds that this thread has been on a processor. The wall clock would
/// count other programs' time too.
fn processor_time() -> i64 {
    let mut time = Timespec { seconds: 0, nanoseconds: 0 };
    // SAFETY: the pointer is valid for a write of the struct.
    let status = unsafe { clock_gettime(CLOCK_THREAD_CPUTIME_ID, &mut time) };
    assert_eq!(status, 0, "no clock for the time of a thread");
    1_000_000_000 * time.seconds + time.nanoseconds
}
