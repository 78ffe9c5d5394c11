//! Times of calls by the thread's processor time, and of processes by theirs: what else the machine does counts little. Several works are
//! measured in turn, and of each the fastest round counts.

use std::time::Duration;

/// `struct timespec` of 64-bit Linux.
#[repr(C)]
struct Timespec {
    seconds: i64,
    nanoseconds: i64,
}

const CLOCK_THREAD_CPUTIME_ID: i32 = 3;

extern "C" {
    fn clock_gettime(clock: i32, time: *mut Timespec) -> i32;
}

/// The processor time that this thread has had.
fn processor_time() -> Duration {
    let mut time = Timespec {
        seconds: 0,
        nanoseconds: 0,
    };
    // The call writes one timespec, which is ours.
    unsafe { clock_gettime(CLOCK_THREAD_CPUTIME_ID, &mut time) };
    Duration::new(time.seconds as u64, time.nanoseconds as u32)
}

/// `struct timeval` of 64-bit Linux.
#[repr(C)]
#[derive(Clone, Copy, Default)]
struct Timeval {
    seconds: i64,
    microseconds: i64,
}

/// `struct rusage` of 64-bit Linux.
#[repr(C)]
#[derive(Default)]
struct Usage {
    user: Timeval,
    system: Timeval,
    others: [i64; 14],
}

const RUSAGE_CHILDREN: i32 = -1;

extern "C" {
    fn getrusage(who: i32, usage: *mut Usage) -> i32;
}

/// The processor time that the processes which this one started and saw end have had.
pub fn time_of_processes() -> Duration {
    let mut usage = Usage::default();
    // The call writes one rusage, which is ours.
    unsafe { getrusage(RUSAGE_CHILDREN, &mut usage) };
    let time =
        |value: Timeval| Duration::new(value.seconds as u64, 1_000 * value.microseconds as u32);
    time(usage.user) + time(usage.system)
}

/// The one in the middle, of an odd number of times.
pub fn median(mut times: Vec<f64>) -> f64 {
    times.sort_by(f64::total_cmp);
    times[times.len() / 2]
}

/// The value itself: the compiler can tell neither where it comes from nor that nobody uses it.
pub fn opaque<T>(value: T) -> T {
    // SAFETY: what is read takes the value's place, and the value itself is dropped by nobody.
    unsafe { std::ptr::read_volatile(&*std::mem::ManuallyDrop::new(value)) }
}

/// Work to be measured; it answers how many calls it made.
pub type Work<'a> = Box<dyn FnMut() -> u64 + 'a>;

/// Nanoseconds for each call of each work: the fastest of so many rounds, each of at least so long.
pub fn fastest(rounds: usize, least: Duration, works: &mut [Work]) -> Vec<f64> {
    let mut best = vec![f64::INFINITY; works.len()];
    for _ in 0..rounds {
        for (work, best) in works.iter_mut().zip(&mut best) {
            *best = best.min(round(least, work));
        }
    }
    best
}

/// Nanoseconds for each call, in one round. Asking the time takes as long as a short call, so the works between two askings double.
fn round(least: Duration, work: &mut Work) -> f64 {
    let (begin, mut calls, mut works) = (processor_time(), 0, 1);
    loop {
        calls += (0..works).map(|_| work()).sum::<u64>();
        let taken = processor_time() - begin;
        if taken >= least {
            return taken.as_secs_f64() * 1e9 / calls as f64;
        }
        works *= 2;
    }
}
