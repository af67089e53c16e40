//! Timing: the contestants run in turn, so that a slow moment of the machine meets all of them, and what is counted is the
//! processor's time, so that the turns of other programs are not.

use std::hint::black_box;
use std::os::raw::{c_int, c_long};
use std::time::Duration;

pub struct Clock {
    /// How many times each contestant is timed.
    pub runs: usize,
}

/// A contestant times itself, so that it can get ready before. There is none where ISA-L is not linked.
pub type Contestant<'a> = Option<Box<dyn FnMut() -> Duration + 'a>>;

pub fn contestant<'a>(run: impl FnMut() -> Duration + 'a) -> Contestant<'a> {
    Some(Box::new(run))
}

impl Clock {
    /// The best time of each contestant. Each runs twice before the next has its turn: what another one leaves in the caches is
    /// gone by the second time. The stack stands at another place of a cache line in each run (docs/BENCHMARKS.md says why).
    pub fn best<const N: usize>(&self, mut contestants: [Contestant; N]) -> [Option<Duration>; N] {
        let mut best = [None; N];
        for run in 0..self.runs {
            for (contestant, best) in contestants.iter_mut().zip(&mut best) {
                for _ in 0..2 {
                    let taken = contestant.as_mut().map(|work| lower(run, work));
                    *best = best.map_or(taken, |best| taken.map(|taken| taken.min(best)));
                }
            }
        }
        best
    }
}

/// Does the work with the stack lower by 0, 16, 32 or 48 bytes, run after run.
fn lower(run: usize, work: &mut dyn FnMut() -> Duration) -> Duration {
    match run % 4 {
        0 => lower_by::<16>(work),
        1 => lower_by::<32>(work),
        2 => lower_by::<48>(work),
        _ => lower_by::<64>(work),
    }
}

#[inline(never)]
fn lower_by<const BYTES: usize>(work: &mut dyn FnMut() -> Duration) -> Duration {
    let room = [0u8; BYTES];
    black_box(&room);
    let taken = work();
    black_box(&room);
    taken
}

/// How long the work takes; what it gives counts as used.
pub fn timed<T>(work: impl FnOnce() -> T) -> Duration {
    let start = of_this_thread();
    black_box(work());
    of_this_thread() - start
}

/// How long the programs take that the work starts and waits for.
pub fn timed_programs(work: impl FnOnce()) -> Duration {
    let start = of_ended_programs();
    work();
    of_ended_programs() - start
}

/// Seconds and a part of one: nanoseconds or microseconds.
#[repr(C)]
#[derive(Clone, Copy, Default)]
struct Time {
    seconds: c_long,
    part: c_long,
}

#[repr(C)]
#[derive(Default)]
struct Usage {
    user: Time,
    system: Time,
    others: [c_long; 14],
}

extern "C" {
    fn clock_gettime(clock: c_int, time: *mut Time) -> c_int;
    fn getrusage(who: c_int, usage: *mut Usage) -> c_int;
}

/// The processor's time of this thread.
fn of_this_thread() -> Duration {
    const CLOCK_THREAD_CPUTIME_ID: c_int = 3;
    let mut time = Time::default();
    assert_eq!(
        unsafe { clock_gettime(CLOCK_THREAD_CPUTIME_ID, &mut time) },
        0
    );
    Duration::new(time.seconds as u64, time.part as u32)
}

/// The processor's time of the programs that were started here and have ended.
fn of_ended_programs() -> Duration {
    const RUSAGE_CHILDREN: c_int = -1;
    let mut usage = Usage::default();
    assert_eq!(unsafe { getrusage(RUSAGE_CHILDREN, &mut usage) }, 0);
    let all = [usage.user, usage.system];
    all.map(|time| Duration::new(time.seconds as u64, 1000 * time.part as u32))
        .iter()
        .sum()
}
