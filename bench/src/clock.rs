//! Times measured side by side: the contestants take turns in many short rounds, and a ratio is the
//! median of the rounds' ratios, so that whatever else the machine does falls on all of them alike.
//! What is measured is the processor time of this thread, not the time on the wall.

use std::time::Duration;

/// Rounds in which all contestants take their turns.
const ROUNDS: usize = 201;
/// How long a turn lasts about.
const TURN: Duration = Duration::from_micros(1000);

/// A contestant: something that is called again and again.
pub type Contestant<'a> = Box<dyn FnMut() + 'a>;

/// The time of one call of each contestant in each round, in nanoseconds.
pub struct Rounds<const N: usize>(Vec<[f64; N]>);

impl<const N: usize> Rounds<N> {
    /// Lets the contestants take their turns.
    pub fn of(mut contestants: [Contestant; N]) -> Rounds<N> {
        let calls = contestants.each_mut().map(calls_of_a_turn);
        let mut round = || std::array::from_fn(|at| turn(&mut contestants[at], calls[at]));
        Rounds((0..ROUNDS).map(|_| round()).collect())
    }

    /// The median time of a contestant.
    pub fn time(&self, at: usize) -> f64 {
        median(self.0.iter().map(|round| round[at]))
    }

    /// The median ratio of one contestant's time to another's in the same round.
    pub fn ratio(&self, one: usize, other: usize) -> f64 {
        median(self.0.iter().map(|round| round[one] / round[other]))
    }
}

/// The median of all rounds.
fn median(values: impl Iterator<Item = f64>) -> f64 {
    let mut values: Vec<f64> = values.collect();
    values.sort_by(f64::total_cmp);
    values[values.len() / 2]
}

/// How many calls fill a turn, after a few to warm up.
fn calls_of_a_turn(contestant: &mut Contestant) -> u32 {
    turn(contestant, 3);
    let mut calls = 1;
    while turn(contestant, calls) * f64::from(calls) < TURN.as_nanos() as f64 {
        calls *= 2;
    }
    calls
}

/// The time of one call over a turn of so many calls.
fn turn(contestant: &mut Contestant, calls: u32) -> f64 {
    let begun = thread_time();
    for _ in 0..calls {
        contestant();
    }
    (thread_time() - begun).as_nanos() as f64 / f64::from(calls)
}

/// `struct timespec` of a 64-bit system.
#[repr(C)]
struct Timespec {
    seconds: i64,
    nanos: i64,
}

/// The clock that counts the processor time of the calling thread.
const CLOCK_THREAD_CPUTIME_ID: i32 = 3;

extern "C" {
    fn clock_gettime(clock: i32, time: *mut Timespec) -> i32;
}

/// The processor time that this thread has used.
fn thread_time() -> Duration {
    let mut time = Timespec {
        seconds: 0,
        nanos: 0,
    };
    // SAFETY: the C library writes one timespec, which lives through the call.
    unsafe { clock_gettime(CLOCK_THREAD_CPUTIME_ID, &mut time) };
    Duration::new(time.seconds as u64, time.nanos as u32)
}
