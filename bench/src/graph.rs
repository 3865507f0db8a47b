//! The rules of a mode's graph: order, ends, balance, iteration and load (refusals 6 to 9).

use crate::table::{Channel, Mode};
use crate::terms::{places, ACTORS, ITERATION_LIMIT, PROCESSORS};

/// What the graph alone settles of a mode that refusals 6 to 9 let pass. All 0 at idle places.
#[derive(Clone, Debug, Default)]
pub struct Pace {
    /// The active actors, each behind all that feed it.
    pub order: [u8; ACTORS],
    pub source: u8,
    pub sink: u8,
    /// Length of an iteration in ticks.
    pub iteration: u64,
    /// Cycles of an actor in an iteration.
    pub cycles: [u64; ACTORS],
    /// Firings of an actor in an iteration: phases times cycles.
    pub firings: [u64; ACTORS],
    /// Ticks from one firing of an actor to its next.
    pub periods: [u64; ACTORS],
}

/// Why the graph of a mode is refused.
#[derive(Clone, Copy, Debug, PartialEq, Eq)]
pub enum Unfit {
    /// Refusal 6.
    Cyclic,
    /// Refusal 7.
    Ends,
    /// Refusal 8.
    Unbalanced,
    /// Refusal 9, with the lowest processor that is asked for too much.
    Overloaded(u64),
}

/// Greatest common divisor.
pub fn gcd(a: u64, b: u64) -> u64 {
    let (mut a, mut b) = (a, b);
    while b != 0 {
        (a, b) = (b, a % b);
    }
    a
}

/// Tokens of a whole cycle.
pub fn cycle_sum(rates: &[u8]) -> u64 {
    rates.iter().map(|&rate| u64::from(rate)).sum()
}

/// Judges the graph of a listed mode.
pub fn judge(mode: &Mode) -> Result<Pace, Unfit> {
    let mut pace = Pace {
        order: order(mode).ok_or(Unfit::Cyclic)?,
        ..Pace::default()
    };
    (pace.source, pace.sink) = ends(mode).ok_or(Unfit::Ends)?;
    pace.cycles = balance(mode, &pace).ok_or(Unfit::Unbalanced)?;
    settle_iteration(mode, &mut pace).ok_or(Unfit::Unbalanced)?;
    match overloaded(mode, &pace) {
        Some(processor) => Err(Unfit::Overloaded(processor)),
        None => Ok(pace),
    }
}

/// Puts the actors in an order in which each comes behind all that feed it; none on a cycle.
fn order(mode: &Mode) -> Option<[u8; ACTORS]> {
    let mut feeders = [0u16; ACTORS];
    for channel in mode.channels() {
        feeders[channel.to as usize] |= 1 << channel.from;
    }
    let mut order = [0; ACTORS];
    let mut waiting = mode.active;
    let mut next = 0;
    while waiting != 0 {
        let mut ready = 0u16;
        for actor in places(waiting) {
            if feeders[actor] & waiting == 0 {
                ready |= 1 << actor;
                order[next] = actor as u8;
                next += 1;
            }
        }
        if ready == 0 {
            return None;
        }
        waiting &= !ready;
    }
    Some(order)
}

/// The one actor without incoming channels and the one without outgoing channels.
fn ends(mode: &Mode) -> Option<(u8, u8)> {
    let (mut sources, mut sinks) = (mode.active, mode.active);
    for channel in mode.channels() {
        sources &= !(1 << channel.to);
        sinks &= !(1 << channel.from);
    }
    let alone = sources.count_ones() == 1 && sinks.count_ones() == 1;
    alone.then(|| (sources.trailing_zeros() as u8, sinks.trailing_zeros() as u8))
}

/// The smallest cycle counts that balance every channel; none where there are no such counts, or
/// where one of them is above the iteration's limit (H is no less than any count).
///
/// Every actor is reached from the source, so its count over the source's is one fraction. Below
/// the least common multiple of all denominators the counts are not whole, and with it they have
/// no common factor.
fn balance(mode: &Mode, pace: &Pace) -> Option<[u64; ACTORS]> {
    let mut ratio = [(0u64, 1u64); ACTORS];
    ratio[pace.source as usize] = (1, 1);
    let size = mode.active.count_ones() as usize;
    let mut common = 1;
    for &actor in &pace.order[1..size] {
        let mut feeding = mode.channels().iter().filter(|c| c.to == actor);
        let first = feeding.next().map(|c| carried(c, &ratio))?;
        if feeding.any(|c| carried(c, &ratio) != first) {
            return None;
        }
        ratio[actor as usize] = first;
        if first.0 > ITERATION_LIMIT || first.1 > ITERATION_LIMIT {
            return None;
        }
        common = within(common / gcd(common, first.1) * first.1)?;
    }
    let mut cycles = [0; ACTORS];
    for actor in places(mode.active) {
        let (over, under) = ratio[actor];
        cycles[actor] = within(common / under * over)?;
    }
    Some(cycles)
}

/// The consumer's count over the source's, in lowest terms, as this channel balances it.
fn carried(channel: &Channel, ratio: &[(u64, u64); ACTORS]) -> (u64, u64) {
    let (over, under) = ratio[channel.from as usize];
    let over = over * cycle_sum(&channel.production);
    let under = under * cycle_sum(&channel.consumption);
    let common = gcd(over, under);
    (over / common, under / common)
}

/// The count itself where it is within the iteration's limit.
fn within(count: u64) -> Option<u64> {
    (count <= ITERATION_LIMIT).then_some(count)
}

/// Firings, iteration length and periods; none where the iteration is too long. Since W, L and
/// with them H grow with the counts, the smallest counts have the smallest H.
fn settle_iteration(mode: &Mode, pace: &mut Pace) -> Option<()> {
    let (mut widest, mut common) = (0, 1);
    for actor in places(mode.active) {
        let firings = within(u64::from(mode.actors[actor].phases) * pace.cycles[actor])?;
        pace.firings[actor] = firings;
        widest = widest.max(u64::from(mode.actors[actor].wcet) * firings);
        common = within(common / gcd(common, firings) * firings)?;
    }
    pace.iteration = within(common * widest.div_ceil(common))?;
    for actor in places(mode.active) {
        pace.periods[actor] = pace.iteration / pace.firings[actor];
    }
    Some(())
}

/// The lowest processor with a load above 1. With T = H / q the sum of wcet / T is above 1 exactly
/// when the sum of wcet times q is above H.
fn overloaded(mode: &Mode, pace: &Pace) -> Option<u64> {
    let mut work = [0; PROCESSORS + 1];
    for place in places(mode.active) {
        let actor = &mode.actors[place];
        work[actor.processor as usize] += u64::from(actor.wcet) * pace.firings[place];
    }
    let lowest = work.iter().position(|&asked| asked > pace.iteration)?;
    Some(lowest as u64)
}
