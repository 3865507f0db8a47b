//! The rules of a change from one mode to another: overlap, offset, worst delay.

use crate::graph::Pace;
use crate::schedule::Schedule;
use crate::table::Mode;
use crate::terms::{places, ACTORS, PROCESSORS};

/// What is planned of an ordered pair of modes, in ticks.
#[derive(Clone, Copy, Debug, Default, PartialEq, Eq)]
pub struct Change {
    pub overlap: u64,
    pub offset: u64,
    pub worst: u64,
}

/// A mode as a change sees it.
#[derive(Clone, Copy, Debug)]
pub struct Running<'a> {
    active: u16,
    processors: [u8; ACTORS],
    /// The active actors of each processor.
    sharing: [u16; PROCESSORS + 1],
    starts: &'a [u64; ACTORS],
    iteration: u64,
    /// The sink's start.
    end: u64,
    /// Work of an iteration that an actor's processor has until this actor is left: its own and
    /// that of all actors which are left no sooner.
    leaving: [u64; ACTORS],
    /// Work of an iteration that an actor's processor has from this actor's start on: its own and
    /// that of all actors which start no later.
    joining: [u64; ACTORS],
}

impl<'a> Running<'a> {
    /// A mode that has been planned.
    pub fn of(mode: &Mode, pace: &Pace, schedule: &'a Schedule) -> Running<'a> {
        let mut running = Running {
            active: mode.active,
            processors: mode.actors.map(|actor| actor.processor),
            sharing: [0; PROCESSORS + 1],
            starts: &schedule.starts,
            iteration: pace.iteration,
            end: schedule.starts[pace.sink as usize],
            leaving: [0; ACTORS],
            joining: [0; ACTORS],
        };
        for actor in places(mode.active) {
            running.sharing[running.processors[actor] as usize] |= 1 << actor;
        }
        for actor in places(mode.active) {
            let own = schedule.starts[actor];
            for other in places(running.sharing[running.processors[actor] as usize]) {
                let work = u64::from(mode.actors[other].wcet) * pace.firings[other];
                let start = schedule.starts[other];
                running.leaving[actor] += if start >= own { work } else { 0 };
                running.joining[actor] += if start <= own { work } else { 0 };
            }
        }
        running
    }
}

/// The change from an old mode to a new one.
pub fn change(old: &Running, new: &Running) -> Change {
    let overlap = places(old.active & new.active)
        .map(|actor| old.starts[actor].saturating_sub(new.starts[actor]))
        .max()
        .unwrap_or(0);
    let offset = offset(old, new, overlap);
    Change {
        overlap,
        offset,
        worst: offset + new.end + old.iteration - 1,
    }
}

/// The least offset from the overlap on at which no processor is ever asked for more than 1.
///
/// What the old actors ask falls with the tick and what the new ones ask grows with it, so a
/// processor is overloaded at some tick exactly when there are an old and a new actor of it such
/// that the load before the old one is left and the load from the new one's start on are above 1
/// together, and the new one starts before the old one is left. Where two such actors ask for too
/// much, the new one waits for the old one. At the old sink's start all old actors are left, so
/// the offset is never later.
fn offset(old: &Running, new: &Running, overlap: u64) -> u64 {
    let mut offset = overlap;
    let whole = old.iteration * new.iteration;
    for leaver in places(old.active) {
        let left = old.starts[leaver];
        if left <= offset {
            continue;
        }
        let before = old.leaving[leaver] * new.iteration;
        for joiner in places(new.sharing[old.processors[leaver] as usize]) {
            let from = left.saturating_sub(new.starts[joiner]);
            if from > offset && before + new.joining[joiner] * old.iteration > whole {
                offset = from;
            }
        }
    }
    offset
}
