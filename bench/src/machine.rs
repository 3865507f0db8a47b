//! A running machine: where it starts, and its answers to mode requests (refusals 11 to 16).

use crate::layout::Recalled;
use crate::plan::listed;
use crate::terms::{Refusal, CLOCK_LIMIT, MODES};

/// A machine: its mode by number, the mode's starting tick, the tick at which its change ends.
#[derive(Clone, Copy, Debug, PartialEq, Eq)]
pub struct Machine {
    pub mode: u64,
    pub started: u64,
    pub ended: u64,
}

/// Starts a machine at tick 0 in a listed mode; mode 0 stands for the lowest listed one.
pub fn start(words: &[u64], mode: u64) -> Result<Machine, Refusal> {
    let mut recalled = Recalled::default();
    recalled.from(words).ok_or(Refusal::bare(15))?;
    let Recalled { table, plan } = &recalled;
    let place = match mode {
        0 => listed(table).next(),
        _ => listed(table).find(|&place| place as u64 + 1 == mode),
    };
    let place = place.ok_or(Refusal::bare(11))?;
    Ok(Machine {
        mode: place as u64 + 1,
        started: 0,
        ended: plan.parts[place].end(),
    })
}

impl Machine {
    /// Answers the request for a mode at a clock: the delay, and the machine after it.
    pub fn request(self, words: &[u64], mode: u64, clock: u64) -> Result<(u64, Machine), Refusal> {
        let mut recalled = Recalled::default();
        recalled.from(words).ok_or(Refusal::bare(15))?;
        let Recalled { table, plan } = &recalled;
        let is_listed = |number: u64| {
            (1..=MODES as u64).contains(&number) && table.modes[number as usize - 1].active != 0
        };
        let refused_by = match () {
            _ if !is_listed(self.mode) || self.started > self.ended => Some(16),
            _ if !is_listed(mode) => Some(11),
            _ if mode == self.mode => Some(12),
            _ if clock > CLOCK_LIMIT => Some(13),
            _ if clock < self.ended => Some(14),
            _ => None,
        };
        if let Some(number) = refused_by {
            return Err(Refusal::bare(number));
        }
        let (from, to) = (self.mode as usize - 1, mode as usize - 1);
        let (old, new) = (&plan.parts[from], &plan.parts[to]);
        let iteration = old.pace.iteration;
        let left = self.started + iteration * (clock - self.started).div_ceil(iteration);
        let started = left + plan.changes[from][to].offset;
        let filled = started + new.end();
        let next = Machine {
            mode,
            started,
            ended: filled.max(left + old.end()),
        };
        Ok((filled - clock, next))
    }
}
