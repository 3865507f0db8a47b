//! The plan of a whole table: its modes by number (6 to 10 within each), then its changes.

use crate::change::{change, Change, Running};
use crate::graph::{judge, Pace, Unfit};
use crate::schedule::{schedule, Schedule};
use crate::table::{Mode, Table};
use crate::terms::{Refusal, MODES};

/// What is planned of a mode.
#[derive(Clone, Debug, Default)]
pub struct Part {
    pub pace: Pace,
    pub schedule: Schedule,
}

impl Part {
    /// The sink's start: the tick at which the mode's start-up has ended.
    pub fn end(&self) -> u64 {
        self.schedule.starts[self.pace.sink as usize]
    }
}

/// A table's plan. What is not in the table is all 0.
#[derive(Clone, Debug, Default)]
pub struct Plan {
    pub parts: [Part; MODES],
    /// The change from a mode to another, by place.
    pub changes: [[Change; MODES]; MODES],
}

/// The places of the modes that are in the plan.
pub fn listed(table: &Table) -> impl Iterator<Item = usize> + Clone + '_ {
    (0..MODES).filter(|&place| table.modes[place].active != 0)
}

/// Plans a table that the rows let pass.
pub fn plan(table: &Table) -> Result<Plan, Refusal> {
    let mut planned = Plan::default();
    plan_into(table, &mut planned)?;
    Ok(planned)
}

/// Plans a table into a plan of nothing.
pub fn plan_into(table: &Table, plan: &mut Plan) -> Result<(), Refusal> {
    for place in listed(table) {
        plan.parts[place] = part(&table.modes[place], place as u64 + 1)?;
    }
    let mut running = [None; MODES];
    for place in listed(table) {
        let part = &plan.parts[place];
        let mode = &table.modes[place];
        running[place] = Some(Running::of(mode, &part.pace, &part.schedule));
    }
    for (from, row) in plan.changes.iter_mut().enumerate() {
        for (to, slot) in row.iter_mut().enumerate() {
            if let (true, Some(old), Some(new)) = (from != to, &running[from], &running[to]) {
                *slot = change(old, new);
            }
        }
    }
    Ok(())
}

/// Plans one mode.
fn part(mode: &Mode, number: u64) -> Result<Part, Refusal> {
    let pace = judge(mode).map_err(|unfit| match unfit {
        Unfit::Cyclic => Refusal::of_mode(6, number),
        Unfit::Ends => Refusal::of_mode(7, number),
        Unfit::Unbalanced => Refusal::of_mode(8, number),
        Unfit::Overloaded(processor) => Refusal {
            processor,
            ..Refusal::of_mode(9, number)
        },
    })?;
    let schedule = schedule(mode, &pace).map_err(|late| Refusal {
        actor: late as u64 + 1,
        ..Refusal::of_mode(10, number)
    })?;
    Ok(Part { pace, schedule })
}
