//! The plan buffer of docs/PLAN.md: words that hold a table and all that is planned of it.

use crate::plan::{plan_into, Part, Plan};
use crate::table::{Actor, Channel, Mode, Table};
use crate::terms::{places, ACTORS, CHANNELS, MODES, PHASES, PROCESSORS, RATE_LIMIT, WCET_LIMIT};

/// Words of a plan, whatever the table.
pub const WORDS: usize = CHANGES + CHANGE * MODES * MODES;

/// Words of a mode: five, then the actors, then the channels.
pub const MODE: usize = CHANNELS_AT + CHANNEL * CHANNELS;
pub const ACTORS_AT: usize = 5;
pub const ACTOR: usize = 6;
pub const CHANNELS_AT: usize = ACTORS_AT + ACTOR * ACTORS;
pub const CHANNEL: usize = 4 + 2 * PHASES;
/// The changes stand behind all modes.
pub const CHANGES: usize = MODE * MODES;
pub const CHANGE: usize = 3;

/// Writes the words of a plan; what is not in use is 0.
pub fn write(table: &Table, plan: &Plan, words: &mut [u64]) {
    words.fill(0);
    let (modes, changes) = words.split_at_mut(CHANGES);
    for (place, block) in modes.chunks_exact_mut(MODE).enumerate() {
        if table.modes[place].active != 0 {
            write_mode(&table.modes[place], &plan.parts[place], block);
        }
    }
    let planned = plan.changes.iter().flatten();
    for (block, change) in changes.chunks_exact_mut(CHANGE).zip(planned) {
        block.copy_from_slice(&[change.overlap, change.offset, change.worst]);
    }
}

/// Writes the words of a listed mode into a block of 0.
fn write_mode(mode: &Mode, part: &Part, block: &mut [u64]) {
    let (pace, schedule) = (&part.pace, &part.schedule);
    block[0] = u64::from(mode.active);
    block[1] = u64::from(mode.count);
    block[2] = pace.iteration;
    block[3] = u64::from(pace.source);
    block[4] = u64::from(pace.sink);
    for place in places(mode.active) {
        let actor = &mode.actors[place];
        let at = ACTORS_AT + ACTOR * place;
        block[at..at + ACTOR].copy_from_slice(&[
            u64::from(actor.phases),
            u64::from(actor.wcet),
            u64::from(actor.processor),
            pace.firings[place],
            pace.periods[place],
            schedule.starts[place],
        ]);
    }
    let slots = block[CHANNELS_AT..].chunks_exact_mut(CHANNEL);
    for (at, (slot, channel)) in slots.zip(mode.channels()).enumerate() {
        slot[0] = u64::from(channel.from);
        slot[1] = u64::from(channel.to);
        let rates = channel.production.iter().chain(&channel.consumption);
        for (word, &rate) in slot[2..].iter_mut().zip(rates) {
            *word = u64::from(rate);
        }
        slot[2 + 2 * PHASES] = schedule.sizes[at];
        slot[3 + 2 * PHASES] = schedule.tokens[at];
    }
}

/// A table with its plan.
#[derive(Default)]
pub struct Recalled {
    pub table: Table,
    pub plan: Plan,
}

impl Recalled {
    /// Recalls the table and the plan that leave exactly these words, where there was nothing;
    /// none where no accepted table does.
    pub fn from(&mut self, words: &[u64]) -> Option<()> {
        let words: &[u64; WORDS] = words.try_into().ok()?;
        table_into(words, &mut self.table)?;
        plan_into(&self.table, &mut self.plan).ok()?;
        self.leaves(words).then_some(())
    }

    /// Whether exactly these words are left.
    fn leaves(&self, words: &[u64; WORDS]) -> bool {
        let (modes, changes) = words.split_at(CHANGES);
        let planned = self.table.modes.iter().zip(&self.plan.parts);
        let mut modes = planned.zip(modes.chunks_exact(MODE));
        let planned = self.plan.changes.iter().flatten();
        let mut changes = planned.zip(changes.chunks_exact(CHANGE));
        modes.all(|((mode, part), block)| holds(mode, part, block))
            && changes.all(|(c, block)| block == [c.overlap, c.offset, c.worst])
    }
}

/// Whether a block is what a mode leaves.
fn holds(mode: &Mode, part: &Part, block: &[u64]) -> bool {
    if mode.active == 0 {
        return block.iter().fold(0, |any, &word| any | word) == 0;
    }
    let mut again = [0; MODE];
    write_mode(mode, part, &mut again);
    again == *block
}

/// The first word of the change from the mode at a place to the mode at another.
pub fn change_at(from: usize, to: usize) -> usize {
    CHANGES + CHANGE * (MODES * from + to)
}

/// Whether the buffer is exactly what some accepted table leaves.
pub fn stored(words: &[u64]) -> bool {
    Recalled::default().from(words).is_some()
}

/// Reads the table that the words hold into an empty one; none where no rows give it.
fn table_into(words: &[u64; WORDS], table: &mut Table) -> Option<()> {
    let mut processors = [0; ACTORS];
    let mut any = false;
    for (mode, block) in table.modes.iter_mut().zip(words.chunks_exact(MODE)) {
        mode.active = u16::try_from(block[0]).ok()?;
        any |= mode.active != 0;
        for place in places(mode.active) {
            let actor = actor_of(&block[ACTORS_AT + ACTOR * place..])?;
            let earlier = std::mem::replace(&mut processors[place], actor.processor);
            if earlier != 0 && earlier != actor.processor {
                return None;
            }
            mode.actors[place] = actor;
        }
        mode.count = in_range(block[1], 0, CHANNELS)? as u8;
        for at in 0..mode.count as usize {
            mode.slots[at] = channel_of(mode, &block[CHANNELS_AT + CHANNEL * at..])?;
        }
    }
    any.then_some(())
}

/// A word as a number of a range.
fn in_range(word: u64, least: u64, most: usize) -> Option<u64> {
    (least..=most as u64).contains(&word).then_some(word)
}

/// An actor that a row can give.
fn actor_of(words: &[u64]) -> Option<Actor> {
    Some(Actor {
        phases: in_range(words[0], 1, PHASES)? as u8,
        wcet: in_range(words[1], 1, WCET_LIMIT as usize)? as u32,
        processor: in_range(words[2], 1, PROCESSORS)? as u8,
    })
}

/// A channel that a row can give after the rows of the mode's actors.
fn channel_of(mode: &Mode, words: &[u64]) -> Option<Channel> {
    let from = in_range(words[0], 0, ACTORS - 1)? as usize;
    let to = in_range(words[1], 0, ACTORS - 1)? as usize;
    if !mode.lists(from) || !mode.lists(to) {
        return None;
    }
    Some(Channel {
        from: from as u8,
        to: to as u8,
        production: rates_of(&words[2..2 + PHASES], mode.actors[from].phases)?,
        consumption: rates_of(&words[2 + PHASES..], mode.actors[to].phases)?,
    })
}

/// A rate list as long as its actor's phases, and not all zero.
fn rates_of(words: &[u64], phases: u8) -> Option<[u8; PHASES]> {
    let mut rates = [0; PHASES];
    for (rate, &word) in rates.iter_mut().zip(words).take(phases as usize) {
        *rate = in_range(word, 0, RATE_LIMIT as usize)? as u8;
    }
    (rates != [0; PHASES]).then_some(rates)
}
