//! Reading a table: RFC 4180 text to records, records to modes (refusals 1 to 5).

use crate::terms::{
    Refusal, ACTORS, CHANNELS, MODES, PHASES, PROCESSORS, RATE_LIMIT, TEXT_LIMIT, WCET_LIMIT,
};

/// A stage of a mode as its row gives it; all 0 where the mode does not list it.
#[derive(Clone, Copy, Debug, Default, PartialEq, Eq)]
pub struct Actor {
    pub phases: u8,
    pub processor: u8,
    pub wcet: u32,
}

/// A channel as its row gives it: its ends by place, its rates with 0 behind the last phase.
#[derive(Clone, Copy, Debug, Default, PartialEq, Eq)]
pub struct Channel {
    pub from: u8,
    pub to: u8,
    pub production: [u8; PHASES],
    pub consumption: [u8; PHASES],
}

/// One mode: the set of its active actors, the actors by place, the channels in the order of rows.
#[derive(Clone, Copy, Debug, Default, PartialEq, Eq)]
pub struct Mode {
    pub active: u16,
    pub actors: [Actor; ACTORS],
    pub count: u8,
    pub slots: [Channel; CHANNELS],
}

impl Mode {
    /// The channels that the mode has.
    pub fn channels(&self) -> &[Channel] {
        &self.slots[..self.count as usize]
    }

    /// Whether the actor at this place is listed in the mode.
    pub fn lists(&self, place: usize) -> bool {
        self.active >> place & 1 == 1
    }
}

/// What the rows of a text say, mode by mode; a mode is in the plan when it has a row.
#[derive(Clone, Debug, Default, PartialEq, Eq)]
pub struct Table {
    pub modes: [Mode; MODES],
}

/// Reads a whole text: its length first, then its rows in order, and within a row 1 to 5.
pub fn read(text: &[u8]) -> Result<Table, Refusal> {
    let mut table = Table::default();
    read_into(text, &mut table)?;
    Ok(table)
}

/// Reads a whole text into a table that says nothing yet.
pub fn read_into(text: &[u8], table: &mut Table) -> Result<(), Refusal> {
    if text.is_empty() || text.len() > TEXT_LIMIT {
        return Err(Refusal::at_row(1, 0));
    }
    let processors = [0; ACTORS];
    let mut reader = Reader { table, processors };
    let mut rest = text;
    let mut row = 0;
    while !rest.is_empty() {
        row += 1;
        let (fields, behind) = record(rest).ok_or(Refusal::at_row(1, row))?;
        reader
            .take(&fields)
            .map_err(|number| Refusal::at_row(number, row))?;
        rest = behind;
    }
    Ok(())
}

/// The six contents of a record.
type Fields<'a> = [&'a [u8]; 6];

/// Splits off the record with which the text begins, its line end included; none where it is not
/// RFC 4180 or has not six fields.
fn record(text: &[u8]) -> Option<(Fields<'_>, &[u8])> {
    let mut fields: Fields = [&[]; 6];
    let mut rest = text;
    for (index, slot) in fields.iter_mut().enumerate() {
        let (content, behind) = field(rest)?;
        *slot = content;
        rest = match behind {
            [b',', next @ ..] if index < 5 => next,
            [b'\r', b'\n', next @ ..] if index == 5 => next,
            [] if index == 5 => behind,
            _ => return None,
        };
    }
    Some((fields, rest))
}

/// Splits off the field with which the text begins, as it stands between its quotes if it has any.
/// A doubled quote stays doubled: no word, number or list has a quote, so either way it is none.
fn field(text: &[u8]) -> Option<(&[u8], &[u8])> {
    let Some(inside) = text.strip_prefix(b"\"") else {
        let length = text.iter().position(|&b| !is_textdata(b));
        return Some(text.split_at(length.unwrap_or(text.len())));
    };
    let mut at = 0;
    loop {
        match inside.get(at)? {
            b'"' if inside.get(at + 1) == Some(&b'"') => at += 2,
            b'"' => return Some((&inside[..at], &inside[at + 1..])),
            b'\r' | b'\n' | b' '..=b'~' => at += 1,
            _ => return None,
        }
    }
}

/// TEXTDATA of RFC 4180: printable ASCII but for the quote and the comma.
fn is_textdata(byte: u8) -> bool {
    matches!(byte, b' '..=b'~') && byte != b'"' && byte != b','
}

/// A plain decimal number from `least` to `most` (of at most 7 digits), without sign or leading 0.
fn number(field: &[u8], least: u64, most: u64) -> Option<u64> {
    if field.is_empty() || field.len() > 7 || (field[0] == b'0' && field.len() > 1) {
        return None;
    }
    let mut value = 0;
    for &byte in field {
        if !byte.is_ascii_digit() {
            return None;
        }
        value = value * 10 + u64::from(byte - b'0');
    }
    (least..=most).contains(&value).then_some(value)
}

/// The place of something numbered from 1 to `most`.
fn place(field: &[u8], most: usize) -> Option<usize> {
    number(field, 1, most as u64).map(|n| n as usize - 1)
}

/// A rate list as written: its first eight rates, and how many it has altogether.
struct Rates {
    first: [u8; PHASES],
    count: usize,
}

impl Rates {
    /// Reads a list to its end: rates parted by one space.
    fn read(field: &[u8]) -> Option<Rates> {
        let mut rates = Rates {
            first: [0; PHASES],
            count: 0,
        };
        for word in field.split(|&b| b == b' ') {
            let rate = number(word, 0, RATE_LIMIT)?;
            if let Some(slot) = rates.first.get_mut(rates.count) {
                *slot = rate as u8;
            }
            rates.count += 1;
        }
        Some(rates)
    }

    /// Whether the list suits an actor of so many phases (else refusal 5).
    fn suits(&self, phases: u8) -> bool {
        self.count == phases as usize && self.first.iter().any(|&rate| rate > 0)
    }
}

/// What the rows so far have said: the table, and each actor's processor in any mode (0: none yet).
struct Reader<'a> {
    table: &'a mut Table,
    processors: [u8; ACTORS],
}

impl Reader<'_> {
    /// Takes one more row, or says by which of 2 to 5 it is refused.
    fn take(&mut self, fields: &Fields) -> Result<(), u64> {
        match fields[0] {
            b"actor" => self.take_actor(fields),
            b"channel" => self.take_channel(fields),
            _ => Err(2),
        }
    }

    /// `actor,mode,actor,phases,wcet,processor`
    fn take_actor(&mut self, fields: &Fields) -> Result<(), u64> {
        let mode = place(fields[1], MODES).ok_or(2u64)?;
        let at = place(fields[2], ACTORS).ok_or(2u64)?;
        let actor = Actor {
            phases: number(fields[3], 1, PHASES as u64).ok_or(2u64)? as u8,
            wcet: number(fields[4], 1, WCET_LIMIT).ok_or(2u64)? as u32,
            processor: number(fields[5], 1, PROCESSORS as u64).ok_or(2u64)? as u8,
        };
        let mode = &mut self.table.modes[mode];
        if mode.lists(at) {
            return Err(3);
        }
        let earlier = self.processors[at];
        if earlier != 0 && earlier != actor.processor {
            return Err(4);
        }
        self.processors[at] = actor.processor;
        mode.active |= 1 << at;
        mode.actors[at] = actor;
        Ok(())
    }

    /// `channel,mode,from,to,production,consumption`
    fn take_channel(&mut self, fields: &Fields) -> Result<(), u64> {
        let mode = place(fields[1], MODES).ok_or(2u64)?;
        let from = place(fields[2], ACTORS).ok_or(2u64)?;
        let to = place(fields[3], ACTORS).ok_or(2u64)?;
        let production = Rates::read(fields[4]).ok_or(2u64)?;
        let consumption = Rates::read(fields[5]).ok_or(2u64)?;
        let mode = &mut self.table.modes[mode];
        let next = mode.count as usize;
        if !mode.lists(from) || !mode.lists(to) || next == CHANNELS {
            return Err(3);
        }
        if !production.suits(mode.actors[from].phases) || !consumption.suits(mode.actors[to].phases)
        {
            return Err(5);
        }
        mode.slots[next] = Channel {
            from: from as u8,
            to: to as u8,
            production: production.first,
            consumption: consumption.first,
        };
        mode.count += 1;
        Ok(())
    }
}
