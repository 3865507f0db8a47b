//! Writing a table as text: rows in a random order that the rows' checks allow, fields quoted now
//! and then.

use crate::random::Random;
use crate::table::{Channel, Mode, Table};
use crate::terms::{places, MODES};

/// How a text is written.
#[derive(Clone, Copy, Debug, Default)]
pub struct Style {
    /// Of 8 fields so many are quoted.
    pub quoted: u64,
    /// Whether the last record lacks its line end.
    pub open: bool,
}

/// A style, plain more often than not.
pub fn style(random: &mut Random) -> Style {
    Style {
        quoted: *random.pick(&[0, 0, 0, 0, 1, 4, 8]),
        open: random.one_in(6),
    }
}

/// A table's text with its rows mode by mode, nothing quoted.
pub fn plain(table: &Table) -> Vec<u8> {
    let mut text = Vec::new();
    for (place, mode) in table.modes.iter().enumerate() {
        for actor in places(mode.active) {
            let fields = actor_row(mode, place, actor);
            append(&mut text, &fields, |_| false);
        }
        for channel in mode.channels() {
            append(&mut text, &channel_row(mode, place, channel), |_| false);
        }
    }
    text
}

/// A table's text with the rows of its modes mixed, and each mode's actors in any order.
pub fn mixed(random: &mut Random, table: &Table, style: Style) -> Vec<u8> {
    let mut left: Vec<std::vec::IntoIter<[String; 6]>> = (0..MODES)
        .map(|place| rows(random, &table.modes[place], place).into_iter())
        .collect();
    let mut text = Vec::new();
    let in_turn = random.one_in(2);
    while let Some(first) = left.iter().position(|rows| rows.len() > 0) {
        let any = if in_turn { first } else { random.index(MODES) };
        if let Some(fields) = left[any].next() {
            append(&mut text, &fields, |_| random.below(8) < style.quoted);
        }
    }
    if style.open {
        text.truncate(text.len() - 2);
    }
    text
}

/// The rows of a mode: actors in a random order, each channel at any place behind its two ends.
fn rows(random: &mut Random, mode: &Mode, place: usize) -> Vec<[String; 6]> {
    let mut actors: Vec<usize> = places(mode.active).collect();
    random.shuffle(&mut actors);
    let early = random.one_in(2);
    let mut channels = mode.channels().iter().peekable();
    let mut listed = 0u16;
    let mut rows = Vec::new();
    for actor in actors {
        rows.push(actor_row(mode, place, actor));
        listed |= 1 << actor;
        while let Some(channel) =
            channels.next_if(|c| early && listed >> c.from & listed >> c.to & 1 == 1)
        {
            rows.push(channel_row(mode, place, channel));
        }
    }
    rows.extend(channels.map(|channel| channel_row(mode, place, channel)));
    rows
}

/// The fields of an actor's row.
fn actor_row(mode: &Mode, place: usize, actor: usize) -> [String; 6] {
    let row = &mode.actors[actor];
    let numbers = [
        place as u64 + 1,
        actor as u64 + 1,
        u64::from(row.phases),
        u64::from(row.wcet),
        u64::from(row.processor),
    ]
    .map(|number| number.to_string());
    let [mode, number, phases, wcet, processor] = numbers;
    ["actor".into(), mode, number, phases, wcet, processor]
}

/// The fields of a channel's row.
fn channel_row(mode: &Mode, place: usize, channel: &Channel) -> [String; 6] {
    let list = |rates: &[u8], actor: u8| {
        let phases = mode.actors[actor as usize].phases as usize;
        let rates: Vec<String> = rates[..phases].iter().map(u8::to_string).collect();
        rates.join(" ")
    };
    [
        "channel".into(),
        (place + 1).to_string(),
        (channel.from + 1).to_string(),
        (channel.to + 1).to_string(),
        list(&channel.production, channel.from),
        list(&channel.consumption, channel.to),
    ]
}

/// Appends a record, its fields quoted as told.
fn append(text: &mut Vec<u8>, fields: &[String; 6], mut quoted: impl FnMut(usize) -> bool) {
    for (index, field) in fields.iter().enumerate() {
        if index > 0 {
            text.push(b',');
        }
        let mark: &[u8] = if quoted(index) { b"\"" } else { b"" };
        text.extend_from_slice(mark);
        text.extend_from_slice(field.as_bytes());
        text.extend_from_slice(mark);
    }
    text.extend_from_slice(b"\r\n");
}
