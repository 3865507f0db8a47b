//! The tables on which times are measured.

use crate::generate::{largest, sixteen, table, Fault, Kind, KINDS};
use crate::layout::WORDS;
use crate::plan::plan;
use crate::planner::{Independent, Planner};
use crate::random::Random;
use crate::table::{read, Table};
use crate::terms::TEXT_LIMIT;
use crate::text::plain;

/// The table of document 01's printed plan.
pub const PRINTED_EXAMPLE: &str = include_str!("../../examples/printed.csv");

/// The first table of a row of seeds that is accepted.
fn first_accepted(make: impl Fn(&mut Random) -> Table) -> Table {
    (0..)
        .map(|seed| make(&mut Random::new(seed)))
        .find(is_accepted)
        .unwrap_or_default()
}

/// Whether a table is accepted, rows and all.
fn is_accepted(table: &Table) -> bool {
    read(&plain(table)).is_ok_and(|table| plan(&table).is_ok())
}

/// A table of some modes with some actors each.
pub fn middle() -> Vec<u8> {
    let make = |random: &mut Random| loop {
        let table = table(random, Kind::Middle, Fault::None);
        let actors: u32 = table.modes.iter().map(|m| m.active.count_ones()).sum();
        if (24..32).contains(&actors) {
            return table;
        }
    };
    plain(&first_accepted(make))
}

/// The largest table: 8 modes with 16 actors, 32 channels and 8 phases each.
pub fn greatest() -> Vec<u8> {
    plain(&first_accepted(largest))
}

/// So many random accepted tables of all kinds.
pub fn accepted(count: usize) -> Vec<Vec<u8>> {
    let mut random = Random::new(7);
    let mut texts = Vec::new();
    while texts.len() < count {
        let kind = *random.pick(&KINDS);
        let table = table(&mut random, kind, Fault::None);
        if is_accepted(&table) {
            texts.push(plain(&table));
        }
    }
    texts
}

/// One graph of 8 modes twice: with iterations of 2^4 ticks; and with 64 tokens of the source where
/// there was one and all wcets 2^20 times as long, so that the others fire 64 times as often and
/// its iterations have 2^30.
pub fn short_and_long() -> (Vec<u8>, Vec<u8>) {
    let short = first_accepted(sixteen);
    let mut long = short.clone();
    for mode in &mut long.modes {
        mode.slots[0].production[0] = 64;
        for actor in &mut mode.actors {
            actor.wcet <<= 20;
        }
    }
    (plain(&short), plain(&long))
}

/// A text of the greatest length that is refused at its last row only (5): the rows of the largest
/// table but for its last, then a rate list that fills the text.
pub fn rows_and_a_list() -> Vec<u8> {
    let mut text = greatest();
    text.truncate(text.len() - 2);
    let last = text.iter().rposition(|&byte| byte == b'\n');
    text.truncate(last.map_or(0, |at| at + 1));
    text.extend_from_slice(b"channel,8,1,2,1,");
    while text.len() + 4 < TEXT_LIMIT {
        text.extend_from_slice(b"255 ");
    }
    text.resize(TEXT_LIMIT, b'1');
    text
}

/// A text of the greatest length whose first field fills it, quoted: refused at its only row (2).
pub fn one_field() -> Vec<u8> {
    let rest = b"\",1,1,1,1,1";
    let mut text = b"\"".to_vec();
    text.resize(TEXT_LIMIT - rest.len(), b'a');
    text.extend_from_slice(rest);
    text
}

/// A text with a last row that is refused (2), so that all before it is read and nothing planned.
pub fn with_a_bad_row(text: &[u8]) -> Vec<u8> {
    let mut text = text.to_vec();
    text.extend_from_slice(b"x,1,1,1,1,1\r\n");
    text
}

/// The words of an accepted text.
pub fn words_of(text: &[u8]) -> Vec<u64> {
    let mut words = vec![0; WORDS];
    Independent.plan(text, &mut words);
    words
}

#[cfg(test)]
mod tests {
    use super::*;
    use crate::layout::MODE;
    use crate::terms::{Refusal, ITERATION_LIMIT, MODES};

    #[test]
    fn samples_are_what_they_say() {
        let long = rows_and_a_list();
        assert_eq!(
            (long.len(), read(&long)),
            (TEXT_LIMIT, Err(Refusal::at_row(5, 384)))
        );
        let field = one_field();
        assert_eq!(
            (field.len(), read(&field)),
            (TEXT_LIMIT, Err(Refusal::at_row(2, 1)))
        );
        let (short, long) = short_and_long();
        for (text, iteration) in [(short, 16), (long, ITERATION_LIMIT)] {
            let words = words_of(&text);
            assert!((0..MODES).all(|mode| words[MODE * mode + 2] == iteration));
        }
        for text in [middle(), greatest()] {
            assert!(read(&text).is_ok_and(|table| plan(&table).is_ok()));
        }
        assert!(greatest().len() > 14_000);
    }
}
