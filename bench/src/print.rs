//! The printed plan and the printed refusal, each line ended by CRLF.

use crate::plan::{listed, Part, Plan};
use crate::table::{Mode, Table};
use crate::terms::{places, Refusal, ACTORS, CHANNELS, ITERATION_LIMIT, MODES, PHASES, RATE_LIMIT};

/// Bytes of the buffer into which a plan is printed: no text of a plan is longer. A line has a word, five commas, five numbers and CRLF.
pub const PRINTED: usize = MODES
    * (ACTORS * (5 + 7 + MODE + ACTOR + 2 * PERIOD + START)
        + CHANNELS * (7 + 7 + MODE + 2 * ACTOR + SIZE + CARRIED)
        + (MODES - 1) * (6 + 7 + 2 * MODE + 2 * START + DELAY));

/// The digits of the greatest number of each kind, as docs/PLAN.md bounds them.
const MODE: usize = digits(MODES as u64);
const ACTOR: usize = digits(ACTORS as u64);
const PERIOD: usize = digits(ITERATION_LIMIT);
const START: usize = digits(MOST_START);
const DELAY: usize = digits(2 * MOST_START + ITERATION_LIMIT);
const CARRIED: usize = digits(ITERATION_LIMIT * RATE_LIMIT);
const SIZE: usize =
    digits((2 * MOST_START + 3 * ITERATION_LIMIT + 3) * (PHASES as u64 * RATE_LIMIT));
const MOST_START: u64 = (ACTORS as u64 - 1) * 2 * ITERATION_LIMIT;

const fn digits(n: u64) -> usize {
    n.ilog10() as usize + 1
}

/// Prints a plan and 0 behind it; returns the length of its text.
pub fn print(table: &Table, plan: &Plan, out: &mut [u8]) -> usize {
    let mut lines = Lines { out, length: 0 };
    for place in listed(table) {
        print_mode(
            &mut lines,
            &table.modes[place],
            &plan.parts[place],
            place as u64 + 1,
        );
    }
    for old in listed(table) {
        for new in listed(table).filter(|&new| new != old) {
            let change = &plan.changes[old][new];
            let fields = [
                old as u64 + 1,
                new as u64 + 1,
                change.overlap,
                change.offset,
                change.worst,
            ];
            lines.line(b"change", &fields);
        }
    }
    let Lines { out, length } = lines;
    out[length..].fill(0);
    length
}

/// Prints a mode: its actors in ascending order, then its channels in the order of the rows.
fn print_mode(lines: &mut Lines, mode: &Mode, part: &Part, number: u64) {
    for place in places(mode.active) {
        let fields = [
            number,
            place as u64 + 1,
            part.pace.firings[place],
            part.pace.periods[place],
            part.schedule.starts[place],
        ];
        lines.line(b"actor", &fields);
    }
    for (at, channel) in mode.channels().iter().enumerate() {
        let fields = [
            number,
            u64::from(channel.from) + 1,
            u64::from(channel.to) + 1,
            part.schedule.sizes[at],
            part.schedule.tokens[at],
        ];
        lines.line(b"channel", &fields);
    }
}

/// The line of a refusal.
pub fn print_refusal(refusal: &Refusal) -> Vec<u8> {
    let mut out = [0; 128];
    let mut lines = Lines {
        out: &mut out,
        length: 0,
    };
    lines.line(b"refused", &refusal.numbers());
    let length = lines.length;
    out[..length].to_vec()
}

/// Lines printed so far.
struct Lines<'a> {
    out: &'a mut [u8],
    length: usize,
}

impl Lines<'_> {
    /// Appends a line of a word and five numbers.
    fn line(&mut self, word: &[u8], fields: &[u64; 5]) {
        self.bytes(word);
        for &field in fields {
            self.bytes(b",");
            self.number(field);
        }
        self.bytes(b"\r\n");
    }

    /// Appends bytes.
    fn bytes(&mut self, bytes: &[u8]) {
        self.out[self.length..self.length + bytes.len()].copy_from_slice(bytes);
        self.length += bytes.len();
    }

    /// Appends a plain decimal number.
    fn number(&mut self, mut value: u64) {
        let mut digits = [0; 20];
        let mut first = digits.len();
        loop {
            first -= 1;
            digits[first] = b'0' + (value % 10) as u8;
            value /= 10;
            if value == 0 {
                break;
            }
        }
        self.bytes(&digits[first..]);
    }
}
