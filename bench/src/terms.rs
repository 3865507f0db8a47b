//! The limits of document 01, and a refusal with its place.

/// Most bytes of a text.
pub const TEXT_LIMIT: usize = 65_536;
/// Modes are numbered 1 to 8; mode n stands at place n - 1.
pub const MODES: usize = 8;
/// Actors are numbered 1 to 16; actor n stands at place n - 1.
pub const ACTORS: usize = 16;
/// Most channels of a mode.
pub const CHANNELS: usize = 32;
/// Most phases of an actor, and so the longest rate list.
pub const PHASES: usize = 8;
/// Processors are numbered 1 to 8.
pub const PROCESSORS: usize = 8;
/// Greatest wcet in ticks.
pub const WCET_LIMIT: u64 = 1_048_576;
/// Greatest rate of a phase.
pub const RATE_LIMIT: u64 = 255;
/// Greatest length of an iteration in ticks.
pub const ITERATION_LIMIT: u64 = 1_073_741_824;
/// Latest clock of a request.
pub const CLOCK_LIMIT: u64 = 1 << 62;

/// A refusal as its line prints it: the number, and the place that it names, 0 where none.
#[derive(Clone, Copy, Debug, Default, PartialEq, Eq)]
pub struct Refusal {
    pub number: u64,
    pub row: u64,
    pub mode: u64,
    pub actor: u64,
    pub processor: u64,
}

impl Refusal {
    /// A refusal that names no place (11 to 16).
    pub fn bare(number: u64) -> Refusal {
        Refusal {
            number,
            ..Refusal::default()
        }
    }

    /// A refusal that names a row (1 to 5; row 0 for the text's length).
    pub fn at_row(number: u64, row: u64) -> Refusal {
        Refusal {
            row,
            ..Refusal::bare(number)
        }
    }

    /// A refusal that names a mode by its number (6 to 8).
    pub fn of_mode(number: u64, mode: u64) -> Refusal {
        Refusal {
            mode,
            ..Refusal::bare(number)
        }
    }

    /// The five numbers in the order in which they are printed.
    pub fn numbers(&self) -> [u64; 5] {
        [self.number, self.row, self.mode, self.actor, self.processor]
    }
}

/// The places of a 16-bit set, lowest first.
pub fn places(mut set: u16) -> impl Iterator<Item = usize> {
    std::iter::from_fn(move || {
        if set == 0 {
            return None;
        }
        let place = set.trailing_zeros() as usize;
        set &= set - 1;
        Some(place)
    })
}
