//! The four calls that the product and the second opinion both answer, in one form for both.

use crate::layout::{write, Recalled, WORDS};
use crate::machine::{start, Machine};
use crate::plan::{plan_into, Plan};
use crate::print::{print, PRINTED};
use crate::table::{read_into, Table};
use crate::terms::Refusal;

/// An answer as the C functions give it: whether accepted, and the refusal's five numbers, all 0
/// where accepted.
#[derive(Clone, Copy, Debug, PartialEq, Eq)]
pub struct Answer {
    pub accepted: bool,
    pub refusal: [u64; 5],
}

impl Answer {
    /// The answer that accepts.
    pub const ACCEPTED: Answer = Answer {
        accepted: true,
        refusal: [0; 5],
    };

    /// The answer that refuses.
    pub fn refused(refusal: Refusal) -> Answer {
        Answer {
            accepted: false,
            refusal: refusal.numbers(),
        }
    }
}

impl From<Result<(), Refusal>> for Answer {
    fn from(result: Result<(), Refusal>) -> Answer {
        result.map_or_else(Answer::refused, |()| Answer::ACCEPTED)
    }
}

/// A planner with its machine. Whatever is refused leaves all that was lent as it stood.
pub trait Planner {
    /// Plans a text into a buffer of words.
    fn plan(&self, text: &[u8], words: &mut [u64]) -> Answer;
    /// Starts a machine (mode, starting tick, tick at which its change ends).
    fn start(&self, words: &[u64], mode: u64, machine: &mut [u64; 3]) -> Answer;
    /// Asks a machine for a mode.
    fn request(
        &self,
        words: &[u64],
        machine: &mut [u64; 3],
        mode: u64,
        clock: u64,
        delay: &mut u64,
    ) -> Answer;
    /// Prints a plan into a buffer of bytes.
    fn print(&self, words: &[u64], out: &mut [u8], length: &mut usize) -> Answer;
}

/// The second opinion.
pub struct Independent;

impl Planner for Independent {
    fn plan(&self, text: &[u8], words: &mut [u64]) -> Answer {
        if words.len() != WORDS {
            return Answer::refused(Refusal::bare(15));
        }
        let mut table = Table::default();
        let mut planned = Plan::default();
        let answer = read_into(text, &mut table).and_then(|()| plan_into(&table, &mut planned));
        answer.map(|()| write(&table, &planned, words)).into()
    }

    fn start(&self, words: &[u64], mode: u64, machine: &mut [u64; 3]) -> Answer {
        let begun = start(words, mode);
        begun
            .map(|m| *machine = [m.mode, m.started, m.ended])
            .into()
    }

    fn request(
        &self,
        words: &[u64],
        machine: &mut [u64; 3],
        mode: u64,
        clock: u64,
        delay: &mut u64,
    ) -> Answer {
        let [running, started, ended] = *machine;
        let before = Machine {
            mode: running,
            started,
            ended,
        };
        let answered = before.request(words, mode, clock);
        answered
            .map(|(waited, after)| {
                *delay = waited;
                *machine = [after.mode, after.started, after.ended];
            })
            .into()
    }

    fn print(&self, words: &[u64], out: &mut [u8], length: &mut usize) -> Answer {
        let mut recalled = Recalled::default();
        if out.len() != PRINTED || recalled.from(words).is_none() {
            return Answer::refused(Refusal::bare(15));
        }
        *length = print(&recalled.table, &recalled.plan, out);
        Answer::ACCEPTED
    }
}
