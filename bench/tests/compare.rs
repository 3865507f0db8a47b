//! The differential test itself: it finds nothing between two that are the same, and it finds a
//! planner that is wrong in one place.

use bench::compare::Differ;
use bench::planner::{Answer, Independent, Planner};
use bench::report::{counts, run};

#[test]
fn the_same_planner_has_no_difference() {
    let mut differ = Differ::new(Independent, Independent, 3);
    run(&mut differ, 20_000, 100_000).expect("no difference");
    println!("{}", counts(&differ));
    let tables = &differ.tables.by_number;
    assert!(tables[0] > 5_000);
    assert!((1..=10).all(|number| tables[number] > 100), "{tables:?}");
    let requests = &differ.requests.by_number;
    assert!(requests[0] > 20_000);
    assert!(
        (11..=16).all(|number| requests[number] > 500),
        "{requests:?}"
    );
    assert!(differ.reached > 500);
}

/// What is wrong of a planner that is else the second opinion.
#[derive(Clone, Copy, Debug)]
enum Wrong {
    Word,
    Refusal,
    RefusedWord,
    Delay,
    Machine,
    Byte,
    Start,
}

impl Planner for Wrong {
    fn plan(&self, text: &[u8], words: &mut [u64]) -> Answer {
        let mut answer = Independent.plan(text, words);
        match self {
            Wrong::Word if answer.accepted => words[119] += u64::from(words[119] == 13),
            Wrong::Refusal if answer.refusal[0] == 9 => answer.refusal[4] = 1,
            Wrong::RefusedWord if answer.refusal[0] == 10 => words[0] = 0,
            _ => {}
        }
        answer
    }

    fn start(&self, words: &[u64], mode: u64, machine: &mut [u64; 3]) -> Answer {
        let answer = Independent.start(words, mode, machine);
        if let (Wrong::Start, 0, true) = (self, mode, answer.accepted) {
            machine[2] += 1;
        }
        answer
    }

    fn request(
        &self,
        words: &[u64],
        machine: &mut [u64; 3],
        mode: u64,
        clock: u64,
        delay: &mut u64,
    ) -> Answer {
        let answer = Independent.request(words, machine, mode, clock, delay);
        match self {
            Wrong::Delay if answer.accepted && clock == 1 << 62 => *delay += 1,
            Wrong::Machine if answer.refusal[0] == 14 => machine[2] -= 1,
            _ => {}
        }
        answer
    }

    fn print(&self, words: &[u64], out: &mut [u8], length: &mut usize) -> Answer {
        let answer = Independent.print(words, out, length);
        if let (Wrong::Byte, true) = (self, answer.accepted) {
            out[*length] = 1;
        }
        answer
    }
}

#[test]
fn a_wrong_planner_is_found() {
    let all = [
        Wrong::Word,
        Wrong::Refusal,
        Wrong::RefusedWord,
        Wrong::Delay,
        Wrong::Machine,
        Wrong::Byte,
        Wrong::Start,
    ];
    for wrong in all {
        let mut differ = Differ::new(wrong, Independent, 4);
        let found = run(&mut differ, 20_000, 100_000);
        assert!(found.is_err(), "{wrong:?} is not found");
    }
}
