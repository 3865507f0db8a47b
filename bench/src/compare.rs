//! The differential test: two planners are given the same tables, buffers, machines and requests,
//! and every answer and every word, byte and number that they leave must be the same.

use crate::damage::{damage_text, damage_words};
use crate::generate::{any, largest, sixteen, table, Fault, KINDS};
use crate::layout::{change_at, CHANGE, CHANGES, MODE, WORDS};
use crate::planner::{Answer, Planner};
use crate::print::PRINTED;
use crate::random::Random;
use crate::terms::{CHANNELS, CLOCK_LIMIT, ITERATION_LIMIT, MODES};
use crate::text::{mixed, style};
use std::fmt::{Debug, Write};

/// A difference, printed whole.
#[derive(Debug)]
pub struct Difference(pub String);

/// Answers by number; 0 stands for accepted.
#[derive(Clone, Debug, Default)]
pub struct Tally {
    pub all: u64,
    pub by_number: [u64; 17],
}

impl Tally {
    /// Counts one more answer.
    fn add(&mut self, answer: &Answer) {
        self.all += 1;
        self.by_number[answer.refusal[0].min(16) as usize] += 1;
    }
}

/// How many of the accepted plans have what is seldom.
#[derive(Clone, Debug, Default)]
pub struct Coverage {
    /// A mode with 16 actors.
    pub full_actors: u64,
    /// A mode with 32 channels.
    pub full_channels: u64,
    /// All 8 modes.
    pub full_modes: u64,
    /// An iteration above 2^24 ticks.
    pub long: u64,
    /// An iteration of 2^30 ticks, the longest.
    pub longest: u64,
    /// A change with an overlap.
    pub overlaps: u64,
    /// A change with an offset above its overlap.
    pub offsets: u64,
}

impl Coverage {
    /// Counts one more plan.
    fn add(&mut self, words: &[u64; WORDS]) {
        let modes = || words[..CHANGES].chunks_exact(MODE);
        let changes = || words[CHANGES..].chunks_exact(CHANGE);
        self.full_actors += u64::from(modes().any(|m| m[0] == u64::from(u16::MAX)));
        self.full_channels += u64::from(modes().any(|m| m[1] == CHANNELS as u64));
        self.full_modes += u64::from(modes().all(|m| m[0] != 0));
        self.long += u64::from(is_long(words));
        self.longest += u64::from(modes().any(|m| m[2] == ITERATION_LIMIT));
        self.overlaps += u64::from(changes().any(|c| c[0] > 0));
        self.offsets += u64::from(changes().any(|c| c[1] > c[0]));
    }
}

/// Whether a plan has an iteration above 2^24 ticks.
fn is_long(words: &[u64; WORDS]) -> bool {
    let mut modes = words[..CHANGES].chunks_exact(MODE);
    modes.any(|mode| mode[2] > 1 << 24)
}

/// A plan that was accepted, with the text from which it came.
struct Kept {
    text: Vec<u8>,
    words: Box<[u64; WORDS]>,
}

/// Plans that are kept for requests.
const KEPT: usize = 600;

/// Two planners side by side.
pub struct Differ<A, B> {
    pub one: A,
    pub other: B,
    random: Random,
    kept: Vec<Kept>,
    pub tables: Tally,
    pub coverage: Coverage,
    pub prints: Tally,
    pub starts: Tally,
    pub requests: Tally,
    /// Requests that reached the worst delay of their change exactly, out of those made to.
    pub reached: u64,
}

impl<A: Planner, B: Planner> Differ<A, B> {
    /// Two planners, and the seed of all that they are given.
    pub fn new(one: A, other: B, seed: u64) -> Differ<A, B> {
        Differ {
            one,
            other,
            random: Random::new(seed),
            kept: Vec::new(),
            tables: Tally::default(),
            coverage: Coverage::default(),
            prints: Tally::default(),
            starts: Tally::default(),
            requests: Tally::default(),
            reached: 0,
        }
    }

    /// Compares so many tables.
    pub fn run_tables(&mut self, count: u64) -> Result<(), Difference> {
        while self.tables.all < count {
            let text = self.text();
            self.compare_plans(&text)?;
        }
        Ok(())
    }

    /// A text: of a random table, damaged now and then.
    fn text(&mut self) -> Vec<u8> {
        let random = &mut self.random;
        let table = match random.below(200) {
            0 => largest(random),
            1 => sixteen(random),
            2..=100 => any(random, &KINDS),
            _ => {
                let kind = *random.pick(&KINDS);
                table(random, kind, Fault::None)
            }
        };
        let style = style(random);
        let mut text = mixed(random, &table, style);
        if random.one_in(4) {
            damage_text(random, &mut text);
        }
        text
    }

    /// Plans a text with both, into buffers with the same random words.
    fn compare_plans(&mut self, text: &[u8]) -> Result<(), Difference> {
        let random = &mut self.random;
        let length = match random.below(100) {
            0 => *random.pick(&[0, 1, WORDS - 1, WORDS + 1, 2 * WORDS]),
            _ => WORDS,
        };
        let before: Vec<u64> = (0..length).map(|_| random.bits()).collect();
        let (mut first, mut second) = (before.clone(), before.clone());
        let one = self.one.plan(text, &mut first);
        let other = self.other.plan(text, &mut second);
        let told = || format!("plan into {length} words\n{}", shown(text));
        same("answer", &one, &other, told)?;
        same_list("words", &first, &second, told)?;
        if !one.accepted {
            same_list("words of a refused text", &first, &before, told)?;
        }
        self.tables.add(&one);
        if let (true, Ok(words)) = (one.accepted, first.try_into()) {
            self.coverage.add(&words);
            self.keep(text, words);
            if self.random.one_in(3) {
                self.compare_prints(text, &words)?;
            }
        }
        Ok(())
    }

    /// Keeps a plan for requests: most that have several modes and are small or have a long
    /// iteration, a few of the others.
    fn keep(&mut self, text: &[u8], words: [u64; WORDS]) {
        let random = &mut self.random;
        let modes = (0..MODES).filter(|mode| words[MODE * mode] != 0).count();
        let seldom = modes == 1 || text.len() > 1200 && !is_long(&words);
        if seldom && !random.one_in(30) {
            return;
        }
        let kept = Kept {
            text: text.to_vec(),
            words: Box::new(words),
        };
        if self.kept.len() < KEPT {
            self.kept.push(kept);
        } else {
            self.kept[random.index(KEPT)] = kept;
        }
    }

    /// How many plans are kept for requests, and how many of them have a long iteration.
    pub fn kept(&self) -> (usize, usize) {
        let long = self.kept.iter().filter(|kept| is_long(&kept.words));
        (self.kept.len(), long.count())
    }

    /// Prints words with both, into buffers with the same random bytes.
    fn compare_prints(&mut self, text: &[u8], words: &[u64]) -> Result<(), Difference> {
        let random = &mut self.random;
        let length = match random.below(20) {
            0 => *random.pick(&[0, 1, PRINTED - 1, PRINTED + 1]),
            _ => PRINTED,
        };
        let before: Vec<u8> = (0..length).map(|_| random.bits() as u8).collect();
        let (mut first, mut second) = (before.clone(), before.clone());
        let unset = random.index(usize::MAX);
        let (mut one_length, mut other_length) = (unset, unset);
        let one = self.one.print(words, &mut first, &mut one_length);
        let other = self.other.print(words, &mut second, &mut other_length);
        let told = || format!("print into {length} bytes\n{}", shown(text));
        same("answer", &one, &other, told)?;
        same("length", &one_length, &other_length, told)?;
        same_list("bytes", &first, &second, told)?;
        if !one.accepted {
            same("length of a refused print", &one_length, &unset, told)?;
            same_list("bytes of a refused print", &first, &before, told)?;
        }
        self.prints.add(&one);
        Ok(())
    }

    /// Compares so many requests on the plans that were kept, after those that reach the worst
    /// delay of each change.
    pub fn run_requests(&mut self, count: u64) -> Result<(), Difference> {
        for at in 0..self.kept.len() {
            self.reach_worst(at)?;
        }
        while self.requests.all < count && !self.kept.is_empty() {
            let at = self.random.index(self.kept.len());
            self.request_list(at)?;
        }
        Ok(())
    }

    /// For each change of a plan, one request to a fresh machine that must reach the worst delay:
    /// it comes a tick after an iteration has begun.
    fn reach_worst(&mut self, at: usize) -> Result<(), Difference> {
        let words = self.kept[at].words.clone();
        for from in (0..MODES).filter(|from| words[MODE * from] != 0) {
            for to in (0..MODES).filter(|&to| to != from && words[MODE * to] != 0) {
                let mut machine = [0; 3];
                self.start(at, &words[..], from as u64 + 1, &mut machine)?;
                let iteration = words[MODE * from + 2];
                let clock = machine[2].next_multiple_of(iteration) + 1;
                let request = (to as u64 + 1, clock);
                let delay = self.request(at, &words[..], &mut machine, request)?;
                let told = || format!("worst of {from} to {to}\n{}", shown(&self.kept[at].text));
                let worst = Some(words[change_at(from, to) + 2]);
                same("delay", &delay, &worst, told)?;
                self.reached += 1;
            }
        }
        Ok(())
    }

    /// A list of requests on a kept plan, the machine carried along; plan and machine are damaged
    /// now and then.
    fn request_list(&mut self, at: usize) -> Result<(), Difference> {
        let mut machine = [0; 3].map(|_: u64| self.random.bits());
        let words = self.kept[at].words.clone();
        let mode = self.some_mode(&words, 0);
        self.start(at, &words[..], mode, &mut machine)?;
        if machine[1] != 0 && !self.random.one_in(10) {
            self.start(at, &words[..], 0, &mut machine)?;
        }
        for _ in 0..self.random.from_to(1, 30) {
            let request = self.some_request(&words, &machine);
            match self.random.below(16) {
                0 => self.request_of_damaged_plan(at, &words, machine, request)?,
                1 => {
                    let mut damaged = self.damaged_machine(machine);
                    self.request(at, &words[..], &mut damaged, request)?;
                }
                _ => {
                    let before = machine[0];
                    let delay = self.request(at, &words[..], &mut machine, request)?;
                    self.check_worst(at, before, machine[0], delay)?;
                }
            }
        }
        Ok(())
    }

    /// The delay of an accepted request is at most the worst delay of its change.
    fn check_worst(
        &self,
        at: usize,
        from: u64,
        to: u64,
        delay: Option<u64>,
    ) -> Result<(), Difference> {
        let Some(delay) = delay else { return Ok(()) };
        let kept = &self.kept[at];
        let worst = kept.words[change_at(from as usize - 1, to as usize - 1) + 2];
        let told = || format!("{from} to {to} in {delay}\n{}", shown(&kept.text));
        same("delay above the worst", &(delay > worst), &false, told)
    }

    /// A mode to start in or to ask for: mostly one of the plan, and not the one running.
    fn some_mode(&mut self, words: &[u64; WORDS], running: u64) -> u64 {
        let random = &mut self.random;
        let listed: Vec<u64> = (1..=MODES as u64)
            .filter(|&mode| mode != running && words[MODE * (mode as usize - 1)] != 0)
            .collect();
        if listed.is_empty() || random.one_in(6) {
            return match random.below(12) {
                0 => random.bits(),
                1 => u64::MAX,
                2 => (1 << 32) + random.below(9),
                _ => random.below(10),
            };
        }
        *random.pick(&listed)
    }

    /// A request: its mode, and a clock near a tick at which an answer may turn.
    fn some_request(&mut self, words: &[u64; WORDS], machine: &[u64; 3]) -> (u64, u64) {
        let [running, started, ended] = *machine;
        let mode = self.some_mode(words, running);
        let random = &mut self.random;
        let at = (running.wrapping_sub(1) as usize).min(MODES - 1);
        let iteration = words[MODE * at + 2].max(1);
        let rounds = ended.saturating_sub(started) / iteration + random.below(3);
        let clock = match random.below(40) {
            0 => random.bits(),
            1 => CLOCK_LIMIT - random.below(3),
            2 => CLOCK_LIMIT + random.below(3),
            3 => u64::MAX - random.below(2),
            4 => random.below(ended.saturating_add(2)),
            5..=14 => ended.saturating_add(random.below(3)).saturating_sub(1),
            15..=28 => {
                let turn = iteration.saturating_mul(rounds).saturating_add(started);
                turn.saturating_add(random.below(3)).saturating_sub(1)
            }
            _ => ended.saturating_add(random.below(2 * iteration)),
        };
        (mode, clock)
    }

    /// A machine with some of its numbers changed.
    fn damaged_machine(&mut self, machine: [u64; 3]) -> [u64; 3] {
        let random = &mut self.random;
        let mut damaged = machine;
        match random.below(5) {
            0 => damaged = damaged.map(|_| random.bits()),
            1 => damaged[0] = random.below(11),
            2 => damaged[1] = damaged[2].saturating_add(random.below(2)),
            3 => damaged[2] = damaged[1].saturating_sub(random.below(2)),
            _ => damaged[random.index(3)] = random.bits(),
        }
        damaged
    }

    /// Starts, asks and prints on a damaged plan.
    fn request_of_damaged_plan(
        &mut self,
        at: usize,
        words: &[u64; WORDS],
        mut machine: [u64; 3],
        request: (u64, u64),
    ) -> Result<(), Difference> {
        let mut damaged = words.to_vec();
        if self.random.one_in(12) {
            let length = *self.random.pick(&[0, 1, WORDS - 1, WORDS + 1, 2 * WORDS]);
            damaged.resize(length, 0);
        } else if let Ok(whole) = (&mut damaged[..]).try_into() {
            let other = self.random.index(self.kept.len());
            damage_words(&mut self.random, whole, &self.kept[other].words);
        }
        self.request(at, &damaged, &mut machine, request)?;
        match self.random.below(8) {
            0 => self.start(at, &damaged, request.0, &mut machine),
            1 => {
                let text = self.kept[at].text.clone();
                self.compare_prints(&text, &damaged)
            }
            _ => Ok(()),
        }
    }

    /// Starts a machine with both.
    fn start(
        &mut self,
        at: usize,
        words: &[u64],
        mode: u64,
        machine: &mut [u64; 3],
    ) -> Result<(), Difference> {
        let before = *machine;
        let mut second = before;
        let one = self.one.start(words, mode, machine);
        let other = self.other.start(words, mode, &mut second);
        let told = || {
            let kept = &self.kept[at];
            let damage = damage_shown(words, &kept.words[..]);
            format!("start in {mode}{damage}\n{}", shown(&kept.text))
        };
        same("answer", &one, &other, told)?;
        same("machine", machine, &second, told)?;
        if !one.accepted {
            same("machine of a refused start", machine, &before, told)?;
        }
        self.starts.add(&one);
        Ok(())
    }

    /// Asks with both; the delay if the request is accepted.
    fn request(
        &mut self,
        at: usize,
        words: &[u64],
        machine: &mut [u64; 3],
        (mode, clock): (u64, u64),
    ) -> Result<Option<u64>, Difference> {
        let before = *machine;
        let unset = self.random.bits();
        let (mut second, mut first_delay, mut second_delay) = (before, unset, unset);
        let one = self
            .one
            .request(words, machine, mode, clock, &mut first_delay);
        let other = self
            .other
            .request(words, &mut second, mode, clock, &mut second_delay);
        let told = || {
            let kept = &self.kept[at];
            let damage = damage_shown(words, &kept.words[..]);
            format!(
                "machine {before:?}, {mode}@{clock}{damage}\n{}",
                shown(&kept.text)
            )
        };
        same("answer", &one, &other, told)?;
        same("machine", machine, &second, told)?;
        same("delay", &first_delay, &second_delay, told)?;
        if !one.accepted {
            same("machine of a refused request", machine, &before, told)?;
            same("delay of a refused request", &first_delay, &unset, told)?;
        }
        self.requests.add(&one);
        Ok(one.accepted.then_some(first_delay))
    }
}

/// A text as it can be shown: its bytes escaped, a line for each of its lines.
fn shown(text: &[u8]) -> String {
    let lines = text.split_inclusive(|&byte| byte == b'\n');
    let lines: Vec<String> = lines.map(|l| l.escape_ascii().to_string()).collect();
    format!("the text ({} bytes):\n{}", text.len(), lines.join("\n"))
}

/// How damaged words differ from those of the plan.
fn damage_shown(words: &[u64], plan: &[u64]) -> String {
    if words == plan {
        return String::new();
    }
    let mut shown = format!("\non {} words, damaged:", words.len());
    places_shown(&mut shown, words, plan);
    shown
}

/// Lists the first places at which two lists differ.
fn places_shown<T: Debug + PartialEq>(shown: &mut String, one: &[T], other: &[T]) {
    let places = one.iter().zip(other).enumerate();
    for (at, (one, other)) in places.filter(|(_, (one, other))| one != other).take(40) {
        let _ = write!(shown, "\n  at {at}: {one:?} and {other:?}");
    }
}

/// Two values must be the same.
fn same<T: Debug + PartialEq>(
    what: &str,
    one: &T,
    other: &T,
    told: impl Fn() -> String,
) -> Result<(), Difference> {
    if one == other {
        return Ok(());
    }
    let shown = format!("{what}: {one:?} and {other:?}\n{}", told());
    Err(Difference(shown))
}

/// Two lists must be the same.
fn same_list<T: Debug + PartialEq>(
    what: &str,
    one: &[T],
    other: &[T],
    told: impl Fn() -> String,
) -> Result<(), Difference> {
    if one == other {
        return Ok(());
    }
    let mut shown = format!("{what}: {} and {} long", one.len(), other.len());
    places_shown(&mut shown, one, other);
    let _ = write!(shown, "\n{}", told());
    Err(Difference(shown))
}
