//! Starts, sizes and offsets of modes with iterations of any length, by walking through firings
//! one after the other instead of ticks. What is given are the periods; no closed form stands here.

use bench::graph::{gcd, Pace};
use bench::plan::{Part, Plan};
use bench::table::{Channel, Mode, Table};
use bench::terms::{places, ACTORS};

/// Most firings of one iteration that are walked through.
pub const MOST: u64 = 20_000;

/// The rate of a firing: its actor's rates, used cyclically.
fn rate(mode: &Mode, actor: u8, rates: &[u8], firing: u64) -> u64 {
    u64::from(rates[(firing % u64::from(mode.actors[actor as usize].phases)) as usize])
}

/// The least starts: each channel in turn puts its consumer off, until none does any more.
pub fn starts(mode: &Mode, pace: &Pace) -> [u64; ACTORS] {
    let mut starts = [0; ACTORS];
    loop {
        let before = starts;
        for c in mode.channels() {
            let asked = start_asked(mode, pace, c, starts[c.from as usize]);
            starts[c.to as usize] = starts[c.to as usize].max(asked);
        }
        if starts == before {
            return starts;
        }
    }
}

/// The start at which each firing of two iterations finds its tokens made and ended.
fn start_asked(mode: &Mode, pace: &Pace, c: &Channel, from: u64) -> u64 {
    let (producing, consuming) = (pace.periods[c.from as usize], pace.periods[c.to as usize]);
    let (mut made, mut taken, mut ended, mut asked) = (0, 0, 0, 0);
    for firing in 0..2 * pace.firings[c.to as usize] {
        let takes = rate(mode, c.to, &c.consumption, firing);
        taken += takes;
        while made < taken {
            made += rate(mode, c.from, &c.production, ended);
            ended += 1;
        }
        if takes > 0 {
            asked = asked.max((from + ended * producing).saturating_sub(firing * consuming));
        }
    }
    asked
}

/// The greatest number of places claimed when a firing of the producer begins.
pub fn size(mode: &Mode, pace: &Pace, c: &Channel, starts: &[u64; ACTORS]) -> u64 {
    let (from, to) = (starts[c.from as usize], starts[c.to as usize]);
    let (producing, consuming) = (pace.periods[c.from as usize], pace.periods[c.to as usize]);
    let (mut claimed, mut ended, mut most, mut firing) = (0, 0, 0, 0);
    while from + firing * producing < from.max(to) + 3 * pace.iteration {
        let tick = from + firing * producing;
        while to + (ended + 1) * consuming <= tick {
            claimed -= rate(mode, c.to, &c.consumption, ended);
            ended += 1;
        }
        claimed += rate(mode, c.from, &c.production, firing);
        most = most.max(claimed);
        firing += 1;
    }
    most
}

/// Whether with this offset no processor is asked for more than 1, at each tick from the offset to
/// the old sink's start at which the load may have grown: the first, and those of new starts.
fn fits(table: &Table, plan: &Plan, from: usize, to: usize, offset: u64) -> bool {
    let (old, new) = (&plan.parts[from], &plan.parts[to]);
    let end = old.end();
    let joins = places(table.modes[to].active).map(|a| offset + new.schedule.starts[a]);
    let mut ticks = std::iter::once(offset)
        .chain(joins)
        .filter(|&tick| tick <= end);
    ticks.all(|tick| {
        (1..=8).all(|processor| {
            let leaves = shares(&table.modes[from], old, processor, |s| tick < s);
            let joins = shares(&table.modes[to], new, processor, |s| tick >= offset + s);
            let (over, under) = sum(leaves.chain(joins));
            over <= under
        })
    })
}

/// The fractions wcet / T of a processor's actors whose start is as told.
fn shares<'a>(
    mode: &'a Mode,
    part: &'a Part,
    processor: u8,
    counts: impl Fn(u64) -> bool + 'a,
) -> impl Iterator<Item = (u64, u64)> + 'a {
    places(mode.active)
        .filter(move |&a| mode.actors[a].processor == processor && counts(part.schedule.starts[a]))
        .map(|a| (u64::from(mode.actors[a].wcet), part.pace.periods[a]))
}

/// The sum of fractions, in lowest terms: all denominators divide one of two iterations.
fn sum(fractions: impl Iterator<Item = (u64, u64)>) -> (u64, u64) {
    fractions.fold((0, 1), |(a, b), (c, d)| {
        let common = gcd(b, d);
        let (over, under) = (a * (d / common) + c * (b / common), b / common * d);
        let lowest = gcd(over, under);
        (over / lowest, under / lowest)
    })
}

/// Whether an offset is the least from the overlap on that fits. A later offset only takes load
/// away from every tick, so the offset before it tells for all earlier ones.
pub fn is_least(table: &Table, plan: &Plan, from: usize, to: usize) -> bool {
    let change = &plan.changes[from][to];
    let fits = |offset| fits(table, plan, from, to, offset);
    let in_range = (change.overlap..=plan.parts[from].end()).contains(&change.offset);
    in_range && fits(change.offset) && (change.offset == change.overlap || !fits(change.offset - 1))
}
