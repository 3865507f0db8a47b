//! Document 01's rules by walking: over counts, over ticks, over firings. No closed form stands
//! here; only modes whose iteration is at most `SHORT` ticks are taken.

use bench::graph::gcd;
use bench::table::{Mode, Table};
use bench::terms::{places, Refusal, ACTORS, MODES, PROCESSORS};

/// The longest iteration that is walked through.
pub const SHORT: u64 = 200;

/// What walking finds of a mode.
#[derive(Clone, Debug, Default)]
pub struct Walked {
    pub iteration: u64,
    pub firings: [u64; ACTORS],
    pub periods: [u64; ACTORS],
    pub starts: [u64; ACTORS],
    pub sink: usize,
    pub sizes: Vec<u64>,
    pub tokens: Vec<u64>,
}

/// A mode's refusal by 6 to 10, or its numbers; none where its iteration would be longer than
/// `SHORT`, if there is any.
pub fn walk(mode: &Mode, number: u64) -> Option<Result<Walked, Refusal>> {
    if has_cycle(mode) {
        return Some(Err(Refusal::of_mode(6, number)));
    }
    let sources =
        places(mode.active).filter(|&a| mode.channels().iter().all(|c| c.to as usize != a));
    let sinks =
        places(mode.active).filter(|&a| mode.channels().iter().all(|c| c.from as usize != a));
    let (sources, sinks): (Vec<usize>, Vec<usize>) = (sources.collect(), sinks.collect());
    if sources.len() != 1 || sinks.len() != 1 {
        return Some(Err(Refusal::of_mode(7, number)));
    }
    let counts = (1..=SHORT).find_map(|count| balanced(mode, sources[0], count))?;
    let mut walked = iteration(mode, &counts)?;
    walked.sink = sinks[0];
    if let Some(processor) = overloaded(mode, &walked) {
        let refusal = Refusal {
            processor,
            ..Refusal::of_mode(9, number)
        };
        return Some(Err(refusal));
    }
    settle_starts(mode, &mut walked);
    let end = walked.starts[walked.sink];
    if let Some(late) = places(mode.active).find(|&a| walked.starts[a] > end) {
        let refusal = Refusal {
            actor: late as u64 + 1,
            ..Refusal::of_mode(10, number)
        };
        return Some(Err(refusal));
    }
    settle_sizes(mode, &mut walked);
    Some(Ok(walked))
}

/// The lowest processor whose fractions wcet / T are above 1 together.
fn overloaded(mode: &Mode, walked: &Walked) -> Option<u64> {
    (1..=PROCESSORS as u64).find(|&processor| {
        let on_it =
            places(mode.active).filter(|&a| u64::from(mode.actors[a].processor) == processor);
        above_one(sum(
            on_it.map(|a| (u64::from(mode.actors[a].wcet), walked.periods[a]))
        ))
    })
}

/// Whether some actor comes back to itself along channels.
fn has_cycle(mode: &Mode) -> bool {
    places(mode.active).any(|start| {
        let mut reached = 0u16;
        for _ in 0..=ACTORS {
            for channel in mode.channels() {
                if channel.from as usize == start || reached >> channel.from & 1 == 1 {
                    reached |= 1 << channel.to;
                }
            }
        }
        reached >> start & 1 == 1
    })
}

/// The tokens of a cycle.
fn per_cycle(rates: &[u8]) -> u64 {
    rates.iter().map(|&r| u64::from(r)).sum()
}

/// The cycle counts that balance all channels and give the source this count, if they are whole.
fn balanced(mode: &Mode, source: usize, count: u64) -> Option<[u64; ACTORS]> {
    let mut counts = [0; ACTORS];
    counts[source] = count;
    for _ in 0..ACTORS {
        for channel in mode.channels() {
            let made = counts[channel.from as usize] * per_cycle(&channel.production);
            let taken = per_cycle(&channel.consumption);
            if !made.is_multiple_of(taken) {
                return None;
            }
            if counts[channel.to as usize] == 0 {
                counts[channel.to as usize] = made / taken;
            }
        }
    }
    let even = mode.channels().iter().all(|c| {
        counts[c.from as usize] * per_cycle(&c.production)
            == counts[c.to as usize] * per_cycle(&c.consumption)
    });
    even.then_some(counts)
}

/// Firings, L, H and periods of balanced counts.
fn iteration(mode: &Mode, counts: &[u64; ACTORS]) -> Option<Walked> {
    let mut walked = Walked::default();
    for actor in places(mode.active) {
        walked.firings[actor] = u64::from(mode.actors[actor].phases) * counts[actor];
    }
    let firings = walked.firings;
    let common = (1..=SHORT).find(|l| places(mode.active).all(|a| l % firings[a] == 0))?;
    let widest = places(mode.active)
        .map(|a| u64::from(mode.actors[a].wcet) * firings[a])
        .max()?;
    walked.iteration = (1..).map(|n| n * common).find(|&h| h >= widest)?;
    for actor in places(mode.active) {
        walked.periods[actor] = walked.iteration / firings[actor];
    }
    (walked.iteration <= SHORT).then_some(walked)
}

/// The sum of fractions, in lowest terms.
fn sum(fractions: impl Iterator<Item = (u64, u64)>) -> (u64, u64) {
    fractions.fold((0, 1), |(a, b), (c, d)| {
        let (over, under) = (a * d + c * b, b * d);
        let common = gcd(over, under);
        (over / common, under / common)
    })
}

/// Whether a fraction is above 1.
fn above_one((over, under): (u64, u64)) -> bool {
    over > under
}

/// The number of the firing that begins at a tick, if one does.
fn begins(walked: &Walked, actor: usize, tick: u64) -> Option<usize> {
    let since = tick.checked_sub(walked.starts[actor])?;
    (since % walked.periods[actor] == 0).then_some((since / walked.periods[actor]) as usize)
}

/// The number of the firing whose period ends at a tick, if one's does.
fn ends(walked: &Walked, actor: usize, tick: u64) -> Option<usize> {
    begins(walked, actor, tick).and_then(|next| next.checked_sub(1))
}

/// The rate of a firing: its actor's rates, used cyclically.
fn rate(mode: &Mode, actor: u8, rates: &[u8], firing: usize) -> i64 {
    i64::from(rates[firing % mode.actors[actor as usize].phases as usize])
}

/// Ticks to walk through: behind the latest start all repeats with the iteration.
fn horizon(walked: &Walked) -> u64 {
    let latest = walked.starts.iter().max().map_or(0, |&s| s);
    latest + 3 * walked.iteration
}

/// The actors of which some firing takes a token not yet there.
fn starving(mode: &Mode, walked: &Walked) -> u16 {
    let mut tokens = vec![0; mode.channels().len()];
    let mut starving = 0;
    for tick in 0..horizon(walked) {
        for (there, c) in tokens.iter_mut().zip(mode.channels()) {
            if let Some(firing) = ends(walked, c.from as usize, tick) {
                *there += rate(mode, c.from, &c.production, firing);
            }
            if let Some(firing) = begins(walked, c.to as usize, tick) {
                let taken = rate(mode, c.to, &c.consumption, firing);
                if taken > 0 && *there < taken {
                    starving |= 1 << c.to;
                }
                *there -= taken;
            }
        }
    }
    starving
}

/// The least starts. As long as an actor starves, no table of starts with which none does has it
/// start as early as it does now, the others starting no sooner: it starts a tick later.
fn settle_starts(mode: &Mode, walked: &mut Walked) {
    loop {
        let starving = starving(mode, walked);
        if starving == 0 {
            return;
        }
        for actor in places(starving) {
            walked.starts[actor] += 1;
        }
    }
}

/// The greatest number of places claimed at any tick; tokens of the firings of one iteration.
fn settle_sizes(mode: &Mode, walked: &mut Walked) {
    for c in mode.channels() {
        let (mut claimed, mut most) = (0, 0);
        for tick in 0..horizon(walked) {
            if let Some(firing) = ends(walked, c.to as usize, tick) {
                claimed -= rate(mode, c.to, &c.consumption, firing);
            }
            if let Some(firing) = begins(walked, c.from as usize, tick) {
                claimed += rate(mode, c.from, &c.production, firing);
            }
            most = most.max(claimed);
        }
        let firings = 0..walked.firings[c.from as usize] as usize;
        let tokens: i64 = firings.map(|f| rate(mode, c.from, &c.production, f)).sum();
        walked.sizes.push(most as u64);
        walked.tokens.push(tokens as u64);
    }
}

/// Overlap, offset and worst delay of a change, the offset tried tick by tick.
pub fn change(table: &Table, old: (usize, &Walked), new: (usize, &Walked)) -> [u64; 3] {
    let (from, to) = (&table.modes[old.0], &table.modes[new.0]);
    let (old, new) = (old.1, new.1);
    let both = places(from.active & to.active);
    let overlap = both
        .map(|a| old.starts[a].saturating_sub(new.starts[a]))
        .max()
        .unwrap_or(0);
    let end = old.starts[old.sink];
    let fits = |offset: u64| {
        (offset..=end).all(|tick| {
            (1..=PROCESSORS as u8).all(|processor| {
                let leaving = places(from.active)
                    .filter(|&a| from.actors[a].processor == processor && tick < old.starts[a])
                    .map(|a| (u64::from(from.actors[a].wcet), old.periods[a]));
                let joining = places(to.active)
                    .filter(|&a| {
                        to.actors[a].processor == processor && tick >= offset + new.starts[a]
                    })
                    .map(|a| (u64::from(to.actors[a].wcet), new.periods[a]));
                !above_one(sum(leaving.chain(joining)))
            })
        })
    };
    let offset = (overlap..=end)
        .find(|&d| fits(d))
        .expect("the old sink's start fits");
    [
        overlap,
        offset,
        offset + new.starts[new.sink] + old.iteration - 1,
    ]
}

/// The tick at which the old mode's iteration ends in which a request falls: F.
pub fn leaving_tick(started: u64, iteration: u64, clock: u64) -> u64 {
    let mut tick = started;
    while tick < clock {
        tick += iteration;
    }
    tick
}

/// Walks through a whole table; none where a mode cannot be walked before one that is refused.
pub fn walk_table(table: &Table) -> Option<Result<Vec<Option<Walked>>, Refusal>> {
    let mut all = vec![None; MODES];
    for (place, mode) in table.modes.iter().enumerate() {
        if mode.active != 0 {
            match walk(mode, place as u64 + 1)? {
                Ok(walked) => all[place] = Some(walked),
                Err(refusal) => return Some(Err(refusal)),
            }
        }
    }
    Some(Ok(all))
}
