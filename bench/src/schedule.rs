//! Starts and buffer sizes of a mode (refusal 10).
//!
//! Both are greatest values over all firings of a channel's two ends, for ever. Let a and b be the
//! tokens of a producer's and of a consumer's cycle, g their greatest common divisor, and the
//! stride be the ticks in which g tokens pass (H over the tokens of an iteration, times g: whole,
//! since H is a multiple of both cycle counts). Say that the producer is in its j-th cycle at phase
//! s and the consumer in its i-th at phase f. Both cycles last as long as their tokens at the pace
//! of the channel, so all that j and i do is to shift the two against each other by ja - ib tokens,
//! a multiple of g, and as many strides. Every multiple of g is such a shift of some j and i (and
//! of others as late as one likes). So it is enough to look at the pairs of phases, each with the
//! one shift that asks for most.

use crate::graph::{cycle_sum, gcd, Pace};
use crate::table::{Channel, Mode};
use crate::terms::{places, ACTORS, CHANNELS, PHASES};

/// Starts, sizes and carried tokens of a mode. All 0 at idle places.
#[derive(Clone, Debug, Default)]
pub struct Schedule {
    /// Tick at which an actor's firing 0 begins.
    pub starts: [u64; ACTORS],
    /// Places of a channel's buffer.
    pub sizes: [u64; CHANNELS],
    /// Tokens that a channel carries in an iteration.
    pub tokens: [u64; CHANNELS],
}

/// Schedules a mode that refusals 6 to 9 let pass, or names the place of the lowest actor that
/// starts later than the sink (refusal 10).
pub fn schedule(mode: &Mode, pace: &Pace) -> Result<Schedule, usize> {
    let mut schedule = Schedule::default();
    let channels = mode.channels();
    let size = mode.active.count_ones() as usize;
    let mut flows = [Flow::default(); CHANNELS];
    for (flow, channel) in flows.iter_mut().zip(channels) {
        *flow = Flow::of(channel, mode, pace);
    }
    for &actor in &pace.order[..size] {
        let feeding = channels.iter().zip(&flows).filter(|(c, _)| c.to == actor);
        schedule.starts[actor as usize] = feeding
            .map(|(c, flow)| flow.least_start(schedule.starts[c.from as usize]))
            .max()
            .unwrap_or(0);
    }
    let end = schedule.starts[pace.sink as usize];
    if let Some(late) = places(mode.active).find(|&a| schedule.starts[a] > end) {
        return Err(late);
    }
    for (at, (channel, flow)) in channels.iter().zip(&flows).enumerate() {
        let from = schedule.starts[channel.from as usize];
        let to = schedule.starts[channel.to as usize];
        schedule.sizes[at] = flow.size(from, to);
        schedule.tokens[at] = flow.tokens;
    }
    Ok(schedule)
}

/// A channel between two actors that run at their periods.
#[derive(Clone, Copy, Default)]
struct Flow<'a> {
    production: &'a [u8],
    consumption: &'a [u8],
    /// Period of the producer, in ticks.
    producing: i64,
    /// Period of the consumer, in ticks.
    consuming: i64,
    /// Greatest common divisor of both cycle sums.
    share: i64,
    /// Ticks in which that many tokens pass.
    stride: i64,
    /// Tokens of an iteration.
    tokens: u64,
}

impl<'a> Flow<'a> {
    /// The channel as it runs in its mode.
    fn of(channel: &'a Channel, mode: &Mode, pace: &Pace) -> Flow<'a> {
        let (from, to) = (channel.from as usize, channel.to as usize);
        let production = &channel.production[..mode.actors[from].phases as usize];
        let consumption = &channel.consumption[..mode.actors[to].phases as usize];
        let share = gcd(cycle_sum(production), cycle_sum(consumption));
        let tokens = pace.cycles[from] * cycle_sum(production);
        Flow {
            production,
            consumption,
            producing: pace.periods[from] as i64,
            consuming: pace.periods[to] as i64,
            share: share as i64,
            stride: (pace.iteration / (tokens / share)) as i64,
            tokens,
        }
    }

    /// The least start of the consumer at which no firing of it takes a token not yet there, the
    /// producer starting at `from`.
    ///
    /// A consumer's phase f that takes something needs its cycle's tokens up to and with its own.
    /// The last of these comes from the producer's phase s at the latest when the shift is the
    /// greatest at which the tokens before s are too few for it. It is there at the end of phase s,
    /// and the consumer is f periods into its cycle. (Where the shift is so small that a later
    /// phase makes the token, that phase's own pair asks for more.)
    fn least_start(&self, from: u64) -> u64 {
        let mut latest = -(from as i64);
        let mut makers = [Part::default(); PHASES];
        let mut made = 0;
        for (s, &rate) in self.production.iter().enumerate() {
            makers[s] = Part::of(made, self.share, (s as i64 + 1) * self.producing);
            made += i64::from(rate);
        }
        let mut taken = 0;
        for (f, &rate) in self.consumption.iter().enumerate() {
            taken += i64::from(rate);
            if rate == 0 {
                continue;
            }
            let need = Part::of(taken - 1, self.share, f as i64 * self.consuming);
            for maker in &makers[..self.production.len()] {
                let shift = need.whole_less(maker);
                latest = latest.max(maker.beside - need.beside + shift * self.stride);
            }
        }
        (from as i64 + latest) as u64
    }

    /// The greatest number of places claimed at any tick, for ever, of a consumer that is fed.
    ///
    /// When phase s of the producer begins, its cycle's tokens up to and with its own are claimed.
    /// All tokens before a phase f of the consumer may have been given back, but no more, as long
    /// as the end of f is still to come; so the greatest shift at which it is counts. (The phase
    /// that is really the next to end is one of those, and it asks for the most. Ahead of the first
    /// iterations nothing has been given back, which is no less than the pairs reckon with.)
    fn size(&self, from: u64, to: u64) -> u64 {
        let lead = to as i64 - from as i64;
        let mut claims = [Part::default(); PHASES];
        let mut made = 0;
        for (s, &rate) in self.production.iter().enumerate() {
            made += i64::from(rate);
            claims[s] = Part::of(s as i64 * self.producing, self.stride, made);
        }
        let (mut taken, mut most) = (0, 0);
        for (f, &rate) in self.consumption.iter().enumerate() {
            let last = lead + (f as i64 + 1) * self.consuming - 1;
            let open = Part::of(last, self.stride, taken);
            for claim in &claims[..self.production.len()] {
                let shift = open.whole_less(claim);
                most = most.max(claim.beside - open.beside + shift * self.share);
            }
            taken += i64::from(rate);
        }
        most as u64
    }
}

/// A count parted into whole units and a rest, and what goes with it.
#[derive(Clone, Copy, Default)]
struct Part {
    whole: i64,
    rest: i64,
    beside: i64,
}

impl Part {
    /// Parts a count by a unit.
    fn of(count: i64, unit: i64, beside: i64) -> Part {
        Part {
            whole: count.div_euclid(unit),
            rest: count.rem_euclid(unit),
            beside,
        }
    }

    /// How many whole units this count less the other one has, rounded down.
    fn whole_less(&self, other: &Part) -> i64 {
        self.whole - other.whole - i64::from(self.rest < other.rest)
    }
}
