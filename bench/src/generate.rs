//! Random tables: graphs that are mostly balanced, with every kind of fault now and then.
//!
//! A mode is made the other way round: first the cycle counts, then rates that they balance, then
//! wcets that mostly fit the processors.

use crate::graph::{cycle_sum, gcd};
use crate::random::Random;
use crate::table::{Actor, Channel, Mode, Table};
use crate::terms::{
    places, ACTORS, CHANNELS, ITERATION_LIMIT, MODES, PHASES, PROCESSORS, RATE_LIMIT, WCET_LIMIT,
};

/// How large the tables of a kind are, and how long their iterations.
#[derive(Clone, Copy, Debug, PartialEq, Eq)]
pub enum Kind {
    /// One or two modes of a few actors, iterations of some ticks.
    Tiny,
    /// Up to three modes of up to six actors.
    Small,
    /// Up to five modes of up to ten actors.
    Middle,
    /// Up to eight modes of up to 16 actors, 32 channels and 8 phases.
    Large,
    /// Iterations up to the limit of 1,073,741,824 ticks and a little above it.
    Limit,
    /// Rates that multiply along the way, so that counts grow towards the limit.
    Steep,
}

/// All kinds, each as often as it should come up.
pub const KINDS: [Kind; 12] = [
    Kind::Tiny,
    Kind::Tiny,
    Kind::Tiny,
    Kind::Small,
    Kind::Small,
    Kind::Small,
    Kind::Middle,
    Kind::Middle,
    Kind::Large,
    Kind::Limit,
    Kind::Limit,
    Kind::Steep,
];

/// What is made wrong on purpose in one mode.
#[derive(Clone, Copy, Debug, PartialEq, Eq)]
pub enum Fault {
    None,
    /// A channel back to an earlier actor, or to the actor itself.
    Cycle,
    /// An actor that nothing feeds, or that feeds nothing.
    Ends,
    /// One rate changed.
    Rate,
    /// One wcet raised.
    Load,
    /// A sink that takes its tokens in its last phase only.
    Late,
}

/// All faults, each as often as it should come up.
pub const FAULTS: [Fault; 10] = [
    Fault::None,
    Fault::None,
    Fault::None,
    Fault::None,
    Fault::None,
    Fault::Cycle,
    Fault::Ends,
    Fault::Rate,
    Fault::Load,
    Fault::Late,
];

/// The sizes from which a kind's modes are drawn.
struct Bounds {
    modes: u64,
    actors: u64,
    extra: u64,
    phases: &'static [u8],
    counts: &'static [u64],
    rounds: u64,
}

/// The sizes of a kind.
fn bounds(kind: Kind) -> Bounds {
    let (modes, actors, extra, phases, counts, rounds): (_, _, _, &[u8], &[u64], _) = match kind {
        Kind::Tiny => (2, 4, 2, &[1, 1, 2, 2, 3], &[1, 2, 2, 3, 4], 3),
        Kind::Small => (3, 6, 4, &[1, 2, 3, 4], &[1, 2, 4, 6, 12], 10),
        Kind::Middle => (5, 10, 10, &[1, 2, 3, 4, 6], &[1, 4, 6, 12, 60], 40),
        Kind::Large => (8, 16, 32, &[1, 2, 4, 5, 6, 7, 8, 8], &[1, 8, 12, 24], 60),
        Kind::Limit => (3, 16, 8, &[1, 2, 4, 8], &[64, 768, 1024, 1024, 4096], 1),
        Kind::Steep => (2, 12, 3, &[1, 1, 2, 3], &[1 << 12, 1 << 20, 1 << 28], 64),
    };
    Bounds {
        modes,
        actors,
        extra,
        phases,
        counts,
        rounds,
    }
}

/// A random table of a kind, with a fault in one of its modes.
pub fn table(random: &mut Random, kind: Kind, fault: Fault) -> Table {
    let bounds = bounds(kind);
    let (processors, alone) = processors(random);
    let mut table = Table::default();
    let mut numbers: Vec<usize> = (0..MODES).collect();
    random.shuffle(&mut numbers);
    numbers.truncate(random.from_to(1, bounds.modes) as usize);
    for &number in &numbers {
        let size = random.from_to(1, bounds.actors) as usize;
        let actors = choose_actors(random, size, alone);
        let cycles = choose_counts(random, kind, &bounds, &actors);
        let mut mode = mode(random, &bounds, &actors, &cycles, &processors);
        for _ in 0..random.from_to(0, bounds.extra) {
            add_somewhere(random, &mut mode, &actors, &cycles);
        }
        set_wcets(random, kind, &bounds, &mut mode, &cycles);
        table.modes[number] = mode;
    }
    let faulty = *random.pick(&numbers);
    spoil(random, fault, &mut table.modes[faulty]);
    table
}

/// A random table of one of these kinds, with one of all faults.
pub fn any(random: &mut Random, kinds: &[Kind]) -> Table {
    let kind = *random.pick(kinds);
    let fault = *random.pick(&FAULTS);
    table(random, kind, fault)
}

/// A table of 8 modes with 16 actors, 32 channels and 8 phases each, which is mostly accepted.
pub fn largest(random: &mut Random) -> Table {
    let bounds = Bounds {
        phases: &[8],
        counts: &[12],
        rounds: 900,
        ..bounds(Kind::Large)
    };
    let (processors, alone) = one_alone(random);
    let mut table = Table::default();
    for slot in &mut table.modes {
        let actors = choose_actors(random, ACTORS, alone);
        let cycles = choose_counts(random, Kind::Large, &bounds, &actors);
        let mut mode = mode(random, &bounds, &actors, &cycles, &processors);
        while mode.channels().len() < CHANNELS {
            add_somewhere(random, &mut mode, &actors, &cycles);
        }
        set_wcets(random, Kind::Large, &bounds, &mut mode, &cycles);
        *slot = mode;
    }
    table
}

/// A table of 8 modes with 16 actors, 32 channels and iterations of 16 ticks, mostly accepted.
pub fn sixteen(random: &mut Random) -> Table {
    let (processors, alone) = one_alone(random);
    let mut table = Table::default();
    for mode in &mut table.modes {
        let mut actors = choose_actors(random, ACTORS, alone);
        if let Some(at) = actors[..2].iter().position(|&a| alone == Some(a)) {
            actors.swap(at, 2);
        }
        let cycles = fire_sixteen(random, mode, &actors, alone);
        for (actor, processor) in mode.actors.iter_mut().zip(processors) {
            actor.processor = processor;
        }
        mode.slots[0] = Channel {
            from: actors[0] as u8,
            to: actors[1] as u8,
            production: spread(random, 1, 1),
            consumption: spread(random, 1, mode.actors[actors[1]].phases),
        };
        mode.count = 1;
        join(random, mode, &actors[1..], &cycles);
        while mode.channels().len() < CHANNELS {
            add_somewhere(random, mode, &actors[1..], &cycles);
        }
    }
    table
}

/// Actors of wcet 1, and their cycle counts: the first fires once and so does the cycle of the
/// second, the one that has a processor to itself fires 16 times, and the others up to 4 times.
fn fire_sixteen(
    random: &mut Random,
    mode: &mut Mode,
    actors: &[usize],
    alone: Option<usize>,
) -> [u64; ACTORS] {
    let mut cycles = [0; ACTORS];
    for (at, &place) in actors.iter().enumerate() {
        let firings = match at {
            0 => 1,
            _ if alone == Some(place) => 16,
            _ => *random.pick(&[1, 2, 4]),
        };
        let phases = match at {
            1 => firings,
            _ => *random.pick(&[1, 2, 4]).min(&firings),
        };
        cycles[place] = u64::from(firings / phases);
        mode.active |= 1 << place;
        mode.actors[place] = Actor {
            phases,
            processor: 0,
            wcet: 1,
        };
    }
    cycles
}

/// Processors of all 16 actors, and an actor that has one to itself if there is such.
fn processors(random: &mut Random) -> ([u8; ACTORS], Option<usize>) {
    if !random.one_in(4) {
        return one_alone(random);
    }
    let mut processors = [0; ACTORS];
    for processor in &mut processors {
        *processor = random.from_to(1, PROCESSORS as u64) as u8;
    }
    (processors, None)
}

/// Processors of all 16 actors such that one actor has one to itself.
fn one_alone(random: &mut Random) -> ([u8; ACTORS], Option<usize>) {
    let mut names: Vec<u8> = (1..=PROCESSORS as u8).collect();
    random.shuffle(&mut names);
    let mut processors = [0; ACTORS];
    for (place, processor) in processors.iter_mut().enumerate() {
        *processor = names[1 + place % (PROCESSORS - 1)];
    }
    random.shuffle(&mut processors);
    let alone = random.index(ACTORS);
    processors[alone] = names[0];
    (processors, Some(alone))
}

/// A balanced mode without wcets: a source, a sink, and actors between them.
fn mode(
    random: &mut Random,
    bounds: &Bounds,
    actors: &[usize],
    cycles: &[u64; ACTORS],
    processors: &[u8; ACTORS],
) -> Mode {
    let mut mode = Mode::default();
    for &place in actors {
        mode.active |= 1 << place;
        mode.actors[place] = Actor {
            phases: *random.pick(bounds.phases),
            processor: processors[place],
            wcet: 1,
        };
    }
    join(random, &mut mode, actors, cycles);
    mode
}

/// So many actors in a random order; the one with its own processor is among them.
fn choose_actors(random: &mut Random, size: usize, alone: Option<usize>) -> Vec<usize> {
    let mut actors: Vec<usize> = (0..ACTORS).collect();
    random.shuffle(&mut actors);
    if let Some(at) = alone.and_then(|a| actors.iter().position(|&other| other == a)) {
        actors.swap(0, at);
    }
    actors.truncate(size);
    random.shuffle(&mut actors);
    actors
}

/// Cycle counts of the actors: divisors of one number, or a steep way up to it and down.
fn choose_counts(
    random: &mut Random,
    kind: Kind,
    bounds: &Bounds,
    actors: &[usize],
) -> [u64; ACTORS] {
    let mut cycles = [0; ACTORS];
    let common = *random.pick(bounds.counts);
    let (down, up) = match kind {
        Kind::Limit => (2, [16, 32, 64, 128]),
        _ => (16, [2, 3, 16, 200]),
    };
    let mut height = 1;
    for &place in actors {
        cycles[place] = match kind {
            Kind::Limit | Kind::Steep => height,
            _ => gcd(random.from_to(1, common) * random.from_to(1, 4), common),
        };
        height = match random.below(4) {
            0 => (height / down).max(1),
            1 => height,
            _ => (height * *random.pick(&up)).min(common),
        };
    }
    cycles
}

/// Channels such that the first actor alone has nothing incoming, the last nothing outgoing. Where
/// no rates lead as far as was drawn, a channel leads from one actor to the next.
fn join(random: &mut Random, mode: &mut Mode, actors: &[usize], cycles: &[u64; ACTORS]) {
    let last = actors.len() - 1;
    let mut feeds = [false; ACTORS];
    for to in 1..=last {
        let near = to.saturating_sub(3);
        let drawn = random.from_to(near as u64, to as u64 - 1) as usize;
        let from = match most_times(mode, actors[drawn], actors[to], cycles) {
            0 => to - 1,
            _ => drawn,
        };
        feeds[from] = true;
        add_channel(random, mode, actors[from], actors[to], cycles);
    }
    for from in 0..last {
        if !feeds[from] {
            let drawn = random.from_to(from as u64 + 1, last as u64) as usize;
            let to = match most_times(mode, actors[from], actors[drawn], cycles) {
                0 => from + 1,
                _ => drawn,
            };
            add_channel(random, mode, actors[from], actors[to], cycles);
        }
    }
}

/// The least tokens of a cycle at both ends of a channel that the cycle counts balance.
fn least_tokens(from: usize, to: usize, cycles: &[u64; ACTORS]) -> (u64, u64) {
    let common = gcd(cycles[from], cycles[to]);
    (cycles[to] / common, cycles[from] / common)
}

/// How many times these the rates of the two actors can make and take; 0 where not even once.
fn most_times(mode: &Mode, from: usize, to: usize, cycles: &[u64; ACTORS]) -> u64 {
    let (made, taken) = least_tokens(from, to, cycles);
    let most_made = RATE_LIMIT * u64::from(mode.actors[from].phases) / made;
    let most_taken = RATE_LIMIT * u64::from(mode.actors[to].phases) / taken;
    most_made.min(most_taken)
}

/// Adds a channel if there is room, with rates that the cycle counts balance where there are any.
fn add_channel(
    random: &mut Random,
    mode: &mut Mode,
    from: usize,
    to: usize,
    cycles: &[u64; ACTORS],
) {
    let next = mode.count as usize;
    if next == CHANNELS {
        return;
    }
    let (made, taken) = least_tokens(from, to, cycles);
    let most = most_times(mode, from, to, cycles).max(1);
    let times = match random.below(8) {
        0 => random.from_to(1, most),
        _ => random.from_to(1, most.min(5)),
    };
    mode.slots[next] = Channel {
        from: from as u8,
        to: to as u8,
        production: spread(random, made * times, mode.actors[from].phases),
        consumption: spread(random, taken * times, mode.actors[to].phases),
    };
    mode.count += 1;
}

/// Spreads the tokens of a cycle over its phases: evenly or in lumps, as many as there is room for.
fn spread(random: &mut Random, tokens: u64, phases: u8) -> [u8; PHASES] {
    let mut rates = [0; PHASES];
    let lumps = random.one_in(2);
    let mut rest = tokens.min(RATE_LIMIT * u64::from(phases));
    while rest > 0 {
        let slot = &mut rates[random.index(phases as usize)];
        let room = rest.min(RATE_LIMIT - u64::from(*slot));
        let part = match lumps || room < 2 {
            true => room,
            false => random.from_to(1, room.div_ceil(2)),
        };
        *slot += part as u8;
        rest -= part;
    }
    rates
}

/// Adds a channel from some actor to a later one, if there are rates that balance it.
fn add_somewhere(random: &mut Random, mode: &mut Mode, actors: &[usize], cycles: &[u64; ACTORS]) {
    if actors.len() > 1 {
        let to = random.from_to(1, actors.len() as u64 - 1) as usize;
        let from = random.index(to);
        if most_times(mode, actors[from], actors[to], cycles) > 0 {
            add_channel(random, mode, actors[from], actors[to], cycles);
        }
    }
}

/// Sets wcets so that the iteration comes near a length that suits the kind, and so that most
/// processors have time for it: an actor that has its processor to itself fills it, and now and
/// then so do those that share one, or they ask for a little more.
fn set_wcets(
    random: &mut Random,
    kind: Kind,
    bounds: &Bounds,
    mode: &mut Mode,
    cycles: &[u64; ACTORS],
) {
    let factor = places(mode.active).fold(0, |common, a| gcd(common, cycles[a]));
    let firings = |mode: &Mode, a: usize| u64::from(mode.actors[a].phases) * cycles[a] / factor;
    let common = places(mode.active).fold(1, |common: u64, a| {
        let count = firings(mode, a);
        (common / gcd(common, count) * count).min(ITERATION_LIMIT)
    });
    let rounds = match kind {
        Kind::Limit if random.one_in(8) => ITERATION_LIMIT / common + 1,
        Kind::Limit => (ITERATION_LIMIT / common).saturating_sub(random.below(2)),
        _ => random.from_to(1, bounds.rounds),
    };
    let length = common * rounds.max(1)
        + if random.one_in(4) {
            random.below(common)
        } else {
            0
        };
    let mut sharing = [0; PROCESSORS + 1];
    for place in places(mode.active) {
        sharing[mode.actors[place].processor as usize] += 1;
    }
    let full = random.one_in(4);
    for place in places(mode.active) {
        let share = sharing[mode.actors[place].processor as usize];
        let most = (length / (firings(mode, place) * share)).clamp(1, WCET_LIMIT);
        mode.actors[place].wcet = match share {
            1 => most,
            _ if full => (most + random.below(20) / 19).min(WCET_LIMIT),
            _ => random.from_to(1, most),
        } as u32;
    }
}

/// Brings a fault into a mode.
fn spoil(random: &mut Random, fault: Fault, mode: &mut Mode) {
    let count = mode.count as usize;
    match fault {
        Fault::None => {}
        Fault::Cycle => spoil_order(random, mode),
        Fault::Ends => spoil_ends(random, mode),
        Fault::Rate if count > 0 => {
            let channel = &mut mode.slots[random.index(count)];
            let phases = mode.actors[channel.to as usize].phases as usize;
            let rate = &mut channel.consumption[random.index(phases)];
            *rate = if *rate == 255 { 254 } else { *rate + 1 };
        }
        Fault::Load => {
            let actors: Vec<usize> = places(mode.active).collect();
            let actor = &mut mode.actors[*random.pick(&actors)];
            actor.wcet = (actor.wcet * 2 + 1).min(WCET_LIMIT as u32);
        }
        Fault::Late => spoil_sink(mode),
        Fault::Rate => {}
    }
}

/// Turns a channel round, doubles it backwards, or leads it back to its own actor.
fn spoil_order(random: &mut Random, mode: &mut Mode) {
    let count = mode.count as usize;
    if count == 0 || count == CHANNELS {
        return;
    }
    let mut back = mode.slots[random.index(count)];
    match random.below(3) {
        0 => {
            back.to = back.from;
            back.consumption = back.production;
        }
        _ => {
            (back.from, back.to) = (back.to, back.from);
            (back.production, back.consumption) = (back.consumption, back.production);
        }
    }
    mode.slots[count] = back;
    mode.count += 1;
}

/// Adds an actor that nothing feeds or that feeds nothing, or takes a channel away.
fn spoil_ends(random: &mut Random, mode: &mut Mode) {
    let count = mode.count as usize;
    if count > 0 && random.one_in(2) {
        let gone = random.index(count);
        mode.slots.copy_within(gone + 1..count, gone);
        mode.slots[count - 1] = Channel::default();
        mode.count -= 1;
        return;
    }
    let Some(place) = places(!mode.active).next() else {
        return;
    };
    let some = places(mode.active).next().map_or(0, |p| p as u8);
    mode.active |= 1 << place;
    mode.actors[place] = Actor {
        phases: 1,
        processor: 1,
        wcet: 1,
    };
    if count < CHANNELS && random.one_in(2) {
        let phases = mode.actors[some as usize].phases;
        let (one, all) = (spread(random, 1, 1), spread(random, 1, phases));
        let forward = random.one_in(2);
        mode.slots[count] = Channel {
            from: if forward { some } else { place as u8 },
            to: if forward { place as u8 } else { some },
            production: if forward { all } else { one },
            consumption: if forward { one } else { all },
        };
        mode.count += 1;
    }
}

/// Lets the sink take all tokens of a cycle in its last phase, and gives it many phases.
fn spoil_sink(mode: &mut Mode) {
    let mut sinks = mode.active;
    for channel in mode.channels() {
        sinks &= !(1 << channel.from);
    }
    let Some(sink) = places(sinks).next() else {
        return;
    };
    mode.actors[sink].phases = PHASES as u8;
    for channel in &mut mode.slots[..mode.count as usize] {
        if channel.to as usize == sink {
            let taken = cycle_sum(&channel.consumption).min(RATE_LIMIT);
            channel.consumption = [0; PHASES];
            channel.consumption[PHASES - 1] = taken as u8;
        }
    }
}
