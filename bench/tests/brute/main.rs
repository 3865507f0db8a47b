//! The second opinion's closed forms against walking through ticks and firings, on random tables
//! with short iterations.

mod firings;
mod walk;

use bench::generate::{any, KINDS};
use bench::layout::{stored, write, ACTOR, ACTORS_AT, CHANGES, CHANNEL, CHANNELS_AT, MODE, WORDS};
use bench::machine::start;
use bench::plan::{plan, Plan};
use bench::random::Random;
use bench::table::{read, Table};
use bench::terms::MODES;
use bench::text::{mixed, plain, style};
use walk::{change, leaving_tick, walk_table, Walked};

/// Tables that are tried.
const TABLES: usize = 6000;

/// How many tables of each outcome were compared, by refusal number (0: accepted). Of refusal 8
/// walking tells only that no counts have a short iteration.
type Counts = [usize; 11];

#[test]
fn closed_forms_agree_with_walking() {
    let mut random = Random::new(20);
    let mut counts: Counts = [0; 11];
    for _ in 0..TABLES {
        let text = plain(&any(&mut random, &KINDS[..8]));
        if let Ok(table) = read(&text) {
            compare(&table, &mut counts, &mut random);
        }
    }
    println!("compared, by refusal (0: accepted): {counts:?}");
    for number in [0, 6, 7, 8, 9, 10] {
        assert!(counts[number] >= 30, "{number} too seldom: {counts:?}");
    }
}

/// Compares one table, where it can be walked through.
fn compare(table: &Table, counts: &mut Counts, random: &mut Random) {
    let planned = plan(table);
    match (walk_table(table), planned) {
        (Some(Err(refusal)), Err(other)) => {
            assert_eq!(refusal, other, "{table:?}");
            counts[refusal.number as usize] += 1;
        }
        (Some(Ok(walked)), Ok(plan)) => {
            compare_plans(table, &walked, &plan);
            compare_machines(table, &walked, &plan, random);
            counts[0] += 1;
        }
        (None, Ok(plan)) => assert!(plan.parts.iter().any(|p| p.pace.iteration > walk::SHORT)),
        (None, Err(refusal)) => {
            assert!((6..=10).contains(&refusal.number));
            counts[8] += usize::from(refusal.number == 8);
        }
        (walked, planned) => panic!("{table:?}\n{walked:?}\n{planned:?}"),
    }
}

/// Compares all numbers of an accepted table.
fn compare_plans(table: &Table, walked: &[Option<Walked>], plan: &Plan) {
    for (place, walked) in walked.iter().enumerate() {
        let part = &plan.parts[place];
        let Some(walked) = walked else {
            assert_eq!(part.pace.iteration, 0);
            continue;
        };
        let channels = table.modes[place].channels().len();
        let context = plain_text(table);
        assert_eq!(part.pace.iteration, walked.iteration, "{context}");
        assert_eq!(part.pace.firings, walked.firings, "{context}");
        assert_eq!(part.pace.periods, walked.periods, "{context}");
        assert_eq!(part.schedule.starts, walked.starts, "{context}");
        assert_eq!(part.schedule.sizes[..channels], walked.sizes, "{context}");
        assert_eq!(part.schedule.tokens[..channels], walked.tokens, "{context}");
    }
    for from in 0..MODES {
        for to in 0..MODES {
            let planned = plan.changes[from][to];
            let planned = [planned.overlap, planned.offset, planned.worst];
            let expected = match (&walked[from], &walked[to]) {
                (Some(old), Some(new)) if from != to => change(table, (from, old), (to, new)),
                _ => [0; 3],
            };
            assert_eq!(planned, expected, "{}", plain_text(table));
        }
    }
}

/// A table's text, to be shown where something differs.
fn plain_text(table: &Table) -> String {
    String::from_utf8_lossy(&plain(table)).into_owned()
}

/// Runs a few requests through the machine and beside it by document 01's words.
fn compare_machines(table: &Table, walked: &[Option<Walked>], plan: &Plan, random: &mut Random) {
    let mut words = vec![0; WORDS];
    write(table, plan, &mut words);
    let mut machine = start(&words, 0).expect("a plan has a lowest mode");
    let lowest = walked.iter().position(|w| w.is_some()).expect("a mode");
    assert_eq!((machine.mode, machine.started), (lowest as u64 + 1, 0));
    for _ in 0..10 {
        let from = machine.mode as usize - 1;
        let Some(old) = &walked[from] else { panic!() };
        let to = random.index(MODES);
        let clock = machine.ended + random.below(2 * old.iteration);
        let answer = machine.request(&words, to as u64 + 1, clock);
        let Some(new) = walked[to].as_ref().filter(|_| to != from) else {
            assert!(answer.is_err());
            continue;
        };
        let (delay, next) = answer.expect("a request in time for another mode");
        let [_, offset, worst] = change(table, (from, old), (to, new));
        let left = leaving_tick(machine.started, old.iteration, clock);
        let first = left + offset + new.starts[new.sink];
        assert_eq!(delay, first - clock);
        assert!(delay <= worst);
        assert_eq!((next.mode, next.started), (to as u64 + 1, left + offset));
        assert_eq!(next.ended, first.max(left + old.starts[old.sink]));
        machine = next;
    }
}

#[test]
fn closed_forms_agree_with_firings_at_any_length() {
    let mut random = Random::new(23);
    let (mut modes, mut long, mut changes) = (0, 0, 0);
    for _ in 0..TABLES {
        let text = plain(&any(&mut random, &KINDS));
        let Ok((plan, table)) = read(&text).and_then(|table| Ok((plan(&table)?, table))) else {
            continue;
        };
        let listed: Vec<usize> = (0..MODES).filter(|&m| table.modes[m].active != 0).collect();
        for &place in &listed {
            let part = &plan.parts[place];
            if part.pace.firings.iter().sum::<u64>() <= firings::MOST {
                compare_firings(&table, place, &plan);
                modes += 1;
                long += usize::from(part.pace.iteration > 1 << 24);
            }
            for &other in listed.iter().filter(|&&other| other != place) {
                let least = firings::is_least(&table, &plan, place, other);
                assert!(least, "{place} to {other}\n{}", plain_text(&table));
                changes += 1;
            }
        }
    }
    println!("modes by firings: {modes}, of these above 2^24 ticks: {long}; changes: {changes}");
    assert!(modes > 2000 && long > 200 && changes > 2000);
}

/// Compares starts and sizes of a mode with those that its firings ask for.
fn compare_firings(table: &Table, place: usize, plan: &Plan) {
    let (mode, part) = (&table.modes[place], &plan.parts[place]);
    let starts = firings::starts(mode, &part.pace);
    assert_eq!(part.schedule.starts, starts, "{}", plain_text(table));
    for (at, channel) in mode.channels().iter().enumerate() {
        let size = firings::size(mode, &part.pace, channel, &starts);
        assert_eq!(part.schedule.sizes[at], size, "{}", plain_text(table));
    }
}

#[test]
fn written_tables_read_back() {
    let mut random = Random::new(21);
    for _ in 0..TABLES {
        let table = any(&mut random, &KINDS);
        let passes = table.modes.iter().all(|mode| {
            let listed = |actor: u8| mode.lists(actor as usize);
            mode.channels()
                .iter()
                .all(|c| listed(c.from) && listed(c.to))
        });
        assert!(passes);
        let style = style(&mut random);
        match read(&mixed(&mut random, &table, style)) {
            Ok(again) => assert_eq!(again, table),
            Err(refusal) => assert!([4, 5].contains(&refusal.number), "{refusal:?}"),
        }
    }
}

#[test]
fn a_plan_is_told_from_what_is_none() {
    let mut random = Random::new(22);
    let mut told = 0;
    for _ in 0..TABLES / 20 {
        let text = plain(&any(&mut random, &KINDS[..8]));
        let Ok((plan, table)) = read(&text).and_then(|table| Ok((plan(&table)?, table))) else {
            continue;
        };
        let mut words = vec![0; WORDS];
        write(&table, &plan, &mut words);
        assert!(stored(&words));
        assert!(!stored(&words[1..]));
        for at in planned_words() {
            let before = words[at];
            words[at] ^= 1 << random.below(64);
            assert!(!stored(&words));
            words[at] = before;
            told += 1;
        }
    }
    assert!(told > 10_000);
}

/// The words that do not hold the table itself but what is planned of it, now and then one.
fn planned_words() -> impl Iterator<Item = usize> {
    let actors =
        |at: usize| (ACTORS_AT..CHANNELS_AT).contains(&at) && (at - ACTORS_AT) % ACTOR >= 3;
    let channels = |at: usize| at >= CHANNELS_AT && (at - CHANNELS_AT) % CHANNEL >= CHANNEL - 2;
    (0..WORDS)
        .filter(move |&word| {
            let at = word % MODE;
            word >= CHANGES || (2..5).contains(&at) || actors(at) || channels(at)
        })
        .step_by(7)
}
