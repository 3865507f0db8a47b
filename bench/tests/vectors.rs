//! The second opinion against the repository's own vectors: what is printed of each table, and
//! what the machine answers to each list of requests.

use bench::layout::{stored, WORDS};
use bench::planner::{Independent, Planner};
use bench::print::{print_refusal, PRINTED};
use bench::terms::Refusal;
use std::fs;
use std::path::PathBuf;

/// A folder of the repository's crates.
fn crates(path: &str) -> PathBuf {
    [env!("CARGO_MANIFEST_DIR"), "..", "crates", path]
        .iter()
        .collect()
}

/// The line of five refusal numbers.
fn refusal_line(numbers: [u64; 5]) -> Vec<u8> {
    let [number, row, mode, actor, processor] = numbers;
    print_refusal(&Refusal {
        number,
        row,
        mode,
        actor,
        processor,
    })
}

/// What is printed of a text: its plan or its refusal.
fn printed(text: &[u8]) -> Vec<u8> {
    let mut words = vec![7; WORDS];
    let answer = Independent.plan(text, &mut words);
    if !answer.accepted {
        assert!(words.iter().all(|&word| word == 7));
        return refusal_line(answer.refusal);
    }
    assert!(stored(&words));
    let (mut out, mut length) = (vec![7; PRINTED], 0);
    assert!(Independent.print(&words, &mut out, &mut length).accepted);
    assert!(out[length..].iter().all(|&byte| byte == 0));
    out.truncate(length);
    out
}

/// What the machine answers to a starting mode and requests, a line each.
fn answered(text: &[u8], mode: u64, requests: &[(u64, u64)]) -> Vec<u8> {
    let mut words = vec![0; WORDS];
    assert!(Independent.plan(text, &mut words).accepted);
    let mut machine = [0; 3];
    let begun = Independent.start(&words, mode, &mut machine);
    if !begun.accepted {
        return refusal_line(begun.refusal);
    }
    let [mode, started, ended] = machine;
    let mut lines = format!("machine,{mode},{started},{ended}\r\n").into_bytes();
    for &(mode, clock) in requests {
        let (before, mut delay) = (machine, 7);
        let answer = Independent.request(&words, &mut machine, mode, clock, &mut delay);
        if answer.accepted {
            let [mode, started, ended] = machine;
            lines.extend(format!("accepted,{delay},{mode},{started},{ended}\r\n").into_bytes());
        } else {
            assert_eq!((machine, delay), (before, 7));
            lines.extend(refusal_line(answer.refusal));
        }
    }
    lines
}

/// One call of the vectors: a table, and a starting mode with requests if the machine is asked.
struct Call {
    name: String,
    asked: Option<(u64, Vec<(u64, u64)>)>,
}

/// The calls in their order: a name, then perhaps a mode, then requests as MODE@CLOCK.
fn calls() -> Vec<Call> {
    let arguments = fs::read_to_string(crates("vectors/args")).expect("the calls of the vectors");
    let mut calls: Vec<Call> = Vec::new();
    for argument in arguments.lines() {
        if argument.ends_with(".csv") {
            let name = argument.to_string();
            calls.push(Call { name, asked: None });
            continue;
        }
        let call = calls.last_mut().expect("a table comes first");
        match argument.split_once('@') {
            None => call.asked = Some((argument.parse().expect(argument), Vec::new())),
            Some((mode, clock)) => {
                let request = (mode.parse().expect(mode), clock.parse().expect(clock));
                call.asked.as_mut().expect("a mode").1.push(request);
            }
        }
    }
    calls
}

#[test]
fn every_call_of_the_vectors_prints_what_it_should() {
    let expected = fs::read(crates("vectors/stdout")).expect("what the vectors print");
    let calls = calls();
    let tables = calls.iter().filter(|call| call.asked.is_none()).count();
    assert_eq!((tables, calls.len() - tables), (147, 53));
    let mut all = Vec::new();
    for call in &calls {
        let text = fs::read(crates("vectors/data").join(&call.name)).expect(&call.name);
        all.extend(format!("{}\r\n", call.name).into_bytes());
        all.extend(match &call.asked {
            None => printed(&text),
            Some((mode, requests)) => answered(&text, *mode, requests),
        });
    }
    let (ours, theirs) = (String::from_utf8(all), String::from_utf8(expected));
    let (ours, theirs) = (ours.expect("ASCII"), theirs.expect("ASCII"));
    for (line, (ours, theirs)) in ours.lines().zip(theirs.lines()).enumerate() {
        assert_eq!(ours, theirs, "line {}", line + 1);
    }
    assert_eq!(ours, theirs);
}
