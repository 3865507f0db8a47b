//! Damage: texts that are no longer what a writer meant, and words that are mostly no plan.

use crate::layout::{change_at, ACTOR, ACTORS_AT, CHANGE, CHANGES, CHANNELS_AT, MODE, WORDS};
use crate::random::Random;
use crate::terms::{CHANNELS, MODES, TEXT_LIMIT};

/// Bytes that mean something to a reader of tables, or must not stand in one.
const BYTES: &[u8] = b"\",\r\n 0123456789-+.acr\t\0\x7f\x80\xff\x1f~!#";

/// Fields that are none of a good table, or are at its limits.
const FIELDS: [&str; 40] = [
    "",
    "0",
    "00",
    "01",
    "1",
    "2",
    "8",
    "9",
    "16",
    "17",
    "255",
    "256",
    "0256",
    "1048576",
    "1048577",
    "01048576",
    "4294967297",
    "18446744073709551617",
    "340282366920938463463374607431768211457",
    "-1",
    "+1",
    " 1",
    "1 ",
    "1  1",
    "1 x",
    "0 0",
    "0 0 1",
    "1 1 1 1 1 1 1 1",
    "1 1 1 1 1 1 1 1 1",
    "Actor",
    "actor",
    "channel",
    "channels",
    "\"1\"",
    "\"actor\"",
    "\"\"",
    "\"1\"\"1\"",
    "\"1\r\n1\"",
    "\"1,1\"",
    "\"1\"1",
];

/// Line ends that are none, or too many.
const ENDS: [&[u8]; 8] = [
    b"\n",
    b"\r",
    b"\r\r\n",
    b"\n\r",
    b"\r\n\r\n",
    b"",
    b" \r\n",
    b",\r\n",
];

/// Damages a text in one to three ways.
pub fn damage_text(random: &mut Random, text: &mut Vec<u8>) {
    for _ in 0..=random.below(3) * random.below(2) {
        match random.below(16) {
            0 => damage_byte(random, text),
            1 => insert_byte(random, text),
            2 => text.truncate(random.index(text.len() + 1)),
            3 => damage_length(random, text),
            4 => lengthen_list(random, text),
            5 => repeat_row(random, text),
            6 => damage_end(random, text),
            7 => drop_field(random, text),
            8 => swap_rows(random, text),
            9 | 10 => shorten_list(random, text),
            11 | 12 => move_actor(random, text),
            _ => damage_field(random, text),
        }
    }
}

/// Puts another byte in the place of one.
fn damage_byte(random: &mut Random, text: &mut [u8]) {
    if !text.is_empty() {
        let at = random.index(text.len());
        text[at] = match random.below(3) {
            0 => text[at] ^ (1 << random.below(8)),
            _ => *random.pick(BYTES),
        };
    }
}

/// Puts a byte between others.
fn insert_byte(random: &mut Random, text: &mut Vec<u8>) {
    let at = random.index(text.len() + 1);
    text.insert(at, *random.pick(BYTES));
}

/// Makes a text empty, as long as it may be, or longer.
fn damage_length(random: &mut Random, text: &mut Vec<u8>) {
    if random.one_in(3) {
        text.clear();
        return;
    }
    let length = TEXT_LIMIT - 1 + random.index(3);
    match random.below(3) {
        0 => text.resize(length, b'1'),
        1 => {
            text.extend_from_slice(b"channel,1,1,1,");
            while text.len() < length {
                text.extend_from_slice(b"1 ");
            }
            text.resize(length, b'1');
        }
        _ => {
            let row = text.clone();
            while text.len() < length && !row.is_empty() {
                text.extend_from_slice(&row);
            }
            text.truncate(length);
        }
    }
}

/// The spans of the text's rows, without their line ends; quotes are not minded.
fn rows(text: &[u8]) -> Vec<(usize, usize)> {
    let mut spans = Vec::new();
    let mut from = 0;
    for at in 1..text.len() {
        if text[at] == b'\n' && text[at - 1] == b'\r' && at > from {
            spans.push((from, at - 1));
            from = at + 1;
        }
    }
    if from < text.len() {
        spans.push((from, text.len()));
    }
    spans
}

/// The span of some row.
fn some_row(random: &mut Random, text: &[u8]) -> Option<(usize, usize)> {
    let spans = rows(text);
    (!spans.is_empty()).then(|| *random.pick(&spans))
}

/// The span of some field; quotes are not minded.
fn some_field(random: &mut Random, text: &[u8]) -> Option<(usize, usize)> {
    let (from, to) = some_row(random, text)?;
    let mut spans = vec![(from, to)];
    for (at, &byte) in (from..to).zip(&text[from..to]) {
        if byte == b',' {
            spans.last_mut()?.1 = at;
            spans.push((at + 1, to));
        }
    }
    Some(*random.pick(&spans))
}

/// Writes another field over one.
fn damage_field(random: &mut Random, text: &mut Vec<u8>) {
    if let Some((from, to)) = some_field(random, text) {
        let field = random.pick(&FIELDS).bytes();
        text.splice(from..to, field);
    }
}

/// Takes a field away, with its comma.
fn drop_field(random: &mut Random, text: &mut Vec<u8>) {
    if let Some((from, to)) = some_field(random, text) {
        let from = from.saturating_sub(1);
        text.drain(from..to);
    }
}

/// Writes another line end over one.
fn damage_end(random: &mut Random, text: &mut Vec<u8>) {
    if let Some((_, to)) = some_row(random, text) {
        let behind = (to + 2).min(text.len());
        let end = random.pick(&ENDS).iter().copied();
        text.splice(to..behind, end);
    }
}

/// Repeats a row once, or so often that a mode has too many channels.
fn repeat_row(random: &mut Random, text: &mut Vec<u8>) {
    let Some((from, to)) = some_row(random, text) else {
        return;
    };
    let mut again = text[from..to].to_vec();
    again.extend_from_slice(b"\r\n");
    let times = if random.one_in(2) { 1 } else { CHANNELS };
    let place = some_row(random, text).map_or(0, |(from, _)| from);
    text.splice(place..place, again.repeat(times));
}

/// Puts two rows in each other's place.
fn swap_rows(random: &mut Random, text: &mut Vec<u8>) {
    let (Some(one), Some(other)) = (some_row(random, text), some_row(random, text)) else {
        return;
    };
    let (one, other) = (one.min(other), one.max(other));
    if one.1 <= other.0 {
        let (first, second) = (text[one.0..one.1].to_vec(), text[other.0..other.1].to_vec());
        text.splice(other.0..other.1, first);
        text.splice(one.0..one.1, second);
    }
}

/// The span of some row that begins with this word.
fn some_row_of(random: &mut Random, text: &[u8], word: &[u8]) -> Option<(usize, usize)> {
    let mut spans = rows(text);
    spans.retain(|&(from, to)| text[from..to].starts_with(word));
    (!spans.is_empty()).then(|| *random.pick(&spans))
}

/// Makes a rate list longer, by a few rates or by thousands, and bad at its end now and then.
fn lengthen_list(random: &mut Random, text: &mut Vec<u8>) {
    if let Some((_, to)) = some_row_of(random, text, b"channel") {
        let most = *random.pick(&[1, 3, 9, 300, 20_000]);
        let mut list = b" 1".repeat(random.from_to(1, most) as usize);
        if random.one_in(4) {
            list.extend_from_slice(random.pick(&FIELDS).as_bytes());
        }
        text.splice(to..to, list);
    }
}

/// Takes the last rate of a row away, or makes all rates of its last list 0.
fn shorten_list(random: &mut Random, text: &mut Vec<u8>) {
    let Some((from, to)) = some_row_of(random, text, b"channel") else {
        return;
    };
    let comma = text[from..to].iter().rposition(|&byte| byte == b',');
    let space = text[from..to].iter().rposition(|&byte| byte == b' ');
    match (comma, space) {
        (_, Some(at)) if random.one_in(2) => {
            text.drain(from + at..to);
        }
        (Some(at), _) => {
            let list = text[from + at + 1..to].split(|&byte| byte == b' ');
            let zeros = vec![&b"0"[..]; list.count()].join(&b' ');
            text.splice(from + at + 1..to, zeros);
        }
        _ => {}
    }
}

/// Puts an actor on another processor.
fn move_actor(random: &mut Random, text: &mut [u8]) {
    if let Some((_, to)) = some_row_of(random, text, b"actor") {
        if text[to - 1].is_ascii_digit() {
            text[to - 1] = b'1' + random.below(8) as u8;
        }
    }
}

/// Damages the words of a plan; a few of these leave a plan, of another table.
pub fn damage_words(random: &mut Random, words: &mut [u64; WORDS], other: &[u64; WORDS]) {
    match random.below(12) {
        0 => words.fill(0),
        1 => {
            let (from, to) = (random.index(WORDS), random.index(WORDS));
            words.swap(from, to);
        }
        2 => mix(random, words, other),
        3 => drop_mode(random, words),
        4 => swap_modes(random, words),
        5 | 6 => nudge_actor(random, words),
        7 => {
            let at = random.index(WORDS);
            words[at] = random.bits();
        }
        8 => {
            let at = random.index(WORDS);
            words[at] = words[at].wrapping_add(1 << *random.pick(&[8, 16, 32, 63]));
        }
        9 => nudge_used(random, words),
        _ => {
            let at = random.index(WORDS);
            words[at] = words[at].wrapping_add(*random.pick(&[1, u64::MAX]));
        }
    }
}

/// Takes words of another plan from some place on, or one of its modes.
fn mix(random: &mut Random, words: &mut [u64; WORDS], other: &[u64; WORDS]) {
    let mode = random.index(MODES) * MODE;
    let span = match random.below(2) {
        0 => random.index(WORDS)..WORDS,
        _ => mode..mode + MODE,
    };
    words[span.clone()].copy_from_slice(&other[span]);
}

/// Takes a mode out of a plan, with all its changes.
fn drop_mode(random: &mut Random, words: &mut [u64; WORDS]) {
    let mode = random.index(MODES);
    words[MODE * mode..MODE * (mode + 1)].fill(0);
    for other in 0..MODES {
        for at in [change_at(mode, other), change_at(other, mode)] {
            words[at..at + CHANGE].fill(0);
        }
    }
}

/// Gives two modes each other's number, with all their changes.
fn swap_modes(random: &mut Random, words: &mut [u64; WORDS]) {
    let (one, two) = (random.index(MODES), random.index(MODES));
    let before = *words;
    let renamed = |mode: usize| match mode {
        _ if mode == one => two,
        _ if mode == two => one,
        _ => mode,
    };
    for from in 0..MODES {
        let (old, new) = (MODE * from, MODE * renamed(from));
        words[new..new + MODE].copy_from_slice(&before[old..old + MODE]);
        for to in 0..MODES {
            let (old, new) = (change_at(from, to), change_at(renamed(from), renamed(to)));
            words[new..new + CHANGE].copy_from_slice(&before[old..old + CHANGE]);
        }
    }
}

/// The places of words that are not 0.
fn used(words: &[u64; WORDS]) -> Vec<usize> {
    (0..WORDS).filter(|&at| words[at] != 0).collect()
}

/// Changes a word that is in use by a little.
fn nudge_used(random: &mut Random, words: &mut [u64; WORDS]) {
    let used = used(words);
    if !used.is_empty() {
        let at = *random.pick(&used);
        words[at] = match random.below(4) {
            0 => words[at] + 1,
            1 => words[at] - 1,
            2 => words[at] ^ (1 << random.below(64)),
            _ => words[*random.pick(&used)],
        };
    }
}

/// Changes the wcet or the processor of an actor, which now and then leaves all else as it is.
fn nudge_actor(random: &mut Random, words: &mut [u64; WORDS]) {
    let is_actor = |at: usize| at < CHANGES && (ACTORS_AT..CHANNELS_AT).contains(&(at % MODE));
    let mut actors = used(words);
    actors.retain(|&at| is_actor(at) && (at % MODE - ACTORS_AT) % ACTOR == 0);
    if actors.is_empty() {
        return;
    }
    let at = *random.pick(&actors) + 1 + random.index(2);
    words[at] = match random.below(3) {
        0 => words[at].wrapping_sub(1),
        1 => words[at] / 2,
        _ => words[at] + 1,
    };
}
