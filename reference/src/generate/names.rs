//! Names and texts.

use crate::name::MAX_NAME;
use crate::random::Random;

/// The last ones look like words or numbers of JSON.
const WORDS: [&str; 20] = [
    "value", "target", "status", "mode", "ramp", "stop", "go", "reset", "t1", "mf", "a", "b", "x",
    "_raw", "on", "off", "true", "null", "e5", "_1",
];
const FIRST: &[u8] = b"abcdefghijklmnopqrstuvwxyzABCDEFGHIJKLMNOPQRSTUVWXYZ_";
const LATER: &[u8] = b"abcdefghijklmnopqrstuvwxyzABCDEFGHIJKLMNOPQRSTUVWXYZ_0123456789";

/// Names given out in one scope; they stay different when lowercased.
#[derive(Default)]
pub struct Scope {
    lowercased: Vec<Vec<u8>>,
}

impl Scope {
    pub fn fresh(&mut self, random: &mut Random) -> Vec<u8> {
        loop {
            let name = good(random);
            let lowercased = name.to_ascii_lowercase();
            if !self.lowercased.contains(&lowercased) {
                self.lowercased.push(lowercased);
                return name;
            }
        }
    }
}

/// A good name: often a common word, so that other scopes have it too,
/// perhaps with other letters' case; sometimes one as long as can be.
pub fn good(random: &mut Random) -> Vec<u8> {
    match random.below(12) {
        0 => of_length(random, MAX_NAME),
        1..=4 => {
            let length = random.between(1, 8);
            of_length(random, length)
        }
        5..=6 => {
            let word = *random.pick(&WORDS);
            other_case(random, word.as_bytes())
        }
        _ => random.pick(&WORDS).as_bytes().to_vec(),
    }
}

fn of_length(random: &mut Random, length: usize) -> Vec<u8> {
    let first = *random.pick(FIRST);
    let later = (1..length).map(|_| *random.pick(LATER));
    std::iter::once(first)
        .chain(later.collect::<Vec<_>>())
        .collect()
}

/// The same name with some letters' case changed.
pub fn other_case(random: &mut Random, name: &[u8]) -> Vec<u8> {
    let switched = |byte: &u8| {
        if byte.is_ascii_lowercase() {
            byte.to_ascii_uppercase()
        } else {
            byte.to_ascii_lowercase()
        }
    };
    name.iter()
        .map(|byte| {
            if random.one_in(2) {
                switched(byte)
            } else {
                *byte
            }
        })
        .collect()
}

/// A name that breaks the rules: empty, too long, a leading digit or a byte
/// that no name has.
pub fn bad(random: &mut Random) -> Vec<u8> {
    let mut name = good(random);
    match random.below(4) {
        0 => name.clear(),
        1 => name = of_length(random, MAX_NAME + 1),
        2 => name[0] = b'7',
        _ => {
            let at = random.below(name.len());
            name[at] = *random.pick(b" -.:@[`{\"\\\x1f\x7f\x80\xff\n\0");
        }
    }
    name
}

/// A good text, sometimes empty, rarely as long as can be.
pub fn text(random: &mut Random) -> Vec<u8> {
    let length = match random.below(40) {
        0 => 255,
        1..=10 => 0,
        _ => random.between(1, 16),
    };
    (0..length).map(|_| text_byte(random)).collect()
}

fn text_byte(random: &mut Random) -> u8 {
    match random.between(32, 126) as u8 {
        b'"' | b'\\' => b' ',
        byte => byte,
    }
}

/// A text of an `ED` record, rarely as long as can be.
pub fn edition(random: &mut Random) -> Vec<u8> {
    let mut text = [b"ISSE,SECoP,", &text(random)[..]].concat();
    text.truncate(255);
    text
}

/// A text that nearly begins as that of an `ED` record does, or that has a
/// byte that no text has.
pub fn bad_edition(random: &mut Random) -> Vec<u8> {
    let mut text = edition(random);
    match random.below(5) {
        0 => text.truncate(random.below(11)),
        1 => text[random.below(11)] ^= 32,
        2 => text.insert(random.below(11), b' '),
        3 => text = b"ISSE&SINE2020,SECoP,V2019-09-16,v1.0".to_vec(),
        _ => text.extend(bad_text(random)),
    }
    text.truncate(255);
    text
}

/// A text with a byte that no text has.
pub fn bad_text(random: &mut Random) -> Vec<u8> {
    let mut text = text(random);
    text.truncate(254);
    let at = random.between(0, text.len());
    text.insert(at, *random.pick(b"\"\\\x1f\x7f\x80\xff\n\0"));
    text
}
