//! Changes of what no call looks at (C-19): which number stands for yes in a
//! flag, the bytes of a line's place past the line, and the places past the last
//! parameter.

use crate::kept::{Kept, KeptClient};
use crate::line::MAX_LINE;
use crate::operation::Poke;
use crate::random::Random;
use crate::table::MAX_ACCESSIBLES;

/// How often there are some: once in so many times.
const SELDOM: usize = 4;

/// None, or now and then all of it at random, over a table of so many
/// parameters.
pub fn some(random: &mut Random, kept: &Kept, parameters: usize) -> Vec<Poke> {
    let mut pokes = Vec::new();
    if !random.one_in(SELDOM) {
        return pokes;
    }
    for (number, client) in kept.clients.iter().enumerate() {
        pokes.extend(flags(random, number, client));
        pokes.extend(past_line(random, number, client));
    }
    for number in parameters..MAX_ACCESSIBLES {
        pokes.extend(place(random, number));
    }
    pokes
}

/// A flag that is set stays set.
fn flags(random: &mut Random, number: usize, client: &KeptClient) -> Vec<Poke> {
    let mut pokes = Vec::new();
    if client.open != 0 {
        pokes.push(Poke::Open(number, random.between(1, 255) as u8));
    }
    if client.overlong != 0 {
        pokes.push(Poke::Overlong(number, random.between(1, 255) as u8));
    }
    pokes
}

fn past_line(random: &mut Random, number: usize, client: &KeptClient) -> Option<Poke> {
    let length = usize::from(client.length);
    let free = client.line.get(length..)?;
    let bytes = free.iter().map(|_| random.byte()).collect();
    Some(Poke::Lines(MAX_LINE * number + length, bytes))
}

fn place(random: &mut Random, number: usize) -> [Poke; 3] {
    [
        Poke::StoredLength(number, random.number() as u16),
        Poke::StoredError(number, random.byte()),
        Poke::StoredTime(number, random.number()),
    ]
}
