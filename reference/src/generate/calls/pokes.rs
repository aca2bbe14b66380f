//! Random changes of a kept state, and calls after each.

use super::course::Course;
use crate::datainfo::Datainfo;
use crate::generate::encode;
use crate::generate::parts::{array, digit, module, parameter, string, table};
use crate::node::MAX_TIME;
use crate::operation::Poke;
use crate::random::Random;

/// How many changes there are.
const CHANGES: usize = 16;

const TEXTS: [&str; 10] = [
    "7", "10", "7 ", "[]", "[1,2]", "\"\"", "\"a b\"", "\"ab\"", "true", "false",
];

/// One history, in which something else may be done before each change. A state
/// that was made unfit is made fit again.
pub(super) fn history(course: &mut Course, seed: u64, mut between: impl FnMut(&mut Course)) {
    let mut random = Random::new(seed);
    course.started(&format!("changed {seed}"), &some_table(&mut random));
    for client in 0..3 {
        course.open(client);
    }
    course.line(1, "activate");
    for _ in 0..CHANGES {
        between(course);
        let pokes = some_pokes(&mut random);
        let undoing: Vec<Poke> = undoing(course, &pokes);
        for poke in pokes {
            course.poke(poke);
        }
        call(course, &mut random);
        if !course.is_fit() {
            undoing.into_iter().for_each(|poke| course.poke(poke));
        }
    }
    course.show();
}

/// What takes the changes back; each is of another part.
fn undoing(course: &Course, pokes: &[Poke]) -> Vec<Poke> {
    let undo = |poke: &Poke| poke.undoing(course.kept());
    pokes.iter().map(undo).collect()
}

fn some_table(random: &mut Random) -> Vec<u8> {
    let mut accessibles = vec![
        parameter("p", digit(), "3"),
        parameter("l", array(0, 2, digit()), "[]"),
        parameter("s", string(0, 3), "\"\""),
        parameter("b", Datainfo::Bool, "true"),
    ];
    let later = accessibles.split_off(random.between(1, 4));
    let modules = vec![module("t1", accessibles), module("mf", later)];
    encode::table(&table(modules))
}

fn some_pokes(random: &mut Random) -> Vec<Poke> {
    let (client, number) = (random.below(4), random.below(6));
    match random.below(10) {
        0 => vec![Poke::Open(client, *random.pick(&[0, 1, 2, 255]))],
        1 => vec![Poke::Overlong(client, *random.pick(&[0, 1, 128]))],
        2 => vec![Poke::Active(
            client,
            *random.pick(&[0, 1, 2, 3, 3, 4, 0x8000]),
        )],
        3 => {
            let text = *random.pick(&["ping ", "read t1:p", "x\ny", "\r", "change t1:p "]);
            let length = random.between(text.len() - 1, text.len());
            vec![
                Poke::Lines(1_024 * client, text.as_bytes().to_vec()),
                Poke::LineLength(client, length as u16),
            ]
        }
        4 => {
            let length = *random.pick(&[0, 1, 5, 1_024, 1_025]);
            vec![
                Poke::Lines(1_024 * client, vec![b'y'; length.min(1_024)]),
                Poke::LineLength(client, length as u16),
            ]
        }
        5 => vec![Poke::StoredTime(
            number,
            *random.pick(&[0, 5, MAX_TIME, MAX_TIME + 1, u64::MAX]),
        )],
        7 => {
            let count = *random.pick(&[0, 1, u32::MAX - 2, u32::MAX - 1, u32::MAX]);
            vec![Poke::Counts(client, count)]
        }
        6 => vec![Poke::StoredError(
            number,
            *random.pick(&[0, 1, 2, 3, 4, 5, 255]),
        )],
        _ => {
            let text = *random.pick(&TEXTS);
            let length = *random.pick(&[text.len(), text.len(), text.len(), 0, 257]);
            vec![
                Poke::Values(256 * number, text.as_bytes().to_vec()),
                Poke::StoredLength(number, length as u16),
            ]
        }
    }
}

fn call(course: &mut Course, random: &mut Random) {
    let client = random.below(4) as u64;
    match random.below(9) {
        0 => course.open(client),
        1 => course.close(client),
        2 => {
            let text = *random.pick(&TEXTS);
            course.reading(random.below(5) as u64, text);
        }
        3 => course.piece(client, "read mf"),
        4 => course.piece(client, "\n"),
        5 => course.line(client, "activate"),
        6 => course.unreadable(random.below(5) as u64, random.below(6) as u64),
        7 => {
            let line = *random.pick(&[":p 5", "t1:p", "read t1:p", "deactivate mf", "_count"]);
            course.line(client, line);
        }
        _ => {
            let text = *random.pick(&TEXTS);
            course.line(client, &format!("change t1:p {text}"));
        }
    }
}
