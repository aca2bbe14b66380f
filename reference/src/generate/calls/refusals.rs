//! Every number for each call that can answer with it, and pairs of faults,
//! where the one that is judged first is due.

use super::course::Course;
use crate::generate::parts::{array, command, digit, enumeration, module, parameter, table};
use crate::generate::{borders, datainfos, encode};
use crate::history::Call;
use crate::node::{MAX_TIME, MIN_VALUES};
use crate::operation::Poke;
use crate::outbox::MIN_OUTBOX;
use crate::table::{Accessible, Table};

#[derive(Clone, Copy, PartialEq)]
enum Kind {
    Start,
    Open,
    Close,
    Piece,
    Reading,
    Unreadable,
}

const KINDS: [Kind; 6] = [
    Kind::Start,
    Kind::Open,
    Kind::Close,
    Kind::Piece,
    Kind::Reading,
    Kind::Unreadable,
];

pub(super) fn all(course: &mut Course) {
    over_a_good_table(course);
    over_faulty_tables(course);
    at_borders(course);
    restarted(course);
}

/// The numbers from 7 on that a kind of call can answer with, in the order in
/// which they are judged.
fn numbers(kind: Kind) -> &'static [u8] {
    match kind {
        Kind::Start => &[8, 10],
        Kind::Open => &[8, 18, 9, 10, 11, 13],
        Kind::Close => &[8, 18, 9, 10, 11, 12],
        Kind::Piece => &[7, 8, 18, 9, 10, 11, 12],
        Kind::Reading => &[7, 8, 18, 9, 10, 14, 15],
        Kind::Unreadable => &[7, 8, 18, 9, 10, 14, 16],
    }
}

/// A call with the faults given, and no other. Client 0 is open, 1 is closed.
fn faulty_call(kind: Kind, faults: &[u8], now: u64) -> Call {
    let has = |number| faults.contains(&number);
    let values_len = MIN_VALUES - usize::from(has(8));
    let outbox_len = MIN_OUTBOX - usize::from(has(7));
    let time = if has(10) { MAX_TIME + 1 } else { now };
    let client = match (has(11), kind == Kind::Open, has(12) || has(13)) {
        (true, _, _) => 8,
        (_, true, false) | (_, false, true) => 1,
        _ => 0,
    };
    match kind {
        Kind::Start => Call::Start { values_len, time },
        Kind::Open => Call::Open {
            client,
            values_len,
            time,
        },
        Kind::Close => Call::Close {
            client,
            values_len,
            time,
        },
        Kind::Piece => Call::Piece {
            client,
            values_len,
            outbox_len,
            time,
            bytes: b"change m:p 5\nx".to_vec(),
        },
        Kind::Reading => Call::Reading {
            parameter: u64::from(has(14)),
            values_len,
            outbox_len,
            time,
            text: if has(15) { "10" } else { "5" }.into(),
        },
        Kind::Unreadable => Call::Unreadable {
            parameter: u64::from(has(14)),
            values_len,
            outbox_len,
            time,
            class: if has(16) { 5 } else { 4 },
        },
    }
}

/// Makes a call with the faults given; an unfit state is made fit again.
fn make(course: &mut Course, kind: Kind, faults: &[u8]) {
    let unfit = [Poke::Overlong(7, 1)];
    let pokes = if faults.contains(&9) { &unfit[..] } else { &[] };
    let index: &[u8] = if faults.contains(&18) { &[0; 127] } else { &[] };
    course.poked_for(pokes, |course| {
        let now = course.now();
        course.lend(index);
        course.call(faulty_call(kind, faults, now));
        course.lend(&[]);
    });
}

fn good_table() -> Vec<u8> {
    encode::table(&table(vec![module(
        "m",
        vec![parameter("p", digit(), "3")],
    )]))
}

/// Each fault and each pair of faults that the table has no part in.
fn over_a_good_table(course: &mut Course) {
    course.started("refusals", &good_table());
    course.open(0);
    course.line(0, "activate");
    course.reading(0, "4");
    for kind in &KINDS[1..] {
        for (at, first) in numbers(*kind).iter().enumerate() {
            make(course, *kind, &[*first]);
            for second in &numbers(*kind)[at + 1..] {
                make(course, *kind, &[*first, *second]);
            }
        }
    }
    make(course, Kind::Close, numbers(Kind::Close));
    make(course, Kind::Reading, numbers(Kind::Reading));
    make(course, Kind::Unreadable, numbers(Kind::Unreadable));
    course.show();
    for client in [8, 9, 255, 256, 1 << 32, u64::MAX] {
        course.open(client);
        course.close(client);
        course.line(client, "ping");
    }
    for parameter in [1, 2, 63, 64, 255, 256, 1 << 32, u64::MAX] {
        course.reading(parameter, "5");
        course.unreadable(parameter, 1);
        course.unreadable(parameter, 0);
    }
    for class in [0, 5, 255, 256, 257, 260, 1 << 32, (1 << 32) + 1, u64::MAX] {
        course.unreadable(0, class);
    }
    for text in ["", " ", "null", "01", "4 5", "\n4", "4\u{80}", "-1", "4.0"] {
        course.reading(0, text);
    }
    course.show();
    for faults in [&[8][..], &[10], &[8, 10]] {
        make(course, Kind::Start, faults);
    }
    course.show();
    course.call(Call::Start {
        values_len: MIN_VALUES,
        time: MAX_TIME,
    });
    course.show();
}

/// One table for each number and each pair of numbers.
fn over_faulty_tables(course: &mut Course) {
    let all: Vec<u8> = (1..=6).collect();
    for (at, first) in all.iter().enumerate() {
        over_faulty_table(course, &[*first]);
        for second in &all[at + 1..] {
            over_faulty_table(course, &[*first, *second]);
        }
    }
    // A value that was set where it shouldn't be is not to show further on.
    let as_it_is = course.kept().values[..1].to_vec();
    course.poke(Poke::Values(0, as_it_is));
}

/// Each kind of call over a table with the faults, alone and with each other
/// fault of its own.
fn over_faulty_table(course: &mut Course, faults: &[u8]) {
    course.started(&format!("tables with {faults:?}"), &good_table());
    course.open(0);
    course.table(&table_with(faults));
    let others = |kind| match faults.len() {
        1 => numbers(kind),
        _ => &[],
    };
    for kind in KINDS.iter().rev() {
        make(course, *kind, &[]);
        for other in others(*kind) {
            make(course, *kind, &[*other]);
        }
    }
}

/// A table with a fault of each number given.
fn table_with(numbers: &[u8]) -> Vec<u8> {
    let has = |number| numbers.contains(&number);
    let mut accessibles = vec![parameter("p", digit(), if has(5) { "3 " } else { "3" })];
    if has(4) {
        let swapped = array(1, 0, digit());
        accessibles.push(command("c", Some(swapped)));
    }
    if has(3) {
        let twice = enumeration(&[("a", 0), ("A", 1)]);
        accessibles.push(command("d", Some(twice)));
    }
    if has(6) {
        let bulky = (0..4).map(|at| command(&format!("b{at}"), Some(datainfos::bulky(4))));
        accessibles.extend(bulky);
    }
    if has(2) {
        let many = (0..64).map(|at| command(&format!("n{at}"), None));
        accessibles.extend(many);
    }
    let mut bytes = encode::table(&one_module(accessibles));
    if has(1) {
        bytes.push(b'E');
    }
    bytes
}

fn one_module(accessibles: Vec<Accessible>) -> Table {
    table(vec![module("m", accessibles)])
}

/// A start and more over the tables at each border. The calls over the largest
/// report and the most values write the most bytes.
fn at_borders(course: &mut Course) {
    for border in borders::all() {
        course.started(border.name, &border.bytes);
        course.open(4);
        if border.number == 0 {
            course.lines(4, &["describe", "activate"]);
        }
    }
}

/// A start forgets everything; a refused one too, and can be gone on with.
fn restarted(course: &mut Course) {
    let late = Call::Start {
        values_len: MIN_VALUES,
        time: MAX_TIME + 1,
    };
    course.started("started again", &good_table());
    course.open(2);
    course.line(2, "activate");
    course.reading(0, "4");
    course.piece(2, "read m:");
    course.show();
    course.start();
    course.show();
    course.open(2);
    course.line(2, "read m:p");
    course.reading(0, "5");
    course.call(late);
    course.show();
    course.open(2);
    course.lines(2, &["read m:p", "change m:p 6", "read m:p"]);
    course.show();
}
