//! Lists of readings over a kept state: every number that a list is refused for,
//! alone and in pairs, every reading that stops one, and unfit states.

use super::course::Course;
use crate::generate::encode;
use crate::generate::parts::{command, digit, module, parameter, string, table};
use crate::history::Call;
use crate::index::INDEX;
use crate::list::{Row, MAX_ROWS};
use crate::node::{MAX_TIME, MIN_VALUES};
use crate::operation::Poke;
use crate::outbox::MIN_OUTBOX;

/// The numbers from 7 on that a list is refused for as a whole, in the order in
/// which they are judged.
const WHOLE: [u8; 5] = [7, 8, 18, 17, 9];

/// Parameters: 0 m:p, 1 m:s and 2 n:q.
fn good_table() -> Vec<u8> {
    let first = vec![
        parameter("p", digit(), "3"),
        command("c", None),
        parameter("s", string(0, 250), "\"\""),
    ];
    let second = vec![parameter("q", digit(), "1")];
    encode::table(&table(vec![module("m", first), module("n", second)]))
}

/// The texts `5`, `"abc"`, `x`, `8` and ` 6 `, one after another.
const TEXTS: &[u8] = b"5\"abc\"x8 6 ";

fn row(parameter: u64, time: u64, offset: u64, length: u64) -> Row {
    Row {
        parameter,
        time,
        offset,
        length,
    }
}

/// Three readings that are good.
fn good(now: u64) -> Vec<Row> {
    vec![row(0, now, 0, 1), row(1, now + 1, 1, 5), row(2, 0, 8, 3)]
}

/// Readings that stop a list: with each number, and with two.
fn bad(now: u64) -> Vec<Row> {
    let late = MAX_TIME + 1;
    let mut rows = vec![
        row(0, late, 0, 1),
        row(3, now, 0, 1),
        row(0, now, 6, 1),
        row(3, late, 0, 1),
        row(0, late, 6, 1),
        row(3, now, 6, 1),
        row(0, now, 1, 5),
        row(0, now, 0, 0),
    ];
    let end = TEXTS.len() as u64;
    let out = [
        (end, 0),
        (end, 1),
        (end - 1, 2),
        (end + 1, 0),
        (0, end + 1),
        (0, u64::MAX),
        (1, u64::MAX),
        (u64::MAX, 1),
        (u64::MAX, 2),
        (u64::MAX, u64::MAX),
        (1 << 32, 1),
    ];
    rows.extend(out.map(|(offset, length)| row(0, now, offset, length)));
    rows.extend([64, 255, 256, 1 << 32, u64::MAX].map(|number| row(number, now, 0, 1)));
    rows
}

fn list(course: &mut Course, rows: Vec<Row>) {
    course.call(Call::Readings {
        values_len: MIN_VALUES,
        outbox_len: MIN_OUTBOX,
        rows,
        texts: TEXTS.to_vec(),
    });
}

/// A list with the faults given as a whole.
fn faulty(course: &mut Course, faults: &[u8], mut rows: Vec<Row>) {
    let has = |number| faults.contains(&number);
    let unfit = [Poke::Overlong(7, 1)];
    let pokes = if has(9) { &unfit[..] } else { &[] };
    if has(17) {
        rows.resize(MAX_ROWS + 1, row(0, 1, 0, 1));
    }
    course.poked_for(pokes, |course| {
        course.lend(if has(18) { &[0; INDEX - 1] } else { &[] });
        course.call(Call::Readings {
            values_len: MIN_VALUES - usize::from(has(8)),
            outbox_len: MIN_OUTBOX - usize::from(has(7)),
            rows,
            texts: TEXTS.to_vec(),
        });
        course.lend(&[]);
    });
}

pub(super) fn all(course: &mut Course) {
    course.started("lists", &good_table());
    course.open(0);
    course.open(5);
    course.line(0, "activate");
    course.line(5, "activate n");
    list(course, good(10_000));
    list(course, Vec::new());
    course.unreadable(0, 2);
    // The values area has what each of them leaves there.
    list(
        course,
        vec![
            row(0, 1, 0, 1),
            row(1, 2, 1, 5),
            row(0, 3, 7, 1),
            row(1, 4, 1, 5),
        ],
    );
    list(course, vec![row(0, 20_000, 0, 1); MAX_ROWS]);
    course.lines(0, &["read m:p", "read m:s", "_count"]);
    course.show();
    stopped(course);
    refused(course);
    over_faulty_tables(course);
}

/// Each of them first, in the midst and last.
fn stopped(course: &mut Course) {
    for bad in bad(30_000) {
        for at in 0..=3 {
            let mut rows = good(30_000);
            rows.insert(at, bad);
            list(course, rows);
        }
    }
    course.show();
}

/// Refused as a whole, alone and in pairs; an empty list too, and one whose first
/// reading would stop it.
fn refused(course: &mut Course) {
    for (at, first) in WHOLE.iter().enumerate() {
        let pairs = WHOLE[at + 1..].iter().map(|second| vec![*first, *second]);
        for faults in std::iter::once(vec![*first]).chain(pairs) {
            faulty(course, &faults, good(40_000));
            faulty(course, &faults, Vec::new());
            faulty(course, &faults, bad(40_000)[..1].to_vec());
        }
    }
    faulty(course, &WHOLE, good(40_000));
    course.show();
}

fn over_faulty_tables(course: &mut Course) {
    let mut unreadable = good_table();
    unreadable.push(b'E');
    let no_module = encode::table(&table(Vec::new()));
    let one = parameter("p", digit(), "3");
    let twice = encode::table(&table(vec![module("m", vec![one.clone(), one])]));
    for bytes in [unreadable, no_module, twice] {
        course.table(&bytes);
        for faults in [vec![], vec![7], vec![17]] {
            faulty(course, &faults, good(50_000));
            faulty(course, &faults, Vec::new());
        }
    }
}
