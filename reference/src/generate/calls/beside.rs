//! Calls that are lent an index (M-105): none, one filled from the table, one of
//! another table, one that is scribbled over, and ones of other lengths.

use super::course::Course;
use crate::generate::parts::{command, digit, module, parameter, readonly, table};
use crate::generate::{encode, indexes};
use crate::index::{self, FREE, INDEX};
use crate::table::Table;

/// Lines that seek an accessible, and lines that don't.
const LINES: [&str; 26] = [
    "read m:a19",
    "read m:a76",
    "read n:value",
    "read m:a237",
    "read m:a282",
    "read m:A19",
    "read m:a76:more",
    "read n:a19",
    "read o:a19",
    "read m",
    "read m:1a",
    "change m:a76 7",
    "change m:a76 70",
    "change n:value 7",
    "change m:nothing 7",
    "do m:a237",
    "do m:a237 1",
    "do m:a19",
    "check m:a76 7",
    "check m:a237 7",
    "check o:a19 7",
    "_count",
    "activate m:a19",
    "ping m:a19",
    "describe",
    "",
];

/// Two accessibles that start from the last place and one from the first; and
/// one in another module.
fn beside() -> Table {
    let first = module(
        "m",
        vec![
            parameter("a19", digit(), "0"),
            command("a237", None),
            parameter("a76", digit(), "3"),
        ],
    );
    let second = module("n", vec![readonly("value", digit(), "1")]);
    table(vec![first, second])
}

fn another() -> Table {
    let accessibles = ["a237", "value", "a19", "x", "y", "a76"];
    let accessibles = accessibles.map(|name| parameter(name, digit(), "0"));
    table(vec![module("m", accessibles.to_vec())])
}

fn filled(table: &Table, length: usize) -> Vec<u8> {
    let mut index = vec![7; length];
    index::fill(&encode::table(table), &mut index).expect("a good table");
    index
}

pub(super) fn all(course: &mut Course) {
    let good = filled(&beside(), INDEX);
    let mut scribbled = good.clone();
    scribbled[127] = 2;
    scribbled[0] = 4;
    scribbled[2] = 254;
    let indexes = [
        Vec::new(),
        good,
        filled(&beside(), INDEX + 1),
        filled(&another(), INDEX),
        scribbled,
        vec![FREE; INDEX],
        vec![0; INDEX],
        vec![200; INDEX],
    ];
    let edition = Table {
        edition: Some(b"ISSE,SECoP,x".to_vec()),
        ..beside()
    };
    for (number, index) in indexes.iter().enumerate() {
        every_line(course, &format!("index {number}"), &beside(), index);
    }
    every_line(course, "index of an edition", &edition, &indexes[1]);
    crowded(course);
    short(course);
}

fn every_line(course: &mut Course, name: &str, table: &Table, index: &[u8]) {
    course.started(name, &encode::table(table));
    course.lend(index);
    course.open(0);
    course.lines(0, &LINES);
    course.piece(0, "read m:a");
    course.piece(0, "19\nread");
    course.reading(1, "4");
    course.unreadable(0, 2);
    course.lines(0, &["read m:a19", "read m:a76"]);
    course.close(0);
    course.lend(&[]);
    course.show();
}

/// As many accessibles as there may be, all from one place: the bounds of 64 and
/// 192 steps are reached.
fn crowded(course: &mut Course) {
    let table = indexes::starting_from(&[100]);
    let names = table.modules[0].accessibles.iter();
    let mut lines: Vec<String> = names
        .map(|one| format!("read m:{}", String::from_utf8_lossy(&one.name)))
        .collect();
    lines.push("read m:nothing".to_string());
    course.started("crowded indexes", &encode::table(&table));
    course.open(0);
    for index in [Vec::new(), filled(&table, INDEX), vec![0; INDEX]] {
        course.lend(&index);
        lines.iter().for_each(|line| course.line(0, line));
    }
    course.lend(&[]);
    course.show();
}

/// Too short an index is 18 for each call; a start is lent none.
fn short(course: &mut Course) {
    course.started("short indexes", &encode::table(&beside()));
    for length in [1, 64, 127] {
        course.lend(&vec![FREE; length]);
        course.open(0);
        course.close(0);
        course.line(0, "read m:a19");
        course.reading(1, "4");
        course.unreadable(0, 2);
        course.start();
    }
    course.lend(&[]);
    course.show();
}
