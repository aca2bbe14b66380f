//! Part of a struct: every part of five members in every order, keys twice and
//! unknown keys, 255 to 257 bytes after the merge, the same after an error,
//! where all members are required, and what `check` shows of a part.

use super::course::Course;
use crate::datainfo::Datainfo;
use crate::generate::encode;
use crate::generate::parts::{command, digit, enumeration, module, parameter, string, table};
use crate::table::{Module, Table};

pub(super) fn all(course: &mut Course) {
    every_part(course);
    around_the_limit(course);
    in_error(course);
    elsewhere(course);
    checked(course);
}

const NAMES: [&str; 5] = ["p", "i", "d", "ramp", "mode"];
const INITIAL: &str = r#"{"p":1,"i":2,"d":3,"ramp":"a","mode":1}"#;

/// Five members, some of them optional.
fn heater(optional: [bool; 5]) -> Datainfo {
    let switch = enumeration(&[("off", 0), ("on", 1)]);
    let types = [digit(), digit(), digit(), string(0, 250), switch];
    let members = NAMES.map(|name| name.as_bytes().to_vec());
    Datainfo::Partial {
        optional: optional.to_vec(),
        members: members.into_iter().zip(types).collect(),
    }
}

/// A node with a heater that client 1 watches and client 0 changes.
fn heated(course: &mut Course, name: &str, optional: [bool; 5]) {
    watched(course, name, table(vec![heaters(optional)]));
}

fn heaters(optional: [bool; 5]) -> Module {
    module("t1", vec![parameter("heater", heater(optional), INITIAL)])
}

fn watched(course: &mut Course, name: &str, table: Table) {
    course.started(name, &encode::table(&table));
    course.open(0);
    course.open(1);
    course.line(1, "activate t1");
}

fn change(course: &mut Course, data: &str) {
    course.line(0, &format!("change t1:heater {data}"));
}

/// All orders of some places.
fn orders(places: &[usize]) -> Vec<Vec<usize>> {
    if places.is_empty() {
        return vec![Vec::new()];
    }
    let with_first = |at: usize| {
        let others = [&places[..at], &places[at + 1..]].concat();
        let orders = orders(&others).into_iter();
        orders.map(move |order| [vec![places[at]], order].concat())
    };
    (0..places.len()).flat_map(with_first).collect()
}

/// The n-th change gives some members, in an order, values that go with n.
fn part(n: usize, order: &[usize]) -> String {
    let one = |&at: &usize| match at {
        3 => format!(r#""ramp":"r{n}""#),
        4 => format!(r#""mode":"{}""#, ["off", "on"][n % 2]),
        at => format!(r#""{}":{}"#, NAMES[at], (n + at) % 10),
    };
    let members: Vec<_> = order.iter().map(one).collect();
    format!("{{{}}}", members.join(","))
}

fn every_part(course: &mut Course) {
    heated(course, "every part of a struct", [true; 5]);
    let mut n = 0;
    for given in 0..32 {
        let places: Vec<usize> = (0..5).filter(|at| given >> at & 1 == 1).collect();
        for order in orders(&places) {
            change(course, &part(n, &order));
            n += 1;
        }
    }
    course.show();
    heated(
        course,
        "members that are required",
        [true, false, true, true, false],
    );
    for data in [
        "{}",
        r#"{"p":5}"#,
        r#"{"i":5}"#,
        r#"{"mode":"off","i":5}"#,
        r#"{"i":6,"mode":0,"p":7}"#,
        r#"{"i":6,"i":6,"mode":0}"#,
        r#"{"i":6,"mode":0,"x":1}"#,
        r#"{"I":6,"mode":0}"#,
        r#"{"i":10,"mode":0}"#,
        r#"{"i":10,"mode":0,"x":1}"#,
        r#"{"i":6,"mode":"of"}"#,
        r#"{"\u0069":6,"mode":0}"#,
        "[]",
        "",
    ] {
        change(course, data);
    }
    course.show();
}

/// What is stored has as many bytes as the initial value and those of the ramp
/// that are more than one.
fn around_the_limit(course: &mut Course) {
    heated(course, "256 bytes after the merge", [true; 5]);
    for length in 255..=257 {
        let ramp = "x".repeat(length - INITIAL.len() + 1);
        change(course, &format!(r#"{{"ramp":"{ramp}"}}"#));
        change(course, r#"{"mode":"off"}"#);
        change(course, r#"{"mode":"on","p":0}"#);
    }
    course.show();
}

fn in_error(course: &mut Course) {
    heated(course, "part of a struct in error", [true; 5]);
    change(course, r#"{"p":4}"#);
    course.unreadable(0, 1);
    for data in ["{}", r#"{"p":5}"#, r#"{"p":10}"#, r#"{"p":}"#] {
        change(course, data);
    }
    course.line(0, "read t1:heater");
    change(course, INITIAL);
    change(course, r#"{"p":5}"#);
    course.unreadable(0, 2);
    course.reading(0, r#"{"p":5}"#);
    course.reading(0, r#"{"mode":"off","ramp":"b","d":1,"i":2,"p":3}"#);
    change(course, r#"{"d":9}"#);
    course.show();
}

/// Inside a value and in an argument nothing may be left out, and inside a
/// value the order stays.
fn elsewhere(course: &mut Course) {
    let list = Datainfo::Array {
        minlen: 0,
        maxlen: 2,
        members: Box::new(heater([true; 5])),
    };
    let accessibles = vec![
        parameter("list", list, "[]"),
        command("go", Some(heater([true; 5]))),
    ];
    let bytes = encode::table(&table(vec![module("t1", accessibles)]));
    course.started("where all members are required", &bytes);
    course.open(0);
    let turned = r#"{"mode":"on","ramp":"","d":1,"i":2,"p":3}"#;
    for data in ["[{}]", r#"[{"p":1}]"#, &format!("[{turned}]")] {
        course.line(0, &format!("change t1:list {data}"));
    }
    for data in ["{}", r#"{"p":1}"#, turned] {
        course.line(0, &format!("do t1:go {data}"));
    }
    course.line(0, "describe");
    course.show();
}

/// By turns with changes, over a table of the next edition: a check judges and
/// shows the merged value, and nothing is stored.
fn checked(course: &mut Course) {
    let mut table = table(vec![heaters([true, false, true, true, true])]);
    table.edition = Some(b"ISSE,SECoP,x".to_vec());
    watched(course, "check of part of a struct", table);
    let check = |course: &mut Course, data: &str| {
        course.line(0, &format!("check t1:heater {data}"));
    };
    for data in [
        r#"{"i":5}"#,
        r#"{"mode":"off","i":5}"#,
        r#"{ "ramp" : "b c" , "i" : 6 }"#,
        r#"{"p":5}"#,
        "{}",
        r#"{"i":6,"i":6}"#,
        r#"{"i":6,"x":1}"#,
        r#"{"i":10}"#,
        r#"{"i":6,"mode":"of"}"#,
        r#"{"i":}"#,
        "",
    ] {
        check(course, data);
    }
    change(course, r#"{"i":7,"mode":"off"}"#);
    check(course, r#"{"d":8,"i":9}"#);
    for length in 255..=257 {
        let ramp = "x".repeat(length - INITIAL.len() + 1);
        check(course, &format!(r#"{{"i":1,"ramp":"{ramp}"}}"#));
    }
    course.line(0, "read t1:heater");
    course.unreadable(0, 1);
    for data in [r#"{"i":5}"#, r#"{"i":10}"#, INITIAL] {
        check(course, data);
    }
    course.line(0, "read t1:heater");
    course.reading(0, r#"{"mode":"on","ramp":"b","d":1,"i":2,"p":3}"#);
    check(course, r#"{"i":5}"#);
    course.show();
}
