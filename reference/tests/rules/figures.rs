//! M-111: the night in numbers.

use crate::build::*;
use reference::generate::nights::{self, Night};
use reference::replay::{told, Event, Kind};

fn event(kind: Kind, number: u8, bytes: &[u8]) -> Event {
    Event {
        kind,
        number,
        time: 2_000,
        bytes: bytes.to_vec(),
    }
}

fn reading(number: u8, text: &str) -> Event {
    event(Kind::Reading, number, text.as_bytes())
}

fn line(text: &str) -> Event {
    event(Kind::Piece, 0, format!("{text}\n").as_bytes())
}

/// The figures of events, after client 0 is open, over parameters of these
/// datainfos with these initial values, p0 and so on.
fn figures(parameters: &[(Vec<u8>, &str)], events: &[Event]) -> Vec<String> {
    let accessibles: Vec<Vec<u8>> = parameters
        .iter()
        .enumerate()
        .map(|(at, (datainfo, initial))| pa(&format!("p{at}"), "", 0, datainfo, initial.as_bytes()))
        .collect();
    let opened = event(Kind::Open, 0, b"").to_bytes();
    let trace = events.iter().flat_map(Event::to_bytes);
    let text = told(
        &one_module(&accessibles),
        1_000,
        &opened.into_iter().chain(trace).collect::<Vec<u8>>(),
    );
    let text = String::from_utf8(text).expect("text");
    let lines: Vec<&str> = text.lines().collect();
    // One line for each parameter, the last that are told.
    lines[lines.len() - parameters.len()..]
        .iter()
        .map(|line| line.strip_prefix("t1:").expect("a module").to_string())
        .collect()
}

fn number(min: i64, max: i64) -> (Vec<u8>, &'static str) {
    (int(min, max), "0")
}

// R-16 to R-18
#[test]
fn the_lines_of_the_document() {
    let mode = enumeration(&[("off", 0), ("on", 1)]);
    let parameters = [number(0, 20), number(0, 20), (mode, "0")];
    let events = [
        line("change t1:p0 12"),
        reading(0, "3"),
        line("change t1:p2 \"on\""),
        reading(2, "1"),
        line("change t1:p2 0"),
        reading(2, "0"),
    ];
    let expected = [
        "p0 count 2 least 3 greatest 12 sum 15",
        "p1 count 0 none",
        "p2 count 4",
    ];
    assert_eq!(figures(&parameters, &events), expected);
}

// R-15
#[test]
fn only_accepted_settings_count_and_the_same_value_counts_again() {
    let events = [
        reading(0, " 7 "),
        reading(0, "21"),
        reading(0, "7.0"),
        line("change t1:p0 21"),
        line("change t1:p0 \"7\""),
        line("change t1:nope 7"),
        line("read t1:p0"),
        line("do t1:p0"),
        event(Kind::Unreadable, 0, &[1]),
        event(Kind::Piece, 3, b"change t1:p0 8\n"),
        line("change t1:p0 7"),
        line("change t1:p0 7"),
    ];
    let expected = ["p0 count 3 least 7 greatest 7 sum 21"];
    assert_eq!(figures(&[number(0, 20)], &events), expected);
    let failed = [event(Kind::Unreadable, 0, &[2])];
    assert_eq!(figures(&[number(0, 20)], &failed), ["p0 count 0 none"]);
}

// R-16
#[test]
fn minus_zero_is_zero_and_sums_are_exact() {
    let events = [reading(0, "-0"), reading(0, "-0")];
    let zero = ["p0 count 2 least 0 greatest 0 sum 0"];
    assert_eq!(figures(&[number(-5, 5)], &events), zero);
    let ends = [
        reading(0, "-2147483648"),
        reading(0, "2147483647"),
        reading(0, "-2147483648"),
    ];
    let expected = ["p0 count 3 least -2147483648 greatest 2147483647 sum -2147483649"];
    assert_eq!(figures(&[number(-1 << 31, (1 << 31) - 1)], &ends), expected);
}

// R-16
#[test]
fn limits_of_32_bits_are_within_and_one_more_is_not() {
    let least = -1 << 31;
    let greatest = (1 << 31) - 1;
    let tenths = |min, max| (scaled((1, -1), min, max), "0");
    let parameters = [
        number(least, greatest),
        number(least - 1, greatest),
        number(least, greatest + 1),
        tenths(least, greatest),
        tenths(least - 1, greatest),
        tenths(least, greatest + 1),
    ];
    let events: Vec<Event> = (0..6).map(|at| reading(at, "-31")).collect();
    let expected = [
        "p0 count 1 least -31 greatest -31 sum -31",
        "p1 count 1",
        "p2 count 1",
        "p3 count 1 least -31 greatest -31 sum -31",
        "p4 count 1",
        "p5 count 1",
    ];
    assert_eq!(figures(&parameters, &events), expected);
    let wide = figures(&[number(least - 1, 0)], &[]);
    assert_eq!(wide, ["p0 count 0"]);
}

// R-18
#[test]
fn other_types_have_a_count_only() {
    let parameters = [
        (double((0, 0), (300, 0)), "4"),
        (boolean(), "true"),
        (string(0, 9), "\"\""),
        (blob(0, 9), "\"\""),
        (array(0, 3, &int(0, 9)), "[]"),
        (tuple(&[int(0, 9)]), "[1]"),
        (structure(&[("a", int(0, 9))]), "{\"a\":1}"),
    ];
    let events = [reading(0, "5"), reading(4, "[1,2]")];
    let expected = [
        "p0 count 1",
        "p1 count 0",
        "p2 count 0",
        "p3 count 0",
        "p4 count 1",
        "p5 count 0",
        "p6 count 0",
    ];
    assert_eq!(figures(&parameters, &events), expected);
}

// R-15
#[test]
fn a_change_of_part_of_a_struct_counts() {
    let pair = partial(&[(1, "a", int(0, 9)), (1, "b", int(0, 9))]);
    let events = [
        line(r#"change t1:p0 {"b":3}"#),
        line("change t1:p0 {}"),
        line(r#"change t1:p0 {"c":3}"#),
    ];
    assert_eq!(
        figures(&[(pair, r#"{"a":1,"b":2}"#)], &events),
        ["p0 count 2"]
    );
}

// R-19
#[test]
fn a_parameter_is_full_at_65_535_settings_and_keeps_those() {
    // By the residues of 7 k, 19 settings in a row are -9 to 9, which sum to 0.
    let rest = |count: i64| -> i64 { (0..count % 19).map(|k| k * 7 % 19 - 9).sum() };
    for (count, kept, full) in [
        (65_534, 65_534, ""),
        (65_535, 65_535, " full"),
        (65_536, 65_535, " full"),
    ] {
        let Night { table, time, trace } = nights::settings(count);
        let text = String::from_utf8(told(&table, time, &trace)).expect("text");
        let field = format!(
            "mf:field count {kept} least -9 greatest 9 sum {}{full}",
            rest(kept)
        );
        let mode = format!("mf:mode count {kept}{full}");
        assert!(text.lines().any(|line| line == field), "{text}");
        assert!(text.lines().any(|line| line == mode), "{text}");
    }
}

// R-14
#[test]
fn figures_come_last_and_none_after_a_refused_start() {
    let table = one_module(&[pa("p", "", 0, &int(0, 9), b"1")]);
    let whole = reading(0, "2").to_bytes();
    let told = |trace: &[u8]| String::from_utf8(told(&table, 5, trace)).expect("text");
    let figures = "t1:p count 1 least 2 greatest 2 sum 2\n";
    assert_eq!(told(&whole), format!("t1:p 2\n{figures}"));
    let wrong = [whole.as_slice(), b"XX"].concat();
    assert_eq!(told(&wrong), format!("t1:p 2\nwrong 14\n{figures}"));
    let half = [whole.as_slice(), b"ER"].concat();
    assert_eq!(told(&half), format!("t1:p 2\nhalf 14\n{figures}"));
    assert_eq!(reference::replay::told(&[], 5, &whole), b"start 1\n");
}
