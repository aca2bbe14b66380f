//! The examples on the rules' page, `docs/RULES.md`, are what this program
//! does: bytes of a table, of the outbox and of a trace, the report, the texts
//! of errors, and values that fit or don't.

use crate::build::*;
use reference::error::ErrorClass;
use reference::index;
use reference::replay::told;
use reference::report;
use reference::table::{Kind, Table};
use reference::value::{judge, ValueFault};
use std::fs;

/// The page's text from a rule's number to the next rule or heading.
fn rule(number: &str) -> String {
    let page = concat!(env!("CARGO_MANIFEST_DIR"), "/../docs/RULES.md");
    let page = fs::read_to_string(page).expect("the page");
    let begin = format!("**{number}.**");
    let lines = page.lines().skip_while(|line| !line.starts_with(&begin));
    let ends = |line: &&str| {
        !line.starts_with('#') && (!line.starts_with("**") || line.starts_with(&begin))
    };
    let text: Vec<&str> = lines.take_while(ends).collect();
    assert!(!text.is_empty(), "{number} is not on the page");
    text.join("\n")
}

/// The bytes that a rule's indented lines begin with, line by line.
fn bytes_of(text: &str) -> Vec<Vec<u8>> {
    let lines = text.lines().filter(|line| line.starts_with("    "));
    let byte = |word: &str| match word.len() {
        2 => u8::from_str_radix(word, 16).ok(),
        _ => None,
    };
    lines
        .map(|line| line.split_whitespace().map_while(byte).collect())
        .collect()
}

// T-3
#[test]
fn the_table() {
    let bytes = bytes_of(&rule("T-3")).concat();
    let table = Table::judge(&bytes).expect("a good table");
    assert_eq!(table.equipment_id, b"demo");
    let module = &table.modules[0];
    assert_eq!(
        (&module.name[..], &module.description[..]),
        (&b"t1"[..], &b"stage"[..])
    );
    let value = &module.accessibles[0];
    assert_eq!(
        (&value.name[..], module.accessibles.len()),
        (&b"value"[..], 1)
    );
    let Kind::Parameter {
        readonly, initial, ..
    } = &value.kind
    else {
        panic!("a parameter")
    };
    assert_eq!((*readonly, &initial[..]), (true, &b"4"[..]));
    let told = String::from_utf8(report::write(&table)).expect("ASCII");
    assert!(told.contains(r#""datainfo":{"type":"int","min":0,"max":300}"#));
}

// T-34
#[test]
fn the_report() {
    let page = rule("T-34");
    let lines = page.lines().filter_map(|line| line.strip_prefix("    "));
    let table = Table::judge(&report_example()).expect("a good table");
    let due = String::from_utf8(report::write(&table)).expect("ASCII");
    assert_eq!(lines.collect::<String>(), due);
}

// L-10
#[test]
fn the_texts_of_errors() {
    let page = rule("L-10");
    let rows = page
        .lines()
        .filter(|line| line.contains('`') && line.starts_with('|'));
    let rows: Vec<(&str, &str)> = rows
        .map(|row| row.split('|').map(str::trim).collect::<Vec<_>>())
        .map(|cells| (cells[1], cells[2].trim_matches('`')))
        .collect();
    let classes = [
        ErrorClass::ProtocolError,
        ErrorClass::NoSuchModule,
        ErrorClass::NoSuchParameter,
        ErrorClass::NoSuchCommand,
        ErrorClass::ReadOnly,
        ErrorClass::BadJson,
        ErrorClass::WrongType,
        ErrorClass::RangeError,
    ];
    assert_eq!(rows, classes.map(|class| (class.name(), class.text())));
}

// L-21
#[test]
fn the_outbox() {
    let kelvin = double((0, 0), (300, 0));
    let table = one_module(&[
        pa("value", "", 1, &kelvin, b"0"),
        pa("target", "", 0, &kelvin, b"0"),
    ]);
    let mut node = started(&table, &[2, 5], 1000);
    for client in [2, 5] {
        send(&mut node, client, 1000, "activate t1");
    }
    let (_, mut written) = send_bytes(&mut node, 2, 1500, b"change t1:target 12\n");
    // the page has a record's first bytes; where it is cut its line follows
    for head in bytes_of(&rule("L-21")) {
        assert!(written.starts_with(&head), "{head:x?}");
        let length = usize::from(u16::from_be_bytes([head[3], head[4]]));
        written.drain(..5 + length);
    }
    assert!(written.is_empty());
}

// I-3
#[test]
fn the_place_of_a_name() {
    assert!(rule("I-3").contains("`t1:target` starts from place 13"));
    assert_eq!(index::start(b"t1", b"target"), 13);
}

// R-1
#[test]
fn the_trace() {
    let trace = bytes_of(&rule("R-1")).concat();
    let table = one_module(&[pa("p", "", 0, &int(0, 9), b"4")]);
    assert_eq!(told(&table, 5, &trace), b"t1:p 4\nt1:p count 0 none\n");
    assert_eq!(&trace[trace.len() - 5..], b"ping\n");
    // the page's client opens, so its piece is not refused by 12
    assert!(told(&table, 5, &trace[13..]).starts_with(b"t1:p 4\nrefused 12 1\n"));
}

/// What a page's row of E1 to E8 says of a value.
fn verdict(word: &str) -> Result<(), ValueFault> {
    match word {
        "fits" => Ok(()),
        "WrongType" => Err(ValueFault::WrongType),
        "BadJSON" => Err(ValueFault::BadJson),
        "RangeError" => Err(ValueFault::RangeError),
        other => panic!("{other}"),
    }
}

// V-1, V-5, V-6, V-8
#[test]
fn the_worked_values() {
    let page = concat!(env!("CARGO_MANIFEST_DIR"), "/../docs/RULES.md");
    let page = fs::read_to_string(page).expect("the page");
    let table = |max| Table::judge(&one_module(&[pa("p", "", 0, &double((0, 0), max), b"0")]));
    for number in 1..=8 {
        let begin = format!("| E{number} | `");
        let row = page.lines().find(|line| line.starts_with(&begin));
        let cells: Vec<&str> = row.expect("its row").split('|').map(str::trim).collect();
        let text = cells[2].split('`').nth(1).expect("a text");
        let max = if number == 8 { (250, -2) } else { (300, 0) };
        let table = table(max).expect("a good table");
        let Kind::Parameter { datainfo, .. } = &table.modules[0].accessibles[0].kind else {
            panic!("a parameter")
        };
        let judged = judge(datainfo, text.as_bytes()).map(|_| ());
        assert_eq!(judged, verdict(cells[3]), "E{number}");
    }
}
