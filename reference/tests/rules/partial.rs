//! Part of a struct: members that a change may leave out (M-113).

use crate::build::*;
use reference::generate::{second, turns};
use reference::history::{Answer, Call, History};
use reference::node::Node;
use reference::table::Table;
use reference::{report, value};

const NAMES: [&str; 5] = ["p", "i", "d", "ramp", "mode"];
const SHOWN: [&str; 5] = ["1", "2.50", "3", "\"a b\"", "1"];
const SENT: [&str; 5] = ["10", "20e-1", "30", "\"c\"", "\"off\""];
const SENT_STORED: [&str; 5] = ["10", "20e-1", "30", "\"c\"", "0"];

fn heater(optional: [u8; 5]) -> Vec<u8> {
    let members = [
        int(0, 100),
        double((0, 0), (100, 0)),
        int(0, 100),
        string(0, 250),
        enumeration(&[("off", 0), ("on", 1)]),
    ];
    let all = optional.into_iter().zip(NAMES).zip(members);
    let all: Vec<_> = all.map(|((flag, name), one)| (flag, name, one)).collect();
    partial(&all)
}

fn object(members: &[(&str, &str)]) -> String {
    let members = members.iter();
    let members: Vec<_> = members.map(|(k, v)| format!("\"{k}\":{v}")).collect();
    format!("{{{}}}", members.join(","))
}

fn shown() -> String {
    object(&NAMES.into_iter().zip(SHOWN).collect::<Vec<_>>())
}

fn node(optional: [u8; 5]) -> Node {
    let heater = pa(
        "heater",
        "settings",
        0,
        &heater(optional),
        shown().as_bytes(),
    );
    started(&one_module(&[heater]), &[0], 1_000)
}

/// The reply to a line, which comes last.
fn replied(node: &mut Node, line: &str) -> String {
    let records = send(node, 0, 2_000, line);
    line_of(records.last().expect("a reply"))
}

fn asked(node: &mut Node, data: &str) -> String {
    replied(node, &format!("change t1:heater {data}"))
}

fn changed(value: &str) -> String {
    format!("changed t1:heater [{value},{{\"t\":2.000}}]")
}

const WRONG: &str = "error_change t1:heater [\"WrongType\",\"value has the wrong type\",{}]";
const RANGE: &str = "error_change t1:heater [\"RangeError\",\"value is out of range\",{}]";

/// All orders of some places.
fn orders(places: &[usize]) -> Vec<Vec<usize>> {
    if places.is_empty() {
        return vec![Vec::new()];
    }
    let mut all = Vec::new();
    for (at, place) in places.iter().enumerate() {
        let others: Vec<_> = [&places[..at], &places[at + 1..]].concat();
        for order in orders(&others) {
            all.push([&[*place][..], &order].concat());
        }
    }
    all
}

// V-17, V-21
#[test]
fn every_part_in_every_order() {
    for given in 0..32u8 {
        let places: Vec<usize> = (0..5).filter(|at| given >> at & 1 == 1).collect();
        let merged = object(&std::array::from_fn::<_, 5, _>(|at| {
            let part = if places.contains(&at) {
                SENT_STORED
            } else {
                SHOWN
            };
            (NAMES[at], part[at])
        }));
        for order in orders(&places) {
            let sent: Vec<_> = order.iter().map(|&at| (NAMES[at], SENT[at])).collect();
            assert_eq!(asked(&mut node([1; 5]), &object(&sent)), changed(&merged));
        }
    }
}

// V-17
#[test]
fn only_optional_members_are_left_out() {
    let mut node = node([1, 0, 1, 1, 1]);
    assert_eq!(asked(&mut node, "{}"), WRONG);
    assert_eq!(asked(&mut node, r#"{"p":5}"#), WRONG);
    let merged = r#"{"p":1,"i":5,"d":3,"ramp":"a b","mode":1}"#;
    assert_eq!(asked(&mut node, r#" { "i" : 5 } "#), changed(merged));
}

// V-16
#[test]
fn keys_twice_and_unknown_keys() {
    for data in [
        r#"{"p":5,"p":5}"#,
        r#"{"p":5,"x":1}"#,
        r#"{"x":1}"#,
        r#"{"P":5}"#,
        r#"{"p":101,"x":1}"#,
        r#"{"\u0070":5}"#,
        "[]",
        "null",
        "5",
    ] {
        assert_eq!(asked(&mut node([1; 5]), data), WRONG);
    }
    assert_eq!(asked(&mut node([1; 5]), r#"{"p":101}"#), RANGE);
}

// V-22
#[test]
fn counted_after_the_merge() {
    for (length, fits) in [(255, true), (256, true), (257, false)] {
        let mut node = node([1; 5]);
        let ramp = "x".repeat(length - shown().len() + 3);
        let merged = shown().replace("a b", &ramp);
        assert_eq!(merged.len(), length);
        let reply = asked(&mut node, &format!("{{\"ramp\":\"{ramp}\"}}"));
        assert_eq!(reply, if fits { changed(&merged) } else { RANGE.into() });
    }
}

// V-18
#[test]
fn in_error_nothing_is_left_out() {
    let mut node = node([1; 5]);
    assert!(node.unreadable(0, VALUES, OUTBOX, 1_500, 1).is_ok());
    assert_eq!(asked(&mut node, "{}"), WRONG);
    assert_eq!(asked(&mut node, r#"{"p":101}"#), WRONG);
    assert_eq!(
        asked(&mut node, r#"{"p":}"#),
        r#"error_change t1:heater ["BadJSON","data is not JSON",{}]"#
    );
    assert_eq!(asked(&mut node, &shown()), changed(&shown()));
    let merged = shown().replace("\"p\":1", "\"p\":7");
    assert_eq!(asked(&mut node, r#"{"p":7}"#), changed(&merged));
}

// V-17, V-18, L-24
/// Five settings of which only the mode is required, over a table of the next
/// edition, and client 5 watches.
#[test]
fn two_of_five_settings_are_checked_and_changed() {
    let percent = || int(0, 100);
    let settings = partial(&[
        (0, "mode", enumeration(&[("off", 0), ("on", 1)])),
        (1, "p", percent()),
        (1, "i", percent()),
        (1, "limit", double((0, 0), (300, 0))),
        (1, "name", string(0, 8)),
    ]);
    let initial = br#"{"mode":0,"p":20,"i":3,"limit":300,"name":"a b"}"#;
    let table = table(&[
        ed("ISSE,SECoP,x"),
        mo("t1", "stage"),
        pa("heater", "settings", 0, &settings, initial),
    ]);
    let mut node = started(&table, &[2, 5], 0);
    send(&mut node, 5, 0, "activate t1");
    let sent =
        |node: &mut Node, time: u64, line: &str| crate::build::shown(&send(node, 2, time, line));
    let wrong = [format!("2 < {WRONG}")];
    let merged = r#"{"mode":1,"p":20,"i":6,"limit":300,"name":"a b"}"#;
    assert_eq!(
        sent(&mut node, 1_000, r#"check t1:heater {"i":6,"mode":"on"}"#),
        [format!(r#"2 < checked t1:heater [{merged},{{"t":1.000}}]"#)]
    );
    let line = r#"change t1:heater { "i" : 6, "mode" : "on" }"#;
    assert_eq!(
        sent(&mut node, 1_500, line),
        [
            format!("2 DR 0 {merged}"),
            format!(r#"5 * update t1:heater [{merged},{{"t":1.500}}]"#),
            format!(r#"2 < changed t1:heater [{merged},{{"t":1.500}}]"#),
        ]
    );
    let line = r#"change t1:heater {"i":7}"#;
    assert_eq!(sent(&mut node, 2_000, line), wrong);
    assert!(node.unreadable(0, VALUES, OUTBOX, 2_500, 1).is_ok());
    let line = r#"change t1:heater {"mode":0}"#;
    assert_eq!(sent(&mut node, 3_000, line), wrong);
    let line = r#"change t1:heater {"name":"","limit":1e1,"i":7,"p":0,"mode":0}"#;
    let whole = r#"{"mode":0,"p":0,"i":7,"limit":1e1,"name":""}"#;
    assert_eq!(
        sent(&mut node, 3_500, line),
        [
            format!("2 DR 0 {whole}"),
            format!(r#"5 * update t1:heater [{whole},{{"t":3.500}}]"#),
            format!(r#"2 < changed t1:heater [{whole},{{"t":3.500}}]"#),
        ]
    );
}

// V-17
#[test]
fn all_are_required_elsewhere() {
    let inner = partial(&[(1, "a", boolean()), (1, "b", boolean())]);
    let list = array(0, 4, &inner);
    let table = one_module(&[
        pa("list", "inside", 0, &list, br#"[{"b":true,"a":false}]"#),
        pa("part", "own", 0, &inner, br#"{"a":true,"b":true}"#),
        cm_with("go", "argument", &inner),
    ]);
    let mut node = started(&table, &[0], 1_000);
    let mut ask = |line: &str| replied(&mut node, line);
    assert!(
        ask(r#"change t1:list [{"a":true}]"#).starts_with("error_change t1:list [\"WrongType\"")
    );
    let kept = r#"changed t1:list [[{"b":true,"a":true}],{"t":2.000}]"#;
    assert_eq!(ask(r#"change t1:list [{"b":true,"a":true}]"#), kept);
    assert!(ask(r#"do t1:go {"a":true}"#).starts_with("error_do t1:go [\"WrongType\""));
    assert_eq!(
        ask(r#"do t1:go {"b":true,"a":true}"#),
        r#"done t1:go [null,{"t":2.000}]"#
    );
    assert_eq!(
        node.reading(1, VALUES, OUTBOX, 2_500, br#"{"b":true}"#)
            .map_err(|r| r.number()),
        Err(15)
    );
}

// V-21, T-27
#[test]
fn in_table_order() {
    let info = partial(&[(1, "a", boolean()), (0, "b", boolean())]);
    let table = |initial: &[u8]| one_module(&[pa("part", "own", 0, &info, initial)]);
    assert!(Table::judge(&table(br#"{"a":true,"b":false}"#)).is_ok());
    let late = Table::judge(&table(br#"{"b":false,"a":true}"#));
    assert_eq!(late.err().map(|refusal| refusal.number()), Some(5));
    let parsed = Table::judge(&table(br#"{"a":true,"b":false}"#)).unwrap();
    let datainfo = parsed.parameters()[0].datainfo;
    let stored = value::judge(datainfo, br#"{"b":false,"a":true}"#);
    assert_eq!(stored, Ok(br#"{"a":true,"b":false}"#.to_vec()));
}

// T-25, T-33
#[test]
fn flags_in_the_layout_and_in_the_report() {
    let inner = partial(&[(1, "x", boolean())]);
    let info = partial(&[
        (1, "a", inner.clone()),
        (0, "b", boolean()),
        (1, "c", boolean()),
    ]);
    let initial = br#"{"a":{"x":true},"b":true,"c":true}"#;
    let table = one_module(&[
        pa("part", "own", 0, &info, initial),
        cm_with("go", "argument", &inner),
    ]);
    let told = report::write(&Table::judge(&table).unwrap());
    let told = String::from_utf8(told).unwrap();
    let inside = r#"{"type":"struct","members":{"x":{"type":"bool"}},"optional":[]}"#;
    assert!(told.contains(&format!(
        r#""datainfo":{{"type":"struct","members":{{"a":{inside},"b":{{"type":"bool"}},"c":{{"type":"bool"}}}},"optional":["a","c"]}}"#
    )));
    assert!(told.contains(&format!(r#""argument":{inside}"#)));
    let wrong = partial(&[(2, "a", boolean())]);
    let table = one_module(&[pa("part", "own", 0, &wrong, br#"{"a":true}"#)]);
    assert_eq!(
        Table::judge(&table).err().map(|refusal| refusal.number()),
        Some(1)
    );
}

/// Who sent lines that are answered by `changed` though they leave members out.
fn changers(history: &History, answers: &[Answer]) -> Vec<u64> {
    let calls = history.calls.iter().zip(answers);
    let one = |(call, answer): (&Call, &Answer)| match call {
        Call::Piece { client, bytes, .. } => {
            let members = bytes.iter().filter(|&&byte| byte == b':').count() - 1;
            let outbox = String::from_utf8_lossy(&answer.outbox).into_owned();
            (members < 4 && outbox.contains("changed t1:heater")).then_some(*client)
        }
        _ => None,
    };
    let pieces = calls
        .filter(|(call, _)| matches!(call, Call::Piece { bytes, .. } if bytes.contains(&b':')));
    pieces.filter_map(one).collect()
}

// V-17, H-5
#[test]
fn parts_by_turns_in_second_histories() {
    let mut several = 0;
    for seed in 0..100 {
        let first = turns::history(seed);
        let second = second::second(&first, seed + 1_000).expect("one accepted start");
        let (one, other) = (first.run().unwrap(), second.run().unwrap());
        assert!(other.answers.iter().all(|answer| answer.has_effect()));
        let sent = |answers: &[Answer]| -> Vec<u8> {
            let outboxes = answers.iter().map(|answer| &answer.outbox[..]);
            outboxes.collect::<Vec<_>>().concat()
        };
        assert_eq!(sent(&one.answers), sent(&other.answers));
        assert_eq!(one.end, other.end);
        let mut clients = changers(&first, &one.answers);
        clients.sort_unstable();
        clients.dedup();
        several += usize::from(clients.len() > 1);
    }
    assert!(several > 80, "{several}");
}
