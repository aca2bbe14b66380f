//! M-110: a trace is replayed on a fresh node.

use crate::build::*;
use crate::program::printed_bytes;
use reference::generate::nights::{self, Night};
use reference::node::MAX_TIME;
use reference::random::Random;
use reference::replay::{told, Event, Kind, Replay};
use std::collections::BTreeSet;
use std::fs;

/// A record put together by hand.
fn record(mark: &[u8; 2], number: u8, time: u64, bytes: &[u8]) -> Vec<u8> {
    let length = bytes.len() as u16;
    let head = [
        &mark[..],
        &[number],
        &time.to_be_bytes(),
        &length.to_be_bytes(),
    ]
    .concat();
    [head.as_slice(), bytes].concat()
}

/// What is told of records, over a table with the parameters t1:target (a
/// double) and t1:mode (an enum), started at 1000.
fn stage(records: &[Vec<u8>]) -> String {
    let kelvin = double((0, 0), (300, 0));
    let mode = enumeration(&[("off", 0), ("on", 1)]);
    let table = one_module(&[
        pa("target", "", 0, &kelvin, b"4"),
        pa("mode", "", 0, &mode, b"0"),
    ]);
    without_figures(&told(&table, 1_000, &records.concat()))
}

/// A text without the lines of M-111, which come last.
fn without_figures(text: &[u8]) -> String {
    let text = String::from_utf8(text.to_vec()).expect("text");
    let others = text.lines().filter(|line| !line.contains(" count "));
    others.map(|line| format!("{line}\n")).collect()
}

//
#[test]
fn a_record_has_mark_number_time_length_and_bytes() {
    let event = Event {
        kind: Kind::Piece,
        number: 2,
        time: 0x0102_0304_0506_0708,
        bytes: b"ab".to_vec(),
    };
    let bytes = b"EP\x02\x01\x02\x03\x04\x05\x06\x07\x08\x00\x02ab";
    assert_eq!(event.to_bytes(), bytes);
    let marks = Kind::ALL.map(|kind| kind.mark());
    assert_eq!(marks, [b"EO", b"EC", b"EP", b"ER", b"EF"]);
}

//
#[test]
fn an_empty_trace_shows_initial_values() {
    assert_eq!(stage(&[]), "t1:target 4\nt1:mode 0\n");
}

//
#[test]
fn each_event_makes_its_call() {
    let trace = [
        record(b"EO", 2, 2_000, b""),
        record(
            b"EP",
            2,
            2_000,
            b"change t1:target 12\nchange t1:mode \"on\"\n",
        ),
        record(b"EC", 2, 2_000, b""),
        record(b"EO", 2, 2_000, b""),
        record(b"ER", 1, 3_000, b" 0 "),
    ];
    assert_eq!(stage(&trace), "t1:target 12\nt1:mode 0\n");
    assert_eq!(stage(&trace[..3]), "t1:target 12\nt1:mode 1\n");
}

//
#[test]
fn an_error_is_told_by_its_class_until_a_value_comes() {
    let names = [
        "HardwareError",
        "CommunicationFailed",
        "ReadFailed",
        "OutOfRange",
    ];
    for (class, name) in (1..).zip(names) {
        let fails = record(b"EF", 0, 2_000, &[class]);
        let expected = format!("t1:target {name}\nt1:mode 0\n");
        assert_eq!(stage(&[fails.clone()]), expected);
        let reads = record(b"ER", 0, 3_000, b"7");
        assert_eq!(stage(&[fails, reads]), "t1:target 7\nt1:mode 0\n");
    }
}

//
#[test]
fn unused_bytes_are_offered_again_and_a_half_line_stays() {
    let trace = [
        record(b"EO", 0, 5, b""),
        record(b"EP", 0, 5, b"ping\n\nchange t1:target 1\nchange t1:"),
        record(b"EP", 0, 6, b""),
        record(b"EP", 0, 6, b"mode 1\n"),
    ];
    assert_eq!(stage(&trace), "t1:target 1\nt1:mode 1\n");
}

//
#[test]
fn refused_events_are_counted_by_number_lowest_first() {
    let trace = [
        record(b"EF", 0, 5, &[0]),
        record(b"EF", 0, 5, &[5]),
        record(b"ER", 0, 5, b"\"hot\""),
        record(b"ER", 2, 5, b"1"),
        record(b"EO", 7, 5, b""),
        record(b"EO", 7, 5, b""),
        record(b"EO", 8, 5, b""),
        record(b"EO", 0, MAX_TIME + 1, b""),
        record(b"EP", 3, 5, b"change t1:target 9\nchange t1:target 9\n"),
        record(b"EP", 3, 5, b""),
        record(b"EC", 3, 5, b""),
    ];
    let refused = "refused 10 1\nrefused 11 1\nrefused 12 3\nrefused 13 1\nrefused 14 1\nrefused 15 1\nrefused 16 2\n";
    assert_eq!(stage(&trace), format!("t1:target 4\nt1:mode 0\n{refused}"));
}

//
#[test]
fn a_wrong_mark_or_length_ends_the_replay_at_its_record() {
    let first = record(b"ER", 0, 5, b"7");
    let later = record(b"ER", 0, 5, b"8");
    let long = vec![b' '; 4_097];
    let wrong = [
        record(b"EX", 0, 5, b""),
        b"eo".to_vec(),
        record(b"EO", 0, 5, b"x"),
        record(b"EC", 0, 5, b"x"),
        record(b"EF", 0, 5, b""),
        record(b"EF", 0, 5, &[1, 2]),
        record(b"EP", 0, 5, &long),
        record(b"ER", 0, 5, &long),
        // All of the head is there: the length is judged.
        record(b"EF", 0, 5, &[1, 2])[..13].to_vec(),
    ];
    for wrong in wrong {
        let trace = [first.clone(), wrong, later.clone()];
        assert_eq!(stage(&trace), "t1:target 7\nt1:mode 0\nwrong 14\n");
    }
    assert_eq!(
        stage(&[b"XX".to_vec()]),
        "t1:target 4\nt1:mode 0\nwrong 0\n"
    );
}

//
#[test]
fn a_half_record_is_told_and_not_run() {
    let first = record(b"ER", 0, 5, b"7");
    let second = record(b"ER", 0, 5, b"8");
    for length in 1..second.len() {
        let trace = [first.clone(), second[..length].to_vec()];
        assert_eq!(
            stage(&trace),
            "t1:target 7\nt1:mode 0\nhalf 14\n",
            "{length}"
        );
    }
    assert_eq!(stage(&[first, second]), "t1:target 8\nt1:mode 0\n");
    // One byte is no mark yet.
    assert_eq!(stage(&[b"X".to_vec()]), "t1:target 4\nt1:mode 0\nhalf 0\n");
}

//
#[test]
fn the_longest_piece_and_reading_are_taken() {
    let mut spaces = vec![b' '; 4_095];
    spaces.push(b'9');
    assert_eq!(
        stage(&[record(b"ER", 0, 5, &spaces)]),
        "t1:target 9\nt1:mode 0\n"
    );
    let lines = b"change t1:target 1\nx\n".repeat(195);
    let trace = [
        record(b"EO", 0, 5, b""),
        record(b"EP", 0, 5, &[lines.as_slice(), b"\n"].concat()),
    ];
    assert_eq!(trace[1].len(), 13 + 4_096);
    assert_eq!(stage(&trace), "t1:target 1\nt1:mode 0\n");
}

//
#[test]
fn a_refused_start_tells_its_number_only() {
    let trace = record(b"EO", 0, 5, b"");
    assert_eq!(told(&table(&[]), 0, &trace), b"start 2\n");
    assert_eq!(told(&[], 0, &trace), b"start 1\n");
    assert_eq!(told(&lab(), MAX_TIME + 1, &trace), b"start 10\n");
    assert_eq!(told(&lab(), u64::MAX, b"XX"), b"start 10\n");
    assert!(told(&lab(), MAX_TIME, b"").starts_with(b"t1:value 295.13\n"));
}

//
#[test]
fn outboxes_are_handed_on_in_order() {
    let mut replay = Replay::start(&lab(), 5).expect("a good table");
    replay.arrive(&record(b"EO", 1, 5, b""));
    replay.arrive(&record(b"EP", 1, 7, b"activate mf\nchange mf:target 3\n"));
    replay.arrive(&record(b"ER", 3, 8, b"4"));
    replay.arrive(&record(b"EF", 3, 9, &[1]));
    let mut node = started(&lab(), &[1], 5);
    let mut single = send_bytes(&mut node, 1, 7, b"activate mf\n").1;
    single.extend(send_bytes(&mut node, 1, 7, b"change mf:target 3\n").1);
    single.extend(node.reading(3, VALUES, OUTBOX, 8, b"4").expect("it fits"));
    single.extend(node.unreadable(3, VALUES, OUTBOX, 9, 1).expect("a class"));
    assert_eq!(replay.sent, single);
}

/// The trace in pieces of random lengths.
fn in_pieces(random: &mut Random, night: &Night) -> Option<Replay> {
    let mut replay = Replay::start(&night.table, night.time).ok()?;
    let mut rest = night.trace.as_slice();
    while !rest.is_empty() {
        let most = *random.pick(&[1, 2, 13, 40, 5_000]);
        let (piece, later) = rest.split_at(random.between(0, most.min(rest.len())));
        replay.arrive(piece);
        rest = later;
    }
    Some(replay)
}

//
#[test]
fn a_trace_may_arrive_cut_anywhere() {
    for seed in 0..300 {
        let night = nights::night(seed);
        let Ok(mut whole) = Replay::start(&night.table, night.time) else {
            continue;
        };
        whole.arrive(&night.trace);
        let cut = in_pieces(&mut Random::new(seed), &night).expect("the same start");
        assert_eq!(cut.summary(), whole.summary(), "{seed}");
        assert_eq!(cut.sent, whole.sent, "{seed}");
    }
}

/// What the lines of a text begin with, with the number of a refusal.
fn beginnings(text: &[u8]) -> Vec<String> {
    let text = String::from_utf8(text.to_vec()).expect("text");
    let words = |line: &str| match line.split(' ').collect::<Vec<_>>()[..] {
        ["refused", number, _] => format!("refused {number}"),
        ["start", number] => format!("start {number}"),
        [_, "count", _] => "count".to_string(),
        [_, "count", "0", "none"] => "none".to_string(),
        [_, "count", _, "least", _, "greatest", _, "sum", _] => "sum".to_string(),
        [end @ ("wrong" | "half"), _] => end.to_string(),
        [_, class @ ("HardwareError" | "CommunicationFailed" | "ReadFailed" | "OutOfRange")] => {
            class.to_string()
        }
        _ => "value".to_string(),
    };
    text.lines().map(words).collect()
}

#[test]
fn generated_nights_reach_all_that_may_be_told() {
    let told = |seed| {
        let night = nights::night(seed);
        beginnings(&told(&night.table, night.time, &night.trace))
    };
    let all: BTreeSet<String> = (0..400).flat_map(told).collect();
    let numbers = |word: &'static str, numbers: &'static [u8]| {
        numbers.iter().map(move |number| format!("{word} {number}"))
    };
    let words = [
        "value",
        "wrong",
        "half",
        "HardwareError",
        "CommunicationFailed",
    ];
    let more = ["ReadFailed", "OutOfRange", "count", "none", "sum"];
    let expected: BTreeSet<String> = words
        .into_iter()
        .chain(more)
        .map(str::to_string)
        .chain(numbers("refused", &[10, 11, 12, 13, 14, 15, 16]))
        .chain(numbers("start", &[1, 2, 3, 4, 5, 6, 10]))
        .collect();
    assert_eq!(all, expected);
}

//
#[test]
fn the_directed_night_is_told_as_worked_out() {
    let Night { table, time, trace } = nights::directed();
    let values = "t1:value ReadFailed\nt1:target 12\nmf:field -3\nmf:mode 1\nmf:label \"\"\n";
    let refused = "refused 10 1\nrefused 11 1\nrefused 12 3\nrefused 13 1\nrefused 14 2\nrefused 15 1\nrefused 16 2\n";
    let text = String::from_utf8(told(&table, time, &trace)).expect("text");
    // 26 records of 13 bytes and their own bytes, then the wrong one.
    let own = 9 + 52 + 0 + 32 + 5 + 1 + 1 + 1 + 3 + 2 + 1 + 38 + 1 + 1 + 5 + 1 + 1 + 1;
    let end = format!("wrong {}\n", 26 * 13 + own);
    let figures = "t1:value count 1\nt1:target count 2\nmf:field count 3 least -3 greatest 9 sum 6\nmf:mode count 1\nmf:label count 0\n";
    assert_eq!(text, [values, refused, &end, figures].concat());
    assert_eq!(printed_bytes(&["night", "told"], ""), text.as_bytes());
}

#[test]
fn long_nights_have_as_many_events_and_none_is_refused() {
    let counts = [0, 1, 2, 3, 4, 1_000].map(|events| [(events, 2, 5), (events, 12, 48)]);
    for (events, modules, parameters) in counts.concat() {
        let Night { table, time, trace } = nights::long(events, modules);
        let text = String::from_utf8(told(&table, time, &trace)).expect("text");
        assert_eq!(text.lines().count(), 2 * parameters);
        assert!(text.lines().all(|line| line.contains(':')));
        let mut rest = trace.as_slice();
        for _ in 0..events {
            let length = usize::from(u16::from_be_bytes([rest[11], rest[12]]));
            rest = &rest[13 + length..];
        }
        assert_eq!(rest, b"");
    }
}

#[test]
fn the_program_replays_files_and_writes_nights() {
    let folder = std::env::temp_dir().join(format!("nights-{}", std::process::id()));
    fs::create_dir_all(&folder).expect("a folder");
    let path = |name: &str| folder.join(name).to_str().expect("text").to_string();
    assert_eq!(printed_bytes(&["nights", "7", "2", &path("")], ""), b"");
    for seed in [7, 8] {
        let night = nights::night(seed);
        let read = |name: &str| fs::read(path(&format!("{seed}.{name}"))).expect("written");
        assert_eq!(read("table"), night.table);
        assert_eq!(read("time"), night.time.to_string().as_bytes());
        assert_eq!(read("trace"), night.trace);
        let text = told(&night.table, night.time, &night.trace);
        assert_eq!(read("told"), text);
        let (table, trace) = (
            path(&format!("{seed}.table")),
            path(&format!("{seed}.trace")),
        );
        let time = night.time.to_string();
        assert_eq!(printed_bytes(&["replay", &table, &time, &trace], ""), text);
    }
    fs::remove_dir_all(&folder).expect("removed");
}
