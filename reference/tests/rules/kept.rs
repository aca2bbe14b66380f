//! States that somebody else keeps: which are unfit, what a call leaves of their
//! bytes, and what a program that keeps one prints.

use crate::build::*;
use crate::program::{printed, printed_bytes};
use reference::generate::{free, histories, racks};
use reference::history::{Answer, Call, History, Player};
use reference::index::{FREE, INDEX};
use reference::kept::Kept;
use reference::node::MAX_TIME;
use reference::operation::{input, output, Operation, Poke};
use reference::random::Random;

/// Module `t1` with the parameters 0, an int from 0 to 9, and 1, a string.
fn two_parameters() -> Vec<u8> {
    one_module(&[
        pa("p", "", 0, &int(0, 9), b"3"),
        pa("l", "", 0, &string(0, 300), b"\"\""),
    ])
}

fn start() -> Call {
    Call::Start {
        values_len: VALUES,
        time: 5,
    }
}

fn open(client: u64) -> Call {
    Call::Open {
        client,
        values_len: VALUES,
        time: 6,
    }
}

fn close(client: u64) -> Call {
    Call::Close {
        client,
        values_len: VALUES,
        time: 6,
    }
}

fn piece(client: u64, bytes: &str) -> Call {
    Call::Piece {
        client,
        values_len: VALUES,
        outbox_len: OUTBOX,
        time: 7,
        bytes: bytes.as_bytes().to_vec(),
    }
}

fn reading(parameter: u64, text: &str) -> Call {
    Call::Reading {
        parameter,
        values_len: VALUES,
        outbox_len: OUTBOX,
        time: 8,
        text: text.as_bytes().to_vec(),
    }
}

fn unreadable(parameter: u64, class: u64) -> Call {
    Call::Unreadable {
        parameter,
        values_len: VALUES,
        outbox_len: OUTBOX,
        time: 9,
        class,
    }
}

/// A state over a table with client 0 open and inside a line.
fn begun(table: &[u8]) -> Kept {
    let mut kept = Kept::new(VALUES);
    for call in [start(), open(0), piece(0, "ping"), reading(0, "4")] {
        assert_eq!(kept.call(table, &[], &call).number, 0);
    }
    kept
}

fn poked(pokes: &[Poke]) -> Kept {
    let mut kept = begun(&two_parameters());
    pokes.iter().for_each(|poke| poke.apply(&mut kept));
    kept
}

#[track_caller]
fn assert_unfit(pokes: &[Poke]) {
    let kept = poked(pokes);
    for call in [
        open(1),
        close(0),
        piece(0, "\n"),
        reading(0, "5"),
        unreadable(0, 1),
    ] {
        let mut after = kept.clone();
        let unfit = Answer {
            number: 9,
            ..Answer::default()
        };
        assert_eq!(after.call(&two_parameters(), &[], &call), unfit);
        assert_eq!(after, kept);
    }
}

#[track_caller]
fn assert_fit(pokes: &[Poke]) {
    let mut kept = poked(pokes);
    for call in [open(1), piece(0, "\n"), reading(0, "5"), close(0)] {
        assert_eq!(kept.call(&two_parameters(), &[], &call).number, 0);
    }
}

fn value(text: &str) -> [Poke; 2] {
    [
        Poke::Values(0, text.as_bytes().to_vec()),
        Poke::StoredLength(0, text.len() as u16),
    ]
}

/// Parameter 1 with a string of so many bytes.
fn long_value(length: u16) -> [Poke; 2] {
    let text = format!("\"{}\"", "x".repeat(usize::from(length) - 2));
    [
        Poke::Values(256, text.into_bytes()),
        Poke::StoredLength(1, length),
    ]
}

// C-17
#[test]
fn unfit_settings() {
    assert_unfit(&long_value(257));
    assert_fit(&long_value(256));
    assert_unfit(&value("4 "));
    assert_unfit(&value("04"));
    assert_unfit(&value("10"));
    assert_unfit(&value("true"));
    assert_fit(&value("-0"));
    assert_unfit(&[Poke::StoredTime(0, MAX_TIME + 1)]);
    assert_unfit(&[Poke::StoredTime(1, MAX_TIME + 1)]);
    assert_fit(&[Poke::StoredTime(1, MAX_TIME)]);
    assert_fit(&[Poke::StoredLength(2, 257), Poke::StoredTime(2, u64::MAX)]);
}

/// Stored values have numbers: a name is unfit, even one as long as its number.
// C-17, V-23
#[test]
fn unfit_names() {
    let modes = enumeration(&[("off", 0), ("on", 1_000)]);
    let table = one_module(&[pa("m", "", 0, &modes, b"0")]);
    let mut kept = Kept::new(VALUES);
    for call in [start(), open(0), reading(0, "\"on\"")] {
        assert_eq!(kept.call(&table, &[], &call).number, 0);
    }
    assert!(kept.values.starts_with(b"1000\0") && kept.is_fit(&table));
    for name in ["\"on\"", "\"off\"", "\"no\""] {
        let mut named = kept.clone();
        for poke in value(name) {
            poke.apply(&mut named);
        }
        assert!(!named.is_fit(&table), "{name}");
    }
}

/// Classes 1 to 4 are fit; what is stored behind an error is judged as ever.
// C-17
#[test]
fn unfit_errors() {
    for class in 0..=4 {
        assert_fit(&[Poke::StoredError(0, class)]);
        assert_fit(&[Poke::StoredError(1, class)]);
    }
    for class in [5, 6, 128, 255] {
        assert_unfit(&[Poke::StoredError(0, class)]);
        assert_unfit(&[Poke::StoredError(1, class)]);
        assert_fit(&[Poke::StoredError(2, class)]);
    }
    let in_error = |pokes: [Poke; 2]| [vec![Poke::StoredError(0, 1)], pokes.to_vec()].concat();
    assert_unfit(&in_error(value("10")));
    assert_unfit(&in_error(value("4 ")));
    assert_unfit(&[Poke::StoredError(0, 1), Poke::StoredTime(0, MAX_TIME + 1)]);
}

/// An error writes its class and its time, and nothing else; the next value
/// takes its class away.
// L-28, C-17
#[test]
fn errors_leave_the_stored_value() {
    let table = two_parameters();
    let mut kept = begun(&table);
    let before = kept.clone();
    assert_eq!(kept.call(&table, &[], &unreadable(0, 3)).number, 0);
    let mut expected = before.clone();
    expected.settings[0].error = 3;
    expected.settings[0].time = 9;
    assert_eq!(kept, expected);
    assert_eq!(kept.call(&table, &[], &unreadable(1, 4)).number, 0);
    assert_eq!((kept.settings[1].length, kept.settings[1].error), (0, 4));
    assert_eq!(kept.values, before.values);
    assert_eq!(kept.call(&table, &[], &reading(0, "5")).number, 0);
    assert_eq!((kept.settings[0].length, kept.settings[0].error), (1, 0));
    assert_eq!((kept.settings[0].time, kept.values[0]), (8, b'5'));
}

// C-18
#[test]
fn unfit_clients() {
    let line = |bytes: &str, length| {
        [
            Poke::Lines(0, bytes.as_bytes().to_vec()),
            Poke::LineLength(0, length),
        ]
    };
    assert_unfit(&[Poke::LineLength(0, 1_025)]);
    assert_fit(&line(&"x".repeat(1_024), 1_024));
    assert_unfit(&line("ping\n", 5));
    assert_fit(&line("ping\n", 4));
    assert_unfit(&[Poke::Overlong(0, 1)]);
    assert_fit(&[Poke::Overlong(0, 2), Poke::LineLength(0, 0)]);
    assert_unfit(&[Poke::Active(0, 2)]);
    assert_fit(&[Poke::Active(0, 1)]);
    assert_fit(&[Poke::Open(0, 255)]);
    assert_fit(&[Poke::Counts(0, u32::MAX)]);
    assert_fit(&[Poke::Counts(7, 1)]);
}

// C-18
#[test]
fn unfit_closed_clients() {
    assert_unfit(&[Poke::LineLength(7, 1)]);
    assert_unfit(&[Poke::Overlong(7, 1)]);
    assert_unfit(&[Poke::Active(7, 1)]);
    assert_unfit(&[Poke::Open(0, 0)]);
    assert_fit(&[Poke::Lines(7_168, b"\n".to_vec())]);
}

/// Makes a call that is accepted.
#[track_caller]
fn accepted(kept: &mut Kept, call: Call) {
    assert_eq!(kept.call(&two_parameters(), &[], &call).number, 0);
}

/// Client 0 inside the line `ping`, and other bytes wherever there is no line.
fn scribbled() -> Kept {
    let bytes = (4..8_192).map(|at| (at % 251) as u8).collect();
    poked(&[Poke::Lines(4, bytes)])
}

// C-6, C-19
#[test]
fn bytes_that_join_a_line_are_written_behind_it() {
    let mut kept = scribbled();
    let mut expected = kept.clone();
    accepted(&mut kept, piece(0, " xy"));
    expected.clients[0].line[4..7].copy_from_slice(b" xy");
    expected.clients[0].length = 7;
    assert_eq!(kept, expected);
    accepted(&mut kept, piece(0, ""));
    assert_eq!(kept, expected);
    accepted(&mut kept, piece(0, &"z".repeat(1_017)));
    expected.clients[0].line[7..].fill(b'z');
    expected.clients[0].length = 1_024;
    assert_eq!(kept, expected);
    accepted(&mut kept, open(7));
    accepted(&mut kept, piece(7, "a"));
    expected.clients[7].open = 1;
    expected.clients[7].line[0] = b'a';
    expected.clients[7].length = 1;
    assert_eq!(kept, expected);
}

/// The bytes before a line feed are not written, nor is any other.
// C-6, C-19
#[test]
fn a_line_feed_leaves_the_bytes() {
    for last in ["\n", " xy\n", "\nping", " \r\nx\n"] {
        let mut kept = scribbled();
        let mut expected = kept.clone();
        accepted(&mut kept, piece(0, last));
        expected.clients[0].length = 0;
        expected.counts[0].lines = 1;
        assert_eq!(kept, expected, "{last:?}");
    }
}

// L-2, C-19
#[test]
fn a_line_that_gets_overlong_leaves_the_bytes() {
    let mut kept = scribbled();
    let mut expected = kept.clone();
    accepted(&mut kept, piece(0, &"z".repeat(1_021)));
    expected.clients[0].length = 0;
    expected.clients[0].overlong = 1;
    assert_eq!(kept, expected);
    accepted(&mut kept, piece(0, "more"));
    assert_eq!(kept, expected);
    accepted(&mut kept, piece(0, "more\n"));
    expected.clients[0].overlong = 0;
    expected.counts[0].lines = 1;
    expected.counts[0].errors = 1;
    assert_eq!(kept, expected);
}

// C-4, C-5, C-19
#[test]
fn open_and_close_leave_the_bytes() {
    let mut kept = scribbled();
    let mut expected = kept.clone();
    accepted(&mut kept, close(0));
    expected.clients[0].open = 0;
    expected.clients[0].length = 0;
    assert_eq!(kept, expected);
    accepted(&mut kept, open(0));
    expected.clients[0].open = 1;
    assert_eq!(kept, expected);
}

// C-19
#[test]
fn a_flag_has_its_number_until_a_call_sets_it() {
    let long = "x".repeat(1_025);
    let mut kept = poked(&[
        Poke::Open(0, 5),
        Poke::Overlong(0, 128),
        Poke::LineLength(0, 0),
    ]);
    let mut flags = |call: Call| {
        accepted(&mut kept, call);
        (kept.clients[0].open, kept.clients[0].overlong)
    };
    assert_eq!(flags(piece(0, "more")), (5, 128));
    assert_eq!(flags(reading(0, "5")), (5, 128));
    assert_eq!(flags(unreadable(0, 1)), (5, 128));
    assert_eq!(flags(open(1)), (5, 128));
    assert_eq!(flags(close(1)), (5, 128));
    assert_eq!(flags(piece(0, "\n")), (5, 0));
    assert_eq!(flags(piece(0, &long)), (5, 1));
    assert_eq!(flags(piece(0, "\nactivate\n")), (5, 0));
    assert_eq!(flags(piece(0, "activate\n")), (5, 0));
    assert_eq!(flags(close(0)), (0, 0));
    assert_eq!(flags(open(0)), (1, 0));
}

// C-3, C-12
#[test]
fn a_start_leaves_its_time_in_every_place() {
    let mut kept = scribbled();
    Poke::StoredLength(63, 257).apply(&mut kept);
    let mut expected = Kept::new(VALUES);
    expected.values = kept.values.clone();
    let late = Call::Start {
        values_len: VALUES,
        time: MAX_TIME + 1,
    };
    let mut refused = kept.clone();
    assert_eq!(refused.call(&two_parameters(), &[], &late).number, 10);
    assert_eq!(refused, expected);
    accepted(&mut kept, start());
    expected.settings.iter_mut().for_each(|one| one.time = 5);
    assert_eq!(kept, expected);
}

/// Runs a history with a state's bytes beside the plain node, and over a state
/// that is handed from call to call; what no call looks at is changed now and
/// then. Gives how many calls with an effect met a flag above 1.
fn bytes_beside(history: &History, seed: u64) -> usize {
    let mut random = Random::new(seed);
    let mut player = Player::new(&history.table);
    let (mut beside, mut kept) = (Kept::new(20_000), Kept::new(20_000));
    let (mut index, mut count) = (Vec::new(), 0);
    for call in &history.calls {
        let parameters = player.node().map_or(0, |node| node.parameters().len());
        for poke in free::some(&mut random, &kept, parameters) {
            poke.apply(&mut beside);
            poke.apply(&mut kept);
        }
        let odd = kept.clients.iter().any(|client| client.open > 1);
        let answer = player.call(call).expect("a start comes first");
        if let Call::Lend { index: next } = call {
            index.clone_from(next);
            continue;
        }
        let node = player.node().expect("a start came first");
        beside.follow(call, &answer, node);
        assert_eq!(kept.call(&history.table, &index, call), answer, "{seed}");
        assert_eq!(kept, beside, "{seed}");
        count += usize::from(odd && answer.has_effect());
    }
    count
}

// C-19, H-1
#[test]
fn what_no_call_looks_at_alters_no_answer() {
    let beside = |seed| {
        let random = bytes_beside(&histories::history(seed, 40), seed);
        random + bytes_beside(&racks::history(seed, 40), seed)
    };
    assert!((0..60).map(beside).sum::<usize>() > 1_000);
}

/// Of the other numbers those up to 8 are judged before it, and 18.
// C-10
#[test]
fn unfit_with_other_faults() {
    let lent = |table: &[u8], index: &[u8], call| {
        let mut kept = poked(&[Poke::Overlong(7, 1)]);
        kept.call(table, index, &call).number
    };
    let number = |table: &[u8], call| lent(table, &[], call);
    let good = two_parameters();
    assert_eq!(number(b"", open(1)), 1);
    let short = |values_len, outbox_len, time| Call::Piece {
        client: 8,
        values_len,
        outbox_len,
        time,
        bytes: Vec::new(),
    };
    assert_eq!(
        number(&good, short(VALUES - 1, OUTBOX - 1, MAX_TIME + 1)),
        7
    );
    assert_eq!(number(&good, short(VALUES - 1, OUTBOX, MAX_TIME + 1)), 8);
    assert_eq!(number(&good, short(VALUES, OUTBOX, MAX_TIME + 1)), 9);
    assert_eq!(number(&good, start()), 0);
    let too_short = [FREE; INDEX - 1];
    assert_eq!(lent(&good, &too_short, short(VALUES - 1, OUTBOX, 0)), 8);
    assert_eq!(lent(&good, &too_short, short(VALUES, OUTBOX, 0)), 18);
    assert_eq!(lent(&good, &[FREE; INDEX], short(VALUES, OUTBOX, 0)), 9);
    assert_eq!(lent(&good, &too_short, start()), 0);
}

/// The sum of the bytes, each times a power of 257, by its remainder.
fn digest(bytes: impl DoubleEndedIterator<Item = u8>) -> u64 {
    let modulus = 1_099_511_627_776;
    let mut power = 1;
    let mut sum = 0;
    for byte in bytes.rev() {
        sum = (sum + power * u64::from(byte)) % modulus;
        power = power * 257 % modulus;
    }
    sum
}

#[test]
fn what_a_program_is_to_print() {
    let operations = [
        Operation::Note("a\tb c".to_string()),
        Operation::Table(two_parameters()),
        Operation::Call(start()),
        Operation::Call(open(1)),
        Operation::Call(close(0)),
        Operation::Call(piece(1, "change t1:p  5 \nx")),
        Operation::Call(Call::Lend {
            index: vec![7; INDEX - 1],
        }),
        Operation::Call(close(1)),
        Operation::Call(Call::Lend {
            index: vec![7; INDEX],
        }),
        Operation::Call(piece(1, "read t1:q\n")),
        Operation::Call(piece(1, "\\")),
        Operation::Poke(Poke::Open(3, 7)),
        Operation::Poke(Poke::Overlong(3, 9)),
        Operation::Poke(Poke::StoredError(1, 2)),
        Operation::Poke(Poke::Counts(3, 4_294_967_294)),
        Operation::Show(2),
    ];
    let pattern = (0..40_000).map(|at| (at % 251) as u8);
    let untouched = digest(pattern.clone());
    let order = [&b"DR\x01\x00\x02\x005"[..], b"RP\x01\x00\x1d"].concat();
    let written = [&order[..], b"changed t1:p [5,{\"t\":0.007}]\n"].concat();
    assert_eq!(written.len(), 7 + 5 + 29);
    let rest: Vec<u8> = pattern.clone().skip(written.len()).collect();
    let sent = digest([written, rest].concat().into_iter());
    let values = digest([vec![b'5'], vec![0; 19_999]].concat().into_iter());
    let error = b"error_read t1:q [\"NoSuchParameter\",\"no such parameter\",{}]\n";
    let error = [&b"RP\x01\x00\x3b"[..], error].concat();
    assert_eq!(error.len(), 5 + 59);
    let rest: Vec<u8> = pattern.skip(error.len()).collect();
    let told = digest([error, rest].concat().into_iter());
    // Of the index 128 bytes that offer nothing, and both accessibles.
    let expected = format!(
        "# a\\09b c\n\
         start 0 0 0 0 {untouched} 0\n\
         open 0 0 0 0 {untouched} 0\n\
         close 12 0 0 0 {untouched} 0 kept\n\
         piece 0 16 41 1 {sent} {values} DR\\01\\00\\02\\005RP\\01\\00\\1dchanged t1:p [5,{{\"t\":0.007}}]\\0a\n\
         close 18 0 0 0 {untouched} {values} kept\n\
         piece 0 10 64 130 {told} {values} RP\\01\\00;error_read t1:q [\"NoSuchParameter\",\"no such parameter\",{{}}]\\0a\n\
         piece 0 1 0 0 {untouched} {values}\n\
         client 0 0 0 0 0\n\
         client 1 1 0 0 1 \\5c\n\
         client 2 0 0 0 0\n\
         client 3 1 1 0 0\n\
         client 4 0 0 0 0\n\
         client 5 0 0 0 0\n\
         client 6 0 0 0 0\n\
         client 7 0 0 0 0\n\
         parameter 0 1 0 7\n\
         parameter 1 0 2 5\n\
         counts 0 0 0 0\n\
         counts 1 2 1 0\n\
         counts 2 0 0 0\n\
         counts 3 4294967294 4294967294 4294967294\n\
         counts 4 0 0 0\n\
         counts 5 0 0 0\n\
         counts 6 0 0 0\n\
         counts 7 0 0 0\n"
    );
    assert_eq!(output(&operations), expected);
}

#[test]
fn what_a_program_reads() {
    let operations = [
        Operation::Table(b"ND".to_vec()),
        Operation::Call(piece(2, "ab")),
        Operation::Call(unreadable(3, 258)),
        Operation::Call(Call::Lend {
            index: b"xyz".to_vec(),
        }),
        Operation::Poke(Poke::StoredTime(63, 258)),
        Operation::Poke(Poke::StoredError(63, 4)),
        Operation::Poke(Poke::Values(256, b"1".to_vec())),
        Operation::Show(3),
    ];
    let number = |number: u8| [0, 0, 0, 0, 0, 0, 0, number];
    let expected = [
        &b"T"[..],
        &number(0),
        &number(0),
        &[0, 0, 0, 0, 0, 2],
        b"ND",
        b"P",
        &number(2),
        &number(7),
        &[0x40, 0, 0x80, 0, 0, 2],
        b"ab",
        b"U",
        &number(3),
        &number(9),
        &[0x40, 0, 0x80, 0, 0, 8],
        &[0, 0, 0, 0, 0, 0, 1, 2],
        b"I",
        &number(0),
        &number(0),
        &[0, 0, 0, 0, 0, 3],
        b"xyz",
        b"t",
        &number(63),
        &[0, 0, 0, 0, 0, 0, 1, 2],
        &[0; 6],
        b"e",
        &number(63),
        &number(4),
        &[0; 6],
        b"w",
        &[0, 0, 0, 0, 0, 0, 1, 0],
        &number(0),
        &[0, 0, 0, 0, 0, 1],
        b"1",
        b"E",
        &number(3),
        &number(0),
        &[0; 6],
    ];
    assert_eq!(input(&operations), expected.concat());
}

/// The calls of the printed output, each by its name and number.
fn answers(printed: &str) -> Vec<(&str, u8)> {
    const CALLS: [&str; 6] = ["start", "open", "close", "piece", "reading", "unreadable"];
    fn answer(line: &str) -> Option<(&str, u8)> {
        let mut words = line.split(' ');
        let name = words.next().filter(|name| CALLS.contains(name))?;
        Some((name, words.next()?.parse().expect("a number")))
    }
    printed.lines().filter_map(answer).collect()
}

/// Every number comes for each call that can answer with it.
#[test]
fn the_script_has_every_number() {
    let printed = printed(&["calls-output", "1", "0"], "");
    let answers = answers(&printed);
    let all = |lowest: u8, highest: u8| (lowest..=highest).collect::<Vec<_>>();
    let expected = [
        ("start", [all(0, 6), vec![8, 10]].concat()),
        ("open", [all(0, 6), all(8, 11), vec![13, 18]].concat()),
        ("close", [all(0, 6), all(8, 12), vec![18]].concat()),
        ("piece", [all(0, 12), vec![18]].concat()),
        ("reading", [all(0, 10), vec![14, 15, 18]].concat()),
        ("unreadable", [all(0, 10), vec![14, 16, 18]].concat()),
    ];
    for (name, numbers) in expected {
        let mut found: Vec<u8> = answers
            .iter()
            .filter(|(one, _)| *one == name)
            .map(|(_, number)| *number)
            .collect();
        found.sort_unstable();
        found.dedup();
        assert_eq!(found, numbers, "{name}");
    }
    assert!(!printed_bytes(&["calls-input", "1", "0"], "").is_empty());
}
