//! M-106: a rack of readings at once. What is expected stands in document 02, or
//! is that of as many single calls.

use crate::build::*;
use crate::generated::course;
use crate::watch::watch;
use reference::generate::{calls, racks, second};
use reference::history::{Answer, Call, Player};
use reference::index::INDEX;
use reference::kept::Kept;
use reference::list::Row;
use reference::node::{Node, MAX_TIME};
use reference::operation::{Operation, Poke};
use reference::outbox;
use reference::refusal::Refusal;

fn row(parameter: u64, time: u64, offset: u64, length: u64) -> Row {
    Row {
        parameter,
        time,
        offset,
        length,
    }
}

/// The texts `4`, `250` and `true`.
const TEXTS: &[u8] = b"4250true";

fn four(parameter: u64) -> Row {
    row(parameter, 2_000, 0, 1)
}

/// The number, how many were taken, and what was sent.
fn listed(node: &mut Node, rows: &[Row]) -> (u8, usize, Vec<String>) {
    let listed = node
        .readings(VALUES, OUTBOX, rows, TEXTS)
        .expect("it isn't refused as a whole");
    let records = outbox::read(&listed.outbox).expect("nothing but records");
    let number = listed.refusal.map_or(0, Refusal::number);
    (number, listed.taken, shown(&records))
}

fn value(node: &Node, parameter: usize) -> (String, u64) {
    let held = &node.state().parameters[parameter];
    let text = String::from_utf8(held.value.clone()).expect("ASCII");
    (text, held.time)
}

/// Client 2 has both modules with parameters active, client 5 the magnet's.
fn active_lab() -> Node {
    let mut node = lab_node(&[2, 5]);
    send(&mut node, 2, 1_500, "activate");
    send(&mut node, 5, 1_500, "activate mf");
    node
}

#[test]
fn each_reading_has_its_own_time_and_text() {
    let mut node = active_lab();
    let rows = [row(0, 2_000, 0, 1), row(3, 1_999, 0, 1), row(1, 0, 1, 3)];
    let sent = [
        r#"2 * update t1:value [4,{"t":2.000}]"#,
        r#"2 * update mf:target [4,{"t":1.999}]"#,
        r#"5 * update mf:target [4,{"t":1.999}]"#,
        r#"2 * update t1:target [250,{"t":0.000}]"#,
    ];
    let sent = sent.map(str::to_string).to_vec();
    assert_eq!(listed(&mut node, &rows), (0, 3, sent));
    assert_eq!(value(&node, 1), ("250".to_string(), 0));
}

#[test]
fn the_same_parameter_may_come_twice() {
    let mut node = active_lab();
    let rows = [row(0, 3_000, 1, 3), row(0, 2_000, 0, 1)];
    let sent = [
        r#"2 * update t1:value [250,{"t":3.000}]"#,
        r#"2 * update t1:value [4,{"t":2.000}]"#,
    ];
    let sent = sent.map(str::to_string).to_vec();
    assert_eq!(listed(&mut node, &rows), (0, 2, sent));
    assert_eq!(value(&node, 0), ("4".to_string(), 2_000));
}

#[test]
fn at_the_first_refused_reading_the_call_stops() {
    let mut node = active_lab();
    let bad = row(1, 2_000, 4, 4);
    let sent = vec![r#"2 * update t1:value [4,{"t":2.000}]"#.to_string()];
    let rows = [four(0), bad, four(1), four(9)];
    assert_eq!(listed(&mut node, &rows), (15, 1, sent));
    assert_eq!(value(&node, 0), ("4".to_string(), 2_000));
    assert_eq!(value(&node, 1), ("0".to_string(), 1_000));
    let before = node.state().clone();
    assert_eq!(listed(&mut node, &[bad, four(0)]), (15, 0, vec![]));
    assert_eq!(*node.state(), before);
}

#[test]
fn a_readings_faults_are_judged_in_order() {
    let mut node = active_lab();
    let late = MAX_TIME + 1;
    let mut number = |row: Row| listed(&mut node, &[row]).0;
    assert_eq!(number(row(6, late, 4, 4)), 10);
    assert_eq!(number(row(6, MAX_TIME, 4, 4)), 14);
    assert_eq!(number(row(u64::MAX, 0, 0, 1)), 14);
    assert_eq!(number(row(0, 0, 4, 4)), 15);
    // A text that runs out is judged like one that is no JSON.
    assert_eq!(number(row(0, late, 8, 1)), 10);
    assert_eq!(number(row(6, 0, 8, 1)), 14);
    assert_eq!(number(row(0, 0, 8, 1)), 15);
}

#[test]
fn a_text_that_runs_out_of_its_buffer_is_15() {
    let length = TEXTS.len() as u64;
    let inside = |offset, length| row(0, 0, offset, length).text(TEXTS);
    assert_eq!(inside(0, length), Some(TEXTS));
    assert_eq!(inside(length, 0), Some(&b""[..]));
    for (offset, length) in [
        (0, length + 1),
        (1, length),
        (length, 1),
        (length + 1, 0),
        (0, u64::MAX),
        // Offset and length are not added in 64 bits.
        (1, u64::MAX),
        (u64::MAX, 1),
        (u64::MAX, u64::MAX),
        (2, u64::MAX - 1),
    ] {
        assert_eq!(inside(offset, length), None, "{offset} {length}");
        let mut node = active_lab();
        assert_eq!(listed(&mut node, &[row(0, 0, offset, length)]).0, 15);
    }
}

fn refused(node: &mut Node, values_len: usize, outbox_len: usize, rows: &[Row]) -> Option<u8> {
    let before = node.state().clone();
    let refusal = node.readings(values_len, outbox_len, rows, TEXTS).err();
    if refusal.is_some() {
        assert_eq!(*node.state(), before);
    }
    refusal.map(Refusal::number)
}

#[test]
fn more_than_nine_is_17_and_nothing_is_taken() {
    let mut node = active_lab();
    let ten = [four(0); 10];
    assert_eq!(refused(&mut node, VALUES, OUTBOX, &ten), Some(17));
    assert_eq!(refused(&mut node, VALUES, OUTBOX, &ten[..9]), None);
    // It is judged after 8 and, where an index is lent, after 18.
    assert_eq!(refused(&mut node, VALUES - 1, OUTBOX - 1, &ten), Some(7));
    assert_eq!(refused(&mut node, VALUES - 1, OUTBOX, &ten), Some(8));
    node.lend(&[255; INDEX - 1]);
    assert_eq!(refused(&mut node, VALUES - 1, OUTBOX, &ten), Some(8));
    assert_eq!(refused(&mut node, VALUES, OUTBOX, &ten), Some(18));
    assert_eq!(refused(&mut node, VALUES, OUTBOX, &[]), Some(18));
    node.lend(&[255; INDEX]);
    assert_eq!(refused(&mut node, VALUES, OUTBOX, &ten), Some(17));
    // A reading that would stop the list is not looked at.
    let late = [row(9, MAX_TIME + 1, 9, 9); 10];
    assert_eq!(refused(&mut node, VALUES, OUTBOX, &late), Some(17));
}

#[test]
fn an_empty_list_is_judged_too() {
    let mut node = active_lab();
    let before = node.state().clone();
    assert_eq!(listed(&mut node, &[]), (0, 0, vec![]));
    assert_eq!(*node.state(), before);
    assert_eq!(refused(&mut node, VALUES, OUTBOX - 1, &[]), Some(7));
    assert_eq!(refused(&mut node, VALUES - 1, OUTBOX, &[]), Some(8));
    let (mut faulty, _) = Node::start(b"ND", VALUES, 0);
    assert_eq!(refused(&mut faulty, VALUES, OUTBOX - 1, &[]), Some(1));
}

/// An int from 0 to 999 and a string.
fn two_parameters() -> Vec<u8> {
    one_module(&[
        pa("p", "", 0, &int(0, 999), b"3"),
        pa("l", "", 0, &string(0, 300), b"\"\""),
    ])
}

fn list(rows: Vec<Row>, texts: &[u8]) -> Call {
    Call::Readings {
        values_len: VALUES,
        outbox_len: OUTBOX,
        rows,
        texts: texts.to_vec(),
    }
}

/// A shorter value leaves the end of a longer one, as single calls would.
#[test]
fn the_values_area_has_what_each_reading_leaves() {
    let mut kept = Kept::new(VALUES);
    let rows = vec![row(0, 1, 1, 3), row(0, 2, 0, 1), row(0, 3, 4, 4)];
    let answer = kept.call(&two_parameters(), &[], &list(rows, TEXTS));
    let due = Answer {
        number: 15,
        taken: 2,
        ..Answer::default()
    };
    assert_eq!(answer, due);
    assert!(kept.values.starts_with(b"450\0"));
    assert_eq!((kept.settings[0].length, kept.settings[0].time), (1, 2));
}

/// 17 is judged before 9, a reading after it.
#[test]
fn unfit_states_with_other_faults() {
    let mut kept = Kept::new(VALUES);
    Poke::Overlong(7, 1).apply(&mut kept);
    let before = kept.clone();
    let mut number = |rows: Vec<Row>| {
        let call = list(rows, TEXTS);
        let answer = kept.call(&two_parameters(), &[], &call);
        assert_eq!(kept, before);
        answer.number
    };
    assert_eq!(number(vec![four(0); 10]), 17);
    assert_eq!(number(vec![]), 9);
    assert_eq!(number(vec![row(0, MAX_TIME + 1, 0, 1)]), 9);
}

/// "The result is that of as many single calls in list order, outboxes joined."
#[test]
fn lists_are_their_single_readings() {
    let (mut lists, mut stopped, mut whole) = (0, 0, 0);
    for seed in 0..300 {
        let history = racks::history(seed, 40);
        let mut player = Player::new(&history.table);
        let mut single = Player::new(&history.table);
        for call in &history.calls {
            let answer = player.call(call).expect("a start comes first");
            let Call::Readings {
                values_len,
                outbox_len,
                rows,
                texts,
            } = call
            else {
                single.call(call);
                continue;
            };
            lists += 1;
            if [7, 8, 17, 18].contains(&answer.number) {
                whole += 1;
                assert_eq!((answer.taken, answer.outbox.len()), (0, 0));
                continue;
            }
            let mut sent = Vec::new();
            let mut number = 0;
            let mut taken = 0;
            for row in rows {
                let call = row.single(*values_len, *outbox_len, texts);
                let one = single.call(&call).expect("a start comes first");
                number = one.number;
                if number != 0 {
                    break;
                }
                taken += 1;
                sent.extend(one.outbox);
            }
            stopped += usize::from(number != 0);
            let due = (number, taken, sent);
            assert_eq!((answer.number, answer.taken, answer.outbox), due, "{seed}");
        }
        let states = [player, single].map(|one| one.node().unwrap().state().clone());
        assert_eq!(states[0], states[1], "{seed}");
    }
    assert!(lists > 2_000 && stopped > 500 && whole > 200);
    assert!(lists - stopped - whole > 500);
}

#[test]
fn histories_with_lists_hold_together() {
    let mut numbers = Vec::new();
    for seed in 0..200 {
        numbers.extend(watch(&racks::history(seed, 40)).numbers);
    }
    for number in (0..=18).filter(|number| !(1..=6).contains(number) && *number != 9) {
        assert!(numbers.contains(&number), "{number}");
    }
}

/// The readings are listed anew, and lists may stop in the second history too.
#[test]
fn second_histories_list_readings_anew() {
    let (mut compared, mut stopped) = (0, 0);
    for seed in 0..300 {
        let first = racks::history(seed, 40);
        let Some(second) = second::second(&first, seed) else {
            continue;
        };
        let (one, other) = (first.run().unwrap(), second.run().unwrap());
        let sent = |answers: &[Answer]| -> Vec<u8> {
            answers.iter().flat_map(|one| one.outbox.clone()).collect()
        };
        assert_eq!(course(&first), course(&second), "{seed}");
        assert_eq!(sent(&one.answers), sent(&other.answers), "{seed}");
        assert_eq!(one.end, other.end, "{seed}");
        compared += 1;
        stopped += other
            .answers
            .iter()
            .filter(|one| !one.is_accepted())
            .count();
    }
    assert!(compared > 290 && stopped > 100, "{compared} {stopped}");
}

/// What is run over a kept state has every number of a list, whole and stopped.
#[test]
fn the_lists_have_every_number() {
    let (mut table, mut index, mut kept) = (Vec::new(), Vec::new(), Kept::new(20_000));
    let mut seen = Vec::new();
    for operation in calls::lists() {
        match operation {
            Operation::Table(bytes) => table = bytes,
            Operation::Poke(poke) => poke.apply(&mut kept),
            Operation::Call(Call::Lend { index: next }) => index = next,
            Operation::Call(call) => {
                let answer = kept.call(&table, &index, &call);
                if matches!(call, Call::Readings { .. }) {
                    seen.push((answer.number, answer.taken));
                }
            }
            Operation::Show(_) | Operation::Note(_) => {}
        }
    }
    for number in [1, 2, 3, 7, 8, 9, 17, 18] {
        let mut lists = seen.iter().filter(|one| one.0 == number).peekable();
        assert!(lists.peek().is_some(), "{number}");
        assert!(lists.all(|one| one.1 == 0));
    }
    for number in [10, 14, 15] {
        for taken in 0..=3 {
            assert!(seen.contains(&(number, taken)), "{number} after {taken}");
        }
    }
    assert!(seen.contains(&(0, 0)) && seen.contains(&(0, 9)));
}
