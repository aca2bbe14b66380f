//! Refusals of calls, and what they leave behind.

use crate::build::*;
use reference::line::Unfinished;
use reference::node::{Client, Node, MAX_TIME};
use reference::refusal::Refusal;

const SMALL_VALUES: usize = VALUES - 1;
const SMALL_OUTBOX: usize = OUTBOX - 1;
const LATE: u64 = 10_000_000_000_000;

fn start_number(table: &[u8], values_len: usize, time: u64) -> u8 {
    let (_, result) = Node::start(table, values_len, time);
    number(result)
}

fn number<Done>(result: Result<Done, Refusal>) -> u8 {
    result.map_or_else(Refusal::number, |_| 0)
}

// C-3, C-10
#[test]
fn starts() {
    assert_eq!(MAX_TIME, 9_999_999_999_999);
    assert_eq!(start_number(&lab(), VALUES, MAX_TIME), 0);
    assert_eq!(start_number(&lab(), SMALL_VALUES, 0), 8);
    assert_eq!(start_number(&lab(), 0, LATE), 8);
    assert_eq!(start_number(&lab(), VALUES, LATE), 10);
    assert_eq!(start_number(&lab(), usize::MAX, u64::MAX), 10);
    assert_eq!(start_number(&table(&[]), 0, LATE), 2);
}

// C-3
#[test]
fn a_start_shows_initial_values_with_its_time() {
    let mut node = started(&lab(), &[0], MAX_TIME);
    assert_eq!(
        ask(&mut node, 0, 0, "read t1:value"),
        r#"reply t1:value [295.13,{"t":9999999999.999}]"#
    );
}

// C-12
#[test]
fn a_refused_start_over_a_good_table_can_be_gone_on_with() {
    for (values_len, time) in [(SMALL_VALUES, 5), (VALUES, LATE)] {
        let (mut node, result) = Node::start(&lab(), values_len, time);
        assert!(result.is_err());
        assert_eq!(number(node.piece(0, VALUES, OUTBOX, 7, b"")), 12);
        assert_eq!(node.open(0, VALUES, 7), Ok(()));
        assert_eq!(
            ask(&mut node, 0, 7, "read t1:value"),
            r#"reply t1:value [295.13,{"t":0.000}]"#
        );
    }
}

// C-10, C-11
#[test]
fn every_call_over_a_faulty_table_is_refused_with_its_number() {
    // 512 ints of 17 bytes each in the table and 67 in the report.
    let ints = tuple(&vec![int(i64::MIN, i64::MAX); 8]);
    let bulky = tuple(&vec![tuple(&vec![ints; 8]); 8]);
    let faulty = [
        (1, Vec::new()),
        (2, table(&[])),
        (3, table(&[mo("", "")])),
        (4, one_module(&[cm_with("c", "", &int(1, 0))])),
        (5, one_module(&[pa("p", "", 0, &boolean(), b"1")])),
        (6, one_module(&[cm_with("c", "", &bulky)])),
    ];
    for (expected, table) in faulty {
        let (mut node, result) = Node::start(&table, 0, u64::MAX);
        assert_eq!(number(result), expected);
        assert_eq!(number(node.open(9, 0, u64::MAX)), expected);
        assert_eq!(number(node.open(0, VALUES, 0)), expected);
        assert_eq!(number(node.close(0, VALUES, 0)), expected);
        assert_eq!(number(node.piece(9, 0, 0, u64::MAX, b"\n")), expected);
        assert_eq!(number(node.reading(99, 0, 0, u64::MAX, b"")), expected);
        assert_eq!(number(node.unreadable(99, 0, 0, u64::MAX, 0)), expected);
        assert!(node.state().clients.iter().all(|client| !client.open));
    }
}

// C-4, C-5
#[test]
fn opens_and_closes() {
    let mut node = started(&lab(), &[7], 0);
    assert_eq!(number(node.open(7, VALUES, 0)), 13);
    assert_eq!(number(node.open(8, VALUES, 0)), 11);
    assert_eq!(number(node.open(u64::MAX, VALUES, 0)), 11);
    assert_eq!(number(node.open(1 << 32, VALUES, 0)), 11);
    assert_eq!(number(node.open(8, VALUES, LATE)), 10);
    assert_eq!(number(node.open(8, SMALL_VALUES, LATE)), 8);
    assert_eq!(number(node.close(0, VALUES, 0)), 12);
    assert_eq!(number(node.close(8, VALUES, 0)), 11);
    assert_eq!(number(node.close(8, VALUES, LATE)), 10);
    assert_eq!(number(node.close(7, SMALL_VALUES, 0)), 8);
    assert_eq!(number(node.close(7, VALUES, MAX_TIME)), 0);
    assert_eq!(number(node.close(7, VALUES, 0)), 12);
    assert_eq!(number(node.open(7, VALUES, MAX_TIME)), 0);
}

// C-4, C-5
#[test]
fn close_and_open_forget_the_line_and_what_was_active() {
    let mut node = started(&lab(), &[0], 0);
    send(&mut node, 0, 0, "activate");
    send_bytes(&mut node, 0, 0, b"deacti");
    // A refused open clears nothing.
    assert_eq!(number(node.open(0, VALUES, 0)), 13);
    assert_eq!(
        node.state().clients[0].line,
        Unfinished::Bytes(b"deacti".to_vec())
    );
    assert_eq!(node.state().clients[0].active, 0b111);
    assert_eq!(number(node.close(0, VALUES, 0)), 0);
    assert_eq!(node.state().clients[0], Client::default());
    assert_eq!(node.reading(0, VALUES, OUTBOX, 0, b"1"), Ok(Vec::new()));
    assert_eq!(number(node.open(0, VALUES, 0)), 0);
    assert_eq!(node.reading(0, VALUES, OUTBOX, 0, b"1"), Ok(Vec::new()));
    assert_eq!(ask(&mut node, 0, 0, "deactivate"), "inactive");
    // An overlong line is forgotten as well.
    send_bytes(&mut node, 0, 0, &[b'x'; 2_000]);
    assert_eq!(number(node.close(0, VALUES, 0)), 0);
    assert_eq!(number(node.open(0, VALUES, 0)), 0);
    assert_eq!(ask(&mut node, 0, 0, "deactivate"), "inactive");
}

// C-10, C-12
#[test]
fn pieces_refused_from_the_lowest_number_up() {
    let mut node = started(&lab(), &[0], 0);
    let before = node.state().clone();
    let refusals = [
        (0, VALUES, SMALL_OUTBOX, 0, 7),
        (9, SMALL_VALUES, SMALL_OUTBOX, LATE, 7),
        (0, SMALL_VALUES, OUTBOX, 0, 8),
        (9, SMALL_VALUES, OUTBOX, LATE, 8),
        (0, VALUES, OUTBOX, LATE, 10),
        (9, VALUES, OUTBOX, LATE, 10),
        (8, VALUES, OUTBOX, MAX_TIME, 11),
        (u64::MAX, VALUES, OUTBOX, 0, 11),
        (1, VALUES, OUTBOX, 0, 12),
        (7, usize::MAX, usize::MAX, 0, 12),
    ];
    for (client, values_len, outbox_len, time, expected) in refusals {
        for bytes in [&b""[..], b"ping\n", b"x"] {
            let result = node.piece(client, values_len, outbox_len, time, bytes);
            assert_eq!(number(result), expected);
        }
    }
    assert_eq!(node.state(), &before);
    assert_eq!(number(node.piece(0, VALUES, OUTBOX, MAX_TIME, b"")), 0);
}

// C-10, C-12
#[test]
fn readings_refused_from_the_lowest_number_up() {
    let mut node = started(&lab(), &[0], 0);
    send(&mut node, 0, 0, "activate");
    let before = node.state().clone();
    let refusals = [
        (6, SMALL_VALUES, SMALL_OUTBOX, LATE, &b""[..], 7),
        (0, VALUES, SMALL_OUTBOX, 0, b"1", 7),
        (6, SMALL_VALUES, OUTBOX, LATE, b"", 8),
        (6, VALUES, OUTBOX, LATE, b"", 10),
        (6, VALUES, OUTBOX, 0, b"", 14),
        (6, VALUES, OUTBOX, 0, b"1", 14),
        (1 << 32, VALUES, OUTBOX, 0, b"1", 14),
        (u64::MAX, VALUES, OUTBOX, 0, b"1", 14),
        (0, VALUES, OUTBOX, 0, b"", 15),
        (0, VALUES, OUTBOX, 0, b"  ", 15),
        (0, VALUES, OUTBOX, 0, b"1\n", 15),
        (0, VALUES, OUTBOX, 0, b"\"1\"", 15),
        (5, VALUES, OUTBOX, 0, b"\"\\u0080\"", 15),
    ];
    for (parameter, values_len, outbox_len, time, text, expected) in refusals {
        let result = node.reading(parameter, values_len, outbox_len, time, text);
        assert_eq!(number(result), expected);
    }
    assert_eq!(node.state(), &before);
    let long = format!("\"{}\"", "x".repeat(255));
    assert_eq!(
        number(node.reading(5, VALUES, OUTBOX, 0, long.as_bytes())),
        15
    );
    let longest = format!("\"{}\"", "x".repeat(254));
    assert_eq!(
        number(node.reading(5, VALUES, OUTBOX, 0, longest.as_bytes())),
        0
    );
}

/// "7 and 14 as for a reading; 16, unknown class, after 15".
// C-8, C-10
#[test]
fn reports_of_broken_sensors_refused_from_the_lowest_number_up() {
    let mut node = started(&lab(), &[0], 0);
    send(&mut node, 0, 0, "activate");
    let before = node.state().clone();
    let refusals = [
        (6, SMALL_VALUES, SMALL_OUTBOX, LATE, 0, 7),
        (0, VALUES, SMALL_OUTBOX, 0, 1, 7),
        (6, SMALL_VALUES, OUTBOX, LATE, 0, 8),
        (6, VALUES, OUTBOX, LATE, 0, 10),
        (6, VALUES, OUTBOX, 0, 0, 14),
        (6, VALUES, OUTBOX, 0, 1, 14),
        (u64::MAX, VALUES, OUTBOX, 0, 1, 14),
        (0, VALUES, OUTBOX, 0, 0, 16),
        (0, VALUES, OUTBOX, 0, 5, 16),
        (0, VALUES, OUTBOX, 0, 257, 16),
        (5, VALUES, OUTBOX, 0, (1 << 32) + 1, 16),
        (5, VALUES, OUTBOX, 0, u64::MAX, 16),
    ];
    for (parameter, values_len, outbox_len, time, class, expected) in refusals {
        let result = node.unreadable(parameter, values_len, outbox_len, time, class);
        assert_eq!(number(result), expected);
    }
    assert_eq!(node.state(), &before);
    assert_eq!(number(node.unreadable(5, VALUES, OUTBOX, MAX_TIME, 4)), 0);
}

// C-2, C-7
#[test]
fn a_reading_may_set_a_readonly_parameter_and_go_back_in_time() {
    let mut node = started(&lab(), &[0], 500);
    assert_eq!(number(node.reading(0, VALUES, OUTBOX, 9_000, b"1")), 0);
    assert_eq!(number(node.reading(0, VALUES, OUTBOX, 3, b" 2.50 ")), 0);
    assert_eq!(
        ask(&mut node, 0, 0, "read t1:value"),
        r#"reply t1:value [2.50,{"t":0.003}]"#
    );
}
