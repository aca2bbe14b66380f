//! Who talks how much (M-108): what is counted, from when on, and up to where.

use crate::build::*;
use reference::history::Call;
use reference::kept::Kept;
use reference::node::{Counts, Node};

fn counts(lines: u32, errors: u32, updates: u32) -> Counts {
    Counts {
        lines,
        errors,
        updates,
    }
}

/// The reply to `_count` at half a second.
fn counted(numbers: &str) -> String {
    format!("_counted . [[{numbers}],{{\"t\":0.500}}]")
}

fn count(node: &mut Node, client: u64) -> String {
    ask(node, client, 500, "_count")
}

// L-25, L-29
#[test]
fn its_own_line_is_counted_and_its_reply_is_no_error() {
    let mut node = lab_node(&[0]);
    assert_eq!(count(&mut node, 0), counted("1,0,0,0"));
    assert_eq!(count(&mut node, 0), counted("2,0,0,0"));
    assert_eq!(node.state().counts[0], counts(2, 0, 0));
}

// L-25
#[test]
fn specifier_and_data_are_ignored() {
    let mut node = lab_node(&[0]);
    for (line, number) in [("_count .", 1), ("_count  {", 2), ("_count t1:x \"", 3)] {
        let expected = counted(&format!("{number},0,0,0"));
        assert_eq!(ask(&mut node, 0, 500, line), expected);
    }
}

// L-26
#[test]
fn other_custom_actions_are_not_built() {
    let mut node = lab_node(&[0]);
    for (number, action) in ["_Count", "_counts", "_coun", "_", "count", "_count\t"]
        .into_iter()
        .enumerate()
    {
        assert!(
            ask(&mut node, 0, 0, action).starts_with("error_"),
            "{action}"
        );
        let errors = number as u32 + 1;
        assert_eq!(node.state().counts[0], counts(errors, errors, 0));
    }
}

// L-29
#[test]
fn every_used_line_feed_is_a_line() {
    let mut node = lab_node(&[0]);
    send_bytes(&mut node, 0, 0, b"ping");
    assert_eq!(node.state().counts[0], counts(0, 0, 0));
    send_bytes(&mut node, 0, 0, b"\n\n");
    assert_eq!(node.state().counts[0], counts(1, 0, 0));
    send_bytes(&mut node, 0, 0, b"\r\n");
    assert_eq!(node.state().counts[0], counts(2, 1, 0));
    send_bytes(&mut node, 0, 0, &[b'x'; 1_025]);
    assert_eq!(node.state().counts[0], counts(2, 1, 0));
    send_bytes(&mut node, 0, 0, b"\n");
    assert_eq!(node.state().counts[0], counts(3, 2, 0));
}

// L-29
#[test]
fn errors_are_the_replies_that_begin_so() {
    let mut node = lab_node(&[0]);
    // A token is no beginning, and a reply to an unknown action is an error.
    ask(&mut node, 0, 0, "ping error_");
    assert_eq!(node.state().counts[0], counts(1, 0, 0));
    ask(&mut node, 0, 0, "update t1:value");
    assert_eq!(node.state().counts[0], counts(2, 1, 0));
    node.unreadable(0, VALUES, OUTBOX, 0, 1).unwrap();
    assert!(ask(&mut node, 0, 0, "read t1:value").starts_with("error_read "));
    assert_eq!(node.state().counts[0], counts(3, 2, 0));
}

// L-29
#[test]
fn updates_are_counted_where_they_go_to() {
    let mut node = lab_node(&[0, 7]);
    // t1 has three parameters.
    send(&mut node, 7, 0, "activate t1");
    assert_eq!(node.state().counts[7], counts(1, 0, 3));
    node.reading(0, VALUES, OUTBOX, 0, b"4").unwrap();
    assert_eq!(node.state().counts[7], counts(1, 0, 4));
    node.unreadable(0, VALUES, OUTBOX, 0, 2).unwrap();
    assert_eq!(node.state().counts[7], counts(1, 0, 5));
    // The status and the target. An order to a driver is no update, nor is it
    // counted for who asked.
    send(&mut node, 0, 0, "change t1:target 4");
    assert_eq!(node.state().counts[7], counts(1, 0, 7));
    assert_eq!(node.state().counts[0], counts(1, 0, 0));
    assert_eq!(count(&mut node, 7), counted("2,0,7,1"));
}

// L-25
#[test]
fn active_modules_without_parameters_count_too() {
    let mut node = lab_node(&[0]);
    send(&mut node, 0, 0, "activate idle");
    assert_eq!(count(&mut node, 0), counted("2,0,0,1"));
    send(&mut node, 0, 0, "activate");
    let updates = node.state().counts[0].updates;
    assert_eq!(count(&mut node, 0), counted(&format!("4,0,{updates},3")));
    send(&mut node, 0, 0, "deactivate mf");
    assert_eq!(count(&mut node, 0), counted(&format!("6,0,{updates},2")));
}

// L-30
#[test]
fn an_open_begins_anew_a_close_keeps() {
    let mut node = lab_node(&[0]);
    ask(&mut node, 0, 0, "x");
    assert!(node.open(0, VALUES, 0).is_err());
    assert_eq!(node.state().counts[0], counts(1, 1, 0));
    node.close(0, VALUES, 0).unwrap();
    assert_eq!(node.state().counts[0], counts(1, 1, 0));
    node.open(0, VALUES, 0).unwrap();
    assert_eq!(node.state().counts[0], counts(0, 0, 0));
}

// L-30
#[test]
fn each_stops_at_4_294_967_295() {
    let call = |bytes: &[u8]| Call::Piece {
        client: 0,
        values_len: VALUES,
        outbox_len: OUTBOX,
        time: 500,
        bytes: bytes.to_vec(),
    };
    for first in [4_294_967_294, 4_294_967_295] {
        let mut kept = Kept::new(VALUES);
        let open = Call::Open {
            client: 0,
            values_len: VALUES,
            time: 0,
        };
        kept.call(&lab(), &[], &open);
        kept.counts[0] = counts(first, first, first);
        // The first gets there, the second stays.
        for _ in 0..2 {
            kept.call(&lab(), &[], &call(b"change t1:x 1\n"));
            kept.call(&lab(), &[], &call(b"activate t1\n"));
            let full = 4_294_967_295;
            assert_eq!(kept.counts[0], counts(full, full, full));
        }
        let answer = kept.call(&lab(), &[], &call(b"_count\n"));
        let line = counted("4294967295,4294967295,4294967295,1");
        assert!(answer.outbox.ends_with(format!("{line}\n").as_bytes()));
        // What is counted of a closed client is no fault.
        kept.counts[5] = counts(1, 2, 3);
        assert!(kept.is_fit(&lab()));
    }
}
