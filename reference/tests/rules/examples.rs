//! The examples that document 01 numbers E1 to E12, and its outbox.

use crate::build::*;
use reference::datainfo::{Datainfo, Limit};
use reference::value::{judge, ValueFault};

/// A double from 0 to the limit.
fn double_up_to(mantissa: i64, power: i8) -> Datainfo {
    Datainfo::Double {
        min: Limit {
            mantissa: 0,
            power: 0,
        },
        max: Limit { mantissa, power },
    }
}

// V-5, V-6, V-8
#[test]
fn e1_to_e8_values_of_a_double() {
    let to_300 = double_up_to(300, 0);
    let to_2_5 = double_up_to(250, -2);
    let examples: [(&str, &Datainfo, &str, Result<(), ValueFault>); 8] = [
        ("E1", &to_300, "300", Ok(())),
        ("E2", &to_300, "3e2", Ok(())),
        (
            "E3",
            &to_300,
            "300.0000000000000000001",
            Err(ValueFault::RangeError),
        ),
        ("E4", &to_300, "-0", Ok(())),
        ("E5", &to_300, "\"1\"", Err(ValueFault::WrongType)),
        ("E6", &to_300, "01", Err(ValueFault::BadJson)),
        ("E7", &to_300, "0e100", Err(ValueFault::RangeError)),
        ("E8", &to_2_5, "25e-1", Ok(())),
    ];
    for (name, datainfo, text, expected) in examples {
        let expected = expected.map(|()| text.as_bytes().to_vec());
        assert_eq!(judge(datainfo, text.as_bytes()), expected, "{name}");
    }
}

// L-13, L-18
#[test]
fn e9_activate_with_a_parameter_names_the_module_alone() {
    let mut node = started(&lab(), &[0], 5);
    let records = send(&mut node, 0, 6, "activate t1:x");
    assert_eq!(line_of(records.last().unwrap()), "active t1");
}

// L-17
#[test]
fn e10_ping_without_a_token_leaves_two_spaces() {
    let mut node = started(&lab(), &[0], 5);
    assert_eq!(ask(&mut node, 0, 5, "ping"), r#"pong  [null,{"t":0.005}]"#);
}

// L-3
#[test]
fn e11_an_empty_line_has_neither_action_nor_specifier() {
    let mut node = started(&lab(), &[0], 5);
    assert_eq!(
        ask(&mut node, 0, 5, ""),
        r#"error_  ["ProtocolError","malformed or unknown request",{}]"#
    );
}

// L-1
#[test]
fn e12_return_and_line_feed_in_two_pieces_end_one_line() {
    let mut node = started(&lab(), &[0], 5);
    assert_eq!(send_bytes(&mut node, 0, 6, b"ping x\r"), (7, Vec::new()));
    let (used, written) = send_bytes(&mut node, 0, 7, b"\nping");
    assert_eq!(used, 1);
    let line = b"pong x [null,{\"t\":0.007}]\n";
    assert_eq!(written, [&b"RP\x00\x00\x1a"[..], line].concat());
}

// L-21, C-20 to C-22
#[test]
fn the_outbox_example_byte_for_byte() {
    let kelvin = double((0, 0), (300, 0));
    let bytes = one_module(&[
        pa("value", "", 1, &kelvin, b"0"),
        pa("target", "", 0, &kelvin, b"0"),
    ]);
    let mut node = started(&bytes, &[2, 3, 5], 1000);
    send(&mut node, 5, 1000, "activate t1");
    send(&mut node, 2, 1000, "activate t1");
    let (used, written) = send_bytes(&mut node, 2, 1500, b"change t1:target 12\n");
    assert_eq!(used, 20);
    let expected = [
        &[0x44, 0x52, 0x02, 0x00, 0x03, 0x01, 0x31, 0x32][..],
        &[0x55, 0x50, 0x02, 0x00, 0x22],
        b"update t1:target [12,{\"t\":1.500}]\n",
        &[0x55, 0x50, 0x05, 0x00, 0x22],
        b"update t1:target [12,{\"t\":1.500}]\n",
        &[0x52, 0x50, 0x02, 0x00, 0x23],
        b"changed t1:target [12,{\"t\":1.500}]\n",
    ];
    assert_eq!(written, expected.concat());
}

// L-11
#[test]
fn times_are_written_in_seconds_with_three_decimals() {
    let expected = [
        (0, "0.000"),
        (5, "0.005"),
        (999, "0.999"),
        (1000, "1.000"),
        (1500, "1.500"),
        (1_505_396_348_188, "1505396348.188"),
        (9_999_999_999_999, "9999999999.999"),
    ];
    for (time, text) in expected {
        assert_eq!(reference::node::seconds(time), text);
    }
}
