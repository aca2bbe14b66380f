//! Lines and their answers.

use crate::build::*;
use reference::node::Counts;

fn error(action: &str, specifier: &str, class: &str) -> String {
    let text = match class {
        "ProtocolError" => "malformed or unknown request",
        "NoSuchModule" => "no such module",
        "NoSuchParameter" => "no such parameter",
        "NoSuchCommand" => "no such command",
        "ReadOnly" => "parameter is read only",
        "BadJSON" => "data is not JSON",
        "WrongType" => "value has the wrong type",
        "RangeError" => "value is out of range",
        other => panic!("{other}"),
    };
    format!("error_{action} {specifier} [\"{class}\",\"{text}\",{{}}]")
}

// L-15
#[test]
fn identification() {
    let mut node = lab_node(&[0]);
    for line in ["*IDN?", "*IDN?\r", "*IDN? t1", "*IDN? x y z", "*IDN? "] {
        assert_eq!(
            ask(&mut node, 0, 0, line),
            "ISSE&SINE2020,SECoP,V2019-09-16,v1.0"
        );
    }
}

// L-17
#[test]
fn ping_repeats_its_token() {
    let mut node = lab_node(&[0]);
    let expected = [
        ("ping 123", r#"pong 123 [null,{"t":1505396348.543}]"#),
        ("ping", r#"pong  [null,{"t":1505396348.543}]"#),
        ("ping ", r#"pong  [null,{"t":1505396348.543}]"#),
        ("ping  x", r#"pong  [null,{"t":1505396348.543}]"#),
        (
            "ping a:\"\\ b c",
            r#"pong a:"\ [null,{"t":1505396348.543}]"#,
        ),
    ];
    for (line, reply) in expected {
        assert_eq!(ask(&mut node, 0, 1_505_396_348_543, line), reply);
    }
}

// L-20
#[test]
fn read_as_in_secop() {
    let mut node = lab_node(&[0]);
    let stored = node.reading(0, VALUES, OUTBOX, 1_505_396_348_188, b"295.14");
    assert_eq!(stored, Ok(Vec::new()));
    let expected = [
        (
            "read t1:value",
            r#"reply t1:value [295.14,{"t":1505396348.188}]"#,
        ),
        (
            "read t1:status",
            r#"reply t1:status [[100,"OK"],{"t":1.000}]"#,
        ),
        ("read mf:target", r#"reply mf:target [-0,{"t":1.000}]"#),
        ("read mf:label", r#"reply mf:label ["",{"t":1.000}]"#),
        // What follows a second colon or the specifier is ignored.
        (
            "read t1:status:x",
            r#"reply t1:status [[100,"OK"],{"t":1.000}]"#,
        ),
        (
            "read t1:status:?:",
            r#"reply t1:status [[100,"OK"],{"t":1.000}]"#,
        ),
        (
            "read t1:status: {",
            r#"reply t1:status [[100,"OK"],{"t":1.000}]"#,
        ),
    ];
    for (line, reply) in expected {
        assert_eq!(ask(&mut node, 0, 77, line), reply);
    }
}

// L-21
#[test]
fn change_as_in_secop() {
    let mut node = lab_node(&[0, 1, 2, 6]);
    for client in [6, 1, 0] {
        send(&mut node, client, 1_000, "activate mf");
    }
    send(&mut node, 2, 1_000, "activate t1");
    let records = send(&mut node, 1, 2_345, "change mf:target 5");
    assert_eq!(
        shown(&records),
        [
            "1 DR 3 5",
            r#"0 * update mf:target [5,{"t":2.345}]"#,
            r#"1 * update mf:target [5,{"t":2.345}]"#,
            r#"6 * update mf:target [5,{"t":2.345}]"#,
            r#"1 < changed mf:target [5,{"t":2.345}]"#,
        ]
    );
    // The requester needs not be active itself; the stored form is shown.
    let records = send(&mut node, 2, 2_000, "change mf:label:x   \"a b\"  ");
    assert_eq!(
        shown(&records),
        [
            r#"2 DR 5 "a b""#,
            r#"0 * update mf:label ["a b",{"t":2.000}]"#,
            r#"1 * update mf:label ["a b",{"t":2.000}]"#,
            r#"6 * update mf:label ["a b",{"t":2.000}]"#,
            r#"2 < changed mf:label ["a b",{"t":2.000}]"#,
        ]
    );
    assert_eq!(
        ask(&mut node, 6, 9_999, "read mf:label"),
        r#"reply mf:label ["a b",{"t":2.000}]"#
    );
    // The same value again, at an earlier time, is set and sent like any other.
    send(&mut node, 0, 2_000, "deactivate");
    send(&mut node, 6, 2_000, "deactivate mf");
    let records = send(&mut node, 0, 1, "change mf:target 5");
    assert_eq!(
        shown(&records),
        [
            "0 DR 3 5",
            r#"1 * update mf:target [5,{"t":0.001}]"#,
            r#"0 < changed mf:target [5,{"t":0.001}]"#,
        ]
    );
}

// L-23
#[test]
fn do_as_in_secop() {
    let mut node = lab_node(&[3]);
    for line in [
        "do t1:stop",
        "do t1:stop null",
        "do t1:stop  ",
        "do t1:stop:x  null ",
    ] {
        let records = send(&mut node, 3, 1_505_396_348_876, line);
        assert_eq!(
            shown(&records),
            ["3 DC 0 ", r#"3 < done t1:stop [null,{"t":1505396348.876}]"#]
        );
    }
    let records = send(&mut node, 3, 4, "do mf:stop");
    assert_eq!(
        shown(&records),
        ["3 DC 2 ", r#"3 < done mf:stop [null,{"t":0.004}]"#]
    );
    let records = send(&mut node, 3, 4, "do mf:go  7 ");
    assert_eq!(
        shown(&records),
        ["3 DC 1 7", r#"3 < done mf:go [null,{"t":0.004}]"#]
    );
}

// L-18
#[test]
fn activate_sends_the_values_first() {
    let mut node = lab_node(&[0, 1]);
    let t1 = [
        r#"1 * update t1:value [295.13,{"t":1.000}]"#,
        r#"1 * update t1:target [0,{"t":1.000}]"#,
        r#"1 * update t1:status [[100,"OK"],{"t":1.000}]"#,
    ];
    let mf = [
        r#"1 * update mf:target [-0,{"t":1.000}]"#,
        r#"1 * update mf:mode [1,{"t":1.000}]"#,
        r#"1 * update mf:label ["",{"t":1.000}]"#,
    ];
    let with = |updates: &[&[&str]], reply: &str| -> Vec<String> {
        let mut lines: Vec<String> = updates
            .concat()
            .iter()
            .map(|line| line.to_string())
            .collect();
        lines.push(format!("1 < {reply}"));
        lines
    };
    for line in ["activate", "activate ", "activate  x", "activate"] {
        let records = send(&mut node, 1, 5_000, line);
        assert_eq!(shown(&records), with(&[&t1, &mf], "active"));
    }
    for line in [
        "activate mf",
        "activate mf:target",
        "activate mf:!!",
        "activate mf: x",
    ] {
        let records = send(&mut node, 1, 5_000, line);
        assert_eq!(shown(&records), with(&[&mf], "active mf"));
    }
    assert_eq!(ask(&mut node, 1, 5_000, "activate idle"), "active idle");
}

// L-18, L-19
#[test]
fn activation_is_one_set_of_modules() {
    let mut node = lab_node(&[0]);
    let mut active_after = |line: &str| {
        let records = send(&mut node, 0, 0, line);
        let reply = line_of(records.last().unwrap());
        (reply, node.state().clients[0].active)
    };
    let expected = [
        ("deactivate", "inactive", 0b000),
        ("activate mf", "active mf", 0b100),
        ("activate idle:x", "active idle", 0b110),
        ("deactivate mf:x y", "inactive mf", 0b010),
        ("activate", "active", 0b111),
        ("deactivate t1", "inactive t1", 0b110),
        ("deactivate t1", "inactive t1", 0b110),
        (
            "activate nosuch",
            &error("activate", "nosuch", "NoSuchModule"),
            0b110,
        ),
        ("deactivate ", "inactive", 0b000),
    ];
    for (line, reply, mask) in expected {
        assert_eq!(active_after(line), (reply.to_string(), mask), "{line}");
    }
}

// C-7
#[test]
fn a_reading_sends_updates_only() {
    let mut node = lab_node(&[0, 4, 5]);
    send(&mut node, 5, 0, "activate t1");
    send(&mut node, 4, 0, "activate");
    let written = node.reading(2, VALUES, OUTBOX, 3_000, br#" [ 400 , "heater broken" ] "#);
    let records = reference::outbox::read(&written.unwrap()).unwrap();
    assert_eq!(
        shown(&records),
        [
            r#"4 * update t1:status [[400,"heater broken"],{"t":3.000}]"#,
            r#"5 * update t1:status [[400,"heater broken"],{"t":3.000}]"#,
        ]
    );
    assert_eq!(
        ask(&mut node, 0, 0, "read t1:status"),
        r#"reply t1:status [[400,"heater broken"],{"t":3.000}]"#
    );
}

// L-7, L-9
#[test]
fn protocol_errors_repeat_what_was_sent() {
    let mut node = lab_node(&[0]);
    let long = "n".repeat(64);
    let long_module = format!("read {long}:value");
    let long_name = format!("read t1:{long}");
    let lines = [
        // Unknown actions; letters' case counts.
        "meas:volt?",
        "meas:volt? x",
        "Ping x",
        "READ t1:value",
        "idn",
        "*IDN?x",
        "_custom a b",
        "logging t1 \"debug\"",
        "check t1:target 1",
        "help",
        "update t1:value",
        "error_ x",
        // Missing colons and bad names.
        "read",
        "read ",
        "read t1",
        "change t1 1",
        "do t1",
        "change",
        "do  t1:stop",
        "read :value",
        "read t1:",
        "read t1::value",
        "read :",
        "read 1t:value",
        "read t1:9",
        "read nosuch:9",
        "read t-1:value",
        "change nosuch:9 x",
        "do nosuch: x",
        &long_module,
        &long_name,
        "read t1:val\"ue",
        "read t1.value:x",
        // The same for the module of an activation.
        "activate :",
        "activate :x",
        "activate 1",
        "activate t-1",
        "deactivate .",
        "activate t1,mf",
        // A leading space leaves the action empty.
        " ping",
        " ",
        "  ",
        " ping x y",
        "  read t1:value",
    ];
    for line in lines {
        let mut parts = line.splitn(3, ' ');
        let action = parts.next().unwrap();
        let specifier = parts.next().unwrap_or("");
        assert_eq!(
            ask(&mut node, 0, 0, line),
            error(action, specifier, "ProtocolError"),
            "{line}"
        );
    }
    assert_eq!(
        ask(&mut node, 0, 0, " ping"),
        error("", "ping", "ProtocolError")
    );
}

// L-8, L-10
#[test]
fn errors_of_each_class_in_their_order() {
    let mut node = lab_node(&[0]);
    let mut before = node.state().clone();
    let cases = [
        // Modules before accessibles, accessibles before data.
        ("read tx:target", "NoSuchModule"),
        ("read T1:value", "NoSuchModule"),
        ("change tx:target", "NoSuchModule"),
        ("do tx:stop {", "NoSuchModule"),
        ("activate T1", "NoSuchModule"),
        ("deactivate tx:9", "NoSuchModule"),
        ("read t1:ramp", "NoSuchParameter"),
        ("read t1:Value", "NoSuchParameter"),
        ("read idle:value", "NoSuchParameter"),
        ("change t1:ramp {", "NoSuchParameter"),
        ("read t1:stop", "NoSuchParameter"),
        ("change t1:stop 1", "NoSuchParameter"),
        ("read t1:mode", "NoSuchParameter"),
        ("do t1:go 1", "NoSuchCommand"),
        ("do t1:target 1", "NoSuchCommand"),
        ("do t1:STOP", "NoSuchCommand"),
        // Read only before the data is looked at.
        ("change t1:value 1", "ReadOnly"),
        ("change t1:value {", "ReadOnly"),
        ("change t1:status", "ReadOnly"),
        ("change t1:target 01", "BadJSON"),
        ("change t1:target [true", "BadJSON"),
        ("change mf:mode on", "BadJSON"),
        ("do t1:stop x", "BadJSON"),
        ("do mf:go 1 2", "BadJSON"),
        // Missing data is null.
        ("change t1:target", "WrongType"),
        ("change t1:target    ", "WrongType"),
        ("change t1:target null", "WrongType"),
        ("change mf:mode [\"on\"]", "WrongType"),
        ("change mf:target 1.0", "WrongType"),
        ("do t1:stop 0", "WrongType"),
        ("do t1:stop [null]", "WrongType"),
        ("do t1:stop {}", "WrongType"),
        ("do mf:go", "WrongType"),
        ("do mf:go null", "WrongType"),
        ("change t1:target -9", "RangeError"),
        ("change t1:target 300.0000000000000000001", "RangeError"),
        ("change mf:target 11", "RangeError"),
        ("change mf:mode 2", "RangeError"),
        ("change mf:mode \"On\"", "RangeError"),
        ("change mf:mode \"\\u006fn\"", "RangeError"),
        ("change mf:label \"\\u00e9\"", "RangeError"),
        ("do mf:go 10", "RangeError"),
    ];
    for (line, class) in cases {
        let mut parts = line.splitn(3, ' ');
        let (action, specifier) = (parts.next().unwrap(), parts.next().unwrap_or(""));
        assert_eq!(
            ask(&mut node, 0, 9, line),
            error(action, specifier, class),
            "{line}"
        );
    }
    before.counts[0] = Counts {
        lines: cases.len() as u32,
        errors: cases.len() as u32,
        updates: 0,
    };
    assert_eq!(node.state(), &before);
}

// L-9
#[test]
fn errors_repeat_the_whole_specifier() {
    let mut node = lab_node(&[0]);
    assert_eq!(
        ask(&mut node, 0, 0, "read tx:target:more"),
        error("read", "tx:target:more", "NoSuchModule")
    );
    assert_eq!(
        ask(&mut node, 0, 0, "change t1:target:a\"b\\ 301"),
        error("change", "t1:target:a\"b\\", "RangeError")
    );
}

// V-22
#[test]
fn a_change_of_more_than_256_bytes_is_out_of_range() {
    let mut node = lab_node(&[0]);
    let change = |length: usize| format!("change mf:label    \"{}\"", "x".repeat(length - 2));
    assert_eq!(
        ask(&mut node, 0, 0, &change(257)),
        error("change", "mf:label", "RangeError")
    );
    let records = send(&mut node, 0, 0, &change(256));
    assert_eq!(records[0].body.len(), 257);
}

// L-3
#[test]
fn bytes_outside_32_to_126_spoil_a_line() {
    let mut node = lab_node(&[0]);
    let spoiled: [&[u8]; 9] = [
        b"ping \x1f\n",
        b"ping \x7f\n",
        b"ping \x80\n",
        b"ping \xff\n",
        b"ping\tx\n",
        b"\0\n",
        b"ping x\r\r\n",
        b"ping \rx\n",
        b"change mf:label \"\x08\"\n",
    ];
    for bytes in spoiled {
        let (used, written) = send_bytes(&mut node, 0, 0, bytes);
        assert_eq!(used, bytes.len());
        let records = reference::outbox::read(&written).unwrap();
        assert_eq!(
            shown(&records),
            [format!("0 < {}", error("", "", "ProtocolError"))]
        );
    }
    for empty in ["", "\r"] {
        assert_eq!(ask(&mut node, 0, 0, empty), error("", "", "ProtocolError"));
    }
    let (_, written) = send_bytes(&mut node, 0, 0, b"ping ~ \r\n");
    assert_eq!(written, b"RP\0\0\x1apong ~ [null,{\"t\":0.000}]\n");
}

/// A ping with so many bytes before the line feed.
fn ping_of(length: usize, end: &str) -> String {
    format!("ping {}{end}", "x".repeat(length - 5 - end.len()))
}

// L-2
#[test]
fn a_line_has_at_most_1_024_bytes_before_its_line_feed() {
    let mut node = lab_node(&[0]);
    for end in ["", "\r"] {
        for length in [1_023, 1_024] {
            let token = "x".repeat(length - 5 - end.len());
            let expected = format!("pong {token} [null,{{\"t\":0.000}}]");
            assert_eq!(ask(&mut node, 0, 0, &ping_of(length, end)), expected);
        }
        for length in [1_025, 1_026, 5_000] {
            let reply = ask(&mut node, 0, 0, &ping_of(length, end));
            assert_eq!(reply, error("", "", "ProtocolError"));
            // The next line is read afresh.
            assert_eq!(ask(&mut node, 0, 0, "deactivate"), "inactive");
        }
    }
}

// L-2
#[test]
fn overlong_lines_in_pieces() {
    use reference::line::Unfinished;
    let mut node = lab_node(&[0]);
    let (used, written) = send_bytes(&mut node, 0, 0, &[b'x'; 1_024]);
    assert_eq!((used, written), (1_024, Vec::new()));
    assert_eq!(
        node.state().clients[0].line,
        Unfinished::Bytes(vec![b'x'; 1_024])
    );
    assert_eq!(send_bytes(&mut node, 0, 0, b"\r"), (1, Vec::new()));
    assert_eq!(node.state().clients[0].line, Unfinished::Overlong);
    assert_eq!(send_bytes(&mut node, 0, 0, b"ping"), (4, Vec::new()));
    assert_eq!(node.state().clients[0].line, Unfinished::Overlong);
    assert_eq!(ask(&mut node, 0, 0, ""), error("", "", "ProtocolError"));
    assert_eq!(node.state().clients[0].line, Unfinished::Bytes(Vec::new()));
}

// C-6
#[test]
fn a_piece_is_used_up_to_its_first_line_feed() {
    let mut node = lab_node(&[0, 1]);
    assert_eq!(send_bytes(&mut node, 0, 1, b""), (0, Vec::new()));
    assert_eq!(send_bytes(&mut node, 0, 1, b"deact"), (5, Vec::new()));
    // Another client's bytes don't mix with it.
    let (used, written) = send_bytes(&mut node, 1, 2, b"ping a\nping b\n");
    assert_eq!(used, 7);
    assert_eq!(written, b"RP\x01\x00\x1apong a [null,{\"t\":0.002}]\n");
    let (used, written) = send_bytes(&mut node, 0, 3, b"ivate\n\n");
    assert_eq!(used, 6);
    assert_eq!(written, b"RP\x00\x00\x09inactive\n");
}

// L-1
#[test]
fn a_line_has_the_time_of_its_line_feed() {
    let mut node = lab_node(&[0]);
    send_bytes(&mut node, 0, 5_000, b"change mf:target 7");
    let (_, written) = send_bytes(&mut node, 0, 3_000, b"\n");
    let expected = [
        &b"DR\0\0\x02\x037"[..],
        b"RP\0\0\x22changed mf:target [7,{\"t\":3.000}]\n",
    ];
    assert_eq!(written, expected.concat());
}
