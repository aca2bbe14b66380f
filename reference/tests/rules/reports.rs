//! Structure reports byte for byte.

use crate::build::*;
use reference::report;
use reference::table::Table;

fn report_of(table: &[u8]) -> String {
    let table = Table::judge(table).expect("a good table");
    String::from_utf8(report::write(&table)).expect("ASCII")
}

/// The report of a module `t1` without anything but one command's argument.
fn argument_report(argument: &[u8]) -> String {
    let report = report_of(&one_module(&[cm_with("c", "", argument)]));
    let front = r#"{"modules":{"t1":{"interface_classes":[],"description":"stage","accessibles":{"c":{"description":"","datainfo":{"type":"command","argument":"#;
    let back = r#"}}}}},"equipment_id":"demo","description":"one stage"}"#;
    let inner = report.strip_prefix(front).expect("the front");
    inner.strip_suffix(back).expect("the back").to_string()
}

const WHOLE: &str = r#"{"modules":{"t1":{"interface_classes":[],"description":"stage","accessibles":{"value":{"description":"reading","readonly":true,"datainfo":{"type":"double","min":0,"max":300}},"mode":{"description":"heater","readonly":false,"datainfo":{"type":"enum","members":{"off":0,"on":1}}},"stop":{"description":"stop","datainfo":{"type":"command"}}}}},"equipment_id":"demo","description":"one stage"}"#;

// T-31 to T-34
#[test]
fn the_whole_report_of_document_01() {
    assert_eq!(report_of(&report_example()), WHOLE);
}

// L-16
#[test]
fn describe_sends_the_report_whatever_follows() {
    let mut node = started(&report_example(), &[4], 0);
    for line in ["describe", "describe t1", "describe . {", "describe \r"] {
        let reply = ask(&mut node, 4, 0, line);
        assert_eq!(reply, format!("describing . {WHOLE}"));
    }
}

// T-35
#[test]
fn notes_are_left_out() {
    let noted = table(&[
        mo("a", "first"),
        no("mind the gap"),
        mo("B", ""),
        no(""),
        mo("c", ""),
        cm("x", "y"),
    ]);
    let expected = r#"{"modules":{"a":{"interface_classes":[],"description":"first","accessibles":{}},"B":{"interface_classes":[],"description":"","accessibles":{}},"c":{"interface_classes":[],"description":"","accessibles":{"x":{"description":"y","datainfo":{"type":"command"}}}}},"equipment_id":"demo","description":"one stage"}"#;
    assert_eq!(report_of(&noted), expected);
    let plain = table(&[mo("a", "first"), mo("B", ""), mo("c", ""), cm("x", "y")]);
    assert_eq!(report_of(&plain), expected);
}

// T-33
#[test]
fn the_keys_of_each_type_stand_in_order() {
    let expected = [
        (
            double((-5, 0), (250, -2)),
            r#"{"type":"double","min":-5,"max":250e-2}"#,
        ),
        (
            double((i64::MIN, 30), (0, 5)),
            r#"{"type":"double","min":-9223372036854775808e30,"max":0e5}"#,
        ),
        (
            int(i64::MIN, i64::MAX),
            r#"{"type":"int","min":-9223372036854775808,"max":9223372036854775807}"#,
        ),
        (boolean(), r#"{"type":"bool"}"#),
        (
            enumeration(&[("low", i32::MIN), ("High", i32::MAX)]),
            r#"{"type":"enum","members":{"low":-2147483648,"High":2147483647}}"#,
        ),
        (
            string(0, 65535),
            r#"{"type":"string","minchars":0,"maxchars":65535}"#,
        ),
        (
            array(1, 3, &boolean()),
            r#"{"type":"array","minlen":1,"maxlen":3,"members":{"type":"bool"}}"#,
        ),
        (
            tuple(&[boolean(), string(2, 2)]),
            r#"{"type":"tuple","members":[{"type":"bool"},{"type":"string","minchars":2,"maxchars":2}]}"#,
        ),
        (
            structure(&[("a", boolean()), ("b", int(0, 1))]),
            r#"{"type":"struct","members":{"a":{"type":"bool"},"b":{"type":"int","min":0,"max":1}}}"#,
        ),
        (
            scaled((250, -2), -4, 1000),
            r#"{"type":"scaled","scale":250e-2,"min":-4,"max":1000}"#,
        ),
        (
            scaled((i64::MAX, 0), i64::MIN, i64::MAX),
            r#"{"type":"scaled","scale":9223372036854775807,"min":-9223372036854775808,"max":9223372036854775807}"#,
        ),
        (
            blob(0, 65535),
            r#"{"type":"blob","minbytes":0,"maxbytes":65535}"#,
        ),
        (
            array(0, 1, &tuple(&[blob(1, 2), scaled((1, 30), 0, 0)])),
            r#"{"type":"array","minlen":0,"maxlen":1,"members":{"type":"tuple","members":[{"type":"blob","minbytes":1,"maxbytes":2},{"type":"scaled","scale":1e30,"min":0,"max":0}]}}"#,
        ),
    ];
    for (argument, report) in expected {
        assert_eq!(argument_report(&argument), report);
    }
}
