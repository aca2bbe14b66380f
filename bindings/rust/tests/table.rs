//! Tables from texts: what is built, what is told, and the message of each
//! fault. Bytes are laid out by hand as document 01 says; numbers are those that
//! its table gives for such a fault.

use jihfasul::table::{self, Access, Datainfo, Decimal, Member, Module, Table};

/// Document 01's report is of this table.
const STAGE: &str = r#"# one cold stage
node "demo" "one stage"

module t1 "stage"
    parameter value "reading" readonly double 0 to 300 = 0   # kelvin
    parameter mode "heater" enum (off: 0, on: 1) = 1
    command stop "stop"
"#;

/// The same, laid out by hand.
const STAGE_BYTES: &[u8] = b"ND\x04demo\x09one stage\
MO\x02t1\x05stage\
PA\x05value\x07reading\x01\x01\0\0\0\0\0\0\0\0\0\0\0\0\0\0\0\x01\x2c\0\0\x010\
PA\x04mode\x06heater\0\x04\x02\x03off\0\0\0\0\x02on\0\0\0\x01\0\x011\
CM\x04stop\x04stop\0\
EN";

fn built(text: &str) -> Vec<u8> {
    table::build(text.as_bytes()).unwrap_or_else(|faults| panic!("{}", faults[0]))
}

/// The bytes of a parameter's datainfo; its value follows without spaces.
fn datainfo_bytes(datainfo: &str, value: &str) -> Vec<u8> {
    let front = b"ND\x01n\0MO\x01m\0PA\x01p\0\0";
    let text = format!("node \"n\" \"\"\nmodule m \"\"\nparameter p \"\" {datainfo} = {value}\n");
    let bytes = built(&text);
    let rest = bytes.strip_prefix(front.as_slice()).expect("the front");
    let stored = value.replace(' ', "");
    let end = rest.len() - stored.len() - 4;
    let length = (stored.len() as u16).to_be_bytes();
    let value = [&length, stored.as_bytes(), b"EN"].concat();
    assert_eq!(rest[end..], value, "{datainfo}");
    rest[..end].to_vec()
}

#[test]
fn a_text_is_built_to_its_bytes() {
    assert_eq!(built(STAGE), STAGE_BYTES);
    assert_eq!(table::check(STAGE_BYTES).number, 0);
}

#[test]
fn bytes_are_told_as_their_text() {
    let told = table::explain(STAGE_BYTES).expect("a good table");
    let expected = STAGE.replace("# one cold stage\n", "");
    assert_eq!(told, expected.replace("   # kelvin", ""));
}

/// Datainfos as texts, a value of each, and their bytes.
const TYPES: [(&str, &str, &str); 12] = [
    (
        "double 0 to 2.50",
        "1",
        "01 0000000000000000 00 00000000000000fa fe",
    ),
    (
        "double -3e2 to 0.0",
        "-1",
        "01 fffffffffffffffd 02 0000000000000000 ff",
    ),
    ("int -1 to 600", "5", "02 ffffffffffffffff 0000000000000258"),
    ("bool", "true", "03"),
    (
        "enum (idle: 100, off: -1)",
        "100",
        "04 02 04 69646c65 00000064 03 6f6666 ffffffff",
    ),
    ("string 1 to 300", "\"x\"", "05 0001 012c"),
    ("array 0 to 2 of bool", "[true, false]", "06 0000 0002 03"),
    (
        "tuple (bool, string 0 to 4)",
        "[true,\"\"]",
        "07 02 03 05 0000 0004",
    ),
    ("struct (a: bool)", "{\"a\": true}", "08 01 01 61 03"),
    (
        "scaled 0.001 times 0 to 1",
        "1",
        "09 0000000000000001 fd 0000000000000000 0000000000000001",
    ),
    ("blob 0 to 3", "\"AAEC\"", "0a 0000 0003"),
    (
        "partial (a: bool, b?: bool)",
        "{\"a\":true,\"b\":false}",
        "0b 02 00 01 61 03 01 01 62 03",
    ),
];

#[test]
fn each_type_has_its_bytes() {
    for (datainfo, value, bytes) in TYPES {
        let hex =
            |bytes: &[u8]| -> String { bytes.iter().map(|byte| format!("{byte:02x}")).collect() };
        let found = hex(&datainfo_bytes(datainfo, value));
        assert_eq!(found, bytes.replace(' ', ""), "{datainfo}");
    }
}

#[test]
fn editions_notes_and_arguments() {
    let text = "node \"n\" \"\"\nedition \"ISSE,SECoP,x\"\nmodule m \"\"\nnote \"\"\ncommand c \"\" bool\n";
    let bytes = b"ND\x01n\0ED\x0cISSE,SECoP,xMO\x01m\0NO\0CM\x01c\0\x01\x03EN";
    assert_eq!(built(text), bytes);
    assert_eq!(built(&table::explain(bytes).expect("good")), bytes);
}

#[test]
fn words_and_layout_are_free() {
    let text = "node\"demo\"\"one stage\"#x\r\n\tmodule t1\t\"stage\"\nparameter value \"reading\" readonly double 0 to 300=0\n\n\
parameter mode \"heater\" enum ( # two\n off : 0 , # no\n on:1\n)\t=\t1\ncommand stop \"stop\"";
    assert_eq!(built(text), STAGE_BYTES);
}

#[test]
fn keywords_are_names_too() {
    let text = "node \"\" \"\"\nmodule module \"\"\nparameter readonly \"\" readonly struct (optional: bool, to: bool) = {\"to\": true, \"optional\": false}\ncommand parameter \"\"\n";
    let again = table::explain(&built(text)).expect("good");
    assert!(again.contains("parameter readonly \"\" readonly struct (optional: bool, to: bool) = {\"to\":true,\"optional\":false}"));
}

#[test]
fn a_table_is_built_in_rust() {
    let stage = Module::new("t1", "stage")
        .parameter(
            "value",
            "reading",
            Access::ReadOnly,
            Datainfo::double(0, 300),
            "0",
        )
        .parameter(
            "mode",
            "heater",
            Access::Write,
            Datainfo::choice(&[("off", 0), ("on", 1)]),
            "1",
        )
        .command("stop", "stop", None);
    let table = Table::new("demo", "one stage").module(stage);
    assert_eq!(table.bytes().as_deref(), Ok(STAGE_BYTES));
    assert_eq!(Table::read(STAGE_BYTES), Ok(table.clone()));
    assert_eq!(table.parameters(), ["t1:value", "t1:mode"]);
    assert_eq!(table.commands(), ["t1:stop"]);
}

#[test]
fn a_table_of_all_types_is_built_in_rust() {
    let inner = Datainfo::structure(&[
        ("a", Datainfo::Bool),
        ("b", Datainfo::array(0, 2, Datainfo::int(0, 9))),
    ]);
    let all = [
        (Datainfo::double(Decimal::new(-5, -1), 2), "0.5"),
        (Datainfo::int(-1, 1), "-1"),
        (Datainfo::Bool, "true"),
        (Datainfo::choice(&[("on", 1)]), "1"),
        (Datainfo::string(0, 3), "\"a\""),
        (Datainfo::array(0, 2, Datainfo::Bool), "[true]"),
        (
            Datainfo::Tuple(vec![Datainfo::Bool, inner.clone()]),
            "[true,{\"b\":[1],\"a\":false}]",
        ),
        (inner, "{\"a\":true,\"b\":[]}"),
        (Datainfo::scaled(Decimal::new(1, -3), 0, 5), "5"),
        (Datainfo::blob(0, 1), "\"/w==\""),
        (
            Datainfo::Partial(vec![
                Member::required("a", Datainfo::Bool),
                Member::optional("b", Datainfo::Bool),
            ]),
            "{\"a\":true,\"b\":true}",
        ),
    ];
    let mut module = Module::new("m", "").note("all");
    for (number, (datainfo, value)) in all.into_iter().enumerate() {
        module = module.parameter(&format!("p{number}"), "", Access::Write, datainfo, value);
    }
    let table = Table::new("", "").edition("ISSE,SECoP,").module(module);
    let bytes = table.bytes().expect("a good table");
    assert_eq!(Table::read(&bytes).as_ref(), Ok(&table));
    assert_eq!(built(&table::explain(&bytes).expect("good")), bytes);
}

#[test]
fn what_no_bytes_can_hold_is_told() {
    let long = "x".repeat(256);
    let fault = |table: Table| table.bytes().expect_err("a fault").to_string();
    let module = |name: &str| Module::new(name, "");
    let text = "record 1 (node), byte 3: a text has at most 255 bytes; this one has 256";
    assert_eq!(fault(Table::new("", &long).module(module("m"))), text);
    let name = fault(Table::new("", "").module(module(&long)));
    assert!(
        name.ends_with(": a name has 1 to 63 characters; this one has 256"),
        "{name}"
    );
    let many = Datainfo::Tuple(vec![Datainfo::Bool; 256]);
    let many = fault(Table::new("", "").module(module("m").command("c", "", Some(many))));
    assert_eq!(
        many,
        "record 3 (command m:c), byte 15: a tuple has 1 to 8 elements; this one has 256"
    );
    let value = format!("\"{}\"", "x".repeat(65_534));
    let value = module("m").parameter("p", "", Access::Write, Datainfo::string(0, 65_535), &value);
    let value = fault(Table::new("", "").module(value));
    assert!(
        value.ends_with(": a value has at most 256 bytes; this one has 65536"),
        "{value}"
    );
}
