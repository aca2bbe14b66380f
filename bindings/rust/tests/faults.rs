//! The message of each fault that a text can have, by its number, and which
//! record is told of bytes. `faults.txt` has those of a line or a few.

use jihfasul::table;

/// Cases of lines and messages.
const CASES: &str = include_str!("faults.txt");

/// All faults of a text, a line each.
fn told(text: &str) -> String {
    let faults = table::build(text.as_bytes()).expect_err("a fault");
    let faults: Vec<String> = faults.iter().map(|fault| fault.to_string()).collect();
    faults.join("\n")
}

/// The faults of some lines after a node and a module m.
fn told_of(lines: &str) -> String {
    told(&format!("node \"n\" \"\"\nmodule m \"\"\n{lines}\n"))
}

#[test]
fn each_fault_has_its_message() {
    let lines = CASES.lines();
    let (mut text, mut count) = (Vec::new(), 0);
    for line in lines.filter(|line| !line.is_empty() && !line.starts_with('#')) {
        match line.strip_prefix("-> ") {
            None => text.push(line),
            Some(expected) => {
                assert_eq!(told_of(&text.join("\n")), expected, "{text:?}");
                text.clear();
                count += 1;
            }
        }
    }
    assert!(count > 120 && text.is_empty());
}

#[test]
fn a_file_is_utf_8() {
    let faults = table::build(b"node \"\xff\" \"\"").expect_err("a fault");
    let expected = "line 1, column 7: the file is not UTF-8: here is the byte 255";
    assert_eq!(faults[0].to_string(), expected);
    for (line, column) in [
        (b"module m \"x \xb5K\"".as_slice(), 13),
        (b"module m \"\xb5K\"", 11),
        (b"module \xb5 \"\"", 8),
        (
            b"module m \"\"\nparameter p \"\" string 0 to 9 = \"\xb5\"",
            33,
        ),
    ] {
        let text = [b"node \"n\" \"\"\n".as_slice(), line].concat();
        let faults = table::build(&text).expect_err("a fault");
        let told = (faults[0].column, faults[0].rule.as_str());
        assert_eq!(
            told,
            (column, "the file is not UTF-8: here is the byte 181")
        );
    }
}

/// One fault is told, and not one for each of its lines.
#[test]
fn a_file_of_another_encoding_is_one_fault() {
    let text = "node \"n\" \"\"\nmodule m \"\"\n";
    let wide = |order: fn(u16) -> [u8; 2], mark: &[u8]| {
        let units = text.encode_utf16().flat_map(order);
        [mark, &units.collect::<Vec<u8>>()].concat()
    };
    let expected =
        "line 1, column 1: the file is not UTF-8 but seems to be UTF-16; save it as UTF-8";
    for bytes in [
        wide(u16::to_le_bytes, b"\xff\xfe"),
        wide(u16::to_be_bytes, b"\xfe\xff"),
        wide(u16::to_le_bytes, b""),
        wide(u16::to_be_bytes, b""),
    ] {
        let faults = table::build(&bytes).expect_err("a fault");
        let told: Vec<String> = faults.iter().map(|fault| fault.to_string()).collect();
        assert_eq!(told, [expected]);
    }
    let expected =
        "line 1, column 1: the file's lines end with returns alone; a line feed ends a line";
    assert_eq!(told(&text.replace('\n', "\r")), expected);
    assert!(table::build(text.replace('\n', "\r\n").as_bytes()).is_ok());
}

/// The lines that such a value goes on in are passed over.
#[test]
fn a_value_stands_on_one_line() {
    let fault =
        |column, what| format!("line 3, column {column}: a value stands on one line; {what}");
    let good = "\nparameter q \"\" bool = 1";
    let struct_of = "parameter p \"\" struct (a: bool, b: array 0 to 2 of bool) =";
    let lines = format!("{struct_of} {{\"a\": true,\n  \"b\": [\n]}}{good}");
    assert_eq!(told_of(&lines), fault(60, "this { is not closed"));
    let lines = format!("{struct_of} {{\"a\": true, \"b\": [ # the rest\n\n]}}{good}");
    assert_eq!(told_of(&lines), fault(60, "this { is not closed"));
    let lines = format!("{struct_of}\n  {{\"a\": true, \"b\": []}}{good}");
    assert_eq!(told_of(&lines), fault(59, "it begins after its ="));
    let lines = format!("parameter p \"\" string 0 to 9 = \"x [\ny\"{good}");
    assert_eq!(
        told_of(&lines),
        fault(32, "this string has no closing quote")
    );
    // the records after it are looked at
    let lines = format!("{struct_of} {{\"a\": true,\n\"b\": []}}\nparamter q\n");
    let after = "line 5, column 1: a line begins with";
    assert!(told_of(&lines).contains(after), "{}", told_of(&lines));
}

/// A later quote is taken for it, and what follows that one can't be read.
#[test]
fn a_missing_quote_is_asked_for() {
    let asked =
        |what, column| format!("; {what} began at column {column}: is its closing quote missing?");
    let ends = |lines: &str, end: String| {
        let told = told_of(lines);
        assert!(told.ends_with(&end) && told.lines().count() == 1, "{told}");
    };
    ends(
        "parameter p \"what it does tuple (string 0 to 60) = [\"at rest\"]",
        asked("the description", 13),
    );
    ends(
        "  parameter p \"x string 0 to 9 = \" a\"",
        asked("the description", 15),
    );
    ends(
        "module n \"x # a \"second\" one",
        asked("the description", 10),
    );
    let told = told("node \"lab \"description\"\nmodule m \"\"\n");
    assert!(told.ends_with(&asked("the equipment id", 6)), "{told}");
    // where the text before is whole
    ends(
        "parameter p \"a = b\" ",
        "; found the end of the line".to_string(),
    );
    ends("parameter p \"a = b\" = 1", "; found =".to_string());
    ends("parameter p \"a\" b", "; found b".to_string());
    let escaped = "; found x; a text has no \\, so the quote after it ends the text";
    ends("command c \"d\\\"x\"", escaped.to_string());
}

/// Some editors leave such a mark before a text.
#[test]
fn a_byte_order_mark_is_passed_over() {
    let text = "\u{feff}node \"n\" \"\"\nmodule m \"\"\n";
    assert!(table::build(text.as_bytes()).is_ok());
    let faulty = "\u{feff}node n";
    let expected = "line 1, column 6: expected the equipment id in double quotes; found n";
    assert_eq!(told(faulty), expected);
}

#[test]
fn the_rest_of_a_faulty_record_is_passed_over() {
    let text = "parameter p \"\" partal (\n  a?: bool,\n  b: bool\n) = {}\nparamter q\nmodule n\n";
    let expected = "\
line 3, column 16: expected a type: double, int, bool, enum, string, array, tuple, struct, scaled, blob or partial; found partal
line 7, column 1: a line begins with node, edition, module, note, parameter or command; found paramter
line 8, column 9: expected the description in double quotes; found the end of the line";
    assert_eq!(told_of(text), expected);
}

#[test]
fn one_misspelt_word_is_one_fault() {
    let fault = |line, word| {
        let begin = "a line begins with node, edition, module, note, parameter or command";
        format!("line {line}, column 1: {begin}; found {word}")
    };
    let text = "nod \"\" \"\"\nedition \"ISSE,SECoP,\"\nmodule m \"\"\n";
    assert_eq!(told(text), fault(1, "nod"));
    let text = "node \"\" \"\"\nmodul m \"\"\nnote \"\"\ncommand c \"\"\n";
    assert_eq!(told(text), fault(2, "modul"));
}

#[test]
fn all_faulty_lines_are_told_at_once() {
    let text = "node \"n\"
module
parameter p \"\" double 0 to 1
  command stop
note \"\"
module m \"\"
modul x
";
    let expected = "\
line 1, column 9: expected the description in double quotes; found the end of the line
line 2, column 7: expected the module's name; found the end of the line
line 3, column 29: expected = and the initial value, after the type; found the end of the line
line 4, column 15: expected the description in double quotes; found the end of the line
line 5, column 1: a note stands straight after its module, one for each (number 1)
line 7, column 1: a line begins with node, edition, module, note, parameter or command; found modul";
    assert_eq!(told(text), expected);
}

#[test]
fn an_edition_is_a_text() {
    let expected = "line 2, column 9: expected the identification in double quotes; found 2.0";
    assert_eq!(told("node \"\" \"\"\nedition 2.0\n"), expected);
}

#[test]
fn number_1_records_out_of_place() {
    let first = "a table begins with: node \"equipment id\" \"description\" (number 1)";
    assert_eq!(told(""), format!("line 1, column 1: {first}"));
    assert_eq!(told("# nothing\n\n"), format!("line 3, column 1: {first}"));
    assert_eq!(
        told("module m \"\"\n"),
        format!("line 1, column 1: {first}")
    );
    let lone = "line 2, column 1: a parameter or command comes after its module (number 1)";
    assert_eq!(told("node \"\" \"\"\ncommand c \"\"\n"), lone);
    let text = told_of(&format!("command c \"{}\"", "x".repeat(256)));
    let expected = "a text has at most 255 bytes; this one has 256 (number 1)";
    assert_eq!(text, format!("line 3, column 11: {expected}"));
}

#[test]
fn number_1_the_size() {
    let mut text = "node \"\" \"\"\n".to_string();
    let long = "x".repeat(255);
    for module in 0..16 {
        text += &format!("module m{module:02} \"{long}\"\n");
    }
    for command in 0..47 {
        text += &format!("command c{command:02} \"{long}\"\n");
    }
    // a mark, a name of three bytes and a text of 255, with their lengths; a command has a flag
    let (module, command) = (2 + 4 + 256, 2 + 4 + 256 + 1);
    let length = 4 + 16 * module + 47 * command + 2;
    assert!(length - 2 - command <= 16_384 && length > 16_384);
    let expected = format!(
        "line 64, column 1: a table has at most 16,384 bytes; this one has {length}, \
         and passes them with this record (number 1)"
    );
    assert_eq!(told(&text), expected);
}

#[test]
fn number_2_the_counts() {
    let expected = "a table has 1 to 16 modules; this one has none (number 2)";
    assert_eq!(
        told("node \"\" \"\"\n"),
        format!("line 2, column 1: {expected}")
    );
    let modules = (0..18).map(|number| format!("module m{number} \"\"\n"));
    let text = format!("node \"\" \"\"\n{}", modules.collect::<String>());
    let expected = "a table has 1 to 16 modules; this is the 17th of 18 (number 2)";
    assert_eq!(told(&text), format!("line 18, column 1: {expected}"));
    let commands = (0..66).map(|number| format!("command c{number} \"\"\n"));
    let expected = "line 67, column 1: a table has at most 64 parameters and commands together; \
                    this is the 65th of 66 (number 2)";
    assert_eq!(told_of(&commands.collect::<String>()), expected);
}

#[test]
fn number_3_texts() {
    let rule = "a text has plain ASCII characters only, without \" and \\; here is";
    let tab = format!("line 3, column 13: {rule} the byte 9 (number 3)");
    assert_eq!(told_of("command a \"x\ty\""), tab);
    let edition = |text: &str| {
        told(&format!(
            "node \"\" \"\"\nedition \"{text}\"\nmodule m \"\"\n"
        ))
    };
    let expected = "line 2, column 9: an edition begins with ISSE,SECoP, (number 3)";
    assert_eq!(edition("SECoP"), expected);
    assert_eq!(edition(""), expected);
    let umlaut = format!("line 2, column 21: {rule} \u{fc} (number 3)");
    assert_eq!(edition("ISSE,SECoP,\u{fc}"), umlaut);
    let node = told("node \"\\\" \"\u{e4}\"\nmodule m \"\"\n");
    let faults = [
        format!("line 1, column 7: {rule} \\ (number 3)"),
        format!("line 1, column 11: {rule} \u{e4} (number 3)"),
    ];
    assert_eq!(node, faults.join("\n"));
}

#[test]
fn number_4_too_many_members() {
    let members = (0..33).map(|number| format!("m{number}: {number}"));
    let members: Vec<String> = members.collect();
    let line = format!("command c \"\" enum ({})", members.join(", "));
    let expected = "an enum has 1 to 32 members; this one has 33 (number 4)";
    assert_eq!(told_of(&line), format!("line 3, column 14: {expected}"));
}

#[test]
fn number_5_a_long_value() {
    let line = format!("parameter p \"\" string 0 to 300 = \"{}\"", "x".repeat(255));
    let expected = "a value has at most 256 bytes; this one has 257 (number 5)";
    assert_eq!(told_of(&line), format!("line 3, column 34: {expected}"));
}

#[test]
fn number_6_the_report() {
    // 64 of `{"type":"bool"}` have 960 bytes, so 34 of these tuples have more than 32,000
    let eight = |of: &str| format!("tuple ({})", [of; 8].join(", "));
    let bulky = eight(&eight("bool"));
    let commands = (0..34).map(|number| format!("command c{number} \"\" {bulky}\n"));
    let told = told_of(&commands.collect::<String>());
    let front = "line 1, column 1: the structure report as a whole has ";
    let end = " bytes, and at most 32,000 are allowed; no single record is at fault (number 6)";
    assert!(told.starts_with(front) && told.ends_with(end), "{told}");
}

#[test]
fn the_lowest_number_is_told_first() {
    let text = "node \"\" \"\"
module m \"\"
parameter p \"\" bool = 1
parameter q \"\" int 5 to 3 = 4
command p \"\"
";
    let expected = "\
line 5, column 9: p is the name of another parameter or command of its module already; A and a are the same there (number 3)
line 4, column 20: min 5 is above max 3 (number 4)
line 3, column 23: a bool is true or false; here is 1 (number 5)";
    assert_eq!(told(text), expected);
}

/// The first fault of some bytes is of this number, and is told so.
fn assert_told(number: u8, bytes: &[u8], expected: &str) {
    let checked = table::check(bytes);
    let first = checked.faults.first();
    let first = first.map(|fault| fault.to_string()).unwrap_or_default();
    let told = (checked.number, first.as_str());
    assert_eq!(told, (number, expected), "{}", bytes.escape_ascii());
}

const MARKS: [(&[u8], &str); 9] = [
    (b"", "1 (out of place), byte 0: a table begins with its node record, ND"),
    (b"node \"n\"", "1 (out of place), byte 0: a table begins with its node record, ND"),
    (b"ND\0\0MO\x01m\0", "3 (out of place), byte 9: the table stops before its end record, EN"),
    (b"ND\0\0MO\x01m\0ENEN", "3 (end), byte 11: nothing follows the end record"),
    (b"ND\0\0CM\x01c\0\0EN", "2 (out of place), byte 4: a parameter or command comes after its module"),
    (
        b"ND\0\0MO\x01m\0CM\x01c\0\0NO\0EN",
        "4 (out of place), byte 15: a note stands straight after its module, one for each",
    ),
    (
        b"ND\0\0MO\x01m\0ED\0EN",
        "3 (out of place), byte 9: the edition stands straight after the node, and once",
    ),
    (b"ND\0\0MO\x01m\0ND\0\0EN", "3 (out of place), byte 9: the node record stands first, and once"),
    (
        b"ND\0\0MO\x01m\0XXEN",
        "3 (out of place), byte 9: no record begins with XX; the marks are ND, ED, MO, NO, PA, CM, EN",
    ),
];

const LAYOUTS: [(&[u8], &str); 8] = [
    (
        b"ND\0\0MO\x01m\0PA\x01p\0\x02\x03\0\x04trueEN",
        "3 (parameter m:p), byte 14: the byte for readonly is 0 or 1; this one is 2",
    ),
    (
        b"ND\0\0MO\x01m\0CM\x01c\0\x01\x0b\x01\x02\x01a\x03EN",
        "3 (command m:c), byte 17: the byte for optional is 0 or 1; this one is 2",
    ),
    (
        b"ND\0\0MO\x01m\0CM\x01c\0\x01\x02\0\0",
        "3 (command m:c), byte 16: a limit takes 8 bytes here, and so many are left: 2",
    ),
    (b"ND\x05demo", "1 (node), byte 2: the length of the equipment id is 5 here, and so many bytes are left: 4"),
    (
        b"ND\0\0MO\x02m\0EN",
        "2 (module m\0), byte 9: the length of the description is 69 here, and so many bytes are left: 1",
    ),
    (
        b"ND\0\0MO\x01m\0CM\x01c\0\x02\x03EN",
        "3 (command m:c), byte 14: the byte for an argument is 0 or 1; this one is 2",
    ),
    (b"ND\0\0MO\x01m\0CM\x01c\0\x01\x0cEN", "3 (command m:c), byte 15: there is no type 12; types are 1 to 11"),
    (
        b"ND\0\0MO\x01m\0PA\x01p\0\0\x03\0\x05trueEN\0",
        "4 (out of place), byte 23: no record begins with N\\x00; the marks are ND, ED, MO, NO, PA, CM, EN",
    ),
];

#[test]
fn what_cant_be_read_is_told_by_record() {
    for (bytes, told) in MARKS.iter().chain(&LAYOUTS) {
        assert_told(1, bytes, &format!("record {told}"));
    }
    let long = [b"ND\0\0".as_slice(), &b"MO\x01m\0".repeat(4_000), b"EN"].concat();
    let told = "record 3278 (module m), byte 16384: a table has at most 16,384 bytes; this one has 20006, \
                and passes them with this record";
    assert_told(1, &long, told);
}

const OTHERS: [(u8, &[u8], &str); 7] = [
    (
        3,
        b"ND\0\0MO\x01m\0NO\x01\"EN",
        "3 (note of module m), byte 12: a text has plain ASCII characters only, without \" and \\; here is \"",
    ),
    (
        2,
        b"ND\0\0EN",
        "2 (end), byte 4: a table has 1 to 16 modules; this one has none",
    ),
    (
        3,
        b"ND\0\0MO\0\0EN",
        "2 (module ), byte 6: a name has 1 to 63 characters; this one has 0",
    ),
    (
        3,
        b"ND\0\x01\"MO\x01m\0EN",
        "1 (node), byte 4: a text has plain ASCII characters only, without \" and \\; here is \"",
    ),
    (
        4,
        b"ND\0\0MO\x01m\0CM\x01c\0\x01\x05\0\x02\0\x01EN",
        "3 (command m:c), byte 16: minchars 2 is above maxchars 1",
    ),
    (
        5,
        b"ND\0\0MO\x01m\0PA\x01p\0\0\x03\0\0EN",
        "3 (parameter m:p), byte 16: a JSON value is missing here",
    ),
    (
        5,
        b"ND\0\0MO\x01m\0PA\x01p\0\0\x03\0\x05 trueEN",
        "3 (parameter m:p), byte 18: a stored value has no spaces outside strings",
    ),
];

#[test]
fn other_faults_are_told_by_record() {
    assert_told(0, b"ND\0\0MO\x01m\0EN", "");
    for (number, bytes, told) in OTHERS {
        assert_told(number, bytes, &format!("record {told}"));
    }
}

#[test]
fn the_report_has_no_record() {
    let tuple = |of: &[u8]| [&[7, 8], &of.repeat(8)[..]].concat();
    let bulky = tuple(&tuple(&[3]));
    let mut bytes = b"ND\0\0MO\x01m\0".to_vec();
    for name in b'A'..b'A' + 26 {
        bytes.extend([b"CM\x02a".as_slice(), &[name], b"\0\x01", &bulky].concat());
        bytes.extend([b"CM\x02b".as_slice(), &[name], b"\0\x01", &bulky].concat());
    }
    bytes.extend(b"EN");
    let checked = table::check(&bytes);
    assert_eq!((checked.number, checked.faults.len()), (6, 1));
    let told = checked.faults[0].to_string();
    assert!(
        told.starts_with("the table: the structure report as a whole has "),
        "{told}"
    );
}
