//! The inputs for programs that read from standard input, and what they are
//! to print.

use crate::build::double;
use crate::program::{printed, printed_bytes};
use reference::generate::searches::{self, Search};
use reference::generate::values::CORNERS;
use reference::generate::{borders, encode};
use reference::table::Table;
use reference::text::from_hex;

/// Blobs of 16 sizes for 10 pairs of limits, alone and in two others.
const SIZES: usize = 10 * 16 * 3;

/// 50 strings for two enums, alone and in five others, and 28 long lists.
const NAMED: usize = 50 * 2 * 6 + 28;

/// A datainfo, a text and the line due.
type Case = (Vec<u8>, Vec<u8>, String);

/// Takes so many bytes from the front.
fn take(bytes: &mut &[u8], count: usize) -> Vec<u8> {
    let (taken, rest) = bytes.split_at(count);
    *bytes = rest;
    taken.to_vec()
}

/// Takes a big-endian number of so many bytes.
fn take_number(bytes: &mut &[u8], count: usize) -> usize {
    let number = take(bytes, count).into_iter();
    number.fold(0, |number, byte| number << 8 | usize::from(byte))
}

fn value_cases(seed: &str, count: &str) -> Vec<Case> {
    let input = printed_bytes(&["value-input", seed, count], "");
    let output = printed(&["value-output", seed, count], "");
    let mut rest = &input[..];
    let cases = output.lines().map(|line| {
        let datainfo_len = take_number(&mut rest, 2);
        let text_len = take_number(&mut rest, 2);
        let datainfo = take(&mut rest, datainfo_len);
        (datainfo, take(&mut rest, text_len), line.to_string())
    });
    let cases = cases.collect();
    assert!(rest.is_empty(), "as many cases as lines");
    cases
}

#[test]
fn e1_to_e8_come_first() {
    let to_300 = double((0, 0), (300, 0));
    let to_2_5 = double((0, 0), (250, -2));
    let expected = [
        (&to_300, "300", "fits 300"),
        (&to_300, "3e2", "fits 3e2"),
        (&to_300, "300.0000000000000000001", "RangeError"),
        (&to_300, "-0", "fits -0"),
        (&to_300, "\"1\"", "WrongType"),
        (&to_300, "01", "BadJSON"),
        (&to_300, "0e100", "RangeError"),
        (&to_2_5, "25e-1", "fits 25e-1"),
    ];
    let cases = value_cases("1", "0");
    for (case, (datainfo, text, line)) in cases.iter().zip(expected) {
        let (datainfo, text) = (datainfo.clone(), text.as_bytes().to_vec());
        assert_eq!(*case, (datainfo, text, line.to_string()));
    }
    let input = printed_bytes(&["value-input", "1", "0"], "");
    let first = [&[0, 19, 0, 3][..], &to_300, b"300"].concat();
    assert!(input.starts_with(&first));
}

/// The lines due for a corner, one for each type in the order of their bytes.
fn corner_lines(cases: &[Case], text: &str) -> Vec<String> {
    let corners = &cases[8..8 + 10 * CORNERS.len()];
    let of_text = corners.iter().filter(|case| case.1 == text.as_bytes());
    let sorted: Vec<&Case> = of_text.collect();
    let types: Vec<u8> = sorted.iter().map(|case| case.0[0]).collect();
    assert_eq!(types, [1, 2, 3, 4, 5, 6, 7, 8, 9, 10], "{text}");
    sorted.iter().map(|case| case.2.clone()).collect()
}

#[test]
fn corners_are_given_to_each_type() {
    let cases = value_cases("1", "0");
    assert_eq!(cases.len(), 8 + 10 * CORNERS.len() + SIZES + NAMED);
    let lines = |text| corner_lines(&cases, text);
    assert_eq!(lines(""), ["BadJSON"; 10]);
    assert_eq!(lines("[1,]"), ["BadJSON"; 10]);
    assert_eq!(lines("null"), ["WrongType"; 10]);
    let only = |fits: &[usize], line: &str| -> Vec<String> {
        let one = |at| {
            if fits.contains(&at) {
                line
            } else {
                "WrongType"
            }
        };
        (1..=10).map(|at| one(at).to_string()).collect()
    };
    assert_eq!(lines("-0"), only(&[1, 2, 4, 9], "fits -0"));
    let above = lines("9223372036854775808");
    assert_eq!(above, only(&[1, 2, 4, 9], "RangeError"));
    assert_eq!(lines(" false"), only(&[3], "fits false"));
    // A string that names no enum member is out of range.
    let string = |line: &str, others: &[usize]| -> Vec<String> {
        let mut lines = only(others, line);
        lines[3] = "RangeError".to_string();
        lines
    };
    assert_eq!(lines("\"\\u0080\""), string("RangeError", &[5]));
    assert_eq!(lines("\"\\u007F\""), string("fits \"\\u007F\"", &[5]));
    assert_eq!(lines("[ 1 , 2 ]"), only(&[6, 7], "fits [1,2]"));
    assert_eq!(lines("{ \"a\" : 1 }"), only(&[8], "fits {\"a\":1}"));
    assert_eq!(lines("\"Zg==\""), string("fits \"Zg==\"", &[5, 10]));
    assert_eq!(lines("\"Zh==\""), string("fits \"Zh==\"", &[5]));
    assert_eq!(lines("\"Zm9vYmFyYg==\""), string("RangeError", &[5, 10]));
}

#[test]
fn blobs_have_sizes_on_both_sides_of_each_limit() {
    let cases = value_cases("1", "0");
    let sizes = &cases[8 + 10 * CORNERS.len()..][..SIZES];
    let alone: Vec<&Case> = sizes.iter().filter(|case| case.0[0] == 10).collect();
    assert_eq!(alone.len(), 10 * 16);
    for (datainfo, text, line) in alone {
        let limit = |at: usize| usize::from(datainfo[at]) << 8 | usize::from(datainfo[at + 1]);
        let pads = text.iter().filter(|byte| **byte == b'=').count();
        let size = (text.len() - 2) / 4 * 3 - pads;
        let fits = (limit(1)..=limit(3)).contains(&size) && text.len() <= 256;
        assert_eq!(line.starts_with("fits"), fits, "{size} {datainfo:?}");
        assert!(fits || line == "RangeError");
    }
    let fitting_of = |size: usize| {
        let fitting = sizes.iter().filter(|case| case.2.starts_with("fits"));
        fitting.filter(|case| case.1.len() == size).count()
    };
    assert!(fitting_of(254) > 0 && fitting_of(256) > 0, "189 bytes");
}

#[test]
fn enum_members_are_named_alone_and_inside_others() {
    let cases = value_cases("1", "0");
    let named = &cases[8 + 10 * CORNERS.len() + SIZES..];
    assert_eq!(named.len(), NAMED);
    let lines = |text: &str| -> Vec<&str> {
        let of_text = named.iter().filter(|case| case.1 == text.as_bytes());
        of_text.map(|case| &case.2[..]).collect()
    };
    assert_eq!(lines("\"on\""), ["fits -4", "fits 1000"]);
    assert_eq!(lines("[1, \"on\" ]"), ["fits [1,-4]", "fits [1,1000]"]);
    assert_eq!(
        lines("[\"on\",\"on\",true]"),
        ["fits [\"on\",-4,true]", "fits [\"on\",1000,true]"]
    );
    assert_eq!(
        lines("{\"off\":\"on\",\"on\":\"on\"}"),
        [
            "fits {\"off\":\"on\",\"on\":-4}",
            "fits {\"off\":\"on\",\"on\":1000}"
        ]
    );
    assert_eq!(
        lines("{\"a\":[[\"on\"]]}"),
        ["fits {\"a\":[[-4]]}", "fits {\"a\":[[1000]]}"]
    );
    assert_eq!(lines("\"true\""), ["fits -2", "fits -1"]);
    let longest = format!("\"{}\"", "n".repeat(63));
    assert_eq!(lines(&longest), ["fits 7", "fits 4"]);
    assert_eq!(lines("\"NaN\""), ["fits 2", "fits 2147483647"]);
    for nearly in ["\"On\"", "\"\\u006fn\"", "\"1\"", "\"\"", "\"\\u0080\""] {
        assert_eq!(lines(nearly), ["RangeError"; 2], "{nearly}");
    }
    for wrong in ["true", "null", "[\"on\"]", "{\"on\":1}", "1.0"] {
        assert_eq!(lines(wrong), ["WrongType"; 2], "{wrong}");
    }
    assert_eq!(lines("\"on"), ["BadJSON"; 2]);
    assert_eq!(lines("[\"on\",\"nobody\",\"on\"]"), ["WrongType"; 2]);
}

#[test]
fn stored_forms_around_256_bytes_are_longer_or_shorter_than_what_is_sent() {
    let cases = value_cases("1", "0");
    let lists = &cases[cases.len() - 28..];
    for (at, (_, text, line)) in lists.iter().enumerate() {
        let expected = match (at % 4, at / 4) {
            (3, _) => "WrongType",
            (_, last) if 255 + last > 256 => "RangeError",
            _ => "fits",
        };
        assert!(line.starts_with(expected), "{at} {line}");
        assert_eq!(at % 4 == 0 || at % 4 == 3, text.len() < 256);
        if line.starts_with("fits") {
            assert_eq!(line.len(), "fits ".len() + 255 + at / 4);
        }
    }
}

/// What `values` prints, with stored forms as they are.
fn printed_values(seed: &str, count: &str) -> Vec<Case> {
    let bytes = |hex: &str| from_hex(hex).expect("hexadecimal");
    let case = |line: &str| match line.split(' ').collect::<Vec<_>>()[..] {
        ["value", datainfo, text, "=", "fits", stored] => {
            let stored = String::from_utf8(bytes(stored)).expect("ASCII");
            (bytes(datainfo), bytes(text), format!("fits {stored}"))
        }
        ["value", datainfo, text, "=", class] => (bytes(datainfo), bytes(text), class.to_string()),
        _ => panic!("{line}"),
    };
    let printed = printed(&["values", seed, count], "");
    printed.lines().map(case).collect()
}

#[test]
fn values_follow_but_for_those_too_long() {
    let is_short = |case: &Case| case.0.len() <= 2_000 && case.1.len() <= 2_000;
    let mut left_out = 0;
    for seed in ["1", "2", "3"] {
        let all = printed_values(seed, "3000");
        let short: Vec<Case> = all.iter().filter(|case| is_short(case)).cloned().collect();
        left_out += all.len() - short.len();
        let cases = value_cases(seed, "3000");
        assert_eq!(cases[8 + 10 * CORNERS.len() + SIZES + NAMED..], short);
    }
    assert!(left_out > 0);
}

/// A table and the lines due: its own, and one for each search.
struct TableCase {
    bytes: Vec<u8>,
    lines: Vec<String>,
}

/// Takes a search from the front; the byte 0 after the last is taken too.
fn take_search(rest: &mut &[u8]) -> Option<Vec<u8>> {
    let mut length = 1;
    let names = match rest[0] {
        0 | b'k' => 0,
        b'n' => {
            length += 1;
            0
        }
        b'm' => 1,
        b'p' | b'c' => 2,
        other => panic!("{other} is no search"),
    };
    for _ in 0..names {
        length += 1 + usize::from(rest[length]);
    }
    let search = take(rest, length);
    (search != [0]).then_some(search)
}

fn table_cases(seed: &str, count: &str) -> Vec<TableCase> {
    let input = printed_bytes(&["table-input", seed, count], "");
    let output = printed(&["table-output", seed, count], "");
    let mut rest = &input[..];
    let mut lines = output.lines().map(str::to_string);
    let mut cases = Vec::new();
    while !rest.is_empty() {
        let length = take_number(&mut rest, 3);
        let bytes = take(&mut rest, length);
        let searches = std::iter::from_fn(|| take_search(&mut rest)).count();
        let lines = lines.by_ref().take(1 + searches).collect();
        cases.push(TableCase { bytes, lines });
    }
    assert_eq!(lines.next(), None, "as many lines as asked for");
    cases
}

#[test]
fn borders_come_first_and_random_tables_last() {
    let borders = borders::all();
    for seed in ["1", "3"] {
        let cases = table_cases(seed, "300");
        for (case, border) in cases.iter().zip(&borders) {
            assert_eq!(case.bytes, border.bytes, "{}", border.name);
            assert_eq!(case.lines[0].as_bytes()[0], b'0' + border.number);
        }
        let expected = printed(&["tables", seed, "300"], "");
        let short: Vec<(Vec<u8>, &str)> = expected
            .lines()
            .filter_map(|line| line.strip_prefix("table ")?.split_once(" = "))
            .map(|(table, due)| (from_hex(table).expect("hexadecimal"), due))
            .filter(|(table, _)| table.len() <= 400)
            .collect();
        let random = &cases[cases.len() - short.len()..];
        for (case, (table, due)) in random.iter().zip(short) {
            assert_eq!(case.bytes, table);
            let due = match due.split_once(' ') {
                Some(("0", report)) => format!("0 {} {report}", report.len()),
                _ => due.strip_suffix(" -").expect("no report").to_string(),
            };
            assert_eq!(case.lines[0], due);
        }
    }
}

#[test]
fn each_combination_of_faults_is_there() {
    let cases = table_cases("1", "0");
    let combined = &cases[borders::all().len()..];
    let numbers: Vec<u8> = combined
        .iter()
        .map(|one| one.lines[0].as_bytes()[0])
        .collect();
    // Ten with each number alone, and three with each combination of two to
    // four, of which the lowest number is told.
    let count = |number: u8| {
        numbers[..6 * 10 + 50 * 3]
            .iter()
            .filter(|one| **one == b'0' + number)
            .count()
    };
    assert_eq!([1, 2, 3, 4, 5, 6].map(count), [85, 52, 31, 19, 13, 10]);
    let cut = &combined[6 * 10 + 50 * 3..];
    let (cuts, raised) = cut.split_at(cut.len() / 2);
    for (at, one) in cuts.iter().enumerate() {
        assert_eq!(
            (one.bytes.len(), &one.lines[..]),
            (at, &["1".to_string()][..])
        );
        assert_eq!(raised[at].bytes.len(), cuts.len());
        assert_eq!(raised[at].bytes[..at], cuts[at].bytes);
    }
}

#[test]
fn searches_find_where_things_lie() {
    // A module m with a parameter b, a bool, and a command c; and a module n
    // with a readonly parameter b, an int, and a command d that takes a bool.
    let table = [
        &b"ND\0\0"[..],
        b"MO\x01m\0",
        b"PA\x01b\0\0\x03\0\x05false",
        b"CM\x01c\0\0",
        b"MO\x01n\0",
        b"PA\x01b\0\x01\x02\0\0\0\0\0\0\0\0\0\0\0\0\0\0\0\x09\0\x017",
        b"CM\x01d\0\x01\x03",
        b"EN",
    ]
    .concat();
    let table = Table::judge(&table).expect("a good table");
    let module = |name: &str| Search::Module(name.into());
    let parameter = |module: &str, name: &str| Search::Parameter(module.into(), name.into());
    let command = |module: &str, name: &str| Search::Command(module.into(), name.into());
    let cases = [
        (Search::Modules, "modules 2"),
        (module("m"), "module 0 at 4"),
        (module("n"), "module 1 at 29"),
        (module("N"), "none"),
        (
            parameter("m", "b"),
            "parameter 0 of 0 datainfo 15 initial 18 to 23",
        ),
        (
            parameter("n", "b"),
            "parameter 1 of 1 readonly datainfo 40 initial 59 to 60",
        ),
        (parameter("m", "c"), "none"),
        (parameter("m", "B"), "none"),
        (command("m", "c"), "command 0 of 0"),
        (command("n", "d"), "command 1 of 1 argument 66"),
        (command("n", "c"), "none"),
        (command("m", "b"), "none"),
        (
            Search::Number(0),
            "parameter 0 of 0 datainfo 15 initial 18 to 23",
        ),
        (
            Search::Number(1),
            "parameter 1 of 1 readonly datainfo 40 initial 59 to 60",
        ),
        (Search::Number(2), "none"),
        (Search::Number(255), "none"),
    ];
    for (search, line) in cases {
        assert_eq!(
            searches::lines(&table, &[search.clone()]),
            format!("{line}\n"),
            "{search:?}"
        );
    }
}

#[test]
fn everything_in_a_good_table_is_sought() {
    let cases = table_cases("1", "300");
    let good = cases.iter().filter(|case| case.lines[0].starts_with("0 "));
    for case in good {
        let table = Table::judge(&case.bytes).expect("a good table");
        assert_eq!(
            encode::table(&table),
            case.bytes,
            "places are those of these bytes"
        );
        let answered = |word: &str| {
            let mut lines: Vec<&String> = case.lines[1..]
                .iter()
                .filter(|line| line.starts_with(word))
                .collect();
            lines.sort();
            lines.dedup();
            lines.len()
        };
        assert_eq!(answered("module "), table.modules.len());
        assert_eq!(answered("parameter "), table.parameters().len());
        assert_eq!(answered("command "), table.commands().len());
        assert!(case.lines.contains(&"none".to_string()));
    }
}
