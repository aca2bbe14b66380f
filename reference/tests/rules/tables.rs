//! The judgement on tables, numbers 0 to 6.

use crate::build::*;
use reference::datainfo::{Datainfo, Limit};
use reference::report;
use reference::table::{Kind, Table};

/// The number that a start over the table answers with.
fn number(table: &[u8]) -> u8 {
    let (_, result) = reference::node::Node::start(table, VALUES, 0);
    result.map_or_else(|refusal| refusal.number(), |()| 0)
}

/// The number for a module with one command that has this argument.
fn argument_number(argument: &[u8]) -> u8 {
    number(&one_module(&[cm_with("c", "", argument)]))
}

/// The number for a module with one parameter.
fn parameter_number(datainfo: &[u8], initial: &[u8]) -> u8 {
    number(&one_module(&[pa("p", "", 0, datainfo, initial)]))
}

// T-2, T-3
#[test]
fn a_table_is_read_as_it_is_written() {
    let bytes = [
        &b"ND\x04demo\x03abc"[..],
        b"MO\x01m\x00",
        b"NO\x02hi",
        b"PA\x01p\x01d\x01\x02",
        &[0xFF, 0xFF, 0xFF, 0xFF, 0xFF, 0xFF, 0xFF, 0xFE],
        &[0x00, 0x00, 0x00, 0x00, 0x00, 0x00, 0x01, 0x02],
        b"\x00\x03258",
        b"CM\x02go\x00\x01\x05\x00\x01\x01\x00",
        b"EN",
    ]
    .concat();
    let table = Table::judge(&bytes).expect("a good table");
    assert_eq!(table.equipment_id, b"demo");
    assert_eq!(table.description, b"abc");
    assert_eq!(table.modules.len(), 1);
    let module = &table.modules[0];
    assert_eq!(
        (&module.name[..], module.note.as_deref()),
        (&b"m"[..], Some(&b"hi"[..]))
    );
    assert_eq!(
        module.accessibles[0].kind,
        Kind::Parameter {
            readonly: true,
            datainfo: Datainfo::Int { min: -2, max: 258 },
            initial: b"258".to_vec(),
        }
    );
    assert_eq!(
        module.accessibles[1].kind,
        Kind::Command {
            argument: Some(Datainfo::String {
                minchars: 1,
                maxchars: 256
            })
        }
    );
}

// T-37
#[test]
fn good_tables() {
    assert_eq!(number(&lab()), 0);
    assert_eq!(number(&report_example()), 0);
    assert_eq!(number(&table(&[mo("m", "")])), 0);
    let empty_texts = [nd("", ""), mo("_", ""), no(""), en()].concat();
    assert_eq!(number(&empty_texts), 0);
}

// T-6
#[test]
fn number_1_every_cut_and_every_addition() {
    let bytes = lab();
    for length in 0..bytes.len() {
        assert_eq!(number(&bytes[..length]), 1, "cut to {length} bytes");
    }
    for more in [&b"\0"[..], b"EN", b"MO\x01z\x00", b"MO\x01z\x00EN"] {
        assert_eq!(number(&[&bytes, more].concat()), 1);
    }
}

// T-3, T-6
#[test]
fn number_1_records_out_of_place() {
    let (module, note, command) = (mo("m", ""), no(""), cm("c", ""));
    let faulty = [
        [module.clone(), en()].concat(),
        [nd("", ""), nd("", ""), module.clone(), en()].concat(),
        [nd("", ""), module.clone(), nd("", ""), en()].concat(),
        [nd("", ""), note.clone(), module.clone(), en()].concat(),
        [nd("", ""), command.clone(), module.clone(), en()].concat(),
        [
            nd("", ""),
            pa("p", "", 0, &boolean(), b"true"),
            module.clone(),
            en(),
        ]
        .concat(),
        table(&[module.clone(), note.clone(), note.clone()]),
        table(&[module.clone(), command.clone(), note.clone()]),
        table(&[module.clone(), b"XX".to_vec()]),
        table(&[module.clone(), b"mo\x01z\x00".to_vec()]),
        [nd("", ""), module.clone()].concat(),
        [en(), nd("", ""), module].concat(),
    ];
    for bytes in faulty {
        assert_eq!(number(&bytes), 1, "{bytes:?}");
    }
}

// T-3, T-6
#[test]
fn number_1_an_edition_out_of_place() {
    let (module, note, command) = (mo("m", ""), no(""), cm("c", ""));
    let edition = ed("ISSE,SECoP,V2021-02-17,v2.0");
    let good = table(&[edition.clone(), module.clone(), note.clone()]);
    assert_eq!(number(&good), 0);
    for length in 0..good.len() {
        assert_eq!(number(&good[..length]), 1, "cut to {length} bytes");
    }
    let faulty = [
        [edition.clone(), nd("", ""), module.clone(), en()].concat(),
        table(&[edition.clone(), edition.clone(), module.clone()]),
        table(&[module.clone(), edition.clone()]),
        table(&[module.clone(), edition.clone(), note.clone()]),
        table(&[module.clone(), note, edition.clone()]),
        table(&[module.clone(), command.clone(), edition.clone()]),
        table(&[module.clone(), edition.clone(), command]),
        [table(&[module.clone()]), edition].concat(),
        table(&[b"ed\x0bISSE,SECoP,".to_vec(), module]),
    ];
    for bytes in faulty {
        assert_eq!(number(&bytes), 1, "{bytes:?}");
    }
}

// T-11
#[test]
fn number_3_an_edition_that_begins_otherwise() {
    let number_of = |text: &str| number(&table(&[ed(text), mo("m", "")]));
    let longest = format!("ISSE,SECoP,{}", "x".repeat(244));
    for good in [
        "ISSE,SECoP,",
        "ISSE,SECoP,V2021-02-17,v2.0",
        "ISSE,SECoP, a b",
        &longest,
    ] {
        assert_eq!(number_of(good), 0, "{good}");
    }
    let faulty = [
        "",
        "ISSE,SECoP",
        "ISSE",
        " ISSE,SECoP,",
        "isse,SECoP,",
        "ISSE,SECOP,",
        "ISSE;SECoP,",
        "ISSE,SECoP;",
        "SINE2020&ISSE,SECoP,",
        "ISSE&SINE2020,SECoP,V2019-09-16,v1.0",
        // It begins as it should, and is no text.
        "ISSE,SECoP,\"",
        "ISSE,SECoP,\\",
        "ISSE,SECoP,\n",
        "ISSE,SECoP,\u{7f}",
    ];
    for text in faulty {
        assert_eq!(number_of(text), 3, "{text:?}");
    }
    // Counts are judged before it, datainfos after it.
    assert_eq!(number(&table(&[ed("x")])), 2);
    let limits = cm_with("c", "", &int(1, 0));
    assert_eq!(number(&table(&[ed("x"), mo("m", ""), limits])), 3);
}

// T-5, T-6
#[test]
fn number_1_flags_and_types() {
    for flag in [2, 3, 127, 128, 255] {
        let parameter = pa("p", "", flag, &boolean(), b"true");
        assert_eq!(number(&one_module(&[parameter])), 1);
        let mut command = cm_with("c", "", &boolean());
        let at = command.len() - 2;
        command[at] = flag;
        assert_eq!(number(&one_module(&[command])), 1);
    }
    for unknown in [0, 11, 12, 255] {
        assert_eq!(argument_number(&[unknown]), 1);
        assert_eq!(argument_number(&tuple(&[boolean(), vec![unknown]])), 1);
    }
}

// T-23, T-24
#[test]
fn a_scaled_and_a_blob_are_read_as_they_are_written() {
    let scaled_bytes = [
        &[9][..],
        &[0, 0, 0, 0, 0, 0, 1, 2, 0xFE],
        &[0xFF, 0xFF, 0xFF, 0xFF, 0xFF, 0xFF, 0xFF, 0xFD],
        &[0, 0, 0, 0, 0, 0, 0, 4],
    ]
    .concat();
    assert_eq!(scaled_bytes, scaled((258, -2), -3, 4));
    let blob_bytes = [10, 1, 0, 1, 1];
    assert_eq!(blob_bytes[..], blob(256, 257));
    let table = Table::judge(&one_module(&[
        cm_with("s", "", &scaled_bytes),
        cm_with("b", "", &blob_bytes),
    ]))
    .expect("a good table");
    let scale = Limit {
        mantissa: 258,
        power: -2,
    };
    let datainfos = [
        Datainfo::Scaled {
            scale,
            min: -3,
            max: 4,
        },
        Datainfo::Blob {
            minbytes: 256,
            maxbytes: 257,
        },
    ];
    for (accessible, datainfo) in table.modules[0].accessibles.iter().zip(datainfos) {
        let argument = Some(datainfo);
        assert_eq!(accessible.kind, Kind::Command { argument });
    }
    // Cut anywhere, the layout can't be read.
    for bytes in [scaled_bytes, blob_bytes.to_vec()] {
        for length in 1..bytes.len() {
            assert_eq!(argument_number(&bytes[..length]), 1);
        }
    }
}

// T-14
#[test]
fn number_1_a_fifth_level() {
    let wrap = |inner: &[u8]| array(0, 1, inner);
    let four = wrap(&wrap(&wrap(&boolean())));
    assert_eq!(argument_number(&four), 0);
    assert_eq!(argument_number(&wrap(&four)), 1);
    assert_eq!(argument_number(&tuple(&[boolean(), four.clone()])), 1);
    assert_eq!(argument_number(&structure(&[("a", four.clone())])), 1);
    assert_eq!(parameter_number(&four, b"[]"), 0);
    assert_eq!(parameter_number(&wrap(&four), b"[]"), 1);
    // An empty tuple or struct on the fourth level has nothing on a fifth.
    let three = |inner: &[u8]| wrap(&wrap(&wrap(inner)));
    assert_eq!(argument_number(&three(&tuple(&[]))), 4);
    assert_eq!(argument_number(&three(&structure(&[]))), 4);
    assert_eq!(argument_number(&three(&tuple(&[boolean()]))), 1);
    // A scaled and a blob are plain types: one level each.
    for plain in [scaled((1, 0), 0, 1), blob(0, 1)] {
        assert_eq!(argument_number(&three(&plain)), 0);
        assert_eq!(argument_number(&wrap(&three(&plain))), 1);
    }
}

// T-1
#[test]
fn number_1_more_than_16_384_bytes() {
    // Each command: 2 for the mark, 1 + 3 name, 1 + 255 description, 1 flag.
    let command = |at: usize| cm(&format!("c{at:02}"), &"d".repeat(255));
    assert_eq!(command(0).len(), 263);
    let commands: Vec<Vec<u8>> = (0..62).map(command).collect();
    let front = one_module(&commands).len() - 2;
    assert!(front < 16_384 - 2 - 8 && front > 16_384 - 263);
    let padded = |length: usize| {
        let last = cm("last", &"d".repeat(length - front - 2 - 9));
        one_module(&[commands.concat(), last])
    };
    assert_eq!(padded(16_384).len(), 16_384);
    assert_eq!(padded(16_385).len(), 16_385);
    assert_eq!(number(&padded(16_384)), 0);
    assert_eq!(number(&padded(16_385)), 1);
}

// T-12
#[test]
fn number_2_counts_of_modules_and_accessibles() {
    let modules =
        |count: usize| -> Vec<Vec<u8>> { (0..count).map(|at| mo(&format!("m{at}"), "")).collect() };
    let commands = |count: usize| -> Vec<u8> {
        let commands: Vec<Vec<u8>> = (0..count).map(|at| cm(&format!("c{at}"), "")).collect();
        commands.concat()
    };
    assert_eq!(number(&table(&[])), 2);
    assert_eq!(number(&table(&modules(1))), 0);
    assert_eq!(number(&table(&modules(16))), 0);
    assert_eq!(number(&table(&modules(17))), 2);
    assert_eq!(number(&one_module(&[commands(64)])), 0);
    assert_eq!(number(&one_module(&[commands(65)])), 2);
    let spread = |second: usize| table(&[mo("a", ""), commands(40), mo("b", ""), commands(second)]);
    assert_eq!(number(&spread(24)), 0);
    assert_eq!(number(&spread(25)), 2);
}

// T-8
#[test]
fn number_3_bad_names() {
    let longest = "n".repeat(63);
    let too_long = "n".repeat(64);
    for good in ["a", "Z", "_", "_9", "a1_B", &longest] {
        assert_eq!(number(&table(&[mo(good, "")])), 0, "{good}");
        assert_eq!(argument_number(&enumeration(&[(good, 0)])), 0, "{good}");
    }
    let bad = [
        "", "9", "1a", "a-b", "a b", "a:b", "a.", "\u{e9}", "a\n", &too_long,
    ];
    for bad in bad {
        assert_eq!(number(&table(&[mo(bad, "")])), 3, "{bad}");
        assert_eq!(number(&one_module(&[cm(bad, "")])), 3, "{bad}");
        let parameter = pa(bad, "", 0, &boolean(), b"true");
        assert_eq!(number(&one_module(&[parameter])), 3, "{bad}");
        assert_eq!(argument_number(&enumeration(&[(bad, 0)])), 3, "{bad}");
        let inner = array(0, 1, &structure(&[("a", boolean()), (bad, boolean())]));
        assert_eq!(argument_number(&inner), 3, "{bad}");
        assert_eq!(parameter_number(&inner, b"[]"), 3, "{bad}");
    }
}

// T-9
#[test]
fn number_3_repeated_names() {
    assert_eq!(number(&table(&[mo("abc", ""), mo("aBc", "")])), 3);
    assert_eq!(
        number(&table(&[mo("abc", ""), mo("b", ""), mo("abc", "")])),
        3
    );
    let parameter = pa("Go", "", 0, &boolean(), b"true");
    assert_eq!(number(&one_module(&[parameter.clone(), cm("gO", "")])), 3);
    // Other modules, structs and enums are other scopes.
    let apart = [
        mo("x", ""),
        cm("go", ""),
        mo("y", ""),
        cm("GO", ""),
        cm("x", ""),
    ];
    assert_eq!(number(&table(&apart)), 0);
    let nested = structure(&[
        ("a", structure(&[("A", boolean())])),
        ("b", enumeration(&[("B", 1)])),
    ]);
    assert_eq!(argument_number(&nested), 0);
    assert_eq!(
        argument_number(&structure(&[("a", boolean()), ("A", boolean())])),
        3
    );
    assert_eq!(argument_number(&enumeration(&[("on", 0), ("ON", 1)])), 3);
    let deep = tuple(&[array(0, 1, &enumeration(&[("on", 0), ("ON", 1)]))]);
    assert_eq!(argument_number(&deep), 3);
    assert_eq!(number(&table(&[mo("a_", ""), mo("a", "")])), 0);
}

// T-10
#[test]
fn number_3_bad_texts() {
    let good = " !#[]~";
    let good_table = [nd(good, good), mo("m", good), no(good), cm("c", good), en()].concat();
    assert_eq!(number(&good_table), 0);
    for bad in ["\"", "\\", "\u{1f}", "\u{7f}", "\n", "caf\u{e9}"] {
        let faulty = [
            [nd(bad, ""), mo("m", ""), en()].concat(),
            [nd("", bad), mo("m", ""), en()].concat(),
            table(&[mo("m", bad)]),
            table(&[mo("m", ""), no(bad)]),
            one_module(&[cm("c", bad)]),
            one_module(&[pa("p", bad, 0, &boolean(), b"true")]),
        ];
        for bytes in faulty {
            assert_eq!(number(&bytes), 3, "{bad:?}");
        }
    }
}

// T-26
#[test]
fn number_4_limits_in_the_wrong_order() {
    assert_eq!(argument_number(&double((3, 2), (300, 0))), 0);
    assert_eq!(argument_number(&double((300, 0), (3, 2))), 0);
    assert_eq!(argument_number(&double((3001, -1), (3, 2))), 4);
    assert_eq!(argument_number(&double((0, 30), (0, -30))), 0);
    assert_eq!(argument_number(&double((-1, 30), (1, -30))), 0);
    assert_eq!(argument_number(&double((1, -30), (-1, 30))), 4);
    assert_eq!(argument_number(&double((-2, 0), (-21, -1))), 4);
    assert_eq!(argument_number(&int(i64::MIN, i64::MAX)), 0);
    assert_eq!(argument_number(&int(5, 5)), 0);
    assert_eq!(argument_number(&int(5, 4)), 4);
    assert_eq!(argument_number(&int(i64::MAX, i64::MIN)), 4);
    assert_eq!(argument_number(&string(7, 7)), 0);
    assert_eq!(argument_number(&string(256, 255)), 4);
    assert_eq!(argument_number(&array(0, 65535, &boolean())), 0);
    assert_eq!(argument_number(&array(1, 0, &boolean())), 4);
}

// T-23, T-26
#[test]
fn number_4_scales_and_limits_of_scaled_and_blob() {
    let scale = |mantissa, power| argument_number(&scaled((mantissa, power), 0, 1));
    for power in -128..=127 {
        let number = if (-30..=30).contains(&power) { 0 } else { 4 };
        assert_eq!(scale(1, power), number, "{power}");
        assert_eq!(scale(i64::MAX, power), number, "{power}");
        for not_positive in [0, -1, i64::MIN] {
            assert_eq!(scale(not_positive, power), 4, "{not_positive} {power}");
        }
    }
    let limits = |min, max| argument_number(&scaled((1, -3), min, max));
    assert_eq!(limits(i64::MIN, i64::MAX), 0);
    assert_eq!(limits(-7, -7), 0);
    assert_eq!(limits(-7, -8), 4);
    assert_eq!(limits(i64::MAX, i64::MIN), 4);
    assert_eq!(argument_number(&blob(0, 0)), 0);
    assert_eq!(argument_number(&blob(0, 65535)), 0);
    assert_eq!(argument_number(&blob(256, 255)), 4);
    assert_eq!(argument_number(&blob(1, 0)), 4);
    // Inside other datainfos, and for parameters, as well.
    let inner = tuple(&[boolean(), scaled((0, 0), 0, 1)]);
    assert_eq!(argument_number(&array(0, 1, &inner)), 4);
    assert_eq!(argument_number(&structure(&[("a", blob(1, 0))])), 4);
    assert_eq!(parameter_number(&array(0, 1, &inner), b"[]"), 4);
    // A bad scale is told before an initial value that doesn't fit.
    assert_eq!(parameter_number(&scaled((0, 0), 0, 1), b"2"), 4);
}

// T-26
#[test]
fn number_4_powers_counts_and_enum_values() {
    for power in [-128, -31, 31, 127] {
        assert_eq!(argument_number(&double((0, power), (1, 0))), 4);
        assert_eq!(argument_number(&double((-1, 0), (0, power))), 4);
    }
    assert_eq!(argument_number(&double((-1, -30), (1, 30))), 0);

    let names: Vec<String> = (0..33).map(|at| format!("n{at}")).collect();
    let members: Vec<(&str, i32)> = names.iter().map(String::as_str).zip(0..).collect();
    assert_eq!(argument_number(&enumeration(&members[..1])), 0);
    assert_eq!(argument_number(&enumeration(&members[..32])), 0);
    assert_eq!(argument_number(&enumeration(&members)), 4);
    assert_eq!(argument_number(&enumeration(&[])), 4);
    assert_eq!(
        argument_number(&enumeration(&[("a", 1), ("b", 2), ("c", 1)])),
        4
    );

    assert_eq!(argument_number(&tuple(&vec![boolean(); 8])), 0);
    assert_eq!(argument_number(&tuple(&vec![boolean(); 9])), 4);
    assert_eq!(argument_number(&tuple(&[])), 4);
    let fields: Vec<(&str, Vec<u8>)> = members[..9]
        .iter()
        .map(|(name, _)| (*name, boolean()))
        .collect();
    assert_eq!(argument_number(&structure(&fields[..8])), 0);
    assert_eq!(argument_number(&structure(&fields)), 4);
    assert_eq!(argument_number(&structure(&[])), 4);
    // Inside other datainfos, and for parameters, as well.
    assert_eq!(argument_number(&array(0, 1, &tuple(&[int(1, 0)]))), 4);
    assert_eq!(parameter_number(&array(0, 1, &int(1, 0)), b"[]"), 4);
}

// T-7
#[test]
fn number_4_a_count_that_runs_past_the_end_is_1() {
    let mut bytes = one_module(&[cm_with("c", "", &tuple(&[boolean()]))]);
    let count_at = bytes.len() - 2 - 2;
    assert_eq!(bytes[count_at], 1);
    bytes[count_at] = 255;
    assert_eq!(number(&bytes), 1);
}

// T-27
#[test]
fn number_5_initial_values() {
    let quoted = |length: usize| format!("\"{}\"", "x".repeat(length - 2));
    assert_eq!(parameter_number(&string(0, 999), quoted(256).as_bytes()), 0);
    assert_eq!(parameter_number(&string(0, 999), quoted(257).as_bytes()), 5);
    assert_eq!(parameter_number(&string(0, 999), quoted(300).as_bytes()), 5);

    let numbers = array(0, 2, &int(0, 9));
    for good in ["[]", "[1]", "[1,-0]"] {
        assert_eq!(parameter_number(&numbers, good.as_bytes()), 0, "{good}");
    }
    let bad = [
        "", " ", "[ ]", " []", "[] ", "[1, 2]", "[01]", "[1,2,3]", "[10]", "[true]", "null", "[",
        "[]]", "[\t]", "{}",
    ];
    for bad in bad {
        assert_eq!(parameter_number(&numbers, bad.as_bytes()), 5, "{bad}");
    }
    // A space within a string is part of it; spelling is free.
    assert_eq!(parameter_number(&string(0, 9), b"\" a \""), 0);
    assert_eq!(parameter_number(&string(0, 9), b"\"\\u0041\\/\""), 0);
    assert_eq!(parameter_number(&double((0, 0), (300, 0)), b"3E+02"), 0);
    let both = structure(&[("a", boolean()), ("b", boolean())]);
    assert_eq!(parameter_number(&both, br#"{"b":true,"a":true}"#), 0);
    assert_eq!(parameter_number(&both, br#"{"b":true, "a":true}"#), 5);
    let from_1_to_3 = scaled((1, -3), 1, 3);
    assert_eq!(parameter_number(&from_1_to_3, b"3"), 0);
    for bad in ["0", "4", "1.0", "\"1\"", " 1"] {
        assert_eq!(parameter_number(&from_1_to_3, bad.as_bytes()), 5, "{bad}");
    }
    assert_eq!(parameter_number(&blob(1, 3), b"\"Zm9v\""), 0);
    for bad in ["\"\"", "\"Zm9vYg==\"", "\"Zm9\"", "\"Zm9v\" ", "1"] {
        assert_eq!(parameter_number(&blob(1, 3), bad.as_bytes()), 5, "{bad}");
    }
    // Initial values keep numbers: a name is no stored form, even one that is
    // as long as its number.
    let modes = enumeration(&[("off", 0), ("on", 1_000)]);
    assert_eq!(parameter_number(&modes, b"1000"), 0);
    assert_eq!(parameter_number(&modes, b"\"on\""), 5);
    assert_eq!(parameter_number(&modes, b"\"off\""), 5);
    assert_eq!(parameter_number(&modes, b"\"1000\""), 5);
    let inside = tuple(&[string(0, 9), array(0, 9, &modes)]);
    assert_eq!(parameter_number(&inside, br#"["on",[0]]"#), 0);
    assert_eq!(parameter_number(&inside, br#"["on",["on"]]"#), 5);
    // A readonly parameter's initial value is judged too.
    let readonly = pa("p", "", 1, &boolean(), b"0");
    assert_eq!(number(&one_module(&[readonly])), 5);
}

/// Nested tuples of eight: on the second level 27 + 8 * 15 + 7 + 2 = 156 bytes
/// of report, on the third 27 + 8 * 156 + 7 + 2 = 1,284, on the fourth
/// 27 + 8 * 1,284 + 7 + 2 = 10,308.
fn bulky_argument(levels: usize) -> Vec<u8> {
    match levels {
        1 => boolean(),
        _ => tuple(&vec![bulky_argument(levels - 1); 8]),
    }
}

// T-36
#[test]
fn number_6_reports_over_32_000_bytes() {
    let outside = r#"{"modules":{},"equipment_id":"","description":""}"#.len();
    let module = r#""m":{"interface_classes":[],"description":"","accessibles":{}}"#.len();
    let command = |argument: usize| {
        let around = r#""a":{"description":"","datainfo":{"type":"command","argument":}}"#;
        around.len() + argument
    };
    // Three arguments of four levels and one of two, and three commas.
    let fixed = outside + module + 3 * command(10_308) + command(156) + 3;
    let with_note = |note: Vec<u8>, length: usize| {
        let padding = length - fixed;
        let first = "x".repeat(padding / 4);
        let last = "x".repeat(padding - 3 * (padding / 4));
        [
            nd("", ""),
            mo("m", ""),
            note,
            cm_with("a", &first, &bulky_argument(4)),
            cm_with("b", &first, &bulky_argument(4)),
            cm_with("c", &first, &bulky_argument(4)),
            cm_with("d", &last, &bulky_argument(2)),
            en(),
        ]
        .concat()
    };
    let with_padding = |length| with_note(Vec::new(), length);
    let read = Table::read(&with_padding(32_000)).expect("the layout");
    assert_eq!(report::write(&read).len(), 32_000);
    assert_eq!(number(&with_padding(32_000)), 0);
    assert_eq!(number(&with_padding(32_001)), 6);

    // A note is not told, so its length doesn't matter.
    let longest = no(&"n".repeat(255));
    assert_eq!(number(&with_note(longest.clone(), 32_000)), 0);
    assert_eq!(number(&with_note(longest, 32_001)), 6);

    // The longest reply: 5 + 13 + 32,000 + 1 bytes.
    let mut node = started(&with_padding(32_000), &[7], 0);
    let (_, written) = send_bytes(&mut node, 7, 0, b"describe\n");
    assert_eq!(written.len(), 32_019);
    assert_eq!(written[..18], *b"RP\x07\x7d\x0edescribing . ");
}

// T-37
#[test]
fn of_several_faults_the_lowest_is_told() {
    let long_report = [
        cm_with("r", "", &bulky_argument(4)),
        cm_with("s", "", &bulky_argument(4)),
        cm_with("t", "", &bulky_argument(4)),
        cm_with("u", "", &bulky_argument(4)),
    ]
    .concat();
    let bad_initial = pa("i", "", 0, &boolean(), b"0");
    let bad_datainfo = cm_with("d", "", &int(1, 0));
    let bad_name = cm("9", "");
    let crowd: Vec<Vec<u8>> = (0..65).map(|at| cm(&format!("x{at}"), "")).collect();
    let bad_flag = pa("f", "", 2, &boolean(), b"true");
    // From the highest number at the front to the lowest at the back.
    let mut accessibles = vec![long_report];
    assert_eq!(number(&one_module(&accessibles)), 6);
    let more = [
        bad_initial,
        bad_datainfo,
        bad_name,
        crowd.concat(),
        bad_flag,
    ];
    for (record, expected) in more.into_iter().zip([5, 4, 3, 2, 1]) {
        accessibles.push(record);
        assert_eq!(number(&one_module(&accessibles)), expected);
    }
}
