//! Which values fit, and what is stored of them.

use crate::build::*;
use reference::datainfo::Datainfo;
use reference::table::{Kind, Table};
use reference::value::{judge, ValueFault};

/// The datainfo that the bytes describe.
fn datainfo(bytes: &[u8]) -> Datainfo {
    let table = Table::judge(&one_module(&[cm_with("c", "", bytes)])).expect("a good datainfo");
    match &table.modules[0].accessibles[0].kind {
        Kind::Command {
            argument: Some(datainfo),
        } => datainfo.clone(),
        other => panic!("{other:?}"),
    }
}

fn judged(bytes: &[u8], text: &str) -> Result<String, ValueFault> {
    judge(&datainfo(bytes), text.as_bytes()).map(|stored| String::from_utf8(stored).expect("ASCII"))
}

/// Each text fits and is stored as it is.
fn assert_fit(bytes: &[u8], texts: &[&str]) {
    for text in texts {
        assert_eq!(judged(bytes, text), Ok(text.to_string()), "{text}");
    }
}

fn assert_faults(bytes: &[u8], fault: ValueFault, texts: &[&str]) {
    for text in texts {
        assert_eq!(judged(bytes, text), Err(fault), "{text}");
    }
}

use ValueFault::{BadJson, RangeError, WrongType};

// V-1 to V-3
#[test]
fn what_is_no_json_is_no_json_for_any_type() {
    let deep_array = format!("{}{}", "[".repeat(9), "]".repeat(9));
    let deep_object = format!("{}1{}", "{\"a\":".repeat(9), "}".repeat(9));
    let texts = [
        "",
        " ",
        "01",
        "-01",
        "00",
        "1.",
        ".5",
        "-.5",
        "-",
        "+1",
        "1e",
        "1e+",
        "1e1.5",
        "1 2",
        "0x10",
        "NaN",
        "Infinity",
        "tru",
        "truee",
        "True",
        "nul",
        "'a'",
        "\"",
        "\"a",
        "\"\\\"",
        "\"\\a\"",
        "\"\\u12\"",
        "\"\\u00g0\"",
        "\"\\U0041\"",
        "\"\u{1f}\"",
        "\"\u{7f}\"",
        "\"\u{80}\"",
        "\t1",
        "1\r",
        "[1,]",
        "[,1]",
        "[1 2]",
        "[",
        "]",
        "[1",
        "[1}",
        "{",
        "{}}",
        "{\"a\"}",
        "{\"a\":}",
        "{\"a\":1,}",
        "{a:1}",
        "{1:1}",
        "{\"a\":1 \"b\":2}",
        "[]]",
        "1,",
        &deep_array,
        &deep_object,
    ];
    for bytes in [
        boolean(),
        double((0, 0), (9, 0)),
        string(0, 9),
        array(0, 9, &boolean()),
    ] {
        assert_faults(&bytes, BadJson, &texts);
    }
}

// V-1
#[test]
fn eight_levels_are_json() {
    let deep_array = format!("{}{}", "[".repeat(8), "]".repeat(8));
    let deep_object = format!("{}1{}", "{\"a\":".repeat(8), "}".repeat(8));
    let mixed = format!("{}1{}", "[{\"a\":".repeat(4), "}]".repeat(4));
    assert_faults(&boolean(), WrongType, &[&deep_array, &deep_object, &mixed]);
    assert_faults(&boolean(), BadJson, &[&format!("[{mixed}]")]);
    assert_faults(&boolean(), BadJson, &[&format!("[0,{mixed}]")]);
}

// V-7
#[test]
fn bool_takes_the_two_words_only() {
    assert_fit(&boolean(), &["true", "false"]);
    let texts = [
        "null",
        "0",
        "1",
        "\"true\"",
        "[]",
        "{}",
        "[true]",
        "\"\\u0080\"",
    ];
    assert_faults(&boolean(), WrongType, &texts);
}

// V-5, V-8
#[test]
fn double_compares_exactly() {
    let to_300 = double((0, 0), (300, 0));
    assert_fit(
        &to_300,
        &[
            "0",
            "-0",
            "-0.0",
            "-0e0",
            "0e99",
            "0E-99",
            "300",
            "300.0",
            "3e2",
            "3E+2",
            "3e+02",
            "3e0000000000000000002",
            "30000e-2",
            "0.3e3",
            "1.5e-99",
            "299.9999999999999999999",
            "0.00000000000000000000000000001",
            "300.0000000000000000000000000000",
        ],
    );
    assert_faults(
        &to_300,
        RangeError,
        &[
            "301",
            "-1",
            "-1e-99",
            "300.0000000000000000001",
            "3.0000000000000000000000001e2",
            "1e3",
            "0e100",
            "0e-100",
            "0.0e100",
            "10e-100",
            "1e99999999999999999999",
        ],
    );
    assert_faults(&to_300, WrongType, &["null", "\"1\"", "true", "[1]", "{}"]);
}

// V-5, T-15
#[test]
fn double_limits_may_be_negative_and_have_powers() {
    let narrow = double((-3, -30), (-1, -30));
    assert_fit(&narrow, &["-1e-30", "-3e-30", "-0.2e-29", "-30e-31"]);
    assert_faults(
        &narrow,
        RangeError,
        &["0", "-0.9999e-30", "-3.00001e-30", "2e-30", "-4e-30"],
    );
    let wide = double((i64::MIN, 30), (i64::MAX, 30));
    assert_fit(
        &wide,
        &[
            "9223372036854775807e30",
            "-9223372036854775808e30",
            "-9.2e48",
        ],
    );
    assert_faults(
        &wide,
        RangeError,
        &["9223372036854775808e30", "-9223372036854775809e30", "1e99"],
    );
    let same = double((3, 2), (300, 0));
    assert_fit(&same, &["300", "0.3e3"]);
    assert_faults(&same, RangeError, &["299.999", "300.001"]);
}

// V-6
#[test]
fn a_token_has_at_most_32_bytes() {
    let to_300 = double((0, 0), (300, 0));
    let bytes_32 = "0.000000000000000000000000000000";
    assert_eq!(bytes_32.len(), 32);
    let bytes_33 = format!("{bytes_32}0");
    let signed_33 = format!("-{bytes_32}");
    let power_33 = "1e0000000000000000000000000000001";
    assert_eq!(power_33.len(), 33);
    assert_fit(&to_300, &[bytes_32, &power_33.replacen("00", "0", 1)]);
    assert_faults(&to_300, RangeError, &[&bytes_33, &signed_33, power_33]);
    // For ints a dot or an exponent is a type fault at any length.
    assert_faults(&int(0, 9), WrongType, &[&bytes_33, power_33]);
    let digits_33 = format!("1{}", "0".repeat(32));
    assert_faults(&int(0, 9), RangeError, &[&digits_33]);
    assert_faults(&enumeration(&[("a", 1)]), RangeError, &[&digits_33]);
    assert_faults(&boolean(), WrongType, &[&digits_33]);
}

// V-9
#[test]
fn int_takes_whole_tokens_within_its_limits() {
    let full = int(i64::MIN, i64::MAX);
    assert_fit(
        &full,
        &["0", "-0", "9223372036854775807", "-9223372036854775808"],
    );
    assert_faults(
        &full,
        RangeError,
        &[
            "9223372036854775808",
            "-9223372036854775809",
            "99999999999999999999999999999999",
        ],
    );
    assert_faults(
        &full,
        WrongType,
        &[
            "1.0", "1e0", "1E2", "-0.0", "0e100", "\"1\"", "null", "false",
        ],
    );
    let low = int(-3, -2);
    assert_fit(&low, &["-3", "-2"]);
    assert_faults(&low, RangeError, &["-4", "-1", "0", "-0", "2", "3"]);
}

// V-9, T-23
#[test]
fn scaled_takes_what_an_int_takes_whatever_its_scale() {
    for scale in [(1, 0), (1, -30), (i64::MAX, 30), (25, -4)] {
        let full = scaled(scale, i64::MIN, i64::MAX);
        assert_fit(
            &full,
            &["0", "-0", "9223372036854775807", "-9223372036854775808"],
        );
        let digits_33 = format!("1{}", "0".repeat(32));
        let outside = [
            "9223372036854775808",
            "-9223372036854775809",
            "99999999999999999999999999999999",
            &digits_33,
        ];
        assert_faults(&full, RangeError, &outside);
        let of_another_type = [
            "1.0", "1e0", "1E2", "-0.0", "0e100", "\"1\"", "null", "true", "[1]", "{}",
        ];
        assert_faults(&full, WrongType, &of_another_type);
        assert_faults(&full, BadJson, &["01", "+1", "1.", ""]);
        let low = scaled(scale, -3, -2);
        assert_fit(&low, &["-3", "-2"]);
        assert_faults(&low, RangeError, &["-4", "-1", "0", "-0", "2", "3"]);
    }
}

// V-13
#[test]
fn blob_takes_the_base64_of_as_many_bytes_as_its_limits_say() {
    let any = blob(0, 65535);
    // RFC 4648, section 10.
    assert_fit(
        &any,
        &[
            "\"\"",
            "\"Zg==\"",
            "\"Zm8=\"",
            "\"Zm9v\"",
            "\"Zm9vYg==\"",
            "\"Zm9vYmE=\"",
            "\"Zm9vYmFy\"",
            "\"+/+/\"",
        ],
    );
    let padding_is_due = [
        "Zg", "Zm8", "Zg=", "Z", "Z===", "====", "Zm9v====", "Zg==Zm9v",
    ];
    let unused_bits_are_zero = ["Zh==", "Zo==", "Zm9=", "Zm+="];
    let other_alphabets_and_spaces = ["Zm-v", "Zm_v", "Zm 9", " Zm9v"];
    let escapes = ["\\/\\/\\/\\/", "\\u005Ag==", "Zm9v\\n", "\\u0080"];
    let texts = [
        &padding_is_due[..],
        &unused_bits_are_zero,
        &other_alphabets_and_spaces,
        &escapes,
    ];
    for text in texts.concat() {
        assert_faults(&any, WrongType, &[&format!("\"{text}\"")]);
    }
    assert_faults(&any, WrongType, &["1", "null", "true", "[\"Zm9v\"]", "{}"]);
    let no_json = ["Zm9v", "\"Zm9v", "\"Zm\t9\"", "\"Zm\u{7f}v\""];
    assert_faults(&any, BadJson, &no_json);
    let three = blob(3, 3);
    assert_fit(&three, &["\"Zm9v\"", "\"AAAA\""]);
    assert_faults(&three, RangeError, &["\"\"", "\"Zm8=\"", "\"Zm9vYg==\""]);
    // Bad base64 is a fault of type whatever its length.
    assert_faults(&three, WrongType, &["\"Zh==\"", "\"Zm9vYmFyZh==\""]);
    let none = blob(0, 0);
    assert_fit(&none, &["\"\""]);
    assert_faults(&none, RangeError, &["\"Zg==\""]);
}

/// Base64 of so many zero bytes, quoted.
fn zeros(size: usize) -> String {
    let padding = (3 - size % 3) % 3;
    let digits = (size + padding) / 3 * 4 - padding;
    format!("\"{}{}\"", "A".repeat(digits), "=".repeat(padding))
}

// V-13, V-22
#[test]
fn of_a_blob_189_bytes_go_into_the_stored_form() {
    for (min, max) in [(0, 65535), (0, 190), (189, 192)] {
        let long = blob(min, max);
        assert_fit(&long, &[&zeros(189)]);
        assert_faults(&long, RangeError, &[&zeros(190), &zeros(192)]);
    }
    assert_eq!(zeros(189).len(), 254);
    assert_eq!(zeros(190).len(), 258);
    assert_faults(&blob(0, 188), RangeError, &[&zeros(189)]);
    assert_fit(&blob(0, 188), &[&zeros(188)]);
    assert_faults(&blob(189, 189), RangeError, &[&zeros(188)]);
    // Inside a list of one it is 256 bytes, one more is too many.
    let list = array(0, 2, &blob(0, 65535));
    assert_fit(&list, &[&format!("[{}]", zeros(189))]);
    assert_faults(&list, RangeError, &[&format!("[{},\"\"]", zeros(189))]);
    // Bad base64 is a fault of type all the same.
    let unpadded = zeros(190).replace('=', "");
    assert_faults(&blob(0, 65535), WrongType, &[&unpadded]);
    assert_faults(&list, WrongType, &[&format!("[{},\"B\"]", zeros(189))]);
}

// T-14
#[test]
fn scaled_and_blobs_stand_inside_other_datainfos() {
    let inside = structure(&[
        ("s", array(0, 2, &scaled((1, -3), 0, 9))),
        ("b", tuple(&[blob(1, 2), boolean()])),
    ]);
    assert_fit(
        &inside,
        &[
            r#"{"s":[0,9],"b":["Zg==",true]}"#,
            r#"{"b":["Zm8=",false],"s":[]}"#,
        ],
    );
    assert_faults(
        &inside,
        RangeError,
        &[
            r#"{"s":[10],"b":["Zg==",true]}"#,
            r#"{"s":[1],"b":["Zm9v",true]}"#,
        ],
    );
    assert_faults(
        &inside,
        WrongType,
        &[
            r#"{"s":[10],"b":["Zh==",true]}"#,
            r#"{"s":[1.5],"b":["Zm9v",true]}"#,
        ],
    );
}

// V-10
#[test]
fn enum_takes_the_numbers_of_its_members() {
    let members = enumeration(&[("off", 0), ("on", 1), ("low", i32::MIN), ("high", i32::MAX)]);
    assert_fit(&members, &["0", "-0", "1", "-2147483648", "2147483647"]);
    assert_faults(
        &members,
        RangeError,
        &[
            "2",
            "-1",
            "2147483648",
            "-2147483649",
            "4294967296",
            "18446744073709551617",
        ],
    );
    assert_faults(
        &members,
        WrongType,
        &[
            "1.0",
            "1e0",
            "true",
            "null",
            "[]",
            "{}",
            "[\"on\"]",
            "{\"on\":1}",
        ],
    );
}

/// Each text fits and is stored as the other.
fn assert_stored(bytes: &[u8], pairs: &[(&str, &str)]) {
    for (text, stored) in pairs {
        assert_eq!(judged(bytes, text), Ok(stored.to_string()), "{text}");
    }
}

// V-11
#[test]
fn an_enum_takes_the_names_of_its_members_too() {
    let longest = "n".repeat(63);
    let members = enumeration(&[
        ("off", 0),
        ("on", 1),
        ("low", i32::MIN),
        ("high", i32::MAX),
        ("true", -7),
        ("null", 8),
        ("e5", 6),
        ("_1", 5),
        (&longest, 9),
        (&longest[..33], 10),
    ]);
    assert_stored(
        &members,
        &[
            ("\"off\"", "0"),
            ("\"on\"", "1"),
            ("  \"on\"  ", "1"),
            ("\"low\"", "-2147483648"),
            ("\"high\"", "2147483647"),
            ("\"true\"", "-7"),
            ("\"null\"", "8"),
            ("\"e5\"", "6"),
            ("\"_1\"", "5"),
            (&format!("\"{longest}\""), "9"),
            (&format!("\"{}\"", &longest[..33]), "10"),
            // Numbers stay as they are sent.
            ("-0", "-0"),
            ("1", "1"),
        ],
    );
    // Names are compared by raw bytes: case, spaces and escapes tell apart.
    assert_faults(
        &members,
        RangeError,
        &[
            "\"\"",
            "\"On\"",
            "\"ON\"",
            "\"o\"",
            "\"onn\"",
            "\" on\"",
            "\"on \"",
            "\"1\"",
            "\"0\"",
            "\"-0\"",
            "\"\\u006fn\"",
            "\"o\\u006e\"",
            "\"on\\u0000\"",
            "\"\\u0080\"",
            "\"\\\"on\\\"\"",
            &format!("\"{longest}n\""),
            &format!("\"{}\"", &longest[..62]),
        ],
    );
    assert_faults(
        &members,
        BadJson,
        &["\"on", "on\"", "\"\\on\"", "'on'", "on"],
    );
    assert_faults(&members, WrongType, &["true", "null"]);
}

// V-20
#[test]
fn names_are_exchanged_at_any_depth_where_an_enum_is() {
    let mode = enumeration(&[("off", 0), ("on", 12)]);
    let deep = structure(&[
        ("on", tuple(&[mode.clone(), string(0, 9)])),
        ("off", array(0, 3, &tuple(&[mode.clone()]))),
    ]);
    assert_stored(
        &deep,
        &[
            (
                r#"{"on":["on","on"],"off":[["off"],[0],["on"]]}"#,
                r#"{"on":[12,"on"],"off":[[0],[0],[12]]}"#,
            ),
            (
                r#" { "off" : [ ] , "on" : [ "off" , " \"on" ] } "#,
                r#"{"off":[],"on":[0," \"on"]}"#,
            ),
        ],
    );
    // Another enum's name is none of this one's.
    let other = tuple(&[enumeration(&[("on", 1)]), enumeration(&[("off", 2)])]);
    assert_stored(&other, &[(r#"["on","off"]"#, "[1,2]")]);
    assert_faults(&other, RangeError, &[r#"["off","off"]"#, r#"["off","on"]"#]);
    // Of an int or a double no name is right.
    let numbers = tuple(&[int(0, 9), double((0, 0), (9, 0)), mode]);
    assert_faults(
        &numbers,
        WrongType,
        &[r#"["on",1,"on"]"#, r#"[1,"on","on"]"#],
    );
}

// V-4, V-11
#[test]
fn a_type_fault_wins_over_a_name_that_nobody_has() {
    let mode = enumeration(&[("off", 0), ("on", 1)]);
    let pair = tuple(&[mode.clone(), int(0, 9)]);
    assert_faults(&pair, RangeError, &[r#"["nobody",1]"#, r#"["nobody",10]"#]);
    assert_faults(
        &pair,
        WrongType,
        &[r#"["nobody",true]"#, r#"["nobody"]"#, r#"["nobody","on"]"#],
    );
    let both = structure(&[("a", mode.clone()), ("b", mode.clone())]);
    assert_faults(&both, RangeError, &[r#"{"a":"nobody","b":"on"}"#]);
    assert_faults(
        &both,
        WrongType,
        &[r#"{"a":"nobody","b":true}"#, r#"{"a":"nobody"}"#],
    );
    assert_faults(&array(0, 1, &mode), RangeError, &[r#"["on","on"]"#]);
}

// V-22
#[test]
fn the_256_bytes_are_counted_after_the_exchange() {
    let mode = enumeration(&[("a", i32::MIN), ("number_7", 7), ("b", 10), ("c", 100)]);
    let list = array(0, 300, &mode);
    // 21 times eleven bytes and a comma are 252, the brackets 2, then 10 or 100.
    let grown = |last: &str| format!("[{}{last}]", "\"a\",".repeat(21));
    let numbers = |last: &str| format!("[{}{last}]", "-2147483648,".repeat(21));
    assert_eq!(numbers("10").len(), 256);
    assert_eq!(judged(&list, &grown("\"b\"")), Ok(numbers("10")));
    assert_eq!(judged(&list, &grown("10")), Ok(numbers("10")));
    assert_faults(&list, RangeError, &[&grown("\"c\""), &grown("100")]);
    // 126 times a digit and a comma are 252 too.
    let shrunk = |last: &str| format!("[{}{last}]", "\"number_7\",".repeat(126));
    let digits = format!("[{}10]", "7,".repeat(126));
    assert_eq!(digits.len(), 256);
    assert_eq!(judged(&list, &shrunk("\"b\"")), Ok(digits));
    assert_faults(&list, RangeError, &[&shrunk("\"c\""), &shrunk("100")]);
    assert_faults(&list, WrongType, &[&shrunk("true"), &grown("\"c\",true")]);
}

// V-12
#[test]
fn string_counts_each_escape_as_one_character() {
    let three = string(3, 3);
    assert_fit(
        &three,
        &[
            "\"abc\"",
            "\"   \"",
            "\"\\\"\\\\\\/\"",
            "\"\\b\\f\\n\"",
            "\"\\r\\t\\u0041\"",
            "\"\\u0000\\u007F\\u007f\"",
            "\"[{:\"",
            "\"u00\"",
        ],
    );
    assert_faults(
        &three,
        RangeError,
        &[
            "\"\"",
            "\"ab\"",
            "\"abcd\"",
            "\"ab\\u0080\"",
            "\"ab\\uD800\"",
            "\"a\\ud83d\\ude00\"",
            "\"\\uFFFF\"",
            "\"a\\u0041\"",
        ],
    );
    assert_faults(&three, WrongType, &["3", "null", "[\"abc\"]", "{}", "true"]);
    assert_fit(&string(0, 0), &["\"\""]);
}

// V-4, V-14
#[test]
fn array_counts_its_elements_and_judges_all() {
    let two_ints = array(1, 2, &int(0, 9));
    assert_fit(&two_ints, &["[1]", "[0,9]"]);
    assert_faults(
        &two_ints,
        RangeError,
        &["[]", "[1,2,3]", "[10]", "[1,2,10]"],
    );
    assert_faults(
        &two_ints,
        WrongType,
        &[
            "1",
            "null",
            "{}",
            "\"[1]\"",
            "[true]",
            "[10,true]",
            "[1,2,true]",
            "[1,2,3,[4]]",
        ],
    );
    assert_fit(&array(0, 0, &int(0, 9)), &["[]"]);
}

// V-15
#[test]
fn tuple_has_exactly_its_count() {
    let pair = tuple(&[int(0, 9), boolean()]);
    assert_fit(&pair, &["[1,true]"]);
    assert_faults(&pair, RangeError, &["[10,true]"]);
    assert_faults(
        &pair,
        WrongType,
        &["[]", "[1]", "[1,true,2]", "[true,1]", "[10,1]", "{}", "1"],
    );
}

// V-16
#[test]
fn struct_has_every_member_exactly_once() {
    let settings = structure(&[("p", int(0, 9)), ("Q", boolean())]);
    assert_fit(&settings, &[r#"{"p":1,"Q":true}"#, r#"{"Q":true,"p":1}"#]);
    assert_faults(&settings, RangeError, &[r#"{"p":10,"Q":true}"#]);
    assert_faults(
        &settings,
        WrongType,
        &[
            "{}",
            r#"{"p":1}"#,
            r#"{"p":1,"q":true}"#,
            r#"{"p":1,"p":1}"#,
            r#"{"p":1,"Q":true,"p":1}"#,
            r#"{"p":1,"Q":true,"r":0}"#,
            r#"{"\u0070":1,"Q":true}"#,
            r#"{"p":10,"Q":1}"#,
            r#"{"p":10,"\u0080":true}"#,
            "[1,true]",
            "null",
        ],
    );
}

// V-4
#[test]
fn a_type_fault_anywhere_wins_over_a_range_fault_anywhere() {
    let nested = array(0, 1, &tuple(&[int(0, 9), string(0, 1)]));
    assert_faults(
        &nested,
        WrongType,
        &[r#"[[10,"ab"],[1,2]]"#, r#"[[1,"a"],[1]]"#, r#"[["",10]]"#],
    );
    assert_faults(
        &nested,
        RangeError,
        &[
            r#"[[10,"ab"]]"#,
            r#"[[1,"a"],[1,"a"]]"#,
            r#"[[1,"\u0080"]]"#,
        ],
    );
}

// V-19
#[test]
fn the_stored_form_has_no_spaces_outside_strings() {
    let settings = structure(&[("p", array(0, 9, &int(0, 9))), ("q", string(0, 9))]);
    assert_eq!(
        judged(&settings, r#"  { "q" : " \" a " , "p" : [ 1 , -0 ] }  "#),
        Ok(r#"{"q":" \" a ","p":[1,-0]}"#.to_string())
    );
    assert_eq!(judged(&boolean(), "  true "), Ok("true".to_string()));
    assert_eq!(
        judged(&string(0, 9), r#" " \\" "#),
        Ok(r#"" \\""#.to_string())
    );
    assert_eq!(
        judged(&array(0, 9, &boolean()), "[ ]"),
        Ok("[]".to_string())
    );
}

// V-22
#[test]
fn a_stored_form_over_256_bytes_is_out_of_range() {
    let long = string(0, 1000);
    let of_length = |length: usize| format!("\"{}\"", "x".repeat(length - 2));
    assert_fit(&long, &[&of_length(255), &of_length(256)]);
    assert_faults(&long, RangeError, &[&of_length(257)]);
    // Spaces around don't count, those inside do.
    let with_spaces = format!("   {}   ", of_length(256));
    assert_eq!(judged(&long, &with_spaces), Ok(of_length(256)));
    assert_faults(&long, RangeError, &[&format!("\"{}\"", " ".repeat(255))]);
    // Escapes count as they are written: 43 of six bytes are 258.
    assert_faults(
        &long,
        RangeError,
        &[&format!("\"{}\"", "\\u0041".repeat(43))],
    );
    // A type fault wins over the length.
    let strings = array(0, 9, &long);
    let mixed = format!("[{},1]", of_length(257));
    assert_faults(&strings, WrongType, &[&mixed]);
    assert_faults(&strings, RangeError, &[&format!("[{}]", of_length(255))]);
    assert_fit(&strings, &[&format!("[{}]", of_length(254))]);
}
