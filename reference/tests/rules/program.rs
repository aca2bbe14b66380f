//! The command line and the text form of histories.

use crate::build::lab;
use reference::definitions;
use reference::generate::histories;
use reference::history::{Call, History};
use reference::text;
use std::io::Write;
use std::process::{Command, Output, Stdio};

/// Runs the program with something on its standard input.
fn run(arguments: &[&str], input: &str) -> Output {
    let mut child = Command::new(env!("CARGO_BIN_EXE_reference"))
        .args(arguments)
        .stdin(Stdio::piped())
        .stdout(Stdio::piped())
        .stderr(Stdio::piped())
        .spawn()
        .expect("the program starts");
    // A program that does not read its input may be gone already.
    let _ = child
        .stdin
        .take()
        .expect("piped")
        .write_all(input.as_bytes());
    child.wait_with_output().expect("the program ends")
}

pub fn printed_bytes(arguments: &[&str], input: &str) -> Vec<u8> {
    let output = run(arguments, input);
    assert!(output.status.success(), "{arguments:?}");
    output.stdout
}

pub fn printed(arguments: &[&str], input: &str) -> String {
    String::from_utf8(printed_bytes(arguments, input)).expect("text")
}

#[test]
fn hexadecimal_both_ways() {
    assert_eq!(text::hex(&[]), "-");
    assert_eq!(text::hex(&[0, 10, 255]), "000aff");
    assert_eq!(text::from_hex("-"), Some(Vec::new()));
    assert_eq!(text::from_hex("000aFf"), Some(vec![0, 10, 255]));
    assert_eq!(text::from_hex(""), None);
    assert_eq!(text::from_hex("0"), None);
    assert_eq!(text::from_hex("0g"), None);
}

#[test]
fn run_answers_a_history_written_by_hand() {
    // One module m with one bool b, false at first.
    let table = "4e440000 4d4f016d00 5041016200 00 03 000566616c7365 454e".replace(' ', "");
    // change m:b true
    let change = "6368616e6765206d3a6220747275650a";
    let input = format!(
        "table {table}\n\
         start 16384 5\n\
         open 2 16384 5 = 99\n\
         \n\
         open 2 16384 5 = whatever\n\
         piece 2 16384 32768 5 {change}70 = 1 2 3\n\
         piece 2 16384 32768 6 70\n\
         reading 0 16384 32768 7 66616c7365 = -\n\
         reading 1 16384 32768 7 -\n\
         readings 16384 32768 66616c7365 0,8,0,5 1,8,0,5\n\
         readings 16384 32768 -\n\
         index 00\n\
         unreadable 0 16384 32768 8 257\n\
         index -\n\
         unreadable 0 16384 32768 8 257\n\
         unreadable 0 16384 32768 9 2 = 0\n\
         close 1 16384 10000000000000\n\
         end\n\
         client 0 whatever\n"
    );
    // DR: client 2, 5 bytes, parameter 0, true. RP: 26 bytes,
    // changed m:b [true,{"t":0.005}] and a line feed.
    let reply = "6368616e676564206d3a62205b747275652c7b2274223a302e3030357d5d0a";
    let expected = format!(
        "table {table}\n\
         start 16384 5 = 0\n\
         open 2 16384 5 = 0\n\
         open 2 16384 5 = 13\n\
         piece 2 16384 32768 5 {change}70 = 0 16 1 4452020005007472756552500200\
         1f{reply}\n\
         piece 2 16384 32768 6 70 = 0 1 0 -\n\
         reading 0 16384 32768 7 66616c7365 = 0 -\n\
         reading 1 16384 32768 7 - = 14 -\n\
         readings 16384 32768 66616c7365 0,8,0,5 1,8,0,5 = 14 1 -\n\
         readings 16384 32768 - = 0 0 -\n\
         index 00\n\
         unreadable 0 16384 32768 8 257 = 18 -\n\
         index -\n\
         unreadable 0 16384 32768 8 257 = 16 -\n\
         unreadable 0 16384 32768 9 2 = 0 -\n\
         close 1 16384 10000000000000 = 10\n\
         end\n\
         client 0 closed active=0000 line=- counts=0,0,0\n\
         client 1 closed active=0000 line=- counts=0,0,0\n\
         client 2 open active=0000 line=70 counts=1,0,0\n\
         client 3 closed active=0000 line=- counts=0,0,0\n\
         client 4 closed active=0000 line=- counts=0,0,0\n\
         client 5 closed active=0000 line=- counts=0,0,0\n\
         client 6 closed active=0000 line=- counts=0,0,0\n\
         client 7 closed active=0000 line=- counts=0,0,0\n\
         parameter 0 time=9 error=CommunicationFailed\n"
    );
    assert_eq!(printed(&["run", "-"], &input), expected);
}

#[test]
fn the_end_shows_active_modules_and_overlong_lines() {
    let piece = |bytes: &[u8]| Call::Piece {
        client: 1,
        values_len: 16_384,
        outbox_len: 32_768,
        time: 0,
        bytes: bytes.to_vec(),
    };
    let history = History {
        table: lab(),
        calls: vec![
            Call::Start {
                values_len: 16_384,
                time: 0,
            },
            Call::Open {
                client: 1,
                values_len: 16_384,
                time: 0,
            },
            piece(b"activate mf\n"),
            piece(&[b'x'; 1_025]),
        ],
    };
    let printed = text::print(&history, &history.run().unwrap());
    assert!(printed.contains("\nclient 1 open active=0004 line=overlong counts=1,0,3\n"));
    assert!(printed.contains("\nparameter 3 time=0 value=2d30 initial\n"));
}

#[test]
fn histories_are_read_back_as_they_are_printed() {
    for seed in 0..40 {
        let history = histories::history(seed, 30);
        let printed = text::print(&history, &history.run().unwrap());
        assert_eq!(text::read(&printed), Ok(vec![history]));
    }
}

#[test]
fn run_repeats_what_history_and_small_and_second_print() {
    for arguments in [
        &["history", "5"][..],
        &["history", "6", "90"],
        &["second", "5"],
        &["small", "5"],
        &["small", "6"],
        &["directed", "1"],
    ] {
        let first = printed(arguments, "");
        assert!(first.starts_with("table "));
        assert_eq!(printed(&["run", "-"], &first), first);
    }
    let two = printed(&["small", "1"], "") + &printed(&["small", "2"], "");
    assert_eq!(printed(&["run", "-"], &two), two);
}

#[test]
fn history_has_as_many_calls_as_asked_for() {
    let calls = |text: &str| text.lines().filter(|line| line.contains(" = ")).count();
    assert_eq!(calls(&printed(&["history", "5"], "")), 40);
    assert_eq!(calls(&printed(&["history", "5", "7"], "")), 7);
}

#[test]
fn tables_and_values_are_printed_one_to_a_line() {
    let tables = printed(&["tables", "1", "60"], "");
    assert_eq!(tables.lines().count(), 60);
    let accepted = tables
        .lines()
        .filter(|line| line.contains(" = 0 {\"modules\":{"));
    let refused = tables.lines().filter(|line| line.ends_with(" -"));
    let (accepted, refused) = (accepted.count(), refused.count());
    assert!(accepted > 5 && refused > 5 && accepted + refused == 60);

    let values = printed(&["values", "1", "200"], "");
    assert_eq!(values.lines().count(), 200);
    let ending = |ending: &str| values.lines().filter(|line| line.ends_with(ending)).count();
    let fitting = values
        .lines()
        .filter(|line| line.contains(" = fits "))
        .count();
    let (json, wrong, range) = (
        ending(" = BadJSON"),
        ending(" = WrongType"),
        ending(" = RangeError"),
    );
    assert!(fitting > 5 && json > 5 && wrong > 5 && range > 5);
    assert_eq!(fitting + json + wrong + range, 200);
}

#[test]
fn directed_histories_have_numbers_and_names() {
    let names = printed(&["directed"], "");
    assert!(names.starts_with("1 one of two modules deactivated\n"));
    let count = names.lines().count();
    for (at, line) in (1..).zip(names.lines()) {
        assert!(line.starts_with(&format!("{at} ")), "{line}");
        let history = printed(&["directed", &at.to_string()], "");
        assert!(history.starts_with("table "), "{line}");
    }
    for beyond in [0, count + 1] {
        let output = run(&["directed", &beyond.to_string()], "");
        assert!(!output.status.success(), "{beyond}");
    }
}

#[test]
fn definitions_of_a_refused_start() {
    let history = History {
        table: b"ND\x00\x00EN".to_vec(),
        calls: vec![
            Call::Start {
                values_len: 16_384,
                time: 5,
            },
            Call::Open {
                client: 7,
                values_len: 1,
                time: 6,
            },
            Call::Piece {
                client: 0,
                values_len: 2,
                outbox_len: 3,
                time: 7,
                bytes: b"'\\u{0}\"\0\x7f\n".to_vec(),
            },
            Call::Lend {
                index: b"\xff1".to_vec(),
            },
            Call::Close {
                client: 7,
                values_len: 1,
                time: 8,
            },
        ],
    };
    // No module: number 2, for every call.
    let expected = r#"
unfoldable pub history_1 : History
history_1 =
    record {
      table = bytes "ND\0\0EN";
      area = 16384;
      time = 5;
      start = 2;
      calls =
          with_area (Open 7 6) 1
          ∷ with_outbox (Piece 0 (bytes "'\\u{0}\"\0\u{7f}\n") 7) 2 3
          ∷ beside (bytes "ÿ1") (with_area (Close 7 8) 1)
          ∷ [];
      due =
          record { number = 2; used = 0; written = bytes ""; steps = 0 }
          ∷ record { number = 2; used = 0; written = bytes ""; steps = 0 }
          ∷ record { number = 2; used = 0; written = bytes ""; steps = 0 }
          ∷ [];
    }

unfoldable pub histories : List History
histories = history_1 ∷ []
"#;
    let printed = definitions::print(std::slice::from_ref(&history)).expect("one start");
    assert!(printed.ends_with(expected), "{printed}");
    let started_twice = History {
        calls: [history.calls.clone(), history.calls.clone()].concat(),
        ..history
    };
    assert_eq!(definitions::print(&[started_twice]), None);
}

#[test]
fn definitions_count_seeds_and_directed_histories() {
    let names = printed(&["directed"], "").lines().count();
    let printed = printed(&["definitions", "1", "directed", "3"], "");
    let defined = printed.matches("\nunfoldable pub history_").count();
    assert_eq!(defined, names + 2);
    let last = format!("\nunfoldable pub history_{} : History\n", names + 2);
    assert!(printed.contains(&last));
}

#[test]
fn help_and_mistakes() {
    assert!(printed(&["--help"], "").contains("history SEED [CALLS]"));
    let mistakes = [
        (&["run", "-"][..], "start 16384 0\n"),
        (&["run", "-"], "table 4e\nopen 0 16384 0\n"),
        (&["run", "-"], "table 4e\nstart 16384\n"),
        (&["run", "/no/such/file"], ""),
        (&["small", "x"], ""),
        (&["definitions", "1", "x"], ""),
        (&["value-input", "1"], ""),
        (&["nonsense"], ""),
        (&[], ""),
    ];
    for (arguments, input) in mistakes {
        let output = run(arguments, input);
        assert!(!output.status.success(), "{arguments:?}");
        assert!(output.stdout.is_empty() && !output.stderr.is_empty());
    }
}
