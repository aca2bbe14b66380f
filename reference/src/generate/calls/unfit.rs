//! States that are unfit in each way that document 01 lists, states at the
//! borders that are still fit, and states that were stored and brought back.

use super::course::Course;
use crate::datainfo::Datainfo;
use crate::generate::encode;
use crate::generate::parts::{array, digit, enumeration, module, parameter, string, table};
use crate::node::MAX_TIME;
use crate::operation::Poke;

pub(super) fn all(course: &mut Course) {
    unfit(course);
    unfit_in_the_last_places(course);
    unfit_members(course);
    over_another_table(course);
    fit(course);
    sixteen_modules(course);
    restored(course);
}

/// Modules `t1` with `p`, an int from 0 to 9, and `l`, a string, and `mf` with
/// `q`, a bool.
fn two_modules() -> Vec<u8> {
    encode::table(&table(vec![
        module(
            "t1",
            vec![
                parameter("p", digit(), "3"),
                parameter("l", string(0, 300), "\"\""),
            ],
        ),
        module("mf", vec![parameter("q", Datainfo::Bool, "false")]),
    ]))
}

/// A string of so many bytes in stored form.
fn quoted(length: usize) -> String {
    format!("\"{}\"", "x".repeat(length - 2))
}

/// Clients 0 and 2 open, 2 with all active and a line begun, `p` and `l` set.
fn begun(course: &mut Course, name: &str) {
    course.started(name, &two_modules());
    course.open(0);
    course.open(2);
    course.line(2, "activate");
    course.piece(2, "read t1:");
    course.reading(0, "4");
    course.reading(1, &quoted(256));
}

/// A call of each kind but start, all of which would be accepted.
fn each_call(course: &mut Course) {
    course.open(1);
    course.close(0);
    course.line(0, "change t1:p 5");
    course.reading(0, "6");
    course.unreadable(0, 3);
}

fn value(number: usize, text: &str) -> Vec<Poke> {
    vec![
        Poke::Values(256 * number, text.as_bytes().to_vec()),
        Poke::StoredLength(number, text.len() as u16),
    ]
}

/// A client's line, which its length may or may not cover.
fn line(client: usize, bytes: &[u8], length: u16) -> Vec<Poke> {
    vec![
        Poke::Lines(1_024 * client, bytes.to_vec()),
        Poke::LineLength(client, length),
    ]
}

fn unfit(course: &mut Course) {
    begun(course, "unfit states");
    for (name, pokes) in unfit_values().into_iter().chain(unfit_clients()) {
        course.named(name);
        course.poked_for(&pokes, |course| {
            assert!(!course.is_fit(), "{name}");
            each_call(course);
        });
        assert!(course.is_fit(), "{name}");
    }
    course.show();
    each_call(course);
    course.show();
}

/// A stored name is unfit, even one as long as its number.
fn unfit_members(course: &mut Course) {
    let modes = enumeration(&[("off", 0), ("on", 1_000)]);
    let list = array(0, 2, modes.clone());
    let accessibles = vec![parameter("m", modes, "0"), parameter("l", list, "[]")];
    let bytes = encode::table(&table(vec![module("t1", accessibles)]));
    course.started("unfit enum members", &bytes);
    course.open(0);
    course.line(0, "change t1:m \"on\"");
    course.reading(1, "[\"off\",\"on\"]");
    for pokes in [
        value(0, "\"on\""),
        value(0, "1"),
        value(1, "[\"on\"]"),
        value(1, "[0,\"off\"]"),
    ] {
        course.poked_for(&pokes, |course| {
            assert!(!course.is_fit(), "{pokes:?}");
            course.line(0, "read t1:m");
            course.reading(1, "[]");
        });
    }
    course.show();
    course.lines(0, &["read t1:m", "read t1:l"]);
}

fn unfit_values() -> Vec<(&'static str, Vec<Poke>)> {
    vec![
        ("a length of 257", vec![Poke::StoredLength(1, 257)]),
        (
            "a length of 257, JSON in all",
            vec![
                Poke::Values(256, quoted(257).into_bytes()),
                Poke::StoredLength(1, 257),
            ],
        ),
        ("the largest length", vec![Poke::StoredLength(0, 65_535)]),
        ("a length past the value", vec![Poke::StoredLength(0, 2)]),
        (
            "a length short of the value",
            vec![Poke::StoredLength(1, 255)],
        ),
        (
            "a length with nothing stored",
            vec![Poke::StoredLength(2, 1)],
        ),
        ("a value with a space after it", value(0, "4 ")),
        ("a value with a space before it", value(0, " 4")),
        ("a value that is no JSON", value(0, "04")),
        ("a value with a line feed", value(1, "\"\n\"")),
        ("a value above its limit", value(0, "10")),
        ("a value below its limit", value(0, "-1")),
        ("a value of another type", value(0, "true")),
        ("a value null", value(2, "null")),
        ("a late time", vec![Poke::StoredTime(0, MAX_TIME + 1)]),
        (
            "the latest time of all",
            vec![Poke::StoredTime(1, u64::MAX)],
        ),
        (
            "a late time of a value never set",
            vec![Poke::StoredTime(2, MAX_TIME + 1)],
        ),
        ("an error of class 5", vec![Poke::StoredError(0, 5)]),
        ("an error of class 255", vec![Poke::StoredError(1, 255)]),
        (
            "an error of class 5 of a value never set",
            vec![Poke::StoredError(2, 5)],
        ),
        (
            "an error over a length of 257",
            vec![Poke::StoredError(1, 1), Poke::StoredLength(1, 257)],
        ),
        (
            "an error with a late time",
            vec![Poke::StoredError(0, 2), Poke::StoredTime(0, MAX_TIME + 1)],
        ),
        (
            "an error over a value of another type",
            [vec![Poke::StoredError(0, 4)], value(0, "true")].concat(),
        ),
    ]
}

fn unfit_clients() -> Vec<(&'static str, Vec<Poke>)> {
    let at_end = [&[b'x'; 1_023][..], b"\n"].concat();
    vec![
        ("a line of 1,025 bytes", vec![Poke::LineLength(0, 1_025)]),
        ("the longest line", vec![Poke::LineLength(0, 65_535)]),
        ("a line that is a line feed", line(0, b"\n", 1)),
        ("a line feed before a line", line(0, b"\nping", 5)),
        ("a line feed after a line", line(2, b"ping\n", 5)),
        ("a line feed as byte 1,024", line(0, &at_end, 1_024)),
        ("bytes of an overlong line", vec![Poke::Overlong(2, 1)]),
        ("bytes and another flag", vec![Poke::Overlong(2, 255)]),
        ("a third module active", vec![Poke::Active(0, 4)]),
        ("a third module active too", vec![Poke::Active(2, 7)]),
        ("the last module active", vec![Poke::Active(0, 0x8000)]),
        ("bytes of a closed client", line(1, b"x", 1)),
        (
            "a closed client's overlong line",
            vec![Poke::Overlong(1, 1)],
        ),
        ("a closed client's other flag", vec![Poke::Overlong(3, 2)]),
        ("a module of a closed client", vec![Poke::Active(1, 1)]),
        ("no such module, closed", vec![Poke::Active(4, 16)]),
        ("a client closed without more", vec![Poke::Open(2, 0)]),
    ]
}

/// The last client and, in a table of 64 parameters, the last parameter.
fn unfit_in_the_last_places(course: &mut Course) {
    let parameters = (0..64).map(|at| parameter(&format!("p{at}"), digit(), "3"));
    let bytes = encode::table(&table(vec![module("t1", parameters.collect())]));
    course.started("unfit states in the last places", &bytes);
    course.open(0);
    course.reading(63, "4");
    let unfit = [
        vec![Poke::StoredLength(63, 257)],
        value(63, "x"),
        vec![Poke::StoredTime(63, MAX_TIME + 1)],
        vec![Poke::StoredError(63, 5)],
        vec![Poke::Overlong(7, 1)],
        vec![Poke::Active(7, 1)],
        vec![Poke::LineLength(7, 1)],
        vec![Poke::Open(7, 1), Poke::LineLength(7, 1_025)],
        vec![Poke::Open(7, 1), Poke::LineLength(7, 65_535)],
        vec![
            Poke::Open(7, 1),
            Poke::LineLength(7, 1_024),
            Poke::Lines(8_191, b"\n".to_vec()),
        ],
    ];
    for pokes in unfit {
        course.poked_for(&pokes, |course| {
            assert!(!course.is_fit());
            course.line(0, "read t1:p63");
            course.open(1);
        });
    }
    course.line(0, "read t1:p63");
    course.show();
}

/// A state that is fit for one table may be unfit for another.
fn over_another_table(course: &mut Course) {
    let one = |datainfo, initial| {
        let accessibles = vec![parameter("p", datainfo, initial)];
        encode::table(&table(vec![module("t1", accessibles)]))
    };
    begun(course, "over another table");
    course.table(&one(digit(), "3"));
    each_call(course);
    course.table(&two_modules());
    course.close(2);
    course.table(&one(Datainfo::Int { min: 5, max: 9 }, "5"));
    each_call(course);
    course.table(&one(Datainfo::Bool, "true"));
    each_call(course);
    course.table(&one(Datainfo::Int { min: 4, max: 4 }, "4"));
    course.line(0, "read t1:p");
    course.table(&two_modules());
    course.open(2);
    course.lines(2, &["read t1:l", "read mf:q"]);
    course.show();
}

/// What each fit state answers with, then the state.
fn some_calls(course: &mut Course) {
    assert!(course.is_fit());
    course.open(1);
    course.line(2, "p");
    course.lines(0, &["read t1:p", "activate"]);
    course.reading(0, "6");
    course.close(2);
    course.show();
}

fn fit(course: &mut Course) {
    let with_return = [&[b'y'; 1_023][..], b"\r"].concat();
    let rubbish: Vec<u8> = (0..=255).cycle().skip(10).take(8_192).collect();
    let states = [
        ("a line of 1,024 bytes", line(0, &[b'y'; 1_024], 1_024)),
        ("1,023 bytes and a return", line(0, &with_return, 1_024)),
        ("a line feed past a line", line(0, b"ping \n", 5)),
        ("odd bytes in a line", line(0, b"\x00\x0d\x7f\xff", 4)),
        (
            "flags of 2 and 255",
            vec![Poke::Open(0, 2), Poke::Open(2, 255)],
        ),
        (
            "an overlong line with an odd flag",
            vec![Poke::Overlong(0, 128)],
        ),
        (
            "all overlong",
            vec![
                Poke::Overlong(0, 1),
                Poke::LineLength(2, 0),
                Poke::Overlong(2, 2),
            ],
        ),
        ("one module active", vec![Poke::Active(0, 2)]),
        ("the latest time", vec![Poke::StoredTime(0, MAX_TIME)]),
        ("the first time", vec![Poke::StoredTime(1, 0)]),
        ("a value never set", vec![Poke::StoredLength(0, 0)]),
        ("an error of class 1", vec![Poke::StoredError(0, 1)]),
        (
            "an error of class 4 of a value never set",
            vec![Poke::StoredLength(0, 0), Poke::StoredError(0, 4)],
        ),
        (
            "errors of all",
            (0..3).map(|at| Poke::StoredError(at, 2)).collect(),
        ),
        ("another value", value(0, "-0")),
        (
            "rubbish in lines that nobody has",
            vec![Poke::LineLength(2, 0), Poke::Lines(0, rubbish.clone())],
        ),
        (
            "rubbish past the values",
            vec![
                Poke::Values(1, rubbish[..255].to_vec()),
                Poke::Values(512, rubbish),
            ],
        ),
    ];
    for (name, pokes) in states {
        begun(course, name);
        for poke in pokes {
            course.poke(poke);
        }
        some_calls(course);
    }
    begun(course, "rubbish past the last parameter");
    for number in 3..64 {
        course.poke(Poke::StoredLength(number, 65_535));
        course.poke(Poke::StoredTime(number, u64::MAX));
        course.poke(Poke::StoredError(number, 255));
    }
    some_calls(course);
}

/// With sixteen modules every mask will do.
fn sixteen_modules(course: &mut Course) {
    let one = |at| {
        let accessible = parameter("p", digit(), "3");
        module(&format!("m{at}"), vec![accessible])
    };
    let modules = |count| encode::table(&table((0..count).map(one).collect()));
    course.started("sixteen modules", &modules(16));
    course.open(0);
    course.poke(Poke::Active(0, 0xffff));
    course.lines(0, &["change m15:p 4", "deactivate m15"]);
    course.reading(15, "5");
    course.reading(14, "5");
    course.table(&modules(15));
    course.reading(14, "6");
    course.table(&modules(14));
    course.reading(0, "6");
    course.table(&modules(16));
    course.lines(0, &["activate m15", "deactivate", "activate"]);
    course.show();
}

/// A state put in place part by part, then gone on with.
fn restored(course: &mut Course) {
    course.named("restored");
    course.table(&two_modules());
    for client in [1, 4, 6] {
        course.poke(Poke::Open(client, 1));
    }
    let values = [value(0, "7"), value(1, "\"a b\""), value(2, "true")];
    let lines = [line(4, b"change t1:p ", 12), line(6, b"ping x\r", 7)];
    for poke in values.into_iter().chain(lines).flatten() {
        course.poke(poke);
    }
    for (number, time) in [(0, 5), (1, MAX_TIME), (2, 1_500)] {
        course.poke(Poke::StoredTime(number, time));
    }
    course.poke(Poke::Active(1, 3));
    course.poke(Poke::Active(4, 1));
    course.poke(Poke::Active(6, 2));
    course.poke(Poke::Overlong(1, 1));
    course.show();
    course.piece(4, " 8 \nread");
    course.piece(6, "\n");
    course.piece(1, "more of it");
    course.piece(1, "\n");
    course.line(1, "deactivate t1");
    course.line(4, "activate");
    course.reading(2, " false ");
    course.close(4);
    course.line(6, "change t1:l \"c\"");
    course.poke(Poke::StoredError(1, 2));
    course.lines(6, &["read t1:l", "activate", "change t1:l \"d\""]);
    course.show();
}
