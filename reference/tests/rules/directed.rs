//! The directed small histories, each as a course of calls and what they
//! send.
//!
//! A call is written as `@TIME` and what it is about, with lengths where they
//! are unusual, ` = NUMBER` where it is refused and `used` where a piece is
//! not used up; in a history that lends an index `steps` where there are any.
//! The records sent follow it. A run of twenty or more equal
//! characters is written as the character, `*` and the count.

use crate::build::*;
use crate::watch::watch;
use reference::generate::directed;
use reference::history::{Answer, Call, History};
use reference::outbox;

fn history(name: &str) -> History {
    let scenes = directed::all().into_iter();
    let mut named = scenes.filter(|scene| scene.name == name);
    named.next().expect("a scene of this name").history
}

#[track_caller]
fn assert_course(name: &str, expected: &str) {
    let expected: Vec<&str> = expected.trim().lines().map(str::trim).collect();
    assert_eq!(course(&history(name)), expected);
}

fn course(history: &History) -> Vec<String> {
    let answers = history.run().expect("a start comes first").answers;
    let lends = history.calls.iter().any(|call| !call.is_made());
    let steps = |answer: &Answer| match answer.steps {
        1.. if lends => format!(" steps {}", answer.steps),
        _ => String::new(),
    };
    let lines = history
        .calls
        .iter()
        .zip(&answers)
        .flat_map(|(call, answer)| {
            let records = outbox::read(&answer.outbox).expect("nothing but records");
            [
                vec![call_line(call) + &ending(call, answer) + &steps(answer)],
                shown(&records),
            ]
            .concat()
        });
    lines.map(|line| abbreviated(line.trim_end())).collect()
}

fn call_line(call: &Call) -> String {
    let text = |bytes: &[u8]| {
        let text = String::from_utf8(bytes.to_vec()).expect("ASCII");
        text.replace('\r', "\\r").replace('\n', "\\n")
    };
    match call {
        Call::Start { time, .. } => format!("@{time} start"),
        Call::Open { client, time, .. } => format!("@{time} open {client}"),
        Call::Close { client, time, .. } => format!("@{time} close {client}"),
        Call::Piece {
            client,
            time,
            bytes,
            ..
        } => format!("@{time} {client} > {}", text(bytes)),
        Call::Reading {
            parameter,
            time,
            text: value,
            ..
        } => format!("@{time} reading {parameter} {}", text(value)),
        Call::Unreadable {
            parameter,
            time,
            class,
            ..
        } => format!("@{time} unreadable {parameter} {class}"),
        Call::Lend { index } => format!("index of {} bytes", index.len()),
        Call::Readings { .. } => unreachable!("directed histories have no lists"),
    }
}

/// What is unusual about the lengths and the answer.
fn ending(call: &Call, answer: &Answer) -> String {
    let (values_len, outbox_len, offered) = match call {
        Call::Lend { .. } | Call::Readings { .. } => (VALUES, OUTBOX, 0),
        Call::Start { values_len, .. }
        | Call::Open { values_len, .. }
        | Call::Close { values_len, .. } => (*values_len, OUTBOX, 0),
        Call::Piece {
            values_len,
            outbox_len,
            bytes,
            ..
        } => (*values_len, *outbox_len, bytes.len()),
        Call::Reading {
            values_len,
            outbox_len,
            ..
        }
        | Call::Unreadable {
            values_len,
            outbox_len,
            ..
        } => (*values_len, *outbox_len, 0),
    };
    let mut ending = String::new();
    if values_len != VALUES {
        ending += &format!(" values={values_len}");
    }
    if outbox_len != OUTBOX {
        ending += &format!(" outbox={outbox_len}");
    }
    if answer.number != 0 {
        ending += &format!(" = {}", answer.number);
    } else if answer.used != offered {
        ending += &format!(" used {}", answer.used);
    }
    ending
}

fn abbreviated(line: &str) -> String {
    let characters: Vec<char> = line.chars().collect();
    let runs = characters.chunk_by(|one, next| one == next);
    runs.map(|run| match run.len() {
        20.. => format!("{}*{}", run[0], run.len()),
        _ => run.iter().collect(),
    })
    .collect()
}

#[test]
fn they_are_small_and_hold_together() {
    for scene in directed::all() {
        let (name, history) = (scene.name, &scene.history);
        assert!(history.table.len() <= 300, "{name}");
        let made = history.calls.iter().filter(|call| call.is_made());
        assert!((2..=11).contains(&made.count()), "{name}");
        let starts = |call: &&Call| matches!(call, Call::Start { .. });
        assert_eq!(history.calls.iter().filter(starts).count(), 1, "{name}");
        watch(history);
    }
}

#[test]
fn their_names_differ() {
    let mut names: Vec<&str> = directed::all().iter().map(|scene| scene.name).collect();
    let count = names.len();
    names.sort();
    names.dedup();
    assert_eq!(names.len(), count);
}

// L-19
#[test]
fn one_of_two_modules_deactivated() {
    assert_course(
        "one of two modules deactivated",
        r#"
        @1000 start
        @2000 open 1
        @3000 open 2
        @4000 1 > activate\n
        1 * update t1:p [false,{"t":1.000}]
        1 * update mf:q [0,{"t":1.000}]
        1 < active
        @5000 1 > deactivate t1\n
        1 < inactive t1
        @6000 2 > change t1:p true\n
        2 DR 0 true
        2 < changed t1:p [true,{"t":6.000}]
        @7000 2 > change mf:q 7\n
        2 DR 1 7
        1 * update mf:q [7,{"t":7.000}]
        2 < changed mf:q [7,{"t":7.000}]
        "#,
    );
}

// C-4, C-5
#[test]
fn closed_and_opened_again() {
    assert_course(
        "closed and opened again",
        r#"
        @1000 start
        @2000 open 0
        @3000 0 > activate\n
        0 * update t1:p [3,{"t":1.000}]
        0 < active
        @4000 close 0
        @5000 reading 0 4
        @6000 open 0
        @7000 reading 0 5
        @8000 0 > read t1:p\n
        0 < reply t1:p [5,{"t":7.000}]
        "#,
    );
}

// L-23, T-28
#[test]
fn two_commands() {
    assert_course(
        "two commands",
        r#"
        @1000 start
        @2000 open 0
        @3000 0 > do mf:go  [ 1 , 2 ] \n
        0 DC 1 [1,2]
        0 < done mf:go [null,{"t":3.000}]
        @4000 0 > do t1:stop\n
        0 DC 0
        0 < done t1:stop [null,{"t":4.000}]
        "#,
    );
}

// L-2
#[test]
fn lines_of_1024_bytes() {
    // `ping`, a space and 1,019 bytes more; the return is one of them.
    assert_course(
        "lines of 1,024 bytes",
        r#"
        @1000 start
        @2000 open 0
        @3000 0 > ping x*1019\n
        0 < pong x*1019 [null,{"t":3.000}]
        @4000 0 > ping x*1018\r\n
        0 < pong x*1018 [null,{"t":4.000}]
        "#,
    );
}

// L-2
#[test]
fn lines_of_1025_bytes() {
    assert_course(
        "lines of 1,025 bytes",
        r#"
        @1000 start
        @2000 open 0
        @3000 0 > ping x*1020\n
        0 < error_  ["ProtocolError","malformed or unknown request",{}]
        @4000 0 > ping x*1019\r\n
        0 < error_  ["ProtocolError","malformed or unknown request",{}]
        @5000 0 > ping\n
        0 < pong  [null,{"t":5.000}]
        "#,
    );
}

// L-7
#[test]
fn names_that_do_not_do() {
    assert_course(
        "names that do not do",
        r#"
        @1000 start
        @2000 open 0
        @3000 0 > activate 9x\n
        0 < error_activate 9x ["ProtocolError","malformed or unknown request",{}]
        @4000 0 > activate tx\n
        0 < error_activate tx ["NoSuchModule","no such module",{}]
        @5000 0 > deactivate :\n
        0 < error_deactivate : ["ProtocolError","malformed or unknown request",{}]
        @6000 0 > read t1\n
        0 < error_read t1 ["ProtocolError","malformed or unknown request",{}]
        @7000 0 > read t1:tx\n
        0 < error_read t1:tx ["NoSuchParameter","no such parameter",{}]
        @8000 0 > read t1:stop\n
        0 < error_read t1:stop ["NoSuchParameter","no such parameter",{}]
        @9000 0 > do t1:p\n
        0 < error_do t1:p ["NoSuchCommand","no such command",{}]
        "#,
    );
}

// L-8
#[test]
fn refused_changes() {
    assert_course(
        "refused changes",
        r#"
        @1000 start
        @2000 open 0
        @3000 0 > change t1:v }\n
        0 < error_change t1:v ["ReadOnly","parameter is read only",{}]
        @4000 0 > change t1:p 01\n
        0 < error_change t1:p ["BadJSON","data is not JSON",{}]
        @5000 0 > change t1:p true\n
        0 < error_change t1:p ["WrongType","value has the wrong type",{}]
        @6000 0 > change t1:p 10\n
        0 < error_change t1:p ["RangeError","value is out of range",{}]
        @7000 0 > read t1:p\n
        0 < reply t1:p [3,{"t":1.000}]
        "#,
    );
}

// V-16
#[test]
fn members_of_a_struct() {
    assert_course(
        "members of a struct",
        r#"
        @1000 start
        @2000 open 0
        @3000 0 > change t1:s {"b":2,"a":false}\n
        0 DR 0 {"b":2,"a":false}
        0 < changed t1:s [{"b":2,"a":false},{"t":3.000}]
        @4000 0 > change t1:s {"a":true,"a":true}\n
        0 < error_change t1:s ["WrongType","value has the wrong type",{}]
        @5000 0 > change t1:s {"a":true,"b":1,"b":1}\n
        0 < error_change t1:s ["WrongType","value has the wrong type",{}]
        @6000 0 > change t1:s {"a":true,"b":1,"c":1}\n
        0 < error_change t1:s ["WrongType","value has the wrong type",{}]
        @7000 0 > change t1:s {"a":true}\n
        0 < error_change t1:s ["WrongType","value has the wrong type",{}]
        @8000 0 > read t1:s\n
        0 < reply t1:s [{"b":2,"a":false},{"t":3.000}]
        "#,
    );
}

// V-14, V-15
#[test]
fn counts_of_tuples_and_arrays() {
    assert_course(
        "counts of tuples and arrays",
        r#"
        @1000 start
        @2000 open 0
        @3000 0 > change t1:u [true]\n
        0 < error_change t1:u ["WrongType","value has the wrong type",{}]
        @4000 0 > change t1:u [true,1,2]\n
        0 < error_change t1:u ["WrongType","value has the wrong type",{}]
        @5000 0 > change t1:l [true,true,1]\n
        0 < error_change t1:l ["WrongType","value has the wrong type",{}]
        @6000 0 > change t1:l [true,true,true]\n
        0 < error_change t1:l ["RangeError","value is out of range",{}]
        @7000 0 > change t1:l [ true , false ]\n
        0 DR 1 [true,false]
        0 < changed t1:l [[true,false],{"t":7.000}]
        "#,
    );
}

// V-12
#[test]
fn characters_of_a_string() {
    assert_course(
        "characters of a string",
        r#"
        @1000 start
        @2000 open 0
        @3000 0 > change t1:l "\n\u0041"\n
        0 DR 0 "\n\u0041"
        0 < changed t1:l ["\n\u0041",{"t":3.000}]
        @4000 0 > change t1:l "\n\n\n"\n
        0 < error_change t1:l ["RangeError","value is out of range",{}]
        @5000 0 > change t1:l "\u0080"\n
        0 < error_change t1:l ["RangeError","value is out of range",{}]
        @6000 0 > change t1:l "\u007F"\n
        0 DR 0 "\u007F"
        0 < changed t1:l ["\u007F",{"t":6.000}]
        "#,
    );
}

// V-22
#[test]
fn stored_forms_of_256_and_257_bytes() {
    // With its quotes a string of 254 characters has 256 bytes.
    assert_course(
        "stored forms of 256 and 257 bytes",
        r#"
        @1000 start
        @2000 open 0
        @3000 0 > change t1:l  "x*254" \n
        0 DR 0 "x*254"
        0 < changed t1:l ["x*254",{"t":3.000}]
        @4000 0 > change t1:l  "x*255" \n
        0 < error_change t1:l ["RangeError","value is out of range",{}]
        @5000 0 > read t1:l\n
        0 < reply t1:l ["x*254",{"t":3.000}]
        "#,
    );
}

// V-6
#[test]
fn tokens_and_powers() {
    // With 0 and the dot 30 zeros make 32 bytes.
    assert_course(
        "tokens and powers",
        r#"
        @1000 start
        @2000 open 0
        @3000 0 > change t1:d 0.0*30\n
        0 DR 0 0.0*30
        0 < changed t1:d [0.0*30,{"t":3.000}]
        @4000 0 > change t1:d 0.0*31\n
        0 < error_change t1:d ["RangeError","value is out of range",{}]
        @5000 0 > change t1:d 0e99\n
        0 DR 0 0e99
        0 < changed t1:d [0e99,{"t":5.000}]
        @6000 0 > change t1:d 0e100\n
        0 < error_change t1:d ["RangeError","value is out of range",{}]
        @7000 0 > change t1:d 1e-99\n
        0 DR 0 1e-99
        0 < changed t1:d [1e-99,{"t":7.000}]
        @8000 0 > change t1:d 1e-100\n
        0 < error_change t1:d ["RangeError","value is out of range",{}]
        "#,
    );
}

// V-9, V-10
#[test]
fn minus_zero_and_enum_members() {
    assert_course(
        "minus zero and enum members",
        r#"
        @1000 start
        @2000 open 0
        @3000 0 > change t1:p -0\n
        0 DR 0 -0
        0 < changed t1:p [-0,{"t":3.000}]
        @4000 0 > change t1:m -0\n
        0 DR 1 -0
        0 < changed t1:m [-0,{"t":4.000}]
        @5000 0 > change t1:m 2\n
        0 < error_change t1:m ["RangeError","value is out of range",{}]
        @6000 0 > read t1:m\n
        0 < reply t1:m [-0,{"t":4.000}]
        "#,
    );
}

// V-11
#[test]
fn enum_members_by_name() {
    assert_course(
        "enum members by name",
        r#"
        @1000 start
        @2000 open 0
        @3000 0 > activate\n
        0 * update t1:m [0,{"t":1.000}]
        0 < active
        @4000 0 > change t1:m "on"\n
        0 DR 0 -10
        0 * update t1:m [-10,{"t":4.000}]
        0 < changed t1:m [-10,{"t":4.000}]
        @5000 0 > change t1:m "On"\n
        0 < error_change t1:m ["RangeError","value is out of range",{}]
        @6000 0 > change t1:m "\u006fn"\n
        0 < error_change t1:m ["RangeError","value is out of range",{}]
        @7000 0 > change t1:m true\n
        0 < error_change t1:m ["WrongType","value has the wrong type",{}]
        @8000 0 > do t1:go  "on" \n
        0 DC 0 -10
        0 < done t1:go [null,{"t":8.000}]
        @9000 reading 0 "off"
        0 * update t1:m [0,{"t":9.000}]
        @10000 reading 0 "" = 15
        @11000 0 > read t1:m\n
        0 < reply t1:m [0,{"t":9.000}]
        "#,
    );
}

// V-20
#[test]
fn enum_members_inside_others() {
    assert_course(
        "enum members inside others",
        r#"
        @1000 start
        @2000 open 0
        @3000 0 > change t1:s {"l":["on",1],"on":"on"}\n
        0 DR 0 {"l":[1,1],"on":"on"}
        0 < changed t1:s [{"l":[1,1],"on":"on"},{"t":3.000}]
        @4000 0 > change t1:s {"l":["on","no"],"on":"on"}\n
        0 < error_change t1:s ["RangeError","value is out of range",{}]
        @5000 0 > change t1:s {"l":["no"],"on":1}\n
        0 < error_change t1:s ["WrongType","value has the wrong type",{}]
        @6000 0 > read t1:s\n
        0 < reply t1:s [{"l":[1,1],"on":"on"},{"t":3.000}]
        "#,
    );
}

// V-22
#[test]
fn lengths_after_the_exchange() {
    let answers = history("lengths after the exchange").run().unwrap().answers;
    let replies: Vec<String> = answers[2..]
        .iter()
        .map(|answer| shown(&outbox::read(&answer.outbox).unwrap()).join("; "))
        .collect();
    let long = format!("[{}10]", "-2147483648,".repeat(21));
    let short = format!("[{}10]", "7,".repeat(126));
    assert_eq!((long.len(), short.len()), (256, 256));
    let refused = r#"0 < error_change t1:l ["RangeError","value is out of range",{}]"#;
    let changed =
        |value, time| format!("0 DR 0 {value}; 0 < changed t1:l [{value},{{\"t\":{time}.000}}]");
    assert_eq!(
        replies,
        [
            changed(&long, 3),
            refused.to_string(),
            changed(&short, 5),
            refused.to_string(),
            format!("0 < reply t1:l [{short},{{\"t\":5.000}}]"),
        ]
    );
}

// C-10
#[test]
fn refused_opens_and_closes() {
    assert_course(
        "refused opens and closes",
        r#"
        @1000 start
        @9999999999999 open 0
        @3000 open 1 values=16383 = 8
        @10000000000000 open 1 = 10
        @5000 open 8 = 11
        @6000 open 0 = 13
        @7000 close 0 values=16383 = 8
        @10000000000000 close 0 = 10
        @9000 close 8 = 11
        @10000 close 1 = 12
        @9999999999999 close 0
        "#,
    );
}

// C-10
#[test]
fn refused_pieces() {
    assert_course(
        "refused pieces",
        r#"
        @1000 start
        @2000 open 0
        @3000 0 > ping\n outbox=32767 = 7
        @4000 0 > ping\n values=16383 = 8
        @10000000000000 0 > ping\n = 10
        @6000 8 > ping\n = 11
        @7000 1 > ping\n = 12
        @9999999999999 0 > ping\n
        0 < pong  [null,{"t":9999999999.999}]
        "#,
    );
}

// C-10
#[test]
fn refused_readings() {
    assert_course(
        "refused readings",
        r#"
        @1000 start
        @2000 open 0
        @3000 0 > activate\n
        0 * update t1:p [3,{"t":1.000}]
        0 < active
        @4000 reading 0 4 outbox=32767 = 7
        @5000 reading 0 4 values=16383 = 8
        @10000000000000 reading 0 4 = 10
        @7000 reading 1 4 = 14
        @8000 reading 0 10 = 15
        @9000 reading 0  = 15
        @10000 0 > read t1:p\n
        0 < reply t1:p [3,{"t":1.000}]
        "#,
    );
}

// L-28
#[test]
fn a_broken_sensor() {
    assert_course(
        "a broken sensor",
        r#"
        @1000 start
        @2000 open 0
        @3000 open 2
        @4000 2 > activate t1\n
        2 * update t1:p [3,{"t":1.000}]
        2 * update t1:q [true,{"t":1.000}]
        2 < active t1
        @5000 unreadable 0 1
        2 * error_update t1:p ["HardwareError","HardwareError",{"t":5.000}]
        @6000 unreadable 2 2
        @7000 0 > read t1:p\n
        0 < error_read t1:p ["HardwareError","HardwareError",{"t":5.000}]
        @8000 0 > read mf:r:x\n
        0 < error_read mf:r:x ["CommunicationFailed","CommunicationFailed",{"t":6.000}]
        @9000 0 > activate\n
        0 * error_update t1:p ["HardwareError","HardwareError",{"t":5.000}]
        0 * update t1:q [true,{"t":1.000}]
        0 * error_update mf:r ["CommunicationFailed","CommunicationFailed",{"t":6.000}]
        0 < active
        @10000 unreadable 0 3
        0 * error_update t1:p ["ReadFailed","ReadFailed",{"t":10.000}]
        2 * error_update t1:p ["ReadFailed","ReadFailed",{"t":10.000}]
        "#,
    );
}

// L-28
#[test]
fn what_ends_an_error() {
    assert_course(
        "what ends an error",
        r#"
        @1000 start
        @2000 open 0
        @3000 unreadable 0 4
        @4000 reading 0 10 = 15
        @5000 0 > change t1:p true\n
        0 < error_change t1:p ["WrongType","value has the wrong type",{}]
        @6000 0 > read t1:p\n
        0 < error_read t1:p ["OutOfRange","OutOfRange",{"t":3.000}]
        @7000 reading 0 3
        @8000 0 > read t1:p\n
        0 < reply t1:p [3,{"t":7.000}]
        @9000 unreadable 0 4
        @10000 0 > activate\n
        0 * error_update t1:p ["OutOfRange","OutOfRange",{"t":9.000}]
        0 < active
        @11000 0 > change t1:p 3\n
        0 DR 0 3
        0 * update t1:p [3,{"t":11.000}]
        0 < changed t1:p [3,{"t":11.000}]
        "#,
    );
}

// C-10
#[test]
fn refused_reports_of_a_broken_sensor() {
    assert_course(
        "refused reports of a broken sensor",
        r#"
        @1000 start
        @2000 open 0
        @3000 0 > activate\n
        0 * update t1:p [3,{"t":1.000}]
        0 < active
        @4000 unreadable 0 1 outbox=32767 = 7
        @5000 unreadable 0 1 values=16383 = 8
        @10000000000000 unreadable 0 1 = 10
        @7000 unreadable 1 0 = 14
        @8000 unreadable 0 0 = 16
        @9000 unreadable 0 5 = 16
        @10000 unreadable 0 257 = 16
        @9999999999999 unreadable 0 4
        0 * error_update t1:p ["OutOfRange","OutOfRange",{"t":9999999999.999}]
        "#,
    );
}

// L-22
#[test]
fn busy_before_changed() {
    assert_course(
        "busy before changed",
        r#"
        @1000 start
        @2000 open 1
        @3000 open 4
        @4000 4 > activate t1\n
        4 * update t1:target [0,{"t":1.000}]
        4 * update t1:status [[100,""],{"t":1.000}]
        4 < active t1
        @5000 1 > change t1:target 5\n
        1 DR 0 5
        4 * update t1:status [[300,"target changed"],{"t":5.000}]
        4 * update t1:target [5,{"t":5.000}]
        1 < changed t1:target [5,{"t":5.000}]
        @6000 1 > activate t1\n
        1 * update t1:target [5,{"t":5.000}]
        1 * update t1:status [[300,"target changed"],{"t":5.000}]
        1 < active t1
        @7000 4 > change t1:target 5\n
        4 DR 0 5
        1 * update t1:status [[300,"target changed"],{"t":7.000}]
        4 * update t1:status [[300,"target changed"],{"t":7.000}]
        1 * update t1:target [5,{"t":7.000}]
        4 * update t1:target [5,{"t":7.000}]
        4 < changed t1:target [5,{"t":7.000}]
        @8000 4 > change t1:target 10\n
        4 < error_change t1:target ["RangeError","value is out of range",{}]
        @9000 reading 1 [100,"there"]
        1 * update t1:status [[100,"there"],{"t":9.000}]
        4 * update t1:status [[100,"there"],{"t":9.000}]
        @10000 reading 0 5
        1 * update t1:target [5,{"t":10.000}]
        4 * update t1:target [5,{"t":10.000}]
        @11000 1 > read t1:status\n
        1 < reply t1:status [[100,"there"],{"t":9.000}]
        "#,
    );
}

// L-22
#[test]
fn a_status_that_does_not_admit_busy() {
    assert_course(
        "a status that does not admit busy",
        r#"
        @1000 start
        @2000 open 0
        @3000 0 > activate\n
        0 * update a:target [0,{"t":1.000}]
        0 * update a:status [[100,""],{"t":1.000}]
        0 * update b:status [[100,""],{"t":1.000}]
        0 * update b:target [0,{"t":1.000}]
        0 * update c:target [0,{"t":1.000}]
        0 * update c:status [{"code":100,"text":""},{"t":1.000}]
        0 < active
        @4000 0 > change a:target 1\n
        0 DR 0 1
        0 * update a:target [1,{"t":4.000}]
        0 < changed a:target [1,{"t":4.000}]
        @5000 0 > change b:target 1\n
        0 DR 3 1
        0 * update b:target [1,{"t":5.000}]
        0 < changed b:target [1,{"t":5.000}]
        @6000 0 > change c:target 1\n
        0 DR 4 1
        0 * update c:target [1,{"t":6.000}]
        0 < changed c:target [1,{"t":6.000}]
        @7000 0 > read a:status\n
        0 < reply a:status [[100,""],{"t":1.000}]
        @8000 0 > read b:status\n
        0 < reply b:status [[100,""],{"t":1.000}]
        @9000 0 > read c:status\n
        0 < reply c:status [{"code":100,"text":""},{"t":1.000}]
        "#,
    );
}

// L-22
#[test]
fn what_nearly_admits_busy() {
    assert_course(
        "what nearly admits busy",
        r#"
        @1000 start
        @2000 open 0
        @3000 0 > activate\n
        0 * update a:target [0,{"t":1.000}]
        0 * update a:status [[300,"aaaaaaaaaaaaaa"],{"t":1.000}]
        0 * update b:target [0,{"t":1.000}]
        0 * update b:status [[0,""],{"t":1.000}]
        0 * update c:target [0,{"t":1.000}]
        0 * update c:status [[100,1],{"t":1.000}]
        0 < active
        @4000 0 > change a:target 1\n
        0 DR 0 1
        0 * update a:status [[300,"target changed"],{"t":4.000}]
        0 * update a:target [1,{"t":4.000}]
        0 < changed a:target [1,{"t":4.000}]
        @5000 0 > change b:target 1\n
        0 DR 2 1
        0 * update b:target [1,{"t":5.000}]
        0 < changed b:target [1,{"t":5.000}]
        @6000 0 > change c:target 1\n
        0 DR 4 1
        0 * update c:target [1,{"t":6.000}]
        0 < changed c:target [1,{"t":6.000}]
        @7000 0 > change a:status [300,"bbbbbbbbbbbbbb"]\n
        0 DR 1 [300,"bbbbbbbbbbbbbb"]
        0 * update a:status [[300,"bbbbbbbbbbbbbb"],{"t":7.000}]
        0 < changed a:status [[300,"bbbbbbbbbbbbbb"],{"t":7.000}]
        "#,
    );
}

// L-22
#[test]
fn no_target_and_no_status() {
    assert_course(
        "no target and no status",
        r#"
        @1000 start
        @2000 open 0
        @3000 0 > activate\n
        0 * update a:Target [0,{"t":1.000}]
        0 * update a:status [[100,""],{"t":1.000}]
        0 * update b:target [0,{"t":1.000}]
        0 * update b:Status [[100,""],{"t":1.000}]
        0 * update c:target [0,{"t":1.000}]
        0 * update d:target [0,{"t":1.000}]
        0 < active
        @4000 0 > change a:Target 1\n
        0 DR 0 1
        0 * update a:Target [1,{"t":4.000}]
        0 < changed a:Target [1,{"t":4.000}]
        @5000 0 > change b:target 1\n
        0 DR 2 1
        0 * update b:target [1,{"t":5.000}]
        0 < changed b:target [1,{"t":5.000}]
        @6000 0 > change c:target 1\n
        0 DR 4 1
        0 * update c:target [1,{"t":6.000}]
        0 < changed c:target [1,{"t":6.000}]
        @7000 0 > change d:target 1\n
        0 DR 5 1
        0 * update d:target [1,{"t":7.000}]
        0 < changed d:target [1,{"t":7.000}]
        @8000 0 > change a:status ["busy",""]\n
        0 DR 1 [300,""]
        0 * update a:status [[300,""],{"t":8.000}]
        0 < changed a:status [[300,""],{"t":8.000}]
        "#,
    );
}

// L-22
#[test]
fn errors_of_a_status() {
    assert_course(
        "errors of a status",
        r#"
        @1000 start
        @2000 open 0
        @3000 0 > activate\n
        0 * update a:target [0,{"t":1.000}]
        0 * update a:status [[100,""],{"t":1.000}]
        0 * update b:target [0,{"t":1.000}]
        0 * update b:status [[100,""],{"t":1.000}]
        0 < active
        @4000 unreadable 1 1
        0 * error_update a:status ["HardwareError","HardwareError",{"t":4.000}]
        @5000 unreadable 3 2
        0 * error_update b:status ["CommunicationFailed","CommunicationFailed",{"t":5.000}]
        @6000 0 > change a:target 1\n
        0 DR 0 1
        0 * update a:status [[300,"target changed"],{"t":6.000}]
        0 * update a:target [1,{"t":6.000}]
        0 < changed a:target [1,{"t":6.000}]
        @7000 0 > change b:target 1\n
        0 DR 2 1
        0 * update b:target [1,{"t":7.000}]
        0 < changed b:target [1,{"t":7.000}]
        @8000 0 > read a:status\n
        0 < reply a:status [[300,"target changed"],{"t":6.000}]
        @9000 0 > read b:status\n
        0 < error_read b:status ["CommunicationFailed","CommunicationFailed",{"t":5.000}]
        "#,
    );
}

// C-10
#[test]
fn the_lowest_of_several_numbers() {
    assert_course(
        "the lowest of several numbers",
        r#"
        @1000 start
        @2000 open 0
        @10000000000000 open 8 values=16383 = 8
        @10000000000000 open 0 = 10
        @5000 close 1 values=16383 = 8
        @6000 1 > ping\n values=16383 outbox=32767 = 7
        @10000000000000 8 > ping\n = 10
        @10000000000000 reading 1 4 outbox=32767 = 7
        @9000 reading 1  = 14
        "#,
    );
}

/// The places and the bytes looked at are worked out in `indexes`.
// I-5, I-6
#[test]
fn indexes_beside_the_table() {
    assert_course(
        "an index beside the table",
        r#"
        @1000 start
        index of 128 bytes
        @2000 open 0
        @3000 0 > read m:a76\n steps 2
        0 < reply m:a76 [3,{"t":1.000}]
        @4000 0 > do m:a237\n steps 2
        0 DC 0 
        0 < done m:a237 [null,{"t":4.000}]
        @5000 0 > check m:a19 5\n steps 1
        0 < checked m:a19 [5,{"t":5.000}]
        @6000 0 > read m:a282\n steps 7
        0 < error_read m:a282 ["NoSuchParameter","no such parameter",{}]
        @7000 0 > read m:a237\n steps 2
        0 < error_read m:a237 ["NoSuchParameter","no such parameter",{}]
        @8000 0 > read n:a19\n
        0 < error_read n:a19 ["NoSuchModule","no such module",{}]
        index of 129 bytes
        @9000 0 > change m:a76:x 4\n steps 2
        0 DR 1 4
        0 < changed m:a76 [4,{"t":9.000}]
        @10000 0 > activate m:a19\n
        0 * update m:a19 [0,{"t":1.000}]
        0 * update m:a76 [4,{"t":9.000}]
        0 < active m
        index of 0 bytes
        @11000 0 > read m:a76\n steps 3
        0 < reply m:a76 [4,{"t":9.000}]
        "#,
    );
    // A free byte and two accessibles; 128 bytes and three accessibles; the
    // other order's bytes are 1 at place 127, 0 and 2 after it; 200, the number
    // of another accessible and a free byte, then two accessibles.
    assert_course(
        "indexes that are no help",
        r#"
        @1000 start
        @2000 open 0
        index of 128 bytes
        @3000 0 > do m:a237\n steps 3
        0 DC 0 
        0 < done m:a237 [null,{"t":3.000}]
        index of 128 bytes
        @4000 0 > read m:a76\n steps 131
        0 < reply m:a76 [3,{"t":1.000}]
        index of 128 bytes
        @5000 0 > read m:a19\n steps 2
        0 < reply m:a19 [0,{"t":1.000}]
        @6000 0 > read m:a76\n steps 2
        0 < reply m:a76 [3,{"t":1.000}]
        @7000 0 > do m:a237\n steps 1
        0 DC 0 
        0 < done m:a237 [null,{"t":7.000}]
        index of 128 bytes
        @8000 0 > do m:a237\n steps 5
        0 DC 0 
        0 < done m:a237 [null,{"t":8.000}]
        @9000 0 > check m:a19 1\n
        0 < error_check m:a19 ["ProtocolError","malformed or unknown request",{}]
        "#,
    );
}

// I-8, C-10
#[test]
fn indexes_that_are_too_short() {
    assert_course(
        "indexes that are too short",
        r#"
        @1000 start
        index of 127 bytes
        @2000 open 0 = 18
        @3000 open 0 values=16383 = 8
        @10000000000000 open 8 = 18
        index of 128 bytes
        @5000 open 0
        index of 1 bytes
        @6000 0 > change t1:p 4\n = 18
        @7000 0 > change t1:p 4\n outbox=32767 = 7
        @8000 reading 0 4 = 18
        @9000 unreadable 0 5 = 18
        @10000 close 0 = 18
        index of 0 bytes
        @11000 0 > read t1:p\n steps 1
        0 < reply t1:p [3,{"t":1.000}]
        "#,
    );
}

// C-12
#[test]
fn refused_starts_over_a_good_table() {
    assert_course(
        "start too late",
        r#"
        @10000000000000 start = 10
        @2000 open 0
        @3000 0 > read t1:p\n
        0 < reply t1:p [3,{"t":0.000}]
        @4000 0 > change t1:p 4\n
        0 DR 0 4
        0 < changed t1:p [4,{"t":4.000}]
        "#,
    );
    assert_course(
        "start with a short values area",
        r#"
        @1000 start values=16383 = 8
        @2000 open 0
        @3000 0 > activate\n
        0 * update t1:p [3,{"t":0.000}]
        0 < active
        @4000 reading 0 4
        0 * update t1:p [4,{"t":4.000}]
        "#,
    );
}

// C-6
#[test]
fn pieces_of_two_clients() {
    assert_course(
        "pieces of two clients",
        r#"
        @1000 start
        @2000 open 0
        @3000 open 1
        @4000 0 > ping a\r
        @5000 1 > ping b\r\n
        1 < pong b [null,{"t":5.000}]
        @6000 0 > \n
        0 < pong a [null,{"t":6.000}]
        "#,
    );
}

// C-6
#[test]
fn several_lines_in_one_piece() {
    assert_course(
        "several lines in one piece",
        r#"
        @1000 start
        @2000 open 0
        @3000 0 > ping a\nping b\nping used 7
        0 < pong a [null,{"t":3.000}]
        @4000 0 > ping b\nping used 7
        0 < pong b [null,{"t":4.000}]
        @5000 0 > ping
        @6000 0 >  c\n
        0 < pong c [null,{"t":6.000}]
        "#,
    );
}

// C-2
#[test]
fn times_that_go_back() {
    assert_course(
        "times that go back",
        r#"
        @1000 start
        @2000 open 0
        @9000 reading 0 4
        @3000 reading 0 5
        @5000 0 > read t1:p\n
        0 < reply t1:p [5,{"t":3.000}]
        @2500 0 > change t1:p 6\n
        0 DR 0 6
        0 < changed t1:p [6,{"t":2.500}]
        @7000 0 > read t1:p\n
        0 < reply t1:p [6,{"t":2.500}]
        @5 0 > ping\n
        0 < pong  [null,{"t":0.005}]
        "#,
    );
}

// T-35
#[test]
fn notes_that_are_not_told() {
    assert_course(
        "notes that are not told",
        r#"
        @1000 start
        @2000 open 0
        @3000 0 > describe\n
        0 < describing . {"modules":{"t1":{"interface_classes":[],"description":"","accessibles":{"p":{"description":"","readonly":false,"datainfo":{"type":"int","min":0,"max":9}}}},"mf":{"interface_classes":[],"description":"","accessibles":{}}},"equipment_id":"s","description":""}
        @4000 0 > activate t1\n
        0 * update t1:p [3,{"t":1.000}]
        0 < active t1
        @5000 0 > change t1:p 4\n
        0 DR 0 4
        0 * update t1:p [4,{"t":5.000}]
        0 < changed t1:p [4,{"t":5.000}]
        "#,
    );
}

/// The course of a start and an open that both answer with the number.
fn assert_faulty(name: &str, table: &[&[u8]], number: u8) {
    assert_eq!(history(name).table, table.concat(), "{name}");
    let course = course(&history(name));
    assert_eq!(
        course,
        [
            format!("@1000 start = {number}"),
            format!("@2000 open 0 = {number}")
        ],
        "{name}"
    );
}

// T-37
#[test]
fn tables_with_one_fault() {
    let (front, end) = (b"ND\x01s\x00", b"EN");
    let module = b"MO\x02t1\x00";
    assert_faulty("bytes after the table's end", &[front, module, end, end], 1);
    assert_faulty("no module", &[front, end], 2);
    assert_faulty("bad name", &[front, b"MO\x029x\x00", end], 3);
    let edition: &[u8] = b"ED\x0bISSE,SECoP,";
    assert_faulty("edition after a module", &[front, module, edition, end], 1);
    assert_faulty("two editions", &[front, edition, edition, module, end], 1);
    let other = [b"ED\x24", &b"ISSE&SINE2020,SECoP,V2019-09-16,v1.0"[..]].concat();
    assert_faulty(
        "edition that begins otherwise",
        &[front, &other, module, end],
        3,
    );
    assert_faulty(
        "edition with a bad byte",
        &[front, b"ED\x0cISSE,SECoP,\"", module, end],
        3,
    );
    let swapped = [&[0; 7][..], &[1], &[0; 8]].concat();
    let command = b"CM\x01c\x00\x01\x02";
    assert_faulty(
        "limits swapped",
        &[front, module, command, &swapped, end],
        4,
    );
    let scaled = [&[9][..], &[0; 24], &[1]].concat();
    assert_faulty(
        "scale 0",
        &[front, module, b"CM\x01c\x00\x01", &scaled, end],
        4,
    );
    let digit = [&[2][..], &[0; 15], &[9]].concat();
    let parameter = b"PA\x01p\x00\x00";
    assert_faulty(
        "unfit initial value",
        &[front, module, parameter, &digit, b"\x00\x023 ", end],
        5,
    );
}

// T-37
#[test]
fn tables_with_two_faults() {
    let (front, end) = (b"ND\x01s\x00", b"EN");
    let module = b"MO\x02t1\x00";
    assert_faulty(
        "bad flag after a bad name",
        &[front, b"MO\x029x\x00", b"CM\x01c\x00\x02", end],
        1,
    );
    assert_faulty("no module and a bad text", &[b"ND\x01s\x01\"", end], 2);
    let argument = b"\x04\x02\x01a\x00\x00\x00\x00\x01A\x00\x00\x00\x00";
    assert_faulty(
        "enum with all twice",
        &[front, module, b"CM\x01c\x00\x01", argument, end],
        3,
    );
    let parameter = b"PA\x01p\x00\x00\x05\x00\x01\x00\x00\x00\x012";
    assert_faulty(
        "limits and initial value",
        &[front, module, parameter, end],
        4,
    );
}

// C-10
#[test]
fn a_table_counts_before_what_a_call_is_lent() {
    assert_course(
        "unfit initial value and short start",
        "
        @1000 start values=16383 = 5
        @2000 open 0 = 5
        ",
    );
}

// V-9
#[test]
fn whole_numbers_of_a_scaled() {
    assert_course(
        "whole numbers of a scaled",
        r#"
        @1000 start
        @2000 open 0
        @3000 0 > change t1:s -5\n
        0 DR 0 -5
        0 < changed t1:s [-5,{"t":3.000}]
        @4000 0 > change t1:s 9223372036854775807\n
        0 DR 0 9223372036854775807
        0 < changed t1:s [9223372036854775807,{"t":4.000}]
        @5000 0 > change t1:s -6\n
        0 < error_change t1:s ["RangeError","value is out of range",{}]
        @6000 0 > change t1:s 9223372036854775808\n
        0 < error_change t1:s ["RangeError","value is out of range",{}]
        @7000 0 > change t1:s 1.0\n
        0 < error_change t1:s ["WrongType","value has the wrong type",{}]
        @8000 0 > change t1:s 1e0\n
        0 < error_change t1:s ["WrongType","value has the wrong type",{}]
        @9000 0 > change t1:s "1"\n
        0 < error_change t1:s ["WrongType","value has the wrong type",{}]
        @10000 0 > read t1:s\n
        0 < reply t1:s [9223372036854775807,{"t":4.000}]
        "#,
    );
}

// V-13
#[test]
fn sizes_of_a_blob() {
    assert_course(
        "sizes of a blob",
        r#"
        @1000 start
        @2000 open 0
        @3000 0 > change t1:b "Zg=="\n
        0 DR 0 "Zg=="
        0 < changed t1:b ["Zg==",{"t":3.000}]
        @4000 0 > change t1:b "Zm9vYg=="\n
        0 DR 0 "Zm9vYg=="
        0 < changed t1:b ["Zm9vYg==",{"t":4.000}]
        @5000 0 > change t1:b "Zm9vYmE="\n
        0 < error_change t1:b ["RangeError","value is out of range",{}]
        @6000 0 > change t1:b ""\n
        0 < error_change t1:b ["RangeError","value is out of range",{}]
        @7000 0 > change t1:b "Zh=="\n
        0 < error_change t1:b ["WrongType","value has the wrong type",{}]
        @8000 0 > change t1:b "Zg"\n
        0 < error_change t1:b ["WrongType","value has the wrong type",{}]
        @9000 0 > change t1:b "\u005Ag=="\n
        0 < error_change t1:b ["WrongType","value has the wrong type",{}]
        @10000 0 > change t1:b 1\n
        0 < error_change t1:b ["WrongType","value has the wrong type",{}]
        @11000 0 > read t1:b\n
        0 < reply t1:b ["Zm9vYg==",{"t":4.000}]
        "#,
    );
}

// T-14
#[test]
fn scaled_and_blobs_inside() {
    assert_course(
        "scaled and blobs inside",
        r#"
        @1000 start
        @2000 open 0
        @3000 0 > describe\n
        0 < describing . {"modules":{"t1":{"interface_classes":[],"description":"","accessibles":{"go":{"description":"","datainfo":{"type":"command","argument":{"type":"struct","members":{"s":{"type":"scaled","scale":1e2,"min":0,"max":9},"b":{"type":"array","minlen":1,"maxlen":2,"members":{"type":"blob","minbytes":0,"maxbytes":2}}}}}}}}},"equipment_id":"s","description":""}
        @4000 0 > do t1:go {"b":["","Zm8="],"s":9}\n
        0 DC 0 {"b":["","Zm8="],"s":9}
        0 < done t1:go [null,{"t":4.000}]
        @5000 0 > do t1:go {"s":10,"b":["Zm9="]}\n
        0 < error_do t1:go ["WrongType","value has the wrong type",{}]
        @6000 0 > do t1:go {"s":9,"b":["Zm9v"]}\n
        0 < error_do t1:go ["RangeError","value is out of range",{}]
        "#,
    );
}

// L-15, L-24
#[test]
fn the_next_edition() {
    assert_course(
        "the next edition",
        r#"
        @1000 start
        @2000 open 0
        @3000 0 > *IDN?\n
        0 < ISSE,SECoP,V2021-02-17,v2.0
        @4000 0 > *IDN? x\n
        0 < ISSE,SECoP,V2021-02-17,v2.0
        @5000 0 > check t1:p 4\n
        0 < checked t1:p [4,{"t":5.000}]
        @6000 0 > describe\n
        0 < describing . {"modules":{"t1":{"interface_classes":[],"description":"","accessibles":{"p":{"description":"","readonly":false,"datainfo":{"type":"int","min":0,"max":9}}}}},"equipment_id":"s","description":""}
        @7000 0 > checks t1:p 4\n
        0 < error_checks t1:p ["ProtocolError","malformed or unknown request",{}]
        @8000 0 > Check t1:p 4\n
        0 < error_Check t1:p ["ProtocolError","malformed or unknown request",{}]
        "#,
    );
}

// L-24
#[test]
fn refused_checks() {
    assert_course(
        "refused checks",
        r#"
        @1000 start
        @2000 open 0
        @3000 0 > check\n
        0 < error_check  ["ProtocolError","malformed or unknown request",{}]
        @4000 0 > check t1 4\n
        0 < error_check t1 ["ProtocolError","malformed or unknown request",{}]
        @5000 0 > check t1:9 4\n
        0 < error_check t1:9 ["ProtocolError","malformed or unknown request",{}]
        @6000 0 > check tx:p 4\n
        0 < error_check tx:p ["NoSuchModule","no such module",{}]
        @7000 0 > check t1:stop\n
        0 < error_check t1:stop ["NoSuchParameter","no such parameter",{}]
        @8000 0 > check t1:value {\n
        0 < error_check t1:value ["ReadOnly","parameter is read only",{}]
        @9000 0 > check t1:p {\n
        0 < error_check t1:p ["BadJSON","data is not JSON",{}]
        @10000 0 > check t1:p\n
        0 < error_check t1:p ["WrongType","value has the wrong type",{}]
        @11000 0 > check t1:p:x 10\n
        0 < error_check t1:p:x ["RangeError","value is out of range",{}]
        "#,
    );
}

// L-24
#[test]
fn checks_of_stored_forms() {
    assert_course(
        "checks of stored forms",
        r#"
        @1000 start
        @2000 open 0
        @3000 0 > check t1:pair:x  [ "on" , 7 ] \n
        0 < checked t1:pair [[1,7],{"t":3.000}]
        @4000 0 > check t1:pair ["On",7]\n
        0 < error_check t1:pair ["RangeError","value is out of range",{}]
        @5000 0 > read t1:pair\n
        0 < reply t1:pair [[0,1],{"t":1.000}]
        "#,
    );
}

// L-24
#[test]
fn checks_that_store_nothing() {
    assert_course(
        "checks that store nothing",
        r#"
        @1000 start
        @2000 open 0
        @3000 open 1
        @4000 1 > activate\n
        1 * update t1:p [3,{"t":1.000}]
        1 < active
        @5000 0 > check t1:p 4\n
        0 < checked t1:p [4,{"t":5.000}]
        @6000 0 > read t1:p\n
        0 < reply t1:p [3,{"t":1.000}]
        @7000 unreadable 0 2
        1 * error_update t1:p ["CommunicationFailed","CommunicationFailed",{"t":7.000}]
        @8000 1 > check t1:p 5\n
        1 < checked t1:p [5,{"t":8.000}]
        @9000 0 > read t1:p\n
        0 < error_read t1:p ["CommunicationFailed","CommunicationFailed",{"t":7.000}]
        "#,
    );
}

// L-24, L-26
#[test]
fn checks_without_the_record() {
    assert_course(
        "checks without the record",
        r#"
        @1000 start
        @2000 open 0
        @3000 0 > *IDN?\n
        0 < ISSE&SINE2020,SECoP,V2019-09-16,v1.0
        @4000 0 > check t1:p 4\n
        0 < error_check t1:p ["ProtocolError","malformed or unknown request",{}]
        @5000 0 > check tx:p {\n
        0 < error_check tx:p ["ProtocolError","malformed or unknown request",{}]
        @6000 0 > check\n
        0 < error_check  ["ProtocolError","malformed or unknown request",{}]
        "#,
    );
}
