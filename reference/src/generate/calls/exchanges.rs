//! The examples of document 01 that are about calls, the exchanges of SECoP
//! 1.0 that it keeps, and the structure report.

use super::course::Course;
use crate::datainfo::Datainfo;
use crate::generate::encode;
use crate::generate::parts::{
    array, command, digit, double, enumeration, module, parameter, readonly, string, structure,
    table,
};
use crate::history::Call;
use crate::node::MIN_VALUES;
use crate::operation::Poke;
use crate::outbox::MIN_OUTBOX;
use crate::table::{Accessible, Module, Table};

pub(super) fn all(course: &mut Course) {
    examples(course);
    outbox(course);
    reports(course);
    secop(course);
    actions(course);
    errors(course);
    broken_sensors(course);
    editions(course);
    counts(course);
    full_counts(course);
}

fn kelvin() -> Datainfo {
    double((0, 0), (300, 0))
}

/// Modules `t1`, `idle` and `mf`, with parameters and commands of most kinds.
fn lab() -> Vec<u8> {
    encode::table(&lab_table())
}

fn lab_table() -> Table {
    let status = Datainfo::Tuple(vec![Datainfo::Int { min: 0, max: 999 }, string(0, 40)]);
    let modes = enumeration(&[("off", 0), ("on", 1)]);
    table(vec![
        module(
            "t1",
            vec![
                readonly("value", kelvin(), "295.13"),
                parameter("target", kelvin(), "0"),
                readonly("status", status.clone(), "[100,\"OK\"]"),
                command("stop", None),
            ],
        ),
        module("idle", Vec::new()),
        module(
            "mf",
            vec![
                parameter("target", Datainfo::Int { min: -10, max: 12 }, "-0"),
                readonly("status", status, "[100,\"OK\"]"),
                parameter("mode", modes, "1"),
                command("go", Some(digit())),
                parameter("label", string(0, 1_000), "\"\""),
                command("stop", None),
            ],
        ),
    ])
}

/// E9 to E12.
fn examples(course: &mut Course) {
    course.started("E9 to E12", &lab());
    course.open(0);
    course.line(0, "activate t1:x");
    course.piece_at(0, 5, "ping\n");
    course.line(0, "");
    course.piece(0, "ping x\r");
    course.piece(0, "\nping");
    course.piece(0, "");
    course.show();
}

fn outbox(course: &mut Course) {
    let accessibles = vec![
        readonly("value", kelvin(), "0"),
        parameter("target", kelvin(), "0"),
    ];
    let bytes = encode::table(&table(vec![module("t1", accessibles)]));
    course.started("the outbox example", &bytes);
    for client in [2, 3, 5] {
        course.open(client);
    }
    course.line(5, "activate t1");
    course.line(2, "activate t1");
    course.piece_at(2, 1_500, "change t1:target 12\n");
    course.show();
}

fn described(description: &str, accessible: Accessible) -> Accessible {
    Accessible {
        description: description.as_bytes().to_vec(),
        ..accessible
    }
}

/// The table of the whole report in document 01.
fn report_table() -> Table {
    let modes = enumeration(&[("off", 0), ("on", 1)]);
    let stage = Module {
        description: b"stage".to_vec(),
        ..module(
            "t1",
            vec![
                described("reading", readonly("value", kelvin(), "0")),
                described("heater", parameter("mode", modes, "0")),
                described("stop", command("stop", None)),
            ],
        )
    };
    Table {
        equipment_id: b"demo".to_vec(),
        description: b"one stage".to_vec(),
        edition: None,
        modules: vec![stage],
    }
}

fn reports(course: &mut Course) {
    let mut whole = report_table();
    course.started("the whole report", &encode::table(&whole));
    course.open(0);
    course.lines(0, &["describe", "describe .", "describe x {"]);
    whole.modules[0].note = Some(b"a note".to_vec());
    whole.modules.push(module("t2", Vec::new()));
    whole.modules[1].note = Some(Vec::new());
    course.started("a report that leaves notes out", &encode::table(&whole));
    course.open(0);
    course.line(0, "describe");
    let keys = encode::table(&table(vec![module("m", of_each_type())]));
    course.started("the keys of each type", &keys);
    course.open(7);
    course.line(7, "describe");
    course.line(7, "activate");
}

fn of_each_type() -> Vec<Accessible> {
    let int = |min, max| Datainfo::Int { min, max };
    let pair = Datainfo::Tuple(vec![Datainfo::Bool, array(1, 2, string(0, 3))]);
    let nested = structure(&[("a", pair.clone()), ("B", int(i64::MIN, i64::MAX))]);
    vec![
        parameter("d", double((250, -2), (0, 5)), "2.5"),
        parameter("e", double((i64::MIN, 30), (-1, -30)), "-1"),
        parameter("i", int(-1, 0), "-1"),
        parameter("b", Datainfo::Bool, "true"),
        parameter("n", enumeration(&[("low", i32::MIN), ("_x", 7)]), "7"),
        parameter("s", string(1, 65_535), "\"\\u0041\""),
        parameter("a", array(0, 0, Datainfo::Bool), "[]"),
        parameter("t", pair, "[true,[\"x\"]]"),
        parameter(
            "c",
            nested.clone(),
            "{\"B\":0,\"a\":[false,[\"\",\"abc\"]]}",
        ),
        command("go", Some(nested)),
        command("stop", None),
    ]
}

/// The exchanges of SECoP 1.0, over a table that has what they speak of.
fn secop(course: &mut Course) {
    course.started("exchanges of SECoP 1.0", &lab());
    course.open(0);
    let time = 1_505_396_348_188;
    for (later, line) in (0..).zip([
        "*IDN?",
        "describe",
        "activate",
        "read mf:status",
        "change mf:target 12",
        "read t1:value",
        "read t1:status",
        "do t1:stop",
        "do t1:stop null",
        "read tx:target",
        "change t1:nosuch 12",
        "change t1:target -9",
        "meas:volt?",
        "ping 123",
        "deactivate",
        "logging  \"error\"",
    ]) {
        course.piece_at(0, time + later, format!("{line}\n"));
    }
    course.reading(0, "295.14");
    course.line(0, "activate t1");
    course.reading(0, "295.13");
    course.reading(2, "[400, \"heater broken or disconnected\"]");
    course.show();
}

/// What each action takes and ignores.
fn actions(course: &mut Course) {
    course.started("actions", &lab());
    course.open(3);
    course.open(6);
    course.line(6, "activate mf");
    course.lines(
        3,
        &[
            "*IDN? x y z",
            "*IDN?\r",
            "*IDN",
            "*idn?",
            "ping",
            "ping ",
            "ping  1",
            "ping a b",
            "ping a:b:c {",
            "activate ",
            "activate  x",
            "activate idle",
            "activate mf:!! ?",
            "deactivate t1:x",
            "deactivate",
            "deactivate t1",
            "deactivate  x",
            "activate t1",
            "activate t1",
            "deactivate mf",
            "activate idle",
            "read t1:value:x y",
            "read t1:value:",
            "change mf:target  5  ",
            "change mf:label \" a  b \"",
            "change mf:label \"\\u0041\\n\"",
            "change mf:mode 0",
            "change mf:mode \"on\"",
            "read mf:mode",
            "change mf:mode  \"off\" ",
            "change mf:target:x:y -10",
            "do mf:go 3",
            "do mf:go  9 ",
            "do mf:stop  null ",
            "do mf:stop:x",
            "do mf:stop  ",
        ],
    );
    course.show();
    course.close(6);
    course.line(3, "change t1:target 3e2");
    course.show();
}

/// Errors of each class in their order.
fn errors(course: &mut Course) {
    course.started("errors", &lab());
    course.open(1);
    course.lines(
        1,
        &[
            " ",
            "  x",
            " ping",
            "\r",
            "\r\r",
            "x\r\r",
            "ping\t1",
            "ping \u{7f}",
            "ping \u{80}",
            "a\0",
            "Ping",
            "x y z",
            "error_ x",
            "activate :",
            "activate 9",
            "activate tx",
            "activate T1",
            "deactivate :x",
            "deactivate nosuch:x",
            "read",
            "read t1",
            "read t1:",
            "read :value",
            "read t1::value",
            "read  t1:value",
            "read nosuch:9",
            "read nosuch:value",
            "read t1:nosuch",
            "read t1:stop",
            "read mf:value",
            "change t1:value }",
            "change t1:nosuch }",
            "change nosuch:value }",
            "change 1:value 1",
            "change t1:target",
            "change t1:target  ",
            "change t1:target 01",
            "change t1:target [",
            "change t1:target \"1\"",
            "change t1:target 300.0000000000000000001",
            "change t1:target -1e-99",
            "change t1:target 0e100",
            "change mf:target 1.0",
            "change mf:mode \"On\"",
            "change mf:mode \"\\u006fn\"",
            "change mf:mode \"1\"",
            "change mf:mode [\"on\"]",
            "change mf:mode true",
            "change mf:mode 2",
            "do t1:value",
            "do t1:nosuch",
            "do tx:stop",
            "do t1:stop 1",
            "do t1:stop x",
            "do t1:stop nul",
            "do t1:stop [null]",
            "do t1:stop {}",
            "do t1:stop true",
            "do t1:stop \"null\"",
            "do t1:stop nullx",
            "do mf:go",
            "do mf:go null",
            "do mf:go 10",
            "do mf:go 1.0",
            "do mf:go x",
            "do mf",
        ],
    );
    course.line(1, &format!("activate {}", "n".repeat(63)));
    course.line(1, &format!("activate {}", "n".repeat(64)));
    course.line(1, &format!("change mf:label \"{}\"", "x".repeat(254)));
    course.line(1, &format!("change mf:label  \"{}\" ", "x".repeat(255)));
    course.line(1, "read mf:label");
    course.show();
}

/// A thermometer falls off and comes back: each class, who is told, and what
/// ends an error.
fn broken_sensors(course: &mut Course) {
    course.started("broken sensors", &lab());
    for client in [0, 3, 5] {
        course.open(client);
    }
    course.line(3, "activate t1");
    course.line(5, "activate");
    course.reading(0, "4.2");
    for class in 1..=4 {
        course.unreadable(0, class);
        course.lines(0, &["read t1:value", "read t1:value:x y"]);
    }
    course.unreadable(0, 4);
    course.show();
    course.lines(0, &["activate mf", "activate t1:value", "deactivate"]);
    course.line(0, "change t1:value 4");
    course.reading(0, "warm");
    course.reading(0, "4.2");
    course.line(0, "read t1:value");
    // A change ends an error as a reading does; a refused one doesn't.
    course.unreadable(3, 2);
    course.lines(
        0,
        &[
            "change mf:target 99",
            "read mf:target",
            "change mf:target 5",
        ],
    );
    course.line(0, "read mf:target");
    // Of a parameter that was never set, and with a time that goes back.
    course.call(Call::Unreadable {
        parameter: 5,
        values_len: MIN_VALUES,
        outbox_len: MIN_OUTBOX,
        time: 0,
        class: 1,
    });
    course.lines(0, &["read mf:mode", "describe", "activate"]);
    course.close(3);
    course.open(3);
    course.unreadable(0, 3);
    course.show();
    course.start();
    course.open(0);
    course.lines(0, &["read t1:value", "activate"]);
    course.show();
}

/// The same lines over the table with an `ED` record, and without.
fn editions(course: &mut Course) {
    let longest = format!("ISSE,SECoP,{}", "x".repeat(244));
    let texts = ["ISSE,SECoP,V2021-02-17,v2.0", "ISSE,SECoP,", &longest];
    for text in texts {
        let mut table = lab_table();
        table.edition = Some(text.as_bytes().to_vec());
        course.started("the next edition", &encode::table(&table));
        checks(course);
    }
    course.started("the edition of before", &lab());
    checks(course);
}

fn checks(course: &mut Course) {
    for client in [0, 4] {
        course.open(client);
    }
    course.line(4, "activate");
    course.lines(0, &["*IDN?", "*IDN? x y", "describe"]);
    course.lines(
        0,
        &[
            "check mf:target 12",
            "check mf:target:x  -3 ",
            "check mf:mode \"on\"",
            "check t1:target 3e2",
            "change mf:target 13",
            "check mf:target 13",
            "check mf:target 1.5",
            "check mf:target {",
            "check mf:target",
            "check mf:label \"a\\u0020b\"",
            "check t1:value {",
            "check t1:stop",
            "check t1:x 1",
            "check tx:x 1",
            "check t1 1",
            "check 1:2",
            "check",
            "Check mf:target 1",
        ],
    );
    // Too long for a stored form, by one byte, and just not.
    for length in [253, 254, 255] {
        let text = "y".repeat(length);
        course.line(0, &format!("check mf:label \"{text}\""));
    }
    course.unreadable(3, 2);
    course.lines(0, &["check mf:target 4", "read mf:target"]);
    course.show();
}

/// What is counted: each line feed, each error reply, each update.
fn counts(course: &mut Course) {
    course.started("counts", &lab());
    for client in [0, 3, 5] {
        course.open(client);
    }
    course.lines(3, &["_count", "activate t1", "_count x {", "_count"]);
    course.lines(5, &["activate", "activate idle", "_count"]);
    // Errors of every kind, and lines that only look like them.
    course.lines(
        0,
        &[
            "",
            "update x",
            "_counts",
            "_Count",
            "error_read",
            "ping error_",
        ],
    );
    course.piece(0, [&[b'x'; 1_025][..], b"\n_count"].concat());
    course.piece(0, "\n_count");
    course.piece(0, "\r");
    course.piece(0, "\n");
    course.unreadable(0, 1);
    course.lines(0, &["read t1:value", "read t1:target", "_count"]);
    course.reading(0, "4.2");
    course.line(0, "change t1:target 12");
    course.line(5, "change mf:target 99");
    course.lines(5, &["_count", "deactivate idle", "_count"]);
    course.show();
    // A refused open and a close keep them, an open begins anew.
    course.open(5);
    course.show();
    course.close(5);
    course.reading(0, "4.3");
    course.show();
    course.open(5);
    course.lines(5, &["_count", "deactivate", "_count"]);
    course.start();
    course.show();
}

/// A count stops at the greatest number; a closed client's counts are no
/// fault.
fn full_counts(course: &mut Course) {
    course.started("full counts", &lab());
    course.open(1);
    course.line(1, "activate t1");
    for count in [u32::MAX - 1, u32::MAX] {
        course.poke(Poke::Counts(1, count));
        course.poke(Poke::Counts(6, count));
        course.line(1, "_count");
        course.line(1, "");
        course.reading(0, "4");
        course.line(1, "_count");
        course.unreadable(0, 3);
        course.lines(1, &["read t1:value", "activate", "_count"]);
        course.show();
    }
    course.close(1);
    course.show();
    course.open(1);
    course.line(1, "_count");
}
