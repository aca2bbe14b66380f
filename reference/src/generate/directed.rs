//! Directed small histories: each shows one rule or a few that belong
//! together, over a small table and with a handful of calls, for an evaluator
//! that is slow. Nothing in them is random.

use super::encode;
use super::lending;
use super::parts::{
    array, blob, command, digit, double, enumeration, module, parameter, readonly, scaled, string,
    structure, table,
};
use super::script::Script;
use crate::datainfo::Datainfo;
use crate::history::History;
use crate::index::{FREE, INDEX};
use crate::node::{MAX_TIME, MIN_VALUES};
use crate::outbox::MIN_OUTBOX;
use crate::table::{Accessible, Table};

const LATE: u64 = MAX_TIME + 1;
const SHORT_VALUES: usize = MIN_VALUES - 1;
const SHORT_OUTBOX: usize = MIN_OUTBOX - 1;
const EDITION: &str = "ISSE,SECoP,V2021-02-17,v2.0";

/// A history with the name of what it shows.
#[derive(Clone, Debug, PartialEq)]
pub struct Scene {
    pub name: &'static str,
    pub history: History,
}

/// All scenes, those with faulty tables last.
pub fn all() -> Vec<Scene> {
    let scene = |(name, script): (_, Script)| Scene {
        name,
        history: script.history(),
    };
    let good = over_good_tables().into_iter();
    good.chain(over_faulty_tables()).map(scene).collect()
}

fn over_good_tables() -> Vec<(&'static str, Script)> {
    vec![
        ("one of two modules deactivated", deactivation()),
        ("closed and opened again", reopening()),
        ("two commands", commands()),
        ("lines of 1,024 bytes", longest_lines()),
        ("lines of 1,025 bytes", overlong_lines()),
        ("names that do not do", names()),
        ("refused changes", refused_changes()),
        ("members of a struct", struct_members()),
        ("counts of tuples and arrays", counts()),
        ("characters of a string", characters()),
        ("stored forms of 256 and 257 bytes", stored_forms()),
        ("tokens and powers", tokens_and_powers()),
        ("minus zero and enum members", whole_numbers()),
        ("enum members by name", members_by_name()),
        ("enum members inside others", members_inside()),
        ("lengths after the exchange", exchanged_lengths()),
        ("whole numbers of a scaled", scaled_numbers()),
        ("sizes of a blob", blob_sizes()),
        ("scaled and blobs inside", scaled_and_blobs_inside()),
        ("refused opens and closes", refused_opens_and_closes()),
        ("refused pieces", refused_pieces()),
        ("refused readings", refused_readings()),
        ("a broken sensor", broken_sensor()),
        ("what ends an error", ended_errors()),
        ("refused reports of a broken sensor", refused_reports()),
        ("busy before changed", busy_first()),
        ("a status that does not admit busy", unadmitted()),
        ("what nearly admits busy", nearly_admitted()),
        ("no target and no status", other_names()),
        ("errors of a status", broken_status()),
        ("who talks how much", who_talks()),
        ("counts of another open", counts_of_another_open()),
        ("the lowest of several numbers", lowest_numbers()),
        ("start too late", late_start()),
        ("start with a short values area", short_start()),
        ("pieces of two clients", mingled_pieces()),
        ("several lines in one piece", several_lines()),
        ("times that go back", earlier_times()),
        ("notes that are not told", notes()),
        ("the next edition", next_edition()),
        ("refused checks", refused_checks()),
        ("checks of stored forms", checked_forms()),
        ("checks that store nothing", idle_checks()),
        ("checks without the record", unknown_checks()),
        ("an index beside the table", index_beside()),
        ("indexes that are no help", useless_indexes()),
        ("indexes that are too short", short_indexes()),
    ]
}

fn one_module(accessibles: Vec<Accessible>) -> Table {
    table(vec![module("t1", accessibles)])
}

/// A history over a module `t1`, started.
fn started(accessibles: Vec<Accessible>) -> Script {
    Script::over(encode::table(&one_module(accessibles))).start()
}

/// The parameter `p`, an int from 0 to 9, with 3 as its initial value.
fn three() -> Accessible {
    parameter("p", digit(), "3")
}

/// The activation is one set of modules: what is left of it sends updates.
fn deactivation() -> Script {
    let modules = vec![
        module("t1", vec![parameter("p", Datainfo::Bool, "false")]),
        module("mf", vec![parameter("q", digit(), "0")]),
    ];
    Script::over(encode::table(&table(modules)))
        .start()
        .open(1)
        .open(2)
        .line(1, "activate")
        .line(1, "deactivate t1")
        .line(2, "change t1:p true")
        .line(2, "change mf:q 7")
}

/// A close forgets what was active, and an open begins with nothing active.
fn reopening() -> Script {
    started(vec![three()])
        .open(0)
        .line(0, "activate")
        .close(0)
        .reading(0, "4")
        .open(0)
        .reading(0, "5")
        .line(0, "read t1:p")
}

/// Commands are counted over commands alone. The order has the argument's
/// stored form, or nothing where none is declared.
fn commands() -> Script {
    let modules = vec![
        module("t1", vec![three(), command("stop", None)]),
        module("mf", vec![command("go", Some(array(0, 2, digit())))]),
    ];
    Script::over(encode::table(&table(modules)))
        .start()
        .open(0)
        .lines(&["do mf:go  [ 1 , 2 ] ", "do t1:stop"])
}

/// A ping of so many bytes, the return at its end included if it has one.
fn ping_of(length: usize, end: &str) -> String {
    let token = "x".repeat(length - "ping ".len() - end.len());
    format!("ping {token}{end}")
}

fn longest_lines() -> Script {
    started(Vec::new())
        .open(0)
        .line(0, &ping_of(1_024, ""))
        .line(0, &ping_of(1_024, "\r"))
}

/// The return counts, so a line of 1,024 bytes and a return is overlong.
fn overlong_lines() -> Script {
    started(Vec::new())
        .open(0)
        .line(0, &ping_of(1_025, ""))
        .line(0, &ping_of(1_025, "\r"))
        .line(0, "ping")
}

/// Bad names, names that nothing has, and accessibles of the other kind.
fn names() -> Script {
    started(vec![three(), command("stop", None)])
        .open(0)
        .lines(&[
            "activate 9x",
            "activate tx",
            "deactivate :",
            "read t1",
            "read t1:tx",
            "read t1:stop",
            "do t1:p",
        ])
}

/// ReadOnly comes before the data is looked at; a refused change stores
/// nothing.
fn refused_changes() -> Script {
    started(vec![readonly("v", Datainfo::Bool, "false"), three()])
        .open(0)
        .lines(&[
            "change t1:v }",
            "change t1:p 01",
            "change t1:p true",
            "change t1:p 10",
            "read t1:p",
        ])
}

/// Every member exactly once, in any order.
fn struct_members() -> Script {
    let members = structure(&[("a", Datainfo::Bool), ("b", digit())]);
    started(vec![parameter("s", members, r#"{"a":true,"b":1}"#)])
        .open(0)
        .lines(&[
            r#"change t1:s {"b":2,"a":false}"#,
            r#"change t1:s {"a":true,"a":true}"#,
            r#"change t1:s {"a":true,"b":1,"b":1}"#,
            r#"change t1:s {"a":true,"b":1,"c":1}"#,
            r#"change t1:s {"a":true}"#,
            "read t1:s",
        ])
}

/// A wrong count is a fault of type for a tuple, of range for an array, where
/// a wrong type past the limit wins.
fn counts() -> Script {
    let pair = Datainfo::Tuple(vec![Datainfo::Bool, digit()]);
    started(vec![
        parameter("u", pair, "[true,1]"),
        parameter("l", array(0, 2, Datainfo::Bool), "[]"),
    ])
    .open(0)
    .lines(&[
        "change t1:u [true]",
        "change t1:u [true,1,2]",
        "change t1:l [true,true,1]",
        "change t1:l [true,true,true]",
        "change t1:l [ true , false ]",
    ])
}

/// Two characters at most, each escape one; none above 007F.
fn characters() -> Script {
    started(vec![parameter("l", string(0, 2), r#""""#)])
        .open(0)
        .lines(&[
            r#"change t1:l "\n\u0041""#,
            r#"change t1:l "\n\n\n""#,
            r#"change t1:l "\u0080""#,
            r#"change t1:l "\u007F""#,
        ])
}

/// Spaces outside the string are not part of the stored form.
fn stored_forms() -> Script {
    let change = |characters| format!("change t1:l  \"{}\" ", "x".repeat(characters));
    started(vec![parameter("l", string(0, 300), r#""""#)])
        .open(0)
        .line(0, &change(254))
        .line(0, &change(255))
        .line(0, "read t1:l")
}

/// Tokens of 32 bytes and powers from -99 to 99 will do, zero or not.
fn tokens_and_powers() -> Script {
    let change_of_length = |length: usize| format!("change t1:d 0.{}", "0".repeat(length - 2));
    started(vec![parameter("d", double((0, 0), (1, 0)), "1")])
        .open(0)
        .line(0, &change_of_length(32))
        .line(0, &change_of_length(33))
        .lines(&[
            "change t1:d 0e99",
            "change t1:d 0e100",
            "change t1:d 1e-99",
            "change t1:d 1e-100",
        ])
}

/// The number -0 is 0 and is stored as sent.
fn whole_numbers() -> Script {
    let modes = enumeration(&[("off", 0), ("on", 1)]);
    started(vec![three(), parameter("m", modes, "1")])
        .open(0)
        .lines(&[
            "change t1:p -0",
            "change t1:m -0",
            "change t1:m 2",
            "read t1:m",
        ])
}

/// A scaled takes the tokens that an int takes.
fn scaled_numbers() -> Script {
    let lengths = scaled((25, -4), -5, i64::MAX);
    started(vec![parameter("s", lengths, "-0")])
        .open(0)
        .lines(&[
            "change t1:s -5",
            "change t1:s 9223372036854775807",
            "change t1:s -6",
            "change t1:s 9223372036854775808",
            "change t1:s 1.0",
            "change t1:s 1e0",
            r#"change t1:s "1""#,
            "read t1:s",
        ])
}

/// One to four bytes, padded, unused bits zero, no escapes.
fn blob_sizes() -> Script {
    started(vec![parameter("b", blob(1, 4), r#""AAAA""#)])
        .open(0)
        .lines(&[
            r#"change t1:b "Zg==""#,
            r#"change t1:b "Zm9vYg==""#,
            r#"change t1:b "Zm9vYmE=""#,
            r#"change t1:b """#,
            r#"change t1:b "Zh==""#,
            r#"change t1:b "Zg""#,
            r#"change t1:b "\u005Ag==""#,
            "change t1:b 1",
            "read t1:b",
        ])
}

/// Both in an argument, and in the report.
fn scaled_and_blobs_inside() -> Script {
    let pair = structure(&[("s", scaled((1, 2), 0, 9)), ("b", array(1, 2, blob(0, 2)))]);
    started(vec![command("go", Some(pair))]).open(0).lines(&[
        "describe",
        r#"do t1:go {"b":["","Zm8="],"s":9}"#,
        r#"do t1:go {"s":10,"b":["Zm9="]}"#,
        r#"do t1:go {"s":9,"b":["Zm9v"]}"#,
    ])
}

/// A name is exchanged for its member's number in changes, readings and
/// arguments; what is no name, by its raw bytes, is out of range.
fn members_by_name() -> Script {
    let modes = || enumeration(&[("off", 0), ("on", -10)]);
    started(vec![
        parameter("m", modes(), "0"),
        command("go", Some(modes())),
    ])
    .open(0)
    .line(0, "activate")
    .lines(&[
        r#"change t1:m "on""#,
        r#"change t1:m "On""#,
        r#"change t1:m "\u006fn""#,
        "change t1:m true",
        r#"do t1:go  "on" "#,
    ])
    .reading(0, r#""off""#)
    .reading(0, r#""""#)
    .line(0, "read t1:m")
}

/// At any depth; keys are no values, and a string is no enum member. A type
/// fault anywhere wins over a name that nobody has.
fn members_inside() -> Script {
    let on = enumeration(&[("on", 1)]);
    let both = structure(&[("on", string(0, 9)), ("l", array(0, 2, on))]);
    started(vec![parameter("s", both, r#"{"on":"","l":[]}"#)])
        .open(0)
        .lines(&[
            r#"change t1:s {"l":["on",1],"on":"on"}"#,
            r#"change t1:s {"l":["on","no"],"on":"on"}"#,
            r#"change t1:s {"l":["no"],"on":1}"#,
            "read t1:s",
        ])
}

/// 22 short names become 256 bytes, or 257; 126 numbers of one byte and one of
/// two, some of them written as longer names, are 256 in all.
fn exchanged_lengths() -> Script {
    let members = [("a", i32::MIN), ("one_digit", 7), ("b", 10), ("c", 100)];
    let list = array(0, 300, enumeration(&members));
    let long = |last| format!(r#"change t1:l [{}"{last}"]"#, r#""a","#.repeat(21));
    let short = |last| {
        let names = r#""one_digit",7,"#.repeat(50);
        format!("change t1:l [{names}{}{last}]", "7,".repeat(26))
    };
    started(vec![parameter("l", list, "[]")])
        .open(0)
        .line(0, &long("b"))
        .line(0, &long("c"))
        .line(0, &short("10"))
        .line(0, &short(r#""c""#))
        .line(0, "read t1:l")
}

fn refused_opens_and_closes() -> Script {
    started(Vec::new())
        .at(MAX_TIME)
        .open(0)
        .values(SHORT_VALUES)
        .open(1)
        .at(LATE)
        .open(1)
        .open(8)
        .open(0)
        .values(SHORT_VALUES)
        .close(0)
        .at(LATE)
        .close(0)
        .close(8)
        .close(1)
        .at(MAX_TIME)
        .close(0)
}

fn refused_pieces() -> Script {
    started(Vec::new())
        .open(0)
        .outbox(SHORT_OUTBOX)
        .line(0, "ping")
        .values(SHORT_VALUES)
        .line(0, "ping")
        .at(LATE)
        .line(0, "ping")
        .line(8, "ping")
        .line(1, "ping")
        .at(MAX_TIME)
        .line(0, "ping")
}

/// A refused reading stores and sends nothing.
fn refused_readings() -> Script {
    started(vec![three()])
        .open(0)
        .line(0, "activate")
        .outbox(SHORT_OUTBOX)
        .reading(0, "4")
        .values(SHORT_VALUES)
        .reading(0, "4")
        .at(LATE)
        .reading(0, "4")
        .reading(1, "4")
        .reading(0, "10")
        .reading(0, "")
        .line(0, "read t1:p")
}

/// Who has the module active is told at once and at activation, others when
/// they ask; the specifier of `error_read` is the one that was sent.
fn broken_sensor() -> Script {
    let two = vec![
        module("t1", vec![three(), parameter("q", Datainfo::Bool, "true")]),
        module("mf", vec![parameter("r", digit(), "0")]),
    ];
    Script::over(encode::table(&table(two)))
        .start()
        .open(0)
        .open(2)
        .line(2, "activate t1")
        .unreadable(0, 1)
        .unreadable(2, 2)
        .lines(&["read t1:p", "read mf:r:x", "activate"])
        .unreadable(0, 3)
}

/// A reading or a change ends an error, a refused one doesn't.
fn ended_errors() -> Script {
    started(vec![three()])
        .open(0)
        .unreadable(0, 4)
        .reading(0, "10")
        .line(0, "change t1:p true")
        .line(0, "read t1:p")
        .reading(0, "3")
        .line(0, "read t1:p")
        .unreadable(0, 4)
        .line(0, "activate")
        .line(0, "change t1:p 3")
}

/// Class 257 is not 1; a missing parameter comes before an unknown class.
fn refused_reports() -> Script {
    started(vec![three()])
        .open(0)
        .line(0, "activate")
        .outbox(SHORT_OUTBOX)
        .unreadable(0, 1)
        .values(SHORT_VALUES)
        .unreadable(0, 1)
        .at(LATE)
        .unreadable(0, 1)
        .unreadable(1, 0)
        .unreadable(0, 0)
        .unreadable(0, 5)
        .unreadable(0, 257)
        .at(MAX_TIME)
        .unreadable(0, 4)
}

fn pair(code: Datainfo, text: Datainfo) -> Datainfo {
    Datainfo::Tuple(vec![code, text])
}

fn codes() -> Datainfo {
    enumeration(&[("idle", 100), ("busy", 300)])
}

fn target() -> Accessible {
    parameter("target", digit(), "0")
}

/// A status of an enum's number and so many characters.
fn status(most: u16) -> Accessible {
    readonly("status", pair(codes(), string(0, most)), r#"[100,""]"#)
}

/// Whoever has the module active is told of the status before the target, who
/// is not gets the reply alone; also where the value is the same. A refused
/// change and a reading set no status.
fn busy_first() -> Script {
    started(vec![target(), status(14)])
        .open(1)
        .open(4)
        .line(4, "activate t1")
        .line(1, "change t1:target 5")
        .line(1, "activate t1")
        .line(4, "change t1:target 5")
        .line(4, "change t1:target 10")
        .reading(1, r#"[100,"there"]"#)
        .reading(0, "5")
        .line(1, "read t1:status")
}

/// One character less, no 300, another shape: the status stays.
fn unadmitted() -> Script {
    let idle = enumeration(&[("idle", 100)]);
    let apart = structure(&[("code", codes()), ("text", string(0, 20))]);
    let modules = vec![
        module("a", vec![target(), status(13)]),
        module(
            "b",
            vec![
                readonly("status", pair(idle, string(0, 20)), r#"[100,""]"#),
                target(),
            ],
        ),
        module(
            "c",
            vec![
                target(),
                readonly("status", apart, r#"{"code":100,"text":""}"#),
            ],
        ),
    ];
    Script::over(encode::table(&table(modules)))
        .start()
        .open(0)
        .line(0, "activate")
        .lines(&[
            "change a:target 1",
            "change b:target 1",
            "change c:target 1",
        ])
        .lines(&["read a:status", "read b:status", "read c:status"])
}

/// The number alone, and not one of a member; a string, and no name of an enum.
fn nearly_admitted() -> Script {
    let code = |min, max| Datainfo::Int { min, max };
    let names = enumeration(&[("target", 1), ("changed", 2)]);
    let modules = vec![
        module(
            "a",
            vec![
                target(),
                parameter(
                    "status",
                    pair(code(300, 300), string(14, 14)),
                    r#"[300,"aaaaaaaaaaaaaa"]"#,
                ),
            ],
        ),
        module(
            "b",
            vec![
                target(),
                parameter("status", pair(code(0, 299), string(0, 20)), r#"[0,""]"#),
            ],
        ),
        module(
            "c",
            vec![
                target(),
                parameter("status", pair(codes(), names), "[100,1]"),
            ],
        ),
    ];
    Script::over(encode::table(&table(modules)))
        .start()
        .open(0)
        .line(0, "activate")
        .lines(&[
            "change a:target 1",
            "change b:target 1",
            "change c:target 1",
        ])
        .line(0, r#"change a:status [300,"bbbbbbbbbbbbbb"]"#)
}

/// Names are compared with their letters' case; a command is no status, and
/// another module's is none.
fn other_names() -> Script {
    let status = |name| parameter(name, pair(codes(), string(0, 14)), r#"[100,""]"#);
    let modules = vec![
        module(
            "a",
            vec![parameter("Target", digit(), "0"), status("status")],
        ),
        module("b", vec![target(), status("Status")]),
        module("c", vec![target(), command("status", None)]),
        module("d", vec![target()]),
    ];
    Script::over(encode::table(&table(modules)))
        .start()
        .open(0)
        .line(0, "activate")
        .lines(&[
            "change a:Target 1",
            "change b:target 1",
            "change c:target 1",
            "change d:target 1",
        ])
        .line(0, r#"change a:status ["busy",""]"#)
}

/// Busy ends an error; where it is not admitted, the error stays.
fn broken_status() -> Script {
    let modules = vec![
        module("a", vec![target(), status(14)]),
        module("b", vec![target(), status(13)]),
    ];
    Script::over(encode::table(&table(modules)))
        .start()
        .open(0)
        .line(0, "activate")
        .unreadable(1, 1)
        .unreadable(3, 2)
        .lines(&["change a:target 1", "change b:target 1"])
        .lines(&["read a:status", "read b:status"])
}

/// Each line feed counts, each error reply and each update; other custom
/// actions are not built.
fn who_talks() -> Script {
    started(vec![three()])
        .open(0)
        .open(1)
        .lines(&["activate", "_count x y"])
        .line(1, "_counts")
        .unreadable(0, 2)
        .lines(&["read t1:p", "", "_count"])
        .line(1, "_count")
}

/// An open begins anew, a refused one doesn't; a close forgets nothing of it.
fn counts_of_another_open() -> Script {
    started(vec![three()])
        .open(0)
        .line(0, "activate")
        .open(0)
        .line(0, "_count")
        .close(0)
        .reading(0, "4")
        .open(0)
        .line(0, "_count")
}

/// Calls with several faults.
fn lowest_numbers() -> Script {
    started(vec![three()])
        .open(0)
        .values(SHORT_VALUES)
        .at(LATE)
        .open(8)
        .at(LATE)
        .open(0)
        .values(SHORT_VALUES)
        .close(1)
        .outbox(SHORT_OUTBOX)
        .values(SHORT_VALUES)
        .line(1, "ping")
        .at(LATE)
        .line(8, "ping")
        .outbox(SHORT_OUTBOX)
        .at(LATE)
        .reading(1, "4")
        .reading(1, "")
}

/// A refused start over a good table can be gone on with; it leaves initial
/// values with time 0.
fn late_start() -> Script {
    Script::over(encode::table(&one_module(vec![three()])))
        .at(LATE)
        .start()
        .open(0)
        .lines(&["read t1:p", "change t1:p 4"])
}

fn short_start() -> Script {
    Script::over(encode::table(&one_module(vec![three()])))
        .values(SHORT_VALUES)
        .start()
        .open(0)
        .line(0, "activate")
        .reading(0, "4")
}

/// A line cut between return and line feed, with another client's line in
/// between.
fn mingled_pieces() -> Script {
    started(Vec::new())
        .open(0)
        .open(1)
        .piece(0, "ping a\r")
        .piece(1, "ping b\r\n")
        .piece(0, "\n")
}

/// A call takes one line; the rest is offered again.
fn several_lines() -> Script {
    started(Vec::new())
        .open(0)
        .piece(0, "ping a\nping b\nping")
        .piece(0, "ping b\nping")
        .piece(0, "ping")
        .piece(0, " c\n")
}

/// A later event with a smaller time sets the stored time all the same.
fn earlier_times() -> Script {
    started(vec![three()])
        .open(0)
        .at(9_000)
        .reading(0, "4")
        .at(3_000)
        .reading(0, "5")
        .line(0, "read t1:p")
        .at(2_500)
        .line(0, "change t1:p 6")
        .line(0, "read t1:p")
        .at(5)
        .line(0, "ping")
}

/// A note is read with its module, and nothing tells it.
fn notes() -> Script {
    let mut modules = vec![module("t1", vec![three()]), module("mf", Vec::new())];
    modules[0].note = Some(b"mind the gap".to_vec());
    modules[1].note = Some(Vec::new());
    Script::over(encode::table(&table(modules)))
        .start()
        .open(0)
        .lines(&["describe", "activate t1", "change t1:p 4"])
}

/// A history over a module `t1` of a table with an `ED` record, started.
fn started_edition(accessibles: Vec<Accessible>) -> Script {
    let table = Table {
        edition: Some(EDITION.as_bytes().to_vec()),
        ..one_module(accessibles)
    };
    Script::over(encode::table(&table)).start()
}

/// The record's text is the whole identification; the report doesn't tell it.
fn next_edition() -> Script {
    started_edition(vec![three()]).open(0).lines(&[
        "*IDN?",
        "*IDN? x",
        "check t1:p 4",
        "describe",
        "checks t1:p 4",
        "Check t1:p 4",
    ])
}

/// Errors in the order of a change's, with the specifier as it was sent.
fn refused_checks() -> Script {
    let value = readonly("value", digit(), "3");
    started_edition(vec![value, three(), command("stop", None)])
        .open(0)
        .lines(&[
            "check",
            "check t1 4",
            "check t1:9 4",
            "check tx:p 4",
            "check t1:stop",
            "check t1:value {",
            "check t1:p {",
            "check t1:p",
            "check t1:p:x 10",
        ])
}

/// What is told is the stored form, under the names that were understood.
fn checked_forms() -> Script {
    let modes = enumeration(&[("off", 0), ("on", 1)]);
    let pair = Datainfo::Tuple(vec![modes, digit()]);
    started_edition(vec![parameter("pair", pair, "[0,1]")])
        .open(0)
        .lines(&[
            "check t1:pair:x  [ \"on\" , 7 ] ",
            "check t1:pair [\"On\",7]",
            "read t1:pair",
        ])
}

/// No order, no update, no value, no time; an error stays.
fn idle_checks() -> Script {
    started_edition(vec![three()])
        .open(0)
        .open(1)
        .line(1, "activate")
        .line(0, "check t1:p 4")
        .line(0, "read t1:p")
        .unreadable(0, 2)
        .line(1, "check t1:p 5")
        .line(0, "read t1:p")
}

/// Without the record it is no action, whatever its specifier and data.
fn unknown_checks() -> Script {
    started(vec![three()])
        .open(0)
        .lines(&["*IDN?", "check t1:p 4", "check tx:p {", "check"])
}

/// Two accessibles that start from an index's last place, and one that starts
/// from the first.
fn round_the_end() -> Vec<Accessible> {
    vec![
        parameter("a19", digit(), "0"),
        command("a237", None),
        parameter("a76", digit(), "3"),
    ]
}

/// A filled index, longer ones and none; what seeks and what doesn't.
fn index_beside() -> Script {
    let table = Table {
        edition: Some(EDITION.as_bytes().to_vec()),
        ..table(vec![module("m", round_the_end())])
    };
    let filled = lending::filled(&table);
    Script::over(encode::table(&table))
        .start()
        .index(&filled)
        .open(0)
        .lines(&[
            "read m:a76",
            "do m:a237",
            "check m:a19 5",
            "read m:a282",
            "read m:a237",
            "read n:a19",
        ])
        .index(&[&filled[..], &[0]].concat())
        .lines(&["change m:a76:x 4", "activate m:a19"])
        .index(&[])
        .lines(&["read m:a76"])
}

/// Free bytes, bytes that all offer the same, an index of the table in another
/// order, and one that is scribbled over.
fn useless_indexes() -> Script {
    let mut reversed = round_the_end();
    reversed.reverse();
    let stale = lending::filled(&table(vec![module("m", reversed)]));
    let mut scribbled = [FREE; INDEX];
    (scribbled[INDEX - 1], scribbled[0]) = (200, 2);
    Script::over(encode::table(&table(vec![module("m", round_the_end())])))
        .start()
        .open(0)
        .index(&[FREE; INDEX])
        .lines(&["do m:a237"])
        .index(&[0; INDEX])
        .lines(&["read m:a76"])
        .index(&stale)
        .lines(&["read m:a19", "read m:a76", "do m:a237"])
        .index(&scribbled)
        .lines(&["do m:a237", "check m:a19 1"])
}

/// Number 18 is judged straight after 8; no bytes are no index.
fn short_indexes() -> Script {
    started(vec![three()])
        .index(&[FREE; INDEX - 1])
        .open(0)
        .values(SHORT_VALUES)
        .open(0)
        .at(LATE)
        .open(8)
        .index(&[FREE; INDEX])
        .open(0)
        .index(&[0])
        .line(0, "change t1:p 4")
        .outbox(SHORT_OUTBOX)
        .line(0, "change t1:p 4")
        .reading(0, "4")
        .unreadable(0, 5)
        .close(0)
        .index(&[])
        .line(0, "read t1:p")
}

/// One table for each of the numbers 1 to 5, then tables with two faults. An
/// open after the start answers with the same number.
fn over_faulty_tables() -> Vec<(&'static str, Script)> {
    let short_start = Script::over(unfit_initial_value()).values(SHORT_VALUES);
    let with_open = |script: Script| script.start().open(0);
    let over = |table| with_open(Script::over(table));
    vec![
        ("bytes after the table's end", over(bytes_after_the_end())),
        ("no module", over(encode::table(&table(Vec::new())))),
        ("bad name", over(bad_name())),
        ("edition after a module", over(late_edition())),
        ("two editions", over(two_editions())),
        ("edition that begins otherwise", over(other_edition())),
        ("edition with a bad byte", over(odd_edition())),
        ("limits swapped", over(limits_swapped())),
        ("scale 0", over(scale_0())),
        ("unfit initial value", over(unfit_initial_value())),
        ("bad flag after a bad name", over(bad_flag_and_bad_name())),
        ("no module and a bad text", over(no_module_and_bad_text())),
        ("enum with all twice", over(name_and_value_twice())),
        ("limits and initial value", over(limits_and_initial_value())),
        ("initial value by name", over(initial_value_by_name())),
        (
            "unfit initial value and short start",
            with_open(short_start),
        ),
    ]
}

fn bytes_after_the_end() -> Vec<u8> {
    [encode::table(&one_module(Vec::new())), b"EN".to_vec()].concat()
}

fn bad_name() -> Vec<u8> {
    encode::table(&table(vec![module("9x", Vec::new())]))
}

const EDITION_RECORD: &[u8] = b"ED\x0bISSE,SECoP,";

fn late_edition() -> Vec<u8> {
    let mut encoded = encode::encoded(&one_module(Vec::new()));
    let end = encoded.records[2];
    let record = EDITION_RECORD.iter().copied();
    encoded.bytes.splice(end..end, record);
    encoded.bytes
}

fn two_editions() -> Vec<u8> {
    let mut encoded = encode::encoded(&one_module(Vec::new()));
    let first = encoded.records[1];
    let twice = EDITION_RECORD.repeat(2);
    encoded.bytes.splice(first..first, twice);
    encoded.bytes
}

fn of_edition(text: &[u8]) -> Vec<u8> {
    encode::table(&Table {
        edition: Some(text.to_vec()),
        ..one_module(Vec::new())
    })
}

fn other_edition() -> Vec<u8> {
    of_edition(b"ISSE&SINE2020,SECoP,V2019-09-16,v1.0")
}

fn odd_edition() -> Vec<u8> {
    of_edition(b"ISSE,SECoP,\"")
}

fn limits_swapped() -> Vec<u8> {
    let argument = Datainfo::Int { min: 1, max: 0 };
    encode::table(&one_module(vec![command("c", Some(argument))]))
}

/// A scale has to be positive.
fn scale_0() -> Vec<u8> {
    let argument = scaled((0, 0), 0, 1);
    encode::table(&one_module(vec![command("c", Some(argument))]))
}

/// It would fit but for the space, so it isn't in stored form.
fn unfit_initial_value() -> Vec<u8> {
    encode::table(&one_module(vec![parameter("p", digit(), "3 ")]))
}

/// The flag of the last record is 2.
fn bad_flag_and_bad_name() -> Vec<u8> {
    let table = table(vec![module("9x", vec![command("c", None)])]);
    let mut encoded = encode::encoded(&table);
    encoded.bytes[encoded.flags[0]] = 2;
    encoded.bytes
}

fn no_module_and_bad_text() -> Vec<u8> {
    encode::table(&Table {
        description: b"\"".to_vec(),
        ..table(Vec::new())
    })
}

/// Names are compared in lower case.
fn name_and_value_twice() -> Vec<u8> {
    let argument = enumeration(&[("a", 0), ("A", 0)]);
    encode::table(&one_module(vec![command("c", Some(argument))]))
}

fn limits_and_initial_value() -> Vec<u8> {
    encode::table(&one_module(vec![parameter("p", string(1, 0), "2")]))
}

/// The name in quotes is as long as the number.
fn initial_value_by_name() -> Vec<u8> {
    let modes = enumeration(&[("off", 0), ("on", 1_000)]);
    encode::table(&one_module(vec![parameter("m", modes, r#""on""#)]))
}
