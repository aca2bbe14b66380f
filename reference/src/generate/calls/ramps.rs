//! A status that becomes busy, at the ends of what a table may have: the last
//! parameter and the first, the longest names, values and times, all clients.

use super::course::Course;
use crate::datainfo::Datainfo;
use crate::generate::encode;
use crate::generate::parts::{digit, module, parameter, readonly, string, table};
use crate::node::{CLIENTS, MAX_TIME};
use crate::table::{Accessible, Module};

pub(super) fn all(course: &mut Course) {
    last_module(course);
    first_parameter(course);
    shorter_value(course);
}

fn status() -> Accessible {
    let code = Datainfo::Int { min: 0, max: 999 };
    let pair = Datainfo::Tuple(vec![code, string(0, 200)]);
    readonly("status", pair, r#"[100,""]"#)
}

fn target() -> Accessible {
    parameter("target", string(0, 300), r#""""#)
}

fn filling(count: usize) -> Vec<Accessible> {
    let one = |number: usize| parameter(&format!("p{number}"), digit(), "0");
    (0..count).map(one).collect()
}

fn all_active(course: &mut Course) {
    for client in 0..CLIENTS as u64 {
        course.open(client);
        course.line(client, "activate");
    }
}

/// Status is parameter 63 of the module of number 15, whose name is as long as
/// can be; so is the value of the target.
fn last_module(course: &mut Course) {
    let name = "m".repeat(63);
    let mut modules: Vec<Module> = (0..15)
        .map(|number| module(&format!("t{number}"), filling(4)))
        .collect();
    modules.push(module(
        &name,
        [filling(2), vec![target(), status()]].concat(),
    ));
    course.started("busy in the last module", &encode::table(&table(modules)));
    all_active(course);
    let text = "x".repeat(254);
    let line = format!("change {name}:target \"{text}\"\n");
    course.piece_at(7, MAX_TIME, &line);
    course.line(0, &format!("read {name}:status"));
    course.line(3, "deactivate");
    course.piece(3, &line);
    course.show();
}

/// Status is parameter 0, target the last.
fn first_parameter(course: &mut Course) {
    let accessibles = [vec![status()], filling(62), vec![target()]].concat();
    let bytes = encode::table(&table(vec![module("t1", accessibles)]));
    course.started("busy as the first parameter", &bytes);
    course.open(0);
    course.open(6);
    course.line(6, "activate t1");
    course.line(0, "change t1:target \"\"");
    course.close(6);
    course.line(0, "change t1:target \"a\"");
    course.show();
}

/// Only the front of a longer value's place is written; busy ends an error, and
/// where it is not the change of a target, nothing is busy.
fn shorter_value(course: &mut Course) {
    let accessibles = vec![target(), status()];
    let bytes = encode::table(&table(vec![module("t1", accessibles)]));
    course.started("busy over a longer value", &bytes);
    course.open(2);
    course.line(2, "activate");
    course.reading(1, &format!("[100,\"{}\"]", "y".repeat(150)));
    course.line(2, "change t1:target \"b\"");
    course.reading(1, "[100,\"there\"]");
    course.line(2, "change t1:target b");
    course.line(2, "change t1:status [100,\"\"]");
    course.unreadable(1, 3);
    course.unreadable(0, 2);
    course.reading(0, "\"c\"");
    course.line(2, "read t1:status");
    course.line(2, "change t1:target \"c\"");
    course.lines(2, &["read t1:status", "read t1:target"]);
    course.show();
}
