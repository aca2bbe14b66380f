//! Histories in the notation of the crates' definitions, with the answers due:
//! a list that the proofs go through by computing.

use crate::history::{Answer, Call, History};

const HEADER: &str = "\
-- Histories that the reference program generated, with the answers that it gives. Printed by it; not edited by hand. Assumes nothing.
use Rattle.std.specs.Prelude.{List, [], ◌∷◌}
use Rattle.ascii.specs.Text.{bytes}
use Rattle.plain.specs.Calls.{Open, Close, Piece, Reading, Unreadable, with_area, with_outbox, beside}
use Rattle.examples.specs.Told.{History}
";

/// A file that defines the histories. Each begins with its only start, which
/// may be a refused one. `None` for any other history.
pub fn print(histories: &[History]) -> Option<String> {
    let mut text = HEADER.to_string();
    for (at, history) in histories.iter().enumerate() {
        text += &format!("\n{}", definition(at + 1, history)?);
    }
    let names = (1..=histories.len())
        .map(|number| format!("history_{number} ∷ "))
        .collect::<String>();
    Some(text + &format!("\nunfoldable pub histories : List History\nhistories = {names}[]\n"))
}

fn definition(number: usize, history: &History) -> Option<String> {
    let answers = history.run()?.answers;
    let (Call::Start { values_len, time }, calls) = history.calls.split_first()? else {
        return None;
    };
    let due = calls.iter().zip(&answers[1..]);
    let due: Vec<String> = due
        .filter(|(call, _)| call.is_made())
        .map(|(_, due)| answer(due))
        .collect();
    let calls = lent(calls);
    Some(format!(
        "unfoldable pub history_{number} : History\n\
         history_{number} =\n    record {{\n      table = {};\n      area = {values_len};\n      time = {time};\n      start = {};\n      \
         calls =\n          {};\n      due =\n          {};\n    }}\n",
        bytes(&history.table),
        answers[0].number,
        list(&calls?),
        list(&due),
    ))
}

fn list(items: &[String]) -> String {
    items
        .iter()
        .map(|item| format!("{item}\n          ∷ "))
        .collect::<String>()
        + "[]"
}

/// The calls, each with the index that it is lent.
fn lent(calls: &[Call]) -> Option<Vec<String>> {
    let mut index: &[u8] = &[];
    let mut printed = Vec::new();
    for one in calls {
        match one {
            Call::Lend { index: next } => index = next,
            _ if index.is_empty() => printed.push(call(one)?),
            _ => printed.push(format!("beside ({}) ({})", bytes(index), call(one)?)),
        }
    }
    Some(printed)
}

fn call(call: &Call) -> Option<String> {
    Some(match call {
        Call::Start { .. } | Call::Lend { .. } | Call::Readings { .. } => return None,
        Call::Open {
            client,
            values_len,
            time,
        } => format!("with_area (Open {client} {time}) {values_len}"),
        Call::Close {
            client,
            values_len,
            time,
        } => format!("with_area (Close {client} {time}) {values_len}"),
        Call::Piece {
            client,
            values_len,
            outbox_len,
            time,
            bytes: offered,
        } => format!(
            "with_outbox (Piece {client} ({}) {time}) {values_len} {outbox_len}",
            bytes(offered)
        ),
        Call::Reading {
            parameter,
            values_len,
            outbox_len,
            time,
            text,
        } => format!(
            "with_outbox (Reading {parameter} ({}) {time}) {values_len} {outbox_len}",
            bytes(text)
        ),
        Call::Unreadable {
            parameter,
            values_len,
            outbox_len,
            time,
            class,
        } => {
            format!("with_outbox (Unreadable {parameter} {class} {time}) {values_len} {outbox_len}")
        }
    })
}

fn answer(answer: &Answer) -> String {
    format!(
        "record {{ number = {}; used = {}; written = {}; steps = {} }}",
        answer.number,
        answer.used,
        bytes(&answer.outbox),
        answer.steps
    )
}

/// A text in which each character stands for one byte.
fn bytes(bytes: &[u8]) -> String {
    let text: String = bytes.iter().map(|&byte| character(byte)).collect();
    format!("bytes \"{text}\"")
}

fn character(byte: u8) -> String {
    match byte {
        b'\'' => "'".to_string(),
        _ => char::from(byte).escape_debug().to_string(),
    }
}
