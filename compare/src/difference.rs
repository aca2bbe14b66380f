//! Where the two sides differ.

use reference::history::{Answer, Call};
use std::fmt::Debug;

/// The first call of a history at which they differ, counted from 1, and how.
#[derive(Debug)]
pub struct Difference {
    pub call: usize,
    pub text: String,
}

/// How many calls were made, and how many of them each number answered; how many
/// searches there were, their steps in all and the most of one; how many readings
/// lists took.
#[derive(Default)]
pub struct Counts {
    pub calls: usize,
    pub numbers: [usize; 19],
    pub searches: usize,
    pub steps: usize,
    pub most_steps: usize,
    pub listed: usize,
}

impl Counts {
    pub fn add(&mut self, answer: &Answer) {
        self.calls += 1;
        self.numbers[usize::from(answer.number)] += 1;
        self.searches += usize::from(answer.steps != 0);
        self.steps += answer.steps;
        self.most_steps = self.most_steps.max(answer.steps);
        self.listed += answer.taken;
    }
}

/// The most that is shown of a part.
const SHOWN: usize = 600;

/// Compares a part of what is found with what is due.
pub fn same<T: Debug + PartialEq>(what: &str, found: &T, due: &T) -> Result<(), String> {
    if found == due {
        return Ok(());
    }
    let show = |one| -> String { format!("{one:?}").chars().take(SHOWN).collect() };
    let (found, due) = (show(found), show(due));
    Err(format!("{what}\n  found {found}\n  due   {due}"))
}

pub fn same_answer(call: &Call, found: &Answer, due: &Answer) -> Result<(), String> {
    if found == due {
        return Ok(());
    }
    let (call, found, due) = (show_call(call), show_answer(found), show_answer(due));
    Err(format!("{call}\n  found {found}\n  due   {due}"))
}

fn show_call(call: &Call) -> String {
    match call {
        Call::Piece {
            client,
            values_len,
            outbox_len,
            time,
            bytes,
        } => {
            let bytes = front(bytes);
            format!(
                "piece of client {client} at {time}, lent {values_len} and {outbox_len}: {bytes}"
            )
        }
        Call::Reading {
            parameter,
            values_len,
            outbox_len,
            time,
            text,
        } => {
            let text = front(text);
            format!("reading of {parameter} at {time}, lent {values_len} and {outbox_len}: {text}")
        }
        _ => format!("{call:?}"),
    }
}

fn front(bytes: &[u8]) -> std::slice::EscapeAscii<'_> {
    bytes[..bytes.len().min(SHOWN)].escape_ascii()
}

fn show_answer(answer: &Answer) -> String {
    let Answer {
        number,
        used,
        outbox,
        steps,
        taken,
    } = answer;
    let (written, outbox) = (outbox.len(), front(outbox));
    format!(
        "number {number}, used {used}, written {written}, steps {steps}, taken {taken}: {outbox}"
    )
}
