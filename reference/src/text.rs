//! The text form of histories: one line for the table, one for each call with
//! its answer after ` = `, then `end` and a description of what is held.

use crate::history::{Answer, Call, History, Outcome};
use crate::line::Unfinished;
use crate::list::Row;
use crate::node::{Counts, State};
use std::fmt::Write;

/// Bytes in hexadecimal, `-` for none.
pub fn hex(bytes: &[u8]) -> String {
    if bytes.is_empty() {
        return "-".to_string();
    }
    bytes.iter().map(|byte| format!("{byte:02x}")).collect()
}

/// Reads what [`hex`] writes.
pub fn from_hex(text: &str) -> Option<Vec<u8>> {
    if text == "-" {
        return Some(Vec::new());
    }
    let digits: Option<Vec<u8>> = text
        .chars()
        .map(|digit| digit.to_digit(16).map(|value| value as u8))
        .collect();
    let digits = digits.filter(|digits| !digits.is_empty() && digits.len() % 2 == 0)?;
    Some(
        digits
            .chunks(2)
            .map(|pair| pair[0] << 4 | pair[1])
            .collect(),
    )
}

/// Prints a history with its answers and its end.
pub fn print(history: &History, outcome: &Outcome) -> String {
    let mut text = format!("table {}\n", hex(&history.table));
    for (call, answer) in history.calls.iter().zip(&outcome.answers) {
        text += &match call {
            Call::Lend { .. } => format!("{}\n", print_call(call)),
            _ => format!("{} = {}\n", print_call(call), print_answer(call, answer)),
        };
    }
    text + "end\n" + &print_state(&outcome.end)
}

fn print_call(call: &Call) -> String {
    match call {
        Call::Start { values_len, time } => format!("start {values_len} {time}"),
        Call::Open {
            client,
            values_len,
            time,
        } => format!("open {client} {values_len} {time}"),
        Call::Close {
            client,
            values_len,
            time,
        } => format!("close {client} {values_len} {time}"),
        Call::Piece {
            client,
            values_len,
            outbox_len,
            time,
            bytes,
        } => format!(
            "piece {client} {values_len} {outbox_len} {time} {}",
            hex(bytes)
        ),
        Call::Reading {
            parameter,
            values_len,
            outbox_len,
            time,
            text,
        } => format!(
            "reading {parameter} {values_len} {outbox_len} {time} {}",
            hex(text)
        ),
        Call::Unreadable {
            parameter,
            values_len,
            outbox_len,
            time,
            class,
        } => format!("unreadable {parameter} {values_len} {outbox_len} {time} {class}"),
        Call::Lend { index } => format!("index {}", hex(index)),
        Call::Readings {
            values_len,
            outbox_len,
            rows,
            texts,
        } => {
            let rows: String = rows
                .iter()
                .map(|row| format!(" {}", print_row(row)))
                .collect();
            format!("readings {values_len} {outbox_len} {}{rows}", hex(texts))
        }
    }
}

fn print_row(row: &Row) -> String {
    let Row {
        parameter,
        time,
        offset,
        length,
    } = row;
    format!("{parameter},{time},{offset},{length}")
}

fn read_row(word: &&str) -> Option<Row> {
    let numbers: Option<Vec<u64>> = word.split(',').map(|one| one.parse().ok()).collect();
    let [parameter, time, offset, length] = numbers?[..] else {
        return None;
    };
    Some(Row {
        parameter,
        time,
        offset,
        length,
    })
}

fn print_answer(call: &Call, answer: &Answer) -> String {
    let Answer {
        number,
        used,
        outbox,
        steps,
        taken,
    } = answer;
    match call {
        Call::Piece { .. } => format!("{number} {used} {steps} {}", hex(outbox)),
        Call::Reading { .. } | Call::Unreadable { .. } => format!("{number} {}", hex(outbox)),
        Call::Readings { .. } => format!("{number} {taken} {}", hex(outbox)),
        _ => number.to_string(),
    }
}

fn print_state(state: &State) -> String {
    let mut text = String::new();
    for (number, client) in state.clients.iter().enumerate() {
        let open = if client.open { "open" } else { "closed" };
        let line = match &client.line {
            Unfinished::Bytes(bytes) => hex(bytes),
            Unfinished::Overlong => "overlong".to_string(),
        };
        let active = client.active;
        let Counts {
            lines,
            errors,
            updates,
        } = state.counts[number];
        let _ = writeln!(
            text,
            "client {number} {open} active={active:04x} line={line} counts={lines},{errors},{updates}"
        );
    }
    for (number, held) in state.parameters.iter().enumerate() {
        let shown = match (held.error, held.set) {
            (Some(error), _) => format!("error={}", error.name()),
            (None, true) => format!("value={} set", hex(&held.value)),
            (None, false) => format!("value={} initial", hex(&held.value)),
        };
        let _ = writeln!(text, "parameter {number} time={} {shown}", held.time);
    }
    text
}

/// Reads histories, each beginning with its `table` line. Answers and the
/// lines that describe an end are passed over, as are empty lines.
pub fn read(text: &str) -> Result<Vec<History>, String> {
    let mut histories: Vec<History> = Vec::new();
    for (at, line) in text.lines().enumerate() {
        let words: Vec<&str> = line.split_whitespace().collect();
        read_line(&words, &mut histories)
            .ok_or_else(|| format!("line {} is not understood: {line}", at + 1))?;
    }
    Ok(histories)
}

fn read_line(words: &[&str], histories: &mut Vec<History>) -> Option<()> {
    match words {
        [] | ["end"] | ["client", ..] | ["parameter", ..] => {}
        ["table", table, ..] => histories.push(History {
            table: from_hex(table)?,
            calls: Vec::new(),
        }),
        _ => {
            let call = read_call(before_answer(words))?;
            histories.last_mut()?.calls.push(call);
        }
    }
    Some(())
}

fn before_answer<'a, 'b>(words: &'a [&'b str]) -> &'a [&'b str] {
    let length = words.iter().position(|&word| word == "=");
    &words[..length.unwrap_or(words.len())]
}

fn read_call(words: &[&str]) -> Option<Call> {
    Some(match words {
        ["start", values_len, time] => Call::Start {
            values_len: values_len.parse().ok()?,
            time: time.parse().ok()?,
        },
        ["open", client, values_len, time] => Call::Open {
            client: client.parse().ok()?,
            values_len: values_len.parse().ok()?,
            time: time.parse().ok()?,
        },
        ["close", client, values_len, time] => Call::Close {
            client: client.parse().ok()?,
            values_len: values_len.parse().ok()?,
            time: time.parse().ok()?,
        },
        ["piece", client, values_len, outbox_len, time, bytes] => Call::Piece {
            client: client.parse().ok()?,
            values_len: values_len.parse().ok()?,
            outbox_len: outbox_len.parse().ok()?,
            time: time.parse().ok()?,
            bytes: from_hex(bytes)?,
        },
        ["reading", parameter, values_len, outbox_len, time, text] => Call::Reading {
            parameter: parameter.parse().ok()?,
            values_len: values_len.parse().ok()?,
            outbox_len: outbox_len.parse().ok()?,
            time: time.parse().ok()?,
            text: from_hex(text)?,
        },
        ["unreadable", parameter, values_len, outbox_len, time, class] => Call::Unreadable {
            parameter: parameter.parse().ok()?,
            values_len: values_len.parse().ok()?,
            outbox_len: outbox_len.parse().ok()?,
            time: time.parse().ok()?,
            class: class.parse().ok()?,
        },
        ["readings", values_len, outbox_len, texts, rows @ ..] => Call::Readings {
            values_len: values_len.parse().ok()?,
            outbox_len: outbox_len.parse().ok()?,
            rows: rows.iter().map(read_row).collect::<Option<_>>()?,
            texts: from_hex(texts)?,
        },
        ["index", index] => Call::Lend {
            index: from_hex(index)?,
        },
        _ => return None,
    })
}
