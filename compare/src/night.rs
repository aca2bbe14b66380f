//! A night by single calls of the library: what the program `night` does, made
//! from Rust, for comparing it and its speed with this.

use jihfasul::call;
use jihfasul::{Done, SensorError, State, OUTBOX, VALUES};
use reference::table::Table;
use std::fs;
use std::process::ExitCode;

/// No index is lent.
const NONE: &[u8] = &[];

/// What stands before a record's bytes.
const HEAD: usize = 13;

/// A node over the library, and how many events each number refused.
struct Night<'a> {
    table: &'a [u8],
    values: Vec<u8>,
    outbox: Vec<u8>,
    state: State,
    refused: [u64; 19],
}

/// Replays a trace of whole and good records, and prints what is told of it.
pub fn print(table: &str, time: &str, trace: &str) -> ExitCode {
    match told(table, time, trace) {
        Ok(text) => {
            print!("{text}");
            ExitCode::SUCCESS
        }
        Err(text) => {
            eprintln!("{text}");
            ExitCode::FAILURE
        }
    }
}

fn told(table: &str, time: &str, trace: &str) -> Result<String, String> {
    let read = |path: &str| fs::read(path).map_err(|error| format!("{path}: {error}"));
    let (table, trace) = (read(table)?, read(trace)?);
    let time = time.parse().map_err(|_| format!("{time} is no time"))?;
    let mut night = Night {
        table: &table,
        values: vec![0; VALUES],
        outbox: vec![0; OUTBOX],
        state: State::NOTHING,
        refused: [0; 19],
    };
    let done = call::start(&table, &night.values, time);
    if done.number != 0 {
        return Ok(format!("start {}\n", done.number));
    }
    night.state = done.state;
    night.play(&trace)?;
    night.summary()
}

impl Night<'_> {
    fn play(&mut self, mut trace: &[u8]) -> Result<(), String> {
        while let Some((head, rest)) = trace.split_first_chunk::<HEAD>() {
            let length = usize::from(u16::from_be_bytes([head[11], head[12]]));
            let (bytes, rest) = rest.split_at_checked(length).ok_or("a half record")?;
            self.event(head, bytes)?;
            trace = rest;
        }
        match trace {
            [] => Ok(()),
            _ => Err("a half record".to_string()),
        }
    }

    fn event(&mut self, head: &[u8; HEAD], mut bytes: &[u8]) -> Result<(), String> {
        let Night {
            table,
            values,
            outbox,
            state,
            ..
        } = self;
        let number = u64::from(head[2]);
        let time = head[3..11].try_into().map(u64::from_be_bytes);
        let time = time.map_err(|_| "a time has eight bytes")?;
        let done = match (&head[..2], bytes) {
            (b"EO", []) => call::open(table, values, state, number, time, NONE),
            (b"EC", []) => call::close(table, values, state, number, time, NONE),
            (b"ER", _) => call::reading(table, values, outbox, state, number, time, bytes, NONE),
            (b"EF", [class]) => {
                let class = u64::from(*class);
                call::unreadable(table, values, outbox, state, number, time, class, NONE)
            }
            (b"EP", _) => loop {
                let done = call::piece(table, values, outbox, state, number, time, bytes, NONE);
                bytes = &bytes[done.used..];
                if done.number != 0 || bytes.is_empty() {
                    break done;
                }
                *state = done.state;
            },
            _ => return Err("a wrong record".to_string()),
        };
        self.keep(&done);
        Ok(())
    }

    fn keep(&mut self, done: &Done) {
        match done.number {
            0 => self.state = done.state,
            number => self.refused[usize::from(number)] += 1,
        }
    }

    fn summary(&self) -> Result<String, String> {
        let table = Table::judge(self.table).map_err(|_| "a table that is refused")?;
        let mut text = String::new();
        for parameter in table.parameters() {
            let number = parameter.number as u64;
            let shown = call::value(self.table, &self.values, &self.state, number);
            let held = match shown.stored {
                0 => self.table,
                _ => &self.values,
            };
            let value = String::from_utf8_lossy(&held[shown.from..shown.from + shown.size]);
            let value = SensorError::of(shown.error).map_or(value.to_string(), |e| e.to_string());
            let name = [parameter.module_name, b":", parameter.name].concat();
            text += &format!("{} {value}\n", String::from_utf8_lossy(&name));
        }
        for (number, count) in self.refused.iter().enumerate() {
            if *count != 0 {
                text += &format!("refused {number} {count}\n");
            }
        }
        Ok(text)
    }
}
