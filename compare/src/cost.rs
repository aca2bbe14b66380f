//! What a line costs: through the library, and through the reference program,
//! which judges as much on each call.

use jihfasul::call;
use jihfasul::{State, OUTBOX, VALUES};
use reference::datainfo::{Datainfo, Limit};
use reference::generate::encode;
use reference::history::Call;
use reference::kept::Kept;
use reference::table::{Accessible, Kind, Module, Table};
use std::process::ExitCode;
use std::time::{Duration, Instant};

/// The tables' lengths in kilobytes.
const KILOBYTES: [usize; 5] = [1, 2, 4, 8, 16];

/// For each figure the fastest of so many runs of at least this length.
pub const RUNS: usize = 50;
const RUN: Duration = Duration::from_millis(4);

pub fn print() -> ExitCode {
    println!("Microseconds for a line, the fastest of {RUNS} runs. Client 0 has all modules");
    println!("active, every parameter was set, and lines are about the last one. Buffers are");
    println!("not cleared between calls; the reference program allocates its own.\n");
    println!("table  parameters  line      library  reference  library / reference");
    for kilobytes in KILOBYTES {
        let (table, count) = table(1_024 * kilobytes);
        let name = name(count - 1);
        let lines = [
            ("ping", "ping x\n".to_string()),
            ("read", format!("read {name}\n")),
            ("change", format!("change {name} 2.5\n")),
            ("activate", "activate\n".to_string()),
            ("describe", "describe\n".to_string()),
        ];
        for (kind, line) in lines {
            let reference = reference_cost(&table, line.as_bytes());
            let library = library_cost(&table, &[line], &[]).time;
            let ratio = library / reference;
            println!(
                "{kilobytes:2} KB  {count:10}  {kind:8} {library:8.1}  {reference:9.1}  {ratio:19.3}"
            );
        }
    }
    ExitCode::SUCCESS
}

/// The names of a parameter of the tables.
pub fn name(number: usize) -> String {
    format!("m{}:p{number}", number / 4)
}

/// A table of so many bytes and the number of its parameters: one for each 128
/// bytes, 64 at most. A module has four: an enum, a string, a struct of three
/// doubles and a double.
pub fn table(length: usize) -> (Vec<u8>, usize) {
    let count = (length / 128).min(64);
    let module = |m: usize| Module {
        name: format!("m{m}").into_bytes(),
        description: Vec::new(),
        note: None,
        accessibles: (4 * m..4 * m + 4).map(parameter).collect(),
    };
    let mut table = Table {
        equipment_id: b"cost".to_vec(),
        description: Vec::new(),
        edition: None,
        modules: (0..count / 4).map(module).collect(),
    };
    let missing = length - encode::table(&table).len();
    let accessibles = table
        .modules
        .iter_mut()
        .flat_map(|one| &mut one.accessibles);
    for (at, accessible) in accessibles.enumerate() {
        let share = missing * (at + 1) / count - missing * at / count;
        accessible.description = vec![b'd'; share];
    }
    let bytes = encode::table(&table);
    assert_eq!(bytes.len(), length);
    assert!(Table::judge(&bytes).is_ok());
    (bytes, count)
}

fn parameter(number: usize) -> Accessible {
    let limit = |mantissa| Limit { mantissa, power: 0 };
    let double = || Datainfo::Double {
        min: limit(0),
        max: limit(300),
    };
    let named = |names: &[&str]| -> Vec<Vec<u8>> {
        let names = names.iter().map(|name| name.as_bytes().to_vec());
        names.collect()
    };
    let (datainfo, initial) = match number % 4 {
        0 => (
            Datainfo::Enum(named(&["off", "on"]).into_iter().zip(0..).collect()),
            "1",
        ),
        1 => (
            Datainfo::String {
                minchars: 0,
                maxchars: 80,
            },
            "\"stable\"",
        ),
        2 => {
            let members = named(&["p", "i", "d"]).into_iter();
            let members = members.map(|name| (name, double())).collect();
            (Datainfo::Struct(members), "{\"p\":1.5,\"i\":20,\"d\":0}")
        }
        _ => (double(), "4.25"),
    };
    Accessible {
        name: format!("p{number}").into_bytes(),
        description: Vec::new(),
        kind: Kind::Parameter {
            readonly: false,
            datainfo,
            initial: initial.as_bytes().to_vec(),
        },
    }
}

/// The calls before those that are timed: client 0 opens and activates all, and
/// each parameter is read.
fn before(table: &[u8]) -> Vec<Call> {
    let table = Table::judge(table).expect("a good table");
    let mut calls = vec![
        Call::Start {
            values_len: VALUES,
            time: 1,
        },
        Call::Open {
            client: 0,
            values_len: VALUES,
            time: 2,
        },
        piece(b"activate\n"),
    ];
    let parameters = table.parameters();
    calls.extend(parameters.iter().map(|parameter| Call::Reading {
        parameter: parameter.number as u64,
        values_len: VALUES,
        outbox_len: OUTBOX,
        time: 3,
        text: parameter.initial.to_vec(),
    }));
    calls
}

fn piece(line: &[u8]) -> Call {
    Call::Piece {
        client: 0,
        values_len: VALUES,
        outbox_len: OUTBOX,
        time: 1_500,
        bytes: line.to_vec(),
    }
}

/// What a line costs through the library.
pub struct Cost {
    pub steps: f64,
    /// In microseconds.
    pub time: f64,
}

/// On average over some lines, with what is lent as an index.
pub fn library_cost(table: &[u8], lines: &[String], index: &[u8]) -> Cost {
    let mut values = vec![0; VALUES];
    let mut outbox = vec![0; OUTBOX];
    let mut state = State::NOTHING;
    for call in before(table) {
        let done = match &call {
            Call::Start { time, .. } => call::start(table, &values, *time),
            Call::Open { client, time, .. } => {
                call::open(table, &values, &state, *client, *time, index)
            }
            Call::Reading {
                parameter,
                time,
                text,
                ..
            } => {
                let (values, outbox) = (&mut values, &mut outbox);
                call::reading(
                    table, values, outbox, &state, *parameter, *time, text, index,
                )
            }
            Call::Piece { bytes, .. } => {
                call::piece(table, &mut values, &mut outbox, &state, 0, 1, bytes, index)
            }
            Call::Close { .. }
            | Call::Unreadable { .. }
            | Call::Lend { .. }
            | Call::Readings { .. } => {
                unreachable!("nothing is closed, fails or is listed, and the index stays")
            }
        };
        assert_eq!(done.number, 0);
        state = done.state;
    }
    let mut steps = 0;
    let time = fastest(|| {
        steps = 0;
        for line in lines {
            let (values, outbox, line) = (&mut values, &mut outbox, line.as_bytes());
            let done = call::piece(table, values, outbox, &state, 0, 1_500, line, index);
            assert_eq!(done.number, 0);
            steps += done.steps;
            state = done.state;
        }
    });
    let count = lines.len() as f64;
    Cost {
        steps: steps as f64 / count,
        time: time / count,
    }
}

fn reference_cost(table: &[u8], line: &[u8]) -> f64 {
    let mut kept = Kept::new(VALUES);
    for call in before(table) {
        assert!(kept.call(table, &[], &call).is_accepted());
    }
    let call = piece(line);
    fastest(|| assert!(kept.call(table, &[], &call).is_accepted()))
}

/// Microseconds for doing something once.
fn fastest(mut act: impl FnMut()) -> f64 {
    let mut times = (0..RUNS).map(|_| {
        let begin = Instant::now();
        let mut count = 0;
        while begin.elapsed() < RUN {
            act();
            count += 1;
        }
        begin.elapsed().as_secs_f64() * 1e6 / f64::from(count)
    });
    let first = times.next().unwrap_or(0.0);
    times.fold(first, f64::min)
}
