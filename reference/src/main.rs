//! The command line: prints tables, values and histories with the answers
//! that are due, and runs histories from a file.

use reference::definitions;
use reference::error::ErrorClass;
use reference::generate::nights::Night;
use reference::generate::vectors::{self, ValueCase};
use reference::generate::{
    borders, calls, directed, encode, histories, indexes, nights, quieter, racks, second, small,
};
use reference::history::History;
use reference::operation;
use reference::replay;
use reference::report;
use reference::table::Table;
use reference::text::{self, hex};
use reference::value;
use std::io::{self, Write};
use std::path::Path;
use std::process::ExitCode;

const HELP: &str = "\
The plain node of docs/RULES.md with the requests that reference/README.md names, and generators for comparing others with it.

usage: reference COMMAND ...

  history SEED [CALLS]  a table and a history with the answers due;
                        CALLS is 40 unless given
  second SEED [CALLS]   the same history with other cuts and mingling,
                        refused calls left out
  quieter SEED [CALLS]  the same again without lines of other clients that
                        are not accepted changes, for one client
  racks SEED [CALLS]    a history with lists of readings
  small SEED            a small table and a handful of calls
  directed              the names of the directed small histories
  directed NUMBER       one of them
  definitions SEED ..   small histories in the notation of the crates'
                        definitions; directed in place of a seed stands
                        for all directed ones
  tables SEED COUNT     tables, each with its number and its report
  values SEED COUNT     datainfos and values, each with the judgement
  table-input SEED COUNT, table-output SEED COUNT
                        tables and searches in them as bytes for a program's
                        standard input, and what it is to print
  index-input SEED COUNT, index-output SEED COUNT
                        tables with indexes filled from them, and searches
                        with and without an index
  value-input SEED COUNT, value-output SEED COUNT
                        the same for values, with E1 to E8 and the corners
                        for each type before them
  judge-input KILOBYTES COUNT
                        a table of so many kilobytes for such a program, to
                        be judged a thousand times COUNT times
  calls-input SEED COUNT, calls-output SEED COUNT
                        the same for calls over a kept state: the examples,
                        refusals, unfit states and long lines, then COUNT
                        random histories of each sort
  run FILE              runs the histories in FILE, whatever answers it has,
                        and prints them with the answers due; - reads from
                        standard input
  replay TABLE TIME TRACE
                        replays the events in the file TRACE on a node over
                        the table in the file TABLE, started at TIME
  night PART            table, time or trace of the night that the program
                        `night` is tested with, or what is told of it
  night PART EVENTS 2|12
                        the same of a night of so many events, over a table of
                        2 or 12 modules
  night PART settings COUNT
                        the same of a night in which an int and an enum have
                        so many settings each
  nights SEED COUNT FOLDER
                        writes tables, times and traces for that, and what is
                        told of each, into FOLDER
  --help                this text

The same arguments always print the same. Bytes in histories, tables and values
are in hexadecimal, - for none. README.md describes the lines and the inputs.
";

const DEFAULT_CALLS: usize = 40;

fn main() -> ExitCode {
    let arguments: Vec<String> = std::env::args().skip(1).collect();
    let arguments: Vec<&str> = arguments.iter().map(String::as_str).collect();
    match command(&arguments) {
        Ok(output) => print(&output),
        Err(message) => {
            eprintln!("reference: {message}");
            ExitCode::FAILURE
        }
    }
}

/// A reader that has seen enough and closes the pipe is no failure.
fn print(output: &[u8]) -> ExitCode {
    match io::stdout().write_all(output) {
        Err(error) if error.kind() != io::ErrorKind::BrokenPipe => {
            eprintln!("reference: {error}");
            ExitCode::FAILURE
        }
        _ => ExitCode::SUCCESS,
    }
}

fn command(arguments: &[&str]) -> Result<Vec<u8>, String> {
    match arguments {
        ["value-input", seed, count] => {
            let cases = vectors::value_cases(number(seed)?, number(count)?);
            Ok(vectors::value_input(&cases))
        }
        ["table-input", seed, count] => {
            let cases = vectors::table_cases(number(seed)?, number(count)?);
            Ok(vectors::table_input(&cases))
        }
        ["index-input", seed, count] => {
            let cases = indexes::cases(number(seed)?, number(count)?);
            Ok(indexes::input(&cases))
        }
        ["judge-input", kilobytes, count] => judge_input(number(kilobytes)?, number(count)?),
        ["calls-input", seed, count] => {
            let operations = calls::operations(number(seed)?, number(count)?);
            Ok(operation::input(&operations))
        }
        ["nights", seed, count, folder] => {
            write_nights(number(seed)?, number(count)?, Path::new(folder)).map(|()| Vec::new())
        }
        ["night", part] => night_part(&nights::directed(), part),
        ["night", part, "settings", count] => night_part(&nights::settings(number(count)?), part),
        ["night", part, events, modules @ ("2" | "12")] => {
            night_part(&nights::long(number(events)?, number(modules)?), part)
        }
        ["replay", table, time, trace] => Ok(replay::told(
            &content(table)?,
            number(time)?,
            &content(trace)?,
        )),
        _ => text_command(arguments).map(String::into_bytes),
    }
}

/// A part of a night, or what is told of it.
fn night_part(night: &Night, part: &str) -> Result<Vec<u8>, String> {
    let Night { table, time, trace } = night;
    match part {
        "table" => Ok(table.clone()),
        "time" => Ok(time.to_string().into_bytes()),
        "trace" => Ok(trace.clone()),
        "told" => Ok(replay::told(table, *time, trace)),
        _ => Err(format!("a night has no {part}")),
    }
}

/// Writes nights into a folder: `SEED.table`, `SEED.time`, `SEED.trace`, and in
/// `SEED.told` what is told of the replay.
fn write_nights(seed: u64, count: u64, folder: &Path) -> Result<(), String> {
    for seed in seed..seed + count {
        let night = nights::night(seed);
        for part in ["table", "time", "trace", "told"] {
            let path = folder.join(format!("{seed}.{part}"));
            std::fs::write(&path, night_part(&night, part)?)
                .map_err(|error| format!("{}: {error}", path.display()))?;
        }
    }
    Ok(())
}

/// A file's bytes.
fn content(file: &str) -> Result<Vec<u8>, String> {
    std::fs::read(file).map_err(|error| format!("{file}: {error}"))
}

/// A table to be judged again and again, a thousand times for each count.
fn judge_input(kilobytes: usize, count: usize) -> Result<Vec<u8>, String> {
    if !(1..=16).contains(&kilobytes) {
        return Err("a table has 1 to 16 kilobytes".to_string());
    }
    let table = encode::table(&borders::of_kilobytes(kilobytes));
    Ok(vectors::judge_input(&table, count))
}

/// The commands that print text.
fn text_command(arguments: &[&str]) -> Result<String, String> {
    match arguments {
        ["history", seed] => print_run(&histories::history(number(seed)?, DEFAULT_CALLS)),
        ["history", seed, calls] => print_run(&histories::history(number(seed)?, number(calls)?)),
        ["second", seed] => print_second(number(seed)?, DEFAULT_CALLS),
        ["second", seed, calls] => print_second(number(seed)?, number(calls)?),
        ["quieter", seed] => print_quieter(number(seed)?, DEFAULT_CALLS),
        ["quieter", seed, calls] => print_quieter(number(seed)?, number(calls)?),
        ["racks", seed] => print_run(&racks::history(number(seed)?, DEFAULT_CALLS)),
        ["racks", seed, calls] => print_run(&racks::history(number(seed)?, number(calls)?)),
        ["small", seed] => print_run(&small::history(number(seed)?)),
        ["directed"] => Ok(print_names()),
        ["directed", at] => print_run(&directed_history(number(at)?)?),
        ["definitions", which @ ..] => print_definitions(which),
        ["tables", seed, count] => Ok(print_tables(number(seed)?, number(count)?)),
        ["values", seed, count] => Ok(print_values(number(seed)?, number(count)?)),
        ["value-output", seed, count] => {
            let cases = vectors::value_cases(number(seed)?, number(count)?);
            Ok(vectors::value_output(&cases))
        }
        ["table-output", seed, count] => {
            let cases = vectors::table_cases(number(seed)?, number(count)?);
            Ok(vectors::table_output(&cases))
        }
        ["index-output", seed, count] => {
            let cases = indexes::cases(number(seed)?, number(count)?);
            Ok(indexes::output(&cases))
        }
        ["calls-output", seed, count] => {
            let operations = calls::operations(number(seed)?, number(count)?);
            Ok(operation::output(&operations))
        }
        ["run", file] => run(file),
        ["--help" | "-h" | "help"] => Ok(HELP.to_string()),
        _ => Err(format!("not understood\n\n{HELP}")),
    }
}

fn number<Number: std::str::FromStr>(text: &str) -> Result<Number, String> {
    text.parse().map_err(|_| format!("{text} is no number"))
}

fn print_run(history: &History) -> Result<String, String> {
    let outcome = history
        .run()
        .ok_or("a history must begin with a start".to_string())?;
    Ok(text::print(history, &outcome))
}

/// A line for each directed history: its number and what it shows.
fn print_names() -> String {
    let scenes = directed::all();
    let numbered = (1..).zip(&scenes);
    numbered
        .map(|(number, scene)| format!("{number} {}\n", scene.name))
        .collect()
}

/// The directed history of a number, counted from 1.
fn directed_history(number: usize) -> Result<History, String> {
    number
        .checked_sub(1)
        .and_then(|at| directed::all().into_iter().nth(at))
        .map(|scene| scene.history)
        .ok_or(format!("there is no directed history {number}"))
}

fn print_definitions(which: &[&str]) -> Result<String, String> {
    let histories: Result<Vec<Vec<History>>, String> =
        which.iter().map(|which| small_histories(which)).collect();
    definitions::print(&histories?.concat())
        .ok_or("a history must begin with its only start".to_string())
}

/// The small history of a seed, or all directed ones.
fn small_histories(which: &str) -> Result<Vec<History>, String> {
    Ok(match which {
        "directed" => directed::all()
            .into_iter()
            .map(|scene| scene.history)
            .collect(),
        seed => vec![small::history(number(seed)?)],
    })
}

fn print_second(seed: u64, calls: usize) -> Result<String, String> {
    let first = histories::history(seed, calls);
    let second =
        second::second(&first, seed).ok_or(format!("the start of history {seed} is refused"))?;
    print_run(&second)
}

fn print_quieter(seed: u64, calls: usize) -> Result<String, String> {
    let first = histories::history(seed, calls);
    let quieter = quieter::quieter(&first, seed)
        .ok_or(format!("nobody is sent anything in history {seed}"))?;
    print_run(&quieter.history)
}

fn print_tables(seed: u64, count: usize) -> String {
    vectors::random_tables(seed, count)
        .iter()
        .map(|bytes| print_table(bytes))
        .collect()
}

fn print_table(bytes: &[u8]) -> String {
    let (number, report) = match Table::judge(bytes) {
        Ok(table) => (
            0,
            String::from_utf8_lossy(&report::write(&table)).into_owned(),
        ),
        Err(refusal) => (refusal.number(), "-".to_string()),
    };
    format!("table {} = {number} {report}\n", hex(bytes))
}

fn print_values(seed: u64, count: usize) -> String {
    vectors::random_values(seed, count)
        .iter()
        .map(print_value)
        .collect()
}

fn print_value(case: &ValueCase) -> String {
    let judgement = match value::judge(&case.datainfo, &case.text) {
        Ok(stored) => format!("fits {}", hex(&stored)),
        Err(fault) => ErrorClass::from(fault).name().to_string(),
    };
    let datainfo = encode::datainfo(&case.datainfo);
    format!(
        "value {} {} = {judgement}\n",
        hex(&datainfo),
        hex(&case.text)
    )
}

fn run(file: &str) -> Result<String, String> {
    let content = match file {
        "-" => io::read_to_string(io::stdin()),
        _ => std::fs::read_to_string(file),
    };
    let content = content.map_err(|error| format!("{file}: {error}"))?;
    let histories = text::read(&content).map_err(|error| format!("{file}: {error}"))?;
    histories.iter().map(print_run).collect()
}
