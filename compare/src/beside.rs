//! What an index spares: the steps and the time of a `read` without one, with
//! one that is filled from the table, and with one that is no help.

use crate::cost::{self, Cost, RUNS};
use jihfasul::{Index, INDEX};
use std::process::ExitCode;

/// A table of so many bytes has as many accessibles as there may be.
const LENGTH: usize = 8_192;

/// The accessibles that are read, counted from 1, besides all in turn.
const SOME: [usize; 5] = [1, 16, 32, 48, 64];

pub fn print() -> ExitCode {
    let (table, count) = cost::table(LENGTH);
    let filled = Index::of(&table).expect("a good table");
    println!("Steps and microseconds of a `read`, the fastest of {RUNS} runs, on a table of");
    println!("{LENGTH} bytes with {count} accessibles; each call judges the table and the state.");
    println!("No help is an index that offers nothing and has no free byte.\n");
    println!("read                no index            filled           no help");
    let names: Vec<String> = (0..count).map(cost::name).collect();
    for number in SOME {
        let name = &names[number - 1..number];
        print_row(&format!("the {number}."), &table, name, &filled);
    }
    print_row("all, on average", &table, &names, &filled);
    let missing = ["m0:missing".to_string()];
    print_row("one that is missing", &table, &missing, &filled);
    ExitCode::SUCCESS
}

fn print_row(what: &str, table: &[u8], names: &[String], filled: &Index) {
    let lines = names.iter().map(|name| format!("read {name}\n"));
    let lines: Vec<String> = lines.collect();
    let no_help = [254; INDEX];
    let indexes = [&[][..], filled.bytes(), &no_help];
    let costs = indexes.map(|index| cost::library_cost(table, &lines, index));
    let costs = costs.map(|Cost { steps, time }| format!("{steps:7.1} {time:7.2}"));
    println!("{what:19} {}", costs.join("   "));
}
