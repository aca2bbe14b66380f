//! Compares the library with the reference program, and measures it.

mod area;
mod beside;
mod bytes;
mod chatter;
mod cost;
mod difference;
mod histories;
mod library;
mod night;
mod operations;
mod seen;
mod slowest;
mod stack;
mod texts;

use chatter::Chatter;
use difference::{Counts, Difference};
use reference::generate::{calls, histories as random, quieter, racks, second, small, turns};
use reference::history::History;
use reference::operation::Operation;
use std::process::ExitCode;

const HELP: &str = "\
Compares the static library with the reference program, and measures it.

usage: compare [COMMAND ...]

  SEED COUNT   the fixed calls (examples, refusals, unfit states, indexes, long
               lines, lists of readings), then for each of COUNT seeds, from
               SEED on, a small history, a random one and one with lists, all
               again cut and mingled anew, listed anew and lent other indexes,
               and one in which the state is changed at random between the calls;
               in all of these what no call looks at is changed now and then
  (nothing)    the same with the seeds of ./test
  chatter      for the same seeds a small history, a random one and one with
               lists, each with and without lines of other clients that are no
               accepted changes
  cost         what a line costs, beside the reference program
  index        what an index spares: steps and time of a read
  slowest      what a call costs on the slowest tables that are known
  stack        how deep the stack of a call is, over the same histories
  tables       tables told as a text and built again, and which record is at
               fault in those that are refused
  night TABLE TIME TRACE
               a night by single calls: what the program `night` is to write
               before its figures,
               of a trace without wrong and half records
  --help       this text

A difference is printed with the history's name and seed and the first call at
which the two sides differ, counted from 1: `reference history SEED`, `second
SEED`, `quieter SEED`, `racks SEED` and `small SEED` print these histories.
";

/// The seeds that `./test` uses.
const SEED: u64 = 1;
const COUNT: u64 = 1_200;

/// The calls of a random history.
const CALLS: usize = 40;

/// Differences that are printed; the others are only counted.
const PRINTED: usize = 10;

fn main() -> ExitCode {
    let arguments: Vec<String> = std::env::args().skip(1).collect();
    let arguments: Vec<&str> = arguments.iter().map(String::as_str).collect();
    match arguments[..] {
        [] => compare(SEED, COUNT),
        ["chatter"] => compare_without_lines(SEED, COUNT),
        ["cost"] => cost::print(),
        ["index"] => beside::print(),
        ["slowest"] => slowest::print(),
        ["stack"] => stack::print(),
        ["tables"] => texts::print(),
        ["night", table, time, trace] => night::print(table, time, trace),
        ["--help"] => {
            print!("{HELP}");
            ExitCode::SUCCESS
        }
        [seed, count] => match (seed.parse(), count.parse()) {
            (Ok(seed), Ok(count)) => compare(seed, count),
            _ => usage(),
        },
        _ => usage(),
    }
}

fn usage() -> ExitCode {
    eprint!("{HELP}");
    ExitCode::FAILURE
}

/// Counts of the histories that were compared, and of their calls.
#[derive(Default)]
struct Tally {
    passed: usize,
    failed: usize,
    counts: Counts,
}

fn compare(seed: u64, count: u64) -> ExitCode {
    let mut tally = Tally::default();
    tally.operations(&calls::operations(0, 0));
    tally.operations(&calls::lists());
    for seed in seed..seed.saturating_add(count) {
        tally.twice("small", seed, &small::history(seed));
        tally.twice("random", seed, &random::history(seed, CALLS));
        tally.twice("racks", seed, &racks::history(seed, CALLS));
        if seed % 4 == 0 {
            tally.twice("turns", seed, &turns::history(seed));
        }
        tally.operations(&calls::changes(seed));
    }
    tally.print()
}

fn compare_without_lines(seed: u64, count: u64) -> ExitCode {
    let mut tally = Tally::default();
    let mut chatter = Chatter::default();
    for seed in seed..seed.saturating_add(count) {
        tally.without_lines("small", seed, &small::history(seed), &mut chatter);
        let first = random::history(seed, CALLS);
        tally.without_lines("random", seed, &first, &mut chatter);
        let first = racks::history(seed, CALLS);
        tally.without_lines("racks", seed, &first, &mut chatter);
    }
    chatter.print();
    tally.print()
}

impl Tally {
    fn print(&self) -> ExitCode {
        let Tally { passed, failed, .. } = self;
        let numbers = self.counts.numbers.iter().enumerate();
        let numbers = numbers.map(|(number, count)| format!("{number}: {count}"));
        let numbers: Vec<String> = numbers.collect();
        println!("calls answered with each number: {}", numbers.join(", "));
        let Counts {
            calls,
            searches,
            steps,
            most_steps,
            listed,
            ..
        } = self.counts;
        println!("{listed} readings taken of lists");
        println!("{searches} searches with {steps} steps, at most {most_steps}");
        println!("{calls} calls of {} histories", passed + failed);
        println!("{passed} passed, {failed} failed");
        match failed {
            0 => ExitCode::SUCCESS,
            _ => ExitCode::FAILURE,
        }
    }

    fn operations(&mut self, operations: &[Operation]) {
        let (parts, difference) = operations::run(operations, &mut self.counts);
        self.passed += parts;
        if let Some(text) = difference {
            self.fail(&text);
        }
    }

    /// A history, and the same cut and mingled anew.
    fn twice(&mut self, name: &str, seed: u64, first: &History) {
        let result = histories::run(first, seed, &mut self.counts);
        let Some(course) = self.count(name, seed, result) else {
            return;
        };
        if let Some(second) = second::second(first, seed) {
            let result = histories::run_second(&second, seed, &course, &mut self.counts);
            self.count(&format!("second of {name}"), seed, result);
        }
    }

    /// A history, and the same without lines that are nothing to a client.
    fn without_lines(&mut self, name: &str, seed: u64, first: &History, chatter: &mut Chatter) {
        if let Some(quieter) = quieter::quieter(first, seed) {
            let result = chatter.run(first, &quieter, seed, &mut self.counts);
            self.count(&format!("quieter {name}"), seed, result);
        }
    }

    fn count<T>(&mut self, name: &str, seed: u64, result: Result<T, Difference>) -> Option<T> {
        match result {
            Ok(value) => {
                self.passed += 1;
                Some(value)
            }
            Err(Difference { call, text }) => {
                self.fail(&format!("{name} {seed}, call {call}: {text}"));
                None
            }
        }
    }

    fn fail(&mut self, text: &str) {
        self.failed += 1;
        if self.failed <= PRINTED {
            println!("difference in {text}");
        }
    }
}
