//! Tables of the reference program, each told as a text and built again, and
//! what is said of the others: its number, the record and the line at fault.

use jihfasul::table::{self, Fault, Table, TextFault};
use reference::generate::{encode, vectors};
use reference::random::Random;
use reference::report;
use reference::table::Table as Tree;
use reference::value;
use std::collections::BTreeMap;
use std::process::ExitCode;

/// Random tables and values beside the directed ones.
const SEED: u64 = 1;
const TABLES: usize = 6_000;
const VALUES: usize = 4_000;

/// Slips of the pen in the text of each accepted table.
const SLIPS: usize = 6;

/// A parameter whose initial value doesn't fit, and which type each has.
const MISFIT: &[u8] = b"PA\x09zz_misfit\x00\x00\x03\x00\x04null";
const TYPES: usize = 11;

/// Differences that are printed; the others are only counted.
const PRINTED: usize = 10;

#[derive(Default)]
struct Tally {
    passed: usize,
    failed: usize,
    /// How many tables of each number went through a text, and how many accepted
    /// ones have each type.
    told: BTreeMap<u8, usize>,
    types: [usize; TYPES],
}

pub fn print() -> ExitCode {
    let mut tally = Tally::default();
    let directed = vectors::table_cases(SEED, 0).into_iter();
    let random = vectors::random_tables(SEED, TABLES);
    let tables: Vec<Vec<u8>> = directed.map(|case| case.bytes).chain(random).collect();
    let values = vectors::value_cases(SEED, VALUES);
    println!("{} tables, {} values", tables.len(), values.len());
    for bytes in tables {
        tally.count(&bytes, &judge(&bytes));
        tally.through_text(&bytes);
    }
    for case in values {
        let bytes = with_value(&encode::datainfo(&case.datainfo), &case.text);
        let fits = value::is_stored_form(&case.datainfo, &case.text);
        tally.count(&bytes, &judge_value(&bytes, fits));
    }
    tally.print()
}

impl Tally {
    fn count(&mut self, bytes: &[u8], result: &Result<(), String>) {
        match result {
            Ok(()) => self.passed += 1,
            Err(text) => {
                self.failed += 1;
                if self.failed <= PRINTED {
                    println!("{text}: {}", bytes.escape_ascii());
                }
            }
        }
    }

    fn through_text(&mut self, bytes: &[u8]) {
        match through_text(bytes) {
            Ok(None) => {}
            Ok(Some(number)) => {
                self.passed += 1;
                *self.told.entry(number).or_default() += 1;
                if number == 0 {
                    self.count_types(bytes);
                }
            }
            Err(text) => self.count(bytes, &Err(text)),
        }
    }

    fn count_types(&mut self, bytes: &[u8]) {
        let tree = Tree::read(bytes).expect("accepted");
        let encoded = encode::encoded(&tree);
        let types = encoded.types.iter().map(|&at| usize::from(bytes[at]));
        types.for_each(|one| self.types[one - 1] += 1);
    }

    fn print(&self) -> ExitCode {
        println!(
            "tables of each number told as a text and built again: {:?}",
            self.told
        );
        println!(
            "datainfos of the types 1 to 11 in accepted ones: {:?}",
            self.types
        );
        let is_missing = (0..=6).any(|number| number != 1 && !self.told.contains_key(&number));
        let failed = self.failed + usize::from(is_missing || self.types.contains(&0));
        println!("{} passed, {failed} failed", self.passed);
        match failed {
            0 => ExitCode::SUCCESS,
            _ => ExitCode::FAILURE,
        }
    }
}

fn demand(holds: bool, text: impl Fn() -> String) -> Result<(), String> {
    match holds {
        true => Ok(()),
        false => Err(text()),
    }
}

fn number_of(bytes: &[u8]) -> u8 {
    Tree::judge(bytes).map_or_else(|refusal| refusal.number(), |_| 0)
}

/// The number that is told is the reference program's, and the records that are
/// told are those at fault.
fn judge(bytes: &[u8]) -> Result<(), String> {
    let (checked, number) = (table::check(bytes), number_of(bytes));
    let faults = &checked.faults;
    demand(checked.number == number, || {
        format!("number {} for {number}", checked.number)
    })?;
    let Some(first) = faults.first() else {
        demand(number == 0, || "no fault is told".to_string())?;
        return nothing_else(bytes);
    };
    demand(first.number == number, || format!("first told: {first}"))?;
    demand(number == 6 || first.record > 0, || {
        format!("no record: {first}")
    })?;
    let is_within = |fault: &Fault| fault.at < bytes.len() || number == 1;
    demand(faults.iter().all(is_within), || {
        "a place past the end".to_string()
    })?;
    match number {
        3..=5 => without_told(bytes, faults),
        6 => same_length(bytes, first),
        _ => Ok(()),
    }
}

/// The report's length is told.
fn same_length(bytes: &[u8], fault: &Fault) -> Result<(), String> {
    let tree = Tree::read(bytes).ok_or("a table that can't be read")?;
    let length = report::write(&tree).len();
    let told = format!(" {length} bytes");
    demand(fault.rule.contains(&told), || {
        format!("{fault} for {length}")
    })
}

/// With a parameter that doesn't fit, an accepted table has that fault alone.
fn nothing_else(bytes: &[u8]) -> Result<(), String> {
    let end = bytes.len() - 2;
    let spoilt = [&bytes[..end], MISFIT, b"EN"].concat();
    if number_of(&spoilt) != 5 {
        return Ok(());
    }
    let mut faults = table::check(&spoilt).faults;
    faults.retain(|fault| fault.number != 6);
    let is_told = |fault: &Fault| fault.whose.ends_with(":zz_misfit");
    let is_alone = faults.len() == 1 && faults.iter().all(is_told);
    demand(is_alone, || format!("told of a good table: {}", faults[0]))
}

/// Without the parameters and commands that are told, the table is accepted, if
/// nothing else is told; and with one of them it is not.
fn without_told(bytes: &[u8], faults: &[Fault]) -> Result<(), String> {
    let tree = Tree::read(bytes).ok_or("a table that can't be read")?;
    let mut places = encode::encoded(&tree).records;
    places.push(bytes.len());
    let is_accessible = |fault: &Fault| {
        let begin = places[fault.record - 1];
        [b"PA", b"CM"].contains(&bytes[begin..].first_chunk().expect("a mark"))
    };
    if !faults
        .iter()
        .all(|fault| fault.record > 0 && is_accessible(fault))
    {
        return Ok(());
    }
    let without = |kept: usize| -> Vec<u8> {
        let is_out =
            |record: usize| record != kept && faults.iter().any(|fault| fault.record == record);
        let records = places.windows(2).zip(1..);
        let stay = records.filter(|(_, record)| !is_out(*record));
        stay.flat_map(|(place, _)| &bytes[place[0]..place[1]])
            .copied()
            .collect()
    };
    let number = number_of(&without(0));
    demand(number == 0, || format!("{number} without what is told"))?;
    let lowest = |record: usize| {
        let own = faults.iter().filter(|fault| fault.record == record);
        own.map(|fault| fault.number).min()
    };
    faults.iter().try_for_each(|fault| {
        let number = number_of(&without(fault.record));
        let is_twice = fault.rule.contains("already");
        let holds = Some(number) == lowest(fault.record) || is_twice;
        demand(holds, || format!("{number} with {fault} alone"))
    })
}

/// A table whose text is told builds again to its bytes, or is refused by the
/// same number, each fault in the lines of its record.
fn through_text(bytes: &[u8]) -> Result<Option<u8>, String> {
    let checked = table::check(bytes);
    let number = checked.number;
    let text = match table::explain(bytes) {
        Ok(text) => text,
        Err(fault) if number == 0 => return Err(format!("not told: {fault}")),
        Err(_) => return Ok(None),
    };
    match (number, table::build(text.as_bytes())) {
        (0, Ok(again)) => {
            demand(again == bytes, || "built to other bytes".to_string())?;
            let by_tree = Table::read(bytes).and_then(|tree| tree.bytes());
            demand(by_tree.as_deref() == Ok(bytes), || {
                "another tree".to_string()
            })?;
            let other = table::build(spaced(&text).as_bytes());
            demand(other.as_deref() == Ok(bytes), || {
                "comments count".to_string()
            })?;
            let mut random = Random::new(bytes.len() as u64);
            (0..SLIPS).try_for_each(|_| slip(&text, &mut random))?;
        }
        (1.., Err(faults)) => same_faults(&text, &checked.faults, &faults)?,
        (_, built) => return Err(format!("number {number}, but {built:?}")),
    }
    Ok(Some(number))
}

/// The text with comments, tabs and returns.
fn spaced(text: &str) -> String {
    let lines = text.lines().map(|line| {
        let bare = line.trim_start();
        let tabs = "\t".repeat((line.len() - bare.len()) / 4);
        format!("{tabs}{bare}\t# \"a (comment\r\n\n")
    });
    format!("# before\n{}", lines.collect::<String>())
}

/// A text with a byte changed, left out or doubled, or cut. It builds to a table
/// that is accepted, or each fault has a line of the text.
fn slip(text: &str, random: &mut Random) -> Result<(), String> {
    let mut text = text.as_bytes().to_vec();
    let at = random.below(text.len());
    match random.below(5) {
        0 => text.truncate(at),
        1 => drop(text.remove(at)),
        2 => text.insert(at, text[at]),
        3 => text[at] = random.byte(),
        _ => text[at] = *random.pick(b"\"(),:?=# \n\t0-eE.\\{}[]"),
    }
    let count = text.iter().filter(|&&byte| byte == b'\n').count() + 1;
    let told = || String::from_utf8_lossy(&text).into_owned();
    match table::build(&text) {
        Ok(bytes) => demand(number_of(&bytes) == 0, || format!("built from {}", told())),
        Err(faults) => {
            let is_within = |fault: &TextFault| (1..=count).contains(&fault.line);
            let holds = !faults.is_empty() && faults.iter().all(is_within);
            demand(holds, || format!("{faults:?} in {}", told()))
        }
    }
}

/// What a text is told of is what its bytes are told of, at the record's lines.
fn same_faults(text: &str, faults: &[Fault], told: &[TextFault]) -> Result<(), String> {
    demand(faults.len() == told.len(), || "other faults".to_string())?;
    let words = ["node", "edition", "module", "note", "parameter", "command"];
    let lines = text.lines().zip(1..);
    let begins = |line: &str| words.contains(&line.split_whitespace().next().unwrap_or(""));
    let begin: Vec<usize> = lines
        .filter(|(line, _)| begins(line))
        .map(|(_, at)| at)
        .collect();
    faults.iter().zip(told).try_for_each(|(fault, told)| {
        let is_same = told.number == Some(fault.number) && told.rule == fault.rule;
        demand(is_same, || format!("{told} for {fault}"))?;
        let record = fault.record.max(1);
        let from = begin.get(record - 1).copied().unwrap_or(usize::MAX);
        let to = begin.get(record).copied().unwrap_or(usize::MAX);
        let is_end = fault.whose == "end" || fault.record == 0;
        demand(is_end || (from..to).contains(&told.line), || {
            format!("{told} for {fault}")
        })
    })
}

/// A table with a parameter of a datainfo and a value, and one that doesn't fit.
fn with_value(datainfo: &[u8], text: &[u8]) -> Vec<u8> {
    let length = (text.len() as u16).to_be_bytes();
    let front: &[u8] = b"ND\0\0MO\x01m\0PA\x01p\0\0";
    [front, datainfo, &length, text, MISFIT, b"EN"].concat()
}

/// Such a table is told of the value exactly if it doesn't fit.
fn judge_value(bytes: &[u8], fits: bool) -> Result<(), String> {
    let faults = table::check(bytes).faults;
    let is_told = faults.iter().any(|fault| fault.whose == "parameter m:p");
    let is_five = faults.iter().all(|fault| fault.number == 5);
    demand(is_five && is_told != fits, || {
        format!("fits: {fits}, told: {faults:?}")
    })
}
