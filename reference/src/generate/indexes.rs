//! Tables and operations on an index (M-105) for a program that reads them from
//! its standard input, and the lines that such a program is to print.

use super::names::{self, Scope};
use super::parts::{command, digit, module, parameter, table};
use super::{borders, encode, tables};
use crate::index::{self, FREE, INDEX};
use crate::random::Random;
use crate::table::{Accessible, Kind, Table, MAX_ACCESSIBLES, MAX_MODULES};
use crate::text::hex;

/// The bytes that the program keeps: an index, and some past it.
pub const KEPT: usize = 160;

/// What the program is to do with the bytes that it keeps.
#[derive(Clone, Debug, PartialEq)]
pub enum Operation {
    /// So many of them are lent to be filled.
    Fill(u8),
    /// The byte at a place becomes another.
    Write(u8, u8),
    /// So many of them are lent, and an accessible is sought by its module's
    /// name and its own.
    Seek(u8, Vec<u8>, Vec<u8>),
}

impl Operation {
    fn encode(&self) -> Vec<u8> {
        let name = |name: &[u8]| [&[name.len() as u8], name].concat();
        match self {
            Operation::Fill(length) => vec![b'f', *length],
            Operation::Write(place, byte) => vec![b'b', *place, *byte],
            Operation::Seek(length, module, one) => {
                [&[b's', *length], &name(module)[..], &name(one)].concat()
            }
        }
    }
}

/// A table and what is done with an index beside it.
#[derive(Clone, Debug, PartialEq)]
pub struct Case {
    pub bytes: Vec<u8>,
    pub operations: Vec<Operation>,
}

/// Tables whose accessibles start from places that are chosen, every table at a
/// border, then random ones. An index stays from one table to the next.
pub fn cases(seed: u64, count: usize) -> Vec<Case> {
    let mut random = Random::new(seed);
    let mut all: Vec<Case> = chosen()
        .iter()
        .map(|table| every_index(&mut random, table))
        .collect();
    let borders = borders::all().into_iter().map(|border| border.bytes);
    all.extend(borders.map(|bytes| filled(&mut random, bytes)));
    for turn in 0..count {
        all.push(match turn % 4 {
            0 => {
                let table = crowded(&mut random);
                every_index(&mut random, &table)
            }
            1 | 2 => {
                let table = tables::good(&mut random);
                every_index(&mut random, &table)
            }
            _ => {
                let bytes = tables::any(&mut random).bytes;
                filled(&mut random, bytes)
            }
        });
    }
    all
}

/// All accessibles start from one place, in the middle, so that it goes on round
/// the end, or at the end; and all from as few places as there can be.
fn chosen() -> Vec<Table> {
    [vec![100], vec![127], vec![126, 127, 0], vec![0]]
        .iter()
        .map(|places| starting_from(places))
        .collect()
}

/// A module with as many accessibles as there may be, of both kinds, which start
/// from the places in turn.
pub(super) fn starting_from(places: &[usize]) -> Table {
    let mut numbers = 0..;
    let mut one = |at: usize| {
        let place = places[at % places.len()];
        let names = numbers.by_ref().map(|number: u32| format!("a{number}"));
        let mut fitting = names.filter(|name| index::start(b"m", name.as_bytes()) == place);
        let name = fitting.next().expect("there is always another number");
        match at % 3 {
            0 => command(&name, None),
            _ => parameter(&name, digit(), "0"),
        }
    };
    let accessibles = (0..MAX_ACCESSIBLES).map(&mut one).collect();
    table(vec![module("m", accessibles)])
}

/// As many accessibles as there may be, with small datainfos.
fn crowded(random: &mut Random) -> Table {
    let mut scope = Scope::default();
    let count = random.between(1, MAX_MODULES);
    let mut modules: Vec<_> = (0..count)
        .map(|_| module(&text(scope.fresh(random)), Vec::new()))
        .collect();
    for home in &mut modules {
        let mut scope = Scope::default();
        let accessible = |_| any_accessible(random, &mut scope);
        home.accessibles = (0..MAX_ACCESSIBLES / count).map(accessible).collect();
    }
    table(modules)
}

fn any_accessible(random: &mut Random, scope: &mut Scope) -> Accessible {
    let name = text(scope.fresh(random));
    if random.one_in(3) {
        command(&name, None)
    } else {
        parameter(&name, digit(), "0")
    }
}

fn text(name: Vec<u8>) -> String {
    String::from_utf8_lossy(&name).into_owned()
}

/// A table that may be refused, with indexes of all lengths around 128 lent to
/// be filled.
fn filled(random: &mut Random, bytes: Vec<u8>) -> Case {
    let mut operations = vec![Operation::Write(random.below(KEPT) as u8, random.byte())];
    operations.extend([0, 1, 127, 128, 129, KEPT as u8].map(Operation::Fill));
    Case { bytes, operations }
}

/// An accepted table with its searches: with the index as it is, perhaps of
/// another table, with none, with one that is filled, scribbled, and without a
/// free byte.
fn every_index(random: &mut Random, table: &Table) -> Case {
    let mut operations = seek_some(random, table);
    operations.extend(seek_all(random, table, &[0]));
    operations.push(Operation::Fill(random.between(INDEX, KEPT) as u8));
    operations.extend(seek_all(random, table, &[INDEX, INDEX + 1, KEPT]));
    for _ in 0..random.between(1, 20) {
        let byte = *random.pick(&[FREE, 0, 63, 64, 254]);
        operations.push(Operation::Write(random.below(INDEX) as u8, byte));
    }
    operations.extend(seek_some(random, table));
    let bytes = (0..INDEX).map(|place| Operation::Write(place as u8, random.below(255) as u8));
    operations.extend(bytes.collect::<Vec<_>>());
    operations.extend(seek_some(random, table));
    Case {
        bytes: encode::table(table),
        operations,
    }
}

/// Every accessible is sought, and some that are not there.
fn seek_all(random: &mut Random, table: &Table, lengths: &[usize]) -> Vec<Operation> {
    let mut all = Vec::new();
    for home in &table.modules {
        for one in &home.accessibles {
            all.push((home.name.clone(), one.name.clone()));
        }
    }
    all.extend(misses(random, table));
    let seek = |(module, name)| Operation::Seek(*random.pick(lengths) as u8, module, name);
    all.into_iter().map(seek).collect()
}

/// Some accessibles are sought, and some that are not there.
fn seek_some(random: &mut Random, table: &Table) -> Vec<Operation> {
    let mut all = seek_all(random, table, &[INDEX, KEPT]);
    while all.len() > 8 {
        all.swap_remove(random.below(all.len()));
    }
    all
}

/// Names that are nearly right, of another module, or of none.
fn misses(random: &mut Random, table: &Table) -> Vec<(Vec<u8>, Vec<u8>)> {
    let mut all = vec![(b"nowhere".to_vec(), b"value".to_vec())];
    for home in &table.modules {
        let other = &random.pick(&table.modules).accessibles;
        let Some(one) = home.accessibles.first() else {
            all.push((home.name.clone(), b"value".to_vec()));
            continue;
        };
        all.push((home.name.clone(), names::other_case(random, &one.name)));
        all.push((names::other_case(random, &home.name), one.name.clone()));
        if let Some(other) = other.last() {
            all.push((home.name.clone(), other.name.clone()));
        }
    }
    all
}

/// For each table its length in three bytes, its bytes, the operations and a
/// byte 0 after them.
pub fn input(cases: &[Case]) -> Vec<u8> {
    let mut input = Vec::new();
    for Case { bytes, operations } in cases {
        input.extend_from_slice(&(bytes.len() as u32).to_be_bytes()[1..]);
        input.extend(bytes);
        operations
            .iter()
            .for_each(|operation| input.extend(operation.encode()));
        input.push(0);
    }
    input
}

/// A line for each filling and each search.
pub fn output(cases: &[Case]) -> String {
    let mut kept = [0; KEPT];
    let mut output = String::new();
    for Case { bytes, operations } in cases {
        for operation in operations {
            match operation {
                Operation::Fill(length) => {
                    let answer = index::fill(bytes, &mut kept[..usize::from(*length)]);
                    let number = answer.map_or_else(|refusal| refusal.number(), |()| 0);
                    output += &format!("fill {number} {}\n", hex(&kept));
                }
                Operation::Write(place, byte) => kept[usize::from(*place)] = *byte,
                Operation::Seek(length, module, name) => {
                    let table = Table::judge(bytes).expect("a table with searches is good");
                    output += &line(&table, &kept[..usize::from(*length)], module, name);
                }
            }
        }
    }
    output
}

/// What is found, with its number among its kind and its module's, and the
/// steps.
fn line(table: &Table, lent: &[u8], module: &[u8], name: &[u8]) -> String {
    let Some(sought) = index::seek(table, lent, module, name) else {
        return "no module steps 0\n".to_string();
    };
    let found = match sought.found {
        Some(number) => place(table, number),
        None => "none".to_string(),
    };
    format!("{found} steps {}\n", sought.steps())
}

/// The accessible of a number.
fn place(table: &Table, number: usize) -> String {
    let (mut parameters, mut commands) = (0, 0);
    let mut places = Vec::new();
    for (home, module) in table.modules.iter().enumerate() {
        for one in &module.accessibles {
            let (kind, count) = match one.kind {
                Kind::Parameter { .. } => ("parameter", &mut parameters),
                Kind::Command { .. } => ("command", &mut commands),
            };
            places.push(format!("{kind} {count} of {home}"));
            *count += 1;
        }
    }
    places[number].clone()
}
