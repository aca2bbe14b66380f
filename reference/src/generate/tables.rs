//! Tables: good ones, and faulty ones whose number is known by how they are
//! made.

use super::borders;
use super::datainfos;
use super::encode::{self, Encoded};
use super::names::{self, Scope};
use super::values;
use crate::datainfo::Datainfo;
use crate::random::Random;
use crate::refusal::{Refusal, ACCEPTED};
use crate::report;
use crate::table::{
    Accessible, Kind, Module, Table, MAX_ACCESSIBLES, MAX_MODULES, MAX_REPORT, MAX_TABLE,
};
use crate::value::MAX_STORED;

/// A table with the number that is due for it, where that is known.
#[derive(Clone, Debug)]
pub struct Made {
    pub bytes: Vec<u8>,
    pub number: Option<u8>,
}

/// Any table: good, faulty, at a border or damaged somewhere.
pub fn any(random: &mut Random) -> Made {
    match random.below(20) {
        0..=7 => Made {
            bytes: encode::table(&good(random)),
            number: Some(ACCEPTED),
        },
        8..=15 => faulty(random),
        16..=17 => {
            let borders = borders::all();
            let border = random.pick(&borders);
            Made {
                bytes: border.bytes.clone(),
                number: Some(border.number),
            }
        }
        _ => Made {
            bytes: damaged(random),
            number: None,
        },
    }
}

/// A good table.
pub fn good(random: &mut Random) -> Table {
    loop {
        let table = draft(random);
        let short = encode::table(&table).len() <= MAX_TABLE;
        if short && report::write(&table).len() <= MAX_REPORT {
            return table;
        }
    }
}

/// A table that is good but for its length, perhaps.
fn draft(random: &mut Random) -> Table {
    let mut scope = Scope::default();
    let module_count = match random.below(12) {
        0 => MAX_MODULES,
        _ => random.between(1, 4),
    };
    let crowded = random.one_in(15);
    let modules = (0..module_count).map(|_| {
        let most = if crowded { MAX_ACCESSIBLES } else { 20 } / module_count;
        let count = if crowded {
            most
        } else {
            random.between(0, most.min(6))
        };
        Module {
            name: scope.fresh(random),
            description: names::text(random),
            note: random.one_in(4).then(|| names::text(random)),
            accessibles: accessibles(random, count),
        }
    });
    let modules = modules.collect();
    Table {
        equipment_id: names::text(random),
        description: names::text(random),
        edition: random.one_in(3).then(|| names::edition(random)),
        modules,
    }
}

fn accessibles(random: &mut Random, count: usize) -> Vec<Accessible> {
    let mut scope = Scope::default();
    (0..count)
        .map(|_| Accessible {
            name: scope.fresh(random),
            description: names::text(random),
            kind: if random.one_in(4) {
                command(random)
            } else {
                parameter(random)
            },
        })
        .collect()
}

fn command(random: &mut Random) -> Kind {
    Kind::Command {
        argument: random.one_in(2).then(|| datainfos::good(random, 4)),
    }
}

/// A parameter with an initial value that fits; where a datainfo asks for too
/// long a value, another one is tried.
fn parameter(random: &mut Random) -> Kind {
    loop {
        let levels = random.between(1, 4);
        let datainfo = datainfos::good(random, levels);
        let initial = initial(random, &datainfo);
        if initial.len() <= MAX_STORED {
            return Kind::Parameter {
                readonly: random.one_in(3),
                datainfo,
                initial,
            };
        }
    }
}

/// Any fitting value, or one as long as can be.
fn initial(random: &mut Random, datainfo: &Datainfo) -> Vec<u8> {
    let longest = if random.one_in(8) {
        values::fitting_of_length(random, datainfo, MAX_STORED)
    } else {
        None
    };
    longest.unwrap_or_else(|| values::fitting(random, datainfo))
}

/// A table with one to four faults of different numbers; the lowest is due.
pub fn faulty(random: &mut Random) -> Made {
    let count = *random.pick(&[1, 1, 1, 2, 2, 3, 4]);
    let mut numbers = [1, 2, 3, 4, 5, 6];
    for at in 0..count {
        numbers.swap(at, random.between(at, 5));
    }
    with_faults(random, &numbers[..count])
}

/// A table with a fault of each number given.
pub fn with_faults(random: &mut Random, numbers: &[u8]) -> Made {
    let layout = Refusal::Layout.number();
    loop {
        let mut table = draft(random);
        // Downwards, so that a table without modules stays without.
        for number in (2..=6).rev().filter(|number| numbers.contains(number)) {
            add_fault(random, &mut table, number);
        }
        let bytes = if numbers.contains(&layout) {
            with_broken_layout(random, &mut table)
        } else {
            encode::table(&table)
        };
        if numbers.contains(&layout) || !has_unasked_fault(&table, &bytes, numbers) {
            return Made {
                bytes,
                number: numbers.iter().copied().min(),
            };
        }
    }
}

/// Whether the table came out too long or too crowded, which isn't asked for.
fn has_unasked_fault(table: &Table, bytes: &[u8], numbers: &[u8]) -> bool {
    let crowded = table.modules.len() > MAX_MODULES || count_accessibles(table) > MAX_ACCESSIBLES;
    bytes.len() > MAX_TABLE || crowded && !numbers.contains(&Refusal::Counts.number())
}

fn count_accessibles(table: &Table) -> usize {
    table.modules.iter().map(|one| one.accessibles.len()).sum()
}

/// Adds a fault that shows in the tree. Faults of higher numbers may come
/// with it, lower ones don't.
fn add_fault(random: &mut Random, table: &mut Table, number: u8) {
    match number {
        2 => wrong_counts(random, table),
        3 => bad_name_or_text(random, table),
        4 => add_command(random, table, Some(datainfos::breaking_rules)),
        5 => add_unfit_initial(random, table),
        6 => (0..4).for_each(|_| add_command(random, table, Some(|_| datainfos::bulky(4)))),
        _ => {}
    }
}

/// A module to put something in.
fn some_module<'a>(random: &mut Random, table: &'a mut Table) -> &'a mut Module {
    if table.modules.is_empty() {
        table.modules.push(Module {
            name: names::good(random),
            description: Vec::new(),
            note: None,
            accessibles: Vec::new(),
        });
    }
    let at = random.below(table.modules.len());
    &mut table.modules[at]
}

/// Adds an accessible with a name of its own at any place of some module.
fn add_accessible(random: &mut Random, table: &mut Table, kind: Kind) {
    let module = some_module(random, table);
    let name = (0..)
        .map(|number| format!("_added{number}").into_bytes())
        .find(|name| {
            let taken = |one: &Accessible| one.name.eq_ignore_ascii_case(name);
            !module.accessibles.iter().any(taken)
        })
        .unwrap_or_default();
    let at = random.between(0, module.accessibles.len());
    let description = names::text(random);
    module.accessibles.insert(
        at,
        Accessible {
            name,
            description,
            kind,
        },
    );
}

fn add_command(
    random: &mut Random,
    table: &mut Table,
    argument: Option<fn(&mut Random) -> Datainfo>,
) {
    let argument = argument.map(|make| make(random));
    add_accessible(random, table, Kind::Command { argument });
}

/// No module, one too many, or an accessible too many.
fn wrong_counts(random: &mut Random, table: &mut Table) {
    match random.below(3) {
        0 => table.modules.clear(),
        1 => {
            while table.modules.len() <= MAX_MODULES {
                let name = format!("_module{}", table.modules.len());
                table.modules.push(Module {
                    name: name.into_bytes(),
                    description: Vec::new(),
                    note: None,
                    accessibles: Vec::new(),
                });
            }
        }
        _ => {
            let count = count_accessibles(table);
            (count..=MAX_ACCESSIBLES).for_each(|_| add_command(random, table, None));
        }
    }
}

fn bad_name_or_text(random: &mut Random, table: &mut Table) {
    match random.below(11) {
        0 => table.equipment_id = names::bad_text(random),
        1 => table.description = names::bad_text(random),
        2 => some_module(random, table).description = names::bad_text(random),
        3 => some_module(random, table).note = Some(names::bad_text(random)),
        4 => some_module(random, table).name = names::bad(random),
        5 => repeat_module(random, table),
        6 => repeat_accessible(random, table),
        7 => {
            add_command(random, table, None);
            change_last_accessible(table, |one| one.name = names::bad(random));
        }
        8 => {
            add_command(random, table, None);
            change_last_accessible(table, |one| one.description = names::bad_text(random));
        }
        9 => table.edition = Some(names::bad_edition(random)),
        _ if random.one_in(2) => add_command(random, table, Some(datainfos::with_bad_name)),
        _ => {
            let datainfo = datainfos::with_bad_name(random);
            let initial = b"null".to_vec();
            add_accessible(
                random,
                table,
                Kind::Parameter {
                    readonly: false,
                    datainfo,
                    initial,
                },
            );
        }
    }
}

fn repeat_module(random: &mut Random, table: &mut Table) {
    let mut again = some_module(random, table).clone();
    again.name = names::other_case(random, &again.name);
    again.accessibles.clear();
    table.modules.push(again);
}

fn repeat_accessible(random: &mut Random, table: &mut Table) {
    add_command(random, table, None);
    for module in &mut table.modules {
        if let Some(one) = module.accessibles.first().cloned() {
            let again = Accessible {
                name: names::other_case(random, &one.name),
                kind: Kind::Command { argument: None },
                ..one
            };
            module.accessibles.push(again);
            return;
        }
    }
}

fn change_last_accessible(table: &mut Table, change: impl FnOnce(&mut Accessible)) {
    let mut all = table
        .modules
        .iter_mut()
        .flat_map(|one| &mut one.accessibles);
    if let Some(first) = all.next() {
        change(all.last().unwrap_or(first));
    }
}

/// Adds a parameter with an initial value that can't be one.
fn add_unfit_initial(random: &mut Random, table: &mut Table) {
    let numbers = Datainfo::Array {
        minlen: 1,
        maxlen: 2,
        members: Box::new(Datainfo::Int { min: 0, max: 9 }),
    };
    let text = Datainfo::String {
        minchars: 1,
        maxchars: 400,
    };
    let (datainfo, initial) = if random.one_in(2) {
        let unfit = [
            "", " ", "null", "1", "[]", "[1,2,3]", "[10]", "[-1]", "[1.0]", "[true]", "[01]",
            "[1, 2]", " [1]", "[1] ", "[1", "[1]]", "[\t1]", "{}", "\"[1]\"",
        ];
        (numbers, random.pick(&unfit).as_bytes().to_vec())
    } else {
        let too_long = format!("\"{}\"", "x".repeat(random.between(255, 399)));
        let unfit = [
            "\"\"",
            "a",
            "\"a",
            "\"\\u0080\"",
            "\"\u{7f}\"",
            "\"a\" ",
            &too_long,
        ];
        (text, random.pick(&unfit).as_bytes().to_vec())
    };
    let readonly = random.one_in(2);
    add_accessible(
        random,
        table,
        Kind::Parameter {
            readonly,
            datainfo,
            initial,
        },
    );
}

/// The table's bytes with a layout that can't be read.
fn with_broken_layout(random: &mut Random, table: &mut Table) -> Vec<u8> {
    if random.one_in(8) {
        add_command(random, table, Some(datainfos::too_deep));
        return encode::table(table);
    }
    let mut encoded = encode::encoded(table);
    break_layout(random, &mut encoded);
    encoded.bytes
}

fn break_layout(random: &mut Random, table: &mut Encoded) {
    let record = *random.pick(&table.records);
    match random.below(9) {
        0..=1 => {
            let length = random.below(table.bytes.len());
            table.bytes.truncate(length);
        }
        2 => {
            let added = random.pick(&["\0", "EN", "MO\x01z\0", "CM\x01z\0\0EN"]);
            table.bytes.extend(added.bytes());
        }
        3 if !table.flags.is_empty() => {
            let flag = *random.pick(&table.flags);
            table.bytes[flag] = random.between(2, 255) as u8;
        }
        4 if !table.types.is_empty() => {
            let place = *random.pick(&table.types);
            table.bytes[place] = *random.pick(&[0, 11, 12, 128, 255]);
        }
        5 => table.bytes[record] = table.bytes[record].to_ascii_lowercase(),
        6 => insert(table, record, b"ND\0\0"),
        7 => insert_edition(random, table),
        _ => insert_note(random, table),
    }
}

fn insert(table: &mut Encoded, at: usize, record: &[u8]) {
    table.bytes.splice(at..at, record.iter().copied());
}

/// A note that doesn't stand straight after a module.
fn insert_note(random: &mut Random, table: &mut Encoded) {
    let not_after_module: Vec<usize> = table
        .records
        .windows(2)
        .filter(|pair| !table.bytes[pair[0]..].starts_with(b"MO"))
        .map(|pair| pair[1])
        .collect();
    let at = *random.pick(&not_after_module);
    insert(table, at, b"NO\x01n");
}

/// An edition that doesn't stand straight after the head, or a second one.
fn insert_edition(random: &mut Random, table: &mut Encoded) {
    let edited = table.bytes[table.records[1]..].starts_with(b"ED");
    let first = if edited { 1 } else { 2 };
    let at = match table.records.get(first..) {
        Some(later) if !later.is_empty() => *random.pick(later),
        _ => 0,
    };
    insert(table, at, b"ED\x0bISSE,SECoP,");
}

/// A good table with some bytes changed at random.
fn damaged(random: &mut Random) -> Vec<u8> {
    let mut bytes = encode::table(&good(random));
    for _ in 0..random.between(1, 3) {
        let at = random.below(bytes.len());
        match random.below(4) {
            0 => bytes[at] = random.byte(),
            1 => bytes[at] ^= 1 << random.below(8),
            2 => bytes[at] = bytes[at].wrapping_add(1),
            _ => {
                let byte = random.byte();
                bytes.insert(at, byte);
            }
        }
    }
    bytes
}
