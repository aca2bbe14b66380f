//! Searches in a table for programs that read them from their standard input,
//! and the lines that such a program is to print.

use super::encode;
use super::names;
use crate::random::Random;
use crate::table::{Accessible, Kind, Module, Table};

/// A search in a table.
#[derive(Clone, Debug, PartialEq)]
pub enum Search {
    Module(Vec<u8>),
    /// A parameter by its module's name and its own.
    Parameter(Vec<u8>, Vec<u8>),
    /// A command by its module's name and its own.
    Command(Vec<u8>, Vec<u8>),
    /// A parameter by its number.
    Number(u8),
    /// How many modules there are.
    Modules,
}

impl Search {
    /// For a parameter where `of_parameter` says so, else for a command.
    fn accessible(of_parameter: bool, module: &[u8], name: &[u8]) -> Search {
        let (module, name) = (module.to_vec(), name.to_vec());
        if of_parameter {
            Search::Parameter(module, name)
        } else {
            Search::Command(module, name)
        }
    }

    /// A letter that says which search it is, then names with their lengths, or
    /// a number.
    pub fn encode(&self) -> Vec<u8> {
        let name = |name: &[u8]| [&[name.len() as u8], name].concat();
        match self {
            Search::Module(module) => [b"m", &name(module)[..]].concat(),
            Search::Parameter(module, one) => [b"p", &name(module)[..], &name(one)].concat(),
            Search::Command(module, one) => [b"c", &name(module)[..], &name(one)].concat(),
            Search::Number(number) => vec![b'n', *number],
            Search::Modules => b"k".to_vec(),
        }
    }
}

/// Searches for everything in a table, and near misses.
pub fn of_table(random: &mut Random, table: &Table) -> Vec<Search> {
    let mut searches = vec![Search::Modules, Search::Module(Vec::new())];
    for (at, module) in table.modules.iter().enumerate() {
        searches.push(Search::Module(module.name.clone()));
        searches.extend(near(random, &module.name).map(Search::Module));
        let next = &table.modules[(at + 1) % table.modules.len()];
        for one in &module.accessibles {
            searches.extend(of_accessible(random, module, one, next));
        }
    }
    let count = table.parameters().len() as u8;
    searches.extend((0..=count).map(Search::Number));
    searches.push(Search::Number(255));
    searches
}

/// An accessible as what it is and as what it isn't, in another module, with
/// names that are nearly right, and with its names swapped.
fn of_accessible(
    random: &mut Random,
    module: &Module,
    one: &Accessible,
    next: &Module,
) -> Vec<Search> {
    let is_parameter = matches!(one.kind, Kind::Parameter { .. });
    let same = |module: &[u8], name: &[u8]| Search::accessible(is_parameter, module, name);
    let mut searches = vec![
        same(&module.name, &one.name),
        Search::accessible(!is_parameter, &module.name, &one.name),
        same(&next.name, &one.name),
        same(&one.name, &module.name),
    ];
    let near_module = near(random, &module.name);
    searches.push(same(&random.pick(&near_module)[..], &one.name));
    for name in near(random, &one.name) {
        searches.push(same(&module.name, &name));
    }
    searches
}

/// A name with other letters' case, one byte shorter and one byte longer.
fn near(random: &mut Random, name: &[u8]) -> [Vec<u8>; 3] {
    let longer = [name, random.pick(&[b"_", b"0", b"x"]).as_slice()].concat();
    [
        names::other_case(random, name),
        name[..name.len() - 1].to_vec(),
        longer,
    ]
}

/// An accessible with the line that is due where it is found.
struct Entry<'a> {
    is_parameter: bool,
    module: &'a [u8],
    name: &'a [u8],
    line: String,
}

/// A table's accessibles in order. Places are those where the encoder puts the
/// parts, not those where the reader takes them from.
fn entries(table: &Table) -> Vec<Entry<'_>> {
    let encoded = encode::encoded(table);
    let mut flags = encoded.flags.iter();
    let mut initials = encoded.initials.iter();
    let (mut parameters, mut commands) = (0.., 0..);
    let mut entries = Vec::new();
    for (home, module) in table.modules.iter().enumerate() {
        for one in &module.accessibles {
            let datainfo = flags.next().expect("a flag for each accessible") + 1;
            let line = match &one.kind {
                Kind::Parameter {
                    readonly, initial, ..
                } => {
                    let number = parameters.next().unwrap_or(0);
                    let readonly = if *readonly { " readonly" } else { "" };
                    let from = initials.next().expect("one for each parameter");
                    let to = from + initial.len();
                    format!("parameter {number} of {home}{readonly} datainfo {datainfo} initial {from} to {to}\n")
                }
                Kind::Command { argument } => {
                    let number = commands.next().unwrap_or(0);
                    match argument {
                        Some(_) => format!("command {number} of {home} argument {datainfo}\n"),
                        None => format!("command {number} of {home}\n"),
                    }
                }
            };
            entries.push(Entry {
                is_parameter: matches!(one.kind, Kind::Parameter { .. }),
                module: &module.name,
                name: &one.name,
                line,
            });
        }
    }
    entries
}

/// The lines due, one for each search.
pub fn lines(table: &Table, searches: &[Search]) -> String {
    let entries = entries(table);
    let named = |is_parameter: bool, module: &[u8], name: &[u8]| {
        entries
            .iter()
            .find(|one| {
                one.is_parameter == is_parameter && one.module == module && one.name == name
            })
            .map(|one| one.line.clone())
    };
    let numbered = |number: u8| {
        let mut parameters = entries.iter().filter(|one| one.is_parameter);
        parameters
            .nth(usize::from(number))
            .map(|one| one.line.clone())
    };
    let line = |search: &Search| match search {
        Search::Module(name) => module_line(table, name),
        Search::Parameter(module, name) => named(true, module, name),
        Search::Command(module, name) => named(false, module, name),
        Search::Number(number) => numbered(*number),
        Search::Modules => Some(format!("modules {}\n", table.modules.len())),
    };
    let lines = searches.iter().map(line);
    lines
        .map(|line| line.unwrap_or("none\n".to_string()))
        .collect()
}

fn module_line(table: &Table, name: &[u8]) -> Option<String> {
    let number = table.modules.iter().position(|one| one.name == name)?;
    let encoded = encode::encoded(table);
    let is_module = |at: &&usize| encoded.bytes[**at..].starts_with(b"MO");
    let at = encoded.records.iter().filter(is_module).nth(number)?;
    Some(format!("module {number} at {at}\n"))
}
