//! The index beside the table (M-105 of document 02): 128 bytes that the caller
//! lends, filled once from the table, and the search that looks there first.

use crate::refusal::{demand, Refusal};
use crate::table::{Accessible, Table};

/// The bytes of an index; of a longer one the first so many count.
pub const INDEX: usize = 128;

/// A byte that no accessible has.
pub const FREE: u8 = 255;

/// The 32-bit FNV-1a hash.
pub fn hash(bytes: &[u8]) -> u32 {
    let join = |hash: u32, byte: &u8| (hash ^ u32::from(*byte)).wrapping_mul(0x0100_0193);
    bytes.iter().fold(0x811c_9dc5, join)
}

/// Where the place of an accessible starts, and a search for it.
pub fn start(module: &[u8], name: &[u8]) -> usize {
    hash(&[module, b":", name].concat()) as usize % INDEX
}

/// The accessibles in table order: parameters and commands together, each with
/// its module's name.
fn accessibles(table: &Table) -> Vec<(&[u8], &Accessible)> {
    let mut all = Vec::new();
    for module in &table.modules {
        all.extend(module.accessibles.iter().map(|one| (&module.name[..], one)));
    }
    all
}

/// Fills what is lent from a table. A refused filling writes nothing.
pub fn fill(table: &[u8], lent: &mut [u8]) -> Result<(), Refusal> {
    let table = Table::judge(table)?;
    demand(INDEX <= lent.len(), Refusal::Index)?;
    let index = &mut lent[..INDEX];
    index.fill(FREE);
    for (number, (module, one)) in accessibles(&table).into_iter().enumerate() {
        let mut place = start(module, &one.name);
        while index[place] != FREE {
            place = (place + 1) % INDEX;
        }
        index[place] = number as u8;
    }
    Ok(())
}

/// What a search finds, and how it went.
#[derive(Clone, Copy, Debug, Default, PartialEq)]
pub struct Sought {
    /// The accessible's number, over parameters and commands together.
    pub found: Option<usize>,
    /// How many bytes of the index were looked at.
    pub looked: usize,
    /// How many accessibles of the table were walked over.
    pub walked: usize,
}

impl Sought {
    pub fn steps(&self) -> usize {
        self.looked + self.walked
    }
}

/// Seeks an accessible by its names, with what is lent as an index: under 128
/// bytes it is none. Nothing is sought where there is no such module.
pub fn seek(table: &Table, lent: &[u8], module: &[u8], name: &[u8]) -> Option<Sought> {
    if !table.modules.iter().any(|one| one.name == module) {
        return None;
    }
    let all = accessibles(table);
    let is_named = |number: usize| match all.get(number) {
        Some((home, one)) => *home == module && one.name == name,
        None => false,
    };
    let mut sought = Sought::default();
    if let Some(index) = lent.get(..INDEX) {
        let first = start(module, name);
        for place in (first..INDEX).chain(0..first) {
            sought.looked += 1;
            if index[place] == FREE {
                break;
            }
            if is_named(usize::from(index[place])) {
                sought.found = Some(usize::from(index[place]));
                return Some(sought);
            }
        }
    }
    for number in 0..all.len() {
        sought.walked += 1;
        if is_named(number) {
            sought.found = Some(number);
            break;
        }
    }
    Some(sought)
}
