//! Indexes as a host may lend them (M-105): none, one filled from the table,
//! one of another table, scribbled ones, and ones that are too short.

use super::{encode, tables};
use crate::index::{self, FREE, INDEX};
use crate::random::Random;
use crate::table::Table;

/// The most bytes past an index.
const PAST: usize = 128;

/// An index that no call is refused for; none has no bytes. Of a longer one the
/// bytes past it are any.
pub fn any(random: &mut Random, table: &Table) -> Vec<u8> {
    let index = match random.below(6) {
        0 => return Vec::new(),
        1 | 2 => filled(table),
        3 => stale(random, table),
        4 => scribbled(random, table),
        _ => vec![*random.pick(&[FREE, 0, 1, 63, 64, 254]); INDEX],
    };
    let past = *random.pick(&[0, 0, 1, PAST]);
    [index, (0..past).map(|_| random.byte()).collect()].concat()
}

/// Under 128 bytes, but some.
pub fn short(random: &mut Random) -> Vec<u8> {
    let length = *random.pick(&[1, 64, INDEX - 1]);
    (0..length).map(|_| random.byte()).collect()
}

pub(super) fn filled(table: &Table) -> Vec<u8> {
    let mut index = vec![0; INDEX];
    index::fill(&encode::table(table), &mut index).expect("a good table");
    index
}

/// Filled from another table: from any, or from this one as it was before its
/// accessibles were put in another order.
fn stale(random: &mut Random, table: &Table) -> Vec<u8> {
    if random.one_in(2) {
        return filled(&tables::good(random));
    }
    let mut before = table.clone();
    before.modules.reverse();
    for module in &mut before.modules {
        module.accessibles.reverse();
    }
    filled(&before)
}

/// Filled from this table, and some bytes then changed.
fn scribbled(random: &mut Random, table: &Table) -> Vec<u8> {
    let mut index = filled(table);
    for _ in 0..random.between(1, INDEX) {
        let place = random.below(INDEX);
        index[place] = *random.pick(&[FREE, 0, 1, 2, 63, 64, 254]);
    }
    index
}
