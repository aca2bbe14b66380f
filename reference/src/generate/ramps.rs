//! Modules with a target and a status, which becomes busy before the target
//! is set, or is not one that does.

use super::encode;
use super::names;
use super::parts::{array, digit, enumeration, string, structure};
use super::values;
use crate::datainfo::Datainfo;
use crate::random::Random;
use crate::table::{Accessible, Kind, Module, Table};

/// Puts a target and a status into some module, in place of what has nearly
/// their names there; a table that is no good then stays as it was.
pub(super) fn add(random: &mut Random, table: &mut Table) {
    let mut changed = table.clone();
    let at = random.below(changed.modules.len());
    let module = &mut changed.modules[at];
    for (name, other, datainfo) in [
        ("target", "Target", digit()),
        ("status", "STATUS", status(random)),
    ] {
        module
            .accessibles
            .retain(|one| !one.name.eq_ignore_ascii_case(name.as_bytes()));
        let name = if random.one_in(8) { other } else { name };
        put(random, module, name, datainfo);
    }
    if Table::judge(&encode::table(&changed)).is_ok() {
        *table = changed;
    }
}

/// A parameter, or now and then a command, of this name at any place.
fn put(random: &mut Random, module: &mut Module, name: &str, datainfo: Datainfo) {
    let initial = values::fitting(random, &datainfo);
    let kind = if random.one_in(10) {
        Kind::Command { argument: None }
    } else {
        Kind::Parameter {
            readonly: random.one_in(3),
            datainfo,
            initial,
        }
    };
    let at = random.between(0, module.accessibles.len());
    let accessible = Accessible {
        name: name.as_bytes().to_vec(),
        description: names::text(random),
        kind,
    };
    module.accessibles.insert(at, accessible);
}

/// The datainfo of a status: mostly one that admits busy, else one that nearly
/// does. Its text has 14 characters.
pub(super) fn status(random: &mut Random) -> Datainfo {
    let codes = enumeration(&[("IDLE", 100), ("BUSY", 300), ("ERROR", 400)]);
    let number = |min, max| Datainfo::Int { min, max };
    let of = |code: Datainfo, text: Datainfo| Datainfo::Tuple(vec![code, text]);
    match random.below(16) {
        0 => of(codes, string(0, 13)),
        1 => of(codes, string(15, 20)),
        2 => of(enumeration(&[("IDLE", 100), ("BUSY", 301)]), string(0, 20)),
        3 => of(number(0, 299), string(0, 20)),
        4 => of(codes, enumeration(&[("target", 1), ("changed", 2)])),
        5 => structure(&[("code", codes), ("text", string(0, 20))]),
        6 => Datainfo::Tuple(vec![codes, string(0, 20), digit()]),
        7 => array(0, 4, codes),
        8 => of(number(300, 300), string(14, 14)),
        9 | 10 => of(number(0, 999), string(0, 40)),
        _ => of(codes, string(0, 14)),
    }
}
