//! Parts that small tables are put together from. Descriptions are empty.

use crate::datainfo::{Datainfo, Limit};
use crate::table::{Accessible, Kind, Module, Table};

/// A table with the modules given.
pub(super) fn table(modules: Vec<Module>) -> Table {
    Table {
        equipment_id: b"s".to_vec(),
        description: Vec::new(),
        edition: None,
        modules,
    }
}

pub(super) fn module(name: &str, accessibles: Vec<Accessible>) -> Module {
    Module {
        name: name.as_bytes().to_vec(),
        description: Vec::new(),
        note: None,
        accessibles,
    }
}

/// A parameter that clients may change.
pub(super) fn parameter(name: &str, datainfo: Datainfo, initial: &str) -> Accessible {
    any_parameter(name, false, datainfo, initial)
}

/// A parameter that only readings set.
pub(super) fn readonly(name: &str, datainfo: Datainfo, initial: &str) -> Accessible {
    any_parameter(name, true, datainfo, initial)
}

fn any_parameter(name: &str, readonly: bool, datainfo: Datainfo, initial: &str) -> Accessible {
    Accessible {
        name: name.as_bytes().to_vec(),
        description: Vec::new(),
        kind: Kind::Parameter {
            readonly,
            datainfo,
            initial: initial.as_bytes().to_vec(),
        },
    }
}

pub(super) fn command(name: &str, argument: Option<Datainfo>) -> Accessible {
    Accessible {
        name: name.as_bytes().to_vec(),
        description: Vec::new(),
        kind: Kind::Command { argument },
    }
}

/// A double; limits are mantissa and power.
pub(super) fn double(min: (i64, i8), max: (i64, i8)) -> Datainfo {
    let limit = |(mantissa, power)| Limit { mantissa, power };
    Datainfo::Double {
        min: limit(min),
        max: limit(max),
    }
}

/// An int from 0 to 9.
pub(super) fn digit() -> Datainfo {
    Datainfo::Int { min: 0, max: 9 }
}

pub(super) fn enumeration(members: &[(&str, i32)]) -> Datainfo {
    let members = members.iter();
    Datainfo::Enum(
        members
            .map(|(name, value)| (name.as_bytes().to_vec(), *value))
            .collect(),
    )
}

pub(super) fn string(minchars: u16, maxchars: u16) -> Datainfo {
    Datainfo::String { minchars, maxchars }
}

pub(super) fn scaled(scale: (i64, i8), min: i64, max: i64) -> Datainfo {
    let (mantissa, power) = scale;
    let scale = Limit { mantissa, power };
    Datainfo::Scaled { scale, min, max }
}

pub(super) fn blob(minbytes: u16, maxbytes: u16) -> Datainfo {
    Datainfo::Blob { minbytes, maxbytes }
}

pub(super) fn array(minlen: u16, maxlen: u16, members: Datainfo) -> Datainfo {
    Datainfo::Array {
        minlen,
        maxlen,
        members: Box::new(members),
    }
}

pub(super) fn structure(members: &[(&str, Datainfo)]) -> Datainfo {
    let members = members.iter();
    Datainfo::Struct(
        members
            .map(|(name, member)| (name.as_bytes().to_vec(), member.clone()))
            .collect(),
    )
}
