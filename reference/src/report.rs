//! The structure report, written key by key in its fixed order and without
//! spaces. Names and texts hold neither quotes nor backslashes, so they are
//! put between quotes as they are.

use crate::datainfo::{Datainfo, Limit};
use crate::table::{Accessible, Kind, Module, Table};

/// Writes the report of a table.
pub fn write(table: &Table) -> Vec<u8> {
    let modules = table
        .modules
        .iter()
        .map(|module| (&module.name[..], module_report(module)));
    object([
        (&b"modules"[..], object(modules)),
        (b"equipment_id", quoted(&table.equipment_id)),
        (b"description", quoted(&table.description)),
    ])
}

/// A module's note is not told.
fn module_report(module: &Module) -> Vec<u8> {
    let accessibles = module
        .accessibles
        .iter()
        .map(|accessible| (&accessible.name[..], accessible_report(accessible)));
    object([
        (&b"interface_classes"[..], b"[]".to_vec()),
        (b"description", quoted(&module.description)),
        (b"accessibles", object(accessibles)),
    ])
}

/// A command's report has no `readonly`.
fn accessible_report(accessible: &Accessible) -> Vec<u8> {
    let description = quoted(&accessible.description);
    match &accessible.kind {
        Kind::Parameter {
            readonly, datainfo, ..
        } => object([
            (&b"description"[..], description),
            (b"readonly", number(readonly)),
            (b"datainfo", own_report(datainfo)),
        ]),
        Kind::Command { argument } => object([
            (&b"description"[..], description),
            (b"datainfo", command_report(argument.as_ref())),
        ]),
    }
}

fn command_report(argument: Option<&Datainfo>) -> Vec<u8> {
    let mut members = vec![(&b"type"[..], quoted(b"command"))];
    if let Some(argument) = argument {
        members.push((b"argument", datainfo_report(argument)));
    }
    object(members)
}

/// The report of a parameter's own datainfo: only there optional members are
/// told.
fn own_report(datainfo: &Datainfo) -> Vec<u8> {
    let told = match datainfo {
        Datainfo::Partial { optional, members } => members
            .iter()
            .zip(optional)
            .filter(|(_, optional)| **optional)
            .map(|((name, _), _)| &name[..])
            .collect(),
        _ => Vec::new(),
    };
    written(datainfo, &told)
}

/// The report of a datainfo inside another, or of an argument.
pub fn datainfo_report(datainfo: &Datainfo) -> Vec<u8> {
    written(datainfo, &[])
}

/// Its type, then its other keys.
fn written(datainfo: &Datainfo, optional: &[&[u8]]) -> Vec<u8> {
    let (type_name, keys) = type_and_keys(datainfo, optional);
    let mut members = vec![(&b"type"[..], quoted(type_name))];
    members.extend(keys);
    object(members)
}

type Members = Vec<(&'static [u8], Vec<u8>)>;

fn type_and_keys(datainfo: &Datainfo, optional: &[&[u8]]) -> (&'static [u8], Members) {
    match datainfo {
        Datainfo::Double { min, max } => {
            (b"double", vec![(b"min", limit(min)), (b"max", limit(max))])
        }
        Datainfo::Int { min, max } => (b"int", vec![(b"min", number(min)), (b"max", number(max))]),
        Datainfo::Bool => (b"bool", Vec::new()),
        Datainfo::Enum(members) => {
            let members = members
                .iter()
                .map(|(name, value)| (&name[..], number(value)));
            (b"enum", vec![(b"members", object(members))])
        }
        Datainfo::String { minchars, maxchars } => (
            b"string",
            vec![
                (b"minchars", number(minchars)),
                (b"maxchars", number(maxchars)),
            ],
        ),
        Datainfo::Array {
            minlen,
            maxlen,
            members,
        } => (
            b"array",
            vec![
                (b"minlen", number(minlen)),
                (b"maxlen", number(maxlen)),
                (b"members", datainfo_report(members)),
            ],
        ),
        Datainfo::Tuple(members) => {
            let members = members.iter().map(datainfo_report);
            (b"tuple", vec![(b"members", list(members))])
        }
        Datainfo::Struct(members) => (b"struct", vec![(b"members", members_report(members))]),
        Datainfo::Partial { members, .. } => (
            b"struct",
            vec![
                (b"members", members_report(members)),
                (b"optional", list(optional.iter().map(|name| quoted(name)))),
            ],
        ),
        Datainfo::Scaled { scale, min, max } => (
            b"scaled",
            vec![
                (b"scale", limit(scale)),
                (b"min", number(min)),
                (b"max", number(max)),
            ],
        ),
        Datainfo::Blob { minbytes, maxbytes } => (
            b"blob",
            vec![
                (b"minbytes", number(minbytes)),
                (b"maxbytes", number(maxbytes)),
            ],
        ),
    }
}

fn members_report(members: &[(Vec<u8>, Datainfo)]) -> Vec<u8> {
    let members = members.iter();
    object(members.map(|(name, member)| (&name[..], datainfo_report(member))))
}

/// The mantissa, then `e` and the power unless that is 0.
fn limit(limit: &Limit) -> Vec<u8> {
    match limit.power {
        0 => number(limit.mantissa),
        power => number(format_args!("{}e{power}", limit.mantissa)),
    }
}

/// A number, or the word true or false.
fn number(plain: impl ToString) -> Vec<u8> {
    plain.to_string().into_bytes()
}

fn quoted(text: &[u8]) -> Vec<u8> {
    [b"\"", text, b"\""].concat()
}

fn object<'a>(members: impl IntoIterator<Item = (&'a [u8], Vec<u8>)>) -> Vec<u8> {
    let members: Vec<_> = members
        .into_iter()
        .map(|(key, value)| [quoted(key), value].join(&b':'))
        .collect();
    [b"{", members.join(&b',').as_slice(), b"}"].concat()
}

fn list(elements: impl Iterator<Item = Vec<u8>>) -> Vec<u8> {
    let elements: Vec<_> = elements.collect();
    [b"[", elements.join(&b',').as_slice(), b"]"].concat()
}
