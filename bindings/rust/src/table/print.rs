//! A table as a text: a line for each record.

use super::datainfo::{Datainfo, Decimal, Member};
use super::tree::{Access, Accessible, Kind, Table};

/// A longer line has the members of its datainfo on lines of their own.
const WIDTH: usize = 140;

/// A decimal with more places is written with a power.
const PLACES: usize = 12;

pub(super) fn table(table: &Table) -> String {
    let mut text = format!(
        "node \"{}\" \"{}\"\n",
        table.equipment_id, table.description
    );
    if let Some(edition) = &table.edition {
        text += &format!("edition \"{edition}\"\n");
    }
    for module in &table.modules {
        text += &format!("\nmodule {} \"{}\"\n", module.name, module.description);
        if let Some(note) = &module.note {
            text += &format!("    note \"{note}\"\n");
        }
        for one in &module.accessibles {
            text += &accessible(one);
        }
    }
    text
}

fn accessible(accessible: &Accessible) -> String {
    let Accessible {
        name,
        description,
        kind,
    } = accessible;
    let (front, of, end) = match kind {
        Kind::Parameter {
            access,
            datainfo,
            initial,
        } => {
            let readonly = match access {
                Access::ReadOnly => " readonly",
                Access::Write => "",
            };
            let front = format!("    parameter {name} \"{description}\"{readonly}");
            (front, Some(datainfo), format!(" = {initial}"))
        }
        Kind::Command { argument } => {
            let front = format!("    command {name} \"{description}\"");
            (front, argument.as_ref(), String::new())
        }
    };
    let Some(of) = of else {
        return front + "\n";
    };
    let line = format!("{front} {}{end}\n", datainfo(of));
    match line.len() <= WIDTH {
        true => line,
        false => format!("{front} {}{end}\n", broken(of)),
    }
}

pub(super) fn datainfo(of: &Datainfo) -> String {
    let (word, rest) = parts(of);
    match members(of) {
        Some(members) => format!("{word} ({})", members.join(", ")),
        None => format!("{word}{rest}"),
    }
}

/// The same with the outermost members on lines of their own.
fn broken(of: &Datainfo) -> String {
    let (word, _) = parts(of);
    match members(of) {
        Some(members) => format!("{word} (\n        {}\n    )", members.join(",\n        ")),
        None => datainfo(of),
    }
}

/// A type's word, and what follows it if that isn't in brackets.
fn parts(of: &Datainfo) -> (&'static str, String) {
    let range = |min: &dyn ToString, max: &dyn ToString| {
        let (min, max) = (min.to_string(), max.to_string());
        format!(" {min} to {max}")
    };
    match of {
        Datainfo::Double { min, max } => ("double", range(&decimal(min), &decimal(max))),
        Datainfo::Int { min, max } => ("int", range(min, max)),
        Datainfo::Bool => ("bool", String::new()),
        Datainfo::Enum(_) => ("enum", String::new()),
        Datainfo::String { minchars, maxchars } => ("string", range(minchars, maxchars)),
        Datainfo::Array {
            minlen,
            maxlen,
            element,
        } => {
            let range = range(minlen, maxlen);
            ("array", format!("{range} of {}", datainfo(element)))
        }
        Datainfo::Tuple(_) => ("tuple", String::new()),
        Datainfo::Struct(_) => ("struct", String::new()),
        Datainfo::Scaled { scale, min, max } => {
            let scale = decimal(scale);
            ("scaled", format!(" {scale} times{}", range(min, max)))
        }
        Datainfo::Blob { minbytes, maxbytes } => ("blob", range(minbytes, maxbytes)),
        Datainfo::Partial(_) => ("partial", String::new()),
    }
}

/// What a type has in brackets.
fn members(of: &Datainfo) -> Option<Vec<String>> {
    let member = |name: &str, of: &Datainfo| format!("{name}: {}", datainfo(of));
    let partial = |one: &Member| {
        let mark = if one.optional { "?" } else { "" };
        member(&format!("{}{mark}", one.name), &one.datainfo)
    };
    match of {
        Datainfo::Enum(all) => Some(
            all.iter()
                .map(|(name, of)| format!("{name}: {of}"))
                .collect(),
        ),
        Datainfo::Tuple(all) => Some(all.iter().map(datainfo).collect()),
        Datainfo::Struct(all) => Some(all.iter().map(|(name, of)| member(name, of)).collect()),
        Datainfo::Partial(all) => Some(all.iter().map(partial).collect()),
        _ => None,
    }
}

/// A decimal that is read back as the same mantissa and power.
pub(super) fn decimal(decimal: &Decimal) -> String {
    let Decimal { mantissa, power } = *decimal;
    let places = usize::from(power.unsigned_abs());
    if power == 0 {
        return mantissa.to_string();
    }
    if power > 0 || places > PLACES {
        return format!("{mantissa}e{power}");
    }
    let sign = if mantissa < 0 { "-" } else { "" };
    let digits = format!("{:0>width$}", mantissa.unsigned_abs(), width = places + 1);
    let (whole, places) = digits.split_at(digits.len() - places);
    format!("{sign}{whole}.{places}")
}
