//! How long the structure report of a table is. The library writes it; this
//! measures it for a table that the library refuses.

use super::datainfo::{Datainfo, Decimal, Member};
use super::tree::{Access, Accessible, Kind, Module, Table};

pub(super) fn length(table: &Table) -> usize {
    let modules = object(table.modules.iter().map(|one| (&one.name, module(one))));
    let (id, description) = (&table.equipment_id, &table.description);
    let report =
        format!(r#"{{"modules":{modules},"equipment_id":"{id}","description":"{description}"}}"#);
    report.len()
}

fn module(module: &Module) -> String {
    let accessibles = module.accessibles.iter();
    let accessibles = object(accessibles.map(|one| (&one.name, accessible(one))));
    let description = &module.description;
    format!(
        r#"{{"interface_classes":[],"description":"{description}","accessibles":{accessibles}}}"#
    )
}

fn accessible(accessible: &Accessible) -> String {
    let description = &accessible.description;
    match &accessible.kind {
        Kind::Parameter {
            access, datainfo, ..
        } => {
            let readonly = *access == Access::ReadOnly;
            let told = parameter_type(datainfo);
            format!(r#"{{"description":"{description}","readonly":{readonly},"datainfo":{told}}}"#)
        }
        Kind::Command { argument } => {
            let argument = argument.iter();
            let argument = argument.map(|of| format!(r#","argument":{}"#, datainfo(of)));
            let argument: String = argument.collect();
            format!(
                r#"{{"description":"{description}","datainfo":{{"type":"command"{argument}}}}}"#
            )
        }
    }
}

/// Only a parameter's own optional members are told.
fn parameter_type(own: &Datainfo) -> String {
    match own {
        Datainfo::Partial(all) => {
            let optional = all.iter().filter(|member| member.optional);
            let optional: Vec<_> = optional.map(|one| format!("{:?}", one.name)).collect();
            let (members, optional) = (members(all), optional.join(","));
            format!(r#"{{"type":"struct","members":{members},"optional":[{optional}]}}"#)
        }
        _ => datainfo(own),
    }
}

fn datainfo(of: &Datainfo) -> String {
    let (name, keys) = match of {
        Datainfo::Double { min, max } => ("double", limits(decimal(min), decimal(max))),
        Datainfo::Int { min, max } => ("int", limits(min, max)),
        Datainfo::Bool => ("bool", String::new()),
        Datainfo::String { minchars, maxchars } => ("string", sizes("chars", *minchars, *maxchars)),
        Datainfo::Scaled { scale, min, max } => {
            let scale = decimal(scale);
            ("scaled", format!(r#","scale":{scale}{}"#, limits(min, max)))
        }
        Datainfo::Blob { minbytes, maxbytes } => ("blob", sizes("bytes", *minbytes, *maxbytes)),
        _ => with_members(of),
    };
    format!(r#"{{"type":"{name}"{keys}}}"#)
}

/// The name and the keys of a type that has members.
fn with_members(of: &Datainfo) -> (&'static str, String) {
    let (name, before, members, after) = match of {
        Datainfo::Enum(all) => {
            let all = all.iter().map(|(name, value)| (name, value.to_string()));
            ("enum", String::new(), object(all), "")
        }
        Datainfo::Array {
            minlen,
            maxlen,
            element,
        } => (
            "array",
            sizes("len", *minlen, *maxlen),
            datainfo(element),
            "",
        ),
        Datainfo::Tuple(all) => {
            let all: Vec<_> = all.iter().map(datainfo).collect();
            ("tuple", String::new(), format!("[{}]", all.join(",")), "")
        }
        Datainfo::Struct(all) => {
            let all = all.iter().map(|(name, of)| (name, datainfo(of)));
            ("struct", String::new(), object(all), "")
        }
        Datainfo::Partial(all) => ("struct", String::new(), members(all), r#","optional":[]"#),
        _ => unreachable!("the other types have no members"),
    };
    (name, format!(r#"{before},"members":{members}{after}"#))
}

fn sizes(what: &str, min: u16, max: u16) -> String {
    format!(r#","min{what}":{min},"max{what}":{max}"#)
}

fn limits(min: impl ToString, max: impl ToString) -> String {
    format!(r#","min":{},"max":{}"#, min.to_string(), max.to_string())
}

fn decimal(decimal: &Decimal) -> String {
    match decimal.power {
        0 => decimal.mantissa.to_string(),
        power => format!("{}e{power}", decimal.mantissa),
    }
}

fn members(all: &[Member]) -> String {
    object(all.iter().map(|one| (&one.name, datainfo(&one.datainfo))))
}

fn object<'a>(pairs: impl Iterator<Item = (&'a String, String)>) -> String {
    let pairs = pairs.map(|(key, value)| format!(r#""{key}":{value}"#));
    format!("{{{}}}", pairs.collect::<Vec<_>>().join(","))
}
