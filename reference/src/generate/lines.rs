//! Lines that clients might send, well-formed and not.

use super::names;
use super::values;
use crate::datainfo::Datainfo;
use crate::line::MAX_LINE;
use crate::random::Random;
use crate::table::Table;

/// What a specifier should name.
#[derive(Clone, Copy, PartialEq)]
enum Wanted {
    Parameter,
    Command,
}

/// A line with its end, which is sometimes an odd one.
pub fn line_with_end(random: &mut Random, table: &Table) -> Vec<u8> {
    let mut line = if random.one_in(25) {
        long_line(random)
    } else {
        line(random, table)
    };
    let end: &[u8] = match random.below(30) {
        0 => b"\r\r\n",
        1..=8 => b"\r\n",
        _ => b"\n",
    };
    line.extend_from_slice(end);
    line
}

/// A line without its end.
pub fn line(random: &mut Random, table: &Table) -> Vec<u8> {
    match random.below(50) {
        0 => plain_request(random, "*IDN?"),
        1 => plain_request(random, "describe"),
        2..=3 => plain_request(random, "ping"),
        4..=8 => activation(random, table, "activate"),
        9 => activation(random, table, "deactivate"),
        10..=15 => read(random, table),
        16..=22 if !table.commands().is_empty() || random.one_in(7) => command(random, table),
        16..=40 => change(random, table, "change"),
        41..=42 => change(random, table, "check"),
        43 => unknown_action(random, table),
        44 => random
            .pick(&["", "", " ", "  ", "   x"])
            .as_bytes()
            .to_vec(),
        45 => [b" ", &line(random, table)[..]].concat(),
        46 => with_odd_byte(random, table),
        47..=48 => plain_request(random, "_count"),
        _ => garbage(random),
    }
}

/// An action whose specifier is free, and its data ignored.
fn plain_request(random: &mut Random, action: &str) -> Vec<u8> {
    let rest = random.pick(&[
        "", "", "", " ", "  ", " 123", " a:b:c", " x y", "  y", " . {", " \"\\", "   ", " T 1 2 3",
    ]);
    format!("{action}{rest}").into_bytes()
}

fn activation(random: &mut Random, table: &Table, action: &str) -> Vec<u8> {
    let module = match random.below(8) {
        0..=2 => Vec::new(),
        3 => names::bad(random),
        _ => module_name(random, table),
    };
    let tail = random.pick(&["", "", "", ":", ":x", ":!!", ":value x", " ", " {"]);
    match (module.is_empty(), random.one_in(2)) {
        (true, true) => action.as_bytes().to_vec(),
        _ => [action.as_bytes(), b" ", &module, tail.as_bytes()].concat(),
    }
}

fn read(random: &mut Random, table: &Table) -> Vec<u8> {
    let (specifier, _) = specifier(random, table, Wanted::Parameter);
    let data = random.pick(&["", "", "", " ", " null", " {", "  x"]);
    [b"read ", &specifier[..], data.as_bytes()].concat()
}

/// A change, or a check, which is written like one.
fn change(random: &mut Random, table: &Table, action: &str) -> Vec<u8> {
    let (specifier, datainfo) = specifier(random, table, Wanted::Parameter);
    let data = data(random, datainfo.as_ref());
    [action.as_bytes(), b" ", &specifier, &data].concat()
}

fn command(random: &mut Random, table: &Table) -> Vec<u8> {
    let (specifier, argument) = specifier(random, table, Wanted::Command);
    let data = match argument {
        Some(_) => data(random, argument.as_ref()),
        None => random
            .pick(&[
                "",
                "",
                " ",
                "   ",
                " null",
                "  null ",
                " nul",
                " 0",
                " {}",
                " [null]",
                " null null",
            ])
            .as_bytes()
            .to_vec(),
    };
    [b"do ", &specifier[..], &data].concat()
}

/// A space and a value, or no or nearly no data.
fn data(random: &mut Random, datainfo: Option<&Datainfo>) -> Vec<u8> {
    let datainfo = datainfo.unwrap_or(&Datainfo::Bool);
    match random.below(16) {
        0 => Vec::new(),
        1 => vec![b' '; random.between(1, 3)],
        2..=5 => [b" ", &values::sent(random, datainfo)[..]].concat(),
        6..=8 => [b" ", &values::partly(random, datainfo)[..]].concat(),
        9..=11 => [b" ", &values::nearly_fitting(random, datainfo)[..]].concat(),
        _ => [b" ", &values::any(random, datainfo)[..]].concat(),
    }
}

/// A specifier, mostly of something that is there, with the datainfo of what
/// it names.
fn specifier(random: &mut Random, table: &Table, wanted: Wanted) -> (Vec<u8>, Option<Datainfo>) {
    let there: Vec<(Vec<u8>, Option<Datainfo>)> = match wanted {
        Wanted::Parameter => parameters(table),
        Wanted::Command => commands(table),
    };
    if there.is_empty() || random.one_in(10) {
        return (odd_specifier(random, table), None);
    }
    let (mut specifier, datainfo) = random.pick(&there).clone();
    match random.below(24) {
        0 => specifier.extend_from_slice(b":"),
        1 => specifier.extend_from_slice(b":x:?"),
        2 => specifier = names::other_case(random, &specifier),
        3 => specifier.insert(0, b' '),
        _ => {}
    }
    (specifier, datainfo)
}

fn parameters(table: &Table) -> Vec<(Vec<u8>, Option<Datainfo>)> {
    table
        .parameters()
        .iter()
        .map(|one| {
            let specifier = [one.module_name, b":", one.name].concat();
            (specifier, Some(one.datainfo.clone()))
        })
        .collect()
}

fn commands(table: &Table) -> Vec<(Vec<u8>, Option<Datainfo>)> {
    table
        .commands()
        .iter()
        .map(|one| {
            let module_name = &table.modules[one.module].name[..];
            let specifier = [module_name, b":", one.name].concat();
            (specifier, one.argument.cloned())
        })
        .collect()
}

/// A specifier of something that is not there or can't be.
fn odd_specifier(random: &mut Random, table: &Table) -> Vec<u8> {
    let module = module_name(random, table);
    let other = module_name(random, table);
    let accessibles = table.modules.iter().flat_map(|one| &one.accessibles);
    let all: Vec<&[u8]> = accessibles.map(|one| &one.name[..]).collect();
    let accessible = match all.is_empty() {
        true => names::good(random),
        false => random.pick(&all).to_vec(),
    };
    let good = names::good(random);
    let bad: Vec<u8> = names::bad(random)
        .into_iter()
        .filter(|byte| *byte != b'\n')
        .collect();
    match random.below(10) {
        0 => Vec::new(),
        1 => module,
        2 => [&module[..], b"::", &accessible].concat(),
        3 => [b":", &accessible[..]].concat(),
        4 => [&module[..], b":"].concat(),
        5 => [&module[..], b":", &good].concat(),
        6 => [&good[..], b":", &accessible].concat(),
        7 => [&module[..], b":", &bad].concat(),
        8 => [&bad[..], b":", &accessible].concat(),
        _ => [&other[..], b":", &accessible].concat(),
    }
}

/// A module's name, sometimes with other letters' case or of none.
fn module_name(random: &mut Random, table: &Table) -> Vec<u8> {
    match random.below(10) {
        0 => names::good(random),
        1 => {
            let name = random.pick(&table.modules).name.clone();
            names::other_case(random, &name)
        }
        _ => random.pick(&table.modules).name.clone(),
    }
}

fn unknown_action(random: &mut Random, table: &Table) -> Vec<u8> {
    let action = random.pick(&[
        "READ",
        "Ping",
        "idn",
        "*IDN",
        "*IDN?x",
        "*idn?",
        "describe?",
        "logging",
        "Check",
        "checked",
        "_custom",
        "_Count",
        "_counts",
        "_counted",
        "update",
        "error_read",
        "changed",
        "meas:volt?",
        "help",
        "reading",
        "Do",
    ]);
    let (specifier, _) = specifier(random, table, Wanted::Parameter);
    match random.below(3) {
        0 => action.as_bytes().to_vec(),
        1 => [action.as_bytes(), b" ", &specifier].concat(),
        _ => [action.as_bytes(), b" ", &specifier, b" 1"].concat(),
    }
}

/// A line with one byte that may be outside 32 to 126.
fn with_odd_byte(random: &mut Random, table: &Table) -> Vec<u8> {
    let mut line = line(random, table);
    let at = random.between(0, line.len());
    line.insert(at, *random.pick(b"\0\x09\x0d\x1f\x7f\x80\xff\x20"));
    line
}

fn garbage(random: &mut Random) -> Vec<u8> {
    let length = random.between(1, 40);
    (0..length)
        .map(|_| match random.below(10) {
            0 => random.byte(),
            _ => random.between(32, 126) as u8,
        })
        .collect()
}

/// A line near the longest, sometimes with a return at its end, sometimes
/// much too long.
fn long_line(random: &mut Random) -> Vec<u8> {
    let length = match random.below(6) {
        0 => random.between(1_100, 2_500),
        _ => random.between(MAX_LINE - 2, MAX_LINE + 2),
    };
    let front = random.pick(&["ping ", "describe ", "x", " ", "deactivate  "]);
    let filler = *random.pick(b"xx 9");
    let mut line = front.as_bytes().to_vec();
    line.resize(length, filler);
    line
}
