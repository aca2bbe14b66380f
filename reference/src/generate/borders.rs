//! Tables on both sides of each limit.

use super::datainfos;
use super::encode;
use super::parts::{self, array, blob, command, double, module, parameter, scaled, string};
use crate::base64;
use crate::datainfo::Datainfo;
use crate::report;
use crate::table::{Accessible, Table};

/// A table at a border, with the number due.
#[derive(Clone, Debug)]
pub struct Border {
    pub name: &'static str,
    pub bytes: Vec<u8>,
    pub number: u8,
}

/// All borders.
pub fn all() -> Vec<Border> {
    let mut borders = Vec::new();
    let mut add = |name, table: &Table, number| {
        borders.push(Border {
            name,
            bytes: encode::table(table),
            number,
        })
    };
    add("table of 16,384 bytes", &of_length(16_384), 0);
    add("table of 16,385 bytes", &of_length(16_385), 1);
    add("no module", &with_modules(0), 2);
    add("1 module", &with_modules(1), 0);
    add("16 modules", &with_modules(16), 0);
    add("17 modules", &with_modules(17), 2);
    add("64 accessibles", &with_accessibles(64), 0);
    add("65 accessibles", &with_accessibles(65), 2);
    add("64 parameters", &with_parameters(64), 0);
    add("65 parameters", &with_parameters(65), 2);
    add("name of 63 bytes", &with_name(63), 0);
    add("name of 64 bytes", &with_name(64), 3);
    add("initial value of 256 bytes", &with_initial(256), 0);
    for (name, initial, number) in initial_members() {
        add(name, &with_mode(initial), number);
    }
    add("initial value of 257 bytes", &with_initial(257), 5);
    add("initial blob of 189 bytes", &with_initial_blob(189), 0);
    add("initial blob of 190 bytes", &with_initial_blob(190), 5);
    add(
        "initial blob with an escape",
        &with_initial_of_blob("\\/"),
        5,
    );
    add(
        "initial scaled of a fraction",
        &with_initial_of_scaled("1.0"),
        5,
    );
    add(
        "initial scaled at its end",
        &with_initial_of_scaled("-7"),
        0,
    );
    add(
        "initial scaled past its end",
        &with_initial_of_scaled("-8"),
        5,
    );
    add("report of 32,000 bytes", &with_report(32_000), 0);
    add("report of 32,001 bytes", &with_report(32_001), 6);
    add("32,000 bytes and a note", &noted_report(32_000), 0);
    add("32,001 bytes and a note", &noted_report(32_001), 6);
    for (name, edition, number) in editions() {
        add(name, &with_edition(&edition), number);
    }
    for (name, datainfo, number) in [arguments(), scaled_and_blobs()].concat() {
        add(name, &table(vec![command("c", Some(datainfo))]), number);
    }
    borders
}

/// Texts of an `ED` record at a border, with the number due.
fn editions() -> Vec<(&'static str, String, u8)> {
    let begun = |rest: &str| format!("ISSE,SECoP,{rest}");
    vec![
        ("edition that only begins", begun(""), 0),
        ("edition with a blank", begun("V2021-02-17, v2 0"), 0),
        ("edition of 255 bytes", begun(&"x".repeat(244)), 0),
        ("edition without a text", String::new(), 3),
        (
            "edition without its last comma",
            "ISSE,SECoP".to_string(),
            3,
        ),
        ("edition that begins later", " ISSE,SECoP,".to_string(), 3),
        ("edition in other letters", "ISSE,SECOP,x".to_string(), 3),
        (
            "edition of before",
            "ISSE&SINE2020,SECoP,V2019-09-16,v1.0".to_string(),
            3,
        ),
        ("edition with a quote", begun("\""), 3),
        ("edition with a backslash", begun("\\"), 3),
        ("edition with a byte 127", begun("\u{7f}"), 3),
    ]
}

fn with_edition(text: &str) -> Table {
    Table {
        edition: Some(text.as_bytes().to_vec()),
        ..table(Vec::new())
    }
}

/// Datainfos at a border, with the number due.
fn arguments() -> Vec<(&'static str, Datainfo, u8)> {
    let enumeration = |count: i32| {
        let members = (0..count).map(|at| (format!("n{at}").into_bytes(), at));
        Datainfo::Enum(members.collect())
    };
    let tuple = |count| Datainfo::Tuple(vec![Datainfo::Bool; count]);
    let structure = |count: usize| {
        let members = (0..count).map(|at| (format!("n{at}").into_bytes(), Datainfo::Bool));
        Datainfo::Struct(members.collect())
    };
    let powers = |min: i8, max: i8| double((-1, min), (1, max));
    let int = |min, max| Datainfo::Int { min, max };
    vec![
        ("enum of none", enumeration(0), 4),
        ("enum of 1", enumeration(1), 0),
        ("enum of 32", enumeration(32), 0),
        ("enum of 33", enumeration(33), 4),
        ("tuple of none", tuple(0), 4),
        ("tuple of 8", tuple(8), 0),
        ("tuple of 9", tuple(9), 4),
        ("tuple of 255", tuple(255), 4),
        ("struct of none", structure(0), 4),
        ("struct of 8", structure(8), 0),
        ("struct of 9", structure(9), 4),
        ("powers -30 and 30", powers(-30, 30), 0),
        ("power -31", powers(-31, 30), 4),
        ("power 31", powers(-30, 31), 4),
        ("limits of an int equal", int(7, 7), 0),
        ("limits of an int at the ends", int(i64::MIN, i64::MAX), 0),
        ("limits of an int swapped", int(8, 7), 4),
        ("limits of a string equal", string(9, 9), 0),
        ("limits of a string swapped", string(10, 9), 4),
        ("four levels", nested(4), 0),
        ("five levels", nested(5), 1),
    ]
}

/// Scaled and blobs at a border.
fn scaled_and_blobs() -> Vec<(&'static str, Datainfo, u8)> {
    let scale = |mantissa, power| scaled((mantissa, power), 0, 1);
    vec![
        ("scale 1", scale(1, 0), 0),
        ("scale 0", scale(0, 0), 4),
        ("scale 0 with a power", scale(0, 30), 4),
        ("scale -1", scale(-1, 0), 4),
        ("scale -1 with a power", scale(-1, -30), 4),
        ("scale at the end", scale(i64::MAX, 30), 0),
        ("scale at the other end", scale(i64::MIN, 0), 4),
        ("scale with the power -30", scale(1, -30), 0),
        ("scale with the power 30", scale(1, 30), 0),
        ("scale with the power -31", scale(1, -31), 4),
        ("scale with the power 31", scale(1, 31), 4),
        ("scale with the power -128", scale(1, -128), 4),
        ("limits of a scaled equal", scaled((1, -3), 7, 7), 0),
        (
            "limits of a scaled at the ends",
            scaled((1, -3), i64::MIN, i64::MAX),
            0,
        ),
        ("limits of a scaled swapped", scaled((1, -3), 8, 7), 4),
        ("limits of a blob equal", blob(9, 9), 0),
        ("limits of a blob at the ends", blob(0, u16::MAX), 0),
        ("limits of a blob swapped", blob(10, 9), 4),
        ("a scaled inside", array(0, 1, scale(0, 0)), 4),
        ("a blob inside", Datainfo::Tuple(vec![blob(1, 0)]), 4),
    ]
}

fn nested(levels: usize) -> Datainfo {
    match levels {
        1 => Datainfo::Bool,
        _ => array(0, 1, nested(levels - 1)),
    }
}

fn table(accessibles: Vec<Accessible>) -> Table {
    Table {
        equipment_id: b"border".to_vec(),
        ..parts::table(vec![module("m", accessibles)])
    }
}

fn with_modules(count: usize) -> Table {
    Table {
        modules: (0..count)
            .map(|at| module(&format!("m{at}"), Vec::new()))
            .collect(),
        ..table(Vec::new())
    }
}

fn with_accessibles(count: usize) -> Table {
    table(
        (0..count)
            .map(|at| command(&format!("c{at}"), None))
            .collect(),
    )
}

fn with_parameters(count: usize) -> Table {
    let parameters = (0..count).map(|at| parameter(&format!("p{at}"), Datainfo::Bool, "true"));
    table(parameters.collect())
}

fn with_name(length: usize) -> Table {
    table(vec![command(&"n".repeat(length), None)])
}

fn with_initial(length: usize) -> Table {
    let initial = format!("\"{}\"", "x".repeat(length - 2));
    table(vec![parameter("p", string(0, 1_000), &initial)])
}

fn with_initial_blob(size: usize) -> Table {
    let text = base64::encode(&vec![0xFF; size]);
    with_initial_of_blob(&String::from_utf8_lossy(&text))
}

fn with_initial_of_blob(text: &str) -> Table {
    let initial = format!("\"{text}\"");
    table(vec![parameter("p", blob(0, 1_000), &initial)])
}

fn with_initial_of_scaled(initial: &str) -> Table {
    table(vec![parameter("p", scaled((1, -3), -7, 7), initial)])
}

/// Initial values of a list of enum members. A name is no stored form, even
/// where the number is as long, and where it is the same bytes but for quotes.
fn initial_members() -> [(&'static str, &'static str, u8); 7] {
    [
        ("initial members by number", "[1000,-0]", 0),
        ("an initial member by name", "[\"on\"]", 5),
        ("the second initial member by name", "[0,\"off\"]", 5),
        ("an initial member by no name", "[\"On\"]", 5),
        ("an initial member by its number quoted", "[\"0\"]", 5),
        ("an initial member with a space", "[ 0]", 5),
        ("no initial member", "[1]", 5),
    ]
}

/// A table with a parameter of at most two enum members, and its initial value.
fn with_mode(initial: &str) -> Table {
    let modes = parts::enumeration(&[("off", 0), ("on", 1_000)]);
    table(vec![parameter("modes", array(0, 2, modes), initial)])
}

/// A table of so many bytes with a report well below its limit.
fn of_length(length: usize) -> Table {
    let mut table = with_parameters(64);
    let missing = length - encode::table(&table).len();
    lengthen_descriptions(&mut table, missing);
    table
}

/// A good table of so many kilobytes, 1 to 16, with four accessibles in each.
pub fn of_kilobytes(count: usize) -> Table {
    let names: Vec<String> = (0..8).map(|at| format!("m{at}")).collect();
    let members = names.iter().map(|name| (name.as_str(), parts::digit()));
    let datainfo = parts::structure(&members.collect::<Vec<_>>());
    let initial: Vec<String> = names.iter().map(|name| format!("\"{name}\":7")).collect();
    let initial = format!("{{{}}}", initial.join(","));
    let parameters = (0..4 * count).map(|at| {
        let name = format!("parameter_{at}");
        parameter(&name, datainfo.clone(), &initial)
    });
    let mut table = table(parameters.collect());
    let missing = 1_024 * count - encode::table(&table).len();
    lengthen_descriptions(&mut table, missing);
    table
}

/// A short table with a report of so many bytes.
fn with_report(length: usize) -> Table {
    let bulky = |name| command(name, Some(datainfos::bulky(4)));
    let more = (0..8).map(|at| command(&format!("d{at}"), None));
    let mut table = table(vec![bulky("a"), bulky("b"), bulky("c")]);
    table.modules[0].accessibles.extend(more);
    let missing = length - report::write(&table).len();
    lengthen_descriptions(&mut table, missing);
    table
}

/// The same with the longest note, which the report doesn't tell.
fn noted_report(length: usize) -> Table {
    let mut table = with_report(length);
    table.modules[0].note = Some(vec![b'n'; 255]);
    table
}

/// Adds so many characters to the accessibles' descriptions; each of them is
/// one byte more in the table and one more in the report.
fn lengthen_descriptions(table: &mut Table, mut missing: usize) {
    for accessible in &mut table.modules[0].accessibles {
        let count = missing.min(255);
        accessible.description = vec![b'd'; count];
        missing -= count;
    }
    assert_eq!(missing, 0, "the descriptions are too short for that");
}
