//! Values and tables for programs that read them from their standard input,
//! and the lines that such a program is to print.

use super::borders;
use super::parts::{
    self, array, blob, command, digit, double, enumeration, module, parameter, readonly, scaled,
    string, structure,
};
use super::searches::{self, Search};
use super::{datainfos, encode, tables, values};
use crate::base64;
use crate::datainfo::Datainfo;
use crate::error::ErrorClass;
use crate::random::Random;
use crate::report;
use crate::table::Table;
use crate::value;

/// The longest text and the longest datainfo that are given to a program.
const MAX_PART: usize = 2_000;

/// The longest random table that is given to a program, if it needn't be long.
const MAX_TABLE: usize = 400;

/// How many tables there are for each number, and for each combination of two
/// to four.
const ALONE: usize = 10;
const COMBINED: usize = 3;

/// A text to be judged for a datainfo.
#[derive(Clone, Debug, PartialEq)]
pub struct ValueCase {
    pub datainfo: Datainfo,
    pub text: Vec<u8>,
}

impl ValueCase {
    fn new(datainfo: Datainfo, text: &str) -> ValueCase {
        ValueCase {
            datainfo,
            text: text.as_bytes().to_vec(),
        }
    }

    fn is_short(&self) -> bool {
        self.text.len() <= MAX_PART && encode::datainfo(&self.datainfo).len() <= MAX_PART
    }
}

/// The examples E1 to E8, the corners for each type, blobs of sizes around
/// limits, enum members by name, then random values; what is too long is left
/// out.
pub fn value_cases(seed: u64, count: usize) -> Vec<ValueCase> {
    let mut cases = examples();
    cases.extend(corners());
    cases.extend(sizes());
    cases.extend(named_members());
    cases.extend(random_values(seed, count));
    cases.retain(ValueCase::is_short);
    cases
}

/// E1 to E8 of document 01.
fn examples() -> Vec<ValueCase> {
    let texts = [
        "300",
        "3e2",
        "300.0000000000000000001",
        "-0",
        "\"1\"",
        "01",
        "0e100",
    ];
    let to_300 = double((0, 0), (300, 0));
    let mut cases: Vec<_> = texts
        .iter()
        .map(|text| ValueCase::new(to_300.clone(), text))
        .collect();
    cases.push(ValueCase::new(double((0, 0), (250, -2)), "25e-1"));
    cases
}

/// Every corner for one datainfo of each type.
fn corners() -> Vec<ValueCase> {
    let of_each_type = [
        double((i64::MIN, 0), (i64::MAX, 0)),
        Datainfo::Int {
            min: i64::MIN,
            max: i64::MAX,
        },
        Datainfo::Bool,
        enumeration(&[("off", 0), ("on", 1)]),
        string(0, 5),
        array(0, 2, digit()),
        Datainfo::Tuple(vec![digit(), digit()]),
        structure(&[("a", digit())]),
        scaled((1, -3), i64::MIN, i64::MAX),
        blob(0, 6),
    ];
    let all_corners = |datainfo: &Datainfo| -> Vec<ValueCase> {
        let texts = values::CORNERS.iter();
        texts
            .map(|text| ValueCase::new(datainfo.clone(), text))
            .collect()
    };
    of_each_type.iter().flat_map(all_corners).collect()
}

/// Blobs of sizes on both sides of their limits, alone and inside another
/// datainfo. Of a blob alone 189 bytes go into 256 bytes of stored form.
fn sizes() -> Vec<ValueCase> {
    let limits = [
        (0, 0),
        (0, 1),
        (2, 2),
        (1, 3),
        (3, 5),
        (6, 6),
        (188, 189),
        (189, 190),
        (190, 192),
        (0, u16::MAX),
    ];
    let mut cases = Vec::new();
    for (min, max) in limits {
        for size in (0..=7).chain(186..=193) {
            let bytes: Vec<u8> = (0..size).map(|at| (at * 37) as u8).collect();
            let text = format!("\"{}\"", String::from_utf8_lossy(&base64::encode(&bytes)));
            let datainfo = blob(min, max);
            cases.push(ValueCase::new(
                array(0, 2, datainfo.clone()),
                &format!("[{text}]"),
            ));
            let members = structure(&[("a", datainfo.clone()), ("b", Datainfo::Bool)]);
            let object = format!("{{\"b\":true,\"a\":{text}}}");
            cases.push(ValueCase::new(members, &object));
            cases.push(ValueCase::new(datainfo, &text));
        }
    }
    cases
}

/// Enum members by name, alone and inside others; what nearly is a name; and
/// stored forms around 256 bytes that are shorter or longer than what is sent.
fn named_members() -> Vec<ValueCase> {
    let mut cases = Vec::new();
    let members = named_of_many_kinds();
    let names = members.iter().map(|(name, _)| name.as_str());
    let modes = enumeration(&names.clone().zip(-4..).collect::<Vec<_>>());
    let numbers = members
        .iter()
        .map(|(name, number)| (name.as_str(), *number));
    let others = enumeration(&numbers.collect::<Vec<_>>());
    let quoted_names = names.map(|name| format!("\"{name}\""));
    let spellings = NEARLY_NAMES.iter().map(|text| text.to_string());
    for text in quoted_names.chain(spellings) {
        for datainfo in [&modes, &others] {
            let mut add = |datainfo, text: &str| cases.push(ValueCase::new(datainfo, text));
            add(datainfo.clone(), &text);
            add(array(0, 2, datainfo.clone()), &format!("[1, {text} ]"));
            let tuple = Datainfo::Tuple(vec![string(0, 99), datainfo.clone(), Datainfo::Bool]);
            add(tuple.clone(), &format!("[{text},{text},true]"));
            add(tuple, &format!("[\"on\",{text},\"on\"]"));
            let object = structure(&[("on", datainfo.clone()), ("off", string(0, 99))]);
            add(object, &format!("{{\"off\":\"on\",\"on\":{text}}}"));
            let deep = structure(&[("a", array(0, 1, Datainfo::Tuple(vec![datainfo.clone()])))]);
            add(deep, &format!("{{\"a\":[[{text}]]}}"));
        }
    }
    cases.extend(exchanged_lengths());
    cases
}

/// Names that look like words or numbers of JSON, names longer than a number
/// may be, the longest; numbers as long as their names in quotes, the ends.
fn named_of_many_kinds() -> Vec<(String, i32)> {
    let short = [
        ("on", 1_000),
        ("off", 0),
        ("true", -1),
        ("null", 100_000),
        ("e5", 5),
        ("_1", 1),
        ("NaN", i32::MAX),
        ("a", i32::MIN),
        ("A0", 10),
    ];
    let long = [(32, 2), (33, 3), (63, 4)];
    let short = short.map(|(name, number)| (name.to_string(), number));
    let long = long.map(|(length, number)| ("n".repeat(length), number));
    short.into_iter().chain(long).collect()
}

/// What is no name of them, whatever it looks like.
const NEARLY_NAMES: &[&str] = &[
    "\"On\"",
    "\"ON\"",
    "\"o\"",
    "\"onn\"",
    "\"on \"",
    "\" on\"",
    "\"\"",
    "\" \"",
    "\"1\"",
    "\"1000\"",
    "\"-0\"",
    "\"0\"",
    "\"nobody\"",
    "\"\\u006fn\"",
    "\"o\\u006E\"",
    "\"on\\u0000\"",
    "\"on\\n\"",
    "\"\\/\"",
    "\"\\\"on\\\"\"",
    "\"\\u0080\"",
    "\"\\x\"",
    "\"on",
    "on\"",
    "'on'",
    "on",
    "-0",
    "1",
    "1000",
    "-2147483648",
    "01",
    "1.0",
    "1e3",
    "true",
    "null",
    "[\"on\"]",
    "{\"on\":1}",
    "111111111111111111111111111111111",
    "\"nnnnnnnnnnnnnnnnnnnnnnnnnnnnnnnnnnnnnnnnnnnnnnnnnnnnnnnnnnnnnnnn\"",
];

/// Lists of members with stored forms of 254 to 259 bytes: by names alone,
/// shorter or longer than these, and by names and numbers mixed.
fn exchanged_lengths() -> Vec<ValueCase> {
    let members = [
        ("a", i32::MIN),
        ("number_of_one_digit", 7),
        ("b", 10),
        ("c", 100),
        ("d", 1_000),
        ("e", 10_000),
        ("f", 100_000),
        ("g", 1_000_000),
    ];
    let datainfo = array(0, 999, enumeration(&members));
    let name = |at: usize| format!("\"{}\"", members[at].0);
    let number = |at: usize| members[at].1.to_string();
    let list = |elements: &[String]| format!("[{}]", elements.join(","));
    let mut cases = Vec::new();
    for last in 1..members.len() {
        // 21 of eleven bytes and their commas take 252 bytes.
        let long: Vec<String> = (0..21).map(|_| name(0)).chain([name(last)]).collect();
        cases.push(ValueCase::new(datainfo.clone(), &list(&long)));
        // 84 of one byte, a comma after each, and 7 of eleven.
        let short = (0..84).map(|_| name(1)).chain((0..7).map(|_| name(0)));
        let short: Vec<String> = short.chain([name(last)]).collect();
        cases.push(ValueCase::new(datainfo.clone(), &list(&short)));
        let mixed = (0..84).map(|at| if at % 2 == 0 { name(1) } else { number(1) });
        let mixed: Vec<String> = mixed.chain((0..7).map(|_| name(0))).collect();
        let mixed: Vec<String> = mixed.into_iter().chain([number(last)]).collect();
        cases.push(ValueCase::new(datainfo.clone(), &list(&mixed)));
        // A type fault wins over the length.
        let wrong: Vec<String> = long.into_iter().chain(["true".to_string()]).collect();
        cases.push(ValueCase::new(datainfo.clone(), &list(&wrong)));
    }
    cases
}

/// Random values, each for a datainfo of its own.
pub fn random_values(seed: u64, count: usize) -> Vec<ValueCase> {
    let mut random = Random::new(seed);
    let case = |mut random: Random| {
        let levels = random.between(1, 4);
        let datainfo = datainfos::good(&mut random, levels);
        let text = values::any(&mut random, &datainfo);
        ValueCase { datainfo, text }
    };
    (0..count).map(|_| case(random.branch())).collect()
}

/// Random tables, good and faulty ones.
pub fn random_tables(seed: u64, count: usize) -> Vec<Vec<u8>> {
    let mut random = Random::new(seed);
    (0..count)
        .map(|_| tables::any(&mut random.branch()).bytes)
        .collect()
}

/// For each case the lengths of datainfo and text, two bytes each, then the
/// datainfo and the text.
pub fn value_input(cases: &[ValueCase]) -> Vec<u8> {
    let mut input = Vec::new();
    for ValueCase { datainfo, text } in cases {
        let datainfo = encode::datainfo(datainfo);
        input.extend((datainfo.len() as u16).to_be_bytes());
        input.extend((text.len() as u16).to_be_bytes());
        input.extend(datainfo);
        input.extend(text);
    }
    input
}

/// A line for each case: what fits with its stored form as it is, else the
/// class.
pub fn value_output(cases: &[ValueCase]) -> String {
    cases
        .iter()
        .map(|case| match value::judge(&case.datainfo, &case.text) {
            Ok(stored) => format!("fits {}\n", String::from_utf8_lossy(&stored)),
            Err(fault) => format!("{}\n", ErrorClass::from(fault).name()),
        })
        .collect()
}

/// A table and searches in it, if it is accepted.
#[derive(Clone, Debug, PartialEq)]
pub struct TableCase {
    pub bytes: Vec<u8>,
    pub searches: Vec<Search>,
}

/// The borders, each combination of faults, a table cut and changed at each
/// place, then random tables; of those the long ones are left out.
pub fn table_cases(seed: u64, count: usize) -> Vec<TableCase> {
    let mut random = Random::new(seed);
    let borders = borders::all().into_iter().map(|border| border.bytes);
    let mut all: Vec<Vec<u8>> = borders.collect();
    all.extend(combined(&mut random));
    all.extend(changed(&encode::table(&sample())));
    let mut others = random_tables(seed, count);
    others.retain(|bytes| bytes.len() <= MAX_TABLE);
    all.extend(others);
    let case = |bytes: Vec<u8>| TableCase {
        searches: match Table::judge(&bytes) {
            Ok(table) => searches::of_table(&mut random.branch(), &table),
            Err(_) => Vec::new(),
        },
        bytes,
    };
    all.into_iter().map(case).collect()
}

/// Tables with one to four faults of different numbers, in each combination.
/// A report that is too long needs a table that isn't short.
fn combined(random: &mut Random) -> Vec<Vec<u8>> {
    let mut all = Vec::new();
    for faults in 1..64_u8 {
        let numbers: Vec<u8> = (1..=6).filter(|at| faults >> (at - 1) & 1 == 1).collect();
        let longest = if numbers.contains(&6) { 3_500 } else { 1_000 };
        let is_short = |bytes: &Vec<u8>| bytes.len() <= longest;
        if numbers.len() <= 4 {
            let count = if numbers.len() == 1 { ALONE } else { COMBINED };
            let made = || tables::with_faults(&mut random.branch(), &numbers).bytes;
            let made = std::iter::repeat_with(made).filter(is_short);
            all.extend(made.take(count));
        }
    }
    all
}

/// A table, cut at each place, and with the byte at each place raised by one.
fn changed(table: &[u8]) -> Vec<Vec<u8>> {
    let cut = |at: usize| table[..at].to_vec();
    let raised = |at: usize| {
        let mut bytes = table.to_vec();
        bytes[at] = bytes[at].wrapping_add(1);
        bytes
    };
    let places = 0..table.len();
    let cuts = places.clone().map(cut);
    cuts.chain(places.map(raised)).collect()
}

/// A small table with a record and a datainfo of each kind.
fn sample() -> Table {
    let pair = Datainfo::Tuple(vec![Datainfo::Bool, array(0, 2, digit())]);
    let mut first = module(
        "t1",
        vec![
            readonly("value", double((0, 0), (300, 0)), "3e2"),
            parameter("mode", enumeration(&[("off", 0), ("on", 1)]), "1"),
            command("stop", None),
        ],
    );
    first.description = b"stage".to_vec();
    first.note = Some(b"cold".to_vec());
    let second = module(
        "t2",
        vec![
            command("go", Some(structure(&[("a", string(0, 3))]))),
            parameter("value", pair, "[true,[1,2]]"),
            parameter("step", scaled((1, -3), -5, 5), "-5"),
            parameter("raw", blob(1, 3), "\"Zg==\""),
        ],
    );
    parts::table(vec![first, second])
}

/// For each table its length in three bytes, its bytes, the searches and a
/// byte 0 after them.
pub fn table_input(cases: &[TableCase]) -> Vec<u8> {
    let mut input = Vec::new();
    for TableCase { bytes, searches } in cases {
        input.extend_from_slice(&(bytes.len() as u32).to_be_bytes()[1..]);
        input.extend(bytes);
        searches
            .iter()
            .for_each(|search| input.extend(search.encode()));
        input.push(0);
    }
    input
}

/// A line for each table: its number, and if that is 0 its report's length and
/// its report; then the searches' lines.
pub fn table_output(cases: &[TableCase]) -> String {
    let lines = |case: &TableCase| match Table::judge(&case.bytes) {
        Ok(table) => {
            let report = report::write(&table);
            let found = searches::lines(&table, &case.searches);
            let text = String::from_utf8_lossy(&report);
            format!("0 {} {text}\n{found}", report.len())
        }
        Err(refusal) => format!("{}\n", refusal.number()),
    };
    cases.iter().map(lines).collect()
}

/// A table that is to be judged so many times a thousand times, to measure how
/// long that takes.
pub fn judge_input(table: &[u8], count: usize) -> Vec<u8> {
    let mut input = (table.len() as u32).to_be_bytes()[1..].to_vec();
    input.extend(table);
    input.extend(vec![b'j'; count]);
    input.push(0);
    input
}
