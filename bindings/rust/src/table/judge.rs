//! The number that the library gives for a table, and which record is at fault.

use super::encode::Encoded;
use super::fault::Fault;
use super::read::{self, Reading, Record};
use super::report;
use crate::call;
use crate::node::VALUES;

const TABLE: usize = 16_384;
const MODULES: usize = 16;
const ACCESSIBLES: usize = 64;
const REPORT: usize = 32_000;

/// What is to be said of a table's bytes.
#[derive(Clone, Debug, PartialEq, Eq)]
pub struct Checked {
    /// The library's number: 0, or 1 to 6.
    pub number: u8,
    /// None if the number is 0; else all that was found, the library's number
    /// first, each number in table order.
    pub faults: Vec<Fault>,
}

/// Asks the library, and finds what is at fault.
pub fn check(bytes: &[u8]) -> Checked {
    let number = call::start(bytes, &[0; VALUES], 0).number;
    let faults = match number {
        0 => Vec::new(),
        _ => found(bytes, number),
    };
    Checked { number, faults }
}

/// What is wrong with a table that was encoded.
pub(super) fn faults(encoded: &Encoded) -> Vec<Fault> {
    if encoded.faults.is_empty() {
        return check(&encoded.bytes).faults;
    }
    let mut faults = encoded.faults.clone();
    faults.sort_by_key(|fault| (fault.number, fault.at));
    faults
}

/// The faults of a table that the library refuses by a number.
fn found(bytes: &[u8], number: u8) -> Vec<Fault> {
    let mut faults = own_faults(bytes);
    if faults.iter().all(|fault| fault.number != number) {
        let rule = "the library refuses it, and no record was found to be at fault";
        faults.insert(0, whole(number, rule.to_string()));
    }
    faults
}

/// What is found without asking the library, the lowest number first.
fn own_faults(bytes: &[u8]) -> Vec<Fault> {
    let Reading {
        table,
        mut faults,
        records,
    } = read::table(bytes);
    if bytes.len() > TABLE {
        return vec![too_long(bytes.len(), &records)];
    }
    let table = match table {
        Ok(table) => table,
        Err(fault) => return vec![fault],
    };
    faults.extend(counts(&records));
    let length = report::length(&table);
    if length > REPORT {
        let rule = format!(
            "the structure report as a whole has {length} bytes, and at most 32,000 are allowed; \
             no single record is at fault"
        );
        faults.push(whole(6, rule));
    }
    faults.sort_by_key(|fault| (fault.number, fault.at));
    faults
}

fn too_long(length: usize, records: &[Record]) -> Fault {
    let record = records.partition_point(|record| record.at <= TABLE);
    let rule = format!(
        "a table has at most 16,384 bytes; this one has {length}, and passes them with this record"
    );
    match record.checked_sub(1) {
        Some(at) => of_record(1, records, at, rule),
        None => whole(1, rule),
    }
}

/// "modules not 1 to 16, or more than 64 accessibles in all".
fn counts(records: &[Record]) -> Vec<Fault> {
    let places = |marks: &[&[u8; 2]]| -> Vec<usize> {
        let all = records.iter().enumerate();
        all.filter(|(_, record)| marks.contains(&&record.mark))
            .map(|(at, _)| at)
            .collect()
    };
    let (modules, accessibles) = (places(&[b"MO"]), places(&[b"PA", b"CM"]));
    let mut faults = Vec::new();
    if modules.is_empty() {
        let rule = "a table has 1 to 16 modules; this one has none";
        faults.push(of_record(2, records, records.len() - 1, rule.to_string()));
    }
    if let Some(&at) = modules.get(MODULES) {
        let count = modules.len();
        let rule = format!("a table has 1 to 16 modules; this is the 17th of {count}");
        faults.push(of_record(2, records, at, rule));
    }
    if let Some(&at) = accessibles.get(ACCESSIBLES) {
        let count = accessibles.len();
        let rule = format!(
            "a table has at most 64 parameters and commands together; this is the 65th of {count}"
        );
        faults.push(of_record(2, records, at, rule));
    }
    faults
}

fn of_record(number: u8, records: &[Record], record: usize, rule: String) -> Fault {
    Fault {
        number,
        record: record + 1,
        whose: records[record].whose.clone(),
        at: records[record].at,
        rule,
    }
}

/// Of the table and no record of it.
fn whole(number: u8, rule: String) -> Fault {
    Fault {
        number,
        record: 0,
        whose: "the table".to_string(),
        at: 0,
        rule,
    }
}
