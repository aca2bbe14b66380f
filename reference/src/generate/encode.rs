//! Tables as bytes.

use crate::datainfo::{Datainfo, Limit};
use crate::table::{Accessible, Kind, Module, Table};

/// A table's bytes with the places where damage can be done.
#[derive(Clone, Debug, Default)]
pub struct Encoded {
    pub bytes: Vec<u8>,
    /// Where each record begins.
    pub records: Vec<usize>,
    /// Where flags stand.
    pub flags: Vec<usize>,
    /// Where the types of datainfos stand.
    pub types: Vec<usize>,
    /// Where initial values begin.
    pub initials: Vec<usize>,
}

/// A table's bytes.
pub fn table(table: &Table) -> Vec<u8> {
    encoded(table).bytes
}

/// A datainfo's bytes.
pub fn datainfo(datainfo: &Datainfo) -> Vec<u8> {
    let mut encoded = Encoded::default();
    encoded.datainfo(datainfo);
    encoded.bytes
}

/// A table's bytes and places.
pub fn encoded(table: &Table) -> Encoded {
    let mut encoded = Encoded::default();
    encoded.record(b"ND");
    encoded.text(&table.equipment_id);
    encoded.text(&table.description);
    if let Some(edition) = &table.edition {
        encoded.record(b"ED");
        encoded.text(edition);
    }
    for module in &table.modules {
        encoded.module(module);
    }
    encoded.record(b"EN");
    encoded
}

impl Encoded {
    fn module(&mut self, module: &Module) {
        self.record(b"MO");
        self.text(&module.name);
        self.text(&module.description);
        if let Some(note) = &module.note {
            self.record(b"NO");
            self.text(note);
        }
        for accessible in &module.accessibles {
            self.accessible(accessible);
        }
    }

    fn accessible(&mut self, accessible: &Accessible) {
        let mark = match accessible.kind {
            Kind::Parameter { .. } => b"PA",
            Kind::Command { .. } => b"CM",
        };
        self.record(mark);
        self.text(&accessible.name);
        self.text(&accessible.description);
        match &accessible.kind {
            Kind::Parameter {
                readonly,
                datainfo,
                initial,
            } => {
                self.flag(*readonly);
                self.datainfo(datainfo);
                self.add(&(initial.len() as u16).to_be_bytes());
                self.initials.push(self.bytes.len());
                self.add(initial);
            }
            Kind::Command { argument } => {
                self.flag(argument.is_some());
                argument.iter().for_each(|datainfo| self.datainfo(datainfo));
            }
        }
    }

    fn datainfo(&mut self, datainfo: &Datainfo) {
        self.types.push(self.bytes.len());
        match datainfo {
            Datainfo::Double { min, max } => {
                self.add(&[1]);
                self.limit(min);
                self.limit(max);
            }
            Datainfo::Int { min, max } => {
                self.add(&[2]);
                self.add(&min.to_be_bytes());
                self.add(&max.to_be_bytes());
            }
            Datainfo::Bool => self.add(&[3]),
            Datainfo::Enum(members) => {
                self.add(&[4, members.len() as u8]);
                for (name, value) in members {
                    self.text(name);
                    self.add(&value.to_be_bytes());
                }
            }
            Datainfo::String { minchars, maxchars } => {
                self.add(&[5]);
                self.add(&minchars.to_be_bytes());
                self.add(&maxchars.to_be_bytes());
            }
            Datainfo::Array {
                minlen,
                maxlen,
                members,
            } => {
                self.add(&[6]);
                self.add(&minlen.to_be_bytes());
                self.add(&maxlen.to_be_bytes());
                self.datainfo(members);
            }
            Datainfo::Tuple(members) => {
                self.add(&[7, members.len() as u8]);
                members.iter().for_each(|member| self.datainfo(member));
            }
            Datainfo::Struct(members) => {
                self.add(&[8, members.len() as u8]);
                for (name, member) in members {
                    self.text(name);
                    self.datainfo(member);
                }
            }
            Datainfo::Scaled { scale, min, max } => {
                self.add(&[9]);
                self.limit(scale);
                self.add(&min.to_be_bytes());
                self.add(&max.to_be_bytes());
            }
            Datainfo::Blob { minbytes, maxbytes } => {
                self.add(&[10]);
                self.add(&minbytes.to_be_bytes());
                self.add(&maxbytes.to_be_bytes());
            }
            Datainfo::Partial { optional, members } => {
                self.add(&[11, members.len() as u8]);
                for ((name, member), optional) in members.iter().zip(optional) {
                    self.add(&[u8::from(*optional)]);
                    self.text(name);
                    self.datainfo(member);
                }
            }
        }
    }

    fn limit(&mut self, limit: &Limit) {
        self.add(&limit.mantissa.to_be_bytes());
        self.add(&limit.power.to_be_bytes());
    }

    fn flag(&mut self, flag: bool) {
        self.flags.push(self.bytes.len());
        self.add(&[u8::from(flag)]);
    }

    fn record(&mut self, mark: &[u8; 2]) {
        self.records.push(self.bytes.len());
        self.add(mark);
    }

    fn text(&mut self, text: &[u8]) {
        self.add(&[text.len() as u8]);
        self.add(text);
    }

    fn add(&mut self, bytes: &[u8]) {
        self.bytes.extend_from_slice(bytes);
    }
}
