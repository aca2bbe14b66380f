//! A table's bytes, record by record, as document 01 lays them out: a two-byte
//! mark, then names and texts (a length byte and that many bytes), flags,
//! datainfos and initial values.

use super::datainfo::{Datainfo, Decimal, Member};
use super::fault::Fault;
use super::tree::{Accessible, Kind, Module, Table};

/// A table's bytes and where its items begin there. An item is what has a place
/// of its own in a text: a record, a name, a text, a type, a number, an initial
/// value, and each byte of that.
#[derive(Default)]
pub(super) struct Encoded {
    pub bytes: Vec<u8>,
    items: Vec<usize>,
    /// What no length or count can tell; the bytes are no table then.
    pub faults: Vec<Fault>,
    records: usize,
    whose: String,
}

pub(super) fn table(table: &Table) -> Encoded {
    let mut out = Encoded::default();
    out.record(b"ND", "node".to_string());
    out.text(&table.equipment_id);
    out.text(&table.description);
    if let Some(edition) = &table.edition {
        out.record(b"ED", "edition".to_string());
        out.text(edition);
    }
    for module in &table.modules {
        out.module(module);
    }
    out.record(b"EN", "end".to_string());
    out
}

impl Encoded {
    /// The item that a byte belongs to, and how many bytes after its beginning.
    pub fn place(&self, at: usize) -> (usize, usize) {
        let after = self.items.partition_point(|&begin| begin <= at);
        let item = after.saturating_sub(1);
        (item, at - self.items[item])
    }

    fn module(&mut self, module: &Module) {
        let name = &module.name;
        self.record(b"MO", format!("module {name}"));
        self.name(name);
        self.text(&module.description);
        if let Some(note) = &module.note {
            self.record(b"NO", format!("note of module {name}"));
            self.text(note);
        }
        for accessible in &module.accessibles {
            self.accessible(name, accessible);
        }
    }

    fn accessible(&mut self, module: &str, accessible: &Accessible) {
        let name = &accessible.name;
        let (mark, what) = match accessible.kind {
            Kind::Parameter { .. } => (b"PA", "parameter"),
            Kind::Command { .. } => (b"CM", "command"),
        };
        self.record(mark, format!("{what} {module}:{name}"));
        self.name(name);
        self.text(&accessible.description);
        match &accessible.kind {
            Kind::Parameter {
                access,
                datainfo,
                initial,
            } => {
                self.bytes.push(*access as u8);
                self.datainfo(datainfo);
                self.initial(initial.as_bytes());
            }
            Kind::Command { argument } => {
                self.bytes.push(u8::from(argument.is_some()));
                argument.iter().for_each(|argument| self.datainfo(argument));
            }
        }
    }

    fn datainfo(&mut self, datainfo: &Datainfo) {
        self.item();
        match datainfo {
            Datainfo::Double { min, max } => {
                self.bytes.push(1);
                self.decimal(min);
                self.decimal(max);
            }
            Datainfo::Int { min, max } => {
                self.bytes.push(2);
                self.limits(*min, *max);
            }
            Datainfo::Bool => self.bytes.push(3),
            Datainfo::Enum(members) => self.choice(members),
            Datainfo::String { minchars, maxchars } => self.sizes(5, *minchars, *maxchars),
            Datainfo::Array {
                minlen,
                maxlen,
                element,
            } => {
                self.sizes(6, *minlen, *maxlen);
                self.datainfo(element);
            }
            Datainfo::Tuple(elements) => {
                self.counted(7, elements.len(), "a tuple has 1 to 8 elements");
                elements.iter().for_each(|element| self.datainfo(element));
            }
            Datainfo::Struct(members) => {
                self.counted(8, members.len(), "a struct has 1 to 8 members");
                members.iter().for_each(|(name, of)| self.member(name, of));
            }
            Datainfo::Scaled { scale, min, max } => {
                self.bytes.push(9);
                self.decimal(scale);
                self.limits(*min, *max);
            }
            Datainfo::Blob { minbytes, maxbytes } => self.sizes(10, *minbytes, *maxbytes),
            Datainfo::Partial(members) => self.partial(members),
        }
    }

    fn choice(&mut self, members: &[(String, i32)]) {
        self.counted(4, members.len(), "an enum has 1 to 32 members");
        for (name, value) in members {
            self.name(name);
            self.number(&value.to_be_bytes());
        }
    }

    fn partial(&mut self, members: &[Member]) {
        self.counted(11, members.len(), "a struct has 1 to 8 members");
        for member in members {
            self.bytes.push(u8::from(member.optional));
            self.member(&member.name, &member.datainfo);
        }
    }

    fn member(&mut self, name: &str, datainfo: &Datainfo) {
        self.name(name);
        self.datainfo(datainfo);
    }

    fn decimal(&mut self, decimal: &Decimal) {
        self.number(&decimal.mantissa.to_be_bytes());
        self.bytes.extend(decimal.power.to_be_bytes());
    }

    fn limits(&mut self, min: i64, max: i64) {
        self.number(&min.to_be_bytes());
        self.number(&max.to_be_bytes());
    }

    fn sizes(&mut self, type_byte: u8, min: u16, max: u16) {
        self.bytes.push(type_byte);
        self.number(&min.to_be_bytes());
        self.number(&max.to_be_bytes());
    }

    fn number(&mut self, bytes: &[u8]) {
        self.item();
        self.bytes.extend_from_slice(bytes);
    }

    /// A type and a count byte.
    fn counted(&mut self, type_byte: u8, count: usize, rule: &str) {
        if count > usize::from(u8::MAX) {
            self.fault(4, format!("{rule}; this one has {count}"));
        }
        self.bytes.extend([type_byte, count as u8]);
    }

    fn record(&mut self, mark: &[u8; 2], whose: String) {
        self.records += 1;
        self.whose = whose;
        self.item();
        self.bytes.extend_from_slice(mark);
    }

    fn name(&mut self, name: &str) {
        self.item();
        if name.len() > usize::from(u8::MAX) {
            let length = name.len();
            self.fault(
                3,
                format!("a name has 1 to 63 characters; this one has {length}"),
            );
        }
        self.with_length_byte(name);
    }

    fn text(&mut self, text: &str) {
        self.item();
        if text.len() > usize::from(u8::MAX) {
            let length = text.len();
            self.fault(
                1,
                format!("a text has at most 255 bytes; this one has {length}"),
            );
        }
        self.with_length_byte(text);
    }

    fn with_length_byte(&mut self, text: &str) {
        self.bytes.push(text.len() as u8);
        self.bytes.extend_from_slice(text.as_bytes());
    }

    fn initial(&mut self, initial: &[u8]) {
        self.item();
        if initial.len() > usize::from(u16::MAX) {
            let length = initial.len();
            self.fault(
                5,
                format!("a value has at most 256 bytes; this one has {length}"),
            );
        }
        self.bytes.extend((initial.len() as u16).to_be_bytes());
        for &byte in initial {
            self.item();
            self.bytes.push(byte);
        }
    }

    /// An item begins here.
    fn item(&mut self) {
        self.items.push(self.bytes.len());
    }

    /// Something is wrong with the latest item.
    fn fault(&mut self, number: u8, rule: String) {
        self.faults.push(Fault {
            number,
            record: self.records,
            whose: self.whose.clone(),
            at: *self.items.last().unwrap_or(&0),
            rule,
        });
    }
}
