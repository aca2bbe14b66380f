//! Reads a table's bytes, and looks at the names, texts, datainfos and initial
//! values in it: numbers 1, 3, 4 and 5, each with its place.

use super::datainfo::{Datainfo, Decimal, Member};
use super::exact::Exact;
use super::fault::Fault;
use super::names;
use super::print;
use super::tree::{Access, Accessible, Kind, Module, Table};
use super::value;

/// The levels of a datainfo; a plain type is one.
const LEVELS: usize = 4;
const POWERS: std::ops::RangeInclusive<i8> = -30..=30;
const ENUM_MEMBERS: std::ops::RangeInclusive<usize> = 1..=32;
const MEMBERS: std::ops::RangeInclusive<usize> = 1..=8;
const EDITION: &[u8] = b"ISSE,SECoP,";

/// What came of reading. The faults are those of numbers 3 to 5.
pub(super) struct Reading {
    pub table: Result<Table, Fault>,
    pub faults: Vec<Fault>,
    pub records: Vec<Record>,
}

/// Where a record begins, and what it is.
pub(super) struct Record {
    pub mark: [u8; 2],
    pub at: usize,
    pub whose: String,
}

pub(super) fn table(bytes: &[u8]) -> Reading {
    let mut reader = Reader {
        bytes,
        at: 0,
        faults: Vec::new(),
        records: Vec::new(),
    };
    let read = reader.table();
    let table = read.map_err(|Unreadable { at, rule }| reader.fault_at(1, at, rule));
    Reading {
        table,
        faults: reader.faults,
        records: reader.records,
    }
}

/// Why the layout can't be read.
struct Unreadable {
    at: usize,
    rule: String,
}

type Read<T> = Result<T, Unreadable>;

/// A name or a text, and where its length byte is.
struct Counted<'a> {
    at: usize,
    bytes: &'a [u8],
}

impl Counted<'_> {
    fn string(&self) -> String {
        String::from_utf8_lossy(self.bytes).into_owned()
    }
}

struct Reader<'a> {
    bytes: &'a [u8],
    at: usize,
    faults: Vec<Fault>,
    records: Vec<Record>,
}

/// Records.
impl<'a> Reader<'a> {
    fn table(&mut self) -> Read<Table> {
        self.begin(b"ND", "node")?;
        let equipment_id = self.text("the equipment id")?;
        let description = self.text("the description")?;
        let edition = match self.next_is(b"ED") {
            true => Some(self.edition()?),
            false => None,
        };
        let (mut modules, mut names) = (Vec::new(), Vec::new());
        while self.next_is(b"MO") {
            modules.push(self.module(&mut names)?);
        }
        self.begin(b"EN", "end")?;
        if self.at < self.bytes.len() {
            return Err(self.unreadable("nothing follows the end record".to_string()));
        }
        self.scope(&names, "module");
        Ok(Table {
            equipment_id,
            description,
            edition,
            modules,
        })
    }

    fn edition(&mut self) -> Read<String> {
        self.begin(b"ED", "edition")?;
        let text = self.counted("the edition")?;
        self.judge_text(&text);
        if !text.bytes.starts_with(EDITION) {
            let rule = "an edition begins with ISSE,SECoP,";
            self.fault(3, text.at, rule.to_string());
        }
        Ok(text.string())
    }

    fn module(&mut self, names: &mut Vec<Counted<'a>>) -> Read<Module> {
        self.begin(b"MO", "module")?;
        let name = self.counted("the name")?;
        let module = name.string();
        names.push(name);
        self.called(format!("module {module}"));
        let description = self.text("the description")?;
        let note = match self.next_is(b"NO") {
            true => {
                self.begin(b"NO", "note")?;
                self.called(format!("note of module {module}"));
                Some(self.text("the note")?)
            }
            false => None,
        };
        let (mut accessibles, mut names) = (Vec::new(), Vec::new());
        while self.next_is(b"PA") || self.next_is(b"CM") {
            accessibles.push(self.accessible(&module, &mut names)?);
        }
        self.scope(&names, "parameter or command of its module");
        Ok(Module {
            name: module,
            description,
            note,
            accessibles,
        })
    }

    fn accessible(&mut self, module: &str, names: &mut Vec<Counted<'a>>) -> Read<Accessible> {
        let is_parameter = self.next_is(b"PA");
        let (mark, what) = match is_parameter {
            true => (b"PA", "parameter"),
            false => (b"CM", "command"),
        };
        self.begin(mark, what)?;
        let name = self.counted("the name")?;
        let own = name.string();
        names.push(name);
        self.called(format!("{what} {module}:{own}"));
        let description = self.text("the description")?;
        let kind = match is_parameter {
            true => self.parameter()?,
            false => self.command()?,
        };
        Ok(Accessible {
            name: own,
            description,
            kind,
        })
    }

    fn parameter(&mut self) -> Read<Kind> {
        let access = match self.flag("the byte for readonly")? {
            true => Access::ReadOnly,
            false => Access::Write,
        };
        let faults = self.faults.len();
        let datainfo = self.datainfo(LEVELS)?;
        let at = self.at;
        let length = self.u16("the length of the initial value")?;
        let initial = self.of_length(at, length.into(), "the initial value")?;
        // what doesn't fit a faulty datainfo is no fault of its own
        if self.faults.len() == faults {
            self.judge_initial(at, &datainfo, initial);
        }
        Ok(Kind::Parameter {
            access,
            datainfo,
            initial: String::from_utf8_lossy(initial).into_owned(),
        })
    }

    /// An initial value whose length is there.
    fn judge_initial(&mut self, at: usize, datainfo: &Datainfo, initial: &[u8]) {
        let Some((place, rule)) = value::fault(datainfo, initial) else {
            return;
        };
        match initial.len().checked_sub(1) {
            Some(last) if place > last => {
                self.fault(5, at + 2 + last, format!("{rule}; the value ends here"));
            }
            Some(_) => self.fault(5, at + 2 + place, rule),
            None => self.fault(5, at, rule),
        }
    }

    fn command(&mut self) -> Read<Kind> {
        let argument = match self.flag("the byte for an argument")? {
            true => Some(self.datainfo(LEVELS)?),
            false => None,
        };
        Ok(Kind::Command { argument })
    }

    /// A record of this mark begins, or what stands here instead is told.
    fn begin(&mut self, mark: &[u8; 2], whose: &str) -> Read<()> {
        let found = self.next_is(mark);
        let whose = match found {
            true => whose,
            false => "out of place",
        };
        self.records.push(Record {
            mark: *mark,
            at: self.at,
            whose: whose.to_string(),
        });
        if !found {
            return Err(self.unreadable(self.misplaced()));
        }
        self.at += 2;
        Ok(())
    }

    fn misplaced(&self) -> String {
        let rest = &self.bytes[self.at..];
        if self.at == 0 {
            return "a table begins with its node record, ND".to_string();
        }
        let Some(mark) = rest.get(..2) else {
            return "the table stops before its end record, EN".to_string();
        };
        match mark {
            b"ND" => "the node record stands first, and once".to_string(),
            b"ED" => "the edition stands straight after the node, and once".to_string(),
            b"NO" => "a note stands straight after its module, one for each".to_string(),
            b"PA" | b"CM" => "a parameter or command comes after its module".to_string(),
            _ => {
                let mark = mark.escape_ascii();
                format!("no record begins with {mark}; the marks are ND, ED, MO, NO, PA, CM, EN")
            }
        }
    }

    /// What the latest record is, now that its name is known.
    fn called(&mut self, whose: String) {
        if let Some(record) = self.records.last_mut() {
            record.whose = whose;
        }
    }
}

/// Datainfos.
impl<'a> Reader<'a> {
    /// Counts are followed as they are written, and judged.
    fn datainfo(&mut self, levels: usize) -> Read<Datainfo> {
        let at = self.at;
        let Some(inner) = levels.checked_sub(1) else {
            let rule = "a datainfo has at most four levels; this is the fifth";
            return Err(self.unreadable(rule.to_string()));
        };
        Ok(match self.byte("a datainfo")? {
            1 => self.double()?,
            2 => {
                let (min, max) = self.whole_limits()?;
                Datainfo::Int { min, max }
            }
            3 => Datainfo::Bool,
            4 => self.choice(at)?,
            5 => {
                let (minchars, maxchars) = self.sizes("minchars", "maxchars")?;
                Datainfo::String { minchars, maxchars }
            }
            6 => {
                let (minlen, maxlen) = self.sizes("minlen", "maxlen")?;
                Datainfo::array(minlen, maxlen, self.datainfo(inner)?)
            }
            7 => self.tuple(at, inner)?,
            8 => {
                let members = self.members(at, inner, false)?.into_iter();
                Datainfo::Struct(members.map(|one| (one.name, one.datainfo)).collect())
            }
            9 => self.scaled()?,
            10 => {
                let (minbytes, maxbytes) = self.sizes("minbytes", "maxbytes")?;
                Datainfo::Blob { minbytes, maxbytes }
            }
            11 => Datainfo::Partial(self.members(at, inner, true)?),
            other => {
                self.at = at;
                return Err(self.unreadable(format!("there is no type {other}; types are 1 to 11")));
            }
        })
    }

    fn double(&mut self) -> Read<Datainfo> {
        let at = self.at;
        let (min, max) = (self.decimal()?, self.decimal()?);
        if Exact::from(&min) > Exact::from(&max) {
            let (min, max) = (print::decimal(&min), print::decimal(&max));
            self.fault(4, at, format!("min {min} is above max {max}"));
        }
        Ok(Datainfo::Double { min, max })
    }

    fn scaled(&mut self) -> Read<Datainfo> {
        let at = self.at;
        let scale = self.decimal()?;
        if scale.mantissa <= 0 {
            let scale = print::decimal(&scale);
            self.fault(4, at, format!("a scale is above 0; this one is {scale}"));
        }
        let (min, max) = self.whole_limits()?;
        Ok(Datainfo::Scaled { scale, min, max })
    }

    fn whole_limits(&mut self) -> Read<(i64, i64)> {
        let at = self.at;
        let mut limit = || self.array("a limit").map(i64::from_be_bytes);
        let (min, max) = (limit()?, limit()?);
        if min > max {
            self.fault(4, at, format!("min {min} is above max {max}"));
        }
        Ok((min, max))
    }

    fn sizes(&mut self, least: &str, most: &str) -> Read<(u16, u16)> {
        let at = self.at;
        let (min, max) = (self.u16(least)?, self.u16(most)?);
        if min > max {
            self.fault(4, at, format!("{least} {min} is above {most} {max}"));
        }
        Ok((min, max))
    }

    fn choice(&mut self, at: usize) -> Read<Datainfo> {
        let count = self.count(at, ENUM_MEMBERS, "an enum has 1 to 32 members")?;
        let (mut names, mut members) = (Vec::new(), Vec::<(String, i32)>::new());
        for _ in 0..count {
            let name = self.counted("the name of an enum member")?;
            let at = self.at;
            let value = self.array("an enum member").map(i32::from_be_bytes)?;
            if let Some((other, _)) = members.iter().find(|(_, other)| *other == value) {
                let rule = format!("the number {value} is that of {other} already");
                self.fault(4, at, rule);
            }
            members.push((name.string(), value));
            names.push(name);
        }
        self.scope(&names, "member of its enum");
        Ok(Datainfo::Enum(members))
    }

    fn tuple(&mut self, at: usize, levels: usize) -> Read<Datainfo> {
        let count = self.count(at, MEMBERS, "a tuple has 1 to 8 elements")?;
        let elements: Read<_> = (0..count).map(|_| self.datainfo(levels)).collect();
        elements.map(Datainfo::Tuple)
    }

    fn members(&mut self, at: usize, levels: usize, flagged: bool) -> Read<Vec<Member>> {
        let count = self.count(at, MEMBERS, "a struct has 1 to 8 members")?;
        let (mut names, mut members) = (Vec::new(), Vec::new());
        for _ in 0..count {
            let optional = flagged && self.flag("the byte for optional")?;
            let name = self.counted("the name of a struct's member")?;
            let datainfo = self.datainfo(levels)?;
            members.push(Member {
                optional,
                name: name.string(),
                datainfo,
            });
            names.push(name);
        }
        self.scope(&names, "member of its struct");
        Ok(members)
    }

    /// The count of the datainfo that begins there.
    fn count(
        &mut self,
        at: usize,
        limits: std::ops::RangeInclusive<usize>,
        rule: &str,
    ) -> Read<usize> {
        let count = self.byte("a count")?.into();
        if !limits.contains(&count) {
            self.fault(4, at, format!("{rule}; this one has {count}"));
        }
        Ok(count)
    }

    fn decimal(&mut self) -> Read<Decimal> {
        let at = self.at;
        let mantissa = i64::from_be_bytes(self.array("a decimal")?);
        let power = i8::from_be_bytes(self.array("a decimal")?);
        if !POWERS.contains(&power) {
            let rule = format!("a power of ten is from -30 to 30; this one is {power}");
            self.fault(4, at, rule);
        }
        Ok(Decimal { mantissa, power })
    }
}

/// Names, texts and numbers.
impl<'a> Reader<'a> {
    fn text(&mut self, what: &str) -> Read<String> {
        let text = self.counted(what)?;
        self.judge_text(&text);
        Ok(text.string())
    }

    fn judge_text(&mut self, text: &Counted) {
        if let Some((place, rule)) = names::text_fault(text.bytes) {
            self.fault(3, text.at + 1 + place, rule);
        }
    }

    /// The names that have to differ from each other.
    fn scope(&mut self, names: &[Counted], what: &str) {
        for (number, name) in names.iter().enumerate() {
            let mut earlier = names[..number].iter();
            let same = |other: &&Counted| other.bytes.eq_ignore_ascii_case(name.bytes);
            if let Some(rule) = names::name_fault(name.bytes) {
                self.fault(3, name.at, rule);
            } else if earlier.any(|other| same(&other)) {
                let name_told = name.string();
                let rule = format!(
                    "{name_told} is the name of another {what} already; A and a are the same there"
                );
                self.fault(3, name.at, rule);
            }
        }
    }

    fn counted(&mut self, what: &str) -> Read<Counted<'a>> {
        let at = self.at;
        let length = self.byte(what)?;
        let bytes = self.of_length(at, length.into(), what)?;
        Ok(Counted { at, bytes })
    }

    /// As many bytes as the length says that stands there.
    fn of_length(&mut self, at: usize, length: usize, what: &str) -> Read<&'a [u8]> {
        let left = self.bytes.len() - self.at;
        let rule =
            format!("the length of {what} is {length} here, and so many bytes are left: {left}");
        self.take(length, what).map_err(|_| Unreadable { at, rule })
    }

    fn flag(&mut self, what: &str) -> Read<bool> {
        let at = self.at;
        match self.byte(what)? {
            0 => Ok(false),
            1 => Ok(true),
            other => Err(Unreadable {
                at,
                rule: format!("{what} is 0 or 1; this one is {other}"),
            }),
        }
    }

    fn byte(&mut self, what: &str) -> Read<u8> {
        self.array(what).map(u8::from_be_bytes)
    }

    fn u16(&mut self, what: &str) -> Read<u16> {
        self.array(what).map(u16::from_be_bytes)
    }

    fn array<const LENGTH: usize>(&mut self, what: &str) -> Read<[u8; LENGTH]> {
        let mut array = [0; LENGTH];
        array.copy_from_slice(self.take(LENGTH, what)?);
        Ok(array)
    }

    fn take(&mut self, count: usize, what: &str) -> Read<&'a [u8]> {
        let left = self.bytes.len() - self.at;
        if count > left {
            let rule = format!("{what} takes {count} bytes here, and so many are left: {left}");
            return Err(self.unreadable(rule));
        }
        self.at += count;
        Ok(&self.bytes[self.at - count..self.at])
    }

    fn next_is(&self, mark: &[u8; 2]) -> bool {
        self.bytes[self.at..].starts_with(mark)
    }

    fn unreadable(&self, rule: String) -> Unreadable {
        Unreadable { at: self.at, rule }
    }
}

/// Faults.
impl Reader<'_> {
    fn fault(&mut self, number: u8, at: usize, rule: String) {
        let fault = self.fault_at(number, at, rule);
        self.faults.push(fault);
    }

    /// In whichever record the byte lies.
    fn fault_at(&self, number: u8, at: usize, rule: String) -> Fault {
        let record = self.records.partition_point(|record| record.at <= at);
        let whose = match record.checked_sub(1) {
            Some(number) => self.records[number].whose.clone(),
            None => "the table".to_string(),
        };
        Fault {
            number,
            record,
            whose,
            at,
            rule,
        }
    }
}
