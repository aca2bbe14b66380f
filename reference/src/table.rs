//! The table: its layout, its tree and the judgement on it.
//!
//! Reading only looks at the layout and takes names, texts and counts as they
//! are written. The other faults are looked for in the finished tree, from
//! the lowest number to the highest, so the first one found is the one to
//! tell, wherever in the table it stands.

use crate::datainfo::{Datainfo, Limit};
use crate::name::{are_good_names, is_good_text};
use crate::refusal::{demand, Refusal};
use crate::report;
use crate::value;

pub const MAX_TABLE: usize = 16_384;
pub const MAX_MODULES: usize = 16;
pub const MAX_ACCESSIBLES: usize = 64;
pub const MAX_REPORT: usize = 32_000;

/// How the text of an `ED` record must begin.
const EDITION: &[u8] = b"ISSE,SECoP,";

/// A plain type is one level; arrays, tuples and structs add one each.
const MAX_LEVELS: usize = 4;

/// A node as the table describes it.
#[derive(Clone, Debug, PartialEq)]
pub struct Table {
    pub equipment_id: Vec<u8>,
    pub description: Vec<u8>,
    /// The text of an `ED` record, which is the whole identification.
    pub edition: Option<Vec<u8>>,
    pub modules: Vec<Module>,
}

#[derive(Clone, Debug, PartialEq)]
pub struct Module {
    pub name: Vec<u8>,
    pub description: Vec<u8>,
    pub note: Option<Vec<u8>>,
    pub accessibles: Vec<Accessible>,
}

#[derive(Clone, Debug, PartialEq)]
pub struct Accessible {
    pub name: Vec<u8>,
    pub description: Vec<u8>,
    pub kind: Kind,
}

#[derive(Clone, Debug, PartialEq)]
pub enum Kind {
    Parameter {
        readonly: bool,
        datainfo: Datainfo,
        initial: Vec<u8>,
    },
    Command {
        argument: Option<Datainfo>,
    },
}

/// A parameter with its place in the table.
#[derive(Clone, Copy, Debug)]
pub struct Parameter<'a> {
    /// Its number, counted over all parameters.
    pub number: usize,
    /// Its module's number.
    pub module: usize,
    pub module_name: &'a [u8],
    pub name: &'a [u8],
    pub readonly: bool,
    pub datainfo: &'a Datainfo,
    pub initial: &'a [u8],
}

/// A command with its place in the table.
#[derive(Clone, Copy, Debug)]
pub struct Command<'a> {
    /// Its number, counted over all commands.
    pub number: usize,
    /// Its module's number.
    pub module: usize,
    pub name: &'a [u8],
    pub argument: Option<&'a Datainfo>,
}

impl Table {
    /// Reads a table and judges it, numbers 1 to 6.
    pub fn judge(bytes: &[u8]) -> Result<Table, Refusal> {
        let table = Table::read(bytes).ok_or(Refusal::Layout)?;
        demand(table.has_good_counts(), Refusal::Counts)?;
        demand(table.has_good_names_and_texts(), Refusal::Names)?;
        demand(table.has_good_datainfos(), Refusal::Datainfo)?;
        demand(table.has_good_initial_values(), Refusal::InitialValue)?;
        demand(report::write(&table).len() <= MAX_REPORT, Refusal::Report)?;
        Ok(table)
    }

    /// Reads the layout alone; `None` stands for one that can't be read.
    pub fn read(bytes: &[u8]) -> Option<Table> {
        if bytes.len() > MAX_TABLE {
            return None;
        }
        Layout { rest: bytes }.table()
    }

    /// All parameters in table order.
    pub fn parameters(&self) -> Vec<Parameter<'_>> {
        let mut parameters = Vec::new();
        for (module, accessible) in self.accessibles() {
            if let Kind::Parameter {
                readonly,
                datainfo,
                initial,
            } = &accessible.kind
            {
                parameters.push(Parameter {
                    number: parameters.len(),
                    module,
                    module_name: &self.modules[module].name,
                    name: &accessible.name,
                    readonly: *readonly,
                    datainfo,
                    initial,
                });
            }
        }
        parameters
    }

    /// All commands in table order.
    pub fn commands(&self) -> Vec<Command<'_>> {
        let mut commands = Vec::new();
        for (module, accessible) in self.accessibles() {
            if let Kind::Command { argument } = &accessible.kind {
                commands.push(Command {
                    number: commands.len(),
                    module,
                    name: &accessible.name,
                    argument: argument.as_ref(),
                });
            }
        }
        commands
    }

    /// All accessibles in table order, each with its module's number.
    fn accessibles(&self) -> impl Iterator<Item = (usize, &Accessible)> {
        self.modules
            .iter()
            .enumerate()
            .flat_map(|(number, module)| {
                module
                    .accessibles
                    .iter()
                    .map(move |accessible| (number, accessible))
            })
    }

    fn has_good_counts(&self) -> bool {
        (1..=MAX_MODULES).contains(&self.modules.len())
            && self.accessibles().count() <= MAX_ACCESSIBLES
    }

    fn has_good_names_and_texts(&self) -> bool {
        is_good_text(&self.equipment_id)
            && is_good_text(&self.description)
            && self.edition.iter().all(|text| is_good_edition(text))
            && are_good_names(self.modules.iter().map(|module| &module.name[..]))
            && self.modules.iter().all(Module::has_good_names_and_texts)
            && self.datainfos().all(Datainfo::has_good_names)
    }

    fn has_good_datainfos(&self) -> bool {
        self.datainfos().all(Datainfo::keeps_its_rules)
    }

    fn has_good_initial_values(&self) -> bool {
        self.parameters()
            .iter()
            .all(|parameter| value::is_stored_form(parameter.datainfo, parameter.initial))
    }

    /// The datainfos of all parameters and of all arguments.
    fn datainfos(&self) -> impl Iterator<Item = &Datainfo> {
        self.accessibles()
            .filter_map(|(_, accessible)| match &accessible.kind {
                Kind::Parameter { datainfo, .. } => Some(datainfo),
                Kind::Command { argument } => argument.as_ref(),
            })
    }
}

fn is_good_edition(text: &[u8]) -> bool {
    is_good_text(text) && text.starts_with(EDITION)
}

impl Module {
    /// Parameters and commands of a module share one scope.
    fn has_good_names_and_texts(&self) -> bool {
        is_good_text(&self.description)
            && self.note.iter().all(|note| is_good_text(note))
            && are_good_names(self.accessibles.iter().map(|one| &one.name[..]))
            && self
                .accessibles
                .iter()
                .all(|one| is_good_text(&one.description))
    }
}

/// The bytes of a table that are still to be read. Each method takes one
/// thing off the front, or gives `None` where the layout is at fault.
struct Layout<'a> {
    rest: &'a [u8],
}

impl<'a> Layout<'a> {
    /// `ND`, perhaps one `ED` straight after it, then modules, then `EN` with
    /// nothing after it.
    fn table(mut self) -> Option<Table> {
        self.mark(b"ND")?;
        let equipment_id = self.text()?;
        let description = self.text()?;
        let edition = self.marked_text(b"ED")?;
        let mut modules = Vec::new();
        while self.next_is(b"MO") {
            modules.push(self.module()?);
        }
        self.mark(b"EN")?;
        self.rest.is_empty().then_some(Table {
            equipment_id,
            description,
            edition,
            modules,
        })
    }

    /// `MO`, perhaps one `NO` straight after it, then its accessibles.
    fn module(&mut self) -> Option<Module> {
        self.mark(b"MO")?;
        let name = self.text()?;
        let description = self.text()?;
        let note = self.marked_text(b"NO")?;
        let mut accessibles = Vec::new();
        while self.next_is(b"PA") || self.next_is(b"CM") {
            accessibles.push(self.accessible()?);
        }
        Some(Module {
            name,
            description,
            note,
            accessibles,
        })
    }

    /// A text after a mark, or nothing where another mark stands there.
    fn marked_text(&mut self, mark: &[u8; 2]) -> Option<Option<Vec<u8>>> {
        if !self.next_is(mark) {
            return Some(None);
        }
        self.mark(mark)?;
        self.text().map(Some)
    }

    fn accessible(&mut self) -> Option<Accessible> {
        let is_parameter = self.next_is(b"PA");
        self.bytes(2)?;
        let name = self.text()?;
        let description = self.text()?;
        let kind = if is_parameter {
            self.parameter()?
        } else {
            self.command()?
        };
        Some(Accessible {
            name,
            description,
            kind,
        })
    }

    fn parameter(&mut self) -> Option<Kind> {
        let readonly = self.flag()?;
        let datainfo = self.datainfo(MAX_LEVELS)?;
        let length = usize::from(self.u16()?);
        let initial = self.bytes(length)?.to_vec();
        Some(Kind::Parameter {
            readonly,
            datainfo,
            initial,
        })
    }

    fn command(&mut self) -> Option<Kind> {
        let argument = if self.flag()? {
            Some(self.datainfo(MAX_LEVELS)?)
        } else {
            None
        };
        Some(Kind::Command { argument })
    }

    /// A datainfo of at most `levels` levels. Counts are followed as they are
    /// written, whether or not they are within their limits.
    fn datainfo(&mut self, levels: usize) -> Option<Datainfo> {
        let inner_levels = levels.checked_sub(1)?;
        Some(match self.byte()? {
            1 => Datainfo::Double {
                min: self.limit()?,
                max: self.limit()?,
            },
            2 => Datainfo::Int {
                min: self.i64()?,
                max: self.i64()?,
            },
            3 => Datainfo::Bool,
            4 => Datainfo::Enum(self.counted(|layout| Some((layout.text()?, layout.i32()?)))?),
            5 => Datainfo::String {
                minchars: self.u16()?,
                maxchars: self.u16()?,
            },
            6 => Datainfo::Array {
                minlen: self.u16()?,
                maxlen: self.u16()?,
                members: Box::new(self.datainfo(inner_levels)?),
            },
            7 => Datainfo::Tuple(self.counted(|layout| layout.datainfo(inner_levels))?),
            8 => Datainfo::Struct(
                self.counted(|layout| Some((layout.text()?, layout.datainfo(inner_levels)?)))?,
            ),
            9 => Datainfo::Scaled {
                scale: self.limit()?,
                min: self.i64()?,
                max: self.i64()?,
            },
            10 => Datainfo::Blob {
                minbytes: self.u16()?,
                maxbytes: self.u16()?,
            },
            11 => {
                let members = self.counted(|layout| {
                    let optional = layout.flag()?;
                    Some((optional, (layout.text()?, layout.datainfo(inner_levels)?)))
                })?;
                let (optional, members) = members.into_iter().unzip();
                Datainfo::Partial { optional, members }
            }
            _ => return None,
        })
    }

    /// A count byte and that many items.
    fn counted<Item>(&mut self, item: impl Fn(&mut Self) -> Option<Item>) -> Option<Vec<Item>> {
        let count = self.byte()?;
        (0..count).map(|_| item(self)).collect()
    }

    fn limit(&mut self) -> Option<Limit> {
        Some(Limit {
            mantissa: self.i64()?,
            power: i8::from_be_bytes([self.byte()?]),
        })
    }

    /// A length byte and that many bytes: a name or a text.
    fn text(&mut self) -> Option<Vec<u8>> {
        let length = usize::from(self.byte()?);
        Some(self.bytes(length)?.to_vec())
    }

    fn flag(&mut self) -> Option<bool> {
        match self.byte()? {
            0 => Some(false),
            1 => Some(true),
            _ => None,
        }
    }

    fn next_is(&self, mark: &[u8; 2]) -> bool {
        self.rest.starts_with(mark)
    }

    fn mark(&mut self, mark: &[u8; 2]) -> Option<()> {
        (self.bytes(2)? == mark).then_some(())
    }

    fn byte(&mut self) -> Option<u8> {
        self.array().map(u8::from_be_bytes)
    }

    fn u16(&mut self) -> Option<u16> {
        self.array().map(u16::from_be_bytes)
    }

    fn i32(&mut self) -> Option<i32> {
        self.array().map(i32::from_be_bytes)
    }

    fn i64(&mut self) -> Option<i64> {
        self.array().map(i64::from_be_bytes)
    }

    fn array<const LENGTH: usize>(&mut self) -> Option<[u8; LENGTH]> {
        self.bytes(LENGTH)?.try_into().ok()
    }

    fn bytes(&mut self, count: usize) -> Option<&'a [u8]> {
        let (front, rest) = self.rest.split_at_checked(count)?;
        self.rest = rest;
        Some(front)
    }
}
