//! A table as a tree, and its making in Rust.

use super::datainfo::Datainfo;
use super::fault::Fault;
use super::{encode, judge, read};

/// A node as its table has it. Names, texts and values are judged when the
/// bytes are made.
#[derive(Clone, Debug, PartialEq, Eq)]
pub struct Table {
    pub equipment_id: String,
    pub description: String,
    /// The whole identification of the next edition; it switches `check` on.
    pub edition: Option<String>,
    pub modules: Vec<Module>,
}

#[derive(Clone, Debug, PartialEq, Eq)]
pub struct Module {
    pub name: String,
    pub description: String,
    /// Judged as a text, and told to nobody.
    pub note: Option<String>,
    pub accessibles: Vec<Accessible>,
}

/// A parameter or a command of a module.
#[derive(Clone, Debug, PartialEq, Eq)]
pub struct Accessible {
    pub name: String,
    pub description: String,
    pub kind: Kind,
}

#[derive(Clone, Debug, PartialEq, Eq)]
pub enum Kind {
    /// The initial value is JSON in stored form: without spaces outside
    /// strings, with the numbers of enum members.
    Parameter {
        access: Access,
        datainfo: Datainfo,
        initial: String,
    },
    Command {
        argument: Option<Datainfo>,
    },
}

/// Whether clients may change a parameter.
#[derive(Clone, Copy, Debug, PartialEq, Eq)]
pub enum Access {
    Write = 0,
    ReadOnly = 1,
}

impl Table {
    pub fn new(equipment_id: &str, description: &str) -> Table {
        Table {
            equipment_id: equipment_id.to_string(),
            description: description.to_string(),
            edition: None,
            modules: Vec::new(),
        }
    }

    /// The text begins with `ISSE,SECoP,`.
    pub fn edition(mut self, text: &str) -> Table {
        self.edition = Some(text.to_string());
        self
    }

    pub fn module(mut self, module: Module) -> Table {
        self.modules.push(module);
        self
    }

    /// The bytes to lend to the calls, which the library accepts; else the
    /// first record that is at fault.
    pub fn bytes(&self) -> Result<Vec<u8>, Fault> {
        let encoded = encode::table(self);
        match judge::faults(&encoded).into_iter().next() {
            Some(fault) => Err(fault),
            None => Ok(encoded.bytes),
        }
    }

    /// The tree of a table that the library accepts; else the first record that
    /// is at fault.
    pub fn read(bytes: &[u8]) -> Result<Table, Fault> {
        match judge::check(bytes).faults.into_iter().next() {
            Some(fault) => Err(fault),
            None => read::table(bytes).table,
        }
    }

    /// `module:parameter` of each parameter, in table order: readings and
    /// orders have their numbers from 0.
    pub fn parameters(&self) -> Vec<String> {
        self.named(|kind| matches!(kind, Kind::Parameter { .. }))
    }

    /// `module:command` of each command likewise.
    pub fn commands(&self) -> Vec<String> {
        self.named(|kind| matches!(kind, Kind::Command { .. }))
    }

    fn named(&self, wanted: impl Fn(&Kind) -> bool) -> Vec<String> {
        let mut names = Vec::new();
        for module in &self.modules {
            let all = module.accessibles.iter();
            let kept = all.filter(|one| wanted(&one.kind));
            names.extend(kept.map(|one| format!("{}:{}", module.name, one.name)));
        }
        names
    }
}

impl Module {
    pub fn new(name: &str, description: &str) -> Module {
        Module {
            name: name.to_string(),
            description: description.to_string(),
            note: None,
            accessibles: Vec::new(),
        }
    }

    pub fn note(mut self, text: &str) -> Module {
        self.note = Some(text.to_string());
        self
    }

    /// A parameter with the value that it shows until it is set.
    pub fn parameter(
        self,
        name: &str,
        description: &str,
        access: Access,
        datainfo: Datainfo,
        initial: &str,
    ) -> Module {
        let initial = initial.to_string();
        self.accessible(
            name,
            description,
            Kind::Parameter {
                access,
                datainfo,
                initial,
            },
        )
    }

    /// A command, and the datainfo of its argument if it has one.
    pub fn command(self, name: &str, description: &str, argument: Option<Datainfo>) -> Module {
        self.accessible(name, description, Kind::Command { argument })
    }

    fn accessible(mut self, name: &str, description: &str, kind: Kind) -> Module {
        self.accessibles.push(Accessible {
            name: name.to_string(),
            description: description.to_string(),
            kind,
        });
        self
    }
}
