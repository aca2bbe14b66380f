//! What a state says: of a history's end, which another history is to have too,
//! and of the plain node. Neither tells what no call looks at, which `bytes`
//! compares: the bytes past a line, which number stands for "yes" in a flag, and
//! the places past the last parameter.

use crate::difference::same;
use jihfasul::state::LINE;
use jihfasul::State;
use reference::line::Unfinished;
use reference::node;

#[derive(Debug, PartialEq)]
pub struct Seen {
    clients: Vec<Client>,
    /// Of each parameter the length of its stored value, the class of its error
    /// and its time.
    settings: Vec<(u16, u8, u64)>,
    /// Of each client its lines, its errors and its updates.
    counts: Vec<[u32; 3]>,
}

#[derive(Debug, PartialEq)]
struct Client {
    open: bool,
    overlong: bool,
    active: u16,
    /// In readable form; `None` if its length is past its place.
    line: Option<String>,
}

fn readable(line: &[u8], length: u16) -> Option<String> {
    let line = line.get(..usize::from(length))?;
    Some(line.escape_ascii().to_string())
}

fn counted(counts: &node::Counts) -> [u32; 3] {
    [counts.lines, counts.errors, counts.updates]
}

impl Seen {
    /// Compares what is found with what is due, part by part.
    pub fn same(&self, due: &Seen) -> Result<(), String> {
        for (c, (found, due)) in self.clients.iter().zip(&due.clients).enumerate() {
            same(&format!("client {c}"), found, due)?;
        }
        for (p, (found, due)) in self.settings.iter().zip(&due.settings).enumerate() {
            let what = format!("length, error and time of parameter {p}");
            same(&what, found, due)?;
        }
        for (c, (found, due)) in self.counts.iter().zip(&due.counts).enumerate() {
            same(&format!("counts of client {c}"), found, due)?;
        }
        same("state", self, due)
    }

    /// Compares what one client knows of: all of that client and its counts,
    /// who else is open with which unfinished line, and what is set.
    pub fn same_for(&self, due: &Seen, client: usize) -> Result<(), String> {
        let line = |one: &Client| (one.open, one.overlong, one.line.clone());
        let lines = |seen: &Seen| -> Vec<_> { seen.clients.iter().map(line).collect() };
        same("client", &self.clients[client], &due.clients[client])?;
        same("counts", &self.counts[client], &due.counts[client])?;
        same("unfinished lines", &lines(self), &lines(due))?;
        same("settings", &self.settings, &due.settings)
    }

    pub fn in_library(state: &State, parameters: usize) -> Seen {
        let clients = &state.clients;
        let client = |(c, line): (usize, &[u8])| Client {
            open: clients.open[c] != 0,
            overlong: clients.overlong[c] != 0,
            active: clients.active[c],
            line: readable(line, clients.length[c]),
        };
        let settings = &state.settings;
        let setting = |p: usize| (settings.length[p], settings.error[p], settings.time[p]);
        Seen {
            clients: clients.lines.chunks(LINE).enumerate().map(client).collect(),
            settings: (0..parameters).map(setting).collect(),
            counts: state
                .counts
                .iter()
                .map(|counts| [counts.lines, counts.errors, counts.updates])
                .collect(),
        }
    }

    pub fn in_node(state: &node::State) -> Seen {
        let client = |client: &node::Client| Client {
            open: client.open,
            overlong: client.line == Unfinished::Overlong,
            active: client.active,
            line: Some(match &client.line {
                Unfinished::Bytes(bytes) => bytes.escape_ascii().to_string(),
                Unfinished::Overlong => String::new(),
            }),
        };
        let setting = |held: &node::Held| {
            let length = if held.set { held.value.len() } else { 0 };
            let error = held.error.map_or(0, |error| error.class());
            (length as u16, error, held.time)
        };
        Seen {
            clients: state.clients.iter().map(client).collect(),
            settings: state.parameters.iter().map(setting).collect(),
            counts: state.counts.iter().map(counted).collect(),
        }
    }
}
