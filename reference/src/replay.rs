//! The replay of a trace, "last night's events", on a fresh node (M-110), with
//! figures (M-111).

use crate::figures::Settings;
use crate::node::{Node, MIN_VALUES};
use crate::outbox::{self, Mark, MIN_OUTBOX};
use crate::refusal::Refusal;
use crate::table::Table;
use std::collections::BTreeMap;

/// What stands before a record's bytes: two of the mark, the client or
/// parameter, eight of the time and two of the length.
const HEAD: usize = 13;
/// The most bytes of a piece or a reading.
const MAX_BYTES: usize = 4_096;

#[derive(Clone, Copy, Debug, PartialEq, Eq)]
pub enum Kind {
    Open,
    Close,
    Piece,
    Reading,
    Unreadable,
}

impl Kind {
    pub const ALL: [Kind; 5] = [
        Kind::Open,
        Kind::Close,
        Kind::Piece,
        Kind::Reading,
        Kind::Unreadable,
    ];

    pub fn mark(self) -> &'static [u8; 2] {
        match self {
            Kind::Open => b"EO",
            Kind::Close => b"EC",
            Kind::Piece => b"EP",
            Kind::Reading => b"ER",
            Kind::Unreadable => b"EF",
        }
    }

    fn may_have(self, length: usize) -> bool {
        match self {
            Kind::Open | Kind::Close => length == 0,
            Kind::Unreadable => length == 1,
            Kind::Piece | Kind::Reading => length <= MAX_BYTES,
        }
    }
}

/// A record of a trace.
#[derive(Clone, Debug, PartialEq)]
pub struct Event {
    pub kind: Kind,
    /// The client or the parameter.
    pub number: u8,
    pub time: u64,
    pub bytes: Vec<u8>,
}

/// What stands at the front of some bytes.
enum Front {
    Event(Event),
    Unfinished,
    Wrong,
}

impl Event {
    pub fn to_bytes(&self) -> Vec<u8> {
        let length = self.bytes.len() as u16;
        let mut bytes = self.kind.mark().to_vec();
        bytes.push(self.number);
        bytes.extend(self.time.to_be_bytes());
        bytes.extend(length.to_be_bytes());
        bytes.extend(&self.bytes);
        bytes
    }

    fn length(&self) -> usize {
        HEAD + self.bytes.len()
    }
}

impl Front {
    /// The mark is judged as soon as it is there, then the length.
    fn of(bytes: &[u8]) -> Front {
        let Some(mark) = bytes.first_chunk::<2>() else {
            return Front::Unfinished;
        };
        let Some(kind) = Kind::ALL.into_iter().find(|kind| kind.mark() == mark) else {
            return Front::Wrong;
        };
        let Some(head) = bytes.first_chunk::<HEAD>() else {
            return Front::Unfinished;
        };
        let length = usize::from(u16::from_be_bytes([head[11], head[12]]));
        if !kind.may_have(length) {
            return Front::Wrong;
        }
        match bytes[HEAD..].get(..length) {
            None => Front::Unfinished,
            Some(bytes) => Front::Event(Event {
                kind,
                number: head[2],
                time: head[3..11]
                    .iter()
                    .fold(0, |time, &byte| time << 8 | u64::from(byte)),
                bytes: bytes.to_vec(),
            }),
        }
    }
}

/// A node that is fed a trace as it arrives.
pub struct Replay {
    node: Node,
    /// `module:parameter` of each parameter.
    names: Vec<Vec<u8>>,
    /// What each was set to, by readings and changes.
    settings: Vec<Settings>,
    /// The record that has begun, and where it begins.
    begun: Vec<u8>,
    offset: u64,
    /// The record that has begun is wrong: the replay has ended.
    wrong: bool,
    /// How many events each number refused.
    refused: BTreeMap<u8, u64>,
    /// All outboxes, one after the other.
    pub sent: Vec<u8>,
}

impl Replay {
    pub fn start(table: &[u8], time: u64) -> Result<Replay, Refusal> {
        let (node, accepted) = Node::start(table, MIN_VALUES, time);
        accepted?;
        let table = Table::judge(table)?;
        let parameters = table.parameters();
        let names = parameters
            .iter()
            .map(|one| [one.module_name, b":", one.name].concat());
        let settings = parameters.iter().map(|one| Settings::none(one.datainfo));
        Ok(Replay {
            node,
            names: names.collect(),
            settings: settings.collect(),
            begun: Vec::new(),
            offset: 0,
            wrong: false,
            refused: BTreeMap::new(),
            sent: Vec::new(),
        })
    }

    /// The trace's next bytes.
    pub fn arrive(&mut self, bytes: &[u8]) {
        if self.wrong {
            return;
        }
        self.begun.extend(bytes);
        let all = std::mem::take(&mut self.begun);
        let mut rest = all.as_slice();
        loop {
            match Front::of(rest) {
                Front::Event(event) => {
                    self.play(&event);
                    rest = &rest[event.length()..];
                    self.offset = self.offset.saturating_add(event.length() as u64);
                }
                Front::Unfinished => break,
                Front::Wrong => {
                    self.wrong = true;
                    break;
                }
            }
        }
        self.begun = rest.to_vec();
    }

    fn play(&mut self, event: &Event) {
        if let Err(refusal) = self.call(event) {
            let count = self.refused.entry(refusal.number()).or_default();
            *count = count.saturating_add(1);
        }
    }

    fn call(&mut self, event: &Event) -> Result<(), Refusal> {
        let Event {
            kind,
            number,
            time,
            bytes,
        } = event;
        let (number, time) = (u64::from(*number), *time);
        let node = &mut self.node;
        let outbox = match kind {
            Kind::Open => return node.open(number, MIN_VALUES, time),
            Kind::Close => return node.close(number, MIN_VALUES, time),
            Kind::Piece => return self.offer(number, time, bytes),
            Kind::Reading => {
                let outbox = node.reading(number, MIN_VALUES, MIN_OUTBOX, time, bytes)?;
                let parameter = number as usize;
                self.settings[parameter].add(&node.state().parameters[parameter].value);
                outbox
            }
            Kind::Unreadable => {
                node.unreadable(number, MIN_VALUES, MIN_OUTBOX, time, u64::from(bytes[0]))?
            }
        };
        self.sent.extend(outbox);
        Ok(())
    }

    /// Offers a piece until it is used up, at least once. What is left of a
    /// refused one is dropped.
    fn offer(&mut self, client: u64, time: u64, mut bytes: &[u8]) -> Result<(), Refusal> {
        loop {
            let taken = self
                .node
                .piece(client, MIN_VALUES, MIN_OUTBOX, time, bytes)?;
            self.add_changes(&taken.outbox);
            self.sent.extend(taken.outbox);
            bytes = &bytes[taken.used..];
            if bytes.is_empty() {
                return Ok(());
            }
        }
    }

    /// An accepted change is what a driver is ordered to set.
    fn add_changes(&mut self, outbox: &[u8]) {
        let records = outbox::read(outbox).expect("records");
        for record in records {
            if let (Mark::DriverChange, [parameter, stored @ ..]) =
                (record.mark, record.body.as_slice())
            {
                self.settings[usize::from(*parameter)].add(stored);
            }
        }
    }

    /// What is told once the trace has ended: the night, then its figures.
    pub fn summary(&self) -> Vec<u8> {
        let mut text = self.night();
        for (name, settings) in self.names.iter().zip(&self.settings) {
            text.extend(settings.line(name));
        }
        text
    }

    fn night(&self) -> Vec<u8> {
        let mut text = Vec::new();
        for (name, held) in self.names.iter().zip(&self.node.state().parameters) {
            let shown = held
                .error
                .map_or(held.value.as_slice(), |error| error.name().as_bytes());
            text.extend([name.as_slice(), b" ", shown, b"\n"].concat());
        }
        for (number, count) in &self.refused {
            text.extend(format!("refused {number} {count}\n").bytes());
        }
        let end = match (self.wrong, self.begun.is_empty()) {
            (true, _) => "wrong",
            (false, false) => "half",
            (false, true) => return text,
        };
        text.extend(format!("{end} {}\n", self.offset).bytes());
        text
    }
}

/// All that is told of a trace.
pub fn told(table: &[u8], time: u64, trace: &[u8]) -> Vec<u8> {
    match Replay::start(table, time) {
        Ok(mut replay) => {
            replay.arrive(trace);
            replay.summary()
        }
        Err(refusal) => format!("start {}\n", refusal.number()).into_bytes(),
    }
}
