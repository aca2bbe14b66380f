//! Histories: a table and a list of calls, and what a plain node answers.

use crate::list::Row;
use crate::node::{Listed, Node, State};
use crate::refusal::{Refusal, ACCEPTED};

/// A call with its arguments. Of the values area and the outbox only the
/// length counts.
#[derive(Clone, Debug, PartialEq)]
pub enum Call {
    Start {
        values_len: usize,
        time: u64,
    },
    Open {
        client: u64,
        values_len: usize,
        time: u64,
    },
    Close {
        client: u64,
        values_len: usize,
        time: u64,
    },
    Piece {
        client: u64,
        values_len: usize,
        outbox_len: usize,
        time: u64,
        bytes: Vec<u8>,
    },
    Reading {
        parameter: u64,
        values_len: usize,
        outbox_len: usize,
        time: u64,
        text: Vec<u8>,
    },
    Unreadable {
        parameter: u64,
        values_len: usize,
        outbox_len: usize,
        time: u64,
        class: u64,
    },
    /// A list of readings; their texts lie in the buffer beside it.
    Readings {
        values_len: usize,
        outbox_len: usize,
        rows: Vec<Row>,
        texts: Vec<u8>,
    },
    /// No call: those from here on are lent this index, or none where it has no
    /// bytes. A start is lent none.
    Lend {
        index: Vec<u8>,
    },
}

impl Call {
    /// Whether it is a call by itself; lending an index is none.
    pub fn is_made(&self) -> bool {
        !matches!(self, Call::Lend { .. })
    }
}

/// What a call answers: its number, and for pieces the bytes used and the steps
/// of a search, for pieces and what drivers report the bytes written, for lists
/// how many readings were taken. A list that stops has a number and an effect.
#[derive(Clone, Debug, Default, PartialEq)]
pub struct Answer {
    pub number: u8,
    pub used: usize,
    pub outbox: Vec<u8>,
    pub steps: usize,
    pub taken: usize,
}

/// A table and calls over it; the first call is a start.
#[derive(Clone, Debug, PartialEq)]
pub struct History {
    pub table: Vec<u8>,
    pub calls: Vec<Call>,
}

/// The answers to a history's calls, and what the node holds at the end.
#[derive(Clone, Debug, PartialEq)]
pub struct Outcome {
    pub answers: Vec<Answer>,
    pub end: State,
}

impl Answer {
    pub fn is_accepted(&self) -> bool {
        self.number == ACCEPTED
    }

    /// Whether something was done: it is accepted, or a list that took some of
    /// its readings.
    pub fn has_effect(&self) -> bool {
        self.is_accepted() || self.taken > 0
    }

    /// A refusal uses no bytes and writes none.
    fn refused(refusal: Refusal) -> Answer {
        Answer {
            number: refusal.number(),
            ..Answer::default()
        }
    }

    fn driver(result: Result<Vec<u8>, Refusal>) -> Answer {
        result.map_or_else(Answer::refused, |outbox| Answer {
            outbox,
            ..Answer::default()
        })
    }

    fn list(result: Result<Listed, Refusal>) -> Answer {
        result.map_or_else(Answer::refused, |listed| Answer {
            number: listed.refusal.map_or(ACCEPTED, Refusal::number),
            outbox: listed.outbox,
            taken: listed.taken,
            ..Answer::default()
        })
    }

    pub(crate) fn plain(result: Result<(), Refusal>) -> Answer {
        result.map_or_else(Answer::refused, |()| Answer::default())
    }
}

/// A node that is fed calls one by one.
pub struct Player {
    table: Vec<u8>,
    index: Vec<u8>,
    node: Option<Node>,
}

impl Player {
    pub fn new(table: &[u8]) -> Player {
        Player {
            table: table.to_vec(),
            index: Vec::new(),
            node: None,
        }
    }

    /// The node, once there was a start.
    pub fn node(&self) -> Option<&Node> {
        self.node.as_ref()
    }

    /// Makes a call. `None` if a start is still missing.
    pub fn call(&mut self, call: &Call) -> Option<Answer> {
        match call {
            Call::Start { values_len, time } => {
                let (mut node, result) = Node::start(&self.table, *values_len, *time);
                node.lend(&self.index);
                self.node = Some(node);
                return Some(Answer::plain(result));
            }
            Call::Lend { index } => self.index = index.clone(),
            _ => {}
        }
        self.node.as_mut().map(|node| answer(node, call))
    }
}

/// Makes a call that is no start.
pub(crate) fn answer(node: &mut Node, call: &Call) -> Answer {
    match call {
        Call::Start { .. } => unreachable!("the player makes a new node for a start"),
        Call::Lend { index } => {
            node.lend(index);
            Answer::default()
        }
        Call::Open {
            client,
            values_len,
            time,
        } => Answer::plain(node.open(*client, *values_len, *time)),
        Call::Close {
            client,
            values_len,
            time,
        } => Answer::plain(node.close(*client, *values_len, *time)),
        Call::Piece {
            client,
            values_len,
            outbox_len,
            time,
            bytes,
        } => match node.piece(*client, *values_len, *outbox_len, *time, bytes) {
            Ok(taken) => Answer {
                number: ACCEPTED,
                used: taken.used,
                outbox: taken.outbox,
                steps: taken.steps,
                taken: 0,
            },
            Err(refusal) => Answer::refused(refusal),
        },
        Call::Reading {
            parameter,
            values_len,
            outbox_len,
            time,
            text,
        } => Answer::driver(node.reading(*parameter, *values_len, *outbox_len, *time, text)),
        Call::Unreadable {
            parameter,
            values_len,
            outbox_len,
            time,
            class,
        } => Answer::driver(node.unreadable(*parameter, *values_len, *outbox_len, *time, *class)),
        Call::Readings {
            values_len,
            outbox_len,
            rows,
            texts,
        } => Answer::list(node.readings(*values_len, *outbox_len, rows, texts)),
    }
}

impl History {
    /// Runs the history. `None` if it doesn't begin with a start.
    pub fn run(&self) -> Option<Outcome> {
        let mut player = Player::new(&self.table);
        let answers = self
            .calls
            .iter()
            .map(|call| player.call(call))
            .collect::<Option<Vec<_>>>()?;
        let end = player.node()?.state().clone();
        Some(Outcome { answers, end })
    }
}
