//! Histories written call by call.

use crate::history::{Call, History};
use crate::node::MIN_VALUES;
use crate::outbox::MIN_OUTBOX;

/// A history in the making. Unless said otherwise a call is lent areas just
/// long enough, and the n-th call comes at n seconds, the start at the first.
pub(super) struct Script {
    table: Vec<u8>,
    calls: Vec<Call>,
    next: Lent,
}

/// What a call is given besides what it is about.
#[derive(Clone, Copy)]
struct Lent {
    values_len: usize,
    outbox_len: usize,
    time: u64,
}

impl Lent {
    /// What a call gets that comes after so many.
    fn usual(calls_before: usize) -> Lent {
        Lent {
            values_len: MIN_VALUES,
            outbox_len: MIN_OUTBOX,
            time: 1_000 * (calls_before as u64 + 1),
        }
    }
}

impl Script {
    pub(super) fn over(table: Vec<u8>) -> Script {
        Script {
            table,
            calls: Vec::new(),
            next: Lent::usual(0),
        }
    }

    pub(super) fn history(self) -> History {
        History {
            table: self.table,
            calls: self.calls,
        }
    }

    /// The next call, and that alone, comes at this time.
    pub(super) fn at(mut self, time: u64) -> Script {
        self.next.time = time;
        self
    }

    /// The next call, and that alone, is lent a values area of this length.
    pub(super) fn values(mut self, length: usize) -> Script {
        self.next.values_len = length;
        self
    }

    /// The next call, and that alone, is lent an outbox of this length.
    pub(super) fn outbox(mut self, length: usize) -> Script {
        self.next.outbox_len = length;
        self
    }

    pub(super) fn start(self) -> Script {
        self.call(|lent| Call::Start {
            values_len: lent.values_len,
            time: lent.time,
        })
    }

    pub(super) fn open(self, client: u64) -> Script {
        self.call(|lent| Call::Open {
            client,
            values_len: lent.values_len,
            time: lent.time,
        })
    }

    pub(super) fn close(self, client: u64) -> Script {
        self.call(|lent| Call::Close {
            client,
            values_len: lent.values_len,
            time: lent.time,
        })
    }

    pub(super) fn piece(self, client: u64, bytes: &str) -> Script {
        self.call(|lent| Call::Piece {
            client,
            values_len: lent.values_len,
            outbox_len: lent.outbox_len,
            time: lent.time,
            bytes: bytes.as_bytes().to_vec(),
        })
    }

    /// A piece that is one whole line; its line feed is added here.
    pub(super) fn line(self, client: u64, line: &str) -> Script {
        self.piece(client, &format!("{line}\n"))
    }

    /// Lines of client 0, each in a piece of its own.
    pub(super) fn lines(self, lines: &[&str]) -> Script {
        lines.iter().fold(self, |script, line| script.line(0, line))
    }

    pub(super) fn unreadable(self, parameter: u64, class: u64) -> Script {
        self.call(|lent| Call::Unreadable {
            parameter,
            values_len: lent.values_len,
            outbox_len: lent.outbox_len,
            time: lent.time,
            class,
        })
    }

    pub(super) fn reading(self, parameter: u64, text: &str) -> Script {
        self.call(|lent| Call::Reading {
            parameter,
            values_len: lent.values_len,
            outbox_len: lent.outbox_len,
            time: lent.time,
            text: text.as_bytes().to_vec(),
        })
    }

    /// The calls from here on are lent this index; none has no bytes.
    pub(super) fn index(mut self, index: &[u8]) -> Script {
        let index = index.to_vec();
        self.calls.push(Call::Lend { index });
        self
    }

    fn call(mut self, make: impl FnOnce(Lent) -> Call) -> Script {
        self.calls.push(make(self.next));
        let made = self.calls.iter().filter(|call| call.is_made());
        self.next = Lent::usual(made.count());
        self
    }
}
