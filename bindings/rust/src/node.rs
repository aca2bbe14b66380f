//! A node that keeps what the calls are lent.

use crate::call;
use crate::index::Index;
use crate::outbox::{Record, Records};
use crate::refusal::Refusal;
use crate::sensor::SensorError;
use crate::state::{Counts, Done, Row, State};

/// The bytes of a values area and of an outbox.
pub const VALUES: usize = 16_384;
pub const OUTBOX: usize = 32_768;

/// A table with its values area and state, an outbox for the calls, and perhaps
/// an index beside the table.
///
/// Times are milliseconds. A refused call alters nothing.
#[derive(Clone)]
pub struct Node {
    table: Vec<u8>,
    values: Vec<u8>,
    outbox: Vec<u8>,
    index: Option<Index>,
    state: State,
}

/// What a piece did: how many bytes it used, how many steps the search for its
/// line's accessible took, and what is to be sent.
#[derive(Clone, Debug)]
pub struct Taken<'a> {
    pub used: usize,
    pub steps: usize,
    pub records: Records<'a>,
}

/// What a list of readings did: how many were taken, why the one after them was
/// refused or the whole list, if so, and what is to be sent.
#[derive(Clone, Debug)]
pub struct Rack<'a> {
    pub taken: usize,
    pub refusal: Option<Refusal>,
    pub records: Records<'a>,
}

/// What a parameter shows, and since when.
#[derive(Clone, Copy, Debug, PartialEq, Eq)]
pub struct Value<'a> {
    pub held: Held<'a>,
    pub time: u64,
}

/// A value in stored form, JSON without spaces outside strings and with an
/// enum's members by their numbers, a struct with optional members whole and in
/// table order, or an error in its place.
#[derive(Clone, Copy, Debug, PartialEq, Eq)]
pub enum Held<'a> {
    /// The table's initial value: it was never set.
    Initial(&'a [u8]),
    Set(&'a [u8]),
    /// It can't be read.
    Error(SensorError),
}

impl Node {
    /// Starts over a table: no client is open, and each parameter shows its
    /// initial value with this time.
    pub fn start(table: Vec<u8>, time: u64) -> Result<Node, Refusal> {
        let mut node = Node::resume(table, vec![0; VALUES], State::NOTHING);
        let done = call::start(&node.table, &node.values, time);
        node.keep(done)?;
        Ok(node)
    }

    /// Goes on from a values area and a state that were kept elsewhere. The
    /// next call judges them.
    pub fn resume(table: Vec<u8>, values: Vec<u8>, state: State) -> Node {
        Node {
            table,
            values,
            outbox: vec![0; OUTBOX],
            index: None,
            state,
        }
    }

    /// The calls from here on are lent this index, or none: a line's accessible is
    /// found in other steps, and nothing else changes.
    pub fn lend(&mut self, index: Option<Index>) {
        self.index = index;
    }

    pub fn table(&self) -> &[u8] {
        &self.table
    }

    pub fn values(&self) -> &[u8] {
        &self.values
    }

    pub fn state(&self) -> &State {
        &self.state
    }

    /// What is counted of a client since its open, also after its close;
    /// `None` for a number above 7.
    pub fn counts(&self, client: usize) -> Option<Counts> {
        self.state.counts.get(client).copied()
    }

    /// Opens a client, with an empty line, nothing active and counts of 0.
    pub fn open(&mut self, client: u64, time: u64) -> Result<(), Refusal> {
        let done = call::open(
            &self.table,
            &self.values,
            &self.state,
            client,
            time,
            lent(&self.index),
        );
        self.keep(done).map(drop)
    }

    /// Closes a client and forgets its line and what it had active; its counts
    /// stay.
    pub fn close(&mut self, client: u64, time: u64) -> Result<(), Refusal> {
        let done = call::close(
            &self.table,
            &self.values,
            &self.state,
            client,
            time,
            lent(&self.index),
        );
        self.keep(done).map(drop)
    }

    /// Takes a client's bytes through the first line feed, or all where there is
    /// none; the rest is to be offered again.
    pub fn piece(&mut self, client: u64, time: u64, bytes: &[u8]) -> Result<Taken<'_>, Refusal> {
        let done = call::piece(
            &self.table,
            &mut self.values,
            &mut self.outbox,
            &self.state,
            client,
            time,
            bytes,
            lent(&self.index),
        );
        let Done { used, steps, .. } = done;
        let records = self.keep(done)?;
        Ok(Taken {
            used,
            steps,
            records,
        })
    }

    /// Takes all of some bytes of a client, piece by piece, and hands on each
    /// record.
    pub fn feed(
        &mut self,
        client: u64,
        time: u64,
        mut bytes: &[u8],
        mut send: impl FnMut(Record<'_>),
    ) -> Result<(), Refusal> {
        loop {
            let Taken { used, records, .. } = self.piece(client, time, bytes)?;
            records.for_each(&mut send);
            bytes = &bytes[used..];
            if bytes.is_empty() {
                return Ok(());
            }
        }
    }

    /// Takes a driver's value for a parameter, as JSON text.
    pub fn reading(
        &mut self,
        parameter: u64,
        time: u64,
        text: &[u8],
    ) -> Result<Records<'_>, Refusal> {
        let done = call::reading(
            &self.table,
            &mut self.values,
            &mut self.outbox,
            &self.state,
            parameter,
            time,
            text,
            lent(&self.index),
        );
        self.keep(done)
    }

    /// Takes a driver's report that a parameter can't be read: the error stands
    /// in the value's place until the next value is stored.
    pub fn unreadable(
        &mut self,
        parameter: u64,
        time: u64,
        error: SensorError,
    ) -> Result<Records<'_>, Refusal> {
        let done = call::unreadable(
            &self.table,
            &self.values,
            &mut self.outbox,
            &self.state,
            parameter,
            time,
            error.class().into(),
            lent(&self.index),
        );
        self.keep(done)
    }

    /// Takes a list of at most nine readings, whose texts lie in a buffer. At the
    /// first that is refused it stops: those before it stand.
    pub fn readings(&mut self, rows: &[Row], texts: &[u8]) -> Rack<'_> {
        let listed = call::readings(
            &self.table,
            &mut self.values,
            &mut self.outbox,
            &self.state,
            rows,
            texts,
            lent(&self.index),
        );
        self.state = listed.state;
        Rack {
            taken: listed.taken,
            refusal: Refusal::judge(listed.number).err(),
            records: Records::new(&self.outbox[..listed.written]),
        }
    }

    /// What a parameter shows: a value, or why it can't be read.
    pub fn value(&self, parameter: u64) -> Result<Value<'_>, Refusal> {
        let shown = call::value(&self.table, &self.values, &self.state, parameter);
        Refusal::judge(shown.number)?;
        let place = shown.from..shown.from + shown.size;
        let held = match (SensorError::of(shown.error), shown.stored) {
            (Some(error), _) => Held::Error(error),
            (None, 0) => Held::Initial(&self.table[place]),
            (None, _) => Held::Set(&self.values[place]),
        };
        let time = shown.time;
        Ok(Value { held, time })
    }

    /// Keeps the next state and gives what was written, unless the call was
    /// refused.
    fn keep(&mut self, done: Done) -> Result<Records<'_>, Refusal> {
        Refusal::judge(done.number)?;
        self.state = done.state;
        Ok(Records::new(&self.outbox[..done.written]))
    }
}

/// What a call is lent as an index; none has no bytes.
fn lent(index: &Option<Index>) -> &[u8] {
    index.as_ref().map_or(&[], |index| index.bytes())
}
