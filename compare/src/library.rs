//! The library's side: calls over areas whose every byte is watched.

use crate::area::Area;
use crate::difference::same;
use jihfasul::{call, Counts, Done, Listed, Row, State};
use reference::history::{Answer, Call};
use reference::index::{self, INDEX};
use reference::list;
use reference::operation::{Poke, OUTBOX_AREA, VALUES_AREA};

/// The bytes that an index may have here.
const INDEX_AREA: usize = 2 * INDEX;

pub struct Library {
    pub table: Vec<u8>,
    pub state: State,
    pub values: Area,
    outbox: Area,
    index: Area,
    /// How many bytes of the index calls are lent.
    lent: usize,
}

/// What a call answers; a list also how many readings it took.
pub struct Made {
    pub done: Done,
    pub taken: usize,
}

pub fn row(row: &list::Row) -> Row {
    Row {
        parameter: row.parameter,
        time: row.time,
        offset: row.offset,
        length: row.length,
    }
}

/// The value that a parameter shows.
#[derive(Debug, PartialEq)]
pub struct Shown {
    pub number: u8,
    /// The class of the error in the value's place, or 0.
    pub error: u8,
    pub text: String,
    pub time: u64,
    pub set: bool,
}

pub fn readable(text: &[u8]) -> String {
    text.escape_ascii().to_string()
}

impl Shown {
    pub fn refused(number: u8) -> Shown {
        Shown {
            number,
            error: 0,
            text: String::new(),
            time: 0,
            set: false,
        }
    }

    /// What a parameter in error shows: no value.
    pub fn in_error(class: u8, time: u64) -> Shown {
        Shown {
            error: class,
            time,
            ..Shown::refused(0)
        }
    }
}

impl Library {
    pub fn new(table: &[u8]) -> Library {
        Library {
            table: table.to_vec(),
            state: State::NOTHING,
            values: Area::new(VALUES_AREA),
            outbox: Area::new(OUTBOX_AREA),
            index: Area::new(INDEX_AREA),
            lent: 0,
        }
    }

    /// The calls from here on are lent this index.
    pub fn lend(&mut self, index: &[u8]) {
        self.index.set(0, index);
        self.lent = index.len();
    }

    /// Fills an index from the table, and compares its number and every byte with
    /// what is due: for a length under, at and above that of an index.
    pub fn fill(&self) -> Result<(), String> {
        for length in [0, INDEX - 1, INDEX, INDEX + 2] {
            let mut area = Area::new(INDEX_AREA);
            let mut due = area.front(length).to_vec();
            let filled = index::fill(&self.table, &mut due);
            let number = filled.map_or_else(|refusal| refusal.number(), |()| 0);
            area.expect(0, &due);
            let found = call::index(&self.table, area.front(length));
            same("number of a filling", &found, &number)?;
            same("place in an index", &area.difference(), &None)?;
        }
        Ok(())
    }

    /// Makes a call and keeps the state. `Err` if the outbox or, after a
    /// refusal, the state isn't as it is to be, whatever the call was about, or
    /// if the index was written. A list that took readings is no refusal.
    pub fn call(&mut self, call: &Call) -> Result<Answer, String> {
        let Made { done, taken } = self.make(call);
        let Done {
            number,
            used,
            written,
            steps,
            state,
        } = done;
        same("place in the index", &self.index.difference(), &None)?;
        let before = match call {
            Call::Start { .. } => State::NOTHING,
            _ => self.state,
        };
        if number != 0 && taken == 0 && state != before {
            return Err(format!("refused with {number}, but the state was altered"));
        }
        self.state = state;
        let outbox = match call {
            Call::Piece { outbox_len, .. }
            | Call::Reading { outbox_len, .. }
            | Call::Unreadable { outbox_len, .. }
            | Call::Readings { outbox_len, .. } => *outbox_len,
            _ => 0,
        };
        if written > outbox {
            return Err(format!("{written} bytes written to an outbox of {outbox}"));
        }
        let outbox = self.outbox.take(written);
        match self.outbox.difference() {
            Some(place) => Err(format!("outbox written at {place}, past {written}")),
            None => Ok(Answer {
                number,
                used,
                outbox,
                steps,
                taken,
            }),
        }
    }

    /// The call itself; the state stays.
    pub fn make(&mut self, call: &Call) -> Made {
        let taken = match call {
            Call::Readings {
                values_len,
                outbox_len,
                rows,
                texts,
            } => return self.list(*values_len, *outbox_len, rows, texts),
            _ => 0,
        };
        let done = self.single(call);
        Made { done, taken }
    }

    /// A list as the library answers it.
    pub fn listed(
        &mut self,
        values_len: usize,
        outbox_len: usize,
        rows: &[Row],
        texts: &[u8],
    ) -> Listed {
        call::readings(
            &self.table,
            self.values.front(values_len),
            self.outbox.front(outbox_len),
            &self.state,
            rows,
            texts,
            self.index.front(self.lent),
        )
    }

    fn list(
        &mut self,
        values_len: usize,
        outbox_len: usize,
        rows: &[list::Row],
        texts: &[u8],
    ) -> Made {
        let rows: Vec<Row> = rows.iter().map(row).collect();
        let Listed {
            number,
            taken,
            written,
            steps,
            state,
        } = self.listed(values_len, outbox_len, &rows, texts);
        let done = Done {
            number,
            used: 0,
            written,
            steps,
            state,
        };
        Made { done, taken }
    }

    /// Any call but a list as the library answers it.
    pub fn single(&mut self, call: &Call) -> Done {
        let (table, state) = (&self.table, &self.state);
        let (values, outbox) = (&mut self.values, &mut self.outbox);
        let index = &*self.index.front(self.lent);
        match call {
            Call::Start { values_len, time } => {
                call::start(table, values.front(*values_len), *time)
            }
            Call::Open {
                client,
                values_len,
                time,
            } => call::open(
                table,
                values.front(*values_len),
                state,
                *client,
                *time,
                index,
            ),
            Call::Close {
                client,
                values_len,
                time,
            } => call::close(
                table,
                values.front(*values_len),
                state,
                *client,
                *time,
                index,
            ),
            Call::Piece {
                client,
                values_len,
                outbox_len,
                time,
                bytes,
            } => {
                let (values, outbox) = (values.front(*values_len), outbox.front(*outbox_len));
                call::piece(table, values, outbox, state, *client, *time, bytes, index)
            }
            Call::Reading {
                parameter,
                values_len,
                outbox_len,
                time,
                text,
            } => {
                let (values, outbox) = (values.front(*values_len), outbox.front(*outbox_len));
                call::reading(table, values, outbox, state, *parameter, *time, text, index)
            }
            Call::Unreadable {
                parameter,
                values_len,
                outbox_len,
                time,
                class,
            } => {
                let (values, outbox) = (values.front(*values_len), outbox.front(*outbox_len));
                call::unreadable(
                    table, values, outbox, state, *parameter, *time, *class, index,
                )
            }
            Call::Lend { .. } | Call::Readings { .. } => unreachable!("no single call"),
        }
    }

    pub fn value(&mut self, values_len: usize, parameter: u64) -> Shown {
        let values = self.values.front(values_len);
        let shown = call::value(&self.table, values, &self.state, parameter);
        if shown.number != 0 {
            return Shown::refused(shown.number);
        }
        let area = match shown.stored {
            0 => &self.table,
            _ => &*values,
        };
        Shown {
            number: shown.number,
            error: shown.error,
            text: readable(&area[shown.from..][..shown.size]),
            time: shown.time,
            set: shown.stored != 0,
        }
    }

    /// Changes what is kept, past all rules.
    pub fn poke(&mut self, poke: &Poke) {
        let (clients, settings) = (&mut self.state.clients, &mut self.state.settings);
        match poke {
            Poke::Open(client, flag) => clients.open[*client] = *flag,
            Poke::Overlong(client, flag) => clients.overlong[*client] = *flag,
            Poke::Active(client, mask) => clients.active[*client] = *mask,
            Poke::LineLength(client, length) => clients.length[*client] = *length,
            Poke::Lines(place, bytes) => {
                clients.lines[*place..][..bytes.len()].copy_from_slice(bytes);
            }
            Poke::StoredLength(number, length) => settings.length[*number] = *length,
            Poke::StoredTime(number, time) => settings.time[*number] = *time,
            Poke::StoredError(number, class) => settings.error[*number] = *class,
            Poke::Counts(client, count) => {
                self.state.counts[*client] = Counts {
                    lines: *count,
                    errors: *count,
                    updates: *count,
                };
            }
            Poke::Values(place, bytes) => self.values.set(*place, bytes),
        }
    }
}
