//! Histories with lists of readings (M-106): of any length up to ten, with a
//! parameter twice, and with readings that stop a list, wherever they stand.

use super::histories::Host;
use super::{encode, lending, tables, values};
use crate::history::{Call, History};
use crate::list::{Row, MAX_ROWS};
use crate::node::{MAX_TIME, MIN_VALUES};
use crate::operation::Operation;
use crate::outbox::MIN_OUTBOX;
use crate::random::Random;
use crate::table::Table;

/// A list in the making.
#[derive(Default)]
pub(super) struct Rack {
    rows: Vec<Row>,
    texts: Vec<u8>,
}

impl Rack {
    pub(super) fn len(&self) -> usize {
        self.rows.len()
    }

    /// Adds a reading; its text comes after those before it, perhaps with other
    /// bytes between them.
    pub(super) fn add(&mut self, random: &mut Random, parameter: u64, time: u64, text: &[u8]) {
        let between = *random.pick(&[0, 0, 1, 5]);
        self.texts.extend((0..between).map(|_| random.byte()));
        let offset = self.texts.len() as u64;
        self.texts.extend_from_slice(text);
        self.rows.push(Row {
            parameter,
            time,
            offset,
            length: text.len() as u64,
        });
    }

    /// Adds a reading that is refused, over a table of so many parameters.
    pub(super) fn add_refused(&mut self, random: &mut Random, parameters: u64, time: u64) {
        let present = parameters.saturating_sub(1);
        match random.below(4) {
            0 => {
                let missing = *random.pick(&[parameters, 64, 256, u64::MAX]);
                self.add(random, missing, time, b"1");
            }
            1 => {
                let late = *random.pick(&[MAX_TIME + 1, u64::MAX]);
                self.add(random, present, late, b"1");
            }
            2 => self.add(random, present, time, b"01"),
            _ => {
                self.add(random, present, time, b"1");
                let row = self.rows.last_mut().expect("one was added");
                let to_the_end = u64::MAX - row.offset;
                row.length = *random.pick(&[1 << 32, u64::MAX, to_the_end.saturating_add(1)]);
            }
        }
    }

    /// The last reading's text runs out of the buffer by a byte.
    fn cut_off(&mut self) {
        if let Some(row) = self.rows.last_mut() {
            row.length = row.length.saturating_add(1);
        }
    }

    pub(super) fn call(self, values_len: usize, outbox_len: usize) -> Call {
        Call::Readings {
            values_len,
            outbox_len,
            rows: self.rows,
            texts: self.texts,
        }
    }
}

/// A history of about so many calls over a good table.
pub fn history(seed: u64, calls: usize) -> History {
    let mut random = Random::new(seed);
    let table = tables::good(&mut random);
    let mut host = Host::new(random, &encode::table(&table));
    host.start();
    while host.made() < calls {
        match host.random.below(3) {
            0 => host.list(&table),
            _ => host.step(&table),
        }
    }
    host.history()
}

/// The same as operations over a kept state.
pub fn operations(seed: u64, calls: usize) -> Vec<Operation> {
    let history = history(seed, calls);
    let calls = history.calls.into_iter().map(Operation::Call);
    std::iter::once(Operation::Table(history.table))
        .chain(calls)
        .collect()
}

impl Host {
    /// A list; one in ten or so is lent too little.
    fn list(&mut self, table: &Table) {
        let rack = self.rack(table);
        let (mut values_len, mut outbox_len) = (self.values_len(), self.outbox_len());
        match self.random.below(30) {
            0 => values_len = MIN_VALUES - 1,
            1 => outbox_len = MIN_OUTBOX - 1,
            2 => {
                let index = lending::short(&mut self.random);
                self.call(Call::Lend { index });
            }
            _ => {}
        }
        self.call(rack.call(values_len, outbox_len));
        let index = lending::any(&mut self.random, table);
        self.call(Call::Lend { index });
    }

    fn rack(&mut self, table: &Table) -> Rack {
        let mut rack = Rack::default();
        let parameters = table.parameters();
        let count = self.random.between(0, MAX_ROWS + 1);
        let fault = self.random.below(2 * MAX_ROWS);
        while rack.len() < count {
            let time = self.next_time();
            if parameters.is_empty() || rack.len() == fault {
                rack.add_refused(&mut self.random, parameters.len() as u64, time);
                continue;
            }
            let few = if self.random.one_in(2) {
                parameters.len().min(4)
            } else {
                parameters.len()
            };
            let chosen = *self.random.pick(&parameters[..few]);
            let text = match self.random.below(12) {
                0 => values::any(&mut self.random, chosen.datainfo),
                _ => values::sent(&mut self.random, chosen.datainfo),
            };
            rack.add(&mut self.random, chosen.number as u64, time, &text);
        }
        if self.random.one_in(12) {
            rack.cut_off();
        }
        rack
    }
}
