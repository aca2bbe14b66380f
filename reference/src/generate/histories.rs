//! Histories as a host makes them: clients come and go, their bytes arrive in
//! pieces, drivers report readings, indexes are lent, and some calls are wrong.

use super::encode;
use super::lending;
use super::lines;
use super::ramps;
use super::tables;
use super::values;
use crate::history::{Call, History, Player};
use crate::node::{CLIENTS, MAX_TIME, MIN_VALUES};
use crate::outbox::MIN_OUTBOX;
use crate::random::Random;
use crate::table::Table;

/// A history of about so many calls over a table of its own.
pub fn history(seed: u64, calls: usize) -> History {
    let mut random = Random::new(seed);
    if random.one_in(15) {
        let table = tables::faulty(&mut random).bytes;
        return over_faulty_table(random, table, calls.min(8));
    }
    let mut table = tables::good(&mut random);
    if random.one_in(2) {
        ramps::add(&mut random, &mut table);
    }
    over_table(random, &table, calls)
}

/// A history over a good table. One in ten has a refused start that is gone
/// on with; the others have an accepted one, perhaps after refused ones.
fn over_table(random: Random, table: &Table, calls: usize) -> History {
    let mut host = Host::new(random, &encode::table(table));
    let stays_refused = host.random.one_in(10);
    if stays_refused || host.random.one_in(8) {
        host.refused_start();
    }
    if !stays_refused {
        host.start();
    }
    while host.made() < calls {
        host.step(table);
    }
    host.history()
}

/// Every call over a faulty table is refused.
fn over_faulty_table(random: Random, table: Vec<u8>, calls: usize) -> History {
    let mut host = Host::new(random, &table);
    host.start();
    while host.made() < calls {
        match host.random.below(5) {
            0 => host.open(),
            1 => host.close(),
            2 => host.offer(0, b"ping\n".to_vec()),
            3 => host.fail(0, 1),
            _ => host.report(0, b"1".to_vec()),
        }
    }
    host.history()
}

/// Makes calls and keeps what clients sent and the node has not used yet.
pub(super) struct Host {
    pub(super) random: Random,
    player: Player,
    table: Vec<u8>,
    calls: Vec<Call>,
    unused: [Vec<u8>; CLIENTS],
    time: u64,
}

impl Host {
    pub(super) fn new(mut random: Random, table: &[u8]) -> Host {
        let time = *random.pick(&[0, 5, 1_000, 1_505_396_348_188]);
        Host {
            random,
            player: Player::new(table),
            table: table.to_vec(),
            calls: Vec::new(),
            unused: Default::default(),
            time,
        }
    }

    pub(super) fn history(self) -> History {
        History {
            table: self.table,
            calls: self.calls,
        }
    }

    /// How many calls there are.
    pub(super) fn made(&self) -> usize {
        self.calls.iter().filter(|call| call.is_made()).count()
    }

    /// Makes a call. Bytes that a piece used are no longer waiting; those of a
    /// closed client are lost.
    pub(super) fn call(&mut self, call: Call) {
        let answer = self.player.call(&call).unwrap_or_default();
        match call {
            Call::Close { client, .. } if answer.is_accepted() => {
                self.unused[client as usize].clear();
            }
            Call::Piece { client, .. } if answer.is_accepted() => {
                let unused = &mut self.unused[client as usize];
                unused.drain(..answer.used.min(unused.len()));
            }
            _ => {}
        }
        self.calls.push(call);
    }

    pub(super) fn start(&mut self) {
        let (values_len, time) = (self.values_len(), self.next_time());
        self.call(Call::Start { values_len, time });
    }

    /// A start with too small a values area, too late a time or both.
    fn refused_start(&mut self) {
        let (values_len, time) = match self.random.below(3) {
            0 => (MIN_VALUES - 1, self.next_time()),
            1 => (self.values_len(), MAX_TIME + 1),
            _ => (0, u64::MAX),
        };
        self.call(Call::Start { values_len, time });
    }

    pub(super) fn step(&mut self, table: &Table) {
        match self.random.below(24) {
            0..=2 => self.open(),
            3 if self.random.one_in(3) => self.close(),
            4..=6 if self.random.one_in(4) => self.failure(table),
            4..=6 => self.reading(table),
            7 => self.refused_call(table),
            8 => self.lend(table),
            _ => self.piece(table),
        }
    }

    /// Another index is lent from here on; one that is too short for one call
    /// only, which has no other fault.
    fn lend(&mut self, table: &Table) {
        if self.random.one_in(4) {
            let index = lending::short(&mut self.random);
            self.call(Call::Lend { index });
            match self.random.below(6) {
                0 => self.open(),
                1 => self.close(),
                2 => self.reading(table),
                3 => self.failure(table),
                _ => self.piece(table),
            }
        }
        let index = lending::any(&mut self.random, table);
        self.call(Call::Lend { index });
    }

    fn open(&mut self) {
        let client = match self.closed_clients() {
            closed if closed.is_empty() || self.random.one_in(6) => self.any_client(),
            closed => *self.random.pick(&closed),
        };
        let (values_len, time) = (self.values_len(), self.next_time());
        self.call(Call::Open {
            client,
            values_len,
            time,
        });
    }

    fn close(&mut self) {
        let client = match self.open_clients() {
            open if open.is_empty() || self.random.one_in(3) => self.any_client(),
            open => *self.random.pick(&open),
        };
        let (values_len, time) = (self.values_len(), self.next_time());
        self.call(Call::Close {
            client,
            values_len,
            time,
        });
    }

    /// Offers a client's bytes: what was left over, and new lines behind it.
    fn piece(&mut self, table: &Table) {
        let open = self.open_clients();
        if open.is_empty() {
            return self.open();
        }
        let client = *self.random.pick(&open) as usize;
        if self.unused[client].is_empty() || self.random.one_in(3) {
            for _ in 0..*self.random.pick(&[1, 1, 1, 2, 3]) {
                let line = lines::line_with_end(&mut self.random, table);
                self.receive(client as u64, &line);
            }
        }
        let length = self.cut(client);
        self.offer_first(client as u64, length);
    }

    /// Bytes come in from a client and wait.
    pub(super) fn receive(&mut self, client: u64, bytes: &[u8]) {
        self.unused[client as usize].extend_from_slice(bytes);
    }

    /// How many bytes of a client wait.
    pub(super) fn waiting(&self, client: u64) -> usize {
        self.unused[client as usize].len()
    }

    /// Offers the first bytes that wait.
    pub(super) fn offer_first(&mut self, client: u64, length: usize) {
        let bytes = self.unused[client as usize][..length].to_vec();
        self.offer(client, bytes);
    }

    /// Where to cut a client's bytes: often nowhere, else anywhere or close to
    /// a line feed.
    fn cut(&mut self, client: usize) -> usize {
        let bytes = &self.unused[client];
        let line_feed = bytes.iter().position(|&byte| byte == b'\n');
        match (self.random.below(12), line_feed) {
            (0, _) => self.random.between(0, bytes.len()),
            (1, Some(at)) => at,
            (2, Some(at)) => at.saturating_sub(1),
            (3, Some(at)) => at + 1,
            (4, _) => 0,
            _ => bytes.len(),
        }
    }

    fn offer(&mut self, client: u64, bytes: Vec<u8>) {
        let (values_len, outbox_len) = (self.values_len(), self.outbox_len());
        let time = self.next_time();
        self.call(Call::Piece {
            client,
            values_len,
            outbox_len,
            time,
            bytes,
        });
    }

    fn reading(&mut self, table: &Table) {
        let parameters = table.parameters();
        if parameters.is_empty() {
            return self.report(0, b"1".to_vec());
        }
        let parameter = *self.random.pick(&parameters);
        let text = if self.random.one_in(3) {
            values::any(&mut self.random, parameter.datainfo)
        } else {
            values::sent(&mut self.random, parameter.datainfo)
        };
        self.report(parameter.number as u64, text);
    }

    /// A parameter can't be read; now and then its class is unknown.
    fn failure(&mut self, table: &Table) {
        let parameter = self.random.below(table.parameters().len().max(1)) as u64;
        let class = self.some_class();
        self.fail(parameter, class);
    }

    /// A class of 1 to 4, now and then one that is none.
    pub(super) fn some_class(&mut self) -> u64 {
        if self.random.one_in(6) {
            *self.random.pick(&[0, 5, 255, 256, 257, 1 << 32, u64::MAX])
        } else {
            self.random.between(1, 4) as u64
        }
    }

    pub(super) fn fail(&mut self, parameter: u64, class: u64) {
        let (values_len, outbox_len) = (self.values_len(), self.outbox_len());
        let time = self.next_time();
        self.call(Call::Unreadable {
            parameter,
            values_len,
            outbox_len,
            time,
            class,
        });
    }

    pub(super) fn report(&mut self, parameter: u64, text: Vec<u8>) {
        let (values_len, outbox_len) = (self.values_len(), self.outbox_len());
        let time = self.next_time();
        self.call(Call::Reading {
            parameter,
            values_len,
            outbox_len,
            time,
            text,
        });
    }

    /// A call with one or more of its arguments outside what is allowed. A
    /// client's waiting bytes are offered, so that a node which takes them all
    /// the same is found out.
    pub(super) fn refused_call(&mut self, table: &Table) {
        let (client, parameter) = (self.any_client(), self.odd_parameter(table));
        let waiting = self.unused.get(client as usize).cloned();
        let bytes = waiting
            .filter(|bytes| !bytes.is_empty())
            .unwrap_or_else(|| b"ping x\n".to_vec());
        let mut values_len = self.values_len();
        let mut outbox_len = self.outbox_len();
        let mut time = self.next_time();
        for _ in 0..self.random.between(1, 2) {
            match self.random.below(4) {
                0 => values_len = *self.random.pick(&[MIN_VALUES - 1, 0]),
                1 => outbox_len = *self.random.pick(&[MIN_OUTBOX - 1, 0]),
                2 => time = *self.random.pick(&[MAX_TIME + 1, u64::MAX]),
                _ => {}
            }
        }
        let call = match self.random.below(6) {
            0 => Call::Open {
                client,
                values_len,
                time,
            },
            1 => Call::Close {
                client,
                values_len,
                time,
            },
            2..=3 => Call::Piece {
                client,
                values_len,
                outbox_len,
                time,
                bytes,
            },
            4 => Call::Unreadable {
                parameter,
                values_len,
                outbox_len,
                time,
                class: self.some_class(),
            },
            _ => Call::Reading {
                parameter,
                values_len,
                outbox_len,
                time,
                text: b"true".to_vec(),
            },
        };
        self.call(call);
    }

    fn clients_where(&self, wanted_open: bool) -> Vec<u64> {
        let clients = self.player.node().map(|node| &node.state().clients);
        let clients = clients.into_iter().flatten().zip(0..);
        clients
            .filter(|(client, _)| client.open == wanted_open)
            .map(|(_, number)| number)
            .collect()
    }

    fn open_clients(&self) -> Vec<u64> {
        self.clients_where(true)
    }

    fn closed_clients(&self) -> Vec<u64> {
        self.clients_where(false)
    }

    /// Any client's number, sometimes one above 7.
    fn any_client(&mut self) -> u64 {
        match self.random.below(10) {
            0 => 8,
            1 => *self.random.pick(&[9, 255, 256, 1 << 32, u64::MAX]),
            _ => self.random.below(CLIENTS) as u64,
        }
    }

    /// The number of the last parameter or one past it.
    fn odd_parameter(&mut self, table: &Table) -> u64 {
        let count = table.parameters().len() as u64;
        *self.random.pick(&[
            count.saturating_sub(1),
            count,
            count,
            count + 1,
            64,
            256,
            u64::MAX,
        ])
    }

    pub(super) fn values_len(&mut self) -> usize {
        *self
            .random
            .pick(&[MIN_VALUES, MIN_VALUES, MIN_VALUES, MIN_VALUES + 1, 20_000])
    }

    pub(super) fn outbox_len(&mut self) -> usize {
        *self
            .random
            .pick(&[MIN_OUTBOX, MIN_OUTBOX, MIN_OUTBOX, MIN_OUTBOX + 1, 40_000])
    }

    /// Time mostly goes on, sometimes back; now and then a call has quite
    /// another time, such as the latest.
    pub(super) fn next_time(&mut self) -> u64 {
        let step = self.random.below(3_000) as u64;
        match self.random.below(20) {
            0 => self.time = self.time.saturating_sub(2 * step),
            1 => return self.random.below(2_000) as u64,
            2 => return self.random.whole(0, i128::from(MAX_TIME)) as u64,
            3 => return MAX_TIME,
            4 => {}
            _ => self.time = (self.time + step).min(MAX_TIME),
        }
        self.time
    }
}
