//! A history without some lines that are nothing to one client (M-112):
//! refused calls and unused bytes are left out, and so are lines of other
//! clients that are not accepted changes, whole with their line feeds. All
//! else stays with its times, and is cut and mingled in another way.

use super::second;
use crate::history::History;
use crate::node::CLIENTS;
use crate::outbox::{self, Mark, Record};
use crate::random::Random;

/// How an accepted change is answered.
const CHANGED: &[u8] = b"changed ";

pub struct Quieter {
    /// The client that hears no difference.
    pub client: usize,
    /// Of each client's lines, in order, whether they are left out.
    pub left_out: [Vec<bool>; CLIENTS],
    pub history: History,
}

/// The history without some of its lines, for a client that is sent something.
/// `None` if it has no accepted start, more than one, or no such client.
pub fn quieter(first: &History, seed: u64) -> Option<Quieter> {
    let mut random = Random::new(seed);
    let records = records(first)?;
    let clients: Vec<usize> = (0..CLIENTS)
        .filter(|client| records.iter().any(|record| record.is_to(*client)))
        .collect();
    if clients.is_empty() {
        return None;
    }
    let client = *random.pick(&clients);
    let mut left_out: [Vec<bool>; CLIENTS] = Default::default();
    for record in records.iter().filter(|record| record.mark == Mark::Reply) {
        let sender = usize::from(record.client);
        let may_go = sender != client && !record.body.starts_with(CHANGED);
        left_out[sender].push(may_go && random.one_in(2));
    }
    let mut course = second::course(first)?;
    course.leave_out(&left_out);
    Some(Quieter {
        client,
        left_out,
        history: second::write(course, &first.table, random.number()),
    })
}

/// All that a history sends.
fn records(history: &History) -> Option<Vec<Record>> {
    let answers = history.run()?.answers;
    let sent: Vec<u8> = answers.into_iter().flat_map(|one| one.outbox).collect();
    outbox::read(&sent)
}

/// The driver's orders among the records of the whole history, less those of
/// commands that are left out. An order stands before its line's reply.
pub fn orders(records: &[Record], left_out: &[Vec<bool>; CLIENTS]) -> Vec<Record> {
    let mut lines = [0; CLIENTS];
    let mut orders = Vec::new();
    for record in records {
        let client = usize::from(record.client);
        match record.mark {
            Mark::Reply => lines[client] += 1,
            Mark::DriverChange => orders.push(record.clone()),
            Mark::DriverCommand if !left_out[client][lines[client]] => orders.push(record.clone()),
            Mark::DriverCommand | Mark::Update => {}
        }
    }
    orders
}
