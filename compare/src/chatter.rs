//! A history, and the same without lines of other clients that are no accepted
//! changes (M-112), through the library: nothing of it reaches the one client.

use crate::difference::{same, Counts, Difference};
use crate::histories::{self, Course};
use reference::generate::quieter::{orders, Quieter};
use reference::history::History;
use reference::outbox::{self, Mark, Record};

/// What was left out in all, and what was compared.
#[derive(Default)]
pub struct Chatter {
    lines: usize,
    commands: usize,
    records: usize,
}

impl Chatter {
    pub fn print(&self) {
        let Chatter {
            lines,
            commands,
            records,
        } = self;
        println!("{lines} lines left out, {commands} of them commands");
        println!("{records} records sent to the clients that stay");
    }

    /// Runs both histories, and compares what the client is sent, what is held
    /// at the end, and what drivers are told to do.
    pub fn run(
        &mut self,
        first: &History,
        quieter: &Quieter,
        seed: u64,
        counts: &mut Counts,
    ) -> Result<(), Difference> {
        let whole = histories::run(first, seed, counts)?;
        let less = histories::run(&quieter.history, seed, counts)?;
        let call = quieter.history.calls.len();
        self.compare(&whole, &less, quieter)
            .map_err(|text| Difference { call, text })
    }

    fn compare(&mut self, whole: &Course, less: &Course, quieter: &Quieter) -> Result<(), String> {
        let client = quieter.client;
        let (all, kept) = (read(whole)?, read(less)?);
        let heard = to_client(&all, client);
        same("records", &to_client(&kept, client), &heard)?;
        less.same_for(whole, client)?;
        let due = orders(&all, &quieter.left_out);
        let found: Vec<Record> = kept.into_iter().filter(is_order).collect();
        same("driver's orders", &found, &due)?;
        self.lines += quieter
            .left_out
            .iter()
            .flatten()
            .filter(|out| **out)
            .count();
        self.commands += all.iter().filter(|record| is_order(record)).count() - due.len();
        self.records += heard.len();
        Ok(())
    }
}

fn read(course: &Course) -> Result<Vec<Record>, String> {
    outbox::read(&course.sent).ok_or("what was sent is no records".to_string())
}

fn to_client(records: &[Record], client: usize) -> Vec<&Record> {
    let heard = records.iter().filter(|record| record.is_to(client));
    heard.collect()
}

fn is_order(record: &Record) -> bool {
    matches!(record.mark, Mark::DriverChange | Mark::DriverCommand)
}
