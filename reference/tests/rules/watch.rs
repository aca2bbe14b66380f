//! A watcher that follows a history from outside, by what is sent alone, and
//! finds out when something is sent that should not be.

use crate::build::line_of;
use reference::history::{Answer, Call, History, Player};
use reference::node::{seconds, CLIENTS};
use reference::outbox::{self, Mark, Record};
use reference::table::Table;
use reference::value::judge;

/// What the watcher knows.
struct Watcher {
    /// The modules' names.
    modules: Vec<String>,
    /// For each parameter its specifier and its report, of a value or an error.
    parameters: Vec<(String, String)>,
    /// The specifiers of the statuses that become busy.
    statuses: Vec<String>,
    open: [bool; CLIENTS],
    /// For each client, which modules it has active.
    active: [Vec<bool>; CLIENTS],
    /// For each client its lines, errors and updates since it was opened.
    counts: [[usize; 3]; CLIENTS],
}

/// What a history was seen to contain.
#[derive(Default)]
pub struct Seen {
    pub numbers: Vec<u8>,
    pub records: Vec<Record>,
}

/// Follows a whole history.
pub fn watch(history: &History) -> Seen {
    let mut player = Player::new(&history.table);
    let mut watcher = None;
    let mut seen = Seen::default();
    for call in &history.calls {
        let before = player.node().map(|node| node.state().clone());
        let answer = player.call(call).expect("a start comes first");
        if !call.is_made() {
            continue;
        }
        let records = outbox::read(&answer.outbox).expect("nothing but records");
        if let Call::Start { time, .. } = call {
            let start_time = if answer.is_accepted() { *time } else { 0 };
            watcher = Table::judge(&history.table)
                .ok()
                .map(|table| Watcher::new(&table, start_time));
            assert!(records.is_empty());
        } else if !answer.has_effect() {
            assert_eq!((answer.used, answer.outbox.len()), (0, 0));
            assert_eq!(before.as_ref(), player.node().map(|node| node.state()));
        } else {
            let watcher = watcher.as_mut().expect("a good table");
            watcher.follow(call, &answer, &records);
        }
        assert!(answer.outbox.len() <= 32_019);
        seen.numbers.push(answer.number);
        seen.records.extend(records);
    }
    seen
}

const CLASSES: [&str; 4] = [
    "HardwareError",
    "CommunicationFailed",
    "ReadFailed",
    "OutOfRange",
];

/// The report of a parameter that can't be read.
fn error_report(class: u64, time: u64) -> String {
    let name = CLASSES[class as usize - 1];
    format!("[\"{name}\",\"{name}\",{{\"t\":{}}}]", seconds(time))
}

/// No value has the form of such a report: it would have to be two values.
fn is_error_report(report: &str) -> bool {
    let front = |name: &&str| report.starts_with(&format!("[\"{name}\",\"{name}\",{{"));
    CLASSES.iter().any(|name| front(name))
}

fn update_action(report: &str) -> &'static str {
    if is_error_report(report) {
        "error_update"
    } else {
        "update"
    }
}

impl Watcher {
    fn new(table: &Table, start_time: u64) -> Watcher {
        let text = |bytes: &[u8]| String::from_utf8(bytes.to_vec()).expect("ASCII");
        let parameters = table.parameters();
        let statuses = parameters.iter().filter(|one| {
            let busy = br#"[300,"target changed"]"#;
            one.name == b"status" && judge(one.datainfo, busy) == Ok(busy.to_vec())
        });
        let statuses = statuses
            .map(|one| text(one.module_name) + ":status")
            .collect();
        let parameters = parameters.iter().map(|one| {
            let specifier = format!("{}:{}", text(one.module_name), text(one.name));
            let report = format!("[{},{{\"t\":{}}}]", text(one.initial), seconds(start_time));
            (specifier, report)
        });
        Watcher {
            modules: table.modules.iter().map(|one| text(&one.name)).collect(),
            parameters: parameters.collect(),
            statuses,
            open: [false; CLIENTS],
            active: std::array::from_fn(|_| vec![false; table.modules.len()]),
            counts: [[0; 3]; CLIENTS],
        }
    }

    fn follow(&mut self, call: &Call, answer: &Answer, records: &[Record]) {
        match call {
            Call::Start { .. } => unreachable!("starts are followed elsewhere"),
            Call::Lend { .. } => unreachable!("lending is no call"),
            Call::Open { client, .. } => self.set_open(*client as usize, true, records),
            Call::Close { client, .. } => self.set_open(*client as usize, false, records),
            Call::Reading {
                parameter,
                time,
                text,
                ..
            } => self.follow_reading(*parameter as usize, *time, text, records),
            Call::Readings { rows, texts, .. } => {
                let mut records = records;
                for row in &rows[..answer.taken] {
                    let text = row.text(texts).expect("a text in its buffer");
                    let parameter = row.parameter as usize;
                    let (own, others) = records.split_at(self.told(parameter).len());
                    self.follow_reading(parameter, row.time, text, own);
                    records = others;
                }
                assert!(records.is_empty());
            }
            Call::Unreadable {
                parameter,
                time,
                class,
                ..
            } => {
                let report = error_report(*class, *time);
                self.parameters[*parameter as usize].1 = report;
                self.expect_updates(*parameter as usize, records);
            }
            Call::Piece {
                client,
                time,
                bytes,
                ..
            } => {
                let line_feed = bytes.iter().position(|&byte| byte == b'\n');
                let expected = line_feed.map_or(bytes.len(), |at| at + 1);
                assert_eq!(answer.used, expected, "up to the first line feed");
                match line_feed {
                    Some(_) => self.follow_line(*client as u8, *time, records),
                    None => assert!(records.is_empty()),
                }
            }
        }
        for record in records {
            let counts = &mut self.counts[record.client as usize];
            match record.mark {
                Mark::Update => counts[2] += 1,
                Mark::Reply if line_of(record).starts_with("error_") => counts[1] += 1,
                _ => {}
            }
        }
    }

    fn set_open(&mut self, client: usize, open: bool, records: &[Record]) {
        assert!(records.is_empty());
        assert_ne!(self.open[client], open);
        self.open[client] = open;
        self.active[client].fill(false);
        if open {
            self.counts[client] = [0; 3];
        }
    }

    fn follow_reading(&mut self, parameter: usize, time: u64, text: &[u8], records: &[Record]) {
        // A value without spaces and strings is stored as it is; a string may
        // be an enum member's name.
        if !text.contains(&b' ') && !text.contains(&b'"') {
            let value = String::from_utf8(text.to_vec()).expect("ASCII");
            self.parameters[parameter].1 = format!("[{value},{{\"t\":{}}}]", seconds(time));
        } else if let Some(update) = records.first() {
            self.learn_report(parameter, time, &line_of(update));
        } else {
            self.parameters[parameter].1.clear();
        }
        self.expect_updates(parameter, records);
    }

    /// Takes a report over from a line that ends in it, if its time is right.
    fn learn_report(&mut self, parameter: usize, time: u64, line: &str) {
        let report = line.splitn(3, ' ').nth(2).expect("a report");
        assert!(report.ends_with(&format!(",{{\"t\":{}}}]", seconds(time))));
        self.parameters[parameter].1 = report.to_string();
    }

    /// The open clients that have the parameter's module active, lowest first.
    fn told(&self, parameter: usize) -> Vec<u8> {
        let module = self.module_of(&self.parameters[parameter].0);
        (0..CLIENTS as u8)
            .filter(|&client| self.open[client as usize] && self.active[client as usize][module])
            .collect()
    }

    /// Exactly those.
    fn expect_updates(&self, parameter: usize, records: &[Record]) {
        let (specifier, report) = &self.parameters[parameter];
        let clients: Vec<u8> = records.iter().map(|record| record.client).collect();
        assert_eq!(clients, self.told(parameter));
        for record in records {
            assert_eq!(record.mark, Mark::Update);
            let action = update_action(report);
            assert_eq!(line_of(record), format!("{action} {specifier} {report}"));
        }
    }

    fn module_of(&self, specifier: &str) -> usize {
        let (name, _) = specifier.split_once(':').expect("a colon");
        self.modules
            .iter()
            .position(|module| module == name)
            .expect("a module of the table")
    }

    /// One reply to the sender, at the end; what comes before depends on it.
    fn follow_line(&mut self, client: u8, time: u64, records: &[Record]) {
        let (reply, before) = records.split_last().expect("a reply");
        assert_eq!((reply.mark, reply.client), (Mark::Reply, client));
        self.counts[client as usize][0] += 1;
        let line = line_of(reply);
        let words: Vec<&str> = line.splitn(3, ' ').collect();
        match words[..] {
            ["active"] => self.follow_activation(client, &self.modules.clone(), true, before),
            ["active", module] => {
                self.follow_activation(client, &[module.to_string()], true, before)
            }
            ["inactive"] => self.follow_activation(client, &self.modules.clone(), false, before),
            ["inactive", module] => {
                self.follow_activation(client, &[module.to_string()], false, before)
            }
            ["changed", specifier, report] => {
                self.follow_change(specifier, report, time, client, before)
            }
            ["done", _, report] => {
                assert_eq!(report, format!("[null,{{\"t\":{}}}]", seconds(time)));
                assert_eq!(before.len(), 1);
                assert_eq!(
                    (before[0].mark, before[0].client),
                    (Mark::DriverCommand, client)
                );
            }
            ["reply", specifier, report] => {
                assert!(before.is_empty());
                let known = &self.parameters[self.number_of(specifier)].1;
                assert!(known.is_empty() || known == report, "{known} {report}");
                assert_eq!(update_action(report), "update");
            }
            ["error_read", specifier, report] if is_error_report(report) => {
                assert!(before.is_empty());
                // What follows a second colon is repeated in the reply.
                let mut parts = specifier.split(':').map(str::to_string);
                let names = [parts.next(), parts.next()].map(Option::unwrap).join(":");
                assert_eq!(self.parameters[self.number_of(&names)].1, report);
            }
            // What was told of the parameter stays as it was.
            ["checked", specifier, report] => {
                assert!(before.is_empty());
                self.number_of(specifier);
                assert!(report.ends_with(&format!(",{{\"t\":{}}}]", seconds(time))));
            }
            ["_counted", ".", report] => {
                assert!(before.is_empty());
                let [lines, errors, updates] = self.counts[client as usize];
                let active = self.active[client as usize]
                    .iter()
                    .filter(|&&is| is)
                    .count();
                let time = seconds(time);
                let expected = format!("[[{lines},{errors},{updates},{active}],{{\"t\":{time}}}]");
                assert_eq!(report, expected);
            }
            ["pong", _, report] => {
                assert!(before.is_empty());
                assert_eq!(report, format!("[null,{{\"t\":{}}}]", seconds(time)));
            }
            _ => {
                let identification = ["ISSE&SINE2020,SECoP,", "ISSE,SECoP,"]
                    .iter()
                    .any(|front| line.starts_with(front));
                let description = line.starts_with("describing . {\"modules\":{");
                let error = line.starts_with("error_") && line.ends_with("\",{}]");
                assert!(identification || description || error, "{line}");
                assert!(before.is_empty());
            }
        }
    }

    fn number_of(&self, specifier: &str) -> usize {
        self.parameters
            .iter()
            .position(|(known, _)| known == specifier)
            .expect("a parameter of the table")
    }

    fn follow_change(
        &mut self,
        specifier: &str,
        report: &str,
        time: u64,
        client: u8,
        before: &[Record],
    ) {
        let number = self.number_of(specifier);
        let (order, updates) = before.split_first().expect("the driver's order");
        assert_eq!((order.mark, order.client), (Mark::DriverChange, client));
        let value = String::from_utf8(order.body[1..].to_vec()).expect("ASCII");
        assert_eq!(usize::from(order.body[0]), number);
        assert_eq!(report, format!("[{value},{{\"t\":{}}}]", seconds(time)));
        self.parameters[number].1 = report.to_string();
        let updates = self.follow_busy(specifier, time, updates);
        self.expect_updates(number, updates);
    }

    /// The status that becomes busy before this parameter, if there is one, is
    /// told first; what is left tells of the parameter.
    fn follow_busy<'a>(
        &mut self,
        specifier: &str,
        time: u64,
        updates: &'a [Record],
    ) -> &'a [Record] {
        let Some(module) = specifier.strip_suffix(":target") else {
            return updates;
        };
        let status = format!("{module}:status");
        if !self.statuses.contains(&status) {
            return updates;
        }
        let number = self.number_of(&status);
        let report = format!("[[300,\"target changed\"],{{\"t\":{}}}]", seconds(time));
        self.parameters[number].1 = report;
        let (first, rest) = updates.split_at(updates.len() / 2);
        self.expect_updates(number, first);
        rest
    }

    /// An activation sends the known reports of its modules' parameters.
    fn follow_activation(
        &mut self,
        client: u8,
        modules: &[String],
        activate: bool,
        before: &[Record],
    ) {
        for name in modules {
            let module = self.module_of(&format!("{name}:"));
            self.active[client as usize][module] = activate;
        }
        let of_modules = |specifier: &str| {
            modules
                .iter()
                .any(|name| specifier.starts_with(&format!("{name}:")))
        };
        let mut expected = self
            .parameters
            .iter()
            .filter(|(specifier, _)| activate && of_modules(specifier));
        for record in before {
            let (specifier, report) = expected.next().expect("no update too many");
            assert_eq!((record.mark, record.client), (Mark::Update, client));
            let line = line_of(record);
            let front = format!("{} {specifier} ", update_action(report));
            assert!(line.starts_with(&front));
            assert!(report.is_empty() || line == front + report);
        }
        assert_eq!(expected.next(), None, "no update missing");
    }
}
