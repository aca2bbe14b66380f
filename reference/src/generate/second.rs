//! Another history with the same course: the same bytes of each client, the
//! same order of line feeds, readings, reports of unreadable parameters, opens
//! and closes with their times, but cut and mingled in another way, and with
//! other indexes. Refused calls are left out.

use super::lending;
use super::racks::Rack;
use crate::history::{Answer, Call, History};
use crate::line::LINE_FEED;
use crate::list::MAX_ROWS;
use crate::node::{CLIENTS, MAX_TIME, MIN_VALUES};
use crate::outbox::MIN_OUTBOX;
use crate::random::Random;
use crate::table::Table;
use std::collections::VecDeque;

/// What both histories have in the same order.
enum Event {
    Open {
        client: u64,
        time: u64,
    },
    Close {
        client: u64,
        time: u64,
    },
    LineFeed {
        client: u64,
        time: u64,
    },
    Reading {
        parameter: u64,
        time: u64,
        text: Vec<u8>,
    },
    Unreadable {
        parameter: u64,
        time: u64,
        class: u64,
    },
}

/// The bytes of a client between two of its events. They may arrive at any
/// time after the first and before the second.
#[derive(Default)]
struct Stretch {
    bytes: Vec<u8>,
    /// Whether the second event is a line feed.
    is_line: bool,
}

/// A history's course: its start, its events, and for each client the
/// stretches before its first event, between its events and after its last.
pub(super) struct Course {
    start: Call,
    events: Vec<Event>,
    stretches: [Vec<Stretch>; CLIENTS],
}

/// A second history for a first one. `None` if that has no accepted start, or
/// more than one.
pub fn second(first: &History, seed: u64) -> Option<History> {
    let course = course(first)?;
    Some(write(course, &first.table, seed))
}

/// A history with this course, cut and mingled at random.
pub(super) fn write(course: Course, table: &[u8], seed: u64) -> History {
    let mut writer = Writer {
        random: Random::new(seed),
        calls: vec![course.start],
        waiting: course.stretches.map(VecDeque::from),
        open: [false; CLIENTS],
    };
    let judged = Table::judge(table).expect("a start was accepted");
    let mut events = &course.events[..];
    while let Some((event, others)) = events.split_first() {
        if writer.random.one_in(6) {
            writer.lend(&judged);
        }
        writer.mingle();
        events = match writer.list(events, judged.parameters().len()) {
            0 => {
                writer.write(event);
                others
            }
            listed => &events[listed..],
        };
    }
    writer.finish();
    History {
        table: table.to_vec(),
        calls: writer.calls,
    }
}

/// Takes a history apart. Unused bytes are no part of its course.
pub(super) fn course(history: &History) -> Option<Course> {
    let answers = history.run()?.answers;
    let accepted = history.calls.iter().zip(&answers);
    let mut accepted = accepted.filter(|(_, answer)| answer.has_effect());
    let (start, _) = accepted.next()?;
    let mut course = Course {
        start: start.clone(),
        events: Vec::new(),
        stretches: std::array::from_fn(|_| vec![Stretch::default()]),
    };
    for (call, answer) in accepted {
        course.add(call, answer)?;
    }
    matches!(course.start, Call::Start { .. }).then_some(course)
}

impl Course {
    fn add(&mut self, call: &Call, answer: &Answer) -> Option<()> {
        match call {
            Call::Start { .. } => return None,
            Call::Lend { .. } => {}
            Call::Open { client, time, .. } => {
                let (client, time) = (*client, *time);
                self.end_stretch(client, Event::Open { client, time });
            }
            Call::Close { client, time, .. } => {
                let (client, time) = (*client, *time);
                self.end_stretch(client, Event::Close { client, time });
            }
            Call::Reading {
                parameter,
                time,
                text,
                ..
            } => self.events.push(Event::Reading {
                parameter: *parameter,
                time: *time,
                text: text.clone(),
            }),
            Call::Unreadable {
                parameter,
                time,
                class,
                ..
            } => self.events.push(Event::Unreadable {
                parameter: *parameter,
                time: *time,
                class: *class,
            }),
            Call::Piece {
                client,
                time,
                bytes,
                ..
            } => self.add_bytes(*client, *time, &bytes[..answer.used]),
            Call::Readings { rows, texts, .. } => {
                for row in &rows[..answer.taken] {
                    self.events.push(Event::Reading {
                        parameter: row.parameter,
                        time: row.time,
                        text: row.text(texts)?.to_vec(),
                    });
                }
            }
        }
        Some(())
    }

    fn add_bytes(&mut self, client: u64, time: u64, used: &[u8]) {
        let line = used.strip_suffix(&[LINE_FEED]);
        if let Some(stretch) = self.stretches[client as usize].last_mut() {
            stretch.bytes.extend_from_slice(line.unwrap_or(used));
            stretch.is_line = line.is_some();
        }
        if line.is_some() {
            self.end_stretch(client, Event::LineFeed { client, time });
        }
    }

    fn end_stretch(&mut self, client: u64, event: Event) {
        self.events.push(event);
        self.stretches[client as usize].push(Stretch::default());
    }

    /// Leaves lines out, with their line feeds: of each client's lines, in
    /// order, those that are marked.
    pub(super) fn leave_out(&mut self, left_out: &[Vec<bool>; CLIENTS]) {
        let mut lines = [0; CLIENTS];
        // The number of the stretch that each client is within.
        let mut within = [0; CLIENTS];
        let stretches = &mut self.stretches;
        self.events.retain(|event| match event {
            Event::LineFeed { client, .. } => {
                let client = *client as usize;
                let is_out = left_out[client][lines[client]];
                lines[client] += 1;
                if is_out {
                    stretches[client].remove(within[client]);
                } else {
                    within[client] += 1;
                }
                !is_out
            }
            Event::Open { client, .. } | Event::Close { client, .. } => {
                within[*client as usize] += 1;
                true
            }
            Event::Reading { .. } | Event::Unreadable { .. } => true,
        });
    }
}

/// Writes the second history.
struct Writer {
    random: Random,
    calls: Vec<Call>,
    /// Each client's stretches that are still to come; there is one more than
    /// the client has events.
    waiting: [VecDeque<Stretch>; CLIENTS],
    open: [bool; CLIENTS],
}

impl Writer {
    fn lend(&mut self, table: &Table) {
        let index = lending::any(&mut self.random, table);
        self.calls.push(Call::Lend { index });
    }

    /// Lists some readings at the front of the events anew, and says how many;
    /// now and then the list stops after them.
    fn list(&mut self, events: &[Event], parameters: usize) -> usize {
        let front = events.iter().take(MAX_ROWS);
        let front = front.take_while(|event| matches!(event, Event::Reading { .. }));
        let front = front.count();
        if front == 0 || self.random.one_in(2) {
            return 0;
        }
        let listed = self.random.between(1, front);
        let mut rack = Rack::default();
        for event in &events[..listed] {
            if let Event::Reading {
                parameter,
                time,
                text,
            } = event
            {
                rack.add(&mut self.random, *parameter, *time, text);
            }
        }
        if self.random.one_in(4) {
            while rack.len() < self.random.between(listed + 1, MAX_ROWS + 1).min(MAX_ROWS) {
                rack.add_refused(&mut self.random, parameters as u64, 0);
            }
        }
        let (values_len, outbox_len) = (self.length(MIN_VALUES), self.length(MIN_OUTBOX));
        self.calls.push(rack.call(values_len, outbox_len));
        listed
    }

    /// Lets some clients' bytes arrive early, or an empty piece come.
    fn mingle(&mut self) {
        for _ in 0..self.random.below(4) {
            let client = self.random.below(CLIENTS);
            if self.open[client] {
                let length = self.waiting[client][0].bytes.len();
                let count = self.random.between(0, length);
                self.send_front(client, count);
            }
        }
    }

    fn write(&mut self, event: &Event) {
        match event {
            Event::Open { client, time } => {
                self.end_stretch(*client);
                self.open[*client as usize] = true;
                let values_len = self.length(MIN_VALUES);
                self.calls.push(Call::Open {
                    client: *client,
                    values_len,
                    time: *time,
                });
            }
            Event::Close { client, time } => {
                self.send_rest(*client);
                self.end_stretch(*client);
                self.open[*client as usize] = false;
                let values_len = self.length(MIN_VALUES);
                self.calls.push(Call::Close {
                    client: *client,
                    values_len,
                    time: *time,
                });
            }
            Event::LineFeed { client, time } => self.end_line(*client, *time),
            Event::Reading {
                parameter,
                time,
                text,
            } => {
                let (values_len, outbox_len) = (self.length(MIN_VALUES), self.length(MIN_OUTBOX));
                self.calls.push(Call::Reading {
                    parameter: *parameter,
                    values_len,
                    outbox_len,
                    time: *time,
                    text: text.clone(),
                });
            }
            Event::Unreadable {
                parameter,
                time,
                class,
            } => {
                let (values_len, outbox_len) = (self.length(MIN_VALUES), self.length(MIN_OUTBOX));
                self.calls.push(Call::Unreadable {
                    parameter: *parameter,
                    values_len,
                    outbox_len,
                    time: *time,
                    class: *class,
                });
            }
        }
    }

    /// The rest of a line with its line feed. What the client sends next may
    /// be offered behind it; it is not used and comes again.
    fn end_line(&mut self, client: u64, time: u64) {
        let mut bytes = self.end_stretch(client).bytes;
        bytes.push(LINE_FEED);
        if self.random.one_in(3) {
            let next = &self.waiting[client as usize][0];
            bytes.extend_from_slice(&next.bytes);
            bytes.extend(next.is_line.then_some(LINE_FEED));
        }
        self.piece(client, time, bytes);
    }

    /// What no event follows must have arrived as well.
    fn finish(&mut self) {
        (0..CLIENTS as u64).for_each(|client| self.send_rest(client));
    }

    fn send_rest(&mut self, client: u64) {
        let client = client as usize;
        while !self.waiting[client][0].bytes.is_empty() {
            let length = self.waiting[client][0].bytes.len();
            let count = self.random.between(1, length);
            self.send_front(client, count);
        }
    }

    /// Sends so many bytes without a line feed; their time counts for nothing.
    fn send_front(&mut self, client: usize, count: usize) {
        let bytes = self.waiting[client][0].bytes.drain(..count).collect();
        let time = self.random.whole(0, i128::from(MAX_TIME)) as u64;
        self.piece(client as u64, time, bytes);
    }

    fn piece(&mut self, client: u64, time: u64, bytes: Vec<u8>) {
        let (values_len, outbox_len) = (self.length(MIN_VALUES), self.length(MIN_OUTBOX));
        self.calls.push(Call::Piece {
            client,
            values_len,
            outbox_len,
            time,
            bytes,
        });
    }

    fn end_stretch(&mut self, client: u64) -> Stretch {
        self.waiting[client as usize]
            .pop_front()
            .unwrap_or_default()
    }

    /// A length that is long enough.
    fn length(&mut self, least: usize) -> usize {
        least + *self.random.pick(&[0, 0, 1, 1_000])
    }
}
