//! A state that somebody else keeps between the calls: its parts as they lie
//! in memory, whether they are fit for a table (number 9), and the calls over
//! it. What a call does is the plain node's affair; what the node has no place
//! for (a flag's number, the bytes past a line, the places past the last
//! parameter) is kept here, and is brought along by each call (C-19).

use crate::error::SensorError;
use crate::history::{self, Answer, Call};
use crate::line::{Unfinished, LINE_FEED, MAX_LINE};
use crate::list::Row;
use crate::node::{Client, Counts, Held, Node, State, CLIENTS, MAX_TIME};
use crate::refusal::Refusal;
use crate::table::{Parameter, Table, MAX_ACCESSIBLES};
use crate::value::{self, MAX_STORED};

/// The number of a call over an unfit state.
pub const UNFIT: u8 = 9;

#[derive(Clone, Debug, PartialEq)]
pub struct Kept {
    pub clients: [KeptClient; CLIENTS],
    pub settings: [Setting; MAX_ACCESSIBLES],
    /// Any numbers are fit.
    pub counts: [Counts; CLIENTS],
    /// The values area, lent anew with each call.
    pub values: Vec<u8>,
}

/// A client. A flag is set if it isn't 0.
#[derive(Clone, Debug, PartialEq)]
pub struct KeptClient {
    pub open: u8,
    pub overlong: u8,
    pub active: u16,
    pub length: u16,
    /// The first `length` bytes are the unfinished line.
    pub line: [u8; MAX_LINE],
}

/// A parameter's stored value. A length of 0 means that it was never set, an
/// error's class of 0 that there is none.
#[derive(Clone, Copy, Debug, Default, PartialEq)]
pub struct Setting {
    pub length: u16,
    pub error: u8,
    pub time: u64,
}

impl KeptClient {
    const CLOSED: KeptClient = KeptClient {
        open: 0,
        overlong: 0,
        active: 0,
        length: 0,
        line: [0; MAX_LINE],
    };

    /// The client that this stands for, if it is fit for so many modules.
    fn view(&self, modules: usize) -> Option<Client> {
        let kept = self.line.get(..usize::from(self.length))?;
        let overlong = self.overlong != 0;
        let past_last = u32::from(self.active) >> modules;
        if kept.contains(&LINE_FEED) || overlong && !kept.is_empty() || past_last != 0 {
            return None;
        }
        let client = Client {
            open: self.open != 0,
            active: self.active,
            line: if overlong {
                Unfinished::Overlong
            } else {
                Unfinished::Bytes(kept.to_vec())
            },
        };
        (client.open || client == Client::default()).then_some(client)
    }

    /// An open or a close: the line is forgotten.
    fn set_open(&mut self, flag: u8) {
        self.open = flag;
        self.forget_line();
    }

    /// The bytes that a piece uses: a line feed ends the line, any others join
    /// it. Inside an overlong line they are dropped.
    fn take(&mut self, used: &[u8]) {
        if used.ends_with(&[LINE_FEED]) {
            self.forget_line();
        } else if self.overlong == 0 {
            self.join(used);
        }
    }

    /// Bytes stand behind those that the line has; where there are too many none
    /// of them is written.
    fn join(&mut self, bytes: &[u8]) {
        let place = self.line.get_mut(usize::from(self.length)..);
        match place.and_then(|place| place.get_mut(..bytes.len())) {
            Some(place) => {
                place.copy_from_slice(bytes);
                self.length += bytes.len() as u16;
            }
            None => {
                self.forget_line();
                self.overlong = 1;
            }
        }
    }

    /// The bytes stay in their place, and are no line any more.
    fn forget_line(&mut self) {
        self.overlong = 0;
        self.length = 0;
    }
}

impl Setting {
    fn of(held: &Held) -> Setting {
        Setting {
            length: if held.set { held.value.len() as u16 } else { 0 },
            error: held.error.map_or(0, SensorError::class),
            time: held.time,
        }
    }
}

impl Kept {
    /// The state that a refused start returns, over a values area of so many
    /// bytes.
    pub fn new(values_len: usize) -> Kept {
        Kept {
            clients: [KeptClient::CLOSED; CLIENTS],
            settings: [Setting::default(); MAX_ACCESSIBLES],
            counts: [Counts::default(); CLIENTS],
            values: vec![0; values_len],
        }
    }

    /// Makes a call over a table.
    pub fn call(&mut self, table: &[u8], index: &[u8], call: &Call) -> Answer {
        if let Call::Start { values_len, time } = call {
            let (node, result) = Node::start(table, *values_len, *time);
            let answer = Answer::plain(result);
            self.follow(call, &answer, &node);
            return answer;
        }
        let judged = Table::judge(table);
        let before = judged.as_ref().ok().and_then(|table| self.view(table));
        let is_fit = before.is_some();
        let mut node = Node::over(judged, before);
        node.lend(index);
        let answer = history::answer(&mut node, call);
        let lent = [Refusal::Index, Refusal::List].map(Refusal::number);
        let judged_first = (1..=Refusal::Values.number())
            .chain(lent)
            .any(|it| it == answer.number);
        if !is_fit && !judged_first {
            return Answer {
                number: UNFIT,
                ..Answer::default()
            };
        }
        self.follow(call, &answer, &node);
        answer
    }

    /// Brings what is kept along with a call, by the node's answer and what it
    /// holds then. A refused call changes nothing; a start begins anew.
    pub fn follow(&mut self, call: &Call, answer: &Answer, node: &Node) {
        match call {
            Call::Start { time, .. } => {
                return self.start_anew(if answer.is_accepted() { *time } else { 0 });
            }
            _ if !answer.has_effect() => return,
            Call::Open { client, .. } => self.clients[*client as usize].set_open(1),
            Call::Close { client, .. } => self.clients[*client as usize].set_open(0),
            Call::Piece { client, bytes, .. } => {
                self.clients[*client as usize].take(&bytes[..answer.used]);
            }
            Call::Readings { rows, texts, .. } => {
                self.store_rows(&node.parameters(), &rows[..answer.taken], texts);
            }
            Call::Reading { .. } | Call::Unreadable { .. } | Call::Lend { .. } => {}
        }
        self.take_over(node.state());
    }

    /// The readings that a list took, one after another: a shorter value leaves
    /// the end of a longer one in the values area.
    fn store_rows(&mut self, parameters: &[Parameter], rows: &[Row], texts: &[u8]) {
        for row in rows {
            let parameter = parameters[row.parameter as usize];
            let text = row.text(texts).expect("it was taken");
            let stored = value::judge(parameter.datainfo, text).expect("it was taken");
            self.store(parameter.number, &stored);
        }
    }

    /// A value stands at the front of its parameter's place.
    fn store(&mut self, number: usize, value: &[u8]) {
        self.values[MAX_STORED * number..][..value.len()].copy_from_slice(value);
    }

    /// Whether the state is fit for a table; for a faulty one there is none.
    pub fn is_fit(&self, table: &[u8]) -> bool {
        Table::judge(table).is_ok_and(|table| self.view(&table).is_some())
    }

    /// The start's time stands in all places, also those past the last
    /// parameter; the values area stays.
    fn start_anew(&mut self, time: u64) {
        let values = std::mem::take(&mut self.values);
        *self = Kept::new(0);
        self.values = values;
        for setting in &mut self.settings {
            setting.time = time;
        }
    }

    /// What the state stands for, if it is fit for the table. Settings past
    /// the last parameter are not looked at.
    fn view(&self, table: &Table) -> Option<State> {
        let clients = self.clients.iter();
        let clients: Option<Vec<Client>> = clients
            .map(|client| client.view(table.modules.len()))
            .collect();
        let parameters = table.parameters();
        let held: Option<Vec<Held>> = parameters.iter().map(|one| self.held(one)).collect();
        Some(State {
            clients: clients?.try_into().ok()?,
            parameters: held?,
            counts: self.counts,
        })
    }

    fn held(&self, parameter: &Parameter) -> Option<Held> {
        let Setting {
            length,
            error: class,
            time,
        } = self.settings[parameter.number];
        let length = usize::from(length);
        let error = SensorError::of(class.into());
        if length > MAX_STORED || time > MAX_TIME || error.is_none() && class != 0 {
            return None;
        }
        if length == 0 {
            return Some(Held {
                value: parameter.initial.to_vec(),
                time,
                set: false,
                error,
            });
        }
        let value = &self.values[MAX_STORED * parameter.number..][..length];
        value::is_stored_form(parameter.datainfo, value).then(|| Held {
            value: value.to_vec(),
            time,
            set: true,
            error,
        })
    }

    /// Takes over all that the node holds but the clients' flags and lines.
    fn take_over(&mut self, state: &State) {
        self.counts = state.counts;
        for (kept, client) in self.clients.iter_mut().zip(&state.clients) {
            kept.active = client.active;
        }
        for (number, held) in state.parameters.iter().enumerate() {
            self.settings[number] = Setting::of(held);
            if held.set {
                self.store(number, &held.value);
            }
        }
    }
}
