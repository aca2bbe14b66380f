//! Operations for a program that makes the calls over a state which it keeps:
//! their bytes for its standard input, and the lines that it is to print.

use crate::history::{Answer, Call};
use crate::kept::{Kept, KeptClient, Setting};
use crate::line::MAX_LINE;
use crate::node::Counts;

/// The lengths of the program's own areas; calls are lent the front of them.
pub const VALUES_AREA: usize = 20_000;
pub const OUTBOX_AREA: usize = 40_000;

#[derive(Clone, Debug, PartialEq)]
pub enum Operation {
    /// The table from here on. The state stays.
    Table(Vec<u8>),
    Call(Call),
    Poke(Poke),
    /// Print the state, with so many parameters.
    Show(usize),
    /// Print a line.
    Note(String),
}

/// A change of what is kept, past all rules.
#[derive(Clone, Debug, PartialEq)]
pub enum Poke {
    Open(usize, u8),
    Overlong(usize, u8),
    Active(usize, u16),
    LineLength(usize, u16),
    /// Bytes from a place of the eight clients' lines on.
    Lines(usize, Vec<u8>),
    StoredLength(usize, u16),
    StoredTime(usize, u64),
    /// The class of a parameter's error.
    StoredError(usize, u8),
    /// Bytes from a place of the values area on.
    Values(usize, Vec<u8>),
    /// All three counts of a client.
    Counts(usize, u32),
}

/// What stands before an operation's bytes.
#[derive(Clone, Copy, Default)]
struct Head {
    code: u8,
    number: u64,
    time: u64,
    values_len: usize,
    outbox_len: usize,
}

impl Head {
    fn new(code: u8) -> Head {
        Head {
            code,
            ..Head::default()
        }
    }

    /// An operation about a number, with a value in the place of the time.
    fn about(code: u8, number: usize, value: impl Into<u64>) -> Head {
        Head {
            number: number as u64,
            time: value.into(),
            ..Head::new(code)
        }
    }

    fn to_bytes(self, following: &[u8]) -> Vec<u8> {
        let short = |length: usize| (length as u16).to_be_bytes();
        let mut bytes = vec![self.code];
        bytes.extend(self.number.to_be_bytes());
        bytes.extend(self.time.to_be_bytes());
        bytes.extend(short(self.values_len));
        bytes.extend(short(self.outbox_len));
        bytes.extend(short(following.len()));
        bytes.extend(following);
        bytes
    }
}

/// The operations' bytes.
pub fn input(operations: &[Operation]) -> Vec<u8> {
    operations.iter().flat_map(Operation::to_bytes).collect()
}

impl Operation {
    fn to_bytes(&self) -> Vec<u8> {
        match self {
            Operation::Table(bytes) => Head::new(b'T').to_bytes(bytes),
            Operation::Call(call) => call_bytes(call),
            Operation::Poke(poke) => poke.to_bytes(),
            Operation::Show(parameters) => Head::about(b'E', *parameters, 0u8).to_bytes(&[]),
            Operation::Note(note) => Head::new(b'N').to_bytes(note.as_bytes()),
        }
    }
}

fn call_bytes(call: &Call) -> Vec<u8> {
    let head = |code, number, values_len, outbox_len, time| Head {
        code,
        number,
        time,
        values_len,
        outbox_len,
    };
    match call {
        Call::Start { values_len, time } => head(b'S', 0, *values_len, 0, *time).to_bytes(&[]),
        Call::Open {
            client,
            values_len,
            time,
        } => head(b'O', *client, *values_len, 0, *time).to_bytes(&[]),
        Call::Close {
            client,
            values_len,
            time,
        } => head(b'C', *client, *values_len, 0, *time).to_bytes(&[]),
        Call::Piece {
            client,
            values_len,
            outbox_len,
            time,
            bytes,
        } => head(b'P', *client, *values_len, *outbox_len, *time).to_bytes(bytes),
        Call::Reading {
            parameter,
            values_len,
            outbox_len,
            time,
            text,
        } => head(b'R', *parameter, *values_len, *outbox_len, *time).to_bytes(text),
        Call::Unreadable {
            parameter,
            values_len,
            outbox_len,
            time,
            class,
        } => head(b'U', *parameter, *values_len, *outbox_len, *time).to_bytes(&class.to_be_bytes()),
        Call::Lend { index } => Head::new(b'I').to_bytes(index),
        Call::Readings { .. } => unreachable!("no program of these operations makes lists"),
    }
}

impl Poke {
    fn to_bytes(&self) -> Vec<u8> {
        let alone = |head: Head| head.to_bytes(&[]);
        match self {
            Poke::Open(client, flag) => alone(Head::about(b'o', *client, *flag)),
            Poke::Overlong(client, flag) => alone(Head::about(b'v', *client, *flag)),
            Poke::Active(client, mask) => alone(Head::about(b'a', *client, *mask)),
            Poke::LineLength(client, length) => alone(Head::about(b'n', *client, *length)),
            Poke::Lines(place, bytes) => Head::about(b'l', *place, 0u8).to_bytes(bytes),
            Poke::StoredLength(number, length) => alone(Head::about(b'z', *number, *length)),
            Poke::StoredTime(number, time) => alone(Head::about(b't', *number, *time)),
            Poke::StoredError(number, class) => alone(Head::about(b'e', *number, *class)),
            Poke::Values(place, bytes) => Head::about(b'w', *place, 0u8).to_bytes(bytes),
            Poke::Counts(client, count) => alone(Head::about(b'k', *client, *count)),
        }
    }

    /// The change that takes this one back.
    pub fn undoing(&self, kept: &Kept) -> Poke {
        match self {
            Poke::Open(client, _) => Poke::Open(*client, kept.clients[*client].open),
            Poke::Overlong(client, _) => Poke::Overlong(*client, kept.clients[*client].overlong),
            Poke::Active(client, _) => Poke::Active(*client, kept.clients[*client].active),
            Poke::LineLength(client, _) => Poke::LineLength(*client, kept.clients[*client].length),
            Poke::Lines(place, bytes) => {
                let byte = |place: usize| kept.clients[place / MAX_LINE].line[place % MAX_LINE];
                Poke::Lines(*place, (*place..).map(byte).take(bytes.len()).collect())
            }
            Poke::StoredLength(number, _) => {
                Poke::StoredLength(*number, kept.settings[*number].length)
            }
            Poke::StoredTime(number, _) => Poke::StoredTime(*number, kept.settings[*number].time),
            Poke::StoredError(number, _) => {
                Poke::StoredError(*number, kept.settings[*number].error)
            }
            Poke::Values(place, bytes) => {
                Poke::Values(*place, kept.values[*place..][..bytes.len()].to_vec())
            }
            Poke::Counts(client, _) => Poke::Counts(*client, kept.counts[*client].lines),
        }
    }

    pub fn apply(&self, kept: &mut Kept) {
        match self {
            Poke::Open(client, flag) => kept.clients[*client].open = *flag,
            Poke::Overlong(client, flag) => kept.clients[*client].overlong = *flag,
            Poke::Active(client, mask) => kept.clients[*client].active = *mask,
            Poke::LineLength(client, length) => kept.clients[*client].length = *length,
            Poke::Lines(place, bytes) => {
                for (place, byte) in (*place..).zip(bytes) {
                    kept.clients[place / MAX_LINE].line[place % MAX_LINE] = *byte;
                }
            }
            Poke::StoredLength(number, length) => kept.settings[*number].length = *length,
            Poke::StoredTime(number, time) => kept.settings[*number].time = *time,
            Poke::StoredError(number, class) => kept.settings[*number].error = *class,
            Poke::Values(place, bytes) => {
                kept.values[*place..][..bytes.len()].copy_from_slice(bytes);
            }
            Poke::Counts(client, count) => kept.counts[*client] = Counts::all(*count),
        }
    }
}

/// The lines that the program is to print.
pub fn output(operations: &[Operation]) -> String {
    let mut table = Vec::new();
    let mut index: Vec<u8> = Vec::new();
    let mut kept = Kept::new(VALUES_AREA);
    let mut lines = String::new();
    for operation in operations {
        match operation {
            Operation::Table(bytes) => table = bytes.clone(),
            Operation::Call(Call::Lend { index: next }) => index = next.clone(),
            Operation::Call(call) => {
                let answer = kept.call(&table, &index, call);
                lines += &answer_line(call, &answer, &kept.values);
            }
            Operation::Poke(poke) => poke.apply(&mut kept),
            Operation::Show(parameters) => lines += &state_lines(&kept, *parameters),
            Operation::Note(note) => lines += &format!("# {}\n", readable(note.as_bytes())),
        }
    }
    lines
}

/// A call's line: its name, number, bytes used and written, digests of the
/// outbox and of the values area, then what was written; a refused call has
/// kept the state.
fn answer_line(call: &Call, answer: &Answer, values: &[u8]) -> String {
    let name = match call {
        Call::Start { .. } => "start",
        Call::Open { .. } => "open",
        Call::Close { .. } => "close",
        Call::Piece { .. } => "piece",
        Call::Reading { .. } => "reading",
        Call::Unreadable { .. } => "unreadable",
        Call::Lend { .. } => return String::new(),
        Call::Readings { .. } => unreachable!("no program of these operations makes lists"),
    };
    let Answer {
        number,
        used,
        outbox,
        steps,
        ..
    } = answer;
    let written = outbox.len();
    let untouched = (written..OUTBOX_AREA).map(|place| (place % 251) as u8);
    let outbox_digest = digest(outbox.iter().copied().chain(untouched));
    let values_digest = digest(values.iter().copied());
    let end = match (answer.is_accepted(), outbox.is_empty()) {
        (true, true) => String::new(),
        (true, false) => format!(" {}", readable(outbox)),
        (false, _) => " kept".to_string(),
    };
    format!("{name} {number} {used} {written} {steps} {outbox_digest} {values_digest}{end}\n")
}

/// The bytes as digits of a number in base 257, the remainder by 2 to the 40th.
fn digest(bytes: impl Iterator<Item = u8>) -> u64 {
    bytes.fold(0, |sum, byte| (sum * 257 + u64::from(byte)) % (1 << 40))
}

/// Bytes outside 32 to 126, and the backslash, in hexadecimal.
fn readable(bytes: &[u8]) -> String {
    let one = |byte: &u8| match byte {
        b'\\' | 0..=31 | 127..=255 => format!("\\{byte:02x}"),
        _ => char::from(*byte).to_string(),
    };
    bytes.iter().map(one).collect()
}

fn state_lines(kept: &Kept, parameters: usize) -> String {
    let clients = kept.clients.iter().enumerate();
    let settings = kept.settings[..parameters].iter().enumerate();
    let counts = kept.counts.iter().enumerate();
    let clients = clients.map(|(number, client)| client_line(number, client));
    let settings = settings.map(|(number, setting)| setting_line(number, setting));
    let counts = counts.map(|(number, counts)| counts_line(number, counts));
    clients.chain(settings).chain(counts).collect()
}

/// A client's number, its lines, its errors and its updates.
fn counts_line(number: usize, counts: &Counts) -> String {
    let Counts {
        lines,
        errors,
        updates,
    } = counts;
    format!("counts {number} {lines} {errors} {updates}\n")
}

/// A parameter's number, the length of its stored value, its error's class and
/// its time.
fn setting_line(number: usize, setting: &Setting) -> String {
    let Setting {
        length,
        error,
        time,
    } = setting;
    format!("parameter {number} {length} {error} {time}\n")
}

/// A client's number, whether it is open and in an overlong line, its active
/// modules, the length of its line, and the line if it has one.
fn client_line(number: usize, client: &KeptClient) -> String {
    let (open, overlong) = (u8::from(client.open != 0), u8::from(client.overlong != 0));
    let KeptClient { active, length, .. } = client;
    let line = match client.line.get(..usize::from(*length)) {
        Some(line) if !line.is_empty() => format!(" {}", readable(line)),
        _ => String::new(),
    };
    format!("client {number} {open} {overlong} {active} {length}{line}\n")
}
