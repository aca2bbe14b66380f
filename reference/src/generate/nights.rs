//! Nights for a replay: a table, the start's time and a trace, which is a
//! history's events as a host might have recorded them, whole or damaged.

use super::parts::{command, double, enumeration, module, parameter, readonly, string};
use super::{encode, histories, parts, tables};
use crate::datainfo::Datainfo;
use crate::history::Call;
use crate::random::Random;
use crate::replay::{Event, Kind};

pub struct Night {
    pub table: Vec<u8>,
    pub time: u64,
    pub trace: Vec<u8>,
}

/// Two modules. Parameters: 0 t1:value (readonly), 1 t1:target, 2 mf:field
/// (readonly), 3 mf:mode, 4 mf:label.
fn laboratory() -> Vec<u8> {
    let kelvin = || double((0, 0), (300, 0));
    let tesla = Datainfo::Int { min: -9, max: 9 };
    let mode = enumeration(&[("off", 0), ("on", 1)]);
    encode::table(&parts::table(vec![
        module(
            "t1",
            vec![
                readonly("value", kelvin(), "295.13"),
                parameter("target", kelvin(), "4"),
                command("stop", None),
            ],
        ),
        module(
            "mf",
            vec![
                readonly("field", tesla, "-0"),
                parameter("mode", mode, "0"),
                parameter("label", string(0, 80), "\"\""),
            ],
        ),
    ]))
}

fn event(kind: Kind, number: u8, time: u64, bytes: &[u8]) -> Event {
    let bytes = bytes.to_vec();
    Event {
        kind,
        number,
        time,
        bytes,
    }
}

/// The night that the program `night` is tested with: every kind of record,
/// pieces with several lines, half a line and nothing, and events that are
/// refused by each number that a replay meets. The last record is wrong; what
/// follows it is not looked at.
pub fn directed() -> Night {
    let late = 10_000_000_000_000;
    let events = [
        event(Kind::Open, 0, 2_000, b""),
        event(Kind::Open, 5, 2_000, b""),
        event(Kind::Piece, 5, 2_001, b"activate\n"),
        event(
            Kind::Piece,
            0,
            2_002,
            b"change t1:target 11\nchange mf:mode \"on\"\nchange t1:ta",
        ),
        event(Kind::Piece, 0, 2_003, b""),
        event(
            Kind::Piece,
            0,
            2_004,
            b"rget 12\r\ndo t1:stop\nread mf:mode",
        ),
        event(Kind::Reading, 0, 2_005, b" 4.2 "),
        event(Kind::Unreadable, 0, 2_006, &[3]),
        event(Kind::Unreadable, 2, 2_006, &[2]),
        event(Kind::Reading, 2, 2_007, b"9"),
        event(Kind::Reading, 2, 2_007, b" -0"),
        event(Kind::Reading, 2, 2_007, b"-3"),
        event(Kind::Reading, 0, late, b"5"),
        event(Kind::Open, 8, 2_008, b""),
        event(
            Kind::Piece,
            7,
            2_008,
            b"change t1:target 1\nchange t1:target 2\n",
        ),
        event(Kind::Piece, 7, 2_008, b""),
        event(Kind::Close, 7, 2_008, b""),
        event(Kind::Open, 5, 2_009, b""),
        event(Kind::Reading, 5, 2_010, b"1"),
        event(Kind::Unreadable, 255, 2_010, &[1]),
        event(Kind::Reading, 0, 2_011, b"\"hot\""),
        event(Kind::Unreadable, 1, 2_012, &[0]),
        event(Kind::Unreadable, 1, 2_012, &[5]),
        event(Kind::Close, 0, 2_013, b""),
        event(Kind::Open, 0, 2_013, b""),
        event(Kind::Piece, 0, 2_014, b"\n"),
        event(Kind::Close, 5, 2_015, b"x"),
        event(Kind::Reading, 1, 2_016, b"99"),
    ];
    Night {
        table: laboratory(),
        time: 1_000,
        trace: events.iter().flat_map(Event::to_bytes).collect(),
    }
}

/// Twelve modules `t1` to `t12`, each with a readonly value, a target, a mode, a
/// label and a command: sixty accessibles.
fn hall() -> Vec<u8> {
    let stage = |number: usize| {
        let kelvin = || double((0, 0), (300, 0));
        let mode = enumeration(&[("off", 0), ("on", 1)]);
        module(
            &format!("t{number}"),
            vec![
                readonly("value", kelvin(), "295.13"),
                parameter("target", kelvin(), "4"),
                parameter("mode", mode, "0"),
                parameter("label", string(0, 80), "\"\""),
                command("stop", None),
            ],
        )
    };
    encode::table(&parts::table((1..=12).map(stage).collect()))
}

/// A night of so many events, all accepted: two clients, one of which is sent
/// every update, and drivers that read, and now and then can't. A piece in three
/// has two lines. The table has two modules, or twelve.
pub fn long(events: usize, modules: usize) -> Night {
    let mut random = Random::new(events as u64);
    let opens = [
        event(Kind::Open, 0, 1_000, b""),
        event(Kind::Open, 1, 1_000, b""),
        event(Kind::Piece, 0, 1_000, b"activate\n"),
    ];
    let any = (opens.len() as u64..).map(|at| some_event(&mut random, 1_000 + 20 * at));
    let events = opens.into_iter().chain(any).take(events);
    let table = if modules == 2 { laboratory() } else { hall() };
    Night {
        table,
        time: 1_000,
        trace: events.flat_map(|event| event.to_bytes()).collect(),
    }
}

fn some_event(random: &mut Random, time: u64) -> Event {
    let kelvin = format!("{}.{}", random.below(300), random.below(100));
    let kelvin = kelvin.as_bytes();
    let change = [b"change t1:target ", kelvin, b"\n"].concat();
    match random.below(10) {
        0..=5 => event(Kind::Reading, 0, time, kelvin),
        6 => event(Kind::Unreadable, 0, time, &[random.between(1, 4) as u8]),
        7 => event(Kind::Piece, 1, time, &change),
        8 => event(Kind::Piece, 1, time, b"read t1:value\n"),
        _ => event(Kind::Piece, 1, time, b"ping\nread t1:target\n"),
    }
}

/// A night in which mf:field has so many settings, all readings, and mf:mode as
/// many, all changes.
pub fn settings(count: usize) -> Night {
    let number = |at: usize| (at * 7 % 19) as i64 - 9;
    let lines = |from: usize, to: usize| {
        let line = |at| format!("change mf:mode {}\n", at % 2);
        (from..to).map(line).collect::<String>()
    };
    let mut events = vec![event(Kind::Open, 0, 1_000, b"")];
    for at in 0..count {
        let text = number(at).to_string();
        events.push(event(Kind::Reading, 2, 1_001, text.as_bytes()));
        if at % 200 == 0 {
            let piece = lines(at, count.min(at + 200));
            events.push(event(Kind::Piece, 0, 1_002, piece.as_bytes()));
        }
    }
    Night {
        table: laboratory(),
        time: 1_000,
        trace: events.iter().flat_map(Event::to_bytes).collect(),
    }
}

/// The most bytes that a record has.
const MAX_BYTES: usize = 4_096;

/// The night of a seed. One in four has a trace of several thousand bytes.
pub fn night(seed: u64) -> Night {
    let mut random = Random::new(seed);
    let calls = *random.pick(&[0, 1, 4, 12, 40, 40, 120, 240]);
    let history = histories::history(random.number(), calls);
    let time = start_time(&mut random, &history.calls);
    let events = joined(&mut random, events(&history.calls));
    let events: Vec<Vec<u8>> = events.iter().map(Event::to_bytes).collect();
    let trace = damaged(&mut random, &events);
    let table = match random.one_in(12) {
        true => refused_table(&mut random),
        false => history.table,
    };
    Night { table, time, trace }
}

/// A table that is refused by any of the six numbers.
fn refused_table(random: &mut Random) -> Vec<u8> {
    let number = random.between(1, 6) as u8;
    tables::with_faults(random, &[number]).bytes
}

/// The time of the history's last start, now and then one above the limit.
fn start_time(random: &mut Random, calls: &[Call]) -> u64 {
    let starts = calls.iter().rev().find_map(|call| match call {
        Call::Start { time, .. } => Some(*time),
        _ => None,
    });
    match (random.one_in(20), starts) {
        (false, Some(time)) => time,
        _ => *random.pick(&[9_999_999_999_999, 10_000_000_000_000, u64::MAX]),
    }
}

/// The records of a history's calls after a start. Numbers have a byte there.
fn events(calls: &[Call]) -> Vec<Event> {
    let event = |kind, number: u64, time: u64, bytes: &[u8]| {
        let bytes = &bytes[..bytes.len().min(MAX_BYTES)];
        Some(event(kind, number.min(255) as u8, time, bytes))
    };
    let record = |call: &Call| match call {
        Call::Start { .. } | Call::Lend { .. } => None,
        Call::Readings { .. } => unreachable!("random histories have no lists"),
        Call::Open { client, time, .. } => event(Kind::Open, *client, *time, &[]),
        Call::Close { client, time, .. } => event(Kind::Close, *client, *time, &[]),
        Call::Piece {
            client,
            time,
            bytes,
            ..
        } => event(Kind::Piece, *client, *time, bytes),
        Call::Reading {
            parameter,
            time,
            text,
            ..
        } => event(Kind::Reading, *parameter, *time, text),
        Call::Unreadable {
            parameter,
            time,
            class,
            ..
        } => event(Kind::Unreadable, *parameter, *time, &[*class as u8]),
    };
    calls.iter().filter_map(record).collect()
}

/// Some pieces of one client in a row come as one, with several line feeds.
fn joined(random: &mut Random, events: Vec<Event>) -> Vec<Event> {
    let mut all: Vec<Event> = Vec::new();
    for event in events {
        match all.last_mut() {
            Some(last)
                if (last.kind, event.kind) == (Kind::Piece, Kind::Piece)
                    && last.number == event.number
                    && last.bytes.len() + event.bytes.len() <= MAX_BYTES
                    && !random.one_in(3) =>
            {
                last.bytes.extend(event.bytes);
            }
            _ => all.push(event),
        }
    }
    all
}

/// The trace of these records; two in three end early or have a wrong one.
fn damaged(random: &mut Random, events: &[Vec<u8>]) -> Vec<u8> {
    let whole = events.concat();
    let front = random.between(0, events.len());
    let (before, after) = (events[..front].concat(), events[front..].concat());
    let spoilt = match random.below(12) {
        0..=3 => return whole,
        4 => return whole[..random.between(0, whole.len())].to_vec(),
        5 => return [&whole, odd_head(random).as_slice()].concat(),
        6 => odd_head(random),
        7 => odd_mark(random),
        8 => odd_length(random),
        9 => longest(random, MAX_BYTES),
        10 => longest(random, MAX_BYTES + 1),
        _ => vec![random.byte()],
    };
    [before, spoilt, after].concat()
}

/// A record's front, cut anywhere in the head.
fn odd_head(random: &mut Random) -> Vec<u8> {
    let kind = *random.pick(&Kind::ALL);
    let number = random.byte();
    let time = random.number();
    let head = Event {
        kind,
        number,
        time,
        bytes: Vec::new(),
    }
    .to_bytes();
    head[..random.between(1, head.len())].to_vec()
}

fn odd_mark(random: &mut Random) -> Vec<u8> {
    let marks = [b"EX", b"eo", b"OE", b"DR", b"E\n", b"\0E", b"EE"];
    let head = odd_head(random);
    let mut bytes = random.pick(&marks).to_vec();
    bytes.extend(head.iter().skip(2));
    bytes
}

/// A whole head with a length that its kind doesn't have, or just has, and
/// perhaps some bytes.
fn odd_length(random: &mut Random) -> Vec<u8> {
    let kind = *random.pick(&Kind::ALL);
    let lengths = [0, 1, 2, 255, 256, 4_095, 4_096, 4_097, 65_535];
    let length: u16 = *random.pick(&lengths);
    let (number, time) = (random.below(8) as u8, 5);
    let mut bytes = Event {
        kind,
        number,
        time,
        bytes: Vec::new(),
    }
    .to_bytes();
    bytes.truncate(11);
    bytes.extend(length.to_be_bytes());
    bytes.extend(vec![b'x'; random.below(4)]);
    bytes
}

/// A piece of so many bytes, of many short lines.
fn longest(random: &mut Random, length: usize) -> Vec<u8> {
    let kind = *random.pick(&[Kind::Piece, Kind::Piece, Kind::Reading]);
    let number = random.below(3) as u8;
    let bytes = b"ping a\nread t1:target\n\n".iter().copied().cycle();
    let bytes = bytes.take(length).collect();
    Event {
        kind,
        number,
        time: 7,
        bytes,
    }
    .to_bytes()
}
