//! Clients that change and check parts of one struct by turns (M-113), with
//! readings and errors among them: what a change leaves out is what the one
//! before it left.

use super::encode;
use super::parts::{digit, enumeration, module, parameter, string, table};
use super::values;
use crate::datainfo::Datainfo;
use crate::history::{Call, History};
use crate::node::MIN_VALUES;
use crate::outbox::MIN_OUTBOX;
use crate::random::Random;

/// Those that change it, and one more that has it active.
const CLIENTS: u64 = 4;
const TURNS: u64 = 40;

pub fn history(seed: u64) -> History {
    let mut random = Random::new(seed);
    let datainfo = heater(&mut random);
    let initial = values::fitting(&mut random, &datainfo);
    let initial = String::from_utf8(initial).expect("values are ASCII");
    let heater = parameter("heater", datainfo.clone(), &initial);
    let mut calls = vec![Call::Start {
        values_len: MIN_VALUES,
        time: 0,
    }];
    calls.extend((0..=CLIENTS).map(|client| Call::Open {
        client,
        values_len: MIN_VALUES,
        time: client,
    }));
    calls.push(piece(CLIENTS, 9, b"activate\n"));
    for time in 10..10 + TURNS {
        calls.push(turn(&mut random, &datainfo, time));
    }
    let mut table = table(vec![module("t1", vec![heater])]);
    table.edition = Some(b"ISSE,SECoP,V2,t".to_vec());
    History {
        table: encode::table(&table),
        calls,
    }
}

/// Four members, most of them optional.
fn heater(random: &mut Random) -> Datainfo {
    let switch = enumeration(&[("off", 0), ("on", 1)]);
    let types = [digit(), string(0, 120), digit(), switch];
    let names = ["power", "name", "limit", "mode"];
    let names = names.map(|name| name.as_bytes().to_vec());
    Datainfo::Partial {
        optional: names.iter().map(|_| !random.one_in(6)).collect(),
        members: names.into_iter().zip(types).collect(),
    }
}

fn piece(client: u64, time: u64, bytes: &[u8]) -> Call {
    Call::Piece {
        client,
        values_len: MIN_VALUES,
        outbox_len: MIN_OUTBOX,
        time,
        bytes: bytes.to_vec(),
    }
}

fn turn(random: &mut Random, datainfo: &Datainfo, time: u64) -> Call {
    if random.one_in(12) {
        return Call::Unreadable {
            parameter: 0,
            values_len: MIN_VALUES,
            outbox_len: MIN_OUTBOX,
            time,
            class: 1,
        };
    }
    if random.one_in(8) {
        return Call::Reading {
            parameter: 0,
            values_len: MIN_VALUES,
            outbox_len: MIN_OUTBOX,
            time,
            text: values::sent(random, datainfo),
        };
    }
    let asked = match random.below(8) {
        0 => "read t1:heater ",
        1 => "check t1:heater ",
        _ => "change t1:heater ",
    };
    let part = values::partly(random, datainfo);
    let line = [asked.as_bytes(), &part, b"\n"].concat();
    let client = random.below(CLIENTS as usize) as u64;
    piece(client, time, &line)
}
