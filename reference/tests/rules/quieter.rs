//! Histories without lines of other clients that are not accepted changes
//! (M-112): what is left out, and that it is nothing to the one client.

use crate::build::{lab, OUTBOX, VALUES};
use crate::generated::{course, some_histories};
use reference::generate::quieter::{orders, quieter, Quieter};
use reference::history::{Call, History};
use reference::node::{State, CLIENTS};
use reference::outbox::{self, Mark, Record};

fn open(client: u64) -> Call {
    Call::Open {
        client,
        values_len: VALUES,
        time: 1,
    }
}

fn piece(client: u64, text: &str) -> Call {
    Call::Piece {
        client,
        values_len: VALUES,
        outbox_len: OUTBOX,
        time: 2,
        bytes: text.as_bytes().to_vec(),
    }
}

/// Three clients; the lines of client 1 are an activation, an accepted change, a
/// refused one and a command, client 2 sends a line and half of another.
fn evening() -> History {
    let start = Call::Start {
        values_len: VALUES,
        time: 0,
    };
    let calls = vec![
        start,
        open(0),
        open(1),
        open(2),
        piece(0, "activate\n"),
        piece(1, "activate t1\n"),
        piece(1, "change t1:target 12\n"),
        piece(2, "*IDN?\n"),
        piece(1, "change t1:target \"x\"\n"),
        piece(2, "rea"),
        piece(1, "do t1:stop\n"),
        piece(0, "read t1:target\n"),
    ];
    History {
        table: lab(),
        calls,
    }
}

// H-12
#[test]
fn ones_own_lines_and_accepted_changes_stay() {
    let first = evening();
    let chosen: Vec<Quieter> = (0..200).filter_map(|seed| quieter(&first, seed)).collect();
    let chosen: Vec<&Quieter> = chosen.iter().filter(|one| one.client == 0).collect();
    let times_out = |client: usize, line: usize| -> usize {
        let out = chosen.iter().filter(|one| one.left_out[client][line]);
        out.count()
    };
    for line in 0..2 {
        assert_eq!(times_out(0, line), 0);
    }
    assert_eq!(times_out(1, 1), 0);
    for (client, line) in [(1, 0), (1, 2), (1, 3), (2, 0)] {
        let times = times_out(client, line);
        assert!(0 < times && times < chosen.len(), "{client} {line} {times}");
    }
}

// H-12
#[test]
fn whole_lines_go_and_all_else_stays() {
    for (seed, first) in some_histories().enumerate() {
        let Some(quieter) = quieter(&first, seed as u64) else {
            continue;
        };
        let (mut streams, mut events) = course(&first);
        for (client, left_out) in quieter.left_out.iter().enumerate() {
            without_lines(&mut streams[client], left_out);
            without_feeds(&mut events, client, left_out);
        }
        assert_eq!(course(&quieter.history), (streams, events), "{seed}");
    }
}

/// A client's bytes without these lines. What no line feed ends stays.
fn without_lines(streams: &mut [Vec<u8>], left_out: &[bool]) {
    let mut left_out = left_out.iter();
    for stream in streams {
        let parts = stream.split_inclusive(|byte| *byte == b'\n');
        let kept = parts.filter(|part| !(part.ends_with(b"\n") && *left_out.next().unwrap()));
        *stream = kept.collect::<Vec<_>>().concat();
    }
    assert_eq!(left_out.next(), None);
}

fn without_feeds(events: &mut Vec<String>, client: usize, left_out: &[bool]) {
    let mut left_out = left_out.iter();
    let feed = format!("line feed {client} ");
    events.retain(|event| !(event.starts_with(&feed) && *left_out.next().unwrap()));
}

/// What a history sends, and what the node holds at its end.
fn ends(history: &History) -> (Vec<Record>, State) {
    let outcome = history.run().unwrap();
    let sent: Vec<u8> = (outcome.answers.iter())
        .flat_map(|answer| answer.outbox.clone())
        .collect();
    (outbox::read(&sent).unwrap(), outcome.end)
}

// H-12
#[test]
fn left_out_lines_are_nothing_to_the_client() {
    let (mut lines, mut commands, mut errors) = (0, 0, 0);
    for (seed, first) in some_histories().enumerate() {
        let Some(quieter) = quieter(&first, seed as u64) else {
            continue;
        };
        let Quieter {
            client,
            left_out,
            history,
        } = quieter;
        let (whole, end) = ends(&first);
        let (less, less_end) = ends(&history);
        let to_client = |record: &&Record| record.is_to(client);
        let heard: Vec<&Record> = whole.iter().filter(to_client).collect();
        let less_heard: Vec<&Record> = less.iter().filter(to_client).collect();
        assert_eq!(less_heard, heard, "{seed}");
        assert_eq!(less_end.parameters, end.parameters, "{seed}");
        assert_eq!(less_end.counts[client], end.counts[client], "{seed}");
        let due = orders(&whole, &left_out);
        assert_eq!(orders(&less, &nothing(&less)), due, "{seed}");
        lines += left_out.iter().flatten().filter(|out| **out).count();
        commands += orders(&whole, &nothing(&whole)).len() - due.len();
        let held = end.parameters.iter();
        errors += held.filter(|held| held.error.is_some()).count();
    }
    let told = format!("{lines} {commands} {errors}");
    assert!(lines > 1_000 && commands > 20 && errors > 20, "{told}");
}

/// No line of these records' history is left out.
fn nothing(records: &[Record]) -> [Vec<bool>; CLIENTS] {
    let mut left_out: [Vec<bool>; CLIENTS] = Default::default();
    for record in records.iter().filter(|record| record.mark == Mark::Reply) {
        left_out[usize::from(record.client)].push(false);
    }
    left_out
}
