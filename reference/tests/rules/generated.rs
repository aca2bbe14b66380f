//! What the generators make, and how the node stands up to it.

use crate::build::line_of;
use crate::watch::{watch, Seen};
use reference::datainfo::Datainfo;
use reference::error::ErrorClass;
use reference::generate::{
    borders, datainfos, directed, encode, histories, second, small, tables, values,
};
use reference::history::{Call, History};
use reference::json;
use reference::node::{Counts, BUSY, CLIENTS};
use reference::outbox::{self, Mark, Record};
use reference::random::Random;
use reference::table::{Parameter, Table};
use reference::value::{judge, ValueFault};
use std::collections::BTreeSet;

fn number(table: &[u8]) -> u8 {
    Table::judge(table).map_or_else(|refusal| refusal.number(), |_| 0)
}

#[test]
fn good_tables_are_good_and_are_read_back() {
    for seed in 0..300 {
        let table = tables::good(&mut Random::new(seed));
        assert_eq!(Table::judge(&encode::table(&table)), Ok(table), "{seed}");
    }
}

#[test]
fn good_tables_have_everything() {
    let all: Vec<Table> = (0..300)
        .map(|seed| tables::good(&mut Random::new(seed)))
        .collect();
    let any = |holds: &dyn Fn(&Table) -> bool| all.iter().any(holds);
    assert!(any(&|table| table.modules.len() == 16));
    assert!(any(&|table| table
        .modules
        .iter()
        .any(|module| module.note.is_some())));
    assert!(any(&|table| table
        .modules
        .iter()
        .any(|module| module.accessibles.is_empty())));
    assert!(any(&|table| table
        .modules
        .iter()
        .any(|module| module.name.len() == 63)));
    assert!(any(&|table| table
        .parameters()
        .iter()
        .any(|one| one.initial.len() == 256)));
    assert!(any(&|table| table.parameters().len()
        + table.commands().len()
        == 64));
    assert!(any(&|table| table
        .commands()
        .iter()
        .any(|one| one.argument.is_some())));
    assert!(any(&|table| table
        .commands()
        .iter()
        .any(|one| one.argument.is_none())));
    for first_byte in 1..=10 {
        assert!(any(&|table| table
            .parameters()
            .iter()
            .any(|one| encode::datainfo(one.datainfo)[0] == first_byte)));
    }
}

#[test]
fn faulty_tables_have_the_number_they_are_made_for() {
    for seed in 0..80 {
        for lowest in 1..=6 {
            let made = tables::with_faults(&mut Random::new(seed), &[lowest]);
            assert_eq!(
                (made.number, number(&made.bytes)),
                (Some(lowest), lowest),
                "{seed}"
            );
        }
        let made = tables::faulty(&mut Random::new(seed));
        assert_eq!(made.number, Some(number(&made.bytes)), "{seed}");
        let made = tables::with_faults(&mut Random::new(seed), &[6, 3, 5, 4]);
        assert_eq!((made.number, number(&made.bytes)), (Some(3), 3), "{seed}");
    }
}

#[test]
fn tables_of_some_kilobytes_are_good_and_full() {
    for count in 1..=16 {
        let table = borders::of_kilobytes(count);
        let bytes = encode::table(&table);
        assert_eq!((bytes.len(), number(&bytes)), (1_024 * count, 0));
        assert_eq!(table.parameters().len(), 4 * count);
    }
}

#[test]
fn borders_have_the_number_due() {
    for border in borders::all() {
        assert_eq!(number(&border.bytes), border.number, "{}", border.name);
    }
    let lengths: Vec<usize> = borders::all().iter().map(|one| one.bytes.len()).collect();
    assert!(lengths.contains(&16_384) && lengths.contains(&16_385));
}

#[test]
fn any_tables_have_the_number_that_is_known() {
    let mut random = Random::new(7);
    for _ in 0..400 {
        let made = tables::any(&mut random);
        let number = number(&made.bytes);
        assert!(number <= 6);
        assert_eq!(made.number.unwrap_or(number), number);
    }
}

/// A datainfo with its own generator.
fn some_datainfos(count: u64) -> impl Iterator<Item = (Datainfo, Random)> {
    (0..count).map(|seed| {
        let mut random = Random::new(seed);
        let levels = random.between(1, 4);
        (datainfos::good(&mut random, levels), random)
    })
}

#[test]
fn fitting_values_fit_with_or_without_spaces() {
    for (datainfo, mut random) in some_datainfos(3_000) {
        let value = values::fitting(&mut random, &datainfo);
        let spaced = values::with_spaces(&mut random, &value);
        let expected = if value.len() <= 256 {
            Ok(value.clone())
        } else {
            Err(ValueFault::RangeError)
        };
        assert_eq!(judge(&datainfo, &value), expected, "{datainfo:?}");
        assert_eq!(judge(&datainfo, &spaced), expected, "{datainfo:?}");
    }
}

// V-22
#[test]
fn values_of_256_bytes_fit_and_those_of_257_do_not() {
    let mut made = 0;
    for (datainfo, mut random) in some_datainfos(2_000) {
        if let Some(value) = values::fitting_of_length(&mut random, &datainfo, 256) {
            assert_eq!(judge(&datainfo, &value), Ok(value));
            made += 1;
        }
        if let Some(value) = values::fitting_of_length(&mut random, &datainfo, 257) {
            assert_eq!(value.len(), 257);
            assert_eq!(judge(&datainfo, &value), Err(ValueFault::RangeError));
        }
    }
    assert!(made > 100, "{made}");
}

/// The text without spaces outside strings, found without reading JSON.
fn without_spaces(text: &[u8]) -> Vec<u8> {
    let (mut in_string, mut escaped) = (false, false);
    text.iter()
        .copied()
        .filter(|&byte| {
            let kept = in_string || byte != b' ';
            if byte == b'"' && !escaped {
                in_string = !in_string;
            }
            escaped = in_string && byte == b'\\' && !escaped;
            kept
        })
        .collect()
}

fn has_enum(datainfo: &Datainfo) -> bool {
    let inner = datainfo.inner();
    matches!(datainfo, Datainfo::Enum(_)) || inner.into_iter().any(has_enum)
}

/// Names are put in at any depth, so that texts of all lengths meet the limit.
// V-19 to V-21
#[test]
fn sent_values_are_stored_as_the_fitting_ones_they_are_made_of() {
    let (mut grown, mut shrunk) = (0, 0);
    for (datainfo, mut random) in some_datainfos(6_000) {
        let longest = values::fitting_of_length(&mut random, &datainfo, 256);
        let value = longest.unwrap_or_else(|| values::fitting(&mut random, &datainfo));
        let sent = values::with_names(&mut random, &datainfo, &value);
        let judged = judge(&datainfo, &sent);
        if value.len() <= 256 {
            grown += usize::from(value.len() == 256 && sent.len() < 256);
            shrunk += usize::from(value.len() == 256 && sent.len() > 256);
            assert_eq!(judged, Ok(value), "{datainfo:?}");
        } else {
            assert_eq!(judged, Err(ValueFault::RangeError), "{datainfo:?}");
        }
    }
    assert!(grown > 0 && shrunk > 20, "{grown} {shrunk}");
}

#[test]
fn any_values_get_every_judgement() {
    let mut counts = [0; 4];
    let mut exchanged = 0;
    for (datainfo, mut random) in some_datainfos(6_000) {
        let value = values::any(&mut random, &datainfo);
        match judge(&datainfo, &value) {
            Ok(stored) => {
                if stored != without_spaces(&value) {
                    let ordered = matches!(datainfo, Datainfo::Partial { .. });
                    assert!(ordered || has_enum(&datainfo), "{datainfo:?}");
                    exchanged += 1;
                }
                assert_eq!(judge(&datainfo, &stored), Ok(stored));
                counts[0] += 1;
            }
            Err(ValueFault::BadJson) => {
                assert_eq!(json::read(&value), None);
                counts[1] += 1;
            }
            Err(ValueFault::WrongType) => counts[2] += 1,
            Err(ValueFault::RangeError) => counts[3] += 1,
        }
    }
    assert!(counts.iter().all(|&count| count > 300), "{counts:?}");
    assert!(exchanged > 100, "{exchanged}");
}

/// The histories that the tests below look at.
pub fn some_histories() -> impl Iterator<Item = History> {
    (0..400).map(|seed| histories::history(seed, 60))
}

// H-6 to H-9
#[test]
fn histories_hold_together() {
    let mut all = Seen::default();
    for history in some_histories() {
        let seen = watch(&history);
        all.numbers.extend(seen.numbers);
        all.records.extend(seen.records);
    }
    for number in (0..=16).filter(|&number| number != 9) {
        assert!(all.numbers.contains(&number), "{number} never came");
    }
    assert!(!all.numbers.contains(&9));
    assert_records_of_all_kinds(&all.records);
}

/// Targets are changed with a status that becomes busy, seen by somebody or
/// not, and without.
// L-22
#[test]
fn histories_change_targets() {
    let (mut seen, mut unseen, mut without) = (0, 0, 0);
    for history in some_histories() {
        let outcome = history.run().expect("it begins with a start");
        let Ok(table) = Table::judge(&history.table) else {
            continue;
        };
        for answer in &outcome.answers {
            let records = outbox::read(&answer.outbox).expect("nothing but records");
            let Some(module) = records.last().and_then(changed_target) else {
                continue;
            };
            let told = |one: &Record| line_of(one).contains(r#":status [[300,"target changed"]"#);
            let admits = |one: &Parameter| {
                let is_status = one.name == b"status" && one.module_name == module.as_bytes();
                is_status && judge(one.datainfo, BUSY).is_ok()
            };
            let busy = table.parameters().iter().any(admits);
            let updates = records.iter().filter(|one| one.mark == Mark::Update);
            match (busy, updates.clone().any(told)) {
                (true, true) => seen += 1,
                (true, false) => unseen += 1,
                (false, told) => without += usize::from(!told),
            }
        }
    }
    let all = (seen, unseen, without);
    assert!(seen > 5 && unseen > 5 && without > 5, "{all:?}");
}

/// The module whose target a record says to be changed.
fn changed_target(record: &Record) -> Option<String> {
    let line = String::from_utf8(record.body.clone()).ok()?;
    let specifier = line.strip_prefix("changed ")?.split(' ').next()?;
    Some(specifier.strip_suffix(":target")?.to_string())
}

/// What a client's counts are by what was used and sent since its last accepted
/// open.
// H-11
#[test]
fn counts_are_those_of_the_history() {
    let mut counted = 0;
    for history in some_histories() {
        let outcome = history.run().expect("it begins with a start");
        let mut due = [Counts::default(); CLIENTS];
        for (call, answer) in history.calls.iter().zip(&outcome.answers) {
            match call {
                Call::Start { .. } => due = Default::default(),
                Call::Open { client, .. } if answer.is_accepted() => {
                    due[*client as usize] = Counts::default();
                }
                Call::Piece { client, bytes, .. } if answer.is_accepted() => {
                    let fed = bytes[..answer.used].ends_with(b"\n");
                    due[*client as usize].lines += u32::from(fed);
                }
                _ => {}
            }
            for record in outbox::read(&answer.outbox).expect("nothing but records") {
                let due = &mut due[usize::from(record.client)];
                let is_error = record.mark == Mark::Reply && record.body.starts_with(b"error_");
                due.errors += u32::from(is_error);
                due.updates += u32::from(record.mark == Mark::Update);
            }
        }
        assert_eq!(outcome.end.counts, due);
        counted += due
            .iter()
            .filter(|one| one.errors.min(one.updates) > 0)
            .count();
    }
    assert!(counted > 100, "{counted}");
}

/// Where a table has notes, a node answers and ends as on the table without
/// them.
// T-35
#[test]
fn notes_alter_no_answer() {
    let mut count = 0;
    for history in some_histories() {
        let Ok(mut table) = Table::judge(&history.table) else {
            continue;
        };
        if table.modules.iter().all(|module| module.note.is_none()) {
            continue;
        }
        table.modules.iter_mut().for_each(|one| one.note = None);
        let without = History {
            table: encode::table(&table),
            calls: history.calls.clone(),
        };
        assert_eq!(history.run(), without.run());
        count += 1;
    }
    assert!(count > 50, "only {count} tables have notes");
}

fn assert_records_of_all_kinds(records: &[Record]) {
    for mark in [
        Mark::Reply,
        Mark::Update,
        Mark::DriverChange,
        Mark::DriverCommand,
    ] {
        assert!(records.iter().any(|record| record.mark == mark), "{mark:?}");
    }
    let replies: Vec<String> = records
        .iter()
        .filter(|record| record.mark == Mark::Reply)
        .map(line_of)
        .collect();
    let fronts = [
        "ISSE&SINE2020,",
        "ISSE,SECoP,",
        "describing . {",
        "pong ",
        "active",
        "inactive",
        "reply ",
        "changed ",
        "checked ",
        "done ",
        "error_read ",
    ];
    for front in fronts {
        assert!(
            replies.iter().any(|line| line.starts_with(front)),
            "{front}"
        );
    }
    let is_update = |record: &&Record| record.mark == Mark::Update;
    let updates: Vec<String> = records.iter().filter(is_update).map(line_of).collect();
    for front in ["update ", "error_update "] {
        assert!(
            updates.iter().any(|line| line.starts_with(front)),
            "{front}"
        );
    }
    let classes = [
        ErrorClass::ProtocolError,
        ErrorClass::NoSuchModule,
        ErrorClass::NoSuchParameter,
        ErrorClass::NoSuchCommand,
        ErrorClass::ReadOnly,
        ErrorClass::BadJson,
        ErrorClass::WrongType,
        ErrorClass::RangeError,
    ];
    for class in classes {
        let report = class.report();
        assert!(
            replies.iter().any(|line| line.ends_with(&report)),
            "{report}"
        );
    }
}

#[test]
fn histories_cut_pieces_everywhere() {
    let pieces: Vec<Vec<u8>> = some_histories()
        .flat_map(|history| history.calls)
        .filter_map(|call| match call {
            Call::Piece { bytes, .. } => Some(bytes),
            _ => None,
        })
        .collect();
    let any = |holds: fn(&[u8]) -> bool| pieces.iter().any(|bytes| holds(bytes));
    assert!(any(|bytes| bytes.is_empty()));
    assert!(any(|bytes| bytes.ends_with(b"\r")));
    assert!(any(|bytes| bytes.starts_with(b"\n")));
    assert!(any(|bytes| bytes.ends_with(b"\r\r\n")));
    assert!(any(|bytes| bytes
        .iter()
        .filter(|&&byte| byte == b'\n')
        .count()
        > 1));
    for length in 1_023..=1_026 {
        let lines = pieces
            .iter()
            .flat_map(|bytes| bytes.split_inclusive(|&byte| byte == b'\n'));
        let with_length: Vec<&[u8]> = lines.filter(|line| line.len() == length + 1).collect();
        assert!(
            with_length.iter().any(|line| line.ends_with(b"\r\n")),
            "{length}"
        );
        assert!(
            with_length.iter().any(|line| line.ends_with(b"x\n")),
            "{length}"
        );
    }
}

/// The bytes used, one list for each client and time that it was opened, and
/// the events in their order.
pub fn course(history: &History) -> (Vec<Vec<Vec<u8>>>, Vec<String>) {
    let outcome = history.run().expect("it begins with a start");
    let mut streams = vec![Vec::new(); 8];
    let mut events = Vec::new();
    for (call, answer) in history.calls.iter().zip(&outcome.answers) {
        match call {
            _ if !answer.has_effect() => {}
            Call::Lend { .. } => {}
            Call::Readings { rows, texts, .. } => {
                for row in &rows[..answer.taken] {
                    let (parameter, time) = (row.parameter, row.time);
                    let text = row.text(texts).expect("a text in its buffer");
                    events.push(format!("reading {parameter} {time} {text:?}"));
                }
            }
            Call::Start { time, .. } => events.push(format!("start {time}")),
            Call::Open { client, time, .. } => {
                streams[*client as usize].push(Vec::new());
                events.push(format!("open {client} {time}"));
            }
            Call::Close { client, time, .. } => events.push(format!("close {client} {time}")),
            Call::Reading {
                parameter,
                time,
                text,
                ..
            } => {
                events.push(format!("reading {parameter} {time} {text:?}"));
            }
            Call::Unreadable {
                parameter,
                time,
                class,
                ..
            } => {
                events.push(format!("unreadable {parameter} {time} {class}"));
            }
            Call::Piece {
                client,
                time,
                bytes,
                ..
            } => {
                let used = &bytes[..answer.used];
                streams[*client as usize]
                    .last_mut()
                    .unwrap()
                    .extend_from_slice(used);
                if used.ends_with(b"\n") {
                    events.push(format!("line feed {client} {time}"));
                }
            }
        }
    }
    (streams, events)
}

// H-4, H-5
#[test]
fn second_histories_send_the_same_and_end_the_same() {
    let (mut compared, mut mingled, mut other_steps) = (0, 0, 0);
    for (seed, first) in some_histories().enumerate() {
        let Some(second) = second::second(&first, seed as u64) else {
            continue;
        };
        let (one, other) = (first.run().unwrap(), second.run().unwrap());
        assert!(other.answers.iter().all(|answer| answer.has_effect()));
        assert_eq!(course(&first), course(&second));
        let sent = |answers: &[reference::history::Answer]| -> Vec<u8> {
            answers
                .iter()
                .flat_map(|answer| answer.outbox.clone())
                .collect()
        };
        assert_eq!(sent(&one.answers), sent(&other.answers));
        assert_eq!(one.end, other.end);
        compared += 1;
        mingled += usize::from(first.calls != second.calls);
        let steps = |answers: &[reference::history::Answer]| -> usize {
            answers.iter().map(|answer| answer.steps).sum()
        };
        other_steps += usize::from(steps(&one.answers) != steps(&other.answers));
    }
    assert!(compared > 250 && mingled > 250, "{compared} {mingled}");
    assert!(other_steps > 150, "{other_steps}");
}

#[test]
fn a_history_without_an_accepted_start_has_no_second() {
    let start = |values_len, time| Call::Start { values_len, time };
    let history = |calls| History {
        table: crate::build::lab(),
        calls,
    };
    assert!(second::second(&history(vec![start(0, 0)]), 1).is_none());
    let twice = history(vec![start(16_384, 0), start(16_384, 1)]);
    assert!(second::second(&twice, 1).is_none());
    let after_refused = history(vec![start(0, 0), start(16_384, 1)]);
    let second = second::second(&after_refused, 1).expect("one accepted start");
    assert_eq!(second.calls, [start(16_384, 1)]);
}

#[test]
fn small_histories_are_small_and_various() {
    let mut all = Seen::default();
    for seed in 0..320 {
        let history = small::history(seed);
        assert!(
            history.table.len() <= 250,
            "{seed}: {}",
            history.table.len()
        );
        assert!((3..=8).contains(&history.calls.len()), "{seed}");
        let seen = watch(&history);
        assert_eq!(seen.numbers[0], 0);
        all.numbers.extend(seen.numbers);
        all.records.extend(seen.records);
    }
    for number in [0, 7, 8, 10, 11, 12, 13, 14, 15, 16] {
        assert!(all.numbers.contains(&number), "{number} never came");
    }
    assert_records_of_all_kinds(&all.records);
    let updates = |pair: &[Record]| {
        pair.iter().all(|record| record.mark == Mark::Update) && pair[0].client != pair[1].client
    };
    assert!(
        all.records.windows(2).any(updates),
        "updates to two clients"
    );
}

/// The histories that the script `print-histories` asks for.
fn printed_histories() -> Vec<History> {
    let script = include_str!("../../print-histories");
    let (_, arguments) = script
        .rsplit_once(" definitions ")
        .expect("the seeds come last");
    let histories = |argument| match argument {
        "directed" => directed::all()
            .into_iter()
            .map(|scene| scene.history)
            .collect(),
        seed => vec![small::history(seed.parse().expect("a seed"))],
    };
    arguments.split_whitespace().flat_map(histories).collect()
}

/// What the comment in `print-histories` says.
#[test]
fn the_printed_histories_have_all_kinds_of_records_and_numbers_but_6_and_9() {
    let seen: Vec<Seen> = printed_histories().iter().map(watch).collect();
    let records: Vec<Record> = seen.iter().flat_map(|one| one.records.clone()).collect();
    assert_records_of_all_kinds(&records);
    let starts: BTreeSet<u8> = seen.iter().map(|one| one.numbers[0]).collect();
    assert_eq!(starts, BTreeSet::from([0, 1, 2, 3, 4, 5, 8, 10]));
    let later: BTreeSet<u8> = seen
        .iter()
        .flat_map(|one| one.numbers[1..].to_vec())
        .collect();
    let expected = (0..=18).filter(|number| ![6, 9, 17].contains(number));
    assert_eq!(later, expected.collect());
}

#[test]
fn the_same_seed_gives_the_same_and_another_seed_another() {
    assert_eq!(histories::history(3, 50), histories::history(3, 50));
    assert_ne!(histories::history(3, 50), histories::history(4, 50));
    assert_eq!(small::history(3), small::history(3));
    assert_ne!(small::history(3), small::history(3 + 17));
}
