//! The wrapper over the library: what it keeps, and that a refusal alters
//! nothing. What is expected stands in documents 01 and 02 (M-102, M-105).

use jihfasul::{Counts, Held, Index, Mark, Node, Refusal, Row, SensorError, State, Value, INDEX};

/// One module "m" with two parameters, both bool: "p", true, and "q", false.
fn table() -> Vec<u8> {
    b"ND\x01e\x01dMO\x01m\x01dPA\x01p\x01d\0\x03\0\x04truePA\x01q\x01d\0\x03\0\x05falseEN".to_vec()
}

fn started() -> Node {
    Node::start(table(), 5).expect("a good table")
}

/// Everything that a client is sent for some bytes.
fn fed(node: &mut Node, client: u64, bytes: &[u8]) -> String {
    let mut sent = Vec::new();
    let result = node.feed(client, 1_500, bytes, |record| {
        assert_eq!(u64::from(record.client), client);
        sent.extend_from_slice(record.body);
    });
    assert_eq!(result, Ok(()));
    String::from_utf8(sent).expect("text")
}

#[test]
fn a_bad_table_is_refused() {
    let refused = |table: &[u8]| Node::start(table.to_vec(), 5).err();
    assert_eq!(refused(b""), Some(Refusal::Layout));
    assert_eq!(refused(b"ND\x01e\x01dEN"), Some(Refusal::Counts));
    let late = Node::start(table(), 10_000_000_000_000).err();
    assert_eq!(late, Some(Refusal::Time));
}

#[test]
fn all_bytes_are_fed_line_by_line() {
    let mut node = started();
    assert_eq!(node.open(7, 6), Ok(()));
    assert_eq!(fed(&mut node, 7, b""), "");
    assert_eq!(fed(&mut node, 7, b"pi"), "");
    let pong = "pong x [null,{\"t\":1.500}]\n";
    let reply = "reply m:p [true,{\"t\":0.005}]\n";
    let sent = fed(&mut node, 7, b"ng x\r\nread m:p\nping");
    assert_eq!(sent, [pong, reply].concat());
    assert_eq!(fed(&mut node, 7, b" x\n"), pong);
}

#[test]
fn readings_and_values() {
    let mut node = started();
    node.open(0, 6).expect("closed until now");
    assert_eq!(fed(&mut node, 0, b"activate m\n").lines().count(), 3);
    let mut records = node.reading(1, 777, b" true ").expect("a bool");
    let update = records.next().expect("an update");
    assert_eq!((update.mark, update.client), (Mark::Update, 0));
    assert_eq!(update.body, b"update m:q [true,{\"t\":0.777}]\n");
    assert_eq!((records.next(), records.rest()), (None, b"".as_slice()));
    let shown = |held, time| Ok(Value { held, time });
    assert_eq!(node.value(0), shown(Held::Initial(b"true"), 5));
    assert_eq!(node.value(1), shown(Held::Set(b"true"), 777));
    assert_eq!(node.value(2), Err(Refusal::NoSuchParameter));
}

#[test]
fn a_broken_sensor_is_reported_as_such() {
    let mut node = started();
    node.open(0, 6).expect("closed until now");
    fed(&mut node, 0, b"activate m\n");
    for (error, class) in SensorError::ALL.into_iter().zip(1..) {
        let mut records = node.unreadable(1, 777, error).expect("a parameter");
        let update = records.next().expect("an update");
        assert_eq!((update.mark, update.client), (Mark::Update, 0));
        let line = format!("error_update m:q [\"{error}\",\"{error}\",{{\"t\":0.777}}]\n");
        assert_eq!(update.body, line.as_bytes());
        assert_eq!((records.next(), records.rest()), (None, b"".as_slice()));
        let (held, time) = (Held::Error(error), 777);
        assert_eq!(node.value(1), Ok(Value { held, time }));
        assert_eq!(node.state().settings.error[1], class);
        let reply = format!("error_read m:q:x [\"{error}\",\"{error}\",{{\"t\":0.777}}]\n");
        assert_eq!(fed(&mut node, 0, b"read m:q:x\n"), reply);
    }
    assert!(node.values().iter().all(|byte| *byte == 0));
    node.reading(1, 778, b"false").expect("a bool");
    let (held, time) = (Held::Set(b"false".as_slice()), 778);
    assert_eq!(node.value(1), Ok(Value { held, time }));
}

#[test]
fn a_refusal_alters_nothing() {
    let mut node = started();
    node.open(3, 6).expect("closed until now");
    let (state, values) = (*node.state(), node.values().to_vec());
    assert_eq!(node.open(3, 7), Err(Refusal::AlreadyOpen));
    assert_eq!(node.close(4, 7), Err(Refusal::NotOpen));
    assert_eq!(node.open(8, 7), Err(Refusal::ClientNumber));
    assert_eq!(node.reading(1, 7, b"1").err(), Some(Refusal::Reading));
    assert_eq!(
        node.reading(2, 7, b"true").err(),
        Some(Refusal::NoSuchParameter)
    );
    let missing = node.unreadable(2, 7, SensorError::ReadFailed).err();
    assert_eq!(missing, Some(Refusal::NoSuchParameter));
    assert_eq!(node.piece(4, 7, b"").err(), Some(Refusal::NotOpen));
    assert_eq!((node.state(), node.values()), (&state, values.as_slice()));
}

#[test]
fn a_kept_state_is_gone_on_with() {
    let mut node = started();
    node.open(3, 6).expect("closed until now");
    fed(&mut node, 3, b"change m:q true\nread m");
    let (values, mut state) = (node.values().to_vec(), *node.state());
    let mut again = Node::resume(table(), values.clone(), state);
    let reply = "reply m:q [true,{\"t\":1.500}]\n";
    assert_eq!(fed(&mut again, 3, b":q\n"), reply);
    state.settings.error[0] = 5;
    let mut unknown = Node::resume(table(), values.clone(), state);
    assert_eq!(unknown.close(3, 7), Err(Refusal::State));
    state.settings.error[0] = 0;
    state.clients.active[3] = 2;
    let mut unfit = Node::resume(table(), values, state);
    assert_eq!(unfit.close(3, 7), Err(Refusal::State));
    let mut nothing = Node::resume(table(), Vec::new(), State::NOTHING);
    assert_eq!(nothing.open(0, 7), Err(Refusal::Values));
}

/// The FNV-1a hashes of `m:p` and `m:q` modulo 128 are 34 and 53.
#[test]
fn an_index_is_filled_from_a_table() {
    let mut due = [255; INDEX];
    (due[34], due[53]) = (0, 1);
    assert_eq!(Index::of(&table()), Ok(Index::from(due)));
    assert_eq!(Index::of(b""), Err(Refusal::Layout));
    assert_eq!(Index::of(b"ND\x01e\x01dEN"), Err(Refusal::Counts));
}

/// The steps of a line, and what is sent for it.
fn answered(node: &mut Node, index: Option<Index>, line: &[u8]) -> (usize, Vec<u8>) {
    node.lend(index);
    let taken = node.piece(3, 700, line).expect("an open client");
    assert_eq!(taken.used, line.len());
    let sent = taken.records.map(|record| record.body.to_vec());
    (taken.steps, sent.collect::<Vec<_>>().concat())
}

#[test]
fn an_index_alters_the_steps_alone() {
    let mut node = started();
    node.open(3, 6).expect("closed until now");
    let filled = Index::of(&table()).expect("a good table");
    let indexes = [
        (None, [2, 2, 0]),
        (Some(filled), [1, 3, 0]),
        (Some(Index::from([255; INDEX])), [3, 3, 0]),
        (Some(Index::from([0; INDEX])), [130, 130, 0]),
    ];
    for (index, due) in indexes {
        let mut again = node.clone();
        let reply = b"reply m:q [false,{\"t\":0.005}]\n".to_vec();
        let missing = b"error_do m:r [\"NoSuchCommand\",\"no such command\",{}]\n".to_vec();
        let pong = b"pong m:q [null,{\"t\":0.700}]\n".to_vec();
        assert_eq!(answered(&mut again, index, b"read m:q\n"), (due[0], reply));
        assert_eq!(answered(&mut again, index, b"do m:r\n"), (due[1], missing));
        assert_eq!(answered(&mut again, index, b"ping m:q\n"), (due[2], pong));
        let (lines, errors, updates) = (3, 1, 0);
        let counts = Counts {
            lines,
            errors,
            updates,
        };
        assert_eq!(again.counts(3), Some(counts));
    }
}

#[test]
fn a_list_is_taken_up_to_the_first_refused_reading() {
    let mut node = started();
    node.open(0, 6).expect("closed until now");
    fed(&mut node, 0, b"activate m\n");
    let row = |(parameter, time, offset, length)| Row {
        parameter,
        time,
        offset,
        length,
    };
    // The texts are `false` and ` true`.
    let texts = b"false true";
    let rows = [(0, 20, 0, 5), (1, 10, 5, 5), (0, 30, 5, 6), (1, 30, 0, 5)].map(row);
    let rack = node.readings(&rows, texts);
    assert_eq!((rack.taken, rack.refusal), (2, Some(Refusal::Reading)));
    let sent: Vec<Vec<u8>> = rack.records.map(|record| record.body.to_vec()).collect();
    let first = b"update m:p [false,{\"t\":0.020}]\n".to_vec();
    let second = b"update m:q [true,{\"t\":0.010}]\n".to_vec();
    assert_eq!(sent, [first, second]);
    let shown = |held, time| Ok(Value { held, time });
    assert_eq!(node.value(0), shown(Held::Set(b"false"), 20));
    assert_eq!(node.value(1), shown(Held::Set(b"true"), 10));
    let state = *node.state();
    let rack = node.readings(&[rows[0]; 10], texts);
    assert_eq!((rack.taken, rack.refusal), (0, Some(Refusal::List)));
    let rack = node.readings(&[], texts);
    assert_eq!((rack.taken, rack.refusal), (0, None));
    assert_eq!(*node.state(), state);
}
