//! Tables put together byte by byte, and a node to talk to.

use reference::node::Node;
use reference::outbox::{self, Mark, Record};

pub const VALUES: usize = 16_384;
pub const OUTBOX: usize = 32_768;

/// A length byte and the bytes.
pub fn text(bytes: &[u8]) -> Vec<u8> {
    [&[bytes.len() as u8], bytes].concat()
}

pub fn nd(equipment_id: &str, description: &str) -> Vec<u8> {
    let texts = [text(equipment_id.as_bytes()), text(description.as_bytes())];
    [b"ND".to_vec(), texts.concat()].concat()
}

pub fn ed(text_of_record: &str) -> Vec<u8> {
    [b"ED".to_vec(), text(text_of_record.as_bytes())].concat()
}

pub fn mo(name: &str, description: &str) -> Vec<u8> {
    let texts = [text(name.as_bytes()), text(description.as_bytes())];
    [b"MO".to_vec(), texts.concat()].concat()
}

pub fn no(note: &str) -> Vec<u8> {
    [b"NO".to_vec(), text(note.as_bytes())].concat()
}

pub fn en() -> Vec<u8> {
    b"EN".to_vec()
}

pub fn pa(name: &str, description: &str, readonly: u8, datainfo: &[u8], initial: &[u8]) -> Vec<u8> {
    [
        b"PA".to_vec(),
        text(name.as_bytes()),
        text(description.as_bytes()),
        vec![readonly],
        datainfo.to_vec(),
        (initial.len() as u16).to_be_bytes().to_vec(),
        initial.to_vec(),
    ]
    .concat()
}

pub fn cm(name: &str, description: &str) -> Vec<u8> {
    let texts = [text(name.as_bytes()), text(description.as_bytes())];
    [b"CM".to_vec(), texts.concat(), vec![0]].concat()
}

pub fn cm_with(name: &str, description: &str, argument: &[u8]) -> Vec<u8> {
    let texts = [text(name.as_bytes()), text(description.as_bytes())];
    [b"CM".to_vec(), texts.concat(), vec![1], argument.to_vec()].concat()
}

/// Limits are mantissa and power.
pub fn double(min: (i64, i8), max: (i64, i8)) -> Vec<u8> {
    [
        vec![1],
        min.0.to_be_bytes().to_vec(),
        min.1.to_be_bytes().to_vec(),
        max.0.to_be_bytes().to_vec(),
        max.1.to_be_bytes().to_vec(),
    ]
    .concat()
}

pub fn int(min: i64, max: i64) -> Vec<u8> {
    [&[2][..], &min.to_be_bytes(), &max.to_be_bytes()].concat()
}

pub fn boolean() -> Vec<u8> {
    vec![3]
}

pub fn enumeration(members: &[(&str, i32)]) -> Vec<u8> {
    let mut bytes = vec![4, members.len() as u8];
    for (name, value) in members {
        bytes.extend(text(name.as_bytes()));
        bytes.extend(value.to_be_bytes());
    }
    bytes
}

pub fn string(minchars: u16, maxchars: u16) -> Vec<u8> {
    [&[5][..], &minchars.to_be_bytes(), &maxchars.to_be_bytes()].concat()
}

pub fn scaled(scale: (i64, i8), min: i64, max: i64) -> Vec<u8> {
    [
        vec![9],
        scale.0.to_be_bytes().to_vec(),
        scale.1.to_be_bytes().to_vec(),
        min.to_be_bytes().to_vec(),
        max.to_be_bytes().to_vec(),
    ]
    .concat()
}

pub fn blob(minbytes: u16, maxbytes: u16) -> Vec<u8> {
    [&[10][..], &minbytes.to_be_bytes(), &maxbytes.to_be_bytes()].concat()
}

pub fn array(minlen: u16, maxlen: u16, members: &[u8]) -> Vec<u8> {
    [
        &[6][..],
        &minlen.to_be_bytes(),
        &maxlen.to_be_bytes(),
        members,
    ]
    .concat()
}

pub fn tuple(members: &[Vec<u8>]) -> Vec<u8> {
    [vec![7, members.len() as u8], members.concat()].concat()
}

pub fn structure(members: &[(&str, Vec<u8>)]) -> Vec<u8> {
    let mut bytes = vec![8, members.len() as u8];
    for (name, member) in members {
        bytes.extend(text(name.as_bytes()));
        bytes.extend(member);
    }
    bytes
}

/// Type 11: a flag before each name, 1 for optional.
pub fn partial(members: &[(u8, &str, Vec<u8>)]) -> Vec<u8> {
    let mut bytes = vec![11, members.len() as u8];
    for (optional, name, member) in members {
        bytes.push(*optional);
        bytes.extend(text(name.as_bytes()));
        bytes.extend(member);
    }
    bytes
}

/// `ND`, the records, `EN`.
pub fn table(records: &[Vec<u8>]) -> Vec<u8> {
    [nd("demo", "one stage"), records.concat(), en()].concat()
}

/// A table with one module and the accessibles given.
pub fn one_module(accessibles: &[Vec<u8>]) -> Vec<u8> {
    table(&[mo("t1", "stage"), accessibles.concat()])
}

/// The table behind the report that document 01 gives in whole.
pub fn report_example() -> Vec<u8> {
    one_module(&[
        pa("value", "reading", 1, &double((0, 0), (300, 0)), b"0"),
        pa(
            "mode",
            "heater",
            0,
            &enumeration(&[("off", 0), ("on", 1)]),
            b"0",
        ),
        cm("stop", "stop"),
    ])
}

/// Three modules. Parameters: 0 t1:value (readonly), 1 t1:target, 2 t1:status
/// (readonly), 3 mf:target, 4 mf:mode, 5 mf:label. Commands: 0 t1:stop,
/// 1 mf:go (an int from 0 to 9), 2 mf:stop. The module `idle` has none.
pub fn lab() -> Vec<u8> {
    let kelvin = double((0, 0), (300, 0));
    let status = tuple(&[int(0, 999), string(0, 40)]);
    table(&[
        mo("t1", "stage"),
        pa("value", "", 1, &kelvin, b"295.13"),
        pa("target", "", 0, &kelvin, b"0"),
        pa("status", "", 1, &status, br#"[100,"OK"]"#),
        cm("stop", ""),
        mo("idle", ""),
        mo("mf", "field"),
        pa("target", "", 0, &int(-10, 10), b"-0"),
        pa("mode", "", 0, &enumeration(&[("off", 0), ("on", 1)]), b"1"),
        cm_with("go", "", &int(0, 9)),
        pa("label", "", 0, &string(0, 1000), b"\"\""),
        cm("stop", ""),
    ])
}

/// A node over the table with the clients open, started at `time`.
pub fn started(table: &[u8], clients: &[u64], time: u64) -> Node {
    let (mut node, result) = Node::start(table, VALUES, time);
    assert_eq!(result, Ok(()));
    for client in clients {
        assert_eq!(node.open(*client, VALUES, time), Ok(()));
    }
    node
}

/// The lab's node with these clients open.
pub fn lab_node(clients: &[u64]) -> Node {
    started(&lab(), clients, 1_000)
}

/// Sends a piece that must be accepted and gives the bytes used and written.
pub fn send_bytes(node: &mut Node, client: u64, time: u64, bytes: &[u8]) -> (usize, Vec<u8>) {
    let taken = node
        .piece(client, VALUES, OUTBOX, time, bytes)
        .expect("the piece is accepted");
    (taken.used, taken.outbox)
}

/// Sends a line that is used up whole and gives the records.
pub fn send(node: &mut Node, client: u64, time: u64, line: &str) -> Vec<Record> {
    let bytes = [line.as_bytes(), b"\n"].concat();
    let (used, written) = send_bytes(node, client, time, &bytes);
    assert_eq!(used, bytes.len());
    outbox::read(&written).expect("the outbox is made of records")
}

/// Sends a line whose only effect is its reply, and gives that without its
/// line feed.
pub fn ask(node: &mut Node, client: u64, time: u64, line: &str) -> String {
    let records = send(node, client, time, line);
    assert_eq!(records.len(), 1, "{line}");
    assert_eq!(records[0].mark, Mark::Reply);
    assert_eq!(u64::from(records[0].client), client);
    line_of(&records[0])
}

/// The line that a record carries, without its line feed.
pub fn line_of(record: &Record) -> String {
    let body = String::from_utf8(record.body.clone()).expect("ASCII");
    body.strip_suffix('\n')
        .expect("a line feed ends it")
        .to_string()
}

/// A reply or an update as `client mark line`, an order as its bytes.
pub fn shown(records: &[Record]) -> Vec<String> {
    records
        .iter()
        .map(|record| match record.mark {
            Mark::Reply => format!("{} < {}", record.client, line_of(record)),
            Mark::Update => format!("{} * {}", record.client, line_of(record)),
            Mark::DriverChange => format!("{} DR {}", record.client, shown_order(record)),
            Mark::DriverCommand => format!("{} DC {}", record.client, shown_order(record)),
        })
        .collect()
}

fn shown_order(record: &Record) -> String {
    let stored = String::from_utf8(record.body[1..].to_vec()).expect("ASCII");
    format!("{} {stored}", record.body[0])
}
