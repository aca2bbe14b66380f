//! A host in Rust, without sockets: where it would write to one, or hand an
//! order to a driver, it prints. It makes the calls of document 01's outbox
//! example and a few more, the same as `examples/host.c`, and prints the same:
//! `examples/host.expected`; `docs/LIBRARY.md` says why.

use jihfasul::{Held, Index, Mark, Node, Record, Records, Refusal, Row, SensorError};

/// One module "t1": two parameters, "value" (read only) and "target", doubles
/// from 0 to 300, and a command "stop".
fn table() -> Vec<u8> {
    let to_300: &[u8] = b"\x01\0\0\0\0\0\0\0\0\0\0\0\0\0\0\0\x01\x2c\0";
    [
        b"ND\x04demo\x09one stage".as_slice(),
        b"MO\x02t1\x05stage",
        &[b"PA\x05value\x07reading\x01", to_300, b"\0\x010"].concat(),
        &[b"PA\x06target\x06wanted\0", to_300, b"\0\x0210"].concat(),
        b"CM\x04stop\x04stop\0",
        b"EN",
    ]
    .concat()
}

/// Hands a record on: a line to a client's socket, an order to a driver.
fn hand_on(record: Record) {
    let Record { mark, client, body } = record;
    let text = |bytes| String::from_utf8_lossy(bytes);
    let order = |what| {
        let (number, value) = (body[0], text(&body[1..]));
        println!("  driver: {what} {number} \"{value}\", asked for by client {client}");
    };
    match mark {
        Mark::Reply | Mark::Update => print!("  client {client}: {}", text(body)),
        Mark::Change => order("set parameter"),
        Mark::Command => order("carry out command"),
    }
}

fn say(call: &str, result: &Result<(), Refusal>) {
    let number = result.map_or_else(Refusal::number, |()| 0);
    println!("{call}: number {number}, used 0");
}

/// Feeds bytes as they came from a client's socket: each call uses them up to
/// a line feed, and the rest is offered again. `Node::feed` does the same.
fn receive(node: &mut Node, client: u64, time: u64, mut bytes: &[u8]) {
    while !bytes.is_empty() {
        match node.piece(client, time, bytes) {
            Err(refusal) => return say("piece", &Err(refusal)),
            Ok(taken) => {
                println!("piece: number 0, used {}", taken.used);
                taken.records.for_each(hand_on);
                bytes = &bytes[taken.used..];
            }
        }
    }
}

/// What a driver's report did.
fn reported(call: &str, result: Result<Records, Refusal>) {
    say(call, &result.as_ref().map(drop).map_err(|refusal| *refusal));
    result.into_iter().flatten().for_each(hand_on);
}

/// Feeds a value that a driver has read.
fn read_driver(node: &mut Node, parameter: u64, time: u64, text: &[u8]) {
    reported("reading", node.reading(parameter, time, text));
}

/// Feeds what a scanner has read at once: the rows say where each text lies in
/// the buffer. Those before the first refused one are taken.
fn read_scanner(node: &mut Node, rows: &[Row], texts: &[u8]) {
    let rack = node.readings(rows, texts);
    let number = rack.refusal.map_or(0, Refusal::number);
    println!("readings: number {number}, taken {}", rack.taken);
    rack.records.for_each(hand_on);
}

/// Feeds a driver's report that it can't read a parameter.
fn fail_driver(node: &mut Node, parameter: u64, time: u64, error: SensorError) {
    reported("unreadable", node.unreadable(parameter, time, error));
}

/// The host's own look at a parameter.
fn show(node: &Node, parameter: u64) {
    match node.value(parameter) {
        Err(refusal) => println!("value: number {}", refusal.number()),
        Ok(value) => {
            let text = |bytes| String::from_utf8_lossy(bytes).to_string();
            let (shown, origin) = match value.held {
                Held::Set(bytes) => (text(bytes), "set"),
                Held::Initial(bytes) => (text(bytes), "initial"),
                Held::Error(error) => (error.class().to_string(), "error"),
            };
            println!("value: number 0");
            println!(
                "  parameter {parameter}: {shown} ({origin}) at {} ms",
                value.time
            );
        }
    }
}

fn main() -> Result<(), Refusal> {
    let mut node = Node::start(table(), 5)?;
    say("start", &Ok(()));
    node.lend(Some(Index::of(node.table())?)); // once for this table
    say("index", &Ok(()));
    say("open", &node.open(2, 1000));
    say("open", &node.open(5, 1000));
    say("open", &node.open(5, 1000)); // refused: it is open
    receive(&mut node, 2, 1100, b"*IDN?\nacti"); // a line and the beginning of another
    receive(&mut node, 2, 1200, b"vate t1\r\n");
    receive(&mut node, 5, 1300, b"activate\n");
    receive(&mut node, 2, 1500, b"change t1:target 12\n");
    receive(
        &mut node,
        2,
        1600,
        b"change t1:target 301\nchange t1:value 1\ndo t1:stop\n",
    );
    show(&node, 0); // never set
    read_driver(&mut node, 0, 2000, b" 4.5 ");
    read_driver(&mut node, 0, 2100, b"warm"); // refused: no JSON
    say("close", &node.close(5, 2200));
    receive(
        &mut node,
        2,
        2300,
        b"change t1:target 2e2\nread t1:target\nping\n",
    );
    show(&node, 1);
    show(&node, 2); // refused: there are two parameters
    fail_driver(&mut node, 0, 2400, SensorError::CommunicationFailed);
    receive(&mut node, 2, 2500, b"read t1:value\n");
    show(&node, 0); // in error
    read_driver(&mut node, 0, 2600, b"4.6");
    show(&node, 0);
    let row = |(parameter, time, offset, length)| Row {
        parameter,
        time,
        offset,
        length,
    };
    let rows = [(0, 2700, 0, 3), (1, 2701, 3, 3), (0, 2702, 6, 4)].map(row);
    read_scanner(&mut node, &rows, b"4.7150warm"); // stops at the third: no JSON
    Ok(())
}
