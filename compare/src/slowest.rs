//! The slowest tables that are known: what a call costs on each. They are not
//! met in a laboratory; `docs/LIMITS.md` has what they bound.

use jihfasul::{call, Node, VALUES};
use std::process::ExitCode;
use std::time::{Duration, Instant};

/// The fastest of so many calls, or of as many as go into this time.
const CALLS: usize = 40;
const LONGEST: Duration = Duration::from_secs(3);

const MAX_TABLE: usize = 16_384;

pub fn print() -> ExitCode {
    println!("Milliseconds for a call on the slowest tables of 16 KB that are known.\n");
    println!("number  call   milliseconds  table");
    for (name, table) in refused() {
        let mut number = 0;
        let cost = fastest(|| number = call::start(&table, &[0; VALUES], 1).number);
        assert_ne!(number, 0);
        println!("{number:6}  start  {cost:12.2}  {name}");
    }
    for (name, table, value) in accepted() {
        let start = fastest(|| assert_eq!(call::start(&table, &[0; VALUES], 1).number, 0));
        println!("     0  start  {start:12.2}  {name}");
        let mut node = Node::start(table.clone(), 1).expect("a good table");
        node.open(0, 2).expect("it is not open");
        for parameter in 0.. {
            if node.reading(parameter, 3, value.as_bytes()).is_err() {
                break;
            }
        }
        let line = fastest(|| node.feed(0, 4, b"ping\n", |_| ()).expect("a line"));
        println!("     0  piece  {line:12.2}  {name}, all values set");
    }
    ExitCode::SUCCESS
}

/// Tables that a start refuses.
fn refused() -> Vec<(String, Vec<u8>)> {
    let mut all = Vec::new();
    // as many bytes as go into each member, of the types that are read slowest
    for (kind, inside) in [
        (8, "bools in a tuple"),
        (8, "doubles in a tuple"),
        (11, "bools in a tuple"),
    ] {
        let double = inside.starts_with("doubles");
        let one: Vec<u8> = if double {
            [&[1][..], &[0; 18]].concat()
        } else {
            vec![3]
        };
        let head = 1 + 2 + 2 + usize::from(kind == 11);
        let count = ((MAX_TABLE - 60) / 255 - head) / one.len();
        let mut datainfo = vec![kind, 255];
        for member in 0..255_u8 {
            if kind == 11 {
                datainfo.push(0);
            }
            datainfo.extend([2, b'a' + member / 26, b'a' + member % 26, 7, count as u8]);
            datainfo.extend(one.repeat(count));
        }
        let name = format!("a struct (type {kind}) of 255 members, {count} {inside} each");
        all.push((name, one_parameter(&datainfo, b"0")));
    }
    // the walk over later members always meets the last one, and is made again inside it
    let tiny = |member: u8| [2, b'a' + member / 26, b'a' + member % 26];
    let mut datainfo = vec![8, 255];
    for member in 0..254 {
        datainfo.extend(tiny(member));
        datainfo.push(3);
    }
    datainfo.extend(tiny(254));
    let count = (MAX_TABLE - 60 - datainfo.len()) / 255 - 5;
    datainfo.extend([8, 255]);
    for member in 0..255 {
        datainfo.extend(tiny(member));
        datainfo.extend([7, count as u8]);
        datainfo.extend(vec![3; count]);
    }
    let name = format!("a struct of 255 members, the last a struct of 255 tuples of {count} bools");
    all.push((name, one_parameter(&datainfo, b"0")));
    let mut datainfo = vec![4, 255];
    for member in 0..255_u8 {
        datainfo.push(59);
        datainfo.extend([b'a'; 57]);
        datainfo.extend([b'a' + member / 26, b'a' + member % 26, 0, 0, 0, member]);
    }
    all.push((
        "an enum of 255 members with names of 59 bytes".into(),
        one_parameter(&datainfo, b"0"),
    ));
    all
}

/// Tables that a start accepts, and a value that every parameter takes.
fn accepted() -> Vec<(String, Vec<u8>, String)> {
    let mut choice = vec![4, 32];
    for member in 0..32_u8 {
        choice.extend([1 + member / 26, b'a' + member % 26]);
        choice.extend(vec![b'x'; usize::from(member / 26)]);
        choice.extend([0, 0, 0, member]);
    }
    let choices = [&[6, 0, 0, 0, 255][..], &choice].concat();
    // the last member is found last
    let last = format!("[{}31]", "31,".repeat(84));
    let short = format!("[{}0]", "0,".repeat(126));
    let inner = [
        &[8, 8][..],
        &(0..8).flat_map(|m| [1, b'a' + m, 3]).collect::<Vec<_>>(),
    ]
    .concat();
    let objects = [&[6, 0, 0, 0, 255][..], &inner].concat();
    let object = |order: &str| {
        let members: Vec<String> = order.chars().map(|key| format!("\"{key}\":true")).collect();
        format!("{{{}}}", members.join(","))
    };
    let structs = format!("[{},{}]", object("hgfedcba"), object("hgfedcba"));
    let mut all = Vec::new();
    for (name, datainfo, value) in [
        ("arrays of 85 members of an enum of 32", &choices, last),
        ("arrays of 127 members of an enum of 32", &choices, short),
        ("arrays of 2 structs of 8 members", &objects, structs),
    ] {
        let (table, count) = parameters(datainfo, value.as_bytes());
        all.push((format!("{count} {name}"), table, value));
    }
    all
}

fn named(mark: &[u8], name: &str) -> Vec<u8> {
    [mark, &[name.len() as u8], name.as_bytes(), &[0]].concat()
}

fn parameter(name: &str, datainfo: &[u8], initial: &[u8]) -> Vec<u8> {
    let length = (initial.len() as u16).to_be_bytes();
    [&named(b"PA", name)[..], &[0], datainfo, &length, initial].concat()
}

fn one_parameter(datainfo: &[u8], initial: &[u8]) -> Vec<u8> {
    let table = [
        &b"ND\0\0MO\x01m\0"[..],
        &parameter("p", datainfo, initial),
        b"EN",
    ]
    .concat();
    assert!(table.len() <= MAX_TABLE);
    table
}

/// As many parameters as go into a table and its structure report.
fn parameters(datainfo: &[u8], initial: &[u8]) -> (Vec<u8>, usize) {
    let mut best = (Vec::new(), 0);
    for count in 1..=64 {
        let mut table = b"ND\0\0MO\x01m\0".to_vec();
        for number in 0..count {
            table.extend(parameter(&format!("p{number}"), datainfo, initial));
        }
        table.extend(b"EN");
        if call::start(&table, &[0; VALUES], 1).number == 0 {
            best = (table, count);
        }
    }
    best
}

/// Milliseconds for doing something once.
fn fastest(mut act: impl FnMut()) -> f64 {
    let begin = Instant::now();
    let mut best = f64::INFINITY;
    for _ in 0..CALLS {
        let one = Instant::now();
        act();
        best = best.min(one.elapsed().as_secs_f64() * 1e3);
        if begin.elapsed() > LONGEST {
            break;
        }
    }
    best
}
