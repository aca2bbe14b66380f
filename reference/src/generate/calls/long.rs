//! Lines around 1,024 bytes in all cuttings, and calls that write much.

use super::course::Course;
use crate::generate::encode;
use crate::generate::parts::{module, parameter, string, table};
use crate::node::CLIENTS;

const LENGTHS: std::ops::RangeInclusive<usize> = 1_022..=1_027;

pub(super) fn all(course: &mut Course) {
    cuttings(course);
    tokens(course);
    late_feeds(course);
    long_updates(course);
}

fn one_parameter() -> Vec<u8> {
    let accessibles = vec![parameter("p", string(0, 300), "\"\"")];
    encode::table(&table(vec![module("m", accessibles)]))
}

/// A request of so many bytes whose answer is short.
fn request(length: usize, end: &str) -> String {
    let head = "*IDN? ";
    format!("{head}{}{end}", "x".repeat(length - head.len() - end.len()))
}

/// Lines of each length, cut at each length, with the line feed in the second
/// piece or after it. Client 3's lines stand in the midst of the others'.
fn cuttings(course: &mut Course) {
    course.started("lines in all cuttings", &one_parameter());
    course.open(3);
    course.open(4);
    course.piece(4, "ping ");
    for length in LENGTHS {
        for end in ["", "\r"] {
            let line = request(length, end);
            course.line(3, &line);
            for cut in LENGTHS.filter(|cut| *cut < length) {
                course.piece(3, &line[..cut]);
                course.line(3, &line[cut..]);
            }
            course.piece(3, &line);
            course.piece(3, "");
            course.piece(3, "\n");
        }
    }
    course.line(4, "4");
    course.line(3, "ping 3");
    course.show();
}

/// Long lines that are answered with what they had.
fn tokens(course: &mut Course) {
    course.started("long tokens", &one_parameter());
    course.open(0);
    course.open(7);
    for client in [0, 7] {
        let token = |length: usize| "0123456789abcdef".repeat(64)[..length].to_string();
        course.line(client, &format!("ping {}", token(1_019)));
        course.piece(client, format!("ping {}", token(1_018)));
        course.piece(client, "\r");
        course.piece(client, "\n");
        course.line(client, &format!("{} {}", token(500), token(523)));
        course.line(client, &token(1_024));
        course.piece(client, token(1_024));
        course.show();
        course.piece(client, "x");
        course.show();
        course.piece(client, token(1_024));
        course.line(client, "ping");
        course.line(client, "ping");
    }
}

/// Bytes of an overlong line are dropped, whatever they are, up to the feed.
fn late_feeds(course: &mut Course) {
    course.started("overlong lines", &one_parameter());
    course.open(5);
    course.piece(5, "x".repeat(3_000));
    course.show();
    course.piece(5, "");
    course.piece(5, "ping\rping");
    course.piece(5, "\r\nping a\nping b");
    course.line(5, "ping a");
    course.line(5, &"y".repeat(10_000));
    course.piece(5, "z".repeat(1_025));
    course.close(5);
    course.open(5);
    course.piece(5, "ping");
    course.piece(5, "\nrest");
    course.piece(5, "z".repeat(1_020));
    course.piece(5, "z".repeat(5));
    course.piece(5, "\n");
    course.show();
}

/// The longest names and values, sent to all clients.
fn long_updates(course: &mut Course) {
    let name = |first: char| format!("{first}{}", "n".repeat(62));
    let one = |at: u8| parameter(&name(char::from(b'a' + at)), string(0, 300), "\"\"");
    let parameters = (0..26).map(one).collect();
    let bytes = encode::table(&table(vec![module(&name('m'), parameters)]));
    course.started("long updates", &bytes);
    let value = |byte: &str| format!("\"{}\"", byte.repeat(254));
    for client in 0..CLIENTS as u64 {
        course.open(client);
    }
    for parameter in 0..26 {
        course.reading(parameter, &value("v"));
    }
    for client in 0..CLIENTS as u64 {
        course.line(client, "activate");
    }
    course.line(
        7,
        &format!("change {}:{} {}", name('m'), name('z'), value("w")),
    );
    course.reading(0, &value("\\\\")[..255]);
    for parameter in 0..26 {
        course.unreadable(parameter, 2);
    }
    course.line(7, "activate");
    course.show();
}
