//! What is wrong with a table, and where.

use std::error::Error;
use std::fmt;

/// What is wrong with a table's bytes: the number that the library gives for
/// it, the record and the byte, and the rule that is broken.
#[derive(Clone, Debug, PartialEq, Eq)]
pub struct Fault {
    pub number: u8,
    /// Which record, from 1, and what it is: `parameter t1:target`.
    pub record: usize,
    pub whose: String,
    /// The byte's place in the table, from 0.
    pub at: usize,
    pub rule: String,
}

impl Fault {
    /// A good table that the text can't hold. There is none: a test builds
    /// again what is told.
    pub(super) fn untold() -> Fault {
        Fault {
            number: 0,
            record: 0,
            whose: "the table".to_string(),
            at: 0,
            rule: "it can't be told as a text".to_string(),
        }
    }
}

impl fmt::Display for Fault {
    fn fmt(&self, f: &mut fmt::Formatter) -> fmt::Result {
        let Fault {
            record,
            whose,
            at,
            rule,
            ..
        } = self;
        match record {
            0 => write!(f, "{whose}: {rule}"),
            _ => write!(f, "record {record} ({whose}), byte {at}: {rule}"),
        }
    }
}

impl Error for Fault {}

/// What is wrong with a text: where, the number that the library gives for such
/// a table if one can be made of it, and the rule that is broken.
#[derive(Clone, Debug, PartialEq, Eq)]
pub struct TextFault {
    /// From 1. Columns are characters.
    pub line: usize,
    pub column: usize,
    pub number: Option<u8>,
    pub rule: String,
}

impl TextFault {
    /// Of a byte's place in a text.
    pub(super) fn new(text: &[u8], at: usize, number: Option<u8>, rule: String) -> TextFault {
        let before = &text[..at.min(text.len())];
        let begin = before.iter().rposition(|&byte| byte == b'\n');
        let begin = begin.map_or(0, |feed| feed + 1);
        let is_first = |byte: &&u8| !(0x80..0xC0).contains(*byte);
        TextFault {
            line: 1 + before.iter().filter(|&&byte| byte == b'\n').count(),
            column: 1 + before[begin..].iter().filter(is_first).count(),
            number,
            rule,
        }
    }
}

impl fmt::Display for TextFault {
    fn fmt(&self, f: &mut fmt::Formatter) -> fmt::Result {
        let TextFault { line, column, .. } = self;
        write!(f, "line {line}, column {column}: {}", self.rule)?;
        match self.number {
            Some(number) => write!(f, " (number {number})"),
            None => Ok(()),
        }
    }
}

impl Error for TextFault {}
