//! The records that a call wrote.

/// What a record is.
#[derive(Clone, Copy, Debug, PartialEq, Eq)]
pub enum Mark {
    /// `RP`: the final reply to a line; the body is a line with its line feed.
    Reply,
    /// `UP`: an update; the body is a line with its line feed.
    Update,
    /// `DR`: a driver is to set a parameter; the body is a byte with its
    /// number, then the value's stored form.
    Change,
    /// `DC`: a driver is to carry out a command; the body is a byte with its
    /// number, counted over commands, then the argument's stored form, or
    /// nothing where none is declared.
    Command,
}

/// The client of an order to a driver is the one that asked for it.
#[derive(Clone, Copy, Debug, PartialEq, Eq)]
pub struct Record<'a> {
    pub mark: Mark,
    pub client: u8,
    pub body: &'a [u8],
}

/// Reads records from the front of some bytes, up to their end or to what is
/// no record.
#[derive(Clone, Debug)]
pub struct Records<'a> {
    rest: &'a [u8],
}

impl Mark {
    fn of(bytes: [u8; 2]) -> Option<Mark> {
        match &bytes {
            b"RP" => Some(Mark::Reply),
            b"UP" => Some(Mark::Update),
            b"DR" => Some(Mark::Change),
            b"DC" => Some(Mark::Command),
            _ => None,
        }
    }
}

impl<'a> Records<'a> {
    pub fn new(bytes: &'a [u8]) -> Records<'a> {
        Records { rest: bytes }
    }

    /// The bytes that were not read yet. After the last record there are none
    /// if the bytes are what a call wrote.
    pub fn rest(&self) -> &'a [u8] {
        self.rest
    }
}

impl<'a> Iterator for Records<'a> {
    type Item = Record<'a>;

    fn next(&mut self) -> Option<Record<'a>> {
        let (head, rest) = self.rest.split_first_chunk()?;
        let [mark_1, mark_2, client, length_1, length_2] = *head;
        let mark = Mark::of([mark_1, mark_2])?;
        let length = u16::from_be_bytes([length_1, length_2]);
        let (body, rest) = rest.split_at_checked(usize::from(length))?;
        self.rest = rest;
        Some(Record { mark, client, body })
    }
}

#[cfg(test)]
mod tests {
    use super::*;

    /// Document 01's example, its first and last record.
    const EXAMPLE: &[u8] =
        b"DR\x02\x00\x03\x0112RP\x02\x00\x23changed t1:target [12,{\"t\":1.500}]\n";

    #[test]
    fn records_are_read_in_order() {
        let mut records = Records::new(EXAMPLE);
        let order = Record {
            mark: Mark::Change,
            client: 2,
            body: b"\x0112",
        };
        let reply = Record {
            mark: Mark::Reply,
            client: 2,
            body: b"changed t1:target [12,{\"t\":1.500}]\n",
        };
        assert_eq!(records.by_ref().collect::<Vec<_>>(), [order, reply]);
        assert_eq!(records.rest(), b"");
    }

    #[test]
    fn what_is_no_record_ends_the_reading() {
        for bytes in [&EXAMPLE[..7], b"XX\0\0\0", b"UP\0\0"] {
            let mut records = Records::new(bytes);
            assert_eq!(records.next(), None);
            assert_eq!(records.rest(), bytes);
        }
    }
}
