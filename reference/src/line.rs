//! Lines: how bytes become lines, and lines requests.

/// The most bytes before a line feed, a carriage return counted.
pub const MAX_LINE: usize = 1_024;

pub const LINE_FEED: u8 = 10;
const CARRIAGE_RETURN: u8 = 13;

/// What a client has sent since its open or its last line feed.
#[derive(Clone, Debug, PartialEq, Eq)]
pub enum Unfinished {
    Bytes(Vec<u8>),
    /// More than fits in a line; the bytes are forgotten.
    Overlong,
}

impl Default for Unfinished {
    fn default() -> Unfinished {
        Unfinished::Bytes(Vec::new())
    }
}

impl Unfinished {
    /// Adds bytes without a line feed.
    pub fn add(&mut self, bytes: &[u8]) {
        let Unfinished::Bytes(kept) = self else {
            return;
        };
        kept.extend_from_slice(bytes);
        if kept.len() > MAX_LINE {
            *self = Unfinished::Overlong;
        }
    }
}

/// A line parted at its first and second space.
#[derive(Clone, Copy, Debug, PartialEq, Eq)]
pub struct Request<'a> {
    pub action: &'a [u8],
    /// Empty also where there is none.
    pub specifier: &'a [u8],
    /// Empty also where there is none.
    data: &'a [u8],
}

impl<'a> Request<'a> {
    /// Parts a finished line; `None` for an overlong or empty one and for one
    /// with a byte outside 32 to 126.
    pub fn read(line: &'a Unfinished) -> Option<Request<'a>> {
        let Unfinished::Bytes(bytes) = line else {
            return None;
        };
        let message = bytes.strip_suffix(&[CARRIAGE_RETURN]).unwrap_or(bytes);
        let printable = message.iter().all(|byte| (32..=126).contains(byte));
        (printable && !message.is_empty()).then(|| Request::part(message))
    }

    fn part(message: &'a [u8]) -> Request<'a> {
        let mut parts = message.splitn(3, |&byte| byte == b' ');
        let mut next_part = || parts.next().unwrap_or_default();
        Request {
            action: next_part(),
            specifier: next_part(),
            data: next_part(),
        }
    }

    /// The data, where missing or all-space data stands for null.
    pub fn data(&self) -> &'a [u8] {
        if self.data.iter().all(|&byte| byte == b' ') {
            b"null"
        } else {
            self.data
        }
    }

    /// The first two parts of the specifier between colons; what follows a
    /// second colon is ignored.
    pub fn specifier_parts(&self) -> (&'a [u8], Option<&'a [u8]>) {
        let mut parts = self.specifier.split(|&byte| byte == b':');
        (parts.next().unwrap_or_default(), parts.next())
    }
}
