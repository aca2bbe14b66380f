//! A recorder of what happens to a node, for a replay by the program `night`.

use crate::sensor::SensorError;
use std::fs::File;
use std::io::{self, Write};
use std::path::Path;

/// The most bytes of a record of a piece or a reading.
const MOST: usize = 4_096;

/// Writes each event after a start as a record of a trace: a mark, a byte with
/// the client or the parameter, the time (u64), the length (u16, both
/// big-endian) and the bytes. Call it before the node, with the same arguments.
/// Of a list of readings call it after the node, as for single readings: with
/// those that were taken and the one that stopped the list. A list that is
/// refused as a whole has no record.
///
/// A record is handed to the writer whole and flushed, so whatever ends the
/// program leaves at most the last record half written; a replay tells that. A
/// number above 255, or a reading of more than 4,096 bytes, has no record: it
/// is an error of kind `InvalidInput`, and nothing is written.
#[derive(Debug)]
pub struct Recorder<Writer> {
    out: Writer,
}

impl Recorder<File> {
    /// Begins a trace in a new file. One that is there already is not
    /// overwritten: it may be last night's.
    pub fn create(path: impl AsRef<Path>) -> io::Result<Recorder<File>> {
        File::create_new(path).map(Recorder::new)
    }
}

impl<Writer: Write> Recorder<Writer> {
    pub fn new(out: Writer) -> Recorder<Writer> {
        Recorder { out }
    }

    pub fn open(&mut self, client: u64, time: u64) -> io::Result<()> {
        self.record(b"EO", client, time, &[])
    }

    pub fn close(&mut self, client: u64, time: u64) -> io::Result<()> {
        self.record(b"EC", client, time, &[])
    }

    /// All of some bytes of a client, as [`Node::feed`](crate::Node::feed)
    /// takes them: a replay offers what is left of a record again by itself. A
    /// host that calls [`Node::piece`](crate::Node::piece) records bytes once,
    /// when they come in.
    pub fn feed(&mut self, client: u64, time: u64, bytes: &[u8]) -> io::Result<()> {
        if bytes.is_empty() {
            return self.record(b"EP", client, time, bytes);
        }
        bytes
            .chunks(MOST)
            .try_for_each(|bytes| self.record(b"EP", client, time, bytes))
    }

    pub fn reading(&mut self, parameter: u64, time: u64, text: &[u8]) -> io::Result<()> {
        self.record(b"ER", parameter, time, text)
    }

    pub fn unreadable(&mut self, parameter: u64, time: u64, error: SensorError) -> io::Result<()> {
        self.record(b"EF", parameter, time, &[error.class()])
    }

    fn record(&mut self, mark: &[u8; 2], number: u64, time: u64, bytes: &[u8]) -> io::Result<()> {
        let number = u8::try_from(number).map_err(|_| unrecordable("a number above 255"))?;
        let length = bytes.len() as u16;
        if bytes.len() > MOST {
            return Err(unrecordable("a reading of more than 4,096 bytes"));
        }
        let head = [
            &mark[..],
            &[number],
            &time.to_be_bytes(),
            &length.to_be_bytes(),
        ]
        .concat();
        self.out.write_all(&[&head, bytes].concat())?;
        self.out.flush()
    }
}

fn unrecordable(what: &str) -> io::Error {
    io::Error::new(io::ErrorKind::InvalidInput, format!("{what} has no record"))
}
