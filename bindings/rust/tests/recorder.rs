//! The recorder: the records of document 02 (M-110), byte by byte.

use jihfasul::{Recorder, SensorError};
use std::io::{self, ErrorKind, Write};

/// What is written by some events.
fn written(events: impl Fn(&mut Recorder<&mut Vec<u8>>) -> io::Result<()>) -> Vec<u8> {
    let mut bytes = Vec::new();
    events(&mut Recorder::new(&mut bytes)).expect("a Vec takes all");
    bytes
}

#[test]
fn each_event_has_its_record() {
    let time = 0x0102_0304_0506_0708;
    let head = |mark: &str, number: u8, length: &[u8]| {
        let time = [1, 2, 3, 4, 5, 6, 7, 8];
        [mark.as_bytes(), &[number], &time, length].concat()
    };
    let piece = [head("EP", 7, b"\x00\x05"), b"ping\n".to_vec()].concat();
    let reading = [head("ER", 63, b"\x00\x03"), b"4.2".to_vec()].concat();
    let failure = [head("EF", 255, b"\x00\x01"), vec![2]].concat();
    assert_eq!(written(|one| one.open(2, time)), head("EO", 2, b"\x00\x00"));
    assert_eq!(
        written(|one| one.close(0, time)),
        head("EC", 0, b"\x00\x00")
    );
    assert_eq!(written(|one| one.feed(7, time, b"ping\n")), piece);
    assert_eq!(
        written(|one| one.feed(7, time, b"")),
        head("EP", 7, b"\x00\x00")
    );
    assert_eq!(written(|one| one.reading(63, time, b"4.2")), reading);
    let error = SensorError::CommunicationFailed;
    assert_eq!(written(|one| one.unreadable(255, time, error)), failure);
}

#[test]
fn long_pieces_have_several_records() {
    let bytes: Vec<u8> = (0..9_000_u32).map(|at| (at % 251) as u8).collect();
    let trace = written(|one| one.feed(1, 5, &bytes));
    let mut rest = trace.as_slice();
    let mut pieces = Vec::new();
    while let Some((head, after)) = rest.split_first_chunk::<13>() {
        assert_eq!(head[..11], *b"EP\x01\0\0\0\0\0\0\0\x05");
        let length = usize::from(u16::from_be_bytes([head[11], head[12]]));
        pieces.push(&after[..length]);
        rest = &after[length..];
    }
    assert_eq!(rest, b"");
    let lengths: Vec<usize> = pieces.iter().map(|piece| piece.len()).collect();
    assert_eq!(lengths, [4_096, 4_096, 808]);
    assert_eq!(pieces.concat(), bytes);
}

#[test]
fn what_has_no_record_is_an_error_and_not_written() {
    let mut bytes = Vec::new();
    let mut recorder = Recorder::new(&mut bytes);
    let long = vec![b' '; 4_097];
    let results = [
        recorder.open(256, 5),
        recorder.feed(256, 5, b""),
        recorder.reading(0, 5, &long),
        recorder.unreadable(1 << 32, 5, SensorError::ReadFailed),
    ];
    for result in results {
        assert_eq!(result.expect_err("refused").kind(), ErrorKind::InvalidInput);
    }
    assert_eq!(bytes, b"");
}

/// Counts what is written between flushes.
#[derive(Default)]
struct Flushes {
    waiting: usize,
    flushed: Vec<usize>,
}

impl Write for &mut Flushes {
    fn write(&mut self, bytes: &[u8]) -> io::Result<usize> {
        self.waiting += bytes.len();
        Ok(bytes.len())
    }

    fn flush(&mut self) -> io::Result<()> {
        self.flushed.push(std::mem::take(&mut self.waiting));
        Ok(())
    }
}

#[test]
fn each_record_is_flushed() {
    let mut flushes = Flushes::default();
    let mut recorder = Recorder::new(&mut flushes);
    recorder.open(0, 5).expect("written");
    recorder.feed(0, 5, &[b'x'; 5_000]).expect("written");
    recorder.reading(0, 5, b"1").expect("written");
    assert_eq!(flushes.flushed, [13, 13 + 4_096, 13 + 904, 14]);
    assert_eq!(flushes.waiting, 0);
}

#[test]
fn a_trace_that_is_there_is_not_overwritten() {
    let path = std::env::temp_dir().join(format!("trace-{}", std::process::id()));
    let mut recorder = Recorder::create(&path).expect("a new file");
    recorder.close(3, 5).expect("written");
    let again = Recorder::create(&path).expect_err("it is there");
    assert_eq!(again.kind(), ErrorKind::AlreadyExists);
    let bytes = std::fs::read(&path).expect("written");
    std::fs::remove_file(&path).expect("removed");
    assert_eq!(bytes, b"EC\x03\0\0\0\0\0\0\0\x05\0\0");
}
