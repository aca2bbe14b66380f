//! Reads the script of an evening. `evening.script` says what it has.

/// What is said between events, or an event.
pub enum Entry {
    Caption(String),
    Event(Event),
}

pub struct Event {
    /// Milliseconds since midnight.
    pub time: u64,
    pub who: String,
    /// As the script has it.
    pub what: String,
    pub act: Act,
}

pub enum Act {
    Start,
    Connect,
    Leave,
    /// Bytes to the node, with the line feed if there is one.
    Send(Vec<u8>),
    /// A parameter as `module:parameter`, and a value.
    Read(String, String),
    /// A parameter that can't be read, and the error's name.
    Fail(String, String),
}

/// What a line of a script says, or what was expected in its place.
pub fn entry(line: &str) -> Result<Entry, String> {
    if let Some(caption) = line.strip_prefix("--") {
        return Ok(Entry::Caption(caption.trim().to_string()));
    }
    let (time, rest) = word(line);
    let (who, what) = word(rest);
    let Some(milliseconds) = milliseconds(time) else {
        return Err(format!("expected a time, as 20:00:10; found {time}"));
    };
    Ok(Entry::Event(Event {
        time: milliseconds,
        who: who.to_string(),
        what: what.to_string(),
        act: act(who, what)?,
    }))
}

/// A line's first word, and what follows the spaces after it.
fn word(line: &str) -> (&str, &str) {
    let (word, rest) = line.split_once([' ', '\t']).unwrap_or((line, ""));
    (word, rest.trim_start())
}

fn act(who: &str, what: &str) -> Result<Act, String> {
    let (mark, rest) = what.split_once([' ', '\t']).unwrap_or((what, ""));
    let expected = match (who, mark) {
        ("", _) => "expected after the time: node, driver or the name of a client",
        ("node", _) if what == "starts" => return Ok(Act::Start),
        ("node", _) => "expected: node starts",
        ("driver", ">" | "!") => return driven(mark, rest),
        ("driver", _) => "expected: driver > MODULE:PARAMETER VALUE, or driver ! MODULE:PARAMETER ERROR",
        (_, ">") => return Ok(Act::Send([rest.as_bytes(), b"\n"].concat())),
        (_, "~") if !rest.is_empty() => return Ok(Act::Send(rest.as_bytes().to_vec())),
        _ if what == "connects" => return Ok(Act::Connect),
        _ if what == "leaves" || what == "is cut off" => return Ok(Act::Leave),
        _ => "expected of a client: connects, leaves, is cut off, > and a line, or ~ and some bytes of one",
    };
    Err(format!("{expected}; found {}", found(what)))
}

/// A value that a driver has read, or why it can't.
fn driven(mark: &str, report: &str) -> Result<Act, String> {
    let (parameter, rest) = report.split_once([' ', '\t']).unwrap_or((report, ""));
    let (parameter, rest) = (parameter.to_string(), rest.to_string());
    match (mark, rest.as_str()) {
        (">", "") => Err(format!(
            "expected MODULE:PARAMETER and a value; found {}",
            found(report)
        )),
        (_, "") => Err(format!(
            "expected MODULE:PARAMETER and an error; found {}",
            found(report)
        )),
        (">", _) => Ok(Act::Read(parameter, rest)),
        _ => Ok(Act::Fail(parameter, rest)),
    }
}

fn found(what: &str) -> &str {
    match what {
        "" => "the end of the line",
        _ => what,
    }
}

/// `20:14:03` as milliseconds since midnight, and back.
fn milliseconds(clock: &str) -> Option<u64> {
    let parts: Vec<u64> = clock
        .split(':')
        .map(|part| part.parse().ok())
        .collect::<Option<_>>()?;
    match parts[..] {
        [hours @ 0..=99, minutes @ 0..=59, seconds @ 0..=59] => {
            Some(((hours * 60 + minutes) * 60 + seconds) * 1_000)
        }
        _ => None,
    }
}

pub fn clock(time: u64) -> String {
    let seconds = time / 1_000;
    let minutes = seconds / 60;
    format!(
        "{:02}:{:02}:{:02}",
        minutes / 60,
        minutes % 60,
        seconds % 60
    )
}
