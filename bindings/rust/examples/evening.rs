//! An evening of two rooms that share one node: plays `evening.script`, or the
//! script that the command line names, and prints who sent what, who was sent
//! what, and what the drivers were ordered to do. No socket and no hardware:
//! where a host would write to one, this one prints. The node's table is
//! `evening.table`, or the one after `--table`, as a text or as bytes. With
//! `--record FOLDER` it leaves the table's bytes and a trace of the events there,
//! for the program `night`.

#[path = "evening/script.rs"]
mod script;

use jihfasul::state::CLIENTS;
use jihfasul::table::{self, Table};
use jihfasul::{Held, Mark, Node, Record, Recorder, Records, Refusal, SensorError};
use script::{clock, entry, Act, Entry, Event};
use std::fmt::Write as _;
use std::fs::File;
use std::io::Write as _;
use std::path::{Path, PathBuf};
use std::{env, fs, io, process};

const SCRIPT: &str = concat!(env!("CARGO_MANIFEST_DIR"), "/examples/evening.script");
const TABLE: &str = concat!(env!("CARGO_MANIFEST_DIR"), "/examples/evening.table");

/// `./evening` names here the program that replays, seen from the user's folder.
const NIGHT: &str = "JIHFASUL_NIGHT_COMMAND";

/// The arguments can't be understood, or nothing can be printed.
const UNUSABLE: i32 = 2;

const HELP: &str = "\
Plays a script of clients and drivers on a node, and prints who sent what, who was
sent what, and what the drivers were ordered to do.

usage: evening [--table FILE] [--record FOLDER] [SCRIPT]
       evening --help

  SCRIPT            what happens; without it an evening of two rooms, which says at
                    its head what a script has:
                    bindings/rust/examples/evening.script
  --table FILE      the node's table, as a text (docs/TABLE.md) or as the bytes that
                    jihfasul-table builds; without it the two rooms':
                    bindings/rust/examples/evening.table
  --record FOLDER   leaves the table's bytes and a trace of the events in a new
                    FOLDER, for ./night

A line of a script that can't be played is quoted with what was expected; what was
played before it is printed. The exit status is 0 if all of the script was played, 1
if not, and 2 if the arguments can't be understood or nothing can be printed.
";

/// The marks of the columns, and what the times in the reports are.
const HEAD: &str = "  >  to the node: a line, or what a driver has read
  !  to the node: what a driver can't read
  ~  to the node: some bytes of a line, without its line feed
  <  from the node: a line, or an order to a driver
Times in what the node sends are seconds since midnight: 20:00:00 is 72000.000.

";

/// A printed line of the node has at most this many bytes; of a longer one the
/// front is printed, and its length.
const WIDTH: usize = 100;

/// What is printed, and the names in it.
struct Log {
    text: String,
    /// `module:parameter` and `module:command` of each number.
    parameters: Vec<String>,
    commands: Vec<String>,
    /// The client of each number.
    clients: [Option<String>; CLIENTS],
    /// Who had each number last.
    last: [Option<String>; CLIENTS],
}

impl Log {
    fn say(&mut self, clock: &str, who: &str, what: &str) {
        writeln!(self.text, "{clock:8}  {who:6}  {what}").expect("a String takes all");
    }

    fn caption(&mut self, text: &str) {
        writeln!(self.text, "\n{text}").expect("a String takes all");
    }

    /// What a record would be handed on as.
    fn record(&mut self, record: Record) {
        let Record { mark, client, body } = record;
        let who = self.clients[usize::from(client)].clone();
        let who = who.expect("the node sends to open clients only");
        match mark {
            Mark::Reply | Mark::Update => self.say("", &who, &format!("< {}", sent(body))),
            Mark::Change => {
                let (number, value) = order(body);
                let name = &self.parameters[number];
                let what = format!("< set {name} to {value} (parameter {number}, for {who})");
                self.say("", "driver", &what);
            }
            Mark::Command => {
                let (number, argument) = order(body);
                let name = &self.commands[number];
                let what = [name, argument.as_str()].join(" ");
                let what = what.trim_end();
                let what = format!("< carry out {what} (command {number}, for {who})");
                self.say("", "driver", &what);
            }
        }
    }

    fn refusal(&mut self, refusal: Refusal) {
        self.say("", "node", &format!("refuses: {refusal}"));
    }
}

/// A line of the node without its line feed, cut if it is long.
fn sent(body: &[u8]) -> String {
    let line = String::from_utf8_lossy(body.strip_suffix(b"\n").unwrap_or(body));
    match line.get(..WIDTH) {
        Some(front) if line.len() > WIDTH => format!("{front}.. ({} bytes)", line.len()),
        _ => line.to_string(),
    }
}

/// The number in an order to a driver, and the value or argument.
fn order(body: &[u8]) -> (usize, String) {
    let value = String::from_utf8_lossy(&body[1..]);
    (usize::from(body[0]), value.to_string())
}

/// A node, what is told of it, and what is recorded.
struct Evening {
    node: Node,
    log: Log,
    recorder: Option<Recorder<File>>,
    /// The last event's.
    time: u64,
}

impl Evening {
    fn start(event: &Event, bytes: Vec<u8>, folder: Option<&Path>) -> Result<Evening, String> {
        let table = Table::read(&bytes).map_err(|fault| fault.to_string())?;
        let recorder = match folder {
            Some(folder) => Some(recorder(folder, &bytes, event.time)?),
            None => None,
        };
        let mut log = Log {
            text: HEAD.to_string(),
            parameters: table.parameters(),
            commands: table.commands(),
            clients: Default::default(),
            last: Default::default(),
        };
        log.say(&clock(event.time), &event.who, &event.what);
        let node = Node::start(bytes, event.time).map_err(|refusal| refusal.to_string())?;
        Ok(Evening {
            node,
            log,
            recorder,
            time: event.time,
        })
    }

    /// Plays a line of the script, or says what was expected in its place.
    fn line(&mut self, line: &str) -> Result<(), String> {
        match entry(line)? {
            Entry::Caption(text) => self.log.caption(&text),
            Entry::Event(event) => self.play(&event)?,
        }
        Ok(())
    }

    fn play(&mut self, event: &Event) -> Result<(), String> {
        let Event {
            time, who, what, ..
        } = event;
        let clock = clock(*time);
        self.time = *time;
        match &event.act {
            Act::Start => return Err("the node has started before; it starts once".to_string()),
            Act::Connect => {
                let client = self.free_number(who)?;
                let what = format!("{what}, as client {client}");
                self.log.say(&clock, who, &what);
                self.record(|recorder| recorder.open(client as u64, *time))?;
                self.connect(*time, client, who);
            }
            Act::Leave => {
                let client = self.number(who)?;
                self.log.say(&clock, who, what);
                self.record(|recorder| recorder.close(client as u64, *time))?;
                self.leave(*time, client);
            }
            Act::Send(bytes) => {
                let client = self.number(who)?;
                self.log.say(&clock, who, what);
                self.record(|recorder| recorder.feed(client as u64, *time, bytes))?;
                self.send(*time, client, bytes);
            }
            Act::Read(..) | Act::Fail(..) => self.driven(event)?,
        }
        Ok(())
    }

    /// Takes a driver's report.
    fn driven(&mut self, event: &Event) -> Result<(), String> {
        let Event {
            time, who, what, ..
        } = event;
        let clock = clock(*time);
        match &event.act {
            Act::Read(parameter, value) => {
                let (number, value) = (self.parameter(parameter)?, value.as_bytes());
                self.log.say(&clock, who, what);
                self.record(|recorder| recorder.reading(number, *time, value))?;
                told_by_driver(&mut self.log, self.node.reading(number, *time, value));
            }
            Act::Fail(parameter, class) => {
                let (number, error) = (self.parameter(parameter)?, error_named(class)?);
                self.log.say(&clock, who, what);
                self.record(|recorder| recorder.unreadable(number, *time, error))?;
                told_by_driver(&mut self.log, self.node.unreadable(number, *time, error));
            }
            _ => {}
        }
        Ok(())
    }

    /// Records an event, if anything is recorded.
    fn record(
        &mut self,
        event: impl FnOnce(&mut Recorder<File>) -> io::Result<()>,
    ) -> Result<(), String> {
        let result = self.recorder.as_mut().map_or(Ok(()), event);
        result.map_err(|error| format!("the trace: {error}"))
    }

    /// The number of a client that is connected.
    fn number(&self, who: &str) -> Result<usize, String> {
        let clients = &self.log.clients;
        let found = clients.iter().position(|one| one.as_deref() == Some(who));
        found.ok_or_else(|| format!("{who} isn't connected; expected before: {who} connects"))
    }

    fn parameter(&self, name: &str) -> Result<u64, String> {
        let names = &self.log.parameters;
        let mut numbered = (0..).zip(names);
        let found = numbered.find(|(_, one)| *one == name);
        let found = found.map(|(number, _)| number);
        let known = || names.join(", ");
        found.ok_or_else(|| {
            format!(
                "the table has no parameter {name}; expected one of {}",
                known()
            )
        })
    }

    /// The lowest number that no client has.
    fn free_number(&self, who: &str) -> Result<usize, String> {
        if self.number(who).is_ok() {
            return Err(format!(
                "{who} is connected already; expected before: {who} leaves"
            ));
        }
        let found = self.log.clients.iter().position(Option::is_none);
        found.ok_or_else(|| "eight clients are connected; expected before: one leaves".to_string())
    }

    fn connect(&mut self, time: u64, client: usize, who: &str) {
        match self.node.open(client as u64, time) {
            Ok(()) => {
                self.log.clients[client] = Some(who.to_string());
                self.log.last[client] = Some(who.to_string());
            }
            Err(refusal) => self.log.refusal(refusal),
        }
    }

    fn leave(&mut self, time: u64, client: usize) {
        match self.node.close(client as u64, time) {
            Ok(()) => self.log.clients[client] = None,
            Err(refusal) => self.log.refusal(refusal),
        }
    }

    fn send(&mut self, time: u64, client: usize, bytes: &[u8]) {
        let Evening { node, log, .. } = self;
        let result = node.feed(client as u64, time, bytes, |record| log.record(record));
        if let Err(refusal) = result {
            log.refusal(refusal);
        }
    }

    /// The values that are shown at the end, and what was counted.
    fn end(&mut self) -> Result<(), Refusal> {
        self.log.caption("What the node shows at the end:");
        for number in 0..self.log.parameters.len() {
            let value = self.node.value(number as u64)?;
            let text = |bytes| String::from_utf8_lossy(bytes).to_string();
            let shown = match value.held {
                Held::Set(bytes) => text(bytes),
                Held::Initial(bytes) => text(bytes) + "  (initial)",
                Held::Error(error) => format!("can't be read: {error}"),
            };
            let what = format!("{:18}  {shown}", self.log.parameters[number]);
            self.log.say(&clock(value.time), "node", &what);
        }
        self.log
            .caption("Who talked how much, since the last connection:");
        for client in 0..CLIENTS {
            let counts = self.node.counts(client).unwrap_or_default();
            if let Some(who) = self.log.last[client].clone() {
                let (lines, errors, updates) = (counts.lines, counts.errors, counts.updates);
                let what = format!("lines {lines}, errors {errors}, updates {updates}");
                self.log.say("", &who, &what);
            }
        }
        Ok(())
    }
}

/// Leaves the table in the folder, begins a trace there, and says how both are
/// replayed.
fn recorder(folder: &Path, table: &[u8], time: u64) -> Result<Recorder<File>, String> {
    let at = |path: &Path, error: io::Error| format!("{}: {error}", path.display());
    let (table_file, trace) = (folder.join("table"), folder.join("trace"));
    if let Some(there) = [&trace, &table_file].into_iter().find(|path| path.exists()) {
        let there = there.display();
        return Err(format!(
            "{there} is there already and stays; --record takes a new folder"
        ));
    }
    fs::create_dir_all(folder).map_err(|error| at(folder, error))?;
    let recorder = Recorder::create(&trace).map_err(|error| at(&trace, error))?;
    fs::write(&table_file, table).map_err(|error| at(&table_file, error))?;
    let (table, trace) = (table_file.display(), trace.display());
    let night = env::var(NIGHT).unwrap_or("./night".to_string());
    say(&format!(
        "Recorded: {night} {table} {time} {trace} replays it."
    ));
    Ok(recorder)
}

/// What a driver's report did.
fn told_by_driver(log: &mut Log, result: Result<Records, Refusal>) {
    match result {
        Ok(records) => records.for_each(|record| log.record(record)),
        Err(refusal) => log.refusal(refusal),
    }
}

fn error_named(name: &str) -> Result<SensorError, String> {
    let mut all = SensorError::ALL.into_iter();
    let found = all.find(|error| error.to_string() == name);
    let known = SensorError::ALL.map(|error| error.to_string()).join(", ");
    found.ok_or_else(|| format!("there is no error {name}; expected one of {known}"))
}

/// What is printed of a script, and where it couldn't be played on.
struct Played {
    text: String,
    stopped: Result<(), String>,
}

/// Plays a script, recorded in the folder if there is one.
fn played(path: &str, script: &str, table: Vec<u8>, folder: Option<&Path>) -> Played {
    let quoted = |number: usize, line: &str, expected: &str| {
        format!("{path}, line {number}: {line}\n  {expected}")
    };
    let lines = (1..).zip(script.lines());
    let mut lines = lines.filter(|(_, line)| !line.trim().is_empty() && !line.starts_with('#'));
    let (number, line) = lines.next().unwrap_or((1, ""));
    let event = first(line).map_err(|expected| quoted(number, line, &expected));
    let started = event.and_then(|event| Evening::start(&event, table, folder));
    let mut evening = match started {
        Ok(evening) => evening,
        Err(error) => {
            return Played {
                text: String::new(),
                stopped: Err(error),
            }
        }
    };
    let played = lines.try_for_each(|(number, line)| {
        let before = evening.time;
        let played = evening.line(line);
        if evening.time < before {
            let back = "a note: this is before the line above; after 23:59:59 comes 24:00:00";
            say(&quoted(number, line, back));
        }
        played.map_err(|expected| quoted(number, line, &expected))
    });
    let stopped = played.and_then(|()| evening.end().map_err(|refusal| refusal.to_string()));
    Played {
        text: evening.log.text,
        stopped,
    }
}

/// A script's first event.
fn first(line: &str) -> Result<Event, String> {
    match entry(line) {
        Ok(Entry::Event(event)) if matches!(event.act, Act::Start) => Ok(event),
        _ => Err("a script begins with, for example: 20:00:00  node  starts".to_string()),
    }
}

/// The bytes of a table that is given as a text or as bytes.
fn bytes(path: &str) -> Result<Vec<u8>, String> {
    let content = fs::read(path).map_err(|error| format!("{path}: {error}"))?;
    let told = |fault: &dyn std::fmt::Display| format!("{path}: {fault}");
    if content.starts_with(b"ND") {
        let read = Table::read(&content).map_err(|fault| told(&fault));
        return read.map(|_| content);
    }
    table::build(&content).map_err(|faults| {
        let faults: Vec<String> = faults.iter().map(|fault| told(fault)).collect();
        faults.join("\n")
    })
}

struct Arguments {
    table: String,
    folder: Option<PathBuf>,
    script: String,
}

/// What is asked for, or what is said where that can't be understood.
fn arguments(mut given: &[&str]) -> Result<Arguments, String> {
    let mut arguments = Arguments {
        table: TABLE.to_string(),
        folder: None,
        script: SCRIPT.to_string(),
    };
    loop {
        given = match *given {
            [] => return Ok(arguments),
            ["--table", path, ref rest @ ..] => {
                arguments.table = path.to_string();
                rest
            }
            ["--record", folder, ref rest @ ..] => {
                arguments.folder = Some(PathBuf::from(folder));
                rest
            }
            [script] if !script.starts_with('-') => {
                arguments.script = script.to_string();
                &[]
            }
            [script, option, ..] if !script.starts_with('-') && option.starts_with('-') => {
                return Err(format!("options come first, before {script}"));
            }
            _ => return Err(HELP.to_string()),
        };
    }
}

/// Whether all was played, where it could be printed.
fn run(arguments: &Arguments) -> Result<bool, String> {
    let Arguments {
        table,
        folder,
        script,
    } = arguments;
    let read = fs::read_to_string(script).map_err(|error| format!("{script}: {error}"));
    let played = bytes(table).and_then(|table| {
        let content = read?;
        let content = content.trim_start_matches('\u{feff}');
        Ok(played(script, content, table, folder.as_deref()))
    });
    let (text, stopped) = match played {
        Ok(Played { text, stopped }) => (text, stopped),
        Err(error) => (String::new(), Err(error)),
    };
    print(&text)?;
    if let Err(error) = &stopped {
        say(error);
    }
    Ok(stopped.is_ok())
}

/// A reader that has seen enough and closes the pipe is no failure.
fn print(text: &str) -> Result<(), String> {
    let mut out = io::stdout();
    let printed = out.write_all(text.as_bytes()).and_then(|()| out.flush());
    match printed {
        Err(error) if error.kind() != io::ErrorKind::BrokenPipe => {
            Err(format!("standard output: {error}"))
        }
        _ => Ok(()),
    }
}

/// A line on standard error. Where that can't be written to, the exit status is
/// what is left to tell.
fn say(line: &str) {
    let _ = writeln!(io::stderr(), "{line}");
}

fn main() {
    let given: Vec<String> = env::args().skip(1).collect();
    let given: Vec<&str> = given.iter().map(String::as_str).collect();
    let done = match given[..] {
        ["--help" | "-h"] => print(HELP).map(|()| true),
        _ => arguments(&given).and_then(|arguments| run(&arguments)),
    };
    match done {
        Ok(true) => {}
        Ok(false) => process::exit(1),
        Err(error) => {
            say(error.trim_end());
            process::exit(UNUSABLE);
        }
    }
}
