//! Makes the bytes of a table from a text, tells them as that text, and says
//! what is at fault in them. `docs/TABLE.md` describes the text.

use jihfasul::table::{self, Checked, Table};
use std::fs;
use std::io::{self, Write};
use std::os::unix::fs::MetadataExt;
use std::process::ExitCode;

const HELP: &str = "\
Tables of a node, from a text and as a text.

usage: jihfasul-table build TEXT TABLE    makes the table's bytes from the file
                                          TEXT and writes them to the file TABLE
       jihfasul-table explain TABLE       prints the bytes in the file TABLE as
                                          such a text
       jihfasul-table check TABLE         prints which number the library gives for
                                          these bytes, and which record is at fault
       jihfasul-table --help              this text

build tells each fault by line, column and rule, and then writes nothing; TEXT
and TABLE are two files. Of a table that is refused, explain tells that too. The
exit status is 0 if the library accepts the table, 1 if not, and 2 if a file can't
be read or written.
docs/TABLE.md describes the text, with an example.
";

/// The files and arguments are not what they have to be.
const UNUSABLE: u8 = 2;

fn main() -> ExitCode {
    let arguments: Vec<String> = std::env::args().skip(1).collect();
    let arguments: Vec<&str> = arguments.iter().map(String::as_str).collect();
    let result = match arguments[..] {
        ["build", text, table] => build(text, table),
        ["explain", table] => explain(table),
        ["check", table] => check(table),
        ["--help" | "-h" | "help"] => print(HELP).map(|()| true),
        _ => Err(HELP.to_string()),
    };
    match result {
        Ok(true) => ExitCode::SUCCESS,
        Ok(false) => ExitCode::FAILURE,
        Err(text) => {
            say(text.trim_end());
            ExitCode::from(UNUSABLE)
        }
    }
}

/// Whether a table was made and written.
fn build(text: &str, path: &str) -> Result<bool, String> {
    let content = content(text)?;
    if is_one_file(text, path) {
        return Err(format!(
            "{text} and {path} are one file, and the text would be lost"
        ));
    }
    match table::build(&content) {
        Ok(bytes) => {
            fs::write(path, &bytes).map_err(|error| format!("{path}: {error}"))?;
            let said = print(&format!("{path}: {}\n", size(&bytes)));
            said.map_err(|error| format!("{error}; {path} is written"))?;
            Ok(true)
        }
        Err(faults) => {
            let is_bytes = content.starts_with(b"ND");
            if is_bytes {
                say(&format!(
                    "{text} seems to be bytes already; explain prints them as a text."
                ));
            }
            if !is_bytes || is_text(&content) {
                faults
                    .iter()
                    .for_each(|fault| say(&format!("{text}: {fault}")));
            }
            say(&format!("{path} is not written."));
            Ok(false)
        }
    }
}

/// Whether two paths lead to the same file, by whatever links.
fn is_one_file(one: &str, other: &str) -> bool {
    match (fs::metadata(one), fs::metadata(other)) {
        (Ok(one), Ok(other)) => {
            one.is_file() && (one.dev(), one.ino()) == (other.dev(), other.ino())
        }
        _ => false,
    }
}

/// Whether the table that is told is accepted.
fn explain(path: &str) -> Result<bool, String> {
    let bytes = content(path)?;
    let checked = table::check(&bytes);
    if checked.number != 0 {
        say(told(path, &checked).trim_end());
    }
    match table::explain(&bytes) {
        Ok(text) => print(&text)?,
        Err(_) if is_text(&bytes) => say_text(path),
        Err(_) => say(&format!("{path} can't be told as a text.")),
    }
    Ok(checked.number == 0)
}

/// Whether the table is accepted.
fn check(path: &str) -> Result<bool, String> {
    let bytes = content(path)?;
    let checked = table::check(&bytes);
    match checked.number {
        0 => print(&format!("{path}: number 0, accepted: {}\n", size(&bytes)))?,
        _ => print(&told(path, &checked))?,
    }
    if checked.number == 1 && is_text(&bytes) {
        say_text(path);
    }
    Ok(checked.number == 0)
}

fn say_text(path: &str) {
    say(&format!(
        "{path} seems to be a text; build makes the bytes from it."
    ));
}

/// Bytes have lengths among them, which no text has.
fn is_text(bytes: &[u8]) -> bool {
    let is_plain = |byte: &u8| *byte >= 32 || b"\t\r\n".contains(byte);
    !bytes.is_empty() && bytes.iter().all(is_plain)
}

/// The number, and each fault on a line.
fn told(path: &str, checked: &Checked) -> String {
    let number = checked.number;
    let meaning = match number {
        1 => "table over 16,384 bytes, or its layout can't be read",
        2 => "modules not 1 to 16, or more than 64 accessibles in all",
        3 => "a bad or repeated name, or a bad text",
        4 => "a datainfo that breaks its own rules",
        5 => "an initial value that is not in stored form, over 256 bytes, or doesn't fit",
        _ => "structure report over 32,000 bytes",
    };
    let mut text = format!("{path}: number {number}, {meaning}\n");
    for fault in &checked.faults {
        text += &match fault.number == number {
            true => format!("{fault}\n"),
            false => format!("{fault} (number {})\n", fault.number),
        };
    }
    text
}

/// What an accepted table has.
fn size(bytes: &[u8]) -> String {
    let count = |count: usize, what: &str| match count {
        1 => format!("1 {what}"),
        _ => format!("{count} {what}s"),
    };
    let mut parts = vec![count(bytes.len(), "byte")];
    if let Ok(table) = Table::read(bytes) {
        parts.push(count(table.modules.len(), "module"));
        parts.push(count(table.parameters().len(), "parameter"));
        parts.push(count(table.commands().len(), "command"));
    }
    parts.join(", ")
}

fn content(path: &str) -> Result<Vec<u8>, String> {
    fs::read(path).map_err(|error| format!("{path}: {error}"))
}

/// A reader that has seen enough and closes the pipe is no failure.
fn print(text: &str) -> Result<(), String> {
    match io::stdout().write_all(text.as_bytes()) {
        Err(error) if error.kind() != io::ErrorKind::BrokenPipe => {
            Err(format!("standard output: {error}"))
        }
        _ => Ok(()),
    }
}

/// A line on standard error. Where that can't be written to, the exit status is
/// what is left to tell.
fn say(line: &str) {
    let _ = writeln!(io::stderr(), "{line}");
}
