//! Tables: what a node has, as a tree, as the bytes that a call is lent, and as
//! a text for people.
//!
//! [`Table`] is built in Rust, [`build`] makes the bytes from a text, and
//! [`explain`] the text from the bytes; [`check`] says which number the library
//! gives for some bytes and which record is at fault. `docs/TABLE.md` describes
//! the text. The library is the judge: no bytes come out of here that it
//! refuses. What this module finds by itself are places and words.
//!
//! ```no_run
//! use jihfasul::table::{Access, Datainfo, Module, Table};
//!
//! let kelvin = Datainfo::double(0, 300);
//! let stage = Module::new("t1", "cold stage")
//!     .parameter("value", "temperature in K", Access::ReadOnly, kelvin.clone(), "4.2")
//!     .parameter("target", "set point in K", Access::Write, kelvin, "4.2")
//!     .command("stop", "stay at this temperature", None);
//! let bytes = Table::new("demo", "one stage").module(stage).bytes()?;
//! # Ok::<(), jihfasul::table::Fault>(())
//! ```

mod datainfo;
mod encode;
mod exact;
mod fault;
mod json;
mod judge;
mod names;
mod parse;
mod print;
mod read;
mod report;
mod scan;
mod tree;
mod value;

pub use datainfo::{Datainfo, Decimal, Member};
pub use fault::{Fault, TextFault};
pub use judge::{check, Checked};
pub use tree::{Access, Accessible, Kind, Module, Table};

/// The bytes of the table that a text describes, or all that is wrong with it.
/// What the library would answer with the lowest number stands first.
pub fn build(text: &[u8]) -> Result<Vec<u8>, Vec<TextFault>> {
    // a mark that some editors leave before a text
    let text = text.strip_prefix(b"\xef\xbb\xbf").unwrap_or(text);
    let parsed = parse::table(text)?;
    let encoded = encode::table(&parsed.table);
    let faults = judge::faults(&encoded);
    if faults.is_empty() {
        return Ok(encoded.bytes);
    }
    let told = faults.into_iter().map(|fault| {
        let (item, after) = encoded.place(fault.at);
        TextFault::new(
            text,
            parsed.spots[item] + after,
            Some(fault.number),
            fault.rule,
        )
    });
    Err(told.collect())
}

/// A table's bytes as the text that [`build`] makes them from. A table that the
/// library refuses is told too, if it can be read and a text can hold it.
pub fn explain(bytes: &[u8]) -> Result<String, Fault> {
    let text = print::table(&read::table(bytes).table?);
    let again = parse::table(text.as_bytes()).map(|parsed| encode::table(&parsed.table).bytes);
    if again.is_ok_and(|again| again == bytes) {
        return Ok(text);
    }
    let fault = check(bytes).faults.into_iter().next();
    Err(fault.unwrap_or_else(Fault::untold))
}
