//! The plain node of document 01, with the requests of document 02 that
//! `README.md` names, as an ordinary Rust program.
//!
//! It is written from the documents alone and shares nothing with the proved
//! core, so that the two can be compared. Trees, `Vec` and plain recursion
//! are used wherever they make a rule easy to see; speed is no aim.
//!
//! * [`table`] reads and judges the table, [`report`] writes its structure
//!   report;
//! * [`mod@index`] fills an index beside the table and searches with it;
//! * [`json`], [`decimal`], [`base64`], [`datainfo`] and [`value`] judge values;
//! * [`list`] is a list of readings;
//! * [`mod@line`] parts a request, [`error`] names the error classes, [`outbox`]
//!   holds the records that are sent;
//! * [`node`] is the plain node itself;
//! * [`history`] runs a list of calls, [`text`] reads and prints it,
//!   [`definitions`] prints it for the proofs;
//! * [`kept`] is a state that somebody else keeps, to its last byte, [`operation`]
//!   runs calls and changes of it, for a program that reads them from its standard
//!   input;
//! * [`replay`] runs the events of a trace, [`figures`] tells them in numbers;
//! * [`random`] and [`generate`] make tables, values and histories.

pub mod base64;
pub mod datainfo;
pub mod decimal;
pub mod definitions;
pub mod error;
pub mod figures;
pub mod generate;
pub mod history;
pub mod index;
pub mod json;
pub mod kept;
pub mod line;
pub mod list;
pub mod name;
pub mod node;
pub mod operation;
pub mod outbox;
pub mod random;
pub mod refusal;
pub mod replay;
pub mod report;
pub mod table;
pub mod text;
pub mod value;
