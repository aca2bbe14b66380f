//! A safe interface to the static library of Jihfasul, the proved core of a
//! SEC node.
//!
//! [`Node`] keeps a table, its values area and state, and makes the calls;
//! [`Records`] reads what is to be sent. The functions of [`call`] leave the
//! keeping to their caller. [`Index`] makes a line's search shorter. [`Recorder`] writes down what happens to a node, for
//! a replay. `examples/host.rs` is a worked host.
//!
//! The library writes no socket and knows no driver: it is fed bytes and
//! readings, and says what is to be sent to whom.

pub mod call;
mod index;
mod node;
mod outbox;
mod recorder;
mod refusal;
mod sensor;
pub mod state;
pub mod table;
pub mod version;

pub use index::{Index, INDEX};
pub use node::{Held, Node, Rack, Taken, Value, OUTBOX, VALUES};
pub use outbox::{Mark, Record, Records};
pub use recorder::Recorder;
pub use refusal::Refusal;
pub use sensor::SensorError;
pub use state::{Counts, Done, Listed, Row, Shown, State};
