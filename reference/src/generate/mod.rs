//! Generators of tables, values and histories. Everything they make follows
//! from a seed; neither clock nor outside randomness plays a part.

pub mod borders;
pub mod calls;
pub mod datainfos;
pub mod directed;
pub mod encode;
pub mod free;
pub mod histories;
pub mod indexes;
mod lending;
pub mod lines;
pub mod names;
pub mod nights;
mod parts;
pub mod quieter;
pub mod racks;
mod ramps;
mod script;
pub mod searches;
pub mod second;
pub mod small;
pub mod tables;
pub mod turns;
pub mod values;
pub mod vectors;
