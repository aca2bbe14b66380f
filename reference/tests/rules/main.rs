//! The rules of `docs/RULES.md`, one by one: a test names those that it tries. What is expected is taken from the
//! documents or worked out by hand from them.

mod build;
mod calls;
mod counts;
mod directed;
mod examples;
mod figures;
mod generated;
mod indexes;
mod kept;
mod lines;
mod lists;
mod page;
mod partial;
mod program;
mod quieter;
mod replay;
mod reports;
mod tables;
mod values;
mod vectors;
mod watch;
