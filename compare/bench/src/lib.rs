//! Folders of document 01's graphs side by side: the proved one, a plain Rust one and the original.
//!
//! - Graphs: `tables` and `records` write them, `shapes` and `certain` make certain ones, `random` and
//!   `families` make them at random from `rng`, `operands` and `texts`, and `damage` spoils them.
//! - Folders: `folders` and `original` run them, and `oracle` asks the original as programs.
//! - Comparison: `alike` says which answers count as the same, `held` holds a folder to the oracles,
//!   `shrink` makes an input that differs small, `tally`, `sweeps` and `progress` tell.
//! - Measuring: `timing` and `stack`, with `table` to print.

pub mod alike;
pub mod certain;
pub mod damage;
pub mod families;
pub mod folders;
pub mod held;
pub mod operands;
pub mod oracle;
pub mod original;
pub mod progress;
pub mod random;
pub mod records;
pub mod rng;
pub mod shapes;
pub mod shrink;
pub mod stack;
pub mod sweeps;
pub mod table;
pub mod tables;
pub mod tally;
pub mod texts;
pub mod timing;

// The oracle's own reading of graphs into the original's data, and its writing of answers.
#[allow(dead_code)]
#[path = "../../oracle/rust/oracle/src/graph.rs"]
mod graph;
#[allow(dead_code)]
#[path = "../../oracle/rust/oracle/src/listing.rs"]
mod listing;
#[allow(dead_code)]
#[path = "../../oracle/rust/oracle/src/values.rs"]
mod values;
