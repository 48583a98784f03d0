//! Stands for the crate root of wirescript, which docs/src does not hold: the modules that the
//! fold is made of and uses. Lints for unused items are off, since most of the cleanup is not
//! called.
#![allow(dead_code, unused_imports)]

pub mod catalog;
pub mod lower;
pub use wirescript_ir::{collections, intern, ir};
