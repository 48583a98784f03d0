//! Stands for the crate root of wirescript-ir, which docs/src does not hold: the modules that
//! docs/src and its stand-ins make up. Lints for unused items are off, since most of the crate's
//! users are not here.
#![allow(dead_code, unused_imports)]

pub mod catalog;
pub mod collections;
pub mod diagnostic;
pub mod intern;
pub mod ir;
pub mod semantics;
