//! Stands for lower/mod.rs, which docs/src does not hold: it declares the fold.

pub mod fold;
