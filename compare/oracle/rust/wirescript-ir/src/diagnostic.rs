//! Stands for diagnostic.rs, which docs/src does not hold: the range that nodes and scopes carry.
//! The fold never reads it.

#[derive(Clone, Debug, Default, PartialEq)]
pub struct SourceRange;
