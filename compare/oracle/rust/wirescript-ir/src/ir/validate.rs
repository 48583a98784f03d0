//! Stands for ir/validate.rs, which docs/src does not hold: the names that ir/mod.rs re-exports.
//! The fold uses none.

pub struct PortSide;
pub struct ValidationError;
