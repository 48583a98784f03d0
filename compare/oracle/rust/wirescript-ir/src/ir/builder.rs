//! Stands for ir/builder.rs, which docs/src does not hold: the names that ir/mod.rs re-exports.
//! The fold uses none.

pub struct BuildError;
pub struct ModuleRef;
pub struct ProgramBuilder;
