//! Stands for lower/fold/eval.rs, which docs/src does not hold: the names that lower/fold/mod.rs
//! uses of it. Its head says that the laws and the table live in `wirescript_ir::semantics`, so
//! they are re-exported.

pub use wirescript_ir::semantics::{FORMAT_SLOTS, Value, eval, format_text, truthy};
