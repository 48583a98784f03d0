//! Stands for ir/program.rs, which docs/src does not hold: the names that ir/mod.rs re-exports.
//! The fold uses none; intern.rs makes symbols of the first two, whose texts are chosen here and
//! differ from every other name.

pub const HANDLE_TARGET: &str = "_handle_target";
pub const HANDLE_TARGETS: &str = "_handle_targets";
pub const MICROCHIP_BRICK: &str = "";
pub struct LayoutMode;
pub struct Program;
pub struct ProgramSettings;
pub struct SourceComment;
pub struct SourceMap;
