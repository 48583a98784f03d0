//! Stands for ir/plane.rs, which docs/src does not hold: the one call of gate_class.rs, in
//! `is_plane_shell`. The fold never asks it.

pub fn plane_spec_for_class(_class: &str) -> Option<()> {
    None
}
