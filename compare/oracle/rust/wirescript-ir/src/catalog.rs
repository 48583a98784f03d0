//! Stands for the catalog, which docs/src does not hold: the one name that ir/mod.rs asks for, to
//! print a type. The fold prints no type.

pub fn component_name(class: &str) -> &str {
    class
}
