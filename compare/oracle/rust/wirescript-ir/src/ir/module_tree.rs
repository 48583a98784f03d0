//! Stands for ir/module_tree.rs, which docs/src does not hold: ir/mod.rs declares it, and the fold uses
//! nothing of it.
