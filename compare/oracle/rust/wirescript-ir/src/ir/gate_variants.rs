//! Stands for ir/gate_variants.rs, which docs/src does not hold: ir/mod.rs declares it, and the fold uses
//! nothing of it.
