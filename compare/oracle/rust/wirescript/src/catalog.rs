//! Stands for the catalog, which docs/src does not hold: the types that `self_firing` of
//! lower/fold/mod.rs needs to compile. Only the sweep of exec chains calls it, which
//! is left out.
pub mod calls {
    use crate::collections::HashMap;
    use crate::ir::Type;
    use std::sync::LazyLock;

    pub struct Param {
        pub ty: Type,
        pub optional: bool,
    }

    pub struct Spec {
        pub gate_class: &'static str,
        pub params: Vec<Param>,
        pub outputs: Vec<Param>,
    }

    pub fn calls() -> &'static HashMap<&'static str, Spec> {
        static CALLS: LazyLock<HashMap<&'static str, Spec>> = LazyLock::new(HashMap::default);
        &CALLS
    }
}
