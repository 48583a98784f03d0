//! Harness, no part of the Rust: fills a `CertifiedTable` from a graph's rows and annihilators and
//! puts it where `certified` finds it; and lets the program call `eval_in`. A child module of
//! table.rs reaches the private items of table.rs and semantics.rs, so it needs no edit of semantics.rs.
use super::super::{Mode, Value, eval_in};
use super::{AnnihilatorKind, CertifiedTable, GateEntry, InVariant};
use crate::collections::{HashMap, HashSet};
use std::cell::Cell;
use std::ptr;

thread_local! {
    /// The table of the graph at hand, null between graphs.
    static CURRENT: Cell<*const CertifiedTable> = const { Cell::new(ptr::null()) };
}

/// What `CertifiedTable::certified` gives.
pub(super) fn current() -> &'static CertifiedTable {
    let table = CURRENT.get();
    assert!(
        !table.is_null(),
        "the Rust asks for the table inside `as_certified` only"
    );
    // SAFETY: `as_certified` borrows the table until its `f` is done and sets null then. The
    // callers run inside `f`: `fold_certified_constants` and `eval`, which keep no reference.
    unsafe { &*table }
}

impl CertifiedTable {
    /// A table with no gate.
    pub fn empty() -> Self {
        Self {
            gates: HashMap::default(),
        }
    }

    pub fn add_row(&mut self, gate_class: &str, signature: Vec<InVariant>) {
        self.entry(gate_class).signatures.insert(signature);
    }

    pub fn add_annihilator(&mut self, gate_class: &str, kind: AnnihilatorKind) {
        self.entry(gate_class).annihilator = Some(kind);
    }

    fn entry(&mut self, gate_class: &str) -> &mut GateEntry {
        self.gates
            .entry(gate_class.to_string())
            .or_insert_with(|| GateEntry {
                signatures: HashSet::default(),
                annihilator: None,
            })
    }

    /// Calls `f` with this table as the one that `certified` gives.
    pub fn as_certified<R>(&self, f: impl FnOnce() -> R) -> R {
        CURRENT.set(self);
        let result = f();
        CURRENT.set(ptr::null());
        result
    }

    /// `eval_in` with `Mode::Fold`, which asks no table. It stands here because a public type is
    /// the way out of the private module `table`.
    pub fn eval_in_fold(gate_class: &str, inputs: &[Option<Value>]) -> Option<Value> {
        eval_in(gate_class, inputs, Mode::Fold)
    }
}
