//! The original Rust, with the exact oracle's edit, on a graph: its data are made before, its fold is run, its answer is
//! written after as records.
use crate::graph::{self, Graph};
use wirescript::lower::fold::harness::{self, Folded, Rewriting};

/// A graph as the original's data, for one fold.
pub struct Prepared(Graph);

/// Of an input that questions 1 to 8 and 12 accept.
pub fn prepare(input: &[u8]) -> Prepared {
    Prepared(graph::read(input))
}

/// The original's fold, through `apply`.
#[inline(never)]
pub fn fold(prepared: &mut Prepared) -> Folded {
    let Graph { table, module, .. } = &mut prepared.0;
    table.as_certified(|| harness::fold(module))
}

/// The answer and the pops, where the fold ended on the whole list of wires.
pub fn answer(prepared: &Prepared, folded: &Folded) -> Option<(Vec<u8>, usize)> {
    let Rewriting::Whole = folded.rewriting else {
        return None;
    };
    let graph = &prepared.0;
    let mut answer = graph::known_and_fates(&graph.classes, &folded.known, &graph.module);
    graph::put_wires(&graph.module.wires, &mut answer);
    Some((answer, folded.pops))
}
