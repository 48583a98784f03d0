//! A plain Rust folder of document 01's graphs, written for speed: fixed arrays, no allocation, no
//! unsafe code. It is what the proved folder's time is compared with.
//!
//! - `decode`: questions 1 to 8 and 12, and the index of the wires and properties in the same pass.
//! - `worklist`: trials in the order of the queue; `gates` has the gates' rules.
//! - `rewrite`: the rewritten wires, in linear time for every graph.
//! - `sweep`: which nodes feed nothing, in linear time too.
//! - `answer`: the answer's bytes.
#![forbid(unsafe_code)]

mod answer;
mod decode;
mod gates;
mod index;
mod listing;
mod rewrite;
mod sweep;
mod value;
mod worklist;

use answer::Found;
use decode::Graph;
use index::Index;
use rewrite::MAX_UNSWEPT;
use value::Known;
use worklist::Plans;

/// The number of a refusal, and its place.
pub type Refusal = (u8, usize);

/// Folds a graph into `out`: the length of the answer and the pops. A refusal leaves `out` as it is.
pub fn fold(input: &[u8], out: &mut [u8]) -> Result<(usize, usize), Refusal> {
    propagate(input, |graph, known, plans, pops| {
        let found = Found {
            graph,
            known,
            plans,
        };
        let length = found.write(out)?;
        Ok((length, pops))
    })
}

/// `fold`, and then a sweep takes the nodes that feed nothing.
pub fn fold_swept(input: &[u8], out: &mut [u8]) -> Result<(usize, usize), Refusal> {
    propagate(input, |graph, known, plans, pops| {
        let mut buffer = [0; 7 * MAX_UNSWEPT];
        let wires = rewrite::rewritten(graph, plans, &mut buffer)?;
        let left = sweep::sweep(graph, known, plans, wires);
        let found = Found {
            graph,
            known,
            plans,
        };
        let length = found.write_swept(wires, left, out)?;
        Ok((length, pops))
    })
}

/// Decodes a graph, indexes it and runs the worklist: the pops, and how many nodes are known.
pub fn worklist(input: &[u8]) -> Result<(usize, usize), Refusal> {
    propagate(input, |_, known, _, pops| Ok((pops, known.count)))
}

/// Decodes a graph, indexes it, runs the worklist and goes on with what that found and its pops.
#[inline(always)]
fn propagate<T>(
    input: &[u8],
    then: impl FnOnce(&Graph, &Known, &mut Plans, usize) -> Result<T, Refusal>,
) -> Result<T, Refusal> {
    let mut index = Index::empty();
    let graph = decode::decode(input, &mut index)?;
    let (mut known, mut plans) = (Known::nothing(), Plans::nothing());
    let pops = worklist::run(&graph, &index, &mut known, &mut plans);
    then(&graph, &known, &mut plans, pops)
}

/// Decodes a graph and indexes it.
pub fn decode(input: &[u8]) -> Result<(), Refusal> {
    let mut index = Index::empty();
    decode::decode(input, &mut index)?;
    std::hint::black_box(&index);
    Ok(())
}
