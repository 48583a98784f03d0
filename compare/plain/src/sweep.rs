//! The last stage of `fold_swept`: which nodes are taken because they feed nothing.
//!
//! An eligible node that no wire leaves is taken, and the wires into it go with it; then no wire
//! may leave their sources any more. A node is taken once and a wire goes once, so the time is
//! linear in nodes and wires.
use crate::decode::{Graph, wire_source, wire_target};
use crate::listing::*;
use crate::rewrite::MAX_UNSWEPT;
use crate::value::{self, Known};
use crate::worklist::{Plan, Plans};

/// What is counted of a node that is not eligible before its wires: it never has none.
const NOT_ELIGIBLE: u16 = 0x8000;

/// Takes nodes, which become removed ones, and says how many of the rewritten wires stay.
pub fn sweep(graph: &Graph, known: &Known, plans: &mut Plans, wires: &[[u8; 7]]) -> usize {
    let mut sweep = Sweep::new(wires);
    sweep.run(graph, plans);
    for &node in &sweep.taken[..sweep.count] {
        let node = usize::from(node);
        plans.remove(node, value::size(known.variant(node)));
    }
    sweep.left
}

/// Every table starts as zeros.
struct Sweep<'a> {
    wires: &'a [[u8; 7]],
    /// How many wires leave each node.
    leaving: [u16; MAX_NODES],
    /// The wires into each node as a list: the number of the last and 1, 0 for none; and of each
    /// wire the same of the one before it.
    last: [u16; MAX_NODES],
    before: [u16; MAX_UNSWEPT],
    /// The nodes that are taken, as they are found.
    taken: [u16; MAX_NODES],
    count: usize,
    /// How many wires stay.
    left: usize,
}

impl<'a> Sweep<'a> {
    /// Of rewritten wires.
    #[inline(always)]
    fn new(wires: &'a [[u8; 7]]) -> Self {
        Sweep {
            wires,
            leaving: [0; MAX_NODES],
            last: [0; MAX_NODES],
            before: [0; MAX_UNSWEPT],
            taken: [0; MAX_NODES],
            count: 0,
            left: wires.len(),
        }
    }

    /// Finds the nodes that are taken.
    fn run(&mut self, graph: &Graph, plans: &Plans) {
        for (node, &[_, class, flags]) in graph.nodes.iter().enumerate() {
            if !is_eligible(class, flags, plans.plan[node]) {
                self.leaving[node] = NOT_ELIGIBLE;
            }
        }
        self.count_wires();
        for node in 0..graph.nodes.len() {
            self.take_unused(node);
        }
        let mut next = 0;
        while next < self.count {
            self.drop_wires_into(usize::from(self.taken[next]));
            next += 1;
        }
    }

    fn count_wires(&mut self) {
        for (number, wire) in self.wires.iter().enumerate() {
            self.leaving[usize::from(wire_source(wire))] += 1;
            let last = &mut self.last[usize::from(wire_target(wire))];
            self.before[number] = *last;
            *last = number as u16 + 1;
        }
    }

    /// Takes an eligible node that no wire leaves.
    #[inline(always)]
    fn take_unused(&mut self, node: usize) {
        if self.leaving[node] == 0 {
            self.taken[self.count] = node as u16;
            self.count += 1;
        }
    }

    fn drop_wires_into(&mut self, node: usize) {
        let mut wire = usize::from(self.last[node]);
        while wire != 0 {
            let source = usize::from(wire_source(&self.wires[wire - 1]));
            self.leaving[source] -= 1;
            self.left -= 1;
            self.take_unused(source);
            wire = usize::from(self.before[wire - 1]);
        }
    }
}

/// Whether a node may be taken: a Literal or gate that is kept or made literal, with no flag.
#[inline(always)]
fn is_eligible(class: u8, flags: u8, plan: Plan) -> bool {
    let pure = match plan {
        Plan::Keep => matches!(class, class::LITERAL | class::EQUAL..),
        Plan::BecomeLiteral => true,
        Plan::ShortCircuit | Plan::Truncate => false,
    };
    pure && flags & (flag::NOFOLD | flag::LABEL) == 0
}
