//! What the sweep has made of an answer, for the tally.
use crate::alike::{self, records};
use crate::records::{class, flag, kind};

/// Counts of one answer.
#[derive(Default)]
pub struct Sweep {
    /// Taken: Literals, gates that were made literal, and gates that were not.
    pub literals: usize,
    pub made: usize,
    pub gates: usize,
    /// Wires that go with them.
    pub wires: usize,
    /// Literals and gates that stay though no wire leaves them: such as a label names, and nofold ones.
    pub labelled: usize,
    pub nofold: usize,
    /// Eligible nodes that stay though their wires lead to such nodes alone.
    pub looped: usize,
}

/// A node of an input, with its fate before and after the sweep.
struct Node {
    class: u8,
    flags: u8,
    before: u8,
    after: u8,
    /// Whether a wire leaves it after the sweep.
    feeds: bool,
}

impl Node {
    fn is_taken(&self) -> bool {
        self.before != kind::REMOVED && self.after == kind::REMOVED
    }

    /// Whether it is a Literal or a gate that stays.
    fn is_pure(&self) -> bool {
        let pure = self.class == class::LITERAL || self.class >= class::COMPARE_EQUAL;
        pure && self.after != kind::REMOVED
    }
}

impl Sweep {
    /// Of an input, its answer, and that with the sweep.
    pub fn of(input: &[u8], folded: &[u8], swept: &[u8]) -> Sweep {
        let ends = wires(swept);
        let mut sweep = Sweep {
            wires: wires(folded).len() - ends.len(),
            ..Sweep::default()
        };
        let nodes = nodes(input, folded, swept, &ends);
        for node in &nodes {
            sweep.add(node);
        }
        sweep.looped = looped(&nodes, &ends);
        sweep
    }

    pub fn taken(&self) -> usize {
        self.literals + self.made + self.gates
    }

    fn add(&mut self, node: &Node) {
        let unused = node.is_pure() && !node.feeds;
        let count = match (node.class, node.flags) {
            (class::LITERAL, _) if node.is_taken() => &mut self.literals,
            _ if node.is_taken() && node.before != kind::KEPT => &mut self.made,
            _ if node.is_taken() => &mut self.gates,
            (_, flag::LABEL) if unused => &mut self.labelled,
            (_, flag::NOFOLD..) if unused => &mut self.nofold,
            _ => return,
        };
        *count += 1;
    }
}

fn nodes(input: &[u8], folded: &[u8], swept: &[u8], ends: &[(usize, usize)]) -> Vec<Node> {
    let parts = alike::nodes(input).zip(fates(folded)).zip(fates(swept));
    let node = |((record, before), after): ((&[u8], u8), u8)| Node {
        class: record[1],
        flags: record[2],
        before,
        after,
        feeds: false,
    };
    let mut nodes: Vec<Node> = parts.map(node).collect();
    for &(source, _) in ends {
        nodes[source].feeds = true;
    }
    nodes
}

/// The kinds of an answer's fates.
fn fates(answer: &[u8]) -> impl Iterator<Item = u8> {
    let kinds = records(answer).map(|record| record[0]);
    kinds.filter(|&kind| kind >= kind::KEPT)
}

/// Source and target of each wire of an answer.
fn wires(answer: &[u8]) -> Vec<(usize, usize)> {
    let number = |wire: &[u8], at: usize| usize::from(u16::from_le_bytes([wire[at], wire[at + 1]]));
    let wires = records(answer).filter(|record| record[0] == kind::WIRE);
    wires
        .map(|wire| (number(wire, 1), number(wire, 4)))
        .collect()
}

/// How many eligible nodes have no path along the wires to one that is not eligible.
fn looped(nodes: &[Node], ends: &[(usize, usize)]) -> usize {
    let eligible = |node: &Node| node.is_pure() && node.flags == 0;
    let mut read: Vec<bool> = nodes.iter().map(|node| !eligible(node)).collect();
    let mut changed = true;
    while changed {
        changed = false;
        for &(source, target) in ends.iter().rev() {
            changed |= read[target] && !read[source];
            read[source] |= read[target];
        }
    }
    read.iter().filter(|read| !**read).count()
}
