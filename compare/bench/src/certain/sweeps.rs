//! Small graphs of nodes that feed nothing, each with what keeps such a node or lets it go.
use crate::records::{Graph, LAST_CLASS, class, flag, limit, port, variant};

pub fn all() -> Vec<Vec<u8>> {
    let graphs = [
        by_class(),
        by_flags(),
        by_wires(),
        by_plan(),
        chains(),
        by_count(),
    ];
    let graphs = graphs.concat();
    graphs.iter().map(Graph::bytes).collect()
}

/// Nodes of these classes, with wires from Output to InputA.
fn graph(classes: &[u8], wires: &[(u16, u16)]) -> Graph {
    let mut graph = Graph::default();
    for &class in classes {
        graph.node(class);
    }
    for &(source, target) in wires {
        graph.wire((source, port::OUTPUT), (target, port::INPUT_A));
    }
    graph
}

/// A gate into a node of each class that feeds nothing.
fn by_class() -> Vec<Graph> {
    let classes = class::OTHER..=LAST_CLASS;
    let fed = classes.map(|class| graph(&[class::MATH_ADD, class], &[(0, 1)]));
    fed.collect()
}

/// A gate, one with each of the flags and a gate, in a row; and each of the flags on a Literal and on a gate that is known.
fn by_flags() -> Vec<Graph> {
    let mut graphs = Vec::new();
    for flags in 0..=flag::LISTED {
        let mut row = graph(&[class::MATH_ADD; 3], &[(0, 1), (1, 2)]);
        row.nodes[1].1 = flags;
        let mut literal = graph(&[class::LITERAL], &[]);
        literal.nodes[0].1 = flags;
        literal.int(0, port::VALUE, 5);
        let mut known = graph(&[class::LOGICAL_NOT], &[]);
        known.nodes[0].1 = flags;
        known.row(class::LOGICAL_NOT, [variant::UNWIRED; 3]);
        graphs.extend([row, literal, known]);
    }
    graphs
}

/// Loops of one to three gates, with a gate before and behind them; gates with wires to one node twice, and to two nodes.
fn by_wires() -> Vec<Graph> {
    let gates = [class::MATH_ADD; 5];
    let mut graphs = vec![
        graph(&gates[..1], &[(0, 0)]),
        graph(&gates[..2], &[(0, 0), (0, 1)]),
        graph(&gates[..2], &[(0, 1), (0, 1)]),
        graph(&gates[..3], &[(0, 1), (0, 2), (2, 2)]),
        graph(&gates[..4], &[(0, 1), (1, 0), (2, 0), (1, 3)]),
        graph(&gates, &[(3, 0), (0, 1), (1, 2), (2, 0), (2, 4)]),
    ];
    let (gate, other) = (class::MATH_ADD, class::OTHER);
    graphs.push(graph(&[gate, gate, other], &[(0, 1), (0, 1), (0, 2)]));
    graphs.push(graph(&[gate, gate, other], &[(0, 1), (1, 2), (0, 1)]));
    for port in 0..10 {
        let mut read = graph(&[gate, other, gate], &[]);
        read.wire((0, port), (1, port));
        read.wire((2, port), (0, port));
        graphs.push(read);
    }
    graphs
}

/// A Literal into a Select or a Branch, planned and not, which feeds another node or none.
fn by_plan() -> Vec<Graph> {
    let mut graphs = Vec::new();
    let routers = [
        (class::SELECT, port::INPUT_A, port::OUTPUT),
        (class::BRANCH, port::EXEC, port::EXEC_OUT_B),
    ];
    for (class, entry, exit) in routers {
        for choice in 0..8 {
            let last = [class::OTHER, class::MATH_ADD][choice % 2];
            let mut graph = graph(&[class::LITERAL, class, last], &[]);
            graph.wire((0, port::OUTPUT), (1, entry));
            if choice & 2 != 0 {
                graph.wire((1, exit), (2, port::INPUT_B));
            }
            if choice & 4 != 0 {
                graph.row(class, [variant::UNWIRED; 3]);
            }
            graphs.push(graph);
        }
    }
    graphs
}

/// Chains of gates to a dead end, forwards and backwards, never known and known.
fn chains() -> Vec<Graph> {
    let mut graphs = Vec::new();
    for nodes in [2, 5, 40] {
        for known in [false, true] {
            let forwards: Vec<(u16, u16)> = (1..nodes).map(|node| (node - 1, node)).collect();
            let backwards: Vec<(u16, u16)> = (1..nodes).map(|node| (node, node - 1)).collect();
            for wires in [forwards, backwards] {
                let mut chain = graph(&vec![class::LOGICAL_NOT; usize::from(nodes)], &wires);
                if known {
                    chain.row(class::LOGICAL_NOT, [variant::UNWIRED; 3]);
                    chain.row(class::LOGICAL_NOT, [variant::BOOL, 0, 0]);
                }
                graphs.push(chain);
            }
        }
    }
    graphs
}

/// 4,096 and 4,097 wires out of a Branch into a gate, which go with it.
fn by_count() -> Vec<Graph> {
    let count = |more: usize| {
        let mut graph = graph(&[class::OTHER, class::BRANCH, class::MATH_ADD], &[]);
        graph.row(class::BRANCH, [variant::UNWIRED; 3]);
        for _ in 0..64 {
            graph.wire((0, port::OUTPUT), (1, port::EXEC));
            graph.wire((1, port::EXEC_OUT_B), (2, port::INPUT_A));
        }
        for _ in 64 * 64..limit::ANSWER_WIRES + more {
            graph.wire((0, port::OUTPUT), (2, port::INPUT_B));
        }
        graph
    };
    vec![count(0), count(1)]
}
