//! The graphs of the tables: large ones that fold much or nothing, and ones made to be slow; and inputs at the limits.
use crate::original;
use crate::random;
use crate::records::{Graph, LAST_CLASS, class, flag, limit, port, variant};
use crate::rng::Rng;
use crate::tables::ROW_LENGTHS;

pub const NODES: usize = limit::NODES;
const LINK: [u8; 4] = [
    port::INPUT_A,
    port::INPUT_B,
    port::RER_INPUT,
    port::THIRD_INPUT,
];

#[derive(Clone)]
pub struct Shape {
    pub name: String,
    pub input: Vec<u8>,
    /// Whether the original ends on it, with no more than the harness's 200,000 wires on the way.
    pub original_ends: bool,
}

pub fn shape(name: &str, graph: &Graph) -> Shape {
    Shape {
        name: name.to_string(),
        input: graph.bytes(),
        original_ends: true,
    }
}

/// One that outgrows the original.
fn endless(name: &str, graph: &Graph) -> Shape {
    Shape {
        original_ends: false,
        ..shape(name, graph)
    }
}

pub fn all() -> Vec<Shape> {
    let mut all = usual();
    all.extend(hard());
    all
}

/// Graphs at the limits of nodes and wires.
pub fn usual() -> Vec<Shape> {
    vec![
        shape("chain", &chain(NODES)),
        shape("fan", &fan(NODES)),
        shape("backward chain", &backward(chain(NODES))),
        shape("chain, nodes and wires shuffled", &shuffled(chain(NODES))),
        shape("sums: one wire and one property to a gate", &sums(NODES)),
        shape("most pops", &most_pops()),
        shape("no plan, 4,096 wires", &no_plan(NODES, 4_096)),
    ]
}

/// Graphs on which a plain way of rewriting, or the remainder of floats, takes long.
pub fn hard() -> Vec<Shape> {
    vec![
        endless("Branches double 500 times to nothing", &doubling(500)),
        endless("the same, numbered backwards", &backward(doubling(500))),
        shape(
            "1,000 Selects in a row feed 3,000 wires",
            &select_row(1_000),
        ),
        shape("the same, numbered backwards", &backward(select_row(1_000))),
        shape("the same, shuffled", &shuffled(select_row(1_000))),
        shape(
            "3,000 wires pass 1,000 Branches in a row",
            &branch_row(1_000, 3_000),
        ),
        shape(
            "the same, numbered backwards",
            &backward(branch_row(1_000, 3_000)),
        ),
        shape("the same, shuffled", &shuffled(branch_row(1_000, 3_000))),
        shape(
            "1,000 Branches in a row, shuffled",
            &shuffled(branch_row(1_000, 1)),
        ),
        endless("4,096 wires each pass 4,000 dead ones", &dead_wires()),
        shape(
            "chain with 1,024 rows, the right one last",
            &rows(chain(NODES), 1_024),
        ),
        shape(
            "1,024 Modulos of Vectors, largest by smallest",
            &remainders(),
        ),
        shape(
            "640 of them that give nothing, seven trials each",
            &tried_remainders(),
        ),
    ]
}

/// Graphs at the limits of nodes and wires in which nothing becomes known: in chains to a dead end a sweep takes every node,
/// one after the other, and none where a label names the last.
pub fn dead() -> Vec<Shape> {
    let mut labelled = dead_chain(NODES);
    labelled.nodes[NODES - 1].1 = flag::LABEL;
    vec![
        shape("dead chain", &dead_chain(NODES)),
        shape("dead chain, backward", &backward(dead_chain(NODES))),
        shape(
            "dead chain, nodes and wires shuffled",
            &shuffled(dead_chain(NODES)),
        ),
        shape("dead chain with a label at its end", &labelled),
    ]
}

/// Random graphs of 1,024 nodes that are accepted, the same in each run.
pub fn generated(count: usize) -> Vec<Shape> {
    let graphs = (0..).map(|seed| random::graph(&mut Rng::new(seed), NODES));
    let shapes = graphs.map(|graph| shape("random graph", &graph));
    shapes.filter(is_accepted).take(count).collect()
}

/// Whether the plain folder accepts a graph and the original ends on it.
fn is_accepted(shape: &Shape) -> bool {
    plain::fold(&shape.input, &mut vec![0; 65_536]).is_ok() && {
        let mut prepared = original::prepare(&shape.input);
        let folded = original::fold(&mut prepared);
        original::answer(&prepared, &folded).is_some()
    }
}

/// A Literal of 0 and Adds, four wires from each node to the next.
pub fn chain(nodes: usize) -> Graph {
    let mut graph = literal_and_adds(nodes);
    for target in 1..nodes as u16 {
        link(&mut graph, target - 1, target);
    }
    graph
}

/// Adds that have no row, four wires from each to the next.
pub fn dead_chain(nodes: usize) -> Graph {
    let mut graph = Graph::default();
    graph.nodes(class::MATH_ADD, nodes);
    for target in 1..nodes as u16 {
        link(&mut graph, target - 1, target);
    }
    graph
}

/// A Literal of 0 and Adds, four wires from it to each of them.
pub fn fan(nodes: usize) -> Graph {
    let mut graph = literal_and_adds(nodes);
    for target in 1..nodes as u16 {
        link(&mut graph, 0, target);
    }
    graph
}

fn literal_and_adds(nodes: usize) -> Graph {
    let mut graph = Graph::default();
    graph.node(class::LITERAL);
    graph.nodes(class::MATH_ADD, nodes - 1);
    graph.int(0, port::VALUE, 0);
    graph.row(class::MATH_ADD, [variant::INT, variant::INT, 0]);
    graph
}

fn link(graph: &mut Graph, source: u16, target: u16) {
    for port in LINK {
        graph.wire((source, port::OUTPUT), (target, port));
    }
}

/// A chain in which each Add has one wire, and a property as its other operand.
pub fn sums(nodes: usize) -> Graph {
    let mut graph = literal_and_adds(nodes);
    for target in 1..nodes as u16 {
        graph.wire((target - 1, port::OUTPUT), (target, port::INPUT_A));
        graph.int(target, port::INPUT_B, i64::from(target));
    }
    graph
}

/// A backward chain of 1,000 nodes, each of which also feeds three of 24 nodes that never fold: a
/// node that becomes known puts four into the queue.
pub fn most_pops() -> Graph {
    let mut graph = literal_and_adds(1_000);
    for target in 1..1_000 {
        graph.wire((target - 1, port::OUTPUT), (target, port::INPUT_A));
        graph.int(target, port::INPUT_B, 1);
    }
    graph.nodes(class::OTHER, 24);
    for source in 0..1_000 {
        for i in 0..3 {
            let target = 1_000 + (3 * source + i) % 24;
            graph.wire((source, port::OUTPUT), (target, port::INPUT_A));
        }
    }
    backward(graph)
}

/// Nodes that never fold, and wires between them.
pub fn no_plan(nodes: usize, wires: usize) -> Graph {
    let mut graph = Graph::default();
    graph.nodes(class::OTHER, nodes);
    for i in 0..wires {
        let (source, target) = (i % nodes, (7 * i + 1) % nodes);
        graph.wire(
            (source as u16, port::OUTPUT),
            (target as u16, port::INPUT_A),
        );
    }
    graph
}

/// A node into the first of so many Branches, each with two wires into the next, the last with none.
pub fn doubling(branches: u16) -> Graph {
    let mut graph = branches_after_a_node(branches);
    for branch in 1..branches {
        for _ in 0..2 {
            graph.wire((branch, port::EXEC_OUT_B), (branch + 1, port::EXEC));
        }
    }
    graph
}

/// Node 0, and Branches from 1 that all take ExecOutB; node 0 enters the first.
fn branches_after_a_node(branches: u16) -> Graph {
    let mut graph = Graph::default();
    graph.node(class::OTHER);
    graph.nodes(class::BRANCH, usize::from(branches));
    graph.row(class::BRANCH, [variant::UNWIRED, 0, 0]);
    graph.wire((0, port::OUTPUT), (1, port::EXEC));
    graph
}

/// A node, so many Selects in a row that all choose InputA, and 3,000 wires from the last to a node.
pub fn select_row(selects: u16) -> Graph {
    let mut graph = Graph::default();
    graph.node(class::OTHER);
    graph.nodes(class::SELECT, usize::from(selects));
    let last = graph.node(class::OTHER);
    graph.row(class::SELECT, [variant::UNWIRED, 0, 0]);
    for select in 1..=selects {
        graph.wire((select - 1, port::OUTPUT), (select, port::INPUT_A));
    }
    for i in 0..3_000 {
        graph.wire((selects, port::OUTPUT), (last, (i % 10) as u8));
    }
    graph
}

/// A node with so many wires into the first of so many Branches in a row, the last into a node.
pub fn branch_row(branches: u16, wires: usize) -> Graph {
    let mut graph = branches_after_a_node(branches);
    let last = graph.node(class::OTHER);
    for branch in 1..branches {
        graph.wire((branch, port::EXEC_OUT_B), (branch + 1, port::EXEC));
    }
    graph.wire((branches, port::EXEC_OUT_B), (last, port::EXEC));
    for _ in 1..wires {
        graph.wire((0, port::OUTPUT), (1, port::EXEC));
    }
    graph
}

/// Twelve Branches that double, then one with 4,000 wires to a port that drops them and one wire to
/// a node.
pub fn dead_wires() -> Graph {
    let mut graph = doubling(13);
    let last = graph.node(class::OTHER);
    for _ in 0..4_000 {
        graph.wire((13, port::EXEC_OUT_B), (1, port::INPUT_A));
    }
    graph.wire((13, port::EXEC_OUT_B), (last, port::EXEC));
    graph
}

/// A float of the smallest exponent, with 53 digits: the largest float by it is the longest remainder.
const SMALL: f64 = f64::from_bits(0x0019_21fb_5444_2d19);

/// Modulos, each of a Vector of the largest float by one of these parts.
fn modulos(nodes: usize, parts: [f64; 3]) -> Graph {
    let mut graph = Graph::default();
    graph.nodes(class::MATH_MODULO, nodes);
    for node in 0..nodes as u16 {
        for (port, parts) in [(port::INPUT_A, [f64::MAX; 3]), (port::INPUT_B, parts)] {
            let bytes = parts.map(f64::to_le_bytes).concat();
            graph.property(variant::VECTOR, node, port, bytes);
        }
    }
    graph.row(class::MATH_MODULO, [variant::VECTOR, variant::VECTOR, 0]);
    graph
}

/// As many of the longest remainders as a graph can have that folds.
pub fn remainders() -> Graph {
    modulos(NODES, [SMALL; 3])
}

/// Modulos with a part by 0, so that they are never known, and a backward chain of six nodes, each of which has a wire
/// to every Modulo: each node of the chain that becomes known has all of them tried again.
pub fn tried_remainders() -> Graph {
    const MODULOS: u16 = 640;
    const LINKS: u16 = 6;
    let mut graph = modulos(usize::from(MODULOS), [SMALL, SMALL, 0.0]);
    graph.nodes(class::MATH_ADD, usize::from(LINKS) - 1);
    let literal = graph.node(class::LITERAL);
    graph.int(literal, port::VALUE, 0);
    graph.row(class::MATH_ADD, [variant::INT, variant::INT, 0]);
    for link in MODULOS..MODULOS + LINKS {
        if link < literal {
            graph.wire((link + 1, port::OUTPUT), (link, port::INPUT_A));
            graph.int(link, port::INPUT_B, 1);
        }
        for modulo in 0..MODULOS {
            graph.wire((link, port::OUTPUT), (modulo, port::THIRD_INPUT));
        }
    }
    graph
}

/// The graph's own rows behind so many others that nothing needs.
pub fn rows(mut graph: Graph, count: usize) -> Graph {
    let needed = std::mem::take(&mut graph.rows);
    let needed_before = |rows: &Vec<_>| rows.len() + needed.len() < count;
    'filling: for class in (class::MATH_ADD + 1)..=LAST_CLASS {
        for pair in 0..64u8 {
            if !needed_before(&graph.rows) {
                break 'filling;
            }
            let one_input = ROW_LENGTHS[usize::from(class)] == 1;
            let second = if one_input { 0 } else { pair % 8 };
            graph.row(class, [pair / 8, second, 0]);
        }
    }
    graph.rows.extend(needed);
    graph
}

/// The graph with its nodes numbered from the other end.
pub fn backward(graph: Graph) -> Graph {
    let nodes = graph.nodes.len() as u16;
    let numbers: Vec<u16> = (0..nodes).rev().collect();
    graph.renumbered(&numbers)
}

/// The graph with its nodes and its wires in random order.
pub fn shuffled(graph: Graph) -> Graph {
    let mut rng = Rng::new(7);
    let mut numbers: Vec<u16> = (0..graph.nodes.len() as u16).collect();
    rng.shuffle(&mut numbers);
    let mut graph = graph.renumbered(&numbers);
    rng.shuffle(&mut graph.wires);
    graph
}

/// Inputs at and past document 01's limits.
pub fn limits() -> Vec<Vec<u8>> {
    let mut inputs = vec![Vec::new(), vec![0; 65_536], vec![0; 65_537]];
    for nodes in [1_024, 1_025] {
        inputs.push(no_plan(nodes, 0).bytes());
    }
    for wires in [4_096, 4_097] {
        inputs.push(no_plan(1_024, wires).bytes());
    }
    for count in [1_024, 1_025] {
        inputs.push(rows(chain(64), count).bytes());
    }
    for properties in [2_048, 2_049] {
        let mut graph = no_plan(1_024, 0);
        for i in 0..properties {
            graph.int((i / 11) as u16, (i % 11) as u8, 1);
        }
        inputs.push(graph.bytes());
    }
    inputs.push(long_answer().bytes());
    inputs.push(doubling_to(12).bytes());
    inputs.push(doubling_to(13).bytes());
    inputs
}

/// A Quat that 1,023 chip nodes pass on: an answer of more than 65,536 bytes.
fn long_answer() -> Graph {
    let mut graph = Graph::default();
    graph.node(class::LITERAL);
    graph.nodes(class::MICROCHIP_INPUT, 1_023);
    for target in 1..1_024 {
        graph.wire((0, port::OUTPUT), (target, port::RER_INPUT));
        for port in 2..5 {
            graph.wire((0, port::OUTPUT), (target, port));
        }
    }
    graph.property(variant::QUAT, 0, port::VALUE, vec![1; 32]);
    graph
}

/// Branches that double so many times into one node.
fn doubling_to(times: u16) -> Graph {
    let mut graph = doubling(times);
    let last = graph.node(class::OTHER);
    for _ in 0..2 {
        graph.wire((times, port::EXEC_OUT_B), (last, port::EXEC));
    }
    graph
}
