//! Graphs of which much feeds nothing.
use super::routes::reordered;
use crate::random::class_from;
use crate::records::{Graph, LAST_CLASS, class, flag, port, variant};
use crate::rng::Rng;
use crate::tables::{INPUT_PORTS, ROW_LENGTHS};

struct Style {
    nodes: usize,
    /// Parts of a hundred: gates and Literals among the nodes, nodes with a label, nofold nodes.
    pure: usize,
    labels: usize,
    nofold: usize,
    /// Parts of a hundred: wires to a lower number or the same, wires that come twice.
    back: usize,
    twice: usize,
    /// Wires for ten nodes, and how far up they lead at most.
    wires: usize,
    reach: usize,
}

/// Chains and trees of gates and Literals to dead ends, with loops, labels and nofold nodes in between, and some Selects,
/// Branches, chip nodes and others; wires at all ports; of the gates some become known.
pub fn dead(rng: &mut Rng) -> Graph {
    let style = Style {
        nodes: match rng.below(40) {
            0 => rng.between(61, 300),
            1..8 => rng.between(13, 60),
            _ => rng.between(1, 12),
        },
        pure: rng.pick(&[60, 80, 95, 100]),
        labels: rng.pick(&[0, 5, 20]),
        nofold: rng.pick(&[0, 0, 5, 20]),
        back: rng.pick(&[0, 0, 3, 20]),
        twice: rng.pick(&[0, 10, 30]),
        wires: rng.pick(&[5, 10, 15, 25]),
        reach: rng.pick(&[1, 2, 5, 300]),
    };
    let mut graph = Graph::default();
    for _ in 0..style.nodes {
        add_node(rng, &style, &mut graph);
    }
    for _ in 0..style.nodes * style.wires / 10 {
        add_wire(rng, &style, &mut graph);
    }
    add_rows(rng, &mut graph);
    reordered(rng, graph)
}

fn add_node(rng: &mut Rng, style: &Style, graph: &mut Graph) {
    let class = match rng.below(100) {
        part if part >= style.pure => rng.pick(&OTHERS),
        part if part % 5 == 0 => class::LITERAL,
        part if part % 25 == 1 => LAST_CLASS,
        _ => class_from(rng, class::COMPARE_EQUAL),
    };
    let node = graph.node(class);
    let flags = &mut graph.nodes[usize::from(node)].1;
    *flags |= flag::LABEL * u8::from(rng.percent(style.labels));
    *flags |= flag::NOFOLD * u8::from(rng.percent(style.nofold));
    if class == class::LITERAL && rng.percent(80) {
        graph.int(node, port::VALUE, rng.below(3) as i64);
    }
}

const OTHERS: [u8; 7] = [
    class::OTHER,
    class::OTHER,
    class::SELECT,
    class::SELECT,
    class::BRANCH,
    class::MICROCHIP_INPUT,
    class::MICROCHIP_OUTPUT,
];

fn add_wire(rng: &mut Rng, style: &Style, graph: &mut Graph) {
    let last = style.nodes - 1;
    let mut source = rng.below(style.nodes);
    let mut target = rng.between(source + 1, source + style.reach).min(last);
    if rng.percent(style.back) {
        (source, target) = (target, source);
    } else if source == target {
        return;
    }
    let source_port = match rng.percent(85) {
        true => port::OUTPUT,
        false => rng.below(10) as u8,
    };
    let ports = INPUT_PORTS[usize::from(graph.nodes[target].0)];
    let target_port = match ports.is_empty() || rng.percent(20) {
        true => rng.below(10) as u8,
        false => rng.pick(ports),
    };
    for _ in 0..1 + usize::from(rng.percent(style.twice)) {
        graph.wire((source as u16, source_port), (target as u16, target_port));
    }
}

/// Rows of Ints, Bools and nothing, for all classes or for none; Selects and Branches that nothing decides are planned then.
fn add_rows(rng: &mut Rng, graph: &mut Graph) {
    if rng.percent(40) {
        return;
    }
    let mut classes: Vec<u8> = graph.nodes.iter().map(|node| node.0).collect();
    classes.retain(|&class| class >= class::SELECT);
    classes.sort_unstable();
    classes.dedup();
    let variants = [variant::UNWIRED, variant::INT, variant::BOOL];
    for class in classes {
        let rows = variants.len().pow(ROW_LENGTHS[usize::from(class)] as u32);
        for number in 0..rows {
            graph.row(class, [1, 3, 9].map(|place| variants[number / place % 3]));
        }
    }
}
