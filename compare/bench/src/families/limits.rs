//! Graphs at a limit of question 8 or 1, one below and one past.
use crate::operands::rich_value;
use crate::random;
use crate::records::{Graph, VARIANTS, class, limit, orders_text, port, variant};
use crate::rng::Rng;
use crate::tables::ROW_LENGTHS;

pub fn limits(rng: &mut Rng) -> Graph {
    let around = |rng: &mut Rng, limit: usize| limit - 1 + rng.below(3);
    match rng.below(6) {
        0 => {
            let nodes = around(rng, limit::NODES);
            random::graph(rng, nodes)
        }
        1 => {
            let wires = around(rng, limit::WIRES);
            let mut graph = medium(rng);
            while graph.wires.len() < wires {
                add_wire(rng, &mut graph);
            }
            graph
        }
        2 => {
            let properties = around(rng, limit::PROPERTIES);
            many_properties(rng, properties)
        }
        3 => {
            let rows = around(rng, limit::ROWS);
            let mut graph = medium(rng);
            while graph.rows.len() < rows {
                add_row(rng, &mut graph);
            }
            graph
        }
        _ => {
            let bytes = around(rng, limit::INPUT);
            exactly(rng, bytes)
        }
    }
}

fn medium(rng: &mut Rng) -> Graph {
    let nodes = rng.between(20, 200);
    random::graph(rng, nodes)
}

fn add_wire(rng: &mut Rng, graph: &mut Graph) {
    let mut end = || (rng.below(graph.nodes.len()) as u16, rng.below(10) as u8);
    let (source, target) = (end(), end());
    graph.wire(source, target);
}

/// Adds a row that no question refuses.
fn add_row(rng: &mut Rng, graph: &mut Graph) {
    let class = random::class_from(rng, class::SELECT);
    let mut row = [class, 0, 0, 0];
    let variants = &mut row[1..=ROW_LENGTHS[usize::from(class)]];
    variants.fill_with(|| rng.below(VARIANTS) as u8);
    if orders_text(row) {
        row = [class, 0, 0, 0];
    }
    graph.rows.push(row);
}

/// Properties at one port after the other, node by node.
fn many_properties(rng: &mut Rng, count: usize) -> Graph {
    let mut graph = random::graph(rng, 190);
    graph.properties.clear();
    for number in 0..count {
        let variant = rng.pick(&[variant::INT, variant::FLOAT, variant::BOOL, variant::TEXT]);
        let value = rich_value(rng, variant);
        graph.property(variant, (number / 11) as u16, (number % 11) as u8, value);
    }
    graph
}

/// A graph of exactly so many bytes, within the other limits.
fn exactly(rng: &mut Rng, bytes: usize) -> Graph {
    let mut graph = Graph::default();
    for _ in 0..rng.between(1_000, limit::NODES) {
        graph.node(rng.pick(&[class::OTHER, class::LITERAL, class::MATH_ADD, class::SELECT]));
    }
    for _ in 0..rng.between(4_000, limit::WIRES) {
        add_wire(rng, &mut graph);
    }
    graph.annihilators = vec![class::LOGICAL_AND, class::LOGICAL_OR];
    graph.annihilators.truncate(rng.below(3));
    // Quats have 36 bytes and rows 5, so that some number of Quats leaves a multiple of 5.
    let left = bytes - graph.bytes().len();
    let quats = (0..=left / 36)
        .rev()
        .find(|quats| (left - 36 * quats) % 5 == 0)
        .expect("one of five");
    for node in 0..quats {
        let value = rich_value(rng, variant::QUAT);
        graph.property(variant::QUAT, node as u16, port::VALUE, value);
    }
    for _ in 0..(left - 36 * quats) / 5 {
        add_row(rng, &mut graph);
    }
    graph
}
