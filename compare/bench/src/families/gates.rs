//! Graphs of few gates with all kinds of operands, and graphs that annihilators settle.
use crate::operands::{PALETTES, rich_value};
use crate::random::class_from;
use crate::records::{Graph, VARIANTS, class, flag, orders_text, port, variant};
use crate::rng::Rng;
use crate::tables::{INPUT_PORTS, ROW_LENGTHS};

/// Variants that meet text in one gate.
const TEXT_PALETTES: [&[u8]; 4] = [
    &[variant::TEXT],
    &[variant::TEXT, variant::INT],
    &[variant::TEXT, variant::BOOL],
    &[1, 2, 3, 4, 5, 6, 7, 8],
];

/// Gates of any classes with operands from properties, Literals, chip nodes and other gates, and nodes that read them.
pub fn gates(rng: &mut Rng) -> Graph {
    let mut graph = Graph::default();
    let mut gates = Vec::new();
    for _ in 0..rng.between(1, 5) {
        let gate = add_gate(rng, &mut graph, &gates);
        gates.push(gate);
    }
    for gate in gates {
        if rng.percent(30) {
            let reader = graph.node(class::OTHER);
            let port = rng.below(10) as u8;
            graph.wire((gate, port), (reader, port::INPUT_A));
        }
    }
    graph
}

fn add_gate(rng: &mut Rng, graph: &mut Graph, before: &[u16]) -> u16 {
    let class = class_from(rng, class::COMPARE_EQUAL);
    let palette = match rng.percent(15) {
        true => rng.pick(&TEXT_PALETTES),
        false => rng.pick(&PALETTES),
    };
    let gate = graph.node(class);
    if rng.percent(3) {
        graph.nodes[usize::from(gate)].1 = flag::NOFOLD;
    }
    let mut rows = vec![[variant::UNWIRED; 3]];
    for (place, &port) in INPUT_PORTS[usize::from(class)].iter().enumerate() {
        let variants = add_operand(rng, graph, before, palette, (gate, port));
        let with = |row: &[u8; 3]| {
            let mut row = *row;
            variants
                .iter()
                .map(move |&v| {
                    row[place] = v;
                    row
                })
                .collect::<Vec<_>>()
        };
        rows = rows.iter().flat_map(with).collect();
    }
    add_rows(rng, graph, class, rows);
    gate
}

/// The fitting rows; at times none, or one that does not fit.
fn add_rows(rng: &mut Rng, graph: &mut Graph, class: u8, rows: Vec<[u8; 3]>) {
    match rng.below(100) {
        0..3 => {}
        3..8 => {
            let mut row = rows[0];
            row[rng.below(ROW_LENGTHS[usize::from(class)])] = rng.below(VARIANTS) as u8;
            graph.row(class, row);
        }
        _ => rows.into_iter().for_each(|row| graph.row(class, row)),
    }
    if !rng.percent(5) {
        graph.rows.retain(|&row| !orders_text(row));
    }
}

/// Feeds a port, and gives the variants that it may then have.
fn add_operand(
    rng: &mut Rng,
    graph: &mut Graph,
    before: &[u16],
    palette: &[u8],
    target: (u16, u8),
) -> Vec<u8> {
    let variant = rng.pick(palette);
    match rng.below(100) {
        0..8 => vec![variant::UNWIRED],
        8..20 if !before.is_empty() => {
            graph.wire((rng.pick(before), port::OUTPUT), target);
            (variant::INT..=variant::VECTOR).collect()
        }
        20..50 => {
            let source = add_source(rng, graph, variant);
            graph.wire((source, port::OUTPUT), target);
            if rng.percent(4) {
                graph.wire((source, port::OUTPUT), target);
            }
            vec![variant]
        }
        _ => {
            let value = rich_value(rng, variant);
            graph.property(variant, target.0, target.1, value);
            vec![variant]
        }
    }
}

/// A Literal, or a chip node that passes one on.
fn add_source(rng: &mut Rng, graph: &mut Graph, variant: u8) -> u16 {
    let literal = graph.node(class::LITERAL);
    let value = rich_value(rng, variant);
    graph.property(variant, literal, port::VALUE, value);
    if !rng.percent(20) {
        return literal;
    }
    let chip = graph.node(rng.pick(&[class::MICROCHIP_INPUT, class::MICROCHIP_OUTPUT]));
    graph.wire((literal, port::OUTPUT), (chip, port::RER_INPUT));
    chip
}

/// Logical gates with settling Bools, other values and unresolved inputs, rows for few.
pub fn annihilators(rng: &mut Rng) -> Graph {
    let mut graph = Graph::default();
    let unresolved = graph.node(class::OTHER);
    let mut sources = vec![unresolved];
    for _ in 0..rng.between(1, 6) {
        let class = match rng.percent(85) {
            true => rng.pick(&[class::LOGICAL_AND, class::LOGICAL_OR]),
            false => rng.between(12, 17) as u8,
        };
        let gate = graph.node(class);
        for port in [port::INPUT_A, port::INPUT_B] {
            add_logical(rng, &mut graph, &sources, (gate, port));
        }
        if rng.percent(30) {
            let variants = [
                variant::UNWIRED,
                variant::INT,
                variant::FLOAT,
                variant::BOOL,
                variant::TEXT,
            ];
            let mut variants = [rng.pick(&variants), rng.pick(&variants), 0];
            variants[ROW_LENGTHS[usize::from(class)]..].fill(0);
            graph.row(class, variants);
        }
        sources.push(gate);
    }
    graph.annihilators = match rng.below(5) {
        0 => vec![],
        1 => vec![class::LOGICAL_AND],
        2 => vec![class::LOGICAL_OR],
        3 => vec![class::LOGICAL_OR, class::LOGICAL_AND],
        _ => vec![class::LOGICAL_AND, class::LOGICAL_OR],
    };
    graph
}

/// Feeds a port of a logical gate.
fn add_logical(rng: &mut Rng, graph: &mut Graph, sources: &[u16], target: (u16, u8)) {
    let variant = rng.pick(&[
        variant::BOOL,
        variant::BOOL,
        variant::BOOL,
        variant::INT,
        variant::FLOAT,
        variant::TEXT,
    ]);
    match rng.below(10) {
        0 => {}
        1..5 => graph.wire((rng.pick(sources), port::OUTPUT), target),
        5 => {
            for _ in 0..2 {
                graph.wire((rng.pick(sources), port::OUTPUT), target);
            }
        }
        6 => {
            let source = add_source(rng, graph, variant);
            graph.wire((source, port::OUTPUT), target);
        }
        _ => {
            let value = rich_value(rng, variant);
            graph.property(variant, target.0, target.1, value);
        }
    }
}
