//! Graphs in which texts meet: in equality, as truths and conditions, and where they give nothing; and texts for other graphs.
use crate::operands::rich_value;
use crate::random::class_from;
use crate::records::{Graph, VARIANTS, class, limit, orders_text, port, variant};
use crate::rng::Rng;
use crate::tables::{INPUT_PORTS, ROW_LENGTHS};
use crate::texts;
use std::collections::HashSet;

/// A variant and the bytes of its value.
type Operand = (u8, Vec<u8>);

fn text(chars: &[u8]) -> Operand {
    (variant::TEXT, texts::value(chars))
}

/// One to four gates and routers of texts, with texts at ports that nothing reads.
pub fn texts(rng: &mut Rng) -> Graph {
    let mut graph = Graph::default();
    for _ in 0..rng.between(1, 4) {
        match rng.below(12) {
            0..5 => add_equality(rng, &mut graph),
            5..8 => add_logical(rng, &mut graph),
            8..10 => add_router(rng, &mut graph),
            _ => add_other(rng, &mut graph),
        }
    }
    add_strays(rng, &mut graph);
    graph.annihilators = vec![class::LOGICAL_AND, class::LOGICAL_OR];
    graph.annihilators.truncate(rng.below(3));
    if !rng.percent(8) {
        graph.rows.retain(|&row| !orders_text(row));
    }
    graph
}

fn any_text(rng: &mut Rng) -> Operand {
    text(&texts::any(rng))
}

/// A value of any variant, nothing for Unwired.
fn any_operand(rng: &mut Rng) -> Operand {
    let variant = rng.below(VARIANTS) as u8;
    (variant, rich_value(rng, variant))
}

/// Equal or NotEqual of texts that are alike, of a text and an Int that is nearly its number, or of a text and any.
fn add_equality(rng: &mut Rng, graph: &mut Graph) {
    let mut pair = match rng.below(10) {
        0..4 => {
            let n = texts::int(rng);
            let form = text(&texts::beside(rng, n));
            [form, (variant::INT, n.to_le_bytes().to_vec())]
        }
        4..7 => {
            let chars = texts::any(rng);
            [text(&chars), text(&texts::like(rng, &chars))]
        }
        7 => [any_text(rng), (variant::UNWIRED, vec![])],
        _ => [any_text(rng), any_operand(rng)],
    };
    rng.shuffle(&mut pair);
    let class = rng.pick(&[class::COMPARE_EQUAL, class::COMPARE_NOT_EQUAL]);
    add_gate(rng, graph, class, &pair);
}

/// A logical gate of texts, or of a text and a Bool or another value.
fn add_logical(rng: &mut Rng, graph: &mut Graph) {
    let other = match rng.below(3) {
        0 => any_text(rng),
        1 => (variant::BOOL, vec![rng.below(2) as u8]),
        _ => any_operand(rng),
    };
    let mut pair = [any_text(rng), other];
    rng.shuffle(&mut pair);
    let (first, last) = (class::LOGICAL_AND, class::LOGICAL_NOR);
    let class = rng.between(usize::from(first), usize::from(last)) as u8;
    add_gate(rng, graph, class, &pair);
}

/// A gate of any class with texts and other values.
fn add_other(rng: &mut Rng, graph: &mut Graph) {
    let class = class_from(rng, class::COMPARE_LESS);
    let operands = [(); 3].map(|()| match rng.percent(60) {
        true => any_text(rng),
        false => any_operand(rng),
    });
    add_gate(rng, graph, class, &operands);
}

/// A gate with its operands, mostly with its row, and at times a reader.
fn add_gate(rng: &mut Rng, graph: &mut Graph, class: u8, operands: &[Operand]) {
    let gate = graph.node(class);
    let mut row = [variant::UNWIRED; 3];
    let ports = INPUT_PORTS[usize::from(class)].iter();
    for ((&port, place), operand) in ports.zip(&mut row).zip(operands) {
        *place = operand.0;
        feed(rng, graph, (gate, port), operand);
    }
    if rng.percent(94) {
        graph.row(class, row);
    }
    if rng.percent(30) {
        let reader = graph.node(class::OTHER);
        graph.wire((gate, port::OUTPUT), (reader, port::INPUT_A));
    }
}

/// Feeds a port with a value: by a property, or a wire from a Literal, a chip node or a Select.
fn feed(rng: &mut Rng, graph: &mut Graph, target: (u16, u8), (variant, value): &Operand) {
    if *variant == variant::UNWIRED {
        return;
    }
    if rng.percent(55) {
        graph.property(*variant, target.0, target.1, value.clone());
        return;
    }
    let literal = graph.node(class::LITERAL);
    graph.property(*variant, literal, port::VALUE, value.clone());
    let source = match rng.below(4) {
        0 => {
            let chip = graph.node(rng.pick(&[class::MICROCHIP_INPUT, class::MICROCHIP_OUTPUT]));
            graph.wire((literal, port::OUTPUT), (chip, port::RER_INPUT));
            chip
        }
        1 => add_select(rng, graph, [literal; 2]),
        _ => literal,
    };
    graph.wire((source, port::OUTPUT), target);
}

/// A Select of two sources by a text.
fn add_select(rng: &mut Rng, graph: &mut Graph, sources: [u16; 2]) -> u16 {
    let select = graph.node(class::SELECT);
    for (source, port) in sources.into_iter().zip([port::INPUT_A, port::INPUT_B]) {
        graph.wire((source, port::OUTPUT), (select, port));
    }
    graph.property(variant::TEXT, select, port::B_SELECT_B, any_text(rng).1);
    graph.row(class::SELECT, [variant::TEXT, 0, 0]);
    select
}

/// A Select or Branch that a text decides, between two nodes that never fold.
fn add_router(rng: &mut Rng, graph: &mut Graph) {
    let ends = [class::OTHER; 3].map(|class| graph.node(class));
    if rng.percent(50) {
        let select = add_select(rng, graph, [ends[0], ends[1]]);
        graph.wire((select, port::OUTPUT), (ends[2], port::INPUT_A));
        return;
    }
    let branch = graph.node(class::BRANCH);
    graph.wire((ends[0], port::OUTPUT), (branch, port::EXEC));
    graph.wire((branch, port::EXEC_OUT_A), (ends[1], port::EXEC));
    graph.wire((branch, port::EXEC_OUT_B), (ends[2], port::EXEC));
    let condition = any_text(rng);
    feed(rng, graph, (branch, port::B_COND), &condition);
    if rng.percent(94) {
        graph.row(class::BRANCH, [variant::TEXT, 0, 0]);
    }
}

/// Texts at ports that have no property yet.
fn add_strays(rng: &mut Rng, graph: &mut Graph) {
    for _ in 0..rng.below(3) {
        let (node, port) = (rng.below(graph.nodes.len()) as u16, rng.below(11) as u8);
        let mut before = graph.properties.iter();
        if !before.any(|property| (property.node, property.port) == (node, port)) {
            graph.property(variant::TEXT, node, port, any_text(rng).1);
        }
    }
}

/// So many properties of a graph become texts at most, which keeps its bytes within their limit.
const MOST: usize = 200;

/// The graph, or one with texts for some of its properties and rows for them.
pub fn sprinkled(rng: &mut Rng, mut graph: Graph) -> Graph {
    if rng.percent(70) {
        return graph;
    }
    let share = rng.pick(&[5, 30, 80]);
    let changed = graph.properties.iter_mut().filter(|_| rng.percent(share));
    let mut changed: Vec<_> = changed.take(MOST).collect();
    for property in &mut changed {
        (property.variant, property.value) = any_text(rng);
    }
    add_text_rows(rng, &mut graph);
    graph
}

/// Rows of the graph again with text at some places, once each and within the limit.
fn add_text_rows(rng: &mut Rng, graph: &mut Graph) {
    let mut seen = HashSet::new();
    for mut row in graph.rows.clone() {
        let length = ROW_LENGTHS[usize::from(row[0])];
        for _ in 0..rng.between(1, length) {
            row[rng.between(1, length)] = variant::TEXT;
        }
        let wanted = !orders_text(row) || rng.percent(1);
        if wanted && graph.rows.len() < limit::ROWS && seen.insert(row) {
            graph.rows.push(row);
        }
    }
}
