//! Random graphs that fold much: gates with matching rows, chains of Selects and Branches, cycles,
//! fan-in, nofold nodes, special values.
use crate::operands::{PALETTES, value};
use crate::records::{Graph, LAST_CLASS, class, limit, port, variant};
use crate::rng::Rng;
use crate::tables::{INPUT_PORTS, ROW_LENGTHS};
use std::collections::HashSet;

/// What a graph is made of.
struct Style {
    palette: &'static [u8],
    /// Parts of a hundred: Literals, chip nodes, Selects, Branches, others; the rest are gates.
    shares: [usize; 5],
    /// Gates of few classes meet more rows.
    gates: Vec<u8>,
    /// Chance that a wire goes to a higher number, that a port may take a second wire, that a gate
    /// input has a property, and that a node is nofold.
    forward: usize,
    fan_in: usize,
    property: usize,
    nofold: usize,
    wires: usize,
}

fn style(rng: &mut Rng, nodes: usize) -> Style {
    let shares = rng.pick(&[
        [25, 8, 6, 3, 5],
        [20, 5, 5, 5, 2],
        [15, 5, 10, 0, 0],
        [10, 5, 15, 45, 15],
        [10, 5, 60, 5, 12],
        [5, 2, 3, 75, 13],
        [15, 15, 20, 20, 10],
        [35, 5, 0, 0, 5],
    ]);
    let classes = rng.between(1, 10);
    Style {
        palette: rng.pick(&PALETTES),
        shares,
        gates: (0..classes)
            .map(|_| class_from(rng, class::COMPARE_EQUAL))
            .collect(),
        forward: rng.pick(&[50, 80, 95, 100, 100]),
        fan_in: rng.pick(&[0, 5, 20]),
        property: rng.pick(&[40, 80, 95]),
        nofold: rng.pick(&[0, 0, 3, 15]),
        wires: (nodes * rng.pick(&[1, 2, 3, 5, 8]) / 2).min(limit::WIRES),
    }
}

/// A class at random, from this one to the last.
pub fn class_from(rng: &mut Rng, first: u8) -> u8 {
    rng.between(usize::from(first), usize::from(LAST_CLASS)) as u8
}

/// A graph of so many nodes.
pub fn graph(rng: &mut Rng, nodes: usize) -> Graph {
    let style = style(rng, nodes);
    let mut graph = Graph::default();
    for _ in 0..nodes {
        let class = node_class(rng, &style);
        let flags = u8::from(rng.percent(style.nofold));
        graph.nodes.push((class, flags));
    }
    let wired = add_wires(rng, &style, &mut graph);
    add_properties(rng, &style, &mut graph, &wired);
    add_rows(rng, &style, &mut graph);
    for class in [class::LOGICAL_AND, class::LOGICAL_OR] {
        if rng.percent(50) {
            graph.annihilators.push(class);
        }
    }
    graph
}

fn node_class(rng: &mut Rng, style: &Style) -> u8 {
    let mut part = rng.below(100);
    let classes = [
        class::LITERAL,
        rng.pick(&[class::MICROCHIP_INPUT, class::MICROCHIP_OUTPUT]),
        class::SELECT,
        class::BRANCH,
        class::OTHER,
    ];
    for (class, share) in classes.into_iter().zip(style.shares) {
        if part < share {
            return class;
        }
        part -= share;
    }
    rng.pick(&style.gates)
}

/// The ports that a node of a class reads; a Branch's Exec takes most wires.
fn inputs(class: u8) -> &'static [u8] {
    match class {
        class::SELECT => &[port::INPUT_A, port::INPUT_B, port::B_SELECT_B],
        class::BRANCH => &[port::EXEC, port::EXEC, port::EXEC, port::EXEC, port::B_COND],
        _ => INPUT_PORTS[usize::from(class)],
    }
}

type Ports = HashSet<(u16, u8)>;

fn add_wires(rng: &mut Rng, style: &Style, graph: &mut Graph) -> Ports {
    let mut wired = Ports::new();
    for _ in 0..style.wires {
        let (mut source, mut target) = (rng.below(graph.nodes.len()), rng.below(graph.nodes.len()));
        if rng.percent(style.forward) && source > target {
            (source, target) = (target, source);
        }
        let source_port = match graph.nodes[source].0 {
            class::BRANCH => rng.pick(&[6, 7, 7, 7, 0]),
            _ if rng.percent(8) => rng.below(10) as u8,
            _ => port::OUTPUT,
        };
        let ports = inputs(graph.nodes[target].0);
        let target_port = if ports.is_empty() || rng.percent(4) {
            rng.below(10) as u8
        } else {
            rng.pick(ports)
        };
        let end = (target as u16, target_port);
        if wired.contains(&end) && target_port != port::EXEC && !rng.percent(style.fan_in) {
            continue;
        }
        wired.insert(end);
        graph.wire((source as u16, source_port), end);
    }
    if rng.percent(20) {
        rng.shuffle(&mut graph.wires);
    }
    wired
}

fn add_properties(rng: &mut Rng, style: &Style, graph: &mut Graph, wired: &Ports) {
    let mut used = Ports::new();
    for number in 0..graph.nodes.len() as u16 {
        let class = graph.nodes[usize::from(number)].0;
        for &port in inputs(class) {
            let chance = if wired.contains(&(number, port)) {
                5
            } else {
                style.property
            };
            if rng.percent(chance) {
                add_property(rng, style, graph, &mut used, number, port);
            }
        }
        if class == class::LITERAL && rng.percent(92) {
            add_property(rng, style, graph, &mut used, number, port::VALUE);
        } else if rng.percent(3) {
            let port = rng.below(11) as u8;
            add_property(rng, style, graph, &mut used, number, port);
        }
    }
}

fn add_property(
    rng: &mut Rng,
    style: &Style,
    graph: &mut Graph,
    used: &mut Ports,
    node: u16,
    port: u8,
) {
    let size: usize = graph.properties.iter().map(|p| 4 + p.value.len()).sum();
    if graph.properties.len() == limit::PROPERTIES || size > 24_000 || !used.insert((node, port)) {
        return;
    }
    let variant = if rng.percent(3) {
        rng.between(1, usize::from(variant::COLOR)) as u8
    } else {
        rng.pick(style.palette)
    };
    let value = value(rng, variant);
    graph.property(variant, node, port, value);
}

/// Rows for the classes and variants at hand, with gaps.
fn add_rows(rng: &mut Rng, style: &Style, graph: &mut Graph) {
    let mut variants = vec![variant::UNWIRED];
    variants.extend(style.palette);
    if rng.percent(50) && !variants.contains(&variant::BOOL) {
        variants.push(variant::BOOL);
    }
    let chance = rng.pick(&[80, 97, 100]);
    let classes: HashSet<u8> = graph.nodes.iter().map(|node| node.0).collect();
    let mut classes: Vec<u8> = classes
        .into_iter()
        .filter(|&class| class >= class::SELECT)
        .collect();
    classes.sort_unstable();
    for class in classes {
        let count = ROW_LENGTHS[usize::from(class)];
        for number in 0..variants.len().pow(count as u32) {
            let place = |i: u32| match i < count as u32 {
                true => variants[number / variants.len().pow(i) % variants.len()],
                false => 0,
            };
            if graph.rows.len() < limit::ROWS && rng.percent(chance) {
                graph.row(class, [place(0), place(1), place(2)]);
            }
        }
    }
    if rng.percent(10) {
        rng.shuffle(&mut graph.rows);
    }
}
