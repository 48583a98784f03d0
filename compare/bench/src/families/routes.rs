//! Graphs of Selects and Branches: chains, cycles, Branches that double, and counts of wires around the limit.
use crate::operands::rich_value;
use crate::records::{Graph, VARIANTS, class, limit, port, variant};
use crate::rng::Rng;
use crate::shapes;

/// How the routers of a graph are wired.
struct Style {
    /// Nodes that never fold, at the front.
    plain: usize,
    routers: usize,
    /// Parts of a hundred: Selects among the routers, wires to a higher number, chosen sides by a false condition.
    selects: usize,
    forward: usize,
    falses: usize,
}

/// Selects and Branches, mostly planned, with wires between them and to nodes that never fold.
pub fn routes(rng: &mut Rng) -> Graph {
    let mut style = Style {
        plain: rng.between(1, 4),
        routers: match rng.below(20) {
            0 => rng.between(31, 120),
            1..6 => rng.between(11, 30),
            _ => rng.between(1, 10),
        },
        selects: rng.pick(&[0, 20, 50, 80, 100]),
        forward: rng.pick(&[50, 80, 90, 100, 100]),
        falses: rng.pick(&[0, 50, 80, 100]),
    };
    let mut graph = Graph::default();
    graph.nodes(class::OTHER, style.plain);
    style.plain += add_literal(rng, &mut graph);
    for _ in 0..style.routers {
        let is_select = rng.percent(style.selects);
        graph.node(if is_select {
            class::SELECT
        } else {
            class::BRANCH
        });
    }
    for router in style.plain..style.plain + style.routers {
        add_router(rng, &style, &mut graph, router as u16);
    }
    add_entries(rng, &style, &mut graph);
    for class in [class::SELECT, class::BRANCH] {
        for variant in (0..VARIANTS as u8).filter(|_| rng.percent(96)) {
            graph.row(class, [variant, 0, 0]);
        }
    }
    reordered(rng, graph)
}

/// At times a Literal, so that a Select becomes known or a wire leaves from a literal.
fn add_literal(rng: &mut Rng, graph: &mut Graph) -> usize {
    if rng.percent(50) {
        return 0;
    }
    let literal = graph.node(class::LITERAL);
    let variant = rng.pick(&[variant::INT, variant::INT, variant::TEXT]);
    let value = rich_value(rng, variant);
    graph.property(variant, literal, port::VALUE, value);
    1
}

/// The condition of a router and the wires that it chooses from.
fn add_router(rng: &mut Rng, style: &Style, graph: &mut Graph, router: u16) {
    let (class, _) = graph.nodes[usize::from(router)];
    let condition = match class {
        class::SELECT => port::B_SELECT_B,
        _ => port::B_COND,
    };
    match rng.below(20) {
        0 => graph.wire((any_node(rng, graph), port::OUTPUT), (router, condition)),
        1 => {}
        2..4 => {
            let variant = match rng.percent(50) {
                true => variant::TEXT,
                false => rng.between(1, 7) as u8,
            };
            let value = rich_value(rng, variant);
            graph.property(variant, router, condition, value);
        }
        _ => {
            let truth = u8::from(!rng.percent(style.falses));
            graph.property(variant::BOOL, router, condition, vec![truth]);
        }
    }
    match class {
        class::SELECT => add_choices(rng, style, graph, router),
        _ => add_sides(rng, style, graph, router),
    }
}

/// Wires into a Select, mostly one to each side.
fn add_choices(rng: &mut Rng, style: &Style, graph: &mut Graph, select: u16) {
    for port in [port::INPUT_A, port::INPUT_B] {
        match rng.below(20) {
            0 => {}
            1 => graph.property(variant::INT, select, port, rich_value(rng, variant::INT)),
            2 => {
                for _ in 0..2 {
                    graph.wire((any_node(rng, graph), port::OUTPUT), (select, port));
                }
            }
            _ => {
                let source = match rng.percent(style.forward) {
                    true => rng.below(usize::from(select)) as u16,
                    false => any_node(rng, graph),
                };
                let out = source_port(rng, graph, source);
                graph.wire((source, out), (select, port));
            }
        }
    }
}

/// Wires out of a Branch, none to three from each side.
fn add_sides(rng: &mut Rng, style: &Style, graph: &mut Graph, branch: u16) {
    for side in [port::EXEC_OUT_A, port::EXEC_OUT_B] {
        for _ in 0..rng.pick(&[0, 1, 1, 1, 2, 3]) {
            let target = if rng.percent(25) {
                rng.below(style.plain) as u16
            } else if rng.percent(style.forward) {
                rng.between(usize::from(branch) + 1, graph.nodes.len()) as u16
            } else {
                any_node(rng, graph)
            };
            // One past the last stands for a node that never folds.
            let target = if usize::from(target) < graph.nodes.len() {
                target
            } else {
                0
            };
            let port = if rng.percent(90) {
                port::EXEC
            } else {
                rng.below(10) as u8
            };
            graph.wire((branch, side), (target, port));
        }
    }
}

/// Wires into the routers and out of the Selects.
fn add_entries(rng: &mut Rng, style: &Style, graph: &mut Graph) {
    for _ in 0..rng.between(1, style.routers + 2) {
        let router = (style.plain + rng.below(style.routers)) as u16;
        let plain = rng.below(style.plain) as u16;
        match graph.nodes[usize::from(router)].0 {
            class::SELECT if rng.percent(85) => {
                graph.wire((router, rng.below(10) as u8), (plain, rng.below(10) as u8));
            }
            class::SELECT => {
                let branch = any_node(rng, graph);
                graph.wire((router, port::OUTPUT), (branch, port::EXEC));
            }
            _ => {
                let source = if rng.percent(60) {
                    plain
                } else {
                    any_node(rng, graph)
                };
                let out = source_port(rng, graph, source);
                graph.wire((source, out), (router, port::EXEC));
            }
        }
    }
}

fn any_node(rng: &mut Rng, graph: &Graph) -> u16 {
    rng.below(graph.nodes.len()) as u16
}

/// A port that a node may well have wires from.
fn source_port(rng: &mut Rng, graph: &Graph, source: u16) -> u8 {
    match graph.nodes[usize::from(source)].0 {
        class::BRANCH => rng.pick(&[port::EXEC_OUT_A, port::EXEC_OUT_B, port::OUTPUT]),
        _ => port::OUTPUT,
    }
}

/// The graph with its nodes or its wires in another order, or as it is.
pub fn reordered(rng: &mut Rng, mut graph: Graph) -> Graph {
    if rng.percent(50) {
        rng.shuffle(&mut graph.wires);
    }
    if rng.percent(50) {
        let mut numbers: Vec<u16> = (0..graph.nodes.len() as u16).collect();
        rng.shuffle(&mut numbers);
        graph = graph.renumbered(&numbers);
    }
    graph
}

/// Classes of the node that wires end at: one that never folds, and a gate, which a sweep takes with them.
const LAST: [u8; 2] = [class::OTHER, class::MATH_ADD];

/// Branches that double some times, up to far beyond any list, into nothing, one node, a cycle or a dead port.
pub fn doubling(rng: &mut Rng) -> Graph {
    let times = match rng.below(10) {
        0..6 => rng.between(1, 13),
        6..9 => rng.between(14, 24),
        _ => rng.between(25, 200),
    } as u16;
    let mut graph = shapes::doubling(times);
    let last = graph.node(rng.pick(&LAST));
    for _ in 0..rng.below(3) {
        match rng.below(8) {
            0 => graph.wire(
                (times, port::EXEC_OUT_B),
                (rng.below(usize::from(times) + 1) as u16, port::EXEC),
            ),
            1 => graph.wire((times, port::EXEC_OUT_B), (times, port::INPUT_A)),
            _ => graph.wire((times, port::EXEC_OUT_B), (last, port::EXEC)),
        }
    }
    for _ in 0..rng.below(4) {
        graph.wire((0, port::OUTPUT), (last, port::INPUT_A));
    }
    reordered(rng, graph)
}

/// Wires into a Branch that takes some targets, and others, with 4,095 to 4,098 at the end; at times one of them goes
/// round in a cycle.
pub fn products(rng: &mut Rng) -> Graph {
    let wanted = limit::ANSWER_WIRES - 1 + rng.below(4);
    let entries = rng.between(2, 120);
    let targets = rng.between(1, wanted / entries);
    let mut graph = Graph::default();
    graph.node(class::OTHER);
    graph.node(rng.pick(&LAST));
    let branch = graph.node(class::BRANCH);
    graph.row(class::BRANCH, [variant::UNWIRED, 0, 0]);
    for _ in 0..entries {
        graph.wire((0, port::OUTPUT), (branch, port::EXEC));
    }
    for _ in 0..targets {
        graph.wire((branch, port::EXEC_OUT_B), (1, port::EXEC));
    }
    let others = wanted - entries * targets;
    let free = limit::WIRES - entries - targets - 1;
    for _ in 0..others.min(free) {
        graph.wire((0, port::OUTPUT), (1, rng.below(10) as u8));
    }
    if rng.percent(20) {
        let looped = graph.node(class::BRANCH);
        graph.wire((looped, port::EXEC_OUT_B), (looped, port::EXEC));
    }
    reordered(rng, graph)
}
