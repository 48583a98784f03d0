//! Document 01's records to the Rust's `Module` and `CertifiedTable`, and the Rust's result to the
//! answer's records.
use crate::{listing, values};
use std::sync::Arc;
use wirescript::collections::{HashMap, HashSet};
use wirescript::intern::{Sym, sym};
use wirescript::ir::port_registry::WirePort;
use wirescript::ir::{GateIO, Literal, Module, Node, NodeId, PortRef, Wire};
use wirescript_ir::semantics::{AnnihilatorKind, CertifiedTable, Value};

pub struct Graph {
    pub classes: Vec<u8>,
    /// The nodes that a label names.
    pub labelled: HashSet<NodeId>,
    pub module: Module,
    pub table: CertifiedTable,
    /// The offset of each wire record.
    pub wire_offsets: Vec<usize>,
}

/// The graph of an input that questions 1 to 8 and 12 accept.
pub fn read(input: &[u8]) -> Graph {
    let mut classes = Vec::new();
    let mut labelled = HashSet::default();
    let mut properties: Vec<HashMap<Sym, Literal>> = Vec::new();
    let mut module = Module::new("graph");
    let mut table = CertifiedTable::empty();
    let mut wire_offsets = Vec::new();
    let mut offset = 0;
    while offset < input.len() {
        let kind = input[offset];
        let body = &input[offset + 1..];
        let body_length = match kind {
            0x01 => {
                if body[1] & listing::LABEL != 0 {
                    labelled.insert(node_id(classes.len()));
                }
                classes.push(body[0]);
                let nofold = (body[1] & listing::NOFOLD != 0)
                    .then_some((*sym::NO_FOLD, Literal::Bool(true)));
                properties.push(nofold.into_iter().collect());
                2
            }
            0x02 => {
                module.add_wire(Wire {
                    source: end(&body[0..3]),
                    target: end(&body[3..6]),
                });
                wire_offsets.push(offset);
                6
            }
            0x0A => {
                let variants = &body[1..1 + listing::row_length(body[0])];
                let signature = variants
                    .iter()
                    .map(|&v| listing::VARIANTS[usize::from(v)])
                    .collect();
                table.add_row(listing::CLASSES[usize::from(body[0])], signature);
                4
            }
            0x0B => {
                let settled_by_false = body[0] == listing::LOGICAL_AND;
                let annihilator = if settled_by_false {
                    AnnihilatorKind::AndFalse
                } else {
                    AnnihilatorKind::OrTrue
                };
                table.add_annihilator(listing::CLASSES[usize::from(body[0])], annihilator);
                1
            }
            _ => {
                let variant = values::of_kind(kind);
                let literal = values::read(variant, &body[3..]).to_literal();
                properties[number(body)].insert(property_name(body[2]), literal);
                3 + values::length(variant)
            }
        };
        offset += 1 + body_length;
    }
    add_nodes(&mut module, &classes, properties);
    Graph {
        classes,
        labelled,
        module,
        table,
        wire_offsets,
    }
}

/// Nodes of a class share their ports, as instances of a gate do in the Rust.
fn add_nodes(module: &mut Module, classes: &[u8], properties: Vec<HashMap<Sym, Literal>>) {
    let mut ports: HashMap<u8, Arc<GateIO>> = HashMap::default();
    for (i, (&class, properties)) in classes.iter().zip(properties).enumerate() {
        let io = ports
            .entry(class)
            .or_insert_with(|| Arc::new(listing::gate_io(class)));
        module.add_node(Node::new(
            node_id(i),
            listing::node_kind(class),
            listing::CLASSES[usize::from(class)],
            Arc::clone(io),
            properties,
            None,
            None,
        ));
    }
}

fn node_id(number: usize) -> NodeId {
    NodeId(u32::try_from(number).expect("a node number has 16 bits"))
}

fn number(bytes: &[u8]) -> usize {
    usize::from(u16::from_le_bytes([bytes[0], bytes[1]]))
}

fn end(bytes: &[u8]) -> PortRef {
    node_id(number(bytes)).port(listing::PORTS[usize::from(bytes[2])])
}

fn property_name(port: u8) -> Sym {
    if port == listing::VALUE {
        *sym::VALUE
    } else {
        listing::PORTS[usize::from(port)].sym()
    }
}

/// The known values and the fates, in the answer's records. `module` is what `apply` left.
pub fn known_and_fates(classes: &[u8], known: &HashMap<NodeId, Value>, module: &Module) -> Vec<u8> {
    let mut out = Vec::new();
    for i in 0..classes.len() {
        if let Some(value) = known.get(&node_id(i)) {
            out.push(values::kind(values::variant(value)));
            put_number(i, &mut out);
            out.push(listing::VALUE);
            values::write(value, &mut out);
        }
    }
    for (i, &class) in classes.iter().enumerate() {
        match module.get(node_id(i)) {
            None => put_fate(0x11, i, &mut out),
            Some(node) if node.gate_class == listing::CLASSES[usize::from(class)] => {
                put_fate(0x10, i, &mut out);
            }
            Some(node) => {
                let value = made_literal(node);
                let variant = values::variant(&value);
                assert!(
                    variant <= 4,
                    "document 01 has no fate for variant {variant}"
                );
                put_fate(0x11 + variant, i, &mut out);
                values::write(&value, &mut out);
            }
        }
    }
    out
}

/// The value of a node that `apply` made a literal.
fn made_literal(node: &Node) -> Value {
    assert_eq!(
        node.gate_class,
        listing::CLASSES[usize::from(listing::LITERAL)]
    );
    Value::from_literal(&node.properties[&*sym::VALUE]).expect("a value was planned")
}

/// Appends wires as records.
pub fn put_wires(wires: &[Wire], out: &mut Vec<u8>) {
    for wire in wires {
        out.push(0x02);
        for end in [wire.source, wire.target] {
            put_number(end.node_id.0 as usize, out);
            out.push(port_number(end.port));
        }
    }
}

fn port_number(port: WirePort) -> u8 {
    let number = listing::PORTS.iter().position(|&p| p == port);
    number.expect("rewriting uses the ports of the input") as u8
}

fn put_fate(kind: u8, node: usize, out: &mut Vec<u8>) {
    out.push(kind);
    put_number(node, out);
}

fn put_number(node: usize, out: &mut Vec<u8>) {
    out.extend(
        u16::try_from(node)
            .expect("a node number has 16 bits")
            .to_le_bytes(),
    );
}
