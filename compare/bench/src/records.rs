//! Graphs as document 01's records.

use crate::tables::{CLASS_NAMES, ORDER_GATES, RECORD_LENGTHS, VARIANT_NAMES};
pub use crate::tables::{class, flag, kind, limit, port, variant};

pub const LAST_CLASS: u8 = CLASS_NAMES.len() as u8 - 1;
pub const VARIANTS: usize = VARIANT_NAMES.len();
/// What a property's record has before its value: kind, node and port.
pub const HEAD: usize = 4;
/// The bytes of a text behind its length, used or not.
pub const TEXT_BYTES: usize = RECORD_LENGTHS[kind::TEXT as usize] - HEAD - 1;

/// The kind of a property or known value of a variant.
pub fn kind_of(variant: u8) -> u8 {
    match variant {
        variant::TEXT => kind::TEXT,
        _ => variant - variant::INT + kind::INT,
    }
}

/// The variant of a property or known value of a kind.
pub fn variant_of(kind: u8) -> u8 {
    match kind {
        kind::TEXT => variant::TEXT,
        _ => kind - kind::INT + variant::INT,
    }
}

pub fn is_property(kind: u8) -> bool {
    matches!(kind, kind::INT..=kind::COLOR | kind::TEXT)
}

/// Whether a row is one of an order gate that names text, which question 12 refuses.
pub fn orders_text(row: [u8; 4]) -> bool {
    ORDER_GATES.contains(&row[0]) && row[1..].contains(&variant::TEXT)
}

/// The parts of a graph; the property's value has the bytes that its variant asks for.
#[derive(Clone, Default)]
pub struct Graph {
    /// Class and flags.
    pub nodes: Vec<(u8, u8)>,
    /// Source node and port, target node and port.
    pub wires: Vec<(u16, u8, u16, u8)>,
    pub properties: Vec<Property>,
    /// Class and variants.
    pub rows: Vec<[u8; 4]>,
    pub annihilators: Vec<u8>,
}

#[derive(Clone)]
pub struct Property {
    pub variant: u8,
    pub node: u16,
    pub port: u8,
    pub value: Vec<u8>,
}

impl Property {
    fn record(&self) -> Vec<u8> {
        let [low, high] = self.node.to_le_bytes();
        let head = [kind_of(self.variant), low, high, self.port];
        [&head, &self.value[..]].concat()
    }
}

impl Graph {
    pub fn node(&mut self, class: u8) -> u16 {
        self.nodes.push((class, 0));
        (self.nodes.len() - 1) as u16
    }

    pub fn nodes(&mut self, class: u8, count: usize) {
        for _ in 0..count {
            self.node(class);
        }
    }

    pub fn wire(&mut self, source: (u16, u8), target: (u16, u8)) {
        self.wires.push((source.0, source.1, target.0, target.1));
    }

    pub fn property(&mut self, variant: u8, node: u16, port: u8, value: Vec<u8>) {
        self.properties.push(Property {
            variant,
            node,
            port,
            value,
        });
    }

    pub fn int(&mut self, node: u16, port: u8, value: i64) {
        self.property(variant::INT, node, port, value.to_le_bytes().to_vec());
    }

    pub fn row(&mut self, class: u8, variants: [u8; 3]) {
        let [a, b, c] = variants;
        self.rows.push([class, a, b, c]);
    }

    /// Gives node `i` the number `numbers[i]`.
    pub fn renumbered(mut self, numbers: &[u16]) -> Graph {
        let mut nodes = self.nodes.clone();
        for (node, &number) in self.nodes.iter().zip(numbers) {
            nodes[usize::from(number)] = *node;
        }
        self.nodes = nodes;
        let number = |node: &mut u16| *node = numbers[usize::from(*node)];
        for (source, _, target, _) in &mut self.wires {
            number(source);
            number(target);
        }
        for property in &mut self.properties {
            number(&mut property.node);
        }
        self
    }

    /// The records, kinds rising.
    pub fn bytes(&self) -> Vec<u8> {
        self.records().concat()
    }

    pub fn records(&self) -> Vec<Vec<u8>> {
        let mut records = Vec::new();
        for &(class, flags) in &self.nodes {
            records.push(vec![kind::NODE, class, flags]);
        }
        for &(source, source_port, target, target_port) in &self.wires {
            let ([a, b], [c, d]) = (source.to_le_bytes(), target.to_le_bytes());
            records.push(vec![kind::WIRE, a, b, source_port, c, d, target_port]);
        }
        let mut properties: Vec<&Property> = self.properties.iter().collect();
        properties.sort_by_key(|property| property.variant);
        let is_text = |property: &&Property| property.variant == variant::TEXT;
        let (texts, others): (Vec<_>, Vec<_>) = properties.into_iter().partition(is_text);
        records.extend(others.into_iter().map(Property::record));
        for &[class, a, b, c] in &self.rows {
            records.push(vec![kind::ROW, class, a, b, c]);
        }
        for &class in &self.annihilators {
            records.push(vec![kind::ANNIHILATOR, class]);
        }
        records.extend(texts.into_iter().map(Property::record));
        records
    }
}
