//! Questions 1 to 8 and 12, asked in one pass over the input, which also fills the index.
//!
//! Kinds rise, so the input is read in runs of one kind. A run ends at the first record that is not
//! one more of its kind and in order; where no run takes the record up, `Reader::refusal` says why.
use crate::Refusal;
use crate::index::{Index, PortRef};
use crate::listing::*;

/// The node and wire records of an input that the questions let through.
pub struct Graph<'a> {
    pub input: &'a [u8],
    pub nodes: &'a [[u8; 3]],
    pub wires: &'a [[u8; 7]],
}

impl Graph<'_> {
    /// The offset of a wire record.
    pub fn wire_offset(&self, wire: usize) -> usize {
        3 * self.nodes.len() + 7 * wire
    }
}

/// Decodes an input into an empty index.
pub fn decode<'a>(input: &'a [u8], index: &mut Index) -> Result<Graph<'a>, Refusal> {
    if input.len() > MAX_BYTES {
        return Err((1, 0));
    }
    let mut reader = Reader::new(input);
    reader.read_nodes();
    reader.read_wires(index);
    for kind in kind::INT..=kind::COLOR {
        reader.read_properties(kind, index);
    }
    reader.read_rows(index);
    reader.read_annihilators(index);
    reader.read_properties(kind::TEXT, index);
    if reader.at < input.len() {
        return Err((reader.refusal(index), reader.at));
    }
    let (nodes, rest) = input.split_at(3 * reader.nodes);
    let wires = &rest[..7 * reader.wires];
    Ok(Graph {
        input,
        nodes: nodes.as_chunks().0,
        wires: wires.as_chunks().0,
    })
}

struct Reader<'a> {
    input: &'a [u8],
    at: usize,
    nodes: usize,
    wires: usize,
    properties: usize,
    rows: usize,
    /// Of each node, a bit for each port that has a property.
    seen: [u16; MAX_NODES],
}

impl<'a> Reader<'a> {
    #[inline(always)]
    fn new(input: &'a [u8]) -> Self {
        Reader {
            input,
            at: 0,
            nodes: 0,
            wires: 0,
            properties: 0,
            rows: 0,
            seen: [0; MAX_NODES],
        }
    }

    /// What is ahead, cut into records of this length.
    #[inline(always)]
    fn ahead<const LENGTH: usize>(&self) -> &'a [[u8; LENGTH]] {
        self.input[self.at..].as_chunks().0
    }

    /// Takes up records from the front as long as `accept` takes them, at most so many: how many.
    #[inline(always)]
    fn read<const LENGTH: usize>(
        &mut self,
        most: usize,
        mut accept: impl FnMut(usize, &[u8; LENGTH]) -> bool,
    ) -> usize {
        let mut count = 0;
        for record in self.ahead().iter().take(most) {
            if !accept(count, record) {
                break;
            }
            count += 1;
        }
        self.at += LENGTH * count;
        count
    }

    fn read_nodes(&mut self) {
        self.nodes = self.read(MAX_NODES, |_, &[kind, class, flags]| {
            kind == kind::NODE && node_listed(class, flags)
        });
    }

    #[inline(always)]
    fn read_wires(&mut self, index: &mut Index) {
        let nodes = self.nodes as u16;
        let mut before = (nodes, nodes);
        self.wires = self.read(MAX_WIRES, |number, wire| {
            let (source, target) = (wire_source(wire), wire_target(wire));
            let accepted = wire[0] == kind::WIRE
                && ports_listed(wire[3], wire[6])
                && source < nodes
                && target < nodes;
            if accepted {
                index.add_feed(PortRef::new(source, wire[3]), target, wire[6]);
                // The wires between two nodes mostly stand together, and one makes a consumer.
                if before != (source, target) {
                    index.add_consumer(number, source, target);
                    before = (source, target);
                }
            }
            accepted
        });
    }

    fn read_properties(&mut self, kind: u8, index: &mut Index) {
        let length = usize::from(LENGTHS[usize::from(kind)]);
        while let Some(record) = self.input[self.at..].get(..length) {
            if record[0] != kind || !property_listed(record) || self.properties == MAX_PROPERTIES {
                return;
            }
            let (node, port) = (number(record, 1), record[3]);
            if node >= self.nodes || self.has_property(node, port) {
                return;
            }
            self.seen[node] |= 1 << port;
            index.add_property(self.properties, node, port, self.at);
            self.properties += 1;
            self.at += length;
        }
    }

    fn read_rows(&mut self, index: &mut Index) {
        self.rows = self.read(MAX_ROWS, |_, &[kind, class, a, b, c]| {
            let accepted =
                kind == kind::ROW && row_listed(class, a, b, c) && !orders_text(class, a, b);
            if accepted {
                index.add_row(class, a, b, c);
            }
            accepted
        });
    }

    fn read_annihilators(&mut self, index: &mut Index) {
        self.read(MAX_BYTES, |_, &[kind, class]| {
            let accepted = kind == kind::ANNIHILATOR
                && annihilator_listed(class)
                && !index.has_annihilator(class);
            if accepted {
                index.add_annihilator(class);
            }
            accepted
        });
    }

    fn has_property(&self, node: usize, port: u8) -> bool {
        self.seen[node] & 1 << port != 0
    }

    /// The number of the first question that the record ahead fails.
    #[cold]
    fn refusal(&self, index: &Index) -> u8 {
        let rest = &self.input[self.at..];
        let kind = rest[0];
        let Some(length) = record_length(kind) else {
            return 2;
        };
        let Some(record) = rest.get(..length) else {
            return 3;
        };
        if !listed(record) {
            4
        } else if kind == kind::ROW && orders_text(record[1], record[2], record[3]) {
            12
        } else if kind < self.kind_before() {
            5
        } else if !self.nodes_present(record) {
            6
        } else if self.repeats(record, index) {
            7
        } else {
            8
        }
    }

    /// The kind of the record before the one ahead.
    fn kind_before(&self) -> u8 {
        let (mut at, mut kind) = (0, 0);
        while at < self.at {
            kind = self.input[at];
            at += usize::from(LENGTHS[usize::from(kind)]);
        }
        kind
    }

    fn nodes_present(&self, record: &[u8]) -> bool {
        match record[0] {
            kind::WIRE => number(record, 1) < self.nodes && number(record, 4) < self.nodes,
            kind::INT..=kind::COLOR | kind::TEXT => number(record, 1) < self.nodes,
            _ => true,
        }
    }

    fn repeats(&self, record: &[u8], index: &Index) -> bool {
        match record[0] {
            kind::INT..=kind::COLOR | kind::TEXT => self.has_property(number(record, 1), record[3]),
            kind::ANNIHILATOR => index.has_annihilator(record[1]),
            _ => false,
        }
    }
}

fn number(record: &[u8], at: usize) -> usize {
    usize::from(u16::from_le_bytes([record[at], record[at + 1]]))
}

// Two bytes taken as one array are one load.

#[inline(always)]
pub fn wire_source(wire: &[u8; 7]) -> u16 {
    u16::from_le_bytes(*wire[1..].first_chunk().expect("two of seven"))
}

#[inline(always)]
pub fn wire_target(wire: &[u8; 7]) -> u16 {
    u16::from_le_bytes(*wire[4..].first_chunk().expect("two of seven"))
}

/// Question 4.
fn listed(record: &[u8]) -> bool {
    match *record {
        [kind::NODE, class, flags] => node_listed(class, flags),
        [kind::WIRE, _, _, source, _, _, target] => ports_listed(source, target),
        [kind::ROW, class, a, b, c] => row_listed(class, a, b, c),
        [kind::ANNIHILATOR, class] => annihilator_listed(class),
        _ => property_listed(record),
    }
}

#[inline(always)]
fn node_listed(class: u8, flags: u8) -> bool {
    usize::from(class) < CLASSES && flags <= flag::NOFOLD | flag::LABEL
}

#[inline(always)]
fn ports_listed(source: u8, target: u8) -> bool {
    source <= LAST_WIRE_PORT && target <= LAST_WIRE_PORT
}

#[inline(always)]
fn property_listed(record: &[u8]) -> bool {
    record[3] <= LAST_PORT
        && match record[0] {
            kind::BOOL => record[4] <= 1,
            kind::TEXT => text_listed(&record[4..]),
            _ => true,
        }
}

/// Whether a text's used bytes are from space to ~, and the rest 0.
fn text_listed(text: &[u8]) -> bool {
    let (length, chars) = (usize::from(text[0]), &text[1..]);
    length <= TEXT_BYTES
        && chars[..length]
            .iter()
            .all(|char| (b' '..=b'~').contains(char))
        && chars[length..].iter().all(|&char| char == 0)
}

fn row_listed(class: u8, a: u8, b: u8, c: u8) -> bool {
    let has_rows = class >= class::SELECT && usize::from(class) < CLASSES;
    let variants = [a, b, c].iter().all(|&v| usize::from(v) < VARIANTS);
    let unused = match row_length(class) {
        1 => b == 0 && c == 0,
        2 => c == 0,
        _ => true,
    };
    has_rows && variants && unused
}

/// Question 12: whether a row of an order gate, which has two variants, names text.
fn orders_text(class: u8, a: u8, b: u8) -> bool {
    (class::LESS..=class::GREATER_OR_EQUAL).contains(&class)
        && (a == variant::TEXT || b == variant::TEXT)
}

fn annihilator_listed(class: u8) -> bool {
    matches!(class, class::LOGICAL_AND | class::LOGICAL_OR)
}
