//! Questions 1 to 8 and 12 of document 01, written for the oracle alone: the input is cut into
//! records one by one, and each record is asked its questions in their order, 12 right after 4.
use crate::listing::{LABEL, LAST_CLASS, NOFOLD, is_order, row_length};
use crate::values::{TEXT, TEXT_KIND, is_text};
use std::collections::HashSet;

/// The first question that is answered with no: its number, and the offset of the record.
pub struct Refusal {
    pub number: u8,
    pub offset: usize,
}

const MAX_BYTES: usize = 65_536;
const MAX_NODES: usize = 1_024;
const MAX_WIRES: usize = 4_096;
const MAX_PROPERTIES: usize = 2_048;
const MAX_ROWS: usize = 1_024;

/// What the questions ask of the records before.
#[derive(Default)]
struct Before {
    last_kind: u8,
    nodes: usize,
    wires: usize,
    /// Node and port of each property.
    properties: HashSet<Vec<u8>>,
    rows: usize,
    annihilators: HashSet<u8>,
}

impl Before {
    fn add(&mut self, kind: u8, body: &[u8]) {
        self.last_kind = kind;
        match kind {
            0x01 => self.nodes += 1,
            0x02 => self.wires += 1,
            0x03..=0x09 | TEXT_KIND => _ = self.properties.insert(body[0..3].to_vec()),
            0x0A => self.rows += 1,
            _ => _ = self.annihilators.insert(body[0]),
        }
    }
}

pub fn validate(input: &[u8]) -> Result<(), Refusal> {
    if input.len() > MAX_BYTES {
        return Err(Refusal {
            number: 1,
            offset: 0,
        });
    }
    let mut before = Before::default();
    let mut offset = 0;
    while offset < input.len() {
        match check(&input[offset..], &mut before) {
            Ok(length) => offset += length,
            Err(number) => return Err(Refusal { number, offset }),
        }
    }
    Ok(())
}

/// Questions 2 to 8 and 12 on the record at the head of `rest`: its length, or the number that
/// refuses it.
fn check(rest: &[u8], before: &mut Before) -> Result<usize, u8> {
    let kind = rest[0];
    let body_length = body_length(kind).ok_or(2)?;
    let body = rest.get(1..1 + body_length).ok_or(3)?;
    let questions = [
        (4, every_byte_listed(kind, body)),
        (12, orders_no_text(kind, body)),
        (5, kind >= before.last_kind),
        (6, nodes_present(kind, body, before)),
        (7, not_repeated(kind, body, before)),
        (8, within_limits(kind, before)),
    ];
    match questions.iter().find(|(_, answer)| !answer) {
        Some((number, _)) => Err(*number),
        None => {
            before.add(kind, body);
            Ok(1 + body_length)
        }
    }
}

/// Question 2: a kind's body length; `None` for what is no kind.
fn body_length(kind: u8) -> Option<usize> {
    match kind {
        0x01 => Some(2),
        0x02 => Some(6),
        0x03 | 0x04 => Some(11),
        0x05 => Some(4),
        0x06 | 0x07 => Some(27),
        0x08 | 0x09 => Some(35),
        0x0A => Some(4),
        0x0B => Some(1),
        TEXT_KIND => Some(20),
        _ => None,
    }
}

/// Question 4.
fn every_byte_listed(kind: u8, body: &[u8]) -> bool {
    match (kind, body) {
        (0x01, &[class, flags]) => class <= LAST_CLASS && flags <= NOFOLD | LABEL,
        (0x02, &[_, _, source_port, _, _, target_port]) => source_port <= 9 && target_port <= 9,
        (0x05, &[_, _, port, value]) => port <= 10 && value <= 1,
        (0x03..=0x09, &[_, _, port, ..]) => port <= 10,
        (0x0A, &[class, ref variants @ ..]) => {
            (4..=LAST_CLASS).contains(&class)
                && variants.iter().all(|&v| v <= TEXT)
                && variants[row_length(class)..].iter().all(|&v| v == 0)
        }
        (0x0B, &[class]) => class == 12 || class == 13,
        (TEXT_KIND, &[_, _, port, ref text @ ..]) => port <= 10 && is_text(text),
        _ => unreachable!("kind {kind} with a body of {}", body.len()),
    }
}

/// Question 12: no row of an order gate names text.
fn orders_no_text(kind: u8, body: &[u8]) -> bool {
    kind != 0x0A || !is_order(body[0]) || !body[1..].contains(&TEXT)
}

/// Question 6. Kinds rise, so every node record stands before the records that name nodes.
fn nodes_present(kind: u8, body: &[u8], before: &Before) -> bool {
    let present =
        |at: usize| usize::from(u16::from_le_bytes([body[at], body[at + 1]])) < before.nodes;
    match kind {
        0x02 => present(0) && present(3),
        0x03..=0x09 | TEXT_KIND => present(0),
        _ => true,
    }
}

/// Question 7: no property before has its node and port, no annihilator before its class.
fn not_repeated(kind: u8, body: &[u8], before: &Before) -> bool {
    match kind {
        0x03..=0x09 | TEXT_KIND => !before.properties.contains(&body[0..3]),
        0x0B => !before.annihilators.contains(&body[0]),
        _ => true,
    }
}

/// Question 8: fewer than its limit stand before.
fn within_limits(kind: u8, before: &Before) -> bool {
    match kind {
        0x01 => before.nodes < MAX_NODES,
        0x02 => before.wires < MAX_WIRES,
        0x03..=0x09 | TEXT_KIND => before.properties.len() < MAX_PROPERTIES,
        0x0A => before.rows < MAX_ROWS,
        _ => true,
    }
}
