//! Copies of graphs with something wrong or odd in them.
use crate::records::{Graph, HEAD, TEXT_BYTES, is_property, kind, variant};
use crate::rng::Rng;
use crate::tables::{ORDER_GATES, RECORD_LENGTHS};
use crate::texts;

/// The bytes of a graph with one to three damages.
pub fn damaged(rng: &mut Rng, graph: &Graph) -> Vec<u8> {
    let mut records = graph.records();
    for _ in 0..rng.between(0, 2) {
        if !records.is_empty() {
            damage_records(rng, &mut records);
        }
    }
    let mut bytes = records.concat();
    if rng.percent(60) {
        damage_bytes(rng, &mut bytes);
    }
    bytes
}

fn damage_records(rng: &mut Rng, records: &mut Vec<Vec<u8>>) {
    let at = rng.below(records.len());
    let other = rng.below(records.len());
    match rng.below(11) {
        0 => {
            let next = (at + 1) % records.len();
            records.swap(at, next);
        }
        1 => records.swap(at, other),
        2 => {
            let copy = records[at].clone();
            records.insert(rng.pick(&[other, at + 1]), copy);
        }
        3 => {
            let moved = records.remove(at);
            records.insert(other.min(records.len()), moved);
        }
        4 => _ = records.remove(at),
        6 => repeat_property(rng, records),
        8..10 => damage_text(rng, records),
        10 => put_order_row(rng, records),
        5 => records.insert(at, vec![rng.below(16) as u8]),
        _ => {
            let record = &mut records[at];
            let byte = rng.below(record.len());
            record[byte] = rng.below(48) as u8;
        }
    }
}

/// The places of the records that are such.
fn places(records: &[Vec<u8>], is_such: impl Fn(&[u8]) -> bool) -> Vec<usize> {
    let places = (0..records.len()).filter(|&at| is_such(&records[at]));
    places.collect()
}

/// Whether a record is a property of the right length.
fn is_whole(record: &[u8]) -> bool {
    is_property(record[0]) && record.len() == RECORD_LENGTHS[usize::from(record[0])]
}

/// Puts a copy of a property or annihilator behind it; at times a Bool of the same node and port, or at the end a text.
fn repeat_property(rng: &mut Rng, records: &mut Vec<Vec<u8>>) {
    let places = places(records, |record| {
        is_whole(record) || record[0] == kind::ANNIHILATOR
    });
    if places.is_empty() {
        return;
    }
    let at = rng.pick(&places);
    let mut copy = records[at].clone();
    if is_whole(&copy) && rng.percent(30) {
        records.push(text_of(rng, &copy));
        return;
    }
    if copy[0] < kind::BOOL && rng.percent(50) {
        copy.truncate(HEAD);
        copy[0] = kind::BOOL;
        copy.push(0);
    }
    records.insert(at + 1, copy);
}

/// A text of the node and port of a property.
fn text_of(rng: &mut Rng, property: &[u8]) -> Vec<u8> {
    let mut text = property[..HEAD].to_vec();
    text[0] = kind::TEXT;
    text.extend(texts::value(&texts::any(rng)));
    text
}

/// Another length or byte for a text; where there is none, a property becomes one.
fn damage_text(rng: &mut Rng, records: &mut Vec<Vec<u8>>) {
    let mut found = places(records, |record| {
        record[0] == kind::TEXT && is_whole(record)
    });
    if found.is_empty() {
        let properties = places(records, is_whole);
        if properties.is_empty() {
            return;
        }
        let property = records.remove(rng.pick(&properties));
        let text = text_of(rng, &property);
        records.push(text);
        found.push(records.len() - 1);
    }
    let text = &mut records[rng.pick(&found)];
    let length = usize::from(text[HEAD]).min(TEXT_BYTES);
    let chars = &mut text[HEAD + 1..];
    match rng.below(6) {
        0 => chars[rng.below(TEXT_BYTES)] = rng.pick(&[31, 127, 0, 255]),
        1 if length > 0 => chars[rng.below(length)] = rng.pick(&[31, 32, 126, 127, 0, 128]),
        2 if length < TEXT_BYTES => chars[rng.between(length, TEXT_BYTES - 1)] = b'0',
        3 => text[HEAD] = rng.pick(&[TEXT_BYTES as u8 + 1, 255, 0]),
        4 => text[HEAD] = length as u8 + 1,
        _ => text[HEAD] = (length as u8).saturating_sub(1),
    }
}

/// Puts in a row of an order gate that names text, among the rows or anywhere; at times one that question 4 refuses too.
fn put_order_row(rng: &mut Rng, records: &mut Vec<Vec<u8>>) {
    let mut row = vec![
        kind::ROW,
        rng.pick(&ORDER_GATES),
        rng.below(4) as u8,
        rng.below(4) as u8,
        0,
    ];
    row[rng.between(2, 3)] = variant::TEXT;
    if rng.percent(15) {
        row[4] = variant::TEXT;
    }
    let behind = records.iter().take_while(|record| record[0] <= kind::ROW);
    let at = match rng.percent(60) {
        true => behind.count(),
        false => rng.below(records.len() + 1),
    };
    records.insert(at, row);
}

fn damage_bytes(rng: &mut Rng, bytes: &mut Vec<u8>) {
    let length = bytes.len();
    match rng.below(5) {
        0 if length > 0 => bytes[rng.below(length)] ^= 1 << rng.below(8),
        1 if length > 0 => bytes[rng.below(length)] = rng.below(256) as u8,
        2 => bytes.truncate(rng.below(length + 1)),
        3 => bytes.truncate(length.saturating_sub(rng.between(1, 3))),
        _ => {
            let more = rng.between(1, 40);
            bytes.extend((0..more).map(|_| rng.below(14) as u8));
        }
    }
}
