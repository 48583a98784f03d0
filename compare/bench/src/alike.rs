//! Which answers count as the same: all NaNs are alike and, beside the Rust, in graphs with classes 26 to 28 zeros of
//! either sign.
use crate::records::{class, kind};
use crate::tables::RECORD_LENGTHS;
use std::ops::Range;

const NAN: u64 = 0x7FF8_0000_0000_0000;
const INFINITY: u64 = 0x7FF0_0000_0000_0000;
const SIGN: u64 = 1 << 63;

/// The length of a record of this kind.
pub fn record_length(kind: u8) -> Option<usize> {
    let length = RECORD_LENGTHS.get(usize::from(kind)).copied();
    length.filter(|&length| length > 0)
}

/// An input or answer cut into records; a part that is none ends it, as one piece.
pub fn records(bytes: &[u8]) -> impl Iterator<Item = &[u8]> {
    let mut rest = bytes;
    std::iter::from_fn(move || {
        let length = record_length(*rest.first()?).unwrap_or(rest.len());
        let (record, after) = rest.split_at(length.min(rest.len()));
        rest = after;
        Some(record)
    })
}

/// The node records of an input.
pub fn nodes(input: &[u8]) -> impl Iterator<Item = &[u8]> {
    let records = input.chunks_exact(3);
    records.take_while(|record| record[0] == kind::NODE)
}

/// Where the floats of an answer's record stand.
fn floats(record: &[u8]) -> Range<usize> {
    match record[0] {
        kind::FLOAT | kind::VECTOR..=kind::COLOR => 4..record.len(),
        kind::LITERAL_FLOAT | kind::LITERAL_VECTOR => 3..record.len(),
        _ => 0..0,
    }
}

/// Whether zeros of different sign count as the same.
#[derive(Clone, Copy, Debug, PartialEq, Eq)]
pub enum Zeros {
    Signed,
    Alike,
}

/// How zeros of the Rust's answer to an input are compared: it leaves the sign open that Min, Max and Clamp give.
pub fn zeros_of_rust(input: &[u8]) -> Zeros {
    let is_open = |record: &[u8]| (class::MATH_MIN..=class::MATH_CLAMP).contains(&record[1]);
    match nodes(input).any(is_open) {
        true => Zeros::Alike,
        false => Zeros::Signed,
    }
}

/// The answer with each such float in one form.
fn normal(answer: &[u8], zeros: Zeros) -> Vec<u8> {
    let mut normal = Vec::with_capacity(answer.len());
    for record in records(answer) {
        let floats = floats(record);
        let start = normal.len() + floats.start;
        normal.extend(record);
        for bytes in normal[start..][..floats.len()].as_chunks_mut::<8>().0 {
            let bits = u64::from_le_bytes(*bytes);
            if bits & !SIGN > INFINITY {
                *bytes = NAN.to_le_bytes();
            } else if zeros == Zeros::Alike && bits == SIGN {
                *bytes = [0; 8];
            }
        }
    }
    normal
}

/// The answer with every NaN in one form.
pub fn normal_nans(answer: &[u8]) -> Vec<u8> {
    normal(answer, Zeros::Signed)
}

/// Whether an answer has a zero.
pub fn has_zero(answer: &[u8]) -> bool {
    let is_zero = |bytes: &[u8; 8]| u64::from_le_bytes(*bytes) & !SIGN == 0;
    records(answer).any(|record| record[floats(record)].as_chunks().0.iter().any(is_zero))
}

/// Whether two answers are the same but for what counts alike.
pub fn alike(x: &[u8], y: &[u8], zeros: Zeros) -> bool {
    x == y || normal(x, zeros) == normal(y, zeros)
}

/// The parts of an answer, each in the form in which it is compared.
pub const PARTS: [&str; 3] = ["known values", "fates", "wires"];

/// The parts of an answer; wires in number order where the answer is a bag.
pub fn parts(answer: &[u8], bag: bool, zeros: Zeros) -> [Vec<Vec<u8>>; 3] {
    let mut parts = [const { Vec::new() }; 3];
    for record in records(&normal(answer, zeros)) {
        let part = match record[0] {
            kind::WIRE => 2,
            kind::KEPT.. => 1,
            _ => 0,
        };
        parts[part].push(record.to_vec());
    }
    if bag {
        parts[2].sort_unstable();
    }
    parts
}
