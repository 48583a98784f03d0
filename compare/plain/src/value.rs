//! Values, and their bytes in records.
use crate::listing::{MAX_NODES, kind, variant, variant_of};

/// The bytes of a value of each variant; of a text, its length is one. Zeros fill up a power of two.
const SIZES: [u8; 16] = [0, 8, 8, 1, 24, 24, 32, 32, 17, 0, 0, 0, 0, 0, 0, 0];

#[inline(always)]
pub fn size(variant: u8) -> usize {
    usize::from(SIZES[usize::from(variant) % 16])
}

/// What a port reads: a variant and, of a scalar, its word of bits (a Bool is 0 or 1, `UNWIRED` is
/// 0), of a composite its floats, of a text its length as the word and its bytes as the bits of two
/// floats.
#[derive(Clone, Copy)]
pub struct Operand<'a> {
    pub variant: u8,
    pub word: u64,
    pub floats: &'a [f64; 4],
}

pub const UNWIRED: Operand = Operand {
    variant: variant::UNWIRED,
    word: 0,
    floats: &[0.0; 4],
};

/// What a gate gives.
pub enum Value {
    Int(i64),
    Float(f64),
    Bool(bool),
    Vector([f64; 3]),
}

/// The known values, as operands. Every table starts as zeros.
pub struct Known {
    /// `UNWIRED` where nothing is known.
    variants: [u8; MAX_NODES],
    words: [u64; MAX_NODES],
    /// Four to a node.
    floats: [f64; 4 * MAX_NODES],
    /// The bytes of all known values.
    pub bytes: usize,
    pub count: usize,
}

impl Known {
    #[inline(always)]
    pub fn nothing() -> Self {
        Known {
            variants: [variant::UNWIRED; MAX_NODES],
            words: [0; MAX_NODES],
            floats: [0.0; 4 * MAX_NODES],
            bytes: 0,
            count: 0,
        }
    }

    #[inline(always)]
    pub fn variant(&self, node: usize) -> u8 {
        self.variants[node % MAX_NODES]
    }

    #[inline(always)]
    pub fn has(&self, node: usize) -> bool {
        self.variant(node) != variant::UNWIRED
    }

    /// The value of a node, `UNWIRED` where it has none.
    #[inline(always)]
    pub fn get(&self, node: usize) -> Operand<'_> {
        Operand {
            variant: self.variants[node % MAX_NODES],
            word: self.words[node % MAX_NODES],
            floats: &self.floats.as_chunks().0[node % MAX_NODES],
        }
    }

    #[inline(always)]
    fn put_variant(&mut self, node: usize, variant: u8) -> usize {
        self.variants[node % MAX_NODES] = variant;
        self.bytes += size(variant);
        self.count += 1;
        size(variant)
    }

    #[inline(always)]
    fn put_word(&mut self, node: usize, variant: u8, word: u64) -> usize {
        self.words[node % MAX_NODES] = word;
        self.put_variant(node, variant)
    }

    fn put_floats(&mut self, node: usize, variant: u8, word: u64, floats: [f64; 4]) -> usize {
        self.floats.as_chunks_mut().0[node % MAX_NODES] = floats;
        self.put_word(node, variant, word)
    }

    /// Gives an unknown node a value and gives the bytes of that.
    #[inline(always)]
    pub fn put(&mut self, node: usize, value: Value) -> usize {
        match value {
            Value::Int(n) => self.put_word(node, variant::INT, n as u64),
            Value::Float(x) => self.put_word(node, variant::FLOAT, x.to_bits()),
            Value::Bool(b) => self.put_word(node, variant::BOOL, u64::from(b)),
            Value::Vector([x, y, z]) => self.put_floats(node, variant::VECTOR, 0, [x, y, z, 0.0]),
        }
    }

    /// Gives an unknown node the value of another.
    pub fn copy(&mut self, node: usize, from: usize) -> usize {
        let Operand {
            variant,
            word,
            floats,
        } = self.get(from);
        match variant {
            variant::VECTOR.. => self.put_floats(node, variant, word, *floats),
            _ => self.put_word(node, variant, word),
        }
    }

    /// Gives an unknown node the value of a property record.
    pub fn put_property(&mut self, node: usize, record: &[u8]) -> usize {
        let variant = variant_of(record[0]);
        match variant {
            variant::VECTOR.. => {
                let (word, floats) = word_and_floats(record);
                self.put_floats(node, variant, word, floats)
            }
            _ => self.put_word(node, variant, scalar_word(record)),
        }
    }

    /// Writes a record of a head and a known value to the front of `out`, and gives its length.
    #[inline(always)]
    pub fn write<const HEAD: usize>(&self, node: usize, head: [u8; HEAD], out: &mut [u8]) -> usize {
        let Operand {
            variant,
            word,
            floats,
        } = self.get(node);
        if variant <= variant::FLOAT {
            let (start, rest) = out[..HEAD + 8].split_at_mut(HEAD);
            start.copy_from_slice(&head);
            rest.copy_from_slice(&word.to_le_bytes());
        } else {
            let (start, rest) = out[..HEAD + size(variant)].split_at_mut(HEAD);
            start.copy_from_slice(&head);
            write_rare(rest, word, floats);
        }
        HEAD + size(variant)
    }
}

// A Bool and a text begin with one byte, their word. Floats are behind it, or alone.

/// Writes a Bool, a composite or a text, which fills `out`.
fn write_rare(out: &mut [u8], word: u64, floats: &[f64; 4]) {
    let (first, parts) = out.split_at_mut(out.len() % 8);
    if let [byte] = first {
        *byte = word as u8;
    }
    for (bytes, part) in parts.as_chunks_mut().0.iter_mut().zip(floats) {
        *bytes = part.to_bits().to_le_bytes();
    }
}

/// The word and the floats of a composite or text.
#[inline(never)]
fn word_and_floats(record: &[u8]) -> (u64, [f64; 4]) {
    let size = size(variant_of(record[0]));
    let (first, parts) = record[4..4 + size].split_at(size % 8);
    let mut floats = [0.0; 4];
    for (float, bytes) in floats.iter_mut().zip(parts.as_chunks().0) {
        *float = f64::from_bits(u64::from_le_bytes(*bytes));
    }
    (first.first().map_or(0, |&byte| u64::from(byte)), floats)
}

/// The value of a property record, with `held` for the floats of a composite or text.
#[inline(always)]
pub fn read<'a>(record: &[u8], held: &'a mut [f64; 4]) -> Operand<'a> {
    let variant = variant_of(record[0]);
    let word = match variant {
        variant::VECTOR.. => {
            let word;
            (word, *held) = word_and_floats(record);
            word
        }
        _ => scalar_word(record),
    };
    Operand {
        variant,
        word,
        floats: held,
    }
}

#[inline(always)]
fn scalar_word(record: &[u8]) -> u64 {
    match record[0] {
        kind::BOOL => u64::from(record[4]),
        _ => u64::from_le_bytes(*record[4..].first_chunk().expect("a whole record")),
    }
}
