//! Values as document 01 writes them: a variant from 1 to 8 and little-endian bytes. The kind of a
//! property or known value is its variant and 2, but for text.
use wirescript_ir::semantics::Value;

pub const TEXT: u8 = 8;
pub const TEXT_KIND: u8 = 0x0C;
/// The bytes of a text that stand behind its length, used or not.
const TEXT_BYTES: usize = 16;

/// The kind of a property or known value of the variant.
pub fn kind(variant: u8) -> u8 {
    match variant {
        TEXT => TEXT_KIND,
        _ => variant + 2,
    }
}

/// The variant of a property of the kind.
pub fn of_kind(kind: u8) -> u8 {
    match kind {
        TEXT_KIND => TEXT,
        _ => kind - 2,
    }
}

/// Whether a text's length and bytes are as document 01 lists them: each used byte from 32 to 126,
/// the rest 0.
pub fn is_text(bytes: &[u8]) -> bool {
    let (length, chars) = (usize::from(bytes[0]), &bytes[1..=TEXT_BYTES]);
    length <= TEXT_BYTES
        && chars[..length].iter().all(|byte| (32..=126).contains(byte))
        && chars[length..].iter().all(|&byte| byte == 0)
}

/// How many bytes a value of the variant has.
pub fn length(variant: u8) -> usize {
    match variant {
        1 | 2 => 8,
        3 => 1,
        4 | 5 => 24,
        6 | 7 => 32,
        TEXT => 1 + TEXT_BYTES,
        _ => unreachable!("variant {variant} has no value"),
    }
}

pub fn variant(value: &Value) -> u8 {
    match value {
        Value::Int(_) => 1,
        Value::Float(_) => 2,
        Value::Bool(_) => 3,
        Value::Vector { .. } => 4,
        Value::Rotator { .. } => 5,
        Value::Quat { .. } => 6,
        Value::Color { .. } => 7,
        Value::Str(_) => TEXT,
    }
}

/// The value that the first `length(variant)` bytes are.
pub fn read(variant: u8, bytes: &[u8]) -> Value {
    let word = |i: usize| bytes[8 * i..8 * i + 8].try_into().expect("eight bytes");
    let float = |i: usize| f64::from_bits(u64::from_le_bytes(word(i)));
    match variant {
        1 => Value::Int(i64::from_le_bytes(word(0))),
        2 => Value::Float(float(0)),
        3 => Value::Bool(bytes[0] == 1),
        4 => Value::Vector {
            x: float(0),
            y: float(1),
            z: float(2),
        },
        5 => Value::Rotator {
            pitch: float(0),
            yaw: float(1),
            roll: float(2),
        },
        6 => Value::Quat {
            x: float(0),
            y: float(1),
            z: float(2),
            w: float(3),
        },
        7 => Value::Color {
            r: float(0),
            g: float(1),
            b: float(2),
            a: float(3),
        },
        TEXT => {
            let chars = &bytes[1..][..usize::from(bytes[0])];
            Value::Str(chars.iter().map(|&byte| char::from(byte)).collect())
        }
        _ => unreachable!("variant {variant} has no value"),
    }
}

/// Appends the bytes of a value.
pub fn write(value: &Value, out: &mut Vec<u8>) {
    let mut floats = |parts: &[f64]| {
        for part in parts {
            out.extend(part.to_bits().to_le_bytes());
        }
    };
    match value {
        Value::Int(n) => out.extend(n.to_le_bytes()),
        Value::Float(x) => floats(&[*x]),
        Value::Bool(b) => out.push(u8::from(*b)),
        Value::Vector { x, y, z } => floats(&[*x, *y, *z]),
        Value::Rotator { pitch, yaw, roll } => floats(&[*pitch, *yaw, *roll]),
        Value::Quat { x, y, z, w } => floats(&[*x, *y, *z, *w]),
        Value::Color { r, g, b, a } => floats(&[*r, *g, *b, *a]),
        Value::Str(text) => {
            let length = u8::try_from(text.len()).expect("a text of a record");
            out.push(length);
            out.extend(text.bytes().chain([0; TEXT_BYTES]).take(TEXT_BYTES));
        }
    }
}
