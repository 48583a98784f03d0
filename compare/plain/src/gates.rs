//! The gates' rules.
use crate::listing::variant::{BOOL, COLOR, FLOAT, INT, QUAT, ROTATOR, TEXT, UNWIRED, VECTOR};
use crate::listing::{TEXT_BYTES, class};
use crate::value::{Operand, Value};
use std::cmp::Ordering;

/// What a gate of a class from 6 gives; `None` for no value.
#[inline(always)]
pub fn eval(class: u8, a: Operand, b: Operand, c: Operand) -> Option<Value> {
    match class {
        class::ADD..=class::MODULO => arithmetic(class, a, b),
        class::EQUAL => equal(a, b).map(Value::Bool),
        class::NOT_EQUAL => equal(a, b).map(|e| Value::Bool(!e)),
        class::LESS..=class::GREATER_OR_EQUAL => {
            order(a, b).map(|o| Value::Bool(ordered(class, o)))
        }
        class::LOGICAL_AND..=class::LOGICAL_NOR => {
            Some(Value::Bool(logical(class, a.truthy(), b.truthy())))
        }
        class::BITWISE_AND..=class::BIT_COUNT => bitwise(class, a, b).map(Value::Int),
        _ => extended(class, a, b, c),
    }
}

/// Abs to Ceil, and Sqrt.
fn extended(class: u8, a: Operand, b: Operand, c: Operand) -> Option<Value> {
    match class {
        class::ABS | class::MIN..=class::CLAMP => limits(class, a, b, c),
        class::SIGN..=class::NEGATE => signs(class, a),
        class::MODULO_FLOORED => finite(modulo_floored(a.as_float()?, b.as_float()?)),
        class::ROUND => Some(Value::Float(a.as_float()?.round())),
        class::FLOOR => Some(Value::Float(a.as_float()?.floor())),
        class::CEIL => Some(Value::Float(a.as_float()?.ceil())),
        _ => finite(a.as_float()?.sqrt()),
    }
}

/// A non-finite float counts as 0.
fn sanitize(x: f64) -> f64 {
    if x.is_finite() { x } else { 0.0 }
}

fn finite(x: f64) -> Option<Value> {
    x.is_finite().then_some(Value::Float(x))
}

/// The float that equals an Int exactly, where there is one.
fn int_as_float(n: i64) -> Option<f64> {
    let x = n as f64;
    // The largest Int rounds to 2^63, which saturates back to it.
    (x as i64 == n && n != i64::MAX).then_some(x)
}

impl Operand<'_> {
    #[inline(always)]
    fn int(self) -> i64 {
        self.word as i64
    }

    #[inline(always)]
    fn float(self) -> f64 {
        f64::from_bits(self.word)
    }

    #[inline(always)]
    pub fn truthy(self) -> bool {
        match self.variant {
            INT | BOOL => self.word != 0,
            FLOAT => sanitize(self.float()) != 0.0,
            TEXT => self.is_true_text(),
            _ => false,
        }
    }

    #[cold]
    fn is_true_text(self) -> bool {
        !FALSE_TEXTS.contains(&self.text())
    }

    /// The bytes of a text, 0 behind its length.
    fn text(self) -> [u8; TEXT_BYTES] {
        let [low, high, ..] = self.floats.map(|part| part.to_bits().to_le_bytes());
        let mut text = [0; TEXT_BYTES];
        text.as_chunks_mut().0.copy_from_slice(&[low, high]);
        text
    }

    /// An Int or Bool as a whole number.
    #[inline(always)]
    fn as_int(self) -> Option<i64> {
        matches!(self.variant, INT | BOOL).then_some(self.int())
    }

    /// An operand of Add to Modulo as a whole number.
    #[inline(always)]
    fn whole(self) -> Option<i64> {
        matches!(self.variant, UNWIRED | INT | BOOL).then_some(self.int())
    }

    /// An Int or Float as it is.
    fn as_float(self) -> Option<f64> {
        match self.variant {
            INT => int_as_float(self.int()),
            FLOAT => Some(self.float()),
            _ => None,
        }
    }

    /// A scalar or unwired operand as a sanitized float.
    fn scalar(self) -> Option<f64> {
        match self.variant {
            UNWIRED => Some(0.0),
            INT => int_as_float(self.int()),
            FLOAT => Some(sanitize(self.float())),
            BOOL => Some(self.int() as f64),
            _ => None,
        }
    }

    /// Whether a value equals the zero of its kind.
    fn is_zero(self) -> bool {
        match self.variant {
            TEXT => self.word == 0,
            VECTOR.. => equal_parts(self, crate::value::UNWIRED),
            _ => !self.truthy(),
        }
    }
}

fn equal(a: Operand, b: Operand) -> Option<bool> {
    match (a.variant, b.variant) {
        (UNWIRED, UNWIRED) => None,
        (UNWIRED, _) => Some(b.is_zero()),
        (_, UNWIRED) => Some(a.is_zero()),
        (INT, INT) | (BOOL, BOOL) | (INT, BOOL) | (BOOL, INT) => Some(a.word == b.word),
        (FLOAT, FLOAT) | (INT, FLOAT) | (FLOAT, INT) => Some(a.scalar()? == b.scalar()?),
        (VECTOR, VECTOR) | (ROTATOR, ROTATOR) | (QUAT, QUAT) | (COLOR, COLOR) => {
            Some(equal_parts(a, b))
        }
        (TEXT, _) | (_, TEXT) => equal_text(a, b),
        _ => None,
    }
}

#[cold]
fn equal_text(a: Operand, b: Operand) -> Option<bool> {
    match (a.variant, b.variant) {
        (TEXT, TEXT) => Some(a.text() == b.text()),
        (INT, TEXT) => Some(is_decimal(b, a.int())),
        (TEXT, INT) => Some(is_decimal(a, b.int())),
        _ => None,
    }
}

/// The texts that are false: none, `0` and `false`, 0 behind them.
const FALSE_TEXTS: [[u8; TEXT_BYTES]; 3] = [
    [0; TEXT_BYTES],
    *b"0\0\0\0\0\0\0\0\0\0\0\0\0\0\0\0",
    *b"false\0\0\0\0\0\0\0\0\0\0\0",
];
/// The characters of the longest Int, the smallest.
const LONGEST: usize = 20;

/// Whether a text is the plain decimal form of an Int.
fn is_decimal(text: Operand, n: i64) -> bool {
    let mut form = [0; LONGEST];
    let mut first = LONGEST;
    let mut rest = n.unsigned_abs();
    while rest > 0 || first == LONGEST {
        first -= 1;
        form[first] = b'0' + (rest % 10) as u8;
        rest /= 10;
    }
    if n < 0 {
        first -= 1;
        form[first] = b'-';
    }
    text.text()[..text.word as usize] == form[first..]
}

/// Floats past a composite's own are 0.
fn equal_parts(a: Operand, b: Operand) -> bool {
    let mut pairs = a.floats.iter().zip(b.floats);
    pairs.all(|(x, y)| sanitize(*x) == sanitize(*y))
}

fn order(a: Operand, b: Operand) -> Option<Ordering> {
    if (a.variant, b.variant) == (INT, INT) {
        return Some(a.int().cmp(&b.int()));
    }
    a.scalar()?.partial_cmp(&b.scalar()?)
}

fn ordered(class: u8, order: Ordering) -> bool {
    match class {
        class::LESS => order.is_lt(),
        class::LESS_OR_EQUAL => order.is_le(),
        class::GREATER => order.is_gt(),
        _ => order.is_ge(),
    }
}

fn logical(class: u8, x: bool, y: bool) -> bool {
    match class {
        class::LOGICAL_AND => x && y,
        class::LOGICAL_OR => x || y,
        class::LOGICAL_XOR => x != y,
        class::LOGICAL_NOT => !x,
        class::LOGICAL_NAND => !(x && y),
        _ => !(x || y),
    }
}

#[inline(always)]
fn arithmetic(class: u8, a: Operand, b: Operand) -> Option<Value> {
    if let (Some(x), Some(y)) = (a.whole(), b.whole()) {
        return whole_arithmetic(class, x, y).map(Value::Int);
    }
    match (a.variant, b.variant) {
        (VECTOR, VECTOR) => vector_arithmetic(class, a.floats, b.floats),
        (VECTOR, _) => vector_arithmetic(class, a.floats, &[b.scalar()?; 4]),
        (_, VECTOR) => vector_arithmetic(class, &[a.scalar()?; 4], b.floats),
        _ => float_arithmetic(class, a.scalar()?, b.scalar()?).map(Value::Float),
    }
}

fn whole_arithmetic(class: u8, x: i64, y: i64) -> Option<i64> {
    match class {
        class::ADD => x.checked_add(y),
        class::SUBTRACT => x.checked_sub(y),
        class::MULTIPLY => x.checked_mul(y),
        _ if y == 0 => Some(0),
        class::DIVIDE => x.checked_div(y),
        _ => x.checked_rem(y),
    }
}

fn float_arithmetic(class: u8, x: f64, y: f64) -> Option<f64> {
    let r = float_operation(class, x, y);
    let signs_differ = (x < 0.0) != (y < 0.0);
    let refused = class == class::MODULO && signs_differ && r != 0.0 && r.is_finite();
    (!refused).then_some(r)
}

fn vector_arithmetic(class: u8, x: &[f64; 4], y: &[f64; 4]) -> Option<Value> {
    let part = |i: usize| float_operation(class, sanitize(x[i]), sanitize(y[i]));
    let parts = [part(0), part(1), part(2)];
    parts
        .iter()
        .all(|r| r.is_finite())
        .then_some(Value::Vector(parts))
}

fn float_operation(class: u8, x: f64, y: f64) -> f64 {
    match class {
        class::ADD => x + y,
        class::SUBTRACT => x - y,
        class::MULTIPLY => x * y,
        class::DIVIDE => x / y,
        _ => x % y,
    }
}

/// Abs, Min, Max and Clamp: whole where every operand is, else floats.
fn limits(class: u8, a: Operand, b: Operand, c: Operand) -> Option<Value> {
    let (b, c) = match class {
        class::ABS => (a, a),
        class::CLAMP => (b, c),
        _ => (b, b),
    };
    if let (Some(x), Some(y), Some(z)) = (a.as_int(), b.as_int(), c.as_int()) {
        return whole_limits(class, x, y, z).map(Value::Int);
    }
    let (x, y, z) = (a.as_float()?, b.as_float()?, c.as_float()?);
    finite(match class {
        class::ABS => x.abs(),
        class::MIN => min(x, y),
        class::MAX => max(x, y),
        _ => min(max(x, y), z),
    })
}

fn whole_limits(class: u8, x: i64, y: i64, z: i64) -> Option<i64> {
    match class {
        class::ABS => x.checked_abs(),
        class::MIN => Some(x.min(y)),
        class::MAX => Some(x.max(y)),
        _ => Some(x.max(y).min(z)),
    }
}

/// minimumNumber of IEEE 754-2019: the number where one operand is a NaN, else by totalOrder, in which -0.0 is below 0.0.
fn min(x: f64, y: f64) -> f64 {
    if y.is_nan() || !x.is_nan() && x.total_cmp(&y).is_lt() {
        x
    } else {
        y
    }
}

/// maximumNumber, likewise.
fn max(x: f64, y: f64) -> f64 {
    if y.is_nan() || !x.is_nan() && x.total_cmp(&y).is_gt() {
        x
    } else {
        y
    }
}

fn signs(class: u8, v: Operand) -> Option<Value> {
    match (class, v.variant) {
        (class::NEGATE, INT) => v.int().checked_neg().map(Value::Int),
        (class::NEGATE, _) => finite(-v.as_float()?),
        _ => {
            let x = v.as_float()?;
            Some(Value::Float(f64::from(
                i8::from(x > 0.0) - i8::from(x < 0.0),
            )))
        }
    }
}

fn modulo_floored(x: f64, y: f64) -> f64 {
    x - y * (x / y).floor()
}

fn bitwise(class: u8, a: Operand, b: Operand) -> Option<i64> {
    let x = a.as_int()?;
    match class {
        class::BITWISE_NOT => return Some(!x),
        class::BIT_COUNT => return Some(i64::from(x.count_ones())),
        _ => {}
    }
    let y = b.as_int()?;
    match class {
        class::BITWISE_AND => Some(x & y),
        class::BITWISE_OR => Some(x | y),
        class::BITWISE_XOR => Some(x ^ y),
        class::BITWISE_NAND => Some(!(x & y)),
        class::BITWISE_NOR => Some(!(x | y)),
        _ if !(0..64).contains(&y) => None,
        class::SHIFT_LEFT => Some(x << y),
        _ => Some(x >> y),
    }
}
