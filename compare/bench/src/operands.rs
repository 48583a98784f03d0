//! Values at random, with the special ones often.
use crate::records::variant;
use crate::rng::Rng;
use crate::texts;

const INTS: [i64; 24] = [
    0,
    0,
    1,
    1,
    -1,
    2,
    3,
    -3,
    -7,
    7,
    10,
    63,
    64,
    -64,
    (1 << 53) - 1,
    1 << 53,
    (1 << 53) + 1,
    -(1 << 53),
    -(1 << 53) - 1,
    i64::MAX,
    i64::MAX - 1,
    i64::MIN,
    i64::MIN + 1,
    0x5555_5555_5555_5555,
];
const FLOATS: [f64; 26] = [
    0.0,
    -0.0,
    1.0,
    -1.0,
    0.5,
    -0.5,
    1.5,
    2.5,
    -2.5,
    3.0,
    -6.0,
    -7.0,
    0.1,
    0.499_999_999_999_999_94,
    4_503_599_627_370_495.5,
    -4_503_599_627_370_497.5,
    9_007_199_254_740_992.0,
    1e16,
    5e-324,
    -5e-324,
    f64::MAX,
    f64::MIN,
    f64::INFINITY,
    f64::NEG_INFINITY,
    f64::NAN,
    7.25,
];
/// Variants that meet in one graph.
pub const PALETTES: [&[u8]; 9] = [
    &[1],
    &[2],
    &[3],
    &[1, 2],
    &[1, 3],
    &[1, 2, 3],
    &[2, 4],
    &[1, 2, 3, 4],
    &[1, 2, 3, 4, 5, 6, 7],
];

/// How many floats a value of each variant has.
const FLOAT_PARTS: [usize; 8] = [0, 0, 1, 0, 3, 3, 4, 4];

/// The bytes of a value of a variant.
pub fn value(rng: &mut Rng, variant: u8) -> Vec<u8> {
    match variant {
        variant::INT if rng.percent(50) => (rng.below(9) as i64 - 4).to_le_bytes().to_vec(),
        variant::INT => rng.pick(&INTS).to_le_bytes().to_vec(),
        variant::BOOL => vec![rng.below(2) as u8],
        _ => {
            let parts = FLOAT_PARTS[usize::from(variant)];
            let floats = (0..parts).flat_map(|_| rng.pick(&FLOATS).to_bits().to_le_bytes());
            floats.collect()
        }
    }
}

/// The same, with more than the listed values.
pub fn rich_value(rng: &mut Rng, variant: u8) -> Vec<u8> {
    match variant {
        variant::INT => int(rng).to_le_bytes().to_vec(),
        variant::BOOL => vec![rng.below(2) as u8],
        variant::TEXT => texts::value(&texts::any(rng)),
        _ => {
            let parts = FLOAT_PARTS[usize::from(variant)];
            let floats = (0..parts).flat_map(|_| float(rng).to_le_bytes());
            floats.collect()
        }
    }
}

/// Special Ints and those beside them, small ones, powers of two, long ones, and any.
pub fn int(rng: &mut Rng) -> i64 {
    match rng.below(14) {
        0..4 => rng.pick(&INTS).wrapping_add(rng.below(3) as i64 - 1),
        4..6 => rng.below(21) as i64 - 10,
        6 => rng.below(131) as i64 - 65,
        7 => (1i64 << rng.below(64)).wrapping_sub(rng.below(2) as i64),
        8 => rng.next() as i64 >> rng.below(64),
        9..13 => long_int(rng),
        _ => rng.next() as i64,
    }
}

/// Both ends, the floats next to them, and the Ints half way between.
const ENDS: [i64; 6] = [
    i64::MAX,
    i64::MAX - 511,
    i64::MAX - 1_023,
    i64::MIN,
    i64::MIN + 512,
    i64::MIN + 1_024,
];
/// The new motors' counters go up by it.
const STEP: i64 = 1_024;

/// An Int beyond 2^53 or at it, either way: a power of two, a multiple of 1,024 or of the distance of the floats around
/// it, half way between two of them, an odd one, an end; at times the one above or below.
fn long_int(rng: &mut Rng) -> i64 {
    let exponent = rng.between(f64::MANTISSA_DIGITS as usize, i64::BITS as usize - 2);
    let power = 1i64 << exponent;
    let distance = power >> (f64::MANTISSA_DIGITS - 1);
    let any = power | (rng.next() as i64 & (power - 1));
    let chosen = match rng.below(7) {
        0 => power,
        1..3 => any & !(STEP - 1),
        3 => any & !(distance - 1),
        4 => any & !(distance - 1) | distance / 2,
        5 => any | 1,
        _ => rng.pick(&ENDS),
    };
    let beside = rng.pick(&[0, 0, 0, 0, 0, 0, 1, -1]);
    let signed = match rng.percent(50) {
        true => chosen,
        false => chosen.wrapping_neg(),
    };
    signed.wrapping_add(beside)
}

/// The bits of zeros of either sign, of special floats and those beside them, of halves, of an Int's, and any.
fn float(rng: &mut Rng) -> u64 {
    match rng.below(10) {
        0 => rng.pick(&[0.0f64, -0.0]).to_bits(),
        1..5 => rng.pick(&FLOATS).to_bits(),
        5 => rng
            .pick(&FLOATS)
            .to_bits()
            .wrapping_add(rng.next() % 3)
            .wrapping_sub(1),
        6..8 => ((rng.below(41) as f64 - 20.0) / 2.0).to_bits(),
        8 => (int(rng) as f64).to_bits(),
        _ => rng.next(),
    }
}
