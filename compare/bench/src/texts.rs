//! Texts at random: those that are false and what looks like them, decimal forms and what looks like them, names, and any.
use crate::operands;
use crate::records::TEXT_BYTES;
use crate::rng::Rng;

/// The value of a text's record: its length, its bytes, and 0 behind them.
pub fn value(text: &[u8]) -> Vec<u8> {
    let mut value = vec![text.len() as u8];
    value.extend(text);
    value.resize(1 + TEXT_BYTES, 0);
    value
}

/// The false texts often, and such as are true though they look false.
const TRUTHS: [&[u8]; 14] = [
    b"", b"", b"0", b"0", b"false", b"false", b"False", b"FALSE", b"00", b" 0", b"0 ", b"-0",
    b"0.0", b"false ",
];
const NAMES: [&[u8]; 6] = [
    b"denim",
    b"denin",
    b"Denim",
    b"deni",
    b"twill, dark blue",
    b"true",
];
/// Ints of 15 to 17 characters, of which a text holds 16.
const LONG: [i64; 8] = [
    999_999_999_999_999,
    1_000_000_000_000_000,
    9_999_999_999_999_999,
    10_000_000_000_000_000,
    -99_999_999_999_999,
    -999_999_999_999_999,
    -1_000_000_000_000_000,
    -10_000_000_000_000_000,
];

/// The characters of a text.
pub fn any(rng: &mut Rng) -> Vec<u8> {
    match rng.below(10) {
        0..3 => rng.pick(&TRUTHS).to_vec(),
        3..6 => {
            let n = int(rng);
            beside(rng, n)
        }
        6..8 => rng.pick(&NAMES).to_vec(),
        _ => {
            let length = rng.between(0, TEXT_BYTES);
            (0..length).map(|_| char(rng)).collect()
        }
    }
}

fn char(rng: &mut Rng) -> u8 {
    match rng.below(4) {
        0 => rng.pick(b" ~"),
        1 => rng.pick(b"0123456789-"),
        _ => rng.between(usize::from(b' '), usize::from(b'~')) as u8,
    }
}

/// An Int whose decimal form a text may have, or may not for its length.
pub fn int(rng: &mut Rng) -> i64 {
    match rng.below(8) {
        0..4 => rng.below(21) as i64 - 10,
        4 => rng.pick(&LONG),
        5 => rng.pick(&[i64::MIN, i64::MAX]),
        _ => operands::int(rng),
    }
}

/// The decimal form of an Int, or nearly; as much of it as a text holds.
pub fn beside(rng: &mut Rng, n: i64) -> Vec<u8> {
    let (sign, digits) = (if n < 0 { "-" } else { "" }, n.unsigned_abs());
    let form = match rng.below(18) {
        0 => format!("{sign}0{digits}"),
        1 => format!("+{n}"),
        2 => format!("-{digits}"),
        3 => format!(" {n}"),
        4 => format!("{n} "),
        5 => format!("{n}.0"),
        6 => format!("{n}0"),
        7 => n.wrapping_add(1).to_string(),
        _ => n.to_string(),
    };
    let mut form = form.into_bytes();
    form.truncate(TEXT_BYTES);
    form
}

/// The same text, or one that differs little.
pub fn like(rng: &mut Rng, text: &[u8]) -> Vec<u8> {
    let mut like = text.to_vec();
    let at = rng.below(TEXT_BYTES) % text.len().max(1);
    match rng.below(8) {
        0 if !text.is_empty() => like[at] = char(rng),
        1 if !text.is_empty() => _ = like.remove(at),
        2 if text.len() < TEXT_BYTES => like.insert(at, char(rng)),
        3 if text.len() < TEXT_BYTES => like.push(b' '),
        _ => {}
    }
    like
}
