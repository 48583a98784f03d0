//! Whole roots beside those of the standard library.
use mezburiko::{WholeRoot, whole_root};

/// The largest root of a u64.
const LARGEST: u64 = 0xFFFF_FFFF;

fn check(n: u64) {
    let wanted = WholeRoot {
        root: n.isqrt(),
        remainder: n - n.isqrt() * n.isqrt(),
    };
    assert_eq!(whole_root(n), wanted, "{n}");
}

/// The first and the last number with this root, and those in the middle.
fn check_root(root: u64) {
    for over in [0, 1, root.saturating_sub(1), root, root + 1, 2 * root] {
        check(root * root + over.min(2 * root));
    }
}

#[test]
fn small_numbers() {
    (0..100_000).for_each(check);
}

#[test]
fn powers_of_two() {
    for power in 0..64 {
        let n = 1 << power;
        [n - 1, n, n + 1].into_iter().for_each(check);
    }
    // where neighbours have one f64
    for n in (1 << 53) - 2_000..(1 << 53) + 2_000 {
        check(n);
    }
}

#[test]
fn ends_of_roots() {
    for power in 0..32 {
        let root = 1 << power;
        [root - 1, root, root + 1].into_iter().for_each(check_root);
    }
    (LARGEST - 10_000..=LARGEST).for_each(check_root);
}

#[test]
fn largest_numbers() {
    (u64::MAX - 100_000..=u64::MAX).for_each(check);
    let largest = WholeRoot {
        root: LARGEST,
        remainder: 2 * LARGEST,
    };
    assert_eq!(whole_root(u64::MAX), largest);
}

/// Numbers of every length, from a generator by Marsaglia.
#[test]
fn random_numbers() {
    let mut word = 0x9E37_79B9_7F4A_7C15_u64;
    for turn in 0..1_000_000 {
        word ^= word << 13;
        word ^= word >> 7;
        word ^= word << 17;
        check(word >> (turn % 64));
        check_root(word >> (32 + turn % 32));
    }
}
