//! Holds the names and numbers of include/mezburiko.h to those of this package.
use mezburiko::{MAX_ANSWER, MAX_INPUT, MAX_NODES, MAX_PROPERTIES, MAX_ROWS, MAX_WIRES, Reason};

const HEADER: &str = include_str!("../../../include/mezburiko.h");

/// The lines `#define MEZBURIKO_NAME NUMBER` and `MEZBURIKO_NAME = NUMBER,` as names without prefix and numbers.
fn constants() -> Vec<(String, usize)> {
    let constant = |line: &str| {
        let line = line
            .trim()
            .trim_start_matches("#define ")
            .strip_prefix("MEZBURIKO_")?;
        let mut words = line.split([' ', ',']).filter(|word| *word != "=");
        Some((words.next()?.to_string(), words.next()?.parse().ok()?))
    };
    HEADER.lines().filter_map(constant).collect()
}

/// `CutOff` as `CUT_OFF`.
fn in_capitals(name: &str) -> String {
    let mut capitals = String::new();
    for letter in name.chars() {
        if letter.is_uppercase() && !capitals.is_empty() {
            capitals.push('_');
        }
        capitals.extend(letter.to_uppercase());
    }
    capitals
}

#[test]
fn header_has_the_same_numbers() {
    let limits = [
        ("MAX_INPUT", MAX_INPUT),
        ("MAX_NODES", MAX_NODES),
        ("MAX_WIRES", MAX_WIRES),
        ("MAX_PROPERTIES", MAX_PROPERTIES),
        ("MAX_ROWS", MAX_ROWS),
        ("MAX_ANSWER", MAX_ANSWER),
        ("ACCEPTED", 0),
    ];
    let mut wanted: Vec<(String, usize)> = limits
        .map(|(name, number)| (name.to_string(), number))
        .to_vec();
    for reason in (0..=u8::MAX).filter_map(Reason::from_number) {
        wanted.push((in_capitals(&format!("{reason:?}")), reason.number().into()));
    }
    assert_eq!(constants(), wanted);
}
