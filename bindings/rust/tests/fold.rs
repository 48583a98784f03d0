//! What the package gives for accepted and refused inputs, and what it does to the buffer.
use std::error::Error;
use std::thread;

use mezburiko::{
    Folded, MAX_ANSWER, MAX_INPUT, MAX_NODES, MAX_WIRES, Reason, Refusal, fold, fold_swept,
    fold_swept_to_vec, fold_to_vec,
};

type Fold = fn(&[u8], &mut [u8]) -> Result<Folded, Refusal>;
type ToVec = fn(&[u8]) -> Result<(Vec<u8>, usize), Refusal>;

/// The folds, each in its two forms.
const FOLDS: [(Fold, ToVec); 2] = [(fold, fold_to_vec), (fold_swept, fold_swept_to_vec)];

const WORKED: &str = "010100 011200 010000 02000000010002 02010000020002 0300000A0200000000000000 \
                      030100030500000000000000 0A12010100";
const WORKED_ANSWER: &str = "0300000A0200000000000000 0301000A0700000000000000 100000 1201000700000000000000 100200 \
                             02010000020002";
/// The Literal feeds nothing, as the sum is a literal.
const WORKED_SWEPT: &str = "0300000A0200000000000000 0301000A0700000000000000 110000 1201000700000000000000 100200 \
                            02010000020002";

/// Literals "denim" and 407, and Equals of them with "denim" and "407".
const CLOTH: &str = "010100 010600 010100 010600 02000000010002 02020000030002 0302000A9701000000000000 \
                     0A06080800 0A06010800 0C00000A0564656E696D0000000000000000000000 \
                     0C0100030564656E696D0000000000000000000000 0C0300030334303700000000000000000000000000";
const CLOTH_ANSWER: &str = "0C00000A0564656E696D0000000000000000000000 0501000A01 0302000A9701000000000000 0503000A01 \
                            100000 14010001 100200 14030001";

/// A Literal 7 and a node of no class that folds, which a Negate reads and no one reads that; a Literal 9 with a label, an
/// Add with nofold and a Literal with both; a Round and a Floor in a loop; a Literal without a value.
const SPARE: &str = "010100 010102 011900 011201 011E00 011F00 010000 010100 010103 \
                     02000000020002 02040000050002 02050000040002 02060000020003 \
                     0300000A0700000000000000 0301000A0900000000000000";
const SPARE_SWEPT: &str = "0300000A0700000000000000 0301000A0900000000000000 \
                           110000 100100 110200 100300 100400 100500 100600 110700 100800 \
                           02040000050002 02050000040002";

fn bytes(hex: &str) -> Vec<u8> {
    let digits: Vec<u8> = hex
        .bytes()
        .filter(|byte| !byte.is_ascii_whitespace())
        .collect();
    let byte = |pair: &[u8]| u8::from_str_radix(str::from_utf8(pair).unwrap(), 16).unwrap();
    digits.chunks(2).map(byte).collect()
}

/// Document 01's numbers of refusals.
const NUMBERS: [u8; 11] = [1, 2, 3, 4, 5, 6, 7, 8, 9, 10, 12];

/// A buffer in which every byte differs from its neighbours.
fn painted(length: usize) -> Vec<u8> {
    (0..length).map(|at| (at * 7 + 0xA5) as u8).collect()
}

/// So many wires into a Branch that takes so many targets, all of them a Negate that feeds nothing.
fn fanned(wires: usize) -> Vec<u8> {
    let graph = "010000 010500 011900".to_string()
        + &"02000000010001".repeat(wires)
        + &"02010006020002".repeat(wires)
        + "0501000501 0A05030000";
    bytes(&graph)
}

/// An input for each refusal, in the order of their numbers.
fn refused_inputs() -> Vec<(Vec<u8>, Reason, usize)> {
    vec![
        (vec![0; MAX_INPUT + 1], Reason::InputTooLong, 0),
        (vec![0; MAX_INPUT], Reason::UnknownKind, 0),
        (bytes("010000 0100"), Reason::CutOff, 3),
        (bytes("010000 012B00"), Reason::Unlisted, 3),
        (
            bytes("010000 02000000000002 010000"),
            Reason::OutOfOrder,
            10,
        ),
        (bytes("010000 02000000010002"), Reason::MissingNode, 3),
        (bytes("010000 0500000201 0500000200"), Reason::Repeated, 8),
        (
            bytes("010000").repeat(MAX_NODES + 1),
            Reason::TooMany,
            3 * MAX_NODES,
        ),
        (
            bytes("010500 010000 02000007010001 02000007000001 0500000500 0A05030000"),
            Reason::Endless,
            13,
        ),
        (fanned(65), Reason::NoSpace, 0),
        (
            bytes("010000 0A08010100 0A0B010800"),
            Reason::OrderedText,
            8,
        ),
    ]
}

/// Vectors that fold, with all wires into a Literal of the longest kind. Labels name all of them.
fn longest_answer_graph() -> Vec<u8> {
    let last = (MAX_NODES - 1) as u16;
    let mut graph = bytes("011202").repeat(MAX_NODES - 1);
    graph.extend(bytes("010102"));
    let mut wire = bytes("02000000000002");
    wire[4..6].copy_from_slice(&last.to_le_bytes());
    graph.extend(wire.repeat(MAX_WIRES));
    for node in 0..last {
        graph.push(0x06);
        graph.extend(node.to_le_bytes());
        graph.push(2);
        graph.extend(
            [1.0, 2.0, f64::from(node)]
                .map(f64::to_le_bytes)
                .as_flattened(),
        );
    }
    graph.push(0x08);
    graph.extend(last.to_le_bytes());
    graph.push(10);
    graph.extend([0; 32]);
    graph.extend(bytes("0A12040000"));
    graph
}

#[test]
fn worked_example() {
    for ((fold, to_vec), answer) in FOLDS.into_iter().zip([WORKED_ANSWER, WORKED_SWEPT]) {
        let mut out = painted(100);
        assert_eq!(
            fold(&bytes(WORKED), &mut out),
            Ok(Folded {
                length: 48,
                pops: 3
            })
        );
        assert_eq!(out[..48], bytes(answer));
        assert_eq!(out[48..], painted(100)[48..], "bytes past the answer");
        assert_eq!(to_vec(&bytes(WORKED)), Ok((bytes(answer), 3)));
    }
}

#[test]
fn what_feeds_nothing() {
    assert_eq!(
        fold_swept_to_vec(&bytes(SPARE)),
        Ok((bytes(SPARE_SWEPT), 9))
    );
    // the wires and fates of the fold are all there without the stage
    let (answer, pops) = fold_to_vec(&bytes(SPARE)).unwrap();
    assert_eq!((answer.len(), pops), (bytes(SPARE_SWEPT).len() + 2 * 7, 9));
}

/// Either flag on the Negate keeps it and what feeds it, and all of the fold but a Literal without a value stays.
#[test]
fn flags_keep() {
    for flags in 1..=3 {
        let mut graph = bytes(SPARE);
        graph[8] = flags;
        let (mut answer, pops) = fold_to_vec(&graph).unwrap();
        let valueless = 2 * 12 + 7 * 3;
        assert_eq!(answer[valueless..valueless + 3], [0x10, 7, 0]);
        answer[valueless] = 0x11;
        assert_eq!(fold_swept_to_vec(&graph), Ok((answer, pops)));
    }
}

/// Wires count before nodes are taken, and the answer's bytes after it.
#[test]
fn no_space_swept() {
    let swept = bytes("100000 110100 110200");
    assert_eq!(fold_swept_to_vec(&fanned(64)), Ok((swept.clone(), 3)));
    let mut out = painted(swept.len());
    let refusal = fold_swept(&fanned(65), &mut out).unwrap_err();
    assert_eq!(refusal.reason, Reason::NoSpace);
    let refusal = fold(&fanned(64), &mut out).unwrap_err();
    assert_eq!(refusal.reason, Reason::NoSpace);
    let refusal = fold_swept(&fanned(64), &mut out[1..]).unwrap_err();
    assert_eq!(refusal.reason, Reason::NoSpace);
    assert_eq!(out, painted(swept.len()), "a refusal touched the buffer");
    assert!(fold_swept(&fanned(64), &mut out).is_ok());
    assert_eq!(out, swept);
}

#[test]
fn texts() {
    assert_eq!(fold_to_vec(&bytes(CLOTH)), Ok((bytes(CLOTH_ANSWER), 4)));
    // the length is beyond 16
    let long = bytes("010100 0C00000A1161616161616161616161616161616161");
    let refusal = Refusal {
        reason: Reason::Unlisted,
        place: 3,
    };
    assert_eq!(fold_to_vec(&long), Err(refusal));
}

#[test]
fn empty_input() {
    let nothing = Folded { length: 0, pops: 0 };
    for (fold, to_vec) in FOLDS {
        assert_eq!(fold(&[], &mut []), Ok(nothing));
        let mut out = painted(10);
        assert_eq!(fold(&[], &mut out[10..]), Ok(nothing));
        assert_eq!(fold(&bytes(WORKED)[..0], &mut out), Ok(nothing));
        assert_eq!(out, painted(10));
        assert_eq!(to_vec(&[]), Ok((vec![], 0)));
    }
}

#[test]
fn refusals() {
    for (number, (input, reason, place)) in NUMBERS.into_iter().zip(refused_inputs()) {
        assert_eq!(reason.number(), number);
        for (fold, to_vec) in FOLDS {
            let mut out = painted(MAX_ANSWER);
            assert_eq!(fold(&input, &mut out), Err(Refusal { reason, place }));
            assert!(out == painted(MAX_ANSWER), "{reason:?} touched the buffer");
            assert_eq!(to_vec(&input), Err(Refusal { reason, place }));
        }
    }
    assert_eq!(refused_inputs().len(), NUMBERS.len());
}

#[test]
fn buffer_lengths() {
    let no_space = Err(Refusal {
        reason: Reason::NoSpace,
        place: 0,
    });
    for ((fold, _), answer) in FOLDS.into_iter().zip([WORKED_ANSWER, WORKED_SWEPT]) {
        let mut out = painted(48);
        assert_eq!(fold(&bytes(WORKED), &mut []), no_space);
        assert_eq!(fold(&bytes(WORKED), &mut out[..47]), no_space);
        assert_eq!(out, painted(48));
        assert_eq!(
            fold(&bytes(WORKED), &mut out),
            Ok(Folded {
                length: 48,
                pops: 3
            })
        );
        assert_eq!(out, bytes(answer));
    }
}

#[test]
fn longest_answer() {
    let graph = longest_answer_graph();
    for (fold, to_vec) in FOLDS {
        let mut out = painted(MAX_ANSWER);
        let refused = fold(&graph, &mut out[1..]);
        assert!(refused.is_err_and(|refusal| refusal.reason == Reason::NoSpace));
        assert!(out == painted(MAX_ANSWER));
        assert_eq!(
            fold(&graph, &mut out),
            Ok(Folded {
                length: MAX_ANSWER,
                pops: MAX_NODES
            })
        );
        assert!(to_vec(&graph) == Ok((out, MAX_NODES)));
    }
}

/// Each thread has 256 KB of stack.
#[test]
fn threads() {
    let mut inputs: Vec<Vec<u8>> = refused_inputs()
        .into_iter()
        .map(|(input, ..)| input)
        .collect();
    inputs.extend([bytes(WORKED), bytes(SPARE), longest_answer_graph()]);
    let both = |input: &Vec<u8>| FOLDS.map(|(_, to_vec)| to_vec(input));
    let alone: Vec<_> = inputs.iter().map(both).collect();
    let repeat = || {
        for turn in 0..inputs.len() * 10 {
            let at = turn % inputs.len();
            assert!(both(&inputs[at]) == alone[at], "input {at}");
        }
    };
    thread::scope(|scope| {
        for _ in 0..8 {
            thread::Builder::new()
                .stack_size(256 * 1024)
                .spawn_scoped(scope, repeat)
                .unwrap();
        }
    });
}

#[test]
fn reasons() {
    let named: Vec<Reason> = (0..=u8::MAX).filter_map(Reason::from_number).collect();
    let numbers: Vec<u8> = named.iter().map(|reason| reason.number()).collect();
    assert_eq!(numbers, NUMBERS);
    let mut words: Vec<String> = named.iter().map(Reason::to_string).collect();
    words.sort();
    words.dedup();
    assert_eq!(words.len(), NUMBERS.len());
    let error: Box<dyn Error> = fold(&[0], &mut []).unwrap_err().into();
    assert_eq!(
        error.to_string(),
        "refused 2 at 0: there is no such kind of record"
    );
}
