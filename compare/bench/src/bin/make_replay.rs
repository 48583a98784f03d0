//! Writes folds with what the oracle says of them, which the program crates/replay runs, to standard output; where the exact
//! oracle differs, with what that says.
//!
//!     make_replay ORACLE EXACT
//!
//! Inputs of a fixed seed are taken from the front as long as their bucket, of family and outcome, has room, and certain
//! ones. NaNs are written 7FF8000000000000, and zeros as the plain folder has them where the Rust leaves their sign
//! open. Left out are long inputs and answers that are bags of wires. A case is what crates/replay/src/main.rt reads.
use bench::alike::normal_nans;
use bench::certain;
use bench::families;
use bench::folders::Entry;
use bench::held::{BUFFER, buffers, signed};
use bench::oracle::{Held, Oracles, Said};
use bench::records::limit;
use bench::shapes;
use std::collections::BTreeMap;
use std::io::{Write, stdout};
use std::process::ExitCode;

const SEED: u64 = 7_003;
const INPUTS: u64 = 60_000;
const BATCH: u64 = 500;
const LONGEST: usize = 300;

/// How many cases a bucket takes.
fn room(family: &str, number: u8) -> usize {
    match (family, number) {
        (_, 1..) => 90,
        ("gates", _) => 1_000,
        ("mixed" | "routes" | "texts", _) => 400,
        _ => 150,
    }
}

/// A case, with a buffer of this length.
fn case(input: &[u8], held: &Held, buffer: usize) -> Vec<u8> {
    let said =
        signed(Entry::Fold, input, held).expect("the plain folder gives what the oracle says");
    let (outcome, answer) = said.wanted(buffer);
    let numbers = [
        input.len(),
        buffer,
        usize::from(outcome.number),
        outcome.place,
        outcome.length,
        outcome.pops,
    ];
    let mut case: Vec<u8> = numbers.iter().flat_map(|n| n.to_le_bytes()).collect();
    case.extend(input);
    case.extend(normal_nans(answer));
    case
}

fn taken(input: &[u8], said: &Said) -> bool {
    input.len() <= LONGEST && !said.is_bag()
}

/// Cases at random, a bucket for each family and outcome.
fn random_cases(oracles: &mut Oracles, cases: &mut Vec<Vec<u8>>) {
    let mut buckets: BTreeMap<(&str, u8), usize> = BTreeMap::new();
    for start in (0..INPUTS).step_by(BATCH as usize) {
        let batch: Vec<_> = (start..start + BATCH)
            .map(|index| families::input(SEED, index))
            .collect();
        let inputs: Vec<&[u8]> = batch.iter().map(|(_, input)| &input[..]).collect();
        let held = oracles.ask(&inputs).expect("the oracles answer all");
        for ((family, input), held) in batch.iter().zip(held) {
            let said = held.said(Entry::Fold);
            let lengths = buffers(said, false);
            let buffer = lengths[cases.len() % lengths.len()];
            let number = said.wanted(buffer).0.number;
            let taken_before = buckets.entry((family, number)).or_default();
            if *taken_before < room(family, number) && taken(input, said) {
                *taken_before += 1;
                cases.push(case(input, &held, buffer));
            }
        }
    }
}

/// Inputs at and past the limits, of those that are no records one, and the certain small graphs, each into the program's
/// buffer.
fn certain_cases(oracles: &mut Oracles, cases: &mut Vec<Vec<u8>>) {
    let limits = shapes::limits().into_iter();
    let limits = limits.filter(|input| input.len() != limit::INPUT);
    for input in limits.chain(certain::all()) {
        let held = oracles.ask_one(&input).expect("the oracles answer all");
        cases.push(case(&input, &held, BUFFER));
    }
}

fn main() -> ExitCode {
    let arguments: Vec<String> = std::env::args().skip(1).collect();
    let Ok(programs) = arguments[..].try_into() else {
        eprintln!("usage: make_replay ORACLE EXACT");
        return ExitCode::from(2);
    };
    let mut oracles = Oracles::start(programs);
    let mut cases = Vec::new();
    random_cases(&mut oracles, &mut cases);
    certain_cases(&mut oracles, &mut cases);
    eprintln!("{}", cases.len());
    let written = stdout().write_all(&cases.concat());
    written.map_or(ExitCode::FAILURE, |()| ExitCode::SUCCESS)
}
