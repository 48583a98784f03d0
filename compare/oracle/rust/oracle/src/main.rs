//! The fold of docs/src as a program.
//!
//! `oracle` reads a batch of graphs from standard input, each a 4-byte little-endian length and so
//! many bytes of document 01's records. For each it writes one line to standard output, fields
//! apart by one space, numbers in decimal:
//!
//! ```text
//! answer POPS WIRES HEX SWEPT  the fold ends on the graph
//! bag POPS WIRES HEX SWEPT     so it does, but run on each wire alone, since the list of all wires
//!                              outgrows the harness on the way
//! diverges INDEX OFFSET        it never ends on a wire record, the first at fault: its number
//!                              among the wire records from 0, and its offset in the graph
//! dangles INDEX OFFSET         it leaves a wire at a removed node: the first wire record at fault
//! invalid NUMBER OFFSET        the first of questions 1 to 8 and 12 that refuses the graph, and
//!                              its place
//! ```
//!
//! POPS are the nodes taken from the worklist, WIRES the rewritten wires (18446744073709551615
//! stands for that many or more). HEX is the answer in document 01's records, two lower-case digits
//! a byte, and `-` for no byte: known values, fates, and the rewritten wires if WIRES is at most
//! 4096. `rewrite_wires` puts what a wire becomes in its place, so the wires of a `bag`, which are
//! what each wire record becomes, one after the other, stand in its order too; but no single run of
//! it has shown that order.
//!
//! SWEPT is the same once `sweep_dead_pure` has run on the folded graph. Where WIRES is over 4096 it
//! does not run, and SWEPT is `-`.
//!
//! `oracle gates` reads gate cases of 100 bytes: class 6 to 42, and three operands of 33 bytes, a
//! variant 0 to 8 and the value as in a record, filled with 0 to 32 bytes. Operands past the inputs
//! of the class are all 0, and none of classes 8 to 11 is text. For each it writes 33 bytes, the
//! value of `eval_in` with `Mode::Fold` as an operand, variant 0 for None.
//!
//! The exit status is 0 after a whole batch. A batch that is cut off, or a gate case that is not of
//! this form, gives status 1 and one line on standard error, after the output for all before it;
//! other arguments give status 2.
mod gates;
mod graph;
mod input;
mod listing;
mod validate;
mod values;

use std::fmt::Write as _;
use std::io::{BufReader, BufWriter, Read, Write};
use std::process::ExitCode;
use wirescript::lower::fold::harness::{self, MAX_REWRITTEN, Rewriting};

fn main() -> ExitCode {
    let arguments: Vec<String> = std::env::args().skip(1).collect();
    let input = &mut BufReader::new(std::io::stdin().lock());
    let output = &mut BufWriter::new(std::io::stdout().lock());
    let result = match arguments.iter().map(String::as_str).collect::<Vec<_>>()[..] {
        [] => run(input, output),
        ["gates"] => gates::run(input, output),
        _ => {
            eprintln!("usage: oracle [gates]");
            return ExitCode::from(2);
        }
    };
    let flushed = output.flush().map_err(|e| format!("writing fails: {e}"));
    match result.and(flushed) {
        Ok(()) => ExitCode::SUCCESS,
        Err(fault) => {
            eprintln!("oracle: {fault}");
            ExitCode::FAILURE
        }
    }
}

/// A line a graph, each written out before the next graph is read.
fn run(input: &mut impl Read, output: &mut impl Write) -> Result<(), String> {
    for number in 0u64.. {
        let graph = input::read_graph(input).map_err(|cut| format!("graph {number} is {cut}"))?;
        let Some(graph) = graph else { break };
        writeln!(output, "{}", line(&graph))
            .and_then(|()| output.flush())
            .map_err(|e| format!("writing fails: {e}"))?;
    }
    Ok(())
}

fn line(input: &[u8]) -> String {
    if let Err(refusal) = validate::validate(input) {
        return format!("invalid {} {}", refusal.number, refusal.offset);
    }
    let mut graph = graph::read(input);
    let folded = graph
        .table
        .as_certified(|| harness::fold(&mut graph.module));
    let (word, total) = match folded.rewriting {
        Rewriting::Whole => ("answer", graph.module.wires.len() as u64),
        Rewriting::Apart { total, wires } => {
            graph.module.wires = wires;
            ("bag", total)
        }
        Rewriting::Diverges(i) => return format!("diverges {i} {}", graph.wire_offsets[i]),
        Rewriting::Dangles(i) => return format!("dangles {i} {}", graph.wire_offsets[i]),
    };
    let mut answer = graph::known_and_fates(&graph.classes, &folded.known, &graph.module);
    let mut swept = Vec::new();
    if total <= MAX_REWRITTEN {
        graph::put_wires(&graph.module.wires, &mut answer);
        harness::sweep(&mut graph.module, listing::gates(), &graph.labelled);
        swept = graph::known_and_fates(&graph.classes, &folded.known, &graph.module);
        graph::put_wires(&graph.module.wires, &mut swept);
    }
    format!(
        "{word} {} {total} {} {}",
        folded.pops,
        hex(&answer),
        hex(&swept)
    )
}

fn hex(bytes: &[u8]) -> String {
    if bytes.is_empty() {
        return "-".to_string();
    }
    let mut digits = String::with_capacity(2 * bytes.len());
    for byte in bytes {
        write!(digits, "{byte:02x}").expect("a string takes every write");
    }
    digits
}
