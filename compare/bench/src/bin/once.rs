//! Folds graphs with the proved folder, each once, for a count of its instructions: `once ENTRY GRAPHS`, with fold or
//! fold_swept, and chain, fan, random or dead. Prints how many it folded.
use bench::folders::Entry;
use bench::shapes::{self, NODES};
use std::env;

const BUFFER: usize = 65_536;

fn main() {
    let [entry, graphs] = [1, 2].map(|place| env::args().nth(place).expect("ENTRY GRAPHS"));
    let entry = match entry.as_str() {
        "fold" => Entry::Fold,
        "fold_swept" => Entry::FoldSwept,
        _ => panic!("no entry is called {entry}"),
    };
    let shapes = match graphs.as_str() {
        "chain" => vec![shapes::shape("chain", &shapes::chain(NODES))],
        "fan" => vec![shapes::shape("fan", &shapes::fan(NODES))],
        "random" => shapes::generated(20),
        "dead" => vec![shapes::shape("dead chain", &shapes::dead_chain(NODES))],
        _ => panic!("no graphs are called {graphs}"),
    };
    let fold = entry.proved().expect("the proved folder is linked");
    for shape in &shapes {
        let outcome = fold(&shape.input, &mut [0; BUFFER]);
        assert_eq!(outcome.number, 0, "{} is refused", shape.name);
    }
    println!("{}", shapes.len());
}
