//! Inputs at random in families, each rich in something.
mod dead;
mod gates;
mod limits;
mod routes;
mod texts;

use crate::damage::damaged;
use crate::random;
use crate::records::{Graph, flag};
use crate::rng::Rng;

pub struct Family {
    pub name: &'static str,
    /// How many of a thousand inputs are of the family.
    share: usize,
    make: fn(&mut Rng) -> Vec<u8>,
}

const FAMILIES: [Family; 11] = [
    family("mixed", 280, |rng| labelled(rng, mixed)),
    family("gates", 190, |rng| labelled(rng, gates::gates)),
    family("texts", 80, |rng| labelled(rng, texts::texts)),
    family("annihilators", 60, |rng| labelled(rng, gates::annihilators)),
    family("routes", 120, |rng| labelled(rng, routes::routes)),
    family("dead", 100, |rng| dead::dead(rng).bytes()),
    family("doubling", 12, |rng| routes::doubling(rng).bytes()),
    family("products", 5, |rng| routes::products(rng).bytes()),
    family("limits", 3, |rng| limits::limits(rng).bytes()),
    family("damaged", 120, |rng| {
        let graph = small(rng);
        damaged(rng, &graph)
    }),
    family("bytes", 30, bytes),
];

const fn family(name: &'static str, share: usize, make: fn(&mut Rng) -> Vec<u8>) -> Family {
    Family { name, share, make }
}

/// Input number `index` of a seed, with its family's name.
pub fn input(seed: u64, index: u64) -> (&'static str, Vec<u8>) {
    let rng = &mut Rng::new(seed.wrapping_mul(0xD134_2543_DE82_EF95).wrapping_add(index));
    let mut part = rng.below(FAMILIES.iter().map(|family| family.share).sum());
    for family in &FAMILIES {
        if part < family.share {
            return (family.name, (family.make)(rng));
        }
        part -= family.share;
    }
    unreachable!("the part is below the sum");
}

/// A graph, in three of ten with a label on some of its nodes.
fn labelled(rng: &mut Rng, make: fn(&mut Rng) -> Graph) -> Vec<u8> {
    let mut graph = make(rng);
    if rng.percent(30) {
        let chance = rng.pick(&[5, 20, 60]);
        for (_, flags) in &mut graph.nodes {
            *flags |= flag::LABEL * u8::from(rng.percent(chance));
        }
    }
    graph.bytes()
}

/// Mostly small, at times up to the limits.
fn mixed(rng: &mut Rng) -> Graph {
    let nodes = match rng.below(1_000) {
        0..700 => rng.between(1, 12),
        700..965 => rng.between(13, 40),
        965..997 => rng.between(41, 250),
        _ => rng.between(900, 1_024),
    };
    let graph = random::graph(rng, nodes);
    texts::sprinkled(rng, graph)
}

/// A small graph of some family.
fn small(rng: &mut Rng) -> Graph {
    match rng.below(9) {
        0..2 => gates::gates(rng),
        2..4 => routes::routes(rng),
        4 => texts::texts(rng),
        5 => dead::dead(rng),
        _ => {
            let nodes = rng.between(1, 12);
            let graph = random::graph(rng, nodes);
            texts::sprinkled(rng, graph)
        }
    }
}

/// A run of bytes that often begin records.
fn bytes(rng: &mut Rng) -> Vec<u8> {
    let length = rng.below(60);
    let most = rng.pick(&[4, 14, 44, 256]);
    (0..length).map(|_| rng.below(most) as u8).collect()
}

/// Every run of at most two bytes.
pub fn short_inputs() -> impl Iterator<Item = Vec<u8>> {
    let ones = (0..=255).map(|byte| vec![byte]);
    let twos = (0..=u16::MAX).map(|both| both.to_be_bytes().to_vec());
    std::iter::once(Vec::new()).chain(ones).chain(twos)
}
