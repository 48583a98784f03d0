//! Counts what a run has met, and prints them.
use crate::alike::{Zeros, has_zero, nodes, parts, records};
use crate::folders::Entry;
use crate::oracle::{Held, Said, Yardstick};
use crate::records::{class, flag, kind, variant, variant_of};
use crate::sweeps::Sweep;
use crate::table::{Table, whole};
use crate::tables::{CLASS_NAMES, VARIANT_NAMES};
use std::collections::{BTreeMap, HashSet};

/// Outcomes by number: 0 for an answer, and the refusals.
type ByNumber = [usize; 13];
/// The numbers that refusals have.
const REFUSALS: [usize; 11] = [1, 2, 3, 4, 5, 6, 7, 8, 9, 10, 12];

#[derive(Default)]
pub struct Tally {
    pub inputs: usize,
    /// Inputs, for a buffer that is long enough.
    families: BTreeMap<&'static str, ByNumber>,
    /// Those of them that are held to the exact oracle.
    exact: ByNumber,
    /// Folds, each of an input and a length of buffer, and folds with the sweep.
    folds: ByNumber,
    swept_folds: ByNumber,
    /// Different places of each refusal.
    places: BTreeMap<u8, HashSet<usize>>,
    /// Of answers that are accepted.
    counts: BTreeMap<(usize, String), usize>,
    /// Planned literals by class.
    literals: BTreeMap<u8, usize>,
}

impl Tally {
    pub fn add_fold(&mut self, entry: Entry, said: &Said, buffer: usize) {
        let folds = match entry {
            Entry::Fold => &mut self.folds,
            Entry::FoldSwept => &mut self.swept_folds,
        };
        folds[usize::from(said.wanted(buffer).0.number)] += 1;
    }

    pub fn add_input(&mut self, family: &'static str, input: &[u8], held: &Held) {
        let said = held.said(Entry::Fold);
        let (outcome, answer) = said.wanted(usize::MAX);
        let number = usize::from(outcome.number);
        self.inputs += 1;
        self.families.entry(family).or_default()[number] += 1;
        self.exact[number] += usize::from(held.yardstick == Yardstick::Exact);
        if outcome.number == 0 {
            self.add_answer(input, answer, said.is_bag(), outcome.pops);
            let (_, swept) = held.said(Entry::FoldSwept).wanted(usize::MAX);
            self.add_sweep(input, &Sweep::of(input, answer, swept));
        } else {
            let places = self.places.entry(outcome.number).or_default();
            places.insert(outcome.place);
        }
    }

    /// Counts an answer whose zeros' signs the Rust leaves open, where it has zeros; `signed` has the plain folder's.
    pub fn add_zeros(&mut self, said: &Said, signed: &Said) {
        let ((_, bytes), (_, signed)) = (said.wanted(usize::MAX), signed.wanted(usize::MAX));
        if has_zero(bytes) {
            let of = |answer| parts(answer, true, Zeros::Signed);
            let other = usize::from(of(bytes) != of(signed));
            self.count(
                15,
                "answers with zeros of open sign, held to the plain folder",
                1,
            );
            self.count(16, "of them with a sign that is not the oracle's", other);
        }
    }

    fn count(&mut self, order: usize, name: impl Into<String>, more: usize) {
        *self.counts.entry((order, name.into())).or_default() += more;
    }

    fn add_answer(&mut self, input: &[u8], answer: &[u8], bag: bool, pops: usize) {
        let wires = |bytes| records(bytes).filter(|record| record[0] == kind::WIRE);
        let before: HashSet<&[u8]> = wires(input).collect();
        let fresh = wires(answer).filter(|wire| !before.contains(wire)).count();
        for record in records(answer).filter(|record| record[0] != kind::WIRE) {
            self.add_node(input, record);
        }
        self.count(9, "wires of the inputs", wires(input).count());
        self.count(10, "wires of the answers", wires(answer).count());
        self.count(11, "of them at a new source or target", fresh);
        self.count(12, "pops", pops);
        if bag {
            self.count(13, "answers held as bags of wires", 1);
        }
        if records(input).any(|record| record[0] == kind::TEXT) {
            self.count(14, "inputs with text", 1);
        }
    }

    fn add_sweep(&mut self, input: &[u8], sweep: &Sweep) {
        let labelled = nodes(input).any(|record| record[2] & flag::LABEL != 0);
        self.count(17, "inputs with labels", usize::from(labelled));
        let takes = usize::from(sweep.taken() > 0);
        self.count(18, "inputs of which the sweep takes nodes", takes);
        self.count(19, "taken Literals", sweep.literals);
        self.count(20, "taken gates that were made literal", sweep.made);
        self.count(21, "taken gates that were not", sweep.gates);
        self.count(22, "wires that go with taken nodes", sweep.wires);
        let stay = "Literals and gates that stay though no wire leaves them";
        self.count(23, format!("labelled {stay}"), sweep.labelled);
        self.count(24, format!("nofold {stay}"), sweep.nofold);
        self.count(25, "nodes that stay for a loop alone", sweep.looped);
    }

    /// Counts a known value or a fate.
    fn add_node(&mut self, input: &[u8], record: &[u8]) {
        let node = usize::from(u16::from_le_bytes([record[1], record[2]]));
        let class = input[3 * node + 1];
        let name = |variant: u8| VARIANT_NAMES[usize::from(variant)];
        match record[0] {
            kind::KEPT => self.count(3, "kept nodes", 1),
            kind::REMOVED if class == class::SELECT => self.count(4, "removed Selects", 1),
            kind::REMOVED => self.count(5, "removed Branches", 1),
            kind::LITERAL_INT.. => {
                let variant = record[0] - kind::LITERAL_INT + variant::INT;
                self.count(6, format!("literals, {}", name(variant)), 1);
                *self.literals.entry(class).or_default() += 1;
            }
            kind => self.count(2, format!("known values, {}", name(variant_of(kind))), 1),
        }
    }

    pub fn print(&self) {
        self.print_families();
        let mut table = Table::new(&["outcome", "folds", "with the sweep", "different places"]);
        for (number, &folds) in self
            .folds
            .iter()
            .enumerate()
            .filter(|(_, folds)| **folds > 0)
        {
            let swept = self.swept_folds[number];
            let places = self.places.get(&(number as u8)).map_or(0, HashSet::len);
            let name = match number {
                0 => "accepted".to_string(),
                _ => format!("refused {number}"),
            };
            table.row(vec![name, whole(folds), whole(swept), whole(places)]);
        }
        table.print("Folds, each of an input and a length of buffer");
        let mut table = Table::new(&["what", "count"]);
        for ((_, name), &count) in &self.counts {
            table.row(vec![name.clone(), whole(count)]);
        }
        table.print("In the accepted answers");
        let mut table = Table::new(&["class", "planned literals"]);
        for (class, name) in (0..)
            .zip(CLASS_NAMES)
            .skip(usize::from(class::COMPARE_EQUAL))
        {
            let count = self.literals.get(&class).copied().unwrap_or(0);
            table.row(vec![name.to_string(), whole(count)]);
        }
        table.print("Literals by class");
    }

    fn print_families(&self) {
        let numbers = REFUSALS.map(|number| number.to_string());
        let mut heads = vec!["inputs", "all", "accepted"];
        heads.extend(numbers.iter().map(String::as_str));
        let mut table = Table::new(&heads);
        let mut sums = ByNumber::default();
        let cells = |name: &str, counts: &ByNumber| {
            let mut cells = vec![name.to_string(), whole(counts.iter().sum())];
            cells.push(whole(counts[0]));
            cells.extend(REFUSALS.map(|number| whole(counts[number])));
            cells
        };
        for (family, counts) in &self.families {
            table.row(cells(family, counts));
            for (sum, count) in sums.iter_mut().zip(counts) {
                *sum += count;
            }
        }
        table.row(cells("all", &sums));
        table.row(cells("held to the exact oracle", &self.exact));
        table.print("Inputs by outcome, accepted or the refusal's number");
    }

    /// How many folds were compared, and how many with the sweep.
    pub fn fold_counts(&self) -> [usize; 2] {
        [self.folds, self.swept_folds].map(|folds| folds.iter().sum())
    }
}
