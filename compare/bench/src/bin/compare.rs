//! Folds inputs with the oracles' programs and with each folder that is linked, with the sweep and without, and holds these
//! to the original, or to the exact oracle where the two differ; the proved one to the plain one's zeros where the Rust
//! leaves their sign open.
//!
//!     compare ORACLE EXACT COUNT SEED
//!
//! ORACLE and EXACT are the programs that compare/oracle/build makes. The inputs are certain graphs, every run of at most
//! two bytes, and COUNT made at random from SEED. Where a folder differs, the smallest input found is printed with both
//! answers, and the exit status is 1. docs/COMPARISON.md says what is held alike.
use bench::alike::Zeros;
use bench::certain;
use bench::families;
use bench::folders::{Entry, Fold, Outcome};
use bench::held::{self, Difference, Paint, buffers};
use bench::oracle::{Held, Oracles};
use bench::progress::Progress;
use bench::shapes;
use bench::shrink;
use bench::tally::Tally;
use std::borrow::Cow;
use std::collections::BTreeMap;
use std::process::ExitCode;
use std::sync::mpsc::{Receiver, SyncSender, sync_channel};
use std::thread;

const BATCH: usize = 500;
/// One input of so many is folded into the program's whole buffer too.
const WIDE: usize = 8;

struct Case {
    family: &'static str,
    input: Vec<u8>,
}

/// The certain inputs, then those at random.
fn cases(count: u64, seed: u64) -> impl Iterator<Item = Case> {
    let of = |family| move |input| Case { family, input };
    let shapes = shapes::all().into_iter().chain(shapes::dead());
    let shapes = shapes.map(|shape| shape.input);
    let shapes = shapes.chain(shapes::limits());
    let shapes = shapes.chain(certain::all()).chain(certain::rows());
    let shapes = shapes.map(of("certain"));
    let short = families::short_inputs().map(of("two bytes"));
    let random = (0..count).map(move |index| {
        let (family, input) = families::input(seed, index);
        Case { family, input }
    });
    shapes.chain(short).chain(random)
}

/// Cases with what folders are held to, or the one that an oracle ends on.
type Asked = Result<Vec<(Case, Held)>, Case>;

/// Asks the oracles of all cases, batch by batch.
fn ask(programs: &[String; 2], mut cases: impl Iterator<Item = Case>, sender: &SyncSender<Asked>) {
    let mut oracles = Oracles::start(programs);
    loop {
        let mut batch: Vec<Case> = cases.by_ref().take(BATCH).collect();
        if batch.is_empty() {
            return;
        }
        let inputs: Vec<&[u8]> = batch.iter().map(|case| &case.input[..]).collect();
        let asked = match oracles.ask(&inputs) {
            Ok(held) => Ok(batch.into_iter().zip(held).collect()),
            Err(at) => Err(batch.swap_remove(at)),
        };
        let ended = asked.is_err();
        if sender.send(asked).is_err() || ended {
            return;
        }
    }
}

/// A folder's function for an entry.
#[derive(Clone, Copy)]
struct Folder {
    name: &'static str,
    fold: Fold,
    entry: Entry,
    /// Whether it is held to the plain folder's zeros.
    signed: bool,
}

/// All that are linked.
fn folders() -> Vec<Folder> {
    let entries = [
        (Entry::Fold, "plain", "proved"),
        (Entry::FoldSwept, "plain swept", "proved swept"),
    ];
    let both = entries.into_iter().flat_map(|(entry, plain, proved)| {
        let folder = move |name, fold, signed| Folder {
            name,
            fold,
            entry,
            signed,
        };
        let proved = entry.proved().map(|fold| folder(proved, fold, true));
        [Some(folder(plain, entry.plain(), false)), proved]
    });
    both.flatten().collect()
}

struct Comparison {
    folders: Vec<Folder>,
    paint: Paint,
    tally: Tally,
    /// Inputs on which a folder differs, by folder.
    differing: BTreeMap<usize, Vec<Case>>,
}

impl Comparison {
    fn new() -> Self {
        Comparison {
            folders: folders(),
            paint: Paint::default(),
            tally: Tally::default(),
            differing: BTreeMap::new(),
        }
    }

    fn add(&mut self, case: Case, held: &Held) {
        let wide = self.tally.inputs % WIDE == 0;
        self.tally.add_input(case.family, &case.input, held);
        let said = held.said(Entry::Fold);
        if said.zeros() == Zeros::Alike {
            let signed = held::signed(Entry::Fold, &case.input, held);
            self.tally
                .add_zeros(said, signed.as_deref().unwrap_or(said));
        }
        for entry in [Entry::Fold, Entry::FoldSwept] {
            let said = held.said(entry);
            for buffer in buffers(said, wide) {
                self.tally.add_fold(entry, said, buffer);
            }
        }
        for folder in 0..self.folders.len() {
            if self.difference(folder, &case.input, held, wide).is_some() {
                let Case { family, ref input } = case;
                let input = input.clone();
                self.differing
                    .entry(folder)
                    .or_default()
                    .push(Case { family, input });
            }
        }
    }

    /// How a folder differs on an input, for the first such length of buffer.
    fn difference(
        &mut self,
        folder: usize,
        input: &[u8],
        held: &Held,
        wide: bool,
    ) -> Option<Difference> {
        let Folder {
            fold,
            entry,
            signed,
            ..
        } = self.folders[folder];
        let said = held.said(entry);
        let lengths = buffers(said, wide);
        let said = match signed {
            false => Cow::Borrowed(said),
            true => held::signed(entry, input, held).unwrap_or(Cow::Borrowed(said)),
        };
        let mut lengths = lengths.into_iter();
        lengths.find_map(|buffer| self.paint.difference(fold, input, &said, buffer))
    }

    /// Prints, for each folder that differs, the smallest input found.
    fn report(&mut self, programs: &[String; 2]) {
        let mut oracles = Oracles::start(programs);
        for (folder, cases) in std::mem::take(&mut self.differing) {
            let shortest = cases
                .iter()
                .min_by_key(|case| case.input.len())
                .expect("one differs");
            let mut on = |input: &[u8]| {
                let held = oracles.ask_one(input)?;
                self.difference(folder, input, &held, true)
            };
            let input = shrink::smallest(&shortest.input, |input| on(input).is_some());
            let difference = on(&input).expect("the smallest differs");
            let name = self.folders[folder].name;
            println!(
                "{name} differs on {} inputs of the last batch; the smallest found is from '{}':",
                cases.len(),
                shortest.family
            );
            print_difference(&input, &difference);
        }
    }

    /// Whether all were alike so far.
    fn alike(&self) -> bool {
        self.differing.is_empty()
    }

    fn print(&self, seed: u64, progress: &Progress) {
        self.tally.print();
        let folders = self.folders.iter();
        let folders = folders.filter(|folder| folder.entry == Entry::Fold);
        let names: Vec<&str> = folders.map(|folder| folder.name).collect();
        let [folds, swept] = self.tally.fold_counts();
        println!(
            "{} inputs, {folds} folds and {swept} with the sweep by {} beside the oracles, seed {seed}, {} s: {}",
            self.tally.inputs,
            names.join(" and by "),
            progress.elapsed().as_secs(),
            if self.alike() {
                "none differs"
            } else {
                "some differ"
            }
        );
    }
}

fn print_difference(input: &[u8], difference: &Difference) {
    println!("  input   {}", hex(input));
    println!("  buffer  {} bytes", difference.buffer);
    println!("  differs {}", difference.what.join(", "));
    let answer = |name: &str, (outcome, bytes): &(Outcome, Vec<u8>)| {
        let Outcome {
            number,
            place,
            length,
            pops,
        } = outcome;
        println!(
            "  {name} number {number}, place {place}, length {length}, pops {pops}: {}",
            hex(bytes)
        );
    };
    answer("wanted ", &difference.wanted);
    match &difference.got {
        Some(got) => answer("folder ", got),
        None => println!("  folder  it panics"),
    }
}

fn hex(bytes: &[u8]) -> String {
    match bytes {
        [] => "-".to_string(),
        _ => bytes.iter().map(|byte| format!("{byte:02x}")).collect(),
    }
}

/// Compares on all cases, up to the batch in which a folder differs; whether none does.
fn run(programs: &[String; 2], count: u64, seed: u64) -> bool {
    let total = cases(0, seed).count() + count as usize;
    let mut comparison = Comparison::new();
    let mut progress = Progress::default();
    let (sender, receiver) = sync_channel(4);
    let alike = thread::scope(|scope| {
        scope.spawn(move || ask(programs, cases(count, seed), &sender));
        hold(&mut comparison, receiver, &mut progress, total)
    });
    progress.clear();
    if alike {
        comparison.print(seed, &progress);
    } else {
        comparison.report(programs);
    }
    alike && comparison.tally.inputs == total
}

/// Adds what the oracles say, batch by batch, to the comparison; whether no folder differs, and the oracles go on.
fn hold(
    comparison: &mut Comparison,
    receiver: Receiver<Asked>,
    progress: &mut Progress,
    total: usize,
) -> bool {
    for asked in receiver {
        let batch = match asked {
            Ok(batch) => batch,
            Err(Case { family, input }) => {
                let input = hex(&input);
                println!("an oracle ends on an input from '{family}': {input}");
                return false;
            }
        };
        for (case, held) in batch {
            comparison.add(case, &held);
        }
        progress.tell(comparison.tally.inputs, total);
        if !comparison.alike() {
            return false;
        }
    }
    true
}

fn main() -> ExitCode {
    let arguments: Vec<String> = std::env::args().skip(1).collect();
    let (programs, numbers) = arguments.split_at(arguments.len().min(2));
    let numbers: Vec<u64> = numbers.iter().flat_map(|word| word.parse()).collect();
    let (Ok(programs), &[count, seed]) = (programs.try_into(), &numbers[..]) else {
        eprintln!("usage: compare ORACLE EXACT COUNT SEED");
        return ExitCode::from(2);
    };
    held::silence_folders();
    match run(programs, count, seed) {
        true => ExitCode::SUCCESS,
        false => ExitCode::FAILURE,
    }
}
