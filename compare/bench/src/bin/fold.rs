//! Prints the tables of times and of stack for whole folds.
use bench::folders::{Entry, Fold};
use bench::records::Graph;
use bench::shapes::{self, NODES, Shape};
use bench::stack;
use bench::sweeps::Sweep;
use bench::table::{Table, micros, ratio, whole};
use bench::timing::{self, Effort, Times, micros as measured};
use std::time::Duration;

const EFFORT: Effort = Effort {
    rounds: 12,
    time: Duration::from_millis(20),
};
const LITTLE_EFFORT: Effort = Effort {
    rounds: 8,
    time: Duration::from_millis(5),
};
const TIME_HEADS: [&str; 5] = [
    "proved",
    "plain",
    "original",
    "proved / plain",
    "original / proved",
];

fn main() {
    times("Graphs at the limits", &shapes::usual());
    generated(&shapes::generated(20));
    times("Graphs made to be slow", &shapes::hard());
    stages(&shapes::all());
    growths();
    swept();
    peaks();
}

/// A cell for each of `TIME_HEADS`.
fn time_cells(proved: Option<f64>, plain: Option<f64>, original: Option<f64>) -> Vec<String> {
    vec![
        micros(proved),
        micros(plain),
        micros(original),
        ratio(proved, plain),
        ratio(original, proved),
    ]
}

fn cells(times: &Times) -> Vec<String> {
    time_cells(
        measured(times.proved),
        measured(times.plain),
        measured(times.original),
    )
}

fn times(heading: &str, shapes: &[Shape]) {
    let mut table = Table::new(&[&["graph", "pops", "answer, bytes"], &TIME_HEADS[..]].concat());
    for (shape, times) in shapes.iter().zip(timing::fold_all(shapes, EFFORT)) {
        let (outcome, _) = timing::check(shape);
        assert_eq!(outcome.number, 0, "{} is refused", shape.name);
        let facts = vec![
            shape.name.clone(),
            whole(outcome.pops),
            whole(outcome.length),
        ];
        table.row([facts, cells(&times)].concat());
    }
    table.print(&format!("{heading} (µs)"));
}

/// The mean of some times, in microseconds, where all were measured.
fn mean(times: impl Iterator<Item = Duration>) -> Option<f64> {
    let times: Option<Vec<f64>> = times.map(measured).collect();
    times.map(|times| times.iter().sum::<f64>() / times.len() as f64)
}

/// The mean over some graphs.
fn generated(shapes: &[Shape]) {
    let all = timing::fold_all(shapes, LITTLE_EFFORT);
    let mean = |of: fn(&Times) -> Duration| mean(all.iter().map(of));
    let mut table = Table::new(&[&["graphs"], &TIME_HEADS[..]].concat());
    let name = generated_name(shapes);
    let cells = time_cells(mean(|t| t.proved), mean(|t| t.plain), mean(|t| t.original));
    table.row([vec![name], cells].concat());
    table.print("Generated graphs (µs)");
}

fn generated_name(shapes: &[Shape]) -> String {
    format!("{} random graphs of 1,024 nodes, mean", shapes.len())
}

/// Folds with the sweep, beside those without it.
fn swept() {
    let heads = [
        "graph",
        "taken",
        "proved",
        "plain",
        "proved / plain",
        "proved fold",
        "plain fold",
        "proved / its fold",
        "plain / its fold",
    ];
    let mut table = Table::new(&heads);
    let shapes = [shapes::usual(), shapes::dead()].concat();
    for (shape, times) in shapes.iter().zip(timing::swept_all(&shapes, EFFORT)) {
        let facts = vec![shape.name.clone(), whole(taken(shape))];
        table.row([facts, swept_cells(times.map(measured))].concat());
    }
    let shapes = shapes::generated(20);
    let all = timing::swept_all(&shapes, LITTLE_EFFORT);
    let taken = shapes.iter().map(taken).sum::<usize>() / shapes.len();
    let means = [0, 1, 2, 3].map(|fold| mean(all.iter().map(|times| times[fold])));
    let facts = vec![generated_name(&shapes), whole(taken)];
    table.row([facts, swept_cells(means)].concat());
    table.print("Folds with the sweep (µs)");
}

/// Of the proved and the plain folder with the sweep, and of their folds without it.
fn swept_cells([proved, plain, proved_fold, plain_fold]: [Option<f64>; 4]) -> Vec<String> {
    vec![
        micros(proved),
        micros(plain),
        ratio(proved, plain),
        micros(proved_fold),
        micros(plain_fold),
        ratio(proved, proved_fold),
        ratio(plain, plain_fold),
    ]
}

/// How many nodes the sweep takes.
fn taken(shape: &Shape) -> usize {
    let answers = [Entry::Fold, Entry::FoldSwept].map(|entry| timing::check_proved(entry, shape));
    let [(_, folded), (_, swept)] = answers;
    Sweep::of(&shape.input, &folded, &swept).taken()
}

/// Where the plain folder spends its time.
fn stages(shapes: &[Shape]) {
    let heads = [
        "graph",
        "decoding and index",
        "worklist",
        "rewriting and answer",
    ];
    let mut table = Table::new(&heads);
    let all = timing::stages_all(shapes, EFFORT);
    for (shape, [decoding, worklist, whole]) in shapes.iter().zip(all) {
        let parts = [
            decoding,
            worklist.saturating_sub(decoding),
            whole.saturating_sub(worklist),
        ];
        let parts = parts.map(|part| micros(measured(part)));
        table.row([vec![shape.name.clone()], parts.to_vec()].concat());
    }
    table.print("Where the plain folder spends its time (µs)");
}

/// Graphs of one kind by size.
type Family = (&'static str, &'static [usize], fn(usize) -> Graph);

fn growths() {
    let families: [Family; 6] = [
        ("chain, nodes", &[1, 64, 256, 1_024], shapes::chain),
        ("fan, nodes", &[64, 256, 1_024], shapes::fan),
        ("no plan, wires", &[64, 256, 1_024, 4_096], |wires| {
            shapes::no_plan(NODES, wires)
        }),
        ("chain of 1,024 nodes, rows", &[1, 64, 256, 1_024], |rows| {
            shapes::rows(shapes::chain(NODES), rows)
        }),
        ("Selects in a row, shuffled", &[64, 256, 1_000], |selects| {
            shapes::shuffled(shapes::select_row(selects as u16))
        }),
        (
            "Branches in a row, shuffled",
            &[64, 256, 1_000],
            |branches| shapes::shuffled(shapes::branch_row(branches as u16, 3_000)),
        ),
    ];
    let mut table = Table::new(&[&["graph", "size"], &TIME_HEADS[..]].concat());
    for (name, sizes, graph) in families {
        let shapes: Vec<Shape> = sizes
            .iter()
            .map(|&n| shapes::shape(name, &graph(n)))
            .collect();
        for (size, times) in sizes.iter().zip(timing::fold_all(&shapes, LITTLE_EFFORT)) {
            let facts = vec![name.to_string(), whole(*size)];
            table.row([facts, cells(&times)].concat());
        }
    }
    table.print("How the time grows (µs)");
}

/// The stack that a fold uses.
fn peaks() {
    let shapes = [shapes::all(), shapes::dead(), shapes::generated(20)].concat();
    let mut table = Table::new(&["folder", "least", "most"]);
    let folders = [
        ("proved", Entry::Fold.proved()),
        ("plain", Some(Entry::Fold.plain())),
        ("proved, with the sweep", Entry::FoldSwept.proved()),
        ("plain, with the sweep", Some(Entry::FoldSwept.plain())),
    ];
    for (name, fold) in folders {
        let peaks = fold.map(|fold| shapes.iter().map(|shape| peak(fold, shape)).collect());
        let peaks: Vec<usize> = peaks.unwrap_or_default();
        let cell = |bytes: Option<&usize>| bytes.map_or("–".to_string(), |&bytes| whole(bytes));
        table.row(vec![
            name.to_string(),
            cell(peaks.iter().min()),
            cell(peaks.iter().max()),
        ]);
    }
    table.print("Stack at its peak, over all graphs above (bytes)");
}

fn peak(fold: Fold, shape: &Shape) -> usize {
    let mut out = vec![0; 65_536];
    stack::peak(|| _ = fold(&shape.input, &mut out))
}
