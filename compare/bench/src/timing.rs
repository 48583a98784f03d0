//! Times: the best of many calls, the folders in turn.
use crate::alike::{Zeros, alike, zeros_of_rust};
use crate::folders::{self, Entry, Outcome, Worklist};
use crate::original;
use crate::shapes::Shape;
use std::hint::black_box;
use std::time::{Duration, Instant};

const BUFFER: usize = 65_536;
const NEVER: Duration = Duration::MAX;

/// How much to run: so many rounds over all graphs, and in each round so long on a graph.
#[derive(Clone, Copy)]
pub struct Effort {
    pub rounds: usize,
    pub time: Duration,
}

/// The best times on a graph.
#[derive(Clone, Copy)]
pub struct Times {
    pub proved: Duration,
    pub plain: Duration,
    pub original: Duration,
}

impl Default for Times {
    fn default() -> Self {
        Times {
            proved: NEVER,
            plain: NEVER,
            original: NEVER,
        }
    }
}

/// A duration in microseconds, where it was measured.
pub fn micros(time: Duration) -> Option<f64> {
    (time != NEVER).then(|| time.as_nanos() as f64 / 1e3)
}

#[inline(always)]
fn shorten<T>(best: &mut Duration, f: impl FnOnce() -> T) -> T {
    let start = Instant::now();
    let result = black_box(f());
    *best = start.elapsed().min(*best);
    result
}

/// Calls `f` at least three times, and on until the time is over; with the number of the call.
fn repeat(time: Duration, mut f: impl FnMut(usize)) {
    let start = Instant::now();
    let mut calls = 0;
    while calls < 3 || start.elapsed() < time {
        f(calls);
        calls += 1;
    }
}

/// Calls two functions, each of them first every other time.
#[inline(always)]
fn in_turn<T>(call: usize, on: &mut T, first: impl Fn(&mut T), second: impl Fn(&mut T)) {
    if call % 2 == 0 {
        first(on);
        second(on);
    } else {
        second(on);
        first(on);
    }
}

/// The best times of all folders on some graphs, each folder's answers checked first.
pub fn fold_all(shapes: &[Shape], effort: Effort) -> Vec<Times> {
    let mut out = vec![0; BUFFER];
    for shape in shapes {
        check(shape);
    }
    let mut times = vec![Times::default(); shapes.len()];
    for round in 0..effort.rounds {
        for (shape, times) in shapes.iter().zip(&mut times) {
            let input = &shape.input;
            repeat(effort.time, |call| {
                in_turn(
                    call,
                    &mut (&mut out, &mut *times),
                    |(out, times)| fold_once(folders::PROVED, input, out, &mut times.proved),
                    |(out, times)| fold_once(Some(folders::plain), input, out, &mut times.plain),
                );
            });
            if shape.original_ends && round % 4 == 0 {
                repeat(effort.time, |_| {
                    let mut prepared = original::prepare(&shape.input);
                    shorten(&mut times.original, || original::fold(&mut prepared));
                });
            }
        }
    }
    times
}

/// The best times of each of some builds on each graph, all builds in turn, once it is seen that they answer alike.
pub fn builds_all<F>(shapes: &[Shape], builds: &[F], effort: Effort) -> Vec<Vec<Duration>>
where
    F: Fn(&[u8], &mut [u8]) -> Outcome,
{
    for shape in shapes {
        let (first, rest) = builds.split_first().expect("a build");
        let answer = run(first, &shape.input);
        for build in rest {
            assert_eq!(run(build, &shape.input), answer, "{}", shape.name);
        }
    }
    let builds: Vec<Option<&F>> = builds.iter().map(Some).collect();
    in_turns(shapes, &builds, effort)
}

/// The best times with the sweep of the proved and the plain folder, and of their folds without it, all in turn, once it is
/// seen that the two answer alike.
pub fn swept_all(shapes: &[Shape], effort: Effort) -> Vec<[Duration; 4]> {
    for shape in shapes {
        check_proved(Entry::FoldSwept, shape);
    }
    let entries = [Entry::FoldSwept, Entry::Fold];
    let folds = entries.map(|entry| [entry.proved(), Some(entry.plain())]);
    let times = in_turns(shapes, folds.as_flattened(), effort).into_iter();
    let four = times.map(|times| times.try_into().expect("four of them"));
    four.collect()
}

/// The best times of each of some functions on each graph, all that there are in turn.
fn in_turns<F>(shapes: &[Shape], functions: &[Option<F>], effort: Effort) -> Vec<Vec<Duration>>
where
    F: Fn(&[u8], &mut [u8]) -> Outcome,
{
    let mut out = vec![0; BUFFER];
    let mut times = vec![vec![NEVER; functions.len()]; shapes.len()];
    for _ in 0..effort.rounds {
        for (shape, times) in shapes.iter().zip(&mut times) {
            repeat(effort.time, |call| {
                for k in 0..functions.len() {
                    let k = (call + k) % functions.len();
                    fold_once(functions[k].as_ref(), &shape.input, &mut out, &mut times[k]);
                }
            });
        }
    }
    times
}

#[inline(always)]
fn fold_once<F>(fold: Option<F>, input: &[u8], out: &mut [u8], best: &mut Duration)
where
    F: Fn(&[u8], &mut [u8]) -> Outcome,
{
    if let Some(fold) = fold {
        out.fill(0);
        shorten(best, || fold(black_box(input), black_box(out)));
    }
}

/// The answer of the plain folder, once it is seen that the proved one gives it too.
pub fn check_proved(entry: Entry, shape: &Shape) -> (Outcome, Vec<u8>) {
    let (outcome, answer) = run(entry.plain(), &shape.input);
    if let Some(proved) = entry.proved() {
        let (other, bytes) = run(proved, &shape.input);
        assert!(
            other == outcome && alike(&answer, &bytes, Zeros::Signed),
            "proved: {}",
            shape.name
        );
    }
    (outcome, answer)
}

/// The answer of the plain folder, once it is seen that the others give it too.
pub fn check(shape: &Shape) -> (Outcome, Vec<u8>) {
    let (outcome, answer) = check_proved(Entry::Fold, shape);
    if shape.original_ends {
        let mut prepared = original::prepare(&shape.input);
        let folded = original::fold(&mut prepared);
        let (bytes, pops) = original::answer(&prepared, &folded).expect("it ends");
        let other = Outcome::folded(bytes.len(), pops);
        assert!(
            other == outcome && alike(&answer, &bytes, zeros_of_rust(&shape.input)),
            "original: {}",
            shape.name
        );
    }
    (outcome, answer)
}

fn run(fold: impl Fn(&[u8], &mut [u8]) -> Outcome, input: &[u8]) -> (Outcome, Vec<u8>) {
    let mut out = vec![0; BUFFER];
    let outcome = fold(input, &mut out);
    out.truncate(outcome.length);
    (outcome, out)
}

/// The best times of decoding and worklist alone.
pub fn worklist_all(shapes: &[Shape], effort: Effort) -> Vec<Times> {
    let mut times = vec![Times::default(); shapes.len()];
    for _ in 0..effort.rounds {
        for (shape, times) in shapes.iter().zip(&mut times) {
            let input = &shape.input;
            if let Some(proved) = folders::PROVED_WORKLIST {
                assert_eq!(
                    proved(input),
                    folders::plain_worklist(input),
                    "{}",
                    shape.name
                );
            }
            repeat(effort.time, |call| {
                in_turn(
                    call,
                    &mut *times,
                    |times| worklist_once(folders::PROVED_WORKLIST, input, &mut times.proved),
                    |times| worklist_once(Some(folders::plain_worklist), input, &mut times.plain),
                );
            });
        }
    }
    times
}

#[inline(always)]
fn worklist_once(run: Option<Worklist>, input: &[u8], best: &mut Duration) {
    if let Some(run) = run {
        _ = shorten(best, || run(black_box(input)));
    }
}

/// The best times of the plain folder: decoding alone, with the worklist, and whole.
pub fn stages_all(shapes: &[Shape], effort: Effort) -> Vec<[Duration; 3]> {
    let mut out = vec![0; BUFFER];
    let mut times = vec![[NEVER; 3]; shapes.len()];
    for _ in 0..effort.rounds {
        for (shape, [decoding, worklist, whole]) in shapes.iter().zip(&mut times) {
            repeat(effort.time, |_| {
                _ = shorten(decoding, || plain::decode(black_box(&shape.input)));
                _ = shorten(worklist, || plain::worklist(black_box(&shape.input)));
                fold_once(Some(folders::plain), &shape.input, &mut out, whole);
            });
        }
    }
    times
}
