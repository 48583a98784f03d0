//! Holds a folder to what the oracle says: the four numbers, the answer, and every other byte of the buffer.
use crate::alike::{PARTS, Zeros, alike, parts};
use crate::folders::{Entry, Fold, Outcome};
use crate::oracle::{Held, Said};
use crate::records::limit;
use std::borrow::Cow;
use std::cell::Cell;
use std::panic::{self, AssertUnwindSafe};

/// The answer buffer of the program `fold`.
pub const BUFFER: usize = limit::ANSWER_BYTES;
/// Painted bytes on either side of the lent buffer.
const MARGIN: usize = 64;

thread_local! {
    /// Whether a folder is at work.
    static FOLDING: Cell<bool> = const { Cell::new(false) };
}

/// Has panics of folders, which are told of as differences, print nothing.
pub fn silence_folders() {
    let usual = panic::take_hook();
    panic::set_hook(Box::new(move |panic| {
        if !FOLDING.get() {
            usual(panic);
        }
    }));
}

/// What a folder gives; `None` if it panics.
fn run(fold: Fold, input: &[u8], out: &mut [u8]) -> Option<Outcome> {
    FOLDING.set(true);
    let outcome = panic::catch_unwind(AssertUnwindSafe(|| fold(input, out)));
    FOLDING.set(false);
    outcome.ok()
}

/// What the oracle says of an entry, with the plain folder's zeros where the Rust leaves their sign open; `None` if the
/// plain folder differs in more.
pub fn signed<'a>(entry: Entry, input: &[u8], held: &'a Held) -> Option<Cow<'a, Said>> {
    let said = held.said(entry);
    let (Zeros::Alike, Some(needed)) = (said.zeros(), said.needed()) else {
        return Some(Cow::Borrowed(said));
    };
    let (wanted, bytes) = said.wanted(needed);
    let mut answer = vec![0; needed];
    let outcome = run(entry.plain(), input, &mut answer)?;
    let same = outcome == wanted && same_answer(said, bytes, &answer);
    same.then(|| Cow::Owned(said.signed(answer)))
}

/// Lengths of the buffer to try: more than the answer needs, what it needs, one byte less, and none;
/// for a refusal, some and none. `wide` adds the program's.
pub fn buffers(said: &Said, wide: bool) -> Vec<usize> {
    let mut buffers: Vec<usize> = wide.then_some(BUFFER).into_iter().collect();
    match said.needed() {
        Some(needed) => buffers.extend([needed + 13, needed, needed.saturating_sub(1), 0]),
        None => buffers.extend([100, 0]),
    }
    buffers.dedup();
    buffers
}

/// How a folder differs from the oracle on an input, for one length of buffer.
pub struct Difference {
    pub buffer: usize,
    /// What differs.
    pub what: Vec<&'static str>,
    pub wanted: (Outcome, Vec<u8>),
    /// `None` where the folder panics. The bytes are the answer that it says.
    pub got: Option<(Outcome, Vec<u8>)>,
}

/// Memory with a pattern, of which folders are lent a part.
pub struct Paint {
    clean: Vec<u8>,
    memory: Vec<u8>,
}

impl Default for Paint {
    fn default() -> Self {
        // No two neighbours are alike, and no byte is what a record often has.
        let pattern = (0..).map(|i: usize| 0x80 | (i * 37 % 127) as u8);
        let clean: Vec<u8> = pattern.take(2 * MARGIN + 4 * BUFFER).collect();
        Paint {
            memory: clean.clone(),
            clean,
        }
    }
}

impl Paint {
    /// How a folder differs, if it does.
    pub fn difference(
        &mut self,
        fold: Fold,
        input: &[u8],
        said: &Said,
        buffer: usize,
    ) -> Option<Difference> {
        let (wanted, bytes) = said.wanted(buffer);
        let end = MARGIN + buffer;
        let outcome = run(fold, input, &mut self.memory[MARGIN..end]);
        let answer = &self.memory[MARGIN..][..bytes.len()];
        let same = outcome == Some(wanted)
            && same_answer(said, bytes, answer)
            && self.is_painted(MARGIN + bytes.len(), end + MARGIN)
            && self.is_painted(0, MARGIN);
        let difference = (!same).then(|| self.describe(said, buffer, outcome));
        let touched = if same {
            MARGIN..end
        } else {
            0..self.clean.len()
        };
        self.memory[touched.clone()].copy_from_slice(&self.clean[touched]);
        difference
    }

    fn is_painted(&self, from: usize, to: usize) -> bool {
        self.memory[from..to] == self.clean[from..to]
    }

    fn describe(&self, said: &Said, buffer: usize, outcome: Option<Outcome>) -> Difference {
        let (wanted, bytes) = said.wanted(buffer);
        let got = outcome.map(|outcome| {
            let length = outcome.length.min(buffer);
            (outcome, self.memory[MARGIN..MARGIN + length].to_vec())
        });
        let what = match &got {
            None => vec!["it panics"],
            Some((outcome, answer)) => {
                let mut what = differing_numbers(wanted, *outcome);
                if (wanted.number, outcome.number) == (0, 0) {
                    what.extend(differing_parts(said, bytes, answer));
                }
                what.extend(self.touched(answer.len(), buffer));
                what
            }
        };
        Difference {
            buffer,
            what,
            wanted: (wanted, bytes.to_vec()),
            got,
        }
    }

    /// What is touched of the memory that should not be.
    fn touched(&self, answer: usize, buffer: usize) -> Vec<&'static str> {
        let end = MARGIN + buffer;
        let mut touched = Vec::new();
        if !self.is_painted(MARGIN + answer, end) {
            touched.push("the buffer past the answer");
        }
        if !self.is_painted(0, MARGIN) || !self.is_painted(end, end + MARGIN) {
            touched.push("bytes around the buffer");
        }
        touched
    }
}

fn same_answer(said: &Said, x: &[u8], y: &[u8]) -> bool {
    let zeros = said.zeros();
    alike(x, y, zeros) || said.is_bag() && parts(x, true, zeros) == parts(y, true, zeros)
}

fn differing_parts(said: &Said, wanted: &[u8], got: &[u8]) -> impl Iterator<Item = &'static str> {
    let of = |answer| parts(answer, said.is_bag(), said.zeros());
    let (wanted, got) = (of(wanted), of(got));
    let pairs = wanted.into_iter().zip(got).zip(PARTS);
    pairs.filter_map(|((wanted, got), name)| (wanted != got).then_some(name))
}

fn differing_numbers(wanted: Outcome, got: Outcome) -> Vec<&'static str> {
    let numbers = [
        (
            "number",
            usize::from(wanted.number),
            usize::from(got.number),
        ),
        ("place", wanted.place, got.place),
        ("length", wanted.length, got.length),
        ("pops", wanted.pops, got.pops),
    ];
    let differing = numbers.into_iter().filter(|(_, wanted, got)| wanted != got);
    differing.map(|(name, _, _)| name).collect()
}
