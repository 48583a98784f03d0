//! Folds the constants of a gate graph, by the proved folder of Mezburiko.
//!
//! A graph comes as a run of bytes and the answer goes as bytes into a buffer that the caller lends; document 01
//! (`docs/01-scope.md`) has the records of both. It is proved, for every run of bytes, that the answer or the refusal is
//! document 01's and that the rest of the buffer stays as it was.
//!
//! ```
//! // a node of no class that folds is kept as it came
//! let mut out = [0; 16];
//! let folded = mezburiko::fold(&[0x01, 0x00, 0x00], &mut out)?;
//! assert_eq!(out[..folded.length], [0x10, 0x00, 0x00]);
//! assert_eq!(folded.pops, 1);
//!
//! // a record that is cut off
//! let refusal = mezburiko::fold(&[0x01, 0x00], &mut out).unwrap_err();
//! assert_eq!(refusal.reason, mezburiko::Reason::CutOff);
//! assert_eq!(refusal.place, 0);
//! # Ok::<(), mezburiko::Refusal>(())
//! ```
//!
//! [`fold_swept`] folds in the same way, and then takes the nodes that feed nothing. Beside the folder, [`whole_root`]
//! gives the whole root of a number and what is over.
//!
//! A fold takes about 116 KB of stack, a swept one 145 KB. A call allocates nothing and shares nothing with other
//! calls, so it may run in any number of threads at once. The package uses `core` alone but for [`fold_to_vec`] and
//! [`fold_swept_to_vec`], which the feature `alloc` has.
//!
//! The static library `libmezburiko.a` is linked from the folder that the environment variable `MEZBURIKO_LIB_DIR` names,
//! as an absolute path, or else from `target/staticlib` of the repository, where `make library` puts it.
#![no_std]
#![warn(missing_docs)]

#[cfg(feature = "alloc")]
extern crate alloc;

use core::error::Error;
use core::fmt;

#[cfg(feature = "alloc")]
use alloc::{vec, vec::Vec};

/// The longest input that is not refused, in bytes.
pub const MAX_INPUT: usize = 65_536;
/// The most nodes of a graph.
pub const MAX_NODES: usize = 1_024;
/// The most wires of a graph, and of an answer.
pub const MAX_WIRES: usize = 4_096;
/// The most properties of a graph.
pub const MAX_PROPERTIES: usize = 2_048;
/// The most rows of a graph.
pub const MAX_ROWS: usize = 1_024;

/// The longest answer, in bytes: a buffer of this length holds every answer.
///
/// A wire takes 7 bytes. A node takes at most 55, as a planned Vector, or 39 where it is no planned literal. Where the
/// answer has wires, they enter some node that is no planned literal.
pub const MAX_ANSWER: usize = 7 * MAX_WIRES + 55 * (MAX_NODES - 1) + 39;

/// What comes of an accepted graph, beside the answer itself.
#[derive(Clone, Copy, Debug, PartialEq, Eq, Hash)]
pub struct Folded {
    /// The answer's length in bytes, from the front of the buffer.
    pub length: usize,
    /// How many nodes were taken from the waiting line.
    pub pops: usize,
}

/// Why an input is refused, and where.
#[derive(Clone, Copy, Debug, PartialEq, Eq, Hash)]
pub struct Refusal {
    /// Why.
    pub reason: Reason,
    /// The offset of the record in the input; 0 for [`Reason::InputTooLong`] and [`Reason::NoSpace`].
    pub place: usize,
}

impl fmt::Display for Refusal {
    fn fmt(&self, f: &mut fmt::Formatter<'_>) -> fmt::Result {
        write!(
            f,
            "refused {} at {}: {}",
            self.reason.number(),
            self.place,
            self.reason
        )
    }
}

impl Error for Refusal {}

/// Why an input is refused; the values are document 01's numbers.
#[derive(Clone, Copy, Debug, PartialEq, Eq, Hash)]
#[non_exhaustive]
#[repr(u8)]
pub enum Reason {
    /// The input has more than [`MAX_INPUT`] bytes.
    InputTooLong = 1,
    /// The record's kind is not 01 to 0C.
    UnknownKind = 2,
    /// The input ends within the record.
    CutOff = 3,
    /// A class, flag, port, variant or Bool byte, or a text's length or byte, is not listed for the record's kind.
    Unlisted = 4,
    /// The record's kind is below that of the one before.
    OutOfOrder = 5,
    /// The record names a node that is not there.
    MissingNode = 6,
    /// A second property of a node and port, or annihilator of a class.
    Repeated = 7,
    /// One node, wire, property or row more than the limit.
    TooMany = 8,
    /// The rewriting of the wire goes round a circle.
    Endless = 9,
    /// More than [`MAX_WIRES`] rewritten wires, or an answer that is longer than the buffer.
    NoSpace = 10,
    /// A row of Less, LessOrEqual, Greater or GreaterOrEqual names text, which has no order. It is asked of a record right
    /// after [`Reason::Unlisted`]; 11 is the number of no reason.
    OrderedText = 12,
}

impl Reason {
    const ALL: [Reason; 11] = [
        Reason::InputTooLong,
        Reason::UnknownKind,
        Reason::CutOff,
        Reason::Unlisted,
        Reason::OutOfOrder,
        Reason::MissingNode,
        Reason::Repeated,
        Reason::TooMany,
        Reason::Endless,
        Reason::NoSpace,
        Reason::OrderedText,
    ];

    /// Document 01's number.
    pub const fn number(self) -> u8 {
        self as u8
    }

    /// The reason with this number.
    pub fn from_number(number: u8) -> Option<Reason> {
        Reason::ALL
            .into_iter()
            .find(|reason| reason.number() == number)
    }
}

impl fmt::Display for Reason {
    fn fmt(&self, f: &mut fmt::Formatter<'_>) -> fmt::Result {
        f.write_str(match self {
            Reason::InputTooLong => "the input is longer than 65,536 bytes",
            Reason::UnknownKind => "there is no such kind of record",
            Reason::CutOff => "the record is cut off",
            Reason::Unlisted => "the record has a byte that is not listed for its kind",
            Reason::OutOfOrder => "the record's kind is below that of the one before",
            Reason::MissingNode => "the record names a node that is not there",
            Reason::Repeated => "the property or annihilator is there already",
            Reason::TooMany => "there are too many records of this sort",
            Reason::Endless => "the wire's rewriting goes round a circle",
            Reason::NoSpace => {
                "there are too many rewritten wires, or the answer is longer than the buffer"
            }
            Reason::OrderedText => "the row names text for an order gate, and text has no order",
        })
    }
}

unsafe extern "C" {
    fn mezburiko_fold(
        input: *const u8,
        input_length: usize,
        out: *mut u8,
        out_length: usize,
        place: *mut usize,
        length: *mut usize,
        pops: *mut usize,
    ) -> u8;
    fn mezburiko_fold_swept(
        input: *const u8,
        input_length: usize,
        out: *mut u8,
        out_length: usize,
        place: *mut usize,
        length: *mut usize,
        pops: *mut usize,
    ) -> u8;
    fn mezburiko_whole_root(n: u64, remainder: *mut u64) -> u64;
}

/// A fold of the library.
type Entry = unsafe extern "C" fn(
    *const u8,
    usize,
    *mut u8,
    usize,
    *mut usize,
    *mut usize,
    *mut usize,
) -> u8;

/// Folds the graph that `input` says and writes the answer to the front of `out`.
///
/// The bytes of `out` past the answer stay as they were; where the input is refused, all of them do.
pub fn fold(input: &[u8], out: &mut [u8]) -> Result<Folded, Refusal> {
    // SAFETY: it is a fold of the library.
    unsafe { call(mezburiko_fold, input, out) }
}

/// Folds as [`fold`] does, and then takes the nodes that feed nothing.
///
/// A Literal or a gate (classes 1 and 6 to 42, made a literal or not, known or not) whose flags are 0 and which no
/// rewritten wire leaves is taken, its incoming wires with it, and so on until none is left. A loop stays, as each of its
/// nodes feeds another or itself; so does a node with flag bit 0 (nofold) or bit 1, which marks one that a label names, and
/// what feeds it. A taken node has the fate 11; known values and pops are those of [`fold`].
///
/// [`Reason::NoSpace`] counts the rewritten wires before any node is taken, and measures the answer after it.
///
/// ```
/// // two Literals that nothing reads: a label names the second
/// let mut out = [0; 16];
/// let folded = mezburiko::fold_swept(&[0x01, 0x01, 0x00, 0x01, 0x01, 0x02], &mut out)?;
/// assert_eq!(out[..folded.length], [0x11, 0x00, 0x00, 0x10, 0x01, 0x00]);
/// # Ok::<(), mezburiko::Refusal>(())
/// ```
pub fn fold_swept(input: &[u8], out: &mut [u8]) -> Result<Folded, Refusal> {
    // SAFETY: it is a fold of the library.
    unsafe { call(mezburiko_fold_swept, input, out) }
}

/// Calls a fold of the library.
///
/// # Safety
///
/// `entry` is a fold of the library.
unsafe fn call(entry: Entry, input: &[u8], out: &mut [u8]) -> Result<Folded, Refusal> {
    let (mut place, mut length, mut pops) = (0, 0, 0);
    // SAFETY: the slices and the three numbers are valid for their lengths and do not overlap, by the borrows; the
    // pointers are used within the call only. The library has no other duty on its caller and no state.
    let number = unsafe {
        entry(
            input.as_ptr(),
            input.len(),
            out.as_mut_ptr(),
            out.len(),
            &mut place,
            &mut length,
            &mut pops,
        )
    };
    if number == 0 {
        return Ok(Folded { length, pops });
    }
    let reason = Reason::from_number(number).expect("the library's numbers are document 01's");
    Err(Refusal { reason, place })
}

/// Folds the graph that `input` says: the answer and the pops.
///
/// There is room for every answer, so [`Reason::NoSpace`] means more than [`MAX_WIRES`] rewritten wires. The program
/// `fold` lends 65,536 bytes and refuses longer answers.
#[cfg(feature = "alloc")]
pub fn fold_to_vec(input: &[u8]) -> Result<(Vec<u8>, usize), Refusal> {
    to_vec(fold, input)
}

/// Folds the graph that `input` says, and takes the nodes that feed nothing, as [`fold_swept`] does: the answer and the
/// pops.
///
/// There is room for every answer, as with [`fold_to_vec`].
#[cfg(feature = "alloc")]
pub fn fold_swept_to_vec(input: &[u8]) -> Result<(Vec<u8>, usize), Refusal> {
    to_vec(fold_swept, input)
}

#[cfg(feature = "alloc")]
fn to_vec(
    fold: fn(&[u8], &mut [u8]) -> Result<Folded, Refusal>,
    input: &[u8],
) -> Result<(Vec<u8>, usize), Refusal> {
    let mut answer = vec![0; MAX_ANSWER];
    let folded = fold(input, &mut answer)?;
    answer.truncate(folded.length);
    answer.shrink_to_fit();
    Ok((answer, folded.pops))
}

/// The whole root of a number, and what is over.
#[derive(Clone, Copy, Debug, PartialEq, Eq, Hash)]
pub struct WholeRoot {
    /// The largest number whose square is at most the number.
    pub root: u64,
    /// The number less the square of the root.
    pub remainder: u64,
}

/// The whole root of `n`, which is `n.isqrt()`, and what is over.
///
/// It is proved for every `n` that `root * root + remainder` is `n` and `remainder` is at most `2 * root`, and that no
/// other two numbers are so.
///
/// ```
/// use mezburiko::{WholeRoot, whole_root};
///
/// // 3,000 steps by 4,001
/// let WholeRoot { root, remainder } = whole_root(3_000 * 3_000 + 4_001 * 4_001);
/// assert_eq!((root, remainder), (5_000, 8_001));
/// ```
pub fn whole_root(n: u64) -> WholeRoot {
    let mut remainder = 0;
    // SAFETY: the pointer is valid for the write, and is used within the call only.
    let root = unsafe { mezburiko_whole_root(n, &mut remainder) };
    WholeRoot { root, remainder }
}
