//! The folders under one form: an input and an answer buffer in, an outcome out.

/// The four numbers that a folder returns.
#[derive(Clone, Copy, Debug, PartialEq, Eq)]
pub struct Outcome {
    pub number: u8,
    pub place: usize,
    pub length: usize,
    pub pops: usize,
}

impl Outcome {
    /// Of what the plain folder gives.
    #[inline(always)]
    fn of(given: Result<(usize, usize), plain::Refusal>) -> Self {
        match given {
            Ok((length, pops)) => Outcome::folded(length, pops),
            Err((number, place)) => Outcome::refused(number, place),
        }
    }

    pub fn folded(length: usize, pops: usize) -> Self {
        Outcome {
            number: 0,
            place: 0,
            length,
            pops,
        }
    }

    pub fn refused(number: u8, place: usize) -> Self {
        Outcome {
            number,
            place,
            length: 0,
            pops: 0,
        }
    }
}

pub type Fold = fn(&[u8], &mut [u8]) -> Outcome;

/// What folders are asked for.
#[derive(Clone, Copy, Debug, PartialEq, Eq)]
pub enum Entry {
    /// `mezburiko_fold`.
    Fold,
    /// `mezburiko_fold_swept`, whose last stage takes the nodes that feed nothing.
    FoldSwept,
}

impl Entry {
    /// The plain folder's function.
    pub fn plain(self) -> Fold {
        match self {
            Entry::Fold => plain,
            Entry::FoldSwept => plain_swept,
        }
    }

    /// The proved folder's, where it is linked.
    pub fn proved(self) -> Option<Fold> {
        match self {
            Entry::Fold => PROVED,
            Entry::FoldSwept => PROVED_SWEPT,
        }
    }
}

/// Decodes and runs the worklist: the pops, or the refusal's number.
pub type Worklist = fn(&[u8]) -> Result<usize, u8>;

#[inline(never)]
pub fn plain(input: &[u8], out: &mut [u8]) -> Outcome {
    Outcome::of(plain::fold(input, out))
}

#[inline(never)]
pub fn plain_swept(input: &[u8], out: &mut [u8]) -> Outcome {
    Outcome::of(plain::fold_swept(input, out))
}

#[inline(never)]
pub fn plain_worklist(input: &[u8]) -> Result<usize, u8> {
    match plain::worklist(input) {
        Ok((pops, _)) => Ok(pops),
        Err((number, _)) => Err(number),
    }
}

/// The proved folder, where it is linked.
#[cfg(feature = "folding")]
pub const PROVED: Option<Fold> = Some(proved::fold);
#[cfg(not(feature = "folding"))]
pub const PROVED: Option<Fold> = None;

#[cfg(feature = "folding")]
pub const PROVED_SWEPT: Option<Fold> = Some(proved::fold_swept);
#[cfg(not(feature = "folding"))]
pub const PROVED_SWEPT: Option<Fold> = None;

#[cfg(feature = "stages")]
pub const PROVED_WORKLIST: Option<Worklist> = Some(proved_stages::worklist);
#[cfg(not(feature = "stages"))]
pub const PROVED_WORKLIST: Option<Worklist> = None;

/// The C function `mezburiko_fold` or `mezburiko_fold_swept` of some build.
pub type Function = unsafe extern "C" fn(
    *const u8,
    usize,
    *mut u8,
    usize,
    *mut usize,
    *mut usize,
    *mut usize,
) -> u8;

/// Calls a function.
///
/// # Safety
/// It keeps to what the header says of `mezburiko_fold`.
#[inline(always)]
pub unsafe fn call(function: Function, input: &[u8], out: &mut [u8]) -> Outcome {
    // No outcome has this number, so one that is not written shows.
    let (mut place, mut length, mut pops) = (usize::MAX, usize::MAX, usize::MAX);
    // SAFETY: each pointer is to so many bytes, or to one number, and is used in the call only.
    let number = unsafe {
        function(
            input.as_ptr(),
            input.len(),
            out.as_mut_ptr(),
            out.len(),
            &mut place,
            &mut length,
            &mut pops,
        )
    };
    Outcome {
        number,
        place,
        length,
        pops,
    }
}

#[cfg(feature = "folding")]
mod proved {
    use super::{Outcome, call};

    macro_rules! entry {
        ($function:ident, $fold:ident) => {
            unsafe extern "C" {
                fn $function(
                    input: *const u8,
                    input_length: usize,
                    out: *mut u8,
                    out_length: usize,
                    place: *mut usize,
                    length: *mut usize,
                    pops: *mut usize,
                ) -> u8;
            }

            #[inline(never)]
            pub fn $fold(input: &[u8], out: &mut [u8]) -> Outcome {
                // SAFETY: it is an entry of the library.
                unsafe { call($function, input, out) }
            }
        };
    }

    entry!(mezburiko_fold, fold);
    entry!(mezburiko_fold_swept, fold_swept);
}

#[cfg(feature = "stages")]
mod proved_stages {
    unsafe extern "C" {
        fn mezburiko_worklist(input: *const u8, input_length: usize, pops: *mut usize) -> u8;
    }

    #[inline(never)]
    pub fn worklist(input: &[u8]) -> Result<usize, u8> {
        let mut pops = 0;
        // SAFETY: as in `call`.
        match unsafe { mezburiko_worklist(input.as_ptr(), input.len(), &mut pops) } {
            0 => Ok(pops),
            number => Err(number),
        }
    }
}
