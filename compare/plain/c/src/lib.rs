//! The plain folder as `mezburiko_fold` and `mezburiko_fold_swept`.
use std::slice;

/// Gives a function of the plain folder the C interface of the proved one.
macro_rules! entry {
    ($name:ident, $fold:path) => {
        /// # Safety
        /// `input` and `out` are so many bytes that do not overlap, and the others each one number.
        #[unsafe(no_mangle)]
        pub unsafe extern "C" fn $name(
            input: *const u8,
            input_length: usize,
            out: *mut u8,
            out_length: usize,
            place: &mut usize,
            length: &mut usize,
            pops: &mut usize,
        ) -> u8 {
            // SAFETY: the caller's.
            let (input, out) = unsafe {
                (
                    slice::from_raw_parts(input, input_length),
                    slice::from_raw_parts_mut(out, out_length),
                )
            };
            let number;
            (number, *place, *length, *pops) = match $fold(input, out) {
                Ok((length, pops)) => (0, 0, length, pops),
                Err((number, place)) => (number, place, 0, 0),
            };
            number
        }
    };
}

entry!(mezburiko_fold, plain::fold);
entry!(mezburiko_fold_swept, plain::fold_swept);
