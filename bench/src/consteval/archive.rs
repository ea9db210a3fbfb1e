//! `drivercheck_eval` of the archive, as a safe function.

use super::Answer;

/// What the archive's numbers are above the values that they hold.
const BIAS: i64 = 2_147_483_648;

const MISSING: u64 = 1 << 32;
const OUTSIDE: u64 = MISSING + 1;

extern "C" {
    fn drivercheck_eval(
        e: *const u8,
        e_len: usize,
        depth: u32,
        names: *const u32,
        names_len: usize,
        used: usize,
    ) -> u64;
}

/// The code of the value of the expression `e`, at most `depth` brackets deep, under the first
/// `used` pairs of `names`: a name and its value as `biased` has it, the newest pair last.
///
/// The archive goes into brackets by recursion, as far as `depth` lets it: about 370 bytes of stack
/// for each level. The format needs 32; a `depth` of thousands on bytes as deep ends the process.
pub fn code(e: &[u8], depth: u32, names: &[u32], used: usize) -> u64 {
    // SAFETY: both slices are passed with their own lengths, the archive only reads them, and it
    // keeps neither pointer.
    unsafe {
        drivercheck_eval(
            e.as_ptr(),
            e.len(),
            depth,
            names.as_ptr(),
            names.len(),
            used,
        )
    }
}

/// `code` as an answer; the error is a code that means nothing.
pub fn eval(e: &[u8], depth: u32, names: &[u32], used: usize) -> Result<Answer, u64> {
    match code(e, depth, names, used) {
        MISSING => Ok(Answer::Missing),
        OUTSIDE => Ok(Answer::Outside),
        known if known < MISSING => Ok(Answer::Known(known as i64 - BIAS)),
        other => Err(other),
    }
}

/// A value of INT as the name table holds it.
pub fn biased(value: i32) -> u32 {
    (value as u32) ^ (1 << 31)
}
