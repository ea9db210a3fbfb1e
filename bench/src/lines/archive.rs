//! `drivercheck_lines` of the archive, as a safe function.

use super::Answer;

extern "C" {
    fn drivercheck_lines(text: *const u8, text_len: usize) -> u64;
}

/// 0 for a text that is well formed, else the refusal's number times 2^32 and its line.
pub fn code(text: &[u8]) -> u64 {
    // SAFETY: the slice is passed with its own length, the archive only reads it, and it keeps no
    // pointer.
    unsafe { drivercheck_lines(text.as_ptr(), text.len()) }
}

pub fn read(text: &[u8]) -> Answer {
    match code(text) {
        0 => Answer::Formed,
        code => Answer::Refused {
            number: (code >> 32) as u32,
            line: code as u32,
        },
    }
}
