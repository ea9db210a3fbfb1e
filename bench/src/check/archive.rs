//! `drivercheck_check` of the archive, as a safe function over working slices of its own.

use super::hold::Garbage;

extern "C" {
    fn drivercheck_check(
        text: *const u8,
        text_len: usize,
        report: *mut u8,
        report_len: usize,
        numbers: *mut u64,
        numbers_len: usize,
        kinds: *mut u8,
        kinds_len: usize,
        mods: *mut u32,
        mods_len: usize,
        names: *mut u32,
        names_len: usize,
        own: *mut u32,
        own_len: usize,
        g: *mut u32,
        g_len: usize,
        w: *mut u32,
        w_len: usize,
        k: *mut u32,
        k_len: usize,
    ) -> u32;
}

/// The fewest places of the working slices: `kinds` (bytes), `mods`, `names`, `own`, `g`, `w`, `k` (words).
pub const PLACES: [usize; 7] = [8_192, 128, 6_616, 11_016, 15_874, 29_190, 2_145];

/// Places as the program lends them: behind its 15,874 words the graph keeps hints of where its nodes are.
pub const LENT: [usize; 7] = [8_192, 128, 6_616, 11_016, 16_898, 29_190, 2_145];

/// What a call gives back.
#[derive(Clone, Copy, Debug, PartialEq, Eq)]
pub struct Answer {
    pub number: u32,
    pub line: u32,
    pub bytes: usize,
    pub reports: usize,
    pub rounds: u64,
}

/// The working slices of a call; none have a place by default.
#[derive(Default)]
pub struct Working {
    kinds: Vec<u8>,
    words: [Vec<u32>; 6],
}

impl Working {
    /// Slices of so many places, all zero.
    pub fn new(places: [usize; 7]) -> Working {
        let [kinds, words @ ..] = places;
        Working {
            kinds: vec![0; kinds],
            words: words.map(|n| vec![0; n]),
        }
    }

    pub fn fill(&mut self, garbage: &mut Garbage) {
        garbage.fill_bytes(&mut self.kinds);
        self.words.iter_mut().for_each(|s| garbage.fill_words(s));
    }

    pub fn is_zero(&self) -> bool {
        self.kinds.iter().all(|&x| x == 0) && self.words.iter().flatten().all(|&x| x == 0)
    }
}

/// The answer to a text. The reports go into `report`.
///
/// Fails, with one line, where the number that is returned is not the one among the five.
pub fn check(text: &[u8], report: &mut [u8], lent: &mut Working) -> Result<Answer, String> {
    let mut numbers = [u64::MAX; 5];
    let returned = call(text, report, &mut numbers, lent);
    let [number, line, bytes, reports, rounds] = numbers;
    if u64::from(returned) != number {
        return Err(format!("returned {returned}, stored {numbers:?}"));
    }
    Ok(Answer {
        number: returned,
        line: line as u32,
        bytes: bytes as usize,
        reports: reports as usize,
        rounds,
    })
}

/// The number of the answer, and as many of its five numbers as there is room for.
pub fn call(text: &[u8], report: &mut [u8], numbers: &mut [u64], lent: &mut Working) -> u32 {
    let [mods, names, own, g, w, k] = &mut lent.words;
    // SAFETY: every slice is passed with its own length, those that the archive writes are borrowed
    // mutably and apart from the others, and it keeps no pointer.
    unsafe {
        drivercheck_check(
            text.as_ptr(),
            text.len(),
            report.as_mut_ptr(),
            report.len(),
            numbers.as_mut_ptr(),
            numbers.len(),
            lent.kinds.as_mut_ptr(),
            lent.kinds.len(),
            mods.as_mut_ptr(),
            mods.len(),
            names.as_mut_ptr(),
            names.len(),
            own.as_mut_ptr(),
            own.len(),
            g.as_mut_ptr(),
            g.len(),
            w.as_mut_ptr(),
            w.len(),
            k.as_mut_ptr(),
            k.len(),
        )
    }
}
