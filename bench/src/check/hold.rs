//! The archive held against the model, with all that it is lent: the five numbers, every byte of
//! the report buffer, and the working slices. As a checker of `compare` it is held against the
//! original as well.

use super::archive::{self, Answer, Working, LENT, PLACES};
use compare::gen::rng::Rng;
use compare::model::{self, PROGRAM_BUFFER};
use std::collections::BTreeMap;

/// What lent memory holds before a call.
pub struct Garbage {
    words: Vec<u32>,
    rng: Rng,
}

impl Garbage {
    pub fn new(seed: u64) -> Garbage {
        let mut rng = Rng::new("garbage", seed, 0);
        let words = (0..1 << 18).map(|_| rng.draw() as u32).collect();
        Garbage { words, rng }
    }

    /// A run of `n` words, from another place each time.
    fn run(&mut self, n: usize) -> &[u32] {
        let from = self.rng.below((self.words.len() - n) as u64) as usize;
        &self.words[from..from + n]
    }

    pub fn fill_words(&mut self, s: &mut [u32]) {
        let run = self.run(s.len());
        s.copy_from_slice(run);
    }

    pub fn fill_bytes(&mut self, s: &mut [u8]) {
        let run = self.run(s.len() / 4 + 1);
        for (four, word) in s.chunks_mut(4).zip(run) {
            four.copy_from_slice(&word.to_le_bytes()[..four.len()]);
        }
    }
}

/// How many calls and texts of each class there were.
pub type Seen = BTreeMap<&'static str, u64>;

/// A checker that runs the archive and fails on any difference from the model.
pub struct Holder {
    garbage: Garbage,
    /// Slices as the program lends them, and with the fewest places.
    roomy: Working,
    fewest: Working,
    /// The buffer of the call, and what it held before.
    report: Vec<u8>,
    before: Vec<u8>,
    texts: u64,
    pub seen: Seen,
}

impl Holder {
    pub fn new(seed: u64) -> Holder {
        Holder {
            garbage: Garbage::new(seed),
            roomy: Working::new(LENT),
            fewest: Working::new(PLACES),
            report: Vec::new(),
            before: Vec::new(),
            texts: 0,
            seen: Seen::new(),
        }
    }

    /// What `drivercheck` prints for a text, after the archive agreed with the model in every call.
    pub fn print(&mut self, text: &[u8]) -> Result<Vec<u8>, String> {
        self.texts += 1;
        let wanted = model::answer(text, PROGRAM_BUFFER);
        self.note(&wanted);
        self.hold_roomy(text, &wanted, PROGRAM_BUFFER)?;
        let printed = match wanted.number {
            0 => self.report[..wanted.bytes].to_vec(),
            number => format!("(refused {number} {})\n", wanted.line).into_bytes(),
        };
        if wanted.bytes > 0 {
            self.hold_roomy(text, &refused(21), wanted.bytes - 1)?;
            self.count("calls with a buffer one byte too short");
        }
        self.hold_fewest(text, &wanted)?;
        self.hold_short(text)?;
        self.hold_long(text, &wanted)?;
        Ok(printed)
    }

    fn count(&mut self, class: &'static str) {
        *self.seen.entry(class).or_default() += 1;
    }

    fn note(&mut self, wanted: &model::Answer) {
        let reports = String::from_utf8_lossy(&wanted.text);
        for code in ["E0501", "E0502", "E0503", "E0504", "E0505"] {
            if reports.contains(code) {
                self.count(code);
            }
        }
        let accepted = wanted.number == 0;
        for (class, of) in [
            ("texts accepted", accepted),
            (
                "texts accepted without a report",
                accepted && wanted.reports == 0,
            ),
            ("texts with rounds", wanted.rounds > 0),
            ("texts refused", !accepted),
        ] {
            if of {
                self.count(class);
            }
        }
    }

    fn hold_roomy(
        &mut self,
        text: &[u8],
        wanted: &model::Answer,
        room: usize,
    ) -> Result<(), String> {
        let mut lent = std::mem::take(&mut self.roomy);
        let held = self.hold(text, wanted, room, &mut lent);
        self.roomy = lent;
        held
    }

    /// The fewest places, and a buffer of just the length.
    fn hold_fewest(&mut self, text: &[u8], wanted: &model::Answer) -> Result<(), String> {
        self.count("calls with the fewest places and a buffer of just the length");
        let mut lent = std::mem::take(&mut self.fewest);
        let held = self.hold(text, wanted, wanted.bytes, &mut lent);
        self.fewest = lent;
        held.map_err(|what| format!("the fewest places: {what}"))
    }

    /// One of the seven slices too short: 20, whatever the text.
    fn hold_short(&mut self, text: &[u8]) -> Result<(), String> {
        let mut places = PLACES;
        let at = (self.texts % 7) as usize;
        places[at] -= 1 + self.garbage.rng.below(places[at] as u64) as usize;
        self.count("calls with a working slice too short");
        self.hold(
            text,
            &refused(20),
            PROGRAM_BUFFER,
            &mut Working::new(places),
        )
        .map_err(|what| format!("places {places:?}: {what}"))
    }

    /// One slice longer than it need be, with a buffer of another length; for each eighth text.
    fn hold_long(&mut self, text: &[u8], wanted: &model::Answer) -> Result<(), String> {
        if self.texts % 8 != 0 {
            return Ok(());
        }
        let mut places = PLACES;
        places[(self.texts / 8 % 7) as usize] += 1 + self.garbage.rng.below(99) as usize;
        let more = self.garbage.rng.below(999) as usize;
        self.count("calls with a working slice longer than it need be");
        self.hold(text, wanted, wanted.bytes + more, &mut Working::new(places))
            .map_err(|what| format!("places {places:?}: {what}"))
    }

    /// One call with a buffer of `room` bytes.
    fn hold(
        &mut self,
        text: &[u8],
        wanted: &model::Answer,
        room: usize,
        lent: &mut Working,
    ) -> Result<(), String> {
        self.count("calls");
        lent.fill(&mut self.garbage);
        self.before.resize(room, 0);
        self.garbage.fill_bytes(&mut self.before);
        self.report.clone_from(&self.before);
        let answer = archive::check(text, &mut self.report, lent)?;
        if answer != expected(wanted) {
            return Err(format!(
                "room {room}: {answer:?}, model {:?}",
                expected(wanted)
            ));
        }
        let (written, rest) = self.report.split_at(wanted.bytes);
        if written != wanted.text {
            return Err(format!(
                "room {room}: {}",
                first_line_apart(written, &wanted.text)
            ));
        }
        if rest != &self.before[wanted.bytes..] {
            return Err(format!("room {room}: bytes past the written ones changed"));
        }
        if !lent.is_zero() {
            return Err(format!("room {room}: a working slice is not zero"));
        }
        Ok(())
    }
}

fn expected(wanted: &model::Answer) -> Answer {
    Answer {
        number: wanted.number,
        line: wanted.line,
        bytes: wanted.bytes,
        reports: wanted.reports as usize,
        rounds: wanted.rounds,
    }
}

fn refused(number: u32) -> model::Answer {
    model::Answer {
        number,
        line: 0,
        bytes: 0,
        reports: 0,
        rounds: 0,
        text: Vec::new(),
    }
}

fn first_line_apart(written: &[u8], wanted: &[u8]) -> String {
    let lines = |bytes| String::from_utf8_lossy(bytes).into_owned();
    let (written, wanted) = (lines(written), lines(wanted));
    let apart = written.lines().zip(wanted.lines()).find(|(a, b)| a != b);
    format!("reports differ from the model's: {apart:?}")
}
