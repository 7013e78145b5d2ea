//! An engine against the reference: import and export.

use super::sheets::LONGEST;
use crate::dominoes::list;
use crate::hex::Hex;
use crate::random::Random;
use crate::{Reference, Translating, REFUSALS};
use reference::Refusal;
use std::fmt;

/// Bytes on either side of an output, which no call may change.
const MARGIN: usize = 8;

/// A call with what it is given.
#[derive(Clone, Copy)]
pub enum Call<'a> {
    Import(&'a [u8]),
    Export(&'a [u8]),
}

impl Call<'_> {
    /// # Errors
    ///
    /// The refusals of the call.
    pub fn run(self, engine: &impl Translating, out: &mut [u8]) -> Result<usize, Refusal> {
        match self {
            Call::Import(text) => engine.import(text, out),
            Call::Export(sheet) => engine.export(sheet, out),
        }
    }
}

/// What is told where a comparison fails; of a long text the front.
impl fmt::Display for Call<'_> {
    fn fmt(&self, f: &mut fmt::Formatter<'_>) -> fmt::Result {
        match self {
            Call::Import(text) => {
                let front = &text[..text.len().min(2_000)];
                write!(
                    f,
                    "import of {} bytes '{}'",
                    text.len(),
                    front.escape_ascii()
                )
            }
            Call::Export(sheet) => write!(f, "export of {}", Hex(sheet)),
        }
    }
}

/// How many results were compared, and of which sort.
#[derive(Default)]
pub struct Tally {
    pub comparisons: u64,
    pub texts: u64,
    /// Texts that are a sheet.
    pub imported: u64,
    pub sheets: u64,
    /// Sheets that have a text.
    pub exported: u64,
    /// By the number of the refusal.
    pub refused: [u64; REFUSALS],
}

impl Tally {
    /// Compares one call with several outputs: long enough, longer, too short.
    ///
    /// # Panics
    ///
    /// Where engine and reference differ.
    pub fn compare(&mut self, engine: &impl Translating, call: Call<'_>, random: &mut Random) {
        let outcome = self.count(call);
        let needed = outcome.unwrap_or(random.below(900));
        let longer = needed + 1 + random.below(24);
        self.compare_out(engine, call, longer, random);
        if outcome.is_ok() {
            self.compare_out(engine, call, needed, random);
        }
        if needed > 0 {
            let any = random.below(needed);
            let shorter = random.pick(&[0, needed - 1, any]);
            self.compare_out(engine, call, shorter, random);
        }
    }

    /// Compares several calls.
    ///
    /// # Panics
    ///
    /// Where engine and reference differ.
    pub fn compare_all<'a>(
        &mut self,
        engine: &impl Translating,
        calls: impl IntoIterator<Item = Call<'a>>,
        random: &mut Random,
    ) {
        for call in calls {
            self.compare(engine, call, random);
        }
    }

    /// Asserts that a sort of refusal came so often.
    ///
    /// # Panics
    ///
    /// If it did not.
    pub fn assert_refused(&self, numbers: impl IntoIterator<Item = usize>, often: u64) {
        for number in numbers {
            let seen = self.refused[number] >= often;
            assert!(seen, "refusal {number} is rare: {self}");
        }
    }

    /// Compares one call with an output of each length up to some more than
    /// needed.
    ///
    /// # Panics
    ///
    /// Where engine and reference differ.
    pub fn compare_lengths(
        &mut self,
        engine: &impl Translating,
        call: Call<'_>,
        random: &mut Random,
    ) {
        let needed = self.count(call).unwrap_or(20);
        for len in 0..=needed + 4 {
            self.compare_out(engine, call, len, random);
        }
    }

    /// The length that the reference writes, if the output is long enough.
    fn count(&mut self, call: Call<'_>) -> Result<usize, Refusal> {
        let outcome = call.run(&Reference, &mut [0; LONGEST]);
        let (given, done) = match call {
            Call::Import(_) => (&mut self.texts, &mut self.imported),
            Call::Export(_) => (&mut self.sheets, &mut self.exported),
        };
        *given += 1;
        *done += u64::from(outcome.is_ok());
        outcome
    }

    /// Compares one call with an output of that length.
    ///
    /// # Panics
    ///
    /// Where engine and reference differ.
    pub fn compare_out(
        &mut self,
        engine: &impl Translating,
        call: Call<'_>,
        len: usize,
        random: &mut Random,
    ) {
        let before = random.bytes(MARGIN + len + MARGIN);
        let out = MARGIN..MARGIN + len;

        let mut by_engine = before.clone();
        let answer = call.run(engine, &mut by_engine[out.clone()]);
        let mut by_reference = before.clone();
        let expected = call.run(&Reference, &mut by_reference[out]);

        assert_eq!(answer, expected, "{call}");
        assert!(by_engine == by_reference, "bytes of the {call}");
        let written = expected.unwrap_or(0);
        assert_eq!(by_engine[..MARGIN], before[..MARGIN], "{call}");
        assert_eq!(
            by_engine[MARGIN + written..],
            before[MARGIN + written..],
            "{call}"
        );
        if let Err(refusal) = expected {
            self.refused[refusal.number as usize] += 1;
        }
        self.comparisons += 1;
    }
}

impl fmt::Display for Tally {
    fn fmt(&self, f: &mut fmt::Formatter<'_>) -> fmt::Result {
        write!(
            f,
            "{} comparisons on {} texts ({} imported) and {} sheets ({} exported)",
            self.comparisons, self.texts, self.imported, self.sheets, self.exported
        )?;
        list(f, "; refusals", &self.refused)
    }
}
