//! What judging a sheet answers.

use crate::status::Status;
use lodhrussi::{words_needed, Counts, Judgement, Refusal};

/// What a sheet holds and what judging it found.
#[derive(Clone, Copy, Debug, PartialEq, Eq)]
pub struct Found {
    pub counts: Counts,
    pub judgement: Judgement,
}

pub type Answer = Result<Found, Refusal>;

/// Words of a domino set, as many as were asked for so far.
#[derive(Debug, Default)]
pub struct Words(Vec<u64>);

impl Words {
    /// So many of them.
    fn lend(&mut self, words: usize) -> &mut [u64] {
        if self.0.len() < words {
            self.0.resize(words, 0);
        }
        &mut self.0[..words]
    }
}

/// Judges a sheet with as many words as it needs.
pub fn judged(sheet: &[u8], words: &mut Words) -> Answer {
    let counts = lodhrussi::read(sheet)?;
    judged_with(words_needed(counts), sheet, words)
}

/// Judges a sheet with so many words.
pub fn judged_with(number: usize, sheet: &[u8], words: &mut Words) -> Answer {
    let counts = lodhrussi::read(sheet)?;
    let judgement = lodhrussi::judge(sheet, words.lend(number))?;
    Ok(Found { counts, judgement })
}

pub fn status(answer: &Answer) -> Status {
    match answer {
        Ok(found) if found.judgement.met => Status::Answered,
        Ok(_) => Status::Unmet,
        Err(_) => Status::Refused,
    }
}

/// Of how many sheets there was which answer, and the survivors of all.
#[derive(Clone, Copy, Debug, Default, PartialEq, Eq)]
pub struct Totals {
    pub met: u64,
    pub unmet: u64,
    pub refused: u64,
    pub survivors: u64,
}

impl Totals {
    pub fn add(&mut self, answer: &Answer) {
        match answer {
            Ok(found) => {
                let met = found.judgement.met;
                *(if met { &mut self.met } else { &mut self.unmet }) += 1;
                self.survivors += found.judgement.survivors;
            }
            Err(_) => self.refused += 1,
        }
    }

    pub fn sheets(&self) -> u64 {
        self.met + self.unmet + self.refused
    }
}

#[cfg(test)]
mod tests {
    use super::*;
    use comparison::worked::{from_hex, JUDGED};

    #[test]
    fn totals_of_the_worked_sheets() {
        let mut words = Words::default();
        let mut totals = Totals::default();
        let mut statuses = Vec::new();
        let faulty = vec![0x04, 0];
        let sheets = JUDGED[..7].iter().map(|(sheet, ..)| from_hex(sheet));
        for sheet in sheets.chain([faulty]) {
            let answer = judged(&sheet, &mut words);
            statuses.push(status(&answer) as u8);
            totals.add(&answer);
        }
        assert_eq!(statuses, [0, 0, 1, 1, 1, 0, 0, 2]);
        let expected = Totals {
            met: 4,
            unmet: 3,
            refused: 1,
            survivors: 1 + 16 + 16 + 85,
        };
        assert_eq!((totals, totals.sheets()), (expected, 8));
    }

    /// A sheet of twelve parts takes 262,144 words, and a small one after it
    /// is judged with the same.
    #[test]
    fn words_are_as_many_as_needed() {
        let mut words = Words::default();
        let twelve = judged(&[0x03, 11], &mut words).expect("no fault");
        assert_eq!(twelve.judgement.survivors, 1 << 24);
        assert_eq!(words.0.len(), 262_144);
        let one = judged(&[0x03, 0], &mut words).expect("no fault");
        assert_eq!(one.judgement.survivors, 4);
        let refused = judged_with(4_096, &[0x03, 9], &mut words);
        assert_eq!(refused.map_err(|refusal| refusal.number), Err(10));
    }
}
