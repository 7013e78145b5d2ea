//! The six o'clock queue, written from document 02's request N1 alone.

use crate::judge;

/// A slot's bytes with its kind.
const SLOT: usize = 1 + 767;
const SLOT_KIND: u8 = 0x30;
const END_KIND: u8 = 0x31;
const MOST_SLOTS: usize = 4_096;
const LONGEST_SHEET: usize = 765;
const WORDS: usize = 4_096;

/// What is printed for the bytes of a queue.
#[must_use]
pub fn printed(input: &[u8]) -> String {
    let mut lines = String::new();
    let mut totals = Totals::default();
    // Up to the last slot, every piece of that many bytes begins with a kind.
    for (number, piece) in input.chunks(SLOT).enumerate() {
        match piece[0] {
            SLOT_KIND if piece.len() == SLOT && number < MOST_SLOTS => {
                let answer = answer(&piece[1..]);
                lines += &format!("{number} {}\n", answer.text());
                totals.add(answer);
            }
            END_KIND => return lines + &totals.line(),
            _ => break,
        }
    }
    lines + "refused 15\n"
}

enum Answer {
    Met(u64),
    Unmet(u64),
    Refused(u64),
}

impl Answer {
    fn text(&self) -> String {
        match self {
            Answer::Met(survivors) => format!("met {survivors}"),
            Answer::Unmet(survivors) => format!("unmet {survivors}"),
            Answer::Refused(number) => format!("refused {number}"),
        }
    }
}

/// The answer to a slot without its kind.
fn answer(slot: &[u8]) -> Answer {
    let length = usize::from(u16::from_le_bytes([slot[0], slot[1]]));
    if length > LONGEST_SHEET {
        return Answer::Refused(14);
    }
    match judge(&slot[2..2 + length], &mut [0; WORDS]) {
        Ok(judgement) if judgement.met => Answer::Met(judgement.survivors),
        Ok(judgement) => Answer::Unmet(judgement.survivors),
        Err(refusal) => Answer::Refused(refusal.number),
    }
}

#[derive(Default)]
struct Totals {
    met: u64,
    unmet: u64,
    refused: u64,
    survivors: u64,
}

impl Totals {
    fn add(&mut self, answer: Answer) {
        match answer {
            Answer::Met(survivors) => {
                self.met += 1;
                self.survivors += survivors;
            }
            Answer::Unmet(survivors) => {
                self.unmet += 1;
                self.survivors += survivors;
            }
            Answer::Refused(_) => self.refused += 1,
        }
    }

    fn line(&self) -> String {
        let Totals {
            met,
            unmet,
            refused,
            survivors,
        } = self;
        let sheets = met + unmet + refused;
        format!("sheets {sheets} met {met} unmet {unmet} refused {refused} survivors {survivors}\n")
    }
}
