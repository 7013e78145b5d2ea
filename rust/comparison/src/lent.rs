//! Words to lend, between words that no call may change.

use crate::random::Random;

/// Words on either side.
const MARGIN: usize = 3;

/// A copy of some words with a margin around it.
pub struct Lent {
    words: Vec<u64>,
}

impl Lent {
    pub fn new(content: &[u64]) -> Self {
        let margin = [0xA5A5_5A5A_C3C3_3C3C; MARGIN];
        Lent {
            words: [&margin[..], content, &margin[..]].concat(),
        }
    }

    pub fn lend(&mut self) -> &mut [u64] {
        let end = self.words.len() - MARGIN;
        &mut self.words[MARGIN..end]
    }

    /// Whether the words are these now, and both margins as they were.
    pub fn is(&self, content: &[u64]) -> bool {
        self.words == Lent::new(content).words
    }

    /// The words as they are now, if both margins are as they were.
    pub fn back(mut self) -> Option<Vec<u64>> {
        let content = self.lend().to_vec();
        (self.words == Lent::new(&content).words).then_some(content)
    }
}

/// Words to begin with: any, mostly clear, mostly set, all set, all clear.
pub fn contents(len: usize, random: &mut Random) -> Vec<u64> {
    let style = random.below(6);
    let mut word = || match style {
        0 | 1 => random.word(),
        2 => random.word() & random.word() & random.word(),
        3 => random.word() | random.word() | random.word(),
        4 => u64::MAX,
        _ => 0,
    };
    (0..len).map(|_| word()).collect()
}
