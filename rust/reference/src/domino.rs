//! Dominoes and their numbers.

/// A domino (document 01: pairing). A label is a set of parts, bit m for part
/// m (document 01: mark set); bit 2k of a role set is role k, bit 2k + 1 its
/// inverse (document 01: link set).
#[derive(Clone, Copy, Debug, PartialEq, Eq, Hash)]
pub struct Domino {
    /// The label of the first individual.
    pub left: u64,
    /// The roles between the two.
    pub roles: u64,
    /// The label of the second individual.
    pub right: u64,
}

impl Domino {
    /// The same two individuals, seen from the second (document 01: mirror).
    #[must_use]
    pub fn converse(self) -> Self {
        Domino {
            left: self.right,
            roles: inverse(self.roles),
            right: self.left,
        }
    }
}

/// Exchanges each role in a role set with its inverse.
fn inverse(roles: u64) -> u64 {
    const EVEN: u64 = 0x5555_5555_5555_5555;
    (roles & EVEN) << 1 | roles >> 1 & EVEN
}

/// How many parts and roles the dominoes of a knowledge base are about.
#[derive(Clone, Copy, Debug, PartialEq, Eq)]
pub struct Shape {
    pub parts: usize,
    pub roles: usize,
}

impl Shape {
    #[must_use]
    pub fn labels(self) -> u64 {
        1 << self.parts
    }

    #[must_use]
    pub fn role_sets(self) -> u64 {
        1 << (2 * self.roles)
    }

    /// The number of all dominoes.
    #[must_use]
    pub fn dominoes(self) -> u64 {
        self.labels() * self.role_sets() * self.labels()
    }

    /// The words that a set of dominoes takes.
    #[must_use]
    pub fn words(self) -> usize {
        (self.dominoes() / 64).max(1) as usize
    }

    #[must_use]
    pub fn number(self, domino: Domino) -> u64 {
        (domino.left * self.role_sets() + domino.roles) * self.labels() + domino.right
    }

    /// The domino of a number below [`dominoes`](Self::dominoes).
    #[must_use]
    pub fn domino(self, number: u64) -> Domino {
        let run = number / self.labels();
        Domino {
            left: run / self.role_sets(),
            roles: run % self.role_sets(),
            right: number % self.labels(),
        }
    }

    /// The dominoes in the set in `words`, in rising order of their numbers.
    pub fn members(self, words: &[u64]) -> impl Iterator<Item = Domino> + '_ {
        (0..self.dominoes())
            .filter(move |&number| has(words, number))
            .map(move |number| self.domino(number))
    }
}

/// Whether the set in `words` has the domino of that number.
#[must_use]
pub fn has(words: &[u64], number: u64) -> bool {
    words[(number / 64) as usize] >> (number % 64) & 1 == 1
}

/// Takes the domino of that number out of the set in `words`.
pub fn remove(words: &mut [u64], number: u64) {
    words[(number / 64) as usize] &= !(1 << (number % 64));
}

/// Puts the domino of that number into the set in `words`.
pub fn insert(words: &mut [u64], number: u64) {
    words[(number / 64) as usize] |= 1 << (number % 64);
}
