//! Texts made from the grammar: axioms that take so many records.

use crate::random::Random;

pub const MAX_RECORDS: usize = 255;

/// The fewest records that an axiom takes.
const LEAST: usize = 3;

const LEAVES: [&str; 14] = [
    "owl:Thing",
    "owl:Nothing",
    ":t0",
    ":t1",
    ":t2",
    ":t3",
    ":t4",
    ":t5",
    ":t6",
    ":t7",
    ":t8",
    ":t9",
    ":t10",
    ":t11",
];

const ROLES: [&str; 4] = [":k0", ":k1", ":k2", ":k3"];

/// The tokens of axioms that take exactly so many records, where that can be:
/// one or two alone are none.
#[must_use]
pub fn tokens(records: usize, random: &mut Random) -> Vec<&'static str> {
    let mut writer = Writer {
        names: 1 + random.below(LEAVES.len()),
        roles: 1 + random.below(ROLES.len()),
        tokens: vec![],
        random,
    };
    let mut room = records;
    while room >= LEAST {
        let most = room.min(writer.random.pick(&[4, 8, 20, 80, MAX_RECORDS]));
        let size = LEAST + writer.random.below(most.saturating_sub(LEAST) + 1);
        // what is left must do for an axiom
        let size = if room - size < LEAST { room } else { size };
        writer.axiom(size);
        room -= size;
    }
    writer.tokens
}

struct Writer<'a> {
    random: &'a mut Random,
    /// How many of the leaves and of the roles are used.
    names: usize,
    roles: usize,
    tokens: Vec<&'static str>,
}

impl Writer<'_> {
    fn axiom(&mut self, records: usize) {
        self.tokens.push("SubClassOf");
        self.two_concepts(records - 1);
    }

    /// Two concepts in parentheses.
    fn two_concepts(&mut self, records: usize) {
        let left = 1 + self.random.below(records - 1);
        self.tokens.push("(");
        self.concept(left);
        self.concept(records - left);
        self.tokens.push(")");
    }

    fn concept(&mut self, records: usize) {
        match records {
            1 => self.tokens.push(LEAVES[self.random.below(self.names)]),
            2 => self.complement(records),
            _ => match self.random.below(8) {
                0 | 1 => self.complement(records),
                2 | 3 => self.boolean("ObjectIntersectionOf", records),
                4 => self.boolean("ObjectUnionOf", records),
                5 | 6 => self.restriction("ObjectSomeValuesFrom", records),
                _ => self.restriction("ObjectAllValuesFrom", records),
            },
        }
    }

    fn complement(&mut self, records: usize) {
        self.tokens.extend(["ObjectComplementOf", "("]);
        self.concept(records - 1);
        self.tokens.push(")");
    }

    fn boolean(&mut self, word: &'static str, records: usize) {
        self.tokens.push(word);
        self.two_concepts(records - 1);
    }

    fn restriction(&mut self, word: &'static str, records: usize) {
        let role = ROLES[self.random.below(self.roles)];
        self.tokens.extend([word, "("]);
        if self.random.one_in(2) {
            self.tokens.extend(["ObjectInverseOf", "(", role, ")"]);
        } else {
            self.tokens.push(role);
        }
        self.concept(records - 2);
        self.tokens.push(")");
    }
}

/// Whether a blank must part two tokens.
fn must_part(token: &str, next: &str) -> bool {
    let is_word = |token: &str| !matches!(token, "(" | ")");
    is_word(token) && is_word(next)
}

/// The text of some tokens, parted by as few blanks as may be, or by more.
#[must_use]
pub fn laid_out<T: AsRef<str>>(tokens: &[T], random: &mut Random) -> Vec<u8> {
    let style = random.below(4);
    let mut text = blanks(style, random);
    for (number, token) in tokens.iter().enumerate() {
        let token = token.as_ref();
        text.extend(token.as_bytes());
        let blanks = blanks(style, random);
        let next = tokens.get(number + 1).map_or("(", AsRef::as_ref);
        if blanks.is_empty() && must_part(token, next) {
            text.push(random.pick(b" \n"));
        }
        text.extend(blanks);
    }
    text
}

/// None, mostly none, one, or several.
fn blanks(style: usize, random: &mut Random) -> Vec<u8> {
    let count = match style {
        0 => 0,
        1 => usize::from(random.one_in(8)),
        2 => 1,
        _ => random.below(5),
    };
    (0..count).map(|_| random.pick(b" \n")).collect()
}

/// A made-up text of few records, many, or about as many as there may be.
#[must_use]
pub fn text(random: &mut Random) -> Vec<u8> {
    let records = match random.below(8) {
        0 => MAX_RECORDS - 2 + random.below(6),
        1 => LEAST + random.below(300),
        _ => LEAST + random.below(40),
    };
    let tokens = tokens(records, random);
    laid_out(&tokens, random)
}

/// An axiom with so many nots on a name on its left, which takes three records
/// more.
#[must_use]
pub fn nested(nots: usize) -> String {
    let (open, close) = ("ObjectComplementOf(".repeat(nots), ")".repeat(nots));
    format!("SubClassOf({open}:t0{close} :t1)\n")
}
