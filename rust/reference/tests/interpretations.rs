//! Small interpretations by 002's Table 1: each that is a model of the axioms
//! as written has all its dominoes in the judged set; and what the reference's own
//! interpretations say of some of them.

use comparison::random::Random;
use comparison::suites::report;
use comparison::{few_axioms, made_up, worked};
use reference::domino::{has, Domino};
use reference::interpretation;
use reference::written::{Concept, Role, Written};
use reference::{judge, list_marks, read, Counts};
use std::fmt;

const SHEETS: usize = 5_000;

/// Where more interpretations of a size exist, this many are drawn.
const DRAWN: u64 = 8_192;

/// One of so many is compared with the reference's own.
const COMPARED: u64 = 50;

/// A set of individuals: bit x for individual x.
type Individuals = u16;

/// A set of pairs: bit (x × individuals + y) for the pair of x and y.
type Pairs = u16;

struct Interpretation {
    individuals: usize,
    names: Vec<Individuals>,
    roles: Vec<Pairs>,
}

impl Interpretation {
    /// The interpretation that the bits of a number describe.
    fn new(individuals: usize, counts: Counts, mut bits: u64) -> Self {
        let mut take = |len: usize| {
            let taken = bits & ((1 << len) - 1);
            bits >>= len;
            taken as u16
        };
        Interpretation {
            individuals,
            names: (0..counts.traits).map(|_| take(individuals)).collect(),
            roles: (0..counts.links)
                .map(|_| take(individuals * individuals))
                .collect(),
        }
    }

    fn everything(&self) -> Individuals {
        (1 << self.individuals) - 1
    }

    /// Bit of the pair of two individuals.
    fn pair(&self, x: usize, y: usize) -> usize {
        x * self.individuals + y
    }

    /// The pairs for which a test holds.
    fn pairs(&self, test: impl Fn(usize, usize) -> bool) -> Pairs {
        let mut pairs = 0;
        for x in 0..self.individuals {
            for y in 0..self.individuals {
                pairs |= u16::from(test(x, y)) << self.pair(x, y);
            }
        }
        pairs
    }

    fn related(&self, pairs: Pairs, x: usize, y: usize) -> bool {
        pairs >> self.pair(x, y) & 1 == 1
    }

    fn role(&self, role: &Role) -> Pairs {
        match role {
            Role::Name(number) => self.roles[*number],
            Role::Inverse(number) => {
                let role = self.roles[*number];
                self.pairs(|x, y| self.related(role, y, x))
            }
            Role::Not(u) => self.pairs(|_, _| true) & !self.role(u),
            Role::And(u, v) => self.role(u) & self.role(v),
            Role::Or(u, v) => self.role(u) | self.role(v),
        }
    }

    fn concept(&self, concept: &Concept) -> Individuals {
        match concept {
            Concept::Top => self.everything(),
            Concept::Bottom => 0,
            Concept::Name(number) => self.names[*number],
            Concept::Not(c) => self.everything() & !self.concept(c),
            Concept::And(c, d) => self.concept(c) & self.concept(d),
            Concept::Or(c, d) => self.concept(c) | self.concept(d),
            Concept::Exists(u, c) => self.with_successor(self.role(u), self.concept(c)),
            Concept::Forall(u, c) => {
                let others = self.everything() & !self.concept(c);
                self.everything() & !self.with_successor(self.role(u), others)
            }
        }
    }

    /// The individuals with a successor among `targets`.
    fn with_successor(&self, role: Pairs, targets: Individuals) -> Individuals {
        let is_target = |y: usize| targets >> y & 1 == 1;
        let has_one = |x| (0..self.individuals).any(|y| self.related(role, x, y) && is_target(y));
        (0..self.individuals).fold(0, |set, x| set | u16::from(has_one(x)) << x)
    }

    fn satisfies(&self, written: &Written) -> bool {
        let holds = |left, right| self.concept(left) & !self.concept(right) == 0;
        let mut axioms = written.axioms.iter();
        axioms.all(|axiom| holds(&axiom.left, &axiom.right)) && self.includes(written)
    }

    /// Whether each role inclusion holds of every ordered pair.
    fn includes(&self, written: &Written) -> bool {
        let holds = |first, second| self.role(first) & !self.role(second) == 0;
        let mut inclusions = written.inclusions.iter();
        inclusions.all(|inclusion| holds(&inclusion.first, &inclusion.second))
    }

    /// The label of an individual: a listed record counts as what it is as
    /// written, or as its negation where it is read under an odd number of nots.
    fn label(&self, written: &Written, marks: &[u8], x: usize) -> u64 {
        let mut label = 0;
        for (part, mark) in marks.chunks_exact(3).enumerate() {
            let number = usize::from(mark[1]);
            let holds_of = match mark[0] {
                0 => self.names[number],
                _ => self.concept(&written.concept(number)),
            };
            let negated = mark[2] == 1;
            label |= u64::from((holds_of >> x & 1 == 1) != negated) << part;
        }
        label
    }

    /// The roles between two individuals.
    fn role_set(&self, x: usize, y: usize) -> u64 {
        let mut roles = 0;
        for (number, &role) in self.roles.iter().enumerate() {
            roles |= u64::from(self.related(role, x, y)) << (2 * number);
            roles |= u64::from(self.related(role, y, x)) << (2 * number + 1);
        }
        roles
    }

    /// A domino for every ordered pair.
    fn dominoes(&self, written: &Written, marks: &[u8]) -> Vec<Domino> {
        let label = |x| self.label(written, marks, x);
        let labels: Vec<u64> = (0..self.individuals).map(label).collect();
        let mut dominoes = Vec::new();
        for (x, &left) in labels.iter().enumerate() {
            for (y, &right) in labels.iter().enumerate() {
                let roles = self.role_set(x, y);
                dominoes.push(Domino { left, roles, right });
            }
        }
        dominoes
    }

    /// The same interpretation as the reference has it.
    fn of_reference(&self) -> interpretation::Interpretation {
        let [names, roles] = [self.names.len(), self.roles.len()];
        let mut same = interpretation::Interpretation::of(self.individuals, names, roles);
        for x in 0..self.individuals {
            let named = (0..names).filter(|&name| self.names[name] >> x & 1 == 1);
            named.for_each(|name| same.give(x, name));
            for y in 0..self.individuals {
                let joining = (0..roles).filter(|&role| self.related(self.roles[role], x, y));
                joining.for_each(|role| same.join(x, y, role));
            }
        }
        same
    }
}

#[derive(Default)]
struct Tally {
    sheets: u64,
    interpretations: u64,
    /// Those compared with the reference's own.
    compared: u64,
    models: u64,
    dominoes: u64,
    met: u64,
    /// Sheets of which a model was seen.
    modelled: u64,
    /// Of these: sheets with role inclusions.
    modelled_with_inclusions: u64,
    /// Models of sheets with role inclusions.
    models_with_inclusions: u64,
}

impl Tally {
    fn check(&mut self, sheet: &[u8], random: &mut Random) {
        let counts = read(sheet).expect("a sheet without faults");
        let written = Written::read(sheet).expect("a sheet without faults");
        let mut marks = vec![0; 3 * counts.marks() as usize];
        list_marks(sheet, &mut marks).expect("a list long enough");
        let shape = counts.shape();
        let mut judged = vec![0; shape.words()];
        let judgement = judge(sheet, &mut judged).expect("a set long enough");

        let models_before = self.models;
        for individuals in 1..=3 {
            for bits in interpretations(individuals, counts, random) {
                let interpretation = Interpretation::new(individuals, counts, bits);
                self.interpretations += 1;
                if self.interpretations.is_multiple_of(COMPARED) {
                    self.compare(&interpretation, sheet, &written, &marks);
                }
                if !interpretation.satisfies(&written) {
                    continue;
                }
                self.models += 1;
                assert!(judgement.met, "a model of {sheet:02X?}");
                for domino in interpretation.dominoes(&written, &marks) {
                    assert!(
                        has(&judged, shape.number(domino)),
                        "{domino:?} of {sheet:02X?}"
                    );
                    self.dominoes += 1;
                }
            }
        }
        self.sheets += 1;
        self.met += u64::from(judgement.met);
        self.count(&written, self.models - models_before);
    }

    /// Whether it is a model, and its dominoes, by this test and by the reference.
    fn compare(&mut self, drawn: &Interpretation, sheet: &[u8], written: &Written, marks: &[u8]) {
        let same = drawn.of_reference();
        let is_model = same.satisfies(written);
        assert_eq!(is_model, drawn.satisfies(written), "{sheet:02X?}");
        let dominoes = Ok(drawn.dominoes(written, marks));
        assert_eq!(same.dominoes(sheet), dominoes, "{sheet:02X?}");
        self.compared += 1;
    }

    /// Counts a sheet of which so many models were seen.
    fn count(&mut self, written: &Written, models: u64) {
        self.modelled += u64::from(models > 0);
        if !written.inclusions.is_empty() {
            self.modelled_with_inclusions += u64::from(models > 0);
            self.models_with_inclusions += models;
        }
    }
}

/// All interpretations of a size, as numbers, or some where they are too many.
fn interpretations(individuals: usize, counts: Counts, random: &mut Random) -> Vec<u64> {
    let pairs = individuals * individuals;
    let bits = counts.traits as usize * individuals + counts.links as usize * pairs;
    match 1_u64.checked_shl(bits as u32) {
        Some(all) if all <= DRAWN => (0..all).collect(),
        _ => (0..DRAWN).map(|_| random.word()).collect(),
    }
}

impl fmt::Display for Tally {
    fn fmt(&self, f: &mut fmt::Formatter<'_>) -> fmt::Result {
        write!(
            f,
            "{} interpretations of {} sheets ({} met, {} with a model seen): \
             {} models, {} dominoes of theirs found; {} models of {} sheets with role inclusions; \
             {} compared with the reference's own",
            self.interpretations,
            self.sheets,
            self.met,
            self.modelled,
            self.models,
            self.dominoes,
            self.models_with_inclusions,
            self.modelled_with_inclusions,
            self.compared
        )
    }
}

#[test]
fn the_dominoes_of_every_small_model_are_judged_in() {
    let mut random = Random::seeded(11);
    let mut tally = Tally::default();
    for (hex, ..) in worked::JUDGED {
        tally.check(&worked::from_hex(hex), &mut random);
    }
    for turn in 0..SHEETS {
        let size = 3 + turn / 2 % 4;
        let sheet = match turn % 2 {
            0 => made_up::small_sheet(size, &mut random),
            _ => few_axioms::sheet(size, &mut random),
        };
        tally.check(&sheet, &mut random);
    }
    report("interpretations", &tally);
    assert!(tally.modelled_with_inclusions >= 500, "{tally}");
    assert!(tally.compared >= 300_000, "{tally}");
}
