//! An engine against the reference: the calls about domino sets on one sheet.

use crate::hex::Hex;
use crate::inclusions;
use crate::lent::{contents, Lent};
use crate::misreference;
use crate::random::Random;
use crate::sharing::Sharing;
use crate::{Judging, Reference, REFUSALS};
use reference::domino::{has, Domino, Shape};
use reference::flat::flatten;
use reference::{Conditions, Counts, Judgement, Refusal, Strike, Verdict};
use std::fmt;

/// The most words that a set may take.
const LONGEST: usize = 4_096;

#[derive(Clone, Copy, Debug)]
pub enum Call {
    Open,
    Strike(u64),
    Settle,
    Judge,
}

#[derive(Clone, Copy, Debug, PartialEq, Eq)]
pub enum Answer {
    Opened(u64),
    Strike(Strike),
    Settled(u64),
    Judged(Judgement),
}

impl Call {
    pub fn run(
        self,
        engine: &impl Judging,
        sheet: &[u8],
        set: &mut [u64],
    ) -> Result<Answer, Refusal> {
        match self {
            Call::Open => engine.open(sheet, set).map(Answer::Opened),
            Call::Strike(number) => engine.strike(sheet, set, number).map(Answer::Strike),
            Call::Settle => engine.settle(sheet, set).map(Answer::Settled),
            Call::Judge => engine.judge(sheet, set).map(Answer::Judged),
        }
    }
}

/// How many results were compared, and of which sort.
#[derive(Default)]
pub struct Tally {
    pub sheets: u64,
    pub comparisons: u64,
    pub met: u64,
    pub unmet: u64,
    /// Of the unmet: those with an initial domino.
    pub unmet_in_steps: u64,
    /// By the number of the refusal.
    pub refused: [u64; REFUSALS],
    /// Those of a reference.
    pub misreferences: misreference::Tally,
    pub absent: u64,
    pub kept: u64,
    /// Strikes that struck, by the condition told.
    pub struck: [u64; 8],
    /// Of these, by the condition told and one of those tested later that fails
    /// too.
    pub struck_and: [[u64; 8]; 8],
    /// Sheets by parts and roles together.
    pub sizes: [u64; 13],
    pub sharing: Sharing,
    pub inclusions: inclusions::Tally,
}

impl Tally {
    /// How often each two conditions failed at once, with their numbers, the one
    /// tested first before the other.
    pub fn pairs(&self) -> impl Iterator<Item = (u8, u8, u64)> + '_ {
        let order = Conditions::ORDER;
        let earlier = order.into_iter().enumerate();
        earlier.flat_map(move |(at, told)| {
            let later = order[at + 1..].to_vec();
            let count = move |later| self.struck_and[usize::from(told)][usize::from(later)];
            later
                .into_iter()
                .map(move |later| (told, later, count(later)))
        })
    }

    /// Makes one call by the engine and by the reference. Both must answer and
    /// leave the same; `set` is then what they leave.
    ///
    /// # Panics
    ///
    /// Where they differ.
    pub fn call(
        &mut self,
        engine: &impl Judging,
        call: Call,
        sheet: &[u8],
        set: &mut Vec<u64>,
    ) -> Result<Answer, Refusal> {
        let mut lent = Lent::new(set);
        let answer = call.run(engine, sheet, lent.lend());
        let after = lent.back();
        let before = set.clone();
        let expected = call.run(&Reference, sheet, set);
        assert_eq!(answer, expected, "{call:?} of {}", Hex(sheet));
        let same = after.as_ref() == Some(&*set);
        assert!(same, "words after {call:?} of {}", Hex(sheet));
        self.comparisons += 1;
        self.count(expected, sheet, &before);
        if expected.is_err() {
            assert_eq!(*set, before, "{call:?} of {}", Hex(sheet));
        }
        expected
    }

    fn count(&mut self, answer: Result<Answer, Refusal>, sheet: &[u8], before: &[u64]) {
        match answer {
            Err(refusal) => {
                self.refused[refusal.number as usize] += 1;
                self.misreferences.count(sheet, refusal);
                self.inclusions.count_refusal(sheet, refusal);
            }
            Ok(Answer::Strike(strike)) => match strike.verdict {
                Verdict::Absent => self.absent += 1,
                Verdict::Kept => self.kept += 1,
                Verdict::Struck { condition } => {
                    self.count_struck(condition, sheet, before, strike.number);
                }
            },
            Ok(_) => {}
        }
    }

    fn count_struck(&mut self, condition: u8, sheet: &[u8], before: &[u64], number: u64) {
        let told = usize::from(condition);
        self.struck[told] += 1;
        let conditions = Conditions::of(&flatten(sheet).expect("a sheet that was accepted"));
        let domino = conditions.shape.domino(number);
        let tested = Conditions::ORDER.into_iter();
        for later in tested.skip_while(|&tested| tested != condition).skip(1) {
            let fails = conditions.fails(before, domino, later);
            self.struck_and[told][usize::from(later)] += u64::from(fails);
        }
    }

    pub(crate) fn count_judgement(&mut self, judgement: Judgement) {
        self.met += u64::from(judgement.met);
        self.unmet += u64::from(!judgement.met);
        self.unmet_in_steps += u64::from(!judgement.met && judgement.opening > 0);
    }

    /// Counts a sheet that is accepted.
    pub(crate) fn count_accepted(&mut self, sheet: &[u8], counts: Counts) {
        self.sheets += 1;
        self.sizes[(counts.marks() + counts.links) as usize] += 1;
        self.sharing.count(sheet, counts);
        self.inclusions.count(sheet);
    }

    /// Compares every call on one sheet, with several sets. Sets that would
    /// take long to go through are only lent too short.
    pub fn compare(&mut self, engine: &impl Judging, sheet: &[u8], random: &mut Random) {
        match reference::read(sheet) {
            Ok(counts) => {
                self.count_accepted(sheet, counts);
                let shape = counts.shape();
                self.compare_short(engine, sheet, shape.words(), random);
                if shape.words() <= LONGEST {
                    self.compare_sound(engine, sheet, shape, random);
                }
            }
            Err(_) => {
                self.sheets += 1;
                self.compare_all(engine, sheet, random.below(6), random);
            }
        }
    }

    /// Each call once, on a set of that many words.
    fn compare_all(
        &mut self,
        engine: &impl Judging,
        sheet: &[u8],
        words: usize,
        random: &mut Random,
    ) {
        let number = random.word() >> random.below(64);
        for call in [Call::Open, Call::Strike(number), Call::Settle, Call::Judge] {
            let mut set = contents(words, random);
            let _ = self.call(engine, call, sheet, &mut set);
        }
    }

    /// Sets that are too short.
    fn compare_short(
        &mut self,
        engine: &impl Judging,
        sheet: &[u8],
        needed: usize,
        random: &mut Random,
    ) {
        let words = match random.below(4) {
            0 => 0,
            1 => random.below(needed),
            _ => needed - 1,
        };
        self.compare_all(engine, sheet, words, random);
    }

    /// Judge, open, strike and settle on sets that are long enough.
    fn compare_sound(
        &mut self,
        engine: &impl Judging,
        sheet: &[u8],
        shape: Shape,
        random: &mut Random,
    ) {
        let lend = |random: &mut Random| {
            let more = random.pick(&[0, 0, 1, 7]);
            contents(shape.words() + more, random)
        };

        let mut judged = lend(random);
        let answer = self.call(engine, Call::Judge, sheet, &mut judged);
        if let Ok(Answer::Judged(judgement)) = answer {
            self.count_judgement(judgement);
        }
        let numbers = any_numbers(&judged, shape, random);
        self.strikes(engine, sheet, judged, &numbers);

        let mut opened = lend(random);
        let _ = self.call(engine, Call::Open, sheet, &mut opened);
        let numbers = any_numbers(&opened, shape, random);
        self.strikes(engine, sheet, opened.clone(), &numbers);

        let mut some = opened.clone();
        for word in &mut some {
            *word &= random.word() | random.word();
        }
        let numbers = any_numbers(&some, shape, random);
        self.strikes(engine, sheet, some.clone(), &numbers);
        let _ = self.call(engine, Call::Settle, sheet, &mut some);

        let mut any = lend(random);
        let numbers = row_numbers(&opened, shape, random);
        self.strikes(engine, sheet, any.clone(), &numbers);
        let _ = self.call(engine, Call::Settle, sheet, &mut any);
        let _ = self.call(engine, Call::Settle, sheet, &mut any);
    }

    /// Strikes one after another, from one set.
    fn strikes(&mut self, engine: &impl Judging, sheet: &[u8], mut set: Vec<u64>, numbers: &[u64]) {
        for &number in numbers {
            let _ = self.call(engine, Call::Strike(number), sheet, &mut set);
        }
    }
}

/// Two members of a set, any number, and one past the last.
fn any_numbers(set: &[u64], shape: Shape, random: &mut Random) -> [u64; 4] {
    let dominoes = shape.dominoes();
    let past = dominoes.saturating_add(random.word() >> random.below(64));
    [
        member(set, dominoes, random),
        member(set, dominoes, random),
        random.word() % dominoes,
        random.pick(&[dominoes, past, u64::MAX]),
    ]
}

/// Numbers whose left label is that of a member, if there is one.
fn row_numbers(set: &[u64], shape: Shape, random: &mut Random) -> [u64; 4] {
    [(); 4].map(|()| {
        let left = shape.domino(member(set, shape.dominoes(), random)).left;
        let any = shape.domino(random.word() % shape.dominoes());
        shape.number(Domino { left, ..any })
    })
}

/// The number of a member from a random place on, if there is one.
fn member(set: &[u64], dominoes: u64, random: &mut Random) -> u64 {
    let start = random.word() % dominoes;
    let mut numbers = (start..dominoes).chain(0..start);
    numbers.find(|&number| has(set, number)).unwrap_or(start)
}

impl fmt::Display for Tally {
    fn fmt(&self, f: &mut fmt::Formatter<'_>) -> fmt::Result {
        write!(
            f,
            "{} comparisons on {} sheets: {} met, {} unmet ({} of them in steps)",
            self.comparisons, self.sheets, self.met, self.unmet, self.unmet_in_steps
        )?;
        write!(f, "; strikes absent: {} kept: {}", self.absent, self.kept)?;
        list(f, " struck by condition", &self.struck)?;
        let rarest = self.pairs().map(|(.., count)| count).min();
        if let Some(rarest) = rarest.filter(|&rarest| rarest > 0) {
            write!(
                f,
                "; each two conditions failing at once: {rarest} or more, with 7"
            )?;
            let with_7 = self
                .pairs()
                .filter(|&(told, later, _)| told == 7 || later == 7);
            for (told, later, count) in with_7 {
                write!(f, " {told}&{later}: {count}")?;
            }
        }
        list(f, "; refusals", &self.refused)?;
        self.misreferences.fmt(f)?;
        list(f, "; sheets by c + L", &self.sizes)?;
        self.sharing.fmt(f)?;
        self.inclusions.fmt(f)
    }
}

/// Writes the counts that are not 0, each with its number.
pub(crate) fn list(f: &mut fmt::Formatter<'_>, what: &str, counts: &[u64]) -> fmt::Result {
    f.write_str(what)?;
    for (number, count) in counts.iter().enumerate().filter(|(_, &count)| count > 0) {
        write!(f, " {number}: {count}")?;
    }
    Ok(())
}
