//! Lists of strikes and settlings from an opened set: what judging keeps stays,
//! a stable set is the judged one, and passes end in a stable set.

use crate::dominoes::{Answer, Call, Tally};
use crate::hex::Hex;
use crate::lent::contents;
use crate::random::Random;
use crate::Judging;
use reference::domino::{has, Shape};
use reference::flat::flatten;
use reference::{Conditions, Judgement, Refusal};

/// One sheet, its judged words, and a set on its way there.
struct Run<'a> {
    sheet: &'a [u8],
    conditions: Conditions,
    judged: Vec<u64>,
    judgement: Judgement,
    set: Vec<u64>,
    /// The words beyond the set's.
    beyond: Vec<u64>,
}

/// Runs lists of calls on one sheet: random ones, then as many passes as the
/// initial set has dominoes if these come to at most `passes`.
///
/// # Panics
///
/// Where the engine differs from the reference or a claim fails.
pub fn compare(
    tally: &mut Tally,
    engine: &impl Judging,
    sheet: &[u8],
    passes: u64,
    random: &mut Random,
) {
    let Ok(mut run) = Run::open(tally, engine, sheet, random) else {
        return;
    };
    let counts = reference::read(sheet).expect("a sheet that was opened");
    tally.count_accepted(sheet, counts);
    tally.count_judgement(run.judgement);
    run.check();
    let settlings = random.pick(&[0, 0, 1, 8]);
    for _ in 0..random.below(60) {
        let call = run.any_call(settlings, random);
        run.call(tally, engine, call);
    }
    if run.judgement.opening > passes {
        return;
    }
    let Ok(mut run) = Run::open(tally, engine, sheet, random) else {
        return;
    };
    for _ in 0..run.judgement.opening {
        run.pass(tally, engine, random);
    }
    assert!(run.is_stable(), "passes on {}", Hex(sheet));
    run.check();
}

impl<'a> Run<'a> {
    fn open(
        tally: &mut Tally,
        engine: &impl Judging,
        sheet: &'a [u8],
        random: &mut Random,
    ) -> Result<Self, Refusal> {
        let conditions = Conditions::of(&flatten(sheet)?);
        let needed = conditions.shape.words();
        let mut judged = vec![0; needed];
        let judgement = reference::judge(sheet, &mut judged)?;
        let mut set = contents(needed + random.below(3), random);
        let beyond = set[needed..].to_vec();
        let opened = tally.call(engine, Call::Open, sheet, &mut set)?;
        assert_eq!(opened, Answer::Opened(judgement.opening), "{}", Hex(sheet));
        Ok(Run {
            sheet,
            conditions,
            judged,
            judgement,
            set,
            beyond,
        })
    }

    fn shape(&self) -> Shape {
        self.conditions.shape
    }

    /// A strike of any number, sometimes past the last, or a settling.
    fn any_call(&self, settlings: usize, random: &mut Random) -> Call {
        if random.below(100) < settlings {
            return Call::Settle;
        }
        let dominoes = self.shape().dominoes();
        Call::Strike(match random.below(12) {
            0 => dominoes + random.word() % 64,
            1 => random.word(),
            _ => random.word() % dominoes,
        })
    }

    fn call(&mut self, tally: &mut Tally, engine: &impl Judging, call: Call) {
        let _ = tally.call(engine, call, self.sheet, &mut self.set);
        self.check();
    }

    /// Strikes every number, in any order, with other calls in between.
    fn pass(&mut self, tally: &mut Tally, engine: &impl Judging, random: &mut Random) {
        let mut numbers: Vec<u64> = (0..self.shape().dominoes()).collect();
        random.shuffle(&mut numbers);
        for number in numbers {
            let _ = tally.call(engine, Call::Strike(number), self.sheet, &mut self.set);
            if random.one_in(64) {
                let call = self.any_call(0, random);
                let _ = tally.call(engine, call, self.sheet, &mut self.set);
            }
        }
    }

    fn is_stable(&self) -> bool {
        let shape = self.shape();
        let defective = |&number: &u64| {
            let defect = self.conditions.defect(&self.set, shape.domino(number));
            defect.is_some()
        };
        let mut members = (0..shape.dominoes()).filter(|&number| has(&self.set, number));
        !members.any(|number| defective(&number))
    }

    /// What judging keeps is there; a stable set is word for word the judged
    /// one; the words beyond are as they were.
    fn check(&self) {
        let (set, beyond) = self.set.split_at(self.judged.len());
        assert_eq!(beyond, self.beyond, "beyond, {}", Hex(self.sheet));
        let mut pairs = set.iter().zip(&self.judged);
        let all_kept = pairs.all(|(word, judged)| judged & !word == 0);
        assert!(all_kept, "judged but gone, {}", Hex(self.sheet));
        if self.is_stable() {
            assert_eq!(set, self.judged, "stable, {}", Hex(self.sheet));
        }
    }
}
