//! One part for one claim against a part for each occurrence: the same verdict,
//! and the same survivors where the parts that are shared are left out.

use comparison::random::Random;
use comparison::suites::{report, times};
use comparison::{claims, few_axioms, made_up, worked};
use reference::domino::{has, insert, Domino, Shape};
use reference::{apart, judge, list_marks, read, Judgement};
use std::fmt;

/// Sheets that both accept.
const SHEETS: u64 = 24_000;

/// What parts and roles come to at most, with each occurrence apart.
const MOST: u64 = 7;

/// A label without the parts that are not kept.
fn without_repeats(label: u64, kept: &[usize]) -> u64 {
    let bits = kept.iter().enumerate();
    bits.fold(0, |set, (to, from)| set | (label >> from & 1) << to)
}

/// A sheet that both accept.
struct Both {
    sheet: Vec<u8>,
    shared: Shape,
    apart: Shape,
}

impl Both {
    /// The shapes of a sheet, if both accept it.
    fn read(sheet: Vec<u8>) -> Option<Self> {
        let (shared, apart) = (read(&sheet), apart::read(&sheet).ok()?);
        let shared = shared.expect("no more parts than apart");
        Some(Both {
            sheet,
            shared: shared.shape(),
            apart: apart.shape(),
        })
    }

    /// Which of the parts apart are listed where claims share: all but repeats,
    /// in the same order.
    fn kept(&self) -> Vec<usize> {
        let mut with_repeats = vec![0; 3 * self.apart.parts];
        apart::list_marks(&self.sheet, &mut with_repeats).expect("a list long enough");
        let mut list = vec![0; 3 * self.shared.parts];
        list_marks(&self.sheet, &mut list).expect("a list long enough");
        let mut parts = with_repeats.chunks_exact(3).enumerate();
        let mut place = |listed| parts.find(|(_, part)| *part == listed);
        let kept = list.chunks_exact(3).map(|listed| {
            let found = place(listed);
            found.expect("a part in the order met").0
        });
        kept.collect()
    }

    /// Judges both ways and answers both judgements, the shared one first.
    fn compare(&self) -> [Judgement; 2] {
        let what = format!("{:02X?}", self.sheet);
        let mut shared = vec![0; self.shared.words()];
        let judged = judge(&self.sheet, &mut shared).expect(&what);
        let mut apart = vec![0; self.apart.words()];
        let judged_apart = apart::judge(&self.sheet, &mut apart).expect(&what);
        assert_eq!(judged.met, judged_apart.met, "{what}");
        assert_eq!(judged.survivors, judged_apart.survivors, "{what}");
        assert!(judged.opening <= judged_apart.opening, "{what}");

        let kept = self.kept();
        let mut projected = vec![0; shared.len()];
        for number in (0..self.apart.dominoes()).filter(|&number| has(&apart, number)) {
            let domino = self.apart.domino(number);
            let number = self.shared.number(Domino {
                left: without_repeats(domino.left, &kept),
                roles: domino.roles,
                right: without_repeats(domino.right, &kept),
            });
            insert(&mut projected, number);
        }
        assert_eq!(projected, shared, "{what}");
        [judged, judged_apart]
    }
}

#[derive(Default)]
struct Tally {
    sheets: u64,
    /// Those with a shared part.
    shared: u64,
    /// Of these: met, unmet, and unmet with an initial domino.
    met: u64,
    unmet: u64,
    unmet_in_steps: u64,
    /// Of these: those whose initial set is smaller.
    fewer_initial: u64,
}

impl Tally {
    fn compare(&mut self, both: &Both) {
        let [judged, judged_apart] = both.compare();
        self.sheets += 1;
        if both.shared == both.apart {
            assert_eq!(judged, judged_apart, "{:02X?}", both.sheet);
            return;
        }
        self.shared += 1;
        self.met += u64::from(judged.met);
        self.unmet += u64::from(!judged.met);
        self.unmet_in_steps += u64::from(!judged.met && judged.opening > 0);
        self.fewer_initial += u64::from(judged.opening < judged_apart.opening);
    }
}

impl fmt::Display for Tally {
    fn fmt(&self, f: &mut fmt::Formatter<'_>) -> fmt::Result {
        write!(
            f,
            "{} sheets judged with parts shared and apart, {} with a shared part: {} met, \
             {} unmet ({} of them in steps), {} with fewer initial dominoes",
            self.sheets, self.shared, self.met, self.unmet, self.unmet_in_steps, self.fewer_initial
        )
    }
}

/// A sheet that both accept, mostly with shared parts.
fn any_sheet(turn: u64, random: &mut Random) -> Both {
    let most = match turn % 64 {
        0 => MOST + 2,
        _ => MOST,
    };
    loop {
        let size = 2 + random.below(4);
        let sheet = match turn % 4 {
            0 | 1 => few_axioms::sheet(size, random),
            2 => few_axioms::unmet_sheet(size, random),
            _ => made_up::small_sheet(size, random),
        };
        let fits = |both: &Both| (both.apart.parts + both.apart.roles) as u64 <= most;
        match Both::read(sheet).filter(fits) {
            // Of those that share nothing a few are enough.
            Some(both) if both.shared != both.apart || random.one_in(8) => return both,
            _ => {}
        }
    }
}

#[test]
fn the_verdict_stays() {
    let mut random = Random::seeded(14);
    let mut tally = Tally::default();
    for (hex, ..) in worked::JUDGED {
        let both = Both::read(worked::from_hex(hex));
        tally.compare(&both.expect("a sheet without faults"));
    }
    for (_, hex, ..) in claims::LISTED {
        let both = Both::read(worked::from_hex(hex)).expect("a sheet without faults");
        if both.apart.parts + both.apart.roles <= 9 {
            tally.compare(&both);
        }
    }
    for turn in 0..times(SHEETS) {
        tally.compare(&any_sheet(turn, &mut random));
    }
    report("verdicts", &tally);
    assert!(tally.shared >= 12_000, "{tally}");
    assert!(
        tally.met >= 2_000 && tally.unmet_in_steps >= 1_000,
        "{tally}"
    );
    assert!(tally.fewer_initial >= 5_000, "{tally}");
}
