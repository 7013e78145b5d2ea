//! Sheets without a faulty record, built record by record.

use crate::copies;
use crate::inclusions;
use crate::random::Random;

pub const MAX_RECORDS: usize = 255;

/// Records that may still be named.
#[derive(Default)]
struct Pool {
    shared: Vec<u8>,
    once: Vec<u8>,
}

impl Pool {
    fn is_empty(&self) -> bool {
        self.shared.is_empty() && self.once.is_empty()
    }

    /// Takes a record; late ones more often, so that trees grow deep.
    fn take(&mut self, random: &mut Random) -> u8 {
        if self.once.is_empty() || (!self.shared.is_empty() && random.one_in(4)) {
            return random.pick(&self.shared);
        }
        let from = match self.once.len() {
            n if random.one_in(2) => n - 1,
            n => random.below(n),
        };
        self.once.swap_remove(from)
    }
}

/// A sheet under construction.
#[derive(Default)]
pub struct Sheet {
    pub bytes: Vec<u8>,
    /// Where each record starts.
    pub starts: Vec<usize>,
    concepts: Pool,
    /// Roles that fail on the empty role set.
    roles: Pool,
    /// Roles that hold on it.
    empty_roles: Vec<u8>,
    /// Restrictions that may be copied.
    restrictions: Vec<u8>,
}

impl Sheet {
    #[must_use]
    pub fn is_full(&self) -> bool {
        self.starts.len() == MAX_RECORDS
    }

    /// Adds a record and answers its number. Past 255 records the number
    /// wraps; the sheet is refused there whatever follows.
    pub fn push(&mut self, record: &[u8]) -> u8 {
        let number = self.starts.len() as u8;
        self.starts.push(self.bytes.len());
        self.bytes.extend(record);
        number
    }

    /// The bytes of a record.
    #[must_use]
    pub fn record(&self, number: u8) -> &[u8] {
        let number = usize::from(number);
        let end = self.starts.get(number + 1).copied();
        &self.bytes[self.starts[number]..end.unwrap_or(self.bytes.len())]
    }

    pub fn leaf_concept(&mut self, record: &[u8]) {
        let number = self.push(record);
        self.concepts.shared.push(number);
    }

    fn leaf_role(&mut self, record: &[u8]) {
        let number = self.push(record);
        self.roles.shared.push(number);
    }

    fn concept(&mut self, record: &[u8]) -> u8 {
        let number = self.push(record);
        self.concepts.once.push(number);
        number
    }

    fn role(&mut self, record: &[u8], holds_on_empty: bool) {
        let number = self.push(record);
        if holds_on_empty {
            self.empty_roles.push(number);
        } else {
            self.roles.once.push(number);
        }
    }

    /// Takes a role of either kind; tells if it holds on the empty role set.
    fn take_role(&mut self, random: &mut Random) -> (u8, bool) {
        if !self.empty_roles.is_empty() && random.one_in(2) {
            let from = random.below(self.empty_roles.len());
            return (self.empty_roles.swap_remove(from), true);
        }
        (self.roles.take(random), false)
    }

    /// A role that holds on the empty role set, if one is left.
    pub fn take_empty_role(&mut self) -> Option<u8> {
        self.empty_roles.pop()
    }

    pub fn take_concept(&mut self, random: &mut Random) -> u8 {
        self.concepts.take(random)
    }

    fn not(&mut self, random: &mut Random) {
        let c = self.concepts.take(random);
        self.concept(&[0x04, c]);
    }

    fn boolean(&mut self, random: &mut Random) {
        let (c, d) = (self.concepts.take(random), self.concepts.take(random));
        self.concept(&[random.pick(&[0x05, 0x06]), c, d]);
    }

    fn restriction(&mut self, random: &mut Random) {
        let u = self.roles.take(random);
        let c = if random.one_in(2) && !self.concepts.shared.is_empty() {
            random.pick(&self.concepts.shared)
        } else {
            self.concepts.take(random)
        };
        let restriction = self.concept(&[random.pick(&[0x07, 0x08]), u, c]);
        self.restrictions.push(restriction);
    }

    pub fn axiom(&mut self, random: &mut Random) {
        let (c, d) = (self.concepts.take(random), self.concepts.take(random));
        self.push(&[0x20, c, d]);
    }

    /// An axiom with that concept on one side and a leaf on the other.
    fn axiom_of(&mut self, concept: u8, on_left: bool, random: &mut Random) {
        let leaf = random.pick(&self.concepts.shared);
        let [left, right] = if on_left {
            [concept, leaf]
        } else {
            [leaf, concept]
        };
        self.push(&[0x20, left, right]);
    }

    pub fn not_role(&mut self, random: &mut Random) {
        let (u, holds) = self.take_role(random);
        self.role(&[0x12, u], !holds);
    }

    /// An inclusion of a role that fails on the empty role set in any other.
    fn inclusion(&mut self, random: &mut Random) {
        let first = self.roles.take(random);
        let (second, _) = self.take_role(random);
        self.push(&[inclusions::KIND, first, second]);
    }

    fn boolean_role(&mut self, random: &mut Random) {
        let (u, on_u) = self.take_role(random);
        let (v, on_v) = self.take_role(random);
        if random.one_in(2) {
            self.role(&[0x13, u, v], on_u && on_v);
        } else {
            self.role(&[0x14, u, v], on_u || on_v);
        }
    }
}

/// What may be added next.
#[derive(Clone, Copy)]
enum Step {
    Leaf,
    LeafRole,
    Not,
    Boolean,
    Restriction,
    Copy,
    NotRole,
    BooleanRole,
    Axiom,
    Inclusion,
}

const STEPS: [Step; 10] = [
    Step::Leaf,
    Step::LeafRole,
    Step::Not,
    Step::Boolean,
    Step::Restriction,
    Step::Copy,
    Step::NotRole,
    Step::BooleanRole,
    Step::Axiom,
    Step::Inclusion,
];

/// What one made-up sheet is to be like.
struct Plan {
    names: usize,
    roles: usize,
    records: usize,
    restrictions: usize,
    /// Claims that are made again and again.
    claims: usize,
    inclusions: usize,
    /// Steps, the frequent ones more than once.
    steps: Vec<Step>,
    /// Whether axioms are to reach what would stay unused.
    reach_all: bool,
}

impl Plan {
    fn new(random: &mut Random) -> Self {
        let roles = random.pick(&[0, 1, 1, 1, 2, 2, 3, 4]);
        let names = match random.below(16) {
            0 => 12 - roles,
            _ => random.below(5),
        };
        Plan {
            names,
            roles,
            records: record_count(random),
            restrictions: restriction_count(random, 12 - names - roles),
            claims: claim_count(random, roles),
            inclusions: inclusion_count(random, roles),
            steps: steps(random),
            reach_all: !random.one_in(4),
        }
    }
}

/// A plan for few parts and roles.
fn small_plan(most: usize, random: &mut Random) -> Plan {
    let roles = random.pick(&[0, 1, 1, 1, 1, 1, 2, 2, 3, 4]).min(most);
    let names = random.below((most - roles).min(3) + 1);
    Plan {
        names,
        roles,
        records: match random.below(16) {
            0 => random.below(6),
            1 => 60 + random.below(120),
            _ => 6 + random.below(30),
        },
        restrictions: 1 + random.below(most - roles - names + 1),
        claims: claim_count(random, roles),
        inclusions: inclusion_count(random, roles),
        steps: steps(random),
        reach_all: !random.one_in(6),
    }
}

fn record_count(random: &mut Random) -> usize {
    match random.below(8) {
        0 => random.below(4),
        1 => 1 + random.below(MAX_RECORDS),
        2 => MAX_RECORDS,
        _ => 4 + random.below(40),
    }
}

/// Mostly so few that their parts fit into `room`, sometimes just too many.
fn restriction_count(random: &mut Random, room: usize) -> usize {
    match random.below(4) {
        0 => random.below(room + 3),
        1 => random.below(room / 2 + 1),
        _ => room / 2 + random.below(2),
    }
}

/// None in half of the sheets, and where there is no role.
fn claim_count(random: &mut Random, roles: usize) -> usize {
    if roles == 0 || random.one_in(2) {
        return 0;
    }
    match random.below(4) {
        0 => 2 + random.below(3),
        _ => 1,
    }
}

/// None in half of the sheets, and where there is no role.
fn inclusion_count(random: &mut Random, roles: usize) -> usize {
    if roles == 0 || random.one_in(2) {
        return 0;
    }
    match random.below(12) {
        0 => 1 + random.below(30),
        _ => 1 + random.below(3),
    }
}

fn steps(random: &mut Random) -> Vec<Step> {
    let mut steps = vec![Step::Leaf, Step::LeafRole, Step::Restriction];
    for step in STEPS {
        let weight = random.below(6);
        steps.extend(std::iter::repeat_n(step, weight));
    }
    steps
}

/// A made-up sheet without a faulty record.
pub fn sheet(random: &mut Random) -> Sheet {
    by_plan(Plan::new(random), random)
}

/// A made-up sheet without a faulty record that makes claims again and again.
pub fn repeating_sheet(random: &mut Random) -> Sheet {
    let mut plan = Plan::new(random);
    plan.roles = plan.roles.max(1);
    plan.claims = plan.claims.max(1);
    by_plan(plan, random)
}

/// A made-up sheet without faults whose parts and roles come to at most `most`.
pub fn small_sheet(most: usize, random: &mut Random) -> Vec<u8> {
    loop {
        let plan = small_plan(most, random);
        let mut sheet = by_plan(plan, random);
        if random.one_in(2) {
            narrow(&mut sheet, random);
        }
        let fits = |counts: reference::Counts| counts.marks() + counts.links <= most as u64;
        if reference::read(&sheet.bytes).is_ok_and(fits) {
            return sheet.bytes;
        }
    }
}

/// Adds axioms that leave less room: everything is some concept, or some
/// concept is nothing.
fn narrow(sheet: &mut Sheet, random: &mut Random) {
    if sheet.starts.len() + 12 > MAX_RECORDS || sheet.concepts.is_empty() {
        return;
    }
    let top = sheet.push(&[0x01]);
    let bottom = sheet.push(&[0x02]);
    for _ in 0..1 + random.below(3) {
        let concept = sheet.take_concept(random);
        let sides = random.pick(&[[top, concept], [concept, bottom]]);
        sheet.push(&[0x20, sides[0], sides[1]]);
    }
}

fn by_plan(mut plan: Plan, random: &mut Random) -> Sheet {
    let mut sheet = Sheet::default();
    while sheet.starts.len() < plan.records {
        let step = random.pick(&plan.steps);
        add(&mut sheet, step, &mut plan, random);
    }
    for _ in 0..plan.claims {
        repeat_claim(&mut sheet, &plan, random);
    }
    if plan.inclusions > 0 && sheet.starts.len() + inclusions::MOST <= MAX_RECORDS {
        inclusions::add(&mut sheet, plan.roles, random);
    }
    if plan.reach_all {
        reach_all(&mut sheet, random);
    }
    sheet
}

fn add(sheet: &mut Sheet, step: Step, plan: &mut Plan, random: &mut Random) {
    let no_concept = sheet.concepts.is_empty();
    let no_role = sheet.roles.is_empty();
    match step {
        Step::LeafRole if plan.roles > 0 => add_leaf_role(sheet, plan.roles, random),
        Step::NotRole if !no_role => sheet.not_role(random),
        Step::BooleanRole if !no_role => sheet.boolean_role(random),
        Step::Not if !no_concept => add_nots(sheet, plan.records, random),
        Step::Boolean if !no_concept => sheet.boolean(random),
        Step::Axiom if !no_concept => sheet.axiom(random),
        Step::Inclusion if !no_role && plan.inclusions > 0 => {
            plan.inclusions -= 1;
            sheet.inclusion(random);
        }
        Step::Restriction if !no_concept && !no_role && plan.restrictions > 0 => {
            plan.restrictions -= 1;
            sheet.restriction(random);
        }
        Step::Copy if !sheet.restrictions.is_empty() => add_copy(sheet, plan, random),
        _ => add_leaf(sheet, plan.names, random),
    }
}

/// A copy of an earlier restriction, if there is room. One with a fresh name
/// counts as a restriction more.
fn add_copy(sheet: &mut Sheet, plan: &mut Plan, random: &mut Random) {
    let restriction = random.pick(&sheet.restrictions);
    let is_new = !copies::has_plain_filler(sheet, restriction);
    if is_new && plan.restrictions == 0 {
        return add_leaf(sheet, plan.names, random);
    }
    match copies::copy(sheet, restriction, plan.records, random) {
        Some(copy) => {
            plan.restrictions -= usize::from(is_new);
            sheet.concepts.once.push(copy);
        }
        None => add_leaf(sheet, plan.names, random),
    }
}

/// Axioms that make a claim several times, as far as there is room.
fn repeat_claim(sheet: &mut Sheet, plan: &Plan, random: &mut Random) {
    if sheet.starts.len() + 4 > MAX_RECORDS {
        return;
    }
    add_leaf(sheet, plan.names, random);
    add_leaf_role(sheet, plan.roles, random);
    let u = sheet.roles.take(random);
    let c = random.pick(&sheet.concepts.shared);
    let claim = sheet.push(&[random.pick(&[0x07, 0x08]), u, c]);
    let on_left = random.one_in(3);
    sheet.axiom_of(claim, on_left, random);
    let copies = match random.below(8) {
        0 => 1 + random.below(40),
        _ => 1 + random.below(5),
    };
    for _ in 0..copies {
        let Some(copy) = copies::copy(sheet, claim, MAX_RECORDS - 1, random) else {
            return;
        };
        let on_left = on_left != random.one_in(8);
        sheet.axiom_of(copy, on_left, random);
    }
}

fn add_leaf(sheet: &mut Sheet, names: usize, random: &mut Random) {
    if names > 0 && !random.one_in(3) {
        sheet.leaf_concept(&[0x03, random.byte_below(names)]);
    } else {
        sheet.leaf_concept(&[random.pick(&[0x01, 0x02])]);
    }
}

fn add_leaf_role(sheet: &mut Sheet, roles: usize, random: &mut Random) {
    sheet.leaf_role(&[random.pick(&[0x10, 0x11]), random.byte_below(roles)]);
}

/// A not, or a chain of them.
fn add_nots(sheet: &mut Sheet, records: usize, random: &mut Random) {
    let length = match random.below(12) {
        0 => 1 + random.below(MAX_RECORDS),
        1..=3 => 1 + random.below(6),
        _ => 1,
    };
    sheet.not(random);
    for _ in 1..length.min(records - sheet.starts.len() + 1) {
        let last = sheet.concepts.once.pop().expect("a not was just added");
        sheet.concept(&[0x04, last]);
    }
}

/// Adds axioms until no concept that is named at most once stays unnamed.
fn reach_all(sheet: &mut Sheet, random: &mut Random) {
    while !sheet.concepts.once.is_empty() && !sheet.is_full() {
        sheet.axiom(random);
    }
}
