//! Pairs of a case and a log, one after another, from a seed.

use super::cycles::Heavy;
use super::mutations::{make_long, spoil_bytes, Draft};
use super::problems::{any_atom, Shape};
use super::random::Random;
use super::rows::{body_of, Shown};
use super::run::Run;
use super::solver::Manner;
use crate::files::File;
use crate::report::SHORTEST_BUFFER;
use crate::theories::{Congruence, Linear, Switches};
use crate::writing::{self, *};

/// What a check is asked.
#[derive(Clone, Debug, PartialEq, Eq)]
pub struct Pair {
    pub theory: u8,
    pub case: Vec<u8>,
    pub log: Vec<u8>,
    /// How long the report buffer is.
    pub buffer: usize,
}

/// So many pairs in a row come from one draft: the draft as it is, and then spoilt.
pub const FAMILY: u64 = 5;

/// All pairs of a seed, from a given one on.
pub struct Pairs {
    seed: u64,
    next: u64,
    /// The family that the draft is of.
    family: Option<(u64, Draft)>,
}

impl Pairs {
    pub fn from(seed: u64, first: u64) -> Pairs {
        Pairs { seed, next: first, family: None }
    }

    fn draft(&mut self, family: u64) -> &Draft {
        if self.family.as_ref().is_none_or(|(of, _)| *of != family) {
            let mut random = Random::of_item(self.seed, family);
            self.family = Some((family, any_draft(&mut random)));
        }
        &self.family.as_ref().expect("just made").1
    }
}

impl Iterator for Pairs {
    type Item = Pair;

    fn next(&mut self) -> Option<Pair> {
        let (family, member) = (self.next / FAMILY, self.next % FAMILY);
        let mut random = Random::of_item(!self.seed, self.next);
        self.next += 1;
        let draft = self.draft(family);
        Some(if member == 0 { plain(draft) } else { spoilt(draft, &mut random) })
    }
}

fn plain(draft: &Draft) -> Pair {
    Pair {
        theory: draft.theory,
        case: writing::file(&draft.case),
        log: writing::file(&draft.log),
        buffer: SHORTEST_BUFFER,
    }
}

/// The draft with one thing spoilt, or a few.
fn spoilt(draft: &Draft, random: &mut Random) -> Pair {
    if random.once_in(10) {
        return spoilt_bytes(plain(draft), random);
    }
    let mut draft = draft.clone();
    for _ in 0..1 + random.below(12) / 10 {
        draft.spoil(random);
    }
    let mut pair = plain(&draft);
    if random.once_in(50) {
        let lengths = [0, 1, 2_047, 2_048, 2_049, 5_000];
        pair.buffer = lengths[random.below(lengths.len())];
    }
    pair
}

fn spoilt_bytes(mut pair: Pair, random: &mut Random) -> Pair {
    let (file, bytes) =
        if random.once_in(3) { (File::Case, &mut pair.case) } else { (File::Log, &mut pair.log) };
    if random.once_in(30) {
        let length = file.limit() + random.below(3) - 1;
        make_long(bytes, length, random);
    } else {
        spoil_bytes(bytes, random);
    }
    pair
}

/// A case with its log: mostly small, seldom at the limits.
fn any_draft(random: &mut Random) -> Draft {
    if random.once_in(2_000) {
        let heavy = Heavy::ALL[random.below(Heavy::ALL.len())];
        let bytes = if random.coin() { 40_000 } else { 2_000 + random.below(38_000) };
        return heavy.draft(random, bytes);
    }
    match random.below(1_000) {
        0..=2 => {
            let shape = Shape::large(random);
            any_run(random, shape, 12_000)
        }
        3..=22 => at_limits(random),
        23..=32 => long_resolvent(random),
        33..=37 => noise(random),
        38..=122 => {
            let shape = Shape::wide(random);
            any_run(random, shape, 400)
        }
        123..=272 => {
            let shape = Shape::of_values(random);
            any_run(random, shape, 150)
        }
        273..=550 => {
            let shape = Shape::middle(random);
            any_run(random, shape, 400)
        }
        _ => {
            let shape = Shape::small(random);
            any_run(random, shape, 120)
        }
    }
}

fn any_run(random: &mut Random, shape: Shape, steps: usize) -> Draft {
    if random.once_in(5) {
        run::<Switches>(random, &shape.of_switches(), steps)
    } else {
        run::<Congruence<Linear>>(random, &shape, steps)
    }
}

/// How far from its limit a log is when it is filled up to it.
const FILLED: usize = 110;

fn run<T: Shown>(random: &mut Random, shape: &Shape, steps: usize) -> Draft {
    let manner = Manner {
        stray: 3 + random.below(40),
        refute: random.below(6),
        set: if shape.sets_first { 1 } else { 1 + random.below(8) },
        claim: 1 + random.below(12),
        follow: if random.once_in(3) { 30 } else { 1 },
    };
    let slips = random.once_in(6);
    let cut = random.once_in(8);
    let mut run = Run::<T>::new(Random::new(random.word()));
    run.daring = random.once_in(3);
    run.draft(shape);
    if slips || cut {
        let early = run.random.below(40.min(steps));
        run.search(&manner, early);
    } else if shape.spare > 0 {
        run.limit -= FILLED;
        run.search(&manner, steps);
        run.limit += FILLED;
        run.fill();
    } else {
        run.search(&manner, steps);
    }
    if slips && !run.over() {
        run.slip();
    }
    Draft { theory: T::NUMBER, case: run.case, log: run.log }
}

/// How many there are of each thing in a case at the limits.
struct Counts {
    switches: u8,
    measures: u8,
    applications: usize,
    numbers: usize,
    rules: usize,
    literals: usize,
}

/// A case that comes near one limit, or just up to it, or goes beyond it by one.
fn at_limits(random: &mut Random) -> Draft {
    let near = random.below(3);
    let mut of =
        Counts { switches: 20, measures: 4, applications: 3, numbers: 40, rules: 5, literals: 3 };
    match random.below(6) {
        0 => (of.switches, of.numbers) = (126 + near as u8, 127),
        1 => of.measures = 15 + near as u8,
        2 => (of.switches, of.numbers) = (20 + random.below(90) as u8, 126 + near),
        3 => of.rules = 249 + near,
        4 => of.applications = 31 + near,
        _ => of.literals = 15 + near,
    }
    let mut case = vec![counts(of.switches, of.measures)];
    let result = 1 + random.below(usize::from(of.measures)) as u8;
    case.resize(1 + of.applications, declare(application(7, &[1, 2, 3], result)));
    if random.once_in(8) {
        case.push(declare(vec![3]));
    }
    for _ in usize::from(of.switches)..of.numbers {
        case.push(admit(body_of(&any_atom(random, of.measures.min(16), 9))));
    }
    for _ in 0..of.rules {
        case.push(rule(&mixed(random, of.literals)));
    }
    let log = log_at_limits(random, &of, &mut case);
    Draft { theory: 2, case, log }
}

/// A clause on the first numbers.
fn mixed(random: &mut Random, literals: usize) -> Vec<i8> {
    let mut clause: Vec<i8> = (1..=literals as i8).collect();
    clause.iter_mut().for_each(|l| *l = if random.coin() { *l } else { -*l });
    clause
}

/// A search in which a conflict on the last rule comes first, or one more atom, or neither.
fn log_at_limits(random: &mut Random, of: &Counts, case: &mut Vec<Written>) -> Vec<Written> {
    let mut log = vec![seal(1)];
    if random.coin() {
        log.push(admit(body_of(&any_atom(random, of.measures.min(16), 9))));
    }
    if random.coin() {
        let clause = mixed(random, of.literals);
        case.pop();
        case.push(rule(&clause));
        log.extend(clause.iter().map(|l| choose(-l)));
        log.extend([conflict(of.rules as u8), jump(clause[of.literals - 1])]);
    }
    let first = of.literals as i8 + 1;
    log.extend((first..=of.switches.min(127) as i8).map(choose));
    log.extend((1..=of.measures).map(|m| set(m, random.within(-5, 5) as i32)));
    log.push([claim(), abandon()][random.below(2)].clone());
    log
}

/// A conflict whose resolvent has about as many literals as a clause can have, and sometimes more.
fn long_resolvent(random: &mut Random) -> Draft {
    let (one, other) = (random.within(9, 16) as i8, random.within(1, 16) as i8);
    // The two clauses are on the numbers 2 to `one`, and from there back to `first`, and both on 1.
    let first = (random.within(15, 18) as i8 + 2 - other).max(2);
    let last = first + other - 1;
    let mut reason: Vec<i8> = [1].into_iter().chain((2..=one).map(|n| -n)).collect();
    let mut open: Vec<i8> = [-1].into_iter().chain((first..last).map(|n| -n)).collect();
    random.shuffle(&mut reason);
    random.shuffle(&mut open);
    let case = vec![counts(40, 0), rule(&reason), rule(&open)];
    let mut choices: Vec<Written> = (2..=one.max(last)).map(choose).collect();
    random.shuffle(&mut choices);
    let mut log = vec![seal(1)];
    log.extend(choices);
    log.extend([propagate(1, 1), conflict(2), resolve(1), resolve(2)]);
    Draft { theory: 1 + random.below(2) as u8, case, log }
}

/// Records of any kind with any bytes.
fn noise(random: &mut Random) -> Draft {
    let mut any_record = |kinds: &[u8]| {
        let kind = random.pick(kinds).unwrap_or(0);
        let body: Vec<u8> = (0..random.below(9)).map(|_| random.byte() % 8).collect();
        Written::new(kind, body)
    };
    let mut case = vec![counts(3, 3)];
    case.extend((0..3).map(|_| any_record(&[1, 2, 3, 4, 4, 4])));
    let mut log = vec![seal(1)];
    log.extend((0..6).map(|_| any_record(&[3, 10, 11, 12, 13, 14, 15, 16, 17, 18, 19, 20, 21])));
    Draft { theory: 2, case, log }
}
