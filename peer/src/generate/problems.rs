//! Cases that look random.

use super::random::Random;
use super::rows::{body_of, Shown};
use super::run::Run;
use crate::theories::linear::{Atom, Relation, COEFFICIENT};
use crate::theories::MEASURES;
use crate::writing::{admit, application, counts, declare, rule, seal};

/// How large a case is, and how large its numbers are.
#[derive(Clone, Copy, Debug)]
pub struct Shape {
    pub switches: u8,
    pub measures: u8,
    pub applications: usize,
    pub atoms: usize,
    pub rules: usize,
    /// The shortest rule and the longest.
    pub literals: (usize, usize),
    /// The largest coefficient, mostly.
    pub coefficient: i64,
    pub spare: u8,
    /// So many holes for one pigeon more, as rules over the switches: no search ends soon.
    pub holes: u8,
    /// Whether measures are set before anything is chosen.
    pub sets_first: bool,
    /// See [`Run::bias`].
    pub bias: usize,
}

impl Shape {
    /// A shape up to these counts of switches, measures, atoms and rules.
    fn up_to(random: &mut Random, most: [i64; 4]) -> Shape {
        let [switches, measures, atoms, rules] = most.map(|n| random.within(0, n));
        Shape {
            switches: switches as u8,
            measures: measures as u8,
            applications: if random.coin() { 1 + random.below(8) } else { 0 },
            atoms: atoms as usize,
            rules: rules as usize,
            literals: (1, 1 + random.below(4)),
            coefficient: 1 + random.below(4) as i64,
            spare: 0,
            holes: 0,
            sets_first: false,
            bias: if random.once_in(4) { 80 } else { 50 },
        }
    }

    pub fn small(random: &mut Random) -> Shape {
        Shape::up_to(random, [4, 3, 6, 9])
    }

    pub fn middle(random: &mut Random) -> Shape {
        Shape::up_to(random, [10, 6, 14, 30])
    }

    /// With one or two measures and rules over atoms, so that values run into conflicts.
    pub fn of_values(random: &mut Random) -> Shape {
        Shape {
            measures: 1 + random.below(2) as u8,
            atoms: 4 + random.below(9),
            rules: 2 + random.below(9),
            literals: (2, 2 + random.below(4)),
            sets_first: true,
            ..Shape::up_to(random, [2, 0, 0, 0])
        }
    }

    /// With many switches and long rules, so that resolvents grow long.
    pub fn wide(random: &mut Random) -> Shape {
        let holes = if random.coin() { 3 + random.below(2) as u8 } else { 0 };
        Shape {
            switches: 20 + random.below(25) as u8,
            rules: random.below(60),
            literals: (5 + random.below(4), 8 + random.below(9)),
            bias: if holes > 0 { 60 + random.below(35) } else { 95 + random.below(5) },
            holes,
            ..Shape::up_to(random, [0, 3, 15, 0])
        }
    }

    /// Near the limits of the calculus.
    pub fn large(random: &mut Random) -> Shape {
        let holes = 4 + random.below(2) as u8;
        let switches = SPARE + holes * (holes + 1) + random.below(20) as u8;
        Shape {
            switches,
            measures: random.within(4, MEASURES as i64) as u8,
            applications: random.below(40),
            atoms: 120 - usize::from(switches) - random.below(30),
            rules: random.below(40),
            literals: (3, 3 + random.below(14)),
            coefficient: 1 + random.below(6) as i64,
            spare: SPARE,
            holes,
            sets_first: false,
            bias: 50 + random.below(40),
        }
    }

    /// Without measures.
    pub fn of_switches(self) -> Shape {
        let switches = self.switches.saturating_add(self.atoms.min(60) as u8).min(127);
        Shape { switches, measures: 0, applications: 0, atoms: 0, ..self }
    }
}

/// How many switches are left alone in a large case.
const SPARE: u8 = 30;
/// How many of the spare switches follow one from another.
pub const CHAIN: u8 = 4;

impl<T: Shown> Run<T> {
    /// Writes a case of this shape, and seals it.
    pub fn draft(&mut self, shape: &Shape) {
        self.spare = shape.spare.min(shape.switches);
        self.bias = shape.bias;
        self.state(counts(shape.switches, shape.measures));
        for _ in 0..shape.applications {
            let body = self.any_application(shape.measures);
            self.state(declare(body));
        }
        for _ in 0..shape.atoms {
            let atom = any_atom(&mut self.random, shape.measures, shape.coefficient);
            self.state(admit(body_of(&atom)));
        }
        for number in 1..self.spare.min(CHAIN) as i8 {
            self.state(rule(&[-number, number + 1]));
        }
        self.pigeons(shape.holes);
        for _ in 0..shape.rules {
            let literals = self.any_clause(shape.literals);
            self.state(rule(&literals));
        }
        self.seal_it();
    }

    /// Each of `holes` + 1 pigeons has a hole, and no two have the same.
    fn pigeons(&mut self, holes: u8) {
        let first = self.spare;
        let at = |pigeon: u8, hole: u8| (first + pigeon * holes + hole + 1) as i8;
        for pigeon in 0..=holes {
            if holes > 0 {
                let has_one: Vec<i8> = (0..holes).map(|hole| at(pigeon, hole)).collect();
                self.state(rule(&has_one));
            }
            for (other, hole) in (0..pigeon).flat_map(|p| (0..holes).map(move |h| (p, h))) {
                self.state(rule(&[-at(pigeon, hole), -at(other, hole)]));
            }
        }
    }

    fn seal_it(&mut self) {
        let denominators = [1, 1, 1, 1, 2, 3, 6, 10, 12, 1_000, 1_000_000];
        let denominator = denominators[self.random.below(denominators.len())];
        self.take(seal(denominator));
    }

    fn any_application(&mut self, measures: u8) -> Vec<u8> {
        let random = &mut self.random;
        let mut measure = || 1 + random.below(usize::from(measures.max(1))) as u8;
        let arguments: Vec<u8> = (0..3).map(|_| measure()).collect();
        let result = measure();
        let arity = if random.coin() { 1 } else { 1 + random.below(3) };
        application(7 + random.below(5) as u8 / 4, &arguments[..arity], result)
    }

    /// So many literals on different numbers, or fewer; seldom none.
    pub fn any_clause(&mut self, (least, most): (usize, usize)) -> Vec<i8> {
        let empty = self.random.once_in(2_000);
        let length = if empty { 0 } else { least + self.random.below(most - least + 1) };
        let mut literals: Vec<i8> = Vec::with_capacity(length);
        for _ in 0..length {
            let Some(literal) = self.any_literal() else {
                break;
            };
            if literals.iter().all(|l| l.unsigned_abs() != literal.number()) {
                literals.push(super::run::signed(literal));
            }
        }
        literals
    }
}

/// An atom over some of the measures, mostly with small numbers.
pub fn any_atom(random: &mut Random, measures: u8, coefficient: i64) -> Atom {
    let relation = [Relation::Less, Relation::AtMost, Relation::Equal][random.below(3)];
    let mut atom = Atom { relation, row: [0; MEASURES], constant: random.within(-9, 9) as i32 };
    if measures >= 2 && random.once_in(4) {
        equate(random, &mut atom, measures);
        return atom;
    }
    let most = if random.once_in(8) { measures } else { measures.min(3) };
    let mentioned = if random.once_in(60) { 0 } else { random.within(1, 3) as u8 };
    for _ in 0..mentioned.min(most) {
        let index = random.below(usize::from(measures));
        atom.row[index] = any_coefficient(random, coefficient);
    }
    if random.once_in(40) {
        atom.constant = (atom.constant.signum() * COEFFICIENT) - random.below(2) as i32;
        atom.constant = atom.constant.clamp(-COEFFICIENT, COEFFICIENT);
    }
    atom
}

/// Makes an atom that says that two measures are equal.
fn equate(random: &mut Random, atom: &mut Atom, measures: u8) {
    let one = random.below(usize::from(measures));
    let other = random.below(usize::from(measures));
    if one != other {
        let coefficient = any_coefficient(random, 3);
        *atom = Atom { relation: Relation::Equal, row: [0; MEASURES], constant: 0 };
        (atom.row[one], atom.row[other]) = (coefficient, -coefficient);
    }
}

fn any_coefficient(random: &mut Random, largest: i64) -> i32 {
    let size = match random.below(60) {
        0 => i64::from(COEFFICIENT),
        1 => random.within(1, i64::from(COEFFICIENT)),
        _ => random.within(1, largest),
    } as i32;
    if random.coin() {
        size
    } else {
        -size
    }
}
