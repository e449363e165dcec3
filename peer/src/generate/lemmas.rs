//! Lemmas that a theory vouches for, with their hints.

use super::eliminate::refute;
use super::rows::{body_of, bounds_of, bounds_of_trail, gcd, Bound, Bounded, Shown};
use super::run::{signed, Run};
use crate::literals::{Literal, CLAUSE_LITERALS};
use crate::theories::linear::{Atom, Relation, COEFFICIENT};
use crate::theories::MEASURES;
use crate::writing::{admit, lemma, multipliers};

impl<T: Shown> Run<T> {
    /// The number of an atom, which is admitted if it is not there yet.
    pub fn number_of(&mut self, atom: &Atom) -> Option<u8> {
        let switches = self.session.switches();
        let there = (switches + 1..=self.session.numbers())
            .find(|number| self.session.theory().row(usize::from(number - switches)) == Some(atom));
        if there.is_some() {
            return there;
        }
        self.take(admit(body_of(atom))).then(|| self.session.numbers())
    }

    /// A lemma that denies these literals, each with its multiplier. Its order is any.
    fn deny(&mut self, mut parts: Vec<(Literal, i64)>) -> bool {
        self.random.shuffle(&mut parts);
        let clause: Vec<i8> = parts.iter().map(|(literal, _)| signed(literal.denial())).collect();
        let numbers: Option<Vec<i32>> = parts
            .iter()
            .map(|(_, m)| i32::try_from(*m).ok().filter(|m| m.abs() <= COEFFICIENT))
            .collect();
        let different = clause.iter().all(|l| {
            clause.iter().filter(|other| other.unsigned_abs() == l.unsigned_abs()).count() == 1
        });
        match numbers {
            Some(numbers) if different && clause.len() <= CLAUSE_LITERALS => {
                self.take(lemma(&clause, &multipliers(&numbers)))
            }
            _ => false,
        }
    }

    /// Looks for literals of the trail that contradict each other, whatever values there are.
    pub fn refute_trail(&mut self) -> bool {
        let mut bounds = bounds_of_trail(&self.session);
        self.random.shuffle(&mut bounds);
        let Some(used) = refute(&bounds) else {
            return false;
        };
        let mut parts: Vec<(Literal, i64)> = Vec::new();
        for (bound, multiplier) in used {
            let signed = bound.sign * multiplier;
            match parts.iter_mut().find(|(literal, _)| *literal == bound.literal) {
                Some((_, total)) => *total += signed,
                None => parts.push((bound.literal, signed)),
            }
        }
        self.deny(parts)
    }

    /// Explains why two bounds leave no value for the measure at this index: what follows from them
    /// without that measure is false by the values.
    pub fn explain(&mut self, upper: &Bound, lower: &Bound, index: usize) -> bool {
        let (a, b) = (upper.says.row[index].abs(), lower.says.row[index].abs());
        let g = gcd(a, b);
        let (times, factor) = (a / g, b / g);
        let Some(sum) = upper.says.plus(factor, &lower.says, times) else {
            return false;
        };
        let mut parts =
            vec![(upper.literal, upper.sign * factor), (lower.literal, lower.sign * times)];
        if !sum.is_bare() {
            match self.closing(&sum) {
                Some(part) => parts.push(part),
                None => return false,
            }
        }
        self.deny(parts)
    }

    /// The denial of an atom that says what the sum says, with the multiplier that makes both cancel
    /// out.
    fn closing(&mut self, sum: &Bounded) -> Option<(Literal, i64)> {
        let divisor = if self.random.once_in(8) { 1 } else { sum.divisor() };
        let number = self.number_of(&sum.over(divisor).atom()?)?;
        Some((Literal::new(number, false), divisor))
    }

    /// A lemma over some atoms of any kind, as `combine` has it.
    pub fn combine_any(&mut self) -> bool {
        let most = if self.random.once_in(6) { CLAUSE_LITERALS - 1 } else { 4 };
        let mut numbers: Vec<u8> = Vec::new();
        for _ in 0..1 + self.random.below(most) {
            numbers.extend(self.any_number().filter(|n| !numbers.contains(n)));
        }
        self.combine(numbers)
    }

    /// A lemma over these atoms, with multipliers that are made up, and one atom that closes the sum.
    pub fn combine(&mut self, numbers: Vec<u8>) -> bool {
        let mut parts: Vec<(Literal, i64)> = Vec::new();
        let mut sum = Bounded::default();
        for number in numbers {
            let Some(bound) = self.any_bound(number) else {
                continue;
            };
            let multiplier = self.any_multiplier();
            let Some(next) = sum.plus(1, &bound.says, multiplier) else {
                return false;
            };
            // A strict row counts only with a multiplier above 0.
            let strict = sum.strict || bound.says.strict && multiplier > 0;
            sum = Bounded { strict, ..next };
            parts.push((bound.literal, bound.sign * multiplier));
        }
        if !sum.is_absurd() {
            match self.closing(&sum) {
                Some(part) => parts.push(part),
                None => return false,
            }
        }
        self.deny(parts)
    }

    /// What an atom or its denial says.
    fn any_bound(&mut self, number: u8) -> Option<Bound> {
        let atom = self.session.theory().row(self.atom_of(number)?)?;
        let affirmed = bounds_of(Literal::new(number, true), atom);
        let denied = bounds_of(Literal::new(number, false), atom);
        let bounds: Vec<Bound> = affirmed.chain(denied).collect();
        self.random.pick(&bounds)
    }

    fn any_multiplier(&mut self) -> i64 {
        match self.random.below(12) {
            0 => 0,
            1 => i64::from(COEFFICIENT),
            _ => self.random.within(1, 4),
        }
    }

    /// A lemma that holds an equality and the two strict orders beside it.
    pub fn split(&mut self, number: u8) -> bool {
        let Some(atom) = self.atom_of(number).and_then(|n| self.session.theory().row(n)) else {
            return false;
        };
        if atom.relation != Relation::Equal {
            return false;
        }
        let below = Atom { relation: Relation::Less, ..*atom };
        let above = Atom { row: below.row.map(|c| -c), constant: -below.constant, ..below };
        let (Some(below), Some(above)) = (self.number_of(&below), self.number_of(&above)) else {
            return false;
        };
        let mut clause = vec![number as i8, below as i8, above as i8];
        if self.random.once_in(8) {
            clause.extend(self.any_clause((1, 3)));
        }
        self.random.shuffle(&mut clause);
        self.take(lemma(&clause, &[2]))
    }

    /// A lemma that says that these two applications agree.
    pub fn agree(&mut self, one: usize, other: usize) -> bool {
        let applied = self.session.theory().applied();
        let (first, second) = (applied[one].clone(), applied[other].clone());
        let mut clause: Vec<i8> = Vec::new();
        let places = first.arguments.iter().zip(&second.arguments);
        for (i, j) in places.filter(|(i, j)| i != j) {
            match self.equality(*i, *j) {
                Some(number) if !clause.contains(&-(number as i8)) => clause.push(-(number as i8)),
                Some(_) => {}
                None => return false,
            }
        }
        if first.result == second.result {
            return false;
        }
        let Some(number) = self.equality(first.result, second.result) else {
            return false;
        };
        clause.push(number as i8);
        if self.random.once_in(8) {
            clause.extend(self.any_clause((1, 3)));
        }
        self.random.shuffle(&mut clause);
        let hint = [3, one as u8 + 1, other as u8 + 1];
        if self.daring && self.random.once_in(4) {
            // Without one of its equalities, which may be one that it needs.
            clause.pop();
            self.risk(lemma(&clause, &hint));
            return true;
        }
        self.take(lemma(&clause, &hint))
    }

    /// The number of an atom that says that two measures are equal.
    fn equality(&mut self, one: usize, other: usize) -> Option<u8> {
        let switches = self.session.switches();
        let mut numbers = switches + 1..=self.session.numbers();
        let there = numbers.find(|number| {
            self.session.theory().equates(usize::from(number - switches), one, other)
        });
        if there.is_some() {
            return there;
        }
        let mut atom = Atom { relation: Relation::Equal, row: [0; MEASURES], constant: 0 };
        let coefficient = if self.random.coin() { 1 } else { -(self.random.within(1, 9) as i32) };
        (atom.row[one - 1], atom.row[other - 1]) = (coefficient, -coefficient);
        self.number_of(&atom)
    }

    /// Two applications that are alike, where there are such.
    pub fn any_alike(&mut self) -> Option<(usize, usize)> {
        let count = self.session.theory().applied().len();
        if count < 2 {
            return None;
        }
        let (one, other) = (self.random.below(count), self.random.below(count));
        let applied = self.session.theory().applied();
        applied[one].alike(&applied[other]).then_some((one, other))
    }
}
