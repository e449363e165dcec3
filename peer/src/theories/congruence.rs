//! Congruence over any theory: applications of functions, whose results agree where arguments do.

use super::{Lemma, Measures, Theory, Values};
use crate::faults::{ensure, Cause, Fault};

/// How many applications one layer can hold.
pub const APPLICATIONS: usize = 32;
/// How many arguments a function can have.
pub const ARITY: usize = 3;

/// The result measure is the function's value at the argument measures.
#[derive(Clone, Debug, PartialEq, Eq)]
pub struct Application {
    pub function: u8,
    pub arguments: Vec<usize>,
    pub result: usize,
}

impl Application {
    /// Reads a declaration of this layer: its length first, then its numbers.
    fn of_bytes(body: &[u8], measures: usize) -> Result<Application, Cause> {
        let [_, function, arity, rest @ ..] = body else {
            return Err(Cause::WrongLength);
        };
        let arity = usize::from(*arity);
        ensure(rest.len() == arity + 1, Cause::WrongLength)?;
        ensure((1..=ARITY).contains(&arity), Cause::OutOfRange)?;
        let named = rest.iter().map(|m| usize::from(*m));
        ensure(named.clone().all(|m| (1..=measures).contains(&m)), Cause::OutOfRange)?;
        let (arguments, result) = (named.clone().take(arity).collect(), usize::from(rest[arity]));
        Ok(Application { function: *function, arguments, result })
    }

    /// Whether function and arity match.
    pub fn alike(&self, other: &Application) -> bool {
        self.function == other.function && self.arguments.len() == other.arguments.len()
    }

    /// The two argument measures at each place.
    fn places<'a>(&'a self, other: &'a Application) -> impl Iterator<Item = (usize, usize)> + 'a {
        self.arguments.iter().copied().zip(other.arguments.iter().copied())
    }

    /// Whether the values give the two, which are alike, equal arguments and results that differ.
    pub fn clashes(&self, other: &Application, values: &Values) -> bool {
        let equal =
            |one: usize, two: usize| values.numerators[one - 1] == values.numerators[two - 1];
        self.alike(other)
            && self.places(other).all(|(one, two)| equal(one, two))
            && !equal(self.result, other.result)
    }
}

#[derive(Clone, Debug, Default)]
pub struct Congruence<T> {
    below: T,
    measures: usize,
    applications: Vec<Application>,
}

impl<T: Theory> Congruence<T> {
    pub fn below(&self) -> &T {
        &self.below
    }

    pub fn applications(&self) -> &[Application] {
        &self.applications
    }

    /// The application of this number, from 1.
    fn application(&self, number: u8) -> Result<&Application, Cause> {
        let index = usize::from(number).checked_sub(1).ok_or(Cause::OutOfRange)?;
        self.applications.get(index).ok_or(Cause::OutOfRange)
    }

    fn apply(&mut self, body: &[u8]) -> Result<(), Cause> {
        ensure(self.applications.len() < APPLICATIONS, Cause::Full)?;
        self.applications.push(Application::of_bytes(body, self.measures)?);
        Ok(())
    }

    /// Hint kind 3: two applications agree by the equalities that the clause denies, and the clause
    /// affirms that their results do.
    fn agrees(&self, lemma: Lemma<'_>, hint: &[u8]) -> Result<(), Cause> {
        let [one, other] = hint.try_into().map_err(|_| Cause::WrongLength)?;
        let (one, other) = (self.application(one)?, self.application(other)?);
        let equated = |affirmed: bool, i: usize, j: usize| {
            lemma.atoms(affirmed).any(|atom| self.below.equates(atom, i, j))
        };
        let agree = one.alike(other)
            && one.places(other).all(|(i, j)| i == j || equated(false, i, j))
            && equated(true, one.result, other.result);
        ensure(agree, Cause::NotVouched)
    }
}

impl<T: Theory> Theory for Congruence<T> {
    fn counts(&mut self, measures: u8) -> Result<(), Fault> {
        self.below.counts(measures).map_err(Fault::raised)?;
        self.measures = usize::from(measures);
        Ok(())
    }

    fn declare(&mut self, body: &[u8]) -> Result<(), Fault> {
        match body {
            [3, ..] => self.apply(body).map_err(Fault::of_theory),
            _ => self.below.declare(body).map_err(Fault::raised),
        }
    }

    fn admit(&mut self, body: &[u8]) -> Result<(), Fault> {
        self.below.admit(body).map_err(Fault::raised)
    }

    fn mentions(&self, atom: usize) -> Measures {
        self.below.mentions(atom)
    }

    fn holds(&self, atom: usize, values: &Values) -> bool {
        self.below.holds(atom, values)
    }

    fn admits(&self, values: &Values) -> Result<(), Fault> {
        self.below.admits(values).map_err(Fault::raised)?;
        let apart = |(index, one): (usize, &Application)| {
            self.applications[index + 1..].iter().all(|other| !one.clashes(other, values))
        };
        ensure(self.applications.iter().enumerate().all(apart), Cause::NotAdmitted)
            .map_err(Fault::of_theory)
    }

    fn equates(&self, atom: usize, one: usize, other: usize) -> bool {
        self.below.equates(atom, one, other)
    }

    fn vouches(&self, lemma: Lemma<'_>, hint: &[u8]) -> Result<(), Fault> {
        match hint {
            [3, rest @ ..] => self.agrees(lemma, rest).map_err(Fault::of_theory),
            _ => self.below.vouches(lemma, hint).map_err(Fault::raised),
        }
    }
}
