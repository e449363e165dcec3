//! A session goes over a problem and either refutes it or finds a solution, call by call. A call that
//! is refused changes nothing.

mod analysis;
mod search;
pub mod trail;

use crate::faults::{ensure, Cause, Fault};
use crate::files::Call;
use crate::literals::{Clause, Literal};
use crate::theories::{Lemma, Theory, Values};
use trail::Trail;

/// How many numbers there can be: switches and atoms together.
pub const NUMBERS: u8 = 127;
/// How many clauses the store can hold.
pub const CLAUSES: usize = 250;
/// The greatest denominator.
pub const DENOMINATOR: u32 = 1_000_000;
/// Numerators that are given lie within this, both ways.
pub const NUMERATOR: i32 = 1_000_000_000;

/// A clause of the store. Those that are not rules are lemmas and learnt clauses.
#[derive(Clone, Copy, Debug)]
pub struct Stored {
    pub clause: Clause,
    pub rule: bool,
}

/// What a claim hands out: a yes or no for each switch, and a numerator for each measure.
#[derive(Clone, Debug, PartialEq, Eq)]
pub struct Arrangement {
    pub denominator: u32,
    pub switches: Vec<bool>,
    pub numerators: Vec<i32>,
}

#[derive(Clone, Debug, PartialEq, Eq)]
pub enum Verdict {
    Impossible,
    Possible(Arrangement),
    Undecided,
}

#[derive(Clone, Debug)]
pub enum Phase {
    New,
    Drafting,
    Searching,
    /// With the open clause.
    Analysing(Clause),
    Closed(Verdict),
}

#[derive(Clone, Debug)]
pub struct Session<T> {
    theory: T,
    phase: Phase,
    switches: u8,
    measures: u8,
    /// The numbers in use: the switches, and one for each atom.
    numbers: u8,
    store: Vec<Stored>,
    trail: Trail,
}

impl<T: Theory> Default for Session<T> {
    fn default() -> Self {
        Session {
            theory: T::default(),
            phase: Phase::New,
            switches: 0,
            measures: 0,
            numbers: 0,
            store: Vec::new(),
            trail: Trail::default(),
        }
    }
}

impl<T: Theory> Session<T> {
    pub fn call(&mut self, call: Call<'_>) -> Result<(), Fault> {
        match call {
            Call::Counts { switches, measures } => self.counts(switches, measures),
            Call::Declare(body) => self.declare(body),
            Call::Admit(body) => self.admit(body),
            Call::Rule(literals) => Ok(self.rule(literals)?),
            Call::Seal(denominator) => Ok(self.seal(denominator)?),
            Call::Lemma { literals, hint } => self.lemma(literals, hint),
            Call::Choose(literal) => Ok(self.choose(literal)?),
            Call::Set { measure, numerator } => Ok(self.set(measure, numerator)?),
            Call::Propagate { clause, literal } => Ok(self.propagate(clause, literal)?),
            Call::Read(number) => Ok(self.read(number)?),
            Call::Conflict(clause) => Ok(self.conflict(clause)?),
            Call::Resolve(number) => Ok(self.resolve(number)?),
            Call::Jump(literal) => Ok(self.jump(literal)?),
            Call::Concede => Ok(self.concede()?),
            Call::Claim => self.claim(),
            Call::Abandon => Ok(self.abandon()?),
        }
    }

    fn counts(&mut self, switches: u8, measures: u8) -> Result<(), Fault> {
        ensure(matches!(self.phase, Phase::New), Cause::WrongPhase)?;
        ensure(switches <= NUMBERS, Cause::OutOfRange)?;
        self.theory.counts(measures)?;
        (self.switches, self.measures, self.numbers) = (switches, measures, switches);
        self.phase = Phase::Drafting;
        Ok(())
    }

    fn declare(&mut self, body: &[u8]) -> Result<(), Fault> {
        self.drafting()?;
        self.theory.declare(body)
    }

    fn admit(&mut self, body: &[u8]) -> Result<(), Fault> {
        self.drafting().or(self.searching())?;
        ensure(self.numbers < NUMBERS, Cause::Full)?;
        self.theory.admit(body)?;
        self.numbers += 1;
        Ok(())
    }

    fn rule(&mut self, literals: &[u8]) -> Result<(), Cause> {
        self.drafting()?;
        let clause = self.new_clause(literals)?;
        self.store.push(Stored { clause, rule: true });
        Ok(())
    }

    fn seal(&mut self, denominator: u32) -> Result<(), Cause> {
        self.drafting()?;
        ensure((1..=DENOMINATOR).contains(&denominator), Cause::OutOfRange)?;
        self.trail = Trail::over(denominator);
        self.phase = Phase::Searching;
        Ok(())
    }

    fn lemma(&mut self, literals: &[u8], hint: &[u8]) -> Result<(), Fault> {
        self.searching()?;
        let clause = self.new_clause(literals)?;
        self.theory.vouches(Lemma { switches: self.switches, clause: &clause }, hint)?;
        self.store.push(Stored { clause, rule: false });
        Ok(())
    }

    /// The clause of these bytes, where there is room for it and its numbers are in use.
    fn new_clause(&self, literals: &[u8]) -> Result<Clause, Cause> {
        ensure(self.store.len() < CLAUSES, Cause::Full)?;
        let clause = Clause::of_bytes(literals)?;
        ensure(clause.iter().all(|l| self.in_use(l.number())), Cause::Absent)?;
        Ok(clause)
    }

    fn drafting(&self) -> Result<(), Cause> {
        ensure(matches!(self.phase, Phase::Drafting), Cause::WrongPhase)
    }

    fn searching(&self) -> Result<(), Cause> {
        ensure(matches!(self.phase, Phase::Searching), Cause::WrongPhase)
    }

    /// The open clause.
    fn analysing(&self) -> Result<Clause, Cause> {
        match &self.phase {
            Phase::Analysing(clause) => Ok(*clause),
            _ => Err(Cause::WrongPhase),
        }
    }

    fn in_use(&self, number: u8) -> bool {
        (1..=self.numbers).contains(&number)
    }

    /// The stored clause of this number, from 1.
    fn stored(&self, number: u8) -> Result<&Clause, Cause> {
        let index = usize::from(number).checked_sub(1).ok_or(Cause::Absent)?;
        self.store.get(index).map(|s| &s.clause).ok_or(Cause::Absent)
    }

    /// The theory's own number of an atom; `None` for a switch.
    fn atom(&self, number: u8) -> Option<usize> {
        number.checked_sub(self.switches).filter(|n| *n > 0).map(usize::from)
    }

    /// Whether the atom of this number is true by the trail's values.
    fn holds(&self, atom: usize) -> bool {
        self.theory.holds(atom, self.trail.values())
    }

    /// Whether all measures that an atom mentions have values. A switch is never readable.
    fn readable(&self, number: u8) -> bool {
        self.atom(number).is_some_and(|atom| self.theory.mentions(atom).within(self.trail.valued()))
    }
}

/// What a session shows of itself.
impl<T> Session<T> {
    pub fn theory(&self) -> &T {
        &self.theory
    }

    pub fn phase(&self) -> &Phase {
        &self.phase
    }

    pub fn switches(&self) -> u8 {
        self.switches
    }

    pub fn measures(&self) -> u8 {
        self.measures
    }

    pub fn numbers(&self) -> u8 {
        self.numbers
    }

    pub fn store(&self) -> &[Stored] {
        &self.store
    }

    pub fn trail(&self) -> &Trail {
        &self.trail
    }

    pub fn values(&self) -> &Values {
        self.trail.values()
    }

    /// The verdict of a session that is closed, and takes the session with it.
    pub fn verdict(self) -> Option<Verdict> {
        match self.phase {
            Phase::Closed(verdict) => Some(verdict),
            _ => None,
        }
    }

    pub fn is_false(&self, literal: Literal) -> bool {
        self.trail.false_at(literal).is_some()
    }
}
