//! The calls of the search: what enters the trail, and the claim.

use super::{Arrangement, Phase, Session, Verdict, NUMERATOR};
use crate::faults::{ensure, Cause, Fault};
use crate::literals::Literal;
use crate::theories::Theory;

impl<T: Theory> Session<T> {
    pub(super) fn choose(&mut self, literal: u8) -> Result<(), Cause> {
        self.searching()?;
        let literal = Literal::of_byte(literal)?;
        ensure(self.in_use(literal.number()), Cause::Absent)?;
        ensure(self.trail.on(literal.number()).is_none(), Cause::Taken)?;
        ensure(!self.readable(literal.number()), Cause::WrongReadability)?;
        self.trail.choose(literal);
        Ok(())
    }

    pub(super) fn set(&mut self, measure: u8, numerator: i32) -> Result<(), Cause> {
        self.searching()?;
        ensure((1..=self.measures).contains(&measure), Cause::OutOfRange)?;
        ensure((-NUMERATOR..=NUMERATOR).contains(&numerator), Cause::OutOfRange)?;
        let measure = usize::from(measure);
        ensure(!self.trail.valued().has(measure), Cause::Taken)?;
        ensure(self.agrees(measure, numerator), Cause::ContradictsTrail)?;
        self.trail.set(measure, numerator);
        Ok(())
    }

    /// Whether each literal of the trail that this value makes readable is true.
    fn agrees(&self, measure: usize, numerator: i32) -> bool {
        let mut valued = self.trail.valued();
        valued.add(measure);
        let mut values = *self.trail.values();
        values.numerators[measure - 1] = numerator;
        (self.switches + 1..=self.numbers).all(|number| {
            let (Some(atom), Some(standing)) = (self.atom(number), self.trail.on(number)) else {
                return true;
            };
            let mentioned = self.theory.mentions(atom);
            let becomes_readable = mentioned.has(measure) && mentioned.within(valued);
            !becomes_readable || self.theory.holds(atom, &values) == standing.affirmed
        })
    }

    pub(super) fn propagate(&mut self, clause: u8, literal: u8) -> Result<(), Cause> {
        self.searching()?;
        let literal = Literal::of_byte(literal)?;
        let reason = self.stored(clause)?;
        ensure(self.in_use(literal.number()), Cause::Absent)?;
        ensure(self.trail.on(literal.number()).is_none(), Cause::Taken)?;
        ensure(!self.readable(literal.number()), Cause::WrongReadability)?;
        let unit = reason.contains(&literal)
            && reason.iter().filter(|l| **l != literal).all(|l| self.is_false(*l));
        ensure(unit, Cause::NotUnit)?;
        self.trail.propagate(literal, usize::from(clause) - 1);
        Ok(())
    }

    pub(super) fn read(&mut self, number: u8) -> Result<(), Cause> {
        self.searching()?;
        ensure(self.in_use(number), Cause::Absent)?;
        ensure(self.trail.on(number).is_none(), Cause::Taken)?;
        ensure(self.readable(number), Cause::WrongReadability)?;
        let atom = self.atom(number).ok_or(Cause::WrongReadability)?;
        let level = self.trail.highest(self.theory.mentions(atom));
        self.trail.read(Literal::new(number, self.holds(atom)), level);
        Ok(())
    }

    pub(super) fn claim(&mut self) -> Result<(), Fault> {
        self.searching()?;
        let all_valued = (1..=self.measures).all(|m| self.trail.valued().has(usize::from(m)));
        ensure(all_valued, Cause::NoValue)?;
        let met = self.store.iter().filter(|s| s.rule).all(|s| self.meets(&s.clause));
        ensure(met, Cause::RuleUnmet)?;
        self.theory.admits(self.trail.values())?;
        self.phase = Phase::Closed(Verdict::Possible(self.arrangement()));
        Ok(())
    }

    /// Whether a literal is true in the arrangement that the trail makes.
    fn meets(&self, clause: &[Literal]) -> bool {
        clause.iter().any(|literal| {
            let number = literal.number();
            let true_there = match self.atom(number) {
                Some(atom) => self.holds(atom),
                None => self.affirmed(number),
            };
            true_there == literal.affirms()
        })
    }

    fn affirmed(&self, number: u8) -> bool {
        self.trail.on(number).is_some_and(|s| s.affirmed)
    }

    fn arrangement(&self) -> Arrangement {
        let values = self.trail.values();
        Arrangement {
            denominator: values.denominator,
            switches: (1..=self.switches).map(|number| self.affirmed(number)).collect(),
            numerators: values.numerators[..usize::from(self.measures)].to_vec(),
        }
    }
}
