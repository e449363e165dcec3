//! Calls that a search has no need of: some are taken, and some are not.

use super::problems::any_atom;
use super::rows::{body_of, Shown};
use super::run::{signed, Run};
use crate::literals::{Clause, Literal};
use crate::session::{Phase, NUMERATOR};
use crate::writing::*;

impl<T: Shown> Run<T> {
    /// Tries a call that is not asked for, and keeps it if it is taken.
    pub fn stray(&mut self) -> bool {
        match self.random.below(12) {
            0 => self.combine_any(),
            1 => match self.any_number() {
                Some(number) => self.split(number),
                None => false,
            },
            2 => match self.any_alike() {
                Some((one, other)) => self.agree(one, other),
                None => false,
            },
            _ => {
                let record = self.any_call();
                // These end a log too early.
                let ends = matches!(record.kind, 19..=21);
                !ends && self.take(record)
            }
        }
    }

    /// Adds a call that may be refused.
    pub fn slip(&mut self) {
        let record = self.any_call();
        if self.size + record.size() <= self.limit {
            self.risk(record);
        }
    }

    /// A call with arguments that may suit the state. Most are of those that serve in this phase.
    fn any_call(&mut self) -> Written {
        let open = match self.session.phase() {
            Phase::Analysing(open) if !self.random.once_in(8) => Some(*open),
            _ => None,
        };
        match open {
            Some(open) => self.any_analysis(&open),
            None => self.any_search(),
        }
    }

    fn any_analysis(&mut self, open: &Clause) -> Written {
        let literal = self.random.pick(open).map_or(1, signed);
        let any = self.any_literal().map_or(1, signed);
        match self.random.below(8) {
            0 | 1 => resolve(literal.unsigned_abs()),
            2 | 3 => jump(literal),
            4 => jump(any),
            5 => resolve(any.unsigned_abs()),
            6 => concede(),
            _ => abandon(),
        }
    }

    fn any_search(&mut self) -> Written {
        let literal = self.any_literal().map_or(0, signed);
        let clause = self.random.below(self.session.store().len() + 2) as u8;
        match self.random.below(16) {
            0 | 1 => choose(literal),
            2 | 3 => set(self.any_measure(), self.any_numerator()),
            4 | 5 => propagate(clause, self.literal_of(clause)),
            6 => propagate(clause, literal),
            7 | 8 => read(literal.unsigned_abs()),
            9 => conflict(clause),
            10 => claim(),
            11 => self.any_lemma(),
            12 => {
                let measures = self.session.measures();
                admit(body_of(&any_atom(&mut self.random, measures.max(1), 3)))
            }
            13 => seal(1),
            14 => jump(literal),
            _ => abandon(),
        }
    }

    fn any_measure(&mut self) -> u8 {
        1 + self.random.below(usize::from(self.session.measures()) + 1) as u8
    }

    fn any_numerator(&mut self) -> i32 {
        let denominator = i64::from(self.session.values().denominator);
        match self.random.below(20) {
            0 => NUMERATOR,
            1 => -NUMERATOR,
            2 => self.random.word() as i32,
            _ => (self.random.within(-6, 6) * denominator) as i32,
        }
    }

    /// A literal of a stored clause.
    fn literal_of(&mut self, clause: u8) -> i8 {
        let stored = usize::from(clause).checked_sub(1).and_then(|i| self.session.store().get(i));
        let literals: Vec<Literal> = stored.map(|s| s.clause.to_vec()).unwrap_or_default();
        self.random.pick(&literals).map_or(1, signed)
    }

    /// A lemma that is seldom vouched for.
    fn any_lemma(&mut self) -> Written {
        let clause = self.any_clause((1, 3));
        let hint = match self.random.below(4) {
            0 => vec![2],
            1 => vec![3, self.random.below(4) as u8, self.random.below(4) as u8],
            2 => vec![self.random.byte()],
            _ => multipliers(&vec![1; clause.len()]),
        };
        lemma(&clause, &hint)
    }
}
