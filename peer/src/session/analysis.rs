//! The calls that begin, carry on and end the analysis of a conflict.

use super::trail::Origin;
use super::{Phase, Session, Stored, Verdict, CLAUSES};
use crate::faults::{ensure, Cause};
use crate::literals::{Clause, Literal};
use crate::theories::Theory;

/// How a jump goes back.
enum Jump {
    /// To this level, where the literal then follows from the clause.
    Learns(u8),
    /// To this level, above which the literal is then chosen.
    Chooses(u8),
}

impl<T: Theory> Session<T> {
    pub(super) fn conflict(&mut self, clause: u8) -> Result<(), Cause> {
        self.searching()?;
        let clause = *self.stored(clause)?;
        ensure(clause.iter().all(|l| self.is_false(*l)), Cause::NotFalse)?;
        self.phase = Phase::Analysing(clause);
        Ok(())
    }

    pub(super) fn resolve(&mut self, number: u8) -> Result<(), Cause> {
        let open = self.analysing()?;
        ensure(self.in_use(number), Cause::Absent)?;
        let literal = *open.iter().find(|l| l.number() == number).ok_or(Cause::NotResolvable)?;
        let reason = match self.trail.against(literal).map(|s| s.origin) {
            Some(Origin::Propagated(index)) => self.store[index].clause,
            _ => return Err(Cause::NotResolvable),
        };
        let resolvent = open.resolvent(literal, &reason).ok_or(Cause::ResolventTooLong)?;
        self.phase = Phase::Analysing(resolvent);
        Ok(())
    }

    pub(super) fn jump(&mut self, literal: u8) -> Result<(), Cause> {
        let open = self.analysing()?;
        ensure(self.store.len() < CLAUSES, Cause::Full)?;
        let literal = Literal::of_byte(literal)?;
        ensure(self.in_use(literal.number()), Cause::Absent)?;
        ensure(open.contains(&literal), Cause::NotResolvable)?;
        let jump = self.way_back(&open, literal).ok_or(Cause::NotAllowed)?;
        self.store.push(Stored { clause: open, rule: false });
        match jump {
            Jump::Learns(target) => {
                self.trail.back_to(target);
                self.trail.propagate(literal, self.store.len() - 1);
            }
            Jump::Chooses(target) => {
                self.trail.back_to(target);
                self.trail.choose(literal);
            }
        }
        self.phase = Phase::Searching;
        Ok(())
    }

    /// Where a jump on this literal of the open clause goes; `None` where the levels do not allow it.
    fn way_back(&self, open: &Clause, literal: Literal) -> Option<Jump> {
        let level = |l: &Literal| self.trail.false_at(*l).unwrap_or(0);
        let top = open.iter().map(level).max()?;
        if top == 0 || level(&literal) != top {
            return None;
        }
        let others = open.iter().filter(|l| **l != literal).map(level);
        let target = others.max().unwrap_or(0);
        if target < top {
            return Some(Jump::Learns(target));
        }
        let read = |l: &Literal| self.trail.against(*l).is_some_and(|s| s.origin == Origin::Read);
        let all_read = open.iter().filter(|l| level(l) == top).all(read);
        all_read.then_some(Jump::Chooses(top - 1))
    }

    pub(super) fn concede(&mut self) -> Result<(), Cause> {
        let open = self.analysing()?;
        ensure(open.iter().all(|l| self.trail.false_at(*l) == Some(0)), Cause::NotAllowed)?;
        self.phase = Phase::Closed(Verdict::Impossible);
        Ok(())
    }

    pub(super) fn abandon(&mut self) -> Result<(), Cause> {
        self.searching().or(self.analysing().map(|_| ()))?;
        self.phase = Phase::Closed(Verdict::Undecided);
        Ok(())
    }
}
