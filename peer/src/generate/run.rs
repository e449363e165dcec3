//! A case and a log in the making, taken record by record to a session.

use super::random::Random;
use super::rows::Shown;
use crate::faults::Fault;
use crate::files::{File, Record};
use crate::literals::Literal;
use crate::session::{Phase, Session};
use crate::writing::{self, Written};

/// The session that took all records so far, the records, and what the log may come to.
pub struct Run<T> {
    pub session: Session<T>,
    pub random: Random,
    pub case: Vec<Written>,
    pub log: Vec<Written>,
    /// How many bytes the log has.
    pub size: usize,
    /// How many it may have.
    pub limit: usize,
    /// The numbers on the trail in the order in which they were entered, and some that have left it.
    pub order: Vec<u8>,
    /// So many of the first switches are left alone by the search.
    pub spare: u8,
    /// So many of a hundred literals of rules deny, and of choices affirm: above 50 the search runs into
    /// conflicts.
    pub bias: usize,
    /// Whether calls that are refused are kept at times, which ends the log.
    pub daring: bool,
    /// Whether the last record was refused.
    pub refused: bool,
}

impl<T: Shown> Run<T> {
    pub fn new(random: Random) -> Run<T> {
        Run {
            session: Session::default(),
            random,
            case: Vec::new(),
            log: Vec::new(),
            size: 1,
            limit: File::Log.limit(),
            order: Vec::new(),
            spare: 0,
            bias: 50,
            daring: false,
            refused: false,
        }
    }

    pub fn files(&self) -> (Vec<u8>, Vec<u8>) {
        (writing::file(&self.case), writing::file(&self.log))
    }

    fn call(&mut self, file: File, record: Record<'_>) -> Result<(), Fault> {
        self.session.call(record.call(file)?)
    }

    /// Adds a record to the case, if the session takes it.
    pub fn state(&mut self, record: Written) -> bool {
        let taken = self.call(File::Case, record.record()).is_ok();
        if taken {
            self.case.push(record);
        }
        taken
    }

    /// Adds a record to the log, if there is room and the session takes it.
    pub fn take(&mut self, record: Written) -> bool {
        let fits = self.size + record.size() <= self.limit;
        let taken = fits && self.call(File::Log, record.record()).is_ok();
        if taken {
            self.add(record);
        }
        taken
    }

    /// As `take`; but a record that is refused may be kept, and that counts as a step as well.
    pub fn dare(&mut self, record: Written) -> bool {
        if self.take(record.clone()) {
            return true;
        }
        let kept = self.daring && self.random.coin();
        if kept && self.size + record.size() <= self.limit {
            self.risk(record);
        }
        self.refused
    }

    /// Adds a record to the log, whether or not it is taken.
    pub fn risk(&mut self, record: Written) {
        self.refused = self.call(File::Log, record.record()).is_err();
        self.add(record);
    }

    fn add(&mut self, record: Written) {
        self.note_order(&record);
        self.size += record.size();
        self.log.push(record);
    }

    /// Keeps the order of the trail: a number that is entered comes last.
    fn note_order(&mut self, record: &Written) {
        let literal = match (record.kind, record.body.as_slice()) {
            (12 | 18, [literal]) | (14, [_, literal]) => *literal as i8,
            (15, [number]) => *number as i8,
            _ => return,
        };
        let number = literal.unsigned_abs();
        self.order.retain(|n| *n != number);
        self.order.push(number);
    }

    /// When a number was entered.
    pub fn entered(&self, number: u8) -> usize {
        self.order.iter().position(|n| *n == number).unwrap_or(0)
    }

    pub fn over(&self) -> bool {
        self.refused || matches!(self.session.phase(), Phase::Closed(_))
    }

    /// A number in use that the search may touch.
    pub fn any_number(&mut self) -> Option<u8> {
        let (first, last) = (self.spare + 1, self.session.numbers());
        (first <= last).then(|| first + self.random.below(usize::from(last - self.spare)) as u8)
    }

    pub fn any_literal(&mut self) -> Option<Literal> {
        let number = self.any_number()?;
        Some(Literal::new(number, self.random.below(100) >= self.bias))
    }

    /// The theory's own number of an atom.
    pub fn atom_of(&self, number: u8) -> Option<usize> {
        number.checked_sub(self.session.switches()).filter(|n| *n > 0).map(usize::from)
    }

    /// Whether all measures of an atom have values.
    pub fn readable(&self, number: u8) -> bool {
        let mentioned = |atom| self.session.theory().mentions(atom);
        self.atom_of(number)
            .is_some_and(|atom| mentioned(atom).within(self.session.trail().valued()))
    }
}

/// A literal as a file has it.
pub fn signed(literal: Literal) -> i8 {
    literal.byte() as i8
}
