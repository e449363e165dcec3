//! Literals and clauses.

use crate::faults::{ensure, Cause};
use std::ops::Deref;

/// How many literals a clause can have.
pub const CLAUSE_LITERALS: usize = 16;

/// The literal n affirms the number n, and -n denies it. It is neither 0 nor -128.
#[derive(Clone, Copy, Debug, PartialEq, Eq)]
pub struct Literal(i8);

impl Literal {
    /// The literal that a byte of a file stands for.
    pub fn of_byte(byte: u8) -> Result<Literal, Cause> {
        match byte as i8 {
            0 | i8::MIN => Err(Cause::BadLiteral),
            signed => Ok(Literal(signed)),
        }
    }

    pub fn new(number: u8, affirms: bool) -> Literal {
        debug_assert!((1..=127).contains(&number));
        let signed = number as i8;
        Literal(if affirms { signed } else { -signed })
    }

    pub fn number(self) -> u8 {
        self.0.unsigned_abs()
    }

    pub fn affirms(self) -> bool {
        self.0 > 0
    }

    pub fn denial(self) -> Literal {
        Literal(-self.0)
    }

    pub fn byte(self) -> u8 {
        self.0 as u8
    }
}

/// At most 16 literals on different numbers. It may be empty.
#[derive(Clone, Copy, Debug)]
pub struct Clause {
    literals: [Literal; CLAUSE_LITERALS],
    length: usize,
}

impl Clause {
    pub const EMPTY: Clause = Clause { literals: [Literal(1); CLAUSE_LITERALS], length: 0 };

    /// Reads a clause: each literal is tested before their count and numbers are.
    pub fn of_bytes(bytes: &[u8]) -> Result<Clause, Cause> {
        for byte in bytes {
            Literal::of_byte(*byte)?;
        }
        let mut clause = Clause::EMPTY;
        for byte in bytes {
            let literal = Literal::of_byte(*byte)?;
            ensure(!clause.names(literal.number()), Cause::BadClause)?;
            ensure(clause.push(literal), Cause::BadClause)?;
        }
        Ok(clause)
    }

    /// Whether a literal of the clause is on this number.
    pub fn names(&self, number: u8) -> bool {
        self.iter().any(|l| l.number() == number)
    }

    /// Adds a literal at the end, and says whether there was room.
    fn push(&mut self, literal: Literal) -> bool {
        let room = self.length < CLAUSE_LITERALS;
        if room {
            self.literals[self.length] = literal;
            self.length += 1;
        }
        room
    }

    /// The clause without `literal`, followed by the literals of `reason` that are not there yet and
    /// are not the denial of `literal`. `None` where these are more than 16.
    pub fn resolvent(&self, literal: Literal, reason: &Clause) -> Option<Clause> {
        let mut result = Clause::EMPTY;
        for kept in self.iter().filter(|l| **l != literal) {
            result.push(*kept);
        }
        for other in reason.iter().filter(|l| **l != literal.denial()) {
            if !result.contains(other) && !result.push(*other) {
                return None;
            }
        }
        Some(result)
    }
}

impl Deref for Clause {
    type Target = [Literal];

    fn deref(&self) -> &[Literal] {
        &self.literals[..self.length]
    }
}
