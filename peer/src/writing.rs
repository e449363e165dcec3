//! Writes files, record by record: what [`crate::files`] reads.

use crate::files::{Record, VERSION};

/// A record of a file to be.
#[derive(Clone, Debug, PartialEq, Eq)]
pub struct Written {
    pub kind: u8,
    pub body: Vec<u8>,
}

impl Written {
    pub fn new(kind: u8, body: impl Into<Vec<u8>>) -> Written {
        Written { kind, body: body.into() }
    }

    /// How many bytes it takes in a file.
    pub fn size(&self) -> usize {
        3 + self.body.len()
    }

    pub fn record(&self) -> Record<'_> {
        Record { kind: self.kind, body: &self.body }
    }
}

/// The version, and the records one behind another.
pub fn file(records: &[Written]) -> Vec<u8> {
    let mut bytes = Vec::with_capacity(1 + records.iter().map(Written::size).sum::<usize>());
    bytes.push(VERSION);
    for record in records {
        bytes.extend((record.body.len() as u16 + 1).to_be_bytes());
        bytes.push(record.kind);
        bytes.extend(&record.body);
    }
    bytes
}

/// Literals as numbers with a sign, written one in a byte.
pub fn literals(signed: &[i8]) -> Vec<u8> {
    signed.iter().map(|l| *l as u8).collect()
}

/// The relations of a linear atom.
pub const LESS: u8 = 1;
pub const AT_MOST: u8 = 2;
pub const EQUAL: u8 = 3;

/// A linear atom: the body of *admit*.
pub fn atom(relation: u8, row: &[(u8, i32)], constant: i32) -> Vec<u8> {
    let mut body = vec![relation, row.len() as u8];
    for (measure, coefficient) in row {
        body.push(*measure);
        body.extend(coefficient.to_be_bytes());
    }
    body.extend(constant.to_be_bytes());
    body
}

/// An application: the body of *declare*.
pub fn application(function: u8, arguments: &[u8], result: u8) -> Vec<u8> {
    let mut body = vec![3, function, arguments.len() as u8];
    body.extend(arguments);
    body.push(result);
    body
}

/// The hint of kind 1.
pub fn multipliers(numbers: &[i32]) -> Vec<u8> {
    let mut hint = vec![1];
    hint.extend(numbers.iter().flat_map(|n| n.to_be_bytes()));
    hint
}

pub fn counts(switches: u8, measures: u8) -> Written {
    Written::new(1, [switches, measures])
}

pub fn declare(body: Vec<u8>) -> Written {
    Written::new(2, body)
}

pub fn admit(body: Vec<u8>) -> Written {
    Written::new(3, body)
}

pub fn rule(signed: &[i8]) -> Written {
    Written::new(4, literals(signed))
}

pub fn seal(denominator: u32) -> Written {
    Written::new(10, denominator.to_be_bytes())
}

pub fn lemma(signed: &[i8], hint: &[u8]) -> Written {
    let mut body = vec![signed.len() as u8];
    body.extend(literals(signed));
    body.extend(hint);
    Written::new(11, body)
}

pub fn choose(literal: i8) -> Written {
    Written::new(12, [literal as u8])
}

pub fn set(measure: u8, numerator: i32) -> Written {
    let mut body = vec![measure];
    body.extend(numerator.to_be_bytes());
    Written::new(13, body)
}

pub fn propagate(clause: u8, literal: i8) -> Written {
    Written::new(14, [clause, literal as u8])
}

pub fn read(number: u8) -> Written {
    Written::new(15, [number])
}

pub fn conflict(clause: u8) -> Written {
    Written::new(16, [clause])
}

pub fn resolve(number: u8) -> Written {
    Written::new(17, [number])
}

pub fn jump(literal: i8) -> Written {
    Written::new(18, [literal as u8])
}

pub fn concede() -> Written {
    Written::new(19, [])
}

pub fn claim() -> Written {
    Written::new(20, [])
}

pub fn abandon() -> Written {
    Written::new(21, [])
}
