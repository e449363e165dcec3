//! Linear arithmetic: an atom compares a sum of coefficient times measure with a constant.

use super::{Lemma, Measures, Theory, Values, ATOMS, MEASURES};
use crate::faults::{ensure, Cause, Fault};
use crate::literals::Literal;

/// Coefficients, constants and multipliers lie within this, both ways.
pub const COEFFICIENT: i32 = 100_000_000;

#[derive(Clone, Copy, Debug, PartialEq, Eq)]
pub enum Relation {
    Less,
    AtMost,
    Equal,
}

/// The row compared with the constant. A measure that is not mentioned has the coefficient 0.
#[derive(Clone, Copy, Debug, PartialEq, Eq)]
pub struct Atom {
    pub relation: Relation,
    pub row: [i32; MEASURES],
    pub constant: i32,
}

impl Relation {
    fn of_byte(byte: u8) -> Result<Relation, Cause> {
        match byte {
            1 => Ok(Relation::Less),
            2 => Ok(Relation::AtMost),
            3 => Ok(Relation::Equal),
            _ => Err(Cause::OutOfRange),
        }
    }
}

fn in_range(number: i32) -> bool {
    (-COEFFICIENT..=COEFFICIENT).contains(&number)
}

/// The signed word that four bytes write.
fn signed_word(bytes: &[u8]) -> i32 {
    bytes.iter().fold(0u32, |word, byte| word << 8 | u32::from(*byte)) as i32
}

impl Atom {
    /// Reads the body of *admit*: its relation, its length, and then each number in it.
    pub fn of_bytes(body: &[u8], measures: usize) -> Result<Atom, Cause> {
        let relation = Relation::of_byte(body[0])?;
        let pairs = usize::from(*body.get(1).ok_or(Cause::WrongLength)?);
        ensure(body.len() == 6 + 5 * pairs, Cause::WrongLength)?;
        let (pairs, constant) = body[2..].split_at(5 * pairs);
        let mut atom = Atom { relation, row: [0; MEASURES], constant: signed_word(constant) };
        let mut last = 0;
        for pair in pairs.chunks_exact(5) {
            let (measure, coefficient) = (usize::from(pair[0]), signed_word(&pair[1..]));
            ensure(measure > last && measure <= measures, Cause::OutOfRange)?;
            ensure(coefficient != 0 && in_range(coefficient), Cause::OutOfRange)?;
            atom.row[measure - 1] = coefficient;
            last = measure;
        }
        ensure(in_range(atom.constant), Cause::OutOfRange)?;
        Ok(atom)
    }

    fn mentions(&self) -> Measures {
        let mut mentioned = Measures::default();
        for (index, _) in self.row.iter().enumerate().filter(|(_, c)| **c != 0) {
            mentioned.add(index + 1);
        }
        mentioned
    }

    fn holds(&self, values: &Values) -> bool {
        let terms = self.row.iter().zip(&values.numerators);
        let sum: i64 = terms.map(|(c, n)| i64::from(*c) * i64::from(*n)).sum();
        let bound = i64::from(self.constant) * i64::from(values.denominator);
        match self.relation {
            Relation::Less => sum < bound,
            Relation::AtMost => sum <= bound,
            Relation::Equal => sum == bound,
        }
    }

    /// The row and the constant with all signs turned.
    fn turned(&self, relation: Relation) -> Atom {
        Atom { relation, row: self.row.map(|c| -c), constant: -self.constant }
    }

    /// The denial of an atom, where it is one row compared with one constant.
    fn denied(&self) -> Option<Atom> {
        match self.relation {
            Relation::Less => Some(self.turned(Relation::AtMost)),
            Relation::AtMost => Some(self.turned(Relation::Less)),
            Relation::Equal => None,
        }
    }
}

#[derive(Clone, Debug, Default)]
pub struct Linear {
    measures: Option<usize>,
    atoms: Vec<(Atom, Measures)>,
}

impl Linear {
    pub fn atom(&self, number: usize) -> Option<&Atom> {
        self.atoms.get(number.checked_sub(1)?).map(|(atom, _)| atom)
    }

    /// What a literal's denial says, as a row compared with a constant: `None` for a switch and for an
    /// affirmed equality.
    fn denial(&self, lemma: Lemma<'_>, literal: Literal) -> Option<Atom> {
        let atom = self.atom(lemma.atom_of(literal)?)?;
        if literal.affirms() {
            atom.denied()
        } else {
            Some(*atom)
        }
    }

    /// Hint kind 1: the denials of the literals, each times its multiplier, add up to a contradiction.
    fn adds_up(&self, lemma: Lemma<'_>, multipliers: &[u8]) -> Result<(), Cause> {
        ensure(multipliers.len() == 4 * lemma.clause.len(), Cause::WrongLength)?;
        let multipliers = multipliers.chunks_exact(4).map(signed_word);
        ensure(multipliers.clone().all(in_range), Cause::OutOfRange)?;
        let mut sum = Sum::default();
        for (literal, multiplier) in lemma.clause.iter().zip(multipliers) {
            match self.denial(lemma, *literal) {
                Some(denial) => ensure(sum.add(multiplier, &denial), Cause::NotVouched)?,
                None => ensure(multiplier == 0, Cause::NotVouched)?,
            }
        }
        ensure(sum.contradicts(), Cause::NotVouched)
    }

    /// Hint kind 2: an equality is affirmed, and both strict orders of the same row beside it.
    fn splits(&self, lemma: Lemma<'_>) -> bool {
        let affirmed = || lemma.atoms(true).filter_map(|n| self.atom(n));
        affirmed().filter(|atom| atom.relation == Relation::Equal).any(|equality| {
            let below = Atom { relation: Relation::Less, ..*equality };
            let above = equality.turned(Relation::Less);
            affirmed().any(|a| *a == below) && affirmed().any(|a| *a == above)
        })
    }
}

/// A sum of rows, each times a multiplier.
#[derive(Default)]
struct Sum {
    row: [i64; MEASURES],
    constant: i64,
    strict: bool,
}

impl Sum {
    /// Adds a row, and says whether its relation allows the multiplier.
    fn add(&mut self, multiplier: i32, atom: &Atom) -> bool {
        for (total, coefficient) in self.row.iter_mut().zip(&atom.row) {
            *total += i64::from(multiplier) * i64::from(*coefficient);
        }
        self.constant += i64::from(multiplier) * i64::from(atom.constant);
        self.strict |= atom.relation == Relation::Less && multiplier > 0;
        multiplier >= 0 || atom.relation == Relation::Equal
    }

    /// Whether the sum says 0 < 0, or that 0 is at most a number below it.
    fn contradicts(&self) -> bool {
        self.row == [0; MEASURES] && (self.constant < 0 || self.constant == 0 && self.strict)
    }
}

impl Theory for Linear {
    fn counts(&mut self, measures: u8) -> Result<(), Fault> {
        if self.measures.is_some() {
            return Err(Fault::of_theory(Cause::WrongPhase));
        }
        let measures = usize::from(measures);
        ensure(measures <= MEASURES, Cause::OutOfRange).map_err(Fault::of_theory)?;
        self.measures = Some(measures);
        Ok(())
    }

    fn declare(&mut self, body: &[u8]) -> Result<(), Fault> {
        let cause = if body.is_empty() { Cause::WrongLength } else { Cause::OutOfRange };
        Err(Fault::of_theory(cause))
    }

    fn admit(&mut self, body: &[u8]) -> Result<(), Fault> {
        ensure(!body.is_empty(), Cause::WrongLength)
            .and_then(|()| ensure(self.atoms.len() < ATOMS, Cause::Full))
            .and_then(|()| Atom::of_bytes(body, self.measures.unwrap_or(0)))
            .map(|atom| self.atoms.push((atom, atom.mentions())))
            .map_err(Fault::of_theory)
    }

    fn mentions(&self, atom: usize) -> Measures {
        let entry = atom.checked_sub(1).and_then(|index| self.atoms.get(index));
        entry.map(|(_, mentioned)| *mentioned).unwrap_or_default()
    }

    fn holds(&self, atom: usize, values: &Values) -> bool {
        self.atom(atom).is_some_and(|a| a.holds(values))
    }

    fn admits(&self, _values: &Values) -> Result<(), Fault> {
        Ok(())
    }

    fn equates(&self, atom: usize, one: usize, other: usize) -> bool {
        let Some(atom) = self.atom(atom) else {
            return false;
        };
        let there = 1..=self.measures.unwrap_or(0);
        if one == other || !there.contains(&one) || !there.contains(&other) {
            return false;
        }
        let coefficient = atom.row[one - 1];
        let mut wanted = [0; MEASURES];
        wanted[one - 1] = coefficient;
        wanted[other - 1] = -coefficient;
        atom.relation == Relation::Equal
            && atom.constant == 0
            && coefficient != 0
            && atom.row == wanted
    }

    fn vouches(&self, lemma: Lemma<'_>, hint: &[u8]) -> Result<(), Fault> {
        match hint {
            [] => Err(Cause::WrongLength),
            [1, multipliers @ ..] => self.adds_up(lemma, multipliers),
            [2] => ensure(self.splits(lemma), Cause::NotVouched),
            [2, ..] => Err(Cause::WrongLength),
            _ => Err(Cause::OutOfRange),
        }
        .map_err(Fault::of_theory)
    }
}
