//! What a generator sees of a theory, and the literals of a trail as rows that are bounded from above.

use crate::literals::Literal;
use crate::session::Session;
use crate::theories::congruence::Application;
use crate::theories::linear::{Atom, Relation, COEFFICIENT};
use crate::theories::{Congruence, Linear, Measures, Switches, Theory, MEASURES};
use crate::writing;

/// A theory whose atoms and applications can be looked at.
pub trait Shown: Theory {
    /// The number by which a check is asked for this theory.
    const NUMBER: u8;

    fn row(&self, atom: usize) -> Option<&Atom>;

    fn applied(&self) -> &[Application];
}

impl Shown for Switches {
    const NUMBER: u8 = 1;

    fn row(&self, _atom: usize) -> Option<&Atom> {
        None
    }

    fn applied(&self) -> &[Application] {
        &[]
    }
}

impl Shown for Congruence<Linear> {
    const NUMBER: u8 = 2;

    fn row(&self, atom: usize) -> Option<&Atom> {
        self.below().atom(atom)
    }

    fn applied(&self) -> &[Application] {
        self.applications()
    }
}

/// Row < constant, or row <= constant.
#[derive(Clone, Copy, Debug, Default, PartialEq, Eq)]
pub struct Bounded {
    pub row: [i64; MEASURES],
    pub constant: i64,
    pub strict: bool,
}

/// What a literal says, as a bounded row. An equality that is affirmed says two, and the second, with
/// all signs turned, is used with the sign -1.
#[derive(Clone, Copy, Debug)]
pub struct Bound {
    pub literal: Literal,
    pub sign: i64,
    pub says: Bounded,
}

impl Bounded {
    pub fn of_atom(atom: &Atom) -> Bounded {
        Bounded {
            row: atom.row.map(i64::from),
            constant: i64::from(atom.constant),
            strict: atom.relation == Relation::Less,
        }
    }

    /// The row and the constant with all signs turned.
    pub fn turned(&self, strict: bool) -> Bounded {
        Bounded { row: self.row.map(|c| -c), constant: -self.constant, strict }
    }

    /// The sum of both, each times a factor; `None` where it grows too large.
    pub fn plus(&self, factor: i64, other: &Bounded, times: i64) -> Option<Bounded> {
        let sum = |a: i64, b: i64| a.checked_mul(factor)?.checked_add(b.checked_mul(times)?);
        let mut result = Bounded {
            constant: sum(self.constant, other.constant)?,
            strict: self.strict || other.strict,
            ..Bounded::default()
        };
        for (index, place) in result.row.iter_mut().enumerate() {
            *place = sum(self.row[index], other.row[index])?;
        }
        Some(result)
    }

    pub fn is_bare(&self) -> bool {
        self.row == [0; MEASURES]
    }

    /// Whether it has no measures and is false.
    pub fn is_absurd(&self) -> bool {
        self.is_bare() && (self.constant < 0 || self.constant == 0 && self.strict)
    }

    /// The greatest number that divides the row and the constant.
    pub fn divisor(&self) -> i64 {
        self.row.iter().fold(gcd(self.constant, 0), |g, c| gcd(g, *c)).max(1)
    }

    /// The row and the constant divided by this number.
    pub fn over(&self, divisor: i64) -> Bounded {
        Bounded {
            row: self.row.map(|c| c / divisor),
            constant: self.constant / divisor,
            strict: self.strict,
        }
    }

    /// The atom that says so, if its numbers are in their range.
    pub fn atom(&self) -> Option<Atom> {
        let small = |number: i64| {
            i32::try_from(number).ok().filter(|n| (-COEFFICIENT..=COEFFICIENT).contains(n))
        };
        let relation = if self.strict { Relation::Less } else { Relation::AtMost };
        let mut atom = Atom { relation, row: [0; MEASURES], constant: small(self.constant)? };
        for (place, coefficient) in atom.row.iter_mut().zip(&self.row) {
            *place = small(*coefficient)?;
        }
        Some(atom)
    }

    pub fn mentions(&self) -> Measures {
        let mut measures = Measures::default();
        for (index, _) in self.row.iter().enumerate().filter(|(_, c)| **c != 0) {
            measures.add(index + 1);
        }
        measures
    }
}

/// The body of *admit* for an atom.
pub fn body_of(atom: &Atom) -> Vec<u8> {
    let relation = match atom.relation {
        Relation::Less => writing::LESS,
        Relation::AtMost => writing::AT_MOST,
        Relation::Equal => writing::EQUAL,
    };
    let row: Vec<(u8, i32)> = (1..).zip(atom.row).filter(|(_, c)| *c != 0).collect();
    writing::atom(relation, &row, atom.constant)
}

pub fn gcd(a: i64, b: i64) -> i64 {
    let (mut a, mut b) = (a.unsigned_abs(), b.unsigned_abs());
    while b != 0 {
        (a, b) = (b, a % b);
    }
    a as i64
}

/// What a literal on this atom says, as one bounded row or two; nothing for a denied equality.
pub fn bounds_of(literal: Literal, atom: &Atom) -> impl Iterator<Item = Bound> {
    let says = Bounded::of_atom(atom);
    let bound = |sign, says| Some(Bound { literal, sign, says });
    let pair = match (atom.relation, literal.affirms()) {
        (Relation::Equal, true) => [bound(1, says), bound(-1, says.turned(false))],
        (Relation::Equal, false) => [None, None],
        (_, true) => [bound(1, says), None],
        (relation, false) => [bound(1, says.turned(relation == Relation::AtMost)), None],
    };
    pair.into_iter().flatten()
}

/// What all literals of the trail say.
pub fn bounds_of_trail<T: Shown>(session: &Session<T>) -> Vec<Bound> {
    let mut bounds = Vec::new();
    for number in session.switches() + 1..=session.numbers() {
        let atom = session.theory().row(usize::from(number - session.switches()));
        if let (Some(standing), Some(atom)) = (session.trail().on(number), atom) {
            bounds.extend(bounds_of(Literal::new(number, standing.affirmed), atom));
        }
    }
    bounds
}
