//! What a session asks of a theory. The theories that there are stand in the modules below.

pub mod congruence;
pub mod linear;
pub mod switches;

pub use congruence::Congruence;
pub use linear::Linear;
pub use switches::Switches;

use crate::faults::Fault;
use crate::literals::{Clause, Literal};

/// How many measures there can be.
pub const MEASURES: usize = 16;
/// How many atoms one theory can hold.
pub const ATOMS: usize = 127;

/// A set of measures, as bits: measure m is bit m - 1.
#[derive(Clone, Copy, Debug, Default, PartialEq, Eq)]
pub struct Measures(u16);

impl Measures {
    pub fn add(&mut self, measure: usize) {
        self.0 |= 1 << (measure - 1);
    }

    pub fn has(self, measure: usize) -> bool {
        (1..=MEASURES).contains(&measure) && self.0 & (1 << (measure - 1)) != 0
    }

    pub fn within(self, other: Measures) -> bool {
        self.0 & !other.0 == 0
    }
}

/// A fraction for each measure, over one denominator. Measure m is at index m - 1; those beyond the
/// count of measures, and those without a value, are 0.
#[derive(Clone, Copy, Debug)]
pub struct Values {
    pub numerators: [i32; MEASURES],
    pub denominator: u32,
}

/// A clause together with the count of switches, which says which of its numbers are atoms.
#[derive(Clone, Copy)]
pub struct Lemma<'a> {
    pub switches: u8,
    pub clause: &'a Clause,
}

impl<'a> Lemma<'a> {
    /// The theory's own number of the atom that a literal is on; `None` for a switch.
    pub fn atom_of(&self, literal: Literal) -> Option<usize> {
        literal.number().checked_sub(self.switches).filter(|n| *n > 0).map(usize::from)
    }

    /// The atoms that the clause affirms, or those that it denies.
    pub fn atoms(self, affirmed: bool) -> impl Iterator<Item = usize> + 'a {
        self.clause
            .iter()
            .filter(move |l| l.affirms() == affirmed)
            .filter_map(move |l| self.atom_of(*l))
    }
}

/// Theories number their atoms from 1, and measures too. A refusal changes nothing.
pub trait Theory: Default {
    /// Takes the count of measures.
    fn counts(&mut self, measures: u8) -> Result<(), Fault>;

    /// Takes a declaration, which may narrow what is admitted.
    fn declare(&mut self, body: &[u8]) -> Result<(), Fault>;

    /// Takes one more atom.
    fn admit(&mut self, body: &[u8]) -> Result<(), Fault>;

    /// The measures that an atom mentions.
    fn mentions(&self, atom: usize) -> Measures;

    /// Whether the values make an atom true.
    fn holds(&self, atom: usize, values: &Values) -> bool;

    /// Whether the values are admitted. A no is cause 34 with the layer that said it.
    fn admits(&self, values: &Values) -> Result<(), Fault>;

    /// Whether an atom says that two measures are equal.
    fn equates(&self, atom: usize, one: usize, other: usize) -> bool;

    /// Whether the clause is true wherever the theory admits. A no is cause 31 with its layer.
    fn vouches(&self, lemma: Lemma<'_>, hint: &[u8]) -> Result<(), Fault>;
}
