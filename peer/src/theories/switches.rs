//! The theory of switches only: no measures, and no atoms.

use super::{Lemma, Measures, Theory, Values};
use crate::faults::{Cause, Fault};

#[derive(Clone, Debug, Default)]
pub struct Switches {
    counted: bool,
}

/// No kind of body or hint is known here: an empty one is too short, any other out of range.
fn unknown(body: &[u8]) -> Result<(), Fault> {
    let cause = if body.is_empty() { Cause::WrongLength } else { Cause::OutOfRange };
    Err(Fault::of_theory(cause))
}

impl Theory for Switches {
    fn counts(&mut self, measures: u8) -> Result<(), Fault> {
        if self.counted {
            return Err(Fault::of_theory(Cause::WrongPhase));
        }
        if measures > 0 {
            return Err(Fault::of_theory(Cause::OutOfRange));
        }
        self.counted = true;
        Ok(())
    }

    fn declare(&mut self, body: &[u8]) -> Result<(), Fault> {
        unknown(body)
    }

    fn admit(&mut self, body: &[u8]) -> Result<(), Fault> {
        unknown(body)
    }

    fn mentions(&self, _atom: usize) -> Measures {
        Measures::default()
    }

    fn holds(&self, _atom: usize, _values: &Values) -> bool {
        false
    }

    fn admits(&self, _values: &Values) -> Result<(), Fault> {
        Ok(())
    }

    fn equates(&self, _atom: usize, _one: usize, _other: usize) -> bool {
        false
    }

    fn vouches(&self, _lemma: Lemma<'_>, hint: &[u8]) -> Result<(), Fault> {
        unknown(hint)
    }
}
