//! The report: what the check came to, as text.

use crate::faults::{Cause, Fault};
use crate::files::{File, Place};
use crate::session::{Arrangement, Verdict};
use std::fmt;

/// A report buffer has at least this many bytes, which hold every report.
pub const SHORTEST_BUFFER: usize = 2_048;

/// A refusal, with the place in the input that it is about.
#[derive(Clone, Copy, Debug, PartialEq, Eq)]
pub struct Refusal {
    pub fault: Fault,
    /// `None` for the frame.
    pub file: Option<File>,
    pub place: Place,
}

impl Refusal {
    /// A refusal of the frame, where no record is named.
    pub fn of_frame(cause: Cause) -> Refusal {
        Refusal { fault: cause.into(), file: None, place: Place::default() }
    }
}

/// What a check comes to.
#[derive(Clone, Debug, PartialEq, Eq)]
pub enum Outcome {
    Impossible,
    Possible(Arrangement),
    None,
    Refused(Refusal),
}

impl Outcome {
    /// The outcome for a log that ends with this verdict, or without one.
    pub fn of_verdict(verdict: Option<Verdict>) -> Outcome {
        match verdict {
            Some(Verdict::Impossible) => Outcome::Impossible,
            Some(Verdict::Possible(arrangement)) => Outcome::Possible(arrangement),
            Some(Verdict::Undecided) | None => Outcome::None,
        }
    }

    /// Writes the report to the start of the buffer, and returns its length.
    pub fn write(&self, buffer: &mut [u8]) -> usize {
        let text = self.to_string();
        buffer[..text.len()].copy_from_slice(text.as_bytes());
        text.len()
    }
}

impl fmt::Display for Outcome {
    fn fmt(&self, f: &mut fmt::Formatter<'_>) -> fmt::Result {
        match self {
            Outcome::Impossible => writeln!(f, "impossible"),
            Outcome::None => writeln!(f, "none"),
            Outcome::Possible(arrangement) => arrangement.fmt(f),
            Outcome::Refused(refusal) => refusal.fmt(f),
        }
    }
}

impl fmt::Display for Arrangement {
    fn fmt(&self, f: &mut fmt::Formatter<'_>) -> fmt::Result {
        writeln!(f, "possible {}", self.denominator)?;
        for (index, yes) in self.switches.iter().enumerate() {
            writeln!(f, "s{} {}", index + 1, if *yes { "yes" } else { "no" })?;
        }
        for (index, numerator) in self.numerators.iter().enumerate() {
            writeln!(f, "m{} {}", index + 1, numerator)?;
        }
        Ok(())
    }
}

impl fmt::Display for Refusal {
    fn fmt(&self, f: &mut fmt::Formatter<'_>) -> fmt::Result {
        let Refusal { fault, file, place } = self;
        writeln!(
            f,
            "refused {} file {} record {} byte {} layer {}",
            fault.cause.number(),
            file.map_or(0, File::number),
            place.record,
            place.byte,
            fault.layer,
        )
    }
}
