//! A second checker of MCSat logs, written from the documents alone, to compare the proved one with.
//!
//! [`check`] takes a case and its log to a session and reports what it comes to.

#![deny(unsafe_code)]

pub mod faults;
pub mod files;
pub mod generate;
pub mod literals;
#[cfg(feature = "proved")]
pub mod proved;
pub mod report;
pub mod session;
pub mod theories;
pub mod writing;

use faults::{Cause, Fault};
use files::{File, Reader};
use report::{Outcome, Refusal, SHORTEST_BUFFER};
use session::Session;
use theories::{Congruence, Linear, Switches, Theory};

/// Checks a log against its case, writes the report to the start of the buffer and returns its length.
/// The rest of the buffer stays as it is. A buffer that is too short is left alone, and the length is 0.
pub fn check(theory: u8, case: &[u8], log: &[u8], report: &mut [u8]) -> usize {
    if report.len() < SHORTEST_BUFFER {
        return 0;
    }
    outcome(theory, case, log).write(report)
}

/// What a check comes to, without its report.
pub fn outcome(theory: u8, case: &[u8], log: &[u8]) -> Outcome {
    let closed = match theory {
        1 => replay::<Switches>(case, log),
        2 => replay::<Congruence<Linear>>(case, log),
        _ => Err(Refusal::of_frame(Cause::OutOfRange)),
    };
    closed.unwrap_or_else(Outcome::Refused)
}

fn replay<T: Theory>(case: &[u8], log: &[u8]) -> Result<Outcome, Refusal> {
    let mut session = Session::<T>::default();
    replay_file(&mut session, File::Case, case)?;
    replay_file(&mut session, File::Log, log)?;
    Ok(Outcome::of_verdict(session.verdict()))
}

/// Takes the records of a file to a session, up to the end or the first refusal.
fn replay_file<T: Theory>(
    session: &mut Session<T>,
    file: File,
    bytes: &[u8],
) -> Result<(), Refusal> {
    let refuse = |fault, place| Refusal { fault, file: Some(file), place };
    let mut reader =
        Reader::open(file, bytes).map_err(|cause| refuse(cause.into(), Default::default()))?;
    while let Some(record) = reader.next() {
        record
            .and_then(|record| record.call(file))
            .map_err(Fault::from)
            .and_then(|call| session.call(call))
            .map_err(|fault| refuse(fault, reader.place()))?;
    }
    Ok(())
}
