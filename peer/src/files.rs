//! Case and log: how bytes are cut into records, and what call each record stands for.

use crate::faults::{ensure, Cause};

/// The first byte of a file.
pub const VERSION: u8 = 1;

/// Which of the two files.
#[derive(Clone, Copy, Debug, PartialEq, Eq)]
pub enum File {
    Case,
    Log,
}

impl File {
    /// The number by which a report names it; 0 is the frame.
    pub fn number(self) -> u8 {
        match self {
            File::Case => 1,
            File::Log => 2,
        }
    }

    /// How many bytes it can have.
    pub fn limit(self) -> usize {
        match self {
            File::Case => 20_000,
            File::Log => 40_000,
        }
    }
}

/// A place in a file: records count from 1, and `byte` is that of the record's first length byte.
#[derive(Clone, Copy, Debug, Default, PartialEq, Eq)]
pub struct Place {
    pub record: usize,
    pub byte: usize,
}

/// One record, with its kind not yet looked at.
#[derive(Clone, Copy, Debug)]
pub struct Record<'a> {
    pub kind: u8,
    pub body: &'a [u8],
}

/// Goes over the records of a file.
pub struct Reader<'a> {
    bytes: &'a [u8],
    /// Where the next record starts.
    next: usize,
    /// The record that was looked at last.
    place: Place,
}

impl<'a> Reader<'a> {
    /// Tests the version, then how long the file is.
    pub fn open(file: File, bytes: &'a [u8]) -> Result<Reader<'a>, Cause> {
        ensure(bytes.first() == Some(&VERSION), Cause::WrongVersion)?;
        ensure(bytes.len() <= file.limit(), Cause::FileTooLong)?;
        Ok(Reader { bytes, next: 1, place: Place::default() })
    }

    /// Where the record that was looked at last is; record 0 and byte 0 before the first.
    pub fn place(&self) -> Place {
        self.place
    }
}

impl<'a> Iterator for Reader<'a> {
    type Item = Result<Record<'a>, Cause>;

    fn next(&mut self) -> Option<Self::Item> {
        let rest = &self.bytes[self.next..];
        if rest.is_empty() {
            return None;
        }
        self.place = Place { record: self.place.record + 1, byte: self.next };
        let Some((record, length)) = split_record(rest) else {
            // Nothing is read behind it.
            self.next = self.bytes.len();
            return Some(Err(Cause::BadRecordLength));
        };
        self.next += length;
        Some(Ok(record))
    }
}

/// The record that `bytes` start with, and how many bytes it takes with its length.
fn split_record(bytes: &[u8]) -> Option<(Record<'_>, usize)> {
    let (length, rest) = bytes.split_first_chunk::<2>()?;
    let length = usize::from(u16::from_be_bytes(*length));
    let (kind, body) = rest.get(..length)?.split_first()?;
    Some((Record { kind: *kind, body }, 2 + length))
}

/// What a record asks of a session, with its arguments as they stand in the file.
#[derive(Clone, Copy, Debug, PartialEq, Eq)]
pub enum Call<'a> {
    Counts { switches: u8, measures: u8 },
    Declare(&'a [u8]),
    Admit(&'a [u8]),
    Rule(&'a [u8]),
    Seal(u32),
    Lemma { literals: &'a [u8], hint: &'a [u8] },
    Choose(u8),
    Set { measure: u8, numerator: i32 },
    Propagate { clause: u8, literal: u8 },
    Read(u8),
    Conflict(u8),
    Resolve(u8),
    Jump(u8),
    Concede,
    Claim,
    Abandon,
}

impl<'a> Record<'a> {
    /// The call of a record: tests its kind, then its length.
    pub fn call(self, file: File) -> Result<Call<'a>, Cause> {
        match file {
            File::Case => self.call_of_case(),
            File::Log => self.call_of_log(),
        }
    }

    fn call_of_case(self) -> Result<Call<'a>, Cause> {
        match self.kind {
            1 => {
                let [switches, measures] = self.exactly()?;
                Ok(Call::Counts { switches, measures })
            }
            2 => Ok(Call::Declare(self.body)),
            3 => Ok(Call::Admit(self.body)),
            4 => Ok(Call::Rule(self.body)),
            _ => Err(Cause::UnknownKind),
        }
    }

    fn call_of_log(self) -> Result<Call<'a>, Cause> {
        Ok(match self.kind {
            3 => Call::Admit(self.body),
            10 => Call::Seal(u32::from_be_bytes(self.exactly()?)),
            11 => self.lemma()?,
            12 => Call::Choose(self.one()?),
            13 => {
                let [measure, numerator @ ..] = self.exactly::<5>()?;
                Call::Set { measure, numerator: i32::from_be_bytes(numerator) }
            }
            14 => {
                let [clause, literal] = self.exactly()?;
                Call::Propagate { clause, literal }
            }
            15 => Call::Read(self.one()?),
            16 => Call::Conflict(self.one()?),
            17 => Call::Resolve(self.one()?),
            18 => Call::Jump(self.one()?),
            19 => self.bare(Call::Concede)?,
            20 => self.bare(Call::Claim)?,
            21 => self.bare(Call::Abandon)?,
            _ => return Err(Cause::UnknownKind),
        })
    }

    /// A count, that many literals, and the rest as the hint.
    fn lemma(self) -> Result<Call<'a>, Cause> {
        let (count, rest) = self.body.split_first().ok_or(Cause::WrongLength)?;
        let (literals, hint) =
            rest.split_at_checked(usize::from(*count)).ok_or(Cause::WrongLength)?;
        Ok(Call::Lemma { literals, hint })
    }

    fn exactly<const N: usize>(self) -> Result<[u8; N], Cause> {
        self.body.try_into().map_err(|_| Cause::WrongLength)
    }

    fn one(self) -> Result<u8, Cause> {
        self.exactly::<1>().map(|[byte]| byte)
    }

    fn bare(self, call: Call<'a>) -> Result<Call<'a>, Cause> {
        self.exactly::<0>().map(|[]| call)
    }
}
