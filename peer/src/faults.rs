//! What a refusal says: its cause, and the layer that it comes from.

/// Why something is refused. The number of a cause is its value as `u8`.
#[derive(Clone, Copy, Debug, PartialEq, Eq, PartialOrd, Ord)]
#[repr(u8)]
pub enum Cause {
    WrongVersion = 1,
    FileTooLong = 2,
    BadRecordLength = 3,
    UnknownKind = 4,
    WrongLength = 5,
    OutOfRange = 6,
    BadLiteral = 7,
    BadClause = 8,
    ShortBuffer = 9,
    WrongPhase = 20,
    Full = 21,
    Absent = 22,
    Taken = 23,
    WrongReadability = 24,
    NotUnit = 25,
    ContradictsTrail = 26,
    NotFalse = 27,
    NotResolvable = 28,
    ResolventTooLong = 29,
    NotAllowed = 30,
    NotVouched = 31,
    NoValue = 32,
    RuleUnmet = 33,
    NotAdmitted = 34,
}

impl Cause {
    pub fn number(self) -> u8 {
        self as u8
    }
}

/// A cause with its layer: 0 is the file or the session, 1 the theory at the top of the pile, 2 the
/// one below it, and so on; 255 stands for all further ones.
#[derive(Clone, Copy, Debug, PartialEq, Eq)]
pub struct Fault {
    pub cause: Cause,
    pub layer: u8,
}

impl Fault {
    /// A fault of a theory as that theory gives it, before it comes up through other layers.
    pub fn of_theory(cause: Cause) -> Fault {
        Fault { cause, layer: 1 }
    }

    /// The fault as it leaves the layer above the one that gave it.
    pub fn raised(self) -> Fault {
        Fault { layer: self.layer.saturating_add(1), ..self }
    }
}

/// A cause on its own is one of the file or the session.
impl From<Cause> for Fault {
    fn from(cause: Cause) -> Fault {
        Fault { cause, layer: 0 }
    }
}

/// `Ok` where a test passes, and else its cause.
pub fn ensure(passes: bool, cause: Cause) -> Result<(), Cause> {
    if passes {
        Ok(())
    } else {
        Err(cause)
    }
}
