//! Why the chip refuses a call.

/// One variant for each answer number above 0.
#[derive(Clone, Copy, Debug, PartialEq, Eq)]
pub enum Refusal {
    /// An argument outside its limits.
    BadArgument,
    /// A change is running.
    Busy,
    /// An array byte that the change would touch is protected.
    Protected,
    /// The chip sleeps and only the wake command reaches it.
    Asleep,
    /// The code is none of the chip's commands.
    UnlistedCode,
    /// The command does not take this many bytes or odd bits.
    WrongShape,
    /// The change needs the write enable latch, which is clear.
    NotEnabled,
    /// The four-line commands need the quad enable bit, which is clear.
    QuadDisabled,
    /// The security registers or the status register are locked.
    Locked,
    /// The address lies beyond the security registers.
    NoSuchRegister,
}

impl Refusal {
    /// The answer number; 0 is kept for "accepted".
    pub fn number(self) -> u8 {
        match self {
            Refusal::BadArgument => 1,
            Refusal::Busy => 2,
            Refusal::Protected => 3,
            Refusal::Asleep => 4,
            Refusal::UnlistedCode => 5,
            Refusal::WrongShape => 6,
            Refusal::NotEnabled => 7,
            Refusal::QuadDisabled => 8,
            Refusal::Locked => 9,
            Refusal::NoSuchRegister => 10,
        }
    }
}

/// The answer number of a call: 0 if accepted, else the refusal's.
pub fn answer_number(outcome: Result<(), Refusal>) -> u8 {
    match outcome {
        Ok(()) => 0,
        Err(refusal) => refusal.number(),
    }
}
