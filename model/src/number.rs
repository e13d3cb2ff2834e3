//! "Numbers a call can answer".

/// Document 01's sixteen, and those of document 02's orders.
#[derive(Clone, Copy, Debug, PartialEq, Eq)]
pub enum Number {
    /// Accepted.
    Done = 0,
    /// A value out of its range, or a slice that holds no state.
    Argument = 1,
    /// The session is closed, or for open: already open.
    Session = 2,
    /// No version was chosen in the session.
    NoVersion = 3,
    /// A version other than 0x10.
    Version = 4,
    /// The credential is not provisioned.
    Credential = 5,
    /// There is no process of the stated kind.
    NoProcess = 6,
    /// There is such an active process already.
    AlreadyActive = 7,
    /// The key unit said no.
    Verdict = 8,
    /// The number is not the next.
    OutOfTurn = 9,
    /// The class's bit is clear.
    NotGranted = 10,
    /// Twelve processes stand.
    Full = 11,
    /// The name equals one in the table.
    NameTaken = 12,
    /// The next number is 65,535.
    Spent = 13,
    /// The bytes don't fit the message's layout, or are no image.
    Message = 14,
    /// The buffer is too short.
    Room = 15,
    /// A user claim for a class that is granted only under elevation.
    OnlyElevated = 18,
}

/// One test in a call's order of checks: refuses with the number where the condition is met.
pub(crate) fn refuse_when(condition: bool, number: Number) -> Result<(), Number> {
    if condition {
        Err(number)
    } else {
        Ok(())
    }
}

/// The same with the condition turned around.
pub(crate) fn refuse_unless(condition: bool, number: Number) -> Result<(), Number> {
    refuse_when(!condition, number)
}
