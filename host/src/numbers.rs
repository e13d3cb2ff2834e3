//! The numbers a call can answer, but for 0, done.

use std::fmt;
use std::num::NonZeroU32;

/// Defines the refusals: each has its number, its name, and what it says.
macro_rules! refusals {
    ($($(#[$doc:meta])* $refusal:ident = $number:literal, $name:literal;)+) => {
        /// Why a call was refused: the numbers of documents 01 and 02, from 1 on. A refusal leaves the state and the lent buffer as they were, but for the number of a
        /// [`UserClaim`](crate::UserClaim) that has passed its check.
        ///
        /// A later archive can refuse with numbers that this list does not have: they are refusals like the others, and keep their number.
        ///
        /// ```
        /// use slavotuk::{answered, Refusal};
        ///
        /// assert_eq!(Refusal::OutOfTurn.number(), 9);
        /// assert_eq!(Refusal::OutOfTurn.to_string(), "out of turn");
        /// assert_eq!(answered(0), Ok(()));
        /// assert_eq!(answered(9), Err(Refusal::OutOfTurn));
        ///
        /// let refusal = answered(4711).unwrap_err();
        /// assert_eq!((refusal.number(), refusal.name()), (4711, "unknown"));
        /// assert_eq!(refusal.to_string(), "unknown number 4711");
        /// ```
        #[derive(Clone, Copy, Debug, PartialEq, Eq, PartialOrd, Ord, Hash)]
        #[non_exhaustive]
        pub enum Refusal {
            $($(#[$doc])* $refusal,)+
            /// A number that is none of the others.
            Unknown(UnknownNumber),
        }

        impl Refusal {
            /// Those with a name, in the order of their numbers.
            pub const KNOWN: &'static [Refusal] = &[$(Refusal::$refusal),+];

            /// Its number, which is never 0.
            pub const fn number(self) -> u32 {
                match self {
                    $(Refusal::$refusal => $number,)+
                    Refusal::Unknown(UnknownNumber(number)) => number.get(),
                }
            }

            /// Its name, document 01's where it has one; "unknown" where there is none.
            pub const fn name(self) -> &'static str {
                match self {
                    $(Refusal::$refusal => $name,)+
                    Refusal::Unknown(_) => "unknown",
                }
            }
        }

        impl From<NonZeroU32> for Refusal {
            fn from(number: NonZeroU32) -> Refusal {
                match number.get() {
                    $($number => Refusal::$refusal,)+
                    _ => Refusal::Unknown(UnknownNumber(number)),
                }
            }
        }
    };
}

refusals! {
    /// A value out of its range, or a slice that holds no state.
    Argument = 1, "argument";
    /// The session is closed, or for open: already open.
    Session = 2, "session";
    /// The session has no version.
    NoVersion = 3, "no version";
    /// A version byte other than 0x10.
    Version = 4, "version";
    /// The credential is not provisioned.
    Credential = 5, "credential";
    /// There is no process of the stated kind.
    NoProcess = 6, "no process";
    /// The session has such a process.
    AlreadyActive = 7, "already active";
    /// The key unit said no.
    Verdict = 8, "verdict";
    /// The number is not the next.
    OutOfTurn = 9, "out of turn";
    /// The class's bit is clear.
    NotGranted = 10, "not granted";
    /// Twelve processes stand.
    Full = 11, "full";
    /// The name equals one in the table.
    NameTaken = 12, "name taken";
    /// The next number is 65,535.
    Spent = 13, "spent";
    /// The bytes don't fit the layout, or are no image.
    Message = 14, "message";
    /// The buffer is too short.
    Room = 15, "room";
    /// The claim is a user's, and the class is granted only under elevation.
    OnlyElevated = 18, "only elevated";
}

/// The number of a [`Refusal::Unknown`]. It can't be made, so that no refusal has two forms.
#[derive(Clone, Copy, Debug, PartialEq, Eq, PartialOrd, Ord, Hash)]
pub struct UnknownNumber(NonZeroU32);

impl fmt::Display for Refusal {
    fn fmt(&self, f: &mut fmt::Formatter<'_>) -> fmt::Result {
        match self {
            Refusal::Unknown(UnknownNumber(number)) => f.pad(&format!("unknown number {number}")),
            known => f.pad(known.name()),
        }
    }
}

impl std::error::Error for Refusal {}

/// What an entry's number says: 0 is done, and every other one is a refusal.
pub fn answered(number: u32) -> Result<(), Refusal> {
    match NonZeroU32::new(number) {
        None => Ok(()),
        Some(number) => Err(number.into()),
    }
}
