//! What a state holds, read from its bytes as docs/STATE.md draws them.

use crate::layout::state::*;
use crate::{Credential, Grants, Kind, Module, Name, Session, NAME_LENGTH};
use std::fmt;

/// Whether a session is open, and with which version.
///
/// ```
/// use slavotuk::{Grants, Module, Phase, Session};
///
/// let session = Session::try_from((1, 2))?;
/// let mut module = Module::fresh(&[Grants::UNPROVISIONED; 8])?;
/// assert_eq!(module.phase(session), Phase::Closed);
/// module.open(session)?;
/// assert_eq!(module.phase(session), Phase::NoVersion);
/// # Ok::<(), slavotuk::Refusal>(())
/// ```
#[derive(Clone, Copy, Debug, PartialEq, Eq, Hash)]
pub enum Phase {
    /// Closed.
    Closed,
    /// Open without a version.
    NoVersion,
    /// Open with version 1.0.
    Version1_0,
}

impl fmt::Display for Phase {
    fn fmt(&self, f: &mut fmt::Formatter<'_>) -> fmt::Result {
        f.pad(match self {
            Phase::Closed => "closed",
            Phase::NoVersion => "open without a version",
            Phase::Version1_0 => "open with version 1.0",
        })
    }
}

/// A process's type, with what a process of that type has: a saved one has no session, an elevation no next number.
#[derive(Clone, Copy, Debug, PartialEq, Eq, Hash)]
pub enum Standing {
    /// An active user process.
    ActiveUser {
        /// Its session.
        session: Session,
        /// The number that its next record has to have.
        next_number: u16,
    },
    /// An active elevation.
    ActiveElevation {
        /// Its session.
        session: Session,
    },
    /// A saved user process.
    SavedUser {
        /// The number that its next record has to have once it is continued.
        next_number: u16,
    },
}

/// A process in the table.
///
/// ```
/// use slavotuk::{Credential, Grants, Kind, Module, Name, Session, VERSION_1_0};
///
/// let session = Session::try_from((1, 1))?;
/// let mut module = Module::fresh(&[Grants::of_word(0); 8])?;
/// module.open(session)?;
/// module.select(session, VERSION_1_0)?;
/// module.elevate(session, Credential::new(6).unwrap(), &Name([1; 48]), true)?;
/// let process = module.processes().next().unwrap();
/// assert_eq!(process.kind(), Kind::ActiveElevation);
/// assert_eq!((process.session(), process.next_number()), (Some(session), None));
/// # Ok::<(), slavotuk::Refusal>(())
/// ```
#[derive(Clone, Copy, Debug, PartialEq, Eq, Hash)]
pub struct Process {
    /// Whose it is.
    pub credential: Credential,
    /// Its type, and what comes with it.
    pub standing: Standing,
    /// Its name.
    pub name: Name,
}

impl Process {
    /// Its type.
    pub fn kind(&self) -> Kind {
        match self.standing {
            Standing::ActiveUser { .. } => Kind::ActiveUser,
            Standing::ActiveElevation { .. } => Kind::ActiveElevation,
            Standing::SavedUser { .. } => Kind::SavedUser,
        }
    }

    /// Its session, where it is active.
    pub fn session(&self) -> Option<Session> {
        match self.standing {
            Standing::ActiveUser { session, .. } | Standing::ActiveElevation { session } => {
                Some(session)
            }
            Standing::SavedUser { .. } => None,
        }
    }

    /// The number that its next record has to have, where it is a user process.
    pub fn next_number(&self) -> Option<u16> {
        match self.standing {
            Standing::ActiveUser { next_number, .. } | Standing::SavedUser { next_number } => {
                Some(next_number)
            }
            Standing::ActiveElevation { .. } => None,
        }
    }
}

/// The processes that stand, in the order of their starts.
#[derive(Clone, Debug)]
pub struct Processes<'a>(std::slice::ChunksExact<'a, u8>);

// The bytes of a module hold a state, so each field below is in its range.

fn process_of(place: &[u8]) -> Process {
    let session = Session::of_slot(place[SESSION]);
    let next_number = u16::from_le_bytes([place[NEXT], place[NEXT + 1]]);
    let mut name = [0; NAME_LENGTH];
    name.copy_from_slice(&place[NAME..]);
    Process {
        credential: Credential(place[OWNER]),
        standing: match place[TYPE] {
            0 => Standing::ActiveUser {
                session,
                next_number,
            },
            1 => Standing::ActiveElevation { session },
            _ => Standing::SavedUser { next_number },
        },
        name: Name(name),
    }
}

impl Iterator for Processes<'_> {
    type Item = Process;

    fn next(&mut self) -> Option<Process> {
        self.0.next().map(process_of)
    }

    fn size_hint(&self) -> (usize, Option<usize>) {
        self.0.size_hint()
    }
}

impl DoubleEndedIterator for Processes<'_> {
    fn next_back(&mut self) -> Option<Process> {
        self.0.next_back().map(process_of)
    }
}

impl ExactSizeIterator for Processes<'_> {}

impl<S: AsRef<[u8]>> Module<S> {
    /// A session's phase.
    pub fn phase(&self, session: Session) -> Phase {
        match self.bytes()[session.slot()] {
            0 => Phase::Closed,
            1 => Phase::NoVersion,
            _ => Phase::Version1_0,
        }
    }

    /// What a credential is granted.
    ///
    /// ```
    /// use slavotuk::{Class, Credential, Grants, Lookup, Module};
    ///
    /// let mut grants = [Grants::UNPROVISIONED; 8];
    /// grants[1] = Grants::of_words(16, 16);
    /// let module = Module::fresh(&grants)?;
    /// let granted = module.grants(Credential::new(1).unwrap());
    /// assert_eq!(granted.lookup(Class::new(4).unwrap()), Lookup::OnlyElevated);
    /// assert!(!module.grants(Credential::new(2).unwrap()).is_provisioned());
    /// # Ok::<(), slavotuk::Refusal>(())
    /// ```
    pub fn grants(&self, credential: Credential) -> Grants {
        let bytes = &self.bytes()[credential_at(credential.0.into())..][..CREDENTIAL_LENGTH];
        let word_at = |at: usize| u32::from_le_bytes(std::array::from_fn(|byte| bytes[at + byte]));
        match bytes[PROVISIONED] {
            1 => Grants::of_words(word_at(WORD), word_at(SECOND)),
            _ => Grants::UNPROVISIONED,
        }
    }

    /// The processes that stand, in the order of their starts.
    pub fn processes(&self) -> Processes<'_> {
        let count = usize::from(self.bytes()[COUNT_AT]);
        let places = &self.bytes()[PLACES_AT..place_at(count)];
        Processes(places.chunks_exact(PLACE_LENGTH))
    }
}
