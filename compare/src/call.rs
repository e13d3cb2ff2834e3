//! The calls that both sides are driven by: those of the hosts, with guards around what an entry writes to.

use slavotuk_model::module::Session;
use std::fmt;

pub use slavotuk::Bytes;

/// A call of one of the entries.
pub type Call = slavotuk::Call<Guarded>;

/// How many entries there are.
pub const ENTRIES: usize = Call::ENTRIES.len();

/// The state's entries come first; the rest take none.
pub const STATE_ENTRIES: usize = 16;

const GUARD: [u8; 16] = [0xc3; 16];

/// Bytes lent to an entry, between two guards that it has no business with.
#[derive(Clone, Debug, PartialEq, Eq)]
pub struct Guarded {
    memory: Vec<u8>,
}

impl From<Vec<u8>> for Guarded {
    fn from(bytes: Vec<u8>) -> Guarded {
        Guarded::around(&bytes)
    }
}

impl Guarded {
    /// These bytes between guards.
    pub fn around(bytes: &[u8]) -> Guarded {
        Guarded {
            memory: [&GUARD, bytes, &GUARD].concat(),
        }
    }
}

impl AsMut<[u8]> for Guarded {
    fn as_mut(&mut self) -> &mut [u8] {
        let end = self.memory.len() - GUARD.len();
        &mut self.memory[GUARD.len()..end]
    }
}

impl AsRef<[u8]> for Guarded {
    /// The bytes; with the guards where one was written to, so that no such answer passes for a right one.
    fn as_ref(&self) -> &[u8] {
        let end = self.memory.len() - GUARD.len();
        if self.memory.starts_with(&GUARD) && self.memory.ends_with(&GUARD) {
            &self.memory[GUARD.len()..end]
        } else {
            &self.memory
        }
    }
}

/// What a call was answered, and how it stands afterwards: what it hands out is a part of it.
#[derive(Clone, Debug, PartialEq, Eq)]
pub struct Answer {
    /// One of the numbers of documents 01 and 02.
    pub number: u32,
    /// The call with what it has handed out.
    pub made: Call,
}

impl fmt::Display for Answer {
    fn fmt(&self, out: &mut fmt::Formatter) -> fmt::Result {
        write!(out, "{}{}", self.number, self.made.handed_out())
    }
}

/// The port and the session handle, of the entries that take them.
macro_rules! session_in {
    ($call:expr) => {
        match $call {
            Call::Open { port, session, .. }
            | Call::Close { port, session, .. }
            | Call::Drop { port, session, .. }
            | Call::Select { port, session, .. }
            | Call::Start { port, session, .. }
            | Call::Continue { port, session, .. }
            | Call::Elevate { port, session, .. }
            | Call::End { port, session, .. }
            | Call::Record { port, session, .. }
            | Call::List { port, session, .. }
            | Call::Kill { port, session, .. }
            | Call::SetWord { port, session, .. } => Some((port, session)),
            _ => None,
        }
    };
}

/// The same, to be changed.
pub fn session_mut(call: &mut Call) -> Option<(&mut u32, &mut u32)> {
    session_in!(call)
}

/// The session that a call names. Where a number of it is wrong, no process is active in it.
pub fn session_of(call: &Call) -> Option<Session> {
    let (port, session) = session_in!(call)?;
    Some(Session::of(*port as usize, *session as usize))
}

/// The call in this session.
pub fn moved(mut call: Call, to: (u32, u32)) -> Call {
    if let Some((port, session)) = session_mut(&mut call) {
        (*port, *session) = to;
    }
    call
}

/// The port and the handle of a session, as they are handed in.
pub fn numbers_of(session: Session) -> (u32, u32) {
    (session.port as u32, session.handle as u32)
}

/// The session, the credential and the number of a user claim.
pub fn user_claim(call: &Call) -> Option<(Session, u32, u16)> {
    let session = session_of(call)?;
    match *call {
        Call::End {
            credential, number, ..
        } => Some((session, credential, number)),
        Call::Record { claim, .. }
        | Call::List { claim, .. }
        | Call::Kill { claim, .. }
        | Call::SetWord { claim, .. }
            if claim.kind == 0 =>
        {
            Some((session, claim.credential, claim.number))
        }
        _ => None,
    }
}

/// The session of an elevated claim.
pub fn elevated_claim(call: &Call) -> Option<Session> {
    match call {
        Call::Record { claim, .. }
        | Call::List { claim, .. }
        | Call::Kill { claim, .. }
        | Call::SetWord { claim, .. }
            if claim.kind == 1 =>
        {
            session_of(call)
        }
        _ => None,
    }
}

/// The number of a user claim.
pub fn number_mut(call: &mut Call) -> Option<&mut u16> {
    match call {
        Call::End { number, .. } => Some(number),
        Call::Record { claim, .. }
        | Call::List { claim, .. }
        | Call::Kill { claim, .. }
        | Call::SetWord { claim, .. }
            if claim.kind == 0 =>
        {
            Some(&mut claim.number)
        }
        _ => None,
    }
}

/// The name handed in.
pub fn name_mut(call: &mut Call) -> Option<&mut Vec<u8>> {
    match call {
        Call::Start { name, .. }
        | Call::Continue { name, .. }
        | Call::Elevate { name, .. }
        | Call::Kill { name, .. } => Some(name),
        _ => None,
    }
}

#[cfg(test)]
mod tests {
    use super::*;
    use slavotuk::entries::RawClaim;

    #[test]
    fn a_write_to_a_guard_is_seen() {
        let mut guarded = Guarded::around(&[1, 2, 3]);
        guarded.as_mut()[2] = 4;
        assert_eq!(guarded.as_ref(), [1, 2, 4]);
        guarded.memory[GUARD.len() + 3] = 0;
        assert_eq!(guarded.as_ref().len(), 3 + 2 * GUARD.len());
    }

    #[test]
    fn a_call_is_printed_on_one_line() {
        let call = Call::Record {
            port: 1,
            session: 3,
            claim: RawClaim::user(1, 2),
            class: 4,
        };
        assert_eq!(
            call.to_string(),
            "record port 1 session 3 user credential 1 number 2 verdict 1 class 4"
        );
    }

    #[test]
    fn the_states_entries_come_first() {
        let [last, next] = [STATE_ENTRIES - 1, STATE_ENTRIES].map(|at| Call::ENTRIES[at]);
        assert_eq!([last, next], ["restore", "rescue"]);
    }
}
