//! The record call as a program that keeps its state in a struct between calls and tests no slice. It does less than the entry: nobody else can have
//! written to its state. Written from documents 01 and 02 and docs/STATE.md, in plain Rust.

use crate::numbers::*;
use slavotuk::entries::RawClaim;
use slavotuk::layout::state::{
    self, credential_at, COUNT_AT, CREDENTIAL_LENGTH, PLACES_AT, PLACE_LENGTH,
};
use slavotuk::{Session, NAME_LENGTH, STATE_LENGTH};

#[derive(Clone, Copy, PartialEq, Eq)]
enum Phase {
    Closed,
    WithoutVersion,
    WithVersion,
}

#[derive(Clone, Copy)]
struct Credential {
    provisioned: bool,
    word: u32,
    second: u32,
}

#[derive(Clone, Copy, PartialEq, Eq)]
enum Type {
    User,
    Elevation,
    Saved,
}

#[derive(Clone)]
struct Process {
    credential: u8,
    kind: Type,
    slot: u8,
    next: u16,
    name: [u8; NAME_LENGTH],
}

/// What document 01's module holds.
#[derive(Clone)]
pub struct Module {
    /// By slot: 4 * port + session.
    sessions: [Phase; Session::COUNT],
    credentials: [Credential; 8],
    processes: Vec<Process>,
}

impl Module {
    /// The module of bytes that hold a state.
    pub fn from_bytes(bytes: &[u8]) -> Module {
        let count = usize::from(bytes[COUNT_AT]);
        Module {
            sessions: std::array::from_fn(|slot| phase_of(bytes[slot])),
            credentials: std::array::from_fn(|credential| {
                credential_of(&bytes[credential_at(credential)..][..CREDENTIAL_LENGTH])
            }),
            processes: bytes[PLACES_AT..]
                .chunks_exact(PLACE_LENGTH)
                .take(count)
                .map(process_of)
                .collect(),
        }
    }

    /// The bytes that hold this module's state.
    pub fn to_bytes(&self) -> Vec<u8> {
        let mut bytes = Vec::with_capacity(STATE_LENGTH);
        bytes.extend(self.sessions.map(|phase| phase as u8));
        for credential in &self.credentials {
            bytes.push(u8::from(credential.provisioned));
            bytes.extend(credential.word.to_le_bytes());
            bytes.extend(credential.second.to_le_bytes());
        }
        bytes.push(self.processes.len() as u8);
        for process in &self.processes {
            bytes.extend([process.credential, process.kind as u8, process.slot]);
            bytes.extend(process.next.to_le_bytes());
            bytes.extend(process.name);
        }
        bytes.resize(STATE_LENGTH, 0);
        bytes
    }

    /// The record call.
    #[inline(never)]
    pub fn record(&mut self, port: u32, session: u32, claim: RawClaim, class: u32) -> u32 {
        match self.accept(port, session, claim, class) {
            Ok(()) => DONE,
            Err(number) => number,
        }
    }

    fn accept(&mut self, port: u32, session: u32, claim: RawClaim, class: u32) -> Result<(), u32> {
        let is_claim = match claim.kind {
            0 => claim.credential <= 7 && claim.verdict <= 1,
            1 => true,
            _ => false,
        };
        if port > 1 || session > 3 || !is_claim || !(4..=31).contains(&class) {
            return Err(ARGUMENT);
        }
        let slot = (4 * port + session) as u8;
        match self.sessions[usize::from(slot)] {
            Phase::Closed => return Err(SESSION),
            Phase::WithoutVersion => return Err(NO_VERSION),
            Phase::WithVersion => {}
        }
        if claim.kind == 1 {
            self.accept_elevated(slot, class)
        } else {
            self.accept_user(slot, claim, class)
        }
    }

    fn accept_elevated(&self, slot: u8, class: u32) -> Result<(), u32> {
        let elevation = self
            .processes
            .iter()
            .find(|process| process.kind == Type::Elevation && process.slot == slot)
            .ok_or(NO_PROCESS)?;
        self.credentials[usize::from(elevation.credential)].check_granted(class)
    }

    fn accept_user(&mut self, slot: u8, claim: RawClaim, class: u32) -> Result<(), u32> {
        let credential = self.credentials[claim.credential as usize];
        if !credential.provisioned {
            return Err(CREDENTIAL);
        }
        let process = self
            .processes
            .iter_mut()
            .find(|process| {
                process.kind == Type::User
                    && process.slot == slot
                    && u32::from(process.credential) == claim.credential
            })
            .ok_or(NO_PROCESS)?;
        if process.next == u16::MAX {
            return Err(SPENT);
        }
        if claim.number != process.next {
            return Err(OUT_OF_TURN);
        }
        if claim.verdict == 0 {
            return Err(VERDICT);
        }
        process.next += 1;
        credential.check_granted(class)?;
        credential.check_unmarked(class)
    }
}

impl Credential {
    fn check_granted(self, class: u32) -> Result<(), u32> {
        if self.word >> class & 1 == 1 {
            Ok(())
        } else {
            Err(NOT_GRANTED)
        }
    }

    fn check_unmarked(self, class: u32) -> Result<(), u32> {
        if self.second >> class & 1 == 0 {
            Ok(())
        } else {
            Err(ONLY_ELEVATED)
        }
    }
}

fn phase_of(byte: u8) -> Phase {
    match byte {
        0 => Phase::Closed,
        1 => Phase::WithoutVersion,
        _ => Phase::WithVersion,
    }
}

fn credential_of(bytes: &[u8]) -> Credential {
    Credential {
        provisioned: bytes[state::PROVISIONED] == 1,
        word: word_of(&bytes[state::WORD..]),
        second: word_of(&bytes[state::SECOND..]),
    }
}

fn word_of(bytes: &[u8]) -> u32 {
    u32::from_le_bytes(std::array::from_fn(|at| bytes[at]))
}

fn process_of(bytes: &[u8]) -> Process {
    Process {
        credential: bytes[state::OWNER],
        kind: match bytes[state::TYPE] {
            0 => Type::User,
            1 => Type::Elevation,
            _ => Type::Saved,
        },
        slot: bytes[state::SESSION],
        next: u16::from_le_bytes([bytes[state::NEXT], bytes[state::NEXT + 1]]),
        name: std::array::from_fn(|at| bytes[state::NAME + at]),
    }
}
