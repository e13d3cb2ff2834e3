//! The entries on a state or a message as docs/ENTRIES.md has them: numbers and byte slices of any kind in, one of the numbers out.

use crate::image;
use crate::layout::{self, STATE_LENGTH};
use crate::messages;
use crate::module::{Claim, Credential, Module, Name, Session, UserClaim, Wanted};
use crate::module::{CREDENTIALS, PORTS, SESSIONS};
use crate::number::{refuse_unless, refuse_when, Number};
use crate::rescue;

/// The wanted credential that stands for all.
const ALL: u32 = 65_535;

/// What the host lends as the state.
#[derive(Clone, Debug, PartialEq, Eq)]
pub enum Lent {
    /// A slice that holds a state.
    State(Module),
    /// A slice that holds none.
    Other(Vec<u8>),
}

impl Lent {
    /// The slice of these bytes.
    pub fn of(bytes: &[u8]) -> Lent {
        match layout::read(bytes) {
            Some(module) => Lent::State(module),
            None => Lent::Other(bytes.to_vec()),
        }
    }

    /// The bytes of the slice.
    pub fn bytes(&self) -> Vec<u8> {
        match self {
            Lent::State(module) => layout::write(module),
            Lent::Other(bytes) => bytes.clone(),
        }
    }

    fn length(&self) -> usize {
        match self {
            Lent::State(_) => STATE_LENGTH,
            Lent::Other(bytes) => bytes.len(),
        }
    }

    fn module(&mut self) -> Result<&mut Module, Number> {
        match self {
            Lent::State(module) => Ok(module),
            Lent::Other(_) => Err(Number::Argument),
        }
    }
}

/// A claim as the host hands it in.
#[derive(Clone, Copy, Debug, PartialEq, Eq)]
pub struct RawClaim {
    /// 0 a user's, 1 elevated.
    pub kind: u32,
    /// Whose claim it is.
    pub credential: u32,
    /// The record's number.
    pub number: u16,
    /// 0 no, 1 yes.
    pub verdict: u32,
}

/// Makes a fresh module; of the state only the length is tested.
pub fn fresh(lent: &mut Lent, provisioned: &[u8], words: &[u32], seconds: &[u32]) -> u32 {
    number_of(|| {
        refuse_unless(lent.length() == STATE_LENGTH, Number::Argument)?;
        refuse_unless(provisioned.len() == CREDENTIALS, Number::Argument)?;
        refuse_unless(words.len() == CREDENTIALS, Number::Argument)?;
        refuse_unless(seconds.len() == CREDENTIALS, Number::Argument)?;
        let mut credentials = [Credential::UNPROVISIONED; CREDENTIALS];
        for (number, credential) in credentials.iter_mut().enumerate() {
            *credential = Credential {
                provisioned: flag(provisioned[number].into())?,
                word: words[number],
                second: seconds[number],
            };
        }
        *lent = Lent::State(Module::fresh(credentials));
        Ok(())
    })
}

/// Whether the slice holds a state.
pub fn holds(lent: &mut Lent) -> u32 {
    number_of(|| lent.module().map(|_| ()))
}

/// Open.
pub fn open(lent: &mut Lent, port: u32, session: u32) -> u32 {
    number_of(|| lent.module()?.open(session_of(port, session)?))
}

/// Close.
pub fn close(lent: &mut Lent, port: u32, session: u32) -> u32 {
    number_of(|| lent.module()?.close(session_of(port, session)?))
}

/// Drop.
pub fn drop(lent: &mut Lent, port: u32, session: u32) -> u32 {
    number_of(|| lent.module()?.drop_elevation(session_of(port, session)?))
}

/// Select. Document 01 has no argument error for a version: every value but 0x10 is 4.
pub fn select(lent: &mut Lent, port: u32, session: u32, version: u32) -> u32 {
    number_of(|| lent.module()?.select(session_of(port, session)?, version))
}

/// Start.
pub fn start(lent: &mut Lent, port: u32, session: u32, credential: u32, name: &[u8]) -> u32 {
    number_of(|| {
        lent.module()?.start(
            session_of(port, session)?,
            owner(credential)?,
            whole_name(name)?,
        )
    })
}

/// Continue.
pub fn continue_saved(
    lent: &mut Lent,
    port: u32,
    session: u32,
    credential: u32,
    name: &[u8],
) -> u32 {
    number_of(|| {
        lent.module()?.continue_saved(
            session_of(port, session)?,
            owner(credential)?,
            whole_name(name)?,
        )
    })
}

/// Elevate.
pub fn elevate(
    lent: &mut Lent,
    port: u32,
    session: u32,
    credential: u32,
    name: &[u8],
    verdict: u32,
) -> u32 {
    number_of(|| {
        lent.module()?.elevate(
            session_of(port, session)?,
            owner(credential)?,
            whole_name(name)?,
            flag(verdict)?,
        )
    })
}

/// End.
pub fn end(
    lent: &mut Lent,
    port: u32,
    session: u32,
    credential: u32,
    number: u16,
    verdict: u32,
    keep: u32,
) -> u32 {
    number_of(|| {
        let claim = UserClaim {
            credential: owner(credential)?,
            number,
            verdict: flag(verdict)?,
        };
        lent.module()?
            .end(session_of(port, session)?, claim, flag(keep)?)
    })
}

/// Record.
pub fn record(lent: &mut Lent, port: u32, session: u32, claim: RawClaim, class: u32) -> u32 {
    number_of(|| {
        refuse_when(!(4..=31).contains(&class), Number::Argument)?;
        lent.module()?
            .record(session_of(port, session)?, claimed(claim)?, class)
    })
}

/// List. The length handed out is the message's; 0 on a refusal.
pub fn list(
    lent: &mut Lent,
    port: u32,
    session: u32,
    claim: RawClaim,
    wanted: u32,
    response: &mut [u8],
    length: &mut usize,
) -> u32 {
    *length = 0;
    number_of(|| {
        let wanted = match wanted {
            ALL => Wanted::All,
            credential => Wanted::Of(owner(credential)?),
        };
        let message = lent.module()?.list(
            session_of(port, session)?,
            claimed(claim)?,
            wanted,
            response.len(),
        )?;
        response[..message.len()].copy_from_slice(&message);
        *length = message.len();
        Ok(())
    })
}

/// Kill.
pub fn kill(lent: &mut Lent, port: u32, session: u32, claim: RawClaim, name: &[u8]) -> u32 {
    number_of(|| {
        lent.module()?.kill(
            session_of(port, session)?,
            claimed(claim)?,
            whole_name(name)?,
        )
    })
}

/// Set word.
pub fn set_word(
    lent: &mut Lent,
    port: u32,
    session: u32,
    claim: RawClaim,
    target: u32,
    word: u32,
    second: u32,
) -> u32 {
    number_of(|| {
        let (claim, target) = (claimed(claim)?, owner(target)?);
        lent.module()?
            .set_word(session_of(port, session)?, claim, target, word, second)
    })
}

/// Writes the image: 15 for a buffer too short. The length handed out is the image's; 0 on a refusal.
pub fn image(lent: &mut Lent, buffer: &mut [u8], length: &mut usize) -> u32 {
    *length = 0;
    number_of(|| {
        let written = image::write(lent.module()?);
        let room = buffer.get_mut(..written.len()).ok_or(Number::Room)?;
        room.copy_from_slice(&written);
        *length = written.len();
        Ok(())
    })
}

/// Makes a fresh module from an image; of the state only the length is tested.
pub fn restore(lent: &mut Lent, image: &[u8]) -> u32 {
    number_of(|| {
        refuse_unless(lent.length() == STATE_LENGTH, Number::Argument)?;
        *lent = Lent::State(image::read(image)?);
        Ok(())
    })
}

/// Writes a good image out of damaged bytes: 14 where header or words can't be used, then 15 for a buffer too short. The length handed out is the image's, 0 on a
/// refusal; the report is handed out where nothing is refused. In `dropped`, bit i stands for the stated row i.
pub fn rescue(
    bytes: &[u8],
    image: &mut [u8],
    length: &mut usize,
    cleared: &mut u16,
    kept: &mut u16,
    dropped: &mut u16,
) -> u32 {
    *length = 0;
    number_of(|| {
        let rescued = rescue::rescue(bytes)?;
        let written = rescued.image;
        let room = image.get_mut(..written.len()).ok_or(Number::Room)?;
        room.copy_from_slice(&written);
        *length = written.len();
        *cleared = (rescued.cleared + rescued.cleared_seconds) as u16;
        *kept = rescued.kept as u16;
        *dropped = rescued.dropped.iter().map(|row| 1 << row.place).sum();
        Ok(())
    })
}

/// Reads GET_AUTH_PROCESSES.
pub fn read_request(message: &[u8], credential: &mut u16) -> u32 {
    number_of(|| {
        *credential = messages::read_request(message)?;
        Ok(())
    })
}

/// Writes GET_AUTH_PROCESSES: 15 for a buffer under 4 bytes.
pub fn write_request(buffer: &mut [u8], credential: u16) -> u32 {
    number_of(|| {
        let message = messages::request(credential);
        refuse_when(buffer.len() < message.len(), Number::Room)?;
        buffer[..message.len()].copy_from_slice(&message);
        Ok(())
    })
}

/// Reads the count of AUTH_PROCESSES.
pub fn read_count(message: &[u8], count: &mut u16) -> u32 {
    number_of(|| {
        *count = messages::read_count(message)?;
        Ok(())
    })
}

/// Reads a row of AUTH_PROCESSES. 14 comes before 1, and a name's slice of another length than 48 is 1.
pub fn read_row(
    message: &[u8],
    at: usize,
    credential: &mut u16,
    kind: &mut u8,
    name: &mut [u8],
) -> u32 {
    number_of(|| {
        let row = messages::read_row(message, at)?;
        refuse_unless(name.len() == row.name.len(), Number::Argument)?;
        *credential = row.credential;
        *kind = row.type_number;
        name.copy_from_slice(&row.name);
        Ok(())
    })
}

pub(crate) fn number_of(call: impl FnOnce() -> Result<(), Number>) -> u32 {
    call().err().unwrap_or(Number::Done) as u32
}

/// Both in their ranges: a handle of 4 on port 0 is no session of port 1.
fn session_of(port: u32, handle: u32) -> Result<Session, Number> {
    Ok(Session {
        port: below(port, PORTS)?,
        handle: below(handle, SESSIONS)?,
    })
}

fn owner(credential: u32) -> Result<usize, Number> {
    below(credential, CREDENTIALS)
}

fn below(value: u32, bound: usize) -> Result<usize, Number> {
    let value = value as usize;
    refuse_when(value >= bound, Number::Argument)?;
    Ok(value)
}

fn flag(value: u32) -> Result<bool, Number> {
    match value {
        0 => Ok(false),
        1 => Ok(true),
        _ => Err(Number::Argument),
    }
}

fn whole_name(bytes: &[u8]) -> Result<Name, Number> {
    Name::try_from(bytes).map_err(|_| Number::Argument)
}

/// An elevated claim's credential, number and verdict are ignored whatever they hold, by the check for 1 too.
fn claimed(claim: RawClaim) -> Result<Claim, Number> {
    if flag(claim.kind)? {
        return Ok(Claim::Elevated);
    }
    Ok(Claim::User(UserClaim {
        credential: owner(claim.credential)?,
        number: claim.number,
        verdict: flag(claim.verdict)?,
    }))
}
