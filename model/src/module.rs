//! "What the module holds", "The claim" and "Calls, with the order of their checks", as document 02's orders leave them.
//!
//! A refusal leaves the module as it was, with one exception: a user claim that has passed its check is counted, also where the call is refused afterwards.
//!
//! The calls take arguments that are in their ranges; [`crate::entries`] refuses the others, since argument errors come first everywhere.

use crate::messages::{self, Row};
use crate::number::{refuse_unless, refuse_when, Number};
use std::fmt;

/// There are two ports, 0 and 1.
pub const PORTS: usize = 2;
/// Each port has its own four sessions, handles 0 to 3.
pub const SESSIONS: usize = 4;
/// There are eight credentials, 0 to 7.
pub const CREDENTIALS: usize = 8;
/// At most this many processes stand.
pub const PLACES: usize = 12;
/// Bytes of a name.
pub const NAME_LENGTH: usize = 48;
/// A process with this next number is spent.
pub const SPENT: u16 = 65_535;

const LIST_OTHERS: u32 = 0;
const KILL_OTHERS: u32 = 1;
const SAVE_OWN: u32 = 2;
const SET_WORDS: u32 = 3;

/// What the hash unit works out for a process.
pub type Name = [u8; NAME_LENGTH];

/// A session of a port. Wherever document 01 says session, it is both together.
#[derive(Clone, Copy, Debug, PartialEq, Eq)]
pub struct Session {
    /// The port.
    pub port: usize,
    /// The handle among the port's sessions.
    pub handle: usize,
}

impl Session {
    /// The session of that port with that handle.
    pub const fn of(port: usize, handle: usize) -> Session {
        Session { port, handle }
    }

    /// The sessions of both ports, port 0's first.
    pub fn all() -> impl DoubleEndedIterator<Item = Session> {
        let handles = |port| (0..SESSIONS).map(move |handle| Session::of(port, handle));
        (0..PORTS).flat_map(handles)
    }
}

/// Its port and its handle, with a dot between them.
impl fmt::Display for Session {
    fn fmt(&self, out: &mut fmt::Formatter) -> fmt::Result {
        write!(out, "{}.{}", self.port, self.handle)
    }
}

/// A session's phase.
#[derive(Clone, Copy, Debug, PartialEq, Eq)]
pub enum Phase {
    /// Closed.
    Closed,
    /// Open without a version.
    OpenWithoutVersion,
    /// Open with version 1.0.
    OpenWithVersion,
}

/// What is held of a credential.
#[derive(Clone, Copy, Debug, PartialEq, Eq)]
pub struct Credential {
    /// Whether it is provisioned.
    pub provisioned: bool,
    /// Its grant word: bit k grants class k.
    pub word: u32,
    /// Its second word: where bit k is set too, class k is granted only under elevation.
    pub second: u32,
}

impl Credential {
    /// One that is not provisioned.
    pub const UNPROVISIONED: Credential = Credential {
        provisioned: false,
        word: 0,
        second: 0,
    };

    /// One that is provisioned, with these words.
    pub const fn with(word: u32, second: u32) -> Credential {
        Credential {
            provisioned: true,
            word,
            second,
        }
    }
}

/// What the grant lookup answers.
#[derive(Clone, Copy, Debug, PartialEq, Eq)]
pub enum Grant {
    /// The bit of the grant word is clear, whatever the second word has there.
    No,
    /// It is set, and the second word's is clear.
    Yes,
    /// Both are set.
    OnlyUnderElevation,
}

/// A process's type, with what has a meaning for that type alone.
#[derive(Clone, Copy, Debug, PartialEq, Eq)]
pub enum Kind {
    /// Type 0.
    ActiveUser {
        /// The session it is active in.
        session: Session,
        /// Its next number.
        next: u16,
    },
    /// Type 1.
    ActiveElevation {
        /// The session it is active in.
        session: Session,
    },
    /// Type 2.
    SavedUser {
        /// Its next number.
        next: u16,
    },
}

impl Kind {
    /// The type's number in 004 Table 46.
    pub fn type_number(self) -> u8 {
        match self {
            Kind::ActiveUser { .. } => 0,
            Kind::ActiveElevation { .. } => 1,
            Kind::SavedUser { .. } => 2,
        }
    }

    /// The session of an active process.
    pub fn session(self) -> Option<Session> {
        match self {
            Kind::ActiveUser { session, .. } | Kind::ActiveElevation { session } => Some(session),
            Kind::SavedUser { .. } => None,
        }
    }
}

/// A process.
#[derive(Clone, Copy, Debug, PartialEq, Eq)]
pub struct Process {
    /// Whose it is.
    pub credential: usize,
    /// Its type.
    pub kind: Kind,
    /// Its name.
    pub name: Name,
}

impl Process {
    /// A user process that is active in the session.
    pub const fn user(session: Session, credential: usize, next: u16, name: Name) -> Process {
        Process {
            credential,
            kind: Kind::ActiveUser { session, next },
            name,
        }
    }

    /// The elevation of the session.
    pub const fn elevation(session: Session, credential: usize, name: Name) -> Process {
        Process {
            credential,
            kind: Kind::ActiveElevation { session },
            name,
        }
    }

    /// A saved one, which has neither port nor session.
    pub const fn saved(credential: usize, next: u16, name: Name) -> Process {
        Process {
            credential,
            kind: Kind::SavedUser { next },
            name,
        }
    }
}

/// A claim of a protected call.
#[derive(Clone, Copy, Debug, PartialEq, Eq)]
pub enum Claim {
    /// By the session's elevation.
    Elevated,
    /// By a credential's user process.
    User(UserClaim),
}

/// What a user claim carries.
#[derive(Clone, Copy, Debug, PartialEq, Eq)]
pub struct UserClaim {
    /// Whose claim it is.
    pub credential: usize,
    /// The record's number.
    pub number: u16,
    /// The key unit's verdict on the signature.
    pub verdict: bool,
}

/// Whose processes a listing is to hold.
#[derive(Clone, Copy, Debug, PartialEq, Eq)]
pub enum Wanted {
    /// Those of one credential.
    Of(usize),
    /// All, 65535 in the message.
    All,
}

/// The module.
#[derive(Clone, Debug, PartialEq, Eq)]
pub struct Module {
    /// The phases of each port's sessions, by handle.
    pub sessions: [[Phase; SESSIONS]; PORTS],
    /// The credentials, which both ports share.
    pub credentials: [Credential; CREDENTIALS],
    /// The processes of both ports in the order of their starts.
    pub processes: Vec<Process>,
}

/// Two names are equal when all 48 bytes are.
pub fn same_name(one: &Name, other: &Name) -> bool {
    one == other
}

impl Module {
    /// A fresh module: all sessions of both ports closed and no process. Both words of an unprovisioned credential are taken as zero.
    pub fn fresh(credentials: [Credential; CREDENTIALS]) -> Module {
        Module {
            sessions: [[Phase::Closed; SESSIONS]; PORTS],
            credentials: credentials.map(|given| match given.provisioned {
                true => Credential::with(given.word, given.second),
                false => Credential::UNPROVISIONED,
            }),
            processes: Vec::new(),
        }
    }

    /// Open.
    pub fn open(&mut self, session: Session) -> Result<(), Number> {
        refuse_unless(self.phase(session) == Phase::Closed, Number::Session)?;
        self.set_phase(session, Phase::OpenWithoutVersion);
        Ok(())
    }

    /// Close: the session's active processes are removed; saved ones stay, and so do those of the port's other sessions and of the other port.
    pub fn close(&mut self, session: Session) -> Result<(), Number> {
        self.check_open(session)?;
        self.set_phase(session, Phase::Closed);
        self.processes
            .retain(|process| process.kind.session() != Some(session));
        Ok(())
    }

    /// Select: 4. A second choice changes nothing.
    pub fn select(&mut self, session: Session, version: u32) -> Result<(), Number> {
        self.check_open(session)?;
        refuse_unless(version == 0x10, Number::Version)?;
        self.set_phase(session, Phase::OpenWithVersion);
        Ok(())
    }

    /// Start: 5; 7 if that credential has an active user process in that session; 12; 11. Names are unique over both ports, and the places serve both.
    pub fn start(&mut self, session: Session, credential: usize, name: Name) -> Result<(), Number> {
        self.check_version(session)?;
        self.check_provisioned(credential)?;
        self.check_no_active_user(session, credential)?;
        self.check_new_name(&name)?;
        self.check_place()?;
        self.processes
            .push(Process::user(session, credential, 0, name));
        Ok(())
    }

    /// Continue: 5; 6 unless a saved process has that credential and that name; 7 as for start. It keeps its place and its next number, on whichever port it was
    /// saved.
    pub fn continue_saved(
        &mut self,
        session: Session,
        credential: usize,
        name: Name,
    ) -> Result<(), Number> {
        self.check_version(session)?;
        self.check_provisioned(credential)?;
        let (place, next) = self
            .find_saved(credential, &name)
            .ok_or(Number::NoProcess)?;
        self.check_no_active_user(session, credential)?;
        self.processes[place].kind = Kind::ActiveUser { session, next };
        Ok(())
    }

    /// Elevate: 5; 8; 7 if the session has an elevation; 12; 11.
    pub fn elevate(
        &mut self,
        session: Session,
        credential: usize,
        name: Name,
        verdict: bool,
    ) -> Result<(), Number> {
        self.check_version(session)?;
        self.check_provisioned(credential)?;
        refuse_unless(verdict, Number::Verdict)?;
        refuse_when(
            self.find_elevation(session).is_some(),
            Number::AlreadyActive,
        )?;
        self.check_new_name(&name)?;
        self.check_place()?;
        self.processes
            .push(Process::elevation(session, credential, name));
        Ok(())
    }

    /// Drop: 6; removes the elevation, and the session stays open.
    pub fn drop_elevation(&mut self, session: Session) -> Result<(), Number> {
        self.check_version(session)?;
        let place = self.find_elevation(session).ok_or(Number::NoProcess)?;
        self.processes.remove(place);
        Ok(())
    }

    /// End: claim; if keep, 10 and 18 by class 2. The process, its claim counted, is saved, or removed when not kept.
    pub fn end(&mut self, session: Session, claim: UserClaim, keep: bool) -> Result<(), Number> {
        self.check_version(session)?;
        let (place, next) = self.take_user_claim(session, claim)?;
        if keep {
            self.check_granted(Claim::User(claim), claim.credential, SAVE_OWN)?;
            self.processes[place].kind = Kind::SavedUser { next };
        } else {
            self.processes.remove(place);
        }
        Ok(())
    }

    /// Record: claim; 10; 18.
    pub fn record(&mut self, session: Session, claim: Claim, class: u32) -> Result<(), Number> {
        self.check_version(session)?;
        let credential = self.take_claim(session, claim)?;
        self.check_granted(claim, credential, class)
    }

    /// List: claim; if wanted differs from the claim's credential, 10 and 18 by class 0; 15. Answers with the message.
    pub fn list(
        &mut self,
        session: Session,
        claim: Claim,
        wanted: Wanted,
        room: usize,
    ) -> Result<Vec<u8>, Number> {
        self.check_version(session)?;
        let credential = self.take_claim(session, claim)?;
        if wanted != Wanted::Of(credential) {
            self.check_granted(claim, credential, LIST_OTHERS)?;
        }
        let message = messages::listing(&self.rows(wanted));
        refuse_when(room < message.len(), Number::Room)?;
        Ok(message)
    }

    /// Kill: claim; 6 if no process that this claim may kill has the name. It may kill its own credential's processes of every type, and all where class 1 is
    /// granted to it, on either port.
    pub fn kill(&mut self, session: Session, claim: Claim, name: Name) -> Result<(), Number> {
        self.check_version(session)?;
        let credential = self.take_claim(session, claim)?;
        let reaches_all = self.check_granted(claim, credential, KILL_OTHERS).is_ok();
        let may_kill = |process: &Process| reaches_all || process.credential == credential;
        let place = self
            .processes
            .iter()
            .position(|process| same_name(&process.name, &name) && may_kill(process))
            .ok_or(Number::NoProcess)?;
        self.processes.remove(place);
        Ok(())
    }

    /// Set word: claim; 10 and 18 by class 3; 5. Sets both words.
    pub fn set_word(
        &mut self,
        session: Session,
        claim: Claim,
        target: usize,
        word: u32,
        second: u32,
    ) -> Result<(), Number> {
        self.check_version(session)?;
        let credential = self.take_claim(session, claim)?;
        self.check_granted(claim, credential, SET_WORDS)?;
        self.check_provisioned(target)?;
        self.credentials[target].word = word;
        self.credentials[target].second = second;
        Ok(())
    }

    /// The rows of a listing: every process of the wanted credential, or all, of both ports in table order.
    pub fn rows(&self, wanted: Wanted) -> Vec<Row> {
        self.processes
            .iter()
            .filter(|process| match wanted {
                Wanted::Of(credential) => process.credential == credential,
                Wanted::All => true,
            })
            .map(|process| Row {
                credential: process.credential as u16,
                type_number: process.kind.type_number(),
                name: process.name,
            })
            .collect()
    }

    /// The phase of a session.
    pub fn phase(&self, session: Session) -> Phase {
        self.sessions[session.port][session.handle]
    }

    /// Puts a session into a phase.
    pub fn set_phase(&mut self, session: Session, phase: Phase) {
        self.sessions[session.port][session.handle] = phase;
    }

    /// The active user process of that credential in that session: its place and its next number.
    pub fn find_active_user(&self, session: Session, credential: usize) -> Option<(usize, u16)> {
        self.processes
            .iter()
            .enumerate()
            .find_map(|(place, process)| match process.kind {
                Kind::ActiveUser { session: its, next }
                    if its == session && process.credential == credential =>
                {
                    Some((place, next))
                }
                _ => None,
            })
    }

    /// The place of the session's elevation.
    pub fn find_elevation(&self, session: Session) -> Option<usize> {
        self.processes
            .iter()
            .position(|process| process.kind == Kind::ActiveElevation { session })
    }

    /// The grant lookup, of classes 0 to 31.
    pub fn lookup(&self, credential: usize, class: u32) -> Grant {
        let Credential { word, second, .. } = self.credentials[credential];
        let has_class = |word: u32| word & (1 << class) != 0;
        match (has_class(word), has_class(second)) {
            (false, _) => Grant::No,
            (true, false) => Grant::Yes,
            (true, true) => Grant::OnlyUnderElevation,
        }
    }

    fn find_saved(&self, credential: usize, name: &Name) -> Option<(usize, u16)> {
        self.processes
            .iter()
            .enumerate()
            .find_map(|(place, process)| match process.kind {
                Kind::SavedUser { next }
                    if process.credential == credential && same_name(&process.name, name) =>
                {
                    Some((place, next))
                }
                _ => None,
            })
    }

    fn check_open(&self, session: Session) -> Result<(), Number> {
        refuse_when(self.phase(session) == Phase::Closed, Number::Session)
    }

    fn check_version(&self, session: Session) -> Result<(), Number> {
        self.check_open(session)?;
        refuse_when(
            self.phase(session) == Phase::OpenWithoutVersion,
            Number::NoVersion,
        )
    }

    fn check_provisioned(&self, credential: usize) -> Result<(), Number> {
        refuse_unless(self.credentials[credential].provisioned, Number::Credential)
    }

    fn check_no_active_user(&self, session: Session, credential: usize) -> Result<(), Number> {
        refuse_when(
            self.find_active_user(session, credential).is_some(),
            Number::AlreadyActive,
        )
    }

    fn check_new_name(&self, name: &Name) -> Result<(), Number> {
        let taken = self
            .processes
            .iter()
            .any(|process| same_name(&process.name, name));
        refuse_when(taken, Number::NameTaken)
    }

    fn check_place(&self) -> Result<(), Number> {
        refuse_when(self.processes.len() == PLACES, Number::Full)
    }

    /// 10; 18 where the class is granted only under elevation and the claim is a user's. It is the claim that is elevated or not, whatever stands in its session.
    fn check_granted(&self, claim: Claim, credential: usize, class: u32) -> Result<(), Number> {
        match self.lookup(credential, class) {
            Grant::No => Err(Number::NotGranted),
            Grant::Yes => Ok(()),
            Grant::OnlyUnderElevation => {
                refuse_unless(claim == Claim::Elevated, Number::OnlyElevated)
            }
        }
    }

    /// The check of a claim, by which a user's is counted. Elevated: 6 unless the session has an active elevation; the credential is that process's, and
    /// nothing is counted. Answers with the claim's credential.
    fn take_claim(&mut self, session: Session, claim: Claim) -> Result<usize, Number> {
        match claim {
            Claim::Elevated => {
                let place = self.find_elevation(session).ok_or(Number::NoProcess)?;
                Ok(self.processes[place].credential)
            }
            Claim::User(user) => {
                self.take_user_claim(session, user)?;
                Ok(user.credential)
            }
        }
    }

    /// User: 5; 6 unless that credential has an active user process in that session; 13; 9; 8. A claim that passes its check adds one to that process's next
    /// number, even if the call is refused afterwards; one that does not adds nothing. Answers with the process's place and the number that is next then.
    fn take_user_claim(
        &mut self,
        session: Session,
        claim: UserClaim,
    ) -> Result<(usize, u16), Number> {
        self.check_provisioned(claim.credential)?;
        let (place, next) = self
            .find_active_user(session, claim.credential)
            .ok_or(Number::NoProcess)?;
        refuse_when(next == SPENT, Number::Spent)?;
        refuse_when(claim.number != next, Number::OutOfTurn)?;
        refuse_unless(claim.verdict, Number::Verdict)?;
        let next = next + 1;
        self.processes[place].kind = Kind::ActiveUser { session, next };
        Ok((place, next))
    }
}
