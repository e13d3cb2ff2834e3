//! The steps of document 02's order 10, and document 01's steps on one port beside processes of the other: rows of calls, each with its session and the number that
//! is right. They are for more than one side: the tests here make them on the model's entries, and the comparison makes them on the archive's too.

use crate::entries::{self, Lent, RawClaim};
use crate::layout;
use crate::messages;
use crate::module::{Credential, Kind, Module, Name, Phase, Process, Session};
use crate::module::{CREDENTIALS, NAME_LENGTH, SESSIONS, SPENT};

/// The wanted credential that stands for all.
const ALL: u32 = 65_535;

/// Document 01's names: 16 zero bytes, then 32 others.
pub const P: Name = name_of(0x11);
/// The second.
pub const Q: Name = name_of(0x22);
/// P with another last byte.
pub const R: Name = with_last(P, 0x12);

/// What an elevated claim carries beside its kind is ignored.
pub const ELEVATED: RawClaim = RawClaim {
    kind: 1,
    credential: 99,
    number: 99,
    verdict: 99,
};

/// 16 zero bytes, then 32 of the byte.
pub const fn name_of(byte: u8) -> Name {
    let mut name = [byte; NAME_LENGTH];
    let mut at = 0;
    while at < 16 {
        name[at] = 0;
        at += 1;
    }
    name
}

const fn with_last(mut name: Name, byte: u8) -> Name {
    name[NAME_LENGTH - 1] = byte;
    name
}

/// The names N1, N2 .. of order 10: 47 zero bytes and the number.
const fn n(number: u8) -> Name {
    with_last([0; NAME_LENGTH], number)
}

/// A user claim with the verdict yes.
pub const fn user(credential: u32, number: u16) -> RawClaim {
    RawClaim {
        kind: 0,
        credential,
        number,
        verdict: 1,
    }
}

/// The same with the verdict no.
pub const fn denied(credential: u32, number: u16) -> RawClaim {
    RawClaim {
        verdict: 0,
        ..user(credential, number)
    }
}

/// What is asked in a session.
#[derive(Clone, Copy, Debug)]
pub enum Asked {
    /// Open.
    Open,
    /// Close.
    Close,
    /// Drop.
    Drop,
    /// Select, with the version.
    Select(u32),
    /// Start, with the credential and the name.
    Start(u32, Name),
    /// Continue, with the same.
    Continue(u32, Name),
    /// Elevate, with the same and the verdict yes.
    Elevate(u32, Name),
    /// End under a user claim, and keep.
    Keep(RawClaim),
    /// Record, with the class.
    Record(RawClaim, u32),
    /// List, with the wanted credential, the room for the response, and the names that are right, in the order of the rows.
    List(RawClaim, u32, usize, &'static [Name]),
    /// Kill, with the name.
    Kill(RawClaim, Name),
}

use Asked::*;

/// One call of a step.
#[derive(Clone, Copy, Debug)]
pub struct Row {
    /// The step's number.
    pub step: u32,
    /// The port and the session handle, which may be wrong.
    pub session: [u32; 2],
    /// The call.
    pub asked: Asked,
    /// The number that is right.
    pub number: u32,
}

const fn row(step: u32, session: [u32; 2], asked: Asked, number: u32) -> Row {
    Row {
        step,
        session,
        asked,
        number,
    }
}

impl Row {
    /// The same call on another port.
    pub fn on(self, port: u32) -> Row {
        let [_, handle] = self.session;
        row(self.step, [port, handle], self.asked, self.number)
    }

    /// Makes the call on the model: its number, and the listing that it wrote.
    pub fn answer(&self, lent: &mut Lent) -> (u32, Vec<u8>) {
        let [port, session] = self.session;
        let (mut response, mut length) = (Vec::new(), 0);
        let number = match &self.asked {
            Open => entries::open(lent, port, session),
            Close => entries::close(lent, port, session),
            Drop => entries::drop(lent, port, session),
            Select(version) => entries::select(lent, port, session, *version),
            Start(credential, name) => entries::start(lent, port, session, *credential, name),
            Continue(credential, name) => {
                entries::continue_saved(lent, port, session, *credential, name)
            }
            Elevate(credential, name) => {
                entries::elevate(lent, port, session, *credential, name, 1)
            }
            Keep(claim) => {
                let (credential, number) = (claim.credential, claim.number);
                entries::end(lent, port, session, credential, number, claim.verdict, 1)
            }
            Record(claim, class) => entries::record(lent, port, session, *claim, *class),
            List(claim, wanted, room, _) => {
                response.resize(*room, 0xee);
                let (response, length) = (&mut response, &mut length);
                entries::list(lent, port, session, *claim, *wanted, response, length)
            }
            Kill(claim, name) => entries::kill(lent, port, session, *claim, name),
        };
        response.truncate(length);
        (number, response)
    }

    /// Whether these are the bytes of the listing that the call writes, none where it writes none.
    pub fn is_listing(&self, bytes: &[u8]) -> bool {
        let (List(_, _, _, names), 0) = (self.asked, self.number) else {
            return bytes.is_empty();
        };
        let is_named = |(at, name): (usize, &Name)| {
            let read = messages::read_row(bytes, at);
            read.is_ok_and(|row| row.name == *name)
        };
        // a row has no port, and the reserved byte is written zero
        messages::read_count(bytes) == Ok(names.len() as u16)
            && bytes[1] == 0
            && names.iter().enumerate().all(is_named)
    }
}

/// The module that order 10's steps begin with.
pub fn two_ports() -> Module {
    let mut credentials = [Credential::UNPROVISIONED; CREDENTIALS];
    let words = [15, 16, 0, 0, 0, 0];
    for (credential, word) in credentials.iter_mut().zip(words) {
        *credential = Credential::with(word, 0);
    }
    Module::fresh(credentials)
}

/// Order 10's steps, which run on from each other.
pub const ON_TWO_PORTS: &[Row] = &[
    row(1, [2, 0], Open, 1),
    row(1, [0, 4], Open, 1),
    row(1, [0, 7], Open, 1),
    row(1, [1, 4], Open, 1),
    row(1, [1, 0], Open, 0),
    row(1, [1, 0], Open, 2),
    row(1, [0, 0], Open, 0),
    row(2, [1, 0], Select(0x10), 0),
    row(2, [0, 0], Start(0, P), 3),
    row(2, [0, 0], Select(0x10), 0),
    row(2, [0, 1], Start(0, P), 2),
    row(3, [0, 0], Start(0, P), 0),
    row(3, [1, 0], Start(0, P), 12),
    row(3, [1, 0], Start(0, Q), 0),
    row(3, [1, 0], Start(0, R), 7),
    row(3, [0, 0], Start(0, R), 7),
    row(4, [0, 0], Start(1, R), 0),
    row(4, [1, 0], Record(user(1, 0), 4), 6),
    row(4, [0, 0], Record(user(1, 0), 4), 0),
    row(5, [1, 0], List(user(0, 0), ALL, 156, &[]), 15),
    row(5, [1, 0], List(user(0, 1), ALL, 157, &[P, Q, R]), 0),
    row(5, [0, 0], List(user(0, 0), 0, 106, &[P, Q]), 0),
    row(6, [1, 0], Kill(user(0, 2), R), 0),
    row(6, [0, 0], Record(user(1, 1), 4), 6),
    row(7, [0, 0], Elevate(0, R), 0),
    row(7, [0, 0], Elevate(0, n(1)), 7),
    row(7, [1, 0], Elevate(0, R), 12),
    row(7, [1, 0], Elevate(0, n(1)), 0),
    row(7, [1, 0], Drop, 0),
    row(7, [1, 0], List(ELEVATED, 0, 157, &[]), 6),
    row(7, [0, 0], List(ELEVATED, 0, 157, &[P, Q, R]), 0),
    row(8, [1, 0], Keep(user(0, 3)), 0),
    row(8, [0, 0], Continue(0, Q), 7),
    row(8, [0, 1], Open, 0),
    row(8, [0, 1], Select(0x10), 0),
    row(8, [0, 1], Continue(0, Q), 0),
    row(9, [1, 0], Start(0, P), 12),
    row(9, [1, 0], Start(0, n(2)), 0),
    row(9, [0, 0], Close, 0),
    row(10, [0, 0], Open, 0),
    row(10, [0, 0], Select(0x10), 0),
    row(10, [0, 0], Start(0, n(3)), 0),
    row(10, [0, 0], Start(1, n(4)), 0),
    row(10, [0, 0], Start(2, n(5)), 0),
    row(10, [0, 0], Start(3, n(6)), 0),
    row(10, [0, 0], Start(4, n(7)), 0),
    row(10, [0, 0], Start(5, n(8)), 0),
    row(10, [0, 1], Start(1, n(9)), 0),
    row(10, [0, 1], Start(2, n(10)), 0),
    row(10, [0, 1], Start(3, n(11)), 0),
    row(10, [0, 1], Start(4, n(12)), 0),
    row(11, [1, 0], Start(1, n(50)), 11),
    row(11, [1, 0], Start(1, Q), 12),
    row(11, [1, 0], Elevate(0, n(50)), 11),
    row(11, [0, 0], Kill(user(0, 0), n(4)), 0),
    row(11, [1, 0], Start(1, n(50)), 0),
    row(11, [1, 0], Start(2, n(51)), 11),
    row(12, [1, 0], Close, 0),
];

/// The module after one of these steps, where it is written down.
pub fn after_step(step: u32) -> Option<Module> {
    let [first, second, other] = [Session::of(0, 0), Session::of(0, 1), Session::of(1, 0)];
    let standing = match step {
        1 => vec![],
        4 => vec![
            Process::user(first, 0, 0, P),
            Process::user(other, 0, 0, Q),
            Process::user(first, 1, 1, R),
        ],
        7 => vec![
            Process::user(first, 0, 1, P),
            Process::user(other, 0, 3, Q),
            Process::elevation(first, 0, R),
        ],
        8 => vec![
            Process::user(first, 0, 1, P),
            Process::user(second, 0, 4, Q),
            Process::elevation(first, 0, R),
        ],
        9 => vec![
            Process::user(second, 0, 4, Q),
            Process::user(other, 0, 0, n(2)),
        ],
        12 => vec![
            Process::user(second, 0, 4, Q),
            Process::user(first, 0, 1, n(3)),
            Process::user(first, 2, 0, n(5)),
            Process::user(first, 3, 0, n(6)),
            Process::user(first, 4, 0, n(7)),
            Process::user(first, 5, 0, n(8)),
            Process::user(second, 1, 0, n(9)),
            Process::user(second, 2, 0, n(10)),
            Process::user(second, 3, 0, n(11)),
            Process::user(second, 4, 0, n(12)),
        ],
        _ => return None,
    };
    let (phase, open) = match step {
        1 => (Phase::OpenWithoutVersion, vec![first, other]),
        8 => (Phase::OpenWithVersion, vec![first, second, other]),
        9 => (Phase::OpenWithVersion, vec![second, other]),
        12 => (Phase::OpenWithVersion, vec![first, second]),
        _ => (Phase::OpenWithVersion, vec![first, other]),
    };
    let mut module = two_ports();
    for session in open {
        module.set_phase(session, phase);
    }
    module.processes = standing;
    Some(module)
}

/// The names of the processes on the other port, in the module that [`WORKED`] begins with.
const OTHERS: [Name; 4] = [n(101), n(102), n(103), n(104)];

/// The module that [`WORKED`] begins with on this port: credentials 0 and 1 are document 01's. On the other port two sessions with the handles of the steps are in
/// use, by the credentials of the steps too, whose processes there have another count.
pub fn beside_others(port: usize) -> Module {
    let mut credentials = [Credential::UNPROVISIONED; CREDENTIALS];
    credentials[0] = Credential::with(15, 0);
    credentials[1] = Credential::with(16, 0);
    credentials[4] = Credential::with(u32::MAX, 0);
    let mut module = Module::fresh(credentials);
    let [first, second] = [0, 1].map(|handle| Session::of(1 - port, handle));
    for session in [first, second] {
        module.set_phase(session, Phase::OpenWithVersion);
    }
    module.processes = vec![
        Process::user(first, 0, 7, OTHERS[0]),
        Process::user(first, 1, 7, OTHERS[1]),
        Process::user(second, 4, 7, OTHERS[2]),
        Process::elevation(first, 4, OTHERS[3]),
    ];
    module
}

/// The names in step 10's listing of all, and its length.
const ALL_LISTED: [Name; 5] = [OTHERS[0], OTHERS[1], OTHERS[2], OTHERS[3], P];
const ALL_ROOM: usize = 4 + messages::ROW_LENGTH * ALL_LISTED.len();

/// Document 01's steps 1 to 12 with the numbers that document 02 corrects, on port 0. A listing of all has the rows of the others first, and these have their places
/// among the twelve.
pub const WORKED: &[Row] = &[
    row(1, [0, 4], Open, 1),
    row(1, [0, 0], Open, 0),
    row(1, [0, 0], Open, 2),
    row(2, [0, 0], Start(0, P), 3),
    row(2, [0, 0], Select(0x20), 4),
    row(2, [0, 0], Select(0x10), 0),
    row(2, [0, 0], Select(0x10), 0),
    row(3, [0, 0], Start(2, P), 5),
    row(3, [0, 0], Start(0, P), 0),
    row(3, [0, 0], Start(1, P), 12),
    row(4, [0, 0], Start(1, R), 0),
    row(4, [0, 0], Start(1, P), 7),
    row(5, [0, 0], Record(user(1, 0), 4), 0),
    row(5, [0, 0], Record(user(1, 0), 4), 9),
    row(6, [0, 0], Record(denied(1, 1), 4), 8),
    row(6, [0, 0], Record(user(1, 1), 5), 10),
    row(6, [0, 0], Record(user(1, 2), 4), 0),
    row(7, [0, 0], Record(user(1, 3), 3), 1),
    row(7, [0, 0], Record(user(1, 3), 31), 10),
    row(8, [0, 0], Kill(user(1, 4), P), 6),
    row(8, [0, 0], Kill(user(1, 5), Q), 6),
    row(9, [0, 0], Kill(user(0, 0), R), 0),
    row(9, [0, 0], Record(user(1, 2), 4), 6),
    row(10, [0, 0], List(user(0, 1), ALL, ALL_ROOM - 1, &[]), 15),
    row(10, [0, 0], List(user(0, 2), ALL, ALL_ROOM, &ALL_LISTED), 0),
    row(11, [0, 0], Keep(user(0, 3)), 0),
    row(11, [0, 1], Open, 0),
    row(11, [0, 1], Select(0x10), 0),
    row(11, [0, 1], Continue(0, Q), 6),
    row(11, [0, 1], Continue(0, P), 0),
    row(11, [0, 1], Record(user(0, 3), 4), 9),
    row(11, [0, 1], Record(user(0, 4), 4), 10),
    row(12, [0, 2], Open, 0),
    row(12, [0, 2], Select(0x10), 0),
    row(12, [0, 3], Open, 0),
    row(12, [0, 3], Select(0x10), 0),
    row(12, [0, 0], Start(0, n(1)), 0),
    row(12, [0, 0], Start(1, n(2)), 0),
    row(12, [0, 1], Start(1, TO_BE_SPENT), 0),
    row(12, [0, 2], Start(0, n(4)), 0),
    row(12, [0, 2], Start(1, n(5)), 0),
    row(12, [0, 3], Start(0, n(6)), 0),
    row(12, [0, 3], Start(1, n(7)), 0),
    row(12, [0, 0], Start(4, Q), 11),
    row(12, [0, 1], Kill(user(0, 5), n(1)), 0),
    row(12, [0, 0], Start(4, Q), 0),
];

/// The name of the process that step 13 is about.
const TO_BE_SPENT: Name = n(3);

/// The state after [`WORKED`], with that process before its last number.
pub fn before_the_last(state: &[u8]) -> Option<Vec<u8>> {
    let mut module = layout::read(state)?;
    let processes = module.processes.iter_mut();
    let mut named = processes.filter(|process| process.name == TO_BE_SPENT);
    match &mut named.next()?.kind {
        Kind::ActiveUser { next, .. } => *next = SPENT - 1,
        Kind::ActiveElevation { .. } | Kind::SavedUser { .. } => return None,
    }
    Some(layout::write(&module))
}

/// Document 01's step 13 from there on, on port 0.
pub const SPENT_THERE: &[Row] = &[
    row(13, [0, 1], Record(user(1, SPENT - 1), 4), 0),
    row(13, [0, 1], Record(user(1, SPENT), 4), 13),
    row(13, [0, 1], Record(user(1, SPENT - 1), 4), 13),
    row(13, [0, 1], Record(user(1, 0), 4), 13),
    row(13, [0, 1], Record(user(1, 7), 4), 13),
];

/// What a port has: the phases of its sessions, and the processes that are active in them.
pub fn held_by(module: &Module, port: usize) -> ([Phase; SESSIONS], Vec<Process>) {
    let is_there = |process: &&Process| {
        let session = process.kind.session();
        session.is_some_and(|session| session.port == port)
    };
    let processes = module.processes.iter().filter(is_there);
    (module.sessions[port], processes.copied().collect())
}

#[cfg(test)]
mod tests {
    use super::*;

    fn make(row: &Row, lent: &mut Lent) {
        let before = lent.clone();
        let (number, listing) = row.answer(lent);
        assert_eq!(number, row.number, "{row:?}");
        assert!(row.is_listing(&listing), "{row:?}");
        if matches!(number, 1..=4 | 7..=9 | 11..=13) {
            assert_eq!(*lent, before, "{row:?}");
        }
    }

    #[test]
    fn order_10() {
        let mut lent = Lent::State(two_ports());
        let mut written_down = 0;
        for step in 1..=12 {
            for row in ON_TWO_PORTS.iter().filter(|row| row.step == step) {
                make(row, &mut lent);
            }
            if let Some(module) = after_step(step) {
                assert_eq!(lent, Lent::State(module), "step {step}");
                written_down += 1;
            }
            let phases = &lent.bytes()[..8];
            match step {
                1 => assert_eq!(phases, [1, 0, 0, 0, 1, 0, 0, 0]),
                9 => assert_eq!(phases, [0, 2, 0, 0, 2, 0, 0, 0]),
                _ => {}
            }
        }
        assert_eq!(written_down, 6);
    }

    #[test]
    fn document_01_on_either_port() {
        for port in [0, 1] {
            let begun = beside_others(port);
            let mut lent = Lent::State(begun.clone());
            let make_on_the_port = |row: &Row, lent: &mut Lent| {
                make(&row.on(port as u32), lent);
                let module = layout::read(&lent.bytes()).expect("the calls keep a state");
                assert_eq!(held_by(&module, 1 - port), held_by(&begun, 1 - port));
            };
            for row in WORKED {
                make_on_the_port(row, &mut lent);
            }
            let state = before_the_last(&lent.bytes()).expect("the process stands");
            lent = Lent::of(&state);
            for row in SPENT_THERE {
                make_on_the_port(row, &mut lent);
            }
        }
    }
}
