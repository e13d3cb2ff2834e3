//! The state in a slice of 717 bytes, as docs/STATE.md draws it.

use crate::module::{
    same_name, Credential, Kind, Module, Name, Phase, Process, Session, CREDENTIALS, NAME_LENGTH,
    PLACES, PORTS, SESSIONS,
};

/// Bytes of a state.
pub const STATE_LENGTH: usize = 717;
/// Where the credentials begin.
pub const CREDENTIALS_AT: usize = 8;
/// Bytes of a credential.
pub const CREDENTIAL_LENGTH: usize = 9;
/// Where the count of processes stands.
pub const COUNT_AT: usize = 80;
/// Where the places begin.
pub const PLACES_AT: usize = 81;
/// Bytes of a place.
pub const PLACE_LENGTH: usize = 53;

/// The bytes of a module.
pub fn write(module: &Module) -> Vec<u8> {
    let mut bytes = Vec::with_capacity(STATE_LENGTH);
    for phase in module.sessions.iter().flatten() {
        bytes.push(match phase {
            Phase::Closed => 0,
            Phase::OpenWithoutVersion => 1,
            Phase::OpenWithVersion => 2,
        });
    }
    for credential in module.credentials {
        bytes.push(u8::from(credential.provisioned));
        bytes.extend(credential.word.to_le_bytes());
        bytes.extend(credential.second.to_le_bytes());
    }
    bytes.push(module.processes.len() as u8);
    for process in &module.processes {
        let (slot, next) = match process.kind {
            Kind::ActiveUser { session, next } => (slot_of(session), next),
            Kind::ActiveElevation { session } => (slot_of(session), 0),
            Kind::SavedUser { next } => (0, next),
        };
        bytes.push(process.credential as u8);
        bytes.push(process.kind.type_number());
        bytes.push(slot);
        bytes.extend(next.to_le_bytes());
        bytes.extend(process.name);
    }
    bytes.resize(STATE_LENGTH, 0);
    bytes
}

/// The module that the slice holds, if it holds one.
pub fn read(bytes: &[u8]) -> Option<Module> {
    if bytes.len() != STATE_LENGTH {
        return None;
    }
    let module = Module {
        sessions: read_sessions(bytes)?,
        credentials: read_credentials(bytes)?,
        processes: read_processes(bytes)?,
    };
    keeps_the_rules(&module).then_some(module)
}

fn read_sessions(bytes: &[u8]) -> Option<[[Phase; SESSIONS]; PORTS]> {
    let mut sessions = [[Phase::Closed; SESSIONS]; PORTS];
    for (phase, byte) in sessions.iter_mut().flatten().zip(bytes) {
        *phase = match byte {
            0 => Phase::Closed,
            1 => Phase::OpenWithoutVersion,
            2 => Phase::OpenWithVersion,
            _ => return None,
        };
    }
    Some(sessions)
}

/// The byte that stands for a session, its slot: port 0's sessions are 0 to 3, and port 1's are 4 to 7.
fn slot_of(session: Session) -> u8 {
    (SESSIONS * session.port + session.handle) as u8
}

/// The session that the byte stands for, if it stands for one.
fn session_in(slot: u8) -> Option<Session> {
    let slot = usize::from(slot);
    let session = Session::of(slot / SESSIONS, slot % SESSIONS);
    (session.port < PORTS).then_some(session)
}

fn read_credentials(bytes: &[u8]) -> Option<[Credential; CREDENTIALS]> {
    let mut credentials = [Credential::UNPROVISIONED; CREDENTIALS];
    for (number, credential) in credentials.iter_mut().enumerate() {
        let field = &bytes[CREDENTIALS_AT + CREDENTIAL_LENGTH * number..][..CREDENTIAL_LENGTH];
        let word = u32::from_le_bytes([field[1], field[2], field[3], field[4]]);
        let second = u32::from_le_bytes([field[5], field[6], field[7], field[8]]);
        *credential = match (field[0], word, second) {
            (0, 0, 0) => Credential::UNPROVISIONED,
            (1, word, second) => Credential::with(word, second),
            _ => return None,
        };
    }
    Some(credentials)
}

fn read_processes(bytes: &[u8]) -> Option<Vec<Process>> {
    let count = usize::from(bytes[COUNT_AT]);
    if count > PLACES {
        return None;
    }
    let (standing, free) = bytes[PLACES_AT..].split_at(PLACE_LENGTH * count);
    if free.iter().any(|byte| *byte != 0) {
        return None;
    }
    standing.chunks(PLACE_LENGTH).map(read_process).collect()
}

fn read_process(place: &[u8]) -> Option<Process> {
    let credential = usize::from(place[0]);
    let session = session_in(place[2])?;
    let next = u16::from_le_bytes([place[3], place[4]]);
    let mut name: Name = [0; NAME_LENGTH];
    name.copy_from_slice(&place[5..]);
    if credential >= CREDENTIALS {
        return None;
    }
    let kind = match (place[1], place[2], next) {
        (0, _, next) => Kind::ActiveUser { session, next },
        (1, _, 0) => Kind::ActiveElevation { session },
        // a save has counted one; what is saved has neither port nor session, and its byte is kept zero
        (2, 0, next) if next > 0 => Kind::SavedUser { next },
        _ => return None,
    };
    Some(Process {
        credential,
        kind,
        name,
    })
}

/// Demand 3's rules on places, names, owners and sessions.
fn keeps_the_rules(module: &Module) -> bool {
    let each = module.processes.iter().all(|process| {
        module.credentials[process.credential].provisioned && stands_in_a_version(module, process)
    });
    let pairs = module.processes.iter().enumerate().all(|(place, process)| {
        module.processes[..place]
            .iter()
            .all(|earlier| may_stand_together(earlier, process))
    });
    each && pairs
}

fn stands_in_a_version(module: &Module, process: &Process) -> bool {
    match process.kind.session() {
        Some(session) => module.phase(session) == Phase::OpenWithVersion,
        None => true,
    }
}

fn may_stand_together(one: &Process, other: &Process) -> bool {
    let rivals = match (one.kind, other.kind) {
        (Kind::ActiveUser { session, .. }, Kind::ActiveUser { session: its, .. }) => {
            session == its && one.credential == other.credential
        }
        (Kind::ActiveElevation { session }, Kind::ActiveElevation { session: its }) => {
            session == its
        }
        _ => false,
    };
    !rivals && !same_name(&one.name, &other.name)
}

/// The example of docs/STATE.md: sessions 0 and 1 of port 0 and session 0 of port 1 open, both sessions 0 with a version; credentials 0 and 1; three processes with the
/// names P, Q and R.
pub fn example() -> Vec<u8> {
    let mut bytes = vec![0; STATE_LENGTH];
    bytes[..8].copy_from_slice(&[2, 1, 0, 0, 2, 0, 0, 0]);
    bytes[8..17].copy_from_slice(&[1, 0x0f, 0, 0, 0, 0, 0, 0, 0]);
    bytes[17..26].copy_from_slice(&[1, 0x10, 0, 0, 0, 0x10, 0, 0, 0]);
    bytes[80] = 3;
    bytes[81..86].copy_from_slice(&[0, 0, 0, 3, 0]);
    bytes[102..134].fill(0x11);
    bytes[134..139].copy_from_slice(&[1, 2, 0, 0x2c, 1]);
    bytes[155..187].fill(0x22);
    bytes[187..192].copy_from_slice(&[1, 1, 4, 0, 0]);
    bytes[208..239].fill(0x11);
    bytes[239] = 0x12;
    bytes
}

#[cfg(test)]
mod tests {
    use super::*;

    #[test]
    fn the_example_is_read_and_written() {
        let module = read(&example()).expect("the example holds a state");
        assert_eq!(
            module
                .processes
                .iter()
                .map(|process| (process.credential, process.kind))
                .collect::<Vec<_>>(),
            [
                (
                    0,
                    Kind::ActiveUser {
                        session: Session::of(0, 0),
                        next: 3
                    }
                ),
                (1, Kind::SavedUser { next: 300 }),
                (
                    1,
                    Kind::ActiveElevation {
                        session: Session::of(1, 0)
                    }
                ),
            ]
        );
        assert_eq!(write(&module), example());
    }

    #[test]
    fn each_changed_byte_of_the_page_makes_no_state() {
        let changes = [
            (3, 0, 3),
            (7, 0, 3),
            (8, 1, 2),
            (30, 0, 1),
            (40, 0, 1),
            (79, 0, 0x80),
            (80, 3, 2),
            (80, 3, 4),
            (80, 3, 0x0d),
            (81, 0, 2),
            (83, 0, 1),
            (83, 0, 2),
            (83, 0, 5),
            (83, 0, 8),
            (136, 0, 1),
            (136, 0, 4),
            (189, 4, 1),
            (189, 4, 5),
            (189, 4, 8),
            (191, 0, 1),
            (239, 0x12, 0x11),
            (716, 0, 1),
        ];
        for (at, from, to) in changes {
            let mut bytes = example();
            assert_eq!(bytes[at], from, "at {at}");
            bytes[at] = to;
            assert_eq!(read(&bytes), None, "at {at}");
        }
        // session 0 of the other port
        for (at, slot) in [(83, 4), (189, 0)] {
            let mut bytes = example();
            bytes[at] = slot;
            assert!(read(&bytes).is_some(), "at {at}");
        }
    }

    /// Of active processes, all sessions having a version; a saved one has none.
    #[test]
    fn a_slot_is_a_session_of_a_port() {
        let slots = [[0, 1, 2, 3], [4, 5, 6, 7]];
        let mut bytes = example();
        bytes[..8].fill(2);
        for slot in 0..=255 {
            let its_slot = |session: &Session| slots[session.port][session.handle] == slot;
            let session = Session::all().find(its_slot);
            let right = [
                session.map(Some),
                (slot == 0).then_some(None),
                session.map(Some),
            ];
            for (place, right) in right.into_iter().enumerate() {
                let mut changed = bytes.clone();
                changed[PLACES_AT + PLACE_LENGTH * place + 2] = slot;
                let held = read(&changed);
                let found = held
                    .as_ref()
                    .map(|module| module.processes[place].kind.session());
                assert_eq!(found, right, "slot {slot} of place {place}");
                assert!(held.map_or(true, |module| write(&module) == changed));
            }
        }
    }

    #[test]
    fn a_port_has_its_own_limits() {
        let [p, q, r] = [[1; NAME_LENGTH], [2; NAME_LENGTH], [3; NAME_LENGTH]];
        let mut module = Module::fresh([Credential::with(0, 0); CREDENTIALS]);
        module.sessions = [[Phase::OpenWithVersion; SESSIONS]; PORTS];
        for one in Session::all() {
            for other in Session::all() {
                let users = [(one, p), (other, q)]
                    .map(|(session, name)| Process::user(session, 1, 0, name));
                let elevations = [(one, p), (other, q)]
                    .map(|(session, name)| Process::elevation(session, 1, name));
                for two in [users, elevations] {
                    module.processes = [&two[..], &[Process::saved(1, 1, r)]].concat();
                    assert_eq!(read(&write(&module)).is_some(), one != other, "{two:?}");
                }
            }
        }
    }

    #[test]
    fn a_saved_process_has_counted_one() {
        let mut bytes = example();
        for (next, holds) in [([0, 0], false), ([1, 0], true), ([0, 1], true)] {
            bytes[137..139].copy_from_slice(&next);
            assert_eq!(read(&bytes).is_some(), holds, "{next:?}");
        }
    }

    /// Each word of each credential, the last byte of it too.
    #[test]
    fn the_words_of_a_credential_that_is_not_provisioned_are_zero() {
        for number in 0..CREDENTIALS {
            for at in [1, 4, 5, 8] {
                let mut bytes = vec![0; STATE_LENGTH];
                let begin = CREDENTIALS_AT + CREDENTIAL_LENGTH * number;
                bytes[begin + at] = 0x80;
                assert_eq!(read(&bytes), None, "credential {number}, byte {at}");
                bytes[begin] = 1;
                let module = read(&bytes).expect("it is provisioned");
                let held = module.credentials[number];
                assert_eq!((held.word != 0, held.second != 0), (at < 5, at >= 5));
                assert_eq!(write(&module), bytes);
            }
        }
    }

    #[test]
    fn all_zero_is_a_state_and_another_length_is_none() {
        let unprovisioned = Module::fresh([Credential::UNPROVISIONED; 8]);
        assert_eq!(read(&[0; STATE_LENGTH]), Some(unprovisioned));
        // 681 bytes were a state before there were second words, and 713 before there was a second port
        for length in [0, 681, 713, STATE_LENGTH - 1, STATE_LENGTH + 1] {
            assert_eq!(read(&vec![0; length]), None);
        }
    }
}
