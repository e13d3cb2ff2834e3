//! The states that calls are made on: so many processes standing, made by the entries.

use crate::numbers::DONE;
use slavotuk::entries;
use slavotuk::{Credential, NAME_LENGTH, STATE_LENGTH};
use std::ops::Range;

/// A session that is open without a version, on each port on which processes stand; those before it have one.
pub const WITHOUT_VERSION: u32 = 2;
/// A session that is closed.
pub const CLOSED: u32 = 3;
pub const UNPROVISIONED: u32 = 7;
/// Classes 0, 2, 4 and so on to 30.
pub const WORD: u32 = 0x5555_5555;
/// The second word where classes are marked. From class 4 on, of each four the first is granted, the second is not, the third is granted only under elevation, and
/// the fourth is marked and not granted. Class 2 is not marked, or no process could be saved.
pub const MARKS: u32 = 0xcccc_ccc0;
/// Every byte of a name but the one in which names differ.
pub const NAME_BYTE: u8 = 0x5a;

/// Where the names of two processes differ: in one byte, the other 47 being equal; or each from all others in a byte of its own, every fourth.
#[derive(Clone, Copy, PartialEq, Eq)]
pub enum Differ {
    First,
    Last,
    Own,
}

impl Differ {
    fn process_name(self, process: usize) -> [u8; NAME_LENGTH] {
        let (at, byte) = match self {
            Differ::First => (0, process as u8),
            Differ::Last => (NAME_LENGTH - 1, process as u8),
            Differ::Own => (4 * process, !NAME_BYTE),
        };
        let mut name = [NAME_BYTE; NAME_LENGTH];
        name[at] = byte;
        name
    }
}

/// The ports on which processes stand.
#[derive(Clone, Copy, PartialEq, Eq)]
pub enum Ports {
    /// Both by turns, so that each credential has as many on either.
    Both,
    /// Port 0 alone, as before there was another; the sessions of that one are closed.
    Zero,
}

impl Ports {
    fn count(self) -> u32 {
        match self {
            Ports::Both => 2,
            Ports::Zero => 1,
        }
    }

    /// Each by its number.
    pub fn all(self) -> Range<u32> {
        0..self.count()
    }
}

/// Whose active user process stands where.
#[derive(Clone, Copy, PartialEq, Eq)]
pub struct User {
    pub port: u32,
    pub session: u32,
    pub credential: u32,
}

/// The active user processes of the first places: six in session 0 and four in session 1. The eleventh and the twelfth place have none.
pub fn users(ports: Ports) -> impl Iterator<Item = User> {
    let count = ports.count();
    let in_session = move |session, processes| {
        (0..processes).map(move |process| User {
            port: process % count,
            session,
            credential: process / count,
        })
    };
    in_session(0, 6).chain(in_session(1, 4))
}

/// Makes a fresh module of credentials with the word and this second word, but that one is not provisioned.
pub fn make_fresh(state: &mut [u8], second: u32) -> u32 {
    let mut provisioned = [1; Credential::COUNT];
    let mut words = [WORD; Credential::COUNT];
    let mut seconds = [second; Credential::COUNT];
    provisioned[UNPROVISIONED as usize] = 0;
    words[UNPROVISIONED as usize] = 0;
    seconds[UNPROVISIONED as usize] = 0;
    entries::fresh(state, &provisioned, &words, &seconds)
}

/// A state with the first places taken, at most twelve, and no class marked.
pub fn standing_state(standing: usize, differ: Differ, ports: Ports) -> Vec<u8> {
    state_of(standing, differ, ports, 0)
}

/// The same with marked classes.
pub fn marked_state(standing: usize, differ: Differ, ports: Ports) -> Vec<u8> {
    state_of(standing, differ, ports, MARKS)
}

fn state_of(standing: usize, differ: Differ, ports: Ports, second: u32) -> Vec<u8> {
    let mut state = vec![0; STATE_LENGTH];
    done(make_fresh(&mut state, second));
    ports.all().for_each(|port| open_sessions(&mut state, port));
    let name = |place| differ.process_name(place);
    for (place, user) in users(ports).enumerate().take(standing) {
        let User {
            port,
            session,
            credential,
        } = user;
        done(entries::start(
            &mut state,
            port,
            session,
            credential,
            &name(place),
        ));
    }
    if standing > 10 {
        done(entries::elevate(&mut state, 0, 0, 6, &name(10), 1));
    }
    if standing > 11 {
        let last = ports.count() - 1;
        done(entries::start(&mut state, last, 1, 6, &name(11)));
        done(entries::end(&mut state, last, 1, 6, 0, 1, 1));
    }
    state
}

/// Three of a port, the last of them without a version.
fn open_sessions(state: &mut [u8], port: u32) {
    for session in 0..=WITHOUT_VERSION {
        done(entries::open(state, port, session));
    }
    for session in 0..WITHOUT_VERSION {
        done(entries::select(state, port, session, 0x10));
    }
}

fn done(number: u32) {
    assert_eq!(
        number, DONE,
        "a call that makes the starting state was refused"
    );
}
