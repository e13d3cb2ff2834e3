//! What the tests of the wrapper share: document 01's module and names, and short forms of the values.
#![allow(dead_code)]

use slavotuk::{
    Class, Credential, Grants, Module, Name, Port, Session, UserClaim, Words, NAME_LENGTH, PLACES,
    VERSION_1_0,
};

/// Document 01's session with this handle: port 0's.
pub fn session(handle: u8) -> Session {
    session_of(0, handle)
}

/// The session of this port with this handle.
pub fn session_of(port: u8, handle: u8) -> Session {
    Session::new(Port::new(port).unwrap(), handle).unwrap()
}

pub fn credential(number: u8) -> Credential {
    Credential::new(number).unwrap()
}

pub fn class(number: u8) -> Class {
    Class::new(number).unwrap()
}

/// Document 01's P is `named(0x11, 0x11)`, its Q `named(0x22, 0x22)`, its R `named(0x11, 0x12)`.
pub fn named(body: u8, last: u8) -> Name {
    let mut bytes = [0; NAME_LENGTH];
    bytes[16..].fill(body);
    bytes[NAME_LENGTH - 1] = last;
    Name(bytes)
}

pub fn p() -> Name {
    named(0x11, 0x11)
}

pub fn q() -> Name {
    named(0x22, 0x22)
}

pub fn r() -> Name {
    named(0x11, 0x12)
}

/// A user claim with the verdict yes.
pub fn by(of: u8, number: u16) -> UserClaim {
    UserClaim {
        credential: credential(of),
        number,
        verdict: true,
    }
}

/// This grant word, and the second word zero.
pub fn plain(word: u32) -> Words {
    Words { word, second: 0 }
}

/// Document 01's grants: credential 0 has word 15 and credential 1 has word 16.
pub fn grants() -> [Grants; 8] {
    let mut grants = [Grants::UNPROVISIONED; 8];
    grants[0] = Grants::of_word(15);
    grants[1] = Grants::of_word(16);
    grants
}

/// Document 01's module with these sessions of port 0 open, each with version 1.0.
pub fn opened(sessions: &[u8]) -> Module {
    opened_of(&grants(), sessions)
}

/// The same with other grants.
pub fn opened_of(grants: &[Grants; 8], sessions: &[u8]) -> Module {
    let mut module = Module::fresh(grants).unwrap();
    for &handle in sessions {
        module.open(session(handle)).unwrap();
        module.select(session(handle), VERSION_1_0).unwrap();
    }
    module
}

/// A module whose table is full: credential 0 has started eleven processes in session 0 and saved them, and has a twelfth active.
pub fn full() -> Module {
    let mut module = opened(&[0]);
    for at in 0..PLACES {
        let name = Name([at as u8; NAME_LENGTH]);
        module.start(session(0), credential(0), &name).unwrap();
        if at < PLACES - 1 {
            module.end(session(0), by(0, 0), true).unwrap();
        }
    }
    module
}
