//! The protected calls of tests that know their numbers, all in session 0 of port 0.

use crate::call::Call;
use slavotuk::entries::RawClaim;
use slavotuk_model::module::{Credential, NAME_LENGTH};

/// The name that is this byte throughout.
pub fn name_of(byte: u8) -> Vec<u8> {
    vec![byte; NAME_LENGTH]
}

pub fn record(claim: RawClaim, class: u32) -> Call {
    Call::Record {
        port: 0,
        session: 0,
        claim,
        class,
    }
}

pub fn list(claim: RawClaim, wanted: u32, room: usize) -> Call {
    Call::List {
        port: 0,
        session: 0,
        claim,
        wanted,
        response: vec![0xee; room].into(),
        length: 1,
    }
}

pub fn kill(claim: RawClaim, name: u8) -> Call {
    Call::Kill {
        port: 0,
        session: 0,
        claim,
        name: name_of(name),
    }
}

pub fn set_words(claim: RawClaim, target: u32, words: Credential) -> Call {
    Call::SetWord {
        port: 0,
        session: 0,
        claim,
        target,
        word: words.word,
        second: words.second,
    }
}

/// An end has a user's claim always.
pub fn end(claim: RawClaim, keep: u32) -> Call {
    Call::End {
        port: 0,
        session: 0,
        credential: claim.credential,
        number: claim.number,
        verdict: claim.verdict,
        keep,
    }
}
