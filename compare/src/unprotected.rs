//! The calls without a claim of tests that know their numbers, all in session 0 of port 0.

use crate::call::Call;

pub fn open() -> Call {
    Call::Open {
        port: 0,
        session: 0,
    }
}

pub fn close() -> Call {
    Call::Close {
        port: 0,
        session: 0,
    }
}

pub fn drop_elevation() -> Call {
    Call::Drop {
        port: 0,
        session: 0,
    }
}

pub fn select(version: u32) -> Call {
    Call::Select {
        port: 0,
        session: 0,
        version,
    }
}

pub fn start(credential: u32, name: Vec<u8>) -> Call {
    Call::Start {
        port: 0,
        session: 0,
        credential,
        name,
    }
}

pub fn continue_saved(credential: u32, name: Vec<u8>) -> Call {
    Call::Continue {
        port: 0,
        session: 0,
        credential,
        name,
    }
}

pub fn elevate(credential: u32, name: Vec<u8>) -> Call {
    Call::Elevate {
        port: 0,
        session: 0,
        credential,
        name,
        verdict: 1,
    }
}
