//! Every call on ports and with handles on both sides of each width, in several states. A port over 1 or a handle over 3 is 1 ahead of everything else, also where the
//! two together would count up to a session; of a port and a handle in their ranges nothing is.

use crate::call::{moved, Call};
use crate::protected::{end, kill, list, name_of, record, set_words};
use crate::report::Singles;
use crate::unprotected::{close, continue_saved, drop_elevation, elevate, open, select, start};
use slavotuk::entries::RawClaim;
use slavotuk::layout::listing::FULL_LENGTH;
use slavotuk_model::layout;
use slavotuk_model::module::{Credential, Module, Phase, Process, Session};
use slavotuk_model::module::{CREDENTIALS, NAME_LENGTH};

/// Four times some of these is 0 or 4 in 8, 16 and 32 bits.
const PORTS: [u32; 20] = [
    0,
    1,
    2,
    3,
    4,
    64,
    65,
    255,
    256,
    257,
    16_384,
    16_385,
    65_536,
    65_537,
    1 << 30,
    (1 << 30) + 1,
    1 << 31,
    (1 << 31) + 1,
    u32::MAX - 1,
    u32::MAX,
];

/// The last are small in 32 bits with 4 added, as port 1 might.
const HANDLES: [u32; 19] = [
    0,
    1,
    2,
    3,
    4,
    5,
    6,
    7,
    8,
    255,
    256,
    259,
    65_536,
    65_539,
    1 << 31,
    (1 << 31) + 3,
    u32::MAX - 3,
    u32::MAX - 1,
    u32::MAX,
];

/// Every class, and none only under elevation.
const PLAIN: Credential = Credential::with(u32::MAX, 0);

/// Has a process in each session with a version, with this next number.
const USER: u32 = 1;
const NEXT: u16 = 5;
/// Has the saved process.
const SAVER: u32 = 3;
/// Has none.
const NEWCOMER: u32 = 4;

/// The bytes in names: of the elevations, of the saved process, and one that no process has. Those of user processes are smaller.
const ELEVATION: u8 = 100;
const SAVED: u8 = 102;
const UNKNOWN: u8 = 103;

/// Each call in each state on each port with each handle.
pub fn every_port_and_handle() -> Result<String, String> {
    let mut singles = Singles::default();
    let (mut arguments, mut done) = (0, 0);
    let (states, calls) = (states(), calls());
    for (name, holds, lent) in &states {
        for (call, is_good) in &calls {
            for (port, handle) in pairs() {
                let call = moved(call.clone(), (port, handle));
                let answered = singles.on(lent, &call);
                let number = answered.map_err(|what| format!("{name}: {what}"))?.number;
                let in_range = *holds && *is_good && port <= 1 && handle <= 3;
                if (number != 1) != in_range {
                    return Err(format!("{name}: {call}: both answer {number}"));
                }
                arguments += u64::from(number == 1);
                done += u64::from(number == 0);
            }
        }
    }
    Ok(format!(
        "{} ports by {} handles in {} calls on {} states: {} calls, {arguments} of them 1, {done} accepted",
        PORTS.len(),
        HANDLES.len(),
        calls.len(),
        states.len(),
        singles.calls
    ))
}

fn pairs() -> impl Iterator<Item = (u32, u32)> {
    let handles = |port| HANDLES.into_iter().map(move |handle| (port, handle));
    PORTS.into_iter().flat_map(handles)
}

/// Slices with their names, and whether they hold a state.
fn states() -> Vec<(&'static str, bool, Vec<u8>)> {
    use Phase::*;
    let states = [
        ("all closed", [Closed, Closed]),
        ("no versions", [OpenWithoutVersion, OpenWithoutVersion]),
        ("versions on port 0", [OpenWithVersion, Closed]),
        ("versions on port 1", [OpenWithoutVersion, OpenWithVersion]),
        ("versions on both", [OpenWithVersion, OpenWithVersion]),
    ];
    let mut slices: Vec<_> = (states.into_iter())
        .map(|(name, phases)| (name, true, state(phases)))
        .collect();
    let mut none = state([OpenWithVersion, OpenWithVersion]);
    none[layout::COUNT_AT] += 1;
    slices.push(("no state", false, none));
    slices
}

/// All sessions of each port in this phase, with processes where it is a version.
fn state(phases: [Phase; 2]) -> Vec<u8> {
    let mut module = Module::fresh([PLAIN; CREDENTIALS]);
    module.sessions = phases.map(|phase| [phase; 4]);
    for (at, session) in Session::all().enumerate() {
        if module.phase(session) != Phase::OpenWithVersion {
            continue;
        }
        let name = [at as u8; NAME_LENGTH];
        module
            .processes
            .push(Process::user(session, USER as usize, NEXT, name));
        if session.handle == 0 {
            let name = [ELEVATION + session.port as u8; NAME_LENGTH];
            module.processes.push(Process::elevation(session, 2, name));
        }
    }
    let saved = Process::saved(SAVER as usize, 1, [SAVED; NAME_LENGTH]);
    module.processes.push(saved);
    layout::write(&module)
}

/// Each call, and whether all that it hands in beside its session is in its range.
fn calls() -> Vec<(Call, bool)> {
    let user = RawClaim::user(USER, NEXT);
    let wrong = RawClaim { verdict: 2, ..user };
    let name = || name_of(UNKNOWN);
    let short = || vec![UNKNOWN; NAME_LENGTH - 1];
    let good = [
        open(),
        close(),
        drop_elevation(),
        select(0x10),
        select(0x20),
        start(NEWCOMER, name()),
        continue_saved(SAVER, name_of(SAVED)),
        elevate(NEWCOMER, name()),
        end(user, 0),
        end(user, 1),
        record(user, 4),
        record(RawClaim::ELEVATED, 4),
        list(user, 65_535, FULL_LENGTH),
        list(RawClaim::ELEVATED, USER, 0),
        kill(user, SAVED),
        kill(RawClaim::ELEVATED, UNKNOWN),
        set_words(user, USER, PLAIN),
        set_words(RawClaim::ELEVATED, SAVER, PLAIN),
    ];
    let bad = [
        start(8, name()),
        start(NEWCOMER, short()),
        continue_saved(8, name_of(SAVED)),
        elevate(8, name()),
        end(user, 2),
        end(wrong, 0),
        record(user, 3),
        record(wrong, 4),
        list(user, 8, FULL_LENGTH),
        kill(wrong, SAVED),
        set_words(user, 8, PLAIN),
    ];
    let of = |is_good| move |call| (call, is_good);
    (good.into_iter().map(of(true)))
        .chain(bad.into_iter().map(of(false)))
        .collect()
}
