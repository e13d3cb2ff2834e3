//! Two calls one after another, in all 64 pairs of sessions of both ports. What the first did the second does not see, but for names, places and words: it is
//! answered as if it were alone, and leaves its session as it would have.

use crate::call::{moved, numbers_of, Call};
use crate::protected::{end, kill, list, name_of, record, set_words};
use crate::sides::Pair;
use crate::unprotected::{close, continue_saved, drop_elevation, elevate, open, select, start};
use slavotuk::entries::RawClaim;
use slavotuk::layout::listing::FULL_LENGTH;
use slavotuk_model::layout;
use slavotuk_model::module::{Credential, Module, Phase, Process, Session};
use slavotuk_model::module::{CREDENTIALS, NAME_LENGTH, PLACES};

/// Every class, and none only under elevation.
const PLAIN: Credential = Credential::with(u32::MAX, 0);
/// No class.
const NONE: Credential = Credential::with(0, 0);

/// Has a user process in both sessions.
const USER: u32 = 1;
/// Has two saved processes.
const SAVER: u32 = 4;
/// Has none.
const NEWCOMER: u32 = 5;
/// Has none, and its words are set.
const TARGET: u32 = 6;

/// What belongs to one of the two sessions.
#[derive(Clone, Copy, Debug)]
struct Part {
    /// Whose its elevation is.
    elevated: u32,
    /// The next number of its user process.
    next: u16,
    /// The bytes in the names of its user process, its elevation, and the saved process and the new one that only its calls name.
    user: u8,
    elevation: u8,
    saved: u8,
    new: u8,
}

const FIRST: Part = Part {
    elevated: 2,
    next: 5,
    user: 11,
    elevation: 12,
    saved: 13,
    new: 14,
};

const SECOND: Part = Part {
    elevated: 3,
    next: 9,
    user: 21,
    elevation: 22,
    saved: 23,
    new: 24,
};

impl Part {
    fn claim(&self) -> RawClaim {
        RawClaim::user(USER, self.next)
    }

    fn processes(&self, session: Session) -> [Process; 2] {
        let name = |byte: u8| [byte; NAME_LENGTH];
        [
            Process::user(session, USER as usize, self.next, name(self.user)),
            Process::elevation(session, self.elevated as usize, name(self.elevation)),
        ]
    }
}

/// How a session stands.
#[derive(Clone, Copy, Debug, PartialEq, Eq)]
enum Standing {
    Closed,
    WithoutVersion,
    WithVersion,
    /// With a version, and both kinds of active processes.
    Used,
}

use Standing::*;

const STANDINGS: [Standing; 4] = [Closed, WithoutVersion, WithVersion, Used];

/// A module with these two sessions, and all others closed; where they are one, it is the first.
fn module(sessions: [Session; 2], standings: [Standing; 2]) -> Module {
    let mut module = Module::fresh([PLAIN; CREDENTIALS]);
    for part in [FIRST, SECOND] {
        let name = [part.saved; NAME_LENGTH];
        module
            .processes
            .push(Process::saved(SAVER as usize, part.next, name));
    }
    let [one, other] = sessions;
    let distinct = if one == other { 1 } else { 2 };
    let parts = [FIRST, SECOND].into_iter().take(distinct);
    for ((part, session), standing) in parts.zip(sessions).zip(standings) {
        let phase = match standing {
            Closed => Phase::Closed,
            WithoutVersion => Phase::OpenWithoutVersion,
            WithVersion | Used => Phase::OpenWithVersion,
        };
        module.set_phase(session, phase);
        if standing == Used {
            module.processes.extend(part.processes(session));
        }
    }
    module
}

/// The calls that come first: each does something where its session stands so that it can.
fn first_calls() -> Vec<Call> {
    let claim = FIRST.claim();
    vec![
        open(),
        close(),
        drop_elevation(),
        select(0x10),
        start(NEWCOMER, name_of(FIRST.new)),
        continue_saved(SAVER, name_of(FIRST.saved)),
        elevate(FIRST.elevated, name_of(FIRST.new)),
        end(claim, 0),
        end(claim, 1),
        record(claim, 4),
        list(claim, USER, FULL_LENGTH),
        kill(claim, FIRST.user),
        kill(claim, FIRST.saved),
        kill(RawClaim::ELEVATED, FIRST.elevation),
        set_words(claim, TARGET, NONE),
    ]
}

/// The calls that come second, and by which the first is looked for.
fn second_calls() -> Vec<Call> {
    let claim = SECOND.claim();
    vec![
        open(),
        close(),
        drop_elevation(),
        select(0x10),
        select(0x20),
        start(USER, name_of(SECOND.new)),
        start(NEWCOMER, name_of(SECOND.new)),
        continue_saved(SAVER, name_of(SECOND.saved)),
        elevate(SECOND.elevated, name_of(SECOND.new)),
        end(claim, 0),
        end(claim, 1),
        record(claim, 4),
        record(FIRST.claim(), 4),
        record(RawClaim::ELEVATED, 4),
        list(claim, SECOND.elevated, FULL_LENGTH),
        list(RawClaim::ELEVATED, SECOND.elevated, FULL_LENGTH),
        kill(claim, SECOND.user),
        kill(RawClaim::ELEVATED, SECOND.elevation),
        set_words(claim, USER, PLAIN),
    ]
}

fn in_session(calls: Vec<Call>, session: Session) -> Vec<Call> {
    let numbers = numbers_of(session);
    let calls = calls.into_iter();
    calls.map(|call| moved(call, numbers)).collect()
}

/// What comes of a call: its number, and how its session is left, with the processes that are active in it.
type Left = (u32, Phase, Vec<Process>);

#[derive(Default)]
struct Counted {
    calls: u64,
    pairs: u64,
}

impl Counted {
    fn make(&mut self, pair: &mut Pair, call: &Call, session: Session) -> Result<Left, String> {
        self.calls += 1;
        let answer = pair.call(call).map_err(|what| format!("{call}: {what}"))?;
        let module = pair.module().ok_or("no state is lent")?;
        let is_there = |process: &&Process| process.kind.session() == Some(session);
        let processes = module.processes.iter().filter(is_there);
        let phase = module.phase(session);
        Ok((answer.number, phase, processes.copied().collect()))
    }

    /// Every first call that changes something, and every second after it.
    fn tried(&mut self, sessions: [Session; 2], standings: [Standing; 2]) -> Result<(), String> {
        let [one, other] = sessions;
        let lent = Pair::of(&layout::write(&module(sessions, standings)));
        let seconds = in_session(second_calls(), other);
        let alone: Vec<Left> = (seconds.iter())
            .map(|second| self.make(&mut lent.clone(), second, other))
            .collect::<Result<_, _>>()?;
        for first in in_session(first_calls(), one) {
            let mut pair = lent.clone();
            self.make(&mut pair, &first, one)?;
            if pair.archive.state() == lent.archive.state() {
                continue;
            }
            for (second, alone) in seconds.iter().zip(&alone) {
                let left = self.make(&mut pair.clone(), second, other)?;
                self.pairs += 1;
                if one != other && left != *alone {
                    return Err(format!(
                        "{second}: {alone:?} alone, and {left:?} after {first}"
                    ));
                }
            }
        }
        Ok(())
    }
}

/// Every pair of calls in every pair of sessions.
pub fn every_pair_of_sessions() -> Result<String, String> {
    let mut counted = Counted::default();
    for sessions in pairs_of_sessions() {
        for standings in pairs_of_standings() {
            if sessions[0] == sessions[1] && standings[0] != standings[1] {
                continue;
            }
            let outcome = counted.tried(sessions, standings);
            outcome.map_err(|what| {
                let [one, other] = sessions;
                format!("{one} and {other}, {standings:?}: {what}")
            })?;
        }
    }
    let Counted { calls, pairs } = counted;
    Ok(format!(
        "{pairs} times two calls, in all 64 pairs of sessions: the second does not see the first, {calls} calls"
    ))
}

fn pairs_of_sessions() -> impl Iterator<Item = [Session; 2]> {
    Session::all().flat_map(|one| Session::all().map(move |other| [one, other]))
}

fn pairs_of_standings() -> impl Iterator<Item = [Standing; 2]> {
    let second = |one| STANDINGS.into_iter().map(move |other| [one, other]);
    STANDINGS.into_iter().flat_map(second)
}

/// Two sessions that stand so, with as many processes in all, and calls in the one or the other with the numbers that are right.
struct Seen {
    standings: [Standing; 2],
    processes: usize,
    calls: Vec<(Which, Call, u32)>,
}

#[derive(Clone, Copy)]
enum Which {
    One,
    Other,
}

use Which::*;

/// What the second does see: names, places and words.
fn seen() -> Vec<Seen> {
    let (first, second) = (FIRST.claim(), SECOND.claim());
    let continued = RawClaim::user(USER, FIRST.next + 1);
    let [new, another] = [FIRST.new, SECOND.new].map(name_of);
    let of = |standings, processes, calls| Seen {
        standings,
        processes,
        calls,
    };
    vec![
        of(
            [WithVersion, WithVersion],
            2,
            vec![
                (One, start(NEWCOMER, new.clone()), 0),
                (Other, start(TARGET, new.clone()), 12),
                (Other, elevate(TARGET, new.clone()), 12),
                (Other, start(NEWCOMER, another.clone()), 0),
            ],
        ),
        of(
            [WithVersion, WithVersion],
            2,
            vec![
                (One, elevate(NEWCOMER, new.clone()), 0),
                (Other, start(NEWCOMER, new.clone()), 12),
                (Other, elevate(NEWCOMER, new.clone()), 12),
                (Other, elevate(NEWCOMER, another.clone()), 0),
                (One, drop_elevation(), 0),
                (Other, start(NEWCOMER, new.clone()), 0),
            ],
        ),
        of(
            [Used, WithVersion],
            4,
            vec![
                (Other, start(USER, name_of(FIRST.user)), 12),
                (One, close(), 0),
                (Other, start(USER, name_of(FIRST.user)), 0),
                (Other, elevate(USER, name_of(FIRST.elevation)), 0),
            ],
        ),
        of(
            [WithVersion, WithVersion],
            PLACES - 1,
            vec![
                (One, start(NEWCOMER, new.clone()), 0),
                (Other, start(NEWCOMER, another.clone()), 11),
                (Other, elevate(NEWCOMER, another.clone()), 11),
                (Other, start(NEWCOMER, new.clone()), 12),
                (One, close(), 0),
                (Other, start(NEWCOMER, another.clone()), 0),
                (Other, elevate(NEWCOMER, new), 11),
            ],
        ),
        of(
            [Used, WithVersion],
            PLACES,
            vec![
                (Other, elevate(USER, another.clone()), 11),
                (One, end(first, 0), 0),
                (Other, elevate(USER, another.clone()), 0),
                (Other, start(USER, name_of(FIRST.user)), 11),
                (One, drop_elevation(), 0),
                (Other, start(USER, name_of(FIRST.user)), 0),
            ],
        ),
        of(
            [Used, WithVersion],
            4,
            vec![
                (Other, continue_saved(USER, name_of(FIRST.user)), 6),
                (One, end(first, 1), 0),
                (Other, continue_saved(USER, name_of(FIRST.user)), 0),
                (Other, record(first, 4), 9),
                (Other, record(continued, 4), 0),
                (One, record(continued, 4), 6),
            ],
        ),
        of(
            [Used, Used],
            6,
            vec![
                (One, end(first, 1), 0),
                (Other, continue_saved(USER, name_of(FIRST.user)), 7),
                (One, continue_saved(USER, name_of(FIRST.user)), 0),
            ],
        ),
        of(
            [Used, Used],
            6,
            vec![
                (One, kill(first, SECOND.user), 0),
                (Other, record(second, 4), 6),
                (One, kill(RawClaim::ELEVATED, SECOND.elevation), 0),
                (Other, record(RawClaim::ELEVATED, 4), 6),
                (One, record(RawClaim::ELEVATED, 4), 0),
            ],
        ),
        of(
            [Used, Used],
            6,
            vec![
                (One, set_words(first, USER, NONE), 0),
                (Other, record(second, 4), 10),
                (Other, set_words(RawClaim::ELEVATED, USER, PLAIN), 0),
                (One, record(continued, 4), 0),
            ],
        ),
        of(
            [Used, Used],
            6,
            vec![
                (One, list(first, USER, 105), 15),
                (One, list(continued, USER, 106), 0),
                (Other, list(second, 65_535, 309), 15),
                (Other, list(RawClaim::ELEVATED, 65_535, 310), 0),
            ],
        ),
    ]
}

/// The module with saved processes added, until as many stand.
fn filled(mut module: Module, processes: usize) -> Vec<u8> {
    let names = (100..).map(|byte| [byte; NAME_LENGTH]);
    let more = processes.saturating_sub(module.processes.len());
    let saved = names
        .take(more)
        .map(|name| Process::saved(SAVER as usize, 1, name));
    module.processes.extend(saved);
    layout::write(&module)
}

/// Names, places and words between each two sessions.
pub fn names_places_and_words() -> Result<String, String> {
    let mut calls = 0;
    let cases = seen();
    for sessions in pairs_of_sessions().filter(|[one, other]| one != other) {
        for case in &cases {
            let lent = filled(module(sessions, case.standings), case.processes);
            let mut pair = Pair::of(&lent);
            for (which, call, right) in &case.calls {
                let session = sessions[*which as usize];
                let call = moved(call.clone(), numbers_of(session));
                let outcome = pair.expect(&call, *right);
                outcome.map_err(|what| {
                    let [one, other] = sessions;
                    format!("{one} and {other}: {what}")
                })?;
                calls += 1;
            }
        }
    }
    Ok(format!(
        "what one session sees of another, of both ports: names, places and words in {} ways, {calls} calls",
        cases.len()
    ))
}
