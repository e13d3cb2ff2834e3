//! A second management port (document 02, order 10): steps on both sides of each bound, through the entries, and what the ports see of each other.

mod common;

use common::{by as typed, credential, grants, p, q, r, session_of};
use slavotuk::entries::{self, RawClaim};
use slavotuk::layout::{image, listing, state};
use slavotuk::{
    Call, Claim, Grants, Listing, Module, Name, Phase, Port, Refusal, Session, Standing, Wanted,
    FULL_LISTING_LENGTH, PLACES, STATE_LENGTH, VERSION_1_0,
};
use std::sync::Mutex;
use std::thread;

const ALL: u32 = 65535;

const ELEVATED: RawClaim = RawClaim::ELEVATED;

/// A port and a session of it.
type At = (u32, u32);

/// All of them, port 0's first.
fn everywhere() -> impl Iterator<Item = At> {
    (0..2).flat_map(|port| (0..4).map(move |session| (port, session)))
}

/// Where a session's phase stands in a state.
fn slot((port, session): At) -> usize {
    4 * port as usize + session as usize
}

/// A user's claim with the verdict yes.
fn by(credential: u32, number: u16) -> RawClaim {
    RawClaim::user(credential, number)
}

/// 47 zero bytes and this number.
fn n(number: u8) -> Name {
    let mut bytes = [0; 48];
    bytes[47] = number;
    Name(bytes)
}

/// A lent state.
#[derive(Clone, Debug, PartialEq)]
struct Lent([u8; STATE_LENGTH]);

impl Lent {
    /// Fresh: the first credentials are provisioned, each with its grant word.
    fn fresh(words: &[u32]) -> Lent {
        let mut provisioned = [0; 8];
        provisioned[..words.len()].fill(1);
        let mut all = [0; 8];
        all[..words.len()].copy_from_slice(words);
        let mut state = [0xff; STATE_LENGTH];
        assert_eq!(entries::fresh(&mut state, &provisioned, &all, &[0; 8]), 0);
        Lent(state)
    }

    /// The phases of all sessions, as docs/STATE.md draws them.
    fn phases(&self) -> [u8; 8] {
        self.0[..8].try_into().unwrap()
    }

    /// The processes that stand: credential, type, the session's place among all, next number, name.
    fn standing(&self) -> Vec<(u8, u8, u8, u16, Name)> {
        let places = (0..self.0[state::COUNT_AT].into()).map(state::place_at);
        let read = |at| {
            let place: &[u8] = &self.0[at..][..state::PLACE_LENGTH];
            let next = u16::from_le_bytes([place[state::NEXT], place[state::NEXT + 1]]);
            let name = Name::try_from(&place[state::NAME..]).unwrap();
            (
                place[state::OWNER],
                place[state::TYPE],
                place[state::SESSION],
                next,
                name,
            )
        };
        places.map(read).collect()
    }

    /// Makes a call, which leaves the state as it was where it is refused.
    #[track_caller]
    fn made(&mut self, call: impl FnOnce(&mut [u8]) -> u32) -> u32 {
        let before = self.clone();
        let number = call(&mut self.0);
        if number != 0 {
            assert_eq!(*self, before);
        }
        number
    }

    /// Makes a protected call. Where it is refused after a user's claim that passed, its process, the one of this port and session, has spent a number, and that is all.
    #[track_caller]
    fn claimed(&mut self, at: At, claim: RawClaim, call: impl FnOnce(&mut [u8]) -> u32) -> u32 {
        let mut expected = self.clone();
        let number = call(&mut self.0);
        let own = |(owner, kind, its, ..): &(u8, u8, u8, u16, Name)| {
            (u32::from(*owner), *kind, usize::from(*its)) == (claim.credential, 0, slot(at))
        };
        let place = expected.standing().iter().position(own);
        if let (0, 5 | 6 | 10 | 15 | 18, Some(place)) = (claim.kind, number, place) {
            let next = state::place_at(place) + state::NEXT;
            expected.0[next..][..2].copy_from_slice(&(claim.number + 1).to_le_bytes());
        }
        if number != 0 {
            assert_eq!(*self, expected);
        }
        number
    }

    #[track_caller]
    fn open(&mut self, (port, session): At) -> u32 {
        self.made(|state| entries::open(state, port, session))
    }

    #[track_caller]
    fn close(&mut self, (port, session): At) -> u32 {
        self.made(|state| entries::close(state, port, session))
    }

    #[track_caller]
    fn drop(&mut self, (port, session): At) -> u32 {
        self.made(|state| entries::drop(state, port, session))
    }

    #[track_caller]
    fn select(&mut self, (port, session): At) -> u32 {
        self.made(|state| entries::select(state, port, session, VERSION_1_0.into()))
    }

    #[track_caller]
    fn start(&mut self, (port, session): At, credential: u32, name: Name) -> u32 {
        self.made(|state| entries::start(state, port, session, credential, &name.0))
    }

    #[track_caller]
    fn continue_saved(&mut self, (port, session): At, credential: u32, name: Name) -> u32 {
        self.made(|state| entries::continue_saved(state, port, session, credential, &name.0))
    }

    #[track_caller]
    fn elevate(&mut self, (port, session): At, credential: u32, name: Name) -> u32 {
        self.made(|state| entries::elevate(state, port, session, credential, &name.0, 1))
    }

    /// An end with keep.
    #[track_caller]
    fn save(&mut self, at: At, claim: RawClaim) -> u32 {
        self.claimed(at, claim, |state| {
            entries::end(state, at.0, at.1, claim.credential, claim.number, 1, 1)
        })
    }

    #[track_caller]
    fn record(&mut self, at: At, claim: RawClaim, class: u32) -> u32 {
        self.claimed(at, claim, |state| {
            entries::record(state, at.0, at.1, claim, class)
        })
    }

    /// A listing into so much room: the names of its rows, or the number that refuses it, and the room is then as it was.
    #[track_caller]
    fn list(
        &mut self,
        at: At,
        claim: RawClaim,
        wanted: u32,
        room: usize,
    ) -> Result<Vec<Name>, u32> {
        let (mut response, mut length) = (vec![0xaa; room], 7);
        let number = self.claimed(at, claim, |state| {
            entries::list(state, at.0, at.1, claim, wanted, &mut response, &mut length)
        });
        if number != 0 {
            assert_eq!((response, length), (vec![0xaa; room], 0));
            return Err(number);
        }
        let listing = Listing::read(&response[..length]).unwrap();
        Ok(listing.rows().map(|row| row.name).collect())
    }

    #[track_caller]
    fn kill(&mut self, at: At, claim: RawClaim, name: Name) -> u32 {
        self.claimed(at, claim, |state| {
            entries::kill(state, at.0, at.1, claim, &name.0)
        })
    }

    /// Opens a session and selects its version.
    #[track_caller]
    fn enter(&mut self, at: At) {
        assert_eq!([self.open(at), self.select(at)], [0, 0]);
    }
}

// ---- the steps

const HERE: At = (0, 0);
const BESIDE: At = (0, 1);
const ACROSS: At = (1, 0);

fn step_1() -> Lent {
    let mut lent = Lent::fresh(&[15, 16, 0, 0, 0, 0]);
    let wrong = [(2, 0), (0, 4), (0, 7), (1, 4)];
    assert_eq!(wrong.map(|at| lent.open(at)), [1; 4]);
    assert_eq!([ACROSS, ACROSS, HERE].map(|at| lent.open(at)), [0, 2, 0]);
    assert_eq!(lent.phases(), [1, 0, 0, 0, 1, 0, 0, 0]);
    lent
}

fn step_2(lent: &mut Lent) {
    assert_eq!(lent.select(ACROSS), 0);
    assert_eq!(lent.start(HERE, 0, p()), 3);
    assert_eq!(lent.select(HERE), 0);
    assert_eq!(lent.start(BESIDE, 0, p()), 2);
}

fn step_3(lent: &mut Lent) {
    assert_eq!(lent.start(HERE, 0, p()), 0);
    assert_eq!(lent.start(ACROSS, 0, p()), 12);
    assert_eq!(lent.start(ACROSS, 0, q()), 0);
    assert_eq!(lent.start(ACROSS, 0, r()), 7);
    assert_eq!(lent.start(HERE, 0, r()), 7);
}

fn step_4(lent: &mut Lent) {
    assert_eq!(lent.start(HERE, 1, r()), 0);
    assert_eq!(lent.record(ACROSS, by(1, 0), 4), 6);
    assert_eq!(lent.record(HERE, by(1, 0), 4), 0);
}

fn step_5(lent: &mut Lent) {
    assert_eq!(lent.list(ACROSS, by(0, 0), ALL, 156), Err(15));
    assert_eq!(
        lent.list(ACROSS, by(0, 1), ALL, 157),
        Ok(vec![p(), q(), r()])
    );
    // another process, another count
    assert_eq!(lent.list(HERE, by(0, 0), 0, 106), Ok(vec![p(), q()]));
}

fn step_6(lent: &mut Lent) {
    assert_eq!(lent.kill(ACROSS, by(0, 2), r()), 0);
    assert_eq!(lent.record(HERE, by(1, 1), 4), 6);
}

fn step_7(lent: &mut Lent) {
    assert_eq!(lent.elevate(HERE, 0, r()), 0);
    assert_eq!(lent.elevate(HERE, 0, n(1)), 7);
    assert_eq!(lent.elevate(ACROSS, 0, r()), 12);
    assert_eq!(lent.elevate(ACROSS, 0, n(1)), 0);
    assert_eq!(lent.drop(ACROSS), 0);
    assert_eq!(
        lent.list(ACROSS, ELEVATED, ALL, FULL_LISTING_LENGTH),
        Err(6)
    );
    let own = lent.list(HERE, ELEVATED, 0, FULL_LISTING_LENGTH);
    assert_eq!(own, Ok(vec![p(), q(), r()]));
}

fn step_8(lent: &mut Lent) {
    assert_eq!(lent.save(ACROSS, by(0, 3)), 0);
    // of a saved process no session is kept
    assert_eq!(lent.standing()[1], (0, 2, 0, 4, q()));
    assert_eq!(lent.continue_saved(HERE, 0, q()), 7);
    lent.enter(BESIDE);
    assert_eq!(lent.continue_saved(BESIDE, 0, q()), 0);
    assert_eq!(lent.standing()[1], (0, 0, 1, 4, q()));
}

fn step_9(lent: &mut Lent) {
    assert_eq!(lent.start(ACROSS, 0, p()), 12);
    assert_eq!(lent.start(ACROSS, 0, n(2)), 0);
    assert_eq!(lent.close(HERE), 0);
    assert_eq!(lent.standing(), [(0, 0, 1, 4, q()), (0, 0, 4, 0, n(2))]);
    assert_eq!(lent.phases(), [0, 2, 0, 0, 2, 0, 0, 0]);
}

fn step_10(lent: &mut Lent) {
    lent.enter(HERE);
    for credential in 0..6 {
        assert_eq!(lent.start(HERE, credential, n(3 + credential as u8)), 0);
    }
    for credential in 1..5 {
        assert_eq!(lent.start(BESIDE, credential, n(8 + credential as u8)), 0);
    }
    assert_eq!(lent.standing().len(), PLACES);
}

fn step_11(lent: &mut Lent) {
    assert_eq!(lent.start(ACROSS, 1, n(50)), 11);
    assert_eq!(lent.start(ACROSS, 1, q()), 12);
    assert_eq!(lent.elevate(ACROSS, 0, n(50)), 11);
    assert_eq!(lent.kill(HERE, by(0, 0), n(4)), 0);
    assert_eq!(lent.start(ACROSS, 1, n(50)), 0);
    assert_eq!(lent.start(ACROSS, 2, n(51)), 11);
}

fn step_12(lent: &mut Lent) {
    assert_eq!(lent.close(ACROSS), 0);
    let slots: Vec<u8> = lent.standing().iter().map(|process| process.2).collect();
    assert_eq!(slots, [1, 0, 0, 0, 0, 0, 1, 1, 1, 1]);
    assert_eq!(lent.phases(), [2, 2, 0, 0, 0, 0, 0, 0]);
}

#[test]
fn steps_1_to_12() {
    let mut lent = step_1();
    let steps = [
        step_2, step_3, step_4, step_5, step_6, step_7, step_8, step_9, step_10, step_11, step_12,
    ];
    for step in steps {
        step(&mut lent);
    }
}

// ---- which ports and sessions there are

#[test]
fn a_session_is_made_of_a_port_and_a_handle() {
    let sessions: Vec<Session> = Session::all().collect();
    assert_eq!((sessions.len(), Session::all().len()), (Session::COUNT, 8));
    for (at, session) in everywhere().zip(sessions) {
        assert_eq!(Session::try_from(at), Ok(session));
        assert_eq!(session, session_of(at.0 as u8, at.1 as u8));
        let parts = (session.port().into(), session.handle().into());
        assert_eq!(at, parts);
        assert_eq!(session.to_string(), format!("{}.{}", at.0, at.1));
    }
    let last = Session::all().next_back();
    assert_eq!(last, Session::new(Port::new(1).unwrap(), 3));
}

const WRONG: [At; 14] = [
    (0, 4),
    (0, 5),
    (0, 6),
    (0, 7),
    (0, 8),
    (1, 4),
    (1, u32::MAX),
    (2, 0),
    (3, 3),
    (4, 0),
    (256, 0),
    (0, 256),
    (1 << 31, 0),
    (u32::MAX, u32::MAX),
];

/// Each call of document 01 at a port and a session.
fn calls((port, session): At) -> [Call; 12] {
    let name = || n(77).0.to_vec();
    let claim = by(0, 0);
    [
        Call::Open { port, session },
        Call::Close { port, session },
        Call::Drop { port, session },
        Call::Select {
            port,
            session,
            version: 0x10,
        },
        Call::Start {
            port,
            session,
            credential: 1,
            name: name(),
        },
        Call::Continue {
            port,
            session,
            credential: 1,
            name: name(),
        },
        Call::Elevate {
            port,
            session,
            credential: 0,
            name: name(),
            verdict: 1,
        },
        Call::End {
            port,
            session,
            credential: 0,
            number: 0,
            verdict: 1,
            keep: 1,
        },
        Call::Record {
            port,
            session,
            claim,
            class: 4,
        },
        Call::List {
            port,
            session,
            claim,
            wanted: ALL,
            response: vec![0xaa; FULL_LISTING_LENGTH],
            length: 7,
        },
        Call::Kill {
            port,
            session,
            claim,
            name: name(),
        },
        Call::SetWord {
            port,
            session,
            claim,
            target: 1,
            word: 0,
            second: 0,
        },
    ]
}

/// Every session is open with a version, or every one is closed: a wrong port and a wrong session are told first, in every call.
#[test]
fn a_port_over_1_and_a_session_over_3_get_1_in_every_call() {
    let closed = Lent::fresh(&[15, 16]);
    let mut open = closed.clone();
    for at in everywhere() {
        open.enter(at);
        assert_eq!(open.start(at, 0, n(slot(at) as u8)), 0);
    }
    for at in WRONG {
        assert_eq!(Session::try_from(at), Err(Refusal::Argument), "{at:?}");
        for state in [&closed, &open] {
            for mut call in calls(at) {
                let mut lent = state.clone();
                assert_eq!(call.make(&mut lent.0), 1, "{call}");
                assert_eq!(lent, *state, "{call}");
            }
        }
    }
}

#[test]
fn each_session_has_a_byte_of_its_own() {
    for at in everywhere() {
        let mut lent = Lent::fresh(&[15]);
        let mut phases = [0; 8];
        assert_eq!(lent.open(at), 0);
        phases[slot(at)] = 1;
        assert_eq!(lent.phases(), phases);
        assert_eq!(lent.select(at), 0);
        phases[slot(at)] = 2;
        assert_eq!(lent.phases(), phases);
        assert_eq!(lent.elevate(at, 0, p()), 0);
        assert_eq!(lent.standing(), [(0, 1, slot(at) as u8, 0, p())]);
        assert_eq!(lent.close(at), 0);
        assert_eq!(lent, Lent::fresh(&[15]));
    }
}

// ---- what one session sees of another

/// Each two sessions: what stands in one serves no claim of the other, is no second one there, and is left by its closing.
#[test]
fn a_session_has_its_own_processes() {
    for (one, other) in everywhere().flat_map(|one| everywhere().map(move |other| (one, other))) {
        let mut lent = Lent::fresh(&[31, 16]);
        lent.enter(one);
        assert_eq!(lent.start(one, 0, p()), 0);
        assert_eq!(lent.elevate(one, 0, q()), 0);
        if one == other {
            assert_eq!(lent.record(other, by(0, 0), 4), 0);
            assert_eq!(lent.record(other, ELEVATED, 4), 0);
            assert_eq!(lent.start(other, 0, r()), 7);
            assert_eq!(lent.elevate(other, 1, r()), 7);
            assert_eq!(lent.close(other), 0);
            assert_eq!(lent.standing(), []);
            continue;
        }
        assert_eq!(lent.record(other, by(0, 0), 4), 2);
        assert_eq!(lent.open(other), 0);
        assert_eq!(lent.record(other, by(0, 0), 4), 3);
        assert_eq!(lent.select(other), 0);
        assert_eq!(lent.record(other, by(0, 0), 4), 6);
        assert_eq!(lent.record(other, ELEVATED, 4), 6);
        assert_eq!(lent.drop(other), 6);
        assert_eq!(lent.start(other, 0, q()), 12);
        assert_eq!(lent.elevate(other, 0, p()), 12);
        let before = lent.clone();
        assert_eq!(lent.start(other, 0, r()), 0);
        assert_eq!(lent.elevate(other, 0, n(1)), 0);
        assert_eq!(lent.drop(other), 0);
        assert_eq!(lent.close(other), 0);
        let mut closed = before;
        closed.0[slot(other)] = 0;
        assert_eq!(lent, closed);
    }
}

/// One user process and one elevation for a port, session and credential: eight sessions have more than there are places.
#[test]
fn twelve_places_serve_both_ports() {
    let mut module = Module::fresh(&grants()).unwrap();
    for (at, session) in Session::all().enumerate() {
        module.open(session).unwrap();
        module.select(session, VERSION_1_0).unwrap();
        module
            .start(session, credential(0), &n(at as u8 + 1))
            .unwrap();
    }
    let elevated: Vec<_> = Session::all()
        .enumerate()
        .map(|(at, session)| module.elevate(session, credential(1), &n(at as u8 + 9), true))
        .collect();
    assert_eq!(elevated[..4], [Ok(()); 4]);
    assert_eq!(elevated[4..], [Err(Refusal::Full); 4]);
    let places: Vec<Option<Session>> = module
        .processes()
        .map(|process| process.session())
        .collect();
    let all: Vec<Option<Session>> = Session::all().map(Some).collect();
    assert_eq!(places[..8], all);
    assert_eq!(places[8..], all[..4]);
}

#[test]
fn a_listing_has_the_processes_of_both_ports() {
    let mut module = Module::fresh(&grants()).unwrap();
    let sessions = [session_of(1, 2), session_of(0, 2)];
    for session in sessions {
        module.open(session).unwrap();
        module.select(session, VERSION_1_0).unwrap();
    }
    module.start(sessions[0], credential(1), &r()).unwrap();
    module.start(sessions[1], credential(0), &p()).unwrap();
    module
        .elevate(sessions[0], credential(0), &q(), true)
        .unwrap();
    let mut buffers = [[0; FULL_LISTING_LENGTH]; 2];
    let [one, other] = &mut buffers;
    module
        .list(sessions[0], Claim::Elevated, Wanted::All, one)
        .unwrap();
    let listing = module
        .list(sessions[1], typed(0, 0), Wanted::All, other)
        .unwrap();
    let names: Vec<Name> = listing.rows().map(|row| row.name).collect();
    assert_eq!(names, [r(), p(), q()]);
    // the same bytes on both: no row tells its port
    assert_eq!(one, other);
    assert_eq!(one[listing::row_at(0) + listing::TYPE], 0);
}

/// Saved on one port, a name is taken on both and its process is killed from either.
#[test]
fn a_saved_process_has_no_port() {
    for (saved, other) in [((0, 3), (1, 0)), ((1, 3), (0, 0))] {
        let mut lent = Lent::fresh(&[15, 16]);
        lent.enter(saved);
        lent.enter(other);
        assert_eq!(lent.start(saved, 0, p()), 0);
        assert_eq!(lent.save(saved, by(0, 0)), 0);
        assert_eq!(lent.standing(), [(0, 2, 0, 1, p())]);
        for at in [saved, other] {
            assert_eq!(lent.start(at, 1, p()), 12);
            let mut continued = lent.clone();
            assert_eq!(continued.continue_saved(at, 0, p()), 0);
            assert_eq!(continued.standing(), [(0, 0, slot(at) as u8, 1, p())]);
            assert_eq!(continued.record(at, by(0, 0), 4), 9);
        }
        assert_eq!(lent.close(saved), 0);
        assert_eq!(lent.elevate(other, 0, q()), 0);
        assert_eq!(lent.kill(other, ELEVATED, p()), 0);
        assert_eq!(lent.standing(), [(0, 1, slot(other) as u8, 0, q())]);
    }
}

// ---- which slices hold a state

/// Two processes of one handle on two ports are a state; of one port and handle they are none.
#[test]
fn a_slice_is_tested_with_port_and_session_together() {
    let mut lent = Lent::fresh(&[15, 16]);
    for at in [(0, 2), (1, 2)] {
        lent.enter(at);
        assert_eq!(lent.start(at, 0, n(slot(at) as u8)), 0);
        assert_eq!(lent.elevate(at, 0, n(slot(at) as u8 + 10)), 0);
    }
    assert_eq!(entries::holds(&lent.0), 0);
    for place in 0..4 {
        let at = state::place_at(place) + state::SESSION;
        for session in 0..=255 {
            let mut changed = lent.clone();
            changed.0[at] = session;
            let number = u32::from(changed != lent);
            assert_eq!(
                entries::holds(&changed.0),
                number,
                "place {place} session {session}"
            );
        }
    }
    assert_eq!(lent.record((0, 2), ELEVATED, 4), 10);
    assert_eq!(lent.save((1, 2), by(0, 0)), 0);
    for session in 1..=255 {
        lent.0[state::place_at(2) + state::SESSION] = session;
        assert_eq!(entries::holds(&lent.0), 1, "a saved process in {session}");
    }
}

// ---- document 01's steps beside another port

/// Processes of others on a port: credential 3 has a user process and an elevation, credential 4 a user process and a saved one.
fn others(lent: &mut Lent, port: u32) {
    for session in 0..2 {
        lent.enter((port, session));
    }
    assert_eq!(lent.open((port, 2)), 0);
    assert_eq!(lent.start((port, 0), 3, n(101)), 0);
    assert_eq!(lent.start((port, 1), 4, n(102)), 0);
    assert_eq!(lent.save((port, 1), by(4, 0)), 0);
    assert_eq!(lent.start((port, 0), 4, n(103)), 0);
    assert_eq!(lent.elevate((port, 1), 3, n(104)), 0);
}

/// Credentials 0 and 1 are document 01's, 3 and 4 those of others; 2 is not provisioned.
fn document_01s_module() -> Lent {
    let provisioned = [1, 1, 0, 1, 1, 0, 0, 0];
    let words = [15, 16, 0, 16, 20, 0, 0, 0];
    let mut state = [0xff; STATE_LENGTH];
    assert_eq!(entries::fresh(&mut state, &provisioned, &words, &[0; 8]), 0);
    Lent(state)
}

/// Document 01's steps on a port, with the numbers that document 02 corrects. A listing of all, and twelve that stand, have what stood before in them.
fn document_01s_steps(lent: &mut Lent, port: u32) {
    let before: Vec<Name> = lent.standing().iter().map(|process| process.4).collect();
    let room = listing::row_at(before.len() + 1);
    let [zero, one] = [(port, 0), (port, 1)];
    let denied = RawClaim {
        verdict: 0,
        ..by(1, 1)
    };
    // 1 and 2
    assert_eq!([(port, 4), zero, zero].map(|at| lent.open(at)), [1, 0, 2]);
    assert_eq!(lent.start(zero, 0, p()), 3);
    assert_eq!(entries::select(&mut lent.0, port, 0, 0x20), 4);
    assert_eq!([lent.select(zero), lent.select(zero)], [0, 0]);
    // 3 and 4
    assert_eq!(lent.start(zero, 2, p()), 5);
    assert_eq!(lent.start(zero, 0, p()), 0);
    assert_eq!(lent.start(zero, 1, p()), 12);
    assert_eq!(lent.start(zero, 1, r()), 0);
    assert_eq!(lent.start(zero, 1, p()), 7);
    // 5 to 7
    assert_eq!(lent.record(zero, by(1, 0), 4), 0);
    assert_eq!(lent.record(zero, by(1, 0), 4), 9);
    assert_eq!(lent.record(zero, denied, 4), 8);
    assert_eq!(lent.record(zero, by(1, 1), 5), 10);
    assert_eq!(lent.record(zero, by(1, 2), 4), 0);
    assert_eq!(lent.record(zero, by(1, 3), 3), 1);
    assert_eq!(lent.record(zero, by(1, 3), 31), 10);
    // 8 and 9
    assert_eq!(lent.kill(zero, by(1, 4), p()), 6);
    assert_eq!(lent.kill(zero, by(1, 5), q()), 6);
    assert_eq!(lent.kill(zero, by(0, 0), r()), 0);
    assert_eq!(lent.record(zero, by(1, 2), 4), 6);
    // 10
    assert_eq!(lent.list(zero, by(0, 1), ALL, room - 1), Err(15));
    let listed = lent.list(zero, by(0, 2), ALL, room);
    assert_eq!(listed, Ok([&before[..], &[p()]].concat()));
    // 11
    assert_eq!(lent.save(zero, by(0, 3)), 0);
    lent.enter(one);
    assert_eq!(lent.continue_saved(one, 0, q()), 6);
    assert_eq!(lent.continue_saved(one, 0, p()), 0);
    let continued = (0, 0, slot(one) as u8, 4, p());
    assert_eq!(lent.standing()[before.len()..], [continued]);
    // 12
    while lent.standing().len() < PLACES {
        let name = n(lent.standing().len() as u8);
        assert_eq!(lent.start(zero, 0, name), 0);
        assert_eq!(lent.save(zero, by(0, 0)), 0);
    }
    assert_eq!(lent.start(zero, 1, r()), 11);
    assert_eq!(lent.kill(one, by(0, 4), n(PLACES as u8 - 1)), 0);
    assert_eq!(lent.start(zero, 1, r()), 0);
    // 13
    for number in 0..=65534 {
        assert_eq!(entries::record(&mut lent.0, port, 0, by(1, number), 4), 0);
    }
    for number in [0, 65534, 65535] {
        assert_eq!(lent.record(zero, by(1, number), 4), 13);
    }
}

/// On either port, with processes of others on the other one or on none: the answers are document 01's, and what is the others' is left as it was.
#[test]
fn document_01s_steps_run_on_either_port() {
    for (own, other) in [(0, 1), (1, 0)] {
        let mut alone = document_01s_module();
        document_01s_steps(&mut alone, own);
        let [port, across] = [own, other].map(|port| 4 * port as usize..4 * port as usize + 4);
        assert_eq!(alone.phases()[port.clone()], [2, 2, 0, 0]);
        assert_eq!(alone.phases()[across.clone()], [0; 4]);

        let mut beside = document_01s_module();
        others(&mut beside, other);
        let before = beside.standing();
        document_01s_steps(&mut beside, own);
        assert_eq!(beside.phases()[port], [2, 2, 0, 0]);
        assert_eq!(beside.phases()[across], [2, 2, 1, 0]);
        let after = beside.standing();
        assert_eq!(after[..before.len()], before);
        // P, continued, and R, spent, are those of the other run; so are the saved ones between them, but for their count
        let own_ones = &after[before.len()..];
        let alone_ones = alone.standing();
        assert_eq!(own_ones[0], alone_ones[0]);
        assert_eq!(own_ones.last(), alone_ones.last());
    }
}

/// The bytes of a run on port 1 are those of the run on port 0, the ports exchanged.
#[test]
fn the_ports_are_alike() {
    let mut runs = [0, 1].map(|port| {
        let mut lent = document_01s_module();
        document_01s_steps(&mut lent, port);
        lent
    });
    let [first, second] = &mut runs;
    second.0[..8].rotate_left(4);
    for (place, process) in first.standing().iter().enumerate() {
        let at = state::place_at(place) + state::SESSION;
        match process.1 {
            2 => assert_eq!(second.0[at], 0),
            _ => second.0[at] -= 4,
        }
    }
    assert_eq!(first, second);
}

// ---- a power cycle

/// The image that a state writes.
fn written(lent: &Lent) -> Vec<u8> {
    let (mut buffer, mut length) = ([0xaa; image::FULL_LENGTH], 7);
    assert_eq!(entries::image(&lent.0, &mut buffer, &mut length), 0);
    buffer[..length].to_vec()
}

/// A process saved on one port is continued on the other after the power was gone, with its number.
#[test]
fn a_power_cycle_between_two_ports() {
    for (saved, other) in [((0, 0), (1, 3)), ((1, 3), (0, 0))] {
        let mut lent = Lent::fresh(&[15, 16]);
        lent.enter(saved);
        lent.enter(other);
        assert_eq!(lent.start(saved, 0, p()), 0);
        assert_eq!(lent.record(saved, by(0, 0), 4), 10);
        assert_eq!(lent.start(other, 1, q()), 0);
        assert_eq!(lent.elevate(other, 0, r()), 0);
        assert_eq!(lent.save(saved, by(0, 1)), 0);
        let image = written(&lent);
        // 74 bytes, and a row: credential 0, next number 2, P
        assert_eq!(image.len(), image::row_at(1));
        let row = [&[0, 0, 2, 0][..], p().as_ref()].concat();
        assert_eq!(image[image::row_at(0)..], row);

        let mut restored = Lent([0xff; STATE_LENGTH]);
        assert_eq!(entries::restore(&mut restored.0, &image), 0);
        assert_eq!(restored.phases(), [0; 8]);
        assert_eq!(restored.standing(), [(0, 2, 0, 2, p())]);
        assert_eq!(written(&restored), image);

        restored.enter(other);
        assert_eq!(restored.continue_saved(other, 0, p()), 0);
        assert_eq!(restored.standing(), [(0, 0, slot(other) as u8, 2, p())]);
        for number in [0, 1, 3] {
            assert_eq!(restored.save(other, by(0, number)), 9);
        }
        restored.enter(saved);
        assert_eq!(restored.save(saved, by(0, 2)), 6);
        assert_eq!(restored.save(other, by(0, 2)), 0);
        assert_eq!(restored.standing(), [(0, 2, 0, 3, p())]);
    }
}

/// The same through the wrapper.
#[test]
fn a_restored_module_has_both_ports_closed() {
    let (one, other) = (session_of(0, 1), session_of(1, 2));
    let mut module = Module::fresh(&[Grants::of_word(15); 8]).unwrap();
    for session in Session::all() {
        module.open(session).unwrap();
        module.select(session, VERSION_1_0).unwrap();
    }
    module.start(one, credential(5), &p()).unwrap();
    module.end(one, typed(5, 0), true).unwrap();
    let mut module = Module::restore(&module.image().unwrap()).unwrap();
    assert!(Session::all().all(|session| module.phase(session) == Phase::Closed));
    module.open(other).unwrap();
    module.select(other, VERSION_1_0).unwrap();
    module.continue_saved(other, credential(5), &p()).unwrap();
    let standing = module.processes().next().unwrap().standing;
    let next_number = 1;
    assert_eq!(
        standing,
        Standing::ActiveUser {
            session: other,
            next_number
        }
    );
}

// ---- a thread for each port

/// Two threads share the module by a lock: each port's records are counted by themselves.
#[test]
fn two_threads_call_one_at_a_time() {
    let mut module = Module::fresh(&[Grants::of_word(16); 8]).unwrap();
    let sessions = [session_of(0, 0), session_of(1, 0)];
    for (session, name) in sessions.into_iter().zip([p(), q()]) {
        module.open(session).unwrap();
        module.select(session, VERSION_1_0).unwrap();
        module.start(session, credential(0), &name).unwrap();
    }
    let module = Mutex::new(module);
    let class = common::class(4);
    thread::scope(|scope| {
        for session in sessions {
            let module = &module;
            scope.spawn(move || {
                for number in 0..1000 {
                    let answer = module
                        .lock()
                        .unwrap()
                        .record(session, typed(0, number), class);
                    assert_eq!(answer, Ok(()));
                }
            });
        }
    });
    let module = module.into_inner().unwrap();
    let next: Vec<Option<u16>> = module
        .processes()
        .map(|process| process.next_number())
        .collect();
    assert_eq!(next, [Some(1000); 2]);
}
