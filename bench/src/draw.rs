//! The mixed calls, drawn from a seed: half of them accepted, and as many of each refusal as of the others.

use crate::input::Call;
use crate::numbers::*;
use crate::states::{users, Ports, User, CLOSED, UNPROVISIONED, WITHOUT_VERSION};
use slavotuk::entries::RawClaim;

/// What the calls are drawn from.
pub const SEED: u64 = 20_261_115;

/// The fewest calls that are drawn, so that there is a refusal of every kind.
pub const FEWEST_CALLS: usize = 16;

/// The most calls that are drawn. The claims of nine in sixteen pass their check, those that are accepted and those that get 10, all under one process where one
/// stands, and none may be spent.
pub const MOST_CALLS: usize = 2 * 58_253;

/// The numbers of the refused calls, each given as often as the others.
const REFUSALS: [u32; 8] = [
    ARGUMENT,
    SESSION,
    NO_VERSION,
    CREDENTIAL,
    NO_PROCESS,
    VERDICT,
    OUT_OF_TURN,
    NOT_GRANTED,
];

/// So many calls on a state with so many standing. With none standing they are those of one standing, whose process is missed.
pub fn calls(standing: usize, ports: Ports, calls: usize) -> Vec<Call> {
    let mut random = Random::new(SEED);
    let mut planner = Planner::new(standing.max(1), ports);
    let planned = numbers_in_order(calls, &mut random)
        .into_iter()
        .map(|number| planner.call(number, &mut random));
    match standing {
        0 => planned.map(without_process).collect(),
        _ => planned.collect(),
    }
}

/// How often each number is planned, in the order of the numbers.
pub fn mix(calls: usize) -> Vec<(u32, usize)> {
    let refused = calls - calls / 2;
    let counts = REFUSALS.iter().enumerate().map(|(at, &number)| {
        let one_more = usize::from(at < refused % REFUSALS.len());
        (number, refused / REFUSALS.len() + one_more)
    });
    std::iter::once((DONE, calls / 2)).chain(counts).collect()
}

/// The numbers of all calls, shuffled.
fn numbers_in_order(calls: usize, random: &mut Random) -> Vec<u32> {
    let mut numbers: Vec<u32> = mix(calls)
        .into_iter()
        .flat_map(|(number, count)| std::iter::repeat(number).take(count))
        .collect();
    random.shuffle(&mut numbers);
    numbers
}

/// The call with the number that it gets where its process does not stand.
fn without_process(call: Call) -> Call {
    let number = match call.number {
        DONE | VERDICT | OUT_OF_TURN | NOT_GRANTED => NO_PROCESS,
        other => other,
    };
    Call { number, ..call }
}

/// Makes calls that get the numbers asked for, and keeps the next numbers.
struct Planner {
    ports: Ports,
    /// Each with its next number.
    active: Vec<(User, u16)>,
    /// Those that could be active and are not.
    idle: Vec<User>,
}

impl Planner {
    fn new(standing: usize, ports: Ports) -> Planner {
        let is_active = |user| users(ports).take(standing).any(|active| active == user);
        Planner {
            ports,
            active: users(ports).take(standing).map(|user| (user, 0)).collect(),
            idle: possible_users(ports)
                .filter(|&user| !is_active(user))
                .collect(),
        }
    }

    fn call(&mut self, number: u32, random: &mut Random) -> Call {
        let place = random.below(self.active.len());
        let (user, next) = self.active[place];
        let mut call = Call {
            port: user.port,
            session: user.session,
            claim: RawClaim::user(user.credential, next),
            class: 4 + 2 * random.below(14) as u32,
            number,
        };
        match number {
            DONE => self.active[place].1 += 1,
            ARGUMENT => self.spoil_argument(&mut call, random),
            SESSION => call.session = CLOSED,
            NO_VERSION => call.session = WITHOUT_VERSION,
            CREDENTIAL => call.claim.credential = UNPROVISIONED,
            NO_PROCESS => self.miss_process(&mut call, random),
            VERDICT => call.claim.verdict = 0,
            OUT_OF_TURN => {
                call.claim.number = if random.below(2) == 0 {
                    next.wrapping_sub(1)
                } else {
                    next + 1
                }
            }
            NOT_GRANTED => {
                call.class += 1;
                self.active[place].1 += 1;
            }
            other => unreachable!("no call is planned to get {other}"),
        }
        call
    }

    /// An elevated claim in the session without an elevation, or a user's without a process.
    fn miss_process(&self, call: &mut Call, random: &mut Random) {
        if random.below(2) == 0 {
            call.session = 1;
            call.claim.kind = 1;
        } else {
            let user = self.idle[random.below(self.idle.len())];
            call.port = user.port;
            call.session = user.session;
            call.claim.credential = user.credential;
        }
    }

    fn spoil_argument(&self, call: &mut Call, random: &mut Random) {
        let ways = match self.ports {
            Ports::Both => 7,
            Ports::Zero => 6,
        };
        match random.below(ways) {
            0 => call.session = 4,
            1 => call.claim.kind = 2,
            2 => call.claim.credential = 8,
            3 => call.claim.verdict = 2,
            4 => call.class = 3,
            5 => call.class = 32,
            _ => call.port = 2,
        }
    }
}

/// Every provisioned credential in every session with a version.
fn possible_users(ports: Ports) -> impl Iterator<Item = User> {
    let sessions = ports
        .all()
        .flat_map(|port| (0..WITHOUT_VERSION).map(move |session| (port, session)));
    sessions.flat_map(|(port, session)| {
        (0..UNPROVISIONED).map(move |credential| User {
            port,
            session,
            credential,
        })
    })
}

/// SplitMix64.
pub struct Random(u64);

impl Random {
    pub fn new(seed: u64) -> Random {
        Random(seed)
    }

    fn next(&mut self) -> u64 {
        self.0 = self.0.wrapping_add(0x9e37_79b9_7f4a_7c15);
        let mut word = self.0;
        word = (word ^ (word >> 30)).wrapping_mul(0xbf58_476d_1ce4_e5b9);
        word = (word ^ (word >> 27)).wrapping_mul(0x94d0_49bb_1331_11eb);
        word ^ (word >> 31)
    }

    pub fn below(&mut self, bound: usize) -> usize {
        (self.next() % bound as u64) as usize
    }

    pub fn shuffle<Item>(&mut self, items: &mut [Item]) {
        for at in (1..items.len()).rev() {
            items.swap(at, self.below(at + 1));
        }
    }
}
