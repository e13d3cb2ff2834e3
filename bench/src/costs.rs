//! What calls of the other entries cost, beside an accepted record.

use crate::numbers::*;
use crate::programs::nanoseconds;
use crate::states::{make_fresh, standing_state, Differ, Ports};
use crate::timing::median;
use slavotuk::entries::{self, RawClaim};
use slavotuk::{FULL_LISTING_LENGTH, NAME_LENGTH, PLACES};

/// How many processes stand, in the order they are reported.
pub const STANDING: [usize; 3] = [0, 1, PLACES];

/// How often each call is made in a round. Claims are in turn, a refused kill's too, which spends its number, and none may be spent.
const TURNS: u16 = 10_000;

const NAME: [u8; NAME_LENGTH] = [0xa5; NAME_LENGTH];

/// What a call is lent.
struct Lent {
    state: Vec<u8>,
    response: [u8; FULL_LISTING_LENGTH],
}

/// A call, or two of which the second undoes the first.
pub struct Case {
    pub name: &'static str,
    calls: usize,
    /// How many stand before a turn, so that so many stand where the most do; none, where there is no such call.
    before: fn(usize) -> Option<usize>,
    /// Makes the calls under a claim of this number, and says whether each got the number that it has to get.
    turn: fn(&mut Lent, u16) -> bool,
}

/// The first is the record that the others are compared with.
pub const CASES: [Case; 9] = [
    Case {
        name: "record, accepted",
        calls: 1,
        before: with_a_claim,
        turn: |lent, number| entries::record(&mut lent.state, 0, 0, claim(0, number), 4) == DONE,
    },
    Case {
        name: "record, refused at its session",
        calls: 1,
        before: Some,
        turn: |lent, number| entries::record(&mut lent.state, 0, 3, claim(0, number), 4) == SESSION,
    },
    Case {
        name: "holds",
        calls: 1,
        before: Some,
        turn: |lent, _| entries::holds(&lent.state) == DONE,
    },
    Case {
        name: "holds, refused: no such phase",
        calls: 1,
        before: Some,
        turn: |lent, _| {
            lent.state[3] = 3;
            entries::holds(&lent.state) == ARGUMENT
        },
    },
    Case {
        name: "open, close",
        calls: 2,
        before: Some,
        turn: |lent, _| {
            entries::open(&mut lent.state, 0, 3) == DONE
                && entries::close(&mut lent.state, 0, 3) == DONE
        },
    },
    Case {
        name: "start, kill",
        calls: 2,
        before: |standing| standing.checked_sub(1),
        turn: |lent, _| {
            entries::start(&mut lent.state, 0, 1, 5, &NAME) == DONE
                && entries::kill(&mut lent.state, 0, 1, claim(5, 0), &NAME) == DONE
        },
    },
    Case {
        name: "kill, refused: no such name",
        calls: 1,
        before: with_a_claim,
        turn: |lent, number| {
            entries::kill(&mut lent.state, 0, 0, claim(0, number), &NAME) == NO_PROCESS
        },
    },
    Case {
        name: "list, all",
        calls: 1,
        before: with_a_claim,
        turn: |lent, number| {
            let mut length = 0;
            let claim = claim(0, number);
            entries::list(
                &mut lent.state,
                0,
                0,
                claim,
                0xffff,
                &mut lent.response,
                &mut length,
            ) == DONE
        },
    },
    Case {
        name: "fresh",
        calls: 1,
        before: Some,
        turn: |lent, _| make_fresh(&mut lent.state, 0) == DONE,
    },
];

fn with_a_claim(standing: usize) -> Option<usize> {
    (standing > 0).then_some(standing)
}

fn claim(credential: u32, number: u16) -> RawClaim {
    RawClaim {
        kind: 0,
        credential,
        number,
        verdict: 1,
    }
}

impl Case {
    fn lend(&self, standing: usize) -> Option<Lent> {
        (self.before)(standing).map(|before| Lent {
            state: standing_state(before, Differ::Last, Ports::Both),
            response: [0; FULL_LISTING_LENGTH],
        })
    }

    /// Nanoseconds for one call, over a round of them.
    fn time(&self, standing: usize) -> Option<f64> {
        let mut lent = self.lend(standing)?;
        let numbers: Vec<u16> = (0..TURNS).collect();
        let turn = nanoseconds(&numbers, |&number| (self.turn)(&mut lent, number));
        Some(turn / self.calls as f64)
    }
}

/// Makes every call twice; the first that does not get the number it has to get is told.
pub fn check() -> Result<(), String> {
    for case in &CASES {
        for standing in STANDING {
            let Some(mut lent) = case.lend(standing) else {
                continue;
            };
            if !(0..2).all(|number| (case.turn)(&mut lent, number)) {
                return Err(format!(
                    "{}, {standing} standing: another number",
                    case.name
                ));
            }
        }
    }
    Ok(())
}

/// Medians of alternating rounds, nanoseconds for one call: for each case with each number standing.
pub fn measure(rounds: usize) -> [[Option<f64>; STANDING.len()]; CASES.len()] {
    let mut figures: [[Vec<f64>; STANDING.len()]; CASES.len()] = Default::default();
    for _ in 0..rounds {
        for (case, of_case) in CASES.iter().zip(&mut figures) {
            for (standing, of_standing) in STANDING.into_iter().zip(of_case) {
                of_standing.extend(case.time(standing));
            }
        }
    }
    figures.map(|of_case| of_case.map(|times| (!times.is_empty()).then(|| median(times))))
}
