//! What is measured on: a state and a row of record calls, the same on every run.

use crate::draw;
use crate::marked;
use crate::numbers::{DONE, VERDICT};
use crate::states::{marked_state, standing_state, users, Differ, Ports, User};
use slavotuk::entries::RawClaim;
use std::collections::BTreeMap;

/// How many calls the order asks for.
pub const ORDERED_CALLS: usize = 100_000;

/// A class that every provisioned credential has.
const GRANTED: u32 = 4;

/// One record call, and the number it has to get.
#[derive(Clone, Copy, Debug, PartialEq, Eq)]
pub struct Call {
    pub port: u32,
    pub session: u32,
    pub claim: RawClaim,
    pub class: u32,
    pub number: u32,
}

/// The state that each round starts from, and the calls on it.
#[derive(Debug, PartialEq, Eq)]
pub struct Input {
    pub name: String,
    pub state: Vec<u8>,
    pub calls: Vec<Call>,
}

impl Input {
    /// How many calls have to get each number.
    pub fn tally(&self) -> BTreeMap<u32, usize> {
        let mut tally = BTreeMap::new();
        for call in &self.calls {
            *tally.entry(call.number).or_default() += 1;
        }
        tally
    }
}

/// An input that has a name.
pub struct Named {
    pub name: &'static str,
    pub standing: usize,
    differ: Differ,
    ports: Ports,
    pub row: Row,
}

/// What its calls are.
#[derive(Clone, Copy, PartialEq, Eq)]
pub enum Row {
    /// Drawn: half accepted, the others refused in eight ways.
    Mixed,
    /// All of one process in a row, then all of the next, accepted.
    Series,
    /// The same, each refused at the last test of its claim.
    Refused,
    /// Drawn, on a state with marked classes: half accepted, the others refused by their class.
    Marked,
}

const fn named(name: &'static str, standing: usize, differ: Differ, row: Row) -> Named {
    Named {
        name,
        standing,
        differ,
        ports: Ports::Both,
        row,
    }
}

/// Mixed calls, all on port 0.
const fn on_port_0(name: &'static str, standing: usize, differ: Differ) -> Named {
    Named {
        ports: Ports::Zero,
        ..named(name, standing, differ, Row::Mixed)
    }
}

/// In the order they are reported. Where fewer than two stand, there are no names that differ.
pub static MIXED: [Named; 8] = [
    named("twelve-first", 12, Differ::First, Row::Mixed),
    named("twelve-last", 12, Differ::Last, Row::Mixed),
    named("eight-first", 8, Differ::First, Row::Mixed),
    named("eight-last", 8, Differ::Last, Row::Mixed),
    named("four-first", 4, Differ::First, Row::Mixed),
    named("four-last", 4, Differ::Last, Row::Mixed),
    named("one", 1, Differ::First, Row::Mixed),
    named("none", 0, Differ::First, Row::Mixed),
];

/// The inputs of before there was a second port, so that what it costs can be told: the same calls on the same processes.
pub static PORT_0: [Named; 3] = [
    on_port_0("port-0-first", 12, Differ::First),
    on_port_0("port-0-last", 12, Differ::Last),
    on_port_0("port-0-one", 1, Differ::First),
];

pub static SERIES: [Named; 2] = [
    named("series-first", 12, Differ::First, Row::Series),
    named("series-last", 12, Differ::Last, Row::Series),
];

pub static REFUSED: [Named; 2] = [
    named("refused-first", 12, Differ::First, Row::Refused),
    named("refused-last", 12, Differ::Last, Row::Refused),
];

pub static MARKED: [Named; 1] = [named("marked", 12, Differ::Last, Row::Marked)];

/// Every input that has a name.
pub fn all() -> impl Iterator<Item = &'static Named> {
    MIXED
        .iter()
        .chain(&PORT_0)
        .chain(&SERIES)
        .chain(&REFUSED)
        .chain(&MARKED)
}

/// The input of that name.
pub fn find(name: &str) -> Option<&'static Named> {
    all().find(|named| named.name == name)
}

impl Named {
    /// The state before its first call.
    pub fn state(&self) -> Vec<u8> {
        let state_of = match self.row {
            Row::Mixed | Row::Series | Row::Refused => standing_state,
            Row::Marked => marked_state,
        };
        state_of(self.standing, self.differ, self.ports)
    }

    /// The input with so many calls: a tenth of them for each process of a series.
    pub fn input(&self, calls: usize) -> Input {
        Input {
            name: self.name.to_string(),
            state: self.state(),
            calls: match self.row {
                Row::Mixed => draw::calls(self.standing, self.ports, calls),
                Row::Series => series(users(self.ports).collect(), calls, accepted),
                Row::Refused => series(users(self.ports).collect(), calls, refused),
                Row::Marked => marked::calls(users(self.ports), calls),
            },
        }
    }
}

/// As many records of each of these as of the others, one process after another.
fn series(users: Vec<User>, calls: usize, record: fn(User, u16) -> Call) -> Vec<Call> {
    let numbers = 0..(calls / users.len()) as u16;
    users
        .into_iter()
        .flat_map(|user| numbers.clone().map(move |number| record(user, number)))
        .collect()
}

fn accepted(user: User, number: u16) -> Call {
    Call {
        port: user.port,
        session: user.session,
        claim: RawClaim::user(user.credential, number),
        class: GRANTED,
        number: DONE,
    }
}

/// Nothing is spent, so every call's turn is that of number 0.
fn refused(user: User, _: u16) -> Call {
    let of_first_number = accepted(user, 0);
    Call {
        claim: RawClaim {
            verdict: 0,
            ..of_first_number.claim
        },
        number: VERDICT,
        ..of_first_number
    }
}

#[cfg(test)]
mod tests {
    use super::*;
    use crate::numbers::{NOT_GRANTED, NO_PROCESS, ONLY_ELEVATED};

    #[test]
    fn half_of_the_orders_calls_are_accepted_and_each_refusal_is_as_frequent() {
        for named in MIXED.iter().filter(|named| named.standing > 0) {
            let tally = named.input(ORDERED_CALLS).tally();
            let refusals = [1, 2, 3, 5, 6, 8, 9, 10].map(|number| (number, 6_250));
            let expected = [(DONE, 50_000)].into_iter().chain(refusals).collect();
            assert_eq!(tally, expected, "{}", named.name);
        }
    }

    #[test]
    fn with_none_standing_no_claim_passes() {
        let tally = find("none").unwrap().input(ORDERED_CALLS).tally();
        let missed = 50_000 + 4 * 6_250;
        let expected = [
            (1, 6_250),
            (2, 6_250),
            (3, 6_250),
            (5, 6_250),
            (NO_PROCESS, missed),
        ];
        assert_eq!(tally, BTreeMap::from(expected));
    }

    #[test]
    fn half_of_the_calls_on_marked_classes_are_refused_by_their_class() {
        let input = find("marked").unwrap().input(ORDERED_CALLS);
        let expected = [
            (DONE, 50_000),
            (NOT_GRANTED, 25_000),
            (ONLY_ELEVATED, 25_000),
        ];
        assert_eq!(input.tally(), BTreeMap::from(expected));
        let elevated = input.calls.iter().filter(|call| call.claim.kind == 1);
        assert_eq!(elevated.count(), 25_000);
    }

    #[test]
    fn a_series_has_a_tenth_of_the_calls_for_each_process() {
        for (row, number) in [(&SERIES, DONE), (&REFUSED, VERDICT)] {
            for named in row {
                let tally = named.input(ORDERED_CALLS).tally();
                assert_eq!(tally, BTreeMap::from([(number, 100_000)]));
                assert_eq!(named.input(16).calls.len(), 10);
            }
        }
    }
}
