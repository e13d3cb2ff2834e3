//! That all three programs do the same, before anything is timed.

use crate::costs;
use crate::file::Recorded;
use crate::input::{all, Call, Input, MARKED, MIXED};
use crate::numbers::DONE;
use crate::ordinary;
use crate::states::{standing_state, Differ, Ports};
use crate::structured::Module;
use slavotuk::entries::{self, RawClaim};
use slavotuk::layout::state::{place_at, COUNT_AT, LENGTH, NEXT, PLACES_AT};
use slavotuk::PLACES;

/// What a record call is handed beside the state.
#[derive(Clone, Copy, Debug)]
struct Arguments {
    port: u32,
    session: u32,
    claim: RawClaim,
    class: u32,
}

/// Compares everything with so many calls: the answers to all inputs that have a name, and those on states that are damaged.
pub fn check(calls: usize) -> Result<(), String> {
    all().try_for_each(|named| check_calls(&named.input(calls)).map(drop))?;
    for named in MIXED.iter().chain(&MARKED) {
        check_state(named.name, &named.state())?;
    }
    // names that share the digest by which the ordinary program tells them apart
    check_state(
        "names with a byte of their own",
        &standing_state(PLACES, Differ::Own, Ports::Both),
    )?;
    costs::check()
}

/// Calls with more than one fault, and calls on slices that hold no state; the first difference is told.
fn check_state(name: &str, state: &[u8]) -> Result<(), String> {
    check_many_faults(state)
        .and_then(|()| check_changed_bytes(state))
        .and_then(|()| check_lengths(state))
        .map_err(|difference| format!("{name}: {difference}"))
}

/// Makes all calls of a file, and asks that they leave the state that it says.
pub fn check_recorded(recorded: &Recorded) -> Result<(), String> {
    let Recorded { input, left } = recorded;
    let made = check_calls(input)?;
    match (0..made.len()).find(|&at| made[at] != left[at]) {
        None => Ok(()),
        Some(at) => Err(format!(
            "{}: the calls leave {} in byte {at} of the state, and the line `left` says {}",
            input.name, made[at], left[at]
        )),
    }
}

/// Makes all calls of an input, and answers the state that they leave; the first difference is told.
pub fn check_calls(input: &Input) -> Result<Vec<u8>, String> {
    left_by_three(input).map_err(|difference| format!("{}: {difference}", input.name))
}

fn left_by_three(input: &Input) -> Result<Vec<u8>, String> {
    let mut by_entry = input.state.clone();
    let mut by_ordinary = input.state.clone();
    let mut module = Module::from_bytes(&input.state);
    for (at, call) in input.calls.iter().enumerate() {
        let &Call {
            port,
            session,
            claim,
            class,
            number,
        } = call;
        let numbers = [
            entries::record(&mut by_entry, port, session, claim, class),
            ordinary::record(&mut by_ordinary, port, session, claim, class),
            module.record(port, session, claim, class),
        ];
        if numbers != [number; 3] {
            let [entry, ordinary, structured] = numbers;
            return Err(format!(
                "call {at}: entry {entry}, ordinary {ordinary}, structured {structured}, planned {number}: {call:?}"
            ));
        }
        if by_entry != by_ordinary {
            return Err(format!(
                "call {at}: entry and ordinary left different bytes: {call:?}"
            ));
        }
    }
    if module.to_bytes() != by_entry {
        return Err("entry and structured ended in different states".to_string());
    }
    Ok(by_entry)
}

/// Calls with every choice of faults, on the starting state and on the same with its first process spent: so the order of the checks is compared too.
fn check_many_faults(state: &[u8]) -> Result<(), String> {
    let calls = many_calls();
    calls
        .iter()
        .try_for_each(|&call| check_three(state, call))?;
    if state[COUNT_AT] == 0 {
        return Ok(());
    }
    let mut spent = state.to_vec();
    spent[place_at(0) + NEXT..][..2].fill(0xff);
    calls.iter().try_for_each(|&call| check_three(&spent, call))
}

/// One call by the three programs, on a slice that holds a state.
fn check_three(state: &[u8], arguments: Arguments) -> Result<(), String> {
    let Arguments {
        port,
        session,
        claim,
        class,
    } = arguments;
    let mut by_entry = state.to_vec();
    let mut by_ordinary = state.to_vec();
    let mut module = Module::from_bytes(state);
    let entry = entries::record(&mut by_entry, port, session, claim, class);
    let ordinary = ordinary::record(&mut by_ordinary, port, session, claim, class);
    let structured = module.record(port, session, claim, class);
    if [ordinary, structured] != [entry; 2] {
        return Err(format!(
            "entry {entry}, ordinary {ordinary}, structured {structured}: {arguments:?}"
        ));
    }
    if by_ordinary != by_entry || module.to_bytes() != by_entry {
        return Err(format!("different bytes after {arguments:?}"));
    }
    Ok(())
}

fn many_calls() -> Vec<Arguments> {
    let mut calls = Vec::new();
    for (port, session) in many_sessions() {
        for claim in many_claims() {
            for class in [3, 4, 5, 30, 31, 32] {
                calls.push(Arguments {
                    port,
                    session,
                    claim,
                    class,
                });
            }
        }
    }
    calls
}

/// Every session of both ports, and pairs out of range of which a careless program makes a slot: 0.4 would be that of 1.0, and 4 times the last port is 0 in 32 bits.
fn many_sessions() -> impl Iterator<Item = (u32, u32)> {
    [0, 1, 2, 1 << 30]
        .into_iter()
        .flat_map(|port| [0, 1, 2, 3, 4, 7].map(|session| (port, session)))
}

fn many_claims() -> Vec<RawClaim> {
    let mut claims = Vec::new();
    for kind in 0..=2 {
        for credential in 0..=8 {
            for number in [0, 1, u16::MAX] {
                for verdict in 0..=2 {
                    claims.push(RawClaim {
                        kind,
                        credential,
                        number,
                        verdict,
                    });
                }
            }
        }
    }
    claims
}

/// The calls on every slice that differs from a state in one byte: most hold none.
fn check_changed_bytes(state: &[u8]) -> Result<(), String> {
    for at in 0..state.len() {
        for byte in 0..=255 {
            let mut changed = state.to_vec();
            changed[at] = byte;
            check_slice(&changed)
                .map_err(|difference| format!("byte {at} changed to {byte}: {difference}"))?;
        }
    }
    Ok(())
}

fn check_lengths(state: &[u8]) -> Result<(), String> {
    for length in [
        0,
        1,
        COUNT_AT,
        PLACES_AT,
        LENGTH - 1,
        LENGTH + 1,
        place_at(PLACES + 1),
    ] {
        let mut changed = state.to_vec();
        changed.resize(length, 0);
        check_slice(&changed)
            .map_err(|difference| format!("a slice of {length} bytes: {difference}"))?;
    }
    Ok(())
}

/// Three calls whose claims pass their check where two processes stand or more: one on each port that is accepted, and one that is refused by its class and spends
/// its number too.
const PASSING: [Arguments; 3] = [first_record(0, 4), first_record(1, 4), first_record(0, 5)];

/// The first record of credential 0 in session 0 of a port.
const fn first_record(port: u32, class: u32) -> Arguments {
    Arguments {
        port,
        session: 0,
        claim: RawClaim::user(0, 0),
        class,
    }
}

/// What is asked of any slice: the test by itself, and the three calls.
fn check_slice(slice: &[u8]) -> Result<(), String> {
    let (entry, ordinary) = (entries::holds(slice) == DONE, ordinary::holds(slice));
    if entry != ordinary {
        return Err(format!("entry holds {entry}, ordinary {ordinary}"));
    }
    PASSING.iter().try_for_each(|&call| check_call(slice, call))
}

fn check_call(slice: &[u8], arguments: Arguments) -> Result<(), String> {
    let Arguments {
        port,
        session,
        claim,
        class,
    } = arguments;
    let mut by_entry = slice.to_vec();
    let mut by_ordinary = slice.to_vec();
    let entry = entries::record(&mut by_entry, port, session, claim, class);
    let ordinary = ordinary::record(&mut by_ordinary, port, session, claim, class);
    if entry != ordinary {
        return Err(format!("entry {entry}, ordinary {ordinary}: {arguments:?}"));
    }
    if by_entry != by_ordinary {
        return Err(format!(
            "entry and ordinary left different bytes: {arguments:?}"
        ));
    }
    Ok(())
}

#[cfg(test)]
mod tests {
    use super::*;
    use crate::input::find;
    use crate::numbers::{NOT_GRANTED, ONLY_ELEVATED, OUT_OF_TURN};

    #[test]
    fn named_inputs_are_answered_as_planned() {
        for named in all() {
            for calls in [16, 1_600] {
                let left = check_calls(&named.input(calls));
                assert!(left.is_ok(), "{}: {left:?}", named.name);
            }
        }
    }

    #[test]
    fn a_call_that_is_answered_otherwise_is_told() {
        let mut input = find("series-last").unwrap().input(100);
        input.calls[7].number = NOT_GRANTED;
        let told = check_calls(&input).unwrap_err();
        let begins = "series-last: call 7: entry 0, ordinary 0, structured 0, planned 10: ";
        assert!(told.starts_with(begins), "{told}");
    }

    #[test]
    fn a_state_that_is_left_otherwise_is_told() {
        let input = find("one").unwrap().input(16);
        let left = check_calls(&input).unwrap();
        let mut recorded = Recorded { input, left };
        assert_eq!(check_recorded(&recorded), Ok(()));
        recorded.left[1] = 1;
        let told = "one: the calls leave 2 in byte 1 of the state, and the line `left` says 1";
        assert_eq!(check_recorded(&recorded), Err(told.to_string()));
    }

    /// The first active user process of the marked state, at its first number, and the elevation.
    const CLAIMS: [RawClaim; 2] = [RawClaim::user(0, 0), RawClaim::ELEVATED];

    /// What both claims get of a class, by all three.
    fn numbers_of(state: &[u8], class: u32) -> [u32; 2] {
        CLAIMS.map(|claim| {
            let arguments = Arguments {
                claim,
                ..first_record(0, class)
            };
            assert_eq!(check_three(state, arguments), Ok(()));
            entries::record(&mut state.to_vec(), 0, 0, claim, class)
        })
    }

    #[test]
    fn a_marked_class_is_for_elevated_claims_alone() {
        let state = find("marked").unwrap().state();
        for first in (4..=28).step_by(4) {
            let numbers = [0, 1, 2, 3].map(|class| numbers_of(&state, first + class));
            let expected = [
                [DONE, DONE],
                [NOT_GRANTED, NOT_GRANTED],
                [ONLY_ELEVATED, DONE],
                [NOT_GRANTED, NOT_GRANTED],
            ];
            assert_eq!(numbers, expected, "from class {first} on");
        }
    }

    #[test]
    fn a_marked_class_spends_the_number_of_a_users_claim() {
        let input = find("marked").unwrap().input(0);
        let call = |number| Call {
            port: 0,
            session: 0,
            claim: RawClaim::user(0, 0),
            class: 6,
            number,
        };
        let calls = [ONLY_ELEVATED, OUT_OF_TURN].map(call).to_vec();
        let left = check_calls(&Input { calls, ..input }).unwrap();
        assert_eq!(left[place_at(0) + NEXT..][..2], [1, 0]);
    }

    #[test]
    fn the_three_calls_pass_where_two_stand() {
        for named in MIXED.iter().filter(|named| named.standing > 1) {
            let numbers = PASSING.map(|arguments| {
                let Arguments {
                    port,
                    session,
                    claim,
                    class,
                } = arguments;
                entries::record(&mut named.state(), port, session, claim, class)
            });
            assert_eq!(numbers, [DONE, DONE, NOT_GRANTED], "{}", named.name);
        }
    }
}
