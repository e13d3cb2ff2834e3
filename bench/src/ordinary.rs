//! The record call as an ordinary program: the slice is tested on each call, then read and written where it lies. Written from documents 01 and 02 and
//! docs/STATE.md, in plain safe Rust, and made as quick as that could be made: whom the entry is measured against should be hard to beat.

use crate::numbers::*;
use slavotuk::entries::RawClaim;
use slavotuk::layout::state::{
    COUNT_AT, CREDENTIALS_AT, CREDENTIAL_LENGTH, LENGTH, NAME, NEXT, OWNER, PLACES_AT,
    PLACE_LENGTH, SECOND, SESSION as SESSION_AT, TYPE, WORD,
};
use slavotuk::{NAME_LENGTH, PLACES};

const USER: u8 = 0;
const ELEVATION: u8 = 1;
const SAVED: u8 = 2;

type State = [u8; LENGTH];
type Process = [u8; PLACE_LENGTH];

/// The record call on a lent state.
#[inline(never)]
pub fn record(state: &mut [u8], port: u32, session: u32, claim: RawClaim, class: u32) -> u32 {
    if !are_arguments(port, session, claim, class) {
        return ARGUMENT;
    }
    let slot = (4 * port + session) as u8;
    match <&mut State>::try_from(state) {
        Ok(state) if holds_state(state) => match accept(state, slot, claim, class) {
            Ok(()) => DONE,
            Err(number) => number,
        },
        _ => ARGUMENT,
    }
}

/// Whether a slice holds a state.
#[inline(never)]
pub fn holds(state: &[u8]) -> bool {
    <&State>::try_from(state).is_ok_and(holds_state)
}

fn are_arguments(port: u32, session: u32, claim: RawClaim, class: u32) -> bool {
    let is_claim = match claim.kind {
        0 => claim.credential <= 7 && claim.verdict <= 1,
        1 => true,
        _ => false,
    };
    port <= 1 && session <= 3 && is_claim && (4..=31).contains(&class)
}

// ---- whether a slice holds a state

fn holds_state(state: &State) -> bool {
    let count = usize::from(state[COUNT_AT]);
    if count > PLACES {
        return false;
    }
    let (standing, free) = state[PLACES_AT..].split_at(count * PLACE_LENGTH);
    if !are_zero(free) {
        return false;
    }
    match Seats::of(state) {
        Some(mut seats) => {
            processes(standing).all(|process| seats.take(process))
                && (count < 2 || are_names_apart(standing))
        }
        None => false,
    }
}

/// 64 bytes at a time; the last 64 once more, so that none is read by itself.
fn are_zero(bytes: &[u8]) -> bool {
    const BLOCK: usize = 64;
    let put_together = |bytes: &[u8]| bytes.iter().fold(0, |all, &byte| all | byte);
    if bytes.len() < BLOCK {
        return put_together(bytes) == 0;
    }
    let mut all: [u8; BLOCK] = *fixed(&bytes[bytes.len() - BLOCK..]);
    for block in bytes.chunks_exact(BLOCK) {
        for (one, byte) in all.iter_mut().zip(block) {
            *one |= byte;
        }
    }
    put_together(&all) == 0
}

fn processes(standing: &[u8]) -> impl Iterator<Item = &Process> + Clone {
    standing.chunks_exact(PLACE_LENGTH).map(fixed)
}

fn fixed<const N: usize>(bytes: &[u8]) -> &[u8; N] {
    bytes.try_into().expect("a part of that length")
}

/// What a process may take, in a byte for each slot: a bit for each credential's user process, and the lowest bit for the elevation. A bit that was taken is gone.
struct Seats {
    provisioned: u64,
    users: u64,
    elevations: u64,
}

impl Seats {
    /// Those of a state, where its sessions and credentials are in order.
    fn of(state: &State) -> Option<Seats> {
        let elevations = slots_with_version(u64::from_le_bytes(*fixed(&state[..CREDENTIALS_AT])))?;
        let mut provisioned = 0;
        let credentials = state[CREDENTIALS_AT..COUNT_AT].chunks_exact(CREDENTIAL_LENGTH);
        for (credential, bytes) in credentials.enumerate() {
            // a match of all nine bytes asks each flag twice
            let [flag, words @ ..] = *fixed::<CREDENTIAL_LENGTH>(bytes);
            if flag == 1 {
                provisioned |= 1 << credential;
            } else if u64::from(flag) | u64::from_le_bytes(words) != 0 {
                return None;
            }
        }
        Some(Seats {
            provisioned,
            // the eight bits of the credentials, once for each slot
            users: elevations * provisioned,
            elevations,
        })
    }

    /// Whether a process is in order by itself and its seat was free.
    fn take(&mut self, process: &Process) -> bool {
        let (credential, slot) = (process[OWNER], process[SESSION_AT]);
        if credential > 7 || slot > 7 {
            return false;
        }
        if process[TYPE] == USER {
            return take_bit(&mut self.users, 8 * slot + credential);
        }
        if self.provisioned >> credential & 1 == 0 {
            return false;
        }
        match process[TYPE] {
            ELEVATION => next_number(process) == 0 && take_bit(&mut self.elevations, 8 * slot),
            SAVED => slot == 0 && next_number(process) != 0,
            _ => false,
        }
    }
}

/// Of the phases of all slots, a byte each: the lowest bit of each that is 2, where none is over 2.
fn slots_with_version(phases: u64) -> Option<u64> {
    const EVERY_LOWEST: u64 = 0x0101_0101_0101_0101;
    let with_version = phases >> 1 & EVERY_LOWEST;
    // a byte over 2 has a bit above the two lowest, or both of these
    let wrong = !(3 * EVERY_LOWEST) | with_version;
    (phases & wrong == 0).then_some(with_version)
}

fn take_bit(bits: &mut u64, at: u8) -> bool {
    let bit = 1 << at;
    let is_there = *bits & bit != 0;
    *bits &= !bit;
    is_there
}

/// By digests first: names are compared only where two share one.
fn are_names_apart(standing: &[u8]) -> bool {
    let mut digests: [u32; PLACES] = std::array::from_fn(|place| place as u32);
    for (digest, process) in digests.iter_mut().zip(processes(standing)) {
        *digest = digest_of(fixed(&process[NAME..]));
    }
    let mut meet = false;
    for one in 1..PLACES {
        for other in 0..one {
            meet |= digests[one] == digests[other];
        }
    }
    !meet || are_pairs_apart(standing)
}

/// It goes round by 19 bits and gets the next 16 bytes, until all have a part in it; then its halves are put together.
fn digest_of(name: &[u8; NAME_LENGTH]) -> u32 {
    let mut digest = 0u64;
    for pair in name.chunks_exact(16) {
        let (low, high) = pair.split_at(8);
        digest = digest
            .rotate_left(19)
            .wrapping_add(u64::from_le_bytes(*fixed(low)))
            .wrapping_add(u64::from_le_bytes(*fixed(high)));
    }
    (digest >> 32) as u32 ^ digest as u32
}

#[cold]
fn are_pairs_apart(standing: &[u8]) -> bool {
    let mut names = processes(standing).map(|process| &process[NAME..]);
    while let Some(one) = names.next() {
        if names.clone().any(|other| one == other) {
            return false;
        }
    }
    true
}

// ---- the checks of a record whose arguments are in order, on a slice that holds a state

fn accept(state: &mut State, slot: u8, claim: RawClaim, class: u32) -> Result<(), u32> {
    match state[usize::from(slot)] {
        0 => return Err(SESSION),
        1 => return Err(NO_VERSION),
        _ => {}
    }
    let is_elevated = claim.kind == 1;
    let credential = if is_elevated {
        elevated_credential(state, slot)?
    } else {
        count_claim(state, slot, claim)?
    };
    let at = credential_at(credential);
    if !is_set(state, at + WORD, class) {
        return Err(NOT_GRANTED);
    }
    if !is_elevated && is_set(state, at + SECOND, class) {
        return Err(ONLY_ELEVATED);
    }
    Ok(())
}

/// Whether the word that begins there has the bit of a class.
fn is_set(state: &State, at: usize, class: u32) -> bool {
    u32::from_le_bytes(*fixed(&state[at..][..4])) >> class & 1 == 1
}

fn elevated_credential(state: &State, slot: u8) -> Result<u8, u32> {
    processes(standing(state))
        .find(|process| process[TYPE] == ELEVATION && process[SESSION_AT] == slot)
        .map(|process| process[OWNER])
        .ok_or(NO_PROCESS)
}

/// Checks a user's claim and counts it, and answers its credential.
fn count_claim(state: &mut State, slot: u8, claim: RawClaim) -> Result<u8, u32> {
    let credential = claim.credential as u8;
    if state[credential_at(credential)] == 0 {
        return Err(CREDENTIAL);
    }
    let wanted = [credential, USER, slot];
    let place = processes(standing(state))
        .position(|process| process[..wanted.len()] == wanted)
        .ok_or(NO_PROCESS)?;
    let process = &mut state[PLACES_AT + place * PLACE_LENGTH..][..PLACE_LENGTH];
    let next = next_number(fixed(process));
    if next == u16::MAX {
        return Err(SPENT);
    }
    if claim.number != next {
        return Err(OUT_OF_TURN);
    }
    if claim.verdict == 0 {
        return Err(VERDICT);
    }
    process[NEXT..NAME].copy_from_slice(&(next + 1).to_le_bytes());
    Ok(credential)
}

fn standing(state: &State) -> &[u8] {
    let count = usize::from(state[COUNT_AT]).min(PLACES);
    &state[PLACES_AT..][..count * PLACE_LENGTH]
}

fn credential_at(credential: u8) -> usize {
    CREDENTIALS_AT + usize::from(credential) * CREDENTIAL_LENGTH
}

fn next_number(process: &Process) -> u16 {
    u16::from_le_bytes([process[NEXT], process[NEXT + 1]])
}

#[cfg(test)]
mod tests {
    use super::*;
    use crate::states::{standing_state, Differ, Ports, UNPROVISIONED};

    #[test]
    fn both_words_of_a_credential_that_is_not_provisioned_are_zero() {
        let state = standing_state(PLACES, Differ::First, Ports::Both);
        assert!(holds(&state));
        let at = credential_at(UNPROVISIONED as u8);
        for byte in at + WORD..at + CREDENTIAL_LENGTH {
            let mut changed = state.clone();
            changed[byte] = 1;
            assert!(!holds(&changed), "byte {byte}");
        }
    }

    /// The inputs of the order go the quick way; the state that all answers are compared on beside them goes the other.
    #[test]
    fn digests_meet_where_names_have_a_byte_of_their_own() {
        for (differ, meet) in [
            (Differ::First, false),
            (Differ::Last, false),
            (Differ::Own, true),
        ] {
            let state = standing_state(PLACES, differ, Ports::Both);
            let digests: Vec<u32> = processes(&state[PLACES_AT..])
                .map(|process| digest_of(fixed(&process[NAME..])))
                .collect();
            let distinct: std::collections::BTreeSet<_> = digests.iter().collect();
            assert_eq!(distinct.len() < PLACES, meet);
        }
    }
}
