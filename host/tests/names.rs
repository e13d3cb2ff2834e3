//! Names compared: equality, order and hash are those of the 48 bytes, wherever two names differ.

use slavotuk::{Name, NAME_LENGTH};
use std::collections::hash_map::DefaultHasher;
use std::hash::{Hash, Hasher};

/// A name whose bytes are all different, so that none can stand for another.
fn drawn() -> [u8; NAME_LENGTH] {
    std::array::from_fn(|at| 5 * at as u8 + 7)
}

/// Document 01's board: every name begins with 16 bytes of zero.
fn zeros_in_front() -> [u8; NAME_LENGTH] {
    let mut bytes = drawn();
    bytes[..16].fill(0);
    bytes
}

/// What agrees with the bytes up to `at` and differs there; behind it all bytes are the same, all lower, or all higher where they can be.
fn differing(bytes: [u8; NAME_LENGTH], at: usize) -> Vec<[u8; NAME_LENGTH]> {
    let tails: [fn(u8) -> u8; 3] = [|byte| byte, |_| 0, |_| 255];
    let there = (0..8).map(|bit| bytes[at] ^ 1 << bit);
    there
        .flat_map(|byte| tails.map(|tail| with_tail(bytes, at, byte, tail)))
        .collect()
}

fn with_tail(
    mut bytes: [u8; NAME_LENGTH],
    at: usize,
    byte: u8,
    tail: fn(u8) -> u8,
) -> [u8; NAME_LENGTH] {
    bytes[at] = byte;
    for later in &mut bytes[at + 1..] {
        *later = tail(*later);
    }
    bytes
}

/// Each of the two names with each that differs from it at a byte, and with itself.
fn pairs() -> impl Iterator<Item = ([u8; NAME_LENGTH], [u8; NAME_LENGTH])> {
    [drawn(), zeros_in_front()].into_iter().flat_map(|bytes| {
        (0..NAME_LENGTH)
            .flat_map(move |at| differing(bytes, at))
            .chain([bytes])
            .map(move |other| (bytes, other))
    })
}

fn hash_of(value: impl Hash) -> u64 {
    let mut hasher = DefaultHasher::new();
    value.hash(&mut hasher);
    hasher.finish()
}

#[test]
fn two_names_are_equal_where_all_bytes_are() {
    for (one, other) in pairs() {
        assert_eq!(Name(one) == Name(other), one == other, "{one:?} {other:?}");
        assert_eq!(Name(other) == Name(one), one == other, "{other:?} {one:?}");
    }
}

#[test]
fn names_have_the_order_of_their_bytes() {
    for (one, other) in pairs() {
        assert_eq!(
            Name(one).cmp(&Name(other)),
            one.cmp(&other),
            "{one:?} {other:?}"
        );
        assert_eq!(
            Name(other).partial_cmp(&Name(one)),
            Some(other.cmp(&one)),
            "{other:?} {one:?}"
        );
        assert_eq!(Name(one) < Name(other), one < other, "{one:?} {other:?}");
    }
}

#[test]
fn a_name_hashes_as_its_bytes() {
    for (one, other) in pairs() {
        assert_eq!(hash_of(Name(one)), hash_of(one));
        assert_eq!(
            hash_of(Name(one)) == hash_of(Name(other)),
            one == other,
            "{one:?} {other:?}"
        );
    }
}

#[test]
fn the_pairs_differ_at_every_byte() {
    let mut first = [0; NAME_LENGTH];
    for (one, other) in pairs().filter(|(one, other)| one != other) {
        first[one.iter().zip(&other).take_while(|(a, b)| a == b).count()] += 1;
    }
    assert_eq!(first, [2 * 8 * 3; NAME_LENGTH]);
}
