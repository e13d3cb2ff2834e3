//! Some classes only under elevation (document 02, order 7): steps on both sides of each bound, through the entries.

mod common;

use common::{named, p, q, r};
use slavotuk::entries::{self, RawClaim};
use slavotuk::layout::{image, state};
use slavotuk::{Name, STATE_LENGTH};

const ALL: u32 = 65535;

const ELEVATED: RawClaim = RawClaim::ELEVATED;

/// A user's claim with the verdict yes.
fn by(credential: u32, number: u16) -> RawClaim {
    RawClaim::user(credential, number)
}

/// The same with the verdict no.
fn denied(credential: u32, number: u16) -> RawClaim {
    RawClaim {
        verdict: 0,
        ..by(credential, number)
    }
}

fn s() -> Name {
    named(0x33, 0x33)
}

/// A lent state. The calls are made in session 0 of port 0.
#[derive(Clone)]
struct Lent([u8; STATE_LENGTH]);

impl Lent {
    /// Fresh: the first credentials are provisioned, each with its grant word and its second word.
    fn fresh(words: &[(u32, u32)]) -> Lent {
        let mut provisioned = [0; 8];
        provisioned[..words.len()].fill(1);
        let word = |credential: usize| words.get(credential).copied().unwrap_or_default();
        let firsts: [u32; 8] = std::array::from_fn(|credential| word(credential).0);
        let seconds: [u32; 8] = std::array::from_fn(|credential| word(credential).1);
        let mut state = [0xff; STATE_LENGTH];
        let number = entries::fresh(&mut state, &provisioned, &firsts, &seconds);
        assert_eq!(number, 0);
        Lent(state)
    }

    /// The same with that session open.
    fn opened(words: &[(u32, u32)]) -> Lent {
        let mut lent = Lent::fresh(words);
        assert_eq!(entries::open(&mut lent.0, 0, 0), 0);
        assert_eq!(entries::select(&mut lent.0, 0, 0, 0x10), 0);
        lent
    }

    fn start(&mut self, credential: u32, name: Name) -> u32 {
        entries::start(&mut self.0, 0, 0, credential, &name.0)
    }

    fn elevate(&mut self, credential: u32, name: Name) -> u32 {
        entries::elevate(&mut self.0, 0, 0, credential, &name.0, 1)
    }

    /// Where the next number of the credential's active user process lies.
    fn next_at(&self, credential: u32) -> Option<usize> {
        let places = (0..usize::from(self.0[state::COUNT_AT])).map(state::place_at);
        let mut places = places.filter(|at| {
            let place = &self.0[*at..][..state::NAME];
            let head = [state::OWNER, state::TYPE, state::SESSION].map(|field| place[field]);
            head.map(u32::from) == [credential, 0, 0]
        });
        places.next().map(|at| at + state::NEXT)
    }

    /// Makes a protected call, and looks at what a refusal leaves: after 5, 6, 10, 15 and 18 a user's claim has spent its number, and nothing else changes.
    #[track_caller]
    fn claimed(&mut self, claim: RawClaim, call: impl FnOnce(&mut [u8]) -> u32) -> u32 {
        let mut expected = self.clone();
        let number = call(&mut self.0);
        let next = self.next_at(claim.credential);
        if let (0, 5 | 6 | 10 | 15 | 18, Some(next)) = (claim.kind, number, next) {
            expected.0[next..][..2].copy_from_slice(&(claim.number + 1).to_le_bytes());
        }
        if number != 0 {
            assert_eq!(self.0, expected.0);
        }
        number
    }

    #[track_caller]
    fn record(&mut self, claim: RawClaim, class: u32) -> u32 {
        self.claimed(claim, |state| entries::record(state, 0, 0, claim, class))
    }

    /// A listing into so much room, which a refusal leaves as it was.
    #[track_caller]
    fn list(&mut self, claim: RawClaim, wanted: u32, room: usize) -> u32 {
        let (mut response, mut length) = (vec![0xaa; room], 7);
        let number = self.claimed(claim, |state| {
            entries::list(state, 0, 0, claim, wanted, &mut response, &mut length)
        });
        if number != 0 {
            assert_eq!((response, length), (vec![0xaa; room], 0));
        }
        number
    }

    #[track_caller]
    fn kill(&mut self, claim: RawClaim, name: Name) -> u32 {
        self.claimed(claim, |state| entries::kill(state, 0, 0, claim, &name.0))
    }

    /// An end with keep.
    #[track_caller]
    fn save(&mut self, claim: RawClaim) -> u32 {
        let RawClaim {
            credential, number, ..
        } = claim;
        self.claimed(claim, |state| {
            entries::end(state, 0, 0, credential, number, 1, 1)
        })
    }

    #[track_caller]
    fn set_word(&mut self, claim: RawClaim, target: u32, word: u32, second: u32) -> u32 {
        self.claimed(claim, |state| {
            entries::set_word(state, 0, 0, claim, target, word, second)
        })
    }
}

/// Credential 0 has the module's own classes, 1 class 4 plainly, 5 under elevation and 6 not at all, 2 the module's own under elevation. Each has a process.
fn step_1() -> Lent {
    let mut lent = Lent::opened(&[(15, 0), (0x30, 0x60), (15, 15)]);
    assert_eq!(lent.start(0, p()), 0);
    assert_eq!(lent.start(1, r()), 0);
    assert_eq!(lent.start(2, q()), 0);
    lent
}

fn step_2(lent: &mut Lent) {
    assert_eq!(lent.record(by(1, 0), 4), 0);
    assert_eq!(lent.record(by(1, 1), 5), 18);
    assert_eq!(lent.record(by(1, 1), 5), 9);
    assert_eq!(lent.record(by(1, 2), 6), 10);
    assert_eq!(lent.record(by(1, 3), 7), 10);
    assert_eq!(lent.record(by(1, 4), 4), 0);
    assert_eq!(lent.record(denied(1, 5), 5), 8);
    assert_eq!(lent.record(by(1, 5), 3), 1);
}

fn step_3(lent: &mut Lent) {
    assert_eq!(lent.list(by(2, 0), 2, 55), 0);
    assert_eq!(lent.list(by(2, 1), 0, 55), 18);
    assert_eq!(lent.list(by(2, 2), ALL, 0), 18);
    assert_eq!(lent.list(by(2, 2), ALL, 0), 9);
    assert_eq!(lent.list(by(2, 3), 2, 54), 15);
    assert_eq!(lent.list(by(1, 5), 0, 0), 10);
}

fn step_4(lent: &mut Lent) {
    assert_eq!(lent.kill(by(2, 4), p()), 6);
    assert_eq!(lent.kill(by(2, 5), s()), 6);
    assert_eq!(lent.save(by(2, 6)), 18);
    assert_eq!(lent.save(by(2, 6)), 9);
}

fn step_5(lent: &mut Lent) {
    assert_eq!(lent.set_word(by(2, 7), 1, 0, 0), 18);
    assert_eq!(lent.set_word(by(2, 7), 1, 0, 0), 9);
    assert_eq!(lent.set_word(by(2, 8), 3, 0, 0), 18);
    assert_eq!(lent.set_word(by(1, 6), 3, 0, 0), 10);
    assert_eq!(lent.set_word(by(0, 0), 3, 0, 0), 5);
}

fn step_6(lent: &mut Lent) {
    assert_eq!(lent.elevate(2, s()), 0);
    assert_eq!(lent.set_word(ELEVATED, 3, 0, 0), 5);
    assert_eq!(lent.set_word(ELEVATED, 1, 0x30, 0x10), 0);
    assert_eq!(lent.record(by(1, 7), 5), 0);
    assert_eq!(lent.record(by(1, 8), 4), 18);
}

fn step_7(lent: &mut Lent) {
    assert_eq!(lent.list(ELEVATED, ALL, 207), 15);
    assert_eq!(lent.list(ELEVATED, ALL, 208), 0);
    assert_eq!(lent.kill(ELEVATED, p()), 0);
    assert_eq!(lent.record(ELEVATED, 5), 10);
    assert_eq!(lent.set_word(ELEVATED, 2, 0x2f, 0x2f), 0);
    assert_eq!(lent.record(ELEVATED, 5), 0);
    // though credential 2's own elevation stands
    assert_eq!(lent.record(by(2, 9), 5), 18);
}

fn step_8(lent: &mut Lent) {
    assert_eq!(entries::drop(&mut lent.0, 0, 0), 0);
    assert_eq!(lent.record(ELEVATED, 5), 6);
    assert_eq!(lent.kill(by(2, 10), q()), 0);
}

#[test]
fn steps_1_to_8() {
    let mut lent = step_1();
    for step in [step_2, step_3, step_4, step_5, step_6, step_7, step_8] {
        step(&mut lent);
    }
    // R is left, and both words are as they were set
    let mut expected = Lent::opened(&[(15, 0), (0x30, 0x10), (0x2f, 0x2f)]);
    assert_eq!(expected.start(1, r()), 0);
    let next = expected.next_at(1).unwrap();
    expected.0[next] = 9;
    assert_eq!(lent.0, expected.0);
}

/// The image that the state writes into so much room, or the number that refuses it.
fn written(lent: &Lent, room: usize) -> Result<Vec<u8>, u32> {
    let (mut buffer, mut length) = (vec![0xaa; room], 7);
    match entries::image(&lent.0, &mut buffer, &mut length) {
        0 => Ok(buffer[..length].to_vec()),
        number => Err(number),
    }
}

/// The module that the image makes, or the number that refuses it; the slice is then as it was.
fn restored(image: &[u8]) -> Result<Lent, u32> {
    let mut lent = Lent([0xee; STATE_LENGTH]);
    match entries::restore(&mut lent.0, image) {
        0 => Ok(lent),
        number => {
            assert_eq!(lent.0, [0xee; STATE_LENGTH]);
            Err(number)
        }
    }
}

/// The bytes with one of them changed make no image.
#[track_caller]
fn is_no_image_with(image: &[u8], at: usize, byte: u8) {
    let mut changed = image.to_vec();
    assert_ne!(changed[at], byte);
    changed[at] = byte;
    assert_eq!(restored(&changed).map(|_| ()), Err(14), "{at} {byte}");
}

/// Words 15 and 16, second words 15 and 0, no rows.
#[test]
fn step_9_without_rows() {
    let marked = Lent::fresh(&[(15, 15), (16, 0)]);
    assert_eq!(written(&marked, 73), Err(15));
    let new = written(&marked, 74).unwrap();
    assert_eq!(new[..10], [3, 0, 8, 0, 10, 0, 0, 0, 0x4a, 0]);
    let mut words = [0; 64];
    (words[0], words[4], words[32]) = (15, 16, 15);
    assert_eq!(new[10..], words);
    assert_eq!(restored(&new).unwrap().0, marked.0);
    for offset in [41, 42, 43, 73, 75] {
        is_no_image_with(&new, 8, offset);
    }
    is_no_image_with(&new, 9, 1);
    is_no_image_with(&new, 50, 1);
    is_no_image_with(&new, 2, 16);

    let mut old = new[..42].to_vec();
    old[8] = 42;
    let plain = Lent::fresh(&[(15, 0), (16, 0)]);
    assert_eq!(restored(&old).unwrap().0, plain.0);
    for offset in [41, 43, 73, 74, 75] {
        is_no_image_with(&old, 8, offset);
    }
    is_no_image_with(&old, 2, 16);
}

#[test]
fn step_9_with_a_row() {
    let mut lent = Lent::opened(&[(15, 0)]);
    assert_eq!(lent.start(0, p()), 0);
    assert_eq!(lent.save(by(0, 0)), 0);
    let new = written(&lent, image::FULL_LENGTH).unwrap();
    let mut old = [&new[..42], &new[74..]].concat();
    old[8] = 42;
    assert_eq!((new.len(), old.len()), (126, 94));
    assert_eq!(restored(&new).unwrap().0, restored(&old).unwrap().0);
    is_no_image_with(&new, 8, 42);
    is_no_image_with(&old, 8, 74);
}

#[test]
fn step_10() {
    let mut lent = Lent::fresh(&[(15, 0), (0x30, 0x60), (15, 15)]);
    assert_eq!(entries::holds(&lent.0), 0);
    lent.0[13 + 9 * 3] = 1;
    assert_eq!(entries::holds(&lent.0), 1);
    for length in [681, 716, 718] {
        assert_eq!(entries::holds(&vec![0; length]), 1);
    }
    assert_eq!(entries::holds(&[0; 717]), 0);
}

/// The second word of a credential that is not provisioned is taken as zero, as its grant word is.
#[test]
fn a_fresh_module_takes_second_words_of_provisioned_credentials() {
    let mut state = [0xff; STATE_LENGTH];
    let seconds = [4, 5, 6, 7, 8, 9, 10, u32::MAX];
    let provisioned = [1, 0, 0, 0, 0, 0, 0, 1];
    assert_eq!(
        entries::fresh(&mut state, &provisioned, &[15; 8], &seconds),
        0
    );
    let mut expected = [0; STATE_LENGTH];
    for (credential, second) in [(0, 4), (7, u32::MAX)] {
        let bytes = &mut expected[state::credential_at(credential)..][..state::CREDENTIAL_LENGTH];
        bytes[state::PROVISIONED] = 1;
        bytes[state::WORD] = 15;
        bytes[state::SECOND..].copy_from_slice(&second.to_le_bytes());
    }
    assert_eq!(state, expected);
}

#[test]
fn a_fresh_module_takes_eight_second_words() {
    for count in [0, 7, 9, 16] {
        let mut state = [0xee; STATE_LENGTH];
        let seconds = vec![0; count];
        let number = entries::fresh(&mut state, &[1; 8], &[15; 8], &seconds);
        assert_eq!((number, state), (1, [0xee; STATE_LENGTH]));
    }
}

/// What asks for a class under a claim of credential 1: of the module's own classes the call that they are for, about credential 0 and its process P.
#[track_caller]
fn asked(lent: &mut Lent, class: u32, claim: RawClaim) -> u32 {
    match class {
        0 => lent.list(claim, 0, 55),
        1 => lent.kill(claim, p()),
        2 => lent.save(claim),
        3 => lent.set_word(claim, 0, 0, 0),
        _ => lent.record(claim, class),
    }
}

/// Credential 1 with these words, R active and its elevation beside it; P is credential 0's.
fn asking(word: u32, second: u32) -> Lent {
    let mut lent = Lent::opened(&[(0, 0), (word, second)]);
    assert_eq!(lent.start(0, p()), 0);
    assert_eq!(lent.start(1, r()), 0);
    assert_eq!(lent.elevate(1, s()), 0);
    lent
}

/// Every pair of bits of every class, all other bits being the opposite.
#[test]
fn every_pair_of_bits_of_every_class() {
    for class in 0..32 {
        let alone = 1 << class;
        for (word, second) in [
            (!alone, !alone),
            (!alone, alone),
            (alone, !alone),
            (alone, alone),
        ] {
            let user = match (class, word == alone, second == alone) {
                (1, true, false) => 0,
                (1, ..) => 6,
                (_, false, _) => 10,
                (_, true, false) => 0,
                (_, true, true) => 18,
            };
            let elevated = match (class, word == alone) {
                (_, true) => 0,
                (1, false) => 6,
                (_, false) => 10,
            };
            let about = format!("class {class} word {word:#x} second {second:#x}");
            let mut lent = asking(word, second);
            assert_eq!(asked(&mut lent, class, by(1, 0)), user, "{about}");
            if user != 0 {
                assert_eq!(asked(&mut lent, class, by(1, 0)), 9, "{about}");
            }
            // an end has a user's claim always
            if class != 2 {
                let mut lent = asking(word, second);
                assert_eq!(asked(&mut lent, class, ELEVATED), elevated, "{about}");
            }
        }
    }
}

/// What asks for no class is done whatever the words say: one's own rows, a kill of one's own, an end without keep.
#[test]
fn ones_own_needs_no_class() {
    for (word, second) in [(0, 0), (0, !0), (!0, 0), (!0, !0)] {
        let mut lent = asking(word, second);
        assert_eq!(lent.list(by(1, 0), 1, 106), 0);
        assert_eq!(lent.list(ELEVATED, 1, 106), 0);
        assert_eq!(lent.kill(by(1, 1), s()), 0);
        assert_eq!(entries::end(&mut lent.0, 0, 0, 1, 2, 1, 0), 0);
    }
}

/// A record that got 18 is not good once the class is no longer marked.
#[test]
fn a_refused_record_is_not_good_later() {
    let mut lent = step_1();
    let kept = by(1, 0);
    assert_eq!(lent.record(kept, 5), 18);
    assert_eq!(lent.set_word(by(0, 0), 1, 0x30, 0), 0);
    assert_eq!(lent.record(kept, 5), 9);
    assert_eq!(lent.record(by(1, 1), 5), 0);
}

/// The elevation's credential is looked up, and not that of a user process beside it.
#[test]
fn an_elevated_claim_has_the_elevations_words() {
    let mut lent = Lent::opened(&[(16, 16), (32, 32)]);
    assert_eq!(lent.start(0, p()), 0);
    assert_eq!(lent.elevate(1, s()), 0);
    assert_eq!(lent.record(ELEVATED, 5), 0);
    assert_eq!(lent.record(ELEVATED, 4), 10);
    assert_eq!(lent.record(by(0, 0), 4), 18);
}

/// Document 01's steps 1 to 11, with the numbers that document 02 corrects.
fn document_01s_steps(seconds: [u32; 2]) -> Lent {
    let mut lent = Lent::fresh(&[(15, seconds[0]), (16, seconds[1])]);
    assert_eq!(
        [4, 0, 0].map(|n| entries::open(&mut lent.0, 0, n)),
        [1, 0, 2]
    );
    assert_eq!(lent.start(0, p()), 3);
    let versions = [0x20, 0x10, 0x10].map(|version| entries::select(&mut lent.0, 0, 0, version));
    assert_eq!(versions, [4, 0, 0]);
    assert_eq!(lent.start(2, p()), 5);
    assert_eq!(lent.start(0, p()), 0);
    assert_eq!(lent.start(1, p()), 12);
    assert_eq!(lent.start(1, r()), 0);
    assert_eq!(lent.start(1, p()), 7);
    assert_eq!(lent.record(by(1, 0), 4), 0);
    assert_eq!(lent.record(by(1, 0), 4), 9);
    assert_eq!(lent.record(denied(1, 1), 4), 8);
    assert_eq!(lent.record(by(1, 1), 5), 10);
    assert_eq!(lent.record(by(1, 2), 4), 0);
    assert_eq!(lent.record(by(1, 3), 3), 1);
    assert_eq!(lent.record(by(1, 3), 31), 10);
    assert_eq!(lent.kill(by(1, 4), p()), 6);
    assert_eq!(lent.kill(by(1, 5), q()), 6);
    assert_eq!(lent.kill(by(0, 0), r()), 0);
    assert_eq!(lent.record(by(1, 2), 4), 6);
    assert_eq!(lent.list(by(0, 1), ALL, 54), 15);
    assert_eq!(lent.list(by(0, 2), ALL, 55), 0);
    assert_eq!(lent.save(by(0, 3)), 0);
    assert_eq!(entries::open(&mut lent.0, 0, 1), 0);
    assert_eq!(entries::select(&mut lent.0, 0, 1, 0x10), 0);
    let continued = [q(), p()].map(|name| entries::continue_saved(&mut lent.0, 0, 1, 0, &name.0));
    assert_eq!(continued, [6, 0]);
    assert_eq!(lent.0[state::place_at(0) + state::NEXT..][..2], [4, 0]);
    lent
}

/// With second words zero, and with such as mark what is not granted: the answers are document 01's, and what stands is the same.
#[test]
fn document_01s_steps_are_answered_as_before() {
    let plain = document_01s_steps([0, 0]);
    let mut marked = document_01s_steps([!15, !16]);
    for credential in [0, 1] {
        let second = state::credential_at(credential) + state::SECOND;
        marked.0[second..][..4].fill(0);
    }
    assert_eq!(plain.0, marked.0);
}
