//! Every pair of bits of a class in the two words of a credential, under each kind of claim, in each call that looks a class up. Their numbers are known: 10 where
//! the grant word's bit is clear, 18 to a user's claim where both are set.

use crate::call::Call;
use crate::protected::{end, kill, list, record, set_words};
use crate::sides::Pair;
use slavotuk::entries::RawClaim;
use slavotuk::layout::listing::{row_at, FULL_LENGTH};
use slavotuk_model::layout;
use slavotuk_model::module::{Credential, Module, Phase, Process, Session};
use slavotuk_model::module::{CREDENTIALS, NAME_LENGTH};

const CLASSES: u32 = 32;

/// Where all of it is.
const SESSION: Session = Session::of(0, 0);

/// Sets words, and has no other class.
const SETTER: usize = 0;
/// Whose words are tried.
const CLAIMANT: usize = 1;
/// Has every class plainly: whoever looks into its words is seen.
const OTHER: usize = 2;
const UNPROVISIONED: usize = 7;

/// Every class, and none only under elevation.
const PLAIN: Credential = Credential::with(u32::MAX, 0);

/// The next number of every user process.
const NEXT: u16 = 7;

/// The byte in the names of the processes that are no user's, and in a name that none has.
const SAVED: u8 = 101;
const ELEVATION: u8 = 102;
const UNKNOWN: u8 = 103;

/// How the claim is made.
#[derive(Clone, Copy, Debug, PartialEq, Eq)]
enum Way {
    User,
    UserBesideOwnElevation,
    UserBesideAnothersElevation,
    Elevated,
}

const WAYS: [Way; 4] = [
    Way::User,
    Way::UserBesideOwnElevation,
    Way::UserBesideAnothersElevation,
    Way::Elevated,
];

impl Way {
    /// Whose elevation stands in the session.
    fn elevation(self) -> Option<usize> {
        match self {
            Way::User => None,
            Way::UserBesideOwnElevation | Way::Elevated => Some(CLAIMANT),
            Way::UserBesideAnothersElevation => Some(OTHER),
        }
    }

    /// The claim; another's credential stands in an elevated one, which ignores it.
    fn claim(self, number: u16) -> RawClaim {
        match self {
            Way::Elevated => RawClaim {
                kind: 1,
                ..RawClaim::user(OTHER as u32, number)
            },
            _ => RawClaim::user(CLAIMANT as u32, number),
        }
    }

    /// What a claim gets for a class by these words, where nothing else is in its way.
    fn number(self, words: Credential, class: u32) -> u32 {
        let has_class = |word: u32| (word >> class) & 1 == 1;
        match (has_class(words.word), has_class(words.second)) {
            (false, _) => 10,
            (true, true) if self != Way::Elevated => 18,
            (true, _) => 0,
        }
    }
}

/// A call, and the number that is right for it.
type Asked = (Call, u32);

/// How often what was answered.
#[derive(Default)]
struct Counted {
    calls: u64,
    done: u64,
    not_granted: u64,
    only_elevated: u64,
}

impl Counted {
    /// Makes the call; this number is right.
    fn expect(&mut self, pair: &mut Pair, call: &Call, right: u32) -> Result<(), String> {
        pair.expect(call, right)?;
        self.calls += 1;
        match right {
            0 => self.done += 1,
            10 => self.not_granted += 1,
            18 => self.only_elevated += 1,
            _ => {}
        }
        Ok(())
    }

    /// A call on this module, and the same claim again.
    fn tried(&mut self, lent: &[u8], way: Way, asked: &Asked, plain: &Asked) -> Result<(), String> {
        let mut pair = Pair::of(lent);
        let (call, right) = asked;
        self.expect(&mut pair, call, *right)?;
        if way == Way::Elevated {
            return Ok(());
        }
        // an end or a kill may have removed the claimant's process
        let stands = pair
            .module()
            .and_then(|module| module.find_active_user(SESSION, CLAIMANT));
        self.expect(&mut pair, call, if stands.is_some() { 9 } else { 6 })?;
        match right {
            18 => self.granted_plainly(&mut pair, call, plain),
            _ => Ok(()),
        }
    }

    /// Once every class is granted plainly, the claim that got 18 is refused still, and the next one is not.
    fn granted_plainly(
        &mut self,
        pair: &mut Pair,
        call: &Call,
        next: &Asked,
    ) -> Result<(), String> {
        let set = set_words(RawClaim::user(SETTER as u32, NEXT), CLAIMANT as u32, PLAIN);
        self.expect(pair, &set, 0)?;
        self.expect(pair, call, 9)?;
        let (call, right) = next;
        self.expect(pair, call, *right)
    }
}

/// Every pair of bits of each class, the other bits of each word clear and set, in each call.
pub fn every_pair_of_bits() -> Result<String, String> {
    let mut counted = Counted::default();
    for way in WAYS {
        let plain = calls(PLAIN, way, NEXT + 1);
        for words in (0..CLASSES).flat_map(words_about) {
            let lent = state(words, way);
            for (asked, plain) in calls(words, way, NEXT).iter().zip(&plain) {
                let outcome = counted.tried(&lent, way, asked, plain);
                let Credential { word, second, .. } = words;
                outcome
                    .map_err(|what| format!("words {word:#x} and {second:#x}, {way:?}: {what}"))?;
            }
        }
    }
    let Counted {
        calls,
        done,
        not_granted,
        only_elevated,
    } = counted;
    Ok(format!(
        "every pair of bits of {CLASSES} classes in both words, under {} kinds of claim in each call: {calls} calls, {done} accepted, {not_granted} not granted, {only_elevated} only elevated, each of these sent again at once and when granted plainly",
        WAYS.len()
    ))
}

/// The class's bits at both values, and the others of each word all clear or all set.
fn words_about(class: u32) -> Vec<Credential> {
    let both = |others: u32| [others & !(1 << class), others | (1 << class)];
    let values = [both(0), both(u32::MAX)].concat();
    let pairs = values.iter().flat_map(|word| {
        let seconds = values.iter();
        seconds.map(|second| Credential::with(*word, *second))
    });
    pairs.collect()
}

/// Classes that a record can have, and those that it can't, the same in fewer bits among them: 1, whatever the words say.
pub fn every_class_of_a_record() -> Result<String, String> {
    let wrapped = (4..CLASSES).flat_map(|class| [8, 16, 24, 31].map(|bit| class | 1 << bit));
    let classes: Vec<u32> = (0..=300).chain(wrapped).chain([u32::MAX]).collect();
    let mut counted = Counted::default();
    for words in [(0, 0), (u32::MAX, 0), (0, u32::MAX), (u32::MAX, u32::MAX)] {
        let words = Credential::with(words.0, words.1);
        for way in WAYS {
            for class in &classes {
                let right = match class {
                    4..=31 => way.number(words, *class),
                    _ => 1,
                };
                let mut pair = Pair::of(&state(words, way));
                counted.expect(&mut pair, &record(way.claim(NEXT), *class), right)?;
            }
        }
    }
    Ok(format!(
        "a record of {} classes, 28 of them good ones: {} calls, {} accepted, {} not granted, {} only elevated",
        classes.len(),
        counted.calls,
        counted.done,
        counted.not_granted,
        counted.only_elevated
    ))
}

/// A module whose claimant has these words.
fn state(words: Credential, way: Way) -> Vec<u8> {
    let mut credentials = [Credential::UNPROVISIONED; CREDENTIALS];
    credentials[SETTER] = Credential::with(1 << 3, 0);
    credentials[CLAIMANT] = words;
    credentials[OTHER] = PLAIN;
    let mut module = Module::fresh(credentials);
    module.set_phase(SESSION, Phase::OpenWithVersion);
    let name = |byte: u8| [byte; NAME_LENGTH];
    let users = [SETTER, CLAIMANT, OTHER].into_iter();
    module.processes = users
        .map(|user| Process::user(SESSION, user, NEXT, name(user as u8)))
        .chain([Process::saved(CLAIMANT, NEXT, name(SAVED))])
        .chain(
            way.elevation()
                .map(|owner| Process::elevation(SESSION, owner, name(ELEVATION))),
        )
        .collect();
    layout::write(&module)
}

/// Each call that looks a class up, on both sides of what it asks, with its number.
fn calls(words: Credential, way: Way, number: u16) -> Vec<Asked> {
    let claim = way.claim(number);
    let granted = |class| way.number(words, class);
    let then = |granted: u32, after: u32| if granted == 0 { after } else { granted };
    let [claimant, other, unprovisioned] = [CLAIMANT, OTHER, UNPROVISIONED].map(|at| at as u32);
    let kill_of_another = if granted(1) == 0 { 0 } else { 6 };
    let mut calls = vec![
        (list(claim, claimant, FULL_LENGTH), 0),
        (list(claim, claimant, row_at(1)), 15),
        (list(claim, other, FULL_LENGTH), granted(0)),
        (list(claim, unprovisioned, FULL_LENGTH), granted(0)),
        (list(claim, 65_535, FULL_LENGTH), granted(0)),
        (list(claim, 65_535, 0), then(granted(0), 15)),
        (kill(claim, CLAIMANT as u8), 0),
        (kill(claim, SAVED), 0),
        (kill(claim, OTHER as u8), kill_of_another),
        (kill(claim, UNKNOWN), 6),
        (set_words(claim, claimant, words), granted(3)),
        (set_words(claim, other, words), granted(3)),
        (set_words(claim, unprovisioned, words), then(granted(3), 5)),
    ];
    calls.extend((4..CLASSES).map(|class| (record(claim, class), granted(class))));
    if way != Way::Elevated {
        calls.extend([(end(claim, 0), 0), (end(claim, 1), granted(2))]);
    }
    calls
}
