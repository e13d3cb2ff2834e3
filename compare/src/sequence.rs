//! Sequences of calls: drawn and run on both sides, with the claims that passed their check sent again.

use crate::call::{numbers_of, session_mut, user_claim, Call};
use crate::claim::passed;
use crate::depth::{outcome, Depth, Trail};
use crate::generate::Generator;
use crate::random::Random;
use crate::sides::Pair;
use slavotuk::entries::RawClaim;
use slavotuk_model::module::{Kind, Name, Process, Session};
use slavotuk_model::Module;

/// The bytes that are lent, and the calls on them.
#[derive(Clone, Debug, PartialEq, Eq)]
pub struct Sequence {
    /// The state's bytes at the beginning.
    pub lent: Vec<u8>,
    /// The calls.
    pub calls: Vec<Call>,
}

/// An error that a sequence shows: at which of its calls, and what it is.
#[derive(Clone, Debug, PartialEq, Eq)]
pub struct Found {
    /// The call's place.
    pub at: usize,
    /// What was found.
    pub what: String,
}

/// A sequence that shows an error.
#[derive(Clone, Debug)]
pub struct Failure {
    /// The calls up to the error.
    pub sequence: Sequence,
    /// The error.
    pub found: Found,
    /// How it is looked for.
    pub test: fn(&Sequence) -> Option<Found>,
}

/// What is done with a sequence.
#[derive(Clone, Copy, Debug)]
pub struct Plan {
    /// How many calls are drawn.
    pub calls: usize,
    /// Whether claims that passed their check are sent again after each call.
    pub replays: bool,
}

/// Draws a sequence from the seed and runs it. Answers with the pair as it then stands.
pub fn run(seed: u64, plan: Plan, depth: &mut Depth) -> Result<Pair, Box<Failure>> {
    let mut generator = Generator::new(seed);
    let mut random = Random::new(!seed);
    let lent = generator.lent();
    let mut pair = Pair::of(&lent);
    let mut calls = Vec::with_capacity(plan.calls);
    let (mut trail, mut claims) = (Trail::default(), Claims::default());
    depth.sequences += 1;
    for at in 0..plan.calls {
        let before = pair.module().cloned();
        let call = generator.next(before.as_ref());
        calls.push(call);
        let call = &calls[at];
        let answered = pair.call(call).and_then(|answer| match at % 8 {
            0 => pair.read_back().map(|()| answer),
            _ => Ok(answer),
        });
        let answer = match answered {
            Ok(answer) => answer,
            Err(difference) => {
                let what = difference.to_string();
                return Err(failure(lent, calls, Found { at, what }, find_difference));
            }
        };
        generator.observe(&answer);
        // none stands before the first fresh or restore that is accepted
        let Some(after) = pair.module() else {
            continue;
        };
        let before = before.as_ref().unwrap_or(after);
        depth.note(&mut trail, &answer, [before, after]);
        if plan.replays {
            claims.note(call, answer.number, before, after);
            let chosen = claims.choose(&mut random);
            if let Err(what) = claims.send_again(&chosen, &pair, call.entry(), depth) {
                return Err(failure(lent, calls, Found { at, what }, find_replay));
            }
        }
    }
    Ok(pair)
}

fn failure(
    lent: Vec<u8>,
    calls: Vec<Call>,
    found: Found,
    test: fn(&Sequence) -> Option<Found>,
) -> Box<Failure> {
    let sequence = Sequence { lent, calls };
    Box::new(Failure {
        sequence,
        found,
        test,
    })
}

/// The first call at which the sides differ.
pub fn find_difference(sequence: &Sequence) -> Option<Found> {
    let mut pair = Pair::of(&sequence.lent);
    for (at, call) in sequence.calls.iter().enumerate() {
        if let Err(difference) = pair.call(call).and_then(|_| pair.read_back()) {
            let what = difference.to_string();
            return Some(Found { at, what });
        }
    }
    None
}

/// The first call after which a claim passes its check again. All claims are tried, so it also finds what a random choice found.
pub fn find_replay(sequence: &Sequence) -> Option<Found> {
    let mut pair = Pair::of(&sequence.lent);
    let mut claims = Claims::default();
    for (at, call) in sequence.calls.iter().enumerate() {
        let before = pair.module().cloned();
        let answer = pair.call(call).ok()?;
        let after = pair.module()?;
        claims.note(call, answer.number, before.as_ref().unwrap_or(after), after);
        let all: Vec<usize> = (0..claims.passed.len()).collect();
        let outcome = claims.send_again(&all, &pair, call.entry(), &mut Depth::default());
        if let Err(what) = outcome {
            return Some(Found { at, what });
        }
    }
    None
}

/// The claims that passed their check, of the processes that still stand.
#[derive(Default)]
struct Claims {
    passed: Vec<Passed>,
}

struct Passed {
    call: Call,
    /// The process whose claim it was.
    name: Name,
    credential: usize,
    number: u16,
    /// What it came to; none where it was not seen to pass, being below an image's number.
    outcome: Option<usize>,
}

impl Claims {
    /// The newest so many are sent again after each call, and so many of the others.
    const NEWEST: usize = 64;
    const OTHERS: usize = 16;

    /// Takes note of a call. A name may be given again once its process is removed and the count starts afresh, so a removed process's claims are forgotten.
    fn note(&mut self, call: &Call, number: u32, before: &Module, after: &Module) {
        if let (Call::Restore { .. }, 0) = (call, number) {
            return self.note_restore(after);
        }
        let stands = |name: &Name| after.processes.iter().any(|process| process.name == *name);
        self.passed.retain(|claim| stands(&claim.name));
        let place = passed(call, number, before);
        if let (Some(place), Some((_, credential, claimed))) = (place, user_claim(call)) {
            let name = before.processes[place].name;
            if stands(&name) {
                self.passed.push(Passed {
                    call: call.clone(),
                    name,
                    credential: credential as usize,
                    number: claimed,
                    outcome: Some(outcome(call, number)),
                });
            }
        }
    }

    /// None below the image's number passes at all: beside the claims that passed, the first and the last of those numbers are sent, in a kill that is refused
    /// for its claim alone. From the image's number on, claims are good again where the image is an older one; that flash returns the newest is assumed.
    fn note_restore(&mut self, after: &Module) {
        let saved: Vec<(&Process, u16)> = after
            .processes
            .iter()
            .filter_map(|process| match process.kind {
                Kind::SavedUser { next } => Some((process, next)),
                _ => None,
            })
            .collect();
        self.passed.retain(|claim| {
            let below = |(process, next): &(&Process, u16)| {
                process.name == claim.name && claim.number < *next
            };
            saved.iter().any(below)
        });
        for (process, next) in saved {
            for number in [0, next - 1] {
                self.passed.push(Passed {
                    call: Call::Kill {
                        port: 0,
                        session: 0,
                        claim: RawClaim::user(process.credential as u32, number),
                        name: process.name.to_vec(),
                    },
                    name: process.name,
                    credential: process.credential,
                    number,
                    outcome: None,
                });
            }
        }
    }

    fn choose(&self, random: &mut Random) -> Vec<usize> {
        let count = self.passed.len();
        let older = count.saturating_sub(Claims::NEWEST);
        let mut chosen: Vec<usize> = (older..count).collect();
        for _ in 0..Claims::OTHERS.min(older) {
            chosen.push(random.below(older));
        }
        chosen
    }

    /// Sends the chosen claims in each session of both ports to a copy of the archive's state, after a call of this entry; none may pass its check, and the copy stays
    /// as it was.
    fn send_again(
        &mut self,
        chosen: &[usize],
        pair: &Pair,
        after: usize,
        depth: &mut Depth,
    ) -> Result<(), String> {
        let module = pair.module().ok_or("no state is lent")?;
        let mut copy = pair.archive.clone();
        for place in chosen {
            let claim = &mut self.passed[*place];
            for session in Session::all() {
                if let Some((port, handle)) = session_mut(&mut claim.call) {
                    (*port, *handle) = numbers_of(session);
                }
                let number = copy.answer(&claim.call).number;
                depth.replays += 1;
                if let Some(outcome) = claim.outcome {
                    depth.sent_after[outcome][after] += 1;
                }
                if passed(&claim.call, number, module).is_none() {
                    if copy.state() != pair.archive.state() {
                        return Err(format!("{number}, but the state changed: {}", claim.call));
                    }
                } else if claim.is_due_to_another(module, session) {
                    depth.replays_of_others += 1;
                    copy = pair.archive.clone();
                } else {
                    return Err(format!(
                        "passed its check a second time, and got {number}: {}",
                        claim.call
                    ));
                }
            }
        }
        Ok(())
    }
}

impl Passed {
    /// A claim has no name in it: where the credential has another process in that session whose next number this is, it is that process's claim. That the
    /// signature is made for one process alone is the key unit's concern.
    fn is_due_to_another(&self, module: &Module, session: Session) -> bool {
        match module.find_active_user(session, self.credential) {
            Some((place, next)) => module.processes[place].name != self.name && next == self.number,
            None => false,
        }
    }
}
