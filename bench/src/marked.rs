//! The calls on marked classes, drawn from the seed: a quarter each accepted by a user's claim and by an elevated one, and refused with 10 and with 18.

use crate::draw::{Random, SEED};
use crate::input::Call;
use crate::numbers::*;
use crate::states::User;
use slavotuk::entries::RawClaim;

/// What a call is planned to be: who makes it, and what it gets.
#[derive(Clone, Copy)]
enum Plan {
    Accepted,
    AcceptedElevated,
    NotGranted,
    OnlyElevated,
}

const PLANS: [Plan; 4] = [
    Plan::Accepted,
    Plan::AcceptedElevated,
    Plan::NotGranted,
    Plan::OnlyElevated,
];

/// So many calls on a state with marked classes and twelve standing, the user processes among them.
pub fn calls(users: impl Iterator<Item = User>, calls: usize) -> Vec<Call> {
    let mut random = Random::new(SEED);
    let mut plans: Vec<Plan> = PLANS.into_iter().cycle().take(calls).collect();
    random.shuffle(&mut plans);
    let mut turns: Vec<Turn> = users.map(|user| Turn { user, next: 0 }).collect();
    plans
        .into_iter()
        .map(|plan| call(plan, &mut turns, &mut random))
        .collect()
}

fn call(plan: Plan, turns: &mut [Turn], random: &mut Random) -> Call {
    let first_of_four = 4 + 4 * random.below(7) as u32;
    let one_of_two = 2 * random.below(2) as u32;
    let turn = &mut turns[random.below(turns.len())];
    match plan {
        Plan::Accepted => turn.take(first_of_four, DONE),
        Plan::AcceptedElevated => elevated(first_of_four + one_of_two),
        Plan::NotGranted => turn.take(first_of_four + 1 + one_of_two, NOT_GRANTED),
        Plan::OnlyElevated => turn.take(first_of_four + 2, ONLY_ELEVATED),
    }
}

/// By the elevation of session 0 of port 0, of a class that is granted, marked or not.
fn elevated(class: u32) -> Call {
    Call {
        port: 0,
        session: 0,
        claim: RawClaim::ELEVATED,
        class,
        number: DONE,
    }
}

/// An active user process, and its next number.
struct Turn {
    user: User,
    next: u16,
}

impl Turn {
    /// Its next call, which spends its number whatever it gets.
    fn take(&mut self, class: u32, number: u32) -> Call {
        let claim = RawClaim::user(self.user.credential, self.next);
        self.next += 1;
        Call {
            port: self.user.port,
            session: self.user.session,
            claim,
            class,
            number,
        }
    }
}
