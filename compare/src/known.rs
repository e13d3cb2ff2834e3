//! Rows of calls whose numbers are known: a process spent, the relay's attack of document 02, and the same with a record that needs elevation.

use crate::call::{Answer, Call};
use crate::protected::{end, kill, list, name_of, record, set_words};
use crate::sides::Pair;
use crate::unprotected::{close, continue_saved, open, select, start};
use slavotuk::entries::RawClaim;
use slavotuk::layout::listing::row_at;
use slavotuk_model::image::LONGEST;
use slavotuk_model::layout::STATE_LENGTH;
use slavotuk_model::module::{Credential, CREDENTIALS, SPENT};

/// The calls of a test that knows their numbers, on both sides.
struct Known {
    pair: Pair,
    made: u64,
}

impl Known {
    /// A module of credentials 0 to 6, with session 0 of port 0 open and a process of credential 1 in it.
    fn started(word: u32, second: u32) -> Result<Known, String> {
        let mut known = Known {
            pair: Pair::of(&[0; STATE_LENGTH]),
            made: 0,
        };
        let mut provisioned = vec![1; CREDENTIALS];
        provisioned[UNPROVISIONED as usize] = 0;
        let fresh = Call::Fresh {
            provisioned,
            words: vec![word; CREDENTIALS],
            seconds: vec![second; CREDENTIALS],
        };
        known.expect(fresh, 0)?;
        known.enter()?;
        known.expect(start_of(1), 0)?;
        Ok(known)
    }

    fn enter(&mut self) -> Result<(), String> {
        self.expect(open(), 0)?;
        self.expect(select(0x10), 0)?;
        Ok(())
    }

    fn expect(&mut self, call: Call, number: u32) -> Result<Answer, String> {
        let answer = self.pair.expect(&call, number)?;
        self.made += 1;
        Ok(answer)
    }

    /// Saves the process of credential 1, under this number, and takes it up again after a power cycle.
    fn power_cycle(&mut self, number: u16) -> Result<(), String> {
        self.expect(keep(number), 0)?;
        self.restore_the_newest()?;
        self.enter()?;
        self.expect(continue_saved(1, name_of(1)), 0)?;
        Ok(())
    }

    /// Writes an image and restores it.
    fn restore_the_newest(&mut self) -> Result<(), String> {
        let call = Call::Image {
            image: vec![0xee; LONGEST].into(),
            length: 0,
        };
        let answer = self.expect(call, 0)?;
        let Call::Image { image, length } = answer.made else {
            return Err("another call was answered".to_string());
        };
        let image = image.as_ref()[..length].to_vec();
        self.expect(Call::Restore { image }, 0)?;
        Ok(())
    }
}

const UNPROVISIONED: u32 = 7;

/// Starts the process of a credential, which is named for it.
fn start_of(credential: u8) -> Call {
    start(credential.into(), name_of(credential))
}

/// A claim of credential 1.
fn by(number: u16) -> RawClaim {
    RawClaim::user(1, number)
}

/// One process from its first number to its last, by accepted calls and by every refusal after the claim, 65,534 by a 10 or an 18: every number passes its check in
/// turn, and then none.
pub fn run_to_spent() -> Result<String, String> {
    let mut made = 0;
    for (word, second, calls) in [
        (u32::MAX, 0, &GRANTED),
        (16, 0, &NOT_GRANTED),
        (u32::MAX, !16, &ONLY_ELEVATED),
    ] {
        let mut known = Known::started(word, second)?;
        known.expect(start_of(2), 0)?;
        let call = |number: u16| calls[usize::from(number) % calls.len()];
        for number in 0..SPENT {
            let (answer, call) = call(number);
            known.expect(call(number), answer)?;
        }
        for number in 0..=SPENT {
            let (_, call) = call(number);
            known.expect(call(number), 13)?;
        }
        known.expect(close(), 0)?;
        made += known.made;
    }
    Ok(format!(
        "numbers 0 to 65534 of three processes taken in turn, by accepted calls and by every refusal after the claim, then all refused: {made} calls"
    ))
}

/// A call under a number of credential 1, with its answer.
type Numbered = (u32, fn(u16) -> Call);

/// Every class is granted.
const GRANTED: [Numbered; 6] = [
    (0, |number| record(by(number), 4)),
    (0, |number| list(by(number), 1, row_at(1))),
    (0, |number| set_word(number, 2)),
    (15, |number| list(by(number), 1, row_at(1) - 1)),
    (6, |number| kill(by(number), 9)),
    (5, |number| set_word(number, UNPROVISIONED)),
];

/// Class 4 alone is granted.
const NOT_GRANTED: [Numbered; 6] = [
    (0, |number| record(by(number), 4)),
    (6, |number| kill(by(number), 2)),
    (10, |number| record(by(number), 5)),
    (10, |number| list(by(number), 2, row_at(1))),
    (10, |number| set_word(number, 1)),
    (10, keep),
];

/// Every class is granted, and all but class 4 only under elevation.
const ONLY_ELEVATED: [Numbered; 6] = [
    (0, |number| record(by(number), 4)),
    (6, |number| kill(by(number), 2)),
    (18, |number| record(by(number), 5)),
    (18, |number| list(by(number), 2, row_at(1))),
    (18, |number| set_word(number, UNPROVISIONED)),
    (18, keep),
];

fn set_word(number: u16, target: u32) -> Call {
    set_words(by(number), target, Credential::with(number.into(), 0))
}

fn keep(number: u16) -> Call {
    end(by(number), 1)
}

/// A relay keeps a kill that got 6, and sends it again once the named process has started: at once, and after a power cycle.
pub fn run_the_relays_attack() -> Result<String, String> {
    let mut made = 0;
    for power_cycle in [false, true] {
        let mut known = Known::started(u32::MAX, 0)?;
        known.expect(kill(by(0), 2), 6)?;
        if power_cycle {
            known.power_cycle(1)?;
        }
        known.expect(start_of(2), 0)?;
        known.expect(kill(by(0), 2), 9)?;
        let next = if power_cycle { 2 } else { 1 };
        known.expect(kill(by(next), 2), 0)?;
        made += known.made;
    }
    Ok(format!(
        "a kill that got 6, sent again after the start of the process it names, gets 9, after a power cycle too: {made} calls"
    ))
}

/// A relay keeps a record that got 18, and sends it again once its class is granted plainly: at once, and after a power cycle.
pub fn run_the_kept_record() -> Result<String, String> {
    const CLASS: u32 = 5;
    let mut made = 0;
    for power_cycle in [false, true] {
        let mut known = Known::started(u32::MAX, 1 << CLASS)?;
        known.expect(record(by(0), CLASS), 18)?;
        known.expect(record(by(0), CLASS), 9)?;
        if power_cycle {
            known.power_cycle(1)?;
        }
        let next = if power_cycle { 2 } else { 1 };
        let plain = set_words(by(next), 1, Credential::with(u32::MAX, 0));
        known.expect(plain, 0)?;
        known.expect(record(by(0), CLASS), 9)?;
        known.expect(record(by(next + 1), CLASS), 0)?;
        made += known.made;
    }
    Ok(format!(
        "a record that got 18, sent again after its class is granted plainly, gets 9, after a power cycle too: {made} calls"
    ))
}
