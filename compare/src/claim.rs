//! Which user claims passed their check, told by the answers alone.

use crate::call::{user_claim, Call};
use slavotuk_model::Module;

/// The refusals after a claim that documents 01 and 02 have, by entry and number.
pub const AFTER_THE_CLAIM: [(&str, u32); 11] = [
    ("end", 10),
    ("end", 18),
    ("record", 10),
    ("record", 18),
    ("list", 10),
    ("list", 15),
    ("list", 18),
    ("kill", 6),
    ("set_word", 5),
    ("set_word", 10),
    ("set_word", 18),
];

/// The place of the process whose user claim passed its check in a call that was answered with this number. There is none where the claim is elevated, and where
/// the call was refused before the claim or by its check.
///
/// A 5 or a 6 is the claim's own unless its process stands; where it does, its owner is provisioned, and they come after the claim.
pub fn passed(call: &Call, number: u32, before: &Module) -> Option<usize> {
    let (session, credential, _) = user_claim(call)?;
    let (place, _) = before.find_active_user(session, credential as usize)?;
    matches!(number, 0 | 5 | 6 | 10 | 15 | 18).then_some(place)
}

/// The place of a refused call's answer in [`AFTER_THE_CLAIM`].
pub fn refusal_after(call: &Call, number: u32) -> Option<usize> {
    let answer = (Call::ENTRIES[call.entry()], number);
    AFTER_THE_CLAIM.iter().position(|known| *known == answer)
}

#[cfg(test)]
mod tests {
    use super::*;
    use slavotuk::entries::RawClaim;
    use slavotuk_model::module::{Credential, Phase, Process, Session};

    fn kill(port: u32, session: u32, claim: RawClaim) -> Call {
        Call::Kill {
            port,
            session,
            claim,
            name: vec![0; 48],
        }
    }

    #[test]
    fn a_6_is_the_claims_own_where_its_process_does_not_stand() {
        let mut module = Module::fresh([Credential::with(0, 0); 8]);
        let session = Session::of(1, 2);
        module.set_phase(session, Phase::OpenWithVersion);
        module.processes.push(Process::user(session, 1, 0, [1; 48]));
        let claim = RawClaim::user(1, 0);
        assert_eq!(passed(&kill(1, 2, claim), 6, &module), Some(0));
        assert_eq!(passed(&kill(1, 2, claim), 0, &module), Some(0));
        assert_eq!(passed(&kill(1, 2, claim), 9, &module), None);
        assert_eq!(passed(&kill(1, 0, claim), 6, &module), None);
        assert_eq!(passed(&kill(0, 2, claim), 6, &module), None);
        assert_eq!(passed(&kill(1, 2, RawClaim::user(0, 0)), 6, &module), None);
        assert_eq!(passed(&kill(1, 2, RawClaim::ELEVATED), 6, &module), None);
    }

    #[test]
    fn refusals_have_their_places() {
        let claim = RawClaim::user(1, 0);
        assert_eq!(refusal_after(&kill(1, 2, claim), 6), Some(7));
        assert_eq!(refusal_after(&kill(1, 2, claim), 10), None);
        assert_eq!(refusal_after(&kill(1, 2, claim), 18), None);
        assert_eq!(refusal_after(&kill(1, 2, claim), 0), None);
    }
}
