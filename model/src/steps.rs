//! Document 01's thirteen steps, "Sequences on both sides of each bound", with the numbers that document 02 corrects, through the model's entries. They run on
//! from each other, so each test begins with the steps before its own. Behind them stands what document 02 asks of a refused claim, and then the steps of its
//! order 7, with second words; the words of document 01's steps have none. All of them are on port 0; [`crate::port_steps`] has those on both ports.

use crate::entries::{self, Lent, RawClaim};
use crate::figures::figures;
use crate::layout::STATE_LENGTH;
use crate::module::{Credential, Kind, Module, Session, SPENT};
use crate::port_steps::{denied, name_of, user, ELEVATED, P, Q, R};

/// The module of the steps, and the calls as the steps write them: the session is port 0's, and 0 where a step doesn't say.
struct Steps {
    lent: Lent,
}

impl Steps {
    fn new() -> Steps {
        Steps::of(&[(15, 0), (16, 0)])
    }

    /// A fresh module of the credentials from 0 on with these words; of the others, which are not provisioned, words are handed in too.
    fn of(given: &[(u32, u32)]) -> Steps {
        let mut lent = Lent::Other(vec![0xa5; STATE_LENGTH]);
        let (mut provisioned, mut words, mut seconds) =
            ([0; 8], [0xffff_ffff; 8], [0x1020_3040; 8]);
        for (credential, (word, second)) in given.iter().enumerate() {
            provisioned[credential] = 1;
            (words[credential], seconds[credential]) = (*word, *second);
        }
        let number = entries::fresh(&mut lent, &provisioned, &words, &seconds);
        assert_eq!(number, 0);
        Steps { lent }
    }

    fn after_step_3() -> Steps {
        let mut steps = Steps::new();
        assert_eq!(steps.open(4), 1);
        assert_eq!(steps.open(0), 0);
        assert_eq!(steps.open(0), 2);
        assert_eq!(steps.start(0, P), 3);
        assert_eq!(steps.select(0x20), 4);
        assert_eq!(steps.select(0x10), 0);
        assert_eq!(steps.select(0x10), 0);
        assert_eq!(steps.start(2, P), 5);
        assert_eq!(steps.start(0, P), 0);
        assert_eq!(steps.start(1, P), 12);
        steps
    }

    fn after_step_8() -> Steps {
        let mut steps = Steps::after_step_3();
        assert_eq!(steps.start(1, R), 0);
        assert_eq!(steps.start(1, P), 7);
        assert_eq!(steps.record(user(1, 0), 4), 0);
        assert_eq!(steps.record(user(1, 0), 4), 9);
        assert_eq!(steps.record(denied(1, 1), 4), 8);
        assert_eq!(steps.record(user(1, 1), 5), 10);
        assert_eq!(steps.record(user(1, 2), 4), 0);
        assert_eq!(steps.record(user(1, 3), 3), 1);
        assert_eq!(steps.record(user(1, 3), 31), 10);
        assert_eq!(steps.kill(user(1, 4), P), 6);
        assert_eq!(steps.kill(user(1, 5), Q), 6);
        steps
    }

    /// Step 11 up to its end, which saves P.
    fn after_the_save() -> Steps {
        let mut steps = Steps::after_step_8();
        assert_eq!(steps.kill(user(0, 0), R), 0);
        assert_eq!(steps.record(user(1, 2), 4), 6);
        assert_eq!(steps.list(user(0, 1), 65_535, &mut [0; 54]), (15, 0));
        assert_eq!(steps.list(user(0, 2), 65_535, &mut [0; 55]), (0, 55));
        assert_eq!(steps.end(user(0, 3), 1), 0);
        steps
    }

    fn after_step_11() -> Steps {
        let mut steps = Steps::after_the_save();
        steps.continue_p();
        steps
    }

    /// Step 11 from there on.
    fn continue_p(&mut self) {
        assert_eq!(self.open(1), 0);
        assert_eq!(entries::select(&mut self.lent, 0, 1, 0x10), 0);
        assert_eq!(entries::continue_saved(&mut self.lent, 0, 1, 0, &Q), 6);
        assert_eq!(entries::continue_saved(&mut self.lent, 0, 1, 0, &P), 0);
    }

    /// Writes an image and restores it into a slice that holds no state.
    fn power_cycle(&mut self) -> Vec<u8> {
        let (mut buffer, mut length) = (vec![0xee; 700], 999);
        assert_eq!(entries::image(&mut self.lent, &mut buffer, &mut length), 0);
        buffer.truncate(length);
        self.lent = Lent::Other(vec![0xa5; STATE_LENGTH]);
        assert_eq!(entries::restore(&mut self.lent, &buffer), 0);
        buffer
    }

    fn module(&self) -> &Module {
        match &self.lent {
            Lent::State(module) => module,
            Lent::Other(_) => panic!("the calls keep a state"),
        }
    }

    fn open(&mut self, session: u32) -> u32 {
        entries::open(&mut self.lent, 0, session)
    }

    fn select(&mut self, version: u32) -> u32 {
        entries::select(&mut self.lent, 0, 0, version)
    }

    fn start(&mut self, credential: u32, name: [u8; 48]) -> u32 {
        entries::start(&mut self.lent, 0, 0, credential, &name)
    }

    fn record(&mut self, claim: RawClaim, class: u32) -> u32 {
        entries::record(&mut self.lent, 0, 0, claim, class)
    }

    fn kill(&mut self, claim: RawClaim, name: [u8; 48]) -> u32 {
        entries::kill(&mut self.lent, 0, 0, claim, &name)
    }

    fn list(&mut self, claim: RawClaim, wanted: u32, response: &mut [u8]) -> (u32, usize) {
        let mut length = 999;
        let number = entries::list(&mut self.lent, 0, 0, claim, wanted, response, &mut length);
        (number, length)
    }

    fn set_word(&mut self, claim: RawClaim, target: u32) -> u32 {
        self.set_words(claim, target, 0x14, 0)
    }

    fn set_words(&mut self, claim: RawClaim, target: u32, word: u32, second: u32) -> u32 {
        entries::set_word(&mut self.lent, 0, 0, claim, target, word, second)
    }

    fn end(&mut self, claim: RawClaim, keep: u32) -> u32 {
        entries::end(
            &mut self.lent,
            0,
            0,
            claim.credential,
            claim.number,
            claim.verdict,
            keep,
        )
    }
}

#[test]
fn steps_1_to_3() {
    let steps = Steps::after_step_3();
    assert_eq!(steps.module().processes.len(), 1);
    assert_eq!(steps.module().processes[0].name, P);
    assert_eq!(steps.module().credentials[2], Credential::UNPROVISIONED);
}

#[test]
fn steps_4_to_8() {
    let steps = Steps::after_step_8();
    assert_eq!(
        steps.module().processes[1].kind,
        Kind::ActiveUser {
            session: Session::of(0, 0),
            next: 6
        }
    );
}

#[test]
fn step_9() {
    let mut steps = Steps::after_step_8();
    assert_eq!(steps.kill(user(0, 0), R), 0);
    assert_eq!(steps.record(user(1, 2), 4), 6);
    assert_eq!(steps.module().processes.len(), 1);
}

#[test]
fn step_10() {
    let mut steps = Steps::after_step_8();
    assert_eq!(steps.kill(user(0, 0), R), 0);
    let mut response = [0xee; 54];
    assert_eq!(steps.list(user(0, 1), 65_535, &mut response), (15, 0));
    assert_eq!(response, [0xee; 54]);
    let mut response = [0xee; 57];
    assert_eq!(steps.list(user(0, 1), 65_535, &mut response), (9, 0));
    assert_eq!(steps.list(user(0, 2), 65_535, &mut response), (0, 55));
    assert_eq!(response[..7], [0x0e, 0, 1, 0, 0, 0, 0]);
    assert_eq!(response[7..55], P);
    assert_eq!(response[55..], [0xee; 2]);
}

#[test]
fn step_11() {
    let steps = Steps::after_step_11();
    assert_eq!(
        steps.module().processes[0].kind,
        Kind::ActiveUser {
            session: Session::of(0, 1),
            next: 4
        }
    );
}

/// Saved P is continued at 4 as if nothing had been; active P is lost.
#[test]
fn step_11_with_power_cycles() {
    let mut steps = Steps::after_the_save();
    let image = steps.power_cycle();
    assert_eq!(image.len(), 74 + 52);
    assert_eq!(image[..10], [3, 0, 8, 0, 10, 0, 1, 0, 74, 0]);
    assert_eq!(image[10..18], [15, 0, 0, 0, 16, 0, 0, 0]);
    assert_eq!(image[18..74], [0; 56]);
    assert_eq!(image[74..78], [0, 0, 4, 0]);
    assert_eq!(image[78..], P);
    assert_eq!(steps.start(0, R), 2);
    steps.continue_p();
    let mut uninterrupted = Steps::after_step_11();
    assert_eq!(entries::close(&mut uninterrupted.lent, 0, 0), 0);
    assert_eq!(steps.module(), uninterrupted.module());
    assert_eq!(steps.power_cycle().len(), 74);
    assert!(steps.module().processes.is_empty());
}

#[test]
fn step_12() {
    let mut steps = Steps::after_step_11();
    for byte in 1..=11 {
        assert_eq!(steps.start(1, name_of(byte)), 0);
        let claim = user(0, 3 + u16::from(byte));
        let set = entries::set_word(&mut steps.lent, 0, 1, claim, 1, 0x14, 0);
        assert_eq!(set, 0);
        assert_eq!(steps.end(user(1, 0), 1), 0);
    }
    assert_eq!(steps.module().processes.len(), 12);
    assert_eq!(steps.start(2, Q), 5);
    assert_eq!(steps.start(1, P), 12);
    assert_eq!(steps.start(1, Q), 11);
    let killed = entries::kill(&mut steps.lent, 0, 1, user(0, 15), &name_of(5));
    assert_eq!(killed, 0);
    assert_eq!(steps.start(1, Q), 0);
    assert_eq!(steps.module().processes[11].name, Q);
}

/// Numbers 0 to 65,534 of credential 1 in turn, each answered so; then every number gets 13.
fn spent_by(class: u32, answer: u32) -> Steps {
    let mut steps = Steps::after_step_3();
    assert_eq!(steps.start(1, R), 0);
    for number in 0..SPENT {
        assert_eq!(
            steps.record(user(1, number), class),
            answer,
            "number {number}"
        );
    }
    for number in 0..=SPENT {
        assert_eq!(steps.record(user(1, number), 4), 13, "number {number}");
    }
    steps
}

#[test]
fn step_13() {
    assert_eq!(spent_by(4, 0).record(denied(1, SPENT), 4), 13);
}

/// A spent process is reached by refusals as well: number 65,534 refused with 10 leaves 65,535.
#[test]
fn step_13_by_refusals() {
    assert_eq!(spent_by(5, 10).end(user(1, SPENT), 0), 13);
}

/// A relay kept a signed kill that had got 6, and sends it again once the named process has started.
#[test]
fn the_relays_attack() {
    let mut steps = Steps::after_step_3();
    assert_eq!(steps.kill(user(0, 0), R), 6);
    assert_eq!(steps.start(1, R), 0);
    let before = steps.lent.clone();
    assert_eq!(steps.kill(user(0, 0), R), 9);
    assert_eq!(steps.lent, before);
    assert_eq!(steps.kill(user(0, 1), R), 0);
}

/// A refusal after the claim: whose user claim it is, the answer, and the call.
type Refused = (u32, u32, fn(&mut Steps, RawClaim) -> u32);

/// All of them, end's first: it takes no elevated claim. Credential 0 has class 3, and 1 has class 4 alone.
const AFTER_THE_CLAIM: [Refused; 7] = [
    (1, 10, |steps, claim| steps.end(claim, 1)),
    (1, 10, |steps, claim| steps.record(claim, 5)),
    (1, 10, |steps, claim| steps.list(claim, 0, &mut [0; 616]).0),
    (1, 15, |steps, claim| steps.list(claim, 1, &mut [0; 54]).0),
    (1, 6, |steps, claim| steps.kill(claim, Q)),
    (1, 10, |steps, claim| steps.set_word(claim, 1)),
    (0, 5, |steps, claim| steps.set_word(claim, 2)),
];

/// P and R stand, of credentials 0 and 1.
fn two_standing() -> Steps {
    let mut steps = Steps::after_step_3();
    assert_eq!(steps.start(1, R), 0);
    steps
}

#[test]
fn a_refusal_after_the_claim_spends_the_number_and_nothing_else() {
    for (credential, number, call) in AFTER_THE_CLAIM {
        let mut steps = two_standing();
        let mut expected = steps.module().clone();
        expected.processes[credential as usize].kind = Kind::ActiveUser {
            session: Session::of(0, 0),
            next: 1,
        };
        assert_eq!(call(&mut steps, user(credential, 0)), number);
        assert_eq!(*steps.module(), expected);
        assert_eq!(call(&mut steps, user(credential, 0)), 9);
        assert_eq!(*steps.module(), expected);
        assert_eq!(call(&mut steps, user(credential, 1)), number);
    }
}

#[test]
fn a_refusal_by_the_claims_own_check_leaves_everything() {
    for (credential, _, call) in AFTER_THE_CLAIM {
        let mut steps = two_standing();
        let before = steps.lent.clone();
        assert_eq!(call(&mut steps, denied(credential, 0)), 8);
        assert_eq!(call(&mut steps, user(credential, 1)), 9);
        assert_eq!(call(&mut steps, user(2, 0)), 5);
        assert_eq!(steps.lent, before);
    }
}

#[test]
fn an_argument_error_leaves_everything() {
    let mut steps = two_standing();
    let before = steps.lent.clone();
    assert_eq!(steps.end(user(1, 0), 2), 1);
    assert_eq!(steps.record(user(1, 0), 32), 1);
    assert_eq!(steps.list(user(1, 0), 8, &mut [0; 616]), (1, 0));
    let short = entries::kill(&mut steps.lent, 0, 0, user(1, 0), &P[..47]);
    assert_eq!(short, 1);
    assert_eq!(steps.set_word(user(0, 0), 8), 1);
    assert_eq!(steps.lent, before);
}

#[test]
fn an_elevated_claim_counts_nothing() {
    for (credential, number, call) in &AFTER_THE_CLAIM[1..] {
        let mut steps = two_standing();
        let lent = &mut steps.lent;
        assert_eq!(entries::elevate(lent, 0, 0, *credential, &name_of(3), 1), 0);
        let before = steps.lent.clone();
        assert_eq!(call(&mut steps, ELEVATED), *number);
        assert_eq!(steps.lent, before);
    }
}

/// The steps of order 7: credential 0 has the module's own classes; 1 has class 4 plainly, 5 only under elevation, and 6 not at all; 2 has the module's own classes
/// only under elevation.
impl Steps {
    fn after_the_starts() -> Steps {
        let mut steps = Steps::of(&[(15, 0), (0x30, 0x60), (15, 15)]);
        assert_eq!(steps.open(0), 0);
        assert_eq!(steps.select(0x10), 0);
        assert_eq!(steps.start(0, P), 0);
        assert_eq!(steps.start(1, R), 0);
        assert_eq!(steps.start(2, Q), 0);
        steps
    }

    fn after_the_records() -> Steps {
        let mut steps = Steps::after_the_starts();
        assert_eq!(steps.record(user(1, 0), 4), 0);
        assert_eq!(steps.record(user(1, 1), 5), 18);
        assert_eq!(steps.record(user(1, 1), 5), 9);
        assert_eq!(steps.record(user(1, 2), 6), 10);
        assert_eq!(steps.record(user(1, 3), 7), 10);
        assert_eq!(steps.record(user(1, 4), 4), 0);
        assert_eq!(steps.record(denied(1, 5), 5), 8);
        assert_eq!(steps.record(user(1, 5), 3), 1);
        steps
    }

    fn after_the_lists() -> Steps {
        let mut steps = Steps::after_the_records();
        assert_eq!(steps.list(user(2, 0), 2, &mut [0; 55]), (0, 55));
        assert_eq!(steps.list(user(2, 1), 0, &mut [0; 55]), (18, 0));
        assert_eq!(steps.list(user(2, 2), 65_535, &mut []), (18, 0));
        assert_eq!(steps.list(user(2, 3), 2, &mut [0; 54]), (15, 0));
        assert_eq!(steps.list(user(1, 5), 0, &mut []), (10, 0));
        steps
    }

    fn after_the_refused_words() -> Steps {
        let mut steps = Steps::after_the_lists();
        assert_eq!(steps.kill(user(2, 4), P), 6);
        assert_eq!(steps.kill(user(2, 5), name_of(9)), 6);
        assert_eq!(steps.end(user(2, 6), 1), 18);
        assert_eq!(steps.set_word(user(2, 7), 1), 18);
        assert_eq!(steps.set_word(user(2, 8), 3), 18);
        assert_eq!(steps.set_word(user(1, 6), 3), 10);
        assert_eq!(steps.set_word(user(0, 0), 3), 5);
        steps
    }

    fn after_the_elevation() -> Steps {
        let mut steps = Steps::after_the_refused_words();
        let elevated = entries::elevate(&mut steps.lent, 0, 0, 2, &name_of(3), 1);
        assert_eq!(elevated, 0);
        assert_eq!(steps.set_word(ELEVATED, 3), 5);
        assert_eq!(steps.set_words(ELEVATED, 1, 0x30, 0x10), 0);
        assert_eq!(steps.record(user(1, 7), 5), 0);
        assert_eq!(steps.record(user(1, 8), 4), 18);
        steps
    }

    fn after_the_elevated_calls() -> Steps {
        let mut steps = Steps::after_the_elevation();
        assert_eq!(steps.list(ELEVATED, 65_535, &mut [0; 207]), (15, 0));
        assert_eq!(steps.list(ELEVATED, 65_535, &mut [0; 208]), (0, 208));
        assert_eq!(steps.kill(ELEVATED, P), 0);
        assert_eq!(steps.record(ELEVATED, 5), 10);
        assert_eq!(steps.set_words(ELEVATED, 2, 0x2f, 0x2f), 0);
        assert_eq!(steps.record(ELEVATED, 5), 0);
        assert_eq!(steps.record(user(2, 9), 5), 18);
        steps
    }

    fn next_numbers(&self) -> Vec<u16> {
        let users = self.module().processes.iter();
        let numbers = users.filter_map(|process| match process.kind {
            Kind::ActiveUser { next, .. } => Some(next),
            Kind::ActiveElevation { .. } | Kind::SavedUser { .. } => None,
        });
        numbers.collect()
    }
}

#[test]
fn order_7_steps_1_and_2() {
    assert_eq!(Steps::after_the_records().next_numbers(), [0, 5, 0]);
}

#[test]
fn order_7_steps_3_to_5() {
    let steps = Steps::after_the_refused_words();
    assert_eq!(steps.next_numbers(), [1, 7, 9]);
    let started = Steps::after_the_starts();
    assert_eq!(steps.module().credentials, started.module().credentials);
}

#[test]
fn order_7_steps_6_and_7() {
    let steps = Steps::after_the_elevated_calls();
    assert_eq!(steps.next_numbers(), [9, 10]);
    let mut credentials = [Credential::UNPROVISIONED; 8];
    credentials[0] = Credential::with(15, 0);
    credentials[1] = Credential::with(0x30, 0x10);
    credentials[2] = Credential::with(0x2f, 0x2f);
    assert_eq!(steps.module().credentials, credentials);
}

#[test]
fn order_7_step_8() {
    let mut steps = Steps::after_the_elevated_calls();
    assert_eq!(entries::drop(&mut steps.lent, 0, 0), 0);
    assert_eq!(steps.record(ELEVATED, 5), 6);
    assert_eq!(steps.kill(user(2, 10), Q), 0);
    assert_eq!(steps.module().processes.len(), 1);
}

/// The number of a restore.
fn restored(image: &[u8]) -> u32 {
    entries::restore(&mut Lent::Other(vec![0xa5; STATE_LENGTH]), image)
}

fn changed(bytes: &[u8], at: usize, to: u8) -> Vec<u8> {
    let mut changed = bytes.to_vec();
    changed[at] = to;
    changed
}

fn printed(image: &[u8]) -> String {
    figures(&[&(image.len() as u16).to_le_bytes(), image].concat())
}

#[test]
fn order_7_step_9_the_new_layout() {
    let mut steps = Steps::of(&[(15, 15), (16, 0)]);
    let (mut short, mut length) = ([0xee; 73], 9);
    let number = entries::image(&mut steps.lent, &mut short, &mut length);
    assert_eq!((number, length), (15, 0));
    let before = steps.module().clone();
    let image = steps.power_cycle();
    assert_eq!(*steps.module(), before);
    let mut expected = vec![3, 0, 8, 0, 0x0a, 0, 0, 0, 0x4a, 0];
    expected.resize(74, 0);
    (expected[10], expected[14], expected[42]) = (0x0f, 0x10, 0x0f);
    assert_eq!(image, expected);
    assert_eq!(printed(&image), "0 5 0\ntotal 1 0 5\n");
    for offset in [41, 42, 43, 73, 75] {
        assert_eq!(restored(&changed(&image, 8, offset)), 14);
    }
    assert_eq!(restored(&changed(&image, 50, 1)), 14);
    assert_eq!(restored(&changed(&image, 2, 16)), 14);
}

#[test]
fn order_7_step_9_the_old_layout() {
    let mut old = vec![3, 0, 8, 0, 0x0a, 0, 0, 0, 0x2a, 0];
    old.extend([15, 0, 0, 0, 16, 0, 0, 0]);
    old.resize(42, 0);
    let mut steps = Steps::of(&[(1, 1)]);
    assert_eq!(entries::restore(&mut steps.lent, &old), 0);
    assert_eq!(steps.module(), Steps::of(&[(15, 0), (16, 0)]).module());
    assert_eq!(printed(&old), "0 5 0\ntotal 1 0 5\n");
    assert_eq!(restored(&changed(&old, 8, 74)), 14);
    assert_eq!(steps.power_cycle().len(), 74);
}

/// 94 bytes with 42, 126 with 74; each other pair is 14.
#[test]
fn order_7_step_9_one_row() {
    let image = Steps::after_the_save().power_cycle();
    assert_eq!(image.len(), 126);
    let old = [&image[..42], &image[74..]].concat();
    for (bytes, offset, number) in [
        (&image, 74, 0),
        (&image, 42, 14),
        (&old, 74, 14),
        (&old, 42, 0),
    ] {
        assert_eq!(restored(&changed(bytes, 8, offset)), number);
    }
}

#[test]
fn order_7_step_10() {
    let held = Steps::after_the_starts().lent.bytes();
    let holds = |bytes: &[u8]| entries::holds(&mut Lent::of(bytes));
    assert_eq!(holds(&held), 0);
    assert_eq!(holds(&changed(&held, 13 + 9 * 3, 1)), 1);
    let longer = [&held[..], &[0]].concat();
    for length in [681, 713, 716, 718] {
        assert_eq!(holds(&longer[..length]), 1);
    }
}

/// 18 is one more refusal after the claim: of credential 2, which has the module's own classes only under elevation.
#[test]
fn an_18_spends_the_number_and_nothing_else() {
    let calls: [fn(&mut Steps, RawClaim) -> u32; 5] = [
        |steps, claim| steps.end(claim, 1),
        |steps, claim| steps.record(claim, 5),
        |steps, claim| steps.list(claim, 1, &mut [0; 616]).0,
        |steps, claim| steps.list(claim, 65_535, &mut []).0,
        |steps, claim| steps.set_words(claim, 3, 0, 0),
    ];
    for call in calls {
        let mut steps = Steps::after_the_starts();
        let claim = user(0, 0);
        assert_eq!(steps.set_words(claim, 2, 0x2f, 0x2f), 0);
        let mut expected = steps.module().clone();
        expected.processes[2].kind = Kind::ActiveUser {
            session: Session::of(0, 0),
            next: 1,
        };
        assert_eq!(call(&mut steps, user(2, 0)), 18);
        assert_eq!(*steps.module(), expected);
        assert_eq!(call(&mut steps, user(2, 0)), 9);
        assert_eq!(*steps.module(), expected);
        // it passes once the class is no longer marked, and its number is not good again
        assert_eq!(steps.set_words(user(0, 1), 2, 0x2f, 0), 0);
        assert_eq!(call(&mut steps, user(2, 0)), 9);
        assert_ne!(call(&mut steps, user(2, 1)), 18);
    }
}
