//! Each number through the wrapper, and what a refusal leaves: everything as it was, or one number spent.

mod common;

use common::*;
use slavotuk::{
    answered, layout, write_request, Claim, Class, Grants, Listing, Module, Name, Port, Refusal,
    Standing, UserClaim, Wanted, FULL_LISTING_LENGTH,
};

/// The names as document 01's table has them, and that of document 02's number, order 7.
const NAMES: [(u32, &str); 16] = [
    (1, "argument"),
    (2, "session"),
    (3, "no version"),
    (4, "version"),
    (5, "credential"),
    (6, "no process"),
    (7, "already active"),
    (8, "verdict"),
    (9, "out of turn"),
    (10, "not granted"),
    (11, "full"),
    (12, "name taken"),
    (13, "spent"),
    (14, "message"),
    (15, "room"),
    (18, "only elevated"),
];

#[test]
fn numbers_and_names_are_the_documents() {
    for (number, name) in NAMES {
        let refusal = answered(number).unwrap_err();
        assert_eq!(refusal.number(), number);
        assert_eq!(refusal.to_string(), name);
    }
    let known: Vec<(u32, &str)> = Refusal::KNOWN
        .iter()
        .map(|refusal| (refusal.number(), refusal.name()))
        .collect();
    assert_eq!(known, NAMES);
    assert_eq!(answered(0), Ok(()));
    let error: Box<dyn std::error::Error> = Refusal::NoVersion.into();
    assert_eq!(error.to_string(), "no version");
}

#[test]
fn a_number_without_a_name_is_a_refusal_too() {
    for number in [16, 17, 19, 20, 255, 256, u32::MAX] {
        let refusal = answered(number).unwrap_err();
        assert_eq!((refusal.number(), refusal.name()), (number, "unknown"));
        assert_eq!(refusal.to_string(), format!("unknown number {number}"));
        assert!(Refusal::KNOWN.iter().all(|known| *known != refusal));
    }
}

/// Asks for a refusal and looks that no byte of the state has changed.
#[track_caller]
fn refused<T: std::fmt::Debug>(
    module: &mut Module,
    number: u32,
    call: impl FnOnce(&mut Module) -> Result<T, Refusal>,
) {
    let before = module.clone();
    let answer = call(module).unwrap_err();
    assert_eq!(answer.number(), number, "{answer}");
    assert_eq!(*module, before);
}

/// Asks for a refusal after the claim, in session 0: the process's next number is one more, and no other byte of the state has changed. The same claim is then
/// out of turn, and that changes nothing.
#[track_caller]
fn refused_and_spent<T: std::fmt::Debug>(
    module: &mut Module,
    number: u32,
    claim: UserClaim,
    mut call: impl FnMut(&mut Module, UserClaim) -> Result<T, Refusal>,
) {
    let standing = Standing::ActiveUser {
        session: session(0),
        next_number: claim.number,
    };
    let place = module
        .processes()
        .position(|process| process.credential == claim.credential && process.standing == standing)
        .unwrap();
    let mut expected = module.bytes().to_vec();
    let next = layout::state::place_at(place) + layout::state::NEXT;
    expected[next..next + 2].copy_from_slice(&(claim.number + 1).to_le_bytes());
    let answer = call(module, claim).unwrap_err();
    assert_eq!(answer.number(), number, "{answer}");
    assert_eq!(module.bytes(), expected);
    refused(module, 9, |m| call(m, claim));
}

#[test]
fn argument() {
    let mut module = opened(&[0]);
    for number in 0..4 {
        refused(&mut module, 1, |m| {
            m.record(session(0), by(0, 0), class(number))
        });
    }
    assert_eq!(
        Listing::read(&[0x0e, 0, 0, 0]).unwrap().row(0),
        Err(Refusal::Argument)
    );
}

#[test]
fn session_and_version() {
    let mut module = Module::fresh(&grants()).unwrap();
    let s = session(0);
    refused(&mut module, 2, |m| m.close(s));
    refused(&mut module, 2, |m| m.select(s, 0x10));
    refused(&mut module, 2, |m| m.start(s, credential(0), &p()));
    module.open(s).unwrap();
    refused(&mut module, 2, |m| m.open(s));
    refused(&mut module, 3, |m| m.start(s, credential(0), &p()));
    refused(&mut module, 3, |m| m.drop_elevation(s));
    for version in (0..=255).filter(|&version| version != 0x10) {
        refused(&mut module, 4, |m| m.select(s, version));
    }
    module.select(s, 0x10).unwrap();
    refused(&mut module, 4, |m| m.select(s, 0x20));
}

#[test]
fn credential_and_no_process() {
    let mut module = opened(&[0, 1]);
    let s = session(0);
    for number in 2..8 {
        let c = credential(number);
        refused(&mut module, 5, |m| m.start(s, c, &p()));
        refused(&mut module, 5, |m| m.continue_saved(s, c, &p()));
        refused(&mut module, 5, |m| m.elevate(s, c, &p(), true));
        refused(&mut module, 5, |m| m.record(s, by(number, 0), class(4)));
        refused(&mut module, 5, |m| m.end(s, by(number, 0), false));
    }
    refused(&mut module, 6, |m| m.drop_elevation(s));
    refused(&mut module, 6, |m| m.continue_saved(s, credential(0), &p()));
    refused(&mut module, 6, |m| m.record(s, Claim::Elevated, class(4)));
    refused(&mut module, 6, |m| m.record(s, by(1, 0), class(4)));
    refused(&mut module, 6, |m| m.kill(s, by(0, 0), &q()));
    refused(&mut module, 6, |m| m.kill(s, Claim::Elevated, &q()));
    refused(&mut module, 5, |m| {
        m.set_word(s, by(2, 0), credential(0), plain(1))
    });
    module.start(s, credential(0), &p()).unwrap();
    // the process of session 0 serves no record of session 1
    refused(&mut module, 6, |m| m.kill(session(1), by(0, 0), &p()));
    // behind the claim
    refused_and_spent(&mut module, 6, by(0, 0), |m, claim| m.kill(s, claim, &q()));
    refused_and_spent(&mut module, 5, by(0, 1), |m, claim| {
        m.set_word(s, claim, credential(2), plain(1))
    });
}

/// A relay kept a kill that had got 6, and sends it again after the start of the process that it names.
#[test]
fn a_refused_kill_is_not_good_later() {
    let mut module = opened(&[0]);
    let s = session(0);
    module.start(s, credential(0), &p()).unwrap();
    let kept = by(0, 0);
    refused_and_spent(&mut module, 6, kept, |m, claim| m.kill(s, claim, &r()));
    module.start(s, credential(1), &r()).unwrap();
    refused(&mut module, 9, |m| m.kill(s, kept, &r()));
    module.kill(s, by(0, 1), &r()).unwrap();
}

#[test]
fn already_active_and_name_taken() {
    let mut module = opened(&[0, 1]);
    let s = session(0);
    module.start(s, credential(0), &p()).unwrap();
    module.elevate(s, credential(0), &q(), true).unwrap();
    refused(&mut module, 7, |m| m.start(s, credential(0), &p()));
    refused(&mut module, 7, |m| m.elevate(s, credential(1), &r(), true));
    refused(&mut module, 12, |m| m.start(s, credential(1), &p()));
    refused(&mut module, 12, |m| {
        m.elevate(session(1), credential(1), &q(), true)
    });
    module.start(s, credential(1), &r()).unwrap();
}

#[test]
fn verdict_and_turn() {
    let mut module = opened(&[0]);
    let s = session(0);
    refused(&mut module, 8, |m| m.elevate(s, credential(0), &q(), false));
    module.start(s, credential(1), &p()).unwrap();
    let no = UserClaim {
        verdict: false,
        ..by(1, 0)
    };
    refused(&mut module, 8, |m| m.record(s, no, class(4)));
    refused(&mut module, 9, |m| m.record(s, by(1, 1), class(4)));
    refused(&mut module, 9, |m| m.end(s, by(1, 65535), false));
}

#[test]
fn not_granted() {
    let mut module = opened(&[0]);
    let s = session(0);
    module.start(s, credential(1), &p()).unwrap();
    refused_and_spent(&mut module, 10, by(1, 0), |m, claim| {
        m.record(s, claim, class(5))
    });
    refused_and_spent(&mut module, 10, by(1, 1), |m, claim| m.end(s, claim, true));
    refused_and_spent(&mut module, 10, by(1, 2), |m, claim| {
        m.set_word(s, claim, credential(1), plain(!0))
    });
    refused_and_spent(&mut module, 10, by(1, 3), |m, claim| {
        let mut buffer = [0; FULL_LISTING_LENGTH];
        m.list(s, claim, Wanted::All, &mut buffer).map(|_| ())
    });
    module.record(s, by(1, 4), class(4)).unwrap();
}

/// Credential 1 has class 4 plainly, and 6 and the module's own under elevation; credential 0 is document 01's.
fn with_marks() -> [Grants; 8] {
    let mut grants = grants();
    grants[1] = Grants::of_words(0x5f, 0x4f);
    grants
}

#[test]
fn only_elevated() {
    let mut module = opened_of(&with_marks(), &[0]);
    let s = session(0);
    module.start(s, credential(1), &p()).unwrap();
    // an elevation in the session, one's own or not, makes no claim an elevated one
    module.elevate(s, credential(1), &q(), true).unwrap();
    refused_and_spent(&mut module, 18, by(1, 0), |m, claim| {
        m.record(s, claim, class(6))
    });
    refused_and_spent(&mut module, 18, by(1, 1), |m, claim| m.end(s, claim, true));
    refused_and_spent(&mut module, 18, by(1, 2), |m, claim| {
        m.set_word(s, claim, credential(1), plain(!0))
    });
    // ahead of what follows it: the target's provision, and the room
    refused_and_spent(&mut module, 18, by(1, 3), |m, claim| {
        m.set_word(s, claim, credential(2), plain(!0))
    });
    refused_and_spent(&mut module, 18, by(1, 4), |m, claim| {
        m.list(s, claim, Wanted::All, &mut []).map(|_| ())
    });
    module.record(s, by(1, 5), class(4)).unwrap();
}

/// A kill tells nobody that a stranger's name stands.
#[test]
fn a_kill_is_never_only_elevated() {
    let mut module = opened_of(&with_marks(), &[0]);
    let s = session(0);
    module.start(s, credential(0), &p()).unwrap();
    module.start(s, credential(1), &r()).unwrap();
    module.elevate(s, credential(1), &q(), true).unwrap();
    for (number, name) in [(0, p()), (1, named(0x33, 0x33))] {
        refused_and_spent(&mut module, 6, by(1, number), |m, claim| {
            m.kill(s, claim, &name)
        });
    }
    module.kill(s, Claim::Elevated, &p()).unwrap();
    module.kill(s, by(1, 2), &r()).unwrap();
}

#[test]
fn an_elevated_claim_is_granted_what_is_marked() {
    let mut module = opened_of(&with_marks(), &[0]);
    let s = session(0);
    module.elevate(s, credential(1), &q(), true).unwrap();
    module.record(s, Claim::Elevated, class(4)).unwrap();
    module.record(s, Claim::Elevated, class(6)).unwrap();
    let mut buffer = [0; FULL_LISTING_LENGTH];
    let listing = module.list(s, Claim::Elevated, Wanted::All, &mut buffer);
    assert_eq!(listing.unwrap().rows().len(), 1);
    module
        .set_word(s, Claim::Elevated, credential(1), plain(0))
        .unwrap();
    assert_eq!(module.grants(credential(1)), Grants::of_word(0));
}

#[test]
fn an_elevated_claim_spends_nothing() {
    let mut module = opened(&[0]);
    let s = session(0);
    module.start(s, credential(1), &p()).unwrap();
    module.elevate(s, credential(1), &q(), true).unwrap();
    let claim = Claim::Elevated;
    refused(&mut module, 10, |m| m.record(s, claim, class(5)));
    refused(&mut module, 10, |m| {
        m.set_word(s, claim, credential(2), plain(1))
    });
    refused(&mut module, 6, |m| m.kill(s, claim, &r()));
    refused(&mut module, 15, |m| {
        let own = Wanted::Of(credential(1));
        m.list(s, claim, own, &mut [0; 105]).map(|_| ())
    });
}

#[test]
fn full_table() {
    let mut module = full();
    let s = session(0);
    refused(&mut module, 11, |m| m.start(s, credential(1), &q()));
    refused(&mut module, 11, |m| m.elevate(s, credential(1), &q(), true));
    let killed = Name([5; 48]);
    module.kill(s, by(0, 0), &killed).unwrap();
    assert!(module.processes().all(|process| process.name != killed));
    module.start(s, credential(1), &q()).unwrap();
}

/// All numbers of credential 1's process in session 0 are taken in turn, in records of this class with this answer: then every number is refused as spent.
#[track_caller]
fn spends_all(of_class: Class, answer: Result<(), Refusal>) {
    let mut module = opened_of(&with_marks(), &[0]);
    let s = session(0);
    module.start(s, credential(1), &p()).unwrap();
    for number in 0..65535 {
        let answered = module.record(s, by(1, number), of_class);
        assert_eq!(answered, answer, "number {number}");
    }
    for number in 0..=65535 {
        refused(&mut module, 13, |m| m.record(s, by(1, number), class(4)));
    }
    refused(&mut module, 13, |m| m.end(s, by(1, 65535), false));
    module.close(s).unwrap();
    assert_eq!(module.processes().len(), 0);
}

#[test]
fn spent() {
    spends_all(class(4), Ok(()));
}

#[test]
fn spent_by_refusals() {
    spends_all(class(5), Err(Refusal::NotGranted));
    spends_all(class(6), Err(Refusal::OnlyElevated));
}

#[test]
fn message_and_room() {
    assert_eq!(Listing::read(&[]), Err(Refusal::Message));
    assert_eq!(
        slavotuk::read_request(&[0x0e, 0, 0, 0]),
        Err(Refusal::Message)
    );
    assert_eq!(write_request(&mut [0; 3], Wanted::All), Err(Refusal::Room));

    let mut module = opened(&[0]);
    module.start(session(0), credential(0), &p()).unwrap();
    const ROOM: usize = layout::listing::row_at(1);
    let mut buffer = [0xaa; ROOM - 1];
    refused_and_spent(&mut module, 15, by(0, 0), |m, claim| {
        m.list(session(0), claim, Wanted::All, &mut buffer)
            .map(|_| ())
    });
    assert_eq!(buffer, [0xaa; ROOM - 1]);
    let mut buffer = [0xaa; ROOM];
    module
        .list(session(0), by(0, 1), Wanted::All, &mut buffer)
        .unwrap();
}

#[test]
fn values_out_of_range_are_not_made() {
    assert_eq!(Port::new(2), None);
    assert_eq!(slavotuk::Credential::new(8), None);
    assert_eq!(Class::new(32), None);
    for number in [256, 65536, 1 << 31, u32::MAX] {
        assert_eq!(Port::try_from(number), Err(Refusal::Argument));
        assert_eq!(
            slavotuk::Credential::try_from(number),
            Err(Refusal::Argument)
        );
        assert_eq!(Class::try_from(number), Err(Refusal::Argument));
    }
    assert_eq!(Name::try_from(&[0; 49][..]), Err(Refusal::Argument));
}
