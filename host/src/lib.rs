//! The management login module of machines that banks rent, for programs in Rust.
//!
//! [`Module`] has document 01's calls with types: a session, which is a port and a handle, can't stand for a credential or a class, and a value out of its range
//! can't be made. Every call returns a [`Refusal`] where it is refused, which leaves the state and the lent buffer as they were, but for the number that a
//! [`UserClaim`] has spent. Whoever has values that may be wrong turns them into typed ones (`Session::try_from((port, handle))?` refuses as the module would),
//! or hands them to [`entries`], where the module itself answers them with 1.
//!
//! # An example
//!
//! ```
//! use slavotuk::{
//!     Claim, Class, Credential, Grants, Kind, Module, Name, Refusal, Session, UserClaim, Wanted, FULL_LISTING_LENGTH,
//!     VERSION_1_0,
//! };
//!
//! // credentials 0 and 1 are provisioned: 0 has the module's own classes, 1 has device class 4, and 6 only under elevation
//! let mut grants = [Grants::UNPROVISIONED; 8];
//! grants[0] = Grants::of_word(15);
//! grants[1] = Grants::of_words(0x50, 0x40);
//! let mut module = Module::fresh(&grants)?;
//!
//! let session = Session::try_from((0, 0))?;
//! let (manager, operator) = (Credential::try_from(0)?, Credential::try_from(1)?);
//! module.open(session)?;
//! module.select(session, VERSION_1_0)?;
//!
//! // each starts a process; the hash unit gives the names
//! module.start(session, manager, &Name([0x11; 48]))?;
//! module.start(session, operator, &Name([0x22; 48]))?;
//!
//! // the operator's record 0 is accepted once: sent again, it is out of turn
//! let claim = UserClaim { credential: operator, number: 0, verdict: true };
//! let class = Class::try_from(4)?;
//! module.record(session, claim, class)?;
//! assert_eq!(module.record(session, claim, class), Err(Refusal::OutOfTurn));
//!
//! // a record of a class that is not granted spends its number too: number 1 is gone, and the next is 2
//! let claim = UserClaim { number: 1, ..claim };
//! assert_eq!(module.record(session, claim, Class::try_from(5)?), Err(Refusal::NotGranted));
//! assert_eq!(module.record(session, claim, class), Err(Refusal::OutOfTurn));
//! module.record(session, UserClaim { number: 2, ..claim }, class)?;
//!
//! // so does one of a class that is granted only under elevation; under one it is done, and has no number
//! let (claim, class) = (UserClaim { number: 3, ..claim }, Class::try_from(6)?);
//! assert_eq!(module.record(session, claim, class), Err(Refusal::OnlyElevated));
//! module.elevate(session, operator, &Name([0x33; 48]), true)?;
//! module.record(session, Claim::Elevated, class)?;
//! module.drop_elevation(session)?;
//!
//! // the manager kills the operator's process, and lists what is left
//! let claim = UserClaim { credential: manager, number: 0, verdict: true };
//! module.kill(session, claim, &Name([0x22; 48]))?;
//! let mut buffer = [0; FULL_LISTING_LENGTH];
//! let listing = module.list(session, UserClaim { number: 1, ..claim }, Wanted::All, &mut buffer)?;
//! let rows: Vec<_> = listing.rows().collect();
//! assert_eq!(rows.len(), 1);
//! assert_eq!((rows[0].kind, rows[0].name), (Kind::ActiveUser, Name([0x11; 48])));
//!
//! // two numbers of that process are spent
//! assert_eq!(module.processes().next().unwrap().next_number(), Some(2));
//! # Ok::<(), Refusal>(())
//! ```
//!
//! # Two ports
//!
//! Two networks reach one module, each by a [`Port`] with four sessions of its own. Credentials, words, the table and the names are shared: one port can meet
//! [`Refusal::Full`] or [`Refusal::NameTaken`] because of the other, a listing has the processes of both, a kill reaches both, and a saved process may be
//! continued on either. Two networks are most likely two threads, and a state takes one call at a time, so they share the module by a lock:
//!
//! ```
//! use slavotuk::{Credential, Grants, Module, Name, Refusal, Session, VERSION_1_0};
//! use std::sync::Mutex;
//! use std::thread;
//!
//! let module = Mutex::new(Module::fresh(&[Grants::of_word(15); 8])?);
//! let network = |session: Session| -> Result<(), Refusal> {
//!     module.lock().unwrap().open(session)?;
//!     module.lock().unwrap().select(session, VERSION_1_0)?;
//!     module.lock().unwrap().start(session, Credential::try_from(0)?, &Name([0x11; 48]))
//! };
//! let sessions = [Session::try_from((0, 0))?, Session::try_from((1, 0))?];
//! let mut answers = thread::scope(|scope| {
//!     let threads = sessions.map(|session| scope.spawn(move || network(session)));
//!     threads.map(|thread| thread.join().unwrap())
//! });
//!
//! // both sessions are open, and whoever comes second finds the name taken
//! answers.sort_by_key(|answer| answer.is_err());
//! assert_eq!(answers, [Ok(()), Err(Refusal::NameTaken)]);
//! # Ok::<(), Refusal>(())
//! ```
//!
//! # Where things are
//!
//! | Item | What it is |
//! |---|---|
//! | [`Module`] | the calls, and what the state holds: [`Phase`], [`Grants`] with their [`Lookup`], [`Process`] |
//! | [`Port`], [`Session`], [`Credential`], [`Class`], [`Name`], [`Claim`], [`Wanted`], [`Words`] | what a call is handed |
//! | [`Refusal`], [`answered`] | the numbers 1 to 15 of document 01 and 18 of document 02, and those of later archives |
//! | [`Image`] | what a module keeps while it is without power, what it loses, and what the flash has to do |
//! | [`rescue`], [`Rescued`] | a good image of a damaged one, what it had to leave, and what it can't know |
//! | [`Listing`], [`read_request`], [`write_request`] | the listing messages, for consoles too |
//! | [`message`] | all messages of 004 clause 9.2 |
//! | [`entries`] | the archive's entries as they are, with numbers and byte slices |
//! | [`Call`] | a call of an entry as a value |
//! | [`SIGNATURES`] | the parameters of every entry, as text |
//! | [`layout`] | where things lie in a state, an image and a listing |

#![deny(missing_docs)]
#![deny(unsafe_code)]

#[macro_use]
mod signatures;

mod call;
#[allow(unsafe_code)]
pub mod entries;
mod image;
pub mod layout;
mod listing;
pub mod message;
mod module;
mod numbers;
mod rescue;
mod values;
mod view;

pub use call::{Bytes, Call};
pub use image::{Image, FULL_IMAGE_LENGTH};
pub use layout::PLACES;
pub use listing::{
    read_request, write_request, Listing, Row, Rows, WireCredential, FULL_LISTING_LENGTH,
    REQUEST_LENGTH,
};
pub use module::{Module, STATE_LENGTH, VERSION_1_0};
pub use numbers::{answered, Refusal, UnknownNumber};
pub use rescue::{rescue, DroppedPlaces, Rescued};
pub use signatures::{Signature, SIGNATURES};
pub use values::{
    Claim, Class, Credential, Grants, Kind, Lookup, Name, Port, Session, UserClaim, Wanted, Words,
    NAME_LENGTH,
};
pub use view::{Phase, Process, Processes, Standing};
