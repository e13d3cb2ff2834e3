//! What a call is handed: ports, sessions, credentials, classes, names, claims, words and grants.

use crate::Refusal;
use std::cmp::Ordering;
use std::fmt;
use std::hash::{Hash, Hasher};
use std::hint::black_box;

/// Defines a tuple struct around a number below `$count`, which no other number can become.
macro_rules! small_number {
    ($(#[$doc:meta])* $name:ident, $count:literal) => {
        $(#[$doc])*
        #[derive(Clone, Copy, Debug, PartialEq, Eq, PartialOrd, Ord, Hash)]
        pub struct $name(pub(crate) u8);

        impl $name {
            /// How many there are.
            pub const COUNT: usize = $count;

            /// The one with this number, or `None` where there is none.
            pub const fn new(number: u8) -> Option<Self> {
                if number < $count {
                    Some(Self(number))
                } else {
                    None
                }
            }

            /// Its number.
            pub const fn number(self) -> u8 {
                self.0
            }

            /// All of them, from 0 on.
            pub fn all() -> impl DoubleEndedIterator<Item = Self> + ExactSizeIterator {
                (0..$count).map(Self)
            }
        }

        impl TryFrom<u32> for $name {
            type Error = Refusal;

            /// The one with this number; [`Refusal::Argument`] where there is none, as the module answers.
            fn try_from(number: u32) -> Result<Self, Refusal> {
                u8::try_from(number)
                    .ok()
                    .and_then(Self::new)
                    .ok_or(Refusal::Argument)
            }
        }

        impl From<$name> for u32 {
            fn from(value: $name) -> u32 {
                value.0.into()
            }
        }

        impl fmt::Display for $name {
            fn fmt(&self, f: &mut fmt::Formatter<'_>) -> fmt::Result {
                self.0.fmt(f)
            }
        }
    };
}

small_number!(
    /// A management port, 0 or 1. Each has its own four sessions.
    ///
    /// ```
    /// use slavotuk::{Port, Refusal};
    ///
    /// assert_eq!(Port::new(1).unwrap().number(), 1);
    /// assert_eq!(Port::new(2), None);
    /// assert_eq!(Port::try_from(2), Err(Refusal::Argument));
    /// assert_eq!(Port::all().count(), 2);
    /// ```
    Port,
    2
);

/// A session: its port, and its handle there, 0 to 3. It is printed as both, `1.0`.
///
/// ```
/// use slavotuk::{Port, Refusal, Session};
///
/// let port = Port::new(1).unwrap();
/// let session = Session::new(port, 0).unwrap();
/// assert_eq!((session.port(), session.handle()), (port, 0));
/// assert_eq!(session.to_string(), "1.0");
/// assert_eq!(Session::try_from((1, 0)), Ok(session));
/// assert_eq!(Session::all().count(), 8);
/// ```
///
/// A handle over 3 is none on either port: no handle of port 0 reaches a session of port 1.
///
/// ```
/// use slavotuk::{Port, Refusal, Session};
///
/// assert_eq!(Session::new(Port::new(0).unwrap(), 4), None);
/// assert_eq!(Session::try_from((0, 4)), Err(Refusal::Argument));
/// assert_eq!(Session::try_from((2, 0)), Err(Refusal::Argument));
/// ```
///
/// Neither a credential nor a port stands for a session:
///
/// ```compile_fail,E0308
/// use slavotuk::{Credential, Grants, Module};
///
/// let mut module = Module::fresh(&[Grants::UNPROVISIONED; 8]).unwrap();
/// let credential = Credential::new(0).unwrap();
/// let _ = module.open(credential);
/// ```
///
/// ```compile_fail,E0308
/// use slavotuk::{Grants, Module, Port};
///
/// let mut module = Module::fresh(&[Grants::UNPROVISIONED; 8]).unwrap();
/// let _ = module.open(Port::new(0).unwrap());
/// ```
///
/// Nor does a handle alone, there being no port that it would be of, nor a handle for a port or a port for a handle:
///
/// ```compile_fail,E0277
/// let _ = slavotuk::Session::try_from(0u32);
/// ```
///
/// ```compile_fail,E0308
/// let _ = slavotuk::Session::new(1u8, 0);
/// ```
///
/// ```compile_fail,E0308
/// let port = slavotuk::Port::new(1).unwrap();
/// let _ = slavotuk::Session::new(port, port);
/// ```
#[derive(Clone, Copy, Debug, PartialEq, Eq, PartialOrd, Ord, Hash)]
pub struct Session {
    port: Port,
    handle: u8,
}

impl Session {
    /// How many there are, on both ports.
    pub const COUNT: usize = Port::COUNT * Session::PER_PORT;

    /// How many each port has.
    pub const PER_PORT: usize = 4;

    /// The session of this port with this handle, or `None` where there is none.
    pub const fn new(port: Port, handle: u8) -> Option<Session> {
        if (handle as usize) < Session::PER_PORT {
            Some(Session { port, handle })
        } else {
            None
        }
    }

    /// Its port.
    pub const fn port(self) -> Port {
        self.port
    }

    /// Its handle on its port.
    pub const fn handle(self) -> u8 {
        self.handle
    }

    /// All of them, those of port 0 first.
    pub fn all() -> impl DoubleEndedIterator<Item = Session> + ExactSizeIterator {
        (0..Session::COUNT as u8).map(Session::of_slot)
    }

    /// Its place among all sessions, by which a state knows it.
    pub(crate) const fn slot(self) -> usize {
        Session::PER_PORT * self.port.0 as usize + self.handle as usize
    }

    /// The session at this place; the slot is in its range.
    pub(crate) const fn of_slot(slot: u8) -> Session {
        Session {
            port: Port(slot / Session::PER_PORT as u8),
            handle: slot % Session::PER_PORT as u8,
        }
    }
}

impl TryFrom<(u32, u32)> for Session {
    type Error = Refusal;

    /// The session of this port with this handle; [`Refusal::Argument`] where there is none, as the module answers.
    fn try_from((port, handle): (u32, u32)) -> Result<Session, Refusal> {
        let port = Port::try_from(port)?;
        u8::try_from(handle)
            .ok()
            .and_then(|handle| Session::new(port, handle))
            .ok_or(Refusal::Argument)
    }
}

impl fmt::Display for Session {
    fn fmt(&self, f: &mut fmt::Formatter<'_>) -> fmt::Result {
        f.pad(&format!("{}.{}", self.port, self.handle))
    }
}

small_number!(
    /// A credential, 0 to 7. In a message any number of 16 bits can stand for one: see [`WireCredential`](crate::WireCredential).
    ///
    /// ```
    /// use slavotuk::{Credential, Refusal};
    ///
    /// assert_eq!(Credential::new(7).unwrap().to_string(), "7");
    /// assert_eq!(Credential::new(8), None);
    /// assert_eq!(Credential::try_from(0x8000_0000), Err(Refusal::Argument));
    /// ```
    Credential,
    8
);

small_number!(
    /// A class of operations, 0 to 31. The first four are the module's own, the others are device operations.
    ///
    /// ```
    /// use slavotuk::Class;
    ///
    /// assert_eq!(Class::SET_WORDS.number(), 3);
    /// assert!(!Class::SET_WORDS.is_device());
    /// assert!(Class::new(4).unwrap().is_device());
    /// assert_eq!(Class::new(32), None);
    /// ```
    Class,
    32
);

impl Class {
    /// To list other credentials' processes.
    pub const LIST_OTHERS: Class = Class(0);
    /// To kill other credentials' processes.
    pub const KILL_OTHERS: Class = Class(1);
    /// To save one's own processes.
    pub const SAVE_OWN: Class = Class(2);
    /// To set the words of credentials.
    pub const SET_WORDS: Class = Class(3);

    /// Whether it is a device operation: only such a class can be recorded.
    pub const fn is_device(self) -> bool {
        self.0 > Class::SET_WORDS.0
    }

    /// Whether its bit is set in a word.
    const fn is_in(self, word: u32) -> bool {
        word >> self.0 & 1 == 1
    }
}

/// How many bytes a name has.
pub const NAME_LENGTH: usize = 48;

/// A process's name, 48 bytes. Two names are equal when all of them are.
///
/// It is always printed whole, as 96 hexadecimal digits: names may have a long beginning in common, and a shortened one could be taken for another.
///
/// ```
/// use slavotuk::{Name, Refusal};
///
/// let name = Name([0x0a; 48]);
/// assert_eq!(name.to_string(), "0a".repeat(48));
/// assert_eq!(Name::try_from(&[0x0a; 48][..]), Ok(name));
/// assert_eq!(Name::try_from(&[0x0a; 47][..]), Err(Refusal::Argument));
/// ```
///
/// To ask whether two names are equal, or which comes first, reads all 48 bytes of both every time, whatever they are: on a memory bus it can't be seen at
/// which byte they differ. That is checked on a trace of the compiled code (docs/TRACE.md), and not proved. It is said of these comparisons and of those of types that
/// hold a name; whoever compares the bytes themselves, or keeps names in a map by their hash, reads otherwise.
#[derive(Clone, Copy)]
pub struct Name(
    /// Its bytes.
    pub [u8; NAME_LENGTH],
);

impl Name {
    /// Its words of 8 bytes, in an order that is that of the bytes.
    fn words(&self) -> impl Iterator<Item = u64> + '_ {
        self.0
            .chunks_exact(8)
            .map(|bytes| u64::from_be_bytes(bytes.try_into().expect("eight bytes")))
    }
}

// Both comparisons keep from the compiler what their result is asked for: it may make a row of tests of the words out of it, each with an exit.

impl PartialEq for Name {
    fn eq(&self, other: &Name) -> bool {
        let pairs = self.words().zip(other.words());
        let differing = pairs.fold(0, |bits, (one, another)| bits | (one ^ another));
        black_box(differing) == 0
    }
}

impl Eq for Name {}

impl Ord for Name {
    /// The order of the bytes. Each pair of words adds -1, 0 or 1, and weighs more than all pairs after it.
    fn cmp(&self, other: &Name) -> Ordering {
        let pairs = self.words().zip(other.words());
        let order = pairs.fold(0, |order, (one, another)| {
            2 * order + i32::from(one > another) - i32::from(one < another)
        });
        black_box(order).cmp(&0)
    }
}

impl PartialOrd for Name {
    fn partial_cmp(&self, other: &Name) -> Option<Ordering> {
        Some(self.cmp(other))
    }
}

impl Hash for Name {
    fn hash<H: Hasher>(&self, hasher: &mut H) {
        self.0.hash(hasher);
    }
}

impl From<[u8; NAME_LENGTH]> for Name {
    fn from(bytes: [u8; NAME_LENGTH]) -> Name {
        Name(bytes)
    }
}

impl TryFrom<&[u8]> for Name {
    type Error = Refusal;

    /// The name of these bytes; [`Refusal::Argument`] where they are not 48, as the module answers.
    fn try_from(bytes: &[u8]) -> Result<Name, Refusal> {
        bytes.try_into().map(Name).map_err(|_| Refusal::Argument)
    }
}

impl AsRef<[u8]> for Name {
    fn as_ref(&self) -> &[u8] {
        &self.0
    }
}

impl fmt::Display for Name {
    fn fmt(&self, f: &mut fmt::Formatter<'_>) -> fmt::Result {
        self.0.iter().try_for_each(|byte| write!(f, "{byte:02x}"))
    }
}

impl fmt::Debug for Name {
    fn fmt(&self, f: &mut fmt::Formatter<'_>) -> fmt::Result {
        write!(f, "Name({self})")
    }
}

/// What a user claims: that the record is theirs, that it has this number, and that the key unit said yes or no to its signature.
///
/// A claim that passes its check spends its number, even if the call is refused afterwards: by not granted, by only elevated, by room in a listing, by no process
/// in a kill, by credential in setting words. So the next claim has the next number after these, as after a call that is done; where no process or credential
/// came of the claim's own check, there is no process to go on with. After every other refusal with a name, the number is still the next.
///
/// ```
/// use slavotuk::{Claim, Credential, UserClaim};
///
/// let claim = UserClaim { credential: Credential::new(1).unwrap(), number: 0, verdict: true };
/// assert_eq!(Claim::from(claim), Claim::User(claim));
/// ```
#[derive(Clone, Copy, Debug, PartialEq, Eq, Hash)]
pub struct UserClaim {
    /// Whose record it is.
    pub credential: Credential,
    /// The record's number, which has to be the next of the process.
    pub number: u16,
    /// The key unit's verdict on the signature.
    pub verdict: bool,
}

/// The claim that a protected call carries.
///
/// ```
/// use slavotuk::{Claim, Grants, Module, Refusal, Session};
///
/// let session = Session::try_from((0, 0))?;
/// let mut module = Module::fresh(&[Grants::UNPROVISIONED; 8])?;
/// module.open(session)?;
/// module.select(session, slavotuk::VERSION_1_0)?;
/// // the session has no elevation
/// let class = slavotuk::Class::new(4).unwrap();
/// assert_eq!(module.record(session, Claim::Elevated, class), Err(Refusal::NoProcess));
/// # Ok::<(), Refusal>(())
/// ```
///
/// A class that is granted only under elevation is refused to a user's claim, also while an elevation stands in its session:
///
/// ```
/// use slavotuk::{Claim, Class, Credential, Grants, Module, Name, Refusal, Session, UserClaim, VERSION_1_0};
///
/// let (session, credential, class) = (Session::try_from((0, 0))?, Credential::try_from(1)?, Class::try_from(5)?);
/// let mut grants = [Grants::UNPROVISIONED; 8];
/// grants[1] = Grants::of_words(0x30, 0x20); // classes 4 and 5, of which 5 only under elevation
/// let mut module = Module::fresh(&grants)?;
/// module.open(session)?;
/// module.select(session, VERSION_1_0)?;
/// module.start(session, credential, &Name([0x11; 48]))?;
/// module.elevate(session, credential, &Name([0x22; 48]), true)?;
///
/// let user = UserClaim { credential, number: 0, verdict: true };
/// assert_eq!(module.record(session, user, class), Err(Refusal::OnlyElevated));
/// module.record(session, Claim::Elevated, class)?;
/// # Ok::<(), Refusal>(())
/// ```
#[derive(Clone, Copy, Debug, PartialEq, Eq, Hash)]
pub enum Claim {
    /// By the session's elevation.
    Elevated,
    /// By a user process of the session.
    User(UserClaim),
}

impl From<UserClaim> for Claim {
    fn from(claim: UserClaim) -> Claim {
        Claim::User(claim)
    }
}

/// Whose processes a listing is to have.
///
/// ```
/// use slavotuk::{Credential, Wanted, WireCredential};
///
/// let own = Wanted::Of(Credential::new(1).unwrap());
/// assert_eq!(WireCredential::from(own).0, 1);
/// assert_eq!(WireCredential::from(Wanted::All).0, 65535);
/// ```
#[derive(Clone, Copy, Debug, PartialEq, Eq, Hash)]
pub enum Wanted {
    /// Everyone's.
    All,
    /// One credential's.
    Of(Credential),
}

/// A process's type.
///
/// ```
/// use slavotuk::Kind;
///
/// assert_eq!(Kind::SavedUser.number(), 2);
/// assert_eq!(Kind::SavedUser.to_string(), "saved user");
/// assert_eq!(Kind::new(3), None);
/// ```
#[derive(Clone, Copy, Debug, PartialEq, Eq, Hash)]
pub enum Kind {
    /// Type 0.
    ActiveUser,
    /// Type 1.
    ActiveElevation,
    /// Type 2.
    SavedUser,
}

impl Kind {
    /// The type with this number, or `None` where there is none.
    pub const fn new(number: u8) -> Option<Kind> {
        match number {
            0 => Some(Kind::ActiveUser),
            1 => Some(Kind::ActiveElevation),
            2 => Some(Kind::SavedUser),
            _ => None,
        }
    }

    /// Its number.
    pub const fn number(self) -> u8 {
        self as u8
    }
}

impl fmt::Display for Kind {
    fn fmt(&self, f: &mut fmt::Formatter<'_>) -> fmt::Result {
        f.pad(match self {
            Kind::ActiveUser => "active user",
            Kind::ActiveElevation => "active elevation",
            Kind::SavedUser => "saved user",
        })
    }
}

/// Both words of a provisioned credential. They are set together: whoever wants to keep one hands in what it is.
///
/// ```
/// use slavotuk::{Credential, Grants, Module, Name, Refusal, Session, UserClaim, Words, VERSION_1_0};
///
/// let (session, credential) = (Session::try_from((0, 0))?, Credential::try_from(0)?);
/// let mut module = Module::fresh(&[Grants::of_words(15, 4); 8])?;
/// module.open(session)?;
/// module.select(session, VERSION_1_0)?;
/// module.start(session, credential, &Name([0x11; 48]))?;
///
/// // class 4 is granted too, and the second word stays
/// let claim = UserClaim { credential, number: 0, verdict: true };
/// let second = module.grants(credential).second();
/// module.set_word(session, claim, credential, Words { word: 31, second })?;
/// assert_eq!(module.grants(credential), Grants::of_words(31, 4));
/// # Ok::<(), Refusal>(())
/// ```
#[derive(Clone, Copy, Debug, PartialEq, Eq, Hash)]
pub struct Words {
    /// The grant word: bit k grants class k.
    pub word: u32,
    /// The second word: where bit k of both words is set, class k is granted only under elevation. Alone its bit says nothing.
    pub second: u32,
}

/// What the grant lookup says of a class. [`Grants::lookup`] gives it.
#[derive(Clone, Copy, Debug, PartialEq, Eq, Hash)]
pub enum Lookup {
    /// The class is not granted: [`Refusal::NotGranted`].
    No,
    /// It is granted to every claim.
    Yes,
    /// It is granted to an elevated claim, and a user's gets [`Refusal::OnlyElevated`].
    OnlyElevated,
}

/// What a credential is granted: nothing where it is not provisioned, else the classes of its grant word, and of these only under elevation those that are in its
/// second word too.
///
/// ```
/// use slavotuk::{Class, Grants, Lookup};
///
/// let grants = Grants::of_words(0b11_0100, 0b110_0000);
/// let answers = [2, 4, 5, 6].map(|number| grants.lookup(Class::new(number).unwrap()));
/// assert_eq!(answers, [Lookup::Yes, Lookup::Yes, Lookup::OnlyElevated, Lookup::No]);
///
/// let classes: Vec<(u8, Lookup)> = grants.classes().map(|(class, answer)| (class.number(), answer)).collect();
/// assert_eq!(classes, [(2, Lookup::Yes), (4, Lookup::Yes), (5, Lookup::OnlyElevated)]);
/// assert_eq!(Grants::UNPROVISIONED.classes().count(), 0);
/// ```
#[derive(Clone, Copy, Debug, Default, PartialEq, Eq, Hash)]
pub struct Grants(Option<Words>);

impl Grants {
    /// Of a credential that is not provisioned.
    pub const UNPROVISIONED: Grants = Grants(None);

    /// Of a provisioned credential with this grant word and the second word zero: bit k grants class k to every claim.
    pub const fn of_word(word: u32) -> Grants {
        Grants::of_words(word, 0)
    }

    /// Of a provisioned credential with this grant word and this second word.
    pub const fn of_words(word: u32, second: u32) -> Grants {
        Grants(Some(Words { word, second }))
    }

    /// Whether the credential is provisioned.
    pub const fn is_provisioned(self) -> bool {
        self.0.is_some()
    }

    /// The grant word; zero where the credential is not provisioned.
    pub const fn word(self) -> u32 {
        match self.0 {
            Some(words) => words.word,
            None => 0,
        }
    }

    /// The second word; zero where the credential is not provisioned.
    pub const fn second(self) -> u32 {
        match self.0 {
            Some(words) => words.second,
            None => 0,
        }
    }

    /// Whether a class is granted, and to which claims.
    pub const fn lookup(self, class: Class) -> Lookup {
        match (class.is_in(self.word()), class.is_in(self.second())) {
            (false, _) => Lookup::No,
            (true, false) => Lookup::Yes,
            (true, true) => Lookup::OnlyElevated,
        }
    }

    /// The classes of the grant word, from the lowest on, each with its answer, which is never [`Lookup::No`].
    pub fn classes(self) -> impl DoubleEndedIterator<Item = (Class, Lookup)> {
        Class::all()
            .map(move |class| (class, self.lookup(class)))
            .filter(|(_, answer)| *answer != Lookup::No)
    }
}
