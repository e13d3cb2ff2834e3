//! The 31 messages of 004 clause 9.2, a type for each, with 004's names.
//!
//! [`Message`] reads any bytes by their code, and writes. A type of its own reads and writes the same, for whoever expects one message. Numbers that count or
//! measure what follows are not held: they are those of the bytes and lists. Reserved bytes and bits are not held either.
//!
//! Nothing is allocated and nothing is copied but numbers, nonces and names: a message that was read borrows its bytes, and a [`List`] of it reads a part when
//! it is asked for. To write a list, [`List::write`] puts its parts into a buffer that the caller lends beside that of the message; as many bytes as that one
//! has are always enough.
//!
//! ```
//! use slavotuk::message::{AuthPolicy, CredAttributes, List, Message, Policy, PolicyList, Svh};
//! use slavotuk::{Refusal, WireCredential};
//!
//! let owner = Svh { id: 3, vendor_id: &[0xde, 0xc1] };
//! let policies = [
//!     Policy { policy_owner_id: owner, policy_version: 0x1000, policy: &[1, 2, 3] },
//!     Policy { policy_owner_id: owner, policy_version: 0x1100, policy: &[] },
//! ];
//! let (mut parts, mut buffer) = ([0; 64], [0; 64]);
//! let message = Message::from(AuthPolicy {
//!     policy_attributes: CredAttributes::LOCKABLE,
//!     policy_list: PolicyList {
//!         credential_id: WireCredential(7),
//!         policies: List::write(policies, &mut parts)?,
//!     },
//! });
//! let length = message.write(&mut buffer)?;
//! assert_eq!(buffer[..9], [0x06, 0, 1, 0, 7, 0, 2, 0, 3]);
//!
//! let read = Message::read(&buffer[..length])?;
//! assert_eq!((read.name(), read), ("AUTH_POLICY", message));
//! let Message::AuthPolicy(answer) = read else { panic!() };
//! assert_eq!(answer.policy_list.policies.len(), 2);
//! assert_eq!(answer.policy_list.policies.part(0)?.policy, [1, 2, 3]);
//! assert!(answer.policy_list.policies.parts().eq(policies));
//!
//! // a byte more than the policies have
//! assert_eq!(Message::read(&buffer[..length + 1]), Err(Refusal::Message));
//! # Ok::<(), Refusal>(())
//! ```

mod parts;
mod requests;
mod responses;
mod values;

pub use parts::{AuthProcInfo, List, Part, Parts, Policy, ResetElement, Svh, VersionNumberEntry};
pub use requests::{
    AuthResetToDefault, ElevatePrivilege, EndAuth, EndElevatedPrivilege, GetAuthCapabilities,
    GetAuthPolicy, GetAuthProcesses, GetAuthVersion, GetCredIdParams, KillAuthProcess,
    SelectAuthVersion, SetAuthPolicy, SetCredIdParams, StartAuth, TakeOwnership,
};
pub use responses::{
    AuthCapabilities, AuthDefaultsApplied, AuthError, AuthPolicy, AuthProcesses, AuthVersion,
    CredIdParams, ElevatedPrivilegeEnded, EndAuthRsp, OwnershipTaken, PrivilegeElevated,
    ProcessKilled, SelectAuthVersionRsp, SetAuthPolicyDone, SetCredIdParamsDone, StartAuthRsp,
};
pub use values::{
    AuthProcessCaps, BaseAsymAlgo, BaseHashAlgo, CredAttributes, CredParams, CredentialType,
    DataType, DeviceProvisioningState, MessageCaps, Nonce, PersistMethod, PolicyList,
    StartAttributes,
};

use crate::{answered, entries, Refusal, WireCredential};

type Values = [u64; entries::MESSAGE_VALUES];

/// These values, and 0 for the fields that there are not.
fn values<const COUNT: usize>(of: [u64; COUNT]) -> Values {
    let mut values = Values::default();
    values[..COUNT].copy_from_slice(&of);
    values
}

/// What the fields of a message or of a piece say, and the bytes that follow them. A number is asked for in the width of its field, which it fits.
#[derive(Clone, Copy)]
struct Fields<'a> {
    values: Values,
    rest: &'a [u8],
}

impl Fields<'_> {
    fn u8(&self, at: usize) -> u8 {
        self.values[at] as u8
    }

    fn u16(&self, at: usize) -> u16 {
        self.values[at] as u16
    }

    fn u32(&self, at: usize) -> u32 {
        self.values[at] as u32
    }

    fn credential(&self, at: usize) -> WireCredential {
        WireCredential(self.u16(at))
    }

    /// What follows, as an array of as many bytes as it has.
    fn array<const LENGTH: usize>(&self) -> Result<[u8; LENGTH], Refusal> {
        self.rest.try_into().map_err(|_| Refusal::Message)
    }
}

/// How a type holds what the fields of its message say and what follows them. The archive has read the message, or will refuse to write it: here nothing is
/// tested but that a number has a case.
trait Body<'a>: Sized {
    fn of(fields: Fields<'a>) -> Result<Self, Refusal>;

    fn values(&self) -> Values;

    fn rest(&self) -> &[u8] {
        &[]
    }
}

fn read_fields(message: &[u8]) -> Result<Fields<'_>, Refusal> {
    let (mut values, mut rest) = (Values::default(), 0);
    answered(entries::read_message(message, &mut values, &mut rest))?;
    let rest = message.get(rest..).ok_or(Refusal::Message)?;
    Ok(Fields { values, rest })
}

fn write_body<'a>(code: u8, body: &impl Body<'a>, buffer: &mut [u8]) -> Result<usize, Refusal> {
    let mut written = 0;
    answered(entries::write_message(
        buffer,
        code.into(),
        &body.values(),
        body.rest(),
        &mut written,
    ))?;
    Ok(written)
}

/// Defines the enumeration over the messages, each with its code and its name in 004, and what each type has of its own.
macro_rules! messages {
    ($($message:ident $(<$bytes:lifetime>)? = $code:literal, $name:literal;)+) => {
        /// A message of 004 clause 9.2.
        ///
        /// ```
        /// use slavotuk::message::{GetAuthProcesses, Message};
        /// use slavotuk::{Refusal, WireCredential};
        ///
        /// let all = GetAuthProcesses { credential_id: WireCredential(0xffff) };
        /// assert_eq!(Message::read(&[0x8e, 0, 0xff, 0xff]), Ok(all.into()));
        /// assert_eq!(Message::read(&[0x90, 0]), Err(Refusal::Message));
        ///
        /// let mut buffer = [0; 4];
        /// assert_eq!(Message::from(all).write(&mut buffer[..3]), Err(Refusal::Room));
        /// assert_eq!(Message::from(all).write(&mut buffer), Ok(4));
        /// assert_eq!(GetAuthProcesses::read(&buffer), Ok(all));
        /// ```
        #[derive(Clone, Copy, Debug, PartialEq, Eq)]
        pub enum Message<'a> {
            $(#[doc = $name] $message($message $(<$bytes>)?),)+
        }

        impl<'a> Message<'a> {
            /// The code and 004's name of each message: Table 16, then Table 17.
            pub const ALL: &'static [(u8, &'static str)] = &[$(($code, $name)),+];

            /// Reads a message of any code. Refusals: message.
            pub fn read(message: &'a [u8]) -> Result<Message<'a>, Refusal> {
                let fields = read_fields(message)?;
                match message.first() {
                    $(Some($code) => Ok(Message::$message(Body::of(fields)?)),)+
                    _ => Err(Refusal::Message),
                }
            }

            /// Writes the message to the front of the buffer, and gives its length; later bytes stay as they were. Refusals: room; message, where it holds what
            /// no message can carry.
            pub fn write(&self, buffer: &mut [u8]) -> Result<usize, Refusal> {
                match self {
                    $(Message::$message(body) => body.write(buffer),)+
                }
            }

            /// Its code.
            pub const fn code(&self) -> u8 {
                match self {
                    $(Message::$message(_) => $code,)+
                }
            }

            /// 004's name for it.
            pub const fn name(&self) -> &'static str {
                match self {
                    $(Message::$message(_) => $name,)+
                }
            }
        }

        $(
            impl<'a> From<$message $(<$bytes>)?> for Message<'a> {
                fn from(body: $message $(<$bytes>)?) -> Message<'a> {
                    Message::$message(body)
                }
            }

            impl $(<$bytes>)? $message $(<$bytes>)? {
                /// Its code.
                pub const CODE: u8 = $code;
                /// 004's name for it.
                pub const NAME: &'static str = $name;

                /// Reads a message of this code. Refusals: message, also for another one of 004.
                pub fn read(message: &$($bytes)? [u8]) -> Result<Self, Refusal> {
                    match Message::read(message)? {
                        Message::$message(body) => Ok(body),
                        _ => Err(Refusal::Message),
                    }
                }

                /// Writes the message, as [`Message::write`] does.
                pub fn write(&self, buffer: &mut [u8]) -> Result<usize, Refusal> {
                    write_body($code, self, buffer)
                }
            }
        )+
    };
}

messages! {
    GetAuthVersion = 0x81, "GET_AUTH_VERSION";
    SelectAuthVersion = 0x82, "SELECT_AUTH_VERSION";
    SetCredIdParams<'a> = 0x83, "SET_CRED_ID_PARAMS";
    GetCredIdParams = 0x84, "GET_CRED_ID_PARAMS";
    SetAuthPolicy<'a> = 0x85, "SET_AUTH_POLICY";
    GetAuthPolicy = 0x86, "GET_AUTH_POLICY";
    StartAuth = 0x87, "START_AUTH";
    EndAuth = 0x88, "END_AUTH";
    ElevatePrivilege = 0x89, "ELEVATE_PRIVILEGE";
    EndElevatedPrivilege = 0x8a, "END_ELEVATED_PRIVILEGE";
    GetAuthCapabilities = 0x8b, "GET_AUTH_CAPABILITIES";
    AuthResetToDefault<'a> = 0x8c, "AUTH_RESET_TO_DEFAULT";
    TakeOwnership = 0x8d, "TAKE_OWNERSHIP";
    GetAuthProcesses = 0x8e, "GET_AUTH_PROCESSES";
    KillAuthProcess = 0x8f, "KILL_AUTH_PROCESS";
    AuthVersion<'a> = 0x01, "AUTH_VERSION";
    SelectAuthVersionRsp = 0x02, "SELECT_AUTH_VERSION_RSP";
    SetCredIdParamsDone = 0x03, "SET_CRED_ID_PARAMS_DONE";
    CredIdParams<'a> = 0x04, "CRED_ID_PARAMS";
    SetAuthPolicyDone = 0x05, "SET_AUTH_POLICY_DONE";
    AuthPolicy<'a> = 0x06, "AUTH_POLICY";
    StartAuthRsp = 0x07, "START_AUTH_RSP";
    EndAuthRsp = 0x08, "END_AUTH_RSP";
    PrivilegeElevated = 0x09, "PRIVILEGE_ELEVATED";
    ElevatedPrivilegeEnded = 0x0a, "ELEVATED_PRIVILEGE_ENDED";
    AuthCapabilities<'a> = 0x0b, "AUTH_CAPABILITIES";
    AuthDefaultsApplied = 0x0c, "AUTH_DEFAULTS_APPLIED";
    OwnershipTaken = 0x0d, "OWNERSHIP_TAKEN";
    AuthProcesses<'a> = 0x0e, "AUTH_PROCESSES";
    ProcessKilled = 0x0f, "PROCESS_KILLED";
    AuthError<'a> = 0x7f, "AUTH_ERROR";
}

/// Defines messages of a code and a reserved byte.
macro_rules! plain {
    ($($(#[$doc:meta])* $message:ident;)+) => {
        $(
            $(#[$doc])*
            #[derive(Clone, Copy, Debug, PartialEq, Eq)]
            pub struct $message;

            impl<'a> Body<'a> for $message {
                fn of(_: Fields<'a>) -> Result<Self, Refusal> {
                    Ok($message)
                }

                fn values(&self) -> Values {
                    values([])
                }
            }
        )+
    };
}
use plain;

/// Defines messages of a credential.
macro_rules! one_credential {
    ($($(#[$doc:meta])* $message:ident;)+) => {
        $(
            $(#[$doc])*
            #[derive(Clone, Copy, Debug, PartialEq, Eq)]
            pub struct $message {
                /// CredentialID.
                pub credential_id: WireCredential,
            }

            impl<'a> Body<'a> for $message {
                fn of(fields: Fields<'a>) -> Result<Self, Refusal> {
                    Ok($message {
                        credential_id: fields.credential(0),
                    })
                }

                fn values(&self) -> Values {
                    values([self.credential_id.0.into()])
                }
            }
        )+
    };
}
use one_credential;
