//! The requests (Table 16).

use super::{
    one_credential, plain, values, Body, CredParams, DataType, Fields, List, Nonce, PersistMethod,
    PolicyList, ResetElement, StartAttributes, Values,
};
use crate::{Name, Refusal, WireCredential, NAME_LENGTH};

/// SetCredInfoOp and SetAuthPolicyOp (Tables 34 and 40).
const CHANGE: u8 = 1;
const LOCK: u8 = 2;
const UNLOCK: u8 = 3;

plain! {
    /// Asks which versions a target has (Table 23).
    GetAuthVersion;
    /// Elevates the session (Table 55).
    ElevatePrivilege;
    /// Ends the session's elevation (Table 57).
    EndElevatedPrivilege;
    /// Asks what a target can do (Table 28).
    GetAuthCapabilities;
    /// Takes ownership of a device (Table 59).
    TakeOwnership;
}

one_credential! {
    /// Asks for a credential (Table 36).
    GetCredIdParams;
    /// Asks for the policies of a credential (Table 42).
    GetAuthPolicy;
    /// Asks for the processes of a credential, or of all: 0xffff (Table 44).
    GetAuthProcesses;
}

/// Selects the version of all messages that follow (Table 26).
#[derive(Clone, Copy, Debug, PartialEq, Eq)]
pub struct SelectAuthVersion {
    /// AuthVersion.
    pub auth_version: u8,
}

impl<'a> Body<'a> for SelectAuthVersion {
    fn of(fields: Fields<'a>) -> Result<Self, Refusal> {
        Ok(SelectAuthVersion {
            auth_version: fields.u8(0),
        })
    }

    fn values(&self) -> Values {
        values([self.auth_version.into()])
    }
}

/// Changes, locks or unlocks a credential (Table 33), by SetCredInfoOp (Table 34).
#[derive(Clone, Copy, Debug, PartialEq, Eq)]
pub enum SetCredIdParams<'a> {
    /// Gives a credential other parameters.
    ParameterChange(CredParams<'a>),
    /// Locks a credential.
    Lock {
        /// CredentialID.
        credential_id: WireCredential,
    },
    /// Unlocks a credential.
    Unlock {
        /// CredentialID.
        credential_id: WireCredential,
    },
}

impl<'a> Body<'a> for SetCredIdParams<'a> {
    fn of(fields: Fields<'a>) -> Result<Self, Refusal> {
        let credential_id = fields.credential(1);
        match fields.u8(0) {
            CHANGE => CredParams::of(fields).map(SetCredIdParams::ParameterChange),
            LOCK => Ok(SetCredIdParams::Lock { credential_id }),
            UNLOCK => Ok(SetCredIdParams::Unlock { credential_id }),
            _ => Err(Refusal::Message),
        }
    }

    fn values(&self) -> Values {
        match self {
            SetCredIdParams::ParameterChange(params) => params.values(CHANGE.into()),
            SetCredIdParams::Lock { credential_id } => {
                values([LOCK.into(), credential_id.0.into()])
            }
            SetCredIdParams::Unlock { credential_id } => {
                values([UNLOCK.into(), credential_id.0.into()])
            }
        }
    }

    fn rest(&self) -> &[u8] {
        match self {
            SetCredIdParams::ParameterChange(params) => params.credential_data,
            SetCredIdParams::Lock { .. } | SetCredIdParams::Unlock { .. } => &[],
        }
    }
}

/// Changes, locks or unlocks the policies of a credential (Table 39), by SetAuthPolicyOp (Table 40).
#[derive(Clone, Copy, Debug, PartialEq, Eq)]
pub enum SetAuthPolicy<'a> {
    /// Gives a credential other policies.
    PolicyChange(PolicyList<'a>),
    /// Locks the policies of a credential.
    Lock {
        /// CredentialID.
        credential_id: WireCredential,
    },
    /// Unlocks the policies of a credential.
    Unlock {
        /// CredentialID.
        credential_id: WireCredential,
    },
}

impl<'a> Body<'a> for SetAuthPolicy<'a> {
    fn of(fields: Fields<'a>) -> Result<Self, Refusal> {
        let credential_id = fields.credential(1);
        match fields.u8(0) {
            CHANGE => Ok(SetAuthPolicy::PolicyChange(PolicyList::of(fields))),
            LOCK => Ok(SetAuthPolicy::Lock { credential_id }),
            UNLOCK => Ok(SetAuthPolicy::Unlock { credential_id }),
            _ => Err(Refusal::Message),
        }
    }

    fn values(&self) -> Values {
        match self {
            SetAuthPolicy::PolicyChange(list) => list.values(CHANGE.into()),
            SetAuthPolicy::Lock { credential_id } => values([LOCK.into(), credential_id.0.into()]),
            SetAuthPolicy::Unlock { credential_id } => {
                values([UNLOCK.into(), credential_id.0.into()])
            }
        }
    }

    fn rest(&self) -> &[u8] {
        match self {
            SetAuthPolicy::PolicyChange(list) => list.policies.bytes(),
            SetAuthPolicy::Lock { .. } | SetAuthPolicy::Unlock { .. } => &[],
        }
    }
}

/// Starts a user process, or continues a saved one (Table 49).
#[derive(Clone, Copy, Debug, PartialEq, Eq)]
pub struct StartAuth {
    /// CredentialID.
    pub credential_id: WireCredential,
    /// Attributes.
    pub attributes: StartAttributes,
    /// Nonce, the user's.
    pub nonce: Nonce,
}

impl<'a> Body<'a> for StartAuth {
    fn of(fields: Fields<'a>) -> Result<Self, Refusal> {
        Ok(StartAuth {
            credential_id: fields.credential(0),
            attributes: StartAttributes(fields.u8(1)),
            nonce: fields.array()?,
        })
    }

    fn values(&self) -> Values {
        values([
            self.credential_id.0.into(),
            self.attributes.0.into(),
            self.nonce.len() as u64,
        ])
    }

    fn rest(&self) -> &[u8] {
        &self.nonce
    }
}

/// Ends a user process (Table 52).
#[derive(Clone, Copy, Debug, PartialEq, Eq)]
pub struct EndAuth {
    /// CredentialID.
    pub credential_id: WireCredential,
    /// PersistMethod, all that is defined of the Attributes.
    pub persist_method: PersistMethod,
}

impl<'a> Body<'a> for EndAuth {
    fn of(fields: Fields<'a>) -> Result<Self, Refusal> {
        Ok(EndAuth {
            credential_id: fields.credential(0),
            persist_method: PersistMethod::new(fields.u8(1)).ok_or(Refusal::Message)?,
        })
    }

    fn values(&self) -> Values {
        let credential = self.credential_id.0.into();
        values([credential, self.persist_method.number().into()])
    }
}

/// Resets data to their defaults (Table 61).
#[derive(Clone, Copy, Debug, PartialEq, Eq)]
pub struct AuthResetToDefault<'a> {
    /// DataType.
    pub data_type: DataType,
    /// CredentialID; 0xffff for all that are unlocked.
    pub credential_id: WireCredential,
    /// SVResetDataTypeList.
    pub sv_reset_data_type_list: List<'a, ResetElement<'a>>,
}

impl<'a> Body<'a> for AuthResetToDefault<'a> {
    fn of(fields: Fields<'a>) -> Result<Self, Refusal> {
        Ok(AuthResetToDefault {
            data_type: DataType(fields.u16(0)),
            credential_id: fields.credential(1),
            sv_reset_data_type_list: List::of(fields, 2),
        })
    }

    fn values(&self) -> Values {
        values([
            self.data_type.0.into(),
            self.credential_id.0.into(),
            self.sv_reset_data_type_list.len() as u64,
        ])
    }

    fn rest(&self) -> &[u8] {
        self.sv_reset_data_type_list.bytes()
    }
}

/// Kills a process (Table 47).
#[derive(Clone, Copy, Debug, PartialEq, Eq)]
pub struct KillAuthProcess {
    /// CredentialID.
    pub credential_id: WireCredential,
    /// AuthProcID.
    pub auth_proc_id: Name,
}

impl<'a> Body<'a> for KillAuthProcess {
    fn of(fields: Fields<'a>) -> Result<Self, Refusal> {
        Ok(KillAuthProcess {
            credential_id: fields.credential(0),
            auth_proc_id: Name(fields.array::<NAME_LENGTH>()?),
        })
    }

    fn values(&self) -> Values {
        values([self.credential_id.0.into()])
    }

    fn rest(&self) -> &[u8] {
        &self.auth_proc_id.0
    }
}
