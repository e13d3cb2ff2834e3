//! The responses (Table 17).

use super::{
    one_credential, plain, values, AuthProcInfo, AuthProcessCaps, BaseAsymAlgo, BaseHashAlgo, Body,
    CredAttributes, CredParams, DeviceProvisioningState, Fields, List, MessageCaps, Nonce,
    PolicyList, Svh, Values, VersionNumberEntry,
};
use crate::{Name, Refusal, WireCredential, NAME_LENGTH};

plain! {
    /// The version is selected (Table 27).
    SelectAuthVersionRsp;
    /// The credential is set (Table 35).
    SetCredIdParamsDone;
    /// The policies are set (Table 41).
    SetAuthPolicyDone;
    /// The session is elevated (Table 56).
    PrivilegeElevated;
    /// The session's elevation has ended (Table 58).
    ElevatedPrivilegeEnded;
    /// The data are reset (Table 64).
    AuthDefaultsApplied;
    /// Ownership is taken (Table 60).
    OwnershipTaken;
}

one_credential! {
    /// The user process has ended (Table 53).
    EndAuthRsp;
}

/// The versions that a target has (Table 24).
#[derive(Clone, Copy, Debug, PartialEq, Eq)]
pub struct AuthVersion<'a> {
    /// VersionNumberEntries: at most 255. That they ascend is for the caller to ask.
    pub version_number_entries: List<'a, VersionNumberEntry>,
}

impl<'a> Body<'a> for AuthVersion<'a> {
    fn of(fields: Fields<'a>) -> Result<Self, Refusal> {
        Ok(AuthVersion {
            version_number_entries: List::of(fields, 0),
        })
    }

    fn values(&self) -> Values {
        values([self.version_number_entries.len() as u64])
    }

    fn rest(&self) -> &[u8] {
        self.version_number_entries.bytes()
    }
}

/// A credential (Table 37).
#[derive(Clone, Copy, Debug, PartialEq, Eq)]
pub struct CredIdParams<'a> {
    /// CredAttributes.
    pub cred_attributes: CredAttributes,
    /// CredParams.
    pub cred_params: CredParams<'a>,
}

impl<'a> Body<'a> for CredIdParams<'a> {
    fn of(fields: Fields<'a>) -> Result<Self, Refusal> {
        Ok(CredIdParams {
            cred_attributes: CredAttributes(fields.u16(0)),
            cred_params: CredParams::of(fields)?,
        })
    }

    fn values(&self) -> Values {
        self.cred_params.values(self.cred_attributes.0.into())
    }

    fn rest(&self) -> &[u8] {
        self.cred_params.credential_data
    }
}

/// The policies of a credential (Table 43).
#[derive(Clone, Copy, Debug, PartialEq, Eq)]
pub struct AuthPolicy<'a> {
    /// PolicyAttributes.
    pub policy_attributes: CredAttributes,
    /// PolicyList.
    pub policy_list: PolicyList<'a>,
}

impl<'a> Body<'a> for AuthPolicy<'a> {
    fn of(fields: Fields<'a>) -> Result<Self, Refusal> {
        Ok(AuthPolicy {
            policy_attributes: CredAttributes(fields.u16(0)),
            policy_list: PolicyList::of(fields),
        })
    }

    fn values(&self) -> Values {
        self.policy_list.values(self.policy_attributes.0.into())
    }

    fn rest(&self) -> &[u8] {
        self.policy_list.policies.bytes()
    }
}

/// The user process is started or continued (Table 51).
#[derive(Clone, Copy, Debug, PartialEq, Eq)]
pub struct StartAuthRsp {
    /// CredentialID.
    pub credential_id: WireCredential,
    /// Nonce, the target's.
    pub nonce: Nonce,
}

impl<'a> Body<'a> for StartAuthRsp {
    fn of(fields: Fields<'a>) -> Result<Self, Refusal> {
        Ok(StartAuthRsp {
            credential_id: fields.credential(0),
            nonce: fields.array()?,
        })
    }

    fn values(&self) -> Values {
        values([self.credential_id.0.into(), self.nonce.len() as u64])
    }

    fn rest(&self) -> &[u8] {
        &self.nonce
    }
}

/// What a target can do (Table 29).
#[derive(Clone, Copy, Debug, PartialEq, Eq)]
pub struct AuthCapabilities<'a> {
    /// MessageCaps.
    pub message_caps: MessageCaps,
    /// AuthProcessCaps.
    pub auth_process_caps: AuthProcessCaps,
    /// DeviceProvisioningState.
    pub device_provisioning_state: DeviceProvisioningState,
    /// AuthRecordProcessTime: two to this power are the milliseconds; at most 31.
    pub auth_record_process_time: u8,
    /// BaseAsymAlgoSupported.
    pub base_asym_algo_supported: BaseAsymAlgo,
    /// BaseHashAlgoSupported.
    pub base_hash_algo_supported: BaseHashAlgo,
    /// SupportedPolicyOwnerIDList.
    pub supported_policy_owner_id_list: List<'a, Svh<'a>>,
}

impl<'a> Body<'a> for AuthCapabilities<'a> {
    fn of(fields: Fields<'a>) -> Result<Self, Refusal> {
        Ok(AuthCapabilities {
            message_caps: MessageCaps(fields.u16(0)),
            auth_process_caps: AuthProcessCaps(fields.u16(1)),
            device_provisioning_state: DeviceProvisioningState::new(fields.u8(2))
                .ok_or(Refusal::Message)?,
            auth_record_process_time: fields.u8(3),
            base_asym_algo_supported: BaseAsymAlgo(fields.values[4]),
            base_hash_algo_supported: BaseHashAlgo(fields.values[5]),
            supported_policy_owner_id_list: List::of(fields, 6),
        })
    }

    fn values(&self) -> Values {
        values([
            self.message_caps.0.into(),
            self.auth_process_caps.0.into(),
            self.device_provisioning_state.number().into(),
            self.auth_record_process_time.into(),
            self.base_asym_algo_supported.0,
            self.base_hash_algo_supported.0,
            self.supported_policy_owner_id_list.len() as u64,
        ])
    }

    fn rest(&self) -> &[u8] {
        self.supported_policy_owner_id_list.bytes()
    }
}

/// The processes that stand (Table 45). [`Listing`](crate::Listing) reads the same message.
#[derive(Clone, Copy, Debug, PartialEq, Eq)]
pub struct AuthProcesses<'a> {
    /// AuthProcInfoList.
    pub auth_proc_info_list: List<'a, AuthProcInfo>,
}

impl<'a> Body<'a> for AuthProcesses<'a> {
    fn of(fields: Fields<'a>) -> Result<Self, Refusal> {
        Ok(AuthProcesses {
            auth_proc_info_list: List::of(fields, 0),
        })
    }

    fn values(&self) -> Values {
        values([self.auth_proc_info_list.len() as u64])
    }

    fn rest(&self) -> &[u8] {
        self.auth_proc_info_list.bytes()
    }
}

/// The process is killed (Table 48).
#[derive(Clone, Copy, Debug, PartialEq, Eq)]
pub struct ProcessKilled {
    /// AuthProcID.
    pub auth_proc_id: Name,
}

impl<'a> Body<'a> for ProcessKilled {
    fn of(fields: Fields<'a>) -> Result<Self, Refusal> {
        Ok(ProcessKilled {
            auth_proc_id: Name(fields.array::<NAME_LENGTH>()?),
        })
    }

    fn values(&self) -> Values {
        values([])
    }

    fn rest(&self) -> &[u8] {
        &self.auth_proc_id.0
    }
}

/// A request or a record was refused (Table 20), by ErrorCode (Table 21).
///
/// ```
/// use slavotuk::message::AuthError;
///
/// let mut buffer = [0; 8];
/// let error = AuthError::VendorOrStandardsDefined { id: 3, vendor_id_len: 2, data: &[0xde, 0xc1, 7] };
/// assert_eq!(error.write(&mut buffer), Ok(8));
/// assert_eq!(buffer, [0x7f, 0, 0xff, 3, 2, 0xde, 0xc1, 7]);
/// assert_eq!((error.vendor_id(), error.opaque_error_data()), (&[0xde, 0xc1][..], &[7][..]));
/// ```
#[derive(Clone, Copy, Debug, PartialEq, Eq)]
pub enum AuthError<'a> {
    /// Fields of the request are invalid.
    InvalidRequest,
    /// The request needs a reset.
    ResetRequired,
    /// The request may be sent again later.
    Busy,
    /// The request was not expected.
    UnexpectedRequest,
    /// Something else.
    Unspecified,
    /// The authorization checks failed.
    AccessDenied,
    /// The request was valid, and failed.
    OperationFailed,
    /// The version is not supported, or not the selected one.
    VersionMismatch,
    /// The request's code is not supported.
    UnsupportedRequest {
        /// RequestResponseCode of the request.
        request_response_code: u8,
    },
    /// Fields of the record are invalid.
    InvalidRecord,
    /// The processes of a credential were terminated.
    TermAuthProc {
        /// CredentialID; 0xffff for all.
        credential_id: WireCredential,
    },
    /// What a vendor or a standards body defines (Table 22).
    VendorOrStandardsDefined {
        /// The registry or standards body, as DSP0293 has it in ID.
        id: u8,
        /// VendorIDLen: how many bytes of the data are the VendorID.
        vendor_id_len: u8,
        /// VendorID and OpaqueErrorData one behind the other: at most 31 bytes.
        data: &'a [u8],
    },
}

const VENDOR_OR_STANDARDS_DEFINED: u8 = 0xff;

impl<'a> AuthError<'a> {
    /// ErrorCode.
    pub const fn error_code(&self) -> u8 {
        match self {
            AuthError::InvalidRequest => 0x01,
            AuthError::ResetRequired => 0x02,
            AuthError::Busy => 0x03,
            AuthError::UnexpectedRequest => 0x04,
            AuthError::Unspecified => 0x05,
            AuthError::AccessDenied => 0x06,
            AuthError::OperationFailed => 0x07,
            AuthError::VersionMismatch => 0x08,
            AuthError::UnsupportedRequest { .. } => 0x09,
            AuthError::InvalidRecord => 0x0a,
            AuthError::TermAuthProc { .. } => 0x0b,
            AuthError::VendorOrStandardsDefined { .. } => VENDOR_OR_STANDARDS_DEFINED,
        }
    }

    /// VendorID; none where the error is not a vendor's.
    pub fn vendor_id(&self) -> &'a [u8] {
        self.vendor_data().0
    }

    /// OpaqueErrorData; none where the error is not a vendor's.
    pub fn opaque_error_data(&self) -> &'a [u8] {
        self.vendor_data().1
    }

    fn vendor_data(&self) -> (&'a [u8], &'a [u8]) {
        match *self {
            AuthError::VendorOrStandardsDefined {
                vendor_id_len,
                data,
                ..
            } => data.split_at(data.len().min(vendor_id_len.into())),
            _ => (&[], &[]),
        }
    }
}

impl<'a> Body<'a> for AuthError<'a> {
    fn of(fields: Fields<'a>) -> Result<Self, Refusal> {
        Ok(match fields.u8(0) {
            0x01 => AuthError::InvalidRequest,
            0x02 => AuthError::ResetRequired,
            0x03 => AuthError::Busy,
            0x04 => AuthError::UnexpectedRequest,
            0x05 => AuthError::Unspecified,
            0x06 => AuthError::AccessDenied,
            0x07 => AuthError::OperationFailed,
            0x08 => AuthError::VersionMismatch,
            0x09 => AuthError::UnsupportedRequest {
                request_response_code: fields.u8(1),
            },
            0x0a => AuthError::InvalidRecord,
            0x0b => AuthError::TermAuthProc {
                credential_id: fields.credential(2),
            },
            VENDOR_OR_STANDARDS_DEFINED => AuthError::VendorOrStandardsDefined {
                id: fields.u8(1),
                vendor_id_len: fields.u8(2),
                data: fields.rest,
            },
            _ => return Err(Refusal::Message),
        })
    }

    fn values(&self) -> Values {
        let code = self.error_code().into();
        match *self {
            AuthError::UnsupportedRequest {
                request_response_code,
            } => values([code, request_response_code.into()]),
            AuthError::TermAuthProc { credential_id } => values([code, 0, credential_id.0.into()]),
            AuthError::VendorOrStandardsDefined {
                id, vendor_id_len, ..
            } => values([code, id.into(), vendor_id_len.into()]),
            _ => values([code]),
        }
    }

    fn rest(&self) -> &[u8] {
        match self {
            AuthError::VendorOrStandardsDefined { data, .. } => data,
            _ => &[],
        }
    }
}
