//! The 31 messages of 004 clause 9.2 as values, with 004's names. [`crate::wire_read`] reads them from bytes, [`crate::wire_write`] writes them.
//!
//! Counts and lengths are those of the lists and bytes, and reserved fields are not held. A field that enumerates and a field of bits are numbers as they stand on the
//! wire, so that one can be held that no message can carry: the writer refuses it.

/// Codes of requests (Table 16) and of responses (Table 17).
pub mod code {
    #![allow(missing_docs)]
    pub use crate::messages::{AUTH_PROCESSES, GET_AUTH_PROCESSES};

    pub const GET_AUTH_VERSION: u8 = 0x81;
    pub const SELECT_AUTH_VERSION: u8 = 0x82;
    pub const SET_CRED_ID_PARAMS: u8 = 0x83;
    pub const GET_CRED_ID_PARAMS: u8 = 0x84;
    pub const SET_AUTH_POLICY: u8 = 0x85;
    pub const GET_AUTH_POLICY: u8 = 0x86;
    pub const START_AUTH: u8 = 0x87;
    pub const END_AUTH: u8 = 0x88;
    pub const ELEVATE_PRIVILEGE: u8 = 0x89;
    pub const END_ELEVATED_PRIVILEGE: u8 = 0x8a;
    pub const GET_AUTH_CAPABILITIES: u8 = 0x8b;
    pub const AUTH_RESET_TO_DEFAULT: u8 = 0x8c;
    pub const TAKE_OWNERSHIP: u8 = 0x8d;
    pub const KILL_AUTH_PROCESS: u8 = 0x8f;

    pub const AUTH_VERSION: u8 = 0x01;
    pub const SELECT_AUTH_VERSION_RSP: u8 = 0x02;
    pub const SET_CRED_ID_PARAMS_DONE: u8 = 0x03;
    pub const CRED_ID_PARAMS: u8 = 0x04;
    pub const SET_AUTH_POLICY_DONE: u8 = 0x05;
    pub const AUTH_POLICY: u8 = 0x06;
    pub const START_AUTH_RSP: u8 = 0x07;
    pub const END_AUTH_RSP: u8 = 0x08;
    pub const PRIVILEGE_ELEVATED: u8 = 0x09;
    pub const ELEVATED_PRIVILEGE_ENDED: u8 = 0x0a;
    pub const AUTH_CAPABILITIES: u8 = 0x0b;
    pub const AUTH_DEFAULTS_APPLIED: u8 = 0x0c;
    pub const OWNERSHIP_TAKEN: u8 = 0x0d;
    pub const PROCESS_KILLED: u8 = 0x0f;
    pub const AUTH_ERROR: u8 = 0x7f;
}

/// The bits that 004 defines in a field of bits. The others are reserved: zero on writing, ignored on reading.
pub mod bits {
    /// MessageCaps, Table 30.
    pub const MESSAGE_CAPS: u16 = 0b11_1111;
    /// AuthProcessCaps, Table 31.
    pub const AUTH_PROCESS_CAPS: u16 = 0b1111;
    /// CredAttributes and PolicyAttributes, Table 38.
    pub const CRED_ATTRIBUTES: u16 = 0b111;
    /// Attributes of START_AUTH, Table 50.
    pub const START_ATTRIBUTES: u8 = 0b1;
    /// Attributes of END_AUTH, Table 54.
    pub const END_ATTRIBUTES: u8 = 0b11;
    /// DataType, Table 62.
    pub const DATA_TYPE: u16 = 0b11;
    /// BaseAsymAlgo and BaseAsymAlgoSupported, Table 70.
    pub const BASE_ASYM_ALGO: u64 = 0b1111_1111_1111;
    /// BaseHashAlgo and BaseHashAlgoSupported, Table 71.
    pub const BASE_HASH_ALGO: u64 = 0b111_1111;
}

/// CredentialType of an asymmetric key, the only one (Table 2).
pub const ASYMMETRIC_KEY: u8 = 1;
/// The largest DeviceProvisioningState (Table 32).
pub const OWNED: u8 = 2;
/// The largest AuthRecordProcessTime (Table 29).
pub const LONGEST_PROCESS_TIME: u8 = 31;
/// The largest AuthProcessType (Table 46).
pub const SAVED_USAS: u8 = 2;
/// The largest PersistMethod that is not reserved (Table 54).
pub const PERSIST_ACROSS_RESETS: u8 = 2;
/// Bytes of a nonce (Tables 49 and 51).
pub const NONCE_LENGTH: usize = 32;
/// Bytes of an AuthProcID (Tables 46 to 48).
pub const AUTH_PROC_ID_LENGTH: usize = 48;
/// The most bytes of an SVResetDataType (Table 63).
pub const LONGEST_RESET_DATA_TYPE: usize = 32;
/// The most bytes of ExtendedErrorData (Table 20).
pub const LONGEST_EXTENDED_ERROR_DATA: usize = 32;

/// A nonce.
pub type Nonce = [u8; NONCE_LENGTH];
/// An Authorization Process ID.
pub type AuthProcId = [u8; AUTH_PROC_ID_LENGTH];

/// A message.
#[derive(Clone, Debug, PartialEq, Eq)]
pub enum Message {
    /// Table 23.
    GetAuthVersion,
    /// Table 26.
    SelectAuthVersion {
        /// The version for all that follows.
        auth_version: u8,
    },
    /// Table 33.
    SetCredIdParams(SetCredIdParams),
    /// Table 36.
    GetCredIdParams {
        /// Whose credential.
        credential_id: u16,
    },
    /// Table 39.
    SetAuthPolicy(SetAuthPolicy),
    /// Table 42.
    GetAuthPolicy {
        /// Whose policies.
        credential_id: u16,
    },
    /// Table 49.
    StartAuth {
        /// The user.
        credential_id: u16,
        /// Table 50.
        attributes: u8,
        /// The user's.
        nonce: Nonce,
    },
    /// Table 52.
    EndAuth {
        /// The user.
        credential_id: u16,
        /// Table 54: PersistMethod.
        attributes: u8,
    },
    /// Table 55.
    ElevatePrivilege,
    /// Table 57.
    EndElevatedPrivilege,
    /// Table 28.
    GetAuthCapabilities,
    /// Table 61.
    AuthResetToDefault {
        /// Table 62.
        data_type: u16,
        /// Whose data.
        credential_id: u16,
        /// Of other standards and of vendors.
        sv_reset_data_type_list: Vec<ResetElement>,
    },
    /// Table 59.
    TakeOwnership,
    /// Table 44.
    GetAuthProcesses {
        /// Whose processes.
        credential_id: u16,
    },
    /// Table 47.
    KillAuthProcess {
        /// Whose process.
        credential_id: u16,
        /// Which one.
        auth_proc_id: AuthProcId,
    },
    /// Table 24.
    AuthVersion {
        /// Table 25, each.
        version_number_entries: Vec<u16>,
    },
    /// Table 27.
    SelectAuthVersionRsp,
    /// Table 35.
    SetCredIdParamsDone,
    /// Table 37.
    CredIdParams {
        /// Table 38.
        cred_attributes: u16,
        /// The credential.
        cred_params: Credential,
    },
    /// Table 41.
    SetAuthPolicyDone,
    /// Table 43.
    AuthPolicy {
        /// Table 38.
        policy_attributes: u16,
        /// The policies.
        policy_list: PolicyList,
    },
    /// Table 51.
    StartAuthRsp {
        /// The user.
        credential_id: u16,
        /// The target's.
        nonce: Nonce,
    },
    /// Table 53.
    EndAuthRsp {
        /// The user.
        credential_id: u16,
    },
    /// Table 56.
    PrivilegeElevated,
    /// Table 58.
    ElevatedPrivilegeEnded,
    /// Table 29.
    AuthCapabilities {
        /// Table 30.
        message_caps: u16,
        /// Table 31.
        auth_process_caps: u16,
        /// Table 32.
        device_provisioning_state: u8,
        /// The exponent of a time.
        auth_record_process_time: u8,
        /// Table 70.
        base_asym_algo_supported: u64,
        /// Table 71.
        base_hash_algo_supported: u64,
        /// PolicyOwnerID of Table 4, each.
        supported_policy_owner_id_list: Vec<Svh>,
    },
    /// Table 64.
    AuthDefaultsApplied,
    /// Table 60.
    OwnershipTaken,
    /// Table 45.
    AuthProcesses {
        /// Table 46, each.
        auth_proc_info_list: Vec<AuthProcInfo>,
    },
    /// Table 48.
    ProcessKilled {
        /// The process.
        auth_proc_id: AuthProcId,
    },
    /// Table 20.
    AuthError(AuthError),
}

/// SetCredInfoOp with what it carries (Tables 33 and 34).
#[derive(Clone, Debug, PartialEq, Eq)]
pub enum SetCredIdParams {
    /// 1.
    ParameterChange(Credential),
    /// 2.
    Lock {
        /// Whose credential.
        credential_id: u16,
    },
    /// 3.
    Unlock {
        /// Whose credential.
        credential_id: u16,
    },
}

/// SetAuthPolicyOp with what it carries (Tables 39 and 40).
#[derive(Clone, Debug, PartialEq, Eq)]
pub enum SetAuthPolicy {
    /// 1.
    PolicyChange(PolicyList),
    /// 2.
    Lock {
        /// Whose policies.
        credential_id: u16,
    },
    /// 3.
    Unlock {
        /// Whose policies.
        credential_id: u16,
    },
}

/// ErrorCode with its data (Tables 21 and 22).
#[derive(Clone, Debug, PartialEq, Eq)]
pub enum AuthError {
    /// 0x01.
    InvalidRequest,
    /// 0x02.
    ResetRequired,
    /// 0x03.
    Busy,
    /// 0x04.
    UnexpectedRequest,
    /// 0x05.
    Unspecified,
    /// 0x06.
    AccessDenied,
    /// 0x07.
    OperationFailed,
    /// 0x08.
    VersionMismatch,
    /// 0x09.
    UnsupportedRequest {
        /// That of the request.
        request_response_code: u8,
    },
    /// 0x0A.
    InvalidRecord,
    /// 0x0B.
    TermAuthProc {
        /// Whose processes were terminated.
        credential_id: u16,
    },
    /// 0xFF.
    VendorOrStandardsDefined {
        /// The registry or standards body.
        id: u8,
        /// Table 22.
        vendor_id: Vec<u8>,
        /// Table 22.
        opaque_error_data: Vec<u8>,
    },
}

/// Table 2.
#[derive(Clone, Debug, PartialEq, Eq)]
pub struct Credential {
    /// Whose it is.
    pub credential_id: u16,
    /// An asymmetric key.
    pub credential_type: u8,
    /// Table 70.
    pub base_asym_algo: u64,
    /// Table 71.
    pub base_hash_algo: u64,
    /// The public key.
    pub credential_data: Vec<u8>,
}

/// Table 3.
#[derive(Clone, Debug, PartialEq, Eq)]
pub struct PolicyList {
    /// Whose they are.
    pub credential_id: u16,
    /// At least one.
    pub policies: Vec<Policy>,
}

/// Table 4.
#[derive(Clone, Debug, PartialEq, Eq)]
pub struct Policy {
    /// Who defines it.
    pub policy_owner_id: Svh,
    /// In the owner's format.
    pub policy_version: u32,
    /// In the owner's format.
    pub policy: Vec<u8>,
}

/// The standards body or vendor-defined header of DSP0293.
#[derive(Clone, Debug, PartialEq, Eq)]
pub struct Svh {
    /// The registry or standards body.
    pub id: u8,
    /// VendorIDLen bytes.
    pub vendor_id: Vec<u8>,
}

/// Table 46.
#[derive(Clone, Debug, PartialEq, Eq)]
pub struct AuthProcInfo {
    /// Whose process.
    pub credential_id: u16,
    /// 0 active USAS, 1 active SEAP, 2 saved USAS.
    pub auth_process_type: u8,
    /// Which one.
    pub auth_proc_id: AuthProcId,
}

/// Table 63.
#[derive(Clone, Debug, PartialEq, Eq)]
pub struct ResetElement {
    /// Who defines it.
    pub sv_reset_data_type_owner: Svh,
    /// In the owner's format.
    pub sv_reset_data_type: Vec<u8>,
}
