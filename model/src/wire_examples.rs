//! An example of each message of 004 clause 9.2, and of each form that one has, with its bytes put together by hand from the tables.

use crate::wire::*;

/// A message and its bytes.
#[derive(Clone, Debug)]
pub struct Example {
    /// 004's name, and the form where there are several.
    pub name: &'static str,
    /// The message.
    pub message: Message,
    /// Its bytes.
    pub bytes: Vec<u8>,
}

fn example(name: &'static str, message: Message, parts: &[&[u8]]) -> Example {
    Example {
        name,
        message,
        bytes: parts.concat(),
    }
}

/// All of them.
pub fn examples() -> Vec<Example> {
    let mut all = requests();
    all.extend(responses());
    all.extend(errors());
    all
}

fn counting<const LENGTH: usize>(from: u8) -> [u8; LENGTH] {
    let mut bytes = [from; LENGTH];
    for (at, byte) in bytes.iter_mut().enumerate() {
        *byte = byte.wrapping_add(at as u8);
    }
    bytes
}

/// A key of five bytes, TPM_ALG_ECDSA_ECC_NIST_P384 with TPM_ALG_SHA_384.
fn credential() -> Credential {
    Credential {
        credential_id: 0x0102,
        credential_type: 1,
        base_asym_algo: 0x80,
        base_hash_algo: 0x02,
        credential_data: vec![0x30, 0x03, 0x06, 0x01, 0x2a],
    }
}

const CREDENTIAL: &[u8] = &[
    0x02, 0x01, 0x01, 0x80, 0, 0, 0, 0, 0, 0, 0, 0x02, 0, 0, 0, 0, 0, 0, 0, 0, 0, 0, 0, 0x05, 0, 0,
    0, 0x30, 0x03, 0x06, 0x01, 0x2a,
];

/// A policy of the standard's own, DMTF-DSP 289 (Tables 4 and 65) with a general policy (Tables 5 and 7), and one with no bytes at all.
fn policy_list() -> PolicyList {
    PolicyList {
        credential_id: 0x0007,
        policies: vec![
            Policy {
                policy_owner_id: Svh {
                    id: 0x0b,
                    vendor_id: vec![0x21, 0x01],
                },
                policy_version: 0x1000,
                policy: GENERAL_POLICY.to_vec(),
            },
            Policy {
                policy_owner_id: Svh {
                    id: 0x00,
                    vendor_id: vec![],
                },
                policy_version: 0x0403_0201,
                policy: vec![],
            },
        ],
    }
}

/// Type 1, 21 bytes: P-256 and P-384, SHA-256 and SHA-384, no privilege over others, both kinds of process.
const GENERAL_POLICY: &[u8] = &[
    0x01, 0x00, 0x15, 0x00, 0x90, 0, 0, 0, 0, 0, 0, 0, 0x03, 0, 0, 0, 0, 0, 0, 0, 0, 0, 0, 0, 0x03,
];

const POLICY_LIST: &[u8] = &[
    0x07, 0x00, 0x02, 0x00, 0x0b, 0x02, 0x21, 0x01, 0x00, 0x10, 0x00, 0x00, 0x19, 0x00, 0x01, 0x00,
    0x15, 0x00, 0x90, 0, 0, 0, 0, 0, 0, 0, 0x03, 0, 0, 0, 0, 0, 0, 0, 0, 0, 0, 0, 0x03, 0x00, 0x00,
    0x01, 0x02, 0x03, 0x04, 0x00, 0x00,
];

#[rustfmt::skip]
fn requests() -> Vec<Example> {
    vec![
        example("GET_AUTH_VERSION", Message::GetAuthVersion, &[&[0x81, 0]]),
        example("SELECT_AUTH_VERSION", Message::SelectAuthVersion { auth_version: 0x10 }, &[&[0x82, 0, 0x10]]),
        example("SET_CRED_ID_PARAMS ParameterChange", Message::SetCredIdParams(SetCredIdParams::ParameterChange(credential())), &[&[0x83, 0, 1], CREDENTIAL]),
        example("SET_CRED_ID_PARAMS Lock", Message::SetCredIdParams(SetCredIdParams::Lock { credential_id: 0x0304 }), &[&[0x83, 0, 2, 0x04, 0x03]]),
        example("SET_CRED_ID_PARAMS Unlock", Message::SetCredIdParams(SetCredIdParams::Unlock { credential_id: 0x0506 }), &[&[0x83, 0, 3, 0x06, 0x05]]),
        example("GET_CRED_ID_PARAMS", Message::GetCredIdParams { credential_id: 0x0102 }, &[&[0x84, 0, 0x02, 0x01]]),
        example("SET_AUTH_POLICY PolicyChange", Message::SetAuthPolicy(SetAuthPolicy::PolicyChange(policy_list())), &[&[0x85, 0, 1], POLICY_LIST]),
        example("SET_AUTH_POLICY Lock", Message::SetAuthPolicy(SetAuthPolicy::Lock { credential_id: 0x0304 }), &[&[0x85, 0, 2, 0x04, 0x03]]),
        example("SET_AUTH_POLICY Unlock", Message::SetAuthPolicy(SetAuthPolicy::Unlock { credential_id: 0x0506 }), &[&[0x85, 0, 3, 0x06, 0x05]]),
        example("GET_AUTH_POLICY", Message::GetAuthPolicy { credential_id: 0x0708 }, &[&[0x86, 0, 0x08, 0x07]]),
        example("START_AUTH", Message::StartAuth { credential_id: 0x090a, attributes: 1, nonce: counting(0x40) }, &[&[0x87, 0, 0x0a, 0x09, 1, 32], &counting::<32>(0x40)]),
        example("END_AUTH", Message::EndAuth { credential_id: 0x0b0c, attributes: 2 }, &[&[0x88, 0, 0x0c, 0x0b, 2]]),
        example("ELEVATE_PRIVILEGE", Message::ElevatePrivilege, &[&[0x89, 0]]),
        example("END_ELEVATED_PRIVILEGE", Message::EndElevatedPrivilege, &[&[0x8a, 0]]),
        example("GET_AUTH_CAPABILITIES", Message::GetAuthCapabilities, &[&[0x8b, 0]]),
        example("AUTH_RESET_TO_DEFAULT of all", Message::AuthResetToDefault { data_type: 3, credential_id: 0xffff, sv_reset_data_type_list: vec![] }, &[&[0x8c, 0, 3, 0, 0xff, 0xff, 0, 0]]),
        example(
            "AUTH_RESET_TO_DEFAULT",
            Message::AuthResetToDefault {
                data_type: 2,
                credential_id: 0x0d0e,
                sv_reset_data_type_list: vec![
                    ResetElement { sv_reset_data_type_owner: Svh { id: 0x03, vendor_id: vec![0x5a, 0x5b] }, sv_reset_data_type: vec![0xde, 0xad, 0xbe] },
                    ResetElement { sv_reset_data_type_owner: Svh { id: 0x00, vendor_id: vec![] }, sv_reset_data_type: counting::<32>(0x60).to_vec() },
                ],
            },
            &[&[0x8c, 0, 2, 0, 0x0e, 0x0d, 2, 0, 0x03, 2, 0x5a, 0x5b, 3, 0xde, 0xad, 0xbe, 0x00, 0, 32], &counting::<32>(0x60)],
        ),
        example("TAKE_OWNERSHIP", Message::TakeOwnership, &[&[0x8d, 0]]),
        example("GET_AUTH_PROCESSES", Message::GetAuthProcesses { credential_id: 0xffff }, &[&[0x8e, 0, 0xff, 0xff]]),
        example("KILL_AUTH_PROCESS", Message::KillAuthProcess { credential_id: 0x0f10, auth_proc_id: counting(0x80) }, &[&[0x8f, 0, 0x10, 0x0f], &counting::<48>(0x80)]),
    ]
}

#[rustfmt::skip]
fn responses() -> Vec<Example> {
    vec![
        example("AUTH_VERSION", Message::AuthVersion { version_number_entries: vec![0x1000, 0x1123] }, &[&[0x01, 0, 2, 0x00, 0x10, 0x23, 0x11]]),
        example("AUTH_VERSION of none", Message::AuthVersion { version_number_entries: vec![] }, &[&[0x01, 0, 0]]),
        example("SELECT_AUTH_VERSION_RSP", Message::SelectAuthVersionRsp, &[&[0x02, 0]]),
        example("SET_CRED_ID_PARAMS_DONE", Message::SetCredIdParamsDone, &[&[0x03, 0]]),
        example("CRED_ID_PARAMS", Message::CredIdParams { cred_attributes: 5, cred_params: credential() }, &[&[0x04, 0, 5, 0], CREDENTIAL]),
        example("SET_AUTH_POLICY_DONE", Message::SetAuthPolicyDone, &[&[0x05, 0]]),
        example("AUTH_POLICY", Message::AuthPolicy { policy_attributes: 3, policy_list: policy_list() }, &[&[0x06, 0, 3, 0], POLICY_LIST]),
        example("START_AUTH_RSP", Message::StartAuthRsp { credential_id: 0x090a, nonce: counting(0x20) }, &[&[0x07, 0, 0x0a, 0x09, 32], &counting::<32>(0x20)]),
        example("END_AUTH_RSP", Message::EndAuthRsp { credential_id: 0x0b0c }, &[&[0x08, 0, 0x0c, 0x0b]]),
        example("PRIVILEGE_ELEVATED", Message::PrivilegeElevated, &[&[0x09, 0]]),
        example("ELEVATED_PRIVILEGE_ENDED", Message::ElevatedPrivilegeEnded, &[&[0x0a, 0]]),
        example(
            "AUTH_CAPABILITIES",
            Message::AuthCapabilities {
                message_caps: 0x39,
                auth_process_caps: 0x0b,
                device_provisioning_state: 2,
                auth_record_process_time: 31,
                base_asym_algo_supported: 0x0890,
                base_hash_algo_supported: 0x07,
                supported_policy_owner_id_list: vec![Svh { id: 0x0b, vendor_id: vec![0x21, 0x01] }, Svh { id: 0x01, vendor_id: vec![] }],
            },
            &[&[0x0b, 0, 0x39, 0, 0x0b, 0, 2, 31, 0x90, 0x08, 0, 0, 0, 0, 0, 0, 0x07, 0, 0, 0, 0, 0, 0, 0, 2, 0], &[0x0b, 2, 0x21, 0x01, 0x01, 0]],
        ),
        example("AUTH_DEFAULTS_APPLIED", Message::AuthDefaultsApplied, &[&[0x0c, 0]]),
        example("OWNERSHIP_TAKEN", Message::OwnershipTaken, &[&[0x0d, 0]]),
        example(
            "AUTH_PROCESSES",
            Message::AuthProcesses {
                auth_proc_info_list: vec![
                    AuthProcInfo { credential_id: 0x0102, auth_process_type: 2, auth_proc_id: counting(0x30) },
                    AuthProcInfo { credential_id: 0x0304, auth_process_type: 1, auth_proc_id: counting(0xf0) },
                ],
            },
            &[&[0x0e, 0, 2, 0, 0x02, 0x01, 2], &counting::<48>(0x30), &[0x04, 0x03, 1], &counting::<48>(0xf0)],
        ),
        example("AUTH_PROCESSES of none", Message::AuthProcesses { auth_proc_info_list: vec![] }, &[&[0x0e, 0, 0, 0]]),
        example("PROCESS_KILLED", Message::ProcessKilled { auth_proc_id: counting(0x80) }, &[&[0x0f, 0], &counting::<48>(0x80)]),
    ]
}

#[rustfmt::skip]
fn errors() -> Vec<Example> {
    vec![
        example("AUTH_ERROR InvalidRequest", Message::AuthError(AuthError::InvalidRequest), &[&[0x7f, 0, 0x01, 0]]),
        example("AUTH_ERROR ResetRequired", Message::AuthError(AuthError::ResetRequired), &[&[0x7f, 0, 0x02, 0]]),
        example("AUTH_ERROR Busy", Message::AuthError(AuthError::Busy), &[&[0x7f, 0, 0x03, 0]]),
        example("AUTH_ERROR UnexpectedRequest", Message::AuthError(AuthError::UnexpectedRequest), &[&[0x7f, 0, 0x04, 0]]),
        example("AUTH_ERROR Unspecified", Message::AuthError(AuthError::Unspecified), &[&[0x7f, 0, 0x05, 0]]),
        example("AUTH_ERROR AccessDenied", Message::AuthError(AuthError::AccessDenied), &[&[0x7f, 0, 0x06, 0]]),
        example("AUTH_ERROR OperationFailed", Message::AuthError(AuthError::OperationFailed), &[&[0x7f, 0, 0x07, 0]]),
        example("AUTH_ERROR VersionMismatch", Message::AuthError(AuthError::VersionMismatch), &[&[0x7f, 0, 0x08, 0]]),
        example("AUTH_ERROR UnsupportedRequest", Message::AuthError(AuthError::UnsupportedRequest { request_response_code: 0x8c }), &[&[0x7f, 0, 0x09, 0x8c]]),
        example("AUTH_ERROR InvalidRecord", Message::AuthError(AuthError::InvalidRecord), &[&[0x7f, 0, 0x0a, 0]]),
        example("AUTH_ERROR TermAuthProc", Message::AuthError(AuthError::TermAuthProc { credential_id: 0x0102 }), &[&[0x7f, 0, 0x0b, 0, 0x02, 0x01]]),
        example(
            "AUTH_ERROR vendor or standards-defined",
            Message::AuthError(AuthError::VendorOrStandardsDefined { id: 0x03, vendor_id: vec![0x5a, 0x5b], opaque_error_data: counting::<29>(1).to_vec() }),
            &[&[0x7f, 0, 0xff, 0x03, 2, 0x5a, 0x5b], &counting::<29>(1)],
        ),
        example(
            "AUTH_ERROR vendor or standards-defined, shortest",
            Message::AuthError(AuthError::VendorOrStandardsDefined { id: 0x00, vendor_id: vec![], opaque_error_data: vec![] }),
            &[&[0x7f, 0, 0xff, 0x00, 0]],
        ),
    ]
}
