//! The entries for the messages of 004 clause 9.2 as a host calls them: a message is its code, the values of its fields in order, and the bytes that follow the
//! fields. There are always seven values; a reserved field has one, and those past the fields are zero.

use crate::entries::number_of;
use crate::number::{refuse_unless, refuse_when, Number};
use crate::wire::*;
use crate::wire_read::{self, Reader};
use crate::wire_write;

/// How many values an entry takes.
pub const VALUES: usize = 7;

/// Values of a message or of a piece.
pub type Values = [u64; VALUES];

/// Pieces that lists are made of, by the number an entry has for them.
pub mod piece {
    /// Table 25.
    pub const VERSION_ENTRY: u32 = 0;
    /// Table 46.
    pub const AUTH_PROC_INFO: u32 = 1;
    /// PolicyOwnerID of Table 4, SVResetDataTypeOwner of Table 63.
    pub const OWNER: u32 = 2;
    /// What follows the owner in Table 4.
    pub const OWNED_POLICY: u32 = 3;
    /// What follows the owner in Table 63.
    pub const RESET_DATA_TYPE: u32 = 4;
}

/// Reads a message: 1 unless there is room for seven values, then 14 unless the bytes are one.
pub fn read_message(message: &[u8], values: &mut [u64], rest: &mut usize) -> u32 {
    number_of(|| {
        refuse_unless(values.len() == VALUES, Number::Argument)?;
        let read = wire_read::read(message)?;
        let its = values_of(&read);
        values.copy_from_slice(&its);
        *rest = fields_end(message[0], its[0]);
        Ok(())
    })
}

/// Writes a message: 1 unless there are seven values, 15 where the buffer is shorter than the message, 14 where no message can carry them.
pub fn write_message(
    buffer: &mut [u8],
    code: u8,
    values: &[u64],
    rest: &[u8],
    written: &mut usize,
) -> u32 {
    number_of(|| {
        let values = seven(values)?;
        let length = fields_end(code, values[0]) + rest.len();
        refuse_when(buffer.len() < length, Number::Room)?;
        *written = wire_write::write(&message_of(code, values, rest)?, buffer)?;
        Ok(())
    })
}

/// Reads the piece at the front of the bytes: 1 unless there are such pieces and room for seven values, then 14 unless one stands there.
pub fn read_piece(
    bytes: &[u8],
    kind: u32,
    values: &mut [u64],
    rest: &mut usize,
    next: &mut usize,
) -> u32 {
    number_of(|| {
        refuse_unless(values.len() == VALUES, Number::Argument)?;
        let mut reader = Reader::of(bytes);
        let its = piece_values(kind, &mut reader)?;
        values.copy_from_slice(&its);
        *rest = piece_fields(kind);
        *next = bytes.len() - reader.left();
        Ok(())
    })
}

/// Writes a piece: 1 unless there are such pieces and seven values, 15 where the buffer is shorter than the piece, 14 where no piece of the kind can carry them.
pub fn write_piece(
    buffer: &mut [u8],
    kind: u32,
    values: &[u64],
    rest: &[u8],
    written: &mut usize,
) -> u32 {
    number_of(|| {
        let values = seven(values)?;
        refuse_when(kind > piece::RESET_DATA_TYPE, Number::Argument)?;
        let length = piece_fields(kind) + rest.len();
        refuse_when(buffer.len() < length, Number::Room)?;
        let piece = form_piece(kind, values, rest)?;
        buffer[..piece.len()].copy_from_slice(&piece);
        *written = piece.len();
        Ok(())
    })
}

/// The values of a message's fields.
#[rustfmt::skip]
pub fn values_of(message: &Message) -> Values {
    match message {
        Message::GetAuthVersion
        | Message::ElevatePrivilege
        | Message::EndElevatedPrivilege
        | Message::GetAuthCapabilities
        | Message::TakeOwnership
        | Message::SelectAuthVersionRsp
        | Message::SetCredIdParamsDone
        | Message::SetAuthPolicyDone
        | Message::PrivilegeElevated
        | Message::ElevatedPrivilegeEnded
        | Message::AuthDefaultsApplied
        | Message::OwnershipTaken
        | Message::ProcessKilled { .. } => padded([]),
        Message::SelectAuthVersion { auth_version } => padded([u64::from(*auth_version)]),
        Message::SetCredIdParams(SetCredIdParams::ParameterChange(credential)) => credential_values(1, credential),
        Message::SetCredIdParams(SetCredIdParams::Lock { credential_id }) => padded([2, (*credential_id).into()]),
        Message::SetCredIdParams(SetCredIdParams::Unlock { credential_id }) => padded([3, (*credential_id).into()]),
        Message::SetAuthPolicy(SetAuthPolicy::PolicyChange(list)) => {
            padded([1, list.credential_id.into(), list.policies.len() as u64])
        }
        Message::SetAuthPolicy(SetAuthPolicy::Lock { credential_id }) => padded([2, (*credential_id).into()]),
        Message::SetAuthPolicy(SetAuthPolicy::Unlock { credential_id }) => padded([3, (*credential_id).into()]),
        Message::GetCredIdParams { credential_id }
        | Message::GetAuthPolicy { credential_id }
        | Message::GetAuthProcesses { credential_id }
        | Message::EndAuthRsp { credential_id }
        | Message::KillAuthProcess { credential_id, .. } => padded([u64::from(*credential_id)]),
        Message::StartAuth { credential_id, attributes, nonce } => {
            padded([(*credential_id).into(), (*attributes).into(), nonce.len() as u64])
        }
        Message::EndAuth { credential_id, attributes } => padded([(*credential_id).into(), (*attributes).into()]),
        Message::AuthResetToDefault { data_type, credential_id, sv_reset_data_type_list } => {
            padded([(*data_type).into(), (*credential_id).into(), sv_reset_data_type_list.len() as u64])
        }
        Message::AuthVersion { version_number_entries } => padded([version_number_entries.len() as u64]),
        Message::CredIdParams { cred_attributes, cred_params } => credential_values(*cred_attributes, cred_params),
        Message::AuthPolicy { policy_attributes, policy_list } => {
            padded([(*policy_attributes).into(), policy_list.credential_id.into(), policy_list.policies.len() as u64])
        }
        Message::StartAuthRsp { credential_id, nonce } => padded([(*credential_id).into(), nonce.len() as u64]),
        Message::AuthCapabilities {
            message_caps,
            auth_process_caps,
            device_provisioning_state,
            auth_record_process_time,
            base_asym_algo_supported,
            base_hash_algo_supported,
            supported_policy_owner_id_list,
        } => [
            (*message_caps).into(),
            (*auth_process_caps).into(),
            (*device_provisioning_state).into(),
            (*auth_record_process_time).into(),
            *base_asym_algo_supported,
            *base_hash_algo_supported,
            supported_policy_owner_id_list.len() as u64,
        ],
        Message::AuthProcesses { auth_proc_info_list } => padded([auth_proc_info_list.len() as u64]),
        Message::AuthError(error) => error_values(error),
    }
}

fn credential_values(first: u16, credential: &Credential) -> Values {
    [
        first.into(),
        credential.credential_id.into(),
        credential.credential_type.into(),
        credential.base_asym_algo,
        credential.base_hash_algo,
        0,
        credential.credential_data.len() as u64,
    ]
}

fn error_values(error: &AuthError) -> Values {
    match error {
        AuthError::InvalidRequest => padded([0x01]),
        AuthError::ResetRequired => padded([0x02]),
        AuthError::Busy => padded([0x03]),
        AuthError::UnexpectedRequest => padded([0x04]),
        AuthError::Unspecified => padded([0x05]),
        AuthError::AccessDenied => padded([0x06]),
        AuthError::OperationFailed => padded([0x07]),
        AuthError::VersionMismatch => padded([0x08]),
        AuthError::UnsupportedRequest {
            request_response_code,
        } => padded([0x09, (*request_response_code).into()]),
        AuthError::InvalidRecord => padded([0x0a]),
        AuthError::TermAuthProc { credential_id } => padded([0x0b, 0, (*credential_id).into()]),
        AuthError::VendorOrStandardsDefined { id, vendor_id, .. } => {
            padded([0xff, (*id).into(), vendor_id.len() as u64])
        }
    }
}

fn padded<const COUNT: usize>(fields: [u64; COUNT]) -> Values {
    let mut values = [0; VALUES];
    values[..COUNT].copy_from_slice(&fields);
    values
}

/// Where the fields of a message end: what follows begins there. Where there is no such message, behind the reserved byte.
pub fn fields_end(code: u8, first: u64) -> usize {
    match (code, first) {
        (code::SELECT_AUTH_VERSION | code::AUTH_VERSION, _) => 3,
        (
            code::GET_CRED_ID_PARAMS
            | code::GET_AUTH_POLICY
            | code::GET_AUTH_PROCESSES
            | code::KILL_AUTH_PROCESS
            | code::END_AUTH_RSP
            | code::AUTH_PROCESSES,
            _,
        ) => 4,
        (code::SET_CRED_ID_PARAMS, 1) => 3 + 27,
        (code::SET_AUTH_POLICY, 1) => 3 + 4,
        (code::SET_CRED_ID_PARAMS | code::SET_AUTH_POLICY, 2 | 3) => 3 + 2,
        (code::CRED_ID_PARAMS, _) => 4 + 27,
        (code::AUTH_POLICY, _) => 4 + 4,
        (code::START_AUTH, _) => 6,
        (code::START_AUTH_RSP, _) => 5,
        (code::END_AUTH, _) => 5,
        (code::AUTH_RESET_TO_DEFAULT, _) => 8,
        (code::AUTH_CAPABILITIES, _) => 26,
        (code::AUTH_ERROR, 0x01..=0x0a) => 4,
        (code::AUTH_ERROR, 0x0b) => 6,
        (code::AUTH_ERROR, 0xff) => 5,
        _ => 2,
    }
}

/// The message of these values, if there is one that they and the rest have room in.
fn message_of(code: u8, values: &Values, rest: &[u8]) -> Result<Message, Number> {
    let mut fields = Fields(values.iter());
    let mut reader = Reader::of(rest);
    let message = payload(code, &mut fields, &mut reader)?;
    fields.end()?;
    reader.end()?;
    Ok(message)
}

fn payload(code: u8, fields: &mut Fields, rest: &mut Reader) -> Result<Message, Number> {
    Ok(match code {
        code::GET_AUTH_VERSION => Message::GetAuthVersion,
        code::SELECT_AUTH_VERSION => Message::SelectAuthVersion {
            auth_version: fields.next()?,
        },
        code::SET_CRED_ID_PARAMS => Message::SetCredIdParams(match fields.next::<u8>()? {
            1 => SetCredIdParams::ParameterChange(credential(fields, rest)?),
            2 => SetCredIdParams::Lock {
                credential_id: fields.next()?,
            },
            3 => SetCredIdParams::Unlock {
                credential_id: fields.next()?,
            },
            _ => return Err(Number::Message),
        }),
        code::GET_CRED_ID_PARAMS => Message::GetCredIdParams {
            credential_id: fields.next()?,
        },
        code::SET_AUTH_POLICY => Message::SetAuthPolicy(match fields.next::<u8>()? {
            1 => SetAuthPolicy::PolicyChange(policy_list(fields, rest)?),
            2 => SetAuthPolicy::Lock {
                credential_id: fields.next()?,
            },
            3 => SetAuthPolicy::Unlock {
                credential_id: fields.next()?,
            },
            _ => return Err(Number::Message),
        }),
        code::GET_AUTH_POLICY => Message::GetAuthPolicy {
            credential_id: fields.next()?,
        },
        code::START_AUTH => Message::StartAuth {
            credential_id: fields.next()?,
            attributes: fields.next()?,
            nonce: nonce(fields, rest)?,
        },
        code::END_AUTH => Message::EndAuth {
            credential_id: fields.next()?,
            attributes: fields.next()?,
        },
        code::ELEVATE_PRIVILEGE => Message::ElevatePrivilege,
        code::END_ELEVATED_PRIVILEGE => Message::EndElevatedPrivilege,
        code::GET_AUTH_CAPABILITIES => Message::GetAuthCapabilities,
        code::AUTH_RESET_TO_DEFAULT => Message::AuthResetToDefault {
            data_type: fields.next()?,
            credential_id: fields.next()?,
            sv_reset_data_type_list: wire_read::list(
                fields.next()?,
                rest,
                wire_read::reset_element,
            )?,
        },
        code::TAKE_OWNERSHIP => Message::TakeOwnership,
        code::GET_AUTH_PROCESSES => Message::GetAuthProcesses {
            credential_id: fields.next()?,
        },
        code::KILL_AUTH_PROCESS => Message::KillAuthProcess {
            credential_id: fields.next()?,
            auth_proc_id: rest.array()?,
        },
        code::AUTH_VERSION => Message::AuthVersion {
            version_number_entries: wire_read::list(
                fields.next::<u8>()?.into(),
                rest,
                Reader::u16,
            )?,
        },
        code::SELECT_AUTH_VERSION_RSP => Message::SelectAuthVersionRsp,
        code::SET_CRED_ID_PARAMS_DONE => Message::SetCredIdParamsDone,
        code::CRED_ID_PARAMS => Message::CredIdParams {
            cred_attributes: fields.next()?,
            cred_params: credential(fields, rest)?,
        },
        code::SET_AUTH_POLICY_DONE => Message::SetAuthPolicyDone,
        code::AUTH_POLICY => Message::AuthPolicy {
            policy_attributes: fields.next()?,
            policy_list: policy_list(fields, rest)?,
        },
        code::START_AUTH_RSP => Message::StartAuthRsp {
            credential_id: fields.next()?,
            nonce: nonce(fields, rest)?,
        },
        code::END_AUTH_RSP => Message::EndAuthRsp {
            credential_id: fields.next()?,
        },
        code::PRIVILEGE_ELEVATED => Message::PrivilegeElevated,
        code::ELEVATED_PRIVILEGE_ENDED => Message::ElevatedPrivilegeEnded,
        code::AUTH_CAPABILITIES => Message::AuthCapabilities {
            message_caps: fields.next()?,
            auth_process_caps: fields.next()?,
            device_provisioning_state: fields.next()?,
            auth_record_process_time: fields.next()?,
            base_asym_algo_supported: fields.next()?,
            base_hash_algo_supported: fields.next()?,
            supported_policy_owner_id_list: wire_read::list(fields.next()?, rest, wire_read::svh)?,
        },
        code::AUTH_DEFAULTS_APPLIED => Message::AuthDefaultsApplied,
        code::OWNERSHIP_TAKEN => Message::OwnershipTaken,
        code::AUTH_PROCESSES => Message::AuthProcesses {
            auth_proc_info_list: wire_read::list(fields.next()?, rest, wire_read::auth_proc_info)?,
        },
        code::PROCESS_KILLED => Message::ProcessKilled {
            auth_proc_id: rest.array()?,
        },
        code::AUTH_ERROR => Message::AuthError(auth_error(fields, rest)?),
        _ => return Err(Number::Message),
    })
}

fn credential(fields: &mut Fields, rest: &mut Reader) -> Result<Credential, Number> {
    let credential_id = fields.next()?;
    let credential_type = fields.next()?;
    let base_asym_algo = fields.next()?;
    let base_hash_algo = fields.next()?;
    fields.zero()?;
    let credential_data_size = fields.next::<u32>()?;
    Ok(Credential {
        credential_id,
        credential_type,
        base_asym_algo,
        base_hash_algo,
        credential_data: rest.bytes(credential_data_size as usize)?,
    })
}

fn policy_list(fields: &mut Fields, rest: &mut Reader) -> Result<PolicyList, Number> {
    Ok(PolicyList {
        credential_id: fields.next()?,
        policies: wire_read::list(fields.next()?, rest, wire_read::policy)?,
    })
}

fn nonce(fields: &mut Fields, rest: &mut Reader) -> Result<Nonce, Number> {
    refuse_unless(fields.next::<usize>()? == NONCE_LENGTH, Number::Message)?;
    rest.array()
}

fn auth_error(fields: &mut Fields, rest: &mut Reader) -> Result<AuthError, Number> {
    let error_code = fields.next::<u8>()?;
    if error_code == 0x09 {
        return Ok(AuthError::UnsupportedRequest {
            request_response_code: fields.next()?,
        });
    }
    if error_code == 0xff {
        let id = fields.next()?;
        let vendor_id_len = fields.next::<u8>()?;
        return Ok(AuthError::VendorOrStandardsDefined {
            id,
            vendor_id: rest.bytes(vendor_id_len.into())?,
            opaque_error_data: rest.bytes(rest.left())?,
        });
    }
    fields.zero()?;
    Ok(match error_code {
        0x01 => AuthError::InvalidRequest,
        0x02 => AuthError::ResetRequired,
        0x03 => AuthError::Busy,
        0x04 => AuthError::UnexpectedRequest,
        0x05 => AuthError::Unspecified,
        0x06 => AuthError::AccessDenied,
        0x07 => AuthError::OperationFailed,
        0x08 => AuthError::VersionMismatch,
        0x0a => AuthError::InvalidRecord,
        0x0b => AuthError::TermAuthProc {
            credential_id: fields.next()?,
        },
        _ => return Err(Number::Message),
    })
}

/// Takes values from the front; 14 where one does not fit its field.
struct Fields<'a>(std::slice::Iter<'a, u64>);

impl Fields<'_> {
    fn next<T: TryFrom<u64>>(&mut self) -> Result<T, Number> {
        let value = self.0.next().ok_or(Number::Message)?;
        T::try_from(*value).map_err(|_| Number::Message)
    }

    fn zero(&mut self) -> Result<(), Number> {
        refuse_unless(self.next::<u64>()? == 0, Number::Message)
    }

    /// The values that no field has are zero.
    fn end(mut self) -> Result<(), Number> {
        refuse_unless(self.0.all(|value| *value == 0), Number::Message)
    }
}

/// Bytes of a piece's fields; none where there is no such piece.
pub fn piece_fields(kind: u32) -> usize {
    match kind {
        piece::VERSION_ENTRY => 2,
        piece::AUTH_PROC_INFO => 3,
        piece::OWNER => 2,
        piece::OWNED_POLICY => 6,
        piece::RESET_DATA_TYPE => 1,
        _ => 0,
    }
}

fn piece_values(kind: u32, reader: &mut Reader) -> Result<Values, Number> {
    Ok(match kind {
        piece::VERSION_ENTRY => padded([reader.u16()?.into()]),
        piece::AUTH_PROC_INFO => {
            let information = wire_read::auth_proc_info(reader)?;
            padded([
                information.credential_id.into(),
                information.auth_process_type.into(),
            ])
        }
        piece::OWNER => {
            let owner = wire_read::svh(reader)?;
            padded([owner.id.into(), owner.vendor_id.len() as u64])
        }
        piece::OWNED_POLICY => {
            let (policy_version, policy) = wire_read::owned_policy(reader)?;
            padded([policy_version.into(), policy.len() as u64])
        }
        piece::RESET_DATA_TYPE => padded([wire_read::sv_reset_data_type(reader)?.len() as u64]),
        _ => return Err(Number::Argument),
    })
}

fn form_piece(kind: u32, values: &Values, rest: &[u8]) -> Result<Vec<u8>, Number> {
    let mut fields = Fields(values.iter());
    let mut bytes = Vec::new();
    let length = match kind {
        piece::VERSION_ENTRY => {
            bytes.extend(fields.next::<u16>()?.to_le_bytes());
            0
        }
        piece::AUTH_PROC_INFO => {
            bytes.extend(fields.next::<u16>()?.to_le_bytes());
            let auth_process_type = fields.next::<u8>()?;
            refuse_when(auth_process_type > SAVED_USAS, Number::Message)?;
            bytes.push(auth_process_type);
            AUTH_PROC_ID_LENGTH
        }
        piece::OWNER => {
            bytes.push(fields.next()?);
            let vendor_id_len = fields.next::<u8>()?;
            bytes.push(vendor_id_len);
            vendor_id_len.into()
        }
        piece::OWNED_POLICY => {
            bytes.extend(fields.next::<u32>()?.to_le_bytes());
            let policy_len = fields.next::<u16>()?;
            bytes.extend(policy_len.to_le_bytes());
            policy_len.into()
        }
        piece::RESET_DATA_TYPE => {
            let sv_reset_data_type_len = fields.next::<u8>()?;
            bytes.push(sv_reset_data_type_len);
            let length = usize::from(sv_reset_data_type_len);
            refuse_when(length > LONGEST_RESET_DATA_TYPE, Number::Message)?;
            length
        }
        _ => return Err(Number::Argument),
    };
    fields.end()?;
    refuse_unless(rest.len() == length, Number::Message)?;
    bytes.extend(rest);
    Ok(bytes)
}

fn seven(values: &[u64]) -> Result<&Values, Number> {
    values.try_into().map_err(|_| Number::Argument)
}
