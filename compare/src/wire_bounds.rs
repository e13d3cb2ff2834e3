//! The messages of 004 clause 9.2 on both sides of each bound.

use crate::wire::MOST_PLACES;
use crate::wire_generate::{near_a_bound, Raw};
use crate::wire_tried::Tried;
use slavotuk_model::wire::*;
use slavotuk_model::wire_entries::{piece_fields, VALUES};
use slavotuk_model::wire_examples::{examples, Example};
use slavotuk_model::wire_write::form;

/// A kind that there is no piece of, behind those that there is.
const KINDS: u32 = 5;

pub fn every_byte(tried: &mut Tried) -> Result<(), String> {
    for Example { bytes, .. } in examples() {
        for at in 0..bytes.len() {
            let mut changed = bytes.clone();
            for value in 0..=255 {
                changed[at] = value;
                tried.read_and_walk(&changed)?;
            }
        }
    }
    Ok(())
}

pub fn every_length(tried: &mut Tried) -> Result<(), String> {
    for Example { bytes, .. } in examples() {
        for length in 0..=bytes.len() + 70 {
            let mut cut_or_longer = bytes.clone();
            cut_or_longer.resize(length, 0);
            tried.read_and_walk(&cut_or_longer)?;
            if length > bytes.len() {
                tried.random.fill(&mut cut_or_longer[bytes.len()..]);
                tried.read_and_walk(&cut_or_longer)?;
            }
        }
    }
    Ok(())
}

pub fn every_room(tried: &mut Tried) -> Result<(), String> {
    for Example { message, bytes, .. } in examples() {
        let raw = Raw::of(&message);
        for room in 0..=bytes.len() + 3 {
            let number = tried.write(&raw, room)?.number;
            let expected = if room < bytes.len() { 15 } else { 0 };
            if number != expected {
                return Err(format!("{raw} into {room} bytes: {number}"));
            }
        }
    }
    Ok(())
}

pub fn every_value(tried: &mut Tried) -> Result<(), String> {
    for Example { message, bytes, .. } in examples() {
        let raw = Raw::of(&message);
        for at in 0..VALUES {
            for value in values_about_powers_of_two() {
                let mut changed = raw.clone();
                changed.values[at] = value;
                tried.write_and_read(&changed, bytes.len())?;
                tried.write_and_read(&changed, 2)?;
                changed.rest.push(0);
                tried.write_and_read(&changed, bytes.len() + 1)?;
                changed.rest.truncate(raw.rest.len().saturating_sub(1));
                tried.write_and_read(&changed, bytes.len())?;
            }
        }
    }
    Ok(())
}

pub fn every_code(tried: &mut Tried) -> Result<(), String> {
    for code in 0..=255 {
        for first in 0..=257 {
            for length in [0, 1, 32, 48] {
                let mut values = [0; VALUES];
                values[0] = first;
                let rest = vec![0; length];
                let raw = Raw { code, values, rest };
                tried.write_and_read(&raw, 80)?;
                tried.write_and_read(&raw, length + 2)?;
            }
        }
        for first in 0..=255 {
            for length in 0..=8 {
                let mut message = vec![code, tried.random.word() as u8, first, 0];
                message.resize(length, 0);
                tried.read_and_walk(&message)?;
            }
        }
    }
    Ok(())
}

pub fn every_number_of_places(tried: &mut Tried) -> Result<(), String> {
    let values = [0; MOST_PLACES];
    for Example { message, bytes, .. } in examples() {
        let raw = Raw::of(&message);
        let mut handed = [0; MOST_PLACES];
        handed[..VALUES].copy_from_slice(&raw.values);
        for places in 0..=MOST_PLACES {
            tried.beside.read_message(&bytes, places)?;
            tried.beside.read_message(&bytes[1..], places)?;
            for room in [0, bytes.len()] {
                let handed = &handed[..places];
                tried
                    .beside
                    .write_message(room, raw.code, handed, &raw.rest)?;
            }
        }
    }
    for kind in 0..=KINDS {
        for places in 0..=MOST_PLACES {
            tried.beside.read_piece(&[0; 60], kind, places)?;
            tried.beside.read_piece(&[], kind, places)?;
            for (room, length) in [(0, 0), (60, 0), (60, 48)] {
                let rest = vec![0; length];
                tried
                    .beside
                    .write_piece(room, kind, &values[..places], &rest)?;
            }
        }
    }
    Ok(())
}

pub fn counts(tried: &mut Tried) -> Result<(), String> {
    for count in [0, 1, 2, 254, 255, 256, 257] {
        list_of_parts(tried, &versions(count), 2, 1)?;
    }
    for count in [0, 1, 2, 255, 256, 65_535, 65_536] {
        list_of_parts(tried, &processes(count), 2, 2)?;
        list_of_parts(tried, &owners(count), 24, 2)?;
        list_of_parts(tried, &set_policies(count), 5, 2)?;
        list_of_parts(tried, &policies(count), 6, 2)?;
        list_of_parts(tried, &resets(count), 6, 2)?;
    }
    Ok(())
}

/// Writes and reads it; then with a count that is one less and one more, one byte less and one more. A count of one byte or two stands at a place.
fn list_of_parts(
    tried: &mut Tried,
    message: &Message,
    at: usize,
    width: usize,
) -> Result<(), String> {
    let raw = Raw::of(message);
    tried.write_and_read(&raw, raw.length())?;
    tried.write(&raw, raw.length() - 1)?;
    let mut bytes = form(message);
    tried.beside.read_message(&bytes, VALUES)?;
    let mut count = [0; 2];
    count[..width].copy_from_slice(&bytes[at..at + width]);
    let count = u16::from_le_bytes(count);
    for other in [count.wrapping_sub(1), count.wrapping_add(1)] {
        bytes[at..at + width].copy_from_slice(&other.to_le_bytes()[..width]);
        tried.beside.read_message(&bytes, VALUES)?;
    }
    bytes[at..at + width].copy_from_slice(&count.to_le_bytes()[..width]);
    bytes.push(0);
    tried.beside.read_message(&bytes, VALUES)?;
    bytes.truncate(bytes.len() - 2);
    tried.beside.read_message(&bytes, VALUES)?;
    Ok(())
}

pub fn long_data(tried: &mut Tried) -> Result<(), String> {
    for length in [0, 1, 255, 256, 257, 65_535, 65_536, 65_537, 1 << 20] {
        for message in [
            set_credential(length),
            one_policy(0, length),
            one_policy(length, 0),
        ] {
            let raw = Raw::of(&message);
            tried.write_and_read(&raw, raw.length())?;
            tried.read_and_walk(&form(&message))?;
        }
    }
    for length in 0..=40 {
        for vendor in 0..=40 {
            for message in [one_reset(vendor, length), vendor_error(vendor, length)] {
                let raw = Raw::of(&message);
                tried.write_and_read(&raw, raw.length())?;
                tried.read_and_walk(&form(&message))?;
            }
        }
    }
    let sizes = (0..32).flat_map(|bit| [1_u32 << bit, (1 << bit) - 1]);
    for size in sizes.chain([u32::MAX - 27, u32::MAX - 1, u32::MAX]) {
        let mut bytes = form(&set_credential(300));
        bytes[26..30].copy_from_slice(&size.to_le_bytes());
        tried.read_and_walk(&bytes)?;
    }
    Ok(())
}

pub fn pieces(tried: &mut Tried) -> Result<(), String> {
    for _ in 0..200_000 {
        let kind = match tried.random.below(50) {
            0 => tried.random.word(),
            _ => tried.random.word() % (KINDS + 1),
        };
        let length = tried.random.below(80);
        let mut bytes = tried.random.bytes(length);
        // a length that fits comes up more often than one in 256 times
        let said = piece_fields(kind).saturating_sub(1);
        if let Some(byte) = bytes.get_mut(said) {
            *byte %= 80;
        }
        let answer = tried.beside.read_piece(&bytes, kind, VALUES)?;
        if answer.number == 0 {
            tried.piece_at_the_front(&bytes, kind)?;
        }
        let mut values = [0; VALUES];
        values[..2].copy_from_slice(&[tried.random.next() % 70_000, length as u64]);
        if tried.random.percent(30) {
            values[tried.random.below(VALUES)] = near_a_bound(&mut tried.random);
        }
        let room = tried.room(length + 6);
        tried.beside.write_piece(room, kind, &values, &bytes)?;
        values.swap(0, 1);
        tried.beside.write_piece(room, kind, &values, &bytes)?;
    }
    Ok(())
}

fn values_about_powers_of_two() -> impl Iterator<Item = u64> {
    let powers = (0..64).map(|bit| 1_u64 << bit);
    powers
        .flat_map(|power| [power - 1, power, power + 1])
        .chain([31, 32, 33, u64::MAX])
}

fn svh(length: usize) -> Svh {
    Svh {
        id: 3,
        vendor_id: vec![0x5a; length],
    }
}

fn policy(vendor: usize, length: usize) -> Policy {
    Policy {
        policy_owner_id: svh(vendor),
        policy_version: 0x1000,
        policy: vec![0xaa; length],
    }
}

fn policy_list(policies: Vec<Policy>) -> PolicyList {
    PolicyList {
        credential_id: 7,
        policies,
    }
}

fn one_policy(vendor: usize, length: usize) -> Message {
    let list = policy_list(vec![policy(vendor, length)]);
    Message::SetAuthPolicy(SetAuthPolicy::PolicyChange(list))
}

fn set_policies(count: usize) -> Message {
    let list = policy_list(vec![policy(1, 0); count]);
    Message::SetAuthPolicy(SetAuthPolicy::PolicyChange(list))
}

fn policies(count: usize) -> Message {
    Message::AuthPolicy {
        policy_attributes: 7,
        policy_list: policy_list(vec![policy(0, 1); count]),
    }
}

fn set_credential(length: usize) -> Message {
    Message::SetCredIdParams(SetCredIdParams::ParameterChange(Credential {
        credential_id: 7,
        credential_type: ASYMMETRIC_KEY,
        base_asym_algo: 0x80,
        base_hash_algo: 0x02,
        credential_data: vec![0x30; length],
    }))
}

fn reset(vendor: usize, length: usize) -> ResetElement {
    ResetElement {
        sv_reset_data_type_owner: svh(vendor),
        sv_reset_data_type: vec![0xde; length],
    }
}

fn one_reset(vendor: usize, length: usize) -> Message {
    reset_of(vec![reset(vendor, length)])
}

fn resets(count: usize) -> Message {
    reset_of(vec![reset(0, 1); count])
}

fn reset_of(sv_reset_data_type_list: Vec<ResetElement>) -> Message {
    Message::AuthResetToDefault {
        data_type: 3,
        credential_id: 0xffff,
        sv_reset_data_type_list,
    }
}

fn owners(count: usize) -> Message {
    Message::AuthCapabilities {
        message_caps: 0x3f,
        auth_process_caps: 0x0f,
        device_provisioning_state: OWNED,
        auth_record_process_time: LONGEST_PROCESS_TIME,
        base_asym_algo_supported: bits::BASE_ASYM_ALGO,
        base_hash_algo_supported: bits::BASE_HASH_ALGO,
        supported_policy_owner_id_list: vec![svh(1); count],
    }
}

fn versions(count: usize) -> Message {
    Message::AuthVersion {
        version_number_entries: vec![0x1000; count],
    }
}

fn processes(count: usize) -> Message {
    let information = AuthProcInfo {
        credential_id: 2,
        auth_process_type: SAVED_USAS,
        auth_proc_id: [4; AUTH_PROC_ID_LENGTH],
    };
    Message::AuthProcesses {
        auth_proc_info_list: vec![information; count],
    }
}

fn vendor_error(vendor: usize, opaque: usize) -> Message {
    Message::AuthError(AuthError::VendorOrStandardsDefined {
        id: 3,
        vendor_id: vec![1; vendor],
        opaque_error_data: vec![2; opaque],
    })
}
