//! "Listing messages on the wire". Two-byte numbers are little endian; byte 1 is reserved: written zero, ignored on reading.

use crate::module::{Name, NAME_LENGTH};
use crate::number::{refuse_unless, refuse_when, Number};

/// Code of GET_AUTH_PROCESSES, 004 Table 16.
pub const GET_AUTH_PROCESSES: u8 = 0x8e;
/// Code of AUTH_PROCESSES, 004 Table 17.
pub const AUTH_PROCESSES: u8 = 0x0e;
/// Bytes before the rows, and of a whole request.
pub const HEAD_LENGTH: usize = 4;
/// Bytes of a row.
pub const ROW_LENGTH: usize = 51;

/// A row of AUTH_PROCESSES.
#[derive(Clone, Copy, Debug, PartialEq, Eq)]
pub struct Row {
    /// Whose process it is.
    pub credential: u16,
    /// 0 active user, 1 active elevation, 2 saved user.
    pub type_number: u8,
    /// The process's name.
    pub name: Name,
}

/// The bytes of a request.
pub fn request(credential: u16) -> [u8; HEAD_LENGTH] {
    let [low, high] = credential.to_le_bytes();
    [GET_AUTH_PROCESSES, 0, low, high]
}

/// Reads a request: a wrong code or any length but 4 is 14.
pub fn read_request(message: &[u8]) -> Result<u16, Number> {
    match *message {
        [GET_AUTH_PROCESSES, _, low, high] => Ok(u16::from_le_bytes([low, high])),
        _ => Err(Number::Message),
    }
}

/// The bytes of a listing, at most 65,535 rows.
pub fn listing(rows: &[Row]) -> Vec<u8> {
    let mut message = vec![AUTH_PROCESSES, 0];
    message.extend((rows.len() as u16).to_le_bytes());
    for row in rows {
        message.extend(row.credential.to_le_bytes());
        message.push(row.type_number);
        message.extend(row.name);
    }
    message
}

/// Reads a listing's count: 14 is a wrong code, a length under 4 or other than 4 + 51 × count, or a type over 2.
pub fn read_count(message: &[u8]) -> Result<u16, Number> {
    let [AUTH_PROCESSES, _, low, high, rows @ ..] = message else {
        return Err(Number::Message);
    };
    let count = u16::from_le_bytes([*low, *high]);
    refuse_unless(
        rows.len() == ROW_LENGTH * usize::from(count),
        Number::Message,
    )?;
    refuse_when(
        rows.chunks(ROW_LENGTH).any(|row| row[2] > 2),
        Number::Message,
    )?;
    Ok(count)
}

/// Reads the row at a place: 14 comes before 1.
pub fn read_row(message: &[u8], place: usize) -> Result<Row, Number> {
    let count = read_count(message)?;
    refuse_unless(place < usize::from(count), Number::Argument)?;
    let row = &message[HEAD_LENGTH + ROW_LENGTH * place..][..ROW_LENGTH];
    let mut name = [0; NAME_LENGTH];
    name.copy_from_slice(&row[3..]);
    Ok(Row {
        credential: u16::from_le_bytes([row[0], row[1]]),
        type_number: row[2],
        name,
    })
}
