//! What is asked of every message: both sides read it alike, and what is written reads as what was handed in.

use crate::call::Bytes;
use crate::random::Random;
use crate::wire::{Answer, Beside, Wire};
use crate::wire_generate::Raw;
use slavotuk_model::wire::code;
use slavotuk_model::wire_entries::{piece, Values, VALUES};

/// Tries a side beside the model.
pub struct Tried<'a> {
    /// Both.
    pub beside: Beside<'a>,
    /// What is drawn.
    pub random: Random,
}

impl Tried<'_> {
    /// This side, with a seed.
    pub fn of(side: &dyn Wire, seed: u64) -> Tried<'_> {
        Tried {
            beside: Beside::of(side),
            random: Random::new(seed),
        }
    }

    /// As many bytes as are needed, or about as many.
    pub fn room(&mut self, length: usize) -> usize {
        match self.random.weighted(&[60, 20, 10, 5, 5]) {
            0 => length,
            1 => length + self.random.below(20),
            2 => length - 1,
            3 => length.saturating_sub(self.random.below(20)),
            _ => self.random.below(length),
        }
    }

    /// Writes into so many bytes.
    pub fn write(&mut self, raw: &Raw, room: usize) -> Result<Answer, String> {
        self.beside
            .write_message(room, raw.code, &raw.values, &raw.rest)
    }

    /// What was written reads as what was handed in.
    pub fn read_back(&mut self, raw: &Raw, bytes: &[u8]) -> Result<(), String> {
        let answer = self.read_and_walk(bytes)?;
        let same = answer.number == 0
            && answer.values() == raw.values
            && bytes[0] == raw.code
            && bytes[answer.rest..] == raw.rest;
        if same {
            return Ok(());
        }
        Err(format!("{raw} is written and read back as another message"))
    }

    /// Reads a message, and where it is one, the pieces of its list.
    pub fn read_and_walk(&mut self, message: &[u8]) -> Result<Answer, String> {
        let answer = self.beside.read_message(message, VALUES)?;
        if answer.number == 0 {
            self.walk(message, &answer)?;
        }
        Ok(answer)
    }

    /// Reads every piece and writes it again; the last one ends where the message does.
    fn walk(&mut self, message: &[u8], answer: &Answer) -> Result<(), String> {
        let Some((kinds, count)) = list_of(message[0], &answer.values()) else {
            return Ok(());
        };
        let mut left = &message[answer.rest..];
        for _ in 0..count {
            for kind in kinds {
                left = self.piece_at_the_front(left, *kind)?;
            }
        }
        match left {
            [] => Ok(()),
            _ => Err(format!(
                "bytes are left behind {count} parts of {}",
                Bytes(message)
            )),
        }
    }

    /// Reads the piece at the front and writes it again; the bytes behind it.
    pub fn piece_at_the_front<'b>(
        &mut self,
        bytes: &'b [u8],
        kind: u32,
    ) -> Result<&'b [u8], String> {
        let answer = self.beside.read_piece(bytes, kind, VALUES)?;
        if answer.number != 0 {
            let number = answer.number;
            return Err(format!(
                "{number} to a piece of kind {kind} in a message that is read"
            ));
        }
        let (piece, left) = bytes.split_at(answer.next);
        let rest = &piece[answer.rest..];
        let written = self
            .beside
            .write_piece(piece.len(), kind, &answer.values(), rest)?;
        match written.number {
            0 if written.bytes() == piece => Ok(left),
            _ => Err(format!(
                "a piece of kind {kind} is written as another: {}",
                Bytes(piece)
            )),
        }
    }

    /// Writes into so many bytes, and reads what was written.
    pub fn write_and_read(&mut self, raw: &Raw, room: usize) -> Result<(), String> {
        let written = self.write(raw, room)?;
        match written.number {
            0 => self.read_back(raw, written.bytes()),
            _ => Ok(()),
        }
    }
}

/// What a message's list is made of, and how many parts it has.
fn list_of(code: u8, values: &Values) -> Option<(&'static [u32], u64)> {
    match (code, values[0]) {
        (code::AUTH_VERSION, _) => Some((&[piece::VERSION_ENTRY], values[0])),
        (code::AUTH_PROCESSES, _) => Some((&[piece::AUTH_PROC_INFO], values[0])),
        (code::AUTH_CAPABILITIES, _) => Some((&[piece::OWNER], values[6])),
        (code::SET_AUTH_POLICY, 1) | (code::AUTH_POLICY, _) => {
            Some((&[piece::OWNER, piece::OWNED_POLICY], values[2]))
        }
        (code::AUTH_RESET_TO_DEFAULT, _) => {
            Some((&[piece::OWNER, piece::RESET_DATA_TYPE], values[2]))
        }
        _ => None,
    }
}
