//! The entries for all messages of 004 clause 9.2: a side that is tried, beside the model. What is handed out is filled before each call, and stands between
//! guards, so that a refusal that writes is seen, and a write past the end.

use crate::call::{Bytes, Guarded};
use slavotuk::entries;
use slavotuk_model::wire_entries::{self, Values, VALUES};

/// The four entries. Numbers are document 01's.
pub trait Wire: Sync {
    /// The values of a message's fields, and where what follows them begins.
    fn read_message(&self, message: &[u8], values: &mut [u64], rest: &mut usize) -> u32;

    /// The message of a code, values and what follows them.
    fn write_message(
        &self,
        buffer: &mut [u8],
        code: u8,
        values: &[u64],
        rest: &[u8],
        written: &mut usize,
    ) -> u32;

    /// The values of the piece at the front, where what follows them begins, and where the piece ends.
    fn read_piece(
        &self,
        bytes: &[u8],
        kind: u32,
        values: &mut [u64],
        rest: &mut usize,
        next: &mut usize,
    ) -> u32;

    /// The piece of a kind, values and what follows them.
    fn write_piece(
        &self,
        buffer: &mut [u8],
        kind: u32,
        values: &[u64],
        rest: &[u8],
        written: &mut usize,
    ) -> u32;
}

/// The model's.
pub struct Model;

#[rustfmt::skip]
impl Wire for Model {
    fn read_message(&self, message: &[u8], values: &mut [u64], rest: &mut usize) -> u32 {
        wire_entries::read_message(message, values, rest)
    }

    fn write_message(&self, buffer: &mut [u8], code: u8, values: &[u64], rest: &[u8], written: &mut usize) -> u32 {
        wire_entries::write_message(buffer, code, values, rest, written)
    }

    fn read_piece(&self, bytes: &[u8], kind: u32, values: &mut [u64], rest: &mut usize, next: &mut usize) -> u32 {
        wire_entries::read_piece(bytes, kind, values, rest, next)
    }

    fn write_piece(&self, buffer: &mut [u8], kind: u32, values: &[u64], rest: &[u8], written: &mut usize) -> u32 {
        wire_entries::write_piece(buffer, kind, values, rest, written)
    }
}

/// The compiled archive's.
pub struct Archive;

#[rustfmt::skip]
impl Wire for Archive {
    fn read_message(&self, message: &[u8], values: &mut [u64], rest: &mut usize) -> u32 {
        entries::read_message(message, values, rest)
    }

    fn write_message(&self, buffer: &mut [u8], code: u8, values: &[u64], rest: &[u8], written: &mut usize) -> u32 {
        entries::write_message(buffer, code.into(), values, rest, written)
    }

    fn read_piece(&self, bytes: &[u8], kind: u32, values: &mut [u64], rest: &mut usize, next: &mut usize) -> u32 {
        entries::read_piece(bytes, kind, values, rest, next)
    }

    fn write_piece(&self, buffer: &mut [u8], kind: u32, values: &[u64], rest: &[u8], written: &mut usize) -> u32 {
        entries::write_piece(buffer, kind, values, rest, written)
    }
}

/// The most places for values that are lent.
pub const MOST_PLACES: usize = VALUES + 1;

/// What stands where an entry hands something out, before the call.
const HELD: u64 = 0xc3c3_c3c3_c3c3_c3c3;

/// A number, and what was handed out with it.
#[derive(Clone, Debug, PartialEq, Eq)]
pub struct Answer {
    /// Document 01's.
    pub number: u32,
    /// The places that are lent stand between two that are not.
    places: [u64; MOST_PLACES + 2],
    /// Where what follows the fields begins.
    pub rest: usize,
    /// Where the piece ends.
    pub next: usize,
    /// The message's length, or the piece's.
    pub written: usize,
    /// What was lent to a writer.
    buffer: Option<Guarded>,
}

impl Answer {
    /// Before a call, with a buffer for a writer.
    fn held(room: Option<usize>) -> Answer {
        let filled = |room| {
            Guarded::from(
                (0..room)
                    .map(|at| (at as u8).wrapping_mul(37) ^ 0x5a)
                    .collect::<Vec<_>>(),
            )
        };
        Answer {
            number: u32::MAX,
            places: [HELD; MOST_PLACES + 2],
            rest: HELD as usize,
            next: HELD as usize,
            written: HELD as usize,
            buffer: room.map(filled),
        }
    }

    /// The values.
    pub fn values(&self) -> Values {
        let mut values = [0; VALUES];
        values.copy_from_slice(&self.places[1..=VALUES]);
        values
    }

    /// What was written.
    pub fn bytes(&self) -> &[u8] {
        let buffer = self.buffer.as_ref().expect("a writer has a buffer");
        &buffer.as_ref()[..self.written]
    }

    fn tell(&self) -> String {
        let Answer {
            number,
            places,
            rest,
            next,
            written,
            buffer,
        } = self;
        let lent = &places[1..=MOST_PLACES];
        match buffer {
            None => format!("{number}, values {lent:x?}, rest {rest}, next {next}"),
            Some(buffer) => format!(
                "{number}, written {written}, buffer {}",
                Bytes(buffer.as_ref())
            ),
        }
    }
}

/// Makes calls on a side and on the model, and counts them.
pub struct Beside<'a> {
    side: &'a dyn Wire,
    /// Calls made.
    pub calls: u64,
}

impl<'a> Beside<'a> {
    /// This side beside the model.
    pub fn of(side: &'a dyn Wire) -> Beside<'a> {
        Beside { side, calls: 0 }
    }

    /// Reads a message with so many places for values: the common answer, or what differs.
    pub fn read_message(&mut self, message: &[u8], places: usize) -> Result<Answer, String> {
        self.both(
            None,
            |wire, answer| {
                wire.read_message(message, &mut answer.places[1..=places], &mut answer.rest)
            },
            || format!("read_message {} with {places} values", Bytes(message)),
        )
    }

    /// Writes a message into a buffer of so many bytes.
    pub fn write_message(
        &mut self,
        room: usize,
        code: u8,
        values: &[u64],
        rest: &[u8],
    ) -> Result<Answer, String> {
        self.both(
            Some(room),
            |wire, answer| {
                let buffer = answer.buffer.as_mut().expect("there is a room").as_mut();
                wire.write_message(buffer, code, values, rest, &mut answer.written)
            },
            || {
                let rest = Bytes(rest);
                format!("write_message into {room} bytes: code {code:#04x}, values {values:x?}, rest {rest}")
            },
        )
    }

    /// Reads a piece with so many places for values.
    pub fn read_piece(&mut self, bytes: &[u8], kind: u32, places: usize) -> Result<Answer, String> {
        self.both(
            None,
            |wire, answer| {
                let values = &mut answer.places[1..=places];
                wire.read_piece(bytes, kind, values, &mut answer.rest, &mut answer.next)
            },
            || {
                format!(
                    "read_piece of kind {kind} from {} with {places} values",
                    Bytes(bytes)
                )
            },
        )
    }

    /// Writes a piece into a buffer of so many bytes.
    pub fn write_piece(
        &mut self,
        room: usize,
        kind: u32,
        values: &[u64],
        rest: &[u8],
    ) -> Result<Answer, String> {
        self.both(
            Some(room),
            |wire, answer| {
                let buffer = answer.buffer.as_mut().expect("there is a room").as_mut();
                wire.write_piece(buffer, kind, values, rest, &mut answer.written)
            },
            || {
                let rest = Bytes(rest);
                format!(
                    "write_piece of kind {kind} into {room} bytes: values {values:x?}, rest {rest}"
                )
            },
        )
    }

    fn both(
        &mut self,
        room: Option<usize>,
        make: impl Fn(&dyn Wire, &mut Answer) -> u32,
        told: impl Fn() -> String,
    ) -> Result<Answer, String> {
        self.calls += 1;
        let answer = |wire| {
            let mut answer = Answer::held(room);
            answer.number = make(wire, &mut answer);
            answer
        };
        let (expected, actual) = (answer(&Model), answer(self.side));
        if expected == actual {
            return Ok(actual);
        }
        let (expected, actual) = (expected.tell(), actual.tell());
        Err(format!("{}: expected {expected}; actual {actual}", told()))
    }
}
