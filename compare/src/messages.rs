//! The readers and writers of the listing messages, on both sides of each bound. What is handed out is filled before each call, so that a refusal that writes
//! is seen.

use crate::call::Call;
use crate::random::Random;
use crate::report::{Report, Singles};
use slavotuk::layout::listing::{NUMBER_AT, ROWS_AT};
use slavotuk_model::messages::{AUTH_PROCESSES, GET_AUTH_PROCESSES, HEAD_LENGTH, ROW_LENGTH};
use slavotuk_model::module::{NAME_LENGTH, PLACES};

/// A listing of a full table, and some bytes more.
const LONGEST: usize = HEAD_LENGTH + ROW_LENGTH * PLACES + 60;

/// All of it.
pub fn test(seed: u64, report: &mut Report) {
    let mut messages = Messages {
        random: Random::new(seed),
        singles: Singles::default(),
        accepted: 0,
    };
    messages.part(
        report,
        "requests of every length and code",
        Messages::requests,
    );
    messages.part(
        report,
        "requests of every credential, read and written",
        Messages::credentials,
    );
    messages.part(
        report,
        "listings of every length with counts 0 to 15",
        Messages::lengths,
    );
    messages.part(
        report,
        "listings with every count in the head",
        Messages::counts,
    );
    messages.part(
        report,
        "long listings, up to 65535 rows",
        Messages::long_listings,
    );
    messages.part(
        report,
        "every type in the first, a middle and the last row",
        Messages::types,
    );
    messages.part(
        report,
        "every code and reserved byte of a listing",
        Messages::heads,
    );
    messages.part(
        report,
        "rows at every place, and names of 47 to 49 bytes",
        Messages::places,
    );
}

struct Messages {
    random: Random,
    singles: Singles,
    accepted: u64,
}

impl Messages {
    fn part(
        &mut self,
        report: &mut Report,
        name: &str,
        part: fn(&mut Messages) -> Result<(), String>,
    ) {
        self.singles.calls = 0;
        self.accepted = 0;
        let outcome = part(self);
        let (calls, accepted) = (self.singles.calls, self.accepted);
        report.judge(match outcome {
            Ok(()) => Ok(format!("{name}: {calls} calls, {accepted} accepted")),
            Err(what) => Err(format!("{name}: {what}")),
        });
    }

    /// Makes the call on both sides; its number has to be the expected one, where there is one to be named here.
    fn call(&mut self, call: &Call, expected: Option<u32>) -> Result<(), String> {
        let answer = self.singles.call(call)?;
        self.accepted += u64::from(answer.number == 0);
        match expected {
            Some(number) if number != answer.number => {
                Err(format!("{call}: both answer {answer}, {number} is right"))
            }
            _ => Ok(()),
        }
    }

    fn requests(&mut self) -> Result<(), String> {
        for length in 0..=8 {
            for code in 0..=255 {
                let mut message = self.random.bytes(length);
                if let Some(first) = message.first_mut() {
                    *first = code;
                }
                let good = length == HEAD_LENGTH && code == GET_AUTH_PROCESSES;
                let call = self.read_request(message);
                self.call(&call, Some(if good { 0 } else { 14 }))?;
            }
        }
        for reserved in 0..=255 {
            let call = self.read_request(vec![GET_AUTH_PROCESSES, reserved, 3, 0]);
            self.call(&call, Some(0))?;
        }
        for length in 0..=8 {
            let call = Call::WriteRequest {
                buffer: self.random.bytes(length).into(),
                credential: self.random.word() as u16,
            };
            self.call(&call, Some(if length < HEAD_LENGTH { 15 } else { 0 }))?;
        }
        Ok(())
    }

    fn credentials(&mut self) -> Result<(), String> {
        for credential in 0..=u16::MAX {
            let [low, high] = credential.to_le_bytes();
            let reserved = self.random.word() as u8;
            let call = self.read_request(vec![GET_AUTH_PROCESSES, reserved, low, high]);
            self.call(&call, Some(0))?;
            let room = HEAD_LENGTH + self.random.below(4);
            let call = Call::WriteRequest {
                buffer: self.random.bytes(room).into(),
                credential,
            };
            self.call(&call, Some(0))?;
        }
        Ok(())
    }

    fn lengths(&mut self) -> Result<(), String> {
        for length in 0..=LONGEST {
            for count in 0..=15u16 {
                let mut message = self.listing(PLACES + 2);
                message[NUMBER_AT..ROWS_AT].copy_from_slice(&count.to_le_bytes());
                message.truncate(length);
                let fits = length == HEAD_LENGTH + ROW_LENGTH * usize::from(count);
                let number = Some(if fits { 0 } else { 14 });
                self.count_and_row(message, number)?;
                let mut drawn = self.random.bytes(length);
                if let Some(first) = drawn.first_mut() {
                    *first = AUTH_PROCESSES;
                }
                if let Some(counted) = drawn.get_mut(NUMBER_AT..ROWS_AT) {
                    counted.copy_from_slice(&count.to_le_bytes());
                }
                self.count_and_row(drawn, None)?;
            }
        }
        Ok(())
    }

    fn counts(&mut self) -> Result<(), String> {
        for count in 0..=u16::MAX {
            let mut message = self.listing(usize::from(count % 4));
            message[NUMBER_AT..ROWS_AT].copy_from_slice(&count.to_le_bytes());
            let number = Some(if count < 4 { 0 } else { 14 });
            self.count_and_row(message, number)?;
        }
        for count in 0..=300 {
            for extra in [-1, 0, 1] {
                let mut message = self.listing(count);
                let length = message.len() as isize + extra;
                message.resize(length as usize, 0);
                let number = Some(if extra == 0 { 0 } else { 14 });
                self.count_and_row(message, number)?;
            }
        }
        Ok(())
    }

    fn long_listings(&mut self) -> Result<(), String> {
        for count in [1_285, 1_286, 5_140, 32_767, 32_768, 65_534, 65_535] {
            let mut message = self.listing(count);
            for at in [0, 1, count / 2, count - 1, count, count + 1] {
                let call = self.read_row(message.clone(), at, NAME_LENGTH);
                self.call(&call, Some(if at < count { 0 } else { 1 }))?;
            }
            self.count_and_row(message.clone(), Some(0))?;
            message.push(0);
            self.count_and_row(message.clone(), Some(14))?;
            message.truncate(message.len() - 2);
            self.count_and_row(message, Some(14))?;
        }
        // the lengths of counts that differ by 65,536 rows, where a count of 16 bits comes round
        for past in [0, 1, 2] {
            let mut message = self.listing(65_536 + past);
            message[NUMBER_AT..ROWS_AT].copy_from_slice(&(past as u16).to_le_bytes());
            self.count_and_row(message, Some(14))?;
        }
        Ok(())
    }

    fn types(&mut self) -> Result<(), String> {
        for count in [1, 2, PLACES, 40] {
            for row in [0, count / 2, count - 1] {
                for value in 0..=255 {
                    let mut message = self.listing(count);
                    message[HEAD_LENGTH + ROW_LENGTH * row + 2] = value;
                    let number = Some(if value > 2 { 14 } else { 0 });
                    self.count_and_row(message.clone(), number)?;
                    let call = self.read_row(message, row, NAME_LENGTH);
                    self.call(&call, number)?;
                }
            }
        }
        Ok(())
    }

    fn heads(&mut self) -> Result<(), String> {
        for count in [0, 1, 3] {
            for value in 0..=255 {
                let mut message = self.listing(count);
                message[0] = value;
                let good = value == AUTH_PROCESSES;
                self.count_and_row(message, Some(if good { 0 } else { 14 }))?;
                let mut message = self.listing(count);
                message[1] = value;
                self.count_and_row(message, Some(0))?;
            }
        }
        Ok(())
    }

    fn places(&mut self) -> Result<(), String> {
        // a place times 51 comes round past usize::MAX from these on
        let round = usize::MAX / ROW_LENGTH;
        for count in 0..=PLACES + 3 {
            let near = (0..=count + 2).chain(round - 2..=round + count + 2);
            let far = [255, 256, 65_535, 65_536, 1 << 31, 1 << 32, 1 << 63];
            let last = [usize::MAX - 1, usize::MAX];
            for at in near.chain(far).chain(last) {
                for length in [0, 47, 48, 49, 96] {
                    let message = self.listing(count);
                    let good = at < count && length == NAME_LENGTH;
                    let call = self.read_row(message, at, length);
                    self.call(&call, Some(if good { 0 } else { 1 }))?;
                    let mut spoilt = self.listing(count);
                    spoilt.push(0);
                    let call = self.read_row(spoilt, at, length);
                    self.call(&call, Some(14))?;
                }
            }
        }
        Ok(())
    }

    /// Reads the count, and a row about the last; the row's number is 1 where the message is good and the place is past it.
    fn count_and_row(&mut self, message: Vec<u8>, expected: Option<u32>) -> Result<(), String> {
        let rows = message.len() / ROW_LENGTH;
        let at = self.random.below(rows + 2);
        let call = self.read_row(message.clone(), at, NAME_LENGTH);
        let row_expected = match expected {
            Some(0) if at >= rows => Some(1),
            other => other,
        };
        self.call(&call, row_expected)?;
        let count = self.random.word() as u16;
        self.call(&Call::ReadCount { message, count }, expected)
    }

    /// A listing of so many rows: random credentials and names, good types.
    fn listing(&mut self, rows: usize) -> Vec<u8> {
        let mut message = self.random.bytes(HEAD_LENGTH + ROW_LENGTH * rows);
        message[0] = AUTH_PROCESSES;
        message[NUMBER_AT..ROWS_AT].copy_from_slice(&(rows as u16).to_le_bytes());
        for row in message[HEAD_LENGTH..].chunks_mut(ROW_LENGTH) {
            row[2] %= 3;
        }
        message
    }

    fn read_request(&mut self, message: Vec<u8>) -> Call {
        Call::ReadRequest {
            message,
            credential: self.random.word() as u16,
        }
    }

    fn read_row(&mut self, message: Vec<u8>, at: usize, name_length: usize) -> Call {
        Call::ReadRow {
            message,
            at,
            credential: self.random.word() as u16,
            kind: self.random.word() as u8,
            name: self.random.bytes(name_length).into(),
        }
    }
}
