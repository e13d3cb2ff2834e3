//! The readers and writers of all messages of 004 clause 9.2, beside the model's.

use crate::wire::Wire;
use crate::wire_tried::Tried;
use crate::{wire_bounds, wire_random};
use std::iter;

type Part = fn(&mut Tried) -> Result<(), String>;

#[rustfmt::skip]
const PARTS: [(&str, Part); 9] = [
    ("every byte of the examples of all messages at every value", wire_bounds::every_byte),
    ("the examples at every length", wire_bounds::every_length),
    ("the examples written into every room", wire_bounds::every_room),
    ("every value of the examples about each power of two", wire_bounds::every_value),
    ("every code with every first value", wire_bounds::every_code),
    ("0 to 8 places for values", wire_bounds::every_number_of_places),
    ("lists of 0 to 65535 parts", wire_bounds::counts),
    ("long data, and sizes up to 4 bytes full", wire_bounds::long_data),
    ("pieces at random", wire_bounds::pieces),
];

/// Every test, with at least so many messages drawn: a line for each, made as it is asked for.
pub fn test(
    side: &dyn Wire,
    messages: usize,
    seed: u64,
) -> impl Iterator<Item = Result<String, String>> + '_ {
    let parts = PARTS.iter().map(move |(name, part)| {
        let mut tried = Tried::of(side, seed);
        let outcome = part(&mut tried);
        match outcome {
            Ok(()) => Ok(format!("{name}: {} calls", tried.beside.calls)),
            Err(what) => Err(format!("{name}: {what}")),
        }
    });
    let drawn = iter::once_with(move || wire_random::test(side, messages, seed));
    parts.chain(drawn.flatten())
}

#[cfg(test)]
mod tests {
    use super::*;
    use crate::wire::Model;
    use slavotuk_model::wire::code;
    use slavotuk_model::wire_entries::{
        piece, read_message, read_piece, write_message, write_piece, VALUES,
    };

    /// Enough for each part; the tests of the module draw millions.
    const MESSAGES: usize = 10_000;

    #[test]
    fn the_model_does_not_differ_from_itself() {
        for outcome in test(&Model, MESSAGES, 1) {
            assert!(outcome.is_ok(), "{outcome:?}");
        }
    }

    type Writer<T> = fn(&mut [u8], T, &[u64], &[u8], &mut usize) -> u32;

    /// The model, with an entry of its own.
    struct Broken {
        read_message: fn(&[u8], &mut [u64], &mut usize) -> u32,
        write_message: Writer<u8>,
        read_piece: fn(&[u8], u32, &mut [u64], &mut usize, &mut usize) -> u32,
        write_piece: Writer<u32>,
    }

    const SOUND: Broken = Broken {
        read_message,
        write_message,
        read_piece,
        write_piece,
    };

    #[rustfmt::skip]
    impl Wire for Broken {
        fn read_message(&self, message: &[u8], values: &mut [u64], rest: &mut usize) -> u32 {
            (self.read_message)(message, values, rest)
        }

        fn write_message(&self, buffer: &mut [u8], code: u8, values: &[u64], rest: &[u8], written: &mut usize) -> u32 {
            (self.write_message)(buffer, code, values, rest, written)
        }

        fn read_piece(&self, bytes: &[u8], kind: u32, values: &mut [u64], rest: &mut usize, next: &mut usize) -> u32 {
            (self.read_piece)(bytes, kind, values, rest, next)
        }

        fn write_piece(&self, buffer: &mut [u8], kind: u32, values: &[u64], rest: &[u8], written: &mut usize) -> u32 {
            (self.write_piece)(buffer, kind, values, rest, written)
        }
    }

    fn assert_found(broken: Broken) {
        assert!(test(&broken, MESSAGES, 1).any(|outcome| outcome.is_err()));
    }

    /// Changes the values that are handed out.
    fn handing_out(
        change: impl Fn(&mut [u64]),
        message: &[u8],
        values: &mut [u64],
        rest: &mut usize,
    ) -> u32 {
        let number = read_message(message, values, rest);
        if number == 0 {
            change(values);
        }
        number
    }

    #[test]
    fn two_fields_swapped() {
        let read_message = |message: &[u8], values: &mut [u64], rest: &mut usize| {
            handing_out(|values| values.swap(0, 1), message, values, rest)
        };
        assert_found(Broken {
            read_message,
            ..SOUND
        });
    }

    #[test]
    fn a_field_of_two_bytes_read_as_one() {
        let read_message = |message: &[u8], values: &mut [u64], rest: &mut usize| {
            handing_out(|values| values[1] %= 256, message, values, rest)
        };
        assert_found(Broken {
            read_message,
            ..SOUND
        });
    }

    #[test]
    fn the_high_byte_first() {
        let read_message = |message: &[u8], values: &mut [u64], rest: &mut usize| {
            handing_out(
                |values| values[2] = (values[2] as u16).swap_bytes().into(),
                message,
                values,
                rest,
            )
        };
        assert_found(Broken {
            read_message,
            ..SOUND
        });
    }

    #[test]
    fn a_longer_message_taken() {
        let read_message = |message: &[u8], values: &mut [u64], rest: &mut usize| {
            let shorter = &message[..message.len().saturating_sub(1)];
            match read_message(message, values, rest) {
                14 => read_message(shorter, values, rest),
                number => number,
            }
        };
        assert_found(Broken {
            read_message,
            ..SOUND
        });
    }

    #[test]
    fn a_count_not_tested_against_the_length() {
        let read_message = |message: &[u8], values: &mut [u64], rest: &mut usize| match (
            read_message(message, values, rest),
            message,
        ) {
            (14, [code::AUTH_PROCESSES, _, low, high, ..]) if values.len() == VALUES => {
                values.fill(0);
                values[0] = u16::from_le_bytes([*low, *high]).into();
                *rest = 4;
                0
            }
            (number, _) => number,
        };
        assert_found(Broken {
            read_message,
            ..SOUND
        });
    }

    #[test]
    fn a_list_read_one_part_short() {
        let read_message = |message: &[u8], values: &mut [u64], rest: &mut usize| {
            let with_a_part = [message, &[0, 0]].concat();
            match (read_message(message, values, rest), message.first()) {
                (14, Some(&code::AUTH_VERSION)) => read_message(&with_a_part, values, rest),
                (number, _) => number,
            }
        };
        assert_found(Broken {
            read_message,
            ..SOUND
        });
    }

    #[test]
    fn data_taken_for_an_error_that_has_none() {
        let read_message = |message: &[u8], values: &mut [u64], rest: &mut usize| match (
            read_message(message, values, rest),
            message,
        ) {
            (14, [code::AUTH_ERROR, _, 0x03, 0x00, _, _]) => {
                read_message(&message[..4], values, rest)
            }
            (number, _) => number,
        };
        assert_found(Broken {
            read_message,
            ..SOUND
        });
    }

    #[test]
    fn a_refused_reader_that_hands_out() {
        let read_message = |message: &[u8], values: &mut [u64], rest: &mut usize| {
            let number = read_message(message, values, rest);
            if number == 14 {
                values.fill(0);
            }
            number
        };
        assert_found(Broken {
            read_message,
            ..SOUND
        });
    }

    #[test]
    fn a_reserved_byte_not_written_zero() {
        let write_message =
            |buffer: &mut [u8], code, values: &[u64], rest: &[u8], written: &mut usize| {
                let held = buffer.get(1).copied();
                let number = write_message(buffer, code, values, rest, written);
                if let Some(held) = held {
                    buffer[1] = held;
                }
                number
            };
        assert_found(Broken {
            write_message,
            ..SOUND
        });
    }

    #[test]
    fn a_refused_writer_that_writes_its_head() {
        let write_message =
            |buffer: &mut [u8], code, values: &[u64], rest: &[u8], written: &mut usize| {
                let number = write_message(buffer, code, values, rest, written);
                if let (14, [first, ..]) = (number, buffer) {
                    *first = code;
                }
                number
            };
        assert_found(Broken {
            write_message,
            ..SOUND
        });
    }

    #[test]
    fn a_writer_that_clears_what_is_behind_the_message() {
        let write_message =
            |buffer: &mut [u8], code, values: &[u64], rest: &[u8], written: &mut usize| {
                let number = write_message(buffer, code, values, rest, written);
                if number == 0 {
                    buffer[*written..].fill(0);
                }
                number
            };
        assert_found(Broken {
            write_message,
            ..SOUND
        });
    }

    #[test]
    fn the_values_asked_before_the_room() {
        let write_message =
            |buffer: &mut [u8], code, values: &[u64], rest: &[u8], written: &mut usize| {
                let mut enough = vec![0; rest.len() + 40];
                match write_message(&mut enough, code, values, rest, &mut 0) {
                    14 => 14,
                    _ => write_message(buffer, code, values, rest, written),
                }
            };
        assert_found(Broken {
            write_message,
            ..SOUND
        });
    }

    #[test]
    fn a_piece_that_ends_a_byte_late() {
        let read_piece =
            |bytes: &[u8], kind, values: &mut [u64], rest: &mut usize, next: &mut usize| {
                let number = read_piece(bytes, kind, values, rest, next);
                *next += usize::from(
                    number == 0 && kind == piece::RESET_DATA_TYPE && *next < bytes.len(),
                );
                number
            };
        assert_found(Broken {
            read_piece,
            ..SOUND
        });
    }

    #[test]
    fn a_piece_with_a_reserved_type() {
        let write_piece =
            |buffer: &mut [u8], kind, values: &[u64], rest: &[u8], written: &mut usize| {
                let number = write_piece(buffer, kind, values, rest, written);
                match (number, kind, values) {
                    (14, piece::AUTH_PROC_INFO, [credential, 3..=255, _, _, _, _, _]) => {
                        write_piece(
                            buffer,
                            kind,
                            &[*credential, 0, 0, 0, 0, 0, 0],
                            rest,
                            written,
                        )
                    }
                    _ => number,
                }
            };
        assert_found(Broken {
            write_piece,
            ..SOUND
        });
    }
}
