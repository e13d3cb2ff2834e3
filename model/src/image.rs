//! The image of document 02, order 2, in the layout of order 7: what comes through a power cycle. Its numbers are little endian. The layout before order 7, which
//! has no second words, is still read.

use crate::module::{Credential, Kind, Module, Name, Process, CREDENTIALS, PLACES};
use crate::number::{refuse_unless, refuse_when, Number};
use crate::wire_read::Reader;
use std::collections::HashSet;

/// Bytes before the rows.
pub const HEAD_LENGTH: usize = 74;
/// Bytes before the rows in the old layout.
pub const OLD_HEAD_LENGTH: usize = 42;
/// Bytes of a row.
pub const ROW_LENGTH: usize = 52;
/// Bytes of an image with a row for each place of the table.
pub const LONGEST: usize = HEAD_LENGTH + ROW_LENGTH * PLACES;

const WORDS_AT: u16 = 10;
const ROWS_AT: u16 = 74;
const OLD_ROWS_AT: u16 = 42;

/// The image of a module: its credentials, their words, their second words, and the saved processes only, in table order. It has the new layout always.
pub fn write(module: &Module) -> Vec<u8> {
    let rows: Vec<(usize, u16, Name)> = module
        .processes
        .iter()
        .filter_map(|process| match process.kind {
            Kind::SavedUser { next } => Some((process.credential, next, process.name)),
            Kind::ActiveUser { .. } | Kind::ActiveElevation { .. } => None,
        })
        .collect();
    let mut mask = 0u16;
    for (credential, held) in module.credentials.iter().enumerate() {
        mask |= u16::from(held.provisioned) << credential;
    }
    let head = [
        mask,
        CREDENTIALS as u16,
        WORDS_AT,
        rows.len() as u16,
        ROWS_AT,
    ];
    let mut image: Vec<u8> = head.into_iter().flat_map(u16::to_le_bytes).collect();
    for credential in module.credentials {
        image.extend(credential.word.to_le_bytes());
    }
    for credential in module.credentials {
        image.extend(credential.second.to_le_bytes());
    }
    for (credential, next, name) in rows {
        image.extend((credential as u16).to_le_bytes());
        image.extend(next.to_le_bytes());
        image.extend(name);
    }
    image
}

/// The module that an image makes: a fresh one with the image's credentials and words, all sessions of both ports closed, and its processes saved ones in the image's order.
/// The offset of the rows tells the layout; second words are zero in the old one. 14 for every other bytes.
pub fn read(image: &[u8]) -> Result<Module, Number> {
    let mut reader = Reader::of(image);
    let mask = reader.u16()?;
    refuse_when(mask > 0xff, Number::Message)?;
    refuse_unless(reader.u16()? == CREDENTIALS as u16, Number::Message)?;
    refuse_unless(reader.u16()? == WORDS_AT, Number::Message)?;
    let count = reader.u16()?;
    refuse_when(usize::from(count) > PLACES, Number::Message)?;
    let rows_at = reader.u16()?;
    let words = read_words(&mut reader, mask)?;
    let seconds = match rows_at {
        ROWS_AT => read_words(&mut reader, mask)?,
        OLD_ROWS_AT => [0; CREDENTIALS],
        _ => return Err(Number::Message),
    };
    let mut credentials = [Credential::UNPROVISIONED; CREDENTIALS];
    for (number, credential) in credentials.iter_mut().enumerate() {
        *credential = Credential {
            provisioned: is_in(mask, number),
            word: words[number],
            second: seconds[number],
        };
    }
    let mut module = Module::fresh(credentials);
    let mut names = HashSet::new();
    for _ in 0..count {
        let process = read_row(&mut reader, &module)?;
        refuse_unless(names.insert(process.name), Number::Message)?;
        module.processes.push(process);
    }
    reader.end()?;
    Ok(module)
}

/// Eight words, zero where unprovisioned.
fn read_words(reader: &mut Reader, mask: u16) -> Result<[u32; CREDENTIALS], Number> {
    let mut words = [0; CREDENTIALS];
    for (number, word) in words.iter_mut().enumerate() {
        *word = reader.u32()?;
        refuse_unless(is_in(mask, number) || *word == 0, Number::Message)?;
    }
    Ok(words)
}

/// Whether the mask has a credential as provisioned.
fn is_in(mask: u16, credential: usize) -> bool {
    mask & (1 << credential) != 0
}

/// A row: its owner is provisioned, and its next number is at least 1.
fn read_row(reader: &mut Reader, module: &Module) -> Result<Process, Number> {
    let credential = usize::from(reader.u16()?);
    let owner = module.credentials.get(credential).ok_or(Number::Message)?;
    refuse_unless(owner.provisioned, Number::Message)?;
    let next = reader.u16()?;
    refuse_when(next == 0, Number::Message)?;
    Ok(Process::saved(credential, next, reader.array()?))
}

#[cfg(test)]
mod tests {
    use super::*;
    use crate::entries::{self, Lent};
    use crate::layout::{self, STATE_LENGTH};
    use crate::module::Phase;

    /// What is before the rows: of these credentials and so many rows, with words 15 and 16 for 0 and 1, and second words zero.
    fn head(mask: u8, count: u8) -> Vec<u8> {
        let mut image = vec![mask, 0, 8, 0, 10, 0, count, 0, 74, 0];
        image.extend([15, 0, 0, 0, 16, 0, 0, 0]);
        image.resize(HEAD_LENGTH, 0);
        image
    }

    /// The image of docs/STATE.md's example: credentials 0 and 1 with words 15 and 16, the second word of 1 the same, and of its three processes the saved one, Q of
    /// credential 1 at 300.
    fn example() -> Vec<u8> {
        let mut image = head(3, 1);
        image[46] = 16;
        image.extend([1, 0, 0x2c, 1]);
        image.extend([0; 16]);
        image.extend([0x22; 32]);
        image
    }

    /// As many rows, of credential 0 and with different names.
    fn with_rows(count: u8) -> Vec<u8> {
        let mut image = head(3, count);
        for row in 0..count {
            image.extend([0, 0, 1, 0]);
            image.extend([row; 48]);
        }
        image
    }

    /// The same in the old layout.
    fn old(image: &[u8]) -> Vec<u8> {
        let mut old = image[..OLD_HEAD_LENGTH].to_vec();
        old[8] = 42;
        old.extend(&image[HEAD_LENGTH..]);
        old
    }

    fn restored(image: &[u8]) -> Module {
        read(image).expect("it is an image")
    }

    /// That each of these changes to a byte makes no image of it.
    fn refuses(image: &[u8], changes: &[(usize, u8)]) {
        for (at, to) in changes {
            let mut changed = image.to_vec();
            assert_ne!(changed[*at], *to, "at {at}");
            changed[*at] = *to;
            assert_eq!(read(&changed), Err(Number::Message), "{to} at {at}");
        }
    }

    #[test]
    fn the_example_is_written_and_read() {
        let lent = layout::read(&layout::example()).expect("the example holds a state");
        assert_eq!(write(&lent), example());
        let module = restored(&example());
        assert_eq!(module.sessions, [[Phase::Closed; 4]; 2]);
        assert_eq!(module.credentials, lent.credentials);
        assert_eq!(module.processes, [lent.processes[1]]);
        assert_eq!(write(&module), example());
    }

    #[test]
    fn second_words_come_through() {
        let mut credentials = [Credential::UNPROVISIONED; CREDENTIALS];
        credentials[0] = Credential::with(15, 0x0102_0304);
        credentials[7] = Credential::with(0, 0xa0b0_c0d0);
        let module = Module::fresh(credentials);
        let image = write(&module);
        assert_eq!(image[42..46], [4, 3, 2, 1]);
        assert_eq!(image[70..], [0xd0, 0xc0, 0xb0, 0xa0]);
        assert_eq!(restored(&image), module);
    }

    #[test]
    fn an_old_image_is_read_and_its_new_one_written() {
        for count in 0..=12 {
            let new = with_rows(count);
            let module = restored(&old(&new));
            assert_eq!(module, restored(&new));
            assert_eq!(write(&module), new);
        }
        assert_eq!(read(&old(&with_rows(13))), Err(Number::Message));
    }

    #[test]
    fn rows_keep_their_order_up_to_twelve() {
        for count in 0..=12 {
            let image = with_rows(count);
            let module = restored(&image);
            let names: Vec<u8> = module.processes.iter().map(|row| row.name[0]).collect();
            assert_eq!(names, (0..count).collect::<Vec<_>>());
            assert_eq!(write(&module), image);
        }
        assert_eq!(read(&with_rows(13)), Err(Number::Message));
        assert_eq!(with_rows(12).len(), LONGEST);
    }

    #[test]
    fn what_is_no_image_is_refused() {
        let of_the_head = [
            (0, 2),
            (0, 1),
            (1, 1),
            (1, 0x80),
            (2, 7),
            (2, 16),
            (3, 1),
            (4, 11),
            (5, 1),
            (6, 0),
            (6, 2),
            (6, 13),
            (7, 1),
            (8, 41),
            (8, 43),
            (8, 73),
            (8, 75),
            (9, 1),
            (18, 1),
            (41, 0x80),
        ];
        let row_at = |at| [(at, 2), (at, 8), (at + 1, 1)];
        refuses(&example(), &of_the_head);
        refuses(&example(), &row_at(HEAD_LENGTH));
        refuses(&example(), &[(8, 42), (50, 1), (73, 0x80)]);
        refuses(&old(&example()), &of_the_head);
        refuses(&old(&example()), &row_at(OLD_HEAD_LENGTH));
        refuses(&old(&example()), &[(8, 74)]);
        let mut at_number_0 = example();
        at_number_0[76..78].fill(0);
        assert_eq!(read(&at_number_0), Err(Number::Message));
        assert_eq!(read(&old(&at_number_0)), Err(Number::Message));
        let mut equal_names = with_rows(3);
        equal_names[HEAD_LENGTH + 2 * ROW_LENGTH + 4..].fill(0);
        assert_eq!(read(&equal_names), Err(Number::Message));
        assert_eq!(read(&old(&equal_names)), Err(Number::Message));
        equal_names[HEAD_LENGTH + 3 * ROW_LENGTH - 1] = 9;
        assert_eq!(write(&restored(&equal_names)), equal_names);
    }

    #[test]
    fn one_length_is_right() {
        for image in [example(), old(&example())] {
            let longer = [image.clone(), vec![0; 2 * ROW_LENGTH]].concat();
            for length in 0..longer.len() {
                let is_image = length == image.len();
                assert_eq!(read(&longer[..length]).is_ok(), is_image, "{length}");
            }
        }
    }

    #[test]
    fn the_writers_answers() {
        let mut lent = Lent::of(&layout::example());
        let before = lent.clone();
        let exact = example().len();
        for room in [0, 1, HEAD_LENGTH, exact - 1] {
            let (mut buffer, mut length) = (vec![0xee; room], 9);
            assert_eq!(entries::image(&mut lent, &mut buffer, &mut length), 15);
            assert_eq!((buffer, length), (vec![0xee; room], 0));
        }
        for more in [0, 1, 60] {
            let (mut buffer, mut length) = (vec![0xee; exact + more], 9);
            assert_eq!(entries::image(&mut lent, &mut buffer, &mut length), 0);
            assert_eq!(length, exact);
            assert_eq!(buffer, [example(), vec![0xee; more]].concat());
        }
        assert_eq!(lent, before);
        let (mut buffer, mut length) = ([0xee; 9], 9);
        let mut other = Lent::of(&[0xa5; STATE_LENGTH]);
        assert_eq!(entries::image(&mut other, &mut buffer, &mut length), 1);
        assert_eq!((buffer, length), ([0xee; 9], 0));
    }

    #[test]
    fn the_restorers_answers() {
        for lent in [layout::example(), vec![0xa5; STATE_LENGTH]] {
            let mut state = Lent::of(&lent);
            assert_eq!(entries::restore(&mut state, &example()[1..]), 14);
            assert_eq!(state.bytes(), lent);
            assert_eq!(entries::restore(&mut state, &example()), 0);
            assert_eq!(state, Lent::State(restored(&example())));
        }
        for length in [0, STATE_LENGTH - 1, STATE_LENGTH + 1] {
            let mut state = Lent::of(&vec![0xa5; length]);
            assert_eq!(entries::restore(&mut state, &example()), 1);
            assert_eq!(entries::restore(&mut state, &[]), 1);
            assert_eq!(state.bytes(), vec![0xa5; length]);
        }
    }
}
