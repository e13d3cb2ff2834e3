//! The rescue of document 02, order 8: a good image out of damaged bytes, with a report of what was cleared and dropped. Whether bytes are an image is not asked:
//! one that the reader accepts is taken like any other.

use crate::image::{HEAD_LENGTH, OLD_HEAD_LENGTH, ROW_LENGTH};
use crate::module::{Name, CREDENTIALS, PLACES};
use crate::number::{refuse_unless, refuse_when, Number};
use crate::wire_read::Reader;

const WORDS_AT: u16 = 10;

/// What was rescued, and the report.
#[derive(Clone, Debug, PartialEq, Eq)]
pub struct Rescued {
    /// The good image, in the layout that the bytes had.
    pub image: Vec<u8>,
    /// How many grant words were cleared that were not zero.
    pub cleared: usize,
    /// The same of second words.
    pub cleared_seconds: usize,
    /// How many rows were kept.
    pub kept: usize,
    /// The stated rows that were dropped, in their order.
    pub dropped: Vec<Dropped>,
}

/// A row that was dropped.
#[derive(Clone, Copy, Debug, PartialEq, Eq)]
pub struct Dropped {
    /// Its place among the stated rows, from 0.
    pub place: usize,
    /// The first thing that was wrong with it.
    pub reason: Reason,
}

/// What can be wrong with a row.
#[derive(Clone, Copy, Debug, PartialEq, Eq)]
pub enum Reason {
    /// The bytes end before the row does.
    Missing,
    /// Its owner is not provisioned, or there is no such credential.
    Owner,
    /// Its next number is 0.
    Number,
    /// A row that was kept before has its name.
    Name,
}

/// The head of the bytes.
struct Head {
    /// The provisioned credentials.
    provisioned: Vec<usize>,
    /// How many rows are stated.
    stated: usize,
    /// Where they begin, which tells the layout.
    rows_at: usize,
}

struct Row {
    owner: u16,
    next: u16,
    name: Name,
}

/// What is rescued of the bytes; 14 where header or words can't be used.
pub fn rescue(bytes: &[u8]) -> Result<Rescued, Number> {
    let mut reader = Reader::of(bytes);
    let head = read_head(&mut reader)?;
    let mut words = read_words(&mut reader)?;
    let cleared = clear(&mut words, &head);
    let (mut seconds, mut cleared_seconds) = (None, 0);
    if head.rows_at == HEAD_LENGTH {
        let mut words = read_words(&mut reader)?;
        cleared_seconds = clear(&mut words, &head);
        seconds = Some(words);
    }
    let (mut kept, mut dropped) = (Vec::new(), Vec::new());
    for place in 0..head.stated {
        match judge(whole_row(bytes, &head, place), &head, &kept) {
            Ok(row) => kept.push(row),
            Err(reason) => dropped.push(Dropped { place, reason }),
        }
    }
    Ok(Rescued {
        image: write(&head, words, seconds, &kept),
        cleared,
        cleared_seconds,
        kept: kept.len(),
        dropped,
    })
}

fn read_head(reader: &mut Reader) -> Result<Head, Number> {
    let mask = reader.u16()?;
    refuse_when(mask > 0xff, Number::Message)?;
    refuse_unless(reader.u16()? == CREDENTIALS as u16, Number::Message)?;
    refuse_unless(reader.u16()? == WORDS_AT, Number::Message)?;
    let stated = usize::from(reader.u16()?);
    refuse_when(stated > PLACES, Number::Message)?;
    let rows_at = usize::from(reader.u16()?);
    let layouts = [OLD_HEAD_LENGTH, HEAD_LENGTH];
    refuse_unless(layouts.contains(&rows_at), Number::Message)?;
    let bit = |credential: &usize| mask >> credential & 1 == 1;
    Ok(Head {
        provisioned: (0..CREDENTIALS).filter(bit).collect(),
        stated,
        rows_at,
    })
}

/// Eight words, whatever they hold.
fn read_words(reader: &mut Reader) -> Result<[u32; CREDENTIALS], Number> {
    let mut words = [0; CREDENTIALS];
    for word in &mut words {
        *word = reader.u32()?;
    }
    Ok(words)
}

/// Clears the words of unprovisioned credentials. Tells how many of these were not zero.
fn clear(words: &mut [u32; CREDENTIALS], head: &Head) -> usize {
    let mut cleared = 0;
    for (credential, word) in words.iter_mut().enumerate() {
        if !head.provisioned.contains(&credential) {
            cleared += usize::from(*word != 0);
            *word = 0;
        }
    }
    cleared
}

/// The row at that place, where the bytes have it to its end.
fn whole_row(bytes: &[u8], head: &Head, place: usize) -> Option<Row> {
    let mut rows = bytes[head.rows_at..].chunks_exact(ROW_LENGTH);
    let mut reader = Reader::of(rows.nth(place)?);
    Some(Row {
        owner: reader.u16().ok()?,
        next: reader.u16().ok()?,
        name: reader.array().ok()?,
    })
}

/// The row, where it is to be kept behind those that were kept before.
fn judge(row: Option<Row>, head: &Head, before: &[Row]) -> Result<Row, Reason> {
    let row = row.ok_or(Reason::Missing)?;
    if !head.provisioned.contains(&usize::from(row.owner)) {
        return Err(Reason::Owner);
    }
    if row.next < 1 {
        return Err(Reason::Number);
    }
    if before.iter().any(|kept| kept.name == row.name) {
        return Err(Reason::Name);
    }
    Ok(row)
}

/// The image of what is left, with second words where the layout has them.
fn write(
    head: &Head,
    words: [u32; CREDENTIALS],
    seconds: Option<[u32; CREDENTIALS]>,
    rows: &[Row],
) -> Vec<u8> {
    let mask = head.provisioned.iter().map(|credential| 1 << credential);
    let numbers = [
        mask.sum(),
        CREDENTIALS as u16,
        WORDS_AT,
        rows.len() as u16,
        head.rows_at as u16,
    ];
    let mut image: Vec<u8> = numbers.into_iter().flat_map(u16::to_le_bytes).collect();
    for word in words.into_iter().chain(seconds.into_iter().flatten()) {
        image.extend(word.to_le_bytes());
    }
    for row in rows {
        image.extend(row.owner.to_le_bytes());
        image.extend(row.next.to_le_bytes());
        image.extend(row.name);
    }
    image
}
