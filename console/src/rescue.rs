//! A damaged image rescued from one file to another, and the report in words.

use crate::console::Trouble;
use crate::replace::Failure;
use crate::{draw, files};
use slavotuk::layout::image::ROW_LENGTH;
use slavotuk::Rescued;
use std::io::{self, Write};
use std::path::Path;

/// What an operator is told of an image that is not what was read: nobody knows what stood there before the damage.
const ADVICE: &str = "what was kept may be damaged too: restore it, set words again, list the processes, kill those in doubt and start anew";

/// Writes what can be rescued of one file to another, which may be the same, and answers when the disk has it.
pub fn rescue(from: &Path, to: &Path, out: &mut impl Write) -> Result<(), Trouble> {
    let bytes = files::read_damaged(from)?;
    match slavotuk::rescue(&bytes) {
        Ok(rescued) => {
            let written = files::write_image(to, &rescued.image);
            let (bytes, rescued) = (&bytes, &rescued);
            Report { bytes, rescued }.answer(written, out)
        }
        Err(refusal) => {
            writeln!(
                out,
                "{}\nthe header or the words of the {} bytes that were read can't be used",
                draw::answer(refusal.number()),
                bytes.len()
            )?;
            Ok(())
        }
    }
}

/// What was read, and what was rescued of it.
struct Report<'a> {
    bytes: &'a [u8],
    rescued: &'a Rescued,
}

impl Report<'_> {
    /// Says what came of it. Where the file is new, though the disk may not have it, the report is printed too: of one file for both nobody could ask for it again.
    fn answer(&self, written: Result<(), Failure>, out: &mut impl Write) -> Result<(), Trouble> {
        match written {
            Ok(()) => {
                writeln!(out, "{}", draw::answer(0))?;
                self.draw(out)?;
                Ok(())
            }
            Err(failure) => {
                if failure.is_new {
                    self.draw(out)?;
                }
                Err(failure.into())
            }
        }
    }

    fn draw(&self, out: &mut impl Write) -> io::Result<()> {
        let Rescued {
            image,
            cleared_words,
            kept_rows,
            ..
        } = self.rescued;
        let (words, rows) = (plural(*cleared_words, "word"), plural(*kept_rows, "row"));
        writeln!(
            out,
            "read {} bytes, written {}",
            self.bytes.len(),
            image.len()
        )?;
        writeln!(
            out,
            "cleared {cleared_words} nonzero {words} of unprovisioned credentials"
        )?;
        writeln!(out, "kept {kept_rows} {rows}")?;
        writeln!(out, "dropped {}", self.dropped())?;
        if self.bytes != &**image {
            writeln!(out, "{ADVICE}")?;
        }
        Ok(())
    }

    /// How many rows were dropped, and their places. Why one was that is whole isn't said: that would be the rule once more.
    fn dropped(&self) -> String {
        let places = self.rescued.dropped_places();
        let count = places.len();
        let rows = format!("{count} {}", plural(count, "row"));
        if count == 0 {
            return rows;
        }
        let cut = ranges(places.clone().filter(|place| !self.has_whole(*place)));
        let cut = match cut.as_str() {
            "" => cut,
            _ => format!("; missing or cut: {cut}"),
        };
        format!(
            "{rows}, at {} {}{cut}",
            plural(count, "place"),
            ranges(places)
        )
    }

    /// Whether the bytes reach to the end of the row at this place. The image has their layout, so its rows begin where theirs do.
    fn has_whole(&self, place: usize) -> bool {
        let Rescued {
            image, kept_rows, ..
        } = self.rescued;
        let rows_at = image.len() - ROW_LENGTH * kept_rows;
        rows_at + ROW_LENGTH * (place + 1) <= self.bytes.len()
    }
}

fn plural(count: usize, what: &str) -> String {
    let ending = if count == 1 { "" } else { "s" };
    format!("{what}{ending}")
}

fn ranges(places: impl Iterator<Item = usize>) -> String {
    draw::ranges(places.map(|place| place as u8))
}

#[cfg(test)]
mod tests {
    use super::*;
    use slavotuk::layout::image::*;
    use slavotuk::NAME_LENGTH;

    /// An image of document 01's credentials with so many rows of credential 0.
    fn image(rows: usize) -> Vec<u8> {
        let mut image = vec![3, 0, 8, 0, WORDS_AT as u8, 0];
        image.extend([rows as u8, 0, ROWS_AT as u8, 0]);
        image.resize(ROWS_AT, 0);
        image[word_at(0)] = 15;
        image[word_at(1)] = 16;
        for row in 0..rows {
            image.extend([0, 0, 1, 0]);
            image.extend([row as u8; NAME_LENGTH]);
        }
        image
    }

    /// What is printed where the file was written, or was not.
    fn told(bytes: &[u8], written: Result<(), Failure>) -> (String, Option<String>) {
        let rescued = slavotuk::rescue(bytes).unwrap();
        let report = Report {
            bytes,
            rescued: &rescued,
        };
        let mut out = Vec::new();
        let wrong = match report.answer(written, &mut out) {
            Ok(()) => None,
            Err(Trouble::Line(wrong)) => Some(wrong),
            Err(Trouble::Output(error)) => panic!("{error}"),
        };
        (String::from_utf8(out).unwrap(), wrong)
    }

    fn dropped(bytes: &[u8]) -> String {
        let (out, _) = told(bytes, Ok(()));
        let line = out.lines().find_map(|line| line.strip_prefix("dropped "));
        line.unwrap().into()
    }

    #[test]
    fn places_are_said_and_which_rows_are_not_whole() {
        let whole = image(5);
        assert_eq!(dropped(&whole), "0 rows");
        assert_eq!(
            dropped(&whole[..row_at(5) - 1]),
            "1 row, at place 4; missing or cut: 4"
        );
        assert_eq!(
            dropped(&whole[..row_at(2)]),
            "3 rows, at places 2 to 4; missing or cut: 2 to 4"
        );
        let mut damaged = whole.clone();
        damaged[row_at(1) + NEXT] = 0;
        assert_eq!(dropped(&damaged), "1 row, at place 1");
        assert_eq!(
            dropped(&damaged[..row_at(3) + 1]),
            "3 rows, at places 1, 3, 4; missing or cut: 3, 4"
        );
        damaged[ROW_COUNT_AT] = 12;
        assert_eq!(
            dropped(&damaged),
            "8 rows, at places 1, 5 to 11; missing or cut: 5 to 11"
        );
    }

    #[test]
    fn an_old_image_has_its_rows_where_they_are() {
        let mut old = [&image(2)[..OLD_ROWS_AT], &image(2)[ROWS_AT..]].concat();
        old[ROWS_OFFSET_AT] = OLD_ROWS_AT as u8;
        assert_eq!(dropped(&old), "0 rows");
        let mut damaged = old.clone();
        damaged[old_row_at(1) + NEXT] = 0;
        assert_eq!(dropped(&damaged), "1 row, at place 1");
        old.pop();
        assert_eq!(dropped(&old), "1 row, at place 1; missing or cut: 1");
    }

    #[test]
    fn advice_is_given_where_the_image_is_not_what_was_read() {
        let is_advised = |bytes: &[u8]| told(bytes, Ok(())).0.ends_with(&format!("{ADVICE}\n"));
        let whole = image(2);
        assert!(!is_advised(&whole));
        assert!(is_advised(&whole[..row_at(2) - 1]));
        // a count that was damaged downward: nothing is dropped, and a row is lost
        let mut fewer = whole.clone();
        fewer[ROW_COUNT_AT] = 1;
        assert_eq!(dropped(&fewer), "0 rows");
        assert!(is_advised(&fewer));
        let mut stray = whole;
        stray[word_at(2)] = 1;
        assert!(is_advised(&stray));
    }

    #[test]
    fn a_new_file_that_the_disk_may_not_have_gets_the_report_and_no_answer() {
        let cut = &image(2)[..row_at(1)];
        let failed = |is_new| {
            let why = "no".into();
            told(cut, Err(Failure { why, is_new }))
        };
        let (done, wrong) = told(cut, Ok(()));
        assert_eq!(wrong, None);
        let report = done.strip_prefix("0 done\n").unwrap();
        assert_eq!(failed(true), (report.into(), Some("no".into())));
        assert_eq!(failed(false), (String::new(), Some("no".into())));
    }
}
