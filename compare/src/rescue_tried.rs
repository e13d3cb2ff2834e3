//! The trial of damaged images. Each is rescued on both sides; what the archive wrote is then held to the laws of document 02's order 8 on the archive alone,
//! whatever the model says.

use crate::call::{Answer, Bytes, Call};
use crate::images;
use crate::random::Random;
use crate::report::Singles;
use slavotuk::entries;
use slavotuk::layout::image::{NAME, ROWS_OFFSET_AT, ROW_LENGTH, WORDS_AT};
use slavotuk_model::layout::STATE_LENGTH;
use slavotuk_model::rescue::{self, Reason};

/// The trial.
pub struct Tried {
    /// What is drawn for it.
    pub random: Random,
    singles: Singles,
    /// What is written to where something is tried on the archive alone.
    state: Vec<u8>,
    again: Vec<u8>,
    /// How often what was answered.
    pub met: Met,
}

/// How often what was answered.
#[derive(Clone, Copy, Debug, Default, PartialEq, Eq)]
pub struct Met {
    /// 0.
    pub rescued: u64,
    /// Of these, images that the reader accepts: nothing was changed.
    pub unchanged: u64,
    /// 14.
    pub unusable: u64,
    /// 15.
    pub without_room: u64,
    /// Rows kept.
    pub kept: u64,
}

/// What the archive handed out: the bytes that it wrote, and its report.
struct HandedOut<'a> {
    written: &'a [u8],
    cleared: u16,
    kept: u16,
    dropped: u16,
}

impl Tried {
    /// The trial of this seed.
    pub fn new(seed: u64) -> Tried {
        Tried {
            random: Random::new(seed),
            singles: Singles::default(),
            state: vec![0; STATE_LENGTH],
            again: Vec::new(),
            met: Met::default(),
        }
    }

    /// Rescues the bytes into a buffer of so many. What the buffer and the report hold before is drawn, so that what is written and what is not are told apart.
    pub fn rescue(&mut self, bytes: &[u8], room: usize) -> Result<Answer, String> {
        let drawn = self.random.next().to_le_bytes();
        let number = |at| u16::from_le_bytes([drawn[at], drawn[at + 1]]);
        let call = Call::Rescue {
            bytes: bytes.to_vec(),
            image: vec![drawn[6]; room].into(),
            length: usize::MAX - room,
            cleared: number(0),
            kept: number(2),
            dropped: number(4),
        };
        let answer = self.singles.call(&call)?;
        let judged = match (answer.number, &answer.made) {
            (0, made) => self.judge(bytes, made),
            (14, _) => {
                self.met.unusable += 1;
                self.refused(bytes)
            }
            _ => {
                self.met.without_room += 1;
                Ok(())
            }
        };
        judged.map_err(|what| format!("{call}: {what}; both answer {answer}"))?;
        Ok(answer)
    }

    /// The same, and this number is right.
    pub fn expect(&mut self, bytes: &[u8], room: usize, right: u32) -> Result<Answer, String> {
        let answer = self.rescue(bytes, room)?;
        match answer.number == right {
            true => Ok(answer),
            false => Err(format!(
                "{} into {room} bytes: both answer {answer}, {right} is right",
                Bytes(bytes)
            )),
        }
    }

    fn accepts(&mut self, image: &[u8]) -> bool {
        entries::restore(&mut self.state, image) == 0
    }

    /// No image gets 14.
    fn refused(&mut self, bytes: &[u8]) -> Result<(), &'static str> {
        match self.accepts(bytes) {
            true => Err("the reader accepts it"),
            false => Ok(()),
        }
    }

    fn judge(&mut self, bytes: &[u8], made: &Call) -> Result<(), &'static str> {
        let Call::Rescue {
            image,
            length,
            cleared,
            kept,
            dropped,
            ..
        } = made
        else {
            return Err("another call was made");
        };
        let written = image.as_ref().get(..*length).ok_or("the length is wrong")?;
        let handed_out = HandedOut {
            written,
            cleared: *cleared,
            kept: *kept,
            dropped: *dropped,
        };
        self.met.rescued += 1;
        self.met.kept += u64::from(*kept);
        self.laws(bytes, &handed_out)
    }

    /// The output is accepted, in the layout of the input; an image stays as it is, and nothing else does; rows are kept or dropped; twice is once.
    fn laws(&mut self, bytes: &[u8], handed_out: &HandedOut) -> Result<(), &'static str> {
        let HandedOut {
            written,
            cleared,
            kept,
            dropped,
        } = *handed_out;
        if !self.accepts(written) {
            return Err("the reader refuses what was written");
        }
        if written[ROWS_OFFSET_AT..WORDS_AT] != bytes[ROWS_OFFSET_AT..WORDS_AT] {
            return Err("the layout is another");
        }
        let stated = images::stated(bytes);
        let places = dropped.count_ones() as usize;
        if usize::from(kept) + places != stated || dropped >> stated != 0 {
            return Err("kept and dropped are not the stated rows");
        }
        let accepted = self.accepts(bytes);
        self.met.unchanged += u64::from(accepted);
        if accepted != (written == bytes) || accepted && (cleared, dropped) != (0, 0) {
            return Err("what the reader accepts is not what stays as it is");
        }
        self.once_more(handed_out)
    }

    /// Rescued again, into a buffer of just that length, it is the same bytes, with an empty report.
    fn once_more(&mut self, handed_out: &HandedOut) -> Result<(), &'static str> {
        let written = handed_out.written;
        self.again.clear();
        self.again.resize(written.len(), 0xee);
        let (mut length, mut cleared, mut kept, mut dropped) = (0, 9, 99, 9);
        let number = entries::rescue(
            written,
            &mut self.again,
            &mut length,
            &mut cleared,
            &mut kept,
            &mut dropped,
        );
        let told = (number, length, cleared, kept, dropped);
        match told == (0, written.len(), 0, handed_out.kept, 0) && self.again == written {
            true => Ok(()),
            false => Err("rescued again it is not the same"),
        }
    }

    /// The line of a part. Some were rescued, and some not.
    pub fn counted(&self, what: &str) -> Result<String, String> {
        let Met {
            rescued,
            unchanged,
            unusable,
            without_room,
            ..
        } = self.met;
        let calls = self.singles.calls;
        let line = format!(
            "{what}: {calls} rescues, {rescued} answered 0, {unchanged} of them images that stay as they are, {unusable} answered 14, {without_room} answered 15"
        );
        match rescued.min(unusable + without_room) {
            0 => Err(line),
            _ => Ok(line),
        }
    }
}

/// What was lost of the images that were rescued: how many words and rows, of each kind.
#[derive(Default)]
pub struct Lost {
    cleared: u64,
    cleared_seconds: u64,
    missing: u64,
    owner: u64,
    number: u64,
    name: u64,
    /// Rows kept though one that was dropped before has their name.
    freed: u64,
    /// Images with bytes behind the stated rows.
    longer: u64,
}

impl Lost {
    /// Takes note of what the model rescues of the bytes.
    pub fn note(&mut self, bytes: &[u8]) {
        let Ok(rescued) = rescue::rescue(bytes) else {
            return;
        };
        self.cleared += rescued.cleared as u64;
        self.cleared_seconds += rescued.cleared_seconds as u64;
        for row in &rescued.dropped {
            *match row.reason {
                Reason::Missing => &mut self.missing,
                Reason::Owner => &mut self.owner,
                Reason::Number => &mut self.number,
                Reason::Name => &mut self.name,
            } += 1;
        }
        let stated = rescued.kept + rescued.dropped.len();
        self.longer += u64::from(bytes.len() > images::row_in(bytes, stated));
        let is_dropped = |place: &usize| rescued.dropped.iter().any(|row| row.place == *place);
        let whole = stated.min(images::rows(bytes));
        let (dropped, kept): (Vec<usize>, Vec<usize>) = (0..whole).partition(is_dropped);
        let name = |place: usize| &bytes[images::row_in(bytes, place)..][NAME..ROW_LENGTH];
        let follows = |kept: &&usize| {
            let mut before = dropped.iter().take_while(|place| place < kept);
            before.any(|place| name(*place) == name(**kept))
        };
        self.freed += kept.iter().filter(follows).count() as u64;
    }

    /// The line of what was lost: everything came up, and every answer did.
    pub fn judge(&self, met: &Met) -> Result<String, String> {
        let Lost {
            cleared,
            cleared_seconds,
            missing,
            owner,
            number,
            name,
            freed,
            longer,
        } = *self;
        let line = format!(
            "of these, words cleared that were not zero: {cleared}, second words {cleared_seconds}; rows dropped: {missing} missing, {owner} for their owner, {number} at number 0, {name} for their name; {freed} rows kept whose name a dropped one before had; {longer} images with bytes behind the stated rows"
        );
        let all = [
            cleared,
            cleared_seconds,
            missing,
            owner,
            number,
            name,
            freed,
            longer,
            met.rescued,
            met.unchanged,
            met.unusable,
            met.without_room,
        ];
        match all.iter().min() {
            Some(0) => Err(format!("{line}; each is wanted")),
            _ => Ok(line),
        }
    }
}

#[cfg(test)]
mod tests {
    use super::*;
    use slavotuk_model::rescue_examples::{x, y};

    /// What the archive would have handed out, held to the laws.
    fn judged(bytes: &[u8], written: &[u8], report: [u16; 3]) -> Result<(), &'static str> {
        let [cleared, kept, dropped] = report;
        let handed_out = HandedOut {
            written,
            cleared,
            kept,
            dropped,
        };
        Tried::new(1).laws(bytes, &handed_out)
    }

    #[test]
    fn the_laws_tell() {
        let (x, y) = (x().bytes(), y().bytes());
        assert_eq!(judged(&x, &x, [0, 2, 0]), Ok(()));
        assert_eq!(judged(&y, &y, [0, 2, 0]), Ok(()));
        let refused = Err("the reader refuses what was written");
        assert_eq!(judged(&x, &x[..145], [0, 2, 0]), refused);
        assert_eq!(judged(&x, &y, [0, 2, 0]), Err("the layout is another"));
        let counts = Err("kept and dropped are not the stated rows");
        for report in [[0, 1, 0], [0, 2, 1], [0, 1, 4], [0, 3, 0]] {
            assert_eq!(judged(&x, &x, report), counts);
        }
        let stays = Err("what the reader accepts is not what stays as it is");
        assert_eq!(judged(&x, &x, [1, 2, 0]), stays);
        assert_eq!(judged(&x, &x, [0, 1, 2]), stays);
        let mut other = x.clone();
        other[145] ^= 1;
        assert_eq!(judged(&x, &other, [0, 2, 0]), stays);
        let longer = [x.clone(), vec![0]].concat();
        assert_eq!(judged(&longer, &x, [0, 2, 0]), Ok(()));
        let again = Err("rescued again it is not the same");
        assert_eq!(judged(&longer, &x, [0, 1, 2]), again);
    }

    #[test]
    fn what_never_came_up_is_told() {
        assert!(Lost::default().judge(&Met::default()).is_err());
        assert!(Tried::new(1).counted("nothing").is_err());
    }
}
