//! The rescue of a damaged image, as docs/IMAGE.md has it.

use crate::{answered, entries, Image, Refusal, FULL_IMAGE_LENGTH};

/// Makes a good image of what is left of a damaged one, in the layout that the bytes state. An image stays as it is: no word is cleared, and no row dropped.
///
/// Words of credentials that are not provisioned are cleared. Of the rows, up to the stated count, those are kept that are whole, whose owner is provisioned, whose
/// next number is at least 1, and whose name no row has that was kept before; what lies behind them is ignored. [`Rescued`] says what it can't know. Refusals: message
/// where the numbers in front or the words can't be used.
///
/// ```
/// use slavotuk::{rescue, Grants, Module, Refusal};
///
/// let image = Module::fresh(&[Grants::of_word(15); 8])?.image()?;
/// assert_eq!(rescue(&image)?.image, image);
/// assert_eq!(rescue(&image[..image.len() - 1]), Err(Refusal::Message)); // a word is cut
/// # Ok::<(), Refusal>(())
/// ```
pub fn rescue(bytes: &[u8]) -> Result<Rescued, Refusal> {
    let mut image = Image {
        bytes: [0; FULL_IMAGE_LENGTH],
        length: 0,
    };
    let (mut cleared, mut kept, mut dropped) = (0, 0, 0);
    answered(entries::rescue(
        bytes,
        &mut image.bytes,
        &mut image.length,
        &mut cleared,
        &mut kept,
        &mut dropped,
    ))?;
    Ok(Rescued {
        image,
        cleared_words: cleared.into(),
        kept_rows: kept.into(),
        dropped: DroppedPlaces(dropped),
    })
}

/// What [`rescue`] made of a damaged image, and what it had to leave.
///
/// **It can't know what stood there before the damage.**
///
/// - Of two rows with one name the first is kept, whatever its number, and a number that was damaged downward is kept: numbers that were spent may be good again.
/// - A damaged word is kept too, and may grant what nobody granted.
///
/// **What to do:** restore the image, look at the words and set them anew, list the processes, kill those that were kept, and start anew.
///
/// ```
/// use slavotuk::layout::image::{row_at, NEXT};
/// use slavotuk::{rescue, Credential, Grants, Module, Name, Refusal, Session, UserClaim, VERSION_1_0};
///
/// let (session, credential) = (Session::try_from((0, 0))?, Credential::try_from(0)?);
/// let claim = UserClaim { credential, number: 0, verdict: true };
/// let mut module = Module::fresh(&[Grants::of_word(15); 8])?;
/// module.open(session)?;
/// module.select(session, VERSION_1_0)?;
/// for name in [Name([0x11; 48]), Name([0x22; 48])] {
///     module.start(session, credential, &name)?;
///     module.end(session, claim, true)?;
/// }
///
/// // the flash loses a bit, and the first process has next number 0: that is no image
/// let mut flash = module.image()?.to_vec();
/// flash[row_at(0) + NEXT] = 0;
/// assert_eq!(Module::restore(&flash), Err(Refusal::Message));
///
/// // the other one is rescued
/// let rescued = rescue(&flash)?;
/// assert_eq!((rescued.cleared_words, rescued.kept_rows), (0, 1));
/// assert_eq!(rescued.dropped_places().collect::<Vec<_>>(), [0]);
///
/// // nobody knows whether its number is the newest: it is killed, under the claim of a process that starts anew
/// let mut module = Module::restore(&rescued.image)?;
/// let kept = module.processes().next().unwrap().name;
/// assert_eq!(kept, Name([0x22; 48]));
/// module.open(session)?;
/// module.select(session, VERSION_1_0)?;
/// module.start(session, credential, &Name([0x33; 48]))?;
/// module.kill(session, claim, &kept)?;
/// assert_eq!(module.processes().len(), 1);
/// # Ok::<(), Refusal>(())
/// ```
#[derive(Clone, Debug, PartialEq, Eq)]
pub struct Rescued {
    /// The image, which [`Module::restore`](crate::Module::restore) takes.
    pub image: Image,
    /// How many words were cleared that were not zero, grant words and second words together.
    pub cleared_words: usize,
    /// How many rows were kept. With those dropped they are as many as the bytes state.
    pub kept_rows: usize,
    dropped: DroppedPlaces,
}

impl Rescued {
    /// The places of the rows that were dropped: those in the damaged image, from 0 on, also where a row is missing or cut.
    pub fn dropped_places(&self) -> DroppedPlaces {
        self.dropped.clone()
    }
}

/// The places of the rows that a [`rescue`] dropped, ascending: those of the set bits.
#[derive(Clone, Debug, PartialEq, Eq)]
pub struct DroppedPlaces(u16);

impl DroppedPlaces {
    fn take(&mut self, place: u32) -> usize {
        self.0 &= !(1 << place);
        place as usize
    }
}

impl Iterator for DroppedPlaces {
    type Item = usize;

    fn next(&mut self) -> Option<usize> {
        let first = self.0.trailing_zeros();
        (first < u16::BITS).then(|| self.take(first))
    }

    fn size_hint(&self) -> (usize, Option<usize>) {
        let left = self.0.count_ones() as usize;
        (left, Some(left))
    }
}

impl DoubleEndedIterator for DroppedPlaces {
    fn next_back(&mut self) -> Option<usize> {
        let last = (u16::BITS - 1).checked_sub(self.0.leading_zeros())?;
        Some(self.take(last))
    }
}

impl ExactSizeIterator for DroppedPlaces {}
