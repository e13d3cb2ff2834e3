//! The image of a module, as docs/IMAGE.md draws it.

use crate::{layout, Bytes};
use std::fmt;
use std::ops::Deref;

/// How many bytes the image of twelve saved processes has, the longest that there is.
pub const FULL_IMAGE_LENGTH: usize = layout::image::FULL_LENGTH;

/// What a module keeps while it is without power, as the bytes that are to be kept: its credentials, both words of each, and its saved processes with their next
/// numbers. [`Module::image`](crate::Module::image) writes one, and [`Module::restore`](crate::Module::restore) makes a module from its bytes. Where these were damaged,
/// [`rescue`](crate::rescue) makes one of what is left.
///
/// **Lost with the power** is what does not stand in it: that sessions were open, and every active process, also one that was saved before and continued.
///
/// **The flash has to return the newest.** The image changes where a process is saved or continued, a saved one killed, or words set, and where a module is made,
/// fresh or from another image: it is to be written again after each of these calls, before the answer goes out and before the next call. No other call changes it,
/// and none that is refused. From an older one, numbers that were spent since are good again, processes that were killed since stand again, and words are the
/// old ones.
///
/// **Two layouts are read.** An image of before version 3 has no second words, and makes a module in which they are zero. What a module writes is always in the new
/// layout: whoever has restored an old image writes the new one at once. A rescue keeps the layout.
///
/// ```
/// use slavotuk::{layout, Credential, Grants, Module, Name, Phase, Refusal, Session, Standing, UserClaim, VERSION_1_0};
///
/// let (session, credential, name) = (Session::try_from((0, 0))?, Credential::try_from(0)?, Name([0x11; 48]));
/// let mut module = Module::fresh(&[Grants::of_word(15); 8])?;
/// module.open(session)?;
/// module.select(session, VERSION_1_0)?;
/// module.start(session, credential, &name)?;
/// module.end(session, UserClaim { credential, number: 0, verdict: true }, true)?;
/// module.start(session, credential, &Name([0x22; 48]))?;
///
/// // the saved process is in the image, and the active one is not
/// let image = module.image()?;
/// assert_eq!(image.len(), layout::image::row_at(1));
///
/// // the board is reseated
/// let flash = image.to_vec();
/// drop(module);
/// let mut module = Module::restore(&flash)?;
/// assert_eq!(module.phase(session), Phase::Closed);
/// assert_eq!(module.processes().len(), 1);
///
/// // the process goes on with its old next number
/// module.open(session)?;
/// module.select(session, VERSION_1_0)?;
/// module.continue_saved(session, credential, &name)?;
/// assert_eq!(module.processes().next().unwrap().standing, Standing::ActiveUser { session, next_number: 1 });
/// # Ok::<(), Refusal>(())
/// ```
#[derive(Clone, PartialEq, Eq)]
pub struct Image {
    pub(crate) bytes: [u8; FULL_IMAGE_LENGTH],
    pub(crate) length: usize,
}

impl Deref for Image {
    type Target = [u8];

    fn deref(&self) -> &[u8] {
        &self.bytes[..self.length]
    }
}

impl AsRef<[u8]> for Image {
    fn as_ref(&self) -> &[u8] {
        self
    }
}

impl fmt::Debug for Image {
    fn fmt(&self, f: &mut fmt::Formatter<'_>) -> fmt::Result {
        write!(f, "Image{}", Bytes(self))
    }
}
