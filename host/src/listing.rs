//! The listing messages, GET_AUTH_PROCESSES and AUTH_PROCESSES, as docs/WIRE.md draws them.

use crate::layout::listing::{self, NAME, OWNER, ROWS_AT, ROW_LENGTH, TYPE};
use crate::{answered, entries, Credential, Kind, Name, Refusal, Wanted, NAME_LENGTH};
use std::fmt;

/// How many bytes a request has.
pub const REQUEST_LENGTH: usize = listing::REQUEST_LENGTH;

/// How many bytes the listing of twelve processes has, the longest that a module writes.
pub const FULL_LISTING_LENGTH: usize = listing::FULL_LENGTH;

/// What stands in a message for all credentials.
const ALL_CREDENTIALS: u16 = 65535;

/// A credential as a message has it: any number of 16 bits. Messages come from other boards too, so it need not be one of this module's.
///
/// ```
/// use slavotuk::{Credential, Wanted, WireCredential};
///
/// let credential = Credential::new(7).unwrap();
/// assert_eq!(WireCredential::from(credential).credential(), Some(credential));
/// assert_eq!(WireCredential(8).credential(), None);
/// assert_eq!(WireCredential(65535).wanted(), Some(Wanted::All));
/// ```
#[derive(Clone, Copy, Debug, PartialEq, Eq, PartialOrd, Ord, Hash)]
pub struct WireCredential(
    /// The number.
    pub u16,
);

impl WireCredential {
    /// The credential with this number, or `None` where the module has none.
    pub fn credential(self) -> Option<Credential> {
        Credential::try_from(u32::from(self.0)).ok()
    }

    /// What a request with this number wants, or `None` where the module has no such credential.
    pub fn wanted(self) -> Option<Wanted> {
        if self.0 == ALL_CREDENTIALS {
            return Some(Wanted::All);
        }
        self.credential().map(Wanted::Of)
    }
}

impl From<Credential> for WireCredential {
    fn from(credential: Credential) -> WireCredential {
        WireCredential(credential.number().into())
    }
}

impl From<Wanted> for WireCredential {
    fn from(wanted: Wanted) -> WireCredential {
        match wanted {
            Wanted::All => WireCredential(ALL_CREDENTIALS),
            Wanted::Of(credential) => credential.into(),
        }
    }
}

impl fmt::Display for WireCredential {
    fn fmt(&self, f: &mut fmt::Formatter<'_>) -> fmt::Result {
        self.0.fmt(f)
    }
}

/// Reads GET_AUTH_PROCESSES. Refusals: message.
///
/// ```
/// use slavotuk::{read_request, Refusal, WireCredential};
///
/// assert_eq!(read_request(&[0x8e, 0, 1, 0]), Ok(WireCredential(1)));
/// assert_eq!(read_request(&[0x8e, 0, 1]), Err(Refusal::Message));
/// ```
pub fn read_request(message: &[u8]) -> Result<WireCredential, Refusal> {
    let mut credential = 0;
    answered(entries::read_request(message, &mut credential))?;
    Ok(WireCredential(credential))
}

/// Writes GET_AUTH_PROCESSES to the front of the buffer, and gives the message; later bytes stay as they were. Refusals: room.
///
/// ```
/// use slavotuk::{write_request, Refusal, Wanted, WireCredential};
///
/// let mut buffer = [0; 4];
/// assert_eq!(write_request(&mut buffer, Wanted::All)?, [0x8e, 0, 0xff, 0xff]);
/// assert_eq!(write_request(&mut buffer[..3], WireCredential(8)), Err(Refusal::Room));
/// # Ok::<(), Refusal>(())
/// ```
pub fn write_request(
    buffer: &mut [u8],
    credential: impl Into<WireCredential>,
) -> Result<&[u8], Refusal> {
    answered(entries::write_request(buffer, credential.into().0))?;
    buffer.get(..REQUEST_LENGTH).ok_or(Refusal::Room)
}

/// One process in a listing.
#[derive(Clone, Copy, Debug, PartialEq, Eq, Hash)]
pub struct Row {
    /// Whose process it is.
    pub credential: WireCredential,
    /// Its type.
    pub kind: Kind,
    /// Its name.
    pub name: Name,
}

/// An AUTH_PROCESSES message that was read: its bytes fit the layout.
///
/// ```
/// use slavotuk::{Kind, Listing, Name, Refusal};
///
/// let mut message = vec![0x0e, 0, 1, 0, 5, 0, 2];
/// message.extend([0x11; 48]);
/// let listing = Listing::read(&message)?;
/// assert_eq!(listing.rows().len(), 1);
/// let row = listing.row(0)?;
/// assert_eq!((row.credential.0, row.kind, row.name), (5, Kind::SavedUser, Name([0x11; 48])));
/// assert_eq!(listing.row(1), Err(Refusal::Argument));
///
/// message[6] = 3; // no such type
/// assert_eq!(Listing::read(&message), Err(Refusal::Message));
/// # Ok::<(), Refusal>(())
/// ```
#[derive(Clone, Copy, Debug, PartialEq, Eq)]
pub struct Listing<'a> {
    message: &'a [u8],
}

impl<'a> Listing<'a> {
    /// Reads a message of any count. Refusals: message.
    pub fn read(message: &'a [u8]) -> Result<Listing<'a>, Refusal> {
        let mut count = 0;
        answered(entries::read_count(message, &mut count))?;
        Ok(Listing { message })
    }

    /// The whole message.
    pub fn bytes(&self) -> &'a [u8] {
        self.message
    }

    /// Its rows, in the order of the process table.
    pub fn rows(&self) -> Rows<'a> {
        let rows = self.message.get(ROWS_AT..).unwrap_or_default();
        Rows(rows.chunks_exact(ROW_LENGTH))
    }

    /// The row at a place. Refusals: argument at or past the count.
    pub fn row(&self, at: usize) -> Result<Row, Refusal> {
        self.rows().nth(at).ok_or(Refusal::Argument)
    }
}

impl<'a> IntoIterator for Listing<'a> {
    type Item = Row;
    type IntoIter = Rows<'a>;

    fn into_iter(self) -> Rows<'a> {
        self.rows()
    }
}

/// The rows of a [`Listing`].
#[derive(Clone, Debug)]
pub struct Rows<'a>(std::slice::ChunksExact<'a, u8>);

/// A row where it lies. The whole message was tested when the listing was read; the entry that reads a row would test it again for each.
fn row_of(bytes: &[u8]) -> Row {
    let mut name = [0; NAME_LENGTH];
    name.copy_from_slice(&bytes[NAME..]);
    Row {
        credential: WireCredential(u16::from_le_bytes([bytes[OWNER], bytes[OWNER + 1]])),
        kind: match bytes[TYPE] {
            0 => Kind::ActiveUser,
            1 => Kind::ActiveElevation,
            _ => Kind::SavedUser,
        },
        name: Name(name),
    }
}

impl Iterator for Rows<'_> {
    type Item = Row;

    fn next(&mut self) -> Option<Row> {
        self.0.next().map(row_of)
    }

    fn size_hint(&self) -> (usize, Option<usize>) {
        self.0.size_hint()
    }

    fn nth(&mut self, n: usize) -> Option<Row> {
        self.0.nth(n).map(row_of)
    }
}

impl DoubleEndedIterator for Rows<'_> {
    fn next_back(&mut self) -> Option<Row> {
        self.0.next_back().map(row_of)
    }
}

impl ExactSizeIterator for Rows<'_> {}
