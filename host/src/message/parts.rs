//! Lists, and the parts that they have.

use super::{values, Fields, Values};
use crate::{answered, entries, Kind, Name, Refusal, WireCredential, NAME_LENGTH};
use std::fmt;
use std::marker::PhantomData;

mod hidden {
    use crate::Refusal;

    /// How a part stands in a list: as one piece or as two.
    pub trait Pieces<'a>: Sized {
        /// The part at the front, and what lies behind it.
        fn take(bytes: &'a [u8]) -> Result<(Self, &'a [u8]), Refusal>;

        /// Writes the part to the front, and gives its length.
        fn put(&self, buffer: &mut [u8]) -> Result<usize, Refusal>;
    }
}
use hidden::Pieces;

/// A part of a [`List`]: [`VersionNumberEntry`], [`AuthProcInfo`], [`Svh`], [`Policy`] or [`ResetElement`].
pub trait Part<'a>: Pieces<'a> {}

impl<'a, P: Pieces<'a>> Part<'a> for P {}

/// A list of parts one behind the other, where they lie: in a message that was read, or in a buffer that they were written to.
///
/// ```
/// use slavotuk::message::{List, ResetElement, Svh};
/// use slavotuk::Refusal;
///
/// let owner = Svh { id: 3, vendor_id: &[0xde, 0xc1] };
/// let element = ResetElement { sv_reset_data_type_owner: owner, sv_reset_data_type: &[9] };
/// let mut buffer = [0; 12];
/// let list = List::write([element, element], &mut buffer)?;
/// assert_eq!(list.bytes(), [3, 2, 0xde, 0xc1, 1, 9, 3, 2, 0xde, 0xc1, 1, 9]);
/// assert_eq!((list.len(), list.part(1), list.part(2)), (2, Ok(element), Err(Refusal::Argument)));
/// assert_eq!(List::write([element, element], &mut [0; 11]), Err(Refusal::Room));
/// # Ok::<(), Refusal>(())
/// ```
#[derive(Clone, Copy, PartialEq, Eq)]
pub struct List<'a, P> {
    count: usize,
    bytes: &'a [u8],
    part: PhantomData<P>,
}

impl<'a, P> List<'a, P> {
    /// What follows the fields of a message that was read, with its count.
    pub(super) fn of(fields: Fields<'a>, count_at: usize) -> List<'a, P> {
        List {
            count: fields.u16(count_at).into(),
            bytes: fields.rest,
            part: PhantomData,
        }
    }

    /// How many parts it has.
    pub fn len(&self) -> usize {
        self.count
    }

    /// Whether it has none.
    pub fn is_empty(&self) -> bool {
        self.count == 0
    }

    /// The parts' bytes.
    pub fn bytes(&self) -> &'a [u8] {
        self.bytes
    }

    /// The parts, in their order. To go over all of them takes time in proportion to their bytes.
    pub fn parts(&self) -> Parts<'a, P> {
        Parts {
            left: self.count,
            bytes: self.bytes,
            part: PhantomData,
        }
    }
}

impl<P> Default for List<'_, P> {
    /// A list of no part.
    fn default() -> Self {
        List {
            count: 0,
            bytes: &[],
            part: PhantomData,
        }
    }
}

impl<'a, P: Part<'a>> List<'a, P> {
    /// Writes parts to the front of a buffer, and gives the list that they are. Refusals: those of the first part that is refused, room or message, where the parts
    /// before it stand in the buffer. How many parts a message can carry is asked when it is written.
    pub fn write(
        parts: impl IntoIterator<Item = P>,
        buffer: &'a mut [u8],
    ) -> Result<List<'a, P>, Refusal> {
        let (mut count, mut end) = (0, 0);
        for part in parts {
            end += part.put(&mut buffer[end..])?;
            count += 1;
        }
        Ok(List {
            count,
            bytes: &buffer[..end],
            part: PhantomData,
        })
    }

    /// The part at a place, for which those before it are gone over. Refusals: argument at or past the count.
    pub fn part(&self, at: usize) -> Result<P, Refusal> {
        self.parts().nth(at).ok_or(Refusal::Argument)
    }
}

impl<'a, P: Part<'a> + fmt::Debug> fmt::Debug for List<'a, P> {
    fn fmt(&self, f: &mut fmt::Formatter<'_>) -> fmt::Result {
        f.debug_list().entries(self.parts()).finish()
    }
}

impl<'a, P: Part<'a>> IntoIterator for List<'a, P> {
    type Item = P;
    type IntoIter = Parts<'a, P>;

    fn into_iter(self) -> Parts<'a, P> {
        self.parts()
    }
}

/// The parts of a [`List`], each read when it is asked for.
#[derive(Clone, Debug)]
pub struct Parts<'a, P> {
    left: usize,
    bytes: &'a [u8],
    part: PhantomData<P>,
}

impl<'a, P: Part<'a>> Iterator for Parts<'a, P> {
    type Item = P;

    fn next(&mut self) -> Option<P> {
        self.left = self.left.checked_sub(1)?;
        let (part, behind) = P::take(self.bytes).ok()?;
        self.bytes = behind;
        Some(part)
    }

    fn size_hint(&self) -> (usize, Option<usize>) {
        (self.left, Some(self.left))
    }
}

impl<'a, P: Part<'a>> ExactSizeIterator for Parts<'a, P> {}

fn take_piece(bytes: &[u8], kind: u32) -> Result<(Fields<'_>, &[u8]), Refusal> {
    let (mut values, mut rest, mut next) = (Values::default(), 0, 0);
    answered(entries::read_piece(
        bytes,
        kind,
        &mut values,
        &mut rest,
        &mut next,
    ))?;
    let rest = bytes.get(rest..next).ok_or(Refusal::Message)?;
    let behind = bytes.get(next..).ok_or(Refusal::Message)?;
    Ok((Fields { values, rest }, behind))
}

fn put_piece(buffer: &mut [u8], kind: u32, values: Values, rest: &[u8]) -> Result<usize, Refusal> {
    let mut written = 0;
    answered(entries::write_piece(
        buffer,
        kind,
        &values,
        rest,
        &mut written,
    ))?;
    Ok(written)
}

/// A version (Table 25).
///
/// ```
/// use slavotuk::message::VersionNumberEntry;
///
/// let version = VersionNumberEntry(0x1234);
/// assert_eq!((version.major_version(), version.minor_version()), (1, 2));
/// assert_eq!((version.update_version_number(), version.alpha()), (3, 4));
/// ```
#[derive(Clone, Copy, Debug, PartialEq, Eq, PartialOrd, Ord, Hash)]
pub struct VersionNumberEntry(
    /// The four numbers of four bits.
    pub u16,
);

impl VersionNumberEntry {
    /// MajorVersion.
    pub const fn major_version(self) -> u8 {
        (self.0 >> 12) as u8
    }

    /// MinorVersion.
    pub const fn minor_version(self) -> u8 {
        (self.0 >> 8 & 15) as u8
    }

    /// UpdateVersionNumber.
    pub const fn update_version_number(self) -> u8 {
        (self.0 >> 4 & 15) as u8
    }

    /// Alpha.
    pub const fn alpha(self) -> u8 {
        (self.0 & 15) as u8
    }
}

impl<'a> Pieces<'a> for VersionNumberEntry {
    fn take(bytes: &'a [u8]) -> Result<(Self, &'a [u8]), Refusal> {
        let (fields, behind) = take_piece(bytes, entries::PIECE_VERSION)?;
        Ok((VersionNumberEntry(fields.u16(0)), behind))
    }

    fn put(&self, buffer: &mut [u8]) -> Result<usize, Refusal> {
        put_piece(buffer, entries::PIECE_VERSION, values([self.0.into()]), &[])
    }
}

/// A process that stands (Table 46).
#[derive(Clone, Copy, Debug, PartialEq, Eq, Hash)]
pub struct AuthProcInfo {
    /// CredentialID.
    pub credential_id: WireCredential,
    /// AuthProcessType.
    pub auth_process_type: Kind,
    /// AuthProcID.
    pub auth_proc_id: Name,
}

impl<'a> Pieces<'a> for AuthProcInfo {
    fn take(bytes: &'a [u8]) -> Result<(Self, &'a [u8]), Refusal> {
        let (fields, behind) = take_piece(bytes, entries::PIECE_PROCESS)?;
        let info = AuthProcInfo {
            credential_id: fields.credential(0),
            auth_process_type: Kind::new(fields.u8(1)).ok_or(Refusal::Message)?,
            auth_proc_id: Name(fields.array::<NAME_LENGTH>()?),
        };
        Ok((info, behind))
    }

    fn put(&self, buffer: &mut [u8]) -> Result<usize, Refusal> {
        let credential = self.credential_id.0.into();
        let values = values([credential, self.auth_process_type.number().into()]);
        put_piece(buffer, entries::PIECE_PROCESS, values, &self.auth_proc_id.0)
    }
}

/// A standards body or vendor, by a header of DSP0293: PolicyOwnerID (Table 4) and SVResetDataTypeOwner (Table 63).
#[derive(Clone, Copy, Debug, PartialEq, Eq, Hash)]
pub struct Svh<'a> {
    /// ID: the registry or standards body.
    pub id: u8,
    /// VendorID: at most 255 bytes.
    pub vendor_id: &'a [u8],
}

impl<'a> Pieces<'a> for Svh<'a> {
    fn take(bytes: &'a [u8]) -> Result<(Self, &'a [u8]), Refusal> {
        let (fields, behind) = take_piece(bytes, entries::PIECE_OWNER)?;
        let owner = Svh {
            id: fields.u8(0),
            vendor_id: fields.rest,
        };
        Ok((owner, behind))
    }

    fn put(&self, buffer: &mut [u8]) -> Result<usize, Refusal> {
        let values = values([self.id.into(), self.vendor_id.len() as u64]);
        put_piece(buffer, entries::PIECE_OWNER, values, self.vendor_id)
    }
}

/// A policy (Table 4).
#[derive(Clone, Copy, Debug, PartialEq, Eq, Hash)]
pub struct Policy<'a> {
    /// PolicyOwnerID.
    pub policy_owner_id: Svh<'a>,
    /// PolicyVersion.
    pub policy_version: u32,
    /// Policy: at most 65,535 bytes.
    pub policy: &'a [u8],
}

impl<'a> Pieces<'a> for Policy<'a> {
    fn take(bytes: &'a [u8]) -> Result<(Self, &'a [u8]), Refusal> {
        let (policy_owner_id, behind) = Svh::take(bytes)?;
        let (fields, behind) = take_piece(behind, entries::PIECE_POLICY)?;
        let policy = Policy {
            policy_owner_id,
            policy_version: fields.u32(0),
            policy: fields.rest,
        };
        Ok((policy, behind))
    }

    fn put(&self, buffer: &mut [u8]) -> Result<usize, Refusal> {
        let values = values([self.policy_version.into(), self.policy.len() as u64]);
        let owner = self.policy_owner_id.put(buffer)?;
        let behind = put_piece(
            &mut buffer[owner..],
            entries::PIECE_POLICY,
            values,
            self.policy,
        )?;
        Ok(owner + behind)
    }
}

/// What of a standards body or vendor is reset (Table 63).
#[derive(Clone, Copy, Debug, PartialEq, Eq, Hash)]
pub struct ResetElement<'a> {
    /// SVResetDataTypeOwner.
    pub sv_reset_data_type_owner: Svh<'a>,
    /// SVResetDataType: at most 32 bytes.
    pub sv_reset_data_type: &'a [u8],
}

impl<'a> Pieces<'a> for ResetElement<'a> {
    fn take(bytes: &'a [u8]) -> Result<(Self, &'a [u8]), Refusal> {
        let (sv_reset_data_type_owner, behind) = Svh::take(bytes)?;
        let (fields, behind) = take_piece(behind, entries::PIECE_RESET)?;
        let element = ResetElement {
            sv_reset_data_type_owner,
            sv_reset_data_type: fields.rest,
        };
        Ok((element, behind))
    }

    fn put(&self, buffer: &mut [u8]) -> Result<usize, Refusal> {
        let values = values([self.sv_reset_data_type.len() as u64]);
        let owner = self.sv_reset_data_type_owner.put(buffer)?;
        let behind = put_piece(
            &mut buffer[owner..],
            entries::PIECE_RESET,
            values,
            self.sv_reset_data_type,
        )?;
        Ok(owner + behind)
    }
}
