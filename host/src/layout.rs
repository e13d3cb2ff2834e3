//! Where things lie in the bytes: the figures of all hosts and of their tests. tests/layout.rs holds the header's to them; the model of the comparison has its own.

use crate::{Credential, Session, NAME_LENGTH};

/// How many processes can stand.
pub const PLACES: usize = 12;

/// A state, as docs/STATE.md draws it: the phase of each session, port 0's first, the credentials, the count of processes, and their places.
pub mod state {
    use super::*;

    /// The first credential.
    pub const CREDENTIALS_AT: usize = Session::COUNT;
    /// Whether it is provisioned, in a credential.
    pub const PROVISIONED: usize = 0;
    /// Its grant word, in a credential.
    pub const WORD: usize = 1;
    /// Its second word, in a credential.
    pub const SECOND: usize = WORD + 4;
    /// How many bytes a credential has.
    pub const CREDENTIAL_LENGTH: usize = SECOND + 4;
    /// How many processes stand.
    pub const COUNT_AT: usize = credential_at(Credential::COUNT);
    /// The first place.
    pub const PLACES_AT: usize = COUNT_AT + 1;
    /// The credential, in a place.
    pub const OWNER: usize = 0;
    /// The type, in a place.
    pub const TYPE: usize = 1;
    /// The slot of the session, in a place: 4 * port + handle.
    pub const SESSION: usize = 2;
    /// The next number, in a place.
    pub const NEXT: usize = 3;
    /// The name, in a place.
    pub const NAME: usize = NEXT + 2;
    /// How many bytes a place has.
    pub const PLACE_LENGTH: usize = NAME + NAME_LENGTH;
    /// How many bytes a state has.
    pub const LENGTH: usize = place_at(PLACES);

    /// Where a credential begins.
    pub const fn credential_at(credential: usize) -> usize {
        CREDENTIALS_AT + CREDENTIAL_LENGTH * credential
    }

    /// Where a place begins.
    pub const fn place_at(place: usize) -> usize {
        PLACES_AT + PLACE_LENGTH * place
    }
}

/// An image, as docs/IMAGE.md draws it: five numbers of two bytes, the grant words, the second words, and a row for each saved process. The old layout has no second
/// words: its rows begin where these do.
pub mod image {
    use super::*;

    /// The mask of the provisioned credentials.
    pub const MASK_AT: usize = 0;
    /// The count of the words.
    pub const WORD_COUNT_AT: usize = 2;
    /// Where the words begin.
    pub const WORDS_OFFSET_AT: usize = 4;
    /// The count of the rows.
    pub const ROW_COUNT_AT: usize = 6;
    /// Where the rows begin.
    pub const ROWS_OFFSET_AT: usize = 8;
    /// The first grant word.
    pub const WORDS_AT: usize = 10;
    /// The first second word.
    pub const SECONDS_AT: usize = word_at(Credential::COUNT);
    /// The first row, and so the bytes of an image that has none.
    pub const ROWS_AT: usize = second_at(Credential::COUNT);
    /// The first row in the old layout.
    pub const OLD_ROWS_AT: usize = SECONDS_AT;
    /// The credential, in a row.
    pub const OWNER: usize = 0;
    /// The next number, in a row.
    pub const NEXT: usize = 2;
    /// The name, in a row.
    pub const NAME: usize = NEXT + 2;
    /// How many bytes a row has.
    pub const ROW_LENGTH: usize = NAME + NAME_LENGTH;
    /// How many bytes the longest image has.
    pub const FULL_LENGTH: usize = row_at(PLACES);

    /// Where a row begins, and so the bytes of an image with so many.
    pub const fn row_at(row: usize) -> usize {
        ROWS_AT + ROW_LENGTH * row
    }

    /// Where a row begins in the old layout, and so the bytes of an old image with so many.
    pub const fn old_row_at(row: usize) -> usize {
        OLD_ROWS_AT + ROW_LENGTH * row
    }

    /// Where the grant word of a credential begins.
    pub const fn word_at(credential: usize) -> usize {
        WORDS_AT + 4 * credential
    }

    /// Where the second word of a credential begins.
    pub const fn second_at(credential: usize) -> usize {
        SECONDS_AT + 4 * credential
    }
}

/// The listing messages, as docs/WIRE.md draws them: GET_AUTH_PROCESSES, and AUTH_PROCESSES with a row for each process.
pub mod listing {
    use super::*;

    /// The number: the credential of a request, the count of the rows.
    pub const NUMBER_AT: usize = 2;
    /// The first row, and so the bytes of a listing that has none.
    pub const ROWS_AT: usize = NUMBER_AT + 2;
    /// How many bytes a request has.
    pub const REQUEST_LENGTH: usize = ROWS_AT;
    /// The credential, in a row.
    pub const OWNER: usize = 0;
    /// The type, in a row.
    pub const TYPE: usize = 2;
    /// The name, in a row.
    pub const NAME: usize = 3;
    /// How many bytes a row has.
    pub const ROW_LENGTH: usize = NAME + NAME_LENGTH;
    /// How many bytes the listing of all places has, the longest that a module writes.
    pub const FULL_LENGTH: usize = row_at(PLACES);

    /// Where a row begins, and so the bytes of a listing with so many.
    pub const fn row_at(row: usize) -> usize {
        ROWS_AT + ROW_LENGTH * row
    }
}
