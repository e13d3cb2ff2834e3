//! The listing messages: written by the module, read back by the wrapper.

mod common;

use common::*;
use slavotuk::layout::listing::row_at;
use slavotuk::{
    entries, read_request, write_request, Kind, Listing, Name, Row, Wanted, WireCredential,
    FULL_LISTING_LENGTH, NAME_LENGTH, REQUEST_LENGTH,
};

/// The row that the archive's own reader gives.
fn entry_row(message: &[u8], at: usize) -> Row {
    let (mut credential, mut kind, mut name) = (0, 0, [0; NAME_LENGTH]);
    let number = entries::read_row(message, at, &mut credential, &mut kind, &mut name);
    assert_eq!(number, 0);
    Row {
        credential: WireCredential(credential),
        kind: Kind::new(kind).unwrap(),
        name: Name(name),
    }
}

#[test]
fn a_listing_has_the_processes_of_the_table() {
    let mut module = full();
    let mut buffer = [0xcc; FULL_LISTING_LENGTH + 5];
    let listing = module
        .list(session(0), by(0, 0), Wanted::All, &mut buffer)
        .unwrap();
    assert_eq!(listing.bytes().len(), FULL_LISTING_LENGTH);
    assert_eq!(listing.rows().len(), 12);
    let listed: Vec<_> = listing
        .rows()
        .map(|row| (row.credential.credential(), row.kind, row.name))
        .collect();
    let standing: Vec<_> = module
        .processes()
        .map(|process| (Some(process.credential), process.kind(), process.name))
        .collect();
    assert_eq!(listed, standing);
    assert_eq!(buffer[FULL_LISTING_LENGTH..], [0xcc; 5]);
}

#[test]
fn rows_are_those_of_the_archives_reader() {
    let mut message = vec![0x0e, 0x77, 200, 0];
    for row in 0..200u8 {
        message.extend([row, row.wrapping_mul(7), row % 3]);
        message.extend([row ^ 0x5a; NAME_LENGTH]);
    }
    let listing = Listing::read(&message).unwrap();
    assert_eq!(listing.rows().len(), 200);
    for (at, row) in listing.rows().enumerate() {
        assert_eq!(row, entry_row(&message, at));
        assert_eq!(listing.row(at), Ok(row));
    }
    assert!(listing.row(200).is_err());
    let backwards: Vec<Row> = listing.rows().rev().collect();
    assert_eq!(backwards[0], entry_row(&message, 199));
    assert_eq!(listing.into_iter().count(), 200);
}

#[test]
fn a_listing_of_one_credential_leaves_the_others_out() {
    let mut module = opened(&[0]);
    module.start(session(0), credential(0), &p()).unwrap();
    module.start(session(0), credential(1), &r()).unwrap();
    let mut buffer = [0; FULL_LISTING_LENGTH];
    let own = Wanted::Of(credential(1));
    let listing = module.list(session(0), by(1, 0), own, &mut buffer).unwrap();
    let rows: Vec<Row> = listing.rows().collect();
    assert_eq!(rows.len(), 1);
    assert_eq!(rows[0].name, r());

    let nobody = Wanted::Of(credential(7));
    let listing = module
        .list(session(0), by(0, 0), nobody, &mut buffer)
        .unwrap();
    assert_eq!(listing.bytes(), [0x0e, 0, 0, 0]);
    assert_eq!(listing.rows().next(), None);
}

#[test]
fn the_largest_message_is_read() {
    let mut message = vec![0x0e, 0, 0xff, 0xff];
    message.resize(row_at(65535), 1);
    assert_eq!(Listing::read(&message).unwrap().rows().len(), 65535);
    message.push(1);
    assert!(Listing::read(&message).is_err());
}

#[test]
fn requests_are_read_back() {
    for number in [0, 7, 8, 300, 65534, 65535] {
        let mut buffer = [0xee; 6];
        let message = write_request(&mut buffer, WireCredential(number)).unwrap();
        assert_eq!(message.len(), REQUEST_LENGTH);
        assert_eq!(read_request(message), Ok(WireCredential(number)));
        assert_eq!(buffer[REQUEST_LENGTH..], [0xee; 2]);
    }
    let mut buffer = [0; 4];
    assert_eq!(
        write_request(&mut buffer, credential(5)),
        Ok(&[0x8e, 0, 5, 0][..])
    );
}
