//! Records of the journal, and the order of their tests: 1, then 19. How much of a journal is
//! whole: 17, then 18.
use crate::{entry, status_entry};
use powerlink::*;

#[test]
fn a_record_is_the_id_and_the_entry() {
    // A status entry too: a journal tells what it is given.
    for entry in [entry(0x0A01), status_entry(0x0A01)] {
        let mut target = [0xEE; 23];
        assert_eq!(journal::record(NodeId(239), &entry, &mut target), Ok(21));
        let mut octets = [0; 20];
        entry.serialize(&mut octets).unwrap();
        assert_eq!(target[0], 239);
        assert_eq!(target[1..21], octets);
        assert_eq!(target[21..], [0xEE; 2]);
    }
}

#[test]
fn the_profile_is_masked() {
    let mut wide = entry(1);
    wide.entry_type.profile = 0xF123;
    let mut narrow = wide;
    narrow.entry_type.profile = 0x0123;
    let mut one = [0; journal::RECORD_LEN];
    let mut other = [0; journal::RECORD_LEN];
    journal::record(NodeId(1), &wide, &mut one).unwrap();
    journal::record(NodeId(1), &narrow, &mut other).unwrap();
    assert_eq!(one, other);
}

#[test]
fn refused_records_change_nothing() {
    let good = entry(1);
    let mut terminator = good;
    terminator.entry_type.mode = ErrorEntryMode::Terminator;
    for id in 0..=255 {
        for entry in [good, terminator] {
            for len in 0..=journal::RECORD_LEN {
                let expected = match (len, id, entry.entry_type.mode) {
                    (0..=20, _, _) => Err(Error::BufferTooShort),
                    (_, 1..=239, ErrorEntryMode::ErrorActive) => continue,
                    _ => Err(Error::RecordInvalid),
                };
                let mut target = [0xEE; journal::RECORD_LEN];
                let written = journal::record(NodeId(id), &entry, &mut target[..len]);
                assert_eq!(written, expected, "node {id}, {len} octets");
                assert_eq!(target, [0xEE; journal::RECORD_LEN]);
            }
        }
    }
    assert_eq!(Error::RecordInvalid.number(), 19);
}

#[test]
fn a_journal_starts_with_mark_and_version() {
    assert_eq!(journal::START, [0x50, 0x4C, 0x42, 0x01, 0x00]);
}

#[test]
fn what_is_whole() {
    for len in 0..200 {
        for version in [0, 1, 2, 0x0100, 0xFFFF] {
            let expected = match (len, version) {
                (0..=4, _) => Err(Error::NotAJournal),
                (_, 1) => Ok(len - (len - 5) % 21),
                _ => Err(Error::UnknownVersion),
            };
            let whole = journal::whole_len(version, len);
            assert_eq!(whole, expected, "version {version}, {len} octets");
        }
    }
    let most = journal::whole_len(1, usize::MAX).unwrap();
    assert_eq!(most, usize::MAX - (usize::MAX - 5) % 21);
}
