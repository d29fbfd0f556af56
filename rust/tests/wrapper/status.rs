//! StatusResponses, written and read back.
use crate::{answer, entry, framed, status_entry, DS301};
use powerlink::*;

fn fields() -> StatusFields {
    StatusFields {
        en_flag: true,
        ec_flag: false,
        pr: PRFlag::High1,
        rs: RSFlag::new(200),
        nmt_state: NmtState::NmtPreOperational1,
        static_error_bit_field: StaticErrorBitField {
            error_register: 1,
            specific_errors: [2, 3, 4, 5, 6, 7, 8],
        },
    }
}

#[test]
fn octets_of_an_entry() {
    let entry = ErrorEntry {
        entry_type: EntryType {
            is_status_entry: true,
            send_to_queue: false,
            mode: ErrorEntryMode::EventOccurred,
            profile: 0xF123,
        },
        error_code: 0x1234,
        timestamp: NetTime {
            seconds: 0x0403_0201,
            nanoseconds: 0x0807_0605,
        },
        additional_information: 0x1817_1615_1413_1211,
    };
    let mut target = [0xEE; 21];
    assert_eq!(entry.serialize(&mut target), Ok(ErrorEntry::LEN));
    let expected = [
        0x23, 0xB1, 0x34, 0x12, 1, 2, 3, 4, 5, 6, 7, 8, 0x11, 0x12, 0x13, 0x14, 0x15, 0x16, 0x17,
        0x18, 0xEE,
    ];
    assert_eq!(target, expected);
    // Of the profile, 12 bits are left.
    let mut masked = entry;
    masked.entry_type.profile = 0x0123;
    assert_eq!(ErrorEntry::deserialize(&target), Ok(masked));

    for n in 0..20 {
        let mut target = vec![0xEE; n];
        assert_eq!(entry.serialize(&mut target), Err(Error::BufferTooShort));
        assert_eq!(target, vec![0xEE; n]);
        assert_eq!(ErrorEntry::deserialize(&target), Err(Error::BufferTooShort));
    }
}

#[test]
fn octets_of_the_error_field() {
    let field = fields().static_error_bit_field;
    let mut target = [0xEE; 9];
    assert_eq!(field.serialize(&mut target), Ok(StaticErrorBitField::LEN));
    assert_eq!(target, [1, 2, 3, 4, 5, 6, 7, 8, 0xEE]);
    assert_eq!(StaticErrorBitField::deserialize(&target), Ok(field));
    for n in 0..8 {
        let mut target = vec![0xEE; n];
        assert_eq!(field.serialize(&mut target), Err(Error::BufferTooShort));
        assert_eq!(target, vec![0xEE; n]);
        assert_eq!(
            StaticErrorBitField::deserialize(&target),
            Err(Error::BufferTooShort)
        );
    }
}

#[test]
fn written_and_read_back() {
    for n in [0, 1, 2, 4, 5, 70] {
        let either = |code| [entry(code), status_entry(code)][code as usize % 2];
        let entries: Vec<ErrorEntry> = (0..n).map(either).collect();
        let len = 34 + 20 * n as usize;
        let mut target = vec![0xEE; len + 3];
        assert_eq!(fields().serialize(&entries, &mut target), Ok(len));
        assert_eq!(
            target[..14],
            [0x20, 0x27, 0x1D, 0, 0, 0, 1, 2, 3, 4, 5, 6, 7, 8]
        );
        assert_eq!(target[len - 20..len], [0; 20], "the terminator");
        assert_eq!(target[len..], [0xEE; 3]);
        for cut in [len, len - 1, len - 20] {
            // Without its terminator, too.
            let status = StatusResponse::deserialize(&target[..cut]).unwrap();
            assert_eq!(status.fields, fields());
            assert_eq!(status.entries.collect::<Vec<_>>(), entries);
        }
        let mut target = vec![0xEE; len - 1];
        assert_eq!(
            fields().serialize(&entries, &mut target),
            Err(Error::BufferTooShort)
        );
        assert_eq!(target, vec![0xEE; len - 1]);
    }
}

#[test]
fn pr_7_and_rs_7() {
    let fields = StatusFields {
        pr: PRFlag::PrioNmtRequest,
        rs: RSFlag::new(7),
        ..fields()
    };
    let mut target = [0; 34];
    fields.serialize(&[], &mut target).unwrap();
    assert_eq!(target[1], 0x3F);
}

#[test]
fn en_and_ec() {
    for (octet, en, ec) in [
        (0x20, true, false),
        (0x10, false, true),
        (0x08, false, false),
    ] {
        let mut payload = [0; 14];
        payload[0] = octet;
        let fields = StatusResponse::deserialize(&payload).unwrap().fields;
        assert_eq!((fields.en_flag, fields.ec_flag), (en, ec));
        let mut target = [0; 34];
        fields.serialize(&[], &mut target).unwrap();
        assert_eq!(target[0], octet & 0x30);
    }
}

#[test]
fn where_entries_end() {
    let mut payload = vec![0; 14];
    payload[2] = 0x1D;
    let count = |payload: &[u8]| {
        StatusResponse::deserialize(payload)
            .unwrap()
            .entries
            .count()
    };
    assert_eq!(count(&payload), 0);
    payload.resize(33, 0xFF);
    assert_eq!(count(&payload), 0);
    payload.resize(34, 0xFF);
    assert_eq!(count(&payload), 1);
    // Mode 0 ends the list, whatever follows; and the end stays the end.
    payload.resize(74, 0xFF);
    payload[14 + 20 + 1] = 0xCF;
    let mut entries = StatusResponse::deserialize(&payload).unwrap().entries;
    assert!(entries.next().is_some());
    assert!(entries.next().is_none());
    assert!(entries.next().is_none());

    let refused = StatusResponse::deserialize(&payload[..13]).unwrap_err();
    assert_eq!(refused, Error::BufferTooShort);
    payload[2] = 0xFF;
    let refused = StatusResponse::deserialize(&payload).unwrap_err();
    assert_eq!(refused, Error::InvalidNmtState(0xFF));
}

#[test]
fn an_answer_without_entries_is_read_untrimmed() {
    let mut head = Reporter::new(NodeId(7)).unwrap();
    let frame = answer(&mut head, 7);
    assert_eq!(frame.len(), 60);
    let trimmed = deserialize_frame(DS301, &frame).unwrap().payload;
    assert_eq!(trimmed.len(), 3);
    assert_eq!(
        StatusResponse::deserialize(trimmed).unwrap_err(),
        Error::BufferTooShort
    );
    let status = StatusResponse::deserialize(&frame[18..]).unwrap();
    assert_eq!(status.fields.nmt_state, NmtState::NmtOperational);
    assert_eq!(status.entries.count(), 0);
    // The box reads it so.
    let mut the_box = Collector::new();
    the_box.register(NodeId(7)).unwrap();
    assert_eq!(the_box.read(DS301, &frame), Ok(CollectorRead::Known));
    assert_eq!(
        the_box.read(DS301, &framed(&frame[14..])),
        Ok(CollectorRead::Known)
    );
}
