//! Each cause at its smallest input, and the order of the tests.
use crate::{answer, entry, framed, request_fields, DS301};
use powerlink::*;

fn refused(octets: &[u8]) -> Error {
    deserialize_frame(DS301, octets).unwrap_err()
}

#[test]
fn too_short() {
    assert_eq!(refused(&[]), Error::BufferTooShort);
    assert_eq!(refused(&[0; 13]), Error::BufferTooShort);
    // Each kind one octet short; SoC, PReq, PRes, SoA, ASnd.
    for (kind, needed) in [(1, 22), (3, 10), (4, 10), (5, 9), (6, 4)] {
        let mut section = vec![0; needed - 1];
        section[0] = kind;
        assert_eq!(
            refused(&framed(&section)),
            Error::BufferTooShort,
            "kind {kind}"
        );
    }
    assert_eq!(refused(&framed(&[0x81])), Error::BufferTooShort);
    // A payload that does not fit.
    let preq = [3, 0, 0, 0, 0, 0, 0, 0, 1, 0];
    assert_eq!(refused(&framed(&preq)), Error::BufferTooShort);
    assert!(deserialize_frame(DS301, &framed(&[&preq[..], &[9]].concat())).is_ok());
    let pres = [4, 255, 0, 0, 0, 0, 0, 0, 1, 0];
    assert_eq!(refused(&framed(&pres)), Error::BufferTooShort);
    assert!(deserialize_frame(DS301, &framed(&[&pres[..], &[9]].concat())).is_ok());
}

#[test]
fn headers_too_short() {
    let header = EthernetHeader::new(MacAddress([1; 6]), MacAddress([2; 6]));
    for n in 0..14 {
        let mut target = vec![0xEE; n];
        assert_eq!(deserialize_eth_header(&target), Err(Error::BufferTooShort));
        assert_eq!(
            serialize_eth_header(&header, &mut target),
            Err(Error::BufferTooShort)
        );
        assert_eq!(target, vec![0xEE; n]);
    }
    for n in 0..3 {
        let mut target = vec![0xEE; n];
        assert_eq!(deserialize_pl_header(&target), Err(Error::BufferTooShort));
        let written = serialize_pl_header(MessageType::SoC, NodeId(1), NodeId(2), &mut target);
        assert_eq!(written, Err(Error::BufferTooShort));
        assert_eq!(target, vec![0xEE; n]);
    }
}

#[test]
fn no_powerlink() {
    let mut octets = [0; 14];
    octets[12] = 0x08;
    assert_eq!(refused(&octets), Error::InvalidEthernetFrame);
}

#[test]
fn no_section_or_not_to_all() {
    assert_eq!(refused(&framed(&[])), Error::InvalidPlFrame);
    // Tested before the state, which is none.
    assert_eq!(
        refused(&framed(&[4, 254, 0, 0xFF, 0, 0, 0, 0, 0, 0])),
        Error::InvalidPlFrame
    );
}

#[test]
fn unknown_codes() {
    assert_eq!(refused(&framed(&[0x82])), Error::InvalidMessageType(2));
    assert_eq!(
        deserialize_pl_header(&[0xFF, 0, 0]),
        Err(Error::InvalidMessageType(0x7F))
    );
    let pres = [4, 255, 0, 0xFE, 0, 0, 0, 0, 0, 0];
    assert_eq!(refused(&framed(&pres)), Error::InvalidNmtState(0xFE));
    // State before service.
    let mut soa = [5, 0, 0, 0xFF, 0, 0, 4, 0, 0];
    assert_eq!(refused(&framed(&soa)), Error::InvalidNmtState(0xFF));
    soa[3] = 0;
    assert_eq!(refused(&framed(&soa)), Error::InvalidRequestedServiceId(4));
    assert_eq!(
        refused(&framed(&[6, 0, 0, 0x0C])),
        Error::InvalidServiceId(0x0C)
    );
}

#[test]
fn entries_that_cannot_be_raised() {
    let mut head = Reporter::new(NodeId(7)).unwrap();
    let fresh = *head.as_bytes();
    let mut no_mode = entry(1);
    no_mode.entry_type.mode = ErrorEntryMode::Terminator;
    assert_eq!(head.raise(&no_mode), Err(Error::EntryInvalid));
    let mut wide = entry(1);
    wide.entry_type.profile = 0x1000;
    assert_eq!(head.raise(&wide), Err(Error::EntryInvalid));
    assert_eq!(head.as_bytes(), &fresh);
    wide.entry_type.profile = 0x0FFF;
    assert_eq!(head.raise(&wide), Ok(()));
}

#[test]
fn a_17th_waiting_entry() {
    let mut head = Reporter::new(NodeId(7)).unwrap();
    for code in 0..16 {
        assert_eq!(head.raise(&entry(code)), Ok(()));
    }
    let before = *head.as_bytes();
    assert_eq!(head.raise(&entry(16)), Err(Error::QueueFull));
    assert_eq!(head.as_bytes(), &before);
    // Four become the open batch, and no more wait.
    answer(&mut head, 7);
    for code in 16..20 {
        assert_eq!(head.raise(&entry(code)), Ok(()));
    }
    assert_eq!(head.raise(&entry(20)), Err(Error::QueueFull));
}

#[test]
fn what_the_box_does_not_book() {
    let mut the_box = Collector::new();
    the_box.register(NodeId(7)).unwrap();
    let before = *the_box.as_bytes();
    let mut refuse = |octets: &[u8], cause| {
        assert_eq!(the_box.read(DS301, octets), Err(cause));
        assert_eq!(the_box.as_bytes(), &before);
    };
    refuse(&[], Error::BufferTooShort);
    refuse(&[0; 14], Error::InvalidEthernetFrame);
    refuse(&framed(&[]), Error::InvalidPlFrame);
    refuse(&framed(&[2]), Error::InvalidMessageType(2));
    refuse(
        &framed(&[5, 0, 0, 1, 0, 0, 0, 0, 0]),
        Error::InvalidNmtState(1),
    );
    refuse(&framed(&[6, 0, 7, 0]), Error::InvalidServiceId(0));
    refuse(
        &framed(&[5, 0, 0, 0, 0, 0, 9, 0, 0]),
        Error::InvalidRequestedServiceId(9),
    );
    // Another service, then another kind.
    refuse(&framed(&[6, 255, 7, 1]), Error::NotStatusResponse);
    refuse(
        &framed(&[5, 0, 0, 0, 0, 0, 0, 0, 0]),
        Error::NotStatusResponse,
    );
    // Not registered, which is tested before the payload; node 0 never is.
    refuse(&framed(&[6, 255, 8, 2]), Error::NotRegistered);
    refuse(&framed(&[6, 255, 0, 2]), Error::NotRegistered);
    refuse(&framed(&[6, 255, 7, 2]), Error::BufferTooShort);
    let mut status = vec![0; 4 + 14];
    status[..4].copy_from_slice(&[6, 255, 7, 2]);
    status[4 + 2] = 0xAB;
    refuse(&framed(&status), Error::InvalidNmtState(0xAB));
}

#[test]
fn what_the_head_does_not_read() {
    let mut head = Reporter::new(NodeId(7)).unwrap();
    head.raise(&entry(1)).unwrap();
    let before = *head.as_bytes();
    let mut refuse = |octets: &[u8], cause| {
        assert_eq!(head.read(DS301, octets), Err(cause));
        assert_eq!(head.as_bytes(), &before);
    };
    refuse(&[], Error::BufferTooShort);
    refuse(&[0; 14], Error::InvalidEthernetFrame);
    refuse(&framed(&[]), Error::InvalidPlFrame);
    refuse(&framed(&[2]), Error::InvalidMessageType(2));
    refuse(
        &framed(&[5, 0, 240, 1, 0, 0, 0, 7, 0]),
        Error::InvalidNmtState(1),
    );
    refuse(&framed(&[6, 0, 7, 0]), Error::InvalidServiceId(0));
    refuse(
        &framed(&[5, 0, 240, 0, 0, 0, 9, 7, 0]),
        Error::InvalidRequestedServiceId(9),
    );
}

#[test]
fn ids() {
    for id in [0, 240, 255] {
        assert_eq!(Reporter::new(NodeId(id)).unwrap_err(), Error::IdOutOfRange);
    }
    assert!(Reporter::new(NodeId(1)).is_ok());
    assert!(Reporter::new(NodeId(239)).is_ok());

    let mut the_box = Collector::new();
    for id in [0, 240, 255] {
        assert_eq!(the_box.register(NodeId(id)), Err(Error::IdOutOfRange));
    }
    for id in [1, 239, 3, 4] {
        assert_eq!(the_box.register(NodeId(id)), Ok(()));
    }
    let before = *the_box.as_bytes();
    // 13 before 14, and 14 before 15.
    assert_eq!(the_box.register(NodeId(0)), Err(Error::IdOutOfRange));
    assert_eq!(the_box.register(NodeId(239)), Err(Error::IdRegistered));
    assert_eq!(the_box.register(NodeId(5)), Err(Error::Full));
    assert_eq!(the_box.as_bytes(), &before);
}

#[test]
fn requests_and_takes() {
    let mut the_box = Collector::new();
    let mut target = [0xEE; 60];
    let fields = request_fields();
    // 11 before 1 and before 16.
    assert_eq!(
        the_box.request(NodeId(7), &fields, &mut []),
        Err(Error::NotRegistered)
    );
    assert_eq!(
        the_box.request(NodeId(0), &fields, &mut target),
        Err(Error::NotRegistered)
    );
    assert_eq!(the_box.take(NodeId(7)), Err(Error::NotRegistered));
    assert_eq!(the_box.take(NodeId(0)), Err(Error::NotRegistered));
    the_box.register(NodeId(7)).unwrap();
    assert_eq!(
        the_box.request(NodeId(7), &fields, &mut []),
        Err(Error::BufferTooShort)
    );
    let refused = the_box.request(NodeId(7), &fields, &mut target[..59]);
    assert_eq!(refused, Err(Error::BufferTooShort));
    assert_eq!(target, [0xEE; 60]);
    assert_eq!(the_box.request(NodeId(7), &fields, &mut target), Ok(60));
    assert_eq!(the_box.take(NodeId(7)), Err(Error::NothingBooked));
}

#[test]
fn numbers_and_texts() {
    let all = [
        Error::BufferTooShort,
        Error::InvalidEthernetFrame,
        Error::InvalidPlFrame,
        Error::InvalidMessageType(0x7F),
        Error::InvalidNmtState(0x7F),
        Error::InvalidServiceId(0x7F),
        Error::InvalidRequestedServiceId(0x7F),
        Error::EntryInvalid,
        Error::QueueFull,
        Error::NotStatusResponse,
        Error::NotRegistered,
        Error::BookFull,
        Error::IdOutOfRange,
        Error::IdRegistered,
        Error::Full,
        Error::NothingBooked,
        Error::NotAJournal,
        Error::UnknownVersion,
        Error::RecordInvalid,
        Error::NotATable,
        Error::NotAscending,
        Error::WithoutStatusResponse,
        Error::StatusEntry,
    ];
    let mut texts = Vec::new();
    for (error, number) in all.into_iter().zip(1..) {
        assert_eq!(error.number(), number);
        assert_eq!(error.octet(), (4..=7).contains(&number).then_some(0x7F));
        let text = (&error as &dyn std::error::Error).to_string();
        assert_eq!(text.contains("0x7f"), error.octet().is_some());
        assert!(!texts.contains(&text), "{text}");
        texts.push(text);
    }
    assert_eq!(texts.len(), 23);
}
