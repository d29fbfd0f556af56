//! The exchange between heads and box.
use crate::{
    answer, answer_fields, entry, framed, ident_request, preq, request, request_fields, Direction,
    Numbers, DS301,
};
use powerlink::*;

const HEAD: NodeId = NodeId(7);

fn pair() -> (Reporter, Collector) {
    let mut the_box = Collector::new();
    the_box.register(HEAD).unwrap();
    (Reporter::new(HEAD).unwrap(), the_box)
}

/// The codes of the entries in a StatusResponse.
fn codes(frame: &[u8]) -> Vec<u16> {
    let status = StatusResponse::deserialize(&frame[18..]).unwrap();
    status.entries.map(|entry| entry.error_code).collect()
}

/// The codes of all that is booked.
fn drain(the_box: &mut Collector, id: NodeId) -> Vec<u16> {
    let mut codes = Vec::new();
    loop {
        match the_box.take(id) {
            Ok(taken) => codes.push(taken.error_code),
            Err(cause) => {
                assert_eq!(cause, Error::NothingBooked);
                return codes;
            }
        }
    }
}

#[test]
fn with_a_loss_and_a_repeat() {
    let (mut head, mut the_box) = pair();
    for code in 1..=5 {
        head.raise(&entry(code)).unwrap();
    }
    let lost = answer(&mut head, 7);
    assert_eq!(lost.len(), 132);
    assert_eq!(codes(&lost), [1, 2, 3, 4]);
    // Another entry does not make the batch larger.
    head.raise(&entry(6)).unwrap();
    let repeat = answer(&mut head, 7);
    assert_eq!(repeat, lost);
    // A request from before the booking closes nothing.
    assert_eq!(
        head.read(DS301, &request(&the_box, 7)),
        Ok(ReporterRead::Kept)
    );
    assert_eq!(the_box.read(DS301, &repeat), Ok(CollectorRead::Booked));
    assert_eq!(the_box.read(DS301, &repeat), Ok(CollectorRead::Known));

    let acknowledge = request(&the_box, 7);
    assert_eq!(head.read(DS301, &acknowledge), Ok(ReporterRead::Closed));
    assert_eq!(head.read(DS301, &acknowledge), Ok(ReporterRead::Kept));
    let rest = answer(&mut head, 7);
    assert_eq!(codes(&rest), [5, 6]);
    // A late repeat of the request does not close the new batch.
    assert_eq!(head.read(DS301, &acknowledge), Ok(ReporterRead::Kept));
    assert_eq!(the_box.read(DS301, &rest), Ok(CollectorRead::Booked));
    assert_eq!(
        head.read(DS301, &request(&the_box, 7)),
        Ok(ReporterRead::Closed)
    );
    assert_eq!(codes(&answer(&mut head, 7)), []);

    for code in 1..=6 {
        assert_eq!(the_box.take(HEAD), Ok(entry(code)));
    }
    assert_eq!(the_box.take(HEAD), Err(Error::NothingBooked));
}

#[test]
fn octets_of_an_answer() {
    let mut head = Reporter::new(HEAD).unwrap();
    head.raise(&entry(0x0123)).unwrap();
    let fields = AnswerFields {
        source_mac: MacAddress([2, 3, 4, 5, 6, 7]),
        dest_mac: MacAddress([8, 9, 10, 11, 12, 13]),
        ec_flag: true,
        pr: PRFlag::High3,
        rs: RSFlag::new(5),
        nmt_state: NmtState::NmtCsStopped,
        static_error_bit_field: StaticErrorBitField {
            error_register: 0x21,
            specific_errors: [0x22, 0x23, 0x24, 0x25, 0x26, 0x27, 0x28],
        },
    };
    let mut target = [0xEE; 73];
    assert_eq!(head.answer(DS301, &fields, &mut target), Ok(72));
    let expected: [&[u8]; 6] = [
        &[8, 9, 10, 11, 12, 13, 2, 3, 4, 5, 6, 7, 0x88, 0xAB],
        &[6, 255, 7, 2, 0x30, 0x35, 0x4D, 0, 0, 0],
        &[0x21, 0x22, 0x23, 0x24, 0x25, 0x26, 0x27, 0x28],
        &[0x23, 0x11, 0x23, 0x01, 1, 2, 3, 4, 5, 6, 7, 8],
        &[0x11, 0x12, 0x13, 0x14, 0x15, 0x16, 0x17, 0x18],
        &[0; 20],
    ];
    assert_eq!(target[..72], expected.concat());
    assert_eq!(target[72], 0xEE);
}

#[test]
fn a_refused_answer_opens_no_batch() {
    let mut head = Reporter::new(HEAD).unwrap();
    head.raise(&entry(1)).unwrap();
    let before = *head.as_bytes();
    let mut target = [0xEE; 71];
    let refused = head.answer(DS301, &answer_fields(7), &mut target);
    assert_eq!(refused, Err(Error::BufferTooShort));
    assert_eq!(target, [0xEE; 71]);
    assert_eq!(head.as_bytes(), &before);
    // So the next answer opens it with what was raised meanwhile.
    head.raise(&entry(2)).unwrap();
    assert_eq!(codes(&answer(&mut head, 7)), [1, 2]);
}

#[test]
fn octets_of_a_request() {
    let (mut head, mut the_box) = pair();
    let mut expected = vec![0x01, 0x11, 0x1E, 0, 0, 3, 2, 0, 0, 0, 0, 240, 0x88, 0xAB];
    expected.extend([5, 255, 240, 0xFD, 0x00, 0, 2, 7, 0x20]);
    expected.resize(60, 0);
    assert_eq!(request(&the_box, 7), expected);
    // EA is what was booked last.
    head.raise(&entry(1)).unwrap();
    the_box.read(DS301, &answer(&mut head, 7)).unwrap();
    expected[18] = 0x04;
    assert_eq!(request(&the_box, 7), expected);
}

#[test]
fn what_gives_ea() {
    let (mut head, mut the_box) = pair();
    head.raise(&entry(1)).unwrap();
    the_box.read(DS301, &answer(&mut head, 7)).unwrap();
    let soa = |source, target| framed(&[5, 255, source, 0xFD, 4, 0, 2, target, 0x20]);
    let preq = |source, destination| framed(&[3, destination, source, 0, 4, 0, 0, 0, 0, 0]);
    // From another node, for another node, or of another kind.
    for frame in [
        soa(1, 7),
        soa(240, 8),
        preq(1, 7),
        preq(240, 8),
        answer(&mut head, 7),
    ] {
        assert_eq!(head.read(DS301, &frame), Ok(ReporterRead::Ignored));
    }
    assert_eq!(head.read(DS301, &preq(240, 7)), Ok(ReporterRead::Closed));
    assert_eq!(head.read(DS301, &preq(240, 7)), Ok(ReporterRead::Kept));
    assert_eq!(head.read(DS301, &soa(240, 7)), Ok(ReporterRead::Kept));
}

#[test]
fn a_full_book() {
    let (mut head, mut the_box) = pair();
    // 64 entries in batches of four fill the book.
    for batch in 0..16 {
        for i in 0..4 {
            head.raise(&entry(4 * batch + i)).unwrap();
        }
        assert_eq!(
            the_box.read(DS301, &answer(&mut head, 7)),
            Ok(CollectorRead::Booked)
        );
        assert_eq!(
            head.read(DS301, &request(&the_box, 7)),
            Ok(ReporterRead::Closed)
        );
    }
    // A known answer is known, though the book is full.
    assert_eq!(
        the_box.read(DS301, &answer(&mut head, 7)),
        Ok(CollectorRead::Known)
    );
    head.raise(&entry(64)).unwrap();
    head.raise(&entry(65)).unwrap();
    let batch = answer(&mut head, 7);
    let full = *the_box.as_bytes();
    assert_eq!(the_box.read(DS301, &batch), Err(Error::BookFull));
    assert_eq!(the_box.as_bytes(), &full);
    assert_eq!(
        head.read(DS301, &request(&the_box, 7)),
        Ok(ReporterRead::Kept)
    );
    // One place is not enough for two.
    assert_eq!(the_box.take(HEAD), Ok(entry(0)));
    assert_eq!(
        the_box.read(DS301, &answer(&mut head, 7)),
        Err(Error::BookFull)
    );
    assert_eq!(the_box.take(HEAD), Ok(entry(1)));
    assert_eq!(
        the_box.read(DS301, &answer(&mut head, 7)),
        Ok(CollectorRead::Booked)
    );
    assert_eq!(
        head.read(DS301, &request(&the_box, 7)),
        Ok(ReporterRead::Closed)
    );
    assert_eq!(drain(&mut the_box, HEAD), (2..66).collect::<Vec<_>>());
}

#[test]
fn heads_are_kept_apart() {
    let mut the_box = Collector::default();
    let mut heads: Vec<Reporter> = Vec::new();
    for id in 1..=4 {
        the_box.register(NodeId(id)).unwrap();
        heads.push(Reporter::new(NodeId(id)).unwrap());
    }
    for (id, head) in (1..).zip(&mut heads) {
        for i in 0..id {
            head.raise(&entry(100 * id as u16 + i as u16)).unwrap();
        }
        assert_eq!(
            the_box.read(DS301, &answer(head, id)),
            Ok(CollectorRead::Booked)
        );
    }
    for (id, head) in (1..).zip(&mut heads) {
        let other = id % 4 + 1;
        assert_eq!(
            head.read(DS301, &request(&the_box, other)),
            Ok(ReporterRead::Ignored)
        );
        assert_eq!(
            head.read(DS301, &request(&the_box, id)),
            Ok(ReporterRead::Closed)
        );
    }
    for id in 1..=4u8 {
        let expected: Vec<u16> = (0..id).map(|i| 100 * id as u16 + i as u16).collect();
        assert_eq!(drain(&mut the_box, NodeId(id)), expected);
    }
}

/// Whatever the line does, and whichever frames the host sends with the box's flags: what the box
/// has handed out is the front of what was raised, and all of it in the end.
#[test]
fn nothing_lost_and_nothing_twice() {
    let mut entries = 0;
    for seed in 0..40 {
        let mut numbers = Numbers(seed);
        let (mut head, mut the_box) = pair();
        let mut answers = Direction::default();
        let mut requests = Direction::default();
        let mut raised = Vec::new();
        let mut taken = Vec::new();
        for code in 0..2_000 {
            match numbers.below(10) {
                0 => match head.raise(&entry(code)) {
                    Ok(()) => raised.push(code),
                    Err(cause) => assert_eq!(cause, Error::QueueFull),
                },
                1 => answers.sent.push(answer(&mut head, 7)),
                2 => requests.sent.push(request(&the_box, 7)),
                3 => {
                    if let Some(frame) = answers.arrives(&mut numbers) {
                        match the_box.read(DS301, frame) {
                            Ok(_) | Err(Error::BookFull) => {}
                            Err(cause) => panic!("{cause}"),
                        }
                    }
                }
                4..=6 => {
                    if let Some(frame) = requests.arrives(&mut numbers) {
                        assert!(head.read(DS301, frame).is_ok());
                    }
                }
                // The host's own frames, with the flags of the moment of sending.
                7 => requests.sent.push(preq(7, the_box.flags(HEAD).unwrap().ea)),
                8 => {
                    let flags = the_box.flags(HEAD).unwrap();
                    requests.sent.push(ident_request(7, flags));
                }
                _ => match the_box.take(HEAD) {
                    Ok(handed) => taken.push(handed.error_code),
                    Err(cause) => assert_eq!(cause, Error::NothingBooked),
                },
            }
            assert!(raised.starts_with(&taken));
        }
        // On a good line, all that is left arrives: at most 20 entries in as many exchanges.
        let mut target = [0; 132];
        for _ in 0..20 {
            taken.extend(drain(&mut the_box, HEAD));
            let n = head.answer(DS301, &answer_fields(7), &mut target).unwrap();
            the_box.read(DS301, &target[..n]).unwrap();
            let n = the_box
                .request(HEAD, &request_fields(), &mut target)
                .unwrap();
            head.read(DS301, &target[..n]).unwrap();
        }
        taken.extend(drain(&mut the_box, HEAD));
        assert_eq!(taken, raised);
        entries += taken.len();
    }
    assert!(entries > 2_000, "only {entries} entries");
}
