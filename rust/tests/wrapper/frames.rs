//! Frames of every kind, written and read back.
use crate::{framed, Numbers, DS301};
use powerlink::*;

const US: MacAddress = MacAddress([2, 0, 0, 0, 0, 9]);
const THEM: MacAddress = MacAddress([2, 0, 0, 0, 0, 7]);

/// Writes a frame in every way there is, and reads it back.
fn agree<'a, F>(
    new: NewFrame<'a, F>,
    write: impl Fn(&mut [u8]) -> Result<usize, Error>,
    expected: &[u8],
) where
    F: Into<PowerlinkFrame> + Copy,
{
    let frame: Frame<'a> = new.into();
    assert_eq!(new.eth_header(), &frame.eth_header);
    let joined: PowerlinkFrame = (*new.frame()).into();
    assert_eq!(joined, frame.frame);
    assert_eq!(new.payload(), frame.payload);

    let n = expected.len();
    let mut target = vec![0xEE; n + 5];
    assert_eq!(write(&mut target), Ok(n));
    assert_eq!(&target[..n], expected, "write_frame");
    assert_eq!(&target[n..], &[0xEE; 5], "past the end");
    assert_eq!(
        deserialize_frame(DS301, &target[..n]),
        Ok(frame),
        "read back"
    );

    target.fill(0xEE);
    assert_eq!(frame.write_frame(DS301, &mut target), Ok(n));
    assert_eq!(&target[..n], expected, "Frame::write_frame");
    assert_eq!(&target[n..], &[0xEE; 5], "past the end");

    target.fill(0xEE);
    assert_eq!(
        frame.frame.serialize(DS301, frame.payload, &mut target),
        Ok(n - 14)
    );
    assert_eq!(&target[..n - 14], &expected[14..], "serialize");
    assert_eq!(&target[n - 14..], &[0xEE; 19], "past the end");

    for short in [0, 1, 13, 14, n - 1] {
        let mut target = vec![0xEE; short];
        assert_eq!(write(&mut target), Err(Error::BufferTooShort));
        assert_eq!(
            frame.write_frame(DS301, &mut target),
            Err(Error::BufferTooShort)
        );
        assert_eq!(target, vec![0xEE; short], "a refused writer has written");
    }
    let mut target = vec![0xEE; n - 15];
    assert_eq!(
        frame.frame.serialize(DS301, frame.payload, &mut target),
        Err(Error::BufferTooShort)
    );
    assert_eq!(target, vec![0xEE; n - 15], "a refused writer has written");
}

/// The octets of a frame: addresses, EtherType, what is given, and zeros up to 60.
fn octets(destination: &[u8; 6], source: &[u8; 6], section: &[&[u8]]) -> Vec<u8> {
    let mut frame = [&destination[..], &source[..], &[0x88, 0xAB]].concat();
    frame.extend(section.concat());
    frame.resize(frame.len().max(60), 0);
    frame
}

#[test]
fn soc() {
    for (mc, ps, flags) in [
        (false, false, 0x00),
        (true, false, 0x80),
        (false, true, 0x40),
        (true, true, 0xC0),
    ] {
        let new = SocFrame::new(
            US,
            SocFlags { mc, ps },
            NetTime {
                seconds: 0x0403_0201,
                nanoseconds: 0x0807_0605,
            },
            RelativeTime(0x1817_1615_1413_1211),
        );
        let section: [&[u8]; 4] = [
            &[0x01, 255, 240, 0, flags, 0],
            &[0x01, 0x02, 0x03, 0x04],
            &[0x05, 0x06, 0x07, 0x08],
            &[0x11, 0x12, 0x13, 0x14, 0x15, 0x16, 0x17, 0x18],
        ];
        let expected = octets(&[0x01, 0x11, 0x1E, 0, 0, 1], &US.0, &section);
        agree(new, |target| new.write_frame(target), &expected);
    }
}

#[test]
fn soa() {
    for (ea, er, flags) in [
        (false, false, 0x00),
        (true, false, 0x04),
        (false, true, 0x02),
        (true, true, 0x06),
    ] {
        let new = SoAFrame::new(
            US,
            NmtState::NmtReadyToOperate,
            SoAFlags { ea, er },
            RequestedServiceId::UnspecifiedInvite,
            NodeId(7),
            EPLVersion(0x20),
        );
        let section = [0x05, 255, 240, 0x6D, flags, 0, 0xFF, 7, 0x20];
        let expected = octets(&[0x01, 0x11, 0x1E, 0, 0, 3], &US.0, &[&section]);
        agree(new, |target| new.write_frame(target), &expected);
    }
}

#[test]
fn preq() {
    for len in [0, 1, 35, 36, 37, 255, 256, 1490] {
        for bits in 0..8 {
            let payload: Vec<u8> = (0..len).map(|i| i as u8 ^ 0xA5).collect();
            let flags = PReqFlags {
                ms: bits & 4 != 0,
                ea: bits & 2 != 0,
                rd: bits & 1 != 0,
            };
            let new = PReqFrame::new(US, THEM, NodeId(7), flags, PDOVersion(3), &payload);
            let flags = (bits & 4) << 3 | (bits & 2) << 1 | (bits & 1);
            let [low, high] = (len as u16).to_le_bytes();
            let section = [0x03, 7, 240, 0, flags, 0, 3, 0, low, high];
            let expected = octets(&THEM.0, &US.0, &[&section, &payload]);
            agree(new, |target| new.write_frame(target), &expected);
        }
    }
}

#[test]
fn pres() {
    for len in [0, 1, 35, 36, 37, 255, 256, 1490] {
        for bits in 0..8 {
            let payload: Vec<u8> = (0..len).map(|i| i as u8 ^ 0xA5).collect();
            let flags = PResFlags {
                ms: bits & 4 != 0,
                en: bits & 2 != 0,
                rd: bits & 1 != 0,
                pr: PRFlag::from_bits(bits),
                rs: RSFlag::new(7 - bits),
            };
            let state = NmtState::NmtOperational;
            let new = PResFrame::new(US, NodeId(7), state, flags, PDOVersion(3), &payload);
            let flags = (bits & 4) << 3 | (bits & 2) << 3 | (bits & 1);
            let [low, high] = (len as u16).to_le_bytes();
            let section = [
                0x04,
                255,
                7,
                0xFD,
                flags,
                bits << 3 | (7 - bits),
                3,
                0,
                low,
                high,
            ];
            let expected = octets(&[0x01, 0x11, 0x1E, 0, 0, 2], &US.0, &[&section, &payload]);
            agree(new, |target| new.write_frame(target), &expected);
        }
    }
}

#[test]
fn asnd() {
    // The last octet is never 0, so that nothing is trimmed.
    for len in [0, 1, 41, 42, 43, 255, 256, 1490, 1500] {
        let payload: Vec<u8> = (0..len).map(|i| i as u8 | 1).collect();
        let new = ASndFrame::new(US, THEM, NodeId(240), NodeId(7), ServiceId::SDO, &payload);
        let expected = octets(&THEM.0, &US.0, &[&[0x06, 240, 7, 0x05], &payload]);
        agree(new, |target| new.write_frame(DS301, target), &expected);
    }
}

#[test]
fn an_asnd_of_the_smallest_size_loses_the_zeros_at_its_end() {
    let mut section = vec![0; 46];
    section[0] = 6;
    section[3] = 2;
    section[4] = 0xAA;
    assert_eq!(
        deserialize_frame(DS301, &framed(&section)).unwrap().payload,
        [0xAA]
    );
    section.push(0);
    assert_eq!(
        deserialize_frame(DS301, &framed(&section))
            .unwrap()
            .payload
            .len(),
        43
    );
    section.truncate(45);
    assert_eq!(
        deserialize_frame(DS301, &framed(&section))
            .unwrap()
            .payload
            .len(),
        41
    );
}

#[test]
fn a_payload_is_a_part_of_what_was_read() {
    let mut section = vec![0; 60];
    section[0] = 3;
    section[8] = 5;
    let frame = framed(&section);
    let payload = deserialize_frame(DS301, &frame).unwrap().payload;
    assert_eq!(payload.as_ptr(), frame[24..].as_ptr());
    assert_eq!(payload.len(), 5);
}

#[test]
fn a_size_counts_modulo_65536() {
    let payload = vec![0xAA; 65537];
    let new = PReqFrame::new(
        US,
        THEM,
        NodeId(7),
        PReqFlags::default(),
        PDOVersion(0),
        &payload,
    );
    assert_eq!(new.frame().payload_size, 1);
    let mut target = vec![0; 24 + 65537];
    assert_eq!(new.write_frame(&mut target), Ok(24 + 65537));
    assert_eq!(target[22..24], [1, 0]);
    let state = NmtState::NmtOperational;
    let new = PResFrame::new(
        US,
        NodeId(7),
        state,
        PResFlags::default(),
        PDOVersion(0),
        &payload,
    );
    assert_eq!(new.frame().payload_size, 1);
    assert_eq!(new.write_frame(&mut target), Ok(24 + 65537));
    assert_eq!(target[22..24], [1, 0]);
}

#[test]
fn a_size_is_written_as_given() {
    let preq = PReqFrame {
        destination: NodeId(1),
        source: NodeId(2),
        flags: PReqFlags::default(),
        pdo_version: PDOVersion(0),
        payload_size: 0x1234,
    };
    let mut target = [0; 46];
    assert_eq!(preq.serialize(&[9], &mut target), Ok(46));
    assert_eq!(target[8..11], [0x34, 0x12, 9]);
}

#[test]
fn fields_of_any_value_are_kept() {
    let soc = SocFrame {
        destination: NodeId(0),
        source: NodeId(254),
        flags: SocFlags::default(),
        net_time: NetTime {
            seconds: u32::MAX,
            nanoseconds: u32::MAX,
        },
        relative_time: RelativeTime(u64::MAX),
    };
    let mut target = [0; 46];
    assert_eq!(soc.serialize(&mut target), Ok(46));
    assert_eq!(
        deserialize_frame(DS301, &framed(&target))
            .unwrap()
            .frame
            .into_soc(),
        Ok(soc)
    );
}

#[test]
fn kinds() {
    let soc = SocFrame::new(US, SocFlags::default(), NetTime::default(), RelativeTime(0));
    let frame = PowerlinkFrame::from(*soc.frame());
    assert_eq!(frame.into_soc(), Ok(*soc.frame()));
    assert_eq!(frame.into_preq(), Err(frame));
    assert_eq!(frame.into_pres(), Err(frame));
    assert_eq!(frame.into_soa(), Err(frame));
    assert_eq!(frame.into_asnd(), Err(frame));
}

#[test]
fn headers() {
    let header = EthernetHeader {
        destination_mac: MacAddress([1, 2, 3, 4, 5, 6]),
        source_mac: MacAddress([7, 8, 9, 10, 11, 12]),
        ether_type: 0x0800,
    };
    assert!(!header.is_powerlink());
    let mut target = [0xEE; 15];
    assert_eq!(serialize_eth_header(&header, &mut target), Ok(14));
    assert_eq!(
        target,
        [1, 2, 3, 4, 5, 6, 7, 8, 9, 10, 11, 12, 0x08, 0x00, 0xEE]
    );
    assert_eq!(deserialize_eth_header(&target), Ok(header));

    let mut target = [0xEE; 4];
    assert_eq!(
        serialize_pl_header(MessageType::SoA, NodeId(1), NodeId(2), &mut target),
        Ok(3)
    );
    assert_eq!(target, [5, 1, 2, 0xEE]);
    let header = PlHeader {
        message_type: MessageType::SoA,
        destination: NodeId(1),
        source: NodeId(2),
    };
    assert_eq!(deserialize_pl_header(&target), Ok(header));
    target[0] |= 0x80;
    assert_eq!(deserialize_pl_header(&target), Ok(header));
}

#[test]
fn addresses() {
    assert!(MacAddress(SocFrame::MULTICAST).is_multicast());
    assert!(!MacAddress(SocFrame::MULTICAST).is_broadcast());
    assert!(!US.is_multicast());
    assert!(MacAddress([0xFF; 6]).is_broadcast());
    assert_eq!(
        MacAddress([1, 0x11, 0x1E, 0, 0, 4]).to_string(),
        "01:11:1E:00:00:04"
    );
}

/// Whatever the octets are, reading ends in an answer, and what was read is read again from what is
/// written of it.
#[test]
fn any_octets() {
    let mut numbers = Numbers(1);
    let mut read = 0;
    for _ in 0..20_000 {
        let mut section: Vec<u8> = (0..numbers.below(80))
            .map(|_| numbers.below(256) as u8)
            .collect();
        let kind = [1, 3, 4, 5, 6][numbers.below(5) as usize];
        let state = [0x1D, 0xFD, 0x4D][numbers.below(3) as usize];
        let small = numbers.below(40) as u8;
        // Mostly what passes some of the tests.
        for (place, octet) in [(0, kind), (1, 255), (3, state), (6, 2), (8, small), (9, 0)] {
            if place < section.len() && numbers.below(8) > 0 {
                section[place] = octet;
            }
        }
        if kind == 6 && section.len() > 3 && numbers.below(8) > 0 {
            section[3] = 1 + numbers.below(5) as u8;
        }
        let octets = framed(&section);
        if let Ok(frame) = deserialize_frame(DS301, &octets) {
            read += 1;
            let mut target = [0; 200];
            let n = frame.write_frame(DS301, &mut target).unwrap();
            let again = deserialize_frame(DS301, &target[..n]).unwrap();
            assert_eq!(
                (again.eth_header, again.frame),
                (frame.eth_header, frame.frame)
            );
            // A short ASnd comes back padded, and then trimmed.
            let len = again.payload.len().min(frame.payload.len());
            assert_eq!(again.payload[..len], frame.payload[..len]);
            assert!(frame.payload[len..].iter().all(|octet| *octet == 0));
        }
    }
    assert!(read > 5_000, "only {read} were read");
}
