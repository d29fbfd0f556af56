//! The tables of codes here, octet by octet against the library's.
use crate::{framed, DS301};
use powerlink::*;

/// Reads a section with these octets, and zeros for what is not given.
fn read(octets: &[(usize, u8)]) -> Result<PowerlinkFrame, Error> {
    let mut section = [0; 46];
    for (place, octet) in octets {
        section[*place] = *octet;
    }
    deserialize_frame(DS301, &framed(&section)).map(|frame| frame.frame)
}

#[test]
fn message_types() {
    for octet in 0..=0xFF {
        let read = deserialize_pl_header(&[octet, 0, 0]).map(|header| header.message_type);
        assert_eq!(read, MessageType::try_from(octet & 0x7F));
        assert!(read.is_err() || u8::from(read.unwrap()) == octet & 0x7F);
    }
}

#[test]
fn states() {
    let mut known = 0;
    for octet in 0..=0xFF {
        let state = NmtState::try_from(octet);
        let soa = read(&[(0, 5), (3, octet)]);
        let soa = soa.map(|frame| frame.into_soa().unwrap().nmt_state);
        assert_eq!(soa, state);
        let pres = read(&[(0, 4), (1, 255), (3, octet)]);
        let pres = pres.map(|frame| frame.into_pres().unwrap().nmt_state);
        assert_eq!(pres, state);
        let mut payload = [0; 14];
        payload[2] = octet;
        let status = StatusResponse::deserialize(&payload);
        assert_eq!(status.map(|status| status.fields.nmt_state), state);
        if let Ok(state) = state {
            assert_eq!(u8::from(state), octet);
            known += 1;
        }
    }
    assert_eq!(known, 12);
}

#[test]
fn requested_services() {
    let mut known = 0;
    for octet in 0..=0xFF {
        let service = RequestedServiceId::try_from(octet);
        let soa = read(&[(0, 5), (6, octet)]);
        let soa = soa.map(|frame| frame.into_soa().unwrap().req_service_id);
        assert_eq!(soa, service);
        if let Ok(service) = service {
            assert_eq!(u8::from(service), octet);
            known += 1;
        }
    }
    assert_eq!(known, 5);
}

#[test]
fn priorities_and_requests() {
    for octet in 0..=0xFF {
        let pres = read(&[(0, 4), (1, 255), (5, octet)]).unwrap();
        let flags = pres.into_pres().unwrap().flags;
        assert_eq!(flags.pr as u8, octet >> 3 & 7);
        assert_eq!(flags.pr, PRFlag::from_bits(octet >> 3));
        assert_eq!(flags.rs.get(), octet & 7);
        assert_eq!(RSFlag::new(octet).get(), octet.min(7));
    }
}

#[test]
fn modes() {
    for octet in 0..=0xFF {
        let mut octets = [0; 20];
        octets[1] = octet;
        let entry_type = ErrorEntry::deserialize(&octets).unwrap().entry_type;
        assert_eq!(entry_type.mode as u8, octet >> 4 & 3);
        assert_eq!(entry_type.mode, ErrorEntryMode::from_bits(octet >> 4));
        assert_eq!(entry_type.is_status_entry, octet & 0x80 != 0);
        assert_eq!(entry_type.send_to_queue, octet & 0x40 != 0);
        assert_eq!(entry_type.profile, (octet as u16 & 0x0F) << 8);
    }
}
