//! Conversions that powerlink-rs has on its types.
use powerlink::*;

#[test]
fn node_ids() {
    for octet in 0..=255 {
        match NodeId::try_from(octet) {
            Ok(id) => {
                assert_eq!(u8::from(id), octet);
                assert!(!matches!(octet, 0 | 241..=252));
            }
            Err(NodeIdError::InvalidRange(of)) => {
                assert_eq!(of, octet);
                assert!(matches!(octet, 0 | 241..=252));
            }
        }
    }
    let refused = NodeId::try_from(241).unwrap_err().to_string();
    assert_eq!(refused, "node ID 241 is not one of 1 to 240 or 253 to 255");
}

/// Written as for powerlink-rs, whose `try_from` cannot fail either.
#[test]
#[allow(clippy::unnecessary_fallible_conversions)]
fn priorities_are_masked() {
    fn read(octet: u8) -> Result<PRFlag, Error> {
        Ok(PRFlag::try_from(octet)?)
    }
    for octet in 0..=255 {
        let priority = read(octet).unwrap();
        assert_eq!(u8::from(priority), octet % 8);
        assert_eq!(priority, PRFlag::from_bits(octet));
    }
}

#[test]
fn modes_are_not() {
    for number in 0..=255 {
        let mode = ErrorEntryMode::try_from(number);
        assert_eq!(mode.is_ok(), number <= 3);
        match mode {
            Ok(mode) => assert_eq!(u8::from(mode), number),
            Err(unknown) => assert_eq!(unknown, UnknownMode(number)),
        }
    }
}

/// The two octets of an entry's type, as the library reads and writes them.
#[test]
fn entry_types() {
    for value in 0..=0xFFFF_u16 {
        let mut octets = [0; 20];
        octets[..2].copy_from_slice(&value.to_le_bytes());
        let entry = ErrorEntry::deserialize(&octets).unwrap();
        assert_eq!(entry.entry_type, EntryType::from_u16(value));
        assert_eq!(entry.entry_type.to_u16(), value);
    }
    let mut wide = EntryType::from_u16(0x5002);
    wide.profile = 0xF002;
    assert_eq!(wide.to_u16(), 0x5002);
}

#[test]
fn times() {
    assert_eq!(NetTime::from_micros(5_000_006), NetTime::new(5, 6_000));
    assert_eq!(NetTime::from_micros(u64::MAX).nanoseconds, 551_615_000);
    let longest = NetTime::new(u32::MAX, u32::MAX);
    assert_eq!(
        longest.as_nanos(),
        4_294_967_295_000_000_000 + 4_294_967_295
    );
    assert_eq!(RelativeTime::new(7), RelativeTime(7));
}

#[test]
fn defaults_and_order() {
    let fields = StatusFields::default();
    assert_eq!(fields.nmt_state, NmtState::NmtNotActive);
    assert_eq!(fields.pr, PRFlag::PrioGenericRequest);
    assert_eq!(fields.rs.get(), 0);
    assert!(NmtState::NmtPreOperational1 < NmtState::NmtOperational);
}

#[test]
fn addresses_from_slices() {
    fn address(octets: &[u8]) -> Result<MacAddress, Error> {
        Ok(MacAddress::new(octets.try_into()?))
    }
    let octets = [1, 2, 3, 4, 5, 6, 7];
    assert_eq!(address(&octets[..6]), Ok(MacAddress([1, 2, 3, 4, 5, 6])));
    assert_eq!(address(&octets[..5]), Err(Error::BufferTooShort));
}
