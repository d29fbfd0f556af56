//! Lists the code tables of powerlink-rs, octet by octet, then its addresses and IDs, in the form in which our program `codes` begins.
use powerlink_rs::frame::error::ErrorEntryMode;
use powerlink_rs::PowerlinkError;
use powerlink_rs::frame::{PRFlag, PowerlinkFrame, RequestedServiceId, ServiceId, StatusResponsePayload, deserialize_frame};
use powerlink_rs::nmt::states::NmtState;
use powerlink_rs::types::{self, MessageType};
use std::fmt::Debug;

/// What a table makes of each octet below `end`: the code that is written for the value, and the value's name.
fn list<T: Copy + Debug>(name: &str, end: u16, read: impl Fn(u8) -> Option<T>, code: impl Fn(T) -> u8) {
    println!("{name:<24}code");
    for b in 0..end {
        if let Some(value) = read(b as u8) {
            println!("{:<24}{:02x}", format!("{value:?}"), code(value));
        }
    }
}

/// How many entries the chain of ASnd and StatusResponse finds in a section of `len` octets with service 2, zeros but for
/// the octets given.
fn chain(len: usize, octets: &[(usize, u8)]) -> Result<usize, PowerlinkError> {
    let mut f = vec![0; 14 + len];
    f[12..18].copy_from_slice(&[0x88, 0xAB, 6, 0, 0, 2]);
    for (at, b) in octets {
        f[14 + at] = *b;
    }
    let PowerlinkFrame::ASnd(asnd) = deserialize_frame(&f)? else {
        panic!("an ASnd is read as another kind");
    };
    Ok(StatusResponsePayload::deserialize(&asnd.payload)?.error_entries.len())
}

fn address(name: &str, a: [u8; 6]) {
    println!("{name:<24} {}", a.map(|b| format!("{b:02x}")).join(" "));
}

fn number(name: &str, n: u64) {
    println!("{name:<24} {n}");
}

fn main() {
    list("message types", 256, |b| MessageType::try_from(b).ok(), |v| v as u8);
    list("NMT states", 256, |b| NmtState::try_from(b).ok(), |v| v as u8);
    list("services", 256, |b| ServiceId::try_from(b).ok(), |v| v as u8);
    list("requested services", 256, |b| RequestedServiceId::try_from(b).ok(), |v| v as u8);
    list("priorities", 256, |b| PRFlag::try_from(b).ok(), |v| v as u8);
    list("error entry modes", 256, |b| ErrorEntryMode::try_from(b).ok(), |v| v as u8);

    address("SoC address", types::C_DLL_MULTICAST_SOC);
    address("PRes address", types::C_DLL_MULTICAST_PRES);
    address("SoA address", types::C_DLL_MULTICAST_SOA);
    address("ASnd address", types::C_DLL_MULTICAST_ASND);
    number("EtherType", types::C_DLL_ETHERTYPE_EPL.into());
    number("managing node", types::C_ADR_MN_DEF_NODE_ID.into());
    number("last controlled node", types::C_ADR_MAX_CN_NODE_ID.into());
    number("all nodes", types::C_ADR_BROADCAST_NODE_ID.into());

    // docs/DIFFERENCES.md: ASnd then StatusResponse loses what trimming takes; tests/replay/from_01/reading.txt has both payloads untrimmed.
    assert_eq!(chain(46, &[]), Err(PowerlinkError::BufferTooShort));
    assert_eq!(chain(46, &[(19, 0x10)]), Ok(0));
}
