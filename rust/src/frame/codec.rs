//! Reading any frame, writing any frame, and the two headers.
use super::{
    ASndFrame, EthernetHeader, Frame, PReqFlags, PReqFrame, PResFlags, PResFrame, PowerlinkFrame,
    SoAFlags, SoAFrame, SocFlags, SocFrame,
};
use crate::codes::{MessageType, PRFlag, RSFlag};
use crate::common::{NetTime, RelativeTime};
use crate::ffi;
use crate::numbers::{code, flag, narrow};
use crate::services::{ServiceId, Services};
use crate::types::{EPLVersion, NodeId, PDOVersion};
use crate::Error;

/// Reads a frame, from its Ethernet header on. Tested are, in this order: 14 octets (1), the
/// EtherType (2), that a section follows (3), its message type (4), then the kind's own rules (1,
/// 3, 5, 6, 7), of which 6 is an ASnd whose service the table does not hold.
///
/// The payload of an ASnd whose section has exactly 46 octets loses the zeros at its end, since it
/// may be padded.
///
/// ```
/// use powerlink::{deserialize_frame, Error, PowerlinkFrame, Services};
///
/// let services = Services::default();
/// let mut octets = [0; 24];
/// octets[12..15].copy_from_slice(&[0x88, 0xAB, 3]);
/// let frame = deserialize_frame(&services, &octets)?;
/// assert!(matches!(frame.frame, PowerlinkFrame::PReq(preq) if preq.payload_size == 0));
///
/// let refused = deserialize_frame(&services, &octets[..13]);
/// assert_eq!(refused, Err(Error::BufferTooShort));
/// # Ok::<(), Error>(())
/// ```
pub fn deserialize_frame<'a>(services: &Services, buffer: &'a [u8]) -> Result<Frame<'a>, Error> {
    let values = ffi::deserialize_frame(services, buffer)?;
    let start: usize = narrow(values[3]);
    let len: usize = narrow(values[4]);
    Ok(Frame {
        eth_header: ffi::deserialize_eth_header(buffer)?,
        frame: frame_of(&values),
        payload: &buffer[start..][..len],
    })
}

/// The frame that the library's numbers are.
fn frame_of(values: &[u64; 16]) -> PowerlinkFrame {
    let kind: MessageType = code(values[0]);
    let destination = NodeId(narrow(values[1]));
    let source = NodeId(narrow(values[2]));
    match kind {
        MessageType::SoC => PowerlinkFrame::Soc(SocFrame {
            destination,
            source,
            flags: SocFlags {
                mc: flag(values[5]),
                ps: flag(values[6]),
            },
            net_time: NetTime {
                seconds: narrow(values[7]),
                nanoseconds: narrow(values[8]),
            },
            relative_time: RelativeTime(values[9]),
        }),
        MessageType::PReq => PowerlinkFrame::PReq(PReqFrame {
            destination,
            source,
            flags: PReqFlags {
                ms: flag(values[5]),
                ea: flag(values[6]),
                rd: flag(values[7]),
            },
            pdo_version: PDOVersion(narrow(values[8])),
            payload_size: narrow(values[9]),
        }),
        MessageType::PRes => PowerlinkFrame::PRes(PResFrame {
            destination,
            source,
            nmt_state: code(values[10]),
            flags: PResFlags {
                ms: flag(values[5]),
                en: flag(values[6]),
                rd: flag(values[7]),
                pr: PRFlag::from_bits(narrow(values[11])),
                rs: RSFlag::new(narrow(values[12])),
            },
            pdo_version: PDOVersion(narrow(values[8])),
            payload_size: narrow(values[9]),
        }),
        MessageType::SoA => PowerlinkFrame::SoA(SoAFrame {
            destination,
            source,
            nmt_state: code(values[10]),
            flags: SoAFlags {
                ea: flag(values[5]),
                er: flag(values[6]),
            },
            req_service_id: code(values[7]),
            target_node_id: NodeId(narrow(values[8])),
            epl_version: EPLVersion(narrow(values[9])),
        }),
        MessageType::ASnd => PowerlinkFrame::ASnd(ASndFrame {
            destination,
            source,
            service_id: ServiceId(narrow(values[5])),
        }),
    }
}

/// Writes a whole frame: its Ethernet header, the frame and its payload, as they are given. What
/// `new` has made is better written with `write_frame`, which is one call of the library; this
/// joins two, and the joining is not proved.
///
/// Refused are a target that is too short (1), then an ASnd whose service the table does not hold
/// (6); either leaves the target as it was.
pub fn serialize_frame(
    services: &Services,
    eth_header: &EthernetHeader,
    frame: &PowerlinkFrame,
    payload: &[u8],
    target: &mut [u8],
) -> Result<usize, Error> {
    // The section first: only its writer knows whether it fits.
    let Some((front, section)) = target.split_at_mut_checked(14) else {
        return Err(Error::BufferTooShort);
    };
    let len = frame.serialize(services, payload, section)?;
    Ok(serialize_eth_header(eth_header, front)? + len)
}

/// Reads the Ethernet header in front of a frame, whatever its EtherType. Refuses under 14 octets
/// (1).
pub fn deserialize_eth_header(buffer: &[u8]) -> Result<EthernetHeader, Error> {
    ffi::deserialize_eth_header(buffer)
}

/// Writes the 14 octets of an Ethernet header, or refuses a shorter target (1).
pub fn serialize_eth_header(header: &EthernetHeader, target: &mut [u8]) -> Result<usize, Error> {
    ffi::serialize_eth_header(header, target)
}

/// The three octets that every frame begins with, after its Ethernet header.
#[derive(Debug, Clone, Copy, PartialEq, Eq, Hash)]
pub struct PlHeader {
    /// The kind.
    pub message_type: MessageType,
    /// The node that the frame is for.
    pub destination: NodeId,
    /// The node that has sent it.
    pub source: NodeId,
}

/// Reads the octets that every frame begins with, after its Ethernet header. Refuses under three
/// octets (1), then an unknown message type (4).
pub fn deserialize_pl_header(buffer: &[u8]) -> Result<PlHeader, Error> {
    let values = ffi::deserialize_pl_header(buffer)?;
    Ok(PlHeader {
        message_type: code(values[0]),
        destination: NodeId(narrow(values[1])),
        source: NodeId(narrow(values[2])),
    })
}

/// Writes the three octets that every frame begins with, or refuses a shorter target (1).
pub fn serialize_pl_header(
    message_type: MessageType,
    destination: NodeId,
    source: NodeId,
    target: &mut [u8],
) -> Result<usize, Error> {
    ffi::serialize_pl_header(message_type, destination, source, target)
}
