//! Poll Request (EPSG DS 301, 4.6.1.1.3).
use super::{EthernetHeader, MacAddress, NewFrame};
use crate::ffi;
use crate::types::{NodeId, PDOVersion, C_ADR_MN_DEF_NODE_ID};
use crate::Error;

/// The flags of a PReq (EPSG DS 301, Table 18).
#[derive(Debug, Clone, Copy, PartialEq, Eq, Hash, Default)]
pub struct PReqFlags {
    /// Multiplexed slot.
    pub ms: bool,
    /// Exception acknowledge. From the managing node it is that of
    /// [`Collector::flags`](crate::Collector::flags) at the moment of sending: any other may close
    /// a batch that is not booked, and its entries are lost.
    pub ea: bool,
    /// Ready: the payload is valid.
    pub rd: bool,
}

/// Poll Request, from the managing node to one controlled node: the fields in front of its payload.
#[derive(Debug, Clone, Copy, PartialEq, Eq, Hash)]
pub struct PReqFrame {
    /// The node that the frame is for.
    pub destination: NodeId,
    /// The node that has sent it.
    pub source: NodeId,
    /// The flags.
    pub flags: PReqFlags,
    /// The version of the payload's mapping.
    pub pdo_version: PDOVersion,
    /// The length of the payload, as the frame tells it.
    pub payload_size: u16,
}

impl PReqFrame {
    /// A PReq from the managing node to one controlled node. Its size is the payload's length
    /// modulo 65,536. The EA in its flags is that of [`Collector::flags`](crate::Collector::flags)
    /// when it is sent.
    pub fn new(
        source_mac: MacAddress,
        dest_mac: MacAddress,
        target_node_id: NodeId,
        flags: PReqFlags,
        pdo_version: PDOVersion,
        payload: &[u8],
    ) -> NewFrame<'_, PReqFrame> {
        NewFrame {
            eth_header: EthernetHeader::new(dest_mac, source_mac),
            frame: PReqFrame {
                destination: target_node_id,
                source: NodeId(C_ADR_MN_DEF_NODE_ID),
                flags,
                pdo_version,
                payload_size: payload.len() as u16,
            },
            payload,
        }
    }

    /// Writes the frame without its Ethernet header: 10 octets and the payload, padded with zeros
    /// to 46, or a refusal of a shorter target (1). The size is written as the frame holds it.
    pub fn serialize(&self, payload: &[u8], target: &mut [u8]) -> Result<usize, Error> {
        ffi::serialize_preq(self, payload, target)
    }
}

impl NewFrame<'_, PReqFrame> {
    /// Writes the whole frame: 24 octets and the payload, padded with zeros to 60, or a refusal of
    /// a shorter target (1).
    pub fn write_frame(&self, target: &mut [u8]) -> Result<usize, Error> {
        ffi::new_preq(self, target)
    }
}
