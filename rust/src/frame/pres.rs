//! Poll Response (EPSG DS 301, 4.6.1.1.4).
use super::{EthernetHeader, MacAddress, NewFrame};
use crate::codes::{NmtState, PRFlag, RSFlag};
use crate::ffi;
use crate::types::{NodeId, PDOVersion, C_ADR_BROADCAST_NODE_ID, C_DLL_MULTICAST_PRES};
use crate::Error;

/// The flags of a PRes (EPSG DS 301, Table 20).
#[derive(Debug, Clone, Copy, PartialEq, Eq, Hash, Default)]
pub struct PResFlags {
    /// Multiplexed slot.
    pub ms: bool,
    /// Exception new: that of [`Reporter::en`](crate::Reporter::en).
    pub en: bool,
    /// Ready: the payload is valid.
    pub rd: bool,
    /// The priority of the oldest request that waits.
    pub pr: PRFlag,
    /// How many requests wait.
    pub rs: RSFlag,
}

/// Poll Response, from a controlled node to all nodes: the fields in front of its payload.
#[derive(Debug, Clone, Copy, PartialEq, Eq, Hash)]
pub struct PResFrame {
    /// The node that the frame is for. One that is not for node 255 is not read.
    pub destination: NodeId,
    /// The node that has sent it.
    pub source: NodeId,
    /// The state of the controlled node.
    pub nmt_state: NmtState,
    /// The flags.
    pub flags: PResFlags,
    /// The version of the payload's mapping.
    pub pdo_version: PDOVersion,
    /// The length of the payload, as the frame tells it.
    pub payload_size: u16,
}

impl PResFrame {
    /// The address that a PRes is sent to.
    pub const MULTICAST: [u8; 6] = C_DLL_MULTICAST_PRES;

    /// A PRes from a controlled node to all nodes. Its size is the payload's length modulo 65,536.
    pub fn new(
        source_mac: MacAddress,
        source_node_id: NodeId,
        nmt_state: NmtState,
        flags: PResFlags,
        pdo_version: PDOVersion,
        payload: &[u8],
    ) -> NewFrame<'_, PResFrame> {
        NewFrame {
            eth_header: EthernetHeader::new(MacAddress(Self::MULTICAST), source_mac),
            frame: PResFrame {
                destination: NodeId(C_ADR_BROADCAST_NODE_ID),
                source: source_node_id,
                nmt_state,
                flags,
                pdo_version,
                payload_size: payload.len() as u16,
            },
            payload,
        }
    }

    /// Writes the frame without its Ethernet header: 10 octets and the payload, padded with zeros
    /// to 46, or a refusal of a shorter target (1). The size is written as the frame holds it.
    pub fn serialize(&self, payload: &[u8], target: &mut [u8]) -> Result<usize, Error> {
        ffi::serialize_pres(self, payload, target)
    }
}

impl NewFrame<'_, PResFrame> {
    /// Writes the whole frame: 24 octets and the payload, padded with zeros to 60, or a refusal of
    /// a shorter target (1).
    pub fn write_frame(&self, target: &mut [u8]) -> Result<usize, Error> {
        ffi::new_pres(self, target)
    }
}
