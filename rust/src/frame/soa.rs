//! Start of Asynchronous (EPSG DS 301, 4.6.1.1.5).
use super::{EthernetHeader, MacAddress, NewFrame};
use crate::codes::{NmtState, RequestedServiceId};
use crate::ffi;
use crate::types::{
    EPLVersion, NodeId, C_ADR_BROADCAST_NODE_ID, C_ADR_MN_DEF_NODE_ID, C_DLL_MULTICAST_SOA,
};
use crate::Error;

/// The flags of an SoA (EPSG DS 301, Table 22).
#[derive(Debug, Clone, Copy, PartialEq, Eq, Hash, Default)]
pub struct SoAFlags {
    /// Exception acknowledge. From the managing node it is that of
    /// [`Collector::flags`](crate::Collector::flags) for the target, at the moment of sending: any
    /// other may close a batch that is not booked, and its entries are lost.
    pub ea: bool,
    /// Exception reset, of the same `flags`.
    pub er: bool,
}

/// Start of Asynchronous, from the managing node to all nodes; it asks one of them for a service.
#[derive(Debug, Clone, Copy, PartialEq, Eq, Hash)]
pub struct SoAFrame {
    /// The node that the frame is for.
    pub destination: NodeId,
    /// The node that has sent it.
    pub source: NodeId,
    /// The state of the managing node.
    pub nmt_state: NmtState,
    /// The flags.
    pub flags: SoAFlags,
    /// The service that is asked for.
    pub req_service_id: RequestedServiceId,
    /// The node that is asked.
    pub target_node_id: NodeId,
    /// The version of POWERLINK.
    pub epl_version: EPLVersion,
}

impl SoAFrame {
    /// The address that an SoA is sent to.
    pub const MULTICAST: [u8; 6] = C_DLL_MULTICAST_SOA;

    /// An SoA from the managing node to all nodes. Whatever service it requests, its flags are
    /// [`Collector::flags`](crate::Collector::flags) of the target when it is sent.
    pub fn new(
        source_mac: MacAddress,
        nmt_state: NmtState,
        flags: SoAFlags,
        requested_service: RequestedServiceId,
        target_node_id: NodeId,
        epl_version: EPLVersion,
    ) -> NewFrame<'static, SoAFrame> {
        NewFrame {
            eth_header: EthernetHeader::new(MacAddress(Self::MULTICAST), source_mac),
            frame: SoAFrame {
                destination: NodeId(C_ADR_BROADCAST_NODE_ID),
                source: NodeId(C_ADR_MN_DEF_NODE_ID),
                nmt_state,
                flags,
                req_service_id: requested_service,
                target_node_id,
                epl_version,
            },
            payload: &[],
        }
    }

    /// Writes the frame without its Ethernet header: 46 octets, or a refusal of a shorter target
    /// (1).
    pub fn serialize(&self, target: &mut [u8]) -> Result<usize, Error> {
        ffi::serialize_soa(self, target)
    }
}

impl NewFrame<'_, SoAFrame> {
    /// Writes the whole frame: 60 octets, or a refusal of a shorter target (1).
    pub fn write_frame(&self, target: &mut [u8]) -> Result<usize, Error> {
        ffi::new_soa(self, target)
    }
}
