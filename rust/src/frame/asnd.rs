//! Asynchronous Send (EPSG DS 301, 4.6.1.1.6).
use super::{EthernetHeader, MacAddress, NewFrame};
use crate::ffi;
use crate::services::{ServiceId, Services};
use crate::types::{NodeId, C_DLL_MULTICAST_ASND};
use crate::Error;

/// Asynchronous Send, from any node: the fields in front of its payload.
#[derive(Debug, Clone, Copy, PartialEq, Eq, Hash)]
pub struct ASndFrame {
    /// The node that the frame is for.
    pub destination: NodeId,
    /// The node that has sent it.
    pub source: NodeId,
    /// What the payload is.
    pub service_id: ServiceId,
}

impl ASndFrame {
    /// The address of an ASnd to all nodes; `new` takes any.
    pub const MULTICAST: [u8; 6] = C_DLL_MULTICAST_ASND;

    /// An ASnd with all addresses and IDs given. The StatusResponse of a head is not made here, but
    /// by [`Reporter::answer`](crate::Reporter::answer) alone.
    pub fn new(
        source_mac: MacAddress,
        dest_mac: MacAddress,
        target_node_id: NodeId,
        source_node_id: NodeId,
        service_id: ServiceId,
        payload: &[u8],
    ) -> NewFrame<'_, ASndFrame> {
        NewFrame {
            eth_header: EthernetHeader::new(dest_mac, source_mac),
            frame: ASndFrame {
                destination: target_node_id,
                source: source_node_id,
                service_id,
            },
            payload,
        }
    }

    /// Writes the frame without its Ethernet header: 4 octets and the payload, padded with zeros to
    /// 46. Refused are a shorter target (1), then a service that the table does not hold (6).
    pub fn serialize(
        &self,
        services: &Services,
        payload: &[u8],
        target: &mut [u8],
    ) -> Result<usize, Error> {
        ffi::serialize_asnd(services, self, payload, target)
    }
}

impl NewFrame<'_, ASndFrame> {
    /// Writes the whole frame: 18 octets and the payload, padded with zeros to 60. Refused are a
    /// shorter target (1), then a service that the table does not hold (6).
    pub fn write_frame(&self, services: &Services, target: &mut [u8]) -> Result<usize, Error> {
        ffi::new_asnd(services, self, target)
    }
}
