//! Start of Cycle (EPSG DS 301, 4.6.1.1.2).
use super::{EthernetHeader, MacAddress, NewFrame};
use crate::common::{NetTime, RelativeTime};
use crate::ffi;
use crate::types::{NodeId, C_ADR_BROADCAST_NODE_ID, C_ADR_MN_DEF_NODE_ID, C_DLL_MULTICAST_SOC};
use crate::Error;

/// The flags of a SoC (EPSG DS 301, Table 16).
#[derive(Debug, Clone, Copy, PartialEq, Eq, Hash, Default)]
pub struct SocFlags {
    /// Multiplexed cycle completed.
    pub mc: bool,
    /// Prescaled slot.
    pub ps: bool,
}

/// Start of Cycle, from the managing node to all nodes.
#[derive(Debug, Clone, Copy, PartialEq, Eq, Hash)]
pub struct SocFrame {
    /// The node that the frame is for.
    pub destination: NodeId,
    /// The node that has sent it.
    pub source: NodeId,
    /// The flags.
    pub flags: SocFlags,
    /// The network's time.
    pub net_time: NetTime,
    /// The time since the network's start.
    pub relative_time: RelativeTime,
}

impl SocFrame {
    /// The address that a SoC is sent to.
    pub const MULTICAST: [u8; 6] = C_DLL_MULTICAST_SOC;

    /// A SoC from the managing node to all nodes.
    pub fn new(
        source_mac: MacAddress,
        flags: SocFlags,
        net_time: NetTime,
        relative_time: RelativeTime,
    ) -> NewFrame<'static, SocFrame> {
        NewFrame {
            eth_header: EthernetHeader::new(MacAddress(Self::MULTICAST), source_mac),
            frame: SocFrame {
                destination: NodeId(C_ADR_BROADCAST_NODE_ID),
                source: NodeId(C_ADR_MN_DEF_NODE_ID),
                flags,
                net_time,
                relative_time,
            },
            payload: &[],
        }
    }

    /// Writes the frame without its Ethernet header: 46 octets, or a refusal of a shorter target
    /// (1).
    pub fn serialize(&self, target: &mut [u8]) -> Result<usize, Error> {
        ffi::serialize_soc(self, target)
    }
}

impl NewFrame<'_, SocFrame> {
    /// Writes the whole frame: 60 octets, or a refusal of a shorter target (1).
    pub fn write_frame(&self, target: &mut [u8]) -> Result<usize, Error> {
        ffi::new_soc(self, target)
    }
}
