//! IDs, versions and constants.
use core::fmt;

/// A POWERLINK node ID. Any octet is one: what a frame holds is kept as it stands.
#[derive(Debug, Clone, Copy, PartialEq, Eq, PartialOrd, Ord, Hash)]
pub struct NodeId(pub u8);

impl fmt::Display for NodeId {
    fn fmt(&self, f: &mut fmt::Formatter<'_>) -> fmt::Result {
        self.0.fmt(f)
    }
}

impl From<NodeId> for u8 {
    fn from(id: NodeId) -> u8 {
        id.0
    }
}

impl TryFrom<u8> for NodeId {
    type Error = NodeIdError;

    /// The ID that a node may have or that stands for all: 1 to 240, or 253 to 255. Frames are read
    /// and written with any; `NodeId(octet)` is one without this test.
    fn try_from(octet: u8) -> Result<Self, NodeIdError> {
        match octet {
            1..=C_ADR_MN_DEF_NODE_ID | 253..=C_ADR_BROADCAST_NODE_ID => Ok(NodeId(octet)),
            _ => Err(NodeIdError::InvalidRange(octet)),
        }
    }
}

/// Why an octet is no [`NodeId`] to `try_from`.
#[derive(Debug, Clone, Copy, PartialEq, Eq, Hash)]
pub enum NodeIdError {
    /// It is 0, or 241 to 252.
    InvalidRange(u8),
}

impl fmt::Display for NodeIdError {
    fn fmt(&self, f: &mut fmt::Formatter<'_>) -> fmt::Result {
        let NodeIdError::InvalidRange(octet) = self;
        write!(f, "node ID {octet} is not one of 1 to 240 or 253 to 255")
    }
}

impl core::error::Error for NodeIdError {}

/// The version of POWERLINK (EPSG DS 301, Table 112).
#[derive(Debug, Clone, Copy, PartialEq, Eq, Hash)]
pub struct EPLVersion(pub u8);

/// The version of a PDO's mapping (EPSG DS 301, 6.4.2).
#[derive(Debug, Clone, Copy, PartialEq, Eq, Hash)]
pub struct PDOVersion(pub u8);

/// The EtherType of POWERLINK frames.
pub const C_DLL_ETHERTYPE_EPL: u16 = 0x88AB;

/// The node ID of the managing node, the box.
pub const C_ADR_MN_DEF_NODE_ID: u8 = 240;

/// The largest node ID of a controlled node, a head.
pub const C_ADR_MAX_CN_NODE_ID: u8 = 239;

/// The node ID of a frame to all nodes.
pub const C_ADR_BROADCAST_NODE_ID: u8 = 255;

/// The address that a SoC is sent to (EPSG DS 301, Appendix 3).
pub const C_DLL_MULTICAST_SOC: [u8; 6] = [0x01, 0x11, 0x1E, 0x00, 0x00, 0x01];

/// The address that a PRes is sent to.
pub const C_DLL_MULTICAST_PRES: [u8; 6] = [0x01, 0x11, 0x1E, 0x00, 0x00, 0x02];

/// The address that an SoA is sent to.
pub const C_DLL_MULTICAST_SOA: [u8; 6] = [0x01, 0x11, 0x1E, 0x00, 0x00, 0x03];

/// The address that an ASnd to all nodes is sent to.
pub const C_DLL_MULTICAST_ASND: [u8; 6] = [0x01, 0x11, 0x1E, 0x00, 0x00, 0x04];
