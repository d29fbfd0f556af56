//! Addresses and the Ethernet header (IEEE 802.3, 3.1.1 and 3.2.3).
use crate::types::C_DLL_ETHERTYPE_EPL;
use core::fmt;

/// The six octets of an address, in the order in which they are sent.
#[derive(Debug, Clone, Copy, PartialEq, Eq, PartialOrd, Ord, Hash, Default)]
pub struct MacAddress(pub [u8; 6]);

impl MacAddress {
    /// The address with these octets.
    pub const fn new(octets: [u8; 6]) -> Self {
        MacAddress(octets)
    }

    /// Whether the address is that of a group.
    pub fn is_multicast(&self) -> bool {
        self.0[0] & 1 == 1
    }

    /// Whether the address is that of all stations.
    pub fn is_broadcast(&self) -> bool {
        self.0 == [0xFF; 6]
    }
}

impl fmt::Display for MacAddress {
    fn fmt(&self, f: &mut fmt::Formatter<'_>) -> fmt::Result {
        let [a, b, c, d, e, g] = self.0;
        write!(f, "{a:02X}:{b:02X}:{c:02X}:{d:02X}:{e:02X}:{g:02X}")
    }
}

impl From<[u8; 6]> for MacAddress {
    fn from(octets: [u8; 6]) -> Self {
        MacAddress(octets)
    }
}

/// The 14 octets in front of every frame.
#[derive(Debug, Clone, Copy, PartialEq, Eq, Hash)]
pub struct EthernetHeader {
    /// Where the frame goes.
    pub destination_mac: MacAddress,
    /// Where it comes from.
    pub source_mac: MacAddress,
    /// The EtherType as a number; it is sent high octet first.
    pub ether_type: u16,
}

impl EthernetHeader {
    /// The header of a POWERLINK frame from `src` to `dest`.
    pub fn new(dest: MacAddress, src: MacAddress) -> Self {
        EthernetHeader {
            destination_mac: dest,
            source_mac: src,
            ether_type: C_DLL_ETHERTYPE_EPL,
        }
    }

    /// Whether the EtherType is that of POWERLINK.
    pub fn is_powerlink(&self) -> bool {
        self.ether_type == C_DLL_ETHERTYPE_EPL
    }
}
