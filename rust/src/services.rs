//! The services of ASnd frames, and the tables that say which of them are known.
use crate::ffi;
use crate::Error;
use core::fmt;

/// The service of an ASnd frame, any octet: which of them are known, a table of [`Services`] says.
#[derive(Debug, Clone, Copy, PartialEq, Eq, PartialOrd, Ord, Hash)]
pub struct ServiceId(pub u8);

/// The twelve that powerlink-rs lists (EPSG DS 301, Appendix 3.3 and Table 138).
impl ServiceId {
    /// `IDENT_RESPONSE`.
    pub const IDENT_RESPONSE: ServiceId = ServiceId(0x01);
    /// `STATUS_RESPONSE`: the payload is that of a [`StatusResponse`](crate::StatusResponse).
    pub const STATUS_RESPONSE: ServiceId = ServiceId(0x02);
    /// `NMT_REQUEST`.
    pub const NMT_REQUEST: ServiceId = ServiceId(0x03);
    /// `NMT_COMMAND`.
    pub const NMT_COMMAND: ServiceId = ServiceId(0x04);
    /// `SDO`.
    pub const SDO: ServiceId = ServiceId(0x05);
    /// `NMTPublishTime`.
    pub const NMT_PUBLISH_TIME: ServiceId = ServiceId(0x0B);
    /// `NMTPublishNMTState`.
    pub const NMT_PUBLISH_NMT_STATE: ServiceId = ServiceId(0x0D);
    /// `NMTPublishNodeState`.
    pub const NMT_PUBLISH_NODE_STATE: ServiceId = ServiceId(0x0E);
    /// `NMTPublishNodeList`.
    pub const NMT_PUBLISH_NODE_LIST: ServiceId = ServiceId(0x0F);
    /// `NMTPublishEmergNew`.
    pub const NMT_PUBLISH_EMERG_NEW: ServiceId = ServiceId(0x10);
    /// `NMTPublishHeartbeat`.
    pub const NMT_PUBLISH_HEARTBEAT: ServiceId = ServiceId(0x11);
    /// `NMTPublishActiveNodes`.
    pub const NMT_PUBLISH_ACTIVE_NODES: ServiceId = ServiceId(0x12);

    /// All of them.
    const DS301: [ServiceId; 12] = [
        ServiceId::IDENT_RESPONSE,
        ServiceId::STATUS_RESPONSE,
        ServiceId::NMT_REQUEST,
        ServiceId::NMT_COMMAND,
        ServiceId::SDO,
        ServiceId::NMT_PUBLISH_TIME,
        ServiceId::NMT_PUBLISH_NMT_STATE,
        ServiceId::NMT_PUBLISH_NODE_STATE,
        ServiceId::NMT_PUBLISH_NODE_LIST,
        ServiceId::NMT_PUBLISH_EMERG_NEW,
        ServiceId::NMT_PUBLISH_HEARTBEAT,
        ServiceId::NMT_PUBLISH_ACTIVE_NODES,
    ];
}

impl From<ServiceId> for u8 {
    fn from(id: ServiceId) -> u8 {
        id.0
    }
}

/// The octets of a table of [`Services`].
pub const SERVICES_LEN: usize = 256;

/// A table of services: those of an ASnd frame that are known. Whoever reads or writes such a frame
/// takes one. It is an octet for each ID, and any but 0 means that the table holds the service.
///
/// Every table holds [`ServiceId::STATUS_RESPONSE`], so that the error exchange runs under each of
/// them; head and box need not have the same, nor each call. What an SoA requests is not in it.
///
/// ```
/// use powerlink::{Error, ServiceId, Services};
///
/// // StatusResponse, and a service of the house.
/// let house = Services::load(b"PLS\x01\x00\x02\xA0")?;
/// assert!(house.contains(ServiceId(0xA0)));
/// assert!(!house.contains(ServiceId::SDO));
///
/// assert_eq!(Services::load(b"PLS\x01\x00\xA0"), Err(Error::WithoutStatusResponse));
/// # Ok::<(), Error>(())
/// ```
#[derive(Clone)]
pub struct Services([u8; SERVICES_LEN]);

impl Services {
    /// The table of DS 301: the twelve services that [`ServiceId`] names.
    pub const DS301: Services = {
        let mut octets = [0; SERVICES_LEN];
        let mut i = 0;
        while i < ServiceId::DS301.len() {
            octets[ServiceId::DS301[i].0 as usize] = 1;
            i += 1;
        }
        Services(octets)
    };

    /// Loads a table from the octets of a file: `PLS`, the 16-bit version 1 with its low octet
    /// first, then the IDs that the table is to hold, an octet each, strictly ascending and with 2
    /// among them. Refused are under 5 octets, another mark and another version (20), IDs that are
    /// not strictly ascending (21), then those without 2 (22).
    pub fn load(file: &[u8]) -> Result<Self, Error> {
        Ok(Services(ffi::services_load(file)?))
    }

    /// Whether the table holds a service.
    pub fn contains(&self, id: ServiceId) -> bool {
        ffi::services_contains(self, id)
    }

    /// The octets of the table.
    pub const fn as_bytes(&self) -> &[u8; SERVICES_LEN] {
        &self.0
    }

    /// The table with these octets. Every pattern is a table.
    pub const fn from_bytes(octets: [u8; SERVICES_LEN]) -> Self {
        Services(octets)
    }
}

/// Two tables are equal that hold the same services, whatever their octets are.
impl PartialEq for Services {
    fn eq(&self, other: &Self) -> bool {
        (0..=u8::MAX)
            .map(ServiceId)
            .all(|id| self.contains(id) == other.contains(id))
    }
}

impl Eq for Services {}

/// The table of DS 301.
impl Default for Services {
    fn default() -> Self {
        Services::DS301
    }
}

/// The IDs of the services that the table holds.
impl fmt::Debug for Services {
    fn fmt(&self, f: &mut fmt::Formatter<'_>) -> fmt::Result {
        let held = (0..=u8::MAX).filter(|id| self.contains(ServiceId(*id)));
        f.write_str("Services ")?;
        f.debug_set().entries(held).finish()
    }
}
