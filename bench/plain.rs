//! The error exchange as one would write it in plain Rust on top of powerlink-rs: the same rules and limits as crates
//! reporter and collector (01, "Error exchange", and 02, CR 2), with structs behind `&mut`, fixed arrays as rings, and
//! powerlink-rs's own functions for every frame.
use powerlink_rs::PowerlinkError;
use powerlink_rs::common::NetTime;
use powerlink_rs::frame::basic::MacAddress;
use powerlink_rs::frame::codec::CodecHelpers;
use powerlink_rs::frame::control::SoAFlags;
use powerlink_rs::frame::error::{EntryType, ErrorEntry, ErrorEntryMode};
use powerlink_rs::frame::{ASndFrame, PRFlag, PowerlinkFrame, RSFlag, RequestedServiceId, ServiceId};
use powerlink_rs::frame::{SoAFrame, StaticErrorBitField, StatusResponsePayload, deserialize_frame};
use powerlink_rs::nmt::states::NmtState;
use powerlink_rs::types::{C_ADR_BROADCAST_NODE_ID, C_ADR_MAX_CN_NODE_ID, C_ADR_MN_DEF_NODE_ID, EPLVersion, NodeId};

const WAITING_MAX: usize = 16;
const BATCH_MAX: usize = 4;
const NODES: usize = 4;
const BOOK_MAX: usize = 64;
const ETH_HEADER: usize = 14;

#[derive(Debug, Clone, Copy, PartialEq, Eq)]
pub enum ExchangeError {
    Frame(PowerlinkError),
    EntryInvalid,
    StatusEntry,
    QueueFull,
    NotStatusResponse,
    NotRegistered,
    BookFull,
    IdOutOfRange,
    IdRegistered,
    Full,
    NothingBooked,
}

impl From<PowerlinkError> for ExchangeError {
    fn from(error: PowerlinkError) -> Self {
        ExchangeError::Frame(error)
    }
}

const NO_ENTRY: ErrorEntry = ErrorEntry {
    entry_type: EntryType {
        is_status_entry: false,
        send_to_queue: false,
        mode: ErrorEntryMode::Terminator,
        profile: 0,
    },
    error_code: 0,
    timestamp: NetTime { seconds: 0, nanoseconds: 0 },
    additional_information: 0,
};

/// The first `len` places from `start` on, around the end.
#[derive(Debug, Clone)]
struct Ring<const N: usize> {
    places: [ErrorEntry; N],
    start: usize,
    len: usize,
}

impl<const N: usize> Ring<N> {
    const fn new() -> Self {
        Ring { places: [NO_ENTRY; N], start: 0, len: 0 }
    }

    fn get(&self, i: usize) -> &ErrorEntry {
        &self.places[(self.start + i) % N]
    }

    fn push(&mut self, entry: ErrorEntry) {
        self.places[(self.start + self.len) % N] = entry;
        self.len += 1;
    }

    fn drop_first(&mut self, n: usize) {
        self.start = (self.start + n) % N;
        self.len -= n;
    }
}

fn check_id(id: NodeId) -> Result<(), ExchangeError> {
    if id.0 < 1 || id.0 > C_ADR_MAX_CN_NODE_ID { Err(ExchangeError::IdOutOfRange) } else { Ok(()) }
}

/// What an answer holds beside the entries and EN.
#[derive(Debug, Clone, Copy)]
pub struct AnswerFields {
    pub source_mac: MacAddress,
    pub dest_mac: MacAddress,
    pub ec_flag: bool,
    pub pr: PRFlag,
    pub rs: RSFlag,
    pub nmt_state: NmtState,
    pub static_error_bit_field: StaticErrorBitField,
}

#[derive(Debug, Clone, Copy, PartialEq, Eq)]
pub enum ReporterRead {
    Ignored,
    Kept,
    Closed,
}

/// A controlled node's side (01: the head): the open batch is the ring's first `open` entries, the others wait.
#[derive(Debug, Clone)]
pub struct Reporter {
    id: NodeId,
    en: bool,
    open: usize,
    entries: Ring<{ WAITING_MAX + BATCH_MAX }>,
}

impl Reporter {
    pub fn new(id: NodeId) -> Result<Self, ExchangeError> {
        check_id(id)?;
        Ok(Reporter { id, en: false, open: 0, entries: Ring::new() })
    }

    pub fn raise(&mut self, entry: ErrorEntry) -> Result<(), ExchangeError> {
        if entry.entry_type.mode == ErrorEntryMode::Terminator || entry.entry_type.profile > 0x0FFF {
            return Err(ExchangeError::EntryInvalid);
        }
        if entry.entry_type.is_status_entry {
            return Err(ExchangeError::StatusEntry);
        }
        if self.entries.len - self.open >= WAITING_MAX {
            return Err(ExchangeError::QueueFull);
        }
        self.entries.push(entry);
        Ok(())
    }

    pub fn answer(&mut self, fields: &AnswerFields, target: &mut [u8]) -> Result<usize, ExchangeError> {
        let (open, en) = if self.open == 0 && self.entries.len > 0 {
            (self.entries.len.min(BATCH_MAX), !self.en)
        } else {
            (self.open, self.en)
        };
        let status = StatusResponsePayload::new(
            en,
            fields.ec_flag,
            fields.pr,
            fields.rs,
            fields.nmt_state,
            fields.static_error_bit_field,
            (0..open).map(|i| *self.entries.get(i)).collect(),
        );
        let mut payload = vec![0; 34 + 20 * open];
        status.serialize(&mut payload)?;
        let frame = ASndFrame::new(
            fields.source_mac,
            fields.dest_mac,
            NodeId(C_ADR_BROADCAST_NODE_ID),
            self.id,
            ServiceId::StatusResponse,
            payload,
        );
        let written = write_frame(&PowerlinkFrame::ASnd(frame), target)?;
        (self.open, self.en) = (open, en);
        Ok(written)
    }

    pub fn read(&mut self, buffer: &[u8]) -> Result<ReporterRead, ExchangeError> {
        let (source, target, ea) = match deserialize_frame(buffer)? {
            PowerlinkFrame::PReq(f) => (f.source, f.destination, f.flags.ea),
            PowerlinkFrame::SoA(f) => (f.source, f.target_node_id, f.flags.ea),
            _ => return Ok(ReporterRead::Ignored),
        };
        if source.0 != C_ADR_MN_DEF_NODE_ID || target != self.id {
            return Ok(ReporterRead::Ignored);
        }
        if self.open == 0 || ea != self.en {
            return Ok(ReporterRead::Kept);
        }
        self.entries.drop_first(self.open);
        self.open = 0;
        Ok(ReporterRead::Closed)
    }
}

/// What a request holds beside the node and EA.
#[derive(Debug, Clone, Copy)]
pub struct RequestFields {
    pub source_mac: MacAddress,
    pub nmt_state: NmtState,
    pub epl_version: EPLVersion,
}

#[derive(Debug, Clone, Copy, PartialEq, Eq)]
pub enum CollectorRead {
    Known,
    Booked,
}

#[derive(Debug, Clone)]
struct Node {
    id: Option<NodeId>,
    ea: bool,
    book: Ring<BOOK_MAX>,
}

/// The managing node's side (01: the box).
#[derive(Debug, Clone)]
pub struct Collector {
    nodes: [Node; NODES],
}

impl Default for Collector {
    fn default() -> Self {
        Self::new()
    }
}

impl Collector {
    pub fn new() -> Self {
        Collector { nodes: [const { Node { id: None, ea: false, book: Ring::new() } }; NODES] }
    }

    fn node(&self, id: NodeId) -> Result<&Node, ExchangeError> {
        self.nodes.iter().find(|n| n.id == Some(id)).ok_or(ExchangeError::NotRegistered)
    }

    fn node_mut(&mut self, id: NodeId) -> Result<&mut Node, ExchangeError> {
        self.nodes.iter_mut().find(|n| n.id == Some(id)).ok_or(ExchangeError::NotRegistered)
    }

    pub fn register(&mut self, id: NodeId) -> Result<(), ExchangeError> {
        check_id(id)?;
        if self.node(id).is_ok() {
            return Err(ExchangeError::IdRegistered);
        }
        let free = self.nodes.iter_mut().find(|n| n.id.is_none()).ok_or(ExchangeError::Full)?;
        (free.id, free.ea, free.book.start, free.book.len) = (Some(id), false, 0, 0);
        Ok(())
    }

    pub fn read(&mut self, buffer: &[u8]) -> Result<CollectorRead, ExchangeError> {
        let PowerlinkFrame::ASnd(frame) = deserialize_frame(buffer)? else {
            return Err(ExchangeError::NotStatusResponse);
        };
        if frame.service_id != ServiceId::StatusResponse {
            return Err(ExchangeError::NotStatusResponse);
        }
        let node = self.node_mut(frame.source)?;
        // Untrimmed: an answer without entries ends in zeros.
        let status = StatusResponsePayload::deserialize(&buffer[ETH_HEADER + 4..])?;
        if status.en_flag == node.ea {
            return Ok(CollectorRead::Known);
        }
        // Status entries stay out of the book.
        let bookable = || status.error_entries.iter().filter(|entry| !entry.entry_type.is_status_entry);
        if bookable().count() > BOOK_MAX - node.book.len {
            return Err(ExchangeError::BookFull);
        }
        for entry in bookable() {
            node.book.push(*entry);
        }
        node.ea = status.en_flag;
        Ok(CollectorRead::Booked)
    }

    pub fn request(&self, id: NodeId, fields: &RequestFields, target: &mut [u8]) -> Result<usize, ExchangeError> {
        let node = self.node(id)?;
        let frame = SoAFrame::new(
            fields.source_mac,
            fields.nmt_state,
            SoAFlags { ea: node.ea, er: false },
            RequestedServiceId::StatusRequest,
            id,
            fields.epl_version,
        );
        Ok(write_frame(&PowerlinkFrame::SoA(frame), target)?)
    }

    pub fn take(&mut self, id: NodeId) -> Result<ErrorEntry, ExchangeError> {
        let node = self.node_mut(id)?;
        if node.book.len == 0 {
            return Err(ExchangeError::NothingBooked);
        }
        let entry = *node.book.get(0);
        node.book.drop_first(1);
        Ok(entry)
    }
}

/// A whole frame, as the Rust's callers write one: the section, then the Ethernet header in front.
pub fn write_frame(frame: &PowerlinkFrame, target: &mut [u8]) -> Result<usize, PowerlinkError> {
    let section = target.get_mut(ETH_HEADER..).ok_or(PowerlinkError::BufferTooShort)?;
    let written = frame.serialize(section)?;
    CodecHelpers::serialize_eth_header(frame.ethernet_header(), target);
    Ok(ETH_HEADER + written)
}
