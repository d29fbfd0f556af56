//! The journal that booked entries are kept in: [`START`], then a [`record`] for each entry. The
//! program `journal` of this repository lists it as text.
//!
//! Over a power cut, the journal goes with the state of the box that its entries were taken from:
//! its length is saved with the state, and after a restart it is cut to that length. Nothing is
//! appended behind a torn record, since it and what follows would be listed as faults that nobody
//! raised: [`whole_len`] is the length without it.
//!
//! ```
//! use powerlink::*;
//!
//! # fn main() -> Result<(), Error> {
//! # let fault = ErrorEntry {
//! #     entry_type: EntryType::from_u16(0x5002),
//! #     error_code: 0x1234,
//! #     timestamp: NetTime::new(5, 6),
//! #     additional_information: 0,
//! # };
//! # let mut the_box = Collector::new();
//! # the_box.register(NodeId(7))?;
//! # let mut head = Reporter::new(NodeId(7))?;
//! # head.raise(&fault)?;
//! # let fields = AnswerFields {
//! #     source_mac: MacAddress([2, 0, 0, 0, 0, 7]),
//! #     dest_mac: MacAddress(ASndFrame::MULTICAST),
//! #     ec_flag: false,
//! #     pr: PRFlag::default(),
//! #     rs: RSFlag::default(),
//! #     nmt_state: NmtState::NmtOperational,
//! #     static_error_bit_field: StaticErrorBitField::default(),
//! # };
//! # let mut line = [0; 132];
//! # let n = head.answer(&Services::DS301, &fields, &mut line)?;
//! # the_box.read(&Services::DS301, &line[..n])?;
//! // What the box has booked of node 7 goes into a journal.
//! let mut octets = journal::START.to_vec();
//! while let Ok(entry) = the_box.take(NodeId(7)) {
//!     let mut place = [0; journal::RECORD_LEN];
//!     journal::record(NodeId(7), &entry, &mut place)?;
//!     octets.extend(place);
//! }
//! assert_eq!(
//!     octets[..18],
//!     [b'P', b'L', b'B', 1, 0, 7, 0x02, 0x50, 0x34, 0x12, 5, 0, 0, 0, 6, 0, 0, 0]
//! );
//! assert_eq!(octets.len(), 5 + 21);
//!
//! // The managing node raises no entries.
//! let mut place = [0; journal::RECORD_LEN];
//! assert_eq!(
//!     journal::record(NodeId(240), &fault, &mut place),
//!     Err(Error::RecordInvalid)
//! );
//! # Ok(())
//! # }
//! ```
use crate::ffi;
use crate::frame::ErrorEntry;
use crate::types::NodeId;
use crate::Error;

/// What a journal begins with: `PLB`, and its version 1, low octet first.
pub const START: [u8; 5] = [b'P', b'L', b'B', 1, 0];

/// The octets of a record: the node ID, and the entry's 20.
pub const RECORD_LEN: usize = 21;

/// Writes a record to the front of `target`, and gives its length, 21. The entry's profile loses
/// what lies above its 12 bits. Refused are a shorter target (1), then an entry with the
/// terminator's mode, or an ID that is not one of 1 to 239 (19).
pub fn record(id: NodeId, entry: &ErrorEntry, target: &mut [u8]) -> Result<usize, Error> {
    ffi::journal_record(id, entry, target)
}

/// How much of a journal of `len` octets is whole: [`START`] and its records, without one that was
/// cut short. Before anything is appended after a restart, the journal is cut to this length, or to
/// a shorter one that was saved. A file of under 5 octets that begins as [`START`] does, or is empty, was begun, and is begun
/// anew. Refused are under 5 octets (17), then a version other than 1 (18),
/// which is the number in the journal's octets 3 and 4, low octet first.
///
/// ```
/// use powerlink::{journal, Error};
///
/// assert_eq!(journal::whole_len(1, 5 + 21 + 9), Ok(5 + 21));
/// assert_eq!(journal::whole_len(1, 4), Err(Error::NotAJournal));
/// assert_eq!(journal::whole_len(2, 5), Err(Error::UnknownVersion));
/// ```
pub fn whole_len(version: u16, len: usize) -> Result<usize, Error> {
    ffi::journal_whole_len(version, len)
}
