//! Ethernet POWERLINK frames, the error exchange between a controlled node (a *head*) and the
//! managing node (the *box*), and the journal of what was booked: a safe wrapper over the static
//! library `libpowerlink.a` of this repository. It needs no standard library, but an allocator, for
//! a [`Collector`]'s state and for [`StatusFields::serialize`]; the archive is for x86-64.
//!
//! # Frames
//!
//! [`deserialize_frame`] reads a frame, from its Ethernet header on. Each kind ([`SocFrame`],
//! [`PReqFrame`], [`PResFrame`], [`SoAFrame`], [`ASndFrame`]) has `new`, whose frame
//! [`NewFrame::write_frame`] writes whole, and `serialize`, which writes the frame without its
//! Ethernet header. Payloads are lent: reading gives a part of the caller's octets, and writing
//! takes a slice.
//!
//! Which services of an ASnd are known, a table says: whatever reads or writes one takes
//! [`Services`], and refuses with 6 what the table does not hold. [`Services::default`] is the
//! table of DS 301; [`Services::load`] takes that of a house from a file.
//!
//! # The exchange
//!
//! A [`Reporter`] is a head's side: entries are raised, and answered batch by batch in
//! StatusResponses until the box has acknowledged them. A [`Collector`] is the box's side: it books
//! the entries of up to four heads and asks for more. Answers and requests may get lost, and may
//! come late or twice.
//!
//! ```
//! use powerlink::*;
//!
//! # fn main() -> Result<(), Error> {
//! let services = Services::default();
//! let mut head = Reporter::new(NodeId(7))?;
//! let mut the_box = Collector::new();
//! the_box.register(NodeId(7))?;
//!
//! let fault = ErrorEntry {
//!     entry_type: EntryType {
//!         is_status_entry: false,
//!         send_to_queue: true,
//!         mode: ErrorEntryMode::ErrorActive,
//!         profile: 2,
//!     },
//!     error_code: 0x1234,
//!     timestamp: NetTime { seconds: 5, nanoseconds: 6 },
//!     additional_information: 0,
//! };
//! head.raise(&fault)?;
//!
//! // The head answers; the answer arrives twice, and is booked once.
//! let fields = AnswerFields {
//!     source_mac: MacAddress([2, 0, 0, 0, 0, 7]),
//!     dest_mac: MacAddress(ASndFrame::MULTICAST),
//!     ec_flag: false,
//!     pr: PRFlag::PrioGenericRequest,
//!     rs: RSFlag::new(0),
//!     nmt_state: NmtState::NmtOperational,
//!     static_error_bit_field: StaticErrorBitField::default(),
//! };
//! let mut line = [0; 1514]; // Ethernet's longest frame: 132 octets do for our heads alone.
//! let n = head.answer(&services, &fields, &mut line)?;
//! assert_eq!(the_box.read(&services, &line[..n])?, CollectorRead::Booked);
//! assert_eq!(the_box.read(&services, &line[..n])?, CollectorRead::Known);
//!
//! // The box's next request acknowledges, and the head closes its batch.
//! let fields = RequestFields {
//!     source_mac: MacAddress([2, 0, 0, 0, 0, 240]),
//!     nmt_state: NmtState::NmtOperational,
//!     epl_version: EPLVersion(0x20),
//! };
//! let n = the_box.request(NodeId(7), &fields, &mut line)?;
//! assert_eq!(head.read(&services, &line[..n])?, ReporterRead::Closed);
//!
//! assert_eq!(the_box.take(NodeId(7))?, fault);
//! assert_eq!(the_box.take(NodeId(7)), Err(Error::NothingBooked));
//! # Ok(())
//! # }
//! ```
//!
//! What the box hands out goes into a [`journal`]. `examples/host_loop.rs` is a host that also
//! sends its cyclic frames and outlasts power cuts.
//!
//! # What the theorem asks of a host
//!
//! No entry is lost and none listed twice, where head and box start fresh together and each goes on
//! from its own last state, on a line that keeps the order of sending: no frame, late or repeated,
//! arrives after a later one of the same sender. A batch is told from its repeat by one bit alone:
//! EN of the head flips with each batch, and EA of the box is the EN of the last one that it has
//! booked. What does not keep to this is lost or listed twice with no call refused. So:
//!
//! **Frames of the managing node.** Every PReq to a head and every SoA with it as target tells it
//! EA, whatever the frame is for. It is [`Collector::flags`], of the moment of sending, and frames
//! leave in the order in which they asked for it: none is built ahead. Before the head is
//! registered, EA and ER are 0, which loses nothing.
//!
//! **Frames of a head.** Its StatusResponses come from [`Reporter::answer`] alone; its PRes has the
//! EN of [`Reporter::en`]. EN flips when an answer opens a batch, and not when an entry is raised:
//! it does not tell that entries wait, so that the box sends every head a request again and again.
//!
//! **Status entries.** An entry with bit 15 set and mode 1 to 3 shows what is wrong now, and heads of
//! another supplier send it in every answer. The box does not book it: an answer may arrive with
//! status entries put at any places among its entries, by whom ever, and the same is booked and
//! acknowledged as of the answer that was sent. Mode 0 ends the entries, with bit 15 too. A head of
//! ours does not take one ([`Error::StatusEntry`]): a fault that is to be listed is raised with
//! bit 15 clear. Who shows status entries reads every answer, known ones too, with
//! [`StatusResponse::deserialize`] of the octets from 18 on. Answers that carry them are longer than
//! the 132 octets of ours:
//!
//! **Whole frames.** A frame is read as long as it was received: of a StatusResponse that is cut
//! behind its first entries these are booked, and the others are lost. A head of another supplier
//! may send more than the four entries of ours.
//!
//! **Tables.** Each call takes any table of [`Services`], another one from call to call if need be:
//! what is booked and acknowledged does not depend on it, since every table holds StatusResponse.
//!
//! **Threads.** Both states are `Send` and `Sync`, and no call has a state of its own: separate
//! states go on at the same time, and for one state `&mut` is the lock, or asks for one. Where it
//! is shared, the lock is held until the frame is in its place in the order of sending, from a
//! reading to its saving, and from a `take` to the saving of state and journal. A cyclic
//! task that may not wait for the lock sends all frames to the heads itself, and takes EA from a
//! copy as each one leaves; the task that reads answers renews the copy after every
//! [`Collector::read`], once the state is saved and before the next answer is read.
//!
//! **Restarts.** Both ends begin anew together, with nothing left on the line. A state
//! ([`Reporter::as_bytes`], [`Collector::as_bytes`]) is saved after each call that has changed it
//! and before any later frame leaves, a head's before the answer itself leaves; whole, by a file
//! written anew, flushed and renamed. A cycle that reads, answers, saves and then sends does so. A
//! fault is accepted once the state after its [`Reporter::raise`] is saved. What else happens is
//! told at [`Reporter`] and [`Collector`]. Saved octets are of one [`VERSION`] alone, unless it is
//! said there.
//!
//! **The journal.** If the state is saved after the journal is written, a power cut between them
//! lists an entry twice; if before, it loses one. So the journal's length is saved with the state,
//! in one file: [`Collector::take`], append, flush the journal, save both. After a restart the
//! journal is cut to the saved length, and what is cut off, `take` hands out again. Where others
//! read the journal as it grows, it is cut to [`journal::whole_len`] instead, and `take` is only
//! called on a saved box: each record behind the saved length is then what the next `take` for its
//! ID hands out, and is taken, compared and not appended again. To compare the last record without
//! a length is not enough: of two equal entries, one would be lost.
//!
//! # Refusals
//!
//! Every call ends in its full answer or in an [`Error`], which has a number and, where a code was
//! not known, the octet that was found. A refused call leaves target and state as they were.
//! [`serialize_frame`], [`Frame::write_frame`] and [`StatusFields::serialize`] join several calls
//! of the library here; of them this is tested, and not proved.
//!
//! # What is proved, and what is not
//!
//! Proved, for all inputs, is the Rattle source of the functions in `libpowerlink.a`
//! (`crates/powerlink` and what it builds on): that each answers as its definitions in
//! `crates/*/specs/` say, and that in the exchange no error is lost and none listed twice. **This
//! wrapper is not proved**, only tested: the declarations of the functions in `src/ffi.rs`, the
//! conversions between their numbers and the types here, the tables of codes, [`Services::DS301`],
//! `new`, and what is plain Rust. Neither is the compiler that made the archive, nor what the host
//! does.
//!
//! A program that makes a state, or calls a function whose parameters are others there, does not
//! link with an archive of another [`VERSION`]. No call panics, unless the archive does not keep what its source promises, or there is no memory to
//! allocate: a [`Collector`] is boxed, and [`StatusFields::serialize`] gathers its entries.
//!
//! # For readers of powerlink-rs
//!
//! Names and fields are those of powerlink-rs, with [`Error`] for `PowerlinkError`, and all stand
//! at the crate's root. What differs: the Ethernet header and the payload stand beside the frame
//! ([`Frame`], [`NewFrame`]) and no more in it; `message_type` goes with the kind;
//! `StatusResponsePayload` is [`StatusFields`] for writing and [`StatusResponse`] for reading,
//! with an iterator over the entries. `Codec` and `CodecHelpers` are methods and functions here.
//! [`ServiceId`] is a number, with constants for the twelve names of the enum there; it is known
//! where a table holds it, and [`Services::DS301`] holds these twelve. `PRFlag::try_from` and
//! `EntryType::from_u16` cannot fail, and say so; a mode that is none is [`UnknownMode`], and a
//! node ID [`NodeIdError`], neither of which is an [`Error`]. `MessageType::try_from` fails with an
//! [`Error`], and a slice of another length than an array is [`Error::BufferTooShort`].
//! `deserialize_pl_header` gives a [`PlHeader`], and writing a header answers with a `Result`. Not
//! here are the constants for sizes and for the nodes 253 and 254,
//! `TimeOfDay`, `TimeDifference`, `NodeType`, the aliases of basic types, the sums of `NetTime`
//! and `RelativeTime`, `PayloadSize`, the mapping of PDOs, `from_u8_with_context`, whose context
//! changes nothing, and what leads to the state machines. Where the behaviour differs is in
//! `docs/DIFFERENCES.md`, whose "ours" is the library below.
#![no_std]
#![deny(unsafe_code)]
#![warn(missing_docs)]

extern crate alloc;

mod codes;
mod collector;
mod common;
mod error;
#[allow(unsafe_code)]
mod ffi;
mod frame;
pub mod journal;
mod numbers;
mod reporter;
mod services;
mod types;

/// The number of the library's interface. It rises with each change of a function's parameters or
/// of a state's length; a program that makes a state, or calls a function that has changed since,
/// does not link with another one, and states that were saved with another one are not gone on
/// from, unless it is said here.
///
/// Version 2 has tables of [`Services`]. Its states have the octets of version 1: what was saved
/// there goes on here. Later in version 2 came [`Error::StatusEntry`], and that the box leaves status
/// entries out of its book, which changes no parameter and no length. A head's state that was saved
/// before may hold some: they are sent, and not booked. If they are to be listed, the head is emptied
/// before the box is changed: until its answers carry no entry. Those in a saved book are taken as
/// before.
pub const VERSION: u32 = 2;

pub use codes::{
    ErrorEntryMode, MessageType, NmtState, PRFlag, RSFlag, RequestedServiceId, UnknownMode,
};
pub use collector::{Collector, CollectorRead, RequestFields, COLLECTOR_LEN};
pub use common::{NetTime, RelativeTime};
pub use error::Error;
pub use frame::{
    deserialize_eth_header, deserialize_frame, deserialize_pl_header, serialize_eth_header,
    serialize_frame, serialize_pl_header, ASndFrame, EntryType, ErrorEntries, ErrorEntry,
    EthernetHeader, Frame, MacAddress, NewFrame, PReqFlags, PReqFrame, PResFlags, PResFrame,
    PlHeader, PowerlinkFrame, SoAFlags, SoAFrame, SocFlags, SocFrame, StaticErrorBitField,
    StatusFields, StatusResponse,
};
pub use reporter::{AnswerFields, Reporter, ReporterRead, REPORTER_LEN};
pub use services::{ServiceId, Services, SERVICES_LEN};
pub use types::{
    EPLVersion, NodeId, NodeIdError, PDOVersion, C_ADR_BROADCAST_NODE_ID, C_ADR_MAX_CN_NODE_ID,
    C_ADR_MN_DEF_NODE_ID, C_DLL_ETHERTYPE_EPL, C_DLL_MULTICAST_ASND, C_DLL_MULTICAST_PRES,
    C_DLL_MULTICAST_SOA, C_DLL_MULTICAST_SOC,
};
