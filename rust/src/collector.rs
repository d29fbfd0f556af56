//! The managing node's side of error signaling (EPSG DS 301, 6.5): the box.
use crate::codes::NmtState;
use crate::ffi;
use crate::frame::{ErrorEntry, MacAddress, SoAFlags};
use crate::numbers::broken;
use crate::services::Services;
use crate::types::{EPLVersion, NodeId};
use crate::Error;
use alloc::boxed::Box;
use core::fmt;

/// The octets of a [`Collector`]'s state.
pub const COLLECTOR_LEN: usize = 5184;

/// The managing node's side of error signaling, the box. For each of up to four registered heads it
/// keeps what it has acknowledged, and a book of up to 64 error entries.
///
/// [What the theorem asks of a host](crate#what-the-theorem-asks-of-a-host) has three parts here:
///
/// - every frame of the host to a head carries [`flags`](Collector::flags), asked for as it leaves;
/// - the state is saved, with the journal's length, after each call that has changed it and before
///   the next frame leaves. A box that goes on from a state before a [`read`](Collector::read)
///   whose request went out has lost that batch, which the head has closed, and takes the next one
///   for known;
/// - box and heads begin anew together. A new box takes a head's second batch, whose EN is 0, for
///   known, and the batch is lost; a first one that the old box has handed out and not
///   acknowledged, it books again, and it is listed twice.
#[derive(PartialEq, Eq)]
pub struct Collector(Box<[u8; COLLECTOR_LEN]>);

/// What a request holds beside the node and EA.
#[derive(Debug, Clone, Copy, PartialEq, Eq, Hash)]
pub struct RequestFields {
    /// Where the request comes from.
    pub source_mac: MacAddress,
    /// The state of the managing node.
    pub nmt_state: NmtState,
    /// The version of POWERLINK.
    pub epl_version: EPLVersion,
}

/// What reading a frame comes to, for the box. An answer's bit EN, exception new, changes with each
/// batch; the box's bit EA, exception acknowledge, is the EN of the last batch that it has booked,
/// and goes to the head with every [request](Collector::request).
#[derive(Debug, Clone, Copy, PartialEq, Eq, Hash)]
pub enum CollectorRead {
    /// EN differs from EA: the batch is new. Its entries with bit 15 clear, if it has any, are in the
    /// book now, in their order, and EA is EN, so that the next request acknowledges the batch.
    Booked,
    /// EN equals EA: the batch was booked before, and this is a repeat of it, or no batch was sent
    /// yet. Nothing has changed, whatever the entries are.
    Known,
}

impl Collector {
    /// A fresh box: no head is registered.
    pub fn new() -> Self {
        let mut state = Box::new([0; COLLECTOR_LEN]);
        ffi::collector_new(&mut state);
        Collector(state)
    }

    /// Registers a head, with an empty book. Refused are an ID that is not one of 1 to 239 (13),
    /// one that is registered (14) and a fifth head (15).
    pub fn register(&mut self, id: NodeId) -> Result<(), Error> {
        ffi::collector_register(&mut self.0, id)
    }

    /// Reads a frame: the batch of a registered head's StatusResponse goes into its book, unless it is
    /// there already. Booked are the entries with bit 15 clear, all of them and in their order. Status
    /// entries, those with bit 15 set, show what is wrong now, and heads of another supplier send them
    /// in every answer: they are left out, wherever they stand, and need no place. An entry with the
    /// terminator's mode ends the batch, whatever its bit 15 is. Of a new batch without entries, or of
    /// status entries alone, nothing is booked; EA becomes EN, as of any other.
    ///
    /// Refused are what [`deserialize_frame`](crate::deserialize_frame) refuses (1 to 7), a frame that
    /// is no StatusResponse (10), one from a node that is not registered (11), a payload under 14
    /// octets (1) or with an unknown state (5), and a new batch with more entries to book than the
    /// book has free places (12), which the head sends again; more than 64 never find them. Where it
    /// was booked, the state is saved before the next frame leaves.
    pub fn read(&mut self, services: &Services, buffer: &[u8]) -> Result<CollectorRead, Error> {
        Ok(match ffi::collector_read(&mut self.0, services, buffer)? {
            0 => CollectorRead::Known,
            1 => CollectorRead::Booked,
            other => broken("outcome", other.into()),
        })
    }

    /// The flags that every frame of the managing node to a head carries: EA in a PReq to it, EA
    /// and ER in an SoA with it as target, whatever service is requested. They count at the moment
    /// of sending: a frame that is built, and sent only after a later [`read`](Collector::read),
    /// may close a batch that is not booked, which is then lost. Refused is a head that is not
    /// registered (11): until it is, EA 0 and ER 0 lose nothing.
    pub fn flags(&self, id: NodeId) -> Result<SoAFlags, Error> {
        ffi::collector_flags(&self.0, id)
    }

    /// Writes the SoA, a whole frame of 60 octets, that asks a head for its StatusResponse and
    /// acknowledges what was booked. Refused are a head that is not registered (11), then a shorter
    /// target (1).
    pub fn request(
        &self,
        id: NodeId,
        fields: &RequestFields,
        target: &mut [u8],
    ) -> Result<usize, Error> {
        ffi::collector_request(&self.0, id, fields, target)
    }

    /// Hands out the oldest entry of a head's book; its place is used again. Refused are a head
    /// that is not registered (11) and an empty book (16).
    pub fn take(&mut self, id: NodeId) -> Result<ErrorEntry, Error> {
        Ok(ErrorEntry::of(&ffi::collector_take(&mut self.0, id)?))
    }

    /// The octets of the state, to be saved; [`VERSION`](crate::VERSION) says which are gone on
    /// from.
    pub fn as_bytes(&self) -> &[u8; COLLECTOR_LEN] {
        &self.0
    }

    /// The box with these octets as state. Every pattern is a state.
    pub fn from_bytes(octets: [u8; COLLECTOR_LEN]) -> Self {
        Collector(Box::new(octets))
    }
}

impl Default for Collector {
    fn default() -> Self {
        Collector::new()
    }
}

impl fmt::Debug for Collector {
    fn fmt(&self, f: &mut fmt::Formatter<'_>) -> fmt::Result {
        f.debug_struct("Collector").finish_non_exhaustive()
    }
}
