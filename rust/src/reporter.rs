//! A controlled node's side of error signaling (EPSG DS 301, 6.5): the head.
use crate::codes::{NmtState, PRFlag, RSFlag};
use crate::ffi;
use crate::frame::{ErrorEntry, MacAddress, StaticErrorBitField};
use crate::numbers::broken;
use crate::services::Services;
use crate::types::NodeId;
use crate::Error;
use core::fmt;

/// The octets of a [`Reporter`]'s state.
pub const REPORTER_LEN: usize = 408;

/// A controlled node's side of error signaling, the head. It collects error entries, reports them
/// in StatusResponses, batch by batch, and closes a batch once the managing node has acknowledged
/// it.
///
/// [What the theorem asks of a host](crate#what-the-theorem-asks-of-a-host) has three parts here:
///
/// - the head's StatusResponses come from [`answer`](Reporter::answer) alone, and the EN of its
///   PRes is [`en`](Reporter::en);
/// - the state is saved after each call that has changed it and before the next frame leaves: after
///   `answer`, before that answer leaves. A head that goes on from a state before an answer that
///   was booked adds to the batch what is raised since; the box knows its EN, and what was added is
///   lost;
/// - head and box begin anew together. After an odd number of booked batches, the first batch of a
///   new head has the EN that the box knows, and is lost.
#[derive(PartialEq, Eq)]
pub struct Reporter([u8; REPORTER_LEN]);

/// What an answer holds beside the entries and EN.
#[derive(Debug, Clone, Copy, PartialEq, Eq, Hash)]
pub struct AnswerFields {
    /// Where the answer comes from.
    pub source_mac: MacAddress,
    /// Where it goes.
    pub dest_mac: MacAddress,
    /// Exception clear.
    pub ec_flag: bool,
    /// The priority of the oldest request that waits.
    pub pr: PRFlag,
    /// How many requests wait.
    pub rs: RSFlag,
    /// The state of the node.
    pub nmt_state: NmtState,
    /// The error field.
    pub static_error_bit_field: StaticErrorBitField,
}

/// What reading a frame comes to, for a head.
#[derive(Debug, Clone, Copy, PartialEq, Eq, Hash)]
pub enum ReporterRead {
    /// The open batch is acknowledged, and closed.
    Closed,
    /// The frame holds EA for this node, which closes nothing.
    Kept,
    /// The frame holds no EA for this node.
    Ignored,
}

impl Reporter {
    /// A fresh head with an ID of 1 to 239; another ID is refused (13).
    pub fn new(id: NodeId) -> Result<Self, Error> {
        let mut state = [0; REPORTER_LEN];
        ffi::reporter_new(&mut state, id)?;
        Ok(Reporter(state))
    }

    /// An entry joins the waiting ones, last. Refused are an entry with the terminator's mode or a
    /// profile above 4,095 (8), a status entry, whose bit 15 is set (23), since the box would not
    /// book it, and a 17th waiting entry (9), in this order. A fault that is to be listed is raised
    /// with bit 15 clear.
    pub fn raise(&mut self, entry: &ErrorEntry) -> Result<(), Error> {
        ffi::reporter_raise(&mut self.0, entry)
    }

    /// Writes a StatusResponse, a whole frame, with the open batch: 60 octets without entries, else
    /// 52 and 20 for each of up to four. Where none is open and entries wait, the first four become
    /// the open batch, and EN flips. A shorter target is refused (1), and then no batch opens. The
    /// state is saved before the answer leaves.
    ///
    /// The answer is an ASnd, whose writers take a table. Every table holds StatusResponse, so that
    /// the result is the same for all of them.
    pub fn answer(
        &mut self,
        services: &Services,
        fields: &AnswerFields,
        target: &mut [u8],
    ) -> Result<usize, Error> {
        ffi::reporter_answer(&mut self.0, services, fields, target)
    }

    /// Reads a frame: a PReq to this node or an SoA with it as target, from the managing node,
    /// holds EA. Refuses what [`deserialize_frame`](crate::deserialize_frame) refuses (1 to 7).
    pub fn read(&mut self, services: &Services, buffer: &[u8]) -> Result<ReporterRead, Error> {
        Ok(match ffi::reporter_read(&mut self.0, services, buffer)? {
            0 => ReporterRead::Ignored,
            1 => ReporterRead::Kept,
            2 => ReporterRead::Closed,
            other => broken("outcome", other.into()),
        })
    }

    /// EN, exception new, which flips with each batch: that of this node's next PRes.
    pub fn en(&self) -> bool {
        ffi::reporter_en(&self.0)
    }

    /// The octets of the state, to be saved; [`VERSION`](crate::VERSION) says which are gone on
    /// from.
    pub fn as_bytes(&self) -> &[u8; REPORTER_LEN] {
        &self.0
    }

    /// The head with these octets as state. Every pattern is a state.
    pub fn from_bytes(octets: [u8; REPORTER_LEN]) -> Self {
        Reporter(octets)
    }
}

impl fmt::Debug for Reporter {
    fn fmt(&self, f: &mut fmt::Formatter<'_>) -> fmt::Result {
        f.debug_struct("Reporter").finish_non_exhaustive()
    }
}
