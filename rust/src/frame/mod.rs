//! Frames of every kind, read and written.
mod asnd;
mod basic;
mod codec;
mod error_entry;
mod preq;
mod pres;
mod soa;
mod soc;
mod status_response;

pub use asnd::ASndFrame;
pub use basic::{EthernetHeader, MacAddress};
pub use codec::{
    deserialize_eth_header, deserialize_frame, deserialize_pl_header, serialize_eth_header,
    serialize_frame, serialize_pl_header, PlHeader,
};
pub use error_entry::{EntryType, ErrorEntry};
pub use preq::{PReqFlags, PReqFrame};
pub use pres::{PResFlags, PResFrame};
pub use soa::{SoAFlags, SoAFrame};
pub use soc::{SocFlags, SocFrame};
pub use status_response::{ErrorEntries, StaticErrorBitField, StatusFields, StatusResponse};

use crate::services::Services;
use crate::Error;

/// A frame of one of the five kinds, but for its Ethernet header and its payload.
#[derive(Debug, Clone, Copy, PartialEq, Eq)]
pub enum PowerlinkFrame {
    /// Start of Cycle.
    Soc(SocFrame),
    /// Poll Request.
    PReq(PReqFrame),
    /// Poll Response.
    PRes(PResFrame),
    /// Start of Asynchronous.
    SoA(SoAFrame),
    /// Asynchronous Send.
    ASnd(ASndFrame),
}

impl PowerlinkFrame {
    /// Writes the frame without its Ethernet header, padded with zeros to 46 octets, and gives how
    /// many were written. SoC and SoA have no payload: what is lent as one is left aside. Refused
    /// are a shorter target (1), then an ASnd whose service the table does not hold (6).
    pub fn serialize(
        &self,
        services: &Services,
        payload: &[u8],
        target: &mut [u8],
    ) -> Result<usize, Error> {
        match self {
            PowerlinkFrame::Soc(frame) => frame.serialize(target),
            PowerlinkFrame::PReq(frame) => frame.serialize(payload, target),
            PowerlinkFrame::PRes(frame) => frame.serialize(payload, target),
            PowerlinkFrame::SoA(frame) => frame.serialize(target),
            PowerlinkFrame::ASnd(frame) => frame.serialize(services, payload, target),
        }
    }
}

/// The conversions between a kind and the kinds joined.
macro_rules! kind {
    ($kind:ident, $frame:ident, $into:ident) => {
        impl PowerlinkFrame {
            #[doc = concat!("The ", stringify!($frame), ", or the frame as it was.")]
            pub fn $into(self) -> Result<$frame, Self> {
                match self {
                    PowerlinkFrame::$kind(frame) => Ok(frame),
                    other => Err(other),
                }
            }
        }

        impl From<$frame> for PowerlinkFrame {
            fn from(frame: $frame) -> Self {
                PowerlinkFrame::$kind(frame)
            }
        }
    };
}

kind!(Soc, SocFrame, into_soc);
kind!(PReq, PReqFrame, into_preq);
kind!(PRes, PResFrame, into_pres);
kind!(SoA, SoAFrame, into_soa);
kind!(ASnd, ASndFrame, into_asnd);

/// A frame with its Ethernet header and its payload, as [`deserialize_frame`] reads it.
#[derive(Debug, Clone, Copy, PartialEq, Eq)]
pub struct Frame<'a> {
    /// The 14 octets in front.
    pub eth_header: EthernetHeader,
    /// The fields of the frame.
    pub frame: PowerlinkFrame,
    /// The payload: a part of what was read. It is empty for SoC and SoA.
    pub payload: &'a [u8],
}

impl Frame<'_> {
    /// Writes the whole frame: see [`serialize_frame`].
    pub fn write_frame(&self, services: &Services, target: &mut [u8]) -> Result<usize, Error> {
        serialize_frame(
            services,
            &self.eth_header,
            &self.frame,
            self.payload,
            target,
        )
    }
}

/// What a kind's `new` makes: a frame with its Ethernet header and its payload. Its fields stay as
/// `new` has made them.
#[derive(Debug, Clone, Copy, PartialEq, Eq)]
pub struct NewFrame<'a, F> {
    pub(crate) eth_header: EthernetHeader,
    pub(crate) frame: F,
    pub(crate) payload: &'a [u8],
}

impl<'a, F> NewFrame<'a, F> {
    /// The 14 octets in front.
    pub fn eth_header(&self) -> &EthernetHeader {
        &self.eth_header
    }

    /// The fields of the frame.
    pub fn frame(&self) -> &F {
        &self.frame
    }

    /// The payload; empty for SoC and SoA.
    pub fn payload(&self) -> &'a [u8] {
        self.payload
    }
}

impl<'a, F: Into<PowerlinkFrame>> From<NewFrame<'a, F>> for Frame<'a> {
    fn from(new: NewFrame<'a, F>) -> Self {
        Frame {
            eth_header: new.eth_header,
            frame: new.frame.into(),
            payload: new.payload,
        }
    }
}
