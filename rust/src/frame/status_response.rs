//! The payload of an ASnd with service StatusResponse (EPSG DS 301, 7.3.3.3.1).
use super::ErrorEntry;
use crate::codes::{NmtState, PRFlag, RSFlag};
use crate::ffi;
use crate::numbers::{code, flag, narrow};
use crate::Error;
use alloc::vec;
use core::iter::FusedIterator;

/// The static error bit field (EPSG DS 301, 6.5.8.1).
#[derive(Debug, Clone, Copy, PartialEq, Eq, Hash, Default)]
pub struct StaticErrorBitField {
    /// The error register.
    pub error_register: u8,
    /// Bits of the device profile or of the vendor.
    pub specific_errors: [u8; 7],
}

impl StaticErrorBitField {
    /// The octets of the field.
    pub const LEN: usize = 8;

    /// Reads the first 8 octets, or refuses fewer (1).
    pub fn deserialize(buffer: &[u8]) -> Result<Self, Error> {
        Ok(Self::of(ffi::deserialize_error_field(buffer)?))
    }

    /// Writes the 8 octets, or refuses a shorter target (1).
    pub fn serialize(&self, target: &mut [u8]) -> Result<usize, Error> {
        ffi::serialize_error_field(self, target)
    }

    fn of(octets: [u8; 8]) -> Self {
        let [error_register, specific_errors @ ..] = octets;
        StaticErrorBitField {
            error_register,
            specific_errors,
        }
    }

    pub(crate) fn to_bytes(self) -> [u8; 8] {
        let [a, b, c, d, e, f, g] = self.specific_errors;
        [self.error_register, a, b, c, d, e, f, g]
    }
}

/// What stands in front of the entries (EPSG DS 301, Table 136).
#[derive(Debug, Clone, Copy, PartialEq, Eq, Hash, Default)]
pub struct StatusFields {
    /// Exception new.
    pub en_flag: bool,
    /// Exception clear.
    pub ec_flag: bool,
    /// The priority of the oldest request that waits.
    pub pr: PRFlag,
    /// How many requests wait.
    pub rs: RSFlag,
    /// The state of the node.
    pub nmt_state: NmtState,
    /// The error field.
    pub static_error_bit_field: StaticErrorBitField,
}

impl StatusFields {
    /// Writes the payload of a StatusResponse with these entries and the terminator: 34 octets and
    /// 20 for each entry, or a refusal of a shorter target (1). Who reads an entry with the
    /// terminator's mode stops there.
    ///
    /// Not for a node that has a [`Reporter`](crate::Reporter): an EN that its
    /// [`answer`](crate::Reporter::answer) did not write makes its next batch known to the box, and
    /// its entries are lost.
    pub fn serialize(&self, entries: &[ErrorEntry], target: &mut [u8]) -> Result<usize, Error> {
        let mut octets = vec![0; ErrorEntry::LEN * entries.len()];
        for (entry, place) in entries.iter().zip(octets.chunks_exact_mut(ErrorEntry::LEN)) {
            entry.serialize(place)?;
        }
        ffi::serialize_status(self, &octets, target)
    }
}

/// The payload of a StatusResponse that was read.
#[derive(Debug, Clone)]
pub struct StatusResponse<'a> {
    /// What stands in front of the entries.
    pub fields: StatusFields,
    /// The entries.
    pub entries: ErrorEntries<'a>,
}

impl<'a> StatusResponse<'a> {
    /// Reads a payload. Refuses under 14 octets (1), then an unknown state (5).
    ///
    /// [`Frame::payload`](crate::Frame::payload) has lost the zeros at its end where the frame has
    /// the smallest size, and so may be too short here, or have lost the end of its last entry. The
    /// octets from place 18 on of the whole frame, Ethernet header and all, have not.
    pub fn deserialize(payload: &'a [u8]) -> Result<Self, Error> {
        let (values, field) = ffi::deserialize_status(payload)?;
        Ok(StatusResponse {
            fields: StatusFields {
                en_flag: flag(values[0]),
                ec_flag: flag(values[1]),
                pr: PRFlag::from_bits(narrow(values[2])),
                rs: RSFlag::new(narrow(values[3])),
                nmt_state: code(values[4]),
                static_error_bit_field: StaticErrorBitField::of(field),
            },
            entries: ErrorEntries {
                payload,
                offset: 14,
            },
        })
    }
}

/// The entries of a StatusResponse, in order. They end at the terminator, or with under 20 octets
/// left.
#[derive(Debug, Clone)]
pub struct ErrorEntries<'a> {
    payload: &'a [u8],
    offset: usize,
}

impl Iterator for ErrorEntries<'_> {
    type Item = ErrorEntry;

    fn next(&mut self) -> Option<ErrorEntry> {
        let (values, next) = ffi::entry_step(self.payload, self.offset);
        // No entry ends at offset 0: it tells the end.
        if next == 0 {
            return None;
        }
        self.offset = next;
        Some(ErrorEntry::of(&values))
    }
}

impl FusedIterator for ErrorEntries<'_> {}
