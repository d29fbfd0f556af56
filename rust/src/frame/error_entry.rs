//! An entry of the error list of a StatusResponse.
use crate::codes::ErrorEntryMode;
use crate::common::NetTime;
use crate::ffi;
use crate::numbers::{flag, narrow};
use crate::Error;

/// The type of an entry (EPSG DS 301, Table 96).
#[derive(Debug, Clone, Copy, PartialEq, Eq, Hash)]
pub struct EntryType {
    /// A status entry shows what is wrong now; any other is an entry of the history. A head of ours
    /// raises the other sort alone, and the box books no status entry.
    pub is_status_entry: bool,
    /// Whether the entry goes to the emergency queue too.
    pub send_to_queue: bool,
    /// What the entry tells of its error.
    pub mode: ErrorEntryMode,
    /// The profile that defines the code; 12 bits of it are sent.
    pub profile: u16,
}

impl EntryType {
    /// The type in two octets, low one first in a frame: bit 15 and bit 14 the two flags, two bits
    /// of mode, 12 of profile.
    pub fn from_u16(value: u16) -> Self {
        EntryType {
            is_status_entry: value & 0x8000 != 0,
            send_to_queue: value & 0x4000 != 0,
            mode: ErrorEntryMode::from_bits((value >> 12) as u8),
            profile: value & 0x0FFF,
        }
    }

    /// The two octets of the type, as a number. The profile loses what lies above its 12 bits.
    pub fn to_u16(self) -> u16 {
        u16::from(self.is_status_entry) << 15
            | u16::from(self.send_to_queue) << 14
            | (self.mode as u16) << 12
            | self.profile & 0x0FFF
    }
}

/// An entry of the error list (EPSG DS 301, Table 94).
#[derive(Debug, Clone, Copy, PartialEq, Eq, Hash)]
pub struct ErrorEntry {
    /// Its type.
    pub entry_type: EntryType,
    /// What has happened, by the profile's codes.
    pub error_code: u16,
    /// When it has happened.
    pub timestamp: NetTime,
    /// More about it, by the profile.
    pub additional_information: u64,
}

impl ErrorEntry {
    /// The octets of an entry.
    pub const LEN: usize = 20;

    /// Reads the first 20 octets, or refuses fewer (1).
    pub fn deserialize(buffer: &[u8]) -> Result<Self, Error> {
        Ok(Self::of(&ffi::deserialize_entry(buffer)?))
    }

    /// Writes the 20 octets, or refuses a shorter target (1). The profile loses what lies above its
    /// 12 bits.
    pub fn serialize(&self, target: &mut [u8]) -> Result<usize, Error> {
        ffi::serialize_entry(self, target)
    }

    /// The entry that the library's numbers are.
    pub(crate) fn of(values: &[u64; 8]) -> Self {
        ErrorEntry {
            entry_type: EntryType {
                is_status_entry: flag(values[0]),
                send_to_queue: flag(values[1]),
                mode: ErrorEntryMode::from_bits(narrow(values[2])),
                profile: narrow(values[3]),
            },
            error_code: narrow(values[4]),
            timestamp: NetTime {
                seconds: narrow(values[5]),
                nanoseconds: narrow(values[6]),
            },
            additional_information: values[7],
        }
    }
}
