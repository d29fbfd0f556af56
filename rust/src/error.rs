//! Why a call refuses.
use core::array::TryFromSliceError;
use core::convert::Infallible;
use core::fmt;

/// Why a call refuses: one variant for each cause, in the order of their numbers. What stands in
/// brackets is the octet that was found.
#[derive(Debug, Clone, Copy, PartialEq, Eq, Hash)]
#[non_exhaustive]
pub enum Error {
    /// 1: the input or the target is shorter than needed.
    BufferTooShort,
    /// 2: the EtherType is not that of POWERLINK, 88AB h.
    InvalidEthernetFrame,
    /// 3: nothing follows the Ethernet header, or a PRes is not to node 255.
    InvalidPlFrame,
    /// 4: the message type, the low seven bits of its octet, is none that is known.
    InvalidMessageType(u8),
    /// 5: the NMT state is none that is known.
    InvalidNmtState(u8),
    /// 6: the service of an ASnd is none that the table of [`Services`](crate::Services) holds.
    InvalidServiceId(u8),
    /// 7: the service that an SoA requests is none that is known.
    InvalidRequestedServiceId(u8),
    /// 8: the raised entry has the mode of the terminator, or a profile above 4,095.
    EntryInvalid,
    /// 9: 16 entries are waiting already.
    QueueFull,
    /// 10: the frame is no StatusResponse.
    NotStatusResponse,
    /// 11: the node is not registered.
    NotRegistered,
    /// 12: the node's book has fewer free places than the batch has entries that are to be booked.
    BookFull,
    /// 13: the ID of a head is not one of 1 to 239.
    IdOutOfRange,
    /// 14: the node is registered already.
    IdRegistered,
    /// 15: four nodes are registered.
    Full,
    /// 16: no entry is booked.
    NothingBooked,
    /// 17: a journal is under 5 octets, and so has not its mark and its version.
    NotAJournal,
    /// 18: a journal's version is none that is known.
    UnknownVersion,
    /// 19: the record has the mode of the terminator, or an ID that is not one of 1 to 239.
    RecordInvalid,
    /// 20: a table of services is under 5 octets, or its mark or its version is another.
    NotATable,
    /// 21: the IDs of a table of services are not strictly ascending.
    NotAscending,
    /// 22: the IDs of a table of services have no 2, which is StatusResponse.
    WithoutStatusResponse,
    /// 23: the raised entry is a status entry: bit 15 of its type is set.
    StatusEntry,
}

impl Error {
    /// The number of the cause: 1 to 23.
    pub fn number(self) -> u8 {
        match self {
            Error::BufferTooShort => 1,
            Error::InvalidEthernetFrame => 2,
            Error::InvalidPlFrame => 3,
            Error::InvalidMessageType(_) => 4,
            Error::InvalidNmtState(_) => 5,
            Error::InvalidServiceId(_) => 6,
            Error::InvalidRequestedServiceId(_) => 7,
            Error::EntryInvalid => 8,
            Error::QueueFull => 9,
            Error::NotStatusResponse => 10,
            Error::NotRegistered => 11,
            Error::BookFull => 12,
            Error::IdOutOfRange => 13,
            Error::IdRegistered => 14,
            Error::Full => 15,
            Error::NothingBooked => 16,
            Error::NotAJournal => 17,
            Error::UnknownVersion => 18,
            Error::RecordInvalid => 19,
            Error::NotATable => 20,
            Error::NotAscending => 21,
            Error::WithoutStatusResponse => 22,
            Error::StatusEntry => 23,
        }
    }

    /// The octet that was found, of causes 4 to 7.
    pub fn octet(self) -> Option<u8> {
        match self {
            Error::InvalidMessageType(octet)
            | Error::InvalidNmtState(octet)
            | Error::InvalidServiceId(octet)
            | Error::InvalidRequestedServiceId(octet) => Some(octet),
            _ => None,
        }
    }

    /// What a call of the library answered, with the octet that it may have given.
    pub(crate) fn check(cause: u8, octet: u8) -> Result<(), Error> {
        Err(match cause {
            0 => return Ok(()),
            1 => Error::BufferTooShort,
            2 => Error::InvalidEthernetFrame,
            3 => Error::InvalidPlFrame,
            4 => Error::InvalidMessageType(octet),
            5 => Error::InvalidNmtState(octet),
            6 => Error::InvalidServiceId(octet),
            7 => Error::InvalidRequestedServiceId(octet),
            8 => Error::EntryInvalid,
            9 => Error::QueueFull,
            10 => Error::NotStatusResponse,
            11 => Error::NotRegistered,
            12 => Error::BookFull,
            13 => Error::IdOutOfRange,
            14 => Error::IdRegistered,
            15 => Error::Full,
            16 => Error::NothingBooked,
            17 => Error::NotAJournal,
            18 => Error::UnknownVersion,
            19 => Error::RecordInvalid,
            20 => Error::NotATable,
            21 => Error::NotAscending,
            22 => Error::WithoutStatusResponse,
            23 => Error::StatusEntry,
            _ => panic!("libpowerlink.a answers with {cause}, which is no cause"),
        })
    }
}

impl fmt::Display for Error {
    fn fmt(&self, f: &mut fmt::Formatter<'_>) -> fmt::Result {
        match self {
            Error::BufferTooShort => write!(f, "input or target is shorter than needed"),
            Error::InvalidEthernetFrame => write!(f, "EtherType is not POWERLINK's 0x88ab"),
            Error::InvalidPlFrame => {
                write!(
                    f,
                    "nothing follows the Ethernet header, or a PRes is not to node 255"
                )
            }
            Error::InvalidMessageType(octet) => write!(f, "unknown message type {octet:#04x}"),
            Error::InvalidNmtState(octet) => write!(f, "unknown NMT state {octet:#04x}"),
            Error::InvalidServiceId(octet) => write!(f, "service {octet:#04x} is not in the table"),
            Error::InvalidRequestedServiceId(octet) => {
                write!(f, "unknown requested service {octet:#04x}")
            }
            Error::EntryInvalid => {
                write!(f, "entry has the terminator's mode or a profile above 4095")
            }
            Error::QueueFull => write!(f, "16 entries are waiting already"),
            Error::NotStatusResponse => write!(f, "frame is no StatusResponse"),
            Error::NotRegistered => write!(f, "node is not registered"),
            Error::BookFull => {
                write!(f, "book has fewer free places than the batch has entries to book")
            }
            Error::IdOutOfRange => write!(f, "node ID is not one of 1 to 239"),
            Error::IdRegistered => write!(f, "node is registered already"),
            Error::Full => write!(f, "four nodes are registered"),
            Error::NothingBooked => write!(f, "no entry is booked"),
            Error::NotAJournal => write!(f, "journal is shorter than its mark and version"),
            Error::UnknownVersion => write!(f, "journal is of an unknown version"),
            Error::RecordInvalid => {
                write!(
                    f,
                    "record has the terminator's mode or a node ID that is not one of 1 to 239"
                )
            }
            Error::NotATable => write!(f, "no table of services: under 5 octets, or its mark is not PLS, or its version not 1"),
            Error::NotAscending => write!(f, "IDs of a table of services are not strictly ascending"),
            Error::WithoutStatusResponse => write!(f, "table of services has no 2, which is StatusResponse"),
            Error::StatusEntry => write!(f, "entry to raise is a status entry: bit 15 is set"),
        }
    }
}

impl core::error::Error for Error {}

/// A slice that is not as long as an array: cause 1, where powerlink-rs has `SliceConversion`.
impl From<TryFromSliceError> for Error {
    fn from(_: TryFromSliceError) -> Self {
        Error::BufferTooShort
    }
}

/// What cannot fail, as [`PRFlag::try_from`](crate::PRFlag), goes with `?` too.
impl From<Infallible> for Error {
    fn from(never: Infallible) -> Self {
        match never {}
    }
}
