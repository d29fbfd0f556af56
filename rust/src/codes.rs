//! Codes: what an octet, or bits of one, stand for.
use crate::Error;
use core::fmt;

/// An enum whose values are the codes of one octet, read with `TryFrom` and written with `as u8`.
macro_rules! codes {
    (
        $(#[$about:meta])*
        pub enum $name:ident or $unknown:ident {
            $($(#[$note:meta])* $value:ident = $code:literal,)*
        }
    ) => {
        $(#[$about])*
        #[derive(Debug, Clone, Copy, PartialEq, Eq, Hash)]
        #[repr(u8)]
        pub enum $name {
            $($(#[$note])* $value = $code,)*
        }

        impl TryFrom<u8> for $name {
            type Error = Error;

            fn try_from(octet: u8) -> Result<Self, Error> {
                match octet {
                    $($code => Ok($name::$value),)*
                    _ => Err(Error::$unknown(octet)),
                }
            }
        }

        impl From<$name> for u8 {
            fn from(value: $name) -> u8 {
                value as u8
            }
        }
    };
}

codes! {
    /// The kinds of frames (EPSG DS 301, Appendix 3.1).
    pub enum MessageType or InvalidMessageType {
        /// Start of Cycle.
        SoC = 0x01,
        /// Poll Request.
        PReq = 0x03,
        /// Poll Response.
        PRes = 0x04,
        /// Start of Asynchronous.
        SoA = 0x05,
        /// Asynchronous Send.
        ASnd = 0x06,
    }
}

codes! {
    /// The NMT states (EPSG DS 301, Appendix 3.6). A state of both kinds of node has one name and
    /// one code. They are ordered by their codes.
    #[derive(PartialOrd, Ord, Default)]
    pub enum NmtState or InvalidNmtState {
        /// `NMT_GS_OFF`.
        NmtGsOff = 0x00,
        /// `NMT_GS_INITIALISING`.
        NmtGsInitialising = 0x19,
        /// `NMT_GS_RESET_APPLICATION`.
        NmtGsResetApplication = 0x29,
        /// `NMT_GS_RESET_COMMUNICATION`.
        NmtGsResetCommunication = 0x39,
        /// `NMT_GS_RESET_CONFIGURATION`.
        NmtGsResetConfiguration = 0x79,
        /// `NMT_CS_NOT_ACTIVE` and `NMT_MS_NOT_ACTIVE`.
        #[default]
        NmtNotActive = 0x1C,
        /// `NMT_CS_PRE_OPERATIONAL_1` and `NMT_MS_PRE_OPERATIONAL_1`.
        NmtPreOperational1 = 0x1D,
        /// `NMT_CS_PRE_OPERATIONAL_2` and `NMT_MS_PRE_OPERATIONAL_2`.
        NmtPreOperational2 = 0x5D,
        /// `NMT_CS_READY_TO_OPERATE` and `NMT_MS_READY_TO_OPERATE`.
        NmtReadyToOperate = 0x6D,
        /// `NMT_CS_OPERATIONAL` and `NMT_MS_OPERATIONAL`.
        NmtOperational = 0xFD,
        /// `NMT_CS_STOPPED`.
        NmtCsStopped = 0x4D,
        /// `NMT_CS_BASIC_ETHERNET` and `NMT_MS_BASIC_ETHERNET`.
        NmtBasicEthernet = 0x1E,
    }
}

codes! {
    /// The services that an SoA requests (EPSG DS 301, Appendix 3.4), whatever the table of
    /// [`Services`](crate::Services).
    pub enum RequestedServiceId or InvalidRequestedServiceId {
        /// `NO_SERVICE`.
        NoService = 0x00,
        /// `IDENT_REQUEST`.
        IdentRequest = 0x01,
        /// `STATUS_REQUEST`.
        StatusRequest = 0x02,
        /// `NMT_REQUEST_INVITE`.
        NmtRequestInvite = 0x03,
        /// `UNSPECIFIED_INVITE`.
        UnspecifiedInvite = 0xFF,
    }
}

/// The priority of the oldest request that waits at a node, highest first (EPSG DS 301, Appendix
/// 3.2).
#[derive(Debug, Clone, Copy, PartialEq, Eq, Hash, Default)]
#[repr(u8)]
pub enum PRFlag {
    /// `PRIO_NMT_REQUEST`.
    PrioNmtRequest = 7,
    /// Above generic requests, third step.
    High3 = 6,
    /// Above generic requests, second step.
    High2 = 5,
    /// Above generic requests, first step.
    High1 = 4,
    /// `PRIO_GENERIC_REQUEST`.
    #[default]
    PrioGenericRequest = 3,
    /// Below generic requests, third step.
    Low3 = 2,
    /// Below generic requests, second step.
    Low2 = 1,
    /// Below generic requests, first step.
    Low1 = 0,
}

impl PRFlag {
    /// The priority in the three low bits of an octet.
    pub fn from_bits(octet: u8) -> Self {
        match octet % 8 {
            7 => PRFlag::PrioNmtRequest,
            6 => PRFlag::High3,
            5 => PRFlag::High2,
            4 => PRFlag::High1,
            3 => PRFlag::PrioGenericRequest,
            2 => PRFlag::Low3,
            1 => PRFlag::Low2,
            _ => PRFlag::Low1,
        }
    }
}

/// As [`PRFlag::from_bits`], so that `try_from` masks as that of powerlink-rs does.
impl From<u8> for PRFlag {
    fn from(octet: u8) -> Self {
        PRFlag::from_bits(octet)
    }
}

impl From<PRFlag> for u8 {
    fn from(priority: PRFlag) -> u8 {
        priority as u8
    }
}

/// How many requests wait at a node, 0 to 7 (EPSG DS 301, 4.2.4.1.2.2).
#[derive(Debug, Clone, Copy, PartialEq, Eq, PartialOrd, Ord, Hash, Default)]
pub struct RSFlag(u8);

impl RSFlag {
    /// That many requests; above 7 counts as 7.
    pub fn new(value: u8) -> Self {
        RSFlag(value.min(7))
    }

    /// How many.
    pub fn get(self) -> u8 {
        self.0
    }
}

/// The modes of an error entry (EPSG DS 301, Table 96).
#[derive(Debug, Clone, Copy, PartialEq, Eq, Hash)]
#[repr(u8)]
pub enum ErrorEntryMode {
    /// No entry: the end of a list.
    Terminator = 0,
    /// An error has occurred and is active.
    ErrorActive = 1,
    /// An active error was cleared.
    ErrorCleared = 2,
    /// An event, or an error that does not stay active.
    EventOccurred = 3,
}

impl ErrorEntryMode {
    /// The mode in the two low bits of an octet.
    pub fn from_bits(octet: u8) -> Self {
        match octet % 4 {
            0 => ErrorEntryMode::Terminator,
            1 => ErrorEntryMode::ErrorActive,
            2 => ErrorEntryMode::ErrorCleared,
            _ => ErrorEntryMode::EventOccurred,
        }
    }
}

impl TryFrom<u8> for ErrorEntryMode {
    type Error = UnknownMode;

    /// The mode with this number, which is 0 to 3.
    fn try_from(number: u8) -> Result<Self, UnknownMode> {
        match number {
            0..=3 => Ok(ErrorEntryMode::from_bits(number)),
            _ => Err(UnknownMode(number)),
        }
    }
}

impl From<ErrorEntryMode> for u8 {
    fn from(mode: ErrorEntryMode) -> u8 {
        mode as u8
    }
}

/// A number above 3, which is no mode's.
#[derive(Debug, Clone, Copy, PartialEq, Eq, Hash)]
pub struct UnknownMode(pub u8);

impl fmt::Display for UnknownMode {
    fn fmt(&self, f: &mut fmt::Formatter<'_>) -> fmt::Result {
        write!(f, "unknown mode {}", self.0)
    }
}

impl core::error::Error for UnknownMode {}
