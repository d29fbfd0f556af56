//! Times.

/// Seconds and nanoseconds of the network's clock (EPSG DS 301, 6.1.6.7).
#[derive(Debug, Clone, Copy, PartialEq, Eq, Hash, Default)]
pub struct NetTime {
    /// Whole seconds.
    pub seconds: u32,
    /// Nanoseconds; any number is kept as it stands.
    pub nanoseconds: u32,
}

impl NetTime {
    /// These seconds and nanoseconds.
    pub const fn new(seconds: u32, nanoseconds: u32) -> Self {
        NetTime {
            seconds,
            nanoseconds,
        }
    }

    /// The time of a clock that counts microseconds. The seconds count modulo 2^32.
    pub const fn from_micros(micros: u64) -> Self {
        NetTime {
            seconds: (micros / 1_000_000) as u32,
            nanoseconds: (micros % 1_000_000 * 1_000) as u32,
        }
    }

    /// The nanoseconds in all.
    pub const fn as_nanos(&self) -> u64 {
        self.seconds as u64 * 1_000_000_000 + self.nanoseconds as u64
    }
}

/// Microseconds since the start of the network (EPSG DS 301, Table 16).
#[derive(Debug, Clone, Copy, PartialEq, Eq, PartialOrd, Ord, Hash, Default)]
pub struct RelativeTime(pub u64);

impl RelativeTime {
    /// That many microseconds.
    pub const fn new(micros: u64) -> Self {
        RelativeTime(micros)
    }
}
