//! What both sides are given: frames of powerlink-rs with fields from a fixed seed.
use powerlink_rs::common::{NetTime, RelativeTime};
use powerlink_rs::frame::basic::MacAddress;
use powerlink_rs::frame::control::{SoAFlags, SocFlags};
use powerlink_rs::frame::error::{EntryType, ErrorEntry, ErrorEntryMode};
use powerlink_rs::frame::poll::{PReqFlags, PResFlags};
use powerlink_rs::frame::{ASndFrame, PReqFrame, PResFrame, SoAFrame, SocFrame};
use powerlink_rs::frame::{PRFlag, RSFlag, RequestedServiceId, ServiceId, StaticErrorBitField, StatusResponsePayload};
use powerlink_rs::nmt::states::NmtState;
use powerlink_rs::pdo::PDOVersion;
use powerlink_rs::types::{EPLVersion, NodeId};

/// How many inputs a row has: with the largest payload they still fit into the first cache.
pub const INPUTS: usize = 16;
pub const PAYLOADS: [usize; 4] = [0, 36, 256, 1490];

pub struct Random(pub u64);

impl Random {
    /// splitmix64
    pub fn next(&mut self) -> u64 {
        self.0 = self.0.wrapping_add(0x9E37_79B9_7F4A_7C15);
        let z = (self.0 ^ (self.0 >> 30)).wrapping_mul(0xBF58_476D_1CE4_E5B9);
        let z = (z ^ (z >> 27)).wrapping_mul(0x94D0_49BB_1331_11EB);
        z ^ (z >> 31)
    }

    pub fn octet(&mut self) -> u8 {
        self.next() as u8
    }

    fn flag(&mut self) -> bool {
        self.next() & 1 == 1
    }

    /// Octets of which none is 0, so that nothing of a payload is taken for padding.
    pub fn octets(&mut self, n: usize) -> Vec<u8> {
        (0..n).map(|_| self.octet() | 1).collect()
    }

    pub fn mac(&mut self) -> MacAddress {
        MacAddress(std::array::from_fn(|_| self.octet()))
    }

    pub fn node(&mut self) -> NodeId {
        NodeId(1 + (self.next() % 239) as u8)
    }

    pub fn state(&mut self) -> NmtState {
        let states = [0x1C, 0x1D, 0x5D, 0x6D, 0xFD, 0x4D, 0x1E];
        NmtState::try_from(states[self.next() as usize % states.len()]).expect("a state")
    }

    fn service(&mut self) -> ServiceId {
        let services = [1, 2, 3, 4, 5, 0x0B, 0x0D, 0x12];
        ServiceId::try_from(services[self.next() as usize % services.len()]).expect("a service")
    }

    fn requested(&mut self) -> RequestedServiceId {
        let services = [0, 1, 2, 3, 0xFF];
        RequestedServiceId::try_from(services[self.next() as usize % services.len()]).expect("a requested service")
    }

    pub fn pr(&mut self) -> PRFlag {
        PRFlag::try_from(self.octet()).expect("its three low bits")
    }

    pub fn rs(&mut self) -> RSFlag {
        RSFlag::new(self.octet() & 7)
    }

    fn time(&mut self) -> NetTime {
        NetTime { seconds: self.next() as u32, nanoseconds: (self.next() % 1_000_000_000) as u32 }
    }

    pub fn field(&mut self) -> StaticErrorBitField {
        StaticErrorBitField { error_register: self.octet(), specific_errors: std::array::from_fn(|_| self.octet()) }
    }

    pub fn soc(&mut self) -> SocFrame {
        let flags = SocFlags { mc: self.flag(), ps: self.flag() };
        SocFrame::new(self.mac(), flags, self.time(), RelativeTime(self.next()))
    }

    pub fn soa(&mut self) -> SoAFrame {
        let flags = SoAFlags { ea: self.flag(), er: self.flag() };
        SoAFrame::new(self.mac(), self.state(), flags, self.requested(), self.node(), EPLVersion(self.octet()))
    }

    pub fn preq(&mut self, payload: usize) -> PReqFrame {
        let flags = PReqFlags { ms: self.flag(), ea: self.flag(), rd: self.flag() };
        PReqFrame::new(self.mac(), self.mac(), self.node(), flags, PDOVersion(self.octet()), self.octets(payload))
    }

    pub fn pres(&mut self, payload: usize) -> PResFrame {
        let flags = PResFlags { ms: self.flag(), en: self.flag(), rd: self.flag(), pr: self.pr(), rs: self.rs() };
        PResFrame::new(self.mac(), self.node(), self.state(), flags, PDOVersion(self.octet()), self.octets(payload))
    }

    pub fn asnd(&mut self, payload: usize) -> ASndFrame {
        ASndFrame::new(self.mac(), self.mac(), self.node(), self.node(), self.service(), self.octets(payload))
    }

    pub fn entry(&mut self) -> ErrorEntry {
        ErrorEntry {
            entry_type: EntryType {
                is_status_entry: self.flag(),
                send_to_queue: self.flag(),
                mode: ErrorEntryMode::try_from(1 + (self.next() % 3) as u8).expect("a mode"),
                profile: (self.next() & 0x0FFF) as u16,
            },
            error_code: self.next() as u16,
            timestamp: self.time(),
            additional_information: self.next(),
        }
    }

    /// An entry that a head of ours takes.
    pub fn history_entry(&mut self) -> ErrorEntry {
        let mut entry = self.entry();
        entry.entry_type.is_status_entry = false;
        entry
    }

    pub fn status(&mut self, entries: usize) -> StatusResponsePayload {
        let entries = (0..entries).map(|_| self.entry()).collect();
        StatusResponsePayload::new(self.flag(), self.flag(), self.pr(), self.rs(), self.state(), self.field(), entries)
    }
}

/// Targets in turn, not cleared, at different places of a page: with a single one, whether its stores and loads from
/// elsewhere agree in their low 12 bits, which processors take for the same address at first, would be up to chance and
/// stay so for a row.
pub struct Targets(Vec<u8>);

impl Targets {
    const STEP: usize = 29 * 64;
    pub const COUNT: usize = 8;
    pub const LEN: usize = 1600;

    pub fn new() -> Targets {
        Targets(vec![0xFC; Self::STEP * Self::COUNT])
    }

    pub fn each(&mut self) -> impl Iterator<Item = &mut [u8]> {
        self.0.chunks_exact_mut(Self::STEP).map(|octets| &mut octets[..Self::LEN])
    }
}

/// As many inputs as a row has.
pub fn many<T>(mut make: impl FnMut() -> T) -> Vec<T> {
    (0..INPUTS).map(|_| make()).collect()
}
