//! The wrapper on the library. Octets that are expected were written from the layouts, and not
//! taken from what is printed.
mod codes;
mod conversions;
mod errors;
mod exchange;
mod frames;
mod hosts;
mod house;
mod journals;
mod services;
mod states;
mod status;
mod status_entries;

use powerlink::*;

/// The table of whoever has no other.
pub const DS301: &Services = &Services::DS301;

/// An entry that can be raised, told apart by its code.
pub fn entry(error_code: u16) -> ErrorEntry {
    ErrorEntry {
        entry_type: EntryType {
            is_status_entry: false,
            send_to_queue: error_code % 3 == 1,
            mode: ErrorEntryMode::ErrorActive,
            profile: error_code % 0x1000,
        },
        error_code,
        timestamp: NetTime {
            seconds: 0x0403_0201,
            nanoseconds: 0x0807_0605,
        },
        additional_information: 0x1817_1615_1413_1211,
    }
}

/// The status entry that differs from it in bit 15 alone: no head raises it, and no box books it.
pub fn status_entry(error_code: u16) -> ErrorEntry {
    let mut entry = entry(error_code);
    entry.entry_type.is_status_entry = true;
    entry
}

/// What node `id` answers with, beside its entries.
pub fn answer_fields(id: u8) -> AnswerFields {
    AnswerFields {
        source_mac: MacAddress([2, 0, 0, 0, 0, id]),
        dest_mac: MacAddress(ASndFrame::MULTICAST),
        ec_flag: false,
        pr: PRFlag::PrioGenericRequest,
        rs: RSFlag::new(0),
        nmt_state: NmtState::NmtOperational,
        static_error_bit_field: StaticErrorBitField::default(),
    }
}

/// What the box asks with, beside the node and EA.
pub fn request_fields() -> RequestFields {
    RequestFields {
        source_mac: MacAddress([2, 0, 0, 0, 0, 240]),
        nmt_state: NmtState::NmtOperational,
        epl_version: EPLVersion(0x20),
    }
}

/// The octets that a head answers with.
pub fn answer(head: &mut Reporter, id: u8) -> Vec<u8> {
    let mut frame = vec![0xEE; 200];
    let n = head.answer(DS301, &answer_fields(id), &mut frame).unwrap();
    frame.truncate(n);
    frame
}

/// The octets that the box asks a head with.
pub fn request(the_box: &Collector, id: u8) -> Vec<u8> {
    let mut frame = vec![0xEE; 200];
    let n = the_box
        .request(NodeId(id), &request_fields(), &mut frame)
        .unwrap();
    frame.truncate(n);
    frame
}

/// A PReq of the host to a head, with this EA.
pub fn preq(id: u8, ea: bool) -> Vec<u8> {
    let flags = PReqFlags {
        ea,
        ..PReqFlags::default()
    };
    let (from, to) = (
        MacAddress([2, 0, 0, 0, 0, 240]),
        MacAddress([2, 0, 0, 0, 0, id]),
    );
    let mut frame = vec![0xEE; 60];
    PReqFrame::new(from, to, NodeId(id), flags, PDOVersion(0), &[])
        .write_frame(&mut frame)
        .unwrap();
    frame
}

/// An SoA of the host that asks a head who it is, with these flags.
pub fn ident_request(id: u8, flags: SoAFlags) -> Vec<u8> {
    let mut frame = vec![0xEE; 60];
    SoAFrame::new(
        MacAddress([2, 0, 0, 0, 0, 240]),
        NmtState::NmtOperational,
        flags,
        RequestedServiceId::IdentRequest,
        NodeId(id),
        EPLVersion(0x20),
    )
    .write_frame(&mut frame)
    .unwrap();
    frame
}

/// A section with a POWERLINK Ethernet header in front.
pub fn framed(section: &[u8]) -> Vec<u8> {
    let mut frame = vec![0; 12];
    frame.extend([0x88, 0xAB]);
    frame.extend(section);
    frame
}

/// One direction of a line: frames arrive in the order of sending; any may be skipped, late or
/// repeated.
#[derive(Default)]
pub struct Direction {
    pub sent: Vec<Vec<u8>>,
    next: usize,
}

impl Direction {
    /// A frame that arrives now, if one does.
    pub fn arrives(&mut self, numbers: &mut Numbers) -> Option<&[u8]> {
        self.next += numbers.below(3) as usize;
        if self.sent.len() < self.next + 1 {
            self.next = self.sent.len().saturating_sub(1);
        }
        self.sent.get(self.next).map(Vec::as_slice)
    }
}

/// Numbers that look random, the same in every run.
pub struct Numbers(pub u64);

impl Numbers {
    /// A number under `bound`.
    pub fn below(&mut self, bound: u64) -> u64 {
        self.0 = self
            .0
            .wrapping_mul(6364136223846793005)
            .wrapping_add(1442695040888963407);
        (self.0 >> 33) % bound
    }
}
