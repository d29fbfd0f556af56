//! Their side: what powerlink-rs answers, put into the form of our calls. Whatever differs by a row of
//! docs/DIFFERENCES.md is counted under that row; any other thing that our form cannot say is an error.
use crate::case::*;
use powerlink_rs::PowerlinkError;
use powerlink_rs::common::{NetTime, RelativeTime};
use powerlink_rs::frame::basic::{EthernetHeader, MacAddress};
use powerlink_rs::frame::codec::CodecHelpers;
use powerlink_rs::frame::control::{SoAFlags, SocFlags};
use powerlink_rs::frame::error::{EntryType, ErrorEntry, ErrorEntryMode};
use powerlink_rs::frame::poll::{PReqFlags, PResFlags};
use powerlink_rs::frame::{ASndFrame, PReqFrame, PResFrame, PowerlinkFrame, SoAFrame, SocFrame};
use powerlink_rs::frame::{PRFlag, RSFlag, RequestedServiceId, ServiceId, StaticErrorBitField, StatusResponsePayload};
use powerlink_rs::frame::deserialize_frame;
use powerlink_rs::nmt::states::NmtState;
use powerlink_rs::pdo::PDOVersion;
use powerlink_rs::types::{EPLVersion, MessageType, NodeId};

/// The rows of docs/DIFFERENCES.md that a call can show.
#[derive(Clone, Copy)]
pub enum Row {
    PlUnknown,
    RefusedWrote,
    EthSilent,
    PlSilent,
    MessageOctet,
    ModeAbove3,
    EntryCut,
}

pub const ROWS: [&str; 7] = [
    "deserialize_pl_header, unknown message type: InvalidEnumValue, not 4 with the octet",
    "a writer that refuses has written its fields",
    "serialize_eth_header is silent on a target under 14 octets",
    "serialize_pl_header is silent on a target under 3 octets",
    "MessageType::try_from: an error without the octet",
    "ErrorEntryMode::try_from refuses a mode above 3, without a number; our writer of an entry with 8, after 1",
    "the Rust's entries are records; our writer of a StatusResponse takes their octets, and refuses a rest with 1",
];

/// Besides the answer: what only the Rust holds, and how often each row was met.
#[derive(Default)]
pub struct Theirs {
    pub header: Option<EthernetHeader>,
    pub payload: Vec<u8>,
    pub entries: Vec<ErrorEntry>,
    pub rows: [u64; ROWS.len()],
    scratch: Vec<u8>,
    image: Vec<u8>,
}

/// 01's number for an error, and its octet.
pub fn cause(error: PowerlinkError) -> Result<(u8, Option<u8>), String> {
    Ok(match error {
        PowerlinkError::BufferTooShort => (1, None),
        PowerlinkError::InvalidEthernetFrame => (2, None),
        PowerlinkError::InvalidPlFrame => (3, None),
        PowerlinkError::InvalidMessageType(b) => (4, Some(b)),
        PowerlinkError::InvalidNmtState(b) => (5, Some(b)),
        PowerlinkError::InvalidServiceId(b) => (6, Some(b)),
        PowerlinkError::InvalidRequestedServiceId(b) => (7, Some(b)),
        other => return Err(format!("the Rust gives an error outside the seven: {other:?}")),
    })
}

fn refused(error: PowerlinkError, out: &mut Out) -> Result<(), String> {
    let (number, octet) = cause(error)?;
    out.cause = number;
    if let Some(b) = octet {
        out.octet = b;
    }
    Ok(())
}

fn mac(octets: &[u8]) -> MacAddress {
    MacAddress(octets.try_into().unwrap())
}

fn field(octets: &[u8]) -> StaticErrorBitField {
    StaticErrorBitField { error_register: octets[0], specific_errors: octets[1..8].try_into().unwrap() }
}

fn field_octets(field: StaticErrorBitField) -> [u8; 8] {
    let [a, b, c, d, e, f, g] = field.specific_errors;
    [field.error_register, a, b, c, d, e, f, g]
}

pub fn entry_values(e: &ErrorEntry) -> [u64; 8] {
    let t = e.entry_type;
    [
        t.is_status_entry.into(),
        t.send_to_queue.into(),
        t.mode as u64,
        t.profile.into(),
        e.error_code.into(),
        e.timestamp.seconds.into(),
        e.timestamp.nanoseconds.into(),
        e.additional_information,
    ]
}

/// A code, or one that stands in for it and the Rust's error: which lengths are refused does not hang on codes.
fn code<T>(read: Result<T, PowerlinkError>, instead: T) -> (T, Option<PowerlinkError>) {
    match read {
        Ok(value) => (value, None),
        Err(error) => (instead, Some(error)),
    }
}

impl Theirs {
    fn row(&mut self, row: Row) {
        self.rows[row as usize] += 1;
    }

    /// The answer to a case. `out` is as before the call. An error is one that no row of docs/DIFFERENCES.md has.
    pub fn answer(&mut self, case: &Case, out: &mut Out) -> Result<(), String> {
        match case.call {
            FRAME => self.frame(&case.bytes[0], out),
            ETH => self.eth(&case.bytes[0], out),
            PL => self.pl(&case.bytes[0], out),
            STATUS => self.status(&case.bytes[0], out),
            FIELD => match StaticErrorBitField::deserialize(&case.bytes[0]) {
                Err(e) => refused(e, out),
                Ok(f) => {
                    out.octets[..8].copy_from_slice(&field_octets(f));
                    Ok(())
                }
            },
            ENTRY => match ErrorEntry::deserialize(&case.bytes[0]) {
                Err(e) => refused(e, out),
                Ok(e) => {
                    out.values[..8].copy_from_slice(&entry_values(&e));
                    Ok(())
                }
            },
            STEP => self.step(&case.bytes[0], case.numbers[0], out),
            WRITE_ETH => self.write_eth(case, out),
            WRITE_PL => self.write_pl(case, out),
            WRITE_ENTRY => self.write_entry(case, out),
            WRITE_FIELD => self.write(case, out, 8, None, |t| field(&case.bytes[0]).serialize(t)),
            WRITE_STATUS => self.write_status(case, out),
            _ => self.write_frame(case, out),
        }
    }

    fn frame(&mut self, buffer: &[u8], out: &mut Out) -> Result<(), String> {
        let frame = match deserialize_frame(buffer) {
            Err(e) => return refused(e, out),
            Ok(frame) => frame,
        };
        self.header = Some(*frame.ethernet_header());
        out.values = [0; 16];
        let (front, own): (_, &[u64]) = match frame {
            PowerlinkFrame::Soc(f) => {
                self.payload.clear();
                let t = f.net_time;
                (
                    (f.message_type, f.destination, f.source, 0),
                    &[
                        f.flags.mc.into(),
                        f.flags.ps.into(),
                        t.seconds.into(),
                        t.nanoseconds.into(),
                        f.relative_time.0,
                    ],
                )
            }
            PowerlinkFrame::PReq(f) => {
                self.payload = f.payload;
                (
                    (f.message_type, f.destination, f.source, 24),
                    &[
                        f.flags.ms.into(),
                        f.flags.ea.into(),
                        f.flags.rd.into(),
                        f.pdo_version.0.into(),
                        f.payload_size.into(),
                    ],
                )
            }
            PowerlinkFrame::PRes(f) => {
                self.payload = f.payload;
                (
                    (f.message_type, f.destination, f.source, 24),
                    &[
                        f.flags.ms.into(),
                        f.flags.en.into(),
                        f.flags.rd.into(),
                        f.pdo_version.0.into(),
                        f.payload_size.into(),
                        f.nmt_state as u64,
                        f.flags.pr as u64,
                        f.flags.rs.get().into(),
                    ],
                )
            }
            PowerlinkFrame::SoA(f) => {
                self.payload.clear();
                (
                    (f.message_type, f.destination, f.source, 0),
                    &[
                        f.flags.ea.into(),
                        f.flags.er.into(),
                        f.req_service_id as u64,
                        f.target_node_id.0.into(),
                        f.epl_version.0.into(),
                        f.nmt_state as u64,
                    ],
                )
            }
            PowerlinkFrame::ASnd(f) => {
                self.payload = f.payload;
                ((f.message_type, f.destination, f.source, 18), &[f.service_id as u64])
            }
        };
        let (message_type, to, from, start) = front;
        out.values[..5].copy_from_slice(&[
            message_type as u64,
            to.0.into(),
            from.0.into(),
            start,
            self.payload.len() as u64,
        ]);
        out.values[5..5 + own.len()].copy_from_slice(own);
        Ok(())
    }

    fn eth(&mut self, buffer: &[u8], out: &mut Out) -> Result<(), String> {
        match CodecHelpers::deserialize_eth_header(buffer) {
            Err(e) => refused(e, out),
            Ok(h) => {
                out.octets[..6].copy_from_slice(&h.destination_mac.0);
                out.octets[6..].copy_from_slice(&h.source_mac.0);
                out.values[0] = h.ether_type.into();
                Ok(())
            }
        }
    }

    fn pl(&mut self, buffer: &[u8], out: &mut Out) -> Result<(), String> {
        match CodecHelpers::deserialize_pl_header(buffer) {
            Err(PowerlinkError::InvalidEnumValue) if MessageType::try_from(buffer[0] & 0x7F).is_err() => {
                self.row(Row::PlUnknown);
                refused(PowerlinkError::InvalidMessageType(buffer[0] & 0x7F), out)
            }
            Err(e) => refused(e, out),
            Ok((message_type, to, from)) => {
                out.values[..3].copy_from_slice(&[message_type as u64, to.0.into(), from.0.into()]);
                Ok(())
            }
        }
    }

    fn status(&mut self, payload: &[u8], out: &mut Out) -> Result<(), String> {
        match StatusResponsePayload::deserialize(payload) {
            Err(e) => refused(e, out),
            Ok(s) => {
                out.values[..5].copy_from_slice(&[
                    s.en_flag.into(),
                    s.ec_flag.into(),
                    s.pr as u64,
                    s.rs.get().into(),
                    s.nmt_state as u64,
                ]);
                out.octets[..8].copy_from_slice(&field_octets(s.static_error_bit_field));
                self.entries = s.error_entries;
                Ok(())
            }
        }
    }

    /// One step from any offset: the first entry that the Rust reads behind 14 zeros, which are a readable front.
    fn step(&mut self, payload: &[u8], offset: u64, out: &mut Out) -> Result<(), String> {
        let rest = usize::try_from(offset).ok().and_then(|o| payload.get(o..)).unwrap_or(&[]);
        self.scratch.clear();
        self.scratch.resize(14, 0);
        self.scratch.extend_from_slice(&rest[..rest.len().min(20)]);
        let read = StatusResponsePayload::deserialize(&self.scratch).map_err(|e| format!("the Rust refuses: {e:?}"))?;
        match read.error_entries.first() {
            None => out.values[8] = 0,
            Some(e) => {
                out.values[..8].copy_from_slice(&entry_values(e));
                out.values[8] = offset + 20;
            }
        }
        Ok(())
    }

    /// What a writer of the Rust makes of the target. `reach` is how far it has written when it is then refused for want
    /// of padding: those octets are as in a longer target, and no others have changed. `unnamed` is the error of a code
    /// that the writer cannot be given: it stands behind the length's.
    fn write(
        &mut self,
        case: &Case,
        out: &mut Out,
        reach: usize,
        unnamed: Option<PowerlinkError>,
        writer: impl Fn(&mut [u8]) -> Result<usize, PowerlinkError>,
    ) -> Result<(), String> {
        let before = &out.target;
        self.scratch.clear();
        self.scratch.extend_from_slice(before);
        match writer(&mut self.scratch[..case.target]) {
            Ok(n) => {
                if let Some(error) = unnamed {
                    return refused(error, out);
                }
                out.written = n;
                out.target.copy_from_slice(&self.scratch);
                Ok(())
            }
            Err(error) => {
                let wrote = if case.target < reach { 0 } else { reach };
                let len = case.needed().max(case.target);
                self.image.clear();
                self.image.resize(len, case.fill);
                writer(&mut self.image).map_err(|e| format!("the Rust refuses {len} octets too: {e:?}"))?;
                if self.scratch[..wrote] != self.image[..wrote] || self.scratch[wrote..] != before[wrote..] {
                    return Err(format!(
                        "a refused writer of the Rust has left octets that no row lists: {}",
                        hex(&self.scratch)
                    ));
                }
                if wrote > 0 {
                    self.row(Row::RefusedWrote);
                }
                refused(error, out)
            }
        }
    }

    fn write_frame(&mut self, case: &Case, out: &mut Out) -> Result<(), String> {
        let (frame, unnamed) = made(case);
        let whole = case.call >= NEW_SOC;
        let fixed = case.shape().writes.unwrap().0 + self.slice_len(case);
        if !whole {
            return self.write(case, out, fixed, unnamed, |t| frame.serialize(t));
        }
        // The header goes in front of a section whose writer then refuses the rest.
        let reach = if case.target < fixed { 14 } else { fixed };
        self.write(case, out, reach, unnamed, |t| {
            CodecHelpers::serialize_eth_header(frame.ethernet_header(), t);
            let rest = if t.len() < 14 { &mut [] } else { &mut t[14..] };
            frame.serialize(rest).map(|n| n + 14)
        })
    }

    fn slice_len(&self, case: &Case) -> usize {
        let slices = case.bytes.iter().zip(case.shape().bytes);
        slices.filter(|(_, shape)| **shape == Octets::Slice).map(|(octets, _)| octets.len()).sum()
    }

    fn write_eth(&mut self, case: &Case, out: &mut Out) -> Result<(), String> {
        let header = EthernetHeader {
            destination_mac: mac(&case.bytes[0]),
            source_mac: mac(&case.bytes[1]),
            ether_type: case.numbers[0] as u16,
        };
        self.silent(case, out, 14, Row::EthSilent, |t| CodecHelpers::serialize_eth_header(&header, t))
    }

    fn write_pl(&mut self, case: &Case, out: &mut Out) -> Result<(), String> {
        let [b, to, from] = [0, 1, 2].map(|i| case.numbers[i] as u8);
        let message_type = MessageType::try_from(b);
        let stands = message_type.as_ref().map_or(MessageType::SoC, |m| *m);
        self.silent(case, out, 3, Row::PlSilent, |t| {
            CodecHelpers::serialize_pl_header(stands, NodeId(to), NodeId(from), t)
        })?;
        if message_type.is_err() && out.cause == 0 {
            self.row(Row::MessageOctet);
            out.before(case);
            refused(PowerlinkError::InvalidMessageType(b), out)?;
        }
        Ok(())
    }

    /// A writer that has no answer: a target that is too short stays as it was, which ours answers with 1.
    fn silent(
        &mut self,
        case: &Case,
        out: &mut Out,
        len: usize,
        row: Row,
        writer: impl Fn(&mut [u8]),
    ) -> Result<(), String> {
        self.scratch.clear();
        self.scratch.extend_from_slice(&out.target);
        writer(&mut self.scratch[..case.target]);
        if case.target < len {
            if self.scratch != out.target {
                return Err("a silent writer of the Rust has written".into());
            }
            self.row(row);
            return refused(PowerlinkError::BufferTooShort, out);
        }
        out.written = len;
        out.target.copy_from_slice(&self.scratch);
        Ok(())
    }

    /// The Rust writes no entry alone: a StatusResponse with this one has it from octet 14 on, between 14 octets and the
    /// 20 of the end. Its target has these 34 octets more than ours, and so is refused when ours is.
    fn write_entry(&mut self, case: &Case, out: &mut Out) -> Result<(), String> {
        let n = &case.numbers;
        let mode = n[2] as u8;
        let Ok(mode) = ErrorEntryMode::try_from(mode) else {
            self.row(Row::ModeAbove3);
            out.cause = if case.target < 20 { 1 } else { 8 };
            return Ok(());
        };
        let entry = ErrorEntry {
            entry_type: EntryType {
                is_status_entry: n[0] != 0,
                send_to_queue: n[1] != 0,
                mode,
                profile: n[3] as u16,
            },
            error_code: n[4] as u16,
            timestamp: NetTime { seconds: n[5] as u32, nanoseconds: n[6] as u32 },
            additional_information: n[7],
        };
        let around = StatusResponsePayload { error_entries: vec![entry], ..StatusResponsePayload::default() };
        self.scratch.clear();
        self.scratch.resize(34 + out.target.len(), case.fill);
        match around.serialize(&mut self.scratch[..34 + case.target]) {
            Err(e) => {
                if self.scratch.iter().any(|b| *b != case.fill) {
                    return Err("the refused writer of a StatusResponse has written".into());
                }
                refused(e, out)
            }
            Ok(n) => {
                out.written = n - 34;
                out.target[..20].copy_from_slice(&self.scratch[14..34]);
                out.target[20..].copy_from_slice(&self.scratch[54..]);
                Ok(())
            }
        }
    }

    fn write_status(&mut self, case: &Case, out: &mut Out) -> Result<(), String> {
        let n = &case.numbers;
        let (state, unnamed) = code(NmtState::try_from(n[4] as u8), NmtState::NmtGsOff);
        if case.bytes[1].len() % 20 != 0 {
            self.row(Row::EntryCut);
            out.cause = 1;
            return Ok(());
        }
        let mut entries = Vec::new();
        for octets in case.bytes[1].chunks_exact(20) {
            entries.push(ErrorEntry::deserialize(octets).map_err(|e| format!("the Rust refuses an entry: {e:?}"))?);
        }
        let pr = PRFlag::try_from(n[2] as u8).map_err(|e| format!("the Rust refuses a priority: {e:?}"))?;
        let rs = RSFlag::new(n[3] as u8);
        let payload =
            StatusResponsePayload::new(n[0] != 0, n[1] != 0, pr, rs, state, field(&case.bytes[0]), entries);
        self.write(case, out, usize::MAX, unnamed, |t| payload.serialize(t))
    }
}

/// The frame of a case, and the error of a code that it names none with.
fn made(case: &Case) -> (PowerlinkFrame, Option<PowerlinkError>) {
    let n = &case.numbers;
    let b = &case.bytes;
    let flag = |i: usize| n[i] != 0;
    let node = |i: usize| NodeId(n[i] as u8);
    let version = |i: usize| PDOVersion(n[i] as u8);
    let time = |i: usize| NetTime { seconds: n[i] as u32, nanoseconds: n[i + 1] as u32 };
    let state = |i: usize| code(NmtState::try_from(n[i] as u8), NmtState::NmtGsOff);
    let service = |i: usize| code(ServiceId::try_from(n[i] as u8), ServiceId::Sdo);
    let request = |i: usize| code(RequestedServiceId::try_from(n[i] as u8), RequestedServiceId::NoService);
    let preq = |i: usize| PReqFlags { ms: flag(i), ea: flag(i + 1), rd: flag(i + 2) };
    let pres = |i: usize| PResFlags {
        ms: flag(i),
        en: flag(i + 1),
        rd: flag(i + 2),
        pr: PRFlag::try_from(n[i + 3] as u8).unwrap(),
        rs: RSFlag::new(n[i + 4] as u8),
    };
    let none = EthernetHeader::new(MacAddress::default(), MacAddress::default());
    match case.call {
        WRITE_SOC => {
            let frame = SocFrame {
                eth_header: none,
                message_type: MessageType::SoC,
                destination: node(0),
                source: node(1),
                flags: SocFlags { mc: flag(2), ps: flag(3) },
                net_time: time(4),
                relative_time: RelativeTime(n[6]),
            };
            (PowerlinkFrame::Soc(frame), None)
        }
        WRITE_PREQ => {
            let frame = PReqFrame {
                eth_header: none,
                message_type: MessageType::PReq,
                destination: node(0),
                source: node(1),
                flags: preq(2),
                pdo_version: version(5),
                payload_size: n[6] as u16,
                payload: b[0].clone(),
            };
            (PowerlinkFrame::PReq(frame), None)
        }
        WRITE_PRES => {
            let (nmt_state, unnamed) = state(2);
            let frame = PResFrame {
                eth_header: none,
                message_type: MessageType::PRes,
                destination: node(0),
                source: node(1),
                nmt_state,
                flags: pres(3),
                pdo_version: version(8),
                payload_size: n[9] as u16,
                payload: b[0].clone(),
            };
            (PowerlinkFrame::PRes(frame), unnamed)
        }
        WRITE_SOA => {
            let (nmt_state, unnamed) = state(2);
            let (req_service_id, later) = request(5);
            let frame = SoAFrame {
                eth_header: none,
                message_type: MessageType::SoA,
                destination: node(0),
                source: node(1),
                nmt_state,
                flags: SoAFlags { ea: flag(3), er: flag(4) },
                req_service_id,
                target_node_id: node(6),
                epl_version: EPLVersion(n[7] as u8),
            };
            (PowerlinkFrame::SoA(frame), unnamed.or(later))
        }
        WRITE_ASND => {
            let (service_id, unnamed) = service(2);
            let frame = ASndFrame {
                eth_header: none,
                message_type: MessageType::ASnd,
                destination: node(0),
                source: node(1),
                service_id,
                payload: b[0].clone(),
            };
            (PowerlinkFrame::ASnd(frame), unnamed)
        }
        NEW_SOC => {
            let flags = SocFlags { mc: flag(0), ps: flag(1) };
            (PowerlinkFrame::Soc(SocFrame::new(mac(&b[0]), flags, time(2), RelativeTime(n[4]))), None)
        }
        NEW_PREQ => {
            let frame = PReqFrame::new(mac(&b[0]), mac(&b[1]), node(0), preq(1), version(4), b[2].clone());
            (PowerlinkFrame::PReq(frame), None)
        }
        NEW_PRES => {
            let (nmt_state, unnamed) = state(1);
            let frame = PResFrame::new(mac(&b[0]), node(0), nmt_state, pres(2), version(7), b[1].clone());
            (PowerlinkFrame::PRes(frame), unnamed)
        }
        NEW_SOA => {
            let (nmt_state, unnamed) = state(0);
            let (service, later) = request(3);
            let flags = SoAFlags { ea: flag(1), er: flag(2) };
            let frame = SoAFrame::new(mac(&b[0]), nmt_state, flags, service, node(4), EPLVersion(n[5] as u8));
            (PowerlinkFrame::SoA(frame), unnamed.or(later))
        }
        NEW_ASND => {
            let (service_id, unnamed) = service(2);
            let frame = ASndFrame::new(mac(&b[0]), mac(&b[1]), node(0), node(1), service_id, b[2].clone());
            (PowerlinkFrame::ASnd(frame), unnamed)
        }
        other => panic!("call {other} writes no frame"),
    }
}
