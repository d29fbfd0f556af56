//! A case: a call of the library with its inputs, and what a call leaves behind.
use std::fmt::Write as _;

/// What a number of a call is: how far it goes, and which codes name something.
#[derive(Clone, Copy, PartialEq, Eq)]
pub enum Number {
    Flag,
    Octet,
    Message,
    State,
    Service,
    Request,
    Half,
    Word,
    Long,
    Offset,
}
use Number::*;

impl Number {
    pub fn limit(self) -> u64 {
        match self {
            Flag => 1,
            Octet | Message | State | Service | Request => 0xFF,
            Half => 0xFFFF,
            Word => 0xFFFF_FFFF,
            Long | Offset => u64::MAX,
        }
    }

    pub fn codes(self) -> &'static [u8] {
        match self {
            Message => &[1, 3, 4, 5, 6],
            State => &[0x00, 0x19, 0x29, 0x39, 0x79, 0x1C, 0x1D, 0x5D, 0x6D, 0xFD, 0x4D, 0x1E],
            Service => &[1, 2, 3, 4, 5, 0x0B, 0x0D, 0x0E, 0x0F, 0x10, 0x11, 0x12],
            Request => &[0, 1, 2, 3, 0xFF],
            _ => &[],
        }
    }
}

/// What octets of a call are: an array, or a slice.
#[derive(Clone, Copy, PartialEq, Eq)]
pub enum Octets {
    Array(usize),
    Slice,
    Entries,
}
use Octets::*;

/// What goes into a call and comes out of it: how many values and octets a reader gives, the length of a writer's fixed
/// part and the least that it writes, and the causes that it can have.
pub struct Shape {
    pub name: &'static str,
    pub numbers: &'static [Number],
    pub bytes: &'static [Octets],
    pub values: usize,
    pub octets: usize,
    pub writes: Option<(usize, usize)>,
    pub causes: &'static [u8],
}

const fn reads(
    name: &'static str,
    numbers: &'static [Number],
    values: usize,
    octets: usize,
    causes: &'static [u8],
) -> Shape {
    Shape { name, numbers, bytes: &[Slice], values, octets, writes: None, causes }
}

const fn writes(
    name: &'static str,
    numbers: &'static [Number],
    bytes: &'static [Octets],
    fixed: usize,
    least: usize,
    causes: &'static [u8],
) -> Shape {
    Shape { name, numbers, bytes, values: 0, octets: 0, writes: Some((fixed, least)), causes }
}

pub const CALLS: usize = 22;

/// The calls, by their number less one.
pub const SHAPES: [Shape; CALLS] = [
    reads("deserialize_frame", &[], 16, 0, &[0, 1, 2, 3, 4, 5, 6, 7]),
    reads("deserialize_eth_header", &[], 1, 12, &[0, 1]),
    reads("deserialize_pl_header", &[], 3, 0, &[0, 1, 4]),
    reads("deserialize_status", &[], 5, 8, &[0, 1, 5]),
    reads("deserialize_error_field", &[], 0, 8, &[0, 1]),
    reads("deserialize_entry", &[], 8, 0, &[0, 1]),
    reads("entry_step", &[Offset], 9, 0, &[0]),
    writes("serialize_soc", &[Octet, Octet, Flag, Flag, Word, Word, Long], &[], 22, 46, &[0, 1]),
    writes("serialize_preq", &[Octet, Octet, Flag, Flag, Flag, Octet, Half], &[Slice], 10, 46, &[0, 1]),
    writes(
        "serialize_pres",
        &[Octet, Octet, State, Flag, Flag, Flag, Octet, Octet, Octet, Half],
        &[Slice],
        10,
        46,
        &[0, 1, 5],
    ),
    writes("serialize_soa", &[Octet, Octet, State, Flag, Flag, Request, Octet, Octet], &[], 9, 46, &[0, 1, 5, 7]),
    writes("serialize_asnd", &[Octet, Octet, Service], &[Slice], 4, 46, &[0, 1, 6]),
    writes("serialize_eth_header", &[Half], &[Array(6), Array(6)], 14, 14, &[0, 1]),
    writes("serialize_pl_header", &[Message, Octet, Octet], &[], 3, 3, &[0, 1, 4]),
    writes("serialize_entry", &[Flag, Flag, Octet, Half, Half, Word, Word, Long], &[], 20, 20, &[0, 1, 8]),
    writes("serialize_error_field", &[], &[Array(8)], 8, 8, &[0, 1]),
    writes("serialize_status", &[Flag, Flag, Octet, Octet, State], &[Array(8), Entries], 34, 34, &[0, 1, 5]),
    writes("new_soc", &[Flag, Flag, Word, Word, Long], &[Array(6)], 36, 60, &[0, 1]),
    writes("new_preq", &[Octet, Flag, Flag, Flag, Octet], &[Array(6), Array(6), Slice], 24, 60, &[0, 1]),
    writes(
        "new_pres",
        &[Octet, State, Flag, Flag, Flag, Octet, Octet, Octet],
        &[Array(6), Slice],
        24,
        60,
        &[0, 1, 5],
    ),
    writes("new_soa", &[State, Flag, Flag, Request, Octet, Octet], &[Array(6)], 23, 60, &[0, 1, 5, 7]),
    writes("new_asnd", &[Octet, Octet, Service], &[Array(6), Array(6), Slice], 18, 60, &[0, 1, 6]),
];

pub const FRAME: usize = 1;
pub const ETH: usize = 2;
pub const PL: usize = 3;
pub const STATUS: usize = 4;
pub const FIELD: usize = 5;
pub const ENTRY: usize = 6;
pub const STEP: usize = 7;
pub const WRITE_SOC: usize = 8;
pub const WRITE_PREQ: usize = 9;
pub const WRITE_PRES: usize = 10;
pub const WRITE_SOA: usize = 11;
pub const WRITE_ASND: usize = 12;
pub const WRITE_ETH: usize = 13;
pub const WRITE_PL: usize = 14;
pub const WRITE_ENTRY: usize = 15;
pub const WRITE_FIELD: usize = 16;
pub const WRITE_STATUS: usize = 17;
pub const NEW_SOC: usize = 18;
pub const NEW_PREQ: usize = 19;
pub const NEW_PRES: usize = 20;
pub const NEW_SOA: usize = 21;
pub const NEW_ASND: usize = 22;

/// Before a call, each octet of its target, of its values and of its other out-parameters is `fill`.
#[derive(Clone, Default, PartialEq, Eq)]
pub struct Case {
    pub call: usize,
    pub fill: u8,
    pub numbers: [u64; 10],
    pub bytes: [Vec<u8>; 3],
    pub target: usize,
}

impl Case {
    pub fn new(call: usize) -> Case {
        let mut case = Case { call, fill: 0xA5, ..Case::default() };
        case.arrays();
        case
    }

    pub fn shape(&self) -> &'static Shape {
        &SHAPES[self.call - 1]
    }

    /// Gives each array its length.
    pub fn arrays(&mut self) {
        let shapes = self.shape().bytes;
        for (octets, shape) in self.bytes.iter_mut().zip(shapes) {
            if let Array(n) = shape {
                octets.resize(*n, 0);
            }
        }
    }

    /// What the call writes if its target is long enough, as 01 has it: it serves to choose targets.
    pub fn needed(&self) -> usize {
        let Some((fixed, least)) = self.shape().writes else {
            return 0;
        };
        let sliced = self.bytes.iter().zip(self.shape().bytes).map(|(octets, shape)| match shape {
            Array(_) => 0,
            Slice => octets.len(),
            Entries => octets.len() / 20 * 20,
        });
        least.max(fixed + sliced.sum::<usize>())
    }

    pub fn text(&self) -> String {
        let shape = self.shape();
        let mut out = format!("{} fill {:02X}", shape.name, self.fill);
        if !shape.numbers.is_empty() {
            let _ = write!(out, " numbers {:?}", &self.numbers[..shape.numbers.len()]);
        }
        for octets in &self.bytes[..shape.bytes.len()] {
            let _ = write!(out, " octets {} [{}]", octets.len(), hex(octets));
        }
        if shape.writes.is_some() {
            let _ = write!(out, " target {}", self.target);
        }
        out
    }
}

pub fn hex(octets: &[u8]) -> String {
    let shown = octets.iter().take(2000).map(|b| format!("{b:02X}")).collect::<Vec<_>>().join(" ");
    if octets.len() > 2000 { shown + " .." } else { shown }
}

/// Octets behind every target that no call may touch.
const GUARD: usize = 24;

/// All that a call can change, and its answer.
#[derive(Clone, Default)]
pub struct Out {
    pub cause: u8,
    pub octet: u8,
    pub values: [u64; 16],
    pub octets: [u8; 12],
    pub written: usize,
    pub target: Vec<u8>,
}

impl Out {
    /// As it is before the call.
    pub fn before(&mut self, case: &Case) {
        self.cause = 0;
        self.octet = case.fill;
        self.values = [many(case.fill); 16];
        self.octets = [case.fill; 12];
        self.written = many(case.fill) as usize;
        self.target.clear();
        if case.shape().writes.is_some() {
            self.target.resize(case.target + GUARD, case.fill);
        }
    }

    /// What differs between two, if anything.
    pub fn differs(&self, other: &Out) -> Option<String> {
        if self.cause != other.cause {
            return Some(format!("cause {} against {}", self.cause, other.cause));
        }
        if self.octet != other.octet {
            return Some(format!("octet {} against {}", self.octet, other.octet));
        }
        if self.values != other.values {
            return Some(format!("values {:?} against {:?}", self.values, other.values));
        }
        if self.octets != other.octets {
            return Some(format!("octets {} against {}", hex(&self.octets), hex(&other.octets)));
        }
        if self.written != other.written {
            return Some(format!("length {} against {}", self.written, other.written));
        }
        if self.target != other.target {
            let at = self.target.iter().zip(&other.target).position(|(a, b)| a != b);
            return Some(format!("target from octet {at:?} on: {} against {}", hex(&self.target), hex(&other.target)));
        }
        None
    }
}

/// A number whose octets are all `fill`.
pub fn many(fill: u8) -> u64 {
    u64::from_ne_bytes([fill; 8])
}
