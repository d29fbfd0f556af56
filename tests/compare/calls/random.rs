//! Random inputs, the same for the same seed: numbers at their limits, lengths around every boundary, frames that are
//! nearly right.
use crate::case::*;

/// xorshift64*.
pub struct Random(pub u64);

impl Random {
    pub fn next(&mut self) -> u64 {
        self.0 ^= self.0 >> 12;
        self.0 ^= self.0 << 25;
        self.0 ^= self.0 >> 27;
        self.0.wrapping_mul(0x2545_F491_4F6C_DD1D)
    }

    pub fn below(&mut self, n: usize) -> usize {
        ((self.next() >> 32) * n as u64 >> 32) as usize
    }

    pub fn one_in(&mut self, n: usize) -> bool {
        self.below(n) == 0
    }

    pub fn octet(&mut self) -> u8 {
        (self.next() >> 40) as u8
    }

    pub fn one_of(&mut self, list: &[u8]) -> u8 {
        list[self.below(list.len())]
    }

    pub fn fill(&mut self, octets: &mut [u8]) {
        for part in octets.chunks_mut(8) {
            let random = self.next().to_le_bytes();
            part.copy_from_slice(&random[..part.len()]);
        }
    }

    /// A number: any, at a limit, or one bit. A code: mostly one that names something.
    pub fn number(&mut self, number: Number) -> u64 {
        let limit = number.limit();
        let codes = number.codes();
        if !codes.is_empty() && !self.one_in(8) {
            return self.one_of(codes).into();
        }
        match self.below(8) {
            0 => 0,
            1 => limit,
            2 => limit - self.next() % 3 % limit.max(1),
            3 => (1 << self.below(64)) & limit,
            _ => self.next() & limit,
        }
    }
}

const LENGTHS: [usize; 30] = [
    0, 1, 2, 3, 4, 5, 8, 9, 10, 11, 13, 14, 15, 17, 18, 19, 21, 22, 23, 33, 34, 35, 45, 46, 47, 48, 54, 60, 74, 94,
];

/// A length at a boundary, near one, or anywhere up to 1,500; `long` of 64 are of any length, and as many near 1,500.
pub fn length(r: &mut Random, long: usize) -> usize {
    let choice = r.below(64);
    if choice < long {
        return r.below(1501);
    }
    if choice < 2 * long {
        return 1500 - r.below(11);
    }
    if choice % 2 == 0 { r.below(61) } else { LENGTHS[r.below(LENGTHS.len())] }
}

fn put(s: &mut [u8], at: usize, b: u8) {
    if let Some(place) = s.get_mut(at) {
        *place = b;
    }
}

/// Octets that are random, zeros, or zeros from some place on.
pub fn octets(r: &mut Random, s: &mut Vec<u8>, n: usize) {
    s.clear();
    s.resize(n, 0);
    match r.below(6) {
        0 => {}
        1 => {
            let keep = r.below(n + 1);
            r.fill(&mut s[..keep]);
        }
        2 => {
            let at = r.below(n + 1);
            let b = r.octet();
            put(s, at, b);
        }
        _ => r.fill(s),
    }
}

/// A section that is mostly right, so that the later tests of a kind are reached.
pub fn section(r: &mut Random, s: &mut Vec<u8>, long: usize) {
    let n = length(r, long);
    octets(r, s, n);
    let kind = [1, 3, 4, 5, 6, 6, 4][r.below(7)];
    put(s, 0, kind | (r.octet() & 0x80));
    if kind == 4 && !r.one_in(8) {
        put(s, 1, 255);
    }
    match kind {
        4 | 5 => put(s, 3, r.number(Number::State) as u8),
        6 => put(s, 3, r.number(Number::Service) as u8),
        _ => {}
    }
    if kind == 5 {
        put(s, 6, r.number(Number::Request) as u8);
    }
    if (kind == 3 || kind == 4) && n >= 10 && !r.one_in(6) {
        let size = match r.below(4) {
            0 => r.below(n - 10 + 1),
            _ => (n - 10 + 2).saturating_sub(r.below(5)),
        };
        put(s, 8, size as u8);
        put(s, 9, (size >> 8) as u8);
    }
}

/// Random addresses and the EtherType, now and then another one.
pub fn header(r: &mut Random, f: &mut Vec<u8>) {
    f.clear();
    f.resize(14, 0);
    r.fill(f);
    f[12..].copy_from_slice(&[0x88, 0xAB]);
    if r.one_in(50) {
        f[12 + r.below(2)] ^= 1 << r.below(8);
    }
}

/// Damages, cuts or stretches a frame.
pub fn damage(r: &mut Random, f: &mut Vec<u8>) {
    match r.below(6) {
        0 | 1 => {
            for _ in 0..1 + r.below(3) {
                let n = f.len();
                if n > 0 {
                    let at = if r.one_in(2) { r.below(n) } else { r.below(n.min(30)) };
                    f[at] ^= 1 << r.below(8);
                }
            }
        }
        2 => {
            let at = r.below(f.len().min(30) + 1);
            let b = r.octet();
            put(f, at, b);
        }
        3 => f.truncate(r.below(f.len() + 1)),
        4 => {
            let cut = r.below(6);
            f.truncate(f.len().saturating_sub(cut));
        }
        _ => {
            for _ in 0..1 + r.below(24) {
                let b = if r.one_in(2) { 0 } else { r.octet() };
                f.push(b);
            }
        }
    }
}

/// The payload of a StatusResponse, with entries of every mode.
pub fn status(r: &mut Random, s: &mut Vec<u8>, long: usize) {
    let n = if r.one_in(3) { 14 + 20 * r.below(9) + r.below(3) } else { length(r, long) };
    octets(r, s, n);
    put(s, 0, r.octet());
    put(s, 1, r.octet());
    put(s, 2, r.number(Number::State) as u8);
    for at in (14..n).step_by(20) {
        if r.one_in(3) {
            continue;
        }
        let mode = r.one_of(&[0x10, 0x20, 0x30, 0x10, 0x20, 0x30, 0x30, 0x00]);
        put(s, at + 1, r.octet() & 0xCF | mode);
    }
}

/// A case of a writer; its target is around what it needs.
pub fn writer(r: &mut Random, case: &mut Case, call: usize, long: usize) {
    case.call = call;
    case.fill = r.octet();
    let shape = case.shape();
    for (i, number) in shape.numbers.iter().enumerate() {
        case.numbers[i] = r.number(*number);
    }
    for (s, shape) in case.bytes.iter_mut().zip(shape.bytes) {
        let n = match shape {
            Octets::Array(n) => *n,
            Octets::Slice => length(r, long),
            Octets::Entries if r.below(64) < long => 20 * r.below(75) + r.below(20),
            Octets::Entries => 20 * r.below(6) + r.below(40) % 20,
        };
        octets(r, s, n);
    }
    let needed = case.needed();
    case.target = match r.below(8) {
        0 => r.below(needed + 1),
        1 => needed + r.below(40),
        2 | 3 => needed,
        4 => needed - 1,
        _ => (needed + 4).saturating_sub(r.below(9)),
    };
}
