//! Inputs of which every one is tried.
use crate::Run;
use crate::case::*;
use crate::random::Random;

/// Checks a case with another fill than the last. That there are 251 fills keeps them apart from octets that count up.
fn check(run: &mut Run, case: &mut Case) {
    case.fill = ((u16::from(case.fill) + 88) % 251) as u8;
    run.check(case);
}

const HEADER: [u8; 14] = [1, 0x11, 0x1E, 0, 0, 3, 2, 4, 6, 8, 10, 12, 0x88, 0xAB];

/// A frame with a section of `len` octets, which `octet` gives by their place.
fn frame(case: &mut Case, len: usize, octet: impl Fn(usize) -> u8) {
    let f = &mut case.bytes[0];
    f.clear();
    f.extend_from_slice(&HEADER);
    f.extend((0..len).map(octet));
}

/// A section of a kind that is read, with octets from `other` where they do not matter.
fn good(case: &mut Case, kind: u8, len: usize, other: u8) {
    frame(case, len, |i| match (kind, i) {
        (_, 0) => kind,
        (4, 1) => 255,
        (4 | 5, 3) => 0x1D,
        (6, 3) => 2,
        (5, 6) => 1,
        (3 | 4, 8 | 9) => 0,
        _ => other,
    });
}

pub fn reading(run: &mut Run) {
    let case = &mut Case::new(FRAME);
    sections(run, case);
    ether_types(run, case);
    kinds(run, case);
    sizes(run, case);
    trims(run, case);
    parts(run);
}

/// Every section of up to three octets, as a frame; as many octets for each other reader; and a step from every offset.
fn sections(run: &mut Run, case: &mut Case) {
    let mut alone = [PL, ETH, STATUS, FIELD, ENTRY, STEP].map(Case::new);
    for len in 0..=3 {
        frame(case, len, |_| 0);
        alone.iter_mut().for_each(|other| other.bytes[0].resize(len, 0));
        for n in 0..1u32 << (8 * len) {
            let octets = n.to_le_bytes();
            case.bytes[0][14..].copy_from_slice(&octets[..len]);
            check(run, case);
            for other in &mut alone {
                other.bytes[0].copy_from_slice(&octets[..len]);
                other.fill = case.fill;
                other.numbers[0] = u64::from(case.fill % 5);
                run.check(other);
            }
        }
    }
    let step = &mut Case::new(STEP);
    for (len, n) in (0..=2).flat_map(|len| (0..1u32 << (8 * len)).map(move |n| (len, n))) {
        step.bytes[0] = n.to_le_bytes()[..len].to_vec();
        for offset in [0, 1, 2, 3, 1 << 63, u64::MAX] {
            step.numbers[0] = offset;
            check(run, step);
        }
    }
}

/// Every EtherType, in front of nothing, of a message type that is none and of frames; every length of a header.
fn ether_types(run: &mut Run, case: &mut Case) {
    let eth = &mut Case::new(ETH);
    for ether_type in 0..=0xFFFFu16 {
        for (kind, len) in [(1, 0), (2, 1), (1, 22), (5, 46)] {
            good(case, kind, len, 7);
            case.bytes[0][12..14].copy_from_slice(&ether_type.to_be_bytes());
            check(run, case);
        }
        eth.bytes[0].clone_from(&case.bytes[0]);
        eth.bytes[0].truncate(14 + ether_type as usize % 20);
        check(run, eth);
    }
    for len in 0..=60 {
        for fill in [0, 0x5A, 0xFF] {
            eth.fill = fill;
            eth.bytes[0] = (0..len).map(|i| i as u8 * 3 + 1).collect();
            run.check(eth);
            case.fill = fill;
            case.bytes[0].clone_from(&eth.bytes[0]);
            run.check(case);
        }
    }
}

/// Every first octet and every octet of a code, with every length around its kind; every octet of flags.
fn kinds(run: &mut Run, case: &mut Case) {
    for (first, len, other) in product3(256, 61, &[0, 0xFF, 0x5B]) {
        good(case, first as u8, len, other);
        check(run, case);
        if len > 0 {
            case.bytes[0][14] = first as u8;
            check(run, case);
        }
    }
    for (a, b) in product(256, 256) {
        // SoA: state and requested service. PRes: destination and state, both octets of flags, state and flags.
        for (kind, len, at) in [(5, 9, [3, 6]), (4, 10, [1, 3]), (4, 10, [4, 5]), (4, 46, [3, 4]), (5, 46, [4, 8])] {
            good(case, kind, len, 0);
            case.bytes[0][14 + at[0]] = a as u8;
            case.bytes[0][14 + at[1]] = b as u8;
            check(run, case);
        }
    }
    for (a, len) in product(256, 61) {
        for (kind, at) in [(6, 3), (1, 4), (3, 4), (5, 3), (4, 3)] {
            good(case, kind, len, 0xC3);
            if at < len {
                case.bytes[0][14 + at] = a as u8;
            }
            check(run, case);
        }
    }
}

/// Every payload size, in sections of some lengths.
fn sizes(run: &mut Run, case: &mut Case) {
    for len in [10, 11, 46, 60, 266, 1500] {
        for kind in [3, 4] {
            good(case, kind, len, 0x5B);
            for size in 0..=0xFFFFu16 {
                case.bytes[0][22..24].copy_from_slice(&size.to_le_bytes());
                check(run, case);
            }
        }
    }
    for (kind, len) in product(2, 1501) {
        for short in 0..4 {
            good(case, 3 + kind as u8, len, 0x5B);
            if len >= 10 {
                let size = (len - 10 + 1).saturating_sub(short) as u16;
                case.bytes[0][22..24].copy_from_slice(&size.to_le_bytes());
            }
            check(run, case);
        }
    }
}

/// ASnd sections with each place as that of the last octet that is not zero.
fn trims(run: &mut Run, case: &mut Case) {
    for (len, last) in product(70, 70) {
        for b in [1, 0x80, 0xFF] {
            for before in [0, 0x33] {
                let whole = |i| if i < last { before } else { 0 };
                frame(case, len, |i| [6, 9, 8, 2].get(i).copied().unwrap_or(if i == last { b } else { whole(i) }));
                check(run, case);
            }
        }
    }
}

/// StatusResponses, error fields and entries: every octet of flags and codes, every type of an entry, every length.
fn parts(run: &mut Run) {
    let status = &mut Case::new(STATUS);
    for (a, b) in product(256, 256) {
        status.bytes[0] = [a as u8, b as u8, 0x1D].into_iter().chain(3..14).collect();
        check(run, status);
    }
    for (state, len) in product(256, 140) {
        status.bytes[0] = (0..len).map(|i| if i == 2 { state as u8 } else { 0x11 + i as u8 }).collect();
        check(run, status);
        for at in (14..len).step_by(20).filter(|at| at + 1 < len) {
            status.bytes[0][at + 1] = (state as u8) << 4;
        }
        check(run, status);
    }
    let [entry, field, step] = &mut [ENTRY, FIELD, STEP].map(Case::new);
    for n in 0..=0xFFFFu16 {
        entry.bytes[0] = n.to_le_bytes().into_iter().chain(2..20).collect();
        check(run, entry);
        step.bytes[0].clone_from(&entry.bytes[0]);
        step.numbers[0] = 0;
        check(run, step);
    }
    for (len, fill) in product(100, 256) {
        for case in [&mut *entry, &mut *field] {
            case.fill = fill as u8;
            case.bytes[0] = (0..len).map(|i| (i * 7 + fill) as u8).collect();
            run.check(case);
        }
    }
    for (len, offset) in product(140, 160) {
        step.bytes[0] = (0..len).map(|i| i as u8).collect();
        for offset in [offset as u64, u64::MAX - offset as u64, (1 << 63) - 80 + offset as u64] {
            step.numbers[0] = offset;
            check(run, step);
        }
    }
}

pub fn writing(run: &mut Run) {
    let r = &mut Random(0x1234_5678_9ABC_DEF1);
    for call in WRITE_SOC..=NEW_ASND {
        let case = &mut Case::new(call);
        some_values(r, case);
        targets(run, r, case);
        codes(run, r, case);
        long_payloads(run, r, case);
    }
    headers(run, r);
}

fn some_values(r: &mut Random, case: &mut Case) {
    case.fill = r.octet();
    for (i, number) in case.shape().numbers.iter().enumerate() {
        let codes = number.codes();
        case.numbers[i] = match codes {
            [] => r.next() & number.limit(),
            _ => r.one_of(codes).into(),
        };
    }
    for octets in &mut case.bytes {
        r.fill(octets);
    }
}

/// Sets the length of the slice that a call takes.
fn slice(r: &mut Random, case: &mut Case, len: usize) -> bool {
    let Some(i) = case.shape().bytes.iter().position(|b| !matches!(b, Octets::Array(_))) else {
        return false;
    };
    case.bytes[i].resize(len, 0);
    r.fill(&mut case.bytes[i]);
    true
}

/// Every payload of up to 110 octets with every target of up to 150.
fn targets(run: &mut Run, r: &mut Random, case: &mut Case) {
    for len in 0..=110 {
        let sliced = slice(r, case, len);
        for target in 0..=150 {
            case.target = target;
            some_values(r, case);
            check(run, case);
        }
        if !sliced && len > 9 {
            break;
        }
    }
    slice(r, case, 5);
}

/// Every code, flag and octet of a call alone, with targets that are long enough and too short; then every two of them,
/// and every number of two octets.
fn codes(run: &mut Run, r: &mut Random, case: &mut Case) {
    let numbers = case.shape().numbers;
    let small = |i: usize| numbers[i].limit() <= 255;
    for i in (0..numbers.len()).filter(|i| small(*i)) {
        for n in 0..=numbers[i].limit() {
            for short in [0, 1, 46] {
                some_values(r, case);
                case.numbers[i] = n;
                case.target = case.needed().saturating_sub(short);
                check(run, case);
            }
        }
        for j in (0..i).filter(|j| small(*j)) {
            some_values(r, case);
            case.target = case.needed();
            for (n, m) in product(numbers[i].limit() as usize + 1, numbers[j].limit() as usize + 1) {
                case.numbers[i] = n as u64;
                case.numbers[j] = m as u64;
                check(run, case);
            }
        }
    }
    for i in (0..numbers.len()).filter(|i| numbers[*i] == Number::Half) {
        some_values(r, case);
        case.target = case.needed() + 3;
        for n in 0..=0xFFFF {
            case.numbers[i] = n;
            check(run, case);
        }
    }
}

/// Payloads at the limits of 01's domain and of the payload size, targets around what they need.
fn long_payloads(run: &mut Run, r: &mut Random, case: &mut Case) {
    for len in (1480..=1500).chain(65526..=65546).chain([131072, 131073]) {
        if !slice(r, case, len) {
            return;
        }
        for target in 0..9 {
            case.target = case.needed() + 4 - target;
            check(run, case);
        }
    }
}

/// The header of a section: every type with every target around its length.
fn headers(run: &mut Run, r: &mut Random) {
    let pl = &mut Case::new(WRITE_PL);
    for (message_type, target) in product(256, 9) {
        for _ in 0..20 {
            some_values(r, pl);
            pl.numbers[0] = message_type as u64;
            pl.target = target;
            check(run, pl);
        }
    }
}

pub fn product(a: usize, b: usize) -> impl Iterator<Item = (usize, usize)> {
    (0..a).flat_map(move |i| (0..b).map(move |j| (i, j)))
}

fn product3(a: usize, b: usize, c: &[u8]) -> impl Iterator<Item = (usize, usize, u8)> + '_ {
    product(a, b).flat_map(move |(i, j)| c.iter().map(move |k| (i, j, *k)))
}
