//! A sample of cases with the Rust's answers, for a program that replays it without Rust. Numbers are low octet first.
//!
//! The file: 4 octets `PLC2`, then 4 with the number of records, then the records. A record:
//!
//! | at | octets | |
//! |---|---|---|
//! | 0 | 4, 4, 4, 4 | where A, B, C and E begin |
//! | 16 | 4 | where E ends: the length of the record |
//! | 20 | 4 | length of the target, 0 for calls that read |
//! | 24 | 1 | call, 1 to 22 (SHAPES in case.rs, in this order) |
//! | 25 | 1 | fill: what each octet of the target and of every out-parameter is before the call |
//! | 26 | 1 | cause |
//! | 27 | 1 | what `octet` is after the call: the fill, unless the cause is 4 to 7 |
//! | 28 | 1 | how many numbers go in, N, 0 to 10 |
//! | 29 | 1 | how many values come out, V, 0 to 16 |
//! | 30 | 8 N | the numbers, in the order of the C function's parameters; flags are 0 or 1 |
//! | 30 + 8 N | 8 V | the values |
//! | 30 + 8 N + 8 V | | A, then B, then C, then E |
//!
//! A, B, C are the arrays and slices that go in, in the order of the C function's parameters, empty where the call takes
//! fewer; E are the octets that come out. With a cause other than 0, V and E's length are 0: nothing has changed but `octet`.
//! With cause 0: of a call that writes, the one value is `written`, E are the first octets of the target, and the others are
//! the fill. Of one that reads, the values are those of the array `values`; for deserialize_eth_header E is the header, its
//! EtherType high octet first; for deserialize_status and deserialize_error_field E is the field; for entry_step E is `next`,
//! 8 octets, and at the end of the list V is 0.
use crate::case::*;
use crate::random::*;
use crate::theirs::Theirs;
use std::collections::BTreeMap;
use std::io::{self, Write};

/// How many random cases of one call with one cause, or of one kind of frame.
const EACH: usize = 60;
/// Records and targets are at most this long, so that the file stays small.
const MOST: usize = 4096;
/// Octets in front of the numbers.
const HEAD: usize = 30;

/// The values and the octets that come out.
fn came(case: &Case, out: &Out) -> (Vec<u64>, Vec<u8>) {
    let shape = case.shape();
    if out.cause != 0 {
        return Default::default();
    }
    match case.call {
        ETH => (vec![], [&out.octets[..12], &(out.values[0] as u16).to_be_bytes()[..]].concat()),
        STEP => {
            let next = out.values[8];
            (if next == 0 { vec![] } else { out.values[..8].to_vec() }, next.to_le_bytes().to_vec())
        }
        _ if shape.writes.is_some() => (vec![out.written as u64], out.target[..out.written].to_vec()),
        _ => (out.values[..shape.values].to_vec(), out.octets[..shape.octets].to_vec()),
    }
}

fn record(case: &Case, out: &Out) -> Vec<u8> {
    let shape = case.shape();
    let numbers = &case.numbers[..shape.numbers.len()];
    let (values, output) = came(case, out);
    let mut parts: [&[u8]; 4] = [&[], &[], &[], &output];
    for (part, octets) in parts.iter_mut().zip(&case.bytes[..shape.bytes.len()]) {
        *part = octets;
    }
    let mut r = Vec::new();
    let mut at = HEAD + 8 * (numbers.len() + values.len());
    let word = |r: &mut Vec<u8>, n: usize| r.extend(u32::try_from(n).unwrap().to_le_bytes());
    for part in parts {
        word(&mut r, at);
        at += part.len();
    }
    word(&mut r, at);
    word(&mut r, if shape.writes.is_some() { case.target } else { 0 });
    r.extend([case.call as u8, case.fill, out.cause, out.octet, numbers.len() as u8, values.len() as u8]);
    r.extend(numbers.iter().chain(&values).flat_map(|n| n.to_le_bytes()));
    r.extend(parts.concat());
    r
}

/// What the quota is counted by: the call, its cause, and the kind of frame or whether a step finds an entry.
fn key(case: &Case, out: &Out) -> (usize, u8, u64) {
    let more = match (case.call, out.cause) {
        (FRAME, 0) => out.values[0],
        (STEP, _) => (out.values[8] != 0).into(),
        _ => 0,
    };
    (case.call, out.cause, more)
}

fn make(r: &mut Random, case: &mut Case, call: usize, long: usize) {
    case.call = call;
    case.fill = r.octet();
    match call {
        FRAME => {
            let mut s = Vec::new();
            section(r, &mut s, long);
            header(r, &mut case.bytes[0]);
            case.bytes[0].extend_from_slice(&s);
            if r.one_in(8) {
                damage(r, &mut case.bytes[0]);
            }
        }
        STATUS | STEP => {
            status(r, &mut case.bytes[0], long);
            let n = case.bytes[0].len();
            case.numbers[0] = match r.below(4) {
                0 => 14 + 20 * r.below(n / 20 + 2) as u64,
                1 => r.number(Number::Offset),
                _ => r.below(n + 2) as u64,
            };
        }
        ETH | PL | FIELD | ENTRY => {
            let n = if r.one_in(8) { length(r, 0) } else { r.below(34) };
            octets(r, &mut case.bytes[0], n);
        }
        _ => writer(r, case, call, long),
    }
}

/// Adds a case with another fill than the last.
fn other(case: &mut Case, add: &mut impl FnMut(&Case)) {
    case.fill = case.fill.wrapping_mul(5).wrapping_add(0x35);
    add(case);
}

/// Cases at limits of what is read: every message type; every octet as a code and every length up to 60 of every kind of
/// frame; payloads that end with the section, one octet before and one behind; the trimmed sections.
fn read_limits(add: &mut impl FnMut(&Case)) {
    let mut case = Case::new(FRAME);
    let good = |kind: u8, len: usize| {
        let mut f = vec![1, 0x11, 0x1E, 0, 0, 3, 2, 4, 6, 8, 10, 12, 0x88, 0xAB];
        f.extend((0..len).map(|i| match (kind, i) {
            (_, 0) => kind,
            (4, 1) => 255,
            (4 | 5, 3) => 0x1D,
            (6, 3) => 2,
            (5, 6) => 3,
            (3 | 4, 8) => len.saturating_sub(11) as u8,
            (3 | 4, 9) => 0,
            _ => i as u8,
        }));
        f
    };
    for kind in [1, 3, 4, 5, 6] {
        for len in 0..=60 {
            case.bytes[0] = good(kind, len);
            other(&mut case, add);
        }
    }
    for (kind, len) in [3, 4].into_iter().flat_map(|kind| [10, 11, 45, 46, 47, 60, 1500].map(|len| (kind, len))) {
        for size in [len - 10, len - 9] {
            case.bytes[0] = good(kind, len);
            case.bytes[0][22..24].copy_from_slice(&(size as u16).to_le_bytes());
            other(&mut case, add);
        }
    }
    for b in 0..=255 {
        for (kind, len, at) in [(1, 1, 0), (4, 10, 3), (5, 9, 6), (6, 4, 3)] {
            case.bytes[0] = good(kind, len);
            case.bytes[0][14 + at] = b;
            other(&mut case, add);
        }
    }
    for len in [45, 46, 47] {
        for last in 3..len {
            case.bytes[0] = good(6, len);
            case.bytes[0][14 + last + 1..].fill(0);
            other(&mut case, add);
        }
    }
    part_limits(add);
}

/// Every length around what headers, error fields and entries need; every octet as the state of a StatusResponse; steps
/// from every offset around an entry, of every mode.
fn part_limits(add: &mut impl FnMut(&Case)) {
    for (call, least) in [(ETH, 14), (PL, 3), (STATUS, 14), (FIELD, 8), (ENTRY, 20)] {
        let mut case = Case::new(call);
        for len in 0..=least + 3 {
            case.bytes[0] = (0..len).map(|i| if i < 3 { [1, 255, 0x1D][i] } else { i as u8 }).collect();
            other(&mut case, add);
        }
    }
    let mut case = Case::new(STATUS);
    for b in 0..=255 {
        case.bytes[0] = [0x35, 0xFF, b].into_iter().chain(3..14).collect();
        other(&mut case, add);
    }
    let mut case = Case::new(STEP);
    for (len, mode) in [33, 34, 35, 54].into_iter().flat_map(|len| [0x00, 0x10, 0x20, 0x30].map(|mode| (len, mode))) {
        case.bytes[0] = (0..len).map(|i| if i % 20 == 15 { mode | 0xC5 } else { i as u8 }).collect();
        for offset in [0, 13, 14, 15, 34, 35, len as u64, len as u64 + 1, u64::MAX] {
            case.numbers[0] = offset;
            other(&mut case, add);
        }
    }
}

/// Cases at limits of what is written: each writer with payloads and targets around what it needs, and with every code.
fn write_limits(r: &mut Random, add: &mut impl FnMut(&Case)) {
    let mut case = Case::new(WRITE_SOC);
    for call in WRITE_SOC..=NEW_ASND {
        writer(r, &mut case, call, 0);
        let slice = case.shape().bytes.iter().position(|b| !matches!(b, Octets::Array(_)));
        for len in [0, 1, 19, 20, 36, 37, 42, 43, 80, 1490, 1500] {
            writer(r, &mut case, call, 0);
            for (i, number) in case.shape().numbers.iter().enumerate().filter(|(_, n)| !n.codes().is_empty()) {
                case.numbers[i] = r.one_of(number.codes()).into();
            }
            if let Some(i) = slice {
                case.bytes[i].resize(len, 0);
                r.fill(&mut case.bytes[i]);
            }
            let needed = case.needed();
            for target in [needed - 1, needed, needed + 1] {
                case.target = target;
                add(&case);
            }
        }
        for (i, _) in case.shape().numbers.iter().enumerate().filter(|(_, n)| !n.codes().is_empty()) {
            if let Some(slice) = slice {
                case.bytes[slice].clear();
            }
            case.target = case.needed();
            let before = case.numbers[i];
            for b in 0..=255 {
                case.numbers[i] = b;
                add(&case);
            }
            case.numbers[i] = before;
        }
    }
}

pub fn write(to: &mut impl Write) -> io::Result<()> {
    let r = &mut Random(0x00C0_FFEE_0DDB_A11D);
    let (mut theirs, mut out, mut case) = (Theirs::default(), Out::default(), Case::default());
    let mut held: BTreeMap<_, usize> = BTreeMap::new();
    let mut records = Vec::new();
    let mut answer = |case: &Case| {
        out.before(case);
        theirs.answer(case, &mut out).expect("an answer of the Rust that no row lists");
        (key(case, &out), record(case, &out))
    };
    read_limits(&mut |case| records.push(answer(case).1));
    write_limits(r, &mut |case| records.push(answer(case).1));
    for call in 1..=CALLS {
        for i in 0..40_000 {
            make(r, &mut case, call, usize::from(i % 8 == 0));
            let (key, octets) = answer(&case);
            let count = held.entry(key).or_default();
            if *count < EACH {
                *count += 1;
                records.push(octets);
            }
        }
    }
    for (shape, call) in SHAPES.iter().zip(1..) {
        for cause in shape.causes {
            assert!(held.keys().any(|(c, n, _)| (*c, n) == (call, cause)), "no case of {} with {cause}", shape.name);
        }
    }
    let target = |r: &Vec<u8>| u32::from_le_bytes(r[20..24].try_into().unwrap()) as usize;
    assert!(records.iter().all(|octets| octets.len() <= MOST && target(octets) <= MOST));
    records.sort_by_key(|octets| octets[24]);
    to.write_all(b"PLC2")?;
    to.write_all(&(records.len() as u32).to_le_bytes())?;
    for octets in records {
        to.write_all(&octets)?;
    }
    to.flush()
}
