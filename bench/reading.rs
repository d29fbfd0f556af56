//! Rows of reading. What is read is consumed as a caller would: the fields and the payload, every entry of a StatusResponse.
use crate::inputs::{INPUTS, PAYLOADS, Random, many};
use crate::ours::*;
use crate::rows::{Group, Row, calls};
use plain::write_frame;
use powerlink_rs::PowerlinkError;
use powerlink_rs::frame::{PowerlinkFrame, StatusResponsePayload, deserialize_frame};
use std::hint::black_box;
use std::rc::Rc;

fn octets_of(frame: PowerlinkFrame) -> Vec<u8> {
    let mut target = vec![0; 1600];
    let n = write_frame(&frame, &mut target).expect("the frame fits");
    target.truncate(n);
    target.into_boxed_slice().into_vec()
}

/// 01's number of the cause of a refusal.
pub fn cause(error: PowerlinkError) -> u8 {
    match error {
        PowerlinkError::BufferTooShort => 1,
        PowerlinkError::InvalidEthernetFrame => 2,
        PowerlinkError::InvalidPlFrame => 3,
        PowerlinkError::InvalidMessageType(_) => 4,
        PowerlinkError::InvalidNmtState(_) => 5,
        PowerlinkError::InvalidServiceId(_) => 6,
        PowerlinkError::InvalidRequestedServiceId(_) => 7,
        other => panic!("{other:?}"),
    }
}

/// Both sides give the same cause, and the same payload.
fn agree(frames: &[Vec<u8>]) {
    for frame in frames {
        let (mut values, mut octet) = ([0; 16], 0);
        let ours =
            unsafe { powerlink_deserialize_frame_v2(&DS301, frame.as_ptr(), frame.len(), &mut values, &mut octet) };
        let (theirs, payload) = match deserialize_frame(frame) {
            Err(e) => (cause(e), Vec::new()),
            Ok(PowerlinkFrame::PReq(f)) => (0, f.payload),
            Ok(PowerlinkFrame::PRes(f)) => (0, f.payload),
            Ok(PowerlinkFrame::ASnd(f)) => (0, f.payload),
            Ok(_) => (0, Vec::new()),
        };
        assert_eq!(ours, theirs);
        assert_eq!(payload, frame[values[3] as usize..][..values[4] as usize]);
    }
}

fn read_row(group: Group, name: String, frames: Vec<Vec<u8>>) -> Row {
    agree(&frames);
    let has_payload = name.contains("payload");
    // Both sides read the same places in memory.
    let frames = Rc::new(frames);
    let mine = frames.clone();
    // One place for values per input, for the reason that writing has several targets.
    let (mut places, mut octet) = (vec![[0; 16]; INPUTS], 0);
    let ours = calls(move || {
        for (frame, values) in mine.iter().zip(&mut places) {
            let frame = black_box(&frame[..]);
            let cause = unsafe { powerlink_deserialize_frame_v2(&DS301, frame.as_ptr(), frame.len(), values, &mut octet) };
            black_box(cause);
            if has_payload && cause == 0 {
                black_box(frame.get(values[3] as usize..(values[3] + values[4]) as usize));
            }
        }
    });
    let theirs = calls(move || {
        for frame in frames.iter() {
            black_box(&deserialize_frame(black_box(&frame[..])));
        }
    });
    Row::new(group, name, INPUTS, ours, theirs)
}

fn status_row(random: &mut Random, entries: usize) -> Row {
    let payloads = many(|| {
        let mut octets = vec![0; 34 + 20 * entries];
        random.status(entries).serialize(&mut octets).expect("it fits");
        octets
    });
    let payloads = Rc::new(payloads);
    let mine = payloads.clone();
    let mut list = vec![[0; 8]; 64];
    let (mut values, mut field, mut octet) = ([0; 5], [0; 8], 0);
    // Entries are kept in a list, as theirs are.
    let mut read = move |payload: &[u8]| {
        let cause = unsafe {
            powerlink_deserialize_status(payload.as_ptr(), payload.len(), &mut values, &mut field, &mut octet)
        };
        black_box(cause);
        let (mut n, mut at) = (0, 14);
        while n < list.len() {
            let mut next = 0;
            unsafe { powerlink_entry_step(payload.as_ptr(), payload.len(), at, &mut list[n], &mut next) };
            if next == 0 {
                break;
            }
            (n, at) = (n + 1, next);
        }
        black_box(&list[..n]).len()
    };
    for payload in payloads.iter() {
        assert_eq!(read(payload), entries);
        assert_eq!(StatusResponsePayload::deserialize(payload).expect("it can be read").error_entries.len(), entries);
    }
    let ours = calls(move || {
        for payload in mine.iter() {
            read(black_box(&payload[..]));
        }
    });
    let theirs = calls(move || {
        for payload in payloads.iter() {
            black_box(&StatusResponsePayload::deserialize(black_box(&payload[..])));
        }
    });
    Row::new(Group::Read, format!("read StatusResponse, entries {entries}"), INPUTS, ours, theirs)
}

/// Frames that are refused: one octet is wrong, or the end is missing.
fn refusals(random: &mut Random, rows: &mut Vec<Row>) {
    let mut refuse = |name: &str, frame: &mut dyn FnMut() -> Vec<u8>| {
        let frames = many(frame);
        assert!(frames.iter().all(|f| deserialize_frame(f).is_err()));
        rows.push(read_row(Group::Refuse, format!("refuse {name}"), frames));
    };
    let set = |mut frame: Vec<u8>, at: usize, octet: u8| {
        frame[at] = octet;
        frame
    };
    let cut = |mut frame: Vec<u8>, n: usize| {
        frame.truncate(n);
        frame.into_boxed_slice().into_vec()
    };
    refuse("13 octets", &mut || cut(octets_of(PowerlinkFrame::Soc(random.soc())), 13));
    refuse("a SoC that is cut", &mut || cut(octets_of(PowerlinkFrame::Soc(random.soc())), 35));
    refuse("a PReq that is cut", &mut || cut(octets_of(PowerlinkFrame::PReq(random.preq(256))), 200));
    refuse("EtherType", &mut || set(octets_of(PowerlinkFrame::PReq(random.preq(36))), 12, 8));
    refuse("message type", &mut || set(octets_of(PowerlinkFrame::PReq(random.preq(36))), 14, 7));
    refuse("PRes, state", &mut || set(octets_of(PowerlinkFrame::PRes(random.pres(36))), 17, 0xFF));
    refuse("SoA, state", &mut || set(octets_of(PowerlinkFrame::SoA(random.soa())), 17, 0xFF));
    refuse("SoA, requested service", &mut || set(octets_of(PowerlinkFrame::SoA(random.soa())), 20, 9));
    refuse("ASnd, service", &mut || set(octets_of(PowerlinkFrame::ASnd(random.asnd(36))), 17, 0x20));
}

pub fn rows(random: &mut Random, rows: &mut Vec<Row>) {
    let mut read = |name: String, frame: &mut dyn FnMut() -> PowerlinkFrame| {
        rows.push(read_row(Group::Read, format!("read {name}"), many(|| octets_of(frame()))));
    };
    read("SoC".into(), &mut || PowerlinkFrame::Soc(random.soc()));
    read("SoA".into(), &mut || PowerlinkFrame::SoA(random.soa()));
    for n in PAYLOADS {
        read(format!("PReq, payload {n}"), &mut || PowerlinkFrame::PReq(random.preq(n)));
    }
    for n in PAYLOADS {
        read(format!("PRes, payload {n}"), &mut || PowerlinkFrame::PRes(random.pres(n)));
    }
    for n in PAYLOADS {
        read(format!("ASnd, payload {n}"), &mut || PowerlinkFrame::ASnd(random.asnd(n)));
    }
    for n in [0, 4, 60] {
        rows.push(status_row(random, n));
    }
    refusals(random, rows);
}
