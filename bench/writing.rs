//! Rows of writing. Both sides take the fields from the same frames of powerlink-rs and write to the same targets, which
//! are not cleared.
//! - section: theirs is `serialize` of a frame that is there.
//! - frame: with the Ethernet header; theirs writes a frame that is there, ours makes it in the call.
//! - new: theirs makes the frame with `new`, which wants the payload as a `Vec` of its own, and writes it.
use crate::inputs::{INPUTS, PAYLOADS, Random, Targets, many};
use crate::ours::*;
use crate::rows::{Group, Row, calls};
use plain::write_frame;
use powerlink_rs::frame::error::ErrorEntry;
use powerlink_rs::frame::{ASndFrame, PReqFrame, PResFrame, PowerlinkFrame, SoAFrame, SocFrame};
use powerlink_rs::frame::{StaticErrorBitField, StatusResponsePayload};
use std::cell::RefCell;
use std::hint::black_box;
use std::rc::Rc;

/// Our section writer of a kind.
fn our_section(frame: &PowerlinkFrame, target: &mut [u8], written: &mut usize) -> u8 {
    let (at, len, mut octet) = (target.as_mut_ptr(), target.len(), 0);
    match frame {
        PowerlinkFrame::Soc(f) => unsafe {
            let (time, to, from) = (f.net_time, f.destination.0, f.source.0);
            powerlink_serialize_soc(
                to,
                from,
                f.flags.mc,
                f.flags.ps,
                time.seconds,
                time.nanoseconds,
                f.relative_time.0,
                at,
                len,
                written,
            )
        },
        PowerlinkFrame::PReq(f) => unsafe {
            let (flags, to, from, p) = (&f.flags, f.destination.0, f.source.0, &f.payload);
            let (version, size) = (f.pdo_version.0, f.payload_size);
            powerlink_serialize_preq(
                to,
                from,
                flags.ms,
                flags.ea,
                flags.rd,
                version,
                size,
                p.as_ptr(),
                p.len(),
                at,
                len,
                written,
            )
        },
        PowerlinkFrame::PRes(f) => unsafe {
            let (flags, to, from, p) = (&f.flags, f.destination.0, f.source.0, &f.payload);
            let (version, size, pr, rs) = (f.pdo_version.0, f.payload_size, flags.pr as u8, flags.rs.get());
            powerlink_serialize_pres(
                to,
                from,
                f.nmt_state as u8,
                flags.ms,
                flags.en,
                flags.rd,
                pr,
                rs,
                version,
                size,
                p.as_ptr(),
                p.len(),
                at,
                len,
                written,
                &mut octet,
            )
        },
        PowerlinkFrame::SoA(f) => unsafe {
            let (to, from, service) = (f.destination.0, f.source.0, f.req_service_id as u8);
            powerlink_serialize_soa(
                to,
                from,
                f.nmt_state as u8,
                f.flags.ea,
                f.flags.er,
                service,
                f.target_node_id.0,
                f.epl_version.0,
                at,
                len,
                written,
                &mut octet,
            )
        },
        PowerlinkFrame::ASnd(f) => unsafe {
            let (to, from, p) = (f.destination.0, f.source.0, &f.payload);
            let service = f.service_id as u8;
            powerlink_serialize_asnd_v2(&DS301, to, from, service, p.as_ptr(), p.len(), at, len, written, &mut octet)
        },
    }
}

/// Our writer of whole frames of a kind.
fn our_frame(frame: &PowerlinkFrame, target: &mut [u8], written: &mut usize) -> u8 {
    let (at, len, mut octet) = (target.as_mut_ptr(), target.len(), 0);
    let header = frame.ethernet_header();
    let (mac, dest) = (&header.source_mac.0, &header.destination_mac.0);
    match frame {
        PowerlinkFrame::Soc(f) => unsafe {
            let time = f.net_time;
            powerlink_new_soc(
                mac,
                f.flags.mc,
                f.flags.ps,
                time.seconds,
                time.nanoseconds,
                f.relative_time.0,
                at,
                len,
                written,
            )
        },
        PowerlinkFrame::PReq(f) => unsafe {
            let (flags, to, p) = (&f.flags, f.destination.0, &f.payload);
            powerlink_new_preq(
                mac,
                dest,
                to,
                flags.ms,
                flags.ea,
                flags.rd,
                f.pdo_version.0,
                p.as_ptr(),
                p.len(),
                at,
                len,
                written,
            )
        },
        PowerlinkFrame::PRes(f) => unsafe {
            let (flags, from, p, version) = (&f.flags, f.source.0, &f.payload, f.pdo_version.0);
            let (pr, rs) = (flags.pr as u8, flags.rs.get());
            powerlink_new_pres(
                mac,
                from,
                f.nmt_state as u8,
                flags.ms,
                flags.en,
                flags.rd,
                pr,
                rs,
                version,
                p.as_ptr(),
                p.len(),
                at,
                len,
                written,
                &mut octet,
            )
        },
        PowerlinkFrame::SoA(f) => unsafe {
            let service = f.req_service_id as u8;
            powerlink_new_soa(
                mac,
                f.nmt_state as u8,
                f.flags.ea,
                f.flags.er,
                service,
                f.target_node_id.0,
                f.epl_version.0,
                at,
                len,
                written,
                &mut octet,
            )
        },
        PowerlinkFrame::ASnd(f) => unsafe {
            let (to, from, p) = (f.destination.0, f.source.0, &f.payload);
            powerlink_new_asnd_v2(
                &DS301,
                mac,
                dest,
                to,
                from,
                f.service_id as u8,
                p.as_ptr(),
                p.len(),
                at,
                len,
                written,
                &mut octet,
            )
        },
    }
}

/// Theirs, from `new` on.
fn their_new(frame: &PowerlinkFrame) -> PowerlinkFrame {
    let header = frame.ethernet_header();
    let (mac, dest) = (header.source_mac, header.destination_mac);
    match frame {
        PowerlinkFrame::Soc(f) => PowerlinkFrame::Soc(SocFrame::new(mac, f.flags, f.net_time, f.relative_time)),
        PowerlinkFrame::PReq(f) => PowerlinkFrame::PReq(PReqFrame::new(
            mac,
            dest,
            f.destination,
            f.flags,
            f.pdo_version,
            f.payload[..].to_vec(),
        )),
        PowerlinkFrame::PRes(f) => PowerlinkFrame::PRes(PResFrame::new(
            mac,
            f.source,
            f.nmt_state,
            f.flags,
            f.pdo_version,
            f.payload[..].to_vec(),
        )),
        PowerlinkFrame::SoA(f) => PowerlinkFrame::SoA(SoAFrame::new(
            mac,
            f.nmt_state,
            f.flags,
            f.req_service_id,
            f.target_node_id,
            f.epl_version,
        )),
        PowerlinkFrame::ASnd(f) => PowerlinkFrame::ASnd(ASndFrame::new(
            mac,
            dest,
            f.destination,
            f.source,
            f.service_id,
            f.payload[..].to_vec(),
        )),
    }
}

/// `ours` and `theirs` are compiled into the row's loops, so that neither is called through a pointer.
fn row<T: 'static>(
    name: String,
    inputs: Vec<T>,
    mut ours: impl FnMut(&T, &mut [u8], &mut usize) -> u8 + 'static,
    theirs: impl Fn(&T, &mut [u8]) -> Option<usize> + 'static,
) -> Row {
    for input in &inputs {
        let (mut a, mut b, mut n) = ([0xFC; Targets::LEN], [0xFC; Targets::LEN], 0);
        assert_eq!(ours(input, &mut a, &mut n), 0);
        assert_eq!(theirs(input, &mut b), Some(n));
        assert_eq!(a, b, "{name}");
    }
    // Both sides use the same places in memory.
    let (inputs, targets) = (Rc::new(inputs), Rc::new(RefCell::new(Targets::new())));
    let (their_inputs, their_targets) = (inputs.clone(), targets.clone());
    let mut written = 0;
    let ours = calls(move || {
        let mut targets = targets.borrow_mut();
        for inputs in inputs.chunks(Targets::COUNT) {
            for (input, target) in inputs.iter().zip(targets.each()) {
                black_box(ours(black_box(input), target, &mut written));
                black_box(target.as_mut_ptr());
            }
        }
    });
    let theirs = calls(move || {
        let mut targets = their_targets.borrow_mut();
        for inputs in their_inputs.chunks(Targets::COUNT) {
            for (input, target) in inputs.iter().zip(targets.each()) {
                black_box(theirs(black_box(input), target));
                black_box(target.as_mut_ptr());
            }
        }
    });
    Row::new(Group::Write, name, INPUTS, ours, theirs)
}

fn field_octets(field: &StaticErrorBitField) -> [u8; 8] {
    let mut octets = [field.error_register; 8];
    octets[1..].copy_from_slice(&field.specific_errors);
    octets
}

fn our_status(status: &StatusResponsePayload, entries: &[u8], target: &mut [u8], written: &mut usize) -> u8 {
    let (field, mut octet) = (field_octets(&status.static_error_bit_field), 0);
    let (pr, rs, state) = (status.pr as u8, status.rs.get(), status.nmt_state as u8);
    unsafe {
        powerlink_serialize_status(
            status.en_flag,
            status.ec_flag,
            pr,
            rs,
            state,
            &field,
            entries.as_ptr(),
            entries.len(),
            target.as_mut_ptr(),
            target.len(),
            written,
            &mut octet,
        )
    }
}

fn our_entry(e: &ErrorEntry, target: &mut [u8], written: &mut usize) -> u8 {
    let (kind, time) = (e.entry_type, e.timestamp);
    unsafe {
        powerlink_serialize_entry(
            kind.is_status_entry,
            kind.send_to_queue,
            kind.mode as u8,
            kind.profile,
            e.error_code,
            time.seconds,
            time.nanoseconds,
            e.additional_information,
            target.as_mut_ptr(),
            target.len(),
            written,
        )
    }
}

/// Entries from their fields: our writer of one entry, then the writer of the payload, which copies the octets.
fn our_status_from_fields(
    status: &StatusResponsePayload,
    octets: &mut [u8],
    target: &mut [u8],
    written: &mut usize,
) -> u8 {
    let mut n = 0;
    for e in &status.error_entries {
        n += 20;
        if our_entry(e, &mut octets[n - 20..n], written) != 0 {
            return 1;
        }
    }
    our_status(status, &octets[..n], target, written)
}

fn status_rows(random: &mut Random, rows: &mut Vec<Row>) {
    for n in [0, 4, 60] {
        // A payload, and the octets of its entries.
        let inputs: Vec<(StatusResponsePayload, Vec<u8>)> = many(|| {
            let status = random.status(n);
            let mut octets = vec![0; 34 + 20 * n];
            status.serialize(&mut octets).expect("it fits");
            (status, octets[14..14 + 20 * n].to_vec())
        });
        let statuses = inputs.iter().map(|(s, _)| s.clone()).collect();
        rows.push(row(
            format!("write StatusResponse, entries {n}, lent as octets"),
            inputs,
            |(status, entries), target, written| our_status(status, entries, target, written),
            |(status, _), target| status.serialize(target).ok(),
        ));
        if n > 0 {
            let mut octets = vec![0; 20 * n];
            rows.push(row(
                format!("write StatusResponse, entries {n}, from fields"),
                statuses,
                move |status, target, written| our_status_from_fields(status, &mut octets, target, written),
                |status, target| status.serialize(target).ok(),
            ));
        }
    }
}

pub fn rows(random: &mut Random, rows: &mut Vec<Row>) {
    let mut kinds: Vec<(String, Vec<PowerlinkFrame>)> = vec![
        ("SoC".into(), many(|| PowerlinkFrame::Soc(random.soc()))),
        ("SoA".into(), many(|| PowerlinkFrame::SoA(random.soa()))),
    ];
    for n in PAYLOADS {
        kinds.push((format!("PReq, payload {n}"), many(|| PowerlinkFrame::PReq(random.preq(n)))));
    }
    for n in PAYLOADS {
        kinds.push((format!("PRes, payload {n}"), many(|| PowerlinkFrame::PRes(random.pres(n)))));
    }
    for n in PAYLOADS {
        kinds.push((format!("ASnd, payload {n}"), many(|| PowerlinkFrame::ASnd(random.asnd(n)))));
    }
    for (name, frames) in &kinds {
        rows.push(row(format!("write section {name}"), frames.clone(), our_section, |f, target| {
            f.serialize(target).ok()
        }));
    }
    for (name, frames) in &kinds {
        rows.push(row(format!("write frame {name}"), frames.clone(), our_frame, |f, target| {
            write_frame(f, target).ok()
        }));
    }
    for (name, frames) in &kinds {
        rows.push(row(format!("new, write frame {name}"), frames.clone(), our_frame, |f, target| {
            write_frame(&their_new(f), target).ok()
        }));
    }
    status_rows(random, rows);
}
