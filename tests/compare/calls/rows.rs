//! The rows of docs/DIFFERENCES.md, each on its smallest input and on the last one that it does not have.
use crate::Run;
use crate::case::*;
use crate::chain::{Part, part};
use crate::theirs::Row;
use powerlink_rs::PowerlinkError;
use powerlink_rs::frame::codec::CodecHelpers;
use powerlink_rs::frame::error::ErrorEntryMode;
use powerlink_rs::frame::{PRFlag, PowerlinkFrame, StatusResponsePayload, deserialize_frame};
use powerlink_rs::types::MessageType;

/// Compares a case, which meets the row or does not.
fn row(run: &mut Run, case: &Case, row: Row, met: bool) {
    let before = run.theirs.rows[row as usize];
    run.check(case);
    if (run.theirs.rows[row as usize] > before) != met {
        run.fail(format!("a row is {} on {}", if met { "not met" } else { "met" }, case.text()));
    }
}

fn writer(call: usize, payload: usize, target: usize) -> Case {
    let mut case = Case::new(call);
    // Zeros are codes of all but a service.
    for (i, number) in case.shape().numbers.iter().enumerate() {
        case.numbers[i] = (*number == Number::Service || *number == Number::Message).into();
    }
    if let Some(i) = case.shape().bytes.iter().position(|b| *b == Octets::Slice) {
        case.bytes[i].resize(payload, 1);
    }
    case.target = target;
    case
}

pub fn all(run: &mut Run) {
    let mut pl = Case::new(PL);
    let headers = [(&[][..], false), (&[0, 0], false), (&[0, 0, 0], true), (&[2, 0, 0], true), (&[0x81, 0, 0], false)];
    for (octets, met) in headers {
        pl.bytes[0] = octets.to_vec();
        row(run, &pl, Row::PlUnknown, met);
    }
    if CodecHelpers::deserialize_pl_header(&[0; 3]) != Err(PowerlinkError::InvalidEnumValue) {
        run.fail("deserialize_pl_header of 00 00 00 is not InvalidEnumValue".into());
    }

    for (call, fixed, payloads) in
        [(WRITE_SOC, 22, 0), (WRITE_SOA, 9, 0), (WRITE_PREQ, 10, 42), (WRITE_PRES, 10, 42), (WRITE_ASND, 4, 42)]
    {
        for payload in 0..=payloads {
            for target in 0..=60 {
                let met = (fixed + payload..46).contains(&target);
                row(run, &writer(call, payload, target), Row::RefusedWrote, met);
            }
        }
    }
    // A whole frame: the header goes first, so that a refused section leaves it.
    for call in NEW_SOC..=NEW_ASND {
        for target in 0..=70 {
            row(run, &writer(call, 0, target), Row::RefusedWrote, (14..60).contains(&target));
        }
    }
    for target in 0..=16 {
        row(run, &writer(WRITE_ETH, 0, target), Row::EthSilent, target < 14);
        row(run, &writer(WRITE_PL, 0, target), Row::PlSilent, target < 3);
    }
    for b in 0..=255u8 {
        let mut case = writer(WRITE_PL, 0, 3);
        case.numbers[0] = b.into();
        row(run, &case, Row::MessageOctet, MessageType::try_from(b).is_err());
        let mut case = writer(WRITE_ENTRY, 0, 20);
        case.numbers[2] = b.into();
        row(run, &case, Row::ModeAbove3, b > 3);
        let mut case = writer(WRITE_STATUS, 0, 70);
        case.bytes[1].resize(usize::from(b % 41), 1);
        row(run, &case, Row::EntryCut, b % 41 % 20 != 0);
        if b > 3 && ErrorEntryMode::try_from(b) != Err(PowerlinkError::InvalidEnumValue) {
            run.fail(format!("the Rust has a mode {b}"));
        }
        // PRFlag::try_from masks; so do our writers, which the C functions give an octet.
        if PRFlag::try_from(b).map(|p| p as u8) != Ok(b & 7) {
            run.fail(format!("PRFlag::try_from({b}) is not masked"));
        }
    }
    chains(run);
}

/// The two smallest frames on which the Rust's chain and the box's rule part.
fn chains(run: &mut Run) {
    for (octets, refused) in [(&[][..], true), (&[(19, 0x10)][..], false)] {
        let mut f = vec![0; 60];
        f[12..18].copy_from_slice(&[0x88, 0xAB, 6, 0, 0, 2]);
        for (at, b) in octets {
            f[14 + at] = *b;
        }
        let Ok(PowerlinkFrame::ASnd(asnd)) = deserialize_frame(&f) else {
            return run.fail("an ASnd is not read as one".into());
        };
        let chain = StatusResponsePayload::deserialize(&asnd.payload);
        let whole = StatusResponsePayload::deserialize(&f[18..]);
        let found = part(&chain, &whole, &f[14..], asnd.payload.len());
        if !matches!((found, refused), (Some(Part::Refused), true) | (Some(Part::Lost), false)) {
            run.fail(format!("the chain on {} gives {chain:?}", hex(&f)));
        }
    }
}
