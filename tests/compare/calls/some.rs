//! Random inputs of every call.
use crate::Run;
use crate::case::*;
use crate::random::*;

/// Of 64 inputs, how many are of any length up to 1,500, and as many near 1,500.
const LONG: usize = 6;

pub fn reading(run: &mut Run, factor: u64, seed: u64) {
    let r = &mut Random(seed.wrapping_mul(2) | 1);
    let case = &mut Case::new(FRAME);
    let mut section_octets = Vec::new();
    for _ in 0..2_000_000 * factor {
        section(r, &mut section_octets, LONG);
        case.fill = r.octet();
        header(r, &mut case.bytes[0]);
        case.bytes[0].extend_from_slice(&section_octets);
        if r.one_in(8) {
            damage(r, &mut case.bytes[0]);
        }
        run.check(case);
    }
    // Each length, with nothing but the message type made right.
    for n in 0..=1500 {
        for _ in 0..200 * factor {
            header(r, &mut case.bytes[0]);
            octets(r, &mut section_octets, n);
            if n > 0 && !r.one_in(8) {
                section_octets[0] = r.number(Number::Message) as u8;
            }
            case.bytes[0].extend_from_slice(&section_octets);
            run.check(case);
        }
    }
    made_frames(run, r, case, 1_000_000 * factor);
    others(run, r, factor);
}

/// Frames that the Rust has made, whole, then damaged, cut or stretched.
fn made_frames(run: &mut Run, r: &mut Random, case: &mut Case, n: u64) {
    let make = &mut Case::new(NEW_SOC);
    for i in 0..n {
        writer(r, make, NEW_SOC + i as usize % 5, LONG);
        make.target = make.needed();
        if run.check(make) != Some(0) {
            continue;
        }
        case.fill = r.octet();
        case.bytes[0].clear();
        case.bytes[0].extend_from_slice(&run.expected.target[..make.target]);
        run.check(case);
        for _ in 0..1 + r.below(2) {
            damage(r, &mut case.bytes[0]);
        }
        run.check(case);
    }
}

fn others(run: &mut Run, r: &mut Random, factor: u64) {
    let [eth, pl, state, field, entry, step] = &mut [ETH, PL, STATUS, FIELD, ENTRY, STEP].map(Case::new);
    for _ in 0..1_000_000 * factor {
        state.fill = r.octet();
        status(r, &mut state.bytes[0], LONG);
        run.check(state);
    }
    for _ in 0..400_000 * factor {
        for (case, most) in [(&mut *eth, 24), (&mut *pl, 8), (&mut *field, 14), (&mut *entry, 32)] {
            case.fill = r.octet();
            let n = if r.one_in(20) { length(r, LONG) } else { r.below(most) };
            octets(r, &mut case.bytes[0], n);
            run.check(case);
        }
        status(r, &mut step.bytes[0], LONG);
        step.fill = r.octet();
        let n = step.bytes[0].len();
        step.numbers[0] = match r.below(8) {
            0 => r.next(),
            1 => u64::MAX - r.below(40) as u64,
            2 => (n + r.below(4)) as u64,
            3 => n.saturating_sub(r.below(24)) as u64,
            4 => 14 + 20 * r.below(n / 20 + 2) as u64,
            _ => r.below(n + 2) as u64,
        };
        run.check(step);
    }
}

pub fn writing(run: &mut Run, factor: u64, seed: u64) {
    let r = &mut Random(seed.wrapping_mul(2) ^ 0x5555_5555_0000_0001);
    let case = &mut Case::new(WRITE_SOC);
    for _ in 0..250_000 * factor {
        for call in WRITE_SOC..=NEW_ASND {
            writer(r, case, call, LONG);
            run.check(case);
        }
    }
}
